r"""The cases of tests/cases/*.txt, and texts as they are wanted.

In a file of cases an empty line stands behind each case. The marks before its lines are

    #         a remark
    @ NAME    a file that lies where the command lines of all cases run, with the '<' lines of this
              case
    $ WORDS   a command line; several of a case have the same input, and end the same; a plain
              replay has one with --over-gates beside it
    < LINE    a line of standard input
    << TEXT   a part of it that isn't a whole line: \n, \t, \r, \\ and \xff stand for one byte each
    <* N TEXT such a part, so many times
    <| LINE   one of several lines, of which each stands here once, for a run of its own
    > LINE    a line of standard output
    ! LINE    a line of standard error
    >~ LINE   a pattern of a line of standard output, and !~ of standard error: '#' stands for a
              number, '*' at the end for the rest of the line, and '...' alone for all lines
              that follow
    = STATUS  the exit status, where it isn't 0

How '<' and '>' lines stand among each other makes no difference. In schedules a '>' line stands
behind the line that prints it."""

import codecs
import difflib
import glob
import os
import re
from typing import NamedTuple

ROOT = os.path.dirname(os.path.dirname(os.path.dirname(os.path.realpath(__file__))))


# A plain replay, and the same over the gates of threads: the program calls `replay_gates` for it.
PLAIN, OVER_GATES = "mntgate replay", "mntgate replay --over-gates"


class Unreadable(Exception):
    """A case that can't be read."""


class Wanted(NamedTuple):
    """What a text should be: as it is shown, and as the expression that it has to match."""

    shown: str
    expression: bytes

    def fits(self, text):
        """Whether this is such a text."""
        return re.fullmatch(self.expression, text) is not None


def changes(wanted, came):
    """The lines that differ, and some beside them."""
    came = came.decode("utf-8", "backslashreplace").splitlines(keepends=True)
    lines = difflib.unified_diff(wanted.splitlines(keepends=True), came, "wanted", "came")
    return [
        line if line.endswith("\n") else f"{line}\n\\ no newline at the end\n" for line in lines
    ]


def exactly(text):
    """This text alone."""
    return Wanted(text, re.escape(text.encode()))


def expression_of(pattern):
    """That of the lines for which this pattern stands."""
    if pattern == "...":
        return rb"(?:.*\n)*"
    start, end = (pattern[:-1], rb".*\n") if pattern.endswith("*") else (pattern, rb"\n")
    return rb"[0-9]+".join(re.escape(part.encode()) for part in start.split("#")) + end


def wanted_of(lines):
    """That of these lines, each with whether it is a pattern."""
    parts = [
        expression_of(line) if is_pattern else re.escape(f"{line}\n".encode())
        for line, is_pattern in lines
    ]
    return Wanted("".join(f"{line}\n" for line, _ in lines), b"".join(parts))


NOTHING = exactly("")
ANYTHING = wanted_of([("...", True)])


class Case(NamedTuple):
    """A case: where it stands, the file that it is, or its command lines; what is on standard
    input, one after the other; and how each ends."""

    place: str
    names: list
    words: list
    inputs: list
    status: int
    printed: Wanted
    told: Wanted


def bytes_of(text):
    """The bytes for which a text with escapes stands."""
    return codecs.escape_decode(text.encode())[0]


def parts_of(place, lines):
    """The lines of a case, each by its mark and its text."""
    for line in lines:
        read = re.fullmatch(r"([#@$=]|<[<*|]?|[>!]~?)(?: (.*))?", line)
        if read is None:
            raise Unreadable(f"{place}: no line of a case: {line}")
        if read[1] != "#":
            yield read[1], read[2] or ""


def part_of(mark, text):
    """The bytes of standard input for which a line of a case stands."""
    if mark == "<*":
        times, _, text = text.partition(" ")
        return bytes_of(text) * int(times)
    return bytes_of(text) if mark == "<<" else f"{text}\n".encode()


def inputs_of(parts):
    """What is on standard input: once for each of the lines of which one stands there at a time."""
    before, choices, after = b"", [], b""
    for mark, text in parts:
        if mark == "<|":
            choices.append(part_of(mark, text))
        elif mark.startswith("<") and choices:
            after += part_of(mark, text)
        elif mark.startswith("<"):
            before += part_of(mark, text)
    return [before + choice + after for choice in choices or [b""]]


def read_case(place, lines):
    """The case of these lines; None where they are remarks."""
    parts = list(parts_of(place, lines))
    statuses = [int(text) for mark, text in parts if mark == "="]
    names, words = ([text for mark, text in parts if mark == wanted] for wanted in "@$")
    if parts and (len(names) + bool(words) != 1 or len(statuses) > 1):
        raise Unreadable(
            f"{place}: a case has command lines and one status at most, or is one file"
        )
    if PLAIN in words and OVER_GATES not in words:
        raise Unreadable(
            f"{place}: a plain replay is done over the gates of threads, too: no contract says that"
            " this prints the same"
        )
    printed, told = (
        wanted_of([(text, mark[1:] == "~") for mark, text in parts if mark[0] == wanted])
        for wanted in ">!"
    )
    return (
        Case(place, names, words, inputs_of(parts), sum(statuses), printed, told) if parts else None
    )


def read_cases():
    """All cases of all files."""
    cases = []
    for path in sorted(glob.glob(f"{ROOT}/tests/cases/*.txt")):
        with open(path, encoding="utf-8") as file:
            lines = f"{file.read()}\n".split("\n")
        ends = [number for number, line in enumerate(lines) if not line]
        for begin, end in zip([0, *(end + 1 for end in ends)], ends):
            cases.append(read_case(f"{os.path.relpath(path, ROOT)}:{begin + 1}", lines[begin:end]))
    if not any(cases):
        raise Unreadable("tests/cases: there are no cases")
    return [case for case in cases if case]


def write_files(cases, folder):
    """Writes the files of the cases."""
    for case in cases:
        for name in case.names:
            with open(f"{folder}/{name}", "wb") as file:
                file.write(case.inputs[0])
