#!/usr/bin/env -S python3 -B
"""Tests the program as it was built, from outside: that each command line of tests/cases/*.txt ends
as it says there, and, by the code below, what a text can't say: reads and writes that fail or are
small, what is answered to whom, the forms of the language, and random schedules. How a case is
written stands at the head of tests/program/cases.py.

    tests/test_program.py [PROGRAM..]

With no argument it tests crates/mntgate/out/mntgate and, where it is there, mntgate.by-rattle
beside it: the same program as two compilers make it. For each it prints how many command lines
ended as they should, or which ended otherwise, with what was wanted and what came. The exit status
is 0 where all ended as they should, else 1."""

import concurrent.futures
import glob
import itertools
import os
import sys
import tempfile
from functools import partial
from typing import Callable, NamedTuple

from program.cases import (
    ANYTHING,
    NOTHING,
    ROOT,
    Unreadable,
    Wanted,
    changes,
    exactly,
    read_cases,
    wanted_of,
    write_files,
)
from program.files import checks_of_files
from program.runs import Ended, Program, built_programs
from program.stories import REACHED, random_schedule

# How many of those that ended otherwise are printed.
SHOWN = 10
# How many random schedules there are.
SCHEDULES = 200
OVER = (["replay"], ["replay", "--over-gates"])


class Check(NamedTuple):
    """A command line, by a name for a person, what runs it, and how it should end."""

    name: str
    run: Callable[[Program], Ended]
    status: int
    printed: Wanted
    told: Wanted

    def difference(self, program):
        """How it ends otherwise; nothing where it ends as it should."""
        ended = self.run(program)
        lines = (
            []
            if ended.status == self.status
            else [f"the exit status {self.status} was wanted, and {ended.status} came\n"]
        )
        for what, wanted, came in (
            ("standard output", self.printed, ended.printed),
            ("standard error", self.told, ended.told),
        ):
            if not wanted.fits(came):
                lines += [f"{what}:\n", *changes(wanted.shown, came)]
        return "".join(lines)


def as_wanted(text):
    """A text as it is wanted: it alone, unless it is a pattern."""
    return exactly(text) if isinstance(text, str) else text


def check_of(run, words, how, ends, **given):
    """That a command line of these words, run in a way for which there are words too, ends with
    this status, prints this and tells this."""
    status, printed, told = ends
    name = " ".join(["mntgate", *map(str, words)])
    return Check(
        f"{name}: {how}",
        partial(run, words=words, **given),
        status,
        as_wanted(printed),
        as_wanted(told),
    )


def checks_of_cases(cases):
    """Each command line of each case, over each of its inputs."""
    for case in cases:
        for line in case.words:
            for number, given in enumerate(case.inputs, 1):
                how = (
                    case.place
                    if len(case.inputs) == 1
                    else f"{case.place}, its line {number} of {len(case.inputs)}"
                )
                yield check_of(
                    Program.run,
                    line.split(" ")[1:],
                    how,
                    (case.status, case.printed, case.told),
                    given=given,
                )


def checks_of_examples():
    """A check of all examples, schedules, races and histories: each prints what it says that it
    prints."""
    files = sorted(glob.glob(f"{ROOT}/examples/*.schedule")) + sorted(
        glob.glob(f"{ROOT}/examples/races/**/*.race", recursive=True)
    )
    files += sorted(glob.glob(f"{ROOT}/examples/histories/*.history"))
    yield check_of(
        Program.run, ["check", *files], "all examples", (0, f"{len(files)} passed, 0 failed\n", "")
    )


# Lines of a schedule, each with what it prints.
LINES = [
    ("config 2 1 1 2 8\n", ""),
    ("0 want 0 0\n", ""),
    ("0 run\n", "0 ok\n"),
    ("1 change 0 ro\n", ""),
    ("1 run\n", "1 refused 16 Busy\n"),
    ("words\n", "mount0.cpu0 1\n"),
    ("1 want 0 0\n", ""),
    ("1 run\n", "1 ok\n"),
]
SCHEDULE = "".join(line for line, _ in LINES).encode()
TEXT = "".join(text for _, text in LINES)
# A schedule whose lines print 50 bytes each. With the first 1,311 a block of 65,536 bytes is full,
# and is written at the line behind them, which is line 1,312 of the schedule; with as many more the
# next one is, at line 2,623.
MODELS = b"config 1 1 1 2 8\n" + b"model\n" * 3000
MODELS_TEXT = "model stage 0 passed 0 sb rw\nnode 0 dir 0 0 clean\n" * 3000
WRITTEN_AT = (
    (65549, 1312),
    (65550, 2623),
    (70000, 2623),
    (131099, 2623),
    (131100, 3002),
    (149999, 3002),
)


def pieces_of(given, size):
    """These bytes in pieces of so many."""
    return [given[begin : begin + size] for begin in range(0, len(given), size)]


def checks_of_reads():
    """Reads of a few bytes; one that fails or is interrupted behind each number of bytes, where the
    lines that were read whole are done; one of a folder; and lines that come one by one, each when
    the one before is answered."""
    for words in OVER:
        for size in (1, 2, 7, 64):
            yield check_of(
                Program.run_in_pieces,
                words,
                f"{size} bytes a read",
                (0, TEXT, ""),
                pieces=pieces_of(SCHEDULE, size),
            )
        for size in range(len(SCHEDULE) + 1):
            given, whole = SCHEDULE[:size], SCHEDULE[:size].count(b"\n")
            ends = 1, "".join(text for _, text in LINES[:whole]), f"line {whole + 1}: read failed\n"
            yield check_of(
                Program.run_cut, words, f"a read fails behind {size} bytes", ends, given=given
            )
            yield check_of(
                Program.run_interrupted,
                words,
                f"a read is interrupted behind {size} bytes",
                ends,
                given=given,
            )
        for flags, told in (
            ([], "line 1: read failed\n"),
            (["--explain"], "<stdin>:1: error: read failed\n"),
        ):
            yield check_of(
                Program.run_over_folder, [*words, *flags], "a folder is read", (1, "", told)
            )
        yield check_of(Program.run_answering, words, "line by line", (0, TEXT, ""), lines=LINES)


def line_behind(count):
    """The line behind the first one with which the schedule prints more than so many bytes."""
    sizes = itertools.accumulate(len(text) for _, text in LINES)
    return next(number + 1 for number, size in enumerate(sizes, 1) if size > count)


def checks_of_limits(words):
    """A write that fails behind each number of bytes: at the end, where the schedule is read as one
    piece, and behind the line that prints them, where it is read byte by byte, as all that was
    printed is written before more is read."""
    for limit in range(len(TEXT)):
        how, by_bytes = f"a write fails behind {limit} bytes", pieces_of(SCHEDULE, 1)
        ends = 1, TEXT[:limit], f"line {len(LINES) + 1}: write failed\n"
        yield check_of(Program.run_in_pieces, words, how, ends, pieces=[SCHEDULE], limit=limit)
        ends = 1, TEXT[:limit], f"line {line_behind(limit)}: write failed\n"
        yield check_of(
            Program.run_in_pieces,
            words,
            f"byte by byte, {how}",
            ends,
            pieces=by_bytes,
            limit=limit,
        )
    yield check_of(
        Program.run_in_pieces,
        words,
        "all is written that may be",
        (0, TEXT, ""),
        pieces=[SCHEDULE],
        limit=len(TEXT),
    )


def checks_of_writes():
    """Writes that fail behind each number of bytes. And writes of blocks that fail, end short or
    are interrupted."""
    for words in OVER:
        yield from checks_of_limits(words)
        for limit, line in WRITTEN_AT:
            ends = 1, MODELS_TEXT[:limit], f"line {line}: write failed\n"
            yield check_of(
                Program.run_in_pieces,
                words,
                f"a write fails behind {limit} bytes",
                ends,
                pieces=[MODELS],
                limit=limit,
            )
        yield check_of(
            Program.run_stopped, words, "writes end short", (0, MODELS_TEXT, ""), given=MODELS
        )
        yield check_of(
            Program.run_held_up,
            words,
            "a write is interrupted",
            (1, "", "line 1312: write failed\n"),
            given=MODELS,
        )


# Command lines whose output can't be written, each with its input, and with what is told.
FULL = [
    (["replay"], SCHEDULE, "line 9: write failed\n"),
    (["replay", "--explain", "--over-gates"], SCHEDULE, "<stdin>:9: error: write failed\n"),
    (["replay", "--events"], SCHEDULE, "line 9: write failed\n"),
    (["replay", "--columns"], SCHEDULE, "line 9: write failed\n"),
    (["replay", "--json", "--over-gates"], SCHEDULE, "line 9: write failed\n"),
    (["replay", "--html"], SCHEDULE, "line 1: write failed\n"),
    (["replay", "one.schedule"], b"", "one.schedule: line 3: write failed\n"),
    (["check", "good.schedule"], b"", "write failed\n"),
    (["outcomes", "one.race"], b"", "write failed\n"),
    (["outcomes", "one.race", "--schedules"], b"", "write failed\n"),
    (["outcomes", "one.race", "--html"], b"", "write failed\n"),
    (
        ["run", "--tasks", "3", "--cpus", "1", "--rounds", "1", "--freezes", "0"],
        b"",
        "write failed\n",
    ),
    (["explain", "freeze"], b"", "write failed\n"),
    (["--version"], b"", "write failed\n"),
]


def checks_of_full():
    """All that prints, where nothing can be written."""
    for words, given, told in FULL:
        yield check_of(
            Program.run_to_full, words, "nothing can be written", (1, "", told), given=given
        )


# A race of five tasks with more than two million states in full: some seconds, so that a second
# passes on a fast machine, too.
LONG_RACE = b"""config 5 1 1 2 8
race
0 freeze
0 snapshot
0 thaw
1 wantwrite 0 0
1 dropwrite 0 0
1 wantwrite 0 0
1 dropwrite 0 0
2 remount ro
3 wantwrite 0 0
3 dropwrite 0 0
3 wantwrite 0 0
3 dropwrite 0 0
4 wantwrite 0 0
4 dropwrite 0 0
"""
# What whoever watches a long search is told: how many states there are, on one line, which goes at
# the end.
PROGRESS = Wanted(
    "\\r* states\\x1b[K, again and again, and at last \\r\\x1b[K\n",
    rb"(\r[\d,]+ states\x1b\[K)+\r\x1b\[K",
)


def checks_of_persons():
    """What a person is told who types a schedule, or who watches: what is awaited, and what helps
    after a fault."""
    awaited = ("mntgate: type a schedule, from 'config *", True)
    helps = [
        (line, False)
        for line in (
            "<stdin>:2:3: error: unknown command 'rum'",
            "  0 rum",
            "    ^~~",
            "help: did you mean 'run'?",
        )
    ]
    for words, (line, status, text, told) in itertools.product(
        OVER, (("0 step", 0, "0 idle\n", []), ("0 rum", 1, "", helps))
    ):
        given = f"config 1 1 1 2 8\n{line}\n".encode()
        ends = status, text, wanted_of([awaited, *told])
        yield check_of(
            Program.run_typed, words, f"'{line}' is typed", ends, given=given, types=True
        )
        yield check_of(
            Program.run_typed,
            words,
            f"'{line}' is watched",
            (status, text, wanted_of(told)),
            given=given,
            types=False,
        )
    words = ["outcomes", "--no-reduction", "--limit", "2000000"]
    ends = 1, "more than 2000000 states, 0 outcomes so far\n", PROGRESS
    yield check_of(
        Program.run_typed, words, "a long search is watched", ends, given=LONG_RACE, types=False
    )


def checks_of_names():
    """Names and arguments with control characters, or that are no text."""
    for words, text in (("replay", ""), ("outcomes", ""), ("check", "0 passed, 1 failed\n")):
        ends = 1, text, wanted_of([("\\x1b[2J: *", True)])
        yield check_of(Program.run, [words, "\x1b[2J"], "a name with control characters", ends)
    ends = 2, "", wanted_of([("error: unexpected argument '\\x1b[2J' found", False), ("...", True)])
    yield check_of(
        Program.run,
        ["replay", "one.schedule", "\x1b[2J"],
        "an argument with control characters",
        ends,
    )
    for words in ([b"\xff"], ["replay", b"one.schedule\xc3"]):
        yield check_of(
            Program.run, words, "no text", (2, "", wanted_of([("error: *", True), ("...", True)]))
        )


# A schedule that says what it prints in wrong places and words, or not at all; and as it is once
# that is written into it.
UNBLESSED = (
    b"# first\nconfig 1 1 1 2 8\n0 want 0 0\n0 run\n# between\n#> nonsense\n#> more\nwords\n0"
    b" run\n#> 0 ok\n"
)
BLESSED = (
    b"# first\nconfig 1 1 1 2 8\n0 want 0 0\n0 run\n# between\n#> 0 ok\nwords\n#> mount0.cpu0 1\n0"
    b" run\n#> 0 idle\n"
)


class Blessing(NamedTuple):
    """A file into which a check writes what it prints: it is then as wanted, no other file is left
    beside it, and a check passes."""

    name: str
    given: bytes
    wanted: bytes

    def difference(self, program):
        """How it ends otherwise; nothing where it ends as it should."""
        with tempfile.TemporaryDirectory() as folder:
            path = f"{folder}/{self.name}"
            with open(path, "wb") as file:
                file.write(self.given)
            ends = (
                (["--bless"], "1 written, 0 unchanged, 0 failed\n"),
                (["--bless"], "0 written, 1 unchanged, 0 failed\n"),
                ([], "1 passed, 0 failed\n"),
            )
            came = [program.run(["check", *flags, path]) for flags, _ in ends]
            wrong = [
                f"{ended.printed!r} came\n"
                for ended, (_, text) in zip(came, ends)
                if (ended.status, ended.printed) != (0, text.encode())
            ]
            with open(path, "rb") as file:
                written = file.read()
            if written != self.wanted or os.listdir(folder) != [self.name]:
                wrong += [
                    f"{self.name}, beside {os.listdir(folder)}:\n",
                    *changes(self.wanted.decode(), written),
                ]
        return "".join(wrong)


def checks_of_blessings():
    """Files into which a check writes what they print: a schedule, and a race."""
    yield Blessing("blessed.schedule", UNBLESSED, BLESSED)
    race = b"config 1 1 1 2 8\nrace\n0 drop 0 0\n"
    yield Blessing(
        "blessed.race",
        race,
        race.replace(b"race\n", b"race\n#> 2 states, 1 outcome\n#> 0 refused 35 Order\n"),
    )


# The form of each command on a task, as a person is told it.
FORMS = """T want M C
T trywant M C
T drop M C
T start L C
T trystart L C
T end L C
T wantwrite M C
T dropwrite M C
T change M ro|rw
T trychange M ro|rw
T remount ro|rw
T callback L
T freeze [kernel|user]
T thaw [kernel|user]
T create D file|dir
T remove N
T grow N B
T move N D
T fault N
T flush N
T open N
T close N C
T tryclose N C
T snapshot
T trysnapshot
T step [CODE]
T run [sync|freeze|unfreeze|reconfigure|wait CODE]""".splitlines()


def word_of(place, chosen):
    """A word that may stand at a place of a form: the chosen one of those between which there is a
    bar, or a number."""
    words = place.strip("[]").split("|")
    return words[chosen % len(words)] if len(words) > 1 else "1"


def misfit(line, count):
    """Where a line differs from a form of so many words: the column of the first word too many, and
    how wide all of them are; or its end."""
    words = line.split(" ")
    rest = " ".join(words[count:])
    return (len(line) - len(rest) + 1, len(rest)) if rest else (len(line) + 1, 1)


def checks_of_forms():
    """Of each form lines with each number of words: those that have as many as it are accepted,
    also without what may be left out, and of any other the form is told."""
    for form in FORMS:
        places = form.split(" ")
        may_have = {len(places), len(form.partition(" [")[0].split(" "))}
        choices = max(place.count("|") for place in places) + 1
        for count, chosen in itertools.product(range(2, 8), range(choices)):
            words = [
                "0",
                places[1],
                *(word_of(place, chosen) for place in [*places[2:], *"NNNNNN"]),
            ]
            line = " ".join(words[:count])
            column, width = misfit(line, len(places))
            wrong = (
                f"<stdin>:2:{column}: error: wrong number of words\n  {line}\n "
                f" {' ' * (column - 1)}^{'~' * (width - 1)}\nhelp: its form is '{form}'\n"
            )
            ends = (0, ANYTHING, "") if count in may_have else (1, "", wrong)
            yield check_of(
                Program.run,
                ["replay", "--explain"],
                line,
                ends,
                given=f"config 2 4 4 8 8\n{line}\n".encode(),
            )


class Twice(NamedTuple):
    """A random schedule over the core and over the gates, which has to print the same, with no
    fault; it is added to the texts."""

    name: str
    given: bytes
    texts: list

    def difference(self, program):
        """How it ends otherwise over either."""
        core, gates = (program.run(words, self.given) for words in OVER)
        self.texts.append(core.printed.decode("utf-8", "replace"))
        ends = ((core, ANYTHING), (gates, exactly(self.texts[-1])))
        return "".join(
            Check(self.name, lambda _, ended=ended: ended, 0, wanted, NOTHING).difference(program)
            for ended, wanted in ends
        )


def failures_of(program, checks):
    """What ended otherwise, and how; and how many command lines there are."""
    texts = []
    checks = [
        *checks,
        *(
            Twice(f"the random schedule {seed}", random_schedule(seed), texts)
            for seed in range(SCHEDULES)
        ),
    ]
    with concurrent.futures.ThreadPoolExecutor(os.cpu_count()) as pool:
        outcomes = list(pool.map(lambda check: check.difference(program), checks))
    failures = [f"{check.name}\n{told}" for check, told in zip(checks, outcomes) if told]
    failures += [
        f"no random schedule prints {part!r}\n"
        for part in REACHED
        if not any(part in text for text in texts)
    ]
    return failures, len(checks) + SCHEDULES


def test(path, cases):
    """Tests a program, and prints how that went; whether all command lines ended as they should."""
    with tempfile.TemporaryDirectory() as folder:
        write_files(cases, folder)
        parts = (
            checks_of_cases(cases),
            checks_of_examples(),
            checks_of_reads(),
            checks_of_writes(),
            checks_of_full(),
            checks_of_persons(),
            checks_of_names(),
            checks_of_forms(),
            checks_of_blessings(),
            checks_of_files(),
        )
        failures, count = failures_of(
            Program(path, folder), [check for part in parts for check in part]
        )
    shown = os.path.relpath(path)
    if failures:
        print(*failures[:SHOWN], sep="\n")
        print(f"{shown}: {len(failures)} of {count} command lines ended otherwise")
    else:
        print(f"{shown}: {count} command lines ended as they should")
    return not failures


def main(paths):
    """Tests these programs, or those of the repository; the exit status."""
    paths = built_programs(paths)
    try:
        cases = read_cases()
    except Unreadable as fault:
        sys.exit(f"test_program: {fault}")
    return 0 if all([test(path, cases) for path in paths]) else 1


if __name__ == "__main__":
    sys.exit(main(sys.argv[1:]))
