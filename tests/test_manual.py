#!/usr/bin/env -S python3 -B
"""Tests the page of the manual, man/mntgate.1, against the command line in crates/command_line, the
repository and the built program.

    tests/test_manual.py [--text] [PROGRAM]

With no PROGRAM it takes crates/mntgate/out/mntgate. With --text it runs no command. Four things are
tested:

Commands   The section COMMANDS has the commands, their arguments and the help of each, in their
           order, and nothing else does but `help`.
Synopsis   The section SYNOPSIS has the same commands in the same order, each with its words, and
           with all of its options or `[OPTIONS]`.
Paths      Each word that begins with a folder of the repository is a path there.
Examples   Each command `mntgate ..` in bold of the sections DESCRIPTION and EXAMPLES runs beside
           the repository, with status 0. It prints the lines that stand between .EX and .EE behind
           it, if there are any; a line `...` stands for any lines.

Prints what is wrong; the exit status is 1 then."""

import difflib
import re
import sys
import tempfile
from typing import NamedTuple

from consoles import PROGRAM, ROOT, command_fault, expect_program, is_missing, make_folder
from verdicts import verdict

PAGE = "man/mntgate.1"
TEXT = r'"((?:[^"\\]|\\.)*)"'
HELP = ("help", "Print this message or the help of the given subcommand(s)")
COMMAND = re.compile(r"^\.B (mntgate .*)$|\\fB(mntgate .*?)\\fR")


class Argument(NamedTuple):
    """An argument of a command: its name, its kind, what help calls its value, if it has one, and
    its help."""

    name: str
    kind: str
    value: str
    told: str

    def is_option(self):
        """Whether it is given by its name."""
        return self.kind not in ("Word", "Words")

    def usage(self):
        """How it is given."""
        match self.kind:
            case "Word" | "Words":
                return self.name
            case "Flag":
                return f"--{self.name}"
            case "Number" | "Choice":
                return f"--{self.name} {self.value}"
        sys.exit(f"test_manual: an argument of a kind that no page has: {self.kind}")

    def heading(self):
        """How the section COMMANDS names it."""
        match self.kind:
            case "Word":
                return f"[{self.name}]"
            case "Words":
                return f"[{self.name}]..."
            case "Flag":
                return self.usage()
        return f"--{self.name} <{self.value}>"


def text_of(path):
    """The text of a file of the repository."""
    with open(f"{ROOT}/{path}", encoding="utf-8") as it:
        return it.read()


def plain(text):
    """A text of the page with no marks of its fonts."""
    return re.sub(r"\\f[BIR]|\\&", "", text.replace("\\-", "-"))


def commands_of_the_program():
    """The commands of the command line, each with its help and its arguments."""
    source = text_of("crates/command_line/src/arguments.rt")
    names = dict(re.findall(rf"^pub\(crate\) const (\w+): &str = {TEXT};", source, re.M))
    table = re.search(r"^const SUBCOMMANDS.*?^\];", source, re.M | re.S)[0]
    argument = (
        rf"name: (?:{TEXT}|(\w+)),\s*kind: ArgumentKind::(\w+)(?:\({TEXT}.*?\))?,\s*help: {TEXT},"
    )
    for name, about, arguments in re.findall(
        rf"name: {TEXT},\s*about: {TEXT},\s*arguments: &\[(.*?)\],\n    \}}", table, re.S
    ):
        found = re.findall(argument, arguments)
        yield name, about, [
            Argument(text or names[constant], kind, value, told)
            for text, constant, kind, value, told in found
        ]


def section(page, name):
    """The lines of a section of the page, each with its number."""
    lines = page.splitlines()
    begins = lines.index(f".SH {name}") + 1
    ends = next(
        at
        for at in range(begins, len(lines) + 1)
        if at == len(lines) or lines[at].startswith(".SH ")
    )
    return list(enumerate(lines[begins:ends], begins + 1))


def command_section_faults(page, commands):
    """How the section COMMANDS differs from the command line."""
    wanted = []
    for name, about, arguments in commands:
        wanted += [".TP", f".B {name}", about, ".RS"]
        for argument in arguments:
            wanted += [".TP", f".B {argument.heading()}", argument.told]
        wanted.append(".RE")
    wanted += [".TP", f".B {HELP[0]}", HELP[1]]
    came = [plain(line) for _, line in section(page, "COMMANDS")]
    if len(wanted) < 20 or wanted != came:
        yield "\n".join(
            difflib.unified_diff(wanted, came, "crates/command_line", PAGE, lineterm="")
        )


def synopsis_faults(page, commands):
    """How the section SYNOPSIS differs from the command line."""
    text = plain("\n".join(line for _, line in section(page, "SYNOPSIS")))
    shown = re.findall(r"^\.B mntgate (\S+)\n(.*)$", text, re.M)
    usages = {name: arguments for name, _, arguments in commands}
    if [name for name, _ in shown] != [*usages, HELP[0]]:
        yield (
            f"{PAGE}: SYNOPSIS has the commands {[name for name, _ in shown]}, the command line"
            f" {[*usages, HELP[0]]}"
        )
        return
    for name, words in shown[:-1]:
        came = sorted(re.findall(r"--[a-z-]+(?: [A-Z]+)?|[A-Z]+", words.replace("[OPTIONS]", "")))
        wanted = sorted(
            it.usage() for it in usages[name] if not (it.is_option() and "[OPTIONS]" in words)
        )
        if came != wanted:
            yield f"{PAGE}: SYNOPSIS has {came} of `{name}`, the command line {wanted}"


def path_faults(page):
    """The paths of the page that are not there."""
    for number, line in enumerate(page.splitlines(), 1):
        for word in re.split(r"[\s,]+", plain(line)):
            if is_missing(word.rstrip(".:")):
                yield f"{PAGE}:{number}: no path {word}"


def examples(page):
    """The commands that the page shows, each with its line and the lines that it should print, or
    None if none are shown."""
    for name in ("DESCRIPTION", "EXAMPLES"):
        shown = None
        for number, line in section(page, name):
            if found := COMMAND.search(line):
                if shown:
                    yield shown
                shown = (number, plain(found[1] or found[2]), None)
            elif shown and line == ".EX":
                shown = (*shown[:2], [])
            elif line == ".EE":
                yield shown
                shown = None
            elif shown and shown[2] is not None:
                shown[2].append(plain(line))
        if shown:
            yield shown


def example_faults(page, program):
    """The commands of the page that don't run, or print something else; and how many there are."""
    with tempfile.TemporaryDirectory() as folder:
        make_folder(folder, program)
        faults = [
            command_fault(f"{PAGE}:{number}", command, wanted, folder)
            for number, command, wanted in examples(page)
        ]
    return [fault for fault in faults if fault], len(faults)


def main(words):
    """Tests the page; the exit status."""
    text_alone = "--text" in words
    program = next((word for word in words if word != "--text"), PROGRAM)
    page, commands = text_of(PAGE), list(commands_of_the_program())
    faults = [
        *command_section_faults(page, commands),
        *synopsis_faults(page, commands),
        *path_faults(page),
    ]
    if text_alone:
        return verdict(faults, f"{PAGE} says what the command line has")
    expect_program(program, "test_manual")
    ended, count = example_faults(page, program)
    return verdict(
        [*faults, *ended], f"{PAGE} says what the command line has, and its {count} commands run"
    )


if __name__ == "__main__":
    sys.exit(main(sys.argv[1:]))
