#!/usr/bin/env -S python3 -B
"""Refuses the program as it was built each growth of memory in turn, and fails unless it then ends
by itself with exit status 1, and says why: as `refused 12 NoMemory`. What it has printed by then
has to be how its whole output begins, and each file is as it was or as it would be. It may also do
without a growth, as without room that it asks for ahead: then it ends as if none had been refused.
A plain replay, over the core and over the gates, tells the line too: the one behind the lines that
were done, which have printed all that they print. Which these are is known from its schedule cut
short: the line that asks for the growth is the first with which the schedule asks for so many.

    tests/refuse_memory.py [PROGRAM..]

With no argument it tests the programs that tests/test_program.py does. gcc compiles
tests/program/refuse_growth.c, which refuses a growth. A build that isn't proved has another malloc,
and can't be tested. Of a command line with many growths the first and the last are refused, and
some between them, by a fixed seed. It prints a line for each command line, and what was wanted and
what came if one ended otherwise. The exit status is 0 if all ended as they should, else 1."""

import bisect
import concurrent.futures
import functools
import os
import random
import re
import subprocess
import sys
import tempfile
from typing import NamedTuple

from program.cases import ROOT, changes
from program.runs import Ended, Program, built_programs

SOURCE = f"{ROOT}/tests/program/refuse_growth.c"
# How many growths are refused at either end, and how many between them.
EDGE, BETWEEN = 100, 20
# A second program is the same by another compiler: of these growths it is refused each fourth.
SECOND = 4
# After how many growths it is shown how a command line ended otherwise.
SHOWN = 3


def example(name):
    """The text of an example."""
    with open(f"{ROOT}/examples/{name}", encoding="utf-8") as file:
        return file.read()


SCHEDULE, RACE = example("waiting.schedule"), example("races/two-changes.race")
# The files that lie where a command line runs.
FILES = {
    "waiting.schedule": SCHEDULE,
    # Its configuration stands behind what one read gives.
    "late.schedule": f"# {'-' * 97}\n" * 700 + "config 2 1 1 2 8\n0 want 0 0\n0 run\nwords\n",
    "listing.schedule": (
        "config 2 1 1 4 8\n0 freeze\n0 run\n0 snapshot\n0 run\nwords\ntree\nmodel\n"
    ),
    "faulty.schedule": "config 2 1 1 2 8\n0 want 0 0\n0 run\n0 rum\n",
    "unblessed.schedule": SCHEDULE.replace("ok", "done"),
    "two-changes.race": RACE,
    # Of the claims the second is broken, and the third is none.
    "claimed.race": f"{RACE}always 0.0 = ok\nnever 1.0 = ok\nalways 0.0 = done\n",
    "unblessed.race": "config 2 1 1 2 8\nrace\n0 change 0 ro\n1 trychange 0 rw\n#> outcomes:\n",
}


class CommandLine(NamedTuple):
    """A command line, and how it may end besides where a growth is refused."""

    words: str
    # A pattern of what it tells and prints then, one behind the other.
    besides: bytes = rb"(?!)"
    # Whether it writes files: then it has a folder of its own.
    writes: bool = False
    # Whether it is a plain replay of the file that its last word names: then it tells at which line
    # memory was refused.
    replays: bool = False


# What says that memory was refused: of which file and at which line, if it is of one. The line may
# stand below.
REFUSAL = rb"(?:[^\n]*: )?refused 12 NoMemory\n(?:  [^\n]*\n)*"
# A page has its end also if its schedule is refused.
PAGE = REFUSAL + rb"<!DOCTYPE html>\n.*</html>\n"
# A check tells on either output that its file is refused, below what was then not printed, and
# counts it.
FAILED = rb"(?:[^\n]*, and nothing more was printed\n)*" + REFUSAL + rb"0 passed, 1 failed\n"
UNWRITTEN = REFUSAL + rb"0 written, 0 unchanged, 1 failed\n"
# If there is no memory to explain a fault, it is told alone.
UNEXPLAINED = rb"faulty\.schedule: line 4: unknown command\n0 ok\n"
COMMANDS = [
    CommandLine("replay waiting.schedule", replays=True),
    CommandLine("replay --over-gates waiting.schedule", replays=True),
    CommandLine("replay late.schedule", replays=True),
    CommandLine("replay --over-gates late.schedule", replays=True),
    CommandLine("replay listing.schedule", replays=True),
    CommandLine("replay --over-gates listing.schedule", replays=True),
    CommandLine("replay --events waiting.schedule"),
    CommandLine("replay --columns listing.schedule"),
    CommandLine("replay --json --over-gates listing.schedule"),
    CommandLine("replay --html waiting.schedule", PAGE),
    CommandLine("replay --html listing.schedule", PAGE),
    CommandLine("replay --explain faulty.schedule", UNEXPLAINED),
    CommandLine("check waiting.schedule", FAILED),
    CommandLine("check two-changes.race", FAILED),
    CommandLine("check --bless unblessed.schedule", UNWRITTEN, writes=True),
    CommandLine("check --bless unblessed.race", UNWRITTEN, writes=True),
    CommandLine("outcomes two-changes.race"),
    CommandLine("outcomes --no-reduction two-changes.race"),
    CommandLine("outcomes --ends two-changes.race"),
    CommandLine("outcomes --schedules two-changes.race"),
    CommandLine("outcomes --columns --model two-changes.race"),
    CommandLine("outcomes --json --schedules two-changes.race"),
    CommandLine("outcomes --html two-changes.race"),
    CommandLine("outcomes --save . two-changes.race", writes=True),
    CommandLine("outcomes claimed.race"),
    CommandLine("outcomes --limit 3 claimed.race"),
    CommandLine("run --tasks 4 --cpus 2 --rounds 10 --freezes 1"),
    CommandLine("explain remount"),
]


class Came(NamedTuple):
    """How a command line ended, how many growths it asked for, and the files behind it, if it
    writes some."""

    ended: Ended
    growths: int
    files: dict


def write_files(folder):
    """Writes the files that command lines name."""
    for name, text in FILES.items():
        with open(f"{folder}/{name}", "w", encoding="utf-8") as file:
            file.write(text)


def files_in(folder):
    """The files of a folder."""
    files = {}
    for name in os.listdir(folder):
        with open(f"{folder}/{name}", "rb") as file:
            files[name] = file.read()
    return files


class Refuser:
    """A program in a folder with these files, and the object that refuses it a growth."""

    def __init__(self, path, library, folder):
        write_files(folder)
        self.program, self.library = Program(path, folder), library

    def run(self, line, refused=0):
        """Runs a command line with the growth of this number refused; with none, if it is 0."""
        if not line.writes:
            return self.run_by(self.program, line, refused)
        with tempfile.TemporaryDirectory() as folder:
            write_files(folder)
            came = self.run_by(Program(self.program.path, folder), line, refused)
            return came._replace(files=files_in(folder))

    def run_by(self, program, line, refused):
        """The same by a program in its folder, whose files aren't looked at."""
        with open(os.memfd_create("growths"), "r+b", 0) as growths:
            growths.truncate(8)
            counted = f"/proc/{os.getpid()}/fd/{growths.fileno()}"
            env = {
                **os.environ,
                "LD_PRELOAD": self.library,
                "GROWTHS": counted,
                "REFUSED_GROWTH": str(refused),
            }
            ended = program.run(line.words.split(" "), env=env)
            return Came(ended, int.from_bytes(growths.read(8), sys.byteorder), {})


# How a replay ends if a growth is refused before it begins, as one for the words of its command
# line.
UNBEGUN = Ended(1, b"", b"refused 12 NoMemory\n")


class CutReplay:
    """A plain replay, whose schedule is cut short to see what its lines ask for and print."""

    def __init__(self, refuser, line):
        self.refuser, self.line, self.file = refuser, line, line.words.split(" ")[-1]
        self.lines = FILES[self.file].splitlines(keepends=True)

    @functools.cache
    def after(self, done):
        """How it ends with so many lines, of which all are done."""
        with tempfile.TemporaryDirectory() as folder:
            with open(f"{folder}/{self.file}", "w", encoding="utf-8") as file:
                file.writelines(self.lines[:done])
            return self.refuser.run_by(Program(self.refuser.program.path, folder), self.line, 0)

    def refusal(self, refused):
        """How it ends if this growth is refused: at the line that asks for it, or the first one,
        behind what the lines before it print."""
        done = bisect.bisect_left(
            range(1, len(self.lines) + 1), refused, key=lambda count: self.after(count).growths
        )
        return Ended(
            1,
            self.after(done).ended.printed,
            f"{self.file}: line {done + 1}: refused 12 NoMemory\n".encode(),
        )

    def differences(self, whole, came, numbers):
        """How it ended otherwise for each of these growths that was refused; nothing if it didn't.
        No growth of the replay itself comes before one of its command line."""
        has_begun, found = False, []
        for each, refused in zip(came, numbers):
            wanted = self.refusal(refused)
            has_begun = has_begun or each.ended == wanted or refused > self.after(0).growths
            is_right = is_without(whole, each) or each.ended == (wanted if has_begun else UNBEGUN)
            found.append(
                ""
                if is_right
                else (
                    f"it was to tell {wanted.told!r} and to print {wanted.printed!r}, and ended by"
                    f" {each.ended!r}\n"
                )
            )
        return found


def is_without(whole, came):
    """Whether a command line ended as if no growth had been refused."""
    return (came.ended, came.files) == (whole.ended, whole.files)


def difference(line, whole, came, refused):
    """How a command line of which a growth was refused ended otherwise than it may; nothing if it
    didn't."""
    if came.growths < refused:
        return f"it asked for {came.growths} growths alone\n"
    if is_without(whole, came):
        return ""
    ended, wrong = came.ended, []
    if ended.status != 1:
        wrong.append(f"the exit status 1 was wanted, and {ended.status} came\n")
    if not re.fullmatch(line.besides, ended.told + ended.printed, re.DOTALL):
        if not re.fullmatch(REFUSAL, ended.told):
            wrong += ["standard error:\n", *changes("refused 12 NoMemory\n", ended.told)]
        if not whole.ended.printed.startswith(ended.printed):
            wrong += ["standard output:\n", *changes(whole.ended.printed.decode(), ended.printed)]
    for name in sorted({*came.files, *whole.files}):
        was = FILES[name].encode() if name in FILES else None
        if came.files.get(name) not in (was, whole.files.get(name)):
            wrong.append(f"the file {name} is neither as it was nor as it would be\n")
    return "".join(wrong)


def chosen(count):
    """The growths of so many that are refused."""
    if count <= 2 * EDGE + BETWEEN:
        return range(1, count + 1)
    between = random.Random(count).sample(range(EDGE + 1, count - EDGE + 1), BETWEEN)
    return [*range(1, EDGE + 1), *sorted(between), *range(count - EDGE + 1, count + 1)]


def test_line(refuser, pool, part, line):
    """Tests a command line with a part of the growths refused, and prints how that went; whether it
    ended as it should."""
    whole = refuser.run(line)
    numbers = chosen(whole.growths)[::part]
    came = list(pool.map(functools.partial(refuser.run, line), numbers))
    differences = [difference(line, whole, *pair) for pair in zip(came, numbers)]
    if line.replays:
        lines = CutReplay(refuser, line).differences(whole, came, numbers)
        differences = ["".join(pair) for pair in zip(differences, lines)]
    wrong = [
        f"growth {number} refused:\n{text}" for number, text in zip(numbers, differences) if text
    ]
    if not whole.growths:
        wrong.append("no growth was counted: the program asks for memory in another way\n")
    without = sum(is_without(whole, each) for each in came)
    print(
        (
            f"  {line.words}: {whole.growths} growths, {len(came)} refused, {without} of them done"
            " without"
        ),
        flush=True,
    )
    if wrong:
        print(*wrong[:SHOWN], f"  {len(wrong)} ended otherwise", sep="\n", flush=True)
    return not wrong


def test(path, library, part):
    """Tests a program, and prints how that went; whether all command lines ended as they should."""
    print(f"{os.path.relpath(path)}:", flush=True)
    with tempfile.TemporaryDirectory() as folder, concurrent.futures.ThreadPoolExecutor(
        os.cpu_count()
    ) as pool:
        refuser = Refuser(path, library, folder)
        return all([test_line(refuser, pool, part, line) for line in COMMANDS])


def main(paths):
    """Tests these programs, or those of the repository; the exit status."""
    with tempfile.TemporaryDirectory() as folder:
        library = f"{folder}/refuse_growth.so"
        subprocess.run(
            [
                "gcc",
                "-std=c11",
                "-O2",
                "-Wall",
                "-Wextra",
                "-Werror",
                "-shared",
                "-fPIC",
                "-o",
                library,
                SOURCE,
            ],
            check=True,
        )
        parts = [
            (path, SECOND if number else 1) for number, path in enumerate(built_programs(paths))
        ]
        return 0 if all([test(path, library, part) for path, part in parts]) else 1


if __name__ == "__main__":
    sys.exit(main(sys.argv[1:]))
