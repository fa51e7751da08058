#!/usr/bin/env -S python3 -B
"""Refuses a run of the program as it was built each start of a thread in turn, and fails unless the
run then ends by itself with exit status 1, has printed nothing, and says `refused 12 NoMemory`; and
unless each thread that was started before has ended by then. Each of them begins late, so that a
run that doesn't wait for them would tell the refusal first.

    tests/refuse_threads.py [PROGRAM..]

With no argument it tests the programs that tests/test_program.py does. gcc compiles
tests/program/refuse_thread.c, which refuses a start. It prints a line for each command line, and
what was wanted and what came if one ended otherwise. The exit status is 0 if all ended as they
should, else 1."""

import os
import struct
import subprocess
import sys
import tempfile
from typing import NamedTuple

from program.cases import ROOT
from program.runs import Ended, Program, built_programs

SOURCE = f"{ROOT}/tests/program/refuse_thread.c"
# Each command line, and how many threads it starts: one for each task but the first.
COMMANDS = (
    ("run --tasks 3 --cpus 1 --rounds 3 --freezes 0", 2),
    ("run --tasks 4 --cpus 2 --rounds 10 --freezes 1", 3),
    ("run --tasks 9 --cpus 3 --rounds 20 --freezes 2", 8),
)
REFUSED = Ended(1, b"", b"refused 12 NoMemory\n")


class Came(NamedTuple):
    """How a run ended; and of its threads, how many it asked for, had begun when it told anything,
    and have ended."""

    ended: Ended
    asked: int
    begun: int
    finished: int


def run(program, library, words, refused=0):
    """Runs a command line with the start of the thread of this number refused; of none, if it is
    0."""
    counts = struct.Struct("=3Q")
    with open(os.memfd_create("threads"), "r+b", 0) as threads:
        threads.truncate(counts.size)
        env = {
            **os.environ,
            "LD_PRELOAD": library,
            "THREADS": f"/proc/{os.getpid()}/fd/{threads.fileno()}",
            "REFUSED_THREAD": str(refused),
        }
        ended = program.run(words.split(" "), env=env)
        return Came(ended, *counts.unpack(threads.read(counts.size)))


def test_line(program, library, words, threads):
    """Tests a command line with each start refused, and prints how that went; whether it ended as
    it should."""
    whole = run(program, library, words)
    wrong = []
    if (whole.ended.status, whole.asked, whole.ended.told) != (0, threads, b""):
        wrong.append(
            f"with no start refused: exit status 0 and {threads} threads were wanted, and"
            f" {whole} came"
        )
    for number in range(1, threads + 1):
        wanted, came = Came(REFUSED, number, number - 1, number - 1), run(
            program, library, words, number
        )
        if came != wanted:
            wrong.append(f"start {number} refused: {wanted} was wanted, and {came} came")
    print(f"  {words}: {threads} starts, each refused", *wrong, sep="\n", flush=True)
    return not wrong


def test(path, library):
    """Tests a program, and prints how that went; whether all command lines ended as they should."""
    print(f"{os.path.relpath(path)}:", flush=True)
    with tempfile.TemporaryDirectory() as folder:
        program = Program(path, folder)
        return all([test_line(program, library, *line) for line in COMMANDS])


def main(paths):
    """Tests these programs, or those of the repository; the exit status."""
    with tempfile.TemporaryDirectory() as folder:
        library = f"{folder}/refuse_thread.so"
        subprocess.run(
            [
                "gcc",
                "-std=c11",
                "-O2",
                "-Wall",
                "-Wextra",
                "-Werror",
                "-shared",
                "-fPIC",
                "-o",
                library,
                SOURCE,
            ],
            check=True,
        )
        return 0 if all([test(path, library) for path in built_programs(paths)]) else 1


if __name__ == "__main__":
    sys.exit(main(sys.argv[1:]))
