#!/usr/bin/env -S python3 -B
"""Judges histories of gates with a wrong step. Of each of these gates some history has to be
impossible.

    tools/mutant_histories.py [--calls N] [--histories N] [--seed N] [--program PROGRAM] [MUTANT..]

MUTANT is one of crates/*/must-fail or docs/steps/*/must-fail, as bin/without takes it; with none
there are five. mntgate is built with it, without a proof, as bin/without does: one to four minutes,
and the build is kept in out/without. It plays random executions of N calls of 3 tasks, as
bench/histories.py does with other calls: 100 calls, and up to 100 executions of each mutant, if
nothing else is said.
PROGRAM, or bin/mntgate, which has no wrong step, judges what was recorded of them.

Prints a line for each mutant: at which line which of its histories is impossible, and how many
before it were possible. The exit status is 1 if all histories of one are possible."""

import argparse
import importlib.machinery
import importlib.util
import os
import random
import re
import subprocess
import sys

ROOT = os.path.dirname(os.path.dirname(os.path.realpath(__file__)))
MUTANTS = (
    "percpu_rwsem/keeps_count_when_blocked",
    "percpu_rwsem/down_write_skips_sum",
    "mount_counts/drop_keeps_the_count",
    "mount_counts/remount_sets_nothing",
    "freeze_levels/thaw_stays_frozen",
)
TASKS = 3
# Task 0 does nothing but freeze and thaw, remount and change the mount, and undoes at once what was
# granted. A try form is refused where a wrong step lets another call wait for ever.
TAKES = {
    "want 0 0": "drop 0 0",
    "trywant 0 0": "drop 0 0",
    "wantwrite 0 0": "dropwrite 0 0",
    "start 2 0": "end 2 0",
    "trystart 1 0": "end 1 0",
    "trystart 2 0": "end 2 0",
}
ADMINISTERS = {
    "remount ro": "remount rw",
    "change 0 ro": "change 0 rw",
    "freeze": "thaw",
    "thaw": None,
    "callback 1": None,
    "callback 2": None,
}
# An access is held for long, so that more of a freeze or a remount goes on beside it.
LONGEST = 20
# A play ends once so many draws have brought no line: a wrong step may let calls wait for ever.
PATIENCE = 500
# How many states the quick search may find before it passes a line more. Three tasks are in fewer
# between two lines. An impossible history has no verdict before that.
LIMIT = 20_000


def load(name, path):
    """A script of the repository, as a module."""
    loader = importlib.machinery.SourceFileLoader(name, f"{ROOT}/{path}")
    module = importlib.util.module_from_spec(importlib.util.spec_from_loader(name, loader))
    loader.exec_module(module)
    return module


def judged(program, lines):
    """The index of the first of these lines that no execution has; None if there is none."""
    ran = subprocess.run(
        [program, "validate", "--limit", str(LIMIT)],
        input="\n".join([*lines, ""]),
        capture_output=True,
        text=True,
        check=False,
    )
    if ran.returncode == 0 and ran.stdout.startswith("possible: "):
        return None
    found = re.match(r"<stdin>:(\d+):1: error: no execution has this line\n", ran.stderr)
    if ran.returncode != 1 or not found:
        sys.exit(f"mutant_histories.py: {ran.stdout}{ran.stderr}")
    return int(found[1]) - 1


def caught(args, play, mutant, broken):
    """What is said of a mutant, whose program plays; None if all its histories are possible."""
    mix = play.Mix(TAKES, ADMINISTERS, 1, LONGEST)
    for number in range(args.histories):
        dice = random.Random(f"{args.seed} {number}")
        lines = play.draw(broken, TASKS, args.calls, dice, mix, PATIENCE)
        at = judged(args.program, lines)
        if at is not None:
            return (
                f"{mutant}: line {at + 1} of {len(lines)}, '{lines[at]}', is impossible,"
                f" in history {number + 1}"
            )
    return None


def main():
    parser = argparse.ArgumentParser(
        description=__doc__, formatter_class=argparse.RawDescriptionHelpFormatter
    )
    parser.add_argument("--calls", type=int, default=100)
    parser.add_argument("--histories", type=int, default=100)
    parser.add_argument("--seed", type=int, default=1)
    parser.add_argument("--program", default=f"{ROOT}/bin/mntgate")
    parser.add_argument("mutants", nargs="*", default=MUTANTS, metavar="MUTANT")
    args = parser.parse_args()
    without, play = load("without", "bin/without"), load("histories", "bench/histories.py")
    crates, status = without.crates_below(), 0
    for name in args.mutants:
        mutant = without.find_mutant(name)
        said = caught(args, play, mutant, without.build(mutant, crates))
        if said is None:
            said, status = f"{mutant}: {args.histories} histories, all possible", 1
        print(said, flush=True)
    return status


if __name__ == "__main__":
    sys.exit(main())
