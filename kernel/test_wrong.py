#!/usr/bin/env -S python3 -B
"""Tests that kernel/compare fails where it has to: with mutants of the gates, and with a kernel in which something goes wrong. By hand, as it boots a
kernel for each: half an hour. Arguments are handed on to each kernel/compare, as --kernel 6.12."""

import os
import re
import subprocess
import sys
from typing import NamedTuple

COMPARE = f"{os.path.dirname(os.path.realpath(__file__))}/compare"


class Case(NamedTuple):
    """What is wrong, kernel/compare's words, and what it has to print; None where nothing is wrong. `spoiled` is which of the guest's answers is taken
    for another one, 0 for none."""

    about: str
    words: str
    printed: str | None
    spoiled: int = 0


DIFFERS = r"schedule \d+ differs:(\n    .*)+"
CASES = [
    Case("a refused want is taken back on another processor", "--module --schedules 60 --mutant backs_off_on_other_processor", DIFFERS),
    Case("a level is idle at once behind a thaw", "--module --schedules 60 --mutant leaving_sets_idle_at_once", DIFFERS),
    Case("a start that is kept out stays counted", "--module --schedules 60 --mutant keeps_count_when_blocked", DIFFERS),
    Case("the kernel's ends are made twice", "--module --schedules 60 --wrong ends_twice", DIFFERS),
    Case("the kernel's freezes wait for no grace period", "--module --races --race freeze-and-kept-start --wrong no_grace_period",
         r".*NOT AMONG THE OUTCOMES.*"),
    Case("a history's refusal is taken for Ok", "--histories 2 --calls 1000", r".*: IMPOSSIBLE(.*\n)+    .*", 1),
    Case("nothing: readers take their time", "--module --races --race freeze-and-kept-start --wrong slow", None),
]


def run(case, words):
    """Whether kernel/compare fails as it has to."""
    spoiled = dict(os.environ, COMPARE_WRONG=str(case.spoiled))
    done = subprocess.run([COMPARE, *case.words.split(), *words], stdout=subprocess.PIPE, text=True, env=spoiled, check=False)
    found = case.printed and re.search(case.printed, done.stdout)
    passed = done.returncode == (1 if case.printed else 0) and bool(found) == bool(case.printed)
    print(f"{'found' if found else 'not found'}{'' if passed else ', AND SHOULD BE OTHERWISE'}: {case.about} ({case.words})")
    print(found[0] if found else done.stdout.splitlines()[-1] if done.stdout else f"status {done.returncode}", flush=True)
    return passed


def main():
    passed = [run(case, sys.argv[1:]) for case in CASES]
    print(f"{sum(passed)} passed, {len(passed) - sum(passed)} failed")
    return 0 if all(passed) else 1


if __name__ == "__main__":
    sys.exit(main())
