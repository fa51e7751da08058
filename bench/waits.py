#!/usr/bin/env python3
"""Measures the processor time of calls that wait: of starts behind a freeze that stands so long.

    bench/waits.py [--seconds S] [--turns N] [--program FILE]

One task has all frozen and sleeps S seconds (3, if left out) before it thaws. 1, 8 and 63 others,
in a thread each, wait for level 1 meanwhile. Each row is the median of N turns (5, if left out):
the seconds from start to end, and those of processor time, of all threads together. The program's
own start and end, which are measured without a wait, are in neither.

bench_gates has to be built: cd crates/bench_gates && rt run -- --help. No proof covers these
figures. The exit status is 0, 1 where the program failed, and 2 for a misuse.
"""

import argparse
import os
import statistics
import subprocess
import sys
import time

ROOT = os.path.dirname(os.path.dirname(os.path.realpath(__file__)))
PROGRAM = f"{ROOT}/crates/bench_gates/out/bench_gates"


def measured(program, tasks, milliseconds):
    """Seconds from start to end, and of processor time, of one run."""
    words = [program, "measure", "wait", str(tasks), str(milliseconds)]
    began = time.monotonic()
    child = subprocess.Popen(words, stdout=subprocess.DEVNULL)
    _, status, used = os.wait4(child.pid, 0)
    took = time.monotonic() - began
    if status:
        sys.exit(f"waits.py: {' '.join(words)} failed")
    return took, used.ru_utime + used.ru_stime


def main():
    parser = argparse.ArgumentParser(usage=__doc__)
    parser.add_argument("--seconds", type=float, default=3)
    parser.add_argument("--turns", type=int, default=5)
    parser.add_argument("--program", default=PROGRAM)
    asked = parser.parse_args()
    milliseconds = round(asked.seconds * 1000)
    if milliseconds < 2 or asked.turns < 1:
        parser.error("at least 0.002 seconds, and one turn")
    if not os.path.exists(asked.program):
        parser.error(f"{asked.program} isn't there")
    print("waiting  seconds  processor time")
    for waiting in (1, 8, 63):
        turns = []
        for _turn in range(asked.turns):
            idle = measured(asked.program, waiting + 1, 1)
            busy = measured(asked.program, waiting + 1, milliseconds)
            turns.append([b - i for b, i in zip(busy, idle)])
        took, used = (statistics.median(of) for of in zip(*turns))
        print(f"{waiting:7}  {took:7.2f}  {used:.4f}")
    print(f"load: {os.getloadavg()[0]:.0f}")


if __name__ == "__main__":
    main()
