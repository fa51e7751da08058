#!/usr/bin/env python3
"""Measures `bench_gates measure` and bench/by_hand by turns, in the same minutes, and prints
medians and ratios.

    bench/by_turns.py [--turns N] [--only WORD] [--program FILE] [--instructions]

Each row is measured by itself, N times (5, if left out) each program, one right after the other,
and each turn begins with the other one. A row's figures are medians. 'speed' is the program's speed
beside that by hand: 1.00 is as fast, 0.50 half as fast; and in brackets the least and the most of
the N turns. --only takes the rows that have the word in their name.

With --instructions callgrind counts the instructions of one pair or round in place of its time:
those of 1,200 less those of 200, divided by 1,000. They are the same whatever else the machine
does. Rows of several threads and runs are left out. valgrind has to be there.

bench_gates has to be built: cd crates/bench_gates && rt run -- --help. rustc has to be there. No
proof covers these figures, and they say little while the machine does other work: the last line has
its load. The exit status is 0, 1 where a program failed, and 2 for a misuse.
"""

import argparse
import os
import shutil
import statistics
import subprocess
import sys
import tempfile

from callgrind import instructions

ROOT = os.path.dirname(os.path.dirname(os.path.realpath(__file__)))
PROGRAM = f"{ROOT}/crates/bench_gates/out/bench_gates"

# Rounds of each writer in one run, in both programs.
ROUNDS_OF_A_RUN = 10_000


def millions(size, count, nanos):
    """Pairs in a second, of all threads, in millions."""
    return size * count * 1e3 / nanos


def microseconds(_size, count, nanos):
    """Microseconds for one round: a freeze with its thaw, two remounts or a snapshot."""
    return nanos / count / 1e3


def thousands(size, count, nanos):
    """Rounds of all writers in a second, in thousands. Two tasks of a run don't write."""
    return (size - 2) * count * ROUNDS_OF_A_RUN * 1e6 / nanos


# Of each kind of row: its name, its sizes, the count for which each program is asked, the unit, and
# the figure in that unit.
KINDS = [
    ("mount", (1, 2, 4), 10_000_000, "million pairs a second", millions),
    ("level", (1, 2, 4), 6_000_000, "million pairs a second", millions),
    ("write-access", (1, 2, 4), 3_000_000, "million pairs a second", millions),
    ("freeze", (1, 8, 64), 100_000, "microseconds", microseconds),
    ("freeze-and-callbacks", (1, 8, 64), 50_000, "microseconds", microseconds),
    ("remounts", (1, 8, 64), 100_000, "microseconds", microseconds),
    ("snapshot", (2, 8, 64), 100_000, "microseconds", microseconds),
    ("file", (1,), 1_000_000, "million pairs a second", millions),
    ("create-and-remove", (1,), 1_000_000, "million pairs a second", millions),
    ("grow", (1,), 1_000_000, "million a second", millions),
    ("moves", (1,), 1_000_000, "million pairs a second", millions),
    ("fault-and-flush", (1,), 1_000_000, "million pairs a second", millions),
    ("run", (4, 8, 16), 10, "thousand rounds a second", thousands),
]


def nanoseconds(program, *words):
    """Runs a program, given with its first words, which prints how long it took."""
    command = [*program, *map(str, words)]
    ran = subprocess.run(command, capture_output=True, text=True)
    if ran.returncode:
        sys.exit(
            f"by_turns: {' '.join(command)} ended with status {ran.returncode}:"
            f" {ran.stderr.strip()}"
        )
    return int(ran.stdout)


def measure(programs, turns, words):
    """Gives the times of both programs, measured by turns. The first of all is not counted: it
    warms up."""
    for program in programs:
        nanoseconds(program, *words[:-1], max(1, words[-1] // 20))
    times = [[], []]
    for turn in range(turns):
        for which in (0, 1) if turn % 2 == 0 else (1, 0):
            times[which].append(nanoseconds(programs[which], *words))
    return times


def count(programs, only, folder):
    """Prints the instructions of each row that one thread does."""
    print("| What | Size | bench_gates | By hand |")
    print("|---|---|---|---|")
    for name, sizes, *_ in KINDS:
        if only not in name or name == "run":
            continue
        for size in sizes[:1] if sizes == (1, 2, 4) else sizes:
            ours, by_hand = (
                instructions([*program, name, str(size)], folder) for program in programs
            )
            print(f"| {name} | {size} | {ours:.0f} | {by_hand:.0f} |", flush=True)


def row(programs, turns, kind, size):
    """Measures one row, and gives its text."""
    name, _, count, unit, figure = kind
    ours, by_hand = measure(programs, turns, (name, size, count))
    figures = [figure(size, count, statistics.median(times)) for times in (ours, by_hand)]
    speed = statistics.median(by_hand) / statistics.median(ours)
    speeds = [theirs / own for own, theirs in zip(ours, by_hand)]
    return (
        f"| {name} | {size} | {figures[0]:.2f} | {figures[1]:.2f} |"
        f" {speed:.2f} ({min(speeds):.2f} to {max(speeds):.2f}) | {unit} |"
    )


def main():
    parser = argparse.ArgumentParser(
        description=__doc__, formatter_class=argparse.RawDescriptionHelpFormatter
    )
    parser.add_argument("--turns", type=int, default=5)
    parser.add_argument("--only", default="")
    parser.add_argument("--program", default=PROGRAM)
    parser.add_argument("--instructions", action="store_true")
    asked = parser.parse_args()
    if asked.turns < 1:
        parser.error("there is at least one turn")
    if not os.access(asked.program, os.X_OK):
        parser.error(f"{asked.program} is not built: cd crates/bench_gates && rt run -- --help")
    if asked.instructions and not shutil.which("valgrind"):
        parser.error("valgrind is not there, which counts the instructions")
    with tempfile.TemporaryDirectory() as folder:
        by_hand = f"{folder}/by_hand"
        if subprocess.run(["rustc", "-O", "-o", by_hand, f"{ROOT}/bench/by_hand/main.rs"]).returncode:
            sys.exit("by_turns: bench/by_hand is not built")
        programs = ([asked.program, "measure"], [by_hand])
        if asked.instructions:
            count(programs, asked.only, folder)
            return
        print("| What | Size | bench_gates | By hand | Speed | Unit |")
        print("|---|---|---|---|---|---|")
        for kind in KINDS:
            for size in kind[1]:
                if asked.only in kind[0]:
                    print(row(programs, asked.turns, kind, size), flush=True)
    load = ", ".join(f"{it:.1f}" for it in os.getloadavg())
    print(f"\n{os.cpu_count()} processors, load of the last 1, 5 and 15 minutes: {load}")


if __name__ == "__main__":
    main()
