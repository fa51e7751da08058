#!/usr/bin/env -S python3 -B
"""Measures how fast `mntgate outcomes` searches the races of bench/races, and how much memory a
state takes.

    bench/states.py [PROGRAM]

With no PROGRAM it takes crates/mntgate/out/mntgate, the proved one. A row has how many states were
visited, the processor time of the program alone, states a second by that time, and bytes a state:
the most memory that the program had, less that of a race of two states. Each race has a row of a
search in full, and one of a reduced search. Each search is done three times, and the fastest
counts.

Where `spin` and `cc` are there, each race has a row of Spin in full, too, and one with Spin's own
reduction: on the models of bench/spin, which do the same steps by hand. They have some more states,
since they keep an answer beside the place in the call. The room of a state is what Spin tells."""

import glob
import os
import re
import shutil
import subprocess
import sys
import tempfile

ROOT = os.path.dirname(os.path.dirname(os.path.realpath(__file__)))
SMALL = "config 1 1 1 2 8\nrace\n0 drop 0 0\n"
SEARCHES = {"full": ["--no-reduction"], "reduced": []}
# How Spin's search is compiled.
SPIN = {"Spin, full": ["-DNOREDUCE"], "Spin, reduced": []}


def timed(words, out):
    """Runs a program; the processor time that it took, and the most memory that it had."""
    child = os.posix_spawn(
        words[0], words, os.environ, file_actions=[(os.POSIX_SPAWN_DUP2, out.fileno(), 1)]
    )
    _, status, used = os.wait4(child, 0)
    out.seek(0)
    return status, used.ru_utime, used.ru_maxrss * 1024


def search(program, race, *words):
    """Searches a race; the states that were visited, user time in seconds, and most memory in
    bytes."""
    with tempfile.TemporaryFile() as out:
        status, seconds, most = timed(
            [program, "outcomes", "--limit", "100000000", *words, race], out
        )
        counts = re.match(rb"([0-9]+) states?, ", out.read())
    if status or not counts:
        sys.exit(f"states.py: {program} didn't search {race}")
    return int(counts[1]), seconds, most


def spin(model, flags):
    """Searches a model by Spin; the states that it kept, user time in seconds, and the bytes that
    they took."""
    with tempfile.TemporaryDirectory() as folder, tempfile.TemporaryFile() as out:
        for file in glob.glob(f"{ROOT}/bench/spin/*.pml"):
            shutil.copy(file, folder)
        subprocess.run(
            ["spin", "-a", f"{model}.pml"], cwd=folder, check=True, stdout=subprocess.DEVNULL
        )
        subprocess.run(
            ["cc", "-O2", "-DSAFETY", *flags, "-o", "pan", "pan.c"], cwd=folder, check=True
        )
        _, seconds, _ = timed([f"{folder}/pan", "-m1000000", "-w22", "-E"], out)
        told = out.read()
    states = re.search(rb"([0-9]+) states, stored", told)
    room = re.search(
        rb"([0-9.]+)\s+(?:actual|equivalent) memory usage for states(?! \(stored)", told
    )
    if not states or not room:
        sys.exit(f"states.py: Spin didn't search {model}")
    return int(states[1]), seconds, float(room[1]) * 1024 * 1024


def print_row(race, how, states, seconds, room):
    """Prints a row."""
    print(
        f"{race:<14}{how:<15}{states:>10}{seconds:>10.2f}"
        f"{states / max(seconds, 0.001):>12,.0f}{room / states:>13.0f}"
    )


def main(program):
    """Prints rows for each race."""
    with tempfile.NamedTemporaryFile("w", suffix=".race") as small:
        small.write(SMALL)
        small.flush()
        _, _, least = search(program, small.name)
    has_spin = shutil.which("spin") and shutil.which("cc")
    print(
        f"{'race':<14}{'search':<15}{'states':>10}{'seconds':>10}"
        f"{'states/s':>12}{'bytes/state':>13}"
    )
    for race in sorted(glob.glob(f"{ROOT}/bench/races/*.race")):
        name = os.path.basename(race)[:-5]
        for how, words in SEARCHES.items():
            states, seconds, most = min(
                (search(program, race, *words) for _ in range(3)), key=lambda it: it[1]
            )
            print_row(name, how, states, seconds, most - least)
        for how, flags in SPIN.items() if has_spin else ():
            print_row(name, how, *min((spin(name, flags) for _ in range(3)), key=lambda it: it[1]))


if __name__ == "__main__":
    main(sys.argv[1] if len(sys.argv) > 1 else f"{ROOT}/crates/mntgate/out/mntgate")
