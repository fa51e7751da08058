#!/usr/bin/env python3
"""Measures the gates through C beside the library's own speed and what a user would take instead,
by turns, and prints tables.

    bench/beside/measure.py [--turns N] [--prefix PREFIX] [--gates-only] [--instructions]

PREFIX is where bin/install-c has installed the library (out/c, if left out). It needs gcc, rustc,
cargo, and of Debian liburcu-dev, librust-parking-lot-dev and librust-crossbeam-utils-dev. A pair is
taken and given back by each thread, at a processor number of its own. Figures are medians and, in
brackets, the best, of N turns (7, if left out): by the clock, and by the processor time of the
threads, which others disturb less but which leaves out who waits asleep. The library's own speed is
that of crates/bench_gates, if it is built (`cd crates/bench_gates && rt run -- --help`): a proved
program, whose compiler sees the library's code and puts it into the loop. The steps by hand are
calls that aren't put into the loop, as the calls of C aren't. 'Speed through C' is compared with
both, turn by turn, by processor time: 1.00 is as fast. --gates-only leaves out what a user would
take instead. The last line has the machine's load.

With --instructions callgrind counts the instructions of one round in place of its time: those of
1,200 less those of 200, divided by 1,000. valgrind has to be there. No proof covers these
figures."""

import argparse
import os
import statistics
import subprocess
import sys
import tempfile

ROOT = os.path.dirname(os.path.dirname(os.path.dirname(os.path.realpath(__file__))))
sys.path.insert(0, f"{ROOT}/bench")
from callgrind import instructions  # noqa: E402

HERE = f"{ROOT}/bench/beside"
WORKBENCH = f"{ROOT}/crates/bench_gates/out/bench_gates"
THREADS = (1, 2, 4)
PAIRS = 3_000_000
# Of what one task does alone: the sizes, and how often it is done. Of a freeze these are tasks and
# processors, of a snapshot nodes.
ALONE = [("freeze", (1, 8, 63), 20_000), ("snapshot", (2, 8, 63), 50_000)]
PAIR = {"mount": "access at a mount", "write-access": "write access"}


def build(prefix, folder, gates_only):
    """Builds the programs; for each of the sides that there are, its first words."""
    gates, by_hand, locks = f"{folder}/gates", f"{folder}/by_hand", f"{ROOT}/out/c/locks"
    words = [
        "gcc",
        "-std=c11",
        "-O2",
        "-Wall",
        "-Wextra",
        "-Werror",
        f"-I{prefix}/include",
        "-o",
        gates,
        f"{HERE}/gates.c",
        f"{prefix}/lib/libmntgate.a",
    ]
    subprocess.run([*words, "-lurcu", "-lpthread"], check=True)
    subprocess.run(
        ["rustc", "--edition", "2021", "-O", "-o", by_hand, f"{ROOT}/bench/by_hand/main.rs"], check=True
    )
    sides = {"through C": [gates], "by hand, in Rust": [by_hand]}
    if os.access(WORKBENCH, os.X_OK):
        sides["the library's own"] = [WORKBENCH, "measure"]
    if not gates_only:
        subprocess.run(
            ["cargo", "build", "--quiet", "--release", "--offline"],
            cwd=f"{HERE}/locks",
            env={**os.environ, "CARGO_TARGET_DIR": locks},
            check=True,
        )
        sides["locks"] = [f"{locks}/release/locks"]
    return sides


def measured(words):
    """Runs a program that prints nanoseconds; these, and the processor time that it took, in
    seconds."""
    with tempfile.TemporaryFile("w+") as out:
        child = subprocess.Popen([str(word) for word in words], stdout=out)
        _, child.returncode, used = os.wait4(child.pid, 0)
        if child.returncode:
            sys.exit(f"measure: {words} failed")
        out.seek(0)
        return int(out.read()), used.ru_utime + used.ru_stime


def by_turns(rows, sizes, turns, count):
    """The figures of each row and size: what `measured` gives, turn by turn."""
    found = {}
    for turn in range(turns):
        for size in sizes:
            for name, words, times in rows if turn % 2 == 0 else rows[::-1]:
                found.setdefault((name, size), []).append(measured([*words, size, count * times]))
    return found


def print_table(title, sizes, rows):
    """Prints a table of rows: each a name, with the cells of its sizes."""
    print(f"| {title} | " + " | ".join(str(size) for size in sizes) + " |")
    print("|---|" + "---|" * len(sizes))
    for name, cells in rows:
        print(f"| {name} | " + " | ".join(cells) + " |")
    print(flush=True)


def table(title, best, rows, sizes, figures):
    """Prints a table of medians and bests."""
    cells = lambda name: [
        f"{statistics.median(figures[name, size]):.2f} ({best(figures[name, size]):.2f})"
        for size in sizes
    ]
    print_table(title, sizes, [(name, cells(name)) for name, *_ in rows])


def speeds(what, sides, sizes, figures):
    """The rows of the speed of something through C compared with the other sides, from what both
    took in each turn: medians, least and most."""
    rows = []
    for side in sides:
        if side in ("through C", "locks"):
            continue
        cells = []
        for size in sizes:
            ratios = [
                theirs / ours
                for ours, theirs in zip(
                    figures[f"{what}, through C", size], figures[f"{what}, {side}", size]
                )
            ]
            cells.append(
                f"{statistics.median(ratios):.2f} ({min(ratios):.2f} to {max(ratios):.2f})"
            )
        rows.append((f"{what}, compared with {side}", cells))
    return rows


def rows_of(name, what, sides):
    """The rows of something that the gates do, of each side."""
    return [
        (f"{name}, {side}", [*words, what], 1) for side, words in sides.items() if side != "locks"
    ]


def measure_pairs(sides, turns):
    """Measures pairs of threads, and prints them."""
    readers = [row for what, name in PAIR.items() for row in rows_of(name, what, sides)]
    if "locks" in sides:
        gates, locks = sides["through C"], sides["locks"]
        readers += [
            ("pthread_rwlock", [*gates, "pthread_rwlock"], 1),
            ("std::sync::RwLock", [*locks, "std"], 1),
            ("parking_lot::RwLock", [*locks, "parking_lot"], 1),
        ]
        readers += [
            ("crossbeam ShardedLock", [*locks, "sharded"], 1),
            ("liburcu", [*gates, "urcu"], 5),
        ]
    found = by_turns(readers, THREADS, turns, PAIRS)
    times = {name: factor for name, _, factor in readers}
    clock = {
        (name, size): [size * PAIRS * times[name] * 1e3 / nanos for nanos, _ in took]
        for (name, size), took in found.items()
    }
    table("Million pairs a second by the clock, of so many threads", max, readers, THREADS, clock)
    spent = {
        (name, size): [size * size * PAIRS * times[name] / 1e6 / used for _, used in took]
        for (name, size), took in found.items()
    }
    table("By processor time", max, readers, THREADS, spent)
    for title, at in (
        ("Speed through C by the clock, of so many threads", 0),
        ("By processor time", 1),
    ):
        used = {key: [figures[at] for figures in took] for key, took in found.items()}
        print_table(
            title,
            THREADS,
            [row for name in PAIR.values() for row in speeds(name, sides, THREADS, used)],
        )


def measure_alone(sides, turns):
    """Measures what one task does alone, and prints it."""
    for what, sizes, count in ALONE:
        rows = rows_of(what, what, sides)
        found = by_turns(rows, sizes, turns, count)
        took = {
            key: [nanos / count / 1e3 for nanos, _ in figures] for key, figures in found.items()
        }
        table(f"Microseconds for one {what}, of such a size", min, rows, sizes, took)
        print_table("Speed through C", sizes, speeds(what, sides, sizes, took))


def count(sides, folder):
    """Prints the instructions of each thing that one thread does."""
    for what, sizes in [(what, (1,)) for what in PAIR] + [
        (what, sizes) for what, sizes, _ in ALONE
    ]:
        cells = lambda words: [
            f"{instructions([*words, what, str(size)], folder):.0f}" for size in sizes
        ]
        print_table(
            f"Instructions of one {PAIR.get(what, what)}",
            sizes,
            [(side, cells(words)) for side, words in sides.items() if side != "locks"],
        )


def main():
    parser = argparse.ArgumentParser()
    parser.add_argument("--turns", type=int, default=7)
    parser.add_argument("--prefix", default=f"{ROOT}/out/c")
    parser.add_argument("--gates-only", action="store_true")
    parser.add_argument("--instructions", action="store_true")
    words = parser.parse_args()
    with tempfile.TemporaryDirectory() as folder:
        sides = build(words.prefix, folder, words.gates_only or words.instructions)
        if words.instructions:
            count(sides, folder)
            return
        measure_pairs(sides, words.turns)
        measure_alone(sides, words.turns)
    print(
        f"{os.cpu_count()} processors; load of the last 1, 5 and 15 minutes:"
        f" {', '.join(f'{load:.1f}' for load in os.getloadavg())}"
    )


if __name__ == "__main__":
    main()
