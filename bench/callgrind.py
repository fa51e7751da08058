"""Counts instructions by callgrind, for bench/by_turns.py and bench/beside/measure.py."""

import re
import subprocess
import sys


def instructions(words, folder):
    """The instructions of one round of a program that takes the number of rounds as its last word:
    the difference of two counts."""
    counts = []
    for rounds in (200, 1_200):
        command = [
            "valgrind",
            "--tool=callgrind",
            f"--callgrind-out-file={folder}/callgrind",
            *words,
            str(rounds),
        ]
        ran = subprocess.run(command, capture_output=True, text=True)
        found = re.search(r"Collected : (\d+)", ran.stderr)
        if ran.returncode or not found:
            sys.exit(
                f"callgrind: {' '.join(command)} ended with status {ran.returncode}:"
                f" {ran.stderr.strip()}"
            )
        counts.append(int(found[1]))
    return (counts[1] - counts[0]) / 1_000
