#!/usr/bin/env python3
"""Writes a schedule of 1,000,000 lines: one configuration, and then a mix of wants, drops, changes,
runs and steps.

    python3 bench/make_schedule.py > /tmp/million.schedule
"""

import sys

LINES = 1_000_000

# One round of each of four tasks. A change to read-only is Busy while another task holds an access,
# and else is undone.
ROUND = """\
{a} want 0 0
{a} run
{b} trywant 1 1
{b} step
{b} step
{b} step
{b} step
{b} step
{c} change 0 ro
{c} run
{a} drop 0 1
{a} run
{b} drop 1 0
{b} step
{c} change 0 ro
{c} run
{a} want 0 1
{a} run
{c} trychange 0 rw
{c} run
# a comment
{d} step
"""


def main():
    lines = ["config 8 2 2 8 100"]
    turn = 0
    while len(lines) < LINES:
        tasks = [(turn + place) % 8 for place in range(4)]
        text = ROUND.format(a=tasks[0], b=tasks[1], c=tasks[2], d=tasks[3])
        lines.extend(text.splitlines())
        turn += 1
    sys.stdout.write("\n".join(lines[:LINES]) + "\n")


if __name__ == "__main__":
    main()
