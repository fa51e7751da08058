#!/usr/bin/env -S python3 -B
"""Measures `mntgate validate` on histories of random executions, of rising length.

    bench/histories.py [--tasks N] [--seed N] [--keep DIR] [--program PROGRAM] [CALLS..]

PROGRAM, or bin/mntgate, plays each execution (`replay --json`) and judges the history. Task 0
freezes and thaws, remounts, changes the mount and runs callbacks, one call in three; the others
take an access and give it back. Who moves is drawn; a return is recorded up to three moves after
the last step, and the next call begins up to four moves later. A replay takes 1,048,576 lines,
which are two a move. So after 20,000 calls each task gives back what it has, and task 0 makes the
mount and the file system writable and runs the callbacks. All is then as it was at the beginning,
and a new replay goes on. Prints a row for each number of CALLS: the calls and states, seconds of
processor time, and megabytes at most. With --keep the histories stay in DIR."""

import argparse
import json
import os
import random
import re
import subprocess
import sys
import tempfile
from typing import NamedTuple

ROOT = os.path.dirname(os.path.dirname(os.path.realpath(__file__)))
# Each call that is drawn, and what its task has to do next if it is granted.
TAKES = {"want 0 0": "drop 0 0", "wantwrite 0 0": "dropwrite 0 0", "start 2 0": "end 2 0"}
ADMINISTERS = {
    "remount ro": None,
    "remount rw": None,
    "change 0 ro": None,
    "change 0 rw": None,
    "freeze": "thaw",
    "thaw": None,
    "callback 1": None,
    "callback 2": None,
    "callback 3": None,
}
LATEST = 3
LIMIT = 4_000_000_000
PART = 20_000


class Mix(NamedTuple):
    """What is drawn: what tasks take, what task 0 does, one call in so many, and how many moves
    later the next call begins at most."""

    takes: dict
    administers: dict
    one_in: int
    longest: int


MIX = Mix(TAKES, ADMINISTERS, 3, 4)


class Player:
    """The gates, which play line by line."""

    def __init__(self, program, tasks):
        self.process = subprocess.Popen(
            [program, "replay", "--json"], stdin=subprocess.PIPE, stdout=subprocess.PIPE, text=True
        )
        self.process.stdin.write(f"config {tasks} 1 1 2 8\n")

    def answer(self, line):
        """What a call has answered by this line, as a history says it; None if it goes on. Where
        the model forbids the action of a wrong step, that is told beside, and the step is done."""
        self.process.stdin.write(f"{line}\nwords\n")
        self.process.stdin.flush()
        answer = None
        while (record := json.loads(self.process.stdout.readline()))["record"] != "words":
            if record["record"] == "answer" and record["answer"] != "forbidden":
                answer = record
        if answer is None or answer["answer"] == "waiting":
            return None
        if answer["answer"] == "ok":
            return f"ok {'ran' if answer['ran'] else 'none'}" if "ran" in answer else "ok"
        return f"refused {answer['errno']} {answer['name']}"


class Task:
    """What a task is at: its call, if one is under way, what it has answered, how long that waits
    to be told, and what it has to give back."""

    def __init__(self, number):
        self.number, self.call, self.answer, self.wait, self.owes = number, None, None, 0, None

    def draw(self, dice, mix):
        """Its next call."""
        if self.owes:
            return self.owes
        is_first = self.number == 0 and dice.randrange(mix.one_in) == 0
        return dice.choice([*(mix.administers if is_first else mix.takes)])

    def returned(self, mix):
        """It has to give back what it was granted."""
        if self.call == self.owes:
            self.owes = None
        elif self.answer.startswith("ok"):
            self.owes = {**mix.takes, **mix.administers}[self.call]


def draw(program, tasks, calls, dice, mix=MIX, patience=None):
    """The lines of a history with so many calls. Once so many draws have brought no line, it ends
    as it is, if that is said: calls may be under way then."""
    lines, left = [f"config {tasks} 1 1 2 8", "history"], calls
    while left:
        player, movers = Player(program, tasks), [Task(number) for number in range(tasks)]
        part = min(left, PART)
        lines += draw_part(player, movers, part, dice, mix, patience)
        left -= part
        if left:
            lines += begin_anew(player)
        player.process.stdin.close()
        player.process.wait()
    return lines


def begin_anew(player):
    """What task 0 does alone, so that the next replay begins where this one ends."""
    lines = []
    for call in ("remount rw", "change 0 rw", "callback 1", "callback 2", "callback 3"):
        answer = None
        while answer in (None, "ok ran"):
            lines.append(f"0 {call}")
            answer = player.answer(lines[-1])
            while answer is None:
                answer = player.answer("0 step")
            lines.append(f"0 {answer}")
    return lines


def draw_part(player, movers, calls, dice, mix, patience):
    """The lines of so many calls, behind which no task has anything to give back."""
    lines, begun, idle = [], 0, 0
    while (begun < calls or any(task.call or task.owes for task in movers)) and idle != patience:
        idle += 1
        task = dice.choice(movers)
        if task.call is None and (begun < calls or task.owes):
            if task.wait:
                task.wait -= 1
                continue
            task.call, begun, idle = task.draw(dice, mix), begun + 1, 0
            lines.append(f"{task.number} {task.call}")
            task.answer = player.answer(lines[-1])
        elif task.call and task.answer is None:
            task.answer = player.answer(f"{task.number} step")
            task.wait = dice.randrange(LATEST + 1)
        elif task.call and task.wait:
            task.wait -= 1
        elif task.call:
            lines.append(f"{task.number} {task.answer}")
            task.returned(mix)
            task.call, task.wait, idle = None, dice.randrange(mix.longest + 1), 0
    return lines


def measure(program, path):
    """What the program says of a history, and the seconds and megabytes that it took."""
    with tempfile.TemporaryFile("w+") as file:
        process = subprocess.Popen(
            [program, "validate", "--limit", str(LIMIT), path],
            stdout=file,
            stderr=subprocess.STDOUT,
        )
        _, _, usage = os.wait4(process.pid, 0)
        file.seek(0)
        said = file.readline()
    found = re.fullmatch(r"possible: ([\d,]+) calls; ([\d,]+) states\n", said)
    if not found:
        sys.exit(f"histories.py: {path}: {said}")
    return found[1], found[2], usage.ru_utime + usage.ru_stime, usage.ru_maxrss / 1024


def main():
    parser = argparse.ArgumentParser(
        description=__doc__, formatter_class=argparse.RawDescriptionHelpFormatter
    )
    parser.add_argument("--tasks", type=int, default=3)
    parser.add_argument("--seed", type=int, default=1)
    parser.add_argument("--keep", metavar="DIR")
    parser.add_argument("--program", default=f"{ROOT}/bin/mntgate")
    parser.add_argument("calls", type=int, nargs="*", default=[1_000, 10_000])
    args = parser.parse_args()
    print("calls     states        seconds  megabytes")
    with tempfile.TemporaryDirectory() as folder:
        for calls in args.calls:
            path = f"{args.keep or folder}/{args.tasks}-{calls}.history"
            with open(path, "w", encoding="utf-8") as file:
                file.writelines(
                    f"{line}\n"
                    for line in draw(args.program, args.tasks, calls, random.Random(args.seed))
                )
            begun, states, seconds, megabytes = measure(args.program, path)
            print(f"{begun:9} {states:13} {seconds:7.1f}  {megabytes:9.0f}", flush=True)


if __name__ == "__main__":
    main()
