#!/usr/bin/env -S python3 -B
"""Compares the outcomes of random races that `mntgate outcomes` finds with its reduction, with
those that it finds in full.

    tools/random_races.py [--races N] [--seed N] [--limit STATES] [PROGRAM]

Both searches have to find the same outcomes and the same ends, and the reduced one may visit no
more states. The execution that is saved for an outcome is replayed, and has to answer what the
outcome says. Some calls come after one of a line before: an outcome in which nobody waits has to be
one of the same race without that order, too. A race that has more states than the limit counts for
nothing, and another one is taken. With no PROGRAM it is crates/mntgate/out/mntgate, and there are
300 races. Prints how many agree, and how many states were visited; or the first race that doesn't
agree, and what differs: the exit status is 1 then."""

import argparse
import concurrent.futures
import os
import re
import subprocess
import sys
import tempfile

ROOT = os.path.dirname(os.path.dirname(os.path.realpath(__file__)))
sys.path.insert(0, f"{ROOT}/tests")

from program.stories import Dice

# What stands before a race: nothing; a file, which task 0 has open and may write to; a task inside
# a level; a frozen superblock; a read-only one.
OPENINGS = [
    "",
    "0 wantwrite 0 0\n0 run\n0 create 0 file\n0 run\n0 open 1\n0 run\n",
    "1 start 1 0\n1 run\n",
    "0 freeze\n0 run\n",
    "0 remount ro\n0 run\n",
]
# What a task calls, in a row. C stands for the number of a processor.
CALLS = [
    ["remount ro"],
    ["remount rw"],
    ["retry remount ro"],
    ["remount ro", "if ok remount rw"],
    ["wantwrite 0 C", "if ok dropwrite 0 C"],
    ["wantwrite 0 C", "dropwrite 0 C"],
    ["wantwrite 0 C"],
    ["trywant 0 C", "drop 0 C"],
    ["want 0 C"],
    ["wantwrite 0 C", "create 0 file", "dropwrite 0 C"],
    ["freeze", "thaw"],
    ["freeze", "snapshot", "thaw"],
    ["freeze user"],
    ["thaw"],
    ["start 1 C", "end 1 C"],
    ["trystart 2 C"],
    ["change 0 ro"],
    ["change 0 rw"],
    ["remove 1"],
    ["close 1 C"],
    ["open 1"],
    ["callback 1"],
    ["freeze", "hook sync 5"],
]
ANSWER = re.compile(r"^(\d+) ((?:ok|refused)\b.*)$")


ORDER = re.compile(r"\bafter \S+ ")


def drawn(dice, items):
    """One of these."""
    return items[dice.between(0, len(items) - 1)]


def random_race(seed):
    """A race of 2 or 3 tasks with 1 to 3 calls each, on 1 or 2 processors. Its lines stand in an
    order that is drawn, too, and one call of four comes after one of a line before."""
    dice = Dice(seed)
    tasks, cpus = dice.between(2, 3), dice.between(1, 2)
    lines = [f"config {tasks} {cpus} 1 3 8\n", drawn(dice, OPENINGS), "race\n"]
    left = {task: list(drawn(dice, CALLS)) for task in range(tasks)}
    turns, names = [0] * tasks, []
    while left:
        task = drawn(dice, list(left))
        call = left[task].pop(0).replace("C", str(dice.between(0, cpus - 1)))
        if not call.startswith("hook"):
            if names and dice.between(0, 3) == 0:
                call = f"after {drawn(dice, names)} {call}"
            names.append(f"{task}.{turns[task]}")
            turns[task] += 1
        lines.append(f"{task} {call}\n")
        left = {task: calls for task, calls in left.items() if calls}
    return "".join(lines)


def outcomes(program, limit, race, *words):
    """How many states a search visits, and the outcomes, or the ends; None where there are more
    states than the limit."""
    ran = subprocess.run(
        [program, "outcomes", "--limit", str(limit), *words],
        input=race,
        capture_output=True,
        text=True,
        check=False,
    )
    head, *lines = ran.stdout.splitlines() or [""]
    if head.startswith("more than"):
        return None
    if ran.returncode or not head.endswith(("outcome", "outcomes", "end", "ends")):
        sys.exit(f"random_races.py: no outcomes of\n{race}{ran.stdout}{ran.stderr}")
    return int(head.split()[0]), lines


def answers(outcome):
    """What each call answers in an outcome, in the order of tasks."""
    return [part for part in outcome.split("; ") if ANSWER.match(part)]


def replayed(program, schedule):
    """What the calls of a schedule answer behind the set-up, in the order of tasks, a snapshot
    without its blocks."""
    ran = subprocess.run([program, "replay", schedule], capture_output=True, text=True, check=True)
    found = [match.groups() for match in map(ANSWER.match, ran.stdout.splitlines()) if match]
    return [
        f"{task} {re.sub(r' used .*', '', answer)}"
        for task, answer in sorted(found, key=lambda it: int(it[0]))
    ]


def wrong_executions(program, limit, race, lines):
    """The first outcome whose saved execution doesn't answer what it says. A call that is made
    again has answers that are no part of an outcome."""
    if "retry" in race:
        return None
    before = race.split("race\n")[0]
    with tempfile.TemporaryDirectory() as folder:
        with open(f"{folder}/opening", "w", encoding="utf-8") as opening:
            opening.write(before)
        asked = replayed(program, f"{folder}/opening")
        outcomes(program, limit, race, "--save", folder)
        for number, line in enumerate(lines, 1):
            came = replayed(program, f"{folder}/{number}.schedule")
            wanted = sorted(asked + answers(line), key=lambda it: int(it.split()[0]))
            if came != wanted:
                return f"{line}\nis shown by an execution that answers\n{'; '.join(came)}"
    return None


def wrong_orders(program, limit, race, lines):
    """The first outcome of a race in which nobody waits, and which the same race doesn't have where
    no call comes after another task's."""
    free = outcomes(program, limit, ORDER.sub("", race)) if ORDER.search(race) else None
    if free is None:
        return None
    return next(
        (
            f"{line}\nis no outcome without the order of calls"
            for line in lines
            if "waits" not in line and line not in free[1]
        ),
        None,
    )


def compare(program, limit, seed):
    """How many states the race of a seed has reduced and in full, and what differs; None where
    there are too many."""
    race = random_race(seed)
    full = outcomes(program, limit, race, "--no-reduction")
    if full is None:
        return None
    reduced = outcomes(program, limit, race)
    if reduced is None or reduced[0] > full[0] or reduced[1] != full[1]:
        return full[0], 0, f"{race}in full: {full}\nreduced: {reduced}"
    ends = outcomes(program, limit, race, "--ends", "--no-reduction")
    led = outcomes(program, limit, race, "--ends")
    if led is None or led[0] != reduced[0] or led[1] != ends[1]:
        return full[0], 0, f"{race}ends in full: {ends}\nreduced: {led}"
    wrong = wrong_executions(program, limit, race, reduced[1]) or wrong_orders(
        program, limit, race, reduced[1]
    )
    return full[0], reduced[0], wrong and race + wrong


def main():
    """Compares the races one after the other, until there are as many as are wanted."""
    words = argparse.ArgumentParser(allow_abbrev=False)
    words.add_argument("--races", type=int, default=300)
    words.add_argument("--seed", type=int, default=1)
    words.add_argument("--limit", type=int, default=50_000)
    words.add_argument("program", nargs="?", default=f"{ROOT}/crates/mntgate/out/mntgate")
    asked = words.parse_args()
    program = os.path.abspath(asked.program)
    agree, all_states, visited, seed = 0, 0, 0, asked.seed
    with concurrent.futures.ThreadPoolExecutor(os.cpu_count()) as pool:
        while agree < asked.races:
            seeds = range(seed, seed + asked.races - agree)
            seed = seeds.stop
            for found in pool.map(lambda it: compare(program, asked.limit, it), seeds):
                if found is None:
                    continue
                full, reduced, differs = found
                if differs:
                    print(differs)
                    sys.exit(1)
                agree, all_states, visited = agree + 1, all_states + full, visited + reduced
    print(
        f"{agree} races agree; {all_states} states, of which {visited} were visited with the"
        " reduction"
    )


if __name__ == "__main__":
    main()
