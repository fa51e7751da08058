"""Races: calls of two or three threads of the guest that meet, again and again, and the outcomes that the gates allow."""

import glob
import os
import re
import subprocess

import machine
import schedules

# How many answers of the gates one call of the kernel stands for, where it isn't one: a wantwrite and a dropwrite.
PARTS = {"touch": 2}


class Race:
    """A race of races/: the kernel's calls for each task, and the file for `mntgate outcomes`."""

    def __init__(self, path):
        self.name = os.path.basename(path)[: -len(".race")]
        self.path = path
        with open(path, encoding="utf-8") as file:
            lines = file.read().splitlines()
        self.about = lines[0].lstrip("# ")
        self.calls = next(line for line in lines if line.startswith("# in the kernel: ")).split(": ")[1].split()

    def allowed(self, program):
        """The outcomes that the gates allow, as `mntgate outcomes` lists them."""
        done = subprocess.run([*program, "outcomes", self.path], stdout=subprocess.PIPE, stderr=subprocess.PIPE, text=True, check=False)
        if done.returncode != 0:
            raise machine.Failed(f"mntgate outcomes {self.path} ended with status {done.returncode}:\n{done.stderr.strip()}")
        return read_outcomes(done.stdout)


def read_outcomes(text):
    """The outcomes of a listing, which begins with how many there are."""
    lines = text.splitlines()
    head = re.fullmatch(r"\d+ states, (\d+) outcomes", lines[0])
    if not head or int(head[1]) != len(lines) - 1:
        raise schedules.Unreadable(f"outcomes begin with '{lines[0]}', and are {len(lines) - 1}")
    return lines[1:]


def outcome(calls, text):
    """The answers of the guest, as '0 w,16', told as an outcome."""
    told = []
    lists = text.split(" ")
    if len(lists) != len(calls):
        raise schedules.Unreadable(f"the guest answered '{text}' to {len(calls)} tasks")
    for task, (given, found) in enumerate(zip(calls, lists)):
        for call, number in zip(given.split(","), found.split(",")):
            parts = PARTS.get(call.split(".")[0], 1)
            if number == "w":
                told.append(f"{task} waits")
                break
            if not number.isdigit():
                raise schedules.Unreadable(f"the guest answered '{text}'")
            name = "ok" if number == "0" else f"refused {number} {schedules.NAMES.get(int(number), 'unknown')}"
            told.append(f"{task} {name}")
            # What is to be given back was not taken.
            told += [f"{task} {'ok' if number == '0' else 'refused 35 Order'}"] * (parts - 1)
    return "; ".join(told)


def read_race(lines, calls):
    """How often each outcome was seen, and in how many rounds: of the lines that the guest answers a race by."""
    seen = {}
    for line in lines:
        found = re.fullmatch(r"seen (\d+) ([\dw, ]+)", line)
        if found:
            seen[outcome(calls, found[2])] = int(found[1])
            continue
        raced = re.fullmatch(r"raced (\d+)", line)
        if not raced or sum(seen.values()) != int(raced[1]):
            raise schedules.Unreadable(f"the guest answered '{line}' after {seen}")
        return seen, int(raced[1])
    raise schedules.Unreadable("the guest's answer to a race has no end")


def table(race, seen, allowed):
    """A race's table as lines, and how many of its outcomes aren't allowed."""
    lines = [f"    {seen.get(told, 0) or 'never':>8}  {told}" for told in allowed]
    others = [told for told in seen if told not in allowed]
    lines += [f"    {seen[told]:>8}  {told}: NOT AMONG THE OUTCOMES OF {race.name}.race" for told in others]
    return lines, len(others)


def compare(options, program, guest):
    """Races on this guest. Hands out how many outcomes aren't allowed."""
    wrong = int(os.environ.get("COMPARE_WRONG", "0"))
    differing = 0
    folder = "races/module" if options.module else "races"
    races = [Race(path) for path in sorted(glob.glob(f"{machine.HERE}/{folder}/{options.race}.race"))]
    # Before 6.6 there is no second holder.
    known = [race for race in races if guest.release >= (6, 6) or not any(".kernel" in call for call in race.calls)]
    if not known:
        raise machine.Failed(f"this kernel has no race {options.race}: see kernel/{folder}")
    for number, race in enumerate(known, 1):
        allowed = race.allowed(program)
        guest.send(f"race {options.rounds} {options.seconds} {options.seed} {' '.join(race.calls)}")
        lines = []
        while not lines or not lines[-1].startswith("raced"):
            lines.append(guest.receive(options.seconds + machine.ANSWER))
        seen, rounds = read_race(lines, race.calls)
        if number == wrong:
            seen = {told if count else told.replace(" ok", " refused 11 Again", 1): seen[told] for count, told in enumerate(seen)}
        rows, others = table(race, seen, allowed)
        print(f"{race.name}, {rounds} rounds on {guest.processors} processors: {race.about}")
        print("\n".join(rows), flush=True)
        differing += others
    print(f"seed {options.seed}, {guest.processors} processors, {number} races, {differing} outcomes that are not allowed", flush=True)
    return differing
