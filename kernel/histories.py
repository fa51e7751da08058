"""Histories: what threads of the guest called at the gates at once, in files for `mntgate validate`. What is beside a call's begin and return in
its line, the clock and whether it is one or the other, stays in the guest."""

import collections
import datetime
import enum
import os
import re
import subprocess
import tempfile

import gate_schedules
import machine
import schedules

# Three threads draw calls, and a fourth keeps them going.
THREADS = 4
DRAWERS = 3
# The longest line that mntgate reads, in bytes.
LINE = 256
# So many lines of an execution are shown.
SHOWN = 20
# Whether single mounts are changed, or the superblock is remounted. Both in one history would meet a known difference (docs/kernel.md).
CHANGES = ("mounts", "super")


def read_history(guest, seconds):
    """The calls' begins and returns in their order, each with its thread: (thread, call, None) or (thread, None, answer)."""
    lines = []
    while True:
        line = guest.receive(seconds)
        if re.fullmatch(r"recorded \d+", line):
            return lines
        found = re.fullmatch(r"\d+ (\d) (begin ([a-z]+( \w+)*)|return ok|return errno (\d+))", line)
        if not found:
            raise schedules.Unreadable(f"the guest told of a history '{line}'")
        answer = f"refused {found[5]} {schedules.NAMES.get(int(found[5]), 'unknown')}" if found[5] else "ok"
        lines.append((int(found[1]), found[3], None if found[3] else answer))


def by_rules(call, answer, release):
    """A call and its answer as the gates may have them, by the rules of this kernel (rules.py). freeze-waits: a freeze that was done may have been made
    anew until it was. thaw-leaves-a-freeze: whether such a thaw found a freeze of its holder isn't known. No freeze of a history nests."""
    if release >= (6, 6) and call.startswith("freeze") and answer == "ok":
        return f"retry {call}", answer
    still = "ok" if release >= (6, 12, 111) else "refused 22 Invalid"
    if release >= (6, 6) and call.startswith("thaw") and answer == still:
        return call, "?"
    return call, answer


def as_history(lines, release):
    """The lines of a history for `mntgate validate`."""
    told, begun = [], {}
    for thread, call, answer in lines:
        if call:
            begun[thread] = (len(told), call)
            told.append(None)
            continue
        place, call = begun.pop(thread)
        call, answer = by_rules(call, answer, release)
        told[place] = f"{thread} {call}"
        told.append(f"{thread} {answer}")
    if begun:
        raise schedules.Unreadable(f"no return was told of {begun}")
    return told


def spoil(path):
    """Writes the history with a refusal of its middle taken for Ok into a file beside it, whose path it hands out."""
    with open(path, encoding="utf-8") as file:
        lines = file.read().splitlines()
    refusals = [place for place, line in enumerate(lines) if re.fullmatch(r"\d refused (16 Busy|30 ReadOnly)", line)]
    if not refusals:
        raise machine.Failed(f"{path} has no refusal that could be taken for Ok")
    place = refusals[len(refusals) // 2]
    lines[place] = f"{lines[place][0]} ok"
    with open(f"{path}.spoiled", "w", encoding="utf-8") as file:
        file.writelines(f"{line}\n" for line in lines)
    return f"{path}.spoiled"


class Verdict(enum.Enum):
    """What is said of a history."""

    POSSIBLE = "possible"
    IMPOSSIBLE = "impossible"
    UNJUDGED = "without a verdict"


def run_validate(options, program, path):
    """What `mntgate validate` says of a history: its status, what it prints, on standard error too, and what it took."""
    with tempfile.TemporaryFile("w+") as printed, tempfile.TemporaryFile("w+") as errors:
        process = subprocess.Popen([*program, "validate", "--limit", str(options.limit), path], stdout=printed, stderr=errors)
        _, status, used = os.wait4(process.pid, 0)
        process.returncode = os.waitstatus_to_exitcode(status)
        printed.seek(0)
        errors.seek(0)
        took = f"{used.ru_utime + used.ru_stime:.1f} s of processor time, {used.ru_maxrss >> 10} MiB"
        return process.returncode, printed.read(), errors.read(), took


def judge(options, program, path):
    """Whether some execution of the gates has this history. If none has, an execution that leads as far as one does is written into a file beside it,
    and its end printed."""
    status, printed, errors, took = run_validate(options, program, path)
    name = os.path.basename(path)
    if status == 0:
        print(f"{name}: {printed.strip()}; {took}", flush=True)
        return Verdict.POSSIBLE
    if "no execution has this line" in errors:
        with open(f"{path}.schedule", "w", encoding="utf-8") as file:
            file.write(printed)
        end = "".join(f"    {line}\n" for line in printed.splitlines()[-SHOWN:])
        print(f"{name}: IMPOSSIBLE; {took}\n{errors.rstrip()} {path}.schedule, whose end is\n{end}", end="", flush=True)
        return Verdict.IMPOSSIBLE
    if re.search(r"more than \d+ states", errors):
        print(f"{name}: WITHOUT A VERDICT, it has more than {options.limit} states; {took}", flush=True)
        return Verdict.UNJUDGED
    raise machine.Failed(f"mntgate validate {path} ended with status {status}:\n{errors.strip()}")


def compare(options, program, guest):
    """Records histories and judges them. Hands out how many of them aren't possible."""
    wrong = int(os.environ.get("COMPARE_WRONG", "0"))
    paths = record(options, guest)
    counts = collections.Counter(judge(options, program, spoil(path) if number == wrong else path) for number, path in enumerate(paths, 1))
    told = ", ".join(f"{counts[verdict]} {verdict.value}" for verdict in Verdict)
    print(f"seed {options.seed}, {guest.processors} processors, {len(paths)} histories: {told}", flush=True)
    return len(paths) - counts[Verdict.POSSIBLE]


def head_of(guest, seed):
    """What stands before a history's calls. The kernel's text about itself is cut where the line would be longer than one that mntgate reads."""
    about = f"# {datetime.date.today()}, {guest.processors} processors, seed {seed}, {guest.version}"
    return [about[:LINE], f"config {THREADS} {guest.processors} {gate_schedules.MOUNTS} 2 8", "history"]


def record(options, guest):
    """Records this guest's half of the histories into files, and hands out their paths."""
    os.makedirs(options.into, exist_ok=True)
    holders = 2 if guest.release >= (6, 6) else 1
    paths = []
    for number in range((options.histories + (guest.processors == 2)) // 2):
        changes, seed = CHANGES[number % 2], options.seed + number // 2
        guest.send(f"history {options.calls // DRAWERS} {seed} {changes} {holders}")
        lines = read_history(guest, 10 * machine.ANSWER)
        name = f"{'.'.join(map(str, guest.release[:2]))}-{guest.processors}-{changes}-{seed}.history"
        paths.append(f"{options.into}/{name}")
        with open(paths[-1], "w", encoding="utf-8") as file:
            file.writelines(f"{line}\n" for line in [*head_of(guest, seed), *as_history(lines, guest.release)])
        print(f"{name}: {len(lines) // 2} calls", flush=True)
    return paths
