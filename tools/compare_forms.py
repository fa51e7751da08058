#!/usr/bin/env -S python3 -B
"""Compares what `mntgate replay` prints of random schedules without a form, with `--events --raw`,
and with `--json`.

    tools/compare_forms.py [--schedules N] [--seed N] [PROGRAM]

A schedule is replayed with `--json`. From its records follow the lines of `--events --raw`, and
those of a plain replay in which each `run` is written as the steps that it took. Both have to be
just what the program prints. With no PROGRAM it is crates/mntgate/out/mntgate, and there are 21,000
schedules. Prints how many agree, or the first that doesn't; the exit status is 1 then."""

import argparse
import concurrent.futures
import json
import os
import subprocess
import sys

ROOT = os.path.dirname(os.path.dirname(os.path.realpath(__file__)))
sys.path.insert(0, f"{ROOT}/tests")

from program.stories import random_schedule

# The named values of a call, an action and an answer in the order in which a line has them.
ORDER = ["node", "mount", "level", "cpu", "directory", "to", "kind", "holder", "blocks", "stage"]
REASONS = {
    "under way": None,
    "no such number": "there is no {of} {number}",
    "no blocks": "no block is asked for",
    "holds level": "holds level {level}",
    "lacks level": "doesn't hold level {level}",
    "lacks access": None,
    "not open": "hasn't opened node {node}",
    "too many accesses": "holds 1024 accesses at mount {mount}",
    "already open": "has opened node {node}",
}


def values(record):
    """The named values of a record as words, in the order of lines."""
    return [str(record[name]) for name in ORDER if name in record]


def action_text(action):
    """The action of a step, as a line has it."""
    match action["name"]:
        case "grant" | "return" as name:
            gate = "mount" if "mount" in action else "level"
            return f"{name} {gate} {action[gate]}"
        case "ro" | "rw" as name:
            return f"mount {action['mount']} {name}" if "mount" in action else f"sb {name}"
        case name:
            return " ".join([name, *values(action)])


def wait_text(wait):
    """For whom a task waits, as a line has it."""
    blocker = (
        f", task {wait['task']}" if "task" in wait else ", the freeze" if wait.get("freeze") else ""
    )
    return f"waiting for {wait['word']}{blocker}"


def answer_text(record):
    """An answer, as a line has it, without its reason."""
    text = record["answer"]
    if "hook" in record:
        return f"{text} hook {record['hook']}"
    if "errno" in record:
        return f"{text} {record['errno']} {record['name']}"
    if "ran" in record:
        return f"{text} {'ran' if record['ran'] else 'none'}"
    return " ".join(
        [text, *(f"{name} {record[name]}" for name in ("node", "used") if name in record)]
    )


def reason_text(reason, call):
    """Why a beginning was refused; `call` is the line of the call that is under way."""
    if reason["name"] == "under way":
        return f"{call} is under way"
    if reason["name"] == "lacks access":
        return (
            f"holds no access at mount {reason['mount']}"
            if "mount" in reason
            else "holds no access at any mount"
        )
    return REASONS[reason["name"]].format(**reason)


def step_text(record, is_plain):
    """A step, as a line has it: without a form the line says only that the task waits."""
    found = [] if record["found"] is None else [record["found"]]
    words = [record["task"], record["touch"], record["word"], *found, record["left"]]
    words += [action_text(record["action"])] if record["action"] else []
    if record["waits_for"]:
        words.append("waiting" if is_plain else wait_text(record["waits_for"]))
    return " ".join(map(str, words))


def model_lines(record):
    """The lines of a model."""
    yield f"model stage {record['stage']} passed {record['passed']} sb {record['sb']}"
    yield from (f"holder {holder}" for holder in record["holders"])
    yield from (f"mount {mount} ro" for mount in record["read_only_mounts"])
    for task in record["tasks"]:
        yield from (
            f"task {task['task']} mount {held['mount']} {held['accesses']}"
            for held in task["mounts"]
        )
        yield from (f"task {task['task']} level {level}" for level in task["levels"])
        yield from (f"task {task['task']} open {node}" for node in task["open"])
    for node in record["nodes"]:
        marks = f"{'dirty' if node['dirty'] else 'clean'}{' removed' if node['removed'] else ''}"
        yield f"node {node['node']} {node['kind']} {node['parent']} {node['size']} {marks}"


def lines_of(records, is_plain):
    """The lines that say what the records say."""
    calls = {}
    for record, behind in zip(records, [*records[1:], {}]):
        task = record.get("task")
        match record["record"]:
            case "begin":
                call = " ".join([record["call"], *values(record)])
                # A line that begins a call has one record; where that is refused it has two.
                if behind.get("line") != record["line"]:
                    calls[task] = call
                if not is_plain:
                    yield f"{task} {call}"
            case "step":
                yield step_text(record, is_plain)
            case "answer":
                told = (
                    f": {reason_text(record['reason'], calls.get(task))}"
                    if "reason" in record and not is_plain
                    else ""
                )
                yield f"{task} {answer_text(record)}{told}"
            case "model":
                yield from model_lines(record)
            case _:
                yield from (f"{item['word']} {item['value']}" for item in record["items"])


def spelled_out(schedule, records):
    """The schedule with each `run` that asks no hook written as the steps that it took, and the
    records of all lines but of other runs."""
    steps = {}
    for record in records:
        if record["record"] == "step":
            steps[record["line"]] = steps.get(record["line"], 0) + 1
    lines, hooked = [], set()
    for number, line in enumerate(schedule.decode().splitlines(), 1):
        words = line.split(" ")
        if words[1:] == ["run"] and number in steps:
            lines += [f"{words[0]} step"] * steps[number]
        else:
            lines.append(line)
            if words[1:2] == ["run"] and len(words) > 2:
                hooked.add(number)
    kept = [
        record for record in records if record["record"] != "step" or record["line"] not in hooked
    ]
    return "".join(f"{line}\n" for line in lines).encode(), kept, hooked


def printed(program, words, given):
    """What a replay prints, line by line."""
    ended = subprocess.run(
        [program, "replay", *words], input=given, stdout=subprocess.PIPE, check=True
    )
    return ended.stdout.decode().splitlines()


def difference(program, seed):
    """Where the forms of a random schedule differ; nothing where they agree."""
    schedule = random_schedule(seed)
    records = [json.loads(line) for line in printed(program, ["--json"], schedule)]
    spelled, kept, hooked = spelled_out(schedule, records)
    plain = list(lines_of(kept, True))
    waits = sum(
        1
        for record in records
        if record["record"] == "step" and record["line"] in hooked and record["waits_for"]
    )
    came = printed(program, [], spelled)
    if waits:
        # Such a run prints that it waits, which no record of its own says.
        came, plain = [
            [line for line in lines if not line.endswith(" waiting")] for lines in (came, plain)
        ]
    for what, wanted, found in (
        ("the plain replay", plain, came),
        (
            "--events --raw",
            list(lines_of(records, False)),
            printed(program, ["--events", "--raw"], schedule),
        ),
    ):
        if wanted != found:
            at = next(
                (k for k, pair in enumerate(zip(wanted, found)) if pair[0] != pair[1]),
                min(len(wanted), len(found)),
            )
            return (
                f"seed {seed}: {what} differs at line {at + 1}: {wanted[at:at + 1]} by the records,"
                f" and {found[at:at + 1]}"
            )
    return ""


def main():
    """Compares the forms; the exit status."""
    parser = argparse.ArgumentParser(description=__doc__.split("\n", maxsplit=1)[0])
    parser.add_argument("--schedules", type=int, default=21_000)
    parser.add_argument("--seed", type=int, default=0)
    parser.add_argument("program", nargs="?", default=f"{ROOT}/crates/mntgate/out/mntgate")
    asked = parser.parse_args()
    seeds = range(asked.seed, asked.seed + asked.schedules)
    with concurrent.futures.ThreadPoolExecutor(os.cpu_count()) as pool:
        for told in pool.map(lambda seed: difference(asked.program, seed), seeds):
            if told:
                sys.exit(told)
    print(f"{asked.schedules} schedules: the plain replay, --events and --json agree")


if __name__ == "__main__":
    main()
