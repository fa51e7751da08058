#!/usr/bin/env -S python3 -B
"""Measures how many fair rounds random states need until each call has its reply or has to wait,
beside the number that is proved of them.

    tools/fair_rounds.py [--states N] [--seed N] [--impatient] [--against PROGRAM]

From the opening state of a configuration random calls begin and take random steps; hooks may fail.
In the state that is reached nothing begins any more, and random rounds follow: in each of them
every task takes a step at least once, but for a start that stands outside a closed level. The
state's own number is `turns_left` (crates/progress_laws/specs/StepsLeft.antt), which is written
anew here. Prints a row for each configuration; the exit status is 1 if a state needed more rounds
than its number.

With --impatient each freeze gives up that asks whether to wait. Then rounds follow until each call
has its reply, or all is frozen and it waits outside a level. The number is `turns_to_give_up`
(GivingUp.antt, beside it).

The orders of events are written anew here too. With --against each execution is also replayed by a
program, such as crates/mntgate/out/mntgate, over the core and over the gates, and has to have the
same events and waits, and the same calls granted: the first that differs is printed, and the exit
status is
1. Calls at the tree and closes are not played; of the calls at the tree a snapshot is, since it
   alone waits."""

import argparse
import collections
import random
import subprocess
import sys

# What a task does next, and the numbers of `turns_left`: the steps left, the changes of `block` and
# the others, the start that it is at, what it tries, its room for starts and for tries; and what it
# waits for. `fails` is the store of a hook that fails, and that hook.
Step = collections.namedtuple(
    "Step",
    "left word touch arg blocks others start tries rooms waits fails",
    defaults=(0, 0, 0, None, 0, (0, 0), None, None),
)
Config = collections.namedtuple("Config", "tasks cpus mounts nodes")
LOAD, STORE, ADD, OR, AND, SWAP, CAS = "load", "store", "add", "or", "and", "swap", "cas"
IDLE, ENTER, PASSED, EXIT, REPLAY = range(5)
MODULUS = 2**64
STATES = 10000
HOOKS = ("sync", "freeze", "unfreeze", "reconfigure", "wait")
# How often a task takes many steps at once where a program replays them too.
RUNS = 0.1
# What a step has found whose hook has failed.
FAILED = object()


def entered(word):
    return word + 256 + (ENTER if word % 8 == IDLE else 0)


def left(word):
    state = word % 8
    if word >> 8 == 1:
        state = {PASSED: EXIT, EXIT: REPLAY, REPLAY: REPLAY}[state]
    return word - 256 - word % 8 + state


def claimed(word):
    return word + 8 if word % 8 in (EXIT, REPLAY) and not word & 8 else None


def called_back(word):
    state = PASSED if word >> 8 else EXIT if word % 8 == REPLAY else IDLE
    return (word >> 8 << 8) + state


def want(mount, cpu, waits, more=0, others=0):
    count, flags = f"mount{mount}.cpu{cpu}", f"mount{mount}.flags"
    yield Step(5 + more, count, ADD, 1, 0, others)
    while (
        yield Step(4 + more, flags, LOAD, 0, 0, others, waits=("hold", flags) if waits else None)
    ) & 2:
        if not waits:
            yield Step(more, count, ADD, -1, 0, others)
            return False
    if not (yield Step(3 + more, "remount", LOAD, 0, 0, others)):
        if not (yield Step(2 + more, flags, LOAD, 0, 0, others)) & 1:
            if not (yield Step(1 + more, "sb", LOAD, 0, 0, others)):
                return True
    yield Step(more, count, ADD, -1, 0, others)
    return False


def drop(mount, cpu):
    yield Step(0, f"mount{mount}.cpu{cpu}", ADD, -1)
    return True


def lock(task, steps, waits=True, **rest):
    """Takes `umount`; whether it did."""
    while (
        yield Step(steps, "umount", CAS, (0, task + 1), waits=("lock",) if waits else None, **rest)
    ):
        if not waits:
            return False
    return True


def change(config, task, mount, read_only, waits):
    cpus, flags = config.cpus, f"mount{mount}.flags"
    if not (yield from lock(task, cpus + 7, waits)):
        return False
    is_read_only = (yield Step(cpus + 6, flags, LOAD)) & 1 or (yield Step(cpus + 5, "sb", LOAD))
    done = True
    if read_only and not is_read_only:
        yield Step(cpus + 4, flags, OR, 2)
        total = 0
        for cpu in range(cpus):
            total += yield Step(cpus - cpu + 3, f"mount{mount}.cpu{cpu}", LOAD)
        done = total % MODULUS == 0
        if done:
            yield Step(2, flags, OR, 1)
        yield Step(1, flags, AND, ~2)
    elif is_read_only and not read_only:
        yield Step(1, flags, AND, ~1)
    yield Step(0, "umount", STORE, 0)
    return done


def clear_holds(held, steps):
    for number, mount in enumerate(held):
        yield Step(steps - number, f"mount{mount}.flags", AND, ~2)


def remount(config, task, read_only):
    cpus, mounts, nodes = config.cpus, config.mounts, config.nodes
    loop = mounts * (cpus + 2)
    yield from lock(task, loop + nodes + 16)
    if (yield Step(loop + nodes + 15, "stage", LOAD)):
        yield Step(0, "umount", STORE, 0)
        return False
    is_read_only = yield Step(loop + nodes + 14, "sb", LOAD)
    if is_read_only and not read_only:
        if (yield Step(1, "sb", STORE, 0, fails=("umount", 0, "reconfigure"))) is FAILED:
            return False
    elif read_only and not is_read_only:
        yield Step(loop + nodes + 13, "removed", LOAD)
        held = []
        for mount in range(mounts):
            here = (mounts - mount) * (cpus + 2) + nodes
            if (yield Step(here + 12, f"mount{mount}.flags", LOAD)) & 1:
                continue
            yield Step(here + 11, f"mount{mount}.flags", OR, 2)
            total = 0
            for cpu in range(cpus):
                total += yield Step(here - cpu + 10, f"mount{mount}.cpu{cpu}", LOAD)
            held.append(mount)
            if total % MODULUS:
                yield from clear_holds(held, len(held))
                yield Step(0, "umount", STORE, 0)
                return False
        yield Step(nodes + 11, "removed", LOAD)
        yield Step(nodes + 10, "remount", STORE, 1)
        yield from clear_holds(held, len(held) + nodes + 1)
        for node in range(1, nodes):
            yield Step(nodes - node + 2, f"node{node}", AND, ~4)
        if (yield Step(2, "sb", STORE, 1, fails=("remount", 0, "reconfigure"))) is FAILED:
            yield Step(0, "umount", STORE, 0)
            return False
        yield Step(1, "remount", STORE, 0)
    yield Step(0, "umount", STORE, 0)
    return True


def start(level, cpu, task, waits, steps=0, others=0):
    """Steps of a start: inside a write access it has so many more of its own, and changes left."""
    count, section = f"level{level}.cpu{cpu}", f"section{task}"

    def at(step, word, touch, arg=0, **rest):
        return Step(steps, word, touch, arg, 0, others, (level, waits, step), rooms=(7, 0), **rest)

    while True:
        yield at("enters", section, ADD, 1, waits=("outside", level) if waits else None)
        if (yield at("loads sync", f"sync{level}", LOAD)) % 8 == IDLE:
            yield at("counts up fast", count, ADD, 1)
            yield at("leaves", section, ADD, 1)
            return True
        yield at("counts up", count, ADD, 1)
        if not (yield at("loads block", f"block{level}", LOAD)):
            yield at("leaves", section, ADD, 1)
            return True
        yield at("counts down", count, ADD, -1)
        yield at("leaves blocked", section, ADD, 1)
        if not waits:
            return False


def end(level, cpu):
    yield Step(0, f"level{level}.cpu{cpu}", ADD, -1, 0, 1)
    return True


def want_write(mount, cpu, task):
    yield from start(1, cpu, task, True, 8, 1)
    if (yield from want(mount, cpu, True, 1, 1)):
        return True
    yield from end(1, cpu)
    return False


def drop_write(mount, cpu):
    yield Step(1, f"mount{mount}.cpu{cpu}", ADD, -1, 0, 1)
    yield from end(1, cpu)
    return True


def transition(level, makes, steps, **rest):
    """The state that was found; None if there is no such transition."""
    while True:
        found = yield Step(steps, f"sync{level}", LOAD, tries=("loads",), **rest)
        put = makes(found)
        if put is None:
            return None
        if (
            yield Step(
                steps, f"sync{level}", CAS, (found, put), tries=("exchanges", level, found), **rest
            )
        ) == found:
            return found % 8


def grace(config, steps, **rest):
    for task in range(config.tasks):
        first = None
        while True:
            more = 2 * (config.tasks - task) + (first is None)
            found = yield Step(
                steps + more,
                f"section{task}",
                LOAD,
                tries=1,
                waits=("section", task, first),
                **rest,
            )
            if found % 2 == 0 or first not in (None, found):
                break
            first = found


def callback(config, level):
    rooms = (0, 2)
    if (
        yield from transition(level, claimed, 2 * config.tasks + 3, others=2, rooms=rooms)
    ) is not None:
        yield from grace(config, 1, others=1, rooms=rooms)
        yield from transition(level, called_back, 0, others=1, rooms=rooms)
    return True


def down_write(config, level, steps, blocks, others):
    """With so many steps, and changes of `block` and others, after it. Whether it has passed the
    level: at a wait its hook may give it up."""
    rooms = (0, 2 * config.cpus + 2)

    def changes(more_blocks, more):
        return {"blocks": blocks + more_blocks, "others": others + more, "rooms": rooms}

    state = yield from transition(level, entered, steps + 2 * config.tasks + 5, **changes(1, 2))
    if state == IDLE:
        yield from grace(config, steps + 3, **changes(1, 1))
        yield from transition(level, called_back, steps + 3, **changes(1, 1))
    elif state == ENTER:
        yield Step(steps + 2, f"sync{level}", LOAD, tries=1, **changes(1, 0))
    yield Step(steps + 1, f"block{level}", SWAP, 1, tries=1, **changes(1, 0))
    total, fails = 1, None
    while total:
        total = 0
        for cpu in range(config.cpus):
            tries, waits = ("sums", level, cpu, total), ("sum", level, cpu, total)
            word = yield Step(
                steps,
                f"level{level}.cpu{cpu}",
                LOAD,
                tries=tries,
                waits=waits,
                fails=fails,
                **changes(0, 0),
            )
            if word is FAILED:
                return False
            total, fails = (total + word) % MODULUS, None
        # After a sum that has found somebody it asks whether to wait.
        fails = (f"block{level}", 0, "wait")
    return True


def up_write(level, rooms):
    yield Step(2 * level + 1, f"block{level}", STORE, 0, level, level, tries=1, rooms=rooms)
    yield from transition(level, left, 2 * level, blocks=level - 1, others=level, rooms=rooms)


def freeze(config, task, holder):
    rooms = (0, 2 * config.cpus + 2)
    one = 2 * config.tasks + 6
    nodes = config.nodes

    def at(steps, word, touch, arg=0, blocks=0, others=0, **rest):
        return Step(steps, word, touch, arg, blocks, others, tries=1, rooms=rooms, **rest)

    yield from lock(task, 3 * one + nodes + 15, blocks=6, others=9, tries=1, rooms=rooms)
    stage = yield at(3 * one + nodes + 14, "stage", LOAD, 0, 6, 9)
    if stage == 4:
        holders = yield at(2, "holders", LOAD)
        if not holders & holder:
            yield at(1, "holders", STORE, holders | holder)
        yield at(0, "umount", STORE, 0)
        return not holders & holder
    if stage:
        yield at(0, "umount", STORE, 0)
        return False
    if (yield at(3 * one + nodes + 13, "sb", LOAD, 0, 6, 9)):
        yield at(2, "stage", STORE, 4)
    else:
        yield at(3 * one + nodes + 12, "stage", STORE, 1, 6, 9)
        yield at(3 * one + nodes + 11, "umount", STORE, 0, 6, 9)
        left_closed = yield from close_levels(config, task, at, rooms)
        if left_closed is not None:
            for level in range(left_closed, 0, -1):
                yield from up_write(level, rooms)
            yield at(0, "umount", STORE, 0)
            return False
    yield at(1, "holders", STORE, holder)
    yield at(0, "umount", STORE, 0)
    return True


def close_levels(config, task, at, rooms):
    """Closes the three levels. None, or how many are left closed, at stage 0, as a hook has
    failed."""
    one, nodes = 2 * config.tasks + 6, config.nodes
    if not (yield from down_write(config, 1, 2 * one + nodes + 11, 5, 7)):
        return (yield from give_up(1, task, at, rooms))
    yield from lock(task, 2 * one + nodes + 10, blocks=5, others=7, tries=1, rooms=rooms)
    yield at(2 * one + nodes + 9, "stage", STORE, 2, 5, 7)
    if not (yield from down_write(config, 2, one + nodes + 9, 4, 5)):
        return (yield from give_up(2, task, at, rooms))
    for node in range(1, nodes):
        yield at(one + nodes - node + 9, f"node{node}", AND, ~4, 4, 5)
    if (yield at(one + 9, "stage", STORE, 3, 4, 5, fails=("stage", 0, "sync"))) is FAILED:
        return 2
    if not (yield from down_write(config, 3, 9, 3, 3)):
        return (yield from give_up(3, task, at, rooms))
    return (
        3
        if (yield at(8, "stage", STORE, 4, 3, 3, fails=("stage", 0, "freeze"))) is FAILED
        else None
    )


def give_up(level, task, at, rooms):
    """Gives a level up whose `block` is cleared. How many levels are left closed."""
    below = level - 1
    yield from transition(level, left, 2 * level + 2, blocks=below, others=below + 1, rooms=rooms)
    if level == 1:
        yield from lock(task, 3, tries=1, rooms=rooms)
    yield at(2 * level, "stage", STORE, 0, below, below)
    return below


def thaw(task, holder):
    rooms = (0, 2)

    def at(steps, word, touch, arg=0, **rest):
        changes = 3 if steps > 8 else 0
        return Step(steps, word, touch, arg, changes, changes, tries=1, rooms=rooms, **rest)

    yield from lock(task, 14, blocks=3, others=3, tries=1, rooms=rooms)
    if (yield at(13, "stage", LOAD)) != 4:
        yield at(0, "umount", STORE, 0)
        return False
    holders = yield at(12, "holders", LOAD)
    if not holders & holder:
        yield at(0, "umount", STORE, 0)
        return False
    if holders != holder:
        yield at(1, "holders", STORE, holders - holder)
    elif (yield at(11, "sb", LOAD)):
        yield at(2, "holders", STORE, 0)
        yield at(1, "stage", STORE, 0)
    else:
        if (yield at(10, "holders", STORE, 0, fails=("umount", 0, "unfreeze"))) is FAILED:
            return False
        yield at(9, "stage", STORE, 0)
        for level in (3, 2, 1):
            yield from up_write(level, rooms)
    yield at(0, "umount", STORE, 0)
    return True


def snapshot(config, task, waits):
    nodes = config.nodes
    if not (yield from lock(task, 2 * nodes + 6, waits)):
        return False
    done = (yield Step(2 * nodes + 5, "stage", LOAD)) == 4
    if done:
        yield Step(2 * nodes + 4, "used", LOAD)
        for node in range(nodes):
            yield Step(2 * nodes - node + 3, f"node{node}", LOAD)
        for node in range(nodes):
            yield Step(nodes - node + 1, f"kids{node}", LOAD)
    yield Step(0, "umount", STORE, 0)
    return done


class World:
    """All words, and of each task its next step and what it holds: levels, and mounts with the
    number of accesses."""

    def __init__(self, config):
        self.config = config
        self.words = collections.Counter({"node0": 2})
        self.calls = [None] * config.tasks
        self.at = [None] * config.tasks
        self.levels = [set() for _ in range(config.tasks)]
        self.mounts = [collections.Counter() for _ in range(config.tasks)]
        self.lines = [f"config {config.tasks} {config.cpus} {config.mounts} {config.nodes} 8"]
        self.told = []

    def begin(self, task, line, steps, effect=None):
        self.lines.append(f"{task} {line}")
        self.calls[task] = steps, effect
        self.at[task] = next(steps)

    def step(self, task, fails=False):
        """A step, and what a replay tells of it: what it begins with, and whether it is a wait."""
        fails = fails and self.at[task].fails is not None
        self.lines.append(f"{task} step" + (" 5" if fails else ""))
        self.told += [told for told in self.go_on(task, fails) if told]

    def run(self, task, hook):
        """Steps up to the answer or to a wait, where this hook fails."""
        self.lines.append(f"{task} run" + (f" {hook} 5" if hook else ""))
        for _ in range(1000):
            fails = self.at[task].fails is not None and self.at[task].fails[2] == hook
            (_, waits), answer = self.go_on(task, fails)
            if answer or waits:
                self.told.append(answer or (f"{task}", True))
                return
        raise AssertionError("a run without an end")

    def go_on(self, task, fails):
        """Does a step. What is told of it, and of its call, if that has its answer."""
        step = self.at[task]
        word, touch, arg = (step.fails[0], STORE, step.fails[1]) if fails else step[1:4]
        found = self.words[word]
        after = {
            LOAD: lambda: found,
            STORE: lambda: arg,
            ADD: lambda: (found + arg) % MODULUS,
            OR: lambda: found | arg,
            AND: lambda: found & arg,
            SWAP: lambda: arg,
            CAS: lambda: arg[1] if found == arg[0] else found,
        }[touch]()
        self.words[word] = after
        kind = "sub" if touch == ADD and arg < 0 else touch
        text = f"{task} {kind} {word} {found if touch != STORE else after}" + (
            f" {after}" if touch != STORE else ""
        )
        steps, effect = self.calls[task]
        try:
            self.at[task] = steps.send(FAILED if fails else found)
        except StopIteration as stopped:
            self.at[task] = None
            if stopped.value and effect:
                effect()
            return (text, False), (f"{task} {'ok' if stopped.value else 'refused'}", False)
        return (text, not fails and self.is_wait(step, found, self.at[task])), None

    @staticmethod
    def is_wait(step, found, then):
        """Whether a step that found this was a wait, with this one to come."""
        match step.waits:
            case ("hold", _):
                return found & 2 != 0
            case ("lock",):
                return found != 0
            case ("section", task, _):
                return then.waits is not None and then.waits[:2] == ("section", task)
            case ("sum", level, _, _):
                return then.fails is not None and then.fails[2] == "wait"
        return step.start is not None and step.start[1:] == (True, "leaves blocked")

    def waits_for(self, waits):
        """Whether what a step waits for isn't there."""
        match waits:
            case None:
                return False
            case ("hold", flags):
                return self.words[flags] & 2 != 0
            case ("lock",):
                return self.words["umount"] != 0
            case ("outside", level):
                return self.words[f"block{level}"] != 0
            case ("section", task, first):
                return (
                    self.words[f"section{task}"] % 2 == 1 and self.words[f"section{task}"] == first
                )
            case ("sum", level, read, total):
                return self.ahead(level, read, total) != 0 and self.ahead(level, 0, 0) != 0

    def ahead(self, level, read, total):
        """What a sum comes to if no word ahead of it changes."""
        return (
            total
            + sum(self.words[f"level{level}.cpu{cpu}"] for cpu in range(read, self.config.cpus))
        ) % MODULUS

    def rests(self, task):
        step = self.at[task]
        return step is None or (
            step.waits is not None and step.waits[0] == "outside" and self.waits_for(step.waits)
        )

    def asks_to_wait(self, task):
        step = self.at[task]
        return step is not None and step.fails is not None and step.fails[2] == "wait"

    def all_wait(self):
        return all(step is None or self.waits_for(step.waits) for step in self.at)

    def start_steps(self, start_at):
        if start_at is None:
            return 0
        level, waits, step = start_at
        if waits and self.words[f"block{level}"]:
            return {
                "loads sync": 5,
                "counts up fast": 1,
                "counts up": 4,
                "loads block": 3,
                "counts down": 2,
                "leaves blocked": 1,
            }.get(step, 0)
        blocked = 6 if waits else 0
        steps = {
            "enters": 5,
            "loads sync": 4,
            "counts up fast": 1,
            "counts up": 3,
            "loads block": 2,
            "counts down": blocked + 1,
            "leaves blocked": blocked,
        }
        return steps.get(step, 0)

    def tries(self, tries):
        match tries:
            case ("loads",):
                return 1
            case ("exchanges", level, found):
                return 0 if self.words[f"sync{level}"] == found else 2
            case ("sums", level, read, total):
                cpus = self.config.cpus
                if not self.ahead(level, read, total):
                    return cpus - (read + 1) + 1
                return 2 * cpus - (0 if self.ahead(level, 0, 0) else read + 1) + 1
        return tries

    def turns_left(self):
        steps = [step for step in self.at if step]
        turn = sum(step.rooms[0] for step in steps) + 1
        room = sum(step.rooms[1] for step in steps)
        moves = sum(
            step.blocks * turn + step.others + self.start_steps(step.start) for step in steps
        )
        return (
            sum(step.left + 1 for step in steps)
            + moves * (room + 1)
            + sum(self.tries(step.tries) for step in steps)
            + 1
        )

    def turns_to_give_up(self):
        freezes = sum(
            steps is not None and steps[0].__name__ == "freeze" and step is not None
            for steps, step in zip(self.calls, self.at)
        )
        return self.turns_left() * (freezes * self.config.cpus + 1)

    def all_reply(self):
        """Whether each call has its reply, or all is frozen and it waits outside a level."""
        return all(
            step is None or (self.words["stage"] == 4 and self.rests(task))
            for task, step in enumerate(self.at)
        )


# The calls that a task begins, some more often than others.
KINDS = (
    "want drop start end write dropwrite change remount freeze freeze thaw thaw callback snapshot"
).split()


class Draw:
    """What is drawn for a call: at which mount, level and processor, and how."""

    def __init__(self, dice, config):
        self.cpu, self.mount = dice.randrange(config.cpus), dice.randrange(config.mounts)
        self.level = dice.randint(1, 3)
        self.word, self.holder = dice.choice([("kernel", 1), ("user", 2)])
        self.waits, self.to = dice.random() < 0.8, "ro" if dice.random() < 0.5 else "rw"


def begin_any(dice, world, task):
    """Begins a call that the task may begin."""
    draw, kind = Draw(dice, world.config), dice.choice(KINDS)
    if not begin_access(world, task, kind, draw) and not world.levels[task]:
        begin_outside(world, task, kind, draw)


def begin_access(world, task, kind, draw):
    """Begins a call that a task inside a level may begin too. Whether it was one."""
    levels, mounts = world.levels[task], world.mounts[task]
    cpu, mount, level = draw.cpu, draw.mount, draw.level
    if kind == "want":

        def wants():
            mounts[mount] += 1

        line = f"{'want' if draw.waits else 'trywant'} {mount} {cpu}"
        world.begin(task, line, want(mount, cpu, draw.waits), wants)
    elif kind == "drop" and mounts[mount]:
        mounts[mount] -= 1
        world.begin(task, f"drop {mount} {cpu}", drop(mount, cpu))
    elif kind == "start" and all(it < level for it in levels):
        line = f"{'start' if draw.waits else 'trystart'} {level} {cpu}"
        world.begin(task, line, start(level, cpu, task, draw.waits), lambda: levels.add(level))
    elif kind == "end" and level in levels:
        levels.remove(level)
        world.begin(task, f"end {level} {cpu}", end(level, cpu))
    elif kind == "dropwrite" and mounts[mount] and 1 in levels:
        mounts[mount] -= 1
        levels.remove(1)
        world.begin(task, f"dropwrite {mount} {cpu}", drop_write(mount, cpu))
    elif kind == "callback":
        world.begin(task, f"callback {level}", callback(world.config, level))
    else:
        return False
    return True


def begin_outside(world, task, kind, draw):
    """Begins a call that only a task outside all levels may begin."""
    config, levels, mounts = world.config, world.levels[task], world.mounts[task]
    mount, waits, read_only = draw.mount, draw.waits, draw.to == "ro"
    if kind == "write":

        def writes():
            mounts[mount] += 1
            levels.add(1)

        line = f"wantwrite {mount} {draw.cpu}"
        world.begin(task, line, want_write(mount, draw.cpu, task), writes)
    elif kind == "change":
        line = f"{'change' if waits else 'trychange'} {mount} {draw.to}"
        world.begin(task, line, change(config, task, mount, read_only, waits))
    elif kind == "remount":
        world.begin(task, f"remount {draw.to}", remount(config, task, read_only))
    elif kind == "freeze":
        world.begin(task, f"freeze {draw.word}", freeze(config, task, draw.holder))
    elif kind == "thaw":
        world.begin(task, f"thaw {draw.word}", thaw(task, draw.holder))
    elif kind == "snapshot":
        world.begin(task, "snapshot" if waits else "trysnapshot", snapshot(config, task, waits))


def reached(dice, config, runs):
    """A state after a random execution, in which so often a task takes many steps at once."""
    world = World(config)
    begins = dice.choice([0.1, 0.3, 0.6])
    for _ in range(dice.randrange(10, 40 * config.tasks)):
        task = dice.randrange(config.tasks)
        if world.at[task] and runs and dice.random() < runs:
            world.run(task, dice.choice([None, *HOOKS, "wait"]))
        elif world.at[task]:
            world.step(task, dice.random() < 0.1)
        elif dice.random() < begins:
            begin_any(dice, world, task)
    for task in range(config.tasks):
        if not world.at[task] and dice.random() < 0.8:
            begin_any(dice, world, task)
    return world


def rounds_needed(dice, world, impatient):
    """Random rounds until all calls have their reply or have to wait."""
    rounds, more = 0, dice.choice([0, 0, 1, 3, 8])
    while not (world.all_reply() if impatient else world.all_wait()):
        rounds += 1
        to_serve = list(range(world.config.tasks))
        dice.shuffle(to_serve)
        for task in to_serve:
            for _ in range(1 + (dice.randint(0, more) if more else 0)):
                if not world.rests(task):
                    world.step(
                        task, dice.random() < 0.1 or (impatient and world.asks_to_wait(task))
                    )
    return rounds


def differs(program, world):
    """The first line of a replay, over the core or over the gates, that doesn't tell what was done
    here; None if there is none."""
    for words in (["replay"], ["replay", "--over-gates"]):
        ran = subprocess.run(
            [program, *words],
            input="\n".join(world.lines) + "\n",
            capture_output=True,
            text=True,
            check=False,
        )
        said = ran.stdout.splitlines()
        for number, (begins, waits) in enumerate(world.told):
            line = said[number] if number < len(said) else ran.stderr
            if not f"{line} ".startswith(f"{begins} ") or line.endswith(" waiting") != waits:
                here = f"{begins} .. waiting" if waits else begins
                return f"here `{here}`, there `{line}`, by {' '.join(words)} of\n" + "\n".join(
                    world.lines
                )
    return None


def asked():
    """Returns what the command line asks for."""
    parser = argparse.ArgumentParser(
        description=__doc__, formatter_class=argparse.RawDescriptionHelpFormatter
    )
    parser.add_argument(
        "--states",
        type=int,
        default=STATES,
        help=f"how many states of each configuration ({STATES})",
    )
    parser.add_argument("--seed", type=int, default=1)
    parser.add_argument(
        "--impatient", action="store_true", help="each freeze that asks whether to wait gives up"
    )
    parser.add_argument(
        "--against", metavar="PROGRAM", help="replay each execution by this program too"
    )
    return parser.parse_args()


def measure(args, config):
    """Prints the row of a configuration. Whether no state needed more rounds than its number."""
    dice, holds = random.Random(f"{args.seed} {config}"), True
    worst, nearest, largest = (0, 0), 0.0, 0
    for _ in range(args.states):
        world = reached(dice, config, RUNS if args.against else 0)
        number = world.turns_to_give_up() if args.impatient else world.turns_left()
        needed = rounds_needed(dice, world, args.impatient)
        if needed > number:
            print("more rounds than its number:", needed, number, *world.lines, sep="\n")
            holds = False
        if args.against and (what := differs(args.against, world)):
            sys.exit(f"fair_rounds.py: {what}")
        worst, largest = max(worst, (needed, number)), max(largest, number)
        nearest = max(nearest, needed / number)
    name = " ".join(str(it) for it in config)
    print(
        f"{name:24} {args.states:7} {worst[0]:6} {worst[1]:11} {nearest:8.2f} {largest:15}",
        flush=True,
    )
    return holds


def main():
    args = asked()
    print(
        f"{'tasks cpus mounts nodes':24} {'states':>7} {'worst':>6} {'its number':>11}"
        f" {'nearest':>8} {'largest number':>15}"
    )
    rows = [
        measure(args, config)
        for config in (
            Config(2, 1, 1, 2),
            Config(3, 2, 1, 2),
            Config(4, 2, 2, 3),
            Config(6, 2, 1, 2),
            Config(8, 4, 1, 2),
        )
    ]
    sys.exit(not all(rows))


if __name__ == "__main__":
    main()
