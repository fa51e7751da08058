"""Random schedules of the gates' own calls: drawn by a seed, done by mntgate replay and by the guest's module. After each call its answer, the
answers of all that wait, and the words behind the gates are compared."""

import random
import re
import time

import schedules

TASKS, MOUNTS, LEVELS, PROCESSORS = 4, 3, 3, 2
# Task 4 only tells where the answers to a question end, and task 5 runs the callbacks that the kernel is seen to have run.
RUNNER = TASKS + 1
CONFIG = f"config {TASKS + 2} {PROCESSORS} {MOUNTS} 2 8"
GP_EXIT, GP_REPLAY = 3, 4

# The words behind the gates by the guest's names: those of the superblock, of each mount and of each level.
WORDS = ["umount", "stage", "kernel", "user", "sb", "remount", "removed"]
WORDS += [f"flags{mount}" for mount in range(MOUNTS)]
WORDS += [f"{name}{level}" for level in range(1, LEVELS + 1) for name in ("block", "state", "entered")]
COUNTS = [f"mount{mount}" for mount in range(MOUNTS)] + [f"level{level}" for level in range(1, LEVELS + 1)]
WORDS += [f"{count}.cpu{cpu}" for count in COUNTS for cpu in range(PROCESSORS)]
# A call that the kernel hasn't ended yet is looked at again for so many seconds.
PATIENCE = 10


def read_guest(line):
    """The task and the answer of a line that the guest answered."""
    task, text, _ = schedules.read_kernel(line)
    return task, text


def read_words(line):
    """The words that the guest told, by name; it tells those that aren't 0."""
    parts = line.split(" ")
    told = dict(zip(parts[1::2], parts[2::2]))
    if parts[0] != "words" or len(parts) != 1 + 2 * len(told) or not told.keys() <= set(WORDS):
        raise schedules.Unreadable(f"the guest told its words as '{line}'")
    return {name: int(told.get(name, 0)) for name in WORDS}


class Replay(schedules.Replay):
    """A replay whose calls are the gates' own, and its words as the guest tells them. `put_off` are tasks whose call the gates aren't asked for yet."""

    put_off = frozenset()

    def __init__(self, program, log):
        super().__init__(program, log, CONFIG)

    def do(self, task, words):
        """Does a call, and hands out its answer. One that waits goes on when it is looked at."""
        if words[0] != "look":
            self.failing[task] = schedules.part_that_fails(words)
        begins = [] if words[0] == "look" else [f"{task} {' '.join(as_call(words))}"]
        found = self.run(task, begins, "ok|waiting|refused .*")
        return "waits" if found[1] == "waiting" else found[1]

    def words(self):
        """The words, by the guest's names. That of `umount` is whether it is taken."""
        told = {name: int(value) for name, value in (line.split(" ") for line in self.ask("words"))}
        del self.lines[-1]
        words = {name: told.get(name, 0) for name in WORDS}
        words["umount"] = int(words["umount"] > 0)
        words["kernel"], words["user"] = told.get("holders", 0) & 1, told.get("holders", 0) >> 1
        for mount in range(MOUNTS):
            words[f"flags{mount}"] = told.get(f"mount{mount}.flags", 0)
        for level in range(1, LEVELS + 1):
            sync = told.get(f"sync{level}", 0)
            words.update({f"state{level}": sync & 7, f"entered{level}": sync >> 8})
        return {name: signed(value) if ".cpu" in name else value for name, value in words.items()}

    def words_as_far_as(self, kernel):
        """The words once the callbacks have run that the kernel is seen to have run. None has if it ran before a freeze entered."""
        words = self.words()
        if ran_before(words, kernel):
            return words
        for level in range(1, LEVELS + 1):
            while words[f"state{level}"] >= GP_EXIT and words[f"state{level}"] != kernel[f"state{level}"]:
                if self.ask(f"{RUNNER} callback {level}", f"{RUNNER} run") != [f"{RUNNER} ok ran"]:
                    raise schedules.Stopped("a callback that is queued doesn't run")
                words = self.words()
        return words


def signed(word):
    """A count of 64 bits, as a number that may be below 0."""
    return word - 2**64 if word >= 2**63 else word


def as_call(words):
    """The gates' call for one of the guest's."""
    verb = {"bind": "change", "setattr": "change", "spare": "remount"}.get(words[0], words[0])
    return [verb, *words[1 : len(words) - len(schedules.part_that_fails(words))]]


class Drawn(schedules.Drawing):
    """A schedule that is drawn by a seed, and what it has come to: what each task holds, and who waits in what."""

    WEIGHTS = {"want": 5, "drop": 6, "wantwrite": 5, "dropwrite": 6, "start": 8, "trystart": 6, "end": 9, "freeze": 6, "thaw": 7, "bind": 3,
               "setattr": 2, "remount": 3, "spare": 1}

    def __init__(self, seed, holders):
        self.draw = random.Random(seed)
        self.left = self.draw.randint(12, 40)
        self.holders = holders
        self.mounts = {task: [] for task in range(TASKS)}
        self.levels = {task: set() for task in range(TASKS)}
        self.waits = {}
        self.slept = set()
        self.words = None

    def locks(self, words):
        """Whether this call may wait for `umount`, or for another freeze."""
        return words[0] in ("freeze", "thaw", "bind", "setattr", "remount", "spare")

    def choices(self, task):
        """The calls that the specification lets the task begin. Left out are what docs/kernel.md lists as differences, and a second call that
        waits for `umount`: which of two is handed it first is not fixed."""
        draw, levels, mounts = self.draw, self.levels[task], self.mounts[task]
        mount, cpu, level = str(draw.randrange(MOUNTS)), str(draw.randrange(PROCESSORS)), draw.randint(1, LEVELS)
        choices = [["want", mount, cpu]]
        if all(level > held for held in levels):
            choices += [[verb, str(level), cpu] for verb in ("start", "trystart")]
        if levels:
            choices.append(["end", str(draw.choice(sorted(levels))), cpu])
        if mounts:
            held = str(draw.choice(mounts))
            choices.append(["drop", held, cpu])
            if 1 in levels:
                choices.append(["dropwrite", held, cpu])
        if not levels:
            choices.append(["wantwrite", mount, cpu])
            choices += self.changes(mount)
        return choices

    def part(self, *names):
        """Mostly nothing; else one of these parts of the file system, which is to fail, and its errno."""
        return [self.draw.choice(names), "5"] if self.draw.random() < 0.2 else []

    def changes(self, mount):
        """The calls that take `umount`."""
        draw, words = self.draw, self.words
        under_way = words["stage"] in (1, 2, 3)
        if under_way and sum(self.locks(call) for call in self.waits.values()) >= 2:
            return []
        ways = ["rw"] if words["sb"] else ["ro", "rw"]
        choices = [["freeze", draw.choice(self.holders), *self.part("sync", "freeze")],
                   ["thaw", draw.choice(self.holders).rstrip("+"), *self.part("unfreeze")]]
        choices += [[verb, draw.choice(["ro", "rw"])] for verb in ("remount", "spare")]
        if not words["umount"]:
            # A file system is asked by the kernel, and not by the gates, if its remount changes nothing.
            choices.append(["remount", ways[0], "reconfigure", "22"])
        choices += [["bind", mount, draw.choice(ways)]]
        if not words["umount"]:
            choices += [["setattr", mount, draw.choice(ways)]]
        return choices

    def next_of_end(self):
        """What leads to the end of a schedule, at which all is as it was; None there."""
        free = [task for task in range(TASKS) if task not in self.waits]
        for task in free:
            if self.levels[task]:
                return task, ["end", str(max(self.levels[task])), "0"]
        for holder in ("user", "kernel"):
            if self.words["stage"] == 4 and self.words[holder]:
                return free[0], ["thaw", holder]
        for task in free:
            if self.mounts[task]:
                return task, ["drop", str(self.mounts[task][-1]), "1"]
        if self.words["sb"]:
            return 0, ["remount", "rw"]
        read_only = [mount for mount in range(MOUNTS) if self.words[f"flags{mount}"]]
        return (0, ["bind", str(read_only[0]), "rw"]) if read_only else None

    def note(self, task, words, answer):
        """Takes down what the gates answered to a call."""
        if answer == "waits":
            self.waits[task] = words
            self.slept |= {int(words[1])} if words[0] == "start" else {1} if words[0] == "wantwrite" else set()
            return
        self.waits.pop(task, None)
        if answer != "ok":
            return
        if words[0] in ("want", "wantwrite"):
            self.mounts[task].append(int(words[1]))
        if words[0] in ("drop", "dropwrite"):
            self.mounts[task].remove(int(words[1]))
        if words[0] in ("start", "trystart"):
            self.levels[task].add(int(words[1]))
        if words[0] == "end":
            self.levels[task].remove(int(words[1]))
        if words[0] == "wantwrite":
            self.levels[task].add(1)
        if words[0] == "dropwrite":
            self.levels[task].remove(1)


def let_go_on(drawn, replay):
    """Looks at the tasks that wait until none of them goes on, and from the first one again once one has. First come those that wait for a level,
    since whoever opens it lets them in before it gives back s_umount; then those that wait for that, and last those that were put off. Hands out
    the answers."""

    def place(waiting):
        task, words = waiting
        return task in replay.put_off, drawn.locks(words)

    answers = {}
    gone = True
    while gone:
        gone = False
        for task, words in sorted(drawn.waits.items(), key=place):
            answer = replay.do(task, ["look"])
            gone = answer != "waits"
            if gone:
                drawn.note(task, words, answer)
                answers[task] = answer
                break
    return {**{task: "waits" for task in drawn.waits}, **answers}


class Kernel:
    """The guest's kernel during a schedule. Its counts are told as the schedule has changed them: at rest only their sums are 0."""

    def __init__(self, guest, spoil):
        self.guest, self.spoil = guest, spoil
        self.base = {}
        self.calls = {}
        end = time.monotonic() + PATIENCE
        # The schedule before this one may have left callbacks, which the kernel runs soon.
        while any(value for name, value in self.words().items() if ".cpu" not in name):
            if time.monotonic() > end:
                raise schedules.Unreadable(f"the kernel isn't at rest before a schedule: {self.words()}")
        self.base = {name: value for name, value in self.words().items() if ".cpu" in name}

    def words(self):
        """The words now."""
        return {name: value - self.base.get(name, 0) for name, value in read_words(self.guest.ask("words")).items()}

    def do(self, task, words, ours):
        """Its answer to a call, or to a look at one. One that isn't ended there yet, but here, is looked at again."""
        if words[0] != "look":
            self.calls[task] = words
        found, text = read_guest(self.spoil(self.guest.ask(f"{task} {' '.join(words)}")))
        end = time.monotonic() + PATIENCE
        while text == "waits" and ours != "waits" and time.monotonic() < end:
            found, text = read_guest(self.guest.ask(f"{task} look"))
        if found != task:
            raise schedules.Unreadable(f"the guest answered for task {found} and not for {task}")
        return schedules.by_part(text, self.calls[task])


def summed(words, levels):
    """Of these levels the sum alone, as the count of its first processor. A reader that slept was counted by its waker, on that one's
    processor."""
    counts = {f"level{level}.cpu{cpu}": 0 for level in levels for cpu in range(PROCESSORS)}
    return {**counts, **{f"level{level}.cpu0": sum(words[f"level{level}.cpu{cpu}"] for cpu in range(PROCESSORS)) for level in levels}}


def ran_before(ours, theirs):
    """Whether a level's callback has run in the kernel before a freeze entered, and here not yet: GP_REPLAY became GP_EXIT there. It would become
    GP_PASSED here, as it does there by the next callback."""
    return any(ours[f"state{level}"] == GP_REPLAY and ours[f"entered{level}"] and theirs[f"state{level}"] == GP_EXIT for level in range(1, LEVELS + 1))


def compare_words(replay, kernel, slept):
    """The words here, and those that differ, with both values. Where `umount` alone differs the kernel's are read again: a thread of its own may have
    taken s_umount for a moment, as write-back does. So they are where the kernel will run a callback soon (ran_before). In the levels `slept` a
    reader has slept."""
    end = time.monotonic() + PATIENCE
    while True:
        theirs = kernel.words()
        ours = replay.words_as_far_as(theirs)
        both = {**ours, **summed(ours, slept)}, {**theirs, **summed(theirs, slept)}
        differing = {name: (both[0][name], both[1][name]) for name in theirs if both[0][name] != both[1][name]}
        if (set(differing) != {"umount"} and not ran_before(ours, theirs)) or time.monotonic() > end:
            return ours, differing


def run(drawn, replay, guest, spoil, answers):
    """Does a schedule on both sides, and puts down its answers, up to the first one that differs."""
    kernel = Kernel(guest, spoil)
    drawn.words = replay.words_as_far_as(kernel.words())
    while True:
        step = drawn.next() or drawn.next_of_end()
        if step is None:
            return
        task, words = step
        waited = list(drawn.waits)
        ours = {task: replay.do(task, words)}
        drawn.note(task, words, ours[task])
        ours.update({other: answer for other, answer in let_go_on(drawn, replay).items() if other != task or answer != "waits"})
        for other in [task, *waited]:
            call = words if other == task else ["look"]
            theirs = kernel.do(other, call, ours[other])
            answers.append(schedules.Answer(f"{other} {' '.join(call)}", (ours[other], ""), (theirs, ""), len(replay.lines)))
            if answers[-1].differs():
                return
        drawn.words, differing = compare_words(replay, kernel, drawn.slept)
        if differing:
            answers[-1].ours = (answers[-1].ours[0], str({name: pair[0] for name, pair in differing.items()}))
            answers[-1].kernel = (answers[-1].kernel[0], str({name: pair[1] for name, pair in differing.items()}))
            return
