"""Random schedules: drawn by a seed, done by the gates (mntgate replay) and by a kernel, answer by answer."""

import random
import re
import subprocess

TASKS = 4
MOUNTS = 3
# The last task only tells where the answers to a question end. Each call is counted on processor 0 or 1.
CONFIG = f"config {TASKS + 1} 2 {MOUNTS} 8 8"
END = f"{TASKS} run"

# The names of refusals that both sides give, by errno.
NAMES = {11: "Again", 12: "NoMemory", 16: "Busy", 22: "Invalid", 30: "ReadOnly", 35: "Order"}

# The calls that ask a part of the file system, which may be told to fail. Its words are the last two then: its name, and the errno.
HOOKED = ("freeze", "thaw", "remount")


class Unreadable(Exception):
    """An answer that is none of those that are known."""


class Stopped(Unreadable):
    """The replay doesn't go on, as it does with a mutant whose model forbids what it has done."""


def part_that_fails(words):
    """The part of the file system that is told to fail in this call, with its errno; empty where none is."""
    return words[2:] if words[0] in HOOKED else []


def by_part(text, words):
    """The kernel's answer to this call: with the errno of the part that failed in it, it is told as that part's."""
    part = part_that_fails(words)
    return f"refused hook {part[1]}" if part and text.startswith(f"refused {part[1]} ") else text


def read_kernel(line):
    """The task, the answer and the flags of a line that the guest answered: '2 errno 16 rw:rw,ro,rw'."""
    found = re.fullmatch(r"(\d) (ok|inside|waits \w+|errno \d+) (r[ow]:r[ow],r[ow],r[ow])", line)
    if not found:
        raise Unreadable(f"the guest answered '{line}'")
    task, text, flags = int(found[1]), found[2], found[3]
    if text.startswith("waits"):
        text = "waits"
    elif text.startswith("errno"):
        number = int(text.split()[1])
        text = f"refused {number} {NAMES.get(number, 'unknown')}"
    return task, text, flags


def read_model(lines):
    """The flags and the stage, as `model` prints them."""
    head = re.fullmatch(r"model stage (\d) passed \d sb (r[ow])", lines[0])
    if not head:
        raise Unreadable(f"the model is shown as '{lines[0]}'")
    mounts = ["ro" if f"mount {mount} ro" in lines else "rw" for mount in range(MOUNTS)]
    return f"{head[2]}:{','.join(mounts)}", int(head[1])


class Replay:
    """A replay that is under way. `lines` are those that it was given; with what it printed they are also kept in `log`."""

    def __init__(self, program, log, config=CONFIG):
        self.process = subprocess.Popen([*program, "replay"], stdin=subprocess.PIPE, stdout=subprocess.PIPE, text=True)
        self.log = log
        self.lines = []
        self.steps = {}
        self.nodes = {}
        self.failing = {}
        self.ask(config)

    def ask(self, *lines):
        """Gives it these lines, and hands out what it prints for them."""
        self.lines += lines
        self.log += [f"replay> {line}" for line in lines]
        self.process.stdin.write("".join(f"{line}\n" for line in (*lines, END)))
        self.process.stdin.flush()
        printed = []
        for line in self.process.stdout:
            if line == f"{TASKS} idle\n":
                return printed
            printed.append(line.rstrip("\n"))
            self.log.append(f"replay< {printed[-1]}")
        raise Stopped(f"the replay ended after {printed}")

    def do(self, task, words):
        """Does a call, and hands out its answer. One that waits goes on when it is looked at."""
        if words[0] != "look":
            self.steps[task] = calls_of(words, len(self.lines) % 2)
            self.failing[task] = part_that_fails(words)
        steps = self.steps[task]
        while steps:
            call = steps[0]
            begins = [] if call is None else [f"{task} {call.format(node=self.nodes.get(task))}"]
            found = self.run(task, begins, r"ok|ok node (\d)|waiting|refused .*")
            if found[1] == "waiting":
                steps[0] = None
                return "waits"
            if found[1].startswith("refused"):
                del self.steps[task]
                return found[1]
            if found[2]:
                self.nodes[task] = found[2]
            steps.pop(0)
        return "ok"

    def run(self, task, begins, answers):
        """Lets a task go on behind these lines: its answer, which is one of `answers`."""
        printed = self.ask(*begins, " ".join([f"{task} run", *self.failing.get(task, [])]))
        found = re.fullmatch(rf"{task} ({answers})", printed[0]) if len(printed) == 1 else None
        if not found:
            raise Stopped(f"the replay answered {printed}")
        return found

    def flags(self):
        """The flags and the stage now."""
        shown = self.ask("model")
        del self.lines[-1]
        return read_model(shown)

    def end(self):
        """Ends it."""
        self.process.stdin.close()
        self.process.stdout.close()
        self.process.wait()


def calls_of(words, cpu):
    """What the gates are asked for a call of the kernel, one after the other."""
    verb, rest = words[0], words[1:]
    if verb in ("freeze", "thaw"):
        return [verb]
    if verb in ("remount", "spare"):
        return [f"remount {rest[0]}"]
    if verb in ("bind", "setattr"):
        return [f"change {rest[0]} {rest[1]}"]
    mount = rest[0] if rest else None
    return {"open": [f"want {mount} {cpu}"], "close": [f"drop {mount} {cpu}"], "touch": [f"wantwrite {mount} {cpu}", f"dropwrite {mount} {1 - cpu}"],
            "write": [f"start 1 {cpu}", f"end 1 {1 - cpu}"], "begin": [f"start 1 {cpu}"], "end": [f"end 1 {cpu}"],
            "fault": [f"start 2 {cpu}", f"end 2 {1 - cpu}"], "flush": [f"start 3 {cpu}", f"end 3 {1 - cpu}"],
            "remove": [f"wantwrite {mount} {cpu}", "create 0 file", "open {node}", "remove {node}", f"dropwrite {mount} {cpu}"],
            "release": [f"close {{node}} {cpu}"]}[verb]


class Drawing:
    """What draws the calls of a schedule: those that a task has to choose from, each as often as its weight says. `left` are still to be drawn, and
    `waits` has the tasks that wait."""

    WEIGHTS = {}

    def choices(self, task):
        """The calls that the task can make."""
        raise NotImplementedError

    def next(self):
        """A task and its call; None where enough were drawn, or no more than one task doesn't wait, and so has to let the others go on."""
        free = [task for task in range(TASKS) if task not in self.waits]
        if self.left <= 0 or len(free) < 2:
            return None
        self.left -= 1
        task = self.draw.choice(free)
        choices = self.choices(task)
        return task, self.draw.choices(choices, [self.WEIGHTS[words[0]] for words in choices])[0]


class Drawn(Drawing):
    """A schedule that is drawn by a seed, and what it has come to: what tasks have open, who waits in what, and who is inside a write that is
    held up."""

    WEIGHTS = {"open": 8, "close": 5, "touch": 5, "write": 4, "begin": 3, "end": 5, "fault": 9, "flush": 5, "bind": 3, "setattr": 3, "remount": 3,
               "spare": 2, "freeze": 5, "thaw": 5, "remove": 2, "release": 3}

    def __init__(self, seed, failing_disk=False):
        self.draw = random.Random(seed)
        self.failing_disk = failing_disk
        self.left = self.draw.randint(8, 18)
        self.opens = {task: [] for task in range(TASKS)}
        self.removed = set()
        self.waits = {}
        self.inside = set()
        self.flags = f"rw:{','.join(['rw'] * MOUNTS)}"
        self.stage = 0

    def choices(self, task):
        """The calls that the task can make. Left out is a change to read-only of a mount while the superblock is: the kernel sets the mount's
        own flag then, and the gates don't (docs/kernel.md). So is a flush while all is frozen, when there is nothing to write."""
        if task in self.inside:
            return [["end"]]
        draw, ways = self.draw, ["rw"] if self.flags.startswith("ro") else ["ro", "rw"]
        mount = str(draw.randrange(MOUNTS))
        choices = [[verb, mount] for verb in ("open", "touch")] + [["freeze"], ["thaw"]]
        choices += [[verb, draw.choice(["ro", "rw"])] for verb in ("remount", "spare")]
        choices += [[verb, mount, draw.choice(ways)] for verb in ("bind", "setattr")]
        choices.append(["release"] if task in self.removed else ["remove", mount])
        if self.opens[task]:
            verbs = ("close", "write", "begin", "fault") if self.stage == 4 else ("close", "write", "begin", "fault", "flush")
            choices += [[verb, str(draw.choice(self.opens[task]))] for verb in verbs]
        # A file system is asked by the kernel, and not by the gates, if its remount changes nothing.
        choices.append(["remount", "rw" if self.flags.startswith("ro") else "ro", "reconfigure", "22"])
        # Whoever is inside could write to the disk as well.
        if self.failing_disk and self.stage == 0 and not self.inside and self.flags.startswith("rw"):
            choices.append(["freeze", "user", "sync", "5"])
        return choices

    def next_of_end(self):
        """What leads to the end of a schedule, at which all is as it was; None there."""
        if self.inside:
            return min(self.inside), ["end"]
        if self.stage == 4:
            return next(task for task in range(TASKS) if task not in self.waits), ["thaw"]
        for task in range(TASKS):
            if self.opens[task]:
                return task, ["close", str(self.opens[task][-1])]
            if task in self.removed:
                return task, ["release"]
        if self.flags.startswith("ro"):
            return 0, ["remount", "rw"]
        mounts = self.flags.split(":")[1].split(",")
        return (0, ["bind", str(mounts.index("ro")), "rw"]) if "ro" in mounts else None

    def note(self, task, words, answer):
        """Takes down what the gates answered to a call, or to a look at one that waited."""
        if words[0] == "look":
            words = self.waits.pop(task)
        if answer == "waits":
            self.waits[task] = words
        elif words[0] == "open" and answer == "ok":
            self.opens[task].append(int(words[1]))
        elif words[0] == "close":
            self.opens[task].remove(int(words[1]))
        elif words[0] == "remove" and answer == "ok":
            self.removed.add(task)
        elif words[0] == "release":
            self.removed.remove(task)
        elif words[0] == "begin":
            self.inside.add(task)
        elif words[0] == "end":
            self.inside.remove(task)

    def is_held_up(self, task, words):
        """Whether this call is a write that is to be held up, so that the kernel answers 'inside' where the gates let it in."""
        return words[0] == "begin" or (words[0] == "look" and self.waits[task][0] == "begin")


class Answer:
    """A call with its two answers, and the number of the replay's lines up to it."""

    def __init__(self, call, ours, kernel, lines):
        self.call, self.ours, self.kernel, self.lines = call, ours, kernel, lines

    def differs(self):
        """Whether the kernel answered something else."""
        return self.ours != self.kernel

    def text(self):
        """The call with its answer."""
        return f"{self.call}: {self.ours[0]}"


def run(drawn, replay, guest, spoil, answers):
    """Does a schedule on both sides, and puts down its answers, up to the first one that differs. `spoil` sees, and may change, each line of the
    guest."""

    def do(task, words):
        held_up = drawn.is_held_up(task, words)
        begun = drawn.waits[task] if words[0] == "look" else words
        ours = replay.do(task, words)
        drawn.note(task, words, ours)
        if held_up and ours == "ok":
            ours = "inside"
        drawn.flags, drawn.stage = replay.flags()
        call = f"{task} {' '.join(words)}"
        found, text, flags = read_kernel(spoil(guest.ask(call)))
        if found != task:
            raise Unreadable(f"the guest answered for task {found} and not for {task}")
        answers.append(Answer(call, (ours, drawn.flags), (by_part(text, begun), flags), len(replay.lines)))
        return not answers[-1].differs()

    while True:
        step = drawn.next() or drawn.next_of_end()
        if step is None or not do(*step):
            return
        for task in sorted(drawn.waits):
            if task != step[0] and not do(task, ["look"]):
                return


def as_schedule(replay, answer):
    """The schedule for `replay` up to this answer, with what each side said as remarks."""
    told = f"# {answer.call}: here {' '.join(answer.ours).strip()}; the kernel {' '.join(answer.kernel).strip()}"
    return [*replay.lines[: answer.lines], "model", told]
