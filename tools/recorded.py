"""What the converters in this folder share: a history that is put together line by line, and the
numbers of its tasks."""

import sys

TASKS = 64
MOUNTS = 8
# The operations of calls that take write access for their own time, and of those that write a file.
WRITE_ACCESS = "wantwrite {mount} *; if ok dropwrite {mount} *"
WRITE = "start 1 *; end 1 *"
# Those of an open for writing: which may make the file, which empties it, and others.
CREATES = "wantwrite {mount} *; if ok dropwrite {mount} *; want {mount} *"
EMPTIES = "wantwrite {mount} *; want {mount} *; dropwrite {mount} *"
OPENS = "want {mount} *"
SAID = 200


class Unreadable(Exception):
    """A record that can't be read, or that no history can have."""


class History:
    """The lines so far. A task has a number while somebody needs it, the lowest that is free."""

    def __init__(self, mounts):
        if not 1 <= mounts <= MOUNTS:
            raise Unreadable(f"a history has 1 to {MOUNTS} mounts")
        self.mounts = mounts
        self.set_up, self.lines = [], []
        self.taken, self.tasks = set(), 0

    def take_task(self):
        """The number of a task that nobody has."""
        free = [number for number in range(TASKS) if number not in self.taken]
        if not free:
            raise Unreadable(f"more than {TASKS} tasks and open files at once")
        self.taken.add(free[0])
        self.tasks = max(self.tasks, free[0] + 1)
        return free[0]

    def free_task(self, number):
        """Gives a number back: the task holds nothing, and has no call under way."""
        self.taken.discard(number)

    def begin(self, number, operations, said):
        """A task begins a call. What the record said of it stands before it."""
        comment = said.encode("ascii", "backslashreplace").decode()
        self.lines += [f"# {comment[:SAID]}", f"{number} {operations}"]

    def answer(self, number, answer):
        """Its call returns."""
        self.lines.append(f"{number} {answer}")

    def print(self):
        """Prints the history."""
        for line in [
            f"config {max(self.tasks, 1)} 1 {self.mounts} 2 8",
            *self.set_up,
            "history",
            *self.lines,
        ]:
            print(line)


class Access:
    """A file that is open for writing: a task of its own has its access at the mount, from its open
    to its last close, whoever closes it. In the kernel the access is the file's, too."""

    def __init__(self, history, mount):
        self.history, self.mount = history, mount
        self.task = history.take_task()
        # Whose descriptors lead to the file; and which closes have begun, and may not be done.
        self.references, self.closes = set(), set()

    def begin(self, operations, said):
        """The open begins, which stands for these operations."""
        self.history.begin(self.task, operations.format(mount=self.mount), said)

    def opened(self, answer):
        """The open has returned."""
        self.history.answer(self.task, answer)
        if answer != "ok":
            self.history.free_task(self.task)

    def begin_close(self, reference, close, said):
        """A close of one reference begins. The last one gives the access back."""
        self.references.discard(reference)
        self.closes.add(close)
        if not self.references:
            self.history.begin(self.task, f"drop {self.mount} *", said)

    def end_close(self, close):
        """A close is done for sure."""
        self.closes.discard(close)
        if not self.references and not self.closes:
            self.history.answer(self.task, "ok")
            self.history.free_task(self.task)


def run(main):
    """Runs a converter, and tells what it can't read."""
    try:
        main()
    except (Unreadable, OSError) as error:
        sys.exit(f"{sys.argv[0].rpartition('/')[2]}: {error}")
