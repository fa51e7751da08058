#!/usr/bin/env python3
"""A backup that decides by each refusal what to do.

    backup.py

It meets, one after the other, a file system that another backup has frozen, one with a writer who stays inside, one whose sync fails, one whose thaw
fails, one that is read-only, and one at peace, and says what it does. Task `other` stands for the rest of the system."""

import errno
import os
import sys

sys.path.insert(0, os.path.join(os.path.dirname(os.path.abspath(__file__)), ".."))

import mntgate

# For so many seconds a backup lets writers wait before it has begun.
PATIENCE = 0.05


class Disk(mntgate.Hooks):
    """A file system whose sync and whose thaw fail so many times, with the code 16: the number of EBUSY, and no refusal of the gates."""

    def __init__(self, syncs: int = 0, thaws: int = 0) -> None:
        self.syncs = syncs
        self.thaws = thaws

    def sync(self) -> int:
        self.syncs -= 1
        return 16 if self.syncs >= 0 else 0

    def unfreeze_fs(self) -> int:
        self.thaws -= 1
        return 16 if self.thaws >= 0 else 0


def back_up(task: mntgate.Task, disk: Disk) -> str:
    """Takes one backup, or says why not, and what comes next. A freeze and its thaw are two calls, since they leave different states if they fail."""
    try:
        task.freeze(hooks=disk, timeout=PATIENCE)
    except TimeoutError:
        task.settle()
        return "somebody stays inside: the levels are open again, so let the writers work, and come back"
    except mntgate.HookFailed as failed:
        task.settle()
        return f"the disk failed with {failed.code}: the levels are open again, so check the disk, and come back"
    except mntgate.Error as refused:
        if refused.errno == errno.EBUSY:
            return "somebody has frozen it: wait for the thaw, and never thaw for him"
        raise
    try:
        tree = task.snapshot()
    finally:
        thaw(task, disk)
    files = sum(node is not None and not node.is_dir for node in tree.nodes)
    return f"{files} files of {tree.used} blocks"


def thaw(task: mntgate.Task, disk: Disk, tries: int = 3) -> None:
    """Thaws. If the disk fails all is still frozen and everybody who writes waits, so it tries again."""
    for left in reversed(range(tries)):
        try:
            task.thaw(hooks=disk)
            break
        except mntgate.HookFailed as failed:
            if left == 0:
                raise
            print(f"a thaw of a disk that fails: it failed with {failed.code}, and all is still frozen, so thaw again")
        except mntgate.Error as refused:
            # (another task has thawed for user space; a snapshot is of one moment all the same)
            if refused.errno != errno.EINVAL:
                raise
            break
    task.settle()


def write(task: mntgate.Task, blocks: int) -> str:
    """Writes to file 1, or says why not."""
    try:
        with task.write(mount=0) as writer:
            writer.grow(1, blocks)
    except mntgate.Error as refused:
        if refused.errno == errno.EROFS:
            return "read-only: tell the user, and don't try again by yourself"
        if refused.errno == errno.ENOSPC:
            return "no space: nothing was written"
        raise
    return f"{blocks} blocks more"


def main() -> None:
    with mntgate.open(tasks=2, processors=2, nodes=4, capacity=100) as task:
        other = task.split()
        with other.write(mount=0) as writer:
            assert writer.create(0) == 1
        print("a write:", write(other, 10))
        with other.frozen(mntgate.Holder.USER):
            print("a backup beside another one:", back_up(task, Disk()))
        with other.write(mount=0):
            print("a backup beside a writer who stays:", back_up(task, Disk()))
        print("a backup of a disk whose sync fails:", back_up(task, Disk(syncs=1)))
        print("a backup of a disk whose thaw failed once:", back_up(task, Disk(thaws=1)))
        print("a backup at peace:", back_up(task, Disk()))
        with task.read_only(0):
            print("a write to a mount that is read-only:", write(other, 10))
        print("a write that is too large:", write(other, 1000))
        with other.access(0):
            try:
                task.change_mount(0, True)
            except mntgate.Error as refused:
                assert refused.errno == errno.EBUSY
                print("read-only with a writer inside: busy, so let him finish")
        other.try_want(0)
        try:
            task.join(other)
        except mntgate.Error as refused:
            assert refused.errno == errno.EDEADLK
            print("a join of a task that holds an access: out of order, so it gives back first")
        other.drop_mount(0)
        task.join(other)
        assert task.close([(15, 0, 0), (16, 1, 0), (3, 0, 0)]) == (0, 0, 0)
    print("closed: every count is 0")


if __name__ == "__main__":
    main()
