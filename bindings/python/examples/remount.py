#!/usr/bin/env python3
"""A volume manager, which takes a snapshot of a volume and remounts it read-only before it is detached.

    remount.py

It freezes for the kernel, and a backup for user space, so that neither ends the other's freeze. A remount that is busy it tries again, with a pause
and not for ever. It never thaws what another task has frozen. Task `other` stands for the rest of the system."""

import errno
import os
import sys
import time

sys.path.insert(0, os.path.join(os.path.dirname(os.path.abspath(__file__)), ".."))

import mntgate

TRIES = 4


def snapshot(task: mntgate.Task) -> str:
    """Takes a snapshot of the volume, whether or not user space has frozen it."""
    try:
        with task.frozen(mntgate.Holder.KERNEL):
            tree = task.snapshot()
    except mntgate.Error as refused:
        if refused.errno == errno.EBUSY:
            return "busy: a freeze is under way, or one for the kernel stands; wait for its end"
        raise
    return f"{tree.used} blocks"


def remount(task: mntgate.Task) -> str:
    """Remounts the volume read-only. The writers who wait during a try would make the next one busy, so it pauses between them."""
    for tries in range(1, TRIES + 1):
        try:
            task.remount(read_only=True)
            return "read-only"
        except mntgate.Error as refused:
            if refused.errno != errno.EBUSY:
                raise
        if tries < TRIES:
            time.sleep(0.001 * 2**tries)
    return "busy: a writer, an open file that was removed, or a freeze"


def may_write(task: mntgate.Task) -> bool:
    """Whether level 1 is open."""
    try:
        task.try_start(1)
    except mntgate.Error as refused:
        if refused.errno == errno.EAGAIN:
            return False
        raise
    task.end(1)
    return True


def main() -> None:
    with mntgate.open(tasks=2, processors=1, nodes=3, capacity=8) as task:
        other = task.split()
        with other.write(mount=0) as writer:
            file = writer.create(0)
            writer.grow(file, 5)
        print("a snapshot:", snapshot(task))
        with other.frozen(mntgate.Holder.USER):
            print("a snapshot during a backup:", snapshot(task))
            assert not may_write(task)
            print("the backup's freeze stands still")
            print("a remount during a backup:", remount(task))
        assert may_write(task)
        with other.frozen(mntgate.Holder.KERNEL):
            print("a snapshot during another one:", snapshot(task))
        with other.write(mount=0) as writer:
            print("a remount beside a writer:", remount(task))
            writer.open_file(file)
            writer.remove(file)
        print("a remount with a removed file open:", remount(task))
        other.close_file(file)
        print("a remount at peace:", remount(task))
        task.settle()
        task.join(other)


if __name__ == "__main__":
    main()
