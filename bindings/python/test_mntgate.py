#!/usr/bin/env python3
"""Tests the Python module: each call, and what it refuses."""

import errno
import os
import signal
import sys
import threading
import time
import unittest
from typing import Callable
from unittest import mock

import mntgate


class Answers(mntgate.Hooks):
    """Hooks of which each returns what it is told to, or raises it, and counts how often it was asked."""

    def __init__(self, **answers: object) -> None:
        self.answers = answers
        self.asked = 0

    def answer(self, name: str):
        self.asked += 1
        answer = self.answers.get(name, 0)
        if isinstance(answer, BaseException):
            raise answer
        return answer

    def sync(self):
        return self.answer("sync")

    def freeze_fs(self):
        return self.answer("freeze_fs")

    def unfreeze_fs(self):
        return self.answer("unfreeze_fs")

    def reconfigure(self, read_only: bool):
        return self.answer("reconfigure")


class Waits(Answers):
    """The same; a freeze waits twice before it is told to go on."""

    def __init__(self, **answers: object) -> None:
        super().__init__(**answers)
        self.levels: list = []

    def keep_waiting(self, level: int):
        self.levels.append(level)
        return self.answer("keep_waiting") if len(self.levels) > 2 else 0


class SlowRemount(mntgate.Hooks):
    """Hooks of a remount that owns s_umount until it is let go on."""

    def __init__(self) -> None:
        self.owns, self.ends = threading.Event(), threading.Event()

    def reconfigure(self, read_only: bool) -> int:
        self.owns.set()
        self.ends.wait()
        return 1


def interrupt_at(count: int, call: Callable, begun: Callable = lambda: True) -> bool:
    """Makes a call, and interrupts it before the line of the module with this number, as it is run from `begun` on; whether it came so far."""
    left = count

    def trace(frame, event: str, _: object):
        nonlocal left
        if frame.f_code.co_filename != mntgate.__file__:
            return None
        if event == "line" and begun():
            left -= 1
            if left == 0:
                raise KeyboardInterrupt
        return trace

    before = sys.gettrace()
    sys.settrace(trace)
    try:
        call()
    except KeyboardInterrupt:
        pass
    finally:
        sys.settrace(before)
    return left <= 0


class Gates(unittest.TestCase):
    """Two tasks of some gates, which close at the end."""

    def setUp(self) -> None:
        self.task = mntgate.open(tasks=2, processors=2, nodes=4, capacity=10)
        self.other = self.task.split()

    def tearDown(self) -> None:
        self.task.join(self.other)
        self.task.close()

    def refused(self, number: int, call, *words, **named) -> None:
        with self.assertRaises(mntgate.Error) as caught:
            call(*words, **named)
        self.assertEqual(caught.exception.errno, number)

    def fails(self, kind: type, call: Callable, *words: object) -> None:
        """Tests that a hook fails by an exception of this kind, in the context of the refusal, and that the call has ended."""
        with self.assertRaises(kind) as caught:
            call(*words)
        self.assertIsInstance(caught.exception.__context__, mntgate.HookFailed)
        self.assertEqual(caught.exception.__context__.code, errno.EIO)
        self.assertTrue(self.task.is_idle)

    def interrupted(self, call: Callable, *words: object) -> None:
        """Calls what has to wait, and interrupts it there, as Ctrl-C does."""
        with mock.patch("mntgate.time.sleep", side_effect=KeyboardInterrupt):
            self.assertRaises(KeyboardInterrupt, call, *words)

    def is_open(self) -> None:
        """Tests that nothing is left of a freeze."""
        self.assertTrue(self.task.rests)
        self.refused(errno.EINVAL, self.other.thaw)
        for level in (1, 2, 3):
            self.other.try_start(level)
            self.other.end(level)

    def enter(self, block) -> None:
        with block:
            self.fail("it was to wait")

    def test_accesses(self) -> None:
        with self.task.access(0):
            self.assertEqual(self.task.holds_mount(0), 1)
            self.refused(errno.EBUSY, self.other.change_mount, 0, True)
            self.refused(errno.EDEADLK, self.task.join, self.other)
        with self.other.read_only(0):
            self.refused(errno.EROFS, self.task.try_want, 0)
        with self.task.level(3):
            self.assertTrue(self.task.holds_level(3) and not self.task.rests)
        self.refused(errno.EINVAL, self.task.try_want, 256)
        self.refused(errno.EINVAL, self.task.try_want, 1)
        self.assertEqual((self.task.number, self.other.number), (0, 1))

    def test_write_access_is_tried(self) -> None:
        self.task.try_want_write(0)
        self.assertTrue(self.task.holds_level(1) and self.task.holds_mount(0) == 1)
        self.refused(errno.EDEADLK, self.task.try_want_write, 0)
        self.task.drop_write(0, 1)
        for words in ((1, 0), (0, 2), (256, 0), (0, -1)):
            self.refused(errno.EINVAL, self.task.try_want_write, *words)
        with self.other.read_only(0):
            self.refused(errno.EROFS, self.task.try_want_write, 0)
        with self.other.frozen():
            self.refused(errno.EAGAIN, self.task.try_want_write, 0)
        self.assertTrue(self.task.rests)

    def test_freeze_with_a_limit(self) -> None:
        with self.other.write(0):
            start = time.monotonic()
            self.assertRaises(TimeoutError, self.task.freeze, timeout=0.05)
            self.assertGreaterEqual(time.monotonic() - start, 0.05)
            with self.assertRaises(TimeoutError) as caught:
                self.enter(self.task.frozen(hooks=Answers(), timeout=0))
            self.assertEqual((caught.exception.errno, isinstance(caught.exception, mntgate.Error)), (errno.ETIMEDOUT, False))
            self.refused(errno.EAGAIN, self.task.try_freeze)
            self.refused(errno.EAGAIN, self.task.try_freeze, mntgate.Holder.KERNEL, Answers())
            self.assertRaises(TypeError, self.task.freeze, timeout="1")
        self.is_open()
        self.task.try_freeze()
        self.refused(errno.EBUSY, self.other.freeze, timeout=10)
        self.other.freeze(mntgate.Holder.KERNEL, timeout=0)
        self.task.thaw()
        self.task.thaw(mntgate.Holder.KERNEL)
        # a hook's own code is no limit
        with self.assertRaises(mntgate.HookFailed) as failed:
            self.task.freeze(hooks=Answers(sync=errno.ETIMEDOUT), timeout=10)
        self.assertEqual(failed.exception.code, errno.ETIMEDOUT)
        with self.task.frozen(timeout=10):
            self.refused(errno.EAGAIN, self.other.try_start, 1)

    def test_freeze_that_is_given_up(self) -> None:
        for level in (1, 2, 3):
            with self.subTest(level=level):
                hooks = Waits(keep_waiting=9)
                with self.other.level(level):
                    with self.assertRaises(mntgate.HookFailed) as caught:
                        self.task.freeze(hooks=hooks)
                    self.assertEqual((caught.exception.code, hooks.levels), (9, [level] * 3))
                self.is_open()
                for answer, kind in ((None, TypeError), (65536, ValueError), (ZeroDivisionError(), ZeroDivisionError), (KeyboardInterrupt(), KeyboardInterrupt)):
                    with self.other.level(level):
                        self.fails(kind, self.task.freeze, mntgate.Holder.USER, Waits(keep_waiting=answer))
                    self.is_open()

    def test_meeting(self) -> None:
        with self.other.write(0):
            self.task.meet(self.other)
            self.refused(errno.EBUSY, self.task.change_mount, 0, True)
            self.other.meet(self.task)
            self.assertTrue(self.other.holds_mount(0) == 1 and self.other.holds_level(1) and self.task.rests)
        self.refused(errno.EINVAL, self.task.meet, self.task)
        with mntgate.open() as stranger:
            self.refused(errno.EINVAL, self.task.meet, stranger)
            joined = stranger.split()
            stranger.join(joined)
            self.assertRaises(ValueError, stranger.meet, joined)
            self.assertRaises(ValueError, joined.meet, stranger)

    def test_meetings_from_both_sides(self) -> None:
        def meet(one: mntgate.Task, two: mntgate.Task) -> None:
            for _ in range(2000):
                one.meet(two)

        thread = threading.Thread(target=meet, args=(self.task, self.other))
        thread.start()
        meet(self.other, self.task)
        thread.join()

    def test_hook_is_no_busy(self) -> None:
        class Fails(mntgate.Hooks):
            def freeze_fs(self) -> int:
                return errno.EBUSY

            def reconfigure(self, read_only: bool) -> int:
                return 1 if read_only else 0

        with self.assertRaises(mntgate.HookFailed) as caught:
            self.task.freeze(hooks=Fails())
        self.assertEqual(caught.exception.code, errno.EBUSY)
        self.assertRaises(mntgate.HookFailed, self.task.remount, True, Fails())
        self.task.remount(True)
        self.task.remount(False, Fails())
        self.task.settle()

    def test_numbers(self) -> None:
        task = self.task
        calls = [
            task.try_want, lambda number: task.try_want(0, number), task.drop_mount, lambda number: task.drop_mount(0, number),
            task.drop_write, lambda number: task.drop_write(0, number), task.try_start, lambda number: task.try_start(1, number),
            task.end, lambda number: task.end(1, number), lambda number: task.try_change_mount(number, True),
            lambda number: task.change_mount(number, True), task.holds_mount, task.holds_level, task.has_open, task.callback,
            task.create, task.remove, task.fault, task.flush, task.open_file, task.close_file, lambda number: task.close_file(1, number),
            lambda number: task.grow(number, 1), lambda number: task.move_to(number, 0), lambda number: task.move_to(1, number),
            lambda number: task.close([(number, 0, 0)]), lambda number: task.close([(7, 0, number)]),
            lambda number: self.enter(task.access(number)), lambda number: self.enter(task.access(0, number)),
            lambda number: self.enter(task.level(number)), lambda number: self.enter(task.level(1, number)),
            lambda number: self.enter(task.write(number)), lambda number: self.enter(task.write(0, number)),
            lambda number: self.enter(task.read_only(number)),
        ]
        for place, call in enumerate(calls):
            with self.subTest(place=place):
                for number in (-1, 256, 1 << 32):
                    self.refused(errno.EINVAL, call, number)
                for number in (0.0, "0", None):
                    self.assertRaises(TypeError, call, number)
        with self.task.write(0):
            for blocks in (-1, 1 << 32):
                self.refused(errno.EINVAL, self.task.grow, 1, blocks)
            self.assertRaises(TypeError, self.task.grow, 1, 1.0)
        with self.other.frozen():
            # (it doesn't wait first)
            self.refused(errno.EINVAL, self.enter, self.task.write(1))

    def test_hook_without_a_code(self) -> None:
        for answer, kind in ((65536, ValueError), (70000, ValueError), (-1, ValueError), (None, TypeError), (False, TypeError), ("0", TypeError)):
            with self.subTest(answer=answer):
                self.fails(kind, self.task.freeze, mntgate.Holder.USER, Answers(sync=answer))
                self.refused(errno.EINVAL, self.other.thaw)
        with self.assertRaises(mntgate.HookFailed) as caught:
            self.task.freeze(hooks=Answers(sync=65535))
        self.assertEqual(caught.exception.code, 65535)

    def test_hook_that_raises(self) -> None:
        for raised in (ZeroDivisionError(), KeyboardInterrupt(), SystemExit()):
            with self.subTest(raised=raised):
                hooks = Answers(freeze_fs=raised, unfreeze_fs=raised, reconfigure=raised)
                self.fails(type(raised), self.task.freeze, mntgate.Holder.USER, hooks)
                self.fails(type(raised), self.enter, self.task.frozen(hooks=hooks))
                self.fails(type(raised), self.task.remount, True, hooks)
                with self.other.write(0):
                    pass
                with self.task.frozen():
                    self.fails(type(raised), self.task.thaw, mntgate.Holder.USER, hooks)
                    self.task.snapshot()
                self.assertFalse(self.task.finish())

    def test_hook_that_uses_its_task(self) -> None:
        for name in ("finish", "freeze", "thaw", "snapshot", "settle"):
            with self.subTest(name=name):
                hooks = mntgate.Hooks()
                hooks.sync = getattr(self.task, name)
                self.fails(mntgate.Error, self.task.freeze, mntgate.Holder.USER, hooks)

    def test_wait_that_is_interrupted(self) -> None:
        """A call that only tries leaves nothing."""
        with self.other.write(0) as writer:
            file = writer.create(0)
            self.task.open_file(file)
            writer.remove(file)
        with self.other.frozen():
            self.interrupted(self.enter, self.task.write(0))
            self.interrupted(self.enter, self.task.level(1))
            self.interrupted(self.task.close_file, file)
            self.assertTrue(self.task.is_idle and self.task.has_open(file))
            self.assertFalse(self.task.holds_level(1) or self.task.holds_mount(0))
        self.task.close_file(file)
        self.assertTrue(self.task.rests)

    def test_freeze_that_is_interrupted(self) -> None:
        """A freeze that waits is given up, and asks no hook any more."""
        for level in (1, 2, 3):
            for hooks in (None, Waits(), Waits(freeze_fs=7)):
                with self.subTest(hooks=hooks, level=level):
                    with self.other.level(level):
                        self.interrupted(self.task.freeze, mntgate.Holder.USER, hooks)
                        self.assertTrue(self.task.is_idle)
                        if hooks is not None:
                            self.assertEqual((hooks.asked, hooks.levels), (level // 3, []))
                    self.assertFalse(self.task.finish())
                    self.is_open()

    def test_freeze_that_is_interrupted_twice(self) -> None:
        """A second exception may leave the freeze under way. Then `finish` gives it up, as a block does by itself."""
        for call, is_left in ((self.task.freeze, True), (lambda: self.enter(self.task.frozen()), False)):
            count, left, came = 0, 0, True
            while came:
                count += 1
                slept: list = []
                with self.other.level(1), mock.patch("mntgate.time.sleep", side_effect=lambda _: slept.append(1) or self.raises()):
                    came = interrupt_at(count, call, lambda: slept)
                try:
                    self.assertFalse(self.task.finish())
                except InterruptedError:
                    left += 1
                self.is_open()
            self.assertGreater(count, 20)
            self.assertEqual(left > 5, is_left)

    def raises(self) -> None:
        raise KeyboardInterrupt

    def test_freeze_that_is_interrupted_before_it_waits(self) -> None:
        """It waits for s_umount first. Then it is given up, though nobody is inside a level."""
        slow = SlowRemount()
        thread = threading.Thread(target=lambda: self.assertRaises(mntgate.HookFailed, self.other.remount, True, slow))
        thread.start()
        slow.owns.wait()
        sleep = time.sleep
        slept: list = []

        def interrupt(seconds: float) -> None:
            slept.append(seconds)
            if len(slept) == 1:
                raise KeyboardInterrupt
            slow.ends.set()
            sleep(seconds)

        hooks = Waits()
        with mock.patch("mntgate.time.sleep", interrupt):
            self.assertRaises(KeyboardInterrupt, self.task.freeze, mntgate.Holder.USER, hooks)
        thread.join()
        self.assertGreater(len(slept), 1)
        self.assertEqual(hooks.asked, 0)
        self.is_open()

    def test_remount_that_is_interrupted(self) -> None:
        """What can't be given up stays under way until it is finished, with the hooks of its call."""
        slow = SlowRemount()
        thread = threading.Thread(target=lambda: self.assertRaises(mntgate.HookFailed, self.other.remount, True, slow))
        thread.start()
        slow.owns.wait()
        self.interrupted(self.task.remount, True, Answers(reconfigure=7))
        self.assertFalse(self.task.is_idle)
        for call in (self.task.thaw, self.task.snapshot, lambda: self.task.try_want(0)):
            self.refused(errno.EDEADLK, call)
        self.interrupted(self.task.finish)
        slow.ends.set()
        thread.join()
        with self.assertRaises(mntgate.HookFailed) as caught:
            self.task.finish()
        self.assertEqual(caught.exception.code, 7)
        self.assertFalse(self.task.finish())
        self.assertTrue(self.task.rests)

    def test_freeze_that_is_interrupted_anywhere(self) -> None:
        """At whichever line an exception comes, the task can go on."""
        for hooks in (None, Answers()):
            count = 1
            while interrupt_at(count, lambda: self.task.freeze(hooks=hooks)):
                self.task.finish()
                self.assertTrue(self.task.rests)
                try:
                    self.task.thaw()
                except mntgate.Error as refused:
                    # (it was not begun)
                    self.assertEqual(refused.errno, errno.EINVAL)
                count += 1
            self.assertGreater(count, 20)
            self.task.thaw()

    def test_block_that_is_interrupted(self) -> None:
        """A block gives up a freeze that it has begun, at once, and gives back what it holds."""
        # A shell that starts a command in the background has it ignore Ctrl-C.
        before = signal.signal(signal.SIGINT, signal.default_int_handler)
        self.addCleanup(signal.signal, signal.SIGINT, before)

        hooks = mntgate.Hooks()
        waits = threading.Event()
        hooks.keep_waiting = lambda level: waits.set() or 0

        def interrupt() -> None:
            waits.wait()
            os.kill(os.getpid(), signal.SIGINT)

        self.other.try_start(1)
        self.other.try_want(0)
        thread = threading.Thread(target=interrupt)
        thread.start()
        with self.assertRaises(KeyboardInterrupt):
            self.enter(self.task.frozen(hooks=hooks))
        thread.join()
        self.refused(errno.EINVAL, self.task.thaw)

        def freezes() -> None:
            with self.task.access(0):
                with mock.patch("mntgate.time.sleep", side_effect=KeyboardInterrupt):
                    self.assertRaises(KeyboardInterrupt, self.task.freeze)

        freezes()
        self.other.drop_write(0)
        self.is_open()

    def test_tree(self) -> None:
        self.assertIsNone(self.task.tree())
        with self.task.write(0) as writer:
            directory = writer.create(0, True)
            file = writer.create(directory)
            writer.grow(file, 3)
            writer.move_to(file, 0)
            with writer.level(2):
                writer.fault(file)
            writer.open_file(file)
            self.refused(errno.EISDIR, writer.remove, directory)
            writer.remove(file)
        with self.other.frozen(mntgate.Holder.KERNEL):
            tree = self.other.snapshot()
        self.assertEqual((tree.used, tree.nodes[file].size, tree.nodes[file].removed, tree.nodes[3]), (3, 3, True, None))
        self.assertTrue(self.task.has_open(file))
        self.task.close_file(file)
        self.other.settle()

    def test_waits(self) -> None:
        calls = [lambda: self.other.change_mount(0, True), lambda: self.other.change_mount(0, False)]
        with self.task.frozen():
            for call in calls:
                thread = threading.Thread(target=lambda: [call() for _ in range(200)])
                thread.start()
                while thread.is_alive():
                    self.assertEqual(self.task.snapshot().used, 0)
                thread.join()

    def test_threads(self) -> None:
        record, torn = [0, 0], 0

        def write() -> None:
            for round in range(1, 500):
                with self.other.write(0):
                    record[0] = round
                    record[1] = round

        thread = threading.Thread(target=write)
        thread.start()
        while thread.is_alive():
            with self.task.frozen():
                torn += record[0] != record[1]
            self.task.settle()
        self.assertEqual(torn, 0)


class Open(unittest.TestCase):
    """Opening and closing."""

    def test_library(self) -> None:
        for path in ("/nowhere/libmntgate.so", "libc.so.6"):
            with mock.patch.dict(os.environ, MNTGATE_LIBRARY=path):
                with self.assertRaises(ImportError) as caught:
                    mntgate._load()
            for part in ("MNTGATE_LIBRARY=PREFIX/lib/libmntgate.so", path, "bin/install-c"):
                self.assertIn(part, str(caught.exception))

    def test_config(self) -> None:
        self.assertRaises(mntgate.Error, mntgate.open, tasks=65)
        for name in ("tasks", "processors", "mounts", "nodes", "capacity"):
            for number in (-1, (1 << 32) + 2):
                with self.assertRaises(mntgate.Error) as caught:
                    mntgate.open(**{name: number})
                self.assertEqual(caught.exception.errno, errno.EINVAL)
            for number in (2.0, "2", None):
                self.assertRaises(TypeError, mntgate.open, **{name: number})
        mntgate.open(tasks=1, capacity=(1 << 32) - 1).close()
        task, other = mntgate.open(), mntgate.open()
        self.assertRaises(mntgate.Error, task.join, other)
        other.close()
        self.assertEqual(task.close([(15, 0, 0), (99, 0, 0)]), (0, 0))
        self.assertRaises(ValueError, task.close)


if __name__ == "__main__":
    unittest.main()
