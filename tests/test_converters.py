#!/usr/bin/env -S python3 -B
"""Tests tools/from-strace and tools/from-ftrace on recorded texts: no kernel runs, and no mntgate.
examples/traces/backup.strace was recorded on a 6.18, less the lines of other files; backup.ftrace
is written by hand, in the form of a 6.1. What the two become stands in examples/histories, whose
verdicts tests/test_program.py compares."""

import contextlib
import importlib.machinery
import importlib.util
import io
import os
import sys
import unittest
from unittest import mock

ROOT = os.path.dirname(os.path.dirname(os.path.realpath(__file__)))
# What opens a file for writing, and makes it: in which the kernel takes write access first.
CREATES = "wantwrite 0 *; if ok dropwrite 0 *; want 0 *"
CHANGES = "wantwrite 0 *; if ok dropwrite 0 *"
WRITES = "start 1 *; end 1 *"


def load(tool):
    """A converter, which is a program and no module."""
    loader = importlib.machinery.SourceFileLoader(tool.replace("-", "_"), f"{ROOT}/tools/{tool}")
    module = importlib.util.module_from_spec(importlib.util.spec_from_loader(loader.name, loader))
    loader.exec_module(module)
    return module


sys.path.insert(0, f"{ROOT}/tools")
recorded = importlib.import_module("recorded")
TOOLS = {tool: load(tool) for tool in ("from-strace", "from-ftrace")}


def convert(tool, trace, *words):
    """What a converter prints of a trace, and what it says if it can't."""
    printed, said = io.StringIO(), ""
    with (
        mock.patch("sys.argv", [f"tools/{tool}", *words]),
        mock.patch("sys.stdin", io.StringIO(trace)),
        contextlib.redirect_stdout(printed),
    ):
        try:
            recorded.run(TOOLS[tool].main)
        except SystemExit as ended:
            said = f"{ended.code}\n"
    return printed.getvalue(), said


def read_file(name):
    """The text of a file of the repository."""
    with open(f"{ROOT}/{name}", encoding="utf-8") as file:
        return file.read()


class Converted(unittest.TestCase):
    """What is common to both."""

    tool, words = None, ()

    def expect(self, trace, *lines, words=None):
        """A trace becomes these lines, behind `history`, less comments."""
        printed, said = convert(self.tool, trace, *(self.words if words is None else words))
        self.assertEqual(said, "")
        self.assertEqual(
            [
                line
                for line in printed.partition("history\n")[2].splitlines()
                if not line.startswith("#")
            ],
            list(lines),
        )
        return printed

    def expect_refused(self, trace, said):
        """A trace can't be read, for this reason."""
        self.assertEqual(convert(self.tool, trace, *self.words), ("", f"{self.tool}: {said}\n"))

    def expect_example(self, trace, example):
        """A recorded trace becomes an example, but for the lines that a reader is told."""
        lines = read_file(f"examples/histories/{example}.history").splitlines(keepends=True)
        self.assertEqual(
            convert(self.tool, read_file(f"examples/traces/{trace}"), *self.words),
            ("".join(lines[2:]), ""),
        )


class Strace(Converted):
    """from-strace."""

    tool, words = "from-strace", ("/mnt",)

    def test_recorded(self):
        self.expect_example("backup.strace", "recorded-by-strace")
        self.expect_example("torn.strace", "torn-by-strace")

    def test_freezes(self):
        self.expect(
            "7 1.0 ioctl(3</mnt>, FIFREEZE) = 0 <0.1>\n8 ioctl(3</mnt/a>, FIFREEZE) = -1 EBUSY (Device or resource busy)\n"
            "8 ioctl(3</mnt>, FIFREEZE) = -1 EPERM (Operation not permitted)\n8 ioctl(3</mnts>, FIFREEZE) = 0\n"
            "7 ioctl(3</mnt>, FITHAW) = 0\n7 ioctl(3</mnt>, FITHAW) = -1 EINVAL (Invalid argument)\n",
            "0 freeze user", "0 ok", "1 freeze user", "1 refused 16", "0 thaw user", "0 ok", "0 thaw user", "0 refused 22")  # fmt: skip

    def test_remounts(self):
        self.expect(
            '7 mount("none", "/mnt", NULL, MS_RDONLY|MS_REMOUNT, NULL) = -1 EBUSY (Device or resource busy)\n'
            '7 mount("none", "/mnt", NULL, MS_REMOUNT|MS_BIND|MS_RDONLY, NULL) = 0\n7 mount("none", "/mnt", 0x1, MS_REMOUNT, NULL) = 0\n'
            '7 mount("none", "/mnt", NULL, MS_RDONLY, NULL) = 0\n'
            '7 mount_setattr(3</mnt>, "", AT_EMPTY_PATH, {attr_set=MOUNT_ATTR_RDONLY, attr_clr=0, propagation=0, userns_fd=0}, 32) = 0\n'
            '7 mount_setattr(3</mnt>, "", AT_EMPTY_PATH, {attr_set=0, attr_clr=MOUNT_ATTR_RDONLY, propagation=0, userns_fd=0}, 32) = 0\n'
            '7 fspick(3</mnt>, "", FSPICK_EMPTY_PATH) = 4\n7 fsconfig(4, FSCONFIG_SET_FLAG, "ro", NULL, 0) = 0\n'
            "7 fsconfig(4, FSCONFIG_CMD_RECONFIGURE, NULL, NULL, 0) = 0\n",
            "0 remount ro", "0 refused 16", "0 change 0 ro", "0 ok", "0 remount rw", "0 ok", "0 change 0 ro", "0 ok", "0 change 0 rw", "0 ok",
            "0 remount ro", "0 ok")  # fmt: skip

    def test_an_open_is_a_task_to_its_last_close(self):
        self.expect(
            '7 openat(AT_FDCWD</>, "/mnt/a", O_WRONLY) = 3</mnt/a>\n7 dup2(3</mnt/a>, 5) = 5</mnt/a>\n7 close(3</mnt/a>) = 0\n'
            "7 fork() = 8\n7 close(5</mnt/a>) = 0\n7 getpid() = 7\n8 write(5</mnt/a>, \"x, y\", 4) = 4\n8 exit_group(0) = ?\n8 +++ exited with 0 +++\n",
            "0 want 0 *", "0 ok", f"1 {WRITES}", "1 ok", "0 drop 0 *", "0 ok")  # fmt: skip

    def test_a_close_is_done_when_its_process_goes_on(self):
        opens = '7 openat(AT_FDCWD</>, "/mnt/a", O_RDWR|O_CREAT|O_CLOEXEC, 0666) = 3</mnt/a>\n'
        self.expect(f"{opens}7 close(3</mnt/a>) = 0\n8 ioctl(3</mnt>, FIFREEZE) = 0\n7 getpid() = 7\n",
                    f"0 {CREATES}", "0 ok", "0 drop 0 *", "1 freeze user", "1 ok", "0 ok")  # fmt: skip
        self.expect(
            f'{opens}7 execve("/bin/true", ["true"], 0x1 /* 9 vars */) = 0\n7 getpid() = 7\n',
            f"0 {CREATES}",
            "0 ok",
            "0 drop 0 *",
            "0 ok",
        )
        self.expect(
            f"{opens}7 close_range(3, 4294967295, 0) = 0\n", f"0 {CREATES}", "0 ok", "0 drop 0 *"
        )

    def test_who_ends_closes(self):
        opens = '7 openat(AT_FDCWD</>, "/mnt/a", O_RDWR|O_TRUNC) = 3</mnt/a>\n'
        opened = "0 wantwrite 0 *; want 0 *; dropwrite 0 *", "0 ok"
        self.expect(f"{opens}7 getpid() = 7\n8 ioctl(3</mnt>, FIFREEZE) = 0\n7 +++ killed by SIGKILL +++\n",
                    *opened, "0 drop 0 *", "1 freeze user", "1 ok", "0 ok")  # fmt: skip
        # A thread that shares the descriptors goes on, until all end.
        self.expect(
            f"{opens}7 clone3({{flags=CLONE_VM|CLONE_FILES|CLONE_THREAD, exit_signal=0}}, 88) = 8\n8 exit(0) = ?\n8 +++ exited with 0 +++\n"
            "7 exit_group(0) = ?\n7 +++ exited with 0 +++\n", *opened, "0 drop 0 *", "0 ok")  # fmt: skip
        # Two processes close one file: the later end may be the one that gave the access back.
        self.expect(
            f"{opens}7 fork() = 8\n8 exit_group(0 <unfinished ...>\n7 close(3</mnt/a>) = 0\n7 getpid() = 7\n9 ioctl(3</mnt>, FIFREEZE) = 0\n"
            "8 +++ exited with 0 +++\n", *opened, "0 drop 0 *", "1 freeze user", "1 ok", "0 ok")  # fmt: skip

    def test_a_mapped_file_is_closed_at_an_unknown_time(self):
        self.expect('7 open("/mnt/a", O_RDWR) = 3</mnt/a>\n7 mmap(NULL, 4096, PROT_WRITE, MAP_SHARED, 3</mnt/a>, 0) = 0x7f0000000000\n'
                    "7 close(3</mnt/a>) = 0\n7 getpid() = 7\n", "0 want 0 *", "0 ok", "0 drop 0 *")  # fmt: skip

    def test_what_is_refused(self):
        self.expect(
            '7 openat(AT_FDCWD</>, "/mnt/a", O_WRONLY|O_CREAT, 0666) = -1 EROFS (Read-only file system)\n'
            '7 openat(AT_FDCWD</>, "/mnt/a", O_WRONLY) = -1 ENOENT (No such file or directory)\n7 openat(AT_FDCWD</>, "/mnt/a", O_RDONLY) = 3</mnt/a>\n'
            '7 openat(AT_FDCWD</>, "/mnt/a", O_RDONLY|O_CREAT, 0666) = 3</mnt/a>\n7 unlink("/mnt/a") = -1 EROFS (Read-only file system)\n'
            '7 unlink("/mnt/a") = -1 ENOENT (No such file or directory)\n7 write(4</mnt/a>, "x", 1) = -1 EBADF (Bad file descriptor)\n'
            '7 write(4</tmp/a>, "x", 1) = 1\n',
            "0 want 0 *", "0 refused 30", f"0 {CHANGES}", "0 ?", f"0 {CHANGES}", "0 refused 30")  # fmt: skip

    def test_paths(self):
        self.expect(
            '7 unlinkat(3</mnt/b>, "../c", 0) = 0\n7 renameat2(AT_FDCWD</mnt>, "a", AT_FDCWD</mnt>, "b", 0) = 0\n7 linkat(AT_FDCWD</>, "a", 4</mnt>, "b", 0) = 0\n'
            '7 utimensat(4</mnt/two/a>, NULL, NULL, 0) = 0\n7 fchmod(4</mnt/two/a, b>(deleted), 0600) = 0\n7 mkdir("/mnt/../tmp/a", 0777) = 0\n'
            "7 copy_file_range(3</tmp/a>, NULL, 4</mnt/b>, NULL, 9, 0) = 9\n7 ftruncate(4</mnt/b>, 0) = 0\n",
            *(f"0 {CHANGES}", "0 ok") * 3, *(f"0 {CHANGES.replace('e 0', 'e 1')}", "0 ok") * 2, *(f"0 {WRITES}", "0 ok") * 2, words=("/mnt", "/mnt/two"))  # fmt: skip

    def test_what_ends_too_late(self):
        self.expect('7 write(3</mnt/a>, "x", 1 <unfinished ...>\n8 ioctl(3</mnt>, FITHAW <unfinished ...>\n7 <... write resumed>) = 1 <0.2>\n',
                    f"0 {WRITES}", "1 thaw user", "0 ok")  # fmt: skip

    def test_what_is_no_trace(self):
        self.expect_refused("what\n", "line 1: 'what' is no line of strace -f")
        self.expect_refused("7 what\n", "line 1: 'what' is no system call")
        self.expect_refused(
            "7 read(3</a>,  <unfinished ...>\n7 getpid() = 7\n",
            "line 2: process 7 is in a call, whose end isn't there: 7 read(3</a>)",
        )
        opens = "".join(
            f'7 openat(AT_FDCWD</>, "/mnt/{number}", O_WRONLY) = {number}</mnt/{number}>\n'
            for number in range(65)
        )
        self.expect_refused(opens, "more than 64 tasks and open files at once")


class Ftrace(Converted):
    """from-ftrace."""

    tool = "from-ftrace"

    def lines(self, *events):
        """A trace of these events: a thread, and what it does."""
        place = {"_return": "(caller+0x1/0x2 <- gate)", "": "(gate+0x0/0x2)"}
        text = "# kernel 6.12.0\n"
        for number, event in enumerate(events, 1):
            thread, name, told = event.split(" ", 2)
            text += (
                f"              sh-{thread}     [000] .....     {number}: {name}:"
                f" {place['_return' if name.endswith('_return') else '']} {told}\n"
            )
        return text

    def test_written_by_hand(self):
        self.expect_example("backup.ftrace", "recorded-by-ftrace")

    def test_what_was_held_before(self):
        printed = self.expect(
            self.lines("7 freeze sb=0x1 who=1", "7 freeze_return ret=0", "8 drop mnt=0x5 sb=0x1", "8 drop_return ret=9", "9 drop_write mnt=0x6 sb=0x1",
                       "9 drop_write_return ret=0"),
            "2 freeze kernel", "2 ok", "0 drop 0 *", "0 ok", "1 dropwrite 1 *", "1 ok")  # fmt: skip
        self.assertEqual(
            printed.partition("history")[0],
            "config 3 1 2 2 8\n0 want 0 0\n0 run\n1 wantwrite 1 0\n1 run\n",
        )

    def test_a_return_that_tells_nothing(self):
        self.expect(self.lines("7 freeze sb=0x1 who=2", "7 freeze_return ret=-16", "8 want_write mnt=0x5 sb=0x1", "8 want_write_return ret=0",
                               "8 drop_write mnt=0x5 sb=0x1", "8 drop_write_return "),
                    "0 freeze user", "0 refused 16", "0 wantwrite 0 *", "0 ok", "0 dropwrite 0 *", "0 ok")  # fmt: skip

    def test_one_superblock(self):
        events = self.lines(
            "7 freeze sb=0x1 who=2",
            "7 freeze_return ret=-16",
            "7 thaw sb=0x2 who=2",
            "7 thaw_return ret=-22",
        )
        self.expect(events, "0 freeze user", "0 refused 16")
        self.expect(events, "0 thaw user", "0 refused 22", words=("--sb", "0x2"))

    def test_what_failed_otherwise(self):
        self.expect(self.lines("7 remount sb=0x1 flags=65", "7 remount_return ret=-5", "7 remount sb=0x1 flags=65", "7 remount_return ret=0"),
                    "0 remount ro", "0 ok")  # fmt: skip

    def test_what_is_no_trace(self):
        self.expect_refused("what\n", "line 1: 'what' is no event of tools/trace-gates")
        self.expect_refused(
            "CPU:1 [LOST 5 EVENTS]\n",
            "line 1: events were lost; a larger buffer_size_kb keeps more",
        )
        self.expect_refused(
            self.lines("7 write sb=0x1"),
            "no freeze, thaw or remount is recorded, and --sb isn't given",
        )
        self.expect_refused(self.lines("7 want mnt=0x5 sb=0x1", "7 freeze sb=0x1 who=2", "7 want_return ret=0"),
                            "line 4: want returns within freeze: a return was missed")  # fmt: skip
        older = self.lines("7 thaw sb=0x1 who=2", "7 thaw_return ret=0").splitlines(keepends=True)
        self.expect_refused(
            older[0] + older[2] + older[1],
            "line 3: it is older than the line before: the clock has to be one of all processors",
        )


# It has no tests of its own.
del Converted

if __name__ == "__main__":
    unittest.main()
