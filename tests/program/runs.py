"""The program as it was built, run in the ways in which it is tested: over bytes, in pieces, by
turns, at a terminal, and with reads and writes that fail or end short."""

import contextlib
import fcntl
import os
import pty
import resource
import signal
import socket
import struct
import subprocess
import sys
import tempfile
import termios
import threading
import time
from subprocess import PIPE
from typing import NamedTuple

from program.cases import ROOT

# The program as two compilers make it.
BUILT = [f"{ROOT}/crates/mntgate/out/mntgate", f"{ROOT}/crates/mntgate/out/mntgate.by-rattle"]
# Seconds after which a command line is taken to go on for ever. The longest one takes under a
# second where it has a processor.
PATIENCE = 60
# A limit of time of a socket, which is never reached: but a read or a write that waits there is
# interrupted where its process is stopped and goes on.
LIMIT = struct.pack("ll", 1000, 0)


class Ended(NamedTuple):
    """How a command line ended."""

    status: int
    printed: bytes
    told: bytes


class Program:
    """A built program. It is called by its name, in a folder with the files of the cases."""

    def __init__(self, path, folder):
        self.path, self.folder = os.path.realpath(path), folder

    @contextlib.contextmanager
    def started(self, words, **streams):
        """It, started. Where it goes on for too long it is killed, which makes its exit status -9.
        A write beyond the limit of a file's size fails, and ends nothing, as Python ignores the
        signal of that and leaves it so."""
        words = ["mntgate", *words]
        with subprocess.Popen(
            words,
            executable=self.path,
            cwd=self.folder,
            stderr=streams.pop("stderr", PIPE),
            restore_signals=False,
            **streams,
        ) as process:
            timer = threading.Timer(PATIENCE, process.kill)
            timer.start()
            try:
                yield process
            finally:
                timer.cancel()
                process.kill()

    def run(self, words, given=b"", **streams):
        """Runs it over these bytes, or over another standard input."""
        with self.started(words, **({"stdin": PIPE, "stdout": PIPE} | streams)) as process:
            printed, told = process.communicate(given if process.stdin else None)
        return Ended(process.returncode, printed or b"", told or b"")

    def run_over_folder(self, words):
        """Runs it with a folder for its standard input."""
        folder = os.open(self.folder, os.O_RDONLY)
        try:
            return self.run(words, stdin=folder)
        finally:
            os.close(folder)

    def run_to_full(self, words, given):
        """Runs it with a standard output that takes nothing."""
        with open("/dev/full", "wb") as full:
            return self.run(words, given, stdout=full)

    def run_cut(self, words, given):
        """Runs it over these bytes, behind which a read fails: the other end of its socket was
        closed with something in it that was never read."""
        ours, theirs = socket.socketpair()
        with ours, theirs:
            theirs.sendall(b"never read")
            ours.sendall(given)
            ours.close()
            return self.run(words, stdin=theirs)

    def run_in_pieces(self, words, pieces, limit=None):
        """Runs it over these pieces, of which each read gives one; its standard output takes as
        many bytes as the limit says, if there is one."""
        ours, theirs = socket.socketpair(socket.AF_UNIX, socket.SOCK_SEQPACKET)
        with tempfile.TemporaryFile() as output, ours, theirs, self.started(
            words, stdin=theirs, stdout=output
        ) as process:
            theirs.close()
            # It hasn't written yet, as nothing was given to it.
            if limit is not None:
                resource.prlimit(process.pid, resource.RLIMIT_FSIZE, (limit, limit))
            # It may end before it has read all of them.
            with contextlib.suppress(BrokenPipeError, ConnectionResetError):
                for piece in pieces:
                    ours.send(piece)
            ours.close()
            told = process.communicate()[1]
            output.seek(0)
            return Ended(process.returncode, output.read(), told)

    def run_interrupted(self, words, given):
        """Runs it over these bytes, behind which a read that waits for more is interrupted."""
        ours, theirs = socket.socketpair()
        with ours, theirs:
            theirs.setsockopt(socket.SOL_SOCKET, socket.SO_RCVTIMEO, LIMIT)
            ours.sendall(given)
            with self.started(words, stdin=theirs, stdout=PIPE) as process:
                while is_stopped(process):
                    pass
                printed, told = process.communicate()
        return Ended(process.returncode, printed, told)

    def run_held_up(self, words, given):
        """Runs it over these bytes with a standard output that takes nothing, where its first write
        waits, and is interrupted."""
        ours, theirs = socket.socketpair()
        with ours, theirs, source_of(given) as source:
            theirs.setblocking(False)
            with contextlib.suppress(BlockingIOError):
                while True:
                    theirs.send(b"full")
            theirs.setblocking(True)
            theirs.setsockopt(socket.SOL_SOCKET, socket.SO_SNDTIMEO, LIMIT)
            with self.started(words, stdin=source, stdout=theirs) as process:
                while is_stopped(process):
                    pass
                told = process.communicate()[1]
            theirs.close()
            printed = b"".join(iter(lambda: ours.recv(65536), b"")).replace(b"full", b"")
        return Ended(process.returncode, printed, told)

    def run_stopped(self, words, given):
        """Runs it over these bytes with a pipe of 4,096 bytes for its output, where each write that
        waits is interrupted, and so ends with a part of its bytes written."""
        ours, theirs = os.pipe()
        fcntl.fcntl(theirs, fcntl.F_SETPIPE_SZ, 4096)
        with os.fdopen(ours, "rb", 0) as pipe, source_of(given) as source:
            with self.started(words, stdin=source, stdout=theirs) as process:
                os.close(theirs)
                printed = b""
                while is_stopped(process):
                    printed += pipe.read(4096)
                told = process.communicate()[1]
                printed += pipe.read()
        return Ended(process.returncode, printed, told)

    def run_answering(self, words, lines):
        """Runs it by turns: gives it a line, and the next one when it has printed what belongs to
        the one before."""
        printed = b""
        with self.started(words, stdin=PIPE, stdout=PIPE) as process:
            with contextlib.suppress(BrokenPipeError):
                for line, answer in lines:
                    os.write(process.stdin.fileno(), line.encode())
                    printed += process.stdout.read(len(answer))
            process.stdin.close()
            printed += process.stdout.read()
            return Ended(process.wait(), printed, process.stderr.read())

    def run_typed(self, words, given, types):
        """Runs it with a terminal for standard error and, where a person types, for standard input
        too."""
        ours, theirs = pty.openpty()
        quiet = termios.tcgetattr(theirs)
        quiet[1] &= ~termios.OPOST
        quiet[3] &= ~termios.ECHO
        termios.tcsetattr(theirs, termios.TCSANOW, quiet)
        with os.fdopen(ours, "r+b", 0) as terminal:
            with os.fdopen(theirs, "r+b", 0) as other:
                if types:
                    terminal.write(given + b"\x04")
                ended = self.run(words, given, stderr=other, **({"stdin": other} if types else {}))
            # Behind what was told a read fails, as nobody has the terminal's other end any more.
            told = b""
            with contextlib.suppress(OSError):
                while part := terminal.read(4096):
                    told += part
        return Ended(ended.status, ended.printed, told)


def built_programs(paths):
    """These programs; those of the repository, where none is named: the second, where it is there.
    Ends the test where there is no such program."""
    paths = paths or [path for path in BUILT if path == BUILT[0] or os.path.exists(path)]
    for path in paths:
        if not os.access(path, os.X_OK):
            sys.exit(f"there is no program {os.path.relpath(path)}: bin/prove builds it")
    return paths


def source_of(given):
    """A file of these bytes, which is read from its beginning on."""
    source = tempfile.TemporaryFile()
    source.write(given)
    source.seek(0)
    return source


def wait_until(process, states):
    """Waits until a process is in one of these states, and says in which: S, it waits; T, it is
    stopped; Z, it has ended."""
    while True:
        with open(f"/proc/{process.pid}/stat", encoding="utf-8") as stat:
            state = stat.read().rpartition(")")[2].split()[0]
        if state in states:
            return state
        time.sleep(0.0002)


def is_stopped(process):
    """Whether a process waited and was stopped for a moment: not where it has ended. (By `os.kill`,
    as `process.kill` forgets one that has ended.)"""
    if wait_until(process, "SZ") == "Z":
        return False
    os.kill(process.pid, signal.SIGSTOP)
    wait_until(process, "TZ")
    os.kill(process.pid, signal.SIGCONT)
    return True
