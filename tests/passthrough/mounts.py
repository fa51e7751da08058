"""Directories that examples/fuse has mounted, and processes that use them."""

import contextlib
import errno
import os
import shutil
import signal
import socket
import subprocess
import tempfile
import threading
import time

# Seconds after which something is taken to hang. The daemon of a mount is then killed, which ends
# whoever waits for it.
PATIENCE = 30
MOUNT_PATIENCE = 60


class Fault(Exception):
    """What isn't as it should be."""


def want(true, text):
    """Raises a fault unless this is so."""
    if not true:
        raise Fault(text)


def until(holds, text, patience=PATIENCE):
    """Waits until this holds."""
    end = time.monotonic() + patience
    while not holds():
        want(time.monotonic() < end, f"{patience} seconds have passed: {text}")
        time.sleep(0.005)


class Control:
    """A connection to the control socket."""

    def __init__(self, path):
        self.socket = socket.socket(socket.AF_UNIX, socket.SOCK_STREAM)
        self.socket.settimeout(PATIENCE)
        self.socket.connect(path)

    def ask(self, word):
        """The answer to a command."""
        self.socket.sendall(word.encode() + b"\n")
        said = b""
        while not said.endswith(b"\n"):
            part = self.socket.recv(256)
            want(part, f"{word}: no answer")
            said += part
        return said.decode().strip()

    def do(self, word):
        """Does a command that isn't refused."""
        said = self.ask(word)
        want(said.startswith("ok: "), f"{word}: {said}")

    def count(self, what):
        """A count of the status: waiting, waited or given up."""
        parts = self.ask("status").split("; ")[1].split(", ")
        return int(next(part.split()[0] for part in parts if part.endswith(" " + what)))

    def close(self):
        """Closes the connection."""
        self.socket.close()


class Mount:
    """A directory, mounted: one of its own, or this one."""

    def __init__(self, programs, words, source=None):
        self.programs = programs
        self.folder = tempfile.mkdtemp(prefix="mntgate-fuse-")
        os.chmod(self.folder, 0o755)
        self.source, self.point, self.socket = (
            f"{self.folder}/{name}" for name in ("source", "mounted", "socket")
        )
        self.source = source or self.source
        os.makedirs(self.source, exist_ok=True)
        os.mkdir(self.point)
        self.daemon = subprocess.Popen(
            [f"{programs}/passthrough", *words, self.source, self.point, self.socket],
            stderr=subprocess.PIPE,
            text=True,
        )
        self.timer = self.control = None
        self.limit(MOUNT_PATIENCE)

    def begin(self):
        """Waits until it is mounted."""
        until(
            lambda: os.path.ismount(self.point) or self.daemon.poll() is not None,
            "nothing is mounted",
        )
        if self.daemon.poll() is not None:
            raise Fault(f"passthrough has ended: {self.daemon.stderr.read()}")
        self.control = Control(self.socket)

    def limit(self, seconds):
        """From now on its daemon may go on for so long."""
        if self.timer:
            self.timer.cancel()
        self.timer = threading.Timer(seconds, self.daemon.kill)
        self.timer.daemon = True
        self.timer.start()

    def gatectl(self, *words):
        """Runs gatectl."""
        return subprocess.run(
            [f"{self.programs}/gatectl", self.socket, *words],
            capture_output=True,
            text=True,
            timeout=PATIENCE,
            check=False,
        )

    def unmount(self, *words):
        """Unmounts it as its user does."""
        command = ["umount", *words] if os.geteuid() == 0 else ["fusermount3", "-u"]
        return subprocess.run(
            [*command, self.point], capture_output=True, text=True, timeout=PATIENCE, check=False
        )

    def has_ended(self):
        """Waits for the end of the daemon, which is clean, and gives what it has said."""
        try:
            _, said = self.daemon.communicate(timeout=PATIENCE)
        except subprocess.TimeoutExpired:
            raise Fault("the daemon goes on") from None
        want(
            self.daemon.returncode == 0 and "all counts together 0" in said,
            f"the daemon's status is {self.daemon.returncode}: {said}",
        )
        want(
            not os.path.ismount(self.point) and not os.path.exists(self.socket),
            "something is left of the mount",
        )
        return said

    def end(self):
        """Unmounts it, and everything ends."""
        self.control.close()
        ran = self.unmount()
        want(ran.returncode == 0, f"umount: {ran.stderr}")
        self.has_ended()

    def clear(self):
        """Leaves nothing, however the test has ended."""
        self.timer.cancel()
        if self.daemon.returncode is None:
            self.daemon.kill()
            self.daemon.wait()
            self.unmount("-l")
        shutil.rmtree(self.folder, ignore_errors=True)


@contextlib.contextmanager
def mounted(programs, *words, source=None):
    """A mount for a test. If the test doesn't end it, it is unmounted, and ends cleanly."""
    mount = Mount(programs, words, source)
    try:
        mount.begin()
        yield mount
        if mount.daemon.returncode is None:
            mount.end()
    finally:
        mount.clear()


class Child:
    """A process that makes a change, and ends with its errno, or with 0."""

    def __init__(self, work):
        self.how = None
        self.pid = os.fork()
        if self.pid == 0:
            os._exit(self.work_of(work))

    @staticmethod
    def work_of(work):
        """What the process does."""
        for number in (signal.SIGINT, signal.SIGTERM):
            signal.signal(number, signal.SIG_DFL)
        try:
            work()
        except OSError as error:
            return error.errno
        except BaseException:
            return 255
        return 0

    def ended(self, patience=PATIENCE):
        """How it ends: 0, the name of an errno or of a signal, or None if it goes on."""
        end = time.monotonic() + patience
        while self.how is None:
            pid, status = os.waitpid(self.pid, os.WNOHANG)
            if pid:
                code = os.waitstatus_to_exitcode(status)
                self.how = (
                    signal.Signals(-code).name if code < 0 else errno.errorcode.get(code, code)
                )
            elif time.monotonic() >= end:
                break
            else:
                time.sleep(0.002)
        return self.how


def put(path, data):
    """Writes over the beginning of a file that is there."""
    file = os.open(path, os.O_WRONLY)
    try:
        os.write(file, data)
    finally:
        os.close(file)
