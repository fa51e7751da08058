"""Mappings of files, and files that are removed while they are open."""

import contextlib
import errno
import mmap
import os
import select
import signal
import socket
import time

from passthrough.mounts import PATIENCE, Child, Control, Fault, mounted, until, want

PAGE = mmap.PAGESIZE
# Every other page is stored into, so each is written back by a request of its own: more than the
# kernel sends unasked before the first is answered.
PAGES = 128
SIZE = 2 * PAGES * PAGE


class Mapper:
    """A process that maps a file, stores into its pages and writes them back."""

    def __init__(self, path):
        self.socket, other = socket.socketpair()
        self.pid = os.fork()
        if self.pid == 0:
            self.socket.close()
            with contextlib.suppress(BaseException):
                self.serve(other, path)
            os._exit(0)
        other.close()

    @staticmethod
    def serve(asker, path):
        """The process: stores each value that it gets, or writes back, and says when it is done."""
        file = os.open(path, os.O_RDWR)
        memory = mmap.mmap(file, SIZE)
        while value := asker.recv(4):
            if value == b"sync":
                memory.flush()
            else:
                for at in range(0, SIZE, 2 * PAGE):
                    memory[at : at + 4] = value
            asker.sendall(value)

    def begin(self, value):
        """Asks for a store of four bytes, or for b"sync"."""
        self.socket.sendall(value)

    def is_done(self, patience):
        """Whether what was asked is done within some seconds."""
        return (
            bool(select.select([self.socket], [], [], patience)[0])
            and len(self.socket.recv(4)) == 4
        )

    def do(self, value):
        """Does it."""
        self.begin(value)
        want(self.is_done(PATIENCE), f"{value}: goes on")

    def end(self, number=None):
        """Ends it."""
        if number:
            os.kill(self.pid, number)
        self.socket.close()

    def has_gone(self, patience):
        """Whether it ends within some seconds."""
        end = time.monotonic() + patience
        while time.monotonic() < end:
            if os.waitpid(self.pid, os.WNOHANG)[0]:
                return True
            time.sleep(0.01)
        return False


def values(path):
    """The values that stand in the pages of a file."""
    with open(path, "rb") as file:
        data = file.read()
    return {data[at : at + 4] for at in range(0, SIZE, 2 * PAGE)}


def make_file(mount):
    """A file to map, with its paths above and below."""
    with open(f"{mount.point}/file", "wb") as file:
        file.write(b"old " * (SIZE // 4))
    return f"{mount.point}/file", f"{mount.source}/file"


def stores_before_freeze(programs):
    """What was stored before a freeze is below once it is frozen, each time."""
    times = 30
    with mounted(programs) as mount:
        above, below = make_file(mount)
        mapper = Mapper(above)
        for number in range(times):
            value = b"%04d" % number
            mapper.do(value)
            mount.control.do("freeze")
            want(
                values(below) == {value},
                (
                    f"stored before freeze {number + 1}, but not below: {value}, and there is"
                    f" {sorted(values(below))}"
                ),
            )
            mount.control.do("thaw")
        mapper.end()
        want(mapper.has_gone(PATIENCE), "the mapping's process goes on")
    return f"{times} freezes, each with {PAGES} pages to write back"


def stores_while_frozen(programs):
    """What is stored while it is frozen comes below after the thaw, and keeps no read away."""
    with mounted(programs) as mount:
        above, below = make_file(mount)
        with open(f"{mount.source}/large", "wb") as file:
            file.write(b"large" * 1000000)
        mapper = Mapper(above)
        mount.control.do("freeze")
        mapper.do(b"new ")
        mapper.begin(b"sync")
        until(lambda: mount.control.count("waiting") == PAGES, "not all pages wait")
        want(not mapper.is_done(0.2), "msync is done while it is frozen")
        want(values(below) == {b"old "} and values(above) == {b"new "}, "stored while it is frozen")
        reader = Child(lambda: open(f"{mount.point}/large", "rb").read())
        want(reader.ended(10) == 0, "a read hangs beside pages that wait")
        mount.control.do("thaw")
        want(
            mapper.is_done(PATIENCE) and values(below) == {b"new "},
            "stored while it was frozen, after the thaw",
        )
        mapper.end()
        want(mapper.has_gone(PATIENCE), "the mapping's process goes on")
    return f"{PAGES} pages waited"


def freeze_that_fails(programs):
    """If pages can't be written back in time a freeze is refused, what waited goes on, and the next
    freeze is as good as any."""
    with mounted(programs) as mount:
        above, below = make_file(mount)
        with open(
            f"/proc/{mount.daemon.pid}/task/{mount.daemon.pid}/children", encoding="ascii"
        ) as file:
            process = int(file.read())
        os.kill(process, signal.SIGSTOP)
        control = Control(mount.socket)
        control.socket.sendall(b"freeze\n")
        time.sleep(0.5)
        writer = Child(lambda: os.mkdir(f"{mount.point}/new"))
        want(writer.ended(0.5) is None, "a change passes while a freeze is under way")
        said = control.socket.recv(256).decode()
        want(
            os.strerror(errno.ETIMEDOUT) in said and writer.ended() == 0,
            f"a freeze without a write-back: {said}",
        )
        os.kill(process, signal.SIGCONT)
        mapper = Mapper(above)
        mapper.do(b"next")
        mount.control.do("freeze")
        want(values(below) == {b"next"}, "stored before the next freeze, but not below")
        mount.control.do("thaw")
        mapper.end()
        want(mapper.has_gone(PATIENCE), "the mapping's process goes on")
        control.close()
    return said.strip()


def mapper_is_killed(programs):
    """A mapping's process that is killed while it is frozen ends with the thaw, and its stores come
    below."""
    with mounted(programs) as mount:
        above, below = make_file(mount)
        mapper = Mapper(above)
        mapper.do(b"1st ")
        mount.control.do("freeze")
        mapper.do(b"2nd ")
        mapper.end(signal.SIGKILL)
        want(
            not mapper.has_gone(0.3) and values(below) == {b"1st "},
            "the process ends while it is frozen",
        )
        mount.control.do("thaw")
        want(mapper.has_gone(PATIENCE) and values(below) == {b"2nd "}, "the process after the thaw")
    return "ends with the thaw"


def daemon_ends_with_mapping(programs):
    """SIGTERM while it is thawed loses no store; while it is frozen what was stored since isn't
    done, and msync fails."""
    with mounted(programs) as mount:
        above, below = make_file(mount)
        mapper = Mapper(above)
        mapper.do(b"1st ")
        mount.daemon.terminate()
        mount.has_ended()
        want(values(below) == {b"1st "}, "stored before the daemon's end")
        mapper.end(signal.SIGKILL)
        want(mapper.has_gone(PATIENCE), "the mapping's process goes on")
    with mounted(programs) as mount:
        above, below = make_file(mount)
        mapper = Mapper(above)
        mount.control.do("freeze")
        mapper.do(b"2nd ")
        mapper.begin(b"sync")
        until(lambda: mount.control.count("waiting") == PAGES, "not all pages wait")
        mount.daemon.terminate()
        mount.has_ended()
        want(values(below) == {b"old "}, "stored while it was frozen, after the daemon's end")
        mapper.end(signal.SIGKILL)
        want(mapper.has_gone(PATIENCE), "the mapping's process goes on")
    return "loses what was stored while it is frozen, and no more"


def no_mappings(programs):
    """With --no-mmap a shared mapping is refused."""
    with mounted(programs, "--no-mmap") as mount:
        above, _ = make_file(mount)
        file = os.open(above, os.O_RDWR)
        try:
            mmap.mmap(file, SIZE)
            raise Fault("a shared mapping with --no-mmap")
        except OSError as error:
            want(error.errno == errno.ENODEV, f"a shared mapping: {error}")
        finally:
            os.close(file)
        mount.control.do("freeze")
        mount.control.do("thaw")
    return "refused with ENODEV"


def removed_while_open(programs):
    """A file that is removed while it is open is read and written until its last close, and waits
    for a thaw as others do."""
    with mounted(programs) as mount:
        file = os.open(f"{mount.point}/file", os.O_CREAT | os.O_RDWR)
        os.write(file, b"before")
        os.unlink(f"{mount.point}/file")
        want(
            os.listdir(mount.source) == [] and os.fstat(file).st_nlink == 0,
            "the file after its removal",
        )
        mount.control.do("freeze")
        want(os.pread(file, 9, 0) == b"before", "a read of a removed file while it is frozen")
        writer = Child(lambda: os.pwrite(file, b"behind", 0))
        until(lambda: mount.control.count("waiting") == 1, "a write to a removed file doesn't wait")
        mount.control.do("thaw")
        want(writer.ended() == 0 and os.pread(file, 9, 0) == b"behind", "a write to a removed file")
        os.ftruncate(file, 3)
        want(os.fstat(file).st_size == 3, "the size of a removed file")
        os.close(file)
    return "read, written and cut off"


def direct(programs):
    """O_DIRECT is the kernel's part: what is written so is below, and is read so."""
    with mounted(programs) as mount, mmap.mmap(-1, PAGE) as memory:
        memory[:] = b"x" * PAGE
        file = os.open(f"{mount.point}/file", os.O_CREAT | os.O_RDWR | os.O_DIRECT)
        os.pwritev(file, [memory], 100)
        with open(f"{mount.source}/file", "rb") as below:
            want(below.read() == bytes(100) + b"x" * PAGE, "what was written with O_DIRECT")
        want(
            os.preadv(file, [memory], 50) == PAGE and memory[:60] == bytes(50) + b"x" * 10,
            "what is read with O_DIRECT",
        )
        os.close(file)
    return "written and read"


TESTS = [
    stores_before_freeze,
    stores_while_frozen,
    freeze_that_fails,
    mapper_is_killed,
    daemon_ends_with_mapping,
    no_mappings,
    removed_while_open,
    direct,
]
