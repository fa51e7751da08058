"""Random operations over the mount and over a plain directory, with equal results, while it is
frozen and thawed; and writers that alarms interrupt."""

import contextlib
import ctypes
import errno
import os
import random
import signal
import stat
import threading
import time

from passthrough.mounts import Child, Fault, mounted, until, want

SEED = int(os.environ.get("SEED", "1"))
OPERATIONS = 2500
FOLDERS = ["d", "e"]
NAMES = ["a", "b", "c", "é b", "n" * 255, "n" * 256]
SLOTS = 4
NOBODY = 65534
RENAME_NOREPLACE, RENAME_EXCHANGE = 1, 2
AT_FDCWD = -100
LIBC = ctypes.CDLL(None, use_errno=True)


def rename_with(path, to, flags):
    """renameat2."""
    if LIBC.renameat2(AT_FDCWD, os.fsencode(path), AT_FDCWD, os.fsencode(to), flags):
        raise OSError(ctypes.get_errno(), "renameat2")


def attributes(seen):
    """What has to be equal of a file's attributes: no directory's size, no time that nobody has
    set, and none of a FIFO, which the kernel writes to without asking FUSE."""
    size = 0 if stat.S_ISDIR(seen.st_mode) else seen.st_size
    time_set = (
        0 if seen.st_mtime_ns >= 10**18 or stat.S_ISFIFO(seen.st_mode) else seen.st_mtime_ns
    )
    return seen.st_mode, seen.st_nlink, seen.st_uid, seen.st_gid, size, time_set, seen.st_rdev


def one_file(path):
    """What has to be equal of a file."""
    seen = os.lstat(path)
    data = None
    if stat.S_ISREG(seen.st_mode):
        with contextlib.suppress(PermissionError), open(path, "rb") as file:
            data = file.read()
    return attributes(seen), data


class Tree:
    """A directory in which operations are made by their names, and the files that they have
    open."""

    def __init__(self, top):
        self.top, self.files = top, {}

    def at(self, path):
        """A path below the top."""
        return f"{self.top}/{path}"

    def do(self, word, *given):
        """Makes an operation. Its result, or its errno."""
        try:
            return getattr(self, word)(*given)
        except OSError as error:
            return errno.errorcode[error.errno]

    def open(self, slot, path, flags, mode):
        """Opens a file, in the place of one that is open."""
        file = os.open(self.at(path), flags, mode)
        self.close(slot)
        self.files[slot] = file

    def close(self, slot):
        """Closes a file."""
        if slot in self.files:
            os.close(self.files.pop(slot))

    def file(self, slot):
        """An open file, or EBADF."""
        if slot not in self.files:
            raise OSError(errno.EBADF, "not open")
        return self.files[slot]

    def write(self, slot, data):
        return os.write(self.file(slot), data)

    def pwrite(self, slot, data, at):
        return os.pwrite(self.file(slot), data, at)

    def read(self, slot, size, at):
        return os.pread(self.file(slot), size, at)

    def seek(self, slot, at, whence):
        """But not in a directory, where the places are the file system's own."""
        file = self.file(slot)
        return None if stat.S_ISDIR(os.fstat(file).st_mode) else os.lseek(file, at, whence)

    def cut(self, slot, size):
        return os.ftruncate(self.file(slot), size)

    def reserve(self, slot, at, size):
        return os.posix_fallocate(self.file(slot), at, size)

    def sync(self, slot):
        return os.fsync(self.file(slot))

    def fstat(self, slot):
        return attributes(os.fstat(self.file(slot)))

    def stat(self, path):
        return attributes(os.lstat(self.at(path)))

    def mkdir(self, path, mode):
        return os.mkdir(self.at(path), mode)

    def mkfifo(self, path, mode):
        return os.mknod(self.at(path), stat.S_IFIFO | mode)

    def rmdir(self, path):
        return os.rmdir(self.at(path))

    def unlink(self, path):
        return os.unlink(self.at(path))

    def rename(self, path, to):
        return os.rename(self.at(path), self.at(to))

    def rename_with(self, path, to, flags):
        return rename_with(self.at(path), self.at(to), flags)

    def link(self, path, to):
        return os.link(self.at(path), self.at(to), follow_symlinks=False)

    def symlink(self, text, path):
        return os.symlink(text, self.at(path))

    def readlink(self, path):
        return os.readlink(self.at(path))

    def list(self, path):
        return sorted(os.listdir(self.at(path)))

    def chmod(self, path, mode):
        return os.chmod(self.at(path), mode)

    def chown(self, path, user, group):
        return os.lchown(self.at(path), user, group)

    def times(self, path, at):
        return os.utime(self.at(path), (at, at), follow_symlinks=False)

    def truncate(self, path, size):
        return os.truncate(self.at(path), size)

    def setxattr(self, path, name, value, flags):
        return os.setxattr(self.at(path), name, value, flags)

    def getxattr(self, path, name):
        return os.getxattr(self.at(path), name)

    def listxattr(self, path):
        return sorted(os.listxattr(self.at(path)))

    def removexattr(self, path, name):
        return os.removexattr(self.at(path), name)

    def space(self):
        """A part of statfs."""
        seen = os.statvfs(self.top)
        return seen.f_bsize, seen.f_blocks, seen.f_namemax

    def whole(self):
        """All that the tree has, as far as the user may look."""
        found = {}
        for folder, folders, names in os.walk(self.top):
            for name in folders + names:
                path = os.path.join(folder, name)
                with contextlib.suppress(PermissionError):
                    found[os.path.relpath(path, self.top)] = one_file(path)
        return found


def pick_path(chance):
    """A path, mostly of a file in one of a few folders."""
    folders = chance.choices(FOLDERS, k=chance.choice([0, 0, 1, 1, 1, 2]))
    return "/".join([*folders, chance.choices(NAMES, [6, 6, 6, 2, 1, 0.2])[0]])


def pick_folder(chance):
    """A path, mostly of a folder."""
    return "/".join(chance.choices(FOLDERS + NAMES[:1], [6, 6, 1], k=chance.choice([1, 1, 2])))


def pick_open(chance):
    """An open, with any of the flags that change what it does."""
    flags = chance.choice([os.O_RDONLY, os.O_WRONLY, os.O_RDWR, os.O_RDWR])
    for flag, often in (
        (os.O_CREAT, 0.8),
        (os.O_EXCL, 0.1),
        (os.O_TRUNC, 0.2),
        (os.O_APPEND, 0.2),
        (os.O_NOFOLLOW, 0.1),
        (os.O_NONBLOCK, 1),
    ):
        flags |= flag if chance.random() < often else 0
    return (
        "open",
        chance.randrange(SLOTS),
        pick_path(chance),
        flags,
        chance.choice([0o644, 0o600, 0o6755, 0o4755, 0o444]),
    )


def pick_file_operation(chance):
    """An operation on an open file."""
    slot, at, size = (
        chance.randrange(SLOTS),
        chance.choice([0, 1, 100, 4095, 4096, 10000]),
        chance.choice([0, 1, 512, 4096, 5000, 70000]),
    )
    return chance.choice(
        [
            ("write", slot, bytes([chance.randrange(256)]) * size),
            ("pwrite", slot, bytes([chance.randrange(256)]) * size, at),
            ("read", slot, size, at),
            ("seek", slot, at, os.SEEK_SET),
            ("seek", slot, 0, os.SEEK_END),
            ("cut", slot, at),
            ("reserve", slot, at, size),
            ("sync", slot),
            ("fstat", slot),
            ("close", slot),
        ]
    )


def name_operations(chance, path, to, folder):
    """Operations that make, remove and move names, one of each kind."""
    return [
        ("mkdir", folder, chance.choice([0o755, 0o777, 0o2775, 0o500])),
        ("mkdir", folder, 0o755),
        ("mkdir", folder, 0o755),
        ("rmdir", folder),
        ("list", folder),
        ("rename", folder, pick_folder(chance)),
        ("rename", path, to),
        ("rename", path, folder),
        ("rename_with", path, to, chance.choice([RENAME_NOREPLACE, RENAME_EXCHANGE])),
        ("rename_with", folder, to, RENAME_EXCHANGE),
        ("unlink", path),
        ("link", path, to),
        ("symlink", to, path),
        ("readlink", path),
        ("mkfifo", path + "fifo", 0o640),
        ("open", chance.randrange(SLOTS), path + "fifo", os.O_RDWR | os.O_NONBLOCK, 0),
        ("unlink", path + "fifo"),
    ]


def attribute_operations(chance, path, folder):
    """Operations on what a name has: its mode, owner, times, length and attributes."""
    name = chance.choice(["user.a", "user.b", "user." + "n" * 100])
    value = b"v" * chance.choice([0, 1, 300])
    owner, group = (chance.choice([-1, 0, 1000, NOBODY]) for _ in range(2))
    return [
        ("stat", path),
        ("stat", folder),
        ("chmod", path, chance.choice([0o600, 0o644, 0o755, 0o2755, 0o4711, 0])),
        ("chmod", folder, chance.choice([0o755, 0o777, 0o2755, 0o1777])),
        ("chown", path, owner, group),
        ("times", path, chance.randrange(10**8)),
        ("truncate", path, chance.choice([0, 1, 5000])),
        ("setxattr", path, name, value, chance.choice([0, 0, os.XATTR_CREATE, os.XATTR_REPLACE])),
        ("getxattr", path, name),
        ("listxattr", path),
        ("removexattr", path, name),
        ("space",),
    ]


def pick_path_operation(chance):
    """An operation on a path."""
    path, to, folder = pick_path(chance), pick_path(chance), pick_folder(chance)
    return chance.choice(
        name_operations(chance, path, to, folder) + attribute_operations(chance, path, folder)
    )


def compare(above, plain, seed):
    """Makes operations in both, and compares each result and at last both trees. A fault, or
    None."""
    chance = random.Random(seed)
    for number in range(OPERATIONS):
        operation = chance.choices(
            [pick_open, pick_file_operation, pick_path_operation], [3, 6, 6]
        )[0](chance)
        results = [tree.do(*operation) for tree in (above, plain)]
        if results[0] != results[1]:
            return (
                f"seed {seed}, operation {number}, {str(operation)[:200]}: {str(results[0])[:200]},"
                f" and in a plain directory {str(results[1])[:200]}"
            )
    one, two = above.whole(), plain.whole()
    for path in sorted(one.keys() | two.keys()):
        if one.get(path) != two.get(path):
            return (
                f"seed {seed}, at the end, {path}: {str(one.get(path))[:200]}, and in a plain"
                f" directory {str(two.get(path))[:200]}"
            )
    return None


def compare_as(user, above, plain, seed):
    """As a user of its own, in a process of its own."""
    reading, writing = os.pipe()

    def work():
        if user:
            os.setgroups([])
            os.setgid(user)
            os.setuid(user)
        os.umask(0o022)
        fault = compare(Tree(above), Tree(plain), seed)
        os.write(writing, (fault or "equal").encode()[:3000])

    child = Child(work)
    os.close(writing)
    said = b""
    while part := os.read(reading, 4096):
        said += part
    os.close(reading)
    want(child.ended() == 0 and said == b"equal", said.decode() or "the process has failed")


class Freezes(threading.Thread):
    """Freezes and thaws, again and again."""

    def __init__(self, control):
        super().__init__(daemon=True)
        self.control, self.over, self.count, self.fault = control, False, 0, None

    def run(self):
        chance = random.Random(SEED)
        try:
            while not self.over:
                self.control.do("freeze")
                time.sleep(chance.uniform(0, 0.01))
                self.control.do("thaw")
                self.count += 1
                time.sleep(chance.uniform(0, 0.01))
        except (Fault, OSError) as error:
            self.fault = error

    def end(self):
        """Ends it. How often it has frozen."""
        self.over = True
        self.join()
        if self.fault:
            raise self.fault
        return self.count


def same_as_a_directory(programs):
    """Random operations have the results that they have in a plain directory, for root and for
    another user, while it is frozen and thawed."""
    done = 0
    for user in [0, NOBODY] if os.geteuid() == 0 else [0]:
        with mounted(programs) as mount:
            plain = f"{mount.folder}/plain"
            os.mkdir(plain)
            for path in (mount.source, plain):
                os.chmod(path, 0o777)
            freezes = Freezes(mount.control)
            freezes.start()
            compare_as(user, mount.point, plain, SEED + user)
            freezes.end()
            want(Tree(mount.source).whole() == Tree(plain).whole(), "below")
            done += OPERATIONS
    return f"{done} operations"


class Alarm(Exception):
    """A timer has rung."""


def interrupted_writer(folder, seconds):
    """Appends records and makes names, while a timer's signals come at odd moments. Each change is
    made whole, or not at all."""
    armed = [False]

    def ring(*_):
        if armed[0]:
            raise Alarm

    signal.signal(signal.SIGALRM, ring)
    chance = random.Random(os.getpid())
    os.mkdir(folder)
    log = os.open(f"{folder}/log", os.O_CREAT | os.O_WRONLY | os.O_APPEND)
    end = time.monotonic() + seconds
    while time.monotonic() < end:
        armed[0] = True
        try:
            signal.setitimer(signal.ITIMER_REAL, chance.uniform(0.0005, 0.01))
            os.write(log, b"0123456789abcdef")
            os.mknod(f"{folder}/x")
            os.rename(f"{folder}/x", f"{folder}/y")
            os.unlink(f"{folder}/y")
        except (Alarm, FileExistsError, FileNotFoundError):
            pass
        finally:
            armed[0] = False
    signal.setitimer(signal.ITIMER_REAL, 0)
    size = os.fstat(log).st_size
    os.close(log)
    want(size % 16 == 0, "a record is torn")


def sizes_below(mount):
    """What a look at all files below finds."""
    found = []
    for folder, _, names in os.walk(mount.source):
        for name in names:
            seen = os.lstat(os.path.join(folder, name))
            found.append((folder, name, seen.st_size, seen.st_mtime_ns))
    return sorted(found)


def storm(programs):
    """Writers whose waits signals interrupt, killed ones among them, while it is frozen as fast as
    it goes. Nothing changes while it is frozen."""
    freezes, seconds = 0, 3
    with mounted(programs, "--workers", "4") as mount:
        writers = [
            Child(lambda number=number: interrupted_writer(f"{mount.point}/{number}", seconds))
            for number in range(16)
        ]
        victims = []
        end = time.monotonic() + seconds
        while time.monotonic() < end:
            mount.control.do("freeze")
            one = sizes_below(mount)
            victims.append(Child(lambda number=freezes: os.mkdir(f"{mount.point}/victim {number}")))
            time.sleep(random.uniform(0, 0.01))
            os.kill(victims[-1].pid, signal.SIGKILL)
            want(sizes_below(mount) == one, "something changes while it is frozen")
            mount.control.do("thaw")
            freezes += 1
        for process in writers:
            want(process.ended() == 0, "a writer has failed")
        for process in victims:
            want(process.ended() in ("SIGKILL", 0), "a process that was killed goes on")
        until(lambda: mount.control.count("waiting") == 0, "something waits after the last thaw")
        return (
            f"{freezes} freezes, {mount.control.count('waited')} changes waited,"
            f" {mount.control.count('given up')} were given up"
        )


TESTS = [same_as_a_directory, storm]
