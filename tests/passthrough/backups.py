"""Programs at work over the mount, while backups freeze it, copy what is below, and thaw it."""

import hashlib
import mmap
import os
import shutil
import sqlite3
import stat
import struct
import subprocess
import tarfile
import threading
import time

from passthrough.mounts import Fault, mounted, want

rounds = 6
UNGATED_ROUNDS = 12
ROOT = os.path.dirname(os.path.dirname(os.path.dirname(os.path.realpath(__file__))))
GIT = {
    "GIT_AUTHOR_NAME": "a",
    "GIT_AUTHOR_EMAIL": "a@b",
    "GIT_COMMITTER_NAME": "a",
    "GIT_COMMITTER_EMAIL": "a@b",
    "GIT_CONFIG_GLOBAL": "/dev/null",
}
GIT |= {"GIT_CONFIG_COUNT": "1", "GIT_CONFIG_KEY_0": "safe.directory", "GIT_CONFIG_VALUE_0": "*"}


def command(*words, folder=None):
    """Runs a program, which succeeds, and gives what it has printed."""
    ran = subprocess.run(
        words, cwd=folder, env={**os.environ, **GIT}, capture_output=True, text=True, check=False
    )
    want(ran.returncode == 0, f"{' '.join(words)[:80]}: {ran.stdout}{ran.stderr}")
    return ran.stdout


def whole(top):
    """A sum of each file's name, attributes and bytes, by its path; without the times of access."""
    found = {}
    for folder, folders, names in os.walk(top):
        for name in folders + names:
            path = os.path.join(folder, name)
            seen = os.lstat(path)
            data = b""
            if stat.S_ISREG(seen.st_mode):
                with open(path, "rb") as file:
                    data = file.read()
            elif stat.S_ISLNK(seen.st_mode):
                data = os.readlink(path).encode()
            size = 0 if stat.S_ISDIR(seen.st_mode) else seen.st_size
            found[os.path.relpath(path, top)] = (
                seen.st_mode,
                seen.st_uid,
                seen.st_gid,
                size,
                seen.st_mtime_ns,
                hashlib.sha256(data).digest(),
            )
    return found


def first_difference(one, two):
    """The first path at which two such sums differ, or None."""
    return next(
        (path for path in sorted(one.keys() | two.keys()) if one.get(path) != two.get(path)), None
    )


class Load(threading.Thread):
    """A program at work in a folder of the mount: `begin` once, and `step` again and again."""

    def __init__(self, folder):
        super().__init__(daemon=True)
        self.folder, self.over, self.steps, self.fault = folder, False, 0, None

    def run(self):
        try:
            os.mkdir(self.folder)
            self.begin()
            while not self.over:
                self.step()
                self.steps += 1
            self.end()
        except (Fault, OSError, sqlite3.Error, tarfile.TarError) as error:
            self.fault = f"{type(self).__name__}: {error!r}"

    def begin(self):
        """What is done first."""

    def end(self):
        """What is done last."""

    @staticmethod
    def why_torn(copy):
        """What is inconsistent in the copy of the folder, or None."""
        return None


class Tar(Load):
    """Unpacks an archive, compares it with what was packed, and removes it."""

    def begin(self):
        self.archive = f"{os.path.dirname(os.path.dirname(self.folder))}/archive.tar"
        command(
            "tar",
            "-C",
            ROOT,
            "--exclude=out",
            "-cf",
            self.archive,
            "docs",
            "bindings",
            "tests",
            "examples",
        )
        with tarfile.open(self.archive) as archive:
            self.sums = {
                one.name: hashlib.sha256(archive.extractfile(one).read()).digest()
                for one in archive
                if one.isfile()
            }

    def step(self):
        folder = f"{self.folder}/unpacked"
        os.mkdir(folder)
        command("tar", "-C", folder, "-xf", self.archive)
        command("chmod", "-R", "go-rwx", folder)
        for name, sum_of in self.sums.items():
            with open(f"{folder}/{name}", "rb") as file:
                want(
                    hashlib.sha256(file.read()).digest() == sum_of, f"{name} isn't as it was packed"
                )
            want(os.stat(f"{folder}/{name}").st_mode & 0o077 == 0, f"the mode of {name}")
        shutil.rmtree(folder)


class Git(Load):
    """Commits files, and packs and checks the repository."""

    def begin(self):
        command("git", "init", "-q", ".", folder=self.folder)

    def step(self):
        for number in range(20):
            with open(
                f"{self.folder}/{(self.steps * 7 + number) % 60}", "w", encoding="utf-8"
            ) as file:
                file.write(f"{self.steps} {number}\n" * 50)
        command("git", "add", ".", folder=self.folder)
        command("git", "commit", "-q", "-m", str(self.steps), folder=self.folder)
        if self.steps % 10 == 9:
            command("git", "gc", "-q", folder=self.folder)
        if self.steps % 5 == 4:
            command("git", "fsck", "--strict", folder=self.folder)

    @staticmethod
    def why_torn(copy):
        if not os.path.exists(f"{copy}/.git/refs/heads"):
            return None
        try:
            command("git", "fsck", "--strict", folder=copy)
            if os.listdir(f"{copy}/.git/refs/heads") or os.path.exists(f"{copy}/.git/packed-refs"):
                command("git", "log", "--oneline", folder=copy)
        except Fault as fault:
            return str(fault)
        return None


class Sqlite(Load):
    """A database in WAL mode, in which each transaction adds a row to two tables, and takes an old
    one away."""

    ROWS = 500

    def begin(self):
        self.database = sqlite3.connect(
            f"{self.folder}/database", timeout=60, check_same_thread=False, isolation_level=None
        )
        want(self.database.execute("pragma journal_mode=wal").fetchone() == ("wal",), "no WAL mode")
        self.database.execute("pragma wal_autocheckpoint=100")
        self.database.execute("create table if not exists one(x integer primary key, y blob)")
        self.database.execute("create table if not exists two(x integer primary key, y blob)")

    def step(self):
        self.database.execute("begin")
        self.database.execute("insert into one values(?, randomblob(3000))", (self.steps,))
        self.database.execute("insert into two values(?, randomblob(500))", (self.steps,))
        for name in ("one", "two"):
            self.database.execute(f"delete from {name} where x = ?", (self.steps - self.ROWS,))
        self.database.execute("commit")
        if self.steps % 100 == 99:
            want(
                self.database.execute("pragma integrity_check").fetchone() == ("ok",),
                "integrity_check",
            )

    def end(self):
        self.database.close()

    @staticmethod
    def why_torn(copy):
        if not os.path.exists(f"{copy}/database"):
            return None
        try:
            database = sqlite3.connect(f"{copy}/database")
            said = database.execute("pragma integrity_check").fetchone()[0]
            if (
                said == "ok"
                and len(
                    database.execute("select * from sqlite_schema where type='table'").fetchall()
                )
                == 2
            ):
                counts = [
                    database.execute(f"select count(*), max(x) from {name}").fetchone()
                    for name in ("one", "two")
                ]
                said = "ok" if counts[0] == counts[1] else f"two tables have {counts}"
            database.close()
        except sqlite3.Error as error:
            said = str(error)
        return None if said == "ok" else said


class Make(Load):
    """Builds a program of several files, runs it, and cleans up."""

    FILES = 8

    def begin(self):
        for number in range(self.FILES):
            with open(f"{self.folder}/f{number}.c", "w", encoding="utf-8") as file:
                file.write(f"int f{number}(int x) {{ return x * {number}; }}\n")
        names = range(self.FILES)
        with open(f"{self.folder}/main.c", "w", encoding="utf-8") as file:
            file.write(
                "#include <stdio.h>\n" + "".join(f"int f{number}(int);\n" for number in names)
            )
            file.write(
                'int main(void) { printf("%d\\n",'
                f' {" + ".join(f"f{number}(1)" for number in names)}); return 0; }}\n'
            )
        with open(f"{self.folder}/Makefile", "w", encoding="utf-8") as file:
            file.write(
                "OBJECTS = $(patsubst %.c,%.o,$(wildcard *.c))\nprogram: $(OBJECTS)\n\tgcc -o $@"
                " $(OBJECTS)\nclean:\n\trm -f program *.o\n"
            )

    def step(self):
        command("make", "-s", "-j2", "program", folder=self.folder)
        want(
            command(f"{self.folder}/program") == f"{sum(range(self.FILES))}\n",
            "what the program prints",
        )
        command("make", "-s", "clean", folder=self.folder)


class Ledger(Load):
    """Writes each record to one file and then to another, so the second is never ahead, nor behind
    by more than one."""

    RECORD = struct.Struct("<Q56x")

    def begin(self):
        self.files = []
        for name in ("first", "second"):
            os.mkdir(f"{self.folder}/{name}")
            self.files.append(
                os.open(f"{self.folder}/{name}/log", os.O_CREAT | os.O_WRONLY | os.O_APPEND)
            )

    def step(self):
        for file in self.files:
            os.write(file, self.RECORD.pack(self.steps))
        time.sleep(0.001)

    def end(self):
        for file in self.files:
            os.close(file)

    @classmethod
    def why_torn(cls, copy):
        try:
            sizes = [os.path.getsize(f"{copy}/{name}/log") for name in ("first", "second")]
        except FileNotFoundError:
            return None
        if (
            any(size % cls.RECORD.size for size in sizes)
            or not 0 <= sizes[0] - sizes[1] <= cls.RECORD.size
        ):
            return f"logs of {sizes[0]} and {sizes[1]} bytes"
        return None


class Mapped(Load):
    """Stores a number into a mapping, and then writes it to a file: what is in the file was in the
    mapping before."""

    NUMBER = struct.Struct("<Q")

    def begin(self):
        with open(f"{self.folder}/mapped", "wb") as file:
            file.write(bytes(mmap.PAGESIZE))
        self.file = os.open(f"{self.folder}/mapped", os.O_RDWR)
        self.memory = mmap.mmap(self.file, mmap.PAGESIZE)
        self.mark = os.open(f"{self.folder}/mark", os.O_CREAT | os.O_WRONLY)

    def step(self):
        number = self.NUMBER.pack(self.steps)
        self.memory[0 : len(number)] = number
        os.pwrite(self.mark, number, 0)
        time.sleep(0.001)

    def end(self):
        self.memory.close()
        os.close(self.file)
        os.close(self.mark)

    @classmethod
    def why_torn(cls, copy):
        try:
            with open(f"{copy}/mapped", "rb") as mapped_file, open(
                f"{copy}/mark", "rb"
            ) as mark_file:
                mapped_bytes, mark_bytes = mapped_file.read(8), mark_file.read(8)
        except FileNotFoundError:
            return None
        if len(mapped_bytes) < 8 or len(mark_bytes) < 8:
            return None
        values = [cls.NUMBER.unpack(part)[0] for part in (mapped_bytes, mark_bytes)]
        return (
            None
            if values[0] >= values[1]
            else f"{values[1]} was written, and the mapping has {values[0]}"
        )


LOADS = {"tar": Tar, "git": Git, "make": Make}
ALWAYS = {"sqlite": Sqlite, "ledger": Ledger, "mapped": Mapped}


def start_loads(mount):
    """Starts all whose program is here."""
    kinds = {name: kind for name, kind in LOADS.items() if shutil.which(name)} | ALWAYS
    loads = {name: kind(f"{mount.point}/{name}") for name, kind in kinds.items()}
    for load in loads.values():
        load.start()
    return loads


def end_loads(loads):
    """Ends them. A fault if one of them failed, or did nothing."""
    for load in loads.values():
        load.over = True
    for name, load in loads.items():
        load.join(60)
        want(not load.is_alive() and load.fault is None, load.fault or f"{name} goes on")
        want(load.steps > 0, f"{name} has done nothing")


def torn_parts(loads, copy):
    """What is inconsistent in a copy."""
    found = ((name, load.why_torn(f"{copy}/{name}")) for name, load in loads.items())
    return [f"{name}: {why}" for name, why in found if why]


def copy_frozen(mount, copy):
    """A backup: freezes, copies and thaws. Whether nothing has changed meanwhile, and the copy is
    the same."""
    mount.control.do("freeze")
    before = whole(mount.source)
    command("cp", "-a", mount.source, copy)
    after, copied = whole(mount.source), whole(copy)
    waiting = mount.control.count("waiting")
    mount.control.do("thaw")
    return first_difference(before, after), first_difference(before, copied), waiting


def backups_under_load(programs):
    """Backups of a mount at work: nothing changes while it is frozen, and each copy is
    consistent."""
    most_waiting = 0
    with mounted(programs) as mount:
        mount.limit(120 + 20 * rounds)
        loads = start_loads(mount)
        copy = f"{mount.folder}/copy"
        time.sleep(1)
        for number in range(rounds):
            changed, differs, waiting = copy_frozen(mount, copy)
            want(changed is None, f"backup {number}: while it was frozen this changed: {changed}")
            want(differs is None, f"backup {number}: this differs in the copy: {differs}")
            torn = torn_parts(loads, copy)
            want(not torn, f"backup {number} is torn: {torn}")
            most_waiting = max(most_waiting, waiting)
            shutil.rmtree(copy)
            time.sleep(0.3)
        end_loads(loads)
        steps = ", ".join(
            [f"{name} {load.steps}" for name, load in loads.items()]
            + [f"no {name} here" for name in LOADS if name not in loads]
        )
    return f"{rounds} backups, none torn; up to {most_waiting} changes waited; steps: {steps}"


def torn_without_gates(programs):
    """The same without the gates: some copies are torn."""
    with mounted(programs, "--ungated") as mount:
        mount.limit(120 + 20 * UNGATED_ROUNDS)
        loads = start_loads(mount)
        copy = f"{mount.folder}/copy"
        time.sleep(1)
        for number in range(UNGATED_ROUNDS):
            mount.control.do("freeze")
            subprocess.run(["cp", "-a", mount.source, copy], capture_output=True, check=False)
            mount.control.do("thaw")
            torn = torn_parts(loads, copy)
            if torn:
                end_loads(loads)
                return f"backup {number + 1} is torn: {'; '.join(torn)[:120]}"
            shutil.rmtree(copy)
        raise Fault(f"of {UNGATED_ROUNDS} copies without the gates none is torn")


TESTS = [backups_under_load, torn_without_gates]
