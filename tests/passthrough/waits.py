"""Changes that wait, and how a wait ends: by a thaw, a signal, the end of the daemon; and the
commands."""

import errno
import itertools
import os
import signal
import subprocess
import tempfile
import time

from passthrough.mounts import Child, Control, Fault, mounted, put, until, want

WRITERS = 40
BYTES = b"x" * 5000


def start_writers(mount):
    """Freezes it, and starts writers that all wait, each in a file of its own."""
    for number in range(WRITERS):
        os.close(os.open(f"{mount.point}/{number}", os.O_CREAT | os.O_WRONLY))
    mount.control.do("freeze")
    writers = [
        Child(lambda number=number: put(f"{mount.point}/{number}", BYTES))
        for number in range(WRITERS)
    ]
    until(lambda: mount.control.count("waiting") == WRITERS, "not all writers wait")
    return writers


def ends_of(writers):
    """How all of them end, or a fault."""
    return sorted({str(writer.ended()) for writer in writers})


def bytes_below(mount):
    """How many bytes the writers have written below."""
    return sum(os.path.getsize(f"{mount.source}/{number}") for number in range(WRITERS))


def thaw_comes_through(programs):
    """40 writers wait, and one worker is enough for reads and a thaw. All writers are done after
    it."""
    with mounted(programs, "--workers", "1") as mount:
        os.mkdir(f"{mount.point}/other")
        with open(f"{mount.point}/other/file", "w", encoding="utf-8") as file:
            file.write("read me")
        writers = start_writers(mount)
        with open(f"{mount.point}/other/file", encoding="utf-8") as file:
            want(
                file.read() == "read me" and os.listdir(f"{mount.point}/other") == ["file"],
                "a read while it is frozen",
            )
        want(bytes_below(mount) == 0, "bytes below while it is frozen")
        began = time.monotonic()
        ran = mount.gatectl("thaw")
        took = time.monotonic() - began
        want(ran.returncode == 0, ran.stderr)
        want(
            ends_of(writers) == ["0"] and bytes_below(mount) == WRITERS * len(BYTES),
            "the writers after the thaw",
        )
        return f"{WRITERS} writers waited, the thaw took {took * 1000:.0f} ms"


def cut_off(path):
    """Opens a file, which truncates it."""
    os.close(os.open(path, os.O_WRONLY | os.O_TRUNC))


def reserve(path):
    """Gives an open file more room."""
    file = os.open(path, os.O_WRONLY)
    os.posix_fallocate(file, 0, 10000)


# Each change, in a folder with a file of its own, in which the kernel locks what it needs.
CHANGES = {
    "write": lambda at: put(f"{at}/file", BYTES),
    "open that truncates": lambda at: cut_off(f"{at}/file"),
    "truncate": lambda at: os.truncate(f"{at}/file", 1),
    "fallocate": lambda at: reserve(f"{at}/file"),
    "create": lambda at: os.open(f"{at}/new", os.O_CREAT | os.O_RDONLY),
    "mkdir": lambda at: os.mkdir(f"{at}/new"),
    "mknod": lambda at: os.mknod(f"{at}/new"),
    "symlink": lambda at: os.symlink("file", f"{at}/new"),
    "link": lambda at: os.link(f"{at}/file", f"{at}/new"),
    "rename": lambda at: os.rename(f"{at}/file", f"{at}/new"),
    "unlink": lambda at: os.unlink(f"{at}/file"),
    "rmdir": lambda at: os.rmdir(f"{at}/folder"),
    "chmod": lambda at: os.chmod(f"{at}/file", 0o600),
    "chown": lambda at: os.chown(f"{at}/file", os.getuid(), os.getgid()),
    "utimes": lambda at: os.utime(f"{at}/file", (1, 1)),
    "setxattr": lambda at: os.setxattr(f"{at}/file", "user.new", b"value"),
    "removexattr": lambda at: os.removexattr(f"{at}/file", "user.old"),
}


def changes_here(folder):
    """Those that the file system of this folder knows."""
    try:
        os.setxattr(folder, "user.tried", b"")
        return CHANGES
    except OSError:
        return {name: change for name, change in CHANGES.items() if not name.endswith("xattr")}


def state_below(mount):
    """All that a change may change, with the times of the last change."""
    found = {}
    for folder, folders, names in os.walk(mount.source):
        for path in (os.path.join(folder, name) for name in folders + names):
            found[path] = os.lstat(path).st_ctime_ns, os.listxattr(path, follow_symlinks=False)
    return found


def start_changes(mount, changes):
    """A process for each change."""
    return {
        name: Child(lambda change=change, name=name: change(f"{mount.point}/{name}"))
        for name, change in changes.items()
    }


def ends_of_changes(mount, changes):
    """How each change ends."""
    return {name: child.ended() for name, child in start_changes(mount, changes).items()}


def below(state, mount, name):
    """The part of such a state in a folder."""
    return {
        path: seen for path, seen in state.items() if path.startswith(f"{mount.source}/{name}/")
    }


def each_change_waits(programs):
    """Each kind of change is refused while it is read-only, waits while it is frozen, and is made
    after that."""
    with mounted(programs) as mount:
        changes = changes_here(mount.source)
        for name in changes:
            at = f"{mount.source}/{name}"
            os.makedirs(f"{at}/folder")
            with open(f"{at}/file", "w", encoding="utf-8") as file:
                file.write("text")
            if name == "removexattr":
                os.setxattr(f"{at}/file", "user.old", b"value")
        before = state_below(mount)
        mount.control.do("ro")
        for name, ended in ends_of_changes(mount, changes).items():
            want(ended == "EROFS", f"{name} while it is read-only: {ended}")
        mount.control.do("rw")
        mount.control.do("freeze")
        children = start_changes(mount, changes)
        while sum(child.ended(0) is None for child in children.values()) > mount.control.count(
            "waiting"
        ):
            time.sleep(0.01)
        passed = [name for name, child in children.items() if child.ended(0) is not None]
        want(
            not passed and state_below(mount) == before,
            f"while it is frozen these don't wait: {passed}",
        )
        mount.control.do("thaw")
        for name, child in children.items():
            want(child.ended() == 0, f"{name} has failed after the thaw")
        after = state_below(mount)
        same = [name for name in changes if below(before, mount, name) == below(after, mount, name)]
        want(not same, f"these changes weren't made: {same}")
    return f"{len(changes)} kinds"


def each_thaw_lets_pass(programs):
    """A change that waits for one freeze is made before the next one, which comes at once after the
    thaw."""
    times = 30
    with mounted(programs) as mount:

        def make_directories():
            for number in itertools.count():
                os.mkdir(f"{mount.point}/{number}")

        mount.control.do("freeze")
        writer = Child(make_directories)
        for number in range(times):
            until(lambda: mount.control.count("waiting") == 1, "the writer doesn't wait")
            made = len(os.listdir(mount.source))
            mount.control.do("thaw")
            mount.control.do("freeze")
            want(
                len(os.listdir(mount.source)) > made,
                f"the change that waited for freeze {number + 1} isn't made before the next one",
            )
        os.kill(writer.pid, signal.SIGKILL)
        want(writer.ended() == "SIGKILL", "the writer goes on")
        mount.control.do("thaw")
    return f"{times} freezes"


def freeze_gives_up(programs):
    """A change hangs below, so that a freeze gives up after five seconds. Then others go on, and a
    later freeze is done."""
    with mounted(programs) as lower:
        os.mkdir(f"{lower.point}/source")
        with mounted(programs, source=f"{lower.point}/source") as mount:
            os.close(os.open(f"{mount.point}/file", os.O_CREAT | os.O_WRONLY))
            lower.control.do("freeze")
            writer = Child(lambda: put(f"{mount.point}/file", BYTES))
            until(lambda: lower.control.count("waiting") == 1, "the change doesn't hang")
            began = time.monotonic()
            refused = mount.gatectl("freeze")
            took = time.monotonic() - began
            want(
                refused.returncode == 1
                and os.strerror(errno.ETIMEDOUT) in refused.stderr
                and 4 < took < 10,
                f"a freeze beside a change that hangs: {refused.stderr}",
            )
            want(
                "thawed" in mount.control.ask("status"), "it is frozen after a freeze that gave up"
            )
            later = Child(lambda: os.mkdir(f"{mount.point}/later"))
            until(
                lambda: lower.control.count("waiting") == 2,
                "a change after the freeze doesn't come below",
            )
            lower.control.do("thaw")
            want(writer.ended() == 0 and later.ended() == 0, "the changes after the thaw below")
            until(
                lambda: mount.control.ask("freeze").startswith("ok"),
                "a freeze with no change under way",
            )
            mount.control.do("thaw")
    return f"after {took:.1f} s"


def signals_end_waits(programs):
    """A fatal signal ends a wait. Another one doesn't, and a fatal one after it does."""
    with mounted(programs) as mount:
        writers = start_writers(mount)
        os.close(os.open(f"{mount.source}/patient", os.O_CREAT | os.O_WRONLY))

        def wait_patiently():
            signal.signal(signal.SIGUSR1, lambda *_: None)
            put(f"{mount.point}/patient", BYTES)

        patient = Child(wait_patiently)
        until(lambda: mount.control.count("waiting") == WRITERS + 1, "the patient one doesn't wait")
        os.kill(patient.pid, signal.SIGUSR1)
        want(
            patient.ended(0.5) is None and mount.control.count("given up") == 0,
            "a signal that isn't fatal ends a wait",
        )
        os.kill(patient.pid, signal.SIGTERM)
        want(patient.ended() == "SIGTERM", "a fatal signal after another one")
        for number, writer in enumerate(writers):
            os.kill(writer.pid, signal.SIGKILL if number % 2 else signal.SIGINT)
        want(ends_of(writers) == ["SIGINT", "SIGKILL"], "the writers after their signals")
        until(lambda: mount.control.count("waiting") == 0, "something waits for nobody")
        mount.control.do("thaw")
        want(bytes_below(mount) == 0, "bytes below of writers that were killed")
        return f"{mount.control.count('given up')} waits were given up"


def daemon_ends_while_frozen(programs):
    """SIGTERM and SIGINT while it is frozen: what waits is answered EIO and isn't done."""
    for number in (signal.SIGTERM, signal.SIGINT):
        with mounted(programs) as mount:
            writers = start_writers(mount)
            began = time.monotonic()
            mount.daemon.send_signal(number)
            want(ends_of(writers) == ["EIO"], "the writers after the daemon's end")
            said = mount.has_ended()
            took = time.monotonic() - began
            want("while frozen" in said and bytes_below(mount) == 0, f"after {number.name}: {said}")
    return f"{WRITERS} writers waited, all over in {took * 1000:.0f} ms"


def unmounted_while_frozen(programs):
    """An unmount while it is frozen ends it, at once or once the last writer has gone."""
    with mounted(programs) as mount:
        mount.control.do("freeze")
        want(
            mount.unmount().returncode == 0 and "while frozen" in mount.has_ended(),
            "the unmount while it is frozen",
        )
    with mounted(programs) as mount:
        writers = start_writers(mount)
        want(mount.unmount().returncode != 0, "an unmount while writers wait")
        if os.geteuid() == 0:
            mount.unmount("-l")
        mount.control.do("thaw")
        want(ends_of(writers) == ["0"], "the writers after the thaw")
        if os.geteuid() != 0:
            mount.unmount()
        mount.has_ended()
    return "at once, and after the last writer"


def read_only(programs):
    """Read-only: refused while a file is open for writing, or while it is frozen; then changes are
    refused."""
    with mounted(programs) as mount:
        file = os.open(f"{mount.point}/file", os.O_CREAT | os.O_WRONLY)
        busy = mount.gatectl("ro")
        want(
            busy.returncode == 1 and os.strerror(errno.EBUSY) in busy.stderr,
            "ro with a file open for writing",
        )
        os.close(file)
        mount.control.do("freeze")
        want(
            "refused" in mount.control.ask("ro") and "refused" in mount.control.ask("freeze"),
            "ro, or a second freeze, while it is frozen",
        )
        mount.control.do("thaw")
        want(
            "refused" in mount.control.ask("thaw") and "refused" in mount.control.ask("nonsense"),
            "a thaw of what isn't frozen",
        )
        until(lambda: mount.control.ask("ro").startswith("ok"), "the file is open for ever")
        for change in (
            lambda: os.mkdir(f"{mount.point}/new"),
            lambda: put(f"{mount.point}/file", b"x"),
            lambda: os.chmod(f"{mount.point}/file", 0),
        ):
            want(Child(change).ended() == "EROFS", "a change while it is read-only")
        want(os.listdir(mount.point) == ["file"], "a read while it is read-only")
        mount.control.do("rw")
        os.mkdir(f"{mount.point}/new")
    return "refused with EBUSY and EROFS"


def status_of(process):
    """How a process ends."""
    try:
        return process.wait(20)
    except subprocess.TimeoutExpired:
        process.kill()
        raise Fault("gatectl goes on") from None


def during(programs):
    """gatectl during: the command's status, and a thaw however it or gatectl ends."""
    with mounted(programs) as mount:
        point, gatectl = mount.point, [f"{programs}/gatectl", mount.socket]
        want(
            mount.gatectl(
                "during",
                "sh",
                "-c",
                f"'{gatectl[0]}' '{gatectl[1]}' status | grep -q frozen && exit 7",
            ).returncode
            == 7,
            "the status of a command",
        )
        want(
            mount.gatectl("during", "sh", "-c", "kill -TERM $$").returncode == 128 + signal.SIGTERM,
            "a command that a signal ends",
        )
        want(
            mount.gatectl("during", "/nonexistent").returncode == 127, "a command that isn't there"
        )
        os.mkdir(f"{point}/thawed")
        want(
            mount.gatectl("during", *gatectl, "thaw").returncode == 125,
            "a command during which somebody thaws",
        )
        want(
            mount.gatectl("during", *gatectl, "during", "true").returncode == 125,
            "a second freeze during a command",
        )
        os.mkdir(f"{point}/thawed again")
        process = subprocess.Popen([*gatectl, "during", "sleep", "1000"])
        until(lambda: "frozen" in mount.control.ask("status"), "it isn't frozen")
        writer = Child(lambda: os.mkdir(f"{point}/new"))
        until(lambda: mount.control.count("waiting") == 1, "the writer doesn't wait")
        process.kill()
        status_of(process)
        want(writer.ended() == 0, "the writer after gatectl was killed")
        want("thawed" in mount.control.ask("status"), "it is frozen after gatectl was killed")
    return "thaws however the command ends, and if gatectl is killed"


def refused_beginnings(programs):
    """What can't be mounted: it says why, and leaves no socket."""
    with tempfile.TemporaryDirectory() as folder:
        none, path = f"{folder}/none", f"{folder}/socket"
        for words in (
            [none, folder, path],
            [folder, none, path],
            [folder, folder, f"{none}/socket"],
            [folder],
            ["--workers", "0", folder, folder, path],
        ):
            ran = subprocess.run(
                [f"{programs}/passthrough", *words],
                capture_output=True,
                text=True,
                timeout=20,
                check=False,
            )
            want(
                ran.returncode in (1, 2) and ran.stderr,
                f"{words}: status {ran.returncode}, and it says {ran.stderr}",
            )
            want(
                not os.path.exists(path) and not os.path.ismount(folder),
                f"{words}: something is left",
            )
        for words in ([path, "status"], [path], [path, "melt"]):
            ran = subprocess.run(
                [f"{programs}/gatectl", *words],
                capture_output=True,
                text=True,
                timeout=20,
                check=False,
            )
            want(ran.returncode == 2 and ran.stderr, f"gatectl {words}: status {ran.returncode}")
    return "with a reason, and nothing is left"


def silent_clients(programs):
    """Clients that say nothing, or too much, keep nobody out."""
    with mounted(programs) as mount:
        silent = [Control(mount.socket) for _ in range(40)]
        silent[-1].socket.sendall(b"x" * 100)
        mount.control = Control(mount.socket)
        mount.control.do("freeze")
        mount.control.do("thaw")
        for client in silent:
            client.close()
    return "40 of them"


TESTS = [
    each_change_waits,
    thaw_comes_through,
    each_thaw_lets_pass,
    freeze_gives_up,
    signals_end_waits,
    daemon_ends_while_frozen,
    unmounted_while_frozen,
    read_only,
    during,
    silent_clients,
    refused_beginnings,
]
