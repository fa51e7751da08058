"""The write gates of a mounted file system, proved, by ctypes.

While a mount, or the whole superblock, reports itself read-only, nobody holds an access there. Once a freeze of a writable superblock is done, nobody
is inside a freeze level until the last holder's thaw. (A freeze of a read-only superblock closes no level.) A snapshot is the tree of one moment at
which everything was frozen. These laws are proved of the library, for every interleaving of its threads.

    with mntgate.open(tasks=2) as task:
        other = task.split()
        with other.write(mount=0):
            ...
        with task.frozen():
            tree = task.snapshot()
        task.join(other)

A task is used by one call at a time: each call takes the task's own lock, so that a second thread waits for the first one's call. A call lets go of
Python's lock, so threads meet at the gates. The library is found by MNTGATE_LIBRARY, the path of libmntgate.so, else in the folder mntgate.libs
beside this module, which a wheel has, else by the loader.

Every call may raise `Error`: with EDEADLK if the task may not make it now, with EINVAL if a number is out of range. A number that is no integer is a
TypeError.

A hook that raises an exception, or returns no code, has failed with the code EIO. Its operation ends as after any failure of that hook. Then the
exception is raised again, in the context of the refusal.

An exception may come out of a call that waits, as KeyboardInterrupt does on Ctrl-C:

- `access`, `level`, `write`, `read_only`, `change_mount`, `close_file` and `snapshot` try again and again. The exception leaves the task as it was.
- `freeze`, `try_freeze` and `frozen` give the freeze up. No hook is asked any more, the levels are open again, and then the exception goes on. Only for
  s_umount, if another task owns it, is waited first.
- `thaw`, `remount`, `callback` and `settle` can't be given up. The operation stays under way, and other calls are EDEADLK. `finish` does it to its end.
  So it is if a second exception comes while a freeze is given up: levels that it has closed stay closed till then.
- A with block finishes what an exception in it has left under way, and then gives back what it holds.

An exception that comes after a call has done its work, and before the block begins, leaves what the call took. `holds_mount` and `holds_level` tell.
"""

from __future__ import annotations

import builtins
import contextlib
import ctypes
import ctypes.util
import enum
import errno
import math
import operator
import os
import threading
import time
from typing import Callable, ContextManager, Iterator, NamedTuple, Optional, Sequence, Tuple

__version__ = "1.2.0"
__all__ = ["Config", "Error", "Holder", "HookFailed", "Hooks", "Node", "Task", "Tree", "open"]

# From here on a result is the code of a hook that failed.
HOOK = 65536
# How many steps one call of the library does at most.
STEPS = 1024
# How an operation stands.
IDLE, WAITING, DONE = 0, 2, 3
# The kinds of the operations that are begun and done to their end.
KINDS = {"remount_sb": 3, "callback": 8, "freeze": 9, "thaw": 10}
# The hooks, as the library numbers them, from 1; and those that a freeze asks.
HOOKS = ("sync", "freeze_fs", "unfreeze_fs", "reconfigure", "keep_waiting")
FREEZE_HOOKS = ("sync", "freeze_fs", "keep_waiting")
KEEP_WAITING = 5


class Error(OSError):
    """A call that was refused; `errno` says why. The state is then what it was, unless the call says otherwise."""


class HookFailed(Exception):
    """A hook of the file system failed with `code`. It is no OSError: a hook's 16 isn't EBUSY."""

    def __init__(self, code: int) -> None:
        super().__init__(f"hook failed with {code}")
        self.code = code


class Holder(enum.Enum):
    """Who holds a freeze."""

    USER = False
    KERNEL = True


class Config(NamedTuple):
    """How many of each there are: tasks and processors 1 to 64, mounts 1 to 8, nodes 2 to 64, and blocks for all files."""

    tasks: int = 64
    processors: int = 64
    mounts: int = 1
    nodes: int = 64
    capacity: int = 1 << 20


class Node(NamedTuple):
    """A node of a snapshot."""

    is_dir: bool
    parent: int
    size: int
    dirty: bool
    removed: bool
    kids: int


class Tree(NamedTuple):
    """The tree of one moment at which everything was frozen."""

    used: int
    nodes: Tuple[Optional[Node], ...]


class Hooks:
    """The hooks of a file system. Each returns 0, or a code from 1 to 65535 by which it failed. One that raises an exception or returns anything else
    has failed with EIO, and its call raises that exception, or a TypeError or ValueError. While a hook runs its task owns s_umount (but `keep_waiting`
    at level 1): it must not wait for another task, nor use its own. Override what is needed."""

    def sync(self) -> int:
        """Writes all that is dirty."""
        return 0

    def freeze_fs(self) -> int:
        """The file system's own part of a freeze."""
        return 0

    def unfreeze_fs(self) -> int:
        """The file system's own part of a thaw."""
        return 0

    def reconfigure(self, read_only: bool) -> int:
        """The file system's own part of a remount."""
        return 0

    def keep_waiting(self, level: int) -> int:
        """Whether a freeze that has found somebody inside this level, 1 to 3, waits on. It is asked each time that the freeze has looked. By a code it
        gives up: the levels are open again when its call returns. Who was found may also be a task that was about to find the level closed."""
        return 0


class _Handle(ctypes.Structure):
    _fields_ = [("at", ctypes.c_void_p)]


class _Config(ctypes.Structure):
    _fields_ = [(name, ctypes.c_uint8) for name in ("tasks", "processors", "mounts", "nodes")] + [("capacity", ctypes.c_uint32)]


class _Word(ctypes.Structure):
    _fields_ = [(name, ctypes.c_uint8) for name in ("kind", "first", "second")]


class _Node(ctypes.Structure):
    _fields_ = [(name, ctypes.c_bool) for name in ("there", "is_dir", "dirty", "removed")] + [
        ("parent", ctypes.c_uint8), ("size", ctypes.c_uint32), ("kids", ctypes.c_uint64)]


class _Op(ctypes.Structure):
    _fields_ = [("kind", ctypes.c_uint8), ("number", ctypes.c_uint8), ("other", ctypes.c_uint8), ("choice", ctypes.c_bool),
                ("wait", ctypes.c_bool), ("blocks", ctypes.c_uint32)]


class _Outcome(ctypes.Structure):
    _fields_ = [(name, ctypes.c_uint32) for name in ("progress", "answer", "reply", "value")]


_BYTE, _BOOL, _U32 = ctypes.c_uint8, ctypes.c_bool, ctypes.c_uint32
_CALLS: dict = {
    "open": (_U32, [ctypes.POINTER(_Config)]), "split": (_U32, [ctypes.POINTER(_Handle)]), "join": (_U32, [ctypes.POINTER(_Handle)]),
    "meet": (None, [ctypes.POINTER(_Handle)]),
    "close_words": (_U32, [ctypes.POINTER(_Word), ctypes.c_size_t, ctypes.POINTER(ctypes.c_uint64), ctypes.c_size_t]),
    "try_want": (_U32, [_BYTE, _BYTE]), "drop_mount": (_U32, [_BYTE, _BYTE]), "try_start": (_U32, [_BYTE, _BYTE]), "end": (_U32, [_BYTE, _BYTE]),
    "drop_write": (_U32, [_BYTE, _BYTE]), "try_change_mount": (_U32, [_BYTE, _BOOL]), "create": (_U32, [_BYTE, _BOOL, ctypes.POINTER(_BYTE)]),
    "remove": (_U32, [_BYTE]), "grow": (_U32, [_BYTE, _U32]), "move_to": (_U32, [_BYTE, _BYTE]), "fault": (_U32, [_BYTE]), "flush": (_U32, [_BYTE]),
    "open_file": (_U32, [_BYTE]), "try_close_file": (_U32, [_BYTE, _BYTE]), "try_snapshot": (_U32, []),
    "tree_node": (_U32, [_BYTE, ctypes.POINTER(_Node)]), "tree_used": (_U32, [ctypes.POINTER(ctypes.c_uint64)]),
    "number": (_BYTE, []), "is_idle": (_BOOL, []), "rests": (_BOOL, []), "holds_mount": (ctypes.c_uint16, [_BYTE]), "holds_level": (_BOOL, [_BYTE]),
    "has_open": (_BOOL, [_BYTE]), "waited": (ctypes.c_uint64, []), "begin": (_U32, [ctypes.POINTER(_Op)]),
    "run": (None, [ctypes.c_uint16, _U32, ctypes.POINTER(_Outcome)]), "wants_hook": (_U32, []), "level_waited": (_BYTE, []),
    "callback_at_once": (_U32, [_BYTE, ctypes.POINTER(_Outcome)]),
    "remount_sb_at_once": (_U32, [_BOOL, ctypes.POINTER(_Outcome)]), "freeze_at_once": (_U32, [_BOOL, ctypes.POINTER(_Outcome)]),
    "thaw_at_once": (_U32, [_BOOL, ctypes.POINTER(_Outcome)]),
}


def _load() -> Callable:
    """Returns the library's calls, by their names without the prefix. ImportError says where it was looked for."""
    named = os.environ.get("MNTGATE_LIBRARY")
    packed = os.path.join(os.path.dirname(os.path.abspath(__file__)), "mntgate.libs", f"libmntgate.so.{__version__.split('.', maxsplit=1)[0]}")
    is_packed = not named and os.path.exists(packed)
    path = named or (packed if is_packed else ctypes.util.find_library("mntgate") or "libmntgate.so")
    calls = {}
    try:
        library = ctypes.CDLL(path)
        for name, (result, words) in _CALLS.items():
            call = getattr(library, f"mntgate_{name}")
            call.restype, call.argtypes = result, [ctypes.POINTER(_Handle), *words]
            calls[name] = call
    except (OSError, AttributeError) as reason:
        place = "the path in MNTGATE_LIBRARY" if named else "MNTGATE_LIBRARY is not set, so the loader looked for it"
        advice = "bin/install-c PREFIX makes the library: set MNTGATE_LIBRARY=PREFIX/lib/libmntgate.so"
        if is_packed:
            place, advice = "the one that came with this module", "It runs on x86-64 processors with SSE4.2 and POPCNT (x86-64-v2)"
        raise ImportError(f"can't load the library {path} ({place}): {reason}. {advice}", name=__name__, path=path) from reason
    return calls.__getitem__


_call = _load()


def _raise(result: int) -> None:
    """Raises why a call was refused, if it was."""
    if result >= HOOK:
        raise HookFailed(result - HOOK)
    if result:
        raise Error(result, os.strerror(result))


def _number(number: int, most: int) -> int:
    """A number for the library. One out of range is refused here, since ctypes would cut it off, and so is what is no integer."""
    number = operator.index(number)
    if not 0 <= number <= most:
        _raise(errno.EINVAL)
    return number


def _u8(number: int) -> int:
    return _number(number, (1 << 8) - 1)


def _u32(number: int) -> int:
    return _number(number, (1 << 32) - 1)


class _Operation:
    """An operation that is begun and done to its end: what it needs to go on, until its answer is told. A limit is a moment of time.monotonic from
    which on a freeze that waits is given up, and what its call raises then."""

    def __init__(self, name: str, hooks: Optional[Hooks], read_only: bool, limit: Optional[Tuple[float, OSError]]) -> None:
        self.name = name
        self.hooks = hooks
        self.read_only = read_only
        self.limit = limit
        self.outcome = _Outcome()
        self.asks = False
        self.raised: Optional[BaseException] = None
        self.is_stopped = False
        self.given_up: Optional[OSError] = None

    def ask(self, wanted: int, level: int) -> int:
        """Asks the hook that the next step wants; its code."""
        if wanted == 0:
            return 0
        name = HOOKS[wanted - 1]
        if self.is_stopped and name in FREEZE_HOOKS:
            self.given_up = InterruptedError(errno.EINTR, os.strerror(errno.EINTR))
            return errno.EINTR
        code = self.ask_own(name, level)
        if code == 0 and name == "keep_waiting" and self.limit is not None and time.monotonic() >= self.limit[0]:
            self.given_up = self.limit[1]
            return errno.ETIMEDOUT
        return code

    def ask_own(self, name: str, level: int) -> int:
        """Asks a hook of the file system; its code. What it raises is kept until the operation is done."""
        if self.hooks is None:
            return 0
        self.asks = True
        try:
            hook = getattr(self.hooks, name)
            code = hook(*{"reconfigure": (self.read_only,), "keep_waiting": (level,)}.get(name, ()))
            if isinstance(code, bool) or not isinstance(code, int):
                raise TypeError(f"the hook {name} returned {code!r}: expected 0, or a code from 1 to 65535")
            if not 0 <= code < HOOK:
                raise ValueError(f"the hook {name} returned {code}: expected 0, or a code from 1 to 65535")
            return code
        except BaseException as raised:
            self.raised = raised
            return errno.EIO
        finally:
            self.asks = False

    def tell(self) -> None:
        """Raises what a hook has raised, in the context of the refusal, or else why the operation was refused or given up."""
        try:
            _raise(self.outcome.answer)
        except HookFailed as refusal:
            if self.raised is not None:
                refusal.__context__ = self.raised.__context__
                raise self.raised
            if self.given_up is not None:
                raise self.given_up from None
            raise


class Task:
    """A task of some gates: what acts on them. `open` and `split` make one."""

    def __init__(self, config: Config, gates: object) -> None:
        self.config = config
        self._gates = gates
        self._handle = _Handle()
        self._lock = threading.RLock()
        self._left: Optional[_Operation] = None

    def _do(self, name: str, *words: object) -> int:
        with self._lock:
            if self._handle.at is None:
                raise ValueError("the task was joined or closed")
            return _call(name)(ctypes.byref(self._handle), *words)

    def _ask(self, name: str, *words: object) -> None:
        _raise(self._do(name, *words))

    def _retry(self, name: str, *words: object) -> None:
        """Tries a call until it need not wait. Between two tries nothing of it is left."""
        pause = 0.0
        with self._lock:
            while True:
                result = self._do(name, *words)
                if result != errno.EAGAIN:
                    return _raise(result)
                time.sleep(pause)
                pause = min(pause + 1e-5, 1e-3)

    def _perform(self, name: str, word: int, hooks: Optional[Hooks] = None, limit: Optional[Tuple[float, OSError]] = None) -> int:
        """Begins an operation and does it to its end; the value of its reply."""
        with self._lock:
            if not self.is_idle:
                raise Error(errno.EDEADLK, "an operation is under way, which finish() does to its end")
            # (before it is begun, so that no exception comes between)
            left = self._left = _Operation(name, hooks, bool(word), limit)
            if hooks is None:
                begun = self._do(f"{name}_at_once", word, ctypes.byref(left.outcome))
            else:
                begun = self._do("begin", ctypes.byref(_Op(KINDS[name], 0, 0, word, True, 0)))
            if begun:
                self._left = None
                _raise(begun)
            self._go_on(left)
            return left.outcome.value

    def _go_on(self, left: _Operation) -> bool:
        """Does an operation to its end, and tells its answer; whether it was begun at all."""
        pause = 0.0
        try:
            while left.outcome.progress != DONE:
                wanted = self._do("wants_hook")
                level = self._do("level_waited") if wanted == KEEP_WAITING else 0
                self._do("run", left.ask(wanted, level), STEPS, ctypes.byref(left.outcome))
                if left.outcome.progress == IDLE:
                    break
                if left.outcome.progress == WAITING:
                    time.sleep(pause)
                    pause = min(pause + 1e-5, 1e-3)
        finally:
            # (a signal may have come before `ask` could do so)
            left.asks = False
        self._left = None
        left.tell()
        return left.outcome.progress == DONE

    def finish(self) -> bool:
        """Does to its end what an exception has left under way, with the hooks of its call; whether there was such an operation. It raises what that
        call would have raised. A freeze it gives up, by an InterruptedError, unless no step is left that could. EDEADLK in a hook."""
        with self._lock:
            if self._left is None:
                return False
            if self._left.asks:
                _raise(errno.EDEADLK)
            self._left.is_stopped = True
            return self._go_on(self._left)

    def _ends_well(self) -> bool:
        """Finishes what an exception has left under way; whether that was not refused. A refusal gives way to the exception."""
        try:
            return self.finish()
        except (OSError, HookFailed):
            return False

    @contextlib.contextmanager
    def _holds(self, take: Callable[[], None], give_back: Callable[[], None]) -> Iterator["Task"]:
        """Takes something for a with block, and gives it back at the end. What an exception has left under way is finished first."""
        before = self._left
        try:
            take()
        except BaseException:
            # (a freeze that came to its end, though it was to be given up)
            left = self._left
            if left is not None and left is not before and self._ends_well() and left.name == "freeze":
                give_back()
            raise
        try:
            yield self
        finally:
            self._ends_well()
            give_back()

    def split(self) -> "Task":
        """Splits off a task for another thread. EDEADLK unless this one rests, EMFILE, ENOMEM."""
        made = Task(self.config, self._gates)
        self._ask("split", ctypes.byref(made._handle))
        return made

    def join(self, other: "Task") -> None:
        """Takes a task back. EDEADLK unless both rest, EINVAL for a task of other gates."""
        if other._gates is not self._gates or other is self:
            raise Error(errno.EINVAL, "a task of other gates")
        with other._lock:
            if other._handle.at is None:
                raise ValueError("the task was joined or closed")
            self._ask("join", ctypes.byref(other._handle))

    def meet(self, other: "Task") -> None:
        """Brings two tasks together: what either has done lies behind all that both do from here on. They keep what they hold, and neither has to
        rest. No other call needs a meeting: it lets you conclude from what one task holds what a call of the other answers. EINVAL for a task of other gates, or the task itself."""
        if other._gates is not self._gates or other is self:
            raise Error(errno.EINVAL, "a task of other gates")
        # (in one order, so that two threads may call it for the same two tasks)
        first, second = sorted((self, other), key=id)
        with first._lock, second._lock:
            if other._handle.at is None:
                raise ValueError("the task was joined or closed")
            self._do("meet", ctypes.byref(other._handle))

    def close(self, words: Sequence[Tuple[int, int, int]] = ()) -> Tuple[int, ...]:
        """Closes the gates, whose last task this is; what these words hold at the end (kind, of what, processor). EDEADLK unless all others were
        joined and it rests."""
        count = len(words)
        asked = (_Word * max(count, 1))(*(_Word(*map(_u8, word)) for word in words))
        values = (ctypes.c_uint64 * max(count, 1))()
        self._ask("close_words", asked, count, values, count)
        return tuple(values[:count])

    def __enter__(self) -> "Task":
        return self

    def __exit__(self, kind: object, value: object, traceback: object) -> None:
        if kind is None and self._handle.at is not None:
            self.close()

    @property
    def number(self) -> int:
        """Its own number."""
        return self._do("number")

    @property
    def is_idle(self) -> bool:
        """Whether no operation is under way."""
        return self._do("is_idle")

    @property
    def rests(self) -> bool:
        """Whether it is idle and holds nothing."""
        return self._do("rests")

    @property
    def waited(self) -> int:
        """How often its last operation came to a wait. Calls that try again and again come to none."""
        return self._do("waited")

    def holds_mount(self, mount: int) -> int:
        """How many accesses it holds at a mount."""
        return self._do("holds_mount", _u8(mount))

    def holds_level(self, level: int) -> bool:
        """Whether it is inside a freeze level."""
        return self._do("holds_level", _u8(level))

    def has_open(self, file: int) -> bool:
        """Whether it has a file open."""
        return self._do("has_open", _u8(file))

    def try_want(self, mount: int, processor: int = 0) -> None:
        """Takes an access at a mount. EAGAIN, EROFS, EMFILE."""
        self._ask("try_want", _u8(mount), _u8(processor))

    def drop_mount(self, mount: int, processor: int = 0) -> None:
        """Gives an access at a mount back."""
        self._ask("drop_mount", _u8(mount), _u8(processor))

    def try_start(self, level: int, processor: int = 0) -> None:
        """Goes inside a freeze level. EAGAIN."""
        self._ask("try_start", _u8(level), _u8(processor))

    def try_want_write(self, mount: int, processor: int = 0) -> None:
        """Goes inside level 1 and takes an access at a mount, or does neither. EAGAIN, EROFS, EMFILE. `drop_write` gives both back."""
        mount, processor = _u8(mount), _u8(processor)
        with self._lock:
            self._ask("try_start", 1, processor)
            try:
                self._ask("try_want", mount, processor)
            except BaseException:
                self.end(1, processor)
                raise

    def end(self, level: int, processor: int = 0) -> None:
        """Leaves a freeze level."""
        self._ask("end", _u8(level), _u8(processor))

    def drop_write(self, mount: int, processor: int = 0) -> None:
        """Gives an access at a mount back and leaves level 1."""
        self._ask("drop_write", _u8(mount), _u8(processor))

    def try_change_mount(self, mount: int, read_only: bool) -> None:
        """Makes a mount read-only, or writable. EAGAIN, EBUSY. Under a read-only superblock a change to read-only sets nothing: the mount is writable
        as soon as the superblock is."""
        self._ask("try_change_mount", _u8(mount), read_only)

    def change_mount(self, mount: int, read_only: bool) -> None:
        """Makes a mount read-only, or writable; waits for s_umount. EBUSY. See `try_change_mount` for a read-only superblock."""
        self._retry("try_change_mount", _u8(mount), read_only)

    def remount(self, read_only: bool, hooks: Optional[Hooks] = None) -> None:
        """Remounts the superblock read-only or writable. EBUSY, HookFailed."""
        self._perform("remount_sb", read_only, hooks)

    def freeze(self, holder: Holder = Holder.USER, hooks: Optional[Hooks] = None, timeout: Optional[float] = None) -> None:
        """Freezes the file system for a holder; waits for who is inside a level. EBUSY, HookFailed: then the levels are open again. So they are after
        a TimeoutError: it has given up after so many seconds. It may be late by a pause of a millisecond, and by what it doesn't give up: a hook, and
        a wait for s_umount, whose owner may ask a hook."""
        late = TimeoutError(errno.ETIMEDOUT, os.strerror(errno.ETIMEDOUT))
        self._freeze(holder, hooks, None if timeout is None else (time.monotonic() + timeout, late))

    def try_freeze(self, holder: Holder = Holder.USER, hooks: Optional[Hooks] = None) -> None:
        """Freezes the file system for a holder, or gives up as soon as it has found somebody inside a level. EAGAIN: then the levels are open again.
        And as `freeze`. Pause before you try again: a try closes level 1 for a moment, and leaves readers slow until `settle`."""
        self._freeze(holder, hooks, (-math.inf, Error(errno.EAGAIN, os.strerror(errno.EAGAIN))))

    def _freeze(self, holder: Holder, hooks: Optional[Hooks], limit: Optional[Tuple[float, OSError]]) -> None:
        """Freezes. An exception from elsewhere gives it up, or thaws what is frozen then."""
        with self._lock:
            before = self._left
            try:
                self._perform("freeze", holder.value, hooks, limit)
            except BaseException:
                if self._left is not None and self._left is not before and self._ends_well():
                    self.thaw(holder, hooks)
                raise

    def thaw(self, holder: Holder = Holder.USER, hooks: Optional[Hooks] = None) -> None:
        """Gives a holder's freeze back. EINVAL, HookFailed: then all stays frozen."""
        self._perform("thaw", holder.value, hooks)

    def callback(self, level: int) -> bool:
        """Runs the callback that a level has queued; whether there was one."""
        return self._perform("callback", _u8(level)) == 1

    def settle(self) -> None:
        """Runs the callbacks of all levels, until none is queued."""
        for level in (1, 2, 3):
            while self.callback(level):
                pass

    def access(self, mount: int, processor: int = 0) -> ContextManager["Task"]:
        """An access at a mount, for which no freeze waits; waits while a change holds writers off. EROFS, EMFILE."""
        return self._holds(lambda: self._retry("try_want", _u8(mount), _u8(processor)), lambda: self.drop_mount(mount, processor))

    def level(self, level: int, processor: int = 0) -> ContextManager["Task"]:
        """A freeze level; waits while a freeze closes it."""
        return self._holds(lambda: self._retry("try_start", _u8(level), _u8(processor)), lambda: self.end(level, processor))

    def write(self, mount: int, processor: int = 0) -> ContextManager["Task"]:
        """Write access, which is what a writer needs: level 1 and an access at a mount; waits for both. EROFS, EMFILE."""
        return self._holds(lambda: self._take_write(_u8(mount), _u8(processor)), lambda: self.drop_write(mount, processor))

    def _take_write(self, mount: int, processor: int) -> None:
        # (no wait for a level if there is no such mount)
        if mount >= self.config.mounts:
            _raise(errno.EINVAL)
        self._retry("try_start", 1, processor)
        try:
            self._retry("try_want", mount, processor)
        except BaseException:
            self.end(1, processor)
            raise

    def read_only(self, mount: int) -> ContextManager["Task"]:
        """A mount that is read-only, and made writable at the end, also if it was read-only before. EBUSY where it has writers."""
        return self._holds(lambda: self.change_mount(mount, True), lambda: self.change_mount(mount, False))

    def frozen(self, holder: Holder = Holder.USER, hooks: Optional[Hooks] = None, timeout: Optional[float] = None) -> ContextManager["Task"]:
        """A frozen file system, thawed at the end. EBUSY, TimeoutError. HookFailed of the freeze: the levels are open again; of the thaw: all stays
        frozen. Give each hook codes of its own to tell these apart, or call `freeze` and `thaw`."""
        return self._holds(lambda: self.freeze(holder, hooks, timeout), lambda: self.thaw(holder, hooks))

    def create(self, directory: int, is_dir: bool = False) -> int:
        """Makes an empty file or directory; its node. ENOENT, ENOTDIR, ENOSPC, EAGAIN."""
        node = _BYTE()
        self._ask("create", _u8(directory), is_dir, ctypes.byref(node))
        return node.value

    def remove(self, file: int) -> None:
        """Removes a file. ENOENT, EISDIR, EAGAIN."""
        self._ask("remove", _u8(file))

    def grow(self, file: int, blocks: int) -> None:
        """Makes a file larger. ENOENT, EISDIR, ENOSPC, EAGAIN."""
        self._ask("grow", _u8(file), _u32(blocks))

    def move_to(self, file: int, directory: int) -> None:
        """Gives a file another directory. ENOENT, EISDIR, ENOTDIR, EAGAIN."""
        self._ask("move_to", _u8(file), _u8(directory))

    def fault(self, file: int) -> None:
        """Makes a file dirty, inside level 2. ENOENT, EISDIR, EAGAIN."""
        self._ask("fault", _u8(file))

    def flush(self, file: int) -> None:
        """Makes a file clean, inside level 3. ENOENT, EISDIR, EAGAIN."""
        self._ask("flush", _u8(file))

    def open_file(self, file: int) -> None:
        """Opens a file. ENOENT, EISDIR, EMFILE, EAGAIN."""
        self._ask("open_file", _u8(file))

    def close_file(self, file: int, processor: int = 0) -> None:
        """Closes a file that it has open; waits while a freeze closes level 3."""
        self._retry("try_close_file", _u8(file), _u8(processor))

    def snapshot(self) -> Tree:
        """Takes a snapshot of the frozen tree. EINVAL where nothing is frozen."""
        with self._lock:
            self._retry("try_snapshot")
            tree = self.tree()
        assert tree is not None
        return tree

    def tree(self) -> Optional[Tree]:
        """The last snapshot that it has taken."""
        used, node, nodes = ctypes.c_uint64(), _Node(), []
        with self._lock:
            if self._do("tree_used", ctypes.byref(used)):
                return None
            for number in range(self.config.nodes):
                self._ask("tree_node", number, ctypes.byref(node))
                nodes.append(Node(node.is_dir, node.parent, node.size, node.dirty, node.removed, node.kids) if node.there else None)
        return Tree(used.value, tuple(nodes))


def open(tasks: int = 64, processors: int = 64, mounts: int = 1, nodes: int = 64, capacity: int = 1 << 20) -> Task:
    """Opens gates; the task with number 0, which has all other numbers to give. EINVAL, ENOMEM."""
    config = Config(tasks, processors, mounts, nodes, capacity)
    task = Task(config, builtins.object())
    named = _Config(*map(_u8, config[:4]), _u32(capacity))
    _raise(_call("open")(ctypes.byref(task._handle), ctypes.byref(named)))
    return task
