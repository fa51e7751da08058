"""What a document shows of the repository: its paths, and commands with what they print.
tests/test_pages.py and tests/test_manual.py have them."""

import difflib
import glob
import os
import re
import subprocess

ROOT = os.path.dirname(os.path.dirname(os.path.realpath(__file__)))
PROGRAM = f"{ROOT}/crates/mntgate/out/mntgate"
FOLDERS = (
    "crates",
    "bench",
    "bin",
    "bindings",
    "docs",
    "examples",
    "kernel",
    "man",
    "tests",
    "tools",
    ".ci",
)
PATH = re.compile(rf"^(?:{'|'.join(map(re.escape, FOLDERS))})/[\w./*-]*$")
# What a path may have that stands for many, or that is built.
OPEN_ENDS = ("NAME", "..", "<", "/out")
# How long one command may take, in seconds.
LONGEST = 60


def is_missing(word):
    """Whether a word is a path of the repository that isn't there."""
    return (
        bool(PATH.match(word))
        and not any(part in word for part in OPEN_ENDS)
        and not glob.glob(f"{ROOT}/{word}")
    )


def parts_of(lines):
    """Lines in parts between those that are `...`."""
    parts = [[]]
    for line in lines:
        if line.strip() == "...":
            parts.append([])
        else:
            parts[-1].append(line)
    return parts


def fits(wanted, came):
    """Whether lines are those wanted, where `...` stands for any."""
    parts, at = parts_of(wanted), 0
    if len(parts) == 1:
        return wanted == came
    if came[: len(parts[0])] != parts[0]:
        return False
    at = len(parts[0])
    for part in parts[1:-1]:
        at = next(
            (k + len(part) for k in range(at, len(came) + 1) if came[k : k + len(part)] == part),
            None,
        )
        if at is None:
            return False
    last = parts[-1]
    return len(came) - len(last) >= at and (not last or came[-len(last) :] == last)


def expect_program(program, name):
    """Ends the test of this name where the program isn't built."""
    if not os.access(program, os.X_OK):
        raise SystemExit(
            f"{name}: there is no program {os.path.relpath(program)}: bin/prove builds it"
        )


def make_folder(folder, program):
    """Makes a folder like the repository, with this program in its bin."""
    os.mkdir(f"{folder}/bin")
    os.symlink(os.path.abspath(program), f"{folder}/bin/mntgate")
    for name in os.listdir(ROOT):
        if name not in ("bin", ".git"):
            os.symlink(f"{ROOT}/{name}", f"{folder}/{name}")


def run(command, folder):
    """Runs a command, in which `mntgate` is the folder's program; what it printed, line by line,
    and its exit status."""
    environment = {
        **os.environ,
        "LC_ALL": "C",
        "COLUMNS": "100",
        "PATH": f"{folder}/bin:{os.environ['PATH']}",
    }
    words = ["bash", "-c", command]
    try:
        ended = subprocess.run(
            words,
            cwd=folder,
            env=environment,
            stdin=subprocess.DEVNULL,
            stdout=subprocess.PIPE,
            stderr=subprocess.STDOUT,
            timeout=LONGEST,
            check=False,
        )
    except subprocess.TimeoutExpired:
        return [f"(no end within {LONGEST} seconds)"], 1
    return [
        line.rstrip() for line in ended.stdout.decode("utf-8", "replace").splitlines()
    ], ended.returncode


def command_fault(place, command, wanted, folder):
    """How a command of a document ends otherwise than it shows: in what it prints, unless nothing
    is wanted of that (None), or in its status, which has to be 0. None where it ends as it
    should."""
    came, status = run(command, folder)
    if wanted is not None and not fits(wanted, came):
        changed = difflib.unified_diff(wanted, came, "the page", "the program", lineterm="", n=1)
        return "\n".join([f"{place}: $ {command}", *changed])
    if status:
        told = came[-3:] if wanted is None else []
        return "\n".join(
            [
                f"{place}: $ {command}",
                *told,
                f"ends with status {status}, which the page doesn't say",
            ]
        )
    return None
