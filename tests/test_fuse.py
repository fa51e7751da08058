#!/usr/bin/env -S python3 -B
"""Tests examples/fuse over a real mount.

    tests/test_fuse.py [--rounds N] [--list | TEST..]

It builds the example over the C library in out/c, which bindings/test.sh installs, and mounts it in
folders of its own. Each test has a limit of time, at which its daemon is killed. --rounds says how
many backups are made under load (6); SEED in the environment picks other random operations. `speed`
runs only if it is named: what small writes cost with the gates and without them. If nothing can be
mounted here, or something is missing that the example is built with, one line says so and the exit
status is 0. Prints what each test has seen; the exit status is 1 after a fault."""

import argparse
import ctypes
import os
import shutil
import subprocess
import sys
import tempfile
import time

from passthrough import alike, backups, mappings, speed, waits
from passthrough.mounts import Fault

ROOT = os.path.dirname(os.path.dirname(os.path.realpath(__file__)))
LIBRARY = f"{ROOT}/out/c"
MS_NOSUID, MS_NODEV, MNT_DETACH = 2, 4, 2


def say(text):
    """Prints a line."""
    print(f"fuse: {text}", flush=True)


def why_not_mounted():
    """Why nothing can be mounted here, or None: the device is opened and, by root, a mount of it is
    made."""
    try:
        device = os.open("/dev/fuse", os.O_RDWR)
    except OSError as error:
        return f"/dev/fuse: {error.strerror}"
    try:
        if os.geteuid() != 0:
            return (
                None
                if shutil.which("fusermount3")
                else "fusermount3 isn't here, and only root mounts without it"
            )
        libc = ctypes.CDLL(None, use_errno=True)
        with tempfile.TemporaryDirectory() as point:
            options = f"fd={device},rootmode=40000,user_id=0,group_id=0"
            if libc.mount(b"fuse", point.encode(), b"fuse", MS_NOSUID | MS_NODEV, options.encode()):
                return f"mount: {os.strerror(ctypes.get_errno())}"
            libc.umount2(point.encode(), MNT_DETACH)
    finally:
        os.close(device)
    return None


def what_is_missing():
    """What the example is built with that isn't here, or None."""
    for program in ("gcc", "make", "pkg-config"):
        if not shutil.which(program):
            return f"{program} isn't here"
    if subprocess.run(
        ["pkg-config", "--atleast-version=3.12", "fuse3"], capture_output=True, check=False
    ).returncode:
        return "libfuse3-dev isn't here, of libfuse 3.12 or later"
    return None


def build():
    """Builds the example. Gives the folder of its programs."""
    programs = f"{ROOT}/out/fuse"
    if not os.path.exists(f"{LIBRARY}/lib/libmntgate.a"):
        subprocess.run([f"{ROOT}/bin/install-c", LIBRARY], check=True)
    subprocess.run(
        ["make", "-s", "-C", f"{ROOT}/examples/fuse", f"PREFIX={LIBRARY}", f"O={programs}"],
        check=True,
    )
    return programs


def run(test, programs):
    """Runs a test, and says what it has seen. Whether it is good."""
    name, began = test.__name__.replace("_", " "), time.monotonic()
    try:
        seen, good = test(programs), True
    except (Fault, OSError, subprocess.SubprocessError) as error:
        seen, good = f"FAULT: {error}", False
    say(f"{name}: {seen} ({time.monotonic() - began:.1f} s)")
    return good


def main():
    usual = waits.TESTS + mappings.TESTS + alike.TESTS + backups.TESTS
    tests = {test.__name__: test for test in usual + speed.BY_HAND}
    parser = argparse.ArgumentParser(description="Tests examples/fuse over a real mount.")
    parser.add_argument("--rounds", type=int, default=backups.rounds)
    parser.add_argument("--list", action="store_true")
    parser.add_argument("tests", nargs="*", metavar="TEST")
    asked = parser.parse_args()
    if asked.list:
        print("\n".join(tests))
        return 0
    backups.rounds = asked.rounds
    why = what_is_missing() or why_not_mounted()
    if why:
        say(f"left out: {why}")
        return 0
    programs = os.environ.get("MNTGATE_FUSE") or build()
    good = [run(test, programs) for test in ([tests[name] for name in asked.tests] or usual)]
    say("all passed" if all(good) else f"{good.count(False)} of {len(good)} tests failed")
    return 0 if all(good) else 1


if __name__ == "__main__":
    sys.exit(main())
