#!/usr/bin/env -S python3 -B
"""Tests that crates/example_first prints the same without its meetings.

    tests/test_meetings.py

By its meetings the contracts of crates/example_first know what the other task holds. When it runs
they do nothing that shows. So a copy of the crates is made, each line of `two_tasks.rt` goes that
is a meeting, and the program is built of that without a proof and run: about a minute. It has to
print what crates/example_first/stdout has. Prints what is wrong; the exit status is 1 then."""

import os
import shutil
import subprocess
import sys
import tempfile

ROOT = os.path.dirname(os.path.dirname(os.path.realpath(__file__)))
CRATE = "crates/example_first"
SOURCE = f"{CRATE}/src/two_tasks.rt"
MEETING = "    backup.meet(gates, writer);\n"
MEETINGS = 8


def without_meetings(root):
    """Takes the meetings away, and returns how many there were."""
    with open(f"{root}/{SOURCE}", encoding="utf-8") as it:
        lines = it.readlines()
    with open(f"{root}/{SOURCE}", "w", encoding="utf-8") as it:
        it.writelines(line for line in lines if line != MEETING)
    return lines.count(MEETING)


def main():
    with open(f"{ROOT}/{CRATE}/stdout", encoding="utf-8") as it:
        wanted = it.read()
    with tempfile.TemporaryDirectory() as root:
        shutil.copytree(
            f"{ROOT}/crates", f"{root}/crates", ignore=shutil.ignore_patterns("out", "must-fail")
        )
        for name in ("crates.txt", "HANDLES"):
            shutil.copy(f"{ROOT}/{name}", root)
        count = without_meetings(root)
        if count != MEETINGS:
            print(f"{SOURCE}: {count} lines are meetings, and not {MEETINGS}")
            return 1
        ran = subprocess.run(
            ["rt", "try"],
            cwd=f"{root}/{CRATE}",
            stdin=subprocess.DEVNULL,
            capture_output=True,
            text=True,
            check=False,
        )
    if ran.returncode or ran.stdout != wanted:
        print(
            f"{CRATE} without its meetings: status {ran.returncode}\n{ran.stdout}{ran.stderr}",
            end="",
        )
        return 1
    return 0


if __name__ == "__main__":
    sys.exit(main())
