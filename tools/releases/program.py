"""The program of a release: stripped, with the release's commit and kit in it, and how a shell
completes its command lines."""

import shutil

from files import ROOT, put, read, said, stop

PROGRAM = f"{ROOT}/crates/mntgate/out/mntgate"


def put_program(path, commit, kit):
    """Writes the program to this path. The line of --version by which it says that it is no release
    gets the commit and the kit, in the same place and with the same length. All other bytes are
    those of the program as it was built, stripped."""
    shutil.copy(PROGRAM, path)
    said("strip", "--strip-unneeded", "-R", ".comment", path)
    version, *lines = said(path, "--version").splitlines()
    unnamed = "".join(lines)
    named = f"commit {commit}, proved by {kit}".ljust(len(unnamed))
    data = read(path)
    if data.count(unnamed.encode()) != 1 or len(named) != len(unnamed):
        stop(
            f"the program doesn't have the line of {len(named)} bytes once, over which its commit"
            f" and its kit go: {unnamed}"
        )
    put(path, data.replace(unnamed.encode(), named.encode()), 0o755)
    if said(path, "--version") != f"{version}\n{named}".rstrip():
        stop(f"{path} --version doesn't print: {named}")
