"""What the parts of bin/release share: files, commands, and the way it stops."""

import os
import subprocess
import sys

ROOT = os.path.dirname(os.path.dirname(os.path.dirname(os.path.realpath(__file__))))


def stop(why):
    """Ends the release with status 2."""
    print(f"release: {why}", file=sys.stderr)
    sys.exit(2)


def said(*words, **more):
    """Returns what a command prints. A command that fails ends the release."""
    ran = subprocess.run(words, stdout=subprocess.PIPE, text=True, check=False, **more)
    if ran.returncode:
        stop(f"{' '.join(words)} failed with status {ran.returncode}")
    return ran.stdout.strip()


def put(path, data, mode=0o644):
    """Writes a file of this mode, and the folders above it."""
    os.makedirs(os.path.dirname(path), exist_ok=True)
    with open(path, "wb") as file:
        file.write(data if isinstance(data, bytes) else data.encode())
    os.chmod(path, mode)


def read(path):
    """Returns a file's bytes."""
    with open(path, "rb") as file:
        return file.read()


def text(path):
    """Returns the text of a file of the repository."""
    return read(f"{ROOT}/{path}").decode()


def tracked(*folders):
    """Returns the files that git has below these folders of the repository, sorted."""
    return said("git", "-C", ROOT, "ls-files", *folders).splitlines()


def files_below(folder):
    """Returns the paths below a folder, links too, sorted and relative to it."""
    found = [
        os.path.join(at, name)
        for at, folders, names in os.walk(folder)
        for name in names + [it for it in folders if os.path.islink(f"{at}/{it}")]
    ]
    return sorted(os.path.relpath(path, folder) for path in found)
