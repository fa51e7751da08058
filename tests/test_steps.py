#!/usr/bin/env -S python3 -B
"""Tests bin/without, and what docs/steps.md shows of it.

    tests/test_steps.py [--all | WORD..]

A block of the page that begins with ```text and a line `$ bin/without ..` has what this command
prints: a line `...` stands for any lines. Each names a mutant and a race that exist. Those whose
command has one of the words are run; with --all all of them, and each builds its mutant, if that
isn't kept: about a minute. What bin/without refuses is tried in any case, and that the mutants of
docs/steps fit their crates: CI builds none of those. Prints what is wrong; the exit status is 1
then."""

import difflib
import glob
import os
import subprocess
import sys

from consoles import ROOT, fits
from test_pages import commands_of, read_page
from verdicts import verdict

PAGE = "docs/steps.md"
RACE = "examples/races/steps/want-change.race"
# Arguments, and what they are refused with: a part of standard error.
REFUSED = [
    (["sums_before_hold"], "a mutant and a race are needed"),
    (
        ["sums_befor_hold", RACE],
        "no mutant sums_befor_hold; the nearest: mount_counts/sums_before_hold",
    ),
    (["zzz", RACE], "no mutant zzz; ls {crates,docs/steps}/*/must-fail lists all"),
    (
        ["mntgate_c/a_hook_is_told_as_an_errno", RACE],
        "mntgate doesn't stand on that crate, so no race shows it",
    ),
    (["sums_before_hold", "no.race"], "no race no.race"),
    (["--limit", "10", "sums_before_hold", RACE], f"{RACE}: more than 10 states"),
]


def run(words):
    """Runs bin/without."""
    return subprocess.run(
        [f"{ROOT}/bin/without", *words],
        cwd=ROOT,
        stdin=subprocess.DEVNULL,
        capture_output=True,
        text=True,
        check=False,
    )


def refusals():
    """What isn't refused as it should be."""
    for words, why in REFUSED:
        ran = run(words)
        if ran.returncode != 2 or ran.stdout or why not in ran.stderr:
            yield (
                f"bin/without {' '.join(words)}: status {ran.returncode}, and not 2 with:"
                f" {why}\n{ran.stdout}{ran.stderr}"
            )


def unfit():
    """The mutants of docs/steps whose text isn't that of their crates any more."""
    for path in sorted(glob.glob(f"{ROOT}/docs/steps/*/must-fail/*.edit")):
        with open(path, encoding="utf-8") as it:
            lines = [line.partition(": ") for line in it.read().splitlines()]
        name, crate = os.path.relpath(path, ROOT), path.split("/")[-3]
        text = ""
        for word, _, rest in lines:
            if word == "file":
                with open(f"{ROOT}/crates/{crate}/{rest}", encoding="utf-8") as it:
                    text = it.read()
            elif word == "old" and text.count(rest) != 1:
                yield f"{name}: its crate has {text.count(rest)} times, and not once: {rest}"


def mutants(name):
    """The files of the mutants of this name."""
    return [
        path
        for where in ("crates", "docs/steps")
        for path in glob.glob(f"{ROOT}/{where}/*/must-fail/{name}.edit")
    ]


def commands():
    """The commands of the page: line, words, and what each prints."""
    for block in read_page(PAGE).blocks:
        for number, command, wanted in commands_of(block) if block.info == "text" else []:
            if command.startswith("bin/without "):
                yield number, command.split()[1:], wanted


def fault(number, words, wanted):
    """What this command prints otherwise, if it does."""
    ran = run(words)
    came = ran.stdout.splitlines()
    if ran.returncode == 2 or not fits(wanted, came):
        changed = difflib.unified_diff(wanted, came, "the page", "bin/without", lineterm="", n=1)
        return "\n".join(
            [f"{PAGE}:{number}: $ bin/without {' '.join(words)}", *changed, ran.stderr]
        )
    return None


def main(asked):
    """Tests what is asked for; the exit status."""
    every = list(commands())
    faults = [*refusals(), *unfit()]
    for number, (*_, mutant, race), _ in every:
        if len(mutants(mutant)) != 1 or not os.path.exists(f"{ROOT}/{race}"):
            faults.append(f"{PAGE}:{number}: no mutant {mutant}, or no race {race}")
    chosen = [
        it for it in every if "--all" in asked or any(word in " ".join(it[1]) for word in asked)
    ]
    faults += filter(None, (fault(*it) for it in chosen))
    return verdict(
        faults,
        (
            f"bin/without refuses what it should, and {len(chosen)} of {len(every)} blocks of"
            f" {PAGE} are what it prints"
        ),
    )


if __name__ == "__main__":
    sys.exit(main(sys.argv[1:]))
