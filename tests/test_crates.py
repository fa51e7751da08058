#!/usr/bin/env -S python3 -B
"""Compares the layers of crates.txt with the crates, and with docs/architecture.md.

    tests/test_crates.py [--write]

A heading of crates.txt names a layer, the lowest first. A crate may use crates of its own layer and
of lower ones. Each folder in crates/ has one line there, and one row in a table of the page. The
page's drawing is made of crates.txt. Prints what differs, and the exit status is 1 then. With
--write the drawing is written anew."""

import os
import re
import sys
import textwrap

from verdicts import verdict

ROOT = os.path.dirname(os.path.dirname(os.path.realpath(__file__)))
PAGE = f"{ROOT}/docs/architecture.md"
# A layer's heading, and a crate's line: its name, how it is checked, and what it uses.
HEADING = re.compile(r"# ([a-z]+): .+")
LINE = re.compile(r"(\w+)[^:#]*:([^#]*)")
# The section on the page with the drawing, which is its first block, and with the tables of crates.
SECTION = re.compile(r"(?ms)^## Crates in layers\n.*?(?=^## )")
DRAWING = re.compile(r"(?ms)^```text\n(.*?)^```\n")
TABLE = re.compile(r"(?m)^\| Crate \| Has \|\n\|---\|---\|\n((?:\|.*\n)+)")
ROW = re.compile(r"(?m)^\| (.*?) \|")
MARGIN = 13


def text_of(path):
    with open(path, encoding="utf-8") as it:
        return it.read()


def read_layers(text):
    """Returns each layer's crates, and for each crate what it uses."""
    layers, uses = {}, {}
    for line in text.splitlines():
        if heading := HEADING.fullmatch(line):
            layers[heading[1]] = []
        elif crate := LINE.fullmatch(line):
            if not layers:
                raise SystemExit(f"crates.txt: {crate[1]} stands under no heading")
            layers[list(layers)[-1]].append(crate[1])
            uses[crate[1]] = crate[2].split()
    return layers, uses


def layer_faults(layers, uses):
    """Returns a line for each use of a higher layer, and for each crate missing or too many."""
    height = {crate: at for at, crates in enumerate(layers.values()) for crate in crates}
    folders = set(os.listdir(f"{ROOT}/crates"))
    faults = [
        f"crates.txt: {crate} uses {it} of a higher layer"
        for crate in uses
        for it in uses[crate]
        if height.get(it, -1) > height[crate]
    ]
    faults += [f"crates.txt has no line for crates/{it}" for it in sorted(folders - set(uses))]
    return faults + [f"there is no folder crates/{it}" for it in sorted(set(uses) - folders)]


def rows_of(crates, uses):
    """Returns a layer's crates by rows, the lowest first. A row uses lower ones alone."""
    rows, left = [], list(crates)
    while left:
        row = [it for it in left if not set(uses[it]) & set(left)]
        if not row:
            raise SystemExit(f"crates.txt: {', '.join(left)} use each other")
        rows.append(row)
        left = [it for it in left if it not in row]
    return rows


def drawing(layers, uses):
    """Returns the drawing: the layers and in each its rows, the highest first."""
    blocks = []
    for layer, crates in reversed(layers.items()):
        lines = [
            line
            for row in reversed(rows_of(crates, uses))
            for line in textwrap.wrap("   ".join(row), 100 - MARGIN)
        ]
        blocks.append(
            "".join(
                f"{name:{MARGIN}}{line}\n" for name, line in zip([layer] + [""] * len(lines), lines)
            )
        )
    return "\n".join(blocks)


def page_faults(section, drawn, uses):
    """Returns a line if the page has another drawing, and for each crate without one row."""
    faults = []
    if DRAWING.search(section)[1] != drawn:
        faults.append("docs/architecture.md: another drawing; run tests/test_crates.py --write")
    rows = [row for table in TABLE.findall(section) for row in ROW.findall(table)]
    named = [name for row in rows for name in re.findall(r"\w+", row)]
    for crate in sorted(set(uses) | set(named)):
        if crate not in uses:
            faults.append(f"docs/architecture.md: {crate} is no crate")
        elif named.count(crate) != 1:
            faults.append(f"docs/architecture.md: {crate} has {named.count(crate)} rows")
    return faults


def main():
    layers, uses = read_layers(text_of(f"{ROOT}/crates.txt"))
    page = text_of(PAGE)
    section = SECTION.search(page)[0]
    drawn = drawing(layers, uses)
    if sys.argv[1:] == ["--write"]:
        written = DRAWING.sub(lambda _: f"```text\n{drawn}```\n", section, count=1)
        with open(PAGE, "w", encoding="utf-8") as it:
            it.write(page.replace(section, written))
        return 0
    faults = layer_faults(layers, uses) + page_faults(section, drawn, uses)
    passed = f"crates: {len(uses)} in {len(layers)} layers, drawn and described as they are"
    return verdict(faults, passed)


sys.exit(main())
