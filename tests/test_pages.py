#!/usr/bin/env -S python3 -B
"""Tests the pages README.md, CONTRIBUTING.md, bench/*.md, docs/**/*.md and examples/**/*.md
against the repository and the built program.

    tests/test_pages.py [--links] [PROGRAM]
    tests/test_pages.py --in FOLDER PAGE..

With no PROGRAM it takes crates/mntgate/out/mntgate. With --links it runs no command. With --in it
runs the commands of these pages in that folder, which has its own bin/mntgate, and tests nothing
else. Five things are tested:

Links      A link to a file names one that exists, and its #heading one that the file has. Links to
           other hosts are not followed.
Paths      A path in backticks that begins with a folder of the repository exists. One with NAME,
           `..`, `<` or /out is skipped.
Commands   A block that begins with ```console is run. A line `$ COMMAND` is a command for bash,
           lines `> ` behind it continue it, and all other lines are what it prints, standard error
           included. A line `...` stands for any lines. All commands of a page run in one folder, in
           which bin/mntgate is the program and all else of the repository has its place, so that a
           page may write files there. A command whose status isn't 0 has to say so: `$ COMMAND;
           echo $?`.
Quotes     A block that begins with ```LANGUAGE FILE has lines of that file, in their order and with
           none left out; their common indent may differ. A line `...` stands for any lines of the
           file. FILE is relative to the repository's top.
Pictures   Those of the pages are what the program makes (tests/pictures.py), and each that a page
           shows is there.

And each docs/NAME.md that a file of the repository mentions exists. Prints what is wrong, by page
and line; the exit status is 1 then."""

import glob
import os
import re
import sys
import tempfile
import textwrap
from typing import NamedTuple

from consoles import (
    FOLDERS,
    PROGRAM,
    ROOT,
    command_fault,
    expect_program,
    is_missing,
    make_folder,
    parts_of,
)
from pictures import picture_faults
from verdicts import verdict

FENCE = re.compile(r"^(\s*)```+(.*)$")
LINK = re.compile(r"\[(?:[^\]`]|`[^`]*`)*\]\(([^)\s]+)\)")
CODE = re.compile(r"`([^`]+)`")
HEADING = re.compile(r"^#{1,6} +(.*?)(?: +#+)?$")
MENTION = re.compile(r"\bdocs/[\w./-]*?\.md\b")


class Block(NamedTuple):
    """A fenced block: the line of its fence, what stands behind the fence, and its lines."""

    line: int
    info: str
    lines: list


class Page(NamedTuple):
    """A page: its path, its fenced blocks, and its other lines by number."""

    path: str
    blocks: list
    prose: list


def read_page(path):
    """Reads a page."""
    blocks, prose, begun, indent = [], [], None, ""
    with open(f"{ROOT}/{path}", encoding="utf-8") as it:
        lines = it.read().splitlines()
    for number, line in enumerate(lines, 1):
        fence = FENCE.match(line)
        if fence and begun is None:
            indent, begun = fence[1], Block(number, fence[2].strip(), [])
        elif fence and not fence[2].strip():
            blocks.append(begun)
            begun = None
        elif begun is not None:
            begun.lines.append(line.removeprefix(indent))
        else:
            prose.append((number, line))
    return Page(path, blocks, prose)


def pages():
    """All pages."""
    found = [
        path
        for pattern in ("*.md", "bench/*.md", "docs/**/*.md", "examples/**/*.md")
        for path in glob.glob(pattern, root_dir=ROOT, recursive=True)
    ]
    return [read_page(path) for path in sorted(found)]


def anchors(page):
    """The anchors of a page's headings, as code hosts make them."""
    found, times = set(), {}
    for _, line in page.prose:
        if heading := HEADING.match(line):
            text = re.sub(r"\[([^\]]*)\]\([^)]*\)", r"\1", heading[1])
            base = re.sub(r"[^\w\- ]", "", text.lower()).replace(" ", "-")
            found.add(f"{base}-{times[base]}" if base in times else base)
            times[base] = times.get(base, 0) + 1
    return found


def link_faults(page, by_path):
    """The links of a page that lead nowhere."""
    for number, line in page.prose:
        for target in LINK.findall(re.sub(r"`[^`]*`", "", line)):
            if "://" in target or target.startswith("mailto:"):
                continue
            name, _, anchor = target.partition("#")
            path = (
                os.path.normpath(os.path.join(os.path.dirname(page.path), name))
                if name
                else page.path
            )
            if not os.path.exists(f"{ROOT}/{path}"):
                yield f"{page.path}:{number}: no file {path}"
            elif anchor and path in by_path and anchor not in anchors(by_path[path]):
                yield f"{page.path}:{number}: {path} has no heading #{anchor}"


def path_faults(page):
    """The paths in backticks that are not there."""
    for number, line in page.prose:
        for code in CODE.findall(line):
            word = code.split(" ")[0].rstrip(".,:")
            if is_missing(word):
                yield f"{page.path}:{number}: no path {word}"


def mention_faults():
    """The pages that a file mentions and that are not there."""
    for folder in (*FOLDERS, "."):
        for place, folders, names in os.walk(f"{ROOT}/{folder}"):
            folders[:] = (
                []
                if folder == "."
                else [name for name in folders if name not in ("out", "__pycache__", ".git")]
            )
            for path in (os.path.join(place, name) for name in names):
                try:
                    with open(path, encoding="utf-8") as it:
                        text = it.read()
                except (OSError, UnicodeDecodeError):
                    continue
                for mentioned in sorted(set(MENTION.findall(text))):
                    if "NAME" not in mentioned and not os.path.exists(f"{ROOT}/{mentioned}"):
                        yield f"{os.path.relpath(path, ROOT)}: no page {mentioned}"


def commands_of(block):
    """The commands of a block, each with its line and what it should print."""
    found = []
    for number, line in enumerate(block.lines, block.line + 1):
        if line.startswith("$ "):
            found.append((number, [line[2:]], []))
        elif line.startswith("> ") and found and not found[-1][2]:
            found[-1][1].append(line[2:])
        elif found:
            found[-1][2].append(line)
    return [(number, "\n".join(words), printed) for number, words, printed in found]


def faults_in(folder, page):
    """The commands of a page that print something else in this folder; and how many there are."""
    faults = []
    for block in page.blocks:
        for number, command, wanted in commands_of(block) if block.info == "console" else []:
            faults.append(command_fault(f"{page.path}:{number}", command, wanted, folder))
    return [fault for fault in faults if fault], len(faults)


def command_faults(page, program):
    """The same in a folder like the repository, with this program."""
    with tempfile.TemporaryDirectory() as folder:
        make_folder(folder, program)
        return faults_in(folder, page)


def quote_faults(page):
    """The quotes of a page that aren't in their file; and how many there are."""
    faults, count = [], 0
    for block in page.blocks:
        words = block.info.split(" ")
        if len(words) != 2:
            continue
        count += 1
        try:
            with open(f"{ROOT}/{words[1]}", encoding="utf-8") as it:
                file = it.read().splitlines()
        except OSError:
            faults.append(f"{page.path}:{block.line}: no file {words[1]}")
            continue
        at = 0
        for part in parts_of(block.lines):
            wanted = textwrap.dedent("\n".join(part)).strip("\n").splitlines()
            size = len(wanted)
            found = (
                k
                for k in range(at, len(file) - size + 1)
                if textwrap.dedent("\n".join(file[k : k + size])).splitlines() == wanted
            )
            at = next(found, None)
            if at is None:
                faults.append(
                    f"{page.path}:{block.line}: {words[1]} doesn't have the lines from"
                    f" {wanted[0].strip()!r} on"
                )
                break
            at += size
    return faults, count


def type_in(folder, paths):
    """Runs the commands of these pages in a folder; the exit status."""
    faults, commands = [], 0
    for path in paths:
        ended, count = faults_in(folder, read_page(path))
        faults, commands = faults + ended, commands + count
    return verdict(
        faults, f"{' and '.join(paths)}: {commands} commands print what they say in {folder}"
    )


def main(words):
    """Tests the pages; the exit status."""
    if words[:1] == ["--in"]:
        return type_in(words[1], words[2:])
    links_alone = "--links" in words
    program = next((word for word in words if word != "--links"), PROGRAM)
    if not links_alone:
        expect_program(program, "test_pages")
    every = pages()
    by_path = {page.path: page for page in every}
    faults, commands, quotes = list(mention_faults()), 0, 0
    for page in every:
        faults += [*link_faults(page, by_path), *path_faults(page)]
        quoted, count = quote_faults(page)
        faults, quotes = faults + quoted, quotes + count
        if not links_alone:
            ended, count = command_faults(page, program)
            faults, commands = faults + ended, commands + count
    if not links_alone:
        faults += picture_faults(program)
    if faults:
        faults.append(f"{len(faults)} places of the pages are wrong")
    return verdict(
        faults,
        (
            f"{len(every)} pages: their links lead somewhere, {commands} commands print what they"
            f" say, {quotes} quotes stand in the code"
        ),
    )


if __name__ == "__main__":
    sys.exit(main(sys.argv[1:]))
