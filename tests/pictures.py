#!/usr/bin/env -S python3 -B
"""The pictures of the pages, and two pages with pictures: the program makes them, and they are
kept.

    tests/pictures.py [--write] [PROGRAM]

Each has to be, byte for byte, what the program prints now. A page has to parse, with each element
ended, and must ask for nothing from elsewhere: no script, no link to another place. A picture has
to parse as XML. With --write they are written anew. With no PROGRAM it is
crates/mntgate/out/mntgate. Prints what is wrong; the exit status is 1 then. tests/test_pages.py
tests the same."""

import os
import re
import subprocess
import sys
from html.parser import HTMLParser
from xml.etree import ElementTree

ROOT = os.path.dirname(os.path.dirname(os.path.realpath(__file__)))
PROGRAM = f"{ROOT}/crates/mntgate/out/mntgate"
# Each picture, with the command line of the page that has it, and which of the page's pictures it
# is.
PICTURES = {
    "docs/waiting.svg": (["replay", "--html", "examples/waiting.schedule"], 1),
    "docs/failed-remount.svg": (["replay", "--html", "examples/failed-remount.schedule"], 1),
    "docs/removed-while-open.svg": (
        ["outcomes", "--html", "examples/races/removed-while-open.race"],
        5,
    ),
}
# Each page, with its command line.
PAGES = {
    "tests/pages/levels.html": [
        "replay",
        "--html",
        "--names",
        "kernel",
        "examples/levels.schedule",
    ],
    "tests/pages/two-changes.html": [
        "outcomes",
        "--html",
        "--model",
        "examples/races/two-changes.race",
    ],
}
# Elements without an end.
VOID = {"meta", "br"}


class Elements(HTMLParser):
    """Tests that each element of a page is ended, and that the page is whole by itself."""

    def __init__(self):
        super().__init__()
        self.open, self.faults = [], []

    def handle_starttag(self, tag, attrs):
        if tag == "script" or any(
            name in ("src", "onload") or name == "href" and not value.startswith("#")
            for name, value in attrs
        ):
            self.faults.append(f"<{tag}> asks for something from elsewhere")
        if tag not in VOID:
            self.open.append(tag)

    def handle_startendtag(self, tag, attrs):
        pass

    def handle_endtag(self, tag):
        if not self.open or self.open.pop() != tag:
            self.faults.append(f"</{tag}> ends no element")

    def faults_of(self, page):
        """What is wrong with a page."""
        self.feed(page)
        self.close()
        return [*self.faults, *(f"<{tag}> is not ended" for tag in self.open)]


def printed(program, words):
    """What the program prints."""
    return subprocess.run(
        [os.path.abspath(program), *words], cwd=ROOT, stdout=subprocess.PIPE, check=True
    ).stdout


def made(program):
    """Each picture and each page, as the program makes it; and what is wrong with it."""
    for path, (words, which) in PICTURES.items():
        picture = re.findall(rb"<svg.*?</svg>\n", printed(program, words), re.DOTALL)[which - 1]
        try:
            ElementTree.fromstring(picture)
        except ElementTree.ParseError as fault:
            yield path, picture, [str(fault)]
        else:
            yield path, picture, []
    for path, words in PAGES.items():
        page = printed(program, words)
        yield path, page, Elements().faults_of(page.decode())


def picture_faults(program):
    """What is wrong with the pictures and the pages."""
    for path, came, faults in made(program):
        yield from (f"{path}: {fault}" for fault in faults)
        try:
            with open(f"{ROOT}/{path}", "rb") as file:
                kept = file.read()
        except OSError:
            kept = b""
        if kept != came:
            yield f"{path}: the program makes another one: tests/pictures.py --write keeps it"


def main(words):
    """Tests or writes the pictures; the exit status."""
    program = next((word for word in words if word != "--write"), PROGRAM)
    if "--write" in words:
        for path, came, _ in made(program):
            os.makedirs(os.path.dirname(f"{ROOT}/{path}"), exist_ok=True)
            with open(f"{ROOT}/{path}", "wb") as file:
                file.write(came)
    faults = list(picture_faults(program))
    print(
        *faults or [f"{len(PICTURES)} pictures and {len(PAGES)} pages are what the program makes"],
        sep="\n",
    )
    return 1 if faults else 0


if __name__ == "__main__":
    sys.exit(main(sys.argv[1:]))
