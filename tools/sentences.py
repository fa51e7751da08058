#!/usr/bin/env -S python3 -B
"""Prints of each page how long its sentences are, in words: how many there are, their median, and
each one above a limit.

    tools/sentences.py [--limit WORDS] [PAGE..]

With no PAGE it takes README.md and docs/**/*.md. Code, tables' rules and headings are left out; a
table's cell and a list's item are sentences of their own. Text in backticks counts as one word. The
limit is 35 words unless another is given. It tests nothing: CI doesn't run it."""

import glob
import os
import re
import statistics
import sys

ROOT = os.path.dirname(os.path.dirname(os.path.realpath(__file__)))
LIMIT = 35


def paragraphs(text):
    """The texts of a page that are read as one: paragraphs, items and cells."""
    text = re.sub(r"^\s*```.*?^\s*```\s*$", "\n", text, flags=re.M | re.S)
    text = re.sub(r"^    .*$|^#.*$|^\|[\s|:-]*\|$", "\n", text, flags=re.M)
    text = re.sub(r"^\s*(?:[-*]|\d+\.) ", "\n\n", text, flags=re.M)
    text = re.sub(r"^> ?", "", text, flags=re.M)
    for part in re.split(r"\n\s*\n|\n(?=\|)", text):
        if part.startswith("|"):
            yield from re.split(r"(?<!\\)\|", part.strip().strip("|"))
        else:
            yield part


def sentences(text):
    """The sentences of a page, each as its words."""
    for part in paragraphs(text):
        part = (
            re.sub(r"`[^`]*`", "CODE", re.sub(r"\[([^\]]*)\]\([^)]*\)", r"\1", part))
            .replace("**", "")
            .replace("*", "")
        )
        for sentence in re.split(
            r"(?<=[.!?])[)\"]?\s+(?=[A-Z(\"])|(?<=:)\s*$", " ".join(part.split())
        ):
            words = [word for word in sentence.split(" ") if re.search(r"\w", word)]
            if words:
                yield words


def main(words):
    """Prints the lengths."""
    limit = LIMIT
    if words[:1] == ["--limit"]:
        limit, words = int(words[1]), words[2:]
    found = words or [
        os.path.join(ROOT, path)
        for path in ["README.md", *sorted(glob.glob("docs/**/*.md", root_dir=ROOT, recursive=True))]
    ]
    for path in found:
        with open(path, encoding="utf-8") as it:
            every = list(sentences(it.read()))
        sizes = [len(sentence) for sentence in every] or [0]
        print(
            f"{os.path.relpath(path, ROOT)}: {len(sizes)} sentences, median"
            f" {statistics.median(sizes):g}, longest {max(sizes)}"
        )
        for sentence in every:
            if len(sentence) > limit:
                print(f"    {len(sentence)}: {' '.join(sentence)}")


if __name__ == "__main__":
    main(sys.argv[1:])
