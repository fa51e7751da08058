#!/usr/bin/env -S python3 -B
"""Compares the section 'The calls' of docs/refusals.md with the table in crates/refusals, which
`mntgate explain` prints: each row of the table stands there, in its order, and nothing else does.

    tests/test_refusals.py [--write]

Prints what differs, and the exit status is 1 then. With --write the section is written anew."""

import difflib
import os
import re
import sys
import textwrap

from verdicts import verdict

ROOT = os.path.dirname(os.path.dirname(os.path.realpath(__file__)))
CRATE = f"{ROOT}/crates/refusals/src"
VERBS = f"{ROOT}/crates/schedule_text/src/verbs.rt"
PAGE = f"{ROOT}/docs/refusals.md"
# The section on the page, from its heading to the next one.
SECTION = re.compile(r"(?ms)^## The calls\n.*?(?=^## )")
TEXT = r'(?s:"((?:[^"\\]|\\.)*)")'
# A row of the table of verbs, and one of the table of the calls that they begin: the verb, and its
# name or its call's names.
VERB = re.compile(r'Verb::(\w+) => VerbRow::\w+\("(\w+)",')
CALL = re.compile(r'Verb::(\w+) => "([^"]+)",')
# A row: its calls, its refusal, when it comes, and a line for each text.
ROW = re.compile(r"(.+?): (\w+)(?:, (.+))?")
# The parts of the table, with their headings and what stands under them.
PARTS = (
    (
        "gates",
        "Mounts, levels and the superblock",
        (
            "`drop_mount`, `drop_write`, `end` and `callback` are never refused after their first"
            " step."
        ),
    ),
    (
        "trees",
        "The tree and snapshots",
        (
            "Of these calls only `close_file` and `snapshot` may wait. A removed file that is open"
            " can only be closed."
        ),
    ),
    (
        "tasks",
        "Tasks, gates and runs",
        (
            "What is refused before the first step has a table of its own:"
            " [below](#before-the-first-step)."
        ),
    ),
)
LABELS = ("means", "state now", "do next", "never", "in Linux")
HEAD = """## The calls

Each refusal has what it means, the state now, what to do next, what never to do, and how a script
finds on a real system who is in the way. `mntgate explain CALL REFUSAL` prints the text here.
"""


def text_of(path):
    with open(path, encoding="utf-8") as it:
        return it.read()


def table_of(path):
    """The text of a table, and its lines apart."""
    return (
        re.search(TEXT, text_of(f"{CRATE}/{path}.rt"))[1]
        .removeprefix("\\\n")
        .replace('\\"', '"')
        .rstrip("\n")
    )


def names_of_calls():
    """The first name of each call."""
    verbs = text_of(VERBS)
    calls = dict(CALL.findall(verbs))
    begun = [name for verb, name in VERB.findall(verbs) if verb in calls]
    return begun + [line.split()[0] for line in table_of("calls").split("\n")]


def errnos():
    """The number of each refusal and its name in Linux."""
    numbers = dict(
        re.findall(
            r"GateError::(\w+) => (\d+),", text_of(f"{ROOT}/crates/access_model/src/errors.rt")
        )
    )
    names = re.findall(
        rf"\(\s*GateError::(\w+)(?:\(0\))?,\s*{TEXT},", text_of(f"{CRATE}/causes.rt")
    )
    return {
        name: f"{numbers[name]} `{name}` (`{errno}`)" if errno else f"`{name}(code)`"
        for name, errno in names
    }


def heading_of(calls, refusal, when):
    """The heading of a row: its refusal and when it comes; its calls, unless they are too many for
    one."""
    of = ", ".join(f"`{call}`" for call in calls) if len(calls) < 8 else "all calls"
    return f"#### {of}: {refusal}{f', {when}' if when else ''}"


def part_of(name, names, numbers):
    """The rows of a part of the table, as the page has them."""
    for row in table_of(f"table/{name}").split("\n\n"):
        head, *texts = row.split("\n")
        found = ROW.fullmatch(head)
        if not found or found[2] not in numbers or not set(found[1].split(" ")) <= set(names):
            sys.exit(
                f"test_refusals: {name}.rt has a row of no call or refusal that there is: {head}"
            )
        yield heading_of(found[1].split(" "), numbers[found[2]], found[3])
        lines = []
        for label, text in (text.split(": ", 1) for text in texts):
            if label not in LABELS:
                sys.exit(
                    f"test_refusals: {name}.rt has a text behind no label that there is: {label}"
                )
            told = f"- **{label[0].upper()}{label[1:]}:** {text}"
            lines += textwrap.wrap(
                told, 100, subsequent_indent="  ", break_long_words=False, break_on_hyphens=False
            )
        yield "\n".join(lines)


def section():
    """The section, as the table has it."""
    names, numbers = names_of_calls(), errnos()
    parts = [HEAD.rstrip()]
    for name, heading, remark in PARTS:
        parts += [f"### {heading}", textwrap.fill(remark, 100), *part_of(name, names, numbers)]
    return "\n\n".join(parts) + "\n\n"


def main(words):
    page, wanted = text_of(PAGE), section()
    found = SECTION.search(page)
    if found is None:
        sys.exit("test_refusals: docs/refusals.md has no section 'The calls'")
    if words == ["--write"]:
        with open(PAGE, "w", encoding="utf-8") as it:
            it.write(page[: found.start()] + wanted + page[found.end() :])
        return 0
    changed = difflib.unified_diff(
        wanted.splitlines(),
        found[0].splitlines(),
        "crates/refusals",
        "docs/refusals.md",
        lineterm="",
        n=1,
    )
    return verdict(
        list(changed), f"docs/refusals.md has the {wanted.count('#### ')} rows of the table"
    )


if __name__ == "__main__":
    sys.exit(main(sys.argv[1:]))
