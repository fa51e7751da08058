#!/usr/bin/env -S python3 -B
"""Looks in the comments of code and proofs for words that the pages have another word for.

    tests/test_words.py [CRATE..]

The pages and docs/glossary.md have one word for one thing: a step, a state, a transition, an
execution, the inductive invariant. A comment uses the same. What stands between backticks is a name
in the code, and is not looked at. Prints each place with the word to use, and the exit status is 1
then."""

import glob
import os
import re
import sys

from verdicts import verdict

ROOT = os.path.dirname(os.path.dirname(os.path.realpath(__file__)))
THEOREM = ("gate_world", "gate_schedules", "gate_core", "progress_laws", "test_schedules")
SEARCHES = ("exploration", "races", "histories", "race_conditions", "race_outcomes", "race_files")
# A pattern, the word to use, and the crates in which it is looked for, if not in all.
WORDS = (
    (r"\bevents?\b", "step", ()),
    (r"\bworlds?\b", "state", ()),
    (r"\bentr(y|ies)\b", "transition", THEOREM + ("transcripts", "program_replay")),
    (r"\bschedules?\b(?! them)", "execution", THEOREM),
    (r"\b(parts? of )?the rule\b", "the invariant; a conjunct of it", ()),
    (r"\bheadline\b", "theorem", ()),
    (r"\bshown models?\b", "shown state", ()),
    (r"\blegal\b", "allowed", ()),
    (r"\bnobody is deadlocked\b", "a reply stays reachable", ()),
    (r"\bculprits?\b", "blocker", ()),
    (r"\bhonest\w*\b", "justified", ()),
    (r"\blead of a sum\b", "invariant of a partial sum", ()),
    (r"\bcourses?\b", "answers", ()),
    (r"\bseats?\b", "record", THEOREM + SEARCHES),
    (r"\bmust-fail edits?\b|\bwrong bod(y|ies)\b", "mutant", ()),
    (r"\blikewise\b", "what it does, in full", ()),
    (r"\btold on (a|the) writer\b", "printed", ()),
)
# Doc comments are read out of order.
DOC_WORDS = WORDS + ((r"^the same\b", "what it does, in full", ()),)
# Here an event is the record that is printed, and an entry is one of an array or of a directory.
EXCEPT = {
    "command_line/src/words.rt": r"events?",
    "gate_schedules/proofs/trees/Laws.antt": r"entry",
    "gate_world/src/accesses.rt": r"entry",
    "mntgate_c/src/events.rt": r"event",
    "replay_forms/src/screen.rt": r"event",
    "schedule_lines/src/printing.rt": r"events?",
}
DOC = re.compile(r"\s*//[/!] ?(.*)")
REMARK = {".rt": re.compile(r"(?:.*\s)?// (.*)"), ".antt": re.compile(r"\s*-- ?(.*)")}


def comments(path):
    """Returns each comment: its line's number, its text without names, whether it is a doc."""
    remark = REMARK[os.path.splitext(path)[1]]
    with open(path, encoding="utf-8") as it:
        for number, line in enumerate(it, 1):
            doc = DOC.match(line)
            if found := doc or remark.match(line):
                yield number, re.sub(r"`[^`]*`", "``", found[1]), doc is not None


def faults_of(path):
    """Returns a line for each word of a file that has another word."""
    name = os.path.relpath(path, f"{ROOT}/crates")
    crate = name.split("/")[0]
    for number, text, is_doc in comments(path):
        for pattern, better, crates in DOC_WORDS if is_doc else WORDS:
            if crates and crate not in crates:
                continue
            for found in re.finditer(pattern, text, re.IGNORECASE):
                if not re.fullmatch(EXCEPT.get(name, ""), found[0], re.IGNORECASE):
                    yield f"crates/{name}:{number}: '{found[0]}': write '{better}'"


def files_of(crates):
    """Returns the files of these crates that are looked at."""
    for crate in crates:
        for part in ("src", "specs", "proofs"):
            for path in glob.glob(f"{ROOT}/crates/{crate}/{part}/**/*", recursive=True):
                name = os.path.relpath(path, f"{ROOT}/crates")
                if path.endswith(tuple(REMARK)):
                    yield path


def main():
    paths = sorted(files_of(sys.argv[1:] or os.listdir(f"{ROOT}/crates")))
    faults = [fault for path in paths for fault in faults_of(path)]
    return verdict(faults, f"words: the comments of {len(paths)} files use those of the pages")


sys.exit(main())
