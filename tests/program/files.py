"""Files that the program reads and writes, and long lines that it prints: what a case of
tests/cases can't say."""

import os
import stat
import tempfile
from typing import Callable, NamedTuple

# How many bytes a line of a file may have, and a file.
LINE_BYTES, FILE_BYTES = 256, 269_484_032
# How many calls a task has at most, and how many tasks there are.
CALLS, TASKS = 8, 64
# How long an outcome's line is that is checked: near what one line of a file has room for, near
# what several have, and far beyond.
SIZES = (252, 253, 254, 255, 256, 257, 506, 507, 10_000)
PASSED, FAILED = b"1 passed, 0 failed\n", b"0 passed, 1 failed\n"
WRITTEN, UNWRITTEN = b"1 written, 0 unchanged, 0 failed\n", b"0 written, 0 unchanged, 1 failed\n"
# A race, and as it is once what it prints is written into it.
RACE = b"config 1 1 1 2 8\nrace\n0 drop 0 0\n"
BLESSED = RACE.replace(b"race\n", b"race\n#> 2 states, 1 outcome\n#> 0 refused 35 Order\n")


class Otherwise(Exception):
    """Something came otherwise."""


class FileCheck(NamedTuple):
    """What is done in a folder of its own, by a name for a person."""

    name: str
    act: Callable

    def difference(self, program):
        """How it ends otherwise; nothing where it ends as it should."""
        with tempfile.TemporaryDirectory() as folder:
            try:
                self.act(program, folder)
            except Otherwise as otherwise:
                return f"{otherwise}\n"
        return ""


def expect(what, wanted, came):
    """That something is as it is wanted."""
    if wanted != came:
        raise Otherwise(f"{what}: {wanted!r} was wanted, and {came!r} came")


def put(path, given):
    """Writes a file, and returns its path."""
    with open(path, "wb") as file:
        file.write(given)
    return path


def got(path):
    """The bytes of a file."""
    with open(path, "rb") as file:
        return file.read()


def expect_ends(program, words, status, printed, told=b""):
    """That a command line ends with this status, and prints and tells this."""
    ended = program.run(words)
    expect(" ".join(["mntgate", *words]), (status, printed, told), ended)


def calls_of(size):
    """How many calls of the task 0 are done, and how many of tasks 1 to 9 and of others are
    refused, in an outcome of so many bytes: `0 ok; `, `1 refused 35 Order; ` and `10 refused 35
    Order; ` have 6, 20 and 21."""
    for done in range(CALLS + 1):
        for others in range(CALLS * (TASKS - 10) + 1):
            few, rest = divmod(size + 2 - 6 * done - 21 * others, 20)
            if rest == 0 and 0 <= few <= CALLS * 9:
                return done, few, others
    raise ValueError(size)


def long_race(size):
    """A race with one outcome, whose line has so many bytes; and that line."""
    done, few, others = calls_of(size)
    refused = [*(1 + at // CALLS for at in range(few)), *(10 + at // CALLS for at in range(others))]
    calls = ["0 want 0 0"] * done + [f"{task} drop 0 0" for task in refused]
    answers = ["0 ok"] * done + [f"{task} refused 35 Order" for task in refused]
    outcome = "; ".join(answers).encode()
    assert len(outcome) == size
    return (
        "".join(f"{line}\n" for line in (f"config {TASKS} 1 1 2 8", "race", *calls)).encode(),
        outcome,
    )


def said_by(given):
    """What the lines of a file say that is printed."""
    said = b""
    for line in given.split(b"\n"):
        if line.startswith(b"#>+"):
            said = said[:-1] + line[3:] + b"\n"
        elif line.startswith(b"#> "):
            said += line[3:] + b"\n"
    return said


def check_long_line(program, folder, size):
    """All of a long printed line is compared, and written in lines of which none is too long."""
    race, outcome = long_race(size)
    path = put(f"{folder}/long.race", race.replace(b"race\n", b"race\n#> outcomes:\n"))
    missing = f"{path}:2: error: '".encode() + outcome + b"' was printed, which no line says\n"
    expect_ends(program, ["check", path], 1, missing + FAILED)
    expect_ends(program, ["check", "--bless", path], 0, WRITTEN)
    blessed = got(path)
    expect("what is said", b"outcomes:\n" + outcome + b"\n", said_by(blessed))
    expect(
        "lines that are too long",
        [],
        [line for line in blessed.split(b"\n") if len(line) > LINE_BYTES],
    )
    expect_ends(program, ["check", "--bless", path], 0, b"0 written, 1 unchanged, 0 failed\n")
    expect_ends(program, ["check", path], 0, PASSED)
    put(path, blessed.replace(b"Order\n", b"Other\n"))
    number = blessed[: blessed.index(b"#> ", blessed.index(b"#> outcomes:") + 1)].count(b"\n") + 1
    told = (
        f"{path}:{number}: error: expected '".encode()
        + outcome[:-5]
        + b"Other', and '"
        + outcome
        + b"' was printed\n"
    )
    expect_ends(program, ["check", path], 1, told + FAILED)


def check_beginnings(program, folder):
    """A line that is said in parts may be cut anywhere. One with no line before it begins a
    line."""
    path = f"{folder}/parts.race"
    for parts in (
        b"#> 0 refused 35 Order\n",
        b"#> 0 refused\n#>+ 35 Order\n",
        b"#>0 re\n# a remark\n#>+fused 35\n#>+\n#>+ Order\n",
    ):
        put(path, RACE.replace(b"race\n", b"race\n#> outcomes:\n" + parts))
        expect_ends(program, ["check", path], 0, PASSED)
    path = put(
        f"{folder}/parts.schedule",
        b"config 1 1 1 2 8\n0 want 0 0\n0 run\n#>+0 ok\n0 drop 0 0\n0 run\n#>+ 0 ok\n",
    )
    expect_ends(
        program,
        ["check", path],
        1,
        f"{path}:7: error: expected ' 0 ok', and '0 ok' was printed\n".encode() + FAILED,
    )


def check_long_claim(program, folder):
    """A broken claim whose verdict is longer than a line of a file is told."""
    claim = b"never " + b" & ".join([b"0.0 = refused"] * 15 + [b"sb = rw"])
    path = put(f"{folder}/claimed.race", RACE + claim + b"\n")
    expect("a claim near the longest", True, LINE_BYTES - 10 < len(claim) <= LINE_BYTES)
    ended = program.run(["check", path])
    expect(
        "the verdict",
        f"{path}: broken: ".encode() + claim + b"; 1 end\n",
        ended.printed.split(b"\n")[0] + b"\n",
    )
    expect("the end", (1, FAILED), (ended.status, ended.printed[-len(FAILED) :]))


def check_mode(program, folder):
    """A file into which a check writes keeps its mode."""
    for mode in (0o755, 0o600, 0o664):
        path = put(f"{folder}/{mode}.race", RACE)
        os.chmod(path, mode)
        expect_ends(program, ["check", "--bless", path], 0, WRITTEN)
        expect("the mode", oct(mode), oct(stat.S_IMODE(os.stat(path).st_mode)))
        expect("the file", BLESSED, got(path))


def check_links(program, folder):
    """Of a link that is named the file is written to which it leads. A file with two names isn't
    written."""
    put(f"{folder}/one.race", RACE)
    os.symlink("one.race", f"{folder}/link.race")
    expect_ends(program, ["check", "--bless", f"{folder}/link.race"], 0, WRITTEN)
    expect("the link", "one.race", os.readlink(f"{folder}/link.race"))
    expect("its target", BLESSED, got(f"{folder}/one.race"))
    path = put(f"{folder}/two.race", RACE)
    os.link(path, f"{folder}/too.race")
    why = "it has other names, hard links, which would keep what it has; it isn't replaced"
    told = f"{path}: {why}\n".encode()
    expect_ends(program, ["check", "--bless", path], 1, UNWRITTEN, told)
    expect("the file", RACE, got(path))


def check_others(program, folder):
    """What is no file isn't written, and what stands where a new file is to be isn't followed or
    overwritten."""
    path = f"{folder}/pipe.race"
    os.mkfifo(path)
    expect_ends(
        program,
        ["check", "--bless", path],
        1,
        UNWRITTEN,
        f"{path}: it is no regular file, and isn't replaced\n".encode(),
    )
    path, victim = put(f"{folder}/one.race", RACE), put(f"{folder}/victim", b"it stays\n")
    os.symlink("victim", f"{path}.new")
    why = "there is a file of this name with '.new' behind it, which isn't overwritten"
    told = f"{path}: {why}\n".encode()
    expect_ends(program, ["check", "--bless", path], 1, UNWRITTEN, told)
    expect(
        "the files",
        (RACE, b"it stays\n", "victim"),
        (got(path), got(victim), os.readlink(f"{path}.new")),
    )


def check_saves(program, folder):
    """A schedule of an outcome replaces a file and a link, and not that to which it leads; what has
    no outcome is told."""
    race, victim = put(f"{folder}/one.race", RACE), put(f"{folder}/victim", b"it stays\n")
    printed = b"2 states, 1 outcome\n0 refused 35 Order\n"
    words = ["outcomes", "--save", folder, race]
    os.symlink("victim", f"{folder}/1.schedule")
    expect_ends(program, words, 0, printed)
    expect("its target", b"it stays\n", got(victim))
    saved = got(f"{folder}/1.schedule")
    expect("the schedule", b"config 1 1 1 2 8\n# 0 refused 35 Order\n0 drop 0 0\n", saved)
    put(f"{folder}/1.schedule", b"an older one")
    put(f"{folder}/2.schedule", b"an older one")
    expect_ends(
        program,
        words,
        0,
        printed,
        f"{folder}/2.schedule: it was there before, has no outcome of this list, and"
        " stays\n".encode(),
    )
    expect(
        "the files",
        (saved, b"an older one"),
        (got(f"{folder}/1.schedule"), got(f"{folder}/2.schedule")),
    )
    expect(
        "all files", ["1.schedule", "2.schedule", "one.race", "victim"], sorted(os.listdir(folder))
    )
    os.remove(f"{folder}/1.schedule")
    os.mkfifo(f"{folder}/1.schedule")
    expect_ends(
        program,
        words,
        1,
        b"",
        f"{folder}/1.schedule: it is no regular file, and isn't replaced\n".encode(),
    )


def check_size(program, folder):
    """A file that is longer than the longest schedule isn't read."""
    path = put(f"{folder}/large.race", b"")
    os.truncate(path, FILE_BYTES + 1)
    why = f"it has more than {FILE_BYTES} bytes, the longest that a schedule may have"
    told = f"{path}: {why}\n".encode()
    expect_ends(program, ["check", path], 1, FAILED, told)
    expect_ends(program, ["outcomes", path], 1, b"", told)
    expect_ends(program, ["check", "--bless", path], 1, UNWRITTEN, told)


def checks_of_files():
    """Those of long printed lines, and of files that are written and read."""
    for size in SIZES:
        yield FileCheck(
            f"an outcome of {size} bytes",
            lambda program, folder, size=size: check_long_line(program, folder, size),
        )
    for act in (
        check_beginnings,
        check_long_claim,
        check_mode,
        check_links,
        check_others,
        check_saves,
        check_size,
    ):
        yield FileCheck(act.__doc__, act)
