"""PROOF.txt of a release: what CI said of each crate, and the sums of what it built."""

import hashlib
import os
import re
import time

from files import ROOT, read, said, stop, text


def verdicts_in(log):
    """Returns the last line of the prover on each crate, by name; or that an earlier run on this
    machine proved the same files, which `rt ci` then doesn't prove again. Behind `rt: ok` the log
    has the line on the archive."""
    verdicts, name = {}, None
    for line in log.splitlines():
        if line.startswith("== "):
            name = line[3:].split()[0]
        elif kept := re.match(r"rt: (\w+) is (kept: .*)", line):
            verdicts.setdefault(kept[1], kept[2])
        elif line.startswith("rt: ok"):
            name = "libmntgate_c.a"
        elif line.startswith("logic="):
            verdicts.setdefault(name, line)
    return verdicts


def tools():
    """Returns a line for each tool whose version decides the bytes of a release."""
    asked = (
        ("gcc", "--version"),
        ("ld", "--version"),
        ("dpkg-deb", "--version"),
        ("cmark-gfm", "--version"),
        ("python3", "--version"),
    )
    return [said(*words).splitlines()[0] for words in asked]


def kit_of():
    """Returns the line of `rt version` of the kit that README.md names."""
    return re.search(r"`(rattle-kit-\S+ logic \S+)`", text("README.md"))[1]


def proved_in(log):
    """Returns the crates, and the verdict on each, by name. Stops unless the log has a proof of
    each, by one kit."""
    verdicts = verdicts_in(log)
    crates = re.findall(r"^([a-z_]+)[^:#\n]*:", text("crates.txt"), re.M) + ["libmntgate_c.a"]
    proofs = ("logic=proved", "kept: ")
    if missing := [it for it in crates if not verdicts.get(it, "").startswith(proofs)]:
        stop(f"the log has no proof of {' '.join(missing)}")
    kit = kit_of()
    logics = {line.split("sum=")[1].split()[0] for line in verdicts.values() if "sum=" in line}
    if logics != {kit.split()[-1]}:
        stop(f"the log is of another logic than {kit}, which README.md names")
    return crates, verdicts


def ends_of(log):
    """Returns the two lines with which `rt ci` ended. Stops if it had a failure."""
    ends = (
        re.findall(r"^rt: ok; .*", log, re.M)[-1:]
        + re.findall(r"^\d+ passed, 0 failed$", log, re.M)[-1:]
    )
    if len(ends) != 2:
        stop("the log doesn't end with 'N passed, 0 failed'")
    return ends


def whose(log, lines):
    """Returns whether the log is of what was built here, by these lines."""
    if set(lines) <= set(log.splitlines()):
        return "The output of .ci/run names this commit and these sums."
    return (
        "The output of .ci/run names another commit or other sums: that it is of these is the word"
        " of whoever made the release."
    )


def evidence(log, epoch, built):
    """Returns the text of PROOF.txt. Stops unless the log has a proof of each crate, by one kit,
    and ends with no failure."""
    crates, verdicts = proved_in(log)
    ends, width = ends_of(log), max(map(len, crates))
    commit = f"commit {said('git', '-C', ROOT, 'rev-parse', 'HEAD')}"
    sums = [
        f"{hashlib.sha256(read(path)).hexdigest()}  {os.path.relpath(path, ROOT)}" for path in built
    ]
    lines = [
        commit,
        time.strftime("date   %Y-%m-%dT%H:%M:%SZ", time.gmtime(epoch)),
        f"kit    {kit_of()}",
        "",
        "What .ci/run said at its end:",
        *ends,
        "",
        "Its verdict on each crate. The words behind it are explained in docs/testing.md, "
        '"What a verdict says".',
        *(f"{crate:{width}} {verdicts[crate]}" for crate in crates),
        "",
        "SHA-256 of what it built. The release has them stripped. The program's --version has this "
        "commit and kit, and nothing else in it is changed.",
        "The library is linked with the kit's lines of C:",
        *sums,
        whose(log, [commit, *sums]),
        "",
        "Made with:",
        *tools(),
    ]
    return "\n".join(lines) + "\n"
