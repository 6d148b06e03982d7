#!/usr/bin/env python3
"""Writes the file BUILD of a package: what a program is built from, and what is proved of it.

    tools/build_record.py PROGRAM gate LOG        LOG is what .ci/run wrote, and the gate built PROGRAM
    tools/build_record.py PROGRAM rt LOG          LOG is what `rt run` wrote, which proved and built PROGRAM
    tools/build_record.py PROGRAM unproved        PROGRAM was built here without proofs
    tools/build_record.py PROGRAM given           PROGRAM was built elsewhere, and is to be called unproved
    tools/build_record.py PROGRAM unknown         it isn't known how PROGRAM was built

It fails where the log of a gate doesn't say that all is proved and nothing failed. `rt run` prints its lines of the
proof only where it proves again, so that log may lack them; whoever calls this has seen that it ended with status 0.
"""
import hashlib
import re
import subprocess
import sys
from pathlib import Path

TOP = Path(__file__).resolve().parent.parent
PROVED = {
    "gate": "yes, by the gate",
    "rt": "yes, by rt run; the gate's tests and wrong bodies weren't run",
    "unproved": "no",
    "given": "no",
    "unknown": "unknown: the program was built elsewhere, without a record",
}
SAME = "To see whether a program is the one of this file: hhmc --version, or sha256sum."
AGAIN = """\
To prove it again, in a clone of the repository at this commit, with this toolchain on the path: .ci/run
It builds crates/hhm/out/hhm. That a second build has the same bytes isn't promised."""
FIRST = "To prove and build one, in a clone of the repository at this commit, with the toolchain on the path: .ci/run"


def fail(text):
    sys.exit(f"build_record: {text}")


def said(*words):
    """Returns what a command writes, without the last line's end; nothing where it fails or isn't there."""
    try:
        ran = subprocess.run(words, cwd=TOP, stdout=subprocess.PIPE, stderr=subprocess.DEVNULL, text=True)
    except OSError:
        return ""
    return ran.stdout.strip() if ran.returncode == 0 else ""


def commit():
    """Returns the commit of the checkout, and whether files differ from it."""
    name = said("git", "rev-parse", "HEAD")
    if not name:
        return "unknown: this is no repository of git"
    return f"{name} and changes" if said("git", "status", "--porcelain") else name


def line_of(log, pattern, what):
    """Returns the last line of a log that matches the pattern whole. Fails, naming what is missing, where none does."""
    found = re.findall(rf"^{pattern}$", log, re.M)
    return found[-1] if found else fail(f"the log doesn't say {what}")


def lines_of_proof(log):
    """Returns the lines of the record on statements, from the part of a log on the crate hhm."""
    proved = line_of(log, r"logic=proved .*", "that hhm is proved: there is no line logic=proved")
    logic = line_of(log, r"logic \S+: .*", "which logic was used: there is no line logic FILE")
    return [f"statements: {proved}", f"logic: {logic.partition(': ')[2]}"]


def lines_of_run(log):
    """Returns the lines of the record on `rt run`, which says nothing of a proof that it had made before."""
    return lines_of_proof(log) if "logic=proved " in log else ["statements: not printed, since hhm was proved before"]


def lines_of_gate(log):
    """Returns the lines of the record on a whole gate."""
    part = re.search(r"^== hhm\n(.*?)^rt: hhm proved$", log, re.M | re.S)
    if not part or re.search(r"NOT PROVED|NOT REFUSED|^FAILED ", log, re.M):
        fail("the log doesn't say that each crate is proved")
    ok = line_of(log, r"rt: ok; .*", "that rt ci is content: there is no line rt: ok")
    counts = re.findall(r"^\d+ passed, 0 failed$", log, re.M)
    if len(counts) < 2 or log.splitlines()[-1] != counts[-1]:
        fail("the log doesn't end by `N passed, 0 failed` of the whole gate")
    time = line_of(log, r"processor time .*", "which time it took")
    crates = len(re.findall(r"^rt: \w+ proved$", log, re.M))
    told = [ok, f"rt: {crates} crates proved", counts[0], time, counts[-1]]
    return [*lines_of_proof(part[1]), "gate:", *(f"    {it}" for it in told)]


def record(program, how, log):
    """Returns the text of a BUILD."""
    version = said(str(Path(program).resolve()), "--version")
    if not re.fullmatch(r"hhm \d+\.\d+\.\d+\S*", version):
        fail(f"{program} isn't hhm: it says no version")
    digest = hashlib.sha256(Path(program).read_bytes()).hexdigest()
    of = " (of the other files)" if how in ("given", "unknown") else ""
    lines = [version, f"commit: {commit()}{of}", f"proved: {PROVED[how]}", f"program: sha256 {digest}"]
    if how in OF_LOGS:
        lines += [f"toolchain: {said('rt', 'version') or 'unknown: there is no rt'}", *OF_LOGS[how](log)]
    return "\n".join([*lines, "", SAME, AGAIN if how in OF_LOGS else FIRST, ""])


OF_LOGS = {"gate": lines_of_gate, "rt": lines_of_run}


def main(words):
    has_log = len(words) > 1 and words[1] in OF_LOGS
    if len(words) != 2 + has_log or words[1] not in PROVED:
        sys.exit(__doc__)
    log = Path(words[2]).read_text(errors="replace") if has_log else ""
    sys.stdout.write(record(words[0], words[1], log))


if __name__ == "__main__":
    main(sys.argv[1:])
