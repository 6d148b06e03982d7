#!/usr/bin/env python3
"""Checks and tests what a change touches, over the work that checks have kept: the way to a commit, and no gate.

Run it anywhere in the repository: tests/changed.py [BASE]. BASE is the commit to compare with, HEAD where it is left
out. Of each crate whose sources or line of crates.txt differ, and of each crate above one, it runs `rt check` and,
where there are tests, `rt test`; of those that differ also the layout and all wrong bodies, those of must-fail/ too, as
tests/attacks.py tries them. Where a program or what tests it is touched, it builds the program and runs tests/ on it.
A crate whose library is refused is not tried. The line before the last says how long it took, the last is `N passed,
M failed`, and the status is 0 exactly where nothing failed. The environment's RT, if set, is run in place of `rt`.
"""
import re
import shutil
import subprocess
import sys
import tempfile
import time
from pathlib import Path

sys.dont_write_bytecode = True
from attacks import RT, SOURCES, TOP, copy_parts, crates_below, lines_of_list, times
from suite import LAST_LINE, OF_GROWTHS, OF_HHM

# Of each program the words and the input of a run once it is built, and the scripts of tests/ that are run on it.
PROGRAMS = {
    "hhm": (["sum"], "examples/packets.mtx", OF_HHM),
    "refuse_growths": ([], "/dev/null", OF_GROWTHS),
}


def git(*words):
    ran = subprocess.run(["git", *words], cwd=TOP, capture_output=True, text=True)
    if ran.returncode:
        sys.exit(f"changed: git {' '.join(words)}: {ran.stderr.strip()}")
    return ran.stdout


def changed_since(base, lines):
    """Returns the crates whose sources differ from the base's, those whose wrong bodies do, and all other such files."""
    files = git("diff", "--name-only", base).splitlines()
    files += git("ls-files", "--others", "--exclude-standard").splitlines()
    sources, edits, others = set(), set(), set()
    for file in files:
        parts = Path(file).parts
        if parts[0] == "crates" and len(parts) > 2 and parts[1] in lines:
            (edits if parts[2] in ("must-fail", "attacks") else sources).add(parts[1])
        else:
            others.add(file)
    if "crates.txt" in others:
        before = {it.partition("#")[0].strip() for it in git("show", f"{base}:crates.txt").splitlines()}
        sources |= {name for name, line in lines.items() if line not in before}
    return sources, edits, others


class Tally:
    """What passed and what failed, by names that are told as they come."""

    def __init__(self):
        self.passed, self.failed = 0, 0

    def add(self, name, is_well, why=""):
        self.passed, self.failed = self.passed + is_well, self.failed + (not is_well)
        print(f"{'ok' if is_well else 'FAILED'} {name}{'' if is_well else why}", flush=True)

    def run(self, name, words, folder, stdin=None):
        """Runs a command, whose end status says whether it passed, and shows the end of what a failed one wrote."""
        ran = subprocess.run(words, cwd=folder, stdin=stdin or subprocess.DEVNULL, stdout=subprocess.PIPE,
                             stderr=subprocess.STDOUT, text=True, errors="replace")
        told = [it for it in ran.stdout.splitlines() if re.search(r"error|not proved|no proof|FAILED|^logic=", it)]
        self.add(name, ran.returncode == 0, "".join(f"\n  {it[:200]}" for it in told[:20]))
        return ran.returncode == 0

    def run_counted(self, name, words):
        """Runs a script whose last line counts what passed and failed, shows what it writes, and adds the counts."""
        ran = subprocess.run(words, cwd=TOP, stdout=subprocess.PIPE, text=True)
        print(ran.stdout, end="", flush=True)
        found = LAST_LINE.fullmatch((ran.stdout.splitlines() or [""])[-1])
        if not found:
            return self.add(name, False, f": status {ran.returncode}, and no count")
        self.passed, self.failed = self.passed + int(found[1]), self.failed + int(found[2])


def is_laid_out(crate):
    """Tells whether `rt fmt` would leave a crate's files as they are: it lays out a copy of them."""
    with tempfile.TemporaryDirectory(prefix="layout-") as room:
        copy_parts(TOP / "crates" / crate, Path(room), SOURCES, shutil.copy2)
        files = [it for it in Path(room).rglob("*") if it.suffix in (".rt", ".antt")]
        before = {it: it.read_bytes() for it in files}
        ran = subprocess.run([RT, "fmt"], cwd=room, stdout=subprocess.DEVNULL, stderr=subprocess.DEVNULL)
        return ran.returncode == 0 and all(it.read_bytes() == text for it, text in before.items())


def has_tests(crate):
    return any("#[test]" in it.read_text(encoding="utf-8") for it in (TOP / "crates" / crate / "src").rglob("*.rt"))


def prove(touched, lines, tally):
    """Checks the crates, lowest first, and runs their tests; returns those that are proved."""
    proved = set()
    for crate in sorted(touched, key=lambda it: len(crates_below(it, lines))):
        folder = TOP / "crates" / crate
        if lacking := [it for it in crates_below(crate, lines) if it in touched and it not in proved]:
            tally.add(f"{crate}: check", False, f": its library {lacking[0]} is refused")
        elif tally.run(f"{crate}: check", [RT, "check"], folder):
            proved.add(crate)
            if has_tests(crate):
                tally.run(f"{crate}: tests", [RT, "test"], folder)
    return proved


def test_program(program, words, text, tests, tally):
    """Builds a program, runs it once, and runs the scripts on what was built."""
    folder = TOP / "crates" / program
    with open(TOP / text) as stdin:
        is_built = tally.run(f"{program}: build", [RT, "run", "--", *words], folder, stdin=stdin)
    for name in tests if is_built else ():
        tally.run_counted(name, [sys.executable, TOP / "tests" / name, folder / "out" / program])


def main(words):
    begin, lines, tally = time.time(), lines_of_list(), Tally()
    sources, edits, others = changed_since(words[0] if words else "HEAD", lines)
    touched = {it for it in lines if {it, *crates_below(it, lines)} & sources}
    print(f"changed: {' '.join(sorted(sources)) or 'no crate'}")
    print(f"checked: {' '.join(it for it in lines if it in touched) or 'no crate'}")
    for crate in sorted(sources):
        tally.add(f"{crate}: layout", is_laid_out(crate), ": run rt fmt in its folder")
    proved = prove(touched, lines, tally)
    to_attack = [it for it in lines if it in sources & proved or it in edits - touched]
    if to_attack:
        minutes = sum(times().get(it, 0) for it in to_attack) / 60
        print(f"wrong bodies of {' '.join(to_attack)}: {minutes:.0f} processor minutes when last noted", flush=True)
        tally.run_counted("wrong bodies", [sys.executable, TOP / "tests/attacks.py", "--all", *to_attack])
    for program, run in PROGRAMS.items():
        if program in proved or any(it.startswith(("tests/", "clients/", "tools/", "examples/")) for it in others):
            test_program(program, *run, tally)
    print(f"{time.time() - begin:.0f} s")
    print(f"{tally.passed} passed, {tally.failed} failed")
    return 1 if tally.failed else 0


if __name__ == "__main__":
    sys.exit(main(sys.argv[1:]))
