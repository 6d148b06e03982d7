#!/usr/bin/env python3
"""Tries wrong bodies that the prover must refuse: the edits crates/NAME/attacks/*.edit, which are no part of the gate.

Run it anywhere in the repository: tests/attacks.py [--all] [--note] [NAME..]. It takes the named crates, or each that
has edits; with --all those of must-fail/ too, which the gate tries as well. An edit has the form that `rt must-fail`
reads. With --note, tests/attack_times.txt gets the processor time of each crate's edits.

A crate is checked first as it stands. Then the edits are tried in a copy of it, over the work that checks have kept,
many in one check: a function is proved by what its callees promise, so a wrong body of one leaves the others as they
are. An edit passes where the very function that it changes is refused. One whose function was not judged, because it
calls another that an edit of the same check spoils, is tried in a further check. An edit fails that can't be applied or
read, that isn't a body (its types don't fit, or it breaks a rule of borrows), or that is refused only because a proof
file names what it took away; and so does one whose function is still proved. The last line is `N passed, M failed`, and
the status 0 exactly where nothing failed. The environment's RT, if set, is run in place of `rt`.
"""
import fcntl
import os
import re
import resource
import shutil
import subprocess
import sys
import tempfile
from dataclasses import dataclass
from pathlib import Path

TOP = Path(__file__).resolve().parent.parent
RT = os.environ.get("RT", "rt")
SOURCES = ("src", "specs", "proofs")
TIMES = TOP / "tests" / "attack_times.txt"
FUNCTION = re.compile(r"^( *)(?:pub(?:\([\w:]+\))? )?(?:const )?(?:unsafe )?fn (\w+)")
IMPL = re.compile(r"^impl\b(?:<[^{]*?>)?\s+(?:(\w+)(?:<.*?>)? for )?[&']*(\w+)")
# What a proof file says where an edit took away a name that it cites: that alone says little of the contract.
LOST_NAME = re.compile(r"has no field|is not in scope|has no `|was not admitted")
# What the front end says of a text that is no program: then no contract was tried.
NO_PROGRAM = re.compile(r"(?:\./)?\S+:\d+:\d+: error\[[\w-]+\]")
FAILURES = {
    "proved": "NOT REFUSED",
    "unnamed": "NOT JUDGED: a proof file names what the edit took away, so keep the names and change a value",
    "unjudged": "NOT JUDGED: a function that it calls is refused in its place",
    "untold": "NOT JUDGED: the check doesn't name its function",
}


@dataclass(frozen=True)
class Function:
    """A function of a crate, and a pattern for the names that `rt check` gives it and its closures."""

    name: str
    pattern: str


@dataclass
class Edit:
    """One edit: the texts to replace, each of which stands once in its file, and the function around the first."""

    label: str
    pairs: list[tuple[str, str, str]]
    function: Function | None = None


class CannotTry(Exception):
    """Why an edit, or a crate, can't be tried."""


def read_pairs(path):
    """Reads an edit: for each `old:` and `new:` line the file, what stands there once, and what is to stand there."""
    file, old, pairs = None, None, []
    for line in path.read_text(encoding="utf-8").split("\n"):
        if line.startswith("file: "):
            file = line.removeprefix("file: ").strip()
        elif line.startswith("old: "):
            old = line.removeprefix("old: ")
        elif line.startswith("new:"):
            if not file or not old:
                raise CannotTry("a line 'new:' without 'file:' and 'old:' before it")
            pairs.append((file, old, line.removeprefix("new:").removeprefix(" ")))
            old = None
    if not pairs:
        raise CannotTry("no lines 'old:' and 'new:'")
    return pairs


def owner_of(line):
    """Returns the type of an impl as `rt check` names it, with the trait behind it where there is one."""
    found = IMPL.match(line)
    if not found:
        return r"\w+"
    return found[2] if not found[1] else rf"{found[2]}{found[1]}\w*"


def header_at(lines, number):
    """Returns the header of the impl that begins in a line, of several lines made one."""
    end = next((it for it in range(number, len(lines)) if "{" in lines[it]), number)
    return " ".join(" ".join(lines[number : end + 1]).split())


def function_at(crate, file, text, offset):
    """Returns the function around a place of a source file, or None outside any.

    In `rt check` a method's name has the module of its type, which may be another than the file's, and a closure has a
    name of its own, behind `fn` and that of the function around it.
    """
    if not file.startswith("src/"):
        return None
    owner = name = indent = None
    lines = text[: text.find("\n", offset)].split("\n")
    for number, line in enumerate(lines):
        if line.startswith("impl"):
            owner = owner_of(header_at(lines, number))
        elif line == "}":
            owner = name = None
        elif name and line == f"{indent}}}":
            name = None
        if found := FUNCTION.match(line):
            indent, name = found[1], found[2]
    if name is None:
        return None
    modules = [it for it in Path(file).with_suffix("").parts[1:] if it not in ("lib", "main", "mod")]
    own = rf"(?:\w+::)*{owner}::{name}" if owner and indent else "::".join([*modules, name])
    closure = rf"(?:\w+::)*fn::(?:\w+::)?{name}::\S+"
    return Function(name, f"{crate}::(?:{own}|{closure})")


def apply(edit, texts, read):
    """Applies an edit to a crate's texts, or says which of its texts isn't there once and leaves them as they were."""
    changed = {}
    for file, old, new in edit.pairs:
        text = changed.get(file) or texts.get(file) or read(file)
        if text.count(old) != 1:
            raise CannotTry(f"an 'old:' text is in {file} {text.count(old)} times, and not once")
        changed[file] = text.replace(old, new)
    texts.update(changed)


def load(crate, with_gate, tell):
    """Returns a crate's edits that can be applied, and how many can't, which it tells."""
    folder, edits, bad = TOP / "crates" / crate, [], 0
    read = lambda file: (folder / file).read_text(encoding="utf-8")
    for kind in ("attacks", "must-fail") if with_gate else ("attacks",):
        for path in sorted((folder / kind).glob("*.edit")):
            label = f"{crate}/{path.stem}"
            try:
                edit = Edit(label, read_pairs(path))
                apply(edit, {}, read)
            except (CannotTry, OSError, UnicodeDecodeError) as why:
                tell(f"{label}: CANNOT BE APPLIED: {why}")
                bad += 1
                continue
            file, old, _ = edit.pairs[0]
            text = read(file)
            edit.function = function_at(crate, file, text, text.index(old))
            edits.append(edit)
    return edits, bad


def lines_of_list():
    """Returns each crate's line of crates.txt, by its name."""
    rows = [it.partition("#")[0].strip() for it in (TOP / "crates.txt").read_text().splitlines()]
    return {row.split()[0].rstrip(":"): row for row in rows if row}


def crates_below(name, lines):
    """Returns the repository's crates that a crate stands on, itself left out."""
    found = []
    for below in lines[name].partition(":")[2].split():
        if below in lines:
            found += [it for it in [*crates_below(below, lines), below] if it not in found]
    return found


def link_or_copy(source, target):
    try:
        os.link(source, target)
    except OSError:
        shutil.copy2(source, target)


def copy_parts(source, target, parts, how):
    for part in parts:
        if (source / part).is_dir():
            shutil.copytree(source / part, target / part, copy_function=how)


def copy_tree(crate, room):
    """Copies a crate with its kept work, and the built libraries below it, which no check changes, into a folder."""
    lines = lines_of_list()
    below = crates_below(crate, lines)
    (room / "crates.txt").write_text("".join(f"{lines[it]}\n" for it in [*below, crate]))
    if (TOP / "HANDLES").is_file():
        shutil.copy2(TOP / "HANDLES", room)
    for it in below:
        copy_parts(TOP / "crates" / it, room / "crates" / it, [*SOURCES, "out/rlib"], link_or_copy)
    copy_parts(TOP / "crates" / crate, room / "crates" / crate, [*SOURCES, "out/incremental"], shutil.copy2)
    return room / "crates" / crate


def check(folder):
    ran = subprocess.run([RT, "check"], cwd=folder, stdin=subprocess.DEVNULL, stdout=subprocess.PIPE,
                         stderr=subprocess.STDOUT, text=True, errors="replace")
    return ran.stdout.splitlines()


def is_judged(lines):
    return any(it.startswith(("logic=proved", "logic=not-proved")) for it in lines)


def why_not_judged(lines):
    told = [it for it in lines if re.search(r"error|stop|refus", it)] or lines[-1:] or ["it said nothing"]
    return told[0][:200]


def unread(lines, files):
    """Returns an error that says that an edited text can't be read or isn't a program, or an empty string.

    Types that don't fit, and borrows that break a rule, say nothing of a contract, and neither does a name out of scope.
    """
    for line in lines:
        if NO_PROGRAM.match(line):
            return line[:200]
        at = re.match(r"(?:\./)?(\S+?):\d+:\d+: error: (?:(`[^`]*`): )?(.*)", line)
        if at and at[1] in files and (not at[2] or re.search("is not in scope|has no field|is no name", at[3])):
            return line[:200]
    return ""


def state_of(edit, lines):
    """Returns what a check says of the function that an edit changes: refused, unnamed, unjudged, proved or untold."""
    if edit.function is None:
        return "refused" if any(it.startswith("logic=not-proved") for it in lines) else "proved"
    of_function = re.compile(rf"fn {edit.function.pattern}: (.*)")
    told = [found[1] for it in lines if (found := of_function.match(it))]
    if any(it.startswith("not proved") or it.startswith("no proof") and "it calls `" not in it for it in told):
        searched = any("did not prove" in it for it in told)
        return "unnamed" if only_by_names(edit, lines) and not searched else "refused"
    if any(it.startswith("no proof") for it in told):
        return "unjudged"
    return "proved" if told else "untold"


def only_by_names(edit, lines):
    """Tells whether each error in the function's proof is that it cites a name which the edit took away."""
    if edit.function is None:
        return False
    in_proof = re.compile(rf"(?:note: )?(?:\./)?proofs/\S*/\+?{edit.function.name}/\S+: error")
    errors = [it for it in lines if in_proof.match(it)]
    return bool(errors) and all(LOST_NAME.search(it) for it in errors)


def together(edits):
    """Takes the edits of one check: each in a function of its own; one outside any function is tried alone."""
    taken, functions = [], set()
    for edit in edits:
        if edit.function is None:
            if not taken:
                return [edit]
        elif edit.function not in functions:
            taken.append(edit)
            functions.add(edit.function)
    return taken


def try_together(edits, folder, crate, tell):
    """Tries edits in one check, tells each that is judged, and returns how many passed and failed, and the rest."""
    original = lambda file: (TOP / "crates" / crate / file).read_text(encoding="utf-8")
    texts, applied = {}, []
    for edit in edits:
        try:
            apply(edit, texts, original)
            applied.append(edit)
        except CannotTry:
            # It names a line that another edit of this check has changed.
            continue
    for file, text in texts.items():
        (folder / file).write_text(text, encoding="utf-8")
    lines = check(folder)
    for file in texts:
        (folder / file).write_text(original(file), encoding="utf-8")
    rest = [it for it in edits if it not in applied]
    alone = len(applied) == 1
    why = unread(lines, texts) or ("" if is_judged(lines) else why_not_judged(lines))
    if why and alone:
        tell(f"{applied[0].label}: CANNOT BE READ: {why}")
        return 0, 1, rest
    if why:
        # One of them spoils the check of all.
        done = [try_together([it], folder, crate, tell) for it in applied]
        return sum(it[0] for it in done), sum(it[1] for it in done), rest
    passed = failed = 0
    for edit in applied:
        state = state_of(edit, lines)
        if state == "unjudged" and not alone:
            rest.append(edit)
        elif state == "refused":
            tell(f"{edit.label}: refused")
            passed += 1
        else:
            tell(f"{edit.label}: {FAILURES[state]}")
            failed += 1
    return passed, failed, rest


def processor_seconds():
    used = resource.getrusage(resource.RUSAGE_CHILDREN)
    return used.ru_utime + used.ru_stime


def times():
    """Returns the processor seconds that each crate's edits took when they were last noted."""
    lines = [it for it in TIMES.read_text(encoding="utf-8").splitlines() if not it.startswith("#")]
    return {name: int(seconds) for name, seconds in map(str.split, lines)}


def note(taken):
    """Notes the processor seconds of some crates' edits beside those of the others."""
    with open(TIMES, "r+", encoding="utf-8") as file:
        fcntl.flock(file, fcntl.LOCK_EX)
        head = [it for it in file if it.startswith("#")]
        rows = sorted({**times(), **taken}.items())
        file.seek(0)
        file.writelines([*head, *(f"{name} {seconds:.0f}\n" for name, seconds in rows)])
        file.truncate()


def attack(crate, with_gate, tell):
    """Tries a crate's edits, and returns how many passed and how many failed."""
    edits, failed = load(crate, with_gate, tell)
    passed = 0
    if not edits:
        return passed, failed
    lines = check(TOP / "crates" / crate)
    if not any(it.startswith("logic=proved") for it in lines):
        tell(f"{crate}: NOT PROVED as it stands, so no edit was tried: {why_not_judged(lines)}")
        return passed, failed + len(edits)
    with tempfile.TemporaryDirectory(prefix="attacks-") as room:
        folder = copy_tree(crate, Path(room))
        while edits:
            group = together(edits)
            well, ill, rest = try_together(group, folder, crate, tell)
            passed, failed = passed + well, failed + ill
            edits = [it for it in edits if it not in group] + rest
    return passed, failed


def main(words):
    with_gate, is_noted = "--all" in words, "--note" in words
    names = [it for it in words if it not in ("--all", "--note")]
    lines = lines_of_list()
    if unknown := [it for it in names if it not in lines]:
        print(f"attacks: {unknown[0]} is no crate of crates.txt", file=sys.stderr)
        return 2
    tell = lambda text: print(text, flush=True)
    passed = failed = 0
    for crate in [it for it in lines if not names or it in names]:
        before = processor_seconds()
        well, ill = attack(crate, with_gate, tell)
        passed, failed = passed + well, failed + ill
        if is_noted and well + ill:
            note({crate: processor_seconds() - before})
    print(f"{passed} passed, {failed} failed")
    return 1 if failed else 0


if __name__ == "__main__":
    sys.exit(main(sys.argv[1:]))
