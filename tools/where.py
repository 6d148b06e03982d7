#!/usr/bin/env python3
"""Where a function, a type or a word of specs/ lives: its source, its proof, its wrong bodies, its tests.

Run it anywhere in the repository: tools/where.py NAME [CRATE]. NAME may have a path before it, of which the last part
counts: `Layers::plan` finds each `plan`.
"""
import re
import sys
from pathlib import Path

CRATES = Path(__file__).resolve().parent.parent / "crates"
MAX_ROWS = 15


def lines_of(pattern):
    """Yields each line of the files that the pattern names, with its place below crates/."""
    for path in sorted(CRATES.glob(pattern)):
        for number, line in enumerate(path.read_text(encoding="utf-8").splitlines(), 1):
            yield path.relative_to(CRATES), number, line


def files_with(word, pattern):
    files = [it for it in sorted(CRATES.glob(pattern)) if word.search(it.read_text(encoding="utf-8"))]
    return [str(it.relative_to(CRATES)) for it in files]


def find_in_code(name, word, crate):
    """Returns where the sources define the name, where other code names it, and where tests do."""
    defines = re.compile(rf"\b(?:fn|struct|enum|trait|const|type) {re.escape(name)}\b")
    defined, named, tested = [], [], []
    for path, number, line in lines_of(f"{crate}/src/**/*.rt"):
        if defines.search(line):
            defined.append(f"{path}:{number}: {line.strip()}")
        elif word.search(line) and not line.lstrip().startswith(("//", "use ", "ghost use")):
            is_test = path.parts[0].endswith("_tests") or "tests" in path.name
            (tested if is_test else named).append(f"{path}:{number}")
    return defined, named, tested


def find_in_specs(name, crate):
    head = re.compile(rf"(?:(?:pub|unfoldable|abbrev) )*(?:{re.escape(name)} :|(?:record|data) {re.escape(name)}\b)")
    rows = lines_of(f"{crate}/specs/**/*.antt")
    return [f"{path}:{number}: {line.strip()}" for path, number, line in rows if head.match(line)]


def find_proofs(name, crate):
    """Returns the files of the proofs of functions of this name; a `+` marks one that calls itself."""
    files = sorted(CRATES.glob(f"{crate}/proofs/**/*.antt"))
    return [str(it.relative_to(CRATES)) for it in files if {name, f"+{name}"} & {*it.parent.parts}]


def show(label, rows):
    if rows:
        print(f"{label}:")
    for row in rows[:MAX_ROWS]:
        print(f"  {row[:120]}")
    if len(rows) > MAX_ROWS:
        print(f"  and {len(rows) - MAX_ROWS} more")


def main(words):
    if len(words) not in (1, 2):
        print(__doc__.strip())
        return 2
    name, crate = words[0].split("::")[-1], words[1] if len(words) == 2 else "*"
    word = re.compile(rf"(?<![\w-]){re.escape(name)}(?![\w-])")
    defined, named, tested = find_in_code(name, word, crate)
    defined += find_in_specs(name, crate)
    proofs = find_proofs(name, crate)
    show("defined", defined)
    show("proof", proofs)
    show("named by proofs", [it for it in files_with(word, f"{crate}/proofs/**/*.antt") if it not in proofs])
    show("named by code", named)
    show("wrong bodies", [*files_with(word, f"{crate}/must-fail/*.edit"), *files_with(word, f"{crate}/attacks/*.edit")])
    show("tests", tested)
    if not defined:
        print(f"no function, type or word named {name}")
    return 0 if defined else 1


if __name__ == "__main__":
    sys.exit(main(sys.argv[1:]))
