#!/usr/bin/env python3
"""Asks the built program about snapshots: which rows and columns lead, what stands in a range, how many have how many
entries, whether a batch is in it; and several together. Compares what it writes with a plain model of their sum.

    python3 tests/questions.py PATH-TO-HHM [--seed N] [--rounds N]

The tables were worked out by hand. It prints a line for each case that fails and at the end `N passed, M failed`; the
status is 1 where one fails. Linux, and nothing but Python's own library.
"""
import argparse
import os
import random
import sys
import tempfile

from program import BANNER, MOST, NO_SNAPSHOTS, NONE, SIZE, SOME, Case, leave_room, run, snapshot

# Rows: 0 has 8 in two entries, 1 one entry of 0, 2 has 8 in three entries, 5 has 9 in one.
CELLS = [(0, 0, 5), (0, 2, 3), (1, 1, 0), (2, 0, 1), (2, 1, 6), (2, 5, 1), (5, 5, 9)]
HELD = snapshot([(7, 1, CELLS)], 25, rows=6, cols=6, past=NONE)

# Words behind the path, and what is written.
TABLE = [
    ("top", [], "5 1 9\n0 2 8\n2 3 8\n1 1 0\n"),
    ("top", ["--rows"], "5 1 9\n0 2 8\n2 3 8\n1 1 0\n"),
    ("top", ["--by", "total", "-n", "2"], "5 1 9\n0 2 8\n"),
    ("top", ["--by", "entries"], "2 3 8\n0 2 8\n1 1 0\n5 1 9\n"),
    ("top", ["--by", "entries", "-n", "3"], "2 3 8\n0 2 8\n1 1 0\n"),
    ("top", ["-n", "0"], ""),
    ("top", ["-n", "1"], "5 1 9\n"),
    ("top", ["-n", "4"], "5 1 9\n0 2 8\n2 3 8\n1 1 0\n"),
    ("top", ["-n", str(MOST)], "5 1 9\n0 2 8\n2 3 8\n1 1 0\n"),
    # Columns: 0 has 6 in two, 1 has 6 in two, 2 has 3 in one, 5 has 10 in two.
    ("top", ["--cols"], "5 2 10\n0 2 6\n1 2 6\n2 1 3\n"),
    ("top", ["--cols", "--by", "entries"], "0 2 6\n1 2 6\n5 2 10\n2 1 3\n"),
    ("top", ["--cols", "-n", "2"], "5 2 10\n0 2 6\n"),
    ("list", [], "6 6 7\n1 1 5\n1 3 3\n2 2 0\n3 1 1\n3 2 6\n3 6 1\n6 6 9\n"),
    ("list", ["--rows", "2-2"], "6 6 3\n3 1 1\n3 2 6\n3 6 1\n"),
    ("list", ["--cols", "5-5"], "6 6 2\n3 6 1\n6 6 9\n"),
    ("list", ["--rows", "0-2", "--cols", "1-2"], "6 6 3\n1 3 3\n2 2 0\n3 2 6\n"),
    ("list", ["--rows", "3-4"], "6 6 0\n"),
    ("list", ["--rows", f"5-{MOST}"], "6 6 1\n6 6 9\n"),
    ("list", ["--rows", "6-9"], "6 6 0\n"),
    ("degrees", [], "1 1 2\n2 3 2\n"),
    ("degrees", ["--rows"], "1 1 2\n2 3 2\n"),
    ("degrees", ["--cols"], "1 1 1\n2 3 3\n"),
]

BAD_NUMBERS = [
    ("top", ["-n", "x"]), ("top", ["-n", ""]), ("top", ["-n", str(MOST + 1)]),
    ("list", ["--rows", "5"]), ("list", ["--rows", "2-1"]), ("list", ["--rows", "-1"]), ("list", ["--rows", "1-"]),
    ("list", ["--cols", "1-2-3"]), ("list", ["--cols", f"0-{MOST + 1}"]), ("list", ["--cols", "a-b"]),
]  # fmt: skip

BAD_WORDS = [
    ("top", ["--rows", "--cols"]), ("top", ["--by", "row"]), ("top", ["-n"]), ("list", ["--by", "total"]),
    ("degrees", ["--rows", "--cols"]), ("degrees", ["-n", "3"]),
]  # fmt: skip

# A row of 1, 2, 3, 4, 7, 8 and 1,023 entries, and a column for each.
WIDE = [(row, col, 1) for row, width in enumerate([1, 2, 3, 4, 7, 8, 1_023]) for col in range(width)]


def tallies(cells, side):
    """The number, entries and total of each row, or column, that has an entry."""
    found = {}
    for row, col, count in cells:
        number = col if side == "--cols" else row
        entries, total = found.get(number, (0, 0))
        found[number] = (entries + 1, total + count)
    return [(number, entries, total) for number, (entries, total) in sorted(found.items())]


def top(cells, side, by, most):
    rows = sorted(tallies(cells, side), key=lambda it: (-it[2 if by == "total" else 1], it[0]))
    return "".join("%d %d %d\n" % it for it in rows[:most])


def degrees(cells, side):
    rows = [entries for _, entries, _ in tallies(cells, side)]
    lines, low = [], 1
    while low <= max(rows, default=0):
        here = sum(low <= entries <= 2 * low - 1 for entries in rows)
        if here:
            lines.append(f"{low} {2 * low - 1} {here}\n")
        low *= 2
    return "".join(lines)


def listed(cells, dims, rows, cols):
    kept = [it for it in cells if rows[0] <= it[0] <= rows[1] and cols[0] <= it[1] <= cols[1]]
    lines = "".join("%d %d %d\n" % (row + 1, col + 1, count) for row, col, count in kept)
    return f"{BANNER}{dims[0]} {dims[1]} {len(kept)}\n{lines}"


def summed(batches, base=()):
    """The cells of the sum of batches and a base, by row and then by column."""
    found = {}
    for row, col, count in [it for _, _, cells in batches for it in cells] + list(base):
        found[row, col] = found.get((row, col), 0) + count
    return [(row, col, count) for (row, col), count in sorted(found.items())]


class File:
    """A file in a folder, with these bytes."""

    def __init__(self, folder, name="file"):
        self.path = os.path.join(folder, name)

    def hold(self, held):
        with open(self.path, "wb") as file:
            file.write(held)


def tables(program, file):
    """What is asked of one snapshot, worked out by hand."""
    file.hold(HELD)
    for word, words, output in TABLE:
        output = BANNER + output if word == "list" else output
        yield f"{word} {' '.join(words)}", run(program, Case("", [word, *words, file.path], output=output))
    for word, words in BAD_NUMBERS:
        case = Case("", [word, *words, file.path], error="hhm: settings: BadNumber\n", status=2)
        if words[1].startswith("-"):
            case = case._replace(words=[word, f"{words[0]}={words[1]}", file.path])
        yield f"{word} {' '.join(words)}", run(program, case)
    for word, words in BAD_WORDS:
        yield f"{word} {' '.join(words)}", run(program, Case("", [word, *words, file.path], error=SOME, status=2))
    file.hold(snapshot([(1, 1, WIDE)], 1_048, rows=7, cols=2_000, limit=2_000, past=NONE))
    output = "1 1 1\n2 3 2\n4 7 2\n8 15 1\n512 1023 1\n"
    yield "degrees of wide rows", run(program, Case("", ["degrees", file.path], output=output))
    file.hold(snapshot([], 0, past=NONE))
    for word, output in [("top", ""), ("degrees", ""), ("list", BANNER + "3 3 0\n")]:
        yield f"{word} of nothing", run(program, Case("", [word, file.path], output=output))
    last = [(SIZE - 1, SIZE - 1, MOST)]
    file.hold(snapshot([(1, 1, last)], MOST, SIZE, SIZE, (), 64, MOST, past=NONE))
    for words, output in [
        (["top"], f"{SIZE - 1} 1 {MOST}\n"),
        (["top", "--cols"], f"{SIZE - 1} 1 {MOST}\n"),
        (["list", "--rows", f"{SIZE - 1}-{SIZE - 1}"], f"{BANNER}{SIZE} {SIZE} 1\n{SIZE} {SIZE} {MOST}\n"),
        (["list", "--rows", f"0-{SIZE - 2}"], f"{BANNER}{SIZE} {SIZE} 0\n"),
        (["degrees"], "1 1 1\n"),
    ]:
        yield f"{' '.join(words)} of the last place", run(program, Case("", [*words, file.path], output=output))


def faults(program, file):
    """Those of `check`, and outputs that don't take the answer."""
    for held, fault in NO_SNAPSHOTS:
        file.hold(held)
        for word in ("top", "list", "degrees"):
            case = Case("", [word, file.path], error=f"hhm: snapshot: {fault}\n", status=3)
            yield f"{word}: {fault}, {len(held)} bytes", run(program, case)
    for word in ("top", "list", "degrees"):
        for path, fault in [(file.path + ".none", "file: NotFound"), ("/dev/null", "file: OpenFailed")]:
            yield f"{word}: {fault}", run(program, Case("", [word, path], error=f"hhm: {fault}\n", status=4))
        file.hold(HELD)
        case = Case("", [word, file.path], error="hhm: output failed after 0 bytes\n", status=4)
        with tempfile.TemporaryFile() as output:
            yield f"{word} on a closed output", run(program, case, stdout=output, preexec_fn=lambda: os.close(1))
    output = "5 1 9\n0 2 8\n2 3 8\n1 1 0\n"
    case = Case("", ["top", file.path], output=output[:7], error="hhm: output failed after 7 bytes\n", status=4)
    with tempfile.TemporaryFile() as taken:
        yield "top with room for 7 bytes", run(program, case, stdout=taken, preexec_fn=lambda: leave_room(7))


def batches_of(random_of, dims, count):
    """Batches of random cells, some rows and columns of which come often, some counts of which are 0."""
    batches = []
    for number in range(count):
        places = set()
        for _ in range(random_of.choice([0, 1, 5, 60, 700])):
            spread = random_of.choice([3, 40, 2**20, SIZE])
            places.add(tuple(random_of.randrange(min(spread, dim)) for dim in dims))
        cells = [(row, col, random_of.choice([0, 1, 1, 2, 1_000_000])) for row, col in sorted(places)]
        batches.append((number % 3, number, cells))
    return batches


def random_span(random_of, cells, at, dim):
    """Bounds that are often the numbers of cells."""
    numbers = [it[at] for it in cells] + [0, dim - 1]
    first, last = sorted(random_of.choice(numbers) for _ in range(2))
    return first, min(last + random_of.choice([0, 0, 1]), MOST)


def rounds(program, file, seed, count):
    """Random snapshots, some of whose batches are folded."""
    random_of = random.Random(seed)
    for number in range(count):
        dims = [random_of.choice([1, 7, 300, 2**20, SIZE]) for _ in range(2)]
        batches = batches_of(random_of, dims, random_of.randrange(6))
        folded = batches[: random_of.randrange(len(batches) + 1)]
        entries = [(client, number, len(cells), sum(it[2] for it in cells)) for client, number, cells in folded]
        cells, total = summed(batches), sum(it[2] for _, _, held in batches for it in held)
        past = (entries, summed(folded))
        shards = random_of.choice([1, 2, 64])
        file.hold(snapshot(batches[len(folded):], total, *dims, (4, 60), shards, MOST, 1_000, past=past))
        asked = []
        for side in ("--rows", "--cols"):
            asked.append((["degrees", side], degrees(cells, side)))
            for by in ("total", "entries"):
                most = random_of.choice([0, 1, 2, 10, 1_000])
                asked.append((["top", side, "--by", by, "-n", str(most)], top(cells, side, by, most)))
        spans = [random_span(random_of, cells, at, dims[at]) for at in range(2)]
        words = ["--rows", "%d-%d" % spans[0], "--cols", "%d-%d" % spans[1]]
        asked.append((["list", *words], listed(cells, dims, *spans)))
        for words, output in asked:
            yield f"round {number}: {' '.join(words)}", run(program, Case("", [*words, file.path], output=output))


def entry_of(batch):
    """What a folded batch leaves beside the base."""
    client, number, cells = batch
    return client, number, len(cells), sum(count for _, _, count in cells)


def held_of(batches, folded, dims, shards=2):
    """A snapshot of these batches, the first of which are folded."""
    past = [entry_of(batch) for batch in batches[:folded]], summed(batches[:folded])
    total = sum(count for _, _, cells in batches for _, _, count in cells)
    return snapshot(batches[folded:], total, *dims, (4, 60), shards, MOST, 1_000, past=past)


def has(program, file):
    """Batches that are there, folded and not, and some that aren't."""
    batches = [(7, 1, [(0, 0, 5)]), (7, 3, [(0, 0, 1), (2, 1, 0)]), (MOST, 0, [(1, 1, 8)]), (0, MOST, [])]
    lines = ["index 0 cells 1 total 5\n", "index 1 cells 2 total 1\n", "index 2 cells 1 total 8\n",
             "index 3 cells 0 total 0\n"]  # fmt: skip
    for folded in range(5):
        file.hold(held_of(batches, folded, (3, 3)))
        for (client, number, _), line in zip(batches, lines):
            case = Case("", ["has", file.path, str(client), str(number)], output=line)
            yield f"has {client} {number}, {folded} folded", run(program, case)
        for client, number in [(7, 2), (1, 7), (3, 7), (7, 0), (0, 0), (MOST, MOST), (8, 1)]:
            case = Case("", ["has", file.path, str(client), str(number)], output="none\n", status=1)
            yield f"has no {client} {number}, {folded} folded", run(program, case)
    yield "has, zeros", run(program, Case("", ["has", file.path, "007", "0001"], output=lines[0]))
    for words in [["x", "1"], ["7", "y"], ["7", ""], ["", "1"], [str(MOST + 1), "1"], ["7", "1.0"]]:
        case = Case("", ["has", file.path + ".none", *words], error="hhm: settings: BadNumber\n", status=2)
        yield f"has {words}", run(program, case)
    for words in [["7"], [], ["7", "1", "2"], ["--log", "x", "7", "1"]]:
        yield f"has {words}", run(program, Case("", ["has", file.path, *words], error=SOME, status=2))
    for path, fault in [(file.path + ".none", "file: NotFound"), ("/dev/null", "file: OpenFailed")]:
        yield f"has: {fault}", run(program, Case("", ["has", path, "7", "1"], error=f"hhm: {fault}\n", status=4))
    for number, kept in [("1", "index"), ("2", "none\n")]:
        error = f"hhm: output failed after {len(kept)} bytes\n"
        case = Case("", ["has", file.path, "7", number], output=kept, error=error, status=4)
        if number == "2":
            case = case._replace(output="none", error="hhm: output failed after 4 bytes\n")
        with tempfile.TemporaryFile() as taken:
            how = {"stdout": taken, "preexec_fn": lambda room=len(case.output): leave_room(room)}
            yield f"has, room for {len(case.output)} bytes", run(program, case, **how)
    for held, fault in NO_SNAPSHOTS:
        file.hold(held)
        case = Case("", ["has", file.path, "7", "1"], error=f"hhm: snapshot: {fault}\n", status=3)
        yield f"has: {fault}, {len(held)} bytes", run(program, case)


def spans(program, file, other):
    """Two files that are asked together, worked out by hand, and their faults."""
    file.hold(held_of([(7, 1, [(0, 0, 5)])], 0, (3, 3), shards=4))
    other.hold(held_of([(7, 1, [(0, 0, 3)])], 1, (3, 3)))
    both = [file.path, other.path]
    for words, output in [
        (["check", *both], "rows 3 cols 3 shards 4 batches 2 total 8 entries 1\n"),
        (["check", *both[::-1]], "rows 3 cols 3 shards 2 batches 2 total 8 entries 1\n"),
        (["check", *both, file.path], "rows 3 cols 3 shards 4 batches 3 total 13 entries 1\n"),
        (["top", *both], "0 1 8\n"),
        (["top", "--cols", "-n", "1", *both], "0 1 8\n"),
        (["top", "-n", "0", *both], ""),
        (["list", *both], BANNER + "3 3 1\n1 1 8\n"),
        (["list", "--rows", "1-2", *both], BANNER + "3 3 0\n"),
        (["degrees", *both], "1 1 1\n"),
        (["degrees", "--cols", file.path, *both], "1 1 1\n"),
    ]:
        yield f"together: {words[:-2]}", run(program, Case("", words, output=output))
    for word in ("check", "top", "list", "degrees"):
        none = file.path + ".none"
        case = Case("", [word, file.path, none], error=f"hhm: file: NotFound in {none}\n", status=4)
        yield f"together: {word} of none", run(program, case)
        case = Case("", [word, file.path, "/dev/null"], error="hhm: file: OpenFailed in /dev/null\n", status=4)
        yield f"together: {word} of a device", run(program, case)
        case = Case("", [word, *both], error="hhm: output failed after 0 bytes\n", status=4)
        with tempfile.TemporaryFile() as output:
            wrong = run(program, case, stdout=output, preexec_fn=lambda: os.close(1))
            yield f"together: {word} on a closed output", wrong
    case = Case("", ["check", "--log", "none", *both], error=SOME, status=2)
    yield "together: check with a log", run(program, case)
    case = Case("", ["top", "-n", "x", file.path, file.path + ".none"], error="hhm: settings: BadNumber\n", status=2)
    yield "together: top of no number", run(program, case)
    held = held_of([(7, 1, [(0, 0, 5)])], 0, (3, 4)), held_of([], 0, (4, 3)), held_of([], 0, (3, 3))[:-1]
    faults = "DimensionsDiffer", "DimensionsDiffer", "Truncated"
    for bytes_held, fault in zip(held, faults):
        other.hold(bytes_held)
        for word in ("check", "top", "list", "degrees"):
            error = f"hhm: snapshot: {fault} in {other.path}\n"
            yield f"together: {word}, {fault}", run(program, Case("", [word, *both], error=error, status=3))
    other.hold(held_of([(1, 1, [(2, 2, MOST - 4)])], 0, (3, 3)))
    for word in ("check", "top", "list", "degrees"):
        case = Case("", [word, *both], error="hhm: sum: SumTooLarge\n", status=3)
        yield f"together: {word}, too large", run(program, case)
    file.hold(held_of([(7, 1, [(0, 0, 4)])], 0, (3, 3)))
    case = Case("", ["check", *both], output=f"rows 3 cols 3 shards 2 batches 2 total {MOST} entries 2\n")
    yield "together: the highest total", run(program, case)


def rounds_together(program, folder, seed, count):
    """Random snapshots of one size, asked together, and for their batches one by one."""
    random_of = random.Random(seed)
    for number in range(count):
        dims = [random_of.choice([1, 7, 300, 2**20, SIZE]) for _ in range(2)]
        files, cells, batches, first = [], [], 0, random_of.choice([1, 2, 64])
        for at in range(random_of.choice([2, 2, 3, 5])):
            held = batches_of(random_of, dims, random_of.randrange(5))
            file = File(folder, f"part{at}")
            file.hold(held_of(held, random_of.randrange(len(held) + 1), dims, first if at == 0 else 3))
            files.append(file.path)
            cells, batches = summed(held, cells), batches + len(held)
            for index, batch in enumerate(held):
                line = "index %d cells %d total %d\n" % (index, *entry_of(batch)[2:])
                words = ["has", file.path, *map(str, batch[:2])]
                yield f"round {number}: {' '.join(words)}", run(program, Case("", words, output=line))
            words = ["has", file.path, "5", "5"]
            yield f"round {number}: has none", run(program, Case("", words, output="none\n", status=1))
        total = sum(it[2] for it in cells)
        line = "rows %d cols %d shards %d batches %d total %d entries %d\n"
        asked = [(["check"], line % (*dims, first, batches, total, len(cells)))]
        for side in ("--rows", "--cols"):
            asked.append((["degrees", side], degrees(cells, side)))
            most = random_of.choice([0, 1, 2, 10, 1_000])
            by = random_of.choice(["total", "entries"])
            asked.append((["top", side, "--by", by, "-n", str(most)], top(cells, side, by, most)))
        bounds = [random_span(random_of, cells, at, dims[at]) for at in range(2)]
        words = ["--rows", "%d-%d" % bounds[0], "--cols", "%d-%d" % bounds[1]]
        asked.append((["list", *words], listed(cells, dims, *bounds)))
        for words, output in asked:
            case = Case("", [*words, *files], output=output)
            yield f"round {number} of {len(files)}: {' '.join(words)}", run(program, case)


def main():
    parser = argparse.ArgumentParser()
    parser.add_argument("program")
    parser.add_argument("--seed", type=int, default=57)
    parser.add_argument("--rounds", type=int, default=40)
    given = parser.parse_args()
    passed = failed = 0
    with tempfile.TemporaryDirectory() as folder:
        file = File(folder)
        cases = [
            tables(given.program, file), faults(given.program, file), has(given.program, file),
            spans(given.program, file, File(folder, "other")),
            rounds_together(given.program, folder, given.seed, given.rounds),
        ]  # fmt: skip
        for name, wrong in [it for group in cases for it in group] + list(
            rounds(given.program, file, given.seed, given.rounds)
        ):
            if wrong:
                print(f"FAILED {name}: {'; '.join(wrong)}")
            passed, failed = passed + (not wrong), failed + bool(wrong)
    print(f"{passed} passed, {failed} failed")
    return 1 if failed else 0


if __name__ == "__main__":
    sys.exit(main())
