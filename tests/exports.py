#!/usr/bin/env python3
"""Exports snapshots by the built program: several as one text, what one has more than another, and as a compact matrix
in a folder.

    python3 tests/exports.py PATH-TO-HHM [DRAWS]

Differences are taken of 200 drawn books, or of DRAWS. What is wanted was worked out by hand from docs/FORMATS.md, or by
a loop over the cells with a dictionary. Each growth, each read, each write and each sync of a compact export is refused
in turn, by the library of tests/refuse.c. Where scipy or R are there, they read what was saved; what isn't there leaves
a line that says so. It prints a line for each case that fails and at the end `N passed, M failed`; the status is 1
where one fails. Linux, and nothing but Python's own library and, for the refusals, the toolchain's clang.
"""
import os
import random
import shutil
import subprocess
import sys
import tempfile
from concurrent.futures import ThreadPoolExecutor

HERE = os.path.dirname(os.path.abspath(__file__))
sys.path.insert(0, HERE)
from faults import bare  # noqa: E402
from program import BANNER, FAR, FIVE, MOST, NONE, ONE, SIZE, TWO, leave_room, snapshot  # noqa: E402
from refused import EIO, Refusing, build_library  # noqa: E402
from snap_bytes import BOOK, OWNED, UNKNOWN  # noqa: E402

WAIT = 120
NAMES = ("cols.txt", "matrix.mtx", "rows.txt")
PROGRAM = ""
FAILED, PASSED = [], []


def check(name, found, wanted):
    if found == wanted or bare(found) == wanted:
        PASSED.append(name)
        return
    FAILED.append(name)
    print(f"{name}: {str(found)[:300]} in place of {str(wanted)[:300]}")


def run(words, **how):
    """The output of the program, its error and its status."""
    ended = subprocess.run([PROGRAM, *words], capture_output=True, timeout=WAIT, **how)
    return ended.stdout.decode(), ended.stderr.decode(), ended.returncode


def told(fault, status):
    return "", f"hhm: {fault}\n", status


def kept(folder, name, held):
    """The path of a file of these bytes."""
    path = os.path.join(folder, name)
    with open(path, "wb") as file:
        file.write(held)
    return path


def held_in(path):
    with open(path, "rb") as file:
        return file.read()


def added(*lists):
    """The sum of lists of cells, by place."""
    counts = {}
    for cells in lists:
        for row, col, count in cells:
            counts[row, col] = counts.get((row, col), 0) + count
    return counts


def text_of(rows, cols, counts):
    lines = [f"{row + 1} {col + 1} {counts[row, col]}\n" for row, col in sorted(counts)]
    return f"{BANNER}{rows} {cols} {len(counts)}\n" + "".join(lines)


def compact_of(counts):
    """The files of a compact export of this sum."""
    rows, cols = (sorted({place[at] for place in counts}) for at in (0, 1))
    row_at, col_at = ({number: at for at, number in enumerate(labels)} for labels in (rows, cols))
    numbered = {(row_at[row], col_at[col]): count for (row, col), count in counts.items()}
    return {
        "rows.txt": "".join(f"{row}\n" for row in rows).encode(),
        "cols.txt": "".join(f"{col}\n" for col in cols).encode(),
        "matrix.mtx": text_of(max(len(rows), 1), max(len(cols), 1), numbered).encode(),
    }


def files_in(folder):
    """The files of a folder, and None where there is no folder."""
    if not os.path.isdir(folder):
        return None
    return {name: held_in(os.path.join(folder, name)) for name in sorted(os.listdir(folder))}


def drawn(seed, count, size, most=1000):
    """Batches of cells whose places come again."""
    dice = random.Random(seed)
    numbers = [dice.randrange(size) for _ in range(max(count // 5, 2))] + [0, size - 1]
    batches = []
    for number in range(4):
        cells = [(dice.choice(numbers), dice.choice(numbers), dice.randrange(most)) for _ in range(count)]
        counts = added(cells)
        batches.append((seed + 1, number, [(row, col, counts[row, col]) for row, col in sorted(counts)]))
    return batches


def drawn_snapshot(batches, size, version=4):
    total = sum(count for _, _, cells in batches for _, _, count in cells)
    past = None if version == 1 else NONE
    return snapshot(batches, total, size, size, limit=MOST, most=100, past=past, version=version)


def cells_of(batches):
    return [cell for _, _, cells in batches for cell in cells]


# ---- several as one text


def several_are_summed(folder):
    one, two = kept(folder, "one.snap", snapshot(ONE, 5)), kept(folder, "two.snap", snapshot(TWO, 12))
    folded = kept(folder, "folded.snap", snapshot([], 5, past=FIVE))
    empty = kept(folder, "empty.snap", snapshot([], 0))
    other = kept(folder, "other.snap", snapshot(ONE, 5, cuts=(), shards=1, limit=5, most=1))
    small = f"{BANNER}3 3 "
    for name, paths, text in [
        ("one alone", [two], f"{small}3\n1 1 8\n1 3 4\n3 2 0\n"),
        ("two", [one, two], f"{small}3\n1 1 13\n1 3 4\n3 2 0\n"),
        ("two in the other order", [two, one], f"{small}3\n1 1 13\n1 3 4\n3 2 0\n"),
        ("one three times", [one, one, one], f"{small}1\n1 1 15\n"),
        ("a folded one", [folded, one], f"{small}1\n1 1 10\n"),
        ("empty ones", [empty, empty], f"{small}0\n"),
        ("an empty one first", [empty, two], f"{small}3\n1 1 8\n1 3 4\n3 2 0\n"),
        ("other cuts, shards and limits", [one, other], f"{small}1\n1 1 10\n"),
    ]:
        check(f"several: {name}", run(["export", *paths]), (text, "", 0))


def drawn_ones_are_summed(folder):
    """Places up to 2^60 - 1, and files of each version."""
    for size, count in [(SIZE, 600), (1 << 32, 4000), (40, 300)]:
        lists = [drawn(seed, count, size) for seed in range(5)]
        paths = [
            kept(folder, f"drawn{at}.snap", drawn_snapshot(batches, size, version=at % 4 + 1))
            for at, batches in enumerate(lists)
        ]
        counts = added(*(cells_of(batches) for batches in lists))
        check(f"several: drawn, {size} rows", run(["export", *paths]), (text_of(size, size, counts), "", 0))
        saved = os.path.join(folder, f"drawn{size}")
        check(f"compact: drawn, {size} rows: told", run(["export", "--compact", saved, *paths]), ("", "", 0))
        check(f"compact: drawn, {size} rows", files_in(saved), compact_of(counts))


def totals_up_to_the_last(folder):
    """2^64 - 1 fits, and one more doesn't; told once all files were read."""
    wide = {"limit": MOST, "most": 10}
    most = kept(folder, "most.snap", snapshot([(1, 1, [(0, 0, MOST - 5)])], MOST - 5, **wide))
    one, five = kept(folder, "one.snap", snapshot([(7, 1, [(0, 1, 1)])], 1)), kept(folder, "five.snap", snapshot(ONE, 5))
    cut = kept(folder, "cut.snap", snapshot(ONE, 5)[:-1])
    text = f"{BANNER}3 3 1\n1 1 {MOST}\n"
    check("total: the most", run(["export", most, five]), (text, "", 0))
    for paths in [[most, five, one], [one, five, most], [most, most], [most, most, five]]:
        check(f"total: {len(paths)} files pass", run(["export", *paths]), told("sum: SumTooLarge", 3))
    check("total: a fault behind", run(["export", most, most, cut]), told(f"snapshot: Truncated in {cut}", 3))
    check("total: of one file", run(["export", most]), (f"{BANNER}3 3 1\n1 1 {MOST - 5}\n", "", 0))
    target = os.path.join(folder, "passed")
    check("total: compact", run(["export", "--compact", target, most, most]), told("sum: SumTooLarge", 3))
    check("total: nothing made", files_in(target), None)


def first_faults_are_told(folder):
    good = kept(folder, "good.snap", snapshot(ONE, 5))
    cut, no_mark = kept(folder, "cut.snap", snapshot(ONE, 5)[:-1]), kept(folder, "mark.snap", b"HHMSNAQ\n")
    wide = kept(folder, "wide.snap", snapshot([], 0, cols=4))
    tall = kept(folder, "tall.snap", snapshot([], 0, rows=4))
    none = os.path.join(folder, "none.snap")
    fifo = os.path.join(folder, "fifo")
    os.mkfifo(fifo)
    for paths, fault, status in [
        ([cut, none], f"snapshot: Truncated in {cut}", 3),
        ([none, cut], f"file: NotFound in {none}", 4),
        ([good, no_mark, cut], f"snapshot: BadMark in {no_mark}", 3),
        ([good, wide], f"snapshot: DimensionsDiffer in {wide}", 3),
        ([tall, good], f"snapshot: DimensionsDiffer in {good}", 3),
        ([good, tall, none], f"snapshot: DimensionsDiffer in {tall}", 3),
        ([good, none, tall], f"file: NotFound in {none}", 4),
        ([good, fifo], f"file: OpenFailed in {fifo}", 4),
        ([good, folder], f"snapshot: Read in {folder}", 4),
        ([none], "file: NotFound", 4),
        ([cut], "snapshot: Truncated", 3),
        ([folder], "snapshot: Read", 4),
    ]:
        check(f"fault: {fault}", run(["export", *paths]), told(fault, status))
        target = os.path.join(folder, "not_made")
        check(f"fault, compact: {fault}", run(["export", "--compact", target, *paths]), told(fault, status))
        check(f"fault, compact: nothing made: {fault}", files_in(target), None)


def words_are_refused(folder):
    one = kept(folder, "one.snap", snapshot(ONE, 5))
    for words in [[], ["--compact", folder], ["--compact"], ["--compact", "", one], [""], [one, ""], ["--other", one]]:
        output, error, status = run(["export", *words])
        check(f"words {words}", (output, error != "", status), ("", True, 2))


def outputs_that_fail(folder):
    """A front of the text, and how long it is."""
    lists = [drawn(seed, 400, 1 << 20) for seed in range(3)]
    paths = [kept(folder, f"{at}.snap", drawn_snapshot(batches, 1 << 20)) for at, batches in enumerate(lists)]
    text = text_of(1 << 20, 1 << 20, added(*(cells_of(batches) for batches in lists)))
    for room in (0, 50, 16_384, 20_000):
        with tempfile.TemporaryFile() as output:
            ended = subprocess.run([PROGRAM, "export", *paths], stdout=output, stderr=subprocess.PIPE, timeout=WAIT,
                                   preexec_fn=lambda room=room: leave_room(room))  # fmt: skip
            output.seek(0)
            found = output.read().decode(), ended.stderr.decode(), ended.returncode
        check(f"room for {room} bytes", found, (text[:room], f"hhm: output failed after {room} bytes\n", 4))


# ---- what one has more than another


FIRST, SECOND = (7, 1, [(0, 0, 5)]), (8, 1, [(0, 0, 3)])


def entry_of(batch):
    """What a folded batch leaves beside the base."""
    client, number, cells = batch
    return client, number, len(cells), sum(count for _, _, count in cells)


def folded_at(batches, at, **how):
    """A snapshot of these batches. Those before `at` are folded."""
    counts = added(cells_of(batches[:at]))
    past = [entry_of(batch) for batch in batches[:at]], [(*place, counts[place]) for place in sorted(counts)]
    return snapshot(batches[at:], sum(count for _, _, count in cells_of(batches)), past=past, **how)


def minus(new, old):
    return run(["export", new, "--minus", old])


def differences_are_written(folder):
    """Each in all pairs of folds. A count that both have is left out, and a zero that is new is not."""
    early = (7, 1, [(0, 0, 5), (2, 2, 4)])
    late = (8, 1, [(0, 0, 3), (0, 1, 0)])
    zero = (9, 1, [(0, 0, 0), (2, 2, 1)])
    for name, old, new, cells in [
        ("one batch more", [FIRST], [FIRST, SECOND], [(0, 0, 3)]),
        ("none more", [FIRST, SECOND], [FIRST, SECOND], []),
        ("a new zero", [early], [early, late], [(0, 0, 3), (0, 1, 0)]),
        ("a zero where there is a count", [early], [early, zero], [(2, 2, 1)]),
        ("all of it", [], [early, late], [(0, 0, 8), (0, 1, 0), (2, 2, 4)]),
        ("nothing of nothing", [], [], []),
        ("a zero is added to a zero", [late], [late, (9, 1, [(0, 1, 0), (1, 0, 2)])], [(1, 0, 2)]),
    ]:
        text = text_of(3, 3, added(cells))
        for old_at in range(len(old) + 1):
            for new_at in range(len(new) + 1):
                paths = kept(folder, "new", folded_at(new, new_at)), kept(folder, "old", folded_at(old, old_at))
                check(f"minus: {name}, {new_at} and {old_at} folded", minus(*paths), (text, "", 0))


def setups_may_differ(folder):
    """Cuts, shards, limits and versions: they are no part of a book."""
    new = kept(folder, "new", snapshot([FIRST, SECOND], 8, cuts=(), shards=7, limit=8, most=2))
    for version in range(1, 5):
        past = None if version == 1 else NONE
        old = kept(folder, f"old{version}", snapshot([FIRST], 5, past=past, version=version))
        check(f"minus: version {version}", minus(new, old), (text_of(3, 3, {(0, 0): 3}), "", 0))
    most = kept(folder, "most", snapshot([FIRST, (8, 1, [(1, 1, MOST - 5)])], MOST, limit=MOST))
    check("minus: the most", minus(most, old), (text_of(3, 3, {(1, 1): MOST - 5}), "", 0))
    far = [(7, 1, [(SIZE - 1, 0, 1), (SIZE - 1, SIZE - 1, 1)]), (8, 1, [(0, SIZE - 1, 2), (SIZE - 1, SIZE - 1, 4)])]
    paths = [kept(folder, f"far{n}", drawn_snapshot(far[:n], SIZE)) for n in (2, 1)]
    check("minus: far", minus(*paths), (text_of(SIZE, SIZE, {(0, SIZE - 1): 2, (SIZE - 1, SIZE - 1): 4}), "", 0))


def books_that_differ(folder):
    """Two known books, or two windows of one. What isn't known may be the same, and a log makes no difference."""
    other, window = OWNED._replace(book=BOOK + 1), OWNED._replace(window=5)
    high = OWNED._replace(book=BOOK ^ 1 << 127)
    logged = OWNED._replace(log=1)
    for name, new, old, is_other in [
        ("one book", OWNED, OWNED, False), ("one with a log", logged, OWNED, False),
        ("another book", OWNED, other, True), ("another first half", high, OWNED, True),
        ("a window", window, OWNED, True), ("two windows", window, window._replace(window=6), True),
        ("one window", window, window, False), ("an unknown one before", OWNED, UNKNOWN, False),
        ("an unknown one after", UNKNOWN, other, False), ("none known", UNKNOWN, UNKNOWN, False),
        ("an unknown one of a window", UNKNOWN._replace(window=5), OWNED, False),
    ]:  # fmt: skip
        paths = [
            kept(folder, "new", snapshot([FIRST, SECOND], 8, past=NONE, origin=new)),
            kept(folder, "old", snapshot([FIRST], 5, past=NONE, origin=old)),
        ]
        wanted = told("snapshot: OtherBook", 3) if is_other else (text_of(3, 3, {(0, 0): 3}), "", 0)
        check(f"minus: {name}", run(["export", paths[0], "--minus", paths[1], "--log", "-", "--log", "-"]), wanted)


def entries_that_are_no_front(folder):
    """The first index that differs, or the end of the later list."""
    more = [FIRST, SECOND, (9, 1, [(1, 1, 2)])]
    for name, new, old, at in [
        ("the other way round", more[:1], more[:2], 1), ("none against one", [], more[:1], 0),
        ("two less", more[:1], more, 1), ("another client", more, [(9, 1, FIRST[2])], 0),
        ("another number", more, [FIRST, (8, 2, SECOND[2])], 1),
        ("another total", more, [FIRST, (8, 1, [(0, 0, 4)])], 1),
        ("another count of cells", more, [FIRST, (8, 1, [(0, 0, 3), (0, 1, 0)])], 1),
        ("another order", more, [SECOND, FIRST], 0), ("the last one", more, [*more[:2], (9, 2, [(1, 1, 2)])], 2),
    ]:  # fmt: skip
        for old_at in range(len(old) + 1):
            for new_at in range(len(new) + 1):
                paths = kept(folder, "new", folded_at(new, new_at)), kept(folder, "old", folded_at(old, old_at))
                wanted = told(f"snapshot: NotBefore at batch {at}", 3)
                check(f"minus: {name}, {new_at} and {old_at} folded", minus(*paths), wanted)


def counts_that_fall(folder):
    """Two batches of one size under one name: the fault has the first place by row and then by column."""
    old = [(7, 1, [(0, 1, 8), (1, 1, 1)])]
    for name, cells, place in [
        ("a lower count", [(0, 1, 5), (1, 1, 4)], "row 0 col 1"), ("a later one", [(0, 1, 9), (1, 1, 0)], "row 1 col 1"),
        ("no entry", [(0, 1, 8), (2, 2, 1)], "row 1 col 1"), ("none at the end", [(0, 0, 1), (0, 1, 8)], "row 1 col 1"),
        ("two places", [(2, 1, 8), (2, 2, 1)], "row 0 col 1"), ("by row first", [(0, 2, 8), (1, 0, 1)], "row 0 col 1"),
    ]:  # fmt: skip
        new = [(7, 1, cells)]
        for behind in ([], [(8, 1, [(2, 0, 1)])]):
            paths = kept(folder, "new", folded_at(new + behind, 0)), kept(folder, "old", folded_at(old, 1))
            check(f"minus: {name}", minus(*paths), told(f"snapshot: Falls at {place}", 3))


def differences_in_order(folder):
    """Where there are two faults, the program reports the first in the order of docs/FORMATS.md."""
    def file(name, batches, **how):
        return kept(folder, name, folded_at(batches, 0, **how))

    good, cut = file("good", [FIRST]), kept(folder, "cut", folded_at([FIRST], 0)[:-1])
    none = os.path.join(folder, "none")
    lower = file("lower", [(7, 1, [(0, 1, 5)])])
    wide, other = file("wide", [SECOND], cols=4), OWNED._replace(book=3)
    for new, old, fault, status in [
        (none, cut, f"file: NotFound in {none}", 4), (cut, none, f"snapshot: Truncated in {cut}", 3),
        (good, none, f"file: NotFound in {none}", 4), (good, cut, f"snapshot: Truncated in {cut}", 3),
        (good, folder, f"snapshot: Read in {folder}", 4), (wide, good, "snapshot: DimensionsDiffer", 3),
        (file("tall", [FIRST], rows=4), good, "snapshot: DimensionsDiffer", 3),
        (file("book", [SECOND], cols=4, origin=OWNED), file("third", [FIRST], origin=other), "snapshot: OtherBook", 3),
        (file("after", [(7, 1, [(0, 1, 5)]), SECOND]), file("longer", [FIRST, FIRST[:1] + (2, [(1, 1, 1)])]),
         "snapshot: NotBefore at batch 1", 3), (lower, good, "snapshot: Falls at row 0 col 0", 3),
    ]:  # fmt: skip
        check(f"minus: first {fault}", minus(new, old), told(fault, status))
    for words in [[good, "--minus"], [good, "--minus", ""], ["--minus", good], [good, good, "--minus", good],
                  [good, "--minus", good, "--minus", good],
                  ["--compact", folder, good, good, "--minus", good]]:  # fmt: skip
        output, error, status = run(["export", *words])
        check(f"minus: words {words}", (output, error != "", status), ("", True, 2))
    new = file("new", [FIRST, SECOND])
    text = text_of(3, 3, {(0, 0): 3})
    for room in (0, 50):
        with tempfile.TemporaryFile() as output:
            ended = subprocess.run([PROGRAM, "export", new, "--minus", good], stdout=output, stderr=subprocess.PIPE,
                                   timeout=WAIT, preexec_fn=lambda room=room: leave_room(room))  # fmt: skip
            output.seek(0)
            found = output.read().decode(), ended.stderr.decode(), ended.returncode
        check(f"minus: room for {room} bytes", found, (text[:room], f"hhm: output failed after {room} bytes\n", 4))


def drawn_book(dice, size):
    """A book of some batches, and where the earlier file and the two folds end."""
    batches = []
    for number in range(dice.randrange(1, 9)):
        cells = [(dice.randrange(size), dice.randrange(size), dice.randrange(4)) for _ in range(dice.randrange(1, 30))]
        counts = added(cells)
        batches.append((dice.randrange(3), number, [(*place, counts[place]) for place in sorted(counts)]))
    at = dice.randrange(len(batches) + 1)
    return batches, at, dice.randrange(len(batches) + 1), dice.randrange(at + 1)


def wanted_difference(later, earlier):
    """What the sum of the later batches has more at each place, by a loop over dictionaries."""
    new, old = added(cells_of(later)), added(cells_of(earlier))
    more = {place: count - old.get(place, 0) for place, count in new.items()}
    return {place: count for place, count in more.items() if place not in old or count != 0}


def drawn_differences(folder):
    """Books with folds between the two files, and sums that add up to the later one's."""
    dice = random.Random(2026)
    wide = {"limit": MOST, "most": 100}
    for draw in range(int(sys.argv[2]) if len(sys.argv) > 2 else 200):
        size = dice.choice([3, 6, 1 << 32, SIZE])
        batches, at, new_at, old_at = drawn_book(dice, min(size, 6))
        wide |= {"rows": size, "cols": size}
        new = kept(folder, "new", folded_at(batches, new_at, **wide))
        old = kept(folder, "old", folded_at(batches[:at], old_at, **wide))
        more = wanted_difference(batches, batches[:at])
        check(f"minus: book {draw}", minus(new, old), (text_of(size, size, more), "", 0))
        saved = os.path.join(folder, f"more{draw}")
        check(f"minus: book {draw}, compact", run(["export", new, "--minus", old, "--compact", saved]), ("", "", 0))
        check(f"minus: book {draw}, its files", files_in(saved), compact_of(more))
        shutil.rmtree(saved)
        both = added(cells_of(batches[:at]), [(*place, count) for place, count in more.items()])
        check(f"minus: book {draw} adds up", both, added(cells_of(batches)))
        if at < len(batches):
            wanted = told(f"snapshot: NotBefore at batch {at}", 3)
            check(f"minus: book {draw} the other way round", minus(old, new), wanted)


# ---- a compact matrix


def worked_matrices(folder):
    """By hand: labels from 0, the matrix from 1."""
    two = kept(folder, "two.snap", snapshot(TWO, 12))
    far = kept(folder, "far.snap", snapshot(FAR, MOST, SIZE, SIZE, limit=MOST))
    empty = kept(folder, "empty.snap", snapshot([], 0))
    one = f"{SIZE - 1}\n".encode()
    for name, path, rows, cols, matrix in [
        ("three cells", two, b"0\n2\n", b"0\n1\n2\n", "2 3 3\n1 1 8\n1 3 4\n2 2 0\n"),
        ("the last place", far, one, one, f"1 1 1\n1 1 {MOST}\n"),
        ("no cell", empty, b"", b"", "1 1 0\n"),
    ]:
        target = os.path.join(folder, "made")
        check(f"compact: {name}: told", run(["export", "--compact", target, path]), ("", "", 0))
        wanted = {"cols.txt": cols, "matrix.mtx": (BANNER + matrix).encode(), "rows.txt": rows}
        check(f"compact: {name}", files_in(target), wanted)
        check(f"compact: {name}: mode", sorted(os.listdir(target)), sorted(NAMES))
        # The matrix is a canonical text: its own sum.
        text = held_in(os.path.join(target, "matrix.mtx")).decode()
        check(f"compact: {name}: summed", run(["sum", os.path.join(target, "matrix.mtx")]), (text, "", 0))
        check(f"compact: {name}: once more", run(["export", "--compact", target + "/", path]), ("", "", 0))
        check(f"compact: {name}: the same", files_in(target), wanted)


def other_files_stay(folder):
    one = kept(folder, "one.snap", snapshot(ONE, 5))
    target = os.path.join(folder, "used")
    os.mkdir(target)
    kept(target, "notes", b"mine")
    kept(target, "rows.txt", b"old")
    kept(target, "cols.txt.new", b"left")
    os.symlink(one, os.path.join(target, "matrix.mtx.new"))
    os.symlink("notes", os.path.join(target, "cols.txt"))
    check("others: told", run(["export", "--compact", target, one]), ("", "", 0))
    wanted = {**compact_of({(0, 0): 5}), "notes": b"mine"}
    check("others", files_in(target), dict(sorted(wanted.items())))
    check("others: a link's own file stays", held_in(one), snapshot(ONE, 5))
    linked = os.path.join(folder, "linked")
    os.symlink(target, linked)
    check("a link to a folder", run(["export", "--compact", linked, one]), ("", "", 0))


def folders_that_cant_be(folder):
    one = kept(folder, "one.snap", snapshot(ONE, 5))
    target = os.path.join(folder, "no", "dir")
    check("no parent", run(["export", "--compact", target, one]), told("file: Create", 4))
    check("a file in its place", run(["export", "--compact", one, one]), told("file: Create", 4))
    check("a file stays", held_in(one), snapshot(ONE, 5))
    for name in NAMES:
        target = os.path.join(folder, f"blocked_{name}")
        os.makedirs(os.path.join(target, name))
        check(f"{name} is a folder", run(["export", "--compact", target, one]), told("file: Rename", 4))
        check(f"{name} is a folder: nothing unfinished", [n for n in os.listdir(target) if n.endswith(".new")], [])
        target = os.path.join(folder, f"unfinished_{name}")
        os.makedirs(os.path.join(target, name + ".new"))
        check(f"{name}.new is a folder", run(["export", "--compact", target, one]), told("file: Create", 4))
        check(f"{name}.new is a folder: nothing else", os.listdir(target), [name + ".new"])


def a_full_disk(folder):
    """No file gets room for its bytes: what was there stays, and a folder that was made is gone."""
    paths = [kept(folder, "a.snap", drawn_snapshot(drawn(1, 900, 1 << 40), 1 << 40))]
    target = os.path.join(folder, "full")
    for room in (0, 100, 30_000):
        found = run(["export", "--compact", target, *paths], preexec_fn=lambda room=room: leave_room(room))
        check(f"room for {room} bytes, compact", found, told("file: Write", 4))
        check(f"room for {room} bytes, compact: nothing left", files_in(target), None)
    os.mkdir(target)
    for name in NAMES:
        kept(target, name, b"old " + name.encode())
    before = files_in(target)
    found = run(["export", "--compact", target, *paths], preexec_fn=lambda: leave_room(30_000))
    check("room for some bytes, over old files", found, told("file: Write", 4))
    check("old files stay", files_in(target), before)


def refused_calls(folder):
    """Each growth, each read, write and sync, and each sync of the folder refused in turn: the whole, or a fault behind
    which what was there stays."""
    build_library(folder)
    lists = [drawn(seed, 30, 1 << 30) for seed in range(2)]
    paths = [kept(folder, f"r{at}.snap", drawn_snapshot(batches, 1 << 30)) for at, batches in enumerate(lists)]
    new, old = compact_of(added(*(cells_of(batches) for batches in lists))), {name: b"old" for name in NAMES}
    reads = tuple(f"snapshot: Read in {path}" for path in paths)
    kinds = {
        ("growth", 0): ("memory",),
        ("fault", EIO): (*reads, "file: Write", "file: Sync"),
        ("names", EIO): ("file: Rename",),
    }

    def attempt(kind, error, at):
        target = os.path.join(folder, f"target_{kind}_{at}")
        os.mkdir(target)
        for name, held in old.items():
            kept(target, name, held)
        refusing = Refusing(kind, error, at)
        ended = subprocess.run([PROGRAM, "export", "--compact", target, *paths], capture_output=True, timeout=WAIT,
                               **refusing.how)  # fmt: skip
        met, found = refusing.was_met(), files_in(target)
        shutil.rmtree(target)
        return ended.stdout, bare(ended.stderr.decode()), ended.returncode, found, met

    for (kind, error), faults in kinds.items():
        at, wrong, met = 1, [], True
        told_of = set()
        with ThreadPoolExecutor(4) as pool:
            while met and at < 2_000:
                block = range(at, at + 16)
                for number, ended in zip(block, pool.map(lambda n: attempt(kind, error, n), block)):
                    output, line, status, found, met = ended
                    fault = line[5:-1]
                    if not met:
                        is_right = (output, line, status, found) == (b"", "", 0, new)
                    elif (output, line, status) == (b"", "", 0):
                        is_right = found == new
                    elif fault == "file: Rename":
                        # Those that were renamed are new, and the others as they were; nothing is left between.
                        is_right = kind != "growth" and set(found) == set(NAMES) and status == 4
                        is_right = is_right and all(found[name] in (old[name], new[name]) for name in NAMES)
                    else:
                        is_right = fault in faults and found == old and status == (5 if fault == "memory" else 4)
                    told_of.add(fault)
                    if not is_right:
                        wrong.append((number, fault, status))
                at += 16
        check(f"refused: {kind}", wrong, [])
        check(f"refused: {kind}: each is told", set(faults) - told_of, set())


def other_tools(folder):
    """scipy and R read what was saved, where they are there."""
    batches = drawn(9, 500, SIZE, most=1 << 30)
    counts = added(cells_of(batches))
    path, target = kept(folder, "tools.snap", drawn_snapshot(batches, SIZE)), os.path.join(folder, "tools")
    check("tools: told", run(["export", "--compact", target, path]), ("", "", 0))
    total = sum(counts.values())
    read = (
        "import sys, scipy.io\n"
        "m = scipy.io.mmread(sys.argv[1] + '/matrix.mtx').tocoo()\n"
        "rows, cols = ([int(line) for line in open(sys.argv[1] + name)] for name in ('/rows.txt', '/cols.txt'))\n"
        "assert m.shape == (len(rows), len(cols))\n"
        "for i, j, n in zip(m.row, m.col, m.data): print(rows[i], cols[j], int(n))\n"
    )
    python = next((p for p in (sys.executable, "/usr/bin/python3")
                   if subprocess.run([p, "-c", "import scipy.io"], capture_output=True).returncode == 0), None)  # fmt: skip
    if python is None:
        print("not tried: there is no scipy")
    else:
        ended = subprocess.run([python, "-c", read, target], capture_output=True, text=True, timeout=WAIT)
        lines = sorted(tuple(map(int, line.split())) for line in ended.stdout.splitlines())
        check("scipy", lines, sorted((row, col, count) for (row, col), count in counts.items()))
    if shutil.which("Rscript") is None:
        print("not tried: there is no R")
        return
    # By itself `cat` rounds to seven digits.
    code = (
        "library(Matrix); m <- readMM(paste0(commandArgs(TRUE)[1], '/matrix.mtx'))\n"
        "cat(dim(m), sprintf('%.0f', sum(m)))"
    )
    ended = subprocess.run(["Rscript", "-e", code, target], capture_output=True, text=True, timeout=WAIT)
    if ended.returncode != 0:
        print("not tried: R has no package Matrix")
        return
    rows, cols = (len({place[at] for place in counts}) for at in (0, 1))
    check("R", list(map(int, ended.stdout.split())), [rows, cols, total])


def main():
    global PROGRAM
    if len(sys.argv) not in (2, 3):
        sys.exit(__doc__)
    PROGRAM = os.path.abspath(sys.argv[1])
    for tried in [
        several_are_summed, drawn_ones_are_summed, totals_up_to_the_last, first_faults_are_told, words_are_refused,
        outputs_that_fail, differences_are_written, setups_may_differ, books_that_differ, entries_that_are_no_front,
        counts_that_fall, differences_in_order, drawn_differences, worked_matrices, other_files_stay,
        folders_that_cant_be, a_full_disk, refused_calls, other_tools,
    ]:  # fmt: skip
        with tempfile.TemporaryDirectory() as folder:
            tried(folder)
    print(f"{len(PASSED)} passed, {len(FAILED)} failed")
    return 1 if FAILED else 0


if __name__ == "__main__":
    sys.exit(main())
