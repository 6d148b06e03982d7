"""The setups of servers that tests/log_torture.py starts: what their files say, what a start is given, and which files
it may leave where it is killed. And files of older versions that stories begin with.

For the script beside it. All of it comes from docs/FORMATS.md, by snap_bytes.py and log_bytes.py, and nothing from the
program.
"""
import os
from pathlib import Path
from typing import NamedTuple, Optional

import log_bytes
import snap_bytes
from given import new_setup, steps
from log_bytes import PAGE, Log, LogFault, Setup, entry_of
from snap_bytes import MOST, UNKNOWN, FirstFault, Origin, Snapshot
from torture_book import MOST_ROWS, Wrong, cells_of, demand

CUTS = [(64, 4096), (64, 4096), (), (1,), (2, 3, 5), (4096, 65536, 1048576), (7, 77, 777, 7777)]
SIZES = [(1000, 1000), (1000, 1000), (3, 3), (40, 9000), (2**33, 5)]
MOST_BATCHES = 2**30
# The client of the batches of old files, which puts nothing later.
OLD_CLIENT = 50


class Head(NamedTuple):
    """What the head of a file says."""

    setup: Setup
    origin: Origin


class Heads(NamedTuple):
    """The heads of a snapshot and of a log, each of which is there or not."""

    snap: Optional[Head]
    log: Optional[Head]

    def setups(self):
        return self.snap and self.snap.setup, self.log and self.log.setup

    def files(self):
        """The setup that a start without numbers takes."""
        return next((setup for setup in self.setups() if setup), None)

    def book(self):
        """The book that the files say, or None."""
        return next((head.origin.book for head in self if head and head.origin.book), None)


class SnapHead(Snapshot):
    """The head of a snapshot, whatever comes after it."""

    def __init__(self, held):
        self.held, self.at, self.fields, self.checked, self.value = held, 0, [], 0, 0
        self.head()
        self.check()

    def read(self):
        found = {}
        for name, place in self.fields:
            found.setdefault(name, []).append(int.from_bytes(self.held[place.start : place.stop], "big"))
        numbers = (found[name][0] for name in ("shards", "limit", "most"))
        return Head(Setup(self.rows, self.cols, tuple(found.get("cut", ())), *numbers), self.origin)


def front_of(path):
    """The first page of a file, None where there is no file."""
    if not os.path.exists(path):
        return None
    with open(path, "rb") as file:
        return file.read(PAGE)


def heads_in(folder, room):
    """What the files of a server say that are in this folder under their names."""
    snap, logged = (front_of(os.path.join(folder, os.path.basename(path))) for path in (room.snap, room.log))
    try:
        log = None if logged is None else Log(logged)
        return Heads(None if snap is None else SnapHead(snap).read(), log and Head(log.setup, log.origin))
    except (FirstFault, LogFault) as fault:
        raise Wrong(f"a head: {fault}") from fault


def entries_in(folder, room):
    """Client, number, cells and total of each batch that the files of a server have which are in this folder, by its
    place; their heads belong together."""
    snap, logged = (Path(folder, os.path.basename(path)) for path in (room.snap, room.log))
    try:
        known = Snapshot(snap.read_bytes()).entries if snap.exists() else []
        log = Log(logged.read_bytes()) if logged.exists() else None
    except (FirstFault, LogFault) as fault:
        raise Wrong(f"a file: {fault}") from fault
    return known + [entry_of(batch) for batch in log.all_batches()[len(known) - log.first :]] if log else known


class Start(NamedTuple):
    """A start: the heads of its files before it, the numbers that it is given, and whether its log ends before its
    snapshot does, as a save from a failed log leaves it."""

    before: Heads
    given: dict
    is_short: bool = False

    def last(self):
        """The setup of the server that listens."""
        files = self.before.files()
        return files._replace(**self.given) if files else new_setup(**{"given": {}, **parts_of(self.given)})

    def changes(self):
        """Whether it is given other numbers than its files have."""
        return self.before.files() not in (None, self.last())

    def pairs(self):
        """The setups of snapshot and log that it may leave: old and old, and for each of its steps new and old, new and
        new. Where there is no log, or it ends before the snapshot, that is begun first."""
        snap, log = self.before.setups()
        _, first, last = steps(self.before.files() or self.last(), self.given)
        begun = (snap, first) if log is None or self.is_short else (first, log)
        return {(snap, log), begun, (first, first), (last, first), (last, last)}


def parts_of(given):
    """Rows, columns, and the other numbers."""
    others = {name: value for name, value in given.items() if name not in ("rows", "cols")}
    return {"rows": given["rows"], "cols": given["cols"], "given": others}


def draw_size(draw, number):
    """More rows or columns than so many, or as many."""
    by = draw.choice([0, 1, 1, draw.randint(2, 100), number, number, 999 * number, MOST_ROWS if number > 2**30 else 1])
    return min(number + by, MOST_ROWS)


def draw_room(draw, least, wide, most):
    """A limit, or most batches: at least what is there, and often enough that nothing more is refused."""
    by = draw.choice([0, draw.randint(0, 20), draw.randint(0, 3000), *[wide] * 12, *[most] * 8])
    return max(1, min(least + by, most))


def draw_number(draw, name, files, sent):
    """A number that fits, by its name: what is given, where the files say others and so much was sent."""
    if name in ("rows", "cols"):
        return draw_size(draw, getattr(files, name))
    if name == "limit":
        return draw_room(draw, sent[1], 10**12, MOST)
    if name == "most":
        return draw_room(draw, sent[0], 1_000_000, MOST_BATCHES)
    return draw.choice(CUTS) if name == "cuts" else draw.choice([1, 2, 3, 3, 7, 64])


def draw_given(draw, heads, sent, again):
    """What a start is given: nothing, all numbers that the files have, some others, those of the start before it, or
    what the log says where the snapshot says others."""
    files, log = heads.files(), heads.setups()[1]
    if files is None:
        rows, cols = draw.choice(SIZES)
        others = {name: draw_number(draw, name, None, sent) for name in ("cuts", "shards", "limit", "most")}
        return {"rows": rows, "cols": cols, **{name: it for name, it in others.items() if draw.random() < 0.7}}
    fits = {name: it for name, it in again.items() if name not in ("rows", "cols") or it >= getattr(files, name)}
    hows = ["none", "none", "same", "again", "old", "sizes", "some", "some", "some"]
    how = draw.choice(hows if log in (None, files) else ["none", "again", "old", "old", "sizes", "some"])
    if how == "again":
        return {name: it for name, it in fits.items() if is_room(name, it, sent)}
    if how == "old" and log:
        old = {name: getattr(log, name) for name in ("cuts", "shards", "limit", "most")}
        return {name: it for name, it in old.items() if is_room(name, it, sent)}
    if how == "sizes":
        return {name: draw_number(draw, name, files, sent) for name in ("rows", "cols")}
    if how == "some":
        return {name: draw_number(draw, name, files, sent) for name in Setup._fields if draw.random() < 0.5}
    is_tight = files.limit < sent[1] + 1000 or files.most < sent[0] + 100
    if is_tight and draw.random() < 0.7:
        return {"limit": MOST, "most": draw.choice([1_000_000, MOST_BATCHES])}
    return files._asdict() if how == "same" else {}


def is_room(name, value, sent):
    """Whether a limit or most batches have room for all that was sent."""
    return value >= {"most": sent[0], "limit": sent[1]}.get(name, 0) if isinstance(value, int) else True


def misfit_of(draw, heads, accepted):
    """Numbers of which one is too small for what was accepted, or None where there is none."""
    files, (count, total) = heads.files(), accepted
    small = {"rows": files.rows - 1, "cols": files.cols - 1, "limit": total - 1, "most": count - 1}
    names = [name for name, number in small.items() if number > 0]
    if not names:
        return None
    name = draw.choice(names)
    others = {it: draw_number(draw, it, files, accepted) for it in Setup._fields if draw.random() < 0.3}
    return {**others, name: draw.randint(max(1, small[name] - 3), small[name])}


class OldFiles(NamedTuple):
    """Files of an older version that a story begins with: how many batches both have, how many of these are folded and
    in the snapshot, and from which one on the log has them. A file that isn't there has None."""

    setup: Setup
    count: int
    folded: int
    saved: Optional[int]
    first: Optional[int]
    version: int
    is_torn: bool

    def cells(self, number):
        return sorted(cells_of((OLD_CLIENT, number), (self.setup.rows, self.setup.cols)))

    def batches(self, begin, end):
        return [(OLD_CLIENT, number, self.cells(number)) for number in range(begin, end)]

    def snapshot(self):
        """The bytes of the snapshot: of version 4 without an identity, or of an older one."""
        folded, rest = self.batches(0, self.folded), self.batches(self.folded, self.saved)
        sums = {}
        for row, col, count in (cell for batch in folded for cell in batch[2]):
            sums[row, col] = sums.get((row, col), 0) + count
        past = [entry_of(it) for it in folded], [(*place, count) for place, count in sorted(sums.items())]
        total = sum(entry_of(batch)[3] for batch in folded + rest)
        past = None if self.version == 1 else past
        return snap_bytes.snapshot(rest, total, *self.setup, past=past, version=self.version, origin=UNKNOWN)

    def log(self):
        """The bytes of the log: of version 1, or of version 2 without an identity."""
        before = [entry_of(it) for it in self.batches(0, self.first)]
        blocks = [self.batches(at, min(at + 3, self.count)) for at in range(self.first, self.count, 3)]
        held = log_bytes.log(blocks, before, self.setup, UNKNOWN if self.version == 4 else None)
        return held + (log_bytes.block(self.count, [(OLD_CLIENT, 999, [(0, 0, 1)])])[:60] if self.is_torn else b"")

    def write(self, room):
        for path, place, spell in ((room.snap, self.saved, self.snapshot), (room.log, self.first, self.log)):
            if place is not None:
                Path(path).write_bytes(spell())

    def fill(self, book):
        """All batches are accepted, as if clients had put them."""
        total, book.setup = 0, self.setup
        for number in range(self.count):
            pair = OLD_CLIENT, number
            book.sends(pair)
            total += book.totals[pair]
            book.answers(pair, number, total)


def draw_old_files(draw):
    """Files of an older version, or None, as in half of the stories."""
    kind = draw.choice([None, None, None, "snap", "log", "both"])
    if kind is None:
        return None
    version = draw.choice([1, 2, 3, 4])
    count = draw.choice([0, 1, draw.randint(2, 30), draw.randint(2, 30)])
    saved = {"snap": count, "log": None}.get(kind, draw.randint(0, count))
    folded = draw.choice([0, draw.randint(0, saved)]) if saved and version > 1 else 0
    first = {"snap": None, "log": 0}.get(kind, draw.randint(0, saved or 0))
    rows, cols = draw.choice(SIZES)
    total = sum(count for number in range(count) for _, _, count in cells_of((OLD_CLIENT, number), (rows, cols)))
    setup = Setup(rows, cols, draw.choice(CUTS), draw.choice([1, 3, 64]), draw_room(draw, total, 10**12, MOST),
                  draw_room(draw, count, 100_000, 1_000_000))  # fmt: skip
    return OldFiles(setup, count, folded, saved, first, version, first is not None and draw.random() < 0.4)


def judge_heads(heads, pairs, book, moment):
    """The files have one of these pairs of setups and one book at most; and a snapshot that needs its log has one."""
    demand(heads.setups() in pairs, f"{moment}: the files say {heads.setups()}, and not one of {pairs}")
    known = {head.origin.book for head in heads if head and head.origin.book}
    demand(known <= ({book} if book else known) and len(known) <= 1, f"{moment}: books {known}, and not {book}")
    demand(not heads.snap or not heads.snap.origin.log or heads.log, f"{moment}: a snapshot without its log")
