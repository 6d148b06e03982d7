#!/usr/bin/env python3
"""Starts the built program on files with other numbers than theirs, and compares the setup, the files and the replies.

    python3 tests/growing.py PATH-TO-HHM

Each number of a setup is given larger, smaller or not at all, on a snapshot, on a log and on both: what fits is the
setup of the server and of its files before it listens, with all batches as they were; what doesn't fit is refused, and
the files stay. What is wanted was worked out by hand from docs/FORMATS.md, and the bytes are those of snap_bytes.py and
log_bytes.py. Kills, failures and losses of power at each call of a start that grows come from lose_power.c and
disks.py. It prints a line for each check that fails and at the end `N passed, M failed`; the status is 1 where one
fails. Linux, Python's own library and the toolchain of Rattle.
"""
import os
import random
import re
import signal
import struct
import sys
from typing import NamedTuple, Optional

import log_bytes
import server
from disks import BEGUN, CLOSES, DIE_BEFORE, FAIL, OPENS, READS, RENAMES, SENDS, WRITES, Disk, Room, records_of
from given import DEFAULTS, new_setup, steps, words_of
from identity import BOTH, LOG, REFUSALS, SNAP, Broken, Files, book_of, held_in, told_lines, total_of
from log_bytes import SMALL, Log, Setup, entry_of, log
from refused import library_of
from server import accepted, check, put_frame, refused
from server_faults import SAVE, STATUS, STOP, STOPPING, asked, counts, in_folder, write
from server_log import FIVE, hhm, kill, run_each, saved, stopped
from snap_bytes import BANNER, OWNED, PAIRED, UNKNOWN, Origin, Snapshot, snapshot

# A book of three batches, the last of which has the last place of three rows and columns: 5, 3 and 2.
LAST, EMPTY = (8, 1, [(0, 1, 1), (2, 2, 2)]), (9, 1, [(1, 0, 2)])
ALL = [FIVE, LAST, EMPTY]
# The batches that a snapshot has where the log goes on behind it.
SAVED = ALL[:2]
EXPORT = struct.pack(">IB", 0, 5)


def snap_of(batches, setup=SMALL, origin=OWNED, version=4, folded=()):
    """A snapshot of a setup. The first batches may be folded: their cells are added up."""
    sums = {}
    for _, _, cells in folded:
        for row, col, count in cells:
            sums[row, col] = sums.get((row, col), 0) + count
    past = [entry_of(it) for it in folded], [(*place, count) for place, count in sorted(sums.items())]
    total = total_of(folded) + total_of(batches)
    return snapshot(batches, total, *setup, past=None if version == 1 else past, version=version, origin=origin)


def log_of(batches, before=(), setup=SMALL, origin=OWNED):
    """A log with a block for each batch."""
    return log([[it] for it in batches], [entry_of(it) for it in before], setup, origin)


def anew(batches, before, setup, origin=OWNED):
    """A log that was begun anew: its batches are one block."""
    return log([batches] if batches else [], [entry_of(it) for it in before], setup, origin)


def text_of(cells, rows=3, cols=3):
    """A text of these cells."""
    lines = [f"{row + 1} {col + 1} {count}\n" for row, col, count in cells]
    return (BANNER + f"{rows} {cols} {len(lines)}\n" + "".join(lines)).encode()


def put_of(batch, *size):
    """A put of a batch as a text, by default one of three rows and columns, or as many as it needs."""
    least = max([3, *(cell[0] + 1 for cell in batch[2])]), max([3, *(cell[1] + 1 for cell in batch[2])])
    return put_frame(batch[0], batch[1], text_of(batch[2], *(size or least)))


def put_cells_of(batch):
    client, number, cells = batch
    held = b"".join(struct.pack(">QQQ", *cell) for cell in cells)
    return struct.pack(">IBQQ", 16 + len(held), 8, client, number) + held


def export_of(batches, setup):
    """The reply to an Export."""
    sums = {}
    for _, _, cells in batches:
        for row, col, count in cells:
            sums[row, col] = sums.get((row, col), 0) + count
    body = text_of([(*place, count) for place, count in sorted(sums.items())], setup.rows, setup.cols)
    return struct.pack(">IB", len(body), 0x85) + body


def setup_in(lines):
    """The setup that the lines of a Stats tell."""
    found = dict(line.split(" ") for line in lines)
    cuts = [int(found[name]) for name in found if name.startswith("layer_cut_entries")]
    check("how many cuts", int(found["cuts"]), len(cuts))
    return Setup(int(found["rows"]), int(found["cols"]), tuple(cuts),
                 *(int(found[name]) for name in ("shards", "limit", "max_batches")))  # fmt: skip


def all_is_known(name, link, batches, setup, book=None):
    """A server's setup and book, its sum, and that each batch gets its first reply again, as a text of the old size."""
    check(f"{name}: the setup", setup_in(told_lines(link)), setup)
    if book:
        check(f"{name}: the book", book_of(link), book)
    check(f"{name}: status", asked(link, STATUS, 21), counts(len(batches), total_of(batches)))
    for place, batch in enumerate(batches):
        for put in (put_of(batch), put_cells_of(batch), put_of(batch, setup.rows, setup.cols)):
            again = asked(link, put, 21)
            check(f"{name}: batch {place} again", again, accepted(place, total_of(batches[: place + 1])))
    export = export_of(batches, setup)
    check(f"{name}: export", asked(link, EXPORT, len(export)), export)


class Numbers(Files):
    """Files of a start that is given the numbers of its words, and no others."""

    how = {}

    def words(self, *more):
        paths = {"--snapshot": self.snap, "--log": self.log}
        return [*(word for option in self.options for word in (option, paths[option])), *more]


# The environment of a program that waits for no disk.
WITHOUT_WAITING = {}

# Numbers that a book of three batches and a total of 10 fits, which a setup of three rows and columns has not.
FITTING = [
    {}, {"rows": 4}, {"cols": 5}, {"rows": 2**60, "cols": 2**60}, {"cuts": (1, 2, 3)}, {"cuts": ()}, {"cuts": (2,)},
    {"shards": 1}, {"shards": 64}, {"limit": 101}, {"limit": 2**64 - 1}, {"limit": 10}, {"most": 11},
    {"most": 2**30}, {"most": 3}, {"rows": 3}, {"cuts": (2, 4)}, {"limit": 100, "most": 10}, SMALL._asdict(),
    {"rows": 7, "cols": 9, "cuts": (3,), "shards": 5, "limit": 10, "most": 3},
    {"rows": 7, "cuts": (), "shards": 1, "limit": 10**9, "most": 999},
]  # fmt: skip


class Kind(NamedTuple):
    """Files before a start; how they are made anew, by a setup and a book; and which of them are so by any start."""

    name: str
    options: tuple
    snap: Optional[bytes]
    log: Optional[bytes]
    snap_then: object
    log_then: object
    is_old: tuple = (False, False)

    def known(self):
        """The book that the files say, 0 where none does."""
        snap, logged = self.snap and Snapshot(self.snap).origin.book, self.log and Log(self.log).origin.book
        return snap or logged or 0


def snap_then(batches, goes=0, folded=()):
    return lambda setup, book: snap_of(batches, setup, Origin(book, log=goes), folded=folded)


def log_then(batches, before=()):
    return lambda setup, book: anew(batches, before, setup, Origin(book))


KINDS = [
    Kind("a snapshot", SNAP, snap_of(ALL), None, snap_then(ALL), None),
    Kind("a folded snapshot", SNAP, snap_of([EMPTY], folded=SAVED), None, snap_then([EMPTY], 0, SAVED), None),
    Kind("a log", LOG, None, log_of(ALL), None, log_then(ALL)),
    Kind("a log of a block", LOG, None, anew(ALL, [], SMALL), None, log_then(ALL)),
    Kind("both", BOTH, snap_of(SAVED, origin=PAIRED), log_of([EMPTY], SAVED), snap_then(ALL, 1), log_then([], ALL)),
    Kind("both, of which the log has all", BOTH, snap_of([FIVE], origin=PAIRED), log_of(ALL), snap_then(ALL, 1),
         log_then([], ALL)),
    Kind("both, of which the snapshot has all", BOTH, snap_of(ALL, origin=PAIRED), log_of([], ALL), snap_then(ALL, 1),
         log_then([], ALL)),
    Kind("both, and folded", BOTH, snap_of([LAST], origin=PAIRED, folded=[FIVE]), log_of([EMPTY], SAVED),
         snap_then([LAST, EMPTY], 1, [FIVE]), log_then([], ALL)),
]  # fmt: skip

# Files of older versions, and files that aren't both there: of each one or both are made anew at any start.
EITHER = True, True
OLD = [
    *[Kind(f"a snapshot of version {it}", SNAP, snap_of(ALL, origin=UNKNOWN, version=it), None, snap_then(ALL), None,
           EITHER) for it in (1, 2, 3)],
    *[Kind(f"a folded snapshot of version {it}", SNAP, snap_of([EMPTY], origin=UNKNOWN, version=it, folded=SAVED), None,
           snap_then([EMPTY], 0, SAVED), None, EITHER) for it in (2, 3)],
    Kind("a log of version 1", LOG, None, log_of(ALL, origin=None), None, log_then(ALL), EITHER),
    *[Kind(f"a snapshot of version {it}, and a log of version 1", BOTH, snap_of(SAVED, origin=UNKNOWN, version=it),
           log_of([EMPTY], SAVED, origin=None), snap_then(ALL, 1), log_then([], ALL), EITHER) for it in (1, 2, 3)],
    Kind("a snapshot of version 3, and no log", BOTH, snap_of(ALL, origin=UNKNOWN, version=3), None, snap_then(ALL, 1),
         log_then([], ALL), EITHER),
    Kind("a log of version 1, and no snapshot", BOTH, None, log_of(ALL, origin=None), snap_then(ALL, 1),
         log_then([], ALL), EITHER),
    Kind("a log, and no snapshot", BOTH, None, log_of(ALL), snap_then(ALL, 1), log_then([], ALL), (True, False)),
    Kind("a snapshot, and no log", BOTH, snap_of(ALL), None, snap_then(ALL, 1), log_then([], ALL), EITHER),
    Kind("a snapshot, and a shorter log", BOTH, snap_of(ALL, origin=PAIRED), log_of(SAVED), snap_then(ALL, 1),
         log_then([], ALL), (False, True)),
]  # fmt: skip


def file_is_right(name, path, before, wanted, is_new):
    """A file behind a start: made anew with these bytes, where they aren't those of before."""
    if wanted is None:
        check(f"{name}: there is none", os.path.exists(path), False)
    elif is_new:
        check(f"{name}: its bytes", held_in(path), wanted)
    else:
        check(f"{name}: it stays", held_in(path), before)


def fitting_start(kind, given):
    """Setup, files and batches of a start whose numbers fit; then a batch more, a kill, and a start with none."""
    name = f"{kind.name} with {given}"
    files = Numbers(name.replace("/", ""), kind.options, kind.snap, kind.log)
    files.how = {"env": WITHOUT_WAITING}
    setup = SMALL._replace(**given)
    more = (6, 1, [(0, 0, 0), (setup.rows - 1, setup.cols - 1, 0)])
    batches = [*ALL, more] if len(ALL) < setup.most else ALL
    with files.serve(*words_of(given)) as at:
        with at.link() as link:
            book = book_of(link)
            check(f"{name}: a book", book == kind.known() if kind.known() else book > 0, True)
            for path, before, then, is_old in ((files.snap, kind.snap, kind.snap_then, kind.is_old[0]),
                                               (files.log, kind.log, kind.log_then, kind.is_old[1])):  # fmt: skip
                wanted = then and then(setup, book)
                file_is_right(f"{name}: {os.path.basename(path)}", path, before, wanted, is_old or setup != SMALL)
            left = [it for it in os.listdir(files.folder) if it.endswith(".new")]
            check(f"{name}: nothing is left beside", left, [])
            all_is_known(name, link, ALL, setup)
            reply = accepted(3, 10) if len(ALL) < setup.most else refused(32)
            check(f"{name}: put", asked(link, put_cells_of(more), len(reply)), reply)
            if kind.options == SNAP:
                check(f"{name}: save", asked(link, SAVE, 13), saved(len(batches)))
        kill(at)
    with files.serve() as at:
        with at.link() as link:
            check(f"{name}: then the setup", setup_in(told_lines(link)), setup)
            check(f"{name}: then the book", book_of(link), book)
            again = asked(link, put_cells_of(batches[-1]), 21)
            check(f"{name}: then the last again", again, accepted(len(batches) - 1, 10))
            check(f"{name}: then the first again", asked(link, put_of(FIVE), 21), accepted(0, 5))
        kill(at)


def what_fits_is_taken():
    """Each number larger, smaller, the same and absent, and several at once, on files that say the book."""
    for kind in KINDS:
        for given in FITTING:
            fitting_start(kind, given)


def old_files_grow_in_one_start():
    """Files of older versions, or of which one isn't there: the same start makes them say the book and the numbers."""
    for kind in OLD:
        for given in ({}, {"rows": 4}, {"limit": 10, "most": 3}, {"most": 2**30},
                      {"rows": 9, "cols": 8, "shards": 3, "limit": 1000}):  # fmt: skip
            fitting_start(kind, given)


def a_torn_log_grows():
    """The end that a kill left is cut off, and the start makes both files anew from what is whole."""
    torn = log_bytes.block(3, [FIVE])[:60]
    for given in ({}, {"rows": 9}, {"limit": 10}, {"cols": 9, "most": 3}):
        for options, snap, logged in [(BOTH, snap_of(SAVED, origin=PAIRED), log_of([EMPTY], SAVED)),
                                      (LOG, None, log_of(ALL))]:  # fmt: skip
            name, setup = f"a torn log of {options} with {given}", SMALL._replace(**given)
            files = Numbers(name, options, snap, logged + torn)
            with files.serve(*words_of(given)) as at:
                with at.link() as link:
                    all_is_known(name, link, ALL, setup, OWNED.book)
                    anew_then = anew([], ALL, setup) if snap else anew(ALL, [], setup)
                    check(f"{name}: the log", held_in(files.log), anew_then if given else logged)
                kill(at)


def a_long_log_grows():
    """A log alone with more batches than a block takes is begun anew with all of them, in order."""
    wide = SMALL._replace(limit=10**9, most=100_000)
    batches = [(1, n, [(n % 3, 2, n)]) for n in range(3000)]
    files = Numbers("a long log", LOG, None, log([batches[n : n + 70] for n in range(0, 3000, 70)], (), wide))
    with files.serve("--cols", "4") as at:
        with at.link() as link:
            held = Log(held_in(files.log))
            check("a long log: its setup", (held.setup, held.first), (wide._replace(cols=4), 0))
            check("a long log: its batches", held.all_batches(), batches)
            for place in (0, 1, 1023, 1024, 2047, 2048, 2999):
                again = asked(link, put_of(batches[place]), 21)
                check(f"a long log: {place} again", again, accepted(place, sum(range(place + 1))))
        kill(at)
    check("a long log: a start", files.start(), stopped(3000, sum(range(3000))))


def one_number_writes_once():
    """How many snapshots and logs a start makes: one of each, two where rows or columns and other numbers change."""
    for given, times in [({}, 0), ({"rows": 3, "limit": 100}, 0), ({"limit": 10}, 1), ({"rows": 4}, 1),
                         ({"rows": 4, "limit": 10}, 2), ({"shards": 1, "cuts": ()}, 1)]:  # fmt: skip
        name = f"how often with {given}"
        files = Broken(name, BOTH, snap_of(SAVED, origin=PAIRED), log_of([EMPTY], SAVED))
        files.words = lambda *more, given=given, files=files: Numbers.words(files, *words_of(given), *more)
        files.lay_out()
        with files.serve(**files.room.how(traced=True)) as at:
            with at.link() as link:
                check(f"{name}: the setup", setup_in(told_lines(link)), SMALL._replace(**given))
            kill(at)
        begun = [record.bytes.decode() for record in records_of(files.room.trace)
                 if record.call == RENAMES and record.result == BEGUN]  # fmt: skip
        taken = [os.path.basename(words.split("\0")[1]) for words in begun]
        check(f"{name}: what takes a name", taken, ["snap", "log"] * times)


# Numbers that don't fit: what is given, the brackets of the line where the snapshot has all, and the line where the log
# alone has them: None where it is the same as the brackets.
MISFITS = [
    ({"rows": 2}, "rows: the file has 3, 2 was given", None),
    ({"cols": 1}, "cols: the file has 3, 1 was given", None),
    ({"rows": 1, "cols": 1}, "rows: the file has 3, 1 was given", None),
    ({"rows": 2, "cols": 9, "limit": 1, "most": 1}, "rows: the file has 3, 2 was given", None),
    ({"rows": 9, "cols": 2, "limit": 1, "most": 1}, "cols: the file has 3, 2 was given", None),
    ({"limit": 9}, "limit: the file has 10, 9 was given", "log: NotFresh at batch 2"),
    ({"limit": 1}, "limit: the file has 10, 1 was given", "log: NotFresh at batch 0"),
    ({"limit": 5}, "limit: the file has 10, 5 was given", "log: NotFresh at batch 1"),
    ({"rows": 9, "limit": 9}, "limit: the file has 10, 9 was given", "log: NotFresh at batch 2"),
    ({"most": 2}, "max-batches: the file has 3, 2 was given", "log: NotFresh at batch 2"),
    ({"most": 1}, "max-batches: the file has 3, 1 was given", "log: NotFresh at batch 1"),
    ({"rows": 9, "most": 2, "shards": 1}, "max-batches: the file has 3, 2 was given", "log: NotFresh at batch 2"),
]
# What the snapshot has of a pair, whose log has one batch more: 8 in two batches.
OF_PAIRS = [
    ({"rows": 2}, "settings: SnapshotDiffers (rows: the file has 3, 2 was given)", 2),
    ({"cols": 2}, "settings: SnapshotDiffers (cols: the file has 3, 2 was given)", 2),
    ({"limit": 7}, "settings: SnapshotDiffers (limit: the file has 8, 7 was given)", 2),
    ({"limit": 8}, "log: NotFresh at batch 2", 3),
    ({"limit": 9}, "log: NotFresh at batch 2", 3),
    ({"most": 1}, "settings: SnapshotDiffers (max-batches: the file has 2, 1 was given)", 2),
    ({"most": 2}, "log: NotFresh at batch 2", 3),
    ({"rows": 9, "cols": 9, "limit": 9}, "log: NotFresh at batch 2", 3),
    ({"limit": 7, "most": 1}, "settings: SnapshotDiffers (limit: the file has 8, 7 was given)", 2),
]


def misfits():
    """A name, what a server is given, the snapshot, the log, the numbers, what is told, and the status."""
    for given, told, of_log in MISFITS:
        for name, held in [("", snap_of(ALL)), ("a folded ", snap_of([EMPTY], folded=SAVED)),
                           ("an old ", snap_of(ALL, origin=UNKNOWN, version=3))]:  # fmt: skip
            yield f"{name}snapshot", SNAP, held, None, given, f"settings: SnapshotDiffers ({told})", 2
        yield ("both of which the snapshot has all", BOTH, snap_of(ALL, origin=PAIRED), log_of([], ALL), given,
               f"settings: SnapshotDiffers ({told})", 2)  # fmt: skip
        for name, held in [("", log_of(ALL)), ("an old ", log_of(ALL, origin=None))]:
            for options in (LOG, BOTH):
                line, status = (of_log, 3) if of_log else (f"settings: LogDiffers ({told})", 2)
                yield f"{name}log with {options}", options, None, held, given, line, status
    for given, told, status in OF_PAIRS:
        yield "both", BOTH, snap_of(SAVED, origin=PAIRED), log_of([EMPTY], SAVED), given, told, status
        old = snap_of(SAVED, origin=UNKNOWN, version=2), log_of([EMPTY], SAVED, origin=None)
        yield "both, old", BOTH, *old, given, told, status
        yield ("both, torn", BOTH, snap_of(SAVED, origin=PAIRED),
               log_of([EMPTY], SAVED) + log_bytes.block(3, [FIVE])[:60], given, told, status)  # fmt: skip


def what_does_not_fit_is_refused():
    """By the number's name, with what the file has and what was given; and all files stay, byte for byte."""
    for name, options, snap, logged, given, told, status in misfits():
        name = f"refused: {name}, {given}"
        files = Numbers(name.replace("/", ""), options, snap, logged)
        before = files.all_bytes()
        check(name, files.start(*words_of(given)), ("", f"hhm: {told}\n", status))
        check(f"{name}: the files", files.all_bytes(), before)
        check(f"{name}: without numbers", files.start(env=WITHOUT_WAITING), stopped(3, 10))


# Logs whose heads have more than the snapshot; numbers that are given don't help.
LARGER = [SMALL._replace(rows=4), SMALL._replace(cols=4), SMALL._replace(rows=9, cols=2)]


def a_larger_log_is_refused():
    """A log of more rows or columns than the snapshot isn't one that a crash leaves."""
    for setup in LARGER:
        for given in ({}, {"rows": 9, "cols": 9}, {"limit": 1000}):
            for name, logged in [("goes on", log_of([EMPTY], SAVED, setup)), ("has nothing", log_of([], SAVED, setup)),
                                 ("torn", log_of([EMPTY], SAVED, setup) + log_bytes.block(3, [FIVE])[:60]),
                                 ("old", log_of([EMPTY], SAVED, setup, None))]:  # fmt: skip
                at = f"a larger log: {setup}, {given}, {name}"
                files = Numbers(f"larger {setup.rows} {setup.cols} {given} {name}", BOTH,
                                snap_of(SAVED, origin=PAIRED), logged)  # fmt: skip
                before = files.all_bytes()
                check(at, files.start(*words_of(given)), ("", "hhm: settings: LogDiffers\n", 2))
                check(f"{at}: the files", files.all_bytes(), before)
                checked = hhm("check", files.snap, "--log", files.log)
                check(f"{at}: check", checked, ("", "hhm: settings: LogDiffers\n", 2))


def what_no_file_says_is_needed():
    """Rows and columns have no default; all others have."""
    for options in (SNAP, LOG, BOTH, ()):
        for given, number in [({}, "rows"), ({"cols": 3}, "rows"), ({"rows": 3}, "cols"), ({"limit": 3}, "rows")]:
            name = f"no file: {options}, {given}"
            files = Numbers(name, options)
            told = f"hhm: settings: NeedsNumber ({number}: no file says it)\n"
            check(name, files.start(*words_of(given)), ("", told, 2))
            check(f"{name}: no file is made", files.names(), [])
        if options:
            files = Numbers(f"no file: {options}, must load", options)
            where = "log" if "--log" in options else "file"
            check(f"no file: {options}, must load", files.start("--must-load"), ("", f"hhm: {where}: NotFound\n", 4))
        for more in ({}, {"shards": 3}, {"cuts": ()}, {"limit": 7}, {"most": 2}):
            name, setup = f"no file: {options}, more {more}", new_setup(4, 5, more)
            files = Numbers(name, options)
            with files.serve(*words_of({"rows": 4, "cols": 5, **more})) as at:
                with at.link() as link:
                    check(f"{name}: the setup", setup_in(told_lines(link)), setup)
                    check(f"{name}: put", asked(link, put_of(FIVE), 21), accepted(0, 5))
                kill(at)
            if "--log" in options:
                check(f"{name}: the log's", Log(held_in(files.log)).setup, setup)
            if "--snapshot" in options:
                with files.serve() as at:
                    with at.link() as link:
                        check(f"{name}: then", setup_in(told_lines(link)), setup)
                    kill(at)
    check("the defaults", new_setup(1, 1, {}), Setup(1, 1, (4096, 65536, 1048576), 8, 2**64 - 1, 1_000_000))
    check("the defaults are all", sorted(DEFAULTS), ["cuts", "limit", "most", "shards"])


def a_start_grows_what_grew():
    """Starts in a row, each with other numbers; between them batches that need the new ones."""
    for options in (SNAP, LOG, BOTH):
        files, batches, setup, book = Numbers(f"in a row {options}", options), [], SMALL, None
        for life, given in enumerate([
            SMALL._asdict(), {"rows": 4}, {"rows": 6, "cols": 6}, {}, {"limit": 200, "rows": 7},
            {"most": 11, "cuts": ()}, {"shards": 7, "cols": 9, "limit": 2**64 - 1},
            {"rows": 2**60, "cols": 2**60, "most": 9}, {},
        ]):  # fmt: skip
            name, setup = f"life {life} of {options}", setup._replace(**given)
            with files.serve(*words_of(given)) as at:
                with at.link() as link:
                    book = book or book_of(link)
                    all_is_known(name, link, batches, setup, book)
                    batches.append((1, life, [(0, 0, 2), (setup.rows - 1, setup.cols - 1, life)]))
                    put = accepted(life, total_of(batches))
                    check(f"{name}: put", asked(link, put_cells_of(batches[-1]), 21), put)
                    outside = (2, life, [(setup.rows, 0, 1)])
                    check(f"{name}: outside", asked(link, put_cells_of(outside), 15), refused(22))
                    if options == SNAP:
                        check(f"{name}: save", asked(link, SAVE, 13), saved(life + 1))
                    if life % 3 == 2:
                        check(f"{name}: stop", asked(link, STOP, 5), STOPPING)
                        at.ends(name, life + 1, total_of(batches))
                kill(at)
        lines = log_bytes.check_line(batches, setup)
        told = hhm("check", files.snap, *(["--log", files.log] if "--log" in options else []))
        check(f"in a row {options}: check", (told[0].split("\n")[0], told[1:]), (lines, ("", 0)))


def a_text_of_a_larger_size_is_refused():
    """A text of fewer rows and columns is a batch of the server's; one of more of either has code 20."""
    files = Numbers("sizes of texts", BOTH, snap_of(SAVED, origin=PAIRED), log_of([EMPTY], SAVED))
    with files.serve("--rows", "5", "--cols", "7") as at:
        with at.link() as link:
            for place, size in enumerate([(1, 1), (3, 3), (5, 7), (1, 7), (5, 1)], 3):
                batch = (5, place, [(0, 0, 1)])
                put = asked(link, put_of(batch, *size), 21)
                check(f"a text of {size}", put, accepted(place, 10 + place - 2))
            for size in [(6, 7), (5, 8), (6, 1), (1, 8), (2**60, 2**60)]:
                put = asked(link, put_of((5, 99, [(0, 0, 1)]), *size), 15)
                check(f"a text of {size}", put, refused(20))
            # An entry outside of the text's own size, though it is one of the server's.
            outside = asked(link, put_of((5, 99, [(3, 0, 1)]), 3, 3), 15)
            check("outside of its size", outside, refused(113, 3))
        kill(at)


# The numbers that were given to starts which a crash has ended.
GROWTHS = [{"rows": 7}, {"rows": 7, "cols": 9}, {"limit": 1000, "most": 99}, {"limit": 10, "most": 3, "shards": 1},
           {"rows": 5, "limit": 10, "cuts": (), "shards": 64}]  # fmt: skip


def pairs_of_a_crash():
    """A name, the numbers that were given, and both files: old and old, and for each step new and old, new and new."""
    for given in GROWTHS:
        setups = steps(SMALL, given)
        first = log_of([EMPTY], SAVED)
        yield f"{given}: old and old", given, SMALL, snap_of(SAVED, origin=PAIRED), first
        for old, new in zip(setups, setups[1:]):
            if old != new:
                before = first if old == SMALL else log_of([], ALL, old)
                yield f"{given}: new and old", given, new, snap_of(ALL, new, PAIRED), before
                yield f"{given}: new and new", given, new, snap_of(ALL, new, PAIRED), log_of([], ALL, new)


def a_crash_leaves_pairs_that_start():
    """By the new numbers, by none, and by the old limit, most batches, cuts and shards: with all batches, and the log's
    head says the server's setup before a block is appended."""
    old = {name: getattr(SMALL, name) for name in ("limit", "most", "cuts", "shards")}
    for name, given, held, snap, logged in pairs_of_a_crash():
        for number, words in enumerate([given, {}, old, {**old, "rows": 9}]):
            at_name, setup = f"a pair: {held}, {name}, then {words}", held._replace(**words)
            files = Numbers(f"a pair {held} {name} {number}", BOTH, snap, logged)
            files.how = {"env": WITHOUT_WAITING}
            lines = f"{log_bytes.check_line(ALL, held)}\n{Log(logged).line()}\n"
            check(f"{at_name}: check", hhm("check", files.snap, "--log", files.log), (lines, "", 0))
            with files.serve(*words_of(words)) as at:
                with at.link() as link:
                    all_is_known(at_name, link, ALL, setup, OWNED.book)
                    found = Log(held_in(files.log))
                    check(f"{at_name}: the head", (found.setup, found.origin), (setup, OWNED))
                    check(f"{at_name}: the snapshot", snap_setup(files), setup)
                    if setup.most > 3:
                        check(f"{at_name}: put", asked(link, put_cells_of((5, 5, [])), 21), accepted(3, 10))
                kill(at)
            count = 4 if setup.most > 3 else 3
            check(f"{at_name}: a start", files.start(env=WITHOUT_WAITING), stopped(count, 10))


def snap_setup(files):
    """The setup that a snapshot says."""
    held = held_in(files.snap)
    found = {}
    for name, place in Snapshot(held).fields:
        found.setdefault(name, []).append(int.from_bytes(held[place.start : place.stop], "big"))
    return Setup(found["rows"][0], found["cols"][0], tuple(found.get("cut", ())), found["shards"][0],
                 found["limit"][0], found["most"][0])  # fmt: skip


class Growth(Broken):
    """The files of a start that grows, whose calls on them can fail or be its last."""

    def __init__(self, name, options, snap, logged, given):
        super().__init__(name, options, snap, logged)
        self.given = given

    def words(self, *more):
        return Numbers.words(self, *words_of(self.given), *more)

    def start_with(self, given):
        """A start with other numbers, none of whose calls fails."""
        before, self.given = self.given, given
        try:
            return Files.start(self, env=WITHOUT_WAITING)
        finally:
            self.given = before


BROKEN = [
    ("rows of both", BOTH, snap_of(SAVED, origin=PAIRED), log_of([EMPTY], SAVED), {"rows": 9}),
    ("all of both", BOTH, snap_of([LAST], origin=PAIRED, folded=[FIVE]), log_of([EMPTY], SAVED),
     {"rows": 9, "cols": 5, "cuts": (), "shards": 7, "limit": 10, "most": 3}),
    ("a limit of both", BOTH, snap_of(SAVED, origin=PAIRED), log_of([EMPTY], SAVED), {"limit": 1000}),
    ("old ones", BOTH, snap_of(SAVED, origin=UNKNOWN, version=3), log_of([EMPTY], SAVED, origin=None),
     {"rows": 9, "limit": 1000}),
    ("a log and no snapshot", BOTH, None, log_of(ALL), {"cols": 9, "limit": 1000}),
    ("a log", LOG, None, log_of(ALL), {"rows": 9, "limit": 1000}),
    ("a snapshot", SNAP, snap_of(ALL), None, {"rows": 9, "limit": 1000}),
]  # fmt: skip
FAILING = ("all of both", "old ones", "a log", "a snapshot")


def what_is_left_starts(name, files):
    """By the new numbers, by none, and by the old limit, most batches, cuts and shards: with all batches."""
    origins, folder = files.origins(), files.folder
    if origins[0] and origins[0].log:
        check(f"{name}: the log that its snapshot asks for", origins[1] is not None, True)
    known = {origin.book for origin in origins if origin and origin.book}
    check(f"{name}: one book at most", len(known) <= 1, True)
    held = {it: server.content(os.path.join(folder, it)) for it in files.names()}
    of_steps = steps(SMALL, files.given)
    old = {it: getattr(SMALL, it) for it in ("limit", "most", "cuts", "shards")}
    for words in (old, {}, files.given):
        for it in os.listdir(folder):
            os.remove(os.path.join(folder, it))
        for it, content in held.items():
            write(os.path.join(folder, it), content)
        check(f"{name}: a start with {words}", files.start_with(words), stopped(3, 10))
        files_agree(f"{name}: then with {words}", files, {it._replace(**words) for it in of_steps})
        then = {origin.book for origin in files.origins() if origin}
        check(f"{name}: with {words}: one book", (len(then), 0 in then, known <= then), (1, False, True))
        # (a log alone that isn't begun anew leaves what another start had begun)
        kept = ["log.new"] if files.options == LOG and words != files.given else []
        paths = {"--snapshot": "snap", "--log": "log"}
        others = {*files.names()} - {paths[it] for it in files.options} - {*kept}
        check(f"{name}: no other file is left", others, set())


def files_agree(name, files, setups):
    """Both files say one setup, which is among these."""
    found = {snap_setup(files)} if "--snapshot" in files.options else set()
    found |= {Log(held_in(files.log)).setup} if "--log" in files.options else set()
    check(f"{name}: one setup", (len(found), found <= setups), (1, True))


def each_call_of_a_growing_start_may_be_the_last():
    """A server that is killed before each call that changes a file, up to its end."""
    for name, options, snap, logged, given in BROKEN:
        files = Growth(f"kill {name}", options, snap, logged, given)
        for call, number in list(files.calls()):
            at = f"{name}: killed before call {call}, {number}"
            ended = files.broken_start(call, number, DIE_BEFORE)
            check(at, (ended[0], ended[2]), ("", -signal.SIGKILL))
            what_is_left_starts(at, files)


def each_call_of_a_growing_start_may_fail():
    """A server at whose start a call fails refuses it by its name, or serves."""
    for name, options, snap, logged, given in [row for row in BROKEN if row[0] in FAILING]:
        files = Growth(f"fail {name}", options, snap, logged, given)
        for call, number in list(files.calls()):
            at = f"{name}: call {call}, {number} fails"
            ended = files.broken_start(call, number, FAIL)
            told = ended[0] == "" and REFUSALS.fullmatch(ended[1]) is not None and ended[2] == 4
            check(f"{at}: {ended}", ended == stopped(3, 10) or told, True)
            what_is_left_starts(at, files)


READ_REFUSALS = re.compile(r"hhm: log: (Read at page 0|Sync|Create) \(.*\)\n")


def logs_that_cannot_be_read_are_told():
    """Without a snapshot the numbers are those of the log's first page. Where that can't be read or opened, the fault says
    which, no file is made or changed, and the next start has all. Each other read of a start may fail too.
    """
    for name, options, logged in [("a log", LOG, log_of(ALL)), ("a log and no snapshot", BOTH, log_of(ALL)),
                                  ("an old log", LOG, log_of(ALL, origin=None))]:  # fmt: skip
        for given in ({"rows": 9}, {"rows": 2, "limit": 1}):
            files = Growth(f"unread {name} {given}", options, None, logged, given)
            # (of the openings of what has the log's name before its own the first is that of the lock)
            for call, number, told in [(READS, 1, "Read at page 0"), (OPENS, 1, "Create"), (OPENS, 2, "Create")]:
                files.lay_out()
                before = files.all_bytes()
                files.room.page.arm(call, FAIL, number)
                ended = files.start()
                files.room.page.disarm()
                check(f"unread {name}, {given}: {call}, {number}", ended, ("", f"hhm: log: {told}\n", 4))
                check(f"unread {name}, {given}: {call}, {number}: the files", files.all_bytes(), before)
                check(f"unread {name}, {given}: {call}, {number}: then", files.start_with({}), stopped(3, 10))
        if name == "a log":
            continue
        files = Growth(f"unread {name} then", options, None, logged, {"rows": 9, "limit": 1000})
        files.broken_start(READS, 2**40, FAIL)
        reads = files.room.page.count(READS)
        check(f"unread {name}: there are reads", reads > 2, True)
        for number in range(2, reads + 1):
            at = f"unread {name}: read {number} fails"
            ended = files.broken_start(READS, number, FAIL)
            told = ended[0] == "" and READ_REFUSALS.fullmatch(ended[1]) is not None and ended[2] == 4
            check(f"{at}: {ended}", ended == stopped(3, 10) or told, True)
            what_is_left_starts(at, files)


def power_is_lost_at_a_growing_start():
    """Behind each of its calls power is lost; once it has answered, the files say the new numbers."""
    for name, options, snap, logged, given in [row for row in BROKEN if row[0] in FAILING]:
        files = Growth(f"power {name}", options, snap, logged, given)
        files.lay_out()
        disk = Disk(files.folder)
        disk.settle()
        with files.serve(**files.room.how(traced=True)) as at:
            with at.link() as link:
                all_is_known(f"power {name}", link, ALL, SMALL._replace(**given))
            kill(at)
        told, writes = False, 0
        for number, record in enumerate(records_of(files.room.trace)):
            if record.call in (SENDS, CLOSES):
                told = told or record.call == SENDS
                continue
            disk.take_one(record)
            writes += record.call == WRITES
            if record.call == OPENS or record.call == WRITES and writes > 8:
                # (an opening leaves nothing, and of the many writes of 00 the first are enough)
                continue
            left = Growth(f"power {name} {number}", options, None, None, given)
            disk.lose_power(random.Random(f"{name} {number}"), left.folder)
            at = f"{name}: power is lost behind record {number}, call {record.call}"
            if told:
                files_agree(at, left, {SMALL._replace(**given)})
            what_is_left_starts(at, left)
        check(f"{name}: it has answered", told, True)


def all_are_tried():
    Room.library = library_of("lose_power.c", server.FOLDER)
    WITHOUT_WAITING.update({**Room(in_folder("no waiting")).how()["env"], "POWER_FOLDER": server.FOLDER})
    run_each(
        what_fits_is_taken,
        old_files_grow_in_one_start,
        a_torn_log_grows,
        a_long_log_grows,
        one_number_writes_once,
        what_does_not_fit_is_refused,
        a_larger_log_is_refused,
        what_no_file_says_is_needed,
        a_start_grows_what_grew,
        a_text_of_a_larger_size_is_refused,
        a_crash_leaves_pairs_that_start,
        each_call_of_a_growing_start_may_be_the_last,
        each_call_of_a_growing_start_may_fail,
        logs_that_cannot_be_read_are_told,
        power_is_lost_at_a_growing_start,
    )


if __name__ == "__main__":
    sys.exit(server.run_all(all_are_tried))
