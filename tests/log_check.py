#!/usr/bin/env python3
"""Runs the built program's `check --log` on snapshots and logs, and compares what it writes and how it ends.

    python3 tests/log_check.py PATH-TO-HHM

What is wanted was worked out by hand from docs/FORMATS.md or comes from the plainer reader of log_bytes.py, and never
from the program's own output. It prints a line for each case that fails and at the end `N passed, M failed`; the
status is 1 where one fails. Linux, and nothing but Python's own library.
"""
import fcntl
import itertools
import os
import random
import sys
import tempfile
from concurrent.futures import ThreadPoolExecutor

import log_bytes
from log_bytes import (
    CHUNK, PAGE, SMALL, JoinFault, Log, LogFault, check_line, checked_head, entry_of, head, log, lost, page,
)  # fmt: skip
from program import SOME, Case, leave_room, run
from snap_bytes import BOOK, MOST, NONE, OWNED, PAIRED, UNKNOWN, Origin, field, fields, snapshot, with_byte

FIVE, THREE, NINE = (7, 1, [(0, 0, 5)]), (8, 1, [(0, 0, 3)]), (9, 1, [(2, 1, 4)])
# A block of it has five pages.
WIDE = SMALL._replace(rows=30, cols=30, limit=10_000)
LARGE = (5, 2, [(row, col, 1) for row in range(28) for col in range(30)])
FOLDED = ([(7, 1, 1, 5)], [(0, 0, 5)])

B1, B2, B12 = log_bytes.block(0, [FIVE]), log_bytes.block(1, [THREE]), log_bytes.block(0, [FIVE, THREE])
TWO = head() + B1 + B2


def with_last(byte):
    """Two blocks, with another byte where the last of the second stands that isn't 00."""
    return TWO[: 2 * PAGE + 79] + bytes([byte]) + TWO[2 * PAGE + 80 :]


def line(batches, total, entries):
    return f"rows 3 cols 3 shards 2 batches {batches} total {total} entries {entries}\n"


def log_line(first, batches, pages, rest):
    return f"log first {first} batches {batches} pages {pages} rest {rest}\n"


def before(*batches):
    return [entry_of(batch) for batch in batches]


def saved(*batches):
    return snapshot(batches, sum(entry[3] for entry in before(*batches)), past=NONE)


# A name, the snapshot or None, the log, and what is written.
TAKEN = [
    ("two blocks", None, TWO, line(2, 8, 1) + log_line(0, 2, 3, 0)),
    ("one block and blank pages", None, head() + B12 + bytes(3 * PAGE), line(2, 8, 1) + log_line(0, 2, 2, 0)),
    ("no blocks", None, head(), line(0, 0, 0) + log_line(0, 0, 1, 0)),
    ("a snapshot and all behind it", saved(FIVE), TWO, line(2, 8, 1) + log_line(0, 2, 3, 0)),
    ("a log that ends before the snapshot", saved(FIVE, THREE), head() + B1, line(2, 8, 1) + log_line(0, 1, 2, 0)),
    ("a log and a snapshot that end together", saved(FIVE, THREE), TWO, line(2, 8, 1) + log_line(0, 2, 3, 0)),
    (
        "a log that was begun behind a save",
        saved(FIVE, THREE),
        log([], before(FIVE, THREE)),
        line(2, 8, 1) + log_line(2, 0, 1, 0),
    ),
    (
        "a log behind a save that goes on",
        saved(FIVE, THREE),
        log([[NINE]], before(FIVE, THREE)),
        line(3, 12, 2) + log_line(2, 1, 2, 0),
    ),
    (
        "a log whose first batch the snapshot has",
        saved(FIVE, THREE),
        log([[THREE, NINE]], before(FIVE)),
        line(3, 12, 2) + log_line(1, 2, 2, 0),
    ),
    (
        "a snapshot of which all is folded",
        snapshot([], 5, past=FOLDED),
        TWO,
        line(2, 8, 1) + log_line(0, 2, 3, 0),
    ),
    (
        "a snapshot of version 1",
        snapshot([FIVE], 5),
        log([[THREE]], before(FIVE)),
        line(2, 8, 1) + log_line(1, 1, 2, 0),
    ),
    *[
        (
            f"a snapshot of version {version}",
            snapshot([FIVE], 5, past=NONE, version=version),
            log([[THREE]], before(FIVE)),
            line(2, 8, 1) + log_line(1, 1, 2, 0),
        )
        for version in (2, 3)
    ],
    ("a log of version 1", None, log([[FIVE], [THREE]], origin=None), line(2, 8, 1) + log_line(0, 2, 3, 0)),
    *[
        (
            f"a log of at most {most} batches",
            None,
            log([[FIVE], [THREE]], setup=log_bytes.SMALL._replace(most=most), origin=origin),
            line(2, 8, 1) + log_line(0, 2, 3, 0),
        )
        for most, origin in ((1_000_000, None), (2**30, OWNED))
    ],
    (
        "a log of version 1 behind a save",
        saved(FIVE, THREE),
        log([[NINE]], before(FIVE, THREE), origin=None),
        line(3, 12, 2) + log_line(2, 1, 2, 0),
    ),
    *[
        (
            f"a log with the window {origin.window} of a book",
            snapshot([FIVE], 5, past=NONE, origin=origin._replace(log=1)),
            log([[THREE]], before(FIVE), origin=origin),
            line(2, 8, 1) + log_line(1, 1, 2, 0),
        )
        for origin in (OWNED, Origin(BOOK, 0), Origin(2**128 - 1, MOST - 1))
    ],
    ("a lost byte of the last block", None, with_last(0), line(1, 5, 1) + log_line(0, 1, 2, 1)),
    ("a byte behind the blocks", None, TWO + b"\1", line(2, 8, 1) + log_line(0, 2, 3, 1)),
    ("a batch without cells", None, log([[(1, 1, [])]]), line(1, 0, 0) + log_line(0, 1, 2, 0)),
    (
        "ten batches and the limit",
        None,
        log([[(1, n, [(0, n % 3, 10)])] for n in range(10)]),
        line(10, 100, 3) + log_line(0, 10, 11, 0),
    ),
]  # fmt: skip


def other_page(number=0, pages=1, place=1, kind=1):
    """The page of the second block, but that it says something else of itself."""
    return page(place, number, pages, log_bytes.payload([THREE]), kind)


HEAD_BYTES = head()[: PAGE - 4]
UNKNOWN_HEAD = head(origin=UNKNOWN)

# A name, the log, and what is wrong with it.
NO_LOGS = [
    ("no bytes", b"", "Truncated at page 0"),
    ("a head that is cut short", head()[:-1], "Truncated at page 0"),
    ("another mark", checked_head(b"HHM-LOG\r" + HEAD_BYTES[8:106]), "BadMark at page 0"),
    ("a snapshot", saved(FIVE).ljust(PAGE, b"\0"), "BadMark at page 0"),
    ("version 0", checked_head(HEAD_BYTES[:8] + field(0, 4) + HEAD_BYTES[12:]), "BadVersion at page 0"),
    ("version 3", checked_head(HEAD_BYTES[:8] + field(3, 4) + HEAD_BYTES[12:]), "BadVersion at page 0"),
    (
        "a version 1 that says a window",
        checked_head(HEAD_BYTES[:8] + field(1, 4) + HEAD_BYTES[12:]),
        "BadHead at page 0",
    ),
    ("no rows", head(setup=SMALL._replace(rows=0)), "BadHead at page 0"),
    ("eight cuts", head(setup=SMALL._replace(cuts=tuple(range(1, 9)))), "BadHead at page 0"),
    ("cuts that don't rise", head(setup=SMALL._replace(cuts=(4, 4))), "BadHead at page 0"),
    ("no shards", head(setup=SMALL._replace(shards=0)), "BadHead at page 0"),
    ("65 shards", head(setup=SMALL._replace(shards=65)), "BadHead at page 0"),
    ("no limit", head(setup=SMALL._replace(limit=0)), "BadHead at page 0"),
    ("no batches", head(setup=SMALL._replace(most=0)), "BadHead at page 0"),
    ("more than 2^30 batches", head(setup=SMALL._replace(most=2**30 + 1)), "BadHead at page 0"),
    (
        "more than 1,000,000 batches in version 1",
        head(setup=SMALL._replace(most=1_000_001), origin=None),
        "BadHead at page 0",
    ),
    ("a first place above the most batches", head(first=11), "BadHead at page 0"),
    ("a total above the limit", head(total=101), "BadHead at page 0"),
    ("a byte behind the fields", checked_head(HEAD_BYTES[:-1] + b"\1"), "BadHead at page 0"),
    ("the first byte behind the window", checked_head(HEAD_BYTES[:106] + b"\1"), "BadHead at page 0"),
    ("the first byte behind a link of version 1", checked_head(head(origin=None)[:82] + b"\1"), "BadHead at page 0"),
    ("a byte behind the fields and a wrong check", with_byte(head(), 106, 1), "HeadCheck at page 0"),
    ("another first byte of the book", with_byte(head(), 82, 1), "HeadCheck at page 0"),
    ("another last byte of the book", with_byte(head(), 97, 0), "HeadCheck at page 0"),
    ("another first byte of the window", with_byte(head(), 98, 0), "HeadCheck at page 0"),
    ("another last byte of the window", with_byte(head(), 105, 0), "HeadCheck at page 0"),
    ("the check of another book", head()[: PAGE - 4] + UNKNOWN_HEAD[PAGE - 4 :], "HeadCheck at page 0"),
    ("a wrong check", head()[:-1] + b"\0", "HeadCheck at page 0"),
    ("a first block at another place", head() + B2, "Damaged at page 1"),
    ("a block twice", head() + B1 + B1, "Damaged at page 2"),
    ("the blocks exchanged", head() + B2 + B1, "Damaged at page 1"),
    ("a head behind a block", head() + B1 + head(), "Damaged at page 2"),
    ("other bytes behind the blocks", TWO + bytes(4) + b"\xff\xff", "Damaged at page 3"),
    ("a block behind a blank page", head() + B1 + bytes(PAGE) + B2, "Damaged at page 3"),
    ("a page of another kind", head() + B1 + other_page(kind=2), "Damaged at page 2"),
    ("a page number that isn't below the pages", head() + B1 + other_page(pages=0), "Damaged at page 2"),
    ("a second page first", head() + B1 + other_page(number=1, pages=2), "Damaged at page 2"),
    ("a changed byte of the last block", with_last(2), "Damaged at page 2"),
    ("a block of no batches", head() + log_bytes.pages_of(0, fields(0)), "BadBlock at page 1"),
    ("more batches than there are bytes", head() + log_bytes.pages_of(0, fields(170)), "BadBlock at page 1"),
    ("a row that isn't there", log([[FIVE], [(8, 1, [(3, 0, 1)])]]), "BadBlock at page 2"),
    ("a column that isn't there", log([[(8, 1, [(0, 3, 1)])]]), "BadBlock at page 1"),
    ("a cell twice", log([[(8, 1, [(0, 1, 1), (0, 1, 1)])]]), "BadBlock at page 1"),
    ("cells out of order", log([[(8, 1, [(0, 1, 1), (0, 0, 1)])]]), "BadBlock at page 1"),
    ("a total of a batch above the limit", log([[(8, 1, [(0, 0, 100), (0, 1, 1)])]]), "BadBlock at page 1"),
    (
        "a byte behind the batches",
        head() + log_bytes.pages_of(0, log_bytes.payload([FIVE]) + b"\1"),
        "BadBlock at page 1",
    ),
    (
        "a page more than needed",
        head() + log_bytes.pages_of(0, log_bytes.payload([FIVE]).ljust(CHUNK + 1, b"\0")),
        "BadBlock at page 1",
    ),
    ("a bad block before a damaged page", log([[(8, 1, [(3, 0, 1)])]]) + B1, "BadBlock at page 1"),
    ("a damaged page before a bad block", head() + B2 + log_bytes.pages_of(0, fields(0)), "Damaged at page 1"),
]  # fmt: skip

# Ten blocks of one page each, and two pages of a block of 300, which is 0000012c.
TEN = log([[(1, n, [(0, n % 3, 10)])] for n in range(10)])
OF_300 = page(1, 0, 300, log_bytes.payload([THREE])) + page(1, 1, 300, b"")


def pair(first, second):
    """A block, and behind it these two pages of the next one."""
    return head() + B1 + page(1, 0, first, log_bytes.payload([THREE])) + page(1, 1, second, b"\1")


# What an append of one block may have left behind others: a name, the log, its batches, pages and pages of the rest.
LEFT = [
    ("a first page whose number of pages is lost", lost(pair(2, 2), (2, 20, 24)), 1, 2, 2),
    ("a first page that lost its count", lost(pair(2, 2), (2, 79, 80)), 1, 2, 2),
    ("a first page without what it says", lost(pair(2, 2), (2, 6, 24)), 1, 2, 2),
    ("two pages without their place", lost(pair(2, 2), (2, 8, 16), (3, 8, 16)), 1, 2, 2),
    ("other bytes of the number of pages in each page", lost(head() + B1 + OF_300, (2, 22, 23), (3, 23, 24)), 1, 2, 2),
    ("the lower byte of the number in both", lost(head() + B1 + OF_300, (2, 22, 23), (3, 22, 23)), 1, 2, 2),
    # Nothing says that these weren't pages of one block, of 257 pages and more.
    ("seven blocks and what an eighth says of itself", lost(TEN, *((n, 0, PAGE) for n in range(4, 10)),
                                                           (3, 24, PAGE), (10, 0, 24)), 2, 3, 2),
    ("eight blocks", lost(TEN, *((n, 0, PAGE) for n in range(3, 11))), 2, 3, 0),
]  # fmt: skip

# What no append of one block has left: a name, the log, and the page.
NOT_LEFT = [
    ("two blocks that lost their counts", lost(TWO, (1, 79, 80), (2, 79, 80)), 2),
    ("eight blocks that lost their batches", lost(TEN, *((n, 24, 80) for n in range(3, 11))), 4),
    ("eight blocks that lost all but their place", lost(TEN, *((n, 16, PAGE) for n in range(3, 11))), 4),
    ("seven blocks and a byte of an eighth", lost(TEN, *((n, 0, PAGE) for n in range(3, 10)), (10, 79, 80)), 10),
    ("all but a whole block at the end", lost(TEN, *((n, 0, PAGE) for n in range(3, 10))), 10),
    ("a block that lost a byte before the last", lost(TEN, (9, 79, 80)), 10),
    ("two numbers of pages", lost(pair(2, 3), (2, 79, 80), (3, 24, 25)), 3),
    ("two numbers of pages, of which a whole page has one", lost(pair(2, 3), (2, 79, 80)), 3),
    ("bytes of two numbers", lost(head() + B1 + page(1, 0, 257, b"\1") + page(1, 1, 769, b"\1"),
                                  (2, 24, 25), (3, 24, 25)), 3),
    ("another number of pages behind a whole page", lost(pair(2, 3), (3, 24, 25)), 3),
    ("a page behind the last", lost(pair(2, 2), (2, 79, 80)) + page(1, 2, 3, b"\1"), 4),
    ("a page behind the last that says nothing", lost(pair(2, 2), (2, 79, 80)) + bytes(PAGE - 1) + b"\1", 4),
    ("a block behind one that lost a byte", lost(TEN + log_bytes.block(10, [NINE]), (10, 79, 80), (11, 79, 80)), 11),
    ("a page of another number", lost(head() + B1 + other_page(number=1, pages=2), (2, 79, 80)), 2),
    ("a page of another kind that lost a byte", lost(head() + B1 + other_page(kind=3), (2, 79, 80)), 2),
    ("a page at another place that lost a byte", lost(head() + B1 + other_page(place=3), (2, 79, 80)), 2),
]  # fmt: skip

OTHER = SMALL._replace(rows=4, shards=3)
# Setups that fit into it, whose other numbers are any.
FITTING = [SMALL._replace(**{name: value}) for name, value in [
    ("rows", 1), ("cols", 1), ("cuts", ()), ("shards", 3), ("limit", 99), ("limit", 101), ("most", 9), ("most", 11),
]]  # fmt: skip
OF_BOOK, OF_OTHER = snapshot([FIVE], 5, past=NONE, origin=PAIRED), Origin(BOOK ^ 1)

# A name, the snapshot or None, the log, and why they don't belong together.
NOT_JOINED = [
    ("no snapshot, and a log that begins behind a batch", None, log([[THREE]], before(FIVE)), "log: Gap at batch 1"),
    ("a log that begins behind the snapshot", saved(FIVE), log([], before(FIVE, THREE)), "log: Gap at batch 2"),
    ("another batch before the log", saved(FIVE), log([], before((7, 1, [(0, 0, 4)]))), "log: LinkDiffers"),
    ("another total before the log", saved(FIVE), head(before(FIVE), total=4), "log: LinkDiffers"),
    ("another link", saved(FIVE), head(before(FIVE), link=0), "log: LinkDiffers"),
    ("a total before nothing", None, head(total=1), "log: LinkDiffers"),
    ("another first batch", saved(THREE), TWO, "log: EntryDiffers at batch 0"),
    ("another total of the second", saved(FIVE, (8, 1, [(0, 0, 4)])), TWO, "log: EntryDiffers at batch 1"),
    ("another number of cells", saved(FIVE, (8, 1, [(0, 0, 3), (1, 1, 0)])), TWO, "log: EntryDiffers at batch 1"),
    ("a batch twice in the log", None, log([[FIVE], [FIVE]]), "log: NotFresh at batch 1"),
    ("a pair twice in a block", None, log([[FIVE, (7, 1, [])]]), "log: NotFresh at batch 1"),
    ("a batch of the snapshot again", saved(FIVE), log([[THREE, FIVE]], before(FIVE)), "log: NotFresh at batch 2"),
    ("a folded batch again", snapshot([], 5, past=FOLDED), log([[FIVE]], before(FIVE)), "log: NotFresh at batch 1"),
    ("the limit passed", None, log([[(1, 1, [(0, 0, 100)])], [(1, 2, [(0, 0, 1)])]]), "log: NotFresh at batch 1"),
    ("eleven batches", None, log([[(1, n, [])] for n in range(11)]), "log: NotFresh at batch 10"),
    # The book is judged first, then the setup, then the gap, then the link, then the entries.
    ("another book and setup", OF_BOOK, log([[FIVE]], (), OTHER, OF_OTHER), "log: OtherBook"),
    ("another book and a gap", OF_BOOK, log([], before(FIVE, THREE), origin=OF_OTHER), "log: OtherBook"),
    ("another book and link", OF_BOOK, head(before(FIVE), link=0, origin=OF_OTHER), "log: OtherBook"),
    ("another book and batch", OF_BOOK, log([[THREE]], origin=OF_OTHER), "log: OtherBook"),
    ("another setup of one book", OF_BOOK, log([[FIVE]], (), OTHER), "settings: LogDiffers"),
    ("another setup and a gap", saved(FIVE), log([], before(FIVE, THREE), OTHER), "settings: LogDiffers"),
    ("a gap and another link", saved(FIVE), head(before(FIVE, THREE), link=1), "log: Gap at batch 2"),
    (
        "another link and another batch",
        saved(FIVE, THREE),
        head(before(FIVE), link=1) + log_bytes.block(1, [NINE]),
        "log: LinkDiffers",
    ),
    (
        "another batch and one again",
        saved(FIVE, THREE),
        log([[NINE, FIVE]], before(FIVE)),
        "log: EntryDiffers at batch 1",
    ),
    *[
        (f"larger: {name}", saved(FIVE), log([[FIVE]], (), SMALL._replace(**{name: 4})), "settings: LogDiffers")
        for name in ("rows", "cols")
    ],
    # The list is judged by the snapshot's numbers, a block by those of its log.
    ("the snapshot's limit passed", saved(FIVE), log([[(1, 1, [(0, 0, 96)])]], before(FIVE), SMALL._replace(limit=200)),
     "log: NotFresh at batch 1"),
    ("more batches than the snapshot's", saved(FIVE), log([[(1, n, [])] for n in range(10)], before(FIVE),
     SMALL._replace(most=20)), "log: NotFresh at batch 10"),
    ("a place outside of the log", saved(FIVE), log([[NINE]], before(FIVE), SMALL._replace(rows=2)),
     "log: BadBlock at page 1"),
    ("a batch above the log's limit", saved(FIVE), log([[THREE]], before(FIVE), SMALL._replace(limit=5)) +
     log_bytes.block(2, [(1, 1, [(0, 0, 6)])]), "log: BadBlock at page 2"),
]  # fmt: skip


class Files:
    """A snapshot and a log in a folder of their own, where each is there or not."""

    def __init__(self, folder, held, logged):
        self.path, self.log = os.path.join(folder, "snapshot"), os.path.join(folder, "log")
        for path, what in [(self.path, held), (self.log, logged)]:
            if what is not None:
                with open(path, "wb") as file:
                    file.write(what)
            elif os.path.exists(path):
                os.remove(path)

    def case(self, output="", error="", status=0):
        return Case("", ["check", self.path, "--log", self.log], "", output, error, status)


def status_of(told):
    return 2 if told.startswith("settings") else 3


def checked(program, folder, held, logged, output=None, told=None):
    """What is wrong with a check that writes this, or tells this."""
    files = Files(folder, held, logged)
    if told is None:
        return run(program, files.case(output))
    return run(program, files.case(error=f"hhm: {told}\n", status=status_of(told)))


def wanted(held, known, logged, setup=SMALL, origin=UNKNOWN):
    """What is wanted of a snapshot with these batches, or without one, and a log, by the plainer reader."""
    try:
        found = Log(logged)
        both = log_bytes.joined(known, found, found.setup if held is None else setup, origin)
    except LogFault as fault:
        return None, f"log: {fault}"
    except JoinFault as fault:
        return None, str(fault)
    return f"{check_line(both, found.setup if held is None else setup)}\n{found.line()}\n", None


def tables(program):
    """The tables, and that the plainer reader says the same of them."""
    with tempfile.TemporaryDirectory() as folder:
        for name, held, logged, output in TAKEN:
            yield name, checked(program, folder, held, logged, output)
        for name, logged, told in NO_LOGS:
            yield name, checked(program, folder, None, logged, told=f"log: {told}")
            yield f"{name}, and a snapshot", checked(program, folder, saved(FIVE), logged, told=f"log: {told}")
            found = wanted(None, [], logged)
            yield f"{name}, by the plainer reader", [] if found == (None, f"log: {told}") else [f"it says {found}"]
        for name, held, logged, told in NOT_JOINED:
            yield name, checked(program, folder, held, logged, told=told)
        for setup in FITTING:
            logged = log([[FIVE], [THREE]], (), setup)
            output = line(2, 8, 1) + log_line(0, 2, 3, 0)
            yield f"a log of {setup}", checked(program, folder, saved(FIVE), logged, output)
            found = wanted(saved(FIVE), [FIVE], logged)
            yield f"a log of {setup}, by the plainer reader", [] if found == (output, None) else [f"it says {found}"]


def books(program):
    """Snapshots and logs of each two books: only two that are known and differ don't belong together."""
    some = [None, UNKNOWN, OWNED, Origin(BOOK ^ 1), Origin(BOOK ^ 1 << 127), Origin(2**128 - 1)]
    with tempfile.TemporaryDirectory() as folder:
        for one, other in itertools.product(some, some):
            held = snapshot([FIVE], 5, past=NONE, version=3 if one is None else 4, origin=one or UNKNOWN)
            logged, name = log([[THREE]], before(FIVE), origin=other), f"a snapshot of {one}, a log of {other}"
            is_one = not (one and one.book and other and other.book) or one == other
            output, told = (line(2, 8, 1) + log_line(1, 1, 2, 0), None) if is_one else (None, "log: OtherBook")
            yield name, checked(program, folder, held, logged, output, told)
            found = wanted(held, [FIVE], logged, origin=one or UNKNOWN)
            yield f"{name}, by the plainer reader", [] if found == (output, told) else [f"it says {found}"]


def ends(program):
    """What an append may have left behind a log's blocks, and what none has, by hand and by the plainer reader."""
    with tempfile.TemporaryDirectory() as folder:
        for name, logged, batches, pages, rest in LEFT:
            found = Log(logged)
            output = check_line(found.all_batches()) + "\n" + log_line(0, batches, pages, rest)
            yield name, checked(program, folder, None, logged, output)
            yield f"{name}, by the plainer reader", [] if found.line() + "\n" in output else [found.line()]
        for name, logged, at in NOT_LEFT:
            told = f"log: Damaged at page {at}"
            yield name, checked(program, folder, None, logged, told=told)
            found = wanted(None, [], logged)
            yield f"{name}, by the plainer reader", [] if found == (None, told) else [f"it says {found}"]


def sweep(program, logs, held=None, known=(), setup=SMALL):
    """What is wrong with the checks of many logs, each of which has a name, by the plainer reader."""

    def wrong_of(named):
        name, logged = named
        with tempfile.TemporaryDirectory() as folder:
            output, told = wanted(held, known, logged, setup)
            return [f"{name}: {what}" for what in checked(program, folder, held, logged, output, told)]

    with ThreadPoolExecutor(os.cpu_count()) as pool:
        return list(itertools.chain(*pool.map(wrong_of, logs)))


def flipped(held, at, bit):
    changed = bytearray(held)
    changed[at] ^= 1 << bit
    return bytes(changed)


def of_two(end):
    """What is written of the first bytes of a head and two blocks, so many: each block once its last byte that isn't 00
    is there."""
    if end >= 2 * PAGE + 80:
        return line(2, 8, 1) + log_line(0, 2, 3, 0)
    if end >= PAGE + 80:
        return line(1, 5, 1) + log_line(0, 1, 2, int(end > 2 * PAGE))
    return line(0, 0, 0) + log_line(0, 0, 1, int(end > PAGE))


def cuts(program):
    """Each cut of the last block, and of the one before it."""
    with tempfile.TemporaryDirectory() as folder:
        wrong = []
        for end in [*range(PAGE, PAGE + 100), *range(2 * PAGE - 10, 2 * PAGE), *range(2 * PAGE, 3 * PAGE + 1)]:
            wrong += [f"{end} bytes: {what}" for what in checked(program, folder, None, TWO[:end], of_two(end))]
        yield "each cut of the last block", wrong
        wrong = []
        for end in [*range(100), *range(PAGE - 10, PAGE)]:
            told = "log: Truncated at page 0"
            wrong += [f"{end} bytes: {what}" for what in checked(program, folder, None, TWO[:end], told=told)]
        yield "cuts of the head", wrong


# The bytes of a first block whose lowest bit makes it look like one that lost bytes: the block behind it shows that it
# isn't.
LOSSES = (4, 5, 7, 23, 31, 47, 55)


def flips(program):
    """One bit of each byte of a page changed, of the first block, of the last, and of the head."""
    with tempfile.TemporaryDirectory() as folder:
        wrong = []
        for at in range(PAGE):
            told = f"log: Damaged at page {2 if at in LOSSES else 1}"
            logged = flipped(TWO, PAGE + at, 0)
            wrong += [f"byte {at}: {what}" for what in checked(program, folder, None, logged, told=told)]
        yield "the lowest bit of each byte of a block that another stands behind", wrong
    picks = random.Random(1)
    last = ((f"byte {at}", flipped(TWO, 2 * PAGE + at, picks.randrange(8))) for at in range(PAGE))
    yield "a bit of each byte of the last block", sweep(program, last)
    front = ((f"byte {at}", flipped(TWO, at, picks.randrange(8))) for at in range(0, PAGE))
    yield "a bit of each byte of the head", sweep(program, front)


def torn(held, from_byte, picks, odds):
    """A log in which bytes from this one on are 00, each with these odds."""
    return held[:from_byte] + bytes(0 if picks.random() < odds else byte for byte in held[from_byte:])


def torn_blocks(program):
    """A last block of five pages that lost bytes or whole pages, and one with a byte that no loss explains."""
    whole = log([[FIVE], [LARGE]], setup=WIDE)
    picks = random.Random(2)
    losses = [(f"loss {n}", torn(whole, 2 * PAGE, picks, picks.choice([0.0002, 0.01, 0.5]))) for n in range(300)]
    yield "a block of five pages that lost bytes", sweep(program, losses)
    kept = [
        (f"pages {pages}", whole[: 2 * PAGE] + b"".join(
            whole[at * PAGE : (at + 1) * PAGE] if pages[at - 2] else bytes(PAGE) for at in range(2, 7)
        ))
        for pages in itertools.product([False, True], repeat=5)
    ]  # fmt: skip
    yield "each choice of whole pages of a block", sweep(program, kept)
    changed = []
    for n in range(300):
        held = bytearray(torn(whole, 2 * PAGE, picks, 0.01))
        held[2 * PAGE + picks.randrange(5 * PAGE)] ^= 1 << picks.randrange(8)
        changed.append((f"change {n}", bytes(held)))
    yield "a byte of a torn block", sweep(program, changed)


def shuffled(program):
    """Pages in other orders, left out, doubled, and of other logs."""
    picks = random.Random(3)
    whole = log([[FIVE], [LARGE], [THREE, NINE]], setup=WIDE)
    other = log([[THREE], [NINE], [LARGE], [FIVE]], setup=WIDE)
    pool = [held[at : at + PAGE] for held in (whole, other) for at in range(PAGE, len(held), PAGE)] + [bytes(PAGE)]
    pages = [whole[at : at + PAGE] for at in range(PAGE, len(whole), PAGE)]
    logs = []
    for n in range(400):
        mixed = list(pages)
        for _ in range(picks.randrange(1, 3)):
            at = picks.randrange(len(mixed))
            mixed[at : at + picks.randrange(2)] = picks.choices(pool, k=picks.randrange(2))
        logs.append((f"mix {n}", head(setup=WIDE) + b"".join(mixed)))
    yield "pages of other blocks and other logs", sweep(program, logs)


def joins(program):
    """Snapshots of some batches beside logs of others, most of which don't belong together."""
    picks = random.Random(4)
    batches = [(client, number, [(0, client % 3, number + 3)]) for client in (1, 2) for number in (1, 2)]
    for n in range(4):
        known = picks.sample(batches, n)
        setup = SMALL._replace(limit=picks.choice([12, 100]), most=picks.choice([4, 10]))
        if sum(entry_of(batch)[3] for batch in known) > setup.limit:
            known = []
        held = snapshot(known, sum(entry_of(b)[3] for b in known), limit=setup.limit, most=setup.most, past=NONE)
        logs = []
        for m in range(150):
            goes_on = picks.random() < 0.7
            both = known + picks.choices(batches, k=picks.randrange(3)) if goes_on else picks.choices(batches, k=3)
            first = picks.randrange(len(both) + 1)
            rest = [both[at : at + 2] for at in range(first, len(both), 2)]
            entries = before(*both[:first])
            if sum(entry[3] for entry in entries) <= setup.limit:
                logs.append((f"log {m}", log(rest, entries, setup)))
        yield f"logs beside a snapshot of {len(known)} batches", sweep(program, logs, held, known, setup)


def told_first(program):
    """Files that aren't there or are no files, and that a snapshot's fault is told before the log's."""
    with tempfile.TemporaryDirectory() as folder:
        fifo = os.path.join(folder, "fifo")
        os.mkfifo(fifo)
        good, nothing = Files(folder, saved(FIVE), TWO), os.path.join(folder, "nothing")
        bad = os.path.join(folder, "bad")
        with open(bad, "wb") as file:
            file.write(b"HHMSNAP\n")
        for name, path, log_path, told, status in [
            ("no log", good.path, nothing, "log: NotFound", 4),
            ("neither", nothing, nothing, "log: NotFound", 4),
            ("no folder of the log", good.path, os.path.join(nothing, "log"), "log: NotFound", 4),
            ("a log below a file", good.path, os.path.join(good.path, "log"), "log: OpenFailed", 4),
            ("a folder as a log", good.path, folder, "log: OpenFailed", 4),
            ("a FIFO as a log", good.path, fifo, "log: OpenFailed", 4),
            ("/dev/zero as a log", good.path, "/dev/zero", "log: OpenFailed", 4),
            ("a bad snapshot and no log", bad, nothing, "snapshot: Truncated", 3),
            ("a FIFO as a snapshot, and no log", fifo, nothing, "file: OpenFailed", 4),
            ("a folder as a snapshot", folder, good.log, "snapshot: Read", 4),
            ("a log as a snapshot", good.log, good.log, "snapshot: BadMark", 3),
            ("a snapshot as a log", good.path, good.path, "log: Truncated at page 0", 3),
        ]:
            case = Case(name, ["check", path, "--log", log_path], error=f"hhm: {told}\n", status=status)
            yield name, run(program, case)
        for words in [["check", good.path, "--log"], ["check", good.path, "--log", ""], ["check", "--log", "-"]]:
            shown = " ".join(os.path.basename(word) for word in words)
            yield f"hhm {shown}", run(program, Case("", words, error=SOME, status=2))


def nothing_changes(program):
    """Neither file is changed, no lock is made, and none that is held stands in the way."""
    with tempfile.TemporaryDirectory() as folder:
        logged = TWO[: 2 * PAGE + 60] + bytes(5_000)
        files = Files(folder, saved(FIVE), logged)
        locks = [open(path + ".lock", "wb") for path in (files.path, files.log)]
        for lock in locks:
            fcntl.flock(lock, fcntl.LOCK_EX)
        stood = [os.stat(path).st_mtime_ns for path in (files.path, files.log)]
        wrong = run(program, files.case(line(1, 5, 1) + log_line(0, 1, 2, 1)))
        for lock in locks:
            lock.close()
            os.remove(lock.name)
        wrong += run(program, files.case(line(1, 5, 1) + log_line(0, 1, 2, 1)))
        if stood != [os.stat(path).st_mtime_ns for path in (files.path, files.log)]:
            wrong.append("a file was written")
        with open(files.log, "rb") as file:
            if file.read() != logged:
                wrong.append("the log has other bytes")
        if sorted(os.listdir(folder)) != ["log", "snapshot"]:
            wrong.append(f"the folder has {sorted(os.listdir(folder))}")
        yield "a check changes nothing", wrong


def outputs_that_fail(program):
    """Outputs that take nothing, a part of the first line, and a part of the second."""
    text = line(2, 8, 1) + log_line(0, 2, 3, 0)
    with tempfile.TemporaryDirectory() as folder:
        files = Files(folder, None, TWO)
        case = files.case(error="hhm: output failed after 0 bytes\n", status=4)
        with tempfile.TemporaryFile() as output:
            yield "a closed output", run(program, case, stdout=output, preexec_fn=lambda: os.close(1))
        for room in (20, 60, len(text) - 1):
            case = files.case(text[:room], f"hhm: output failed after {room} bytes\n", 4)
            with tempfile.TemporaryFile() as file:
                wrong = run(program, case, stdout=file, preexec_fn=lambda room=room: leave_room(room))
                yield f"room for {room} bytes", wrong


HOLE = 1 << 36


def holes(program):
    """Files that end with a hole of 64 GiB, which is not read, and one with data behind a hole."""
    torn = lost(TWO, (2, 79, 80))
    far = head() + B1, 1 << 24, B2
    with tempfile.TemporaryDirectory() as folder:
        for name, (front, at, more), output, told in [
            ("two blocks and a hole", (TWO, 0, b""), line(2, 8, 1) + log_line(0, 2, 3, 0), None),
            ("a torn block and a hole", (torn, 0, b""), line(1, 5, 1) + log_line(0, 1, 2, 1), None),
            ("a head and a hole", (head(), 0, b""), line(0, 0, 0) + log_line(0, 0, 1, 0), None),
            ("a hole alone", (b"", 0, b""), None, "log: BadMark at page 0"),
            ("half a head and a hole", (head()[:2048], 0, b""), None, "log: HeadCheck at page 0"),
            ("a block behind a hole", far, None, "log: Damaged at page 4096"),
        ]:
            files = Files(folder, None, front)
            with open(files.log, "r+b") as file:
                if more:
                    file.seek(at)
                    file.write(more)
                file.truncate(HOLE)
            error = {} if told is None else {"error": f"hhm: {told}\n", "status": status_of(told)}
            yield name, run(program, files.case(output or "", **error))


def long_logs(program):
    """A log of many blocks, and a block of many pages."""
    setup = SMALL._replace(rows=1_000, cols=1_000, limit=10**9, most=1_000_000)
    many = [[(client, number, [(client, number, 2)])] for client in range(20) for number in range(100)]
    wide = [[(7, 1, [(row, col, 1) for row in range(100) for col in range(100)])]]
    with tempfile.TemporaryDirectory() as folder:
        for name, blocks, pages in [("2,000 blocks", many, 2_001), ("a block of 10,000 cells", wide, 60)]:
            total = sum(entry_of(batch)[3] for batches in blocks for batch in batches)
            entries = 2_000 if blocks is many else 10_000
            text = f"rows 1000 cols 1000 shards 2 batches {len(blocks)} total {total} entries {entries}\n"
            logged = log(blocks, setup=setup)
            yield name, checked(program, folder, None, logged, text + log_line(0, len(blocks), pages, 0))


PARTS = [
    tables, books, ends, told_first, nothing_changes, outputs_that_fail, cuts, flips, torn_blocks, shuffled, joins, holes,
    long_logs,
]  # fmt: skip


def main():
    if len(sys.argv) != 2:
        print(__doc__.strip())
        sys.exit(2)
    passed = failed = 0
    for name, wrong in itertools.chain(*(part(os.path.abspath(sys.argv[1])) for part in PARTS)):
        passed, failed = passed + (not wrong), failed + bool(wrong)
        if wrong:
            print(f"FAILED {name}: {'; '.join(wrong[:8])}")
    print(f"{passed} passed, {failed} failed")
    sys.exit(1 if failed else 0)


if __name__ == "__main__":
    main()
