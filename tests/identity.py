#!/usr/bin/env python3
"""Starts the built program as a server on new, old and strange files, and compares whose book each file says it is.

    python3 tests/identity.py PATH-TO-HHM

A book has an identity of sixteen bytes. It is drawn once, is in each file before the server listens, and outlasts each
kill; files of two books never come together. Nothing is known of an identity but what Stats says; all else was worked
out by hand from docs/FORMATS.md, and the bytes are those of snap_bytes.py and log_bytes.py. Kills, failures and losses
of power at each call of a first start come from lose_power.c and disks.py. It prints a line for each check that fails
and at the end `N passed, M failed`; the status is 1 where one fails. Linux, Python's own library and the toolchain of
Rattle.
"""
import os
import random
import re
import shutil
import signal
import socket
import struct
import subprocess
import sys
from typing import NamedTuple, Optional

import log_bytes
import server
from disks import CLOSES, CUTS, DIE_BEFORE, FAIL, OPENS, REMOVES, RENAMES, SENDS, SYNCS, SYNCS_OF_FOLDERS, WRITES
from disks import Disk, Room, records_of
from log_bytes import PAGE, Log, entry_of, log
from refused import library_of
from server import SMALL, WAIT, Server, accepted, check, content, refused
from server_faults import SAVE, STATUS, STOP, STOPPING, asked, counts, in_folder, received, write
from server_log import FIVE, THREE, TWO, hhm, kill, put_of, run_each, saved, stopped
from snap_bytes import BOOK, OWNED, PAIRED, UNKNOWN, Origin, Snapshot, snapshot

STATS = struct.pack(">IB", 0, 12)
OTHER = Origin(0x0F1E2D3C4B5A69788796A5B4C3D2E1F0)
# The words of a server by what it is given.
SNAP, LOG, BOTH = ("--snapshot",), ("--log",), ("--snapshot", "--log")


def total_of(batches):
    return sum(entry_of(batch)[3] for batch in batches)


def snap_of(batches, origin=UNKNOWN, version=4, folded=()):
    """A snapshot in which the first batches are folded, all of which have the first place for their cell."""
    entries = [entry_of(batch) for batch in folded]
    past = (entries, [(0, 0, total_of(folded))] if folded else [])
    total = total_of(folded) + total_of(batches)
    return snapshot(batches, total, past=None if version == 1 else past, version=version, origin=origin)


def log_of(*batches, behind=(), origin=UNKNOWN, setup=log_bytes.SMALL):
    """A log with a block for each of these batches, behind others; of version 1 where there is no origin."""
    return log([[batch] for batch in batches], [entry_of(batch) for batch in behind], setup, origin)


def held_in(path):
    """A file's bytes, those of a log up to the page behind its last block; None where there is no file."""
    if not os.path.exists(path):
        return None
    held = content(path)
    if not held.startswith(b"HHM-LOG\n"):
        return held
    # The many pages of 00 behind the last other byte, which are written ahead, need no look.
    held = held[: -(-len(log_bytes.without_zeros(held)) // PAGE) * PAGE]
    return held[: PAGE * Log(held).whole()]


def seen(path):
    """The same, and the file's place on the disk."""
    return (os.stat(path).st_ino, held_in(path)) if os.path.exists(path) else None


class Files:
    """A snapshot and a log in a folder of their own, each of which is there or not, and the words of a server."""

    # How a server is started.
    how = {}

    def __init__(self, name, options, snap=None, logged=None):
        self.folder, self.options = in_folder(name), options
        os.makedirs(self.folder)
        self.snap, self.log = (os.path.join(self.folder, it) for it in ("snap", "log"))
        for path, held in [(self.snap, snap), (self.log, logged)]:
            if held is not None:
                write(path, held)

    def words(self, *more):
        paths = {"--snapshot": self.snap, "--log": self.log}
        return [*SMALL, *(word for option in self.options for word in (option, paths[option])), *more]

    def serve(self, *more, **how):
        return Server([*self.words(*more), *server.BY_HAND], tcp=False, **{**self.how, **how})

    def start(self, *more, **how):
        """What a server without connections writes to both outputs, without its address, and its status."""
        words = ["serve", "--tcp", "127.0.0.1:0", "--sessions", "0", "--lock-wait", "0", *self.words(*more)]
        output, error, status = hhm(*words, **how)
        return output[output.find("\n") + 1 :] if output.startswith("listening") else output, error, status

    def names(self):
        """The names of all files but the locks."""
        return [name for name in sorted(os.listdir(self.folder)) if not name.endswith(".lock")]

    def seen(self):
        return {name: seen(os.path.join(self.folder, name)) for name in self.names()}

    def all_bytes(self):
        """Each file's place on the disk, when it was last written, and its bytes, all of them."""
        found = {}
        for name in self.names():
            path = os.path.join(self.folder, name)
            held = os.stat(path)
            found[name] = held.st_ino, held.st_mtime_ns, content(path)
        return found

    def held(self):
        return held_in(self.snap), held_in(self.log)

    def origins(self):
        """Whose each file is, by its bytes."""
        held, logged = self.held()
        return held and Snapshot(held).origin, logged and Log(logged).origin


def told_lines(link):
    """The lines of a Stats."""
    link.sendall(STATS)
    front = received(link, 5)
    return received(link, int.from_bytes(front[:4], "big")).decode("ascii").splitlines()


def book_of(link):
    """The book that Stats tells, 0 where it doesn't."""
    found = re.findall(r'^book\{id="([0-9a-f]{32})"\} 1$', "\n".join(told_lines(link)), re.MULTILINE)
    return int(found[0], 16) if len(found) == 1 else 0


def all_is_known(name, link, batches):
    """What the server has accepted, and that each batch gets its first reply again."""
    check(f"{name}: status", asked(link, STATUS, 21), counts(len(batches), total_of(batches)))
    for place, batch in enumerate(batches):
        again = asked(link, put_of(batch), 21)
        check(f"{name}: batch {place} again", again, accepted(place, total_of(batches[: place + 1])))


class First(NamedTuple):
    """A first start: the files before it, all batches in them, and both files then.

    A file that is wanted to stay is KEPT; else there are its bytes by the book. `book` is the one that is known before,
    0 where it is drawn.
    """

    name: str
    options: tuple
    snap: Optional[bytes]
    log: Optional[bytes]
    batches: list
    snap_then: object
    log_then: object
    book: int = 0


KEPT = "kept"
F, FT = [FIVE], [FIVE, THREE]
# The front of a block, as a kill leaves it.
TORN = log_bytes.block(1, [THREE])[:60]


def snap_then(batches, goes=0, folded=()):
    return lambda book: snap_of(batches, Origin(book, log=goes), folded=folded)


def log_then(*batches, behind=()):
    """A log in which all batches are in one block, if there are any: it was begun anew."""
    blocks = [batches] if batches else []
    return lambda book: log(blocks, [entry_of(batch) for batch in behind], origin=Origin(book))


def unknown_snaps(batches):
    """A snapshot of each version that says no book."""
    return [(f"version {version}", snap_of(batches, version=version)) for version in (1, 2, 3, 4)]


def unknown_logs(*batches, behind=()):
    """A log of each version that says no book."""
    return [(f"version {version}", log_of(*batches, behind=behind, origin=origin))
            for version, origin in ((1, None), (2, UNKNOWN))]  # fmt: skip


OF_SNAPSHOTS = [
    First("no snapshot", SNAP, None, None, [], snap_then([]), None),
    *[First(f"a snapshot of {it}", SNAP, held, None, F, snap_then(F), None) for it, held in unknown_snaps(F)],
    *[First(f"an empty snapshot of {it}", SNAP, held, None, [], snap_then([]), None)
      for it, held in unknown_snaps([])],
    *[First(f"a folded snapshot of version {it}", SNAP, snap_of([THREE], version=it, folded=F), None, FT,
            snap_then([THREE], folded=F), None) for it in (2, 3, 4)],
    First("a snapshot of a book", SNAP, snap_of(F, OWNED), None, F, KEPT, None, BOOK),
]  # fmt: skip

OF_LOGS = [
    First("no log", LOG, None, None, [], None, log_then()),
    *[First(f"a log of {it}", LOG, None, held, FT, None, log_then(*FT)) for it, held in unknown_logs(*FT)],
    *[First(f"an empty log of {it}", LOG, None, held, [], None, log_then()) for it, held in unknown_logs()],
    *[First(f"a log of {it} with a torn end", LOG, None, held + TORN, F, None, log_then(*F))
      for it, held in unknown_logs(*F)],
    First("a log of a book with a torn end", LOG, None, log_of(*F, origin=OWNED) + TORN, F, None, KEPT, BOOK),
    First("a log of a book", LOG, None, log_of(*FT, origin=OWNED), FT, None, KEPT, BOOK),
]

OF_BOTH = [
    First("no pair", BOTH, None, None, [], snap_then([], 1), log_then()),
    *[First(f"a snapshot of {it} and no log", BOTH, held, None, F, snap_then(F, 1), log_then(behind=F))
      for it, held in unknown_snaps(F)],
    First("a folded snapshot and no log", BOTH, snap_of([THREE], version=3, folded=F), None, FT,
          snap_then([THREE], 1, F), log_then(behind=FT)),
    First("a snapshot of a book and no log", BOTH, snap_of(F, OWNED), None, F, snap_then(F, 1), log_then(behind=F),
          BOOK),
    *[First(f"a log of {it} and no snapshot", BOTH, None, held, FT, snap_then(FT, 1), log_then(behind=FT))
      for it, held in unknown_logs(*FT)],
    First("a log of a book and no snapshot", BOTH, None, log_of(*FT, origin=OWNED), FT, snap_then(FT, 1), KEPT, BOOK),
    *[First(f"a snapshot of {it}, a log of {which} behind it", BOTH, held, logged, FT, snap_then(FT, 1),
            log_then(behind=FT)) for it, held in unknown_snaps(F) for which, logged in unknown_logs(THREE, behind=F)],
    *[First(f"a snapshot and a log of {it} with a torn end", BOTH, snap_of(F), held + TORN, F, snap_then(F, 1),
            log_then(behind=F)) for it, held in unknown_logs(*F)],
    *[First(f"a snapshot and a longer log of {it}", BOTH, snap_of(F), held, FT, snap_then(FT, 1), log_then(behind=FT))
      for it, held in unknown_logs(*FT)],
    *[First(f"a snapshot and a shorter log of {it}", BOTH, snap_of(FT), held, FT, snap_then(FT, 1),
            log_then(behind=FT)) for it, held in unknown_logs(*F)],
    First("a pair of a book", BOTH, snap_of(F, PAIRED), log_of(THREE, behind=F, origin=OWNED), FT, KEPT, KEPT, BOOK),
    First("a pair of a book whose log is longer", BOTH, snap_of(F, PAIRED), log_of(*FT, origin=OWNED), FT, KEPT, KEPT,
          BOOK),
    First("a pair of a book whose log is shorter", BOTH, snap_of(FT, PAIRED), log_of(*F, origin=OWNED), FT, KEPT,
          log_then(behind=FT), BOOK),
    First("a pair of a book, its snapshot without a log", BOTH, snap_of(F, OWNED),
          log_of(THREE, behind=F, origin=OWNED), FT, snap_then(FT, 1), KEPT, BOOK),
]  # fmt: skip

# What a first start leaves that was killed: a new log beside an old snapshot, and a new snapshot beside an old log.
LEFT = [
    *[First(f"a new log, a snapshot of {it}", BOTH, held, log_of(behind=F, origin=OWNED), F, snap_then(F, 1), KEPT,
            BOOK) for it, held in unknown_snaps(F)],
    First("a new log, a snapshot that says no log", BOTH, snap_of(F, OWNED), log_of(behind=F, origin=OWNED), F,
          snap_then(F, 1), KEPT, BOOK),
    First("a new log and no snapshot", BOTH, None, log_of(origin=OWNED), [], snap_then([], 1), KEPT, BOOK),
    *[First(f"a new snapshot, a log of {it}", BOTH, snap_of(FT, PAIRED), held, FT, snap_then(FT, 1),
            log_then(behind=FT), BOOK) for it, held in unknown_logs(*FT)],
    *[First(f"a new snapshot, a log of {it} behind one", BOTH, snap_of(FT, PAIRED), held, FT, snap_then(FT, 1),
            log_then(behind=FT), BOOK) for it, held in unknown_logs(THREE, behind=F)],
    *[First(f"a snapshot of a book, a log of {it} with more", BOTH, snap_of(F, PAIRED), held, FT, snap_then(FT, 1),
            log_then(behind=FT), BOOK) for it, held in unknown_logs(THREE, behind=F)],
]  # fmt: skip


def file_is_as_wanted(name, path, before, wanted, book):
    """A file behind a start. The file that it replaces stays as it was, under its second name."""
    if wanted is None:
        check(f"{name}: there is none", os.path.exists(path), False)
    elif wanted is KEPT:
        check(f"{name}: it stays", seen(path), before)
    else:
        check(f"{name}: its bytes", held_in(path), wanted(book))
        if before:
            check(f"{name}: the old one isn't written to", held_in(path + ".before"), before[1])


def first_start(row):
    """The first start of a row, what it has and says, and its files."""
    files = Files(row.name, row.options, row.snap, row.log)
    before = [seen(path) for path in (files.snap, files.log)]
    for path, held in zip((files.snap, files.log), before):
        if held:
            os.link(path, path + ".before")
    with files.serve() as at:
        with at.link() as link:
            book = book_of(link)
            check(f"{row.name}: a book", book == row.book if row.book else book > 0, True)
            for path, held, wanted in zip((files.snap, files.log), before, (row.snap_then, row.log_then)):
                file_is_as_wanted(f"{row.name}: {os.path.basename(path)}", path, held, wanted, book)
            left = [it for it in os.listdir(files.folder) if it.endswith(".new")]
            check(f"{row.name}: nothing is left beside", left, [])
            all_is_known(row.name, link, row.batches)
        kill(at)
    for path, held in zip((files.snap, files.log), before):
        if held:
            os.remove(path + ".before")
    return files, book


def second_start(name, files, book, batches):
    """A start behind a kill writes nothing; then a put, and a save where there is a place for it, and a kill."""
    before = files.seen()
    with files.serve() as at:
        check(f"{name}: again: all files stay", files.seen(), before)
        with at.link() as link:
            check(f"{name}: again: the book", book_of(link), book)
            all_is_known(f"{name}: again", link, batches)
            is_saved = "--snapshot" in files.options
            put = asked(link, put_of(TWO), 21)
            check(f"{name}: put", put, accepted(len(batches), total_of([*batches, TWO])))
            reply = saved(len(batches) + 1) if is_saved else refused(43)
            check(f"{name}: save", asked(link, SAVE, len(reply)), reply)
        kill(at)


def goes_on(row, files, book):
    """Starts behind the first one, and the files at the end."""
    batches, goes = [*row.batches, TWO], int("--log" in row.options)
    second_start(row.name, files, book, row.batches)
    origin = Origin(book, log=goes) if "--snapshot" in row.options else None
    check(f"{row.name}: behind a save: whose they are", files.origins(), (origin, Origin(book) if goes else None))
    with files.serve() as at:
        with at.link() as link:
            check(f"{row.name}: behind a save: the book", book_of(link), book)
            all_is_known(f"{row.name}: behind a save", link, batches)
            check(f"{row.name}: stop", asked(link, STOP, 5), STOPPING)
        at.ends(row.name, len(batches), total_of(batches))
    check(f"{row.name}: at the end: whose they are", files.origins(), (origin, Origin(book) if goes else None))
    told = hhm("check", files.snap, *(["--log", files.log] if goes else []))
    lines = log_bytes.check_line(batches) + "\n"
    if goes:
        lines += Log(files.held()[1]).line() + "\n"
    check(f"{row.name}: check", told, (lines, "", 0))


def first_starts_are_durable():
    """The files of each first start, before anything is asked of it, and all that follows has the same book."""
    without_waiting = {**Room(in_folder("no waiting")).how()["env"], "POWER_FOLDER": server.FOLDER}
    for row in [*OF_SNAPSHOTS, *OF_LOGS, *OF_BOTH, *LEFT]:
        files, book = first_start(row)
        # From here on no disk is waited for.
        files.how = {"env": without_waiting}
        goes_on(row, files, book)


def who_waits_for_the_lock_takes_the_book():
    """A server that waits while another begins the files reads them once that is killed: both have one book."""
    for options in (SNAP, LOG, BOTH):
        name, files = f"waiting with {options}", Files(f"waiting with {options}", options)
        with files.serve() as at:
            with at.link() as link:
                book = book_of(link)
                check(f"{name}: put", asked(link, put_of(FIVE), 21), accepted(0, 5))
                if "--snapshot" in options:
                    check(f"{name}: save", asked(link, SAVE, 13), saved(1))
            words = [server.PROGRAM, "serve", "--tcp", "127.0.0.1:0", *files.words("--lock-wait", "60")]
            with subprocess.Popen(words, stdout=subprocess.PIPE, stderr=subprocess.PIPE, text=True) as other:
                # It says that it waits after a second.
                check(f"{name}: it waits", other.stderr.readline().startswith("hhm: waiting for the lock of "), True)
                kill(at)
                host, port = other.stdout.readline().removeprefix("listening tcp ").strip().rsplit(":", 1)
                with socket.create_connection((host, int(port)), WAIT) as link:
                    check(f"{name}: its book", book_of(link), book)
                    all_is_known(name, link, F)
                other.kill()


def servers_without_files_draw_one_each():
    """Each life of a server without files has a book of its own, in the line behind that of the version."""
    books = []
    for _ in range(8):
        with Server(SMALL, tcp=False) as at:
            with at.link() as link:
                lines = told_lines(link)
                at_version = [place for place, line in enumerate(lines) if line.startswith("version ")]
                behind = lines[at_version[0] + 1]
                check("no files: the line", re.fullmatch(r'book\{id="[0-9a-f]{32}"\} 1', behind) is not None, True)
                books.append(book_of(link))
                check("no files: in one life it stays", book_of(link), books[-1])
            kill(at)
    check("no files: each is another", len(set(books)), 8)
    check("no files: none is 00", 0 in books, False)


OTHER_LOG, OTHER_SETUP = log_of(*F, origin=OTHER), log_bytes.SMALL._replace(rows=4)
NEEDS_LOG = "settings: NeedsLog ({snap}: a log goes with it)"
NO_LOG = "log: NotFound ({log}: {snap} goes with a log)"
LOADS = ("--must-load",)

# A name, what a server is given, the snapshot, the log, further words, what is told, and the status.
REFUSED = [
    ("a log goes with it", SNAP, snap_of(F, PAIRED), None, (), NEEDS_LOG, 2),
    ("a log goes with it, it must load", SNAP, snap_of(F, PAIRED), None, LOADS, NEEDS_LOG, 2),
    ("a log goes with it, it must save", SNAP, snap_of(F, PAIRED), None, ("--must-save",), NEEDS_LOG, 2),
    ("a log that isn't given", SNAP, snap_of(F, PAIRED), log_of(behind=F, origin=OWNED), (), NEEDS_LOG, 2),
    ("a log goes with an empty one", SNAP, snap_of([], PAIRED), None, (), NEEDS_LOG, 2),
    ("a log goes with an unknown one", SNAP, snap_of(F, Origin(log=1)), None, (), NEEDS_LOG, 2),
    ("its log is gone", BOTH, snap_of(F, PAIRED), None, (), NO_LOG, 4),
    ("its log is gone, it must load", BOTH, snap_of(F, PAIRED), None, LOADS, NO_LOG, 4),
    ("its log is gone, it must save", BOTH, snap_of(F, PAIRED), None, ("--must-save",), NO_LOG, 4),
    ("the log of an empty one is gone", BOTH, snap_of([], PAIRED), None, (), NO_LOG, 4),
    ("the log of an unknown one is gone", BOTH, snap_of(F, Origin(log=1)), None, (), NO_LOG, 4),
    ("a snapshot that isn't there", SNAP, None, None, LOADS, "file: NotFound", 4),
    ("a snapshot that isn't given", SNAP, None, log_of(*F, origin=OWNED), LOADS, "file: NotFound", 4),
    ("neither is there", BOTH, None, None, LOADS, "log: NotFound", 4),
    ("a log that isn't there", LOG, None, None, LOADS, "log: NotFound", 4),
    ("a log that isn't given, beside a snapshot", LOG, snap_of(F, OWNED), None, LOADS, "log: NotFound", 4),
    ("two books", BOTH, snap_of(F, PAIRED), OTHER_LOG, (), "log: OtherBook", 3),
    ("two books, it must load", BOTH, snap_of(F, PAIRED), OTHER_LOG, LOADS, "log: OtherBook", 3),
    ("two books, and the snapshot without a log", BOTH, snap_of(F, OWNED), OTHER_LOG, (), "log: OtherBook", 3),
    ("two empty books", BOTH, snap_of([], PAIRED), log_of(origin=OTHER), (), "log: OtherBook", 3),
    ("books that differ in the last bit", BOTH, snap_of(F, PAIRED), log_of(*F, origin=Origin(BOOK ^ 1)), (),
     "log: OtherBook", 3),
    ("books that differ in the first bit", BOTH, snap_of(F, PAIRED), log_of(*F, origin=Origin(BOOK ^ 1 << 127)), (),
     "log: OtherBook", 3),
    ("two books and setups", BOTH, snap_of(F, PAIRED), log_of(*F, origin=OTHER, setup=OTHER_SETUP), (),
     "log: OtherBook", 3),
    ("two books and a gap", BOTH, snap_of(F, PAIRED), log_of(behind=FT, origin=OTHER), (), "log: OtherBook", 3),
    ("two books and another batch", BOTH, snap_of([THREE], PAIRED), OTHER_LOG, (), "log: OtherBook", 3),
    ("two books and another link", BOTH, snap_of([THREE], PAIRED), log_of(behind=F, origin=OTHER), (),
     "log: OtherBook", 3),
    ("two windows of a book", BOTH, snap_of(F, Origin(BOOK, 5, 1)), log_of(THREE, behind=F, origin=Origin(BOOK, 6)), (),
     "log: OtherBook", 3),
    ("a window and none", BOTH, snap_of(F, Origin(BOOK, 5, 1)), log_of(THREE, behind=F, origin=OWNED), (),
     "log: OtherBook", 3),
    ("none and a window", BOTH, snap_of(F, PAIRED), log_of(THREE, behind=F, origin=Origin(BOOK, 0)), (),
     "log: OtherBook", 3),
    ("two books and a torn end", BOTH, snap_of(F, PAIRED), OTHER_LOG + TORN, (), "log: OtherBook", 3),
    ("a gap and a torn end", BOTH, None, log_of(behind=F, origin=None) + TORN, (), "log: Gap at batch 1", 3),
    ("one book and two setups", BOTH, snap_of(F, PAIRED), log_of(*F, origin=OWNED, setup=OTHER_SETUP), (),
     "settings: LogDiffers", 2),
    ("one book and another batch", BOTH, snap_of([THREE], PAIRED), log_of(*F, origin=OWNED), (),
     "log: EntryDiffers at batch 0", 3),
    ("one book and a gap", BOTH, snap_of(F, PAIRED), log_of(behind=FT, origin=OWNED), (), "log: Gap at batch 2", 3),
    ("an unknown log and a gap", BOTH, snap_of(F, PAIRED), log_of(behind=FT), (), "log: Gap at batch 2", 3),
    ("a log behind a snapshot that is gone", BOTH, None, log_of(behind=F, origin=OWNED), (), "log: Gap at batch 1", 3),
    ("a log alone behind a snapshot", LOG, None, log_of(behind=F, origin=OWNED), (), "log: Gap at batch 1", 3),
    ("an old log alone behind a snapshot", LOG, None, log_of(behind=F, origin=None), (), "log: Gap at batch 1", 3),
]  # fmt: skip


def refused_starts_change_nothing():
    """Each is told by its name, before it listens; the files stay, and no further one is there."""
    for name, options, snap, logged, more, told, status in REFUSED:
        files = Files(f"refused {name}", options, snap, logged)
        before = files.all_bytes()
        wanted = "hhm: " + told.format(snap=files.snap, log=files.log) + "\n"
        check(f"{name}: a start", files.start(*more), ("", wanted, status))
        check(f"{name}: the files", files.all_bytes(), before)
        if options == BOTH and snap and logged:
            check(f"{name}: check", hhm("check", files.snap, "--log", files.log), ("", wanted, status))
            check(f"{name}: the files behind the check", files.all_bytes(), before)


# What must be loaded, and is there: what a server is given, both files, and the batches.
LOADED = [
    (SNAP, snap_of(F, OWNED), None, F),
    (SNAP, snap_of([], OWNED), None, []),
    (SNAP, snap_of(F, version=1), None, F),
    (LOG, None, log_of(*F, origin=OWNED), F),
    (LOG, None, log_of(origin=None), []),
    (BOTH, snap_of(F, OWNED), None, F),
    (BOTH, snap_of(F, version=3), None, F),
    (BOTH, None, log_of(*F, origin=OWNED), F),
    (BOTH, None, log_of(*F), F),
    (BOTH, snap_of(F, PAIRED), log_of(THREE, behind=F, origin=OWNED), FT),
]


def what_must_load_is_there():
    """One of the two files that are given is enough."""
    for place, (options, snap, logged, batches) in enumerate(LOADED):
        files = Files(f"loaded {place}", options, snap, logged)
        wanted = stopped(len(batches), total_of(batches))
        check(f"it must load, {place}", files.start("--must-load"), wanted)


def put_beside(path, held):
    """Another file under a path, as by a rename."""
    write(path + ".other", held)
    os.rename(path + ".other", path)


# What is put in the place of a log.
STRANGERS = [
    ("a log", OTHER_LOG),
    ("a log without batches", log_of(origin=OTHER)),
    ("a log behind a snapshot", log_of(THREE, behind=F, origin=OTHER)),
    ("a log of another setup", log_of(*F, origin=OTHER, setup=OTHER_SETUP)),
]


def saves_are_refused(name, files, link):
    """Each of two saves fails, and the file under the log's path stays."""
    stranger = seen(files.log)
    for turn in (1, 2):
        check(f"{name}: save {turn}", asked(link, SAVE, 15), refused(42))
        check(f"{name}: it stays, {turn}", seen(files.log), stranger)


def strangers_logs_are_not_replaced():
    """A log of another book under the path: no save is made over it, and its event says why. Without it one is made.

    The put under which the log is missed is in the book, and not known to be durable, so the save has it.
    """
    for what, held in STRANGERS:
        name = f"another book's: {what}"
        files = Files(name, BOTH)
        with files.serve("--events") as at:
            with at.link() as link:
                check(f"{name}: put", asked(link, put_of(FIVE), 21), accepted(0, 5))
                book = book_of(link)
                put_beside(files.log, held)
                check(f"{name}: the next", asked(link, put_of(THREE), 15), refused(35))
                check(f"{name}: it isn't written to", held_in(files.log), held)
                saves_are_refused(name, files, link)
                check(f"{name}: the book", book_of(link), book)
                os.rename(files.log, files.log + ".strange")
                check(f"{name}: save then", asked(link, SAVE, 13), saved(2))
                check(f"{name}: whose they are", files.origins(), (Origin(book, log=1), Origin(book)))
                check(f"{name}: the next then", asked(link, put_of(THREE), 21), accepted(1, 8))
                check(f"{name}: stop", asked(link, STOP, 5), STOPPING)
            failed_saves_say_why(name, at, 2)
        check(f"{name}: a start", files.start(), stopped(2, 8))


def a_log_that_is_written_over_is_not_replaced():
    """Another book's log is copied over the file itself: a save is refused too, and without the file it is made."""
    name, files = "copied over", Files("copied over", BOTH)
    with files.serve() as at:
        with at.link() as link:
            check(f"{name}: put", asked(link, put_of(FIVE), 21), accepted(0, 5))
            write(files.log, OTHER_LOG)
            saves_are_refused(name, files, link)
            check(f"{name}: the bytes", content(files.log), OTHER_LOG)
            os.rename(files.log, files.log + ".strange")
            check(f"{name}: save then", asked(link, SAVE, 13), saved(1))
            check(f"{name}: the next", asked(link, put_of(THREE), 21), accepted(1, 8))
        kill(at)
    check(f"{name}: a start", files.start(), stopped(2, 8))


def failed_saves_say_why(name, at, number, status=0):
    """The events of failed saves of a server that ends name the other book, each of them; gives its last line."""
    _, error = at.process.communicate(timeout=WAIT)
    check(f"{name}: its status", at.process.returncode, status)
    failed = [line for line in error.splitlines() if " save-failed " in line]
    check(f"{name}: the failed saves", [line.count("OtherBook") for line in failed], [1] * number)
    return error.splitlines()[-1]


def a_stop_leaves_a_strangers_log():
    """The save at a Stop fails as others do: the other book's file stays, and the server's own log has all."""
    for what, held in STRANGERS:
        name = f"a stop: {what}"
        files = Files(name, BOTH)
        with files.serve("--events") as at:
            with at.link() as link:
                check(f"{name}: put", asked(link, put_of(FIVE), 21), accepted(0, 5))
                os.rename(files.log, files.log + ".away")
                put_beside(files.log, held)
                check(f"{name}: stop", asked(link, STOP, 5), STOPPING)
            last = failed_saves_say_why(name, at, 1, 4)
            check(f"{name}: the last line, {last}", last.startswith("hhm: log: "), True)
        check(f"{name}: it stays", held_in(files.log), held)
        check(f"{name}: no start beside it", files.start(), ("", "hhm: log: OtherBook\n", 3))
        os.rename(files.log + ".away", files.log)
        check(f"{name}: with its own log", files.start(), stopped(1, 5))


def taken_away(path, _):
    os.remove(path)


def emptied(path, _):
    os.truncate(path, 0)


def older_put_back(path, older):
    os.rename(older, path)


def older_copied_over(path, older):
    """Over the bytes of the file in use, which is shorter then."""
    write(path, held_in(older))


def emptied_anew(path, _):
    put_beside(path, b"")


def a_save_is_the_way_out():
    """Where the log is gone, empty, or an older file of the same book, a save begins it anew with the same book."""
    for way in (taken_away, emptied, emptied_anew, older_put_back, older_copied_over):
        name = f"the way out: {way.__name__}"
        files = Files(name, BOTH)
        with files.serve() as at:
            with at.link() as link:
                book, older = book_of(link), files.log + ".older"
                check(f"{name}: put", asked(link, put_of(FIVE), 21), accepted(0, 5))
                shutil.copy(files.log, older)
                check(f"{name}: put more", asked(link, put_of(THREE), 21), accepted(1, 8))
                way(files.log, older)
                check(f"{name}: the next", asked(link, put_of(TWO), 15), refused(35))
                check(f"{name}: save", asked(link, SAVE, 13), saved(3))
                batches = [*FT, TWO]
                wanted = snap_of(batches, Origin(book, log=1)), log_of(behind=batches, origin=Origin(book))
                check(f"{name}: both files", files.held(), wanted)
                check(f"{name}: the next then", asked(link, put_of(TWO), 21), accepted(2, 10))
            kill(at)
        with files.serve() as at:
            with at.link() as link:
                check(f"{name}: the book then", book_of(link), book)
                all_is_known(f"{name}: then", link, batches)
            kill(at)


def many_lives_have_one_book():
    """Puts, saves, kills and stops in turn, with a snapshot, a log, or both: one book, and nothing is lost."""
    for options in (SNAP, LOG, BOTH):
        files, batches, book = Files(f"lives of {options}", options), [], None
        for life in range(12):
            name = f"life {life} of {options}"
            with files.serve() as at:
                with at.link() as link:
                    told = book_of(link)
                    book = book or told
                    check(f"{name}: its book", told, book)
                    if life < 10:
                        batches.append((7, life, [(0, 0, life + 1)]))
                        put = accepted(life, total_of(batches))
                        check(f"{name}: put", asked(link, put_of(batches[-1]), 21), put)
                    all_is_known(name, link, batches)
                    if "--snapshot" in options and (options == SNAP or life % 3 == 0):
                        check(f"{name}: save", asked(link, SAVE, 13), saved(len(batches)))
                    if life % 4 == 3:
                        check(f"{name}: stop", asked(link, STOP, 5), STOPPING)
                if life % 4 == 3:
                    at.ends(name, len(batches), total_of(batches))
                else:
                    kill(at)
            check(f"{name}: whose they are", {it.book for it in files.origins() if it}, {book})


# Pairs at whose first start each call is a server's last one, or fails: a name, what it is given, both files, and the
# batches.
BROKEN = [
    ("new", BOTH, None, None, []),
    ("old", BOTH, snap_of(F, version=3), log_of(THREE, behind=F, origin=None), FT),
    ("unknown", BOTH, snap_of(F), log_of(*FT), FT),
    ("a log begun", BOTH, snap_of(FT, version=3), None, FT),
    ("a snapshot made", BOTH, None, log_of(*FT, origin=None), FT),
    ("an old log", LOG, None, log_of(*FT, origin=None), FT),
    ("an old snapshot", SNAP, snap_of(F, version=2), None, F),
]
FAILING = ("new", "old", "an old log", "an old snapshot")
CHANGES = (WRITES, CUTS, SYNCS, RENAMES, REMOVES, SYNCS_OF_FOLDERS)
REFUSALS = re.compile(r"hhm: (file|log): (Create|Write|Sync|Rename) \(.*\)\n")


class Broken(Files):
    """The files of a server whose calls on them can fail or be its last."""

    def __init__(self, name, options, snap, logged):
        self.room, self.options, self.before = Room(in_folder(f"broken {name}")), options, (snap, logged)
        self.folder, self.snap, self.log = self.room.folder, self.room.snap, self.room.log

    def lay_out(self):
        """The files as they were at first."""
        for name in os.listdir(self.folder):
            os.remove(os.path.join(self.folder, name))
        for path, held in zip((self.snap, self.log), self.before):
            if held is not None:
                write(path, held)

    def broken_start(self, call, number, action):
        """How a start ends, on the files as they were at first, at whose call with this number this is done."""
        self.lay_out()
        self.room.page.arm(call, action, number, log_only=False)
        ended = self.start()
        self.room.page.disarm()
        return ended

    def start(self, *more):
        return super().start(*more, **self.room.how())

    def calls(self):
        """The calls of a start that change a file, by kind and number. Of many writes there are the first and the last.
        """
        self.broken_start(WRITES, 2**40, FAIL)
        for call in CHANGES:
            number = self.room.page.count(call) + self.room.page.count(call, of_log=False)
            for at in range(1, number + 1):
                if at <= 4 or at > number - 2:
                    yield call, at


def pair_holds_together(name, files, batches):
    """What is left starts, with all batches, and with the book that any of its files had."""
    origins = files.origins()
    if origins[0] and origins[0].log:
        check(f"{name}: the log that its snapshot asks for", origins[1] is not None, True)
    books = {origin.book for origin in origins if origin and origin.book}
    check(f"{name}: one book at most", len(books) <= 1, True)
    check(f"{name}: a start", files.start(), stopped(len(batches), total_of(batches)))
    then = [origin.book for origin in files.origins() if origin]
    check(f"{name}: one book then", (len(then), len(set(then)), 0 in then), (len(files.options), 1, False))
    check(f"{name}: the same one", books <= set(then), True)
    paths = {"--snapshot": "snap", "--log": "log"}
    check(f"{name}: no other file is left", files.names(), sorted(paths[it] for it in files.options))


def each_call_of_a_start_may_be_the_last():
    """A server that is killed before each call that changes a file, up to its end: the next start has all."""
    for name, options, snap, logged, batches in BROKEN:
        files = Broken(f"kill {name}", options, snap, logged)
        for call, number in list(files.calls()):
            at = f"{name}: killed before call {call}, {number}"
            ended = files.broken_start(call, number, DIE_BEFORE)
            check(at, (ended[0], ended[2]), ("", -signal.SIGKILL))
            pair_holds_together(at, files, batches)


def each_call_of_a_start_may_fail():
    """A server at whose start a call fails refuses it by its name, or serves; then the next start has all."""
    for name, options, snap, logged, batches in [row for row in BROKEN if row[0] in FAILING]:
        files = Broken(f"fail {name}", options, snap, logged)
        for call, number in list(files.calls()):
            at = f"{name}: call {call}, {number} fails"
            ended = files.broken_start(call, number, FAIL)
            well = ended == stopped(len(batches), total_of(batches))
            told = ended[0] == "" and REFUSALS.fullmatch(ended[1]) is not None and ended[2] == 4
            check(f"{at}: {ended}", well or told, True)
            pair_holds_together(at, files, batches)


def power_is_lost_at_a_first_start():
    """Behind each of its calls power is lost: what is left starts with all batches, and with the book that was told."""
    for name, options, snap, logged, batches in [row for row in BROKEN if row[0] in FAILING]:
        files = Broken(f"power {name}", options, snap, logged)
        files.lay_out()
        disk = Disk(files.folder)
        disk.settle()
        with files.serve(**files.room.how(traced=True)) as at:
            with at.link() as link:
                book = book_of(link)
            kill(at)
        told, writes = False, 0
        for number, record in enumerate(records_of(files.room.trace)):
            if record.call in (SENDS, CLOSES):
                told = told or record.call == SENDS
                continue
            disk.take_one(record)
            writes += record.call == WRITES
            if record.call == OPENS or record.call == WRITES and writes > 8:
                # (an opening leaves nothing, and of the many writes of 00 the first are enough)
                continue
            left = Files(f"power {name} {number}", options)
            disk.lose_power(random.Random(f"{name} {number}"), left.folder)
            at = f"{name}: power is lost behind record {number}, call {record.call}"
            pair_holds_together(at, left, batches)
            check(f"{at}: the book", not told or book in {it.book for it in left.origins() if it}, True)
        check(f"{name}: the book was told", told, True)


def all_are_tried():
    Room.library = library_of("lose_power.c", server.FOLDER)
    run_each(
        first_starts_are_durable,
        who_waits_for_the_lock_takes_the_book,
        servers_without_files_draw_one_each,
        refused_starts_change_nothing,
        what_must_load_is_there,
        strangers_logs_are_not_replaced,
        a_log_that_is_written_over_is_not_replaced,
        a_stop_leaves_a_strangers_log,
        a_save_is_the_way_out,
        many_lives_have_one_book,
        each_call_of_a_start_may_be_the_last,
        each_call_of_a_start_may_fail,
        power_is_lost_at_a_first_start,
    )


if __name__ == "__main__":
    sys.exit(server.run_all(all_are_tried))
