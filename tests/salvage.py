#!/usr/bin/env python3
"""Runs `hhm salvage` of the built program on snapshots and on logs that a start refuses, and compares what it makes.

    python3 tests/salvage.py PATH-TO-HHM

The front of a log is wanted as its definition has it: of all logs that the first pages of the file are, the one with
the most batches. They are read by the plainer reader of log_bytes.py, and the bytes of the new file are written by
snap_bytes.py from docs/FORMATS.md, with the book that it says. It prints a line for each check that fails and at the
end `N passed, M failed`; the status is 1 where one fails. Linux, Python's own library and the toolchain of
Rattle.
"""
import os
import random
import re
import subprocess
import sys

import log_bytes
import server
from faults import bare
from identity import F, FT, Files, OTHER, all_is_known, held_in, log_of, snap_of, total_of
from log_bytes import PAGE, JoinFault, Log, LogFault, Setup, entry_of, joined, log, number_in, page_kind
from log_check import LARGE, WIDE
from refused import Refusing, build_library
from server import WAIT, accepted, check, content
from server_faults import STOP, STOPPING, asked, in_folder, write
from server_log import CLOSED, FIVE, THREE, TWO, hhm, kill, put_of, run_each, without
from snap_bytes import BOOK, NONE, OWNED, PAIRED, UNKNOWN, Origin, Snapshot, field, snapshot, with_byte

BOTH, LOG = ("--snapshot", "--log"), ("--log",)
MOST_BATCHES = 2**30
WIDER = WIDE._replace(most=20)


def salvage(files, *words, has_snap=True, **how):
    """Salvages the files into `out` of their folder: what is written to both outputs, and the status."""
    snap = [files.snap] if has_snap else []
    return hhm("salvage", os.path.join(files.folder, "out"), *snap, "--log", files.log, *words, **how)


def fault_of(held):
    """The first fault of a log's bytes, None where they have none."""
    try:
        Log(held)
    except LogFault as fault:
        return str(fault)
    return None


def front_of(held):
    """Of the logs that the first pages of these bytes are the one with the most batches, the shortest of them; None
    where there is none."""
    best = None
    for end in range(PAGE, len(held) + PAGE, PAGE):
        try:
            found = Log(held[:end])
        except LogFault:
            continue
        if best is None or len(found.all_batches()) > len(best.all_batches()):
            best = found
    return best


def left_after(held, page):
    """What the line says of the pages from this one on."""
    pages = [held[at : at + PAGE].ljust(PAGE, b"\0") for at in range(page * PAGE, len(held), PAGE)]
    whole = [one for one in pages if page_kind(one) == "whole"]
    begun = [one for one in whole if number_in(one, 6, 2) == 1 and number_in(one, 16, 4) == 0]
    batches = sum(number_in(one, 24) for one in begun if number_in(one, 24) <= MOST_BATCHES)
    return f" pages {sum(any(one) for one in pages)} whole {len(whole)} batches {batches}"


def line(batches, until):
    return f"salvaged {len(batches)} total {total_of(batches)} until {until}\n"


def wanted(known, held, origin=UNKNOWN):
    """The batches and the line of these batches of a snapshot, None where there is none, and the bytes of a log; or the
    fault that is reported."""
    fault, found = fault_of(held), front_of(held)
    if found is None:
        return (None, fault) if known is None else (known, line(known, fault + left_after(held, 1)))
    try:
        both = joined(known or [], found, found.setup, origin)
    except JoinFault as why:
        text = str(why).removeprefix("log: ")
        if known is None or not text.startswith("Gap"):
            return None, str(why)
        return known, line(known, text + left_after(held, 1))
    return both, line(both, fault + left_after(held, found.whole()) if fault else "the end")


def saved(batches, origin, setup):
    """A snapshot of this setup in which nothing is folded."""
    return snapshot(
        batches, total_of(batches), setup.rows, setup.cols, setup.cuts, setup.shards, setup.limit, setup.most,
        past=NONE, origin=origin,
    )  # fmt: skip


def is_salvaged(name, known, held, setup=log_bytes.SMALL, origin=PAIRED):
    """Salvages a snapshot of these batches, if there is one, and a log: the outputs, the new file and the old ones.
    Returns the files, the path of the new one and what it has."""
    snap = None if known is None else saved(known, origin, setup)
    files = Files(f"salvage {name}", BOTH, snap, held)
    before = files.all_bytes()
    batches, told = wanted(known, held, origin)
    found = salvage(files, has_snap=snap is not None)
    if batches is None:
        check(f"{name}: refused", found, ("", f"hhm: log: {told.removeprefix('log: ')}\n", 3))
        check(f"{name}: the files", files.all_bytes(), before)
        return files, None, None
    check(f"{name}: outputs", found, (told, "", 0))
    out = os.path.join(files.folder, "out")
    made = held_in(out)
    book = Snapshot(made).origin.book
    check(f"{name}: a new book", book in (0, BOOK), False)
    check(f"{name}: the new file", made, saved(batches, Origin(book), setup))
    left = files.all_bytes()
    del left["out"]
    check(f"{name}: the other files", left, before)
    return files, out, batches


def is_taken(name, out, batches):
    """A start takes the new file, with exactly these batches; `export` writes the text of their sum."""
    words = ["serve", "--tcp", "127.0.0.1:0", "--sessions", "0", "--snapshot", out]
    output, error, status = hhm(*words)
    told = output[output.find("\n") + 1 :], error, status
    check(f"{name}: a start", told, (f"stopped batches {len(batches)} total {total_of(batches)}\n", "", 0))
    places = {}
    for _, _, cells in batches:
        for row, col, count in cells:
            places[row, col] = places.get((row, col), 0) + count
    lines = "".join(f"{row + 1} {col + 1} {count}\n" for (row, col), count in sorted(places.items()))
    check(f"{name}: its export", hhm("export", out)[0].partition("\n")[2].partition("\n")[2], lines)


# Blocks of one page, with one batch, two and seven, and of five pages and two, so that a page may be the first, the last
# or between.
SEVEN = [(6, n, [(0, n, 1)]) for n in range(7)]
WIDTH = (4, 1, [(row, col, 2) for row in range(6) for col in range(30)])
BLOCKS = [[FIVE], [THREE, TWO], [LARGE], SEVEN, [WIDTH]]
ALL = [batch for batches in BLOCKS for batch in batches]
WHOLE = log(BLOCKS, setup=WIDER)


def changed(held, page, at, byte=None):
    """The bytes with one of a page changed, to this value or by its lowest bit."""
    place = page * PAGE + at
    return with_byte(held, place, held[place] ^ 1 if byte is None else byte)


def each_block_is_damaged():
    """In each page in turn, the head's too: a byte of its checksum, one of its payload, and all of it set to 00."""
    for page in range(len(WHOLE) // PAGE):
        for name, held in [
            ("checksum", changed(WHOLE, page, 2 if page else PAGE - 2)),
            ("payload", changed(WHOLE, page, 30)),
            ("zeroed", WHOLE[: page * PAGE] + bytes(PAGE) + WHOLE[(page + 1) * PAGE :]),
        ]:
            _, out, batches = is_salvaged(f"{name} of page {page}", None, held, WIDER)
            is_salvaged(f"{name} of page {page}, beside a snapshot", ALL[:2], held, WIDER)
            if out:
                is_taken(f"{name} of page {page}", out, batches)


def a_torn_end_is_no_fault():
    """Cut after any page, and within one: what a start cuts off too. A log that reads whole is its own front."""
    for end in [*range(PAGE, len(WHOLE) + 1, PAGE), *(len(WHOLE) - it for it in (3_000, 4_050, 4_096 + 2_000))]:
        _, out, batches = is_salvaged(f"cut to {end}", None, WHOLE[:end], WIDER)
        check(f"cut to {end}: no fault", fault_of(WHOLE[:end]), None)
        is_taken(f"cut to {end}", out, batches)
    for name, held in [("blank pages", WHOLE + bytes(3 * PAGE)), ("a hole", WHOLE)]:
        is_salvaged(name, ALL[:4], held, WIDER)
    _, out, batches = is_salvaged("whole", ALL[:1], WHOLE, WIDER)
    check("whole: all", batches, ALL)


def other_bytes_end_a_front():
    """Bytes anywhere, a block twice, one left out, one that holds no batches, a page that claims too many."""
    chance = random.Random(7)
    for number in range(40):
        held, known = WHOLE, chance.choice([None, [], ALL[:1], ALL[:5], ALL])
        for _ in range(chance.randrange(1, 4)):
            page, at = chance.randrange(1, len(WHOLE) // PAGE), chance.randrange(PAGE)
            held = changed(held, page, at, chance.choice([None, 0, 255]))
        is_salvaged(f"bytes {number}", known, held[: chance.choice([len(held), len(held) - PAGE])], WIDER)
    three = [log_bytes.block(place, [batch]) for place, batch in enumerate([FIVE, THREE, TWO])]
    empty = log_bytes.pages_of(1, field(0))
    many = log_bytes.pages_of(5, field(MOST_BATCHES + 1))
    most = log_bytes.pages_of(6, field(MOST_BATCHES))
    for name, parts in [
        ("a block twice", [three[0], three[0], three[1]]), ("a block left out", [three[0], three[2]]),
        ("a block without batches", [three[0], empty, three[1]]), ("claims", [three[0], three[2], many, most]),
        ("another kind", [three[0], log_bytes.page(1, 0, 1, b"", kind=2), three[1]]),
    ]:  # fmt: skip
        is_salvaged(name, None, log_bytes.head() + b"".join(parts))


def a_gap_leaves_the_snapshot():
    """What the log begins with is missing, in the snapshot or without one; the log may be whole or not."""
    behind = log_of(THREE, TWO, behind=F, origin=OWNED)
    for name, held in [("a whole log", behind), ("a damaged one", changed(behind, 2, 30))]:
        is_salvaged(f"a gap before {name}", [], held)
        is_salvaged(f"no snapshot before {name}", None, held)
        is_salvaged(f"no gap before {name}", F, held)
    is_salvaged("a gap before a log of an unknown book", [], log_of(THREE, TWO, behind=F))


# A name, the snapshot, the log, what is reported, and the status.
REFUSED = [
    ("two books", snap_of(F, PAIRED), log_of(THREE, behind=F, origin=OTHER), "log: OtherBook", 3),
    ("two books and a gap", snap_of([], PAIRED), log_of(THREE, behind=F, origin=OTHER), "log: OtherBook", 3),
    ("two windows", snap_of(F, Origin(BOOK, 5, 1)), log_of(THREE, behind=F, origin=Origin(BOOK, 6)),
     "log: OtherBook", 3),
    ("more rows", snap_of(F, PAIRED), log_of(THREE, behind=F, origin=OWNED, setup=Setup(rows=4)),
     "settings: LogDiffers", 2),
    ("more rows and a gap", snap_of([], PAIRED), log_of(THREE, behind=F, origin=OWNED, setup=Setup(rows=4)),
     "settings: LogDiffers", 2),
    ("another batch before", snap_of([THREE], PAIRED), log_of(TWO, behind=F, origin=OWNED), "log: LinkDiffers", 3),
    ("another batch at its place", snap_of([THREE], PAIRED), log_of(FIVE, origin=OWNED),
     "log: EntryDiffers at batch 0", 3),
    ("a batch twice", snap_of(F, PAIRED), log_of(FIVE, behind=F, origin=OWNED), "log: NotFresh at batch 1", 3),
    ("a damaged snapshot", snap_of(F, PAIRED)[:-1], log_of(THREE, behind=F, origin=OWNED), "snapshot: Truncated", 3),
    ("a snapshot that is none", b"none" * 20, log_of(FIVE, origin=OWNED), "snapshot: BadMark", 3),
    ("no files", None, None, "log: NotFound", 4),
    ("no log", snap_of(F, PAIRED), None, "log: NotFound", 4),
]  # fmt: skip


def refused_files_leave_nothing():
    for name, snap, logged, told, status in REFUSED:
        for damaged in (False, True):
            if damaged and (logged is None or len(Log(logged).blocks) == 0):
                continue
            # (after the blocks comes a page that is damaged)
            held = logged + b"\1" * PAGE if damaged else logged
            files = Files(f"refused salvage {name} {damaged}", BOTH, snap, held)
            before = files.all_bytes()
            check(f"{name}: outputs", salvage(files), ("", f"hhm: {told}\n", status))
            check(f"{name}: the files", files.all_bytes(), before)
    files = Files("salvage without words", BOTH, snap_of(F, PAIRED))
    check("no --log", hhm("salvage", os.path.join(files.folder, "out"), files.snap)[2], 2)
    check("no OUT", hhm("salvage", "--log", files.log)[2], 2)
    check("no words: the files", files.names(), ["snap"])


def a_window_keeps_its_book():
    """Of the files of a window the book and the window stay, and so does what was folded."""
    window = Origin(BOOK, 5)
    for name, snap, logged, origin, batches, folded in [
        ("a window", snap_of(F, window._replace(log=1)), log_of(THREE, TWO, behind=F, origin=window), window, FT, ()),
        ("a log of a window", None, log_of(FIVE, THREE, TWO, origin=window), window, FT, ()),
        ("a folded one", snap_of([], PAIRED, folded=F), log_of(THREE, TWO, behind=F, origin=OWNED), None, [THREE], F),
        ("an older one", snap_of(F, version=3), log_of(THREE, TWO, behind=F, origin=None), None, FT, ()),
    ]:
        held = changed(logged, len(logged) // PAGE - 1, 30, 9)
        files = Files(f"salvage {name}", BOTH, snap, held)
        told = line([*folded, *batches], fault_of(held) + left_after(held, len(held) // PAGE - 1))
        check(f"{name}: outputs", salvage(files, has_snap=snap is not None), (told, "", 0))
        made = held_in(os.path.join(files.folder, "out"))
        found = Snapshot(made).origin
        check(f"{name}: a new book", found.book in (0, BOOK), origin is not None)
        check(f"{name}: the file", made, snap_of(batches, origin or Origin(found.book), folded=folded))


def nothing_is_replaced():
    """Whatever is under OUT stays, and so does a link to nothing."""
    files = Files("salvage into", BOTH, snap_of(F, OWNED), changed(log_of(THREE, behind=F, origin=OWNED), 1, 30))
    for name, make in [
        ("a file", lambda path: write(path, b"mine")),
        ("an empty file", lambda path: write(path, b"")),
        ("a folder", os.mkdir),
        ("a link to nothing", lambda path: os.symlink("nothing", path)),
        ("a link", lambda path: os.symlink(files.snap, path)),
        ("a FIFO", os.mkfifo),
    ]:
        out = in_folder(f"salvage into {name}")
        make(out)
        before = os.lstat(out)
        found = hhm("salvage", out, files.snap, "--log", files.log)
        check(f"OUT is {name}", found, ("", "hhm: file: Exists (OUT)\n", 4))
        after = os.lstat(out)
        check(f"OUT is {name}: it stays", (after.st_ino, after.st_mtime_ns), (before.st_ino, before.st_mtime_ns))
        check(f"OUT is {name}: nothing beside it", os.path.lexists(out + ".new"), False)
    for end in ("new", "lock"):
        out, other = os.path.join(files.folder, f"out.{end}"), os.path.join(files.folder, f"other.{end}")
        found = hhm("salvage", out, files.snap, "--log", files.log)
        check(f"OUT is out.{end}", found, ("", "hhm: settings: BadPath (OUT)\n", 2))
        os.link(files.snap, other)
        for words, told in [((other, "--log", files.log), "PATH"), ((files.snap, "--log", other), "LOG")]:
            found = hhm("salvage", os.path.join(files.folder, "out"), *words)
            check(f"{told} is other.{end}", found, ("", f"hhm: settings: BadPath ({told})\n", 2))
        os.remove(other)
    out = os.path.join(files.folder, "no", "out")
    found = hhm("salvage", out, files.snap, "--log", files.log)
    check("OUT in no folder", found, ("", "hhm: file: Create\n", 4))
    check("the files", files.names(), ["log", "snap"])


def a_server_keeps_its_files():
    """A salvage beside a running server is refused. Of what a killed one leaves, damaged then, a second server goes on
    with the front alone, and a damaged log is the end of a start of the first."""
    files = Files("salvage beside", BOTH)
    with files.serve() as at:
        with at.link() as link:
            for batch in (FIVE, THREE, TWO):
                asked(link, put_of(batch), 21)
            check("beside", salvage(files), ("", "hhm: log: Busy\n", 4))
            other = Files("salvage of another", BOTH, None, log_of(FIVE))
            found = hhm("salvage", os.path.join(other.folder, "out"), files.snap, "--log", other.log)
            check("beside: the snapshot", found, ("", "hhm: file: Busy\n", 4))
        kill(at)
    held = content(files.log)
    write(files.log, changed(held, 2, 40))
    check("a start", files.start(), ("", "hhm: log: Damaged at page 2\n", 3))
    told = line(F, "Damaged at page 2 pages 2 whole 1 batches 1")
    check("after it", salvage(files), (told, "", 0))
    copy = Files("salvage goes on", BOTH, content(os.path.join(files.folder, "out")))
    with copy.serve() as at:
        with at.link() as link:
            all_is_known("the front", link, F)
            check("the front: the next", asked(link, put_of(TWO), 21), accepted(1, 7))
            all_is_known("the front goes on", link, [*F, TWO])
            check("the front: stop", asked(link, STOP, 5), STOPPING)
        at.process.communicate(timeout=WAIT)
    mixed = Files("salvage mixed", BOTH, content(copy.snap), held)
    check("both mixed", mixed.start(), ("", "hhm: log: OtherBook\n", 3))


def what_a_start_refuses_is_helped():
    """Each fault of a log that a start refuses, as docs/OPERATING.md has it: the start is refused, the command makes a
    file, and a start takes that."""
    for name, snap, held in [
        ("damage", snap_of(F, PAIRED), changed(log_of(THREE, TWO, behind=F, origin=OWNED), 1, 30)),
        ("a head", snap_of(F, PAIRED), changed(log_of(THREE, behind=F, origin=OWNED), 0, PAGE - 1)),
        ("a log cut short", snap_of(F, PAIRED), log_of(THREE, behind=F, origin=OWNED)[:100]),
        ("an empty log", snap_of(F, PAIRED), b""),
        ("a gap", snap_of([], PAIRED), log_of(THREE, behind=F, origin=OWNED)),
    ]:
        files = Files(f"salvage helps {name}", BOTH, snap, held)
        check(f"{name}: a start", files.start()[2], 3)
        check(f"{name}: salvage", salvage(files)[1:], ("", 0))
        os.replace(os.path.join(files.folder, "out"), files.snap)
        os.rename(files.log, files.log + " old")
        check(f"{name}: a start after it", files.start()[1:], ("", 0))
    # Of a log that can't be read whole, what can be is copied first.
    files = Files("salvage of a copy", BOTH, snap_of(F, PAIRED), log_of(THREE, behind=F, origin=OWNED) + b"\1" * 100)
    copy = os.path.join(files.folder, "copy")
    words = ["dd", f"if={files.log}", f"of={copy}", "bs=4096", "conv=noerror,sync"]
    check("a copy", subprocess.run(words, capture_output=True, timeout=WAIT).returncode, 0)
    found = hhm("salvage", os.path.join(files.folder, "out"), files.snap, "--log", copy)
    check("a copy: salvage", found, (line(FT, "Damaged at page 2 pages 1 whole 0 batches 0"), "", 0))


def an_output_may_fail():
    """The file is there, and the status says that its line isn't."""
    held = changed(log_of(FIVE, THREE, origin=OWNED), 2, 30)
    files = Files("salvage unheard", BOTH, None, held)
    with open("/dev/full", "wb") as full:
        words = [server.PROGRAM, "salvage", os.path.join(files.folder, "out"), "--log", files.log]
        ended = subprocess.run(words, stdout=full, stderr=subprocess.PIPE, timeout=WAIT)
    check("a full output", (ended.stderr, ended.returncode), (b"hhm: output failed after 0 bytes\n", 4))
    check("a full output: the file", files.names(), ["log", "out"])
    for closed in CLOSED:
        files = Files(f"salvage without {closed}", BOTH, snap_of([], PAIRED), held)
        found = salvage(files, **without(closed))
        told = line(F, "Damaged at page 2 pages 1 whole 0 batches 0"), "", 0
        if 1 in closed:
            told = "", "" if 2 in closed else "hhm: output failed after 0 bytes\n", 4
        check(f"without {closed}", found, told)
        locks = [it for it in os.listdir(files.folder) if it.endswith(".lock")]
        check(f"without {closed}: the locks", {content(os.path.join(files.folder, it)) for it in locks}, {b""})
        made = held_in(os.path.join(files.folder, "out"))
        check(f"without {closed}: the file", made, snap_of(F, Origin(Snapshot(made).origin.book)))


def strange_paths():
    """Links are followed to what is read; a FIFO and a folder are no log."""
    held = changed(log_of(THREE, TWO, behind=F, origin=OWNED), 2, 30)
    files = Files("salvage by a link", BOTH, snap_of(F, PAIRED), held)
    links = [os.path.join(files.folder, name) for name in ("to snap", "to log")]
    for link, path in zip(links, (files.snap, files.log)):
        os.symlink(path, link)
    found = hhm("salvage", os.path.join(files.folder, "out"), links[0], "--log", links[1])
    check("links", found, (line(FT, "Damaged at page 2 pages 1 whole 0 batches 0"), "", 0))
    for name, make in [("a folder", os.mkdir), ("a FIFO", os.mkfifo)]:
        path = in_folder(f"salvage {name}")
        make(path)
        found = hhm("salvage", os.path.join(files.folder, "no"), files.snap, "--log", path)
        check(name, found, ("", "hhm: log: OpenFailed\n", 4))
    alone = Files("salvage of no snapshot", BOTH, None, changed(log_of(FIVE, THREE, TWO, origin=OWNED), 3, 30))
    found = salvage(alone)
    check("a snapshot that isn't there", found, (line(FT, "Damaged at page 3 pages 1 whole 0 batches 0"), "", 0))
    sparse = os.path.join(files.folder, "sparse")
    write(sparse, held)
    os.truncate(sparse, 2**39)
    found = hhm("salvage", os.path.join(files.folder, "out 2"), files.snap, "--log", sparse)
    check("a hole", found, (line(FT, "Damaged at page 2 pages 1 whole 0 batches 0"), "", 0))


def refused_once(files, kind, error, at, told):
    """Salvages with this growth refused, or this read or write failing: what is wrong with that, and whether it was met.
    """
    refusing = Refusing(kind, error, at)
    found = salvage(files, **refusing.how)
    names = [name for name in files.names() if name not in ("snap", "log")]
    for name in names:
        os.remove(os.path.join(files.folder, name))
    met = refusing.was_met()
    faults = {"growth": r"hhm: memory\n", "fault": r"hhm: (snapshot: Read|log: Read at page \d+|file: (Write|Sync))\n"}
    is_refused = re.fullmatch(faults[kind], bare(found[1])) and found[0] == "" and names == []
    # The last two calls are the sync of the folder and the write of the line: then the file may be there.
    may_be = re.fullmatch(r"hhm: (file: Rename|output failed after 0 bytes)\n", bare(found[1])) and kind == "fault"
    is_right = is_refused or may_be or found == (told, "", 0) and names == ["out"]
    return None if is_right and (met or found[2] == 0) else (found, names), met


def calls_are_refused():
    """Each growth, and each read and write, fails in turn: a fault and no file, or the whole."""
    held = changed(WHOLE, 5, 30)
    files = Files("salvage refused", BOTH, saved(ALL[:2], PAIRED, WIDER), held)
    told = wanted(ALL[:2], held, PAIRED)[1]
    build_library(in_folder(""))
    for kind, error in (("growth", 0), ("fault", 5)):
        for at in range(1, 5_000):
            wrong, met = refused_once(files, kind, error, at, told)
            check(f"{kind} {at}", wrong, None)
            if not met:
                break
        check(f"{kind}: how many", at > 10, True)


def all_are_tried():
    run_each(
        each_block_is_damaged,
        a_torn_end_is_no_fault,
        other_bytes_end_a_front,
        a_gap_leaves_the_snapshot,
        refused_files_leave_nothing,
        a_window_keeps_its_book,
        nothing_is_replaced,
        a_server_keeps_its_files,
        what_a_start_refuses_is_helped,
        an_output_may_fail,
        strange_paths,
        calls_are_refused,
    )


if __name__ == "__main__":
    sys.exit(server.run_all(all_are_tried))
