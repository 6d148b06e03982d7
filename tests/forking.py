#!/usr/bin/env python3
"""Runs `hhm fork` of the built program on snapshots and logs, and compares the new file byte for byte.

    python3 tests/forking.py PATH-TO-HHM

A fork is a snapshot of a new book. The bytes that are wanted are written by snap_bytes.py from docs/FORMATS.md, with the
book that the new file says. It prints a line for each check that fails and at the end `N passed, M failed`; the status
is 1 where one fails. Linux and Python's own library.
"""
import os
import subprocess
import sys

import server
from identity import F, FT, Files, OTHER, held_in, log_of, snap_of
from server import WAIT, accepted, check
from server_faults import STOP, STOPPING, asked, in_folder, write
from server_log import CLOSED, FIVE, THREE, hhm, put_of, run_each, without
from snap_bytes import BOOK, OWNED, PAIRED, UNKNOWN, Origin, Snapshot

BOTH = ("--snapshot", "--log")
WARNING = "hhm: {snap} goes with a log: batches after it may be missing\n"


def fork(files, *words, with_log=False, **how):
    """Forks the snapshot of these files into `out` of their folder: what is written to both outputs, and the status."""
    log = ["--log", files.log] if with_log else []
    return hhm("fork", os.path.join(files.folder, "out"), files.snap, *log, *words, **how)


def line(batches, total):
    return f"forked {batches} total {total}\n"


# A name, the snapshot, the log that is given, the batches of the new file, the folded ones, and whether it is warned.
FORKS = [
    ("a snapshot of a book", snap_of(F, OWNED), None, F, (), False),
    ("one of an unknown book", snap_of(F, UNKNOWN), None, F, (), False),
    *[(f"one of version {it}", snap_of(F, version=it), None, F, (), False) for it in (1, 2, 3)],
    ("an empty one", snap_of([], OWNED), None, [], (), False),
    ("a folded one", snap_of([THREE], OWNED, folded=F), None, [THREE], F, False),
    ("one with a log that isn't given", snap_of(F, PAIRED), None, F, (), True),
    ("a pair", snap_of(F, PAIRED), log_of(THREE, behind=F, origin=OWNED), FT, (), False),
    ("a pair, folded", snap_of([], PAIRED, folded=F), log_of(THREE, behind=F, origin=OWNED), [THREE], F, False),
    ("a pair of older versions", snap_of(F, version=3), log_of(THREE, behind=F, origin=None), FT, (), False),
    ("a snapshot of a book, a log of an unknown one", snap_of(F, OWNED), log_of(THREE, behind=F), FT, (), False),
    ("a log alone", None, log_of(*FT, origin=OWNED), FT, (), False),
]


def forks_are_of_a_new_book():
    """What was read is in the new file, as of a book that no other file has. What was read stays."""
    books = {0, BOOK}
    for name, snap, logged, batches, folded, is_warned in FORKS:
        files = Files(f"fork {name}", BOTH, snap, logged)
        before = files.all_bytes()
        total = sum(cell[2] for batch in [*folded, *batches] for cell in batch[2])
        told = WARNING.format(snap=files.snap) if is_warned else ""
        found = fork(files, with_log=logged is not None)
        check(f"{name}: outputs", found, (line(len(folded) + len(batches), total), told, 0))
        held = held_in(os.path.join(files.folder, "out"))
        origin = Snapshot(held).origin
        check(f"{name}: a new book", origin.book in books, False)
        books.add(origin.book)
        check(f"{name}: the file", held, snap_of(batches, Origin(origin.book), folded=folded))
        left = files.all_bytes()
        del left["out"]
        check(f"{name}: the other files", left, before)


# A name, the snapshot, the log that is given, what is reported, and the status.
REFUSED = [
    ("no snapshot", None, None, "file: NotFound", 4),
    ("damage", snap_of(F, OWNED)[:-1], None, "snapshot: Truncated", 3),
    ("a window", snap_of(F, Origin(BOOK, 5)), None, "snapshot: HasWindow", 3),
    ("a window with a log", snap_of(F, Origin(BOOK, 5, 1)), log_of(THREE, behind=F, origin=Origin(BOOK, 5)),
     "snapshot: HasWindow", 3),
    ("two books", snap_of(F, PAIRED), log_of(THREE, behind=F, origin=OTHER), "log: OtherBook", 3),
    ("a gap", snap_of(F, PAIRED), log_of(behind=FT, origin=OWNED), "log: Gap at batch 2", 3),
    ("no batch before the log", None, log_of(THREE, behind=F, origin=OWNED), "log: Gap at batch 1", 3),
    ("a log that is none", snap_of(F, PAIRED), b"no log", "log: ShortHead at page 0", 3),
]  # fmt: skip


def refused_forks_leave_nothing():
    for name, snap, logged, told, status in REFUSED:
        files = Files(f"refused fork {name}", BOTH, snap, logged)
        before = files.all_bytes()
        found = fork(files, with_log=logged is not None)
        if name == "a log that is none":
            # (which of its faults it is, tests/log_check.py compares)
            found, told = ("", "", found[2]), None
        check(f"{name}: outputs", found, ("", f"hhm: {told}\n" if told else "", status))
        check(f"{name}: the files", files.all_bytes(), before)
    files = Files("fork without the log", BOTH, snap_of(F, PAIRED))
    check("no log", fork(files, with_log=True), ("", "hhm: log: NotFound\n", 4))
    check("no log: the files", files.names(), ["snap"])


def nothing_is_replaced():
    """Whatever is under OUT stays, and so does a link to nothing."""
    files = Files("fork into", BOTH, snap_of(F, OWNED))
    for name, make in [
        ("a file", lambda path: write(path, b"mine")),
        ("an empty file", lambda path: write(path, b"")),
        ("a folder", os.mkdir),
        ("a link to nothing", lambda path: os.symlink("nothing", path)),
        ("a link", lambda path: os.symlink(files.snap, path)),
        ("a FIFO", os.mkfifo),
    ]:
        out = in_folder(f"fork into {name}")
        make(out)
        before = os.lstat(out)
        check(f"OUT is {name}", hhm("fork", out, files.snap), ("", "hhm: file: Exists (OUT)\n", 4))
        after = os.lstat(out)
        check(f"OUT is {name}: it stays", (after.st_ino, after.st_mtime_ns), (before.st_ino, before.st_mtime_ns))
        check(f"OUT is {name}: nothing beside it", os.path.lexists(out + ".new"), False)
    for name in ("out.new", "out.lock"):
        out = os.path.join(files.folder, name)
        check(f"OUT is {name}", hhm("fork", out, files.snap), ("", "hhm: settings: BadPath (OUT)\n", 2))
    for end in ("new", "lock"):
        other = os.path.join(files.folder, f"out.{end}")
        os.link(files.snap, other)
        for words, told in [((other,), "PATH"), ((files.snap, "--log", other), "LOG")]:
            found = hhm("fork", os.path.join(files.folder, "out"), *words)
            check(f"{told} is out.{end}", found, ("", f"hhm: settings: BadPath ({told})\n", 2))
            check(f"{told} is out.{end}: it stays", os.path.samefile(other, files.snap), True)
        os.remove(other)
    out = os.path.join(files.folder, "no", "out")
    check("OUT in no folder", hhm("fork", out, files.snap), ("", "hhm: file: Create\n", 4))
    check("the files", files.names(), ["snap"])


def a_server_keeps_its_files():
    """A fork beside a running server is refused, of the snapshot and of the log. After it both servers start."""
    files = Files("fork beside", BOTH)
    with files.serve() as at:
        with at.link() as link:
            check("beside: put", asked(link, put_of(FIVE), 21), accepted(0, 5))
            check("beside: the snapshot", fork(files), ("", "hhm: file: Busy\n", 4))
            other = Files("fork of another", BOTH, snap_of([], UNKNOWN))
            found = hhm("fork", os.path.join(other.folder, "out"), other.snap, "--log", files.log)
            check("beside: the log", found, ("", "hhm: log: Busy\n", 4))
            check("beside: stop", asked(link, STOP, 5), STOPPING)
        at.process.communicate(timeout=WAIT)
    check("after it", fork(files, with_log=True), (line(1, 5), "", 0))
    copy = Files("fork goes on", BOTH, held_in(os.path.join(files.folder, "out")))
    check("the copy", copy.start(), ("stopped batches 1 total 5\n", "", 0))
    check("the original", files.start(), ("stopped batches 1 total 5\n", "", 0))
    mixed = Files("fork mixed", BOTH, held_in(copy.snap), held_in(files.log))
    check("both mixed", mixed.start(), ("", "hhm: log: OtherBook\n", 3))


def a_link_leads_to_the_snapshot():
    files = Files("fork by a link", BOTH, snap_of(F, PAIRED), log_of(THREE, behind=F, origin=OWNED))
    links = [os.path.join(files.folder, name) for name in ("to snap", "to log")]
    for link, path in zip(links, (files.snap, files.log)):
        os.symlink(path, link)
    found = hhm("fork", os.path.join(files.folder, "out"), links[0], "--log", links[1])
    check("links", found, (line(2, 8), "", 0))


def an_output_may_fail():
    """The file is there, and the status says that its line isn't."""
    files = Files("fork unheard", BOTH, snap_of(F, OWNED))
    with open("/dev/full", "wb") as full:
        words = [server.PROGRAM, "fork", os.path.join(files.folder, "out"), files.snap]
        ended = subprocess.run(words, stdout=full, stderr=subprocess.PIPE, timeout=WAIT)
    check("a full output", (ended.stderr, ended.returncode), (b"hhm: output failed after 0 bytes\n", 4))
    check("a full output: the file", files.names(), ["out", "snap"])


def closed_streams_are_no_files():
    """A line that can't be written goes to no lock's file, and neither does the warning; the new file is made."""
    pair = snap_of(F, PAIRED), log_of(THREE, behind=F, origin=OWNED)
    for name, snap, logged, with_log, told, is_warned in [
        ("a snapshot", snap_of(F, OWNED), None, False, line(1, 5), False),
        ("a pair", *pair, True, line(2, 8), False),
        ("a pair without its log", *pair, False, line(1, 5), True),
        ("a log alone", None, log_of(*FT, origin=OWNED), True, line(2, 8), False),
    ]:
        for closed in CLOSED:
            files = Files(f"fork {name} without {closed}", BOTH, snap, logged)
            before = files.all_bytes()
            error = WARNING.format(snap=files.snap) if is_warned else ""
            wanted = told, error, 0
            if 1 in closed:
                # (the warning comes after the line)
                wanted = "", "hhm: output failed after 0 bytes\n", 4
            if 2 in closed:
                wanted = wanted[0], "", wanted[2]
            found = fork(files, with_log=with_log, **without(closed))
            check(f"{name} without {closed}: outputs", found, wanted)
            left = files.all_bytes()
            batches = FT if "total 8" in told else F
            out, origin = left.pop("out")[2], Snapshot(held_in(os.path.join(files.folder, "out"))).origin
            check(f"{name} without {closed}: the file", out, snap_of(batches, Origin(origin.book)))
            check(f"{name} without {closed}: the other files", left, before)
            locks = [it for it in os.listdir(files.folder) if it.endswith(".lock")]
            held = {it: held_in(os.path.join(files.folder, it)) for it in locks}
            check(f"{name} without {closed}: the locks", held, {it: b"" for it in locks})


def all_are_tried():
    run_each(
        forks_are_of_a_new_book,
        refused_forks_leave_nothing,
        nothing_is_replaced,
        a_server_keeps_its_files,
        a_link_leads_to_the_snapshot,
        an_output_may_fail,
        closed_streams_are_no_files,
    )


if __name__ == "__main__":
    sys.exit(server.run_all(all_are_tried))
