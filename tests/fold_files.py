#!/usr/bin/env python3
"""Runs `hhm fork`'s neighbour `hhm fold` of the built program on snapshots and logs, and compares what it leaves.

    python3 tests/fold_files.py PATH-TO-HHM

A fold has all batches of the files that it read in one matrix, in the snapshot's file or in a new one, under the
numbers that it is given and those of the files. The bytes that are wanted are written by snap_bytes.py from
docs/FORMATS.md, and the tables of numbers are those of growing.py. Kills and failures at each call come from
lose_power.c and disks.py. It prints a line for each check that fails and at the end `N passed, M failed`; the status is
1 where one fails. Linux, Python's own library and the toolchain of Rattle.
"""
import os
import re
import shutil
import signal
import subprocess
import sys

import growing
import server
from disks import DIE_BEFORE, FAIL, WRITES
from given import OPTIONS, words_of
from growing import ALL, FITTING, MISFITS, SMALL, Numbers, put_cells_of
from identity import BOTH, CHANGES, F, FT, LOG, NEEDS_LOG, OTHER, OTHER_SETUP, SNAP, TORN, Broken, Files, Room
from identity import all_is_known, book_of, held_in, log_of, snap_of, total_of
from refused import library_of
from server import WAIT, accepted, check, content
from server_faults import SAVE, STOP, STOPPING, asked, in_folder, write
from server_log import CLOSED, FIVE, THREE, TWO, hhm, kill, put_of, run_each, saved, stopped, without
from log_bytes import Log
from snap_bytes import BOOK, OWNED, PAIRED, UNKNOWN, Origin, Snapshot

LOGGED = UNKNOWN._replace(log=1)
WINDOW = Origin(BOOK, 5)


def line(batches):
    return f"folded {len(batches)} total {total_of(batches)}\n"


def fold(files, *words, with_log=False, **how):
    """Folds the snapshot of these files: what is written to both outputs, and the status."""
    return hhm("fold", files.snap, *(["--log", files.log] if with_log else []), *words, **how)


def out_of(files):
    return os.path.join(files.folder, "out")


# A name, the snapshot, the log that is given, all batches, and whose the fold is.
FOLDS = [
    *[(f"a snapshot of version {it}", snap_of(F, version=it), None, F, UNKNOWN) for it in (1, 2, 3)],
    ("a snapshot of an unknown book", snap_of(F), None, F, UNKNOWN),
    ("a snapshot of a book", snap_of(F, OWNED), None, F, OWNED),
    ("a snapshot whose log isn't given", snap_of(F, PAIRED), None, F, PAIRED),
    ("a folded snapshot", snap_of([THREE], OWNED, folded=F), None, FT, OWNED),
    ("an empty snapshot", snap_of([], OWNED), None, [], OWNED),
    ("the snapshot of a window", snap_of(F, WINDOW), None, F, WINDOW),
    ("a pair", snap_of(F, PAIRED), log_of(THREE, behind=F, origin=OWNED), FT, PAIRED),
    ("a pair whose snapshot is folded", snap_of([], PAIRED, folded=F), log_of(THREE, behind=F, origin=OWNED), FT,
     PAIRED),
    ("a pair with a longer log", snap_of(F, PAIRED), log_of(*FT, origin=OWNED), FT, PAIRED),
    ("a pair with a shorter log", snap_of(FT, PAIRED), log_of(*F, origin=OWNED), FT, PAIRED),
    ("a pair with an empty log", snap_of(FT, PAIRED), log_of(behind=FT, origin=OWNED), FT, PAIRED),
    ("a pair with a torn end", snap_of([], PAIRED), log_of(*F, origin=OWNED) + TORN, F, PAIRED),
    ("a pair without batches", snap_of([], PAIRED), log_of(origin=OWNED), [], PAIRED),
    ("a pair whose snapshot says no log", snap_of(F, OWNED), log_of(THREE, behind=F, origin=OWNED), FT, PAIRED),
    ("a pair whose log says no book", snap_of(F, PAIRED), log_of(THREE, behind=F), FT, PAIRED),
    ("a pair whose old log says no book", snap_of(F, PAIRED), log_of(THREE, behind=F, origin=None), FT, PAIRED),
    ("a pair whose snapshot says no book", snap_of(F), log_of(THREE, behind=F, origin=OWNED), FT, PAIRED),
    *[(f"a pair whose snapshot is of version {it}", snap_of(F, version=it), log_of(THREE, behind=F, origin=OWNED), FT,
       PAIRED) for it in (1, 2, 3)],
    ("a pair of no book", snap_of(F), log_of(THREE, behind=F), FT, LOGGED),
    ("a pair of older versions", snap_of(F, version=3), log_of(THREE, behind=F, origin=None), FT, LOGGED),
    ("a pair of a window", snap_of(F, WINDOW._replace(log=1)), log_of(THREE, behind=F, origin=WINDOW), FT,
     WINDOW._replace(log=1)),
    ("a log alone", None, log_of(*FT, origin=OWNED), FT, PAIRED),
    ("an old log alone", None, log_of(*FT, origin=None), FT, LOGGED),
    ("an empty log alone", None, log_of(origin=OWNED), [], PAIRED),
]  # fmt: skip


def folds_replace_the_snapshot():
    """In place: the snapshot has all batches folded, the log stays, and both start."""
    for name, snap, logged, batches, origin in FOLDS:
        files = Files(f"fold {name}", BOTH if logged or origin.log else SNAP, snap, logged)
        before = files.all_bytes()
        check(f"{name}: outputs", fold(files, with_log=logged is not None), (line(batches), "", 0))
        check(f"{name}: the file", held_in(files.snap), snap_of([], origin, folded=batches))
        left = files.all_bytes()
        left.pop("snap", None), before.pop("snap", None)
        check(f"{name}: the other files", left, before)
        if logged or not origin.log:
            check(f"{name}: a start", files.start(), stopped(len(batches), total_of(batches)))


def folds_make_a_new_file():
    """Into a new file: its bytes are the same, and what was read stays."""
    for name, snap, logged, batches, origin in FOLDS:
        files = Files(f"fold to {name}", BOTH if logged or origin.log else SNAP, snap, logged)
        before = files.all_bytes()
        found = fold(files, "--to", out_of(files), with_log=logged is not None)
        check(f"to, {name}: outputs", found, (line(batches), "", 0))
        check(f"to, {name}: the file", held_in(out_of(files)), snap_of([], origin, folded=batches))
        left = files.all_bytes()
        del left["out"]
        check(f"to, {name}: the other files", left, before)
        locks = [it for it in os.listdir(files.folder) if it.endswith(".lock")]
        check(f"to, {name}: no lock's file", locks, [])


# A name, the snapshot, the log that is given, what is reported, and the status.
REFUSED = [
    ("no snapshot", None, None, "file: NotFound", 4),
    ("damage", snap_of(F, OWNED)[:-1], None, "snapshot: Truncated", 3),
    ("a damaged snapshot beside a log", snap_of(F, PAIRED)[:-1], log_of(*FT, origin=OWNED), "snapshot: Truncated", 3),
    ("two books", snap_of(F, PAIRED), log_of(THREE, behind=F, origin=OTHER), "log: OtherBook", 3),
    ("two books and setups", snap_of(F, PAIRED), log_of(*F, origin=OTHER, setup=OTHER_SETUP), "log: OtherBook", 3),
    ("two windows", snap_of(F, WINDOW), log_of(THREE, behind=F, origin=OWNED), "log: OtherBook", 3),
    ("another batch", snap_of([THREE], PAIRED), log_of(*F, origin=OWNED), "log: EntryDiffers at batch 0", 3),
    ("a gap", snap_of(F, PAIRED), log_of(behind=FT, origin=OWNED), "log: Gap at batch 2", 3),
    ("no batch before the log", None, log_of(THREE, behind=F, origin=OWNED), "log: Gap at batch 1", 3),
    ("a log that is none", snap_of(F, PAIRED), b"no log", "log: ShortHead at page 0", 3),
]  # fmt: skip


def refused_folds_change_nothing():
    for name, snap, logged, told, status in REFUSED:
        for where in ("in place", "to a new file"):
            files = Files(f"refused fold {name} {where}", BOTH, snap, logged)
            before = files.all_bytes()
            words = ["--to", out_of(files)] if where != "in place" else []
            found, wanted = fold(files, *words, with_log=logged is not None), ("", f"hhm: {told}\n", status)
            if name == "a log that is none":
                # (which of its faults it is, tests/log_check.py compares)
                found, wanted = found[::2], wanted[::2]
            check(f"{name}, {where}: outputs", found, wanted)
            check(f"{name}, {where}: the files", files.all_bytes(), before)
    for name, snap in [("beside a snapshot", snap_of(F, PAIRED)), ("alone", None)]:
        files = Files(f"fold without the log {name}", BOTH, snap)
        before = files.all_bytes()
        for words in ([], ["--to", out_of(files)]):
            check(f"no log {name} {len(words)}", fold(files, *words, with_log=True), ("", "hhm: log: NotFound\n", 4))
            check(f"no log {name} {len(words)}: the files", files.all_bytes(), before)
        check(f"no log {name}: no lock's file", [it for it in os.listdir(files.folder) if "lock" in it], [])


def names_of_others_are_refused():
    """A path that ends in .new or .lock could be that of a file that hhm makes beside another."""
    files = Files("fold of names", BOTH, snap_of(F, PAIRED), log_of(THREE, behind=F, origin=OWNED))
    for end in (".new", ".lock"):
        for path in ("snap", "log"):
            held = content(os.path.join(files.folder, path))
            write(os.path.join(files.folder, f"out{end}"), held)
            os.symlink(f"out{end}", os.path.join(files.folder, "link"))
            before = files.all_bytes()
            for name in (f"out{end}", "link"):
                other = os.path.join(files.folder, name)
                words = [other] if path == "snap" else [files.snap, "--log", other]
                told = f"hhm: settings: BadPath ({'PATH' if path == 'snap' else 'LOG'})\n"
                for more in ([], ["--to", out_of(files)]):
                    check(f"{path} is {name}, {len(more)}", hhm("fold", *words, *more), ("", told, 2))
                check(f"{path} is {name}: the files", files.all_bytes(), before)
            os.remove(os.path.join(files.folder, "link"))
            os.remove(os.path.join(files.folder, f"out{end}"))
        found = fold(files, "--to", f"{out_of(files)}{end}", with_log=True)
        check(f"OUT is out{end}", found, ("", "hhm: settings: BadPath (OUT)\n", 2))
    out = os.path.join(files.folder, "no", "out")
    check("OUT in no folder", fold(files, "--to", out), ("", "hhm: file: Create\n", 4))
    check("names: the files", files.names(), ["log", "snap"])


def nothing_is_replaced():
    """Whatever is under OUT stays, and so does a link to nothing."""
    files = Files("fold into", BOTH, snap_of(F, OWNED), log_of(THREE, behind=F, origin=OWNED))
    for name, make in [
        ("a file", lambda path: write(path, b"mine")),
        ("the snapshot itself", lambda path: os.link(files.snap, path)),
        ("a folder", os.mkdir),
        ("a link to nothing", lambda path: os.symlink("nothing", path)),
        ("a FIFO", os.mkfifo),
    ]:
        out = in_folder(f"fold into {name}")
        make(out)
        before = os.lstat(out)
        for with_log in (False, True):
            found = fold(files, "--to", out, with_log=with_log)
            check(f"OUT is {name}, {with_log}", found, ("", "hhm: file: Exists (OUT)\n", 4))
        after = os.lstat(out)
        check(f"OUT is {name}: it stays", (after.st_ino, after.st_mtime_ns), (before.st_ino, before.st_mtime_ns))
        check(f"OUT is {name}: nothing beside it", os.path.lexists(out + ".new"), False)
    # It is refused before anything is read.
    missing = hhm("fold", files.snap + ".none", "--to", files.snap)
    check("OUT is there, PATH isn't", missing, ("", "hhm: file: Exists (OUT)\n", 4))


def a_killed_server_is_folded():
    """What a killed server leaves is folded; a start has all, and each batch that is sent again counts once."""
    name, files = "killed", Files("fold killed", BOTH)
    with files.serve() as at:
        with at.link() as link:
            book = book_of(link)
            check(f"{name}: put", asked(link, put_of(FIVE), 21), accepted(0, 5))
            check(f"{name}: save", asked(link, SAVE, 13), saved(1))
            check(f"{name}: put more", asked(link, put_of(THREE), 21), accepted(1, 8))
        kill(at)
    os.chmod(files.snap, 0o640)
    logged = content(files.log)
    check(f"{name}: fold", fold(files, with_log=True), (line(FT), "", 0))
    check(f"{name}: its mode", os.stat(files.snap).st_mode & 0o777, 0o640)
    check(f"{name}: the log", content(files.log) == logged, True)
    check(f"{name}: folded again", fold(files, with_log=True), (line(FT), "", 0))
    with files.serve() as at:
        with at.link() as link:
            check(f"{name}: the book", book_of(link), book)
            all_is_known(name, link, FT)
            check(f"{name}: put then", asked(link, put_of(TWO), 21), accepted(2, 10))
        kill(at)
    check(f"{name}: a start", files.start(), stopped(3, 10))


def servers_keep_their_files():
    """A fold in place beside a server is refused, of each of its paths; one to a new file is made."""
    for options, told in [(SNAP, "file: Busy"), (LOG, "log: Busy"), (BOTH, "log: Busy")]:
        name = f"beside {options}"
        files, held = Files(name, options), (snap_of([], UNKNOWN), log_of(origin=UNKNOWN))
        with files.serve() as at:
            for path, it in zip((files.snap, files.log), held):
                if not os.path.exists(path):
                    write(path, it)
            with at.link() as link:
                check(f"{name}: put", asked(link, put_of(FIVE), 21), accepted(0, 5))
                before = files.all_bytes()
                check(f"{name}: in place", fold(files, with_log=True), ("", f"hhm: {told}\n", 4))
                if "--snapshot" in options:
                    check(f"{name}: alone", fold(files), ("", "hhm: file: Busy\n", 4))
                check(f"{name}: the files", files.all_bytes(), before)
                batches = F if "--log" in options else []
                found = fold(files, "--to", out_of(files), with_log=True)
                check(f"{name}: to a new file", found, (line(batches), "", 0))
                check(f"{name}: stop", asked(link, STOP, 5), STOPPING)
            at.process.communicate(timeout=WAIT)
        check(f"{name}: a start", files.start(), stopped(1, 5))


def a_copy_goes_with_its_log():
    """What is made of a pair starts with a later copy of the log, and never without one."""
    files = Files("fold copied", BOTH)
    with files.serve() as at:
        with at.link() as link:
            check("copy: put", asked(link, put_of(FIVE), 21), accepted(0, 5))
            check("copy: fold", fold(files, "--to", out_of(files), with_log=True), (line(F), "", 0))
            check("copy: put more", asked(link, put_of(THREE), 21), accepted(1, 8))
        kill(at)
    held = held_in(out_of(files))
    alone = Files("fold copied alone", SNAP, held)
    check("copy: without the log", alone.start(), ("", f"hhm: {NEEDS_LOG.format(snap=alone.snap)}\n", 2))
    copy = Files("fold copied with its log", BOTH, held)
    shutil.copy(files.log, copy.log)
    check("copy: with the later log", copy.start(), stopped(2, 8))
    check("copy: the original", files.start(), stopped(2, 8))


def links_lead_to_both():
    """The file that a link leads to is folded, and the link stays."""
    files = Files("fold by links", BOTH, snap_of(F, PAIRED), log_of(THREE, behind=F, origin=OWNED))
    links = [os.path.join(files.folder, name) for name in ("to snap", "to log")]
    for link, path in zip(links, (files.snap, files.log)):
        os.symlink(path, link)
    check("links", hhm("fold", links[0], "--log", links[1]), (line(FT), "", 0))
    check("links stay", [os.path.islink(it) for it in links], [True, True])
    check("links: the file", held_in(files.snap), snap_of([], PAIRED, folded=FT))


def an_output_may_fail():
    """The file is there, and the status says that its line isn't. A closed output is no lock's file."""
    told = "hhm: output failed after 0 bytes\n"
    for to in (False, True):
        for name in ("full", *CLOSED):
            files = Files(f"fold unheard {name} {to}", BOTH, snap_of(F, PAIRED), log_of(THREE, behind=F, origin=OWNED))
            words = ["fold", files.snap, "--log", files.log, *(["--to", out_of(files)] if to else [])]
            if name == "full":
                with open("/dev/full", "wb") as full:
                    ended = subprocess.run([server.PROGRAM, *words], stdout=full, stderr=subprocess.PIPE, timeout=WAIT)
                found, wanted = ("", ended.stderr.decode(), ended.returncode), ("", told, 4)
            else:
                found = hhm(*words, **without(name))
                wanted = ("", "" if 2 in name else told, 4) if 1 in name else (line(FT), "", 0)
            check(f"output {name}, {to}", found, wanted)
            made = out_of(files) if to else files.snap
            check(f"output {name}, {to}: the file", held_in(made), snap_of([], PAIRED, folded=FT))
            locks = [content(os.path.join(files.folder, it)) for it in os.listdir(files.folder) if it.endswith(".lock")]
            check(f"output {name}, {to}: locks", set(locks) <= {b""}, True)


# Other numbers than SMALL that all batches of the kinds of growing.py fit: each is larger, smaller and absent.
OTHERS = [it for it in FITTING if SMALL._replace(**it) != SMALL]
# Files whose batches are ALL: each is folded, with the log that is there.
KINDS = [it for it in [*growing.KINDS, *growing.OLD] if it.log or it.options == SNAP]


def files_of(name, kind):
    """The files of a kind, which a start takes with the options of both where a log is there."""
    return Numbers(name.replace("/", ""), BOTH if kind.log else SNAP, kind.snap, kind.log)


def refolded(kind, setup):
    """The bytes of a fold of a kind's files under a setup."""
    return growing.snap_of([], setup, Origin(kind.known(), log=1 if kind.log else 0), folded=ALL)


def other_numbers_are_taken():
    """Each number larger, smaller, the same and absent, and several at once, in place and into a new file in turn."""
    for row, kind in enumerate(KINDS):
        for place, given in enumerate(FITTING if kind in growing.KINDS else FITTING[row % 3 :: 3]):
            wanted, to = refolded(kind, SMALL._replace(**given)), (row + place) % 2
            name = f"{kind.name} with {given}, {'to a new file' if to else 'in place'}"
            files = files_of(f"fold {name}", kind)
            before = files.all_bytes()
            words = ["--to", out_of(files)] if to else []
            found = fold(files, *words, *words_of(given), with_log=kind.log is not None, env=Quick.env)
            check(f"{name}: outputs", found, (line(ALL), "", 0))
            made = "out" if to else "snap"
            check(f"{name}: the file", held_in(os.path.join(files.folder, made)), wanted)
            left = files.all_bytes()
            left.pop(made, None), before.pop(made, None)
            check(f"{name}: the other files", left, before)


def numbers_are_those_of_the_last_fold():
    """What is folded is folded again: each number is the last that was given, though the log has its own setup."""
    for kind in (growing.KINDS[0], growing.KINDS[2], growing.KINDS[4]):
        files, setup = files_of(f"fold {kind.name} in turn", kind), SMALL
        for given in ({"rows": 9, "limit": 10}, {}, {"limit": 1000, "most": 3, "cuts": ()}, {"cols": 5, "shards": 1}):
            setup = setup._replace(**given)
            found = fold(files, *words_of(given), with_log=kind.log is not None, env=Quick.env)
            check(f"{kind.name} in turn, {given}: outputs", found, (line(ALL), "", 0))
            check(f"{kind.name} in turn, {given}: the file", held_in(files.snap), refolded(kind, setup))
        check(f"{kind.name} in turn: the log", held_in(files.log), kind.log)
        found = fold(files, "--rows", "8", with_log=kind.log is not None)
        told = "hhm: settings: SnapshotDiffers (rows: the file has 9, 8 was given)\n"
        check(f"{kind.name} in turn: fewer rows than the last fold's", found, ("", told, 2))


class Quick:
    """The environment of a program that waits for no disk."""

    env = {}


def starts_with(name, files, words, setup, book):
    """A server on folded files: its setup, its book, all batches, and what its files say."""
    with files.serve(*words, env=Quick.env) as at:
        with at.link() as link:
            growing.all_is_known(name, link, ALL, setup, book)
            check(f"{name}: the snapshot's setup", growing.snap_setup(files), setup)
            if "--log" in files.options:
                held = Log(held_in(files.log))
                check(f"{name}: the log's setup", held.setup, setup)
            # (a batch that only the new numbers allow)
            more = (6, 1, [(0, 0, 0), (setup.rows - 1, setup.cols - 1, 0)])
            if setup.most > 3:
                check(f"{name}: put", asked(link, put_cells_of(more), 21), accepted(3, 10))
        kill(at)
    if "--log" in files.options:
        check(f"{name}: after a kill", files.start(env=Quick.env), stopped(3 + (setup.most > 3), 10))


def servers_start_with_other_numbers():
    """By no numbers and by the given ones, on what a fold leaves in place or makes."""
    cases = [(given, words) for given in OTHERS for words in ({}, given)]
    for place, (given, words) in enumerate(cases):
        kind, setup = KINDS[place % len(KINDS)], SMALL._replace(**given)
        name = f"a start with {words} after a fold of {kind.name} with {given}"
        files = files_of(name, kind)
        made = ["--to", out_of(files)] if place % 3 == 1 else []
        folded = fold(files, *made, *words_of(given), with_log=kind.log is not None, env=Quick.env)
        check(f"{name}: fold", folded, (line(ALL), "", 0))
        if made:
            os.replace(out_of(files), files.snap)
        starts_with(name, files, words_of(words), setup, kind.known())
    check("there is a start of each kind", len(cases) >= len(KINDS), True)


# Numbers that are too small: those of growing.py, of which a fold judges the log's batches with the snapshot's, and
# others that show the order: rows, columns, limit, most batches.
TOO_SMALL = [
    *[(given, told) for given, told, _ in MISFITS],
    ({"rows": 2, "cols": 2}, "rows: the file has 3, 2 was given"),
    ({"rows": 2, "limit": 9}, "rows: the file has 3, 2 was given"),
    ({"cols": 2, "limit": 9, "most": 2}, "cols: the file has 3, 2 was given"),
    ({"cols": 2, "most": 2}, "cols: the file has 3, 2 was given"),
    ({"limit": 9, "most": 2}, "limit: the file has 10, 9 was given"),
    ({"rows": 3, "cols": 3, "limit": 8}, "limit: the file has 10, 8 was given"),
    ({"rows": 2**60, "cols": 1, "cuts": (), "shards": 64}, "cols: the file has 3, 1 was given"),
]


PLACES = "in place", "to a new file"


def refused_of(name, kind, more, told, status, places=PLACES):
    """A fold that is refused in place and into a new file: what it reports, and that no file is made or changed."""
    for where in places:
        files = files_of(f"refused {name} {where}", kind)
        before = files.all_bytes()
        words = ["--to", out_of(files)] if where != "in place" else []
        found = fold(files, *words, *more, with_log=kind.log is not None)
        check(f"{name}, {where}: outputs", found, ("", f"hhm: {told}\n", status))
        check(f"{name}, {where}: the files", files.all_bytes(), before)
        locks = {it: content(os.path.join(files.folder, it)) for it in os.listdir(files.folder) if it.endswith(".lock")}
        may_lock = where == "in place" and not told.startswith("settings: Bad")
        check(f"{name}, {where}: locks", locks, {it: b"" for it in locks} if may_lock else {})


def numbers_that_do_not_fit_are_refused():
    """By the first number's name, with what the files have and what was given; in place and into a new file in turn."""
    for row, kind in enumerate(KINDS):
        for place, (given, told) in enumerate(TOO_SMALL if kind in growing.KINDS else TOO_SMALL[row % 3 :: 3]):
            where, told = PLACES[(row + place) % 2], f"settings: SnapshotDiffers ({told})"
            refused_of(f"{kind.name} with {given}", kind, words_of(given), told, 2, [where])


def other_numbers_need_the_log():
    """Of a snapshot that goes with a log, other numbers are refused without it, whether they fit or not."""
    told = "settings: NeedsLog (PATH: a log goes with it)"
    for name, held in [("a snapshot", growing.snap_of(ALL, origin=PAIRED)),
                       ("a folded snapshot", growing.snap_of([], origin=PAIRED, folded=ALL))]:  # fmt: skip
        kind = growing.Kind(f"{name} of a pair", SNAP, held, None, None, None)
        for given in [*OTHERS, *[it for it, _ in TOO_SMALL]]:
            refused_of(f"{kind.name} with {given}", kind, words_of(given), told, 2)
        for given in [it for it in FITTING if it not in OTHERS]:
            for words in ([], ["--to"]):
                files = files_of(f"{kind.name}, {given}, {words}", kind)
                found = fold(files, *words, *([out_of(files)] if words else []), *words_of(given))
                check(f"{kind.name} with the same numbers {given}, {words}", found, (line(ALL), "", 0))
                wanted = growing.snap_of([], SMALL, PAIRED, folded=ALL)
                made = out_of(files) if words else files.snap
                check(f"{kind.name} with {given}, {words}: the file", held_in(made), wanted)


# Words that no setup has, and what is reported.
BAD = [
    ("rows", "x", "BadNumber"), ("rows", "18446744073709551616", "BadNumber"), ("rows", "+3", "BadNumber"),
    ("rows", "0", "BadDimension"), ("rows", str(2**60 + 1), "BadDimension"), ("cols", "3 ", "BadNumber"),
    ("cols", "0", "BadDimension"), ("cols", str(2**60 + 1), "BadDimension"), ("cuts", "1,,2", "BadNumber"),
    ("cuts", "4,4", "BadCuts"), ("cuts", "0", "BadCuts"), ("cuts", str(2**40 + 1), "BadCuts"),
    ("cuts", "1,2,3,4,5,6,7,8", "BadCuts"), ("shards", "two", "BadNumber"), ("shards", "0", "BadShards"),
    ("shards", "65", "BadShards"), ("limit", "1.5", "BadNumber"), ("limit", "0", "BadLimit"),
    ("most", "1e3", "BadNumber"), ("most", "0", "BadBatches"), ("most", str(2**30 + 1), "BadBatches"),
]  # fmt: skip


def bad_numbers_are_refused():
    """As by a server, before any file is read or made: of a pair, of damage, and where nothing is there."""
    pair, damage = growing.KINDS[4], growing.Kind("damage", SNAP, b"no snapshot", None, None, None)
    for name, word, told in BAD:
        for kind in (pair, damage, growing.Kind("nothing", SNAP, None, None, None, None)):
            words = [OPTIONS[name], word]
            refused_of(f"{kind.name} with {words}", kind, words, f"settings: {told}", 2)
    # All are read before the setup is judged, and that in the order of its numbers.
    for words, told in [(["--rows", "0", "--max-batches", "x"], "BadNumber"),
                        (["--max-batches", "0", "--cuts", "4,4", "--rows", "0"], "BadDimension"),
                        (["--max-batches", "0", "--limit", "0", "--shards", "0", "--cuts", "2,1"], "BadCuts"),
                        (["--max-batches", "0", "--limit", "0", "--shards", "0"], "BadShards"),
                        (["--max-batches", "0", "--limit", "0"], "BadLimit")]:  # fmt: skip
        refused_of(f"several, {words}", damage, words, f"settings: {told}", 2)
    # They come before a name that is refused and a file that is there; a number that doesn't fit comes after these.
    files = files_of("bad numbers and names", pair)
    before = files.all_bytes()
    for words, told, status in [([files.snap + ".new"], "settings: BadPath (PATH)", 2),
                                ([files.snap, "--log", files.log + ".lock"], "settings: BadPath (LOG)", 2),
                                ([files.snap, "--to", out_of(files) + ".new"], "settings: BadPath (OUT)", 2),
                                ([files.snap, "--to", files.log], "file: Exists (OUT)", 4),
                                ([files.snap + ".none"], "file: NotFound", 4)]:  # fmt: skip
        bad = hhm("fold", *words, "--rows", "0")
        check(f"a bad number and {told}", bad, ("", "hhm: settings: BadDimension\n", 2))
        check(f"a small number and {told}", hhm("fold", *words, "--rows", "2"), ("", f"hhm: {told}\n", status))
    check("bad numbers and names: the files", files.all_bytes(), before)
    # Damage comes before any number that the file is judged by.
    refused_of("damage and rows", damage, ["--rows", "1"], "snapshot: BadMark", 3)
    for words in (["--rows"], ["--rows", "4", "--rows", "4"]):
        files = files_of(f"no command line {words}", pair)
        before = files.all_bytes()
        found = fold(files, *words, with_log=True)
        check(f"{words}: outputs", (found[0], found[1].startswith("error: "), found[2]), ("", True, 2))
        check(f"{words}: the files", files.all_bytes(), before)


def a_grown_copy_takes_a_later_log():
    """The server goes on under the old numbers meanwhile: what it logs fits more rows, and perhaps no smaller limit."""
    for given, more in [({"rows": 9, "cols": 4}, {}), ({"rows": 9, "limit": 7}, {"limit": 8})]:
        files = Numbers(f"copy {given}", BOTH)
        with files.serve(*words_of(SMALL._asdict())) as at:
            with at.link() as link:
                check(f"copy {given}: put", asked(link, put_of(FIVE), 21), accepted(0, 5))
                found = fold(files, "--to", out_of(files), *words_of(given), with_log=True)
                check(f"copy {given}: fold", found, (line(F), "", 0))
                check(f"copy {given}: put more", asked(link, put_of(THREE), 21), accepted(1, 8))
            kill(at)
        copy = Numbers(f"copy {given} of it", BOTH, held_in(out_of(files)))
        shutil.copy(files.log, copy.log)
        check(f"copy {given}: its setup", growing.snap_setup(copy), SMALL._replace(**given))
        if more:
            before = copy.all_bytes()
            check(f"copy {given}: a start", copy.start(), ("", "hhm: log: NotFresh at batch 1\n", 3))
            check(f"copy {given}: its files", copy.all_bytes(), before)
        check(f"copy {given}: a start with {more}", copy.start(*words_of(more)), stopped(2, 8))
        check(f"copy {given}: then the setup", growing.snap_setup(copy), SMALL._replace(**{**given, **more}))


REFUSALS = re.compile(r"hhm: file: (Create|Write|Sync|Rename) \(.*\)\n")
GROWN = {"rows": 9, "cuts": (), "shards": 7, "limit": 8, "most": 2}


class Folded(Broken):
    """Files whose fold makes calls that can fail or be its last."""

    # The words behind the paths, and the numbers that the fold is given.
    how_made, given = (), {}

    def start(self, *more):
        return fold(self, *self.how_made, *words_of(self.given), with_log=True, **self.room.how())

    def words(self, *more):
        return Numbers.words(self, *more)

    def begins(self, numbers):
        """How a server on these files ends that is given these numbers."""
        return Files.start(self, *words_of(numbers), **self.room.how())


# Files at whose fold each call fails or is the last: a name, the snapshot, the log, the words, and the numbers.
BROKEN = [
    ("a pair", snap_of(F, PAIRED), log_of(THREE, behind=F, origin=OWNED), (), {}),
    ("a log alone", None, log_of(*FT, origin=OWNED), (), {}),
    ("a pair, to a new file", snap_of(F, PAIRED), log_of(THREE, behind=F, origin=OWNED), ("--to",), {}),
    ("a pair that grows", snap_of(F, PAIRED), log_of(THREE, behind=F, origin=OWNED), (), GROWN),
    ("a log that grows", None, log_of(*FT, origin=OWNED), (), GROWN),
]


def both_start(name, files):
    """What is left starts by no numbers, with those that the snapshot says, and by the given ones."""
    held = [(path, content(path) if os.path.exists(path) else None) for path in (files.snap, files.log)]
    for numbers in ({}, files.given or SMALL._asdict()):
        for path, was in held:
            if was is not None:
                write(path, was)
            elif os.path.exists(path):
                os.remove(path)
        setup = (growing.snap_setup(files) if held[0][1] else SMALL)._replace(**numbers)
        check(f"{name}: a start with {numbers}", files.begins(numbers), stopped(2, 8))
        found = growing.snap_setup(files), Log(held_in(files.log)).setup
        check(f"{name}: then the setups with {numbers}", found, (setup, setup))


def all_is_whole(name, files, ended):
    """Each file is as it was, or as the fold leaves it; a server starts and has all."""
    before, after = files.before[0], growing.snap_of([], SMALL._replace(**files.given), PAIRED, folded=FT)
    check(f"{name}: the log", held_in(files.log), files.before[1])
    made = out_of(files) if files.how_made else files.snap
    held = held_in(made)
    check(f"{name}: the file that is made", held in (None if files.how_made else before, after), True)
    if files.how_made:
        check(f"{name}: the snapshot", held_in(files.snap), before)
    if ended[2] == 0:
        check(f"{name}: it is made", held, after)
    both_start(name, files)


def each_call_of_a_fold_may_be_the_last():
    """A fold that is killed before a call that changes a file, or whose call fails, leaves the old or the new one."""
    for name, snap, logged, words, given in BROKEN:
        for action in (DIE_BEFORE, FAIL) if snap else (DIE_BEFORE,):
            files = Folded(f"fold {name} {action}", BOTH, snap, logged)
            files.how_made, files.given = (*words, out_of(files)) if words else (), given
            calls = list(files.calls())
            check(f"{name}: there are calls", len(calls) > 4, True)
            for call, number in calls:
                at = f"{name}: action {action} at call {call}, {number}"
                ended = files.broken_start(call, number, action)
                if action == DIE_BEFORE:
                    check(at, (ended[0], ended[2]), ("", -signal.SIGKILL))
                else:
                    told = ended[0] == "" and REFUSALS.fullmatch(ended[1]) is not None and ended[2] == 4
                    check(f"{at}: {ended}", ended == (line(FT), "", 0) or told, True)
                all_is_whole(at, files, ended)


def all_are_tried():
    Room.library = library_of("lose_power.c", server.FOLDER)
    Quick.env = {**Room(in_folder("no waiting")).how()["env"], "POWER_FOLDER": server.FOLDER}
    run_each(
        folds_replace_the_snapshot,
        folds_make_a_new_file,
        refused_folds_change_nothing,
        names_of_others_are_refused,
        nothing_is_replaced,
        a_killed_server_is_folded,
        servers_keep_their_files,
        a_copy_goes_with_its_log,
        links_lead_to_both,
        an_output_may_fail,
        other_numbers_are_taken,
        numbers_are_those_of_the_last_fold,
        servers_start_with_other_numbers,
        numbers_that_do_not_fit_are_refused,
        other_numbers_need_the_log,
        bad_numbers_are_refused,
        a_grown_copy_takes_a_later_log,
        each_call_of_a_fold_may_be_the_last,
    )


if __name__ == "__main__":
    sys.exit(server.run_all(all_are_tried))
