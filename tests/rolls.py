#!/usr/bin/env python3
"""Runs `hhm roll` of the built program on snapshots of windows, and compares what it leaves.

    python3 tests/rolls.py PATH-TO-HHM [TURNS]

A coarser file has each window once, however often and in what parts it is rolled. Windows are drawn in 60 turns, or in
TURNS. The bytes that are wanted are written by snap_bytes.py from docs/FORMATS.md, and sums are added up in a
dictionary. Kills and failures at each call come from lose_power.c and disks.py. It prints a line for each check that
fails and at the end `N passed, M failed`; the status is 1 where one fails. Linux, Python's own library and the
toolchain of Rattle.
"""
import fcntl
import os
import random
import re
import signal
import subprocess
import sys

import server
from disks import DIE_BEFORE, FAIL, WRITES
from faults import bare
from identity import Broken, Room
from refused import EIO, Refusing, build_library, library_of
from server import check, content
from server_faults import in_folder, write
from server_log import CLOSED, hhm, run_each
from snap_bytes import BOOK, MOST, NONE, OWNED, SIZE, UNKNOWN, Origin, fields, snapshot

FIVE, THREE = (7, 1, [(0, 0, 5)]), (7, 1, [(0, 0, 3)])
# The lines of a first roll of both, and of a further one.
FIRST, AGAIN = "rolled 2 batches 2 total 8\n", "rolled 0 batches 2 total 8\n"
NAMES = ("five", "six")


def total_of(batches):
    return sum(count for _, _, cells in batches for _, _, count in cells)


def sum_of(batches):
    counts = {}
    for _, _, cells in batches:
        for row, col, count in cells:
            counts[row, col] = counts.get((row, col), 0) + count
    return counts


def snap_of(batches, origin=UNKNOWN, folded=0, version=4, **setup):
    """A snapshot of these batches, of which the first so many are folded."""
    past = ([entry_of(*it[:2], [it]) for it in batches[:folded]], cells_of(sum_of(batches[:folded])))
    past = None if version == 1 else past
    return snapshot(batches[folded:], total_of(batches), past=past, version=version, origin=origin, **setup)


def cells_of(counts):
    return [(*place, counts[place]) for place in sorted(counts)]


def entry_of(client, number, batches):
    return client, number, len(sum_of(batches)), total_of(batches)


def rolled(windows, client=9, before=(), origin=UNKNOWN, **setup):
    """The coarser file of windows, each a number and its batches, behind batches that were there before."""
    entries = [entry_of(*it[:2], [it]) for it in before]
    entries += [entry_of(client, number, batches) for number, batches in windows]
    batches = [*before, *(it for _, batches in windows for it in batches)]
    return snapshot([], total_of(batches), past=(entries, cells_of(sum_of(batches))), origin=origin, **setup)


def window(number, book=BOOK, log=0):
    return Origin(book, number, log)


class Windows:
    """A folder with a coarser file, maybe, and windows' files, by their names."""

    def __init__(self, name, to=None, **files):
        self.folder = in_folder(f"roll {name}")
        os.makedirs(self.folder)
        self.to = self.path("to")
        if to is not None:
            write(self.to, to)
        for word, held in files.items():
            write(self.path(word), held)

    def path(self, name):
        return os.path.join(self.folder, name)

    def word(self, name):
        """A file as a command line names it."""
        front, sign, end = name.rpartition("=")
        return front + sign + self.path(end)

    def roll(self, *names, client="9", **how):
        return hhm("roll", self.to, client, *(self.word(it) for it in names), **how)

    def held(self):
        return content(self.to) if os.path.exists(self.to) else None

    def names(self):
        return sorted(os.listdir(self.folder))

    def told(self, fault, status, name=None):
        """What a fault of a file is told as."""
        place = "" if name is None else f" in {self.path(name)}"
        return "", f"hhm: {fault}{place}\n", status


def both(**more):
    return {"five": snap_of([FIVE], window(5)), "six": snap_of([THREE], window(6)), **more}


BOTH = rolled([(5, [FIVE]), (6, [THREE])])


def windows_are_rolled():
    """In one run, again, and in two runs: the same bytes. Another window of the same number changes nothing."""
    one, two = Windows("one run", **both()), Windows("two runs", **both())
    check("one run", one.roll(*NAMES), (FIRST, "", 0))
    check("one run: the file", one.held(), BOTH)
    place = os.stat(one.to).st_ino
    check("again", one.roll(*NAMES), (AGAIN, "", 0))
    check("again, the other way round", one.roll("six", "five", "six"), (AGAIN, "", 0))
    check("again: the very file", (one.held(), os.stat(one.to).st_ino), (BOTH, place))
    check("two runs: the first", two.roll("five"), ("rolled 1 batches 1 total 5\n", "", 0))
    check("two runs: both", two.roll(*NAMES), ("rolled 1 batches 2 total 8\n", "", 0))
    check("two runs: the file", two.held(), BOTH)
    check("two runs: no other file", two.names(), ["five", "six", "to", "to.lock"])
    write(one.path("five"), snap_of([(7, 1, [(0, 0, 4), (0, 1, 1)])], window(5)))
    write(one.path("seven"), snap_of([THREE], window(7)))
    check("another five", one.roll("seven", "five"), one.told("snapshot: NumberReused", 3, "five"))
    check("another five: the file", one.held(), BOTH)
    check("by another client", one.roll("five", client="10"), ("rolled 1 batches 3 total 13\n", "", 0))
    check("it is one of the book", hhm("check", one.to)[0].split()[7:10], ["3", "total", "13"])
    check("has", hhm("has", one.to, "9", "6"), ("index 1 cells 1 total 3\n", "", 0))
    check("twice at once", Windows("twice", **both()).roll("five", "five"), ("rolled 1 batches 1 total 5\n", "", 0))


def numbers_are_given():
    """A file without a window is given with its number. A path with another word before = is a path."""
    for version in range(1, 5):
        files = Windows(f"given {version}", five=snap_of([FIVE], version=version), six=snap_of([THREE], OWNED))
        check(f"given {version}", files.roll("5=five", "006=six"), (FIRST, "", 0))
        check(f"given {version}: the file", files.held(), BOTH)
    files = Windows("most", five=snap_of([FIVE]), **{"a=five": snap_of([FIVE], window(5))})
    check("the highest number", files.roll(f"{MOST - 1}=five"), ("rolled 1 batches 1 total 5\n", "", 0))
    check("the highest number: the file", files.held(), rolled([(MOST - 1, [FIVE])]))
    ended = hhm("roll", "to2", "9", "a=five", cwd=files.folder)
    check("no number", ended, ("rolled 1 batches 1 total 5\n", "", 0))
    check("its own number", Windows("own", **both()).roll("5=five"), ("rolled 1 batches 1 total 5\n", "", 0))
    for word in (f"{MOST}=five", "9" * 21 + "=five", "18446744073709551616=five"):
        check(f"number {word}", files.roll(word), files.told("settings: BadNumber", 2))
    for client in ("", "x", "-1", f"{MOST + 1}"):
        ended = hhm("roll", files.to, *([client] if client != "-1" else ["--", client]), files.path("five"))
        check(f"client {client}", ended, files.told("settings: BadNumber", 2))
    check("the highest client", files.roll("1=five", client=f"{MOST}"), ("rolled 1 batches 2 total 10\n", "", 0))


# What is refused: a name, the fault, its file, the words, and the files.
REFUSALS = [
    ("no window", "NoWindow", "five", ("five",), {"five": snap_of([FIVE], OWNED)}),
    ("with a log", "NotClosed", "six", NAMES, both(six=snap_of([THREE], window(6, log=1)))),
    ("with a log, given", "NotClosed", "five", ("5=five",), {"five": snap_of([FIVE], Origin(BOOK, log=1))}),
    ("another number", "OtherBook", "five", ("6=five",), both()),
    ("another book", "OtherBook", "six", NAMES, both(six=snap_of([THREE], window(6, BOOK + 1)))),
    ("more rows", "DimensionsDiffer", "six", NAMES, both(six=snap_of([THREE], window(6), rows=4))),
    ("fewer columns", "DimensionsDiffer", "six", NAMES, both(six=snap_of([THREE], window(6), cols=2))),
    ("above the limit", "OverTotal", "six", NAMES, both(five=snap_of([FIVE], window(5), limit=7))),
    ("too many", "BookFull", "six", NAMES, both(five=snap_of([FIVE], window(5), most=1))),
    ("another window", "NumberReused", "six", NAMES, both(six=snap_of([THREE], window(5)))),
    ("fewer cells", "NumberReused", "six", NAMES, both(six=snap_of([(7, 1, [(0, 0, 4), (1, 0, 1)])], window(5)))),
    ("no mark", "BadMark", "six", NAMES, both(six=b"no snapshot")),
    ("cut short", "Truncated", "five", NAMES, both(five=snap_of([FIVE], window(5))[:-1])),
]


def refused_windows_change_nothing():
    """Neither where a coarser file is there nor where none is."""
    for name, fault, at, words, held in REFUSALS:
        files = Windows(f"refused {name}", **held)
        check(f"refused: {name}", files.roll(*words), files.told(f"snapshot: {fault}", 3, at))
        check(f"refused: {name}: no file", files.names(), sorted([*held, "to.lock"]))
        limits = {"limit": 107, "most": 2} if fault in ("OverTotal", "BookFull") else {}
        if fault != "BookFull":
            one = (7, 9, [(1, 1, 100 if fault == "OverTotal" else 1)])
            write(files.to, snap_of([one], **limits))
            before = files.held(), os.stat(files.to).st_ino
            check(f"refused: {name}: again", files.roll(*words), files.told(f"snapshot: {fault}", 3, at))
            check(f"refused: {name}: the file", (files.held(), os.stat(files.to).st_ino), before)
    files = Windows("no file", **both())
    check("no file", files.roll("five", "seven"), files.told("file: NotFound", 4, "seven"))
    check("a folder", files.roll("."), files.told("snapshot: Read", 4, "."))
    check("no file: nothing is made", files.names(), ["five", "six", "to.lock"])
    os.mkfifo(files.path("pipe"))
    check("a pipe", files.roll("pipe"), files.told("file: OpenFailed", 4, "pipe"))


def books_are_compared_of_windows_alone():
    """What isn't known may be the same, and the book of a file without a window says nothing."""
    for name, five, six in [
        ("one unknown", window(5), window(6, 0)), ("the first unknown", window(5, 0), window(6)),
        ("no window", window(5), Origin(BOOK + 1)), ("none", Origin(BOOK), Origin(BOOK + 1)),
    ]:  # fmt: skip
        files = Windows(f"books, {name}", five=snap_of([FIVE], five), six=snap_of([THREE], six))
        check(f"books, {name}", files.roll("5=five", "6=six"), (FIRST, "", 0))
    files = Windows("books, a third", **both(six=snap_of([THREE], window(6, 0)), eight=snap_of([THREE], window(8, 7))))
    check("books, a third", files.roll(*NAMES, "eight"), files.told("snapshot: OtherBook", 3, "eight"))


def coarser_files_are_taken():
    """What is there is folded, and keeps its book and its setup; a window's file, and one with a log, stay."""
    before = [(1, 1, [(0, 0, 0), (2, 2, 7)]), (9, 4, [(0, 0, 1)])]
    for folded in range(3):
        for origin in (UNKNOWN, OWNED):
            setup = {"cuts": (), "shards": 7, "limit": 16, "most": 4}
            files = Windows(f"before {folded} {origin}", snap_of(before, origin, folded, **setup), **both())
            check(f"before {folded}", files.roll(*NAMES), ("rolled 2 batches 4 total 16\n", "", 0))
            wanted = rolled([(5, [FIVE]), (6, [THREE])], before=before, origin=origin, **setup)
            check(f"before {folded}: the file", files.held(), wanted)
    held = snap_of([(9, 5, [(1, 1, 5)])])
    files = Windows("not folded", held, **both())
    check("what is there isn't folded alone", files.roll("five"), ("rolled 0 batches 1 total 5\n", "", 0))
    check("what is there isn't folded alone: the file", files.held(), held)
    for name, fault, held in [
        ("of a window", "snapshot: HasWindow", snap_of([FIVE], window(1))),
        ("with a log", "snapshot: NotClosed", snap_of([FIVE], Origin(BOOK, log=1))),
        ("that is none", "snapshot: BadVersion", b"HHMSNAP\n" + bytes(40)),
    ]:
        files = Windows(f"to {name}", held, **both())
        check(f"a file {name}", files.roll(*NAMES), files.told(fault, 3, "to"))
        check(f"a file {name}: it stays", files.held(), held)


def names_and_locks():
    """Names that hhm makes beside a file are refused. A lock is held, and links lead to their files."""
    files = Windows("names", **both())
    for end in (".new", ".lock"):
        ended = hhm("roll", files.to + end, "9", files.path("five"))
        check(f"to {end}", ended, files.told("settings: BadPath (TO)", 2))
        check(f"file {end}", files.roll("five", "to" + end), files.told("settings: BadPath (FILE)", 2))
    check("names: nothing is made", files.names(), ["five", "six"])
    with open(files.to + ".lock", "w") as lock:
        fcntl.flock(lock, fcntl.LOCK_EX)
        check("busy", files.roll("five"), files.told("file: Busy", 4, "to"))
    os.symlink(files.path("there"), files.path("link"))
    write(files.path("there"), snap_of([THREE]))
    ended = hhm("roll", files.path("link"), "9", files.path("five"))
    check("a link", ended, ("rolled 1 batches 2 total 8\n", "", 0))
    check("a link: it stays", os.path.islink(files.path("link")), True)
    ended = hhm("roll", os.path.join(files.folder, "none", "to"), "9", files.path("five"))
    check("no folder", ended, files.told("file: Create", 4))
    write(files.to + ".new", b"left over")
    check("left over", files.roll(*NAMES), (FIRST, "", 0))
    check("left over: it is gone", os.path.exists(files.to + ".new"), False)


def an_output_may_fail():
    """The file is saved, and the status says that its line isn't."""
    files = Windows("output", **both())
    with open("/dev/full", "w") as full:
        ended = subprocess.run([server.PROGRAM, "roll", files.to, "9", files.path("five")], stdout=full,
                               stderr=subprocess.PIPE, text=True, timeout=60)  # fmt: skip
    check("output", (ended.stderr, ended.returncode), ("hhm: output failed after 0 bytes\n", 4))
    check("output: the file", files.held(), rolled([(5, [FIVE])]))
    ended = subprocess.run(["bash", "-c", f"'{server.PROGRAM}' roll '{files.to}' 9 '{files.path('six')}' >&-"],
                           stderr=subprocess.PIPE, text=True, timeout=60)  # fmt: skip
    check("closed", (ended.stderr, ended.returncode), ("hhm: output failed after 0 bytes\n", 4))
    check("closed: the files", (files.held(), content(files.to + ".lock")), (BOTH, b""))


def drawn_window(dice, size):
    """Some batches, of which a place comes again."""
    batches = []
    for number in range(dice.randrange(5)):
        places = {(dice.randrange(4), size - 1 - dice.randrange(4)) for _ in range(dice.randrange(1, 12))}
        batches.append((dice.randrange(3), number, [(*it, dice.randrange(100)) for it in sorted(places)]))
    return batches


def drawn_ones_are_rolled():
    """Windows in any order, in any parts and with repeats, half of them folded in part: the sum of each once."""
    dice = random.Random(57)
    setup = {"rows": SIZE, "cols": SIZE, "limit": MOST, "most": 1000}
    for turn in range(int(sys.argv[2]) if len(sys.argv) > 2 else 60):
        numbers = dice.sample(range(1000), dice.randrange(1, 9))
        drawn = {number: drawn_window(dice, SIZE) for number in numbers}
        held = {
            f"w{number}": snap_of(batches, window(number), dice.randrange(len(batches) + 1), **setup)
            for number, batches in drawn.items()
        }
        files, order = Windows(f"drawn {turn}", **held), []
        for _ in range(dice.randrange(1, 4)):
            part = [dice.choice(numbers) for _ in range(dice.randrange(1, 6))]
            new = [it for at, it in enumerate(part) if it not in order and it not in part[:at]]
            order += new
            total = sum(total_of(drawn[it]) for it in order)
            line = f"rolled {len(new)} batches {len(order)} total {total}\n"
            check(f"drawn {turn}: {part}", files.roll(*(f"w{it}" for it in part)), (line, "", 0))
            wanted = rolled([(it, drawn[it]) for it in order], **setup)
            check(f"drawn {turn}: {part}: the file", files.held(), wanted)


REFUSED_SAVE = re.compile(r"hhm: file: (Create|Write|Sync|Rename) \(.*\)\n")


class Rolled(Broken):
    """A coarser file whose roll makes calls that can fail or be its last."""

    windows = ()

    def start(self, *more):
        return hhm("roll", self.snap, "9", *self.windows, **self.room.how())


def each_call_of_a_roll_may_be_the_last():
    """A roll that is killed before a call that changes a file, or whose call fails, leaves the old or the new file; and
    once more leaves the new one."""
    held = Windows("broken windows", **both())
    for name, to, wanted in [
        ("a new file", None, BOTH),
        ("a file with one", rolled([(5, [FIVE])]), BOTH),
        ("a file with others", snap_of([(1, 1, [(1, 1, 1)])]), rolled([(5, [FIVE]), (6, [THREE])], before=[(1, 1, [(1, 1, 1)])])),
    ]:
        for action in (DIE_BEFORE, FAIL):
            files = Rolled(f"roll {name} {action}", (), to, None)
            files.windows = [held.path(it) for it in NAMES]
            calls = list(files.calls())
            check(f"{name}: there are calls", len(calls) > 3, True)
            for call, number in calls:
                at = f"{name}: action {action} at call {call}, {number}"
                ended = files.broken_start(call, number, action)
                if action == DIE_BEFORE:
                    check(at, (ended[0], ended[2]), ("", -signal.SIGKILL))
                else:
                    told = ended[0] == "" and REFUSED_SAVE.fullmatch(ended[1]) is not None and ended[2] == 4
                    check(f"{at}: {ended}", ended[2] == 0 or told, True)
                found = content(files.snap) if os.path.exists(files.snap) else None
                check(f"{at}: old or new", found in (to, wanted), True)
                files.start()
                check(f"{at}: once more", content(files.snap), wanted)
                names = sorted(it for it in os.listdir(files.folder) if not it.endswith(".lock"))
                check(f"{at}: no other file", names, ["snap"])


def a_refused_call_leaves_the_old_file():
    """A roll each of whose growths, reads and writes is refused in turn does all, or tells it and leaves the old file."""
    build_library(server.FOLDER)
    old, wanted = rolled([(4, [FIVE])]), rolled([(4, [FIVE]), (5, [FIVE]), (6, [THREE])])
    files = Windows("refused calls", old, **both())
    words = [files.path(name) for name in NAMES]
    reads = {f"snapshot: Read in {path}" for path in (files.to, *words)}
    for kind, error, faults in [
        ("growth", 0, {"memory"}),
        ("fault", EIO, {*reads, "file: Write", "file: Sync", "file: Rename", "output failed after 0 bytes"}),
    ]:
        at, met, told = 1, True, set()
        while met and at < 2_000:
            write(files.to, old)
            refusing = Refusing(kind, error, at)
            output, fault, status = hhm("roll", files.to, "9", *words, **refusing.how)
            met = refusing.was_met()
            line, found = bare(fault)[5:-1], files.held()
            if status == 0:
                check(f"refused {kind} {at}", (output, fault, found), ("rolled 2 batches 3 total 13\n", "", wanted))
            else:
                told.add(line)
                # Once the name is the new file's, the folder's sync may fail.
                left = {"file: Rename": (old, wanted), "output failed after 0 bytes": (wanted,)}.get(line, (old,))
                check(f"refused {kind} {at}: {fault}", (output, found in left), ("", True))
            at += 1
        check(f"refused {kind}: each is told", told, faults)
        check(f"refused {kind}: the last run", status, 0)


def a_full_disk_leaves_the_old_file():
    """A file system without room, where one may be mounted: the old file stays, and with room the roll is done."""
    files = Windows("full", rolled([(4, [FIVE])]), **both())
    many = [(7, 1, [(0, col, 1) for col in range(6000)])]
    setup = {"rows": SIZE, "cols": SIZE, "limit": MOST}
    folder = files.path("disk")
    os.mkdir(folder)
    mount = ["mount", "-t", "tmpfs", "-o", "size=64k", "tmpfs", folder]
    if subprocess.run(mount, capture_output=True).returncode != 0:
        print("no file system may be mounted here: a full one isn't tried")
        return
    try:
        old = rolled([(4, [FIVE])], **setup)
        write(os.path.join(folder, "to"), old)
        write(files.path("many"), snap_of(many, window(5), **setup))
        words = ("roll", os.path.join(folder, "to"), "9", files.path("many"))
        check("full", hhm(*words), ("", "hhm: file: Write\n", 4))
        check("full: the file", content(os.path.join(folder, "to")), old)
        check("full: no other file", sorted(os.listdir(folder)), ["to", "to.lock"])
        subprocess.run(["mount", "-o", "remount,size=4m", folder], check=True)
        check("room", hhm(*words), ("rolled 1 batches 2 total 6005\n", "", 0))
        check("room: the file", content(os.path.join(folder, "to")), rolled([(4, [FIVE]), (5, many)], **setup))
    finally:
        subprocess.run(["umount", folder], check=True)


def all_are_tried():
    Room.library = library_of("lose_power.c", server.FOLDER)
    run_each(
        windows_are_rolled,
        numbers_are_given,
        refused_windows_change_nothing,
        books_are_compared_of_windows_alone,
        coarser_files_are_taken,
        names_and_locks,
        an_output_may_fail,
        drawn_ones_are_rolled,
        each_call_of_a_roll_may_be_the_last,
        a_refused_call_leaves_the_old_file,
        a_full_disk_leaves_the_old_file,
    )


if __name__ == "__main__":
    sys.exit(server.run_all(all_are_tried))
