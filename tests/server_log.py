#!/usr/bin/env python3
"""Starts the built program as a server with a log, and compares what it answers, what the log has, and how it starts.

    python3 tests/server_log.py PATH-TO-HHM

Servers are killed, stopped and started again on logs that are whole, torn, damaged and another's; logs that are full or
whose calls fail are in server_log_faults.py. What is wanted was worked out by hand from docs/FORMATS.md, and the bytes
of logs are those of log_bytes.py. It prints a line for each check that fails and at the end `N passed, M failed`; the
status is 1 where one fails. Linux, and nothing but Python's own library.
"""
import itertools
import os
import shutil
import signal
import socket
import struct
import subprocess
import sys
import time
import traceback

import log_bytes
import program
import server
from faults import bare
from log_bytes import Log, block, entry_of, fields, head, log, pages_of, with_book
from server import SMALL, WAIT, Server, accepted, check, content, put_frame, refused, text
from server_faults import OTHER, SAVE, STATUS, STOP, STOPPING, asked, counts, in_folder, in_snap, write
from snap_bytes import OWNED, PAIRED, FirstFault, with_byte

FIVE, THREE, TWO = (7, 1, [(0, 0, 5)]), (8, 1, [(0, 0, 3)]), (9, 1, [(0, 0, 2)])
# Which of standard input, output and error are closed before a program begins.
CLOSED = [it for count in range(4) for it in itertools.combinations(range(3), count)]
STORED = struct.pack(">IB", 0, 9)
PAGE = log_bytes.PAGE
BOTH = entry_of(FIVE), entry_of(THREE)


def put_of(batch):
    """The frame of a put of a batch with one cell at the first place, as a text."""
    return put_frame(batch[0], batch[1], text(batch[2][0][2]))


def saved(batches):
    return struct.pack(">IBQ", 8, 0x86, batches)


def hhm(*words, **how):
    """What the program writes to both outputs, and its status."""
    ended = subprocess.run([server.PROGRAM, *words], capture_output=True, text=True, timeout=WAIT, **how)
    return ended.stdout, ended.stderr, ended.returncode


def started(*words, setup=SMALL, **how):
    """The same of a server that takes no connection, without the line of its address."""
    output, error, status = hhm("serve", "--tcp", "127.0.0.1:0", *setup, "--sessions", "0", *words, **how)
    return output[output.find("\n") + 1 :] if output.startswith("listening") else output, error, status


def stopped(batches, total):
    return f"stopped batches {batches} total {total}\n", "", 0


def snapshot_of(batches, origin=PAIRED):
    """The bytes of a snapshot in which nothing is folded, and with which a log goes."""
    return program.snapshot(batches, sum(entry_of(it)[3] for it in batches), past=program.NONE, origin=origin)


def without(streams):
    """How a program is started without these standard streams."""
    return {"preexec_fn": lambda: [os.close(it) for it in streams]}


def kill(at, number=signal.SIGKILL):
    at.process.send_signal(number)
    at.process.wait(WAIT)


def in_log(path):
    """The bytes of a log without the zeros that are written ahead: up to the page behind its last block.

    They are told by the book of the examples, if the log has one: which one a server draws can't be known.
    """
    held = content(path)
    held = held[: -(-len(log_bytes.without_zeros(held)) // PAGE) * PAGE]
    return with_book(held)[: PAGE * Log(held).whole()]


def two_are_logged(at, log_path):
    """Two puts, and what the server and its log have then."""
    with at.link() as link:
        check("stored before", asked(link, STORED, 21), counts(0, 0))
        check("the first", asked(link, put_of(FIVE), 21), accepted(0, 5))
        check("the log of the first", in_log(log_path), log([[FIVE]]))
        check("the second", asked(link, put_of(THREE), 21), accepted(1, 8))
        check("stored", asked(link, STORED, 21), counts(2, 8))
    check("the log of both", in_log(log_path), log([[FIVE], [THREE]]))
    check("zeros behind it", any(content(log_path)[3 * PAGE :]), False)


def what_was_accepted_outlasts_a_kill():
    """The files behind a kill, and of a copy that was made before it: the same list, replies and lines."""
    path, snap = in_folder("log"), in_folder("snap")
    with Server([*SMALL, "--snapshot", snap, "--log", path]) as at:
        two_are_logged(at, path)
        shutil.copy(path, path + " copied")
        kill(at)
    check("the snapshot is that of the start", in_snap(snap), snapshot_of([]))
    os.rename(snap, snap + " first")
    for name in [path, path + " copied"]:
        lines = "rows 3 cols 3 shards 2 batches 2 total 8 entries 1\nlog first 0 batches 2 pages 3 rest 0\n"
        shutil.copy(snap + " first", snap)
        check("check", hhm("check", snap, "--log", name), (lines, "", 0))
        goes_on_after_a_kill(name, snap)


def goes_on_after_a_kill(path, snap):
    with Server([*SMALL, "--snapshot", snap, "--log", path]) as at:
        with at.link(False) as link:
            check("status after a kill", asked(link, STATUS, 21), counts(2, 8))
            check("stored after a kill", asked(link, STORED, 21), counts(2, 8))
            check("the first again", asked(link, put_of(FIVE), 21), accepted(0, 5))
            check("the second again", asked(link, put_of(THREE), 21), accepted(1, 8))
            check("another under its number", asked(link, put_frame(7, 1, text(6)), 15), refused(30))
            check("the log is as before", in_log(path), log([[FIVE], [THREE]]))
            check("save", asked(link, SAVE, 13), saved(2))
        begun_anew(path, snap)
        with at.link() as link:
            check("behind the save", asked(link, put_of(TWO), 21), accepted(2, 10))
            check("its log", in_log(path), head(BOTH) + block(2, [TWO]))
        kill(at)
    lines = "rows 3 cols 3 shards 2 batches 3 total 10 entries 1\nlog first 2 batches 1 pages 2 rest 0\n"
    check("check behind a save", hhm("check", snap, "--log", path), (lines, "", 0))
    check("a start behind a save", started("--snapshot", snap, "--log", path), stopped(3, 10))
    after = snapshot_of([FIVE, THREE, TWO])
    check("what that saved", in_snap(snap), after)
    check("the log behind the last save", in_log(path), head((*BOTH, entry_of(TWO))))


def begun_anew(path, snap):
    """What stands after a save of both."""
    check("the snapshot", in_snap(snap), snapshot_of([FIVE, THREE]))
    check("the log is begun anew", in_log(path), head(BOTH))
    check("no other file is left", os.path.exists(path + ".new") or os.path.exists(snap + ".new"), False)
    lines = "rows 3 cols 3 shards 2 batches 2 total 8 entries 1\nlog first 2 batches 0 pages 1 rest 0\n"
    check("check after a save", hhm("check", snap, "--log", path), (lines, "", 0))


def replies_are_the_same():
    """A server with a log answers as one without, byte for byte, also frames that are cut anywhere."""
    for unix in [True, False]:
        server.frames_are_answered(unix, ["--log", in_folder(f"frames {unix}.log")])


def many_in_one_piece():
    """Sixteen puts that come at once are one block, or two, and each is answered, in order."""
    path = in_folder("many.log")
    words = ["--rows", "3", "--cols", "3", "--log", path]
    with Server(words, tcp=False) as at:
        batches = [(1, n, [(n % 3, 2, n)]) for n in range(64)]
        frames = [struct.pack(">IBQQQQQ", 40, 8, 1, n, n % 3, 2, n) for n in range(64)]
        totals = [sum(range(n + 1)) for n in range(64)]
        done, blocks = 0, 0
        for count in [1, 16, 40, 7]:
            part = range(done, done + count)
            with at.link() as link:
                replies = asked(link, b"".join(frames[n] for n in part), 21 * count)
            check(f"{count} at once", replies, b"".join(accepted(n, totals[n]) for n in part))
            done, found = done + count, Log(content(path))
            check(f"{count} at once: in the log", found.all_batches(), batches[:done])
            check(f"{count} at once: few blocks", blocks < len(found.blocks) <= blocks + 2, True)
            blocks = len(found.blocks)
        kill(at)
    check("all are there", started("--log", path, setup=words[:4]), stopped(64, totals[-1]))


def a_log_alone_grows():
    """Without a snapshot: saves are off, and the log has all batches after kills, a Stop and signals."""
    path, total, known = in_folder("alone.log"), 0, []
    for n, end in enumerate([signal.SIGKILL, signal.SIGTERM, None, signal.SIGINT, signal.SIGHUP, None]):
        with Server([*SMALL, "--log", path]) as at:
            with at.link(n % 2 == 0) as link:
                check(f"alone {n}: all is there", asked(link, STATUS, 21), counts(n, total))
                for place, batch in enumerate(known):
                    before = accepted(place, sum(range(1, place + 2)))
                    check(f"alone {n}: again", asked(link, put_of(batch), 21), before)
                known.append((7, n, [(0, 0, n + 1)]))
                total += n + 1
                check(f"alone {n}: put", asked(link, put_of(known[-1]), 21), accepted(n, total))
                check(f"alone {n}: save", asked(link, SAVE, 15), refused(43))
                if end is None:
                    check(f"alone {n}: stop", asked(link, STOP, 5), STOPPING)
            if end is None:
                at.ends(f"alone {n}", n + 1, total)
            else:
                kill(at, end)
        check(f"alone {n}: the log", in_log(path), log([[batch] for batch in known]))


def a_stop_saves_and_begins_the_log_anew():
    path, snap = in_folder("ended.log"), in_folder("ended.snap")
    for n in range(3):
        with Server([*SMALL, "--snapshot", snap, "--log", path], tcp=False) as at:
            with at.link() as link:
                total = (n + 1) * (n + 2) // 2
                check("put", asked(link, put_frame(7, n, text(n + 1)), 21), accepted(n, total))
                check("stop", asked(link, STOP, 5), STOPPING)
            at.ends("with both", n + 1, total)
        batches = [(7, k, [(0, 0, k + 1)]) for k in range(n + 1)]
        check("the snapshot at the end", in_snap(snap), snapshot_of(batches))
        check("the log at the end", in_log(path), head([entry_of(batch) for batch in batches]))
    left = [name for name in os.listdir(server.FOLDER) if name.startswith("ended") and "new" in name]
    check("what is left", left, [])


def long_batches_take_pages():
    """A batch of more than a page, one of more than 64 KiB, which is settled by itself, and one without cells."""
    path, size = in_folder("long.log"), ["--rows", "100000", "--cols", "3"]
    batches = [(1, 0, []), (1, 1, [(n, 0, 1) for n in range(500)]), (1, 2, [(n, 1, 2) for n in range(3000)]),
               (1, 3, [(0, 0, 1)])]  # fmt: skip
    frames = [struct.pack(">IBQQ", 16 + 24 * len(cells), 8, client, number) + b"".join(fields(*cell) for cell in cells)
              for client, number, cells in batches]  # fmt: skip
    with Server([*size, "--log", path], tcp=False) as at:
        with at.link() as link:
            replies = accepted(0, 0) + accepted(1, 500) + accepted(2, 6500) + accepted(3, 6501)
            check("long batches", asked(link, b"".join(frames), len(replies)), replies)
        found = Log(content(path))
        check("long batches in the log", found.all_batches(), batches)
        kill(at)
    check("long batches after a kill", started("--log", path, setup=size), stopped(4, 6501))


# The first n bytes of a log of two blocks, and how many batches are whole in them.
FRONTS = [(PAGE, 0), (PAGE + 1, 0), (4175, 0), (4176, 1), (4177, 1), (8191, 1), (8192, 1), (8193, 1), (8271, 1),
          (8272, 2), (8273, 2), (12287, 2), (12288, 2)]  # fmt: skip


def a_torn_end_is_cut_off():
    path, none = in_folder("torn.log"), in_folder("no.snap")
    whole, steps = log([[FIVE], [THREE]]), [(0, 0), (1, 5), (2, 8)]
    for size in [0, 1, PAGE - 1]:
        write(path, whole[:size])
        check(f"{size} bytes", started("--log", path), ("", "hhm: log: Truncated at page 0\n", 3))
        check(f"{size} bytes: check", hhm("check", none, "--log", path), ("", "hhm: log: Truncated at page 0\n", 3))
        check(f"{size} bytes: as before", content(path), whole[:size])
    for size, count in FRONTS:
        write(path, whole[:size])
        rest = int(size > PAGE * (count + 1))
        lines = log_bytes.check_line([FIVE, THREE][:count])
        lines += f"\nlog first 0 batches {count} pages {1 + count} rest {rest}\n"
        check(f"{size} bytes: check", hhm("check", none, "--log", path), (lines, "", 0))
        check(f"{size} bytes: check writes nothing", content(path), whole[:size])
        check(f"{size} bytes", started("--log", path), stopped(*steps[count]))
        check(f"{size} bytes: settled", in_log(path), whole[: PAGE * (count + 1)])
        with Server([*SMALL, "--log", path], tcp=False) as at:
            with at.link() as link:
                both = accepted(0, 5) + accepted(1, 8)
                check(f"{size} bytes: again", asked(link, put_of(FIVE) + put_of(THREE), 42), both)
            kill(at)
        check(f"{size} bytes: both at last", started("--log", path), stopped(2, 8))


def a_hole_at_the_end_is_not_read():
    """Behind two blocks a file has a hole of 64 GiB: a start takes no longer for it, and cuts it off."""
    path, whole = in_folder("hole.log"), log([[FIVE], [THREE]])
    for name, front, counted in [("", whole, (2, 8)), ("torn ", log_bytes.lost(whole, (2, 79, 80)), (1, 5))]:
        write(path, front)
        os.truncate(path, 1 << 36)
        check(f"a {name}log and a hole", started("--log", path), stopped(*counted))
        check(f"a {name}log and a hole: settled", in_log(path), whole[: PAGE * (1 + counted[0])])


def bad_block(held):
    return log([[FIVE]]) + pages_of(1, held)


# Bytes that are no log, and what is told of them.
NO_LOGS = [
    (b"HHMSNAP\n" + head()[8:], "BadMark at page 0"),
    (with_byte(head(), 11, 3), "BadVersion at page 0"),
    (with_byte(head(), 19, 0), "BadHead at page 0"),
    (head(first=11), "BadHead at page 0"),
    (head(total=101), "BadHead at page 0"),
    (with_byte(head(), 4095, 0), "HeadCheck at page 0"),
    (with_byte(log([[FIVE]]), 60, 0x20), "HeadCheck at page 0"),
    (with_byte(log([[FIVE]]), 82, 1), "HeadCheck at page 0"),
    (log_bytes.checked_head(head()[:106] + b"\1"), "BadHead at page 0"),
    (head() + block(0, [FIVE]) + block(0, [FIVE]), "Damaged at page 2"),
    (head() + block(1, [FIVE]), "Damaged at page 1"),
    (with_byte(log([[FIVE], [THREE]]), 2 * PAGE + 79, 2), "Damaged at page 2"),
    (log([[FIVE], [THREE]]) + bytes(PAGE) + block(3, [TWO]), "Damaged at page 4"),
    (bad_block(fields(0)), "BadBlock at page 2"),
    (bad_block(fields(1, 8, 1, 1, 3, 0, 3)), "BadBlock at page 2"),
    (bad_block(fields(1, 8, 1, 2, 1, 0, 3, 0, 0, 3)), "BadBlock at page 2"),
    (bad_block(fields(1, 8, 1, 1, 0, 0, 101)), "BadBlock at page 2"),
    (bad_block(fields(1, 8, 1, 0, 1)), "BadBlock at page 2"),
    (bad_block(fields(1, 8, 1, 0).ljust(PAGE, b"\0")), "BadBlock at page 2"),
]


def damage_is_told_and_stays():
    path, none = in_folder("damaged.log"), in_folder("no.snap")
    for held, fault in NO_LOGS:
        write(path, held)
        check(f"{fault}, {len(held)} bytes", started("--log", path), ("", f"hhm: log: {fault}\n", 3))
        check(f"{fault}: check", hhm("check", none, "--log", path), ("", f"hhm: log: {fault}\n", 3))
        check(f"{fault}: as before", content(path), held)
    # A flipped bit of a block that another stands behind, and a byte of the last one that is lost.
    whole, told = log([[FIVE], [THREE]]), []
    for place in [PAGE, PAGE + 5, PAGE + 12, PAGE + 31, PAGE + 79, PAGE + 80, 2 * PAGE - 1]:
        write(path, with_byte(whole, place, whole[place] ^ 1))
        output, error, status = started("--log", path)
        told.append((output, bare(error), status) in [("", f"hhm: log: Damaged at page {page}\n", 3) for page in (1, 2)])
    check("flipped bits", told, [True] * 7)
    write(path, with_byte(whole, 2 * PAGE + 79, 0))
    lines = log_bytes.check_line([FIVE]) + "\nlog first 0 batches 1 pages 2 rest 1\n"
    check("a byte that is lost: check", hhm("check", none, "--log", path), (lines, "", 0))
    check("a byte that is lost", started("--log", path), stopped(1, 5))


# Ten batches, and bytes of the last eight of their blocks that became 00 in a log: the first page that is `Damaged`.
TEN = [(7, n, [(0, 0, n + 1)]) for n in range(10)]
ZEROED = [
    ("their batches", [(n, 24, 80) for n in range(3, 11)], 4),
    ("their counts", [(n, 79, 80) for n in range(3, 11)], 4),
    ("all but the last's first bytes", [*((n, 0, PAGE) for n in range(3, 10)), (10, 24, PAGE)], 10),
    ("all but the last", [(n, 0, PAGE) for n in range(3, 10)], 10),
    ("two of their counts", [(9, 79, 80), (10, 79, 80)], 10),
]


def zeros_over_acknowledged_blocks_are_told():
    """Ten puts are acknowledged, and bytes of the last eight blocks become 00: no start takes the others alone."""
    path, none = in_folder("zeroed.log"), in_folder("no.snap")
    with Server([*SMALL, "--log", path], tcp=False) as at:
        with at.link() as link:
            for place, batch in enumerate(TEN):
                total = (place + 1) * (place + 2) // 2
                check(f"zeros: put {place}", asked(link, put_of(batch), 21), accepted(place, total))
        kill(at)
    whole = in_log(path)
    check("zeros: ten blocks", whole, log([[batch] for batch in TEN]))
    for name, spans, page in ZEROED:
        held = log_bytes.lost(whole, *spans)
        write(path, held)
        told = ("", f"hhm: log: Damaged at page {page}\n", 3)
        check(f"zeros over {name}: check", hhm("check", none, "--log", path), told)
        check(f"zeros over {name}: a start", started("--log", path), told)
        check(f"zeros over {name}: as before", content(path), held)
    write(path, whole)
    check("zeros: without them", started("--log", path), stopped(10, 55))


# A snapshot's batches, a log, what is told of both, and the status.
APART = [
    (None, head([entry_of(FIVE)]), "log: Gap at batch 1", 3),
    ([FIVE], head(BOTH) + block(2, [TWO]), "log: Gap at batch 2", 3),
    ([TWO], head([entry_of(FIVE)]), "log: LinkDiffers", 3),
    ([FIVE], head([entry_of(FIVE)], link=1), "log: LinkDiffers", 3),
    ([FIVE], head([entry_of(FIVE)], total=6), "log: LinkDiffers", 3),
    ([TWO], log([[FIVE]]), "log: EntryDiffers at batch 0", 3),
    ([FIVE, TWO], log([[FIVE], [THREE]]), "log: EntryDiffers at batch 1", 3),
    (None, log([[FIVE], [THREE], [FIVE]]), "log: NotFresh at batch 2", 3),
    ([FIVE], log([[THREE]], [entry_of(FIVE)]) + block(2, [FIVE]), "log: NotFresh at batch 2", 3),
    (None, log([[(7, n, [(0, 0, 60)]) for n in range(2)]]), "log: NotFresh at batch 1", 3),
    (None, log([[(7, n, []) for n in range(11)]]), "log: NotFresh at batch 10", 3),
    (None, log([[FIVE]], setup=log_bytes.Setup(rows=4)), "settings: LogDiffers (rows: the file has 4, 3 was given)", 2),
    ([FIVE], log([[FIVE]], setup=log_bytes.Setup(rows=4)), "settings: LogDiffers", 2),
]


def snapshots_and_logs_that_differ_are_told():
    for place, (batches, held, fault, status) in enumerate(APART):
        path, snap = in_folder(f"apart {place}.log"), in_folder(f"apart {place}.snap")
        write(path, held)
        before = None
        if batches is not None:
            before = snapshot_of(batches)
            write(snap, before)
        wanted = ("", f"hhm: {fault}\n", status)
        check(f"{fault}, {place}", started("--snapshot", snap, "--log", path), wanted)
        if not fault.endswith(" was given)"):
            check(f"{fault}, {place}: check", hhm("check", snap, "--log", path), wanted)
        check(f"{fault}, {place}: the log", content(path), held)
        check(f"{fault}, {place}: the snapshot", content(snap) if os.path.exists(snap) else None, before)


def a_log_of_another_setup_goes_on():
    """Where its limit, cuts, shards or most batches aren't those that are given, its head has these after a start."""
    path, snap = in_folder("other.log"), in_folder("other.snap")
    for other in ({"limit": 101}, {"cuts": (2, 5)}, {"shards": 3}, {"most": 11}):
        held = log([[FIVE]], setup=log_bytes.SMALL._replace(**other))
        write(path, held)
        check(f"{other}: alone", started("--log", path), stopped(1, 5))
        check(f"{other}: alone, the log", in_log(path), log([[FIVE]]))
        for before in (None, snapshot_of([FIVE])):
            write(path, held)
            if before is not None:
                write(snap, before)
            check(f"{other}: beside a snapshot", started("--snapshot", snap, "--log", path), stopped(1, 5))
            check(f"{other}: beside a snapshot, the log", in_log(path), head([entry_of(FIVE)]))
            check(f"{other}: beside a snapshot, the snapshot", in_snap(snap), snapshot_of([FIVE]))
            os.remove(snap)


def a_lost_snapshot_is_a_gap():
    """A log that was begun behind a snapshot, which was removed then: no server starts on it."""
    path, snap = in_folder("gap.log"), in_folder("gap.snap")
    write(path, log([[FIVE], [THREE]]))
    check("a first end", started("--snapshot", snap, "--log", path), stopped(2, 8))
    os.rename(snap, snap + ".away")
    for words in [["--snapshot", snap], []]:
        check("a gap", started(*words, "--log", path), ("", "hhm: log: Gap at batch 2\n", 3))
    check("the log stays", in_log(path), head(BOTH))
    os.rename(snap + ".away", snap)
    check("with its snapshot again", started("--snapshot", snap, "--log", path), stopped(2, 8))


def logs_beside_longer_and_shorter_snapshots():
    """A log that has less than the snapshot is begun anew; of what both have each counts once."""
    path, snap = in_folder("beside.log"), in_folder("beside.snap")
    two = snapshot_of([FIVE, THREE], OWNED)
    folded = program.snapshot([THREE], 8, past=program.FIVE, origin=OWNED)
    for held, first in [(None, 2), (log([[FIVE]]), 2), (log([[FIVE, THREE]]), 0), (head(BOTH), 2),
                        (log([[THREE]], [entry_of(FIVE)]), 1)]:  # fmt: skip
        for before in [two, folded]:
            write(snap, before)
            if os.path.exists(path):
                os.remove(path)
            if held is not None:
                write(path, held)
            with Server([*SMALL, "--snapshot", snap, "--log", path], tcp=False) as at:
                check(f"first {first}: the head", Log(content(path)).first, first)
                with at.link() as link:
                    check(f"first {first}: put", asked(link, put_of(TWO), 21), accepted(2, 10))
                    check(f"first {first}: again", asked(link, put_of(FIVE), 21), accepted(0, 5))
                kill(at)
            check(f"first {first}: the last block", in_log(path).endswith(block(2, [TWO])), True)
            check(f"first {first}: all", started("--snapshot", snap, "--log", path), stopped(3, 10))


def a_fold_between_two_starts():
    """A snapshot that is folded belongs to the log as before."""
    path, snap = in_folder("folded.log"), in_folder("folded.snap")
    with Server([*SMALL, "--snapshot", snap, "--log", path], tcp=False) as at:
        with at.link() as link:
            replies = accepted(0, 5) + accepted(1, 8) + saved(2)
            check("two", asked(link, put_of(FIVE) + put_of(THREE) + SAVE, 55), replies)
            check("a third", asked(link, put_of(TWO), 21), accepted(2, 10))
        kill(at)
    check("fold", hhm("fold", snap), ("folded 2 total 8\n", "", 0))
    lines = "rows 3 cols 3 shards 2 batches 3 total 10 entries 1\nlog first 2 batches 1 pages 2 rest 0\n"
    check("check of both", hhm("check", snap, "--log", path), (lines, "", 0))
    check("a start on both", started("--snapshot", snap, "--log", path), stopped(3, 10))


def an_old_log_is_begun_anew():
    """A start makes a log of version 2 of one of version 1, with all batches, before any is added."""
    path, snap = in_folder("old.log"), in_folder("old.snap")
    write(path, log([[FIVE]], origin=None))
    with Server([*SMALL, "--log", path], tcp=False) as at:
        check("an old log: begun anew", in_log(path), log([[FIVE]]))
        with at.link() as link:
            check("an old log: its batch again", asked(link, put_of(FIVE), 21), accepted(0, 5))
            check("an old log: put", asked(link, put_of(THREE), 21), accepted(1, 8))
        kill(at)
    check("an old log: with a block more", in_log(path), log([[FIVE], [THREE]]))
    lines = log_bytes.check_line([FIVE, THREE]) + "\nlog first 0 batches 2 pages 3 rest 0\n"
    check("an old log: check", hhm("check", snap, "--log", path), (lines, "", 0))
    check("an old log: a start", started("--log", path), stopped(2, 8))
    check("an old log: as before", in_log(path), log([[FIVE], [THREE]]))
    check("an old log: a save", started("--snapshot", snap, "--log", path), stopped(2, 8))
    check("an old log: begun behind the save", in_log(path), head(BOTH))
    check("an old log: what was saved", in_snap(snap), snapshot_of([FIVE, THREE]))


def files_of_all_versions_are_saved_in_the_last():
    """A server loads a snapshot of each version, beside a log of version 1 too, and saves it in version 4."""
    all_folded, five = program.snapshot([], 5, past=program.FIVE, origin=OWNED), snapshot_of([FIVE], OWNED)
    files = [(program.snapshot([FIVE], 5), five)]
    for version in (2, 3, 4):
        files.append((program.snapshot([FIVE], 5, past=program.NONE, version=version), five))
        files.append((program.snapshot([], 5, past=program.FIVE, version=version), all_folded))
    files.append((five, five))
    for n, (held, anew) in enumerate(files):
        path, snap, name = in_folder(f"version {n}.log"), in_folder(f"version {n}.snap"), f"file {n}"
        write(snap, held)
        with Server([*SMALL, "--snapshot", snap], tcp=False) as at:
            check(f"{name}: at the start", in_snap(snap), anew)
            with at.link() as link:
                check(f"{name}: save", asked(link, SAVE, 13), saved(1))
            check(f"{name}: saved anew", in_snap(snap), anew)
            kill(at)
        write(snap, held)
        write(path, log([[THREE]], [entry_of(FIVE)], origin=None))
        check(f"{name}: with a log", started("--snapshot", snap, "--log", path), stopped(2, 8))
        check(f"{name}: the log", in_log(path), head(BOTH))
        both = program.Snapshot(content(snap))
        check(f"{name}: both", both.line(), log_bytes.check_line([FIVE, THREE]))
        check(f"{name}: its version", both.version, 4)
        check(f"{name}: a log goes with it", both.origin.log, 1)


def a_second_server_is_told():
    path, snap = in_folder("busy.log"), in_folder("busy.snap")
    busy = ("", "hhm: log: Busy\n", 4)
    with Server([*SMALL, "--log", path], tcp=False) as at:
        with at.link() as link:
            check("put", asked(link, put_of(FIVE), 21), accepted(0, 5))
            for words in [[], ["--snapshot", snap]]:
                told = started("--log", path, *words, "--lock-wait", "0")
                check(f"a second server, {words}", told, busy)
            check("nothing is saved", os.path.exists(snap), False)
            lines = log_bytes.check_line([FIVE]) + "\nlog first 0 batches 1 pages 2 rest 0\n"
            check("a check beside a server", hhm("check", snap, "--log", path), (lines, "", 0))
            check("put more", asked(link, put_of(THREE), 21), accepted(1, 8))
        kill(at)
    check("a killed one gives it back", started("--log", path), stopped(2, 8))
    check("one path for both", started("--log", snap, "--snapshot", snap), ("", "hhm: settings: SamePath\n", 2))


def a_log_has_one_server_under_all_its_names():
    """A link, a second name, and a lock's file that was removed: no second server writes to the log, though it is one that
    the start began anew."""
    path, snap = in_folder("named.log"), in_folder("named.snap")
    busy = ("", "hhm: log: Busy\n", 4)
    write(path, log([], origin=None))
    with Server([*SMALL, "--log", path, "--snapshot", snap], tcp=False) as at:
        with at.link() as link:
            check("named: put", asked(link, put_of(FIVE), 21), accepted(0, 5))
            for turn in ("at once", "after a save"):
                soft, hard = in_folder(f"soft {turn}"), in_folder(f"hard {turn}")
                os.symlink(path, soft)
                os.link(path, hard)
                before = content(path)
                for other in (soft, hard):
                    told = started("--log", other, "--lock-wait", "0")
                    check(f"named {turn}: {other}", told, busy)
                os.remove(path + ".lock")
                check(f"named {turn}: its lock's file is gone", started("--log", path, "--lock-wait", "0"), busy)
                check(f"named {turn}: nothing is changed", content(path) == before, True)
                check(f"named {turn}: save", asked(link, SAVE, 13), saved(1))
            check("named: put more", asked(link, put_of(THREE), 21), accepted(1, 8))
        kill(at)
    check("named: a start", started("--log", path, "--snapshot", snap), stopped(2, 8))


def moved(path):
    os.rename(path, path + ".1")


def copied_over(path):
    shutil.copy(path, path + ".2")
    os.rename(path + ".2", path)


def emptied_behind_a_copy(path):
    shutil.copy(path, path + ".3")
    os.truncate(path, 0)


def cut_by_a_byte(path):
    os.truncate(path, os.path.getsize(path) - 1)


def folder_moved(path):
    os.rename(os.path.dirname(path), os.path.dirname(path) + " before")
    os.mkdir(os.path.dirname(path))


def a_log_that_is_taken_away_is_missed():
    """Whoever moves, removes, replaces or cuts the file of a log: the next put is refused, and a save is the way out."""
    for way in (moved, os.remove, copied_over, emptied_behind_a_copy, cut_by_a_byte, folder_moved):
        name = f"taken away: {way.__name__}"
        folder, snaps = in_folder(name), in_folder(name + " snap")
        os.mkdir(folder)
        path = os.path.join(folder, "log")
        with Server([*SMALL, *server.BY_HAND, "--log", path, "--snapshot", snaps], tcp=False) as at:
            with at.link() as link, at.link() as other:
                check(f"{name}: put", asked(link, put_of(FIVE), 21), accepted(0, 5))
                way(path)
                check(f"{name}: the next one", asked(link, put_of(THREE), 15), refused(35))
                check(f"{name}: a further one", asked(other, put_of(TWO), 15), refused(35))
                check(f"{name}: what was answered", asked(link, put_of(FIVE), 21), accepted(0, 5))
                check(f"{name}: a save", asked(other, SAVE, 13), saved(2))
                check(f"{name}: after it", asked(link, put_of(THREE) + put_of(TWO), 42), accepted(1, 8) + accepted(2, 10))
            kill(at)
        check(f"{name}: a start", started("--log", path, "--snapshot", snaps), stopped(3, 10))


def a_log_is_missed_between_whole_looks():
    """The file is taken away where the last look was of its folder alone: the next put is refused all the same."""
    for way in (moved, os.remove, copied_over, emptied_behind_a_copy, cut_by_a_byte, folder_moved):
        name = f"taken away later: {way.__name__}"
        folder = in_folder(name)
        os.mkdir(folder)
        path = os.path.join(folder, "log")
        with Server([*SMALL, "--log", path], tcp=False) as at:
            with at.link() as link:
                check(f"{name}: put", asked(link, put_of(FIVE), 21), accepted(0, 5))
                time.sleep(0.2)
                check(f"{name}: a whole look", asked(link, put_of(THREE), 21), accepted(1, 8))
                check(f"{name}: a short one", asked(link, put_of(TWO), 21), accepted(2, 10))
                way(path)
                check(f"{name}: the next one", asked(link, put_of((9, 2, [(0, 0, 1)])), 15), refused(35))
            kill(at)


def a_client_that_goes_leaves_nothing_unwritten():
    """A client that sends many puts and is gone before a reply: what was accepted is in the log at the end, all of it."""
    words = ["--rows", "3", "--cols", "3", "--shards", "2"]
    for turn in range(5):
        path = in_folder(f"gone {turn}.log")
        with Server([*words, "--log", path], tcp=False) as at:
            for client in range(4):
                link = at.link()
                link.setsockopt(socket.SOL_SOCKET, socket.SO_LINGER, struct.pack("ii", 1, 0))
                link.sendall(b"".join(put_frame(client, n, text(1)) for n in range(200)))
                link.shutdown(socket.SHUT_RD)
                link.close()
            with at.link() as link:
                asked(link, STOP, 5)
            output, error = at.process.communicate(timeout=WAIT)
        check(f"gone {turn}: status and errors", (at.process.returncode, error), (0, ""))
        told = started("--log", path, setup=words)
        check(f"gone {turn}: {output.strip()}", told, (output, "", 0))


def what_is_no_file_is_told():
    """A folder, a FIFO, a socket, a device, a link to one, and folders that aren't there: nothing waits or is replaced.
    """
    folder, fifo, bound, link = (in_folder(name) for name in ["a folder", "a fifo", "a socket", "a link to a fifo"])
    os.mkdir(folder)
    os.mkfifo(fifo)
    os.symlink(fifo, link)
    with socket.socket(socket.AF_UNIX) as listener:
        listener.bind(bound)
    for path in [folder, fifo, bound, link, "/dev/null", "/dev/zero", in_folder("no/log"), os.path.join(fifo, "log")]:
        before = os.stat(path).st_mode if os.path.exists(path) else None
        check(f"{path} as a log", started("--log", path), ("", "hhm: log: Create\n", 4))
        check(f"{path} stays", os.stat(path).st_mode if os.path.exists(path) else None, before)


def links_are_followed_once():
    """A link as a log leads to it, and stays: the log that is begun anew takes the name of what it leads to."""
    held, path, snap = in_folder("led to.log"), in_folder("link.log"), in_folder("link.snap")
    write(held, log([[FIVE]]))
    os.symlink(held, path)
    with Server([*SMALL, "--snapshot", snap, "--log", path], tcp=False) as at:
        with at.link() as link:
            check("a link: put", asked(link, put_of(THREE), 21), accepted(1, 8))
            check("a link: it leads there", (os.path.islink(path), in_log(held)), (True, log([[FIVE], [THREE]])))
            check("a link: save", asked(link, SAVE, 13), saved(2))
            check("a link: put more", asked(link, put_of(TWO), 21), accepted(2, 10))
        kill(at)
    check("a link: still one", os.path.islink(path), True)
    check("a link: what it leads to", in_log(held), log([[TWO]], before=BOTH))
    check("a link: all", started("--snapshot", snap, "--log", path), stopped(3, 10))
    nothing = in_folder("link to nothing")
    os.symlink(in_folder("nothing"), nothing)
    check("a link to nothing", started("--log", nothing), stopped(0, 0))
    check("a link to nothing: a log now", in_log(nothing), head())


def rights_that_lack_are_told():
    """A user who may not read the log, not write it, or not make one. Tried where this program may become another."""
    if os.getuid() != 0:
        return
    own, folder = in_folder("program of all"), in_folder("rights")
    shutil.copy(server.PROGRAM, own)
    os.chmod(own, 0o755)
    os.chmod(server.FOLDER, 0o755)
    os.mkdir(folder)

    def as_other():
        os.setgroups([])
        os.setgid(OTHER)
        os.setuid(OTHER)

    for of_folder, of_file in [(0o777, 0o600), (0o777, 0o444), (0o777, 0o222), (0o555, None), (0o700, 0o666),
                               (0o333, None)]:  # fmt: skip
        path = os.path.join(folder, "log")
        for name in os.listdir(folder):
            os.remove(os.path.join(folder, name))
        if of_file is not None:
            write(path, log([[FIVE]]))
            os.chmod(path, of_file)
        os.chmod(folder, of_folder)
        words = [own, "serve", "--tcp", "127.0.0.1:0", *SMALL, "--sessions", "0", "--log", path]
        ended = subprocess.run(words, capture_output=True, text=True, timeout=WAIT, preexec_fn=as_other)
        name = f"rights {of_folder:o} and {of_file or 0:o}"
        check(name, (ended.stdout, ended.stderr, ended.returncode), ("", "hhm: log: Create\n", 4))
        if of_file is None:
            check(f"{name}: none was made", os.path.exists(path), False)
        else:
            check(f"{name}: as before", content(path), log([[FIVE]]))
        os.chmod(folder, 0o777)


def a_new_log_has_the_access_of_the_old():
    """The log that is begun anew has the mode of the one whose place it takes; the first has what the umask leaves."""
    path, snap = in_folder("mode.log"), in_folder("mode.snap")
    for mode in [0o600, 0o640, 0o664]:
        write(path, log([[FIVE]], origin=None))
        os.chmod(path, mode)
        check(f"mode {mode:o}: an old one", started("--log", path), stopped(1, 5))
        check(f"mode {mode:o}: kept by a start", (in_log(path), os.stat(path).st_mode & 0o777), (log([[FIVE]]), mode))
        write(path, log([[FIVE]]))
        check(f"mode {mode:o}", started("--snapshot", snap, "--log", path), stopped(1, 5))
        check(f"mode {mode:o}: kept", (in_log(path), os.stat(path).st_mode & 0o777), (head([entry_of(FIVE)]), mode))
        os.remove(snap)
    os.remove(path)
    check("no log before", started("--log", path, preexec_fn=lambda: os.umask(0o027)), stopped(0, 0))
    check("no log before: the mode", os.stat(path).st_mode & 0o777, 0o640)


def files_of_closed_streams():
    """The options of a server, the batches in its files, and both files: before it, and with a batch more."""
    yield "--snapshot", [], None, None, snapshot_of([], OWNED), None
    yield "--snapshot", [FIVE], snapshot_of([FIVE], OWNED), None, snapshot_of([FIVE, TWO], OWNED), None
    yield "--log", [], None, None, None, log([[TWO]])
    yield "--log", [FIVE, THREE], None, log([[FIVE], [THREE]]), None, log([[FIVE], [THREE], [TWO]])
    yield "--snapshot --log", [], None, None, snapshot_of([]), log([[TWO]])
    yield ("--snapshot --log", [FIVE, THREE], snapshot_of([FIVE]), log([[THREE]], BOTH[:1]), snapshot_of([FIVE]),
           log([[THREE], [TWO]], BOTH[:1]))  # fmt: skip


def bytes_of_a_book(read, path):
    """The bytes of a log or a snapshot, told by the book of the examples; what is wrong with them, if they are none."""
    try:
        return read(path)
    except (log_bytes.LogFault, FirstFault) as fault:
        return repr(fault)


def closed_streams_are_no_files():
    """No line and no event goes to a file that got the number of a closed standard stream, of a lock neither.

    A server that can't say where it listens ends. What its files had, and what it has accepted, is there after a kill.
    """
    for closed in CLOSED:
        for number, row in enumerate(files_of_closed_streams()):
            options, had, snap_before, log_before, snap_then, log_then = row
            for events in ([], ["--events"]) if log_before and snap_before else (["--events"],):
                name = f"without {closed}: {options}, {len(had)}, {events}"
                folder = in_folder(f"without {closed} {number} {len(events)}")
                os.makedirs(folder)
                paths = {"--snapshot": os.path.join(folder, "snap"), "--log": os.path.join(folder, "log")}
                for path, held in zip(paths.values(), (snap_before, log_before)):
                    if held:
                        write(path, held)
                words = [word for option in options.split() for word in (option, paths[option])]
                batches = [*had, *serve_without(name, closed, [*words, *events], bool(had))]
                if 1 in closed:
                    snap_then = snap_before or snapshot_of([], PAIRED if "--log" in options else OWNED)
                    log_then = log_before or log([])
                elif options == "--snapshot" and not had:
                    batches = []
                locks = {it: content(os.path.join(folder, it)) for it in os.listdir(folder) if it.endswith(".lock")}
                wanted = {os.path.basename(paths[option]) + ".lock": b"" for option in options.split()}
                check(f"{name}: nothing is in the locks", locks, wanted)
                for option, read, held in (("--snapshot", in_snap, snap_then), ("--log", in_log, log_then)):
                    if option in options.split():
                        check(f"{name}: {option}", bytes_of_a_book(read, paths[option]), held)
                total = sum(entry_of(it)[3] for it in batches)
                check(f"{name}: a start", started(*words, "--lock-wait", "0"), stopped(len(batches), total))


def serve_without(name, closed, words, saves):
    """A server without these streams, a batch that it accepts and perhaps saves, and a kill: what it has accepted."""
    if 1 in closed:
        path = in_folder("without output")
        found = hhm("serve", "--unix", path, *SMALL, "--sessions", "0", *words, **without(closed))
        told = found[1] if "--events" not in words else found[1][found[1].rfind("hhm: ") :] if found[1] else ""
        wanted = "" if 2 in closed else "hhm: output failed after 0 bytes\n"
        check(f"{name}: it ends", (found[0], told, found[2]), ("", wanted, 4))
        check(f"{name}: no socket is left", os.path.exists(path), False)
        return []
    with Server([*SMALL, *words], tcp=False, **without(closed)) as at:
        with at.link() as link:
            check(f"{name}: put", asked(link, put_of(TWO), 21)[:5], accepted(0, 0)[:5])
            if saves and "--log" not in words:
                check(f"{name}: save", asked(link, SAVE, 13), saved(2))
        kill(at)
        output, error = at.process.communicate(timeout=WAIT)
        check(f"{name}: no more is written", (output, error if not {"--events"} & {*words} else ""), ("", ""))
    return [TWO]


def settings_come_first():
    """Options are judged before the log is, the snapshot before the log, and the log before any address."""
    path, snap = in_folder("order.log"), in_folder("order.snap")
    write(path, b"no log")
    write(snap, b"no snapshot")
    words = ["--log", path, "--snapshot", snap]
    check("bad workers", started(*words, "--workers", "0"), ("", "hhm: settings: BadWorkers\n", 2))
    check("a bad snapshot", started(*words), ("", "hhm: snapshot: BadMark\n", 3))
    check("a bad log", started("--log", path), ("", "hhm: log: Truncated at page 0\n", 3))
    full = ["serve", "--unix", server.FOLDER, *SMALL, "--log", path]
    check("an address that can't be had", hhm(*full), ("", "hhm: log: Truncated at page 0\n", 3))
    write(path, log([[FIVE], [THREE]], setup=log_bytes.Setup(rows=5)))
    write(snap, program.snapshot([FIVE], 5, rows=4, past=program.NONE))
    told = "hhm: settings: SnapshotDiffers (rows: the file has 4, 3 was given)\n"
    check("both of other setups", started(*words), ("", told, 2))


def run_each(*tests):
    """Runs tests; one that can't go on is a failure, and the others are run all the same."""
    for test in tests:
        try:
            test()
        except Exception as fault:
            places = traceback.extract_tb(fault.__traceback__)
            at = ", ".join(f"{os.path.basename(place.filename)} {place.lineno}" for place in places)
            check(f"{test.__name__}: {at}", repr(fault), "no exception")


def all_are_tried():
    run_each(
        what_was_accepted_outlasts_a_kill,
        replies_are_the_same,
        many_in_one_piece,
        a_log_alone_grows,
        a_stop_saves_and_begins_the_log_anew,
        long_batches_take_pages,
        a_torn_end_is_cut_off,
        zeros_over_acknowledged_blocks_are_told,
        a_hole_at_the_end_is_not_read,
        damage_is_told_and_stays,
        snapshots_and_logs_that_differ_are_told,
        a_log_of_another_setup_goes_on,
        a_lost_snapshot_is_a_gap,
        logs_beside_longer_and_shorter_snapshots,
        a_fold_between_two_starts,
        an_old_log_is_begun_anew,
        files_of_all_versions_are_saved_in_the_last,
        a_second_server_is_told,
        a_log_has_one_server_under_all_its_names,
        a_log_that_is_taken_away_is_missed,
        a_log_is_missed_between_whole_looks,
        a_client_that_goes_leaves_nothing_unwritten,
        what_is_no_file_is_told,
        links_are_followed_once,
        rights_that_lack_are_told,
        a_new_log_has_the_access_of_the_old,
        closed_streams_are_no_files,
        settings_come_first,
    )


if __name__ == "__main__":
    sys.exit(server.run_all(all_are_tried))
