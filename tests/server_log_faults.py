#!/usr/bin/env python3
"""Starts the built program as a server with a log whose calls fail, wait, or find no room, and compares what it tells.

    python3 tests/server_log_faults.py PATH-TO-HHM

The calls are those of files; lose_power.c, which is loaded before the program, has them fail at a place. What is wanted
was worked out by hand from docs/FORMATS.md and docs/DURABILITY.md. It prints a line for each check that fails and at
the end `N passed, M failed`; the status is 1 where one fails. Linux, Python's own library and the toolchain of Rattle.
"""
import contextlib
import os
import resource
import subprocess
import sys
import time

import server
from faults import bare
from disks import CUTS, DIE_BEFORE, DIE_BEHIND, FAIL, HOLD, HOLD_AND_FAIL, OPENS, RENAMES, SHORT, SYNCS
from disks import SYNCS_OF_FOLDERS, WRITES, Page, Room, is_until
from log_bytes import PAGE, Log, block, entry_of, head, log
from refused import STATS, library_of
from server import SMALL, Server, accepted, check, content, put_frame, refused, text
from server_faults import SAVE, STATUS, STOP, STOPPING, asked, counts, in_folder, is_silent, received, write
from server_log import BOTH, FIVE, STORED, THREE, TWO, hhm, in_log, kill, put_of, run_each
from server_log import saved, snapshot_of, started, stopped

# FIVE's numbers with another total.
OTHER_FIVE = (*FIVE[:2], [(0, 0, 6)])
LOG_FULL, LOG_FAILED, SAVE_FAILED = refused(34), refused(35), refused(42)
# What changes a file of the log.
CHANGES = (WRITES, CUTS, SYNCS)


def answer(link, frame):
    """The reply to a frame, of any length."""
    link.sendall(frame)
    front = received(link, 5)
    return front + received(link, int.from_bytes(front[:4], "big"))


def room_of(name):
    return Room(in_folder(name))


def serving(room, *more, snapshot=True, **how):
    """A server on the files of a room, whose calls the room's page can have fail."""
    words = [*SMALL, *server.BY_HAND, "--log", room.log, *(["--snapshot", room.snap] if snapshot else []), *more]
    return Server(words, tcp=False, **{**room.how(), **how})


def changes(room):
    return [room.page.count(call) for call in CHANGES]


def a_call_fails_under_a_put(name, call, **more):
    """The second put's write or sync fails: it is told, what was durable stays so, and a save is the way out."""
    room = room_of(name)
    with serving(room) as at:
        with at.link() as link, at.link() as other:
            check(f"{name}: put", answer(link, put_of(FIVE)), accepted(0, 5))
            room.page.arm(call, FAIL, **more)
            check(f"{name}: failed", answer(link, put_of(THREE)), LOG_FAILED)
            made = changes(room)
            check(f"{name}: a durable one again", answer(link, put_of(FIVE)), accepted(0, 5))
            check(f"{name}: the failed one again", answer(link, put_of(THREE)), LOG_FAILED)
            check(f"{name}: status", answer(link, STATUS), counts(2, 8))
            check(f"{name}: stored", answer(other, STORED), counts(1, 5))
            check(f"{name}: a further one", answer(other, put_of(TWO)), LOG_FAILED)
            check(f"{name}: the durable one with another total", answer(link, put_of(OTHER_FIVE)), refused(30))
            check(f"{name}: status then", answer(link, STATUS), counts(2, 8))
            check(f"{name}: no further call", changes(room), made)
            check(f"{name}: save", answer(other, SAVE), saved(2))
            check(f"{name}: again, behind the save", answer(link, put_of(THREE)), accepted(1, 8))
            check(f"{name}: the further one", answer(other, put_of(TWO)), accepted(2, 10))
            check(f"{name}: stored behind it", answer(link, STORED), counts(3, 10))
            all_of_it = [entry_of(batch) for batch in (FIVE, THREE, TWO)]
            new = Log(content(room.log))
            check(f"{name}: the new log", new.first, 2)
            check(f"{name}: its entries", [*BOTH, *map(entry_of, new.all_batches())], all_of_it)
        kill(at)
    check(f"{name}: a start", started("--log", room.log, "--snapshot", room.snap), stopped(3, 10))


def calls_fail_under_puts():
    a_call_fails_under_a_put("a sync", SYNCS)
    for part in [0, 1, 100, -1]:
        a_call_fails_under_a_put(f"a write behind {part}", WRITES, part=part)


def the_first_room_fails():
    """The sync of the zeros that are written ahead fails before anything is accepted."""
    room = room_of("no first room")
    with serving(room) as at:
        room.page.arm(SYNCS, FAIL)
        with at.link() as link:
            check("no first room: put", answer(link, put_of(FIVE)), LOG_FAILED)
            check("no first room: status", asked(link, STATUS + STORED, 42), counts(0, 0) * 2)
            check("no first room: save", answer(link, SAVE), saved(0))
            check("no first room: put again", answer(link, put_of(FIVE)), accepted(0, 5))
        kill(at)
    check("no first room: a start", started("--log", room.log, "--snapshot", room.snap), stopped(1, 5))


def zeros_that_fail_are_no_failure():
    """A write of the zeros fails, by any error: without room for a batch it is refused, with some it is accepted."""
    room = room_of("no zeros")
    with serving(room) as at:
        with at.link() as link:
            # Of the stretch that is asked for first, and of the page that is needed.
            room.page.arm(WRITES, FAIL, times=2, error=28)
            check("no zeros: put", answer(link, put_of(FIVE)), LOG_FULL)
            check("no zeros: status", asked(link, STATUS + STORED, 42), counts(0, 0) * 2)
            room.page.arm(WRITES, FAIL, times=1, error=28, part=1000)
            check("a page of zeros: put", answer(link, put_of(FIVE)), accepted(0, 5))
            check("a page of zeros: put more", answer(link, put_of(THREE)), accepted(1, 8))
        kill(at)
    check("no zeros: a start", started("--log", room.log, "--snapshot", room.snap), stopped(2, 8))


def all_who_wait_are_told():
    """While a sync that will fail is under way: who waits for it and who comes is told that it failed."""
    room = room_of("waiting")
    room.page[Page.HOLD] = 1
    with serving(room) as at:
        links = [at.link() for _ in range(4)]
        check("waiting: put", answer(links[0], put_of(FIVE)), accepted(0, 5))
        room.page.arm(SYNCS, HOLD_AND_FAIL)
        links[0].sendall(put_of(THREE))
        check("waiting: a sync is under way", is_until(lambda: room.page[Page.HELD]), True)
        links[1].sendall(put_of(TWO))
        links[2].sendall(put_of(THREE))
        check("waiting: nobody is answered", [is_silent(link, 0.2) for link in links[:3]], [True] * 3)
        check("waiting: queries go on", asked(links[3], STATUS + STORED, 42), counts(3, 10) + counts(1, 5))
        check("waiting: a used number is told", answer(links[3], put_frame(8, 1, text(4))), refused(30))
        check("waiting: a durable one is known", answer(links[3], put_of(FIVE)), accepted(0, 5))
        room.page[Page.HOLD] = 0
        check("waiting: all are told", [received(link, 15) for link in links[:3]], [LOG_FAILED] * 3)
        check("waiting: who comes too", answer(links[3], put_frame(9, 2, text(1))), LOG_FAILED)
        for link in links:
            link.close()
        kill(at)
    # Of the two of which nobody was told, what the system wrote may be there.
    output, error, status = started("--log", room.log, "--snapshot", room.snap)
    check("waiting: a start", (output.split()[2:3] in (["1"], ["2"]), error, status), (True, "", 0))


def a_repeat_waits_for_its_first():
    """A batch that is sent again over another connection isn't answered before the sync of the first has ended."""
    room = room_of("repeated")
    room.page[Page.HOLD] = 1
    with serving(room) as at:
        with at.link() as first, at.link() as second, at.link() as third:
            check("repeated: put", answer(first, put_of(FIVE)), accepted(0, 5))
            room.page.arm(SYNCS, HOLD)
            first.sendall(put_of(THREE))
            check("repeated: a sync is under way", is_until(lambda: room.page[Page.HELD]), True)
            second.sendall(put_of(THREE))
            check("repeated: it waits", is_silent(second, 0.3), True)
            check("repeated: cells are seen", asked(third, bytes.fromhex("0000001002") + bytes(16), 14)[-1], 8)
            room.page[Page.HOLD] = 0
            check("repeated: both", (received(first, 21), received(second, 21)), (accepted(1, 8),) * 2)
        kill(at)


def one_sync_serves_many():
    """Puts that come while a sync is under way share the next one, and sixteen in one piece take one, or two."""
    room = room_of("shared")
    with serving(room, "--workers", "9") as at:
        links = [at.link() for _ in range(8)]
        check("shared: put", answer(links[0], put_of(FIVE)), accepted(0, 5))
        room.page[Page.HOLD] = 1
        room.page.arm(SYNCS, HOLD)
        before = room.page.count(SYNCS)
        links[0].sendall(put_of(THREE))
        check("shared: a sync is under way", is_until(lambda: room.page[Page.HELD]), True)
        for n, link in enumerate(links[1:]):
            link.sendall(put_frame(9, n, text(1)))
        check("shared: all are accepted", is_until(lambda: status_of(at.link()) == counts(9, 15)), True)
        room.page[Page.HOLD] = 0
        check("shared: the first", received(links[0], 21), accepted(1, 8))
        rest = sorted(received(link, 21) for link in links[1:])
        check("shared: the others", rest, [accepted(2 + n, 9 + n) for n in range(7)])
        check("shared: syncs", room.page.count(SYNCS) - before, 2)
        for link in links:
            link.close()
        kill(at)
    check("shared: blocks", [len(batches) for _, batches in Log(content(room.log)).blocks], [1, 1, 7])
    sixteen_take_one(room_of("sixteen"))


def status_of(link):
    with link:
        return answer(link, STATUS)


def sixteen_take_one(room):
    words = ["--rows", "3", "--cols", "3", "--log", room.log]
    with Server(words, tcp=False, **room.how()) as at:
        with at.link() as link:
            check("sixteen: one before", answer(link, put_of(FIVE)), accepted(0, 5))
            before = room.page.count(SYNCS)
            frames = b"".join(put_frame(8, n, text(1)) for n in range(16))
            check("sixteen", asked(link, frames, 336), b"".join(accepted(1 + n, 6 + n) for n in range(16)))
            check("sixteen: syncs", room.page.count(SYNCS) - before in (1, 2), True)
        kill(at)


def files_are_limited(most, taken, name, is_ignored):
    """No file may have more than so many bytes: so many puts are accepted, then none, and with room again they are.

    By default the signal of a file that is too large ends a process. `hhm-run` has it ignored, as Python has.
    """
    name = f"{name} {is_ignored}"
    room = room_of(f"full {name}")
    with serving(room, restore_signals=not is_ignored) as at:
        server.limit_files(at.process, most)
        puts = [(7, n, [(0, 0, n + 1)]) for n in range(taken + 1)]
        totals = [sum(range(1, n + 2)) for n in range(taken + 1)]
        with at.link() as link:
            for n in range(taken):
                check(f"full {name}: put {n}", answer(link, put_of(puts[n])), accepted(n, totals[n]))
            total = totals[taken - 1] if taken else 0
            for _ in range(2):
                check(f"full {name}: no more", answer(link, put_of(puts[taken])), LOG_FULL)
                check(f"full {name}: status", asked(link, STATUS + STORED, 42), counts(taken, total) * 2)
            # What the book knows is answered from the book.
            check(f"full {name}: again", answer(link, put_of(puts[0])), accepted(0, 1) if taken else LOG_FULL)
            if taken:
                reused = (7, 0, [(0, 0, 9)])
                check(f"full {name}: another total", answer(link, put_of(reused)), refused(30))
            server.limit_files(at.process, resource.RLIM_INFINITY)
            check(f"full {name}: room again", answer(link, put_of(puts[taken])), accepted(taken, totals[taken]))
        kill(at)
    check(f"full {name}: a start", started("--log", room.log), stopped(taken + 1, totals[taken]))


def a_stretch_is_tried_once():
    """Where no long stretch of zeros is to be had, each put asks for one once, and what was written of it is cut off."""
    room = room_of("no stretch")
    with serving(room, snapshot=False, restore_signals=False) as at:
        server.limit_files(at.process, 6 * PAGE)
        with at.link() as link:
            for n in range(4):
                before = room.page.count(CUTS)
                check(f"no stretch: put {n}", answer(link, put_frame(7, n, text(1))), accepted(n, n + 1))
                check(f"no stretch: cuts {n}", room.page.count(CUTS) - before, 1)
        kill(at)


def others_have_room():
    """A batch for which there is no room is refused, and a smaller one behind it isn't."""
    room, size = room_of("small room"), ["--rows", "1000", "--cols", "3"]
    large = [(n, 0, 1) for n in range(1000)]
    with Server([*size, "--log", room.log], tcp=False, restore_signals=False, **room.how()) as at:
        server.limit_files(at.process, 3 * PAGE)
        with at.client(7) as hhm_client:
            check("small room: large", fault_of(lambda: hhm_client.put(1, large)), "LogFull")
            check("small room: small", hhm_client.put(2, [(0, 0, 5)]), (0, 5))
            check("small room: large again", fault_of(lambda: hhm_client.put(1, large)), "LogFull")
            check("small room: small again", hhm_client.put(3, [(0, 0, 3)]), (1, 8))
            check("small room: none", fault_of(lambda: hhm_client.put(4, [(0, 0, 2)])), "LogFull")
        kill(at)
    check("small room: a start", started("--log", room.log, setup=size), stopped(2, 8))


def fault_of(call):
    try:
        return call()
    except server.Refused as fault:
        return fault.name


def a_full_disk():
    """A file system without room, where one may be mounted: what was told stays, also where the server starts anew on
    it, and with room again puts are taken."""
    folder = in_folder("mounted")
    os.mkdir(folder)
    mount = ["mount", "-t", "tmpfs", "-o", "size=256k", "tmpfs", folder]
    if subprocess.run(mount, capture_output=True).returncode != 0:
        print("no file system may be mounted: a full disk isn't tried")
        return
    try:
        words = [*SMALL[:-4], "--log", os.path.join(folder, "log"), "--snapshot", os.path.join(folder, "snap")]
        with Server(words, tcp=False) as at:
            with at.link() as link:
                taken = fill_disk(link, 0)
                check("a full disk: some were taken", taken > 20, True)
                check("a full disk: a save", answer(link, SAVE) in (saved(taken), SAVE_FAILED), True)
            kill(at)
        with Server(words, tcp=False) as at:
            with at.link() as link:
                check("a full disk: a start", asked(link, STATUS + STORED, 42), counts(taken, taken) * 2)
                check("a full disk: again", answer(link, put_frame(1, 3, text(1))), accepted(3, 4))
                taken = fill_disk(link, taken)
                subprocess.run(["mount", "-o", "remount,size=64m", folder], check=True)
                check("room again", answer(link, put_frame(1, taken, text(1))), accepted(taken, taken + 1))
                check("room again: save", answer(link, SAVE), saved(taken + 1))
            kill(at)
        check("room again: a start", started(*words[8:], setup=words[:8]), stopped(taken + 1, taken + 1))
    finally:
        subprocess.run(["umount", folder], capture_output=True)


def fill_disk(link, taken):
    """Puts until there is no room. How many were accepted."""
    while (told := answer(link, put_frame(1, taken, text(1)))) == accepted(taken, taken + 1):
        taken += 1
    check("a full disk: told", told, LOG_FULL)
    check("a full disk: status", asked(link, STATUS + STORED, 42), counts(taken, taken) * 2)
    return taken


def a_small_move_is_completed():
    """Writes that move a part of their bytes go on behind it."""
    for part in [1, 100, 4095]:
        room = room_of(f"parts of {part}")
        room.page.arm(WRITES, SHORT, times=10**6, part=part, log_only=False)
        with serving(room) as at:
            with at.link() as link:
                # (zeros by single bytes would take long)
                room.page.disarm()
                check(f"{part}: put", answer(link, put_of(FIVE)), accepted(0, 5))
                room.page.arm(WRITES, SHORT, times=10**6, part=part, log_only=False)
                check(f"{part}: put more", answer(link, put_of(THREE)), accepted(1, 8))
                check(f"{part}: the log", in_log(room.log), log([[FIVE], [THREE]]))
                check(f"{part}: save", answer(link, SAVE), saved(2))
                check(f"{part}: the new log", in_log(room.log), head(BOTH))
            kill(at)
        check(f"{part}: a start", started("--log", room.log, "--snapshot", room.snap), stopped(2, 8))


# Of each call that fails at a start, what may be told: by the log, or by the file of the snapshot.
TOLD = {
    OPENS: ["log: Create", "file: OpenFailed", "file: Create", "file: Rename"],
    WRITES: ["log: Write", "log: Sync", "file: Write"],
    SYNCS: ["log: Sync", "file: Sync"],
    CUTS: ["log: Write", "log: Sync"],
    RENAMES: ["log: Rename", "file: Rename"],
    SYNCS_OF_FOLDERS: ["log: Sync", "log: Rename", "file: Rename"],
}
NAMES = {OPENS: "open", WRITES: "write", SYNCS: "sync", CUTS: "cut", RENAMES: "rename", SYNCS_OF_FOLDERS: "folder"}
# The files of a start: a snapshot's batches, a log.
STARTS = [
    (None, None, (0, 0)),
    (None, log([[FIVE], [THREE]]) + block(2, [TWO])[:60], (2, 8)),
    ([FIVE], log([[FIVE], [THREE]]), (2, 8)),
    ([FIVE, THREE], log([[FIVE]]), (2, 8)),
]


def lay_out(room, batches, held):
    """Puts the files of a start where they belong, and removes all others."""
    for name in os.listdir(room.folder):
        os.remove(os.path.join(room.folder, name))
    if held is not None:
        write(room.log, held)
    if batches is not None:
        write(room.snap, snapshot_of(batches))


def ways_of_calls(action):
    """The calls that fail in turn, and those at which the server is killed: an opening changes nothing."""
    return [call for call in NAMES if action == FAIL or call != OPENS]


def starts_fail():
    """Each call of a start, and of the end behind it, fails in turn, or the server is killed there: the next start has
    all."""
    for place, (batches, held, (count, total)) in enumerate(STARTS):
        for action in (FAIL, DIE_BEFORE, DIE_BEHIND):
            for call in ways_of_calls(action):
                for number in range(1, 40):
                    room = room_of(f"start {place} {action} {call} {number}")
                    lay_out(room, batches, held)
                    room.page.arm(call, action, number, log_only=False)
                    words = ["--log", room.log, "--snapshot", room.snap]
                    ended = started(*words, **room.how())
                    name = f"start {place}: {NAMES[call]} {number}, action {action}"
                    if room.page[Page.LEFT] > 0:
                        check(name, ended, stopped(count, total))
                        break
                    judge_start(name, ended, action, call, stopped(count, total))
                    room.page.disarm()
                    check(f"{name}: the next", started(*words, **room.how()), stopped(count, total))


def judge_start(name, ended, action, call, whole):
    if action != FAIL:
        # what it wrote last may be there or not
        check(f"{name}: killed", ended[2], -9)
        return
    told = [("", f"hhm: {words}\n", 4) for words in TOLD[call]]
    check(f"{name}: {ended}", bare(ended) in [whole, *told], True)


def starts_tell_what_failed():
    """The first call of each kind that a start makes, where there is no log and where there is one."""
    for place, call, words in [
        (0, SYNCS_OF_FOLDERS, "log: Sync"), (0, WRITES, "log: Write"), (0, SYNCS, "log: Sync"),
        (0, RENAMES, "log: Rename"), (1, SYNCS_OF_FOLDERS, "log: Sync"), (1, OPENS, "log: Create"),
        (1, SYNCS, "log: Sync"),
    ]:  # fmt: skip
        room = room_of(f"first {place} {call}")
        lay_out(room, *STARTS[place][:2])
        # The log's lock and the folder are opened before the log, and where the lock can't be had a server goes on.
        with open(room.log + ".lock", "w"):
            room.page.arm(call, FAIL, 1, times=100 if call == OPENS else 1, log_only=call not in (SYNCS_OF_FOLDERS,))
        ended = started("--log", room.log, **room.how())
        check(f"the first {NAMES[call]}, {place}", ended, ("", f"hhm: {words}\n", 4))


def saves_fail():
    """Each call of a save, with its new log, fails in turn, or the server is killed there: what was accepted stays."""
    for action in (FAIL, DIE_BEFORE, DIE_BEHIND):
        for call in ways_of_calls(action):
            # (of writes most are of zeros that are written ahead)
            for number in range(1, 12):
                if not a_save_meets(action, call, number):
                    break


def a_save_meets(action, call, number):
    """Whether there was such a call in a save."""
    name = f"a save: {NAMES[call]} {number}, action {action}"
    room = room_of(name)
    with serving(room) as at:
        with at.link() as link:
            check(f"{name}: put", answer(link, put_of(FIVE)), accepted(0, 5))
            room.page.arm(call, action, number, log_only=False)
            with contextlib.suppress(ConnectionError):
                told = answer(link, SAVE)
                room.page.disarm()
                check(f"{name}: {told.hex()}", told in (saved(1), SAVE_FAILED, b""), True)
                if told:
                    goes_on_behind_a_save(name, link, told == SAVE_FAILED)
        kill(at)
    was_met = room.page[Page.LEFT] <= 0
    room.page.disarm()
    with serving(room) as at:
        with at.link() as link:
            check(f"{name}: the first is there", answer(link, put_of(FIVE)), accepted(0, 5))
            check(f"{name}: the second", answer(link, put_of(THREE)), accepted(1, 8))
            check(f"{name}: both", asked(link, STATUS + STORED, 42), counts(2, 8) * 2)
            check(f"{name}: a save then", answer(link, SAVE), saved(2))
            check(f"{name}: stop", answer(link, STOP), STOPPING)
        at.ends(name, 2, 8)
    left = {"log", "snap", "log.lock", "snap.lock"}
    check(f"{name}: what is left", set(os.listdir(room.folder)), left)
    return was_met


def goes_on_behind_a_save(name, link, has_failed):
    """Behind a save that failed the log in use goes on, or puts are refused until a save succeeds."""
    told = answer(link, put_of(THREE))
    check(f"{name}: put more: {told.hex()}", told in (accepted(1, 8), LOG_FAILED), True)
    if told == LOG_FAILED:
        check(f"{name}: it failed indeed", has_failed, True)
        check(f"{name}: the way out", answer(link, SAVE)[:5], saved(1)[:5])
        check(f"{name}: put then", answer(link, put_of(THREE)), accepted(1, 8))


def an_end_with_a_failed_log():
    """A Stop behind a failed log saves all that was accepted, and the log is begun anew."""
    room = room_of("failed at the end")
    with serving(room) as at:
        with at.link() as link:
            check("failed at the end: put", answer(link, put_of(FIVE)), accepted(0, 5))
            room.page.arm(SYNCS, FAIL)
            check("failed at the end: failed", answer(link, put_of(THREE)), LOG_FAILED)
            check("failed at the end: stop", answer(link, STOP), STOPPING)
        at.ends("failed at the end", 2, 8)
    check("failed at the end: the log", in_log(room.log), head(BOTH))
    check("failed at the end: a start", started("--log", room.log, "--snapshot", room.snap), stopped(2, 8))


def a_failed_log_alone():
    """Without a snapshot there is no way out but a new start, which has all that was told."""
    room = room_of("failed alone")
    with serving(room, snapshot=False) as at:
        with at.link() as link:
            check("failed alone: put", answer(link, put_of(FIVE)), accepted(0, 5))
            room.page.arm(SYNCS, FAIL)
            check("failed alone: failed", answer(link, put_of(THREE)), LOG_FAILED)
            check("failed alone: no save", answer(link, SAVE), refused(43))
            check("failed alone: still failed", answer(link, put_of(TWO)), LOG_FAILED)
        kill(at)
    with serving(room, snapshot=False) as at:
        with at.link() as link:
            check("failed alone: again", asked(link, put_of(FIVE) + put_of(THREE), 42), accepted(0, 5) + accepted(1, 8))
        kill(at)
    check("failed alone: a start", started("--log", room.log), stopped(2, 8))


def a_failed_log_takes_nothing():
    """Behind a failed sync nothing more is admitted, and the end tells what is missing: all clients know the rest."""
    room = room_of("nothing more")
    with serving(room, snapshot=False) as at:
        with at.link() as link:
            check("nothing more: put", answer(link, put_of(FIVE)), accepted(0, 5))
            told = figures(answer(link, STATS))
            check("nothing more: the log works", told["log_failed"], "0")
            room.page.arm(SYNCS, FAIL)
            check("nothing more: failed", answer(link, put_of(THREE)), LOG_FAILED)
            refusals = {answer(link, put_frame(9, n, text(1))) for n in range(2000)}
            check("nothing more: 2,000 further ones", refusals, {LOG_FAILED})
            check("nothing more: status", asked(link, STATUS + STORED, 42), counts(2, 8) + counts(1, 5))
            told = figures(answer(link, STATS))
            check("nothing more: the log has failed", told["log_failed"], "1")
            check("nothing more: stop", answer(link, STOP), STOPPING)
        output, error = at.process.communicate(timeout=server.WAIT)
        check("nothing more: last line", output, "stopped batches 1 total 5\n")
        check("nothing more: the missing one", error, "hhm: log: NotDurable (1 batches)\n")
        check("nothing more: its status", at.process.returncode, 4)


def figures(reply):
    """The lines of a Stats, by name."""
    lines = reply[5:].decode().splitlines()
    return dict(line.removeprefix("hhm_").rsplit(" ", 1) for line in lines)


def a_hanging_sync_ends_a_drain():
    """A Stop while a sync hangs: with --drain the server ends with status 4 and says what is durable, and else waits.

    A sync that takes less than ten seconds more than the drain is no hang: all is accepted, and the status is 0.
    """
    for name, words, wanted in [
        ("hanging", ["--drain", "1"], ("", "hhm: log: Hangs (1 batches are durable)\n", 4)),
        ("slow", ["--drain", "1"], ("stopped batches 2 total 8\n", "", 0)),
        ("undrained", [], ("stopped batches 2 total 8\n", "", 0)),
    ]:
        room = room_of(name)
        room.page[Page.HOLD] = 1
        with serving(room, *words) as at:
            with at.link() as link, at.link() as stopping:
                check(f"{name}: put", answer(link, put_of(FIVE)), accepted(0, 5))
                room.page.arm(SYNCS, HOLD)
                link.sendall(put_of(THREE))
                check(f"{name}: a sync is under way", is_until(lambda: room.page[Page.HELD]), True)
                check(f"{name}: stop", answer(stopping, STOP), STOPPING)
                stopping.close()
                begun = time.monotonic()
                if name == "hanging":
                    try:
                        ended = (*at.process.communicate(timeout=30), at.process.returncode)
                    except subprocess.TimeoutExpired:
                        ended = "not at all"
                    check(f"{name}: the end", ended, wanted)
                    check(f"{name}: in time", 12 <= time.monotonic() - begun < 20, True)
                else:
                    time.sleep(9 if words else 16)
                    check(f"{name}: it goes on", at.process.poll(), None)
                room.page[Page.HOLD] = 0
                if name != "hanging":
                    check(f"{name}: its reply", received(link, 21), b"" if words else accepted(1, 8))
            if name != "hanging":
                check(f"{name}: the end", (*at.process.communicate(timeout=server.WAIT), at.process.returncode), wanted)
        output, error, status = started("--log", room.log, "--snapshot", room.snap)
        check(f"{name}: a start", (output.split()[2:3] in (["1"], ["2"]), error, status), (True, "", 0))


def a_log_is_full():
    for is_ignored in [True, False]:
        files_are_limited(PAGE, 0, "at once", is_ignored)
        files_are_limited(2 * PAGE, 1, "behind one", is_ignored)
        files_are_limited(5 * PAGE, 4, "behind four", is_ignored)


def limited_saves_fail():
    """A snapshot or a new log that the limit doesn't let grow: the save is refused, and no signal ends the server."""
    for name, most, fault in [("snapshot", 50, "file: Write"), ("log", PAGE - 1, "log: Write")]:
        room = room_of(f"limited {name}")
        with serving(room) as at:
            with at.link() as link:
                check(f"limited {name}: put", answer(link, put_of(FIVE)), accepted(0, 5))
                server.limit_files(at.process, most)
                check(f"limited {name}: save", answer(link, SAVE), SAVE_FAILED)
                check(f"limited {name}: status", asked(link, STATUS + STORED, 42), counts(1, 5) * 2)
                server.limit_files(at.process, resource.RLIM_INFINITY)
                check(f"limited {name}: save again", answer(link, SAVE), saved(1))
                check(f"limited {name}: put more", answer(link, put_of(THREE)), accepted(1, 8))
                server.limit_files(at.process, most)
                check(f"limited {name}: stop", answer(link, STOP), STOPPING)
            output, error = at.process.communicate(timeout=server.WAIT)
            check(f"limited {name}: the end", (output, error, at.process.returncode), ("", f"hhm: {fault}\n", 4))
        check(f"limited {name}: a start", started("--log", room.log, "--snapshot", room.snap), stopped(2, 8))


def limited_starts_fail():
    """A first start whose files may have no more bytes than these ends with a fault, and the next one is as the first."""
    for name, most, fault in [("snapshot", 50, "file: Write"), ("log", PAGE - 1, "log: Write")]:
        path = os.path.join(server.FOLDER, f"limited start {name}")
        words = [server.PROGRAM, "serve", "--unix", path + " socket", *SMALL, f"--{name}", path]
        limits = (most, most)
        ran = subprocess.run(words, preexec_fn=lambda: resource.setrlimit(resource.RLIMIT_FSIZE, limits),
                             capture_output=True, text=True, timeout=server.WAIT)
        check(f"limited start {name}", (ran.stdout, ran.stderr, ran.returncode), ("", f"hhm: {fault}\n", 4))
        check(f"limited start {name}: then", started(f"--{name}", path), stopped(0, 0))


def all_are_tried():
    Room.library = library_of("lose_power.c", server.FOLDER)
    run_each(
        calls_fail_under_puts,
        the_first_room_fails,
        zeros_that_fail_are_no_failure,
        all_who_wait_are_told,
        a_repeat_waits_for_its_first,
        one_sync_serves_many,
        a_hanging_sync_ends_a_drain,
        a_log_is_full,
        limited_saves_fail,
        limited_starts_fail,
        a_stretch_is_tried_once,
        others_have_room,
        a_full_disk,
        a_small_move_is_completed,
        starts_fail,
        starts_tell_what_failed,
        saves_fail,
        an_end_with_a_failed_log,
        a_failed_log_alone,
        a_failed_log_takes_nothing,
    )


if __name__ == "__main__":
    sys.exit(server.run_all(all_are_tried))
