#!/usr/bin/env python3
"""Compares the calls of the system that a server makes of its files with the order that the proofs have.

    python3 tests/call_order.py PATH-TO-HHM

In which order a put, a save, a rotation of the log and a start write, sync and rename is proved over every file and
every folder. That the program makes just these calls of the system is compared here: lose_power.c, which is loaded
before it, writes them down. It prints a line for each check that fails and at the end `N passed, M failed`; the status
is 1 where one fails. Linux, Python's own library and the toolchain of Rattle.
"""
import os
import sys
import time

import server
from disks import BEGUN, CUTS, OPENS, RENAMES, SENDS, SYNCS, SYNCS_OF_FOLDERS, WRITES, Room, records_of
from log_bytes import log
from refused import library_of
from server import SMALL, Server, accepted, check
from server_faults import SAVE, STOP, STOPPING, in_folder, write
from server_log import FIVE, THREE, TWO, put_of, saved
from server_log_faults import answer

FOLDER = "the folder"


class Trace:
    """The calls that a server has made of its files so far."""

    def __init__(self, room):
        self.room, self.taken = room, 0

    def plain(self, path):
        return FOLDER if path.rstrip("/") == self.room.folder else os.path.basename(path)

    def all(self):
        """Each call that has answered, as a tuple; of a reply that it was about to be sent."""
        names, renamed, calls = {}, None, []
        for record in records_of(self.room.trace):
            words = record.bytes.decode(errors="replace")
            begun, name = record.result == BEGUN, names.get(record.handle)
            if record.call == OPENS:
                names[record.handle] = self.plain(words)
                if record.size:
                    calls.append(("open", FOLDER))
                elif record.at & os.O_CREAT:
                    calls.append(("make", self.plain(words)))
                elif record.at & os.O_ACCMODE == os.O_RDWR:
                    calls.append(("open", self.plain(words)))
            elif record.call == RENAMES and begun:
                renamed = tuple(self.plain(word) for word in words.split("\0"))
            elif record.call == SENDS and begun:
                calls.append(("send",))
            elif not begun and record.result >= 0:
                if record.call == RENAMES and renamed:
                    # An open file goes by its new name.
                    names = {handle: renamed[1] if it == renamed[0] else it for handle, it in names.items()}
                calls += {
                    WRITES: [("write", name)], CUTS: [("cut", name)], SYNCS: [("sync", name)],
                    RENAMES: [("rename", *(renamed or ()))], SYNCS_OF_FOLDERS: [("sync", FOLDER)],
                }.get(record.call, [])
        return calls

    def since(self):
        """Those since the last time, once the last one is a reply, with several writes of one file as one."""
        for _ in range(2000):
            calls = self.all()
            if calls[self.taken :] and calls[-1] == ("send",):
                break
            time.sleep(0.001)
        new, self.taken = calls[self.taken :], len(calls)
        return [call for at, call in enumerate(new) if call[0] != "write" or new[at - 1 : at] != [call]]


def served(room):
    return Server([*SMALL, "--log", room.log, "--snapshot", room.snap], tcp=False, **room.how(traced=True))


def stop(name, link):
    check(f"{name}: stop", answer(link, STOP), STOPPING)
    link.close()


# What a save makes of the snapshot, and what a rotation then makes of the log.
SAVES = [("make", "snap.new"), ("write", "snap.new"), ("sync", "snap.new"), ("open", FOLDER),
         ("rename", "snap.new", "snap"), ("sync", FOLDER)]
ROTATES = [("open", FOLDER), ("open", FOLDER), ("make", "log.new"), ("write", "log.new"), ("sync", "log.new")]
NAMES = [("rename", "log.new", "log"), ("sync", FOLDER), ("sync", FOLDER), ("send",)]


def puts_and_saves():
    """A put is written and synced before it is answered; a log is begun anew only once the snapshot is there."""
    room = Room(in_folder("orders"))
    with served(room) as at:
        trace, link = Trace(room), at.link()
        check("the first put", answer(link, put_of(FIVE)), accepted(0, 5))
        trace.since()
        check("the second put", answer(link, put_of(THREE)), accepted(1, 8))
        check("a put: the calls", trace.since(), [("write", "log"), ("sync", "log"), ("send",)])
        check("a save", answer(link, SAVE), saved(2))
        calls = trace.since()
        check("a save: the snapshot", calls[: len(SAVES)], SAVES)
        rotation = calls[len(SAVES) :]
        check("a rotation: it is begun", rotation[: len(ROTATES)], ROTATES)
        check("a rotation: the name", rotation[-len(NAMES) :], NAMES)
        opened = [call for call in rotation[len(ROTATES) : -len(NAMES)] if call != ("open", FOLDER)]
        check("a rotation: between", {*opened} <= {("write", "log.new"), ("sync", "log.new"), ("cut", "log.new")}, True)
        check("a rotation: synced last", (opened or [("sync", "log.new")])[-1], ("sync", "log.new"))
        check("a put into the new log", answer(link, put_of(TWO)), accepted(2, 10))
        check("a put into the new log: the calls", trace.since(), [("write", "log"), ("sync", "log"), ("send",)])
        stop("orders", link)


def starts():
    """The names are synced before the log is opened, and the log is synced before the server listens."""
    room = Room(in_folder("start"))
    write(room.log, log([[FIVE], [THREE]]))
    with served(room) as at:
        trace, link = Trace(room), at.link()
        check("a put behind a start", answer(link, put_of(TWO)), accepted(2, 10))
        calls = trace.since()
        opened = calls.index(("open", "log")) if ("open", "log") in calls else 0
        check("a start: the names first", calls[:opened][-2:], [("sync", FOLDER), ("sync", FOLDER)])
        check("a start: the log behind them", [call for call in calls[:opened] if call[0] in ("write", "sync")],
              [("sync", FOLDER)] * 2)
        check("a start: the put last", calls[-3:], [("write", "log"), ("sync", "log"), ("send",)])
        stop("start", link)


def all_are_tried():
    Room.library = library_of("lose_power.c", server.FOLDER)
    puts_and_saves()
    starts()


if __name__ == "__main__":
    sys.exit(server.run_all(all_are_tried))
