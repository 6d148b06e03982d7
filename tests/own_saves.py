#!/usr/bin/env python3
"""Runs servers that save by themselves, and looks at what they leave.

    python3 tests/own_saves.py PATH-TO-HHM

What is wanted was worked out by hand from docs/FORMATS.md. It prints a line for each check that fails and at the end
`N passed, M failed`; the status is 1 where one fails. Linux and Python's own library.
"""
import os
import re
import shutil
import signal
import subprocess
import sys
import time

import server
from hhm_client import Refused
from server import WAIT, Server, check

SIZE = ["--rows", "1000", "--cols", "1000"]
LOG_FAILED = 35
PAGE = 4096


class Place:
    """A folder with the files of one server."""

    def __init__(self, name):
        self.folder = os.path.join(server.FOLDER, name)
        os.mkdir(self.folder)
        self.snap = os.path.join(self.folder, "sum.snap")
        self.log = os.path.join(self.folder, "sum.hhmlog")
        self.files = ["--snapshot", self.snap, "--log", self.log]

    def serves(self, *words, log=True):
        files = self.files if log else self.files[:2]
        return Server([*SIZE, *files, *words, "--events"], tcp=False)

    def checked(self, log=True):
        """How many batches both files have, and their total; the fault where there is one."""
        words = ["--log", self.log] if log else []
        ran = subprocess.run([server.PROGRAM, "check", self.snap, *words], capture_output=True, text=True, timeout=WAIT)
        found = re.search(r"batches (\d+) total (\d+)", ran.stdout)
        return (int(found[1]), int(found[2])) if found else ran.stderr


def put_some(client, begin, count):
    """Puts batches of one cell each, under these numbers."""
    for number in range(begin, begin + count):
        client.put(number, [(number % 1000, number // 1000, 1)])


def waits_until(call, most=WAIT):
    """Whether this comes to be so."""
    end = time.monotonic() + most
    while time.monotonic() < end:
        if call():
            return True
        time.sleep(0.05)
    return False


def ended(running):
    """Stops a server, and gives what it wrote to standard error, by the kinds of its events, and its status."""
    with running.client() as client:
        client.stop()
    _, error = running.process.communicate(timeout=WAIT)
    return [line.split()[1] for line in error.splitlines()], running.process.returncode


def a_long_log_is_begun_anew():
    """A put of one cell takes a page. Above 50 pages the server folds and saves, and the log is short again."""
    for folds in (True, False):
        name = f"a long log, {'folded' if folds else 'not folded'}"
        place = Place(f"long{folds}")
        more = [] if folds else ["--fold-above", "0"]
        with place.serves("--save-log-above", str(50 * PAGE), *more) as running:
            with running.client(client=1) as client:
                put_some(client, 1, 40)
                time.sleep(2.5)
                check(f"{name}: a short one is left", client.stats()["saves_total"], 0)
                put_some(client, 41, 40)
                check(f"{name}: saved", waits_until(lambda: client.stats()["saves_total"] > 0), True)
                # (the look may have come amid the puts)
                stats = client.stats()
                saved = stats["saved_batches"]
                check(f"{name}: what was saved", (stats["saves_total"], 50 <= saved <= 80), (1, True))
                # (what came during the save may share a page)
                check(f"{name}: it is short", 1 <= stats["log_pages"] <= 81 - saved, True)
                check(f"{name}: what is folded", 50 <= stats["folded"] <= saved if folds else stats["folded"] == 0, True)
                put_some(client, 81, 5)
            check(f"{name}: both files", place.checked(), (85, 85))
            running.process.kill()
            running.process.communicate()
        check(f"{name}: after a kill", place.checked(), (85, 85))
        with place.serves("--save-log-above", str(50 * PAGE), *more) as running:
            with running.client(client=1) as client:
                put_some(client, 1, 90)
                check(f"{name}: sent again", (client.status().batches, client.status().total), (90, 90))
            check(f"{name}: the end", ended(running)[1], 0)
        check(f"{name}: at the end", place.checked(), (90, 90))


def a_long_snapshot_lets_the_log_grow():
    """The log is left until it is longer than the snapshot: a save writes no more than the puts did."""
    place = Place("snapshot")
    with place.serves("--save-log-above", "1", "--fold-above", "0") as running:
        with running.client(client=1) as client:
            client.put(1, [(row, col, 1) for row in range(1000) for col in range(5)])
            check("a long snapshot: saved", waits_until(lambda: client.stats()["saves_total"] == 1), True)
            pages = os.path.getsize(place.snap) // PAGE
            put_some(client, 2, pages // 2)
            time.sleep(2.5)
            check("a long snapshot: the log is left", client.stats()["saves_total"], 1)
            put_some(client, 2 + pages // 2, pages)
            check("a long snapshot: and not for ever", waits_until(lambda: client.stats()["saves_total"] == 2), True)


def no_log_is_begun_anew_where_nobody_says_so():
    """With 0 nothing is saved unasked, and neither without a snapshot's path."""
    for words, files in (["--save-log-above", "0"], True), (["--save-log-above", "1"], False):
        place = Place(f"never{files}")
        if not files:
            place.files = place.files[2:]
        with place.serves(*words) as running:
            with running.client(client=1) as client:
                put_some(client, 1, 30)
                time.sleep(2.5)
                stats = client.stats()
                check(f"never: {words}", (stats["saves_total"], stats["log_pages"]), (0, 31))


def what_came_is_saved_by_the_clock():
    """Each second, where anything came: a server without a log too. A file that has all isn't written again."""
    for log in (True, False):
        name = f"the clock, {'a log' if log else 'no log'}"
        place = Place(f"clock{log}")
        with place.serves("--save-every", "1", log=log) as running:
            with running.client(client=1) as client:
                put_some(client, 1, 3)
                saved = waits_until(lambda: client.stats().get("saved_batches") == 3)
                check(f"{name}: saved", (saved, place.checked(log)), (True, (3, 3)))
                found = os.stat(place.snap)
                time.sleep(3)
                check(f"{name}: not again", os.stat(place.snap).st_ino, found.st_ino)
                put_some(client, 4, 1)
                saved = waits_until(lambda: client.stats().get("saved_batches") == 4)
                check(f"{name}: what came then", (saved, place.checked(log)), (True, (4, 4)))
            running.process.kill()
            running.process.communicate()
        check(f"{name}: after a kill", place.checked(log), (4, 4))


def a_failed_log_is_begun_anew():
    """A log that was removed refuses puts. The server saves by itself, and takes puts again."""
    place = Place("failed")
    with place.serves() as running:
        with running.client(client=1) as client:
            put_some(client, 1, 3)
            os.remove(place.log)
            codes = []
            try:
                client.put(4, [(4, 0, 1)])
            except Refused as refused:
                codes.append(refused.code)
            check("a failed log: refused", codes, [LOG_FAILED])
            check("a failed log: saved", waits_until(lambda: client.stats()["saves_total"] > 0), True)
            put_some(client, 4, 3)
            check("a failed log: goes on", place.checked(), (6, 6))
        kinds, status = ended(running)
        check("a failed log: the end", (kinds.count("log-failed"), status), (1, 0))


def a_save_that_fails_is_tried_again():
    """By growing pauses of two seconds and more: in ten seconds at most four times. Puts go on meanwhile."""
    place = Place("fails")
    blocked = os.path.join(place.snap + ".new", "full")
    with place.serves("--save-log-above", "1") as running:
        os.makedirs(blocked)
        with running.client(client=1) as client:
            put_some(client, 1, 3)
            begun = time.monotonic()
            count = 3
            while time.monotonic() - begun < 10:
                count += 1
                put_some(client, count, 1)
                time.sleep(0.05)
            stats = client.stats()
            check("a save that fails: tries", 1 < stats["failed_saves_total"] < 6, True)
            check("a save that fails: none", stats["saves_total"], 0)
            shutil.rmtree(place.snap + ".new")
            check("a save that fails: at last", waits_until(lambda: client.stats()["saves_total"] > 0), True)
        kinds, status = ended(running)
        check("a save that fails: the end", ("save-failed" in kinds, "saved" in kinds, status), (True, True, 0))
    check("a save that fails: the files", place.checked(), (count, count))


def kills_lose_nothing():
    """Servers that save all the time are killed at any moment: what was accepted is there at the next start."""
    place = Place("kills")
    words = ["--save-log-above", "1", "--save-every", "1"]
    count = 0
    for turn in range(8):
        with place.serves(*words) as running:
            with running.client(client=1) as client:
                check(f"kills, {turn}: the start", client.status().batches, count)
                end = time.monotonic() + 0.7 + 0.23 * turn
                while time.monotonic() < end:
                    count += 1
                    put_some(client, count, 1)
            running.process.send_signal(signal.SIGKILL)
            running.process.communicate()
        check(f"kills, {turn}: both files", place.checked(), (count, count))


def tests():
    a_long_log_is_begun_anew()
    a_long_snapshot_lets_the_log_grow()
    no_log_is_begun_anew_where_nobody_says_so()
    what_came_is_saved_by_the_clock()
    a_failed_log_is_begun_anew()
    a_save_that_fails_is_tried_again()
    kills_lose_nothing()


if __name__ == "__main__":
    sys.exit(server.run_all(tests))
