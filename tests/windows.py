#!/usr/bin/env python3
"""Runs the scripts of examples/windows beside servers of the built program, hour by hour of a clock of its own.

    python3 tests/windows.py PATH-TO-HHM

The texts of hours and days are compared with the sums of the batches that were put in them, by a loop with a dictionary;
the texts of all hours together with the sum of all. Each script is killed before each of its steps, and called again. It
prints a line for each check that fails and at the end `N passed, M failed`; the status is 1 where one fails. Linux, and
nothing but Python's own library and the client of clients/python.
"""
import os
import random
import shutil
import signal
import subprocess
import sys
import time

import server
from hhm_client import BANNER, Client
from server import WAIT, Server, check

TOP = os.path.dirname(server.HERE)
SCRIPT = os.path.join(TOP, "examples", "windows", "windows.sh")
SIZE = 1 << 32
# 2026-11-30, 22:00:01.
BEGIN = 1_796_076_001
HOUR = 3600
# A step of the script that ends it before the call that the file `kills` counts down to.
STEP = """#!/bin/bash
left=$(cat "$KILLS")
echo $((left - 1)) >"$KILLS"
if [[ $left = 0 ]]; then kill -9 $PPID; exit 9; fi
exec {program} "$@"
"""


def sum_of(batches):
    counts = {}
    for cells in batches:
        for row, col, count in cells:
            counts[row, col] = counts.get((row, col), 0) + count
    return counts


def text_of(counts):
    lines = "".join(f"{row + 1} {col + 1} {counts[row, col]}\n" for row, col in sorted(counts))
    return BANNER.decode() + f"{SIZE} {SIZE} {len(counts)}\n{lines}"


class Windows:
    """A server with its files, and calls of the script beside it."""

    def __init__(self, name):
        self.folder = os.path.join(server.FOLDER, name)
        os.mkdir(self.folder)
        self.kept = self.path("windows")
        self.number = 0
        steps = self.path("steps")
        os.mkdir(steps)
        for word in ("ln", "mv", "sync", "rm", "hhm", "hhmc"):
            program = {"hhm": server.PROGRAM, "hhmc": os.path.join(TOP, "clients", "python", "hhm_client.py")}.get(word)
            with open(os.path.join(steps, word), "w") as file:
                file.write(STEP.format(program=program or shutil.which(word)))
            os.chmod(file.name, 0o755)
        self.words = {
            "PATH": f"{steps}:{os.environ['PATH']}", "KILLS": self.path("kills"), "SNAPSHOT": self.path("sum.snap"),
            "WINDOWS": self.kept, "KEEP_HOURS": "100", "KEEP_DAYS": "100",
        }  # fmt: skip

    def path(self, *names):
        return os.path.join(self.folder, *names)

    def serve(self):
        words = ["--rows", str(SIZE), "--cols", str(SIZE), "--fold-above", "50"]
        return Server([*words, "--snapshot", self.path("sum.snap"), "--log", self.path("sum.hhmlog")], tcp=False)

    def call(self, running, now, kills=-1, **more):
        """The status of a call at a time in seconds, and what it writes to standard error."""
        with open(self.path("kills"), "w") as file:
            file.write(f"{kills}\n")
        words = {**os.environ, **self.words, "HHM_SERVER": f"unix:{running.path}", **more}
        ended = subprocess.run([SCRIPT, str(now)], env=words, capture_output=True, text=True, timeout=WAIT)
        return ended.returncode, ended.stderr

    def put(self, running, batches):
        """Puts batches, each of them twice."""
        with running.client(client=7) as hhm:
            for cells in batches:
                self.number += 1
                for _ in range(2):
                    hhm.put(self.number, cells)

    def files(self, folder):
        return sorted(os.listdir(os.path.join(self.kept, folder)))

    def read(self, *names):
        with open(os.path.join(self.kept, *names)) as file:
            return file.read()


def drawn(dice):
    """Some batches of cells, whose places come again. No count is 0."""
    batches = []
    for _ in range(dice.randrange(4)):
        places = {(dice.randrange(6), dice.randrange(6)) for _ in range(dice.randrange(1, 20))}
        batches.append([(row, col, dice.randrange(1, 1000)) for row, col in sorted(places)])
    return batches


def hours_and_days_are_kept():
    """Each hour's text is the sum of its batches, and each day's, while the server folds and is killed; a second call of an
    hour changes nothing."""
    windows, dice = Windows("kept"), random.Random(80)
    names = ["20261130T22", "20261130T23", *[f"20261201T{hour:02}" for hour in range(24)], "20261202T00", "20261202T01"]
    hours = [drawn(dice) for _ in names]
    for at, name in enumerate(names):
        with windows.serve() as running:
            now = BEGIN + HOUR * at
            check(f"{name}: status", windows.call(running, now), (0, ""))
            windows.put(running, hours[at])
            held = windows.files("hours"), windows.files("days")
            check(f"{name}: once more", windows.call(running, now + 60), (0, ""))
            check(f"{name}: nothing more", (windows.files("hours"), windows.files("days")), held)
    spans = [f"{old}-{new}.mtx" for old, new in zip(names, names[1:])]
    check("hours: files", windows.files("hours"), sorted([f"{it}.snap" for it in names] + spans))
    for at, name in enumerate(spans):
        check(f"hours: {name}", windows.read("hours", name), text_of(sum_of(hours[at])))
    days = ["20261130-20261201.mtx", "20261130.snap", "20261201-20261202.mtx", "20261201.snap", "20261202.snap"]
    check("days: files", windows.files("days"), days)
    check("days: the first", windows.read("days", days[0]), text_of(sum_of(hours[0] + hours[1])))
    check("days: the second", windows.read("days", days[2]), text_of(sum_of(sum(hours[2:26], []))))
    paths = [os.path.join(windows.kept, "hours", it) for it in spans]
    whole = subprocess.run([server.PROGRAM, "sum", *paths], capture_output=True, text=True, timeout=WAIT)
    check("hours: all together", whole.stdout, text_of(sum_of(sum(hours[:-1], []))))


def what_is_old_goes():
    """Copies and texts of more than three hours, or of two days, go; the newest copy stays though the machine was off."""
    windows = Windows("old")
    for at in (0, 1, 2, 3, 4, 5, 80):
        with windows.serve() as running:
            status = windows.call(running, BEGIN + HOUR * at, KEEP_HOURS="3", KEEP_DAYS="2")
            check(f"old, {at}: status", status, (0, ""))
            if at == 5:
                names = ["20261201T00", "20261201T01", "20261201T02", "20261201T03"]
                spans = [f"{old}-{new}.mtx" for old, new in zip(["20261130T23", *names], names)]
                check("old: hours", windows.files("hours"), sorted([f"{it}.snap" for it in names] + spans))
            windows.put(running, [[(1, at, 7)]])
    names = ["20261201T03-20261204T06.mtx", "20261204T06.snap"]
    check("off: hours", windows.files("hours"), names)
    check("off: since when", windows.read("hours", names[0]), text_of({(1, 5): 7}))
    check("off: days", windows.files("days"), ["20261201-20261204.mtx", "20261204.snap"])


def kills_leave_nothing_half():
    """Killed before each of its steps and called again, it leaves what it leaves without kills."""
    dice, step = random.Random(81), 0
    while True:
        windows = Windows(f"kills{step}")
        with windows.serve() as running:
            check(f"kill {step}: before", windows.call(running, BEGIN + HOUR), (0, ""))
            early = drawn(dice) + [[(0, 0, 1)]]
            windows.put(running, early)
            status, _ = windows.call(running, BEGIN + 2 * HOUR, kills=step)
            names = [name for folder in ("hours", "days") for name in windows.files(folder)]
            for name in names:
                if name.endswith(".mtx"):
                    where = "hours" if "T" in name else "days"
                    check(f"kill {step}: {name} is whole", windows.read(where, name), text_of(sum_of(early)))
            check(f"kill {step}: again", windows.call(running, BEGIN + 2 * HOUR + 9), (0, ""))
            for name in ("20261130T23-20261201T00.mtx", "20261130-20261201.mtx"):
                where = "hours" if "T" in name else "days"
                check(f"kill {step}: {name}", windows.read(where, name), text_of(sum_of(early)))
            check(f"kill {step}: files", [it for it in names if it not in (*windows.files("hours"), *windows.files("days"))
                                          and not it.endswith(".new")], [])  # fmt: skip
        if status == 0:
            break
        step += 1
    check("kills: there were some", step > 8, True)


def faults_are_told():
    """Another book, a server that isn't there, a file that was taken away: status 1 or hhm's, and no text."""
    windows = Windows("faults")
    with windows.serve() as running:
        check("faults: before", windows.call(running, BEGIN), (0, ""))
        gone = running
    status, error = windows.call(gone, BEGIN + HOUR, HHMC="false")
    check("faults: no server", (status, windows.files("hours")), (1, ["20261130T22.snap"]))
    os.remove(windows.path("sum.snap"))
    os.remove(windows.path("sum.hhmlog"))
    with windows.serve() as running:
        status, error = windows.call(running, BEGIN + HOUR)
        wanted = "hhm: snapshot: OtherBook\n"
        check("faults: another book", (status, error), (3, wanted))
        status, error = windows.call(running, BEGIN + HOUR)
        check("faults: another book again", (status, error), (3, wanted))
        check("faults: no text", [it for it in windows.files("hours") if it.endswith(".mtx")], [])
        windows.put(running, [[(3, 3, 3)]])
        # The day began with the old book; the hour didn't.
        check("faults: on with the new book", windows.call(running, BEGIN + 2 * HOUR), (3, wanted))
        check("faults: its text", windows.read("hours", "20261130T23-20261201T00.mtx"), text_of({(3, 3): 3}))
        check("faults: the next day", windows.call(running, BEGIN + 26 * HOUR), (0, ""))


# What stands for systemctl: it starts and stops servers as hhm@.service has them.
SYSTEMCTL = """#!/bin/bash
what=$1
shift
for name; do
    folder=$STATE/${name#hhm@}
    socket=$folder/sock
    if [[ $what = start && ! -S $socket ]]; then
        mkdir -p "$folder"
        "$SERVER" serve --unix "$socket" --rows 4294967296 --cols 4294967296 --fold-above 50 \\
            --snapshot "$folder/sum.snap" --log "$folder/sum.hhmlog" </dev/null >>"$STATE/said" 2>&1 &
        echo $! >"$folder/pid"
        until [[ -S $socket ]]; do sleep 0.02; done
    elif [[ $what = stop && -S $socket ]]; then
        pid=$(cat "$folder/pid")
        kill "$pid" 2>/dev/null || continue
        while kill -0 "$pid" 2>/dev/null; do sleep 0.02; done
    fi
done
"""


class Rolled(Windows):
    """A folder of servers for hours, and calls of rolled.sh over it."""

    def __init__(self, name):
        super().__init__(name)
        self.state = self.path("state")
        os.mkdir(self.state)
        with open(self.path("systemctl"), "w") as file:
            file.write(SYSTEMCTL)
        os.chmod(file.name, 0o755)
        self.words.update(STATE=self.state, SYSTEMCTL=file.name, SERVER=server.PROGRAM, KEEP_HOURS="168", KEEP_DAYS="35")

    def call(self, now, kills=-1, **more):
        with open(self.path("kills"), "w") as file:
            file.write(f"{kills}\n")
        script = os.path.join(os.path.dirname(SCRIPT), "rolled.sh")
        words = {**os.environ, **self.words, **more}
        ended = subprocess.run([script, str(now)], env=words, capture_output=True, text=True, timeout=WAIT)
        return ended.returncode, ended.stderr

    def client(self, hour):
        return Client(client=7, unix=os.path.join(self.state, hour, "sock"))

    def fill(self, hour, batches):
        """Puts batches into an hour's server, each of them twice, and saves between them."""
        with self.client(hour) as hhm:
            for number, cells in enumerate(batches):
                for _ in range(2):
                    hhm.put(number, cells)
                if number == 0:
                    hhm.save()

    def kill(self, hour):
        """Kills an hour's server, whose last batches are in its log alone."""
        with open(os.path.join(self.state, hour, "pid")) as file:
            pid = int(file.read())
        os.kill(pid, signal.SIGKILL)
        while os.path.exists(f"/proc/{pid}"):
            time.sleep(0.01)
        os.remove(os.path.join(self.state, hour, "sock"))

    def sum_of(self, *names):
        words = [server.PROGRAM, "export", os.path.join(self.kept, *names)]
        return subprocess.run(words, capture_output=True, text=True, timeout=WAIT).stdout

    def stop(self):
        names = [f"hhm@{it}" for it in os.listdir(self.state) if it.isdigit()]
        subprocess.run([self.path("systemctl"), "stop", *names], env={**os.environ, **self.words}, check=True)


def names_of(end, begin=0):
    """The hours from one up to another, from the first one on, as servers are named."""
    return [time.strftime("%Y%m%d%H", time.gmtime(BEGIN + HOUR * at)) for at in range(begin, end)]


def hours_are_rolled_into_days():
    """Each hour's file is the sum of its batches, and each day's that of its hours, once each, though a server was killed,
    or had no batch, and though the script is called again."""
    rolled, dice = Rolled("rolled"), random.Random(82)
    names = names_of(5)
    hours = [drawn(dice) + [[(9, at, 1)]] for at in range(4)] + [[]]
    for at, name in enumerate(names):
        check(f"rolled {name}: status", rolled.call(BEGIN + HOUR * at), (0, ""))
        rolled.fill(name, hours[at])
        if at == 1:
            rolled.kill(name)
    for at in range(5, 9):
        for _ in range(2):
            check(f"rolled, {at}: status", rolled.call(BEGIN + HOUR * at), (0, ""))
    # The first call began the servers of the two hours before, which had no batch.
    check("rolled: hours", rolled.files("hours"), sorted(f"{it}.snap" for it in names_of(6, -2)))
    for name, batches in zip(names, hours):
        check(f"rolled: hour {name}", rolled.sum_of("hours", f"{name}.snap"), text_of(sum_of(batches)))
    check("rolled: days", [it for it in rolled.files("days") if not it.endswith(".lock")],
          ["20261130.snap", "20261201.snap"])  # fmt: skip
    check("rolled: the first day", rolled.sum_of("days", "20261130.snap"), text_of(sum_of(sum(hours[:2], []))))
    check("rolled: the second day", rolled.sum_of("days", "20261201.snap"), text_of(sum_of(sum(hours[2:], []))))
    has = subprocess.run([server.PROGRAM, "has", os.path.join(rolled.kept, "days", "20261130.snap"), "1", names[1]],
                         capture_output=True, text=True, timeout=WAIT)  # fmt: skip
    total = sum(sum_of(hours[1]).values())
    check("rolled: an hour is in", has.stdout, f"index 3 cells {len(sum_of(hours[1]))} total {total}\n")
    check("rolled: folders", sorted(it for it in os.listdir(rolled.state) if it.isdigit()), names_of(10)[6:])
    check("rolled: later", rolled.call(BEGIN + 200 * HOUR), (0, ""))
    check("rolled: old hours go", [it for it in rolled.files("hours") if it[:10] < "2026120206"], [])
    rolled.stop()


def a_closed_hour_stays_closed():
    """What comes into an hour once it was closed is told of, and is in no day."""
    rolled = Rolled("closed")
    check("closed: status", rolled.call(BEGIN), (0, ""))
    name = names_of(1)[0]
    rolled.fill(name, [[(1, 1, 1)]])
    check("closed: it is closed", rolled.call(BEGIN + 3 * HOUR), (0, ""))
    subprocess.run([rolled.path("systemctl"), "start", f"hhm@{name}"], env={**os.environ, **rolled.words}, check=True)
    rolled.fill(name, [[(2, 2, 2)]])
    said = f"rolled.sh: {rolled.state}/{name} has more than {rolled.kept}/hours/{name}.snap\n"
    check("closed: told", rolled.call(BEGIN + 3 * HOUR), (1, said))
    check("closed: its folder stays", os.path.exists(os.path.join(rolled.state, name)), True)
    check("closed: the day", rolled.sum_of("days", "20261130.snap"), text_of({(1, 1): 1}))
    rolled.stop()


def kills_of_a_roll_leave_each_hour_once():
    """Killed before each of its steps and called again, the script leaves what it leaves without kills."""
    dice, step = random.Random(83), 0
    while True:
        rolled = Rolled(f"rolled kills{step}")
        batches = drawn(dice) + [[(0, 0, 1)]]
        check(f"kill of a roll {step}: before", rolled.call(BEGIN), (0, ""))
        name = names_of(1)[0]
        rolled.fill(name, batches)
        status, _ = rolled.call(BEGIN + 3 * HOUR, kills=step)
        check(f"kill of a roll {step}: again", rolled.call(BEGIN + 3 * HOUR), (0, ""))
        for names in (("hours", f"{name}.snap"), ("days", "20261130.snap")):
            check(f"kill of a roll {step}: {names}", rolled.sum_of(*names), text_of(sum_of(batches)))
        check(f"kill of a roll {step}: its folder", os.path.exists(os.path.join(rolled.state, name)), False)
        rolled.stop()
        if status == 0:
            break
        step += 1
    check("kills of a roll: there were some", step > 4, True)


def all_are_tried():
    hours_are_rolled_into_days()
    a_closed_hour_stays_closed()
    kills_of_a_roll_leave_each_hour_once()
    hours_and_days_are_kept()
    what_is_old_goes()
    kills_leave_nothing_half()
    faults_are_told()


if __name__ == "__main__":
    sys.exit(server.run_all(all_are_tried))
