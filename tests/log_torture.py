#!/usr/bin/env python3
"""Kills a server with a log, or takes its power, again and again while clients put, and looks for what was lost.

    python3 tests/log_torture.py PATH-TO-HHM [--long SECONDS] [--kills N] [--seed S]

A story is one log with its snapshot, and the lives of servers on them. Half of the stories begin without a file, the
others with files of older versions, which are empty or have batches. In each life several connections put batches, as
texts and as cells, with up to 64 on the way, and save meanwhile; it ends by SIGKILL at a drawn moment or at a drawn
call, or by a Stop. In some stories the program is alone. In the others lose_power.c is loaded before it: calls fail in
some lives, or move a part of their bytes, and between two lives the files may be made anew as a loss of power may leave
them (disks.py); so are they at drawn moments of the life, for `hhm check` to read. Servers of two stories of three fold
while they run, and those of two of three save by themselves.

Starts are given no numbers, the files' or others: rows and columns grow, and the cuts, the shards, the limit and the
most batches change in both directions, at times so that nothing more fits. Some starts are first given a number that is
too small, and are refused. In a part of the stories a second server, whose names are like those of the first one, has
its files in the same folder, and clients, kills and losses of power of its own at the same time.

Each start must succeed, unless a call of it was made to fail. Each batch that was answered Accepted is there at its
place, however often the server died since, and is answered so again; each that was sent and not answered is there once
or not at all, and is taken when it is sent again, also as a text of the rows and columns of then; one that was refused
by the limit or by the most batches isn't there. Once a server listens, both files say its setup and its book, and after
a start that died one of the pairs that its steps leave. The book keeps the identity that was reported; no server opens
a file of its neighbour; and at the end the sum is that of a dictionary of Python.

At the end stories are lived of which a kind of call isn't seen by the disk, as if the program didn't make it: each must
come to something that is wrong, or this test would find nothing. With `--long` these are more.

It goes on for 20 seconds, or for SECONDS, or for N kills. It prints its seed; where something is wrong, what was wrong,
the seed of that story, with which it is the first one again, and a folder with the files before and after that life.
Threads aren't drawn, so a story may go another way the next time; the files stay as they were. The last line is `N
passed, M failed`. Linux, Python's own library and the toolchain of Rattle.
"""
import argparse
import collections
import contextlib
import os
import random
import re
import shutil
import signal
import subprocess
import sys
import tempfile
import threading
import time
import traceback

import disks
import server
from disks import BEGUN, CLOSES, DIE_BEFORE, DIE_BEHIND, FAIL, OPENS, REMOVES, RENAMES, SENDS, SHORT, SYNCS
from disks import CUTS, SYNCS_OF_FOLDERS, WRITES, Disk, Page, Room, Sent, is_until, records_of
from generated import spelled
from given import words_of
from refused import library_of
from torture_book import ACCEPTED, COUNTS, SAVED, STATUS, STOP, STORED, WAIT
from torture_book import Book, Link, Putter, Saver, Wrong, demand, put_again, put_outside
from torture_setups import Heads, Start, draw_given, draw_old_files, entries_in, heads_in, judge_heads, misfit_of

SECONDS = 20
# What a start may report where a call of it was made to fail, and where a number that it was given is too small.
REFUSALS = re.compile(r"hhm: (log|file): (Create|Write|Sync|Rename|OpenFailed) \(.*\)\n")
MISFITS = re.compile(r"hhm: (settings: (Snapshot|Log)Differs \(.*\)|log: NotFresh at batch \d+ \(.*\))\n")
LINES = re.compile(
    r"rows (\d+) cols (\d+) shards (\d+) batches (\d+) total (\d+) entries (\d+)\n"
    r"(?:log first (\d+) batches (\d+) pages (\d+) rest \d+\n)?"
)
# The names of two neighbours' logs and snapshots.
NAMES = [
    (("sum.hhmlog", "sum.snap"), ("sum2.hhmlog", "sum2.snap")),
    (("a.log", "a"), ("a.log2", "a2")),
    (("book.hhmlog", "book"), ("book.hhmlog.newer", "book.new2")),
    (("log", "snap"), ("log.snap", "snap.log")),
]


# Calls that a disk doesn't see, as if the program didn't make them, and whether a record is of one: by the record, what
# its file is, whether the start had found it, and whether it is of a start with other numbers than its files.
MISSES = {
    "syncs of the log": lambda record, role, *_: record.call == SYNCS and role == "log",
    "syncs of the snapshot": lambda record, role, *_: record.call == SYNCS and role == "snap",
    "syncs of the folder": lambda record, *_: record.call == SYNCS_OF_FOLDERS,
    "syncs of a start that changes the setup": lambda record, _, __, changes: record.call == SYNCS and changes,
    "names of a start that changes the setup": lambda record, _, __, changes: record.call == RENAMES and changes,
}
# Those that show only where a kill, a start and a loss of power meet: it takes hundreds of lives.
RARE_MISSES = {
    "what a start writes again": lambda record, role, is_found, _: record.call == WRITES and role == "log" and is_found,
    "the sync of a start": lambda record, role, is_found, _: record.call == SYNCS and role == "log" and is_found,
}


class Plan:
    """How a life goes: who puts, what fails, and how it ends."""

    def __init__(self, draw, has_power, is_changed):
        self.clients, self.depth = draw.randint(1, 6), draw.choice([1, 2, 8, 64])
        self.pause = draw.choice([0.005, 0.03, 0.1, 10])
        self.seconds = draw.choice([0.01, 0.05, 0.1, 0.3]) * draw.uniform(0.3, 1.5)
        self.end, self.misfit = draw.choice(["kill", "kill", "kill", "stop"]), draw.random() < 0.12
        self.fault, self.at_start, self.delay, self.loses_power, self.forgets = None, False, 0, False, False
        if has_power:
            self.draw_faults(draw, is_changed)
        # Where the setup changes more starts are killed.
        is_early = not self.fault and draw.random() < (0.3 if is_changed else 0.1)
        self.dies_after = draw.choice([0.003, 0.01, 0.02, 0.04]) * draw.uniform(0.3, 1.5) if is_early else 0

    def draw_faults(self, draw, is_changed):
        self.delay = draw.choice([0, 0, 100, 500, 3000])
        self.loses_power, self.forgets = draw.random() < 0.6, draw.random() < 0.5
        self.at_start = draw.random() < (0.5 if is_changed else 0.25)
        if draw.random() < 0.65:
            call = draw.choice([WRITES, WRITES, SYNCS, SYNCS, CUTS, RENAMES, SYNCS_OF_FOLDERS, OPENS])
            action = draw.choice([FAIL, DIE_BEFORE, DIE_BEHIND, SHORT if call == WRITES else DIE_BEFORE])
            few = 4 if call in (CUTS, RENAMES, SYNCS_OF_FOLDERS, OPENS) else 10 if self.at_start else 300
            part, times = draw.choice([0, 1, 700, 4096, -1]), draw.choice([1, 1, 1, 5])
            self.fault = {"call": call, "action": action, "left": draw.randint(1, few), "part": part, "times": times,
                          "log_only": draw.random() < 0.5}  # fmt: skip

    def may_fail(self):
        return self.fault is not None and self.fault["action"] == FAIL

    def __str__(self):
        return ", ".join(f"{name} {value}" for name, value in vars(self).items())


class Story:
    """A log, its snapshot, and what was put in all lives."""

    def __init__(self, room, seed, has_power, moments, misses=None):
        self.draw, self.seed, self.has_power, self.moments = random.Random(seed), seed, has_power, moments
        self.room, self.book, self.plan, self.misses = room, Book(), None, misses
        self.disk = Disk(room.folder, misses and self.is_missed, room.names)
        self.socket, self.lives, self.looks, self.first = os.path.join(room.top, "socket"), 0, 0, {}
        self.identity, self.listened, self.has_replied, self.earlier = None, False, False, set()
        self.begin, self.again = Start(Heads(None, None), {}), {}
        self.words = [server.PROGRAM, "serve", "--unix", self.socket, "--workers", "12", "--log", room.log]
        self.words += ["--snapshot", room.snap, "--fold-above", str((0, 20, 500)[seed % 3])]
        self.words += ["--save-log-above", str((0, 1, 100_000)[seed // 3 % 3])]
        old = draw_old_files(self.draw)
        if old:
            old.write(room)
            old.fill(self.book)
            self.book.counts["stories of old files"] += 1
            self.book.counts["batches in old files"] += old.count
        self.disk.settle()

    def is_missed(self, record, file):
        role = file and self.room.role(file.path)
        changes = not self.has_replied and self.begin.changes()
        return self.misses(record, role, file is not None and file.is_found, changes)

    def start(self, given, may_end=False):
        """A server that listens, or None where it ended before, as a fault of the plan may have it."""
        process = self.launch(given)
        if process.stdout.readline() == f"listening unix {self.socket}\n":
            return process
        output, error = process.communicate(timeout=WAIT)
        was_met = self.has_power and may_end and self.room.page[Page.LEFT] <= 0
        is_right = process.returncode == -9 or process.returncode == 4 and REFUSALS.fullmatch(error)
        demand(was_met and is_right, f"a start: {output!r} {error!r}, status {process.returncode}")
        self.book.counts["starts refused" if process.returncode == 4 else "starts killed"] += 1
        return None

    def die_early(self, plan):
        """A start that is killed at any moment, before it listens or a little after."""
        process = self.launch(self.begin.given)
        time.sleep(plan.dies_after)
        process.kill()
        output, error = process.communicate(timeout=WAIT)
        listens = f"listening unix {self.socket}\n"
        is_right = output in ("", listens) and error == "" and process.returncode == -9
        demand(is_right, f"a start that is killed: {output!r} {error!r}, status {process.returncode}")
        self.book.counts["starts killed"] += output == ""
        if output:
            self.listens()

    def launch(self, given):
        how = self.room.how(traced=True) if self.has_power else {}
        # (it is killed at times before it has made the trace)
        open(self.room.trace, "ab").close()
        words = [*self.words, *words_of(given)]
        return subprocess.Popen(words, stdout=subprocess.PIPE, stderr=subprocess.PIPE, text=True, **how)

    def draw_start(self):
        """The numbers of the next start, over what the files say."""
        before = heads_in(self.room.folder, self.room)
        given = draw_given(self.draw, before, self.book.sent(), self.again)
        self.begin, self.again, self.listened = Start(before, given), given, False
        snap, log = before.setups()
        if snap and log and self.begin.changes():
            batches, _, first, count = self.checked(self.room.folder, before, "before a start")
            self.begin = self.begin._replace(is_short=first + count < batches)
            self.book.counts["short logs"] += self.begin.is_short
        self.book.counts["starts from two setups"] += bool(snap and log and snap != log)

    def listens(self):
        """Both files of a server that listens say its setup."""
        last = self.begin.last()
        self.book.counts["changed setups"] += self.begin.changes()
        self.book.setup, self.listened = last, True
        self.judge_files({(last, last)}, "a server listens")

    def judge_files(self, pairs, moment):
        judge_heads(heads_in(self.room.folder, self.room), pairs, self.identity or self.begin.before.book(), moment)

    def pairs(self):
        """The setups that snapshot and log may have now."""
        last = self.begin.last()
        return {(last, last)} if self.listened else self.begin.pairs()

    def pairs_of_disk(self):
        """Those that they may have after a loss of power: until a server listens also those of starts before this one,
        after which no power was lost."""
        return self.pairs() if self.listened and self.has_replied else self.begin.pairs() | self.earlier

    def misfit(self):
        """A start that is given a number that is too small is refused, and the files stay."""
        given = misfit_of(self.draw, self.begin.before, self.book.accepted())
        if given is None:
            return
        files = self.contents()
        process = self.launch(given)
        output, error = process.communicate(timeout=WAIT)
        is_right = output == "" and MISFITS.fullmatch(error) and process.returncode in (2, 3)
        demand(is_right, f"a start with {given}: {output!r} {error!r}, status {process.returncode}")
        demand(self.contents() == files, f"a start with {given} was refused, and changed files")
        self.book.counts["misfits refused"] += 1

    def contents(self):
        found = {}
        for name in self.room.present():
            with open(os.path.join(self.room.folder, name), "rb") as file:
                found[name] = file.read()
        return {name: held for name, held in found.items() if not name.endswith(".lock")}

    def live(self):
        """One life, from a start to its end."""
        self.lives += 1
        self.least, self.over = self.book.least, {*self.book.over}
        self.draw_start()
        plan = self.plan = Plan(self.draw, self.has_power, self.begin.changes())
        if self.has_power:
            self.room.page.disarm()
        if plan.misfit and self.begin.before.files():
            self.misfit()
        if plan.fault and plan.at_start:
            self.room.page.arm(**plan.fault)
        process = self.die_early(plan) if plan.dies_after else self.start(self.begin.given, plan.at_start)
        if process:
            try:
                self.listens()
                self.serve(process, plan)
            finally:
                if process.poll() is None:
                    process.kill()
                process.communicate()
        self.judge_files(self.pairs(), "after a life")
        if self.has_power:
            self.room.page.disarm()
            self.end_of_life(plan)

    def serve(self, process, plan):
        page = self.room.page
        with contextlib.suppress(OSError) if plan.at_start else contextlib.nullcontext():
            self.look_back(plan)
        page[Page.DELAY] = plan.delay
        if plan.fault and not plan.at_start:
            page.arm(**plan.fault)
        self.put_until_killed(process, plan)
        page.disarm()
        page[Page.DELAY] = 0
        if plan.end == "stop" and process.poll() is None:
            self.stop(process, plan)

    def put_until_killed(self, process, plan):
        """Clients put and save until the server is killed, or until it is to be stopped."""
        book, ended = self.book, threading.Event()
        threads = [Putter(self.socket, book, client, self.first.get(client, 0), plan.depth, ended)
                   for client in range(plan.clients)]  # fmt: skip
        threads.append(Saver(self.socket, book, plan.pause, ended, plan.may_fail()))
        for thread in threads:
            thread.start()
        is_until(lambda: process.poll() is not None, plan.seconds)
        book.counts["killed at a call"] += process.poll() is not None
        if plan.end != "stop":
            process.kill()
        ended.set()
        for thread in threads:
            thread.join(WAIT)
            demand(not thread.is_alive(), "a reply doesn't come")
        self.first.update({thread.client: thread.next for thread in threads[:-1]})
        for thread in threads:
            if thread.fault:
                raise thread.fault

    def stop(self, process, plan):
        with contextlib.suppress(OSError), Link(self.socket) as link:
            link.send(STOP)
            link.reply()
        output, error = process.communicate(timeout=WAIT)
        is_right = re.fullmatch(r"stopped batches (\d+) total (\d+)\n", output) and error == ""
        # (the call at which it is killed may have come just before)
        if process.returncode == -9 and plan.fault and self.room.page[Page.LEFT] <= 0:
            return
        demand(is_right, f"a stop: {output!r} {error!r}, status {process.returncode}")

    def look_back(self, plan=None):
        """What was answered before is so again; what was sent and not answered is taken now."""
        book = self.book
        with Link(self.socket) as link:
            may_fail = plan is not None and plan.at_start and plan.fault
            identity, setup = link.stats()
            demand(self.identity in (None, identity), f"the book was {self.identity}, and is {identity}")
            demand(setup == book.setup, f"the server has {setup}, and not {book.setup}")
            self.identity = identity
            self.judge_files({(setup, setup)}, "after a Stats")
            kind, (batches, total) = link.ask(STATUS)
            stored = link.ask(STORED)
            demand(kind == COUNTS and stored == (COUNTS, (batches, total)), f"stored after a start: {stored}")
            demand(batches >= book.least, f"{batches} batches of {book.least} that were answered")
            due = book.total_at(batches)
            demand(due in (None, total), f"{batches} batches have total {total}, and not {due}")
            known = list(book.places)
            if plan is not None and len(known) > 200:
                known = known[-100:] + self.draw.sample(known, 100)
            if may_fail:
                return
            put_outside(link, setup)
            unknown = list(book.unknown)
            put_again(link, book, known + unknown + book.send_over(self.draw), self.draw)

    def end_of_life(self, plan):
        """What a loss of power may leave is looked at, at some moments of the life and at its end."""
        records, sent = records_of(self.room.trace), Sent()
        os.replace(self.room.trace, f"{self.room.trace} of the last life")
        at, least, self.has_replied = self.moments_of(records), self.least, False
        for number, record in enumerate(records):
            self.is_own(record)
            if record.call in (SENDS, CLOSES):
                self.has_replied = self.has_replied or record.call == SENDS
                for kind, body in sent.frames(record):
                    least = max(least, reported_by(kind, body))
            else:
                self.disk.take_one(record)
            if at and at[0] == number:
                at.pop(0)
                self.look_at(least, self.pairs_of_disk(), f"after call {number} of {len(records)}")
        self.has_replied = True
        self.look_at(self.book.least, self.pairs_of_disk(), "at the end")
        self.earlier = set() if self.listened or plan.loses_power else self.earlier | self.begin.pairs()
        if plan.loses_power:
            self.book.counts["losses of power"] += 1
            left = self.lose_power(os.path.join(self.room.top, "left"))
            for name in self.room.present():
                os.remove(os.path.join(self.room.folder, name))
            for name in os.listdir(left):
                shutil.move(os.path.join(left, name), self.room.folder)
            self.disk.settle()
        else:
            self.disk.after_kill(plan.forgets)

    def is_own(self, record):
        """A server opens, renames and removes files of its own names alone."""
        if record.call == OPENS and not record.size or record.call in (RENAMES, REMOVES) and record.result == BEGUN:
            for path in record.bytes.decode().split("\0"):
                is_right = path == "" or os.path.relpath(path, self.room.folder) in self.room.names
                demand(is_right, f"a server of {sorted(self.room.names)} changes {path}")

    def moments_of(self, records):
        """The calls after which the files are looked at: any, those up to the first reply, and those that send replies,
        of which the first reports what the start has found."""
        sends = [number for number, record in enumerate(records) if record.call == SENDS and record.result == BEGUN]
        until = sends[0] if sends else len(records)
        kinds, found = [range(len(records)), range(until), sends], set(sends[:1])
        for kind in kinds:
            found.update(self.draw.sample(kind, min(self.moments // 3, len(kind))))
        return sorted(found)

    def lose_power(self, folder):
        shutil.rmtree(folder, ignore_errors=True)
        os.mkdir(folder)
        self.disk.lose_power(self.draw, folder)
        return folder

    def look_at(self, least, pairs, moment):
        """What a loss of power may leave: both files say one of these pairs of setups, and `hhm check` finds each batch
        that was answered."""
        self.looks += 1
        folder = self.lose_power(os.path.join(self.room.top, "looked at"))
        heads = heads_in(folder, self.room)
        judge_heads(heads, pairs, self.identity or self.begin.before.book(), moment)
        if heads.files() is None:
            demand(least == 0, f"{moment}: no file, and {least} batches were answered")
            return
        batches, total, first, count = self.checked(folder, heads, moment)
        demand(batches >= least, f"{moment}: {batches} batches of {least} that were answered")
        due = self.book.total_at(batches)
        # Until a start has replied, or where an append failed, the files may have batches that weren't answered at
        # places with which others are answered later.
        is_open = batches > least and (not self.has_replied or self.plan.may_fail())
        demand(due in (None, total) or is_open, f"{moment}: {batches} batches have total {total}, and not {due}")
        if due != total:
            self.judge_batches(folder, least, (batches, total), moment)
        demand(first + count <= batches, f"{moment}: a log up to {first + count} of {batches}")

    def judge_batches(self, folder, least, checked, moment):
        """The batches that files have, one by one, where no reply has their total."""
        self.book.counts["looks at batches"] += 1
        entries = entries_in(folder, self.room)
        found = len(entries), sum(total for *_, total in entries)
        demand(found == checked, f"{moment}: the files have {found}, and not {checked}")
        self.book.judge_left(entries, least, self.over.intersection(self.book.over), moment)

    def checked(self, folder, heads, moment):
        """What `hhm check` says of files with these heads: batches and total, and the log's first place and batches."""
        paths = [os.path.join(folder, os.path.basename(path)) for path in (self.room.snap, self.room.log)]
        words = [server.PROGRAM, "check", paths[0], *(["--log", paths[1]] if heads.log else [])]
        ran = subprocess.run(words, capture_output=True, text=True, timeout=WAIT)
        found = LINES.fullmatch(ran.stdout)
        demand(found and ran.returncode == 0, f"{moment}: {ran.stdout!r} {ran.stderr!r}, status {ran.returncode}")
        rows, cols, shards, batches, total, _, first, count, _ = (int(it or 0) for it in found.groups())
        files = heads.files()
        demand((rows, cols, shards) == (files.rows, files.cols, files.shards), f"{moment}: {ran.stdout!r}, {files}")
        return batches, total, first, count

    def end(self):
        """All that was ever answered is so again, and the sum is that of all batches, each once."""
        self.room.page.disarm()
        self.draw_start()
        process = self.start(self.begin.given)
        try:
            self.listens()
            self.look_back()
            sums, total = self.book.judge_all()
            with Link(self.socket) as link:
                demand(link.ask(STATUS) == (COUNTS, (len(self.book.pairs), total)), "the status at the end")
                link.send(STOP)
                link.reply()
            output, error = process.communicate(timeout=WAIT)
        finally:
            process.kill()
            process.communicate()
        ended = f"stopped batches {len(self.book.pairs)} total {total}\n"
        demand((output, error) == (ended, ""), f"the end: {output!r} {error!r}")
        self.judge_end(sums, total)

    def judge_end(self, sums, total):
        """The export and the check of the last files."""
        setup, count = self.book.setup, len(self.book.pairs)
        ran = subprocess.run([server.PROGRAM, "export", self.room.snap], capture_output=True, timeout=WAIT)
        demand(ran.stdout == spelled(setup.rows, setup.cols, sums), "the export at the end")
        words = [server.PROGRAM, "check", self.room.snap, "--log", self.room.log]
        ran = subprocess.run(words, capture_output=True, text=True, timeout=WAIT)
        lines = f"rows {setup.rows} cols {setup.cols} shards {setup.shards} batches {count} total {total} "
        lines += f"entries {len(sums)}\nlog first {count} batches 0 pages 1 rest 0\n"
        demand(ran.stdout == lines, f"the check at the end: {ran.stdout!r} {ran.stderr!r}")
        self.judge_files({(setup, setup)}, "at the end")


def reported_by(kind, body):
    """How many batches at least are durable, by a reply. A Status is asked for where all that is accepted is so."""
    first = int.from_bytes(body[:8], "big")
    return first + 1 if kind == ACCEPTED else first if kind in (COUNTS, SAVED) else 0


def copied(room, target):
    """Copies a server's files, and not its neighbour's."""
    shutil.rmtree(target, ignore_errors=True)
    os.makedirs(target)
    for name in room.present():
        copy_sparse(os.path.join(room.folder, name), os.path.join(target, name))


def copy_sparse(source, target):
    with open(source, "rb") as file:
        held = file.read()
    disks.write_sparse(target, disks.without_zeros(held), len(held))


def rooms_of(top, seed):
    """The room of a story's server, or those of two neighbours."""
    draw = random.Random(f"neighbours {seed}")
    if draw.random() < 0.55:
        return [Room(os.path.join(top, "room"))]
    names, folder = list(draw.choice(NAMES)), os.path.join(top, "files")
    draw.shuffle(names)
    return [Room(os.path.join(top, f"room {number}"), folder, it) for number, it in enumerate(names)]


def story_is_wrong(seed, misses, lives):
    """Whether something is found to be wrong with stories of which a kind of call isn't seen."""
    for number in range(lives // 20):
        with tempfile.TemporaryDirectory(prefix="log-torture-") as top:
            story = Story(Room(os.path.join(top, "room")), seed + number, True, 6, misses)
            try:
                for _ in range(20):
                    story.live()
                story.end()
            except Wrong:
                return True
    return False


def live_stories(seed, has_power, arguments, is_over, tally):
    """Lives a story, or two stories of neighbours at the same time."""
    with tempfile.TemporaryDirectory(prefix="log-torture-") as top:
        rooms = rooms_of(top, seed)
        stories = [Story(room, seed + 10**9 * number, has_power, arguments.moments)
                   for number, room in enumerate(rooms)]  # fmt: skip
        again = f"python3 tests/log_torture.py PATH --seed {seed}{'' if has_power else ' --alone'} --stories 1"
        threads = [threading.Thread(target=live_story, args=(story, again, arguments, is_over, tally))
                   for story in stories]  # fmt: skip
        for thread in threads:
            thread.start()
        for thread in threads:
            thread.join()
        if len(stories) > 1:
            tally.judge_neighbours(stories, again)


def live_story(story, again, arguments, is_over, tally):
    """Lives a story, and reports where something was wrong."""
    before = os.path.join(story.room.top, "before")
    try:
        for _ in range(arguments.lives):
            copied(story.room, before)
            story.live()
            tally.lived()
            if is_over():
                break
        story.end()
        tally.judged(True)
    except Exception as fault:
        kept = tempfile.mkdtemp(prefix=f"log-torture-seed-{story.seed}-")
        with contextlib.suppress(OSError):
            copied(story.room, os.path.join(kept, "files"))
            others = shutil.ignore_patterns("socket", "files")
            shutil.copytree(story.room.top, os.path.join(kept, "room"), ignore=others)
        where = "" if isinstance(fault, Wrong) else traceback.format_exc()
        tally.judged(False, f"FAILED {again}: life {story.lives}: {fault!r}\n{where}  plan: {story.plan}\n"
                     f"  start: {story.begin}\n  files: {kept}")  # fmt: skip
    tally.add(story)


class Tally:
    """What was lived and judged so far."""

    def __init__(self):
        self.passed = self.failed = self.kills = self.looks = 0
        self.counts, self.lock = collections.Counter(), threading.Lock()

    def lived(self):
        with self.lock:
            self.kills += 1

    def judged(self, is_right, words=""):
        with self.lock:
            self.passed, self.failed = self.passed + is_right, self.failed + (not is_right)
            if not is_right:
                print(words, flush=True)

    def add(self, story):
        with self.lock:
            self.looks += story.looks
            self.counts.update(story.book.counts)
            self.counts["batches"] += len(story.book.pairs)

    def judge_neighbours(self, stories, again):
        """Two neighbours have two books, and between them all files of the folder."""
        left = {*os.listdir(stories[0].room.folder)}.difference(*(story.room.names for story in stories))
        books = {story.identity for story in stories}
        self.judged(len(books) == 2 and not left, f"FAILED {again}: neighbours of {books}, and left {left}")
        self.counts["neighbours"] += 1

    def line(self, stories):
        counts = ", ".join(f"{name} {count}" for name, count in sorted(self.counts.items()))
        return f"{stories} stories, {self.kills} lives, {self.looks} looks at files; {counts}"


def main():
    parser = argparse.ArgumentParser(description=__doc__.split("\n")[0])
    parser.add_argument("hhm")
    parser.add_argument("--long", type=float, metavar="SECONDS", help="how long it goes on")
    parser.add_argument("--kills", type=int, metavar="N", help="how many lives there are, however long that takes")
    parser.add_argument("--seed", type=int, help="of the first story")
    parser.add_argument("--alone", action="store_true", help="no library is loaded before the program")
    parser.add_argument("--stories", type=int, help="how many stories there are at most")
    parser.add_argument("--lives", type=int, default=10, help="of a story")
    parser.add_argument("--moments", type=int, default=6, help="that are looked at in a life")
    arguments = parser.parse_args()
    server.PROGRAM = os.path.abspath(arguments.hhm)
    signal.signal(signal.SIGPIPE, signal.SIG_IGN)
    seed = arguments.seed if arguments.seed is not None else random.SystemRandom().randrange(10**9)
    print(f"seed {seed}", flush=True)
    ends, tally, number = time.monotonic() + (arguments.long or SECONDS), Tally(), 0

    def is_over():
        if arguments.kills is not None:
            return tally.kills >= arguments.kills
        return time.monotonic() > ends

    with tempfile.TemporaryDirectory() as folder:
        Room.library = library_of("lose_power.c", folder)
        while not is_over() and number != arguments.stories:
            live_stories(seed + number, not (arguments.alone or number % 4 == 1), arguments, is_over, tally)
            number += 1
        missed = MISSES if arguments.long is None and arguments.kills is None else MISSES | RARE_MISSES
        for name, misses in missed.items() if arguments.stories is None else ():
            is_found = story_is_wrong(seed, misses, 40 if name in MISSES else 1000)
            tally.judged(is_found, f"FAILED without {name} nothing was found to be wrong")
    print(tally.line(number))
    print(f"{tally.passed} passed, {tally.failed} failed")
    return 1 if tally.failed else 0


if __name__ == "__main__":
    sys.exit(main())
