#!/usr/bin/env python3
"""Runs the words of the built program that ask snapshots, with the logs beside them, and compares what they write.

    python3 tests/logged.py PATH-TO-HHM

What is wanted is the answer for the batches of both, by the plain models of questions.py and exports.py over the logs
of log_bytes.py. It prints a line for each check that fails and at the end `N passed, M failed`; the status is 1 where
one fails. Linux, and nothing but Python's own library.
"""
import itertools
import os
import sys
import threading

import log_check
import server
from exports import text_of
from log_bytes import SMALL, check_line, head, log
from log_check import B1, FIVE, FOLDED, NINE, THREE, TWO, before, saved, status_of
from questions import degrees, listed, summed, top
from rolls import rolled
from server import Server, check, content
from server_faults import in_folder, write
from server_log import hhm, run_each, started, stopped
from snap_bytes import BOOK, NONE, PAIRED, Origin, snapshot

# A name, the snapshot or None, the log, and the batches of both.
PAIRS = [
    ("a log alone", None, TWO, [FIVE, THREE]),
    ("a snapshot and all after it", saved(FIVE), TWO, [FIVE, THREE]),
    ("a log that ends before the snapshot", saved(FIVE, THREE), head() + B1, [FIVE, THREE]),
    ("a log that was begun after a save", saved(FIVE, THREE), log([], before(FIVE, THREE)), [FIVE, THREE]),
    ("a log that goes on", saved(FIVE, THREE), log([[NINE]], before(FIVE, THREE)), [FIVE, THREE, NINE]),
    ("a folded snapshot", snapshot([], 5, past=FOLDED), log([[THREE, NINE]], before(FIVE)), [FIVE, THREE, NINE]),
    ("a snapshot of version 1", snapshot([FIVE], 5), log([[THREE]], before(FIVE)), [FIVE, THREE]),
    ("a log of fewer rows", saved(FIVE), log([[THREE]], before(FIVE), SMALL._replace(rows=1)), [FIVE, THREE]),
    ("a pair of a book", snapshot([FIVE], 5, past=NONE, origin=PAIRED), log([[THREE]], before(FIVE)), [FIVE, THREE]),
    ("blank pages", saved(FIVE), TWO + bytes(8_192), [FIVE, THREE]),
]  # fmt: skip
LACKS = "hhm: {} goes with a log: batches after it may be missing\n"


def cells_in(batches):
    return [cell for _, _, cells in batches for cell in cells]


def counts_in(batches):
    return {(row, col): count for row, col, count in summed(batches)}


class Pair:
    """A folder with a snapshot, maybe, and a log, maybe, and what else is put there."""

    def __init__(self, name, held, logged):
        self.folder = in_folder(f"logged {name}")
        os.makedirs(self.folder, exist_ok=True)
        self.snap, self.log = self.path("snapshot"), self.path("log")
        for path, what in ((self.snap, held), (self.log, logged)):
            if what is not None:
                write(path, what)

    def path(self, name):
        return os.path.join(self.folder, name)


def answers(batches):
    """What each word writes of batches, without and with options."""
    cells, rows = summed(batches), (0, SMALL.rows)
    return [
        (["export"], text_of(SMALL.rows, SMALL.cols, counts_in(batches))),
        (["top"], top(cells, "--rows", "total", 10)),
        (["top", "--cols", "--by", "entries", "-n", "1"], top(cells, "--cols", "entries", 1)),
        (["list"], listed(cells, (SMALL.rows, SMALL.cols), rows, rows)),
        (["list", "--rows", "1-2"], listed(cells, (SMALL.rows, SMALL.cols), (1, 2), rows)),
        (["degrees"], degrees(cells, "--rows")),
        (["degrees", "--cols"], degrees(cells, "--cols")),
    ]


def pairs_are_asked():
    """Each word says of a snapshot and its log what it says of one snapshot with the batches of both."""
    for name, held, logged, batches in PAIRS:
        pair = Pair(name, held, logged)
        for words, output in answers(batches):
            asked = f"{name}: {' '.join(words)}"
            check(asked, hhm(*words, pair.snap, "--log", pair.log), (output, "", 0))
            if held is None:
                check(f"{asked}, without a PATH", hhm(*words, "--log", pair.log), (output, "", 0))
        check(f"{name}: check", hhm("check", pair.snap, "--log", pair.log)[0].splitlines()[:1], [check_line(batches)])
        folder = pair.path("compact")
        check(f"{name}: compact", hhm("export", "--compact", folder, pair.snap, "--log", pair.log), ("", "", 0))
        cells = summed(batches)
        names = [sorted({cell[at] for cell in cells}) for at in (0, 1)]
        found = [content(os.path.join(folder, it)).decode().split() for it in ("rows.txt", "cols.txt")]
        check(f"{name}: compact, labels", found, [[str(it) for it in one] for one in names])
    alone = Pair("alone", None, TWO)
    check("check of a log alone", hhm("check", "--log", alone.log), hhm("check", alone.snap, "--log", alone.log))


def several_are_asked():
    """Several snapshots, some with a log: the sum of all. The line of a check counts all batches."""
    one, two = Pair("one", saved(FIVE), TWO), Pair("two", saved(NINE), None)
    batches = [FIVE, THREE, NINE]
    paths = [one.snap, two.snap, "--log", one.log, "--log", "-"]
    for words, output in answers(batches):
        check(f"several: {' '.join(words)}", hhm(*words, *paths), (output, "", 0))
    check("several: check", hhm("check", *paths), (check_line(batches) + "\n", "", 0))
    twice = answers([*batches, FIVE, THREE])[0][1]
    check("a pair twice", hhm("export", two.snap, one.snap, one.snap, *["--log", "-", *["--log", one.log] * 2]),
          (twice, "", 0))  # fmt: skip
    nothing = one.path("nothing")
    for words in (["export"], ["top"], ["list"], ["degrees"], ["check"]):
        found = hhm(*words, one.snap, two.snap, "--log", "-", "--log", nothing)
        check(f"several: no log, {words[0]}", found, ("", f"hhm: log: NotFound in {nothing}\n", 4))
        found = hhm(*words, one.snap, nothing, "--log", one.log, "--log", "-")
        check(f"several: no snapshot, {words[0]}", found, ("", f"hhm: file: NotFound in {nothing}\n", 4))
        found = hhm(*words, one.snap, two.snap, "--log", one.log, "--log", one.log)
        check(f"several: not of one book, {words[0]}", found,
              ("", f"hhm: log: EntryDiffers at batch 0 in {two.snap}\n", 3))  # fmt: skip


def faults_are_told():
    """What is wrong with a log, or why it doesn't go with a snapshot, each word says as check does."""
    words = ["export"], ["top"], ["list"], ["degrees"]
    faults = [(name, saved(FIVE), logged, f"log: {told}") for name, logged, told in log_check.NO_LOGS]
    for at, (name, held, logged, told) in enumerate([*log_check.NOT_JOINED, *faults]):
        pair = Pair(f"fault {at}", held, logged)
        word = words[at % len(words)]
        check(f"{name}: {word[0]}", hhm(*word, pair.snap, "--log", pair.log),
              ("", f"hhm: {told}\n", status_of(told)))  # fmt: skip
    bad = Pair("bad", b"HHMSNAP\n", TWO)
    check("a bad snapshot", hhm("top", bad.snap, "--log", bad.log), ("", "hhm: snapshot: Truncated\n", 3))
    none = Pair("none", None, None)
    check("neither", hhm("export", none.snap, "--log", none.log), ("", "hhm: log: NotFound\n", 4))
    check("a folder", hhm("export", none.snap, "--log", none.folder), ("", "hhm: log: OpenFailed\n", 4))


def words_are_refused():
    """One log for each snapshot, or one alone."""
    pair = Pair("words", saved(FIVE), TWO)
    for word in ("export", "top", "list", "degrees", "check"):
        for words in [[pair.snap, pair.snap, "--log", pair.log], [pair.snap, *["--log", pair.log] * 2],
                      ["--log", "-"], ["--log", pair.log, "--log", pair.log], [pair.snap, "--log"],
                      [pair.snap, "--log", ""], []]:  # fmt: skip
            found = hhm(word, *words)
            check(f"{word} {words}", (found[0], found[1].startswith("error: "), found[2]), ("", True, 2))
    found = hhm("export", pair.snap, "--minus", pair.snap, "--log", pair.log)
    check("minus with one log", (found[0], found[1].startswith("error: "), found[2]), ("", True, 2))
    found = hhm("roll", pair.path("to"), "1", f"7={pair.snap}", f"8={pair.snap}", "--log", "-")
    check("roll with one log", (found[0], found[1].startswith("error: "), found[2]), ("", True, 2))
    check("nothing was made", os.path.exists(pair.path("to")), False)


def lacking_logs_are_told():
    """A snapshot that goes with a log which isn't given is asked alone, and a line says so."""
    held = snapshot([FIVE], 5, past=NONE, origin=PAIRED)
    pair, other = Pair("lacking", held, TWO), Pair("lacks nothing", saved(NINE), None)
    for words, output in answers([FIVE]):
        check(f"lacking: {' '.join(words)}", hhm(*words, pair.snap), (output, LACKS.format(pair.snap), 0))
        check(f"lacking: {' '.join(words)}, -", hhm(*words, pair.snap, "--log", "-"), (output, "", 0))
    found = hhm("export", other.snap, pair.snap, pair.snap)
    check("lacking: two of three", found, (answers([NINE, FIVE, FIVE])[0][1], LACKS.format(pair.snap) * 2, 0))
    found = hhm("export", other.snap, pair.snap, pair.snap, "--log", "-", "--log", pair.log, "--log", "-")
    check("lacking: told with -", found, (answers([NINE, FIVE, THREE, FIVE])[0][1], "", 0))
    check("lacking: none", hhm("export", pair.snap, "--log", pair.log), (answers([FIVE, THREE])[0][1], "", 0))
    check("lacking: of a fault nothing", hhm("export", pair.snap, other.path("none")),
          ("", f"hhm: file: NotFound in {other.path('none')}\n", 4))  # fmt: skip


def differences_are_of_pairs():
    """What a snapshot with its log has more than an earlier one, which may have a log too."""
    new, old = Pair("new", saved(FIVE), TWO), Pair("old", saved(FIVE), head() + B1)
    more = text_of(SMALL.rows, SMALL.cols, counts_in([THREE]))
    for name, logs in (("a copy", ["-"]), ("a pair", [old.log])):
        words = ["export", new.snap, "--minus", old.snap, "--log", new.log, "--log", *logs]
        check(f"more than {name}", hhm(*words), (more, "", 0))
    words = ["export", old.snap, "--minus", new.snap, "--log", "-", "--log", new.log]
    check("less", hhm(*words), ("", "hhm: snapshot: NotBefore at batch 1\n", 3))
    check("no log of the old one", hhm(*words[:-1], new.path("none")),
          ("", f"hhm: log: NotFound in {new.path('none')}\n", 4))  # fmt: skip


def windows_are_of_pairs():
    """A file without a window that goes with a log is taken with that log. A window's own file that goes with one isn't
    closed. TO is no FILE."""
    pair = Pair("roll", snapshot([FIVE], 5, past=NONE, origin=PAIRED), log([[THREE]], before(FIVE)))
    to, word = pair.path("to"), f"7={pair.snap}"
    check("not closed", hhm("roll", to, "9", word), ("", f"hhm: snapshot: NotClosed in {pair.snap}\n", 3))
    check("with its log", hhm("roll", to, "9", word, "--log", pair.log), ("rolled 1 batches 1 total 8\n", "", 0))
    check("with its log: the file", content(to), rolled([(7, [FIVE, THREE])]))
    check("again", hhm("roll", to, "9", word, "--log", pair.log), ("rolled 0 batches 1 total 8\n", "", 0))
    check("no log", hhm("roll", to, "9", word, "--log", to + ".none"), ("", f"hhm: log: NotFound in {to}.none\n", 4))
    open_window = Origin(BOOK, 8, 1)
    open_file = Pair("open", snapshot([FIVE], 5, past=NONE, origin=open_window), log([[THREE]], before(FIVE),
                     origin=open_window))  # fmt: skip
    check("an open window", hhm("roll", to, "9", open_file.snap, "--log", open_file.log),
          ("", f"hhm: snapshot: NotClosed in {open_file.snap}\n", 3))  # fmt: skip
    link = pair.path("link")
    os.link(to, link)
    os.symlink(to, pair.path("symbolic"))
    for name in ("to", "link", "symbolic"):
        found = hhm("roll", to, "9", f"3={pair.path(name)}")
        check(f"a FILE that is TO: {name}", found, ("", "hhm: settings: SamePath\n", 2))
    check("nothing was rolled", content(to), rolled([(7, [FIVE, THREE])]))


def a_server_goes_on():
    """Beside a server that saves all the time, each reading of its files is one of a moment, and none is a fault."""
    pair = Pair("beside", None, None)
    words = ["--rows", "3", "--cols", "3", "--snapshot", pair.snap, "--log", pair.log]
    ended = threading.Event()

    def saves(running):
        with running.client() as client:
            while not ended.is_set():
                client.save()

    def puts(running):
        with running.client(client=1) as client:
            for number in itertools.count(1):
                if ended.is_set():
                    return
                client.put(number, [(0, 1, 1)])

    with Server(words) as running:
        threads = [threading.Thread(target=it, args=(running,)) for it in (saves, puts)]
        for thread in threads:
            thread.start()
        last = 0
        for turn in range(100):
            word = ["check", "export"][turn % 2]
            output, error, status = hhm(word, pair.snap, "--log", pair.log)
            check(f"beside a server: {word} {turn}", (error, status), ("", 0))
            if word == "check" and not status:
                batches, total = (int(output.split()[at]) for at in (7, 9))
                check(f"beside a server: {turn}", (batches == total, batches >= last), (True, True))
                last = batches
        ended.set()
        for thread in threads:
            thread.join()


def a_fold_takes_both_to_another_disk():
    """The way out where a full disk has both files: a fold into a new file beside the server, and the log's copy."""
    pair = Pair("moved", None, None)
    words = ["--rows", "3", "--cols", "3", "--snapshot", pair.snap, "--log", pair.log]
    new, copy = pair.path("new"), pair.path("copy")
    with Server(words) as running:
        with running.client(client=1) as client:
            for number in range(1, 5):
                client.put(number, [(0, 1, number)])
            told = hhm("fold", pair.snap, "--log", pair.log, "--to", new)
            check("a fold beside a server", told, ("folded 4 total 10\n", "", 0))
            client.put(5, [(0, 1, 5)])
        running.process.kill()
    write(copy, content(pair.log))
    check("what both have", hhm("export", new, "--log", copy)[0], text_of(3, 3, {(0, 1): 15}))
    check("a start there", started("--snapshot", new, "--log", copy, setup=words[:4]), stopped(5, 15))


def all_are_tried():
    run_each(
        pairs_are_asked, several_are_asked, faults_are_told, words_are_refused, lacking_logs_are_told,
        differences_are_of_pairs, windows_are_of_pairs, a_server_goes_on, a_fold_takes_both_to_another_disk,
    )  # fmt: skip


if __name__ == "__main__":
    sys.exit(server.run_all(all_are_tried))
