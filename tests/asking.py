#!/usr/bin/env python3
"""Asks for ranges, tops and stats by the clients of all three languages, and by the words of the command line.

    python3 tests/asking.py PATH-TO-HHM

What is wanted is worked out by hand, or by a loop over the cells that were put (stand_in.py). What the built program is
never brought to say, a reply that is none above all, is said by a peer. It prints a line for each check that fails and
at the end `N passed, M failed`; the status is 1 where one fails. Linux, and nothing but Python's own library.
"""
import json
import os
import pty
import random
import re
import shutil
import signal
import sqlite3
import struct
import subprocess
import sys

import server
import hhm_command  # (server.py has put the client's folder on the path)
from hhm_ask import top_table
from hhm_blocks import Block
from hhm_client import Client, Ended
from hhm_groups import first_of, sums_of_cols, sums_of_rows
from hhm_words import Span, Words
from clients import build
from peers import WAIT, Driver, Liar, Proxy, run
from server import Server, check
from stand_in import StandIn, cells_of_range, frame, knows_stats, rows_of_top

HERE = os.path.dirname(os.path.abspath(__file__))
PYTHON = os.path.join(HERE, "..", "clients", "python")
# Cells of three rows and columns, and what docs/FORMATS.md says of them.
CELLS = [(0, 0, 5), (0, 2, 3), (1, 1, 8), (2, 1, 0)]
NONE = "what came is no reply to what was asked"
LARGE = ["--rows", str(1 << 32), "--cols", str(1 << 32)]


def drivers():
    """A command for each language."""
    found = {"Python": [sys.executable, os.path.join(HERE, "drivers", "driver.py")]}
    for language, compiler in [("Rust", "rustc"), ("C", "cc")]:
        if shutil.which(compiler) is None:
            print(f"not tried: the client for {language}: there is no {compiler}")
        elif path := build(language, os.path.join(HERE, "drivers", "driver")):
            found[language] = [path]
    return found


def threes(body):
    return " ".join("%d,%d,%d" % three for three in struct.iter_unpack(">QQQ", body))


def worked_answers(name, command):
    """Each answer, by hand, of a small server."""
    small = ["--rows", "3", "--cols", "3"]
    with Server(small, tcp=False) as at, Driver(command, at.path) as driver:
        with at.client(8) as hhm:
            hhm.put(1, CELLS)
        for question, wanted in [
            ("page 0 2 1 2 0 0 2", "more 1: 0,2,3 1,1,8"),
            ("page 0 2 1 2 1 2 2", "more 0: 2,1,0"),
            ("page 0 2 0 2 3 0 1", "more 0: "),
            ("page 0 2 0 2 0 1 4", "more 0: 0,2,3 1,1,8 2,1,0"),
            ("page 1 1 0 0 0 0 4", "more 0: "),
            ("page 0 3 0 2 0 0 4", "refused: OutOfRange"),
            ("page 2 1 0 2 0 0 4", "refused: OutOfRange"),
            ("page 0 2 0 2 0 0 0", "refused: BadCount"),
            ("range 0 2 0 2 1", "0,0,5 0,2,3 1,1,8 2,1,0"),
            ("range 0 2 0 2 3", "0,0,5 0,2,3 1,1,8 2,1,0"),
            ("range 0 2 0 2 4", "0,0,5 0,2,3 1,1,8 2,1,0"),
            ("range 1 2 1 1 1", "1,1,8 2,1,0"),
            ("range 0 0 3 3 1", "refused: OutOfRange"),
            ("top 0 2", "0,2,8 1,1,8"),
            ("top 1 3", "0,2,8 1,1,8 2,1,0"),
            ("top 0 100", "0,2,8 1,1,8 2,1,0"),
            ("top 0 0", "refused: BadCount"),
            ("groups 0 10 1 0 2", "0,3,16 1,1,0"),
            ("groups 0 1 1 1 2", "0,1,8"),
            ("groups 1 9 0 0 2", "0,2,8 1,1,8 2,1,0"),
            ("groups 0 9 0 0 3", "refused: OutOfRange"),
            ("groups 0 9 64 0 2", "refused: BadCount"),
            ("status", "batches 1 total 16"),
        ]:
            check(f"{name}: {question}", driver.ask(*question.split()), wanted)
        with at.client() as hhm:
            is_known = knows_stats(hhm, f"stats by the client for {name}")
        if is_known:
            # (a comma stands between two labels too)
            told = dict(re.findall(r"([a-z_]+(?:\{[^}]*\})?) ([^,]*)", driver.ask("stats")))
            numbers = ("rows", "cols", "batches", "folded", "total", "version", 'frames_total{kind="top"}', 'refused_total{code="44"}')
            check(f"{name}: stats", [told.get(number) for number in numbers], ["3", "3", "1", "0", "16", "0.1.0", "4", "3"])
        for question, wanted in [("fold", "folded 1"), ("cell 1 1", "8"), ("range 0 2 0 2 3", "0,0,5 0,2,3 1,1,8 2,1,0"),
                                 ("fold", "folded 1"), ("status", "batches 1 total 16")]:  # fmt: skip
            check(f"{name}: {question}, folded", driver.ask(*question.split()), wanted)


def drawn_answers(name, command):
    """Ranges and tops of drawn cells, beside a plain model, with pages whose replies are lost."""
    dice = random.Random(5)
    cells = {(dice.randrange(1 << 20), dice.randrange(1 << 20)): dice.randrange(5) for _ in range(2000)}
    cells.update({(77, col): 1 for col in range(0, 4000, 2)})
    with Server(LARGE, tcp=False) as at:
        with at.client(8) as hhm:
            hhm.put(1, [(*place, count) for place, count in cells.items()])
        with Proxy(at, True, [2, 0, 1, 5]) as proxy, Driver(command, proxy.path) as driver:
            for first_row, last_row, first_col, last_col, page in [
                (0, (1 << 32) - 1, 0, (1 << 32) - 1, 500), (77, 77, 0, 4000, 7), (77, 77, 100, 3000, 2000),
                (0, 1 << 19, 1 << 18, 1 << 19, 100), (78, (1 << 32) - 1, 0, 0, 3),
            ]:
                bounds = first_row, last_row, first_col, last_col
                body = cells_of_range(cells, (*bounds, 0, 0, len(cells)))
                check(f"{name}: range {bounds}", driver.ask("range", *bounds, page), threes(body[1:]))
            for by, most in [(0, 1), (0, 100), (1, 50), (1, 5000)]:
                check(f"{name}: top {by} {most}", driver.ask("top", by, most), threes(rows_of_top(cells, by, most)))
            for by, most, shift, first, last in [(0, 100, 8, 0, 1 << 19), (1, 5000, 4, 77, 77), (0, 7, 12, 1000, 1 << 20)]:
                within = {(row >> shift, (row, col)): count for (row, col), count in cells.items() if first <= row <= last}
                check(f"{name}: groups {shift} {first}", driver.ask("groups", by, most, shift, first, last),
                      threes(rows_of_top(within, by, most)))
            check(f"{name}: lost", proxy.how_often, 4)


def reply(kind, *numbers, front=b""):
    return frame(kind, front + struct.pack(f">{len(numbers)}Q", *numbers))


PAGE, TOP = "page 2 6 2 6 3 3 3", "top 0 2"
# Of a page of at most three cells of the rows and columns 2 to 6 from (3, 3) on, and of a top of two: what is none.
LIES = [
    (PAGE, reply(0x88, 3, 3, 1)), (PAGE, frame(0x88)), (PAGE, reply(0x88, 3, 3, 1, front=b"\2")),
    (PAGE, reply(0x88, 3, 3, front=b"\0")), (PAGE, reply(0x85, 3, 3, 1, front=b"\0")),
    (PAGE, reply(0x88, 3, 2, 1, front=b"\0")), (PAGE, reply(0x88, 2, 5, 1, front=b"\0")),
    (PAGE, reply(0x88, 3, 7, 1, front=b"\0")), (PAGE, reply(0x88, 7, 3, 1, front=b"\0")),
    (PAGE, reply(0x88, 4, 1, 1, front=b"\0")), (PAGE, reply(0x88, 3, 3, 1, 3, 3, 1, front=b"\0")),
    (PAGE, reply(0x88, 4, 3, 1, 3, 4, 1, front=b"\0")), (PAGE, reply(0x88, front=b"\1")),
    (PAGE, reply(0x88, 3, 3, 1, 3, 4, 1, front=b"\1")),
    (PAGE, reply(0x88, 3, 3, 1, 3, 4, 1, 3, 5, 1, 3, 6, 1, front=b"\0")),
    (PAGE, struct.pack(">IB", (64 << 20) + 1, 0x88)),
    (TOP, reply(0x89, 1, 1)), (TOP, reply(0x89, 1, 1, 5, 2, 1, 6)), (TOP, reply(0x89, 2, 1, 5, 1, 1, 5)),
    (TOP, reply(0x89, 1, 1, 5, 1, 1, 5)), (TOP, reply(0x89, 1, 0, 5)), (TOP, reply(0x89, 1, 1, 3, 2, 1, 2, 3, 1, 1)),
    ("top 1 2", reply(0x89, 1, 1, 6, 2, 2, 5)), (TOP, reply(0x88, 1, 1, 5)),
    ("stats", frame(0x8A, b"batches 1")), ("stats", frame(0x8A, b"batches\n")), ("stats", frame(0x8A, b" 1\n")),
    ("stats", frame(0x8A, b"batches \n")), ("stats", frame(0x8A, b"b\xc3\xa4 1\n")), ("stats", frame(0x8A, b"\n")),
    ("stats", frame(0x89, b"batches 1\n")),
    ("fold", frame(0x86)), ("fold", reply(0x86, 1, 2)), ("fold", reply(0x84, 1, 1)),
]
# What is a reply though it is odd.
ODD = [
    (PAGE, reply(0x88, front=b"\0"), "more 0: "),
    (PAGE, reply(0x88, 3, 3, 0, 4, 2, 1, front=b"\0"), "more 0: 3,3,0 4,2,1"),
    (PAGE, reply(0x88, 3, 3, 0, 4, 2, 1, 6, 6, 1, front=b"\1"), "more 1: 3,3,0 4,2,1 6,6,1"),
    (TOP, frame(0x89), ""), (TOP, reply(0x89, 9, 1, 5, 2, 1, 4), "9,1,5 2,1,4"),
    ("stats", frame(0x8A), ""), ("stats", frame(0x8A, b'a_b{c="d e",f=""} 7\nversion 0.1.0\n'),
                                 'a_b{c="d e",f=""} 7,version 0.1.0'),
    ("stats", server.refused(51), "refused: UnknownKind"), ("top 0 2", server.refused(1), "refused: Memory"),
    ("fold", server.refused(51), "refused: UnknownKind"), ("fold", server.refused(35), "refused: LogFailed"),
    ("fold", reply(0x86, 300), "folded 300"),
]


def what_is_no_reply_is_told(name, command):
    for question, lie, wanted in [*((*it, NONE) for it in LIES), *ODD]:
        with Liar(lie) as liar, Driver(command, liar.path, attempts=3) as driver:
            check(f"{name}: {question}: {lie[:60].hex()}", driver.ask(*question.split()), wanted)
            check(f"{name}: {question}: {lie[:60].hex()}, once", liar.count, 1)


def numbers_are_found_among_stats(command):
    """C: whole numbers by their names, where a name is the front of another, has labels, or isn't there."""
    told = {"batches_total": 9, "batches": 7, "odd_seconds": "0.5", "version": "1.2", 'odd{a="b c"}': (1 << 64) - 1,
            "total": 1 << 64}
    with StandIn(stats=told) as at, Driver(command, at.path) as driver:
        wanted = f"7,none,none,none,none,{(1 << 64) - 1},none,"
        check("C: numbers among stats", driver.ask("numbers"), wanted)


PLAIN = [sys.executable, os.path.join(PYTHON, "hhm_client.py")]


def hhmc(at, *words):
    return run([*PLAIN, "--unix", at.path, *words])


def the_command_line_asks():
    host = (10 << 24) + 1
    cells = [(host, (10 << 24) + k, k + 1) for k in range(4)] + [(7, (10 << 24) + 1, 50), (9, 1 << 31, 1)]
    told = "columns lead by a scan of all cells, which takes a while where there are many\n"
    with Server(LARGE, tcp=False) as at:
        with at.client(8) as hhm:
            hhm.put(1, cells)
        for words, wanted in [
            ("top rows", ("7 1 50\n167772161 4 10\n9 1 1\n", "", 0)),
            ("top rows 1 --by entries", ("167772161 4 10\n", "", 0)),
            ("top rows 2 --ip", ("0.0.0.7 1 50\n10.0.0.1 4 10\n", "", 0)),
            ("top cols 2", ("167772161 2 52\n167772163 1 4\n", told, 0)),
            ("top cols 2 --by entries --ip", ("10.0.0.1 2 52\n10.0.0.0 1 1\n", told, 0)),
            ("list 7", ("7 167772161 50\n", "", 0)), ("list 8", ("", "", 0)),
            ("list --ip 10.0.0.1 --limit 4", ("".join(f"10.0.0.1 10.0.0.{k} {k + 1}\n" for k in range(4)), "", 0)),
            ("list --ip 10.0.0.1 --limit 1",
             ("10.0.0.1 10.0.0.0 1\n", "row 10.0.0.1 has more cells: give a higher --limit\n", 0)),
            ("list --ip 9", ("0.0.0.9 128.0.0.0 1\n", "", 0)),
            ("list 10.0.0.1", ("".join(f"10.0.0.1 10.0.0.{k} {k + 1}\n" for k in range(4)), "", 0)),
            (f"list {1 << 32}", ("", "refused: OutOfRange\n", 1)),
            ("top rows 1000001", ("", "refused: BadCount\n", 1)),
            ("fold", ("folded 1\n", "", 0)), ("top rows 1", ("7 1 50\n", "", 0)),
        ]:
            check(f"hhmc {words}", hhmc(at, *words.split()), wanted)
        for words in ["top", "top both", "top rows 0", "top rows --ip 0", "top rows 3 --ip 4", "top rows --ip 3 4",
                      "top rows x", "list", "list 7 --limit 0", "stats 1", "fold 1", "cell 1", "row", "degrees both",
                      "top rows --json --csv"]:
            output, error, status = hhmc(at, *words.split())
            check(f"hhmc {words}", (output, error.startswith("usage: "), status), ("", True, 2))
        with at.client() as hhm:
            is_known = knows_stats(hhm, "hhmc stats")
        if is_known:
            output, error, status = hhmc(at, "stats")
            check("hhmc stats", ("batches 1\n" in output, "total 61\n" in output, error, status), (True, True, "", 0))
    with StandIn(stats={"batches": 1, "odd": "1.50"}) as at:
        check("hhmc stats, as they come", hhmc(at, "stats"), ("batches 1\nodd 1.50\n", "", 0))
    with StandIn(stats=None, unknown=[10, 11]) as at:
        why = "refused: UnknownKind: this server doesn't know the question\n"
        for words in ["stats", "top rows", "list 1"]:
            check(f"hhmc {words}, of a server that knows none", hhmc(at, *words.split()), ("", why, 1))
    for stats, size in [({"batches": 0}, (5, 1 << 60)), (None, (1, 1)), (None, (1 << 60, 1000)), ({"rows": 7}, (7, 7))]:
        with StandIn(stats=stats, size=size) as at, Client(unix=at.path) as hhm:
            check(f"dimensions that aren't told: {size}", hhm.size(), size)
            at.put([(0, col, 1) for col in range(min(size[1], 3))])
            check("all cells of them", len(list(hhm.range(page=1))), min(size[1], 3))


def lines_of(*cells):
    return "".join("%s %s %d\n" % cell for cell in cells)


def words_of_rows_are_one():
    """Numbers, ranges, addresses and networks in each question, by hand; and what no word is."""
    ten, other = 10 << 24, 192 << 24
    told = "degrees come by a scan of all cells, which takes a while where there are many\n"
    inside = [("10.0.0.1", "192.0.0.1", 5), ("10.0.0.1", "192.0.0.2", 2), ("10.0.1.44", "192.0.0.1", 1)]
    bare = [(ten + 1, other + 1, 5), (ten + 1, other + 2, 2), (ten + 300, other + 1, 1)]
    cells, more = [*bare, (other, ten + 1, 9), (7, 8, 4)], "has more cells: give a higher --limit\n"
    with Server(LARGE, tcp=False) as at:
        with at.client(8) as hhm:
            hhm.put(1, cells)
        for words, wanted in [
            ("list 10.0.0.0/8", (lines_of(*inside), "", 0)), ("list 10.0.0.0/24", (lines_of(*inside[:2]), "", 0)),
            ("list 10.0.1.44-10.0.1.45", (lines_of(inside[2]), "", 0)), ("list 10.1.0.0/16", ("", "", 0)),
            (f"list {ten}-{ten + 300}", (lines_of(*bare), "", 0)),
            ("list 10.0.0.0/8 --limit 2", (lines_of(*inside[:2]), f"10.0.0.0/8 {more}", 0)),
            ("range --rows 0-9 --ip", (lines_of(("0.0.0.7", "0.0.0.8", 4)), "", 0)),
            ("range --cols 192.0.0.0/31 --rows 10.0.0.0/8", (lines_of(inside[0], inside[2]), "", 0)),
            ("range --cols 8", ("7 8 4\n", "", 0)), ("range --limit 1", ("7 8 4\n", f"the range {more}", 0)),
            ("row 10.0.0.0/8", ("entries 3 total 8\n", "", 0)), ("row 10.0.0.1", ("entries 2 total 7\n", "", 0)),
            ("row 7", ("entries 1 total 4\n", "", 0)), ("cell 10.0.0.1 192.0.0.2", ("2\n", "", 0)),
            ("cell 10.0.0.1 7", ("none\n", "", 0)), ("cell 7 8", ("4\n", "", 0)),
            ("degrees", ("1 1 3\n2 3 1\n", "", 0)), ("degrees cols", ("1 1 3\n2 3 1\n", told, 0)),
            ("degrees rows --in 10.0.0.0/8", ("1 1 1\n2 3 1\n", "", 0)),
            ("degrees rows --in 10.0.0.0/8 --cols 192.0.0.1", ("1 1 2\n", "", 0)),
            ("degrees cols --in 192.0.0.0/30", ("1 1 1\n2 3 1\n", "", 0)),
            ("list x", ("", "'x' isn't a number, A-B, an address, a network or, by --names, a name\n", 2)),
            ("list 9-7", ("", "9-7: the first is after the last\n", 2)),
            (f"cell 7 {1 << 64}", ("", f"{1 << 64}: rows and columns are from 0 to {(1 << 60) - 1}\n", 2)),
            (f"list 7-{1 << 64}", ("", f"7-{1 << 64}: rows and columns are from 0 to {(1 << 60) - 1}\n", 2)),
            (f"cell 7 {(1 << 64) - 1}", ("", "refused: OutOfRange\n", 1)),
            ("cell 10.0.0.0/8 7", ("", "10.0.0.0/8: one row or column is wanted, and these are several\n", 2)),
            ("row ::1", ("", "::1: IPv6 addresses have their numbers by a table: give --ip --names TABLE\n", 2)),
            ("list 7 --names /nowhere/a", ("", "/nowhere/a: No such file or directory\n", 4)),
        ]:
            check(f"words: {words}", hhmc(at, *words.split()), wanted)


def networks_lead():
    """Rows and columns of a network, and networks in place of addresses, by hand; and what no prefix is."""
    ten, other = 10 << 24, 192 << 24
    cells = [(ten + 1, other + 1, 5), (ten + 1, other + 2, 2), (ten + 300, other + 1, 1), (other, ten + 1, 9),
             (7, 8, 4)]
    rows = "networks lead by a scan of all cells, which takes a while where there are many\n"
    more = "an IPv4 address has 32 bits, and one of IPv6 128: give both as 24,48\n"
    with Server(LARGE, tcp=False) as at:
        with at.client(8) as hhm:
            hhm.put(1, cells)
        for words, wanted in [
            ("rows --in 10.0.0.0/8", ("10.0.0.1 2 7\n10.0.1.44 1 1\n", "", 0)),
            ("rows 1 --in 10.0.0.0/8 --by entries", ("10.0.0.1 2 7\n", "", 0)),
            ("rows --in 11.0.0.0/8", ("", "", 0)), ("rows --in 0-9", ("7 1 4\n", "", 0)),
            ("rows --in 0-9 --ip", ("0.0.0.7 1 4\n", "", 0)), ("rows --rows 7", ("7 1 4\n", "", 0)),
            ("rows --cols 192.0.0.1", ("10.0.0.1 1 5\n10.0.1.44 1 1\n", "", 0)),
            ("cols --in 192.0.0.0/8", ("192.0.0.1 2 6\n192.0.0.2 1 2\n", "", 0)),
            ("cols --rows 10.0.0.1", ("192.0.0.1 1 5\n192.0.0.2 1 2\n", "", 0)),
            ("rows --prefix 24", ("192.0.0.0/24 1 9\n10.0.0.0/24 2 7\n0.0.0.0/24 1 4\n10.0.1.0/24 1 1\n", "", 0)),
            ("rows --prefix 8 --by entries", ("10.0.0.0/8 3 8\n0.0.0.0/8 1 4\n192.0.0.0/8 1 9\n", "", 0)),
            ("rows --prefix 0", ("0.0.0.0/0 5 21\n", "", 0)), ("rows 1 --prefix 32", ("192.0.0.0/32 1 9\n", "", 0)),
            ("rows --prefix 24 --in 10.0.0.0/16", ("10.0.0.0/24 2 7\n10.0.1.0/24 1 1\n", "", 0)),
            ("rows --prefix 24 --in 10.0.0.0/31", ("10.0.0.0/24 2 7\n", "", 0)),
            ("rows --prefix 24 --cols 192.0.0.1", ("10.0.0.0/24 1 5\n10.0.1.0/24 1 1\n", "", 0)),
            ("cols 2 --prefix 31", ("10.0.0.0/31 1 9\n192.0.0.0/31 2 6\n", rows, 0)),
            ("cols --prefix 8 --rows 10.0.0.0/24 --json",
             ('{"column": "192.0.0.0/8", "entries": 2, "total": 7}\n', "", 0)),
            ("rows --prefix 33", ("", f"--prefix 33: {more}", 2)),
            ("rows --prefix 24,129", ("", f"--prefix 24,129: {more}", 2)),
            ("rows --prefix x", ("", "--prefix 'x' is no number of bits as 24, and no two as 24,48\n", 2)),
            ("rows --in 10.0.0.0/8 1", ("10.0.0.1 2 7\n", "", 0)),
            ("rows --in 7 --rows 8", ("", "--in is --rows of the rows: leave one of them out\n", 2)),
        ]:
            check(f"top {words}", hhmc(at, "top", *words.split()), wanted)
        tops_are_tables(at)


def tops_are_tables(at):
    """The same in a program, as for a notebook."""
    with at.client() as hhm:
        table = top_table(hhm, "cols", 1, within="192.0.0.0/8", prefix=31)
        check("a table", (table.names, table), (("column", "entries", "total"), [("192.0.0.0/31", 2, 6)]))
        shown = "<td>192.0.0.0/31</td><td>2</td><td>6</td>"
        check("a table in a notebook", shown in table._repr_html_(), True)
        for options, why in [({"fix": 8}, TypeError), ({"prefix": "x"}, Ended), ({"within": "x"}, Ended)]:
            try:
                check(f"a table by {options}", top_table(hhm, "rows", 1, **options), why)
            except (TypeError, Ended) as fault:
                check(f"a table by {options}", type(fault), why)


def drawn_networks_lead():
    """Drawn cells, in pages that end amid rows and networks, compared with SQL over the cells."""
    dice = random.Random(11)
    hosts = [(dice.randrange(3) << 24) + (dice.randrange(4) << 8) + dice.randrange(256) for _ in range(300)]
    drawn = {(dice.choice(hosts), dice.choice(hosts)): dice.randrange(90) for _ in range(3000)}
    table = sqlite3.connect(":memory:")
    table.execute("create table cells (row integer, col integer, count integer)")
    table.executemany("insert into cells values (?, ?, ?)", [(*place, count) for place, count in drawn.items()])
    within = [Span(5, (1 << 24) + 700), Span(2 << 24, (2 << 24) + 300)]
    inside = " or ".join(f"{{0}} between {span.first} and {span.last}" for span in within)
    with Server(LARGE, tcp=False) as at, at.client(8) as hhm:
        hhm.put(1, [(*place, count) for place, count in drawn.items()])
        for axis, other in (("row", "col"), ("col", "row")):
            for by in ("total", "entries"):
                for shift, page in ((0, 7), (8, 7), (8, 1), (24, 1000)):
                    block = Block(within, None) if axis == "row" else Block(None, within)
                    parts = block.of_server(hhm, page)
                    sums = sums_of_rows(parts, shift) if axis == "row" else sums_of_cols(
                        parts, lambda col, shift=shift: col >> shift << shift)
                    order = 3 if by == "total" else 2
                    query = (f"select {axis} >> {shift} << {shift}, count({other}), sum(count) from cells where "
                             f"{inside.format(axis)} group by 1 order by {order} desc, 1 limit 20")
                    check(f"networks: {axis} by {by}, {shift}, pages of {page}",
                          [tuple(it) for it in first_of(sums, 20, by)], table.execute(query).fetchall())


def names_are_shown():
    """Rows by a table of names, and addresses of IPv6 by a table, in questions and in answers."""
    first, cells = 1 << 32, [(0, 1, 5), (2, 0, 1), (3, 3, 2), (9, 9, 7)]
    with Server(["--rows", str(1 << 33), "--cols", str(1 << 33)], tcp=False) as at:
        with at.client(8) as hhm:
            hhm.put(1, [*cells, (first, first + 2, 30), (first + 2, first + 1, 20), (10 << 24, first, 10)])
        addresses_of_a_table_are_shown(at)
        names_of_a_table_are_shown(at)


def table_of(name, content):
    path = os.path.join(server.FOLDER, name)
    with open(path, "w") as file:
        file.write(content)
    return path


def addresses_of_a_table_are_shown(at):
    six = table_of("six.names", "2001:db8:1::7\nfe80::1\n2001:db8:2::53\n")
    for words, wanted in [
        ("top rows 4", ("2001:db8:1::7 1 30\n2001:db8:2::53 1 20\n10.0.0.0 1 10\n0.0.0.9 1 7\n", "", 0)),
        ("list 2001:db8::/32", ("2001:db8:1::7 2001:db8:2::53 30\n2001:db8:2::53 fe80::1 20\n",
                                f"2001:db8::/32: 2 of the names in {six}\n", 0)),
        ("range --cols 2001:db8::/32", ("10.0.0.0 2001:db8:1::7 10\n2001:db8:1::7 2001:db8:2::53 30\n",
                                        f"2001:db8::/32: 2 of the names in {six}\n", 0)),
        ("cell 2001:DB8:1:0::7 2001:db8:2::53", ("30\n", "", 0)),
        ("row 2001:db8::/32", ("entries 2 total 50\n", f"2001:db8::/32: 2 of the names in {six}\n", 0)),
        ("row ff00::/8", ("entries 0 total 0\n", f"ff00::/8: 0 of the names in {six}\n", 0)),
        ("top rows --prefix 24,48", ("2001:db8:1::/48 1 30\n2001:db8:2::/48 1 20\n0.0.0.0/24 4 15\n"
                                     "10.0.0.0/24 1 10\n", "", 0)),
        ("top rows 1 --prefix 24", ("2001:db8:1::/64 1 30\n", "", 0)),
        ("top rows --in 2001:db8::/32 --prefix 32", ("2001:db8::/32 2 50\n",
                                                     f"2001:db8::/32: 2 of the names in {six}\n", 0)),
        ("top cols --in 2001:db8::/32 --prefix 48", ("2001:db8:2::/48 1 30\n2001:db8:1::/48 1 10\n",
                                                     f"2001:db8::/32: 2 of the names in {six}\n", 0)),
        ("degrees --in 2001:db8::/32", ("1 1 2\n", f"2001:db8::/32: 2 of the names in {six}\n", 0)),
        ("row ::5", ("", f"{six} has no ::5\n", 2)),
    ]:
        check(f"IPv6: {words}", hhmc(at, *words.split(), "--ip", "--names", six), wanted)


def names_of_a_table_are_shown(at):
    hosts = table_of("hosts.names", "www\nmail-1\n10.0.0.9\n2001:db8::9\nhalf")
    for words, wanted in [
        ("range --rows 0-9", ("www mail-1 5\n10.0.0.9 www 1\n2001:db8::9 2001:db8::9 2\n9 9 7\n", "", 0)),
        ("list www", ("www mail-1 5\n", "", 0)), ("row mail-1", ("entries 0 total 0\n", "", 0)),
        ("list 10.0.0.0/8", ("10.0.0.9 www 1\n", f"10.0.0.0/8: 1 of the names in {hosts}\n", 0)),
        ("cell www mail-1", ("5\n", "", 0)), ("list half", ("", f"{hosts} has no 'half'\n", 2)),
        ("top rows --rows 0-9 --prefix 8,32", ("9 1 7\nwww 1 5\n2001:db8::/32 1 2\n10.0.0.0/8 1 1\n", "", 0)),
        ("top rows --in www", ("www 1 5\n", "", 0)),
        ("cell www 1 --json", ('{"row": "www", "column": "mail-1", "count": 5}\n', "", 0)),
        ("range --rows 3-9 --csv", ("row,column,count\n2001:db8::9,2001:db8::9,2\n9,9,7\n", "", 0)),
    ]:
        check(f"names: {words}", hhmc(at, *words.split(), "--names", hosts), wanted)


def a_table_grows():
    """Names that a load adds are shown without a new start; a table that is gone leaves those that were read."""
    path = os.path.join(server.FOLDER, "growing.names")
    with open(path, "w") as file:
        file.write("a\n")
    words = Words(False, path)
    check("a table", [words.shown(number) for number in (0, 1)], ["a", 1])
    with open(path, "a") as file:
        file.write("b\nhalf")
    check("a table that has grown", [words.shown(number) for number in (0, 1, 2)], ["a", "b", 2])
    os.remove(path)
    check("a table that is gone", [words.shown(number) for number in (0, 1, 2)], ["a", "b", 2])


def answers_have_forms():
    """JSON, CSV and, on a terminal, aligned columns; of a server and of a snapshot; and a reader that goes early."""
    snap, most = os.path.join(server.FOLDER, "forms.snap"), (1 << 64) - 1
    rows = [{"row": 10 << 24, "entries": 1, "total": 1 << 60}, {"row": 7, "entries": 2, "total": 9}]
    with Server([*LARGE, "--limit", str(most), "--snapshot", snap], tcp=False) as at:
        with at.client(8) as hhm:
            hhm.put(1, [(10 << 24, 1, 1 << 60), (7, 8, 4), (7, 9, 5)])
            hhm.save()

        def of_server(*words):
            return hhmc(at, *words)

        def of_file(*words):
            return run([*PLAIN, *words, "--file", snap, "--program", server.PROGRAM])

        for asked in (of_server, of_file):
            output, error, status = asked("top", "rows", "--json")
            check("JSON", ([json.loads(line) for line in output.splitlines()], error, status), (rows, "", 0))
            check("CSV", asked("top", "rows", "--csv", "--ip"),
                  (f"row,entries,total\n10.0.0.0,1,{1 << 60}\n0.0.0.7,2,9\n", "", 0))
            check("range", asked("range", "--rows", "7", "--json")[0],
                  '{"row": 7, "column": 8, "count": 4}\n{"row": 7, "column": 9, "count": 5}\n')
            check("list", asked("list", "10.0.0.0/8"), (f"10.0.0.0 0.0.0.1 {1 << 60}\n", "", 0))
            check("networks", asked("top", "rows", "--prefix", "8"),
                  (f"10.0.0.0/8 1 {1 << 60}\n0.0.0.0/8 2 9\n", "", 0))
            check("columns of a row", asked("top", "cols", "1", "--rows", "7"), ("9 1 5\n", "", 0))
            check("degrees of a row", asked("degrees", "--in", "7"), ("2 3 1\n", "", 0))
            check("degrees", asked("degrees", "cols", "--json")[::2], ('{"from": 1, "to": 1, "cols": 3}\n', 0))
        check("no columns by a file", of_file("top", "cols", "1"), (f"1 1 {1 << 60}\n", "", 0))
        check("no server", run([*PLAIN, "top", "rows"])[2], 2)
        check("a server and a file", of_file("--unix", at.path, "top", "rows")[2], 2)
        check("a status", hhmc(at, "status", "--json"), ('{"batches": 1, "total": %d}\n' % ((1 << 60) + 9), "", 0))
        check("stats", json.loads(hhmc(at, "stats", "--json")[0])["batches"], 1)
        check("stats as CSV", "batches,1\n" in hhmc(at, "stats", "--csv")[0], True)
        check("a terminal", on_terminal([*PLAIN, "--unix", at.path, "top", "rows", "--ip"]),
              "row       entries                total\r\n10.0.0.0        1  1152921504606846976\r\n"
              "0.0.0.7         2                    9\r\n")
        with at.client(9) as hhm:
            hhm.put(1, [(1, col, 1) for col in range(20_000)])
        piped = ["bash", "-c", '"$@" | head -1; echo "${PIPESTATUS[0]}"', "-"]
        check("a reader that goes", run([*piped, *PLAIN, "--unix", at.path, "list", "1"])[:2], ("1 0 1\n141\n", ""))


def a_reader_that_has_gone():
    """Where nobody reads what a word writes, SIGPIPE ends it, and no fault is shown: answers, helps, the version, and the
    lines of other programs."""
    reading, writing = os.pipe()
    os.close(reading)
    with Server(["--rows", "3", "--cols", "3"], tcp=False) as at:
        for words in [["--help"], ["load", "--help"], ["--version"], ["--unix", at.path, "status"]]:
            for buffers in ["", "1"]:
                ended = subprocess.run([*PLAIN, *words], stdout=writing, stderr=subprocess.PIPE, timeout=WAIT,
                                       env={**os.environ, "PYTHONUNBUFFERED": buffers})
                check(f"nobody reads: {words[-2:]}", (ended.returncode, ended.stderr), (-signal.SIGPIPE, b""))
    path, log = (os.path.join(server.FOLDER, f"read.{it}") for it in ("snap", "connections"))
    with open(log, "w") as file:
        file.write("a b\n")
    program = ["--program", server.PROGRAM]
    with Server([*LARGE, "--snapshot", path], tcp=False) as at:
        with at.client(1) as hhm:
            hhm.put(1, [(0, 0, 5)])
            hhm.save()
        unix = f"unix:{at.path}"
        for words in [["count_log.py", "--unix", at.path, "--client", "2", log],
                      ["hhm_mirror.py", path, path, unix, *program],
                      ["hhm_relay.py", "-", path, os.path.join(server.FOLDER, "spool"), unix, "3", *program],
                      ["../../examples/make_flows.py", "100000"]]:
            ended = subprocess.run([sys.executable, os.path.join(PYTHON, words[0]), *words[1:]], stdout=writing,
                                   stderr=subprocess.PIPE, timeout=WAIT)
            check(f"nobody reads: {words[0]}", (ended.returncode, ended.stderr), (-signal.SIGPIPE, b""))
    os.close(writing)


def every_help_has_statuses():
    words = hhm_command.parser()
    for name, word in words._subparsers._group_actions[0].choices.items():
        check(f"hhmc {name} --help", "Statuses: 0; 1 where the server refused;" in word.format_help(), True)


def only_what_is_named_is_loaded():
    """A question doesn't wait for the modules of other commands; and the help of each has all of them."""
    with Server(["--rows", "3", "--cols", "3"], tcp=False) as at:
        script = "import sys, hhm_client; hhm_client.main(); print(*(it for it in sys.modules if it[:4] == 'hhm_'))"
        ended = run([sys.executable, "-c", script, "--unix", at.path, "status"],
                    env={**os.environ, "PYTHONPATH": PYTHON})
        loaded = set(ended[0].splitlines()[-1].split())
        check("loaded", (loaded & {"hhm_load", "hhm_plot", "hhm_metrics"}, "hhm_ask" in loaded), (set(), True))
    whole = run([*PLAIN, "--help"])
    for words in [["--help", "load"], ["-h", "save"]]:
        check(f"hhmc {words}", run([*PLAIN, *words]), whole)
    names = set(re.findall(r"^    ([a-z]+)(?: |$)", whole[0], re.M))
    wanted = {*hhm_command.MODULES, *hhm_command.QUESTIONS, *hhm_command.PLAIN}
    check("commands of the help", (names, whole[2]), (wanted, 0))


def on_terminal(words):
    """What a program writes on a terminal."""
    process, terminal = pty.fork()
    if process == 0:
        os.execvp(words[0], words)
    text = b""
    try:
        while more := os.read(terminal, 65536):
            text += more
    except OSError:
        pass
    os.waitpid(process, 0)
    os.close(terminal)
    return text.decode()


def all_are_tried():
    commands = drivers()
    if "C" in commands:
        numbers_are_found_among_stats(commands["C"])
    for name, command in commands.items():
        worked_answers(name, command)
        drawn_answers(name, command)
        what_is_no_reply_is_told(name, command)
    the_command_line_asks()
    words_of_rows_are_one()
    networks_lead()
    drawn_networks_lead()
    names_are_shown()
    a_table_grows()
    answers_have_forms()
    a_reader_that_has_gone()
    every_help_has_statuses()
    only_what_is_named_is_loaded()


if __name__ == "__main__":
    sys.exit(server.run_all(all_are_tried))
