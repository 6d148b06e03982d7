#!/usr/bin/env python3
"""Tries the clients of clients/ against the built program, over both sockets, also where replies are lost.

    python3 tests/clients.py PATH-TO-HHM

Each client's example is compiled and run, and what it writes is compared with what was worked out by hand from
docs/FORMATS.md; sums are compared with those of a plain dictionary. It prints a line for each check that fails, one for
each client that wasn't tried since its compiler isn't installed, and at the end `N passed, M failed`; the status is 1
where one fails. What could make a client count wrong, or wait for ever, stands in client_faults.py. Linux, and nothing
but Python's own library.
"""
import array
import contextlib
import ctypes
import itertools
import os
import random
import re
import resource
import shutil
import signal
import struct
import subprocess
import sys
import tempfile
import time

import server
from server import SMALL, Server, check, text

HERE = os.path.dirname(os.path.abspath(__file__))
CLIENTS = os.path.join(HERE, "..", "clients")
import client_faults  # noqa: E402 (server.py has put the client's folder on the path)
import hhm_client  # noqa: E402
import identities  # noqa: E402
from hhm_client import MAX_CELLS, Arrays, BadReply, Client, Status, cells_of, where_of  # noqa: E402
from hhm_cluster import Cluster  # noqa: E402
from peers import WAIT, Liar, Proxy, fault_of, run, started, until  # noqa: E402

LARGE = ["--rows", str(1 << 32), "--cols", str(1 << 32)]
EXAMPLE = """put: index 0 total_after 12
the same again: index 0 total_after 12
a text: index 1 total_after 15
batch 3: index 2 total_after 18
batch 4: index 3 total_after 22
batch 5: index 4 total_after 27
batch 6: index 5 total_after 33
batch 7: index 6 total_after 40
out of range: refused: IndexOutOfRange at cell 1
other cells: refused: NumberReused
too many: a batch has at most 1048576 cells or 67108848 bytes of text
cell: 8
cell: none
row: entries 1 total 25
range: row 0 column 0 count 8
range: row 1 column 2 count 25
range: row 2 column 1 count 7
page: cells 1 more true
top: row 1 entries 1 total 25
top: row 0 entries 1 total 8
status: batches 7 total 40
stored: batches 7 total 40
stats: rows 3
stats: batches 7
stats: total 40
%%MatrixMarket matrix coordinate integer general
3 3 3
1 1 8
2 3 25
3 2 7
saved: 7
stopping
"""

def longs(*numbers):
    return array.array("Q", numbers)


def arrays(cells):
    """Cells in three arrays."""
    return Arrays(*(longs(*(cell[field] for cell in cells)) for field in range(3)))


def frames_are_spelled():
    """The bytes of puts: of tuples, and of arrays of each kind."""
    frame = bytes.fromhex("00000028 08 0000000000000009 0000000000000001"
                          "0000000000000000 0000000000000000 0000000000000005")
    check("one cell", hhm_client.put_cells_frame(9, 1, [(0, 0, 5)]), frame)
    check("one cell of arrays", hhm_client.put_cells_frame(9, 1, arrays([(0, 0, 5)])), frame)
    none = struct.pack(">IBQQ", 16, 8, 9, 1)
    check("no cell", hhm_client.put_cells_frame(9, 1, []), none)
    check("no cell of arrays", hhm_client.put_cells_frame(9, 1, arrays([])), none)
    check("no cell of other arrays", hhm_client.put_cells_frame(9, 1, Arrays(*[(ctypes.c_uint64 * 0)()] * 3)), none)
    most = (1 << 64) - 1
    cells = [(1, 2, 3), (0x0102030405060708, most, 0), (most - 1, 256, most)]
    wanted = struct.pack(">IBQQ9Q", 88, 8, 9, 2, *itertools.chain(*cells))
    rows, cols, counts = zip(*cells)
    spaced = memoryview(longs(*(number for row in rows for number in (row, 77))))[::2]
    backwards = memoryview(array.array("L", reversed(rows)))[::-1]
    for name, column in [("array", longs(*rows)), ("bytes", memoryview(struct.pack("3Q", *rows)).cast("Q")),
                         ("ctypes", (ctypes.c_uint64 * 3)(*rows)), ("L", array.array("L", rows)),
                         ("steps", spaced), ("backwards", backwards)]:
        given = Arrays(column, longs(*cols), array.array("L", counts))
        check(f"a column of {name}", hhm_client.put_cells_frame(9, 2, given), wanted)
    check("tuples", hhm_client.put_cells_frame(9, 2, iter(cells)), wanted)


def addresses_are_exact():
    """The addresses of clusters and of tools: with `unix:` and `tcp:`, and without where only one is meant."""
    for word, wanted in [("unix:socket", {"unix": "socket"}), ("unix:./7000", {"unix": "./7000"}),
                         ("unix:a:7000", {"unix": "a:7000"}), ("tcp:unix:7000", {"tcp": "unix:7000"}),
                         ("tcp:[::1]:7", {"tcp": "[::1]:7"}), ("/run/hhm.sock", {"unix": "/run/hhm.sock"}),
                         ("./a:7000", {"unix": "./a:7000"}), ("a:7000", {"tcp": "a:7000"})]:
        check(f"the address {word}", where_of(word), wanted)
    for word, told in [("socket", "has no slash as a path has: write unix:PATH or tcp:HOST:PORT"),
                       ("unix:7000", "may be a path or a host: write unix:./7000 or tcp:unix:7000"),
                       ("tcp:7000", "'7000' isn't HOST:PORT"), ("tcp:/run/x", "'/run/x' isn't HOST:PORT"),
                       ("unix:", "isn't unix:PATH or tcp:HOST:PORT"), ("", "has no slash as a path has")]:
        try:
            check(f"the address {word!r}", where_of(word), "refused")
        except ValueError as fault:
            check(f"the address {word!r}", told in str(fault), True)


def one_address_is_meant():
    """Both command lines that take an address refuse a second one, which would take the place of the first."""
    how = {"cwd": os.path.join(CLIENTS, "python"), "capture_output": True, "text": True, "timeout": WAIT}
    for tool in [["hhm_client.py", "status"], ["count_log.py", "--client", "1", "x"]]:
        for option, words in [("--unix", ["--unix", "a", "--unix", "b"]), ("--tcp", ["--tcp=a:1", "--tcp=b:1"])]:
            ended = subprocess.run([sys.executable, tool[0], *words, *tool[1:]], **how)
            told = ended.stderr.endswith(f"error: argument {option}: given twice, and one is meant\n")
            check(f"{tool[0]} {words}", (ended.stdout, told, ended.returncode), ("", True, 2))


def a_wait_is_told_and_ends():
    """After two seconds without a server a client says so, once, and goes on; `wait` ends that, with 0 at once."""
    path = os.path.join(server.FOLDER, "late")
    script = ("import sys, time; from hhm_client import Client\nwait, begin = float(sys.argv[2]), time.monotonic()\n"
              "try:\n    Client(unix=sys.argv[1], wait=wait).status()\nexcept OSError as fault:\n"
              "    print(type(fault).__name__, wait <= time.monotonic() - begin < wait + 5)\n")
    how = {"cwd": os.path.join(CLIENTS, "python"), "capture_output": True, "text": True, "timeout": WAIT}
    for wait, wanted in [("0", ("FileNotFoundError True\n", "")),
                         ("3", ("FileNotFoundError True\n", f"waiting for the server at {path}\n"))]:
        ended = subprocess.run([sys.executable, "-c", script, path, wait], **how)
        check(f"wait={wait}", (ended.stdout, ended.stderr), wanted)
    with Cluster([path, path], client=7, generation=1, by="rows", wait=0) as hhm:
        told = fault_of(hhm.status)
        check("wait=0 of a cluster", told, "FileNotFoundError")
    for wait in [-1, float("nan")]:
        try:
            Client(unix=path, wait=wait)
            check(f"wait={wait}", "taken", "refused")
        except ValueError as fault:
            check(f"wait={wait}", str(fault), f"wait is a number of seconds from 0, and not {wait}")
    with Server(SMALL) as at, at.client(wait=0) as hhm:
        check("wait=0: a server", hhm.status(), (0, 0))


def what_is_no_batch_is_not_sent(unix):
    """Wrong arrays, wrong tuples, too many cells and too long a text are told before anything is sent."""
    one, two = longs(1), longs(1, 1)
    with Server(SMALL) as at, at.client(7, unix) as hhm:
        for name, call, wanted in [
            ("lengths", lambda: hhm.put(1, Arrays(one, one, two)), "ValueError"),
            ("signed numbers", lambda: hhm.put(1, Arrays(array.array("q", [1]), one, one)), "TypeError"),
            ("short numbers", lambda: hhm.put(1, Arrays(one, array.array("I", [1]), one)), "TypeError"),
            ("real numbers", lambda: hhm.put(1, Arrays(one, one, array.array("d", [1]))), "TypeError"),
            ("bytes", lambda: hhm.put(1, Arrays(bytes(8), one, one)), "TypeError"),
            ("two dimensions", lambda: hhm.put(1, Arrays(((ctypes.c_uint64 * 1) * 1)(), one, one)), "TypeError"),
            ("a list", lambda: hhm.put(1, Arrays([1], one, one)), "TypeError"),
            ("a pair", lambda: hhm.put(1, [(1, 1)]), "ValueError"),
            ("four numbers", lambda: hhm.put(1, [(1, 1, 1, 1)]), "ValueError"),
            ("a number below 0", lambda: hhm.put(1, [(1, 1, -1)]), "ValueError"),
            ("a number of 65 bits", lambda: hhm.put(1, [(1, 1, 1 << 64)]), "ValueError"),
            ("no whole number", lambda: hhm.put(1, [(1, 1, 0.5)]), "ValueError"),
            ("too many tuples", lambda: hhm.put(1, itertools.repeat((0, 0, 0), MAX_CELLS + 1)), "ValueError"),
            ("too many cells", lambda: hhm.put(1, Arrays(*[longs(0) * (MAX_CELLS + 1)] * 3)), "ValueError"),
            ("a bad number", lambda: hhm.put(1 << 64, [(0, 0, 1)]), "ValueError"),
            ("a bad place", lambda: hhm.cell(0, -1), "ValueError"),
            ("too long a text", lambda: hhm.put_text(1, bytes((64 << 20) - 15)), "ValueError"),
        ]:
            check(f"not sent: {name}", fault_of(call), wanted)
        check("not sent", hhm.status(), Status(0, 0))
        longest = hhm_client.BANNER + b"%" * ((64 << 20) - 16 - len(hhm_client.BANNER) - 7) + b"\n3 3 0\n"
        check("as long a text as may be", hhm.put_text(2, longest), (0, 0))
        check("as many as may be", hhm.put(1, Arrays(*[longs(0) * MAX_CELLS] * 3)), (1, 0))
        check("they are one", hhm.row(0), (1, 0))
        hhm.close()
        at.stop("not sent", 2, 0)


def cells_are_put(unix):
    """Cells of tuples, of arrays and of texts are the same batches; refusals, and what stands after them."""
    with Server(SMALL) as at:
        with at.client(7, unix) as hhm:
            cells = [(2, 1, 7), (0, 0, 2), (0, 0, 3), (1, 1, 0)]
            check("cells", hhm.put(1, cells), (0, 12))
            check("the same as arrays", hhm.put(1, arrays(cells)), (0, 12))
            check("the same in another order", hhm.put(1, arrays(cells[::-1])), (0, 12))
            check("the same as a text", hhm.put_text(1, hhm_client.text_of(3, 3, cells)), (0, 12))
            half = 1 << 63
            for name, cells, wanted in [
                ("a row", [(0, 0, 1), (3, 0, 1)], "IndexOutOfRange at cell 1"),
                ("a column", [(0, 3, 1)], "IndexOutOfRange at cell 0"),
                ("the largest", [(0, 0, 1), (0, 0, 1), ((1 << 64) - 1,) * 3], "IndexOutOfRange at cell 2"),
                ("the sum", [(0, 0, half), (0, 0, half)], "SumTooLarge"),
                ("the first fault", [(0, 0, half), (3, 0, half), (0, 0, half)], "IndexOutOfRange at cell 1"),
                ("the total", [(0, 0, 89)], "OverTotal: 12 accepted"),
                ("another batch", [(0, 0, 12)], "NumberReused"),
            ]:
                number = 1 if wanted == "NumberReused" else 2
                check(f"cells, {name}", fault_of(lambda: hhm.put(number, cells)), wanted)
                check(f"arrays, {name}", fault_of(lambda: hhm.put(number, arrays(cells))), wanted)
            check("none", hhm.put(2, arrays([])), (1, 12))
            check("the sum", list(cells_of(hhm.export())), [(0, 0, 5), (1, 1, 0), (2, 1, 7)])
            check("a row out of range", fault_of(lambda: hhm.row(3)), "OutOfRange")
        at.stop("cells", 2, 12)


def batches_go_ahead(unix):
    """Many on the way: one array used for all, a refusal amid them, and what may be asked when."""
    with Server(["--rows", "1000", "--cols", "1000"]) as at:
        with at.client(7, unix) as hhm:
            used, sums = Arrays(longs(0) * 100, longs(0) * 100, longs(0) * 100), {}

            def batches():
                for number in range(50):
                    for k in range(100):
                        place, count = ((number * 7 + k) % 1000, (k * k) % 1000), number + k
                        used.rows[k], used.cols[k], used.counts[k] = *place, count
                        sums[place] = sums.get(place, 0) + count
                    yield number, used

            check("ahead: the numbers", [number for number, _ in hhm.put_all(batches())], list(range(50)))
            wanted = [(*place, count) for place, count in sorted(sums.items())]
            check("ahead: the sum", list(cells_of(hhm.export())) == wanted, True)
            total = sum(sums.values())
            mixed = [(100, [(0, 0, 1)]), (101, arrays([(1, 1, 1)])), (102, [(1000, 0, 1)]), (103, [(2, 2, 1)])]
            given = []
            check("ahead: refused", fault_of(lambda: given.extend(hhm.put_all(mixed))), "IndexOutOfRange at cell 0")
            check("ahead: before it", given, [(100, (50, total + 1)), (101, (51, total + 2))])
            check("ahead: behind it, again", hhm.put(103, [(2, 2, 1)]), (52, total + 3))
            going = hhm.put_all((number, [(0, 0, 1)]) for number in range(200, 220))
            check("ahead: first", next(going), (200, (53, total + 4)))
            check("ahead: another call", fault_of(hhm.status), "RuntimeError")
            check("ahead: another put_all", fault_of(lambda: next(hhm.put_all([]))), "RuntimeError")
            going.close()
            again = list(hhm.put_all(((number, [(0, 0, 1)]) for number in range(200, 220)), depth=1))
            check("ahead: all again", again, [(200 + k, (53 + k, total + 4 + k)) for k in range(20)])
            bad = hhm.put_all([(300, [(0, 0, 1)]), (301, [(0, 0)])])
            check("ahead: no cells", fault_of(lambda: list(bad)), "ValueError")
            check("ahead: no reply is another's", hhm.cell(2, 2), sums.get((2, 2), 0) + 1)
            check("ahead: the one before it", hhm.put(300, [(0, 0, 1)]), (73, total + 24))
        at.stop("ahead", 74, total + 24)


def replies_are_lost(unix):
    """Each request is asked again where its reply is lost, and each batch counts once."""
    snapshot = os.path.join(server.FOLDER, "lost.snap")
    with contextlib.suppress(FileNotFoundError):
        os.remove(snapshot)
    with Server(["--rows", "3", "--cols", "3", "--snapshot", snapshot]) as at:
        # (a connection that puts begins with a Stats; after the first put a status and a repeat follow it)
        with Proxy(at, unix, [0, 1, 1, 3, 2, 1, 4]) as proxy:
            with Client(client=7, timeout=WAIT, attempts=4, pause=0.001, **proxy.where) as hhm:
                check("lost: a put", hhm.put(1, arrays([(0, 0, 5)])), (0, 5))
                check("lost: a text", hhm.put_text(2, text(3)), (1, 8))
                numbers = hhm.put_all(((n, [(1, 2, n)]) for n in range(3, 23)), depth=5)
                wanted = [(n, (n - 1, 8 + sum(range(3, n + 1)))) for n in range(3, 23)]
                check("lost: many", list(numbers), wanted)
            check("lost: how often", proxy.how_often, 7)
        with Proxy(at, unix, [0, None] * 7 + [1, None]) as proxy:
            for name, ask, wanted in [
                ("a cell", lambda hhm: hhm.cell(0, 0), 8), ("no cell", lambda hhm: hhm.cell(2, 2), None),
                ("a row", lambda hhm: hhm.row(1), (1, 250)), ("status", lambda hhm: hhm.status(), (22, 258)),
                ("export", lambda hhm: list(cells_of(hhm.export())), [(0, 0, 8), (1, 2, 250)]),
                ("save", lambda hhm: hhm.save(), 22), ("fold", lambda hhm: hhm.fold(), 22),
                ("a repeat", lambda hhm: hhm.put(1, [(0, 0, 5)]), (0, 5)),
            ]:
                with Client(client=7, timeout=WAIT, attempts=4, pause=0.001, **proxy.where) as hhm:
                    check(f"lost: {name}", ask(hhm), wanted)
            check("lost: how often each", proxy.how_often, 8)
        with Proxy(at, unix, [1] * 100) as proxy:
            with Client(client=7, timeout=WAIT, attempts=3, pause=0.001, **proxy.where) as hhm:
                check("lost: given up", fault_of(lambda: hhm.put(90, [(2, 2, 1)])), "ConnectionError")
            check("lost: as often as said", proxy.how_often, 3)
        with at.client(7, unix) as hhm:
            check("lost: it counts all the same", (hhm.cell(2, 2), hhm.put(90, [(2, 2, 1)])), (1, (22, 259)))
        at.stop("lost", 23, 259)


# What is no reply to a put: longer than any body, of another length, of another kind, a refusal that isn't whole.
LIES = [
    struct.pack(">IB", (64 << 20) + 1, 0x81),
    struct.pack(">IBQ", 8, 0x81, 0),
    struct.pack(">IBQQQ", 24, 0x81, 0, 0, 0),
    struct.pack(">IBQQ", 16, 0x84, 0, 5),
    struct.pack(">IBQQ", 16, 0x01, 0, 5),
    struct.pack(">IBQ", 8, 0xFF, 0),
]


def lies_are_told(examples):
    """What is no reply is told as such, and isn't asked again."""
    for lie in LIES:
        with Liar(lie, to_puts=True) as liar, Client(unix=liar.path, client=7, timeout=WAIT) as hhm:
            check(f"a lie: {lie.hex()}", fault_of(lambda: hhm.put(1, [(0, 0, 5)])), BadReply.__name__)
            check("a lie, once", liar.count, 1)
        for name, program in examples.items():
            with Liar(lie, to_puts=True) as liar:
                ran = run([program, "--unix", liar.path])
                check(f"a lie to {name}: {lie.hex()}", ran, ("", "what came is no reply to what was asked\n", 4))
                check(f"a lie to {name}, once", liar.count, 1)


def a_log_is_told_of(examples):
    """What a server with a log answers: a put that has no room, one whose sync failed, and how much is durable."""
    for code, told in [(34, "LogFull"), (35, "LogFailed")]:
        refusal = struct.pack(">IBHQ", 10, 0xFF, code, 0)
        with Liar(refusal, to_puts=True) as liar, Client(unix=liar.path, client=7, timeout=WAIT) as hhm:
            check(f"{told}: a put", fault_of(lambda: hhm.put(1, [(0, 0, 5)])), told)
        for name, program in examples.items():
            with Liar(refusal, to_puts=True) as liar:
                check(f"{told}: {name}", run([program, "--unix", liar.path])[1:], (f"refused: {told}\n", 1))
    with Liar(struct.pack(">IBQQ", 16, 0x84, 3, 12)) as liar:
        with Client(unix=liar.path, timeout=WAIT) as hhm:
            check("durable", hhm.stored(), Status(3, 12))
        command = [sys.executable, os.path.join(CLIENTS, "python", "hhm_client.py"), "--unix", liar.path, "stored"]
        check("durable: the command", run(command), ("batches 3 total 12\n", "", 0))


def built(name, *words):
    """The path of a program that a compiler makes of these words; a failure is counted, and gives None."""
    path = os.path.join(server.FOLDER, name)
    ran = subprocess.run([*words, "-o", path], capture_output=True, text=True)
    check(f"{' '.join(words)}: status and what it says", (ran.returncode, ran.stdout + ran.stderr), (0, ""))
    return path if ran.returncode == 0 else None


def build(language, source):
    """Builds a program of this file; None where it can't be."""
    name = f"{language} {os.path.basename(source)}"
    if language == "Rust":
        return built(name, "rustc", "-O", "--edition", "2021", "-D", "warnings", f"{source}.rs")
    client = os.path.join(CLIENTS, "c", "hhm_client.c")
    return built(name, "cc", "-O2", "-Wall", "-Wextra", "-Werror", f"{source}.c", client)


def build_all():
    """The programs by language, and how many languages there is no compiler for."""
    made, missing = ({}, {}, {}), 0
    for language, compiler in [("Rust", "rustc"), ("C", "cc")]:
        if shutil.which(compiler):
            folder, drivers = os.path.join(CLIENTS, language.lower()), os.path.join(HERE, "drivers")
            sources = [os.path.join(folder, "example"), os.path.join(folder, "feed_flows"),
                       os.path.join(drivers, "driver")]
            for programs, source in zip(made, sources):
                programs[language] = build(language, source)
        else:
            print(f"NOT RUN: the client for {language}: {compiler} isn't installed")
            missing += 1
    if shutil.which("c++"):
        source = os.path.join(CLIENTS, "c", "hhm_client.c")
        built("as_cpp.o", "c++", "-x", "c++", "-std=c++17", "-Wall", "-Wextra", "-Werror", "-c", source)
    else:
        print("NOT RUN: the client for C as C++: c++ isn't installed")
        missing += 1
    return ({name: path for name, path in programs.items() if path} for programs in made), missing


def examples_ask_all(unix, examples):
    """Each example's calls, on a new server each, with each reply and with some of them lost."""
    path = os.path.join(server.FOLDER, "example.snap")
    for name, program in examples.items():
        # (a connection that puts begins with a Stats; after the first put a status and a repeat follow it)
        for lost in [[], [1, 0, 2, 1, 3, 2, 4, 0, 3, 4, 2, 3, 4, 3]]:
            with contextlib.suppress(FileNotFoundError):
                os.remove(path)
            with Server([*SMALL, "--snapshot", path]) as at, Proxy(at, unix, lost) as proxy:
                check(f"the example for {name}, {len(lost)} lost", run([program, *proxy.words()]), (EXAMPLE, "", 0))
                check(f"the example for {name}: how often", proxy.how_often, len(lost))
                at.ends(f"the example for {name}", 7, 40)


def examples_go_as_written():
    """The commands of clients/README.md, as they are there: what they print, and that they leave nothing here."""
    with open(os.path.join(CLIENTS, "README.md"), encoding="utf-8") as file:
        walks = re.findall(r"^```\n(out=.*?)^```$", file.read(), re.M | re.S)
    programs, here = (os.path.join(server.FOLDER, name) for name in ("programs", "checkout"))
    for folder in (programs, here):
        os.mkdir(folder)
    os.symlink(server.PROGRAM, os.path.join(programs, "hhm"))
    os.symlink(os.path.join(CLIENTS, "python", "hhm_client.py"), os.path.join(programs, "hhmc"))
    os.symlink(CLIENTS, os.path.join(here, "clients"))
    found = {**os.environ, "PATH": f"{programs}:{os.environ['PATH']}", "TMPDIR": server.FOLDER}
    once = ["listening unix OUT/sock", *EXAMPLE.splitlines(), "stopped batches 7 total 40"]
    flows = ["listening unix OUT/sock", *["sent batches 1"] * 3, "stopping", "stopped batches 1 total 37"]
    check("clients/README.md: walks", len(walks), 2)
    for walk, wanted in zip(walks, [once * 2, flows]):
        # (a server and its clients write side by side)
        ended = subprocess.run(["bash", "-c", f"{walk}\nwait"], cwd=here, env=found, capture_output=True, text=True,
                               timeout=10 * WAIT)
        lines = re.sub(re.escape(server.FOLDER) + r"/tmp\.\w+", "OUT", ended.stdout).splitlines()
        check(f"clients/README.md: walk {len(wanted)}", (sorted(lines), ended.stderr, ended.returncode),
              (sorted(wanted), "", 0))
    check("clients/README.md: nothing is left", os.listdir(here), ["clients"])


def wrong_words_are_told(examples, feeds):
    for name, program in examples.items():
        for words in [[], ["--unix"], ["--other", "x"], ["--unix", "x", "y"]]:
            usage = "usage: example --tcp HOST:PORT | --unix PATH\n"
            check(f"{name} {words}", run([program, *words]), ("", usage, 2))
        output, error, status = run([program, "--tcp", "nowhere"])
        check(f"{name}: no address", (output, len(error.splitlines()), status in (2, 4)), ("", 1, True))
    for name, program in feeds.items():
        output, error, status = run([*program, "--unix", "nobody", "7", os.path.join(server.FOLDER, "no file")])
        check(f"flows, {name}: no file", (output, len(error.splitlines()), status), ("", 1, 4))


def flows_are_fed(unix, feeds):
    """A file of flows by each client, with replies lost, and again."""
    chance, sums = random.Random(5), {}
    path, bad, other = (os.path.join(server.FOLDER, name) for name in ("flows.csv", "bad.csv", "other.csv"))
    with open(path, "w") as file:
        file.write("source,destination,packets\n")
        for _ in range(25_000):
            source, destination, packets = chance.randrange(500), chance.randrange(70), chance.randrange(1000)
            place = (10 << 24) + source, (192 << 24) + (168 << 16) + destination
            sums[place] = sums.get(place, 0) + packets
            file.write(f"10.0.{source >> 8}.{source & 255},192.168.0.{destination},{packets}\n")
    with open(bad, "w") as file:
        file.write("source,destination,packets\n10.0.0.1,10.0.0.2,3\n10.0.0.1,10.0.0,3\n")
    with open(other, "w") as file:
        file.write("source,packets\n10.0.0.1,3\n")
    with Server([*LARGE, "--workers", "8"]) as at:
        for number, (name, program) in enumerate(feeds.items(), 1):
            with Proxy(at, unix, [0, 1, 0, 0, 1]) as proxy:
                for _ in range(2):
                    ran = run([*program, *proxy.words(), str(number), path])
                    check(f"flows, {name}", ran, ("sent batches 3\n", "", 0))
                check(f"flows, {name}: how often", proxy.how_often, 5)
                for file, fault in [(bad, "line 3: no flow\n"),
                                    (other, "line 1: no head `source,destination,packets`\n")]:
                    check(f"flows, {name}: {fault}", run([*program, *proxy.words(), "99", file]), ("", fault, 4))
                with open(os.path.join(server.FOLDER, "reused.csv"), "w") as file:
                    file.write("source,destination,packets\n10.0.0.1,10.0.0.2,3\n")
                output, error, status = run([*program, *proxy.words(), str(number), file.name])
                told = error.removeprefix("batch 0: ")
                check(f"flows, {name}: another file", (output, told, status), ("", "refused: NumberReused\n", 1))
            with at.client(0, unix) as hhm:
                wanted = [(*place, number * count) for place, count in sorted(sums.items())]
                check(f"flows, {name}: the sum", list(cells_of(hhm.export())) == wanted, True)
        at.stop("flows", 3 * len(feeds), len(feeds) * sum(sums.values()))


def line_of(chance, sums, most=300):
    """A line of a log, which is added to the sums."""
    source, destination = chance.randrange(40), chance.randrange(most)
    place = (10 << 24) + source, (192 << 24) + (168 << 16) + destination
    sums[place] = sums.get(place, 0) + 1
    return f"10.0.0.{source} 192.168.{destination >> 8}.{destination & 255}\n"


def count_words(at, client, *more):
    script = os.path.join(CLIENTS, "python", "count_log.py")
    return [sys.executable, script, "--unix", at.path, "--client", str(client), *more]


def read_of(pid, path):
    """How many bytes of a file a process has read that has it open; None where it hasn't."""
    with contextlib.suppress(OSError):
        for number in os.listdir(f"/proc/{pid}/fd"):
            if os.readlink(f"/proc/{pid}/fd/{number}") == os.path.realpath(path):
                with open(f"/proc/{pid}/fdinfo/{number}") as file:
                    return int(file.readline().split()[1])
    return None


def a_log_is_counted():
    """A log that doesn't grow meanwhile: full batches alone, the rest once it has ended, and all of it again."""
    chance, sums, log = random.Random(11), {}, os.path.join(server.FOLDER, "log")
    with open(log, "w") as file:
        for _ in range(24_990):
            file.write(line_of(chance, sums))
        bad = ["no address", "10.0.0.1 192.168.0", "10.0.0.1 192.168.0.1 -1", "10.0.0.01 192.168.0.1", "",
               "10.0.0.1 192.168.0.1 18446744073709551616", "10.0.0.1 192.168.0.1 1 1", "10.0.0.1", "10.0.0.1 x 1"]
        file.writelines(f"{line}\n" for line in bad)
        # The last line has no LF, so it isn't counted before the log has ended.
        file.write("10.0.0.1 192.168.0.1 7")
    last = (10 << 24) + 1, (192 << 24) + (168 << 16) + 1
    sums[last] = sums.get(last, 0) + 7
    with Server(LARGE, tcp=False) as at:
        for _ in range(2):
            wanted = "sent batches 2 total 20000 skipped lines 0 left lines 5000\n"
            check("a log", run(count_words(at, 3, log)), (wanted, "", 0))
        for _ in range(2):
            wanted = "sent batches 3 total 24997 skipped lines 9 left lines 0\n"
            check("a log that has ended", run(count_words(at, 3, "--ended", log)), (wanted, "", 0))
        with at.client() as hhm:
            cells = [(*place, count) for place, count in sorted(sums.items())]
            check("a log: the sum", list(cells_of(hhm.export())) == cells, True)
            hhm.put(77, [(0, 0, 1000)])
        wanted = "sent batches 3 total 24997 skipped lines 9 left lines 0\n"
        check("what was sent, not the server's total", run(count_words(at, 3, "--ended", log)), (wanted, "", 0))
        nothing = "sent batches 0 total 0\n"
        output, error, status = run(count_words(at, 3, os.path.join(server.FOLDER, "no log")))
        check("no log", (output, error.startswith("failed: "), status), (nothing, True, 4))
        at.stop("a log", 4, 25_997)


def a_log_is_followed():
    """A log that grows by pieces of lines, while it is followed; then it is cut, and then it is another."""
    chance, sums, log = random.Random(12), {}, os.path.join(server.FOLDER, "growing")
    lines = "".join(line_of(chance, sums) for _ in range(20_500)).encode()
    at_line = [0, *itertools.accumulate(len(line) for line in lines.splitlines(keepends=True))]
    with Server(LARGE, tcp=False) as at, at.client() as hhm, open(log, "wb", buffering=0) as file:
        words = count_words(at, 3, "--follow", log)
        with started(words) as counting:
            written = 0
            # Up to a place inside line 10,000, its LF left out, and then with its LF; the second batch and some more.
            for place, batches in [(at_line[5000], 0), (at_line[10_000] - 1, 0), (at_line[10_000], 1),
                                   (at_line[19_999] + 3, 1), (len(lines), 2)]:
                file.write(lines[written:place])
                written = place
                check("followed: all is read", until(lambda: read_of(counting.pid, log), place), place)
                if batches == hhm.status().batches:
                    time.sleep(0.5)
                found = until(hhm.status, Status(batches, 10_000 * batches))
                check(f"followed: {batches} batches", found, Status(batches, 10_000 * batches))
            counting.send_signal(signal.SIGTERM)
            output, error = counting.communicate(timeout=WAIT)
        wanted = "sent batches 2 total 20000 skipped lines 0 left lines 500\n"
        check("followed", (output, error, counting.returncode), (wanted, "", 0))
        wanted = "sent batches 3 total 20500 skipped lines 0 left lines 0\n"
        check("followed, and ended", run(count_words(at, 3, "--ended", log)), (wanted, "", 0))
        cells = [(*place, count) for place, count in sorted(sums.items())]
        check("followed: the sum", list(cells_of(hhm.export())) == cells, True)
        for name, begin_anew in [("cut", lambda: os.truncate(log, 0)), ("renamed", lambda: os.rename(log, log + ".1"))]:
            with started(words) as counting:
                check("followed: all is read", until(lambda: read_of(counting.pid, log), len(lines)), len(lines))
                begin_anew()
                output, error = counting.communicate(timeout=WAIT)
            told = error.startswith(f"{log} was begun anew: ")
            check(f"followed, {name}", (told, counting.returncode), (True, 1))
            write(log, lines)
        check("followed: nothing counted twice", hhm.status(), Status(3, 20_500))
        hhm.close()
        at.stop("followed", 3, 20_500)


def write(path, held):
    with open(path, "wb") as file:
        file.write(held)


def another_log_is_refused():
    """Under a client number that was used: as many cells with the same total, and other numbers."""
    log = os.path.join(server.FOLDER, "logs")
    pairs = [f"10.0.{k >> 8}.{k & 255} 10.1.0.0\n" for k in range(10_000)]
    others = [line.replace(" 10.1.0.0", " 10.2.0.0") for line in pairs]
    with Server(LARGE, tcp=False) as at:
        write(log, "".join(pairs).encode())
        wanted = "sent batches 1 total 10000 skipped lines 0 left lines 0\n"
        check("the first log", run(count_words(at, 3, log)), (wanted, "", 0))
        for name, lines in [("other cells", others), ("one other cell", pairs[:-1] + others[-1:])]:
            write(log, "".join(lines).encode())
            fault = "another log was fed under client number 3: its batch 0 had other cells\n"
            told = "sent batches 1 total 10000\n", fault, 1
            check(f"another log: {name}", run(count_words(at, 3, log)), told)
        write(log, "".join(pairs[1:] + pairs[1:2]).encode())
        why = "another log was fed, or this one with --ended before its end"
        for client in [3, 5]:
            fault = f"batch 0: NumberReused: under client number {client} {why}\n"
            if client == 5:
                write(log, b"10.0.0.1 10.0.0.2 7\n")
                short = "sent batches 1 total 7 skipped lines 0 left lines 0\n"
                check("ended too early", run(count_words(at, 5, "--ended", log)), (short, "", 0))
                write(log, b"10.0.0.1 10.0.0.2 7\n" * 10_000)
            refused = "sent batches 0 total 0\n", fault, 1
            check(f"another log: other numbers, {client}", run(count_words(at, client, log)), refused)
        write(log, "".join(others).encode())
        check("another number", run(count_words(at, 4, log)), (wanted, "", 0))
        at.stop("another log", 3, 20_007)


def main():
    server.PROGRAM = os.path.abspath(sys.argv[1])
    resource.setrlimit(resource.RLIMIT_NOFILE, (4096, resource.getrlimit(resource.RLIMIT_NOFILE)[1]))
    with tempfile.TemporaryDirectory() as server.FOLDER:
        (examples, feeds, drivers), missing = build_all()
        commands = {name: [path] for name, path in feeds.items()}
        commands["Python"] = [sys.executable, os.path.join(CLIENTS, "python", "feed_flows.py")]
        frames_are_spelled()
        for unix in [True, False]:
            what_is_no_batch_is_not_sent(unix)
            cells_are_put(unix)
            batches_go_ahead(unix)
            replies_are_lost(unix)
            examples_ask_all(unix, examples)
            flows_are_fed(unix, commands)
        addresses_are_exact()
        one_address_is_meant()
        a_wait_is_told_and_ends()
        if not missing:
            examples_go_as_written()
        lies_are_told(examples)
        a_log_is_told_of(examples)
        wrong_words_are_told(examples, commands)
        a_log_is_counted()
        a_log_is_followed()
        another_log_is_refused()
        python = {"Python": [sys.executable, os.path.join(HERE, "drivers", "driver.py")]}
        commands = {**python, **{name: [path] for name, path in drivers.items()}}
        client_faults.all_are_tried(commands)
        identities.all_are_tried(commands)
    if missing:
        print(f"{missing} not run")
    print(f"{server.passed} passed, {server.failed} failed")
    return 1 if server.failed else 0


if __name__ == "__main__":
    sys.exit(main())
