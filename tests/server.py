#!/usr/bin/env python3
"""Starts the built program as a server, speaks to it over both sockets, and compares all that it answers.

    python3 tests/server.py PATH-TO-HHM [--long]

What is wanted was worked out by hand from docs/FORMATS.md. It prints a line for each check that fails and at the end
`N passed, M failed`; the status is 1 where one fails. With `--long` there are fifty kills during saves, ten thousand
connections in turn and five hundred at once, a million puts in one go, and a minute of statuses beside all else: some
minutes. A file system that is full
is tried where one may be mounted. Linux, and nothing but Python's own library and the client of clients/python.
"""
import os
import random
import resource
import signal
import socket
import struct
import subprocess
import sys
import tempfile
import threading
import time
import types

HERE = os.path.dirname(os.path.abspath(__file__))
sys.path.insert(0, os.path.join(HERE, "..", "clients", "python"))
import hhm_client  # noqa: E402
from faults import bare  # noqa: E402
from hhm_client import BANNER, Client, Refused, Status, cells_of, put_frame  # noqa: E402

PROGRAM = ""
FOLDER = ""
SMALL = ["--rows", "3", "--cols", "3", "--cuts", "2,4", "--shards", "2", "--limit", "100", "--max-batches", "10"]
# Nothing is saved but what a client asks for, so a log that has failed stays so.
BY_HAND = ["--save-log-above", "0"]
WAIT = 120

passed = 0
failed = 0


def check(name, got, wanted):
    """Counts a comparison, and tells of it where it fails. What a fault is of is compared where it is wanted."""
    check_exactly(name, got if got == wanted else bare(got), wanted)


def check_exactly(name, got, wanted):
    """The same, with what a fault is of."""
    global passed, failed
    if got == wanted:
        passed += 1
    else:
        failed += 1
        print(f"FAILED {name}: got {got!r}, wanted {wanted!r}")


def text(count):
    """A text of three rows and columns with one entry, at the first place."""
    return BANNER + b"3 3 1\n1 1 %d\n" % count


def accepted(index, total):
    return struct.pack(">IBQQ", 16, 0x81, index, total)


def refused(code, detail=0):
    return struct.pack(">IBHQ", 10, 0xFF, code, detail)


def run_all(tests):
    """Runs tests of the program that is named first, in a folder of their own, and gives the status."""
    global PROGRAM, FOLDER
    PROGRAM = os.path.abspath(sys.argv[1])
    signal.signal(signal.SIGPIPE, signal.SIG_IGN)
    # In the background of a shell it is ignored, and so it would be by each program that is started.
    signal.signal(signal.SIGINT, signal.default_int_handler)
    with tempfile.TemporaryDirectory() as FOLDER:
        tests()
    print(f"{passed} passed, {failed} failed")
    return 1 if failed else 0


class Server:
    """The program with the word serve, on a Unix socket and on a port of its own choice."""

    def __init__(self, words, tcp=True, unix=True, **how):
        self.path = os.path.join(FOLDER, "socket") if unix else None
        if unix and os.path.exists(self.path):
            os.remove(self.path)
        addresses = (["--tcp", "127.0.0.1:0"] if tcp else []) + (["--unix", self.path] if unix else [])
        self.process = subprocess.Popen(
            [PROGRAM, "serve", *addresses, *words], stdout=subprocess.PIPE, stderr=subprocess.PIPE, text=True, **how
        )
        self.tcp = None
        if tcp:
            self.tcp = self.process.stdout.readline().removeprefix("listening tcp ").strip()
        if unix:
            check("the line of the Unix socket", self.process.stdout.readline(), f"listening unix {self.path}\n")

    def __enter__(self):
        return self

    def __exit__(self, *_):
        if self.process.poll() is None:
            self.process.kill()
        self.process.communicate()

    def client(self, client=0, unix=True, **more):
        where = {"unix": self.path} if unix else {"tcp": self.tcp}
        return Client(client=client, timeout=WAIT, **where, **more)

    def memory(self):
        """The memory that is in use now, in bytes."""
        with open(f"/proc/{self.process.pid}/statm") as file:
            return int(file.read().split()[1]) * resource.getpagesize()

    def link(self, unix=True):
        """A connection without the client."""
        if unix:
            link = socket.socket(socket.AF_UNIX)
            link.settimeout(WAIT)
            link.connect(self.path)
        else:
            host, port = self.tcp.rsplit(":", 1)
            link = socket.create_connection((host, int(port)), WAIT)
        return link

    def talk(self, pieces, unix=True):
        """All that is answered to these pieces, of which each is sent by itself."""
        with self.link(unix) as link:
            for piece in pieces:
                link.sendall(piece)
            link.shutdown(socket.SHUT_WR)
            answer = b""
            while more := link.recv(65536):
                answer += more
        return answer

    def ends(self, name, batches, total):
        """Waits for the end after a Stop, and compares what is written then."""
        output, error = self.process.communicate(timeout=WAIT)
        check(f"{name}: last line", output, f"stopped batches {batches} total {total}\n")
        check(f"{name}: errors", error, "")
        check(f"{name}: status", self.process.returncode, 0)
        if self.path:
            check(f"{name}: the path is gone", os.path.exists(self.path), False)

    def stop(self, name, batches, total):
        with self.client() as hhm:
            hhm.stop()
        self.ends(name, batches, total)


def settings_are_refused():
    """Each bad option is a line on standard error and a status, and nothing is served."""
    unix = os.path.join(FOLDER, "refused")
    folder = os.path.join(FOLDER, "folder.snap")
    other = os.path.join(FOLDER, "text.snap")
    empty = os.path.join(FOLDER, "empty.snap")
    os.makedirs(folder, exist_ok=True)
    with open(other, "w") as file:
        file.write("%%MatrixMarket matrix coordinate integer general\n1 1 0\n")
    with open(empty, "w"):
        pass
    size = ["--rows", "3", "--cols", "3"]
    at = ["--unix", unix]
    taken = socket.socket()
    taken.bind(("127.0.0.1", 0))
    taken.listen(1)
    used = "127.0.0.1:%d" % taken.getsockname()[1]
    table = [
        (size, "settings: NoAddress", 2),
        ([*at, "--rows", "x", "--cols", "3"], "settings: BadNumber", 2),
        ([*at, "--rows", "18446744073709551616", "--cols", "3"], "settings: BadNumber", 2),
        ([*at, "--rows", "0", "--cols", "3"], "settings: BadDimension", 2),
        ([*at, "--rows", "3", "--cols", "1152921504606846977"], "settings: BadDimension", 2),
        ([*at, *size, "--cuts", "1,,2"], "settings: BadNumber", 2),
        ([*at, *size, "--cuts", "4,4"], "settings: BadCuts", 2),
        ([*at, *size, "--cuts", "1,2,3,4,5,6,7,8"], "settings: BadCuts", 2),
        ([*at, *size, "--shards", "0"], "settings: BadShards", 2),
        ([*at, *size, "--shards", "65"], "settings: BadShards", 2),
        ([*at, *size, "--limit", "0"], "settings: BadLimit", 2),
        ([*at, *size, "--max-batches", "0"], "settings: BadBatches", 2),
        ([*at, *size, "--max-batches", "1073741825"], "settings: BadBatches", 2),
        ([*at, *size, "--workers", "0"], "settings: BadWorkers", 2),
        ([*at, *size, "--workers", "33"], "settings: BadWorkers", 2),
        ([*at, *size, "--compactors", "0"], "settings: BadCompactors", 2),
        ([*at, *size, "--compactors", "3"], "settings: BadCompactors", 2),
        ([*at, *size, "--compactors", "18446744073709551615"], "settings: BadCompactors", 2),
        ([*at, *size, "--compactors", "18446744073709551616"], "settings: BadNumber", 2),
        ([*at, *size, "--compactors", "one"], "settings: BadNumber", 2),
        ([*at, *size, "--limit", "0", "--compactors", "0"], "settings: BadLimit", 2),
        ([*at, *size, "--workers", "0", "--compactors", "0"], "settings: BadWorkers", 2),
        ([*size, "--compactors", "0"], "settings: NoAddress", 2),
        ([*at, *size, "--snapshot", other, "--log", other, "--compactors", "0"], "settings: SamePath", 2),
        ([*at, *size, "--snapshot", other, "--compactors", "0"], "settings: BadCompactors", 2),
        ([*at, *size, "--limit", "0", "--workers", "0"], "settings: BadLimit", 2),
        ([*at, *size, "--fold-above", "x", "--limit", "0"], "settings: BadNumber", 2),
        ([*size, "--workers", "0"], "settings: BadWorkers", 2),
        ([*at, *size, "--snapshot", folder], "snapshot: Read", 4),
        ([*at, *size, "--snapshot", other], "snapshot: BadMark", 3),
        ([*at, *size, "--snapshot", empty], "snapshot: Truncated", 3),
        ([*size, "--tcp", used], f"listen failed: {used}", 4),
        ([*size, "--tcp", "nowhere"], "listen failed: nowhere", 4),
        ([*size, "--tcp", "256.0.0.1:0"], "listen failed: 256.0.0.1:0", 4),
        ([*size, "--unix", FOLDER], f"listen failed: {FOLDER}", 4),
        ([*size, "--unix", "/nowhere/at/all"], "listen failed: /nowhere/at/all", 4),
    ]
    for words, line, status in table:
        run = subprocess.run([PROGRAM, "serve", *words], capture_output=True, text=True, timeout=WAIT)
        check(f"serve {' '.join(words)}", (run.stdout, run.stderr, run.returncode), ("", f"hhm: {line}\n", status))
    check("no path is left", os.path.exists(unix), False)
    taken.close()
    words = ["serve", *size, "--tcp", "127.0.0.1:0", "--sessions", "0", "--snapshot", "/nowhere/at/all"]
    run = subprocess.run([PROGRAM, *words], capture_output=True, text=True, timeout=WAIT)
    check("a last save that fails", (run.stderr, run.returncode), ("hhm: file: Create\n", 4))
    for words in [["serve"], ["serve", *at], ["serve", *at, *size, "--unknown"]]:
        run = subprocess.run([PROGRAM, *words], capture_output=True, text=True, timeout=WAIT)
        check(f"{' '.join(words)}: status and output", (run.stdout, run.returncode), ("", 2))


def frames_are_answered(unix, more=()):
    """Frames in one piece, and cut at each byte; bad headers; queries out of range; a stop."""
    puts = put_frame(7, 1, text(5)) + put_frame(8, 1, text(3)) + struct.pack(">IBQQ", 16, 2, 0, 0)
    first = accepted(0, 5) + accepted(1, 8) + struct.pack(">IBBQ", 9, 0x82, 1, 8)
    name = "unix" if unix else "tcp"
    with Server([*SMALL, *more]) as server:
        check(f"{name}: frames at once", server.talk([puts], unix), first)
        for place in range(1, len(puts), 1 if unix else 7):
            check(f"{name}: cut at {place}", server.talk([puts[:place], puts[place:]], unix), first)
        check(f"{name}: byte by byte", server.talk([puts[i : i + 1] for i in range(len(puts))], unix), first)
        check(f"{name}: without the last byte", server.talk([puts[:-1]], unix), first[:42])
        for frame, reply in [
            (bytes.fromhex("04000001 04"), refused(50)),
            (bytes.fromhex("01000001 04"), refused(52)),
            (bytes.fromhex("00000000 0e"), refused(51)),
            (bytes.fromhex("00000001 09 00"), refused(52)),
            (bytes.fromhex("00000000 00"), refused(51)),
            (bytes.fromhex("00000001 04 00"), refused(52)),
            (bytes.fromhex("0000000f 01") + bytes(15), refused(52)),
            (bytes.fromhex("0000000f 08") + bytes(15), refused(52)),
            (bytes.fromhex("00000011 08") + bytes(17), refused(52)),
            (struct.pack(">IBQQQQQ", 40, 8, 9, 2, 3, 0, 5), refused(22, 0)),
            (struct.pack(">IBQQ6Q", 64, 8, 9, 2, 0, 0, 5, 0, 3, 5), refused(22, 1)),
            (struct.pack(">IBQQ6Q", 64, 8, 9, 2, 0, 0, 1 << 63, 0, 0, 1 << 63), refused(21)),
            (struct.pack(">IBQQQQQ", 40, 8, 7, 1, 0, 0, 5), accepted(0, 5)),
            (struct.pack(">IBQQ", 16, 2, 3, 0), refused(41)),
            (struct.pack(">IBQQ", 16, 2, 0, 3), refused(41)),
            (struct.pack(">IBQ", 8, 3, 3), refused(41)),
            (struct.pack(">IB", 0, 6), refused(43)),
            (struct.pack(">IBQQ", 16, 2, 2, 2), struct.pack(">IBBQ", 9, 0x82, 0, 0)),
            (struct.pack(">IBQ", 8, 3, 0), struct.pack(">IBQQ", 16, 0x83, 1, 8)),
            (struct.pack(">IB", 0, 4), struct.pack(">IBQQ", 16, 0x84, 2, 8)),
            (struct.pack(">IB", 0, 9), struct.pack(">IBQQ", 16, 0x84, 2, 8)),
            (struct.pack(">IB", 0, 5), struct.pack(">IB", 61, 0x85) + text(8)),
            (put_frame(7, 1, text(6)), refused(30)),
            (put_frame(9, 1, text(93)), refused(31, 8)),
            (put_frame(9, 1, BANNER + b"4 3 1\n1 1 1\n"), refused(20)),
            (put_frame(9, 1, BANNER + b"3 4 1\n1 1 1\n"), refused(20)),
            (put_frame(9, 1, BANNER + b"2 3 1\n3 1 1\n"), refused(113, 3)),
            (put_frame(7, 1, BANNER + b"1 1 1\n1 1 5\n"), accepted(0, 5)),
            (put_frame(9, 1, BANNER + b"3 3 2\n1 1 18446744073709551615\n1 1 1\n"), refused(21)),
            (put_frame(9, 1, b""), refused(103, 1)),
            (put_frame(9, 1, BANNER + b"3 3 1\n1 1 -1\n"), refused(111, 3)),
            (put_frame(9, 1, BANNER + b"3 3 1048577\n"), refused(109, 2)),
            (put_frame(9, 1, BANNER + b" " * 1025), refused(105, 2)),
            (struct.pack(">IBQQ", 16 + 24 * 1048577, 8, 9, 2) + bytes(24 * 1048577), refused(23)),
        ]:
            check(f"{name}: the frame {frame[:21].hex()}", server.talk([frame], unix), reply)
        # After a bad header nothing more is answered, and of a session nothing after its Stop.
        status = struct.pack(">IB", 0, 4)
        check(f"{name}: after a bad header", server.talk([bytes.fromhex("00000000 0e") + status], unix), refused(51))
        stop = struct.pack(">IB", 0, 7)
        check(f"{name}: Stop and more", server.talk([stop + status], unix), struct.pack(">IB", 0, 0x87))
        server.ends(name, 2, 8)


def client_asks(unix):
    """The client's calls, and its command line."""
    with Server(SMALL) as server:
        with server.client(7, unix) as hhm:
            check("client: put", hhm.put(1, [(0, 0, 5)]), (0, 5))
            check("client: put again", hhm.put(1, [(0, 0, 5)]), (0, 5))
            check("client: no cells", hhm.put(2, []), (1, 5))
            check("client: a stored zero", hhm.put(3, [(0, 1, 0)]), (2, 5))
            check("client: ahead", list(hhm.put_all(((n, [(1, 2, 1)]) for n in range(4, 7)), depth=2)),
                  [(4, (3, 6)), (5, (4, 7)), (6, (5, 8))])
            check("client: cells", [hhm.cell(0, 0), hhm.cell(0, 1), hhm.cell(1, 2), hhm.cell(2, 2)], [5, 0, 3, None])
            check("client: row", hhm.row(0), (2, 5))
            check("client: status", hhm.status(), Status(6, 8))
            check("client: export", list(cells_of(hhm.export())), [(0, 0, 5), (0, 1, 0), (1, 2, 3)])
            for name, call in [("NumberReused", lambda: hhm.put(1, [(0, 0, 6)])), ("OutOfRange", lambda: hhm.row(3)),
                               ("OverTotal", lambda: hhm.put(9, [(0, 0, 93)])), ("SaveOff", hhm.save)]:
                try:
                    call()
                    check(f"client: {name}", "an answer", name)
                except Refused as fault:
                    check(f"client: {name}", fault.name, name)
        where = ["--unix", server.path] if unix else ["--tcp", server.tcp]
        tool = [sys.executable, os.path.join(HERE, "..", "clients", "python", "hhm_client.py"), *where]
        for words, given, output, status in [
            (["put", "9", "9"], text(1), "index 6 total_after 9\n", 0),
            (["put", "9", "9"], text(2), "", 1),
            (["cell", "0", "0"], b"", "6\n", 0),
            (["cell", "2", "2"], b"", "none\n", 0),
            (["row", "1"], b"", "entries 1 total 3\n", 0),
            (["status"], b"", "batches 7 total 9\n", 0),
            (["export"], b"", (BANNER + b"3 3 3\n1 1 6\n1 2 0\n2 3 3\n").decode(), 0),
            (["stop"], b"", "stopping\n", 0),
        ]:
            run = subprocess.run([*tool, *words], input=given, capture_output=True, timeout=WAIT)
            check(f"client {' '.join(words)}", (run.stdout.decode(), run.returncode), (output, status))
        server.ends("client", 7, 9)


def bad_addresses_are_told():
    """A word that isn't HOST:PORT, in the command lines and in the module."""
    folder = os.path.join(HERE, "..", "clients", "python")
    for word in ["nowhere", ":7000", "localhost:", "localhost:x", "localhost:0", "localhost:65536", "localhost:-1",
                 "::1", "::1:7000", "[]:7000", "[::1]", "localhost:\u0661", "localhost: 1", ""]:
        for tool in [["hhm_client.py", "--tcp", word, "status"], ["count_log.py", "--tcp", word, "--client", "1", "x"]]:
            run = subprocess.run([sys.executable, *tool], cwd=folder, capture_output=True, text=True, timeout=WAIT)
            told = run.stderr.endswith(f"error: argument --tcp: {word!r} isn't HOST:PORT\n")
            check(f"{tool[0]} {word!r}", (run.stdout, told, run.returncode), ("", True, 2))
        try:
            Client(tcp=word)
            check(f"the module: {word!r}", "taken", "refused")
        except ValueError as fault:
            check(f"the module: {word!r}", str(fault), f"{word!r} isn't HOST:PORT")
    for word, wanted in [("127.0.0.1:7000", ("127.0.0.1", 7000)), ("[::1]:65535", ("::1", 65535)), ("a:1", ("a", 1))]:
        check(f"the address {word}", hhm_client.host_and_port(word), wanted)


def attempts_last_a_minute():
    """By a clock that is told of each pause: a client tries for a minute, and finds a server that starts late."""
    pauses = []
    clock, hhm_client.time = hhm_client.time, types.SimpleNamespace(sleep=pauses.append)
    try:
        try:
            Client(unix=os.path.join(FOLDER, "nobody")).status()
            check("no server", "an answer", "a fault")
        except OSError:
            check("no server: a minute", 60 <= sum(pauses) <= 70, True)
        begun = []

        def sleep(seconds):
            pauses.append(seconds)
            if sum(pauses) > 40 and not begun:
                begun.append(Server(SMALL))

        pauses.clear()
        hhm_client.time = types.SimpleNamespace(sleep=sleep)
        with Client(unix=os.path.join(FOLDER, "socket"), client=7, timeout=WAIT) as hhm:
            check("a server that starts late", hhm.put(1, [(0, 0, 5)]), (0, 5))
        check("it did", len(begun), 1)
        with begun[0] as server:
            server.stop("a server that starts late", 1, 5)
    finally:
        hhm_client.time = clock


def lost_replies_count_once():
    """A batch whose reply nobody read is sent again, over another socket too, and counts once."""
    with Server(SMALL) as server:
        for unix in [True, False]:
            with server.link(unix) as link:
                link.sendall(put_frame(7, 1, text(5)))
            with server.client(7, not unix) as hhm:
                check("a lost reply", hhm.put_text(1, text(5)), (0, 5))
        server.stop("lost replies", 1, 5)


def a_pair_is_for_one_batch():
    """Another batch under a known pair is refused, or taken for the first one and not counted."""
    with Server(SMALL) as server:
        with server.client(7) as hhm:
            check("a pair: the first", hhm.put(1, [(0, 0, 3), (0, 1, 2)]), (0, 5))
            check("a pair: other cells, as many, with the same total", hhm.put(1, [(2, 1, 1), (2, 2, 4)]), (0, 5))
            counted = hhm.cell(2, 1), hhm.cell(2, 2), hhm.status()
            check("a pair: they aren't counted", counted, (None, None, Status(1, 5)))
            for name, cells in [("another total", [(0, 0, 3), (0, 1, 3)]), ("another number", [(0, 0, 5)])]:
                try:
                    check(f"a pair: {name}", hhm.put(1, cells), "NumberReused")
                except Refused as fault:
                    check(f"a pair: {name}", fault.name, "NumberReused")
            check("a pair: another number of its own", hhm.put(2, [(2, 1, 1), (2, 2, 4)]), (1, 10))
        with server.client(8) as hhm:
            check("a pair: another client", hhm.put(1, [(0, 0, 3), (0, 1, 2)]), (2, 15))
        server.stop("a pair", 3, 15)


def snapshots_outlive_a_kill():
    """What was saved is there after a kill, at any moment of a save; what came later is sent again."""
    path = os.path.join(FOLDER, "kept.snap")
    words = [*SMALL, "--snapshot", path]
    with Server(words) as server:
        with server.client(7) as hhm:
            hhm.put(1, [(0, 0, 5)])
            check("saved", hhm.save(), 1)
            hhm.put(2, [(1, 1, 2)])
        server.process.send_signal(signal.SIGKILL)
        server.process.wait(WAIT)
    run = subprocess.run([PROGRAM, "check", path], capture_output=True, text=True, timeout=WAIT)
    check("check", run.stdout, "rows 3 cols 3 shards 2 batches 1 total 5 entries 1\n")
    with Server(words) as server:
        with server.client(7) as hhm:
            check("after a kill", hhm.status(), Status(1, 5))
            check("the saved batch again", hhm.put(1, [(0, 0, 5)]), (0, 5))
            check("the lost batch again", hhm.put(2, [(1, 1, 2)]), (1, 7))
        server.stop("after a kill", 2, 7)
    with Server(words) as server:
        with server.client(7) as hhm:
            check("after a stop", hhm.status(), Status(2, 7))
        server.stop("after a stop", 2, 7)
    run = subprocess.run([PROGRAM, "serve", "--unix", os.path.join(FOLDER, "x"), *SMALL[:-1], "1", "--snapshot", path],
                         capture_output=True, text=True, timeout=WAIT)
    told = "hhm: settings: SnapshotDiffers (max-batches: the file has 2, 1 was given)\n"
    check("another setup", (run.stderr, run.returncode), (told, 2))


def program(*words):
    """What the program writes and says of these words, and its status."""
    run = subprocess.run([PROGRAM, *words], capture_output=True, text=True, timeout=WAIT)
    return run.stdout, run.stderr, run.returncode


# What is asked of a server whose history is folded, and of the same before: cells, rows, an export, a status, and each
# of two batches again; then a number for another batch, and a total that passes the limit.
QUESTIONS = [
    struct.pack(">IBQQ", 16, 2, 0, 0), struct.pack(">IBQQ", 16, 2, 1, 2), struct.pack(">IBQQ", 16, 2, 2, 2),
    struct.pack(">IBQ", 8, 3, 0), struct.pack(">IBQ", 8, 3, 2), struct.pack(">IB", 0, 4), struct.pack(">IB", 0, 5),
    put_frame(7, 1, text(5)), put_frame(8, 1, BANNER + b"3 3 3\n1 1 3\n2 3 0\n3 1 4\n"),
    put_frame(7, 1, text(6)), put_frame(9, 9, text(89)),
]  # fmt: skip


def answers_stay_when_folded():
    """A server that starts from a folded snapshot answers as the one that saved it, byte for byte, and goes on."""
    path = os.path.join(FOLDER, "folded.snap")
    words = [*SMALL, "--snapshot", path]
    with Server(words) as server:
        server.talk([put_frame(7, 1, text(5)), QUESTIONS[8]])
        before = server.talk([b"".join(QUESTIONS)])
        server.stop("before the folding", 2, 12)
    repeats = accepted(0, 5) + accepted(1, 12) + refused(30) + refused(31, 12)
    check("answers of batches that are kept whole", before.endswith(repeats), True)
    sum_text = (BANNER + b"3 3 3\n1 1 8\n2 3 0\n3 1 4\n").decode()
    check("export of a snapshot", program("export", path), (sum_text, "", 0))
    unfolded = program("check", path)
    for time in ["once", "again"]:
        check(f"fold {time}", program("fold", path), ("folded 2 total 12\n", "", 0))
        check(f"check when folded {time}", program("check", path), unfolded)
    # The head has 103 bytes, each entry 32, each cell of the base 24, each checksum 4.
    check("bytes of a folded snapshot", os.path.getsize(path), 103 + 4 + 8 + 2 * 32 + 8 + 3 * 24 + 4)
    with Server(words) as server:
        check("answers of folded batches", server.talk([b"".join(QUESTIONS)]), before)
        with server.client(9) as hhm:
            check("a batch behind folded ones", hhm.put(1, [(0, 0, 2), (2, 2, 1)]), (2, 15))
            check("saved with folded ones", hhm.save(), 3)
            check("status with folded ones", hhm.status(), Status(3, 15))
        check("answers of folded batches again", server.talk(QUESTIONS[7:9]), accepted(0, 5) + accepted(1, 12))
        server.stop("behind folded batches", 3, 15)
    check("check behind folded ones", program("check", path),
          ("rows 3 cols 3 shards 2 batches 3 total 15 entries 4\n", "", 0))
    check("fold all", program("fold", path), ("folded 3 total 15\n", "", 0))
    with Server(words) as server:
        check("all are known again", server.talk([QUESTIONS[7], QUESTIONS[8]]), accepted(0, 5) + accepted(1, 12))
        with server.client(9) as hhm:
            check("the last one too", hhm.put(1, [(0, 0, 2), (2, 2, 1)]), (2, 15))
        server.stop("all folded", 3, 15)


def saves_are_whole(kills):
    """A kill during saves leaves a file that is whole: the one before, or a later one."""
    path = os.path.join(FOLDER, "torn.snap")
    size = ["--rows", "1000000", "--cols", "1000000", "--snapshot", path]
    saved = 0
    for turn in range(kills):
        with Server(size, tcp=False) as server:
            with Client(unix=server.path, client=turn, timeout=WAIT) as hhm:
                before = hhm.status().batches
                check("nothing is lost", before >= saved, True)
                hhm.put(0, [(n, n, 1) for n in range(5000)])
                saved = hhm.save()
                check("a save has all", saved, before + 1)
                hhm.put(1, [(n, n + 1, 1) for n in range(5000)])
            with server.link() as link:
                link.sendall(struct.pack(">IB", 0, 6))
                time.sleep(random.random() * 0.01)
                server.process.send_signal(signal.SIGKILL)
            server.process.wait(WAIT)
        run = subprocess.run([PROGRAM, "check", path], capture_output=True, text=True, timeout=WAIT)
        words = run.stdout.split()
        check("the file is whole", run.returncode, 0)
        check("it is one of the two", int(words[7]) in (saved, saved + 1), True)
        saved = int(words[7])


def saves_need_room(mounted, is_freed):
    """A save for which there is no room is refused, leaves the file as it was, and the server goes on. With room again
    it saves."""
    folder = os.path.join(FOLDER, f"room {mounted} {is_freed}")
    path = os.path.join(folder, "kept.snap")
    os.makedirs(folder)
    mount = ["mount", "-t", "tmpfs", "-o", "size=64k", "tmpfs", folder]
    if mounted and subprocess.run(mount, capture_output=True).returncode != 0:
        return  # only root may, and not everywhere
    try:
        # The signal of a file that is too large stays ignored, as Python has it.
        with Server(["--rows", "1000000", "--cols", "1000000", "--snapshot", path], restore_signals=False) as server:
            with Client(unix=server.path, client=7, timeout=WAIT) as hhm:
                hhm.put(1, [(0, 0, 5)])
                check("a save with room", hhm.save(), 1)
                kept = content(path)
                if not mounted:
                    limit_files(server.process, 1000)
                hhm.put(2, [(n, n, 1) for n in range(5000)])
                for _ in range(3):
                    check("a save without room", server.talk([struct.pack(">IB", 0, 6)]), refused(42))
                check("the file is as it was", content(path), kept)
                check("nothing takes the room", sorted(os.listdir(folder)), ["kept.snap", "kept.snap.lock"])
                check("the server goes on", hhm.status(), Status(2, 5005))
                if is_freed:
                    make_room(folder, server.process, mounted)
                    check("a save with room again", hhm.save(), 2)
                hhm.stop()
            output, error = server.process.communicate(timeout=WAIT)
        ended = (output, error, server.process.returncode)
        if is_freed:
            check("an end with room", ended, ("stopped batches 2 total 5005\n", "", 0))
        else:
            check("an end without room", ended, ("", "hhm: file: Write\n", 4))
            check("the file is as it was", content(path), kept)
        run = subprocess.run([PROGRAM, "check", path], capture_output=True, text=True, timeout=WAIT)
        sums = "batches 2 total 5005 entries 5000" if is_freed else "batches 1 total 5 entries 1"
        check("what the file has", run.stdout, f"rows 1000000 cols 1000000 shards 8 {sums}\n")
    finally:
        if mounted:
            subprocess.run(["umount", folder], capture_output=True)


def limit_files(process, most):
    """No file that the process writes may have more bytes."""
    hard = resource.prlimit(process.pid, resource.RLIMIT_FSIZE)[1]
    resource.prlimit(process.pid, resource.RLIMIT_FSIZE, (most, hard))


def make_room(folder, process, mounted):
    """Makes room for a snapshot for which there was none."""
    if mounted:
        subprocess.run(["mount", "-o", "remount,size=8m", folder], check=True)
    else:
        limit_files(process, resource.RLIM_INFINITY)


def content(path):
    with open(path, "rb") as file:
        return file.read()


def many_put_at_once(*words):
    """Clients at once, each batch twice: each counts once."""
    with Server(["--rows", "100", "--cols", "100", "--cuts", "16,64", "--workers", "4", *words]) as server:
        faults = []

        def put(client):
            try:
                where = {"unix": server.path} if client % 2 else {"tcp": server.tcp}
                with Client(client=client, timeout=WAIT, **where) as hhm:
                    batches = [(n, [((n * 7 + k) % 100, client, n + k) for k in range(20)]) for n in range(50)]
                    first = dict(hhm.put_all(batches, depth=8))
                    again = dict(hhm.put_all(batches, depth=8))
                    check(f"client {client}: the same replies", first, again)
            except Exception as fault:  # a thread's fault would be lost
                faults.append(fault)

        threads = [threading.Thread(target=put, args=(client,)) for client in range(12)]
        for thread in threads:
            thread.start()
        for thread in threads:
            thread.join()
        check("no thread failed", faults, [])
        sums = {}
        for client in range(12):
            for n in range(50):
                for k in range(20):
                    place = ((n * 7 + k) % 100, client)
                    sums[place] = sums.get(place, 0) + n + k
        with server.client(unix=False) as hhm:
            check("the sum of all", list(cells_of(hhm.export())), [(r, c, n) for (r, c), n in sorted(sums.items())])
        server.stop("many at once", 600, sum(sums.values()))


def status_waits_for_nobody(seconds):
    """A status on connections of its own, while puts, exports and saves run: it never goes back, and counts every put that
    was answered before it was asked, on whatever connection."""
    snapshot = os.path.join(FOLDER, "watched")
    words = ["--rows", "1000", "--cols", "1000", "--cuts", "64,4096", "--workers", "6", "--snapshot", snapshot]
    with Server(words) as server:
        answered = [0, 0]  # how many batches are known to be accepted, and their total
        turn = threading.Lock()
        faults = []
        longest = [0.0, 0.0]
        asked = [0, 0]
        ends = time.monotonic() + seconds

        def until_the_end(call):
            try:
                while time.monotonic() < ends:
                    call()
            except Exception as fault:  # a thread's fault would be lost
                faults.append(fault)

        def putter(client, hhm):
            numbers = iter(range(1 << 40))

            def put():
                n = next(numbers)
                kept = hhm.put(n, [((n * 31 + k * 17) % 1000, (k * 7 + client) % 1000, k) for k in range(100)])
                with turn:
                    if kept.index + 1 > answered[0]:
                        answered[:] = kept.index + 1, kept.total_after

            return put

        def watcher(place, hhm):
            before = [Status(0, 0)]

            def watch():
                with turn:
                    least = Status(*answered)
                start = time.monotonic()
                now = hhm.status()
                longest[place] = max(longest[place], time.monotonic() - start)
                asked[place] += 1
                if now < least or now.total < least.total:
                    faults.append(f"{now} after {least} was answered")
                if now < before[0] or now.total < before[0].total:
                    faults.append(f"{now} after {before[0]}")
                before[0] = now

            return watch

        places = [{"tcp": server.tcp}, {"unix": server.path}]
        clients = [Client(client=n, timeout=WAIT, **places[n % 2]) for n in range(6)]
        calls = [putter(0, clients[0]), putter(1, clients[1]), clients[2].export, clients[3].save]
        calls += [watcher(0, clients[4]), watcher(1, clients[5])]
        threads = [threading.Thread(target=until_the_end, args=(call,)) for call in calls]
        for thread in threads:
            thread.start()
        for thread in threads:
            thread.join()
        check("statuses beside puts, exports and saves", faults, [])
        check("statuses were asked on both", min(asked) > 10, True)
        check("no status was blocked", max(longest) < 5, True)
        print(f"the longest of {sum(asked)} statuses took {max(longest) * 1000:.1f} ms")
        last = clients[4].status()
        check("all puts are counted at last", (last.batches, last.total), tuple(answered))
        for hhm in clients:
            hhm.close()
        server.stop("watched", *last)


def bad_clients_do_no_harm(turns):
    """Garbage, half frames, resets and clients that leave."""
    with Server(SMALL) as server:
        with server.client(7) as hhm:
            hhm.put(1, [(0, 0, 5)])
        chance = random.Random(3)
        for turn in range(turns):
            with server.link(turn % 2 == 0) as link:
                link.sendall(chance.randbytes(chance.randrange(1, 300)))
                if turn % 3 == 0:
                    link.setsockopt(socket.SOL_SOCKET, socket.SO_LINGER, struct.pack("ii", 1, 0))
        with server.client(7) as hhm:
            check("after garbage", hhm.cell(0, 0), 5)
            batches = hhm.status().batches
        check("nothing was accepted of it", batches, 1)
        server.stop("garbage", 1, 5)


def connections_come_and_go(turns, at_once):
    """Many connections in turn, and many at once. Afterwards as much memory is in use as after the first few."""
    with Server([*SMALL, "--workers", "2"]) as server:
        answers = []

        def in_turn(turns):
            for turn in range(turns):
                with server.client(7, turn % 2 == 0) as hhm:
                    if hhm.put(1, [(0, 0, 5)]) != (0, 5):
                        check("in turn", "another reply", (0, 5))

        def ask(start):
            start.wait(WAIT)
            # More than the system's queue holds may be reset by it: the client tries again.
            with server.client(unix=False) as hhm:
                answers.append(hhm.status())

        def at_the_same_time(count):
            start = threading.Barrier(count)
            threads = [threading.Thread(target=ask, args=(start,)) for _ in range(count)]
            for thread in threads:
                thread.start()
            for thread in threads:
                thread.join()
            check("at once", answers.count(Status(1, 5)), count)
            answers.clear()

        in_turn(10)
        at_the_same_time(100)
        before = server.memory()
        in_turn(turns)
        at_the_same_time(at_once)
        # A session has a buffer of 64 KiB: a server that kept those of ended sessions would pass this.
        check("memory as before", server.memory() - before < 2_000_000, True)
        server.stop("come and go", 1, 5)


def many_frames_in_one_go(count):
    """Puts that are all sent before a reply is read, and each replied to; all sent again, each gets its first reply.

    Of more than 73,728 the book and the record of their shard keep their batches in several maps.
    """
    with Server(["--rows", "3", "--cols", "3"]) as server:
        with server.link() as link:
            frames = b"".join(put_frame(7, n, text(1)) for n in range(count))
            wanted = b"".join(accepted(n, n + 1) for n in range(count))
            for turn in ["all frames in one go", "all frames once more"]:
                sender = threading.Thread(target=link.sendall, args=(frames,))
                sender.start()
                got = bytearray()
                while len(got) < len(wanted) and (more := link.recv(1 << 20)):
                    got += more
                sender.join()
                check(turn, bytes(got) == wanted, True)
        for number in [0, 73_727, 73_728, count - 1]:
            check(f"another batch {number}", server.talk([put_frame(7, number, text(2))]), refused(30))
        server.stop("all frames in one go", count, count)


def stops_in_order():
    """After a Stop the sessions that are open go on to their ends, and then the server ends."""
    with Server([*SMALL, "--workers", "2"]) as server:
        open_one = server.client(8, False)
        open_one.put(1, [(0, 0, 3)])
        with server.client(7) as hhm:
            hhm.stop()
        check("an open session goes on", open_one.put(2, [(1, 1, 1)]), (1, 4))
        check("the server waits for it", server.process.poll(), None)
        open_one.close()
        server.ends("an open session", 2, 4)
    with Server([*SMALL, "--sessions", "1"]) as server:
        with server.client(7) as hhm:
            check("the only session", hhm.put(1, [(0, 0, 3)]), (0, 3))
        server.ends("one session", 1, 3)
    for turn in range(5):
        with Server(SMALL) as server:
            stops = [server.link(n % 2 == 0) for n in range(4)]
            for link in stops:
                link.sendall(struct.pack(">IB", 0, 7))
            for link in stops:
                link.close()
            server.ends(f"four Stops {turn}", 0, 0)


def main():
    global PROGRAM, FOLDER
    PROGRAM = os.path.abspath(sys.argv[1])
    is_long = "--long" in sys.argv[2:]
    resource.setrlimit(resource.RLIMIT_NOFILE, (4096, resource.getrlimit(resource.RLIMIT_NOFILE)[1]))
    random.seed(5)
    with tempfile.TemporaryDirectory() as FOLDER:
        settings_are_refused()
        for unix in [True, False]:
            frames_are_answered(unix)
            client_asks(unix)
        bad_addresses_are_told()
        attempts_last_a_minute()
        lost_replies_count_once()
        a_pair_is_for_one_batch()
        snapshots_outlive_a_kill()
        answers_stay_when_folded()
        saves_are_whole(50 if is_long else 5)
        for mounted in [False, True]:
            for is_freed in [False, True]:
                saves_need_room(mounted, is_freed)
        many_put_at_once()
        many_put_at_once("--compactors", "1")
        many_put_at_once("--compactors", "002")
        status_waits_for_nobody(60 if is_long else 4)
        bad_clients_do_no_harm(5000 if is_long else 200)
        connections_come_and_go(*((10_000, 500) if is_long else (300, 200)))
        many_frames_in_one_go(1_000_000 if is_long else 100_000)
        stops_in_order()
    print(f"{passed} passed, {failed} failed")
    return 1 if failed else 0


if __name__ == "__main__":
    sys.exit(main())
