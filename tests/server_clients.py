#!/usr/bin/env python3
"""Starts the built program as a server for clients that are silent, rude, many or killed, and compares what comes back.

    python3 tests/server_clients.py PATH-TO-HHM [--long]

What is wanted was worked out by hand from docs/FORMATS.md. It prints a line for each check that fails and at the end
`N passed, M failed`; the status is 1 where one fails. With `--long` a server is killed a hundred times in place of
five. Linux, and nothing but Python's own library.
"""
import os
import random
import re
import resource
import signal
import struct
import subprocess
import sys
import threading
import time

import program
import server
from server import SMALL, WAIT, Server, accepted, check, put_frame, refused, text
from server_faults import END_WAIT, SAVE, STATUS, STOP, STOPPING, asked, counts, ends_soon, in_folder, is_silent
from server_faults import in_snap, received
from snap_bytes import OWNED

BAD_KIND = struct.pack(">IB", 0, 14)
EXPORT = struct.pack(">IB", 0, 5)
LARGE = 1 << 60
CELLS = 20_000


def put_cells(link, client, cells):
    """Whether a batch of these cells (row, column, count) was accepted."""
    lines = b"".join(b"%d %d %d\n" % cell for cell in cells)
    text = server.BANNER + b"%d %d %d\n" % (LARGE, LARGE, len(cells)) + lines
    return asked(link, put_frame(client, 1, text), 21)[4:5] == b"\x81"


def far_apart(i):
    """A cell of a row of its own: a line of some 50 bytes, so that a text of 1,500,000 passes 64 MiB."""
    return 10**18 + i * 10**11, LARGE - i % 7, 10**9 + i


def side_by_side(i):
    """A cell of a row of its own: a line of at most 12 bytes, so that a text of 1,500,000 fits a reply."""
    return 1 + i, 1 + i % 7, 1


def in_rows_of_seven(i):
    """A cell of a row that has seven: a line of at most 11 bytes, so that a text of 1,500,000 fits a reply."""
    return 1 + i // 7, 1 + i % 7, 1


def in_a_small_space():
    """An address space of 1.5 GiB: 32 workers share one arena of the C library there, which reserves 64 MiB for each."""
    most = 3 << 29
    return {
        "preexec_fn": lambda: resource.setrlimit(resource.RLIMIT_AS, (most, most)),
        "env": {**os.environ, "MALLOC_ARENA_MAX": "1"},
    }


def exports_keep_no_memory(place, kind, **how):
    """Each of 32 workers answers an export of 1,500,000 cells: the server has no more than 1.2 times its memory then."""
    words = ["--rows", str(LARGE), "--cols", str(LARGE), "--max-batches", "1000", "--workers", "32"]
    with Server(words, tcp=False, **how) as at:
        links = [at.link() for _ in range(32)]
        name = f"exports of {place.__name__} answered {kind:x}{' in a small space' if how else ''}"
        cells = [[place(n * CELLS + i) for i in range(CELLS)] for n in range(75)]
        taken = [put_cells(links[n % 32], n + 1, batch) for n, batch in enumerate(cells)]
        check(f"{name}: puts", all(taken), True)
        before = at.memory()
        kinds = set()
        for link in links:
            head = asked(link, EXPORT, 5)
            kinds.add(head[4])
            received(link, struct.unpack(">I", head[:4])[0])
        check(f"{name}: all answers", kinds, {kind})
        check(f"{name}: memory", at.memory() <= before * 1.2, True)
        others = [[(LARGE - 1 - i, n + 1, 1) for i in range(1000)] for n in range(len(links))]
        behind = [put_cells(link, 1000 + n, others[n]) for n, link in enumerate(links)]
        check(f"{name}: puts behind", all(behind), True)
        for link in links:
            link.close()


def replies_outlive_a_bad_header(unix):
    """A bad header with bytes behind it: the replies before it and the refusal come, each time, and the end."""
    rest = bytes(200_000)
    asks = put_frame(7, 1, text(5)) + STATUS + BAD_KIND + rest
    wanted = accepted(0, 5) + counts(1, 5) + refused(51)
    with Server(SMALL, tcp=not unix, unix=unix) as at:
        lost = 0
        for _ in range(100):
            with at.link(unix) as link:
                try:
                    link.sendall(asks)
                    time.sleep(0.005)
                    lost += received(link, len(wanted) + 1) != wanted
                except ConnectionError:
                    lost += 1
        check(f"replies before a bad header, unix {unix}", lost, 0)
        # A put that is too long, sent whole before the reply is read.
        with at.link(unix) as link:
            try:
                length = (64 << 20) + 1
                link.sendall(struct.pack(">IB", length, 1) + bytes(length))
                answer = received(link, 16)
            except ConnectionError:
                answer = None
        check(f"a put that is too long, unix {unix}", answer, refused(50))
        with at.link(unix) as link:
            link.sendall(STOP + rest)
            check(f"a Stop with bytes behind it, unix {unix}", received(link, 6), STOPPING)
        at.ends("bytes that nobody wants", 1, 5)


def a_rude_client_holds_no_worker(unix):
    """After a bad header the one worker is free within some seconds, whether the client sends on or is silent."""
    with Server([*SMALL, "--workers", "1"], tcp=not unix, unix=unix) as at:
        for sends in [True, False]:
            with at.link(unix) as rude, at.link(unix) as other:
                rude.sendall(BAD_KIND)
                check("the refusal", received(rude, 15), refused(51))
                other.sendall(STATUS)
                other.settimeout(0.01)
                begun, answer = time.monotonic(), b""
                while not answer and time.monotonic() - begun < WAIT:
                    try:
                        answer = other.recv(21)
                    except TimeoutError:
                        pass
                    if sends:
                        try:
                            rude.send(bytes(100))
                        except OSError:
                            sends = False
                check("the other is served", answer, counts(0, 0))
                check("within some seconds", time.monotonic() - begun < END_WAIT, True)
        with at.link(unix) as link:
            check("stop", asked(link, STOP, 5), STOPPING)
        at.ends("a rude client", 0, 0)


def silent_clients_are_let_go(unix):
    """With an idle limit, as many silent clients as there are workers keep nobody out, and what they put stands."""
    path = in_folder("idle.snap")
    with Server([*SMALL, "--workers", "4", "--idle", "1", "--snapshot", path], tcp=not unix, unix=unix) as at:
        begun = time.monotonic()
        silent = [at.link(unix) for _ in range(4)]
        check("put", asked(silent[0], put_frame(7, 1, text(5)), 21), accepted(0, 5))
        silent[1].sendall(put_frame(8, 1, text(3))[:-1])
        with at.link(unix) as link:
            check("saved", asked(link, SAVE, 13), struct.pack(">IBQ", 8, 0x86, 1))
            took = time.monotonic() - begun
            check("after the limit", 0.9 < took < END_WAIT, True)
            for _ in range(3):
                time.sleep(0.5)
                check("who sends goes on", asked(link, STATUS, 21), counts(1, 5))
            check("stop", asked(link, STOP, 5), STOPPING)
        check("the end of silent ones", [received(link, 1) for link in silent], [b""] * 4)
        for link in silent:
            link.close()
        ends_soon(at, "silent clients", path)
    os.remove(path)


def silent_clients_wait_together(unix):
    """The idle limit counts while a connection waits for a worker: many silent ones hold up the next for one limit."""
    for words in [[], ["--drain", "60"]]:
        with Server([*SMALL, "--workers", "1", "--idle", "1", *words], tcp=not unix, unix=unix) as at:
            begun = time.monotonic()
            silent = [at.link(unix) for _ in range(40)]
            with at.link(unix) as link:
                check("behind silent ones", asked(link, STATUS, 21), counts(0, 0))
                took = time.monotonic() - begun
                check(f"behind silent ones: after one limit, {took:.1f} s", 0.9 < took < 3, True)
                time.sleep(0.5)
                check("who sends goes on", asked(link, STATUS, 21), counts(0, 0))
                check("stop", asked(link, STOP, 5), STOPPING)
            for other in silent:
                other.close()
            at.ends("silent ones that wait", 0, 0)


def a_client_that_reads_nothing_is_let_go(unix):
    """With an idle limit, a client that takes no replies doesn't keep the one worker."""
    with Server([*SMALL, "--workers", "1", "--idle", "1"], tcp=not unix, unix=unix) as at:
        with at.link(unix) as deaf:
            check("put", asked(deaf, put_frame(7, 1, text(5)), 21), accepted(0, 5))
            deaf.setblocking(False)
            exports = struct.pack(">IB", 0, 5) * 10_000
            sent, idle_since = 0, time.monotonic()
            # Until nothing more is taken for a while: both sides of the connection are full.
            while sent < 1 << 26 and time.monotonic() - idle_since < 0.5:
                try:
                    sent += deaf.send(exports)
                    idle_since = time.monotonic()
                except BlockingIOError:
                    time.sleep(0.01)
                except ConnectionError:
                    break
            with at.link(unix) as other:
                begun = time.monotonic()
                check("the other is served", asked(other, STATUS, 21), counts(1, 5))
                check("within some seconds", time.monotonic() - begun < END_WAIT, True)
                check("stop", asked(other, STOP, 5), STOPPING)
        at.ends("a client that reads nothing", 1, 5)


def keepalive_timer(port):
    """The timer of the connection that a server at this port has, and its hundredths of a second."""
    with open("/proc/net/tcp") as file:
        lines = [line.split() for line in file.read().splitlines()[1:]]
    for words in lines:
        if words[3] == "01" and int(words[1].split(":")[1], 16) == port:
            kind, _, left = words[5].partition(":")
            return int(kind, 16), int(left, 16)
    return None


def silent_machines_are_asked():
    """The system of the server asks a TCP client that is silent for a minute whether it is still there."""
    with Server(SMALL) as at:
        with at.link(False) as link:
            check("status", asked(link, STATUS, 21), counts(0, 0))
            time.sleep(0.5)
            kind, left = keepalive_timer(int(at.tcp.rpartition(":")[2]))
            check("the timer of keepalive", (kind, 5000 < left <= 6000), (2, True))
            check("stop", asked(link, STOP, 5), STOPPING)
        at.ends("keepalive", 0, 0)


def without_a_limit_silence_is_kept():
    """Without an idle limit, and with 0, who is silent for a while is served afterwards, inside a frame too."""
    for words in [[], ["--idle", "0"], ["--idle", "18446744073709551615"]]:
        with Server([*SMALL, *words]) as at:
            with at.link(True) as first, at.link(False) as second:
                for link in [first, second]:
                    link.sendall(STATUS[:3])
                time.sleep(1.5)
                for link in [first, second]:
                    check(f"after some silence, {words}", asked(link, STATUS[3:], 21), counts(0, 0))
                check("stop", asked(first, STOP, 5), STOPPING)
            at.ends("silence", 0, 0)


WORKERS = 4


def fill_with_exports(link):
    """Sends exports until nothing more is taken for a while: both sides of the connection are full."""
    link.setblocking(False)
    exports = EXPORT * 10_000
    sent, idle_since = 0, time.monotonic()
    while sent < 1 << 26 and time.monotonic() - idle_since < 0.5:
        try:
            sent += link.send(exports)
            idle_since = time.monotonic()
        except BlockingIOError:
            time.sleep(0.01)
        except ConnectionError:
            break


def deaf_clients_on_all_workers(unix, idle):
    """Every worker has a client that asks for exports and reads none: memory stays, and the next client is served.

    It is once they are gone, or once the idle limit has let them go.
    """
    words = [*SMALL, "--workers", str(WORKERS), *(["--idle", "1"] if idle else [])]
    name = f"deaf clients, unix {unix}, idle {idle}"
    with Server(words, tcp=not unix, unix=unix) as at:
        deaf = [at.link(unix) for _ in range(WORKERS)]
        for number, link in enumerate(deaf):
            check(f"{name}: put", asked(link, put_frame(7, number, text(5)), 21), accepted(number, 5 * number + 5))
        before = at.memory()
        fillers = [threading.Thread(target=fill_with_exports, args=[link]) for link in deaf]
        for filler in fillers:
            filler.start()
        for filler in fillers:
            filler.join()
        check(f"{name}: memory", at.memory() - before < 8 << 20, True)
        with at.link(unix) as other:
            if not idle:
                other.sendall(STATUS)
                check(f"{name}: the next one waits", is_silent(other, 0.5), True)
                deaf.pop().close()
                check(f"{name}: the next one is served", received(other, 21), counts(4, 20))
            else:
                check(f"{name}: the next one is served", asked(other, STATUS, 21), counts(4, 20))
            check(f"{name}: stop", asked(other, STOP, 5), STOPPING)
        for link in deaf:
            link.close()
        at.ends(name, 4, 20)


def taken_memory(at):
    """The memory that a server has taken, whether it uses it or not, in bytes."""
    with open(f"/proc/{at.process.pid}/statm") as file:
        return int(file.read().split()[0]) * os.sysconf("SC_PAGE_SIZE")


def headers_take_no_memory(unix):
    """32 clients send the header of the longest Put and no more, then a part of it: memory is that of what came."""
    name = f"headers of the longest put, unix {unix}"
    with Server([*SMALL, "--workers", "32"], tcp=not unix, unix=unix) as at:
        links = [at.link(unix) for _ in range(32)]
        for link in links:
            check(f"{name}: before", asked(link, STATUS, 21), counts(0, 0))
        before = taken_memory(at)
        for link in links:
            link.sendall(struct.pack(">IB", 64 << 20, 1))
        check(f"{name}: nothing is answered", is_silent(links[0], 0.5), True)
        check(f"{name}: no memory", taken_memory(at) - before < 8 << 20, True)
        for link in links:
            link.sendall(bytes(1 << 20))
        time.sleep(0.5)
        # A list that grows has at most twice its bytes, and the one that it grew from.
        check(f"{name}: memory of what came", taken_memory(at) - before < 32 * (4 << 20), True)
        for link in links:
            link.close()
        with at.link(unix) as link:
            check(f"{name}: stop", asked(link, STATUS + STOP, 26), counts(0, 0) + STOPPING)
        at.ends(name, 0, 0)


def half_closed_connections_are_answered(unix):
    """Who sends no more gets every reply, however long it reads none."""
    name = f"half-closed, unix {unix}"
    cells = [(row, row) for row in range(1, 10_001)]
    size = str(LARGE)
    words = ["--rows", size, "--cols", size, "--workers", "1"]
    with Server(words, tcp=not unix, unix=unix) as at:
        with at.link(unix) as link:
            check(f"{name}: put", put_cells(link, 1, [(row, col, 1) for row, col in cells]), True)
            link.sendall(EXPORT * 30 + STATUS)
            link.shutdown(1)
            time.sleep(0.5)
            held = program.BANNER + f"{size} {size} 10000\n" + "".join(f"{row} {col} 1\n" for row, col in cells)
            export = struct.pack(">IB", len(held), 0x85) + held.encode()
            wanted = export * 30 + counts(1, 10_000)
            check(f"{name}: all replies", received(link, len(wanted) + 1) == wanted, True)
        with at.link(unix) as link:
            check(f"{name}: stop", asked(link, STOP, 5), STOPPING)
        at.ends(name, 1, 10_000)


def at_once(links, frames):
    """The replies to these frames, one over each link, which are sent as nearly at once as threads do."""
    start = threading.Barrier(len(links))
    replies = [b""] * len(links)

    def ask(place):
        start.wait()
        replies[place] = asked(links[place], frames[place], 5)
        replies[place] += received(links[place], struct.unpack(">I", replies[place][:4])[0])

    threads = [threading.Thread(target=ask, args=[place]) for place in range(len(links))]
    for thread in threads:
        thread.start()
    for thread in threads:
        thread.join()
    return replies


def one_number_from_many_clients(rounds):
    """Many send one client's number at once: one batch is accepted, and all replies say the same of it."""
    words = ["--rows", "3", "--cols", "3", "--shards", "2", "--workers", "32", "--max-batches", "1000"]
    total = 0
    with Server(words, tcp=False) as at:
        links = [at.link() for _ in range(32)]
        for number in range(rounds):
            name = f"one number at once, {number}"
            differ = number % 2 == 1
            texts = [text(1 + place) if differ else text(4) for place in range(32)]
            replies = at_once(links, [put_frame(9, number, held) for held in texts])
            kept = [place for place, reply in enumerate(replies) if reply != refused(30)]
            added = 1 + kept[0] if differ and kept else 4
            check(f"{name}: how many", len(kept), 1 if differ else 32)
            total += added
            check(f"{name}: replies", {replies[place] for place in kept}, {accepted(number, total)})
            again = at_once(links, [put_frame(9, number, held) for held in texts])
            check(f"{name}: the same again", again, replies)
        check("one number at once: status", asked(links[0], STATUS, 21), counts(rounds, total))
        check("one number at once: stop", asked(links[0], STOP, 5), STOPPING)
        for link in links:
            link.close()
        at.ends("one number at once", rounds, total)


def written_by(process):
    """How many bytes a process has written so far."""
    with open(f"/proc/{process.pid}/io") as file:
        return int(re.search(r"^wchar: (\d+)$", file.read(), re.M)[1])


def of_file(path):
    held = os.stat(path)
    return held.st_ino, held.st_mtime_ns


def saves_at_once_are_few():
    """Of clients that ask for a save at the same time, and nothing is put meanwhile, those that waited for one get its
    answer. A save that waits for none writes, also where nothing was put, and where the file was removed. The end
    writes nothing where the last save has all."""
    name, path, saved = "saves at once", in_folder("at once.snap"), struct.pack(">IBQ", 8, 0x86, 1)
    words = ["--rows", "500000", "--cols", "1", "--workers", "17", "--snapshot", path]
    with Server(words, tcp=False) as at:
        links = [at.link() for _ in range(16)]
        with at.client(7) as hhm:
            hhm.put(1, [(row, 0, 1) for row in range(500_000)])
        check(f"{name}: all have a worker", at_once(links, [STATUS] * 16), [counts(1, 500_000)] * 16)
        before = written_by(at.process)
        os.kill(at.process.pid, signal.SIGSTOP)
        for link in links:
            link.sendall(SAVE)
        os.kill(at.process.pid, signal.SIGCONT)
        check(f"{name}: replies", [received(link, 13) for link in links], [saved] * 16)
        written = (written_by(at.process) - before) // os.path.getsize(path)
        check(f"{name}: some are written", 1 <= written <= 8, True)
        for why, prepare in [("again", lambda _: None), ("removed", os.remove)]:
            left = of_file(path)
            prepare(path)
            check(f"{name}, {why}: saved", asked(links[0], SAVE, 13), saved)
            check(f"{name}, {why}: anew", of_file(path) != left, True)
        with at.client(8) as hhm:
            hhm.put(1, [(0, 0, 5)])
        check(f"{name}: a put is saved", asked(links[1], SAVE, 13), struct.pack(">IBQ", 8, 0x86, 2))
        left = of_file(path)
        check(f"{name}: stop", asked(links[0], STOP, 5), STOPPING)
        for link in links:
            link.close()
        at.ends(name, 2, 500_005)
    check(f"{name}: the end", of_file(path), left)


class Book:
    """A plain model of what a server accepts of one client: the batches in order, and how many are surely saved."""

    def __init__(self):
        self.counts = []
        self.saved = 0

    def total(self, length=None):
        return sum(self.counts[:length])

    def frame(self, number):
        return put_frame(7, number, text(self.counts[number]))

    def file(self, length):
        """The snapshot of the first batches."""
        batches = [(7, number, [(0, 0, self.counts[number])]) for number in range(length)]
        return program.snapshot(batches, self.total(length), limit=10**6, most=10**4, past=program.NONE, origin=OWNED)


def put_until_killed(at, book, seed):
    """Puts batches and saves now and then; returns once the server was killed."""
    chance = random.Random(seed)
    killer = threading.Timer(chance.uniform(0.0, 0.06), at.process.kill)
    killer.start()
    try:
        with at.link() as link:
            for number in range(len(book.counts), len(book.counts) + 1000):
                book.counts.append(chance.randrange(10))
                reply = asked(link, book.frame(number), 21)
                if len(reply) < 21:
                    break
                check(f"kill {seed}: put {number}", reply, accepted(number, book.total()))
                if chance.randrange(4) == 0:
                    reply = asked(link, SAVE, 13)
                    if len(reply) < 13:
                        break
                    check(f"kill {seed}: save", reply, struct.pack(">IBQ", 8, 0x86, number + 1))
                    book.saved = number + 1
    except OSError:
        pass
    killer.join()
    at.process.wait(WAIT)


def kills_lose_what_was_not_saved_alone(kills):
    """Kills at any moment between puts and saves: what was saved is there, and all else is sent again."""
    path, book = in_folder("killed.snap"), Book()
    words = ["--rows", "3", "--cols", "3", "--cuts", "2,4", "--shards", "2", "--limit", "1000000",
             "--max-batches", "10000", "--snapshot", path]
    for seed in range(kills):
        with Server(words, tcp=False) as at:
            with at.link() as link:
                for number in range(len(book.counts)):
                    reply = asked(link, book.frame(number), 21)
                    if reply != accepted(number, book.total(number + 1)):
                        check(f"kill {seed}: {number} sent again", reply, accepted(number, book.total(number + 1)))
                check(f"kill {seed}: the book", asked(link, STATUS, 21), counts(len(book.counts), book.total()))
            put_until_killed(at, book, seed)
        held = in_snap(path)
        whole = [length for length in range(book.saved, len(book.counts) + 1) if held == book.file(length)]
        check(f"kill {seed}: a snapshot of a front, with all that was saved", len(whole), 1)
        book.saved = whole[0] if whole else 0
        told = subprocess.run([server.PROGRAM, "check", path], capture_output=True, text=True, timeout=WAIT)
        line = f"rows 3 cols 3 shards 2 batches {book.saved} total {book.total(book.saved)} "
        check(f"kill {seed}: check", told.stdout.startswith(line), True)


def all_are_tried():
    is_long = "--long" in sys.argv[2:]
    for unix in [True, False]:
        replies_outlive_a_bad_header(unix)
        a_rude_client_holds_no_worker(unix)
        silent_clients_are_let_go(unix)
        silent_clients_wait_together(unix)
        a_client_that_reads_nothing_is_let_go(unix)
        for idle in [True, False]:
            deaf_clients_on_all_workers(unix, idle)
        headers_take_no_memory(unix)
        half_closed_connections_are_answered(unix)
    without_a_limit_silence_is_kept()
    silent_machines_are_asked()
    one_number_from_many_clients(20)
    saves_at_once_are_few()
    kills_lose_what_was_not_saved_alone(100 if is_long else 5)
    for how in [{}, in_a_small_space()]:
        exports_keep_no_memory(far_apart, 0xFF, **how)
        exports_keep_no_memory(in_rows_of_seven, 0x85, **how)
    exports_keep_no_memory(side_by_side, 0x85)


if __name__ == "__main__":
    sys.exit(server.run_all(all_are_tried))
