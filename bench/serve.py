#!/usr/bin/env python3
"""Measures `hhm serve` beside a plain server in Rust, in one run.

    python3 bench/serve.py PATH-TO-HHM [--cells N] [--batches "1000 100000"] [--streams "powerlaw uniform"]
                                       [--connections W] [--depth D] [--repeat R]
    python3 bench/serve.py PATH-TO-HHM --log [--repeat R] [--seconds S]
    python3 bench/serve.py PATH-TO-HHM --check

It builds the programs of this folder with rustc, generates each stream and cuts it into frames. Each server is started
twice in each of R rounds, and the servers take turns. The first time the connections put all batches, each with up to D
on the way, which gives the seconds and the memory, and the full server is asked for cells and for its status, one
question at a time. The second time each connection puts one batch at a time, while another asks, which gives the times
of single puts, and of questions under load. The best of the R rounds counts. Times are from the sending of a frame to
its reply, as this program sees them.

The plain server (`counting_server.rs`) has hash tables and keeps no batch. As `null` it doesn't look at the texts: so
much do sockets and this program take by themselves. `hhm` gets the same batches as texts and as cells of 24 bytes each
(`hhm, cells`); the plain server reads texts alone.

With `--log` the server has a log, and is measured beside others that keep each record before they answer
(serve_log.py): batches of one cell over 1, 4 and 16 connections with one and with eight on the way on each, and of
1,000 cells over two with four, each for S seconds in each of R rounds.

With `--check` nothing is timed: two connections put a short stream of each kind, some batches twice (to `hhm` also as
cells, and the second time as the other of both), and all replies, the cells and the export are compared with what a
dictionary of Python holds. So are those of a server with a log, which must have each batch once, in no more blocks than
there were batches, also for a second start. The last line is `N passed, M failed`.

The status is 1 where an answer is wrong. Linux, and nothing but Python's own library and the client of clients/python.
Programs and data go to a folder of their own below the system's one for temporary files, and are removed at the end.
"""
import argparse
import multiprocessing
import os
import random
import shutil
import socket
import struct
import subprocess
import sys
import time

HERE = os.path.dirname(os.path.abspath(__file__))
sys.path.insert(0, os.path.join(HERE, "..", "clients", "python"))
sys.path.insert(1, HERE)
from hhm_client import Client, put_frame, text_of  # noqa: E402
from run import SIZE, STREAMS, build, run_or_check, short_stream  # noqa: E402
from serve_log import blocks_of, measure_logs  # noqa: E402

# Cells and batches of a stream that is checked and not timed.
CHECKED_CELLS, CHECKED_BATCH = 20_000, 500
# How many questions a full server is asked, and how long a connection waits between two under load, in seconds.
QUESTIONS, PAUSE = 2_000, 0.0005
WAIT = 300
STATUS = struct.pack(">IB", 0, 4)
STORED = struct.pack(">IB", 0, 9)
STOP = struct.pack(">IB", 0, 7)
FORK = multiprocessing.get_context("fork")


class Server:
    """A server in a process of its own, at a port of its own choice."""

    def __init__(self, command):
        self.process = subprocess.Popen(command, stdout=subprocess.PIPE, text=True)
        host, port = self.process.stdout.readline().removeprefix("listening tcp ").strip().rsplit(":", 1)
        self.address = host, int(port)
        self.memory_at_start = self.memory()

    def __enter__(self):
        return self

    def __exit__(self, *_):
        try:
            with self.connect() as link:
                ask(link, STOP)
        except OSError:
            self.process.kill()
        self.process.communicate(timeout=WAIT)

    def connect(self):
        link = socket.create_connection(self.address, WAIT)
        link.setsockopt(socket.IPPROTO_TCP, socket.TCP_NODELAY, 1)
        return link

    def memory(self):
        """The memory that is in use now, in bytes."""
        with open(f"/proc/{self.process.pid}/statm") as file:
            return int(file.read().split()[1]) * os.sysconf("SC_PAGE_SIZE")

    def processor_time(self):
        """The seconds that all its threads have run, in the program and in the system for it."""
        with open(f"/proc/{self.process.pid}/stat") as file:
            fields = file.read().rsplit(")", 1)[1].split()
        return (int(fields[11]) + int(fields[12])) / os.sysconf("SC_CLK_TCK")


def receive(link):
    """The body of the next reply."""
    head = link.recv(5, socket.MSG_WAITALL)
    if len(head) < 5:
        raise ConnectionError("the server closed the connection")
    length = int.from_bytes(head[:4], "big")
    return head[4], link.recv(length, socket.MSG_WAITALL) if length else b""


def ask(link, frame):
    link.sendall(frame)
    return receive(link)


def cell_frame(row, col):
    return struct.pack(">IBQQ", 16, 2, row, col)


def put_frames(link, frames, depth):
    """Puts frames with so many on the way. Gives the replies, and the seconds from the sending of each to its reply."""
    replies, sent, times = [], [], []
    for place in range(len(frames) + depth):
        if place >= depth and len(replies) < len(frames):
            replies.append(receive(link))
            times.append(time.perf_counter() - sent[len(replies) - 1])
        if place < len(frames):
            sent.append(time.perf_counter())
            link.sendall(frames[place])
    return replies, times


def put_side_by_side(server, shares, depth):
    """Puts each share of the frames over a connection and in a process of its own. Gives the seconds, and what each
    connection was answered."""
    start, pipes = FORK.Barrier(len(shares), timeout=WAIT), []

    def put(frames, pipe):
        with server.connect() as link:
            ask(link, STATUS)
            start.wait()
            begin = time.perf_counter()
            replies, times = put_frames(link, frames, depth)
            pipe.send((begin, time.perf_counter(), replies, times))

    for frames in shares:
        ours, theirs = FORK.Pipe(False)
        process = FORK.Process(target=put, args=(frames, theirs))
        process.start()
        theirs.close()
        pipes.append((process, ours))
    outcomes = [pipe.recv() for _, pipe in pipes]
    for process, _ in pipes:
        process.join()
    seconds = max(end for _, end, _, _ in outcomes) - min(begin for begin, _, _, _ in outcomes)
    return seconds, [replies for _, _, replies, _ in outcomes], [t for _, _, _, times in outcomes for t in times]


def shared_out(frames, connections):
    return [frames[first::connections] for first in range(connections)]


def percentile(times, part):
    return sorted(times)[min(len(times) - 1, int(len(times) * part))]


def times_of(link, questions):
    """The seconds from each question to its answer."""
    times = []
    for question in questions:
        begin = time.perf_counter()
        ask(link, question)
        times.append(time.perf_counter() - begin)
    return times


def put_fast(command, frames, cells, arguments):
    """Puts all frames, and then asks the full server. Gives what was measured, by name."""
    draw = random.Random(1)
    questions = [cell_frame(*draw.choice(cells)[:2]) for _ in range(QUESTIONS)]
    with Server(command) as server:
        before = server.processor_time()
        seconds, _, _ = put_side_by_side(server, shared_out(frames, arguments.connections), arguments.depth)
        used = server.memory() - server.memory_at_start
        measured = {"seconds": seconds, "processor": server.processor_time() - before}
        measured["memory"] = used / arguments.cells
        with server.connect() as link:
            times_of(link, questions[:100])
            for name, asked in (("cell", questions), ("status", [STATUS] * QUESTIONS)):
                times = times_of(link, asked)
                measured.update({f"{name} p50": percentile(times, 0.5), f"{name} p99": percentile(times, 0.99)})
    return measured


def asked_meanwhile(server, is_over, pipe):
    """Asks for the status until it is over, with pauses, and sends the times."""
    times = []
    with server.connect() as link:
        while not is_over.is_set():
            times += times_of(link, [STATUS])
            time.sleep(PAUSE)
    pipe.send(times)


def put_and_ask(command, frames, arguments):
    """Puts one frame at a time on each connection while another asks. Gives what was measured, by name."""
    with Server(command) as server:
        is_over, (ours, theirs) = FORK.Event(), FORK.Pipe(False)
        asking = FORK.Process(target=asked_meanwhile, args=(server, is_over, theirs))
        asking.start()
        _, _, puts = put_side_by_side(server, shared_out(frames, arguments.connections), 1)
        is_over.set()
        asked = ours.recv()
        asking.join()
    return {
        "put p50": percentile(puts, 0.5),
        "put p99": percentile(puts, 0.99),
        "loaded status p50": percentile(asked, 0.5),
        "loaded status p99": percentile(asked, 0.99),
    }


def commands(hhm, baseline, connections):
    """The servers: a name and the command. A connection of hhm keeps its worker, so it gets some more."""
    size = ["--rows", str(SIZE), "--cols", str(SIZE), "--workers", str(connections + 3)]
    rows = [("hhm", [hhm, "serve", "--tcp", "127.0.0.1:0", *size])]
    if baseline:
        rows.insert(0, ("Rust, hash tables", [baseline]))
    return rows


def cut(lines, batch, size=SIZE):
    """The frames of a stream's lines, so many in each but the last."""
    frames = []
    for number, place in enumerate(range(0, len(lines), batch)):
        part = lines[place : place + batch]
        head = b"%%%%MatrixMarket matrix coordinate integer general\n%d %d %d\n" % (size, size, len(part))
        frames.append(put_frame(1, number, head + b"".join(part)))
    return frames


def cells_frame(number, cells):
    """The frame of a put of these cells, 24 bytes each."""
    body = struct.pack(">QQ", 1, number) + b"".join(struct.pack(">QQQ", *cell) for cell in cells)
    return struct.pack(">IB", len(body), 8) + body


def cut_cells(lines, batch):
    """The same batches as `cut` makes of a stream's lines, as cells."""
    cells = []
    for line in lines:
        row, col, count = line.split()
        cells.append((int(row) - 1, int(col) - 1, int(count)))
    return [cells_frame(number, cells[place : place + batch]) for number, place in enumerate(range(0, len(cells), batch))]


def best(rounds):
    """The least of each measured number."""
    return {name: min(measured[name] for measured in rounds) for name in rounds[0]}


def table_row(name, found, base, cells):
    def times(kind):
        return f"{found[f'{kind} p50'] * 1e6:,.0f} / {found[f'{kind} p99'] * 1e6:,.0f}"

    if "put p50" not in found:
        return [name, f"{cells / found['seconds']:,.0f}", f"{found['seconds'] / base:.2f}", *[""] * 6]
    return [
        name, f"{cells / found['seconds']:,.0f}", f"{found['seconds'] / base:.2f}", f"{found['processor']:.2f}",
        f"{found['memory']:.1f}", times("cell"), times("status"), times("loaded status"), times("put"),
    ]


def print_ratios(hhm, plain):
    """What the numbers of hhm are as multiples of the plain server's, and of one another."""
    def over(name):
        p50, p99 = (hhm[f"{name} {part}"] / plain[f"{name} {part}"] for part in ("p50", "p99"))
        return f"{p50:.2f} at p50 and {p99:.2f} at p99"

    loaded, spread = hhm["loaded status p99"] / hhm["status p99"], hhm["put p99"] / hhm["put p50"]
    whole = hhm["seconds"] / plain["seconds"]
    print(f"\nhhm takes {whole:.2f} times the plain server's time, for a cell {over('cell')},")
    print(f"for its status {over('status')}. Its status at p99 takes {loaded:.1f} times as long under load,")
    print(f"and its puts at p99 {spread:.1f} times as long as at p50.", flush=True)


def run_stream(kind, batch, lines, rows, null, arguments):
    """Measures one stream in batches of one size, and prints its table."""
    frames = cut(lines, batch)
    runs = [(name, command, frames) for name, command in rows]
    runs.append(("hhm, cells", rows[-1][1], cut_cells(lines, batch)))
    cells = [tuple(int(word) - 1 for word in line.split()[:2]) for line in lines[:: max(1, len(lines) // 10_000)]]
    rounds = {name: [] for name, _, _ in runs}
    nulls = []
    for _ in range(arguments.repeat):
        with Server(null) as server:
            seconds, _, _ = put_side_by_side(server, shared_out(frames, arguments.connections), arguments.depth)
            nulls.append({"seconds": seconds})
        for name, command, sent in runs:
            measured = put_fast(command, sent, cells, arguments)
            rounds[name].append(measured | put_and_ask(command, sent, arguments))
    found = {name: best(measured) for name, measured in rounds.items()}
    print(f"\n{kind}, {len(lines):,} cells in batches of {batch:,} over {arguments.connections} connections, "
          f"{arguments.depth} on the way; microseconds at p50 / p99\n")
    print("| server | cells a second | ratio | processor s | bytes a cell | cell | status | status under load | put |")
    print("|---|---|---|---|---|---|---|---|---|")
    plain = next(iter(found.values()))
    for name, measured in [("null", best(nulls)), *found.items()]:
        print(f"| {' | '.join(table_row(name, measured, plain['seconds'], len(lines)))} |")
    print_ratios(found["hhm"], plain)
    share = found["hhm, cells"]["processor"] / found["hhm"]["processor"]
    print(f"Puts of cells take {share:.2f} times the processor time of puts of texts.", flush=True)


def measure_all(arguments, folder):
    """Measures each stream in batches of each size."""
    generator, baseline = build("stream.rs", folder), build("counting_server.rs", folder)
    rows = commands(arguments.hhm, baseline, arguments.connections)
    for kind in (arguments.streams or "powerlaw uniform").split():
        made = subprocess.run([generator, kind, str(arguments.cells)], stdout=subprocess.PIPE, check=True).stdout
        lines = made.splitlines(keepends=True)[2:]
        for batch in arguments.batches.split():
            run_stream(kind, int(batch), lines, rows, [baseline, "--null"], arguments)
    return True


def asked_all(link, frames):
    """The replies to frames that are sent a hundred at a time."""
    for place in range(0, len(frames), 100):
        part = frames[place : place + 100]
        link.sendall(b"".join(part))
        for _ in part:
            yield receive(link)


def are_one_book(replies, totals):
    """Whether the replies, each with its batch's number, are those of one list of accepted batches."""
    places = {}
    for number, (kind, body) in replies:
        place = struct.unpack(">QQ", body)
        if kind != 0x81 or places.setdefault(number, place) != place:
            return False
    accepted = 0
    for index, (number, place) in enumerate(sorted(places.items(), key=lambda item: item[1])):
        accepted += totals[number]
        if place != (index, accepted):
            return False
    return len(places) == len(totals)


def value_of(count):
    return (0x82, bytes(9)) if count is None else (0x82, b"\1" + struct.pack(">Q", count))


def text_frame(number, cells):
    return put_frame(1, number, text_of(SIZE, SIZE, cells))


def check_stream(kind, name, command, forms):
    """Puts a short stream, each connection in its form, and gives for each thing that is looked at whether it is right."""
    cells, sums = short_stream(kind, CHECKED_CELLS), {}
    for row, col, count in cells:
        sums[row, col] = sums.get((row, col), 0) + count
    parts = [cells[place : place + CHECKED_BATCH] for place in range(0, len(cells), CHECKED_BATCH)]
    # Each fifth batch comes twice, the second time over the other connection.
    order = [[n for n in range(len(parts)) if n % 2 == side or n % 5 == 0] for side in range(2)]
    shares = [[form(n, parts[n]) for n in side] for form, side in zip(forms, order)]
    with Server(command) as server:
        _, replies, _ = put_side_by_side(server, shares, 4)
        totals = [sum(count for _, _, count in part) for part in parts]
        answered = [pair for side, given in zip(order, replies) for pair in zip(side, given)]
        yield "replies", are_one_book(answered, totals)
        absent = [(row, (col + 1) % SIZE) for row, col in list(sums)[:1_000]]
        places = [*sums, *absent]
        with server.connect() as link:
            yield "status", ask(link, STATUS) == (0x84, struct.pack(">QQ", len(parts), sum(totals)))
            found = list(asked_all(link, [cell_frame(*place) for place in places]))
            yield "cells", found == [value_of(sums.get(place)) for place in places]
        if name == "hhm":
            with Client(tcp="%s:%d" % server.address, timeout=WAIT) as client:
                wanted = text_of(SIZE, SIZE, [(*place, count) for place, count in sorted(sums.items())])
                yield "export", client.export() == wanted


def check_server(kind, name, command, forms):
    """As `check_stream`; a server that goes away is one thing that is wrong."""
    try:
        yield from check_stream(kind, name, command, forms)
    except (OSError, EOFError) as fault:
        yield f"the connection: {fault}", False


def check_log(command, folder):
    """As `check_stream`, of a server with a log; and whether that has each batch once when the server was killed."""
    path, parts = os.path.join(folder, "log"), CHECKED_CELLS // CHECKED_BATCH
    command = [*command, "--log", path]
    for what, is_right in check_stream("powerlaw", "hhm", command, (cells_frame, text_frame)):
        yield what, is_right
    blocks, batches = blocks_of(path)
    yield "the blocks of a log", 0 < blocks <= batches == parts
    with Server(command) as server:
        with server.connect() as link:
            yield "what is stored", ask(link, STORED) == ask(link, STATUS) != (0x84, bytes(16))
        server.process.kill()
    yield "the log again", blocks_of(path) == (blocks, batches)


def check(arguments, folder):
    """Compares what the servers answer on a short stream of each kind, and says whether all is right."""
    baseline = build("counting_server.rs", folder) if shutil.which("rustc") else None
    if not baseline:
        print("rustc is not installed: the server in Rust is left out")
    passed = failed = 0
    for kind in (arguments.streams or STREAMS).split():
        servers = [(name, command, (text_frame, text_frame)) for name, command in commands(arguments.hhm, baseline, 2)]
        servers += [("hhm", servers[-1][1], (cells_frame, form)) for form in (text_frame, cells_frame)]
        for name, command, forms in servers:
            for what, is_right in check_server(kind, name, command, forms):
                passed, failed = passed + is_right, failed + (not is_right)
                if not is_right:
                    print(f"FAILED {kind}: {name}: {what}")
    for what, is_right in check_log(commands(arguments.hhm, None, 2)[0][1], folder):
        passed, failed = passed + is_right, failed + (not is_right)
        if not is_right:
            print(f"FAILED with a log: {what}")
    print(f"{passed} passed, {failed} failed")
    return failed == 0


def main():
    parser = argparse.ArgumentParser(description=__doc__.split("\n")[0])
    parser.add_argument("--cells", type=int, default=2_000_000)
    parser.add_argument("--batches", default="1000 100000", help="the cells of a batch")
    parser.add_argument("--streams", help="of those of stream.rs; powerlaw and uniform, and all to check")
    parser.add_argument("--connections", type=int, default=2)
    parser.add_argument("--depth", type=int, default=4, help="puts on the way on each connection")
    parser.add_argument("--repeat", type=int, default=3)
    parser.add_argument("--log", action="store_true", help="measure a server with a log beside others")
    parser.add_argument("--seconds", type=float, default=2, help="with --log: of each program and shape in a round")
    run_or_check(parser, lambda given, folder: (measure_logs if given.log else measure_all)(given, folder), check)


if __name__ == "__main__":
    main()
