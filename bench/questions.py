#!/usr/bin/env python3
"""Measures what a Top and a Range cost `hhm serve`, and `hhm top` beside `hhm check`.

    python3 bench/questions.py PATH-TO-HHM [--cells N] [--puts N] [--repeat R]

A server starts from a snapshot of so many cells, which lie in rows of one to four, but for a row of 37,000; and another
from one in which half as many lie in sixteen rows. They are asked, one question at a time: the ten rows with the highest
totals, and with the most entries; pages of 10,000 cells that begin anywhere; the last 5,000 cells; the long row, whole;
and of the second server the last 10,000 cells of a row, and the last hundred of each row. Told are the median of R, on
the clock and of the server's processor time, and the memory that the server had at its highest beyond what it had
before. `questions.rs`, a sorted array in Rust with the same cells, answers the first three in its own memory, without a
connection.

Then a server of 1,000,000 cells takes puts of 1,000 cells one after the other, while another client asks nothing, asks
Export without end, or asks Top without end, in turns: the median and the 99th of 100 of the puts' times.

Last `hhm check` and `hhm top` of the first snapshot, in turns: the medians of the seconds and of the processor time.

The load of the machine stands beside each: with others at work on it times on the clock say little. Linux, and nothing
but Python's own library; and rustc, for what is compared.
"""
import argparse
import os
import random
import statistics
import struct
import subprocess
import sys
import tempfile
import time
from itertools import islice

HERE = os.path.dirname(os.path.abspath(__file__))
sys.path.insert(0, HERE)
from check import CUTS, SIZE, medians, timed  # noqa: E402
from fold import in_a_process  # noqa: E402
from run import build  # noqa: E402
from serve import FORK, Server, cells_frame, percentile  # noqa: E402

PAGE, LONG, ROWS, PIECE = 10_000, 37_000, 16, 100_000
HEAD = "| question | ms | processor ms | sorted array, ms | MB beyond | |\n|---|---|---|---|---|---|"
EXPORT = struct.pack(">IB", 0, 5)


def top_frame(by, most):
    return struct.pack(">IBBQ", 9, 11, by, most)


def range_frame(rows, cols, start, most):
    return struct.pack(">IB7Q", 56, 10, *rows, *cols, *start, most)


ALL = (0, SIZE - 1)
TOP = top_frame(0, 10)


def exactly(link, length):
    """So many bytes, in as many calls as they come in."""
    whole = memoryview(bytearray(length))
    place = 0
    while place < length:
        got = link.recv_into(whole[place:])
        if got == 0:
            raise ConnectionError("the server closed the connection")
        place += got
    return whole


def ask(link, frame):
    """The kind of the reply, and its body."""
    link.sendall(frame)
    head = exactly(link, 5)
    return head[4], exactly(link, int.from_bytes(head[:4], "big"))


def times_of(link, questions, length=None):
    """The seconds from each question to the end of its reply, whose body has so many bytes where that is known."""
    times = []
    for question in questions:
        begin = time.perf_counter()
        kind, body = ask(link, question)
        times.append(time.perf_counter() - begin)
        if kind == 0xFF or length not in (None, len(body)):
            sys.exit(f"a reply of kind {kind:x} with {len(body)} bytes")
    return times


def short_rows(cells):
    """So many cells in order: rows of one to four, and in the middle a long one. With the long one's number."""
    draw, step = random.Random(3), SIZE // cells
    row = given = 0
    long = None
    while given < cells:
        row += 1 + draw.randrange(step)
        count = draw.randrange(1, 5)
        if long is None and given > cells // 2:
            long = row
            count = LONG
        count = min(count, cells - given)
        width = SIZE // count
        for place in range(count):
            yield row, place * width + draw.randrange(width), draw.randrange(1, 9)
        given += count


def long_rows(cells):
    """So many cells in order, in sixteen rows."""
    draw, count = random.Random(4), cells // ROWS
    width = SIZE // count
    for row in range(ROWS):
        for place in range(count):
            yield row, place * width + draw.randrange(width), draw.randrange(1, 9)


def pieces(cells):
    """The bytes of cells, of many at a time, and their total."""
    cells = iter(cells)
    while some := list(islice(cells, PIECE)):
        yield b"".join(struct.pack(">QQQ", *cell) for cell in some), sum(count for _, _, count in some)


def write_snapshot(path, array, cells, count):
    """Writes a folded snapshot of one batch that has these cells, and the cells alone."""
    total = 0
    with open(array, "wb") as file:
        for some, sum_of_some in pieces(cells):
            file.write(some)
            total += sum_of_some
    with open(path, "wb") as file, open(array, "rb") as source:
        file.write(b"HHMSNAP\n" + struct.pack(f">IQQB{len(CUTS)}Q", 2, SIZE, SIZE, len(CUTS), *CUTS))
        file.write(struct.pack(">BQQQQ", 8, 2**64 - 1, 1_000_000, 0, total))
        file.write(struct.pack(">QQQQQQ", 1, 7, 1, count, total, count))
        while some := source.read(1 << 24):
            file.write(some)


def load():
    return f"load {os.getloadavg()[0]:.1f}"


def peak(server):
    """The memory at its highest since the last reset, and the reset, in bytes."""
    with open(f"/proc/{server.process.pid}/status") as file:
        lines = dict(line.split(":", 1) for line in file)
    with open(f"/proc/{server.process.pid}/clear_refs", "w") as file:
        file.write("5")
    return int(lines["VmHWM"].split()[0]) * 1024


def processor_time(server):
    """The seconds that all threads of a server have run."""
    tasks = f"/proc/{server.process.pid}/task"
    total = 0
    for task in os.listdir(tasks):
        with open(f"{tasks}/{task}/schedstat") as file:
            total += int(file.read().split()[0])
    return total / 1e9


def measured(server, questions, length):
    """The medians of the seconds and of the processor time of some questions, and the most memory that one took beyond
    what was in use."""
    seconds, processor = [], []
    with server.connect() as link:
        times_of(link, questions[:1], length)
        peak(server)
        before = server.memory()
        for question in questions:
            begin = processor_time(server)
            seconds += times_of(link, [question], length)
            processor.append(processor_time(server) - begin)
        return statistics.median(seconds), statistics.median(processor), peak(server) - before


def tell(what, server, questions, length, beside=None):
    seconds, processor, memory = measured(server, questions, length)
    other = f"{beside:.2f}" if beside is not None else ""
    told = [what, f"{seconds * 1e3:.2f}", f"{processor * 1e3:.2f}", other, f"{memory / 1e6:.1f}", load()]
    print(f"| {' | '.join(told)} |", flush=True)


def serve(program, snapshot=None):
    words = [program, "serve", "--tcp", "127.0.0.1:0", "--rows", str(SIZE), "--cols", str(SIZE), "--cuts",
             ",".join(map(str, CUTS)), "--max-batches", "1000000"]  # fmt: skip
    return Server(words + (["--snapshot", snapshot] if snapshot else []))


def ask_short_rows(program, folder, cells, repeat):
    snapshot, array = os.path.join(folder, "short"), os.path.join(folder, "array")
    in_a_process(lambda: write_snapshot(snapshot, array, short_rows(cells), cells))
    plain = subprocess.run([build("questions.rs", folder), array, str(repeat)], stdout=subprocess.PIPE, check=True)
    beside = [float(word) for word in plain.stdout.split()]
    with open(array, "rb") as file:
        def cell(n):
            file.seek(24 * n)
            return struct.unpack(">QQQ", file.read(24))

        starts = [cell(cells // repeat * n + cells // repeat // 2)[:2] for n in range(repeat)]
        last = cell(cells - PAGE // 2)[:2]
        # Most of the cells behind the middle are those of the long row.
        long = cell(cells // 2 + LONG // 2)[0]
    print(f"{cells:,} cells in rows of 1 to 4, and one row of {LONG:,}")
    print(HEAD)
    with serve(program, snapshot) as server:
        tell("Top 10 by total", server, [TOP] * repeat, 240, beside[0])
        tell("Top 10 by entries", server, [top_frame(1, 10)] * repeat, 240)
        pages = [range_frame(ALL, ALL, start, PAGE) for start in starts]
        tell(f"a page of {PAGE:,} cells, anywhere", server, pages, 1 + 24 * PAGE, beside[1])
        tell("the last 5,000 cells", server, [range_frame(ALL, ALL, last, PAGE)] * repeat, 1 + 12 * PAGE)
        row = [range_frame((long, long), ALL, (0, 0), LONG)] * repeat
        tell(f"a row of {LONG:,} cells", server, row, 1 + 24 * LONG, beside[2])
    return snapshot


def ask_long_rows(program, folder, cells, repeat):
    snapshot, array = os.path.join(folder, "long"), os.path.join(folder, "array")
    count = cells // ROWS * ROWS
    in_a_process(lambda: write_snapshot(snapshot, array, long_rows(cells), count))
    print(f"{count:,} cells in {ROWS} rows")
    print(HEAD)
    width = SIZE // (cells // ROWS)
    end = SIZE - PAGE * width
    with serve(program, snapshot) as server:
        last = range_frame((7, 7), (end, SIZE - 1), (0, 0), PAGE)
        tell(f"the last {PAGE:,} cells of a row", server, [last] * repeat, 1 + 24 * PAGE)
        few = range_frame((0, ROWS - 1), (SIZE - 100 * width, SIZE - 1), (0, 0), PAGE)
        tell("the last 100 cells of each row", server, [few] * repeat, 1 + 24 * 100 * ROWS)
    os.remove(snapshot)


def ask_without_end(server, frame, is_over):
    with server.connect() as link:
        while not is_over.is_set():
            if frame:
                ask(link, frame)
            else:
                time.sleep(0.01)


def put_beside(server, frames, frame):
    """The times of puts while another asks a question without end."""
    is_over = FORK.Event()
    asking = FORK.Process(target=ask_without_end, args=(server, frame, is_over))
    asking.start()
    time.sleep(0.2)
    with server.connect() as link:
        times = times_of(link, frames)
    is_over.set()
    asking.join()
    return times


def drawn_frames(draw, first, count):
    for number in range(first, first + count):
        cells = sorted((draw.randrange(SIZE), draw.randrange(SIZE), draw.randrange(1, 9)) for _ in range(1_000))
        yield cells_frame(number, cells)


def put_and_ask(program, puts, repeat):
    draw, times = random.Random(5), {"nothing": [], "Export": [], "Top": []}
    frames = {"nothing": None, "Export": EXPORT, "Top": TOP}
    with serve(program) as server:
        with server.connect() as link:
            for frame in drawn_frames(draw, 0, 1_000):
                ask(link, frame)
        first = 1_000
        for _ in range(repeat):
            for name, frame in frames.items():
                times[name] += put_beside(server, list(drawn_frames(draw, first, puts)), frame)
                first += puts
    print(f"puts of 1,000 cells beside a client that asks without end, 1,000,000 cells at first; {load()}")
    print("| it asks | put p50 us | put p99 us |\n|---|---|---|")
    for name, those in times.items():
        print(f"| {name} | {percentile(those, 0.5) * 1e6:,.0f} | {percentile(those, 0.99) * 1e6:,.0f} |")
    ratio = percentile(times["Top"], 0.99) / percentile(times["Export"], 0.99)
    print(f"p99 beside Top is {ratio:.2f} of that beside Export", flush=True)


def top_beside_check(program, snapshot, repeat):
    checks, tops = [], []
    for _ in range(repeat):
        checks.append(timed([program, "check", snapshot]))
        tops.append(timed([program, "top", "-n", "10", snapshot]))
    check, top = medians(checks), medians(tops)
    print(f"hhm check {check[0]:.2f} s, hhm top {top[0]:.2f} s: {top[0] / check[0]:.2f} in time, "
          f"{top[1] / check[1]:.2f} of processor time; {load()}")  # fmt: skip


def main():
    parser = argparse.ArgumentParser(description=__doc__.split("\n")[0])
    parser.add_argument("program")
    parser.add_argument("--cells", type=int, default=8_000_000)
    parser.add_argument("--puts", type=int, default=200)
    parser.add_argument("--repeat", type=int, default=9)
    options = parser.parse_args()
    program = os.path.abspath(options.program)
    with tempfile.TemporaryDirectory() as folder:
        snapshot = ask_short_rows(program, folder, options.cells, options.repeat)
        ask_long_rows(program, folder, options.cells // 2, options.repeat)
        put_and_ask(program, options.puts, options.repeat)
        top_beside_check(program, snapshot, options.repeat)


if __name__ == "__main__":
    main()
