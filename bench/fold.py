#!/usr/bin/env python3
"""Measures `hhm fold` beside `hhm check` of the same snapshot, and how a server starts from a folded one.

    python3 bench/fold.py PATH-TO-HHM [--batches N] [--cells N] [--entries N] [--base N] [--repeat N]

It folds a snapshot of so many batches, each of so many cells spread evenly over 2^60 by 2^60, and checks it before and
after, in turn; where the folder for temporary files (TMPDIR) lies on a disk, folding waits for that. Then it starts a
server from a folded snapshot of so many batches over a base of one cell, and from those of a single batch over a base
of so many cells, one and four to a row: the seconds until it listens, those of `hhm check` of that file, and the memory
that the server has in use then, beyond that of one without a snapshot. Medians. Linux, and nothing but Python's own
library.
"""
import argparse
import os
import random
import statistics
import struct
import sys
import tempfile
import time
from itertools import islice

from check import CUTS, SIZE, medians, paths, timed, write_inputs
from serve import Server

# The most cells that are written at once.
PIECE = 100_000


def cells_in_order(cells, in_row):
    """So many places, spread evenly over rows that have so many each."""
    spread = random.Random(2)
    rows, cols = SIZE // (cells // in_row), SIZE // in_row
    for start in range(0, cells, in_row):
        row = start // in_row * rows + spread.randrange(rows)
        for place in range(in_row):
            yield row, place * cols + spread.randrange(cols)


def write_folded(path, entries, cells, in_row=1):
    """Writes a snapshot of so many folded batches over a base of so many cells. Each count is 1, but that of a single
    cell.
    """
    total = max(entries, cells)
    places = cells_in_order(cells, in_row)
    with open(path, "wb") as file:
        file.write(b"HHMSNAP\n" + struct.pack(f">IQQB{len(CUTS)}Q", 2, SIZE, SIZE, len(CUTS), *CUTS))
        file.write(struct.pack(">BQQQQ", 8, 2**64 - 1, 1_000_000, 0, total))
        file.write(struct.pack(">Q", entries))
        for start in range(0, entries, PIECE):
            some = range(start, min(start + PIECE, entries))
            file.write(b"".join(struct.pack(">QQQQ", 7, it, 1, total if entries == 1 else 1) for it in some))
        file.write(struct.pack(">Q", cells))
        while some := list(islice(places, PIECE)):
            file.write(b"".join(struct.pack(">QQQ", *it, total if cells == 1 else 1) for it in some))


def in_a_process(write, *words):
    """Writes in a process of its own: one that is started begins with the memory of the one that starts it."""
    child = os.fork()
    if child == 0:
        write(*words)
        os._exit(0)
    if os.waitpid(child, 0)[1] != 0:
        sys.exit("the input wasn't written")


def measure_fold(program, folder, batches, cells, repeat):
    """Folds the same snapshot again and again, and checks it before and after."""
    in_a_process(write_inputs, folder, batches, cells)
    snapshot, text = paths(folder)
    os.remove(text)
    with open(snapshot, "rb") as file:
        whole = file.read()
    checks, folds, after = [], [], []
    for _ in range(repeat):
        with open(snapshot, "wb") as file:
            file.write(whole)
        checks.append(timed([program, "check", snapshot]))
        folds.append(timed([program, "fold", snapshot]))
        after.append(timed([program, "check", snapshot]))
    check, fold, folded = medians(checks), medians(folds), medians(after)
    size = os.path.getsize(snapshot)
    print(f"{batches:,} batches of {cells:,} cells: check {check[0]:.3f} s, {check[2] / 2**20:.0f} MiB; "
          f"fold {fold[0]:.3f} s, {fold[2] / 2**20:.0f} MiB; ratio {fold[0] / check[0]:.2f} in time, "
          f"{fold[2] / check[2]:.2f} in memory; check of what is folded {folded[0]:.3f} s; "
          f"{len(whole):,} bytes, folded {size:,}", flush=True)
    os.remove(snapshot)


def started(words):
    """The seconds until a server listens, and the bytes that it has in use then."""
    start = time.perf_counter()
    with Server(words) as server:
        return time.perf_counter() - start, server.memory_at_start


def measure_start(program, folder, entries, cells, in_row, repeat):
    """Starts from a folded snapshot, and without one."""
    path = os.path.join(folder, "folded")
    in_a_process(write_folded, path, entries, cells, in_row)
    words = [program, "serve", "--tcp", "127.0.0.1:0", "--rows", str(SIZE), "--cols", str(SIZE),
             "--cuts", ",".join(map(str, CUTS)), "--max-batches", "1000000"]  # fmt: skip
    checks, starts, bare = [], [], []
    for _ in range(repeat):
        checks.append(timed([program, "check", path])[0])
        starts.append(started([*words, "--snapshot", path]))
        bare.append(started(words)[1])
    seconds, memory = (statistics.median(it) for it in zip(*starts))
    memory -= statistics.median(bare)
    most = max(entries, cells)
    print(f"{entries:,} entries, {cells:,} base cells, {in_row} to a row: start {seconds:.3f} s, "
          f"check {statistics.median(checks):.3f} s; "
          f"memory {memory / 2**20:.0f} MiB, {memory / most:.0f} bytes each", flush=True)
    # A server that stops saves again: the snapshot is the same, and may go.
    os.remove(path)


def main():
    parser = argparse.ArgumentParser(description=__doc__.split("\n")[0])
    parser.add_argument("program")
    parser.add_argument("--batches", type=int, default=2_000)
    parser.add_argument("--cells", type=int, default=1_000)
    parser.add_argument("--entries", type=int, default=1_000_000)
    parser.add_argument("--base", type=int, default=8_000_000)
    parser.add_argument("--repeat", type=int, default=5)
    options = parser.parse_args()
    program = os.path.abspath(options.program)
    with tempfile.TemporaryDirectory() as folder:
        measure_fold(program, folder, options.batches, options.cells, options.repeat)
        measure_start(program, folder, options.entries, 1, 1, options.repeat)
        for in_row in (1, 4):
            measure_start(program, folder, 1, options.base, in_row, options.repeat)


if __name__ == "__main__":
    main()
