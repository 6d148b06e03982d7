#!/usr/bin/env python3
"""Measures the memory of accepted batches: of the book that keeps them, and of the shards that hold their sums.

    python3 bench/memory.py PATH-TO-HHM [--batches N] [--shards K]

It puts N batches of one cell each into a server, and N / 1000 batches of 1,000 cells into another, spread evenly over
2^60 by 2^60, so that nearly each cell has a row of its own. Then the same number of batches with the same cells in
each: the shards hold these cells once, so what the server takes is the book's. It prints the memory in use beyond that
of a server without batches, in bytes for each batch and for each cell. Linux.
"""
import argparse
import random
from itertools import islice

from serve import SIZE, Server, put_frame, put_frames, text_of

ACCEPTED = 0x81

# How many batches are on the way at once.
DEPTH = 32


def frames_of(batches, cells, spread):
    """The frames of so many batches of so many cells, each in other places where they are spread, else all alike."""
    draw = random.Random(7)
    for number in range(batches):
        if spread or number == 0:
            text = text_of(SIZE, SIZE, [(draw.randrange(SIZE), draw.randrange(SIZE), 1) for _ in range(cells)])
        yield put_frame(1, number, text)


def memory_of(program, batches, cells, shards, spread):
    """The bytes that a server has in use for these batches."""
    words = [program, "serve", "--tcp", "127.0.0.1:0", "--rows", str(SIZE), "--cols", str(SIZE), "--shards", str(shards)]
    with Server(words) as server, server.connect() as link:
        pending = frames_of(batches, cells, spread)
        while frames := list(islice(pending, 1_000)):
            replies, _ = put_frames(link, frames, DEPTH)
            if any(kind != ACCEPTED for kind, _ in replies):
                raise SystemExit("a batch was refused")
        return server.memory() - server.memory_at_start


def main():
    parser = argparse.ArgumentParser(description=__doc__.split("\n")[0])
    parser.add_argument("program")
    parser.add_argument("--batches", type=int, default=1_000_000)
    parser.add_argument("--shards", type=int, default=8)
    arguments = parser.parse_args()
    print("| batches | cells each | what | bytes a batch | bytes a cell |")
    print("|---|---|---|---|---|")
    for batches, cells in ((arguments.batches, 1), (arguments.batches // 1000, 1000)):
        book, both = (memory_of(arguments.program, batches, cells, arguments.shards, it) for it in (False, True))
        for what, size in (("book", book), ("shards", both - book), ("both", both)):
            of_batch, of_cell = size / batches, size / (batches * cells)
            print(f"| {batches:,} | {cells:,} | {what} | {of_batch:,.0f} | {of_cell:,.1f} |", flush=True)


if __name__ == "__main__":
    main()
