#!/usr/bin/env python3
"""Measures how many cells a second the client for Python puts over one connection.

    python3 bench/clients.py PATH-TO-HHM [--cells N] [--batch B] [--depth D] [--repeat R]

Random cells of a matrix of 2^60 by 2^60 go in batches of B, with up to D on the way, as three arrays, as tuples and as
texts, each to a server of its own, in turn, over a Unix socket and over TCP. What is measured is from the first batch's
spelling to the last one's reply, and what processor time this program took in it. The best of R runs counts. The status
is 1 where a server's total isn't that of the cells. Linux, and nothing but Python's own library.
"""
import argparse
import array
import os
import random
import subprocess
import sys
import tempfile
import time

HERE = os.path.dirname(os.path.abspath(__file__))
sys.path.insert(0, os.path.join(HERE, "..", "clients", "python"))
from hhm_client import Arrays, Client, text_of  # noqa: E402

SIZE = 1 << 60
WAIT = 300


def texts(hhm, batches):
    """Puts the batches as texts, one by one: a client that has texts has no `put_all`."""
    for number, cells in batches:
        hhm.put_text(number, text_of(SIZE, SIZE, cells))


def put_fast(program, folder, is_unix, batches, depth, as_texts, total):
    """Puts the batches to a new server. Gives the seconds, and this program's processor time."""
    path = os.path.join(folder, "socket")
    address = ["--unix", path] if is_unix else ["--tcp", "127.0.0.1:0"]
    command = [program, "serve", *address, "--rows", str(SIZE), "--cols", str(SIZE)]
    with subprocess.Popen(command, stdout=subprocess.PIPE, text=True) as process:
        place = process.stdout.readline().split()[-1]
        with Client(**{"unix" if is_unix else "tcp": place}, client=1, timeout=WAIT) as hhm:
            hhm.status()
            begin, used = time.perf_counter(), time.process_time()
            if as_texts:
                texts(hhm, batches)
            else:
                for _ in hhm.put_all(batches, depth):
                    pass
            seconds, used = time.perf_counter() - begin, time.process_time() - used
            is_right = hhm.status() == (len(batches), total)
            hhm.stop()
        process.communicate(timeout=WAIT)
    if not is_right:
        sys.exit("FAILED: the server has another total")
    return seconds, used


def main():
    parser = argparse.ArgumentParser(description=__doc__.split("\n")[0])
    parser.add_argument("hhm")
    parser.add_argument("--cells", type=int, default=2_000_000)
    parser.add_argument("--batch", type=int, default=100_000)
    parser.add_argument("--depth", type=int, default=4, help="batches on the way")
    parser.add_argument("--repeat", type=int, default=3)
    given = parser.parse_args()
    draw = random.Random(1)
    starts = range(0, given.cells, given.batch)
    lists = []
    for start in starts:
        count = min(given.batch, given.cells - start)
        lists.append([(draw.randrange(SIZE), draw.randrange(SIZE), draw.randrange(1, 10)) for _ in range(count)])
    total = sum(count for cells in lists for _, _, count in cells)
    columns = [Arrays(*(array.array("Q", numbers) for numbers in zip(*cells))) for cells in lists]
    kinds = [("arrays", list(enumerate(columns)), False), ("tuples", list(enumerate(lists)), False),
             ("texts", list(enumerate(lists)), True)]
    print(f"{given.cells:,} cells in batches of {given.batch:,}, {given.depth} on the way, texts one by one\n")
    print("| cells as | over | cells a second | the client's processor time, us a cell |")
    print("|---|---|---|---|")
    with tempfile.TemporaryDirectory() as folder:
        for name, batches, as_texts in kinds:
            for is_unix in [True, False]:
                runs = [put_fast(os.path.abspath(given.hhm), folder, is_unix, batches, given.depth, as_texts, total)
                        for _ in range(given.repeat)]
                seconds, used = (min(column) for column in zip(*runs))
                where = "Unix" if is_unix else "TCP"
                print(f"| {name} | {where} | {given.cells / seconds:,.0f} | {used / given.cells * 1e6:.3f} |", flush=True)


if __name__ == "__main__":
    main()
