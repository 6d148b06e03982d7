#!/usr/bin/env python3
"""Measures puts to one, two and four servers at once, by source and by rows, in one run.

    python3 bench/cluster.py PATH-TO-HHM [--cells N] [--batch B] [--clients C] [--shards S] [--repeat R]

Random cells of a matrix of 2^60 by 2^60, C clients in a process each, 16 batches on the way. By rows a batch is cut
into parts for all servers, with B cells in a batch and with B for each server. Frames are made before it is measured,
so that it is the servers that are measured and not Python: a line has the cells a second until all are answered, the
most of R runs, and the servers' processor time for a cell, the least of them. The status is 1 where the servers' total
isn't that of the cells. Linux, and Python's own library alone.
"""
import argparse
import array
import multiprocessing
import os
import random
import subprocess
import sys
import time

HERE = os.path.dirname(os.path.abspath(__file__))
sys.path.insert(0, os.path.join(HERE, "..", "clients", "python"))
from hhm_client import PUT_CELLS, Arrays, Client, bytes_of_arrays, request  # noqa: E402
from hhm_cluster import cut  # noqa: E402

SIZE = 1 << 60


def started(program, count, shards):
    servers = []
    for _ in range(count):
        words = [program, "serve", "--tcp", "127.0.0.1:0", "--rows", str(SIZE), "--cols", str(SIZE), "--workers", "16"]
        process = subprocess.Popen([*words, "--shards", str(shards)], stdout=subprocess.PIPE, text=True)
        process.address = process.stdout.readline().split()[-1]
        servers.append(process)
    return servers


def used(process):
    """The processor time of a process in seconds."""
    with open(f"/proc/{process.pid}/stat") as file:
        fields = file.read().rsplit(")", 1)[1].split()
    return (int(fields[11]) + int(fields[12])) / os.sysconf("SC_CLK_TCK")


def frames_of(client, batches, size, servers, by):
    """For each server the frames of one client."""
    dice, frames = random.Random(client), [[] for _ in range(servers)]
    for number in range(batches):
        rows, cols = (array.array("Q", (dice.randrange(SIZE) for _ in range(size))) for _ in range(2))
        body = bytes_of_arrays(Arrays(rows, cols, array.array("Q", [1]) * size))
        if by == "source":
            frames[client % servers].append((number, request(PUT_CELLS, client, number, body=body)))
        else:
            for place, part in enumerate(cut(body, servers)):
                frames[place].append((number, request(PUT_CELLS, client, number, body=part)))
    return frames


def feed(address, client, frames, barrier):
    with Client(tcp=address, client=client) as hhm:
        hhm.status()
        barrier.wait()
        for _ in hhm._put_frames(iter(frames), 16):
            pass


def measured(program, servers, by, size, given):
    """The seconds until all is answered, and the servers' processor time for a cell."""
    batches = given.cells // given.clients // size
    processes = started(program, servers, given.shards)
    lanes = [(processes[place].address, client, frames)
             for client in range(given.clients)
             for place, frames in enumerate(frames_of(client, batches, size, servers, by)) if frames]
    barrier = multiprocessing.Barrier(len(lanes) + 1)
    feeders = [multiprocessing.Process(target=feed, args=(*lane, barrier)) for lane in lanes]
    for feeder in feeders:
        feeder.start()
    barrier.wait()
    begin, before = time.perf_counter(), sum(map(used, processes))
    for feeder in feeders:
        feeder.join()
    seconds, spent = time.perf_counter() - begin, sum(map(used, processes)) - before
    total, cells = 0, batches * size * given.clients
    for process in processes:
        with Client(tcp=process.address) as hhm:
            total += hhm.status().total
            hhm.stop()
        process.communicate()
    if total != cells:
        sys.exit(f"FAILED: the servers have a total of {total}, and {cells} cells were put")
    return cells / seconds, spent / cells


def main():
    words = argparse.ArgumentParser(description=__doc__.split("\n")[0])
    words.add_argument("hhm")
    words.add_argument("--cells", type=int, default=1_600_000)
    words.add_argument("--batch", type=int, default=1000)
    words.add_argument("--clients", type=int, default=4)
    words.add_argument("--shards", type=int, default=8)
    words.add_argument("--repeat", type=int, default=3)
    given = words.parse_args()
    program = os.path.abspath(given.hhm)
    for servers in (1, 2, 4):
        ways = [("source", given.batch), ("rows", given.batch), ("rows", given.batch * servers)]
        for by, size in dict.fromkeys(ways):
            runs = [measured(program, servers, by, size, given) for _ in range(given.repeat)]
            rate, cost = max(run[0] for run in runs), min(run[1] for run in runs)
            print(f"servers {servers} by {by}, batches of {size}: {rate:,.0f} cells a second, "
                  f"{cost * 1e6:.3f} us a cell of the servers' processor time", flush=True)


if __name__ == "__main__":
    main()
