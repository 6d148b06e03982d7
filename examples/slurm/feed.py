#!/usr/bin/env python3
"""Feeds the instances of a run: an example, whose batches are a function of the client's number and their own.

    feed.py RUN INSTANCES CLIENT BATCHES       puts them by rows
    feed.py exact CLIENTS BATCHES              writes the text of their sum, by a dictionary

Begun again it puts all again, and each batch counts once.
"""
import collections
import os
import random
import sys

HERE = os.path.dirname(os.path.abspath(__file__))
sys.path.insert(0, os.environ.get("HHM_CLIENTS", os.path.join(HERE, "..", "..", "clients", "python")))
from hhm_client import text_of  # noqa: E402
from hhm_cluster import Cluster, address_in  # noqa: E402

SIZE = (1 << 32, 1 << 32)


def batch(client, number):
    dice = random.Random(client * 1_000_003 + number)
    return [(dice.randrange(1 << 20) * 4093, dice.randrange(1 << 10), dice.randrange(1, 4)) for _ in range(2000)]


def feed(run, instances, client, batches):
    servers = [address_in(f"{run}/{place}.address") for place in range(instances)]
    # (Slurm takes up to two minutes to begin a task again: 40 attempts take five)
    with Cluster(servers, client=client, generation=1, by="rows", size=SIZE, attempts=40) as hhm:
        for number, _ in hhm.put_all(((number, batch(client, number)) for number in range(batches)), depth=4):
            print("accepted", number, flush=True)


def exact(clients, batches):
    sums = collections.Counter()
    for client in range(1, clients + 1):
        for number in range(batches):
            for row, col, count in batch(client, number):
                sums[row, col] += count
    sys.stdout.buffer.write(text_of(*SIZE, [(row, col, sums[row, col]) for row, col in sorted(sums)]))


if __name__ == "__main__":
    if sys.argv[1] == "exact":
        exact(int(sys.argv[2]), int(sys.argv[3]))
    else:
        feed(sys.argv[1], *map(int, sys.argv[2:]))
