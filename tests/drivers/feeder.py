#!/usr/bin/env python3
"""Puts batches of one client into a cluster, and says which were accepted and which are durable.

    feeder.py FILE,.. WAY CLIENT BEGIN END log | keep

Each file has a server's address. With `keep` what no save has is kept and put again, and a save follows each tenth
batch. A line `accepted N` or `saved N` says so of all batches up to N.
"""
import os
import sys

HERE = os.path.dirname(os.path.abspath(__file__))
sys.path[:0] = [os.path.join(HERE, "..", "..", "clients", "python"), os.path.join(HERE, "..")]
from hhm_cluster import Cluster, address_in  # noqa: E402
from hosts import SIZE, WAIT, batch  # noqa: E402


def main():
    files, by, client, begin, end, how = sys.argv[1:]
    servers = [address_in(file) for file in files.split(",")]
    keep = 1 << 24 if how == "keep" else None
    more = {"by": by, "size": SIZE, "keep": keep, "timeout": WAIT}
    with Cluster(servers, client=int(client), generation=1, **more) as hhm:
        numbers = range(int(begin), int(end))
        for number, _ in hhm.put_all(((number, batch(int(client), number)) for number in numbers), depth=4):
            print(f"accepted {number}", flush=True)
            if how == "keep" and (number % 10 == 9 or number == int(end) - 1):
                hhm.save(own=True)
                print(f"saved {number}", flush=True)


if __name__ == "__main__":
    main()
