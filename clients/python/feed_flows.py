#!/usr/bin/env python3
"""Feeds a file of flows into a server of hhm: an example.

    hhm serve --unix /tmp/hhm.sock --rows 4294967296 --cols 4294967296 \
        --snapshot /tmp/flows.snap --log /tmp/flows.log &
    python3 clients/python/feed_flows.py --unix /tmp/hhm.sock 7 flows.csv

The file is a CSV with the head `source,destination,packets`: two IPv4 addresses, the row and the column, and a count.
Batch k of client 7 is its flows 10000 k to 10000 k + 9999, so a run that was interrupted is begun again with the same
words, and counts each flow once. Another file has another client number.
"""
import csv
import itertools
import os
import socket
import struct
import sys

sys.path.insert(0, os.path.dirname(os.path.abspath(__file__)))
from hhm_client import BookWentBack, Client, Refused

LINES = 10_000


def number_of(address):
    return struct.unpack(">I", socket.inet_pton(socket.AF_INET, address))[0]


def batches(lines):
    """The batches of a file, (number, cells)."""
    flows = csv.reader(lines)
    if next(flows, None) != ["source", "destination", "packets"]:
        raise ValueError("line 1: no head `source,destination,packets`")
    for number in itertools.count():
        cells = []
        for flow in itertools.islice(flows, LINES):
            try:
                source, destination, packets = flow
                cells.append((number_of(source), number_of(destination), int(packets)))
            except (OSError, ValueError):
                raise ValueError(f"line {flows.line_num}: no flow") from None
        if not cells:
            return
        yield number, cells


def main():
    if len(sys.argv) != 5 or sys.argv[1] not in ("--tcp", "--unix") or not sys.argv[3].isdigit():
        print("usage: feed_flows.py --tcp HOST:PORT | --unix PATH CLIENT FILE", file=sys.stderr)
        return 2
    how, place, client, file = sys.argv[1:]
    sent = 0
    try:
        with Client(**{how[2:]: place}, client=int(client)) as hhm, open(file, newline="") as lines:
            for _ in hhm.put_all(batches(lines)):
                sent += 1
    except Refused as refused:
        print(f"batch {sent}: refused: {refused}", file=sys.stderr)
        return 1
    except BookWentBack as fault:
        print(f"{fault}: begin again with the same words", file=sys.stderr)
        return 4
    except (OSError, ValueError) as fault:
        print(fault, file=sys.stderr)
        return 4
    print(f"sent batches {sent}")
    return 0


if __name__ == "__main__":
    sys.exit(main())
