#!/usr/bin/env python3
"""Writes flows between hosts, made up and always the same: a CSV with the head `source,destination,packets`.

    python3 examples/make_flows.py 3000000 > flows.csv

A few hosts are in most flows and most hosts in few, as in real traffic: half of the networks are 10.0.0.0/8, the
others lie anywhere.
"""
import random
import signal
import sys


def address_of(number):
    return f"{number >> 24}.{number >> 16 & 255}.{number >> 8 & 255}.{number & 255}"


def hosts_of(dice, count):
    """Addresses in networks of up to 256 hosts, of which half are private ones."""
    hosts = []
    while len(hosts) < count:
        network = 10 << 24 | dice.randrange(1 << 16) << 8 if dice.random() < 0.5 else dice.randrange(1 << 24) << 8
        hosts += [address_of(network | host) for host in dice.sample(range(256), dice.randrange(1, 64))]
    return hosts[:count]


def main():
    lines = int(sys.argv[1])
    dice = random.Random(1)
    hosts = hosts_of(dice, 200_000)
    dice.shuffle(hosts)

    def drawn(skew):
        """A host; the k-th is drawn the less often, the greater k is."""
        return hosts[int(len(hosts) * dice.random() ** skew)]

    print("source,destination,packets")
    for _ in range(lines):
        print(f"{drawn(5)},{drawn(3)},{min(int(dice.paretovariate(1.2)), 100_000)}")


if __name__ == "__main__":
    # (where `head` reads it, it ends as soon as that has gone)
    signal.signal(signal.SIGPIPE, signal.SIG_DFL)
    main()
