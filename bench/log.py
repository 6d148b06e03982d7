#!/usr/bin/env python3
"""Measures what reading a log costs, beside a snapshot of the same batches.

    python3 bench/log.py PATH-TO-HHM [--batches N] [--block N] [--repeat R]

It writes a log of N batches of one cell each, in blocks of so many, and a snapshot of the same, which takes this program
most of a minute for 1,000,000. Then `hhm check` reads the one and the other, in turns, R times each. What counts is the
processor time that the system tells, which other work on the machine moves less than seconds, and the memory at its
highest. Both must tell the same batches.

The files go to a folder of their own below the system's one for temporary files, and are removed at the end. Linux, and
nothing but Python's own library.
"""
import argparse
import os
import random
import statistics
import subprocess
import sys
import tempfile

HERE = os.path.dirname(os.path.abspath(__file__))
sys.path.insert(0, os.path.join(HERE, "..", "tests"))
from log_bytes import Setup, block, head  # noqa: E402
from program import NONE, snapshot  # noqa: E402

SETUP = Setup(rows=1000, cols=1000, cuts=(64, 4096), shards=4, limit=2**40, most=1_000_000)


def batches_of(count):
    """So many batches of one cell."""
    draw = random.Random(1)
    return [(n % 7, n, [(draw.randrange(SETUP.rows), draw.randrange(SETUP.cols), 1)]) for n in range(count)]


def write_log(path, batches, size):
    with open(path, "wb") as file:
        file.write(head(setup=SETUP))
        for place in range(0, len(batches), size):
            file.write(block(place, batches[place : place + size]))


def write_snapshot(path, batches):
    held = snapshot(batches, len(batches), *SETUP, past=NONE)
    with open(path, "wb") as file:
        file.write(held)


def cost(words):
    """The first line that a program writes, its processor time in seconds, and its memory at most in MB."""
    process = subprocess.Popen(words, stdout=subprocess.PIPE, text=True)
    line = process.stdout.readline()
    process.stdout.read()
    _, status, usage = os.wait4(process.pid, 0)
    process.returncode = os.waitstatus_to_exitcode(status)
    if process.returncode != 0:
        sys.exit(f"log: {' '.join(words)}: status {process.returncode}")
    return line, usage.ru_utime + usage.ru_stime, usage.ru_maxrss / 1000


def main():
    parser = argparse.ArgumentParser(description="Measures what reading a log costs.")
    parser.add_argument("hhm")
    parser.add_argument("--batches", type=int, default=1_000_000)
    parser.add_argument("--block", type=int, default=1_000)
    parser.add_argument("--repeat", type=int, default=5)
    arguments = parser.parse_args()
    with tempfile.TemporaryDirectory() as folder:
        log, snap, none = (os.path.join(folder, name) for name in ("log", "snap", "none"))
        batches = batches_of(arguments.batches)
        write_log(log, batches, arguments.block)
        write_snapshot(snap, batches)
        runs = {"snapshot": [arguments.hhm, "check", snap], "log": [arguments.hhm, "check", none, "--log", log]}
        found = {name: [] for name in runs}
        for _ in range(arguments.repeat):
            for name, words in runs.items():
                found[name].append(cost(words))
    lines = {line for told in found.values() for line, _, _ in told}
    if len(lines) != 1:
        sys.exit(f"log: they tell different batches: {sorted(lines)}")
    for name, told in found.items():
        seconds = sorted(seconds for _, seconds, _ in told)
        listed = " ".join(f"{value:.2f}" for value in seconds)
        print(f"{name}: {listed} s of the processor, {max(memory for _, _, memory in told):.0f} MB")
    log_time, snap_time = (statistics.median(told[1] for told in found[name]) for name in ("log", "snapshot"))
    print(f"the log takes {log_time / snap_time:.2f} of the snapshot's time, by the medians")


if __name__ == "__main__":
    main()
