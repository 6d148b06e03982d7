#!/usr/bin/env python3
"""Measures `hhm check` and `hhm export` of a snapshot beside `hhm sum` of the same cells as a text.

    python3 bench/check.py PATH-TO-HHM [--batches N] [--cells N] [--repeat N]

It writes a snapshot of so many batches, each of so many cells that are spread evenly over 2^60 by 2^60, and the text of
all these cells batch by batch, runs the three in turn, and prints the median time of each, their ratios, those of
processor time too, and the memory of `check` and `export` at their peaks. The sum uses the cuts 4096,65536,1048576.
Linux, and nothing but Python's own library.
"""
import argparse
import multiprocessing
import os
import random
import statistics
import struct
import subprocess
import sys
import tempfile
import time

SIZE = 2**60
CUTS = [4_096, 65_536, 1_048_576]


def batches_of(batches, cells):
    """So many lists of cells in order, each with counts from 1 to 9."""
    spread = random.Random(1)
    for _ in range(batches):
        places = sorted({(spread.randrange(SIZE), spread.randrange(SIZE)) for _ in range(cells)})
        yield [(row, col, spread.randint(1, 9)) for row, col in places]


def paths(folder):
    """Where the snapshot and the text stand."""
    return os.path.join(folder, "snapshot"), os.path.join(folder, "text")


def write_inputs(folder, batches, cells):
    """Writes the snapshot and the text."""
    lists = list(batches_of(batches, cells))
    count = sum(len(cells) for cells in lists)
    total = sum(n for cells in lists for _, _, n in cells)
    snapshot, text = paths(folder)
    with open(snapshot, "wb") as file:
        file.write(b"HHMSNAP\n" + struct.pack(">IQQB", 1, SIZE, SIZE, len(CUTS)))
        file.write(struct.pack(f">{len(CUTS)}Q", *CUTS))
        file.write(struct.pack(">BQQQQ", 8, 2**64 - 1, 1_000_000, len(lists), total))
        for number, cells in enumerate(lists):
            file.write(struct.pack(">QQQ", 7, number, len(cells)))
            file.write(b"".join(struct.pack(">QQQ", *cell) for cell in cells))
    with open(text, "w", encoding="ascii") as file:
        file.write(f"%%MatrixMarket matrix coordinate integer general\n{SIZE} {SIZE} {count}\n")
        for cells in lists:
            file.write("".join(f"{row + 1} {col + 1} {n}\n" for row, col, n in cells))


def size_of(text):
    """The number of cells that a text's size line says."""
    with open(text, encoding="ascii") as file:
        file.readline()
        return int(file.readline().split()[2])


def timed(words, stdin=None):
    """Seconds on the clock, seconds of processor time, and the peak of the memory in bytes."""
    with tempfile.TemporaryFile() as output:
        start = time.perf_counter()
        process = subprocess.Popen(words, stdin=stdin, stdout=output)
        _, status, usage = os.wait4(process.pid, 0)
        seconds = time.perf_counter() - start
        process.returncode = status
    if status != 0:
        sys.exit(f"{' '.join(words)}: status {status}")
    return seconds, usage.ru_utime + usage.ru_stime, usage.ru_maxrss * 1024


def medians(runs):
    """The median of the seconds and of the processor time, and the highest peak."""
    seconds, processor, peaks = zip(*runs)
    return statistics.median(seconds), statistics.median(processor), max(peaks)


def main():
    parser = argparse.ArgumentParser()
    parser.add_argument("program")
    parser.add_argument("--batches", type=int, default=2_000)
    parser.add_argument("--cells", type=int, default=1_000)
    parser.add_argument("--repeat", type=int, default=5)
    options = parser.parse_args()
    program = os.path.abspath(options.program)
    with tempfile.TemporaryDirectory() as folder:
        # In a process of its own: one that is started begins with the memory of the one that starts it.
        writer = multiprocessing.Process(target=write_inputs, args=(folder, options.batches, options.cells))
        writer.start()
        writer.join()
        snapshot, text = paths(folder)
        count = size_of(text)
        checks, exports, sums = [], [], []
        for _ in range(options.repeat):
            checks.append(timed([program, "check", snapshot]))
            exports.append(timed([program, "export", snapshot]))
            with open(text, "rb") as file:
                sums.append(timed([program, "sum", "--cuts", ",".join(map(str, CUTS))], file))
        print(f"{options.batches} batches, {count} cells")
        check, export, total = medians(checks), medians(exports), medians(sums)
        for name, run, beside, other in (("check", check, "sum", total), ("export", export, "check", check)):
            seconds, processor, peak = run
            print(f"{name} {seconds:.3f} s, {beside} {other[0]:.3f} s, ratio {seconds / other[0]:.2f}, of processor time "
                  f"{processor / other[1]:.2f}; memory {peak / 2**20:.0f} MiB, {peak / count:.0f} bytes a cell")


if __name__ == "__main__":
    main()
