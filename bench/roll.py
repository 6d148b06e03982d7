#!/usr/bin/env python3
"""Measures `hhm roll` of windows into a coarser file, in one run and in a run for each.

    python3 bench/roll.py PATH-TO-HHM FOLDER [--files N] [--blocks N]

Places come in blocks of five, spread evenly over 2^60 by 2^60, and each window's file has two of each block: with
4,000,000 blocks 8,000,000 cells a file, of 20,000,000 places. The first three files have all five together. A file is
folded by `hhm fold`, as a server leaves it. The files stay in FOLDER, and those that are there already are taken. It
prints the seconds and the memory at its peak of one run of all and of the last run of one file each, and beside them
those of `check` of a window's file and of `fold` of the coarser one, which reads and writes it. Linux, and nothing but
Python's own library.
"""
import argparse
import os
import statistics
import struct

from check import SIZE, timed
from fold import in_a_process

PIECE = 20_000
# Its multiples are spread evenly.
ODD = 0x9E3779B97F4A7C15


def chosen(file, block):
    """Which two places of a block a file has, the lower first."""
    first = (2 * file if file < 3 else (file * block * ODD >> 40)) % 5
    return (0, 4) if first == 4 else (first, first + 1)


def write_window(path, file, blocks):
    """Writes the snapshot of a window: one folded batch over a base, without checksums."""
    width, cell = SIZE // (5 * blocks), struct.Struct(">QQQ").pack
    with open(path, "wb") as out:
        out.write(b"HHMSNAP\n" + struct.pack(">IQQBBQQQQ", 2, SIZE, SIZE, 0, 8, 2**64 - 1, 1_000_000, 0, 2 * blocks))
        out.write(struct.pack(">QQQQQQ", 1, 7, 0, 2 * blocks, 2 * blocks, 2 * blocks))
        for start in range(0, blocks, PIECE):
            some = range(start, min(start + PIECE, blocks))
            rows = (5 * block + at for block in some for at in chosen(file, block))
            out.write(b"".join([cell(row * width, row * ODD % SIZE, 1) for row in rows]))


def windows(program, folder, files, blocks):
    """The paths of the windows' files, which are written where they aren't there."""
    paths = [os.path.join(folder, f"{file}.snap") for file in range(files)]
    for file, path in enumerate(paths):
        if not os.path.exists(path):
            in_a_process(write_window, path + ".made", file, blocks)
            timed([program, "fold", path + ".made"])
            os.rename(path + ".made", path)
    return paths


def report(name, run):
    seconds, processor, peak = run
    print(f"{name}: {seconds:.2f} s, of the processor {processor:.2f}; memory {peak / 2**20:.0f} MiB", flush=True)


def main():
    parser = argparse.ArgumentParser(description=__doc__.split("\n")[0])
    parser.add_argument("program")
    parser.add_argument("folder")
    parser.add_argument("--files", type=int, default=24)
    parser.add_argument("--blocks", type=int, default=4_000_000)
    options = parser.parse_args()
    program, target = os.path.abspath(options.program), os.path.join(options.folder, "to")
    words = [f"{at}={path}" for at, path in enumerate(windows(program, options.folder, options.files, options.blocks))]
    if os.path.exists(target):
        os.remove(target)
    whole = timed([program, "roll", target, "1", *words])
    report(f"{options.files} files in one run, {whole[0] / options.files:.2f} s a file", whole)
    os.remove(target)
    runs = [timed([program, "roll", target, "1", word]) for word in words]
    report("the first run of one file", runs[0])
    report("the last run of one file", runs[-1])
    print(f"runs of one file each: median {statistics.median(it[0] for it in runs):.2f} s")
    report("a run that adds nothing", timed([program, "roll", target, "1", *words]))
    report("check of a window", timed([program, "check", words[-1].partition("=")[2]]))
    report("check of the coarser file", timed([program, "check", target]))
    report("fold of the coarser file", timed([program, "fold", target]))


if __name__ == "__main__":
    main()
