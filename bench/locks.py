#!/usr/bin/env python3
"""Measures how long the locks of `hhm serve` are held while batches are put.

    python3 bench/locks.py PATH-TO-HHM [--cells N] [--batches "1000 100000"] [--stream powerlaw|uniform]
                                       [--connections W] [--fold-above CELLS]

It generates a stream, cuts it into frames as bench/serve.py does, and puts them over W connections, one on the way on
each, while bpftrace (Debian's package of that name; run as root) takes the times at which some functions of the program
are called and return. So the program is to have its symbols, as the gate builds it; each time has some microseconds of
the probe in it. It prints of each how often it was called, its microseconds at p50, p99 and at most, and the
milliseconds of all calls together:

    prepare    under a shard's lock: the layers with the part, a free place in the record
    plan       of that: the layers
    settled    of that: matrices that are added up since nobody did before
    ask        the book's lock, from the wait for it on: the verdict, the book's entries
    admit      the book's lock, from the wait for it on: the acceptance, its reply, what readers are shown
    put_from   from the wait for the first shard's lock to the return of the last: with all waits between
    seal       all locks at once, from the wait for the first one on: what the next fold is made of is put aside

Linux, and nothing but Python's own library beside bpftrace.
"""
import argparse
import os
import re
import signal
import subprocess
import sys
import tempfile
import time

sys.path.insert(0, os.path.dirname(os.path.abspath(__file__)))
from run import build  # noqa: E402
from serve import Server, commands, cut, percentile, put_side_by_side, shared_out  # noqa: E402

# The functions, each by a part of its symbol.
CALLS = {
    "prepare": "batch_store::shard::Shard::prepare_with",
    "plan": "layer_cascade::layers::Layers::plan",
    "settled": "layer_compaction::layer::Layer::settled",
    "ask": "locked_engine::engine::Engine::ask",
    "admit": "locked_engine::engine::Engine::admit",
    "put_from": "locked_engine::engine::Engine::put_from",
    "seal": "locked_engine::engine::Engine::begin_fold",
}


def symbols(program):
    """The symbol of each function, or None where the program has none."""
    listed = subprocess.run(["nm", program], stdout=subprocess.PIPE, text=True, check=True).stdout.splitlines()
    found = {name: [line.split(" ", 2)[2] for line in listed if f" {part}" in line] for name, part in CALLS.items()}
    return {name: those[0] for name, those in found.items() if those}


def probes(program, names):
    """The script for bpftrace: a line for each outermost call that returned."""
    lines = []
    for name, symbol in names.items():
        place = f'{program}:"{symbol}"'
        lines.append(f"uprobe:{place} {{ if (@deep_{name}[tid] == 0) {{ @from_{name}[tid] = nsecs; }} "
                     f"@deep_{name}[tid]++; }}")  # fmt: skip
        lines.append(f"uretprobe:{place} {{ @deep_{name}[tid]--; if (@deep_{name}[tid] == 0) "
                     f'{{ printf("{name} %d\\n", nsecs - @from_{name}[tid]); }} }}')  # fmt: skip
    return "\n".join(lines)


def traced(command, frames, connections, script):
    """Puts the frames while bpftrace runs. The seconds that they took, and the microseconds of each call by its name."""
    environment = os.environ | {"BPFTRACE_PERF_RB_PAGES": "1024"}
    with tempfile.NamedTemporaryFile("w+") as said, Server(command) as server:
        tracer = subprocess.Popen(["bpftrace", "-e", script], stdout=said, stderr=subprocess.STDOUT, env=environment)
        time.sleep(5)
        seconds, _, _ = put_side_by_side(server, shared_out(frames, connections), 1)
        time.sleep(1)
        tracer.send_signal(signal.SIGINT)
        tracer.wait()
        said.seek(0)
        times = {name: [] for name in CALLS}
        for name, nanoseconds in re.findall(r"^(\w+) (\d+)$", said.read(), re.MULTILINE):
            times[name].append(int(nanoseconds) / 1000)
    return seconds, times


def main():
    parser = argparse.ArgumentParser()
    parser.add_argument("hhm", type=os.path.abspath)
    parser.add_argument("--cells", type=int, default=1_000_000)
    parser.add_argument("--batches", default="1000 100000")
    parser.add_argument("--stream", default="powerlaw")
    parser.add_argument("--connections", type=int, default=2)
    parser.add_argument("--fold-above", default="1048576")
    arguments = parser.parse_args()
    names = symbols(arguments.hhm)
    if len(names) < len(CALLS):
        print(f"locks: {arguments.hhm} has no symbol of {', '.join(sorted(CALLS.keys() - names.keys()))}")
        return 1
    with tempfile.TemporaryDirectory() as folder:
        generator = build("stream.rs", folder)
        command = [generator, arguments.stream, str(arguments.cells)]
        lines = subprocess.run(command, stdout=subprocess.PIPE, check=True).stdout.splitlines(keepends=True)[2:]
    (_, server), = commands(arguments.hhm, None, arguments.connections)
    server = [*server, "--fold-above", arguments.fold_above]
    for batch in map(int, arguments.batches.split()):
        frames = cut(lines, batch)
        seconds, times = traced(server, frames, arguments.connections, probes(arguments.hhm, names))
        print(f"\n{arguments.stream}, {len(frames):,} batches of {batch:,}, {seconds:.2f} s\n")
        print("| | calls | p50, us | p99, us | longest, us | together, ms |\n|---|---|---|---|---|---|")
        for name, taken in times.items():
            if taken:
                print(f"| {name} | {len(taken):,} | {percentile(taken, 0.5):,.1f} | {percentile(taken, 0.99):,.0f} | "
                      f"{max(taken):,.0f} | {sum(taken) / 1000:,.0f} |", flush=True)  # fmt: skip
    return 0


if __name__ == "__main__":
    sys.exit(main())
