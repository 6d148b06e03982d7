#!/usr/bin/env python3
"""Measures a server with a log and a snapshot that is fed at a steady rate and left alone: files, memory, and a start.

    python3 bench/steady.py PATH-TO-HHM [--seconds S] [--rate CELLS] [--places N] [--folder F]

Two connections put batches of 1,000 cells, up to 32 on the way on each, whose places come again in turn. All options
of the server are the defaults. Each minute it prints the megabytes of the log, of the snapshot and of memory, and at
the end the most of each. Then the server is killed, and a start from its files is timed up to the first status, whose total must
be that of what was accepted. The files go to a folder of their own below F, by default the system's one for temporary
files, and are removed at the end. Linux, and nothing but Python's own library.
"""
import argparse
import os
import random
import socket
import struct
import subprocess
import sys
import tempfile
import threading
import time

HERE = os.path.dirname(os.path.abspath(__file__))
sys.path.insert(0, os.path.join(HERE, "..", "clients", "python"))
from hhm_client import ACCEPTED, PUT_CELLS, Client, bytes_of, request  # noqa: E402

BATCH = 1_000
SIDE = 1 << 60
SIZE = ["--rows", str(SIDE), "--cols", str(SIDE)]
CONNECTIONS = 2
# Batches on the way on each connection, as an fsync of the log takes longer than a batch.
ON_THE_WAY = 32
# Seconds: so long a server may take to its first answer.
WAIT = 600


def bodies_of(count):
    """The cells of batches whose places are so many, each once."""
    draw = random.Random(count)
    cells = [(draw.randrange(SIDE), draw.randrange(SIDE), 1) for _ in range(count)]
    return [bytes_of(cells[first : first + BATCH]) for first in range(0, count, BATCH)]


class Served:
    """A server with a log and a snapshot in a folder."""

    def __init__(self, program, folder):
        self.log, self.snapshot, self.socket = (os.path.join(folder, it) for it in ("log", "snap", "socket"))
        files = ["--log", self.log, "--snapshot", self.snapshot]
        self.begun = time.monotonic()
        self.process = subprocess.Popen([program, "serve", "--unix", self.socket, *files, *SIZE],
                                        stdout=subprocess.PIPE, text=True)
        if not self.process.stdout.readline().startswith("listening"):
            sys.exit(f"steady: {program} doesn't listen")

    def client(self, number=0):
        return Client(client=number, unix=self.socket, timeout=WAIT)

    def kill(self):
        self.process.kill()
        self.process.communicate()

    def sizes(self):
        """The megabytes of the log, of the snapshot, and of memory."""
        with open(f"/proc/{self.process.pid}/statm") as file:
            memory = int(file.read().split()[1]) * os.sysconf("SC_PAGESIZE")
        return [it / 1e6 for it in (size_of(self.log), size_of(self.snapshot), memory)]


def size_of(path):
    try:
        return os.path.getsize(path)
    except FileNotFoundError:
        return 0


def read_accepted(stream):
    """Reads the reply to a batch."""
    size, kind = struct.unpack(">IB", stream.read(5))
    if (kind, len(stream.read(size))) != (ACCEPTED, size):
        sys.exit(f"steady: a batch is answered {kind:x}")


def feed(served, client, bodies, pause, until):
    """Puts a batch after each pause, until that time, and waits until all are accepted."""
    with socket.socket(socket.AF_UNIX) as link:
        link.connect(served.socket)
        stream, first, number = link.makefile("rb"), time.monotonic(), 0
        while time.monotonic() < until:
            body = bodies[(CONNECTIONS * number + client) % len(bodies)]
            link.sendall(request(PUT_CELLS, client, number, body=body))
            number += 1
            if number > ON_THE_WAY:
                read_accepted(stream)
            time.sleep(max(0.0, first + number * pause - time.monotonic()))
        for _ in range(min(number, ON_THE_WAY)):
            read_accepted(stream)


def watch(served, feeders):
    """Prints sizes each minute as long as it is fed, and returns the most of each."""
    most, minute = [0.0, 0.0, 0.0], 0
    while any(it.is_alive() for it in feeders):
        now = served.sizes()
        most = [max(pair) for pair in zip(most, now)]
        if time.monotonic() - served.begun >= 60 * minute:
            print("%3d min: log %.0f MB, snapshot %.0f MB, memory %.0f MB" % (minute, *now), flush=True)
            minute += 1
        time.sleep(0.2)
    return most


def main():
    parser = argparse.ArgumentParser(description=__doc__, formatter_class=argparse.RawDescriptionHelpFormatter)
    parser.add_argument("program", type=os.path.abspath)
    parser.add_argument("--seconds", type=float, default=600)
    parser.add_argument("--rate", type=int, default=1_000_000)
    parser.add_argument("--places", type=int, default=2_000_000)
    parser.add_argument("--folder")
    given = parser.parse_args()
    bodies = bodies_of(given.places)
    with tempfile.TemporaryDirectory(dir=given.folder) as folder:
        served = Served(given.program, folder)
        pause, until = CONNECTIONS * BATCH / given.rate, time.monotonic() + given.seconds
        feeders = [threading.Thread(target=feed, args=(served, it, bodies, pause, until)) for it in range(CONNECTIONS)]
        for it in feeders:
            it.start()
        most = watch(served, feeders)
        with served.client() as hhm:
            had = hhm.status()
        print("%d batches, total %d; at most: log %.0f MB, snapshot %.0f MB, memory %.0f MB" % (*had, *most))
        served.kill()
        os.remove(served.socket)
        again = Served(given.program, folder)
        with again.client() as hhm:
            found = hhm.status()
        print("a start after a kill: %.1f s, memory %.0f MB" % (time.monotonic() - again.begun, again.sizes()[2]))
        again.kill()
        if found != had:
            sys.exit(f"steady: {had} was accepted, {found} is there")


if __name__ == "__main__":
    main()
