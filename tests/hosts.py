"""Several servers, each on a host of its own that can fail, programs that feed them, and the plain sum of what was fed.

A host's server takes another port at each start and writes it into a file, as a scheduler's script does. What is fed is
a function of the client's number and the batch's.
"""
import collections
import itertools
import os
import random
import signal
import socket
import subprocess
import sys
import threading
import time

import server
from hhm_client import Client, cells_of
from hhm_cluster import Cluster, address_in

HERE = os.path.dirname(os.path.abspath(__file__))
FEEDER = os.path.join(HERE, "drivers", "feeder.py")
SIZE = (1 << 32, 1 << 32)
# The seconds that anything may take that is waited for.
WAIT = 60


def batch(client, number, count=200):
    """The cells of a batch, of some rows far more than of others."""
    dice = random.Random(client * 1_000_003 + number)
    rows = (int(2 ** (dice.random() * 20)) * 2654435761 % SIZE[0] for _ in range(count))
    return [(row, int(2 ** (dice.random() * 12)), dice.randrange(1, 4)) for row in rows]


def added(*lists):
    """The sum of lists of cells."""
    counts = collections.Counter()
    for row, col, count in itertools.chain(*lists):
        counts[row, col] += count
    return dict(counts)


def sum_in(text):
    return {(row, col): count for row, col, count in cells_of(text)}


class Host:
    """A server with a snapshot, and with a log where it is `logged`."""

    def __init__(self, name, logged=False, more=(), size=SIZE):
        self.base = os.path.join(server.FOLDER, name)
        self.file = self.base + ".address"
        self.words = ["--rows", str(size[0]), "--cols", str(size[1]), "--workers", "16", *more]
        self.words += ["--snapshot", self.base + ".snap", *(["--log", self.base + ".log"] if logged else [])]
        self.start()

    def start(self, at="127.0.0.1:0"):
        words = [server.PROGRAM, "serve", "--tcp", at, *self.words]
        self.process = subprocess.Popen(words, stdout=subprocess.PIPE, stderr=subprocess.PIPE, text=True)
        self.tcp = self.process.stdout.readline().removeprefix("listening tcp ").strip()
        with open(self.file + ".new", "w") as file:
            file.write(self.tcp)
        os.rename(self.file + ".new", self.file)

    def kill(self):
        """As a machine fails."""
        self.process.kill()
        self.process.communicate()

    def restart(self):
        self.kill()
        self.start()

    def link(self):
        """A connection without the client."""
        host, port = self.tcp.rsplit(":", 1)
        return socket.create_connection((host, int(port)), WAIT)

    def hold(self):
        """Stops the process, all its threads, until a signal SIGCONT."""
        self.process.send_signal(signal.SIGSTOP)
        tasks = f"/proc/{self.process.pid}/task"
        until(lambda: all(state_of(f"{tasks}/{task}/stat") == "T" for task in os.listdir(tasks)))

    def client(self, client=0, **more):
        return Client(tcp=self.tcp, client=client, timeout=WAIT, **more)


class Hosts(list):
    """Hosts in order, which end at the end."""

    def __init__(self, name, count, **how):
        super().__init__(Host(f"{name}.{place}", **how) for place in range(count))

    def __enter__(self):
        return self

    def __exit__(self, *_):
        for host in self:
            host.kill()

    def cluster(self, client=0, generation=1, order=None, **more):
        """A cluster of these hosts, or of those in an order that is another one's."""
        servers = [address_in(host.file) for host in (self if order is None else order)]
        return Cluster(servers, client=client, generation=generation, **{"timeout": WAIT, **more})

    def books(self):
        """What each server says of its book."""
        books = []
        for host in self:
            with host.client() as hhm:
                books.append(tuple(hhm.status()))
        return books


class Feeder:
    """A program that puts the batches of one client, up to `end`, and can be killed and begun again.

    It begins with the batch behind the last that it was told is durable: of servers with a log one that was accepted,
    and else one that a save came after.
    """

    def __init__(self, hosts, by, client, end, logged):
        self.hosts, self.client, self.end, self.logged = hosts, client, end, logged
        self.by, self.accepted, self.durable, self.ended = by, -1, -1, ""
        self.start()

    def start(self):
        files = ",".join(host.file for host in self.hosts)
        how = "log" if self.logged else "keep"
        words = [sys.executable, FEEDER, files, self.by, self.client, self.durable + 1, self.end, how]
        self.process = subprocess.Popen([str(word) for word in words], stdout=subprocess.PIPE, text=True)
        self.thread = threading.Thread(target=self.read, args=(self.process.stdout,), daemon=True)
        self.thread.start()

    def read(self, output):
        for line in output:
            word, number = line.split()
            if word == "accepted":
                self.accepted = max(self.accepted, int(number))
            if word == "saved" or self.logged:
                self.durable = max(self.durable, int(number))

    def kill(self):
        self.process.kill()
        self.process.wait()
        self.thread.join()

    def restart(self):
        self.kill()
        self.start()

    def wait(self):
        """The status at the end; none where it doesn't come."""
        try:
            status = self.process.wait(WAIT)
        except subprocess.TimeoutExpired:
            self.process.kill()
            return None
        self.thread.join()
        return status


def state_of(path):
    with open(path) as file:
        return file.read().rsplit(")", 1)[1].split()[0]


def until(holds):
    """Waits until something holds, and tells whether it does."""
    ends = time.monotonic() + WAIT
    while not (answer := holds()) and time.monotonic() < ends:
        time.sleep(0.01)
    return answer
