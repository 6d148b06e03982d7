#!/usr/bin/env python3
"""Feeds a stream of a real broker into hhm while a consumer, the broker and the server are killed: try.sh calls it.

    try.py redis | nats PATH-TO-HHM FOLDER

Each fifth message is published twice, as by a producer whose reply was lost. At the end the sum is that of a
dictionary, or the status is 1.
"""
import collections
import json
import os
import random
import subprocess
import sys
import time

from feeding import body_of
from nats_feed import Nats
from redis_feed import Redis

from hhm_client import Client, cells_of

HERE = os.path.dirname(os.path.abspath(__file__))
PORTS = {"redis": 16390, "nats": 14222}
HHM = "127.0.0.1:17300"
COUNT, CELLS = 200, 200


def batch(number):
    dice = random.Random(number)
    return [(dice.randrange(1 << 20), dice.randrange(1 << 10), dice.randrange(1, 4)) for _ in range(CELLS)]


def start(*words):
    return subprocess.Popen(words, stdout=subprocess.DEVNULL)


def broker(kind, folder):
    port = str(PORTS[kind])
    if kind == "nats":
        return start("nats-server", "-a", "127.0.0.1", "-p", port, "-js", "-sd", folder, "-l", folder + "/nats.log")
    return start("redis-server", "--bind", "127.0.0.1", "--port", port, "--dir", folder, "--appendonly", "yes",
                 "--appendfsync", "always", "--save", "", "--logfile", folder + "/redis.log")


def server(program, folder):
    made = subprocess.Popen([program, "serve", "--tcp", HHM, "--rows", "1048576", "--cols", "1024", "--snapshot",
                             folder + "/sum.snap"], stdout=subprocess.PIPE, text=True)
    made.stdout.readline()
    return made


def consumer(kind, name):
    place = f"127.0.0.1:{PORTS[kind]}"
    words = [place, "CELLS", HHM] if kind == "nats" else [place, "CELLS", name, HHM]
    more = ["--group", "20", "--quiet", "15"]
    return start(sys.executable, os.path.join(HERE, f"{kind}_feed.py"), *words, *more)


def publish(kind):
    """All batches, each fifth twice."""
    place = f"127.0.0.1:{PORTS[kind]}"
    link = Nats(place) if kind == "nats" else Redis(place)
    if kind == "nats":
        config = {"name": "CELLS", "subjects": ["cells.in"], "storage": "file", "retention": "limits"}
        link.ask("$JS.API.STREAM.CREATE.CELLS", json.dumps(config).encode())
    for number in range(COUNT):
        body = body_of(7, number, batch(number))
        for _ in range(2 if number % 5 == 0 else 1):
            if kind == "nats":
                while "seq" not in link.ask("cells.in", body):
                    time.sleep(0.2)
            else:
                link.ask("XADD", "CELLS", "*", "b", body)
        time.sleep(0.02)


def until(batches):
    with Client(tcp=HHM) as hhm:
        while hhm.status().batches < batches:
            time.sleep(0.05)


def run(kind, program, folder):
    os.makedirs(folder)
    behind, hhm = broker(kind, folder), server(program, folder)
    time.sleep(1)
    publisher = start(sys.executable, os.path.abspath(__file__), "publish", kind)
    time.sleep(1)
    consumers = [consumer(kind, "one"), consumer(kind, "two")]
    until(50)
    consumers[0].kill()
    consumers[0].wait()
    until(90)
    behind.kill()
    behind.wait()
    behind = broker(kind, folder)
    until(130)
    hhm.kill()
    hhm.wait()
    hhm = server(program, folder)
    consumers[0] = consumer(kind, "one")
    for process in [publisher, *consumers]:
        process.wait()
    wanted = collections.Counter()
    for number in range(COUNT):
        for row, col, count in batch(number):
            wanted[row, col] += count
    with Client(tcp=HHM) as link:
        found = {(row, col): count for row, col, count in cells_of(link.export())}
        link.stop()
    hhm.wait()
    behind.terminate()
    behind.wait()
    print(f"{kind}: {'exact' if found == dict(wanted) else 'WRONG'}, total {sum(found.values())} of {sum(wanted.values())}")
    return 0 if found == dict(wanted) else 1


if __name__ == "__main__":
    sys.exit(publish(sys.argv[2]) if sys.argv[1] == "publish" else run(*sys.argv[1:]))
