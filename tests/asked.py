#!/usr/bin/env python3
"""Asks servers by the words `hhm status` and `hhm end`, over both sockets, and compares what they write and end with.

    python3 tests/asked.py PATH-TO-HHM

What is wanted was worked out by hand from docs/FORMATS.md. What the built program is never brought to answer is answered
by a peer. It prints a line for each check that fails and at the end `N passed, M failed`; the status is 1 where one
fails. Linux and Python's own library.
"""
import contextlib
import os
import socket
import struct
import subprocess
import sys
import threading
import time

import server
from hhm_client import put_frame
from server import SMALL, WAIT, Server, accepted, check, refused, text

NOT_REACHED = ("", "hhm: server: NotReached\n", 4)
NO_ANSWER = ("", "hhm: server: NoAnswer\n", 4)
BAD_REPLY = ("", "hhm: server: BadReply\n", 3)
SHORT_OF_MEMORY = ("", "hhm: server: Refused (1)\n", 5)
STATUS, SAVE, STOP = 4, 6, 7
SAVED, STOPPING = struct.pack(">IBQ", 8, 0x86, 0), b"\0\0\0\0\x87"


def hhm(*words, **how):
    """What the program writes to both outputs, and its status."""
    ran = subprocess.run([server.PROGRAM, *words], capture_output=True, text=True, timeout=WAIT, **how)
    return ran.stdout, ran.stderr, ran.returncode


class Peer:
    """Listens at a Unix socket, and answers each connection's first frame by the next of these answers.

    An answer is some bytes, after which the connection is closed. What the frames were is in `kinds`.
    """

    def __init__(self, *answers):
        self.path = os.path.join(server.FOLDER, "peer")
        self.kinds = []
        if os.path.exists(self.path):
            os.remove(self.path)
        self.listener = socket.socket(socket.AF_UNIX)
        self.listener.bind(self.path)
        self.listener.listen()
        self.thread = threading.Thread(target=self.answer, args=(answers,), daemon=True)
        self.thread.start()

    def answer(self, answers):
        for it in answers:
            link = self.listener.accept()[0]
            with link:
                self.kinds.append(link.recv(5)[4])
                with contextlib.suppress(BrokenPipeError):
                    for at in range(len(it)):
                        link.sendall(it[at:at + 1])

    def ends(self, name, kinds):
        self.thread.join(WAIT)
        self.listener.close()
        check(f"{name}: what was asked", self.kinds, kinds)


def put(it, client, count):
    with it.link() as link:
        link.sendall(put_frame(client, 1, text(count)))
        return link.recv(64)


def a_status_is_written():
    """By each form of an address, before a put and after it."""
    with Server(SMALL) as it:
        forms = [it.path, f"unix:{it.path}", it.tcp, f"tcp:{it.tcp}"]
        for form in forms:
            check(f"status: nothing, {form}", hhm("status", form), ("batches 0 total 0\n", "", 0))
        check("status: a put", put(it, 7, 5), accepted(0, 5))
        for form in forms:
            check(f"status: a batch, {form}", hhm("status", form), ("batches 1 total 5\n", "", 0))
        name = os.path.basename(it.path)
        found = hhm("status", f"unix:{name}", cwd=os.path.dirname(it.path))
        check("status: a path without a slash", found, ("batches 1 total 5\n", "", 0))


def an_end_saves_and_stops():
    """What was put is saved before the server ends; a server without a snapshot's path has nothing to save to."""
    path = os.path.join(server.FOLDER, "end.snap")
    for unix in (True, False):
        for words in (["--snapshot", path], []):
            name = f"end: {'unix' if unix else 'tcp'}, {'a snapshot' if words else 'none'}"
            with Server([*SMALL, *words]) as it:
                check(f"{name}: a put", put(it, 7, 5), accepted(0, 5))
                check(name, hhm("end", it.path if unix else it.tcp), ("stopping\n", "", 0))
                it.ends(name, 1, 5)
            if words:
                check(f"{name}: the file", hhm("export", path), (text(5).decode(), "", 0))
                os.remove(path)


def a_refused_save_is_reported():
    """The server is stopped all the same, and tries once more at its end."""
    path = os.path.join(server.FOLDER, "refused.snap")
    with Server([*SMALL, "--snapshot", path]) as it:
        check("a refused save: a put", put(it, 7, 5), accepted(0, 5))
        os.makedirs(os.path.join(path + ".new", "full"))
        check("a refused save", hhm("end", it.path), ("stopping\n", "hhm: the save was refused (42)\n", 0))
        output, error = it.process.communicate(timeout=WAIT)
        check("a refused save: the server", (output, error, it.process.returncode), ("", "hhm: file: Create\n", 4))
        os.removedirs(os.path.join(path + ".new", "full"))


def an_end_waits_for_the_save():
    """A server whose one worker has a session answers once that session has ended."""
    with Server([*SMALL, "--workers", "1"]) as it:
        with it.link() as link:
            link.sendall(put_frame(7, 1, text(5)))
            check("a busy worker: a put", link.recv(64), accepted(0, 5))
            words = [server.PROGRAM, "end", it.path]
            ends = subprocess.Popen(words, stdout=subprocess.PIPE, stderr=subprocess.PIPE, text=True)
            time.sleep(0.5)
            check("a busy worker: it waits", ends.poll(), None)
        output, error = ends.communicate(timeout=WAIT)
        check("a busy worker: it ends", (output, error, ends.returncode), ("stopping\n", "", 0))
        it.ends("a busy worker", 1, 5)


# A name, what is answered to each question, what `end` writes and ends with, and what was asked.
ANSWERS = [
    ("saved", [SAVED, STOPPING], ("stopping\n", "", 0), [SAVE, STOP]),
    ("no path", [refused(43), STOPPING], ("stopping\n", "", 0), [SAVE, STOP]),
    ("the save fails", [refused(42), STOPPING], ("stopping\n", "hhm: the save was refused (42)\n", 0), [SAVE, STOP]),
    ("no memory to save", [refused(1), STOPPING], ("stopping\n", "hhm: the save was refused (1)\n", 0), [SAVE, STOP]),
    ("no memory to stop", [SAVED, refused(1)], SHORT_OF_MEMORY, [SAVE, STOP]),
    ("no memory", [refused(1), refused(1)], ("", "hhm: the save was refused (1)\nhhm: server: Refused (1)\n", 5), [SAVE, STOP]),
    ("the stop is refused", [SAVED, refused(46, 7)], ("", "hhm: server: Refused (46)\n", 4), [SAVE, STOP]),
    ("another reply to the save", [accepted(0, 5)], BAD_REPLY, [SAVE]),
    ("another reply to the stop", [SAVED, SAVED], BAD_REPLY, [SAVE, STOP]),
    ("an unknown kind", [b"\0\0\0\0\x7f"], BAD_REPLY, [SAVE]),
    ("a long reply", [struct.pack(">IB", 65, 0x86) + bytes(65)], BAD_REPLY, [SAVE]),
    ("a reply of another length", [struct.pack(">IB", 7, 0x86) + bytes(7)], BAD_REPLY, [SAVE]),
    ("a closed connection", [b""], NO_ANSWER, [SAVE]),
    ("half a head", [b"\0\0\0"], NO_ANSWER, [SAVE]),
    ("half a body", [SAVED[:-1]], NO_ANSWER, [SAVE]),
    ("closed at the stop", [SAVED, b""], NO_ANSWER, [SAVE, STOP]),
]

COUNTS = struct.pack(">IBQQ", 16, 0x84, 2**64 - 1, 2**63)
STATUSES = [
    ("large numbers", COUNTS, (f"batches {2**64 - 1} total {2**63}\n", "", 0)),
    ("no memory", refused(1), SHORT_OF_MEMORY),
    ("another code", refused(46, 2), ("", "hhm: server: Refused (46)\n", 4)),
    ("another reply", SAVED, BAD_REPLY),
    ("a closed connection", b"", NO_ANSWER),
    ("half a body", COUNTS[:-1], NO_ANSWER),
]


def replies_are_judged():
    for name, answers, wanted, kinds in ANSWERS:
        peer = Peer(*answers)
        check(f"end, {name}", hhm("end", peer.path), wanted)
        peer.ends(f"end, {name}", kinds)
    for name, answer, wanted in STATUSES:
        peer = Peer(answer)
        check(f"status, {name}", hhm("status", peer.path), wanted)
        peer.ends(f"status, {name}", [STATUS])


def silence_ends_a_status():
    """A server that says nothing for ten seconds hasn't answered."""
    with socket.socket(socket.AF_UNIX) as silent:
        path = os.path.join(server.FOLDER, "silent")
        silent.bind(path)
        silent.listen()
        began = time.monotonic()
        check("a silent server", hhm("status", path), NO_ANSWER)
        check("a silent server: the time", 9 < time.monotonic() - began < 30, True)


def where_nobody_listens():
    with socket.socket() as taken:
        taken.bind(("127.0.0.1", 0))
        closed = f"127.0.0.1:{taken.getsockname()[1]}"
        words = [closed, f"tcp:{closed}", "127.0.0.1", "127.0.0.1:", "nowhere.invalid:7", "/nowhere/socket", "unix:nowhere"]
        for word in ("status", "end"):
            for address in words:
                check(f"{word} {address}", hhm(word, address), NOT_REACHED)
        check(f"{word}: no address", (hhm(word)[2], hhm(word, "")[2]), (2, 2))


def an_output_that_takes_nothing_is_a_fault():
    with Server(SMALL) as it, open("/dev/full", "w", encoding="utf-8") as full:
        words = [server.PROGRAM, "status", it.path]
        ran = subprocess.run(words, stdout=full, stderr=subprocess.PIPE, text=True, timeout=WAIT)
        check("a full output", (ran.stderr, ran.returncode), ("hhm: output failed after 0 bytes\n", 4))


def tests():
    a_status_is_written()
    an_end_saves_and_stops()
    a_refused_save_is_reported()
    an_end_waits_for_the_save()
    replies_are_judged()
    silence_ends_a_status()
    where_nobody_listens()
    an_output_that_takes_nothing_is_a_fault()


if __name__ == "__main__":
    sys.exit(server.run_all(tests))
