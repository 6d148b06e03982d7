"""What stands between clients and a server in their tests, or in a server's place, and programs that are asked.

Each ends what it began when it is left, and nothing waits for longer than `WAIT` seconds.
"""
import contextlib
import itertools
import os
import socket
import struct
import subprocess
import threading
import time

import server
from hhm_client import Refused

# The seconds that anything may take that is waited for.
WAIT = 30


class Proxy:
    """Stands between clients and a server. `lost` says of its connections, in order, how many replies each gives before
    it loses one, which the server has written, and ends. None loses nothing, and neither do those behind the list."""

    def __init__(self, at, unix, lost):
        self.at, self.lost, self.links = at, iter(lost), []
        self.listener = socket.socket(socket.AF_UNIX if unix else socket.AF_INET)
        self.path = os.path.join(server.FOLDER, "proxy")
        with contextlib.suppress(FileNotFoundError):
            os.remove(self.path)
        self.listener.bind(self.path if unix else ("127.0.0.1", 0))
        self.listener.listen(16)
        self.where = {"unix": self.path} if unix else {"tcp": "127.0.0.1:%d" % self.listener.getsockname()[1]}
        self.how_often = 0
        self.thread = threading.Thread(target=self.accept, daemon=True)
        self.thread.start()

    def __enter__(self):
        return self

    def __exit__(self, *_):
        # (to close what a thread waits for wakes no thread, and ends no connection)
        end(self.listener)
        self.thread.join()
        for link in self.links:
            end(link)

    def words(self):
        """The words of a command line."""
        [(how, place)] = self.where.items()
        return [f"--{how}", place]

    def accept(self):
        with contextlib.suppress(OSError):
            while True:
                ours = self.listener.accept()[0]
                theirs = self.at.link(ours.family == socket.AF_UNIX)
                self.links += [ours, theirs]
                threading.Thread(target=self.forward, args=(ours, theirs), daemon=True).start()
                threading.Thread(target=self.answer, args=(theirs, ours, next(self.lost, None)), daemon=True).start()

    @staticmethod
    def forward(source, target):
        with contextlib.suppress(OSError):
            while more := source.recv(65536):
                target.sendall(more)
        end(target)

    def answer(self, source, target, most):
        with contextlib.suppress(OSError):
            for number in itertools.count():
                frame = frame_of(source)
                if not frame:
                    break
                if number == most:
                    self.how_often += 1
                    break
                target.sendall(frame)
        end(target)
        end(source)


def end(link):
    with contextlib.suppress(OSError):
        link.shutdown(socket.SHUT_RDWR)


def frame_of(link):
    """The next frame, or nothing at the end."""
    head = link.recv(5, socket.MSG_WAITALL)
    if len(head) < 5:
        return b""
    length = int.from_bytes(head[:4], "big")
    return head + (link.recv(length, socket.MSG_WAITALL) if length else b"")


class Peer:
    """Listens at a Unix socket, and meets one connection after another as its kind does it. At its end all `links` that
    it keeps are ended."""

    name = ""

    def __init__(self):
        self.links = []
        self.path = os.path.join(server.FOLDER, self.name)
        with contextlib.suppress(FileNotFoundError):
            os.remove(self.path)
        self.listener = socket.socket(socket.AF_UNIX)
        self.listener.bind(self.path)
        self.listener.listen(16)
        threading.Thread(target=self.accept, daemon=True).start()

    def __enter__(self):
        return self

    def __exit__(self, *_):
        for link in [self.listener, *self.links]:
            end(link)

    def accept(self):
        with contextlib.suppress(OSError):
            while True:
                self.meet(self.listener.accept()[0])

    def meet(self, link):
        raise NotImplementedError


def is_stats(frame):
    """Whether a request is a Stats, by which a client asks for the server's book before its first put."""
    return frame[4:5] == b"\x0c"


# A reply to a Stats that tells nothing.
NO_STATS = struct.pack(">IB", 0, 0x8A)


class Liar(Peer):
    """Answers the first request on each connection with the same bytes, or not at all, and counts the connections. One
    that lies to puts tells nothing by a Stats before them."""

    name = "liar"

    def __init__(self, answer, to_puts=False):
        self.answer, self.to_puts, self.count = answer, to_puts, 0
        super().__init__()

    def meet(self, link):
        with link:
            self.count += 1
            if is_stats(frame_of(link)) and self.to_puts:
                link.sendall(NO_STATS)
                frame_of(link)
            if self.answer is not None:
                link.sendall(self.answer)
            link.recv(1)


def run(words, **how):
    """What a program writes to both outputs, and its status; no status where it doesn't end."""
    try:
        ended = subprocess.run(words, capture_output=True, text=True, timeout=WAIT, **how)
    except subprocess.TimeoutExpired:
        return "", f"it hasn't ended after {WAIT} seconds", None
    return ended.stdout, ended.stderr, ended.returncode


def until(call, wanted):
    """Waits for an answer, and gives the last one."""
    ends = time.monotonic() + WAIT
    while (answer := call()) != wanted and time.monotonic() < ends:
        time.sleep(0.02)
    return answer


@contextlib.contextmanager
def started(words):
    """A program, which ends here at the latest."""
    with subprocess.Popen(words, stdout=subprocess.PIPE, stderr=subprocess.PIPE, text=True) as process:
        try:
            yield process
        finally:
            process.kill()


def fault_of(call):
    """What a call ends with: the name of a refusal or of an exception, or its answer."""
    try:
        return call()
    except Refused as refused:
        return str(refused)
    except Exception as fault:
        return type(fault).__name__


class Driver:
    """A program that asks a server, by one client, what it is told (tests/drivers)."""

    def __init__(self, command, path, timeout=WAIT * 1000, attempts=14):
        words = [*command, path, str(timeout), str(attempts)]
        self.process = subprocess.Popen(words, stdin=subprocess.PIPE, stdout=subprocess.PIPE, text=True, bufsize=1)

    def __enter__(self):
        return self

    def __exit__(self, *_):
        self.process.kill()
        self.process.communicate()

    def ask(self, *words):
        """The answer; nothing where none comes in time, and the program is ended then."""
        late = threading.Timer(WAIT, self.process.kill)
        late.start()
        try:
            self.process.stdin.write(" ".join(map(str, words)) + "\n")
            return self.process.stdout.readline().rstrip("\n")
        except BrokenPipeError:
            return ""
        finally:
            late.cancel()


class Gate(Peer):
    """Forwards so many bytes of its first connection to a server; the rest, and each reply, wait until the event
    `is_open` is set. A Stats at its begin goes through before, with its reply, unless the gate `holds_stats`. Further
    connections are forwarded as they are."""

    name = "gate"

    def __init__(self, at, most, holds_stats=False):
        self.at, self.most, self.holds_stats = at, most, holds_stats
        self.is_open, self.is_full = threading.Event(), threading.Event()
        super().__init__()

    def __exit__(self, *_):
        self.is_open.set()
        super().__exit__()

    def meet(self, link):
        theirs = self.at.link()
        most = None if self.links else self.most
        self.links += [link, theirs]
        threading.Thread(target=self.begin, args=(link, theirs, most), daemon=True).start()

    def begin(self, link, theirs, most):
        with contextlib.suppress(OSError):
            if not self.holds_stats and is_stats(link.recv(5, socket.MSG_PEEK | socket.MSG_WAITALL)):
                theirs.sendall(frame_of(link))
                link.sendall(frame_of(theirs))
            threading.Thread(target=self.forward, args=(theirs, link, most and 0), daemon=True).start()
            self.forward(link, theirs, most)

    def forward(self, source, target, most):
        with contextlib.suppress(OSError):
            while more := source.recv(65536 if not most else min(most, 65536)):
                if most == 0 and not self.is_open.is_set():
                    self.is_full.set()
                    self.is_open.wait()
                target.sendall(more)
                most = most and most - len(more)
        end(target)


class Sink(Peer):
    """Reads all that comes over one connection after another, answers nothing but a Stats at its begin, and counts the
    bytes of each behind that."""

    name = "sink"

    def __init__(self):
        self.counts = []
        super().__init__()

    def meet(self, link):
        with link:
            self.counts.append(0)
            if is_stats(link.recv(5, socket.MSG_PEEK | socket.MSG_WAITALL)):
                frame_of(link)
                link.sendall(NO_STATS)
            while more := link.recv(65536):
                self.counts[-1] += len(more)


class Slow(Peer):
    """Accepts every put that it reads, one by one, its number for its place, and has next to no room for replies that
    aren't read. With `most` it reads nothing more over its first connection after so many requests."""

    name = "slow"

    def __init__(self, most=None):
        self.most = most
        super().__init__()

    def meet(self, link):
        link.setsockopt(socket.SOL_SOCKET, socket.SO_SNDBUF, 1)
        most = None if self.links else self.most
        self.links.append(link)
        threading.Thread(target=self.answer, args=(link, most), daemon=True).start()

    @staticmethod
    def answer(link, most):
        with contextlib.suppress(OSError):
            for _ in itertools.count() if most is None else range(most):
                frame = frame_of(link)
                if not frame:
                    break
                place = int.from_bytes(frame[13:21], "big")
                is_put = frame[4] == 8
                counts = struct.pack(">IBQQ", 16, 0x81 if is_put else 0x84, place if is_put else 10**6, 10**6)
                link.sendall(NO_STATS if is_stats(frame) else counts)
