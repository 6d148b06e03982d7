#!/usr/bin/env python3
"""A stream of NATS JetStream feeds a server of hhm: an example, on Python's own library.

    nats_feed.py NATS_HOST:PORT STREAM HHM_ADDRESS [--log] [--group 100] [--quiet SECONDS]

It pulls from the stream's durable consumer `hhm`, which must acknowledge explicitly and is made where there is none;
several of these programs may run. Each message is as feeding.py has it. `--log` says that the server has a log. With
`--quiet` it ends once nothing came for so long, and without it never.
"""
import argparse
import json
import os
import socket
import time
from typing import Any, List, Optional, Tuple

from feeding import Feeding, Message

CONSUMER = "hhm"
# The nanoseconds after which what wasn't acknowledged is delivered again.
WAIT = 10_000_000_000


class Nats:
    """A connection, made again where it is lost."""

    def __init__(self, address: str):
        host, port = address.rsplit(":", 1)
        self.place, self.link, self.count = (host, int(port)), None, 0

    def connect(self) -> None:
        while self.link is None:
            try:
                self.link = socket.create_connection(self.place, 20)
                self.file = self.link.makefile("rb")
                self.file.readline()
                self.inbox = f"_INBOX.{os.getpid()}.{time.time_ns()}"
                options = json.dumps({"verbose": False, "pedantic": False, "headers": True, "no_responders": True})
                self.link.sendall(f"CONNECT {options}\r\nSUB {self.inbox}.> 1\r\nPING\r\n".encode())
                while self.line() != b"PONG":
                    pass
            except OSError:
                self.lose()

    def lose(self) -> None:
        self.link = None
        time.sleep(0.3)

    def line(self) -> bytes:
        line = self.file.readline()
        if not line.endswith(b"\r\n"):
            raise ConnectionError("closed")
        return line[:-2]

    def publish(self, subject: str, body: bytes, reply: str = "", headers: bytes = b"") -> None:
        """Sends a message, with lines of headers, each ended by CR LF."""
        front = b"NATS/1.0\r\n" + headers + b"\r\n" if headers else b""
        sizes = f"{len(front)} {len(front) + len(body)}" if headers else f"{len(body)}"
        word = "HPUB" if headers else "PUB"
        self.link.sendall(f"{word} {subject} {reply} {sizes}\r\n".encode() + front + body + b"\r\n")

    def message(self) -> Tuple[str, str, bytes, bytes]:
        """The subject, where to answer, the status of headers and the body of the next message."""
        while True:
            words = self.line().split()
            if words[0] == b"PING":
                self.link.sendall(b"PONG\r\n")
            elif words[0] == b"-ERR":
                raise ConnectionError(words)
            elif words[0] in (b"MSG", b"HMSG"):
                has_headers = words[0] == b"HMSG"
                front, size = int(words[-2]) if has_headers else 0, int(words[-1])
                reply = words[3].decode() if len(words) == 5 + has_headers else ""
                data = self.file.read(size + 2)[:-2]
                status = data[:front].split(b"\r\n")[0][9:12] if has_headers else b""
                return words[1].decode(), reply, status, data[front:]

    def box(self) -> str:
        self.count += 1
        return f"{self.inbox}.{self.count}"

    def ask(self, subject: str, body: bytes = b"", headers: bytes = b"") -> Any:
        """What JetStream answers; asked again until it does."""
        while True:
            self.connect()
            try:
                box = self.box()
                self.publish(subject, body, box, headers)
                to, _, status, data = self.message()
                while to != box:
                    to, _, status, data = self.message()
                if status != b"503":
                    return json.loads(data)
                time.sleep(0.3)
            except OSError:
                self.lose()

    def pull(self, stream: str, count: int) -> List[Message]:
        """The next messages of the consumer, within half a second."""
        wanted = json.dumps({"batch": count, "expires": 500_000_000}).encode()
        self.publish(f"$JS.API.CONSUMER.MSG.NEXT.{stream}.{CONSUMER}", wanted, self.box())
        found: List[Message] = []
        while len(found) < count:
            _, reply, status, body = self.message()
            if status or not reply.startswith("$JS.ACK."):
                break
            found.append(Message(reply, body))
        return found


def group_of(nats: Nats, given: argparse.Namespace) -> Optional[List[Message]]:
    nats.connect()
    try:
        return nats.pull(given.stream, given.group)
    except OSError:
        nats.lose()
        return None


def acknowledge(nats: Nats, tokens: List[str]) -> None:
    """What can't be acknowledged is delivered again, and counts once."""
    try:
        for token in tokens:
            nats.publish(token, b"+ACK")
    except OSError:
        nats.lose()


def consume(given: argparse.Namespace) -> int:
    nats, count, last = Nats(given.nats), 0, time.monotonic()
    config = {"durable_name": CONSUMER, "ack_policy": "explicit", "ack_wait": WAIT, "max_ack_pending": 10 * given.group}
    wanted = json.dumps({"stream_name": given.stream, "config": config}).encode()
    nats.ask(f"$JS.API.CONSUMER.DURABLE.CREATE.{given.stream}.{CONSUMER}", wanted)
    feeding = Feeding(given.hhm, given.log)
    while given.quiet is None or time.monotonic() - last < given.quiet:
        messages = group_of(nats, given)
        if messages:
            acknowledge(nats, feeding.put(messages))
            count, last = count + len(messages), time.monotonic()
    feeding.close()
    return count


def main() -> None:
    words = argparse.ArgumentParser(description="Feeds a stream of NATS JetStream into a server of hhm.")
    for name in ("nats", "stream", "hhm"):
        words.add_argument(name)
    words.add_argument("--log", action="store_true")
    words.add_argument("--group", type=int, default=100)
    words.add_argument("--quiet", type=float)
    print("messages", consume(words.parse_args()))


if __name__ == "__main__":
    main()
