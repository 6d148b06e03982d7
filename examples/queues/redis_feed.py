#!/usr/bin/env python3
"""A stream of Redis feeds a server of hhm: an example, on Python's own library.

    redis_feed.py REDIS_HOST:PORT STREAM CONSUMER HHM_ADDRESS [--log] [--group 100] [--quiet SECONDS]

It is one consumer of the group `hhm`; several may run, each under a name of its own. Each entry of the stream has a
field `b`, a message as feeding.py has it. `--log` says that the server has a log. With `--quiet` it ends once nothing
came for so long, and without it never. Redis must keep what it was told: `appendonly yes` and `appendfsync always`.
"""
import argparse
import socket
import time
from typing import Any, List

from feeding import Feeding, Message

GROUP = "hhm"
# The milliseconds after which what another consumer has taken, and not acknowledged, is taken from it.
LEFT = 5000


class Redis:
    """A connection, made again where it is lost; the request is then sent again."""

    def __init__(self, address: str):
        host, port = address.rsplit(":", 1)
        self.place, self.link = (host, int(port)), None

    def ask(self, *words: Any) -> Any:
        sent = [word if isinstance(word, bytes) else str(word).encode() for word in words]
        frame = b"*%d\r\n" % len(sent) + b"".join(b"$%d\r\n%b\r\n" % (len(word), word) for word in sent)
        while True:
            try:
                if self.link is None:
                    self.link = socket.create_connection(self.place, 20)
                    self.file = self.link.makefile("rb")
                self.link.sendall(frame)
                return self.reply()
            except OSError:
                self.link = None
                time.sleep(0.3)

    def reply(self) -> Any:
        line = self.file.readline()
        if not line.endswith(b"\r\n"):
            raise ConnectionError("closed")
        kind, rest = line[:1], line[1:-2]
        if kind == b"-":
            if rest.startswith(b"LOADING"):
                raise ConnectionError(rest)
            return RuntimeError(rest.decode())
        if kind in b"+:":
            return rest if kind == b"+" else int(rest)
        if int(rest) < 0:
            return None
        if kind == b"$":
            return self.file.read(int(rest) + 2)[:-2]
        return [self.reply() for _ in range(int(rest))]


def messages_of(entries: Any) -> List[Message]:
    return [Message(entry[0], entry[1][1]) for entry in entries or [] if entry and entry[1]]


def taken(redis: Redis, given: argparse.Namespace, since: str) -> List[Message]:
    """The next messages: of this consumer's own that it hasn't acknowledged (`0`), or new ones (`>`)."""
    words = ["XREADGROUP", "GROUP", GROUP, given.consumer, "COUNT", given.group, "BLOCK", 500, "STREAMS", given.stream]
    found = redis.ask(*words, since)
    if isinstance(found, Exception):
        raise found
    return messages_of(found[0][1]) if found else []


def left_behind(redis: Redis, given: argparse.Namespace) -> List[Message]:
    words = ["XAUTOCLAIM", given.stream, GROUP, given.consumer, LEFT, "0-0", "COUNT", given.group]
    found = redis.ask(*words)
    return messages_of(found[1]) if isinstance(found, list) else []


def consume(given: argparse.Namespace) -> int:
    redis, count, last = Redis(given.redis), 0, time.monotonic()
    redis.ask("XGROUP", "CREATE", given.stream, GROUP, "0", "MKSTREAM")
    feeding = Feeding(given.hhm, given.log)
    since = "0"
    while given.quiet is None or time.monotonic() - last < given.quiet:
        messages = taken(redis, given, since)
        if not messages:
            since, messages = ">", left_behind(redis, given)
        if messages:
            redis.ask("XACK", given.stream, GROUP, *feeding.put(messages))
            count, last = count + len(messages), time.monotonic()
    feeding.close()
    return count


def main() -> None:
    words = argparse.ArgumentParser(description="Feeds a stream of Redis into a server of hhm.")
    for name in ("redis", "stream", "consumer", "hhm"):
        words.add_argument(name)
    words.add_argument("--log", action="store_true")
    words.add_argument("--group", type=int, default=100)
    words.add_argument("--quiet", type=float)
    print("messages", consume(words.parse_args()))


if __name__ == "__main__":
    main()
