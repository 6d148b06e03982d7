#!/usr/bin/env python3
"""Feeds a log of connections into a server of hhm, in numbered batches, also while it grows.

    python3 clients/python/count_log.py --unix /run/hhm/hhm.sock --client 7 connections.log

Each line of the log is `source destination` or `source destination count`, with two IPv4 addresses; any other line is
skipped, and counted. The source's number is the row and the destination's the column, so the server is started with
`--rows 4294967296 --cols 4294967296`.

Batch k is lines 10000 k to 10000 k + 9999 of the log, and is sent once they are all there: a batch that was sent
shorter would be another one when more lines have come. So a run sends the full batches of a log and leaves the lines
behind them; with `--follow` it waits for more, until it gets SIGINT or SIGTERM; with `--ended`, which says that nothing
is added any more, it sends the last, shorter batch too. At the end it tells what this run sent. The status is 0; 1
where the server refused a batch, or this is another log; 4 where the server can't be reached or the log read.

A run that was interrupted, at whatever line, is begun again from the start with the same client number and the same
log: what the server has accepted counts once. Where the server began again from an older snapshot while a run goes on,
the run sends all from the log's start again by itself, and says so. Another log, also one that begins anew under the
same name, has another client number. Under the old one it is refused: by the server where the cells or the total of a
batch are not as many, and else by this program, which asks for all cells of the first batch after it was put, where one
has less than the batch gave it. (It can't tell that where other clients have put as much to each of these places.)
"""
import argparse
import itertools
import os
import signal
import socket
import sys
import time
from collections import Counter, deque

sys.path.insert(0, os.path.dirname(os.path.abspath(__file__)))
from hhm_client import BookWentBack, Client, Refused, address, number
from hhm_command import Once, show

LINES = 10_000
# Of how many addresses the numbers are kept.
KEPT = 1 << 20
PAUSE = 0.2


class Addresses(dict):
    """The numbers of IPv4 addresses by their words; None for any other word."""

    def __missing__(self, word):
        try:
            value = int.from_bytes(socket.inet_pton(socket.AF_INET, word.decode("ascii")), "big")
        except (OSError, ValueError):
            value = None
        if len(self) >= KEPT:
            self.clear()
        self[word] = value
        return value


class AnotherLog(Exception):
    """The client number was used for another log."""


class Feed:
    """A log on its way to a server, and what was sent of it."""

    def __init__(self, path, is_followed, is_ended):
        self.path, self.is_followed, self.is_ended = path, is_followed, is_ended
        self.addresses = Addresses()
        self.totals = deque()
        self.begin()

    def begin(self):
        """Counts nothing as sent."""
        self.totals.clear()
        self.batches = self.total = self.skipped = self.left = 0

    def stop(self, *_):
        """Sends what is full, and no more."""
        self.is_followed = False

    def line_batches(self, log):
        """The lines of each batch, whose last line has its LF unless the log has ended."""
        lines = []
        while True:
            if lines and not lines[-1].endswith(b"\n"):
                lines[-1] += log.readline()
            lines += itertools.islice(log, LINES - len(lines))
            if len(lines) == LINES and lines[-1].endswith(b"\n"):
                yield lines
                lines = []
            elif not self.waits(log):
                break
        if lines and self.is_ended:
            yield lines
        else:
            self.left = len(lines)

    def waits(self, log):
        """Whether the log is followed; then a moment has passed."""
        if self.is_followed:
            time.sleep(PAUSE)
            self.judge_growth(log)
        return self.is_followed

    def judge_growth(self, log):
        """An AnotherLog where another one stands under the path, or this one was cut."""
        opened = os.fstat(log.fileno())
        try:
            named = os.stat(self.path)
        except FileNotFoundError:
            named = None
        if named is None or not os.path.samestat(opened, named) or opened.st_size < log.tell():
            raise AnotherLog(f"{self.path} was begun anew: feed what is left of the old log with --ended, and the new "
                             "one under another client number")

    def cells(self, lines):
        """The cells of a batch's lines, (row, column, count), each place once and in order."""
        counts = {}
        for line, times in Counter(lines).items():
            words = line.split()
            count = self.count(words)
            row, col = (None, None) if count is None else (self.addresses[words[0]], self.addresses[words[1]])
            if row is None or col is None:
                self.skipped += times
            else:
                place = row << 32 | col
                counts[place] = counts.get(place, 0) + count * times
        return [(place >> 32, place & 0xFFFFFFFF, counts[place]) for place in sorted(counts)]

    @staticmethod
    def count(words):
        """The count of a line's words, or None where they are no line of a log."""
        if len(words) == 2:
            return 1
        if len(words) != 3 or not words[2].isdigit() or len(words[2]) > 20:
            return None
        count = int(words[2])
        return count if count < 1 << 64 else None

    def numbered(self, log):
        """The batches of the log, (number, cells)."""
        for place, lines in enumerate(self.line_batches(log)):
            cells = self.cells(lines)
            self.totals.append(sum(count for _, _, count in cells))
            yield place, cells

    def answered(self):
        """Counts the next batch as sent."""
        self.batches += 1
        self.total += self.totals.popleft()

    def put(self, hhm, log):
        """Puts the batches: the first by itself, and those of a log that is followed one by one, as they fill."""
        batches = self.numbered(log)
        for place, cells in itertools.islice(batches, 1):
            hhm.put(place, cells)
            self.answered()
            if any((hhm.cell(row, col) or 0) < count for row, col, count in cells):
                raise AnotherLog(f"another log was fed under client number {hhm.client}: its batch 0 had other cells")
        for _ in hhm.put_all(batches, depth=1 if self.is_followed else 16):
            self.answered()

    def put_until_all_are_there(self, hhm, log):
        """Puts the batches, and again from the log's start where the server went back."""
        while True:
            try:
                return self.put(hhm, log)
            except BookWentBack as fault:
                print(f"{fault}: the log is sent again from its start", file=sys.stderr, flush=True)
            log.seek(0)
            self.begin()

    def told(self, refused, client):
        """What is told of a refusal."""
        if isinstance(refused, AnotherLog):
            return str(refused)
        why = ""
        if refused.name == "NumberReused":
            why = f": under client number {client} another log was fed, or this one with --ended before its end"
        return f"batch {self.batches}: {refused}{why}"


def main():
    words = argparse.ArgumentParser(description="Feeds a log of connections into a server of hhm.")
    where = words.add_mutually_exclusive_group(required=True)
    where.add_argument("--tcp", type=address, action=Once, metavar="HOST:PORT")
    where.add_argument("--unix", action=Once, metavar="PATH")
    words.add_argument("--client", type=number, required=True, help="this log's number, of no other log")
    until = words.add_mutually_exclusive_group()
    until.add_argument("--follow", action="store_true", help="waits for more lines until SIGINT or SIGTERM")
    until.add_argument("--ended", action="store_true", help="the log grows no more: sends the last lines too")
    words.add_argument("log")
    given = words.parse_args()
    feed = Feed(given.log, given.follow, given.ended)
    if given.follow:
        for it in (signal.SIGINT, signal.SIGTERM):
            signal.signal(it, feed.stop)
    status = 0
    try:
        with Client(tcp=given.tcp, unix=given.unix, client=given.client) as hhm, open(given.log, "rb") as log:
            feed.put_until_all_are_there(hhm, log)
    except (AnotherLog, Refused) as refused:
        print(feed.told(refused, given.client), file=sys.stderr)
        status = 1
    except (OSError, ValueError) as fault:
        print(f"failed: {fault}", file=sys.stderr)
        status = 4
    sent = f"sent batches {feed.batches} total {feed.total}"
    more = f" skipped lines {feed.skipped} left lines {feed.left}" if status == 0 else ""
    show(f"{sent}{more}\n".encode())
    return status


if __name__ == "__main__":
    sys.exit(main())
