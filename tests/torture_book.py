"""What the clients of tests/log_torture.py put, what they were answered, and the connections that they have.

For the script beside it. A batch is known by a pair, its client and its number. Its cells come from the pair and from
the rows and columns that the server had when it was put first: so a batch that is sent again after these have grown is
the same batch, and its text may have the smaller size still.
"""
import collections
import random
import re
import socket
import struct
import threading
import time

from hhm_client import put_cells_frame, put_frame, text_of
from log_bytes import Setup

STATUS, SAVE, STOP, STORED, STATS = (struct.pack(">IB", 0, kind) for kind in (4, 6, 7, 9, 12))
ACCEPTED, COUNTS, SAVED, STOPPING, REFUSED = 0x81, 0x84, 0x86, 0x87, 0xFF
DIMENSIONS_DIFFER, INDEX_OUT_OF_RANGE, OVER_TOTAL, BOOK_FULL = 20, 22, 31, 32
SAVE_FAILED, LOG_FULL, LOG_FAILED = 42, 34, 35
WAIT = 60
MOST_ROWS = 2**60


class Wrong(Exception):
    """What is wrong with a life."""


def demand(is_right, words):
    if not is_right:
        raise Wrong(words)


# How many cells batches have: few, at times some pages of them, or none.
CELL_COUNTS = [0, 1, 1, 1, 1, 1, 2, 3, 4] * 14 + [300, 3000]


def cells_of(pair, size):
    """The cells of a batch of a matrix of this size, each at a place of its own; of some batches at the last place."""
    rows, cols = size
    mixed = (pair[0] * 1_000_003 + pair[1] + 1) * 6_364_136_223_846_793_005 % 2**64
    first, count = mixed * mixed >> 8, CELL_COUNTS[(mixed >> 45) % len(CELL_COUNTS)]
    places = [(first + 7_919 * n) % (rows * cols) for n in range(count)]
    if places and pair[1] % 5 == 0:
        places[0] = rows * cols - 1
    return [(place // cols, place % cols, place % 9) for place in dict.fromkeys(places)]


class Book:
    """What clients sent, and what they were answered."""

    def __init__(self):
        self.lock, self.places, self.pairs, self.unknown, self.least = threading.Lock(), {}, {}, {}, 0
        self.counts = collections.Counter()
        # The setup of the server; the rows and columns with which each batch was put first, and its total.
        self.setup, self.sizes, self.totals = None, {}, {}
        # The total of all that was answered or is not known; and what was refused as too much, which isn't there.
        self.sum, self.over = 0, []

    def sends(self, pair):
        with self.lock:
            if pair not in self.sizes:
                self.sizes[pair] = self.setup.rows, self.setup.cols
                self.totals[pair] = sum(count for _, _, count in self.cells(pair))
            self.unknown[pair] = True
            self.sum += self.totals[pair]

    def cells(self, pair):
        return cells_of(pair, self.sizes[pair])

    def frame(self, pair):
        """The first put of a batch: every other one as a text."""
        return put_cells_frame(*pair, self.cells(pair)) if pair[1] % 2 else self.text(pair, *self.sizes[pair])

    def frame_again(self, draw, pair):
        """A put of a batch that was sent before: as cells, or as a text of the rows and columns of then or of now."""
        how = draw.choice(["cells", "then", "now"])
        if how == "cells":
            return put_cells_frame(*pair, self.cells(pair))
        size = (self.setup.rows, self.setup.cols) if how == "now" else self.sizes[pair]
        self.counts["texts of a smaller size"] += size != (self.setup.rows, self.setup.cols)
        return self.text(pair, *size)

    def text(self, pair, rows, cols):
        return put_frame(*pair, text_of(rows, cols, self.cells(pair)))

    def answers(self, pair, index, total):
        """A batch was accepted with this place and this total."""
        with self.lock:
            self.unknown.pop(pair, None)
            known = self.places.setdefault(pair, (index, total))
            demand(known == (index, total), f"batch {pair} was answered {known} and then {(index, total)}")
            other = self.pairs.setdefault(index, pair)
            demand(other == pair, f"place {index} is of {other} and of {pair}")
            is_within = index < self.setup.most and total <= self.setup.limit
            demand(is_within, f"batch {pair} was accepted at {(index, total)}, and the server has {self.setup}")
            self.least = max(self.least, index + 1)

    def too_much(self, pair, code):
        """A batch was refused by the limit or by the most batches: it isn't there."""
        with self.lock:
            demand(pair in self.unknown, f"batch {pair} was accepted, and then refused by {code}")
            count = len(self.places) + len(self.unknown)
            is_right = self.sum > self.setup.limit if code == OVER_TOTAL else count > self.setup.most
            demand(is_right, f"batch {pair} was refused by {code}: {count} batches, total {self.sum}, {self.setup}")
            del self.unknown[pair]
            self.sum -= self.totals[pair]
            self.over.append(pair)
            self.counts["puts over a limit"] += 1

    def send_over(self, draw):
        """Some batches that were refused as too much, which are sent once more."""
        pairs = [pair for pair in self.over[:40] if draw.random() < 0.5]
        for pair in pairs:
            self.over.remove(pair)
            self.sends(pair)
        return pairs

    def is_stored(self, batches):
        """So many batches are durable, as the server reports."""
        with self.lock:
            self.least = max(self.least, batches)

    def total_at(self, batches):
        """The total of the first so many batches, None where no reply had it."""
        if batches == 0:
            return 0
        pair = self.pairs.get(batches - 1)
        return pair and self.places[pair][1]

    def accepted(self):
        """How many batches and which total a setup must have room for, as far as replies say."""
        last = max(self.pairs, default=-1)
        return last + 1, self.total_at(last + 1)

    def sent(self):
        """How many batches and which total are there at most."""
        return len(self.places) + len(self.unknown), self.sum

    def judge_left(self, entries, least, refused, moment):
        """What a file has, by client, number, cells and total: up to `least` each batch at the place that it was
        answered with, and behind these some that were sent and aren't `refused`; each of them once."""
        pairs = [entry[:2] for entry in entries]
        demand(len({*pairs}) == len(pairs), f"{moment}: a batch stands twice")
        for place, (pair, entry) in enumerate(zip(pairs, entries)):
            due = self.pairs.get(place, pair) if place < least else pair
            demand(pair == due, f"{moment}: place {place} has {pair}, and not {due}")
            demand(pair in self.sizes and pair not in refused, f"{moment}: {pair} at {place} of {least} wasn't put")
            right = (*pair, len(self.cells(pair)), self.totals[pair])
            demand(entry == right, f"{moment}: place {place} has {entry}, and not {right}")

    def judge_all(self):
        """Every place up to the last has one batch, and the totals add up. The sum of all cells."""
        demand(sorted(self.pairs) == list(range(len(self.pairs))), "not every place has a batch")
        total, sums = 0, {}
        for index in range(len(self.pairs)):
            pair = self.pairs[index]
            for row, col, count in self.cells(pair):
                sums[row, col] = sums.get((row, col), 0) + count
                total += count
            demand(self.places[pair] == (index, total), f"{pair} has {self.places[pair]}, not {(index, total)}")
        return sums, total


class Link:
    """A connection that sends frames and takes the replies in order."""

    def __init__(self, path):
        self.socket = socket.socket(socket.AF_UNIX)
        self.socket.settimeout(WAIT)
        self.socket.connect(path)
        self.stream = self.socket.makefile("rb")

    def __enter__(self):
        return self

    def __exit__(self, *_):
        self.stream.close()
        self.socket.close()

    def send(self, frames):
        self.socket.sendall(frames)

    def body(self):
        """The kind and the body of a reply; a ConnectionError where none comes."""
        head = self.stream.read(5)
        size = int.from_bytes(head[:4], "big")
        body = self.stream.read(size)
        if len(head) < 5 or len(body) < size:
            raise ConnectionError("the server has gone")
        return head[4], body

    def reply(self):
        """The kind and the numbers of a reply."""
        kind, body = self.body()
        if kind == REFUSED:
            return REFUSED, struct.unpack(">HQ", body)
        return kind, struct.unpack(f">{len(body) // 8}Q", body)

    def stats(self):
        """The identity of the book, and the setup of the server, as Stats reports them."""
        self.send(STATS)
        _, body = self.body()
        lines = body.decode("ascii").splitlines()
        found = [it for it in map(re.compile(r'book\{id="([0-9a-f]{32})"\} 1').fullmatch, lines) if it]
        demand(len(found) == 1, f"a Stats: {body!r}")
        figures = dict(line.split(" ") for line in lines)
        cuts = tuple(int(figures[name]) for name in figures if name.startswith("layer_cut_entries"))
        rows, cols, *others = (int(figures[name]) for name in ("rows", "cols", "shards", "limit", "max_batches"))
        return int(found[0][1], 16), Setup(rows, cols, cuts, *others)

    def ask(self, frame):
        self.send(frame)
        return self.reply()


def put_again(link, book, pairs, draw):
    """Sends batches, up to 64 at once, each of which must be accepted, unless it is new and too much."""
    for first in range(0, len(pairs), 64):
        part = pairs[first : first + 64]
        link.send(b"".join(book.frame_again(draw, pair) for pair in part))
        for pair in part:
            kind, numbers = link.reply()
            if kind == REFUSED and numbers[0] in (OVER_TOTAL, BOOK_FULL):
                book.too_much(pair, numbers[0])
                continue
            demand(kind == ACCEPTED, f"batch {pair} is sent again: {kind:x} {numbers}")
            book.answers(pair, *numbers)


def put_outside(link, setup):
    """A text of more rows or columns than the server's, and cells outside of these, are refused."""
    for rows, cols in ((setup.rows + 1, setup.cols), (setup.rows, setup.cols + 1)):
        if max(rows, cols) <= MOST_ROWS:
            replied = link.ask(put_frame(1000, 0, text_of(rows, cols, [(0, 0, 1)])))
            demand(replied == (REFUSED, (DIMENSIONS_DIFFER, 0)), f"a text of {rows} {cols}: {replied}, {setup}")
    for row, col in ((setup.rows, 0), (0, setup.cols)):
        replied = link.ask(put_cells_frame(1000, 0, [(row, col, 1)]))
        demand(replied == (REFUSED, (INDEX_OUT_OF_RANGE, 0)), f"a cell at {row} {col}: {replied}, {setup}")


class Putter(threading.Thread):
    """A client that puts until the server has gone, or `ended` is set."""

    def __init__(self, path, book, client, first, depth, ended):
        super().__init__(daemon=True)
        self.path, self.book, self.client, self.next = path, book, client, first
        self.depth, self.ended, self.fault = depth, ended, None

    def run(self):
        try:
            with Link(self.path) as link:
                self.put(link, random.Random(f"puts {self.client} {self.next}"))
        except OSError:
            pass
        except Exception as fault:
            self.fault = fault

    def put(self, link, draw):
        waiting, most = [], self.next + draw.choice([20, 200, 600])
        while not self.ended.is_set() and self.next < most:
            part = [(self.client, self.next + n) for n in range(draw.randint(1, self.depth))]
            self.next += len(part)
            for pair in part:
                self.book.sends(pair)
            link.send(b"".join(map(self.book.frame, part)))
            waiting += part
            # sometimes the next ones go before all replies have come
            left = 0 if len(waiting) >= self.depth or draw.random() < 0.7 else len(waiting) // 2
            while len(waiting) > left:
                self.take(waiting.pop(0), *link.reply())
        for pair in waiting:
            self.take(pair, *link.reply())
        self.ended.wait(WAIT)

    def take(self, pair, kind, numbers):
        if kind == ACCEPTED:
            self.book.answers(pair, *numbers)
        elif kind == REFUSED and numbers[0] in (OVER_TOTAL, BOOK_FULL):
            self.book.too_much(pair, numbers[0])
            time.sleep(0.002)
        else:
            demand(kind == REFUSED and numbers[0] in (LOG_FULL, LOG_FAILED), f"put {pair}: {kind:x} {numbers}")
            self.book.counts["puts refused"] += 1
            time.sleep(0.002)


class Saver(threading.Thread):
    """Asks what is stored and, with pauses, for saves."""

    def __init__(self, path, book, pause, ended, may_fail):
        super().__init__(daemon=True)
        self.path, self.book, self.pause, self.ended = path, book, pause, ended
        self.may_fail, self.fault = may_fail, None

    def run(self):
        try:
            with Link(self.path) as link:
                while not self.ended.wait(self.pause):
                    self.ask(link)
        except OSError:
            pass
        except Exception as fault:
            self.fault = fault

    def ask(self, link):
        _, (stored, _) = link.ask(STORED)
        self.book.is_stored(stored)
        kind, numbers = link.ask(SAVE)
        if kind == SAVED:
            demand(numbers[0] >= stored, f"saved {numbers[0]} of {stored} that were stored")
            self.book.is_stored(numbers[0])
            self.book.counts["saves"] += 1
        else:
            self.book.counts["saves refused"] += 1
            demand(self.may_fail and numbers[0] == SAVE_FAILED, f"a save: {kind:x} {numbers}")
