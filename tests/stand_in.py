"""A server of a few frames of docs/FORMATS.md, which answers them out of a dictionary: for what the built program can't
be brought to say, as numbers of Stats that are chosen, or that it doesn't know a kind.

Puts of cells, cells, rows, statuses, ranges, tops and stats are answered, and saves; every other kind is refused.
"""
import collections
import socket
import struct
import threading

import server
from hhm_client import Refused
from peers import Peer, end, frame_of

MOST = 1_000_000


def cells_of_range(cells, bounds):
    """The body of the reply to a Range, worked out from all cells."""
    first_row, last_row, first_col, last_col, row, col, most = bounds
    found = sorted((*place, count) for place, count in cells.items()
                   if first_row <= place[0] <= last_row and first_col <= place[1] <= last_col and place >= (row, col))
    return bytes([len(found) > most]) + b"".join(struct.pack(">QQQ", *cell) for cell in found[:most])


def rows_of_top(cells, by, most):
    """The body of the reply to a Top, worked out from all cells."""
    sums = collections.defaultdict(lambda: [0, 0])
    for (row, _), count in cells.items():
        sums[row][0] += 1
        sums[row][1] += count
    rows = sorted(((row, *sum) for row, sum in sums.items()), key=lambda it: (-it[2 - by], it[0]))
    return b"".join(struct.pack(">QQQ", *row) for row in rows[:most])


# What is told of a server without its stats: by a Stored, and by the system of its process.
OTHERWISE = ("durable_batches", "resident_bytes", "uptime_seconds", "processor_seconds_total")


def knows_stats(hhm, what):
    """Whether a server answers a Stats; a line says what isn't tried where it doesn't."""
    try:
        hhm.stats()
        return True
    except Refused as why:
        if why.name != "UnknownKind":
            raise
        print(f"not tried: {what}: this program doesn't know Stats")
        return False


def sizes_of(cells):
    """What a server knows a batch by beside its numbers: how many cells it has, each place once, and their total."""
    return len({cell[:2] for cell in cells}), sum(cell[2] for cell in cells)


# The codes of refusals that end a session, of those that are given here.
ENDING = (b"\0\x01", b"\0\x33")


def frame(kind, body=b""):
    return struct.pack(">IB", len(body), kind) + body


class StandIn(Peer):
    """Listens at a Unix socket. `stats` is what it tells of itself, a dictionary, nothing where it knows no such kind,
    or the code of a refusal; `unknown` are further kinds that it doesn't know."""

    def __init__(self, size=(1 << 32, 1 << 32), stats=None, unknown=(), name="stand-in"):
        self.name, self.size, self.stats, self.unknown = name, size, stats, set(unknown)
        self.cells, self.book, self.asked = {}, {}, collections.Counter()
        self.lock = threading.Lock()
        super().__init__()

    def link(self):
        """A connection without the client."""
        link = socket.socket(socket.AF_UNIX)
        link.connect(self.path)
        return link

    def begin_again(self, stats, count):
        """Ends all connections, as a server that is killed, and goes on with the first so many of its batches."""
        with self.lock:
            pairs = list(self.book.items())[:count]
            self.stats, self.cells, self.book = stats, {}, {}
            for pair, (_, cells) in pairs:
                self.take(pair, cells)
            for link in self.links:
                end(link)
            self.links = []

    def meet(self, link):
        self.links.append(link)
        threading.Thread(target=self.serve, args=(link,), daemon=True).start()

    def serve(self, link):
        try:
            while request := frame_of(link):
                with self.lock:
                    self.asked[request[4]] += 1
                    reply = self.reply(request[4], request[5:])
                link.sendall(reply)
                if reply[4] == 0xFF and reply[5:7] in ENDING:
                    break
        except OSError:
            pass
        end(link)

    def put(self, cells):
        for row, col, count in cells:
            self.cells[row, col] = self.cells.get((row, col), 0) + count

    def total(self):
        return sum(self.cells.values())

    def reply(self, kind, body):
        numbers = [number for number, in struct.iter_unpack(">Q", body[: len(body) // 8 * 8])]
        if kind in self.unknown or (kind == 12 and self.stats is None):
            return server.refused(51)
        if kind == 12 and isinstance(self.stats, int):
            return server.refused(self.stats)
        if kind == 8:
            return self.take(tuple(numbers[:2]), list(zip(*[iter(numbers[2:])] * 3)))
        if kind in (2, 3) and any(number >= most for number, most in zip(numbers, self.size)):
            return server.refused(41)
        if kind == 2:
            count = self.cells.get(tuple(numbers))
            return frame(0x82, bytes(9) if count is None else struct.pack(">BQ", 1, count))
        if kind == 3:
            row = [count for place, count in self.cells.items() if place[0] == numbers[0]]
            return frame(0x83, struct.pack(">QQ", len(row), sum(row)))
        if kind in (4, 9):
            return frame(0x84, struct.pack(">QQ", len(self.book), self.total()))
        if kind == 6:
            return frame(0x86, struct.pack(">Q", len(self.book)))
        if kind == 10:
            return self.range(numbers)
        if kind == 11:
            by, most = struct.unpack(">BQ", body)
            is_good = by <= 1 and 1 <= most <= MOST
            return frame(0x89, rows_of_top(self.cells, by, most)) if is_good else server.refused(44)
        if kind == 12:
            told = self.stats() if callable(self.stats) else self.stats
            return frame(0x8A, "".join(f"{name} {value}\n" for name, value in told.items()).encode())
        return server.refused(51)

    def take(self, pair, cells):
        if pair not in self.book:
            self.put(cells)
            self.book[pair] = struct.pack(">QQ", len(self.book), self.total()), cells
        reply, known = self.book[pair]
        return frame(0x81, reply) if sizes_of(known) == sizes_of(cells) else server.refused(30)

    def range(self, bounds):
        first_row, last_row, first_col, last_col = bounds[:4]
        if not (first_row <= last_row < self.size[0] and first_col <= last_col < self.size[1]):
            return server.refused(41)
        if not 1 <= bounds[6] <= MOST:
            return server.refused(44)
        return frame(0x88, cells_of_range(self.cells, bounds))
