#!/usr/bin/env python3
"""A client of `hhm serve`, and a command line for it. Python 3.8 or later, its standard library alone.

    with Client(unix="/run/hhm/hhm.sock", client=7) as hhm:
        hhm.put(1, [(0, 0, 5), (2, 1, 7)])     # batch 1 of client 7: cells (row, column, count), counted from 0
        hhm.put(2, Arrays(rows, cols, counts)) # three arrays of unsigned 64-bit numbers, as numpy's of dtype uint64
        print(hhm.cell(0, 0), hhm.row(2), hhm.status())

Cells go as numbers, 24 bytes each. Those of `Arrays` are never touched one by one in Python. A batch is sent as it
is, and none is split: one of more than `MAX_CELLS` cells is a ValueError.

A batch counts once. It is known by two numbers, the client's and its own: where the reply to a put is lost, `put`
connects again and sends the same batch with the same numbers, and the server answers what it answered first.

The server tells batches apart by these two numbers, the number of cells and the total, and by nothing else. Another
batch under two numbers that were used is refused (NumberReused) where its number of cells or its total differs; where
both are the same, it is answered as the first one was, looks accepted, and is not counted. So no two batches may ever
have the same two numbers, in all runs of all programs, for as long as the server or a snapshot of it lives:

    for n, cells in enumerate(new_batches()):      # wrong: the next run begins at 0 again, and its batches are
        hhm.put(n, cells)                          # refused or, with as many cells and the same total, not counted

    for n, cells in numbered_batches(log):         # right: n is the batch's place in a log that is only appended to
        hhm.put(n, cells)                          # and never begun anew, as count_log.py does it

    hhm.put(int(begin.timestamp()) // 60, cells)   # right: one batch for each minute, numbered by that minute's begin

A batch is sent again with the number that it had; so keep it with its number until its reply came. A server with a log
(`hhm serve --log`) then never loses it, and nothing need be kept. Without one keep it until a save came after its
reply, or have the client keep it (`keep`). Two programs that put have different client numbers, also one after the
other, unless the second goes on with the numbers of the first.

The frames are described in docs/FORMATS.md. A refusal of the server is a `Refused` with its name; a fault of the
connection that outlasts all attempts is an `OSError`; a server that began again without what this client was told to
be accepted is a `BookWentBack`. A call that an exception interrupts, also one of a signal's handler, closes the
connection, and the same call may be made again. A `Client` is for one thread at a time. After a fork each process has
a connection of its own.
"""
import argparse
import array
import contextlib
import errno
import itertools
import os
import re
import selectors
import socket
import struct
import sys
import threading
import time
from time import monotonic
from typing import Any, Callable, Dict, Iterable, Iterator, List, NamedTuple, Optional, Sequence, Tuple, TypeVar, Union

# What waits for a connection that blocks: it keeps nothing in the system, which a fork would share.
Selector = getattr(selectors, "PollSelector", selectors.SelectSelector)

MAX_BODY = 67_108_864
MAX_CELLS = 1_048_576
# The cells of a page of a range, where nothing else is said, and the most of it, and of the rows of a top.
PAGE, MAX_PAGE = 10_000, 1_000_000
# The most batches that `put_all` has on the way: the replies to so many fit into any socket's buffer.
MAX_DEPTH = 128
# The bytes of replies that are read at once while a request is sent.
EARLY = 65_536
# The seconds without a connection after which a client says that it waits.
SILENCE = 2
BANNER = b"%%MatrixMarket matrix coordinate integer general\n"
# The line of a reply to a Stats with the identity of the server's book.
BOOK_ID = re.compile(rb'^book\{id="([0-9a-f]{32})"\} ', re.MULTILINE)

PUT, CELL, ROW, STATUS, EXPORT, SAVE, STOP, PUT_CELLS, STORED, RANGE, TOP, STATS, FOLD = range(1, 14)
GROUPS = 0x12
ACCEPTED, VALUE, ROW_SUM, COUNTS, TEXT, SAVED, STOPPING, CELLS, ROWS, TOLD = range(0x81, 0x8B)
REFUSED = 0xFF
# What the rows of a top may lead by, each at its number in the request.
BY = ("total", "entries")

CODES = {
    1: "Memory", 20: "DimensionsDiffer", 21: "SumTooLarge", 22: "IndexOutOfRange", 23: "TooManyCells",
    30: "NumberReused", 31: "OverTotal", 32: "BookFull", 33: "RecordsDiffer", 34: "LogFull", 35: "LogFailed",
    40: "ReplyTooLarge", 41: "OutOfRange", 42: "SaveFailed", 43: "SaveOff", 44: "BadCount", 50: "TooLarge",
    51: "UnknownKind", 52: "BadLength",
    103: "BadBanner", 104: "Unsupported", 105: "LineTooLong", 106: "BadSize", 107: "BadDimension",
    108: "NotSquare", 109: "TooManyEntries", 110: "BadEntry", 111: "Negative", 112: "NumberTooLarge",
    113: "IndexOutOfRange", 114: "TooFewEntries", 115: "ExtraText", 116: "TooLong",
}

Text = Union[bytes, bytearray, memoryview]
Place = Tuple[int, int]
Cell = Tuple[int, int, int]
Answer = TypeVar("Answer")


class Arrays(NamedTuple):
    """The cells of a batch as three arrays of one length, of unsigned 64-bit numbers in this machine's byte order.

    Each is anything that gives its memory to others (the buffer protocol) as one dimension of such numbers: an
    `array.array("Q")`, an array of numpy with dtype uint64, whole or with steps, a `memoryview` of one. They may change
    again as soon as the call that was given them has come back, or `put_all` has asked for its next batch.
    """

    rows: Any
    cols: Any
    counts: Any


Cells = Union[Arrays, Iterable[Tuple[int, int, int]]]


class Accepted(NamedTuple):
    """The place of a batch in the list of accepted batches, from 0, and the accepted total with it."""

    index: int
    total_after: int


class RowSum(NamedTuple):
    """How many cells a row has, stored zeros included, and the sum of their counts."""

    entries: int
    total: int


class Status(NamedTuple):
    """How many batches were accepted, and their total."""

    batches: int
    total: int


class Page(NamedTuple):
    """Cells of a range, by row and then by column, and whether further ones follow."""

    cells: List[Cell]
    has_more: bool


    def _repr_html_(self) -> str:
        """A table, for notebooks."""
        return html_table(("row", "column", "count"), self.cells)


class TopRow(NamedTuple):
    """A row, how many cells it has, stored zeros included, and the sum of their counts."""

    row: int
    entries: int
    total: int


class Top(List[TopRow]):
    """The rows that lead, in order."""

    def _repr_html_(self) -> str:
        """A table, for notebooks."""
        return html_table(TopRow._fields, self)


def html_table(names: Sequence[str], rows: Iterable[Sequence[Any]]) -> str:
    from hhm_answers import html_table as table

    return table(names, rows)


class Refused(Exception):
    """The server refused a request, and nothing was changed.

    `name` says why, as docs/FORMATS.md has it; `detail` is the line of a text's fault, the place in a batch of cells,
    from 0, of the first whose row or column is out of range, the accepted total of an OverTotal, and else 0.
    """

    def __init__(self, code: int, detail: int):
        self.code = code
        self.ends_session = code in (1, 50, 51, 52)
        # Its log has no room or has failed: that says nothing of whether a batch is there.
        self.is_of_log = code in (34, 35)
        self.name = CODES.get(code, f"code {code}")
        self.detail = detail
        where = {22: f" at cell {detail}", 31: f": {detail} accepted"}
        super().__init__(self.name + (f" at line {detail}" if code > 100 else where.get(code, "")))


class BadReply(OSError):
    """What came is no reply to what was asked."""


class BookWentBack(Exception):
    """The server lacks what it had accepted: it began again from an older snapshot, or without one.

    `had` is what this client's replies said of the accepted batches, `has` what the server says of them now, each a
    `Status`. What this client put since the last save may be missing. It is to be put again, with its numbers, and so
    is what this call was given, of which nothing was sent to the server as it is now. The client goes on.

    `had_id` and `has_id` are the identities of the server's book then and now, None where it reported none. Where they
    differ it is another book, which has nothing of what the client put.

    `refused` has the batches that the client itself put again and that were refused, numbers with their `Refused`. Of
    those that it keeps, they are kept no longer.
    """

    def __init__(
        self, had: Status, has: Status, refused: Sequence[Tuple[int, Refused]] = (), had_id: Optional[str] = None,
        has_id: Optional[str] = None,
    ):
        self.had, self.has, self.refused, self.had_id, self.has_id = had, has, list(refused), had_id, has_id
        told = "the server went back: it had %d batches with total %d, which aren't all there, and has %d with total %d"
        books = f"; its book was {had_id}, and is {has_id}" if are_other_books(had_id, has_id) else ""
        why = "".join(f"; batch {number}: refused: {why}" for number, why in self.refused)
        super().__init__(told % (*had, *has) + books + why)


class Ended(Exception):
    """What a word of the command line ends with: what is told, and the status of the program."""

    def __init__(self, status: int, words: str):
        self.status = status
        super().__init__(words)


def text_of(rows: int, cols: int, cells: Cells) -> bytes:
    """The Matrix Market text of cells (row, column, count) that are counted from 0."""
    lines = [b"%d %d %d\n" % (row + 1, col + 1, count) for row, col, count in cells]
    return b"%b%d %d %d\n%b" % (BANNER, rows, cols, len(lines), b"".join(lines))


def cells_of(text: bytes) -> Iterator[Tuple[int, int, int]]:
    """The cells of a text that the server wrote, (row, column, count), counted from 0."""
    for line in text.split(b"\n")[2:-1]:
        row, col, count = line.split()
        yield int(row) - 1, int(col) - 1, int(count)


def page_of(body: bytes, rows: Place, cols: Place, start: Place, most: int) -> Page:
    """The page that a reply to a Range has. A BadReply where it is none of what was asked for."""
    if len(body) % 24 != 1 or body[0] > 1:
        raise BadReply(f"{len(body)} bytes are no page")
    cells = list(struct.iter_unpack(">QQQ", memoryview(body)[1:]))
    if len(cells) > most or (body[0] == 1 and len(cells) < most):
        raise BadReply(f"a page of {len(cells)} cells, and {most} were asked for")
    before = start[0], start[1] - 1
    for row, col, _ in cells:
        if (row, col) <= before or not (rows[0] <= row <= rows[1] and cols[0] <= col <= cols[1]):
            raise BadReply(f"row {row}, column {col} isn't in its place")
        before = row, col
    return Page(cells, body[0] == 1)


def paged(ask: Callable[[Place], Page]) -> Iterator[Cell]:
    """The cells of a range, whose pages are asked for by the places where they begin."""
    start = 0, 0
    while True:
        page = ask(start)
        yield from page.cells
        if not page.has_more:
            return
        row, col, _ = page.cells[-1]
        start = row, col + 1


def top_of(body: bytes, most: int, by: str) -> Top:
    """The rows that a reply to a Top has. A BadReply where it can't be one."""
    if len(body) % 24 != 0 or len(body) > 24 * most:
        raise BadReply(f"{len(body)} bytes are no {most} rows")
    rows = Top(TopRow(*row) for row in struct.iter_unpack(">QQQ", body))
    keys = [order_of(row, by) for row in rows]
    if any(one >= other for one, other in zip(keys, keys[1:])) or not all(row.entries for row in rows):
        raise BadReply("the rows don't stand in order")
    return rows


def order_of(row: TopRow, by: str) -> Place:
    """What the rows of a top stand in order of: the highest first, and of equal ones the lowest row."""
    return -number_by(row, by), row.row


def number_by(row: TopRow, by: str) -> int:
    """The number that a row leads by."""
    return row.total if by == "total" else row.entries


def stats_of(body: bytes) -> Dict[str, Union[int, float, str]]:
    """The names of a reply to a Stats with their values. A BadReply where it can't be one."""
    found: Dict[str, Union[int, float, str]] = {}
    *lines, rest = body.decode("ascii", "replace").split("\n")
    for line in lines:
        name, _, value = line.rpartition(" ")
        if not name or not value or not line.isascii():
            raise BadReply(f"{line!r} is no name with a value")
        found[name] = value_of(value)
    if rest:
        raise BadReply(f"{rest!r} is no whole line")
    return found


def value_of(word: str) -> Union[int, float, str]:
    """A number where the word is one, and else the word."""
    whole, point, part = word.partition(".")
    if not (whole.isdigit() and (part.isdigit() or not point)):
        return word
    return float(word) if point else int(word)


def book_id_of(body: bytes) -> Optional[str]:
    """The identity of the server's book that a reply to a Stats has; None where it has none."""
    found = BOOK_ID.search(body)
    return found[1].decode() if found else None


def are_other_books(had: Optional[str], has: Optional[str]) -> bool:
    """Whether two identities are known, and are those of two books."""
    return had is not None and has is not None and had != has


def least_refused(ask: Callable[[int], Any]) -> int:
    """The least number, from 1 to 2^60, that is answered by OutOfRange, where each higher one is too."""
    answered, refused = 0, 1 << 60
    while refused - answered > 1:
        middle = (answered + refused) // 2
        try:
            ask(middle)
            answered = middle
        except Refused as why:
            if why.name != "OutOfRange":
                raise
            refused = middle
    return refused


def host_and_port(word: str) -> Tuple[str, int]:
    """The host and the port of a word HOST:PORT; the host of an IPv6 address stands in brackets."""
    host, _, port = word.rpartition(":")
    bare = host[1:-1] if host.startswith("[") and host.endswith("]") else host
    has_port = port.isascii() and port.isdigit() and len(port) <= 5 and 1 <= int(port) <= 65535
    if not bare or (bare == host and ":" in host) or not has_port:
        raise ValueError(f"{word!r} isn't HOST:PORT")
    return bare, int(port)


def where_of(word: str) -> Dict[str, str]:
    """The address of a word, as `Client` takes it: `{"unix": path}` or `{"tcp": "host:port"}`.

    `unix:PATH` and `tcp:HOST:PORT` are exact. Another word with a slash is a path, and one without is HOST:PORT. A
    ValueError for a word that is neither, or that may be both.
    """
    kind, colon, rest = word.partition(":")
    if kind == "unix" and rest.isdigit():
        raise ValueError(f"{word!r} may be a path or a host: write unix:./{rest} or tcp:{word}")
    if colon and kind in ("unix", "tcp"):
        return exact_where_of(word)
    if "/" in word:
        return {"unix": word}
    try:
        host_and_port(word)
    except ValueError as fault:
        raise ValueError(f"{fault}, and has no slash as a path has: write unix:PATH or tcp:HOST:PORT") from None
    return {"tcp": word}


def exact_where_of(word: str) -> Dict[str, str]:
    """The address of a word `unix:PATH` or `tcp:HOST:PORT`. A ValueError for any other."""
    kind, _, rest = word.partition(":")
    if kind not in ("unix", "tcp") or not rest:
        raise ValueError(f"{word!r} isn't unix:PATH or tcp:HOST:PORT")
    if kind == "tcp":
        host_and_port(rest)
    return {kind: rest}


def request(kind: int, *numbers: int, body: Text = b"") -> bytes:
    """The frame of a request: numbers, and bytes behind them."""
    try:
        head = struct.pack(f">IB{len(numbers)}Q", 8 * len(numbers) + len(body), kind, *numbers)
    except struct.error:
        raise ValueError(f"{numbers}: each is a number from 0 to 2^64 - 1") from None
    return b"".join([head, body])


def put_frame(client: int, number: int, text: Text) -> bytes:
    """The frame that puts a batch as a text."""
    if len(text) + 16 > MAX_BODY:
        raise ValueError(f"a batch of {len(text)} bytes: at most {MAX_BODY - 16} fit a frame, so send it in several")
    return request(PUT, client, number, body=text)


def put_cells_frame(client: int, number: int, cells: Cells) -> bytes:
    """The frame that puts a batch as numbers. A ValueError or a TypeError where they aren't cells of 64-bit numbers."""
    body = bytes_of_arrays(cells) if isinstance(cells, Arrays) else bytes_of(cells)
    return request(PUT_CELLS, client, number, body=body)


def bytes_of(cells: Iterable[Tuple[int, int, int]]) -> bytes:
    """The 24 bytes of each cell."""
    try:
        body = b"".join(itertools.starmap(struct.Struct(">QQQ").pack, cells))
    except struct.error as fault:
        raise ValueError(f"a cell is a row, a column and a count, each from 0 to 2^64 - 1: {fault}") from None
    judge_count(len(body) // 24)
    return body


def bytes_of_arrays(cells: Arrays) -> Text:
    """The 24 bytes of each cell of three arrays, without a loop over them in Python."""
    views = [numbers_of(name, numbers) for name, numbers in zip(Arrays._fields, cells)]
    lengths = [len(view) for view in views]
    if len(set(lengths)) != 1:
        raise ValueError("rows, cols and counts have one length, and these have %d, %d and %d" % tuple(lengths))
    judge_count(lengths[0])
    mixed = array.array("Q", [0]) * (3 * lengths[0])
    with memoryview(mixed) as places:
        for first, view in enumerate(views):
            places[first::3] = view
    if sys.byteorder == "little":
        mixed.byteswap()
    return memoryview(mixed).cast("B") if mixed else b""


def numbers_of(name: str, numbers: Any) -> memoryview:
    """The memory of an array of unsigned 64-bit numbers, in the format that `array` has for them."""
    view = memoryview(numbers)
    orders = ("", "@", "=", "<" if sys.byteorder == "little" else ">")
    if view.ndim != 1 or view.itemsize != 8 or view.format not in [order + kind for order in orders for kind in "QL"]:
        found = f"{view.ndim} of {view.format!r}"
        raise TypeError(f"{name}: one dimension of unsigned 64-bit numbers ('Q') is wanted, and these are {found}")
    if view.format == "Q":
        return view
    if view.contiguous and len(view) > 0:
        return view.cast("B").cast("Q")
    return memoryview(array.array("Q", view.tobytes()))


def judge_count(count: int) -> None:
    """A ValueError where a batch would have too many cells for the server."""
    if count > MAX_CELLS:
        raise ValueError(f"a batch of {count} cells: at most {MAX_CELLS} are taken, so send it in several")


def connected_unix(path: str, timeout: Optional[float]) -> socket.socket:
    """A connection to a Unix socket. Where the queue of those who wait there is full, it is tried until the timeout."""
    begin = monotonic()
    while True:
        link = socket.socket(socket.AF_UNIX)
        link.setblocking(False)
        fault = link.connect_ex(path)
        if fault == 0:
            return link
        link.close()
        if fault != errno.EAGAIN:
            raise OSError(fault, os.strerror(fault), path)
        if timeout is not None and monotonic() - begin >= timeout:
            raise socket.timeout("timed out")
        time.sleep(0.01)


def connected_tcp(address: str, timeout: Optional[float]) -> socket.socket:
    try:
        link = socket.create_connection(host_and_port(address), timeout)
    except OSError as fault:
        fault.filename = address
        raise
    link.setsockopt(socket.IPPROTO_TCP, socket.TCP_NODELAY, 1)
    link.setblocking(False)
    return link


def went_back(known: Status, has: Status) -> bool:
    """Whether a book that had, once, so many batches with such a total isn't the front of one that has these."""
    is_shorter = has.batches < known.batches or has.total < known.total
    return is_shorter or (has.batches == known.batches and has.total != known.total)


class Last(NamedTuple):
    """An accepted batch, the one with the highest place of those that were put, and the identity of its book, where
    that is known."""

    number: int
    frame: bytes
    accepted: Accepted
    book_id: Optional[str]

    def book(self) -> Status:
        return Status(self.accepted.index + 1, self.accepted.total_after)


class Link:
    """A connection. `owed` counts a reply from before the first byte of its request is sent until its own last byte was
    read, so one that was left in between, by whatever exception, is known by it."""

    def __init__(self, tcp: Optional[str], unix: Optional[str], timeout: Optional[float]):
        self.timeout = timeout
        self.process = os.getpid()
        self.owed = 0
        # Whether the server needn't be asked any more which book it has, and the identity of that, where it is known.
        self.knows_book = False
        self.book_id: Optional[str] = None
        self._early = bytearray()
        self._socket = connected_tcp(tcp, timeout) if unix is None else connected_unix(unix, timeout)

    def close(self) -> None:
        """Lets the connection go. One that another process made too stays open for that one."""
        self._socket.close()

    def end(self) -> None:
        """Ends the connection, for another thread that waits at it too."""
        with contextlib.suppress(OSError):
            self._socket.shutdown(socket.SHUT_RDWR)

    def send(self, frame: bytes) -> None:
        """Sends a request. Replies that come meanwhile are read, since a server reads nothing while it can't write.
        That it closed the connection is found out when its last reply was read."""
        self.owed += 1
        rest = memoryview(frame)
        while rest:
            try:
                rest = rest[self._socket.send(rest) :]
            except (BrokenPipeError, ConnectionResetError):
                return
            except BlockingIOError:
                reads = selectors.EVENT_READ if len(self._early) < EARLY else 0
                if self._wait(selectors.EVENT_WRITE | reads) & reads and not self._read_early():
                    return

    def reply(self) -> Tuple[int, bytes]:
        """The kind and the body of the next reply."""
        length, kind = struct.unpack(">IB", self._receive(5))
        if length > MAX_BODY:
            raise BadReply(f"a reply of {length} bytes")
        body = bytes(self._receive(length))
        self.owed -= 1
        return kind, body

    def replies(self, frames: Iterable[bytes], depth: int = 16) -> Iterator[Tuple[int, bytes]]:
        """The replies to requests, of which up to `depth` are on the way."""
        source = iter(frames)
        while True:
            for frame in itertools.islice(source, depth - self.owed):
                self.send(frame)
            if not self.owed:
                return
            yield self.reply()

    def _wait(self, events: int) -> int:
        """Waits until the connection can be read or written, and tells which of these events it was."""
        with Selector() as selector:
            selector.register(self._socket, events)
            ready = selector.select(self.timeout)
        if not ready:
            raise socket.timeout("timed out")
        return ready[0][1]

    def _read_early(self) -> bool:
        """Reads what has come, and tells whether that was anything but the end."""
        more = self._socket.recv(EARLY)
        self._early += more
        return bool(more)

    def _receive(self, count: int) -> bytearray:
        data = bytearray(count)
        view, have = memoryview(data), min(count, len(self._early))
        view[:have] = self._early[:have]
        del self._early[:have]
        while have < count:
            try:
                got = self._socket.recv_into(view[have:])
            except BlockingIOError:
                self._wait(selectors.EVENT_READ)
                continue
            if got == 0:
                raise ConnectionError("the server closed the connection")
            have += got
        return data


class Ahead:
    """The batches on the way, by their numbers and frames, and those that are to be sent."""

    def __init__(self, source: Iterator[Tuple[int, bytes]]):
        self.numbers: List[int] = []
        self.frames: List[bytes] = []
        self.source = source
        # One that was taken from the source and must wait.
        self.held: Optional[Tuple[int, bytes]] = None

    def next_batch(self) -> Optional[Tuple[int, bytes]]:
        batch, self.held = self.held, None
        return batch or next(self.source, None)


class Client:
    """A connection to a server, made when it is first needed, and made again where it is lost.

    `tcp` is "host:port" and `unix` a path; give one of them. `client` is the client's number, from 0 to 2^64 - 1, which
    no other program uses: with a batch's own number it tells batches apart, as the text of this module says.
    `timeout` is in seconds, for how long the sending of a request, or its answer, may stand still.
    `attempts` is how often a request is sent before a fault of the connection is given up, with `pause` seconds after
    the first fault and twice as many after each further one, at most ten. By the defaults the last attempt comes after
    62 seconds of pauses, since a server that starts from a million batches answers only after ten or so. With `wait`,
    in seconds, the number of attempts doesn't matter: none begins later after the first, so 0 fails at the first fault.
    After two seconds without a connection the client says on standard error that it waits, and goes on waiting.

    Over each new connection a client that has put batches asks for the book's identity and the status, and puts the
    last of them again, which it keeps for that. Where it is another book, the server has less than was accepted, or
    answers another place, that is a `BookWentBack`.
    A server with a log (`hhm serve --log`) has what it answered after a kill and a loss of power too: `keep` is for one
    without. With it, a number of bytes, the client keeps the frames of all accepted batches (24 bytes a cell) until a
    `save` of its own that came after them was answered, and puts them again over each new connection; what a server
    lost is then there again, and only what it lost of before that save is a BookWentBack. A put that would pass these
    bytes saves first, so the server must have a snapshot.
    """

    def __init__(
        self, *, tcp: Optional[str] = None, unix: Optional[str] = None, client: int = 0,
        timeout: Optional[float] = 60, attempts: int = 14, pause: float = 0.05, keep: Optional[int] = None,
        wait: Optional[float] = None,
    ):
        if (tcp is None) == (unix is None):
            raise ValueError("give tcp or unix, and not both")
        if tcp is not None:
            host_and_port(tcp)
        if wait is not None and not wait >= 0:
            raise ValueError(f"wait is a number of seconds from 0, and not {wait}")
        self.tcp, self.unix, self.client = tcp, unix, client
        self.timeout, self.attempts, self.pause, self.keep, self.wait = timeout, attempts, pause, keep, wait
        self._link: Optional[Link] = None
        # What says that the client waits, from the first try to connect until there is a connection or a fault.
        self._waiting: Optional[threading.Timer] = None
        self._is_ahead = False
        # The batch with the highest place, and that of those before the last save.
        self._last: Optional[Last] = None
        self._saved: Optional[Last] = None
        # The frames that are kept, by the client's number and the batch's, and their bytes.
        self._kept: Dict[Tuple[int, int], bytes] = {}
        self._kept_bytes = 0

    def __enter__(self) -> "Client":
        return self

    def __exit__(self, *_) -> None:
        self.close()

    def close(self) -> None:
        """Lets the connection go. What was accepted stays accepted."""
        link, self._link = self._link, None
        if link is not None:
            link.close()

    # What a client asks.

    def put(self, number: int, cells: Cells) -> Accepted:
        """Puts a batch of cells, tuples (row, column, count) or `Arrays`, counted from 0. A cell may stand in it twice.

        `number` belongs to this batch for ever: another one with as many cells and the same total is answered as this
        one was, and not counted. What isn't three numbers of 64 bits, or too many, is a ValueError or a TypeError, and
        nothing was sent.
        """
        return self._put(number, put_cells_frame(self.client, number, cells))

    def put_text(self, number: int, text: Text) -> Accepted:
        """Puts a batch that is a Matrix Market text, with no more rows and no more columns than the server has."""
        return self._put(number, put_frame(self.client, number, text))

    def put_all(self, batches: Iterable[Tuple[int, Cells]], depth: int = 16) -> Iterator[Tuple[int, Accepted]]:
        """Puts batches (number, cells) and gives (number, reply), in order, with up to `depth` of them on the way.

        Where the connection is lost, all that had no reply yet are sent again. A refused batch raises its `Refused`
        when its turn comes; those behind it may have been accepted, and can be put again with their numbers. No other
        call may be made until all replies were given, or what this gave was closed. The frames on the way, at most 128,
        are kept in memory, 24 bytes a cell.
        """
        yield from self._put_frames(((n, put_cells_frame(self.client, n, cells)) for n, cells in batches), depth)

    def cell(self, row: int, col: int) -> Optional[int]:
        """The count of a cell, counted from 0; None where none is stored."""
        body = self._ask(request(CELL, row, col), VALUE, 9)
        return struct.unpack(">Q", body[1:])[0] if body[0] else None

    def row(self, row: int) -> RowSum:
        """The sum of a row, counted from 0."""
        return RowSum(*struct.unpack(">QQ", self._ask(request(ROW, row), ROW_SUM, 16)))

    def status(self) -> Status:
        """How many batches were accepted, and their total."""
        return Status(*struct.unpack(">QQ", self._ask(request(STATUS), COUNTS, 16)))

    def stored(self) -> Status:
        """How many of the accepted batches are durable, the first so many, and their total: a crash of the server's
        machine takes none of them back. A server without a log gives all that it accepted."""
        return Status(*struct.unpack(">QQ", self._ask(request(STORED), COUNTS, 16)))

    def range(self, rows: Optional[Place] = None, cols: Optional[Place] = None, page: int = PAGE) -> Iterator[Cell]:
        """The cells of the sum whose row and column are from the first to the last of these, both ends in, by row and
        then by column; without bounds those of all rows, or columns. They are asked for page by page, of so many cells
        each, at most 1,000,000: a page has what stands there when it is asked for."""
        if rows is None or cols is None:
            size = self.size()
            rows, cols = rows or (0, size[0] - 1), cols or (0, size[1] - 1)
        within = rows, cols
        return paged(lambda start: self.page(*within, start, page))

    def page(self, rows: Place, cols: Place, start: Place = (0, 0), most: int = PAGE) -> Page:
        """The first `most` cells of such a range, at most 1,000,000, that stand at the place `start` or behind it."""
        frame = request(RANGE, *rows, *cols, *start, most)
        return self._ask_for(frame, CELLS, lambda body: page_of(body, rows, cols, start, most))

    def top(self, most: int = 10, by: str = "total") -> Top:
        """The first `most` rows, at most 1,000,000, of those that have a cell: by total, or by the number of their
        cells (`by="entries"`), the highest first, and of equal ones the lowest row."""
        if by not in BY or not 0 <= most < 2**64:
            raise ValueError(f"by is one of {BY}, and most a number from 1 to 1,000,000")
        frame = request(TOP, body=struct.pack(">BQ", BY.index(by), most))
        return self._ask_for(frame, ROWS, lambda body: top_of(body, most, by))

    def groups(self, rows: Place, shift: int, most: int = 10, by: str = "total") -> Top:
        """The first `most` groups, at most 1,000,000, of the rows from the first to the last of these, both ends in.
        Rows are in one group if their numbers are the same without their last `shift` bits, 0 to 63. The number that
        is left is the group's, and is its `row`. The order is that of `top`. A server that doesn't know the
        question refuses it (UnknownKind)."""
        if by not in BY or not 0 <= most < 2**64 or not 0 <= shift < 2**8:
            raise ValueError(f"by is one of {BY}, shift a number from 0 to 63, and most one from 1 to 1,000,000")
        frame = request(GROUPS, body=struct.pack(">BBQQQ", BY.index(by), shift, most, *rows))
        return self._ask_for(frame, ROWS, lambda body: top_of(body, most, by))

    def stats(self) -> Dict[str, Union[int, float, str]]:
        """What the server tells of itself, by names of which a program takes those that it knows. One that doesn't know
        the question refuses it (UnknownKind)."""
        return self._ask_for(request(STATS), TOLD, stats_of)

    def book_id(self) -> Optional[str]:
        """The identity of the book that the server has, 32 hexadecimal digits. A server that begins again keeps it by
        its snapshot or log; without them it has a new book. None of a server that reports none."""
        try:
            found = book_id_of(self._ask(request(STATS), TOLD, None))
        except Refused:
            return None
        if self._link is not None and not self._link.knows_book:
            self._link.knows_book, self._link.book_id = True, found
        return found

    def size(self) -> Tuple[int, int]:
        """The server's numbers of rows and columns, as its stats tell them; of one that doesn't tell them, found by
        asking for cells: the first that is out of range."""
        stats: Dict[str, Any] = {}
        with contextlib.suppress(Refused):
            stats = self.stats()
        rows, cols = stats.get("rows"), stats.get("cols", stats.get("columns"))
        if isinstance(rows, int) and isinstance(cols, int):
            return rows, cols
        return least_refused(lambda row: self.cell(row, 0)), least_refused(lambda col: self.cell(0, col))

    def export(self) -> bytes:
        """The text of the sum of all accepted batches; `cells_of` reads it."""
        return self._ask(request(EXPORT), TEXT, None)

    def to_scipy(self) -> Any:
        """The sum as a sparse matrix, with the numbers of its rows and columns: `hhm_scipy.to_scipy`, which needs numpy
        and scipy. An ImportError where they aren't there."""
        from hhm_scipy import to_scipy

        return to_scipy(self)

    def to_arrow(self) -> Any:
        """The sum as a table of Arrow: `hhm_arrow.to_arrow`, which needs pyarrow. An ImportError where that isn't
        there."""
        from hhm_arrow import to_arrow

        return to_arrow(self)

    def save(self) -> int:
        """Saves a snapshot where the server was told to, and gives its number of batches. Where no answer comes in time
        the save may be under way, and it isn't asked for again."""
        (batches,) = struct.unpack(">Q", self._ask(request(SAVE), SAVED, 8))
        self._kept, self._kept_bytes, self._saved = {}, 0, self._last
        return batches

    def fold(self) -> int:
        """Folds what the server has accepted, with a log once that is durable, and gives how many batches are folded
        then. No answer changes by it. Where no answer comes in time the fold may be under way, and it isn't asked for
        again. A server that doesn't know the request refuses it (UnknownKind)."""
        (folded,) = struct.unpack(">Q", self._ask(request(FOLD), SAVED, 8))
        return folded

    def stop(self) -> None:
        """Tells the server to stop. It serves its open sessions to their ends, and saves, after the answer.

        Where the answer is lost and the server is gone when it is asked again, that is an OSError.
        """
        self._ask(request(STOP), STOPPING, 0)
        self.close()

    # How it is asked.

    def _begin(self) -> None:
        """Before a call: a connection that an interrupted one left amid a frame or a reply isn't used again."""
        if self._is_ahead:
            raise RuntimeError("the replies of a put_all come first")
        if self._link is not None and self._link.owed:
            self.close()

    def _ask(self, frame: bytes, wanted: int, length: Optional[int]) -> bytes:
        """Sends a request and reads its reply."""
        self._begin()
        try:
            self._send_ahead([frame])
            return self._first_reply([frame], wanted, length)
        finally:
            self._end_waiting()

    def _ask_for(self, frame: bytes, wanted: int, read: Callable[[bytes], Answer]) -> Answer:
        """Asks for what is read of a reply of any length; one that can't be read leaves no connection."""
        body = self._ask(frame, wanted, None)
        try:
            return read(body)
        except BadReply:
            self.close()
            raise

    def _put(self, number: int, frame: bytes) -> Accepted:
        if not self._has_room(frame):
            self.save()
        return self._noted(number, frame, self._ask(frame, ACCEPTED, 16), self._link)

    def _put_frames(self, batches: Iterable[Tuple[int, bytes]], depth: int) -> Iterator[Tuple[int, Accepted]]:
        """Puts batches (number, frame), as `put_all` does."""
        self._begin()
        ahead = Ahead(iter(batches))
        self._is_ahead = True
        try:
            while self._fill(ahead, max(1, min(depth, MAX_DEPTH))):
                reply = self._first_reply(ahead.frames, ACCEPTED, 16)
                number, frame = ahead.numbers.pop(0), ahead.frames.pop(0)
                yield number, self._noted(number, frame, reply, self._link)
        finally:
            self._end_waiting()
            # The replies that nobody will read must not be taken for those of later requests.
            self._is_ahead = False
            if ahead.frames:
                self.close()

    def _fill(self, ahead: Ahead, depth: int) -> bool:
        """Sends batches until so many are on the way, or a save must come first. Tells whether any is on the way."""
        while len(ahead.frames) < depth and (batch := ahead.next_batch()):
            if not self._has_room(batch[1], ahead.frames):
                if ahead.frames:
                    ahead.held = batch
                    break
                self._is_ahead = False
                self.save()
                self._is_ahead = True
            ahead.numbers.append(batch[0])
            ahead.frames.append(batch[1])
            self._send_ahead(ahead.frames, connects=len(ahead.frames) == 1)
        return bool(ahead.frames)

    def _has_room(self, frame: bytes, on_the_way: Sequence[bytes] = ()) -> bool:
        """Whether a frame can be kept before a save. A ValueError where it can't behind one either."""
        if self.keep is None:
            return True
        if len(frame) > self.keep:
            raise ValueError(f"a batch of {len(frame)} bytes, and at most {self.keep} are kept")
        return self._kept_bytes + sum(map(len, on_the_way)) + len(frame) <= self.keep

    def _noted(self, number: int, frame: bytes, body: bytes, link: Optional[Link]) -> Accepted:
        """The reply to a put over a connection, which is kept where it must be."""
        accepted = Accepted(*struct.unpack(">QQ", body))
        if self._last is None or accepted.index > self._last.accepted.index:
            self._last = Last(number, frame, accepted, link.book_id if link else None)
        if self.keep is not None:
            key = self.client, number
            self._kept_bytes += len(frame) - len(self._kept.get(key, b""))
            self._kept[key] = frame
        return accepted

    def _linked(self, puts: bool = False, asks: bool = True) -> Link:
        """The connection; a new one where there is none, or another process made it before a fork. Over one that
        `puts`, the server is asked once which book it has, unless it `asks` no more."""
        if self._link is not None and self._link.process != os.getpid():
            self.close()
        if self._link is None:
            self._link = self._greeted(asks)
        if self._link is None or (puts and not self._ask_book(self._link)):
            # (that question has ended the connection, as it does at a server that doesn't know it)
            self.close()
            return self._linked(puts, asks=False)
        return self._link

    def _greeted(self, asks: bool) -> Optional[Link]:
        """A new connection that was greeted; None where the server has ended it by refusing to report its book."""
        link = self._connected()
        link.knows_book = not asks
        try:
            is_open = self._greet(link)
        except BaseException:
            link.close()
            raise
        if not is_open:
            link.close()
            return None
        return link

    def _connected(self) -> Link:
        self._begin_waiting()
        link = Link(self.tcp, self.unix, self.timeout)
        self._end_waiting()
        return link

    def _begin_waiting(self) -> None:
        """Has a line written once there was no connection for two seconds."""
        if self._waiting is None:
            place = self.unix if self.tcp is None else self.tcp
            told = {"file": sys.stderr, "flush": True}
            self._waiting = threading.Timer(SILENCE, print, [f"waiting for the server at {place}"], told)
            self._waiting.daemon = True
            self._waiting.start()

    def _end_waiting(self) -> None:
        waiting, self._waiting = self._waiting, None
        if waiting is not None:
            waiting.cancel()

    def _greet(self, link: Link) -> bool:
        """Over a new connection: asks whether what was accepted is still there, and puts again what is kept. False
        where the server has ended it by refusing to report its book."""
        last = self._last if self.keep is None else self._saved
        if last is None and not self._kept:
            return True
        if not self._ask_book(link):
            return False
        if last is not None:
            if fault := self._went_back(link, last):
                self._last = self._saved = None
                raise fault
            link.book_id = link.book_id or last.book_id
        if self._kept:
            self._put_kept(link)
        return True

    def _ask_book(self, link: Link) -> bool:
        """Asks, once over a connection, which book the server has, and returns whether the connection is still open: a
        server that doesn't know the question, or has no memory for its answer, ends it."""
        if link.knows_book:
            return True
        link.knows_book = True
        link.send(request(STATS))
        try:
            link.book_id = book_id_of(self._checked(link.reply(), TOLD, None))
        except Refused as why:
            return not why.ends_session
        return True

    def _went_back(self, link: Link, last: Last) -> Optional[BookWentBack]:
        """Whether the server lacks what it had with this batch. Another book does. Where the status doesn't show it,
        since others have put meanwhile, the batch that is put again has another place."""
        had, has, book_ids = last.book(), self._status_of(link), (last.book_id, link.book_id)
        if are_other_books(*book_ids) or went_back(had, has):
            return BookWentBack(had, has, (), *book_ids)
        link.send(last.frame)
        try:
            is_there = self._checked(link.reply(), ACCEPTED, 16) == struct.pack(">QQ", *last.accepted)
            return None if is_there else BookWentBack(had, has, (), *book_ids)
        except Refused as why:
            if why.ends_session:
                raise
            return None if why.is_of_log else BookWentBack(had, has, [(last.number, why)], *book_ids)

    def _status_of(self, link: Link) -> Status:
        link.send(request(STATUS))
        return Status(*struct.unpack(">QQ", self._checked(link.reply(), COUNTS, 16)))

    def _put_kept(self, link: Link) -> None:
        kept, refused = list(self._kept.items()), []
        had, self._last = self._last, self._saved
        for ((client, number), frame), reply in zip(kept, link.replies(frame for _, frame in kept)):
            try:
                self._noted(number, frame, self._checked(reply, ACCEPTED, 16), link)
            except Refused as why:
                if why.ends_session:
                    raise
                if why.is_of_log:
                    self._last = self._last or had
                    continue
                refused.append((number, why))
                self._kept_bytes -= len(self._kept.pop((client, number)))
        if refused:
            has = self._status_of(link)
            raise BookWentBack(had.book() if had else has, has, refused, had.book_id if had else None, link.book_id)

    @staticmethod
    def _checked(reply: Tuple[int, bytes], wanted: int, length: Optional[int]) -> bytes:
        """The body of a reply that is of this kind and length; a `Refused` or a `BadReply` else."""
        kind, body = reply
        if kind == REFUSED and len(body) == 10:
            raise Refused(*struct.unpack(">HQ", body))
        if kind != wanted or (length is not None and len(body) != length):
            raise BadReply(f"a reply of kind {kind:02x} with {len(body)} bytes, and kind {wanted:02x} was asked for")
        if kind == VALUE and (body[0] > 1 or (body[0] == 0 and any(body))):
            raise BadReply(f"{body.hex()} is no value")
        return body

    def _attempts(self) -> Iterator[int]:
        pause, end = self.pause, monotonic() + (float("inf") if self.wait is None else self.wait)
        for attempt in range(self.attempts) if self.wait is None else itertools.count():
            if attempt:
                left = end - monotonic()
                if left <= 0:
                    return
                self._rest(min(pause, left))
                pause = min(2 * pause, 10)
            yield attempt

    def _rest(self, seconds: float) -> None:
        """Waits between two attempts."""
        time.sleep(seconds)

    def _send_ahead(self, frames: List[bytes], connects: bool = False) -> None:
        """Sends the last of these requests, whose replies are read later, where there is a connection to send it over,
        or one is to be made. One that fails is found out when the reply is read."""
        try:
            if self._link is not None or connects:
                self._send(frames)
        except BaseException as fault:
            self.close()
            if not isinstance(fault, OSError):
                raise

    def _send(self, frames: List[bytes]) -> Link:
        """Sends the requests that weren't sent over this connection, which is made where there is none."""
        link = self._linked(puts=frames[0][4] in (PUT, PUT_CELLS))
        for frame in frames[link.owed :]:
            link.send(frame)
        return link

    def _first_reply(self, frames: List[bytes], wanted: int, length: Optional[int]) -> bytes:
        """The reply to the first of the requests that are on the way; all are sent again where the connection failed.
        Nothing but a reply that was read whole leaves the connection open."""
        fault: Exception = ConnectionError("no attempt")
        for _ in self._attempts():
            try:
                return self._checked(self._send(frames).reply(), wanted, length)
            except Refused as refused:
                if refused.ends_session:
                    self.close()
                raise
            except BaseException as error:
                is_save = wanted == SAVED and self._link is not None
                self.close()
                is_final = isinstance(error, BadReply) or (is_save and isinstance(error, socket.timeout))
                if is_final or not isinstance(error, OSError):
                    raise
                fault = error
        raise fault


def number(word: str) -> int:
    """A number of the command line, from 0 to 2^64 - 1."""
    value = int(word)
    if not 0 <= value < 2**64:
        raise argparse.ArgumentTypeError(f"{word} is not from 0 to 2^64 - 1")
    return value


def address(word: str) -> str:
    """An address of the command line, HOST:PORT."""
    try:
        host_and_port(word)
    except ValueError as fault:
        raise argparse.ArgumentTypeError(str(fault)) from None
    return word


def main() -> int:
    """The command line, which is hhm_command.py beside this file."""
    try:
        import hhm_command

        return hhm_command.main()
    except KeyboardInterrupt:
        return 130


if __name__ == "__main__":
    # (the classes of the command line are those of this program, and not of a second copy)
    sys.modules["hhm_client"] = sys.modules[__name__]
    sys.exit(main())
