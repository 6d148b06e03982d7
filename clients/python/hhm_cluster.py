"""Several servers of hhm as one. Python 3.8 or later, its standard library alone, and hhm_client.py beside it.

    with Cluster(["a:7000", "b:7000", "c:7000"], client=7, generation=1) as hhm:
        hhm.put(1, [(0, 0, 5), (2, 1, 7)])     # batch 1 of client 7, as a `Client` has it
        print(hhm.cell(0, 0), hhm.row(2), hhm.status())

What says where a batch goes is the map: the number of servers and their order, the way, and the generation. By
"source" each batch of a client goes whole to one server, the one at place (client mod number of servers); the sum is
that of all servers. By "rows" each batch is cut by a hash of its rows, and each server gets its part, an empty one too;
one server has all of a row. A map stays as it is: other servers, another number or order of them, or the other way, is
another generation, which has new servers with empty books (docs/CLUSTER.md).

Before anything else each connection puts the map's marker, an empty batch whose number is a digest of the map and of
the server's place in it. It must be the first batch of that server's book: where it isn't, that is an `OtherMap`.
Before the first put all servers have been asked so.

A put by rows goes to the server at place 0 first, and to the others once that one has accepted it. So what the first
refuses is put nowhere, and is a `Refused`; what another refuses is in the sum in part, and is a `Half`. By source there
is no half of a batch. Until its put has come back, readers may see a part of a batch.

A fault of a connection is an `OSError`, as a `Client` has it; the same call may be made again, with the same numbers.
So may one that was interrupted, as by Ctrl-C: what it still asks is given up before the next one, or before the end.
Where servers began again without what they had accepted, that is a `WentBack`. Who puts a batch keeps it, or can make
it again, until each server with a part of it has made it durable: one with a log by its answer, one without by a save
after it.
"""
import contextlib
import heapq
import itertools
import operator
import os
import queue
import struct
import sys
import threading
from concurrent.futures import Future
from typing import Any, Callable, Dict, Iterable, Iterator, List, NamedTuple, Optional, Sequence, Tuple, Union

from hhm_client import (
    ACCEPTED, BANNER, MAX_DEPTH, MAX_PAGE, PAGE, PUT_CELLS, Accepted, Arrays, BookWentBack, Cell, Cells, Client, Link,
    Page, Refused, RowSum, Status, Text, TopRow, bytes_of, bytes_of_arrays, cells_of, number_by, order_of, paged,
    request, where_of,
)

WAYS = ("source", "rows")
# The client whose batches are the markers of maps. No other has this number.
MARKER = 2**64 - 1
# The golden ratio, of 2^64: its multiples lie evenly between 0 and 2^64, whatever rows are multiplied by it.
GOLDEN = 0x9E3779B97F4A7C15

# Where a server is: "host:port" or the path of a Unix socket, or what gives one of these whenever it is asked.
Place = Union[str, Callable[[], str]]


class OtherMap(Exception):
    """The first batch in the book of the server at `place` isn't this map's marker: it is a server of another map, or
    of another place in this one, or somebody put to it without a map. Nothing but the marker was put over this
    connection."""

    def __init__(self, place: int, address: str, told: str):
        self.place, self.address = place, address
        super().__init__(f"server {place} at {address} is none of this map: {told}")


class Half(Exception):
    """Batch `number` is in the sum in part: the servers of `refusals`, by their places, refused their parts, and others
    accepted theirs. Where a further try with the same batch is refused too it needs a person (docs/CLUSTER.md)."""

    def __init__(self, number: int, refusals: Dict[int, Refused]):
        self.number, self.refusals = number, refusals
        told = ", ".join(f"server {place}: {why}" for place, why in sorted(refusals.items()))
        super().__init__(f"batch {number} is in the sum in part: refused by {told}")


class Full(Exception):
    """No new batch is to be put: the book of the server at `place` has, but for a reserve, as many batches as it takes.
    All that was put before is whole. A new generation goes on."""

    def __init__(self, place: int, batches: int):
        self.place, self.batches = place, batches
        super().__init__(f"server {place} has {batches} batches: begin a new generation")


class WentBack(Exception):
    """Servers lack what they had accepted; `servers` has a `BookWentBack` for each, by their places. What was put since
    the last save is to be put again, with its numbers, and then what this call was given. The cluster goes on."""

    def __init__(self, servers: Dict[int, BookWentBack]):
        self.servers = servers
        super().__init__("; ".join(f"server {place}: {why}" for place, why in sorted(servers.items())))


class Undecided(Exception):
    """Which rows lead isn't known: of several servers by source, each was asked for its first 1,000,000, and rows that
    none of them has among these may have as much in all. Where many rows have nearly the same number that is so."""


class Batch(NamedTuple):
    """A batch that is to be put: its number, and the frame for each server that gets a part of it, in order."""

    number: int
    frames: List[bytes]


def place_of_row(row: int, servers: int) -> int:
    """The place, from 0, of the server that has a row, by rows."""
    return ((row * GOLDEN & MARKER) >> 32) * servers >> 32


def mixed(number: int) -> int:
    """A number of 64 bits in which each bit depends on each of the given one; another for each other one."""
    for shift, factor in ((30, 0xBF58476D1CE4E5B9), (27, 0x94D049BB133111EB)):
        number = (number ^ number >> shift) * factor & MARKER
    return number ^ number >> 31


def marker_of(generation: int, by: str, servers: int, place: int) -> int:
    """The number of a marker. Maps and places that differ in one of these four always have different ones."""
    digest = 0
    for number in (1, generation, WAYS.index(by), servers, place):
        digest = mixed(digest ^ number)
    return digest


def cut(body: Text, servers: int) -> List[bytes]:
    """The parts of a batch for the servers in order. Its cells have 24 bytes each and keep their order."""
    numpy = sys.modules.get("numpy")
    if numpy is not None and len(body) > 0:
        cells = numpy.frombuffer(body, ">u8").reshape(-1, 3)
        halves = (cells[:, 0].astype("u8") * numpy.uint64(GOLDEN)) >> numpy.uint64(32)
        places = halves * numpy.uint64(servers) >> numpy.uint64(32)
        return [cells[places == place].tobytes() for place in range(servers)]
    parts: List[List[bytes]] = [[] for _ in range(servers)]
    for (row,), (cell,) in zip(struct.iter_unpack(">Q16x", body), struct.iter_unpack("24s", body)):
        parts[place_of_row(row, servers)].append(cell)
    return [b"".join(part) for part in parts]


def judge_size(body: Text, size: Tuple[int, int]) -> None:
    """A ValueError where a cell of a batch isn't one of so many rows and columns."""
    numpy = sys.modules.get("numpy")
    if numpy is not None and len(body) > 0:
        cells = numpy.frombuffer(body, ">u8").reshape(-1, 3)
        if (cells[:, 0] < size[0]).all() and (cells[:, 1] < size[1]).all():
            return
    for at, (row, col) in enumerate(struct.iter_unpack(">QQ8x", body)):
        if row >= size[0] or col >= size[1]:
            raise ValueError(f"cell {at} is at {row}, {col}, and there are {size[0]} rows and {size[1]} columns")


def merged(texts: Sequence[bytes]) -> bytes:
    """The text of the sum of texts that servers wrote. A ValueError where their dimensions differ."""
    sizes = {tuple(text.split(b"\n", 2)[1].split()[:2]) for text in texts}
    if len(sizes) != 1:
        raise ValueError("the servers have different numbers of rows and columns")
    [(rows, cols)] = sizes
    lines = []
    cells = heapq.merge(*map(cells_of, texts))
    for (row, col), same in itertools.groupby(cells, key=operator.itemgetter(0, 1)):
        lines.append(b"%d %d %d\n" % (row + 1, col + 1, sum(cell[2] for cell in same)))
    return b"%b%b %b %d\n%b" % (BANNER, rows, cols, len(lines), b"".join(lines))


class Lead(NamedTuple):
    """What servers have told of the rows that lead: of each its first `depth` rows, or all that it has."""

    lists: List[List[TopRow]]
    depth: int
    by: str

    def are_cut(self) -> List[bool]:
        """Whether each of the servers may have rows that it doesn't tell."""
        return [len(rows) == self.depth for rows in self.lists]

    def ends(self) -> List[int]:
        """The most that a row may have in each of the servers which don't tell it."""
        return [number_by(rows[-1], self.by) if is_cut else 0 for rows, is_cut in zip(self.lists, self.are_cut())]

    def unknown(self, most: int) -> List[List[int]]:
        """The rows that each of the servers must be asked for, since they may be among the first `most`."""
        tables, ends = [{it.row: number_by(it, self.by) for it in rows} for rows in self.lists], self.ends()
        least: Dict[int, int] = {}
        for row, number in itertools.chain(*(table.items() for table in tables)):
            least[row] = least.get(row, 0) + number
        bound = heapq.nlargest(most, least.values())[-1] if len(least) >= most else 0
        rest = {row: sum(end for table, end in zip(tables, ends) if row not in table) for row in least}
        rows = [row for row in least if least[row] + rest[row] >= bound]
        are_cut = self.are_cut()
        return [[row for row in rows if row not in table] if is_cut else [] for table, is_cut in zip(tables, are_cut)]

    def added(self, asked: List[Dict[int, RowSum]]) -> List[TopRow]:
        """The rows that are told, in order, with what servers were asked for; some of them too low, but none of those
        that lead."""
        sums: Dict[int, List[int]] = {}
        told = ((it.row, it.entries, it.total) for rows in self.lists for it in rows)
        for row, entries, total in [*told, *((row, *it) for answers in asked for row, it in answers.items())]:
            sum_ = sums.setdefault(row, [0, 0])
            sum_[0] += entries
            sum_[1] += total
        return sorted((TopRow(row, *sum_) for row, sum_ in sums.items()), key=lambda it: order_of(it, self.by))

    def is_decided(self, leading: List[TopRow]) -> bool:
        """Whether no row that no server tells stands before the last of these."""
        lasts = [rows[-1].row for rows, is_cut in zip(self.lists, self.are_cut()) if is_cut]
        if not lasts:
            return True
        # (a row with as much as all ends together stands behind the end of each list)
        number, bound = number_by(leading[-1], self.by), sum(self.ends())
        return number > bound or (number == bound and leading[-1].row <= max(lasts))


def address_in(path: str) -> Callable[[], str]:
    """Gives the address that stands in a file whenever it is asked: for servers that a scheduler moves, whose scripts
    write it there. Where nothing stands there that is a fault of the connection, after which it is asked again."""

    def address() -> str:
        with open(path) as file:
            word = file.read().strip()
        if not word:
            raise ConnectionError(f"{path}: no address")
        return word

    return address


class GivenUp(Exception):
    """What a call that was given up ends with, in the thread that made it."""


class Part(Client):
    """The client of one of several servers, which puts the map's marker, where there is a map, over each new connection
    before anything else. Another thread can give up the call that one makes."""

    def __init__(self, server: Place, place: int, marker: Optional[int] = None, **how: Any):
        super().__init__(unix="", **how)
        self.server, self.place, self.marker = server, place, marker
        self._is_given_up = threading.Event()
        # The connection that was made last, whether anything came over it yet or not.
        self._newest: Optional[Link] = None

    def give_up(self) -> None:
        """Has a call that another thread makes end soon: by a fault at its connection, at the end of a pause, or once
        a connection that it makes is there or isn't to be had."""
        self._is_given_up.set()
        newest = self._newest
        if newest is not None:
            newest.end()

    def begin_again(self) -> None:
        """Once a call that was given up has ended: others can be made."""
        self._is_given_up.clear()

    def _judge_given_up(self) -> None:
        if self._is_given_up.is_set():
            raise GivenUp

    def _rest(self, seconds: float) -> None:
        self._is_given_up.wait(seconds)

    def _linked(self, puts: bool = False, asks: bool = True) -> Link:
        self._judge_given_up()
        return super()._linked(puts, asks)

    def _connected(self) -> Link:
        where = where_of(self.server() if callable(self.server) else self.server)
        self.tcp, self.unix = where.get("tcp"), where.get("unix")
        return super()._connected()

    def _greet(self, link: Link) -> bool:
        # (in this order, since `give_up` does the two in the other one)
        self._newest = link
        self._judge_given_up()
        if self.marker is not None:
            self._put_marker(link, self.marker)
        return super()._greet(link)

    def _put_marker(self, link: Link, marker: int) -> None:
        link.send(request(PUT_CELLS, MARKER, marker))
        address = self.tcp or self.unix or ""
        try:
            index, _ = struct.unpack(">QQ", self._checked(link.reply(), ACCEPTED, 16))
        except Refused as why:
            # (any other refusal, as that of a log without room, says nothing of what the book has)
            if why.name not in ("NumberReused", "BookFull"):
                raise
            raise OtherMap(self.place, address, f"its marker is refused: {why}") from None
        if index != 0:
            raise OtherMap(self.place, address, f"its marker is batch {index} of that book, and not the first")


class Outcome:
    """What parts have answered to one call, and their faults, both by their places."""

    def __init__(self) -> None:
        self.answers: Dict[int, Any] = {}
        self.faults: Dict[int, Exception] = {}

    def judge(self) -> None:
        """Raises a fault, where there is one: at first those that no further call is told."""
        went_back = {place: fault for place, fault in self.faults.items() if isinstance(fault, BookWentBack)}
        if went_back:
            raise WentBack(went_back)
        for fault in sorted(self.faults.values(), key=lambda fault: not isinstance(fault, (Half, OtherMap))):
            raise fault


class Several:
    """Several servers that are asked at once."""

    def __init__(self, parts: List[Part]):
        self.parts = parts
        # The parts that threads ask, until these are known to have ended. (After an exception of a signal's handler in
        # the midst of it, `Thread.join` tells threads that still run as ended, up to Python 3.12.)
        self._asked: List[Tuple[Part, "Future[None]"]] = []
        self._process = os.getpid()

    def __exit__(self, *_) -> None:
        self.close()

    def close(self) -> None:
        """Lets all connections go. What was accepted stays accepted."""
        self._end_interrupted()
        for part in self.parts:
            part.close()

    def save(self) -> List[int]:
        """Saves a snapshot at each server, and gives their numbers of batches."""
        return self._ask(self.parts, Part.save)

    def statuses(self) -> List[Status]:
        """The status of each server as it tells it, a marker being a batch."""
        return self._ask(self.parts, Part.status)

    def _ask(self, parts: List[Part], call: Callable[[Part], Any]) -> List[Any]:
        """What each of these answers to a call, in their order."""
        outcome = self._at_once(parts, call)
        outcome.judge()
        return [outcome.answers[part.place] for part in parts]

    def _at_once(self, parts: List[Part], call: Callable[[Part], Any], then: Callable[[], Any] = int) -> Outcome:
        """Makes a call of several parts at once, that of the first in this thread; `then` is called behind that one,
        however it ends."""
        self._end_interrupted()
        outcome = Outcome()

        def run(part: Part) -> None:
            try:
                outcome.answers[part.place] = call(part)
            except Exception as fault:
                outcome.faults[part.place] = fault

        def run_aside(part: Part, asked: "Future[None]") -> None:
            if asked.set_running_or_notify_cancel():
                try:
                    run(part)
                finally:
                    asked.set_result(None)

        try:
            for part in parts[1:]:
                asked: "Future[None]" = Future()
                self._asked.append((part, asked))
                threading.Thread(target=run_aside, args=(part, asked), daemon=True).start()
            run(parts[0])
        finally:
            then()
        for _, asked in self._asked:
            asked.result()
        self._asked = []
        return outcome

    def _end_interrupted(self) -> None:
        """Gives up what a call that was interrupted still asks, and waits for the threads that do. What another process
        asked before a fork stays there."""
        if self._process == os.getpid():
            # (those that haven't begun never will)
            begun = [(part, asked) for part, asked in self._asked if not asked.cancel()]
            for part, asked in begun:
                if not asked.done():
                    part.give_up()
            for _, asked in begun:
                asked.result()
        for part, _ in self._asked:
            part.begin_again()
        self._asked, self._process = [], os.getpid()


class Cluster(Several):
    """Several servers as one, by a map that stays as it is.

    `servers` are their addresses in order, as `where_of` reads them ("tcp:host:port", "unix:path", "host:port" or a
    path with a slash), or functions that give one and are asked for each connection. `generation` is the map's number,
    which belongs to these servers, to this order and to this way for ever. `client` is the client's number, below
    2^64 - 1, which no other program uses.

    `size`, the servers' numbers of rows and columns, has a cell beyond them found out before anything is sent; by rows
    give it, since a server that refuses its part leaves a half batch. `max_batches` is what the servers take
    (`--max-batches`), and `reserve` how many places of each book are left for batches that must be put again: at least
    as many as all clients together have on the way or keep. A new batch behind them is a `Full`.

    `keep`, `timeout`, `attempts`, `pause` and `wait` are those of each server's `Client`: with `keep=BYTES` the parts
    that no save has are kept, and are put again over each new connection, as servers without a log need it.
    """

    def __init__(
        self, servers: Sequence[Place], *, client: int, generation: int, by: str = "source",
        size: Optional[Tuple[int, int]] = None, max_batches: int = 1_000_000, reserve: int = 10_000,
        keep: Optional[int] = None, timeout: Optional[float] = 60, attempts: int = 14, pause: float = 0.05,
        wait: Optional[float] = None,
    ):
        if by not in WAYS:
            raise ValueError(f"{by!r} is none of {WAYS}")
        if not servers or isinstance(servers, str):
            raise ValueError("give a list of servers")
        for server in servers:
            if isinstance(server, str):
                where_of(server)
        if not 0 <= client < MARKER or not 0 <= generation <= MARKER:
            raise ValueError("client is a number from 0 to 2^64 - 2, and generation one from 0 to 2^64 - 1")
        if not 0 <= reserve < max_batches:
            raise ValueError("reserve is a number below max_batches")
        self.client, self.by, self.size, self.most = client, by, size, max_batches - reserve
        how = {"client": client, "keep": keep, "timeout": timeout, "attempts": attempts, "pause": pause, "wait": wait}
        super().__init__([
            Part(server, place, marker_of(generation, by, len(servers), place), **how)
            for place, server in enumerate(servers)
        ])
        # Those that a batch of this client goes to, the one first that must accept it before the others are asked.
        self._putting = self.parts if by == "rows" else [self.parts[client % len(servers)]]
        self._has_met = False
        self._full: Optional[Full] = None

    def __enter__(self) -> "Cluster":
        return self

    # What a cluster asks.

    def put(self, number: int, cells: Cells) -> List[Accepted]:
        """Puts a batch, and gives the replies of the servers that got a part of it, in order: one of them by source."""
        [(_, replies)] = self.put_all([(number, cells)])
        return replies

    def put_all(self, batches: Iterable[Tuple[int, Cells]], depth: int = 16) -> Iterator[Tuple[int, List[Accepted]]]:
        """Puts batches (number, cells) and gives (number, replies) in order, with up to `depth` of them on the way.

        Where one fails, those before it are given first. Those behind it may have been accepted, and can be put again
        with their numbers, as the one that failed. A batch's cells are read before anything of it is sent.
        """
        source = iter(batches)
        while ahead := [self._framed(*batch) for batch in itertools.islice(source, max(1, min(depth, MAX_DEPTH)))]:
            self._meet()
            if self._full is not None:
                self._refuse(self._full)
            done, outcome = self._put_ahead(ahead)
            yield from zip([batch.number for batch in ahead], done)
            outcome.judge()

    def cell(self, row: int, col: int) -> Optional[int]:
        """The count of a cell, counted from 0; None where none is stored."""
        counts = self._ask(self._having(row), lambda part: part.cell(row, col))
        return None if counts.count(None) == len(counts) else sum(count or 0 for count in counts)

    def row(self, row: int) -> RowSum:
        """The sum of a row, counted from 0. By source a cell is counted in `entries` by each server that has it."""
        return RowSum(*map(sum, zip(*self._ask(self._having(row), lambda part: part.row(row)))))

    def range(
        self, rows: Optional[Tuple[int, int]] = None, cols: Optional[Tuple[int, int]] = None, page: int = PAGE
    ) -> Iterator[Cell]:
        """The cells of the sum whose row and column are from the first to the last of these, both ends in, by row and
        then by column: those of all servers, merged, and where several have a cell its counts added up. Each server is
        asked page by page; without bounds `size` is asked for where it isn't given."""
        if rows is None or cols is None:
            [size] = [self.size] if self.size else self._ask(self.parts[:1], Part.size)
            rows, cols = rows or (0, size[0] - 1), cols or (0, size[1] - 1)
        parts = self._having(rows[0]) if rows[0] == rows[1] else self.parts
        cells = heapq.merge(*(self._range_of(part, rows, cols, page) for part in parts))
        for place, same in itertools.groupby(cells, key=operator.itemgetter(0, 1)):
            yield (*place, sum(cell[2] for cell in same))

    def _range_of(self, part: Part, rows: Tuple[int, int], cols: Tuple[int, int], most: int) -> Iterator[Cell]:
        """The cells of a range that one server has."""

        def ask(start: Tuple[int, int]) -> Page:
            [page] = self._ask([part], lambda part: part.page(rows, cols, start, most))
            return page

        return paged(ask)

    def top(self, most: int = 10, by: str = "total") -> List[TopRow]:
        """The first `most` rows, of those that have a cell, by total or by entries, the highest first, and of equal ones
        the lowest row. By source a row's numbers are those of `row`: all servers' added up, so that `entries` counts a
        cell for each that has it. Each is then asked for more rows, and for single ones, until it is certain which
        lead; an `Undecided` where a million rows of each don't tell."""
        depth = most
        while True:
            lead = Lead(self._ask(self.parts, lambda part: part.top(depth, by)), depth, by)
            if self.by == "rows":
                return lead.added([])[:most]
            missing = dict(enumerate(lead.unknown(most)))
            asked = self._ask(self.parts, lambda part: {row: part.row(row) for row in missing[part.place]})
            leading = lead.added(asked)[:most]
            if lead.is_decided(leading):
                return leading
            if depth == MAX_PAGE:
                raise Undecided(f"which {most} rows lead by {by} isn't told by the first {depth} of each server")
            depth = min(4 * depth, MAX_PAGE)

    def status(self) -> Status:
        """How many batches were accepted, markers aside, and their total. By rows the number is that of the server
        that has fewest, since each batch is at all of them."""
        return self._counted(self.statuses())

    def stored(self) -> Status:
        """How many of the accepted batches are durable, and their total: a crash takes none of them back."""
        return self._counted(self._ask(self.parts, Part.stored))

    def export(self) -> bytes:
        """The text of the sum of all accepted batches. Each server's part of it has at most 64 MiB; what is longer is
        written of snapshots (`hhm export`)."""
        return merged(self._ask(self.parts, Part.export))

    def save(self, own: bool = False) -> List[int]:
        """Saves a snapshot at each server, or with `own` at those alone that this client's batches go to, and gives
        their numbers of batches."""
        return self._ask(self._putting if own else self.parts, Part.save)

    def stop(self) -> None:
        """Tells all servers to stop, as `Client.stop` does."""
        self._ask(self.parts, Part.stop)

    # How it is asked.

    def _having(self, row: int) -> List[Part]:
        """The servers that may have cells of a row."""
        return self.parts if self.by == "source" else [self.parts[place_of_row(row, len(self.parts))]]

    def _counted(self, told: List[Status]) -> Status:
        counts = [status.batches - 1 for status in told]
        return Status(min(counts) if self.by == "rows" else sum(counts), sum(status.total for status in told))

    def _framed(self, number: int, cells: Cells) -> Batch:
        """The frames of a batch. A ValueError or a TypeError where it is none."""
        body = bytes_of_arrays(cells) if isinstance(cells, Arrays) else bytes_of(cells)
        if self.size is not None:
            judge_size(body, self.size)
        parts = cut(body, len(self.parts)) if self.by == "rows" else [body]
        return Batch(number, [request(PUT_CELLS, self.client, number, body=part) for part in parts])

    def _meet(self) -> None:
        """Before the first put: a connection to each server, over which it is known whether it is one of this map."""
        if not self._has_met:
            self._ask(self.parts, Part.status)
            for part in self.parts:
                if part not in self._putting:
                    part.close()
            self._has_met = True

    def _refuse(self, full: Full) -> None:
        """Tells a full book; but that servers went back, which then get again what they lack, comes before it."""
        try:
            self._ask(self._putting, Part.status)
        except WentBack:
            self._full = None
            raise
        raise Full(full.place, full.batches)

    def _put_ahead(self, ahead: List[Batch]) -> Tuple[List[List[Accepted]], Outcome]:
        """Puts batches: the replies to the first of them, those that all parts have accepted, and the faults."""
        first, *others = self._putting
        replies: Dict[int, List[Accepted]] = {part.place: [] for part in self._putting}
        before: Dict[int, int] = {}
        # The batches that the first has accepted, for each other; nothing at their end.
        lines: Dict[int, Any] = {part.place: queue.SimpleQueue() for part in others}

        def put(part: Part) -> None:
            before[part.place] = part.status().batches
            at = self._putting.index(part)
            batches = ahead if part is first else iter(lines[part.place].get, None)
            frames = ((batch.number, batch.frames[at]) for batch in batches)
            with contextlib.closing(part._put_frames(frames, len(ahead))) as accepted:
                for _, reply in accepted:
                    if part is first:
                        for line in lines.values():
                            line.put(ahead[len(replies[part.place])])
                    replies[part.place].append(reply)

        def end() -> None:
            for line in lines.values():
                line.put(None)

        outcome = self._at_once(self._putting, put, end)
        if outcome.faults:
            self._explain(outcome, ahead, replies)
        else:
            self._look_at_books(before, replies)
        return [list(each) for each in zip(*replies.values())], outcome

    def _explain(self, outcome: Outcome, ahead: List[Batch], replies: Dict[int, List[Accepted]]) -> None:
        """Puts what a refusal means in its place: a full book, or a half batch."""
        first, refused = self._putting[0].place, {}
        for place, fault in outcome.faults.items():
            if isinstance(fault, Refused) and place == first:
                if fault.name == "BookFull":
                    outcome.faults[place] = Full(place, self.most)
            elif isinstance(fault, Refused):
                refused[place] = fault
        if refused:
            at = min(len(replies[place]) for place in refused)
            these = {place: why for place, why in refused.items() if len(replies[place]) == at}
            outcome.faults[min(these)] = Half(ahead[at].number, these)

    def _look_at_books(self, before: Dict[int, int], replies: Dict[int, List[Accepted]]) -> None:
        """Notes a book that has no place but the reserve, where one of these batches was new in it. Repeats are let
        through, since a run that begins again must put again what it left half."""
        for place, accepted in replies.items():
            highest = max(reply.index for reply in accepted)
            if self._full is None and highest >= before[place] and highest + 1 >= self.most:
                self._full = Full(place, highest + 1)
