"""What a running server does, looked at once a second: for `hhmc watch`, `hhmc metrics` and `hhmc plot rates`.

A `Watched` asks a server for its status, for a cell, whose times it takes, for its stats, and now and then for the rows
that lead. A server may refuse some of these as an unknown kind: what it doesn't tell is left out, and everything else
goes on. Of a server on this machine, at a Unix socket, the system tells the memory, the processor time and the age of
its process, where its stats don't. Names of stats that aren't known here are passed on as they are.
"""
import array
import os
import re
import socket
import struct
import sys
import time
from collections import Counter
from typing import Any, Callable, Dict, List, NamedTuple, Optional, Sequence, Tuple, TypeVar, Union

from hhm_client import CODES, MAX_PAGE, ROWS, TOP, BadReply, Client, Refused, Status, TopRow, request

Value = Union[int, float, str]
Answer = TypeVar("Answer")
LABELLED = re.compile(r"(?P<name>[A-Za-z0-9_]+)(?:\{(?P<labels>.*)\})?")
LABEL = re.compile(r'([A-Za-z0-9_]+)="((?:[^"\\]|\\.)*)"')
# The seconds that an answer may take, those between two questions for rows that lead, and of that the share which the
# answers to such questions may take.
TIMEOUT, PAUSE, SHARE = 5.0, 2.0, 0.05
# The same for the degrees of all rows, which are many.
LONG_PAUSE, LONG_SHARE = 5.0, 0.02
# The seconds that are kept; the history of a day: the seconds between two moments, how many are kept, and which stats.
KEPT = 600
MINUTE, MINUTES = 60.0, 1440
OF_MINUTES = ("resident_bytes", "log_bytes_left")
HOUR, DAY = 3600.0, 86400.0
# A reason that has no word of its own.
OTHER = "other"
# What the words of servers for the reasons of refusals say. One that isn't here is shown as it is.
REASONS = {
    "no-space": "the disk is full", "quota": "the quota of the disk is used up", "file-size": "a limit of file sizes",
    "permission": "the server may not write there", "read-only": "the disk is read-only", "device": "the disk failed",
    "no-folder": "the folder isn't there", "moved": "the log was moved, replaced or cut",
    "other-book": "the log under that path is another book's", "limit": "--limit is reached",
    "max-batches": "--max-batches is reached",
}


class Moment(NamedTuple):
    """What a server has told at a time, in seconds since 1970, and how many seconds a status and a cell took."""

    at: float
    status: Status
    stats: Dict[str, Value]
    status_seconds: float
    cell_seconds: float

    def number(self, *names: str) -> Optional[Union[int, float]]:
        """The number of the first of these names that the server tells; None where it tells none of them."""
        found = (self.stats[name] for name in names if isinstance(self.stats.get(name), (int, float)))
        return next(found, None)

    def batches(self) -> int:
        return self.status.batches

    def total(self) -> int:
        return self.status.total

    def log_used(self) -> Optional[Union[int, float]]:
        """A number that rises by each byte of the log, and falls where that is begun anew."""
        left = self.number("log_bytes_left")
        return None if left is None else -left

    def family(self, *names: str) -> List[Tuple[Dict[str, str], Union[int, float]]]:
        """The labels and numbers of all that have the first of these names which the server tells with labels."""
        for wanted in names:
            found = [(labels_of(name), value) for name, value in self.stats.items()
                     if name.startswith(wanted + "{") and isinstance(value, (int, float))]
            if found:
                return found
        return []

    def without_labels(self) -> "Moment":
        """The same without what has labels, as the layers of all shards: what is kept of moments that are over."""
        return self._replace(stats={name: value for name, value in self.stats.items() if "{" not in name})

    def layers(self) -> List["Layer"]:
        """The layers of each shard, in order."""
        runs = {tuple(sorted(labels.items())): value for labels, value in self.family("shard_layer_runs")}
        found = [Layer(int(labels["shard"]), int(labels["layer"]), int(value), runs.get(tuple(sorted(labels.items()))))
                 for labels, value in self.family("shard_layer_entries")
                 if all(labels.get(it, "").isdigit() for it in ("shard", "layer"))]
        return sorted(found, key=lambda it: (it.shard, it.layer))


class Layer(NamedTuple):
    """A layer of a shard, how many entries it has at most, and in how many runs, where that is told."""

    shard: int
    layer: int
    entries: int
    runs: Optional[Union[int, float]]


class Bin(NamedTuple):
    """How many rows have so many entries, from the first to the last number."""

    first: int
    last: int
    rows: int


class Bound(NamedTuple):
    """A number of stats that says what is left, what rises as that falls, and whether it is begun anew by a save."""

    name: str
    used: Callable[[Moment], Optional[float]]
    is_begun_anew: bool = False


class Left(NamedTuple):
    """What is left by a name of stats, and for how many days; None where nothing was used, or that isn't known."""

    name: str
    number: Union[int, float]
    days: Optional[float]


BOUNDS = (Bound("batches_left", Moment.batches), Bound("total_left", Moment.total),
          Bound("log_bytes_left", Moment.log_used, True))


class Degrees(NamedTuple):
    """How many entries rows have, of the first `rows` rows by entries; all of them where they are whole."""

    rows: int
    is_whole: bool
    bins: List[Bin]


def name_of(name: str) -> str:
    """A name of stats without its labels."""
    found = LABELLED.fullmatch(name)
    return found.group("name") if found else name


def labels_of(name: str) -> Dict[str, str]:
    return dict(LABEL.findall(name.partition("{")[2]))


def code_of(word: str) -> str:
    """The name of the refusal that has a code; the code where it is no known one."""
    return CODES.get(int(word), word) if word.isascii() and word.isdigit() else word


def failures_of(stats: Dict[str, Value]) -> List[Tuple[str, str]]:
    """The refusals of which stats tell a reason, as `last_failure{code="42",why="no-space"} 1`, each with its word."""
    found = [labels_of(name) for name, value in stats.items() if name_of(name) == "last_failure" and value]
    return [(code_of(it.get("code", "?")), it.get("why", "?")) for it in found]


def degrees_of(body: bytes) -> Degrees:
    """The degrees that a reply to a Top by entries tells. A BadReply where it is none."""
    if len(body) % 24:
        raise BadReply(f"{len(body)} bytes are no rows")
    numbers = array.array("Q", body)
    if sys.byteorder == "little":
        numbers.byteswap()
    entries = numbers[1::3]
    powers = Counter(map(int.bit_length, entries))
    bins = [Bin(1 << power >> 1, (1 << power) - 1, powers[power]) for power in sorted(powers)]
    return Degrees(len(entries), len(entries) < MAX_PAGE, bins)


class Seldom:
    """A question that is asked again once its answer is old, and that takes no more than a share of the time."""

    def __init__(self, ask: Callable[[], Any], pause: float, share: float):
        self.ask, self.pause, self.share = ask, pause, share
        self.answer: Any = None
        self.next = 0.0

    def answered(self) -> Any:
        begin = time.monotonic()
        if begin >= self.next:
            self.answer = self.ask()
            end = time.monotonic()
            self.next = end + max(self.pause, (end - begin) / self.share)
        return self.answer


def asking(tcp: Optional[str], unix: Optional[str], timeout: Optional[float]) -> Client:
    """A client that doesn't wait for a server that is gone."""
    return Client(tcp=tcp, unix=unix, timeout=TIMEOUT if timeout is None else timeout, attempts=1)


def process_of(hhm: Client) -> Dict[str, Value]:
    """What the system tells of the process at the other end of a Unix socket, by the names that stats have for it;
    nothing where there is no such process here, or it may not be looked at."""
    try:
        peer = hhm._link._socket.getsockopt(socket.SOL_SOCKET, socket.SO_PEERCRED, struct.calcsize("3i"))
        process = struct.unpack("3i", peer)[0]
        with open(f"/proc/{process}/statm") as file:
            pages = int(file.read().split()[1])
        with open(f"/proc/{process}/stat") as file:
            words = file.read().rpartition(")")[2].split()
        with open("/proc/uptime") as file:
            now = float(file.read().split()[0])
    except (AttributeError, OSError):
        return {}
    ticks = os.sysconf("SC_CLK_TCK")
    return {"resident_bytes": pages * os.sysconf("SC_PAGE_SIZE"), "uptime_seconds": round(now - int(words[19]) / ticks, 2),
            "processor_seconds_total": (int(words[11]) + int(words[12])) / ticks}


class Watched:
    """A server that is looked at by a client. `look` may be called from one thread at a time."""

    def __init__(self, hhm: Client, most: int = 10):
        self.place = f"unix:{hhm.unix}" if hhm.tcp is None else hhm.tcp
        self.hhm = hhm
        # (a list that is replaced, and never changed: another thread may read it)
        self.moments: List[Moment] = []
        # A moment of each minute of a day. (replaced, as the list above)
        self.minutes: List[Moment] = []
        self.unknown: Dict[str, bool] = {}
        self._top = Seldom(lambda: self.hhm.top(most), PAUSE, SHARE)
        self._degrees = Seldom(self._ask_degrees, LONG_PAUSE, LONG_SHARE)

    def look(self) -> Moment:
        """Asks the server, and keeps what it tells. An OSError where it doesn't answer; the next look asks anew."""
        try:
            status, _ = self._timed(self.hhm.status) if self.hhm._link is None else (None, 0)
            status, status_seconds = self._timed(self.hhm.status)
            _, cell_seconds = self._timed(lambda: self.hhm.cell(0, 0))
            stats = {**self._stored(), **process_of(self.hhm), **(self.known("stats", self.hhm.stats) or {})}
        except OSError:
            # (another server may be there next time)
            self.unknown.clear()
            raise
        moment = Moment(time.time(), status, stats, status_seconds, cell_seconds)
        before = self.moments[1 - KEPT :]
        self.moments = [*before[:-1], *(it.without_labels() for it in before[-1:]), moment]
        self.keep(moment)
        return moment

    def keep(self, moment: Moment) -> None:
        """Keeps a moment of each minute, with what is asked of those that are long over."""
        if not self.minutes or moment.at - self.minutes[-1].at >= MINUTE:
            stats = {name: moment.stats[name] for name in OF_MINUTES if name in moment.stats}
            self.minutes = [*self.minutes[1 - MINUTES:], moment._replace(stats=stats)]

    def lefts(self) -> List[Left]:
        """What is left of each bound that the server tells, and for how many days at the rate of the last hour."""
        moments = self.moments
        return lefts_of([*(it for it in self.minutes if it.at < moments[0].at), *moments]) if moments else []

    def _stored(self) -> Dict[str, Value]:
        """How many batches are durable."""
        stored = self.known("stored", self.hhm.stored)
        return {} if stored is None else {"durable_batches": stored.batches}

    def top(self) -> Optional[List[TopRow]]:
        """The rows that lead by total, as they were lately; None where the server doesn't know the question."""
        return self.known("top", self._top.answered)

    def degrees(self) -> Optional[Degrees]:
        """How many entries rows have, as it was lately; None where the server doesn't know the question."""
        return self.known("top", self._degrees.answered)

    def rate(self, read: Callable[[Moment], Optional[float]], seconds: float = 1.0) -> Optional[float]:
        """How much a number rises in a second, over the last so many; None where it isn't told."""
        return rate_of(self.moments, read, seconds)

    def known(self, name: str, ask: Callable[[], Answer]) -> Optional[Answer]:
        """An answer; None of a server that refuses the question, which isn't asked it again where it doesn't know it."""
        if self.unknown.get(name):
            return None
        try:
            return ask()
        except Refused as refused:
            self.unknown[name] = refused.name == "UnknownKind"
            return None

    @staticmethod
    def _timed(ask: Callable[[], Answer]) -> Tuple[Answer, float]:
        begin = time.perf_counter()
        answer = ask()
        return answer, time.perf_counter() - begin

    def _ask_degrees(self) -> Degrees:
        frame = request(TOP, body=b"\1" + MAX_PAGE.to_bytes(8, "big"))
        return self.hhm._ask_for(frame, ROWS, degrees_of)


def rate_of(moments: List[Moment], read: Callable[[Moment], Optional[float]], seconds: float) -> Optional[float]:
    """How much a number has risen in a second up to the last moment, over the last so many; None where it isn't told,
    or where there is one moment alone. A number that fell began anew with the server."""
    if len(moments) < 2:
        return None
    last = moments[-1]
    first = next((it for it in moments if last.at - it.at <= seconds * 1.5), moments[-2])
    first = moments[-2] if first is last else first
    values = read(first), read(last)
    if values[0] is None or values[1] is None or last.at <= first.at:
        return None
    return max(0.0, values[1] - values[0]) / (last.at - first.at)


def lefts_of(moments: Sequence[Moment]) -> List[Left]:
    """What the last of these moments tells to be left, and for how many days at the rate of the hour before it."""
    last = moments[-1]
    within = next(place for place, it in enumerate(moments) if last.at - it.at <= HOUR)
    seen = moments[min(within, max(0, len(moments) - 2)):]
    told = ((it, last.number(it.name)) for it in BOUNDS)
    return [Left(it.name, number, days_of(it, number, seen)) for it, number in told if number is not None]


def days_of(bound: Bound, number: Union[int, float], moments: Sequence[Moment]) -> Optional[float]:
    """For how many days a number is enough, as it was used in these moments. What is used falls where another book was
    begun, of which alone the rate is then, or where a save began the log anew: a log that saves begin anew doesn't
    fill."""
    points = [(it.at, used) for it in moments if (used := bound.used(it)) is not None]
    falls = [place for place in range(1, len(points)) if points[place][1] < points[place - 1][1]]
    if not points or (falls and bound.is_begun_anew):
        return None
    (begin, first), (end, last) = points[falls[-1] if falls else 0], points[-1]
    return number * (end - begin) / (last - first) / DAY if last > first and end > begin else None
