"""Loads files of events into a server of hhm, in batches that count once however often a load is begun again.

This is the word `load` of `hhm_client.py`:

    hhmc --unix /run/hhm/hhm.sock load --cols source,destination,packets 7 flows.csv
    zcat flows.csv.gz | hhmc --unix /run/hhm/hhm.sock load --format csv 8 -

Batch k of a client is always the same events: `--batch` events in the order of the files, and the last of each file,
which may have fewer. So a load that was interrupted, killed too, is begun again with the same words, and each event
counts once. Of each batch a checksum is written into a state file before the batch is sent; other events under a number
that was used are found by it, and refused before any of them is sent. A state file has the checksums of each book by
itself, so one client number may be used for several servers.

A row and a column are numbers, addresses, or names. Names, and addresses of IPv6, which have 128 bits, get numbers in
the order in which they come, by a table: a file with one name a line that only grows, and whose lines are on the disk
before a batch with their numbers is sent. So a name keeps its number for ever.
"""
import argparse
import collections
import contextlib
import csv
import fcntl
import hashlib
import json
import os
import re
import sys
import zlib
from time import monotonic
from typing import Any, Callable, Deque, Dict, Iterable, Iterator, List, NamedTuple, Optional, Sequence, Tuple

from hhm_client import MAX_CELLS, BookWentBack, Client, Ended, Refused, Status, are_other_books
from hhm_events import FORMATS, OF_ADDRESSES, Batch, Events, Limit, Source, Tally, format_of
from hhm_heads import DIGITS, Wanted
from hhm_values import Value, folder_of_states, note

MAPS = ("ip", "int", "name")
# How lines are judged, as the state of a load notes it: another number where other lines would be events. (Where that
# changed for odd quotes alone, the checksums of their batches show it.)
RULES = "2"
# What lines of a state file begin with that are no checksum: the options of a load, the books that the next lines are
# of, and the books whose are the lines of no known book.
OPTIONS, BOOKS, OWNERS = b"options ", b"books ", b"owners "
# In place of the identity of a book: of a server that reports none. So are the lines before the first books.
NO_BOOK = "-"
# The names of state files.
STATE_FILE = re.compile(r"client-([0-9]+)\.batches")
# The first number of an IPv6 address, after all of IPv4.
IPV4 = 1 << 32
# The codes of refusals that say that the server doesn't have the batch.
JUDGED = range(20, 33)
SIX = (": addresses of IPv6 have the numbers from 4294967296 on, by the table: start the server with more rows and "
       "columns, as --rows 8589934592 --cols 8589934592")


def number_of(word: str) -> int:
    """A number from 0 to 2^64 - 1. A ValueError for any other word."""
    if not DIGITS.fullmatch(word) or (value := int(word)) >= 1 << 64:
        raise ValueError(f"{word!r} is no number from 0 to 2^64 - 1")
    return value


def opened(path: str) -> Tuple[int, bool]:
    """Opens a file to read it and to write behind it, and returns whether it was made."""
    flags = os.O_RDWR | os.O_APPEND | os.O_CREAT | os.O_CLOEXEC
    try:
        return os.open(path, flags | os.O_EXCL, 0o666), True
    except FileExistsError:
        return os.open(path, flags, 0o666), False


class Lines:
    """A file of lines that only grows, and that nobody else has open so. An Ended where another load has."""

    def __init__(self, path: str, what: str):
        self.path, folder = path, os.path.dirname(path) or "."
        try:
            os.makedirs(folder, exist_ok=True)
            self.file, self.is_made = opened(path)
            sync_folder(folder)
        except OSError as fault:
            raise Ended(4, f"{path}: {fault.strerror}") from None
        try:
            fcntl.flock(self.file, fcntl.LOCK_EX | fcntl.LOCK_NB)
            # (another load may have removed what was opened)
            is_there = os.path.samestat(os.fstat(self.file), os.stat(path))
        except OSError:
            is_there = False
        if not is_there:
            os.close(self.file)
            raise Ended(4, f"{path}: another load uses {what}")
        self.known = self._whole()
        self.length = os.fstat(self.file).st_size

    def _whole(self) -> List[bytes]:
        """The lines that are there. A last one that isn't whole was never used, and is cut off."""
        with open(os.dup(self.file), "rb") as content:
            text = content.read()
        end = text.rfind(b"\n") + 1
        if end < len(text):
            os.ftruncate(self.file, end)
        return text[:end].split(b"\n")[:-1]

    def append(self, lines: Sequence[bytes]) -> None:
        """Writes lines behind those of the file, and returns once they are on the disk."""
        rest = memoryview(b"".join(line + b"\n" for line in lines))
        while rest:
            rest = rest[os.write(self.file, rest):]
        os.fsync(self.file)

    def take_back(self) -> None:
        """Removes what was appended."""
        os.ftruncate(self.file, self.length)
        os.fsync(self.file)

    def close(self) -> None:
        """Closes the file. One that was made and has no line is removed."""
        if self.is_made and not os.fstat(self.file).st_size:
            with contextlib.suppress(OSError):
                os.unlink(self.path)
        os.close(self.file)


def sync_folder(folder: str) -> None:
    """Returns once the names in a folder are on the disk."""
    named = os.open(folder, os.O_RDONLY | os.O_DIRECTORY)
    try:
        os.fsync(named)
    finally:
        os.close(named)


class Table(Dict[str, int]):
    """The numbers of names, in a file with one name a line; the first has the number `first`."""

    def __init__(self, path: str, first: int):
        super().__init__()
        self.file = Lines(path, "this table of names")
        lines = [line.decode("utf-8", "surrogateescape") for line in self.file.known]
        self.first = first
        self.update((name, first + place) for place, name in enumerate(lines))
        # Names that have a number and aren't in the file yet.
        self.new: List[str] = []
        if len(self) < len(lines):
            raise Ended(4, f"{path}: a name stands twice, so this is no table of names")

    def __missing__(self, name: str) -> int:
        """The number of a name that had none."""
        number = self.first + len(self)
        self[name] = number
        self.new.append(name)
        return number

    def sync(self) -> None:
        """Writes what is new, and returns once it is on the disk."""
        if self.new:
            self.file.append([name.encode("utf-8", "surrogateescape") for name in self.new])
            self.new = []


class Section:
    """What a state file has of one book: the options that say which lines are events, where they were noted, and the
    checksums of the batches that the client's number was used for."""

    def __init__(self, line: Optional[bytes] = None, batches: Sequence[bytes] = ()) -> None:
        self.line, self.batches = line, list(batches)

    def copy(self) -> "Section":
        return Section(self.line, self.batches)

    def add(self, line: bytes) -> None:
        if line.startswith(OPTIONS):
            self.line = line
        else:
            self.batches.append(line)

    def others(self, options: Dict[str, str]) -> Optional[str]:
        """What options were noted and what they are now, where these differ. An earlier hhmc has noted none."""
        known = options if self.line is None else json.loads(self.line[len(OPTIONS):])
        names = [name for name in options if known.get(name) != options[name]]
        was, now = (" ".join(f"{name} {it.get(name)}" for name in names) for it in (known, options))
        return f"{was}, and this load has {now}" if names else None


def sections_of(lines: Iterable[bytes]) -> Dict[str, Section]:
    """What the lines of a state file say of each book."""
    sections: Dict[str, Section] = {}
    books = [NO_BOOK]
    for line in lines:
        if line.startswith(BOOKS):
            books = line[len(BOOKS):].decode().split()
        elif line.startswith(OWNERS):
            section = sections.pop(NO_BOOK, Section())
            sections.update((book, section.copy()) for book in line[len(OWNERS):].decode().split())
        else:
            for book in books:
                sections.setdefault(book, Section()).add(line)
    return sections


class State:
    """The checksums of the batches that a client's number was used for, of each book by itself, in a file of one line
    each. Before those of a book are the options that say which lines are events.

    A file of an earlier hhmc says of no line which book it is of, and may have no options. Its lines are those of the
    first book that has its first batch, which the first put of a load shows. (Its last line says nothing: the batch may
    never have been sent. Before a second one was noted the first was accepted.)
    """

    def __init__(self, path: str, client: int):
        self.path, self.client = path, client
        self.file = Lines(path, f"client {client}")
        self.sections = sections_of(self.file.known)
        # The books that the end of the file is of.
        self.end = [] if any(line.startswith(BOOKS) for line in self.file.known) else [NO_BOOK]
        self.new: List[bytes] = []
        # The books of this load, and those of them that may have the lines of no known book.
        self.books: List[str] = []
        self.asked: List[str] = []

    def begin(self, books: Sequence[Optional[str]]) -> None:
        """Before a load into these books."""
        self.books = list(dict.fromkeys(book or NO_BOOK for book in books))
        has_old = NO_BOOK in self.sections and bool(self.sections[NO_BOOK].batches)
        self.asked = [it for it in self.books if has_old and it not in self.sections]

    def note(self, books: List[str], line: bytes) -> None:
        """Notes a line of these books."""
        if books != self.end:
            self.new.append(BOOKS + " ".join(books).encode())
            self.end = books
        self.new.append(line)
        for book in books:
            self.sections.setdefault(book, Section()).add(line)

    def judge_options(self, options: Dict[str, str]) -> None:
        """Notes the options of a load. An Ended where the load that it goes on with had others."""
        for book in self.books:
            if book in self.sections and (others := self.sections[book].others(options)):
                raise self.had_others(others)
        if new := [book for book in self.books if book not in self.sections]:
            self.note(new, OPTIONS + json.dumps(options).encode())

    def had_others(self, others: str, what: str = "was sent") -> Ended:
        return Ended(2, f"client {self.client} was loaded with {others} ({self.path} says so): nothing {what}. Load "
                        "with the same words, or with another client number")

    def judge(self, batch: Batch) -> bool:
        """Notes a batch, and returns whether it is new. An Ended where other events were put with its number."""
        digest = hashlib.blake2b(digest_size=16)
        for part in batch.parts:
            digest.update(part)
        word = b"%d %s" % (len(batch.lines), digest.hexdigest().encode())
        known = {book: self.sections[book].batches[batch.number : batch.number + 1] for book in self.books}
        if any(it and it != [word] for it in known.values()):
            raise self.has_others(batch)
        if new := [book for book in self.books if not known[book]]:
            self.note(new, word)
        return bool(new)

    def has_others(self, batch: Batch, what: str = "was sent") -> Ended:
        return Ended(2, f"{batch.path}: batch {batch.number} of client {self.client} has other events than when it "
                        f"was put before, so the file, the files before it, or the options differ ({self.path} says "
                        f"so): nothing {what}. Load another file with another client number; a file of which a part "
                        "was put goes on only if that part stays as it is")

    def differs(self, book: Optional[str], batch: Batch) -> Optional[Ended]:
        """What is reported where the lines of no known book may be of this one, and are of other events than the first
        batch of this load."""
        if book is None or book not in self.asked:
            return None
        old, now = self.sections[NO_BOOK], self.sections[book]
        if now.line is not None and (others := old.others(json.loads(now.line[len(OPTIONS):]))):
            return self.had_others(others, "of it counts")
        return self.has_others(batch, "of it counts") if old.batches[:1] != now.batches[:1] else None

    def take_over(self, books: Sequence[Optional[str]]) -> bool:
        """Notes that the lines of no known book are of those of these that may have them. Returns whether any may."""
        owners, self.asked = [it for it in self.asked if it in books], []
        if owners:
            self.new.append(OWNERS + " ".join(owners).encode())
            section = self.sections.pop(NO_BOOK)
            self.sections.update((owner, section.copy()) for owner in owners)
            self.sync()
        return bool(owners)

    def twin(self) -> Optional[int]:
        """Another client whose first batch has the same events, in a book of this load or in one that isn't known, by
        the state files in the same folder."""
        folder = os.path.dirname(self.path)
        for name in sorted(os.listdir(folder)):
            found = STATE_FILE.fullmatch(name)
            if found and int(found[1]) != self.client and self.has_first(os.path.join(folder, name)):
                return int(found[1])
        return None

    def has_first(self, path: str) -> bool:
        """Whether the first batch of this load may be in another state file as that of the same book."""
        first = self.sections[self.books[0]].batches[:1]
        try:
            with open(path, "rb") as file:
                sections = sections_of(line.rstrip(b"\n") for line in file)
        except OSError:
            return False
        known = {NO_BOOK, *self.books}
        return any(section.batches[:1] == first for book, section in sections.items()
                   if book in known or NO_BOOK in self.books)

    def sync(self) -> None:
        if self.new:
            self.file.append(self.new)
            self.new = []


def usual_state(client: int) -> str:
    """Where the state of a client stands that isn't told a place."""
    return os.path.join(folder_of_states(), f"client-{client}.batches")


class Progress:
    """Tells how far a load is: on a terminal a line that is written over, else a line every ten seconds, if at all."""

    def __init__(self, is_wanted: bool):
        self.is_terminal = sys.stderr.isatty()
        self.pause = 1.0 if self.is_terminal else 10.0
        self.is_told = is_wanted or self.is_terminal
        self.begin = self.last = monotonic()
        self.width = 0

    def tell(self, events: int, source: Source) -> None:
        now = monotonic()
        if not self.is_told or now - self.last < self.pause:
            return
        self.last = now
        rate = events / (now - self.begin)
        share = source.share()
        self.say(f"{events} events, {rate:.0f} a second" + (self.left(share, source) if share else ""))

    def left(self, share: float, source: Source) -> str:
        """How far the load is in this file, and how long the rest of it takes, as it went since it was begun."""
        rest = (self.last - source.begin) * (1 - share) / share
        return f", {100 * share:.0f} % of {source.path}, {rest:.0f} s left"

    def say(self, words: str) -> None:
        if self.is_terminal:
            sys.stderr.write("\r" + words.ljust(self.width))
            self.width = len(words)
        else:
            sys.stderr.write(words + "\n")
        sys.stderr.flush()

    def clear(self) -> None:
        if self.is_terminal and self.width:
            sys.stderr.write("\r" + " " * self.width + "\r")
            sys.stderr.flush()


class Options(NamedTuple):
    """What a load is told."""

    files: Sequence[str]
    format: Optional[str]
    wanted: Wanted
    map: Optional[str]
    names: Optional[str]
    state: Optional[str]
    batch: int
    limit: Limit
    progress: bool


def taken(batches: Iterator[Batch], queues: List[Deque[Batch]], own: Deque[Batch]) -> Iterator[Batch]:
    """The batches by a queue of several, each of which gets all. (itertools.tee keeps 57 of them in memory)"""
    while own or (batch := next(batches, None)) is not None:
        if not own:
            for queue in queues:
                queue.append(batch)
        yield own.popleft()


class Load:
    """One load: it reads the files, and puts their events."""

    def __init__(self, servers: List[Client], options: Options):
        # One server for each value, and where it is where there are several.
        self.servers, self.options, self.place = servers, options, ""
        client = servers[0].client
        self.state = State(options.state or usual_state(client), client)
        self.table: Optional[Table] = None
        self.progress = Progress(options.progress)
        # The identities of the servers' books, where they report them.
        self.books: List[Optional[str]] = []
        # Whether a server may have any of the events.
        self.is_sent = False
        self.begin()

    def begin(self) -> None:
        """At the start of the files."""
        self.tally = Tally(self.options.limit)
        # The batches on the way, and the last that was handed on.
        self.way: List[Batch] = []
        self.last: Optional[Batch] = None
        self.events, self.new, self.repeats = 0, 0, 0

    def table_of(self, how: str) -> Optional[Table]:
        """The table of names, where one is needed or given."""
        path = self.options.names
        if how == "name" and path is None:
            raise Ended(2, "--map name: give --names FILE, the table of names, which keeps their numbers")
        if self.table is None and path is not None and how != "int":
            self.table = Table(path, IPV4 if how == "ip" else 0)
        return self.table

    def events_of(self, path: str) -> Events:
        kind = self.options.format or format_of(path)
        how = self.options.map or ("ip" if kind in OF_ADDRESSES else "int")
        if kind == "mtx" and how != "int":
            raise Ended(2, f"{path}: rows and columns of a Matrix Market text are numbers: --map {how} is for others")
        table = self.table_of(how)
        try:
            source = Source(path)
        except OSError as fault:
            raise Ended(4, f"{path}: {fault.strerror}") from None
        with self.reading(source):
            events = Events(source, kind, self.options.wanted, how, table, self.tally)
        if path == self.options.files[0]:
            cols, batch = ",".join(events.columns.names), str(self.options.batch)
            self.state.judge_options({"rules": RULES, "--format": kind, "--map": how, "--cols": cols, "--batch": batch})
        if events.is_guessed():
            self.say(f"{path}: {events.columns.told()}")
        return events

    def say(self, words: str) -> None:
        """Writes a line on standard error, over the line of the progress."""
        self.progress.clear()
        print(words, file=sys.stderr, flush=True)

    def note(self, batch: Batch) -> None:
        """Notes a batch before it is sent: new names and its checksum are on the disk then."""
        is_new = self.state.judge(batch)
        if self.table is not None:
            self.table.sync()
        self.state.sync()
        if batch.number == 0 and is_new and not self.state.asked:
            self.warn_of_twin(batch)

    def warn_of_twin(self, batch: Batch) -> None:
        """Says of a first batch that is new where another client number has it too."""
        if self.options.state is None and (client := self.state.twin()) is not None:
            self.say(f"{batch.path}: its first {len(batch.lines)} events were loaded as client {client} too: where "
                     "that was into this server, they count twice")

    @contextlib.contextmanager
    def reading(self, source: Source) -> Iterator[None]:
        """Reads a file. An Ended where it can't be read."""
        try:
            yield
        except (OSError, EOFError, zlib.error) as fault:
            raise Ended(4, f"{source.path}: {told_of(fault)}: {self.go_on()}") from None

    def read(self, events: Events, number: int) -> Optional[Batch]:
        """The next events of a file."""
        with self.reading(events.source):
            return events.next_batch(number, self.options.batch)

    def batches(self) -> Iterator[Batch]:
        """The batches of all files, each noted before it is handed on."""
        number = 0
        for path in self.options.files:
            events = self.events_of(path)
            with contextlib.closing(events.source):
                while batch := self.read(events, number):
                    self.note(batch)
                    self.way.append(batch)
                    self.last = batch
                    number += 1
                    yield batch
                    self.progress.tell(self.events, events.source)
                events.judge_end()
        self.tally.judge(at_end=True)

    def count(self, indexes: Sequence[int], had: Sequence[int]) -> None:
        """Counts a batch by its index at each server. It is a repeat where each server had it before this load."""
        batch = self.way.pop(0)
        if batch.number == 0 and self.state.asked:
            self.settle(batch, [book for book, index, before in zip(self.books, indexes, had) if index < before])
        self.events += len(batch.lines)
        if all(index < before for index, before in zip(indexes, had)):
            self.repeats += 1
        else:
            self.new += 1

    def settle(self, batch: Batch, having: List[Optional[str]]) -> None:
        """Once the first batch was put, which these books had before: says whose the lines of no known book are. An
        Ended where they are of other events, with as many cells and the same total."""
        fault = next(filter(None, (self.state.differs(book, batch) for book in having)), None)
        if fault and len(having) == len(self.books):
            # (no server counts anything of this load)
            self.take_back()
            raise fault
        if not self.state.take_over(having):
            self.warn_of_twin(batch)
        if fault:
            raise fault

    def puts(self, value: int, batches: Iterator[Batch]) -> Iterator[int]:
        """Puts a value of batches to its server, and gives their indices there. The first goes alone, so that nothing
        was counted where it is refused."""
        hhm = self.servers[value]
        try:
            if (first := next(batches, None)) is not None:
                yield self.put_first(value, first)
            for _, accepted in hhm.put_all((batch.number, batch.cells(value)) for batch in batches):
                yield accepted.index
        except (Refused, OSError) as fault:
            self.place = self.place_of(hhm, fault)
            raise

    def place_of(self, hhm: Client, fault: Exception) -> str:
        """Which server a fault is of, where it doesn't say so itself, or there are several."""
        says_it = isinstance(fault, Refused) or getattr(fault, "filename", None) is not None
        return "" if says_it and len(self.servers) == 1 else f"{hhm.unix or hhm.tcp}: "

    def put_first(self, value: int, batch: Batch) -> int:
        """Puts a server's first batch, and returns its index there."""
        hhm, book, was_sent = self.servers[value], self.books[value], self.is_sent
        self.is_sent = True
        try:
            accepted = hhm.put(batch.number, batch.cells(value))
        except Refused as refused:
            # (a want of memory or of a log says nothing of an earlier try, whose reply was lost)
            self.is_sent = was_sent or refused.code not in JUDGED
            if refused.name == "NumberReused" and (fault := self.state.differs(book, batch)):
                if not self.is_sent:
                    self.take_back()
                raise fault from None
            raise
        has = hhm._last.book_id if hhm._last else None
        if are_other_books(book, has):
            # (the server began again since it was asked for its book)
            raise BookWentBack(Status(0, 0), hhm.status(), (), book, has)
        return accepted.index

    def put_all(self) -> None:
        """Reads the files once, and puts each value to its server."""
        self.books, had = [], []
        for hhm in self.servers:
            try:
                self.books.append(hhm.book_id())
                had.append(hhm.status().batches)
            except OSError as fault:
                self.place = self.place_of(hhm, fault)
                raise
        self.state.begin(self.books)
        batches, queues = self.batches(), [collections.deque() for _ in self.servers]
        with contextlib.ExitStack() as puts:
            ways = [puts.enter_context(contextlib.closing(self.puts(value, taken(batches, queues, queue))))
                    for value, queue in enumerate(queues)]
            for indexes in zip(*ways):
                self.count(indexes, had)

    def run(self) -> str:
        """Loads all, and gives the last line. A server that went back is loaded again from the start, if that can be."""
        try:
            while True:
                try:
                    self.put_all()
                    return self.summary()
                except BookWentBack as fault:
                    if "-" in self.options.files:
                        raise Ended(4, f"{fault}: load it again with the same words") from None
                    self.say(f"{fault}: loading again from the start")
                    self.begin()
        except Refused as refused:
            if not self.is_sent:
                self.take_back()
            raise self.refusal(refused) from None
        except csv.Error as fault:
            raise self.stopped(Ended(3, str(fault))) from None
        except Ended as fault:
            raise self.stopped(fault) from None
        except KeyboardInterrupt:
            raise self.interrupted() from None
        except OSError as fault:
            raise Ended(4, f"failed: {self.place}{told_of(fault)}: {self.go_on()}") from None
        finally:
            self.progress.clear()
            for hhm in self.servers:
                hhm.close()
            for file in self.files():
                file.close()

    def go_on(self) -> str:
        """What is said where a load ends by a fault that may pass."""
        counts = "what was put counts" if self.is_sent else "nothing was sent"
        return f"{counts}; load again with the same words"

    def files(self) -> List[Lines]:
        """The files that a load notes names and batches in."""
        return [self.state.file, *([] if self.table is None else [self.table.file])]

    def take_back(self) -> None:
        """Removes from these files what this load has noted, since no server counts any of it."""
        for file in self.files():
            file.take_back()

    def stopped(self, fault: Ended) -> Ended:
        """What is said where lines end a load amid its files: what was put counts, and must stay as it is."""
        if fault.status != 3 or self.last is None:
            return fault
        end = self.last.lines[-1]
        return Ended(3, f"{fault}\nBatches 0 to {self.last.number} were put and count: what stands up to line {end} of "
                            f"{self.last.path} must stay as it is. Mend what follows, and load again with the same words")

    def refusal(self, refused: Refused) -> Ended:
        """What is said of a batch that the server refused."""
        if not self.way:
            return Ended(1, f"{self.place}refused: {refused}")
        batch = self.way[0]
        where, advice = "", ""
        if refused.name == "IndexOutOfRange":
            where = f"{batch.path}: line {batch.lines[refused.detail]}: "
            numbers = [part[refused.detail] for part in batch.parts[:2]]
            advice = SIX if self.table is not None and self.table.first == IPV4 <= max(numbers) else ""
        return Ended(1, f"{where}{self.place}batch {batch.number}: refused: {refused}{advice}")

    def interrupted(self) -> Ended:
        """The report after Ctrl-C."""
        again = "the same words" + (" and the same input" if "-" in self.options.files else "")
        return Ended(130, f"interrupted: new {self.new} repeats {self.repeats} events {self.events} were put and "
                          f"count; to go on, load again with {again}")

    def summary(self) -> str:
        bad = self.tally.bad()
        skipped = f" skipped {bad}" if bad else ""
        if bad:
            self.say(self.tally.told())
        return f"new {self.new} repeats {self.repeats} events {self.events}{skipped}\n"


def told_of(fault: Exception) -> str:
    """A fault in words, without the number of its error."""
    if not isinstance(fault, OSError) or not fault.strerror:
        return str(fault)
    return fault.strerror if fault.filename is None else f"{fault.filename}: {fault.strerror}"


def batch_size(word: str) -> int:
    """The events of a batch, on the command line. A ValueError for what isn't from 1 to the most cells of a batch."""
    if not DIGITS.fullmatch(word) or not 1 <= int(word) <= MAX_CELLS:
        raise ValueError(f"{word} isn't from 1 to {MAX_CELLS}")
    return int(word)


def judged(meaning: Callable[[str], Any]) -> Callable[[str], Any]:
    """The meaning of a word of the command line, whose ValueError is told as the program's own."""

    def judge(word: str) -> Any:
        try:
            return meaning(word)
        except ValueError as why:
            raise argparse.ArgumentTypeError(str(why)) from None

    return judge


def add_words(load: argparse.ArgumentParser) -> None:
    """Adds the words of `load` to those of the command line."""
    load.add_argument("client", type=judged(number_of), help="a number that no other file and no other program uses")
    load.add_argument("file", nargs="+", help="files of events, also those of gzip (.gz); - is standard input")
    formats = "told by the name, if nothing is said; nfdump is what `nfdump -o csv` writes, zeek a conn.log"
    load.add_argument("--format", choices=FORMATS, help=formats)
    cols = ("the columns of row, column and count, by names in the head, or by places from 1 where there is no head "
            "(heads of the usual flow tools are known)")
    load.add_argument("--cols", metavar="ROW,COLUMN[,COUNT]", help=cols)
    value = ("what is counted: packets, bytes or flows by the names that flow tools give them, or a column's own name; "
             "several times with a server each, as packets=unix:a.sock")
    load.add_argument("--value", type=judged(Value.of), action="append", metavar="NAME[=SERVER]", help=value)
    load.add_argument("--map", choices=MAPS, help="what rows and columns are (int in pairs and mtx, else ip)")
    load.add_argument("--names", metavar="FILE", help="the table that gives names, and IPv6 addresses, their numbers")
    load.add_argument("--batch", type=judged(batch_size), default=10_000, metavar="N", help="events of a batch (10000)")
    skipped = load.add_mutually_exclusive_group()
    skipped.add_argument("--strict", action="store_true", help="the first line that is no event ends the load")
    some = "how many lines may be no events, as a number or a share (1%%)"
    skipped.add_argument("--skip-at-most", type=judged(Limit.of), default=Limit(0.01, 0), metavar="N", help=some)
    load.add_argument("--state", metavar="FILE", help="where a client number's checksums are kept, by books")
    load.add_argument("--progress", action="store_true", help="a line every ten seconds, where there is no terminal")


def load(hhm: Client, given: argparse.Namespace) -> str:
    """Does what the word `load` asks, and gives the line that is to be printed. An Ended where it can't."""
    limit = Limit(0.0, 0) if given.strict else given.skip_at_most
    values = given.value or []
    wanted = Wanted(given.cols, tuple(value.name for value in values))
    others = [Client(tcp=value.tcp, unix=value.unix, client=hhm.client, timeout=hhm.timeout, attempts=hhm.attempts)
              for value in values[1:]]
    if others:
        note(values)
    options = Options(given.file, given.format, wanted, given.map, given.names, given.state, given.batch, limit,
                      given.progress)
    return Load([hhm, *others], options).run()
