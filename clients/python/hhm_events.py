"""Reads files of events, some lines at a time: for `hhmc load`.

The lines of a batch are read at once where each is an event. A line that is none costs only itself: the columns are
read whole, the words that mean nothing are found in them, and their lines are judged one by one.
"""
import array
import contextlib
import csv
import gzip
import io
import itertools
import os
import re
import socket
import struct
import sys
from bisect import bisect_left, bisect_right
from collections import Counter
from decimal import Decimal, InvalidOperation
from operator import methodcaller
from time import monotonic
from typing import (
    Any, Callable, Collection, Dict, Iterable, Iterator, List, NamedTuple, Optional, Sequence, Set, TextIO, Tuple,
)

from hhm_client import Arrays, Ended
from hhm_heads import (
    DIGITS, PLAIN, SEPARATORS, Columns, Found, Wanted, at_places, of_csv, of_zeek, with_head, without_head,
)

FORMATS = ("csv", "tsv", "mtx", "pairs", "nfdump", "zeek")
# The formats whose rows and columns are addresses where nothing else is said.
OF_ADDRESSES = ("csv", "tsv", "nfdump", "zeek")
# The lines after which a share of bad lines is judged, and the number of bad lines that are shown.
ENOUGH, SHOWN = 1_000, 5
MOST = (1 << 64) - 1
# A count as spreadsheets and programs of floats write it.
DECIMAL = re.compile(r"[0-9]+(\.[0-9]*)?([eE]\+?[0-9]{1,3})?", re.ASCII)
# What `int` takes beside digits and digits after `-`, of what is printable.
NOT_BY_INT = ("+", "_", " ", "-0")
NO_ADDRESS = bytes(4)
# How a log of Zeek writes a count that it doesn't have.
UNSET = "-"
# So few items are taken out of lists, or put into them, one by one.
FEW = 100
# The lines that a row with quotes may be on.
ROW_LINES = 100
Mapping = Callable[[Sequence[str], Set[int]], Sequence[int]]


class NoEvent(ValueError):
    """A line that is no event; `reason` is what such lines are counted by."""

    def __init__(self, reason: str, words: str):
        self.reason = reason
        super().__init__(words)


class Limit(NamedTuple):
    """How many lines may be no events: a number of them, or a share of all lines."""

    share: float
    count: int

    @classmethod
    def of(cls, word: str) -> "Limit":
        """A limit of the command line, as `5` or `1%`. A ValueError for another word."""
        if word.endswith("%"):
            share = float(word[:-1]) / 100
            if not 0 <= share <= 1:
                raise ValueError(f"{word} isn't from 0% to 100%")
            return cls(share, 0)
        if not DIGITS.fullmatch(word):
            raise ValueError(f"{word} is neither a number of lines nor a share as 1%")
        return cls(0.0, int(word))

    def is_passed(self, bad: int, lines: int, at_end: bool) -> bool:
        """Whether these bad lines are too many. A share is judged once enough lines were read."""
        if not bad or bad <= self.count:
            return False
        return not self.share or (bad > self.share * lines and (at_end or lines >= ENOUGH))


class Tally:
    """How many lines were read, how many of them were no events by each reason, and the first of these."""

    def __init__(self, limit: Limit):
        self.limit, self.lines = limit, 0
        self.reasons: Dict[str, int] = Counter()
        self.shown: List[str] = []

    def bad(self) -> int:
        return sum(self.reasons.values())

    def note(self, where: str, why: NoEvent) -> None:
        self.reasons[why.reason] += 1
        if len(self.shown) < SHOWN:
            self.shown.append(f"{where}: {why}")

    def judge(self, at_end: bool = False) -> None:
        """An Ended where too many lines were no events."""
        if self.limit.is_passed(self.bad(), self.lines, at_end):
            lines = f"{self.bad()} of {self.lines} lines are no events, and no more may be left out"
            raise Ended(3, f"{self.told()}\n{lines}")

    def told(self) -> str:
        """The first lines that are no events, and how many there are by each reason, where not all are shown."""
        reasons = ", ".join(f"{count} {reason}" for reason, count in sorted(self.reasons.items()))
        more = [f"no events: {reasons}"] if self.bad() > len(self.shown) else []
        return "\n".join(self.shown + more)


# What words mean. Each of these gives the numbers of words, and adds to a set the indices of words that mean none.


def whole_of(word: str) -> int:
    """A whole number from 0 to 2^64 - 1, also as `3.0` or `1e3`, between spaces. A NoEvent for another word."""
    bare = word.strip()
    if not DECIMAL.fullmatch(bare):
        raise NoEvent("no number", f"{word!r} is no number")
    with contextlib.suppress(InvalidOperation):
        value = Decimal(bare)
        if value > MOST:
            raise NoEvent("too big", f"{word!r} is too big")
        if value == value.to_integral_value():
            return int(value)
    raise NoEvent("no number", f"{word!r} is no number")


def digits_of(word: str) -> int:
    """A whole number of digits alone, as a Matrix Market text has it. A NoEvent for another word."""
    if not DIGITS.fullmatch(word):
        raise NoEvent("no number", f"{word!r} is no number")
    return whole_of(word)


def whole_numbers(words: Sequence[str], bad: Set[int], meaning: Callable[[str], int] = whole_of) -> Sequence[int]:
    """The numbers that words spell."""
    text = "".join(words)
    with contextlib.suppress(ValueError, OverflowError):
        if text.isascii() and text.isdigit():
            return array.array("Q", list(map(int, words)))
    return odd_numbers(words, bad, meaning)


def odd_numbers(words: Sequence[str], bad: Set[int], meaning: Callable[[str], int]) -> List[int]:
    """The same where some words aren't digits alone, or are too large."""
    text = "".join(words)
    if text.count(".0") * 8 > len(words) and meaning is whole_of:
        numbers, odd = parted_numbers([word[:-2] if word[-2:] == ".0" else word for word in words])
    elif not text.isascii() or not text.isprintable() or any(sign in text for sign in NOT_BY_INT):
        numbers, odd = parted_numbers(words)
    else:
        numbers, odd = whole_by_int(words)
    try:
        array.array("Q", numbers)
    except OverflowError:
        odd += [place for place, number in enumerate(numbers) if not 0 <= number <= MOST]
    for place in odd:
        try:
            numbers[place] = meaning(words[place])
        except NoEvent:
            numbers[place] = 0
            bad.add(place)
    return numbers


def parted_numbers(words: Sequence[str]) -> Tuple[List[int], List[int]]:
    """The numbers of words of digits, and the indices of all others, whose numbers are 0."""
    odd = [place for place, word in enumerate(words) if not (word.isdigit() and word.isascii() and len(word) < 4000)]
    digits = list(words)
    for place in odd:
        digits[place] = "0"
    return list(map(int, digits)), odd


def whole_by_int(words: Sequence[str]) -> Tuple[List[int], List[int]]:
    """The same of words of which `int` takes digits alone, or digits after `-`."""
    numbers: List[int] = []
    odd: List[int] = []
    rest = map(int, words)
    while len(numbers) < len(words):
        try:
            numbers.extend(rest)
        except ValueError:
            # (a list keeps what it was extended by before a fault)
            odd.append(len(numbers))
            numbers.append(0)
    return numbers, odd


def places_from_one(words: Sequence[str], bad: Set[int]) -> List[int]:
    """Rows and columns of a Matrix Market text, which count from 1."""
    numbers = whole_numbers(words, bad, digits_of)
    bad.update(place for place, number in enumerate(numbers) if number == 0)
    return [number - 1 for number in numbers]


class Addresses:
    """The numbers of addresses: those of IPv4 are their 32 bits, those of IPv6 come after them, by a table."""

    def __init__(self, table: Optional[Dict[str, int]]):
        self.table = table

    def numbers(self, words: Sequence[str], bad: Set[int]) -> List[int]:
        """Those of IPv4 at once. A word that is none is read by itself, and the iterator goes on after it."""
        packed: List[bytes] = []
        odd: List[int] = []
        rest = map(socket.inet_pton, itertools.repeat(socket.AF_INET), words)
        while len(packed) < len(words):
            try:
                packed.extend(rest)
                break
            except OSError:
                # (a list keeps what it was extended by before a fault)
                odd.append(len(packed))
                packed.append(NO_ADDRESS)
        # (another number of addresses than of words is a struct.error)
        numbers = list(struct.unpack(f">{len(words)}I", b"".join(packed)))
        for place in odd:
            try:
                numbers[place] = self.number_of(words[place])
            except NoEvent:
                bad.add(place)
        return numbers

    def number_of(self, word: str) -> int:
        """The number of an address between spaces. A NoEvent for another word; an Ended where it needs a table."""
        bare = word.strip()
        with contextlib.suppress(OSError):
            return struct.unpack(">I", socket.inet_pton(socket.AF_INET, bare))[0]
        try:
            name = socket.inet_ntop(socket.AF_INET6, socket.inet_pton(socket.AF_INET6, bare))
        except OSError:
            raise NoEvent("no address", f"{word!r} is no address") from None
        if self.table is None:
            raise Ended(2, f"{bare} is an address of IPv6, and gets its number by a table: give --names FILE")
        return self.table[name]


def is_name(word: str) -> bool:
    """Whether a word can be in a table of names."""
    return bool(word) and "\n" not in word and "\r" not in word


def names_by(table: Dict[str, int]) -> Mapping:
    """What gives names their numbers."""

    def numbers(words: Sequence[str], bad: Set[int]) -> List[int]:
        bad.update(place for place, word in enumerate(words) if not is_name(word))
        return [table[word] for word in words] if not bad else [table[word] if is_name(word) else 0 for word in words]

    return numbers


def numbers_by(how: str, table: Optional[Dict[str, int]]) -> Mapping:
    """What gives rows and columns their numbers: ip, int or name."""
    if how == "ip":
        return Addresses(table).numbers
    return whole_numbers if how == "int" or table is None else names_by(table)


def reason_of(word: str, how: str) -> NoEvent:
    """Why a row or a column is none."""
    if how == "ip":
        return NoEvent("no address", f"{word!r} is no address")
    if how == "name":
        return NoEvent("no name", "a name is a word without line ends")
    try:
        whole_of(word)
    except NoEvent as why:
        return why
    return NoEvent("no number", f"{word!r} is no number from 1 on")


# Lines and words.


class Source:
    """A file that is read from its start: its name, a text, and how far it was read."""

    def __init__(self, path: str):
        self.path = "standard input" if path == "-" else path
        raw = sys.stdin.buffer if path == "-" else open(path, "rb")
        self.raw: Any = raw
        plain = gzip.open(raw) if path.endswith(".gz") else raw
        self.text: TextIO = io.TextIOWrapper(plain, "utf-8-sig", "surrogateescape", newline="")
        self.size = os.fstat(raw.fileno()).st_size if path != "-" else 0
        self.begin = monotonic()

    def share(self) -> Optional[float]:
        """The part of the file that was read; None where nobody knows how long it is."""
        return min(1.0, self.raw.tell() / self.size) if self.size else None

    def close(self) -> None:
        self.text.close()


def format_of(path: str) -> str:
    """The format that a file's name says. An Ended where it says none."""
    name = path[:-3] if path.endswith(".gz") else path
    ending = name.rpartition(".")[2]
    if ending in FORMATS:
        return ending
    raise Ended(2, f"{path}: the name tells no format: give --format {', '.join(FORMATS)}")


class Lines:
    """The lines of a text, one by one or some at once, and how many were taken."""

    def __init__(self, text: Iterator[str]):
        self.text, self.number = text, 0
        # Lines that were given back, the next one last.
        self.waiting: List[str] = []

    def __iter__(self) -> "Lines":
        return self

    def __next__(self) -> str:
        line = self.waiting.pop() if self.waiting else next(self.text)
        self.number += 1
        return line

    def take(self, most: int) -> List[str]:
        lines = self.waiting[: -most - 1 : -1]
        del self.waiting[max(0, len(self.waiting) - most):]
        lines += itertools.islice(self.text, most - len(lines))
        self.number += len(lines)
        return lines

    def give_back(self, lines: List[str]) -> None:
        self.waiting += reversed(lines)
        self.number -= len(lines)


class Broken(List[str]):
    """A line of which no words can be read; its one item says why."""


class QuotedRows:
    """The rows of a csv with quotes. A row may be on several lines, at most a hundred. Where a quote isn't closed on
    these, or `is_whole` says that they are no row, the row is the first line alone, and the others are read again."""

    def __init__(self, lines: Lines, separator: str, is_padded: bool):
        self.lines, self.how = lines, {"delimiter": separator, "skipinitialspace": is_padded}
        self.is_whole: Callable[[List[str]], bool] = bool
        # The lines of the row that is read, and whether more were wanted than there are.
        self.taken: List[str] = []
        self.is_cut = False
        self.rows = self.reader()

    def reader(self) -> Iterator[List[str]]:
        return csv.reader(iter(self.line, None), **self.how)

    def line(self) -> Optional[str]:
        """The next line of a row; None where there is no further one for it."""
        line = next(self.lines, None) if len(self.taken) < ROW_LINES else None
        self.is_cut = line is None
        if line is not None:
            self.taken.append(line)
        return line

    def __iter__(self) -> "QuotedRows":
        return self

    def __next__(self) -> List[str]:
        self.taken, self.is_cut = [], False
        try:
            row = next(self.rows)
            is_whole = not self.is_cut and (len(self.taken) == 1 or self.is_whole(row))
        except csv.Error:
            row, is_whole = [], False
        if is_whole:
            return row
        # (a reader whose lines have ended reads no more)
        self.rows = self.reader()
        self.lines.give_back(self.taken[1:])
        return Broken(["a quote isn't closed" if self.taken[0].count('"') % 2 else "no words of a csv"])


class Shape(NamedTuple):
    """How the lines of a format are parted into words: by a separator, or by spaces where there is none. Text with any
    of these signs is parted by a reader. `is_padded` says that spaces may come before a word."""

    separator: Optional[str]
    signs: str
    is_padded: bool = False

    def rows(self, lines: Lines) -> Iterator[List[str]]:
        """The words of each line; of a CSV a row may be on several."""
        if self.separator is None:
            return (words for line in lines if (words := line.split()) and words[0][0] not in self.signs)
        if self.signs:
            return QuotedRows(lines, self.separator, self.is_padded)
        return csv.reader(lines, delimiter=self.separator, quoting=csv.QUOTE_NONE)

    def is_plain(self, text: str) -> bool:
        """Whether each line is a row, and each separator parts two words."""
        return "\r" not in text and not any(sign in text for sign in self.signs)

    def apart(self, lines: List[str]) -> Tuple[List[int], int]:
        """The indices of the lines with quotes, which are read one by one, and how many lines are read with them: those
        before a row that may be on several. Where lines with quotes are many, that is 0."""
        if not self.is_quoted() or "\r" in "".join(lines).replace("\r\n", "\n"):
            return list(range(len(lines))), 0
        found = [place for place, line in enumerate(lines) if '"' in line]
        if len(found) > FEW:
            return found, 0
        for count, place in enumerate(found):
            # (where the lines end amid a row, further ones may be of it)
            few = lines[place : place + ROW_LINES + 1]
            rows = QuotedRows(Lines(iter(few)), self.separator, self.is_padded)
            row = next(rows)
            if isinstance(row, Broken) and len(few) <= ROW_LINES or rows.lines.number > 1:
                return found[:count], place
        return found, len(lines)

    def is_quoted(self) -> bool:
        return self.signs == '"'

    def row_of(self, line: str) -> List[str]:
        """The words of a line; none of a blank one."""
        bare = line.rstrip("\r\n")
        if self.is_quoted() and '"' in bare:
            return next(QuotedRows(Lines(iter([line])), self.separator, self.is_padded))
        if self.separator is None or not bare:
            return bare.split()
        words = bare.split(self.separator)
        return [word.lstrip(" ") for word in words] if self.is_padded else words

    def width_of(self, line: str) -> int:
        return len(line.split(self.separator))

    def widths(self, lines: List[str]) -> Iterator[int]:
        """How many words each of some plain lines has, or how many separators where there are any."""
        if self.separator is None:
            return map(len, map(str.split, lines))
        return map(methodcaller("count", self.separator), lines)

    def unfit(self, lines: List[str], width: int) -> List[int]:
        """The indices of the plain lines that have another number of words."""
        wanted, widths = (width if self.separator is None else width - 1), list(self.widths(lines))
        unfit = places_of_others(widths, wanted)
        blank = [] if width > 1 else [place for place, line in enumerate(lines) if not line.strip("\r\n")]
        return sorted({*unfit, *blank})

    def columns(self, text: str, width: int, places: Sequence[int]) -> List[List[str]]:
        """The words in some columns of some plain lines, which have the same number of words."""
        if self.separator is None:
            words = text.split()
        else:
            bare = text[:-1] if text.endswith("\n") else text
            words = bare.replace("\n", self.separator).split(self.separator) if bare else []
        columns = [words[place::width] for place in places]
        # (to look for one sign is ten times as fast as for two)
        if self.is_padded and " " in text and (self.separator + " " in text or "\n " in text or text[0] == " "):
            return [[word.lstrip(" ") for word in column] for column in columns]
        return columns


def places_of_others(numbers: List[int], wanted: int) -> List[int]:
    """The indices of the numbers that aren't the wanted one, where most are."""
    if numbers.count(wanted) == len(numbers):
        return []
    if max(numbers) < 256 and wanted < 256:
        # (ten times as fast as a loop)
        return [found.start() for found in re.finditer(b"[^\\x%02x]" % wanted, bytes(numbers), re.S)]
    return [place for place, number in enumerate(numbers) if number != wanted]


SHAPES = {"csv": Shape(",", '"', True), "tsv": Shape("\t", ""), "mtx": Shape(None, "%"), "pairs": Shape(None, "#%"),
          "nfdump": Shape(",", '"', True), "zeek": Shape("\t", "")}


class Batch(NamedTuple):
    """Events that are put together: their rows, columns and counts, one array of counts for each value that is put, and
    the line of each."""

    number: int
    path: str
    parts: List[array.array]
    lines: Sequence[int]

    def cells(self, value: int = 0) -> Arrays:
        return Arrays(self.parts[0], self.parts[1], self.parts[2 + value])


class Piece(NamedTuple):
    """Lines that were read at once: the words of each, as `rows` gives them, and the number of each."""

    rows: Callable[[int], List[str]]
    numbers: Sequence[int]


class Events:
    """The events of a file, some at a time. `how` is what rows and columns are, and `table` has the numbers of
    names."""

    def __init__(self, source: Source, kind: str, wanted: Wanted, how: str, table: Optional[Dict[str, int]],
                 tally: Tally):
        self.source, self.kind, self.how, self.tally = source, kind, how, tally
        self.lines, self.shape, self.wanted = Lines(source.text), SHAPES[kind], wanted
        self.numbers = places_from_one if kind == "mtx" else numbers_by(how, table)
        self.meaning = digits_of if kind == "mtx" else whole_of
        # How many events there are to be, where the file says it.
        self.told: Optional[int] = None
        self.found = 0
        self.columns, separator, self.head = self.described(wanted)
        self.shape = self.shape._replace(separator=separator)
        self.rows = self.shape.rows(self.lines)
        if isinstance(self.rows, QuotedRows):
            self.rows.is_whole = self.is_on_lines

    def described(self, wanted: Wanted) -> Found:
        """The columns of the file; a head that names them is read."""
        if self.kind == "mtx":
            return Found(self.read_banner(), None, [])
        if self.kind == "zeek":
            return of_zeek(self.source.path, self.next_line, wanted)
        separators = SEPARATORS if self.kind == "csv" else self.shape.separator
        if self.kind == "pairs":
            return Found(self.columns_of_pairs(wanted), None, [])
        if (places := wanted.places()) is not None:
            return without_head(self.first_line(), places, separators)
        return of_csv(self.source.path, self.next_line, wanted, separators)

    def next_line(self) -> str:
        """The next line; an empty one after the last."""
        return next(self.lines, "")

    def first_line(self) -> str:
        """The first line, which is read again."""
        lines = self.lines.take(1)
        self.lines.give_back(lines)
        return "".join(lines)

    def columns_of_pairs(self, wanted: Wanted) -> Columns:
        if (places := wanted.places()) is not None:
            return at_places(places, None)
        if not wanted.names() and not wanted.values:
            return at_places([0, 1], 2)
        head = next(self.shape.rows(self.lines), [])
        return with_head(self.source.path, " ".join(head), wanted, " ").columns

    def read_banner(self) -> Columns:
        """The columns of a Matrix Market text, whose first line says what its entries are."""
        words = next(self.lines, "").lower().split()
        fields = {"integer": at_places([0, 1, 2], 3), "pattern": at_places([0, 1], 2)}
        is_known = len(words) == 5 and words[:3] == ["%%matrixmarket", "matrix", "coordinate"] and words[4] == "general"
        if not is_known or words[3] not in fields:
            raise Ended(3, f"{self.source.path}: line 1: a Matrix Market text of integers or of a pattern is wanted, "
                           "with the words `coordinate` and `general`")
        size = next(self.shape.rows(self.lines), [])
        if len(size) != 3 or not all(DIGITS.fullmatch(word) for word in size):
            raise Ended(3, f"{self.source.path}: line {self.lines.number}: no numbers of rows, columns and entries")
        self.told = int(size[2])
        return fields[words[3]]

    def is_guessed(self) -> bool:
        """Whether the columns were found by names that weren't given, in another head than the usual one."""
        return bool(self.head) and self.head not in PLAIN and not self.wanted.cols

    def judge_end(self) -> None:
        """An Ended where the file says that it has another number of events."""
        if self.told is not None and self.found != self.told:
            raise Ended(3, f"{self.source.path}: {self.found} entries, and its head tells {self.told}")

    def next_batch(self, number: int, most: int) -> Optional[Batch]:
        """The next events, fewer only where the file ends; None where there is none."""
        batch = Batch(number, self.source.path, [], [])
        while len(batch.lines) < most and (more := self.next_events(number, most - len(batch.lines))):
            batch = joined(batch, more)
        return batch if batch.lines else None

    def next_events(self, number: int, most: int) -> Optional[Batch]:
        """The events of the next lines; None where there is no line."""
        first = self.lines.number + 1
        lines = self.lines.take(most)
        text = "".join(lines).replace("\r\n", "\n")
        apart, has_signs = [], not self.shape.is_plain(text)
        if has_signs:
            apart, end = self.shape.apart(lines)
            self.lines.give_back(lines[end:])
            del lines[end:]
            if not lines:
                return self.next_rows(number, most if len(apart) > FEW else 1)
        if not lines:
            return None
        width = self.width_of(map(self.shape.width_of, lines))
        unfit = sorted({*apart, *self.shape.unfit(lines, width)})
        if unfit or has_signs:
            text = "".join(without(unfit, [lines])[0]).replace("\r\n", "\n")
        columns = self.shape.columns(text, width, self.columns.places())
        piece = Piece(lambda place: self.shape.row_of(lines[place]), range(first, first + len(lines)))
        return self.sifted(number, piece, columns, unfit)

    def next_rows(self, number: int, most: int) -> Optional[Batch]:
        """The same where a row may be on several lines."""
        numbered = [(self.lines.number, row) for row in itertools.islice(self.rows, most)]
        if not numbered:
            return None
        numbers, rows = zip(*numbered)
        width = self.width_of(map(len, rows))
        unfit = [place for place, row in enumerate(rows) if len(row) != width]
        fitting = [row for row in rows if len(row) == width]
        columns = [[row[place] for row in fitting] for place in self.columns.places()]
        return self.sifted(number, Piece(rows.__getitem__, numbers), columns, unfit)

    def width_of(self, widths: Iterable[int]) -> int:
        """How many words an event has: as many as the head, or as the first line that has the columns."""
        return self.columns.width or next(filter(self.fits, widths), max(self.columns.places()) + 1)

    def fits(self, width: int) -> bool:
        return max(self.columns.places()) < width

    def is_on_lines(self, row: List[str]) -> bool:
        """Whether words on several lines may be a row: other words than those of an event have the line ends."""
        is_wide = self.columns.width in (None, len(row)) and self.fits(len(row))
        return is_wide and not any("\n" in row[place] or "\r" in row[place] for place in self.columns.places())

    def sifted(self, number: int, piece: Piece, columns: List[List[str]], unfit: List[int]) -> Batch:
        """The events of a piece, given the words of the lines that are as wide as they should be. All other lines, and
        those of words that mean nothing, are judged one by one."""
        size, lines = len(piece.numbers), piece.numbers
        bad, parts = self.read(columns)
        others = unfit
        if bad:
            others = sorted([*unfit, *places_among(bad, unfit)])
        if others:
            [lines] = without(others, [piece.numbers])
            if found := self.with_others(piece, others):
                lines, *parts = with_more([lines, *parts], found)
        else:
            self.tally.lines += size
            self.found += size
        return Batch(number, self.source.path, [array.array("Q", part) for part in parts], lines)

    def read(self, columns: List[List[str]]) -> Tuple[Set[int], List[List[int]]]:
        """The indices of the lines that are no events, and the rows, columns and counts of all others. Counts are read
        first, so that no name gets a number by a line without a count."""
        without_count: Set[int] = set()
        counts = [self.counts(words, without_count) for words in columns[2:]] or [[1] * len(columns[0])]
        row, col = without(without_count, columns[:2])
        bad: Set[int] = set()
        parts = [self.numbers(words, bad) for words in (row, col)]
        counts = without(without_count, counts)
        if bad and without_count:
            return without_count.union(places_among(bad, sorted(without_count))), without(bad, [*parts, *counts])
        return bad or without_count, without(bad, [*parts, *counts])

    def counts(self, words: List[str], bad: Set[int]) -> List[int]:
        """The numbers of counts; one that a log of Zeek doesn't have is 0."""
        if self.kind == "zeek" and UNSET in words:
            words = ["0" if word == UNSET else word for word in words]
        return whole_numbers(words, bad, self.meaning)

    def with_others(self, piece: Piece, others: List[int]) -> List[Tuple[int, ...]]:
        """The lines that are judged one by one and are events: the number of each, its row, column and counts."""
        found: List[Tuple[int, ...]] = []
        before, skipped, size = self.tally.lines, 0, len(piece.numbers)
        for place in others:
            words = piece.rows(place)
            if not words or self.is_no_line(words):
                skipped += 1
                continue
            self.tally.lines = before + place + 1 - skipped
            if event := self.judged(words, piece.numbers[place]):
                found.append((piece.numbers[place], *event))
        self.tally.lines = before + size - skipped
        self.found += size - skipped
        return found

    def is_no_line(self, words: List[str]) -> bool:
        """Whether these are words that a tool writes between its events. An Ended where they change the columns."""
        if self.kind == "zeek" and words[0].startswith("#"):
            if words[0] == "#fields" and words[1:] != self.head:
                raise Ended(3, f"{self.source.path}: line {self.lines.number} or one before it names other fields: "
                               "load what follows as another file")
            return True
        return self.kind == "nfdump" and is_summary(words, self.head)

    def judged(self, words: List[str], line: int) -> Optional[List[int]]:
        """The row, column and counts of a line; None where it is no event, which is noted. An Ended where that was one
        too many."""
        try:
            return self.event_of(words)
        except NoEvent as why:
            self.tally.note(f"{self.source.path}: line {line}", why)
            self.tally.judge()
            return None

    def event_of(self, words: List[str]) -> List[int]:
        """The row, column and counts of a line. A NoEvent where it is none."""
        if isinstance(words, Broken):
            raise NoEvent("quotes", words[0])
        if self.columns.width is not None and len(words) != self.columns.width:
            raise NoEvent("columns", f"{len(words)} columns, and not {self.columns.width}")
        if not self.fits(len(words)):
            raise NoEvent("columns", f"{len(words)} columns")
        row, col, *counts = (words[place] for place in self.columns.places())
        numbers = [0 if self.kind == "zeek" and word == UNSET else self.meaning(word) for word in counts]
        bad: Set[int] = set()
        found = []
        for word in (row, col):
            found += self.numbers([word], bad)
            if bad:
                raise reason_of(word, self.how)
        return found + (numbers or [1])


def is_summary(words: List[str], head: List[str]) -> bool:
    """Whether these are words of the summary that nfdump writes after its events, or its head once more."""
    is_numbers = len(words) == 6 and all(DIGITS.fullmatch(word) for word in words)
    return words == head or words[0] in ("Summary", "No matched flows") or words[:2] == ["flows", "bytes"] or is_numbers


def places_among(places: Iterable[int], others: Sequence[int]) -> Iterator[int]:
    """The indices that items had before those at other indices, which rise, were taken out."""
    # (the k-th other one came before an item exactly where it stands no more than k behind it)
    shifted = [other - before for before, other in enumerate(others)]
    return (place + bisect_right(shifted, place) for place in places)


def without(places: Collection[int], lists: Sequence[Sequence[Any]]) -> List[Sequence[Any]]:
    """Some lists without the items at these indices."""
    if not places:
        return list(lists)
    if len(places) <= FEW:
        found = [list(values) for values in lists]
        for place in sorted(places, reverse=True):
            for values in found:
                del values[place]
        return found
    kept = bytearray(b"\1") * len(lists[0])
    for place in places:
        kept[place] = 0
    return [list(itertools.compress(values, kept)) for values in lists]


def with_more(lists: Sequence[Sequence[int]], more: List[Tuple[int, ...]]) -> List[Sequence[int]]:
    """Some lists of one length, of which the first rises, with further items of each in their places."""
    found = [list(values) for values in lists]
    if len(more) > FEW:
        return list(map(list, zip(*sorted([*zip(*found), *more]))))
    for items in more:
        place = bisect_left(found[0], items[0])
        for values, item in zip(found, items):
            values.insert(place, item)
    return found


def joined(batch: Batch, more: Batch) -> Batch:
    """A batch with further events."""
    if not batch.lines:
        return more
    for part, others in zip(batch.parts, more.parts):
        part.extend(others)
    lines = batch.lines if isinstance(batch.lines, list) else list(batch.lines)
    lines.extend(more.lines)
    return batch._replace(lines=lines)
