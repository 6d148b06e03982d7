"""Words for rows and columns: one way of writing them in all questions of `hhmc`, and of showing them in all answers.

    7                       a number, which counts from 0
    7-20                    numbers, both ends in
    10.0.0.7  10.0.0.0/8    an IPv4 address, and all of a network: their numbers are the 32 bits of addresses
    2001:db8::7             an IPv6 address, which has its number by a table of names (--names)
    2001:db8::/32           the IPv6 addresses of the table that are in a network
    www                     a name of the table

A table is a file with one name a line, which `hhmc load --names` made. With `--ip` the rows are addresses: those of
IPv4 have their numbers, and the table has those of IPv6, from 2^32 on. Without it each row is a name of the table, from
0 on; then a network is the names in it that are addresses. A name of the table comes before other meanings of a word.
"""
import argparse
import contextlib
import ipaddress
import os
import socket
from typing import Any, Dict, Iterable, List, NamedTuple, Optional, Tuple, Union

from hhm_client import Ended

Address = Union[ipaddress.IPv4Address, ipaddress.IPv6Address]
Ends = Tuple[Address, Address]
# How many IPv4 addresses there are, and how many rows a server has at most.
IPV4, LAST = 1 << 32, 1 << 60
# The highest number that a server can be asked for.
MOST = (1 << 64) - 1
FORMS = "a number, A-B, an address, a network or, by --names, a name"


class Span(NamedTuple):
    """Rows, or columns, from the first to the last, both in."""

    first: int
    last: int


def spans_of(numbers: Iterable[int]) -> List[Span]:
    """Numbers as spans, in order, as few as there can be."""
    found: List[Span] = []
    for number in sorted(set(numbers)):
        if found and found[-1].last == number - 1:
            found[-1] = Span(found[-1].first, number)
        else:
            found.append(Span(number, number))
    return found


def address_of(word: str) -> Optional[Address]:
    """The address that a word is; None where it is none."""
    try:
        return ipaddress.ip_address(word)
    except ValueError:
        return None


def ends_of(word: str) -> Optional[Ends]:
    """The first and the last address of a network, or of two addresses with `-` between; None for another word."""
    if "/" in word:
        try:
            network = ipaddress.ip_network(word, strict=False)
        except ValueError:
            return None
        return network[0], network[-1]
    first, last = map(address_of, word.partition("-")[::2])
    return (first, last) if first and last and first.version == last.version else None


def version_of(word: str) -> Optional[int]:
    """The version of the addresses that a word means; None of another word."""
    ends, address = ends_of(word), address_of(word)
    return ends[0].version if ends else address and address.version


def is_number(word: str) -> bool:
    return word.isascii() and word.isdigit() and len(word) <= 20


def lines_of(path: str) -> List[str]:
    """The names of a table. An Ended where it can't be read."""
    try:
        with open(path, encoding="utf-8", errors="surrogateescape", newline="") as file:
            lines = file.read().split("\n")
    except OSError as fault:
        raise Ended(4, f"{path}: {fault.strerror}") from None
    # (a last line without its end is still being written)
    return lines[:-1]


class Words:
    """What words mean, and how numbers are shown. A word that is an address says that rows and columns are addresses,
    where there is no table of names."""

    def __init__(self, is_ip: bool = False, table: Optional[str] = None):
        self.is_ip, self.table = is_ip, table
        self.first, self.size = IPV4 if is_ip else 0, 0
        self.names: List[str] = []
        self.numbers: Dict[str, int] = {}
        if table is not None:
            self.read(table)

    def read(self, table: str) -> None:
        """Reads the table. An Ended where it can't be read."""
        # (the size of before: what is added while it is read is read again)
        self.size = os.path.getsize(table) if os.path.exists(table) else 0
        self.names = lines_of(table)
        self.numbers = {name: self.first + place for place, name in enumerate(self.names)}

    def read_again(self, table: str) -> None:
        """Reads a table that has changed since: a load may add names while its rows are watched."""
        with contextlib.suppress(OSError, Ended):
            if os.path.getsize(table) != self.size:
                self.read(table)

    @classmethod
    def of(cls, given: argparse.Namespace) -> "Words":
        """Those of a command line."""
        return cls(given.ip, given.names)

    def has_names(self) -> bool:
        return self.table is not None and not self.is_ip

    def name(self, number: int) -> Optional[str]:
        """The name that the table has for a row or a column."""
        place = number - self.first
        if place >= len(self.names) and self.table is not None:
            self.read_again(self.table)
        return self.names[place] if 0 <= place < len(self.names) else None

    def told(self, number: int) -> str:
        """How a row or a column is shown: by its name, its address, or its number where it has neither."""
        if (name := self.name(number)) is not None:
            return name
        return str(ipaddress.IPv4Address(number)) if self.is_ip and number < IPV4 else str(number)

    def shown(self, number: int) -> Union[int, str]:
        """The same, but a number where it has neither."""
        words = self.told(number)
        return number if words == str(number) else words

    def is_bare(self) -> bool:
        """Whether numbers are shown as they are."""
        return not self.is_ip and self.table is None

    def is_plain(self, spans: List[Span]) -> bool:
        """Whether these are IPv4 addresses, whose numbers need no table."""
        return self.is_ip and bool(spans) and spans[-1].last < IPV4

    def spans(self, word: str) -> List[Span]:
        """The rows, or columns, that a word means, in order; none where no name is in a network. An Ended for a word
        that means nothing."""
        if word in self.numbers:
            return spans_of([self.numbers[word]])
        if is_number(word):
            return [self.judged(word, Span(int(word), int(word)))]
        first, _, last = word.partition("-")
        if is_number(first) and is_number(last):
            return [self.judged(word, Span(int(first), int(last)))]
        if ends := ends_of(word):
            return self.between(word, ends)
        if address := address_of(word):
            return [self.one_address(word, address)]
        raise Ended(2, f"{self.table} has no {word!r}" if self.table else f"{word!r} isn't {FORMS}")

    def number(self, word: str) -> int:
        """The one row, or column, that a word means. An Ended where it means none, or several."""
        spans = self.spans(word)
        if len(spans) != 1 or spans[0].first != spans[0].last:
            raise Ended(2, f"{word}: one row or column is wanted, and these are several")
        return spans[0].first

    def span(self, word: str) -> Span:
        """The rows, or columns, of a word, from the first to the last. An Ended where it means none."""
        spans = self.spans(word)
        if not spans:
            raise Ended(2, f"{word}: {self.table} has none of these")
        return Span(spans[0].first, spans[-1].last)

    @staticmethod
    def judged(word: str, span: Span) -> Span:
        if span.first > span.last:
            raise Ended(2, f"{word}: the first is after the last")
        if span.last > MOST:
            raise Ended(2, f"{word}: rows and columns are from 0 to {LAST - 1}")
        return span

    def between(self, word: str, ends: Ends) -> List[Span]:
        """The addresses from one to another: numbers where these are the rows, and else those of the table."""
        if ends[0].version == 4 and not self.has_names():
            self.is_ip = True
            return [self.judged(word, Span(*map(int, ends)))]
        self.need_table(word)
        addresses = ((number, address_of(name)) for name, number in self.numbers.items())
        return spans_of(number for number, it in addresses
                        if it and it.version == ends[0].version and ends[0] <= it <= ends[1])

    def one_address(self, word: str, address: Address) -> Span:
        if address.version == 4 and not self.has_names():
            self.is_ip = True
            return Span(int(address), int(address))
        self.need_table(word)
        # (as hhmc load writes addresses)
        family = socket.AF_INET if address.version == 4 else socket.AF_INET6
        number = self.numbers.get(socket.inet_ntop(family, address.packed))
        if number is None:
            raise Ended(2, f"{self.table} has no {word}")
        return Span(number, number)

    def need_table(self, word: str) -> None:
        if self.table is None:
            raise Ended(2, f"{word}: IPv6 addresses have their numbers by a table: give --ip --names TABLE")


def count_of(spans: Iterable[Span]) -> int:
    return sum(span.last - span.first + 1 for span in spans)


def add_options(word: Any) -> None:
    """Adds --ip and --names to a word of the command line."""
    word.add_argument("--ip", action="store_true", help="rows and columns are addresses")
    names = "the table of hhmc load --names: with --ip of IPv6 addresses, else of names"
    word.add_argument("--names", metavar="TABLE", help=names)
