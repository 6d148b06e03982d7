"""Which rows, columns or networks lead, and how many rows have how many cells: for `hhm_ask.py`.

A server leads by single rows, and by rows and IPv4 networks of one span of rows. What else is asked is worked out here
of the cells' pages: columns, several spans, networks of names and of IPv6. Memory: that of the groups.
"""
import heapq
import ipaddress
from bisect import bisect_left
from collections import Counter
from typing import Callable, Dict, Iterable, Iterator, List, NamedTuple, Optional, Sequence, Tuple, Union

from hhm_client import Arrays, TopRow, order_of
from hhm_heads import DIGITS
from hhm_words import IPV4, Words, address_of

# The bits of an IPv6 address that name its network, where none are given.
SIX = 64
# Networks of names and of IPv6 addresses are numbered behind all rows: by their version, and then their first address.
VERSION = 192


class Prefix(NamedTuple):
    """How many bits of an address name its network, of IPv4 and of IPv6."""

    four: int
    six: int

    @classmethod
    def of(cls, word: str, version: Optional[int]) -> "Prefix":
        """A prefix of the command line: `24,48`, or `24` of IPv4, or of IPv6 where addresses of that version alone are
        asked for. A ValueError for another word."""
        words = word.split(",")
        if len(words) > 2 or not all(DIGITS.fullmatch(it) for it in words):
            raise ValueError(f"{word!r} is no number of bits as 24, and no two as 24,48")
        bits = [int(it) for it in words]
        if len(bits) == 1:
            bits = [32, *bits] if version == 6 else [*bits, SIX]
        if bits[0] > 32 or bits[1] > 128:
            raise ValueError(f"{word}: an IPv4 address has 32 bits, and one of IPv6 128: give both as 24,48")
        return cls(*bits)


class Groups:
    """What rows, or columns, are summed as: themselves or, by a prefix, the networks of their addresses. A row that is
    no address is by itself then."""

    def __init__(self, words: Words, prefix: Optional[Prefix]):
        self.words, self.prefix = words, prefix

    def shift(self, last: int) -> int:
        """How many bits are cut off from each row up to the last, where that alone gives its network."""
        return 32 - self.prefix.four if self.prefix is not None and self.is_plain(last) else 0

    def is_plain(self, last: int) -> bool:
        """Whether the bits of each row up to the last alone give its group."""
        return self.prefix is None or (self.words.is_ip and last < IPV4)

    def of(self, number: int) -> int:
        """The number of a row's group: the first row of an IPv4 network."""
        if self.prefix is None:
            return number
        if self.words.is_ip and number < IPV4:
            by = 32 - self.prefix.four
            return number >> by << by
        address = address_of(self.words.name(number) or "")
        if address is None:
            return number
        by = 32 - self.prefix.four if address.version == 4 else 128 - self.prefix.six
        return (address.version << VERSION) + (int(address) >> by << by)

    def shown(self, group: int) -> Union[int, str]:
        """How a group is shown: a network by its first address and its bits."""
        if self.prefix is None:
            return self.words.shown(group)
        if self.words.is_ip and group < IPV4:
            return f"{ipaddress.IPv4Address(group)}/{self.prefix.four}"
        version, first = divmod(group, 1 << VERSION)
        if not version:
            return self.words.shown(group)
        bits = self.prefix.four if version == 4 else self.prefix.six
        return f"{ipaddress.IPv4Address(first) if version == 4 else ipaddress.IPv6Address(first)}/{bits}"


# Sums.


def runs_of(numbers: Sequence[int], shift: int) -> Iterator[Tuple[int, int, int]]:
    """Of numbers that rise: where those that are equal but for their last bits begin and end, and what they have in
    common."""
    begin = 0
    while begin < len(numbers):
        first = numbers[begin] >> shift << shift
        end = bisect_left(numbers, first + (1 << shift), begin)
        yield first, begin, end
        begin = end


def sums_of_rows(parts: Iterable[Arrays], shift: int = 0) -> Iterator[TopRow]:
    """The sums of rows of cells by row, each of all rows that are equal but for their last bits."""
    before: Optional[TopRow] = None
    for part in parts:
        for first, begin, end in runs_of(part.rows, shift):
            entries, total = end - begin, sum(part.counts[begin:end])
            if before and before.row == first:
                before = TopRow(first, before.entries + entries, before.total + total)
                continue
            if before:
                yield before
            before = TopRow(first, entries, total)
    if before:
        yield before


def sums_of_cols(parts: Iterable[Arrays], group: Optional[Callable[[int], int]] = None) -> Iterator[TopRow]:
    """The sums of the columns of cells, or of their groups; each as a row of the transpose."""
    # (one number has both: how many cells, and behind 64 bits their total)
    sums: Dict[int, int] = {}
    sum_of, one = sums.get, 1 << 64
    for part in parts:
        cols = part.cols if group is None else map(group, part.cols)
        for col, count in zip(cols, part.counts):
            sums[col] = sum_of(col, 0) + count + one
    return (TopRow(col, *divmod(both, one)) for col, both in sums.items())


def joined(sums: Iterable[TopRow], group: Callable[[int], int]) -> Iterator[TopRow]:
    """The sums of groups, given those of their rows."""
    found: Dict[int, List[int]] = {}
    for row, entries, total in sums:
        of_group = found.setdefault(group(row), [0, 0])
        of_group[0] += entries
        of_group[1] += total
    return (TopRow(row, *numbers) for row, numbers in found.items())


def first_of(sums: Iterable[TopRow], most: int, by: str) -> List[TopRow]:
    """Those that lead, the highest first, and of equal ones the lowest."""
    return heapq.nsmallest(most, sums, key=lambda it: order_of(it, by))


def degrees_of(sums: Iterable[TopRow]) -> List[Tuple[int, int, int]]:
    """How many rows have 1 cell, 2 to 3, 4 to 7 and so on: from, to, and their number."""
    powers = Counter(it.entries.bit_length() for it in sums)
    return [(1 << power >> 1, (1 << power) - 1, powers[power]) for power in sorted(powers)]
