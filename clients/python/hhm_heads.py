"""Which columns of a file of events are the row, the column and the count: for `hhmc load`.

A file is described by its head, by `--cols`, and by `--value`. The heads of the usual flow tools are known: those of
nfdump, SiLK, Argus, pmacct, ntopng, IPFIX collectors, VPC flow logs and Zeek. A name is compared without regard to case
and to signs that are no letters and digits: `Src IP Addr`, `src_ip_addr` and `srcIPAddr` are one name.
"""
import csv
import re
from typing import Callable, Dict, FrozenSet, List, NamedTuple, Optional, Sequence, Tuple

from hhm_client import Ended

# What separates the words of a csv, the first that fits its head.
SEPARATORS = ",;\t|"
DIGITS = re.compile(r"[0-9]{1,20}", re.ASCII)
SOURCES = frozenset(
    "source src srcaddr srcaddress srchost srcip srcipaddr srcipaddress srcipv4 srcipv6 sourceaddr sourceaddress "
    "sourcehost sourceip sourceipaddr sourceipaddress sourceipv4address sourceipv6address ipv4srcaddr ipv6srcaddr "
    "ipsrc ipsource ipsrcaddr sa saddr sip idorigh".split())
DESTINATIONS = frozenset(
    "destination dst dest dstaddr dstaddress dsthost dstip dstipaddr dstipaddress dstipv4 dstipv6 destaddr destaddress "
    "desthost destip destipaddr destipaddress destinationaddr destinationaddress destinationhost destinationip "
    "destinationipaddr destinationipaddress destinationipv4address destinationipv6address ipv4dstaddr ipv6dstaddr "
    "ipdst ipdestination ipdstaddr da daddr dip idresph".split())
# The names of each value that a flow has; the first value that a head has is the count, where none is asked for.
VALUES: Dict[str, FrozenSet[str]] = {
    "packets": frozenset("packets packet pkts pkt ipkt inpkts inpackets dpkts totpkts totalpackets numpackets "
                         "packetcount packetssent packetdeltacount packettotalcount networkpackets origpkts".split()),
    "bytes": frozenset("bytes byts octets ibyt inbytes inoctets doctets totbytes totalbytes numbytes bytecount "
                       "bytessent octetdeltacount octettotalcount networkbytes origipbytes".split()),
    "flows": frozenset("flows flow fl flowcount numflows".split()),
}
# Heads whose columns aren't reported.
PLAIN = (["source", "destination"], ["source", "destination", "packets"])
WANTED = ("give --cols with the columns of the row, the column and, if there is one, the count, by names of the head "
          "or by places from 1")


class Columns(NamedTuple):
    """Where in a row of words the row, the column and, if anywhere, the counts of an event are, and how many words it
    has; None where that is any number. `names` says how messages name them."""

    row: int
    col: int
    counts: Tuple[int, ...]
    width: Optional[int]
    names: Tuple[str, ...]

    def places(self) -> Tuple[int, ...]:
        return (self.row, self.col, *self.counts)

    def told(self) -> str:
        row, col, *counts = self.names
        return f"row {row}, column {col}, " + (f"count {' and '.join(counts)}" if counts else "each line counts 1")


class Wanted(NamedTuple):
    """What the command line says of the columns."""

    cols: Optional[str]
    values: Tuple[str, ...]

    def names(self) -> List[str]:
        """The words of --cols. An Ended where there are too few or too many."""
        names = self.cols.split(",") if self.cols else []
        if names and len(names) not in (2, 3):
            raise Ended(2, f"--cols {self.cols}: two or three columns are wanted: the row, the column and the count")
        if len(names) == 3 and self.values:
            raise Ended(2, f"--cols {self.cols} names the count, and --value too: leave one of them out")
        return names

    def places(self) -> Optional[List[int]]:
        """The indices of --cols, from 0; None where it has names, or isn't given. An Ended where they are wrong."""
        names = self.names()
        if not names or not all(DIGITS.fullmatch(name) for name in names):
            return None
        if not all(DIGITS.fullmatch(value) for value in self.values):
            raise Ended(2, f"--cols {self.cols} has places, so --value is a place too")
        places = [int(name) - 1 for name in (*names, *self.values)]
        if min(places) < 0:
            raise Ended(2, f"--cols {self.cols}: places count from 1")
        return places


def at_places(places: Sequence[int], width: Optional[int], head: Sequence[str] = ()) -> Columns:
    """The columns by indices: the row, the column and the counts."""
    names = tuple(head[place] if head else str(place + 1) for place in places)
    return Columns(places[0], places[1], tuple(places[2:]), width, names)


def plain_name(name: str) -> str:
    return "".join(sign for sign in name.lower() if sign.isalnum())


def the_one(path: str, head: Sequence[str], known: FrozenSet[str], what: str) -> Optional[int]:
    """The index of the one column that has a known name; None where none has. An Ended where several have."""
    found = [place for place, name in enumerate(head) if plain_name(name) in known]
    if len(found) > 1:
        raise Ended(2, f"{path}: {what} may be {' or '.join(repr(head[it]) for it in found)}: {WANTED}")
    return found[0] if found else None


def value_at(path: str, head: Sequence[str], value: str) -> int:
    """The index of a value: a column's own name, or packets, bytes or flows. An Ended where there is none."""
    if value in head:
        return head.index(value)
    place = the_one(path, head, VALUES.get(value, frozenset()), f"--value {value}")
    if place is None:
        raise Ended(2, f"{path}: no column for --value {value} in the head {','.join(head)!r}")
    return place


def named_columns(path: str, head: Sequence[str], wanted: Wanted) -> Columns:
    """The columns that --cols names. An Ended where the head has no such name."""
    names = wanted.names()
    if missing := [name for name in names if name not in head]:
        raise Ended(2, f"{path}: no column {missing[0]!r} in the head {','.join(head)!r}")
    counts = [value_at(path, head, value) for value in wanted.values]
    return at_places([*map(list(head).index, names), *counts], len(head), head)


def known_columns(path: str, head: Sequence[str], wanted: Wanted) -> Optional[Columns]:
    """The columns of a head by the names that flow tools give; None where it has no row or no column."""
    row, col = the_one(path, head, SOURCES, "the row"), the_one(path, head, DESTINATIONS, "the column")
    if row is None or col is None:
        return None
    counts = [value_at(path, head, value) for value in wanted.values]
    if not wanted.values:
        usual = (the_one(path, head, known, "the count") for known in VALUES.values())
        counts = [place for place in usual if place is not None][:1]
    return at_places([row, col, *counts], len(head), head)


def words_of(line: str, separator: str) -> List[str]:
    """The words of a head."""
    words = next(csv.reader([line], delimiter=separator, skipinitialspace=True), [])
    return [word.strip() for word in words]


class Found(NamedTuple):
    """The columns of a file, what separates its words, and its head; none where it has none."""

    columns: Columns
    separator: str
    head: List[str]


def without_head(line: str, places: List[int], separators: str) -> Found:
    """Columns by indices. The separator is the first one that gives the first line enough words."""
    fitting = (it for it in separators if len(words_of(line, it)) > max(places))
    return Found(at_places(places, None), next(fitting, separators[0]), [])


def with_head(path: str, line: str, wanted: Wanted, separators: str) -> Found:
    """The columns of a head, with the first separator that gives it all of them. An Ended where none does."""
    heads = [(it, words_of(line, it)) for it in separators]
    if names := wanted.names():
        separator, head = next((it for it in heads if set(names) <= set(it[1])), heads[0])
        return Found(named_columns(path, head, wanted), separator, head)
    for separator, head in heads:
        if columns := known_columns(path, head, wanted):
            return Found(columns, separator, head)
    raise Ended(2, f"{path}: the head is {','.join(heads[0][1])!r}: {WANTED}")


def is_above_head(line: str, wanted: Wanted, separators: str) -> bool:
    """Whether a line is blank, or begins with `#` and doesn't have the names of --cols."""
    if not line.strip() or not line.lstrip().startswith("#"):
        return not line.strip()
    names = set(wanted.names())
    return not names or not any(names <= set(words_of(line, it)) for it in separators)


def of_csv(path: str, next_line: Callable[[], str], wanted: Wanted, separators: str) -> Found:
    """The columns of a csv or tsv, by its head, which blank lines and lines that begin with `#` may come before."""
    line = next_line()
    while line and is_above_head(line, wanted, separators):
        line = next_line()
    if not line:
        raise Ended(2, f"{path}: there is no head: {WANTED}")
    return with_head(path, line, wanted, separators)


def of_zeek(path: str, next_line: Callable[[], str], wanted: Wanted) -> Found:
    """The columns of a log of Zeek in its own format, where lines that begin with `#` name the separator and the
    fields. An Ended where there is no line `#fields`."""
    separator = "\t"
    while (line := next_line()).startswith("#"):
        name, _, rest = line.rstrip("\r\n").partition(" " if line.startswith("#separator") else separator)
        if name == "#separator":
            separator = rest.encode().decode("unicode_escape")
        elif name == "#fields":
            return with_head(path, rest, wanted, separator)
    raise Ended(3, f"{path}: a log of Zeek has a line `#fields` before its events; one of JSON isn't read")
