"""Logs as docs/FORMATS.md has them: bytes that are written, and a reader that says what bytes hold, or what is wrong
with them.

For the scripts beside it. Nothing here comes from the program, so that what it writes and tells can be judged by it. A
batch is its client, its number and its cells; a cell is a row, a column, a count. An entry is client, number, cells and
total of a batch.
"""
from typing import NamedTuple

from snap_bytes import BOOK, MOST, OWNED, SIZE, UNKNOWN, Origin, crc32c, field, fields, identity

PAGE = 4_096
CHUNK = 4_072
MOST_BYTES = 2**40
ZEROS = bytes(65_536)


class Setup(NamedTuple):
    """The numbers of a setup, which by default are those of the examples of docs/FORMATS.md."""

    rows: int = 3
    cols: int = 3
    cuts: tuple = (2, 4)
    shards: int = 2
    limit: int = 100
    most: int = 10


SMALL = Setup()


def entry_of(batch):
    """Client, number, how many cells, and their total."""
    client, number, cells = batch
    return client, number, len(cells), sum(count for _, _, count in cells)


def link_of(entries):
    """The link of a log with these entries before it."""
    return crc32c(b"".join(fields(*entry) for entry in entries))


def head(before=(), setup=SMALL, first=None, total=None, link=None, origin=OWNED):
    """The head page of a log with these entries before it, or with other numbers of them.

    It is of version 1 where there is no origin. A log has the book and the window of one.
    """
    held = b"HHM-LOG\n" + field(1 if origin is None else 2, 4) + fields(setup.rows, setup.cols)
    held += field(len(setup.cuts), 1) + fields(*setup.cuts) + field(setup.shards, 1)
    held += fields(setup.limit, setup.most)
    held += field(len(before) if first is None else first)
    held += field(sum(entry[3] for entry in before) if total is None else total)
    held += field(link_of(before) if link is None else link, 4)
    return checked_head(held + (b"" if origin is None else identity(origin)))


def checked_head(held):
    """A head page with these bytes, 00 behind them, and their checksum."""
    held = held.ljust(PAGE - 4, b"\0")
    return held + field(crc32c(held), 4)


def payload(batches):
    """The bytes of a block with these batches, without 00 behind them."""
    held = fields(len(batches))
    for client, number, cells in batches:
        held += fields(client, number, len(cells)) + b"".join(fields(*cell) for cell in cells)
    return held


def page(place, number, pages, chunk, kind=1):
    """Page `number` of the `pages` of the block at this place."""
    body = field(kind, 2) + field(place) + field(number, 4) + field(pages, 4) + chunk.ljust(CHUNK, b"\0")
    body = field(body.count(0), 2) + body
    return field(crc32c(body), 4) + body


def pages_of(place, held):
    """The pages of the block at this place with these bytes."""
    chunks = [held[at : at + CHUNK] for at in range(0, len(held), CHUNK)]
    return b"".join(page(place, number, len(chunks), chunk) for number, chunk in enumerate(chunks))


def block(place, batches):
    """The pages of a block."""
    return pages_of(place, payload(batches))


def log(blocks, before=(), setup=SMALL, origin=OWNED):
    """A log of blocks, each a list of batches, with these entries before it."""
    held, place = head(before, setup, origin=origin), len(before)
    for batches in blocks:
        held += block(place, batches)
        place += len(batches)
    return held


def lost(held, *spans):
    """Bytes of which some became 00: from one up to another of a page, for each of these spans."""
    changed = bytearray(held)
    for number, begin, end in spans:
        changed[number * PAGE + begin : number * PAGE + end] = bytes(end - begin)
    return bytes(changed)


class LogFault(Exception):
    """The first fault of a log's bytes, as the program tells it."""

    def __init__(self, kind, page_number):
        super().__init__(f"{kind} at page {page_number}")


class JoinFault(Exception):
    """Why a snapshot and a log don't belong together, as the program tells it."""


def number_in(held, at, size=8):
    return int.from_bytes(held[at : at + size], "big")


def without_zeros(held):
    """The bytes up to the last that isn't 00. (`rstrip` alone takes a hundred times as long on a log.)"""
    end = len(held)
    while held[max(0, end - len(ZEROS)) : end] == ZEROS:
        end -= len(ZEROS)
    return held[:end].rstrip(b"\0")


def page_kind(held):
    """Whether a page is empty, whole, short or spoilt."""
    if not any(held):
        return "empty"
    zeros, told = held.count(0, 6), number_in(held, 4, 2)
    if zeros != told:
        return "short" if zeros > told else "spoilt"
    right = field(crc32c(held[4:]), 4)
    if held[:4] == right:
        return "whole"
    return "short" if all(byte in (0, due) for byte, due in zip(held, right)) else "spoilt"


class Log:
    """What the bytes of a log hold; a `LogFault` where they hold none.

    `blocks` are the first page and the batches of each, `rest` the number of pages behind them that aren't empty.
    """

    def __init__(self, held, most=MOST_BYTES):
        if len(held) > most:
            raise LogFault("TooLong", most // PAGE)
        if len(held) < PAGE:
            raise LogFault("Truncated", 0)
        self.read_head(held[:PAGE])
        self.pages = [held[at : at + PAGE].ljust(PAGE, b"\0") for at in range(PAGE, len(held), PAGE)]
        self.blocks, self.rest = [], 0
        at, place = 0, self.first
        while at < len(self.pages):
            count = self.whole_pages(at, place)
            if count is None:
                self.read_rest(at, place)
                break
            batches = self.batches(at, count)
            self.blocks.append((1 + at, batches))
            at, place = at + count, place + len(batches)

    def read_head(self, held):
        if held[:8] != b"HHM-LOG\n":
            raise LogFault("BadMark", 0)
        version = number_in(held, 8, 4)
        if version not in (1, 2):
            raise LogFault("BadVersion", 0)
        cuts = held[28]
        end = 29 + 8 * cuts
        if cuts > 7:
            raise LogFault("BadHead", 0)
        self.setup = Setup(
            number_in(held, 12), number_in(held, 20), tuple(number_in(held, 29 + 8 * i) for i in range(cuts)),
            held[end], number_in(held, end + 1), number_in(held, end + 9),
        )  # fmt: skip
        self.first, self.total = number_in(held, end + 17), number_in(held, end + 25)
        self.link = number_in(held, end + 33, 4)
        if not self.is_in_range(version):
            raise LogFault("BadHead", 0)
        if number_in(held, PAGE - 4, 4) != crc32c(held[: PAGE - 4]):
            raise LogFault("HeadCheck", 0)
        # In version 2 a book and a window come after the link, and any will do.
        self.origin = UNKNOWN
        if version == 2:
            self.origin = Origin(number_in(held, end + 37, 16), number_in(held, end + 53))
        if any(held[end + (37 if version == 1 else 61) : PAGE - 4]):
            raise LogFault("BadHead", 0)

    def is_in_range(self, version):
        """Whether each number of the head is one that a head of this version may have."""
        setup, most = self.setup, 1_000_000 if version == 1 else 2**30
        rises = all(low < high for low, high in zip((0, *setup.cuts), setup.cuts))
        return (
            1 <= setup.rows <= SIZE and 1 <= setup.cols <= SIZE and rises and max(setup.cuts, default=0) <= 2**40
            and 1 <= setup.shards <= 64 and 1 <= setup.limit <= MOST and 1 <= setup.most <= most
            and self.first <= setup.most and self.total <= setup.limit
        )  # fmt: skip

    def is_next(self, held, place, number, pages):
        """Whether a page says that it is this one of the block at this place, which has so many, if that is known."""
        told = number_in(held, 20, 4)
        return (
            number_in(held, 6, 2) == 1 and number_in(held, 8) == place and number_in(held, 16, 4) == number < told
            and pages in (0, told)
        )  # fmt: skip

    def whole_pages(self, at, place):
        """How many pages the block has that begins here, None where not all of them are whole."""
        pages = 0
        for number, held in enumerate(self.pages[at:]):
            if page_kind(held) != "whole" or not self.is_next(held, place, number, pages):
                return None
            pages = number_in(held, 20, 4)
            if number + 1 == pages:
                return pages
        return None

    def batches(self, at, count):
        """The batches of the block with these pages."""
        fault = LogFault("BadBlock", 1 + at)
        held = b"".join(one[24:] for one in self.pages[at : at + count])
        found, place = [], 8
        if not 0 < number_in(held, 0) <= (len(held) - 8) // 24:
            raise fault
        for _ in range(number_in(held, 0)):
            client, number, entries = (number_in(held, place + 8 * i) for i in range(3))
            place += 24
            if place + 24 * entries > len(held):
                raise fault
            cells = [tuple(number_in(held, place + 24 * i + 8 * j) for j in range(3)) for i in range(entries)]
            place += 24 * entries
            if not self.are_cells(cells) or place > len(held):
                raise fault
            found.append((client, number, cells))
        if len(held) - place >= CHUNK or any(held[place:]):
            raise fault
        return found

    def are_cells(self, cells):
        """Whether they lie within the dimensions, rise, and have no more than the limit in all."""
        places = [(row, col) for row, col, _ in cells]
        return (
            all(row < self.setup.rows and col < self.setup.cols for row, col in places)
            and all(one < next_one for one, next_one in zip(places, places[1:]))
            and sum(count for _, _, count in cells) <= self.setup.limit
        )  # fmt: skip

    def read_rest(self, at, place):
        """Counts the pages from here on, which are to be what an append of one block may have left.

        `choices` are what each of the four bytes of the block's number of pages may be.
        """
        choices = [range(256)] * 4
        for number, held in enumerate(self.pages[at:]):
            kind = page_kind(held)
            if kind == "empty":
                continue
            choices = [
                [byte for byte in bytes_left if byte == told or kind == "short" and told == 0]
                for bytes_left, told in zip(choices, held[20:24])
            ]
            most = int.from_bytes(bytes(max(bytes_left, default=0) for bytes_left in choices), "big")
            right = field(1, 2) + field(place) + field(number % 2**32, 4)
            fits = all(byte == due or kind == "short" and byte == 0 for byte, due in zip(held[6:20], right))
            if kind == "spoilt" or not all(choices) or most <= number or not fits:
                raise LogFault("Damaged", 1 + at + number)
            self.rest += 1

    def all_batches(self):
        return [batch for _, batches in self.blocks for batch in batches]

    def whole(self):
        """How many pages the head and the blocks have."""
        return 1 + sum(-(-len(payload(batches)) // CHUNK) for _, batches in self.blocks)

    def line(self):
        """What `check` writes of the log."""
        return f"log first {self.first} batches {len(self.all_batches())} pages {self.whole()} rest {self.rest}"


def with_book(held, book=BOOK):
    """The bytes of a log, which are judged as they are, with this book in place of the one that it has, if any."""
    found = Log(held)
    if not found.origin.book:
        return held
    at = 66 + 8 * len(found.setup.cuts)
    return checked_head(held[:at] + field(book, 16) + held[at + 16 : PAGE - 4]) + held[PAGE:]


def joined(known, found, setup=SMALL, origin=UNKNOWN):
    """The batches of a snapshot, which is given by its batches, with those of a log behind its end; a `JoinFault` where
    the two don't belong together. A book that isn't known goes with each. All are judged by the snapshot's setup, into
    whose rows and columns the log's fit."""
    if origin.book and found.origin.book and origin.book != found.origin.book:
        raise JoinFault("log: OtherBook")
    if found.setup.rows > setup.rows or found.setup.cols > setup.cols:
        raise JoinFault("settings: LogDiffers")
    entries = [entry_of(batch) for batch in known]
    before = entries[: found.first]
    if found.first > len(known):
        raise JoinFault(f"log: Gap at batch {found.first}")
    if (sum(entry[3] for entry in before), link_of(before)) != (found.total, found.link):
        raise JoinFault("log: LinkDiffers")
    logged = found.all_batches()
    for place, batch in enumerate(logged, found.first):
        if place < len(known) and entries[place] != entry_of(batch):
            raise JoinFault(f"log: EntryDiffers at batch {place}")
    both = list(known)
    for batch in logged[len(known) - found.first :]:
        pairs = {entry[:2] for entry in map(entry_of, both)}
        total = sum(entry_of(one)[3] for one in [*both, batch])
        if batch[:2] in pairs or total > setup.limit or len(both) >= setup.most:
            raise JoinFault(f"log: NotFresh at batch {len(both)}")
        both.append(batch)
    return both


def check_line(batches, setup=SMALL):
    """The line that `check` writes of these batches."""
    places = {(row, col) for _, _, cells in batches for row, col, _ in cells}
    total = sum(entry_of(batch)[3] for batch in batches)
    return (
        f"rows {setup.rows} cols {setup.cols} shards {setup.shards} "
        f"batches {len(batches)} total {total} entries {len(places)}"
    )


def check_examples():
    """The examples of docs/FORMATS.md: the first numbers of pages, and the checksums of heads."""
    five, three = (7, 1, [(0, 0, 5)]), (8, 1, [(0, 0, 3)])
    one, other, both = block(0, [five]), block(1, [three]), block(0, [five, three])
    assert one[:24] == bytes.fromhex("666530d2 0ff3 0001 0000000000000000 00000000 00000001")
    assert one[24:80] == fields(1, 7, 1, 1, 0, 0, 5) and not any(one[80:]) and len(one) == PAGE
    assert other[:24] == bytes.fromhex("511d7306 0ff2 0001 0000000000000001 00000000 00000001")
    assert both[:32] == bytes.fromhex("b4dc6a97 0fef 0001 0000000000000000 00000000 00000001 0000000000000002")
    assert link_of([entry_of(five)]) == 0xDE345A72 and link_of([entry_of(five), entry_of(three)]) == 0xEC6496C9
    check_heads(entry_of(five))


def check_heads(entry):
    """The heads of docs/FORMATS.md, of both versions and with this entry before them."""
    setup = "0000000000000003 0000000000000003 02 0000000000000002 0000000000000004" \
        "02 0000000000000064 000000000000000a"
    none, one = bytes(20).hex(), "0000000000000001 0000000000000005 de345a72"
    window = "ffffffffffffffff"
    unknown, owner = f"{bytes(16).hex()} {window}", f"00112233445566778899aabbccddeeff {window}"
    for held, version, fields_before, owned, checksum in [
        (head(origin=None), 1, none, "", "ba8aa704"),
        (head([entry], origin=None), 1, one, "", "5aa3e14d"),
        (head(origin=UNKNOWN), 2, none, unknown, "9ed95ae1"),
        (head(), 2, none, owner, "9ec0e3d8"),
        (head([entry], origin=UNKNOWN), 2, one, unknown, "7ef01ca8"),
    ]:
        spelled = bytes.fromhex(f"48484d2d4c4f470a {version:08x} {setup} {fields_before} {owned}")
        assert len(spelled) == (82 if version == 1 else 106)
        assert held == spelled.ljust(PAGE - 4, b"\0") + bytes.fromhex(checksum)
    for before in ([], [entry]):
        assert with_book(head(before, origin=Origin(1)), BOOK) == head(before)
        assert with_book(head(before, origin=UNKNOWN)) == head(before, origin=UNKNOWN)


check_examples()
