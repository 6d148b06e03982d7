"""Snapshots as docs/FORMATS.md has them: bytes that are written, and a reader that says what bytes hold, or what is
wrong with them.

For the scripts beside it. Nothing here comes from the program, so that what it writes and reports can be judged by it.
"""
import itertools
from typing import NamedTuple

BANNER = "%%MatrixMarket matrix coordinate integer general\n"
MOST = 2**64 - 1
SIZE = 2**60


def field(value, size=8):
    """A field of a snapshot: unsigned, the highest byte first."""
    return value.to_bytes(size, "big")


def fields(*values):
    """Fields of eight bytes."""
    return b"".join(field(value) for value in values)


def with_byte(held, offset, byte):
    """These bytes with another one at an offset."""
    return held[:offset] + bytes([byte]) + held[offset + 1 :]


def table_entry(value):
    """The remainder of a byte and eight bits after it, by the polynomial 1EDC6F41 with its bits reversed."""
    for _ in range(8):
        value = value >> 1 ^ (0x82F63B78 if value & 1 else 0)
    return value


CRC_TABLE = [table_entry(value) for value in range(256)]


def crc32c(held, before=0):
    """The checksum of RFC 3720, of these bytes after those with the checksum `before`."""
    value = before ^ 2**32 - 1
    for byte in held:
        value = value >> 8 ^ CRC_TABLE[(value ^ byte) & 0xFF]
    return value ^ 2**32 - 1


assert crc32c(b"123456789") == 0xE3069283 and crc32c(bytes(32)) == 0x8A9136AA


class Origin(NamedTuple):
    """Whose a file is: a book of 128 bits, a window of it, and 1 where a log goes with the file."""

    book: int = 0
    window: int = MOST
    log: int = 0


# A book that isn't known, no window and no log: what files of older versions say, and those that the program makes.
UNKNOWN = Origin()
# The book of the examples of docs/FORMATS.md.
BOOK = 0x00112233445566778899AABBCCDDEEFF
OWNED = Origin(BOOK)
# The same, and a log goes with the snapshot.
PAIRED = OWNED._replace(log=1)


def identity(origin):
    """The fields of a book and of a window."""
    return field(origin.book, 16) + field(origin.window)


def snapshot(
    batches, total, rows=3, cols=3, cuts=(2, 4), shards=2, limit=100, most=10, count=None, past=None, version=4,
    origin=UNKNOWN,
):  # fmt: skip
    """The bytes of a snapshot: of version 1, or of `version` where `past` has folded entries and the base's cells.

    A batch is its client, its number and its cells; a cell is a row, a column, a count. A folded entry is its client,
    its number, its number of cells and its total.
    """
    version = 1 if past is None else version
    head = b"HHMSNAP\n" + field(version, 4) + fields(rows, cols) + field(len(cuts), 1) + fields(*cuts)
    head += field(shards, 1) + fields(limit, most, len(batches) if count is None else count, total)
    if version >= 4:
        head += identity(origin) + field(origin.log, 1)
    parts = [head]
    if past is not None:
        folded, base = past
        parts.append(fields(len(folded), *itertools.chain(*folded)) + fields(len(base), *itertools.chain(*base)))
    parts += [
        fields(client, number, len(cells)) + b"".join(fields(*cell) for cell in cells)
        for client, number, cells in batches
    ]
    return checked_parts(parts) if version >= 3 else b"".join(parts)


def checked_parts(parts):
    """The parts of a file, each with the checksum of all bytes before it."""
    held, value = bytearray(), 0
    for part in parts:
        value = crc32c(part, value)
        check = field(value, 4)
        value = crc32c(check, value)
        held += part + check
    return bytes(held)


# Nothing is folded.
NONE = ([], [])


class FirstFault(Exception):
    """The first fault of a snapshot's bytes."""


class Snapshot:
    """What docs/FORMATS.md says of bytes, field after field: the line of `check`, or a `FirstFault`.

    `fields` has the name of each field that was read, and where its bytes are; `origin` says whose the file is, and
    `entries` has client, number, cells and total of each batch.
    """

    def __init__(self, held):
        self.held, self.at, self.fields = held, 0, []
        self.checked, self.value, self.entries = 0, 0, []
        self.head()
        self.check()
        self.sum, self.places, self.pairs, self.folded = 0, {}, set(), 0
        if self.version > 1:
            self.past()
            self.check()
        self.batches()
        if self.sum != self.total:
            raise FirstFault("TotalDiffers")
        if self.at < len(held):
            raise FirstFault("ExtraBytes")

    def take(self, name, size, is_good, fault=None):
        """The next field, which is judged once all its bytes are there."""
        held = self.held[self.at : self.at + size]
        if len(held) < size:
            raise FirstFault("Truncated")
        self.fields.append((name, range(self.at, self.at + size)))
        self.at += size
        value = int.from_bytes(held, "big")
        if not is_good(value):
            raise FirstFault(fault)
        return value

    def check(self):
        """The checksum of all bytes before it, from version 3 on."""
        if self.version >= 3:
            due = crc32c(self.held[self.checked : self.at], self.value)
            self.checked, self.value = self.at, due
            self.take("checksum", 4, lambda value: value == due, "BadCheck")

    def head(self):
        def setting(name, least, most, size=8):
            return self.take(name, size, lambda value: least <= value <= most, "BadHead")

        self.take("mark", 8, lambda value: field(value) == b"HHMSNAP\n", "BadMark")
        self.version = self.take("version", 4, lambda value: value in (1, 2, 3, 4), "BadVersion")
        self.rows, self.cols = setting("rows", 1, SIZE), setting("cols", 1, SIZE)
        cut = 0
        for _ in range(setting("cuts", 0, 7, 1)):
            cut = setting("cut", cut + 1, 2**40)
        self.shards = setting("shards", 1, 64, 1)
        limit = setting("limit", 1, MOST)
        self.most = setting("most", 1, 2**30 if self.version >= 4 else 1_000_000)
        self.count = setting("batches", 0, self.most)
        self.total = setting("total", 0, limit)
        self.origin = UNKNOWN
        if self.version >= 4:
            book, window = self.take("book", 16, lambda _: True), self.take("window", 8, lambda _: True)
            self.origin = Origin(book, window, setting("log", 0, 1, 1))

    def pair(self):
        client = self.take("client", 8, lambda _: True)
        number = self.take("number", 8, lambda value: (client, value) not in self.pairs, "RepeatedNumber")
        self.pairs.add((client, number))
        return client, number

    def past(self):
        self.folded = self.take("folded", 8, lambda value: value + self.count <= self.most, "BadHead")
        totals = 0
        for _ in range(self.folded):
            pair, count = self.pair(), self.take("folded cells", 8, lambda _: True)
            left = self.total - totals
            total = self.take("folded total", 8, lambda value, left=left: value <= left, "TotalDiffers")
            self.entries.append((*pair, count, total))
            totals += total
        self.cells(self.take("base", 8, lambda value: self.folded or value == 0, "BadBatch"), totals)
        if self.sum != totals:
            raise FirstFault("TotalDiffers")

    def batches(self):
        for _ in range(self.count):
            pair, count, before = self.pair(), self.take("entries", 8, lambda _: True), self.sum
            self.cells(count, self.total)
            self.entries.append((*pair, count, self.sum - before))
            self.check()

    def cells(self, count, most):
        before = (-1, -1)
        for _ in range(count):
            row = self.take("row", 8, lambda value: value < self.rows, "BadBatch")
            col = self.take("column", 8, lambda value: value < self.cols, "BadBatch")
            if (row, col) <= before:
                raise FirstFault("OutOfOrder")
            before = row, col
            count = self.take("count", 8, lambda value: self.sum + value <= most, "TotalDiffers")
            self.places[before] = self.places.get(before, 0) + count
            self.sum += count

    def text(self):
        """The canonical text of the sum of the batches."""
        lines = [f"{row + 1} {col + 1} {count}\n" for (row, col), count in sorted(self.places.items())]
        return f"{BANNER}{self.rows} {self.cols} {len(lines)}\n{''.join(lines)}"

    def line(self):
        return (
            f"rows {self.rows} cols {self.cols} shards {self.shards} "
            f"batches {self.folded + self.count} total {self.total} entries {len(self.places)}"
        )


def with_book(held, book=BOOK):
    """The bytes of a snapshot, which are judged as they are, with this book in place of the one that it has, if any.

    So a file whose book was drawn at random is compared with bytes that are known.
    """
    found, parts, end = Snapshot(held), [], 0
    if not found.origin.book:
        return held
    for name, place in found.fields:
        if name == "checksum":
            parts.append(held[end : place.start])
            end = place.stop
    at = dict(found.fields)["book"].start
    parts[0] = parts[0][:at] + field(book, 16) + parts[0][at + 16 :]
    return checked_parts(parts)


def check_examples():
    """The example of docs/FORMATS.md in each version, and its checksums with other origins."""
    one = [(7, 1, [(0, 0, 5)])]
    fields_of_head = "0000000000000003 0000000000000003 02 0000000000000002 0000000000000004" \
        "02 0000000000000064 000000000000000a 0000000000000001 0000000000000005"
    batch = "0000000000000007 0000000000000001 0000000000000001 0000000000000000 0000000000000000 0000000000000005"
    none, owner = bytes(16).hex(), "00112233445566778899aabbccddeeff ffffffffffffffff 00"
    mark = "48484d534e41500a"
    for held, wanted in [
        (snapshot(one, 5), f"{mark} 00000001 {fields_of_head} {batch}"),
        (snapshot(one, 5, past=NONE, version=2), f"{mark} 00000002 {fields_of_head} {none} {batch}"),
        (
            snapshot(one, 5, past=NONE, version=3),
            f"{mark} 00000003 {fields_of_head} 163ee4f6 {none} d0540e0d {batch} 5ed02458",
        ),
        (
            snapshot(one, 5, past=NONE, origin=OWNED),
            f"{mark} 00000004 {fields_of_head} {owner} 3864c250 {none} 96dd6b0d {batch} 11821650",
        ),
    ]:
        assert held == bytes.fromhex(wanted)
    for origin, checks in [
        (OWNED, "3864c250 96dd6b0d 11821650"),
        (PAIRED, "ca0f4153 a12c3b5e 79b4082c"),
        (UNKNOWN, "d38776cd 514e0200 be3bb496"),
    ]:
        held = snapshot(one, 5, past=NONE, origin=origin)
        assert len(held) == 179 and Snapshot(held).origin == origin
        assert b"".join(held[at : at + 4] for at in (103, 123, 175)) == bytes.fromhex(checks)
        assert with_book(held, 1 if origin.book else 0) == snapshot(
            one, 5, past=NONE, origin=origin._replace(book=1 if origin.book else 0)
        )


check_examples()
