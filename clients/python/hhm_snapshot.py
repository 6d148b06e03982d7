"""Reads the batches of a snapshot of hhm. Python 3.8 or later, its standard library alone.

docs/FORMATS.md has the bytes. A file is taken for one that `hhm check` has checked: neither its checksums nor the order
of its cells are looked at here. Cells stay as they stand in the file, 24 bytes each, and the file is mapped.
"""
import mmap
import struct
from typing import Any, List, NamedTuple, Optional, Tuple

# What a file says where it is of a whole book.
NO_WINDOW = 2**64 - 1


class Batch(NamedTuple):
    """A batch: its two numbers, how many cells it has, their total, and its cells; none where it is folded."""

    client: int
    number: int
    entries: int
    total: int
    cells: Optional[memoryview]

    def pair(self) -> Tuple[int, int]:
        return self.client, self.number

    def says(self) -> Tuple[int, int, int, int]:
        """What a server compares."""
        return self[:4]


class Snapshot(NamedTuple):
    """The numbers of rows and columns, the batches in order of acceptance, and the cells of the sum of those that are
    folded, which are the first of them.

    And whose the file is: the 16 bytes of its book, all 00 where it isn't known, a window of it, or none, and whether a
    log goes with the file. Versions before 4 don't say that.
    """

    rows: int
    cols: int
    batches: List[Batch]
    base: memoryview
    book: bytes = bytes(16)
    window: Optional[int] = None
    has_log: bool = False


class Fields:
    """The fields of a file, one behind the other."""

    def __init__(self, path: str):
        with open(path, "rb") as file:
            self.data = memoryview(mmap.mmap(file.fileno(), 0, access=mmap.ACCESS_READ))
        self.path, self.at = path, 0

    def take(self, form: str) -> Tuple[Any, ...]:
        found = struct.unpack_from(">" + form, self.data, self.at)
        self.at += struct.calcsize(">" + form)
        return found

    def bytes(self, count: int) -> memoryview:
        self.at += count
        if self.at > len(self.data):
            raise ValueError(f"{self.path}: it ends too early")
        return self.data[self.at - count : self.at]


def total_of(cells: memoryview) -> int:
    return sum(count for (count,) in struct.iter_unpack(">16xQ", cells))


def read_snapshot(path: str) -> Snapshot:
    """The snapshot in a file. A ValueError where it is none."""
    try:
        return parsed(Fields(path))
    except struct.error:
        raise ValueError(f"{path}: it ends too early") from None


def parsed(file: Fields) -> Snapshot:
    mark, version = file.take("8sI")
    if mark != b"HHMSNAP\n" or not 1 <= version <= 4:
        raise ValueError(f"{file.path}: no snapshot")
    check = 4 if version >= 3 else 0
    rows, cols, cuts = file.take("QQB")
    file.bytes(8 * cuts + 1)
    _, _, unfolded, _ = file.take("QQQQ")
    book, window, has_log = file.take("16sQ?") if version >= 4 else (bytes(16), NO_WINDOW, False)
    file.bytes(check)
    batches, base = [], file.bytes(0)
    if version > 1:
        (folded,) = file.take("Q")
        batches = [Batch(*file.take("QQQQ"), None) for _ in range(folded)]
        (entries,) = file.take("Q")
        base = file.bytes(24 * entries)
        file.bytes(check)
    for _ in range(unfolded):
        client, number, entries = file.take("QQQ")
        cells = file.bytes(24 * entries)
        file.bytes(check)
        batches.append(Batch(client, number, entries, total_of(cells), cells))
    if file.at != len(file.data):
        raise ValueError(f"{file.path}: {len(file.data) - file.at} bytes too many")
    return Snapshot(rows, cols, batches, base, book, None if window == NO_WINDOW else window, has_log)
