"""The cells of a sum as arrays: of a server, a snapshot or a Matrix Market text. Python's standard library alone.

    total = sum_of("packets.snap")                  # a snapshot, by `hhm export`, of whatever size
    total = sum_of("packets.mtx")                   # a text, whose entries `hhm sum` adds up
    total = sum_of(Client(unix="/run/hhm/hhm.sock"))# a server, by an export, or where that is too long by ranges
    print(total.rows, total.cols, len(total.cells.counts))
    for part in pages_of(hhm, (0, 9), (0, 1 << 20)):# a range of a server, page by page
        print(sum(part.counts))

No count is rounded, and a stored zero is a cell like others. Memory: 24 bytes a cell, and some megabytes.
"""
import array
import io
import itertools
import operator
import os
import subprocess
import sys
from typing import BinaryIO, Iterator, NamedTuple, Optional, Tuple, Union

from hhm_client import CELLS, RANGE, Arrays, BadReply, Client, Place, Refused, request

# The bytes of a text that are parted into words at once, and the cells of a page.
BLOCK, PAGE = 1 << 20, 100_000

Source = Union[str, "os.PathLike[str]", Client]


class Sum(NamedTuple):
    """The dimensions of a sum, and its cells by row, then by column, each place once, counted from 0."""

    rows: int
    cols: int
    cells: Arrays


class NoSum(ValueError):
    """A file that hhm doesn't read. `status` is what hhm ended with, as docs/FORMATS.md has it."""

    def __init__(self, status: int, words: str):
        self.status = status
        super().__init__(words)


def sum_of(source: Source, program: str = "hhm") -> Sum:
    """The sum of a server, or of a file: a snapshot, or a Matrix Market text, which may be `-`, standard input.

    `program` is the hhm that reads files, by its name on the path or by a path. A `NoSum` tells what it says of a file
    that it refuses, an OSError that there is no such file or program; of a server it is what a client raises.
    """
    if isinstance(source, Client):
        return sum_of_server(source)
    return sum_of_file(os.fspath(source), program)


def sum_of_server(hhm: Client) -> Sum:
    """By an export, whose text has at most 64 MiB. What is longer is read page by page, each as it stands when it is
    asked for, where the server knows ranges."""
    try:
        total = read_sum(io.BytesIO(hhm.export()))
    except Refused as refused:
        if refused.name != "ReplyTooLarge":
            raise
        return sum_of_pages(hhm, refused)
    if total is None:
        raise NoSum(4, "what the server exported is no whole text")
    return total


def sum_of_pages(hhm: Client, refused: Refused) -> Sum:
    """By ranges; what was refused where the server doesn't know them."""
    rows, cols = hhm.size()
    cells = no_cells()
    try:
        for page in pages_of(hhm, (0, rows - 1), (0, cols - 1)):
            for numbers, more in zip(cells, page):
                numbers.extend(more)
    except Refused as why:
        raise refused if why.name == "UnknownKind" else why
    return Sum(rows, cols, cells)


def no_cells() -> Arrays:
    return Arrays(array.array("Q"), array.array("Q"), array.array("Q"))


def pages_of(hhm: Client, rows: Place, cols: Place, most: int = PAGE) -> Iterator[Arrays]:
    """The cells whose row and column are from the first to the last of these, both ends in, in order. They are asked
    for page by page, of so many cells each, at most 1,000,000: a page has what is there when it is asked for."""
    start, has_more = (0, 0), True
    while has_more:
        frame = request(RANGE, *rows, *cols, *start, most)
        page, has_more = hhm._ask_for(frame, CELLS, lambda body: page_of(body, rows, cols, start, most))
        if page.rows:
            start = page.rows[-1], page.cols[-1] + 1
            yield page


def page_of(body: bytes, rows: Place, cols: Place, start: Place, most: int) -> Tuple[Arrays, bool]:
    """The cells that a reply to a Range has, and whether there are more. A BadReply where it is none of what was asked
    for."""
    if len(body) % 24 != 1 or body[0] > 1:
        raise BadReply(f"{len(body)} bytes are no page")
    numbers = array.array("Q", bytes(body[1:]))
    if sys.byteorder == "little":
        numbers.byteswap()
    page = Arrays(numbers[0::3], numbers[1::3], numbers[2::3])
    count = len(page.rows)
    if count > most or (body[0] == 1 and count < most):
        raise BadReply(f"a page of {count} cells, and {most} were asked for")
    places = list(zip(page.rows, page.cols))
    is_right = all(map(operator.lt, places, itertools.islice(places, 1, None)))
    if places and not (is_right and start <= places[0] and rows[0] <= places[0][0] and places[-1][0] <= rows[1]
                       and cols[0] <= min(page.cols) and max(page.cols) <= cols[1]):
        raise BadReply("a cell of the page isn't in its place")
    return page, body[0] == 1


def sum_of_file(path: str, program: str) -> Sum:
    with open(sys.stdin.fileno() if path == "-" else path, "rb", buffering=0, closefd=path != "-") as file:
        is_text = path == "-" or os.pread(file.fileno(), 14, 0).lower() == b"%%matrixmarket"
        words = [program, "sum"] if is_text else [program, "export", path]
        with subprocess.Popen(words, stdin=file if is_text else subprocess.DEVNULL, stdout=subprocess.PIPE,
                              stderr=subprocess.PIPE) as run:
            total = read_sum(run.stdout)
            told = run.stderr.read().decode("utf-8", "replace").strip()
    if run.returncode != 0 or total is None:
        raise NoSum(run.returncode if run.returncode > 0 else 4, f"{path}: {told or 'hhm was ended'}")
    return total


def read_sum(text: BinaryIO) -> Optional[Sum]:
    """Reads a text that hhm wrote; None where it isn't whole."""
    text.readline()
    size = text.readline().split()
    if len(size) != 3:
        return None
    rows, cols, entries = map(int, size)
    cells = no_cells()
    for part in parts_of(text):
        for numbers, more in zip(cells, part):
            numbers.extend(more)
    return Sum(rows, cols, cells) if len(cells.counts) == entries else None


def parts_of(text: BinaryIO) -> Iterator[Arrays]:
    """The cells of the entries of a text, from its next line on, some at a time."""
    rest = b""
    while block := text.read(BLOCK):
        lines, _, rest = (rest + block).rpartition(b"\n")
        words = lines.split()
        yield Arrays(*(array.array("Q", [int(word) - 1 for word in words[axis::3]]) for axis in (0, 1)),
                     array.array("Q", list(map(int, words[2::3]))))
