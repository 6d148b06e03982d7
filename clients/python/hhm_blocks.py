"""The cells of some rows and columns, of a server by pages, or of a snapshot by `hhm list`: for `hhm_ask.py`."""
import argparse
import itertools
import subprocess
from bisect import bisect_right
from typing import Iterator, NamedTuple, Optional, Sequence, Tuple

from hhm_cells import PAGE, pages_of, parts_of
from hhm_client import Arrays, Cell, Client, Ended
from hhm_words import LAST, Span

Spans = Sequence[Span]


def run_hhm(given: argparse.Namespace, *words: str) -> bytes:
    """What `hhm` writes of a snapshot. An Ended where it can't."""
    try:
        ended = subprocess.run([given.program, *words, given.snapshot], stdin=subprocess.DEVNULL, capture_output=True)
    except FileNotFoundError:
        raise no_program(given) from None
    if ended.returncode != 0:
        raise not_read(given, ended.returncode, ended.stderr)
    return ended.stdout


def no_program(given: argparse.Namespace) -> Ended:
    return Ended(4, f"there is no program {given.program}, which reads files: give --program FILE")


def not_read(given: argparse.Namespace, status: int, error: bytes) -> Ended:
    """What is reported where hhm ended with another status than 0."""
    told = error.decode("utf-8", "replace").strip() or "hhm was ended"
    return Ended(status if status > 0 else 4, f"{given.snapshot}: {told}")


def bounds_of(spans: Spans) -> Tuple[int, int]:
    return spans[0].first, spans[-1].last


def has(spans: Spans, number: int) -> bool:
    """Whether a number is in some spans."""
    place = bisect_right(spans, (number, LAST)) - 1
    return place >= 0 and number <= spans[place].last


class Block(NamedTuple):
    """The cells whose row and column are in some spans, in order; None is all rows, or columns."""

    rows: Optional[Spans]
    cols: Optional[Spans]

    def is_whole(self) -> bool:
        return self.rows is None and self.cols is None

    def sides(self, size: Tuple[int, int]) -> Tuple[Spans, Spans]:
        """The spans of rows and of columns, of a sum of this size."""
        rows = [Span(0, size[0] - 1)] if self.rows is None else self.rows
        return rows, [Span(0, size[1] - 1)] if self.cols is None else self.cols

    def parts(self, hhm: Optional[Client], given: argparse.Namespace, most: int = PAGE) -> Iterator[Arrays]:
        """The cells of a server, by pages of so many, or of the snapshot of the command line."""
        if hhm is None:
            return self.of_file(given)
        return self.of_server(hhm, most)

    def cells(self, hhm: Optional[Client], given: argparse.Namespace, most: int) -> Iterator[Cell]:
        """The same, one by one."""
        for part in self.parts(hhm, given, most):
            yield from zip(*part)

    def of_server(self, hhm: Client, most: int) -> Iterator[Arrays]:
        rows, cols = self.sides(hhm.size() if self.rows is None or self.cols is None else (0, 0))
        for span in rows if cols else []:
            for part in pages_of(hhm, span, bounds_of(cols), most):
                yield within(part, [span], cols)

    def of_file(self, given: argparse.Namespace) -> Iterator[Arrays]:
        rows, cols = self.sides((LAST, LAST))
        if not rows or not cols:
            return
        words = ["list", "--rows", "%d-%d" % bounds_of(rows), "--cols", "%d-%d" % bounds_of(cols)]
        how = {"stdin": subprocess.DEVNULL, "stdout": subprocess.PIPE, "stderr": subprocess.PIPE}
        try:
            run = subprocess.Popen([given.program, *words, given.snapshot], **how)
        except FileNotFoundError:
            raise no_program(given) from None
        with run:
            try:
                # (the banner and the line of the size)
                list(itertools.islice(run.stdout, 2))
                for part in parts_of(run.stdout):
                    yield within(part, rows, cols)
                error = run.stderr.read()
            except GeneratorExit:
                run.kill()
                raise
        if run.returncode != 0:
            raise not_read(given, run.returncode, error)


def within(part: Arrays, rows: Spans, cols: Spans) -> Arrays:
    """Those of some cells, from the first to the last row and column of these, that are in the spans."""
    for axis, spans in enumerate((rows, cols)):
        if len(spans) > 1:
            kept = [has(spans, number) for number in part[axis]]
            part = Arrays(*(list(itertools.compress(numbers, kept)) for numbers in part))
    return part
