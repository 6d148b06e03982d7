"""How answers are written: lines of words, aligned columns on a terminal, CSV, JSON, or a table of HTML.

    hhmc --unix hhm.sock top rows 10 --json     # one object a line: {"row": 7, "entries": 1, "total": 50}
    hhmc --unix hhm.sock top rows 10 --csv      # a head, and a line for each row

Numbers are whole in each form: JSON has them as numbers of up to 20 digits, which some readers round (jq before 1.7,
JavaScript).
"""
import argparse
import csv
import html
import io
import itertools
import json
import sys
from typing import Any, Callable, Iterable, Iterator, List, Optional, Sequence

# The lines that are written at once. On a terminal they decide the widths of the columns.
BLOCK = 1_000
Row = Sequence[Any]


def add_options(word: Any) -> None:
    """Adds --json and --csv to a word of the command line."""
    forms = word.add_mutually_exclusive_group()
    forms.add_argument("--json", action="store_true", help="one JSON object a line")
    forms.add_argument("--csv", action="store_true", help="CSV with a head")


def blocks_of(rows: Iterable[Row]) -> Iterator[List[Row]]:
    rows = iter(rows)
    while block := list(itertools.islice(rows, BLOCK)):
        yield block


def json_lines(names: Sequence[str], rows: Iterable[Row]) -> Iterator[str]:
    for block in blocks_of(rows):
        yield "".join(json.dumps(dict(zip(names, row))) + "\n" for row in block)


def csv_lines(names: Sequence[str], rows: Iterable[Row]) -> Iterator[str]:
    for block in itertools.chain([[names]], blocks_of(rows)):
        text = io.StringIO()
        csv.writer(text, lineterminator="\n").writerows(block)
        yield text.getvalue()


def aligned_lines(names: Sequence[str], rows: Iterable[Row]) -> Iterator[str]:
    """Columns below a head: numbers to the right, words to the left."""
    widths = [len(name) for name in names]
    head = [names]
    for block in blocks_of(rows):
        shown = [[str(word) for word in row] for row in head + block]
        widths = [max(width, *map(len, column)) for width, column in zip(widths, zip(*shown))]
        is_left = [isinstance(word, str) for word in block[0]]
        for row in shown:
            words = (word.ljust(width) if is_word else word.rjust(width)
                     for word, width, is_word in zip(row, widths, is_left))
            yield "  ".join(words).rstrip() + "\n"
        head = []


def plain_lines(rows: Iterable[Row], plain: Callable[[Row], str]) -> Iterator[str]:
    for block in blocks_of(rows):
        yield "".join(plain(row) + "\n" for row in block)


def words_of(row: Row) -> str:
    return " ".join(map(str, row))


def answered(given: argparse.Namespace, names: Sequence[str], rows: Iterable[Row],
             plain: Optional[Callable[[Row], str]] = None) -> Iterator[bytes]:
    """Rows in the form that the command line asks for. `plain` gives the line of a row that isn't aligned on a
    terminal."""
    if given.json:
        lines = json_lines(names, rows)
    elif given.csv:
        lines = csv_lines(names, rows)
    elif plain is None and sys.stdout.isatty():
        lines = aligned_lines(names, rows)
    else:
        lines = plain_lines(rows, plain or words_of)
    for line in lines:
        yield line.encode("utf-8", "surrogateescape")


class Table(List[Row]):
    """The rows of an answer, with the names of their columns."""

    def __init__(self, names: Sequence[str], rows: Iterable[Row]):
        super().__init__(rows)
        self.names = names

    def _repr_html_(self) -> str:
        """A table, for notebooks."""
        return html_table(self.names, self)


def html_table(names: Sequence[str], rows: Iterable[Row]) -> str:
    """A table for a notebook."""
    head = "".join(f"<th>{html.escape(name)}</th>" for name in names)
    lines = ("<tr>" + "".join(f"<td>{html.escape(str(word))}</td>" for word in row) + "</tr>" for row in rows)
    return f"<table><thead><tr>{head}</tr></thead><tbody>{''.join(lines)}</tbody></table>"
