"""Questions to a running server, or to a snapshot: cells, rows, which rows or columns lead, what a range has, how many
rows have how many cells, and what a server says of itself.

These are words of `hhm_client.py`:

    hhmc --unix /run/hhm/hhm.sock top rows 10                    # lines `row entries total`, the highest total first
    hhmc --unix /run/hhm/hhm.sock top cols 10 --by entries       # reads all cells, since a server leads by rows alone
    hhmc --unix /run/hhm/hhm.sock top rows --in 10.0.0.0/8 --prefix 24    # the networks in one that lead
    hhmc --unix /run/hhm/hhm.sock list 10.0.0.0/8 --limit 20     # lines `row column count`
    hhmc --unix /run/hhm/hhm.sock range --rows 0-9 --cols 7      # the same of a block
    hhmc --unix /run/hhm/hhm.sock degrees rows                   # lines `from to rows`
    hhmc top --file packets.snap rows 10 --ip                    # a snapshot, which `hhm` on the path reads

Rows and columns are written and shown as hhm_words.py has it, and answers as hhm_answers.py has it.
"""
import argparse
import contextlib
import sys
from typing import Any, Iterable, Iterator, List, Optional, Sequence

from hhm_answers import add_options as add_forms
from hhm_answers import Table, answered
from hhm_blocks import Block, Spans, run_hhm
from hhm_cells import Source
from hhm_client import (
    BY, MAX_PAGE, STATS, TOLD, Cell, Client, Ended, Refused, Status, TopRow, number, request, stats_of,
)
from hhm_figures import REASONS, failures_of
from hhm_groups import Groups, Prefix, degrees_of, first_of, joined, sums_of_cols, sums_of_rows
from hhm_words import LAST, Span, Words, count_of, version_of
from hhm_words import add_options as add_words_options

# The cells of a page where all are read, and where a row's are.
SCAN, LIST = 100_000, 10_000
SCANNED = "a scan of all cells, which takes a while where there are many"
AXES = {"rows": "row", "cols": "column"}
OPTIONS_OF_TOP = {"by": "total", "prefix": None, "within": None, "rows": None, "cols": None, "ip": False, "names": None,
                  "program": "hhm"}
WORD = "a number, A-B, an address, a network or, by --names, a name"


def say(words: str) -> None:
    print(words, file=sys.stderr, flush=True)


# What a question asks for.


def meant(words: Words, word: Optional[str]) -> Optional[List[Span]]:
    """The rows or columns of a word; None where none is given. How many names are in a network is said."""
    if word is None:
        return None
    spans = words.spans(word)
    if words.table is not None and ("/" in word and word not in words.numbers) and not words.is_plain(spans):
        say(f"{word}: {count_of(spans)} of the names in {words.table}")
    return spans


def block_of(given: argparse.Namespace, words: Words) -> Block:
    """The cells that are asked for. An Ended where --in says what another option says."""
    rows, cols = given.rows, given.cols
    if given.within is not None:
        if (rows if given.axis == "rows" else cols) is not None:
            raise Ended(2, f"--in is --{given.axis} of the {given.axis}: leave one of them out")
        rows, cols = (given.within, cols) if given.axis == "rows" else (rows, given.within)
    return Block(meant(words, rows), meant(words, cols))


def groups_of(given: argparse.Namespace, words: Words) -> Groups:
    """What rows or columns are summed as. An Ended for a word that is no prefix."""
    if given.prefix is None:
        return Groups(words, None)
    word = given.within or (given.rows if given.axis == "rows" else given.cols)
    try:
        prefix = Prefix.of(given.prefix, version_of(word) if word else None)
    except ValueError as why:
        raise Ended(2, f"--prefix {why}") from None
    # (networks are those of addresses, unless rows are names)
    words.is_ip = words.is_ip or not words.has_names()
    return Groups(words, prefix)


# Which rows, columns or networks lead, and how many rows have how many cells.


def all_sums(hhm: Optional[Client], given: argparse.Namespace) -> Optional[List[TopRow]]:
    """The sums of all single rows, or columns, of a snapshot; of a server those of rows. None where its answer hasn't
    room for all, or it doesn't know the question."""
    if hhm is None:
        return top_of_file(given, "entries", LAST)
    if given.axis == "rows":
        with contextlib.suppress(Refused):
            rows = hhm.top(MAX_PAGE, "entries")
            return rows if len(rows) < MAX_PAGE else None
    return None


def top_of_file(given: argparse.Namespace, by: str, most: int) -> List[TopRow]:
    """The single rows, or columns, that lead in a snapshot."""
    lines = run_hhm(given, "top", f"--{given.axis}", "--by", by, "-n", str(most)).decode().splitlines()
    return [TopRow(*map(int, line.split())) for line in lines]


def sums_of(hhm: Optional[Client], given: argparse.Namespace, block: Block, groups: Groups,
            what: str) -> Iterable[TopRow]:
    """The sums of the rows, columns or networks of a block. Where all cells of a server are read for them, it says so."""
    is_whole, by_rows, group = block.is_whole(), given.axis == "rows", None if groups.prefix is None else groups.of
    single = all_sums(hhm, given) if is_whole else None
    if single is not None:
        return joined(single, group) if group else single
    if hhm is not None and is_whole:
        say(f"{what} by {SCANNED}")
    parts = block.parts(hhm, given, SCAN)
    if not by_rows:
        return sums_of_cols(parts, group)
    shift = groups.shift(block.rows[-1].last if block.rows else LAST)
    sums = sums_of_rows(parts, shift)
    return joined(sums, group) if group and not shift else sums


def groups_of_server(hhm: Optional[Client], given: argparse.Namespace, block: Block,
                     groups: Groups) -> Optional[List[TopRow]]:
    """The rows, or IPv4 networks, that lead in one span of rows, by a server's own question. None where something else
    is asked, or it doesn't know the question."""
    if hhm is None or given.axis != "rows" or block.cols is not None:
        return None
    rows, _ = block.sides(hhm.size() if block.rows is None else (0, 0))
    if len(rows) != 1 or not groups.is_plain(rows[0].last):
        return None
    shift = groups.shift(rows[0].last)
    with contextlib.suppress(Refused):
        found = hhm.groups(tuple(rows[0]), shift, given.most or 10, given.by)
        return [TopRow(it.row << shift, it.entries, it.total) for it in found]
    return None


def leading(hhm: Optional[Client], given: argparse.Namespace, block: Block, groups: Groups) -> List[TopRow]:
    """The rows, columns or networks that lead, of a snapshot or of a server."""
    most = given.most or 10
    if block.is_whole() and groups.prefix is None:
        if hhm is None:
            return top_of_file(given, given.by, most)
        if given.axis == "rows":
            return hhm.top(most, given.by)
    if (found := groups_of_server(hhm, given, block, groups)) is not None:
        return found
    what = ("columns" if given.axis == "cols" else "rows") if groups.prefix is None else "networks"
    return first_of(sums_of(hhm, given, block, groups, f"{what} lead"), most, given.by)


def top_rows(hhm: Optional[Client], given: argparse.Namespace) -> Iterator[Sequence[Any]]:
    """Those that lead, as they are shown."""
    words = Words.of(given)
    block, groups = block_of(given, words), groups_of(given, words)
    return ((groups.shown(it.row), it.entries, it.total) for it in leading(hhm, given, block, groups))


def names_of_top(given: argparse.Namespace) -> Sequence[str]:
    return AXES[given.axis], "entries", "total"


def top(hhm: Optional[Client], given: argparse.Namespace) -> Iterator[bytes]:
    return answered(given, names_of_top(given), top_rows(hhm, given))


def top_table(source: Source, axis: str = "rows", most: int = 10, **options: Any) -> Table:
    """What `hhmc top` shows of a server or of a snapshot, for a notebook. Its options are `by`, `prefix`, `within` (for
    --in), `rows`, `cols`, `ip`, `names` and `program`. An Ended for words that mean nothing, and where a file can't be
    read."""
    if unknown := set(options) - set(OPTIONS_OF_TOP):
        raise TypeError(f"top_table has no option {sorted(unknown)[0]!r}")
    hhm = source if isinstance(source, Client) else None
    given = argparse.Namespace(**{**OPTIONS_OF_TOP, **options}, axis=axis, most=most, snapshot=source)
    given.prefix = None if given.prefix is None else str(given.prefix)
    return Table(names_of_top(given), top_rows(hhm, given))


def degrees(hhm: Optional[Client], given: argparse.Namespace) -> Iterator[bytes]:
    """How many rows, or columns, have 1 cell, 2 to 3, 4 to 7 and so on."""
    words = Words.of(given)
    block = block_of(given, words)
    if hhm is None and block.is_whole():
        lines = run_hhm(given, "degrees", f"--{given.axis}").decode().splitlines()
        found: Iterable[Sequence[Any]] = [tuple(map(int, line.split())) for line in lines]
    else:
        found = degrees_of(sums_of(hhm, given, block, Groups(words, None), "degrees come"))
    return answered(given, ("from", "to", given.axis), found)


# The cells of a range.


def cells(hhm: Optional[Client], given: argparse.Namespace, rows: Optional[str],
          cols: Optional[str]) -> Iterator[bytes]:
    """The cells of a block, as they come, up to --limit."""
    words = Words.of(given)
    block = Block(meant(words, rows), meant(words, cols))
    page = LIST if given.limit is None else min(given.limit + 1, LIST)
    more: List[Cell] = []
    found = limited(block.cells(hhm, given, page), given.limit, more)
    told = ((words.shown(row), words.shown(col), count) for row, col, count in found)
    yield from answered(given, ("row", "column", "count"), told)
    if more:
        what = f"row {words.told(block.rows[0].first)}" if is_one(block.rows) else rows or "the range"
        say(f"{what} has more cells: give a higher --limit")


def limited(found: Iterator[Cell], limit: Optional[int], more: List[Cell]) -> Iterator[Cell]:
    """The first cells; `more` gets the one after them."""
    for place, cell in enumerate(found):
        if place == limit:
            more.append(cell)
            return
        yield cell


def is_one(spans: Optional[Spans]) -> bool:
    """Whether these are one row."""
    return spans is not None and len(spans) == 1 and spans[0].first == spans[0].last


def list_cells(hhm: Optional[Client], given: argparse.Namespace) -> Iterator[bytes]:
    return cells(hhm, given, given.row, None)


def range_cells(hhm: Optional[Client], given: argparse.Namespace) -> Iterator[bytes]:
    return cells(hhm, given, given.rows, given.cols)


# One cell, and one row.


def cell(hhm: Client, given: argparse.Namespace) -> Iterator[bytes]:
    words = Words.of(given)
    place = words.number(given.row), words.number(given.col)
    shown = [words.shown(it) for it in place]
    return answered(given, ("row", "column", "count"), [(*shown, hhm.cell(*place))],
                    lambda row: "none" if row[2] is None else str(row[2]))


def row(hhm: Client, given: argparse.Namespace) -> Iterator[bytes]:
    """A row's number of cells and their sum; of several rows those of all of them, by a range."""
    words = Words.of(given)
    spans = meant(words, given.row)
    if is_one(spans):
        entries, total = hhm.row(spans[0].first)
        name = words.shown(spans[0].first)
    else:
        entries, total, name = 0, 0, given.row
        for part in Block(spans, None).parts(hhm, given, SCAN):
            entries, total = entries + len(part.counts), total + sum(part.counts)
    return answered(given, ("row", "entries", "total"), [(name, entries, total)],
                    lambda it: f"entries {it[1]} total {it[2]}")


# What a server says of itself.


def counts(hhm: Client, given: argparse.Namespace) -> Iterator[bytes]:
    """A status, or the durable batches."""
    found = hhm.status() if given.word == "status" else hhm.stored()
    return answered(given, Status._fields, [found], lambda it: "batches %d total %d" % it)


def stats(hhm: Client, given: argparse.Namespace) -> Iterator[bytes]:
    """The lines as they came, on a terminal with the last failures in words; as JSON one object."""

    def told(body: bytes) -> bytes:
        stats_of(body)
        return body

    body = hhm._ask_for(request(STATS), TOLD, told)
    if given.csv:
        return answered(given, ("name", "value"), stats_of(body).items())
    if given.json:
        found = stats_of(body)
        return answered(given, tuple(found), [tuple(found.values())])
    words = failures_of(stats_of(body)) if sys.stdout.isatty() else []
    return iter([body, *(f"last {name}: {REASONS.get(why, why)}\n".encode() for name, why in words)])


def positive(word: str) -> int:
    """A number of the command line that isn't 0."""
    value = number(word)
    if value == 0:
        raise argparse.ArgumentTypeError("at least 1 is wanted")
    return value


ANSWERS = {"cell": cell, "row": row, "status": counts, "stored": counts, "top": top, "list": list_cells,
           "range": range_cells, "degrees": degrees, "stats": stats}


def add_words(asked: argparse._SubParsersAction) -> None:
    """Adds these words to the command line."""
    one = asked.add_parser("cell", help="the count of a cell, or the line `none`")
    one.add_argument("row")
    one.add_argument("col")
    row = asked.add_parser("row", help="a row's number of cells, and their sum; of a network those of all its rows")
    row.add_argument("row")
    top = asked.add_parser("top", help="the rows or columns that lead, as lines `row entries total`")
    top.add_argument("axis", choices=("rows", "cols"), help="rows, or columns, for which all cells are read")
    top.add_argument("most", type=positive, nargs="?", metavar="N", help="how many (10)")
    top.add_argument("--by", choices=BY, default="total", help="by totals of counts, or numbers of cells (total)")
    bits = "networks of so many bits in place of addresses; of IPv6 by a second number (64)"
    top.add_argument("--prefix", metavar="BITS[,BITS]", help=bits)
    cells = asked.add_parser("list", help="the cells of a row, or of a network, as lines `row column count`")
    cells.add_argument("row", help=WORD)
    block = asked.add_parser("range", help="the cells of rows and columns, as lines `row column count`")
    spread = asked.add_parser("degrees", help="how many rows have 1 cell, 2 to 3, 4 to 7 ..: lines `from to rows`")
    spread.add_argument("axis", choices=("rows", "cols"), nargs="?", default="rows", help="rows, or columns (rows)")
    for word in (top, spread):
        word.add_argument("--in", dest="within", metavar="WORD", help="only the rows, or columns, of a network or A-B")
    for word, what in ((top, "only cells of these"), (spread, "only cells of these"), (block, "the")):
        word.add_argument("--rows", metavar="WORD", help=f"{what} rows: {WORD} (all)")
        word.add_argument("--cols", metavar="WORD", help=f"{what} columns (all)")
    status = asked.add_parser("status", help="the number of accepted batches, and their total")
    durable = "the number of durable batches, which no crash takes back, and their total"
    stored = asked.add_parser("stored", help=durable)
    told = asked.add_parser("stats", help="what the server says of itself, as lines `name value`")
    for word in (cells, block):
        word.add_argument("--limit", type=positive, metavar="N", help="at most so many (all)")
    for word in (one, row, top, cells, block, spread):
        add_words_options(word)
    for word in (one, row, top, cells, block, spread, status):
        value = "asks the server that hhmc load put this value to"
        word.add_argument("--value", metavar="NAME", help=value)
    for word in (top, cells, block, spread):
        word.add_argument("--file", dest="snapshot", metavar="FILE", help="a snapshot in place of a server")
        word.add_argument("--program", metavar="FILE", default="hhm", help="the hhm that reads it (hhm)")
    for word in (one, row, top, cells, block, spread, status, stored, told):
        add_forms(word)
