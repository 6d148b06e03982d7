"""Writes a sum in the forms that other tools read: the word `export` of `hhm_client.py`.

    hhmc --unix /run/hhm/hhm.sock export > sum.mtx                   # a Matrix Market text
    hhmc --unix /run/hhm/hhm.sock export --format csv --ip > sum.csv # row,column,count
    hhmc export --file packets.snap --format parquet > sum.parquet   # a snapshot of whatever size

`npz` has the arrays of a coordinate matrix as `scipy.sparse.save_npz` writes them, and needs numpy. `parquet` and
`arrow` have the columns row, column and count, and need pyarrow.
"""
import argparse
import io
from typing import Any, Callable, Dict, Iterator, Optional

from hhm_answers import csv_lines
from hhm_blocks import run_hhm
from hhm_cells import NoSum, Source, Sum, sum_of
from hhm_client import Client, Ended
from hhm_words import Words, add_options


def source_of(hhm: Optional[Client], given: argparse.Namespace) -> Source:
    return given.snapshot if hhm is None else hhm


def csv_of(hhm: Optional[Client], given: argparse.Namespace) -> Iterator[bytes]:
    words = Words.of(given)
    cells = zip(*total_of(hhm, given).cells)
    rows = ((words.shown(row), words.shown(col), count) for row, col, count in cells)
    for text in csv_lines(("row", "column", "count"), rows):
        yield text.encode("utf-8", "surrogateescape")


def npz_of(hhm: Optional[Client], given: argparse.Namespace) -> Iterator[bytes]:
    import numpy

    total = total_of(hhm, given)
    rows, cols, counts = (numpy.frombuffer(part, dtype="u8") if len(part) else numpy.empty(0, "u8")
                          for part in total.cells)
    file = io.BytesIO()
    numpy.savez_compressed(file, row=rows.astype("i8"), col=cols.astype("i8"), data=counts,
                           shape=numpy.array([total.rows, total.cols], dtype="i8"), format=b"coo")
    yield file.getvalue()


def parquet_of(hhm: Optional[Client], given: argparse.Namespace) -> Iterator[bytes]:
    from hhm_arrow import to_arrow
    from pyarrow import parquet

    file = io.BytesIO()
    parquet.write_table(to_arrow(source_of(hhm, given), given.program), file)
    yield file.getvalue()


def arrow_of(hhm: Optional[Client], given: argparse.Namespace) -> Iterator[bytes]:
    import pyarrow
    from hhm_arrow import to_arrow

    table, file = to_arrow(source_of(hhm, given), given.program), io.BytesIO()
    with pyarrow.ipc.new_file(file, table.schema) as writer:
        writer.write_table(table)
    yield file.getvalue()


def mtx_of(hhm: Optional[Client], given: argparse.Namespace) -> Iterator[bytes]:
    """The text as the server writes it, or `hhm` of a snapshot."""
    if hhm is not None:
        yield hhm.export()
        return
    yield run_hhm(given, "export")


FORMATS: Dict[str, Callable[[Optional[Client], argparse.Namespace], Iterator[bytes]]] = {
    "mtx": mtx_of, "csv": csv_of, "npz": npz_of, "parquet": parquet_of, "arrow": arrow_of,
}


def total_of(hhm: Optional[Client], given: argparse.Namespace) -> Sum:
    return sum_of(source_of(hhm, given), given.program)


def export(hhm: Optional[Client], given: argparse.Namespace) -> Iterator[bytes]:
    """The sum in the format that is asked for. An Ended where a library isn't there, or the file can't be read."""
    if given.format != "csv" and (given.ip or given.names):
        raise Ended(2, "--ip and --names are for --format csv: the others have numbers")
    try:
        yield from FORMATS[given.format](hhm, given)
    except ImportError as fault:
        raise Ended(4, f"export --format {given.format}: {fault}") from None
    except NoSum as fault:
        raise Ended(fault.status, str(fault)) from None


def add_words(word: Any) -> None:
    """Adds the options of `export` to the command line."""
    forms = "a Matrix Market text (mtx), or csv, npz (by numpy), parquet or arrow (both by pyarrow)"
    word.add_argument("--format", choices=tuple(FORMATS), default="mtx", help=forms)
    word.add_argument("--file", dest="snapshot", metavar="FILE", help="a snapshot in place of a server")
    word.add_argument("--program", metavar="FILE", default="hhm", help="the hhm that reads it (hhm)")
    add_options(word)
