"""A sum as a sparse matrix of scipy, and cells of such a matrix. numpy, and scipy 1.8 or later.

    matrix, rows, cols = to_scipy("packets.snap")    # or of a Client, or of a Matrix Market text, as sum_of reads them
    totals = matrix @ np.ones(len(cols), "u8")       # of each row that has a cell; its number is in `rows`
    for number, accepted in hhm.put_all(batches(from_scipy(matrix, rows, cols))):
        ...

A sum has up to 2^60 rows and columns of which few have a cell, and scipy's matrices have a place for each row. So the
rows and columns that have a cell are numbered anew, densely and in their order: row i of the matrix is the row
`rows[i]` of the sum, and column j the column `cols[j]`. Counts stay whole numbers of 64 bits. numpy makes floats of
such a number and a signed one, which rounds: take "u8" for what they meet. What they are multiplied and added up to
must stay below 2^64, or it wraps: the total of a sum does, and so do the sums of its rows and columns.
"""
from typing import Any, Iterator, NamedTuple, Optional, Tuple

from hhm_cells import Source, sum_of
from hhm_client import MAX_CELLS, Arrays

try:
    import numpy as np
    from scipy.sparse import csr_array
except ImportError as fault:
    raise ImportError(f"{fault}: hhm_scipy needs numpy, and scipy 1.8 or later") from None


class Labelled(NamedTuple):
    """A matrix of the rows and columns that have a cell, and the number that each has in the sum."""

    matrix: csr_array
    rows: np.ndarray
    cols: np.ndarray


def to_scipy(source: Source, program: str = "hhm") -> Labelled:
    """The sum of a server or of a file, as `hhm_cells.sum_of` reads it: a csr_array of uint64, and the numbers of its
    rows and columns. A stored zero stays an entry."""
    rows, cols, counts = (np.array(part, dtype="u8") for part in sum_of(source, program).cells)
    row_numbers, begins = np.unique(rows, return_index=True)
    col_numbers, places = np.unique(cols, return_inverse=True)
    # (the cells come by row, then by column)
    parts = counts, places, np.append(begins, len(rows))
    return Labelled(csr_array(parts, shape=(len(row_numbers), len(col_numbers))), row_numbers, col_numbers)


def whole(numbers: Any) -> np.ndarray:
    """Numbers as uint64. A ValueError where one isn't whole and from 0 to 2^64 - 1, or may have been rounded."""
    numbers = np.asarray(numbers)
    if numbers.dtype.kind not in "buif":
        raise ValueError(f"whole numbers from 0 to 2^64 - 1 are wanted, and these are of {numbers.dtype}")
    if numbers.dtype.kind in "if" and numbers.size and not numbers.min() >= 0:
        raise ValueError(f"whole numbers from 0 to 2^64 - 1 are wanted, and {numbers.min()} is among these")
    if numbers.dtype.kind == "f" and numbers.size:
        most = 1 << min(53, np.finfo(numbers.dtype).nmant + 1)
        if numbers.max() > most or not np.array_equal(numbers, np.floor(numbers)):
            raise ValueError(f"floats ({numbers.dtype}) are taken where they are whole, up to {most}")
    return numbers.astype("u8")


def from_scipy(matrix: Any, rows: Optional[Any] = None, cols: Optional[Any] = None) -> Arrays:
    """The entries of a sparse matrix as cells, with the numbers of rows and columns that `to_scipy` gave, or as the
    matrix has them. Entries that are zero stay cells. A ValueError where the counts are no whole numbers."""
    entries = matrix.tocoo()
    places = []
    for labels, found, length in zip((rows, cols), (entries.row, entries.col), matrix.shape):
        if labels is not None and len(labels) != length:
            raise ValueError(f"{len(labels)} numbers for {length} rows or columns")
        places.append(found.astype("u8") if labels is None else whole(labels)[found])
    return Arrays(*places, whole(entries.data))


def batches(cells: Arrays, size: int = 100_000, first: int = 0) -> Iterator[Tuple[int, Arrays]]:
    """The cells as batches of this size, numbered from `first`, for `Client.put_all`: always the same of the same."""
    if not 1 <= size <= MAX_CELLS:
        raise ValueError(f"a batch of {size} cells: from 1 to {MAX_CELLS}")
    for number, begin in enumerate(range(0, len(cells.counts), size), first):
        yield number, Arrays(*(part[begin:begin + size] for part in cells))
