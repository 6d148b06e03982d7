#!/usr/bin/env python3
"""Asks the module hhm_scipy, for tests/bridges.py. It writes what it is answered as JSON.

    to PROGRAM PATH..        what `to_scipy` gives of each file: shape, dtype, row and column numbers, entries, row sums
    put PROGRAM PATH SOCKET  puts the cells of that into a server in batches of 7, then gives what `to_scipy` says of it
    wrong                    what `from_scipy` says of numbers that it can't take, and what it makes of others
"""
import json
import os
import sys

sys.path.insert(0, os.path.join(os.path.dirname(os.path.abspath(__file__)), "..", "..", "clients", "python"))
import numpy as np  # noqa: E402
from hhm_client import Client  # noqa: E402
from hhm_scipy import batches, from_scipy, to_scipy  # noqa: E402
from scipy.sparse import coo_array, csr_array  # noqa: E402


def told(found):
    entries = found.matrix.tocoo()
    return {
        "shape": list(found.matrix.shape), "dtype": str(found.matrix.dtype),
        "sorted": bool(found.matrix.has_sorted_indices),
        "rows": found.rows.tolist(), "cols": found.cols.tolist(),
        "entries": list(zip(entries.row.tolist(), entries.col.tolist(), entries.data.tolist())),
        "sums": (found.matrix @ np.ones(len(found.cols), "u8")).tolist(),
    }


def put(program, path, socket):
    with Client(unix=socket, client=5) as hhm:
        taken = [number for number, _ in hhm.put_all(batches(from_scipy(*to_scipy(path, program)), 7, first=3))]
        return {"numbers": taken, **told(to_scipy(hhm, program))}


def fault_of(matrix, *labels):
    try:
        return [part.tolist() for part in from_scipy(matrix, *labels)]
    except ValueError as fault:
        return str(fault)


def one(count, dtype):
    return csr_array((np.array([count], dtype=dtype), ([0], [1])), shape=(2, 2))


def wrong():
    tried = [
        fault_of(one(-1, "i8")), fault_of(one(1.5, "f8")), fault_of(one(float("nan"), "f8")),
        fault_of(one(float("inf"), "f8")), fault_of(one(2.0**53 + 2, "f8")), fault_of(one(2.0**24 + 2, "f4")),
        fault_of(one(1j, "c16")), fault_of(one(1, "u8"), [1, 2, 3]), fault_of(one(1, "u8"), [1, 2], [-1, 2]),
    ]
    taken = [
        fault_of(one(2.0**53, "f8")), fault_of(one(True, "?")), fault_of(one(2**64 - 1, "u8"), [7, 2**60 - 1], [5, 6]),
        fault_of(one(7, "i4")), fault_of(coo_array(([1, 2], ([0, 0], [1, 1])), shape=(2, 2))), fault_of(one(0, "u8")),
    ]
    return [tried, taken]


def main():
    word, *given = sys.argv[1:]
    if word == "to":
        return [told(to_scipy(path, given[0])) for path in given[1:]]
    return put(*given) if word == "put" else wrong()


if __name__ == "__main__":
    print(json.dumps(main()))
