#!/usr/bin/env python3
"""The ten rows with the highest totals, by scipy: a line `row entries total` each, the highest first.

    PYTHONPATH=~/.local/lib/hhm python3 examples/top_scipy.py packets.snap

The file is a snapshot or a Matrix Market text. Rows count from 0. Numbers stay whole and of 64 bits.
"""
import sys

import numpy as np
from hhm_scipy import to_scipy

matrix, rows, cols = to_scipy(sys.argv[1])
entries = np.diff(matrix.indptr)
# Ones without a sign: numpy makes floats of uint64 and signed numbers, which rounds.
totals = matrix @ np.ones(len(cols), dtype="u8")
for place in np.lexsort((rows, ~totals))[:10]:
    print(rows[place], entries[place], totals[place])
