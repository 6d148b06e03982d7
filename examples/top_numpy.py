#!/usr/bin/env python3
"""The ten rows with the highest totals, by numpy: a line `row entries total` each, the highest first.

    PYTHONPATH=~/.local/lib/hhm python3 examples/top_numpy.py packets.snap

The file is a snapshot or a Matrix Market text. Rows count from 0. Numbers stay whole and of 64 bits.
"""
import sys

import numpy as np
from hhm_cells import sum_of

rows, cols, counts = (np.array(part, dtype="u8") for part in sum_of(sys.argv[1]).cells)
# The cells come by row: the numbers of the rows that have one, where each begins, and how many it has.
numbers, begins, entries = np.unique(rows, return_index=True, return_counts=True)
totals = np.add.reduceat(counts, begins) if len(counts) else counts
# By total downwards, and of equal ones the first row first: the complement of a total orders it so without a sign.
for place in np.lexsort((numbers, ~totals))[:10]:
    print(numbers[place], entries[place], totals[place])
