#!/usr/bin/env python3
"""Runs the built program on tables of command lines and texts, and compares what it writes and how it ends.

    python3 tests/program.py PATH-TO-HHM

What is wanted was worked out by hand from docs/FORMATS.md, and never comes from the program's own output. It prints a
line for each case that fails and at the end `N passed, M failed`; the status is 1 where one fails. Linux, and nothing
but Python's own library.
"""
import os
import re
import resource
import signal
import subprocess
import sys
import tempfile
import threading
from typing import NamedTuple

from faults import bare
from snap_bytes import BANNER, BOOK, MOST, NONE, OWNED, SIZE, FirstFault, Origin, Snapshot, field, snapshot, with_byte

HERE = os.path.dirname(os.path.abspath(__file__))
SYMMETRIC = "%%MatrixMarket matrix coordinate integer symmetric\n"
SMALL = BANNER + "3 3 4\n1 1 5\n3 2 7\n1 1 2\n2 3 0\n"
SMALL_SUM = BANNER + "3 3 3\n1 1 7\n2 3 0\n3 2 7\n"

# Some text, which is not fixed: what `clap` prints.
SOME = object()


class Case(NamedTuple):
    """A run of the program: what it is given, and what is wanted of it."""

    name: str
    words: list
    text: str = ""
    output: object = ""
    error: object = ""
    status: int = 0


# Cuts change nothing of a sum: each text of a sum is summed with each of these.
CUTS = ["none", "1", "1,2,3", "4096", "4096,65536,1048576", "2,3,5,8,13,21,1099511627776"]

# A name, a text, and the canonical text of its sum.
SUMS = [
    ("a cell twice", SMALL, SMALL_SUM),
    ("no cells", BANNER + "3 3 0\n", BANNER + "3 3 0\n"),
    ("a stored zero", BANNER + "2 4 1\n2 3 0\n", BANNER + "2 4 1\n2 3 0\n"),
    (
        "cells in reverse order",
        BANNER + "3 3 6\n3 3 1\n3 2 1\n3 1 1\n2 3 1\n1 3 1\n1 2 1\n",
        BANNER + "3 3 6\n1 2 1\n1 3 1\n2 3 1\n3 1 1\n3 2 1\n3 3 1\n",
    ),
    (
        "the last place",
        f"{BANNER}{SIZE} {SIZE} 1\n{SIZE} {SIZE} 1\n",
        f"{BANNER}{SIZE} {SIZE} 1\n{SIZE} {SIZE} 1\n",
    ),
    ("symmetric", SYMMETRIC + "3 3 2\n2 1 4\n3 3 1\n", BANNER + "3 3 3\n1 2 4\n2 1 4\n3 3 1\n"),
    (
        "symmetric on both sides of the diagonal",
        SYMMETRIC + "3 3 3\n2 1 4\n1 2 3\n2 2 1\n",
        BANNER + "3 3 3\n1 2 7\n2 1 7\n2 2 1\n",
    ),
    (
        "capitals, tabs, CR LF, a plus, leading zeros and no last LF",
        "%%MATRIXMARKET MATRIX COORDINATE INTEGER GENERAL\r\n2\t2 1\r\n% note\r\n +2\t01 007",
        BANNER + "2 2 1\n2 1 7\n",
    ),
    (
        "comments and blank lines",
        "%%matrixmarket matrix coordinate unsigned-integer general \n%\n\n \t\n"
        "+2 +2 +3\n\n1 1 1\n% 9 9 9\n1 1 +1\n2 2 0\n\n",
        BANNER + "2 2 2\n1 1 2\n2 2 0\n",
    ),
    (
        "the greatest count of a cell",
        f"{BANNER}1 1 2\n1 1 {2**63}\n1 1 {2**63 - 1}\n",
        f"{BANNER}1 1 1\n1 1 {MOST}\n",
    ),
    (
        "the greatest total of two cells",
        f"{BANNER}9 9 2\n9 1 {2**63 - 1}\n1 9 {2**63}\n",
        f"{BANNER}9 9 2\n1 9 {2**63}\n9 1 {2**63 - 1}\n",
    ),
    (
        "a comment of 100,000 bytes",
        BANNER + "%" + "x" * 100_000 + "\n1 1 1\n1 1 3\n",
        BANNER + "1 1 1\n1 1 3\n",
    ),
    *[
        (f"one cell in {n:,} lines", f"{BANNER}3 3 {n}\n" + "1 1 1\n" * n, f"{BANNER}3 3 1\n1 1 {n}\n")
        for n in [4_095, 4_096, 4_097, 8_192, 8_193]
    ],
    (
        "20,000 distinct cells, last to first",
        f"{BANNER}20000 20000 20000\n" + "".join(f"{n} {20_001 - n} {n}\n" for n in range(20_000, 0, -1)),
        f"{BANNER}20000 20000 20000\n" + "".join(f"{n} {20_001 - n} {n}\n" for n in range(1, 20_001)),
    ),
]

# A text, and the fault that is told of it.
FAULTS = [
    ("", "BadBanner at line 1"),
    ("MatrixMarket\n", "BadBanner at line 1"),
    ("%%MatrixMarket matrix coordinate real general\n3 3 0\n", "Unsupported at line 1"),
    (BANNER, "BadSize at line 2"),
    (BANNER + "3 3\n", "BadSize at line 2"),
    (BANNER + "\n0 3 0\n", "BadDimension at line 3"),
    (f"{BANNER}{SIZE + 1} 3 1\n", "BadDimension at line 2"),
    (SYMMETRIC + "2 3 0\n", "NotSquare at line 2"),
    (f"{BANNER}3 3 {2**40 + 1}\n", "TooManyEntries at line 2"),
    (BANNER + "3 3 2\n1 1 5\n1 1 x\n", "BadEntry at line 4"),
    (BANNER + "3 3 1\n1 1 -0\n", "Negative at line 3"),
    (f"{BANNER}3 3 1\n1 1 {2**64}\n", "NumberTooLarge at line 3"),
    (BANNER + "3 3 1\n0 1 1\n", "IndexOutOfRange at line 3"),
    (BANNER + "3 3 1\n1 4 1\n", "IndexOutOfRange at line 3"),
    (f"{BANNER}{SIZE} {SIZE} 1\n{SIZE + 1} 1 1\n", "IndexOutOfRange at line 3"),
    (BANNER + "3 3 2\n1 1 5\n", "TooFewEntries at line 4"),
    (BANNER + "3 3 1\n1 1 5\n2 2 5\n", "ExtraText at line 4"),
    (BANNER + " " * 1_025, "LineTooLong at line 2"),
    (BANNER + " " * 1_025 + "\n3 3 0\n", "LineTooLong at line 2"),
    (f"{BANNER}3 3 9000\n" + "1 1 1\n" * 8_999 + "1 1\n", "BadEntry at line 9002"),
    # The total passes 2^64 - 1 before the fault, which is told all the same.
    (f"{BANNER}3 3 2\n1 1 {MOST}\n1 1 1\nx\n", "ExtraText at line 5"),
    (f"{BANNER}3 3 3\n1 1 {MOST}\n2 2 1\n", "TooFewEntries at line 5"),
    (f"{BANNER}3 3 9002\n1 1 {MOST}\n3 2 1\n" + "2 1 0\n" * 9_000 + "1 1 1\n", "ExtraText at line 9005"),
]

# Texts whose counts add up to more than 2^64 - 1.
TOO_LARGE = [
    ("in one cell", f"{BANNER}3 3 2\n1 1 {2**63}\n1 1 {2**63}\n"),
    ("over two cells", f"{BANNER}3 3 2\n1 1 {2**63}\n3 2 {2**63}\n"),
    ("by far", f"{BANNER}3 3 3\n1 1 {MOST}\n2 2 {MOST}\n3 3 {MOST}\n"),
    ("by one", f"{BANNER}3 3 2\n1 1 1\n3 2 {MOST}\n"),
    ("by a symmetric pair", f"{SYMMETRIC}3 3 1\n2 1 {2**63}\n"),
    ("9,000 lines later", f"{BANNER}3 3 9002\n1 1 {2**63}\n" + "2 1 0\n" * 9_000 + f"3 2 {2**63}\n"),
    ("before 5,000 lines", f"{BANNER}3 3 5002\n1 1 {2**63}\n3 2 {2**63}\n" + "2 1 0\n" * 5_000),
]

# Lists of cuts that are taken.
GOOD_CUTS = ["0001", "00000000000000000001,2", "1,2,3,4,5,6,7", str(2**40)]

# Words that are no list: no number, or one above 2^64 - 1.
NO_LISTS = [
    "", ",", "1,", ",1", "1,,2", "1, 2", "1;2", "+1", "-1", "-0", "1,-2", "1,+2", " 1", "1 ", "1_0", "1.0", "0x1",
    "1e3", "\u0661", "None", "NONE", "none,1", "1,none", "none ", str(2**64), f"1,{2**64}", "9" * 20, "0" * 21,
    "0" * 20 + "1", "0,x",
]  # fmt: skip

# Lists that are no cuts: a number outside 1 to 2^40, numbers that don't rise, or more than seven.
BAD_CUTS = ["0", "0,1", str(2**40 + 1), f"1,{2**40 + 1}", "4,4", "5,4", "1,2,3,4,5,6,7,8", str(MOST), "0" * 20]

ONE = [(7, 1, [(0, 0, 5)])]
TWO = [(7, 1, [(0, 0, 5), (2, 1, 0)]), (8, 1, [(0, 0, 3), (0, 2, 4)])]
FAR = [(1, 1, [(SIZE - 1, SIZE - 1, MOST)])]
MANY = [(1, n, [(n, col, 1) for col in range(1_000)]) for n in range(10)]

# A snapshot, and the line of it.
SNAPSHOTS = [
    (snapshot(ONE, 5), "rows 3 cols 3 shards 2 batches 1 total 5 entries 1"),
    (snapshot(TWO, 12), "rows 3 cols 3 shards 2 batches 2 total 12 entries 3"),
    (snapshot([], 0), "rows 3 cols 3 shards 2 batches 0 total 0 entries 0"),
    (snapshot([(9, 1, [])], 0), "rows 3 cols 3 shards 2 batches 1 total 0 entries 0"),
    (
        snapshot(FAR, MOST, SIZE, SIZE, (1, 2, 3, 4, 5, 6, 2**40), 64, MOST, 1_000_000),
        f"rows {SIZE} cols {SIZE} shards 64 batches 1 total {MOST} entries 1",
    ),
    (
        snapshot(MANY, 10_000, 10, 1_000, (), 1, 10_000),
        "rows 10 cols 1000 shards 1 batches 10 total 10000 entries 10000",
    ),
    (
        snapshot([(1, n, MANY[0][2]) for n in range(10)], 10_000, 10, 1_000, (), 1, 10_000),
        "rows 10 cols 1000 shards 1 batches 10 total 10000 entries 1000",
    ),
]

# The same in versions 2 to 4: with nothing folded, one folded batch alone, and one with another batch after it.
for version in (2, 3, 4):
    SNAPSHOTS += [
        (snapshot(ONE, 5, past=NONE, version=version), "rows 3 cols 3 shards 2 batches 1 total 5 entries 1"),
        (snapshot(TWO, 12, past=NONE, version=version), "rows 3 cols 3 shards 2 batches 2 total 12 entries 3"),
        (
            snapshot([], 5, past=([(7, 1, 1, 5)], [(0, 0, 5)]), version=version),
            "rows 3 cols 3 shards 2 batches 1 total 5 entries 1",
        ),
        (
            snapshot([], 0, past=([(9, 1, 0, 0)], []), version=version),
            "rows 3 cols 3 shards 2 batches 1 total 0 entries 0",
        ),
        (
            snapshot(ONE, 14, past=([(7, 2, 2, 5), (8, 1, 1, 4)], [(0, 0, 7), (2, 1, 2)]), version=version),
            "rows 3 cols 3 shards 2 batches 3 total 14 entries 2",
        ),
    ]

# The most batches of versions 3 and 4.
SNAPSHOTS += [
    (snapshot(ONE, 5, most=most, past=NONE, version=version), "rows 3 cols 3 shards 2 batches 1 total 5 entries 1")
    for version, most in ((3, 1_000_000), (4, 2**30))
]

# In version 4, books and windows of any number, with a log and without.
SNAPSHOTS += [
    (snapshot(ONE, 5, past=NONE, origin=origin), "rows 3 cols 3 shards 2 batches 1 total 5 entries 1")
    for origin in (OWNED, Origin(BOOK, 0, 1), Origin(2**128 - 1, 1, 1), Origin(1, MOST - 1))
]

# The snapshot of which each bit is flipped by itself.
FLIPPED = snapshot([(7, 1, [(0, 0, 5)]), (7, 3, [(0, 1, 0), (2, 2, 4)])], 9, past=NONE)
assert 8 * len(FLIPPED) == 2_040  # as docs/DEFINITIONS.md says

# Bytes that are no snapshot, and the fault that is told of them.
NO_SNAPSHOTS = [
    (b"", "Truncated"),
    (SMALL.encode(), "BadMark"),
    (snapshot(ONE, 5)[:-1], "Truncated"),
    (snapshot(ONE, 5) + b"\0", "ExtraBytes"),
    (snapshot(ONE, 5).replace(b"HHMSNAP\n", b"HHMSNAP\r"), "BadMark"),
    (b"HHMSNAP\n" + field(2, 4), "Truncated"),
    (b"HHMSNAP\n" + field(3, 4), "Truncated"),
    (b"HHMSNAP\n" + field(4, 4), "Truncated"),
    (b"HHMSNAP\n" + field(5, 4), "BadVersion"),
    (b"HHMSNAP\n" + field(0, 4), "BadVersion"),
    (snapshot(ONE, 5, rows=0), "BadHead"),
    (snapshot(ONE, 5, cuts=(4, 4)), "BadHead"),
    (snapshot(ONE, 5, limit=4), "BadHead"),
    (snapshot(ONE, 5, most=0), "BadHead"),
    (snapshot(ONE, 5, most=1_000_001), "BadHead"),
    (snapshot(ONE, 6), "TotalDiffers"),
    (snapshot(ONE, 4), "TotalDiffers"),
    (snapshot([], 1) + b"\0", "TotalDiffers"),
    (snapshot([(7, 1, [(3, 0, 5)])], 5), "BadBatch"),
    (snapshot([(7, 1, [(0, 3, 5)])], 5), "BadBatch"),
    (snapshot([(7, 1, [(0, 1, 2), (0, 0, 3)])], 5), "OutOfOrder"),
    (snapshot([(7, 1, [(0, 0, 2), (0, 0, 3)])], 5), "OutOfOrder"),
    (snapshot(ONE + ONE, 10), "RepeatedNumber"),
    (snapshot([(7, 1, [])], 0, count=2), "Truncated"),
]

# One folded batch of total 5, and its base.
FIVE = ([(7, 1, 1, 5)], [(0, 0, 5)])

# The same of version 4: of the folded entries, of the base, of the batches after them, and of the checksums. The
# bytes before a wrong checksum are judged before it.
NO_SNAPSHOTS += [
    (snapshot(ONE, 5, past=NONE)[:-1], "Truncated"),
    (snapshot(ONE, 5, past=NONE) + b"\0", "ExtraBytes"),
    (snapshot([], 5, past=FIVE) + b"\0", "ExtraBytes"),
    (snapshot([], 5, past=FIVE, most=1, count=1), "BadHead"),
    (snapshot([], 5, past=FIVE, most=1_000_001, version=3), "BadHead"),
    (snapshot([], 5, past=FIVE, most=2**30 + 1), "BadHead"),
    (snapshot([], 5, past=([(7, 1, 1, 3), (7, 1, 1, 2)], [(0, 0, 5)])), "RepeatedNumber"),
    (snapshot(ONE, 10, past=FIVE), "RepeatedNumber"),
    (snapshot([], 4, past=FIVE), "TotalDiffers"),
    (snapshot([], 6, past=FIVE), "TotalDiffers"),
    (snapshot([], 5, past=([(7, 1, 1, 5)], [(0, 0, 4)])), "TotalDiffers"),
    (snapshot([], 50, past=([(7, 1, 1, 5)], [(0, 0, 6)])), "TotalDiffers"),
    (snapshot([], 5, past=([(7, 1, 1, 5)], [])), "TotalDiffers"),
    (snapshot([], 5, past=([], [(0, 0, 5)])), "BadBatch"),
    (snapshot([], 5, past=([], [(0, 0, 5)]))[:-24], "BadBatch"),
    (snapshot([], 5, past=([(7, 1, 1, 5)], [(3, 0, 5)])), "BadBatch"),
    (snapshot([], 5, past=([(7, 1, 1, 5)], [(0, 3, 5)])), "BadBatch"),
    (snapshot([], 5, past=([(7, 1, 2, 5)], [(0, 1, 2), (0, 1, 3)])), "OutOfOrder"),
    (snapshot(ONE, 5, past=NONE)[:106] + b"\0", "BadCheck"),
    (snapshot(ONE, 5, past=NONE)[:126], "Truncated"),
    (snapshot(ONE, 5, past=NONE)[:-1] + b"\0", "BadCheck"),
    (snapshot(ONE, 5, past=NONE)[:-1] + b"\0\0", "BadCheck"),
    (snapshot([(7, 1, [(0, 1, 5)])], 5, past=NONE)[:-4] + snapshot(ONE, 5, past=NONE)[-4:], "BadCheck"),
    (snapshot(ONE, 5, past=NONE)[:-5] + b"\6" + snapshot(ONE, 5, past=NONE)[-4:], "TotalDiffers"),
    (snapshot(ONE, 5, past=NONE, version=2)[:-1], "Truncated"),
    (snapshot([], 5, past=FIVE, version=2) + b"\0", "ExtraBytes"),
    (snapshot(ONE, 5, past=NONE, version=3)[:81] + b"\0", "BadCheck"),
    (snapshot([], 5, past=FIVE, version=3) + b"\0", "ExtraBytes"),
]

# Whose a file is: bytes 78 to 93 are its book, then 8 of its window and one of its log, and then the head's checksum.
OWNED_ONE = snapshot(ONE, 5, past=NONE, origin=OWNED)
NO_SNAPSHOTS += [
    (snapshot(ONE, 5, past=NONE, origin=Origin(log=2)), "BadHead"),
    (with_byte(OWNED_ONE, 102, 255), "BadHead"),
    (with_byte(OWNED_ONE, 102, 1), "BadCheck"),
    (with_byte(OWNED_ONE, 78, 1), "BadCheck"),
    (with_byte(OWNED_ONE, 93, 0), "BadCheck"),
    (with_byte(OWNED_ONE, 94, 0), "BadCheck"),
    (with_byte(OWNED_ONE, 101, 0), "BadCheck"),
    # A total above the limit comes before the log's byte, and that before a checksum that isn't there.
    (snapshot(ONE, 5, limit=4, past=NONE, origin=Origin(log=2)), "BadHead"),
    (snapshot(ONE, 5, past=NONE, origin=Origin(log=2))[:103], "BadHead"),
    (OWNED_ONE[:102], "Truncated"),
    (OWNED_ONE[:103], "Truncated"),
    # The checksums of one file in another, and a file of one version that says another.
    (OWNED_ONE[:103] + snapshot(ONE, 5, past=NONE)[103:], "BadCheck"),
    (with_byte(snapshot(ONE, 5, past=NONE, version=3), 11, 4), "BadCheck"),
    (with_byte(OWNED_ONE, 11, 3), "BadCheck"),
]

# Command lines that are not read.
NO_COMMANDS = [
    [],
    ["sun"],
    ["sum", ""],
    ["sum", "--cuts"],
    ["sum", "--cuts", "1", "--cuts", "2"],
    ["sum", "--cut", "1"],
    ["check"],
    ["check", "a", ""],
    ["check", "a", "b", "--log", "c"],
    ["check", "--cuts", "1", "a"],
    ["export"],
    ["export", "--compact", "a"],
    ["export", "a", ""],
    ["export", "--cuts", "1", "a"],
    ["fold"],
    ["fold", "a", "b"],
    ["fold", "--workers", "1", "a"],
    ["fold", "--cuts", "1", "--cuts", "2", "a"],
    ["check", ""],
    ["export", ""],
    ["fold", ""],
]


def refused(name, cuts, text, fault, status):
    """A sum that writes nothing but the line of its fault."""
    return Case(name, ["sum", f"--cuts={cuts}"], text, error=f"hhm: {fault}\n", status=status)


def table():
    """All cases of the tables above."""
    for name, text, output in SUMS:
        yield Case(f"{name}, default cuts", ["sum"], text, output)
        for cuts in CUTS:
            yield Case(f"{name}, cuts {cuts}", ["sum", "--cuts", cuts], text, output)
    for text, fault in FAULTS:
        for cuts in CUTS[:4]:
            yield refused(f"{fault}, cuts {cuts}", cuts, text, f"text: {fault}", 3)
    for name, text in TOO_LARGE:
        for cuts in CUTS:
            yield refused(f"too large {name}, cuts {cuts}", cuts, text, "sum: SumTooLarge", 3)
    for word in GOOD_CUTS:
        yield Case(f"cuts {word}", ["sum", f"--cuts={word}"], SMALL, SMALL_SUM)
    for word in NO_LISTS:
        yield refused(f"cuts {word!r}", word, SMALL, "settings: BadNumber", 2)
    for word in BAD_CUTS:
        yield refused(f"cuts {word!r}", word, SMALL, "settings: BadCuts", 2)
    for words in NO_COMMANDS:
        yield Case(f"hhm {' '.join(words)}", words, error=SOME, status=2)
    yield Case("an argument that isn't UTF-8", ["sum", b"--cuts=\xff"], error=SOME, status=2)
    for words in [["--help"], ["sum", "--help"], ["check", "--help"], ["export", "--help"]]:
        yield Case(f"hhm {' '.join(words)}", words, output=SOME)
    yield Case("hhm --version", ["--version"], output="hhm 0.1.0\n")


def differences(case, output, error, status):
    """What is not as the case wants it."""
    for what, wanted, found in [("output", case.output, output), ("error", case.error, error)]:
        if wanted is SOME:
            if not found:
                yield f"no {what}"
        elif found != wanted.encode() and bare(found) != wanted.encode():
            yield f"{what} {found[:200]!r} in place of {wanted[:200]!r}"
    if status != case.status:
        yield f"status {status} in place of {case.status}"


def run(program, case, **how):
    """Runs a case, with other devices where `how` names them, and gives what is wrong."""
    how.setdefault("stdout", subprocess.PIPE)
    if "stdin" not in how:
        how["input"] = case.text.encode()
    ended = subprocess.run([program, *case.words], stderr=subprocess.PIPE, timeout=60, **how)
    output = how["stdout"]
    if output == subprocess.PIPE:
        written = ended.stdout
    else:
        output.seek(0)
        written = output.read()
    return list(differences(case, written, ended.stderr, ended.returncode))


def a_folder_as_input(program):
    folder = os.open(HERE, os.O_RDONLY)
    try:
        for case in [
            refused("a folder as standard input", "1", "", "text: Read at line 1", 4),
            # Cuts are judged before anything is read.
            refused("bad cuts and a folder as standard input", "0", "", "settings: BadCuts", 2),
        ]:
            yield case.name, run(program, case, stdin=folder)
    finally:
        os.close(folder)


def leave_room(room):
    """In a new process: lets files grow to so many bytes."""
    signal.signal(signal.SIGXFSZ, signal.SIG_IGN)
    resource.setrlimit(resource.RLIMIT_FSIZE, (room, room))


def an_output_that_fails(program):
    """Closed, and with room for so many bytes."""
    none = Case("a closed standard output", ["sum"], SMALL, error="hhm: output failed after 0 bytes\n", status=4)
    for case in [none, none._replace(name="the version on a closed standard output", words=["--version"])]:
        with tempfile.TemporaryFile() as output:
            yield case.name, run(program, case, stdout=output, preexec_fn=lambda: os.close(1))
    long = f"{BANNER}5000 1 5000\n" + "".join(f"{n} 1 {n}\n" for n in range(1, 5_001))
    for text, output, room in [
        (SMALL, SMALL_SUM, 0),
        (SMALL, SMALL_SUM, 50),
        (long, long, 16_384),
        (long, long, 40_000),
    ]:
        error = f"hhm: output failed after {room} bytes\n"
        case = Case(f"room for {room} of {len(output)} bytes", ["sum"], text, output[:room], error, 4)

        with tempfile.TemporaryFile() as file:
            yield case.name, run(program, case, stdout=file, preexec_fn=lambda room=room: leave_room(room))


def an_input_that_is_closed(program):
    """It can't be read, whichever outputs are closed beside it, and no file of the sum takes its place."""
    with tempfile.TemporaryDirectory() as folder:
        path = os.path.join(folder, "file")
        with open(path, "w") as file:
            file.write(SMALL)
        for words, place in [(["sum"], ""), (["sum", path, "-"], " of -"), (["sum", "-", path], " of -")]:
            for closed in [(0,), (0, 1), (0, 2), (0, 1, 2)]:
                error = "" if 2 in closed else f"hhm: text: Read at line 1{place}\n"
                case = Case(f"{words[1:]} without {closed}", words, error=error, status=4)
                yield case.name, run(program, case, preexec_fn=lambda closed=closed: [os.close(it) for it in closed])


def an_input_that_stays_open(program):
    """A fault is told once its place was read, whatever may follow."""
    text = BANNER + "3 3 9\n0 1 1\n"
    case = refused("a fault in an input that stays open", "1", text, "text: IndexOutOfRange at line 3", 3)
    given, giving = os.pipe()
    try:
        os.write(giving, text.encode())
        yield case.name, run(program, case, stdin=given)
    finally:
        os.close(given)
        os.close(giving)


def a_limit_of_memory(program):
    """With 24 MiB of addresses a small text is summed, and a million cells in as many rows are not."""

    def with_little_memory():
        resource.setrlimit(resource.RLIMIT_AS, (24 << 20, 24 << 20))

    cells = f"{BANNER}1000000 1000000 1000000\n" + "".join(f"{n} {n} 1\n" for n in range(1, 1_000_001))
    for case in [
        Case("a small text with little memory", ["sum"], SMALL, SMALL_SUM),
        refused("a million cells with little memory", "4096", cells, "memory", 5),
    ]:
        yield case.name, run(program, case, preexec_fn=with_little_memory)


def checked(name, path, fault, status, word="check"):
    """A check, or an export, that writes nothing but the line of its fault."""
    return Case(name, [word, path], error=f"hhm: {fault}\n", status=status)


def exported(program, path, held):
    """What is wrong with the export of a snapshot. A line says where it goes with a log, which isn't read."""
    found = Snapshot(held)
    lacks = f"hhm: {path} goes with a log: batches after it may be missing\n" if found.origin.log else ""
    return run(program, Case("", ["export", path], output=found.text(), error=lacks))


def snapshots(program):
    """Files that are snapshots, files that aren't, and paths that are no files."""
    with tempfile.TemporaryDirectory() as folder:
        path = os.path.join(folder, "file")
        for held, line in SNAPSHOTS:
            with open(path, "wb") as file:
                file.write(held)
            yield f"check: {line}", run(program, Case("", ["check", path], output=line + "\n"))
            yield f"export: {line}", exported(program, path, held)
        for held, fault in NO_SNAPSHOTS:
            with open(path, "wb") as file:
                file.write(held)
            yield f"check: {fault}, {len(held)} bytes", run(program, checked("", path, f"snapshot: {fault}", 3))
            case = checked("", path, f"snapshot: {fault}", 3, "export")
            yield f"export: {fault}, {len(held)} bytes", run(program, case)
        fifo = os.path.join(folder, "fifo")
        os.mkfifo(fifo)
        for case in [
            checked("check of nothing", os.path.join(folder, "nothing"), "file: NotFound", 4),
            checked("check in no folder", os.path.join(folder, "no", "file"), "file: NotFound", 4),
            checked("check below a file", os.path.join(path, "file"), "file: OpenFailed", 4),
            checked("check of a folder", folder, "snapshot: Read", 4),
            checked("check of a FIFO", fifo, "file: OpenFailed", 4),
            checked("check of /dev/zero", "/dev/zero", "file: OpenFailed", 4),
            checked("check of /dev/null", "/dev/null", "file: OpenFailed", 4),
        ]:
            yield case.name, run(program, case)
            for word in ("export", "fold"):
                again = case._replace(name=case.name.replace("check", word), words=[word, *case.words[1:]])
                yield again.name, run(program, again)
        if os.getuid() != 0:
            os.chmod(path, 0)
            case = checked("check without permission", path, "file: OpenFailed", 4)
            yield case.name, run(program, case)
            os.chmod(path, 0o600)
        with open(path, "wb") as file:
            file.write(snapshot(ONE, 5))
        case = Case("check on a closed output", ["check", path], error="hhm: output failed after 0 bytes\n", status=4)
        with tempfile.TemporaryFile() as output:
            yield case.name, run(program, case, stdout=output, preexec_fn=lambda: os.close(1))


def exports(program):
    """The text of the sum of a snapshot's batches, and outputs that don't take it."""
    with tempfile.TemporaryDirectory() as folder:
        path = os.path.join(folder, "file")
        with open(path, "wb") as file:
            file.write(snapshot([(7, 1, [(0, 0, 5), (2, 1, 1)]), (8, 1, [(0, 0, 3), (1, 2, 0)])], 9))
        text = BANNER + "3 3 3\n1 1 8\n2 3 0\n3 2 1\n"
        yield "export of two batches", run(program, Case("", ["export", path], output=text))
        # What comes out is the sum of itself.
        yield "the sum of an export", run(program, Case("", ["sum"], text, text))
        case = Case("", ["export", path], error="hhm: output failed after 0 bytes\n", status=4)
        with tempfile.TemporaryFile() as output:
            yield "export on a closed output", run(program, case, stdout=output, preexec_fn=lambda: os.close(1))
        error = "hhm: output failed after 50 bytes\n"
        case = Case("", ["export", path], output=text[:50], error=error, status=4)
        with tempfile.TemporaryFile() as file:
            yield "export with room for 50 bytes", run(program, case, stdout=file, preexec_fn=lambda: leave_room(50))


def folded_file(program, path, held, line, wanted):
    """What is wrong with folding a snapshot: the line that is written, and the bytes that it leaves."""
    with open(path, "wb") as file:
        file.write(held)
    return run(program, Case("", ["fold", path], output=line)) + unlike(path, wanted)


# A snapshot, the line of its folding, and the snapshot that this leaves.
FOLDS = [
    (snapshot(ONE, 5), "folded 1 total 5", snapshot([], 5, past=FIVE)),
    (snapshot(ONE, 5, past=NONE), "folded 1 total 5", snapshot([], 5, past=FIVE)),
    (snapshot([], 5, past=FIVE), "folded 1 total 5", snapshot([], 5, past=FIVE)),
    # Older versions are written as version 4; who a file belongs to, and its log, stay.
    *[
        (held, "folded 1 total 5", snapshot([], 5, past=FIVE))
        for version in (2, 3)
        for held in (snapshot(ONE, 5, past=NONE, version=version), snapshot([], 5, past=FIVE, version=version))
    ],
    *[
        (held, "folded 1 total 5", snapshot([], 5, past=FIVE, origin=origin))
        for origin in (OWNED, Origin(BOOK, 7, 1), Origin(0, 0, 1))
        for held in (snapshot(ONE, 5, past=NONE, origin=origin), snapshot([], 5, past=FIVE, origin=origin))
    ],
    (snapshot([], 0), "folded 0 total 0", snapshot([], 0, past=NONE)),
    (
        snapshot(TWO, 12),
        "folded 2 total 12",
        snapshot([], 12, past=([(7, 1, 2, 5), (8, 1, 2, 7)], [(0, 0, 8), (0, 2, 4), (2, 1, 0)])),
    ),
    (
        snapshot(TWO, 17, past=([(8, 2, 1, 5)], [(0, 0, 5)])),
        "folded 3 total 17",
        snapshot([], 17, past=([(8, 2, 1, 5), (7, 1, 2, 5), (8, 1, 2, 7)], [(0, 0, 13), (0, 2, 4), (2, 1, 0)])),
    ),
]  # fmt: skip


def folds(program):
    """Snapshots that are folded, and what is left where the new file or the line of it is not taken."""
    with tempfile.TemporaryDirectory() as folder:
        path = os.path.join(folder, "file")
        for held, line, wanted in FOLDS:
            yield f"fold: {line}, {len(held)} bytes", folded_file(program, path, held, line + "\n", wanted)
        folded = snapshot([], 5, past=FIVE)
        wrong = []
        for end in range(len(folded)):
            with open(path, "wb") as file:
                file.write(folded[:end])
            wrong += run(program, checked(f"front of {end} bytes", path, "snapshot: Truncated", 3))
        yield "each front of a folded snapshot", wrong
        with open(path, "wb") as file:
            file.write(snapshot(ONE, 5))
        case = checked("fold with room for 50 bytes", path, "file: Write", 4, "fold")
        wrong = run(program, case, preexec_fn=lambda: leave_room(50)) + unlike(path, snapshot(ONE, 5))
        yield case.name, wrong + left_beside(folder)
        case = checked("fold of nothing leaves no lock", os.path.join(folder, "nothing"), "file: NotFound", 4, "fold")
        yield case.name, run(program, case) + left_beside(folder)
        case = checked("fold on a closed output", path, "output failed after 0 bytes", 4, "fold")
        with tempfile.TemporaryFile() as output:
            wrong = run(program, case, stdout=output, preexec_fn=lambda: os.close(1))
        yield case.name, wrong + unlike(path, folded)


def left_beside(folder):
    """What is wrong with the files of a folder in which `file` was folded: its lock stays, and nothing else."""
    found = sorted(os.listdir(folder))
    return [] if found == ["file", "file.lock"] else [f"the folder has {found}"]


def unlike(path, wanted):
    """What is wrong with the bytes of a file."""
    with open(path, "rb") as file:
        found = file.read()
    return [] if found == wanted else [f"{path} has {found.hex()} in place of {wanted.hex()}"]


def flipped_bits(program):
    """Each bit of a snapshot flipped by itself: the format's first fault, which there always is."""
    with tempfile.TemporaryDirectory() as folder:
        path = os.path.join(folder, "file")
        for name, places in Snapshot(FLIPPED).fields:
            wrong = []
            for bit in range(8 * places.start, 8 * places.stop):
                held = bytearray(FLIPPED)
                held[bit // 8] ^= 1 << bit % 8
                with open(path, "wb") as file:
                    file.write(held)
                try:
                    wrong.append(f"bit {bit} leaves the snapshot {Snapshot(held).line()}")
                except FirstFault as fault:
                    case = checked("", path, f"snapshot: {fault}", 3)
                    wrong += [f"bit {bit}: {what}" for what in run(program, case)]
            yield f"a flipped bit of {name} at byte {places.start}", wrong


# Texts of one size in files, and the sums of the first two, of the last two and of all.
FILES = {
    "a": BANNER + "3 3 2\n1 1 5\n3 2 7\n",
    "b": SYMMETRIC + "3 3 2\n2 1 4\n1 1 1\n",
    "c": BANNER + "3 3 1\n2 3 0\n",
    # Too large with the first, and with itself.
    "most": f"{BANNER}3 3 1\n3 3 {MOST}\n",
    "entry": BANNER + "3 3 2\n1 1 5\n3 4 7\n",
    "banner": "3 3 2\n",
    "short": BANNER + "3 3 2\n1 1 5\n",
    "empty": "",
    "rows": BANNER + "4 3 1\n4 1 1\n",
    "columns": BANNER + "3 2 1\n1 1 1\n",
    "both": BANNER + "3 4 1\n1 4 1\n1 1 1\n",
}
AB = BANNER + "3 3 4\n1 1 6\n1 2 4\n2 1 4\n3 2 7\n"
BC = BANNER + "3 3 4\n1 1 1\n1 2 4\n2 1 4\n2 3 0\n"
ABC = BANNER + "3 3 5\n1 1 6\n1 2 4\n2 1 4\n2 3 0\n3 2 7\n"

# Names, the text on standard input, and the sum.
SUMS_OF_FILES = [
    (["a"], "", FILES["a"]),
    (["a", "b"], "", AB),
    (["b", "a"], "", AB),
    (["a", "b", "c"], "", ABC),
    (["c", "a", "b"], "", ABC),
    (["-"], FILES["a"], FILES["a"]),
    (["-", "b"], FILES["a"], AB),
    (["a", "-"], FILES["b"], AB),
    (["a", "-", "c"], FILES["b"], ABC),
    (["b", "-"], FILES["c"], BC),
    (["--", "b", "c"], "", BC),
    (["c", "c", "c"], "", FILES["c"]),
    (["most"], "", FILES["most"]),
    (["most", "c"], "", f"{BANNER}3 3 2\n2 3 0\n3 3 {MOST}\n"),
]

# A name whose text can't be summed beside others of 3 rows and columns, what is told of it, and the status.
IN_FILES = [
    ("entry", "text: IndexOutOfRange at line 4 of entry", 3),
    ("banner", "text: BadBanner at line 1 of banner", 3),
    ("short", "text: TooFewEntries at line 4 of short", 3),
    ("empty", "text: BadBanner at line 1 of empty", 3),
    ("nowhere", "file: NotFound in nowhere", 4),
    ("a/b", "file: OpenFailed in a/b", 4),
    ("folder", "text: Read at line 1 of folder", 4),
]

# Names, and the fault that is told of the first or of all.
FAULTS_OF_FILES = [
    (["a", "rows"], "text: DimensionsDiffer in rows", 3),
    (["a", "columns"], "text: DimensionsDiffer in columns", 3),
    (["rows", "a", "columns"], "text: DimensionsDiffer in a", 3),
    (["a", "b", "rows"], "text: DimensionsDiffer in rows", 3),
    (["a", "rows", "entry"], "text: DimensionsDiffer in rows", 3),
    # A text's own faults come before its dimensions.
    (["a", "both"], "text: ExtraText at line 4 of both", 3),
    (["entry", "banner"], "text: IndexOutOfRange at line 4 of entry", 3),
    (["nowhere", "entry"], "file: NotFound in nowhere", 4),
    (["entry", "nowhere"], "text: IndexOutOfRange at line 4 of entry", 3),
    (["a", "most"], "sum: SumTooLarge", 3),
    (["most", "most"], "sum: SumTooLarge", 3),
    (["c", "most", "a"], "sum: SumTooLarge", 3),
    # Every fault of a text comes before the total.
    (["most", "a", "entry"], "text: IndexOutOfRange at line 4 of entry", 3),
    (["most", "a", "rows"], "text: DimensionsDiffer in rows", 3),
    (["most", "a", "nowhere"], "file: NotFound in nowhere", 4),
]


def sums_of_files(program):
    """Texts in one, two and three files and on standard input, and faults in each place."""
    with tempfile.TemporaryDirectory() as folder:
        os.mkdir(os.path.join(folder, "folder"))
        for name, text in FILES.items():
            with open(os.path.join(folder, name), "w", encoding="ascii", newline="") as file:
                file.write(text)
        for case in cases_of_files():
            yield case.name, run(program, case, cwd=folder)
        yield "a FIFO", a_fifo(program, folder)
        names = ["c"] * 1_000
        case = Case("a thousand files with room for 8 open ones", ["sum", *names], output=FILES["c"])
        yield case.name, run(program, case, cwd=folder, preexec_fn=leave_few_files)


def cases_of_files():
    for names, text, output in SUMS_OF_FILES:
        for cuts in ["none", "1,2", "4096"]:
            yield Case(f"sum of {' '.join(names)}, cuts {cuts}", ["sum", "--cuts", cuts, *names], text, output)
    for name, fault, status in IN_FILES:
        for names in [[name], [name, "a"], ["a", name], [name, "a", "b"], ["a", name, "b"], ["a", "b", name]]:
            yield Case(f"sum of {' '.join(names)}", ["sum", *names], error=f"hhm: {fault}\n", status=status)
    for names, fault, status in FAULTS_OF_FILES:
        yield Case(f"sum of {' '.join(names)}", ["sum", *names], error=f"hhm: {fault}\n", status=status)
    for names, place in [([], ""), (["-"], ""), (["-", "a"], " of -"), (["a", "-", "b"], " of -")]:
        error = f"hhm: text: IndexOutOfRange at line 4{place}\n"
        yield Case(f"a fault on standard input, {names}", ["sum", *names], FILES["entry"], error=error, status=3)
    twice = "hhm: text: BadBanner at line 1 of -\n"
    yield Case("standard input twice", ["sum", "-", "-"], FILES["a"], error=twice, status=3)
    for cuts, fault in [("0", "BadCuts"), ("x", "BadNumber")]:
        words = ["sum", "--cuts", cuts, "nowhere"]
        yield Case(f"cuts {cuts} before files", words, error=f"hhm: settings: {fault}\n", status=2)


def a_fifo(program, folder):
    """What is wrong with a sum of a FIFO, as a shell's `<(..)` is one."""
    path = os.path.join(folder, "fifo")
    os.mkfifo(path)

    def write():
        with open(path, "w", encoding="ascii") as fifo:
            fifo.write(FILES["b"])

    writer = threading.Thread(target=write)
    writer.start()
    try:
        return run(program, Case("", ["sum", "a", "fifo"], output=AB), cwd=folder)
    finally:
        # Where the program never opened it, this lets the writer go on.
        os.close(os.open(path, os.O_RDONLY | os.O_NONBLOCK))
        writer.join()


def leave_few_files():
    """In a new process: lets it have 8 files open."""
    resource.setrlimit(resource.RLIMIT_NOFILE, (8, 8))


def the_example(program):
    """The example of README.md: what is below its command there is what the program writes."""
    with open(os.path.join(HERE, "..", "README.md"), encoding="utf-8") as readme:
        blocks = readme.read().split("```\n")[1::2]
    command = "$ hhm sum < packets.mtx\n"
    wanted = next((block.partition(command)[2] for block in blocks if command in block), "no block with a text")
    case = Case("the example of README.md", ["sum"], "", wanted)
    with open(os.path.join(HERE, "..", "examples", "packets.mtx"), "rb") as text:
        yield case.name, run(program, case, stdin=text)


def clauses_of_settings():
    """The clauses of `AreGiven`, what is said of the setting of each option: by its name the options that it names."""
    with open(os.path.join(HERE, "..", "crates", "hhm", "specs", "Given.antt"), encoding="utf-8") as file:
        spec = file.read()
    clauses = {}
    for record in ("AreNumbersGiven", "AreGiven"):
        body = re.search(rf"^pub record {record} .*?where\n(.*?)(?=\n\n|\Z)", spec, re.M | re.S)[1]
        for clause in re.split(r"^  pub ", body, flags=re.M)[1:]:
            name = clause.partition(" :")[0].replace("_", "-")
            clauses[name] = set(re.findall(r'codes "([a-z-]+)"', clause))
    # All numbers of a setup, whose own clauses are there too.
    del clauses["numbers"]
    return clauses


def a_clause_for_each_option(program):
    """Each option of `serve` has its clause, which says what its setting is, and names no other option."""
    told = subprocess.run([program, "serve", "--help"], stdout=subprocess.PIPE, check=True, text=True).stdout
    options = set(re.findall(r"^ {6}--([a-z-]+)", told, re.M))
    clauses = clauses_of_settings()
    wrong = [f"--{name} has no clause" for name in sorted(options - set(clauses))]
    wrong += [f"no option --{name} goes with a clause" for name in sorted(set(clauses) - options)]
    wrong += [f"the clause {name} names {sorted(named)}" for name, named in clauses.items() if named != {name}]
    if len(options) < 20:
        wrong.append(f"serve has {len(options)} options")
    yield "a clause for each option of serve", wrong


DEVICES = [
    a_clause_for_each_option, a_folder_as_input, an_output_that_fails, an_input_that_is_closed,
    an_input_that_stays_open, a_limit_of_memory, snapshots, exports, folds, sums_of_files, flipped_bits, the_example,
]  # fmt: skip


def results(program):
    """The name of each case, and what is wrong with it."""
    for case in table():
        yield case.name, run(program, case)
    for device in DEVICES:
        yield from device(program)


def main():
    if len(sys.argv) != 2:
        print(__doc__.strip())
        sys.exit(2)
    passed = failed = 0
    for name, wrong in results(os.path.abspath(sys.argv[1])):
        passed, failed = passed + (not wrong), failed + bool(wrong)
        if wrong:
            print(f"FAILED {name}: {'; '.join(wrong)}")
    print(f"{passed} passed, {failed} failed")
    sys.exit(1 if failed else 0)


if __name__ == "__main__":
    main()
