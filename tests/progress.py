#!/usr/bin/env python3
"""Runs the built program with a terminal for its standard error, and compares how it says how far the reading has come.

    python3 tests/progress.py PATH-TO-HHM

What is wanted was worked out by hand from docs/FORMATS.md. It prints a line for each check that fails and at the end
`N passed, M failed`; the status is 1 where one fails. Linux, and nothing but Python's own library.
"""
import array
import contextlib
import os
import pty
import re
import signal
import struct
import subprocess
import sys
import tempfile
import threading
import time

import program
import server
from server import check

WAIT = 60

# The line, written over the one before, and what takes it away.
LINE = r"\rhhm: (\d+) MB read, about (\d+) entries, (\d+) a second\x1b\[K"
CLEAR = "\r\x1b[K"

# The cells of a snapshot whose reading can be stopped in its middle.
CELLS = 1_000_000

# A busy machine lets a process read all of it before anyone can stop it: then it runs again, this often at most.
TRIES = 10


class Run:
    """The program with a terminal for its standard error, of which all is kept that comes."""

    def __init__(self, words, **how):
        self.shown = b""
        self.master, terminal = pty.openpty()
        self.process = subprocess.Popen([server.PROGRAM, *words], stdout=subprocess.PIPE, stderr=terminal, **how)
        os.close(terminal)
        self.reader = threading.Thread(target=self.read)
        self.reader.start()

    def read(self):
        # The end of a terminal is a fault of reading.
        with contextlib.suppress(OSError):
            while more := os.read(self.master, 65536):
                self.shown += more

    def end(self, text=None):
        """What it has written to standard output and to the terminal, and its status."""
        try:
            output, _ = self.process.communicate(text, timeout=WAIT)
        finally:
            self.process.kill()
            self.reader.join(WAIT)
            os.close(self.master)
        return output, self.shown.decode(), self.process.returncode


def lines_of(name, shown, rest=""):
    """The numbers of each line that was shown; each but the first took the place of one, and none is left."""
    found = re.fullmatch(f"((?:{LINE})+){re.escape(CLEAR + rest)}", shown)
    check(f"{name}: what is shown", (found is not None, shown), (True, shown))
    return [tuple(map(int, it)) for it in re.findall(LINE, shown)]


def text_of(entries):
    lines = b"".join(b"%d 1 1\n" % n for n in range(1, entries + 1))
    return (program.BANNER + f"1000000 1 {entries}\n").encode(), lines


def sums_are_shown():
    """A text of which half comes, and the rest more than a second later, as two pieces: at each one the line is due."""
    head, lines = text_of(300_000)
    half = lines.index(b"\n200000 1 1\n") + 1
    late = lines[half:].index(b"\n") + 1 + half
    run = Run(["sum"], stdin=subprocess.PIPE)
    for piece in [head + lines[:half], lines[half:late]]:
        run.process.stdin.write(piece)
        run.process.stdin.flush()
        time.sleep(1.2)
    output, shown, status = run.end(lines[late:])
    check("sum: the end", (output == head + lines, status), (True, 0))
    told = lines_of("sum", shown)
    check("sum: how many lines", len(told) >= 2, True)
    # Two lines before the entries, and 200,000 entries.
    check("sum: the first", told[:1], [((len(head) + late) // 1_000_000, 200_002, 200_002)])
    check("sum: entries rise", told == sorted(told, key=lambda it: it[1]), True)


def a_fault_follows():
    """A text that has a fault after the line was shown: the line is taken away first."""
    head, lines = text_of(10)
    run = Run(["sum"], stdin=subprocess.PIPE)
    run.process.stdin.write(head)
    run.process.stdin.flush()
    time.sleep(1.2)
    run.process.stdin.write(lines[:-1])
    run.process.stdin.flush()
    time.sleep(0.3)
    output, shown, status = run.end(b"x\n")
    check("a fault: the end", (output, status), (b"", 3))
    lines_of("a fault", shown, "hhm: text: BadEntry at line 12\r\n")


def short_sums_show_nothing():
    head, lines = text_of(10)
    run = Run(["sum"], stdin=subprocess.PIPE)
    check("a short sum", run.end(head + lines), (head + lines, "", 0))


def what_is_typed_shows_nothing():
    """A text that comes from a terminal: whoever types it sees it, and no line is written over it."""
    head, lines = text_of(10)
    typing, typed = pty.openpty()
    run = Run(["sum"], stdin=typed)
    os.close(typed)
    os.write(typing, head)
    time.sleep(1.2)
    # An end of input as a terminal has it.
    os.write(typing, lines + b"\x04")
    check("a typed text", run.end(), (head + lines, "", 0))
    os.close(typing)


def without_a_terminal_nothing_is_shown():
    """A pipe, and a file, for standard error: nothing is written to it."""
    head, lines = text_of(10)
    for name, error in [("a pipe", subprocess.PIPE), ("a file", tempfile.TemporaryFile())]:
        words = [server.PROGRAM, "sum"]
        with subprocess.Popen(words, stdin=subprocess.PIPE, stdout=subprocess.PIPE, stderr=error) as process:
            process.stdin.write(head)
            process.stdin.flush()
            time.sleep(1.2)
            output, told = process.communicate(lines, timeout=WAIT)
        if told is None:
            error.seek(0)
            told = error.read()
            error.close()
        check(f"{name}: the end", (output, told, process.returncode), (head + lines, b"", 0))


def write_snapshot(path):
    """A snapshot of version 1 with one batch of `CELLS` cells, each in a row of its own with the count 1."""
    cells = array.array("Q", bytes(8)) * (3 * CELLS)
    cells[0::3] = array.array("Q", range(CELLS))
    cells[2::3] = array.array("Q", [1]) * CELLS
    if sys.byteorder == "little":
        cells.byteswap()
    with open(path, "wb") as file:
        file.write(b"HHMSNAP\n" + struct.pack(">IQQBBQQQQ", 1, CELLS, 1, 0, 1, CELLS, 10, 1, CELLS))
        file.write(struct.pack(">QQQ", 7, 1, CELLS))
        file.write(cells.tobytes())


def place_in(process, path):
    """How many bytes of a file a process has read, which has it open; None where it hasn't."""
    folder = f"/proc/{process.pid}/fd"
    with contextlib.suppress(OSError):
        for name in os.listdir(folder):
            if os.path.realpath(os.path.join(folder, name)) == os.path.realpath(path):
                with open(f"/proc/{process.pid}/fdinfo/{name}") as info:
                    return int(info.readline().split()[1])
    return None


def stops(process, path, parts):
    """Stops a process, each time for more than a second, once it has read these parts of a file. Whether it was reading
    still."""
    size, begun = os.path.getsize(path), time.monotonic()
    while parts and process.poll() is None and time.monotonic() < begun + WAIT:
        if (place_in(process, path) or 0) > parts[0] * size:
            os.kill(process.pid, signal.SIGSTOP)
            time.sleep(1.2)
            was_reading = (place_in(process, path) or size) < size
            os.kill(process.pid, signal.SIGCONT)
            if not was_reading:
                return False
            parts = parts[1:]
    return not parts


def snapshots_are_shown():
    path = os.path.join(server.FOLDER, "snap")
    text = program.BANNER.encode() + b"%d 1 %d\n" % (CELLS, CELLS)
    text += b"".join(b"%d 1 1\n" % n for n in range(1, CELLS + 1))
    line = b"rows %d cols 1 shards 1 batches 1 total %d entries %d\n" % (CELLS, CELLS, CELLS)
    for word, wanted in [("check", line), ("export", text), ("fold", b"folded 1 total %d\n" % CELLS)]:
        for _ in range(TRIES):
            write_snapshot(path)
            run = Run([word, path])
            was_reading = stops(run.process, path, [0.1])
            output, shown, status = run.end()
            if was_reading:
                break
        check(f"{word}: it was reading", was_reading, True)
        check(f"{word}: the end", (output == wanted, status), (True, 0))
        told = lines_of(word, shown)
        check(f"{word}: about", [entries - megabytes * 10**6 // 24 < 50_000 for megabytes, entries, _ in told],
              [True] * len(told))
    run = Run(["check", os.path.join(server.FOLDER, "nothing")])
    check("no snapshot", run.end(), (b"", "hhm: file: NotFound\r\n", 4))


def a_long_load_is_told():
    """A server that loads for more than a second tells so with --events, and then that it has loaded."""
    path = os.path.join(server.FOLDER, "load")
    write_snapshot(path)
    words = [server.PROGRAM, "serve", "--unix", os.path.join(server.FOLDER, "socket"), "--rows", str(CELLS), "--cols",
             "1", "--cuts", "none", "--shards", "1", "--limit", str(CELLS), "--max-batches", "10", "--events",
             "--sessions", "0", "--snapshot", path]
    for _ in range(TRIES):
        with subprocess.Popen(words, stdout=subprocess.PIPE, stderr=subprocess.PIPE, text=True) as process:
            # Twice, since a thread of its own reports, which may begin late.
            was_reading = stops(process, path, [0.05, 0.3])
            _, error = process.communicate(timeout=WAIT)
        if was_reading:
            break
    check("a load: it was reading", was_reading, True)
    told = [re.sub(r"^\S+ | seconds=.*$", "", it) for it in error.splitlines()]
    loading = f'loading path="{path}"'
    check("a load: what is told first", told[:1], [loading])
    loaded = [it for it in told if it != loading]
    check("a load: what is told", loaded[:1], [f"loaded batches=1 total={CELLS}"])
    check("a load: the end", process.returncode, 0)


def all_are_tried():
    sums_are_shown()
    a_fault_follows()
    short_sums_show_nothing()
    what_is_typed_shows_nothing()
    without_a_terminal_nothing_is_shown()
    snapshots_are_shown()
    a_long_load_is_told()


if __name__ == "__main__":
    sys.exit(server.run_all(all_are_tried))
