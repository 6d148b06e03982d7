#!/usr/bin/env python3
"""Refuses each growth, each read and each write of the built programs in turn, and judges every run.

    python3 tests/refused.py PATH-TO-HHM

A run is repeated with its first growth refused, then with its second, until one makes fewer; so with each read and
write, which fails, is interrupted, or moves a single byte. A run must end with its whole answer, or with the fault that
docs/FORMATS.md has for what was refused; never with status 0 and other output, by a signal, or not at all. So does a
server: who was told of want of memory, or was let go, asks again and is answered; a save that fails is refused; what
is saved are the accepted batches. Refusals come from a library that the clang of the toolchain makes of refuse.c, and
that is loaded before the program, so that it is the program as it is shipped.

It prints how many runs there were, a line for each that is wrong, and at the end `N passed, M failed`; the status is 1
where one fails. Linux, Python's own library and the toolchain of Rattle.
"""
import os
import re
import socket
import struct
import subprocess
import sys
import tempfile
from concurrent.futures import ThreadPoolExecutor
from typing import Callable, NamedTuple

HERE = os.path.dirname(os.path.abspath(__file__))
sys.path.insert(0, HERE)
import log_bytes  # noqa: E402
from faults import bare  # noqa: E402
from program import BANNER, NONE, snapshot  # noqa: E402
from snap_bytes import OWNED, PAIRED, FirstFault, with_book  # noqa: E402
from server import SMALL, accepted, put_frame, refused, text  # noqa: E402

EIO, EINTR = 5, 4
SECONDS = 60
# No run of these comes near so many calls of one kind: a sweep that goes on is a failure.
MAX_RUNS = 5_000

# How a run's calls are refused: the kind, and the error that they answer.
REFUSALS = {
    "a growth is refused": ("growth", 0),
    "a read or write fails": ("fault", EIO),
    "a read or write is interrupted": ("fault", EINTR),
    "a read or write moves one byte": ("short", 0),
}


class Ended(NamedTuple):
    """What a run wrote, and how it ended."""

    output: bytes
    error: bytes
    status: int


class Run(NamedTuple):
    """A run of a program: its words, its input, all that it writes, and its answer to a read that fails."""

    name: str
    words: list
    text: bytes
    output: bytes
    read_fault: str


def memory_or_all(run, ended):
    """Want of memory, or the whole answer, where what was refused could be done without."""
    return ended in (Ended(b"", b"hhm: memory\n", 5), Ended(run.output, b"", 0))


def fault_or_all(run, ended):
    """A failed read, before anything is written, or a failed write, behind what was taken."""
    if ended == Ended(run.output, b"", 0):
        return False
    if re.fullmatch(run.read_fault.encode(), ended.error):
        return ended.output == b"" and ended.status == 4
    taken = b"hhm: output failed after %d bytes\n" % len(ended.output)
    return run.output.startswith(ended.output) and ended.error == taken and ended.status == 4


def all_of_it(run, ended):
    """The whole answer: a device may move as few bytes as it likes."""
    return ended == Ended(run.output, b"", 0)


JUDGES: dict[str, Callable] = {"growth": memory_or_all, "fault": fault_or_all, "short": all_of_it}


def text_of(rows, cols, cells):
    """A text of these cells, which count from 0."""
    lines = [f"{row + 1} {col + 1} {count}\n" for row, col, count in cells]
    return (BANNER + f"{rows} {cols} {len(cells)}\n" + "".join(lines)).encode()


def summed(cells):
    """Each cell once, with its counts together, by row and then by column."""
    sums = {}
    for row, col, count in cells:
        sums[row, col] = sums.get((row, col), 0) + count
    return [(row, col, sums[row, col]) for row, col in sorted(sums)]


def spread(count, size):
    """So many cells of a matrix of this many rows and columns, in no order, some of them twice."""
    return [(7_919 * i % size, 104_729 * i % size, i % 10) for i in range(count)]


def runs(folder):
    """Sums whose layers pass their cuts, and snapshots; of each a small one, and one of more than a buffer."""
    few, many = spread(40, 11), spread(9_000, 1_000_003)
    read = r"hhm: text: Read at line [1-9][0-9]*\n"
    for name, cells, size, cuts in [
        ("sum of few cells", few, 11, "none"),
        ("sum of few cells, three cuts", few, 11, "1,4,9"),
        ("sum of many cells, two cuts", many, 1_000_003, "100,4096"),
    ]:
        given, output = text_of(size, size, cells), text_of(size, size, summed(cells))
        yield Run(name, ["sum", "--cuts", cuts], given, output, read)
        # The same of three texts, in files and on standard input.
        parts = [text_of(size, size, cells[start::3]) for start in range(3)]
        paths = [os.path.join(folder, f"{name.replace(' ', '_')}_{part}") for part in (0, 2)]
        for path, part in zip(paths, parts[::2]):
            with open(path, "wb") as file:
                file.write(part)
        words = ["sum", "--cuts", cuts, paths[0], "-", paths[1]]
        named = "|".join(re.escape(path) for path in [*paths, "-"])
        fault = rf"hhm: text: Read at line [1-9][0-9]* of ({named})\n"
        yield Run(f"{name}, three texts", words, parts[1], output, fault)
    for name, count, cells in [("check of a batch", 1, few), ("check of many batches", 400, spread(11, 11))]:
        one = summed(cells)
        total = sum(count for _, _, count in one)
        batches = [(7, number, one) for number in range(count)]
        path = os.path.join(folder, name.replace(" ", "_"))
        with open(path, "wb") as file:
            file.write(snapshot(batches, count * total, 11, 11, limit=10**9, most=1_000))
        line = f"rows 11 cols 11 shards 2 batches {count} total {count * total} entries {len(one)}\n"
        yield Run(name, ["check", path], b"", line.encode(), r"hhm: snapshot: Read\n")
    yield from logged_runs(folder)
    yield several_exported(folder)
    yield difference_exported(folder)


def several_exported(folder):
    """Three snapshots, one of them folded, as one text."""
    lists = [summed(spread(count, 11)) for count in (40, 11, 30)]
    totals = [sum(count for _, _, count in cells) for cells in lists]
    held = [
        snapshot([(7, 1, lists[0])], totals[0], 11, 11, limit=10**9),
        snapshot([], totals[1], 11, 11, limit=10**9, past=([(7, 2, len(lists[1]), totals[1])], lists[1])),
        snapshot([(8, 1, lists[2])], totals[2], 11, 11, limit=10**9, past=NONE),
    ]
    paths = [os.path.join(folder, f"several_{at}") for at in range(3)]
    for path, bytes_of_it in zip(paths, held):
        with open(path, "wb") as file:
            file.write(bytes_of_it)
    output = text_of(11, 11, summed(lists[0] + lists[1] + lists[2]))
    fault = rf"hhm: snapshot: Read in ({'|'.join(re.escape(path) for path in paths)})\n"
    return Run("export of three snapshots", ["export", *paths], b"", output, fault)


def difference_exported(folder):
    """What a snapshot has more than an earlier one, of which a part is folded."""
    lists = [summed(spread(count, 11)) for count in (40, 11, 30)]
    totals = [sum(count for _, _, count in cells) for cells in lists]
    batches = [(7, number, cells) for number, cells in enumerate(lists)]
    past = [(7, 0, len(lists[0]), totals[0])], lists[0]
    paths = [os.path.join(folder, f"minus_{name}") for name in ("new", "old")]
    for path, count in zip(paths, (3, 2)):
        with open(path, "wb") as file:
            held = snapshot(batches[1:count], sum(totals[:count]), 11, 11, limit=10**9, past=past)
            file.write(held)
    output = text_of(11, 11, [cell for cell in lists[2] if is_more(cell, lists[0] + lists[1])])
    fault = rf"hhm: snapshot: Read in ({'|'.join(re.escape(path) for path in paths)})\n"
    return Run("export of a difference", ["export", paths[0], "--minus", paths[1]], b"", output, fault)


def is_more(cell, before):
    """Whether a cell is in the difference: a count that is not 0, or a place that has no entry yet."""
    return cell[2] > 0 or cell[:2] not in {(row, col) for row, col, _ in before}


def logged_runs(folder):
    """A check and an export of a snapshot of 40 batches and a log of 60, of which it has 20."""
    setup = log_bytes.Setup(11, 11, (2, 4), 2, 10**9, 1_000)
    batches = [(7, number, summed(spread(40, 11))) for number in range(80)]
    entries = [log_bytes.entry_of(batch) for batch in batches]
    path, log_path = (os.path.join(folder, name) for name in ("beside_a_log", "log"))
    with open(path, "wb") as file:
        total = sum(entry[3] for entry in entries[:40])
        file.write(snapshot(batches[:40], total, 11, 11, limit=setup.limit, most=setup.most, past=NONE))
    logged = log_bytes.log([batches[20:50], batches[50:51], batches[51:]], entries[:20], setup)
    with open(log_path, "wb") as file:
        file.write(logged)
    output = f"{log_bytes.check_line(batches, setup)}\n{log_bytes.Log(logged).line()}\n"
    fault = r"hhm: (snapshot: Read|log: Read at page [0-9]+)\n"
    yield Run("check with a log", ["check", path, "--log", log_path], b"", output.encode(), fault)
    output = text_of(11, 11, summed([cell for _, _, cells in batches for cell in cells]))
    yield Run("export with a log", ["export", path, "--log", log_path], b"", output, fault)


class Refusing:
    """The environment of a program one of whose calls is refused, and whether there was such a call."""

    library = ""

    def __init__(self, kind, error, at):
        self.met, self.tell = os.pipe()
        which = {"LD_PRELOAD": self.library, "REFUSE_KIND": kind, "REFUSE_AT": at, "REFUSE_ERROR": error,
                 "REFUSE_TELL": self.tell}  # fmt: skip
        env = {**os.environ, **{name: str(value) for name, value in which.items()}}
        self.how = {"env": env, "pass_fds": [self.tell]}

    def was_met(self):
        """Once the program has ended."""
        os.close(self.tell)
        with open(self.met, "rb") as told:
            return told.read() != b""


def library_of(source, folder):
    """Makes the library of a source of this folder, by the clang of the toolchain, and gives its path."""
    kit = os.path.dirname(subprocess.check_output(["rt", "doc"], text=True).strip())
    tools, library = os.path.join(kit, "toolchain", "bin"), os.path.join(folder, source.replace(".c", ".so"))
    words = ["-O1", "-fPIC", "-ffreestanding", "-shared", "-nostdlib", f"--ld-path={tools}/ld.lld"]
    subprocess.run([os.path.join(tools, "clang"), *words, "-o", library, os.path.join(HERE, source)], check=True)
    return library


def build_library(folder):
    """The library that refuses a call."""
    Refusing.library = library_of("refuse.c", folder)


def refused_run(program, run, kind, error, at):
    """What the program came to with its call number `at` refused, and whether there was such a call."""
    refusing = Refusing(kind, error, at)
    try:
        done = subprocess.run(
            [program, *run.words], input=run.text, capture_output=True, timeout=SECONDS, **refusing.how
        )
        ended = Ended(done.stdout, bare(done.stderr), done.returncode)
    except subprocess.TimeoutExpired:
        ended = Ended(b"", b"it didn't end", -1)
    return ended, refusing.was_met()


def judged_run(program, run, kind, error, at):
    """What was wrong with the run whose call number `at` was refused, and whether there was such a call."""
    ended, met = refused_run(program, run, kind, error, at)
    is_right = (JUDGES[kind] if met else all_of_it)(run, ended)
    return None if is_right else ended, met


STATUS, EXPORT, SAVE, STOP, STATS, FOLD = (struct.pack(">IB", 0, kind) for kind in (4, 5, 6, 7, 12, 13))
ASKS = put_frame(7, 1, text(5)) + put_frame(8, 1, text(3)) + struct.pack(">IBQQ", 16, 2, 0, 0)
ASKS += struct.pack(">IBQ", 8, 3, 0) + STATUS + EXPORT + SAVE
SUM = text(8)
REPLIES = [
    accepted(0, 5),
    accepted(1, 8),
    struct.pack(">IBBQ", 9, 0x82, 1, 8),
    struct.pack(">IBQQ", 16, 0x83, 1, 8),
    struct.pack(">IBQQ", 16, 0x84, 2, 8),
    struct.pack(">IB", len(SUM), 0x85) + SUM,
    struct.pack(">IBQ", 8, 0x86, 2),
]
STOPPING = struct.pack(">IB", 0, 0x87)
TWO = [(7, 1, [(0, 0, 5)]), (8, 1, [(0, 0, 3)])]
SAVED, EMPTY = snapshot(TWO, 8, past=NONE, origin=OWNED), snapshot([], 0, past=NONE, origin=OWNED)


def first_of(before, has_log):
    """What may stand under a snapshot's path before a server listens: what stood there, and the file of the start."""
    held = (TWO, 8) if before == SAVED else ([], 0)
    return before, snapshot(*held, past=NONE, origin=PAIRED if has_log else OWNED)


def saved_of(has_log):
    """What a server has saved: both batches, which may be folded."""
    origin = PAIRED if has_log else OWNED
    folded = ([(7, 1, 1, 5), (8, 1, 1, 3)], [(0, 0, 8)])
    return snapshot(TWO, 8, past=NONE, origin=origin), snapshot([], 8, past=folded, origin=origin)


# The snapshot that a server starts with, whether it has a log, and above how many cells it folds.
STARTS = {
    "serve": (None, False, 0),
    "serve of a snapshot": (SAVED, False, 0),
    "serve with a log": (SAVED, True, 0),
    "serve that folds": (None, False, 1),
    "serve with a log that folds": (SAVED, True, 1),
}
# One growth is refused, so the second time is the last at which anything may be.
TRIES = 3


def talk(path, asks):
    """All that is answered to these frames, until the end."""
    answer = b""
    with socket.socket(socket.AF_UNIX) as link:
        link.settimeout(SECONDS)
        try:
            link.connect(path)
            link.sendall(asks)
            link.shutdown(socket.SHUT_WR)
            while more := link.recv(65536):
                answer += more
        except (ConnectionError, FileNotFoundError):
            pass
    return answer


def ask_until_answered(path, asks, replies):
    """Asks until all is answered: whether it was, and what was wrong with an answer, or None.

    An answer before is that to the first requests, and then want of memory, or nothing where the connection was let go.
    """
    for _ in range(TRIES):
        answer = talk(path, asks)
        if answer == b"".join(replies):
            return True, None
        fronts = [b"".join(replies[:count]) for count in range(len(replies) + 1)]
        if answer != b"" and answer not in [front + refused(1) for front in fronts]:
            return True, answer
    return False, None


def ask_for_stats(path):
    """What is wrong with the answer to a Stats, whose lines are to tell what was accepted, or None."""
    for _ in range(TRIES):
        answer = talk(path, STATS)
        if answer[4:5] == b"\x8a" and len(answer) == 5 + int.from_bytes(answer[:4], "big"):
            told = set(answer[5:].split(b"\n"))
            # (a server that folds may have folded both batches, or none)
            return None if {b"batches 2", b"total 8"} <= told and told & {b"folded 0", b"folded 2"} else answer
        if answer not in (b"", refused(1)):
            return answer
    return "no answer to a Stats"


def held_in(path):
    """The bytes of a snapshot, told by the book of the examples, if it has one; None where there is none."""
    if not os.path.exists(path):
        return None
    with open(path, "rb") as file:
        held = file.read()
    try:
        return with_book(held)
    except FirstFault as fault:
        return f"{fault}: {held}"


def judge_end(process, saved, ends, held):
    """What is wrong with the end of a server, or with its file, which is to be one of these, or None."""
    output, error = process.communicate(timeout=SECONDS)
    ended = Ended(output, bare(error), process.returncode)
    if ended not in ends:
        return ended
    found = held_in(saved)
    return None if found in held else found


NO_MEMORY = Ended(b"", b"hhm: memory\n", 5)
STOPPED = Ended(b"stopped batches 2 total 8\n", b"", 0)


def talk_to_server(process, path, saved, start):
    """What is wrong with the answers and the end of a server that listens, or None."""
    is_served, wrong = ask_until_answered(path, ASKS, REPLIES)
    if not is_served:
        # A thread that there was no memory for couldn't be started: it is told, and no batch is saved.
        ends = [NO_MEMORY, Ended(b"", b"hhm: no worker\n", 4)]
        return judge_end(process, saved, ends, first_of(start[0], start[1])[1:])
    wrong = wrong or ask_for_stats(path)
    if wrong:
        return wrong
    is_served, wrong = ask_until_answered(path, FOLD, [struct.pack(">IBQ", 8, 0x86, 2)])
    if wrong or not is_served:
        return wrong or "no answer to a Fold"
    is_served, wrong = ask_until_answered(path, STOP, [STOPPING])
    if wrong or not is_served:
        return wrong or "no answer to a Stop"
    return judge_end(process, saved, [NO_MEMORY, STOPPED], saved_of(start[1]))


def talk_to_faulty_server(process, path, saved, line):
    """The same of a server whose files or output fail once: a save that fails is refused, and the session goes on."""
    answer = talk(path, ASKS)
    is_refused = answer == b"".join(REPLIES[:-1]) + refused(42)
    if answer != b"".join(REPLIES) and not is_refused:
        return answer
    answer = talk(path, STOP)
    if answer != STOPPING:
        return answer
    ends = [STOPPED]
    if not is_refused:
        faults = [b"file: Write", b"file: Sync", b"file: Rename", b"output failed after %d bytes" % len(line)]
        ends += [Ended(b"", b"hhm: %s\n" % fault, 4) for fault in faults]
    return judge_end(process, saved, ends, saved_of(False))


def talk_to_slow_server(process, path, saved, has_log):
    """The same of a server one of whose reads or writes moves a single byte."""
    answer = talk(path, ASKS) + talk(path, STOP)
    return judge_end(process, saved, [STOPPED], saved_of(has_log)) if answer == b"".join(REPLIES) + STOPPING else answer


def judge_server(kind, process, path, saved, start):
    """What is wrong with a server of whose calls one is refused, or None."""
    line = process.stdout.readline()
    if line != f"listening unix {path}\n".encode():
        told = [b"snapshot: Read", b"output failed after 0 bytes", b"file: Write", b"file: Sync",
                b"file: Rename"]
        early = [Ended(b"", b"hhm: %s\n" % fault, 4) for fault in told]
        ends = {"growth": [NO_MEMORY], "fault": early, "short": []}
        return line or judge_end(process, saved, ends[kind], first_of(start[0], start[1]))
    if kind == "growth":
        return talk_to_server(process, path, saved, start)
    if kind == "fault":
        return talk_to_faulty_server(process, path, saved, line)
    return talk_to_slow_server(process, path, saved, start[1])


def served_run(program, folder, start, kind, error, at):
    """What was wrong with a server whose call number `at` was refused, and whether there was such a call.

    It starts with a snapshot, or with none, and has a log, or none. One that folds may have folded both batches or none.
    """
    before, has_log, fold_above = start
    path, saved = (os.path.join(folder, f"{name}{at}") for name in ("socket", "snap"))
    if before is not None:
        with open(saved, "wb") as file:
            file.write(before)
    refusing = Refusing(kind, error, at)
    words = [program, "serve", "--unix", path, "--workers", "1", "--snapshot", saved, *SMALL]
    words += ["--fold-above", str(fold_above), *(["--log", f"{saved}.log"] if has_log else [])]
    process = subprocess.Popen(words, stdout=subprocess.PIPE, stderr=subprocess.PIPE, **refusing.how)
    try:
        wrong = judge_server(kind, process, path, saved, start)
    except subprocess.TimeoutExpired:
        wrong = "it didn't end"
    finally:
        process.kill()
        process.communicate()
    return wrong, refusing.was_met()


def names_run(program, folder, at):
    """What was wrong with a server that saves twice, the sync number `at` of whose folder is refused, or None.

    The save is a failed one, and the file is the new one all the same: it had its name before the folder was synced.
    """
    path, saved = (os.path.join(folder, f"{name} {at}") for name in ("socket", "snap"))
    with open(saved, "wb") as file:
        file.write(EMPTY)
    refusing = Refusing("names", EIO, at)
    # The end saves only what came since.
    more, taken = (b"", b"") if at == 1 else (put_frame(9, 1, text(3)), accepted(2, 11))
    words = [program, "serve", "--unix", path, "--workers", "1", "--snapshot", saved, *SMALL]
    with subprocess.Popen(words, stdout=subprocess.PIPE, stderr=subprocess.PIPE, **refusing.how) as process:
        process.stdout.readline()
        answer = talk(path, ASKS)
        held = held_in(saved)
        stopping = talk(path, more + STOP)
        output, error = process.communicate(timeout=SECONDS)
    told = Ended(output, bare(error), process.returncode)
    wanted = [refused(42), STOPPED] if at == 1 else [REPLIES[-1], Ended(b"", b"hhm: file: Rename\n", 4)]
    found = [answer.removeprefix(b"".join(REPLIES[:-1])), told]
    if (found, held, stopping, refusing.was_met()) == (wanted, SAVED, taken + STOPPING, True):
        return None
    return found, held, stopping


def first_name_run(program, folder):
    """What was wrong with a first start, the sync of whose folder is refused: it doesn't listen."""
    path, saved = (os.path.join(folder, f"first {name}") for name in ("socket", "snap"))
    words = [program, "serve", "--unix", path, "--snapshot", saved, *SMALL]
    done = subprocess.run(words, capture_output=True, timeout=SECONDS, **Refusing("names", EIO, 1).how)
    found = Ended(done.stdout, bare(done.stderr), done.returncode), held_in(saved)
    return None if found == (Ended(b"", b"hhm: file: Rename\n", 4), EMPTY) else found


def names(program, folder):
    """The syncs of a folder: at a first start, behind a save that a client asked for, and behind the last one."""
    yield "the sync of a folder at the first start", first_name_run(program, folder)
    for at in (1, 2):
        yield f"the sync of a folder, number {at}", names_run(program, folder, at)


def sweep(pool, run_at):
    """The number of each run with a refusal, and what was wrong with it; the last one meets none."""
    for first in range(1, MAX_RUNS, 32):
        places = range(first, first + 32)
        for at, (wrong, met) in zip(places, pool.map(run_at, places)):
            yield at, wrong
            if not met:
                return
    yield MAX_RUNS, "the sweep doesn't end"


def sweeps(program, folder):
    """The name of each sweep, and a run of it."""
    for run in runs(folder):
        for name, (kind, error) in REFUSALS.items():
            yield f"{run.name}: {name}", lambda at, run=run, kind=kind, error=error: judged_run(
                program, run, kind, error, at
            )
    for name, start in STARTS.items():
        for what, (kind, error) in REFUSALS.items():
            if start[1] and kind == "fault":
                # server_log_faults.py has what is told then.
                continue
            within = tempfile.mkdtemp(dir=folder)
            yield f"{name}: {what}", lambda at, within=within, start=start, kind=kind, error=error: served_run(
                program, within, start, kind, error, at
            )


def main():
    if len(sys.argv) != 2:
        print(__doc__.strip())
        sys.exit(2)
    passed = failed = 0
    with tempfile.TemporaryDirectory() as folder, ThreadPoolExecutor(2 * os.cpu_count()) as pool:
        build_library(folder)
        for name, run_at in sweeps(os.path.abspath(sys.argv[1]), folder):
            before = passed + failed
            for at, wrong in sweep(pool, run_at):
                passed, failed = passed + (wrong is None), failed + (wrong is not None)
                if wrong is not None:
                    print(f"FAILED {name}, number {at}: {str(wrong)[:300]}")
            print(f"{name}: {passed + failed - before} runs")
        for name, wrong in names(os.path.abspath(sys.argv[1]), folder):
            passed, failed = passed + (wrong is None), failed + (wrong is not None)
            if wrong is not None:
                print(f"FAILED {name}: {str(wrong)[:300]}")
    print(f"{passed + failed} runs")
    print(f"{passed} passed, {failed} failed")
    sys.exit(1 if failed else 0)


if __name__ == "__main__":
    main()
