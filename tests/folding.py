#!/usr/bin/env python3
"""Starts the built program so that it folds what was accepted while it serves, and compares all that it answers.

    python3 tests/folding.py PATH-TO-HHM [--measure CELLS [RATE [PLACES]]]

Each server with a low `--fold-above` is fed, asked, saved, killed, stopped and started again. What is wanted is what a
plain dictionary says of the same batches: folding changes no answer. That a server has folded is seen in its snapshot,
which tells how many batches are folded, and in its stats. Others fold where a client asks for it: alone, beside puts,
saves and other folds, with a log and without. With `--measure` nothing is compared: so many cells, of which few are
distinct (400,000, or PLACES), go to a server that folds and to one that doesn't, as fast as they are taken (RATE 0) or
RATE cells a second, and the memory, the time, the longest wait and the processor time of each are printed.

It prints a line for each check that fails and at the end `N passed, M failed`; the status is 1 where one fails. Linux,
and nothing but Python's own library, the client of clients/python and the server of tests/server.py.
"""
import contextlib
import os
import random
import signal
import struct
import sys
import tempfile
import threading
import time

import server as servers
from generated import FOLD, SAVE, added_up, spelled
from hhm_client import Refused, put_cells_frame
from server import Server, check, program

ROWS, COLS = 400, 50
SIZE = ["--rows", str(ROWS), "--cols", str(COLS), "--cuts", "64,4096", "--shards", "3"]
BATCHES, CELLS = 200, 100
ROUNDS = 12
# What a measured stream has: cells in a batch, and, where nothing else is said, places that are distinct.
BATCH, PLACES = 10_000, 400_000


def cells_of(number, count=CELLS):
    """The cells of a batch: some places far more often than others, and counts of 0 too."""
    draw = random.Random(number)
    return [(int(ROWS * draw.random() ** 3), draw.randrange(COLS), draw.randrange(5)) for _ in range(count)]


def sum_of(batches):
    """The sum of many batches' cells."""
    return added_up({place: total for place, total in sums_of(cells).items()} for cells in batches)


def sums_of(cells):
    sums = {}
    for row, col, count in cells:
        sums[row, col] = sums.get((row, col), 0) + count
    return sums


def total_of(batches):
    return sum(count for cells in batches for _, _, count in cells)


def folded_in(path):
    """How many batches of a snapshot aren't folded, and how many are."""
    with open(path, "rb") as file:
        data = file.read()
    # After the mark, the version, the dimensions and the cuts: shards, limit, most batches, batches, total, book, window,
    # log, a check.
    at = 29 + 8 * data[28]
    _, _, _, rest, _, folded = struct.unpack_from(">BQQQQ29xQ", data, at)
    return rest, folded


def past_in(path):
    """What a snapshot without other batches says of folded ones: their entries, and the cells of their sum."""
    with open(path, "rb") as file:
        data = file.read()
    return data[29 + 8 * data[28] + struct.calcsize(">BQQQQ29x") : -4]


def past_of(batches):
    """The same of batches of client 7, by number: entries, and cells by row and then by column."""
    sums = sum_of(batches)
    entries = [(7, number, len(sums_of(cells)), total_of([cells])) for number, cells in enumerate(batches)]
    cells = [(*place, sums[place]) for place in sorted(sums)]
    parts = [struct.pack(">Q", len(entries)), *(struct.pack(">4Q", *entry) for entry in entries)]
    return b"".join([*parts, struct.pack(">Q", len(cells)), *(struct.pack(">3Q", *cell) for cell in cells)])


def fed(server, batches, first=0):
    """Puts the batches from a number on, and compares what each is answered."""
    total = total_of(batches[:first])
    with server.client(client=7) as hhm:
        for number, cells in list(enumerate(batches))[first:]:
            total += total_of([cells])
            check(f"batch {number}", tuple(hhm.put(number, cells)), (number, total))


def asked(name, server, batches):
    """Compares a status, cells, rows and an export with what the batches say, and puts some of them again."""
    sums, total = sum_of(batches), total_of(batches)
    with server.client(client=7) as hhm:
        check(f"{name}: status", tuple(hhm.status()), (len(batches), total))
        for place in [*list(sums)[::97], (ROWS - 1, COLS - 1)]:
            check(f"{name}: cell {place}", hhm.cell(*place), sums.get(place))
        for row in range(0, ROWS, 37):
            counts = [count for place, count in sums.items() if place[0] == row]
            check(f"{name}: row {row}", tuple(hhm.row(row)), (len(counts), sum(counts)))
        check(f"{name}: export", bytes(hhm.export()), spelled(ROWS, COLS, sums))
        for number in range(0, len(batches), 31):
            before = total_of(batches[: number + 1])
            check(f"{name}: {number} again", tuple(hhm.put(number, batches[number])), (number, before))
            other = [*batches[number], (0, 0, 1)]
            try:
                answer = hhm.put(number, other)
            except Refused as refused:
                answer = refused.code
            check(f"{name}: other cells under {number}", answer, 30)


def entries_line(batches):
    """The line of `hhm check`."""
    return (f"rows {ROWS} cols {COLS} shards 3 batches {len(batches)} total {total_of(batches)} "
            f"entries {len(sum_of(batches))}\n")  # fmt: skip


def answers_are_as_without(name, more, logged):
    """A server is fed 200 batches of 100 cells, asked, saved, stopped, started and asked again."""
    batches = [cells_of(number) for number in range(BATCHES)]
    path = os.path.join(servers.FOLDER, name)
    words = [*SIZE, *more, "--snapshot", path, *(["--log", path + ".log"] if logged else [])]
    with Server(words) as server:
        fed(server, batches)
        asked(name, server, batches)
        with server.client() as hhm:
            check(f"{name}: save", hhm.save(), BATCHES)
        rest, folded = folded_in(path)
        check(f"{name}: batches of the snapshot", rest + folded, BATCHES)
        check(f"{name}: some are folded", folded > 0, "0" not in more)
        check(f"{name}: check of the file", program("check", path), (entries_line(batches), "", 0))
        server.stop(name, BATCHES, total_of(batches))
    check(f"{name}: check at the end", program("check", path), (entries_line(batches), "", 0))
    with Server(words) as server:
        asked(f"{name}, started again", server, batches)
        more_batches = [*batches, *(cells_of(number) for number in range(BATCHES, BATCHES + 50))]
        fed(server, more_batches, BATCHES)
        asked(f"{name}, fed again", server, more_batches)
        server.stop(name, len(more_batches), total_of(more_batches))
    text = program("export", path, *(["--log", path + ".log"] if logged else []))
    check(f"{name}: the text", text, (spelled(ROWS, COLS, sum_of(more_batches)).decode(), "", 0))


def told(hhm, *names):
    """Some numbers that a server tells of itself."""
    stats = hhm.stats()
    return tuple(stats[name] for name in names)


def told_at_last(hhm, wanted, *names):
    """What is told once it is as wanted, or ten seconds have passed: a reply is counted behind its write."""
    end = time.monotonic() + 10
    while (found := told(hhm, *names)) != wanted and time.monotonic() < end:
        time.sleep(0.01)
    return found


def folds_when_asked(name, more, logged):
    """A server folds all that it has each time it is asked, and that is no save."""
    batches = [cells_of(number) for number in range(BATCHES)]
    path = os.path.join(servers.FOLDER, name)
    words = [*SIZE, *more, "--snapshot", path, *(["--log", path + ".log"] if logged else [])]
    numbers = ["batches", "folded", "saves_total", "failed_saves_total", 'frames_total{kind="fold"}']
    with Server(words) as server:
        with server.client() as hhm:
            check(f"{name}: a fold of nothing", hhm.fold(), 0)
        fed(server, batches[:150])
        with server.client() as hhm:
            check(f"{name}: 150 are folded", hhm.fold(), 150)
            check(f"{name}: it is told", told(hhm, *numbers), (150, 150, 0, 0, 2))
        asked(name, server, batches[:150])
        fed(server, batches, 150)
        with server.client() as hhm:
            check(f"{name}: all are folded", [hhm.fold(), hhm.fold()], [BATCHES, BATCHES])
            check(f"{name}: save", hhm.save(), BATCHES)
            check(f"{name}: a fold behind it", hhm.fold(), BATCHES)
            check(f"{name}: all is told", told(hhm, *numbers, "saved_batches"), (BATCHES, BATCHES, 1, 0, 5, BATCHES))
        check(f"{name}: the snapshot", folded_in(path), (0, BATCHES))
        asked(f"{name}, folded", server, batches)
        server.stop(name, BATCHES, total_of(batches))
    check(f"{name}: check at the end", program("check", path), (entries_line(batches), "", 0))
    with Server(words) as server:
        asked(f"{name}, started again", server, batches)
        with server.client() as hhm:
            check(f"{name}: folded again", hhm.fold(), BATCHES)
        server.stop(name, BATCHES, total_of(batches))


def files_have_cells_by_row():
    """What is folded over several shards stands in the file by row, and servers of other numbers of shards read it."""
    batches = [cells_of(number) for number in range(20)]
    path, wanted = os.path.join(servers.FOLDER, "by-row"), past_of(batches)
    for shards in [3, 1, 64, 2]:
        with Server([*SIZE[:-1], str(shards), "--fold-above", "0", "--snapshot", path]) as server:
            if shards == 3:
                fed(server, batches)
            with server.client() as hhm:
                check(f"{shards} shards: all are folded", hhm.fold(), len(batches))
                check(f"{shards} shards: save", hhm.save(), len(batches))
            asked(f"{shards} shards", server, batches)
            server.stop(f"{shards} shards", len(batches), total_of(batches))
        check(f"{shards} shards: what is folded in the file", past_in(path).hex(), wanted.hex())


def folds_are_told_from_saves():
    """Folds and saves that are sent together: each is counted as what it is, whatever is asked before it."""
    path = os.path.join(servers.FOLDER, "together")
    put = put_cells_frame(7, 0, cells_of(0))
    asked_for, replies = [put] * 70 + [FOLD, SAVE, SAVE, put, FOLD, FOLD, SAVE, FOLD], []
    with Server([*SIZE, "--snapshot", path, "--fold-above", "0"]) as server:
        with server.link() as link, link.makefile("rb") as stream:
            link.sendall(b"".join(asked_for))
            for _ in asked_for:
                size, kind = struct.unpack(">IB", stream.read(5))
                replies.append((kind, stream.read(size)))
        first, one = (0x81, struct.pack(">QQ", 0, total_of([cells_of(0)]))), (0x86, struct.pack(">Q", 1))
        check("together: replies", replies, [first] * 70 + [one] * 3 + [first] + [one] * 4)
        with server.client() as hhm:
            names = ["saves_total", 'frames_total{kind="fold"}']
            check("together: told", told_at_last(hhm, (3, 4), *names), (3, 4))
        server.stop("together", 1, total_of([cells_of(0)]))


def fold_until(server, ended, seen):
    """Folds again and again, and notes how many batches were folded each time."""
    with server.client() as hhm:
        while not ended.is_set():
            seen.append(hhm.fold())


def save_until(server, ended, seen):
    """The same of saves."""
    with server.client() as hhm:
        while not ended.is_set():
            seen.append(hhm.save())


def folds_beside_others(name, more, logged):
    """Two clients fold, one saves and one puts: what is folded and saved only rises, and holds what was put before."""
    batches = [cells_of(number) for number in range(BATCHES)]
    path = os.path.join(servers.FOLDER, name)
    words = [*SIZE, *more, "--workers", "5", "--snapshot", path, *(["--log", path + ".log"] if logged else [])]
    ended, seen = threading.Event(), [[], [], []]
    with Server(words) as server:
        threads = [threading.Thread(target=does, args=(server, ended, numbers))
                   for does, numbers in zip([fold_until, fold_until, save_until], seen)]  # fmt: skip
        for thread in threads:
            thread.start()
        fed(server, batches)
        ended.set()
        for thread in threads:
            thread.join()
        for numbers in seen:
            check(f"{name}: numbers rise", numbers, sorted(numbers))
            check(f"{name}: there are some", 0 < len(numbers) and numbers[-1] <= BATCHES, True)
        with server.client() as hhm:
            check(f"{name}: all are folded", hhm.fold(), BATCHES)
            saved = (len(seen[2]),)
            check(f"{name}: each save is told, and no fold", told_at_last(hhm, saved, "saves_total"), saved)
        asked(name, server, batches)
        server.stop(name, BATCHES, total_of(batches))
    check(f"{name}: the snapshot", folded_in(path), (0, BATCHES))
    check(f"{name}: check at the end", program("check", path), (entries_line(batches), "", 0))


def numbers_are_refused():
    """Words that are no number of cells."""
    for word in ["", "x", "-1", "18446744073709551616"]:
        line = program("serve", *SIZE, "--unix", os.path.join(servers.FOLDER, "no"), f"--fold-above={word}")
        check(f"--fold-above={word}", line, ("", "hhm: settings: BadNumber\n", 2))


def ask(link, stream, frame):
    """What is answered to a frame: its kind and its body."""
    link.sendall(frame)
    size, kind = struct.unpack(">IB", stream.read(5))
    return kind, stream.read(size)


def put_until_killed(server, numbers, answered):
    """Puts until the connection breaks, and notes the place and the total that each batch was answered."""
    with contextlib.suppress(OSError, struct.error), server.link() as link, link.makefile("rb") as stream:
        for number in numbers:
            kind, body = ask(link, stream, put_cells_frame(7, number, cells_of(number)))
            answered[number] = struct.unpack(">QQ", body) if kind == 0x81 else (kind, body)


def save_until_killed(server, saved):
    """Saves until the connection breaks, and notes how many batches each save had, or how it was refused."""
    with contextlib.suppress(OSError, struct.error), server.link() as link, link.makefile("rb") as stream:
        while True:
            kind, body = ask(link, stream, SAVE)
            saved.append(struct.unpack(">Q", body)[0] if kind == 0x86 else body.hex())


def kills_lose_nothing(logged):
    """Servers are killed at drawn moments amid folds and saves, and begin again with all that was promised."""
    name = "killed with a log" if logged else "killed"
    draw = random.Random(name)
    path = os.path.join(servers.FOLDER, name.replace(" ", "-"))
    words = [*SIZE, "--snapshot", path, "--fold-above", "300", *(["--log", path + ".log"] if logged else [])]
    told, count = {}, 0
    for life in range(ROUNDS):
        answered, saved = {}, []
        with Server(words) as server:
            threads = [threading.Thread(target=put_until_killed, args=(server, range(count, 10**6), answered)),
                       threading.Thread(target=save_until_killed, args=(server, saved))]  # fmt: skip
            for thread in threads:
                thread.start()
            time.sleep(draw.uniform(0.05, 0.6))
            server.process.send_signal(signal.SIGKILL)
            for thread in threads:
                thread.join()
        told.update(answered)
        check(f"{name}, life {life}: each save ended well", [it for it in saved if isinstance(it, str)], [])
        least = max([*(it for it in saved if isinstance(it, int)), count, *(number + 1 for number in answered if logged)])
        with Server(words) as server:
            with server.client() as hhm:
                count = hhm.status().batches
            check(f"{name}, life {life}: what was promised is there", least <= count, True)
            asked(f"{name}, life {life}", server, [cells_of(number) for number in range(count)])
            server.process.send_signal(signal.SIGKILL)
        wrong = {number: place for number, (place, _) in told.items() if number < count and place != number}
        check(f"{name}, life {life}: places", wrong, {})


def memory_when_quiet(server):
    """The memory of a server that has nothing to do, once it has let go of what it doesn't need, in MB."""
    least = server.memory()
    for _ in range(20):
        time.sleep(0.1)
        least = min(least, server.memory())
    return least / 1e6


def readers_keep_no_old_base():
    """After folds, with nothing more put, a server has little more memory than one that starts from its snapshot.

    All 600,000 cells are put twice, and folded each time. What readers were shown before has 29 MB that nobody needs:
    the old base, and as many cells that went into the new one. The C library gives back what is let go of.
    """
    path = os.path.join(servers.FOLDER, "quiet")
    words = ["--rows", str(1 << 32), "--cols", str(1 << 32), "--fold-above", "0", "--snapshot", path]
    back = {**os.environ, "MALLOC_TRIM_THRESHOLD_": "131072", "MALLOC_MMAP_THRESHOLD_": "65536"}
    draw = random.Random(79)
    cells = [[(draw.randrange(1 << 32), draw.randrange(1 << 32), 1) for _ in range(BATCH)] for _ in range(60)]
    with Server(words, env=back) as server:
        for turn in range(2):
            put_frames(server, (put_cells_frame(turn, at, it) for at, it in enumerate(cells)), 0, [])
            with server.client() as hhm:
                check("quiet: all are folded", hhm.fold(), 60 * (turn + 1))
        used = memory_when_quiet(server)
        server.stop("quiet", 120, 2 * 60 * BATCH)
    with Server(words, env=back) as server:
        began = memory_when_quiet(server)
        server.stop("quiet, again", 120, 2 * 60 * BATCH)
    check(f"quiet: {used:.0f} MB after folds, {began:.0f} after a start", used < began + 18, True)


def frames_of(cells, count):
    """Frames of a stream that has so many places."""
    draw = random.Random(cells)
    places = [(draw.randrange(1 << 32), draw.randrange(1 << 32)) for _ in range(count)]
    for number in range(cells // BATCH):
        yield put_cells_frame(number % 2, number, [(*place, 1) for place in draw.choices(places, k=BATCH)])


def put_frames(server, frames, pause, waits):
    """Puts frames one by one, each so long behind the last at the least, and notes how long each is waited for."""
    with server.link() as link, link.makefile("rb") as stream:
        first = time.monotonic()
        for turn, frame in enumerate(frames):
            time.sleep(max(0, first + turn * pause - time.monotonic()))
            begun = time.monotonic()
            ask(link, stream, frame)
            waits.append(time.monotonic() - begun)


def watch_memory(server, ended, seen):
    while not ended.is_set():
        seen.append(server.memory())
        time.sleep(0.05)


def processor_seconds(server):
    """The processor time that a server has used."""
    with open(f"/proc/{server.process.pid}/stat") as file:
        user, system = file.read().rsplit(")", 1)[1].split()[11:13]
    return (int(user) + int(system)) / os.sysconf("SC_CLK_TCK")


def measured(name, more, frames, rate):
    """Feeds a server over two connections, and tells how long that takes and how much memory it uses."""
    words = ["--rows", str(1 << 32), "--cols", str(1 << 32), *more]
    with Server(words) as server:
        waits, seen, ended = [], [], threading.Event()
        watcher = threading.Thread(target=watch_memory, args=(server, ended, seen))
        watcher.start()
        begun = time.monotonic()
        pause = 2 * BATCH / rate if rate else 0
        threads = [threading.Thread(target=put_frames, args=(server, frames[n::2], pause, waits)) for n in range(2)]
        for thread in threads:
            thread.start()
        for thread in threads:
            thread.join()
        seconds = time.monotonic() - begun
        ended.set()
        watcher.join()
        last, used = server.memory(), processor_seconds(server)
        with server.client() as hhm:
            total = hhm.status().total
        server.stop(name, len(frames), total)
    waits.sort()
    cells = len(frames) * BATCH
    print(f"{name}: {cells:,} cells in {seconds:.2f} s, {cells / seconds / 1e6:.2f} million a second; memory "
          f"{last / 1e6:.0f} MB at the end, {max(seen) / 1e6:.0f} MB at most; a put waited {waits[len(waits) // 2] * 1e3:.1f} "
          f"ms in the middle, {waits[len(waits) * 99 // 100] * 1e3:.1f} at 99 of 100, {waits[-1] * 1e3:.1f} at most; "
          f"processor {used:.2f} s; load {os.getloadavg()[0]:.1f}", flush=True)  # fmt: skip


def main():
    servers.PROGRAM = os.path.abspath(sys.argv[1])
    with tempfile.TemporaryDirectory() as servers.FOLDER:
        if "--measure" in sys.argv:
            cells, *more = map(int, sys.argv[sys.argv.index("--measure") + 1 :])
            rate, places = (*more, *(0, PLACES)[len(more) :])
            frames = list(frames_of(cells, places))
            for above in [0, 1_000_000, 4_194_304]:
                measured(f"fold above {above}", ["--fold-above", str(above)], frames, rate)
            return 0
        numbers_are_refused()
        answers_are_as_without("never-folded", ["--fold-above", "0"], logged=False)
        answers_are_as_without("folded", ["--fold-above", "1000"], logged=False)
        answers_are_as_without("folded-with-a-log", ["--fold-above", "1000"], logged=True)
        folds_when_asked("asked", ["--fold-above", "0"], logged=False)
        folds_when_asked("asked-with-a-log", ["--fold-above", "0"], logged=True)
        folds_when_asked("asked-and-of-itself", ["--fold-above", "1000"], logged=True)
        files_have_cells_by_row()
        folds_are_told_from_saves()
        folds_beside_others("beside", ["--fold-above", "0"], logged=False)
        folds_beside_others("beside-with-a-log", ["--fold-above", "500"], logged=True)
        kills_lose_nothing(logged=False)
        kills_lose_nothing(logged=True)
        readers_keep_no_old_base()
    print(f"{servers.passed} passed, {servers.failed} failed")
    return 1 if servers.failed else 0


if __name__ == "__main__":
    sys.exit(main())
