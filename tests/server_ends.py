#!/usr/bin/env python3
"""Starts the built program as a server, and compares how it ends, how it starts after an end, and what it tells of both.

    python3 tests/server_ends.py PATH-TO-HHM

The time that sessions have after a Stop, sockets that a killed server has left, and the lines of events. What is wanted
was worked out by hand from docs/FORMATS.md. It prints a line for each check that fails and at the end `N passed, M
failed`; the status is 1 where one fails. One server is watched for a minute, beside the others. Linux, and nothing but
Python's own library.
"""
import contextlib
import os
import re
import socket
import stat
import struct
import subprocess
import sys
import threading
import time
from array import array

import program
import server
from server import SMALL, WAIT, Server, accepted, check, put_frame, refused, text
from server_faults import FOLD, SAVE, STATUS, STOP, STOPPING, asked, counts, in_folder, in_snap, is_silent, received
from server_faults import run, write
from snap_bytes import OWNED

from hhm_client import Arrays  # server has its folder on the path


def until_end(link):
    """What comes until a connection is closed or reset."""
    answer = b""
    try:
        while more := link.recv(65536):
            answer += more
    except ConnectionResetError:
        pass
    return answer


def puts_without_pause(at, unix, number, answers):
    """A client that puts a batch every 0.3 seconds for as long as it is answered."""
    with at.link(unix) as link:
        for n in range(1000):
            try:
                answer = asked(link, put_frame(number, n, text(1)), 21)
            except OSError:
                return
            if len(answer) < 21:
                return
            answers.append(answer)
            time.sleep(0.3)


def a_drain_ends_sessions(unix):
    """After a Stop clients that put go on for the time of --drain; then they, silent ones and those that wait end."""
    name, path = f"a drain, unix {unix}", in_folder("drained.snap")
    words = [*SMALL[:-4], "--limit", "1000", "--max-batches", "100", "--workers", "3", "--drain", "2"]
    with Server([*words, "--snapshot", path], tcp=not unix, unix=unix) as at:
        with at.link(unix) as silent, at.link(unix) as stopping:
            check(f"{name}: a silent one is served", asked(silent, STATUS, 21), counts(0, 0))
            check(f"{name}: the other", asked(stopping, STATUS, 21), counts(0, 0))
            answers = []
            putting = threading.Thread(target=puts_without_pause, args=(at, unix, 7, answers))
            putting.start()
            time.sleep(0.5)
            waiting = [at.link(unix) for _ in range(20)]
            for link in waiting:
                link.sendall(STATUS)
            before, begun = len(answers), time.monotonic()
            check(f"{name}: stop", asked(stopping, STOP, 5), STOPPING)
            stopping.close()
            # One of those that wait may get the worker of the Stop; it is silent then, and ends with the others.
            answered = [until_end(link) for link in waiting]
            output, error = at.process.communicate(timeout=WAIT)
            took = time.monotonic() - begun
            putting.join()
            check(f"{name}: it is in time", 1.9 < took < 5, True)
            first = counts_of(answers, answered[0]) if answered[0] else b""
            check(f"{name}: who waits isn't served", answered, [first] + [b""] * 19)
            check(f"{name}: puts went on", len(answers) > before + 3, True)
            last = f"stopped batches {len(answers)} total {len(answers)}\n"
            check(f"{name}: the end", (output, error, at.process.returncode), (last, "", 0))
            check(f"{name}: the silent one", until_end(silent), b"")
            for link in waiting:
                link.close()
    batches = [(7, n, [(0, 0, 1)]) for n in range(len(answers))]
    saved = program.snapshot(batches, len(answers), past=program.NONE, limit=1000, most=100, origin=OWNED)
    check(f"{name}: the snapshot", in_snap(path), saved)
    os.remove(path)


def counts_of(answers, got):
    """The status that was told, if it is that of some of these puts."""
    return got if got in [counts(n, n) for n in range(len(answers) + 1)] else None


def a_drain_ends_many_silent_ones():
    """75 silent connections, each of which --idle alone lets hold a worker, end together."""
    with Server([*SMALL, "--workers", "4", "--idle", "1", "--drain", "1"], tcp=False) as at:
        links = [at.link() for _ in range(75)]
        with at.link() as stopping:
            stopping.sendall(STOP)
            begun = time.monotonic()
            while time.monotonic() < begun + 0.5:
                links.append(at.link())
                time.sleep(0.02)
            for link in links[:4]:
                link.close()
            check("many silent ones: stop", received(stopping, 5), STOPPING)
        begun = time.monotonic()
        at.ends("many silent ones", 0, 0)
        check("many silent ones: soon", time.monotonic() - begun < 4, True)
        for link in links:
            link.close()


def processor_seconds(pid):
    with open(f"/proc/{pid}/stat") as file:
        fields = file.read().rpartition(") ")[2].split()
    return (int(fields[11]) + int(fields[12])) / os.sysconf("SC_CLK_TCK")


def an_end_compares_no_cells():
    """2,000,000 cells over 64 shards: to compare them in each shard took 0.7 s of a processor, the end takes 0.03."""
    size = 100_000
    cells = Arrays(array("Q", range(size)), array("Q", [0]) * size, array("Q", [1]) * size)
    with Server(["--rows", str(size), "--cols", "1", "--shards", "64"], tcp=False) as at:
        with at.client(7) as hhm:
            for number in range(20):
                hhm.put(number, cells)
            before = processor_seconds(at.process.pid)
            hhm.stop()
        _, status, used = os.wait4(at.process.pid, 0)
        at.process.returncode = os.waitstatus_to_exitcode(status)
        check("many cells: the end", at.process.stdout.read(), f"stopped batches 20 total {20 * size}\n")
        check("many cells: it takes no long", used.ru_utime + used.ru_stime - before < 0.35, True)


def without_a_drain_sessions_go_on():
    """A session that is silent for longer than it ever was holds the end, where nothing else is said."""
    for words in [[], ["--drain", "0"]]:
        with Server([*SMALL, *words], tcp=False) as at:
            with at.link() as silent, at.link() as stopping:
                check("no drain: served", asked(silent, STATUS, 21), counts(0, 0))
                check("no drain: stop", asked(stopping, STOP, 5), STOPPING)
                check("no drain: goes on", is_silent(silent, 3), True)
                check("no drain: is answered", asked(silent, put_frame(7, 1, text(5)), 21), accepted(0, 5))
            at.ends(f"no drain, {words}", 1, 5)


def a_drain_ends_a_slow_reader():
    """A client that takes an export a little at a time ends soon after the time of --drain too."""
    rows = 1 << 40
    cells = b"".join(b"%d 1 1\n" % n for n in range(1, 500_001))
    size = ["--rows", str(rows), "--cols", str(rows), "--drain", "1"]
    with Server(size, tcp=False) as at:
        with at.link() as slow, at.link() as stopping:
            held = server.BANNER + b"%d %d 500000\n" % (rows, rows) + cells
            check("a slow reader: put", asked(slow, put_frame(7, 1, held), 21), accepted(0, 500_000))
            slow.sendall(struct.pack(">IB", 0, 5))
            check("a slow reader: begins", len(received(slow, 100)), 100)
            check("a slow reader: stop", asked(stopping, STOP, 5), STOPPING)
            stopping.close()
            begun = time.monotonic()
            slow.setblocking(False)
            while at.process.poll() is None and time.monotonic() < begun + 20:
                try:
                    slow.recv(1000)
                except OSError:
                    pass
                time.sleep(0.2)
            check("a slow reader: soon", time.monotonic() - begun < 6, True)
            at.ends("a slow reader", 1, 500_000)


def killed_server(path):
    """A socket at this path as a killed server leaves it."""
    process = subprocess.Popen([server.PROGRAM, "serve", "--unix", path, *SMALL], stdout=subprocess.PIPE, text=True)
    check("a killed server: its line", process.stdout.readline(), f"listening unix {path}\n")
    process.kill()
    process.communicate()
    check("a killed server: what it leaves", stat.S_ISSOCK(os.lstat(path).st_mode), True)


def a_left_socket_is_taken():
    """A server starts where a killed one has left its socket, or another program one that nobody listens at."""

    def bound_only(path):
        with socket.socket(socket.AF_UNIX) as bound:
            bound.bind(path)

    for name, leave in [("killed", killed_server), ("bound only", bound_only)]:
        path = in_folder(f"left {name}")
        leave(path)
        process = subprocess.Popen([server.PROGRAM, "serve", "--unix", path, *SMALL], stdout=subprocess.PIPE,
                                   stderr=subprocess.PIPE, text=True)
        line = process.stdout.readline()
        check(f"{name}: its line", line, f"listening unix {path}\n")
        if line:
            with socket.socket(socket.AF_UNIX) as link:
                link.settimeout(WAIT)
                link.connect(path)
                check(f"{name}: it serves", asked(link, STATUS, 21), counts(0, 0))
                check(f"{name}: stop", asked(link, STOP, 5), STOPPING)
        output, error = process.communicate(timeout=WAIT)
        check(f"{name}: the end", (output, error, process.returncode), ("stopped batches 0 total 0\n", "", 0))
        check(f"{name}: the path is gone", os.path.lexists(path), False)


def what_is_no_left_socket_stays():
    """A file, a folder, a link to a socket that was left, one of datagrams, and servers: each is a fault, and stays."""
    left = in_folder("left behind")
    killed_server(left)
    paths = {name: in_folder(f"no {name}") for name in ["file", "folder", "link", "datagrams", "server", "full server"]}
    write(paths["file"], b"mine")
    os.mkdir(paths["folder"])
    os.symlink(left, paths["link"])
    with socket.socket(socket.AF_UNIX, socket.SOCK_DGRAM) as datagrams, socket.socket(socket.AF_UNIX) as other, \
            socket.socket(socket.AF_UNIX) as full, socket.socket(socket.AF_UNIX) as first, \
            socket.socket(socket.AF_UNIX) as second:
        datagrams.bind(paths["datagrams"])
        other.bind(paths["server"])
        other.listen(1)
        full.bind(paths["full server"])
        full.listen(0)
        for link in [first, second]:
            link.setblocking(False)
            try:
                link.connect(paths["full server"])
            except BlockingIOError:
                pass
        for name, path in paths.items():
            before = os.lstat(path)
            begun = time.monotonic()
            check(f"{name}: told", run(["--unix", path, *SMALL]), ("", f"hhm: listen failed: {path}\n", 4))
            check(f"{name}: at once", time.monotonic() - begun < 5, True)
            after = os.lstat(path)
            check(f"{name}: it stays", (after.st_ino, after.st_mode), (before.st_ino, before.st_mode))
        check("the file is whole", server.content(paths["file"]), b"mine")
    os.remove(left)


# A line of an event: the time, which isn't compared, and the rest.
LINE = re.compile(r"\d{4}-\d\d-\d\dT\d\d:\d\d:\d\dZ (.*)")
SECONDS = re.compile(r" seconds=(\d+\.\d{3})$")


def events_of(name, error):
    """The events of these lines in order, each without its time, and their seconds."""
    events, seconds = [], []
    for line in error.splitlines():
        found = LINE.fullmatch(line)
        check(f"{name}: the form of {line!r}", found is not None, True)
        event = found[1] if found else line
        took = SECONDS.search(event)
        events.append(SECONDS.sub("", event))
        seconds.append(float(took[1]) if took else None)
    return events, seconds


def told_server(words, **how):
    return Server([*SMALL, "--events", *words], tcp=False, **how)


def starts_saves_and_ends_are_told():
    """A server that begins with nothing, is saved, and starts again; and one whose saves fail."""
    path = os.path.join(server.FOLDER, "told snap")
    size = len(program.snapshot([(7, 1, [(0, 0, 5)])], 5, past=program.NONE))
    with told_server(["--snapshot", path]) as at:
        with at.link() as link:
            check("told: put", asked(link, put_frame(7, 1, text(5)), 21), accepted(0, 5))
            check("told: save", asked(link, SAVE, 13), struct.pack(">IBQ", 8, 0x86, 1))
            check("told: reused", asked(link, put_frame(7, 1, text(6)), 15), refused(30))
            check("told: reused again", asked(link, put_frame(7, 1, text(7)), 15), refused(30))
            check("told: a query out of range", asked(link, struct.pack(">IBQ", 8, 3, 3), 15), refused(41))
            check("told: stop", asked(link, STOP, 5), STOPPING)
        output, error = at.process.communicate(timeout=WAIT)
        events, _ = events_of("told", error)
        check("told: the end", (output, at.process.returncode), ("stopped batches 1 total 5\n", 0))
        saved = f"saved batches=1 bytes={size}"
        check("told: all", events, [f'no-snapshot path="{path}"', "started batches=0 total=0", saved, "stopping", saved,
                                    "stopped batches=1 total=5", "refused code=30 count=2", "refused code=41 count=1"])
    with told_server(["--snapshot", path]) as at:
        os.mkdir(path + ".new")
        with at.link() as link:
            check("told: a fold is no save", asked(link, FOLD, 13), struct.pack(">IBQ", 8, 0x86, 1))
            check("told: no save", asked(link, SAVE, 15), refused(42))
            check("told: stop again", asked(link, STOP, 5), STOPPING)
        output, error = at.process.communicate(timeout=WAIT)
        lines = error.splitlines()
        events, _ = events_of("told again", "\n".join(lines[:-1]))
        check("told again: the end", (output, lines[-1:], at.process.returncode), ("", ["hhm: file: Create"], 4))
        failed = 'save-failed file=snapshot step=Create error="Is a directory (os error 21)"'
        check("told again: all", events, ["loaded batches=1 total=5", failed, "stopping", failed,
                                          "refused code=42 count=1"])
    os.rmdir(path + ".new")
    os.remove(path)


def failed_saves_are_told():
    """The step that failed, and what the system said: a file that would be too large, and a place that is taken."""

    def a_full_folder(path, _):
        os.remove(path)
        os.makedirs(os.path.join(path, "full"))

    for name, fail, error in [
        ("Write", lambda _, process: server.limit_files(process, 50), "File too large (os error 27)"),
        ("Rename", a_full_folder, "Is a directory (os error 21)"),
    ]:
        path = in_folder(f"told {name}")
        # The signal of a file that is too large stays ignored, as Python has it.
        with told_server(["--snapshot", path], restore_signals=False) as at:
            fail(path, at.process)
            with at.link() as link:
                check(f"told {name}: no save", asked(link, SAVE, 15), refused(42))
                check(f"told {name}: stop", asked(link, STOP, 5), STOPPING)
            _, told = at.process.communicate(timeout=WAIT)
            events, _ = events_of(f"told {name}", "".join(told.splitlines(True)[:-1]))
            failed = f'save-failed file=snapshot step={name} error="{error}"'
            check(f"told {name}: all", [it for it in events if it.startswith("save-failed")], [failed, failed])


def a_want_of_workers_is_told():
    """Connections that wait are told after a second and more, and that they no longer do."""
    with told_server(["--workers", "1"]) as at:
        with at.link() as first:
            check("no worker: served", asked(first, STATUS, 21), counts(0, 0))
            waiting = [at.link() for _ in range(3)]
            time.sleep(4.5)
        for link in waiting[:2]:
            link.close()
        check("no worker: now", asked(waiting[2], STATUS, 21), counts(0, 0))
        time.sleep(2.5)
        check("no worker: stop", asked(waiting[2], STOP, 5), STOPPING)
        waiting[2].close()
        output, error = at.process.communicate(timeout=WAIT)
        events, seconds = events_of("no worker", error)
        check("no worker: all", events, ["started batches=0 total=0", "no-worker connections=3", "worker-free", "stopping",
                                         "stopped batches=0 total=0"])
        if len(events) == 5:
            check("no worker: how long", (1 <= seconds[1] < 2.5, 3 <= seconds[2] < 7), (True, True))


def short_waits_are_not_told():
    """Connections that wait for less than a second are no event."""
    with told_server(["--workers", "1"]) as at:
        for _ in range(30):
            with at.link() as first, at.link() as second:
                check("short waits: first", asked(first, STATUS, 21), counts(0, 0))
                second.sendall(STATUS)
                time.sleep(0.1)
                first.close()
                check("short waits: second", received(second, 21), counts(0, 0))
        with at.link() as link:
            check("short waits: stop", asked(link, STOP, 5), STOPPING)
        _, error = at.process.communicate(timeout=WAIT)
        check("short waits: all", events_of("short waits", error)[0],
              ["started batches=0 total=0", "stopping", "stopped batches=0 total=0"])


@contextlib.contextmanager
def refusals_are_told_each_minute():
    """Refusals by code, a minute after the start and at the end. Other servers are tried meanwhile."""
    with Server([*SMALL, "--events"], unix=False) as at, at.link(unix=False) as link:
        for _ in range(5):
            check("each minute: refused", asked(link, struct.pack(">IBQ", 8, 3, 3), 15), refused(41))
        over = time.monotonic() + 62
        yield
        time.sleep(max(0, over - time.monotonic()))
        check("each minute: refused again", asked(link, struct.pack(">IBQ", 8, 3, 3), 15), refused(41))
        check("each minute: stop", asked(link, STOP, 5), STOPPING)
        link.close()
        _, error = at.process.communicate(timeout=WAIT)
        check("each minute: all", events_of("each minute", error)[0],
              ["started batches=0 total=0", "refused code=41 count=5", "stopping", "stopped batches=0 total=0",
               "refused code=41 count=1"])


# The bytes of a pipe that was filled.
FILLER = b"\n" * 4096


def full_pipe():
    """A pipe that takes nothing more: the ends to read and to write."""
    reading, writing = os.pipe()
    os.set_blocking(writing, False)
    try:
        while True:
            os.write(writing, FILLER)
    except BlockingIOError:
        pass
    os.set_blocking(writing, True)
    os.set_blocking(reading, False)
    return reading, writing


def what_is_in(reading):
    """What is in a pipe by now, without what it was filled with."""
    held = b""
    try:
        while more := os.read(reading, 65536):
            held += more
    except BlockingIOError:
        pass
    return held.lstrip(b"\n").decode()


@contextlib.contextmanager
def unread_server(name, *words):
    """A server whose standard error takes nothing, the end of that to read, and a connection."""
    reading, writing = full_pipe()
    path = in_folder(name)
    process = subprocess.Popen([server.PROGRAM, "serve", "--unix", path, *SMALL, "--events", *words],
                               stdout=subprocess.PIPE, stderr=writing, restore_signals=False)
    os.close(writing)
    check(f"{name}: the line", process.stdout.readline(), f"listening unix {path}\n".encode())
    with socket.socket(socket.AF_UNIX) as link:
        link.settimeout(WAIT)
        link.connect(path)
        yield process, reading, link
    process.stdout.close()
    os.close(reading)


def ends_soon(name, process, status):
    """A server that was stopped ends with this status, though nobody reads. It would wait for ever, and is killed."""
    begun = time.monotonic()
    try:
        process.wait(8)
    except subprocess.TimeoutExpired:
        process.kill()
    check(f"{name}: the end", (process.wait(), time.monotonic() - begun < 6), (status, True))


def nobody_reads_events():
    """A full pipe as standard error keeps no session waiting, and the server ends, with the status of a fault too."""
    with unread_server("unread") as (process, reading, link):
        check("unread: put", asked(link, put_frame(7, 1, text(5)), 21), accepted(0, 5))
        for n in range(1000):
            check(f"unread: {n}", asked(link, put_frame(7, 1, text(6)), 15), refused(30))
        check("unread: stop", asked(link, STOP, 5), STOPPING)
        link.close()
        check("unread: the last line", process.stdout.readline(), b"stopped batches 1 total 5\n")
        ends_soon("unread", process, 0)
        check("unread: nothing was written", what_is_in(reading), "")
    path = in_folder("unread snap")
    with unread_server("unread fault", "--snapshot", path) as (process, reading, link):
        os.mkdir(path + ".new")
        check("unread fault: put", asked(link, put_frame(7, 1, text(5)), 21), accepted(0, 5))
        check("unread fault: stop", asked(link, STOP, 5), STOPPING)
        link.close()
        ends_soon("unread fault", process, 4)
        check("unread fault: nothing was written", what_is_in(reading), "")
    os.rmdir(path + ".new")


def lines_that_are_dropped_are_counted():
    """Once standard error takes lines again, it gets the number of those that were dropped, and those that follow."""
    path = in_folder("dropped snap")
    size = len(program.snapshot([(7, 1, [(0, 0, 5)])], 5, past=program.NONE))
    with unread_server("dropped", "--snapshot", path) as (process, reading, link):
        check("dropped: put", asked(link, put_frame(7, 1, text(5)), 21), accepted(0, 5))
        check("dropped: save", asked(link, SAVE, 13), struct.pack(">IBQ", 8, 0x86, 1))
        time.sleep(3.5)
        check("dropped: nothing was written", what_is_in(reading), "")
        check("dropped: stop", asked(link, STOP, 5), STOPPING)
        link.close()
        ends_soon("dropped", process, 0)
        # no-snapshot, started and saved; and loading, where the first of these had waited before the start was reported.
        lost, *events = events_of("dropped", what_is_in(reading))[0]
        check("dropped: their number", lost in ["lost events=3", "lost events=4"], True)
        check("dropped: all", events, ["stopping", f"saved batches=1 bytes={size}", "stopped batches=1 total=5"])
    os.remove(path)


def a_slow_reader_gets_each_line():
    """Lines that a pipe has no room for come whole where it is read within a second, however long they are."""
    path = in_folder("s" * 200) + "/" + "\u0301" * 90
    os.mkdir(os.path.dirname(path))
    with unread_server("slow", "--snapshot", path) as (process, reading, link):
        time.sleep(0.3)
        told, over = what_is_in(reading), time.monotonic() + 5
        while "started" not in told and time.monotonic() < over:
            time.sleep(0.05)
            told += what_is_in(reading)
        escaped = path.replace("\u0301", "\\u{301}")
        check("slow: the start", events_of("slow", told)[0],
              [f'no-snapshot path="{escaped}"', "started batches=0 total=0"])
        check("slow: stop", asked(link, STOP, 5), STOPPING)
        link.close()
        ends_soon("slow", process, 0)


def a_standard_error_that_is_gone():
    """Neither one that is closed nor a pipe that nobody can read any more keeps a server from its end."""
    for name in ["closed", "unreadable"]:
        path = in_folder(name)
        words = [server.PROGRAM, "serve", "--unix", path, *SMALL, "--events"]
        reading, writing = os.pipe()
        os.close(reading)
        how = {"preexec_fn": lambda: os.close(2)} if name == "closed" else {"stderr": writing}
        process = subprocess.Popen(words, stdout=subprocess.PIPE, **how)
        os.close(writing)
        check(f"{name}: the line", process.stdout.readline(), f"listening unix {path}\n".encode())
        with socket.socket(socket.AF_UNIX) as link:
            link.settimeout(WAIT)
            link.connect(path)
            check(f"{name}: put", asked(link, put_frame(7, 1, text(5)), 21), accepted(0, 5))
            check(f"{name}: stop", asked(link, STOP, 5), STOPPING)
        check(f"{name}: the last line", process.stdout.readline(), b"stopped batches 1 total 5\n")
        ends_soon(name, process, 0)
        process.stdout.close()


def without_the_option_nothing_is_told():
    with Server(SMALL, tcp=False) as at:
        with at.link() as link:
            check("untold: refused", asked(link, struct.pack(">IBQ", 8, 3, 3), 15), refused(41))
            check("untold: stop", asked(link, STOP, 5), STOPPING)
        at.ends("untold", 0, 0)


def all_are_tried():
    with refusals_are_told_each_minute():
        for unix in [True, False]:
            a_drain_ends_sessions(unix)
        a_drain_ends_many_silent_ones()
        a_drain_ends_a_slow_reader()
        an_end_compares_no_cells()
        without_a_drain_sessions_go_on()
        a_left_socket_is_taken()
        what_is_no_left_socket_stays()
        starts_saves_and_ends_are_told()
        failed_saves_are_told()
        a_want_of_workers_is_told()
        short_waits_are_not_told()
        nobody_reads_events()
        lines_that_are_dropped_are_counted()
        a_slow_reader_gets_each_line()
        a_standard_error_that_is_gone()
        without_the_option_nothing_is_told()


if __name__ == "__main__":
    sys.exit(server.run_all(all_are_tried))
