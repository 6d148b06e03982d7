#!/usr/bin/env python3
"""Asks the built program what it does, and compares each line of a Stats with what was done.

    python3 tests/stats.py PATH-TO-HHM

What is wanted was worked out by hand from docs/FORMATS.md, and never comes from the program's own output. It prints a
line for each check that fails and at the end `N passed, M failed`; the status is 1 where one fails. Linux, and nothing
but Python's own library.
"""
import os
import re
import resource
import struct
import subprocess
import sys
import threading
import time

import server
from hhm_client import Refused
from peers import until
from server import Server, check
from stand_in import frame

SMALL = ["--rows", "3", "--cols", "3"]
TEXT = b"%%MatrixMarket matrix coordinate integer general\n"
KINDS = ["put", "cell", "row", "status", "export", "save", "stop", "put_cells", "stored", "range", "top", "stats",
         "fold", "groups"]
CODES = [1, 20, 21, 22, 23, 30, 31, 32, 33, 34, 35, 40, 41, 42, 43, 44, 50, 51, 52, *range(103, 117)]
# The seconds that puts are grouped by.
BOUNDS = ["0.0001", "0.0003", "0.001", "0.003", "0.01", "0.03", "0.1", "0.3", "1", "+Inf"]
# What is different in each run, and how it is written.
TIMED = {
    "uptime_seconds": r"\d+\.\d{3}", "resident_bytes": r"\d+", "processor_seconds_total": r"\d+\.\d{3}",
    "save_age_seconds": r"\d+\.\d{3}", "log_syncs_total": r"\d+", "log_room_pages": r"\d+",
    "put_seconds_sum": r"\d+\.\d{3}",
}
BOOK = re.compile(r'^book\{id="[0-9a-f]{32}"\}$')
ASK = frame(12)


def number(*numbers):
    return struct.pack(f">{len(numbers)}Q", *numbers)


def put(client, at, text):
    return frame(1, number(client, at) + TEXT + text)


def put_cells(client, at, *cells):
    return frame(8, number(client, at) + b"".join(number(*cell) for cell in cells))


def reply(link):
    """The next reply of a link: its kind and its body."""
    head = b""
    while len(head) < 5:
        head += link.recv(5 - len(head))
    length, kind = struct.unpack(">IB", head)
    body = b""
    while len(body) < length:
        body += link.recv(length - len(body))
    return kind, body


def lines_of(link):
    """The lines of a Stats over a link, as pairs; the bytes of the reply are those of the format."""
    link.sendall(ASK)
    kind, body = reply(link)
    check("the kind of the reply", kind, 0x8A)
    check("the end of the last line", body[-1:], b"\n")
    lines = body.decode("ascii").split("\n")[:-1]
    return [tuple(line.rsplit(" ", 1)) for line in lines]


def told(link):
    return dict(lines_of(link))


def numbers_until(link, names, wanted):
    """What these names have, once that is what is wanted or it was waited long for: a reply to another connection is
    counted when it was written, and so may be read before."""
    return until(lambda: [told(link)[name] for name in names], wanted)


def names_in(lines):
    """The names of these lines; that of the book without its identity, which is another one in each run."""
    return [BOOK.sub("book", name) for name, _ in lines]


def with_labels(name, key, values):
    return [f'{name}{{{key}="{value}"}}' for value in values]


def failures_in(found):
    """The lines that say why requests were refused last."""
    return {name: value for name, value in found.items() if name.startswith("last_failure")}


def layers(shards, count):
    names = ("shard_layer_entries", "shard_layer_runs")
    return [f'{name}{{shard="{shard}",layer="{layer}"}}' for shard in range(shards) for layer in range(1, count + 1)
            for name in names]


def names_of(shards, count, is_logged, is_saved=False):
    """The names of all lines of a server, in their order."""
    return [
        "rows", "cols", "cuts", *with_labels("layer_cut_entries", "layer", range(1, count)), "shards", "limit",
        "max_batches", "batches", "folded", "total", "version", "book", "batches_left", "total_left", "uptime_seconds", "resident_bytes",
        "processor_seconds_total", "accepted_total", "repeats_total", "cells_total",
        *with_labels("refused_total", "code", CODES), *with_labels("frames_total", "kind", KINDS), "workers",
        "sessions_total", "sessions_open", "sessions_waiting", "received_bytes_total", "sent_bytes_total",
        *with_labels("put_seconds_bucket", "le", BOUNDS), "put_seconds_sum", "put_seconds_count", "saves_total",
        "failed_saves_total", *(["saved_batches", "save_age_seconds"] if is_saved else []),
        *(["log_durable_batches", "log_failed", "log_room_pages", "log_group_batches", "log_pages", "log_syncs_total",
           "log_bytes_left"] if is_logged else []),
        *layers(shards, count),
    ]


def an_empty_server_tells_its_setup():
    """Each line of a server that was asked nothing else, with a log and without one."""
    log = os.path.join(server.FOLDER, "empty.log")
    setup = ["--cuts", "2,4", "--shards", "2", "--limit", "100", "--max-batches", "10", "--workers", "3"]
    for more in [[], ["--log", log]]:
        with Server([*SMALL, *setup, *more], tcp=False) as at, at.link() as link:
            lines = lines_of(link)
            check(f"empty {more}: names", names_in(lines), names_of(2, 3, bool(more)))
            wanted = dict.fromkeys(names_of(2, 3, bool(more)), "0")
            wanted.update({
                "rows": "3", "cols": "3", "cuts": "2", 'layer_cut_entries{layer="1"}': "2",
                'layer_cut_entries{layer="2"}': "4", "shards": "2", "limit": "100", "max_batches": "10",
                "version": "0.1.0", "book": "1", "batches_left": "10", "total_left": "100", "workers": "3", "sessions_total": "1", "sessions_open": "1",
                "received_bytes_total": "5", 'frames_total{kind="stats"}': "1",
            })
            if more:
                wanted["log_pages"] = "1"
                wanted["log_bytes_left"] = str(2**40 - 4096)
            for name, (_, value) in zip(names_in(lines), lines):
                if name in TIMED:
                    check(f"empty {more}: {name} {value}", bool(re.fullmatch(TIMED[name], value)), True)
                else:
                    check(f"empty {more}: {name}", value, wanted[name])


def each_number_rises_as_it_should():
    """What each request adds, of one connection over which bytes go in pieces of all kinds."""
    with Server([*SMALL, "--cuts", "none", "--shards", "1", "--limit", "40", "--max-batches", "2", "--workers", "1"],
                tcp=False) as at, at.link() as link:
        counted = {"received_bytes_total": 0, "sent_bytes_total": 0}
        steps = [
            ("a put", put(7, 1, b"3 3 2\n1 1 5\n2 3 7\n"), 0x81,
             {"accepted_total": 1, "cells_total": 2, "batches": 1, "total": 12, "batches_left": -1, "total_left": -12,
              'frames_total{kind="put"}': 1}),
            ("the same again", put(7, 1, b"3 3 2\n1 1 5\n2 3 7\n"), 0x81,
             {"repeats_total": 1, 'frames_total{kind="put"}': 1}),
            ("cells", put_cells(7, 2, (2, 2, 0), (0, 0, 1), (2, 2, 3)), 0x81,
             {"accepted_total": 1, "cells_total": 2, "batches": 1, "total": 4, "batches_left": -1, "total_left": -4,
              'frames_total{kind="put_cells"}': 1}),
            ("a reused number", put_cells(7, 2, (1, 1, 9)), 0xFF,
             {'refused_total{code="30"}': 1, 'frames_total{kind="put_cells"}': 1}),
            ("above the total", put_cells(7, 3, (1, 1, 25)), 0xFF,
             {'refused_total{code="31"}': 1, 'frames_total{kind="put_cells"}': 1}),
            ("a full book", put_cells(7, 3, (1, 1, 1)), 0xFF,
             {'refused_total{code="32"}': 1, 'frames_total{kind="put_cells"}': 1}),
            ("a row more", put(7, 4, b"4 3 0\n"), 0xFF,
             {'refused_total{code="20"}': 1, 'frames_total{kind="put"}': 1}),
            ("a bad line", put(7, 4, b"3 3 1\n1 x 1\n"), 0xFF,
             {'refused_total{code="110"}': 1, 'frames_total{kind="put"}': 1}),
            ("a cell outside", put_cells(7, 4, (3, 0, 1)), 0xFF,
             {'refused_total{code="22"}': 1, 'frames_total{kind="put_cells"}': 1}),
            ("a cell", frame(2, number(0, 0)), 0x82, {'frames_total{kind="cell"}': 1}),
            ("a cell out of range", frame(2, number(3, 0)), 0xFF,
             {'frames_total{kind="cell"}': 1, 'refused_total{code="41"}': 1}),
            ("a row", frame(3, number(2)), 0x83, {'frames_total{kind="row"}': 1}),
            ("a status", frame(4), 0x84, {'frames_total{kind="status"}': 1}),
            ("an export", frame(5), 0x85, {'frames_total{kind="export"}': 1}),
            ("a save nowhere", frame(6), 0xFF, {'frames_total{kind="save"}': 1, 'refused_total{code="43"}': 1}),
            ("stored", frame(9), 0x84, {'frames_total{kind="stored"}': 1}),
            ("a range", frame(10, number(0, 2, 0, 2, 0, 0, 2)), 0x88, {'frames_total{kind="range"}': 1}),
            ("a top", frame(11, b"\0" + number(5)), 0x89, {'frames_total{kind="top"}': 1}),
            ("a top of none", frame(11, b"\0" + number(0)), 0xFF,
             {'frames_total{kind="top"}': 1, 'refused_total{code="44"}': 1}),
        ]
        before = told(link)
        for size in (1 << 20, 1, 4, 7):
            counted = {name: int(before[name]) for name in before if name not in TIMED and name != "version"
                       and not name.startswith("put_seconds_bucket")}
            for name, request, kind, rises in steps:
                if size < 1 << 20 and 0x81 == kind and "the same" not in name:
                    # (what was accepted is a repeat from then on)
                    rises = {"repeats_total": 1, **{it: 1 for it in rises if it.startswith("frames_total")}}
                for place in range(0, len(request), size):
                    link.sendall(request[place : place + size])
                got, body = reply(link)
                check(f"{name} in pieces of {size}: kind", got, kind)
                counted["received_bytes_total"] += len(request)
                counted["sent_bytes_total"] += 5 + len(body)
                counted["put_seconds_count"] += 1 if kind == 0x81 else 0
                for it, count in rises.items():
                    counted[it] += count
            counted['frames_total{kind="stats"}'] += 1
            counted["received_bytes_total"] += 5
            # (the reply to the Stats before, which wasn't sent when it was made)
            counted["sent_bytes_total"] += 5 + sum(len(f"{name} {value}\n") for name, value in before.items())
            after = told(link)
            for name, count in counted.items():
                if not name.startswith("shard_layer"):
                    check(f"pieces of {size}: {name}", int(after[name]), count)
            before = after
        together = [put_cells(7, 1, (0, 0, 12))] * 70 + [frame(4)] * 3 + [frame(3, number(0))] * 2
        link.sendall(b"".join(together))
        kinds = [reply(link)[0] for _ in together]
        check("many at once: answers", (kinds.count(0xFF), kinds.count(0x84), kinds.count(0x83)), (70, 3, 2))
        after = told(link)
        for name, count in [('frames_total{kind="put_cells"}', 70), ('frames_total{kind="status"}', 3),
                            ('frames_total{kind="row"}', 2), ('refused_total{code="30"}', 70), ("repeats_total", 0)]:
            check(f"many at once: {name}", int(after[name]) - int(before[name]), count)


def bad_frames_are_counted():
    """Frames that end a session, told by the next one."""
    with Server(SMALL, tcp=False) as at:
        for bad in [struct.pack(">IB", 67108865, 1), frame(0x7F), frame(12, b"\0"), frame(4, b"x")]:
            check(f"bad {bad.hex()}", at.talk([bad])[:5], struct.pack(">IB", 10, 0xFF))
        with at.link() as link:
            found = told(link)
            names = [f'refused_total{{code="{code}"}}' for code in (50, 51, 52)]
            check("bad frames", numbers_until(link, names, ["1", "1", "2"]), ["1", "1", "2"])
        # (their header says of which kind they were)
        kinds = [found[f'frames_total{{kind="{kind}"}}'] for kind in ("put", "status", "stats")]
        check("their kinds", kinds, ["1", "1", "2"])
        check("sessions that were served", found["sessions_total"], "5")


def sessions_are_told():
    """Two workers: one asks, one has a client that says nothing, and others wait."""
    with Server([*SMALL, "--workers", "2"], tcp=False) as at, at.link() as asking:
        found = told(asking)
        names = ("sessions_total", "sessions_open", "sessions_waiting")
        check("one session", [found[name] for name in names], ["1", "1", "0"])
        links = [at.link() for _ in range(4)]
        check("two open, three wait", until(lambda: [told(asking)[name] for name in names], ["2", "2", "3"]), ["2", "2", "3"])
        for link in links:
            link.close()
        check("all were served", until(lambda: [told(asking)[name] for name in names], ["5", "1", "0"]), ["5", "1", "0"])


def saves_are_told():
    """Saves and failed ones, what the last had, and what a start from a snapshot counts."""
    folder = os.path.join(server.FOLDER, "saves")
    os.makedirs(folder)
    path = os.path.join(folder, "snap")
    with Server([*SMALL, "--snapshot", path], tcp=False) as at:
        with at.client(7) as hhm, at.link() as link:
            hhm.put(1, [(0, 0, 5)])
            hhm.save()
            hhm.put(2, [(1, 1, 6), (2, 2, 0)])
            found = told(link)
            check("saved", [found[it] for it in ("saves_total", "failed_saves_total", "saved_batches", "batches")],
                  ["1", "0", "1", "2"])
            check("its names", names_in(found.items()), names_of(int(found["shards"]), 4, False, True))
            check("its age", float(found["save_age_seconds"]) < 20, True)
            aside = folder + ".aside"
            os.rename(folder, aside)
            try:
                hhm.save()
            except Refused as why:
                check("a save that fails", why.name, "SaveFailed")
            os.rename(aside, folder)
            names = ("saves_total", "failed_saves_total", "saved_batches", 'refused_total{code="42"}')
            check("a failed save", numbers_until(link, names, ["1", "1", "1", "1"]), ["1", "1", "1", "1"])
            found = told(link)
            check("why it failed", failures_in(found), {'last_failure{code="42",why="no-folder"}': "1"})
            time.sleep(1.1)
            hhm.save()
            check("another save", numbers_until(link, names, ["2", "1", "2", "1"]), ["2", "1", "2", "1"])
            later = told(link)
            check("no failure since", failures_in(later), {})
            check("a younger one", float(later["save_age_seconds"]) < float(found["save_age_seconds"]) + 1, True)
            check("the time goes on", float(later["uptime_seconds"]) > float(found["uptime_seconds"]) + 1, True)
        at.stop("saves", 2, 11)
    for words, folded in [([], "0"), (["fold", path], "2")]:
        if words:
            run = subprocess.run([server.PROGRAM, *words], capture_output=True, text=True, timeout=60)
            check("folded", (run.stderr, run.returncode), ("", 0))
        with Server([*SMALL, "--snapshot", path], tcp=False) as at, at.link() as link:
            found = told(link)
            names = ("batches", "folded", "total", "accepted_total", "repeats_total", "cells_total", "saves_total")
            check(f"from a snapshot {words}", [found[name] for name in names], ["2", folded, "11", "0", "0", "0", "0"])
            link.sendall(put_cells(7, 1, (0, 0, 5)))
            check("a repeat of it", reply(link)[0], 0x81)
            link.sendall(put_cells(7, 3, (0, 0, 5)))
            check("a new batch", reply(link)[0], 0x81)
            found = told(link)
            check(f"from a snapshot {words}: then", [found[name] for name in names], ["3", folded, "16", "1", "1", "1", "0"])


def groups_of(found):
    """How many puts took at most so long, for each bound; they rise."""
    counts = [int(found[name]) for name in with_labels("put_seconds_bucket", "le", BOUNDS)]
    check("groups rise", counts, sorted(counts))
    return counts


def times_of_puts_are_told():
    """Each accepted put is in one group, a repeat too; what is refused, or no put, is in none."""
    count = "put_seconds_count"
    with Server([*SMALL, "--limit", "100"], tcp=False) as at, at.link() as link:
        check("no put", (groups_of(told(link))[-1], told(link)[count]), (0, "0"))
        begun = time.monotonic()
        for nth in (1, 2, 2):
            link.sendall(put_cells(7, nth, (0, 0, 5)))
            check("accepted", reply(link)[0], 0x81)
        texts = [put(7, nth, b"3 3 1\n1 1 1\n") for nth in (3, 4, 5)]
        link.sendall(b"".join([*texts, put_cells(7, 6, (0, 0, 100)), frame(4)]))
        check("three together", [reply(link)[0] for _ in range(5)], [0x81, 0x81, 0x81, 0xFF, 0x84])
        check("six puts", numbers_until(link, [count], ["6"]), ["6"])
        passed = time.monotonic() - begun
        found = told(link)
        check("each in a group", groups_of(found)[-1], 6)
        # (three came together, and each of these took as long as the last)
        check("their seconds", 0 <= float(found["put_seconds_sum"]) <= 4 * passed, True)


def a_log_is_told():
    """What a log has: its pages, the syncs, the batches of a group, and a log that is begun anew or read."""
    log, path = (os.path.join(server.FOLDER, name) for name in ("told.log", "told.snap"))
    words = [*SMALL, "--log", log, "--snapshot", path]
    names = ("log_durable_batches", "log_group_batches", "log_pages")
    with Server(words, tcp=False) as at, at.link() as link:
        found = told(link)
        check("a new log", [found[name] for name in names], ["0", "0", "1"])
        syncs = int(found["log_syncs_total"])
        link.sendall(put_cells(7, 1, (0, 0, 5)))
        reply(link)
        after = told(link)
        check("a block", [after[name] for name in names], ["1", "1", "2"])
        # (a sync of the room, and one of the block)
        check("its syncs", int(after["log_syncs_total"]) - syncs, 2)
        room = int(after["log_room_pages"])
        check("its room", room, 4096)
        link.sendall(put_cells(7, 1, (0, 0, 5)))
        reply(link)
        again = told(link)
        check("a repeat", [again[name] for name in (*names, "log_room_pages", "repeats_total")],
              ["1", "1", "2", str(room), "1"])
        link.sendall(b"".join(put_cells(7, k, (0, 0, 1)) for k in range(2, 12)))
        for _ in range(10):
            reply(link)
        group = told(link)
        check("a group", int(group["log_durable_batches"]), 11)
        check("its batches", 1 <= int(group["log_group_batches"]) <= 10, True)
        with at.client(7) as hhm:
            hhm.put(100, [(row, col, 1) for row in range(3) for col in range(3)] * 100)
        pages = int(told(link)["log_pages"])
        check("its end", struct.unpack(">HHQ", pages_of(log)[pages - 1][4:16])[2], 11)
        link.sendall(frame(6))
        check("a save", reply(link), (0x86, number(12)))
        found = told(link)
        check("begun anew", [found[name] for name in names], ["12", found["log_group_batches"], "1"])
        link.sendall(put_cells(8, 1, (0, 0, 5)))
        reply(link)
        check("and written on", [told(link)[name] for name in names], ["13", "1", "2"])
        at.process.kill()
        at.process.wait()
    with Server(words, tcp=False) as at, at.link() as link:
        found = told(link)
        check("a log that was read", [found[name] for name in (*names, "batches", "accepted_total")],
              ["13", "0", "2", "13", "0"])


def what_is_left_is_told():
    """What a book still takes, and why it takes no more; and what its log may grow where the system limits that."""
    setup = ["--limit", "40", "--max-batches", "2", "--log", os.path.join(server.FOLDER, "left.log")]
    names = ("batches_left", "total_left")
    most = 64 << 20
    limited = {"preexec_fn": lambda: resource.setrlimit(resource.RLIMIT_FSIZE, (most, most))}
    with Server([*SMALL, *setup], tcp=False, **limited) as at, at.link() as link:
        left, why = [], []
        for batch, count in [(1, 12), (2, 30), (2, 28), (3, 0)]:
            link.sendall(put_cells(7, batch, (0, 0, count)))
            reply(link)
            found = told(link)
            left.append([found[name] for name in names])
            why.append(failures_in(found))
        limit, full = ('last_failure{code="31",why="limit"}', 'last_failure{code="32",why="max-batches"}')
        check("what is left", left, [["1", "28"], ["1", "28"], ["0", "0"], ["0", "0"]])
        check("why no more", why, [{}, {limit: "1"}, {limit: "1"}, {limit: "1", full: "1"}])
        pages = int(found["log_pages"])
        check("the log", (pages > 1, int(found["log_bytes_left"])), (True, most - 4096 * pages))


def pages_of(path):
    with open(path, "rb") as file:
        data = file.read()
    return [data[place : place + 4096] for place in range(0, len(data), 4096)]


def the_process_is_told():
    """Memory and processor time are those that the system tells."""
    with Server(["--rows", "1000000", "--cols", "1000000"], tcp=False) as at, at.client(1) as hhm, at.link() as link:
        for k in range(30):
            hhm.put(k, [(97 * i + k, 31 * i, 1) for i in range(10000)])
        with open(f"/proc/{at.process.pid}/stat") as file:
            words = file.read().rpartition(")")[2].split()
        ticks = (int(words[11]) + int(words[12])) / os.sysconf("SC_CLK_TCK")
        found = told(link)
        memory = at.memory()
        check(f"memory {found['resident_bytes']} {memory}", abs(int(found["resident_bytes"]) - memory) < 0.3 * memory, True)
        used = float(found["processor_seconds_total"])
        check(f"processor {used} {ticks}", ticks <= used < ticks + 1, True)
        entries = sum(int(value) for name, value in found.items() if name.startswith("shard_layer_entries"))
        check("entries at most", hhm.row(0).entries <= 300000 and entries >= len(list(hhm.range())), True)


def the_largest_reply():
    """64 shards of 8 layers: the most lines that there may be."""
    words = ["--rows", str(1 << 60), "--cols", str(1 << 60), "--shards", "64", "--cuts", "1,2,3,4,5,6,1099511627776"]
    with Server([*words, "--log", os.path.join(server.FOLDER, "large.log")], tcp=False) as at, at.link() as link:
        lines = lines_of(link)
        check("the most names", names_in(lines), names_of(64, 8, True))
        size = sum(len(f"{name} {value}\n") for name, value in lines)
        check(f"its size: {size}", size < 100_000, True)


def it_is_asked_beside_puts():
    """What rises never falls while many put, nobody is refused, and at the end each number is exact."""
    with Server(["--rows", "2000", "--cols", "2000", "--workers", "6"], tcp=False) as at:
        ends, falls, looks = threading.Event(), [], [0]

        def look():
            with at.link() as link:
                before = told(link)
                while not ends.is_set():
                    after = told(link)
                    falls.extend(name for name in before
                                 if (name.partition("{")[0].endswith("_total") or name in ("batches", "total"))
                                 and float(after[name]) < float(before[name]))
                    if not (int(after["accepted_total"]) == int(after["batches"])
                            and int(after["total"]) == 3 * int(after["batches"])):
                        falls.append("one status")
                    before = after
                    looks[0] += 1

        def many(client):
            with at.client(client) as hhm:
                for k in range(300):
                    hhm.put(k, [(k, client, 1), (client, k, 2)])
                    hhm.put(k, [(k, client, 1), (client, k, 2)])

        looker = threading.Thread(target=look)
        putters = [threading.Thread(target=many, args=(client,)) for client in range(1001, 1005)]
        for thread in [looker]:
            thread.start()
        for thread in putters:
            thread.start()
        for thread in putters:
            thread.join()
        ends.set()
        looker.join()
        check(f"beside puts, {looks[0]} times", (falls, looks[0] > 5), ([], True))
        with at.link() as link:
            found = told(link)
        names = ("batches", "total", "accepted_total", "repeats_total", "cells_total", 'frames_total{kind="put_cells"}')
        check("beside puts, at the end", [found[name] for name in names], ["1200", "3600", "1200", "1200", "2400", "2400"])


def all_is_told():
    an_empty_server_tells_its_setup()
    each_number_rises_as_it_should()
    bad_frames_are_counted()
    sessions_are_told()
    saves_are_told()
    times_of_puts_are_told()
    a_log_is_told()
    what_is_left_is_told()
    the_process_is_told()
    the_largest_reply()
    it_is_asked_beside_puts()


if __name__ == "__main__":
    sys.exit(server.run_all(all_is_told))
