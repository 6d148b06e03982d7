#!/usr/bin/env python3
"""Loads files of events by the command line client into the built program, and compares the sums with plain ones.

    python3 tests/loading.py PATH-TO-HHM

What a file's events add up to is worked out by a loop over its lines with a dictionary. It prints a line for each check
that fails and at the end `N passed, M failed`; the status is 1 where one fails. Linux, and nothing but Python's own
library.
"""
import collections
import contextlib
import gzip
import io
import ipaddress
import os
import pty
import random
import signal
import subprocess
import sys
import time

import server
from server import Server, check

HERE = os.path.dirname(os.path.abspath(__file__))
HHMC = os.path.join(HERE, "..", "clients", "python", "hhm_client.py")
import hhm_load  # noqa: E402 (server.py has put the client's folder on the path)
from hhm_client import PUT_CELLS, STATUS, Client, cells_of  # noqa: E402
from hhm_events import Limit  # noqa: E402
from hhm_heads import Wanted  # noqa: E402
from identities import ONE, TWO, told_by  # noqa: E402
from peers import Peer, frame_of  # noqa: E402
from stand_in import StandIn  # noqa: E402

LARGE = ["--rows", str(1 << 60), "--cols", str(1 << 60)]
WAIT = 60


def path_of(name):
    return os.path.join(server.FOLDER, name)


def written(name, content):
    with open(path_of(name), "wb") as file:
        file.write(content if isinstance(content, bytes) else content.encode())
    return path_of(name)


def words(at, *given):
    return [sys.executable, HHMC, "--unix", at.path, "load", *map(str, given)]


def load(at, *given, **how):
    """What `load` writes to both outputs, and its status."""
    environment = {**os.environ, "XDG_STATE_HOME": path_of("state")}
    ended = subprocess.run(words(at, *given), capture_output=True, text=True, timeout=WAIT, env=environment, **how)
    return ended.stdout, ended.stderr, ended.returncode


def sum_of(at):
    with Client(unix=at.path) as hhm:
        return {(row, col): count for row, col, count in cells_of(hhm.export())}


def added(cells):
    counts = collections.Counter()
    for row, col, count in cells:
        counts[row, col] += count
    return dict(counts)


def flows(seed, count):
    """Flows with IPv4 addresses, and their cells."""
    dice = random.Random(seed)
    hosts = [dice.randrange(1 << 32) for _ in range(40)]
    cells = [(dice.choice(hosts), dice.choice(hosts), dice.randrange(1, 2000)) for _ in range(count)]
    lines = [f"{ipaddress.ip_address(row)},{ipaddress.ip_address(col)},{n}\n" for row, col, n in cells]
    return lines, cells


def a_file_counts_once():
    """A CSV of flows, loaded twice, and a third time with more behind it in a second file."""
    lines, cells = flows(1, 2500)
    head = "source,destination,packets\n"
    file = written("flows.csv", head + "".join(lines))
    with Server(LARGE, tcp=False) as at:
        check("flows", load(at, "--batch", 1000, 7, file), ("new 3 repeats 0 events 2500\n", "", 0))
        check("flows: the sum", sum_of(at), added(cells))
        check("flows again", load(at, "--batch", 1000, 7, file), ("new 0 repeats 3 events 2500\n", "", 0))
        more, others = flows(2, 700)
        second = written("more.csv", head + "".join(more))
        check("flows and more", load(at, "--batch", 1000, 7, file, second),
              ("new 1 repeats 3 events 3200\n", "", 0))
        check("flows and more: the sum", sum_of(at), added(cells + others))
        before = sum_of(at)
        for name, given in [("another file", [second]), ("another order", [second, file])]:
            output, error, status = load(at, "--batch", 1000, 7, *given)
            check(name, (output, status, "batch 0 of client 7 has other events" in error), ("", 2, True))
        for name, given, told in [
            ("another size", ["--batch", 500], "--batch 1000, and this load has --batch 500"),
            ("another map", ["--map", "name", "--names", path_of("7.names")],
             "--map ip --batch 1000, and this load has --map name --batch 10000"),
            ("other columns", ["--cols", "destination,source", "--batch", 1000],
             "--cols source,destination,packets, and this load has --cols destination,source"),
        ]:
            _, error, status = load(at, *given, 7, file)
            check(name, (status, f"client 7 was loaded with {told} (" in error), (2, True))
        check("another map: no table was written", os.path.exists(path_of("7.names")), False)
        check("nothing of those was put", sum_of(at), before)
        with open(os.path.join(path_of("state"), "hhm", "client-7.batches"), "rb+") as state:
            lines = [line for line in state.read().splitlines(True) if not line.startswith(b"books ")]
            check("the state begins with its options", lines[0].startswith(b"options {"), True)
            state.seek(0)
            state.writelines(lines[1:])
            state.truncate()
        check("a state of an earlier hhmc", load(at, "--batch", 1000, 7, file, second)[::2],
              ("new 0 repeats 4 events 3200\n", 0))
        _, error, status = load(at, "--batch", 500, 7, file)
        check("a state of an earlier hhmc: another size", (status, "has other events" in error), (2, True))


FORMS = [
    ("numbers.tsv", "1\t2\t3\n1\t2\t4\n", ["--cols", "1,2,3", "--map", "int"], [(1, 2, 7)]),
    ("quoted.tsv", '"a"\tb\n', ["--cols", "1,2", "--map", "name", "--names", "NAMES"], [(0, 1, 1)]),
    ("pairs.pairs", "# a comment\n\n 5 6\n5  6\n7 8\n", [], [(5, 6, 2), (7, 8, 1)]),
    ("counted.pairs", "5 6 10\n5 6 1\n", ["--cols", "1,2,3"], [(5, 6, 11)]),
    ("a.mtx", "%%MatrixMarket matrix coordinate integer general\n% told\n9 9 2\n1 1 4\n9 8 5\n", [],
     [(0, 0, 4), (8, 7, 5)]),
    ("b.mtx", "%%MatrixMarket matrix coordinate pattern general\n9 9 2\n1 1\n1 1\n", [], [(0, 0, 2)]),
    ("head.csv", "when,packets,to,from\n1,10,3,2\n2,20,3,2\n", ["--cols", "from,to,packets", "--map", "int"],
     [(2, 3, 30)]),
    ("pair.csv", "source,destination\n0.0.0.1,0.0.0.2\n", [], [(1, 2, 1)]),
    ("crlf.csv", "source,destination,packets\r\n0.0.0.1,0.0.0.2,5\r\n0.0.0.1,0.0.0.2,6", [], [(1, 2, 11)]),
    ("marked.csv", b"\xef\xbb\xbfsource,destination,packets\n0.0.0.1,0.0.0.2,5\n", [], [(1, 2, 5)]),
    ("blank.csv", "source,destination,packets\n0.0.0.1,0.0.0.2,5\n\n0.0.0.3,0.0.0.2,1\n", [], [(1, 2, 5), (3, 2, 1)]),
    ("quoted.csv", 'name,to\n"a,b",c\n"a,b","c"\n', ["--cols", "name,to", "--map", "name", "--names", "NAMES"],
     [(0, 1, 2)]),
    ("most.csv", f"1,2,{(1 << 64) - 1}\n", ["--cols", "1,2,3", "--map", "int"], [(1, 2, (1 << 64) - 1)]),
    ("far.csv", f"{(1 << 60) - 1},0\n", ["--cols", "1,2", "--map", "int"], [((1 << 60) - 1, 0, 1)]),
    ("six.csv", "source,destination\n::1,0.0.0.7\n0:0:0:0:0:0:0:1,fe80::1\n", ["--names", "NAMES"],
     [(1 << 32, 7, 1), (1 << 32, (1 << 32) + 1, 1)]),
    ("none.csv", "source,destination\n", [], []),
]


def each_form_is_read():
    """Formats, columns and maps, each in batches of one event and in one batch."""
    for number, (name, content, given, cells) in enumerate(FORMS):
        file = written(name, content)
        for size in (1, 1000):
            names = path_of(f"{name}-{size}.names")
            given_here = [names if word == "NAMES" else word for word in given]
            with Server([*LARGE, "--limit", str((1 << 64) - 1)], tcp=False) as at:
                given_here += ["--state", path_of(f"{name}-{size}.state")]
                _, error, status = load(at, *given_here, "--batch", size, 100 + 2 * number + (size > 1), file)
                check(f"{name} by {size}", (error, status), ("", 0))
                check(f"{name} by {size}: the sum", sum_of(at), added(cells))


def other_ways_to_a_text():
    """A file of gzip, and standard input."""
    lines, cells = flows(3, 300)
    text = ("source,destination,packets\n" + "".join(lines)).encode()
    packed = written("packed.csv.gz", gzip.compress(text))
    with Server(LARGE, tcp=False) as at:
        check("gzip", load(at, 300, packed), ("new 1 repeats 0 events 300\n", "", 0))
        cut = written("cut.csv.gz", gzip.compress(text)[:-20])
        check("gzip that is cut short", load(at, 301, cut)[2], 4)
        spoilt = bytearray(gzip.compress(text))
        spoilt[len(spoilt) // 2] ^= 255
        file = written("spoilt.csv.gz", bytes(spoilt))
        output, error, status = load(at, 305, file)
        told = error.startswith(f"{file}: ") and error.endswith(": nothing was sent; load again with the same words\n")
        check("gzip that is spoilt", (output, status, error if not told else ""), ("", 4, ""))
        file = written("no.csv.gz", text)
        check("no gzip", load(at, 306, file)[1:],
              (f"{file}: Not a gzipped file (b'so'): nothing was sent; load again with the same words\n", 4))
        file = written("head.csv.gz", gzip.compress(text)[:12])
        check("gzip without a line", load(at, 307, file)[2], 4)
        with open(written("plain.csv", text)) as file:
            told = ("standard input: its first 300 events were loaded as client 300 too: where that was into this "
                    "server, they count twice\n")
            check("standard input, the same events again", load(at, "--format", "csv", 302, "-", stdin=file),
                  ("new 1 repeats 0 events 300\n", told, 0))
        check("both: the sum", sum_of(at), added(cells + cells))
        _, error, status = load(at, 303, "-")
        check("no format", (status, "give --format" in error), (2, True))
        check("no file", load(at, 304, path_of("nowhere.csv"))[1:],
              (path_of("nowhere.csv") + ": No such file or directory\n", 4))


BAD = [
    ("0.0.0.1,0.0.0.2", "2 columns, and not 3"), ("0.0.0.1,0.0.0.2,5,6", "4 columns, and not 3"),
    ("0.0.0.1,0.0.0.256,5", "'0.0.0.256' is no address"), ("0.0.0.1,0.0.0.2,-5", "'-5' is no number"),
    ("0.0.0.1,0.0.0.2,5.5", "'5.5' is no number"), ("0.0.0.1,0.0.0.2,1_000", "'1_000' is no number"),
    ("0.0.0.1,0.0.0.2,", "'' is no number"), ("0.0.0.1,0.0.0.2,\u0665", "is no number"),
    ("0.0.0.1,0.0.0.2," + str(1 << 64), "too big"),
]


def lines_that_are_no_events():
    """Each is told with its line; they are left out up to a limit, and a file goes on once it was mended."""
    lines, cells = flows(4, 1500)
    head = "source,destination,packets\n"
    with Server(LARGE, tcp=False) as at:
        for number, (line, why) in enumerate(BAD):
            file = written("bad.csv", head + "".join(lines[:20]) + line + "\n" + "".join(lines[20:40]))
            output, error, status = load(at, "--strict", "--batch", 10, 400 + number, file)
            told = f"{file}: line 22: " in error and why in error and "Batches 0 to 1 were put" in error
            check(f"strict: {line}", (output, status, told), ("", 3, True))
            output, error, status = load(at, "--skip-at-most", 1, "--batch", 10, 400 + number, file)
            check(f"left out: {line}", (output.split(" ")[4:], status), (["events", "40", "skipped", "1\n"][0:4], 0))
        before = sum_of(at)
        few = written("few.csv", head + "".join(lines) + "x\n" * 15)
        check("one of a hundred", load(at, 420, few)[::2], ("new 1 repeats 0 events 1500 skipped 15\n", 0))
        check("one of a hundred: the sum", sum_of(at), added([*cells, *((*p, n) for p, n in before.items())]))
        many = written("many.csv", head + "".join(lines[:1000]) + "x\n" * 30)
        _, error, status = load(at, "--batch", 500, 421, many)
        check("more than one of a hundred", (status, error.startswith(f"{many}: line 1002: 1 columns")), (3, True))
        written("many.csv", head + "".join(lines))
        check("mended", load(at, "--batch", 500, 421, many), ("new 1 repeats 2 events 1500\n", "", 0))
        short = written("short.mtx", "%%MatrixMarket matrix coordinate integer general\n9 9 3\n1 1 4\n")
        _, error, status = load(at, 422, short)
        check("entries that lack", (status, "1 entries, and its head tells 3" in error), (3, True))


def refusals_tell_the_line():
    """A place that the server doesn't have is told with the line of the file."""
    with Server(["--rows", "10", "--cols", "10"], tcp=False) as at:
        file = written("outside.pairs", "# no event\n1 2\n\n3 4\n5 10\n6 7\n")
        output, error, status = load(at, 500, file)
        wanted = f"{file}: line 5: batch 0: refused: IndexOutOfRange at cell 2\n"
        check("out of range", (output, error, status), ("", wanted, 1))
        named, headless = written("c.csv", "x,y\n"), written("d.csv", "x,y\n1,2\n")
        sixes = written("e.csv", "source,destination\n::1,::2\n")
        for given, why in [(["--cols", "1", 501, file], "two or three"), (["--map", "name", 501, file], "--names"),
                           (["--cols", "a,b", 501, named], "no column 'a'"), ([501, headless], "give --cols"),
                           (["--batch", 0, 501, file], "isn't from"), (["--skip-at-most", "x", 501, file], "neither"),
                           (["-1", file], ""), ([501, sixes], "give --names")]:
            _, error, status = load(at, *given)
            check(f"bad words {given}", (status, why in error), (2, True))


def names_keep_their_numbers():
    """A name has one number over files and runs; a line that wasn't written whole is cut off; one load at a time."""
    names = path_of("hosts.names")
    first = written("first.csv", "a,b\nb,c\n")
    second = written("second.csv", "c,d\na,d\n")
    given = ["--cols", "1,2", "--map", "name", "--names", names]
    with Server(LARGE, tcp=False) as at:
        check("names", load(at, *given, 600, first)[2], 0)
        with open(names, "ab") as table:
            table.write(b"half")
        check("more names", load(at, *given, 601, second)[2], 0)
        check("names: the sum", sum_of(at), added([(0, 1, 1), (1, 2, 1), (2, 3, 1), (0, 3, 1)]))
        check("names: the table", server.content(names), b"a\nb\nc\nd\n")
        environment = {**os.environ, "XDG_STATE_HOME": path_of("state")}
        given_one = [*given, "--batch", "1", "--format", "csv"]
        feed = subprocess.Popen(words(at, *given_one, 602, "-"), stdin=subprocess.PIPE, stdout=subprocess.PIPE,
                                text=True, env=environment)
        # Once its first event is put, it has both files.
        feed.stdin.write("e,a\n")
        feed.stdin.flush()
        ends = time.monotonic() + WAIT
        with Client(unix=at.path) as hhm:
            while hhm.status().batches < 3 and time.monotonic() < ends:
                time.sleep(0.01)
        _, error, status = load(at, *given, "--state", path_of("other"), 603, first)
        check("two loads, one table", (status, "another load uses this table" in error), (4, True))
        _, error, status = load(at, 602, first)
        check("two loads, one client", (status, "another load uses client 602" in error), (4, True))
        check("the first goes on", (feed.communicate(timeout=WAIT)[0], feed.returncode),
              ("new 1 repeats 0 events 1\n", 0))


def a_refused_load_writes_no_names():
    """Names of other events under a used number aren't in the table; IPv6 without room on the server is refused."""
    names, given = path_of("kept.names"), ["--cols", "1,2", "--map", "name", "--names", path_of("kept.names")]
    with Server(LARGE, tcp=False) as at:
        check("names", load(at, *given, 610, written("kept.csv", "a,b\n"))[2], 0)
        _, error, status = load(at, *given, 610, written("other.csv", "c,d\n"))
        check("other names", (status, "has other events" in error, server.content(names)), (2, True, b"a\nb\n"))
    with Server(["--rows", str(1 << 32), "--cols", str(1 << 32)], tcp=False) as at:
        six = written("small.csv", "source,destination\n0.0.0.1,0.0.0.2\n0.0.0.1,::1\n")
        _, error, status = load(at, "--names", path_of("small.names"), 611, six)
        told = f"{six}: line 3: batch 0: refused: IndexOutOfRange at cell 1: addresses of IPv6 "
        check("IPv6 in 2^32 rows", (status, told in error, "--rows 8589934592" in error), (1, True, True))


def a_load_that_the_server_refuses_leaves_nothing():
    """A first batch that is refused leaves no name and no note of it, so that the mended file can be loaded."""
    names, state = path_of("few.names"), path_of("few.state")
    given = ["--cols", "1,2", "--map", "name", "--names", names, "--state", state, "612"]
    with Server(["--rows", "3", "--cols", "3"], tcp=False) as at:
        for there in [None, b"x\n"]:
            told = load(at, *given, written("few.csv", "a,b\nc,d\n"))
            check("refused", (told[2], "refused: IndexOutOfRange" in told[1]), (1, True))
            left = [server.content(it) if os.path.exists(it) else None for it in (names, state)]
            check("refused: what is left", left, [there, None])
            with open(names, "wb") as table:
                table.write(b"x\n")
        check("mended", load(at, *given, written("few.csv", "x,y\n"))[::2], ("new 1 repeats 0 events 1\n", 0))
        check("mended: the table", server.content(names), b"x\ny\n")
        check("a later batch", load(at, "--batch", "1", *given, written("few.csv", "x,y\n"))[2], 2)
        late = ["--batch", "1", *given[:-3], "--state", f"{state}.late", "613"]
        check("a later batch", load(at, *late, written("late.csv", "x,y\nx,z\nx,a\n"))[2], 1)
        check("a later batch: names may be in use", server.content(names), b"x\ny\nz\na\n")


def flow_file(name, *counts):
    """A file of flows with these counts, each of a place of its own."""
    lines = [f"0.0.0.{place},0.0.1.0,{count}\n" for place, count in enumerate(counts)]
    return written(name, "source,destination,packets\n" + "".join(lines))


def lines_of(path):
    """Of each line of a state file its first word, with the books where it has them."""
    with open(path) as file:
        words = [line.split() for line in file]
    return [tuple(line) if line[0] in ("books", "owners") else line[0] for line in words]


def a_state_is_of_a_book():
    """One client number for two servers, in turn: each has its own events, and others are refused."""
    one, other, state = flow_file("one.csv", 1, 2, 3), flow_file("other.csv", 4, 5), path_of("books.state")
    same = flow_file("same.csv", 4, 2, 3)
    with StandIn(stats=told_by(ONE), name="one") as first, StandIn(stats=told_by(TWO), name="two") as second:
        for at, file, wanted in [
            (first, one, ("new 2 repeats 0 events 3\n", 0)), (second, other, ("new 1 repeats 0 events 2\n", 0)),
            (first, one, ("new 0 repeats 2 events 3\n", 0)), (second, other, ("new 0 repeats 1 events 2\n", 0)),
            (first, other, ("", 2)), (second, one, ("", 2)), (second, same, ("", 2)),
        ]:
            puts = at.asked[PUT_CELLS]
            output, error, status = load(at, "--state", state, "--batch", 2, 7, file)
            check(f"two books: {at.name} {file}", (output, status), wanted)
            check(f"two books: {at.name} {file}: told", "batch 0 of client 7 has other events" in error, status == 2)
            if status == 2:
                check(f"two books: {at.name} {file}: nothing was sent", at.asked[PUT_CELLS], puts)
        lines = [("books", ONE), "options", "2", "1", ("books", TWO), "options", "2"]
        check("two books: the state", lines_of(state), lines)
        second.begin_again(told_by("a" * 32), 0)
        check("a new book", load(second, "--state", state, "--batch", 2, 7, one)[::2],
              ("new 2 repeats 0 events 3\n", 0))
        check("a new book: the state", lines_of(state), [*lines, ("books", "a" * 32), "options", "2", "1"])


def another_number_is_warned_of_in_its_book():
    """The first events of another number, in the usual place of states: where they are in this book, or may be."""
    file = flow_file("twin.csv", 1, 2, 3, 4, 5, 6, 7)
    told = "its first 7 events were loaded as client 640 too"
    with StandIn(stats=told_by(ONE), name="one") as first, StandIn(stats=told_by(TWO), name="two") as second:
        for at, client, is_warned in [(first, 640, False), (second, 641, False), (second, 640, False),
                                      (first, 642, True), (second, 643, True)]:
            output, error, _ = load(at, client, file)
            check(f"twin {client} {at.name}", (output, told in error), ("new 1 repeats 0 events 7\n", is_warned))
    with StandIn(name="none") as at:
        check("twin, no identity", told in load(at, 644, file)[1], True)
    with StandIn(stats=told_by("c" * 32), name="three") as at:
        found = load(at, 645, file)[1]
        check("twin of a book that isn't known", "were loaded as client 644 too" in found, True)


# Loads after one of an earlier hhmc, whose state has the file `old`: into its book, which tells an identity now, or
# into another one; what they say, and whether the state is taken over then.
OLD = [
    ("its book, the same file", True, "old", [], ("new 0 repeats 2 events 3\n", "", 0), True),
    ("its book, other events", True, "other", [], ("", "batch 0 of client 7 has other events", 2), False),
    ("its book, as many events", True, "alike", [], ("", "batch 0 of client 7 has other events", 2), False),
    ("its book, other events later", True, "later", [], ("", "batch 1 of client 7 has other events", 2), True),
    ("its book, other batches", True, "old", ["--batch", 3], ("", "was loaded with --batch 2, and this", 2), False),
    ("another book, the same file", False, "old", [], ("new 2 repeats 0 events 3\n", "", 0), False),
    ("another book, other events", False, "other", [], ("new 1 repeats 0 events 2\n", "", 0), False),
]


def a_state_without_books_is_taken_over():
    files = {"old": (1, 2, 3), "other": (4, 5), "alike": (2, 1, 3), "later": (1, 2, 4)}
    files = {name: flow_file(f"{name}.csv", *counts) for name, counts in files.items()}
    for what, is_its, name, more, (output, told, status), is_taken in OLD:
        state = path_of(f"{what}.state")
        given = ["--state", state, "--batch", 2]
        with StandIn(name="old") as at:
            check(f"old state: {what}: made", load(at, *given, 7, files["old"])[::2],
                  ("new 2 repeats 0 events 3\n", 0))
            check(f"old state: {what}: its lines", lines_of(state), ["options", "2", "1"])
            at.begin_again(told_by(ONE), 2 if is_its else 0)
            found = load(at, *given, *more, 7, files[name])
            check(f"old state: {what}", (found[0], told in found[1], found[2]), (output, True, status))
            check(f"old state: {what}: taken over", ("owners", ONE) in lines_of(state), is_taken)
            if status == 2:
                check(f"old state: {what}: nothing counts", at.total(), 6)
            if is_its:
                check(f"old state: {what}: then", load(at, *given, 7, files["old"])[::2],
                      ("new 0 repeats 2 events 3\n", 0))
                output, error, status = load(at, *given, 7, files["later"])
                check(f"old state: {what}: then others", (output, "batch 1 of client 7" in error, status),
                      ("", True, 2))
        with StandIn(stats=told_by(TWO), name="new") as at:
            check(f"old state: {what}: a further book", load(at, *given, 7, files["other"])[::2],
                  ("new 1 repeats 0 events 2\n", 0))


def names_of_a_state_without_books():
    """Other names under a number that an earlier hhmc used aren't in the table: the server refuses them."""
    names, state = path_of("old.names"), path_of("named.state")
    given = ["--cols", "1,2", "--map", "name", "--names", names, "--state", state, 7]
    with StandIn(name="named") as at:
        check("old names", load(at, *given, written("old.csv", "a,b\n"))[2], 0)
        at.begin_again(told_by(ONE), 1)
        _, error, status = load(at, *given, written("new.csv", "c,d\ne,f\n"))
        check("other names", (status, "has other events" in error), (2, True))
        check("other names: the table", server.content(names), b"a\nb\n")


def values_have_books_of_their_own():
    """Of two servers one begins again without its files: the load goes on there from the start, by one state."""
    file = written("two.csv", "src,dst,packets,bytes\n0.0.0.1,0.0.0.2,3,40\n0.0.0.2,0.0.0.2,1,2\n")
    state = path_of("values.state")
    with StandIn(stats=told_by(ONE), name="packets") as first, StandIn(stats=told_by(TWO), name="bytes") as second:
        values = ["--value", f"packets=unix:{first.path}", "--value", f"bytes=unix:{second.path}"]
        given = ["load", *values, "--state", state, "--batch", 1, 7, file]
        check("two values", hhmc(*given)[::2], ("new 2 repeats 0 events 2\n", 0))
        lines = [("books", ONE, TWO), "options", "1", "1"]
        check("two values: the state", lines_of(state), lines)
        second.begin_again(told_by("b" * 32), 0)
        check("two values: a new book", hhmc(*given)[::2], ("new 2 repeats 0 events 2\n", 0))
        check("two values: the new state", lines_of(state), [*lines, ("books", "b" * 32), "options", "1", "1"])
        check("two values: totals", (first.total(), second.total()), (4, 42))


def values_take_over_a_state_without_books():
    """Both servers have what is in it, and the load goes on with more at both."""
    lines = ["src,dst,packets,bytes\n", *(f"0.0.0.{place},0.0.0.2,{place},40\n" for place in range(4))]
    state = path_of("grown.state")
    with StandIn(name="packets") as first, StandIn(name="bytes") as second:
        values = ["--value", f"packets=unix:{first.path}", "--value", f"bytes=unix:{second.path}"]
        for end, wanted in [(3, "new 2 repeats 0 events 2\n"), (5, "new 2 repeats 2 events 4\n"),
                            (5, "new 0 repeats 4 events 4\n")]:
            file = written("grown.csv", "".join(lines[:end]))
            check(f"grown values: {wanted}", hhmc("load", *values, "--state", state, "--batch", 1, 7, file)[::2],
                  (wanted, 0))
            first.stats, second.stats = told_by(ONE), told_by(TWO)
        # (the options and the first line were noted before it was known whose the old lines are)
        noted = [("books", ONE, TWO), "options", "1", ("owners", ONE, TWO), "1", "1"]
        check("grown values: the state", lines_of(state), ["options", "1", "1", *noted])


class Moved(Client):
    """A client whose server began again, with another book, right after it was asked which book it has."""

    def book_id(self):
        found, self.has_moved = super().book_id(), hasattr(self, "has_moved")
        if self.has_moved:
            return found
        self.close()
        return ONE


def a_server_that_begins_again_before_the_first_put():
    """The load begins again too, so that the state has the events under the book that got them."""
    state, limit = path_of("moved.state"), Limit(0.0, 0)
    file = flow_file("moved.csv", 1, 2)
    options = hhm_load.Options([file], None, Wanted(None, ()), None, None, state, 10, limit, False)
    with StandIn(stats=told_by(TWO), name="moved") as at, contextlib.redirect_stderr(io.StringIO()) as told:
        found = hhm_load.Load([Moved(unix=at.path, client=7)], options).run()
    check("moved", (found, "loading again from the start" in told.getvalue()), ("new 0 repeats 1 events 2\n", True))
    check("moved: the state", lines_of(state), [("books", ONE), "options", "2", ("books", TWO), "options", "2"])


def one_number_for_two_servers():
    """The built program, in the usual place of states: as a walk through two servers does it."""
    one, other = flow_file("first walk.csv", 1, 2), flow_file("second walk.csv", 3, 4, 5)
    with Server(LARGE, tcp=False) as at:
        check("a walk", load(at, 630, one)[::2], ("new 1 repeats 0 events 2\n", 0))
        with Client(unix=at.path) as hhm:
            has_identity = hhm.book_id() is not None
    with Server(LARGE, tcp=False) as at:
        if has_identity:
            check("another walk", load(at, 630, other)[::2], ("new 1 repeats 0 events 3\n", 0))
            check("another walk: the first file", load(at, 630, one)[::2], ("", 2))
        else:
            print("not tried: one number for two servers: this program tells no identity")


class Refuser(Peer):
    """A server without a batch that refuses each put by one code."""

    name = "refuser"

    def __init__(self, code):
        self.code = code
        super().__init__()

    def meet(self, link):
        with link:
            while frame := frame_of(link):
                is_status = frame[4] == STATUS
                link.sendall(b"\0\0\0\x10\x84" + bytes(16) if is_status else server.refused(self.code))


def a_refusal_that_may_hide_a_batch_keeps_its_names():
    """Of memory, of a log and of codes that aren't known: an earlier try of the batch may have been accepted."""
    for code, is_kept in [(1, True), (33, True), (34, True), (35, True), (19, True), (20, False), (32, False)]:
        names, state = path_of(f"{code}.names"), path_of(f"{code}.state")
        with Refuser(code) as at:
            given = ["--cols", "1,2", "--map", "name", "--names", names, "--state", state, "614"]
            check(f"refused by {code}", load(at, *given, written("refused.csv", "a,b\n"))[2], 1)
        check(f"refused by {code}: what is left", [os.path.exists(it) for it in (names, state)], [is_kept] * 2)


def ctrl_c_says_how_to_go_on():
    """What was put counts, and the same words go on."""
    lines, cells = flows(9, 400)
    text = "source,destination,packets\n" + "".join(lines)
    with Server(LARGE, tcp=False) as at:
        given = ["--batch", 100, "--format", "csv", 12, "-"]
        run = subprocess.Popen(words(at, *given), stdin=subprocess.PIPE, stdout=subprocess.PIPE, stderr=subprocess.PIPE,
                               text=True, env={**os.environ, "XDG_STATE_HOME": path_of("state")})
        run.stdin.write("".join(text.splitlines(keepends=True)[:301]))
        run.stdin.flush()
        ends = time.monotonic() + WAIT
        with Client(unix=at.path) as hhm:
            while hhm.status().batches < 2 and time.monotonic() < ends:
                time.sleep(0.01)
        run.send_signal(signal.SIGINT)
        output, error = run.communicate(timeout=WAIT)
        told = error.startswith("interrupted: new "), "load again with the same words and the same input" in error
        check("Ctrl-C", (output, run.returncode, told), ("", 130, (True, True)))
        again = load(at, *given, input=text)
        check("Ctrl-C, and again", (again[0].split()[5:], again[2]), (["400"], 0))
        check("Ctrl-C: the sum", sum_of(at), added(cells))


def several_values_go_to_servers():
    """One pass over a file puts packets to one server and bytes to another; a question finds the server of a value."""
    table = [(row, col, row + 1, 1000 * row + col) for row in range(50) for col in range(7)]
    lines = [f"0.0.0.{row},0.0.1.{col},{packets},{size}\n" for row, col, packets, size in table]
    file = written("both.csv", "src,dst,packets,bytes\n" + "".join(lines))
    other = path_of("other.sock")
    with Server(LARGE, tcp=False) as at:
        os.rename(at.path, other)
        with Server(LARGE, tcp=False) as of_bytes:
            values = ["--value", f"packets=unix:{other}", "--value", f"bytes=unix:{of_bytes.path}"]
            given = [*values, "--batch", 100, 620, file]
            told = f"{file}: row src, column dst, count packets and bytes\n"
            check("values", hhmc("load", *given), ("new 4 repeats 0 events 350\n", told, 0))
            check("values again", hhmc("load", *given), ("new 0 repeats 4 events 350\n", told, 0))
            with Client(unix=other) as hhm:
                check("packets", hhm.status(), (4, sum(it[2] for it in table)))
                check("packets of a cell", hhm.cell(49, 256 + 3), 50)
            with Client(unix=of_bytes.path) as hhm:
                check("bytes", hhm.status(), (4, sum(it[3] for it in table)))
                check("bytes of a cell", hhm.cell(49, 256 + 3), 49003)
            check("top by bytes", hhmc("top", "rows", 1, "--value", "bytes"), ("49 7 343021\n", "", 0))
            check("top by packets", hhmc("top", "rows", 1, "--value", "packets"), ("49 7 350\n", "", 0))
            one = [*values[2:], *values[:2], "--batch", 100, 620, file]
            check("values in another order", hhmc("load", *one)[2], 2)
            for words in [
                ["top", "rows", "--value", "flows"], ["load", "--value", "a", "--value", "b", 1, file],
                ["load", "--value", "packets=x:y", 1, file], ["--unix", other, "load", *given],
                ["--unix", other, "top", "rows", "--value", "bytes"],
            ]:
                check(f"wrong values {words[:4]}", hhmc(*words)[::2], ("", 2))
            of_bytes.process.kill()
            of_bytes.process.wait()
            output, error, status = hhmc("--attempts", 1, "load", *values, "--batch", 100, 621, file)
            wanted = f"failed: {of_bytes.path}: "
            check("a server of two is gone", (output, error.startswith(wanted), status), ("", True, 4))
            nobody = hhmc("--tcp", "127.0.0.1:9", "--attempts", 1, "load", 622, file)
            wanted = "failed: 127.0.0.1:9: Connection refused: nothing was sent; load again with the same words\n"
            check("no server", nobody, ("", wanted, 4))
        os.rename(other, at.path)


def hhmc(*given):
    """What hhmc writes to both outputs, and its status."""
    environment = {**os.environ, "XDG_STATE_HOME": path_of("state")}
    ended = subprocess.run([sys.executable, HHMC, *map(str, given)], capture_output=True, text=True, timeout=WAIT,
                           env=environment)
    return ended.stdout, ended.stderr, ended.returncode


def killed_and_begun_again(by_names):
    """A load that is killed ten times, and begun again with the same words, counts each event once."""
    lines, cells = flows(5, 200_000)
    file = written("killed.csv", "source,destination,packets\n" + "".join(lines))
    given = ["--map", "name", "--names", path_of("killed.names")] if by_names else []
    given += ["--batch", "100", "8" if by_names else "9", file]
    dice, kills = random.Random(6), 0
    with Server(LARGE, tcp=False) as at:
        for _ in range(10):
            run = subprocess.Popen(words(at, *given), stdout=subprocess.DEVNULL, stderr=subprocess.DEVNULL,
                                   env={**os.environ, "XDG_STATE_HOME": path_of("state")})
            time.sleep(0.1 + dice.random() * 0.4)
            run.send_signal(signal.SIGKILL)
            kills += run.wait() == -signal.SIGKILL
        output, error, status = load(at, *given)
        check(f"killed, names {by_names}", (output.split()[5:], error, status), (["200000"], "", 0))
        check(f"killed, names {by_names}: by a kill", kills > 0, True)
        numbers = {}
        for row, col, _ in cells if by_names else []:
            numbers[row] = numbers[col] = 0
        if by_names:
            told = server.content(path_of("killed.names")).decode().split()
            numbers = {int(ipaddress.ip_address(name)): place for place, name in enumerate(told)}
            cells = [(numbers[row], numbers[col], n) for row, col, n in cells]
        check(f"killed, names {by_names}: the sum", sum_of(at), added(cells))


def a_server_that_went_back():
    """Where the server lost what it had, the load begins again by itself, and says so."""
    lines, cells = flows(7, 40_000)
    file = written("back.csv", "source,destination,packets\n" + "".join(lines))
    with Server(LARGE, tcp=False) as at:
        run = subprocess.Popen(words(at, "--batch", 100, 10, file), stdout=subprocess.PIPE, stderr=subprocess.PIPE,
                               text=True, env={**os.environ, "XDG_STATE_HOME": path_of("state")})
        ends = time.monotonic() + WAIT
        with Client(unix=at.path) as hhm:
            while hhm.status().batches < 20 and time.monotonic() < ends:
                time.sleep(0.01)
        at.process.kill()
        at.process.wait()
    with Server(LARGE, tcp=False) as at:
        output, error = run.communicate(timeout=WAIT)
        check("went back", (output, run.returncode), ("new 400 repeats 0 events 40000\n", 0))
        check("went back: told", "the server went back" in error and "loading again" in error, True)
        check("went back: the sum", sum_of(at), added(cells))


def a_terminal_sees_it_go_on():
    """On a terminal a line is written over once a second, and cleared at the end; elsewhere none is written."""
    lines, _ = flows(8, 400)
    with Server(LARGE, tcp=False) as at:
        ours, theirs = pty.openpty()
        run = subprocess.Popen(words(at, "--batch", 100, "--format", "csv", 11, "-"), stdin=subprocess.PIPE,
                               stdout=subprocess.PIPE, stderr=theirs,
                               env={**os.environ, "XDG_STATE_HOME": path_of("state")})
        os.close(theirs)
        run.stdin.write(("source,destination,packets\n" + "".join(lines[:200])).encode())
        run.stdin.flush()
        # From its first batches on it tells once a second.
        ends = time.monotonic() + WAIT
        with Client(unix=at.path) as hhm:
            while hhm.status().batches < 2 and time.monotonic() < ends:
                time.sleep(0.01)
        time.sleep(1.5)
        output, _ = run.communicate("".join(lines[200:]).encode(), timeout=WAIT)
        told = b""
        try:
            while more := os.read(ours, 4096):
                told += more
        except OSError:
            pass
        os.close(ours)
        check("a terminal: the end", (output, run.returncode), (b"new 4 repeats 0 events 400\n", 0))
        parts = told.split(b"\r")
        check("a terminal: told", b" events, " in told and parts[-1] == b"" and parts[-2].strip() == b"", True)


def all_are_tried():
    a_file_counts_once()
    each_form_is_read()
    other_ways_to_a_text()
    lines_that_are_no_events()
    refusals_tell_the_line()
    names_keep_their_numbers()
    a_refused_load_writes_no_names()
    a_state_is_of_a_book()
    another_number_is_warned_of_in_its_book()
    a_state_without_books_is_taken_over()
    names_of_a_state_without_books()
    values_have_books_of_their_own()
    values_take_over_a_state_without_books()
    a_server_that_begins_again_before_the_first_put()
    one_number_for_two_servers()
    a_load_that_the_server_refuses_leaves_nothing()
    a_refusal_that_may_hide_a_batch_keeps_its_names()
    ctrl_c_says_how_to_go_on()
    several_values_go_to_servers()
    killed_and_begun_again(False)
    killed_and_begun_again(True)
    a_server_that_went_back()
    a_terminal_sees_it_go_on()


if __name__ == "__main__":
    sys.exit(server.run_all(all_are_tried))
