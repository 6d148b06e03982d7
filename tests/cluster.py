#!/usr/bin/env python3
"""Puts to several of the built program at once by the cluster of the client for Python, while servers and feeders fail.

    python3 tests/cluster.py PATH-TO-HHM

Each case ends with the sum that a dictionary has of the same batches, or with the refusal that docs/CLUSTER.md names.
It prints a line for each check that fails and at the end `N passed, M failed`; the status is 1 where one fails. Linux,
and nothing but Python's own library.
"""
import itertools
import os
import random
import signal
import struct
import sys
import threading
import time

import cluster_clients
import mirrors
import queues
import server
from server import check

sys.path.insert(0, os.path.join(os.path.dirname(os.path.abspath(__file__)), "..", "clients", "python"))
from hhm_client import Arrays, Refused, RowSum  # noqa: E402
from hhm_cluster import (  # noqa: E402
    MARKER, Cluster, Full, Half, OtherMap, Several, WentBack, cut, marker_of, merged, place_of_row,
)
from hosts import SIZE, WAIT, Feeder, Hosts, added, batch, sum_in, until  # noqa: E402
from peers import Liar  # noqa: E402

WAYS = ("source", "rows")
# The first few rows of each of two servers, by rows, worked out from the golden ratio, 0x9E3779B97F4A7C15.
# Of so many times that, modulo 2^64, the highest bit is the place: 0 for the rows 0, 2, 4, 5, and 1 for 1, 3, 6, 8.
AT_0, AT_1 = (0, 2, 4, 5), (1, 3, 6, 8)


def told(call):
    """What a call ends with: the name of a fault of a cluster with what it says of servers, or its answer."""
    try:
        return call()
    except Half as fault:
        return "Half", fault.number, {place: str(why) for place, why in fault.refusals.items()}
    except (OtherMap, Full) as fault:
        return type(fault).__name__, fault.place
    except WentBack as fault:
        return "WentBack", sorted(fault.servers)
    except Refused as fault:
        return "Refused", str(fault)
    except OSError:
        return "OSError"
    except ValueError:
        return "ValueError"


def ones(rows):
    return [(row, 0, 1) for row in rows]


def places_are_known():
    """Of four servers the two highest bits of so many times the golden ratio are the place."""
    wanted = {0: 0, 1: 2, 2: 0, 3: 3, 4: 1, (1 << 60) - 1: 2}
    check("places of four", {row: place_of_row(row, 4) for row in wanted}, wanted)
    check("places of two", [[place_of_row(row, 2) for row in rows] for rows in (AT_0, AT_1)], [[0] * 4, [1] * 4])
    check("the place of one", {place_of_row(row, 1) for row in range(1000)}, {0})
    for name, rows in [("in turn", range(100_000)), ("of a step", range(0, 100_000 << 32, 1 << 32))]:
        counts = [0] * 7
        for row in rows:
            counts[place_of_row(row, 7)] += 1
        check(f"rows {name}: seven parts of a size", max(counts) - min(counts) < 100_000 // 100, True)
    maps = itertools.product(range(20), WAYS, range(1, 20), range(19))
    markers = [marker_of(*these) for these in maps]
    check("markers", (len(set(markers)), max(markers) < 1 << 64), (len(markers), True))
    # (of docs/FORMATS.md, as a program in C has them)
    known = [0x3412C4AB43135805, 0x4E1966CA6315AE59, 0xE4320FEA36BAF41B, 0xA00204114B1744BB]
    check("known markers", [marker_of(1, "rows", 4, place) for place in range(4)], known)


def parts_are_cut():
    """Parts have all cells, in their order, each at its place; with numpy the same."""
    cells = batch(1, 1, 2000)
    body = b"".join(struct.pack(">QQQ", *cell) for cell in cells)
    plain = [b"".join(struct.pack(">QQQ", *cell) for cell in cells if place_of_row(cell[0], 3) == place)
             for place in range(3)]
    check("parts", cut(body, 3), plain)
    check("parts of nothing", cut(b"", 3), [b"", b"", b""])
    try:
        import numpy
    except ImportError:
        print("not tried: parts by numpy: there is no numpy")
        return
    check("parts by numpy", cut(body, 3), plain)
    check("no parts by numpy", cut(b"", 3), [b"", b"", b""])
    del sys.modules["numpy"], numpy


def sums_are_exact(by):
    """Five clients, and what a reader is answered."""
    lists = {client: [batch(client, number) for number in range(5)] for client in range(5)}
    wanted = added(*itertools.chain(*lists.values()))
    with Hosts(f"exact {by}", 4) as hosts:
        for client, all_cells in lists.items():
            with hosts.cluster(client, by=by, size=SIZE) as hhm:
                check(f"{by}: put", len(hhm.put(0, all_cells[0])), 4 if by == "rows" else 1)
                answers = [number for number, _ in hhm.put_all(enumerate(all_cells))]
                check(f"{by}: put all, one again", answers, [0, 1, 2, 3, 4])
                arrays = Arrays(*(memoryview(b"".join(struct.pack("=Q", n) for n in part)).cast("Q")
                                  for part in zip(*all_cells[4])))
                check(f"{by}: arrays are the same batch", list(hhm.put_all([(4, arrays)]))[0][0], 4)
        with hosts.cluster(by=by) as hhm:
            check(f"{by}: the sum", sum_in(hhm.export()), wanted)
            check(f"{by}: in order", hhm.export().split(b"\n")[1:3], text_of(wanted)[1:3])
            check(f"{by}: the whole text", hhm.export().split(b"\n"), text_of(wanted))
            check(f"{by}: status", hhm.status(), (25, sum(wanted.values())))
            check(f"{by}: stored", hhm.stored(), (25, sum(wanted.values())))
            reads_are_right(by, hhm, wanted)
            markers = [part.marker for part in hhm.parts]
            check(f"{by}: saved", hhm.save(), [26] * 4 if by == "rows" else [11, 6, 6, 6])
        for host, marker in zip(hosts, markers):
            with host.client(MARKER) as hhm:
                check(f"{by}: the marker is the first", hhm.put(marker, []), (0, 0))


def text_of(wanted):
    """The lines of a canonical text."""
    head = [b"%%MatrixMarket matrix coordinate integer general", b"%d %d %d" % (*SIZE, len(wanted))]
    return [*head, *(b"%d %d %d" % (row + 1, col + 1, wanted[row, col]) for row, col in sorted(wanted)), b""]


def reads_are_right(by, hhm, wanted):
    some = [*random.Random(1).sample(sorted(wanted), 20), (5, 5)]
    check(f"{by}: cells", [hhm.cell(*cell) for cell in some], [wanted.get(cell) for cell in some])
    for row in {row for row, _ in some[-5:]}:
        cells = [count for (at, _), count in wanted.items() if at == row]
        answer = hhm.row(row)
        check(f"{by}: the sum of a row", answer.total, sum(cells))
        if by == "rows":
            check(f"{by}: a row", answer, RowSum(len(cells), sum(cells)))


def a_row_needs_its_server_alone():
    """By rows a cell and a row are answered while the other servers are gone; by source they aren't."""
    for by, answer in [("rows", 1), ("source", "OSError")]:
        with Hosts(f"alone {by}", 2) as hosts:
            with hosts.cluster(1, by=by, attempts=1) as hhm:
                hhm.put(1, ones(range(8)))
                hosts[1].kill()
                check(f"alone, {by}: a cell", told(lambda: hhm.cell(AT_0[1], 0)), answer)
                gone = told(lambda: hhm.cell(AT_1[1], 0))
                check(f"alone, {by}: another's", gone, "OSError")


def servers_and_feeders_fail(by, logged):
    """Servers are killed and begin again, at other ports, from their snapshots and logs, and feeders begin again behind
    what is durable: the sum has each batch once, before a further kill of all servers and after it."""
    name = f"{by} {'logs' if logged else 'snapshots'}"
    dice, end, clients = random.Random(name), 40, range(4, 8)
    wanted = added(*(batch(client, number) for client in clients for number in range(end)))
    with Hosts(f"fail {name}", 4, logged=logged) as hosts:
        feeders = [Feeder(hosts, by, client, end, logged) for client in clients]
        for share in (0.15, 0.3, 0.45, 0.6, 0.75):
            most = share * end * len(feeders)
            check(f"{name}: it goes on", until(lambda: sum(it.accepted + 1 for it in feeders) >= most), True)
            for one in [dice.choice(hosts), dice.choice(feeders)]:
                one.restart()
        check(f"{name}: feeders end", [feeder.wait() for feeder in feeders], [0] * 4)
        for when in ("then", "after all were killed"):
            with hosts.cluster(by=by) as hhm:
                check(f"{name}: the sum {when}", sum_in(hhm.export()), wanted)
                check(f"{name}: batches {when}", hhm.status(), (end * len(feeders), sum(wanted.values())))
            for host in hosts:
                host.restart()


def books_that_went_back_are_told(by):
    """Without `keep`: the call says which servers lack something, and all since the save is put again."""
    with Hosts(f"back {by}", 4) as hosts:
        batches = {number: batch(9, number) for number in range(8)}
        with hosts.cluster(9, by=by, attempts=3) as hhm:
            list(hhm.put_all((number, batches[number]) for number in range(3)))
            hhm.save()
            list(hhm.put_all((number, batches[number]) for number in range(3, 6)))
            lost = [1, 2] if by == "rows" else [1]
            for place in lost:
                hosts[place].restart()
            check(f"back, {by}: told", told(lambda: hhm.put(6, batches[6])), ("WentBack", lost))
            # (where several went back, those that the first call didn't come to are told by the next)
            list(hhm.put_all((number, batches[number]) for number in range(3, 7)))
            hosts[1].kill()
            check(f"back, {by}: gone", told(lambda: hhm.put(7, batches[7])), "OSError")
            hosts[1].start()
            check(f"back, {by}: told again", told(lambda: hhm.put(7, batches[7])), ("WentBack", [1]))
            check(f"back, {by}: put again", len(list(hhm.put_all((n, batches[n]) for n in range(3, 8)))), 5)
            check(f"back, {by}: the sum", sum_in(hhm.export()), added(*batches.values()))


def another_map_is_told():
    """Whatever of the map is another, nothing is counted by it; the map itself goes on."""
    for by, other in [WAYS, reversed(WAYS)]:
        with Hosts(f"map {by}", 4) as hosts, Hosts(f"new {by}", 2) as new:
            first, cells = batch(3, 1), batch(3, 2)
            with hosts.cluster(3, by=by) as hhm:
                hhm.put(1, first)
            before = hosts.books()
            exchanged = [hosts[1], hosts[0], *hosts[2:]]
            for what, order, how in [
                ("one server less", hosts[:3], {}), ("one more", [*hosts, new[0]], {}), ("exchanged", exchanged, {}),
                ("another for one", [*hosts[:3], new[1]], {"generation": 2}), ("another generation", hosts,
                {"generation": 2}), ("the other way", hosts, {"by": other}),
            ]:
                with hosts.cluster(3, order=order, **{"by": by, "attempts": 2, **how}) as hhm:
                    # (each number more than one of a cell's counts would show in the totals below)
                    check(f"{by}, {what}", told(lambda: hhm.put(2, cells))[0], "OtherMap")
                    check(f"{by}, {what}: a read", told(hhm.export)[0], "OtherMap")
            check(f"{by}: nothing counts", [total for _, total in hosts.books()], [total for _, total in before])
            check(f"{by}: nothing on new servers", [total for _, total in new.books()], [0, 0])
            with hosts.cluster(3, by=by) as hhm:
                hhm.put(2, cells)
                check(f"{by}: the map goes on", sum_in(hhm.export()), added(first, cells))


def a_new_generation_goes_on():
    """Other servers, another number and way: the sum of both generations is that of all."""
    cells = [batch(3, number) for number in range(8)]
    with Hosts("old", 2) as old, Hosts("new", 3) as new:
        with old.cluster(3, by="rows") as before, new.cluster(3, generation=2, by="source") as after:
            list(before.put_all(enumerate(cells[:5])))
            list(after.put_all(enumerate(cells[5:], 5)))
            check("two generations", sum_in(merged([before.export(), after.export()])), added(*cells))


def a_server_that_was_used_is_told():
    """A book that a client without a map began."""
    with Hosts("used", 2) as hosts:
        with hosts[1].client(5) as hhm:
            hhm.put(1, ones(AT_0))
        with hosts.cluster(5, by="rows") as hhm:
            check("used", told(lambda: hhm.put(2, ones(range(8)))), ("OtherMap", 1))
        check("used: nothing is put", [total for _, total in hosts.books()], [0, 4])


def a_refused_marker_is_told():
    """That a log has no room says nothing of the map; that the marker's number is another batch's, or that a full book
    lacks it, does."""
    for code, wanted in [(34, ("Refused", "LogFull")), (35, ("Refused", "LogFailed")), (30, ("OtherMap", 0)),
                         (32, ("OtherMap", 0))]:
        with Liar(server.refused(code)) as liar, Cluster([liar.path], client=1, generation=1) as hhm:
            check(f"a marker, refused by {code}", told(lambda: hhm.put(1, [])), wanted)


def a_full_book_is_told(by):
    """Of 20 places one is the marker's and five the reserve's: 14 batches. A run that begins again puts them again, and
    goes into the reserve by one call, no more."""
    with Hosts(f"full {by}", 2, more=["--max-batches", "20"]) as hosts:
        how = {"by": by, "max_batches": 20, "reserve": 5}
        place = 0 if by == "rows" else 1
        with hosts.cluster(1, **how) as hhm:
            list(hhm.put_all((number, ones([number])) for number in range(13)))
            check(f"full, {by}: the last but the reserve", len(hhm.put(13, ones([13]))), 2 if by == "rows" else 1)
            check(f"full, {by}: no more", told(lambda: hhm.put(14, ones([14]))), ("Full", place))
            check(f"full, {by}: batches", hhm.status(), (14, 14))
            hosts[place].restart()
            check(f"full, {by}: it went back", told(lambda: hhm.put(14, ones([14]))), ("WentBack", [place]))
            check(f"full, {by}: all again", len(list(hhm.put_all((n, ones([n])) for n in range(14)))), 14)
            check(f"full, {by}: full again", told(lambda: hhm.put(14, ones([14]))), ("Full", place))
        with hosts.cluster(1, **how) as hhm:
            check(f"full, {by}: repeats", [n for n, _ in hhm.put_all((n, ones([n])) for n in range(14))], [*range(14)])
            check(f"full, {by}: one more", len(hhm.put(14, ones([14]))), 2 if by == "rows" else 1)
            check(f"full, {by}: no more", told(lambda: hhm.put(15, ones([15]))), ("Full", place))
        # Without a reserve the server refuses, and by rows the first does before the others are asked.
        with hosts.cluster(1, by=by, max_batches=1000, reserve=0) as hhm:
            for number in range(15, 19):
                hhm.put(number, ones([number]))
            check(f"full, {by}: the last place", told(lambda: hhm.put(19, ones([19]))), ("Full", place))
        check(f"full, {by}: books", hosts.books()[1][0], 20)
        with hosts.cluster(1, by=by, max_batches=1000, reserve=0) as hhm:
            check(f"full, {by}: the sum", sum_in(hhm.export()), added(ones(range(19))))


def a_half_batch_is_told():
    """By rows: what the first refuses is put nowhere, what another refuses is told with its number and the refusal."""
    with Hosts("half", 2, more=["--limit", "100"]) as hosts, hosts.cluster(1, by="rows", size=SIZE) as hhm:
        check("half: in all", len(hhm.put(1, [(AT_0[0], 0, 90), (AT_1[0], 0, 90)])), 2)
        first = told(lambda: hhm.put(2, [(AT_0[0], 0, 20), (AT_1[0], 0, 5)]))
        check("half: the first refuses", first, ("Refused", "OverTotal: 90 accepted"))
        check("half: nothing is put", hosts.books(), [(2, 90), (2, 90)])
        second = told(lambda: hhm.put(3, [(AT_0[0], 0, 5), (AT_1[0], 0, 20)]))
        check("half: the second refuses", second, ("Half", 3, {1: "OverTotal: 90 accepted"}))
        check("half: it is there in part", hosts.books(), [(3, 95), (2, 90)])
        check("half: a used number, told by the first", told(lambda: hhm.put(1, [(AT_1[0], 0, 1)])),
              ("Refused", "NumberReused"))
        hhm.put(4, [(AT_1[0], 0, 1)])
        check("half: a used number", told(lambda: hhm.put(4, [(AT_1[0], 0, 2)])), ("Half", 4, {1: "NumberReused"}))
        many = hhm.put_all([(5, []), (6, [(AT_1[0], 0, 50)]), (7, [])])
        check("half: those before it are given", next(many)[0], 5)
        check("half: then it is told", told(lambda: next(many)), ("Half", 6, {1: "OverTotal: 91 accepted"}))
        far = [(AT_0[0], 0, 1), (SIZE[0], 0, 1)]
        check("half: a cell beyond", told(lambda: hhm.put(8, far)), "ValueError")
        check("half: nothing of it is put", hosts.books()[0][1], 95)


def a_used_number_is_told_by_an_empty_part():
    """A pair that was used for rows of one server is known to all, since empty parts are sent too."""
    with Hosts("used pair", 2) as hosts, hosts.cluster(1, by="rows") as hhm:
        hhm.put(7, ones(AT_0[:2]))
        check("a used pair", told(lambda: hhm.put(7, ones(AT_1[:2]))), ("Refused", "NumberReused"))
        check("a used pair: books", hosts.books(), [(2, 2), (2, 0)])


class Rang(Exception):
    """What a handler of a signal raises."""


def ring(*_):
    raise Rang


def interrupted_calls_are_made_again():
    """A call that waits for a server is left by a signal, and made again while that server still doesn't answer: each
    batch counts once."""
    signal.signal(signal.SIGALRM, ring)
    try:
        for place in range(2):
            with Hosts(f"rings {place}", 2) as hosts, hosts.cluster(1, by="rows") as hhm:
                hhm.put(1, ones(range(8)))
                hosts[place].hold()
                try:
                    signal.setitimer(signal.ITIMER_REAL, 0.2)
                    hhm.put(2, ones(range(8)))
                    check(f"rang at {place}: a call that waits", False, True)
                except Rang:
                    pass
                finally:
                    signal.setitimer(signal.ITIMER_REAL, 0)
                    threading.Timer(0.2, hosts[place].process.send_signal, [signal.SIGCONT]).start()
                check(f"rang at {place}: again", len(hhm.put(2, ones(range(8)))), 2)
                check(f"rang at {place}: once", (hhm.status(), hhm.cell(3, 0)), ((2, 16), 2))
    finally:
        signal.signal(signal.SIGALRM, signal.SIG_DFL)


class Slow:
    """What is asked as a server. Where it doesn't answer at once it has the main thread interrupted, and answers once it
    is given up."""

    def __init__(self, place, is_slow):
        self.place, self.events, self.may_go_on = place, [], threading.Event()
        if not is_slow:
            self.may_go_on.set()

    def ask(self):
        self.events.append("begins")
        if not self.may_go_on.is_set():
            signal.pthread_kill(threading.main_thread().ident, signal.SIGINT)
        self.may_go_on.wait()
        self.events.append("ends")
        return self.place

    def give_up(self):
        self.events.append("is given up")
        self.may_go_on.set()

    def begin_again(self):
        self.events.append("begins again")

    def close(self):
        self.events.append("is closed")


def ask_all(hhm):
    return hhm._ask(hhm.parts, Slow.ask)


def ask_after_a_fork(hhm):
    """Asks all in a process that is made meanwhile, which waits for none of this one's threads."""
    child = os.fork()
    if not child:
        try:
            hhm.parts[1].may_go_on.set()
            os._exit(0 if ask_all(hhm) == [0, 1] and "is given up" not in hhm.parts[1].events else 1)
        finally:
            os._exit(1)
    check("asked after a fork", os.waitpid(child, 0)[1], 0)
    ask_all(hhm)


def one_call_comes_after_the_other():
    """A call, and a close, begins with no server that an interrupted one still asks."""
    before = signal.signal(signal.SIGINT, signal.default_int_handler)
    for then, wanted in [(ask_all, ["begins", "ends"]), (ask_after_a_fork, ["begins", "ends"]),
                         (Several.close, ["is closed"])]:
        hhm = Several([Slow(0, False), Slow(1, True)])
        try:
            ask_all(hhm)
            check("interrupted", False, True)
        except KeyboardInterrupt:
            pass
        then(hhm)
        check(f"one after the other, then {wanted[0]}", hhm.parts[1].events,
              ["begins", "is given up", "ends", "begins again", *wanted])
    signal.signal(signal.SIGINT, before)


def an_interrupted_call_ends_soon():
    """One that waits for a server which answers nothing: at what was sent, between two attempts, or at a greeting."""
    for place, is_there, is_known in [(0, True, True), (1, True, True), (1, True, False), (1, False, True)]:
        name = f"ends soon {place} {is_there} {is_known}"
        with Hosts(name, 2) as hosts:
            hhm = hosts.cluster(1, by="rows", pause=WAIT, timeout=WAIT)
            hhm.put(1, ones(range(8)))
            if is_there:
                hosts[place].hold()
            else:
                hosts[place].kill()
            if not is_known:
                hhm.parts[place].close()
            begun = time.monotonic()
            signal.signal(signal.SIGALRM, ring)
            signal.setitimer(signal.ITIMER_REAL, 0.5)
            try:
                hhm.put(2, ones(range(8)))
                check(f"{name}: a call that waits", False, True)
            except Rang:
                pass
            signal.signal(signal.SIGALRM, signal.SIG_DFL)
            hhm.close()
            check(f"{name}: in time", time.monotonic() - begun < WAIT / 2, True)
            hosts[place].process.send_signal(signal.SIGCONT)


def all_are_tried():
    places_are_known()
    parts_are_cut()
    for by in WAYS:
        sums_are_exact(by)
        for logged in (False, True):
            servers_and_feeders_fail(by, logged)
        books_that_went_back_are_told(by)
        a_full_book_is_told(by)
    a_row_needs_its_server_alone()
    another_map_is_told()
    a_new_generation_goes_on()
    a_server_that_was_used_is_told()
    a_refused_marker_is_told()
    a_half_batch_is_told()
    a_used_number_is_told_by_an_empty_part()
    one_call_comes_after_the_other()
    an_interrupted_call_ends_soon()
    interrupted_calls_are_made_again()
    mirrors.all_are_tried()
    cluster_clients.all_are_tried()
    queues.all_are_tried()


if __name__ == "__main__":
    sys.exit(server.run_all(all_are_tried))
