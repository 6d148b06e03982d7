"""Puts to several servers by the clusters of the clients for Rust and C, beside that of Python (cluster.py).

A driver (tests/drivers/cluster.rs, cluster.c) has the servers' addresses, the way, the client's number, the generation,
the size, the most batches and the reserve as its words, and answers each line that it reads by one:
- `put NUMBER ROW COL COUNT ..` puts a batch, and `many BEGIN END ROW COL COUNT ..` one for each number;
- `cell ROW COL`, `row ROW`, `status`, `export` (its lines ended by commas) and `save` ask, and so do `range FIRST LAST
  FIRST LAST PAGE` and `top BY MOST`, by total (0) or by entries (1).
"""
import collections
import contextlib
import os
import random
import shutil
import subprocess
import sys
from unittest import mock

import server
from server import check

HERE = os.path.dirname(os.path.abspath(__file__))
import hhm_cluster  # noqa: E402 (server.py has put the client's folder on the path)
from hhm_cluster import Cluster, Undecided  # noqa: E402
from hosts import SIZE, Hosts, added, batch, sum_in  # noqa: E402
from identities import NO_MEMORY, ONE, TWO, UNKNOWN, told_by  # noqa: E402
from peers import Driver, Liar  # noqa: E402
from stand_in import StandIn  # noqa: E402

# The first rows of each of two servers, by rows, as cluster.py has worked them out.
AT_0, AT_1 = (0, 2, 4, 5), (1, 3, 6, 8)


class Asked(Driver):
    """A program that asks a cluster what it is told."""

    def __init__(self, command, hosts, by, client=7, generation=1, size=SIZE[0], most=1_000_000, reserve=10_000):
        words = [command, ",".join(host.tcp for host in hosts), by, client, generation, size, most, reserve]
        words = [str(word) for word in words]
        self.process = subprocess.Popen(words, stdin=subprocess.PIPE, stdout=subprocess.PIPE, text=True, bufsize=1)

    def put(self, number, cells):
        return self.ask("put", number, *(number for cell in cells for number in cell))


def built():
    """The drivers by language."""
    found, folder = {}, os.path.join(HERE, "drivers")
    clients = os.path.join(HERE, "..", "clients", "c")
    for language, words in [
        ("Rust", ["rustc", "-O", "--edition", "2021", "-D", "warnings", os.path.join(folder, "cluster.rs")]),
        ("C", ["cc", "-O2", "-Wall", "-Wextra", "-Werror", os.path.join(folder, "cluster.c"),
               *(os.path.join(clients, name) for name in ("hhm_client.c", "hhm_cluster.c"))]),
    ]:
        if shutil.which(words[0]) is None:
            print(f"not tried: the cluster for {language}: there is no {words[0]}")
            continue
        found[language] = os.path.join(server.FOLDER, f"cluster {language}")
        ended = subprocess.run([*words, "-o", found[language]], capture_output=True, text=True)
        check(f"{language}: the driver is built", (ended.returncode, ended.stderr), (0, ""))
    return found


def both_cut_alike(language, command, by):
    """What one of two languages has put is a repeat for the other: each part has the cells that it had."""
    name, cells = f"{language} {by}", {number: batch(7, number, 50) for number in range(10)}
    wanted = added(*cells.values())
    status = f"batches 10 total {sum(wanted.values())}"
    with Hosts(f"alike {name}", 4) as hosts:
        with Asked(command, hosts, by) as driver, hosts.cluster(7, by=by) as hhm:
            for number in range(5):
                hhm.put(number, cells[number])
            answers = [driver.put(number, cells[number]).split()[0] for number in range(10)]
            check(f"{name}: puts", set(answers), {"index" if language == "Rust" else "put"})
            check(f"{name}: repeats", len(list(hhm.put_all(cells.items()))), 10)
            check(f"{name}: status", (driver.ask("status"), tuple(hhm.status())), (status, (10, sum(wanted.values()))))
            text = hhm.export()
            check(f"{name}: export", driver.ask("export"), text.decode().replace("\n", ","))
            check(f"{name}: the sum", sum_in(text), wanted)
            (row, col), count = next(iter(wanted.items()))
            check(f"{name}: a cell", driver.ask("cell", row, col), str(count))
            check(f"{name}: no cell", driver.ask("cell", row, 5000), "none")
            total = sum(count for (at, _), count in wanted.items() if at == row)
            check(f"{name}: a row", driver.ask("row", row).split()[3], str(total))
            check(f"{name}: many", driver.ask("many", 100, 140, row, col, 2), "answered 40")
            check(f"{name}: a cell then", driver.ask("cell", row, col), str(count + 80))
            check(f"{name}: beyond", driver.put(200, [(SIZE[0], 0, 1)]), "OutOfRange")


def ranges_and_tops_are_merged(commands, by):
    """Ranges and tops of four servers, to each of which a client has put by source, in each language and in Python."""
    lists = {client: batch(client, 1, 600) + [(7, col, client % 4) for col in range(40)] for client in range(1, 5)}
    cells = sorted((*place, count) for place, count in added(*lists.values()).items())
    ranges = [(0, SIZE[0] - 1, 0, SIZE[1] - 1, 1000), (7, 7, 0, SIZE[1] - 1, 3), (5, SIZE[0] // 3, 10, 2000, 50)]
    with Hosts(f"merged {by}", 4) as hosts:
        for client, put in lists.items():
            with hosts.cluster(client, by=by) as hhm:
                hhm.put(1, put)
        with hosts.cluster(7, by=by) as hhm:
            for first, last, first_col, last_col, page in ranges:
                wanted = [cell for cell in cells if first <= cell[0] <= last and first_col <= cell[1] <= last_col]
                found = list(hhm.range((first, last), (first_col, last_col), page))
                check(f"merged {by}: range {first, last, page}", found == wanted, True)
            check(f"merged {by}: all", list(hhm.range()) == cells, True)
            parts = [cells] if by == "rows" else lists.values()
            tops = [(number, most, top_of([added(part) for part in parts], number, most))
                    for number in (0, 1) for most in (1, 10, 500)]
            for number, most, wanted in tops:
                check(f"merged {by}: top {number} {most}", hhm.top(most, ("total", "entries")[number]), wanted)
        for language, command in commands.items():
            with Asked(command, hosts, by) as driver:
                for first, last, first_col, last_col, page in ranges:
                    wanted = [cell for cell in cells if first <= cell[0] <= last and first_col <= cell[1] <= last_col]
                    found = driver.ask("range", first, last, first_col, last_col, page)
                    check(f"{language} {by}: range {first, last, page}", found == threes(wanted), True)
                check(f"{language} {by}: out of range", driver.ask("range", 0, SIZE[0], 0, 0, 1), "Refused 0 41")
                for number, most, wanted in tops:
                    check(f"{language} {by}: top {number} {most}", driver.ask("top", number, most), threes(wanted))
                check(f"{language} {by}: no top", driver.ask("top", 0, 0), "Refused 0 44")


def tops_are_certain(commands):
    """Sums of servers that are drawn so that few rows lead, or many have as much, of which a row that leads may be far
    down in each server; and what isn't told by the first rows of each, with fewer of them than there may be."""
    for seed in range(9):
        dice, shape = random.Random(seed), ("few", "many", "equal")[seed % 3]
        peers = [StandIn(size=(1000, 1000), name=f"peer {place}") for place in range(dice.choice([2, 3, 4]))]
        with contextlib.ExitStack() as stack:
            for peer in map(stack.enter_context, peers):
                peer.tcp = peer.path
                for _ in range(dice.choice([5, 300])):
                    row = int(1000 * dice.random() ** (4 if shape == "few" else 1))
                    peer.put([(row, dice.randrange(50), 1 if shape == "equal" else dice.randrange(4))])
            hhm = stack.enter_context(Cluster([peer.path for peer in peers], client=1, generation=1, attempts=1))
            drivers = {language: stack.enter_context(Asked(command, peers, "source", client=1))
                       for language, command in commands.items()}
            for number, most in [(0, 1), (1, 1), (0, 10), (1, 10), (0, 200), (1, 200)]:
                wanted = top_of([peer.cells for peer in peers], number, most)
                check(f"certain, {seed}: top {number} {most}", hhm.top(most, ("total", "entries")[number]), wanted)
                for language, driver in drivers.items():
                    found = driver.ask("top", number, most)
                    check(f"certain, {seed}, {language}: top {number} {most}", found, threes(wanted))
    with contextlib.ExitStack() as stack:
        peers = [stack.enter_context(StandIn(size=(1000, 1000), name=f"peer {place}")) for place in range(2)]
        for place, peer in enumerate(peers):
            peer.put([(2 * row + place, 0, 1 + row % 2) for row in range(300)])
        with Cluster([peer.path for peer in peers], client=1, generation=1, attempts=1) as hhm:
            with mock.patch.object(hhm_cluster, "MAX_PAGE", 100):
                try:
                    check("undecided", hhm.top(1), None)
                except Undecided as fault:
                    told = "which 1 rows lead by total isn't told by the first 100 of each server"
                    check("undecided", str(fault), told)
            check("decided by more", hhm.top(1), [(2, 1, 2)])


def threes(cells):
    return " ".join("%d,%d,%d" % tuple(cell) for cell in cells)


def top_of(parts, number, most):
    """The rows that lead in sums, by total (0) or by entries (1), with the numbers of all of them added up."""
    sums = collections.defaultdict(lambda: [0, 0])
    for part in parts:
        for (row, _), count in part.items():
            sums[row][0] += 1
            sums[row][1] += count
    return sorted(((row, *sum) for row, sum in sums.items()), key=lambda it: (-it[2 - number], it[0]))[:most]


def servers_begin_again(language, command, by):
    """A server that went back is told, with its place, and what it lacks is put again."""
    name, cells = f"{language} {by}", {number: batch(7, number, 50) for number in range(8)}
    with Hosts(f"again {name}", 4) as hosts, Asked(command, hosts, by) as driver:
        for number in range(3):
            driver.put(number, cells[number])
        check(f"{name}: saves", driver.ask("save").split()[0], "saved")
        for number in range(3, 6):
            driver.put(number, cells[number])
        place = 3 if by == "source" else 2
        hosts[place].kill()
        check(f"{name}: a server is gone", driver.put(6, cells[6]), f"Failed {place}")
        hosts[place].start(hosts[place].tcp)
        check(f"{name}: a server went back", driver.put(6, cells[6]), f"WentBack [{place}]")
        for number in range(3, 8):
            driver.put(number, cells[number])
        with hosts.cluster(7, by=by) as hhm:
            check(f"{name}: the sum", sum_in(hhm.export()), added(*cells.values()))


def another_book_is_told(language, command, by):
    """The second of two servers begins again with all of its batches, and tells of its book what it did, or else."""
    word = {"Rust": "index", "C": "put"}[language]
    for first, second, wanted in [
        (ONE, TWO, "WentBack [1]"), (ONE, ONE, word), (None, None, word), (UNKNOWN, UNKNOWN, word),
        (ONE, UNKNOWN, word), (UNKNOWN, TWO, word), (NO_MEMORY, NO_MEMORY, word),
    ]:
        name, size = f"{language} {by} {first} {second}", (SIZE[0], SIZE[0])
        with contextlib.ExitStack() as stack:
            servers = [stack.enter_context(StandIn(size, told_by(first), name=f"at {place}")) for place in range(2)]
            for at in servers:
                at.tcp = at.path
            driver = stack.enter_context(Asked(command, servers, by))
            for number in range(3):
                driver.put(number, batch(7, number, 50))
            servers[1].begin_again(told_by(second), 1000)
            found = driver.put(3, batch(7, 3, 50))
            check(f"{name}: another book", found if found.startswith("WentBack") else found.split()[0], wanted)
            check(f"{name}: on", driver.put(3, batch(7, 3, 50)).split()[0], word)
            total = sum(count for number in range(4) for *_, count in batch(7, number, 50))
            check(f"{name}: status", driver.ask("status"), f"batches 4 total {total}")


def other_maps_are_told(language, command, by):
    name = f"{language} {by}"
    with Hosts(f"other {name}", 3) as hosts:
        with hosts.cluster(7, by=by) as hhm:
            hhm.put(1, [(row, 0, 1) for row in AT_0 + AT_1])
        before = [total for _, total in hosts.books()]
        for what, order, more in [
            ("exchanged", [hosts[1], hosts[0], hosts[2]], {}), ("one less", hosts[:2], {}),
            ("another generation", hosts, {"generation": 2}), ("the other way", hosts, {}),
        ]:
            way = by if what != "the other way" else {"rows": "source", "source": "rows"}[by]
            with Asked(command, order, way, **more) as driver:
                check(f"{name}: {what}", driver.put(2, [(0, 0, 1)]), "OtherMap 0")
        check(f"{name}: nothing is put", [total for _, total in hosts.books()], before)


def refused_markers_are_told(language, command):
    for code, wanted in [(34, "Refused 0 34"), (35, "Refused 0 35"), (30, "OtherMap 0"), (32, "OtherMap 0")]:
        with Liar(server.refused(code)) as liar:
            liar.tcp = liar.path
            with Asked(command, [liar], "rows") as driver:
                check(f"{language}: a marker, refused by {code}", driver.put(1, [(0, 0, 1)]), wanted)


def addresses_are_exact(language, command):
    """An address with `unix:` or `tcp:` is one of that kind; nothing begins where it may be a path or a host."""
    with Liar(server.refused(34)) as liar:
        liar.tcp = f"unix:{liar.path}"
        with Asked(command, [liar], "rows") as driver:
            check(f"{language}: {liar.tcp}", driver.put(1, [(0, 0, 1)]), "Refused 0 34")
    with Hosts(f"kinds {language}", 1) as hosts:
        hosts[0].tcp = f"tcp:{hosts[0].tcp}"
        with Asked(command, hosts, "rows") as driver:
            check(f"{language}: {hosts[0].tcp}", driver.put(1, [(0, 0, 1)]).split()[0] in ("index", "put"), True)
    words = [command, "unix:7000", "rows", "7", "1", str(SIZE[0]), "1000000", "10000"]
    ended = subprocess.run(words, input="status\n", capture_output=True, text=True)
    check(f"{language}: unix:7000", (ended.returncode != 0, ended.stdout), (True, ""))


def books_are_full(language, command, by):
    name, place = f"{language} {by}", 0 if by == "rows" else 1
    with Hosts(f"full {name}", 2, more=["--max-batches", "20"]) as hosts:
        with Asked(command, hosts, by, most=20, reserve=5) as driver:
            check(f"{name}: up to the reserve", driver.ask("many", 0, 14, 1, 1, 1), "answered 14")
            check(f"{name}: no more", driver.put(14, [(1, 1, 1)]), f"Full {place}")
            hosts[place].kill()
            hosts[place].start(hosts[place].tcp)
            check(f"{name}: it went back", driver.put(14, [(1, 1, 1)]), f"WentBack [{place}]")
            check(f"{name}: all again", driver.ask("many", 0, 14, 1, 1, 1), "answered 14")
            check(f"{name}: full again", driver.put(14, [(1, 1, 1)]), f"Full {place}")
        with Asked(command, hosts, by, most=20, reserve=5) as driver:
            check(f"{name}: repeats", driver.ask("many", 0, 14, 1, 1, 1), "answered 14")
        with Asked(command, hosts, by, most=1000, reserve=0) as driver:
            check(f"{name}: the server says so", driver.ask("many", 14, 20, 1, 1, 1), f"Full {place}")
            check(f"{name}: the sum", driver.ask("cell", 1, 1), "19")


def halves_are_told(language, command):
    with Hosts(f"half {language}", 2, more=["--limit", "100"]) as hosts, Asked(command, hosts, "rows") as driver:
        driver.put(1, [(AT_0[0], 0, 90), (AT_1[0], 0, 90)])
        refused = driver.put(2, [(AT_0[0], 0, 20), (AT_1[0], 0, 5)])
        check(f"{language}: the first refuses", refused, "Refused 0 31")
        check(f"{language}: nothing is put", hosts.books(), [(2, 90), (2, 90)])
        refused = driver.put(3, [(AT_0[0], 0, 5), (AT_1[0], 0, 20)])
        check(f"{language}: the second refuses", refused, "Half 3: 1 31")
        check(f"{language}: a part is there", hosts.books(), [(3, 95), (2, 90)])


def all_are_tried():
    commands = built()
    for by in ("source", "rows"):
        ranges_and_tops_are_merged(commands, by)
    tops_are_certain(commands)
    for language, command in commands.items():
        for by in ("source", "rows"):
            both_cut_alike(language, command, by)
            servers_begin_again(language, command, by)
            another_book_is_told(language, command, by)
            other_maps_are_told(language, command, by)
            books_are_full(language, command, by)
        halves_are_told(language, command)
        refused_markers_are_told(language, command)
        addresses_are_exact(language, command)


if __name__ == "__main__":
    sys.exit(server.run_all(all_are_tried))
