"""Two servers that have the same batches, and edges whose sums go to a root, while each of them fails (cluster.py)."""
import os
import shutil
import subprocess
import sys
import threading

import server
from server import check

HERE = os.path.dirname(os.path.abspath(__file__))
CLIENTS = os.path.join(HERE, "..", "clients", "python")
from hhm_mirror import Mirror  # noqa: E402 (server.py has put the client's folder on the path)
from hhm_snapshot import read_snapshot  # noqa: E402
from hosts import Hosts, added, batch, sum_in, until  # noqa: E402
from peers import Gate, fault_of  # noqa: E402
from program import FIVE, NONE, ONE, snapshot  # noqa: E402
from server_faults import in_folder, write  # noqa: E402
from snap_bytes import BOOK, MOST, Origin  # noqa: E402

WAIT = 60


def script(name, *words):
    """What a program of the client's folder writes to both outputs, and its status."""
    given = [sys.executable, os.path.join(CLIENTS, name), *map(str, words), "--program", server.PROGRAM]
    ended = subprocess.run(given, capture_output=True, text=True, timeout=WAIT)
    return ended.stdout, ended.stderr, ended.returncode


def hhm(*words):
    return subprocess.run([server.PROGRAM, *words], capture_output=True, timeout=WAIT)


def snap(host):
    return host.base + ".snap"


def brought_up(a, b):
    """What hhm_mirror.py writes that puts to B what it lacks of A, once both have saved."""
    for host in (a, b):
        with host.client() as link:
            link.save()
    return script("hhm_mirror.py", snap(a), snap(b), b.tcp)


def sums(hosts):
    found = []
    for host in hosts:
        with host.client() as link:
            found.append(sum_in(link.export()))
    return found


def mirror_of(hosts, client, **how):
    one, other = (lambda host=host: host.tcp for host in hosts)
    return Mirror(one, other, client=client, attempts=2, timeout=WAIT, **how)


def mirrors_are_brought_up():
    """Puts go to both; B is away and brought up from A, then A from B, while puts go on: the sums are the same."""
    wanted = added(*(batch(client, number) for client in (1, 2) for number in range(20)))
    with Hosts("mirror", 2) as hosts, mirror_of(hosts, 1, alone=True) as one, mirror_of(hosts, 2, alone=True) as two:
        a, b = hosts

        def put(begin, end, clients=(one, two)):
            return [len(replies) for hhm in clients
                    for _, replies in hhm.put_all((n, batch(hhm.client, n)) for n in range(begin, end))]

        check("mirror: both", put(0, 5), [2] * 10)
        check("mirror: saves", one.save(), [10, 10])
        check("mirror: both again", put(5, 8), [2] * 6)
        b.kill()
        check("mirror: alone", put(8, 12), [1] * 8)
        check("mirror: who is away", (one.away, two.away), ({1}, {1}))
        b.start()
        one.back()
        two.back()
        # What B lost since its save: its clients know, and are told so.
        check("mirror: it went back", fault_of(lambda: put(12, 13, [one])), "WentBack")
        check("mirror: it went back, two", fault_of(lambda: put(12, 13, [two])), "WentBack")
        check("mirror: both, in another order", put(12, 14, [two, one]), [2] * 4)
        # (5, 6 and 7, which B lost, and 8 to 11, of both clients)
        check("mirror: B is brought up", brought_up(a, b), ("batches 28 lacked 14 put 14 not compared 0\n", "", 0))
        check("mirror: nothing is lacked", brought_up(a, b), ("batches 28 lacked 0 put 0 not compared 0\n", "", 0))
        a.kill()
        check("mirror: alone at B", put(14, 17), [1] * 6)
        a.start()
        one.back()
        two.back()
        check("mirror: both then", put(17, 20), [2] * 6)
        check("mirror: A is brought up", brought_up(b, a), ("batches 40 lacked 6 put 6 not compared 0\n", "", 0))
        check("mirror: the sums", sums(hosts) == [wanted, wanted], True)
        one.save()
        exports = [hhm("export", snap(host)).stdout for host in hosts]
        check("mirror: exports", exports[0] == exports[1], True)


def mirrors_that_differ_are_told():
    with Hosts("differ", 2) as hosts:
        a, b = hosts
        with a.client(1) as one, b.client(1) as other:
            for number, here, there in [
                (1, [(1, 1, 5)], [(1, 1, 6)]), (2, [(1, 1, 5)], [(2, 2, 5)]), (3, [(1, 1, 5)], None),
                (4, [(1, 1, 5)], [(1, 1, 5)]), (5, [(1, 1, 2), (2, 2, 3)], [(1, 1, 5)]),
            ]:
                one.put(number, here)
                if there is not None:
                    other.put(number, there)
        lines = ["CONFLICT (1, 1): cells 1, 1; total 5, 6", "SILENT (1, 2): 1 cells, total 5, and other cells",
                 "CONFLICT (1, 5): cells 2, 1; total 5, 5", "batches 5 lacked 1 put 1 not compared 0", ""]
        check("differ", brought_up(a, b), ("\n".join(lines), "", 1))
        with a.client() as link:
            link.stop()
        a.process.communicate()
        hhm("fold", snap(a))
        a.start()
        lines[1:2] = []
        lines[-2] = "batches 5 lacked 0 put 0 not compared 3"
        check("differ: folded", brought_up(a, b), ("\n".join(lines), "", 1))
        with Hosts("differ new", 1) as new:
            lines = [f"FOLDED (1, {number}): B lacks it, and A has its cells no more" for number in range(1, 6)]
            lines += ["batches 5 lacked 5 put 0 not compared 0", ""]
            why = "nothing was put: A has folded what B lacks, so B must begin from a copy of A's file\n"
            check("differ: B lacks what is folded", brought_up(a, new[0]), ("\n".join(lines), why, 1))
            check("differ: nothing is put", new.books(), [(0, 0)])
        check("differ: no snapshot", script("hhm_mirror.py", "/nowhere", snap(b), b.tcp)[::2], ("", 4))


def another_book_is_not_brought_up():
    """B begins again without its files, and the file that it had is given: nothing says what it lacks."""
    with Hosts("file of", 2) as hosts:
        a, b = hosts
        for host in hosts:
            with host.client(1) as link:
                link.put(1, [(0, 0, 5)])
                link.save()
                had = link.book_id()
        old = in_folder("old B.snap")
        b.kill()
        os.rename(snap(b), old)
        b.start()
        with b.client() as link:
            has = link.book_id()
        if has is None:
            print("not tried: a mirror of another book: this program tells no identity")
            return
        told = f"failed: {old} is of book {had}, and the server has book {has}: save that server first\n"
        check("another book", script("hhm_mirror.py", snap(a), old, b.tcp), ("", told, 4))
        check("another book: nothing is put", hosts.books(), [(1, 5), (0, 0)])
        check("another book: its own file", brought_up(a, b), ("batches 1 lacked 1 put 1 not compared 0\n", "", 0))


def a_mirror_needs_both():
    with Hosts("needs", 2, more=["--limit", "9"]) as hosts, mirror_of(hosts, 1) as mirror:
        mirror.put(1, [(0, 0, 5)])
        hosts[0].kill()
        check("needs both", fault_of(lambda: mirror.put(2, [(0, 0, 1)])), "ConnectionRefusedError")
        hosts[0].start()
        check("needs both: it went back", fault_of(lambda: mirror.put(2, [(0, 0, 1)])), "WentBack")
        check("needs both: a half", fault_of(lambda: mirror.put(3, [(0, 0, 5)])), "Half")
        check("needs both: books", hosts.books(), [(1, 5), (2, 6)])


def relay(edge, root, host, *more):
    words = [edge.tcp, snap(edge), edge.base + ".spool", getattr(root, "path", None) or root.tcp, host, *more]
    return script("hhm_relay.py", "--part", 100, *words)


def put_from(edge, client, begin, end):
    with edge.client(client) as link:
        return len(list(link.put_all((number, batch(client, number)) for number in range(begin, end))))


def relays_count_once():
    """Two edges are fed, killed and shipped in steps; a relay is killed amid one, and the root goes back."""
    with Hosts("edge", 2) as edges, Hosts("root", 1) as (root,):
        for host, edge in enumerate(edges):
            put_from(edge, 10 + host, 0, 4)
            parts = relay_line(added(*(batch(10 + host, number) for number in range(4))), 0, 4)
            check(f"relay {host}: the first step", relay(edge, root, host), (parts, "", 0))
        with root.client() as link:
            link.save()
        put_from(edges[0], 10, 4, 8)
        with edges[0].client() as link:
            link.save()
        put_from(edges[0], 10, 8, 12)
        edges[0].restart()
        put_from(edges[0], 10, 4, 12)
        a_relay_is_killed(edges[0], root)
        root.restart()
        put_from(edges[0], 10, 12, 15)
        put_from(edges[1], 11, 4, 9)
        for host in (0, 1, 0):
            check(f"relay {host}: it goes on", relay(edges[host], root, host)[1:], ("", 0))
        wanted = added(*(batch(10, number) for number in range(15)), *(batch(11, number) for number in range(9)))
        check("relay: the sum", sums([root]) == [wanted], True)
        check("relay: drops", relay(edges[0], root, 0, "--drop")[1:], ("", 0))
        files = sorted(os.listdir(edges[0].base + ".spool"))
        check("relay: the newest file stays", files, ["0000015.snap", "dropped", "lock", "part"])
        put_from(edges[0], 10, 15, 17)
        line = relay_line(added(batch(10, 15), batch(10, 16)), 15, 17)
        check("relay: a step behind it", relay(edges[0], root, 0), (line, "", 0))
        wanted = added(*(batch(10, number) for number in range(17)), *(batch(11, number) for number in range(9)))
        check("relay: the sum then", sums([root]) == [wanted], True)
        relays_are_refused(edges[0], root)


def gained(before, more):
    """The cells by which a sum of batches grows, with their counts."""
    old, new = added(*before), added(*before, *more)
    return {place: count - old.get(place, 0) for place, count in new.items() if count != old.get(place)}


def relay_line(cells, first, end):
    return f"batches {first} to {end}: cells {len(cells)} parts {-(-len(cells) // 100)}\n"


class Choke(Gate):
    """Forwards so many bytes of its first connection to a server, and all replies."""

    name = "choke"

    def meet(self, link):
        theirs = self.at.link()
        self.links += [link, theirs]
        threading.Thread(target=self.forward, args=(link, theirs, self.most), daemon=True).start()
        threading.Thread(target=self.forward, args=(theirs, link, None), daemon=True).start()


def a_relay_is_killed(edge, root):
    """Amid the parts of a step. Of so many bytes the first 20,000 are the parts of the step before, put again."""
    with root.client() as link:
        before = link.status().batches
    with Choke(root, 35_000) as gate:
        words = [edge.tcp, snap(edge), edge.base + ".spool", gate.path, "0", "--part", "100"]
        given = [sys.executable, os.path.join(CLIENTS, "hhm_relay.py"), *words, "--program", server.PROGRAM]
        with subprocess.Popen(given, stdout=subprocess.DEVNULL, stderr=subprocess.DEVNULL) as process:
            check("relay: it is amid a step", gate.is_full.wait(WAIT), True)
            check("relay: one at a time", relay(edge, root, 0),
                  ("", f"failed: {edge.base}.spool: another run has it\n", 4))
            process.kill()
    with root.client() as link:
        amid = until(lambda: link.status().batches - before)
        check("relay: some parts are there", 0 < amid < -(-len(added(*(batch(10, n) for n in range(4, 12)))) // 100),
              True)


def relays_are_refused(edge, root):
    """Another size of the parts, batches that were folded too early, and an edge without what was shipped."""
    error = relay(edge, root, 0, "--part", 50)[1:]
    check("relay: another size", ("the parts have 100 cells" in error[0], error[1]), (True, 4))
    old = edge.base + ".old"
    shutil.copy(snap(edge), old)
    put_from(edge, 10, 17, 19)
    check("relay: the last step", relay(edge, root, 0)[1:], ("", 0))
    put_from(edge, 10, 19, 20)
    with edge.client() as link:
        link.stop()
    edge.process.communicate()
    whole = edge.base + ".whole"
    shutil.copy(snap(edge), whole)
    hhm("fold", snap(edge))
    edge.start()
    line = relay_line(gained([batch(10, number) for number in range(19)], [batch(10, 19)]), 19, 20)
    output, *ended = relay(edge, root, 0)
    check("relay: folded", (output.splitlines(True)[-1:], *ended), ([line], "", 0))
    edge.kill()
    shutil.copy(old, snap(edge))
    edge.start()
    put_from(edge, 12, 0, 5)
    told = "DIVERGED: the edge lacks batch 17, (10, 17), which was shipped\n"
    check("relay: diverged", relay(edge, root, 0)[1:], (told, 1))


def an_edge_that_folds_is_shipped():
    """An edge that folds of itself, and where it is asked to, between the steps: the root has its sum after each."""
    with Hosts("folds", 1, more=["--fold-above", "60"]) as (edge,), Hosts("root of folds", 1) as (root,):
        shipped = 0
        for end in [3, 4, 9, 10, 11, 20, 33]:
            put_from(edge, 10, shipped, end)
            if end % 2:
                with edge.client() as link:
                    check(f"folds: {end}", link.fold(), end)
            output, error, status = relay(edge, root, 0, *(["--drop"] if end in (4, 11) else []))
            check(f"folds: step to {end}", (f"batches {shipped} to {end}: " in output, error, status), (True, "", 0))
            wanted = added(*(batch(10, number) for number in range(end)))
            check(f"folds: the root's sum at {end}", sums([root]) == [wanted], True)
            if end == 20:
                root.restart()
            shipped = end


def steps_between_sums():
    """What a step ships of two files where the second has folded batches of it, and what it is told where such a file
    counts less than the one before: it isn't kept then."""
    one, two, three = (7, 1, 2, 5), (7, 2, 2, 1), (8, 1, [(0, 1, 3), (2, 2, 0)])
    more = [one, two, (8, 1, 2, 3), (8, 2, 1, 7), (9, 1, 1, 2)]
    less = "DIVERGED: the edge counts less at {} than was shipped\n"
    with Hosts("sums", 1) as (root,):
        path, lines, wanted = root.base + ".edge", "", {}
        for name, held, line, gain, fault in [
            ("folded before the first step", snapshot([], 5, past=([one], [(0, 0, 5), (2, 2, 0)])),
             "batches 0 to 1: cells 2 parts 1\n", {(0, 0): 5, (2, 2): 0}, ""),
            ("folded in part", snapshot([three], 9, past=([one, two], [(0, 0, 6), (1, 1, 0), (2, 2, 0)])),
             "batches 1 to 3: cells 3 parts 1\n", {(0, 0): 1, (1, 1): 0, (0, 1): 3}, ""),
            ("not folded",
             snapshot([three, (8, 2, [(0, 0, 7)])], 16, past=([one, two], [(0, 0, 6), (1, 1, 0), (2, 2, 0)])),
             "batches 3 to 4: cells 1 parts 1\n", {(0, 0): 7}, ""),
            ("a count that is less",
             snapshot([], 18, past=(more, [(0, 0, 12), (0, 1, 3), (0, 2, 3), (1, 1, 0), (2, 2, 0)])),
             "", {}, less.format((0, 0))),
            ("a cell that is gone", snapshot([], 18, past=(more, [(0, 0, 13), (0, 1, 3), (0, 2, 2), (2, 2, 0)])),
             "", {}, less.format((1, 1))),
            ("as it should be", snapshot([], 18, past=(more, [(0, 0, 13), (0, 1, 3), (0, 2, 2), (1, 1, 0), (2, 2, 0)])),
             "batches 4 to 5: cells 1 parts 1\n", {(0, 2): 2}, ""),
        ]:
            write(path, held)
            lines += line
            told = ("", fault, 1) if fault else (lines, "", 0)
            check(f"sums, {name}", script("hhm_relay.py", "-", path, root.base + ".spool", root.tcp, 5), told)
            for place, count in gain.items():
                wanted[place] = wanted.get(place, 0) + count
            check(f"sums, {name}: the root", sums([root]), [wanted])


def files_of_each_version_are_read():
    """What hhm_snapshot.py reads of files: their batches, their base, and whose they are."""
    path, unknown = in_folder("read.snap"), (bytes(16), None, False)
    book, whole, folded = BOOK.to_bytes(16, "big"), [(7, 1, 1, 5)], bytes(23) + b"\5"
    for name, held, owner, base in [
        ("version 1", snapshot(ONE, 5), unknown, b""),
        ("version 2", snapshot([], 5, past=FIVE, version=2), unknown, folded),
        ("version 3", snapshot([], 5, past=FIVE, version=3), unknown, folded),
        ("version 4", snapshot([], 5, past=FIVE), unknown, folded),
        ("a book", snapshot(ONE, 5, past=NONE, origin=Origin(BOOK)), (book, None, False), b""),
        ("a window", snapshot(ONE, 5, past=NONE, origin=Origin(BOOK, MOST - 1, 1)), (book, MOST - 1, True), b""),
    ]:
        write(path, held)
        found = read_snapshot(path)
        check(f"read: {name}: whose", (found.book, found.window, found.has_log), owner)
        check(f"read: {name}: batches", [it.says() for it in found.batches], whole)
        check(f"read: {name}: the base", bytes(found.base), base)
    for name, held, why in [
        ("version 5", b"HHMSNAP\n\0\0\0\5" + bytes(200), "no snapshot"),
        ("cut behind the window", snapshot(ONE, 5, past=NONE)[:102], "it ends too early"),
    ]:
        write(path, held)
        try:
            check(f"read: {name}", read_snapshot(path), why)
        except ValueError as fault:
            check(f"read: {name}", str(fault), f"{path}: {why}")


def all_are_tried():
    files_of_each_version_are_read()
    mirrors_are_brought_up()
    mirrors_that_differ_are_told()
    another_book_is_not_brought_up()
    a_mirror_needs_both()
    relays_count_once()
    an_edge_that_folds_is_shipped()
    steps_between_sums()
