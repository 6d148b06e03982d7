"""What clients make of the identity of a server's book, in all three languages; tests/clients.py runs it.

A stand-in begins again and again with all of its batches, or fewer, and tells each time the same identity, another one
or none. A book with another identity is another one, also where it has the same batches: others have put them again.
"""
import contextlib
import os

import server
from client_faults import interrupted, killed, went_back
from hhm_client import BookWentBack, Client
from hhm_cluster import Cluster, WentBack
from hhm_mirror import Mirror
from peers import WAIT, Driver, Gate, fault_of
from server import Server, check
from stand_in import StandIn

ONE, TWO = "00112233445566778899aabbccddeeff", "f" * 32
# A server without memory for a Stats, and one that doesn't know the kind; both end the connection.
NO_MEMORY, UNKNOWN = 1, 51
STATS = 12
TOLD = "; its book was %s, and is %s"


def told_by(book):
    """What a stand-in has for its stats that tells this identity, tells none, or refuses by this code."""
    if isinstance(book, int):
        return book
    return {"rows": 3, "version": "0.1.0", **({f'book{{id="{book}"}}': 1} if book else {}), "workers": 4}


# What a server tells at each of its starts; for each start behind the first how many batches it lacks, and whether it
# is told that it went back: not, so, or so with the identities of two books.
LIVES = [
    ("one book", [ONE, ONE, ONE], [(0, False), (0, False)]),
    ("one book, shorter", [ONE, ONE], [(1, went_back)]),
    ("another book", [ONE, TWO], [(0, TOLD)]),
    ("another book, shorter", [ONE, TWO], [(1, TOLD)]),
    ("another book, twice", [ONE, TWO, ONE], [(0, TOLD), (0, TOLD)]),
    ("no identity", [None, None, None], [(0, False), (1, went_back)]),
    ("unknown", [UNKNOWN, UNKNOWN, UNKNOWN], [(0, False), (1, went_back)]),
    ("no identity, then one", [None, ONE, TWO], [(0, False), (0, TOLD)]),
    ("unknown, then one", [UNKNOWN, ONE, TWO], [(0, False), (0, TOLD)]),
    ("no identity, then one, shorter", [None, ONE], [(1, went_back)]),
    ("unknown amid", [ONE, UNKNOWN, ONE, UNKNOWN, TWO], [(0, False), (0, False), (0, False), (0, TOLD)]),
    ("no memory amid", [ONE, NO_MEMORY, TWO], [(0, False), (0, TOLD)]),
    ("no memory at first", [NO_MEMORY, TWO, ONE], [(0, False), (0, TOLD)]),
    ("no memory, shorter", [ONE, NO_MEMORY], [(1, went_back)]),
    ("no identity amid", [ONE, None, TWO], [(0, False), (0, TOLD)]),
    ("no digits", ["0" * 31 + "g", "1" * 31 + "g"], [(0, False)]),
    ("too short", [ONE[1:], TWO[1:]], [(0, False)]),
    ("large digits", [TWO, TWO.upper()], [(0, False)]),
]


def lives_are_told_apart(name, command):
    for what, (first, *others), starts in LIVES:
        with StandIn(stats=told_by(first)) as at, Driver(command, at.path, attempts=2) as driver:
            put = driver.ask("many", 1, 3, 16, 1), driver.ask("put", 4, 5)
            check(f"{name}: {what}", put, ("3 answered", "index 3 total 8"))
            known, count, total, number = first, 4, 8, 5
            for book, (lacks, kind) in zip(others, starts):
                at.begin_again(told_by(book), count - lacks)
                has = total - 5 * lacks
                told = went_back(f"{count} batches with total {total}", f"{count - lacks} with total {has}")
                if kind:
                    told += kind % (known, book) if kind is TOLD else ""
                    check(f"{name}: {what}: {book}", driver.ask("put", number, 5), told)
                # (what is gone, or the batch that wasn't sent, is put behind what is there)
                count, total = count - lacks + 1, has + 5
                put = driver.ask("put", number, 5)
                check(f"{name}: {what}: {book}, on", put, f"index {count - 1} total {total}")
                known, number = (book if isinstance(book, str) else known), number + 1


def a_connection_is_asked_once(name, command):
    """A client that only asks isn't kept by it; one that puts asks once over a connection, before its first put."""
    with StandIn(stats=told_by(ONE)) as at, Driver(command, at.path) as driver:
        driver.ask("cell", 0, 0)
        driver.ask("status")
        check(f"{name}: questions", at.asked[STATS], 0)
        for number in range(5):
            driver.ask("put", number, 5)
        driver.ask("many", 10, 100, 16, 1)
        driver.ask("cell", 0, 0)
        check(f"{name}: puts", at.asked[STATS], 1)
        at.begin_again(told_by(ONE), 200)
        driver.ask("cell", 0, 0)
        driver.ask("put", 200, 5)
        check(f"{name}: puts over two connections", at.asked[STATS], 2)


def the_text_form_of_a_put_asks_too():
    """Python: a text, `hhmc put` and what keeps; each once."""
    text = b"%%MatrixMarket matrix coordinate integer general\n3 3 0\n"
    with StandIn(stats=told_by(ONE)) as at, Client(unix=at.path, client=7) as hhm:
        # (a stand-in knows no texts)
        check("a text", fault_of(lambda: hhm.put_text(1, text)), "UnknownKind")
        check("a text: asked", at.asked[STATS], 1)
        check("the identity", (hhm.book_id(), at.asked[STATS]), (ONE, 2))
        hhm.put(2, [(0, 0, 5)])
        check("the identity, and a put", at.asked[STATS], 2)
    for book in (None, UNKNOWN, NO_MEMORY):
        with StandIn(stats=told_by(book)) as at, Client(unix=at.path, client=7) as hhm:
            check(f"no identity: {book}", (hhm.book_id(), hhm.put(1, [(0, 0, 5)])), (None, (0, 5)))


def both_identities_are_told():
    """Python: the attributes of the fault, where one of them is known, both or none."""
    for first, second, lacks, wanted in [
        (ONE, TWO, 0, (ONE, TWO)), (ONE, ONE, 1, (ONE, ONE)), (None, TWO, 1, (None, TWO)), (ONE, None, 1, (ONE, None)),
        (UNKNOWN, UNKNOWN, 1, (None, None)), (ONE, NO_MEMORY, 1, (ONE, None)),
    ]:
        with StandIn(stats=told_by(first)) as at, Client(unix=at.path, client=7, attempts=2) as hhm:
            hhm.put(1, [(0, 0, 5)])
            hhm.put(2, [(0, 0, 5)])
            at.begin_again(told_by(second), 2 - lacks)
            try:
                check(f"identities {first} {second}", hhm.status(), "a fault")
            except BookWentBack as fault:
                check(f"identities {first} {second}", (fault.had_id, fault.has_id), wanted)
                check(f"books {first} {second}", (fault.had, fault.has), ((2, 10), (2 - lacks, 10 - 5 * lacks)))
            check(f"identities {first} {second}: once", hhm.status(), (2 - lacks, 10 - 5 * lacks))


def what_is_kept_goes_into_another_book():
    """Python, `keep`: what no save has is put again without a word; what a save had is told as gone."""
    with StandIn(stats=told_by(ONE)) as at, Client(unix=at.path, client=7, keep=10_000) as hhm:
        for number in range(3):
            hhm.put(number, [(number, 0, 5)])
        at.begin_again(told_by(TWO), 0)
        check("kept: all is there again", (hhm.put(3, [(3, 0, 5)]), at.total()), ((3, 20), 20))
        check("kept: saved", hhm.save(), 4)
        hhm.put(4, [(4, 0, 5)])
        at.begin_again(told_by(ONE), 5)
        try:
            check("kept: saved elsewhere", hhm.status(), "a fault")
        except BookWentBack as fault:
            found = fault.had, fault.has, fault.had_id, fault.has_id, fault.refused
            check("kept: saved elsewhere", found, ((4, 20), (5, 25), TWO, ONE, []))
        check("kept: told once", hhm.status(), (5, 25))


def an_interrupted_question_leaves_no_connection():
    """Python: a put that is interrupted before the reply to its Stats, over the first connection and a later one."""
    with StandIn(stats=told_by(ONE)) as at, Gate(at, 5, holds_stats=True) as gate:
        with Client(unix=gate.path, client=7, timeout=WAIT, attempts=2) as hhm:
            with interrupted(0.3):
                hhm.put(1, [(0, 0, 5)])
            gate.is_open.set()
            check("interrupted: put", fault_of(lambda: hhm.put(1, [(0, 0, 5)])), (0, 5))
            check("interrupted: a cell", fault_of(lambda: hhm.cell(0, 0)), 5)
    with StandIn(stats=told_by(ONE)) as at, Gate(at, 5, holds_stats=True) as gate:
        with Client(unix=at.path, client=7, timeout=WAIT, attempts=2) as hhm:
            hhm.put(1, [(0, 0, 5)])
            hhm.close()
            hhm.unix = gate.path
            with interrupted(0.3):
                hhm.put(2, [(0, 0, 5)])
            gate.is_open.set()
            at.begin_again(told_by(TWO), 1)
            check("interrupted: another book then", fault_of(lambda: hhm.put(2, [(0, 0, 5)])), "BookWentBack")
            check("interrupted: put then", fault_of(lambda: hhm.put(2, [(0, 0, 5)])), (1, 10))


def several_servers_have_books_of_their_own():
    """Python: clusters and mirrors name the server whose book is another one, with both identities."""
    with contextlib.ExitStack() as stack:
        servers = [stack.enter_context(StandIn(stats=told_by(book), name=f"part {book[:3]}")) for book in (ONE, TWO)]
        paths = [at.path for at in servers]
        other = "a" * 32
        for name, several in [("rows", Cluster(paths, client=1, generation=1, by="rows", attempts=2)),
                              ("source", Cluster(paths, client=1, generation=2, by="source", attempts=2)),
                              ("mirror", Mirror(*paths, client=7, attempts=2))]:
            if name == "source":
                for at, book in zip(servers, (ONE, TWO)):
                    at.begin_again(told_by(book), 0)
            hhm = stack.enter_context(several)
            for number in range(3):
                hhm.put(number, [(row, 0, 1) for row in range(20)])
            servers[1].begin_again(told_by(other), 1000)
            try:
                hhm.put(3, [(row, 0, 1) for row in range(20)])
                check(f"{name}: another book", "an answer", "a fault")
            except WentBack as fault:
                found = {place: (why.had_id, why.has_id) for place, why in fault.servers.items()}
                check(f"{name}: another book", found, {1: (TWO, other)})
            check(f"{name}: on", fault_of(lambda: hhm.put(3, [(1, 0, 1)])) != "WentBack", True)
            servers[1].begin_again(told_by(TWO), 0)
            servers[0].begin_again(told_by(ONE), 0)


def a_server_without_files_has_a_new_book(name, command):
    """The built program: another client has put all again before this one is back, to the same places."""
    with Server(["--rows", "3", "--cols", "3"]) as at, at.client() as hhm, Driver(command, at.path) as driver:
        first = hhm.book_id()
        if first is None:
            print(f"not tried: {name}: a new book: this program tells no identity")
            killed(at)
            return
        for number in range(3):
            driver.ask("put", number, 5)
        killed(at)
        with Server(["--rows", "3", "--cols", "3"]) as at:
            with at.client(7) as other:
                second = other.book_id()
                for number in range(3):
                    other.put(number, [(0, 0, 5)])
            check(f"{name}: a new book has another identity", first != second and len(second) == 32, True)
            told = went_back("3 batches with total 15", "3 with total 15") + TOLD % (first, second)
            check(f"{name}: a new book", driver.ask("put", 3, 5), told)
            check(f"{name}: a new book, on", driver.ask("put", 3, 5), "index 3 total 20")
            killed(at)


def a_book_keeps_its_identity(name, command):
    """The built program: by its snapshot, and by its log alone."""
    for what, option in [("snapshot", "--snapshot"), ("log", "--log")]:
        words = ["--rows", "3", "--cols", "3", option, os.path.join(server.FOLDER, f"identity {name}.{what}")]
        with Server(words) as at, at.client() as hhm, Driver(command, at.path) as driver:
            first = hhm.book_id()
            driver.ask("put", 1, 5)
            if what == "snapshot":
                driver.ask("save")
            killed(at)
            with Server(words) as at:
                with at.client() as hhm:
                    check(f"{name}: {what}: its identity", hhm.book_id(), first)
                check(f"{name}: {what}: on", driver.ask("put", 2, 5), "index 1 total 10")
                killed(at)


def all_are_tried(drivers):
    """The drivers are commands, by language."""
    the_text_form_of_a_put_asks_too()
    both_identities_are_told()
    what_is_kept_goes_into_another_book()
    an_interrupted_question_leaves_no_connection()
    several_servers_have_books_of_their_own()
    for name, command in drivers.items():
        lives_are_told_apart(name, command)
        a_connection_is_asked_once(name, command)
        a_server_without_files_has_a_new_book(name, command)
        a_book_keeps_its_identity(name, command)
