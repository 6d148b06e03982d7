"""What could make a client count wrong, or wait for ever, of all three languages; tests/clients.py runs it.

A driver (tests/drivers) asks a server, by one client, what a line says, and writes what becomes of it:

- `put N COUNT`: a batch of one cell, the first, as number N. `many FIRST K DEPTH CELLS`: K batches, numbered from
  FIRST, of so many cells with the count 1 each, with DEPTH of them on the way; their places follow each other. `cell R
  C`, `status`, `save`.
- `fork FIRST K CELLS`: after a fork each process puts K batches, by the same client. `split FIRST K` (Python, Rust): K
  batches are on the way, and a fork at the first reply.
- `panic FIRST` (Rust): five batches on the way, and a panic at the first reply, which is caught.
- `alarms`: from now on a signal comes each 20 ms, and does nothing.
"""
import contextlib
import os
import random
import resource
import shutil
import signal
import socket
import struct
import sys
import time

import server
from hhm_client import BookWentBack, Client
from peers import WAIT, Driver, Gate, Liar, Sink, Slow, fault_of, run, started, until
from server import Server, check

HERE = os.path.dirname(os.path.abspath(__file__))
PYTHON = os.path.join(HERE, "..", "clients", "python")
WIDE = ["--rows", "1000000", "--cols", "3"]


def at_path(name):
    """A path of this name where nothing stands."""
    path = os.path.join(server.FOLDER, name)
    with contextlib.suppress(FileNotFoundError):
        os.remove(path)
    return path


def killed(at):
    at.process.kill()
    at.process.wait()


class Interrupt(BaseException):
    """What a handler of a signal raises."""


@contextlib.contextmanager
def interrupted(seconds):
    """An Interrupt after so many seconds, which ends the block."""

    def handler(*_):
        raise Interrupt

    signal.signal(signal.SIGALRM, handler)
    try:
        signal.setitimer(signal.ITIMER_REAL, seconds)
        yield
        signal.setitimer(signal.ITIMER_REAL, 0)
        check("interrupted", "not", "interrupted")
    except Interrupt:
        pass
    finally:
        signal.setitimer(signal.ITIMER_REAL, 0)
        signal.signal(signal.SIGALRM, signal.SIG_DFL)


def interrupted_calls_leave_no_connection():
    """Python: a put is interrupted with half of its bytes sent, and a question while its answer is awaited."""
    cells = [(row, 0, 1) for row in range(300_000)]
    with Server(WIDE) as at:
        with Gate(at, 1 << 20) as gate, Client(unix=gate.path, client=7, timeout=WAIT, attempts=3) as hhm:
            with interrupted(1):
                hhm.put(1, cells)
            gate.is_open.set()
            check("interrupted amid a put", fault_of(lambda: hhm.put(1, cells)), (0, 300_000))
            check("interrupted amid a put: the sum", fault_of(hhm.status), (1, 300_000))
            check("interrupted amid a put: no other cell", fault_of(lambda: hhm.row(299_999)), (1, 1))
        with Gate(at, 21) as gate, Client(unix=gate.path, client=7, timeout=WAIT, attempts=3) as hhm:
            with interrupted(0.5):
                hhm.cell(0, 0)
            gate.is_open.set()
            check("interrupted before an answer", fault_of(lambda: hhm.cell(0, 1)), None)
        with Gate(at, 1 << 20) as gate, Client(unix=gate.path, client=7, timeout=WAIT, attempts=3) as hhm:
            numbered = [(number, cells[:100_000]) for number in range(2, 6)]
            with interrupted(1):
                list(hhm.put_all(numbered))
            gate.is_open.set()
            wanted = [(n, (n - 1, 300_000 + 100_000 * (n - 1))) for n in range(2, 6)]
            check("interrupted amid many", fault_of(lambda: list(hhm.put_all(numbered))), wanted)
        at.stop("interrupted", 5, 700_000)


def interrupted_anywhere_each_batch_counts_once():
    """Python: puts and questions are interrupted at drawn moments, and made again until they are answered."""
    chance, cells = random.Random(17), [(row, 0, 1) for row in range(5000)]

    def asked(call):
        while True:
            try:
                signal.setitimer(signal.ITIMER_REAL, chance.uniform(0.0001, 0.02))
                answer = fault_of(call)
                signal.setitimer(signal.ITIMER_REAL, 0)
                return answer
            except Interrupt:
                pass

    def handler(*_):
        raise Interrupt

    with Server(WIDE) as at, at.client(7) as hhm:
        signal.signal(signal.SIGALRM, handler)
        try:
            for number in range(150):
                found = asked(lambda: hhm.put(number, cells)), asked(lambda: hhm.cell(0, 2))
                check(f"interrupted anywhere, {number}", found, ((number, 5000 * (number + 1)), None))
        finally:
            signal.signal(signal.SIGALRM, signal.SIG_DFL)
        hhm.close()
        at.stop("interrupted anywhere", 150, 750_000)


def a_timeout_amid_a_frame_leaves_no_connection(name, command):
    """A put ends by its timeout with half of its bytes sent, and is made again."""
    with Server(WIDE) as at:
        with Gate(at, 100_000) as gate, Driver(command, gate.path, timeout=1000, attempts=1) as driver:
            # (that it failed is told by C alone; the others have tried once more by then)
            check(f"{name}: half a frame", driver.ask("many", 1, 1, 1, 20_000) in ("timed out", "1 answered"), True)
            check(f"{name}: it was half", gate.is_full.is_set(), True)
            gate.is_open.set()
            check(f"{name}: and the whole one", driver.ask("many", 1, 1, 1, 20_000), "1 answered")
            check(f"{name}: it is one", driver.ask("status"), "batches 1 total 20000")
        at.stop(f"{name}: half a frame", 1, 20_000)


def a_panic_leaves_no_connection(command):
    """Rust: the replies that nobody read after a panic aren't taken for later ones."""
    with Server(WIDE) as at, Driver(command, at.path) as driver:
        check("a panic", driver.ask("panic", 10), "panic")
        # (how many of the five were accepted before the connection ended isn't known)
        wanted = [f"index {count} total {count + 7}" for count in range(1, 6)]
        put = driver.ask("put", 20, 7)
        check("a panic: the next put", put in wanted, True)
        check("a panic: a cell", driver.ask("cell", 0, 0), put.split()[-1])


def forks_have_connections_of_their_own(name, command):
    with Server(WIDE) as at:
        with Driver(command, at.path, timeout=5000, attempts=2) as driver:
            check(f"{name}: before a fork", driver.ask("put", 1, 5), "index 0 total 5")
            check(f"{name}: a fork", driver.ask("fork", 10, 20, 20_000), "both")
            check(f"{name}: after a fork", driver.ask("status"), "batches 41 total 800005")
        at.stop(f"{name}: a fork", 41, 800_005)
    if name == "C":
        return
    with Server(WIDE) as at:
        with Driver(command, at.path, timeout=5000, attempts=2) as driver:
            check(f"{name}: a fork amid many", driver.ask("split", 1, 30), "both")
            check(f"{name}: after a fork amid many", driver.ask("status"), "batches 30 total 30")
        at.stop(f"{name}: a fork amid many", 30, 30)


def went_back(had, has):
    return f"the server went back: it had {had}, which aren't all there, and has {has}"


def has_one_more(accepted):
    """The status behind the reply to the last put."""
    _, place, _, total = accepted.split()
    return f"batches {int(place) + 1} total {total}"


def a_book_that_went_back_is_told(name, command):
    """A server is killed after a save and puts behind it, and begins again; others put before the client is back, so
    that it has fewer batches, as many with another total, more with a smaller one, and more with a larger one."""
    path = at_path("back.snap")
    words = [*WIDE, "--snapshot", path]
    with Server(words) as at, Driver(command, at.path) as driver:
        for number in range(1, 4):
            driver.ask("put", number, 5)
        check(f"{name}: a save", driver.ask("save"), "saved 3")
        for number in range(4, 7):
            driver.ask("put", number, 5)
        killed(at)
        had = "6 batches with total 30"
        for others, has, wanted in [([100], "4 with total 115", "index 4 total 120"),
                                    ([0, 200], "5 with total 215", "index 5 total 220"),
                                    ([1] * 4, "7 with total 19", "index 7 total 24"),
                                    # (others hide all: the last batch, which is number 4 now, gets another place)
                                    ([100] * 8, "11 with total 815", "index 11 total 820")]:
            with Server(words) as at:
                with at.client(8) as other:
                    for number, count in enumerate(others):
                        other.put(number, [(0, 0, count)])
                told = went_back(had, has)
                check(f"{name}: {told}", driver.ask("many", 7, 2, 16, 5), told)
                check(f"{name}: what is gone again, {has}", driver.ask("put", 4, 5), wanted)
                check(f"{name}: and on, {has}", driver.ask("status"), has_one_more(wanted))
                had = "{1} batches with total {3}".format(*has_one_more(wanted).split())
                killed(at)
        os.remove(path)
        with Server(words) as at:
            told = went_back("12 batches with total 820", "0 with total 0")
            # (behind it the identities of both books, where the program tells them)
            check(f"{name}: back, before a question", driver.ask("cell", 0, 0).split(";")[0], told)
            check(f"{name}: it is told once", driver.ask("cell", 0, 0), "none")
            killed(at)


def the_highest_place_decides(name, command):
    """Others hide what is gone: the batch with the highest place, of more cells than those before it, tells it, also
    behind a repeat of an older one, and where it is refused; and it is known again where nothing is gone."""
    path = at_path("highest.snap")
    words = [*WIDE, "--snapshot", path, "--limit", "1000"]
    for counts, has in [([100] * 8, "11 with total 815"), ([109] * 9, "12 with total 996")]:
        with contextlib.suppress(FileNotFoundError):
            os.remove(path)
        with Server(words) as at, Driver(command, at.path) as driver:
            for number in range(1, 6):
                driver.ask("put", number, 5)
                if number == 3:
                    driver.ask("save")
            driver.ask("many", 6, 1, 1, 5)
            check(f"{name}: a repeat", driver.ask("put", 1, 5), "index 0 total 5")
            killed(at)
            with Server(words) as at:
                with at.client(8) as other:
                    for number, count in enumerate(counts):
                        other.put(number, [(0, 0, count)])
                told = driver.ask("put", 7, 1)
                check(f"{name}: hidden", told.split(";")[0], went_back("6 batches with total 30", has))
                check(f"{name}: many cells", driver.ask("many", 8, 1, 1, 3), "1 answered")
                check(f"{name}: saved with them", driver.ask("save").split()[0], "saved")
                killed(at)
            with Server(words) as at:
                check(f"{name}: many cells again", driver.ask("many", 8, 1, 1, 3), "1 answered")
                killed(at)


def a_full_log_is_no_going_back(name, command):
    """A log without room refuses the batch that is put again over a new connection, and the client goes on."""
    words = [*WIDE, "--log", at_path(f"full {name}.log"), "--idle", "1"]
    with Server(words, restore_signals=False) as at, Driver(command, at.path) as driver:
        server.limit_files(at.process, 8192)
        check(f"{name}: full: one is taken", driver.ask("put", 1, 5), "index 0 total 5")
        check(f"{name}: full: the next isn't", driver.ask("put", 2, 3), "refused: LogFull")
        time.sleep(2)
        check(f"{name}: full: over a new connection", driver.ask("status"), "batches 1 total 5")
        time.sleep(2)
        check(f"{name}: full: still", driver.ask("put", 2, 3), "refused: LogFull")
        server.limit_files(at.process, resource.RLIM_INFINITY)
        check(f"{name}: full: no longer", driver.ask("put", 2, 3), "index 1 total 8")
        killed(at)


def what_is_kept_outlasts_a_full_log():
    """Batches that a full log refuses, when they are put again, are kept on."""
    path, words = at_path("kept.log"), [*WIDE, "--idle", "1"]
    with Server([*words, "--log", path], restore_signals=False) as at:
        server.limit_files(at.process, 3 * 4096)
        with at.client(7, keep=10_000) as hhm:
            check("kept, full: two", [hhm.put(n, [(0, 0, 5)]) for n in (1, 2)], [(0, 5), (1, 10)])
            time.sleep(2)
            check("kept, full: status", hhm.status(), (2, 10))
            killed(at)
            with Server(words) as at:
                check("kept, full: put again", hhm.status(), (2, 10))
                killed(at)


def repeats_are_no_going_back(name, command):
    """What an earlier run put, in another order, beside others; and a server that begins again with all of it."""
    path = at_path("repeats.snap")
    words = [*WIDE, "--snapshot", path]
    with Server(words) as at, Driver(command, at.path) as driver:
        with at.client(7) as earlier, at.client(8) as other:
            for place, number in enumerate([5, 3, 4, 1, 2]):
                earlier.put(number, [(0, 0, 5)])
                other.put(place, [(1, 0, 1)])
        wanted = [f"index {place} total {5 + 3 * place}" for place in (6, 8, 2, 4, 0)]
        check(f"{name}: an earlier run's", [driver.ask("put", n, 5) for n in range(1, 6)], wanted)
        check(f"{name}: a new one", driver.ask("put", 6, 5), "index 10 total 35")
        check(f"{name}: saved", driver.ask("save"), "saved 11")
        killed(at)
        with Server(words) as at:
            check(f"{name}: a repeat after a new start", driver.ask("put", 5, 5), "index 0 total 5")
            check(f"{name}: on, after a new start", driver.ask("put", 7, 5), "index 11 total 40")
            with at.client(8) as other:
                other.put(9, [(1, 0, 1)])
                check(f"{name}: saved again", other.save(), 13)
            killed(at)
        with Server(words) as at:
            check(f"{name}: after one more", driver.ask("put", 8, 5), "index 13 total 46")
            check(f"{name}: and a repeat", driver.ask("put", 1, 5), "index 6 total 23")
            killed(at)


def drawn_kills_lose_nothing(name, command):
    """A server is killed at drawn moments and begins again from its last snapshot, while three clients put and save in
    turn: this one, which puts again what no save of its own has where it is told that the server went back, and two
    that keep that by themselves."""
    chance, path = random.Random(29), at_path("drawn.snap")
    words, sums, counts, unsaved = [*WIDE, "--snapshot", path], [0, 0, 0], {}, []
    with contextlib.ExitStack() as stack:
        at = stack.enter_context(Server(words))
        others = [at.client(8, keep=4000), at.client(9, keep=1 << 20)]
        driver = stack.enter_context(Driver(command, at.path))

        def asked(*question):
            while (answer := driver.ask(*question)).startswith("the server went back"):
                again.extend(asked("put", number, counts[number]) for number in list(unsaved))
            return answer

        again = []
        for number in range(300):
            count = chance.randrange(5)
            match chance.choices(["put", "save", "other", "other's save", "kill"], [8, 1, 12, 1, 1])[0]:
                case "put":
                    counts[number] = count
                    unsaved.append(number)
                    asked("put", number, count)
                    sums[0] += count
                case "save":
                    asked("save")
                    unsaved.clear()
                case "other":
                    other = chance.randrange(2)
                    others[other].put(number, [(1 + other, 0, count)])
                    sums[1 + other] += count
                case "other's save":
                    others[chance.randrange(2)].save()
                case "kill":
                    killed(at)
                    at = stack.enter_context(Server(words))
        asked("status")
        with at.client() as hhm:
            for other in others:
                other.status()
            check(f"{name}: drawn kills", [hhm.row(row).total for row in range(3)], sums)
            check(f"{name}: drawn kills, of which some were told", len(again) > 20, True)


def many_small_frames_go(name, command):
    """More on the way than replies fit into a socket, a server that has no room for replies, and one that then stands
    still. At most 128 batches, of 45 bytes here, wait for their replies."""
    with Server(WIDE) as at, Driver(command, at.path, timeout=5000, attempts=1) as driver:
        check(f"{name}: many small ones", driver.ask("many", 1, 2000, 2000, 1), "2000 answered")
        at.process.kill()
    with Slow() as slow, Driver(command, slow.path, timeout=5000, attempts=1) as driver:
        check(f"{name}: no room for replies", driver.ask("many", 1, 300, 128, 200), "300 answered")
    # Longer than the peer ever needs for a reply, or the second connection is given up too.
    with Slow(50) as slow, Driver(command, slow.path, timeout=2000, attempts=2) as driver:
        check(f"{name}: replies of a lost connection", driver.ask("many", 1, 300, 128, 200), "300 answered")
        check(f"{name}: it was lost", len(slow.links), 2)
    with Sink() as sink, Driver(command, sink.path, timeout=500, attempts=1) as driver:
        check(f"{name}: no replies", driver.ask("many", 1, 300, 300, 1), "timed out")
        check(f"{name}: so many are on the way", sink.counts, [128 * 45])


def silence_ends(name, command):
    """A server that never answers, with signals all the time and without; and one that never accepts."""
    for word in ["put 1 5", "save"]:
        for signals in [False, True]:
            with Liar(None, to_puts=True) as liar, Driver(command, liar.path, timeout=300, attempts=2) as driver:
                if signals:
                    driver.ask("alarms")
                begin = time.monotonic()
                check(f"{name}: silence, {word}, {signals}", driver.ask(word), "timed out")
                # A save isn't asked for again, since it may be under way.
                times = 1 if word == "save" else 2
                took = time.monotonic() - begin
                check(f"{name}: how long, {word}, {signals}", (liar.count, 0.3 * times <= took < 5), (times, True))
    path = at_path("full")
    with socket.socket(socket.AF_UNIX) as listener, contextlib.ExitStack() as stack:
        listener.bind(path)
        listener.listen(0)
        with contextlib.suppress(BlockingIOError):
            while True:
                waiting = stack.enter_context(socket.socket(socket.AF_UNIX))
                waiting.setblocking(False)
                waiting.connect(path)
        for signals in [False, True]:
            with Driver(command, path, timeout=300, attempts=2) as driver:
                if signals:
                    driver.ask("alarms")
                begin = time.monotonic()
                check(f"{name}: a full queue, {signals}", driver.ask("status"), "timed out")
                check(f"{name}: a full queue ends", 0.6 <= time.monotonic() - begin < 5, True)


def bad_values_are_told(name, command):
    """Nine bytes that are no count and no lack of one."""
    for lie in [struct.pack(">IBBQ", 9, 0x82, 2, 5), struct.pack(">IBBQ", 9, 0x82, 0, 5)]:
        with Liar(lie) as liar, Driver(command, liar.path) as driver:
            told = "what came is no reply to what was asked"
            check(f"{name}: a lie: {lie.hex()}", (driver.ask("cell", 0, 0), liar.count), (told, 1))


def what_is_kept_is_put_again():
    """Python, `keep`: what no save of its own has comes back over each new connection, whatever others put."""
    path, old = at_path("kept.snap"), at_path("kept.old")
    words = [*WIDE, "--snapshot", path, "--limit", "1000"]
    with Server(words) as at, at.client(7, keep=1 << 20) as hhm:
        hhm.put(1, [(1, 0, 5)])
        check("kept: saved", hhm.save(), 1)
        shutil.copy(path, old)
        list(hhm.put_all((number, [(number, 0, 5)]) for number in range(2, 40)))
        killed(at)
        with Server(words) as at:
            with at.client(8) as other:
                for number in range(60):
                    other.put(number, [(0, 0, 10)])
            check("kept: a put after a new start", hhm.put(40, [(40, 0, 5)]), (99, 800))
            check("kept: all are there", [hhm.cell(number, 0) for number in range(1, 41)], [5] * 40)
            check("kept: saved again", hhm.save(), 100)
            check("kept: one more", hhm.put(41, [(41, 0, 5)]), (100, 805))
            killed(at)
        shutil.copy(old, path)
        with Server(words) as at:
            told = went_back("100 batches with total 800", "1 with total 5")
            with contextlib.suppress(BookWentBack):
                hhm.put(42, [(42, 0, 5)])
                check("kept: before the save", "an answer", told)
            check("kept: what was kept is there all the same", (hhm.cell(41, 0), hhm.status()), (5, (2, 10)))
            killed(at)
        with Server([*WIDE, "--limit", "12"]) as at:
            with at.client(8) as other:
                other.put(1, [(0, 0, 9)])
            try:
                hhm.status()
                check("kept: refused", "an answer", "a refusal")
            except BookWentBack as fault:
                found = [(number, str(why)) for number, why in fault.refused]
                check("kept: refused", (found, fault.has), ([(41, "OverTotal: 9 accepted")], (1, 9)))
            check("kept: told once", fault_of(hhm.status), (1, 9))
            killed(at)


def a_saved_batch_that_is_gone_is_told():
    """Python, `keep`: what a save of its own had is gone, and others put so much that the status doesn't show it."""
    path = at_path("gone.snap")
    with Server([*WIDE, "--snapshot", path]) as at, at.client(7, keep=1 << 20) as hhm:
        for number in range(3):
            hhm.put(number, [(number, 0, 5)])
        check("gone: saved", hhm.save(), 3)
        hhm.put(3, [(3, 0, 5)])
        killed(at)
        with Server(WIDE) as at:
            with at.client(8) as other:
                for number in range(10):
                    other.put(number, [(0, 1, 100)])
            seen = None
            try:
                hhm.put(4, [(4, 0, 5)])
                check("gone", "an answer", "a fault")
            except BookWentBack as fault:
                check("gone", (fault.had, fault.has, fault.refused), ((3, 15), (10, 1000), []))
                # (the batch of the save is put again to find out, but where the identity says it)
                seen = 5 if fault.has_id is None else None
            check("gone: what is kept isn't", (hhm.cell(3, 0), hhm.cell(2, 0), hhm.cell(1, 0)), (5, seen, None))
            killed(at)


def a_bound_of_what_is_kept_saves():
    path = at_path("bound.snap")
    with Server([*WIDE, "--snapshot", path]) as at:
        with at.client(7, keep=1000) as hhm:
            check("a bound: too large", fault_of(lambda: hhm.put(0, [(0, 0, 1)] * 41)), "ValueError")
            check("a bound: nothing was sent", hhm.status(), (0, 0))
            hhm.put(1, [(0, 0, 1)] * 20)
            # (a server begins with a snapshot of nothing, which keeps its book's identity)
            check("a bound: no save yet", checked(path), "batches 0 total 0")
            hhm.put(2, [(0, 0, 1)] * 20)
            check("a bound: saved", checked(path), "batches 1 total 20")
            replies = list(hhm.put_all(((n, [(0, 0, 1)] * 20) for n in range(3, 13)), depth=4))
            check("a bound: many", replies, [(n, (n - 1, 20 * n)) for n in range(3, 13)])
            check("a bound: saved with many", checked(path), "batches 11 total 220")
        killed(at)
    with Server(WIDE) as at, at.client(7, keep=1000) as hhm:
        hhm.put(1, [(0, 0, 1)] * 20)
        check("a bound: no snapshot", fault_of(lambda: hhm.put(2, [(0, 0, 1)] * 20)), "SaveOff")
        killed(at)


def checked(path):
    """The batches and the total of a snapshot."""
    line, _, _ = run([server.PROGRAM, "check", path])
    return line[line.index("batches") : line.index(" entries")]


def a_log_is_sent_again():
    """count_log.py follows a log while its server is killed and begins again from an older snapshot."""
    log, path = at_path("again"), at_path("again.snap")
    words = ["--rows", str(1 << 32), "--cols", str(1 << 32), "--snapshot", path]
    line = b"10.0.0.%d 192.168.0.1\n"
    with Server(words, tcp=False) as at, open(log, "wb", buffering=0) as file:
        script = [sys.executable, os.path.join(PYTHON, "count_log.py"), "--unix", at.path, "--client", "3", "--follow"]
        with started([*script, log]) as counting:
            file.write(b"".join(line % (k % 7) for k in range(20_000)))
            with at.client() as hhm:
                check("sent again: before", until(hhm.status, (2, 20_000)), (2, 20_000))
                hhm.save()
                file.write(b"".join(line % (k % 7) for k in range(20_000)))
                check("sent again: more", until(hhm.status, (4, 40_000)), (4, 40_000))
            killed(at)
            with Server(words, tcp=False) as at:
                file.write(b"".join(line % (k % 7) for k in range(10_000)))
                with at.client() as hhm:
                    check("sent again: all", until(hhm.status, (5, 50_000)), (5, 50_000))
                    time.sleep(0.2)
                counting.send_signal(signal.SIGTERM)
                output, error = counting.communicate(timeout=WAIT)
                told = went_back("4 batches with total 40000", "2 with total 20000")
                told += ": the log is sent again from its start\n"
                wanted = "sent batches 5 total 50000 skipped lines 0 left lines 0\n"
                check("sent again", (output, error, counting.returncode), (wanted, told, 0))
                at.stop("sent again", 5, 50_000)


def asked(*words, **how):
    return run([sys.executable, os.path.join(PYTHON, "hhm_client.py"), *words], **how)


def the_command_line_tells():
    """What it waits for, what isn't there, and what is too much."""
    nobody = at_path("nobody")
    begin = time.monotonic()
    told = f"failed: {nobody}: No such file or directory\n"
    check("command: no server", asked("--unix", nobody, "status"), ("", told, 4))
    check("command: soon", time.monotonic() - begin < 5, True)
    with Liar(None) as liar:
        told = f"waiting for the server at {liar.path}\nfailed: timed out\n"
        words = ["--unix", liar.path, "--timeout", "3", "--attempts", "1", "status"]
        check("command: it waits", asked(*words), ("", told, 4))
    large = at_path("large.mtx")
    splits = "put it as several batches, as the word load does with files of events\n"
    with open(large, "wb") as file:
        file.truncate((64 << 20) - 15)
    told = f"failed: {large} has more than the 67108848 bytes of a batch: {splits}"
    with Server(WIDE) as at:
        where = ["--unix", at.path]
        check("command: too long a file", asked(*where, "put", "7", "1", large), ("", told, 4))
        many = "%%MatrixMarket matrix coordinate integer general\n1000000 3 1048577\n"
        told = f"refused: TooManyEntries at line 2: {splits}"
        check("command: too many entries", asked(*where, "put", "7", "1", input=many), ("", told, 1))
        missing = at_path("missing.mtx")
        told = f"failed: {missing}: No such file or directory\n"
        check("command: a missing file", asked(*where, "put", "7", "1", missing), ("", told, 4))
        check("command: a stop", asked(*where, "stop"), ("stopping\n", "", 0))
        at.ends("command", 0, 0)


def a_stop_saves_first():
    """The command line's `stop`, where a save is refused and where it isn't."""
    path = at_path("stop.snap")
    with Server([*WIDE, "--snapshot", path]) as at:
        os.mkdir(path + ".new")
        where = ["--unix", at.path]
        with at.client(7) as hhm:
            hhm.put(1, [(0, 0, 5)])
        told = ("refused: SaveFailed: nothing was stopped; `stop --discard` stops the server without what it can't "
                "save\n")
        check("stop: refused", asked(*where, "stop"), ("", told, 1))
        check("stop: it runs on", asked(*where, "status"), ("batches 1 total 5\n", "", 0))
        os.rmdir(path + ".new")
        check("stop", asked(*where, "stop"), ("stopping\n", "", 0))
        at.ends("stop", 1, 5)
    check("stop: saved", checked(path), "batches 1 total 5")
    folder = at_path("no folder")
    os.mkdir(folder)
    with Server([*WIDE, "--snapshot", os.path.join(folder, "snap")]) as at:
        shutil.rmtree(folder)
        check("stop: discards", asked("--unix", at.path, "stop", "--discard"), ("stopping\n", "", 0))
        output, error = at.process.communicate(timeout=WAIT)
        check("stop: discarded", (output, error, at.process.returncode), ("", "hhm: file: Create\n", 4))


def all_are_tried(drivers):
    """The drivers are commands, by language."""
    interrupted_calls_leave_no_connection()
    interrupted_anywhere_each_batch_counts_once()
    if "Rust" in drivers:
        a_panic_leaves_no_connection(drivers["Rust"])
    for name, command in drivers.items():
        a_timeout_amid_a_frame_leaves_no_connection(name, command)
        forks_have_connections_of_their_own(name, command)
        a_book_that_went_back_is_told(name, command)
        the_highest_place_decides(name, command)
        a_full_log_is_no_going_back(name, command)
        repeats_are_no_going_back(name, command)
        drawn_kills_lose_nothing(name, command)
        many_small_frames_go(name, command)
        silence_ends(name, command)
        bad_values_are_told(name, command)
    what_is_kept_is_put_again()
    what_is_kept_outlasts_a_full_log()
    a_saved_batch_that_is_gone_is_told()
    a_bound_of_what_is_kept_saves()
    a_log_is_sent_again()
    the_command_line_tells()
    a_stop_saves_first()
