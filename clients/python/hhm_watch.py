"""What a server does, on a screen of the terminal once a second, or as plain lines.

This is the word `watch` of `hhm_client.py`:

    hhmc --unix /run/hhm/hhm.sock watch             # a screen, until q is pressed, or ^C
    hhmc --unix /run/hhm/hhm.sock watch --once      # lines `name value ..`, once

Where standard output is no terminal, the lines come once a second. A server that is gone is waited for. What it doesn't
tell is left out. Rates are those of the last seconds: how much the numbers
of accepted batches and cells rise in a second, and the total of their counts.
"""
import argparse
import contextlib
import os
import select
import shutil
import sys
import termios
import time
import tty
from typing import Iterable, Iterator, List, Optional

from hhm_client import Refused, TopRow
from hhm_figures import Layer, Left, Moment, Watched, asking, code_of, failures_of
from hhm_words import Words, add_options

# The names of stats that are shown, each with what it may be called.
CELLS = ("cells_total",)
REPEATS = ("repeats_total",)
REFUSED = ("refused_total",)
MEMORY = ("resident_bytes",)
PROCESSOR = ("processor_seconds_total",)
UPTIME = ("uptime_seconds",)
SAVES, FAILED, SAVED, SINCE = ("saves_total",), ("failed_saves_total",), ("saved_batches",), ("save_age_seconds",)
OPEN, WAITING, SERVED, WORKERS = ("sessions_open",), ("sessions_waiting",), ("sessions_total",), ("workers",)
DURABLE, PAGES, SYNCS, GROUP = ("log_durable_batches", "durable_batches"), ("log_pages",), ("log_syncs_total",), ("log_group_batches",)
ROOM, LOG_FAILED = ("log_room_pages",), ("log_failed",)
RECEIVED, SENT = ("received_bytes_total",), ("sent_bytes_total",)
# The widest bar of a layer, and how long a look back a rate takes.
BAR = 40
BACK = 5.0


def big(number: Optional[float]) -> str:
    """A number for reading: whole, with commas; a small one with a digit behind the point."""
    if number is None:
        return "?"
    if isinstance(number, int):
        return f"{number:,}"
    return f"{number:,.1f}" if number < 10 and number != int(number) else f"{number:,.0f}"


def bytes_told(number: float) -> str:
    """Bytes by a unit of thousands."""
    for unit in ("B", "kB", "MB", "GB"):
        if number < 1000:
            break
        number /= 1000
    else:
        unit = "TB"
    return f"{number:.0f} {unit}" if unit == "B" or number >= 100 else f"{number:.1f} {unit}"


def time_told(seconds: float) -> str:
    """A time by hours, minutes and seconds."""
    whole = int(seconds)
    if whole < 60:
        return f"{whole} s"
    if whole < 3600:
        return f"{whole // 60} min {whole % 60} s"
    return f"{whole // 3600} h {whole % 3600 // 60} min"


def refusals_of(moment: Moment) -> List[str]:
    """Each code of a refusal that was answered, by its name, with how often."""
    return [f"{code_of(labels.get('code', '?'))} {big(value)}" for labels, value in moment.family(*REFUSED) if value]


def days_told(days: float) -> str:
    return f"{days:,.2f}" if days < 10 else f"{days:,.1f}" if days < 100 else f"{days:,.0f}"


def left_told(it: Left) -> List[str]:
    """What is left, and for how many days, as pairs."""
    is_bytes = it.name == "log_bytes_left"
    told = ["log left" if is_bytes else it.name.replace("_", " "), (bytes_told if is_bytes else big)(it.number)]
    return told + ([] if it.days is None else ["days", days_told(it.days)])


def refused_of(moment: Moment) -> Optional[float]:
    """How many requests were refused in all."""
    family = moment.family(*REFUSED)
    return sum(value for _, value in family) if family else moment.number(*REFUSED)


def by_layer(layers: List[Layer]) -> List[Layer]:
    """The layers of all shards together."""
    found = []
    for level in sorted({it.layer for it in layers}):
        these = [it for it in layers if it.layer == level]
        runs = None if any(it.runs is None for it in these) else sum(it.runs or 0 for it in these)
        found.append(Layer(-1, level, sum(it.entries for it in these), runs))
    return found


def facts_of(seen: Watched, moment: Moment) -> Iterator[List[str]]:
    """The figures that are told, as lines of pairs: a name and a value behind each other."""
    number = moment.number
    yield ["server", seen.place]
    begun = [("version", moment.stats.get("version")), ("uptime", time_told(up) if (up := number(*UPTIME)) else None)]
    yield [word for name, value in begun if value is not None for word in (name, str(value))]
    yield ["batches", big(moment.batches()), "total", big(moment.total())]
    rates = [("batches", Moment.batches), ("total", Moment.total), ("cells", lambda it: it.number(*CELLS))]
    told = [(name, seen.rate(read, BACK)) for name, read in rates]
    yield [word for name, rate in told if rate is not None for word in (f"{name}/s", big(rate))]
    traffic = [(name, seen.rate(lambda it, names=names: it.number(*names), BACK))
               for name, names in (("received", RECEIVED), ("sent", SENT))]
    yield [word for name, rate in traffic if rate is not None for word in (f"{name}/s", bytes_told(rate))]
    yield [word for left in seen.lefts() for word in left_told(left)]
    yield pairs(("repeats", number(*REPEATS)), ("refused", refused_of(moment))) + refusals_of(moment)
    yield [word for name, why in failures_of(moment.stats) for word in (f"last {name}", why)]
    yield pairs(("sessions", number(*OPEN)), ("waiting", number(*WAITING)), ("served", number(*SERVED)),
                ("workers", number(*WORKERS)))
    memory, processor = number(*MEMORY), seen.rate(lambda it: it.number(*PROCESSOR), BACK)
    yield ([] if memory is None else ["memory", bytes_told(memory)]) + (
        [] if processor is None else ["processor", f"{100 * processor:.0f} %"])
    yield from saves_of(moment)
    yield pairs(("durable", number(*DURABLE)), ("pages", number(*PAGES)), ("room", number(*ROOM)), ("syncs", number(*SYNCS)),
                ("last group", number(*GROUP)))
    yield ["log", "failed"] if number(*LOG_FAILED) else []
    yield ["status", f"{1000 * moment.status_seconds:.2f} ms", "cell", f"{1000 * moment.cell_seconds:.2f} ms"]


def saves_of(moment: Moment) -> Iterator[List[str]]:
    """The last save, where one was told, and how much came since."""
    number = moment.number
    since, saved = number(*SINCE), number(*SAVED)
    if since is not None and number(*SAVES):
        last = ["last save", f"{time_told(since)} ago"]
        behind = [] if saved is None else ["batches", big(saved), "since", big(max(0, moment.batches() - saved))]
        yield last + behind + pairs(("saves", number(*SAVES)), ("failed", number(*FAILED)))
    else:
        yield pairs(("saves", number(*SAVES)), ("failed", number(*FAILED)))


def pairs(*found) -> List[str]:
    """The names and numbers of those that are told."""
    return [word for name, value in found if value is not None for word in (name, big(value))]


def lines_of(seen: Watched, moment: Moment, top: Optional[List[TopRow]], words: Words) -> List[str]:
    """All figures as plain lines."""
    lines = [" ".join(fact).replace(",", "") for fact in facts_of(seen, moment) if fact]
    for it in by_layer(moment.layers()):
        lines.append(f"layer {it.layer} entries {it.entries}" + ("" if it.runs is None else f" runs {it.runs}"))
    for place, it in enumerate(top or [], 1):
        lines.append(f"top {place} {words.told(it.row)} entries {it.entries} total {it.total}")
    return lines + lacking(seen)


def lacking(seen: Watched) -> List[str]:
    """What the server doesn't know."""
    words = {"stats": "stats: this server doesn't tell them", "top": "top rows: this server doesn't tell them"}
    return [words[name] for name in words if seen.unknown.get(name)]


def screen_of(seen: Watched, moment: Moment, top: Optional[List[TopRow]], words: Words, width: int) -> List[str]:
    """The lines of a screen."""
    full = "\u2588" if is_utf8() else "#"
    facts = [[f"{name} {value}" for name, value in zip(fact[::2], fact[1::2])] if len(fact) % 2 == 0 else fact
             for fact in facts_of(seen, moment) if fact]
    facts[0] += [time.strftime("%H:%M:%S", time.localtime(moment.at)), "q quits"]
    lines = [line for fact in facts for line in wrapped(fact, width)]
    layers = by_layer(moment.layers())
    if layers:
        most = max(max(it.entries for it in layers), 1)
        room = max(1, min(BAR, width - 40))
        lines += ["", "layers of all shards, by entries"]
        for it in layers:
            length = -(-it.entries * room // most)
            runs = "" if it.runs is None else f"   {big(it.runs)} runs"
            lines.append(f" {it.layer} {full * length:<{room}} {big(it.entries):>14}{runs}")
    if top:
        names = [words.told(it.row) for it in top]
        room = max(20, min(max(map(len, names)), width - 40))
        lines += ["", f"    {'row':>{room}} {'entries':>14} {'total':>20}"]
        for place, (name, it) in enumerate(zip(names, top), 1):
            lines.append(f" {place:2} {cut(name, room):>{room}} {big(it.entries):>14} {big(it.total):>20}")
    return lines + lacking(seen)


def is_utf8() -> bool:
    return "utf" in (sys.stdout.encoding or "").lower()


def cut(line: str, width: int) -> str:
    """A line of at most `width` characters; the last shows where it was cut."""
    return line if len(line) <= width else line[: width - 1] + ("\u2026" if is_utf8() else ">")


def wrapped(facts: List[str], width: int) -> Iterator[str]:
    """Facts side by side, on as many lines as they need."""
    line = facts[0]
    for fact in facts[1:]:
        if len(line) + 3 + len(fact) > width:
            yield line
            line = "  " + fact
        else:
            line += "   " + fact
    yield line


def shown(lines: List[str]) -> bytes:
    """A screen over the one before it, cut to the terminal. It says how many lines are cut."""
    size = shutil.get_terminal_size()
    room = size.lines - 1
    if len(lines) > room:
        lines = [*lines[: room - 1], f"{len(lines) - room + 1} more lines: the terminal is too low"]
    kept = [cut(line, size.columns) + "\x1b[K" for line in lines]
    return ("\x1b[H" + "\r\n".join(kept) + "\x1b[J").encode(errors="replace")


@contextlib.contextmanager
def own_screen() -> Iterator[None]:
    """Another screen of the terminal, without a cursor, and at the end the one that was there."""
    sys.stdout.write("\x1b[?1049h\x1b[?25l")
    sys.stdout.flush()
    try:
        yield
    finally:
        sys.stdout.write("\x1b[?25h\x1b[?1049l")
        sys.stdout.flush()


class Keys:
    """The keys of a terminal, as they are pressed; none where standard input is no terminal."""

    def __init__(self, terminal: Optional[int]):
        self.terminal = terminal

    def is_quit_within(self, seconds: float) -> bool:
        """Waits for so long, or until `q` is pressed, and returns whether it was."""
        ends = time.monotonic() + seconds
        while (left := ends - time.monotonic()) > 0:
            if self.terminal is None:
                time.sleep(left)
            elif select.select([self.terminal], [], [], left)[0]:
                pressed = os.read(self.terminal, 64)
                if b"q" in pressed.lower():
                    return True
                self.terminal = self.terminal if pressed else None
        return False


@contextlib.contextmanager
def single_keys() -> Iterator[Keys]:
    """Reads keys without waiting for the end of a line, and without showing them; signals stay as they are."""
    if not sys.stdin.isatty():
        yield Keys(None)
        return
    terminal = sys.stdin.fileno()
    before = termios.tcgetattr(terminal)
    tty.setcbreak(terminal)
    try:
        yield Keys(terminal)
    finally:
        termios.tcsetattr(terminal, termios.TCSADRAIN, before)


def words_of(fault: Exception) -> str:
    """Why there is no answer."""
    return (isinstance(fault, OSError) and fault.strerror) or str(fault)


def look(seen: Watched, given: argparse.Namespace, words: Words, is_screen: bool) -> List[str]:
    """The lines of a look at the server, or that it is gone."""
    try:
        moment = seen.look()
        top = seen.top()
    except (OSError, Refused) as fault:
        if given.once:
            raise
        return [f"server {seen.place}", f"no answer: {words_of(fault)}", time.strftime("%H:%M:%S")]
    if is_screen:
        return screen_of(seen, moment, top, words, shutil.get_terminal_size().columns)
    return lines_of(seen, moment, top, words)


def run(given: argparse.Namespace) -> Iterable[bytes]:
    """Looks once a second, and gives what is to be written."""
    words = Words.of(given)
    seen = Watched(asking(given.tcp, given.unix, given.timeout))
    if given.once:
        # (a rate needs two looks)
        seen.look()
        time.sleep(given.every)
        yield ("\n".join(look(seen, given, words, False)) + "\n").encode(errors="surrogateescape")
        return
    if not sys.stdout.isatty():
        while True:
            yield ("\n".join(look(seen, given, words, False)) + "\n\n").encode(errors="surrogateescape")
            time.sleep(given.every)
    with own_screen(), single_keys() as keys:
        while True:
            yield shown(look(seen, given, words, True))
            if keys.is_quit_within(given.every):
                return


def seconds(word: str) -> float:
    """A time of the command line, from a tenth of a second to an hour."""
    value = float(word)
    if not 0.1 <= value <= 3600:
        raise argparse.ArgumentTypeError(f"{word} isn't from 0.1 to 3600")
    return value


def add_words(watch: argparse.ArgumentParser) -> None:
    """Adds the words of `watch` to those of the command line."""
    watch.add_argument("--once", action="store_true", help="writes plain lines once, and ends")
    watch.add_argument("--every", type=seconds, default=1.0, metavar="SECONDS", help="between two looks (1)")
    add_options(watch)
