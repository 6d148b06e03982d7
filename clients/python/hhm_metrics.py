"""Tells what a server does to Prometheus, and on a page for a browser.

This is the word `metrics` of `hhm_client.py`:

    hhmc --unix /run/hhm/hhm.sock metrics --listen 127.0.0.1:9100

`/metrics` has everything that the server tells of itself in the text format of Prometheus, each name with `hhm_` in
front, and `hhm_up`, which is 0 where the server doesn't answer. `/` is a page that draws itself of `/stats.json` once a
second: rates over ten minutes or, of `/day.json`, 24 hours, latencies as this program measures them, layers, the rows
that lead and how many entries rows have. It loads nothing from anywhere else. Whoever can connect may look: keep to an
address of this machine, or put something in front that knows who comes. The server needs a worker for this program.
"""
import argparse
import json
import math
import sys
import threading
import time
from http.server import BaseHTTPRequestHandler, ThreadingHTTPServer
from typing import Any, Dict, Iterable, List, Optional, Tuple
from urllib.parse import parse_qs, urlsplit

from hhm_client import CODES, Refused, TopRow
from hhm_figures import BOUNDS, KEPT, LABELLED, MINUTE, Degrees, Moment, Watched, asking, labels_of
from hhm_page import PAGE
from hhm_values import Value
from hhm_words import Words, add_options
from hhm_watch import (
    BACK, CELLS, DURABLE, FAILED, GROUP, MEMORY, OPEN, PAGES, PROCESSOR, RECEIVED, REPEATS, ROOM, SAVED, SAVES, SENT,
    SERVED, SINCE, SYNCS, UPTIME, WAITING, WORKERS, words_of, lacking, refusals_of, refused_of, seconds,
)

# The looks for whose time nothing is said of the time between two of them, where so much lies between, and the seconds
# for which the rows that lead are asked for behind the last page that asked.
GAP, VIEWED = 3.5, 30.0
# By how many seconds the start of a server may vary, as it is worked out of its age.
JITTER = 2.0
# Numbers from here on are no longer whole in a browser.
EXACT = 1 << 53
# What the page may load: nothing but its own script, styles and numbers.
POLICY = ("default-src 'none'; script-src 'unsafe-inline'; style-src 'unsafe-inline'; img-src data:; "
          "connect-src 'self'; base-uri 'none'; form-action 'none'; frame-ancestors 'none'")
HELP = {
    "up": "Whether the server answered the last time it was asked.",
    "status_seconds": "How long the last status took, as hhmc metrics measured it.",
    "cell_seconds": "How long the last cell took, as hhmc metrics measured it.",
    "batches": "Accepted batches.", "total": "The sum of all counts.", "info": "The version of the server.",
    "build_info": "The version of the server.",
    "process_start_time_seconds": "When the server began, in seconds since 1970.",
    "rows": "Rows of the matrix.", "cols": "Columns of the matrix.", "workers": "Connections that are served at once.",
    "cuts": "Cuts between the layers of a shard.", "layer_cut_entries": "Entries above which a layer goes on to the next.",
    "shards": "Shards of the matrix.", "limit": "The highest total that may be accepted.",
    "max_batches": "The most batches that may be accepted.", "batches_left": "Batches that may still be accepted.",
    "total_left": "By how much the total may still rise.",
    "log_bytes_left": "By how many bytes the log may still grow.",
    **{f"{it.name}_days": f"For how many days {it.name} is enough at the rate of the last hour." for it in BOUNDS},
    "last_failure": "Why requests were refused last, by their code.",
    "accepted_total": "Batches accepted since the start.",
    "frames_total": "Requests that came, by their kind.", "received_bytes_total": "Bytes that were read.",
    "sent_bytes_total": "Bytes that were written.", "log_room_pages": "Pages that are ready for batches.",
    "folded": "Accepted batches that are folded.", "cells_total": "Cells of accepted batches.",
    "repeats_total": "Puts of batches that had been accepted.", "refused_total": "Refused requests, by their code.",
    "sessions_total": "Connections that got a worker.", "sessions_open": "Connections that are served now.",
    "sessions_waiting": "Connections that wait for a worker.", "resident_bytes": "Resident memory of the server.",
    "processor_seconds_total": "Processor time of the server.", "uptime_seconds": "Seconds since the server began.",
    "saves_total": "Saves that were made.", "failed_saves_total": "Saves that failed.",
    "saved_batches": "Batches of the last save.", "save_age_seconds": "Seconds since the last save.",
    "log_failed": "Whether a call on the log has failed since it was begun.", "book": "The identity of the book.",
    "log_durable_batches": "Batches that the log has on its disk.",
    "durable_batches": "Accepted batches that no crash takes back.", "log_pages": "Pages of the log.",
    "log_syncs_total": "Syncs of the log.", "log_group_batches": "Batches of the log's last group.",
    "put_seconds": "How long accepted puts took, from the end of the request to the answer.",
    "shard_layer_entries": "Entries of a layer of a shard, at most.", "shard_layer_runs": "Runs of a layer of a shard.",
}
# The metrics of several samples: how many were at most so large, their sum, and how many there were.
HISTOGRAMS = ("hhm_put_seconds",)
NUMBERS = {
    "rows": ("rows",), "cols": ("cols", "columns"), "uptime": UPTIME, "cells": CELLS, "repeats": REPEATS, "open": OPEN,
    "waiting": WAITING, "served": SERVED, "workers": WORKERS, "memory": MEMORY, "saves": SAVES, "failed": FAILED,
    "saved": SAVED, "save_age": SINCE, "log_durable": DURABLE, "log_pages": PAGES, "log_syncs": SYNCS,
    "log_group": GROUP, "log_room": ROOM, "received": RECEIVED, "sent": SENT,
    "log_failed": ("log_failed",), "limit": ("limit",), "max_batches": ("max_batches",),
}


class Looker:
    """Looks at a server once a second, in a thread of its own, and keeps what was seen."""

    def __init__(self, seen: Watched, every: float):
        self.seen, self.every = seen, every
        self.lock = threading.Lock()
        self.fault: Optional[str] = "it wasn't asked yet"
        self.top: Optional[List[TopRow]] = None
        self.degrees: Optional[Tuple[float, Degrees]] = None
        self.viewed = 0.0
        # When the server began; the same number as long as its age says so but for some jitter.
        self.start: Optional[float] = None
        # What refusals, saves and failed saves were, and when each was last seen to rise.
        self.counts: Dict[str, float] = {}
        self.rises: Dict[str, float] = {}

    def run(self) -> None:
        while True:
            begin = time.monotonic()
            self.look()
            time.sleep(max(0.05, self.every - (time.monotonic() - begin)))

    def note_rises(self, moment: Moment) -> None:
        numbers = {"refused": refused_of(moment), "saves": moment.number(*SAVES), "failed": moment.number(*FAILED)}
        for name, number in numbers.items():
            if number is not None and number > self.counts.get(name, number):
                self.rises[name] = moment.at
            self.counts[name] = number or 0

    def is_refusing(self) -> bool:
        """Whether a request was refused in the last ten minutes, as far as was seen."""
        return time.time() - self.rises.get("refused", 0.0) < KEPT

    def is_unsaved(self) -> bool:
        """Whether a save has failed, and none was seen to be made since."""
        return self.counts.get("failed", 0) > 0 and self.rises.get("saves", 0.0) <= self.rises.get("failed", 0.0)

    def look(self) -> None:
        try:
            moment = self.seen.look()
            age = moment.number(*UPTIME)
            if age is not None and (self.start is None or abs(moment.at - age - self.start) > JITTER):
                self.start = moment.at - age
            self.note_rises(moment)
            if time.monotonic() - self.viewed < VIEWED:
                self.top = self.seen.top()
                degrees = self.seen.degrees()
                if degrees is not None and (self.degrees is None or self.degrees[1] is not degrees):
                    self.degrees = time.time(), degrees
            fault = None
        except (OSError, Refused) as why:
            fault = words_of(why)
        with self.lock:
            self.fault = fault



def whole(number: Any) -> Any:
    """A number as a browser can read it: a word where it is too large to be whole there."""
    return str(number) if isinstance(number, int) and number >= EXACT else number


def series_of(moments: List[Moment], since: float, gap: float) -> Dict[str, List[Optional[float]]]:
    """What is drawn over time, of the moments behind a time; nothing said of the time in which the server was gone."""
    found: Dict[str, List[Any]] = {name: [] for name in ("at", "batches", "total", "memory", "status_ms", "cell_ms")}
    for before, now in zip([None, *moments], moments):
        if now.at <= since:
            continue
        is_near = before is not None and 0 < now.at - before.at <= gap
        if before is not None and not is_near:
            for values in found.values():
                values.append(None)
            found["at"][-1] = now.at - 0.001
        found["at"].append(now.at)
        for name, read in (("batches", Moment.batches), ("total", Moment.total)):
            rise = max(0, read(now) - read(before)) / (now.at - before.at) if is_near else None
            found[name].append(rise)
        found["memory"].append(now.number(*MEMORY))
        found["status_ms"].append(1000 * now.status_seconds)
        found["cell_ms"].append(1000 * now.cell_seconds)
    return found


def page_stats(looker: Looker, since: float, words: Words) -> Dict[str, Any]:
    """What the page draws."""
    looker.viewed = time.monotonic()
    moments, seen = looker.seen.moments, looker.seen
    last = moments[-1] if moments else None
    told: Dict[str, Any] = {
        "place": seen.place, "now": time.time(), "is_ip": words.is_ip, "fault": looker.fault,
        "answered": last.at if last else None, "series": series_of(moments, since, GAP * looker.every),
        "lacking": [it.partition(":")[0] for it in lacking(seen)],
    }
    if last is None:
        return told
    rates = {"batches": Moment.batches, "total": Moment.total, "cells": lambda it: it.number(*CELLS),
             "processor": lambda it: it.number(*PROCESSOR), "received": lambda it: it.number(*RECEIVED),
             "sent": lambda it: it.number(*SENT)}
    degrees = looker.degrees
    numbers = {name: whole(last.number(*names)) for name, names in NUMBERS.items()}
    told.update({
        "version": last.stats.get("version"), "batches": whole(last.batches()), "total": whole(last.total()),
        "numbers": {**numbers, "refused": refused_of(last)},
        "refused": [it.rsplit(" ", 1) for it in refusals_of(last)],
        "is_refusing": looker.is_refusing(), "is_unsaved": looker.is_unsaved(),
        "rates": {name: seen.rate(read, BACK) for name, read in rates.items()},
        "left": [[it.name, whole(it.number), it.days] for it in seen.lefts()],
        "layers": [list(it) for it in last.layers()],
        "top": None if looker.top is None else [[whole(number) for number in it] for it in looker.top],
        "names": [words.name(it.row) for it in looker.top or []],
        "degrees": None if degrees is None else {"at": degrees[0], **degrees[1]._asdict()},
        "stats": [[name, str(value)] for name, value in last.stats.items()],
    })
    return told


def metrics_of(lookers: List[Looker]) -> str:
    """All that servers report, in the text format of Prometheus. With several servers each sample is labelled."""
    families: Dict[str, List[str]] = {}
    for looker in lookers:
        for name, samples in families_of(looker).items():
            place = looker.seen.place if len(lookers) > 1 else ""
            families.setdefault(name, []).extend(labelled(sample, place) for sample in samples)
    lines = []
    for name, samples in families.items():
        kind = "histogram" if name in HISTOGRAMS else "counter" if name.endswith("_total") else "gauge"
        lines += [f"# HELP {name} {help_of(name)}", f"# TYPE {name} {kind}", *samples]
    return "\n".join(lines) + "\n"


def labelled(sample: str, server: str) -> str:
    """A sample with the label of its server, where there are several."""
    name, _, value = sample.rpartition(" ")
    if not server:
        return sample
    escaped = server.replace("\\", "\\\\").replace('"', '\\"')
    front = f"{name[:-1]}," if name.endswith("}") else f"{name}{{"
    return f'{front}server="{escaped}"}} {value}'


def families_of(looker: Looker) -> Dict[str, List[str]]:
    """The samples of a server by the names of their metrics. A server that is gone has only the sample that says so."""
    moments = looker.seen.moments
    families: Dict[str, List[str]] = {"hhm_up": ["hhm_up " + ("1" if looker.fault is None else "0")]}
    if looker.fault is None and moments:
        last = moments[-1]
        told: Dict[str, Any] = {"batches": last.batches(), "total": last.total(), **last.stats}
        told.update({"status_seconds": round(last.status_seconds, 6), "cell_seconds": round(last.cell_seconds, 6)})
        told.update({f"{it.name}_days": round(it.days, 4) for it in looker.seen.lefts() if it.days is not None})
        for name, value in told.items():
            found = LABELLED.fullmatch(name)
            if name == "version":
                families.update({it: [f'{it}{{version="{value}"}} 1'] for it in ("hhm_info", "hhm_build_info")})
            elif found and isinstance(value, (int, float)):
                families.setdefault(family_of("hhm_" + found.group("name")), []).append(f"hhm_{named(name)} {value}")
        if looker.start is not None:
            families["process_start_time_seconds"] = [f"process_start_time_seconds {looker.start:.2f}"]
    return families


def family_of(name: str) -> str:
    """The metric that a sample of this name belongs to."""
    return next((it for it in HISTOGRAMS if name in [it + end for end in ("_bucket", "_sum", "_count")]), name)


def named(name: str) -> str:
    """A name of stats; a refusal's code gets its name beside it."""
    labels = labels_of(name)
    if not name.startswith(("refused_total{", "last_failure{")) or not labels.get("code", "").isdigit():
        return name
    return f'{name[:-1]},name="{CODES.get(int(labels["code"]), "unknown")}"}}'


def help_of(name: str) -> str:
    """The help of a metric; that of a name which only the server explains has the name alone."""
    bare = name[len("hhm_"):] if name.startswith("hhm_") else name
    return HELP.get(bare, f"{bare}, as the server tells it.")


class Handler(BaseHTTPRequestHandler):
    """Answers a browser, or Prometheus."""

    lookers: List[Looker]
    words = Words()
    protocol_version = "HTTP/1.1"
    server_version, sys_version = "hhmc", ""
    timeout = 30

    def do_GET(self) -> None:
        asked = urlsplit(self.path)
        if not self.is_asked_here():
            self.answer(403, "text/plain; charset=utf-8", "This is served to this machine alone.\n")
        elif asked.path == "/":
            self.answer(200, "text/html; charset=utf-8", PAGE)
        elif asked.path == "/stats.json":
            told = page_stats(self.looker(asked.query), number_of("since", asked.query), self.words)
            told["places"] = [looker.seen.place for looker in self.lookers]
            self.answer(200, "application/json", json.dumps(told, separators=(",", ":")))
        elif asked.path == "/day.json":
            told = series_of(self.looker(asked.query).seen.minutes, 0.0, GAP * MINUTE)
            self.answer(200, "application/json", json.dumps(told, separators=(",", ":")))
        elif asked.path == "/metrics":
            self.answer(200, "text/plain; version=0.0.4; charset=utf-8", metrics_of(self.lookers))
        else:
            self.answer(404, "text/plain; charset=utf-8", "There are /, /stats.json, /day.json and /metrics.\n")

    do_HEAD = do_GET

    def looker(self, query: str) -> Looker:
        """The looker of the server that a query asks for, the first where there is none of that number."""
        place = int(number_of("server", query))
        return self.lookers[place if 0 <= place < len(self.lookers) else 0]

    def is_asked_here(self) -> bool:
        """Whether who asks named this machine, where it listens to this machine alone: a page from elsewhere, whose
        name was made to stand for this address, else could read along."""
        own, _ = self.server.server_address[:2]
        name = urlsplit("//" + self.headers.get("Host", "localhost")).hostname or ""
        return not own.startswith("127.") or name == "localhost" or name.startswith("127.")

    def answer(self, status: int, kind: str, text: str) -> None:
        body = text.encode()
        self.send_response(status)
        self.send_header("Content-Type", kind)
        self.send_header("Content-Length", str(len(body)))
        self.send_header("Cache-Control", "no-store")
        self.send_header("X-Content-Type-Options", "nosniff")
        self.send_header("Content-Security-Policy", POLICY)
        self.end_headers()
        if self.command != "HEAD":
            self.wfile.write(body)

    def log_message(self, *_: Any) -> None:
        """(a line for each second would say nothing)"""


def number_of(name: str, query: str) -> float:
    """A number of a query, as the time since which a page asks; 0 where it is none."""
    try:
        found = float(parse_qs(query).get(name, ["0"])[0])
    except ValueError:
        return 0.0
    return found if math.isfinite(found) else 0.0


class Web(ThreadingHTTPServer):
    daemon_threads = True

    def handle_error(self, request: Any, client_address: Any) -> None:
        """A browser that goes amid an answer is no fault."""
        if not isinstance(sys.exc_info()[1], OSError):
            super().handle_error(request, client_address)


def run(given: argparse.Namespace) -> Iterable[bytes]:
    """Listens, says where, and serves until it is ended."""
    places = [(given.tcp, given.unix), *((other.tcp, other.unix) for other in given.also)]
    lookers = [Looker(Watched(asking(tcp, unix, given.timeout)), given.every) for tcp, unix in places]
    handler = type("Own", (Handler,), {"lookers": lookers, "words": Words.of(given)})
    host, port = given.listen
    try:
        web = Web((host, port), handler)
    except OSError as fault:
        fault.filename = f"{host}:{port}"
        raise
    for looker in lookers:
        threading.Thread(target=looker.run, daemon=True).start()
    with web:
        yield b"listening http://%b:%d/\n" % (host.encode(), web.server_address[1])
        web.serve_forever()


def listened(word: str) -> Tuple[str, int]:
    """The address to listen at; the port 0 is one that is free."""
    host, _, port = word.rpartition(":")
    if not host or not (port.isascii() and port.isdigit()) or int(port) > 65535:
        raise argparse.ArgumentTypeError(f"{word!r} isn't HOST:PORT")
    return host, int(port)


def other_server(word: str) -> Value:
    """Another server of the command line."""
    try:
        return Value.of(f"={word}")
    except ValueError:
        raise argparse.ArgumentTypeError(f"{word!r} isn't unix:PATH or tcp:HOST:PORT") from None


def add_words(metrics: argparse.ArgumentParser) -> None:
    """Adds the words of `metrics` to those of the command line."""
    listen = "where a browser, or Prometheus, asks (127.0.0.1:9100)"
    metrics.add_argument("--listen", type=listened, default=("127.0.0.1", 9100), metavar="HOST:PORT", help=listen)
    metrics.add_argument("--every", type=seconds, default=1.0, metavar="SECONDS", help="between two looks (1)")
    also = "another server beside the first, unix:PATH or tcp:HOST:PORT; may be given several times"
    metrics.add_argument("--also", type=other_server, action="append", default=[], metavar="SERVER", help=also)
    add_options(metrics)
