#!/usr/bin/env python3
"""Looks at servers by `hhmc watch` and `hhmc metrics`, and compares what is shown with what the servers tell.

    python3 tests/watching.py PATH-TO-HHM [--picture OUT.png]

The page of `metrics` is opened in a browser (page.py); with `--picture` only the picture of it is made that docs/ has. It prints a line for each check that fails and at the end
`N passed, M failed`; the status is 1 where one fails. Linux, and nothing but Python's own library.
"""
import json
import os
import pty
import re
import select
import signal
import subprocess
import sys
import time
import urllib.error
import urllib.request
import xml.etree.ElementTree

import page
import server
from hhm_client import Client, Status
from hhm_figures import HOUR, KEPT, Left, Moment, Watched, lefts_of, rate_of
from hhm_metrics import Looker, series_of
from hhm_rates import rates_of
from peers import WAIT, run, until
from server import Server, check
from stand_in import OTHERWISE, StandIn

HERE = os.path.dirname(os.path.abspath(__file__))
HHMC = [sys.executable, os.path.join(HERE, "..", "clients", "python", "hhm_client.py")]
LARGE = ["--rows", str(1 << 32), "--cols", str(1 << 32)]
ADDRESS = 10 << 24
# What a server tells that has every kind of name, one that nobody knows, and numbers that no browser has whole.
TOLD = {
    "version": "1.2.3", "rows": 1 << 60, "cols": 1 << 60, "batches": 5, "total": (1 << 64) - 1, "unheard_of": 7,
    "odd_seconds": "0.250", 'odd_family{a="b c",d="e\\"f"}': 9, 'odd_family{a="x"}': 8, "odd_total": (1 << 63) + 1,
    'refused_total{code="30"}': 4,
}
REFUSALS = 'refused_total{code="30"}'
LABEL = r'[a-z_]+="(?:[^"\\]|\\.)*"'
SAMPLE = re.compile(r"([a-z_0-9]+)(\{" + LABEL + "(?:," + LABEL + r")*\})? ([0-9.e+-]+)")


class Metrics:
    """`hhmc metrics` of a server, at a port of its own."""

    def __init__(self, path, *words):
        self.process = subprocess.Popen([*HHMC, "--unix", path, "metrics", "--listen", "127.0.0.1:0", *words],
                                        stdout=subprocess.PIPE, stderr=subprocess.PIPE, text=True)
        self.url = self.process.stdout.readline().removeprefix("listening ").strip()

    def __enter__(self):
        return self

    def __exit__(self, *_):
        self.process.send_signal(signal.SIGINT)
        try:
            _, error = self.process.communicate(timeout=WAIT)
            check("metrics: its end", (self.process.returncode, error), (130, ""))
        except subprocess.TimeoutExpired:
            self.process.kill()
            check("metrics: its end", "none", "one")

    def text(self, path="", **how):
        with urllib.request.urlopen(urllib.request.Request(self.url + path, **how), timeout=WAIT) as answer:
            return answer.read().decode()

    def json(self, since=0):
        return json.loads(self.text(f"stats.json?since={since}"))

    def samples(self):
        """The samples of /metrics by names with labels; each family's lines stand together behind its help and type."""
        found, seen, family = {}, set(), None
        for line in self.text("metrics").splitlines():
            if line.startswith("# HELP "):
                family = line.split()[2]
                check(f"metrics: {family} is told once", family in seen, False)
                seen.add(family)
            elif line.startswith("# TYPE "):
                kind = "counter" if family.endswith("_total") else "gauge"
                kind = "histogram" if family == "hhm_put_seconds" else kind
                check(f"metrics: type of {family}", line, f"# TYPE {family} {kind}")
            else:
                sample = SAMPLE.fullmatch(line)
                ends = ("_bucket", "_sum", "_count") if family == "hhm_put_seconds" else ("",)
                check(f"metrics: {line}", sample and sample.group(1) in [family + it for it in ends], True)
                found[line.rpartition(" ")[0]] = line.rpartition(" ")[2]
        return found


def answers(metrics):
    return until(lambda: metrics.json()["fault"], None)


def what_a_server_tells_is_told():
    """Names that nobody knows, labels, fractions and numbers of 64 bits, as they are; and what the page asks for."""
    with StandIn(stats=TOLD) as at, Metrics(at.path) as metrics:
        check("told: answers", answers(metrics), None)
        samples = metrics.samples()
        times = [float(samples.pop(name)) for name in ("hhm_status_seconds", "hhm_cell_seconds")]
        check("told: times", all(0 < value < 5 for value in times), True)
        # (the server in Python is a thread of this process)
        durable, memory, age, processor = (float(samples.pop(f"hhm_{name}")) for name in OTHERWISE)
        check("told: of the process", (durable, 1e7 < memory < 1e9, age > 0, 0 < processor < 60), (0, True, True, True))
        start = float(samples.pop("process_start_time_seconds"))
        check("told: the start", abs(time.time() - age - start) < 10, True)
        check("told: the start is one number", metrics.samples()["process_start_time_seconds"], f"{start:.2f}")
        wanted = {f"hhm_{name}": str(value) for name, value in TOLD.items() if name not in ("version", REFUSALS)}
        wanted.update({"hhm_up": "1", 'hhm_info{version="1.2.3"}': "1", "hhm_odd_seconds": "0.25",
                       'hhm_build_info{version="1.2.3"}': "1", f'hhm_{REFUSALS[:-1]},name="NumberReused"}}': "4"})
        check("told: samples", samples, wanted)
        told = metrics.json()
        raw = {**{name: str(value) for name, value in TOLD.items()}, "odd_seconds": "0.25"}
        check("told: raw", {name: it for name, it in told["stats"] if name not in OTHERWISE}, raw)
        check("told: large", (told["numbers"]["rows"], told["total"]), (str(1 << 60), 0))
        check("told: moments", until(lambda: len(metrics.json()["series"]["at"]) > 3, True), True)
        series = metrics.json()["series"]
        check("told: as long each", len({len(values) for values in series.values()}), 1)
        behind = metrics.json(series["at"][1])["series"]["at"]
        check("told: behind a time", (behind[0], len(behind) >= len(series["at"]) - 2), (series["at"][2], True))
        check("told: no number", metrics.json("x")["place"], f"unix:{at.path}")
        asked = at.asked[12]
        check("told: again and again", until(lambda: at.asked[12] >= asked + 3, True), True)


def an_earlier_server_is_told():
    """One that doesn't know Stats, or Top either: what it tells is shown, and it isn't asked again and again."""
    for unknown, lacks in [((), ["stats"]), ((11,), ["stats", "top rows"])]:
        with StandIn(stats=None, unknown=unknown) as at, Metrics(at.path) as metrics:
            at.put([(5, 5, 9)])
            check("earlier: answers", answers(metrics), None)
            check("earlier: moments", until(lambda: len(metrics.json()["series"]["at"]) > 4, True), True)
            told = metrics.json()
            names = tuple(name for name, _ in told["stats"])
            check("earlier: lacks", (told["lacking"], names, told["layers"]), (lacks, OTHERWISE, []))
            check("earlier: total", (told["total"], told["top"]), (9, None if unknown else [[5, 1, 9]]))
            check("earlier: asked once", (at.asked[12], not unknown or at.asked[11] == 1), (1, True))
            samples = metrics.samples()
            check("earlier: samples", [samples[f"hhm_{name}"] for name in ("up", "batches", "total")], ["1", "0", "9"])
            output, error, status = run([*HHMC, "--unix", at.path, "watch", "--once"])
            words = [f"{lack}: this server doesn't tell them" for lack in lacks]
            check("earlier: watch", (output.splitlines()[-len(lacks):], error, status), (words, "", 0))


def a_browser_is_answered():
    with StandIn(stats={}) as at, Metrics(at.path) as metrics:
        with urllib.request.urlopen(metrics.url, timeout=WAIT) as answer:
            kind, policy = answer.headers["Content-Type"], answer.headers["Content-Security-Policy"]
        check("http: the page", (kind, "default-src 'none'" in policy), ("text/html; charset=utf-8", True))
        others = set(re.findall(r"https?://[\w.]+|src=|@import|url\(", metrics.text()))
        check("http: nothing from elsewhere", others, {"http://www.w3.org"})
        check("http: only a head", metrics.text(method="HEAD"), "")
        for path in ["favicon.ico", "metrics/", "stats.jso"]:
            try:
                check(f"http: {path}", metrics.text(path), None)
            except urllib.error.HTTPError as fault:
                check(f"http: {path}", fault.code, 404)
        port = metrics.url.rstrip("/").rpartition(":")[2]
        for host, wanted in [("elsewhere.example", 403), (f"elsewhere.example:{port}", 403), ("", 403), ("10.0.0.1", 403),
                             ("localhost", 200), (f"localhost:{port}", 200), ("127.0.0.1", 200)]:
            asked = urllib.request.Request(metrics.url + "metrics", headers={"Host": host})
            try:
                with urllib.request.urlopen(asked, timeout=WAIT) as answer:
                    check(f"http: asked by {host!r}", answer.status, wanted)
            except urllib.error.HTTPError as fault:
                check(f"http: asked by {host!r}", fault.code, wanted)
        ran = run([*HHMC, "--unix", at.path, "metrics", "--listen", f"127.0.0.1:{port}"])
        check("http: the same port", ran, ("", f"failed: 127.0.0.1:{port}: Address already in use\n", 4))
    for words in [["--listen", "nowhere"], ["--listen", "h:x"], ["--listen", "h:65536"], ["--every", "0"]]:
        output, error, status = run([*HHMC, "--unix", "x", "metrics", *words])
        check(f"metrics {words}", (output, error.startswith("usage"), status), ("", True, 2))


class Screen:
    """A program on a terminal of 120 columns and 50 lines, and all that it has written. It is ended by Ctrl-C, or by
    keys."""

    def __init__(self, words, size=("120", "50"), keys=None):
        self.process, self.terminal = pty.fork()
        if self.process == 0:
            os.environ.update({"COLUMNS": size[0], "LINES": size[1], "PYTHONIOENCODING": "utf-8"})
            os.execvp(words[0], words)
        self.text, self.status, self.keys = "", None, keys

    def __enter__(self):
        return self

    def __exit__(self, *_):
        if self.keys is None:
            os.kill(self.process, signal.SIGINT)
        else:
            os.write(self.terminal, self.keys)
        self.until(None)
        self.status = os.waitstatus_to_exitcode(os.waitpid(self.process, 0)[1])
        os.close(self.terminal)

    def until(self, words):
        """Reads until words come behind what was read, or up to the end."""
        begin, ends = len(self.text), time.monotonic() + WAIT
        while time.monotonic() < ends and (words is None or words not in self.text[begin:]):
            if select.select([self.terminal], [], [], 0.2)[0]:
                try:
                    more = os.read(self.terminal, 65536)
                except OSError:
                    more = b""
                if not more:
                    return words is None
                self.text += more.decode("utf-8", "replace")
        return words is not None and words in self.text[begin:]


def a_server_is_watched():
    """Lines of the built program, and a screen; while it is gone, and when it is back."""
    cells = [(ADDRESS + 1, col, 2) for col in range(30)] + [(ADDRESS + 2, 7, 500), (3, 1, 1)]
    with Server(LARGE, tcp=False) as at:
        with at.client(8) as hhm:
            hhm.put(1, cells)
        output, error, status = run([*HHMC, "--unix", at.path, "watch", "--once", "--ip", "--every", "0.2"])
        lines = output.splitlines()
        check("watch: ends", (error, status), ("", 0))
        check("watch: lines", lines[0], f"server unix:{at.path}")
        check("watch: status", "batches 1 total 561" in lines, True)
        check("watch: durable", "durable 1" in lines, True)
        check("watch: begun", bool(re.search(r"^version 0\.1\.0 uptime \d+ s$", output, re.M)), True)
        check("watch: refused", "repeats 0 refused 0" in lines, True)
        check("watch: sessions", "sessions 1 waiting 0 served 2 workers 4" in lines, True)
        check("watch: traffic", bool(re.search(r"^received/s [\d.]+ B sent/s [\d.]+ k?B$", output, re.M)), True)
        check("watch: saves", "saves 0 failed 0" in lines, True)
        check("watch: layers", [it.partition(" runs ")[0] for it in lines if it.startswith("layer ")],
              ["layer 1 entries 32", *(f"layer {k} entries 0" for k in (2, 3, 4))])
        check("watch: no rise", [it for it in lines if it.startswith("batches/s 0 total/s 0")] != [], True)
        tops = [it for it in lines if it.startswith("top ")]
        check("watch: top", tops, ["top 1 10.0.0.2 entries 1 total 500", "top 2 10.0.0.1 entries 30 total 60",
                                   "top 3 0.0.0.3 entries 1 total 1"])
        with Screen([*HHMC, "--unix", at.path, "watch", "--every", "0.2"]) as screen:
            check("screen: batches", screen.until("batches 1   total 561"), True)
            check("screen: a row", screen.until(f"{ADDRESS + 2}              1                  500"), True)
            at.process.kill()
            at.process.wait()
            check("screen: gone", screen.until("no answer: Connection refused"), True)
            with Server(LARGE, tcp=False) as other:
                with other.client(8) as hhm:
                    hhm.put(1, cells[:1])
                check("screen: back", screen.until("batches 1   total 2"), True)
        check("screen: its end", (screen.status, screen.text.endswith("\x1b[?25h\x1b[?1049l")), (130, True))
    output, error, status = run([*HHMC, "--unix", at.path, "watch", "--once"])
    check("watch: gone", (output, status), ("", 4))


def a_failed_log_is_watched():
    for told, wanted in [({"log_failed": 1}, True), ({"log_failed": 0}, False), ({}, False)]:
        with StandIn(stats=told) as at:
            output = run([*HHMC, "--unix", at.path, "watch", "--once", "--every", "0.1"])[0]
            check(f"watch: {told}", "log failed" in output.splitlines(), wanted)


def several_servers_are_told():
    """One exporter of two servers: each sample has its server, and the page asks for one by its number."""
    one, two = {"batches": 1, 'odd_family{a="b"}': 7}, {"batches": 2}
    with StandIn(stats=one, name="one") as at, StandIn(stats=two, name="two") as other:
        with Metrics(at.path, "--also", f"unix:{other.path}") as metrics:
            other.put([(5, 5, 9)])
            check("several: answers", until(lambda: metrics.json(0)["fault"], None), None)
            check("several: places", metrics.json(0)["places"], [f"unix:{at.path}", f"unix:{other.path}"])
            second = until(lambda: json.loads(metrics.text("stats.json?server=1")).get("total"), 9)
            check("several: the second", second, 9)
            samples = metrics.samples()
            wanted = {f'hhm_up{{server="unix:{it.path}"}}': "1" for it in (at, other)}
            wanted[f'hhm_odd_family{{a="b",server="unix:{at.path}"}}'] = "7"
            wanted.update({f'hhm_total{{server="unix:{it.path}"}}': total for it, total in ((at, "0"), (other, "9"))})
            check("several: samples", {name: samples.get(name) for name in wanted}, wanted)
            third = json.loads(metrics.text("stats.json?server=7"))
            check("several: no such server", third["place"], f"unix:{at.path}")
    check("several: a bad one", run([*HHMC, "--unix", "x", "metrics", "--also", "nowhere"])[2], 2)


def a_day_is_kept():
    """A moment a minute, at most 1,440 of them; rates by hand, and nothing over a time without answers."""
    seen = Watched(Client(unix="nowhere"))
    times = [1000.0 + second for second in range(0, 1441 * 60, 20)]
    for at in times:
        told = {"resident_bytes": 5, "odd": 7, "log_bytes_left": 9}
        seen.keep(Moment(at, Status(int(at), 3 * int(at)), told, 0.0, 0.0))
    ends = (len(seen.minutes), seen.minutes[0].at, seen.minutes[-1].at)
    check("a day: moments", ends, (1440, 1060.0, 1000.0 + 1440 * 60))
    check("a day: what is kept of one", seen.minutes[0].stats, {"resident_bytes": 5, "log_bytes_left": 9})
    seen.keep(Moment(times[-1] + 600, Status(0, 0), {}, 0.0, 0.0))
    series = series_of(seen.minutes[-4:], 0.0, 210.0)
    rates = [None, 1.0, 1.0, None, None]
    check("a day: rates", (series["batches"], series["total"]), (rates, [rate and 3 * rate for rate in rates]))


def moment_of(at, batches, **stats):
    """A moment of a server whose batches have a total of 2 each."""
    return Moment(float(at), Status(batches, 2 * batches), stats, 0.0, 0.0)


def what_is_left_lasts_for_days():
    """The days that are left, by hand: at the rate of the last hour, and where fewer seconds were seen at theirs."""
    told = {"batches_left": 86_400, "total_left": 86_400}
    looks = [moment_of(0, 0), moment_of(10, 5, **told)]
    check("left: ten seconds", lefts_of(looks), [Left("batches_left", 86_400, 2.0), Left("total_left", 86_400, 1.0)])
    for name, these in [("one look", looks[1:]), ("nothing new", [moment_of(0, 5), looks[1]])]:
        check(f"left: {name}", lefts_of(these), [Left(it, 86_400, None) for it in told])
    check("left: an earlier server", lefts_of([moment_of(0, 0), moment_of(10, 5)]), [])
    check("left: a word", lefts_of([moment_of(0, 0), moment_of(10, 5, batches_left="many")]), [])
    full = [moment_of(0, 0), moment_of(10, 5, batches_left=0)]
    check("left: nothing", lefts_of(full), [Left("batches_left", 0, 0.0)])
    looks = [moment_of(0, 1000), moment_of(50, 9000), moment_of(60, 3), moment_of(70, 8, batches_left=43_200)]
    check("left: another book", lefts_of(looks), [Left("batches_left", 43_200, 1.0)])
    logs = [moment_of(0, 0, log_bytes_left=5000), moment_of(50, 1, log_bytes_left=4000)]
    check("left: a log", lefts_of(logs), [Left("log_bytes_left", 4000, 200 / 86_400)])
    logs.append(moment_of(100, 2, log_bytes_left=4500))
    check("left: a log that was begun anew", lefts_of(logs), [Left("log_bytes_left", 4500, None)])
    logs = [moment_of(it, it, log_bytes_left=9000 - it) for it in range(0, 3 * 3600, 3600)]
    check("left: a look an hour", lefts_of(logs), [Left("log_bytes_left", 1800, 1800 / 86_400)])


def an_hour_is_kept():
    """Of two hours of looks the second counts: 1,000 batches a minute before, and 10 a minute since."""
    seen = Watched(Client(unix="nowhere"))
    for at in range(0, 7201, 5):
        batches = at * 1000 // 60 if at < 3600 else 60_000 + (at - 3600) // 6
        moment = moment_of(at, batches, batches_left=72_000, total_left=2880, log_bytes_left=1_440_000_000 - at * 1000)
        seen.moments = [*seen.moments[1 - KEPT // 5 :], moment]
        seen.keep(moment)
    # (the log grows by 86,400,000 bytes a day, and has 1,432,800,000 left)
    days = {it.name: round(it.days, 6) for it in seen.lefts()}
    check("an hour: days", days, {"batches_left": 5.0, "total_left": 0.1, "log_bytes_left": 16.583333})
    check("an hour: looks", (len(seen.moments) * 5, seen.minutes[0].at, HOUR), (600, 0.0, 3600.0))


LEFT = {"batches_left": 999_960, "total_left": (1 << 64) - 9, "log_bytes_left": 1_099_511_623_680}
FAILURES = {'last_failure{code="42",why="no-space"}': 1, 'last_failure{code="32",why="full"}': 0}


def what_is_left_is_told():
    """What a server in Python tells to be left, as `watch` and `metrics` show it, with the days once something came."""
    with StandIn(stats=LEFT) as at, Metrics(at.path) as metrics:
        line = "batches left 999960 total left 18446744073709551607 log left 1.1 TB"
        output = run([*HHMC, "--unix", at.path, "watch", "--once", "--every", "0.1"])[0]
        check("left: watch", [it for it in output.splitlines() if " left " in it], [line])
        check("left: answers", answers(metrics), None)
        samples = metrics.samples()
        check("left: samples", {it: samples.get(f"hhm_{it}") for it in LEFT}, {it: str(n) for it, n in LEFT.items()})
        check("left: no days", [it for it in samples if it.endswith("_days")], [])
        page_left = [["batches_left", 999_960, None], ["total_left", str(LEFT["total_left"]), None]]
        check("left: the page", metrics.json()["left"], [*page_left, ["log_bytes_left", LEFT["log_bytes_left"], None]])
        with Client(unix=at.path, client=5) as hhm:
            hhm.put(1, [(0, 0, 7)])
            at.stats = {**LEFT, "log_bytes_left": LEFT["log_bytes_left"] - 4096}
        names = [f"hhm_{it}_days" for it in LEFT]
        check("left: days", until(lambda: [it for it in metrics.samples() if it in names], names), names)
        found = metrics.samples()
        # (a batch and its total of 7 came in the same time)
        ratio = float(found[names[0]]) / float(found[names[1]])
        check("left: their ratio", abs(ratio / (999_960 * 7 / LEFT["total_left"]) - 1) < 0.01, True)
        days = [it[2] for it in metrics.json()["left"]]
        check("left: the page's days", all(isinstance(it, float) and it > 0 for it in days), True)


class NoRoom(StandIn):
    """A server whose saves fail."""

    def reply(self, kind, body):
        return server.refused(42) if kind == 6 else super().reply(kind, body)


def a_failure_has_its_reason():
    """The reason of a refusal that a server tells, by `stats`, `watch`, `metrics`, and a save that is refused."""
    raw = "".join(f"{name} {value}\n" for name, value in FAILURES.items())
    unheard = {'last_failure{code="42",why="unheard-of"}': 1}
    for told, why in [(FAILURES, " (the disk is full)"), (unheard, " (unheard-of)"), ({}, ""), (None, "")]:
        with NoRoom(stats=told) as at:
            output = run([*HHMC, "--unix", at.path, "save"])
            check(f"failure: save, {told}", output, ("", f"refused: SaveFailed{why}\n", 1))
            kept = ": nothing was stopped; `stop --discard` stops the server without what it can't save\n"
            output = run([*HHMC, "--unix", at.path, "stop"])
            check(f"failure: stop, {told}", output, ("", f"refused: SaveFailed{why}{kept}", 1))
    with NoRoom(stats=FAILURES) as at, Metrics(at.path) as metrics:
        check("failure: stats", run([*HHMC, "--unix", at.path, "stats"]), (raw, "", 0))
        with Screen([*HHMC, "--unix", at.path, "stats"], keys=b"") as screen:
            check("failure: stats on a terminal", screen.until("last SaveFailed: the disk is full"), True)
        check("failure: its end", screen.status, 0)
        output = run([*HHMC, "--unix", at.path, "watch", "--once", "--every", "0.1"])[0]
        last = [it for it in output.splitlines() if it.startswith("last ")]
        check("failure: watch", last, ["last SaveFailed no-space"])
        check("failure: answers", answers(metrics), None)
        wanted = {'hhm_last_failure{code="42",why="no-space",name="SaveFailed"}': "1",
                  'hhm_last_failure{code="32",why="full",name="BookFull"}': "0"}
        found = {name: it for name, it in metrics.samples().items() if "failure" in name}
        check("failure: metrics", found, wanted)


def unknown_lines_break_nothing():
    """Names and labels of a later server that this client doesn't know."""
    odd = {"unheard": 7, "a.b": 1, 'refused_total{code="x"}': 3, "refused_total{}": 1, 'refused_total{code="777"}': 2,
           'shard_layer_entries{shard="x",layer="1"}': 4, "shard_layer_runs{}": 1,
           'last_failure{code="x",why="a b"}': 1, "last_failure": 1, "batches_left": "many", "log_bytes_left": "1.5", 'book{id="odd"}': 1}
    with StandIn(stats=odd) as at, Metrics(at.path) as metrics:
        output, error, status = run([*HHMC, "--unix", at.path, "watch", "--once", "--every", "0.1"])
        check("unknown: watch", (error, status), ("", 0))
        wanted = {"refused 6 x 3 ? 1 777 2", "last x a b last ? ?", "log left 2 B"}
        check("unknown: lines", wanted - set(output.splitlines()), set())
        check("unknown: answers", answers(metrics), None)
        told = metrics.json()
        check("unknown: the page", (told["layers"], told["left"]), ([], [["log_bytes_left", 1.5, None]]))
        check("unknown: metrics", 'hhm_refused_total{code="x"} 3\n' in metrics.text("metrics"), True)
        output, error, status = run([*HHMC, "--unix", at.path, "stats"])
        check("unknown: stats", (len(output.splitlines()), error, status), (len(odd), "", 0))


def what_is_wrong_passes():
    """A refusal that is seen is wrong for ten minutes; a failed save until one is made, also one that was there."""
    looker, now = Looker(None, 1.0), time.time()
    for age, refused, saves, failed, wanted in [
        (900, 7, 0, 1, (False, True)), (890, 7, 1, 1, (False, False)), (880, 8, 1, 1, (False, False)),
        (870, 8, 1, 2, (False, True)), (860, 8, 2, 2, (False, False)), (60, 9, 2, 2, (True, False)),
        (50, 0, 0, 0, (True, False)),
    ]:
        told = {'refused_total{code="22"}': refused, "saves_total": saves, "failed_saves_total": failed}
        looker.note_rises(Moment(now - age, Status(0, 0), told, 0.0, 0.0))
        check(f"wrong: {age} s ago", (looker.is_refusing(), looker.is_unsaved()), wanted)


def a_narrow_screen_is_told():
    """At 60 columns lines are wrapped, and what is cut shows it; names are shown; `q` quits."""
    names = os.path.join(server.FOLDER, "watched.names")
    with open(names, "w") as file:
        file.write("www\na-host-whose-name-is-longer-than-twenty-signs\n")
    with Server(LARGE, tcp=False) as at:
        with at.client(8) as hhm:
            hhm.put(1, [(0, 0, 5), (1, 0, 3)])
        words = [*HHMC, "--unix", at.path, "watch", "--every", "0.2", "--names", names]
        with Screen(words, ("60", "50"), b"q") as screen:
            check("narrow: a name", screen.until("  1                  www              1                    5"), True)
            check("narrow: a long name", screen.until("  2 a-host-whose-name-i\u2026 "), True)
        check("narrow: q", (screen.status, screen.text.endswith("\x1b[?25h\x1b[?1049l")), (0, True))
        lines = [re.sub(r"\x1b\[[?0-9]*[A-Za-z]|\r", "", line) for line in re.split(r"\n|\x1b\[H", screen.text)]
        check("narrow: no line is longer", [line for line in lines if len(line) > 60], [])
        with Screen(words, ("60", "8"), b"q") as screen:
            check("low: told", screen.until("more lines: the terminal is too low"), True)
    check("low: q", screen.status, 0)


def rates_are_drawn():
    """Rates of looks that are worked out by hand; and a picture of the built program, whose line says what was put."""
    told = [(5, 0), (6, 8), (8, 10), (9, 3)]
    looks = [Moment(at, Status(batches, 10 * batches), {}, 0.0, 0.0) for at, batches in told]
    rates = rates_of(looks, [it.batches() for it in looks])
    check("rates: by hand", (rates.at, rates.values), ([1, 3, 4], [8, 1, 0]))
    check("rates: over the last second", rate_of(looks[:3], Moment.batches, 1.0), 1)
    check("rates: over more", rate_of(looks[:3], Moment.total, 5.0), 100 / 3)
    with StandIn(stats=TOLD) as at, Client(unix=at.path) as hhm:
        seen = Watched(hhm)
        for _ in range(KEPT + 5):
            seen.look()
        count = len(TOLD) + len(OTHERWISE)
        check("rates: what is kept", (len(seen.moments), len(seen.moments[-1].stats)), (KEPT, count))
        check("rates: without labels", {len(it.stats) for it in seen.moments[:-1]}, {count - 3})
    with Server(LARGE, tcp=False) as at, at.client(8) as hhm:
        path = os.path.join(server.FOLDER, "rates.svg")
        words = [*HHMC, "--unix", at.path, "plot", "rates", "--seconds", "3", path]
        with subprocess.Popen(words, stdout=subprocess.PIPE, stderr=subprocess.PIPE, text=True) as drawing:
            # (until it ends: it may begin late on a busy machine)
            number = 0
            while drawing.poll() is None and number < 500:
                hhm.put(number, [(number, 0, 5)])
                number += 1
                time.sleep(0.2)
            output, error = drawing.communicate(timeout=WAIT)
        told = re.fullmatch(r"seconds 3 batches (\d+) total (\d+)\n", output)
        check("rates: the line", (told is not None, error, drawing.returncode), (True, "", 0))
        batches, total = map(int, told.groups())
        check("rates: what was put", (0 < batches <= number, total), (True, 5 * batches))
        drawn = xml.etree.ElementTree.parse(path).getroot()
        check("rates: the title", drawn[0].text, f"Accepted in 3 seconds: {batches} batches, total {total}")
    for words, wanted in [(["--from", path, "plot", "rates", path], "rates are those of a server that runs: "),
                          (["--unix", "x", "plot", "spy", "--seconds", "3", path], "--seconds is for the picture rates"),
                          (["--unix", "x", "plot", "rates", "--ip", path], "--rows, --cols, --whole and --ip are for ")]:
        output, error, status = run([*HHMC, *words])
        check(f"rates: {words[2:]}", (output, error.startswith(wanted), status), ("", True, 2))


def all_are_tried():
    what_a_server_tells_is_told()
    an_earlier_server_is_told()
    a_browser_is_answered()
    a_server_is_watched()
    a_narrow_screen_is_told()
    a_failed_log_is_watched()
    several_servers_are_told()
    a_day_is_kept()
    what_is_left_lasts_for_days()
    an_hour_is_kept()
    what_is_left_is_told()
    a_failure_has_its_reason()
    unknown_lines_break_nothing()
    what_is_wrong_passes()
    rates_are_drawn()
    page.is_tried(Metrics)


if __name__ == "__main__":
    is_drawn = sys.argv[2:3] == ["--picture"]
    picture = os.path.abspath(sys.argv[-1])
    sys.exit(server.run_all((lambda: page.draw(Metrics, picture)) if is_drawn else all_are_tried))
