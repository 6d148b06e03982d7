"""Opens the page of `hhmc metrics` in Chromium, and compares its numbers with the server's (watching.py runs it)."""
import contextlib
import os
import re
import subprocess
import sys
import time

import browser
import server
from hhm_client import Client
from server import Server, check
from stand_in import OTHERWISE, StandIn, knows_stats

LARGE = ["--rows", str(1 << 32), "--cols", str(1 << 32)]
ADDRESS = 10 << 24
STATE = "document.getElementById('state')"
# What a server in its place tells, and what the page makes of it.
TOLD = {
    "version": "1.2.3", "rows": 1 << 60, "cols": 5, "batches": 0, "total": 0, "cells_total": 1_234_567,
    "repeats_total": 12, 'refused_total{code="30"}': 2, 'refused_total{code="22"}': 3000, "sessions_open": 2,
    "sessions_waiting": 1, "sessions_total": 99, "workers": 4, "resident_bytes": 231_400_000, "uptime_seconds": "3725.5",
    "saves_total": 2, "failed_saves_total": 1, "saved_batches": 0, "save_age_seconds": "61.2", "log_durable_batches": 7,
    "log_pages": 12, "log_room_pages": 4096, "log_syncs_total": 8, "log_group_batches": 3, "<b>odd</b>": 1,
    "received_bytes_total": 1_500_000, "sent_bytes_total": 2_000, "log_failed": 1,
    "limit": (1 << 64) - 1, "max_batches": 1000, "batches_left": 1000, "total_left": (1 << 64) - 1,
    "log_bytes_left": 1_099_511_623_680,
    **{f'shard_layer_entries{{shard="{shard}",layer="{layer}"}}': 1000 * shard + layer
       for shard in range(12) for layer in range(3)},
    **{f'shard_layer_runs{{shard="{shard}",layer="{layer}"}}': shard for shard in range(12) for layer in range(3)},
}
SHOWN = {
    "Batches": "0", "Total": "0", "Cells put": "1,234,567", "Repeats": "12", "Refused": "3,002", "Sessions": "2 open",
    "Memory": "231 MB", "Last save": "1 min 1 s ago", "Received": "1.5 MB", "Sent": "2 kB", "Durable": "7 batches",
    "Batches left": "1,000", "Total left": "18.4 E", "Log left": "1.1 TB",
}
TILES = ("Object.fromEntries([...document.querySelectorAll('#tiles div')].map((it) => [it.querySelector('dt')"
         ".textContent, it.querySelector('dd').firstChild.textContent]))")


def contrast(one, other):
    """How much two colours `rgb(r, g, b)` differ, as the accessibility guidelines of the web have it."""

    def light(colour):
        parts = [int(it) / 255 for it in re.findall(r"\d+", colour)[:3]]
        linear = [it / 12.92 if it <= 0.04045 else ((it + 0.055) / 1.055) ** 2.4 for it in parts]
        return 0.2126 * linear[0] + 0.7152 * linear[1] + 0.0722 * linear[2]

    low, high = sorted((light(one), light(other)))
    return (high + 0.05) / (low + 0.05)


def table_of(page, part, rows):
    """The rows of the table of a part of the page, once there are so many."""
    lines = f"[...document.querySelectorAll('#{part} tbody tr')]"
    page.until(f"{lines}.length === {rows}")
    return page.value(f"{lines}.map((it) => [...it.children].map((it) => it.textContent))")


def numbers_are_the_servers(page, at, metrics):
    """Each number of the page is the server's, empty and with batches."""
    page.open(metrics.url)
    check("page: answers", page.until(f"{STATE}.textContent.startsWith('The server answers.')"), True)
    check("page: an empty server", page.value(TILES)["Batches"], "0")
    nothing = "document.querySelector('#top').textContent.includes('No row has an entry.')"
    check("page: no row", page.until(nothing), True)
    cells = [(ADDRESS + row, col, row) for row in range(1, 9) for col in range(1 << row - 1)]
    with at.client(8) as hhm:
        for number in range(40):
            hhm.put(number, cells)
        check("page: batches", page.until(f"{TILES}['Batches'] === '40'"), True)
        check("page: durable", page.until(f"{TILES}['Durable'] === '40 batches'"), True)
        memory = float(page.value(TILES)["Memory"].removesuffix(" MB")) * 1e6
        check(f"page: memory {memory}", 0.7 < memory / at.memory() < 1.4, True)
        check("page: total", page.value(TILES)["Total"], f"{40 * sum(cell[2] for cell in cells):,}")
        rows = [[f"10.0.0.{row}", f"{1 << row - 1}", f"{40 * row << row - 1:,}"] for row in range(8, 0, -1)]
        page.until(f"document.querySelector('#top tbody tr')?.textContent === '{''.join(rows[0])}'")
        check("page: top", table_of(page, "top", 8), rows)
        page.value("document.getElementById('ip').click()")
        numbers = [str(ADDRESS + row) for row in range(8, 0, -1)]
        check("page: numbers", [it[0] for it in table_of(page, "top", 8)], numbers)
        wanted = ["1", "2 to 3", "4 to 7", "8 to 15", "16 to 31", "32 to 63", "64 to 127", "128 to 255"]
        check("page: degrees", table_of(page, "degrees", 8), [[words, "1"] for words in wanted])
        check("page: a rate", page.until("Math.max(...kept.batches.filter((it) => it !== null)) > 0"), True)
        if knows_stats(hhm, "the page's table of stats"):
            stats_are_told(page, hhm)
    pictures_have_tables(page)


def what_is_told_is_shown(page, metrics_of):
    """Each part of the page, of a server in Python that tells all that the page knows, and a name that is no name."""
    with StandIn(stats=TOLD) as at, metrics_of(at.path) as metrics:
        page.open(metrics.url)
        # (rates need two looks)
        check("shown: answers", page.until(f"{TILES}['Cells put']"), "1,234,567")
        check("shown: tiles", page.value(TILES), SHOWN)
        small = page.value("[...document.querySelectorAll('#tiles small')].map((it) => it.textContent)")
        for words in ["NumberReused 2, IndexOutOfRange 3,000", "1 waiting, 99 served, 4 workers",
                      "0 batches since, 2 saves, 1 failed",
                      "12 pages, 4,096 ready, 8 syncs, 3 in the last group, the log has failed"]:
            check(f"shown: {words}", words in small, True)
        bad = "[...document.querySelectorAll('#tiles .bad dt')].map((it) => it.textContent).join(' ')"
        check("shown: what is wrong", page.value(bad), "Sessions Last save Durable")
        for number, words, title in [("895912345678", "895.9 G", "895,912,345,678"), ("999999999", "999,999,999", None),
                                     ("'18446744073709551615'", "18.4 E", "18,446,744,073,709,551,615")]:
            briefly = f"[brief({number}).textContent, brief({number}).getAttribute('title')]"
            check(f"shown: {number}", page.value(briefly), [words, title])
        days = page.value("[0.123, 6.5, 42.25, 213503982.3].map(daysLeft)")
        wanted = [f"{it} days at the last hour's rate" for it in ("0.12", "6.5", "42.3", "213,503,982")]
        check("shown: days", days, wanted)
        version = "version 1.2.3, up 1 h 2 min, 1,152,921,504,606,846,976 rows by 5 columns"
        check("shown: version", page.value("document.getElementById('version').textContent"), version)
        layers = [["All", "66,000", "66,012", "66,024"]]
        layers += [[f"Shard {shard}", *(f"{1000 * shard + layer:,} in {shard}" for layer in range(3))] for shard in range(12)]
        check("shown: layers", table_of(page, "layers", 13), layers)
        found = dict(table_of(page, "told", len(set(TOLD) | set(OTHERWISE))))
        wanted = {name: str(it) for name, it in raw(TOLD).items()}
        check("shown: all", {name: found[name] for name in wanted}, wanted)
        check("shown: pictures", page.until("document.querySelectorAll('section:not([hidden]) svg').length >= 4"), True)
        pictures_have_tables(page)
        at.stats = {**TOLD, 'refused_total{code="30"}': 3, "saves_total": 3}
        check("shown: a refusal and a save", page.until(f"{bad} === 'Refused Sessions Durable'"), True)
        at.stats = {**TOLD, 'refused_total{code="30"}': 3, "saves_total": 3, "failed_saves_total": 2}
        check("shown: a save that failed", page.until(f"{bad} === 'Refused Sessions Last save Durable'"), True)
        at.stats = {**TOLD, "log_bytes_left": 4096}
        check("shown: a log that fills", page.until(f"{bad}.startsWith('Log left ')"), True)
        tile = "[...document.querySelectorAll('#tiles div')].find((it) => it.firstChild.textContent === 'Log left')"
        words = page.value(f"{tile}.querySelector('small').textContent")
        check(f"shown: {words}", bool(re.fullmatch(r"0(\.\d\d?)? days at the last hour's rate", words)), True)


def raw(told):
    """What the stats become where decimals are read."""
    return {name: float(it) if isinstance(it, str) and name.endswith("_seconds") else it for name, it in told.items()}


def stats_are_told(page, hhm):
    """The table of all that the server tells has its names, and the numbers that don't change by being asked."""
    stats = hhm.stats()
    found = dict(table_of(page, "told", len(set(stats) | set(OTHERWISE))))
    check("page: names", set(found), set(stats) | set(OTHERWISE))
    for name in ("version", "batches", "total", "rows", "cols"):
        check(f"page: {name}", found.get(name), str(stats.get(name)))
    entries = {name: value for name, value in stats.items() if name.startswith("shard_layer_entries{")}
    shards = {re.search('shard="([0-9]+)"', name).group(1) for name in entries}
    first = table_of(page, "layers", len(shards) + 1)[0]
    check("page: layers", sum(int(it.replace(",", "")) for it in first[1:]), sum(entries.values()))


def pictures_have_tables(page):
    """Each picture says what it shows, and a table with the same numbers stands behind it."""
    pictures = page.value("[...document.querySelectorAll('section:not([hidden]) svg')].map((it) => ["
                          "it.getAttribute('role'), it.getAttribute('aria-label').length > 20, "
                          "it.closest('section').querySelectorAll('details table tbody tr').length > 0])")
    check("page: pictures", (len(pictures) >= 4, {tuple(it) for it in pictures}), (True, {("img", True, True)}))
    check("page: headings", page.value("document.querySelectorAll('h1').length"), 1)
    names = "[...document.querySelectorAll('section:not([hidden])')].map((it) => it.querySelector('h2').textContent)"
    check("page: each part has a name", all(len(name) > 3 for name in page.value(names)), True)


def what_is_read_stays(page):
    """A part whose table is open isn't drawn anew each second, and is once it is closed."""
    part = "document.querySelector('#batches details')"
    page.value(f"{part}.open = true, {part}.dataset.mark = 'here'")
    time.sleep(3)
    check("page: what is read stays", page.value(f"{part}.dataset.mark"), "here")
    page.value(f"{part}.open = false")
    check("page: and is drawn anew", page.until(f"{part}.dataset.mark === undefined"), True)


def a_picture_tells_what_is_pointed_at(page):
    """The numbers at the time that the pointer is at, and all of them again where it has gone."""
    page.value("window.scrollTo(0, 0)")
    box = page.value("(() => { const it = document.querySelector('#latency svg').getBoundingClientRect(); "
                     "return [it.right - 12, it.top + it.height / 2]; })()")
    says = "document.querySelector('#latency svg + div').textContent"
    page.ask("Input.dispatchMouseEvent", type="mouseMoved", x=box[0], y=box[1])
    told = page.value(says)
    check(f"page: pointed at: {told}", bool(re.fullmatch(r"\d\d:\d\d:\d\d: status [\d.]+ ms, cell [\d.]+ ms", told)), True)
    page.ask("Input.dispatchMouseEvent", type="mouseMoved", x=1, y=1)
    check("page: not pointed at", page.until(f"{says}.startsWith('status: last ')"), True)


def it_is_readable(page):
    """On a light and a dark ground, and on a phone, where nothing is wider than the screen."""
    for is_dark in (False, True):
        page.look(1200, 1400, is_dark)
        time.sleep(0.3)
        for part in ("body", "#state", "#tiles dt", "#tiles dd", "h2", "#top td", "#batches svg text"):
            colours = page.value(f"""(() => {{
                const it = document.querySelector('{part}'), style = getComputedStyle(it);
                let at = it, ground = 'rgba(0, 0, 0, 0)';
                while (at && ground === 'rgba(0, 0, 0, 0)') {{
                    ground = getComputedStyle(at).backgroundColor;
                    at = at.parentElement;
                }}
                return [it.namespaceURI.endsWith('svg') ? style.fill : style.color, ground];
            }})()""")
            check(f"page: {part} can be read, dark {is_dark}: {colours}", contrast(*colours) >= 4.5, True)
    for width in (390, 320):
        page.look(width, 800)
        time.sleep(0.3)
        wide = page.value("document.documentElement.scrollWidth")
        check(f"page: as wide as a phone of {width}: {wide}", wide <= width, True)
        cut = "[...document.querySelectorAll('#top .scroll')].filter((it) => it.scrollWidth > it.clientWidth).length"
        check(f"page: no row that leads is cut on a phone of {width}", page.value(cut), 0)
    page.look(1200, 1400)


def a_day_can_be_chosen(page):
    """A history that has just begun shows the last ten minutes; one of three minutes is drawn by hours."""
    page.value("document.getElementById('day').click()")
    check("page: a day that has just begun", page.until("day.at.length >= 1 && kept === recent"), True)
    page.value("""(() => { const end = last.now, at = [end - 28800, end - 14400, end];
        day = {at, batches: [1, 2, 3], total: [1, 2, 3], memory: [1, 1, 1], status_ms: [1, 1, 1], cell_ms: [1, 1, 1]};
        [kept, shown] = [day, DAY]; drawn.batches = -10000; redraw(); })()""")
    label = page.value("document.querySelector('#batches svg').getAttribute('aria-label')")
    check("page: a day", label, "Batches a second, over 24 hours at most: last 3, least 1, most 3")
    words = page.value("[...document.querySelectorAll('#batches svg text')].map((it) => it.textContent)")
    check("page: hours", "\u22122 h" in words and "now" in words, True)
    page.value("document.getElementById('day').click()")
    check("page: ten minutes again", page.until("kept === recent && shown === RECENT"), True)


def a_server_can_be_chosen(page, metrics_of):
    """With two servers the page has a choice, and shows the one that is chosen."""
    one, two = {"batches": 5}, {"batches": 6, "limit": 80, "max_batches": 2}
    with StandIn(stats=one, name="one") as at, StandIn(stats=two, name="two") as other:
        with Client(unix=other.path, client=5) as hhm:
            hhm.put(1, [(0, 0, 77)])
        with metrics_of(at.path, "--also", f"unix:{other.path}") as metrics:
            page.open(metrics.url)
            check("page: the first server", page.until(f"{TILES}['Total'] === '0'"), True)
            check("page: a choice", page.value("document.getElementById('choice').hidden"), False)
            page.value("(() => { const it = document.getElementById('servers'); it.selectedIndex = 1; "
                       "it.dispatchEvent(new Event('change')); })()")
            check("page: the second server", page.until(f"{TILES}['Total'] === '77'"), True)
            near = ("[...document.querySelectorAll('#tiles div')].slice(0, 2).map((it) => "
                    "[it.className, it.lastChild.textContent])")
            told = [(name, words.endswith(wanted)) for (name, words), wanted in zip(
                page.value(near), ("50 % of its limit", "96 % of its limit"))]
            check("page: near a limit", told, [("", True), ("bad", True)])
            check("page: its place", page.value("document.getElementById('place').textContent"), f"unix:{other.path}")


def long_names_cut_no_number(page, metrics_of):
    """Rows of IPv6 by their addresses, at each width: these are wrapped, and all numbers are seen."""
    names = os.path.join(server.FOLDER, "long.names")
    with open(names, "w") as file:
        file.write("2001:db8:1111:2222:3333:4444:5555:6666\n")
    with StandIn(size=(1 << 33, 1 << 33), stats={"batches": 1}) as at:
        at.put([(1 << 32, 5, 123_456_789), (ADDRESS, 6, 5)])
        with metrics_of(at.path, "--ip", "--names", names) as metrics:
            page.open(metrics.url)
            rows = [["2001:db8:1111:2222:3333:4444:5555:6666", "1", "123,456,789"], ["10.0.0.0", "1", "5"]]
            check("long names", table_of(page, "top", 2), rows)
            for width in (1280, 1000, 390, 320):
                page.look(width, 900)
                time.sleep(0.3)
                is_cut = "(() => { const it = document.querySelector('#top .scroll'); " \
                         "return it.scrollWidth > it.clientWidth; })()"
                check(f"long names: none cuts a number at {width}", page.value(is_cut), False)
    page.look(1200, 1400)


def a_save_is_told(page, at):
    with at.client(8) as hhm:
        check("page: a save", hhm.save(), 40)
        is_known = knows_stats(hhm, "the page's last save")
    if is_known:
        check("page: the save", page.until(f"({TILES}['Last save'] || '').endsWith(' ago')"), True)


def it_says_that_a_server_is_gone(page, at, metrics, words):
    at.process.kill()
    at.process.wait()
    is_gone = f"{STATE}.className === 'bad' && {STATE}.textContent.includes('refused')"
    check("page: gone", page.until(is_gone), True)
    told = re.sub(r"\d\d:\d\d:\d\d", "TIME", page.value(f"{STATE}.textContent"))
    wanted = "No answer from the server since TIME: Connection refused. What is shown is from then."
    check("page: it says so", told, wanted)
    check("page: metrics say so", metrics.samples(), {"hhm_up": "0"})
    with Server(words, tcp=False) as other:
        check("page: back", page.until(f"{STATE}.className === ''"), True)
        check("page: what was saved", page.until(f"{TILES}['Batches'] === '40'"), True)
        with other.client(9) as hhm:
            hhm.put(1, [(0, 0, 1)])
        check("page: one more", page.until(f"{TILES}['Batches'] === '41'"), True)


def draw(metrics_of, path):
    """Writes the picture of the page that docs/ shows: a server while a log is loaded."""
    log = os.path.join(server.FOLDER, "flows.csv")
    with open(log, "w") as file:
        subprocess.run([sys.executable, os.path.join(server.HERE, "..", "examples", "make_flows.py"), "3000000"],
                       stdout=file, check=True)
    words = [*LARGE, "--snapshot", os.path.join(server.FOLDER, "page.snap"), "--log", os.path.join(server.FOLDER, "log")]
    hhmc = [sys.executable, os.path.join(server.HERE, "..", "clients", "python", "hhm_client.py")]
    os.chdir(server.FOLDER)
    with Server(words, tcp=False) as at:
        os.symlink(at.path, "hhm.sock")
        with metrics_of("hhm.sock", "--ip") as metrics, browser.Browser(browser.found()) as page:
            page.look(1200, 800)
            page.open(metrics.url)
            how = {"stdout": subprocess.DEVNULL, "stderr": subprocess.DEVNULL}
            load = [*hhmc, "--unix", at.path, "load", "--state", log + ".state", "7", log]
            with subprocess.Popen(load, **how) as loading:
                time.sleep(7)
                with at.client() as hhm:
                    hhm.save()
                time.sleep(6)
                page.picture(path)
                loading.kill()
        at.process.kill()


def is_tried(metrics_of):
    program = browser.found()
    if program is None:
        print("not tried: the page of hhmc metrics in a browser: no Chromium is installed")
        return
    words = [*LARGE, "--snapshot", os.path.join(server.FOLDER, "page.snap")]
    with contextlib.ExitStack() as stack:
        at = stack.enter_context(Server(words, tcp=False))
        metrics = stack.enter_context(metrics_of(at.path, "--ip"))
        page = stack.enter_context(browser.Browser(program))
        numbers_are_the_servers(page, at, metrics)
        what_is_read_stays(page)
        a_picture_tells_what_is_pointed_at(page)
        it_is_readable(page)
        a_day_can_be_chosen(page)
        a_save_is_told(page, at)
        it_says_that_a_server_is_gone(page, at, metrics, words)
        check("page: no error in its console", page.faults, [])
        asked = {it.partition("?")[0] for it in page.asked} - {"data:,"}
        check("page: asks nobody else", asked, {metrics.url + path for path in ("", "stats.json", "day.json")})
        what_is_told_is_shown(page, metrics_of)
        check("shown: no error in its console", page.faults, [])
        a_server_can_be_chosen(page, metrics_of)
        long_names_cut_no_number(page, metrics_of)
