#!/usr/bin/env python3
"""Goes the walk of docs/ANALYSIS.md with 30,000 lines in place of 3,000,000, and compares what its commands write.

    python3 tests/analysis.py PATH-TO-HHM

The commands are those that the document has, in its order and in one shell; what is wanted is worked out by a loop over
the lines of the log, and for the samples of flow tools by SQL. Without numpy and scipy the command that needs them
isn't run, and a line says so. It prints a line for each check that fails and at the end `N passed, M failed`; the
status is 1 where one fails.
"""
import collections
import csv
import ipaddress
import json
import os
import re
import shlex
import sqlite3
import subprocess
import sys
import xml.etree.ElementTree

import server
from bridges import PYTHON, python_with, top_of
from server import check

TOP = os.path.dirname(server.HERE)
DOCUMENT = os.path.join(TOP, "docs", "ANALYSIS.md")
WAIT, LINES, PICTURES = 180, 30_000, ("degrees.svg", "spy.svg")


def content(path):
    with open(path, encoding="utf-8") as file:
        return file.read()


def commands_of(document):
    """The commands, each with what the document has it write."""
    found = []
    for block in re.findall(r"^```\n(.*?)^```$", document, re.M | re.S):
        for line in block.splitlines():
            if line.startswith("$ "):
                found.append((line[2:], []))
            elif found and block.startswith("$ "):
                found[-1][1].append(line)
    return found


def own_commands(folder):
    """The programs of the walk, as an installed hhm has them."""
    os.symlink(server.PROGRAM, os.path.join(folder, "hhm"))
    with open(os.path.join(folder, "hhmc"), "w") as file:
        file.write(f'#!/bin/sh\nexec {shlex.quote(sys.executable)} {shlex.quote(PYTHON)}/hhm_client.py "$@"\n')
    os.chmod(os.path.join(folder, "hhmc"), 0o755)


def changed(command, python):
    """A command with fewer lines, and with the modules of this repository; None where it can't be run here."""
    command = command.replace(str(100 * LINES), str(LINES)).replace("~/.local/lib/hhm", shlex.quote(PYTHON))
    if "top_scipy.py" not in command:
        return command
    return command.replace("python3", python) if python else None


def walked(folder, commands):
    """What each command writes, in one shell, and the status. What the server writes is shown once it is there."""
    lines = ["set -e", "trap 'jobs -p | xargs -r kill' EXIT"]
    for number, command in enumerate(commands):
        lines.append(f"echo '=== {number}'")
        if command.endswith("&"):
            lines += [f"{command[:-1]} > served 2>&1 &", "until [ -s served ]; do sleep 0.1; done", "cat served"]
        elif command.endswith(" stop"):
            lines += [command, "wait", "tail -n +2 served"]
        else:
            lines.append(command)
    found = {**os.environ, "PATH": f"{folder}:{os.environ['PATH']}", "XDG_STATE_HOME": os.path.join(folder, "state")}
    ended = subprocess.run(["bash", "-c", "\n".join(lines)], cwd=folder, env=found, capture_output=True, text=True,
                           timeout=WAIT)
    parts = re.split(r"^=== \d+\n", ended.stdout, flags=re.M)[1:]
    return [part.splitlines() for part in parts], ended.stderr, ended.returncode


def sum_of_log(path):
    """The sum of the log's lines, by row and column."""
    counts = collections.Counter()
    with open(path, newline="") as file:
        for flow in csv.DictReader(file):
            source, destination = (int(ipaddress.ip_address(flow[name])) for name in ("source", "destination"))
            counts[source, destination] += int(flow["packets"])
    return dict(sorted(counts.items()))


def the_walk_is_right(folder, document):
    """Each command writes what the log's lines add up to, in the form that the document shows."""
    python = python_with("numpy", "scipy.sparse")
    if python is None:
        print("not tried: examples/top_scipy.py in the walk: there is no scipy")
    told = [(changed(command, python), shown) for command, shown in commands_of(document)]
    told = [(command, shown) for command, shown in told if command]
    written, error, status = walked(folder, [command for command, _ in told])
    check("the walk", (error, status, len(written)), ("", 0, len(told)))
    counts = sum_of_log(os.path.join(folder, "flows.csv"))
    rows, cols = (len({place[axis] for place in counts}) for axis in (0, 1))
    total = sum(counts.values())
    line = f"cells {len(counts)} rows {rows} cols {cols} total {total}"
    for (command, shown), got in zip(told, written):
        wanted = []
        if command.startswith("hhm serve"):
            wanted = ["listening unix hhm.sock"]
        elif " load " in command:
            wanted = [f"new {LINES // 10_000} repeats 0 events {LINES}"]
        elif " top rows " in command:
            wanted = talkers_of(counts, int(command.split()[-2]))
        elif command.endswith(" stop"):
            wanted = ["stopping", f"stopped batches {LINES // 10_000} total {total}"]
        elif " plot " in command:
            wanted = [line]
        elif "top_scipy" in command:
            wanted = top_of(counts).splitlines()
        check(f"the walk: {command}", sorted(got), sorted(wanted))
        forms = [[re.sub(r"\d+", "N", it) for it in lines] for lines in (shown, wanted)]
        check(f"as the document shows it: {command}", forms[0], forms[1])


def talkers_of(counts, most):
    """The rows with the highest totals, as addresses, with their numbers of cells."""
    sums = collections.defaultdict(lambda: [0, 0])
    for (row, _), count in counts.items():
        sums[row][0] += 1
        sums[row][1] += count
    rows = sorted(sums.items(), key=lambda it: (-it[1][1], it[0]))[:most]
    return [f"{ipaddress.ip_address(row)} {entries} {total}" for row, (entries, total) in rows]


def pictures_are_there(folder, document):
    """The document shows pictures that are in docs/, and the walk has drawn the same ones of fewer lines."""
    shown = re.findall(r"!\[[^]]+\]\(([^)]+)\)", document)
    check("the pictures", tuple(shown), ("page.png", *PICTURES))
    shown.remove("page.png")
    cells = re.search(r"^cells (\d+) ", document, re.M).group(1)
    for name in shown:
        titles = [xml.etree.ElementTree.parse(os.path.join(at, name)).getroot()[0].text
                  for at in (os.path.join(TOP, "docs"), folder)]
        check(f"{name}: its title", f" {int(cells):,} " in titles[0] + " ", True)
        check(f"{name}: of the walk", re.sub(r"[\d,]+", "N", titles[1]), re.sub(r"[\d,]+", "N", titles[0]))
    for path in [os.path.join(folder, "zoom.png"), os.path.join(TOP, "docs", "page.png")]:
        with open(path, "rb") as file:
            check(os.path.basename(path), file.read(8), b"\x89PNG\r\n\x1a\n")


def events_of_samples():
    """The sources, destinations and packets of the samples of nfdump and Zeek, as a table of SQL."""
    table = sqlite3.connect(":memory:")
    table.execute("create table events (source text, destination text, packets integer)")
    with open(os.path.join(TOP, "examples", "nfdump.csv"), newline="") as file:
        # (the lines of the summary have six words, or one)
        flows = [(it["sa"], it["da"], int(it["ipkt"])) for it in csv.DictReader(file) if it["ipkt"]]
    with open(os.path.join(TOP, "examples", "conn.log")) as file:
        words = [line.rstrip("\n").split("\t") for line in file]
    [names] = [it[1:] for it in words if it[0] == "#fields"]
    logged = [dict(zip(names, it)) for it in words if not it[0].startswith("#")]
    flows += [(it["id.orig_h"], it["id.resp_h"], int(it["orig_pkts"])) for it in logged]
    table.executemany("insert into events values (?, ?, ?)", flows)
    table.execute("create view cells as select source, destination, sum(packets) as count from events group by 1, 2")
    return table


def order_of(cell):
    """Where a cell of addresses comes: IPv4 before IPv6; those of IPv6 by no order that is looked at."""
    addresses = map(ipaddress.ip_address, cell[:2])
    return [(address.version, int(address) if address.version == 4 else 0) for address in addresses]


# What each command is to write, as a query over the events of the samples, and how a line of it is written.
QUERIES = {
    "top rows 5 --prefix": ("select case when instr(source, ':') then rtrim(source, '0123456789abcdef') || '/48' else "
                            "rtrim(source, '0123456789') || '0/24' end, count(*), sum(count) from cells group by 1 "
                            "order by 3 desc", "%s %s %s"),
    "top rows 5 --in": ("select rtrim(source, '0123456789') || '0/24', count(*), sum(count) from cells where source "
                        "like '10.%' group by 1 order by 3 desc", '{"row": "%s", "entries": %s, "total": %s}'),
    "top cols 2 --rows": ("select destination, count(*), sum(count) from cells where source like '10.1.2.%' group by 1 "
                          "order by 3 desc, 1 limit 2", "%s %s %s"),
    "top rows 4": ("select source, count(*), sum(count) from cells group by 1 order by 3 desc limit 4", "%s %s %s"),
    "row 10.1.2.0/24": ("select count(*), sum(count) from cells where source like '10.1.2.%'", "entries %s total %s"),
    "list 10.1.2.0/24": ("select * from cells where source like '10.1.2.%'",
                         '{"row": "%s", "column": "%s", "count": %s}'),
    "list 2001:db8::/32": ("select * from cells where source like '2001:db8:%'", "%s %s %s"),
    "range --rows": ("select * from cells where source like '10.%' and destination like '192.0.2.%'", "%s,%s,%s"),
    "degrees rows": ("select case n when 1 then 1 else 2 end, case n when 1 then 1 else 3 end, count(*) from "
                     "(select count(*) as n from cells group by source) where n < 4 group by 1, 2", "%s %s %s"),
    "top --file": ("select destination, count(*), sum(count) from cells group by 1 order by 3 desc limit 2",
                   "%s %s %s"),
}


def the_second_hour_is_right(folder, section):
    """Each command writes what the document shows, and that is what SQL finds in the events of the samples."""
    has_arrow = python_with("pyarrow") == sys.executable
    told = [(command, shown) for command, shown in commands_of(section) if has_arrow or "parquet" not in command]
    if not has_arrow:
        print("not tried: the export as Parquet: there is no pyarrow")
    os.remove(os.path.join(folder, "served"))
    written, error, status = walked(folder, [command for command, _ in told])
    notes = ["row sa, column da, count ipkt", "count orig_pkts", "4 of the names in six.names"]
    check("the second hour", (status, [it in error for it in notes], len(error.splitlines())), (0, [True] * 3, 3))
    table, left = events_of_samples(), dict(QUERIES)
    for (command, shown), got in zip(told, written):
        check(f"as the document shows it: {command}", got, shown)
        for words in [words for words in left if f" {words}" in command]:
            query, form = left.pop(words)
            rows = table.execute(query).fetchall()
            found = sorted(rows, key=order_of) if query.startswith("select *") else rows
            check(f"by SQL: {command}", sorted(got[-len(rows):]), sorted(form % row for row in found))
    check("all are asked", left, {})
    with open(os.path.join(folder, "two.csv")) as file:
        cells = [tuple(row) for row in csv.reader(file)][1:]
    wanted = [(source, destination, str(count)) for source, destination, count in table.execute("select * from cells")]
    check("the CSV by SQL", sorted(cells), sorted(wanted))
    program = "NR > 1 && NF > 40 && $4 ~ /^10\\.1\\.2\\./ {sum += $12} END {print sum}"
    summed = subprocess.run(["awk", "-F,", program, os.path.join(TOP, "examples", "nfdump.csv")], capture_output=True,
                            text=True).stdout
    [of_zeek] = table.execute("select sum(packets) from events where source like '10.1.2.%'").fetchone()
    check("by awk", int(summed) + 1204 + 1, of_zeek)


def the_notebook_is_right(folder, section):
    """The lines of the notebook run in one, each as a cell, and show tables and a picture."""
    python = python_with("nbconvert", "ipykernel")
    if python is None:
        print("not tried: the notebook: there is no nbconvert")
        return
    [block] = re.findall(r"^```python\n(.*?)^```$", section, re.M | re.S)
    has = {"to_arrow": ("pyarrow", "pandas"), "to_scipy": ("numpy", "scipy.sparse")}
    lines = [line for line in block.splitlines()
             if all(name not in line or python_with(*modules) == python for name, modules in has.items())]
    cells = [{"cell_type": "code", "metadata": {}, "source": line, "outputs": [], "execution_count": None}
             for line in lines]
    with open(os.path.join(folder, "two.ipynb"), "w") as file:
        json.dump({"cells": cells, "metadata": {}, "nbformat": 4, "nbformat_minor": 4}, file)
    found = {**os.environ, "PYTHONPATH": PYTHON}
    with server.Server(["--snapshot", os.path.join(folder, "two.snap")], tcp=False) as at:
        os.symlink(at.path, os.path.join(folder, "two.sock"))
        ended = subprocess.run([python, "-m", "nbconvert", "--to", "html", "--execute", "two.ipynb"], cwd=folder,
                               env=found, capture_output=True, text=True, timeout=WAIT)
    check("the notebook", (ended.returncode, ended.stderr if ended.returncode else ""), (0, ""))
    shown = re.sub(r"\s+", "", content(os.path.join(folder, "two.html")))
    networks = [("10.1.2.0/24", 5, 2414), ("172.16.5.0/24", 1, 410), ("10.1.1.0/24", 3, 295),
                ("2001:db8:1::/48", 3, 49)]
    rows = "".join("<tr><td>%s</td><td>%d</td><td>%d</td></tr>" % it for it in networks)
    check("the notebook: networks", f"<tbody>{rows}</tbody>" in shown, True)
    check("the notebook: a row", f"<td>{(10 << 24) + (1 << 16) + 516}</td><td>2</td><td>2410</td>" in shown, True)
    check("the notebook: a picture", "Occupiedcells:12in" in shown, True)


def all_are_tried():
    folder = server.FOLDER
    own_commands(folder)
    os.symlink(os.path.join(TOP, "examples"), os.path.join(folder, "examples"))
    document, _, second = content(DOCUMENT).partition("## Networks, names and other tools")
    the_walk_is_right(folder, document)
    pictures_are_there(folder, document)
    the_second_hour_is_right(folder, second)
    the_notebook_is_right(folder, second)


if __name__ == "__main__":
    sys.exit(server.run_all(all_are_tried))
