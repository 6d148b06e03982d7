#!/usr/bin/env python3
"""Measures the processor time of the gate's commands, and prints it as one table.

    tools/gate_costs.py run FILE COMMAND..   runs COMMAND, appends its rows to FILE, and ends with its status
    tools/gate_costs.py table FILE           prints the table of all rows in FILE

A row is a JSON list: kind, name, processor seconds. A script gets one row, for itself and all that it starts. `rt` gets
a row for each crate's proof, for each crate's tests, and for each crate's wrong bodies. `rt` reports no times, so this
script reads those of its provers from /proc, once a second. The row `the rest` has what no reading saw: the last second
of each prover, compilers, and `rt` itself.
"""
import json
import os
import resource
import subprocess
import sys
import threading
from collections import defaultdict
from pathlib import Path

OF_CRATES = ("proofs", "tests", "wrong bodies")
KINDS = (*OF_CRATES, "scripts", "the rest")
DEAREST = 10
PERIOD = 1.0
TICKS = os.sysconf("SC_CLK_TCK")


def usage_of(process):
    """Returns a process's parent and its processor seconds so far."""
    words = (process / "stat").read_text().rpartition(")")[2].split()
    return int(words[1]), (int(words[11]) + int(words[12])) / TICKS


def job_of(process):
    """Returns the kind and the crate of a prover's work, or None for another program.

    `rt` runs the provers of a crate and of its tests in the crate's folder, and that of a wrong body in a new one.
    """
    words = (process / "cmdline").read_bytes().decode(errors="replace").split("\0")
    if Path(words[0]).name != "rattle" or "--crate-name" not in words:
        return None
    crate = words[words.index("--crate-name") + 1]
    if Path(os.readlink(process / "cwd")).parent.name != "crates":
        return "wrong bodies", crate
    return ("tests" if "--test" in words else "proofs"), crate


class Provers:
    """The provers that one process started: their work, and the processor seconds of each at the last reading."""

    def __init__(self, top):
        self.top, self.jobs, self.seconds, self.is_over = top, {}, {}, threading.Event()

    def read(self):
        for process in Path("/proc").glob("[0-9]*"):
            try:
                parent, seconds = usage_of(process)
                if parent != self.top:
                    continue
                pid = process.name
                # A number is given again once its process has ended.
                if pid not in self.jobs or seconds < self.seconds[self.jobs[pid]]:
                    if job := job_of(process):
                        self.jobs[pid] = (len(self.seconds), *job)
                if pid in self.jobs:
                    self.seconds[self.jobs[pid]] = seconds
            except OSError:
                # It ended meanwhile.
                continue

    def read_until_over(self):
        while not self.is_over.wait(PERIOD):
            self.read()

    def rows(self):
        sums = defaultdict(float)
        for (_, kind, crate), seconds in self.seconds.items():
            sums[kind, crate] += seconds
        return [(kind, crate, seconds) for (kind, crate), seconds in sums.items()]


def processor_seconds():
    used = resource.getrusage(resource.RUSAGE_CHILDREN)
    return used.ru_utime + used.ru_stime


def run(file, words):
    """Runs a command, appends its rows to the file, and returns its status."""
    process = subprocess.Popen(words)
    rows = []
    if words[0] == "rt":
        provers = Provers(process.pid)
        reader = threading.Thread(target=provers.read_until_over)
        reader.start()
        status = process.wait()
        provers.is_over.set()
        reader.join()
        rows = provers.rows()
        rows.append(("the rest", "rt", processor_seconds() - sum(it[2] for it in rows)))
    else:
        status = process.wait()
        name = next((it for it in words[1:] if it.endswith(".py")), words[0])
        rows = [("scripts", name, processor_seconds())]
    with open(file, "a", encoding="utf-8") as out:
        out.writelines(f"{json.dumps(it)}\n" for it in rows)
    return status


def minutes(rows, kind, name=None):
    return sum(it[2] for it in rows if it[0] == kind and name in (None, it[1])) / 60


def table(file):
    """Prints the processor minutes of each kind, and those of the crates that took most."""
    rows = [json.loads(it) for it in Path(file).read_text(encoding="utf-8").splitlines()]
    print("processor minutes (what earlier runs kept takes none):")
    for kind in KINDS:
        print(f"{minutes(rows, kind):8.1f}  {kind} ({sum(it[0] == kind for it in rows)})")
    print(f"{sum(it[2] for it in rows) / 60:8.1f}  in all")
    print(f"the {DEAREST} crates that took most: {', '.join(OF_CRATES)}:")
    crates = {it[1]: [minutes(rows, kind, it[1]) for kind in OF_CRATES] for it in rows if it[0] in OF_CRATES}
    for name, spent in sorted(crates.items(), key=lambda it: -sum(it[1]))[:DEAREST]:
        print(f"{''.join(f'{it:8.1f}' for it in spent)}  {name}")


def main(words):
    if len(words) >= 3 and words[0] == "run":
        # A status that names a signal is that number below 0.
        return run(words[1], words[2:]) & 0xFF
    if len(words) == 2 and words[0] == "table":
        return table(words[1]) or 0
    print(__doc__, file=sys.stderr)
    return 2


if __name__ == "__main__":
    sys.exit(main(sys.argv[1:]))
