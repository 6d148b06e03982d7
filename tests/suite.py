#!/usr/bin/env python3
"""Runs all Python tests of the built programs, one after the other.

    tests/suite.py HHM GROWTHS [COSTS] [--lanes N]

HHM is the program, and GROWTHS that of crates/refuse_growths. With COSTS, a file, `tools/gate_costs.py` appends the
processor time of each script to it. With N lanes so many scripts run at once, but for those of bench/, and what a
script writes is shown when it ends. A script ends after half an hour at most, and its servers end with it. The last
line is `N passed, M failed`, and the status is 0 exactly where nothing failed.
"""
import argparse
import re
import subprocess
import sys
import time
from concurrent.futures import ThreadPoolExecutor
from pathlib import Path

TOP = Path(__file__).resolve().parent.parent
OF_HHM = (
    "program.py", "questions.py", "exports.py", "log_check.py", "logged.py", "clients.py", "asked.py", "asking.py", "stats.py", "reading.py",
    "loading.py", "packages.py", "cluster.py", "bridges.py", "pictures.py", "analysis.py", "watching.py", "server.py",
    "generated.py", "folding.py", "own_saves.py", "server_faults.py", "server_log.py", "identity.py", "forking.py", "salvage.py",
    "fold_files.py", "growing.py", "server_log_faults.py", "log_events.py", "call_order.py", "log_torture.py",
    "server_paths.py", "server_ends.py", "progress.py", "server_clients.py", "install.py", "distribution.py",
    "examples.py", "windows.py", "rolls.py", "backups.py",
    "refused.py", "culprits.py",
)  # fmt: skip
OF_GROWTHS = ("refused_libraries.py",)
OF_BENCH = ("run.py", "serve.py")
LAST_LINE = re.compile(r"(\d+) passed, (\d+) failed")
LIMIT = ("timeout", "--kill-after=10", "1800")


def commands(hhm, growths):
    """Returns the commands of the tests, and those of bench/, each in the order in which they run."""
    python = sys.executable
    tests = [
        *[(python, f"tests/{it}", hhm) for it in OF_HHM],
        *[(python, f"tests/{it}", growths) for it in OF_GROWTHS],
    ]
    return tests, [(python, f"bench/{it}", hhm, "--check") for it in OF_BENCH]


def counts_of(words, shows=True):
    """Runs a command, shows what it writes as it comes, or else at its end, and returns the two counts of its last line.

    A command without that line is one failure, and so is one that reports no failure and ends with another status.
    """
    held = []
    last = ""
    begin = time.monotonic()
    with subprocess.Popen(words, cwd=TOP, stdout=subprocess.PIPE, text=True, errors="replace") as running:
        for line in running.stdout:
            held.append(line)
            last = line.rstrip("\n")
            if shows:
                print(held.pop(), end="", flush=True)
    if held:
        script = [Path(it).name for it in words if it.endswith(".py")][-1]
        print(f"{script}, {time.monotonic() - begin:.0f} s:\n{''.join(held)}", end="", flush=True)
    found = LAST_LINE.fullmatch(last)
    if found and (running.returncode == 0 or found[2] != "0"):
        return int(found[1]), int(found[2])
    print(f"FAILED {' '.join(words)}: status {running.returncode}", flush=True)
    return (int(found[1]) if found else 0), 1


def parse(words):
    parser = argparse.ArgumentParser(description=__doc__, formatter_class=argparse.RawDescriptionHelpFormatter)
    parser.add_argument("programs", nargs=2, type=Path, metavar="PROGRAM")
    parser.add_argument("costs", nargs="?", type=Path)
    parser.add_argument("--lanes", type=int, default=1)
    return parser.parse_args(words)


def main(words):
    given = parse(words)
    programs = [str(it.absolute()) for it in given.programs]
    costs = (sys.executable, "tools/gate_costs.py", "run", str(given.costs.absolute())) if given.costs else ()
    tests, benches = ([(*costs, *LIMIT, *it) for it in part] for part in commands(*programs))
    with ThreadPoolExecutor(given.lanes) as pool:
        counts = list(pool.map(lambda it: counts_of(it, given.lanes == 1), tests))
    counts += [counts_of(it) for it in benches]
    passed, failed = sum(it[0] for it in counts), sum(it[1] for it in counts)
    print(f"{passed} passed, {failed} failed")
    return 1 if failed else 0


if __name__ == "__main__":
    sys.exit(main(sys.argv[1:]))
