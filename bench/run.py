#!/usr/bin/env python3
"""Measures `hhm sum` beside what a user would reach for, in one run, and compares the outputs byte for byte.

    python3 bench/run.py PATH-TO-HHM [--entries N] [--streams "powerlaw uniform .."] [--repeat R]
    python3 bench/run.py PATH-TO-HHM --check

It builds the two programs of this folder with rustc, generates each stream, and prints a table for it: seconds (the
best of R runs), entries a second, peak memory, and the time as a multiple of the baseline's, the Rust program that
sorts. The programs take turns, so that a slow minute of the machine falls on all of them. sort and awk run once, and
are left out where they are not installed. awk adds in floating point, so counts stay small here. Memory below some
15 MB shows as that: each process begins as this one.

With `--check` nothing is timed: each program sums a short stream of each kind, and its output is compared with what a
dictionary of Python holds. What is not installed is left out, with a line that says so. The last line is `N passed,
M failed`.

The status is 1 where two outputs differ. Programs and data go to a folder of their own below the system's one for
temporary files, and are removed at the end.
"""
import argparse
import filecmp
import os
import random
import shutil
import subprocess
import sys
import tempfile
import time

HERE = os.path.dirname(os.path.abspath(__file__))
STREAMS = "powerlaw uniform repeat onerow ordered"
# How many entries a stream has that is checked and not timed.
CHECKED_ENTRIES = 20_000
# The rows, and the columns, of every stream.
SIZE = 1 << 60
SORT_AND_AWK = r"""
set -o pipefail
read -r banner; read -r rows cols entries
sort -k1,1n -k2,2n -S 512M | awk '
  ($1 "") != r || ($2 "") != c { if (NR > 1) print r, c, s; r = $1 ""; c = $2 ""; s = 0 }
  { s += $3 }
  END { if (NR) print r, c, s }' > "$BODY"
echo "$banner"
echo "$rows $cols $(wc -l < "$BODY")"
cat "$BODY"
"""


def build(source, folder):
    """Compiles a Rust program of this folder, and gives its path."""
    program = os.path.join(folder, os.path.splitext(source)[0])
    subprocess.run(["rustc", "--edition", "2021", "-O", "-o", program, os.path.join(HERE, source)], check=True)
    return program


def measure(command, text, output, environment):
    """Runs a command on a text: its seconds and the peak memory of its largest process in bytes."""
    with open(text, "rb") as source, open(output, "wb") as sink:
        start = time.perf_counter()
        process = subprocess.Popen(command, stdin=source, stdout=sink, env=environment)
        _, status, usage = os.wait4(process.pid, 0)
        seconds = time.perf_counter() - start
    if status != 0:
        raise SystemExit(f"{command[0]} ended with status {os.waitstatus_to_exitcode(status)}")
    return seconds, usage.ru_maxrss * 1024


def commands(hhm, baseline):
    """What is run: a name, the command, and whether one run is enough. Without a baseline there is none in Rust."""
    rows = [
        ("hhm, cuts 4096,65536,1048576", [hhm, "sum", "--cuts", "4096,65536,1048576"], False),
        ("hhm, default cut", [hhm, "sum"], False),
    ]
    if baseline:
        rows.insert(0, ("Rust, sorting", [baseline], False))
    if shutil.which("sort") and shutil.which("awk"):
        rows.append(("sort and awk", ["bash", "-c", SORT_AND_AWK], True))
    return rows


def environment(folder):
    """What the programs see: byte order, and the folder for what sort and awk set aside."""
    return dict(os.environ, LC_ALL="C", TMPDIR=folder, BODY=os.path.join(folder, "body"))


def take_turns(rows, text, folder, rounds):
    """Runs the programs in turn. Gives the runs of each, and whether its output is the first one's."""
    runs, same = {name: [] for name, _, _ in rows}, {}
    reference, output = os.path.join(folder, "reference"), os.path.join(folder, "output")
    for turn in range(rounds):
        for name, command, once in rows:
            if once and turn > 0:
                continue
            runs[name].append(measure(command, text, output, environment(folder)))
            if turn == 0 and not same:
                os.replace(output, reference)
                same[name] = True
            else:
                same[name] = same.get(name, True) and filecmp.cmp(output, reference, shallow=False)
    return runs, same


def run_stream(kind, arguments, generator, baseline, folder):
    """Measures one stream, prints its table, and says whether all outputs are the same."""
    text = os.path.join(folder, "text")
    with open(text, "wb") as sink:
        subprocess.run([generator, kind, str(arguments.entries)], stdout=sink, check=True)
    runs, same = take_turns(commands(arguments.hhm, baseline), text, folder, arguments.repeat)
    print(f"\n{kind}, {arguments.entries:,} entries\n")
    print("| program | seconds | entries a second | peak memory | ratio | output |")
    print("|---|---|---|---|---|---|")
    base = min(seconds for seconds, _ in next(iter(runs.values())))
    for place, (name, measured) in enumerate(runs.items()):
        seconds, memory = min(seconds for seconds, _ in measured), max(memory for _, memory in measured)
        verdict = ("reference" if place == 0 else "same") if same[name] else "DIFFERS"
        rate = arguments.entries / seconds
        row = [name, f"{seconds:.2f}", f"{rate:,.0f}", f"{memory / 1e6:.0f} MB", f"{seconds / base:.2f}", verdict]
        print(f"| {' | '.join(row)} |", flush=True)
    return all(same.values())


def short_stream(kind, entries):
    """The cells of a short stream, as `stream.rs` draws them but for the numbers themselves."""
    draw = random.Random(kind)
    kinds = {
        "powerlaw": lambda n: (int(draw.paretovariate(1)) % SIZE, int(draw.paretovariate(1)) % SIZE),
        "uniform": lambda n: (draw.randrange(SIZE), draw.randrange(SIZE)),
        "repeat": lambda n: (draw.randrange(50) * 1_000_003, draw.randrange(20) * 1_000_003),
        "onerow": lambda n: (7, draw.randrange(SIZE)),
        "ordered": lambda n: (n // 4 * 1_000_003, n % 4 * 1_000_003),
    }
    return [(*kinds[kind](n), draw.randrange(1, 10)) for n in range(entries)]


def text_of(cells):
    """The text of a list of cells."""
    head = f"%%MatrixMarket matrix coordinate integer general\n{SIZE} {SIZE} {len(cells)}\n"
    return (head + "".join(f"{row + 1} {col + 1} {count}\n" for row, col, count in cells)).encode()


def check_stream(kind, rows, folder):
    """Sums a short stream by each program. Gives for each whether its output is what a dictionary holds."""
    cells, sums = short_stream(kind, CHECKED_ENTRIES), {}
    for row, col, count in cells:
        sums[row, col] = sums.get((row, col), 0) + count
    wanted = text_of([(*place, count) for place, count in sorted(sums.items())])
    for name, command, _ in rows:
        ended = subprocess.run(command, input=text_of(cells), stdout=subprocess.PIPE, env=environment(folder))
        yield name, ended.returncode == 0 and ended.stdout == wanted


def check(arguments, folder):
    """Compares the programs' outputs on a short stream of each kind, and says whether all are right."""
    baseline = build("sum_by_sorting.rs", folder) if shutil.which("rustc") else None
    rows = commands(arguments.hhm, baseline)
    if not baseline:
        print("rustc is not installed: the program in Rust is left out")
    if not any(name == "sort and awk" for name, _, _ in rows):
        print("sort or awk is not installed: they are left out")
    passed = failed = 0
    for kind in arguments.streams.split():
        for name, is_right in check_stream(kind, rows, folder):
            passed, failed = passed + is_right, failed + (not is_right)
            if not is_right:
                print(f"FAILED {kind}: {name}")
    print(f"{passed} passed, {failed} failed")
    return failed == 0


def measure_all(arguments, folder):
    """Measures each stream, and says whether all outputs are the same."""
    generator, baseline = build("stream.rs", folder), build("sum_by_sorting.rs", folder)
    return all([run_stream(kind, arguments, generator, baseline, folder) for kind in arguments.streams.split()])


def run_or_check(parser, measure_all, check):
    """Measures the program that the command line names, or with `--check` compares what it answers. Ends with 1 where
    something is wrong."""
    parser.add_argument("hhm", help="the built program")
    parser.add_argument("--check", action="store_true", help="compare the answers on short streams, and time nothing")
    arguments = parser.parse_args()
    arguments.hhm = os.path.abspath(arguments.hhm)
    with tempfile.TemporaryDirectory(prefix="hhm-bench-") as folder:
        is_well = (check if arguments.check else measure_all)(arguments, folder)
    sys.exit(0 if is_well else 1)


def main():
    parser = argparse.ArgumentParser(description=__doc__.split("\n")[0])
    parser.add_argument("--entries", type=int, default=2_000_000)
    parser.add_argument("--streams", default=STREAMS)
    parser.add_argument("--repeat", type=int, default=5)
    run_or_check(parser, measure_all, check)


if __name__ == "__main__":
    main()
