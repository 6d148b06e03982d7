#!/usr/bin/env python3
"""Hands sums of the built program on to numpy, scipy, R and GraphBLAS, and compares what these find in them.

    python3 tests/bridges.py PATH-TO-HHM

What is wanted was worked out by hand, or by a loop over the cells with a dictionary. A tool that isn't installed leaves
a line which says what wasn't tried. It prints a line for each check that fails and at the end `N passed, M failed`; the
status is 1 where one fails.
"""
import array
import collections
import json
import os
import random
import shutil
import subprocess
import sys

import server
from hhm_client import BANNER
from server import Server, check

HERE = os.path.dirname(os.path.abspath(__file__))
EXAMPLES = os.path.join(HERE, "..", "examples")
PYTHON = os.path.join(HERE, "..", "clients", "python")
import hhm_cells  # noqa: E402 (server.py has put the client's folder on the path)

FULL = 1 << 60
LARGE = ["--rows", str(FULL), "--cols", str(FULL), "--limit", str((1 << 64) - 1)]
WAIT = 120


def path_of(name):
    return os.path.join(server.FOLDER, name)


def run(words, **how):
    """Both outputs of a program, and its status. The built program is the `hhm` of its path."""
    found = {**os.environ, "PATH": f"{server.FOLDER}:{os.environ['PATH']}", "PYTHONPATH": PYTHON}
    ended = subprocess.run(words, capture_output=True, text=True, timeout=WAIT, env=found, **how)
    return ended.stdout, ended.stderr, ended.returncode


def python_with(*modules):
    """A Python that has these modules, this one or the system's; None where neither has."""
    for python in (sys.executable, "/usr/bin/python3"):
        if os.path.exists(python) and run([python, "-c", f"import {', '.join(modules)}"])[2] == 0:
            return python
    return None


def drawn_cells(seed, count, most):
    """Cells of which some share a place, in rows and columns up to 2^60 - 1."""
    dice = random.Random(seed)
    places = [dice.randrange(FULL) for _ in range(count // 4)] + [0, FULL - 1]
    return [(dice.choice(places), dice.choice(places), dice.randrange(most)) for _ in range(count)]


def added(cells):
    """The sum, by place."""
    counts = collections.Counter()
    for row, col, count in cells:
        counts[row, col] += count
    return dict(sorted(counts.items()))


def top_of(counts, first=0):
    """The lines of the ten rows with the highest totals."""
    rows = collections.defaultdict(list)
    for (row, _), count in counts.items():
        rows[row].append(count)
    best = sorted(rows, key=lambda row: (-sum(rows[row]), row))[:10]
    return "".join(f"{row + first} {len(rows[row])} {sum(rows[row])}\n" for row in best)


# Two cells whose sum needs all 64 bits, stored zeros, the last row and column, and equal totals.
WORKED = [(FULL - 1, 0, (1 << 63) - 1), (FULL - 1, 0, 1 << 63), (4, 4, 0), (9, FULL - 1, 0), (4, 9, 0), (9, 4, 0)]
SUMS = {
    "worked": WORKED,
    "drawn": drawn_cells(1, 3000, 1 << 52),
    "small": drawn_cells(2, 400, 1 << 30),
    "one": [(5, 6, 7)],
    "empty": [],
}


class Saved:
    """A snapshot of cells, in batches, and their text."""

    def __init__(self, name):
        self.counts = added(SUMS[name])
        self.path = path_of(f"{name}.snap")
        with Server([*LARGE, "--snapshot", self.path], tcp=False) as at, at.client(1) as hhm:
            for number in range(0, len(SUMS[name]), 1000):
                hhm.put(number, SUMS[name][number:number + 1000])
            hhm.save()
        self.text = path_of(f"{name}.mtx")
        with open(self.text, "wb") as file:
            file.write(BANNER + b"%d %d %d\n" % (FULL, FULL, len(SUMS[name])))
            file.writelines(b"%d %d %d\n" % (row + 1, col + 1, count) for row, col, count in SUMS[name])


def arrays_of(counts):
    rows, cols = ([place[axis] for place in counts] for axis in (0, 1))
    return tuple(array.array("Q", part) for part in (rows, cols, counts.values()))


def cells_are_read(saved):
    """Of a snapshot, a text, standard input and a server, without numpy; in blocks that cut lines anywhere too."""
    for name, it in saved.items():
        wanted = (FULL, FULL, arrays_of(it.counts))
        for source in (it.path, it.text):
            total = hhm_cells.sum_of(source, server.PROGRAM)
            check(f"cells of {os.path.basename(source)}", (total.rows, total.cols, tuple(total.cells)), wanted)
        with Server([*LARGE, "--snapshot", it.path], tcp=False) as at, at.client(2) as hhm:
            check(f"cells of a server: {name}", tuple(hhm_cells.sum_of(hhm).cells), wanted[2])
    whole = hhm_cells.BLOCK
    for hhm_cells.BLOCK in (1, 7, 64):
        total = hhm_cells.sum_of(saved["small"].path, server.PROGRAM)
        check(f"blocks of {hhm_cells.BLOCK}", tuple(total.cells), arrays_of(saved["small"].counts))
    hhm_cells.BLOCK = whole
    asked = "import hhm_cells; print(hhm_cells.sum_of('-', 'hhm').cells.counts.tolist())"
    with open(saved["one"].text, "rb") as text:
        check("standard input", run([sys.executable, "-c", asked], stdin=text), ("[7]\n", "", 0))


def faults_are_told():
    """Files that hhm refuses, and what isn't there."""
    broken, cut = path_of("broken.mtx"), path_of("cut.snap")
    with open(broken, "wb") as file:
        file.write(BANNER + b"3 3 2\n1 1 1\n")
    with open(cut, "wb") as file:
        file.write(b"hhm")
    for path, status, told in [(broken, 3, "hhm: text: TooFewEntries at line 4"),
                               (cut, 3, f"hhm: snapshot: Truncated ({cut})")]:
        try:
            check(path, hhm_cells.sum_of(path, server.PROGRAM), None)
        except hhm_cells.NoSum as fault:
            check(f"{path}: told", (fault.status, str(fault)), (status, f"{path}: {told}"))
    for path, program, missing in [(path_of("nowhere"), server.PROGRAM, path_of("nowhere")),
                                   (broken, path_of("no-hhm"), path_of("no-hhm"))]:
        try:
            check(f"{missing} is told", hhm_cells.sum_of(path, program), None)
        except FileNotFoundError as fault:
            check(f"{missing} is told", fault.filename, missing)
    without = "import sys; sys.modules['numpy'] = None; import hhm_scipy"
    _, error, status = run([sys.executable, "-c", without])
    check("without numpy", (status, "hhm_scipy needs numpy, and scipy 1.8 or later" in error), (1, True))


def labelled(counts):
    """What `to_scipy` is to give of a sum."""
    rows, cols = (sorted({place[axis] for place in counts}) for axis in (0, 1))
    at_row, at_col = ({number: place for place, number in enumerate(numbers)} for numbers in (rows, cols))
    sums = [0] * len(rows)
    for (row, _), count in counts.items():
        sums[at_row[row]] += count
    entries = [[at_row[row], at_col[col], count] for (row, col), count in counts.items()]
    return {"shape": [len(rows), len(cols)], "dtype": "uint64", "sorted": True, "rows": rows, "cols": cols,
            "entries": entries, "sums": sums}


def asked_of(python, *words):
    output, error, status = run([python, os.path.join(HERE, "drivers", "ask_scipy.py"), *words])
    check(f"{words}: no fault", (error, status), ("", 0))
    return json.loads(output) if status == 0 else None


WRONG = [
    "whole numbers from 0 to 2^64 - 1 are wanted, and -1 is among these",
    "floats (float64) are taken where they are whole, up to 9007199254740992",
    "whole numbers from 0 to 2^64 - 1 are wanted, and nan is among these",
    "floats (float64) are taken where they are whole, up to 9007199254740992",
    "floats (float64) are taken where they are whole, up to 9007199254740992",
    "floats (float32) are taken where they are whole, up to 16777216",
    "whole numbers from 0 to 2^64 - 1 are wanted, and these are of complex128",
    "3 numbers for 2 rows or columns",
    "whole numbers from 0 to 2^64 - 1 are wanted, and -1 is among these",
]
TAKEN = [
    [[0], [1], [1 << 53]], [[0], [1], [1]], [[7], [6], [(1 << 64) - 1]], [[0], [1], [7]], [[0, 0], [1, 1], [1, 2]],
    [[0], [1], [0]],
]


def scipy_has_the_sum(saved):
    """`to_scipy` of each file, and of a server that got the same by `from_scipy`."""
    python = python_with("numpy", "scipy.sparse")
    if python is None or run([python, "-c", "from scipy.sparse import csr_array"])[2] != 0:
        print("not tried: hhm_scipy: there is no scipy of 1.8 or later")
        return
    for name, it in saved.items():
        found = asked_of(python, "to", server.PROGRAM, it.path, it.text)
        check(f"to_scipy: {name}", found, [labelled(it.counts)] * 2)
        with Server(LARGE, tcp=False) as at:
            numbers = list(range(3, 3 + -(-len(it.counts) // 7)))
            wanted = {"numbers": numbers, **labelled(it.counts)}
            check(f"from_scipy: {name}", asked_of(python, "put", server.PROGRAM, it.path, at.path), wanted)
    check("from_scipy: other numbers", asked_of(python, "wrong"), [WRONG, TAKEN])


def exported(it, form, *words, python=sys.executable):
    """What `hhmc export` writes of a snapshot into a file."""
    path = path_of(f"sum.{form}")
    given = ["export", "--file", it.path, "--program", server.PROGRAM, "--format", form, *words]
    with open(path, "wb") as file:
        ended = subprocess.run([python, f"{PYTHON}/hhm_client.py", *given], stdout=file, stderr=subprocess.PIPE,
                               text=True, timeout=WAIT)
    check(f"export {form} of {it.path}", (ended.stderr, ended.returncode), ("", 0))
    return path


# What each library reads of an export, as lists of rows, columns and counts.
READERS = {
    "npz": (("numpy",), "import numpy, json, sys; it = numpy.load(sys.argv[1]); "
                        "print(json.dumps([it[k].tolist() for k in ('row', 'col', 'data')]))"),
    "parquet": (("pyarrow.parquet",), "import pyarrow.parquet as p, json, sys; it = p.read_table(sys.argv[1]); "
                                      "print(json.dumps([it[k].to_pylist() for k in ('row', 'column', 'count')]))"),
    "arrow": (("pyarrow",), "import pyarrow as p, json, sys; it = p.ipc.open_file(sys.argv[1]).read_all(); "
                            "print(json.dumps([it[k].to_pylist() for k in ('row', 'column', 'count')]))"),
}


def exports_have_formats(saved):
    """CSV, and what each library reads of the others; what says that a library isn't there."""
    for it in saved.values():
        with open(exported(it, "csv")) as file:
            lines = [f"{row},{col},{count}\n" for (row, col), count in it.counts.items()]
            check(f"csv: {it.path}", file.readlines(), ["row,column,count\n", *lines])
        for form, (modules, reader) in READERS.items():
            if python := python_with(*modules):
                output, error, status = run([python, "-c", reader, exported(it, form, python=python)])
                check(f"{form}: {it.path}: read", (error, status), ("", 0))
                check(f"{form}: {it.path}", json.loads(output), [list(part) for part in arrays_of(it.counts)])
    for form, (modules, _) in READERS.items():
        if python_with(*modules) is None:
            print(f"not tried: hhmc export --format {form}: there is no {modules[0]}")
        module = modules[0].partition(".")[0]
        without = f"import sys; sys.modules[{module!r}] = None; import hhm_command; sys.exit(hhm_command.main())"
        words = ["export", "--file", saved["one"].path, "--program", server.PROGRAM, "--format", form]
        output, error, status = run([sys.executable, "-c", without, *words])
        told = error.startswith(f"export --format {form}: "), module in error
        check(f"{form} without its library", (output, told, status), ("", (True, True), 4))
    if python := python_with("scipy.sparse"):
        asked = "import scipy.sparse as s, sys; it = s.load_npz(sys.argv[1]); print(it.nnz, *it.shape, it.dtype)"
        counts = len(saved["small"].counts)
        path = exported(saved["small"], "npz", python=python)
        check("npz by scipy", run([python, "-c", asked, path]), (f"{counts} {FULL} {FULL} uint64\n", "", 0))


NOTEBOOK = ["from hhm_client import Client\nfrom hhm_plot import picture\nhhm = Client(unix='SOCKET')", "hhm.top(2)",
            "hhm.page((0, 9), (0, 9))", "picture(hhm)"]


def table_of(head, *lines):
    """The HTML of a table."""
    heads = "".join(f"<th>{word}</th>" for word in head.split())
    rows = ("".join(f"<td>{word}</td>" for word in line.split()) for line in lines)
    body = "".join(f"<tr>{row}</tr>" for row in rows)
    return f"<table><thead><tr>{heads}</tr></thead><tbody>{body}</tbody></table>"


def a_notebook_shows_answers():
    """Top rows and a page are tables in a notebook, and a picture is one."""
    import hhm_plot

    tables = [table_of("row entries total", "7 1 5", "1 2 3"), table_of("row column count", "1 2 1", "1 3 2", "7 7 5")]
    with Server(LARGE, tcp=False) as at, at.client(2) as hhm:
        hhm.put(1, [(1, 2, 1), (1, 3, 2), (7, 7, 5)])
        check("tables", [hhm.top(2)._repr_html_(), hhm.page((0, 9), (0, 9))._repr_html_()], tables)
        drawn = hhm_plot.picture(hhm)._repr_html_()
        check("a picture", (drawn.startswith("<svg "), "Degrees of rows and columns: 3 cells" in drawn), (True, True))
        python = python_with("nbconvert", "ipykernel")
        if python is None:
            print("not tried: a notebook: there is no nbconvert, or no ipykernel")
            return
        cells = [{"cell_type": "code", "metadata": {}, "execution_count": None, "outputs": [],
                  "source": source.replace("SOCKET", at.path)} for source in NOTEBOOK]
        path = path_of("asked.ipynb")
        with open(path, "w") as file:
            json.dump({"cells": cells, "metadata": {}, "nbformat": 4, "nbformat_minor": 5}, file)
        output, error, status = run([python, "-m", "nbconvert", "--to", "notebook", "--execute", "--stdout", path])
        check("a notebook", status, 0)
        if status == 0:
            shown = ["".join(out["data"].get("text/html", [])) for cell in json.loads(output)["cells"]
                     for out in cell["outputs"]]
            check("a notebook: its tables", (shown[:2], shown[2][:5]), (tables, "<svg "))


def examples_find_the_top(saved):
    """Each example of examples/ tells the ten rows with the highest totals."""
    for module, name in [("numpy", "top_numpy.py"), ("scipy.sparse", "top_scipy.py")]:
        python = python_with("numpy", module)
        if python is None:
            print(f"not tried: examples/{name}: there is no {module}")
            continue
        for it in saved.values():
            output = run([python, os.path.join(EXAMPLES, name), it.path])
            check(f"{name}: {it.path}", output, (top_of(it.counts), "", 0))
    if shutil.which("Rscript") is None or run(["Rscript", "-e", "library(Matrix)"])[2] != 0:
        print("not tried: examples/top.R: there is no R, or it has no package Matrix")
    else:
        for name in ("small", "one"):
            words = f"hhm export {saved[name].path} | Rscript {EXAMPLES}/top.R"
            check(f"top.R: {name}", run(["bash", "-c", words]), (top_of(saved[name].counts, first=1), "", 0))
        rounds = f"hhm export {saved['worked'].path} | Rscript {EXAMPLES}/top.R"
        output, error, status = run(["bash", "-o", "pipefail", "-c", rounds])
        check("top.R: a total that it would round", (output, "2^53" in error, status), ("", True, 1))
    made = path_of("top_graphblas")
    words = ["cc", "-O2", "-Wall", "-Wextra", os.path.join(EXAMPLES, "top_graphblas.c"), "-lgraphblas", "-o", made]
    if shutil.which("cc") is None or run(["cc", "-E", "-include", "GraphBLAS.h", "-x", "c", "/dev/null"])[2] != 0:
        print("not tried: examples/top_graphblas.c: there is no C compiler, or no GraphBLAS")
        return
    check("cc top_graphblas.c", run(words), ("", "", 0))
    for it in saved.values():
        output = run(["bash", "-c", f"hhm export {it.path} | {made}"])
        check(f"top_graphblas: {it.path}", output, (top_of(it.counts), "", 0))


def all_are_tried():
    os.symlink(server.PROGRAM, path_of("hhm"))
    saved = {name: Saved(name) for name in SUMS}
    cells_are_read(saved)
    faults_are_told()
    scipy_has_the_sum(saved)
    exports_have_formats(saved)
    a_notebook_shows_answers()
    examples_find_the_top(saved)


if __name__ == "__main__":
    sys.exit(server.run_all(all_are_tried))
