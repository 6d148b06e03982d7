#!/usr/bin/env python3
"""Draws pictures of sums of the built program, and compares what they show with a plain model.

    python3 tests/pictures.py PATH-TO-HHM

An SVG is read as the numbers that its axes tell: where a mark, a dot or a field lies is turned into a degree, a share,
a row or a column by the labels beside the axes. A PNG is read by its pixels. What is wanted is worked out by loops over
the cells. It prints a line for each check that fails and at the end `N passed, M failed`; the status is 1 where one
fails. Linux, and nothing but Python's own library.
"""
import array
import base64
import collections
import ipaddress
import math
import os
import random
import re
import struct
import subprocess
import sys
import xml.etree.ElementTree
import zlib

import server
from hhm_client import BANNER, Arrays
from server import Server, check

HERE = os.path.dirname(os.path.abspath(__file__))
HHMC = os.path.join(HERE, "..", "clients", "python", "hhm_client.py")
SVG = "{http://www.w3.org/2000/svg}"
FULL, WAIT = 1 << 60, 120


def path_of(name):
    return os.path.join(server.FOLDER, name)


def hhmc(*words, **how):
    """Both outputs of the command line, and its status. The built program is the `hhm` of its path."""
    found = {**os.environ, "PATH": f"{server.FOLDER}:{os.environ['PATH']}"}
    words = [sys.executable, HHMC, *map(str, words)]
    ended = subprocess.run(words, capture_output=True, text=True, timeout=WAIT, env=found, **how)
    return ended.stdout, ended.stderr, ended.returncode


class Text:
    """A Matrix Market text of cells, and the plain model of their sum."""

    def __init__(self, name, rows, cols, cells):
        self.path = path_of(f"{name}.mtx")
        with open(self.path, "wb") as file:
            file.write(BANNER + b"%d %d %d\n" % (rows, cols, len(cells)))
            file.writelines(b"%d %d %d\n" % (row + 1, col + 1, count) for row, col, count in cells)
        self.counts = collections.Counter()
        for row, col, count in cells:
            self.counts[row, col] += count
        self.size = rows, cols

    def told(self):
        lengths = [len({place[axis] for place in self.counts}) for axis in (0, 1)]
        return f"cells {len(self.counts)} rows {lengths[0]} cols {lengths[1]} total {sum(self.counts.values())}\n"

    def degrees(self, axis, by):
        """How many rows (0) or columns (1) have each degree."""
        found = collections.Counter()
        for place, count in self.counts.items():
            found[place[axis]] += count if by == "total" else 1
        return collections.Counter(found.values())


def flows(seed, count):
    """Cells of which few rows and columns have most."""
    dice = random.Random(seed)
    hosts = [dice.randrange(1 << 32) for _ in range(600)]
    return [(hosts[int(600 * dice.random() ** 4)], hosts[int(600 * dice.random() ** 2)], int(dice.paretovariate(1)))
            for _ in range(count)]


# What a picture shows.


class Drawn:
    """An SVG: its labels and shapes."""

    def __init__(self, path):
        self.root = xml.etree.ElementTree.parse(path).getroot()
        self.width, self.height = int(self.root.get("width")), int(self.root.get("height"))
        self.title, self.told = self.root.find(SVG + "title").text, self.root.find(SVG + "desc").text
        self.style = self.root.find(SVG + "style").text
        self.texts = [(float(it.get("x")), float(it.get("y")), it.get("text-anchor"), self.words_of(it), it)
                      for it in self.root.iter(SVG + "text")]

    @staticmethod
    def words_of(text):
        raised = text.find(SVG + "tspan")
        return (text.text or "") + ("" if raised is None else "^" + raised.text.replace("\u2212", "-"))

    def all_words(self):
        return [it[3] for it in self.texts]

    def labels(self, is_across):
        """The labels of an axis, with their places: of the lower one those that have the middle at a tick and a number,
        of the left one those that end there."""
        if is_across:
            found = [(x, words) for x, y, anchor, words, it in self.texts if anchor == "middle" and is_number(words)]
        else:
            found = [(y - 5, words) for x, y, anchor, words, it in self.texts if anchor == "end" and is_number(words)]
        return [(place, number_of(words)) for place, words in found]

    def paths(self, role):
        return [it.get("d") for it in self.root.iter(SVG + "path") if it.get("class") == f"s-{role}"]

    def dots(self, role):
        """The places of the small dots of a role, without that of the legend, which is drawn last."""
        found = [path for path in self.paths(role) if "h0" in path]
        return [tuple(map(float, it)) for it in re.findall(r"M([\d.]+) ([\d.]+)h0", found[0])]

    def marks(self, is_disc):
        """The places of the marks, and what they say, without that of the legend."""
        found = []
        for it in self.root.iter(SVG + ("circle" if is_disc else "polygon")):
            if is_disc:
                place = float(it.get("cx")), float(it.get("cy"))
            else:
                corners = [tuple(map(float, pair.split(","))) for pair in it.get("points").split()]
                place = sum(x for x, _ in corners) / 4, sum(y for _, y in corners) / 4
            found.append((place, it.find(SVG + "title").text))
        return found[:-1]

    def images(self, kind):
        return [it for it in self.root.iter(SVG + "image") if it.get("class") == kind]


def is_number(words):
    return bool(re.fullmatch(r"[\d.]+(\^-?\d+|e\d+)?", words))


def number_of(words):
    """The number of a label: 100, 10^-3, 1.5e9 or an address."""
    if words.count(".") == 3:
        return int(ipaddress.ip_address(words))
    if "^" in words:
        return 10.0 ** int(words.split("^")[1])
    front, _, power = words.partition("e")
    whole, _, rest = front.partition(".")
    return int(whole + rest.ljust(int(power or "0"), "0"))


def logarithmic(labels):
    """What an axis says: from a place to a number, and back. Its labels must lie as their logarithms."""
    (place, number), (other, last) = labels[0], labels[-1]
    slope = (math.log10(last) - math.log10(number)) / (other - place)
    away = [abs(math.log10(it) - math.log10(number) - slope * (at - place)) for at, it in labels]
    check("a logarithmic axis", max(away) < 1e-3, True)
    return (lambda at: 10 ** (math.log10(number) + slope * (at - place)),
            lambda value: place + (math.log10(value) - math.log10(number)) / slope)


def pixels_of(content):
    """A PNG's width, height, rows of bytes, and palette."""
    assert content[:8] == b"\x89PNG\r\n\x1a\n"
    parts, at = collections.defaultdict(bytes), 8
    while at < len(content):
        length, kind = struct.unpack(">I4s", content[at:at + 8])
        body = content[at + 8:at + 8 + length]
        check("a PNG's checksum", struct.unpack(">I", content[at + 8 + length:at + 12 + length])[0],
              zlib.crc32(kind + body))
        parts[kind] += body
        at += 12 + length
    width, height, depth, kind, *_ = struct.unpack(">IIBBBBB", parts[b"IHDR"])
    length = width * (3 if kind == 2 else 1) + 1
    raw = zlib.decompress(parts[b"IDAT"])
    check("a PNG's lengths", (depth, len(raw), raw[::length].strip(b"\0")), (8, length * height, b""))
    return width, height, [raw[k * length + 1:(k + 1) * length] for k in range(height)], parts[b"PLTE"]


def contrast(one, other):
    """The contrast of two colours, by the formula of WCAG 2."""
    lights = []
    for colour in (one, other):
        parts = [part / 255 for part in colour]
        linear = [part / 12.92 if part <= 0.04045 else ((part + 0.055) / 1.055) ** 2.4 for part in parts]
        lights.append(0.2126 * linear[0] + 0.7152 * linear[1] + 0.0722 * linear[2] + 0.05)
    return max(lights) / min(lights)


def colours_of(style, is_dark):
    """The colours of an SVG's classes, on a light ground or on a dark one."""
    light, _, dark = style.partition("@media (prefers-color-scheme:dark){")
    found = re.findall(r"\.f-(\w+)\{fill:#(\w{6})\}", dark if is_dark else light)
    return {role: tuple(bytes.fromhex(colour)) for role, colour in found}


# Degrees.


def bin_of(degree):
    """The last degree of the bin: the power of two that isn't less."""
    last = 1
    while last < degree:
        last *= 2
    return last


def series_is_right(name, drawn, text, axis, by):
    """The marks of rows (discs) or columns (diamonds) are the bins, and the dots the degrees."""
    degrees, role = text.degrees(axis, by), ("first", "second")[axis]
    count, what = sum(degrees.values()), "total" if by == "total" else "degree"
    bins = collections.Counter()
    for degree, rows in degrees.items():
        if degree:
            bins[bin_of(degree)] += rows
    to_degree, at_degree = logarithmic(drawn.labels(True))
    to_share, at_share = logarithmic(drawn.labels(False))
    marks = drawn.marks(axis == 0)
    got = [(round(to_degree(x) / last, 2), round(to_share(y) * count / rows, 2)) for ((x, y), _), (last, rows)
           in zip(marks, sorted(bins.items()))]
    check(f"{name}: marks", (len(marks), got), (len(bins), [(1.0, 1.0)] * len(bins)))
    words = []
    for last, rows in sorted(bins.items()):
        span = f"{last:,}" if last <= 2 else f"{last // 2 + 1:,} to {last:,}"
        words.append(f"{what} {span}: {rows:,} of {count:,} {('rows', 'columns')[axis]}")
    check(f"{name}: words", [told for _, told in marks], words)
    check(f"{name}: the description", [it for it in words if it not in drawn.told], [])
    wanted = [(at_degree(degree), at_share(rows / count)) for degree, rows in degrees.items() if degree]
    dots = drawn.dots(role)
    near = {(round(5 * x), round(5 * y)) for x, y in dots}
    lost = [place for place in wanted if not any(
        (round(5 * place[0]) + a, round(5 * place[1]) + b) in near for a in (-1, 0, 1) for b in (-1, 0, 1))]
    check(f"{name}: dots", (lost[:5], len(dots) <= len(wanted)), ([], True))
    rest = {(round(x * 2), round(y * 2)) for x, y in wanted}
    strange = [place for place in dots if not any(
        (round(2 * place[0]) + a, round(2 * place[1]) + b) in rest for a in (-1, 0, 1) for b in (-1, 0, 1))]
    check(f"{name}: no other dots", strange[:5], [])


def degrees_are_right(name, text, by="entries"):
    svg = path_of(f"{name}.svg")
    check(f"{name}: plot", hhmc("--from", text.path, "plot", "degrees", svg, "--by", by), (text.told(), "", 0))
    drawn = Drawn(svg)
    for axis in (0, 1):
        series_is_right(f"{name} by {by}, axis {axis}", drawn, text, axis, by)
    for axis, what in ((0, "rows"), (1, "columns")):
        degrees = text.degrees(axis, by)
        told = f"{what}: {sum(degrees.values()):,}, the highest {by.replace('entries', 'degree')} {max(degrees):,}"
        told += f", {degrees[0]:,} with total 0 (not drawn)" if degrees[0] else ""
        check(f"{name} by {by}: the legend of {what}", told in drawn.all_words(), True)
    return drawn


def marks_are_in_the_png(text):
    """Each mark of the SVG has its colour in the PNG, three pixels for a unit, on both grounds."""
    drawn = degrees_are_right("flows again", text)
    columns = [place for place, _ in drawn.marks(False)]
    rows = [place for place, _ in drawn.marks(True)
            if all(math.hypot(place[0] - x, place[1] - y) > 14 for x, y in columns)]
    check("rows that stand by themselves", len(rows) > 2, True)
    for is_dark in (False, True):
        png = path_of(f"degrees-{is_dark}.png")
        words = ["--from", text.path, "plot", "degrees", png, *(["--dark"] if is_dark else [])]
        check("plot as PNG", hhmc(*words), (text.told(), "", 0))
        with open(png, "rb") as file:
            width, height, lines, _ = pixels_of(file.read())
        colours = colours_of(drawn.style, is_dark)
        check("the size of the PNG", (width, height), (3 * drawn.width, 3 * drawn.height))

        def at(x, y):
            return tuple(lines[round(3 * y)][3 * round(3 * x):3 * round(3 * x) + 3])

        check("the ground", (at(1, 1), at(drawn.width - 2, drawn.height - 2)), (colours["ground"],) * 2)
        check("rows in the PNG", {at(*place) for place in rows}, {colours["first"]})
        check("columns in the PNG", {at(*place) for place in columns}, {colours["second"]})


def colours_can_be_told(drawn, spy):
    """Words have a contrast of 4.5 to their ground, and all else 3, on both grounds."""
    for is_dark in (False, True):
        colours = colours_of(drawn.style, is_dark)
        check(f"words, dark {is_dark}", contrast(colours["ink"], colours["ground"]) >= 7, True)
        for role in ("first", "second"):
            check(f"{role}, dark {is_dark}", contrast(colours[role], colours["ground"]) >= 4.5, True)
        palette = palette_of(spy.images("night" if is_dark else "day")[0])
        check(f"the ground of a grid, dark {is_dark}", palette[0], colours["ground"])
        check(f"a scale, dark {is_dark}", min(contrast(it, palette[0]) for it in palette[1:]) >= 3, True)


# Where cells are.


def image_of(image):
    return pixels_of(base64.b64decode(image.get("href").split(",")[1]))


def palette_of(image):
    palette = image_of(image)[3]
    return [tuple(palette[k:k + 3]) for k in range(0, len(palette), 3)]


def fields_wanted(text, spans, by):
    """The levels of the fields that have a cell, worked out cell by cell."""
    found, counts = collections.Counter(), [min(256, last - first + 1) for first, last in spans]
    for place, count in text.counts.items():
        if all(first <= it <= last for it, (first, last) in zip(place, spans)):
            field = tuple((it - first) * n // (last - first + 1) for it, (first, last), n in zip(place, spans, counts))
            found[field] += count if by == "total" else 1
    most = max(found.values(), default=0)
    levels = {}
    for field, value in found.items():
        levels[field] = 255 if most <= 1 else 1 + round(254 * math.log(max(value, 1)) / math.log(most))
    return counts, levels, most


def axes_tell_places(name, drawn, spans):
    """Each label of an axis stands at its row or column, and all of them are within the span."""
    image = drawn.images("day")[0]
    for axis, (begin, length) in enumerate([("y", "height"), ("x", "width")]):
        first, last = spans[axis]
        start, size = float(image.get(begin)), float(image.get(length))
        labels = drawn.labels(axis == 1)
        told = [number for _, number in labels]
        check(f"{name}: labels of axis {axis}", (bool(told), all(first <= it <= last for it in told)), (True, True))
        away = [abs(place - start - size * (number - first + 0.5) / (last - first + 1)) for place, number in labels]
        check(f"{name}: places of axis {axis}", max(away) < 0.02, True)


def spy_is_right(name, text, spans, *words, by="entries"):
    """The fields of the SVG and of the PNG, on both grounds, and the axes."""
    svg, png = path_of(f"{name}.svg"), path_of(f"{name}.png")
    for out in (svg, png):
        given = ["--from", text.path, "plot", "spy", out, "--by", by, *words]
        check(f"{name}: plot", hhmc(*given), (text.told(), "", 0))
    drawn, (counts, levels, most) = Drawn(svg), fields_wanted(text, spans, by)
    for kind in ("day", "night"):
        width, height, lines, _ = image_of(drawn.images(kind)[0])
        got = {(y, x): level for y, line in enumerate(lines) for x, level in enumerate(line) if level}
        differ = [(it, got.get(it), levels.get(it)) for it in sorted({*got, *levels}) if got.get(it) != levels.get(it)]
        check(f"{name}: fields, {kind}", ([height, width], differ[:5]), (counts, []))
    axes_tell_places(name, drawn, spans)
    for what, (first, last) in zip(("rows", "columns"), spans):
        spelled = (lambda it: str(ipaddress.ip_address(it))) if "--ip" in words else (lambda it: f"{it:,}")
        check(f"{name}: {what}", f"{what} {spelled(first)} to {spelled(last)}" in drawn.all_words(), True)
    check(f"{name}: the highest", f"field: {most:,}." in drawn.told, True)
    fields_are_in_the_png(name, drawn, png, counts, levels)
    return drawn


def fields_are_in_the_png(name, drawn, png, counts, levels):
    """The middle of each field has the colour of its level."""
    image, palette = drawn.images("day")[0], palette_of(drawn.images("day")[0])
    left, top, wide, high = (float(image.get(it)) for it in ("x", "y", "width", "height"))
    with open(png, "rb") as file:
        _, _, lines, _ = pixels_of(file.read())
    wrong = []
    for row in range(counts[0]):
        line = lines[int(3 * (top + high * (row + 0.5) / counts[0]))]
        for col in range(counts[1]):
            at = 3 * int(3 * (left + wide * (col + 0.5) / counts[1]))
            if tuple(line[at:at + 3]) != palette[levels.get((row, col), 0)]:
                wrong.append((row, col))
    check(f"{name}: fields of the PNG", wrong[:5], [])


def where_cells_are(packets, many):
    """Fields of a cell each and of many rows and columns, whole, zoomed, by addresses, and of a single cell."""
    spy_is_right("packets", packets, [(0, 4), (0, 4)])
    spy_is_right("packets by total", packets, [(0, 4), (0, 4)], by="total")
    ends = [(min(place[axis] for place in many.counts), max(place[axis] for place in many.counts)) for axis in (0, 1)]
    spy_is_right("flows", many, ends)
    drawn = spy_is_right("flows by total", many, [(0, (1 << 32) - 1)] * 2, "--whole", "--ip", by="total")
    check("what a field is", ["16,777,216 rows by" in drawn.all_words(), "16,777,216 columns" in drawn.all_words()],
          [True, True])
    inside = [place for place in many.counts if place[0] < 1 << 31]
    spans = [(0, (1 << 31) - 1), (min(place[1] for place in inside), max(place[1] for place in inside))]
    spy_is_right("some rows", many, spans, "--rows", "0.0.0.0-127.255.255.255")
    block = [(1000, 3 << 30), (5, 1 << 31)]
    spy_is_right("a block", many, block, "--rows", f"1000-{3 << 30}", "--cols", f"5-{1 << 31}")
    spy_is_right("nothing there", packets, [(2, 2), (0, 4)], "--rows", "2-2", "--cols", "0-4")
    far = Text("far", FULL, FULL, [(FULL - 1, FULL - 1, (1 << 64) - 1)])
    spy_is_right("the last cell", far, [(FULL - 1, FULL - 1)] * 2, by="total")
    corners = [(0, 0, 1), (FULL - 1, 0, 2), (0, FULL - 1, 0), (FULL - 1, FULL - 1, 1 << 40)]
    spy_is_right("corners", Text("corners", FULL, FULL, corners), [(0, FULL - 1)] * 2, by="total")
    return drawn


def degrees_are_drawn(packets, many):
    degrees_are_right("packets", packets)
    degrees_are_right("packets", packets, "total")
    degrees_are_right("flows", many)
    degrees_are_right("flows", many, "total")
    star = Text("star", 9, 2000, [(3, col, 1) for col in range(2000)] + [(4, col, 0) for col in range(1000, 1005)])
    degrees_are_right("star", star)
    degrees_are_right("star", star, "total")
    most = Text("most", FULL, FULL, [(0, 0, (1 << 64) - 1), (5, 5, 0)])
    degrees_are_right("most", most, "total")
    marks_are_in_the_png(many)


def nothing_can_be_drawn():
    """A sum without a cell, or without a count, is a page that says so."""
    none, zero = Text("none", 5, 5, []), Text("zero", 5, 5, [(1, 1, 0)])
    for text, by, why in [(none, "entries", "no row has a cell."), (zero, "total", "no row has a total.")]:
        for form in ("svg", "png"):
            output = hhmc("--from", text.path, "plot", "degrees", path_of(f"nothing.{form}"), "--by", by)
            check(f"nothing by {by}", output, (text.told(), "", 0))
        drawn = Drawn(path_of("nothing.svg"))
        check(f"nothing by {by}: told", f"There is nothing to draw: {why}" in drawn.all_words(), True)
    check("no cell", hhmc("--from", none.path, "plot", "spy", path_of("none.svg")), (none.told(), "", 0))
    lines = image_of(Drawn(path_of("none.svg")).images("day")[0])[2]
    check("no field", b"".join(lines), bytes(25))


# From where, and faults.


def servers_and_snapshots_are_drawn(many):
    """A server, over both sockets, its snapshot and standard input give the picture of the text."""
    snap, wanted = path_of("flows.snap"), path_of("wanted.svg")
    check("of a text", hhmc("--from", many.path, "plot", "spy", wanted)[2], 0)
    pictures = {}
    with Server(["--rows", str(1 << 32), "--cols", str(1 << 32), "--snapshot", snap]) as at:
        with at.client(1) as hhm:
            hhm.put(1, [(row, col, count) for (row, col), count in many.counts.items()])
            hhm.save()
        for name, place in [("unix", ["--unix", at.path]), ("tcp", ["--tcp", at.tcp]), ("from", ["--from", snap])]:
            pictures[name] = path_of(f"{name}.svg")
            check(f"of {name}", hhmc(*place, "plot", "spy", pictures[name]), (many.told(), "", 0))
    pictures["input"] = path_of("input.svg")
    with open(many.path, "rb") as text:
        check("of input", hhmc("--from", "-", "plot", "spy", pictures["input"], stdin=text), (many.told(), "", 0))
    for name, path in pictures.items():
        with open(path) as got, open(wanted) as file:
            check(f"the picture of {name}", got.read() == file.read(), True)


def a_long_sum_is_read_by_ranges():
    """A sum whose text no reply carries is refused as such, with the way out, and drawn by ranges of its cells."""
    with Server(["--rows", str(FULL), "--cols", str(FULL)], tcp=False) as at:
        with at.client(1) as hhm:
            for number in range(2):
                numbers = array.array("Q", range(FULL - (number + 1) * 900_000, FULL - number * 900_000))
                hhm.put(number, Arrays(numbers, numbers, array.array("Q", bytes(8 * len(numbers)))))
        out = path_of("long.svg")
        told = "refused: ReplyTooLarge: the text has more than 64 MiB: save, and take the snapshot (`hhm export`, " \
            "`hhmc --from`)\n"
        check("a long sum", hhmc("--unix", at.path, "export"), ("", told, 1))
        line = "cells 1800000 rows 1800000 cols 1800000 total 0\n"
        check("a long sum is drawn", hhmc("--unix", at.path, "plot", "spy", out), (line, "", 0))
        check("its picture", Drawn(out).title, "Occupied cells: 1,800,000 in 256 fields")


def faults_are_told(packets):
    """Words that are wrong, files that aren't there or aren't read, and a picture that can't be written."""
    broken, out = path_of("broken.snap"), path_of("fault.svg")
    with open(broken, "wb") as file:
        file.write(b"no snapshot")
    file = ["--from", packets.path, "plot"]
    table = [
        ([*file, "spy", "out.gif"], 2, "ends neither with .svg nor with .png"),
        ([*file, "pie", out], 2, "invalid choice"),
        ([*file, "spy", out, "--rows", "3-1"], 2, "3-1: the first is after the last"),
        ([*file, "spy", out, "--rows", "x-1"], 2, "'x-1' isn't a number, A-B, an address"),
        ([*file, "spy", out, "--cols", "0-5"], 2, "--cols 0-5: the last is 4"),
        ([*file, "degrees", out, "--whole"], 2, "are for the picture spy"),
        (["--from", packets.path, "cell", "0", "0"], 2, "--from is for plot"),
        (["plot", "spy", out], 2, "one of the arguments --tcp --unix --from is required"),
        (["--from", packets.path, "--unix", out, "plot", "spy", out], 2, "not allowed with argument"),
        ([*file, "spy", out, "--program", "/nowhere/hhm"], 4, "there is no program /nowhere/hhm"),
        (["--from", broken, "plot", "spy", out], 3, f"{broken}: hhm: snapshot: "),
        (["--from", "/nowhere/a.snap", "plot", "spy", out], 4, "/nowhere/a.snap: No such file or directory"),
        ([*file, "spy", "/nowhere/a.svg"], 4, "/nowhere/a.svg: No such file or directory"),
        (["--unix", "/nowhere/socket", "plot", "spy", out], 4, "/nowhere/socket: No such file or directory"),
    ]
    for words, status, why in table:
        output, error, ended = hhmc(*words)
        check(f"{words[2:]}: told", (output, ended, why in error), ("", status, True))
    check("no picture is left", os.path.exists(out), False)


def all_are_tried():
    os.symlink(server.PROGRAM, path_of("hhm"))
    packets = Text("packets", 5, 5, [(0, 1, 30), (3, 0, 7), (0, 1, 12), (1, 4, 1), (4, 4, 0), (3, 0, 3), (1, 4, 1)])
    many = Text("flows", 1 << 32, 1 << 32, flows(1, 20_000))
    degrees_are_drawn(packets, many)
    spy = where_cells_are(packets, many)
    colours_can_be_told(Drawn(path_of("flows.svg")), spy)
    nothing_can_be_drawn()
    servers_and_snapshots_are_drawn(many)
    a_long_sum_is_read_by_ranges()
    faults_are_told(packets)


if __name__ == "__main__":
    sys.exit(server.run_all(all_are_tried))
