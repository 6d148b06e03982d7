"""Pictures of a sum: how its degrees are distributed, and where its cells are; and of what a server accepts over time
(hhm_rates.py). Python's standard library alone.

This is the word `plot` of `hhm_client.py`:

    hhmc --unix /run/hhm/hhm.sock plot degrees degrees.svg     # a server
    hhmc --from packets.snap plot spy packets.png              # a snapshot of whatever size, or a Matrix Market text

`degrees` draws on logarithmic axes which share of the rows, and of the columns, has how many cells (`--by total`: which
total): a small dot for each degree d, and for each power of two, d = 2^i, a large mark with the share of those with
more than d / 2 and at most d. `spy` draws the occupied cells as at most 256 by 256 fields, coloured by how many cells
(or which total) each has, on a logarithmic scale.
"""
import argparse
import math
from collections import Counter
from typing import Callable, Dict, Iterable, List, NamedTuple, Optional, Sequence, Tuple

from hhm_cells import NoSum, Source, Sum, sum_of
from hhm_client import Arrays, Client, Ended
from hhm_figures import Moment
from hhm_rates import looked_at, rates_page
from hhm_sheet import Dots, Grid, Line, Marks, Page, Place, Shape, Words, width_of, write
from hhm_words import Words as Meanings
from hhm_words import add_options

ENTRIES, TOTAL = "entries", "total"
# The fields of a spy plot on each axis, and the width of one in units where there are so many.
FIELDS, FIELD = 256, 2
# The height of the bar that tells the colours.
BAR = 220.0


# What is drawn.


def degrees_of(numbers: Sequence[int], counts: Sequence[int], by: str) -> Dict[int, int]:
    """How many rows (or columns) have each degree, given the row (or column) of each cell, and its count."""
    if by == ENTRIES:
        return Counter(Counter(numbers).values())
    totals: Dict[int, int] = {}
    for number, count in zip(numbers, counts):
        totals[number] = totals.get(number, 0) + count
    return Counter(totals.values())


class Bin(NamedTuple):
    """The degrees from the first to the last, a power of two, and how many rows have one of these."""

    first: int
    last: int
    rows: int


def bins_of(degrees: Dict[int, int]) -> List[Bin]:
    """The bins that have a row: 1, 2, 3 to 4, 5 to 8, and so on. A degree of 0 is in none."""
    found: Dict[int, int] = {}
    for degree, rows in degrees.items():
        if degree:
            power = (degree - 1).bit_length()
            found[power] = found.get(power, 0) + rows
    return [Bin((1 << power >> 1) + 1, 1 << power, found[power]) for power in sorted(found)]


class Span(NamedTuple):
    """Rows, or columns, from the first to the last, in fields."""

    first: int
    last: int

    def size(self) -> int:
        return self.last - self.first + 1

    def fields(self) -> int:
        return min(FIELDS, self.size())

    def field_of(self, number: int) -> int:
        return (number - self.first) * self.fields() // self.size()


def fields_of(cells: Arrays, rows: Span, cols: Span, by: str) -> Dict[Tuple[int, int], int]:
    """How many cells each field has, or their total: by the field's row and column. A field without a cell has none."""
    places = ((rows.field_of(row), cols.field_of(col)) for row, col in zip(cells.rows, cells.cols))
    if by == ENTRIES:
        return Counter(places)
    totals: Dict[Tuple[int, int], int] = {}
    for place, count in zip(places, cells.counts):
        totals[place] = totals.get(place, 0) + count
    return totals


def level_of(value: int, most: int) -> int:
    """The level of a number, from 1 for one (and nothing) to 255 for the highest, by its logarithm."""
    if most <= 1:
        return 255
    return 1 + round(254 * math.log(value) / math.log(most)) if value > 1 else 1


def within(cells: Arrays, rows: Span, cols: Span) -> Arrays:
    """The cells with row and column in the spans."""
    kept = [cell for cell in zip(*cells) if rows.first <= cell[0] <= rows.last and cols.first <= cell[1] <= cols.last]
    return Arrays(*zip(*kept)) if kept else Arrays((), (), ())


# How it is drawn.


class Axis(NamedTuple):
    """A logarithmic axis from a power of ten to another, between two places of the page."""

    low: int
    high: int
    begin: float
    end: float

    def at(self, value: float) -> float:
        return self.begin + (self.end - self.begin) * (math.log10(value) - self.low) / (self.high - self.low)

    def labelled(self) -> Iterable[int]:
        """The powers of ten that are told."""
        return range(self.low, self.high + 1, -(-(self.high - self.low) // 10))

    def ticks(self) -> Iterable[float]:
        """The numbers between the powers that get a short line, where these aren't too many."""
        if self.high - self.low > 8:
            return []
        return (digit * 10.0**power for power in range(self.low, self.high) for digit in range(2, 10))


def box_of(left: float, top: float, right: float, bottom: float) -> Line:
    return Line([(left, top), (right, top), (right, bottom), (left, bottom), (left, top)], "ink")


def power_of(exponent: int) -> str:
    return str(10**exponent) if 0 <= exponent <= 2 else f"10^{exponent}"


def axes_of(across: Axis, up: Axis) -> List[Shape]:
    """The box with its grid and its numbers."""
    shapes: List[Shape] = []
    for power in across.labelled():
        x = across.at(10.0**power)
        shapes += [Line([(x, up.begin), (x, up.end)], "faint"), Words((x, up.begin + 20), power_of(power), "middle")]
    for power in up.labelled():
        y = up.at(10.0**power)
        shapes += [Line([(across.begin, y), (across.end, y)], "faint"),
                   Words((across.begin - 8, y + 5), power_of(power), "end")]
    for value in across.ticks():
        shapes.append(Line([(across.at(value), up.begin), (across.at(value), up.begin - 3)], "ink"))
    for value in up.ticks():
        shapes.append(Line([(across.begin, up.at(value)), (across.begin + 3, up.at(value))], "ink"))
    return [*shapes, box_of(across.begin, up.end, across.end, up.begin)]


class Series(NamedTuple):
    """The rows, or the columns: how many have each degree."""

    name: str
    role: str
    degrees: Dict[int, int]

    def count(self) -> int:
        return sum(self.degrees.values())

    def most(self) -> int:
        return max(self.degrees)

    def words_of(self, part: Bin, by: str) -> str:
        span = f"{part.first:,}" if part.first == part.last else f"{part.first:,} to {part.last:,}"
        what = "total" if by == TOTAL else "degree"
        return f"{what} {span}: {part.rows:,} of {self.count():,} {self.name}"

    def told(self, by: str) -> str:
        nothing = f", {self.degrees[0]:,} with total 0 (not drawn)" if self.degrees.get(0) else ""
        what = "total" if by == TOTAL else "degree"
        return f"{self.name}: {self.count():,}, the highest {what} {self.most():,}{nothing}"

    def shapes(self, across: Axis, up: Axis, by: str) -> List[Shape]:
        """A dot for each degree, those that would cover each other as one, and a mark for each bin."""
        dots = {(round(across.at(degree), 1), round(up.at(rows / self.count()), 1))
                for degree, rows in self.degrees.items() if degree}
        bins = bins_of(self.degrees)
        marks = [(across.at(part.last), up.at(part.rows / self.count())) for part in bins]
        told = [self.words_of(part, by) for part in bins]
        return [Dots(sorted(dots), self.role), Line(marks, self.role, 1.5),
                Marks(marks, self.role, self.name == "rows", told)]


def empty_page(title: str, words: str) -> Page:
    """The page of a sum in which nothing can be drawn."""
    return Page(760, 120, title, words, [Words((24, 32), title, is_strong=True), Words((24, 68), words)])


def legend_of(series: Sequence[Series], left: float, top: float, by: str) -> List[Shape]:
    """What the marks and dots are."""
    notes = [it.told(by) for it in series] + ["small dots: exactly d", "marks: more than d / 2, and at most d"]
    shapes: List[Shape] = [Words((left + 20, top + 20 * line), words) for line, words in enumerate(notes)]
    for line, it in enumerate(series):
        shapes.append(Marks([(left + 6, top + 20 * line - 4)], it.role, it.name == "rows", [it.name]))
        shapes.append(Dots([(left + 3 + 6 * line, top + 36)], it.role))
    return shapes


def degrees_page(total: Sum, by: str) -> Page:
    """The distribution of the degrees of rows and columns."""
    cells, what = total.cells, "Totals" if by == TOTAL else "Degrees"
    series = [Series("rows", "first", degrees_of(cells.rows, cells.counts, by)),
              Series("columns", "second", degrees_of(cells.cols, cells.counts, by))]
    title = f"{what} of rows and columns: {len(cells.counts):,} cells"
    if not any(degree for it in series for degree in it.degrees):
        return empty_page(title, "There is nothing to draw: no row has " + ("a total." if by == TOTAL else "a cell."))
    highest = max(part.last for it in series for part in bins_of(it.degrees))
    lowest = min(rows / it.count() for it in series for rows in it.degrees.values())
    across = Axis(0, max(1, math.ceil(math.log10(highest))), 84, 740)
    up = Axis(min(-1, math.floor(math.log10(lowest))), 0, 440, 52)
    unit = "total of a row or column, d" if by == TOTAL else "cells of a row or column, d"
    shapes = [Words((84, 30), title, is_strong=True), *axes_of(across, up),
              Words(((across.begin + across.end) / 2, 484), unit, "middle"),
              Words((24, (up.begin + up.end) / 2), "share of rows, of columns", "middle", is_turned=True)]
    for it in series:
        shapes += it.shapes(across, up, by)
    told = [words for it in series for words in (it.told(by), *(it.words_of(part, by) for part in bins_of(it.degrees)))]
    return Page(760, 600, title, "; ".join(told), [*shapes, *legend_of(series, across.begin, 518, by)])


# Numbers of rows and columns.


def short_of(number: int) -> str:
    """A number by its digits, or by a power of ten where that is shorter and as exact."""
    digits = str(number)
    front = digits.rstrip("0")
    short = f"{front[:1]}.{front[1:]}".rstrip(".") + f"e{len(digits) - 1}"
    return short if len(digits) > 6 and len(short) < len(digits) else digits


def ticks_of(span: Span, most: int, is_binary: bool) -> List[int]:
    """At most so many numbers of a span: multiples of a step that is a power of two, or 1, 2 or 5 times one of ten."""
    power = 0
    while True:
        for step in [1 << power] if is_binary else [digit * 10**power for digit in (1, 2, 5)]:
            first = -(-span.first // step) * step
            if (span.last - first) // step < most:
                return list(range(first, span.last + 1, step)) or [span.first]
        power += 1


class Scale(NamedTuple):
    """The axis of a spy plot: rows or columns, the labels of some, and how a number is told."""

    span: Span
    length: float
    spelled: Callable[[int], str]
    ticks: List[int]

    def at(self, number: int) -> float:
        """Where the middle of a row or column is."""
        return self.length * (number - self.span.first + 0.5) / self.span.size()

    def told(self, name: str) -> str:
        return f"{name} {self.spelled(self.span.first)} to {self.spelled(self.span.last)}"


def spelled_by(meanings: Meanings) -> Callable[[int], str]:
    """How a number is shown: by its address or name, or by its digits with commas."""

    def spelled(number: int) -> str:
        shown = meanings.shown(number)
        return shown if isinstance(shown, str) else f"{number:,}"

    return spelled


def label_by(meanings: Meanings) -> Callable[[int], str]:
    """The same, but short."""
    return short_of if meanings.is_bare() else spelled_by(meanings)


def scale_of(span: Span, is_across: bool, meanings: Meanings) -> Scale:
    """As many labels as have room: those of columns are side by side."""
    spelled, label, is_ip = spelled_by(meanings), label_by(meanings), meanings.is_ip
    length = FIELDS * FIELD
    most = 9
    while most > 2 and is_across and most * (16 + max(map(width_of, map(label, ticks_of(span, most, is_ip))))) > length:
        most -= 1
    return Scale(span, length, spelled, ticks_of(span, most, is_ip))


def scale_bar(left: float, top: float, most: int) -> List[Shape]:
    """What the colours are."""
    height, powers = BAR, len(str(most)) - 1
    if most <= 1:
        return [Grid((left, top), 14, 14, [b"\xff"]), Words((left + 22, top + 12), str(most))]
    shapes: List[Shape] = [Grid((left, top), 14, height, [bytes([level]) for level in range(255, 0, -1)])]
    step = -(-(powers + 1) // 8)
    for power in range(0, powers + 1, step):
        y = top + height * (1 - power / math.log10(most))
        shapes += [Line([(left + 14, y), (left + 18, y)], "ink"), Words((left + 22, y + 5), power_of(power))]
    # The highest number too, where it has room above the last power.
    if height * (1 - (powers // step) * step / math.log10(most)) > 17:
        shapes += [Line([(left + 14, top), (left + 18, top)], "ink"), Words((left + 22, top + 5), f"{most:,}")]
    return [*shapes, box_of(left, top, left + 14, top + height)]


def notes_of(rows: Span, cols: Span) -> List[str]:
    """What a field is, where it is more than a cell."""
    sizes = [-(-span.size() // span.fields()) for span in (rows, cols)]
    if sizes == [1, 1]:
        return []
    told = [f"{size:,} {word}{'s' * (size > 1)}" for size, word in zip(sizes, ("row", "column"))]
    return ["a field: at most", f"{told[0]} by", told[1]]


def labels_of(down: Scale, across: Scale, left: float, top: float, label: Callable[[int], str]) -> List[Shape]:
    """The numbers of rows at the left, those of columns below, and what both are."""
    bottom, shapes = top + down.length, []
    for tick in down.ticks:
        y = top + down.at(tick)
        shapes += [Line([(left - 5, y), (left, y)], "ink"), Words((left - 9, y + 5), label(tick), "end")]
    for tick in across.ticks:
        x = left + across.at(tick)
        shapes += [Line([(x, bottom), (x, bottom + 5)], "ink"), Words((x, bottom + 21), label(tick), "middle")]
    return [*shapes, Words((left + across.length / 2, bottom + 46), across.told("columns"), "middle"),
            Words((24, top + down.length / 2), down.told("rows"), "middle", is_turned=True)]


def spy_page(total: Sum, rows: Span, cols: Span, by: str, meanings: Meanings) -> Page:
    """The occupied cells of the rows and columns."""
    cells = total.cells
    fields = fields_of(cells, rows, cols, by)
    most = max(fields.values(), default=0)
    levels = [bytearray(cols.fields()) for _ in range(rows.fields())]
    for (row, col), value in fields.items():
        levels[row][col] = level_of(value, most)
    down, across = scale_of(rows, False, meanings), scale_of(cols, True, meanings)
    label = label_by(meanings)
    left, top, size = 56 + max(map(width_of, map(label, down.ticks))), 52.0, float(FIELDS * FIELD)
    title = f"Occupied cells: {len(cells.counts):,} in {len(fields):,} fields"
    shapes: List[Shape] = [Words((left, 30), title, is_strong=True), Grid((left, top), size, size, levels),
                           box_of(left - 1, top - 1, left + size + 1, top + size + 1)]
    shapes += labels_of(down, across, left, top, label)
    aside, what = left + size + 24, f"{'cells' if by == ENTRIES else 'total'} of a field"
    notes = notes_of(rows, cols)
    if fields:
        shapes += [Words((aside, top + 6), what), *scale_bar(aside, top + 20, most)]
    shapes += [Words((aside, top + BAR + 54 + 20 * line), words) for line, words in enumerate(notes)]
    told = f"{title}, {down.told('rows')}, {across.told('columns')}. The highest {what}: {most:,}."
    right = aside + max(map(width_of, [what, *notes, f"xxx{most:,}"])) + 20
    return Page(math.ceil(right), math.ceil(top + size + 62), title, told, shapes)


# The command line.


def seconds(word: str) -> float:
    """A time of the command line, from a second to a day."""
    value = float(word)
    if not 1 <= value <= 86_400:
        raise argparse.ArgumentTypeError(f"{word} isn't from 1 to 86400")
    return value


def picture_path(word: str) -> str:
    """The path of a picture, which tells its form."""
    if not word.endswith((".svg", ".png")):
        raise argparse.ArgumentTypeError(f"{word!r} ends neither with .svg nor with .png")
    return word


def add_words(plot: argparse.ArgumentParser) -> None:
    """Adds the words of `plot` to those of the command line."""
    what = "the distribution of degrees, where cells are, or what a server accepts in a second"
    plot.add_argument("what", choices=("degrees", "spy", "rates"), help=what)
    plot.add_argument("out", type=picture_path, metavar="OUT.svg|OUT.png", help="the picture, which is written anew")
    by = "by numbers of cells, or by totals of counts (entries)"
    plot.add_argument("--by", choices=(ENTRIES, TOTAL), default=ENTRIES, help=by)
    rows = "spy: these rows, numbers, addresses or a network (from the first to the last with a cell)"
    plot.add_argument("--rows", metavar="A-B", help=rows)
    plot.add_argument("--cols", metavar="A-B", help="spy: these columns")
    plot.add_argument("--whole", action="store_true", help="spy: all rows and columns, where none are given")
    add_options(plot)
    plot.add_argument("--seconds", type=seconds, metavar="N", help="rates: for how long the server is looked at (60)")
    plot.add_argument("--dark", action="store_true", help="on a dark ground (an SVG else follows its viewer)")
    plot.add_argument("--program", metavar="FILE", default="hhm", help="the hhm that reads the file of --from (hhm)")


def spanned(given: Optional[Span], numbers: Sequence[int], size: int, is_whole: bool, name: str) -> Span:
    """What is drawn of rows or columns: what is given, all, or those from the first to the last with a cell."""
    if given is not None:
        if given.last >= size:
            raise Ended(2, f"--{name} {given.first}-{given.last}: the last is {size - 1}")
        return given
    return Span(0, size - 1) if is_whole or not numbers else Span(min(numbers), max(numbers))


def page_of(total: Sum, given: argparse.Namespace) -> Page:
    if given.what == "degrees":
        return degrees_page(total, given.by)
    all_rows, all_cols = Span(0, total.rows - 1), Span(0, total.cols - 1)
    # (a picture shows addresses by --ip alone, whatever words ask for its rows)
    part, meanings, asking = total, Meanings.of(given), Meanings.of(given)
    asked = [Span(*asking.span(word)) if word else None for word in (given.rows, given.cols)]
    if any(asked):
        part = total._replace(cells=within(total.cells, asked[0] or all_rows, asked[1] or all_cols))
    rows = spanned(asked[0], part.cells.rows, total.rows, given.whole, "rows")
    cols = spanned(asked[1], part.cells.cols, total.cols, given.whole, "cols")
    return spy_page(part, rows, cols, given.by, meanings)


def picture(source: Source, what: str = "degrees", by: str = ENTRIES, ip: bool = False, program: str = "hhm") -> Page:
    """The picture `degrees` or `spy` of a server or a file, for a notebook; `hhm_sheet.write` saves it. It raises what
    `hhm_cells.sum_of` raises, and a ValueError for another picture."""
    if what not in ("degrees", "spy") or by not in (ENTRIES, TOTAL):
        raise ValueError(f"{what} by {by}: a picture is degrees or spy, by {ENTRIES} or {TOTAL}")
    total = sum_of(source, program)
    if what == "degrees":
        return degrees_page(total, by)
    rows = spanned(None, total.cells.rows, total.rows, False, "rows")
    cols = spanned(None, total.cells.cols, total.cols, False, "cols")
    return spy_page(total, rows, cols, by, Meanings(ip))


def total_of(hhm: Optional[Client], given: argparse.Namespace) -> Sum:
    """The sum of a server, or of the file that is given. An Ended where it can't be read."""
    try:
        return sum_of(given.source if hhm is None else hhm, given.program)
    except NoSum as fault:
        raise Ended(fault.status, str(fault)) from None
    except FileNotFoundError as fault:
        if fault.filename != given.program:
            raise
        raise Ended(4, f"there is no program {given.program}, which reads files: give --program FILE") from None


def plot_rates(hhm: Optional[Client], given: argparse.Namespace) -> str:
    """Looks at a server for a while, and draws what it accepted."""
    if hhm is None:
        raise Ended(2, "rates are those of a server that runs: give --tcp or --unix")
    given.seconds = given.seconds or 60.0
    moments, place = looked_at(hhm, given)
    write(rates_page(moments, place), given.out, given.dark)
    first, last = moments[0].status, moments[-1].status
    return f"seconds {last_at(moments)} batches {last.batches - first.batches} total {last.total - first.total}\n"


def last_at(moments: Sequence[Moment]) -> int:
    return round(moments[-1].at - moments[0].at)


def plot(hhm: Optional[Client], given: argparse.Namespace) -> str:
    """Does what the word `plot` asks, of a server or of the file that is given, and gives the line that is to be
    printed."""
    if given.what != "spy" and (given.rows or given.cols or given.whole or given.ip or given.names):
        raise Ended(2, "--rows, --cols, --whole and --ip are for the picture spy")
    if given.seconds is not None and given.what != "rates":
        raise Ended(2, "--seconds is for the picture rates")
    if given.what == "rates":
        return plot_rates(hhm, given)
    total = total_of(hhm, given)
    write(page_of(total, given), given.out, given.dark)
    cells = total.cells
    return (f"cells {len(cells.counts)} rows {len(set(cells.rows))} cols {len(set(cells.cols))} "
            f"total {sum(cells.counts)}\n")
