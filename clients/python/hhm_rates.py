"""How much a server accepts over time: `hhmc plot rates OUT`. Python's standard library alone.

    hhmc --unix /run/hhm/hhm.sock plot rates --seconds 120 rates.svg

The server is looked at once a second, and each look is drawn: batches a second above, and how much the total of
all counts rises in a second below. What several clients put meanwhile is drawn together.
"""
import argparse
import math
import time
from typing import List, NamedTuple, Sequence, Tuple

from hhm_client import Client
from hhm_figures import Moment, Watched
from hhm_sheet import Line, Page, Shape, Words

WIDTH, LEFT, RIGHT = 760, 96.0, 736.0


class Rates(NamedTuple):
    """The seconds since the first look, and what was accepted in a second up to each."""

    at: List[float]
    values: List[float]

    def told(self) -> str:
        mean = sum(self.values) / len(self.values)
        return f"mean {mean:,.1f}, least {min(self.values):,.1f}, most {max(self.values):,.1f} a second"


def rates_of(moments: Sequence[Moment], numbers: Sequence[int]) -> Rates:
    """The rates between each two looks, of a number that only rises while a server lives."""
    found = Rates([], [])
    for before, now, was, has in zip(moments, moments[1:], numbers, numbers[1:]):
        found.at.append(now.at - moments[0].at)
        found.values.append(max(0, has - was) / max(now.at - before.at, 1e-9))
    return found


def round_above(value: float) -> float:
    """The least of 1, 2, 2.5 and 5 times a power of ten that isn't below a number."""
    power = 10.0 ** math.floor(math.log10(value)) if value > 0 else 1.0
    return next((it * power for it in (1, 2, 2.5, 5) if it * power >= value), 10 * power) if value > 0 else 1.0


def number_told(value: float) -> str:
    return f"{value:,.0f}" if value >= 10 or value == int(value) else f"{value:g}"


def panel(name: str, rates: Rates, seconds: float, top: float, bottom: float, role: str) -> List[Shape]:
    """A line of rates over the time, with its axes."""
    most = round_above(max(rates.values))

    def place(at: float, value: float) -> Tuple[float, float]:
        return LEFT + (RIGHT - LEFT) * at / seconds, bottom - (bottom - top) * value / most

    shapes: List[Shape] = [Words((LEFT, top - 12), f"{name}: {rates.told()}")]
    for part in range(5):
        level = place(0, most * part / 4)[1]
        shapes += [Line([(LEFT, level), (RIGHT, level)], "faint" if part else "ink"),
                   Words((LEFT - 8, level + 5), number_told(most * part / 4), "end")]
    for part in range(5):
        x = LEFT + (RIGHT - LEFT) * part / 4
        shapes += [Line([(x, bottom), (x, bottom + 5)], "ink"),
                   Words((x, bottom + 21), f"{round(seconds * part / 4, 1):g} s", "middle")]
    return [*shapes, Line([place(at, value) for at, value in zip(rates.at, rates.values)], role, 1.8)]


def rates_page(moments: Sequence[Moment], place: str) -> Page:
    """The rates of batches and of the total."""
    batches = rates_of(moments, [it.batches() for it in moments])
    totals = rates_of(moments, [it.total() for it in moments])
    seconds = batches.at[-1]
    title = f"Accepted in {seconds:,.0f} seconds: {moments[-1].batches() - moments[0].batches():,} batches, " \
            f"total {moments[-1].total() - moments[0].total():,}"
    shapes = [Words((24, 30), title, is_strong=True), *panel("batches", batches, seconds, 84, 254, "first"),
              *panel("total", totals, seconds, 330, 500, "second")]
    told = f"{title}, by {place}; batches: {batches.told()}; total: {totals.told()}"
    return Page(WIDTH, 540, title, told, shapes)


def looked_at(hhm: Client, given: argparse.Namespace) -> Tuple[List[Moment], str]:
    """What the server told, once a second, for so long as is asked for; two looks at least."""
    seen = Watched(hhm)
    begin, moments = time.monotonic(), []
    while len(moments) < 2 or time.monotonic() - begin < given.seconds:
        pause = begin + len(moments) * min(1.0, given.seconds) - time.monotonic()
        time.sleep(max(0.0, pause))
        moments.append(seen.look().without_labels())
    return moments, seen.place
