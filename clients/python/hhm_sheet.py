"""Pages with lines, marks, words and grids of colours, as SVG and as PNG. Python's standard library alone.

    page = Page(200, 100, "A line", "It rises.", [Line([(10, 90), (190, 10)], "first", 2)])
    write(page, "line.svg")     # readable on a light and on a dark ground, as the viewer prefers
    write(page, "line.png")     # on a light ground; on a dark one with is_dark=True

Places are in the units of the page, from its upper left corner; a PNG has `SCALE` pixels for each. Behind a `^` in
words stands what is raised, as in 10^-3.
"""
import base64
import math
import struct
import zlib
from html import escape
from typing import Any, Callable, Dict, Iterable, List, NamedTuple, Sequence, Tuple, Union

SCALE = 3
# The size of words in units, and that of what is raised.
SIZE, RAISED = 13, 10

Place = Tuple[float, float]
Colour = Tuple[int, int, int]


class Colours(NamedTuple):
    """The colours of a page by what they are for, and those of the lowest to the highest number of a grid."""

    ground: str
    ink: str
    faint: str
    first: str
    second: str
    scale: Tuple[str, ...]


LIGHT = Colours("#ffffff", "#1b1f24", "#d4d8dd", "#0062ad", "#b8460b", ("#2a9d8f", "#3a5fc0", "#8a1f8f", "#2b0015"))
DARK = Colours("#14171c", "#e6e9ed", "#3a4048", "#6cb6ff", "#ff9d5c", ("#4a7ab0", "#9a68c4", "#f08a6a", "#fff3a6"))


class Line(NamedTuple):
    """A line through places."""

    places: Sequence[Place]
    role: str
    width: float = 1


class Dots(NamedTuple):
    """Small points."""

    places: Sequence[Place]
    role: str


class Marks(NamedTuple):
    """Points to look at, discs or diamonds, and what each says (in SVG, to who points at it)."""

    places: Sequence[Place]
    role: str
    is_disc: bool
    words: Sequence[str]


class Words(NamedTuple):
    """A line of words. They begin at the place, end there, or have it in the middle; turned ones go upwards."""

    place: Place
    words: str
    anchor: str = "start"
    is_turned: bool = False
    is_strong: bool = False


class Grid(NamedTuple):
    """Rows of levels, 0 for nothing and 1 to 255 for colours of the scale, stretched over a box."""

    place: Place
    width: float
    height: float
    levels: Sequence[bytes]


Shape = Union[Line, Dots, Marks, Words, Grid]


class Page(NamedTuple):
    width: int
    height: int
    title: str
    told: str
    shapes: Sequence[Shape]

    def _repr_html_(self) -> str:
        """The picture, for notebooks."""
        return svg(self, False)


REACH, DOT = 4.5, 1.5


def rgb(colour: str) -> Colour:
    return int(colour[1:3], 16), int(colour[3:5], 16), int(colour[5:7], 16)


def scale_of(colours: Colours) -> List[Colour]:
    """The colours of the levels 1 to 255."""
    stops, parts = list(map(rgb, colours.scale)), len(colours.scale) - 1
    found = []
    for level in range(255):
        part, rest = divmod(level * parts, 254)
        low, high = stops[part], stops[min(part + 1, parts)]
        found.append(tuple(round(a + (b - a) * rest / 254) for a, b in zip(low, high)))
    return found


# PNG.


def chunk(kind: bytes, body: bytes) -> bytes:
    return struct.pack(">I", len(body)) + kind + body + struct.pack(">I", zlib.crc32(kind + body))


def png(width: int, height: int, kind: int, rows: Iterable[bytes], *more: bytes) -> bytes:
    """A PNG of rows of pixels, of 8 bits for each colour (kind 2) or each place in a palette (kind 3)."""
    head = chunk(b"IHDR", struct.pack(">IIBBBBB", width, height, 8, kind, 0, 0, 0))
    pixels = zlib.compress(b"".join(b"\0" + bytes(row) for row in rows), 9)
    return b"".join([b"\x89PNG\r\n\x1a\n", head, *more, chunk(b"IDAT", pixels), chunk(b"IEND", b"")])


def png_of_grid(levels: Sequence[bytes], colours: Colours) -> bytes:
    """A grid by itself, a pixel a level, through which the ground is seen where it has nothing."""
    palette = bytes(rgb(colours.ground)) + b"".join(map(bytes, scale_of(colours)))
    return png(len(levels[0]), len(levels), 3, levels, chunk(b"PLTE", palette), chunk(b"tRNS", b"\0"))


# The strokes of each sign: places (column 0 to 4, row 0 to 8; 6 is the line they stand on), parted where the pen is up.
STROKES = {
    "0": "103041453616050110", "1": "112026 1636", "2": "01103041420646", "3": "01103041423323 334445361605",
    "4": "36300444", "5": "400002324345361605", "6": "413010010516364544331304", "7": "004016",
    "8": "13020110304142331304051636454433", "9": "051636454130100102133342",
    "A": "062046 1434", "B": "00063645443303 3342413000", "C": "4130100105163645", "D": "00062644422000",
    "E": "40000646 0333", "F": "400006 0333", "G": "41301001051636454323", "H": "0006 4046 0343", "I": "2026",
    "J": "4045361605", "K": "0006 4004 1346", "L": "000646", "M": "0600234046", "N": "06004640",
    "O": "104051554616050110", "P": "06003041423303", "Q": "104051554616050110 3456", "R": "06003041423303 2346",
    "S": "413010010213334445361605", "T": "0040 2026", "U": "000516364540", "V": "002640", "W": "0016233640",
    "X": "0046 4006", "Y": "002340 2326", "Z": "00400646",
    "a": "12324346 441405163645", "b": "00063645433202", "c": "4332120305163645", "d": "40461605031242",
    "e": "04444332120305163645", "f": "302126 1232", "g": "421203051646 42473818", "h": "0006 0312324346",
    "i": "2020 2226", "j": "3030 32372818", "k": "0006 4205 1446", "l": "2026", "m": "0602 03122326 23324346",
    "n": "0602 0312324346", "o": "123243453616050312", "p": "08023243453606", "q": "48421203051646",
    "r": "0602 031232", "s": "4212031434453606", "t": "202536 1232", "u": "0205163645 4246", "v": "022642",
    "w": "0216233642", "x": "0246 4206", "y": "0226 4218", "z": "02420646",
    ".": "2626", ",": "2617", ":": "2323 2626", "-": "1333", "+": "2125 0343", "=": "0242 0444", "/": "0640",
    "(": "30212536", ")": "10212516", "%": "0640 0101 4545", "<": "410345", ">": "014305", "_": "0747", "'": "2021",
}
UNKNOWN = "0040460600"
# The distance of two columns of a sign, and the width of its strokes, for words of one unit's size.
PITCH, PEN = 0.1, 0.09

Stroke = Tuple[float, float, float, float]


MINUS = "\u2212"


def parts_of(words: str) -> Tuple[str, str]:
    """What stands on the line, and what is raised."""
    base, _, raised = words.partition("^")
    return base, raised


def strokes_of(words: str, size: float, left: float, base: float) -> Tuple[List[Stroke], float]:
    """The strokes of words that begin at a place, and where they end."""
    pitch, strokes = size * PITCH, []
    for sign in words:
        if sign == " ":
            left += 2.8 * pitch
            continue
        lines = STROKES.get(sign, UNKNOWN).split()
        first = min(int(x) for line in lines for x in line[::2])
        last = max(int(x) for line in lines for x in line[::2])
        for line in lines:
            places = [(left + (int(x) - first) * pitch, base + (int(y) - 6) * pitch * 1.15)
                      for x, y in zip(line[::2], line[1::2])]
            strokes += [(*one, *other) for one, other in zip(places, places[1:])]
        left += (last - first + 2.2) * pitch
    return strokes, left


def strokes_of_words(words: str) -> Tuple[List[Stroke], float]:
    """The strokes of words with what is raised, from 0 on, and their width."""
    base, raised = parts_of(words)
    strokes, end = strokes_of(base, SIZE, 0, 0)
    more, end = strokes_of(raised, RAISED, end, -0.4 * SIZE)
    return strokes + more, end


def width_of(words: str) -> float:
    """How wide words are at most, in either of the forms."""
    return max(strokes_of_words(words)[1], 0.6 * SIZE * len(words))


class Raster:
    """The pixels of a page on which is drawn."""

    def __init__(self, width: int, height: int, ground: Colour):
        self.width, self.height = width, height
        self.rows = [bytearray(bytes(ground) * width) for _ in range(height)]

    def paint(self, shares: Dict[Tuple[int, int], float], colour: Colour) -> None:
        """Gives each pixel a share of a colour."""
        for (x, y), share in shares.items():
            if 0 <= x < self.width and 0 <= y < self.height:
                row = self.rows[y]
                for at, value in enumerate(colour, 3 * x):
                    row[at] += round(share * (value - row[at]))

    def fill(self, left: int, top: int, right: int, bottom: int, colour: Colour) -> None:
        for row in self.rows[top:bottom]:
            row[3 * left:3 * right] = bytes(colour) * (right - left)


def covered(shares: Dict[Tuple[int, int], float], box: Sequence[float], reach: float,
            distance: Callable[[float, float], float]) -> None:
    """Notes the share of each pixel of a box that is nearer than a reach."""
    left, top, right, bottom = (math.floor(box[0] - reach), math.floor(box[1] - reach), math.ceil(box[2] + reach),
                                math.ceil(box[3] + reach))
    for y in range(top, bottom + 1):
        for x in range(left, right + 1):
            share = min(1.0, reach + 0.5 - distance(x + 0.5, y + 0.5))
            if share > shares.get((x, y), 0.0):
                shares[x, y] = share


def add_stroke(shares: Dict[Tuple[int, int], float], stroke: Stroke, reach: float) -> None:
    """Notes the pixels of a stroke, in pieces, of which each has a small box."""
    x1, y1, x2, y2 = stroke
    pieces = 1 if x1 == x2 or y1 == y2 else max(1, int(math.hypot(x2 - x1, y2 - y1) / 12))
    dx, dy = (x2 - x1) / pieces, (y2 - y1) / pieces
    square = dx * dx + dy * dy
    for piece in range(pieces):
        x, y = x1 + piece * dx, y1 + piece * dy

        def distance(at: float, level: float) -> float:
            along = ((at - x) * dx + (level - y) * dy) / square if square else 0.0
            along = min(1.0, max(0.0, along))
            return math.hypot(at - x - along * dx, level - y - along * dy)

        box = min(x, x + dx), min(y, y + dy), max(x, x + dx), max(y, y + dy)
        covered(shares, box, reach, distance)


class PngPage:
    """Draws the shapes of a page, each in its turn."""

    def __init__(self, page: Page, colours: Colours):
        self.colours, self.scale = colours, scale_of(colours)
        self.raster = Raster(page.width * SCALE, page.height * SCALE, rgb(colours.ground))
        draw = {Line: self.line, Dots: self.dots, Marks: self.marks, Words: self.words, Grid: self.grid}
        for shape in page.shapes:
            draw[type(shape)](shape)

    def colour(self, role: str) -> Colour:
        return rgb(getattr(self.colours, role))

    def strokes(self, strokes: Iterable[Stroke], width: float, role: str) -> None:
        shares: Dict[Tuple[int, int], float] = {}
        for stroke in strokes:
            add_stroke(shares, tuple(SCALE * part for part in stroke), SCALE * width / 2)
        self.raster.paint(shares, self.colour(role))

    def line(self, line: Line) -> None:
        self.strokes(((*one, *other) for one, other in zip(line.places, line.places[1:])), line.width, line.role)

    def stamp(self, places: Sequence[Place], role: str, reach: float,
              distance: Callable[[float, float], float]) -> None:
        """The same mark at each place, to a pixel."""
        mark: Dict[Tuple[int, int], float] = {}
        covered(mark, (0, 0, 0, 0), SCALE * reach, distance)
        for x, y in places:
            left, top = round(SCALE * x), round(SCALE * y)
            self.raster.paint({(left + a, top + b): share for (a, b), share in mark.items()}, self.colour(role))

    def dots(self, dots: Dots) -> None:
        self.stamp(dots.places, dots.role, DOT, math.hypot)

    def marks(self, marks: Marks) -> None:
        for reach, role in ((REACH + 1, "ground"), (REACH, marks.role)):
            if marks.is_disc:
                self.stamp(marks.places, role, reach, math.hypot)
            else:
                self.stamp(marks.places, role, 1.2 * reach, lambda x, y: abs(x) + abs(y))

    def words(self, words: Words) -> None:
        strokes, width = strokes_of_words(words.words)
        left, (x, y) = {"start": 0.0, "middle": width / 2, "end": width}[words.anchor], words.place
        if words.is_turned:
            placed = [(x + b, y + left - a, x + d, y + left - c) for a, b, c, d in strokes]
        else:
            placed = [(x + a - left, y + b, x + c - left, y + d) for a, b, c, d in strokes]
        self.strokes(placed, SIZE * PEN * (1.5 if words.is_strong else 1), "ink")

    def grid(self, grid: Grid) -> None:
        """Each level as a box, those of one row side by side."""
        ends = [round(SCALE * (grid.place[0] + grid.width * k / len(grid.levels[0]))) for k in
                range(len(grid.levels[0]) + 1)]
        for k, row in enumerate(grid.levels):
            top, bottom = (round(SCALE * (grid.place[1] + grid.height * n / len(grid.levels))) for n in (k, k + 1))
            for place, level in enumerate(row):
                if level:
                    self.raster.fill(ends[place], top, ends[place + 1], bottom, self.scale[level - 1])

    def png(self) -> bytes:
        return png(self.raster.width, self.raster.height, 2, self.raster.rows)


# SVG.


def style_of(colours: Colours, is_dark: bool) -> str:
    """The colours by classes: f- for what is filled and s- for strokes."""
    roles = "".join(f".f-{role}{{fill:{getattr(colours, role)}}}.s-{role}{{stroke:{getattr(colours, role)}}}"
                    for role in colours._fields if role != "scale")
    return roles + (".day{display:none}.night{display:inline}" if is_dark else ".night{display:none}")


def number(value: float) -> str:
    return f"{value:.2f}".rstrip("0").rstrip(".")


def path_of(places: Sequence[Place], is_dots: bool = False) -> str:
    """The path through places, or a point at each."""
    pairs = [f"{number(x)} {number(y)}" for x, y in places]
    return "".join(f"M{pair}h0" for pair in pairs) if is_dots else "M" + "L".join(pairs)


def svg_of_marks(marks: Marks) -> str:
    reach, drawn = REACH, []
    for (x, y), words in zip(marks.places, marks.words):
        at = f'class="f-{marks.role} s-ground"'
        if marks.is_disc:
            shape = f'<circle {at} cx="{number(x)}" cy="{number(y)}" r="{reach}">'
        else:
            far = 1.2 * reach
            places = ((x, y - far), (x + far, y), (x, y + far), (x - far, y))
            corners = " ".join(f"{number(a)},{number(b)}" for a, b in places)
            shape = f'<polygon {at} points="{corners}">'
        drawn.append(f"{shape}<title>{escape(words)}</title></{shape[1:].split()[0]}>")
    return "\n".join(drawn)


def svg_of_words(words: Words) -> str:
    base, raised = parts_of(words.words)
    x, y = map(number, words.place)
    turned = f' transform="rotate(-90 {x} {y})"' if words.is_turned else ""
    strong = ' font-weight="600"' if words.is_strong else ""
    rise = f'<tspan dy="-{number(0.4 * SIZE)}" font-size="{RAISED}">{raised.replace("-", MINUS)}</tspan>'
    above = rise if raised else ""
    return (f'<text class="f-ink" x="{x}" y="{y}" text-anchor="{words.anchor}"{strong}{turned}>{escape(base)}{above}'
            "</text>")


def svg_of_grid(grid: Grid) -> str:
    """The grid as an image for a light ground and one for a dark ground, of which one is seen."""
    x, y = map(number, grid.place)
    at = f'x="{x}" y="{y}" width="{number(grid.width)}" height="{number(grid.height)}" preserveAspectRatio="none"'
    at += ' style="image-rendering:pixelated"'
    images = []
    for kind, colours in (("day", LIGHT), ("night", DARK)):
        data = base64.b64encode(png_of_grid(grid.levels, colours)).decode()
        images.append(f'<image class="{kind}" {at} href="data:image/png;base64,{data}"/>')
    return "\n".join(images)


def svg_of_line(line: Line) -> str:
    return (f'<path class="s-{line.role}" fill="none" stroke-width="{number(line.width)}" stroke-linecap="round" '
            f'stroke-linejoin="round" d="{path_of(line.places)}"/>')


def svg_of_dots(dots: Dots) -> str:
    return (f'<path class="s-{dots.role}" fill="none" stroke-width="{number(2 * DOT)}" stroke-linecap="round" '
            f'd="{path_of(dots.places, is_dots=True)}"/>')


SVG_OF: Dict[type, Callable[[Any], str]] = {
    Line: svg_of_line, Dots: svg_of_dots, Marks: svg_of_marks, Words: svg_of_words, Grid: svg_of_grid,
}


def svg(page: Page, is_dark: bool) -> str:
    """The page as SVG: for a light ground and, where the viewer prefers it, a dark one; or for a dark one alone."""
    style = style_of(DARK, True) if is_dark else style_of(LIGHT, False)
    if not is_dark:
        style += f"@media (prefers-color-scheme:dark){{{style_of(DARK, True)}}}"
    drawn = "\n".join(SVG_OF[type(shape)](shape) for shape in page.shapes)
    return f"""<svg xmlns="http://www.w3.org/2000/svg" width="{page.width}" height="{page.height}" \
viewBox="0 0 {page.width} {page.height}" role="img" aria-labelledby="title told" \
font-family="system-ui,-apple-system,'DejaVu Sans',sans-serif" font-size="{SIZE}">
<title id="title">{escape(page.title)}</title>
<desc id="told">{escape(page.told)}</desc>
<style>{style}</style>
<rect class="f-ground" width="{page.width}" height="{page.height}"/>
{drawn}
</svg>
"""


def write(page: Page, path: str, is_dark: bool = False) -> None:
    """Writes the page in the form that the path's ending names, .svg or .png."""
    if path.endswith(".png"):
        content = PngPage(page, DARK if is_dark else LIGHT).png()
    else:
        content = svg(page, is_dark).encode()
    with open(path, "wb") as file:
        file.write(content)
