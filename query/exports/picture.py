"""The marks as a picture: a PBM file of dots alone, or a PNG or SVG file with axes and a legend."""

import re
import struct
import zlib
from collections.abc import Iterator
from dataclasses import dataclass, field
from xml.sax.saxutils import escape

from query.reports.database import Dependence

# Five columns of eight dots for each character from the space to ~, the lowest bit at the top: ten
# digits a character, and eight characters a line.
COLUMNS = 5
FONT = bytes.fromhex(
    "000000000000005F00000007000700147F147F14242A7F2A12231308646236495522500005030000"
    "001C2241000041221C00082A1C2A0808083E08080050300000080808080800606000002010080402"
    "3E5149453E00427F400042615149462141454B311814127F1027454545393C4A4949300171090503"
    "3649494936064949291E003636000000563600000814224100141414141400412214080201510906"
    "324979413E7E1111117E7F494949363E414141227F4141221C7F494949417F090909013E4149497A"
    "7F0808087F00417F41002040413F017F081422417F404040407F020C027F7F0408107F3E4141413E"
    "7F090909063E4151215E7F09192946464949493101017F01013F4040403F1F2040201F3F4038403F"
    "631408146307087008076151494543007F41410002040810200041417F0004020102044040404040"
    "000102040020545454787F484444383844444420384444487F3854545418087E09010218A4A4A47C"
    "7F0804047800447D40000080847D007F1028440000417F40007C041804787C080404783844444438"
    "FC2424241818242424FC7C080404084854545420043F4440203C4040207C1C2040201C3C4030403C"
    "44281028441CA0A0A07C4464544C44000836410000007F000000413608000804081008"
)
WHITE, GREY, BLACK = 255, 160, 0
ONE = ord("1")
# In dots: from one character to the next, from one line of text to the next, and around all.
STEP, LINE, MARGIN = COLUMNS + 1, 12, 12
LEGEND = 2 * MARGIN  # where the texts of the legend begin, behind a box for the shade
APART, LARGEST_DOT = 10, 16  # dots from a name to the next, at least; a side of a dot, at most
MOST_LABEL, MOST_AXIOM = 44, 24  # characters of a name beside the picture, and above it
RUN = re.compile("1+")


class Dots:
    """The dots: `lines` has for each line of the picture a 0 or 1 for each dot across.

    A dot is for `wide` axioms and `high` theorems.
    """

    def __init__(self, dependence: Dependence, across: int, down: int) -> None:
        self.dependence = dependence
        self.columns = len(dependence.axioms)
        self.rows = len(dependence.theorems)
        self.wide = -(-self.columns // across)
        self.high = -(-self.rows // down)
        self.width = -(-self.columns // self.wide)
        self.height = -(-self.rows // self.high)
        self.lines = [self.line(first) for first in range(0, self.rows, self.high)]

    def line(self, first: int) -> str:
        """The line that begins at a row."""
        union = 0
        for row in range(first, min(first + self.high, self.rows)):
            union |= self.dependence.bits(row)
        dots = bytearray(b"0" * self.width)
        for column in self.dependence.columns_of(union):
            dots[column // self.wide] = ONE
        return dots.decode()

    def pbm(self) -> bytes:
        """The picture as a PBM file."""
        size = -(-self.width // 8)
        lines = [int(line.ljust(8 * size, "0"), 2).to_bytes(size, "big") for line in self.lines]
        return f"P4\n{self.width} {self.height}\n".encode() + b"".join(lines)


class Canvas:
    """A picture by bytes from black to white."""

    def __init__(self, width: int, height: int) -> None:
        self.width = width
        self.lines = [bytearray([WHITE]) * width for _ in range(height)]

    def box(self, left: int, top: int, width: int, height: int, shade: int) -> None:
        """Fills a box."""
        for line in self.lines[top : top + height]:
            line[left : left + width] = bytes([shade]) * len(line[left : left + width])

    def write(self, left: int, top: int, text: str, upwards: bool = False) -> None:
        """Writes a text from its left end, or from its lower end."""
        for number, sign in enumerate(text):
            start = COLUMNS * (ord(sign if " " <= sign <= "~" else "?") - 32)
            for x, bits in enumerate(FONT[start : start + COLUMNS]):
                for y in range(8):
                    if not bits >> y & 1:
                        continue
                    if upwards:
                        self.box(left + y, top - STEP * number - x, 1, 1, BLACK)
                    else:
                        self.box(left + STEP * number + x, top + y, 1, 1, BLACK)

    def png(self) -> bytes:
        """The picture as a PNG file."""
        size = struct.pack(">IIBBBBB", self.width, len(self.lines), 8, 0, 0, 0, 0)
        data = zlib.compress(b"".join(b"\0" + line for line in self.lines), 9)
        parts = [chunk(b"IHDR", size), chunk(b"IDAT", data), chunk(b"IEND", b"")]
        return b"\x89PNG\r\n\x1a\n" + b"".join(parts)


def chunk(name: bytes, data: bytes) -> bytes:
    """A chunk of a PNG file."""
    return struct.pack(">I", len(data)) + name + data + struct.pack(">I", zlib.crc32(name + data))


@dataclass
class Axes:
    """The names along the picture: places in dots from its corner, and what stands there."""

    size: int  # of a dot
    down: list[tuple[int, str]] = field(default_factory=list)
    across: list[tuple[int, str]] = field(default_factory=list)

    @property
    def left(self) -> int:
        """How wide the names beside the picture are."""
        return max((len(name) for _, name in self.down), default=0) * STEP + MARGIN

    @property
    def top(self) -> int:
        """How high the names above the picture are."""
        return max((len(name) for _, name in self.across), default=0) * STEP + MARGIN


def axes_of(dots: Dots, names: list[tuple[int, str]], size: int) -> Axes:
    """The names that have room, the first ones of `names` before later ones."""
    axes = Axes(size)
    taken: dict[int, int] = {}  # of each APART dots down where the name begins that is in them
    for row, name in names:
        y = row // dots.high * size
        near = (taken.get(y // APART + step) for step in (-1, 0, 1))
        if all(other is None or abs(y - other) >= APART for other in near):
            taken[y // APART] = y
            axes.down.append((y, name[:MOST_LABEL]))
    for column in range(0, dots.width, -(-APART // size)):
        name = dots.dependence.axioms[column * dots.wide][:MOST_AXIOM]
        axes.across.append((column * size, name))
    return axes


def legend(dots: Dots) -> list[str]:
    """What the picture shows."""
    return [
        f"down: {dots.rows} theorems, {dots.high} to a dot; across: {dots.columns} axioms,"
        f" {dots.wide} to a dot; both in file order",
        "black: a theorem of the dot rests on an axiom of it",
        "white: none does",
    ]


@dataclass
class Layout:
    """Where the parts of a picture with axes are: the dots, of `size` points each, begin at `left`
    and `top`, and take `wide` times `high` points; `texts` are the lines of the legend below."""

    dots: Dots
    axes: Axes
    texts: list[str]

    @property
    def wide(self) -> int:
        """How wide the dots are."""
        return self.dots.width * self.axes.size

    @property
    def high(self) -> int:
        """How high the dots are."""
        return self.dots.height * self.axes.size

    @property
    def width(self) -> int:
        """How wide the picture is."""
        return max(self.axes.left + self.wide + MARGIN, max(map(len, self.texts)) * STEP + 32)

    @property
    def height(self) -> int:
        """How high the picture is."""
        return self.axes.top + self.high + 16 + LINE * len(self.texts)

    @property
    def middle(self) -> int:
        """From the beginning of a dot to where the name beside it stands."""
        return min(self.axes.size, APART) // 2 - STEP // 2

    def lines(self) -> Iterator[tuple[int, str]]:
        """The lines of the legend, each with its top."""
        for number, text in enumerate(self.texts):
            yield self.axes.top + self.high + MARGIN + LINE * number, text


def layout(dots: Dots, names: list[tuple[int, str]], across: int, down: int) -> Layout:
    """The layout of a picture with axes. `names` are rows of theorems with what is said of them,
    the most important first. The dots take at most `across` times `down` points."""
    size = max(1, min(across // dots.width, down // dots.height, LARGEST_DOT))
    return Layout(dots, axes_of(dots, names, size), legend(dots))


def drawing(it: Layout) -> bytes:
    """The picture with its axes and its legend, as a PNG file."""
    size, left, top = it.axes.size, it.axes.left, it.axes.top
    canvas = Canvas(it.width, it.height)
    canvas.box(left - 1, top - 1, it.wide + 2, it.high + 2, GREY)
    canvas.box(left, top, it.wide, it.high, WHITE)
    for y, line in enumerate(it.dots.lines):
        for x, dot in enumerate(line):
            if dot == "1":
                canvas.box(left + x * size, top + y * size, size, size, BLACK)
    put_names(canvas, it)
    for number, (y, text) in enumerate(it.lines()):
        canvas.write(LEGEND, y, text)
        if number:
            canvas.box(11, y - 1, 9, 9, BLACK)
            canvas.box(12, y, 7, 7, BLACK if number == 1 else WHITE)
    return canvas.png()


def put_names(canvas: Canvas, it: Layout) -> None:
    """Writes the names along the picture."""
    axes = it.axes
    for y, name in axes.down:
        canvas.write(axes.left - STEP * (1 + len(name)), axes.top + y + it.middle, name)
        canvas.box(axes.left - 5, axes.top + y, 4, 1, BLACK)
    for x, name in axes.across:
        canvas.write(axes.left + x + it.middle, axes.top - 8, name, upwards=True)
        canvas.box(axes.left + x, axes.top - 5, 1, 4, BLACK)


def svg(it: Layout) -> bytes:
    """The same as an SVG file of lines and letters, which can be made larger."""
    return "".join(line + "\n" for line in svg_lines(it)).encode()


def svg_lines(it: Layout) -> Iterator[str]:
    """The lines of the SVG file."""
    size, left, top = it.axes.size, it.axes.left, it.axes.top
    font = f'font-family="monospace" font-size="{LINE - 2}"'
    yield (
        f'<svg xmlns="http://www.w3.org/2000/svg" width="{it.width}" height="{it.height}"'
        f' viewBox="0 0 {it.width} {it.height}" {font}>'
    )
    yield f'<rect width="{it.width}" height="{it.height}" fill="white"/>'
    yield (
        f'<rect x="{left - 0.5}" y="{top - 0.5}" width="{it.wide + 1}" height="{it.high + 1}"'
        ' fill="white" stroke="#a0a0a0"/>'
    )
    yield f'<path transform="translate({left} {top}) scale({size})" d="{runs(it.dots)}"/>'
    for y, name in it.axes.down:
        high = top + y + it.middle + COLUMNS + 2
        yield f'<text x="{left - STEP}" y="{high}" text-anchor="end">{escape(name)}</text>'
        yield f'<path d="M{left - 5} {top + y}.5h4" stroke="black"/>'
    for x, name in it.axes.across:
        wide = left + x + it.middle + COLUMNS + 2
        turned = f'transform="translate({wide} {top - 8}) rotate(-90)"'
        yield f"<text {turned}>{escape(name)}</text>"
        yield f'<path d="M{left + x}.5 {top - 5}v4" stroke="black"/>'
    for number, (y, text) in enumerate(it.lines()):
        yield f'<text x="{LEGEND}" y="{y + COLUMNS + 2}">{escape(text)}</text>'
        if number:
            shade = f'fill="{"black" if number == 1 else "white"}" stroke="black"'
            yield f'<rect x="11.5" y="{y - 0.5}" width="8" height="8" {shade}/>'
    yield "</svg>"


def runs(dots: Dots) -> str:
    """The black dots as the path of an SVG file: a box for each run of them in a line."""
    found = []
    for y, line in enumerate(dots.lines):
        for match in RUN.finditer(line):
            wide = match.end() - match.start()
            found.append(f"M{match.start()} {y}h{wide}v1h-{wide}z")
    return "".join(found)
