"""Draws plots as SVG, by the standard library alone. It is no script: `tables.py` calls it, and writes bench/plots/."""
import math
from typing import Iterator, NamedTuple
from xml.sax.saxutils import escape

WIDTH, HEIGHT = 760, 420
LEFT, RIGHT, TOP, BOTTOM = 80, 235, 50, 70
COLOURS = ["#0b5cad", "#c2410c", "#15803d", "#7e22ce", "#57534e", "#b91c1c"]


class Point(NamedTuple):
    """A point of a line, in the units of the axes."""
    x: float
    y: float


class Line(NamedTuple):
    """A line: its name, its points, the number of its colour, and whether it is dashed."""
    name: str
    points: list[Point]
    colour: int
    dashed: bool = False


class Marks(NamedTuple):
    """What an axis is made of: its marks, its text, and whether it is logarithmic."""
    values: list[float]
    text: str
    is_log: bool = True


class Axis:
    """A linear or logarithmic scale from pixels `begin` to `end`, with marks."""

    def __init__(self, marks: Marks, begin: float, end: float) -> None:
        self.marks, self.text = marks.values, marks.text
        self.is_log = marks.is_log
        self.low, self.high = self.at(self.marks[0]), self.at(self.marks[-1])
        self.begin, self.end = begin, end

    def at(self, value: float) -> float:
        """Returns a value on the scale."""
        return math.log10(value) if self.is_log else value

    def place(self, value: float) -> float:
        """Returns the pixel of a value."""
        share = (self.at(value) - self.low) / (self.high - self.low)
        return self.begin + share * (self.end - self.begin)


def said(value: float) -> str:
    """Returns a mark as text."""
    return f"{value:,.0f}" if value >= 1 else f"{value:g}"


def words(x: float, y: float, text: str, more: str = "") -> str:
    """Returns a text at a place."""
    return f'<text x="{x:.1f}" y="{y:.1f}" {more}>{escape(text)}</text>'


def grid(across: Axis, up: Axis) -> Iterator[str]:
    """Yields the lines, marks and names of both axes."""
    for mark in up.marks:
        y = up.place(mark)
        yield f'<path d="M{LEFT} {y:.1f}H{WIDTH - RIGHT}" stroke="#d6d3d1"/>'
        yield words(LEFT - 8, y + 4, said(mark), 'text-anchor="end"')
    for mark in across.marks:
        x = across.place(mark)
        yield f'<path d="M{x:.1f} {HEIGHT - BOTTOM}v5" stroke="#57534e"/>'
        yield words(x, HEIGHT - BOTTOM + 20, said(mark), 'text-anchor="middle"')
    yield words((LEFT + WIDTH - RIGHT) / 2, HEIGHT - BOTTOM + 40, across.text, 'text-anchor="middle"')
    yield words(LEFT - 60, TOP - 14, up.text)


def apart(places: list[float], least: float = 16) -> list[float]:
    """Returns the places of labels, in the order given, moved so that none is nearer than `least` to the next."""
    order = sorted(range(len(places)), key=lambda number: places[number])
    moved = list(places)
    for before, after in zip(order, order[1:]):
        moved[after] = max(moved[after], moved[before] + least)
    return moved


def lines(across: Axis, up: Axis, drawn: list[Line]) -> Iterator[str]:
    """Yields the lines, each with its points and its name at the right."""
    labels = apart([up.place(it.points[-1].y) for it in drawn])
    for number, line in enumerate(drawn):
        colour = COLOURS[line.colour]
        places = [Point(across.place(it.x), up.place(it.y)) for it in line.points]
        path = "L".join(f"{it.x:.1f} {it.y:.1f}" for it in places)
        dash = ' stroke-dasharray="6 4"' if line.dashed else ""
        yield f'<path d="M{path}" fill="none" stroke="{colour}" stroke-width="2"{dash}/>'
        for x, y in places:
            yield f'<circle cx="{x:.1f}" cy="{y:.1f}" r="3.5" fill="{colour}"/>'
        yield words(WIDTH - RIGHT + 12, labels[number] + 4, line.name, f'fill="{colour}"')


def plot(title: str, below: str, across: Marks, up: Marks, drawn: list[Line]) -> str:
    """Returns the text of an SVG."""
    along, upward = Axis(across, LEFT, WIDTH - RIGHT), Axis(up, HEIGHT - BOTTOM, TOP)
    parts = [
        f'<svg xmlns="http://www.w3.org/2000/svg" viewBox="0 0 {WIDTH} {HEIGHT}" font-family="sans-serif" font-size="13" fill="#1c1917">',
        f"<title>{escape(title)}</title>", f'<rect width="{WIDTH}" height="{HEIGHT}" fill="#ffffff"/>',
        words(LEFT - 60, 20, title, 'font-size="15" font-weight="bold"'), *grid(along, upward), *lines(along, upward, drawn),
        words(LEFT - 60, HEIGHT - 10, below, 'font-size="11" fill="#57534e"'), "</svg>"]
    return "\n".join(parts) + "\n"
