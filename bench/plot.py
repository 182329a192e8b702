#!/usr/bin/env python3
"""Draws the tables of copies over lines as a picture: seconds for 1 MiB against what a line loses, and against its rate.

    bench/plot.py DOCUMENT    prints the picture of the document's tables, as SVG

Both scales of a panel are logarithmic, but that a line without loss stands at the left. Each program has a colour, and each figure is
that of a get. A copy that failed leaves a gap.
"""

import dataclasses
import math
import pathlib
import sys

# a panel, the room before it and above it, and the room for the legend
WIDTH, HEIGHT, LEFT, TOP, LEGEND = 300, 240, 70, 75, 250
PANELS_ACROSS = 2
COLOURS = ["#0b5394", "#3d85c6", "#741b47", "#c27ba0", "#38761d", "#93c47d", "#b45f06", "#666666"]
STYLE = """text { font: 12px Helvetica, Arial, 'Liberation Sans', 'DejaVu Sans', sans-serif; fill: #1a1a1a; }
.title { font-size: 14px; font-weight: bold; }
.axis { stroke: #1a1a1a; fill: none; }
.grid { stroke: #d9d9d9; fill: none; }
.line { fill: none; stroke-width: 2; }"""


@dataclasses.dataclass
class Panel:
    """A part of the picture: its title, the names of the places along it, and the seconds of each program there, or None."""

    title: str
    places: list
    seconds: dict

    def bounds(self):
        """The powers of ten between which the seconds lie."""
        logs = [math.log10(it) for row in self.seconds.values() for it in row if it]
        return math.floor(min(logs)), math.ceil(max(logs))


def got(cell):
    """The seconds of a get in a cell such as `7.71/7.70`, or None."""
    seconds = cell.rpartition("/")[2]
    return float(seconds) if seconds not in ("", "fails") else None


def rows_of(table, columns, prefix=""):
    """The seconds of each program in these columns of a table, from the rows that begin with a prefix. A limit is no program."""
    rows = {}
    for row in table.splitlines()[2:]:
        name, *cells = row.split("|")
        if name.startswith(prefix) and "/" in "".join(cells):
            rows[name.removeprefix(prefix)] = [got(cells[column]) for column in columns]
    return rows


def panels_of(lines, rates):
    """The panels of both tables."""
    lost, rated = (table.splitlines()[0].split("|")[1:] for table in [lines, rates])
    panels = []
    for delay in ["20 ms", "100 ms"]:
        panels.append(Panel(f"{delay} each way", lost, rows_of(lines, range(len(lost)), f"{delay}: ")))
    for queue in dict.fromkeys(head.rpartition(" ")[2] for head in rated):
        columns = [column for column, head in enumerate(rated) if head.endswith(f" {queue}")]
        places = [rated[column].partition(", queue")[0] for column in columns]
        panels.append(Panel(f"20 ms each way, a queue of {queue} packets", places, rows_of(rates, columns)))
    return panels


def text_of(x, y, text, anchor="middle", kind=""):
    what = f' class="{kind}"' if kind else ""
    return f'<text x="{x:.0f}" y="{y:.0f}" text-anchor="{anchor}"{what}>{text}</text>'


def drawn(panel, left, top, colours):
    """The elements of a panel whose upper left corner is here."""
    low, high = panel.bounds()

    def at(place, seconds):
        x = left + WIDTH * (place + 0.5) / len(panel.places)
        return x, top + HEIGHT * (high - math.log10(seconds)) / (high - low)

    parts = [text_of(left + WIDTH / 2, top - 18, panel.title, kind="title")]
    for power in range(low, high + 1):
        _, y = at(0, 10.0**power)
        parts.append(f'<path class="grid" d="M{left} {y:.1f}H{left + WIDTH}"/>')
        parts.append(text_of(left - 6, y + 4, f"{10.0**power:g} s", "end"))
    parts.append(f'<path class="axis" d="M{left} {top}V{top + HEIGHT}H{left + WIDTH}"/>')
    parts += [text_of(at(number, 1)[0], top + HEIGHT + 18, place) for number, place in enumerate(panel.places)]
    for name, row in panel.seconds.items():
        points = [at(number, seconds) for number, seconds in enumerate(row) if seconds]
        path = " ".join(f"{x:.1f},{y:.1f}" for x, y in points)
        parts.append(f'<polyline class="line" stroke="{colours[name]}" points="{path}"><title>{name}</title></polyline>')
        parts += [f'<circle cx="{x:.1f}" cy="{y:.1f}" r="3" fill="{colours[name]}"/>' for x, y in points]
    return parts


def table_in(document, name):
    """A table that a bench wrote into a document."""
    return document.split(f"<!-- {name}: written by make bench -->\n")[1].split(f"\n<!-- end of {name} -->")[0]


def picture_of(document):
    """The picture of the tables `lines` and `rates` of a document, as SVG."""
    panels = panels_of(table_in(document, "lines"), table_in(document, "rates"))
    names = list(dict.fromkeys(name for panel in panels for name in panel.seconds))
    colours = {name: COLOURS[number % len(COLOURS)] for number, name in enumerate(names)}
    down = math.ceil(len(panels) / PANELS_ACROSS)
    right = PANELS_ACROSS * (LEFT + WIDTH)
    width, height = right + LEGEND, down * (TOP + HEIGHT) + 40
    parts = [f'<svg xmlns="http://www.w3.org/2000/svg" width="{width}" height="{height}" viewBox="0 0 {width} {height}" role="img">']
    parts += ["<title>Seconds for a get of 1 MiB</title>", f"<style>\n{STYLE}\n</style>", f'<rect width="{width}" height="{height}" fill="#ffffff"/>']
    for number, panel in enumerate(panels):
        row, column = divmod(number, PANELS_ACROSS)
        parts += drawn(panel, LEFT + column * (LEFT + WIDTH), TOP + row * (TOP + HEIGHT), colours)
    for number, name in enumerate(names):
        y = TOP + 10 + 22 * number
        parts.append(f'<path class="line" stroke="{colours[name]}" d="M{right + 20} {y}h24"/>')
        parts.append(text_of(right + 52, y + 4, name, "start"))
    return "\n".join([*parts, "</svg>", ""])


if __name__ == "__main__":
    (path,) = sys.argv[1:]
    print(picture_of(pathlib.Path(path).read_text()), end="")
