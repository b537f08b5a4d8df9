#!/usr/bin/env python3
"""Draws a document as SVG: the grid with its knot, the front, and the hat or the table of ranks as a chart.

    tools/draw.py DOCUMENT [--grid FILE] [--front FILE] [--chart FILE] [--rows hat|ranks] [--report FILE]

A picture is drawn if its option names a file for it. The grid is that of the head of the document, whatever moves come
after the head. Each component has a colour of its own, and each strand that crosses over an arrow.

--grid    the marks and the link: vertical segments run from X to O and cross over, horizontal ones from O to X
--front   the grid turned by 45 degrees: its corners to the north-east become right cusps, those to the south-west left
          cusps, and the other two kinds are rounded. The horizontal segments of the grid cross over here, so the front
          is that of the mirror image.
--chart   the ranks by the one Alexander degree, to the right, and the Maslov degree, upwards
--rows    which ranks: those of the hat, or of the table of ranks; the hat if it is left out
--report  a report in which the ranks stand; without it the program ./gridhom is asked
"""
import argparse
import math
import pathlib
import subprocess
import sys

PROGRAM = pathlib.Path(__file__).resolve().parent.parent / "gridhom"

COLOURS = ["#0072b2", "#d55e00", "#009e73", "#cc79a7", "#e69f00"]
INK, PALE, TINT = "#222222", "#dddddd", "#cfe3f2"
CELL = 40  # the side of a square of the grid or of the chart
STROKE = 3.5
GAP = 0.2  # on each side of a crossing, in squares, where a strand runs under another
BEND = 0.42  # how far from a corner of the grid the front leaves the segment
TIP = 0.2  # how far a cusp reaches past its corner, along both axes of the grid


def refuse(why):
    sys.exit(f"draw.py: {why}")


# ---- the grid and its link; a point is a pair of a column and a row


def read_grid(text):
    """The rows of the O and of the X of each column, from the head of a document."""
    lines = [line.split() for line in text.splitlines()]
    lines = [words for words in lines if words and not words[0].startswith("#")]
    try:
        head, size = lines[0]
        if head == "picture":
            symbols = ["".join(words) for words in lines[int(size) : 0 : -1]]
            columns = list(zip(*symbols, strict=True))
            o, x = [it.index("O") for it in columns], [it.index("X") for it in columns]
        elif head in ("grid", "grid2"):
            (first, *o), (second, *x) = lines[1:3]
            if (first, second) != ("O", "X"):
                raise ValueError
            o, x = [*map(int, o)], [*map(int, x)]
        else:
            raise ValueError
    except (ValueError, IndexError):
        refuse("the document does not begin with a grid")
    if not sorted(o) == sorted(x) == [*range(int(size))] or any(a == b for a, b in zip(o, x)):
        refuse("the marks are not those of a grid")
    return o, x


def components(o, x):
    """The corners of each component in order: an X, the O of its column, the X of the row of this O, and so on."""
    left, found = set(range(len(o))), []
    while left:
        column, corners = min(left), []
        while column in left:
            left.remove(column)
            corners += [(column, x[column]), (column, o[column])]
            column = x.index(o[column])
        found.append(corners)
    return found


def crossings(o, x):
    between = lambda it, a, b: min(a, b) < it < max(a, b)
    squares = [(c, r) for c in range(len(o)) for r in range(len(o))]
    return [(c, r) for c, r in squares if between(r, o[c], x[c]) and between(c, o.index(r), x.index(r))]


def segments(corners):
    """The vertical segments of a component, and the horizontal ones: each leads from a corner to the next one."""
    every = list(zip(corners, corners[1:] + corners[:1]))
    return every[::2], every[1::2]


def length(start, end):
    return abs(end[0] - start[0]) + abs(end[1] - start[1])


def along(start, end, distance):
    """The point of the segment that is this far from its start."""
    share = distance / length(start, end)
    return tuple(a + share * (b - a) for a, b in zip(start, end))


def pieces(start, end, under, trim):
    """The segment without its ends, which are `trim` long, and without a gap at each crossing of `under` on it."""
    on_it = [it for it in under if length(start, it) + length(it, end) == length(start, end)]
    gaps = sorted(length(start, it) for it in on_it)
    stops = [trim, *(stop for at in gaps for stop in (at - GAP, at + GAP)), length(start, end) - trim]
    return [(along(start, end, a), along(start, end, b)) for a, b in zip(stops[::2], stops[1::2])]


def bend(before, corner, after):
    """How the front goes past a corner of the grid: where it leaves the segment, and two points more for each curve."""
    start, end = along(corner, before, BEND), along(corner, after, BEND)
    inward = [s + e - 2 * c for s, e, c in zip(start, end, corner)]
    if math.isclose(inward[0], inward[1]):
        tip = tuple(c - math.copysign(TIP, i) for c, i in zip(corner, inward))
        return start, [(corner, tip), (corner, end)]
    return start, [(corner, end)]


# ---- SVG


def number(value):
    return f"{round(value, 1):g}"


class Drawing:
    """Elements of an SVG picture. `view` takes a point to its place in the picture, in which y counts downwards."""

    def __init__(self, view, width, height, title):
        self.view, self.width, self.height = view, number(width), number(height)
        self.elements = [f"<title>{title}</title>", '<rect width="100%" height="100%" fill="white"/>']

    def place(self, *points):
        return " ".join(f"{number(x)} {number(y)}" for x, y in map(self.view, points))

    def line(self, start, end):
        return f"M{self.place(start)}L{self.place(end)}"

    def curve(self, start, curves):
        return f"M{self.place(start)}" + "".join(f"Q{self.place(*it)}" for it in curves)

    def path(self, parts, colour, stroke):
        style = f'fill="none" stroke="{colour}" stroke-width="{stroke}" stroke-linecap="round" stroke-linejoin="round"'
        self.elements.append(f'<path d="{"".join(parts)}" {style}/>')

    def arrows(self, strands, colour):
        """An arrow on each segment, near its middle and between two places where a crossing may be."""
        parts = []
        for start, end in strands:
            middle = length(start, end) // 2 + 0.5
            (x, y), (tip_x, tip_y) = (self.view(along(start, end, at)) for at in (middle, middle + 0.18))
            u, v = tip_x - x, tip_y - y
            points = [(x + u, y + v), (x - u + 0.9 * v, y - v - 0.9 * u), (x - u - 0.9 * v, y - v + 0.9 * u)]
            parts.append("M" + "L".join(f"{number(a)} {number(b)}" for a, b in points) + "Z")
        self.elements.append(f'<path d="{"".join(parts)}" fill="{colour}"/>')

    def circle(self, point, radius, fill, stroke="none"):
        x, y = map(number, self.view(point))
        style = f'fill="{fill}" stroke="{stroke}" stroke-width="2"'
        self.elements.append(f'<circle cx="{x}" cy="{y}" r="{number(radius)}" {style}/>')

    def text(self, point, words, size=15, turn=""):
        x, y = map(number, self.view(point))
        style = f'font-family="sans-serif" font-size="{size}" fill="{INK}" text-anchor="middle"'
        turned = f' transform="rotate({turn} {x} {y})"' if turn else ""
        self.elements.append(f'<text x="{x}" y="{y}" dy=".35em" {style}{turned}>{words}</text>')

    def svg(self):
        box = f'width="{self.width}" height="{self.height}" viewBox="0 0 {self.width} {self.height}"'
        return "\n".join([f'<svg xmlns="http://www.w3.org/2000/svg" {box}>', *self.elements, "</svg>", ""])


# ---- the three pictures


def grid_picture(o, x):
    size, margin = len(o), CELL / 4
    side = size * CELL + 2 * margin
    view = lambda it: (margin + (it[0] + 0.5) * CELL, side - margin - (it[1] + 0.5) * CELL)
    drawing = Drawing(view, side, side, "a grid and its link")
    low, high = -0.5, size - 0.5
    lines = [at - 0.5 for at in range(size + 1)]
    rules = [drawing.line((at, low), (at, high)) + drawing.line((low, at), (high, at)) for at in lines]
    drawing.path(rules, PALE, 1)
    under = crossings(o, x)
    for colour, corners in zip(COLOURS, components(o, x)):
        over, below = segments(corners)
        strands = [drawing.line(*it) for it in over]
        strands += [drawing.line(*piece) for it in below for piece in pieces(*it, under, 0)]
        drawing.path(strands, colour, STROKE)
        drawing.arrows(over, colour)
    for column in range(size):
        draw_marks(drawing, column, o[column], x[column])
    return drawing.svg()


def draw_marks(drawing, column, o_row, x_row):
    reach = 0.16
    drawing.circle((column, o_row), 0.2 * CELL, "white", INK)
    drawing.circle((column, x_row), 0.2 * CELL, "white")
    ends = [((column - reach, x_row - up), (column + reach, x_row + up)) for up in (reach, -reach)]
    drawing.path([drawing.line(*it) for it in ends], INK, 2.5)


def front_picture(o, x):
    links = components(o, x)
    turned = lambda it: ((it[0] + it[1]) * CELL / math.sqrt(2), (it[0] - it[1]) * CELL / math.sqrt(2))
    places = [turned(it) for corners in links for it in corners]
    left, top = (min(it) - CELL / 2 for it in zip(*places))
    right, bottom = (max(it) + CELL / 2 for it in zip(*places))
    view = lambda it: tuple(a - b for a, b in zip(turned(it), (left, top)))
    drawing = Drawing(view, right - left, bottom - top, "a front")
    under = crossings(o, x)
    for colour, corners in zip(COLOURS, links):
        below, over = segments(corners)
        straight = [piece for it in below for piece in pieces(*it, under, BEND)]
        straight += [piece for it in over for piece in pieces(*it, [], BEND)]
        bends = [bend(*it) for it in zip(corners[-1:] + corners, corners, corners[1:] + corners[:1])]
        strands = [drawing.line(*it) for it in straight] + [drawing.curve(*it) for it in bends]
        drawing.path(strands, colour, STROKE)
        drawing.arrows(over, colour)
    return drawing.svg()


def spread(degrees):
    """The first degree of an axis, and how many it has: room for its name, too."""
    count = max(degrees) - min(degrees) + 1
    return (min(degrees) - 1, count + 2) if count < 3 else (min(degrees), count)


def chart_picture(rows):
    """The chart of rows (Maslov degree, Alexander degree, rank)."""
    maslov, alexander, _ = zip(*rows)
    (low_m, high), (low_a, wide) = spread(maslov), spread(alexander)
    margin, edge = 1.6 * CELL, CELL / 2
    width, height = margin + wide * CELL + edge, margin + high * CELL + edge
    view = lambda it: (margin + (it[0] + 0.5) * CELL, edge + (high - it[1] - 0.5) * CELL)
    drawing = Drawing(view, width, height, "ranks by Alexander and Maslov degree")
    columns = [drawing.line((at - 0.5, -0.5), (at - 0.5, high - 0.5)) for at in range(wide + 1)]
    lines = [drawing.line((-0.5, at - 0.5), (wide - 0.5, at - 0.5)) for at in range(high + 1)]
    drawing.path(columns + lines, PALE, 1)
    for m, a, rank in rows:
        drawing.circle((a - low_a, m - low_m), 0.4 * CELL, TINT)
        drawing.text((a - low_a, m - low_m), rank, 15 if rank < 1000 else 11)
    for at in range(wide):
        drawing.text((at, -0.9), signed(low_a + at))
    for at in range(high):
        drawing.text((-0.9, at), signed(low_m + at))
    drawing.text(((wide - 1) / 2, -1.65), "Alexander degree")
    drawing.text((-1.65, (high - 1) / 2), "Maslov degree", turn="-90")
    return drawing.svg()


def signed(value):
    return str(value).replace("-", "\N{MINUS SIGN}")


# ---- ranks


def asked(o, x, command):
    """The report of the program on the grid and the one command."""
    words = lambda marks: " ".join(map(str, marks))
    text = f"grid {len(o)}\nO {words(o)}\nX {words(x)}\n{command}\nend\n"
    ran = subprocess.run([PROGRAM, "run"], input=text, stdout=subprocess.PIPE, text=True)
    if ran.returncode:
        refuse(f"{PROGRAM} ends with status {ran.returncode}")
    return ran.stdout


def ranks_of(report, command):
    """The rows of the first answer to the command in a report."""
    lines, rows = [line.split() for line in report.splitlines()], []
    start = next((at for at, words in enumerate(lines) if words[:1] == [command]), len(lines))
    for words in lines[start + 1 :]:
        if words[:1] != ["rank"]:
            break
        if len(words) != 4:
            refuse("the ranks of the report are not those of one Alexander degree")
        rows.append(tuple(map(int, words[1:])))
    return rows or refuse(f"the report has no ranks under a line `{command}`")


def read(path):
    try:
        return pathlib.Path(path).read_text(encoding="utf-8")
    except (OSError, UnicodeDecodeError) as fault:
        refuse(f"{path} cannot be read: {fault}")


def main():
    parser = argparse.ArgumentParser(description=__doc__, formatter_class=argparse.RawDescriptionHelpFormatter)
    parser.add_argument("document", metavar="DOCUMENT")
    for option in ("--grid", "--front", "--chart", "--report"):
        parser.add_argument(option, metavar="FILE")
    parser.add_argument("--rows", choices=["hat", "ranks"], default="hat")
    options = parser.parse_args()
    if not (options.grid or options.front or options.chart):
        parser.error("none of --grid, --front and --chart is given")
    o, x = read_grid(read(options.document))
    if options.grid:
        pathlib.Path(options.grid).write_text(grid_picture(o, x), encoding="utf-8")
    if options.front:
        pathlib.Path(options.front).write_text(front_picture(o, x), encoding="utf-8")
    if options.chart:
        report = read(options.report) if options.report else asked(o, x, options.rows)
        rows = ranks_of(report, options.rows)
        pathlib.Path(options.chart).write_text(chart_picture(rows), encoding="utf-8")


if __name__ == "__main__":
    main()
