#!/usr/bin/env python3
"""The drawings of the pages: SVG made from the text files of docs/pictures, in light and dark.

    python3 tests/reading/drawings.py           names each drawing that isn't up to date: status 1
    python3 tests/reading/drawings.py --write   makes them all anew

docs/pictures/NAME.txt gives NAME.svg and NAME-dark.svg. A text is a sequence of messages, or
`layers.txt`: which crate belongs to which service and layer. The crates and what each needs come
from crates.txt, so that the drawing of the layers stays true.
"""
import collections
import html
import pathlib
import re
import sys

ROOT = pathlib.Path(__file__).resolve().parents[2]
PICTURES = ROOT / "docs" / "pictures"
Colours = collections.namedtuple("Colours", "back text faint line box band accent")
PALETTES = {
    "": Colours("#ffffff", "#1f2328", "#59636e", "#818b98", "#eef2f7", "#f6f8fa", "#0969da"),
    "-dark": Colours("#0d1117", "#e6edf3", "#9198a1", "#6e7681", "#1c2633", "#151b23", "#58a6ff"),
}
FONT = "font-family='Helvetica, Arial, sans-serif'"
MESSAGE = re.compile(r"(\w+) -> (\w+) +(.+)")


class Canvas:
    """The lines of an SVG of one palette."""

    def __init__(self, width, height, colours, title):
        self.colours = colours
        self.lines = [
            f"<svg xmlns='http://www.w3.org/2000/svg' width='{width}' height='{height}'"
            f" viewBox='0 0 {width} {height}' role='img'>",
            f"<title>{html.escape(title)}</title>",
            f"<rect width='{width}' height='{height}' fill='{colours.back}'/>",
        ]

    def box(self, x, y, width, height, fill, stroke=None):
        edge = f" stroke='{stroke}'" if stroke else ""
        self.lines.append(
            f"<rect x='{x}' y='{y}' width='{width}' height='{height}' rx='4' fill='{fill}'{edge}/>"
        )

    def line(self, x1, y1, x2, y2, stroke, dashed=False):
        dash = " stroke-dasharray='3 4'" if dashed else ""
        ends = f"x1='{x1}' y1='{y1}' x2='{x2}' y2='{y2}'"
        self.lines.append(f"<line {ends} stroke='{stroke}'{dash}/>")

    def arrow(self, x1, x2, y, stroke):
        """A horizontal arrow with its head at `x2`."""
        back = x2 - 8 if x2 > x1 else x2 + 8
        self.line(x1, y, x2, y, stroke)
        self.lines.append(
            f"<polygon points='{x2},{y} {back},{y - 4} {back},{y + 4}' fill='{stroke}'/>"
        )

    def text(self, x, y, words, fill, size=12, anchor="middle", bold=False):
        weight = " font-weight='bold'" if bold else ""
        self.lines.append(
            f"<text x='{x}' y='{y}' {FONT} font-size='{size}' text-anchor='{anchor}'"
            f" fill='{fill}'{weight}>{html.escape(words)}</text>"
        )

    def svg(self):
        return "\n".join([*self.lines, "</svg>", ""])


# ---- sequences

class Sequence:
    """Who takes part, and the rows from top to bottom: messages, steps and notes."""

    def __init__(self, text):
        self.title, self.who, self.rows = "", {}, []
        for line in filter(None, text.split("\n")):
            word, _, rest = line.partition(" ")
            message = MESSAGE.fullmatch(line)
            if word == "title":
                self.title = rest
            elif word == "who":
                key, _, name = rest.partition("  ")
                self.who[key] = name
            elif word == "step":
                self.rows.append(("step", rest))
            elif word == "note":
                key, _, words = rest.partition("  ")
                self.rows.append(("note", key, words))
            elif message:
                self.rows.append(("message", *message.groups()))
            else:
                raise SystemExit(f"drawings.py: no such line in a sequence: {line}")
        self._measure()

    def _measure(self):
        """Columns as wide as the longest words between two neighbours."""
        order = {key: n for n, key in enumerate(self.who)}
        gaps = [170] * (len(order) - 1)
        for row in self.rows:
            if row[0] == "message" and abs(order[row[1]] - order[row[2]]) == 1:
                left = min(order[row[1]], order[row[2]])
                gaps[left] = max(gaps[left], int(6.6 * len(row[3])) + 30)
        places, x = [], 85
        for gap in [*gaps, 0]:
            places.append(x)
            x += gap
        self.at = {key: places[n] for key, n in order.items()}
        self.width = places[-1] + 85
        self.height = 62 + sum(34 if row[0] == "step" else 30 for row in self.rows) + 12

    def svg(self, colours):
        canvas = Canvas(self.width, self.height, colours, self.title)
        for key, name in self.who.items():
            canvas.line(self.at[key], 44, self.at[key], self.height - 8, colours.line, dashed=True)
            canvas.box(self.at[key] - 62, 12, 124, 30, colours.box, colours.line)
            canvas.text(self.at[key], 32, name, colours.text, 13, bold=True)
        y = 62
        for row in self.rows:
            y = self._row(canvas, colours, row, y)
        return canvas.svg()

    def _row(self, canvas, colours, row, y):
        """Draws a row at this height, and gives the height of the next one."""
        if row[0] == "step":
            canvas.box(8, y + 2, self.width - 16, 22, colours.band)
            canvas.text(18, y + 17, row[1], colours.accent, 12, "start", bold=True)
            return y + 34
        if row[0] == "note":
            wide = int(6.4 * len(row[2])) + 20
            x = min(max(self.at[row[1]] - wide // 2, 4), self.width - wide - 4)
            canvas.box(x, y, wide, 22, colours.box, colours.line)
            canvas.text(x + wide // 2, y + 15, row[2], colours.text)
            return y + 30
        start, end = self.at[row[1]], self.at[row[2]]
        middle, wide = (start + end) // 2, int(6.4 * len(row[3])) + 8
        canvas.arrow(start, end, y + 20, colours.accent)
        # the words of a long arrow cross the lines of those between
        canvas.box(middle - wide // 2, y + 3, wide, 14, colours.back)
        canvas.text(middle, y + 14, row[3], colours.text)
        return y + 30


# ---- layers

def needs_of_crates():
    """The crates of crates.txt, and the crates that each needs."""
    needs = {}
    for line in (ROOT / "crates.txt").read_text(encoding="utf8").split("\n"):
        if line and not line.startswith("#"):
            crate, _, libraries = line.partition(":")
            needs[crate] = libraries.split()
    return {crate: [one for one in every if one in needs] for crate, every in needs.items()}


class Layers:
    """A table of crates, a row a service and a column a layer."""

    def __init__(self, text):
        lines = [line for line in text.split("\n") if line]
        self.title = lines[0].removeprefix("title ")
        self.layers = [part.strip() for part in lines[1].removeprefix("layers ").split("|")]
        self.rows = []
        for line in lines[2:]:
            name, *cells = [part.strip() for part in line.split("|")]
            self.rows.append((name, [cell.split() for cell in cells]))
        self.needs = needs_of_crates()
        self.place = {
            crate: (name, column)
            for name, cells in self.rows
            for column, cell in enumerate(cells)
            for crate in cell
        }

    def faults(self):
        """Crates without a place or with two, and needs that go against the layers."""
        named = [crate for _, cells in self.rows for cell in cells for crate in cell]
        for crate in self.needs:
            if named.count(crate) != 1:
                yield f"layers.txt names {crate} {named.count(crate)} times"
        for crate in sorted(set(named) - set(self.needs)):
            yield f"layers.txt has {crate}, and crates.txt doesn't"
        for crate in filter(self.place.get, self.needs):
            for other in filter(self.place.get, self.needs[crate]):
                if not self._may_need(self.place[crate], self.place[other]):
                    yield f"{crate} needs {other}, against the order of rows and columns"

    def _may_need(self, own, other):
        """Upwards, or in its own row to the left; laws of runs need the office too. No definition
        or law needs a machine."""
        names, machines = [name for name, _ in self.rows], self.layers.index("Machines")
        if other[1] == machines and own[1] != machines:
            return False
        if own[1] > machines:
            return True
        row, its_row = names.index(own[0]), names.index(other[0])
        return its_row < row or its_row == row and other[1] <= own[1]

    def svg(self, colours):
        head, wide, gap = 150, 172, 8
        heights = [max(34, 18 * max(len(cell) for cell in cells) + 14) for _, cells in self.rows]
        width = head + (wide + gap) * len(self.layers) + 8
        canvas = Canvas(width, 52 + sum(heights) + gap * len(heights), colours, self.title)
        for column, layer in enumerate(self.layers):
            x = head + (wide + gap) * column
            canvas.text(x + wide // 2, 26, layer, colours.accent, 12, bold=True)
        y = 40
        for (name, cells), height in zip(self.rows, heights):
            canvas.box(4, y, width - 12, height, colours.band)
            canvas.text(14, y + 22, name, colours.text, 13, "start", bold=True)
            for column, cell in enumerate(cells):
                self._cell(canvas, colours, head + (wide + gap) * column, y, wide, cell)
            y += height + gap
        return canvas.svg()

    @staticmethod
    def _cell(canvas, colours, x, y, wide, crates):
        if crates:
            canvas.box(x, y + 4, wide, 18 * len(crates) + 6, colours.box, colours.line)
        for n, crate in enumerate(crates):
            canvas.text(x + wide // 2, y + 19 + 18 * n, crate, colours.text)


# ---- all of them

def drawing_of(path):
    text = path.read_text(encoding="utf8")
    return Layers(text) if path.stem == "layers" else Sequence(text)


def main():
    faults = []
    for path in sorted(PICTURES.glob("*.txt")):
        drawing = drawing_of(path)
        faults += drawing.faults() if isinstance(drawing, Layers) else []
        for suffix, colours in PALETTES.items():
            target, svg = PICTURES / f"{path.stem}{suffix}.svg", drawing.svg(colours)
            if "--write" in sys.argv:
                target.write_text(svg, encoding="utf8")
            elif not target.exists() or target.read_text(encoding="utf8") != svg:
                faults.append(f"{target.relative_to(ROOT)} isn't up to date: drawings.py --write")
    print("\n".join([*faults, f"drawings: {len(faults)} faults"]))
    return 1 if faults else 0


if __name__ == "__main__":
    sys.exit(main())
