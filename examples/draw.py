#!/usr/bin/env python3
"""Draws the chart of a module through a stem, as SVG or as a page.

    draw.py STEM [OPTION..] <MODULE.json >CHART.svg

    --rows S          the last row; else half of the stems and two, rounded up: all of Ext there but for towers of h0
    --from STEM       the first stem that is drawn; else the module's least degree
    --lines h0,h2     the products that are drawn, of h0 to h3; else h0,h1,h2
    --names FILE      a file of names as names.txt, which are those of the sphere
    --arrows FILE     differentials and hidden extensions, a line each: `d2 h4 h0h3^2` or `2 3,23,0 5,25,0`. The kinds are d2, d3, .. and
                      2, eta, nu, sigma; behind them stand two classes, each a name or s,t,i or a sum of these with + between them
    --right STEM      from this stem on the chart is not that of the whole module, and it is drawn on grey
    --title TEXT      a line above the chart
    --page            one HTML page in place of SVG: the wheel enlarges, the pointer moves it and shows a class, with its name and products

A dot is a class, or a sum of classes: its stem t - s across, its row s upwards. At a dot most viewers show (s,t,i), its name and its products. The
basis of a square is made for the picture: first come the images of the dots below by h0, then those by h1, by h2 and by h3, then classes with
names, then others, so that most products of a dot are one dot. An arrow at the top says that the product by h0 above is not zero. A line that
leaves the picture at an edge is a product that lies outside. The script runs the program for the least degree and for the table, and with --arrows
for products that stand in the file.
"""
import argparse
import html
import itertools
import re
import sys
from collections import namedtuple
from common import bottom_of, h, lines_of, table, written
from independent import Echelon
from names import Names, bits_of, sum_of

STEP, EDGE, DOT = 24, 40, 2.4
COLOURS = {0: "#000", 1: "#000", 2: "#36c", 3: "#c63"}
EXTENSIONS = {"2": 0, "eta": 1, "nu": 3, "sigma": 7}
Arrow = namedtuple("Arrow", "kind source target")


def options():
    parser = argparse.ArgumentParser(usage=__doc__.strip(), add_help=False, allow_abbrev=False)
    parser.add_argument("stem", type=int)
    for name, kind in (("--rows", int), ("--from", int), ("--right", int), ("--lines", str), ("--names", str), ("--arrows", str), ("--title", str)):
        parser.add_argument(name, type=kind)
    parser.add_argument("--page", action="store_true")
    words = parser.parse_args()
    lines = ["h0", "h1", "h2"] if words.lines is None else [it for it in words.lines.split(",") if it]
    if not set(lines) <= {f"h{k}" for k in COLOURS}:
        parser.error(f"--lines {words.lines}")
    words.lines = sorted(int(it[1:]) for it in lines)
    return words


# ---- the basis


class Square:
    """The classes of a square by a basis: vectors over the program's classes, bit i for number i."""

    def __init__(self, dimension):
        self.dimension, self.basis, self.solver = dimension, [], Echelon()

    def add(self, vector):
        if self.solver.add(vector, 1 << len(self.basis))[0]:
            self.basis.append(vector)

    def coordinates(self, vector):
        """The numbers of the basis vectors whose sum this is."""
        combination = self.solver.cleared(vector, 0)[1]
        return [j for j in range(len(self.basis)) if combination >> j & 1]


class Chart:
    """A table with a basis for pictures; names are by vector."""

    def __init__(self, made, names):
        self.made = made
        self.by = [made.products[h(k)] for k in COLOURS]
        self.names = names
        self.squares = {}
        for stem, s in sorted(made.counts, key=lambda it: it[::-1]):
            self.squares[s, stem + s] = self.adapted(s, stem + s)

    def product(self, k, s, t, vector):
        """h_k times a vector of a square; none where it is past the range."""
        total = 0
        for i in range(vector.bit_length()):
            if vector >> i & 1:
                if (s, t, i) not in self.by[k]:
                    return None
                total ^= bits_of(self.by[k][s, t, i])
        return total

    def adapted(self, s, t):
        square = Square(self.made.counts[t - s, s])
        for k in COLOURS:
            below = self.squares.get((s - 1, t - 2 ** k))
            for it in below.basis if below else []:
                square.add(self.product(k, s - 1, t - 2 ** k, it) or 0)
        for vector in self.names.get((s, t), {}):
            square.add(vector)
        images = square.basis[:6]
        for i in range(square.dimension):
            if square.solver.cleared(1 << i, 0)[0]:
                square.add(min(self.moved(1 << i, images), key=lambda it: self.lines_from(s, t, it)))
        return square

    def moved(self, vector, images):
        """The vector and its sums with images, the shortest sums first."""
        for n in range(len(images) + 1):
            for some in itertools.combinations(images, n):
                total = vector
                for it in some:
                    total ^= it
                yield total

    def lines_from(self, s, t, vector):
        return [bool(self.product(k, s, t, vector)) for k in COLOURS].count(True)

    def name(self, s, t, vector):
        return self.names.get((s, t), {}).get(vector, "")


# ---- what is drawn


def pretty(name):
    """A name with numbers set high and low."""
    raised = re.sub(r"\^(\d+)", lambda it: it[1].translate(str.maketrans("0123456789", "⁰¹²³⁴⁵⁶⁷⁸⁹")), name)
    return re.sub(r"(?<=[A-Za-z])(\d+)", lambda it: it[1].translate(str.maketrans("0123456789", "₀₁₂₃₄₅₆₇₈₉")), raised)


class Picture:
    """The places of things in the picture, and its lines of SVG."""

    def __init__(self, chart, words, first, rows):
        self.chart, self.words, self.first, self.rows = chart, words, first, rows
        self.last = words.stem
        self.lines, self.boxes, self.segments = [], [], []
        self.top = EDGE + (18 if words.title else 0)
        self.width = 2 * EDGE + (self.last - first) * STEP
        self.height = self.top + EDGE + rows * STEP

    def x(self, stem):
        return EDGE + (stem - self.first) * STEP

    def y(self, s):
        return self.height - EDGE - s * STEP

    def is_in(self, s, t):
        return self.first <= t - s <= self.last and 0 <= s <= self.rows

    def place(self, s, t, j):
        """Where number j of the basis of a square is drawn: those of one square stand side by side."""
        count = len(self.chart.squares[s, t].basis)
        # (so far aside that they stay apart from those of the next stem)
        aside = (2 * j - count + 1) * min(1.0, 2.2 / max(count - 1, 1))
        return self.x(t - s) + aside * 1.7 * DOT, self.y(s) + aside * 0.6 * DOT

    def put(self, line):
        self.lines.append(line)

    def text(self, x, y, words, more=""):
        self.put(f'<text x="{x:.1f}" y="{y:.1f}" {more}>{html.escape(words)}</text>')

    def path(self, start, end, more):
        self.put(f'<path d="M{start[0]:.1f} {start[1]:.1f}L{end[0]:.1f} {end[1]:.1f}" {more}/>')

    # -- the axes

    def axes(self):
        left, right, low, high = self.x(self.first) - STEP / 2, self.x(self.last) + STEP / 2, self.y(0) + STEP / 2, self.y(self.rows) - STEP / 2
        if self.words.right is not None and self.words.right <= self.last:
            x = max(left, self.x(self.words.right) - STEP / 2)
            self.put(f'<rect x="{x:.1f}" y="{high:.1f}" width="{right - x:.1f}" height="{low - high:.1f}" fill="#e6e6e6"/>')
            self.path((x, low), (x, high), 'stroke="#c00" stroke-dasharray="4 3"')
            self.text(right, high - 5, f"not right from stem {self.words.right} on", 'fill="#c00" text-anchor="end"')
        self.put('<g stroke="#eee">')
        for stem in range(self.first, self.last + 1):
            self.path((self.x(stem), low), (self.x(stem), high), 'stroke="#ccc"' if stem % 4 == 0 else "")
        for s in range(self.rows + 1):
            self.path((left, self.y(s)), (right, self.y(s)), 'stroke="#ccc"' if s % 4 == 0 else "")
        self.put('</g>')
        self.put(f'<path d="M{left:.1f} {high:.1f}V{low:.1f}H{right:.1f}" fill="none" stroke="#000"/>')
        self.put('<g text-anchor="middle">')
        for stem in range(self.first, self.last + 1):
            self.path((self.x(stem), low), (self.x(stem), low + (4 if stem % 2 == 0 else 2)), 'stroke="#000"')
            if stem % 2 == 0:
                self.text(self.x(stem), low + 13, str(stem).replace("-", "−"))
        for s in range(self.rows + 1):
            self.path((left, self.y(s)), (left - (4 if s % 2 == 0 else 2), self.y(s)), 'stroke="#000"')
            if s % 2 == 0:
                self.text(left - 11, self.y(s) + 3, str(s))
        self.text((left + right) / 2, low + 26, "t − s", 'font-style="italic" font-size="11"')
        self.text(left - 11, high - 1, "s", 'font-style="italic" font-size="11"')
        if self.words.title:
            self.text((left + right) / 2, 18, self.words.title, 'font-size="13"')
        self.put('</g>')
        frame = f'x="{left:.1f}" y="{high - 4:.1f}" width="{right - left:.1f}" height="{low - high + 4:.1f}"'
        self.put(f'<clipPath id="frame"><rect {frame}/></clipPath>')
        self.put('<marker id="up" markerWidth="6" markerHeight="6" refX="5" refY="3" orient="auto"><path d="M0 0L6 3L0 6z"/></marker>')

    # -- products

    def products(self, k):
        self.put(f'<g class="h{k}" stroke="{COLOURS[k]}" stroke-width="0.8"{" stroke-dasharray=" + chr(34) + "3 2" + chr(34) if k == 3 else ""}>')
        for (s, t), square in self.chart.squares.items():
            for j, vector in enumerate(square.basis if self.is_in(s, t) else []):
                self.product(k, s, t, j, vector)
        self.put("</g>")

    def product(self, k, s, t, j, vector):
        value, start = self.chart.product(k, s, t, vector), self.place(s, t, j)
        above = s + 1, t + 2 ** k
        if value and k == 0 and s == self.rows:
            self.path(start, (start[0], start[1] - 0.5 * STEP), 'marker-end="url(#up)"')
        elif value and not self.is_in(*above):
            self.line(start, (self.x(above[1] - above[0]), self.y(above[0])))
        elif value:
            for q in self.chart.squares[above].coordinates(value):
                self.line(start, self.place(*above, q))

    def line(self, start, end):
        self.segments.append((start, end))
        self.path(start, end, "")

    # -- differentials and hidden extensions

    def arrow(self, it):
        ends = []
        for s, t, vector in (it.source, it.target):
            numbers = self.chart.squares[s, t].coordinates(vector)
            ends.append(self.place(s, t, numbers[-1]))
        (x, y), (u, v) = ends
        if it.kind in EXTENSIONS:
            bend = (x + u) / 2 + (8 if it.kind == "2" else 0), (y + v) / 2 + (0 if it.kind == "2" else 8)
            way = f"M{x:.1f} {y:.1f}Q{bend[0]:.1f} {bend[1]:.1f} {u:.1f} {v:.1f}"
            more = 'fill="none" stroke="#092" stroke-dasharray="4 2"'
        else:
            way = f"M{x:.1f} {y:.1f}L{u:.1f} {v:.1f}"
            more = 'stroke="#c00" stroke-width="0.9" marker-end="url(#up)"'
        self.put(f'<path d="{way}" {more}><title>{it.kind}</title></path>')

    # -- dots and names

    def about(self, s, t, vector):
        """What is said at a dot."""
        chart = self.chart
        name = chart.name(s, t, vector)
        lines = [(f"{name} = " if name else "") + written(sum_of(s, t, vector)), f"stem {t - s}, row {s}"]
        for k in COLOURS:
            value = chart.product(k, s, t, vector)
            if value is not None:
                above = s + 1, t + 2 ** k
                called = chart.name(*above, value)
                lines.append(f"h{k}: {written(sum_of(*above, value))}{' = ' + called if called and value else ''}")
        return "\n".join(lines)

    def dots(self):
        self.put('<g class="dots">')
        for (s, t), square in self.chart.squares.items():
            for j, vector in enumerate(square.basis if self.is_in(s, t) else []):
                x, y = self.place(s, t, j)
                self.boxes.append((x - DOT, y - DOT, x + DOT, y + DOT))
                self.put(f'<circle cx="{x:.1f}" cy="{y:.1f}" r="{DOT}"><title>{html.escape(self.about(s, t, vector))}</title></circle>')
        self.put("</g>")

    def labels(self):
        self.put('<g font-family="serif" font-style="italic" font-size="9" stroke="#fff" stroke-width="2" paint-order="stroke">')
        for (s, t), square in self.chart.squares.items():
            for vector, name in self.chart.names.get((s, t), {}).items() if self.is_in(s, t) else []:
                # (a named sum of dots stands at the last of them)
                self.label(*self.place(s, t, square.coordinates(vector)[-1]), pretty(name))
        self.put("</g>")

    def label(self, x, y, words):
        """A name beside a dot, where it meets least of what is there."""
        wide = 4.6 * len(words)
        left, middle = -wide - 3, -wide / 2
        spots = (4, 9), (left, -3), (4, -4), (left, 9), (4, 3), (left - 1, 3), (middle, 12), (middle, -5)
        box = min(((x + a, y + b - 7, x + a + wide, y + b + 1) for a, b in spots), key=self.crowd)
        self.boxes.append(box)
        self.text(box[0], box[3] - 1, words)

    def crowd(self, box):
        """How much of what is drawn a box meets: dots and names weigh more than lines."""
        left, high, right, low = box
        met = 4 * sum(a < right and left < c and b < low and high < d for a, b, c, d in self.boxes)
        if not (EDGE - STEP / 2 < left and right < self.width - EDGE + STEP / 2 and low < self.y(0) + STEP / 2):
            met += 3
        for (x, y), (u, v) in self.segments:
            if min(x, u) < right and left < max(x, u) and min(y, v) < low and high < max(y, v):
                points = ((x + (u - x) * n / 12, y + (v - y) * n / 12) for n in range(13))
                met += any(left < a < right and high < b < low for a, b in points)
        return met

    def svg(self, arrows):
        self.put(f'<svg xmlns="http://www.w3.org/2000/svg" viewBox="0 0 {self.width} {self.height}" width="{self.width}" height="{self.height}"'
                 ' font-family="sans-serif" font-size="9">')
        self.put('<rect width="100%" height="100%" fill="#fff"/>')
        self.axes()
        self.put('<g clip-path="url(#frame)">')
        for k in sorted(self.words.lines, reverse=True):
            self.products(k)
        self.put("</g>")
        for it in arrows:
            self.arrow(it)
        self.dots()
        self.labels()
        self.put("</svg>")
        return "\n".join(self.lines) + "\n"


def arrows_of(file, names, picture):
    """The arrows of a file that lie in the picture; each has to lead where its kind says."""
    found = []
    for number, line in enumerate(lines_of(file), 1):
        words = line.split("#")[0].split()
        if not words:
            continue
        try:
            kind, *ends = words
            (s, t, x), (u, v, y) = source, target = [names.vector(it) for it in ends]
            stem = EXTENSIONS[kind] if kind in EXTENSIONS else -1
            if (v - u) - (t - s) != stem or not (kind in EXTENSIONS and u > s or re.fullmatch(r"d[1-9]\d*", kind) and u - s == int(kind[1:]) > 1):
                raise ValueError("leads elsewhere")
        except (ValueError, KeyError) as error:
            sys.exit(f"{file}:{number}: {line.strip()}: {error}")
        if picture.is_in(s, t) and picture.is_in(u, v):
            if any(bits >> picture.chart.squares[at].dimension if at in picture.chart.squares else True for at, bits in (((s, t), x), ((u, v), y))):
                sys.exit(f"{file}:{number}: {line.strip()}: there is no such class")
            found.append(Arrow(kind, source, target))
    return found


PAGE = """<!DOCTYPE html>
<html><head><meta charset="utf-8"><title>{title}</title>
<style>
html, body {{ margin: 0; height: 100%; overflow: hidden; font: 13px sans-serif }}
svg {{ width: 100%; height: 100%; cursor: grab }}
circle {{ cursor: pointer }}
circle.at {{ fill: #c00 }}
#about {{ position: fixed; left: 8px; top: 8px; padding: 6px 8px; background: #fffc; border: 1px solid #999; white-space: pre; min-width: 14em }}
#lines {{ position: fixed; right: 8px; top: 8px; padding: 6px 8px; background: #fffc; border: 1px solid #999 }}
</style></head><body>
{svg}<div id="about">wheel: larger or smaller; drag: move</div><div id="lines"></div>
<script>
"use strict";
const svg = document.querySelector("svg"), about = document.getElementById("about"), whole = svg.viewBox.baseVal;
let held = null;
// (the titles are shown in the corner, and not by the browser as well)
for (const dot of svg.querySelectorAll("circle")) {{
    const title = dot.querySelector("title");
    dot.dataset.about = title.textContent;
    title.remove();
    dot.addEventListener("pointerenter", () => {{ about.textContent = dot.dataset.about; dot.classList.add("at"); }});
    dot.addEventListener("pointerleave", () => dot.classList.remove("at"));
}}
for (const group of svg.querySelectorAll("g[class^=h]")) {{
    const box = document.createElement("input"), label = document.createElement("label");
    box.type = "checkbox";
    box.checked = true;
    box.onchange = () => {{ group.style.display = box.checked ? "" : "none"; }};
    label.append(box, group.getAttribute("class"), " ");
    document.getElementById("lines").prepend(label);
}}
const scale = () => Math.max(whole.width / svg.clientWidth, whole.height / svg.clientHeight);
svg.addEventListener("wheel", event => {{
    event.preventDefault();
    const point = new DOMPoint(event.clientX, event.clientY).matrixTransform(svg.getScreenCTM().inverse());
    const by = Math.exp(event.deltaY / 500);
    whole.x = point.x + (whole.x - point.x) * by;
    whole.y = point.y + (whole.y - point.y) * by;
    whole.width *= by;
    whole.height *= by;
}}, {{ passive: false }});
svg.addEventListener("pointerdown", event => {{ held = [event.clientX, event.clientY]; svg.setPointerCapture(event.pointerId); }});
svg.addEventListener("pointerup", () => {{ held = null; }});
svg.addEventListener("pointermove", event => {{
    if (held) {{
        whole.x -= (event.clientX - held[0]) * scale();
        whole.y -= (event.clientY - held[1]) * scale();
        held = [event.clientX, event.clientY];
    }}
}});
</script></body></html>
"""


def main():
    words = options()
    file = sys.stdin.buffer.read()
    bottom = bottom_of(file)
    first = bottom if getattr(words, "from") is None else getattr(words, "from")
    rows = words.rows if words.rows is not None else max(0, (words.stem - bottom + 1) // 2 + 2)
    # (so far that each product by h0 to h3 of a class in the picture is there)
    last = words.stem - bottom + 2 ** max(COLOURS) - 1
    if first > words.stem or rows < 0:
        sys.exit("draw.py: there is nothing to draw")
    if rows >= 127 or rows + 1 + last > 255:
        sys.exit(f"draw.py: this wants rows 0 to {rows + 1} and {last + 1} stems, and rows are at most 127, rows and stems together 255")
    names = Names(words.names)
    made = table(rows + 1, last, [h(k) for k in COLOURS], file, stems=True)
    picture = Picture(Chart(made, names.by_square()), words, first, rows)
    svg = picture.svg(arrows_of(words.arrows, names, picture) if words.arrows else [])
    sys.stdout.write(PAGE.format(title=html.escape(words.title or "chart"), svg=svg) if words.page else svg)


if __name__ == "__main__":
    main()
