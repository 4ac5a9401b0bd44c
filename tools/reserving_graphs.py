"""Draws the graphs of docs/RESERVING.md as SVGs: a panel for each load, in which the heaps stand from left to right.

Each picture has its colours for a light page and for a dark one, and follows the reader's choice.
"""
import math
from dataclasses import dataclass
from html import escape

from drawing import width_of

WIDTH, HEIGHT, LEFT, GAP, ABOVE, BELOW = 396, 180, 54, 82, 112, 46
STYLE = """
text { font-family: Helvetica, Arial, 'DejaVu Sans', sans-serif; font-size: 11px; fill: #1f2933; }
.title { font-size: 15px; font-weight: bold; }
.panel { font-size: 13px; font-weight: bold; }
.muted { font-size: 10px; fill: #5a6673; }
.paper { fill: #ffffff; }
line { stroke: #e3e8ee; }
.out, .kill { fill: #cf3a3a; stroke: #cf3a3a; }
.vain, .refusal { fill: #2f6fd0; stroke: #2f6fd0; }
.wait { fill: #e8a317; stroke: #e8a317; }
.eviction { fill: #4d9c8c; stroke: #4d9c8c; }
rect { stroke-width: 0; }
@media (prefers-color-scheme: dark) {
text { fill: #e6ebf0; }
.muted { fill: #9aa7b4; }
.paper { fill: #11161c; }
line { stroke: #2c3640; }
.out, .kill { fill: #f06f6f; stroke: #f06f6f; }
.vain, .refusal { fill: #6ea1f2; stroke: #6ea1f2; }
.wait { fill: #efb440; stroke: #efb440; }
.eviction { fill: #6cc0af; stroke: #6cc0af; }
}
""".strip()


@dataclass
class Scale:
    """Where a value stands between the bottom of a panel, 0, and its top, 1, and the values that have a line of their own."""

    place: object
    ticks: list


def percents(most):
    """From 0 to the next ten."""
    top = max(1, math.ceil(most / 10)) * 10
    return Scale(lambda it: it / top, [(it, f"{it}%") for it in range(0, top + 1, 10)])


def powers(most):
    """Powers of ten from 1 on, each as high above the one before; there is some room above the most."""
    whole = math.log10(2 * most)
    return Scale(lambda it: math.log10(max(it, 1)) / whole, [(10 ** it, f"{10 ** it}") for it in range(int(whole) + 1)])


class Graph:
    """A picture of four panels."""

    def __init__(self, title, said, legend, scale, loads, heaps):
        self.title, self.scale, self.heaps = title, scale, heaps
        self.width = 2 * (LEFT + WIDTH + 12) + 12
        self.height = ABOVE + (len(loads) + 1) // 2 * (HEIGHT + GAP) - GAP + BELOW
        self.drawn, self.corners = [], {}
        self.text(24, 28, title, "title")
        self.text(24, 47, said, "muted")
        self.legend(legend)
        for place, load in enumerate(loads):
            self.corners[load] = LEFT + place % 2 * (LEFT + WIDTH + 12), ABOVE + place // 2 * (HEIGHT + GAP)
            self.panel(load)

    def text(self, x, y, words, kind="", anchor="start"):
        self.drawn.append(f'<text x="{x:.1f}" y="{y:.1f}" class="{kind}" text-anchor="{anchor}">{escape(words)}</text>')

    def line(self, x, y, to_x, to_y, more=""):
        self.drawn.append(f'<line x1="{x:.1f}" y1="{y:.1f}" x2="{to_x:.1f}" y2="{to_y:.1f}"{more}/>')

    def box(self, x, y, width, height, kind):
        self.drawn.append(f'<rect x="{x:.1f}" y="{y:.1f}" width="{width:.1f}" height="{height:.1f}" class="{kind}"/>')

    def legend(self, legend):
        """What each colour is, in a row."""
        x = 24
        for kind, words in legend:
            self.box(x, 60, 12, 12, kind)
            self.text(x + 18, 70, words)
            x += 42 + width_of(words)

    def panel(self, load):
        """A panel's name, its lines with their values, and below it the heaps."""
        x, y = self.corners[load]
        self.text(x, y - 14, load, "panel")
        for value, words in self.scale.ticks:
            at = self.y(load, value)
            self.line(x, at, x + WIDTH, at)
            self.text(x - 6, at + 3.5, words, "muted", "end")
        for heap in self.heaps:
            self.text(self.x(load, heap), y + HEIGHT + 15, f"{heap // 1024}", "muted", "middle")
        self.text(x + WIDTH / 2, y + HEIGHT + 31, "heap, in units of 1024 bytes", "muted", "middle")

    def x(self, load, heap):
        """The middle of a heap's place."""
        return self.corners[load][0] + WIDTH * (self.heaps.index(heap) + 0.5) / len(self.heaps)

    def y(self, load, value):
        return self.corners[load][1] + HEIGHT * (1 - self.scale.place(value))

    def stack(self, load, heap, parts):
        """Values one above the other, each by its kind."""
        below = 0
        for kind, value in parts:
            low, high = self.y(load, below), self.y(load, below + value)
            self.box(self.x(load, heap) - 14, high, 28, low - high, kind)
            below += value

    def bars(self, load, heap, parts):
        """Values side by side, each by its kind and with its number; one that is 0 has no bar."""
        there = [it for it in parts if it[1]]
        for place, (kind, value) in enumerate(there):
            # So far apart that each number has room.
            middle, high = self.x(load, heap) + 20 * (place - (len(there) - 1) / 2), self.y(load, value)
            self.box(middle - 6, high, 12, self.y(load, 1) - high, kind)
            self.text(middle, high - 4, f"{value}", "muted", "middle")

    def reach(self, load, heap, kind, mean, most):
        """A bar up to the mean and a line from there up to the most, or that there is none."""
        x, bottom = self.x(load, heap), self.y(load, 1)
        if mean is None:
            self.text(x, bottom - 4, "none", "muted", "middle")
            return
        middle, high, line = self.y(load, mean), self.y(load, most), f' class="{kind}"'
        self.box(x - 10, middle, 20, bottom - middle, kind)
        self.line(x, middle, x, high, line)
        self.line(x - 6, high, x + 6, high, line)
        self.text(x, high - 4, f"{most}", "muted", "middle")

    def svg(self):
        size = f'width="{self.width}" height="{self.height}" viewBox="0 0 {self.width} {self.height}"'
        return "\n".join([
            f'<svg xmlns="http://www.w3.org/2000/svg" {size} role="img">', f"<title>{escape(self.title)}</title>",
            f"<style>{STYLE}</style>", '<rect width="100%" height="100%" rx="8" class="paper"/>', *self.drawn, "</svg>", "",
        ])
