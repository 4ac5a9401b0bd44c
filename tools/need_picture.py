"""Draws what comes of a script over the heap's size, as an SVG: how many calls wait, what is evicted, and how many are killed."""
import os
from html import escape

from drawing import AMBER, FAINT, GREEN, INK, LEFT, MUTED, RED, STYLE, TOP
from trials import GREATEST_HEAP, LEAST_HEAP

WIDTH, CHART, RIGHT = 760, 220, 24
# What is counted, and how it is drawn: of the same number the later lies above.
CURVES = (
    ("waits", "calls that wait for room", AMBER, ""),
    ("evictions", "evicted from a cache", GREEN, ""),
    ("kills", "killed to free heap", RED, ""),
)


class NeedPicture:
    """The picture of a need: a line for each thing that is counted, and one for each heap that was found."""

    def __init__(self, need, path):
        self.need, self.file = need, os.path.basename(path)
        self.title = os.path.splitext(self.file)[0].replace("_", " ")
        self.first = LEAST_HEAP
        # A little of what is enough is shown too.
        self.last = min(GREATEST_HEAP, max(need.top, LEAST_HEAP + 1024) + max(need.top - LEAST_HEAP, 1024) // 16)
        self.samples = [need.sample(it) for it in self.heaps()]
        self.most = max(1, *(getattr(it, name) for it in self.samples for name, *_ in CURVES))
        self.top, self.bottom = TOP + 62, TOP + 62 + CHART
        self.parts = []

    def heaps(self):
        told = [it for it in (self.need.found, self.need.enough) if it]
        just_below = [it - 1 for it in told if it > self.first]
        return sorted({self.first, *self.need.steps(self.first, self.last), *told, *just_below})

    def x(self, heap):
        return LEFT + (WIDTH - LEFT - RIGHT) * (heap - self.first) / (self.last - self.first)

    def y(self, count):
        return self.bottom - CHART * count / self.most

    def text(self, x, y, words, kind="", anchor="start"):
        self.parts.append(f'<text x="{x:.1f}" y="{y:.1f}" class="{kind}" text-anchor="{anchor}">{escape(words)}</text>')

    def line(self, x, y, to_x, to_y, colour, more=""):
        self.parts.append(f'<line x1="{x:.1f}" y1="{y:.1f}" x2="{to_x:.1f}" y2="{to_y:.1f}" stroke="{colour}"{more}/>')

    def draw(self):
        self.text(24, TOP + 14, f"{self.title}: what comes of it under each heap", "title")
        self.text(24, TOP + 34, f"{self.file}, in its own order, under {len(self.samples)} heaps", "number")
        self.axes()
        for name, _, colour, more in CURVES:
            self.curve([(it.heap, getattr(it, name)) for it in self.samples], colour, more)
        self.marks()
        self.legend(self.bottom + 62)
        height = self.bottom + 82
        size = f'width="{WIDTH}" height="{height}" viewBox="0 0 {WIDTH} {height}"'
        return "\n".join([
            f'<svg xmlns="http://www.w3.org/2000/svg" {size} role="img">', f"<title>{escape(self.title)}</title>",
            f"<style>{STYLE}</style>", '<rect width="100%" height="100%" rx="8" fill="#ffffff"/>', *self.parts, "</svg>", "",
        ])

    def axes(self):
        every = next(it for it in (1, 2, 5, 10, 20, 50, 100, 200, 500, 1000, 100000) if self.most / it <= 6)
        for count in range(0, self.most + 1, every):
            self.line(LEFT, self.y(count), WIDTH - RIGHT, self.y(count), FAINT)
            self.text(LEFT - 8, self.y(count) + 3.5, str(count), "number", "end")
        for heap in (self.first, self.last):
            self.text(self.x(heap), self.bottom + 16, str(heap), "number", "middle" if heap == self.first else "end")
        self.text(24, self.top - 12, "how many", "number")

    def curve(self, points, colour, more):
        """Steps from heap to heap: what was counted holds up to the next one that was tried."""
        path = f"M{self.x(points[0][0]):.1f} {self.y(points[0][1]):.1f}"
        for heap, count in points[1:]:
            path += f"H{self.x(heap):.1f}V{self.y(count):.1f}"
        self.parts.append(f'<path d="{path}" fill="none" stroke="{colour}" stroke-width="1.8"{more}/>')

    def marks(self):
        """The found heap and the one that is enough; their names stand below the axis."""
        for heap, words, y, colour in ((self.need.found, "found", 30, MUTED), (self.need.enough, "enough", 44, INK)):
            if heap:
                self.line(self.x(heap), self.top - 6, self.x(heap), self.bottom + y - 9, colour, ' stroke-dasharray="3 3"')
                side = "end" if self.x(heap) > WIDTH / 2 else "start"
                self.text(self.x(heap), self.bottom + y, f"{words}: {heap} bytes", "said", side)

    def legend(self, y):
        x = LEFT
        for _, words, colour, more in CURVES:
            self.line(x, y, x + 22, y, colour, f' stroke-width="2.4"{more}')
            self.text(x + 28, y + 4, words)
            x += 200
