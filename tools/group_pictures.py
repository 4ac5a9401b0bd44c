"""Draws a report of `kres groups` as an SVG: under a line on the whole the picture of each group's run, in their order.

A group that was refused has a line in place of a picture. With the text of the groups each picture tells what it would tell
of its script alone.
"""
import re
from html import escape

from drawing import FAINT, STYLE, TOP, Picture, Told, comment_of, folded
from report import NoReport, Run
from script import BadScript

GROUP = re.compile(r"group (?P<name>\S+) (?P<refused>refused )?heap (?P<heap>\d+)")
END = re.compile(r"end groups (?P<groups>\d+) refused (?P<refused>\d+)")
WHOLE = re.compile(r"\s*whole\s+(\d+)\s*")
FIRST_WORD = re.compile(rb"[ \t\r]*group(?:[ \t\r]|$)")
MOST = 300  # events of each group that are drawn


def is_of_groups(report):
    """Whether a report is one of groups: its last line tells."""
    return bool(END.fullmatch(report.splitlines()[-1] if report else ""))


def parts_of(report):
    """The line of each group, by its parts, with the lines that stand behind it: none where it was refused."""
    *lines, end = report.splitlines()
    parts = []
    for number, line in enumerate(lines, 1):
        head = GROUP.fullmatch(line)
        if head:
            parts.append((head, []))
        elif parts and not parts[-1][0]["refused"]:
            parts[-1][1].append(line)
        else:
            raise NoReport(f"line {number} is no line of a report of groups: {line[:60]}")
    refused = [head for head, _ in parts if head["refused"]]
    if end != f"end groups {len(parts)} refused {len(refused)}":
        raise NoReport(f"the groups that are told aren't those that the end tells: {end}")
    return parts


def sections_of(text):
    """What stands before the first group, and the script of each, by its name; what is no UTF-8 is read as it can be."""
    front, sections, lines = [], {}, []
    for line in text.split(b"\n"):
        if FIRST_WORD.match(line):
            lines = sections.setdefault(line.split()[1].decode(), []) if len(line.split()) > 1 else []
        else:
            (lines if sections else front).append(line)
    return [it.decode(errors="replace") for it in front], {name: b"\n".join(it) for name, it in sections.items()}


class Groups:
    """The pictures of the groups of a report, one below the other."""

    def __init__(self, report, path=None):
        self.told = Told(None)
        self.whole, front, sections = None, [], {}
        if path:
            self.told.name_by(path)
            with open(path, "rb") as file:
                front, sections = sections_of(file.read())
            self.whole = next((found[1] for found in map(WHOLE.fullmatch, front) if found), None)
        self.said = comment_of(front)
        self.end = END.fullmatch(report.splitlines()[-1])
        self.groups = [(head, None if head["refused"] else self.picture(head["name"], lines, sections)) for head, lines in parts_of(report)]

    def picture(self, name, lines, sections):
        """The picture of a group's run."""
        told = Told(None)
        told.title = f"group {name}"
        if name in sections:
            try:
                told.take(sections[name])
            except BadScript as fault:
                raise NoReport(f"the text of group {name}: {fault}") from None
        run = Run("\n".join(lines), told.script)
        return Picture(run, told, 1, min(len(run.events), MOST))

    def summary(self):
        whole = f", each behind a reservation of its whole heap, at most {self.whole} bytes together" if self.whole else ""
        file = f"{self.told.file}: " if self.told.file else ""
        return f"{file}{self.end['groups']} groups, {self.end['refused']} refused{whole}"

    def draw(self):
        drawn = [(head, picture and picture.draw(), picture) for head, picture in self.groups]
        width = max([620] + [picture.width for _, _, picture in drawn if picture])
        said = folded(self.said, width - 48, 12.5)
        parts = [f'<text x="24" y="{TOP + 14}" class="title">{escape(self.told.title)}</text>',
                 f'<text x="24" y="{TOP + 34}" class="number">{escape(self.summary())}</text>']
        parts += [f'<text x="24" y="{TOP + 54 + 17 * place}" class="said">{escape(line)}</text>' for place, line in enumerate(said)]
        y = TOP + 52 + 17 * len(said)
        for head, svg, picture in drawn:
            parts.append(f'<line x1="24" y1="{y:.0f}" x2="{width - 24:.0f}" y2="{y:.0f}" stroke="{FAINT}" stroke-width="2"/>')
            if picture:
                parts.append(svg.rstrip("\n").replace("<svg ", f'<svg y="{y:.0f}" ', 1))
                y += picture.height
            else:
                words = f"refused: its heap of {head['heap']} bytes is above the whole"
                parts.append(f'<text x="24" y="{y + TOP + 14:.0f}" class="title">group {escape(head["name"])}</text>')
                parts.append(f'<text x="24" y="{y + TOP + 34:.0f}" class="number">{words}</text>')
                y += TOP + 52
        size = f'width="{width:.0f}" height="{y:.0f}" viewBox="0 0 {width:.0f} {y:.0f}"'
        return "\n".join([
            f'<svg xmlns="http://www.w3.org/2000/svg" {size} role="img">',
            f"<title>{escape(self.told.title)}</title>",
            f"<style>{STYLE}</style>",
            '<rect width="100%" height="100%" rx="8" fill="#ffffff"/>',
            *parts, "</svg>", "",
        ])
