"""Makes a script smaller while something still holds of it: lines, operands and processes are left out, texts and numbers get less.

A text is taken on only if it is a script, if what was asked still holds of it, and if it is smaller: it has fewer lines, or as
many with fewer letters. So it ends, with a script of which no one step can be taken any more, or after so many tries.
"""
import re

from language import BLANKS, CALLS
from script import BadScript
from trials import Source

MOST_TRIES = 4000
NUMBER = re.compile(r"-?[0-9]+")


def size_of(text):
    """What is to become less: how many lines there are, and how many letters."""
    return len(text.rstrip(b"\n").split(b"\n")), len(text)


class Shrinker:
    """A script that gets smaller; `holds` is asked of each smaller one whether it is still so."""

    def __init__(self, source, holds, most=MOST_TRIES):
        self.source, self.holds, self.tries = source, holds, most
        self.seen = {source.text}

    def lines(self):
        return self.source.text.rstrip(b"\n").split(b"\n")

    def take(self, lines):
        """Takes these lines on where they are a smaller script of which it is still so; whether it did."""
        text = b"\n".join(lines) + b"\n"
        if text in self.seen or size_of(text) >= size_of(self.source.text) or self.tries == 0:
            return False
        self.seen.add(text)
        try:
            smaller = Source(text)
        except BadScript:
            return False
        self.tries -= 1
        if not self.holds(smaller):
            return False
        self.source = smaller
        return True

    def shrink(self):
        """Takes one step after another, as long as one can be taken; the script that is left."""
        before = None
        while before != self.source.text and self.tries:
            before = self.source.text
            self.leave_out_programs()
            self.leave_out_lines()
            self.leave_out_children()
            self.shorten_lines()
        return self.source

    def leave_out_programs(self):
        for program in reversed(list(self.source.script.programs.values())):
            lines = self.lines()
            self.take(lines[:program.line - 1] + lines[program.end:])

    def leave_out_lines(self):
        """Many lines together first, then fewer, at last each alone and each with another one, as a label and who goes there."""
        count = len(self.lines()) // 2
        while count:
            start = 0
            while start < len(self.lines()):
                lines = self.lines()
                if not self.take(lines[:start] + lines[start + count:]):
                    start += count
            count //= 2
        self.leave_out_labels()

    def leave_out_labels(self):
        """A label goes with all lines that go there, and where that isn't possible with one of them."""
        for name in {it.group(1) for it in re.finditer(rb"(?m)^\s*label\s+(\w+)", self.source.text)}:
            word = re.compile(rb"\b" + name + rb"\s*$")
            lines = self.lines()
            self.take([it for it in lines if not (word.search(it) and re.match(rb"\s*(label|if|jump|loop)\b", it))])

    def leave_out_children(self):
        """A fork is left out, and its process goes on as the parent, or as the child."""
        for at in range(len(self.lines())):
            lines = self.lines()
            fork = at < len(lines) and re.fullmatch(rb"\s*(?:(r[0-9]+) = )?fork\s*", lines[at])
            if fork and fork[1]:
                self.take([*lines[:at], b"set " + fork[1] + b" 9", *lines[at + 1:]])

    def shorten_lines(self):
        at = 0
        while at < len(self.lines()):
            lines = self.lines()
            shorter = (it for it in shorter_lines(lines[at].decode()) if self.take([*lines[:at], it.encode(), *lines[at + 1:]]))
            # The same line is tried again as long as it gets shorter.
            at += 0 if next(shorter, None) is not None else 1


def shorter_lines(line):
    """Forms of a line with less in it."""
    stripped = line.strip(BLANKS)
    if stripped != line:
        yield stripped
    words = re.findall(r'"(?:\\.|[^"\\])*"|\S+', line)
    if words[:1] == ["#"] or not words:
        return
    yield from without_words(words)
    for at in range(1, len(words)):
        for word in shorter_words(words[at]):
            yield " ".join([*words[:at], word, *words[at + 1:]])


def without_words(words):
    """A call without the registers that get its values, a poll without a pair, and choices without the last half of them."""
    if "=" in words[1:3]:
        yield " ".join(words[words.index("=") + 1:])
    if words[0] == "choices":
        yield " ".join(words[:1 + len(words) // 2])
        yield " ".join(words[:-1])
    behind = words.index("=") + 1 if "=" in words[1:3] else 0
    if words[behind:behind + 1] == ["poll"]:
        for at in range(behind + 2, len(words) - 1, 2):
            yield " ".join(words[:at] + words[at + 2:])
    if words[behind:] and words[behind] in CALLS and words[behind] not in ("sched_yield", "exit"):
        yield " ".join([*words[:behind], "getpid"])


def shorter_words(word):
    """Forms of an operand with less in it: 0 or less of a number, fewer constants, half of a text."""
    if NUMBER.fullmatch(word):
        number = int(word)
        yield from (str(it) for it in dict.fromkeys((0, 1, number // 2)) if abs(it) < abs(number))
    elif "|" in word:
        parts = word.split("|")
        yield from ("|".join(parts[:at] + parts[at + 1:]) for at in range(len(parts)))
    elif word.startswith('"') and len(word) > 3 and "\\" not in word:
        yield f'"{word[1:1 + (len(word) - 2) // 2]}"'
        yield f'"{word[1:-2]}"'
