"""Follows a process through its program: which statement each of its calls is, with which operands.

A report tells every reply, so registers are known as they were. One thing it doesn't tell: which program an `exec` began.
Each program is taken for it as long as the process's calls are those that it would make; of those that are left at the end
the one that has the name of the executed file comes first.
"""
import os
import re
from dataclasses import dataclass, field

from script import Register

ERRNOS = {name: int(number) for name, number in (it.split() for it in """
EPERM 1, ENOENT 2, ESRCH 3, ENXIO 6, ENOEXEC 8, EBADF 9, ECHILD 10, EAGAIN 11, ENOMEM 12, EACCES 13, EFAULT 14, EBUSY 16, EEXIST 17,
ENOTDIR 20, EISDIR 21, EINVAL 22, EMFILE 24, EFBIG 27, ENOSPC 28, ESPIPE 29, EMLINK 31, EPIPE 32, EDEADLK 35, ENAMETOOLONG 36,
ENOTEMPTY 39, EOVERFLOW 75, ENOTSOCK 88, EDESTADDRREQ 89, EOPNOTSUPP 95, EADDRINUSE 98, EISCONN 106, ENOTCONN 107,
ECONNREFUSED 111""".replace("\n", " ").split(","))}
MOST_WAYS = 64


def values_of(reply):
    """The two values of a reply, as registers get them."""
    words = reply.split()
    if reply in ERRNOS:
        return -ERRNOS[reply], 0
    if re.fullmatch(r"x([0-9a-f]{2})*", reply):
        return int(reply[1:3] or "0", 16), 0
    if words[0] in ("file", "dir", "sock", "pipe", "fifo"):
        return int(words[1]), int(words[3])
    if len(words) == 3 and words[1] in ("exit", "signal"):
        return int(words[0]), int(words[2]) * (256 if words[1] == "exit" else 1)
    if len(words) > 1 and words[1] == "revents":
        return int(words[0]), sum(int(it) * 256 ** at for at, it in enumerate(words[2:]))
    return int(words[0]), int(words[1]) if len(words) > 1 else 0


def wrapped(number):
    """A number modulo 2 to the 64, with a sign."""
    return (number + 2 ** 63) % 2 ** 64 - 2 ** 63


def quoted(said):
    """A text as a script has it."""
    escapes = {10: r"\n", 34: r"\"", 92: r"\\"}
    letters = (escapes.get(it) or (chr(it) if 32 <= it < 127 else rf"\x{it:02x}") for it in said)
    return f'"{"".join(letters)}"'


@dataclass
class Said:
    """What a call was in the script: the line of its statement, and its operands as they were."""

    line: int
    operands: list

    def text(self):
        return " ".join(quoted(it) if isinstance(it, bytes) else str(it) for it in self.operands)


@dataclass
class Control:
    """One way on which a process may be: its program, its place there, its registers, and what its calls so far were."""

    script: object
    program: object
    place: int = 0
    registers: list = field(default_factory=lambda: [0] * 16)
    said: dict = field(default_factory=dict)
    made: object = None

    def value(self, operand):
        return self.registers[operand.number] if isinstance(operand, Register) else operand

    def holds(self, left, test, right):
        left, right = self.value(left), self.value(right)
        return {"==": left == right, "!=": left != right, "<": left < right, "<=": left <= right}[test]

    def next_call(self):
        """Goes on to the next call: its name, and what it is in the script."""
        while self.place < len(self.program.statements):
            statement = self.program.statements[self.place]
            call = self.step(statement)
            if call:
                self.made = statement
                operands = statement.operands if statement.word != "loop" else []
                return call, Said(statement.line, [self.value(it) for it in operands])
        self.made = None
        return "exit", Said(self.program.end, [0])

    def step(self, statement):
        """Does what a statement does; it stays at one that makes a call, of which it tells the name."""
        word, operands = statement.word, statement.operands
        if word in ("set", "add"):
            before = self.registers[operands[0].number] if word == "add" else 0
            self.registers[operands[0].number] = wrapped(before + self.value(operands[1]))
        elif word == "loop" and self.registers[operands[0].number] > 0:
            self.registers[operands[0].number] -= 1
            return "sched_yield"
        elif word == "jump" or word == "if" and self.holds(*operands[:3]):
            self.place = self.program.place(statement.label)
            return None
        elif word not in ("label", "loop", "if"):
            return word
        self.place += 1
        return None

    def answered(self, first, second):
        """Goes on behind a call with these values."""
        if self.made is None:
            return
        if self.made.word == "loop":
            self.place = self.program.place(self.made.label)
            return
        for register, number in zip(self.made.gets, (first, second)):
            self.registers[register] = number
        self.place += 1

    def copy(self, **changes):
        parts = {"registers": list(self.registers), "said": dict(self.said), "place": self.place, "program": self.program,
                 "made": self.made}
        return Control(self.script, **{**parts, **changes})


class Follower:
    """All the ways on which a process may be, as its report has gone so far."""

    def __init__(self, ways):
        self.ways, self.count = ways, 0

    @staticmethod
    def first(script):
        return Follower([Control(script, script.programs["init"])])

    def ask(self, name):
        """A call of this name is made; whether any way leads there. Its number among the process's calls goes up."""
        ways = []
        for way in self.ways:
            called, said = way.next_call()
            if called == name:
                way.said[self.count] = said
                ways.append(way)
        self.count += 1
        self.ways = ways[:MOST_WAYS]
        return bool(ways)

    def may_make(self, name):
        """Whether on some way a call of this name is the next."""
        return any(way.copy().next_call()[0] == name for way in self.ways)

    def answer(self, reply):
        for way in self.ways:
            way.answered(*values_of(reply))

    def execute(self):
        """An `exec` has succeeded: some program begins, first of all the one of the file's name."""
        ways = []
        for way in self.ways:
            path = way.said[self.count - 1].operands[0].decode(errors="replace")
            names = sorted(way.script.programs, key=lambda name: name != os.path.basename(path))
            ways += [way.copy(program=way.script.programs[name], place=0) for name in names]
        self.ways = ways

    def child(self):
        """The ways of a child that is made now, which is told 0."""
        ways = [way.copy(said={}) for way in self.ways]
        for way in ways:
            way.answered(0, 0)
        return Follower(ways)

    def said(self):
        """What each call was, by its number; nothing where no way is left."""
        return self.ways[0].said if self.ways else {}
