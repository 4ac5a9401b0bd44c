"""Reads a script as the program does, and tells of one that is at fault which word it is, and what may stand there.

The first line at fault is told, and of its faults the first in the list of kinds. A fault knows where it stands on the line,
what may stand there (`wanted`), and, of the commonest mistakes, what was probably meant (`hint`).
"""
import re
from collections import namedtuple
from dataclasses import dataclass, field
from itertools import permutations

import hints
from language import (BLANKS, CALLS, CONSTANTS, DEFAULTS, KINDS, MAY_STAND, MOST_BYTES, MOST_CHOICE, MOST_CHOICES,
                      MOST_PROGRAMS, NAME, NUMBERS, RANGES, REGISTER, SETTINGS, STATEMENTS, TESTS, form_of, may_stand)

Register = namedtuple("Register", "number")


class Fault(Exception):
    """A fault of a line: its kind, the columns from start to end at which it stands, what may stand there, and a hint."""

    def __init__(self, kind, start, end, wanted="", hint=""):
        super().__init__(kind)
        self.kind, self.start, self.end, self.wanted, self.hint = kind, start, max(end, start + 1), wanted, hint


class BadScript(Exception):
    """A text is no script: the line at fault, counted from 1 (0 where none is), and its fault."""

    def __init__(self, line, fault):
        super().__init__(f"bad script: line {line}: {fault.kind}")
        self.line, self.fault = line, fault


@dataclass
class Word:
    """A word of a line as it stands there, its columns, and the bytes that a text in quotes says."""

    text: str
    start: int
    end: int
    said: bytes = None

    def fault(self, kind, wanted="", hint=""):
        return Fault(kind, self.start, self.end, wanted, hint)


@dataclass
class Statement:
    """A line of a program: its word, its operands as they were read, and the registers that get a call's values."""

    line: int
    word: str
    operands: list
    gets: list = field(default_factory=list)
    label: Word = None


@dataclass
class Program:
    name: str
    line: int
    statements: list = field(default_factory=list)
    places: dict = field(default_factory=dict)
    end: int = None

    def place(self, label):
        return self.places[label.text]


def listed(names):
    """Names as a sentence has them."""
    names = list(names)
    return names[0] if len(names) == 1 else f"{', '.join(names[:-1])} and {names[-1]}"


# Words


def text_from(line, start):
    """The bytes of the text that begins with the quote at start, and where it ends."""
    said, at = bytearray(), start + 1
    while at < len(line):
        if line[at] == '"':
            return bytes(said), at + 1
        escape = re.compile(r'\\(?:([n\\"])|x([0-9A-Fa-f]{2}))').match(line, at)
        if line[at] == "\\" and not escape:
            hint = r'In a text \n is a newline, \\ a backslash, \" a quote, and \x41 the byte with these two digits.'
            raise Fault("unknown word", at, min(at + 2, len(line)), "an escape", hint)
        if escape:
            said += bytes([int(escape[2], 16)]) if escape[2] else {"n": b"\n"}.get(escape[1], escape[1].encode())
            at = escape.end()
        else:
            said += line[at].encode()
            at += 1
    raise Fault("unknown word", start, len(line), "a text", "The text is not closed: its second quote is missing.")


def words_of(line):
    """The words of a line, none of a comment."""
    words, at = [], 0
    if line.lstrip(BLANKS).startswith("#"):
        return words
    while at < len(line):
        if line[at] in BLANKS:
            at += 1
        elif line[at] == '"':
            said, end = text_from(line, at)
            if end < len(line) and line[end] not in BLANKS:
                hint = hints.NO_SIGNS if line[end] in ",;)" else "A blank stands behind a text in quotes."
                raise Fault("unknown word", end, len(line), "a blank", hint)
            words.append(Word(line[at:end], at, end, said))
            at = end
        else:
            end = next((it for it in range(at, len(line)) if line[it] in BLANKS), len(line))
            words.append(Word(line[at:end], at, end))
            at = end
    return words


# One word, read as an operand of some kind


def number_of(word, low, high, wanted):
    """A decimal number from low to high."""
    if not re.match(r"[0-9-]", word.text):
        raise word.fault("unknown word", wanted)
    if not re.fullmatch(r"-?[0-9]+", word.text):
        raise word.fault("bad number", wanted, hints.number_hint(word.text))
    number = int(word.text)
    if not low <= number <= high:
        raise word.fault("out of range", wanted, f"The number is from {low} to {high}.")
    return number


def value_of(word, name):
    """A register, a number, or constants that bars join."""
    wanted, parts = may_stand(name), word.text.split("|")
    if word.said is None and REGISTER.fullmatch(word.text):
        return Register(int(word.text[1:]))
    if word.said is None and re.match(r"[0-9-]", word.text):
        return number_of(word, -(2 ** 63), 2 ** 63 - 1, wanted)
    if word.said is None and all(it in NUMBERS for it in parts):
        number = 0
        for it in parts:
            number |= NUMBERS[it]
        return number
    raise word.fault("unknown word", wanted, hints.value_hint(word, name))


def text_of(word, name):
    """A path, or the bytes of store."""
    wanted = may_stand(name)
    if word.said is None:
        raise word.fault("unknown word", wanted, hints.text_hint(word, name))
    most = 64 if name == "TEXT" else 255
    if len(word.said) > most:
        raise word.fault("out of range", wanted, f"It has {len(word.said)} bytes, and {most} are the most.")
    if name != "TEXT" and 0 in word.said:
        raise word.fault("out of range", wanted, "A path has no byte that is zero.")
    return word.said


def register_of(word):
    if word.said is None and REGISTER.fullmatch(word.text):
        return Register(int(word.text[1:]))
    raise word.fault("unknown word", MAY_STAND["REGISTER"], hints.register_hint(word))


def name_of(word, name="NAME"):
    if word.said is None and NAME.fullmatch(word.text):
        return word.text
    raise word.fault("unknown word", MAY_STAND[name], hints.name_hint(word))


def test_of(word):
    if word.text in TESTS:
        return word.text
    raise word.fault("unknown word", MAY_STAND["TEST"], hints.test_hint(word.text))


def policy_of(word):
    if word.text in ("heaviest", "youngest"):
        return word.text
    raise word.fault("unknown word", MAY_STAND["POLICY"])


def operand_of(word, name):
    """What a word says as an operand of this name."""
    if name == "REGISTER":
        return register_of(word)
    if name == "TEST":
        return test_of(word)
    if name == "POLICY":
        return policy_of(word)
    if name in ("LABEL", "NAME"):
        return name_of(word, name)
    return text_of(word, name) if name in MAY_STAND else value_of(word, name)


# The words behind the first one of a line


def fits(word, name):
    try:
        operand_of(word, name)
        return True
    except Fault:
        return False


def all_fit(words, names):
    return all(map(fits, words, names))


def least(faults):
    """Of several faults of a line the one that is told."""
    return min(faults, key=lambda it: (KINDS.index(it.kind), it.start))


def each(readers):
    """What all these tell, or the least of their faults."""
    told, faults = [], []
    for reader in readers:
        try:
            told.append(reader())
        except Fault as fault:
            faults.append(fault)
    if faults:
        raise least(faults)
    return told


def comment_among(words):
    """The fault of words of which one begins a comment; None where none does."""
    comment = next((it for it in words if it.text.startswith(("#", ";", "/*")) or it.text == "//"), None)
    return comment and comment.fault("unknown word", "nothing", hints.COMMENT)


def too_few(head, words, names, form):
    """The fault of a statement that lacks an operand: the first at whose place something else stands."""
    lacks = next((at for at, word in enumerate(words) if not fits(word, names[at])), len(words))
    name = names[lacks]
    if lacks < len(words) and not any(fits(words[lacks], it) for it in names[lacks + 1:]):
        return least_of_words(words, names, form)
    start, end = (words[lacks].start, words[lacks].end) if lacks < len(words) else ((words or [head])[-1].end + 1,) * 2
    return Fault("unknown word", start, end, may_stand(name), f"{name} is missing: {form}")


def least_of_words(words, names, form):
    """The fault of the first word that doesn't fit, where there are too few of them."""
    try:
        each(lambda word=word, name=name: operand_of(word, name) for word, name in zip(words, names))
    except Fault as fault:
        hint = f"{fault.hint} {names[-1]} is missing: {form}".strip()
        return Fault("unknown word", fault.start, fault.end, fault.wanted, hint)
    return Fault("unknown word", words[-1].end + 1, words[-1].end + 1, "", f"{names[-1]} is missing: {form}")


def too_many(head, words, names, form):
    """The fault of a statement with a word too many: that one without which all others fit, if there is just one."""
    equals = next((it for it in words if it.text in ("=", "+=", ":=")), None)
    if equals and head.text in ("set", "add", *SETTINGS):
        calls = [it.text for it in words if it.text in CALLS]
        hint = f"What a call answers gets into a register so: {words[0].text} = {calls[0]}" if calls else ""
        return equals.fault("unknown word", "nothing", hint or f"{head.text} is written without a sign: {form}")
    alone = [it for it in words if all_fit([other for other in words if other is not it], names)]
    extra = alone[0] if len(words) == len(names) + 1 and len(alone) == 1 else words[len(names)]
    if head.text == "if" and words[3].text in ("goto", "jump", "then"):
        extra = words[3]
    return extra.fault("unknown word", "nothing", hints.many_hint(head, words, names, form))


def operands_of(head, words, names, form=None):
    """The operands of a statement, each where it is wanted."""
    form = form or form_of(head.text, names)
    if comment_among(words):
        raise comment_among(words)
    if len(words) < len(names):
        raise too_few(head, words, names, form)
    if len(words) > len(names):
        raise too_many(head, words, names, form)
    try:
        return each(lambda word=word, name=name: operand_of(word, name) for word, name in zip(words, names))
    except Fault as fault:
        if fault.kind == "unknown word" and any(all_fit(it, names) for it in permutations(words)):
            fault.hint = f"The operands stand in this order: {form}"
        raise


def poll_operands(head, words):
    """A timeout, and up to eight pairs of a descriptor and its events."""
    form = "poll TIMEOUT FD EVENTS .., with up to eight pairs"
    if comment_among(words):
        raise comment_among(words)
    is_short = len(words) % 2 != 1
    if is_short and words and all(it in CONSTANTS["EVENTS"] for it in words[1].text.split("|")):
        raise words[1].fault("unknown word", may_stand("FD"), f"TIMEOUT or FD is missing: {form}")
    if is_short:
        end = (words or [head])[-1].end + 1
        raise Fault("unknown word", end, end, may_stand("EVENTS" if words else "TIMEOUT"), f"A value is missing: {form}")
    names = ["TIMEOUT"] + ["FD", "EVENTS"] * (len(words) // 2)
    told = each(lambda word=word, name=name: operand_of(word, name) for word, name in zip(words, names))
    if len(words) > 17:
        raise Fault("out of range", words[17].start, words[-1].end, "nothing", "A poll has eight pairs at most.")
    return told


# Lines


def call_of(words, gets):
    """A call, whose values these registers get."""
    wanted = "a statement (set, add, if, jump, label, loop, end) or a call" if not gets else "a call"
    if not words:
        raise Fault("unknown word", gets[-1].end + 3, gets[-1].end + 3, wanted, "Behind = the call is missing.")
    head, rest = words[0], words[1:]
    if head.text not in CALLS or head.said is not None:
        hint = hints.no_call_hint(head, rest, gets)
        if not gets and rest and REGISTER.fullmatch(head.text):
            registers = next((at for at, it in enumerate(rest) if not REGISTER.fullmatch(it.text)), len(rest))
            # Behind two registers stands =.
            raise rest[min(registers, 1, len(rest) - 1)].fault("unknown word", "=, and behind it a call", hint)
        raise head.fault("unknown word", wanted, hint)
    operands = poll_operands(head, rest) if head.text == "poll" else operands_of(head, rest, CALLS[head.text])
    return head.text, operands


def statement_of(number, words):
    """What a line of a program says."""
    head, rest = words[0], words[1:]
    if head.text == "program":
        raise head.fault("unknown word", "a statement of the program that is open",
                         "Before a program begins the one before it ends, with a line end.")
    if head.text in STATEMENTS:
        names = STATEMENTS[head.text]
        operands = operands_of(head, rest, names)
        label = rest[-1] if names and names[-1] in ("LABEL", "NAME") else None
        return Statement(number, head.text, operands, label=label)
    equals = next((at for at in (1, 2) if at < len(words) and words[at].text == "="), 0)
    targets = words[:equals]
    gets = each(lambda word=word: register_of(word) for word in targets)
    word, operands = call_of(words[equals + 1:] if equals else words, targets)
    return Statement(number, word, operands, [it.number for it in gets])


def choices_of(head, words):
    wanted = f"up to {MOST_CHOICES} numbers, 0 to {MOST_CHOICE}"
    if not words:
        raise Fault("unknown word", head.end + 1, head.end + 1, wanted, "A number is missing: choices N N ..")
    told = each(lambda word=word: number_of(word, 0, MOST_CHOICE, wanted) for word in words)
    if len(told) > MOST_CHOICES:
        hint = f"{MOST_CHOICES} choices are the most."
        raise Fault("out of range", words[MOST_CHOICES].start, words[-1].end, "nothing", hint)
    return told


def number_setting(head, words):
    """What a setting that is one number gets."""
    low, high = RANGES[head.text]
    wanted, form = f"a number from {low} to {high}", f"{head.text} N"
    if comment_among(words):
        raise comment_among(words)
    if not words:
        raise Fault("unknown word", head.end + 1, head.end + 1, wanted, f"A number is missing: {form}")
    if len(words) > 1:
        raise too_many(head, words, ["NUMBER"], form)
    return number_of(words[0], low, high, wanted)


def setting_of(words):
    """What a line outside programs sets, as its slot, the word, and the value; seed and choices share a slot."""
    head, rest = words[0], words[1:]
    if head.text not in SETTINGS:
        settings = ", ".join(it for it in SETTINGS if it != "program")
        raise head.fault("unknown word", f"a setting ({settings}) or program NAME", hints.setting_hint(head, rest))
    if head.text == "choices":
        return "chooser", head, choices_of(head, rest)
    if head.text in RANGES:
        return "chooser" if head.text == "seed" else head.text, head, number_setting(head, rest)
    form = "policy heaviest, or policy youngest" if head.text == "policy" else None
    return head.text, head, operands_of(head, rest, SETTINGS[head.text], form)[0]


# The whole


class Script:
    """A script as it was read: its settings, its programs by name, and its lines as they stand."""

    def __init__(self, text):
        self.set, self.where, self.programs = {}, {}, {}
        self.lines = []
        if len(text) > MOST_BYTES:
            raise BadScript(0, Fault("too long", 0, 0, "", f"It has {len(text)} bytes, and {MOST_BYTES} are the most."))
        self.open, self.pending = None, []
        for number, raw in enumerate(text.split(b"\n"), 1):
            self.lines.append(raw.decode(errors="replace"))
            self.take(number, raw)
        self.close_text()

    def __getattr__(self, name):
        if name in DEFAULTS:
            return self.set.get(name, DEFAULTS[name])
        raise AttributeError(name)

    def take(self, number, raw):
        """One more line. In a program its fault waits for the end, since a program without end is at fault before."""
        words = []
        try:
            words = self.words_of(raw)
            if not words:
                return
            if self.open is None:
                self.take_at_top(number, words)
            else:
                self.take_in_program(number, words)
        except Fault as fault:
            if fault.kind in ("unknown word", "bad number") and fault.hint != hints.COMMENT:
                fault.hint = hints.line_hint([it for it in words if it.start < fault.end]) or fault.hint
            if self.open is None:
                raise BadScript(number, fault) from None
            self.pending.append((number, fault))
            # A line at fault is a place too.
            self.open.statements.append(None)

    def words_of(self, raw):
        try:
            return words_of(raw.decode())
        except UnicodeDecodeError as where:
            at = len(raw[:where.start].decode())
            hint = f"The byte {raw[where.start]} begins no letter here."
            raise Fault("not utf-8", at, at + 1, "text in UTF-8", hint) from None

    def take_at_top(self, number, words):
        slot, head, value = setting_of(words)
        if slot == "program":
            self.begin(number, words[1])
            return
        if slot in self.where:
            line, other = self.where[slot]
            both = f"{other} stands on line {line}: one of the two is enough."
            raise head.fault("twice defined", "", f"It stands on line {line} already." if other == head.text else both)
        self.set[slot] = value if slot != "chooser" else (head.text, value)
        self.where[slot] = number, head.text

    def begin(self, number, word):
        if len(self.programs) == MOST_PROGRAMS:
            raise word.fault("out of range", "nothing", f"A script has {MOST_PROGRAMS} programs at most.")
        if word.text in self.programs:
            first = self.programs[word.text].line
            raise word.fault("twice defined", "another name", f"The program {word.text} stands on line {first} already.")
        self.open, self.pending = Program(word.text, number), []

    def take_in_program(self, number, words):
        said = statement_of(number, words)
        if said.word == "end":
            self.end(number)
            return
        if said.word == "label":
            self.open.places.setdefault(said.label.text, len(self.open.statements))
        self.open.statements.append(said)

    def end(self, number):
        """The open program ends: only now it is known which labels it has."""
        program, faults = self.open, list(self.pending)
        for at, said in enumerate(program.statements):
            fault = said and self.label_fault(program, at, said)
            if fault:
                faults.append((said.line, fault))
        if faults:
            raise BadScript(*min(faults, key=lambda it: it[0]))
        program.end = number
        self.programs[program.name] = program
        self.open = None

    def label_fault(self, program, at, said):
        """What is wrong with the label of a statement; None where nothing is."""
        if said.label is None:
            return None
        name, place = said.label.text, program.places.get(said.label.text)
        if place is None:
            return self.no_label(program, said.label)
        line = program.statements[place].line
        if said.word == "label" and place != at:
            return said.label.fault("twice defined", "another name", f"The label {name} stands on line {line} already.")
        if said.word == "loop" and place > at:
            hint = f"{name} stands on line {line}, below: if and jump go there."
            return said.label.fault("wrong way", "a label that stands earlier", hint)
        if said.word in ("if", "jump") and place < at:
            hint = f"{name} stands on line {line}, above: only loop goes back."
            return said.label.fault("wrong way", "a label that stands later", hint)
        return None

    def no_label(self, program, label):
        known = f"its labels are {listed(program.places)}" if program.places else "it has none"
        wanted = f"a label of the program {program.name}: {known}"
        hint = hints.guess(label.text, program.places) or f"No line of this program is: label {label.text}"
        return label.fault("no such label", wanted, hint)

    def close_text(self):
        if self.open is not None:
            line = self.lines[self.open.line - 1]
            start = len(line) - len(line.lstrip(BLANKS))
            raise BadScript(self.open.line, Fault("unended", start, len(line.rstrip(BLANKS)), "",
                                                  f"The program {self.open.name} has no line end."))
        if "init" not in self.programs:
            known = f"The programs are {listed(self.programs)}." if self.programs else "There is none."
            raise BadScript(0, Fault("no init", 0, 0, "", f"One program is called init; its process is the first. {known}"))
