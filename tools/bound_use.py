#!/usr/bin/env python3
"""How much of its bound each call uses: tools/bound_use.py [--compare] [--programs KRES METER]

Prints the table of docs/KERNEL.md: over `gen 1000`, the scripts of examples, docs/reserving and tests/rows and a thousand random
ones the most that a turn of each call used, and beside it what the script of tests/reached does that is made for it. With --compare
nothing is printed but what isn't as the page or these scripts say, and the status is 1 where there is something.

Two programs run each script by `sim`. KRES is that of these sources; METER is made of a copy in which one number is another: where
KRES tells after a turn what is charged, METER tells the most bytes that were live in it, as the heap's own meter has it. Nothing
else of their reports may differ, which is looked at line by line, so what was live before a turn stands in the one and its most in
the other. Without --programs both are built here, without their proof, which takes some minutes.
"""
import os
import re
import subprocess
import sys
import tempfile
from concurrent.futures import ThreadPoolExecutor
from dataclasses import dataclass
from itertools import takewhile

import random_scripts
from copies import TOP, copy_to, files_below, places
from report import AT_BOOT, KEPT_BACK

CLOSE = ("close", "dup2", "exec", "exit", "kill", "write")  # these may use what is kept back
KILLED = "a kill for want of heap"  # no call, and it may use what is kept back
TURNS = ("done", "part", "sleep", "ended")
RANDOM = range(1, 1001)
REACHED = f"{TOP}/tests/reached"
SAID = re.compile(r"# (?P<call>\w+) uses (?P<used>\d+) of (?P<may>\d+) and leaves (?P<left>-?\d+)\n")
PAGE = f"{TOP}/docs/KERNEL.md"

# What METER is made by: of each file a text that stands there once, and the one in its place.
CHANGES = (
    ("crates/kheap_slabs/src/kheap.rt", "    /// How many bytes the heap has.\n",
     "    pub fn last_high(&self) -> u64 {\n        self.meter.last_high\n    }\n\n    /// How many bytes the heap has.\n"),
    ("crates/posix_defs/src/turner.rt", "    /// Whether a process is there and has not ended.\n",
     "    fn most(&self) -> u64;\n\n    /// Whether a process is there and has not ended.\n"),
    ("crates/call_run/src/store.rt", "    fn alive(&self, pid: u32) -> bool {",
     "    fn most(&self) -> u64 {\n        self.objects.heap.last_high()\n    }\n\n    fn alive(&self, pid: u32) -> bool {"),
    ("crates/kern_events/src/cores/events.rt", "noted_of(Event::Turn(pid), asked, Some(entry), self.charged)",
     "noted_of(Event::Turn(pid), asked, Some(entry), self.store.most())"),
    ("crates/kern_events/src/cores/events.rt", "live,\n            }),\n            bound: 0,\n            charged: self.charged,",
     "live,\n            }),\n            bound: 0,\n            charged: self.store.most(),"),
)


def change(path, name, old, new):
    """Puts one text of a file in the place of another; the file isn't the sources' any more then."""
    with open(path, encoding="utf-8") as file:
        text = file.read()
    if text.count(old) != 1:
        sys.exit(f"bound_use: {name} has changed: {old.strip()!r} stands there {text.count(old)} times")
    os.remove(path)
    with open(path, "w", encoding="utf-8") as file:
        file.write(text.replace(old, new))


def build_both(folder):
    """Builds KRES of the sources, and METER of a copy with the changes."""
    subprocess.run([f"{TOP}/tools/unproved.py", f"{folder}/kres"], check=True, stdout=subprocess.DEVNULL)
    copy = copy_to(f"{folder}/copy")
    for name, old, new in CHANGES:
        change(f"{copy}/{name}", name, old, new)
    os.makedirs(f"{copy}/tools")
    os.link(f"{TOP}/tools/unproved.py", f"{copy}/tools/unproved.py")
    subprocess.run([f"{copy}/tools/unproved.py", f"{folder}/meter"], check=True, stdout=subprocess.DEVNULL)
    return f"{folder}/kres", f"{folder}/meter"


@dataclass
class Turn:
    """A turn: its call and its bound, the bytes that it used and those that it left behind it, and where it stands."""

    call: str
    bound: int
    used: int
    left: int
    place: str

    def kept_back(self):
        return KEPT_BACK if self.call in (*CLOSE, KILLED) else 0

    def may_use(self):
        return self.bound + self.kept_back()

    def unused(self):
        return self.may_use() - self.used


class Reading:
    """Goes through a run's lines, each as both programs tell it."""

    def __init__(self):
        self.calls, self.held, self.charged = {}, {}, AT_BOOT

    def live(self):
        return self.charged - KEPT_BACK - sum(self.held.values())

    def line(self, one, other, place):
        """The turn that a line tells, or None; both tell the same but for their last word, and that where no turn is told."""
        (head, _, charged), (its_head, _, most) = one.rpartition(" "), other.rpartition(" ")
        pid, word, *rest = one.split()[1:]
        told = word in (*TURNS, "killed")
        if head != its_head or (not told and charged != most):
            sys.exit(f"bound_use: the reports of {place} differ: {one!r} and {other!r}")
        before = self.live()
        self.charged = int(charged)
        if word in ("ask", "wake"):
            self.calls[pid] = rest[0], int(rest[2])
        elif word == "admit":
            self.held[pid] = self.calls[pid][1]
        elif word in (*TURNS, "gone", "abandon"):
            self.held.pop(pid, None)
        call, bound = (KILLED, 0) if word == "killed" else self.calls.get(pid, ("", 0))
        return Turn(call, bound, int(most) - before, self.live() - before, place) if told else None


def turns_of(name, report, metered):
    """Each turn of a run, by the reports of both programs."""
    lines, others = report.splitlines()[:-1], metered.splitlines()[:-1]
    if len(lines) != len(others):
        sys.exit(f"bound_use: the reports of {name} differ in length")
    reading = Reading()
    told = (reading.line(one, other, f"{name}, event {place}") for place, (one, other) in enumerate(zip(lines, others), 1))
    return [turn for turn in told if turn]


def run(program, script):
    return subprocess.run([program, "sim"], input=script, capture_output=True, check=False).stdout.decode()


def uses_of(programs, name, script):
    """The turns of a script; none where it is at fault."""
    report, metered = (run(program, script) for program in programs)
    return turns_of(name, report, metered) if "\nend " in report else []


def calls_in(rows):
    """The scripts of a file of calls: behind `==` and the settings a call each line, with what is told of it."""
    for section in re.split(r"^==", "\n" + rows, flags=re.M)[1:]:
        settings, *lines = (it for it in section.splitlines() if not it.startswith("## "))
        calls = [it.rpartition(" = ")[0] for it in lines]
        yield "\n".join([*settings.strip().split(", "), "program init", *calls, "end", ""])


def row_scripts(path):
    """The scripts of a file of tests/rows that has some."""
    with open(path, encoding="utf-8", errors="surrogateescape") as file:
        text = file.read()
    folder = os.path.basename(os.path.dirname(path))
    if folder == "calls":
        return list(calls_in(text))
    if folder == "runs":
        # Its first line has the words, and behind the next such line stands what comes of it.
        lines = text.splitlines(keepends=True)[1:]
        return ["".join(takewhile(lambda it: not it.startswith("== "), lines))]
    return [text] if path.endswith(".kres") else []


def scripts_of(kres):
    """Each script with its name."""
    yield "gen 1000", subprocess.run([kres, "gen", "1000"], capture_output=True, check=True).stdout
    for folder in ("examples", "docs/reserving", "tests/rows"):
        for path in files_below(f"{TOP}/{folder}"):
            if path.endswith(".kres") or folder == "tests/rows":
                yield from ((os.path.relpath(path, TOP), it.encode(errors="surrogateescape")) for it in row_scripts(path))
    calls = random_scripts.calls_of(["all"])
    yield from ((f"random {number}", random_scripts.script(number, calls)) for number in RANDOM)


def made_scripts():
    """Of each call that has one the script that is made for it, and what its first line says."""
    for path in files_below(REACHED):
        with open(path, encoding="utf-8") as file:
            text = file.read()
        said = SAID.match(text)
        yield said["call"], text, tuple(int(said[it]) for it in ("used", "may", "left"))


def of_call(turns, call):
    """The turn that a script is made for: the last of its call."""
    return [it for it in turns if it.call == call][-1]


def most_of(turns):
    """Of some turns the one that used most; of equals the one that could use least."""
    return max(turns, key=lambda it: (it.used, -it.may_use()))


def row(call, turns, made):
    most = most_of(turns)
    reached = sum(it.unused() == 0 for it in turns if it.may_use())
    used, may, _ = made
    return f"| `{call}` | {len(turns)} | {most.used} | {most.bound} | {most.kept_back()} | {reached} | [{used} of {may}](../tests/reached/{call}.kres) |"


def table(turns, made):
    """A row of each call for which a script is made; what a kill uses; and the names of the calls that use nothing."""
    yield "| call | turns | most used | its bound | kept back | reached | in a script made for it |"
    yield "|---|---|---|---|---|---|---|"
    yield from (row(call, turns[call], made[call]) for call in sorted(made))
    rest = sorted(set(turns) - set(made) - {KILLED})
    yield f"| {', '.join(f'`{it}`' for it in rest)} | {sum(len(turns[it]) for it in rest)} | 0 | 0 | 0 | | |"
    killed = turns[KILLED]
    yield f"| {KILLED} | {len(killed)} | {most_of(killed).used} | 0 | {KEPT_BACK} | {sum(it.unused() == 0 for it in killed)} | |"


def faults(turns, programs):
    """What isn't as it has to be: a turn above its bound, and a script that doesn't do what it says."""
    for turn in (it for of in turns.values() for it in of if it.unused() < 0):
        yield f"above its bound: {turn}"
    for call, text, said in made_scripts():
        turn = of_call(uses_of(programs, call, text.encode()), call)
        if (turn.used, turn.may_use(), turn.left) != said:
            yield f"tests/reached/{call}.kres says {said}, and it is {turn}"


def measured(programs):
    """The turns of all scripts, by their calls."""
    turns = {}
    with ThreadPoolExecutor(places()) as pool:
        for turn in (it for of in pool.map(lambda it: uses_of(programs, *it), scripts_of(programs[0])) for it in of):
            turns.setdefault(turn.call, []).append(turn)
    return turns


def main(words):
    named = words[words.index("--programs") + 1:][:2] if "--programs" in words else None
    with tempfile.TemporaryDirectory() as folder:
        programs = named or build_both(folder)
        turns = measured(programs)
        told = list(faults(turns, programs))
    text = "\n".join(table(turns, {call: said for call, _, said in made_scripts()}))
    with open(PAGE, encoding="utf-8") as file:
        same = text in file.read()
    if "--compare" not in words:
        print(text)
    elif not same:
        told.append("docs/KERNEL.md has another table")
    print("".join(f"bound_use: {it}\n" for it in told), end="")
    return 1 if told else 0


if __name__ == "__main__":
    sys.exit(main(sys.argv[1:]))
