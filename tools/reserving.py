#!/usr/bin/env python3
"""What reserving brings and takes, measured: tools/reserving.py [--compare | --cost] [KRES]

Runs the four loads of docs/reserving, each over heaps of eight sizes with ten seeds, by `sim` of the program KRES (./kres where
none is named), writes the graphs there anew, and prints the tables of docs/RESERVING.md, where they have to be put by hand. For each time a call begins (it is
asked, or has woken) the report tells what was live then, what its turn made, and when it was let in. With --compare nothing is
written: the status is 1 where a graph or a table is another one. With --cost it prints what each event of a call takes in
instructions instead, by valgrind: a run of one event more takes as many more.
"""
import os
import re
import subprocess
import sys
import tempfile
from dataclasses import dataclass, fields

from report import AT_BOOT, KEPT_BACK
from reserving_graphs import Graph, percents, powers

TOP = os.path.dirname(os.path.dirname(os.path.realpath(__file__)))
FOLDER = f"{TOP}/docs/reserving"
PAGE = f"{TOP}/docs/RESERVING.md"
LOADS = ("memory", "pipes", "files", "server")
HEAPS = (8192, 12288, 16384, 24576, 32768, 49152, 65536, 131072)
SEEDS = range(1, 11)


@dataclass
class Counts:
    """What came of a load on one size of heap, over all seeds."""

    begun: int = 0  # how often a call began: was asked, or woke
    middle: int = 0  # its turn and what was live when it began came to more than the heap
    past_caches: int = 0  # of these, also without what was evicted while it waited
    waited: int = 0  # it had to wait for room
    let_in: int = 0  # of these, was let in in the end
    in_vain: int = 0  # of these, would have had room all the same
    events: int = 0  # how many events these waited, together
    longest: int = 0  # and the longest of them
    evicted: int = 0  # objects, while a call waited in vain
    killed: int = 0
    refused: int = 0
    finished: int = 0  # runs whose first process came to its end

    def add(self, other):
        for it in fields(self):
            mine, its = getattr(self, it.name), getattr(other, it.name)
            setattr(self, it.name, max(mine, its) if it.name == "longest" else mine + its)

    def share(self, part):
        return 100 * part / self.begun


@dataclass
class Begun:
    """A call that waits for room or is let in: by which event it began, what was live then and what evictions had given back by
    then, in bytes, its bound, and whether it had to wait."""

    event: int
    live: int
    evicted: int
    bound: int
    waits: bool


class Reading:
    """Goes through a report of `sim`, and counts."""

    def __init__(self, heap):
        self.heap, self.counts = heap, Counts()
        self.begun, self.held, self.waiting = {}, {}, set()
        self.charged, self.evicted = AT_BOOT, 0

    def live(self):
        """The bytes of all objects."""
        return self.charged - KEPT_BACK - sum(self.held.values())

    def line(self, line):
        """An event. Its line is its number, a process but for evictions, what happened, and at its end what is charged."""
        words = line.split()
        number, charged, before = int(words[0]), int(words[-1]), self.live()
        pid, word = (None, "evict") if words[1] == "evict" else (words[1], words[2])
        if word == "admit":
            self.admit(pid, number)
        elif word in ("done", "part", "sleep", "ended", "gone", "abandon"):
            self.held.pop(pid, None)
        elif word == "killed":
            self.waiting.discard(pid)
        self.charged = charged
        if word in ("ask", "wake"):
            self.begin(pid, number, int(words[5]))
        elif word in ("done", "part", "sleep", "ended"):
            self.turn(pid, max(0, self.live() - before))
        elif word == "evict":
            self.evicted += before - self.live()
        self.counts.evicted += word == "evict" and bool(self.waiting)
        self.counts.killed += word == "killed"
        self.counts.refused += word == "refused"

    def begin(self, pid, number, bound):
        waits = self.charged + bound > self.heap
        self.begun[pid] = Begun(number, self.live(), self.evicted, bound, waits)
        self.counts.begun += 1
        self.counts.waited += waits
        self.waiting |= {pid} if waits else set()

    def admit(self, pid, number):
        call = self.begun[pid]
        self.held[pid] = call.bound
        self.waiting.discard(pid)
        # What was evicted from here on wasn't evicted for it.
        call.evicted = self.evicted - call.evicted
        if call.waits:
            self.counts.let_in += 1
            self.counts.events += number - call.event
            self.counts.longest = max(self.counts.longest, number - call.event)

    def turn(self, pid, made):
        """What was live when the call began and what its turn made, against the heap."""
        call = self.begun.pop(pid)
        together = call.live + made
        self.counts.middle += together > self.heap
        self.counts.past_caches += together - call.evicted > self.heap
        self.counts.in_vain += call.waits and together <= self.heap


def counted(text, heap):
    """What came of a run, by its report."""
    *events, end = text.splitlines()
    reading = Reading(heap)
    for line in events:
        reading.line(line)
    reading.counts.finished += end.startswith("end finished")
    return reading.counts


def measured(kres, load, heap):
    """What came of a load on a heap of this size, with all seeds."""
    with open(f"{FOLDER}/{load}.kres", encoding="utf-8") as file:
        text = file.read()
    counts = Counts()
    for seed in SEEDS:
        script = f"heap {heap}\nseed {seed}\n{text}".encode()
        ran = subprocess.run([kres, "sim"], input=script, capture_output=True, check=False)
        counts.add(counted(ran.stdout.decode(), heap))
    return counts


def mean_wait(it):
    return it.events / max(1, it.let_in)


def row(heap, it):
    mean = f"{mean_wait(it):.0f}" if it.let_in else "-"
    told = [heap, it.begun, it.middle, it.past_caches, it.waited, it.in_vain, mean, it.longest, it.evicted, it.killed, it.refused,
            f"{it.finished} of {len(SEEDS)}"]
    return "| " + " | ".join(str(part) for part in told) + " |"


def table(load, found):
    """The table of a load, as the page has it."""
    head = ("heap", "begun", "out in the middle", "without caches", "waited", "in vain", "events a wait", "the longest", "evicted",
            "killed", "refused", "finished")
    lines = ["| " + " | ".join(head) + " |", "|" + "---|" * len(head)]
    return "\n".join(lines + [row(heap, found[load, heap]) for heap in HEAPS]) + "\n"


# What an event takes.

CALLS = {"getpid": "getpid", "stat": 'stat "/"', "store": 'store r1 "eight by"'}
STEPS = 3000
CORE = re.compile(r"^ *([\d,]+) \([ \d.]+%\)  \S*run_to_end", re.M)
TOTAL = re.compile(r"^ *([\d,]+) \([ \d.]+%\)  PROGRAM TOTALS", re.M)


def repeated(call, steps):
    """A script of so many events, of which nearly all are of this call; now and then a process yields."""
    return f"steps {steps}\nprogram init\nr1 = mmap 4096\nset r2 {STEPS}\nlabel again\n{call}\nloop r2 again\nend\n".encode()


def events_before(kres, name, call):
    """How many events, STEPS or some more, come before an event by which the call is asked for."""
    told = subprocess.run([kres, "sim"], input=repeated(call, STEPS + 100), capture_output=True, check=False).stdout.decode()
    asked = [int(it) for it in re.findall(rf"^(\d+) p1 ask {name} ", told, re.M)]
    return next(it - 1 for it in asked if it > STEPS)


def instructions(kres, call, steps, folder):
    """What a run of so many events takes, all of it and the core's part with its store's."""
    kept = f"{folder}/{steps}"
    how = ["valgrind", "--tool=callgrind", f"--callgrind-out-file={kept}", kres, "sim"]
    subprocess.run(how, input=repeated(call, steps), capture_output=True, check=False)
    told = subprocess.run(["callgrind_annotate", "--inclusive=yes", kept], capture_output=True, text=True, check=True).stdout
    return [int(pattern.search(told)[1].replace(",", "")) for pattern in (TOTAL, CORE)]


def cost_rows(kres):
    """What an ask, an admission and a turn of each call take, and how much of it is the core's and its store's."""
    yield "| call | ask | of it the core | admission | of it the core | turn | of it the core |"
    yield "|---|---|---|---|---|---|---|"
    for name, call in CALLS.items():
        with tempfile.TemporaryDirectory() as folder:
            first = events_before(kres, name, call)
            runs = [instructions(kres, call, steps, folder) for steps in range(first, first + 4)]
        told = [str(after - before) for one, other in zip(runs, runs[1:]) for before, after in zip(one, other)]
        yield f"| `{name}` | " + " | ".join(told) + " |"


# The graphs.

def middle_graph(found):
    """Of what begins the calls that wait, by what came of it."""
    shares = {at: [it.share(part) for part in (it.middle, it.in_vain, it.waited - it.let_in)] for at, it in found.items()}
    kinds = ("out", "vain", "wait")
    graph = Graph(
        "Of a hundred calls that begin, those that wait for room",
        "a bar is all that wait, and its colours tell what becomes of them; no bar: none waits",
        [("out", "would have run out of heap in the middle"), ("vain", "waits in vain: would have had room"),
         ("wait", "is never let in: killed, or the run ends")],
        percents(max(sum(it) for it in shares.values())), LOADS, HEAPS)
    for (load, heap), parts in shares.items():
        graph.stack(load, heap, zip(kinds, parts))
    return graph


def waits_graph(found):
    """How long those waited that were let in."""
    graph = Graph(
        "How many events a call waits for room", "of the calls that wait and are let in; on a scale of powers of ten",
        [("wait", "the mean; the line reaches up to the longest wait, whose number stands above it")],
        powers(max(it.longest for it in found.values())), LOADS, HEAPS)
    for (load, heap), it in found.items():
        graph.reach(load, heap, "wait", mean_wait(it) if it.let_in else None, it.longest)
    return graph


def reliefs_graph(found):
    """What happened so that calls could go on, or since they couldn't."""
    graph = Graph(
        "Evictions, kills and refusals", "in ten runs together; on a scale of powers of ten; no bar: none",
        [("eviction", "objects evicted while a call waited"), ("kill", "processes killed"), ("refusal", "calls refused")],
        powers(max(it.evicted for it in found.values())), LOADS, HEAPS)
    for (load, heap), it in found.items():
        graph.bars(load, heap, [("eviction", it.evicted), ("kill", it.killed), ("refusal", it.refused)])
    return graph


def graphs(found):
    """The graphs by the names of their files."""
    for name, drawn in (("middle", middle_graph), ("waits", waits_graph), ("reliefs", reliefs_graph)):
        yield f"{name}.svg", drawn(found).svg()


def differing(files, tables):
    """The names of the graphs that are others, and of the loads whose tables the page doesn't have."""
    for name, text in files:
        path = f"{FOLDER}/{name}"
        if not os.path.exists(path) or open(path, encoding="utf-8").read() != text:
            yield name
    with open(PAGE, encoding="utf-8") as file:
        page = file.read()
    yield from (load for load, text in tables.items() if text not in page)


def main(words):
    compare = "--compare" in words
    named = [it for it in words if not it.startswith("--")]
    kres = named[0] if named else f"{TOP}/kres"
    if "--cost" in words:
        print("\n".join(cost_rows(kres)))
        return 0
    found = {(load, heap): measured(kres, load, heap) for load in LOADS for heap in HEAPS}
    files, tables = list(graphs(found)), {load: table(load, found) for load in LOADS}
    if compare:
        others = list(differing(files, tables))
        print("".join(f"reserving: {it} is another one; tools/reserving.py makes it anew\n" for it in others), end="")
        return 1 if others else 0
    for name, text in files:
        with open(f"{FOLDER}/{name}", "w", encoding="utf-8") as file:
            file.write(text)
    print("\n".join(f"{load}\n\n{text}" for load, text in tables.items()))
    return 0


if __name__ == "__main__":
    sys.exit(main(sys.argv[1:]))
