"""How much heap a script needs: ./need [--seeds N] [--svg] SCRIPT

The first line is a theorem's number. It is the most that the run asks of its heap at any time, what is charged with the
greatest bound that waits then, under the greatest heap there is and in the script's own order. At that heap and at every
greater one no call waits for room, nothing is evicted for want of it, none is refused and nobody is killed for another's
call: the run is the same, event for event and reply for reply.

All further lines tell what was found and no more, since under a lesser heap calls wait, so the order is another one, and what
happens doesn't fall with the heap alone. The second has the least heap at which nobody is killed for another's call, the run
doesn't starve and none is refused, as far as halving finds it, and what 64 heaps above it showed. The others tell how many of
so many seeds, 100 without --seeds, kill, starve or end with all asleep below that heap, at it, and at the one that is enough.

With --svg a picture is written in their place: how many calls wait, how much is evicted and how many are killed, over the
heap's size.
"""
import sys
from dataclasses import dataclass

sys.dont_write_bytecode = True
from need_picture import NeedPicture
from terminal import run as run_command
from trials import (GREATEST_HEAP, LEAST_HEAP, Trial, demand_of, flag_among, number_behind, run_tool, script_word, source_of,
                    waits_of)

TOOL, USAGE = "need", "./need [--seeds N] [--svg] SCRIPT"
STEPS = 64
ENDS = {"finished": "finishes", "starved": "starves", "asleep": "ends asleep", "spent": "is spent"}
MOST_SEEDS = 10000


@dataclass
class Sample:
    """What came of the run under one heap."""

    heap: int
    waits: int
    evictions: int
    kills: int
    is_good: bool


class Need:
    """What a script needs: `enough` by the theorem, None where no heap is; and `found`, None where none was."""

    def __init__(self, source):
        self.source, self.samples = source, {}
        self.greatest = Trial(source.with_heap(GREATEST_HEAP))
        demand = demand_of(self.greatest)
        self.enough = max(demand, LEAST_HEAP) if demand <= GREATEST_HEAP else None
        self.demand = demand
        self.top = self.enough or GREATEST_HEAP
        self.found = self.least_good()

    def sample(self, heap):
        """What comes of the run under this heap."""
        if heap not in self.samples:
            trial = Trial(self.source.with_heap(heap))
            is_good = trial.kills == 0 and trial.refusals == 0 and trial.how != "starved"
            self.samples[heap] = Sample(heap, waits_of(trial, heap)[0], trial.evictions, trial.kills, is_good)
        return self.samples[heap]

    def least_good(self):
        """A heap at which nobody is killed, starves or is refused, while the next smaller one isn't so, by halving."""
        if self.sample(LEAST_HEAP).is_good:
            return LEAST_HEAP
        bad, good = LEAST_HEAP, self.top
        if not self.sample(good).is_good:
            return None
        while good - bad > 1:
            middle = (bad + good) // 2
            bad, good = (bad, middle) if self.sample(middle).is_good else (middle, good)
        return good

    def steps(self, first, last):
        """The heaps of so many steps from one to another."""
        return sorted({first + (last - first) * step // STEPS for step in range(1, STEPS + 1)})

    def bad_above(self):
        """The heaps among those looked at above the found one at which somebody is killed, starves or is refused."""
        looked = self.steps(self.found, max(self.top, self.found + STEPS))
        return len(looked), [it for it in looked if not self.sample(min(it, GREATEST_HEAP)).is_good]

    def below(self):
        """A heap below the found one: half way from the least there is."""
        return (LEAST_HEAP + self.found) // 2 if self.found > LEAST_HEAP else None


def enough_line(need):
    run = need.greatest
    if need.enough is None:
        _, first = waits_of(run, GREATEST_HEAP)
        return f"enough: no heap is; at {GREATEST_HEAP} bytes, the greatest, a call waits for room from event {first} on"
    ended = f"it {ENDS[run.how]} after {run.events} events"
    least = f"; it asks for {need.demand} at most" if need.demand < LEAST_HEAP else ""
    return f"enough: {need.enough} bytes; there and at every greater heap no call waits for room, and the run is the same ({ended}{least})"


def found_line(need):
    if need.found is None:
        return f"found: none; somebody is killed, starves or is refused at {need.top} bytes too"
    count, bad = need.bad_above()
    also = f"nor at {count} heaps looked at above" if not bad else f"but so it is at {len(bad)} of {count} heaps looked at above, last at {bad[-1]}"
    return f"found: {need.found} bytes; nobody is killed, starves or is refused there, {also}"


def seeds_line(need, heap, count, where):
    """How many of so many seeds lead to which end under a heap."""
    at_heap = need.source.with_heap(heap)
    trials = [Trial(at_heap.with_chooser(f"seed {seed}")) for seed in range(count)]
    kill, starve, sleep = (sum(it.does(kind) for it in trials) for kind in ("kill", "starved", "asleep"))
    return f"{count} seeds at {heap} bytes ({where}): {kill} kill, {starve} starve, {sleep} end asleep"


def lines_of(need, seeds):
    yield enough_line(need)
    yield found_line(need)
    if need.found is None or seeds == 0:
        return
    if need.below() is None:
        yield f"no seeds below: {LEAST_HEAP} bytes is the least heap there is"
    else:
        yield seeds_line(need, need.below(), seeds, "below")
    yield seeds_line(need, need.found, seeds, "found")
    if need.top > need.found:
        yield seeds_line(need, need.top, seeds, "enough" if need.enough else "the greatest")


def main():
    words = sys.argv[1:]
    is_picture = flag_among(words, "--svg")
    seeds = number_behind(TOOL, words, "--seeds", 100, 0, MOST_SEEDS)
    path = script_word(TOOL, words, USAGE)
    need = Need(source_of(path, TOOL))
    if is_picture:
        print(NeedPicture(need, path).draw(), end="")
        return
    for line in lines_of(need, seeds):
        print(line, flush=True)


if __name__ == "__main__":
    run_command(lambda: run_tool(TOOL, main))
