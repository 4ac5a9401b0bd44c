"""Looks for an order in which something goes wrong: ./hunt [--for WHAT] [--seeds N] [--all [--most N]] [--shrink] SCRIPT

WHAT is one of `kill` (a process is killed for another's call), `starved`, `asleep` (all sleep for ever), and `other` (a call of
the script is answered what it isn't in the default order); without it any of them will do. The script's own order is tried
first, then seeds and lists of choices in turn, N of each, 1000 without --seeds. The line of the first that does it is told, to
be put into the script, with the event at which it happens.

With --all it goes through every order of a small script, and says how many there are and how many of them do it; it gives up
after --most orders, 5000 without it. With --shrink a smaller script is written that still does it.

The exit status is 0 where an order was found, and 3 where none was.
"""
import random
import re
import sys

sys.dont_write_bytecode = True
from orders import orders_of, shortest_line
from report import NoReport
from shrinking import Shrinker
from terminal import run as run_command
from trials import (NotRun, Trial, flag_among, number_behind, run_tool, say_and_end, script_word, source_of)

TOOL, USAGE = "hunt", "./hunt [--for kill|starved|asleep|other] [--seeds N] [--all [--most N]] [--shrink] SCRIPT"
KINDS = ("kill", "starved", "asleep", "other")
NOT_FOUND = 3
REPLY = re.compile(r"= |refused: ")


def answers_of(trial):
    """The replies of a run: the line of each call, its name and its answer, and the event. An end is none."""
    calls = (call for process in trial.followed().processes.values() for call in process.calls)
    return {(it.said.line, it.name, it.answer): it.over for it in calls if it.said and it.over and REPLY.match(it.answer)}


class Quarry:
    """What is hunted for, in the runs of one script."""

    def __init__(self, source, kinds):
        self.kinds = kinds
        self.usual = set(answers_of(Trial(source.with_chooser("")))) if "other" in kinds else set()

    def found_in(self, trial):
        """The kinds that a run does, with what is told of each."""
        return {kind: told for kind in self.kinds for told in [self.told(kind, trial)] if told}

    def told(self, kind, trial):
        if kind == "other":
            return self.other_answer(trial)
        if not trial.does(kind):
            return None
        if kind == "kill":
            number, _, said = next(it for it in trial.report.splitlines() if " killed for " in it).partition(" ")
            return f"{said.partition(' need ')[0]} at event {number}"
        return f"{'starves' if kind == 'starved' else 'all sleep for ever'} after {trial.events} events"

    def other_answer(self, trial):
        """The first answer that the default order doesn't give."""
        others = sorted((over, it) for it, over in answers_of(trial).items() if it not in self.usual)
        if not others:
            return None
        over, (line, name, answer) = others[0]
        return f"{name} on line {line} is answered {answer.removeprefix('= ')} at event {over}"


def tries(source, count):
    """The script as it is, and then with one seed and one list of choices after another: the line that says so, and it."""
    yield "as it is", source
    for seed in range(count):
        rng = random.Random(seed)
        choices = " ".join(str(rng.choice((0, 0, 0, 1, 2, 3))) for _ in range(rng.randint(1, 60)))
        for line in (f"seed {seed}", f"choices {choices}"):
            yield line, source.with_chooser(line)


def hunt(source, quarry, count):
    """The first order in which it happens: its line, the script with it, and what happens; None where there is none."""
    for line, tried in tries(source, count):
        found = quarry.found_in(Trial(tried))
        if found:
            return fewer_choices(source, quarry, line, next(iter(found))) if line.startswith("choices ") else (line, tried, found)
    return None


def fewer_choices(source, quarry, line, kind):
    """The same with as few choices as still do it, and with zeros for those that don't matter."""
    def told_by(numbers):
        return quarry.found_in(Trial(source.with_chooser(f"choices {' '.join(numbers)}")))

    numbers = line.split()[1:]
    numbers = next(numbers[:count] for count in range(1, len(numbers) + 1) if kind in told_by(numbers[:count]))
    for at in range(len(numbers)):
        simpler = [*numbers[:at], "0", *numbers[at + 1:]]
        numbers = simpler if kind in told_by(simpler) else numbers
    line = f"choices {' '.join(numbers)}"
    return line, source.with_chooser(line), told_by(numbers)


def hunt_all(source, quarry, most):
    """Goes through every order: how many there are (None where they are more than that), how many do each kind, and the first."""
    counts, first, count = dict.fromkeys(quarry.kinds, 0), None, 0
    for line, trial in orders_of(source.with_chooser("")):
        count += 1
        if count > most:
            return None, counts, first
        found = quarry.found_in(trial)
        for kind in found:
            counts[kind] += 1
        if found and first is None:
            first = shortest_line(source, line, trial) or "the default order", trial.source, found
    return count, counts, first


def tell_all(count, counts, most):
    words = {"kill": "kill", "starved": "starve", "asleep": "sleep for ever", "other": "answer otherwise than the default"}
    told = ", ".join(f"{number} {words[kind]}" for kind, number in counts.items())
    print(f"{count} order{'s' * (count > 1)}: {told}" if count else f"more than {most} orders; of the first {most}: {told}")


def tell_first(line, found):
    print(f"{line}: {'; '.join(found.values())}")


def does(source, kind):
    """Whether a script in its own order does what was found."""
    try:
        return kind in Quarry(source, [kind]).found_in(Trial(source))
    except (NotRun, NoReport):
        return False


def shrunk(source, kind):
    """A smaller script that does it too; where the default order doesn't do it, that one's doesn't either."""
    is_by_order = kind != "other" and not does(source.with_chooser(""), kind)
    smaller = Shrinker(source, lambda it: does(it, kind) and not (is_by_order and does(it.with_chooser(""), kind))).shrink()
    return smaller.text.decode(errors="replace")


def main():
    words = sys.argv[1:]
    is_all, is_shrunk = flag_among(words, "--all"), flag_among(words, "--shrink")
    kinds = KINDS
    if "--for" in words:
        at = words.index("--for")
        kinds = [it for it in words[at + 1:at + 2] if it in KINDS]
        if not kinds:
            say_and_end(TOOL, 2, f"behind --for stands one of {', '.join(KINDS)}")
        del words[at:at + 2]
    seeds = number_behind(TOOL, words, "--seeds", 1000, 0, 100000)
    most = number_behind(TOOL, words, "--most", 5000, 1, 1000000)
    source = source_of(script_word(TOOL, words, USAGE), TOOL)
    quarry = Quarry(source, kinds)
    if is_all:
        count, counts, first = hunt_all(source, quarry, most)
        tell_all(count, counts, most)
    else:
        first = hunt(source, quarry, seeds)
    if first is None:
        if not is_all:
            print(f"none of {seeds} seeds and {seeds} lists of choices does it")
        sys.exit(NOT_FOUND)
    line, found_source, found = first
    tell_first(line, found)
    if is_shrunk:
        print(shrunk(found_source, next(iter(found))), end="")


if __name__ == "__main__":
    run_command(lambda: run_tool(TOOL, main))
