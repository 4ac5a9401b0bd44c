"""Goes through every order of a small script, by its choices.

A number of `choices` counts round the events that may be taken, so how many there are is seen from the event that comes: where
the next number leads to the same event as 0, all of them were there. A run of which every further choice is 1 shows at once
where nothing else could have been taken: there 1 leads to the same event as 0.
"""
import re

from trials import NotRun, Trial

MOST_CHOICES = 1000


def run_by(source, choices, filler):
    """The run by these choices and then by one number for ever, and its events without what is charged."""
    padded = (choices + [filler] * MOST_CHOICES)[:MOST_CHOICES]
    trial = Trial(source.with_chooser(f"choices {' '.join(map(str, padded))}"))
    if trial.events > MOST_CHOICES:
        raise NotRun(f"the run has more than {MOST_CHOICES} events, so not every order can be chosen")
    return trial, [it.split(" ", 1)[1].rsplit(" charged ", 1)[0] for it in trial.report.splitlines()[:-1]]


def forks_of(source, choices, events):
    """The places of a run, behind its choices, at which another event than the first could have been taken."""
    start, forks = len(choices), []
    while start < len(events):
        _, others = run_by(source, choices + [0] * (start - len(choices)), 1)
        place = next((at for at in range(start, len(events)) if others[at:at + 1] != events[at:at + 1]), None)
        if place is None:
            break
        forks.append(place)
        start = place + 1
    return forks


def orders_of(source):
    """Every order: a line of choices that leads to it, and its run."""
    # Of each place with a choice: where it is, the choices before it, the number that was taken, and the event of number 0.
    open_places, choices = [], []
    trial, events = run_by(source, choices, 0)
    while True:
        yield line_of(choices, trial.events), trial
        for place in forks_of(source, choices, events):
            open_places.append((choices + [0] * (place - len(choices)), 0, events[place]))
        while open_places:
            before, number, first = open_places.pop()
            choices = [*before, number + 1]
            trial, events = run_by(source, choices, 0)
            if events[len(before)] != first:
                open_places.append((before, number + 1, first))
                break
        else:
            return


def line_of(choices, events):
    """The line that makes these choices, and takes the first event from then on."""
    return f"choices {' '.join(map(str, choices + [0] * (events - len(choices))))}"


def shortest_line(source, line, trial):
    """The line without the last of its choices, where the default goes on as they do."""
    short = re.sub(r"( 0)+$", "", line)
    short = "" if short == "choices" else short
    return short if Trial(source.with_chooser(short)).report == trial.report else line
