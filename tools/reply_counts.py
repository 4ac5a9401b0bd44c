#!/usr/bin/env python3
"""What was answered: tools/reply_counts.py REPORT..

Counts in reports of `sim` or `threads W` how often each call was answered well and with each errno, was refused, moved a part and
slept, and how often a call was abandoned, a process killed for another, and something evicted. What never comes in many random
scripts isn't tried by them.
"""
import collections
import re
import sys

DONE = re.compile(r"^\d+ p\d+ done (\w+) = (\S+)", re.M)
OTHER = re.compile(r"^\d+ p\d+ (part|sleep|refused|abandon|gone|wake) (\w+)", re.M)
ENDED = re.compile(r"^\d+ (?:p\d+ (ended (?:exit|signal)|killed)|(evict \w+))", re.M)


def counts_of(report):
    """How often each pair of a call, or an event, and its answer comes."""
    found = collections.Counter()
    for call, reply in DONE.findall(report):
        found[call, reply if reply.startswith("E") else "well"] += 1
    for how, call in OTHER.findall(report):
        found[call, how] += 1
    for ended, evicted in ENDED.findall(report):
        found["events", ended or evicted] += 1
    return found


def lines_of(counts):
    """A line for each call, the answers that came most often first."""
    for call in sorted({call for call, _ in counts}):
        answers = sorted(((n, answer) for (it, answer), n in counts.items() if it == call), reverse=True)
        yield f"{call}: " + ", ".join(f"{answer} {n}" for n, answer in answers)


def main(paths):
    if not paths:
        print(__doc__.split("\n")[0])
        return 2
    counts = collections.Counter()
    for path in paths:
        with open(path, encoding="utf-8", errors="replace") as file:
            counts += counts_of(file.read())
    print("\n".join(lines_of(counts)))
    return 0


if __name__ == "__main__":
    sys.exit(main(sys.argv[1:]))
