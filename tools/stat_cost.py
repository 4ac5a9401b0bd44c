#!/usr/bin/env python3
"""What a question about a cached path costs, in instructions: tools/stat_cost.py [PROGRAM]

Counts by valgrind what 1000 rounds more of the program (crates/stat_cost/out/stat_cost, proved and linked by `rt run`)
take, over heaps of 65536, 1048576 and 8388608 bytes and paths of 1, 4 and 16 components. The status is 1 where a path of
n components takes more than 900 and 450 for each further one, or where one heap's count is more than one in a hundred
above another's.
"""
import os
import re
import subprocess
import sys

TOP = os.path.dirname(os.path.dirname(os.path.realpath(__file__)))
HEAPS = (65536, 1048576, 8388608)
COMPONENTS = (1, 4, 16)
ROUNDS = 1000


def instructions(program, heap, components, rounds):
    """How many instructions one run of the program takes."""
    words = [program, str(heap), str(components), str(rounds)]
    how = ["valgrind", "--tool=callgrind", "--callgrind-out-file=/dev/null", *words]
    ran = subprocess.run(how, capture_output=True, text=True, check=True)
    if ran.stdout != "reads 0\n":
        sys.exit(f"stat_cost: the rounds read the disk, or nothing was told: {ran.stdout!r}")
    return int(re.search(r"Collected : (\d+)", ran.stderr)[1])


def cost(program, heap, components):
    """What one question takes."""
    more = instructions(program, heap, components, 2 * ROUNDS) - instructions(program, heap, components, ROUNDS)
    return more / ROUNDS


def main(words):
    program = words[0] if words else f"{TOP}/crates/stat_cost/out/stat_cost"
    good = True
    for components in COMPONENTS:
        costs = [cost(program, heap, components) for heap in HEAPS]
        most = 900 + 450 * (components - 1)
        fits = max(costs) <= most and max(costs) <= 1.01 * min(costs)
        good = good and fits
        told = ", ".join(f"{it:.0f}" for it in costs)
        print(f"{components:2} components: {told} of {most}{'' if fits else '  too many, or not flat'}")
    return 0 if good else 1


if __name__ == "__main__":
    sys.exit(main(sys.argv[1:]))
