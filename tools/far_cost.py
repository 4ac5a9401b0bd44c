#!/usr/bin/env python3
"""What a byte of a file costs by where it lies, in instructions: tools/far_cost.py KRES

Counts by valgrind what 2000 calls more of `pread` and of `pwrite` take, with their events and the lines of these, less
what the loop around them takes. It is a byte of an open file that has all blocks of the greatest disk, in blocks on both
sides of each border between its kinds of pointers; all blocks that the calls ask for are cached. The status is 1 where
two blocks that the inode names itself aren't alike.
"""
import re
import subprocess
import sys
import tempfile

PLACES = (0, 9, 10, 265, 266, 3821)
ROUNDS = 2000
SIZE = 3913728


def script(call, place, rounds):
    """A program that makes such a call over and over; without one its loop alone."""
    lines = ["heap 1048576", f"steps {20 * ROUNDS}", "disk 4096", "program init", "r1 = mmap 4096", 'r2 = open "/f" O_RDWR|O_CREAT',
             f"r3 = ftruncate r2 {SIZE}", f"r4 = pwrite r2 r1 1 {1024 * place}", f"set r3 {rounds - 1}", "label again"]
    lines += [f"r4 = {call} r2 r1 1 {1024 * place}"] if call else []
    return "\n".join(lines + ["loop r3 again", "end"]) + "\n"


def instructions(kres, call, place, rounds):
    """How many instructions one run takes."""
    with tempfile.TemporaryFile("w+") as text:
        text.write(script(call, place, rounds))
        text.seek(0)
        how = ["valgrind", "--tool=callgrind", "--callgrind-out-file=/dev/null", kres, "sim"]
        ran = subprocess.run(how, stdin=text, capture_output=True, text=True)
    answers = ran.stdout.count(f"done {call} = 1 ")
    if "end finished" not in ran.stdout or call and answers != rounds + (call == "pwrite"):
        sys.exit(f"far_cost: {answers} calls of {rounds} were answered 1")
    return int(re.search(r"Collected : (\d+)", ran.stderr)[1])


def cost(kres, call, place):
    """What one round takes."""
    return (instructions(kres, call, place, 2 * ROUNDS) - instructions(kres, call, place, ROUNDS)) / ROUNDS


def main(words):
    if len(words) != 1:
        sys.exit("usage: tools/far_cost.py KRES")
    alone = cost(words[0], None, 0)
    good = True
    for call in ("pread", "pwrite"):
        costs = [cost(words[0], call, place) - alone for place in PLACES]
        good = good and abs(costs[0] - costs[1]) < 20
        print(call + ": " + ", ".join(f"block {place} {it:.0f}" for place, it in zip(PLACES, costs)))
    return 0 if good else 1


if __name__ == "__main__":
    sys.exit(main(sys.argv[1:]))
