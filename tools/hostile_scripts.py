#!/usr/bin/env python3
"""Hostile scripts: tools/hostile_scripts.py FOLDER SEED COUNT [CALLS..]

Writes COUNT scripts to FOLDER, as SEED.kres, SEED + 1 and so on; each is made of its number alone. They are those of
tools/random_scripts.py, which tells what CALLS may be, but with heaps of 8192 to 16384 bytes, so that much is refused,
evicted and killed, and with every policy and way to choose. Of four scripts one is mutated, up to five times: a line
goes, comes twice or changes places, a word becomes another or a number on the edge of what is allowed, a few bytes
change, or the text is cut. Such a text mostly has a fault, and has to be told it.
"""
import random
import sys

import random_scripts

HEAPS = [8192, 8193, 8704, 9216, 10240, 11008, 12288, 13000, 14336, 16383, 16384]
WORDS = ["init", "r0", "r15", "r16", "exit", "fork", "label", "loop", "end", "program", "=", '"', "#", "0", "-1", "007",
         "255", "256", "4096", "65536", "100001", "2147483648", "9223372036854775807", "9223372036854775808", "POLLIN|POLLOUT"]


def settings(rng):
    """A small heap, and each policy and way to choose in its turn."""
    lines = [f"heap {rng.choice(HEAPS)}", f"steps {rng.choice([60, 200, 400, 1000, 3000])}"]
    lines += [f"disk {rng.choice([16, 17, 32])}"] * (rng.random() < 0.6)
    lines.append(f"policy {rng.choice(['heaviest', 'youngest'])}")
    return lines + random_scripts.choosing(rng, rng.randrange(3))


def other_word(rng, line):
    words = line.split(" ")
    words[rng.randrange(len(words))] = rng.choice(WORDS)
    return " ".join(words)


def mutated(rng, text):
    lines = text.split("\n")
    here, there = rng.randrange(len(lines)), rng.randrange(len(lines))
    how = rng.randrange(6)
    if how == 0:
        del lines[here]
    elif how == 1:
        lines.insert(there, lines[here])
    elif how == 2:
        lines[here], lines[there] = lines[there], lines[here]
    elif how == 3:
        lines[here] = other_word(rng, lines[here])
    text = "\n".join(lines)
    if how == 4:
        return text[:rng.randrange(len(text) + 1)]
    if how == 5:
        place = rng.randrange(len(text) + 1)
        return text[:place] + "".join(chr(rng.randrange(1, 256)) for _ in range(rng.randint(1, 3))) + text[place + 2:]
    return text


def script(number, calls):
    """The text of a number, as bytes."""
    rng = random.Random(f"hostile {number}")
    text = "\n".join([*settings(rng), *random_scripts.programs(rng, calls)]) + "\n"
    if number % 4 == 3:
        for _ in range(rng.randint(1, 5)):
            text = mutated(rng, text)
    return text.encode("latin-1")


def main(words):
    if len(words) < 3 or not all(it.isdigit() for it in words[1:3]):
        print(__doc__.split("\n")[0])
        return 2
    random_scripts.write_all(words, script, ["all"])
    return 0


if __name__ == "__main__":
    sys.exit(main(sys.argv[1:]))
