#!/usr/bin/env python3
"""Random scripts: tools/random_scripts.py FOLDER SEED COUNT [CALLS..]

Writes COUNT scripts to FOLDER, as SEED.kres, SEED + 1 and so on; each is made of its number alone, so a script that shows
something can be told by its number. They make the calls that are named, or one of the families memory, pipes, sockets,
paths, files, fifos, locks, all; without a name those of processes and memory. What programs do stands in
tools/random_programs.py. With the name sleepers alone the scripts are of many processes that mostly sleep on a few pipes and
sockets, with openers of some that mostly open the sides of a few FIFOs, with lockers of some that want the same places of a
few files. Heaps are small, so that calls wait and processes are killed, choices and policies vary, and some programs end while
others sleep. Nothing here runs or judges a script: tools/hostile_runs.py does.
"""
import os
import random
import sys

import random_programs
import random_sleepers

PROCESSES = "getpid getppid sched_yield fork waitpid kill signal exit".split()
FAMILIES = {
    "memory": "mmap munmap store load".split(),
    "pipes": "pipe close dup dup2 fcntl fstat read write poll pread pwrite lseek readdir ftruncate".split(),
    "sockets": "socket socketpair bind listen connect accept shutdown read write close poll fstat".split(),
    "paths": "stat chdir mkdir rmdir unlink link rename".split(),
    "files": "open close dup dup2 fcntl fstat read write pread pwrite lseek readdir ftruncate exec".split(),
    "fifos": "mkfifo open close dup dup2 fcntl fstat read write poll stat unlink link rename exec".split(),
    "locks": "setlk setlkw getlk open close dup dup2 fcntl fstat read write pipe poll unlink link rename exec store mmap".split(),
}
FAMILIES["all"] = sorted({it for family in FAMILIES.values() for it in family})
# Scripts of another form, by a name of their own: what their processes do, and how much heap they have.
CROWDS = {
    "sleepers": (random_sleepers.Crowd, [32768, 131072, 262144, 1048576]),
    "openers": (random_sleepers.Openers, [12288, 16384, 24576, 65536, 262144]),
    "lockers": (random_sleepers.Lockers, [8704, 10240, 12288, 16384, 65536]),
}
HEAPS = [8192, 9000, 12000, 16384, 20000, 32768, 65536, 65536, 131072]


def calls_of(named):
    """The calls that are named, one by one or by their family, and those of processes."""
    return sorted({*PROCESSES, *(it for name in named for it in FAMILIES.get(name, [name]))})


def choosing(rng, how):
    """The line by which events are chosen, if there is one; `how` is 0 to 2."""
    if how == 1:
        return [f"seed {rng.randint(0, 2147483647)}"]
    if how == 2:
        return ["choices " + " ".join(str(rng.randint(0, 9)) for _ in range(rng.randint(1, 60)))]
    return []


def programs(rng, calls):
    """The lines of the programs; now and then of long ones."""
    names = ["init"] + (["prog"] if "exec" in calls else [])
    for name in names:
        length = rng.randint(4, 40) if rng.random() < 0.7 else rng.randint(60, 160)
        yield from [f"program {name}", *random_programs.Program(rng, calls).body(length), "end"]


def crowded(number, crowd, heaps):
    """The text of a number, as bytes, of many processes that mostly sleep."""
    rng = random.Random(number)
    heap = rng.choice(heaps)
    lines = [f"heap {heap}", f"steps {rng.choice([1000, 3000, 6000])}", *choosing(rng, rng.choice([0, 1, 1, 1, 2]))]
    lines += ["program init", *crowd(rng).lines(), "end"]
    return ("\n".join(lines) + "\n").encode("latin-1")


def script(number, calls):
    """The text of a number, as bytes."""
    for name, crowd in CROWDS.items():
        if name in calls:
            return crowded(number, *crowd)
    rng = random.Random(number)
    lines = [f"heap {rng.choice(HEAPS)}", f"steps {rng.choice([200, 400, 1000, 3000, 3000])}"]
    lines += [f"disk {rng.choice([16, 17, 32, 64])}"] * (rng.random() < 0.7)
    lines += [f"policy {rng.choice(['heaviest', 'youngest'])}"] * (rng.random() < 0.5)
    lines += [*choosing(rng, rng.choice([0, 0, 0, 1, 1, 1, 1, 2, 2, 2])), *programs(rng, calls)]
    return ("\n".join(lines) + "\n").encode("latin-1")


def write_all(words, make, usual):
    """Writes the scripts that the words of a command ask for, by what makes one of a number and its calls."""
    folder, seed, count = words[0], int(words[1]), int(words[2])
    calls = calls_of(words[3:] or usual)
    os.makedirs(folder, exist_ok=True)
    for number in range(seed, seed + count):
        with open(f"{folder}/{number}.kres", "wb") as file:
            file.write(make(number, calls))


def main(words):
    if len(words) < 3 or not all(it.isdigit() for it in words[1:3]):
        print(__doc__.split("\n")[0])
        return 2
    write_all(words, script, ["memory"])
    return 0


if __name__ == "__main__":
    sys.exit(main(sys.argv[1:]))
