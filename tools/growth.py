#!/usr/bin/env python3
"""What an event costs as something grows beside it: tools/growth.py KRES [EVENTS] [--limits] [--only WORD]

Runs the built program KRES by `sim` under valgrind on scripts that differ in one number alone, and prints for each row how many
instructions an event takes at each number. Boot, set-up and end are taken off: a script is run until its steps are all alike and for
EVENTS more (10000 where that isn't said), and what the longer run takes more is divided by EVENTS. With --limits a row that takes
more anywhere than its limit, or more at one number than its limit times what it takes at another, makes the exit status 1; with --only
WORD rows alone are run that have it in their name. Where there is no valgrind it says so, and goes on.
"""
import re
import shutil
import subprocess
import sys

from growth_disk import ROWS as OF_DISKS

COUNTED = re.compile(r"refs: *([\d,]+)")
FAILED = re.compile(r"^\d+ p\d+ done \w+ = E[A-Z]+ .*|.* refused .*|.* killed .*", re.M)


def chain(asleep, sleeps, works, begins=()):
    """A process that makes the next one and sleeps, and so on; the last works on and on."""
    lines = ["heap 1048576", "steps STEPS", "program init", *begins, f"set r14 {asleep}", "set r13 1000000", "label next", "if r14 == 0 last",
             "add r14 -1", "r15 = fork", "if r15 == 0 child", *sleeps, "exit 0", "label last", "label again", *works, "loop r13 again", "exit 0",
             "label child", "loop r13 next", "end"]
    return "\n".join(lines) + "\n"


def of_pipe(sleeps):
    """Who sleeps sleeps on pipes of init's, and the last one writes and reads a pipe of its own."""
    return lambda asleep: chain(asleep, sleeps, ["r12 = write r11 r1 8", "r12 = read r10 r1 8"],
                                ["r1 = mmap 4096", "r2 r3 = pipe", "r4 r5 = pipe", "r10 r11 = pipe"])


def waits(asleep):
    """Each waits for the next, and the last asks for its pid."""
    return chain(asleep, ["r12 = waitpid r15 0"], ["r12 = getpid"])


def reads_beside(asleep):
    """Who sleeps polls, and the last one reads at a place of a file and asks for its name."""
    return chain(asleep, ["r12 = poll -1 r2 POLLIN r4 POLLIN r2 POLLIN r4 POLLIN r2 POLLIN r4 POLLIN r2 POLLIN r4 POLLIN"],
                 ["r12 = pread r10 r1 8 0", "r12 = stat \"/f\""],
                 ["r1 = mmap 4096", "r2 r3 = pipe", "r4 r5 = pipe", "r10 = open \"/f\" O_RDWR|O_CREAT", "r12 = write r10 r1 8"])


def moves_beside(asleep):
    """Who sleeps has thirty descriptors, and the last one moves a name to and fro."""
    return chain(asleep, ["r12 = read r2 r1 8"], ["r12 = rename \"/a\" \"/b\"", "r12 = rename \"/b\" \"/a\""],
                 ["r1 = mmap 4096", "r2 r3 = pipe", *["r4 = dup r2"] * 28, "r10 = open \"/a\" O_RDWR|O_CREAT"])


def wait_for_places(asleep):
    """Who sleeps waits for a place of a file that the first process holds, and the last one asks for its pid."""
    return chain(asleep, ["r12 = setlkw 0 F_WRLCK 0 1"], ["r12 = getpid"],
                 ["open \"/f\" O_RDWR|O_CREAT", "setlk 0 F_WRLCK 0 1", "r15 = fork", "if r15 == 0 first", "waitpid -1 0", "exit 0", "label first"])


# How many events sleepers take before their steps are all alike.
ASLEEP = 3000

# Each row: what grows, its numbers, the script for a number, the events before its steps are all alike, the most instructions an event,
# and the most growth, in hundredths.
ROWS = [
    ("asleep in `poll` of eight, while one writes and reads a pipe", (0, 8, 62),
     of_pipe(["r12 = poll -1 r2 POLLIN r4 POLLIN r2 POLLIN r4 POLLIN r2 POLLIN r4 POLLIN r2 POLLIN r4 POLLIN"]), ASLEEP, 1700, 110),
    ("asleep in `read`, while one writes and reads a pipe", (0, 8, 62), of_pipe(["r12 = read r2 r1 8"]), ASLEEP, 1700, 110),
    ("asleep in `poll` of eight, while one asks for a file's bytes and its name", (0, 8, 62), reads_beside, ASLEEP, 1700, 110),
    ("asleep in `waitpid`, while one asks for its pid", (0, 8, 62), waits, ASLEEP, 1300, 110),
    ("asleep in `setlkw` for one place, while one asks for its pid", (0, 8, 30), wait_for_places, ASLEEP, 24700, 2350),
    ("asleep with thirty descriptors each, while one moves a name", (0, 8, 62), moves_beside, ASLEEP, 12200, 600),
    *OF_DISKS,
]


def counted(kres, script, steps):
    """How many instructions a run of so many events takes."""
    said = subprocess.run(["valgrind", "--tool=cachegrind", "--cache-sim=no", "--cachegrind-out-file=/dev/null", kres, "sim"],
                          capture_output=True, text=True, input=script.replace("STEPS", str(steps)))
    found = COUNTED.search(said.stderr)
    if not found or not said.stdout.rstrip().splitlines()[-2:]:
        sys.exit(f"growth: {kres} told nothing of a script: {said.stderr[-300:]}")
    if f"\n{steps} " not in said.stdout:
        sys.exit(f"growth: a script ended before its {steps} events")
    if failed := FAILED.search(said.stdout):
        sys.exit(f"growth: a call of a script isn't answered as it should: {failed[0]}")
    return int(found[1].replace(",", ""))


def measured(kres, row, events):
    """What an event takes at each number of a row, whose first events are those that make what is there."""
    _, numbers, script_of, begun, _, _ = row
    return [round((counted(kres, script_of(it), begun + events) - counted(kres, script_of(it), begun)) / events) for it in numbers]


def beyond(taken, most, growth):
    """Whether a row takes more than it may, or grows more."""
    return max(taken) > most or 100 * max(taken) > growth * min(taken)


def told(kres, rows, events, limits):
    """Prints the table of these rows; answers whether each is within its limits, where they count."""
    kept = True
    print("| what grows | an event takes |\n|---|---|")
    for row in rows:
        name, numbers, _, _, most, growth = row
        taken = measured(kres, row, events)
        print(f"| {name}: {', '.join(map(str, numbers))} | {', '.join(map(str, taken))} |", flush=True)
        if limits and beyond(taken, most, growth):
            print(f"growth: that is more than {most}, or grows by more than {growth / 100} times")
            kept = False
    return kept


def main(words):
    limits = "--limits" in words
    words = [it for it in words if it != "--limits"]
    wanted = words[words.index("--only") + 1:][:1] if "--only" in words else [""]
    words = words[:words.index("--only")] + words[words.index("--only") + 2:] if "--only" in words else words
    if len(words) not in (1, 2) or not wanted:
        print(__doc__.split("\n")[0])
        return 2
    if shutil.which("valgrind") is None:
        print("growth: no valgrind here, so nothing is counted")
        return 0
    events = int(words[1]) if len(words) == 2 else 10000
    return 0 if told(words[0], [it for it in ROWS if wanted[0] in it[0]], events, limits) else 1


if __name__ == "__main__":
    sys.exit(main(sys.argv[1:]))
