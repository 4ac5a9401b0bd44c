#!/usr/bin/env python3
"""Refuses memory: tools/refuse_memory.py KRES [SCRIPT [CASE..]], or tools/refuse_memory.py FIRST LAST

Runs a small script by `sim` and by `threads 2`, and a generated one by `load 1`, again and again, and refuses one allocation in
each run. Each run has to end as it does with ample memory and with the same text (nothing was refused, or only a thread that
wasn't started), or with 8 and a beginning of that text. Tells each run that isn't right, and how many were tried, and ends with 1
where one isn't.

With KRES it runs that built program, under a malloc that refuses one call: each that the run makes, in its turn. Of load's, which are
very many, each is refused in a copy of one process, which goes on from there; a copy that ends as most do, with 8 and no text, is
right, and what another refused is refused once more in a run of its own. The cases are sim, threads and load; all of them where none
is named. This wants a C compiler (CC, else cc) and glibc. With two numbers it runs the sources, unproved, by `rt try --fail-alloc N` for each
N from FIRST to LAST; the toolchain builds anew for each, so each takes a minute or two.
"""
import os
import re
import subprocess
import sys
import tempfile

SCRIPT = "heap 8192\ndisk 16\nsteps 3\nprogram init\nend\n"
WORDS = {"sim": ["sim"], "threads": ["threads", "2"], "load": ["load", "1"]}
CRATE = os.path.join(os.path.dirname(os.path.realpath(__file__)), "..", "crates", "kres_cli")
MEMORY = 8
AMPLE = 10 ** 9  # the number of an allocation that no run makes
MORE = 20  # in so many runs more the number is one that was never reached; threads don't make the same number each time
CASE = re.compile(r"^case=(\w+) run=ended status=(\d+) ", re.M)

# A malloc that answers NULL to the call whose number REFUSED tells, from 1, and counts its calls in the file COUNTED. Where COPIES
# names a file, it makes a copy of the process at each call instead, and refuses the call there; the file gets the number of the call,
# the status that the copy ended with, and how much it wrote.
REFUSING = r"""
#define _GNU_SOURCE
#include <errno.h>
#include <fcntl.h>
#include <stdatomic.h>
#include <stddef.h>
#include <stdio.h>
#include <stdlib.h>
#include <sys/mman.h>
#include <sys/wait.h>
#include <unistd.h>

extern void *__libc_malloc(size_t);
extern void *__libc_calloc(size_t, size_t);
extern void *__libc_realloc(void *, size_t);
extern void *__libc_memalign(size_t, size_t);

static _Atomic long *made;
static long refused = -1;
static int copies = -1;

__attribute__((constructor)) static void begin(void) {
    made = mmap(NULL, sizeof *made, PROT_READ | PROT_WRITE, MAP_SHARED, open(getenv("COUNTED"), O_RDWR), 0);
    if (made == MAP_FAILED) abort();
    if (getenv("COPIES")) copies = open(getenv("COPIES"), O_WRONLY | O_APPEND);
    refused = atol(getenv("REFUSED"));
}

/* Whether this is the copy, in which the call is refused, and no other is. */
static int is_copy(long number) {
    char line[80];
    int text = memfd_create("text", 0), status = 0;
    pid_t copy = fork();
    if (copy < 0) abort();
    if (copy == 0) {
        dup2(text, 1);
        copies = refused = -1;
        return 1;
    }
    waitpid(copy, &status, 0);
    int size = snprintf(line, sizeof line, "%ld %d %ld\n", number, WIFEXITED(status) ? WEXITSTATUS(status) : -1, (long)lseek(text, 0, SEEK_END));
    if (write(copies, line, size) != size) abort();
    close(text);
    return 0;
}

static int is_refused(void) {
    if (refused < 0) return 0;
    long number = atomic_fetch_add(made, 1) + 1;
    if (copies >= 0 ? !is_copy(number) : number != refused) return 0;
    errno = ENOMEM;
    return 1;
}

void *malloc(size_t n) { return is_refused() ? NULL : __libc_malloc(n); }
void *calloc(size_t m, size_t n) { return is_refused() ? NULL : __libc_calloc(m, n); }
void *realloc(void *p, size_t n) { return is_refused() ? NULL : __libc_realloc(p, n); }
void *aligned_alloc(size_t a, size_t n) { return is_refused() ? NULL : __libc_memalign(a, n); }

int posix_memalign(void **p, size_t a, size_t n) {
    if (is_refused()) return ENOMEM;
    *p = __libc_memalign(a, n);
    return *p ? 0 : ENOMEM;
}
"""


class Built:
    """Runs of the built program."""

    def __init__(self, folder, kres, script):
        self.kres, self.script = os.path.abspath(kres), script.encode()
        self.library, self.counted = f"{folder}/refusing.so", f"{folder}/counted"
        with open(f"{folder}/refusing.c", "w", encoding="utf-8") as file:
            file.write(REFUSING)
        subprocess.run([os.environ.get("CC", "cc"), "-O1", "-shared", "-fPIC", "-o", self.library, f"{folder}/refusing.c"], check=True)

    def outcome(self, name, number, **more):
        """The status of a case and what it wrote, where this allocation is refused, and how many were asked for."""
        with open(self.counted, "wb") as file:
            file.write(bytes(8))
        room = {**os.environ, "LD_PRELOAD": self.library, "REFUSED": str(number), "COUNTED": self.counted, **more}
        ran = subprocess.run([self.kres, *WORDS[name]], input=self.script, capture_output=True, env=room)
        with open(self.counted, "rb") as file:
            made = int.from_bytes(file.read(), sys.byteorder)
        return (ran.returncode, ran.stdout.decode()), made

    def copies(self, name):
        """Of each allocation of a case its number, how the copy of the process in which it was refused ended, and how much that wrote."""
        kept = f"{os.path.dirname(self.counted)}/copies"
        open(kept, "w", encoding="utf-8").close()
        self.outcome(name, AMPLE, COPIES=kept)
        with open(kept, encoding="utf-8") as file:
            return [tuple(map(int, line.split())) for line in file]


class Tried:
    """Runs of the sources by the toolchain."""

    def __init__(self, folder):
        self.folder = folder
        for name, words in WORDS.items():
            with open(f"{folder}/{name}", "w", encoding="utf-8") as file:
                file.write(SCRIPT)
            with open(f"{folder}/{name}.args", "w", encoding="utf-8") as file:
                file.write("\n".join(words) + "\n")

    def outcomes(self, number):
        words = ["rt", "try", "--fail-alloc", str(number), "--cases", self.folder]
        ran = subprocess.run(words, cwd=CRATE, capture_output=True, text=True)
        texts = re.split(r"^== (\w+)\n", ran.stdout, flags=re.M)
        written = dict(zip(texts[1::2], texts[2::2]))
        found = {name: (int(status), written.get(name, "")) for name, status in CASE.findall(ran.stderr)}
        if set(found) != set(WORDS):
            sys.exit(f"rt try gave no answer at {number}:\n{ran.stderr}")
        return found


def is_right(outcome, ample):
    if outcome[0] == MEMORY:
        return ample[1].startswith(outcome[1])
    return outcome == ample


def refuse_built(built, name):
    """Refuses each allocation of a case of the built program, and tells what came of it."""
    ample, made = built.outcome(name, AMPLE)
    copies = built.copies(name) if name == "load" else []
    right = [number for number, status, size in copies if (status, size) == (MEMORY, 0)]
    left = sorted(set(range(1, made + MORE + 1)) - set(right))
    tried, wanted, wrong = len(right), len(right), 0
    for number in left:
        outcome, reached = built.outcome(name, number)
        tried += number <= reached
        wanted += outcome[0] == MEMORY
        if not is_right(outcome, ample):
            wrong += 1
            print(f"{number} {name}: status {outcome[0]}, {outcome[1]!r}", flush=True)
    print(f"{name}: {tried} of {made} allocations were refused, {wanted} runs wanted memory, {wrong} ended wrong", flush=True)
    return wrong


def refuse_tried(tried, first, last):
    """Refuses each allocation of the sources' runs from the first to the last."""
    ample, runs, wanted, wrong = tried.outcomes(AMPLE), 0, 0, 0
    for number, (name, outcome) in ((number, it) for number in range(first, last + 1) for it in tried.outcomes(number).items()):
        runs += 1
        wanted += outcome[0] == MEMORY
        if not is_right(outcome, ample[name]):
            wrong += 1
            print(f"{number} {name}: status {outcome[0]}, {outcome[1]!r}", flush=True)
    print(f"{runs} runs, of which {wanted} wanted memory, and {wrong} ended wrong")
    return wrong


def main(words):
    cases = words[2:] or list(WORDS)
    with tempfile.TemporaryDirectory() as folder:
        if len(words) == 2 and all(it.isdigit() for it in words):
            return 1 if refuse_tried(Tried(folder), int(words[0]), int(words[1])) else 0
        if not words or not os.path.isfile(words[0]) or not set(cases) <= set(WORDS):
            print(__doc__.split("\n")[0])
            return 2
        script = SCRIPT
        if len(words) > 1:
            with open(words[1], encoding="utf-8") as file:
                script = file.read()
        built = Built(folder, words[0], script)
        return 1 if sum(refuse_built(built, name) for name in cases) else 0


if __name__ == "__main__":
    sys.exit(main(sys.argv[1:]))
