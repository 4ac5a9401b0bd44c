"""Copies of the repository, in which the toolchain works beside others: what ./build and ./edits share.

The toolchain locks a crate and all below it while it works, so each job has a copy of its own. A copy is made by hard
links, but for files that a check writes in place.
"""
import os
import re
import shutil
import sys

TOP = os.path.dirname(os.path.dirname(os.path.realpath(__file__)))
RT = [sys.executable, f"{TOP}/tools/summed_once.py"]  # the toolchain's command
PARTS = ("src", "specs", "proofs")
MEMORY_OF_A_JOB = 3 << 20  # in KB, as the system tells it


def stands_on():
    """Of each crate of the repository, in the order of crates.txt, those of the repository that it stands on."""
    with open(f"{TOP}/crates.txt") as file:
        lines = [line.split("#")[0] for line in file]
    pairs = [line.split(":", 1) for line in lines if ":" in line]
    listed = {head.split()[0]: tail.split() for head, tail in pairs}
    return {name: [it for it in below if it in listed] for name, below in listed.items()}


def all_below(name, below):
    """The crate with all that it stands on."""
    found = {name}
    for it in below[name]:
        if it not in found:
            found |= all_below(it, below)
    return found


def files_below(folder):
    """Every file below a folder, in a fixed order."""
    for at, folders, names in os.walk(folder):
        folders.sort()
        yield from (f"{at}/{name}" for name in sorted(names))


def read(path):
    with open(path, "rb") as file:
        return file.read()


def places():
    """How many jobs this machine has room for."""
    memory = int(re.search(rb"MemAvailable:\s+(\d+)", read("/proc/meminfo"))[1])
    return max(1, min(len(os.sched_getaffinity(0)), memory // MEMORY_OF_A_JOB))


def link(one, other):
    """Gives a file a second name, or copies it where names can't be shared or a check writes it in place."""
    try:
        if "/incremental/" in one and not one.endswith(".oantt"):
            raise OSError("written in place")
        os.link(one, other)
    except OSError:
        shutil.copy2(one, other)
    return other


def hand(source, target, part):
    """Puts a part of a crate's folder in the place of another's, where the source has it."""
    if os.path.isdir(f"{source}/{part}"):
        shutil.rmtree(f"{target}/{part}", ignore_errors=True)
        shutil.copytree(f"{source}/{part}", f"{target}/{part}", copy_function=link)


def hand_made(source, target, crate, parts):
    """Hands what was made of a crate in one copy to another."""
    os.makedirs(f"{target}/crates/{crate}/out", exist_ok=True)
    for part in parts:
        hand(f"{source}/crates/{crate}/out", f"{target}/crates/{crate}/out", part)


def copy_to(folder):
    """Makes a copy of what a proof reads, without what was made."""
    for crate in stands_on():
        for part in PARTS:
            hand(f"{TOP}/crates/{crate}", f"{folder}/crates/{crate}", part)
    for name in ("crates.txt", "HANDLES"):
        link(f"{TOP}/{name}", f"{folder}/{name}")
    return folder
