"""Edits that the prover has to refuse, and the files as one of them makes them: what ./break and ./edits share.

An edit is a file with lines `file: PATH`, and behind each pairs of lines `old: TEXT` and `new: TEXT`: the old text stands
once in that file of the crate, and the new one takes its place.
"""
import os

from copies import TOP, files_below, read

FOLDERS = ("must-fail", "wrong")


class NotMade(Exception):
    """An edit can't be made: why not."""


def edits_of(crate):
    """The files of a crate's edits."""
    return [path for folder in FOLDERS for path in files_below(f"{TOP}/crates/{crate}/{folder}") if path.endswith(".edit")]


def edited(path, crate):
    """The texts that an edit makes of a crate's files, by their names."""
    texts, name, old = {}, None, None
    for line in read(path).decode().splitlines():
        if line.startswith("file: "):
            name = line.removeprefix("file: ").strip()
            if not os.path.isfile(f"{TOP}/crates/{crate}/{name}"):
                raise NotMade(f"there is no file {name}")
            texts.setdefault(name, read(f"{TOP}/crates/{crate}/{name}").decode())
        elif line.startswith("old: "):
            old = line.removeprefix("old: ")
        elif line.startswith("new:"):
            if not name or not old:
                raise NotMade("its new text has no file or no old text")
            if texts[name].count(old) != 1:
                raise NotMade(f"an old text stands in {name} {texts[name].count(old)} times")
            texts[name] = texts[name].replace(old, line.removeprefix("new:").removeprefix(" "))
            old = None
    if not texts:
        raise NotMade("it names no file")
    return texts
