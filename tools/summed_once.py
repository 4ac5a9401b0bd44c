#!/usr/bin/env python3
"""The toolchain's command rt, but that it sums the files of each crate once: tools/summed_once.py WORD..

Before and after it makes a library, rt looks whether all below it is what it was made of, and sums a crate's files once for
each way that leads to it through crates.txt. From the crates at the top there are tens of thousands of ways, so that takes
minutes of a processor where the proof takes one. Within one such look the files are the same, so each crate is summed once
here. A toolchain that has no such call is run as it is.
"""
import importlib.machinery
import os
import runpy
import shutil
import sys

sys.dont_write_bytecode = True


def once(stamp):
    """The same call, which asks each crate below once while it is asked."""
    known, asking = {}, []

    def asked(crate):
        if crate.folder not in known:
            asking.append(crate)
            known[crate.folder] = stamp(crate)
            asking.pop()
        told = known[crate.folder]
        if not asking:
            # The next look may find other files.
            known.clear()
        return told

    return asked


class Loader(importlib.machinery.SourceFileLoader):
    """Loads the toolchain's module as it is, but for that call."""

    def exec_module(self, module):
        super().exec_module(module)
        if module.__name__ == "rtlib" and hasattr(getattr(module, "Crate", None), "stamp"):
            module.Crate.stamp = once(module.Crate.stamp)


def main():
    rt = os.path.realpath(shutil.which("rt") or "rt")
    if not os.path.exists(f"{os.path.dirname(rt)}/rtlib.py"):
        os.execvp(rt, [rt, *sys.argv[1:]])
    importlib.machinery.SourceFileLoader = Loader
    sys.path[0], sys.argv[0] = os.path.dirname(rt), rt
    runpy.run_path(rt, run_name="__main__")


if __name__ == "__main__":
    main()
