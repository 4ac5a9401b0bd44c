#!/usr/bin/env python3
"""Builds the program of these sources without its proof: for ./kres before ./build, or to count instructions.

Usage: tools/unproved.py OUT

It takes the module that `rt try` makes, takes the checks out that such a run makes on its way, and compiles the rest as a
proved program is compiled. What comes out takes some three in a hundred more or less than the proved program. Nothing is
shown of it.
"""
import os
import re
import shutil
import subprocess
import sys
import tempfile

TOP = os.path.dirname(os.path.dirname(os.path.abspath(__file__)))
TARGET = "--target=x86_64-unknown-linux-gnu"
# A stand-in for the compiler, which keeps the one large module that it is handed, and stops there.
KEEPER = """#!/usr/bin/env bash
for word in "$@"; do
    case "$word" in
        *.bc) if [ "$(stat -c %s "$word")" -gt 1000000 ]; then cp "$word" {kept}; exit 1; fi ;;
    esac
done
exec {clang} "$@"
"""
NAME = re.compile(r'^define .*?@(?:"([^"]*)"|([\w.]+))\(')
ATTRIBUTE = re.compile(r"^( *)#\[inline\((never|always)\)\]\s*(?:#\[\w+\]\s*)*(?:pub(?:\(crate\))? )?(?:unsafe )?fn (\w+)", re.M)
# An `impl` of a type, or of a trait for a type.
HEAD = re.compile(r"^(?:unsafe )?impl(?:<.*?>)? (?:(\w+)(?:<.*>)? for )?&?(\w+)", re.M)
NUMBERS = {"always": 91, "never": 92}
WORDS = {"always": "alwaysinline", "never": "noinline"}
STACK = '"probe-stack"="inline-asm" "stack-probe-size"="3072" "target-cpu"="x86-64-v2"'


def stand_in(kit, room, kept):
    """A toolchain in this folder that is the kit's but for its compiler."""
    for name in os.listdir(kit):
        if name not in ("bin", "toolchain"):
            os.symlink(f"{kit}/{name}", f"{room}/{name}")
    for folder in ("bin", "toolchain/bin"):
        os.makedirs(f"{room}/{folder}")
        for name in os.listdir(f"{kit}/{folder}"):
            os.symlink(f"{kit}/{folder}/{name}", f"{room}/{folder}/{name}")
    os.symlink(f"{kit}/toolchain/lib", f"{room}/toolchain/lib")
    # These find their kit by where they lie.
    for name in ("rt", "rtlib.py"):
        os.remove(f"{room}/bin/{name}")
        shutil.copy(f"{kit}/bin/{name}", f"{room}/bin/{name}")
    os.remove(f"{room}/toolchain/bin/clang")
    with open(f"{room}/toolchain/bin/clang", "w") as file:
        file.write(KEEPER.format(kept=kept, clang=f"{kit}/toolchain/bin/clang"))
    os.chmod(f"{room}/toolchain/bin/clang", 0o755)


def owner_of(text, place, indent, path):
    """What stands before a function's name: its type, with the trait's name behind it, or its module."""
    if indent:
        heads = list(HEAD.finditer(text, 0, place))
        return heads[-1][2] + (heads[-1][1] or "") if heads else ""
    module = os.path.splitext(path)[0]
    return os.path.basename(module if os.path.basename(module) not in ("mod", "lib", "main") else os.path.dirname(module))


def inlined(folders):
    """Of each function of the crates in these folders that has one, the word of its attribute, by crate, owner and name."""
    found = {}
    for above in folders:
        for crate in os.listdir(above):
            for folder, _, names in os.walk(f"{above}/{crate}/src"):
                for path in (f"{folder}/{name}" for name in names if name.endswith(".rt")):
                    with open(path) as file:
                        text = file.read()
                    for at in ATTRIBUTE.finditer(text):
                        found[crate, owner_of(text, at.start(), at[1], path), at[3]] = at[2]
    return found


def without_checks(lines, attributes):
    """The lines of a module without the checks of a trial run, each function with the attribute that its source has."""
    for line in lines:
        if "rattle-llvm-checks::" in line and "call void" in line or "i8 -86" in line and "memset" in line:
            continue
        if line.startswith("define"):
            first, second = NAME.match(line).groups()
            path = re.sub(r"::<#[0-9a-f]+>", "", first or second).split("::")
            how = attributes.get((path[0], path[-2], path[-1])) if len(path) > 1 else None
            if how:
                line = re.sub(r"#\d+ \{$", f"#{NUMBERS[how]} {{", line.rstrip()) + "\n"
        elif line.startswith("attributes"):
            line = line.replace('sanitize_address "frame-pointer"="all"', "nounwind").replace('"x86-64"', '"x86-64-v2"')
        yield line
    for how, number in NUMBERS.items():
        yield f"attributes #{number} = {{ {WORDS[how]} nounwind {STACK} }}\n"


def main():
    if len(sys.argv) != 2 or sys.argv[1].startswith("-"):
        sys.exit(__doc__)
    kit = os.path.dirname(os.path.dirname(os.path.realpath(shutil.which("rt"))))
    clang = f"{kit}/toolchain/bin/clang"
    with tempfile.TemporaryDirectory() as room:
        os.makedirs(f"{room}/kit")
        stand_in(kit, f"{room}/kit", f"{room}/kept.bc")
        said = subprocess.run([f"{room}/kit/bin/rt", "try", "--steps", "1", "--seconds", "1", "--", "table"],
                              cwd=f"{TOP}/crates/kres_cli", stdin=subprocess.DEVNULL, capture_output=True, text=True)
        if not os.path.exists(f"{room}/kept.bc"):
            sys.exit(f"rt try made no module:\n{said.stdout}{said.stderr}")
        subprocess.run([clang, TARGET, "-x", "ir", f"{room}/kept.bc", "-S", "-emit-llvm", "-O0", "-Xclang",
                        "-disable-llvm-passes", "-o", f"{room}/kept.ll"], check=True)
        with open(f"{room}/kept.ll") as old, open(f"{room}/bare.ll", "w") as new:
            new.writelines(without_checks(old, inlined([f"{TOP}/crates", f"{kit}/rattle"])))
        subprocess.run([clang, TARGET, f"--sysroot={kit}/toolchain", "-ffunction-sections", "-fdata-sections", "-mllvm",
                        "-disable-machine-licm", "-mllvm", "-disable-postra-machine-licm", "-mllvm",
                        "-sink-common-insts=false", "-c", "-x", "ir", f"{room}/bare.ll", "-o", f"{room}/bare.o", "-fPIE",
                        "-O3", "-Xclang", "-fmerge-functions", "-mllvm", "-mergefunc-use-aliases"], check=True)
        subprocess.run([f"{kit}/bin/rattle-link", "--target", "x86_64-unknown-linux-gnu", "--toolchain", f"{kit}/toolchain",
                        "-o", os.path.abspath(sys.argv[1]), f"{room}/bare.o", f"{kit}/c/libos_c.a",
                        f"{kit}/c/liblibc_c.a"], check=True)


if __name__ == "__main__":
    main()
