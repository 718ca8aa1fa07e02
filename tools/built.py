#!/usr/bin/env python3
"""The crates of crates.txt, and what rt builds of them: a program is crates/NAME/out/NAME, a static library crates/NAME/out/libNAME.a.

usage: tools/built.py NAME ..      (builds each that isn't there or is older than the code it is made of, and prints where it stands)

A program is built by `rt run`, a static library by `rt lib`, in the crate's folder; both prove all that it is made of first. `rt ci` builds the programs as well.
Exit status 1: one of them isn't listed in crates.txt, or can't be built.
"""

import glob
import os
import shutil
import subprocess
import sys

ROOT = os.path.dirname(os.path.dirname(os.path.abspath(__file__)))


def crates():
    """Each crate that crates.txt lists, with what it depends on, in the order of the lines."""
    listed = {}
    with open(os.path.join(ROOT, "crates.txt"), encoding="utf-8") as lines:
        for line in lines:
            line = line.split("#")[0].strip()
            if line:
                head, needs = line.split(":")
                listed[head.split()[0]] = needs.split()
    return listed


def with_those_below(name):
    """A crate and all crates of the repository that it reaches."""
    listed, found, todo = crates(), set(), [name]
    while todo:
        crate = todo.pop()
        if crate in listed and crate not in found:
            found.add(crate)
            todo += listed[crate]
    return found


def is_program(name):
    return os.path.exists(os.path.join(ROOT, "crates", name, "src", "main.rt"))


def path_of(name):
    """Where the program or the static library of a crate stands once it is built."""
    return os.path.join(ROOT, "crates", name, "out", name if is_program(name) else f"lib{name}.a")


def is_fresh(name):
    """Whether it stands there, and none of the code that it is made of is newer."""
    if not os.path.exists(path_of(name)):
        return False
    code = [path for crate in with_those_below(name) for path in glob.glob(os.path.join(ROOT, "crates", crate, "src", "**", "*.rt"), recursive=True)]
    return max(map(os.path.getmtime, code)) <= os.path.getmtime(path_of(name))


def build(name):
    """Proves and builds it. Ends the run where that fails."""
    folder = os.path.join(ROOT, "crates", name)
    command = ["rt", "run" if is_program(name) else "lib"]
    stdin = os.path.join(folder, "stdin")
    with open(stdin if is_program(name) and os.path.exists(stdin) else os.devnull, "rb") as given:
        made = subprocess.run(command, cwd=folder, stdin=given, stdout=subprocess.PIPE, stderr=subprocess.STDOUT, check=False)
    if made.returncode != 0 or not os.path.exists(path_of(name)):
        print(made.stdout.decode(errors="replace"))
        sys.exit(f"`{' '.join(command)}` in crates/{name} failed")


def built(title, name):
    """Where the program or static library of a crate stands, built if need be. None, with one line that says so, if crates.txt doesn't list the crate
    or it isn't there and rt isn't at hand."""
    if name not in crates():
        print(f"{title}: crates.txt doesn't list {name}; left out", flush=True)
        return None
    if shutil.which("rt") is None:
        if os.path.exists(path_of(name)):
            return path_of(name)
        print(f"{title}: {os.path.relpath(path_of(name), ROOT)} isn't there, and rt isn't at hand to make it; left out", flush=True)
        return None
    if not is_fresh(name):
        build(name)
    return path_of(name)


def main(names):
    if not names or names[0].startswith("-"):
        sys.exit(__doc__)
    for name in names:
        path = built("built", name)
        if path is None:
            return 1
        print(os.path.relpath(path))
    return 0


if __name__ == "__main__":
    sys.exit(main(sys.argv[1:]))
