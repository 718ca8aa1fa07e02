#!/usr/bin/env python3
"""Runs check_index on every vector of rust/vectors and on the files of tools/check_index_cases.txt, and compares what it prints.

usage: tools/check_index_runs.py [PROGRAM]

PROGRAM is crates/check_index/out/check_index if not said otherwise, which is built if need be; if crates.txt doesn't list the crate nothing is run. A malformed vector has its line stored; of an accepted one the records are counted
here, line by line. Exit status 0: all equal; 1: a difference, or no program.
"""

import os
import sys

from built import built
from runs import ROOT, VECTOR_FILES, Run, compare, unescaped, vectors

KINDS = [b"M", b"S", b"T", b"D", b"E", b"Q"]


def items(fields):
    """How many items a right line has."""
    if fields[:2] == [b"T", b"tuple"]:
        return len(fields) - 2
    if fields[0] == b"D":
        named = {b"fn": 9, b"struct": 8}
        if fields[7] in named:
            return (len(fields) - named[fields[7]]) // 2
        return len(fields) - 11 if fields[7] == b"let" else 0
    if fields[0] == b"E":
        first = {b"call": 11, b"tuple": 10, b"arr": 10}
        return len(fields) - first[fields[9]] if fields[9] in first else 0
    return 0


def accepted_line(file):
    """The line of an accepted file."""
    lines = [line.split(b"\t") for line in file.split(b"\n")[1:-1]]
    counts = [sum(fields[0] == kind for fields in lines) for kind in KINDS]
    counts.append(sum(map(items, lines)))
    return ("accepted\t" + "\t".join(map(str, counts)) + "\n").encode()


def cases(path):
    with open(path, encoding="ascii") as file:
        for line in file:
            line = line.rstrip("\n")
            if line and not line.startswith("#"):
                name, text, owed = line.split(" | ")
                yield Run(name, unescaped(text), (owed.replace(" ", "\t") + "\n").encode())


def runs():
    for name in VECTOR_FILES:
        for vector, file, answer in vectors(name):
            refused = name.startswith("malformed")
            assert answer.startswith(b"refused\t") == refused or not answer, vector
            yield Run(vector, file, answer if refused else accepted_line(file))
    yield from cases(os.path.join(ROOT, "tools", "check_index_cases.txt"))


def main():
    arguments = sys.argv[1:]
    if len(arguments) > 1:
        sys.exit(__doc__)
    program = arguments[0] if arguments else built("check_index runs", "check_index")
    return compare("check_index runs", [program], runs()) if program else 0


if __name__ == "__main__":
    sys.exit(main())
