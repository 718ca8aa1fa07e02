#!/usr/bin/env python3
"""Prints a table of the crates for a landing's note: lines of code, specs and proofs, and must-fail edits.

usage: tools/counts.py

Lines are counted without blank ones and comments. (What a run of the gate took for each crate isn't in the table: `rt ci` says no times.)
"""
import glob
import os
import sys

from built import ROOT, crates

KINDS = [("src", ".rt", "//"), ("specs", ".antt", "--"), ("proofs", ".antt", "--")]


def lines_in(folder, ending, comment):
    count = 0
    for path in glob.glob(os.path.join(folder, "**", "*" + ending), recursive=True):
        with open(path, encoding="utf-8") as f:
            count += sum(1 for line in f if line.strip() and not line.strip().startswith(comment))
    return count


def row(cells):
    print("| " + " | ".join(str(cell) for cell in cells) + " |")


def main(arguments):
    if arguments:
        sys.exit(__doc__)
    head = ["crate", "code", "specs", "proofs", "edits"]
    row(head)
    row(["---"] * len(head))
    total = [0] * (len(head) - 1)
    for crate in crates():
        folder = os.path.join(ROOT, "crates", crate)
        cells = [lines_in(os.path.join(folder, part), ending, comment) for part, ending, comment in KINDS]
        cells.append(len(glob.glob(os.path.join(folder, "must-fail", "*.edit"))))
        total = [a + b for a, b in zip(total, cells)]
        row(["`%s`" % crate] + cells)
    row(["all"] + total)


main(sys.argv[1:])
