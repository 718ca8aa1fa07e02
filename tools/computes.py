#!/usr/bin/env python3
"""Writes specs/Computes.antt of the crates that have one: a definition that opens every `unfoldable` definition behind it.

usage: tools/computes.py             (after a definition was added, renamed or moved)
       tools/computes.py --check     (exit status 1 if a file does not name exactly the definitions that there are)

A theorem by computation says `unfolding looks_up` (lookups in records), `unfolding loads` (loading a file) or `unfolding resolves` (all that
`resolve` prints).
"""
import os
import re
import subprocess
import sys

from built import ROOT, crates

# crate, the name that opens, what it opens, names of other crates' Computes, and the files (crate, module) in the order of reading
TABLES = [
    (
        "model",
        "looks_up",
        "the lookups, links and counts",
        [],
        [("model", m) for m in ("Common", "Lookups", "Links", "Limits")],
    ),
    (
        "format",
        "loads",
        "loading",
        [("model", "looks_up")],
        [("format", m) for m in ("Words", "Fields", "Tails", "Shapes", "Lines", "FirstPass", "LinkCheck", "Load")],
    ),
    (
        "resolution",
        "resolves",
        "what `resolve` prints",
        [("format", "loads")],
        [("resolution", m) for m in ("Types", "Compatible", "Asked", "Programs", "Views", "TypeResolution", "Run", "Answer", "Resolve")],
    ),
]


def unfoldable_names(crate, module):
    with open(os.path.join(ROOT, "crates", crate, "specs", module + ".antt"), encoding="utf-8") as f:
        return re.findall(r"^\s*unfoldable pub (?!use )(\S+)", f.read(), re.M)


def use_line(crate, module, names):
    return "use Rattle.%s.specs.%s.{%s}" % (crate, module, ", ".join(names))


def text_of(name, what, others, files):
    lines = ["-- One name that opens every definition of %s: a theorem by computation says `unfolding %s`." % (what, name)]
    lines.append("-- Written by tools/computes.py. Assumes nothing.")
    opened = []
    for other, other_name in others:
        lines.append(use_line(other, "Computes", [other_name]))
        opened.append(other_name)
    for other, module in files:
        names = unfoldable_names(other, module)
        if names:
            lines.append(use_line(other, module, names))
        opened += names
    doubled = sorted({n for n in opened if opened.count(n) > 1})
    if doubled:
        raise SystemExit("named twice: " + ", ".join(doubled))
    return "\n".join(lines + ["", "unfoldable pub %s : Unit {0}" % name, "unfolding " + " ".join(opened), "%s = tt" % name]) + "\n"


def opened_in(path):
    """The names on the `unfolding` line of a written file, in any layout."""
    with open(path, encoding="utf-8") as f:
        return re.search(r"^unfolding (.*?)^\S+ = tt", f.read(), re.M | re.S)[1].split()


def main():
    stale = []
    for row in TABLES:
        if row[0] not in crates():
            print("computes: crates.txt doesn't list %s; left out" % row[0])
            continue
        path = os.path.join(ROOT, "crates", row[0], "specs", "Computes.antt")
        text = text_of(*row[1:])
        if "--check" not in sys.argv:
            with open(path, "w", encoding="utf-8") as f:
                f.write(text)
            subprocess.run(["rt", "fmt"], cwd=os.path.join(ROOT, "crates", row[0]), check=True, stdout=subprocess.DEVNULL)
        elif opened_in(path) != re.search(r"^unfolding (.*)$", text, re.M)[1].split():
            stale.append(path)
    if stale:
        sys.exit("to be written anew by tools/computes.py: " + ", ".join(os.path.relpath(p, ROOT) for p in stale))


main()
