#!/usr/bin/env python3
"""Looks whether each library carried its checked modules to the crates above it.

usage: tools/carried_modules.py LOG      (what `rt ci` printed)

A library carries a checked module only under a name of at most 249 bytes (docs/DECISIONS.md, 47). Past that every crate above checks the module again, and for
one of the cycle that takes minutes and gigabytes each; nothing else says so. The log has a part for each
crate that was proved in the run, with a line for each library below it: what was loaded of it, and what was checked again. Of a crate that is kept from an
earlier run on the machine it says nothing. Exit status 1: a crate checked a module of a library of the repository, or its part of the log lacks one of those
that it stands on.
"""
import re
import sys

from built import crates, with_those_below

PART = re.compile(r"^== (\w+)\n(.*?)^rt: \1 (?:NOT )?PROVED$", re.M | re.S | re.I)
LINE = re.compile(r"^(?:library|statements) (\w+): modules loaded=\d+ checked=(\d+)$", re.M)
KEPT = re.compile(r"^rt: (\w+) is kept: ", re.M)


def faults_of(crate, part):
    """What is wrong with the libraries that a crate loaded, by its part of the log."""
    below = with_those_below(crate) - {crate}
    checked = {name: count for name, count in LINE.findall(part) if name in below}
    again = ["%s checks %s modules of %s again" % (crate, count, name) for name, count in checked.items() if count != "0"]
    return again + ["%s: the log doesn't tell of the library %s" % (crate, name) for name in sorted(below - set(checked))]


def main(arguments):
    if len(arguments) != 1 or arguments[0].startswith("-"):
        sys.exit(__doc__)
    with open(arguments[0], encoding="utf-8") as f:
        log = f.read()
    parts, kept = dict(PART.findall(log)), set(KEPT.findall(log))
    above = [crate for crate in crates() if len(with_those_below(crate)) > 1]
    told = [crate for crate in above if crate in parts]
    faults = [fault for crate in told for fault in faults_of(crate, parts[crate])]
    faults += ["%s: not in the log" % crate for crate in above if crate not in parts and crate not in kept]
    print("modules: %d crates load what is checked below them, %d kept from an earlier run tell nothing, %d faults" % (len(told), len(set(above) & kept), len(faults)))
    if faults:
        sys.exit("\n".join(faults))


main(sys.argv[1:])
