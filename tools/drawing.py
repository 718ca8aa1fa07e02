#!/usr/bin/env python3
"""Draws the crates and what each needs of the others, from crates.txt, as docs/crates.svg.

usage: tools/drawing.py [--check]

A crate stands one row below the highest that it needs; a line leads to what it needs and nothing between them needs already. Definitions are
grey, code is white, programs are framed twice. With --check nothing is written: exit status 1 where the drawing is not that of crates.txt.
"""

import os
import sys

from built import ROOT, crates, is_program

DRAWING = os.path.join(ROOT, "docs", "crates.svg")
DEFINITIONS = ("model", "format", "resolution", "oracle_sample", "secrecy_examples")
WIDE, HIGH, GAP_X, GAP_Y, EDGE = 118, 30, 22, 46, 20


def own_crates():
    """Each crate with the crates of this repository that it depends on."""
    needs = crates()
    return {name: [d for d in deps if d in needs] for name, deps in needs.items()}


def reached(needs, name):
    """All that a crate reaches."""
    found, todo = set(), list(needs[name])
    while todo:
        d = todo.pop()
        if d not in found:
            found.add(d)
            todo += needs[d]
    return found


def nearest(needs):
    """What each crate needs and nothing else that it needs reaches."""
    all_of = {name: reached(needs, name) for name in needs}
    return {name: sorted(d for d in all_of[name] if not any(d in all_of[o] for o in all_of[name])) for name in needs}


def levels(near):
    level = {}

    def of(name):
        if name not in level:
            level[name] = 1 + max((of(d) for d in near[name]), default=-1)
        return level[name]

    for name in near:
        of(name)
    return level


def places(near, level):
    """Rows by level; within a row by the middle of what each needs."""
    rows = [[] for _ in range(1 + max(level.values()))]
    for name in sorted(near):
        rows[level[name]].append(name)
    across = {}
    for row in rows:
        row.sort(key=lambda n: (sum(across[d] for d in near[n]) / len(near[n]) if near[n] else 0, n))
        for i, name in enumerate(row):
            across[name] = (i + 1) / (len(row) + 1)
    return rows


def draw():
    near = nearest(own_crates())
    level = levels(near)
    rows = places(near, level)
    width = 2 * EDGE + max(len(row) for row in rows) * (WIDE + GAP_X) - GAP_X
    height = 2 * EDGE + len(rows) * (HIGH + GAP_Y) - GAP_Y
    at = {}
    for y, row in enumerate(rows):
        left = (width - len(row) * (WIDE + GAP_X) + GAP_X) / 2
        for x, name in enumerate(row):
            at[name] = (left + x * (WIDE + GAP_X), EDGE + y * (HIGH + GAP_Y))
    out = [f'<svg xmlns="http://www.w3.org/2000/svg" width="{width}" height="{height}" viewBox="0 0 {width} {height}" font-family="sans-serif" font-size="13">']
    out.append(f'<rect width="{width}" height="{height}" fill="white"/>')
    for name in sorted(near):
        x, y = at[name]
        for d in near[name]:
            dx, dy = at[d]
            x1, y1, x2, y2 = x + WIDE / 2, y, dx + WIDE / 2, dy + HIGH
            middle = (y1 + y2) / 2
            out.append(f'<path d="M{x1:.0f} {y1:.0f} C{x1:.0f} {middle:.0f} {x2:.0f} {middle:.0f} {x2:.0f} {y2:.0f}" fill="none" stroke="#888"/>')
    for name in sorted(near):
        x, y = at[name]
        fill = "#e4e4e4" if name in DEFINITIONS else "white"
        out.append(f'<rect x="{x:.0f}" y="{y:.0f}" width="{WIDE}" height="{HIGH}" rx="4" fill="{fill}" stroke="black"/>')
        if is_program(name):
            out.append(f'<rect x="{x + 3:.0f}" y="{y + 3:.0f}" width="{WIDE - 6}" height="{HIGH - 6}" rx="3" fill="none" stroke="black"/>')
        out.append(f'<text x="{x + WIDE / 2:.0f}" y="{y + HIGH / 2 + 5:.0f}" text-anchor="middle">{name}</text>')
    out.append("</svg>")
    return "\n".join(out) + "\n"


def main():
    text = draw()
    if "--check" in sys.argv[1:]:
        with open(DRAWING, encoding="utf-8") as drawing:
            if drawing.read() != text:
                print("docs/crates.svg is not the drawing of crates.txt: tools/drawing.py writes it")
                return 1
        return 0
    with open(DRAWING, "w", encoding="utf-8") as drawing:
        drawing.write(text)
    return 0


sys.exit(main())
