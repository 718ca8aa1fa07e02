#!/usr/bin/env python3
"""Draws the tables of docs/BENCHMARKS.md as bars: docs/loading.svg and docs/answering.svg.

usage: tools/plots.py [--check]

Times are on a scale where each step is ten times the one before. With --check nothing is written: exit status 1 where a drawing is not that of
its table.
"""

import math
import os
import re
import sys

DOCS = os.path.join(os.path.dirname(os.path.abspath(__file__)), "..", "docs")
COLOURS = ("#1b6ca8", "#b0b0b0", "#d8d8d8")
LABEL, PLOT, BAR, GAP, TOP, EDGE = 310, 460, 11, 12, 46, 16

# The drawing, its heading in the document, and the columns that are drawn, with what they are called.
DRAWINGS = (
    ("loading.svg", "Loading and lookups", (("proved", "proved"), ("Rust", "Rust"), ("scan", "scan"))),
    ("answering.svg", "Answering", (("proved", "proved"), ("Rust, no store", "Rust, no store"), ("Rust, store", "Rust, store"))),
)


def table(heading):
    """The first table below a heading: its columns' names, and its rows."""
    with open(os.path.join(DOCS, "BENCHMARKS.md"), encoding="utf-8") as document:
        text = document.read()
    part = text[text.index(f"## {heading}\n"):]
    rows = []
    for line in part.split("\n")[1:]:
        if line.startswith("|"):
            rows.append([cell.strip() for cell in line.strip("|").split("|")])
        elif rows:
            break
    return rows[0], rows[2:]


def microseconds(cell):
    return float(re.match(r"[\d,.]+", cell).group().replace(",", ""))


def drawing(heading, columns):
    names, rows = table(heading)
    places = [names.index(column) for column, _ in columns]
    bars = [(row[0], [microseconds(row[p]) for p in places]) for row in rows]
    low = math.floor(math.log10(min(min(b) for _, b in bars)))
    high = math.ceil(math.log10(max(max(b) for _, b in bars)))

    def across(us):
        return LABEL + PLOT * (math.log10(us) - low) / (high - low)

    group = len(columns) * BAR + GAP
    width, height = LABEL + PLOT + 90, TOP + len(bars) * group + EDGE
    out = [f'<svg xmlns="http://www.w3.org/2000/svg" width="{width}" height="{height}" viewBox="0 0 {width} {height}" font-family="sans-serif" font-size="12">']
    out.append(f'<rect width="{width}" height="{height}" fill="white"/>')
    for i, (_, called) in enumerate(columns):
        x = LABEL + i * 130
        out.append(f'<rect x="{x}" y="8" width="12" height="12" fill="{COLOURS[i]}"/><text x="{x + 17}" y="18">{called}</text>')
    for step in range(low, high + 1):
        x = across(10**step)
        called = f"{10**step:g} us" if step < 3 else f"{10**(step - 3):g} ms"
        out.append(f'<line x1="{x:.1f}" y1="{TOP - 8}" x2="{x:.1f}" y2="{height - EDGE}" stroke="#eee"/>')
        out.append(f'<text x="{x:.1f}" y="{TOP - 12}" text-anchor="middle" fill="#666">{called}</text>')
    for i, (called, times) in enumerate(bars):
        y = TOP + i * group
        out.append(f'<text x="{LABEL - 8}" y="{y + len(columns) * BAR / 2 + 4:.1f}" text-anchor="end">{called}</text>')
        for k, us in enumerate(times):
            out.append(f'<rect x="{LABEL}" y="{y + k * BAR}" width="{across(us) - LABEL:.1f}" height="{BAR - 1}" fill="{COLOURS[k]}"/>')
            out.append(f'<text x="{across(us) + 4:.1f}" y="{y + k * BAR + 9}" font-size="10">{us:,g}</text>')
    out.append("</svg>")
    return "\n".join(out) + "\n"


def main():
    status = 0
    for name, heading, columns in DRAWINGS:
        path, text = os.path.join(DOCS, name), drawing(heading, columns)
        if "--check" in sys.argv[1:]:
            with open(path, encoding="utf-8") as old:
                if old.read() != text:
                    print(f"docs/{name} is not the drawing of its table: tools/plots.py writes it")
                    status = 1
        else:
            with open(path, "w", encoding="utf-8") as new:
                new.write(text)
    return status


sys.exit(main())
