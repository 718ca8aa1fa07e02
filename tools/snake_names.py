#!/usr/bin/env python3
"""Spells the names that the repository's own specs and proofs declare in snake case: a dash between words becomes an underscore.

usage: tools/snake_names.py [--list]

Read as antt: crates/*/specs, crates/*/proofs; as clauses: crates/*/src; as text in code spans: docs/, README.md, CHANGELOG.md, CONTRIBUTING.md and
the comments of must-fail edits, whose old and new lines are turned whole. A name that is imported from a library of the toolchain stays, and so does what
the toolchain makes in the folder of a function's proof: a label behind `goal.`, `tie.` or `c.`, and a declaration at such a label. --list prints the table and
writes nothing. It stops, and writes nothing, if two names would fall together. A second run changes nothing.
"""

import glob
import os
import re
import sys

ROOT = os.path.join(os.path.dirname(os.path.abspath(__file__)), "..")
# A name of several words that dashes part. What stands before and behind it is no part of a name.
EDGE = r"[^\s(){}.;,@\"«»`/\\:|]"
NAME = re.compile(rf"(?<![\w'?-])(?:[^\W\d_]|_)[\w'?]*(?:-[\w'?]+)+(?![\w'?-])")
USE = re.compile(r"^\s*(?:pub )?(?:ghost )?use ([^\s;{]+?)(?:\.\{([^}]*)\})?(?: as ([^\s;]+))?;?\s*$", re.M | re.S)
COMMENT = re.compile(r"--[^\n]*")
STRING = re.compile(r'"(?:[^"\\\n]|\\.)*"')
# Fields of two records, which don't meet.
FIELDS = {"module_number"}
SPAN = re.compile(r"`[^`\n]+`")
GOAL = re.compile(r"^(?:abbrev )?(?:pub )?(\S+)(?: \{[^{}\n]*\})* : (?:tie|goal)\.", re.M)


def files(*patterns):
    return sorted(p for pattern in patterns for p in glob.glob(os.path.join(ROOT, pattern), recursive=True) if "/out/" not in p)


def read(path):
    with open(path, encoding="utf-8") as f:
        return f.read()


def code(text):
    return STRING.sub('""', COMMENT.sub("", text))


def own_crates():
    return [os.path.basename(os.path.dirname(p)) for p in files("crates/*/src")]


def imports(text, own):
    """The names that a file takes from libraries, with their own spelling there, and the words of their paths."""
    found = set()
    for path, items, _ in USE.findall(text):
        if not re.match(rf"Rattle[.·](?:{'|'.join(own)})\b", path):
            found |= set(NAME.findall(path))
            for item in (items or "").split(","):
                found |= {item.split(" as ")[0].strip()}
    return found


def is_of_a_function(path):
    return re.search(r"/proofs/[^/]+/", path) is not None


def table():
    own = own_crates()
    antt = files("crates/*/specs/**/*.antt", "crates/*/proofs/**/*.antt")
    sources = files("crates/*/src/**/*.rt")
    foreign = set()
    for path in antt + sources:
        foreign |= imports(read(path), own)
    names, every = set(), set()
    for path in antt:
        text = code(read(path))
        if not is_of_a_function(path):
            names |= set(NAME.findall(text))
            every |= set(re.findall(r"(?<![\w'?.-])[\w'?]+(?![\w'?-])", USE.sub("", text)))
        else:
            # lemmas that stand beside the answers; not the answers themselves
            made = set(GOAL.findall(text))
            names |= {m[1] for m in re.finditer(r"(?m)^(?:abbrev )?(?:pub )?(\S+)(?: \{[^{}\n]*\})* : (?!tie\.|goal\.|\{M : Type 1\})", text) if NAME.fullmatch(m[1])} - made
    rows = {name: name.replace("-", "_") for name in sorted(names - foreign)}
    by_new = {}
    for old, new in rows.items():
        by_new.setdefault(new, []).append(old)
    clashes = [(new, olds) for new, olds in by_new.items() if len(olds) > 1 or new in every - FIELDS]
    return rows, clashes


def turned(text, rows):
    def one(m):
        name = m[0]
        if re.search(r"(?:^|[^\w'])(?:goal|tie|reads|lts)\.$", text[max(0, m.start() - 8) : m.start()]):
            return name
        return rows.get(name, name)

    return NAME.sub(one, text)


def spans(text, rows):
    return SPAN.sub(lambda m: turned(m[0], rows), text)


def parted(text, quiet, rows):
    """Code is turned whole, and what `quiet` finds in it only in code spans; a string stays."""
    out, at = [], 0
    for m in quiet.finditer(text):
        out.append(turned(text[at : m.start()], rows))
        out.append(m[0] if m[0].startswith('"') else spans(m[0], rows))
        at = m.end()
    return "".join(out) + turned(text[at:], rows)


def of_antt(text, path, rows):
    rows = dict(rows)
    if is_of_a_function(path):
        for name in GOAL.findall(text):
            rows.pop(name, None)
    return parted(text, re.compile(r'"(?:[^"\\\n]|\\.)*"|--[^\n]*'), rows)


def of_source(text, path, rows):
    return parted(text, re.compile(r'"(?:[^"\\]|\\.)*"|//[^\n]*'), rows)


def of_edit(text, path, rows):
    return "\n".join(turned(line, rows) if re.match(r"(?:old|new):", line) else spans(line, rows) for line in text.split("\n"))


def of_page(text, path, rows):
    return spans(text, rows)


def main():
    rows, clashes = table()
    if "--list" in sys.argv:
        print("\n".join(f"{a}\t{b}" for a, b in rows.items()))
    if clashes:
        print("\n".join(f"{' and '.join(olds)} would be {new}" + ("" if len(olds) > 1 else ", which is a name already") for new, olds in clashes), file=sys.stderr)
        return 1
    if "--list" in sys.argv:
        return 0
    n = 0
    for how, patterns in (
        (of_antt, ("crates/*/specs/**/*.antt", "crates/*/proofs/**/*.antt")),
        (of_source, ("crates/*/src/**/*.rt",)),
        (of_edit, ("crates/*/must-fail/*.edit",)),
        (of_page, ("docs/**/*.md", "README.md", "CHANGELOG.md", "CONTRIBUTING.md", "rust/*.md")),
    ):
        for path in files(*patterns):
            before = read(path)
            after = how(before, path, rows)
            if after != before:
                n += 1
                with open(path, "w", encoding="utf-8") as f:
                    f.write(after)
    print(f"{len(rows)} names, {n} files")
    return 0


if __name__ == "__main__":
    sys.exit(main())
