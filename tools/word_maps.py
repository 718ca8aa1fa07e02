#!/usr/bin/env python3
"""Writes the maps beside the tables of words in crates/words and crates/fields: for each hash the place of the one word of the table that has it.

usage: tools/word_maps.py             (after a word was added to a table, or the factors of the hash were changed)
       tools/word_maps.py --check     (exit status 1 if a map is not the one that would be written)
       tools/word_maps.py --factors   (the factors below 64 under which no two words of a table, those to come included, have the same hash)

A table is a byte string of cells of nine bytes, a word's length, its bytes and zeros; the byte string behind it is its map. The hash is
`hash_of` of crates/words/specs/Packed.antt, from which its three factors are read; crates/words/src/lib.rt has the same. That a
map leads each of the definition's words to its place is proved where the table is used, so a wrong map is refused by the check as well; this
tool makes right ones.
"""
import os
import re
import sys

from built import ROOT, crates

DEFINITION = os.path.join(ROOT, "crates", "words", "specs", "Packed.antt")
CRATES = ["words", "fields"]
SOURCES = [os.path.join(ROOT, "crates", crate, "src", "lib.rt") for crate in CRATES]
CELL, HASHES = 9, 32
STRING = r'b"((?:[^"\\]|\\.)*)"'
PAIR = re.compile(r"(\n\s+" + STRING + r",\n\s+)" + STRING)
# A table's first byte is a length, so its byte string begins like this, wherever it stands and whether or not a map follows.
TABLE = re.compile(r'b"\\x0[1-8]')
# Words that the change requests still to land add, by the first word of their table.
COMING = {b"expr": [b"all", b"order", b"strict", b"shape"]}


def bytes_of(literal):
    return literal.encode().decode("unicode_escape").encode("latin1")


def literal_of(numbers):
    return "".join("\\0" if n == 0 else "\\x%02x" % n for n in numbers)


def words_of(table):
    """The words of a table's cells. Ends the run where the bytes aren't cells: a byte too many or too few shifts all behind it."""
    words = []
    for at in range(0, len(table), CELL):
        cell = table[at : at + CELL]
        words.append(cell[1 : 1 + cell[0]])
        if not 1 <= cell[0] < CELL or cell != bytes([cell[0]]) + words[-1] + bytes(CELL - 1 - cell[0]) or len(set(words)) != len(words):
            sys.exit("the cell %r behind the words %r of a table isn't a new word of 1 to 8 bytes with its length before it and zeros behind" % (cell, words[:-1]))
    return words


def hash_of(word, factors):
    first, last, length = factors
    return (first * word[0] + last * word[-1] + length * (len(word) % 4)) // 8 % HASHES


def factors_of(path):
    """The three factors, in the order first byte, last byte, length."""
    with open(path, encoding="utf-8") as f:
        found = re.search(r"hash_of field = \((\d+) \* .*? \+ (\d+) \* .*? \+ (\d+) \* .*?\) / 8 % 32", f.read())
    if not found:
        sys.exit("%s: the definition of hash_of isn't of the form that this tool reads" % os.path.relpath(path, ROOT))
    return tuple(int(n) for n in found.groups())


def collision(words, factors):
    """Two words with the same hash, or none."""
    seen = {}
    for word in words:
        other = seen.setdefault(hash_of(word, factors), word)
        if other != word:
            return other, word
    return None


def map_of(words, factors):
    places = [0] * HASHES
    for place, word in enumerate(words):
        places[hash_of(word, factors)] = place
    return places


def tables_in(path):
    """The tables of a source, which have a map each on the line behind. Ends the run where one has none."""
    with open(path, encoding="utf-8") as f:
        text = f.read()
    found = [words_of(bytes_of(m[2])) for m in PAIR.finditer(text)]
    begun = len(TABLE.findall(PAIR.sub(lambda m: m[1], text)))
    if len(found) != begun:
        sys.exit("%s: %d tables, %d of them with a map on the line behind" % (os.path.relpath(path, ROOT), begun, len(found)))
    return found


def all_tables():
    """The tables of all sources, each with the words that are to come."""
    tables = [words for path in SOURCES for words in tables_in(path)]
    unknown = set(COMING) - {words[0] for words in tables}
    if unknown:
        sys.exit("no table begins with %s" % ", ".join(word.decode() for word in sorted(unknown)))
    return [words + COMING.get(words[0], []) for words in tables]


def written_anew(path, factors):
    """The source's text as it is, and with its maps made from its tables."""
    with open(path, encoding="utf-8") as f:
        text = f.read()
    return text, PAIR.sub(lambda m: '%sb"%s"' % (m[1], literal_of(map_of(words_of(bytes_of(m[2])), factors))), text)


def fitting_factors(tables):
    numbers = range(1, 64)
    return [(a, b, c) for a in numbers for b in numbers for c in numbers if not any(collision(words, (a, b, c)) for words in tables)]


def main():
    if sys.argv[1:] not in ([], ["--check"], ["--factors"]):
        sys.exit(__doc__)
    lacking = [crate for crate in CRATES if crate not in crates()]
    if lacking:
        print("word maps: crates.txt doesn't list %s; left out" % ", ".join(lacking))
        return
    tables, factors = all_tables(), factors_of(DEFINITION)
    if sys.argv[1:] == ["--factors"]:
        for fitting in fitting_factors(tables):
            print(*fitting)
        return
    for words in tables:
        same = collision(words, factors)
        if same:
            sys.exit("%s and %s have the same hash; other factors: tools/word_maps.py --factors" % tuple(w.decode() for w in same))
    stale = []
    for path in SOURCES:
        text, anew = written_anew(path, factors)
        if text == anew:
            continue
        stale.append(os.path.relpath(path, ROOT))
        if sys.argv[1:] == []:
            with open(path, "w", encoding="utf-8") as f:
                f.write(anew)
    if stale and sys.argv[1:] == ["--check"]:
        sys.exit("to be written anew by tools/word_maps.py: " + ", ".join(stale))


main()
