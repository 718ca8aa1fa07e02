#!/usr/bin/env python3
"""Takes the examples out of the documents: index files and what is printed for them.

usage: tools/doc_examples.py OUT [--oracle TYPETOOL]
       tools/doc_examples.py --run [PROGRAM]

An example is a block that opens with ```index: the lines of an index file with `→` for a tab, a blank line, the printed lines.

In the first form those of the documents whose examples are theorems (crate oracle_sample) become pairs for definition_check.py,
OUT/docs-N.index and OUT/docs-N.printed. With --oracle each file is also given to the oracle's program, and a difference is an error, except
in a block that opens with ```index rust-differs.

In the second form every example of every document is given to PROGRAM on its standard input, and a difference in what it prints is an error.
PROGRAM is crates/resolve/out/resolve if not said otherwise, which is built if need be; if crates.txt doesn't list the crate nothing is run. README's first
example also stands as the file that its first command reads; another content of that file is an error.
"""
import os
import re
import subprocess
import sys

from built import built

ROOT = os.path.dirname(os.path.dirname(os.path.abspath(__file__)))
# The documents whose examples the crate oracle_sample has; those of the others are only run.
DOCUMENTS = ["README.md", "docs/DECISIONS.md", "docs/DIFFERENCES.md"]
FIRST_DOCUMENT, FIRST_FILE = "README.md", "examples/sum.idx"
BLOCK = re.compile(r"^( *)```index( rust-differs)?\n(.*?\n) *\n(.*?)^\1```$", re.M | re.S)


def text_of(part, indent):
    """The bytes of an example's lines, which stand so far to the right."""
    return "".join(line[indent:] + "\n" for line in part.splitlines()).replace("→", "\t").encode()


def examples(documents):
    for document in documents:
        with open(os.path.join(ROOT, document), encoding="utf-8") as f:
            for found in BLOCK.finditer(f.read()):
                yield document, bool(found[2]), *(text_of(part, len(found[1])) for part in (found[3], found[4]))


def said_by(command, index):
    return subprocess.run(command, input=index, stdout=subprocess.PIPE, check=True).stdout


def ended(number, differing):
    print("documents: %d examples, %d differ" % (number, len(differing)))
    if differing:
        sys.exit("\n".join(differing))


def every_document():
    return [FIRST_DOCUMENT] + sorted("docs/" + name for name in os.listdir(os.path.join(ROOT, "docs")) if name.endswith(".md"))


def opened(documents):
    """How many examples begin in the documents."""
    count = 0
    for document in documents:
        with open(os.path.join(ROOT, document), encoding="utf-8") as f:
            count += len(re.findall(r"^ *```index", f.read(), re.M))
    return count


def run(program):
    number, differing = 0, []
    for document, _, index, printed in examples(every_document()):
        number += 1
        said = said_by([program], index)
        if said != printed:
            differing.append("%s: for\n%sthe program prints\n%s" % (document, index.decode(), said.decode()))
    with open(os.path.join(ROOT, FIRST_FILE), "rb") as f:
        if f.read() != next(examples([FIRST_DOCUMENT]))[2]:
            differing.append("%s is not the first example of %s" % (FIRST_FILE, FIRST_DOCUMENT))
    begun = opened(every_document())
    if number != begun or number == 0:
        differing.append("%d examples begin in the documents" % begun)
    ended(number, differing)


def write(folder, oracle):
    os.makedirs(folder, exist_ok=True)
    number, differing = 0, []
    for document, differs, index, printed in examples(DOCUMENTS):
        number += 1
        for end, content in (("index", index), ("printed", printed)):
            with open(os.path.join(folder, "docs-%d.%s" % (number, end)), "wb") as f:
                f.write(content)
        if oracle and not differs:
            said = said_by([oracle, "oracle"], index)
            if said != printed:
                differing.append("docs-%d (%s): the oracle prints\n%s" % (number, document, said.decode()))
    ended(number, differing)


def main(arguments):
    if len(arguments) in (1, 2) and arguments[0] == "--run":
        program = arguments[1] if len(arguments) == 2 else built("documents", "resolve")
        if program:
            run(program)
    elif len(arguments) == 1 and not arguments[0].startswith("-"):
        write(arguments[0], None)
    elif len(arguments) == 3 and arguments[1] == "--oracle":
        write(arguments[0], arguments[2])
    else:
        sys.exit(__doc__)


main(sys.argv[1:])
