#!/usr/bin/env python3
"""Runs resolve on every vector of rust/vectors, on the programs of rust/programs, on the files of tools/resolve_cases.txt and on larger ones
that are made here, and compares what it prints.

usage: tools/resolve_runs.py [--write DIR] [PROGRAM WORD...]

PROGRAM is crates/resolve/out/resolve if not said otherwise, which is built if need be; if crates.txt doesn't list the crate nothing is run. With
`rust/target/release/typetool oracle` in its place the original's text judges what is owed. --write only writes the files that are made here to DIR. Exit status 0: all equal; 1: a difference, or no program.
"""

import os
import sys

from built import built
from runs import ROOT, VECTOR_FILES, Run, compare, unescaped, vectors

HEAD = "index 1\nM main\nS - module\n"

# What the files that are made here may take: far more time than they need, but none that doubles with a tower's or a chain's length; and as much
# stack as a program usually has, in KB.
SECONDS = 5
STACK = 8192


def expression(start, node, recorded="-"):
    return f"E 0 {start} 9999 - {recorded} plain - - {node}\n"


# ------------------------------------------------------------------ how deep


def constants(count):
    """Constants, each naming the next, the last `true`, asked from the first: two demands each."""
    lines = "".join(f"D 0 c{n} 0 1 0 1 const - {n}\n" for n in range(count))
    lines += "".join(expression(n, f"ident c{n}", recorded=n) for n in range(1, count))
    return HEAD + lines + expression(0, "bool") + "Q def 0 0\n"


def chain(nodes, last):
    """Expressions, each with the next as its child (#), asked from the first."""
    lines = "".join(expression(n, node.replace("#", str(n + 1))) for n, node in enumerate(nodes))
    return HEAD + "T felt\n" + lines + expression(len(nodes), last) + "Q expr 0 0 -\n"


def type_chain(count):
    """Type expressions, each a pointer to the one before, asked from the last."""
    return HEAD + "T felt\n" + "".join(f"T ptr {n}\n" for n in range(count - 1)) + f"Q type 0 {count - 1} 0\n"


def later_elements(count):
    """Arrays around each other, each the second element of the one before. The last is of two bools; one around it is error, since its elements
    don't fit, and in the next one error fits: the first is bools again if their number is odd."""
    lines = "".join(expression(n, f"arr 0 {n + 1}") for n in range(1, count + 1))
    return HEAD + expression(0, "bool") + lines + expression(count + 1, "bool") + "Q expr 0 1 -\n"


def compared_at_the_depth(count):
    """So many tuples around each other, and in the last an array of two tuples that are compared with a store."""
    inner = expression(count, f"arr {count + 1} {count + 2}")
    inner += expression(count + 1, f"tuple {count + 3}") + expression(count + 2, f"tuple {count + 4}")
    inner += expression(count + 3, "lit -") + expression(count + 4, "ident nowhere")
    return HEAD + "".join(expression(n, f"tuple {n + 1}") for n in range(count)) + inner + "Q expr 0 0 -\n"


# ------------------------------------------------------------------ how many


def arrays(count):
    """A tuple type of arrays of felt, sizes 1 to `count`."""
    sizes = range(1, count + 1)
    lines = "T felt\n" + "".join(f"T array 0 {n}\n" for n in sizes) + "T tuple" + "".join(f" {n}" for n in sizes)
    return HEAD + lines + f"\nQ type 0 {count + 1} 0\n"


def imported_call(count):
    """A call of an imported g(x: (u32,u32), a1: [felt;1], ..) with a tuple of two bare numbers. If the argument were (felt,felt) inside its
    call, as it is when asked alone, there would be one type more."""
    sizes = range(1, count + 1)
    main = "D 0 g 0 1 0 1 use library g\n" + expression(0, "ident g", recorded=0) + expression(1, "lit -") + expression(2, "lit -")
    main += "E 0 3 9999 - - arg 0 0 tuple 1 2\n" + expression(4, "call 0 3")
    library = "M library\nS - module\nT felt\nT u32\nT tuple 1 1\n" + "".join(f"T array 0 {n}\n" for n in sizes)
    library += "D 0 g 0 1 0 1 fn 0 x 2" + "".join(f" a{n} {n + 2}" for n in sizes) + "\n"
    return HEAD + main + library + "Q expr 0 3 -\nQ expr 0 4 -\n"


def shadowed_tuple(fields):
    """One tuple type of 1,023 names that mean different structs in two scopes: 2,046 items, and the fields of the inner struct."""
    lines = "S 0 block\nT custom A\nT tuple" + " 0" * 1023 + "\nT felt\nD 0 A 0 1 0 1 struct\nD 1 A 0 1 0 1 struct"
    lines += "".join(f" f{n} 2" for n in range(fields)) + "\nD 0 f 0 1 0 1 fn 1\nE 1 0 1 - - return - - cast 1\nE 1 1 2 - - return - - lit -\n"
    return HEAD + lines + "Q expr 0 0 -\nQ expr 0 1 -\n"


def doubling(count):
    """Constants, each the next plus the next: each is asked twice as often as the one before."""
    lines = "".join(f"D 0 c{n} 0 1 0 1 const - {2 * n}\n" for n in range(count))
    for n in range(count - 1):
        lines += expression(2 * n, f"bin + {2 * n + 1} {2 * n + 1}") + expression(2 * n + 1, f"ident c{n + 1}", recorded=n + 1)
    return HEAD + lines + expression(2 * count, "lit -") + "Q def 0 0\n"


def bytes_of(expressions, asked):
    """So many expressions in one module, each a byte longer than the one before and all from byte 0 on, so that byte n is that of expression n;
    every third is a number, the others are bools. The last two have the same span. Asked at so many bytes, from the last on."""
    nodes = {0: ("lit -", "felt"), 1: ("bool", "bool"), 2: ("bool", "bool")}
    lines = "".join(f"E 0 0 {n + 1} - - plain - - {nodes[n % 3][0]}\n" for n in range(expressions - 1))
    lines += f"E 0 0 {expressions - 1} - - plain - - lit u32\n"
    last = expressions - 2
    owed = ["u32" if n == last else nodes[n % 3][1] for n in range(expressions - 1)]
    places = range(last, last - asked, -1)
    return HEAD + lines + "".join(f"Q at 0 {n}\n" for n in places), [f"at 0 {n} type {owed[n]}" for n in places]


def parentheses_at(count):
    """So many expressions around each other, each a byte longer to the right; asked at the last bytes of the two outermost."""
    lines = "E 0 0 1 - - plain - - bool\n" + "".join(f"E 0 0 {n + 1} - - plain - - paren {n - 1}\n" for n in range(1, count))
    return HEAD + lines + f"Q at 0 {count - 1}\nQ at 0 {count - 2}\nQ at 0 {count}\n"


def cast_at(felts):
    """A cast to a tuple of so many felts, asked at its byte and behind it."""
    return HEAD + "T felt\nT tuple" + " 0" * felts + "\nE 0 7 8 - - plain - - cast 1\nQ at 0 7\nQ at 0 8\n"


# ------------------------------------------------------------------ how long


def texts(asked):
    """A type whose text has 4,096 bytes (T 2), one with 4,097 (T 3), felt (T 0), and a missing child (E 0), asked in some order."""
    lines = "T felt\nT custom nowhere\nT tuple" + " 0" * 819 + "\nT tuple 1" + " 0" * 818 + "\n" + expression(0, "un ! -")
    questions = {2: "Q type 0 2 0", 3: "Q type 0 3 0", 0: "Q type 0 0 0", 6: "Q expr 0 0 -"}
    long = "type 0 2 type (" + ",".join(["felt"] * 819) + ")"
    owed = {2: long, 3: "type 0 3 refused 10", 0: "type 0 0 type felt", 6: "expr 0 0 refused 6"}
    return HEAD + lines + "".join(questions[n] + "\n" for n in asked), [owed[n] for n in asked]


def numbers(over):
    """A type whose text has 4,096 bytes, and so many over it, with numbers of every length and a definition of every length in it."""
    sizes = [0, 9, 10, 19, 99, 100, 105, 999, 1000, 10**9, 10**10 - 1, 2**32, 10**19, 2**64 - 1]
    lines = "T felt\nT u32\n" + "".join(f"T array 0 {size}\n" for size in sizes)
    named = [0, 9, 10, 99, 100, 105]
    lines += "".join(f"T custom s{n}\n" for n in named)
    parts = [f"[felt;{size}]" for size in sizes] + [f"struct:0.{n}" for n in named]
    listed = [n + 2 for n in range(len(parts))]
    left = 4096 + over - len("()") - len(",".join(parts))
    # each felt takes 5 bytes with its comma, each u32 4
    short = next(n for n in range(5) if (left - 4 * n) % 5 == 0)
    felt = (left - 4 * short) // 5
    listed += [1] * short + [0] * felt
    text = "(" + ",".join(parts + ["u32"] * short + ["felt"] * felt) + ")"
    assert len(text) == 4096 + over
    lines += "T tuple" + "".join(f" {t}" for t in listed) + "\n" + "".join(f"D 0 s{n} 0 1 0 1 struct\n" for n in range(106))
    last = len(parts) + 2
    return HEAD + lines + f"Q type 0 {last} 0\n", [f"type 0 {last} refused 10" if over else f"type 0 {last} type {text}"]


def towers(levels):
    """Two towers of pairs, one over felt and one over error, as elements of an array in both orders, and as operands."""
    lines = expression(0, "lit -")
    tops = []
    at = 0
    for ground in ("lit -", "ident nowhere"):
        lines += expression(at + 1, ground)
        lines += "".join(expression(at + 1 + n, f"tuple {at + n} 0") for n in range(1, levels + 1))
        at += levels + 1
        tops.append(at)
    a, b = tops
    lines += expression(at + 1, f"arr {a} {b}") + expression(at + 2, f"arr {b} {a}") + expression(at + 3, f"bin == {a} {b}")
    text = {ground: "(" * levels + ground + ",felt)" * levels for ground in ("felt", "error")}
    owed = [f"expr 0 {at + 1} type [{text['felt']};2]", f"expr 0 {at + 2} type [{text['error']};2]", f"expr 0 {at + 3} type error"]
    return HEAD + lines + "".join(f"Q expr 0 {at + n} -\n" for n in (1, 2, 3)), owed


def doubled_towers(levels):
    """Two towers of pairs of the tower below twice, one over felt and one over error, compared as elements of an array. The array's text is
    too long; what is printed is one of its elements, down to the ground."""
    lines = expression(0, "lit -") + expression(1, "ident nowhere")
    for n in range(2, 2 * levels + 2):
        lines += expression(n, f"tuple {n - 2} {n - 2}")
    array = 2 * levels + 2
    lines += expression(array, f"arr {array - 2} {array - 1}") + expression(array + 1, f"index {array} 0")
    lines += "".join(expression(array + 1 + n, f"tidx {array + n} 1") for n in range(1, levels + 1))
    last = array + 1 + levels
    return HEAD + lines + f"Q expr 0 {last} -\nQ expr 0 {array} -\n", [f"expr 0 {last} type felt", f"expr 0 {array} refused 10"]


# ------------------------------------------------------------------ all runs


def made():
    """(name, lines, lines owed) of the files that are made here."""
    yield "128 constants: 256 demands are open", constants(128), ["def 0 0 type bool"]
    yield "129 constants: the 257th", constants(129), ["def 0 0 refused 8"]
    yield "256 expressions open", chain(["paren #"] * 255, "bool"), ["expr 0 0 type bool"]
    yield "257 expressions open", chain(["paren #"] * 256, "bool"), ["expr 0 0 refused 8"]
    nested = "(" * 250 + "felt" + ")" * 250
    yield "250 tuples around each other: 256 types", chain(["paren #"] * 5 + ["tuple #"] * 250, "lit -"), [f"expr 0 0 type {nested}"]
    yield "251 tuples around each other", chain(["paren #"] * 4 + ["tuple #"] * 251, "lit -"), ["expr 0 0 refused 9"]
    yield "255 arrays around each other by their second element", later_elements(255), ["expr 0 1 type [bool;2]"]
    yield "256 arrays around each other by their second element", later_elements(256), ["expr 0 1 refused 8"]
    compared = "(" * 247 + "[(felt);2]" + ")" * 247
    yield "a comparison of tuples in 247 tuples", compared_at_the_depth(247), [f"expr 0 0 type {compared}"]
    yield "251 types open, 256 types", type_chain(251), ["type 0 250 type " + "ptr(" * 250 + "felt" + ")" * 250]
    yield "252 types open, 257 types", type_chain(252), ["type 0 251 refused 9"]
    yield "257 types open", type_chain(257), ["type 0 256 refused 8"]
    listed = ",".join(f"[felt;{n}]" for n in range(1, 250))
    yield "249 arrays: 256 types", arrays(249), [f"type 0 250 type ({listed})"]
    yield "250 arrays: the 257th type", arrays(250), ["type 0 251 refused 9"]
    alone = "expr 0 3 type (felt,felt)"
    yield "an argument of an imported function inside its call", imported_call(248), [alone, "expr 0 4 type felt"]
    yield "the same with a type too many", imported_call(249), [alone, "expr 0 4 refused 9"]
    yield "2,048 items held", shadowed_tuple(2), ["expr 0 0 refused 10", "expr 0 1 type felt"]
    yield "2,049 items held", shadowed_tuple(3), ["expr 0 0 refused 9", "expr 0 1 type felt"]
    yield "a constant asked 16,384 times", doubling(15), ["def 0 0 type felt"]
    yield "256 bytes among 512 expressions", *bytes_of(512, 256)
    yield "at, 256 expressions open", parentheses_at(256), ["at 0 255 type bool", "at 0 254 type bool", "at 0 256 none"]
    yield "at, 257 expressions open", parentheses_at(257), ["at 0 256 refused 8", "at 0 255 type bool", "at 0 257 none"]
    felts = "(" + ",".join(["felt"] * 819) + ")"
    yield "at, a text of 4,096 bytes", cast_at(819), [f"at 0 7 type {felts}", "at 0 8 none"]
    yield "at, a text of 4,101 bytes", cast_at(820), ["at 0 7 refused 10", "at 0 8 none"]
    yield "a text of 4,096 bytes", *texts([2])
    yield "a text of 4,097 bytes", *texts([3])
    yield "a text of 4,096 bytes with numbers in it", *numbers(0)
    yield "a text of 4,097 bytes with numbers in it", *numbers(1)
    yield "256 questions, the longest texts among others", *texts([2, 3, 2, 2, 0, 6, 0, 2] * 32)
    yield "256 questions of the longest text", *texts([2] * 256)
    yield "256 questions, all refused by 10", *texts([3] * 256)
    yield "two towers of 100 pairs: compared as elements both ways, and as operands", *towers(100)
    yield "two towers of 12 pairs of the same", *doubled_towers(12)


def cases(path):
    """The cases of a file; its head says how they are written."""
    parts, name, lines, owed = {}, None, [], None

    def case():
        if name and owed is not None:
            yield Run(name, unescaped("".join(lines)), unescaped("".join(owed)))
        elif name:
            parts[name] = list(lines)

    with open(path, encoding="ascii") as file:
        for line in file:
            if line.startswith(("= ", ": ")):
                yield from case()
                name, lines, owed = line[2:-1], [], None
            elif line == "->\n":
                owed = []
            elif line != "\n" and not line.startswith("# "):
                into = lines if owed is None else owed
                into.extend(parts[line[2:-1]] if line.startswith("& ") else [line])
    yield from case()


def corpus(folder):
    for program in sorted(os.listdir(folder)):
        index = os.path.join(folder, program, "index.idx")
        if os.path.exists(index):
            with open(index, "rb") as file, open(os.path.join(folder, program, "expected.txt"), "rb") as expected:
                yield Run(f"program {program}", file.read(), expected.read())


def made_runs():
    for name, lines, owed in made():
        owed = "".join(line + "\n" for line in owed)
        yield Run(name, lines.replace(" ", "\t").encode(), owed.replace(" ", "\t").encode(), SECONDS, STACK)


def runs():
    for name in VECTOR_FILES:
        yield from (Run(*vector) for vector in vectors(name))
    yield from corpus(os.path.join(ROOT, "rust", "programs"))
    yield from cases(os.path.join(ROOT, "tools", "resolve_cases.txt"))
    yield from made_runs()


def write(folder):
    os.makedirs(folder, exist_ok=True)
    for run in made_runs():
        with open(os.path.join(folder, run.name.replace(" ", "-").replace(":", "").replace(",", "") + ".idx"), "wb") as file:
            file.write(run.file)


def main():
    arguments = sys.argv[1:]
    if arguments[:1] == ["--write"]:
        if len(arguments) != 2:
            sys.exit(__doc__)
        write(arguments[1])
        return 0
    command = arguments or [built("resolve runs", "resolve")]
    return compare("resolve runs", command, runs()) if command[0] else 0


if __name__ == "__main__":
    sys.exit(main())
