#!/usr/bin/env python3
"""Builds the static library and runs what stands on it: the header in C++, the example in C, the vectors in C (under valgrind where it is at
hand) and with planted faults, the Rust crate's tests, documentation and examples, `typetool hover` and `name`, what docs/USING.md shows, and the fuzz target;
and the tests of the lookups, on the library that is for the benchmark alone.

usage: tools/library_runs.py

The libraries are crates/export/out/libexport.a and crates/lookup_bench/out/liblookup_bench.a, which `rt lib` makes in the crate's folder and this tool has it
make if need be; where EXPORT_LIB names a folder (absolute), those in it. A crate that crates.txt doesn't list is left out with one line.
What the machine lacks (rt, objdump, objcopy, cc, c++, valgrind, cargo, the original sources) is left out with one line. Exit status 0: everything as owed;
1: a difference or a failure.
"""

import os
import re
import shlex
import shutil
import subprocess
import sys

from built import built
from runs import ROOT, VECTOR_FILES, vectors

MADE = os.path.join(ROOT, "target", "library_runs")
EXPORTED = {"roognaps_load", "roognaps_answer", "roognaps_answer_from"}
# What the library may need of the C library: the header says so.
NEEDED = {"memcpy", "memset"}
WARNINGS = ["-Wall", "-Wextra", "-Werror", "-pedantic"]
C11 = [*WARNINGS, "-std=c11", "-g"]
CPP11 = [*WARNINGS, "-std=c++11", "-x", "c++"]
# Of the malformed vectors one of so many is run as a process of its own; all are replayed in one.
MALFORMED_STEP = 10
# A frame that is larger than a page goes down by steps and touches each, so that too little stack meets the guard page. The compiler's step is shorter
# than a page.
PAGE = 4096
STEP = 3072
TOUCHED = re.compile(r"movq +\$0x0,\(%rsp\)$")
# The stack lowered in another way, of which the length isn't seen.
OTHERWISE = re.compile(r"\t(sub +%\w+,%rsp|lea +-0x[0-9a-f]+\(%rsp\),%rsp|add +\$0xf{4,}[0-9a-f]*,%rsp)")
# What the tool says in a build without the originals.
NOT_REACHABLE = "original Cairo-M sources"


def say(line):
    print(f"library runs: {line}", flush=True)


def run(command, **options):
    return subprocess.run(command, stdout=subprocess.PIPE, stderr=subprocess.STDOUT, text=True, check=False, **options)


def library(name):
    """The static library of a crate; none if it can't be had here. Ends the run where making it fails."""
    folder = os.environ.get("EXPORT_LIB")
    if folder is None:
        return built("library runs", name)
    path = os.path.join(folder, f"lib{name}.a")
    return path if os.path.exists(path) else None


def steps_down(listing):
    """(function, bytes, next instruction) wherever the listing of objdump lowers the stack by a number."""
    function, lowered = None, None
    for line in listing.splitlines():
        head = re.match(r"[0-9a-f]+ <(.*)>:$", line)
        if head:
            function, lowered = head.group(1), None
        parts = line.split("\t")
        if len(parts) < 3:
            continue
        if lowered is not None:
            yield function, lowered, parts[2].strip()
        found = re.match(r"sub +\$0x([0-9a-f]+),%rsp", parts[2])
        lowered = int(found.group(1), 16) if found else None


def compiled_library(folder):
    """What the compiled library has: the exported functions, those that it needs, and frames."""
    if not shutil.which("objdump"):
        say("objdump isn't at hand; exported and needed functions and frames aren't looked at")
        return True
    archive = os.path.join(folder, "libexport.a")
    symbols = run(["objdump", "-t", archive], cwd=ROOT).stdout
    listing = run(["objdump", "-d", archive], cwd=ROOT).stdout
    return exported_functions(symbols) and needed_functions(symbols) and large_frames(listing)


def exported_functions(symbols):
    """The library for users exports EXPORTED and nothing else: no function that is handed record words."""
    found = {line.split()[-1] for line in symbols.splitlines() if re.match(r"[0-9a-f]+ (?!l).{6}F (?!\*UND)", line)}
    say(f"libexport.a exports {', '.join(sorted(found))}")
    if found != EXPORTED:
        say(f"owed are {', '.join(sorted(EXPORTED))}")
    return found == EXPORTED


def needed_functions(symbols):
    """The library needs NEEDED of the C library and nothing else: who links it with a memcpy and memset of their own has all."""
    found = {line.split()[-1] for line in symbols.splitlines() if "*UND*" in line}
    say(f"libexport.a needs {', '.join(sorted(found))}")
    if not found <= NEEDED:
        say(f"at most {', '.join(sorted(NEEDED))} may be needed")
    if not found:
        say("the symbols weren't understood: the types are cleared by memset")
    return bool(found) and found <= NEEDED


def large_frames(listing):
    """The library touches each page of a frame: what makes too little stack an end of the process and nothing worse."""
    pages = [(function, size, then) for function, size, then in steps_down(listing) if size >= STEP]
    wrong = [f"{function} goes down {size} bytes, then {then}" for function, size, then in pages if size > PAGE or not TOUCHED.match(then)]
    wrong += [line.strip() for line in listing.splitlines() if OTHERWISE.search(line)]
    for said in wrong:
        print(said)
    functions = len({function for function, _, _ in pages})
    say(f"{functions} functions have frames above {STEP} bytes; {'not each' if wrong else 'each'} page is touched")
    # The resolution functions have such frames: none found means that the listing wasn't understood.
    return functions > 0 and not wrong


def in_file(path, pattern):
    """What a pattern finds in a file of the repository; none where it finds nothing."""
    with open(os.path.join(ROOT, *path), encoding="utf-8") as file:
        found = re.search(pattern, file.read(), re.MULTILINE)
    return found.group(1) if found else None


def versions():
    """The header says, as text and as numbers, the version of the Rust crates."""
    header = ("include", "roognaps.h")
    parts = [in_file(header, rf"^#define ROOGNAPS_VERSION_{part} (\d+)$") for part in ("MAJOR", "MINOR", "PATCH")]
    text = in_file(header, r'^#define ROOGNAPS_VERSION "(.*)"$')
    crates = in_file(("rust", "Cargo.toml"), r'^version = "(.*)"$')
    say(f"include/roognaps.h is of version {text}")
    if crates is None or text != crates or parts != crates.split("."):
        say(f"its numbers are {parts}; rust/Cargo.toml says {crates}")
        return False
    return True


def header_in_cpp():
    """The header is C++ too: a program that reads every result and names every refusal, compiled as such."""
    if not shutil.which("c++"):
        say("c++ isn't at hand; the header isn't tried in C++")
        return True
    made = run(["c++", *CPP11, "-fsyntax-only", "-Iinclude", "tools/robust/header.c"], cwd=ROOT)
    if made.returncode != 0:
        print(made.stdout)
    say(f"include/roognaps.h is {'C++11' if made.returncode == 0 else 'no C++11'}")
    return made.returncode == 0


def compiled(source, name, folder):
    """The path of the program, or none and what the compiler said."""
    program = os.path.join(MADE, name)
    words = ["cc", *C11, "-Iinclude", source, "-L" + folder, "-lexport", "-o", program]
    made = run(words, cwd=ROOT)
    if made.returncode != 0:
        print(made.stdout)
        say(f"{source} isn't compiled")
        return None
    return program


def sample():
    """The sample of the program `resolve`, with what it prints."""
    folder = os.path.join(ROOT, "crates", "resolve")
    with open(os.path.join(folder, "stdin"), "rb") as file, open(os.path.join(folder, "stdout"), "rb") as owed:
        return "the sample", file.read(), owed.read()


def files():
    """(name, index file, lines owed) of each run of the example."""
    yield sample()
    for name in VECTOR_FILES:
        step = MALFORMED_STEP if name.startswith("malformed") else 1
        yield from list(vectors(name))[::step]


def answer_in_c(program, file, *words):
    """What the example prints for a file and these arguments, and its exit status."""
    path = os.path.join(MADE, "answer.idx")
    with open(path, "wb") as out:
        out.write(file)
    done = subprocess.run([program, path, *words], stdout=subprocess.PIPE, stderr=subprocess.DEVNULL, check=False)
    return done.stdout, done.returncode


def example_in_c(folder):
    program = compiled("examples/c/answer.c", "answer", folder)
    if program is None:
        return False
    count, differences = 0, 0
    for name, file, owed in files():
        done = subprocess.run([program], input=file, stdout=subprocess.PIPE, stderr=subprocess.DEVNULL, check=False)
        count += 1
        if done.stdout != owed or done.returncode != 0:
            differences += 1
            print(f"{name}: {done.stdout!r} (status {done.returncode}) instead of {owed!r}")
    say(f"examples/c/answer.c prints the lines owed for {count - differences} of {count} files")
    return differences == 0 and one_line_in_c(program) and tells_what_it_cannot_write(program)


def one_line_in_c(program):
    """The example asked for one line: of a question, of a refused one, past its last, of no question, and by what is no number."""
    _, file, lines = sample()
    first = lines.splitlines(keepends=True)[0]
    _, ring, owed = next(vector for vector in vectors(VECTOR_FILES[0]) if vector[2].endswith(b"\trefused\t7\n"))
    last = str(owed.count(b"\n") - 1)
    cases = [
        (file, ["0"], (first, 0)),
        (file, ["0", "0"], (first, 0)),
        (file, ["0", "1"], (b"", 1)),
        (file, ["0", "4294967295"], (b"", 1)),
        (file, ["256"], (b"refused\t5\t0\n", 0)),
        (b"index\t1\nX\n", ["0", "1"], (b"refused\t4\t2\n", 0)),
        (ring, [last], (b"refused\t7\t0\n", 0)),
        (file, ["0", "-1"], (b"", 2)),
        (file, ["x"], (b"", 2)),
        (file, ["0", "0", "0"], (b"", 2)),
    ]
    wrong = 0
    for given, words, owed in cases:
        done = answer_in_c(program, given, *words)
        if done != owed:
            wrong += 1
            print(f"answer FILE {' '.join(words)}: {done} instead of {owed}")
    say(f"examples/c/answer.c prints the line owed in {len(cases) - wrong} of {len(cases)} cases")
    return wrong == 0


def tells_what_it_cannot_write(program):
    """The example ends with 2 where the device is full."""
    if not os.path.exists("/dev/full"):
        return True
    _, file, _ = sample()
    with open("/dev/full", "wb") as full:
        done = subprocess.run([program], input=file, stdout=full, stderr=subprocess.DEVNULL, check=False)
    if done.returncode != 2:
        say(f"examples/c/answer.c ends with {done.returncode} where it can't write")
    return done.returncode == 2


def vectors_in_c(folder):
    program = compiled("tools/robust/vectors.c", "vectors", folder)
    if program is None:
        return False
    paths = [os.path.join("rust", "vectors", name) for name in VECTOR_FILES]
    command, way = [program, *paths], ""
    if shutil.which("valgrind"):
        command, way = ["valgrind", "--quiet", "--error-exitcode=9", *command], ", under valgrind without an error"
    else:
        say("valgrind isn't at hand; the vectors are replayed without it")
    done = run(command, cwd=ROOT)
    if done.returncode != 0:
        print(done.stdout)
        say(f"the vectors in C failed (status {done.returncode})")
        return False
    say(done.stdout.strip() + way)
    return True


def few_vectors():
    """The path of a file with a few vectors: answers of one part and of more, refused lines and files, a line `none`."""
    accepted, malformed = [vector for name in VECTOR_FILES[:2] for vector in vectors(name)], list(vectors(VECTOR_FILES[2]))
    long = next(vector for vector in accepted if len(vector[2]) > 4160)
    ring = next(vector for vector in accepted if vector[2].endswith(b"\trefused\t7\n"))
    none = next(vector for vector in accepted if vector[2].endswith(b"\tnone\n"))
    path = os.path.join(MADE, "few.txt")
    with open(path, "wb") as out:
        for name, file, answer in [accepted[0], ring, long, none, malformed[0]]:
            out.write(b"vector %s %d %d\n" % (name.encode(), len(file), len(answer)) + file + answer)
    return path


def planted_faults(folder):
    """Each fault of tools/robust/planted.c, between the library and the vectors in C, is noticed."""
    if not shutil.which("objcopy"):
        say("objcopy isn't at hand; no faults are planted")
        return True
    program, source = os.path.join(MADE, "planted"), os.path.join("tools", "robust", "planted.c")
    renamed = [f"--redefine-sym={name}={name.replace('roognaps', 'proved')}" for name in sorted(EXPORTED)]
    for words in [
        ["objcopy", *renamed, os.path.join(folder, "libexport.a"), os.path.join(MADE, "libproved.a")],
        ["cc", *C11, "-Iinclude", "tools/robust/vectors.c", source, "-L" + MADE, "-lproved", "-o", program],
    ]:
        made = run(words, cwd=ROOT)
        if made.returncode != 0:
            print(made.stdout)
            say("the library with faults isn't made")
            return False
    with open(os.path.join(ROOT, source), encoding="ascii") as file:
        faults = re.findall(r'planted\("(\w+)"\)', file.read())
    path = few_vectors()
    status = {fault: run([program, path], env={**os.environ, "PLANTED": fault}).returncode for fault in ["", *faults]}
    missed = [fault for fault in faults if status[fault] != 1]
    say(f"{len(faults) - len(missed)} of {len(faults)} planted faults are noticed by the vectors in C")
    if missed or status[""] != 0:
        say(f"not noticed: {', '.join(missed) or 'none'}; without a fault the status is {status['']}")
    return len(faults) > 0 and not missed and status[""] == 0


def cargo(what, *words, **environment):
    done = run(["cargo", *words], cwd=os.path.join(ROOT, "rust"), env={**os.environ, **environment})
    if done.returncode != 0:
        print(done.stdout)
        say(f"{what} failed")
        return None
    return done.stdout


def at_hand(*words):
    try:
        return subprocess.run([*words, "--version"], stdout=subprocess.DEVNULL, stderr=subprocess.DEVNULL, check=False).returncode == 0
    except OSError:
        return False


def wrong_library():
    """The crate's calls over a library that answers at random: no panic."""
    folder = os.path.join(MADE, "wrong")
    os.makedirs(folder, exist_ok=True)
    object_file, archive = os.path.join(folder, "wrong.o"), os.path.join(folder, "libexport.a")
    for words in [
        ["cc", *C11, "-O1", "-fPIC", "-Iinclude", "-c", "tools/robust/wrong.c", "-o", object_file],
        ["ar", "rcs", archive, object_file],
    ]:
        made = run(words, cwd=ROOT)
        if made.returncode != 0:
            print(made.stdout)
            say("the wrong library isn't made")
            return False
    words = ["test", "--offline", "-p", "roognaps", "--test", "wrong_library", "--target-dir", os.path.join(folder, "build"), "--", "--ignored", "--nocapture"]
    tested = cargo("the crate over a wrong library", *words, EXPORT_LIB=folder)
    if tested is None:
        return False
    counts = re.search(r"^answers, refusals, faults: (.*)$", tested, re.MULTILINE)
    say(f"rust/roognaps over a library that answers at random: no panic (answers, refusals, faults: {counts.group(1)})")
    return True


def using():
    """docs/USING.md, with its tabs."""
    with open(os.path.join(ROOT, "docs", "USING.md"), encoding="utf-8") as document:
        return document.read().replace("→", "\t")


def commands():
    """Each command that docs/USING.md shows, with what it shows below it."""
    for found in re.finditer(r"^    \$ (.*)\n((?:    (?!\$ ).*\n)*)", using(), re.MULTILINE):
        yield found.group(1), re.sub(r"^    ", "", found.group(2), flags=re.MULTILINE)


def shown(words):
    """What docs/USING.md shows below the command with these words."""
    return next((printed for command, printed in commands() if words in command), "")


def shown_below(line):
    """The indented lines of docs/USING.md below this line."""
    found = re.search(rf"^{re.escape(line)}\n\n((?:    .*\n|\n)+)", using(), re.MULTILINE)
    return re.sub(r"^    ", "", found.group(1), flags=re.MULTILINE).rstrip() + "\n" if found else ""


def is_as_shown(what, printed, owed):
    """Whether something prints what docs/USING.md shows, where a line `..` stands for any lines."""
    pattern = re.escape(owed).replace(re.escape("..\n"), "(.*\n)*")
    if not owed or not re.fullmatch(pattern, printed):
        print(f"{printed!r}\ninstead of\n{owed!r}")
        say(f"{what} doesn't print what docs/USING.md shows")
        return False
    say(f"{what} prints what docs/USING.md shows")
    return True


def example(name, *words):
    """The crate's example prints what docs/USING.md shows."""
    printed = cargo(f"the example `{name}`", "run", "--offline", "--quiet", "-p", "roognaps", *words)
    return printed is not None and is_as_shown(f"the example `{name}`", printed, shown(f"--example {name}"))


def originals_are_reachable():
    """Whether the workspace is built with the original sources; none if that can't be told."""
    asked = run(["cargo", "run", "--offline", "--quiet", "--", "self-check", "0", "0"], cwd=os.path.join(ROOT, "rust"))
    if asked.returncode == 0:
        return True
    if NOT_REACHABLE in asked.stdout:
        return False
    print(asked.stdout)
    return None


def with_originals(folder):
    """What needs the original sources: the crate's module `export`, and what docs/USING.md shows of its program."""
    reachable = originals_are_reachable()
    if reachable is None:
        say("`typetool self-check` failed")
        return False
    if not reachable:
        say("the original sources aren't reachable; the crate's module `export`, `typetool hover` and `name` and what docs/USING.md shows of its program are left out")
        return True
    documents = documented("--features", "export")
    shown_files = documents and shown_index() and shown_questions()
    return shown_files and shown_names() and shown_types() and shown_rust() and shown_c(folder) and hover()


def shown_index():
    """target/total.cm and target/total.idx, as docs/USING.md makes them."""
    with open(os.path.join(ROOT, "target", "total.cm"), "w", encoding="ascii") as source:
        source.write(shown_below("A program, `target/total.cm`:"))
    index = cargo("the exporter", "run", "--offline", "--quiet", "--", "export", "../target/total.cm")
    if index is None:
        return False
    with open(os.path.join(ROOT, "target", "total.idx"), "w", encoding="ascii") as file:
        file.write(index)
    return is_as_shown("the exporter", index, shown("cat target/total.idx"))


def tool_run(command, *features):
    """What a command of docs/USING.md prints, with the tool as cargo builds it."""
    tool = shlex.join(["cargo", "run", "--offline", "--quiet", "--manifest-path", os.path.join(ROOT, "rust", "Cargo.toml"), *features, "--"])
    return run(["sh", "-c", re.sub(r"\S+/typetool", lambda _: tool, command)], cwd=ROOT).stdout


def shown_questions():
    """target/hover.idx, by the command of docs/USING.md that makes it, and its questions."""
    for command in [command for command, _ in commands() if command.endswith("> target/hover.idx")]:
        print(tool_run(command), end="")
    asked = "grep '^Q' target/hover.idx"
    return is_as_shown("`typetool export --at`", run(["sh", "-c", asked], cwd=ROOT).stdout, shown(asked))


def shown_names():
    """The commands of docs/USING.md with `typetool name`, which needs no library."""
    running = [(command, owed) for command, owed in commands() if "typetool name" in command]
    return len(running) > 0 and all([is_as_shown(f"`{command}`", tool_run(command), owed) for command, owed in running])


def hover():
    """`typetool hover` with the library: its tests, and its commands of docs/USING.md."""
    running = [(command, owed) for command, owed in commands() if "typetool hover" in command]
    if not running or not tests("typetool", "--features", "library", "--test", "hover"):
        return False
    return all([is_as_shown(f"`{command}`", tool_run(command, "--features", "library"), owed) for command, owed in running])


def shown_types():
    return example("types", "--features", "export", "--example", "types", "--", "../target/total.cm")


def shown_rust():
    """The Rust program of docs/USING.md, as a package of its own."""
    package = os.path.join(MADE, "using")
    os.makedirs(os.path.join(package, "src"), exist_ok=True)
    manifest = os.path.join(package, "Cargo.toml")
    with open(manifest, "w", encoding="utf-8") as file:
        depends = shown_below("absolute path) and says what to run if it isn't there. In a `Cargo.toml`:")
        depends = depends.replace("PATH/TO/rust", os.path.join(ROOT, "rust"))
        file.write(f'[package]\nname = "using"\nedition = "2024"\n\n[workspace]\n\n{depends}')
    with open(os.path.join(package, "src", "main.rs"), "w", encoding="utf-8") as file:
        file.write(shown_below("A program:"))
    words = ["run", "--offline", "--quiet", "--manifest-path", manifest, "--", "../target/total.idx"]
    printed = cargo("the program of docs/USING.md", *words)
    return printed is not None and is_as_shown("the program", printed, shown_below("What it prints for the file above:"))


def stands_in(code, path):
    """Whether the code that docs/USING.md shows stands in a file, but for spaces and the signs of a comment."""
    with open(os.path.join(ROOT, path), encoding="utf-8") as source:
        words = [word for word in source.read().split() if word != "///"]
    stands = len(code) > 0 and " ".join(code.split()) in " ".join(words)
    if not stands:
        say(f"the code that docs/USING.md shows isn't that of {path}")
    return stands


def shown_calls():
    """The calls that docs/USING.md shows of the example in C, and of the documentation of `type_at`."""
    in_c = shown_below("What it does is a call in a loop that begins with line 0 of question 0:")
    in_rust = shown_below("sources, the number of one of them and a byte in it, and gives the expression's number, span and text with its type:")
    return stands_in(in_c, "examples/c/answer.c") and stands_in(in_rust, "rust/roognaps/src/hover.rs")


def shown_c(folder):
    """The commands of docs/USING.md that compile and run the example in C."""
    if not shutil.which("cc"):
        return True
    compiling = [command.replace("-Lcrates/export/out", "-L" + folder) for command, _ in commands() if command.startswith("cc ")]
    running = [(command, owed) for command, owed in commands() if command.startswith("target/answer ")]
    for command in compiling:
        made = run(["sh", "-c", command], cwd=ROOT)
        if made.returncode != 0:
            print(made.stdout)
            say(f"`{command}` failed")
            return False
    done = [is_as_shown(f"`{command}`", run(["sh", "-c", command], cwd=ROOT).stdout, owed) for command, owed in running]
    return len(compiling) > 0 and len(done) > 0 and all(done)


def documented(*features):
    words = ["doc", "--offline", "-p", "roognaps", "--no-deps", *features]
    return cargo("the crate's documentation", *words, RUSTDOCFLAGS="-D warnings") is not None


def linted(has_lookups):
    if not at_hand("cargo", "clippy"):
        say("cargo clippy isn't at hand; the lint is left out")
        return True
    bench = ["-p", "bench"] if has_lookups else []
    packages = ["-p", "roognaps", "-p", "fuzz", "-p", "typetool", *bench, "--features", "roognaps/export,typetool/library"]
    return cargo("the lint", "clippy", "--offline", *packages, "--all-targets", "--", "-D", "warnings") is not None


def tests(package, *words):
    """The tests of a package pass, and there are some."""
    tested = cargo(f"the tests of {package}", "test", "--offline", "-p", package, *words)
    if tested is None:
        return False
    passed = [int(count) for count in re.findall(r"^test result: ok\. (\d+) passed", tested, re.MULTILINE)]
    say(f"{package}: {sum(passed)} tests passed")
    if sum(passed) == 0:
        say("no test was run")
    return sum(passed) > 0


def fuzz_target():
    fuzzed = cargo("the fuzz target", "run", "--offline", "--quiet", "-p", "fuzz", "--", "2000", "1")
    if fuzzed is None:
        return False
    counts = [re.search(pattern, fuzzed, re.MULTILINE) for pattern in (r"^2000 inputs: .*$", r"^about `at`: 250 inputs: .*$")]
    for found in counts:
        say(f"rust/fuzz: {found.group()}; no difference" if found else "rust/fuzz doesn't print all its counts")
    return all(counts)


def rust_crate(folder):
    has_lookups = library("lookup_bench") is not None
    if not has_lookups:
        say("liblookup_bench.a isn't there; the tests of the lookups are left out")
    tested = tests("roognaps", "--features", "export") and (tests("bench") if has_lookups else True)
    return tested and documented() and linted(has_lookups) and example("moved", "--example", "moved") and with_originals(folder) and fuzz_target()


def main():
    os.makedirs(MADE, exist_ok=True)
    well = versions()
    exported = library("export")
    if exported is None and "EXPORT_LIB" in os.environ:
        say("EXPORT_LIB names a folder that doesn't have libexport.a")
        return 1
    if exported is None:
        return 0 if well else 1
    folder = os.path.dirname(exported)
    well = compiled_library(folder) and well
    well = header_in_cpp() and well
    well = shown_calls() and well
    if shutil.which("cc"):
        well = example_in_c(folder) and well
        well = vectors_in_c(folder) and well
        well = planted_faults(folder) and well
    else:
        say("cc isn't at hand; the C programs are left out")
    if shutil.which("cargo"):
        well = rust_crate(folder) and well
        if shutil.which("cc"):
            well = wrong_library() and well
    else:
        say("cargo isn't at hand; the Rust crate is left out")
    return 0 if well else 1


if __name__ == "__main__":
    sys.exit(main())
