"""What the runs of the programs share: vectors, files as the cases write them, and the comparison."""

import collections
import os
import re
import subprocess
from concurrent.futures import ThreadPoolExecutor

ROOT = os.path.dirname(os.path.dirname(os.path.abspath(__file__)))
VECTOR_FILES = ["accepted-1.txt", "accepted-2.txt", "malformed-1.txt", "malformed-2.txt"]

# A name, an index file, what a program owes for it on standard output, how many seconds it may take, and how many KB of stack (none: as many as
# the runs themselves).
Run = collections.namedtuple("Run", "name file owed seconds stack", defaults=[20, None])


def vectors(name):
    """(name, index file, answer) of each vector of a file; rust/vectors/README.md has the framing."""
    with open(os.path.join(ROOT, "rust", "vectors", name), "rb") as file:
        rest = file.read()
    while rest:
        head, rest = rest.split(b"\n", 1)
        word, vector, index, answer = head.split(b" ")
        assert word == b"vector", head
        index, answer = int(index), int(answer)
        yield vector.decode(), rest[:index], rest[index : index + answer]
        rest = rest[index + answer :]


def unescaped(text):
    """The bytes of a file as the cases write it."""
    bytes_of = {"n": b"\n", "r": b"\r", "0": b"\0", "s": b" ", "\\": b"\\"}
    made = b""
    at = 0
    while at < len(text):
        times = re.compile(r"\{([^}]*)\}\*([0-9]+)").match(text, at)
        if times:
            part, count = times.group(1), int(times.group(2))
            made += b"".join(unescaped(part.replace("#", str(number))) for number in range(count))
            at = times.end()
        elif text.startswith("\\x", at):
            made += bytes([int(text[at + 2 : at + 4], 16)])
            at += 4
        elif text[at] == "\\":
            made += bytes_of[text[at + 1]]
            at += 2
        else:
            made += b"\t" if text[at] == " " else text[at].encode("ascii")
            at += 1
    return made


def short(output):
    """Some bytes as a message has them."""
    return repr(output) if len(output) < 400 else f"{output[:200]!r} .. {output[-150:]!r} ({len(output)} bytes)"


def difference(command, run):
    """What is wrong about a run, or None."""
    if run.stack:
        command = ["sh", "-c", f'ulimit -s {run.stack} && exec "$@"', "sh", *command]
    try:
        done = subprocess.run(
            command, input=run.file, stdout=subprocess.PIPE, stderr=subprocess.DEVNULL, check=False, timeout=run.seconds
        )
    except subprocess.TimeoutExpired:
        return f"{run.name}: not done after {run.seconds} s"
    if done.stdout == run.owed and done.returncode == 0:
        return None
    return f"{run.name}: {short(done.stdout)} (status {done.returncode}) instead of {short(run.owed)}"


def unnoticed(command, run):
    """What a comparison that can't fail would miss: the run with something else owed, or with no time."""
    spoilt = {
        "another last byte": run._replace(owed=run.owed[:-1] + b" "),
        "another byte": run._replace(owed=bytes([run.owed[0] ^ 1]) + run.owed[1:]),
        "a line more": run._replace(owed=run.owed + b"\n"),
        "nothing": run._replace(owed=b""),
        "no time": run._replace(seconds=1e-6),
    }
    return [what for what, wrong in spoilt.items() if difference(command, wrong) is None]


def compare(title, command, runs, jobs=2):
    """Prints each difference, at most 20, and how many runs give what is owed. The exit status."""
    if not os.access(command[0], os.X_OK):
        print(f"{title}: {command[0]} isn't built")
        return 1
    runs = list(runs)
    assert len({run.name for run in runs}) == len(runs), "two runs have one name"
    with ThreadPoolExecutor(jobs) as pool:
        found = [said for said in pool.map(lambda run: difference(command, run), runs) if said]
    for said in found[:20]:
        print(said)
    print(f"{title}: {len(runs) - len(found)} of {len(runs)} files give what is owed")
    missed = unnoticed(command, next(run for run in runs if run.owed))
    for what in missed:
        print(f"{title}: spoiling the run ({what}) isn't noticed")
    return 1 if found or missed else 0
