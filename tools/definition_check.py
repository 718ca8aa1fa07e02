#!/usr/bin/env python3
"""Holds the definition against another program's answers, from the bytes of an index file to the bytes that are printed for it.

usage: definition_check.py [--repository DIR] [--batch N] [--bytes N] PAIRS ..
       definition_check.py --write-crate DIR [--names FILE] PAIRS ..

PAIRS are folders with pairs of files NAME.index (an index file) and NAME.printed (what the other program printed for it), single .index
files beside their .printed, or files of vectors (.txt, framed as rust/vectors/README.md says). For each pair there is a theorem by
computation, `resolve FILE ≡ PRINTED`, proved by `refl`. The theorems are written into a crate beside a copy of the repository's crates, in
a temporary folder, and `rt check` judges them. Says `N files, all equal`, or names each file that differs.
With --write-crate the crate folder is written and nothing is checked. With --names only the vectors that FILE names are taken, one a line.

Exit status: 0 all equal; 1 some file differs; 2 nothing can be said (no pairs, a definition that is not proved, a check that broke off).
"""
import argparse
import collections
import glob
import os
import re
import shutil
import signal
import subprocess
import sys
import tempfile

# What the theorems name, and where it stands.
CRATES = ['model', 'format', 'resolution']
RESOLVE = ('Rattle.resolution.specs.Resolve', 'resolve')
COMPUTES = ('Rattle.resolution.specs.Computes', 'resolves')
BYTES = ('Rattle.model.specs.Common', 'bytes')
PRELUDE = 'Rattle.std.specs.Prelude'

# The crate that is checked, and what bounds one check: some 60 s and 1.6 GB. (A file of 65,536 bytes alone takes 3 GB.)
CHECKED = 'definition_check'
BATCH_FILES = 60
BATCH_BYTES = 120_000
MODULE_FILES = 10

ESCAPES = {0: '\\0', 9: '\\t', 10: '\\n', 13: '\\r', 34: '\\"', 92: '\\\\'}

Pair = collections.namedtuple('Pair', 'name index printed')


class Unsaid(Exception):
    """Why nothing can be said: exit status 2."""


# ------------------------------------------------------------------ pairs

def index_files(path):
    """The .index files that an argument means."""
    if os.path.isdir(path):
        return [os.path.join(path, entry) for entry in os.listdir(path) if entry.endswith('.index')]
    return [path]


def read_bytes(path):
    try:
        with open(path, 'rb') as f:
            return f.read()
    except OSError as error:
        raise Unsaid('%s: %s' % (path, error.strerror))


def read_pair(path):
    """A pair by its .index file. Its name becomes a part of a theorem's name."""
    stem, end = os.path.splitext(path)
    name = os.path.basename(stem)
    if end != '.index' or not re.fullmatch('[a-z][a-z0-9-]*', name):
        raise Unsaid('%s: a file is named by small letters, digits and hyphens, and ends in .index' % path)
    return Pair(name, read_bytes(path), read_bytes(stem + '.printed'))


def read_vectors(path):
    """The vectors of a file: a head `vector NAME INDEX-BYTES ANSWER-BYTES`, then the bytes of index and answer."""
    content, at = read_bytes(path), 0
    while at < len(content):
        head = re.compile(rb'vector ([^ \n]+) (\d+) (\d+)\n').match(content, at)
        if not head:
            raise Unsaid('%s: there is no vector at byte %d' % (path, at))
        printed = head.end() + int(head[2])
        at = printed + int(head[3])
        yield Pair(head[1].decode().lower().replace('_', '-'), content[head.end():printed], content[printed:at])


def by_number(name):
    """Orders names with the numbers in them by size."""
    return [(int(part), '') if part.isdigit() else (-1, part) for part in re.split('([0-9]+)', name)]


def named(vectors, path):
    """The vectors that a list names."""
    names = read_bytes(path).decode().split()
    found = {vector.name: vector for vector in vectors}
    lacking = [name for name in names if name not in found]
    if lacking:
        raise Unsaid('%s: there is no vector %s' % (path, lacking[0]))
    return [found[name] for name in names]


def read_pairs(options):
    pairs = [read_pair(path) for argument in options.pairs if not argument.endswith('.txt') for path in index_files(argument)]
    vectors = [vector for argument in options.pairs if argument.endswith('.txt') for vector in read_vectors(argument)]
    pairs += named(vectors, options.names) if options.names else vectors
    pairs = [pair for pair in pairs if len(pair.index) <= options.bytes]
    names = collections.Counter(pair.name for pair in pairs)
    twice = [name for name in names if names[name] > 1]
    if twice or not pairs:
        raise Unsaid('more than one file has the name %s' % twice[0] if twice else 'there are no pairs')
    return sorted(pairs, key=lambda pair: by_number(pair.name))


# ------------------------------------------------------------------ the crate

def literal(content):
    """ASCII characters as a text of antt."""
    return '"%s"' % ''.join(ESCAPES.get(b) or (chr(b) if 32 <= b < 127 else '\\u{%x}' % b) for b in content)


def part(content):
    """Bytes as a term: a text where all are ASCII; else their numbers, as a text has characters and not bytes."""
    if all(b < 128 for b in content):
        return '%s %s' % (BYTES[1], literal(content))
    return '(%s[])' % ''.join('%d ∷ ' % b for b in content)


def parts(content, by_line):
    """Any bytes in parts of one sort, ASCII or other; also a part for each line, if that is wanted."""
    pattern = rb'[\x00-\x09\x0b-\x7f]*\n|[\x00-\x09\x0b-\x7f]+|[\x80-\xff]+' if by_line else rb'[\x00-\x7f]+|[\x80-\xff]+'
    return re.findall(pattern, content) or [b'']


def text(content, by_line):
    return '\n    ++ '.join(part(p) for p in parts(content, by_line))


def theorem_name(pair):
    return pair.name.replace('-', '_') + '_printed'


def theorem(pair, by_line):
    name = theorem_name(pair)
    statement = '%s :\n    %s\n    (%s)\n    ≡ %s\n' % (name, RESOLVE[1], text(pair.index, by_line), text(pair.printed, by_line))
    return '%sunfolding %s\n%s = refl\n' % (statement, COMPUTES[1], name)


def module_text(title, names, theorems):
    """A file of theorems that use these names, each given with the module where it stands."""
    head = ['-- %s Written by definition_check.py. Assumes nothing.\n' % title] + ['use %s.{%s}\n' % name for name in names]
    return '\n'.join([''.join(head)] + theorems)


def files_module(pairs, by_line):
    theorems = [theorem(pair, by_line) for pair in pairs]
    words = [word for word in ('[]', '◌∷◌', '◌++◌') if word.strip('◌') in ''.join(theorems)]
    prelude = (PRELUDE, ', '.join(['◌≡◌', 'refl'] + words))
    return module_text('Index files and what the oracle printed for them, from text to text.', [prelude, BYTES, RESOLVE, COMPUTES], theorems)


def ascii_module():
    """That a text carries each ASCII character as its number, so that the theorems speak of the files' bytes."""
    numbers = ''.join('%d ∷ ' % b for b in range(128))
    statement = 'ascii :\n    %s %s\n    ≡ %s[]\nascii = refl\n' % (BYTES[1], literal(range(128)), numbers)
    return module_text('A text carries each ASCII character as its number.', [(PRELUDE, '◌≡◌, refl, [], ◌∷◌'), BYTES], [statement])


def names_module():
    """A theorem that holds whatever the definition says: it fails only if the names above mean nothing."""
    same = '%s (%s "")' % (RESOLVE[1], BYTES[1])
    statement = 'names : %s ≡ %s\nunfolding %s\nnames = refl\n' % (same, same, COMPUTES[1])
    return module_text('The names that the theorems use.', [(PRELUDE, '◌≡◌, refl'), BYTES, RESOLVE, COMPUTES], [statement])


def modules_of(pairs, by_line):
    """The crate's modules: by kind, which is what a file's name begins with, of a few files each."""
    kinds = collections.defaultdict(list)
    for pair in pairs:
        kinds[pair.name.split('-')[0].capitalize()].append(pair)
    groups = {'%s%d' % (kind, at // MODULE_FILES + 1): files[at:at + MODULE_FILES]
              for kind, files in kinds.items() for at in range(0, len(files), MODULE_FILES)}
    return dict({'Ascii': ascii_module()}, **{name: files_module(groups[name], by_line) for name in groups})


def write(path, content):
    os.makedirs(os.path.dirname(path), exist_ok=True)
    with open(path, 'w', encoding='utf-8') as f:
        f.write(content)


def write_crate(folder, modules):
    """The crate folder: theorems only, no code. Files of an earlier crate go."""
    for old in glob.glob(os.path.join(glob.escape(folder), 'specs', '*.antt')):
        os.remove(old)
    for name, content in modules.items():
        write(os.path.join(folder, 'specs', name + '.antt'), content)
    title = 'Index files and what the oracle printed for them'
    declared = ''.join('pub mod %s\n' % name for name in modules)
    write(os.path.join(folder, 'specs', 'Lib.antt'), '-- %s. Written by definition_check.py.\n%s' % (title, declared))
    write(os.path.join(folder, 'src', 'lib.rt'), '// %s, as theorems about the definition: no function.\n#![tactic(auto)]\n' % title)


# ------------------------------------------------------------------ the check

def dependencies(repository):
    """The crates of the repository that the theorems stand on, each with what it depends on."""
    lines = [line.split('#')[0] for line in read_bytes(os.path.join(repository, 'crates.txt')).decode().split('\n')]
    listed = dict((line.split(':')[0].split()[0], line.split(':')[1].split()) for line in lines if ':' in line)
    needed, found = list(CRATES), {}
    while needed:
        crate = needed.pop()
        if crate in listed and crate not in found:
            found[crate] = listed[crate]
            needed += listed[crate]
    return found


def copy_repository(repository, folder):
    """The crates that are needed, without what was built of them."""
    found = dependencies(repository)
    listed = dict(found, **{CHECKED: CRATES})
    write(os.path.join(folder, 'crates.txt'), ''.join(' '.join([crate + ':'] + listed[crate]) + '\n' for crate in listed))
    for crate in found:
        shutil.copytree(os.path.join(repository, 'crates', crate), os.path.join(folder, 'crates', crate), ignore=shutil.ignore_patterns('out'))


def check(folder, modules, seconds):
    """The exit status of `rt check` on a crate of these modules, and what it said; None as the status if it took too long."""
    crate = os.path.join(folder, 'crates', CHECKED)
    write_crate(crate, modules)
    process = subprocess.Popen(['rt', 'check'], cwd=crate, stdout=subprocess.PIPE, stderr=subprocess.STDOUT, start_new_session=True)
    try:
        said, _ = process.communicate(timeout=seconds)
        return process.returncode, said.decode(errors='replace')
    except subprocess.TimeoutExpired:
        os.killpg(process.pid, signal.SIGKILL)
        process.communicate()
        return None, 'the check took over %d seconds' % seconds


def reason(said):
    """Where the checker saw the first difference, as far as it says so."""
    computed = re.search('computed as far as they go, (.*)', said)
    error = re.search('error: (.*)', said)
    return computed[1] if computed else error[1][:200] if error else said[:200]


def split(pairs, said):
    """Two parts of a refused batch: the files that the checker named and the rest, or else two halves."""
    refused = [pair for pair in pairs if '`%s`' % theorem_name(pair) in said]
    rest = [pair for pair in pairs if pair not in refused]
    return (refused, rest) if refused and rest else (pairs[:len(pairs) // 2], pairs[len(pairs) // 2:])


def differing(folder, pairs, seconds):
    """The files of a batch whose theorem is refused, each checked alone in the end, with the reason. A check that breaks off at a
    single file ends all."""
    status, said = check(folder, modules_of(pairs, by_line=False), seconds)
    if status == 0:
        return []
    if len(pairs) > 1:
        first, second = split(pairs, said)
        return differing(folder, first, seconds) + differing(folder, second, seconds)
    if status != 1:
        raise Unsaid('%s could not be checked:\n%s' % (pairs[0].name, said))
    return ['%s: %s' % (pairs[0].name, reason(said))]


def batches(pairs, most_files):
    """Consecutive files, as many as one check takes."""
    batch, size = [], 0
    for pair in pairs:
        if batch and (len(batch) == most_files or size + len(pair.index) > BATCH_BYTES):
            yield batch
            batch, size = [], 0
        batch.append(pair)
        size += len(pair.index)
    yield batch


def check_all(options, pairs):
    """Checks all batches; returns a line for each file that differs."""
    lines = []
    with tempfile.TemporaryDirectory() as folder:
        copy_repository(options.repository, folder)
        status, said = check(folder, {'Ascii': ascii_module(), 'Names': names_module()}, options.seconds)
        if status != 0:
            raise Unsaid('the definition could not be used:\n%s' % said)
        for batch in batches(pairs, options.batch):
            found = differing(folder, batch, options.seconds)
            print('%s .. %s: %d files, %d differ' % (batch[0].name, batch[-1].name, len(batch), len(found)), flush=True)
            lines += found
    return lines


def options_of(arguments):
    parser = argparse.ArgumentParser(description=__doc__, formatter_class=argparse.RawDescriptionHelpFormatter)
    parser.add_argument('pairs', nargs='+', metavar='PAIRS')
    parser.add_argument('--repository', default=os.path.dirname(os.path.dirname(os.path.abspath(__file__))))
    parser.add_argument('--write-crate', metavar='DIR')
    parser.add_argument('--names', metavar='FILE')
    parser.add_argument('--bytes', type=int, default=32768, metavar='N', help='larger files are left out; one of 65,536 bytes takes 3 GB')
    parser.add_argument('--batch', type=int, default=BATCH_FILES, metavar='N', help='files in one check at most')
    parser.add_argument('--seconds', type=int, default=600, metavar='N', help='time of one check at most')
    return parser.parse_args(arguments)


def main(arguments):
    options = options_of(arguments)
    pairs = read_pairs(options)
    if options.write_crate:
        write_crate(options.write_crate, modules_of(pairs, by_line=True))
        print('%d files written' % len(pairs))
        return 0
    lines = check_all(options, pairs)
    if not lines:
        print('%d files, all equal' % len(pairs))
        return 0
    print('%d files, %d differ:' % (len(pairs), len(lines)))
    print('\n'.join(lines))
    return 1


if __name__ == '__main__':
    try:
        sys.exit(main(sys.argv[1:]))
    except (Unsaid, OSError) as unsaid:
        print(unsaid, file=sys.stderr)
        sys.exit(2)
