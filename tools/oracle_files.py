#!/usr/bin/env python3
"""Writes random index files and what the oracle prints for them, as pairs NAME.index and NAME.printed for definition_check.py.

usage: oracle_files.py TYPETOOL OUT [--records N] [--programs N] [--damaged N] [--at N] [--first-seed S] [--random-only]

TYPETOOL is the oracle's program (rust/target/debug/typetool). A file's NAME is its kind and its number: `TYPETOOL gen KIND NUMBER` writes
it, `TYPETOOL oracle` answers it. Each kind is tried at the numbers S, S+1, .. until enough files are small enough to compute. Beside them
stands, unless --random-only is given, a file of the kind `bytes` for every byte.
The same arguments always give the same files. The lines that are printed say how many files, questions and refusals of each kind there are.
"""
import argparse
import collections
import os
import subprocess
import sys


def output_of(command, given=b''):
    """The bytes that a command writes; a failure of the command ends all."""
    return subprocess.run(command, input=given, stdout=subprocess.PIPE, check=True).stdout


def index_file(options, kind, number):
    """The file of a kind and a number. Of the kind `bytes`: one whose only definition has that byte as its name."""
    if kind == 'bytes':
        return b'index\t1\nM\tm\nS\t-\tmodule\nD\t0\t%c\t0\t1\t0\t1\tloop\nQ\tdef\t0\t0\n' % number
    return output_of([options.typetool, 'gen', kind, str(number)])


def printed_for(options, index):
    """The oracle's lines, or None if it gives up a question."""
    printed = output_of([options.typetool, 'oracle', '--budget', str(options.budget)], index)
    return None if b'budget' in printed else printed


def byte_files(options):
    for number in range(256):
        index = index_file(options, 'bytes', number)
        yield number, index, printed_for(options, index)


def random_files(options, kind, count):
    """The first files of a kind that are small enough, a few larger ones among them."""
    number, larger = options.first_seed, 0
    while count > 0:
        index = index_file(options, kind, number)
        is_larger = len(index) > options.bytes
        if len(index) <= options.larger_bytes and not (is_larger and larger == options.larger):
            printed = printed_for(options, index)
            if printed is not None:
                yield number, index, printed
                count, larger = count - 1, larger + is_larger
        number += 1


def files_of(options, kind):
    if kind == 'bytes':
        return [] if options.random_only else byte_files(options)
    return random_files(options, kind, getattr(options, kind))


def refusals_of(printed):
    """The numbers of the refusals in printed lines: of the whole file, or of single questions."""
    lines = [line.split(b'\t') for line in printed.split(b'\n')]
    return [int(line[line.index(b'refused') + 1]) for line in lines if b'refused' in line]


def answers_of(printed):
    """How many lines answer a question."""
    return sum(not line.startswith(b'refused') for line in printed.split(b'\n')[:-1])


def write_kind(options, kind):
    """Writes the pairs of one kind and says what they hold."""
    count = size = answers = 0
    refusals = collections.Counter()
    for number, index, printed in files_of(options, kind):
        for end, content in (('index', index), ('printed', printed)):
            with open(os.path.join(options.out, '%s-%d.%s' % (kind, number, end)), 'wb') as f:
                f.write(content)
        count, size, answers = count + 1, size + len(index), answers + answers_of(printed)
        refusals.update(refusals_of(printed))
    numbers = ', '.join('%d: %d' % item for item in sorted(refusals.items()))
    print('%s: %d files, %d bytes, %d questions answered, refusals by number {%s}' % (kind, count, size, answers, numbers))


def options_of():
    parser = argparse.ArgumentParser(description=__doc__, formatter_class=argparse.RawDescriptionHelpFormatter)
    parser.add_argument('typetool')
    parser.add_argument('out')
    parser.add_argument('--random-only', action='store_true', help='no files of the kind bytes')
    parser.add_argument('--records', type=int, default=80)
    parser.add_argument('--programs', type=int, default=40)
    parser.add_argument('--damaged', type=int, default=340)
    parser.add_argument('--at', type=int, default=60)
    parser.add_argument('--first-seed', type=int, default=1)
    parser.add_argument('--bytes', type=int, default=6144, help='a file of at most so many bytes is small')
    parser.add_argument('--larger', type=int, default=3, help='larger files that are taken of each random kind')
    parser.add_argument('--larger-bytes', type=int, default=16384, help='their size at most')
    parser.add_argument('--budget', type=int, default=20000, help='demands that a question may take')
    return parser.parse_args()


def main():
    options = options_of()
    os.makedirs(options.out, exist_ok=True)
    if os.listdir(options.out):
        sys.exit('the folder %s is not empty' % options.out)
    for kind in ('bytes', 'records', 'programs', 'damaged', 'at'):
        write_kind(options, kind)


if __name__ == '__main__':
    main()
