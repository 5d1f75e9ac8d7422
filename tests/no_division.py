#!/usr/bin/env python3
"""The compiled code divides whole numbers by constants and holds no instruction that divides them: reads the machine code of the
working rule in the program crates/test_pages/out/test_pages, which rt ci leaves there, and of every function in
target/staticlib/libbuckettin.a, which C calls.

That a division by a literal becomes a multiplication is the compiler's doing, and nothing proves it: so it is looked at.
Floats are divided, once for each value, as document 01 has it.
"""
import os
import re
import subprocess
import sys

import program

PAGES = 'crates/test_pages/out/test_pages'
# The functions into which the compiler puts whole::rounded and scaled, all with literal divisors, with equation::sum and what is
# asked of each datum's tables.
HOT = ['tables::Datum::shift', 'tables::Datum::geoid']


def functions(path):
    """The machine code of each function, by its name."""
    words = ['x86_64-linux-gnu-objdump', '-d', '--no-show-raw-insn', path]
    listing = subprocess.run(words, capture_output=True, text=True, check=True).stdout
    return {m[1]: m[2] for m in re.finditer(r'^[0-9a-f]+ <(.+)>:\n((?:.+\n)*)', listing, re.M)}


def called():
    """What the header declares."""
    with open('include/buckettin.h', encoding='utf-8') as f:
        return re.findall(r'^\w+ +(buckettin_\w+)\(', f.read(), re.M)


def missing(names, found, path):
    return [f'{name} is not in {path}: name the function that stands for it now' for name in names if name not in found]


def divisions(name, body):
    return [f'{name}: {line.strip()}' for line in body.split('\n') if re.search(r'\ti?div[bwlq]?\s', line)]


def idle(name, body):
    return [] if re.search(r'\ti?mul', body) else [f'{name} multiplies nothing, so it does not divide: name the function that does']


def main():
    if not os.path.exists(PAGES):
        raise SystemExit(f'{PAGES} is not there: rt ci makes it')
    pages, archive = functions(PAGES), functions(program.archive())
    wrong = missing(HOT, pages, PAGES) + missing(called(), archive, program.ARCHIVE)
    for name in HOT:
        if name in pages:
            wrong += idle(name, pages[name]) + divisions(name, pages[name])
    for name, body in archive.items():
        wrong += divisions(name, body)
    print('\n'.join(wrong) or f'no division: none in {", ".join(HOT)}, nor in the {len(archive)} functions of {program.ARCHIVE}')
    sys.exit(1 if wrong else 0)


if __name__ == '__main__':
    main()
