#!/usr/bin/env python3
"""Code that takes one kind of quantity for another does not build: feeds each snippet of tests/must_not_build.txt to the
toolchain, which must refuse it with one error that says what is written there; those that must build are proved together.
The libraries that the snippets know are proved first, where rt lib has not been run in crates/position.
"""
import os
import re
import subprocess
import sys
import tempfile

import rooms

SNIPPETS = 'tests/must_not_build.txt'
CRATE = 'snippets'
AT_ONCE = 2


def source(path):
    with open(path, encoding='utf-8') as f:
        return f.read()


def prepare(room):
    """A copy of the kinds and positions, and of what they stand on, with one more crate, which knows them."""
    rooms.fill(room, rooms.below('position') | {'position'}, '.', rooms.LIBRARY)
    with open(os.path.join(room, 'crates.txt'), 'a', encoding='utf-8') as f:
        f.write(f'{CRATE}: kinds position\n')
    os.makedirs(os.path.join(room, 'crates', CRATE, 'src'))


def built(room, names, snippets, *words):
    """Whether a library of these snippets is proved, and the errors that the toolchain names in it; with `--only ''` whether it is
    sound before any proof."""
    lines = [f'use kinds::{name};' for name in names if any(name in s for s in snippets)]
    lines += [s.replace('fn f(', f'pub fn f{n}(', 1) for n, s in enumerate(snippets)]
    folder = os.path.join(room, 'crates', CRATE)
    with open(os.path.join(folder, 'src', 'lib.rt'), 'w', encoding='utf-8') as f:
        f.write('\n'.join(['#![tactic(auto)]', *lines]) + '\n')
    run = subprocess.run(['rt', 'check', *words], cwd=folder, capture_output=True, text=True)
    return run.returncode == 0, re.findall(r'lib\.rt:[0-9]+:[0-9]+: (error\[.*)', run.stdout + run.stderr)


def tried(room, snippet):
    """What is wrong with a snippet that must not build."""
    expected, code = snippet
    if not os.path.exists(os.path.join(room, 'crates.txt')):
        prepare(room)
    proved, errors = built(room, names, [code], '--only', '')
    is_right = not proved and len(errors) == 1 and expected in errors[0]
    return [] if is_right else [f'{code}: {"built" if proved else errors}, and it must be refused with {expected}']


declared = source('crates/kinds/src/lib.rt')
kinds = re.findall(r'^pub struct (\w+)\(', declared, re.M)
names = re.findall(r'^pub (?:struct|enum) (\w+)', declared, re.M)
snippets = re.findall(r'^([a-z -]+): (fn .*)$', source(SNIPPETS), re.M)
bad = [s for s in snippets if s[0] != 'builds']
good = [code for verdict, code in snippets if verdict == 'builds']

wrong = []
for a in kinds:
    for b in kinds:
        if a != b and ('mismatched-types', f'fn f(x: {a}) -> {b} {{ x }}') not in bad:
            wrong.append(f'{SNIPPETS}: no snippet takes a {a} for a {b}')
wrong += [line for found in rooms.each(tried, bad, AT_ONCE) for line in found]
with tempfile.TemporaryDirectory() as room:
    prepare(room)
    if built(room, names, good) != (True, []):
        wrong.append('those that must build do not')
print('\n'.join(wrong) or f'must not build: {len(bad)} snippets refused, {len(good)} built, over {len(kinds)} kinds')
sys.exit(1 if wrong or not bad else 0)
