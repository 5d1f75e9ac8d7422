#!/usr/bin/env python3
"""docs/LEDGER.md names what is there: each definition, function, theorem and slip that it cites exists, and what stands before a
place in brackets, a file or a folder of antt or a crate of slips, exists there; each theorem of a Demands.antt and each slip is so
cited, in its column, with its own crate; and no cell is empty."""
import functools
import glob
import os
import re
import sys

import slips
from program import content

LEDGER = 'docs/LEDGER.md'
COLUMNS = ['promise', 'definition', 'function', 'theorem', 'slips', 'run']
# names, each with a word on it or none, and where they are
PLACED = r'((?:`[^`]+`(?:: [^`,;()]*)?(?:, )?)+) \(([\w/]+)\)'
NAME = r'^ *(?:(?:unfoldable|abbrev|pub|record|data) )*(\S+) (?:[({][^(){}]*[)}] )*:'
CRATES = os.listdir('crates')
SLIPS = {(slip.crate, slip.name) for found in slips.every().values() for slip in found}


def declared(pattern, expression):
    return {name for path in glob.glob(pattern, recursive=True) for name in re.findall(expression, content(path), re.M)}


@functools.cache
def at(place):
    """What is declared where a cell says, in a file or a folder of antt; the slips of a crate."""
    if place in CRATES:
        return {name for crate, name in SLIPS if crate == place}
    return declared(f'crates/{place}.antt', NAME) | declared(f'crates/{place}/**/*.antt', NAME)


def theorems(crate):
    """Those of a crate that answer the papers: each stands by itself, or in a module with what it is about; what stands in a
    record is a part of one."""
    path = f'crates/{crate}/proofs/Demands.antt'
    blocks = re.split(r'\n(?=\S)', content(path)) if os.path.exists(path) else []
    return {name for block in blocks
            for name in re.findall(r'^ +pub (\S+) :' if block.startswith('module') else r'^pub (?!record)(\S+) :', block, re.M)}


THERE = {
    'definition': declared('crates/*/specs/**/*.antt', NAME),
    'function': declared('crates/*/src/**/*.rt', r'\bfn (\w+)'),
    'theorem': declared('crates/*/proofs/*.antt', NAME),
    'slips': {name for _, name in SLIPS},
}


def cited(column, cell):
    """What a cell cites with its place, and what is wrong with it."""
    found, wrong = set(), []
    wrong += [f'there is no {column} `{name}`' for name in re.findall(r'`([^`]+)`', cell) if name not in THERE[column]]
    wrong += [f'nothing is looked up at ({place})' for place in re.findall(r'\(([^()]*/[^()]*)\)', cell) if not at(place)]
    for names, place in re.findall(PLACED, cell):
        listed = re.findall('`([^`]+)`', names)
        found |= {(column, place.split('/')[0], name) for name in listed}
        wrong += [f'no `{name}` in {place}' for name in listed if name not in at(place)]
    return found, wrong


def looked_at():
    """How many rows there are, what they cite, and what is wrong."""
    rows, found, wrong = 0, set(), []
    for number, line in enumerate(content(LEDGER).split('\n'), 1):
        cells = [c.strip() for c in line.strip('|').split('|')]
        if not line.startswith('|') or cells[0] in ('promise', '---'):
            continue
        rows += 1
        here = [] if len(cells) == len(COLUMNS) else [f'{len(cells)} cells, and a row has {len(COLUMNS)}']
        here += [] if all(cells) else ['an empty cell']
        for column, cell in zip(COLUMNS, cells):
            names, amiss = cited(column, cell) if column in THERE else (set(), [])
            found |= names
            here += amiss
        wrong += [f'{LEDGER}:{number}: {words}' for words in here]
    return rows, found, wrong


def main():
    rows, found, wrong = looked_at()
    to_cite = {('slips', crate, name) for crate, name in SLIPS}
    to_cite |= {('theorem', crate, name) for crate in CRATES for name in theorems(crate)}
    wrong += [f'{LEDGER}: does not cite {crate}\'s {kind} `{name}`' for kind, crate, name in sorted(to_cite - found)]
    print('\n'.join(wrong) or f'ledger: {rows} rows, all that they cite is there, and no cell is empty')
    sys.exit(1 if wrong else 0)


if __name__ == '__main__':
    main()
