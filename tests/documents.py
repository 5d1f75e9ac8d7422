#!/usr/bin/env python3
"""README.md and docs/ say what is so: python3 tests/documents.py

Links, and files that stand in backticks, are there. The tables of datums, areas, fits and refusals, and the orders of
refusals, are those of document 000, of tests/pages.py and of the header; the worked point of README.md is worked again, and the
toolchain that it names is that of toolchain.txt. What README.md, docs/RULES.md and docs/PROVED.md name is where they say, and a heading of document 01 that a source cites is one of
docs/RULES.md. Crates, tests of the gate and decisions are all listed, each once.
"""
import glob
import os
import re
import sys

import document_000
import examples
import header
import ledger
import lines
import pages
import rooms
from program import content

MOST = 130                     # lines of README.md
DOCUMENTS = ['README.md', *sorted(glob.glob('docs/*.md'))]
# a file, where it stands in backticks, and the folders in which it may be; NAME, CRATE and the like stand for another word, some
# files are the reader's own or made by rt, and a page on how things came about names what is gone
NAMED = re.compile(r'(?<![\w/.-])((?:[\w.-]+/)*[\w-]+\.(?:antt|rt|py|md|c|h|txt|svg|edit)|'
                   r'(?:crates|docs|examples|include|tests|\.ci)/[\w./-]+\w)')
FOLDERS = ['', 'crates/', 'tests/', 'tests/*/', 'crates/*/', 'crates/*/*/', 'crates/*/*/*/']
STANDS_FOR = re.compile(r'\b(?:NAME|CRATE|PROGRAM|FUNCTION|TYPE|N)\b')
OWN = {'answers.txt', 'big.txt', 'crates/lines/out/lines'}
OF_THE_PAST = {'docs/PORT.md'}


def rows(text, head):
    """The rows of the table whose head starts so, each as its cells."""
    table = re.search(rf'^{re.escape(head)} .*\n\|[-|]+\|\n((?:\|.*\n)+)', text, re.M)[1]
    return [[cell.strip() for cell in row.strip('|').split(' | ')] for row in table.strip().split('\n')]


def is_there(target):
    return target in OWN or STANDS_FOR.search(target) or any(glob.glob(folder + target) for folder in FOLDERS)


def links():
    """Files that are named and are not there."""
    wrong = []
    for path in DOCUMENTS:
        text, folder = content(path), os.path.dirname(path)
        for target in re.findall(r'\]\(([^)]+)\)', text):
            wrong += [] if os.path.exists(os.path.join(folder, target)) else [f'{path}: a link to {target}, which is not there']
        spans = re.findall('`([^`\n]+)`', text) if path not in OF_THE_PAST else []
        named = {target for span in spans for target in NAMED.findall(span)}
        wrong += [f'{path}: names {target}, which is not there' for target in sorted(named) if not is_there(target)]
    return wrong


def matched(form, cell):
    """The parts of a cell of this form; none of another."""
    found = re.fullmatch(form, cell)
    return found.groups() if found else ()


def ends(latitude, longitude):
    """The ends of an area in ms, of two cells such as 4° to 14° N."""
    end = r"(\d+)°(?:(\d\d)')?"
    found = [matched(f'{end} to {end}(?: {letter})?', cell) for letter, cell in (('N', latitude), ('E', longitude))]
    return tuple(pages.ms(int(parts[k]), int(parts[k + 1] or 0)) for parts in found for k in range(0, len(parts), 2))


def front(cells):
    """What a row of README.md's table of datums says, and what the papers do."""
    code, name, where, gives, latitude, longitude, fit = cells
    code = int(code)
    titles = ' '.join(filter(None, document_000.datum(code)))
    is_named = pages.NAMES[code].startswith(name) and where.split()[0] in titles
    figures = re.findall(r'\d\.\d', ''.join(matched(r'±((?:\d\.\d(?:, )?)+) m(?:; .*)?', fit)))
    told = is_named, gives, ends(latitude, longitude), figures
    return code, told, (True, header.gives(code), pages.AREAS[code], header.claimed(code))


def ruled(cells):
    """The same of docs/RULES.md."""
    code, name, centre, factor, latitude, longitude, counts = cells
    code = int(code)
    frame = tuple(map(int, matched(r'(\d+)° N (\d+)° E', centre))), ''.join(matched(r'(\d)\.(\d{8})', factor))
    told = name, frame, ends(latitude, longitude), counts
    *centre, factor = document_000.frame(code)
    counts = ', '.join(str(len(terms)) for *_, terms in document_000.equations(code))
    return code, told, (pages.NAMES[code], (tuple(centre), f'{factor:09d}'), pages.AREAS[code], counts)


def printed(cells):
    """The same of docs/LINES.md."""
    code, name, gives = cells
    code = int(code)
    return code, (name, gives), (pages.NAMES[code], header.gives(code))


def datums():
    """The tables of datums, each row and each code; and the names in the help of ./lines."""
    wrong = []
    for path, row in (('README.md', front), ('docs/RULES.md', ruled), ('docs/LINES.md', printed)):
        found = list(map(row, rows(content(path), '| code |')))
        wrong += [] if [code for code, *_ in found] == list(pages.AREAS) else [f'{path}: has other codes']
        wrong += [f'{path}: code {code} is {told}, and the papers have {must}' for code, told, must in found if told != must]
    *first, last = (f'{code} {name}' for code, name in pages.NAMES.items())
    is_helped = f'The codes are {", ".join(first)} and {last}.' in ' '.join(content('lines').split())
    return wrong + ([] if is_helped else ['lines: its help names other codes'])


def refusals():
    """The tables of refusals in README.md and docs/RULES.md, and the header's numbers, words and names."""
    text = content('include/buckettin.h')
    names = header.enumerated(text, 'buckettin_refusals')
    must = [(str(n), names[n], header.words(text)[0][n]) for n in sorted(names) if n]
    told = [tuple(row) for row in rows(content('README.md'), '| | refused because')]
    named = [(n, name.upper(), words) for n, name, words in rows(content('docs/RULES.md'), '| number |')]
    wrong = [] if told == [(n, words) for n, _, words in must] else ['README.md: the refusals are not the header\'s']
    return wrong + ([] if named == must else ['docs/RULES.md: the refusals are not the header\'s'])


def calls(cell):
    """The calls of a cell such as `buckettin_read_latitude`, `_longitude`, without their first word."""
    first, *others = re.findall(r'`(?:buckettin)?_(\w+)`', cell)
    start = first.rpartition('_')[0]
    return [first] + [f'{start}_{name}' if start else name for name in others]


def orders_for_c():
    """The calls of docs/C.md, and the order of refusals of each."""
    told = {name: order for cell, _, order in rows(content('docs/C.md'), '| call |') for name in calls(cell)}
    must = {re.search(r'buckettin_(\w+)\(', line)[1]: 'nothing' for line in header.declared(content('include/buckettin.h'))}
    must.update(header.ORDERS, sheet='1, 9 and 8 in the order of its bytes, 7')
    return [f'docs/C.md: {name} is told as refused with {told.get(name)}' for name in {*told, *must} if told.get(name) != must.get(name)]


# the rows of docs/RULES.md, and a call that has that order; that of a sheet is told in words
ORDERED = {'a point, of one family': 'shift', 'a point, of either family': 'refusal', 'a text that is read': 'read_latitude',
           'a text that is written': 'write_latitude', 'a line': 'line'}


def orders():
    """The orders of refusals in docs/RULES.md."""
    told = {call: ', '.join(re.findall(r'\d', order.split('`')[0])) for call, order in rows(content('docs/RULES.md'), '| call |')}
    return [f'docs/RULES.md: the order of {call}' for call, name in ORDERED.items() if told[call] != header.ORDERS[name]]


def seconds(text, letter):
    """An angle such as 34°59'56.15712" N in 0.00001"."""
    degrees, minutes, whole, rest = matched(rf"(\d+)°(\d\d)'(\d\d)\.(\d{{5}})\" {letter}", text) or (0, 0, 0, 0)
    return pages.ms(int(degrees), int(minutes), int(whole)) * 100 + int(rest)


def worked_point():
    """README.md's point, from its text to WGS 84."""
    local, answer, wgs84 = rows(content('README.md'), '| | latitude |')
    texts = [cell.strip('`').encode() for cell in local[1:3]]
    place = [int(pages.read(form, text)[1:-1]) for form, text in zip((pages.LATITUDE, pages.LONGITUDE), texts)]
    shift = list(map(int, pages.worked(1, *place).split()))
    heights = [int(re.fullmatch(r'([+-]?\d+\.\d{3}) m', row[3])[1].replace('.', '')) for row in (local, answer, wgs84)]
    told = [re.search('`(.*)`', answer[0])[1].split(), [f'{n / 100000:.5f}"' for n in shift[:2]], heights[1]]
    must = [list(map(str, shift)), answer[1:3], shift[2]]
    found = [seconds(cell, letter) for cell, letter in zip(wgs84[1:3], 'NE')]
    is_right = told == must and found == [100 * ms + n for ms, n in zip(place, shift)] and heights[2] == heights[0] + shift[2]
    return [] if is_right else ['README.md: the worked point is not so']


def demands():
    """The theorems of README.md's table, each with its crates."""
    wrong = []
    for _, cell in rows(content('README.md'), '| demand |'):
        named = re.findall(r'((?:`[\w-]+`(?:, )?)+) \(((?:`\w+`(?:, )?)+)\)', cell)
        for names, crates in named:
            there = set.intersection(*map(proved, re.findall(r'`(\w+)`', crates)))
            wrong += [f'README.md: no theorem `{name}` in {crates}' for name in re.findall(r'`([\w-]+)`', names) if name not in there]
        told = {word for names, crates in named for word in re.findall(r'`([\w-]+)`', names + crates)}
        wrong += [f'README.md: `{word}` has no crate beside it' for word in set(re.findall(r'`([^`]+)`', cell)) - told]
    return wrong


def proved(crate):
    return ledger.declared(f'crates/{crate}/proofs/*.antt', ledger.NAME)


def rules():
    """What docs/RULES.md names, outside its tables and examples: a definition, with its place."""
    wrong, text = [], content('docs/RULES.md')
    for names, place in re.findall(ledger.PLACED, ' '.join(text.split())):
        wrong += [f'docs/RULES.md: no `{name}` in {place}' for name in re.findall('`([^`]+)`', names) if name not in ledger.at(place)]
    prose = ' '.join(line for line in text.split('\n') if not line.startswith(('|', '    ')))
    left = re.findall(r'`([a-z_◌][\w◌]*)`', re.sub(ledger.PLACED, '', ' '.join(prose.split())))
    return wrong + [f'docs/RULES.md: `{name}` has no place' for name in left if name not in ledger.CRATES + ['refused']]


def theorems():
    """What docs/PROVED.md names under the heading of a crate, and what it leaves out."""
    wrong = []
    sections = re.findall(r'^## `(\w+)`.*\n((?:(?!## ).*\n)*)', content('docs/PROVED.md'), re.M)
    for crate, text in sections:
        brackets = re.findall(r'\(((?:`[^`]+`(?:, )?)+)\)', ' '.join(text.split()))
        told = {name for names in brackets for name in re.findall(r'`([^`]+)`', names)}
        wrong += [f'docs/PROVED.md: `{crate}` has no theorem `{name}`' for name in sorted(told - proved(crate))]
        wrong += [f'docs/PROVED.md: leaves out `{name}` of `{crate}`' for name in sorted(ledger.theorems(crate) - told)]
    told = {crate for crate, _ in sections}
    return wrong + [f'docs/PROVED.md: leaves out {crate}' for crate in ledger.CRATES if ledger.theorems(crate) and crate not in told]


def headings():
    """Headings of document 01 that are cited, and those of docs/LEDGER.md: all are in docs/RULES.md."""
    listed, books = (re.findall('^## (.*)$', content(f'docs/{name}.md'), re.M) for name in ('RULES', 'LEDGER'))
    wrong = [] if listed == books else ['docs/LEDGER.md: its headings are not those of docs/RULES.md']
    for path in glob.glob('crates/**/*.antt', recursive=True) + glob.glob('crates/**/*.rt', recursive=True):
        for cited in re.findall(r'Document 01,? ([^:.\n]*)', content(path)):
            names = re.findall("'([^']+)'", cited)
            wrong += [f'{path}: cites {name!r}, which docs/RULES.md has not' for name in names if name not in listed]
    return wrong


def lists():
    """README.md lists each crate, docs/CHANGING.md each test of the gate with its words, and docs/DECISIONS.md each number once."""
    crates = list(rooms.known())
    table = re.search(r'^\| crate \|.*\n((?:\|.*\n)+)', content('README.md'), re.M)[1]
    told = [name for row in table.split('\n') for name in re.findall(r'`(\w+)`', row.split(' | ')[0])]
    wrong = [] if sorted(told) == sorted(crates) else [f'README.md: lists other crates: {sorted(set(told) ^ set(crates))}']
    run = {name + word for name, word in re.findall(r'tests/(\w+\.py)( --[\w-]+)?', content('.ci/run'))}
    gate = content('docs/CHANGING.md').split('## What the gate runs')[1].split('Not in the gate:')[0]
    told = set()
    for line in gate.split('\n'):
        names, words = re.findall(r'`(?:tests/)?(\w+\.py)', line), re.findall(r'`[^`]*?( ?--[\w-]+)`', line)
        alone = names if ', and `' in line or not words else []
        told |= set(alone) | {f'{name} {word.strip()}' for name in names for word in words}
    wrong += [] if told == run else [f'docs/CHANGING.md: the gate runs other tests: {sorted(told ^ run)}']
    numbers = [int(n) for n in re.findall(r'^(\d+)\. \*\*', content('docs/DECISIONS.md'), re.M)]
    wrong += [] if numbers == list(range(1, len(numbers) + 1)) else ['docs/DECISIONS.md: the numbers do not run']
    cited = {int(n) for path in DOCUMENTS for n in re.findall(r'\bdecision (\d+)', content(path))}
    return wrong + [f'decision {n} is cited, and is not there' for n in sorted(cited - set(numbers))]


def shown():
    """Examples: of docs/C.md that of examples/map.c, and elsewhere the lines of points.txt with what is printed for them."""
    words, out = examples.promised('map')
    block = f'    ./map {words}\n\nprints\n\n' + ''.join(f'    {line}\n' for line in out.splitlines())
    wrong = [] if block in content('docs/C.md') else ['docs/C.md: its example is not that of examples/map.c']
    given = content('points.txt')
    answers = lines.printed(given.encode()).decode().splitlines()
    beside = ''.join(f'    {line}        {answer}\n' for line, answer in zip(given.splitlines(), answers, strict=True))
    paths = ('README.md', 'docs/RULES.md', 'docs/LINES.md')
    return wrong + [f'{path}: its example is not points.txt, answered' for path in paths if beside not in content(path)]


def toolchain():
    name = content('toolchain.txt').strip()
    return [] if f'`{name}`' in content('README.md') else [f'README.md does not name the toolchain {name}']


def short():
    count = content('README.md').count('\n')
    return [] if count <= MOST else [f'README.md has {count} lines, and {MOST} at most']


def main():
    checks = [links, datums, refusals, orders_for_c, orders, worked_point, demands, rules, theorems, headings, lists, shown, toolchain, short]
    wrong = [line for check in checks for line in check()]
    print('\n'.join(wrong) or f'documents: {len(DOCUMENTS)} pages, and what they say is so')
    sys.exit(1 if wrong else 0)


if __name__ == '__main__':
    main()
