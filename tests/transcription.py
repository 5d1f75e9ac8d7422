#!/usr/bin/env python3
"""The transcription docs/document-000.txt beside the scanned text of document 000, which is not in this repository.

    python3 tests/transcription.py PAPER   PAPER is the path of the scanned text, with its equations in LaTeX

Reads the scanned text by a parser of its own and makes of it the lines that the transcription ought to have: table number,
datum, place and ellipsoid; each equation, line by line; U, V, K; comparison points, RMS, test case. Then it holds the terms
that tests/document_000.py reads to those that are read here. Prints a line for each table, and ends with 1 at any
difference."""
import re
import sys
from itertools import zip_longest

import document_000

HEADS = {'Δφ"': 5, 'Δλ"': 5, 'ΔH m': 3, 'N m': 3}      # what an equation gives, and the decimal places of its unit
MARKS = [                                                # of the scanned text, and what the page has
    ('MGS 84', 'WGS 84'),                                # a slip of the scan
    (r'\phi', 'φ'), ('ϕ', 'φ'), (r'\lambda', 'λ'), (r'\Delta', 'Δ'), ('Δ ', 'Δ'), (r'\pm', '±'), ("''", '"'),
    ('^{\\circ}', '°'), ('^\\circ', '°'), ('H_m', 'H m'), ('N_m', 'N m'), (r'\text', ''), (r'\quad', ' '), ('&', ' '),
]


def sections(text):
    """The page of each table, with plain marks."""
    for mark, plain in MARKS:
        text = text.replace(mark, plain)
    parts = re.split(r'^Table (\d\d\.\d\d)$', text, flags=re.M)
    return dict(zip(parts[1::2], parts[2::2]))


def printed(section):
    """What each equation gives, and its lines."""
    block = re.search(r'\$\$(.*?)\$\$', section, re.S)[1]
    block = re.sub(r'\\begin\{aligned\}|\\end\{aligned\}', ' ', block)
    found = {}
    for line in block.split(r'\\'):
        line = ' '.join(line.split())
        head = next((head for head in HEADS if line.startswith(f'{head} = ')), None)
        if head:
            found[head] = []
        [*found.values()][-1].append(line[len(f'{head} = '):] if head else line)
    return found


def power(text):
    """0 of no letter, 1 of U, n of U^n."""
    return 0 if not text else int(text[2:]) if '^' in text else 1


def terms(lines, places):
    """The terms of an equation: text, whole coefficient, power of U, power of V."""
    body, found, at = ' '.join(lines), [], 0
    for m in re.finditer(r'([+-]?) ?(\d+)\.(\d+) ?(U(?:\^\d)?)?(V(?:\^\d)?)? ?', body):
        if m.start() != at or len(m[3]) > places or (found and not m[1]):
            raise SystemExit(f'the paper: cannot read {body[at:]}')
        at = m.end()
        size = int(m[2] + m[3].ljust(places, '0'))
        found.append((m[0].strip(), -size if m[1] == '-' else size, power(m[4]), power(m[5])))
    if at != len(body):
        raise SystemExit(f'the paper: cannot read {body[at:]}')
    return found


def titled(section):
    """The lines of the title and the footnote."""
    name, shift = re.search(r'^- (.+?)\*?( to WGS 84)? -$', section, re.M).groups()
    found = {'Datum': name, 'Gives': 'shift to WGS 84' if shift else 'geoid height'}
    ellipsoids = set(re.findall(r'(\w+(?: \d+)?) Ellipsoid', section))
    footnote = re.search(r'^\* (.+?)(?:(?:; | \()\w+(?: \d+)? Ellipsoid\)?)?(?:\. .*)?$', section, re.M)
    if footnote:
        found['Place'] = footnote[1]
    if ellipsoids:
        found['Ellipsoid'] = ' and '.join(sorted(ellipsoids))
    return found


def measured(section):
    """The lines of the comparison and of the test case; the marks of LaTeX are gone."""
    text = re.sub('[ \t]+', ' ', re.sub('[${}]', '', section))
    points = re.search(r'at (\d+(?:, \d+, and \d+)?) comparison points|(\d+) sites involved in the comparison', text)
    found = {'Points': (points[1] or points[2]).replace('and ', '')}
    rms = re.findall(r'(φ|λ|H) ?(?:\(geodetic height\))? ?: ± (\d\.\d) m', text)
    rms = rms or [('N', size) for size in re.findall(r'± (\d\.\d) meter', text)]
    found['RMS'] = '; '.join(f'{name} ± {size} m' for name, size in rms)
    test = text[text.index('Test Case:'):]
    places = re.findall(r'''([φλ]) =\s*(\d+°) *(\d\d') *(\d\d\.\d{3}") *([NE])''', test)
    found['Test'] = '; '.join(f'{name} = {d}{m}{s}{letter}' for name, d, m, s, letter in places)
    answers = re.findall(r'(Δφ|Δλ|ΔH|N) =\s*(-?\d+\.\d+)("| m)', test)
    found['Answers'] = '; '.join(f'{name} = {size}{unit}' for name, size, unit in answers)
    return found


def centred(section):
    """U, V and K, each in a row of its own or in a block."""
    return dict(re.findall(r'([UVK]) += (K \([φλ] - \d+\)|\d+\.\d+)', section))


def beside(paper, ours):
    """What the paper and the transcription have otherwise, line by line."""
    for key in sorted({*paper, *ours}):
        rows = [page.get(key, []) for page in (paper, ours)]
        rows = [row if isinstance(row, list) else [row] for row in rows]
        for number, (theirs, here) in enumerate(zip_longest(*rows), 1):
            if theirs != here:
                yield f'{key}, line {number}: the paper has {theirs}\n    and the transcription {here}'


def differing(code, equations):
    """The terms that tests/document_000.py reads otherwise than this script."""
    for name, places, ours in document_000.equations(code):
        head = next(head for head, named in document_000.HEADS.items() if named == (name, places))
        for number, (theirs, here) in enumerate(zip_longest(terms(equations[head], HEADS[head]), ours), 1):
            if theirs != here:
                yield f'{head}, term {number}: the paper has {theirs}\n    and the transcription {here}'


def compared(code, section):
    """A line on a code's table, and what is wrong with it."""
    equations = printed(section)
    wrong = list(beside({**titled(section), **equations, **centred(section), **measured(section)}, document_000.page(code)))
    wrong += differing(code, equations)
    counts = [len(terms(lines, HEADS[head])) for head, lines in equations.items()], map(len, equations.values())
    held, broken = (', '.join(map(str, numbers)) for numbers in counts)
    title = f'Table {document_000.TABLES[code]}, {document_000.datum(code)[0]}'
    return f'{title}: terms {held}, lines {broken}, centre, K, points, RMS, test case', wrong


def missing(section):
    """A line on the table that is not built: its page has no centre, no K, no comparison and no test case."""
    table, datum, _ = document_000.not_built()
    ours = {key: said for key, said in document_000.pages()[table].items() if key != 'Not built'}
    wrong = list(beside(titled(section), ours))
    if centred(section) or re.search('comparison points|Test Case', section):
        wrong.append('the paper has what the transcription says is missing')
    return f'Table {table}, {datum}: the paper has equations alone', wrong


def headed(text, paper):
    """What is wrong with the transcription's head and with its list of tables."""
    with open(document_000.PATH, encoding='utf-8') as f:
        head = f.read().split('\nTable ')[0]
    for fact in ('DMA TR 8350.2-B', '1 December 1987', '1 March 1989'):
        if fact not in text or fact not in head:
            yield f'{fact} is not in the paper, or not in the head of the transcription'
    if list(paper) != list(document_000.pages()):
        yield f'the paper has the tables {", ".join(paper)}, and the transcription {", ".join(document_000.pages())}'


def main():
    if len(sys.argv) != 2:
        print('usage: python3 tests/transcription.py PAPER, the path of the scanned text of document 000')
        sys.exit(2)
    with open(sys.argv[1], encoding='utf-8') as f:
        text = f.read()
    paper = sections(text)
    wrong = list(headed(text, paper))
    codes = {table: code for code, table in document_000.TABLES.items()}
    for table, section in paper.items():
        line, found = compared(codes[table], section) if table in codes else missing(section)
        print(line + (': DIFFERENT' if found else ': agree'), *found, sep='\n  ')
        wrong += found
    print('\n'.join(headed(text, paper)) or f'transcription: {len(paper)} tables {"do not all agree" if wrong else "agree"}')
    sys.exit(1 if wrong else 0)


if __name__ == '__main__':
    main()
