#!/usr/bin/env python3
"""docs/CHECK.md: all 157 terms as document 000 prints them, and beside each what the code holds, for a checker with a ruler.

    python3 tests/check_page.py --write         writes the page
    python3 tests/check_page.py --check         holds it to what this script makes
    python3 tests/check_page.py --pdf OUT.pdf   prints it on US Letter paper, by Debian's weasyprint

What the page says of the code is read from the code's sources. Each use ends with an error where document 000, the
definition and the code disagree, where a table does not stand by rising power of longitude, then of latitude, or under its
own name, or gives another value than its own, where a comment beside the code is not document 000's text, where the family, a
centre, K or the area is another than the papers', where the definition has the pages in another order than that of the codes, or
where a worked test case is too far from the printed one.
"""
import html
import os
import re
import shutil
import subprocess
import sys
import textwrap
from decimal import Decimal

import document_000
import pages
import program

PATH = 'docs/CHECK.md'
# document 01's codes, and the file of each datum
FILES = {1: 'cyprus', 2: 'minna', 3: 'alaska', 4: 'qatar', 5: 'kandawala', 6: 'nahrwan'}
ENDS = ['south', 'north', 'west', 'east']
FRAME = ['family', 'K of U', 'K of V', 'centre of U', 'centre of V', *ENDS]
# of each equation the table in the code and in the definition
TABLES = {'dLat': 'LATITUDE', 'dLon': 'LONGITUDE', 'dH': 'HEIGHT', 'N': 'HEIGHT'}
DEFINED = {'dLat': 'd_lat', 'dLon': 'd_lon', 'dH': 'd_h', 'N': 'n'}
UNITS = {5: ('"', '0.00001"'), 3: (' m', '0.001 m')}     # by decimal places: the page's unit, and the code's
IN_ALL = 157
wrong = []


# The sources.
def source(path):
    with open(f'crates/tables/{path}', encoding='utf-8') as f:
        return f.read()


def page_of(code):
    """The definition's page of a datum."""
    return source(f'specs/{FILES[code].capitalize()}.antt')


def coded(text, name):
    """The terms that the code holds, as many as its table is declared to have, and the comment after each."""
    count, body = re.search(rf'^pub\(crate\) const {TABLES[name]}: \[Term; (\d+)\] = \[\n(.*?)\n\];', text, re.M | re.S).groups()
    found = [re.fullmatch(r'    Term\((-?[\d_]+), (\d), (\d)\), // (.*)', row) for row in body.split('\n')]
    if not all(found) or len(found) != int(count):
        raise SystemExit(f'{TABLES[name]}: a row that is no term, or another count than {count}')
    return [(int(m[1]), int(m[2]), int(m[3])) for m in found], [m[4] for m in found]


def defined(text, name):
    """The terms of the definition, a line each."""
    body = re.search(rf'^{DEFINED[name]} =\n(.*?)\n    ∷ \[\]\n', text, re.M | re.S)[1]
    rows = [re.fullmatch(r'    (?:∷ )?(plus|minus) (\d+) U\^ (\d) V\^ (\d)', row) for row in body.split('\n')]
    if not all(rows):
        raise SystemExit(f'{name}: the definition has a line that is no term')
    return [(int(m[2]) if m[1] == 'plus' else -int(m[2]), int(m[3]), int(m[4])) for m in rows]


def only(form, text, what):
    """What is in the one place of a text that is of a form, from line to line."""
    found = list(re.finditer(rf'^{form}$', text, re.M))
    if len(found) != 1:
        raise SystemExit(f'{what} is not there in its form, or not once')
    return found[0].groups()


def angles(numbers):
    """Degrees and minutes, by pairs."""
    return [(int(d), int(m or 0)) for d, m in zip(numbers[::2], numbers[1::2])]


def coded_frame(code, text):
    """What FRAME names, in the code: every line of the frame is of its form."""
    degrees = r'(\d+) \* LocalLatitude::DEGREE'
    rows = ['    family: Family::(Shift|Geoid),']
    for axis in 'uv':
        rows += [rf'    {axis}: Axis \{{', '        factor: K,', rf'        offset: K \* {degrees},', r'    \},']
    rows += [rf'    {end}: {degrees}(?: \+ (\d+) \* LocalLatitude::MINUTE)?,' for end in ENDS]
    form = '\n'.join([r'const K: i64 = ([\d_]+);', '', r'pub\(crate\) const FRAME: Frame = Frame \{', *rows, r'\};'])
    factor, family, u, v, *ends = only(form, text, f'code {code}: the frame of the code')
    return dict(zip(FRAME, [family.lower(), int(factor), int(factor), (int(u), 0), (int(v), 0), *angles(ends)], strict=True))


def defined_frame(code, text):
    """The same of the definition."""
    rows = [rf'  {axis} = (\d+) from at (\d+) (\d+);' for axis in 'uv'] + [r'  equations = (\w+) .*;']
    rows += [rf'  {end} = at (\d+) (\d+);' for end in ENDS]
    form = '\n'.join([rf'{FILES[code]} = record \{{', *rows, r'\}'])
    found = only(form, text, f'code {code}: the page of the definition')
    (k_of_u, *u), (k_of_v, *v), family, ends = found[:3], found[3:6], found[6], found[7:]
    return dict(zip(FRAME, [family, int(k_of_u), int(k_of_v), *angles(u), *angles(v), *angles(ends)], strict=True))


# What is compared.
def sentence(text, name):
    """The printed equation in the comment above a table."""
    lines = re.search(rf'((?:^// .*\n)+)pub\(crate\) const {TABLES[name]}:', text, re.M)[1].split('\n')
    return re.sub(r' +', ' ', ' '.join(line[len('// '):] for line in lines if line)).split(' = ')[1].strip()


def family_of(code):
    """As the code and the definition call it: that of three equations, or of one."""
    return 'shift' if len(document_000.equations(code)) == 3 else 'geoid'


def bounds(code):
    """The bounds in thousandths that the definition's page has, each beside its own equation."""
    names = [DEFINED[name] for name, *_ in document_000.equations(code)]
    form = f'  equations = {family_of(code)} ' + ' '.join(rf'\({name} near (\d+)\)' for name in names) + ';'
    return [int(bound) for bound in only(form, page_of(code), f'code {code}: the definition\'s line of equations and bounds')]


def placed(code):
    """Each table stands under its own name, in the definition's page and in the code's call."""
    bounds(code)               # ends where the definition has it otherwise
    file = FILES[code]
    tables = ['place'] + [f'&{file}::{TABLES[name]}' for name, *_ in document_000.equations(code)]
    call = rf' +Datum::{file.capitalize()} => {family_of(code)}_at\(([^()]*)\),'
    given, = only(call, source('src/lib.rt'), f'code {code}: the call with its tables')
    if re.findall(r'[^\s,]+', given) != tables:
        wrong.append(f'code {code}: a table stands for another in the code')


def area(code):
    """Document 01's, in degrees and minutes."""
    return [divmod(end // pages.ms(0, 1), 60) for end in pages.AREAS[code]]


def framed(code, text, definition):
    """The family, the centre, K and the area in the definition and in the code; those of the code."""
    latitude, longitude, factor = document_000.frame(code)
    paper = dict(zip(FRAME, [family_of(code), factor, factor, (latitude, 0), (longitude, 0), *area(code)], strict=True))
    held = coded_frame(code, text)
    for where, found in (('code', held), ('definition', defined_frame(code, definition))):
        wrong.extend(f'code {code}: the {where} has another {name}' for name in FRAME if found[name] != paper[name])
    printed = ', '.join(document_000.printed_frame(code))
    if f'// {printed}; the area is document 01\'s.\nconst K: ' not in text or f'Table {document_000.TABLES[code]}' not in text:
        wrong.append(f'code {code}: the comment above the frame is not the page\'s text')
    return held


def compared(code, name, printed, text, definition):
    """An equation in the definition and in the code; the code's terms by their powers."""
    held, comments = coded(text, name)
    page = sorted(((c, i, j) for _, c, i, j in printed), key=lambda term: (term[2], term[1]))
    if held != page or defined(definition, name) != page:
        wrong.append(f'code {code}, {name}: the page, the definition and the code are not the same')
    by_term = {(i, j): term for term, _, i, j in printed}
    if comments != [by_term[i, j] for _, i, j in page]:
        wrong.append(f'code {code}, {name}: a comment after a term is not the page\'s text')
    if sentence(text, name) != ' '.join(term for term, *_ in printed):
        wrong.append(f'code {code}, {name}: the comment above the table is not the page\'s text')
    return {(i, j): (c, i, j) for c, i, j in held}


# The page, in blocks: a kind, and what is in it. Of a table the columns, '>' before those to the right, and the rows.
HEAD = [
    ('title', 'The code beside the printed page'),
    ('text', """For the checker with the ruler. The paper is the change pages of 1 March 1989 to DMA TR 8350.2-B, which we call
        document 000. Below is each of its equations as printed, and beside each term the numbers that the code holds."""),
    ('text', 'Checked by: ............................  on: ....................  version (commit): ....................'),
    ('list', [
        """Hold the lines of the equation to the paper: signs, figures, superscripts. Lines are broken, and spaces set, as in
        a scanned text of the paper; the number of a line stands before a bar.""",
        """Go down the table with the ruler. `line` is the number of the printed line, given at its first term; `no.` counts
        the terms of the equation. The coefficient in the code is the printed figure without its point, with zeros after it
        up to five decimals for Δφ and Δλ, and three for ΔH and N: 0.1718 is 17180. U and V are the powers in the code: 0
        where the letter is not there, 1 where it has no superscript.""",
        """Hold U, V, K, the comparison points, the RMS and the test case to the paper. The areas are not on it: they are of
        the firm's own paper, document 01. Tick them only if you have that.""",
        """If something differs, write it beside the box and leave the box empty. The figure stands in three places, which must
        all change: `docs/document-000.txt`, and the file of the datum in `crates/tables/specs` and in `crates/tables/src`."""]),
    ('text', """The numbers of the code are read from `crates/tables/src`, where each table stands by rising power of V, then
        of U. The gate fails where this list differs from the sources, and where a number differs between
        `docs/document-000.txt`, the definition in `crates/tables/specs` and the code. It cannot see the paper: only you can.
        (`tests/transcription.py` holds `docs/document-000.txt` to a scanned text of it, where that is at hand.)"""),
    ('text', """The worked answers are by document 01's rule, in Python, and the gate holds the compiled program to the same
        numbers. The paper prints three decimals of a second and two of a metre, so a worked angle may be 0.00050" from the
        printed one, and a height 0.005 m."""),
    ('text', """To print: `python3 tests/check_page.py --pdf target/check.pdf` (Debian's `weasyprint` and `fonts-dejavu-core`), on
        US Letter paper, with each datum on pages of its own. To write this page again: `python3 tests/check_page.py --write`."""),
]
RAISED = '⁰¹²³⁴⁵⁶⁷⁸⁹'


def raised(text):
    """U^2 with a superscript."""
    return re.sub(r'\^(\d)', lambda m: RAISED[int(m[1])], text)


def bare(head):
    """What an equation gives, without its unit."""
    return head.strip('" m')


def degrees(angle):
    return f'{angle[0]}°{angle[1]:02d}\''


def frame_table(code, held):
    """U, V, K, the claims and the area, beside what the code holds."""
    ends, in_code = ([degrees(end) for end in found] for found in (area(code), [held[name] for name in ENDS]))
    printed = document_000.printed_frame(code)
    points = ', '.join(map(str, document_000.compared(code)))
    of = ', '.join(name for name, _ in document_000.differences(code))
    rms = ', '.join(f'± {size} m' for _, size in document_000.differences(code))
    return 'table', ['', 'on paper', 'in the code', 'seen'], [
        ['U', printed[0], f'centre\'s latitude {degrees(held["centre of U"])}', '☐'],
        ['V', printed[1], f'centre\'s longitude {degrees(held["centre of V"])}', '☐'],
        ['K', printed[2], f'{held["K of U"]} hundred-millionths', '☐'],
        [f'comparison points{f" of {of}" if "," in points else ""}', points, 'not there', '☐'],
        [f'RMS of {of}', rms, 'not there', '☐'],
        ['area, latitude', f'{ends[0]} to {ends[1]} (document 01)', f'{in_code[0]} to {in_code[1]}', '☐'],
        ['area, longitude', f'{ends[2]} to {ends[3]} (document 01)', f'{in_code[2]} to {in_code[3]}', '☐'],
    ]


def term_table(lines, held, places):
    """The terms in the order of the page, each with what the code holds for its powers."""
    rows = []
    for line, (_, terms) in enumerate(lines, 1):
        for first, (term, _, i, j) in enumerate(terms):
            numbers = held.get((i, j), ('none', '', ''))
            rows.append(['' if first else line, len(rows) + 1, raised(term), *numbers, '☐'])
    return 'table', ['>line', '>no.', 'printed', f'>in the code, {UNITS[places][1]}', '>U', '>V', 'seen'], rows


def equation_blocks(code, head, lines, text, definition):
    """One equation, and how many terms it has."""
    name, places = document_000.HEADS[head]
    printed = [term for _, terms in lines for term in terms]
    held = compared(code, name, printed, text, definition)
    starts = [f'{head} = '] + [' ' * len(f'{head} = ')] * (len(lines) - 1)
    shown = [f'{n} | {start}{raised(line)}' for n, (start, (line, _)) in enumerate(zip(starts, lines), 1)]
    title = f'{bare(head)}{"" if name == "N" else f" ({name})"}: {len(printed)} terms'
    return [('part', title), ('lines', shown), term_table(lines, held, places)], len(printed)


def test_blocks(code):
    """The test case, printed beside worked."""
    latitude, longitude, printed = document_000.test_case(code)
    found, rows = pages.worked(code, latitude, longitude), []
    for (name, places, _), (head, _), (units, answer, near) in zip(
            document_000.equations(code), document_000.lines(code), pages.beside(found, printed)):
        unit = UNITS[places][0]
        value = Decimal(units).scaleb(-places)
        off = value - Decimal(answer)
        signed = f'{off:+}' if off else f'{off}'
        rows.append([bare(head), f'{answer}{unit}', units, f'{value}{unit}', signed + unit, '☐'])
        if not near:
            wrong.append(f'code {code}, {name}: the test case is worked as {value}, and printed as {answer}')
    asked = f'{code} {pages.spelled(pages.LATITUDE, latitude)} {pages.spelled(pages.LONGITUDE, longitude)}'
    return [
        ('last', 'Test case'), ('text', f'☐ {document_000.printed_test(code)}. A line for the line program: `{asked}`'),
        ('table', ['', '>printed', '>worked, in units of the code', '>worked', '>difference', 'seen'], rows),
    ]


def datum_blocks(code):
    """A datum, and how many terms it has."""
    name, place, ellipsoid = document_000.datum(code)
    text, definition = source(f'src/{FILES[code]}.rt'), page_of(code)
    held = framed(code, text, definition)
    placed(code)
    footnote = [f'{place}.'] if place else []
    footnote += [f'{ellipsoid} ellipsoid.'] if ellipsoid else []
    words = footnote + [f'Gives the {document_000.gives(code)}.', f'In the code: `crates/tables/src/{FILES[code]}.rt`.']
    blocks = [
        ('datum', f'Code {code}: {name}, Table {document_000.TABLES[code]}'), ('text', ' '.join(words)),
        frame_table(code, held),
    ]
    total = 0
    for head, lines in document_000.lines(code):
        found, count = equation_blocks(code, head, lines, text, definition)
        blocks += found
        total += count
    return blocks + test_blocks(code), total


def summary():
    """The datums, and how many terms each equation has."""
    rows = []
    for code, table in document_000.TABLES.items():
        counts = [f'{bare(head)} {sum(len(terms) for _, terms in lines)}' for head, lines in document_000.lines(code)]
        rows.append([code, document_000.datum(code)[0], table, ', '.join(counts)])
    return 'table', ['>code', 'datum', 'table', 'terms'], [*rows, ['', 'in all', '', IN_ALL]]


def page_blocks():
    """The whole page."""
    blocks, total = HEAD + [summary()], 0
    for code in FILES:
        found, count = datum_blocks(code)
        blocks += found
        total += count
    if f'\npages = {" ∷ ".join(FILES.values())} ∷ []\n' not in source('specs/Tables.antt'):
        wrong.append('the definition has the pages in another order than that of the codes')
    if total != IN_ALL:
        wrong.append(f'{total} terms, and document 01 has {IN_ALL}')
    table, name, why = document_000.not_built()
    return blocks + [('section', f'Not built: {name}, Table {table}'), ('text', f'{why[0].upper()}{why[1:]}.')]


# The page as text and on paper.
def markdown_table(columns, rows):
    names = [name.strip('>') for name in columns]
    rules = ['---:' if name.startswith('>') else '---' for name in columns]
    return '\n'.join('| ' + ' | '.join(map(str, row)) + ' |' for row in [names, rules, *rows])


def wrapped(text, start='', indent=''):
    """Text in lines of one width; words are not broken."""
    whole = {'break_long_words': False, 'break_on_hyphens': False}
    return textwrap.fill(start + ' '.join(text.split()), 125, subsequent_indent=indent, **whole)


def markdown(blocks):
    marks = {'title': '# ', 'datum': '## ', 'section': '## ', 'part': '### ', 'last': '### '}
    out = []
    for kind, *parts in blocks:
        if kind == 'table':
            out.append(markdown_table(*parts))
        elif kind == 'lines':
            out.append('\n'.join(f'    {line}' for line in parts[0]))
        elif kind == 'list':
            out.append('\n'.join(wrapped(item, f'{n}. ', '   ') for n, item in enumerate(parts[0], 1)))
        else:
            out.append(marks[kind] + parts[0] if kind in marks else wrapped(parts[0]))
    return '\n\n'.join(out) + '\n'


STYLE = """
    @page { size: letter; margin: 0.6in 0.6in 0.6in 0.7in; @top-right { content: string(datum); font: 8pt DejaVu Sans; }
        @bottom-center { content: counter(page) " of " counter(pages); font: 8pt DejaVu Sans; } }
    body { font: 9pt/1.35 DejaVu Sans; }
    h1 { font-size: 15pt; } h2 { font-size: 12.5pt; margin: 0 0 4pt; } h3 { font-size: 10.5pt; margin: 8pt 0 2pt; }
    h2.datum { break-before: page; string-set: datum content(); } h2.section { margin-top: 20pt; }
    div.part, div.last { break-inside: avoid; } div.last { break-before: avoid; }
    p { margin: 4pt 0; } li { margin-bottom: 4pt; }
    pre { font: 7.6pt/1.5 DejaVu Sans Mono; margin: 3pt 0; } code { font: 8pt DejaVu Sans Mono; white-space: nowrap; }
    table { border-collapse: collapse; font: 8.5pt/1.2 DejaVu Sans Mono; } th { font: 8pt DejaVu Sans; text-align: left; }
    th, td { padding: 0.9pt 9pt; border-bottom: 0.3pt solid #aaa; } .right { text-align: right; }
    tr.begins td { border-top: 0.9pt solid black; }
    sup { font-size: 82%; vertical-align: 0.38em; line-height: 0; }
    .box { font: 10pt DejaVu Sans; line-height: 0; vertical-align: -0.1em; }
"""


def inline(text):
    """Text with its marks, and with superscripts that can be read in small print."""
    text = re.sub('`(.+?)`', r'<code>\1</code>', html.escape(str(text), quote=False))
    text = text.replace('☐', '<span class="box">☐</span>')
    return re.sub('[²³⁴⁵⁶⁷⁸⁹]', lambda m: f'<sup>{RAISED.index(m[0])}</sup>', text)


def html_row(tag, sides, cells, kind=''):
    return f'<tr{kind}>' + ''.join(f'<{tag}{side}>{inline(cell)}</{tag}>' for side, cell in zip(sides, cells)) + '</tr>'


def html_table(columns, rows):
    """A row that begins a line of the page has a rule above it."""
    sides = [' class="right"' if name.startswith('>') else '' for name in columns]
    begins = [' class="begins"' if row[0] and columns[0] == '>line' else '' for row in rows]
    body = [html_row('td', sides, row, kind) for row, kind in zip(rows, begins)]
    head = html_row('th', sides, [name.strip('>') for name in columns])
    return f'<table><thead>{head}</thead>' + '\n'.join(body) + '</table>'


TAGS = {'title': 'h1', 'datum': 'h2', 'section': 'h2', 'part': 'h3', 'last': 'h3', 'text': 'p'}


def as_html(blocks):
    """The page for the printer: what stands under one heading stays together, and the last part with the one before it."""
    out = ['<div>']
    for kind, *parts in blocks:
        if TAGS.get(kind) in ('h2', 'h3'):
            out.append(f'</div><div class="{"last" if kind == "last" else "part"}">')
        if kind == 'table':
            out.append(html_table(*parts))
        elif kind == 'lines':
            out.append('<pre>' + '\n'.join(map(inline, parts[0])) + '</pre>')
        elif kind == 'list':
            out.append('<ol>' + ''.join(f'<li>{inline(item)}</li>' for item in parts[0]) + '</ol>')
        else:
            out.append(f'<{TAGS[kind]} class="{kind}">{inline(parts[0])}</{TAGS[kind]}>')
    head = f'<meta charset="utf-8"><title>Buckettin: {HEAD[0][1].lower()}</title><style>{STYLE}</style>'
    return f'<!DOCTYPE html><html lang="en"><head>{head}</head><body>' + '\n'.join(out) + '</div></body></html>'


def printed_page(blocks, path):
    """The PDF."""
    if not shutil.which('weasyprint'):
        print('the PDF needs Debian\'s packages weasyprint and fonts-dejavu-core')
        sys.exit(2)
    os.makedirs(os.path.dirname(path) or '.', exist_ok=True)
    subprocess.run(['weasyprint', '-', path], input=as_html(blocks).encode(), check=True)


def main():
    if '--pdf' in sys.argv and (sys.argv[1] != '--pdf' or len(sys.argv) != 3):
        print('usage: python3 tests/check_page.py --pdf OUT.pdf')
        sys.exit(2)
    blocks = page_blocks()
    problems = program.held({PATH: markdown(blocks).encode()}) + wrong
    if '--pdf' in sys.argv and not problems:
        printed_page(blocks, sys.argv[2])
    program.ended(problems, f'check_page: {IN_ALL} terms agree on the page, in the definition and in the code')


if __name__ == '__main__':
    main()
