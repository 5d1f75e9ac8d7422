#!/usr/bin/env python3
"""include/buckettin.h beside what it declares: python3 tests/header.py, where tests/archive has been run.

No proof sees the header. Its declarations are compared with the exported functions of crates/buckettin_c/src/lib.rt and the structs
of crates/buckettin/src/lib.rt (names, order, parameters, widths) and with the symbols of the archive; its names of codes and of
refusals with the definitions; its table of datums with tests/pages.py and docs/document-000.txt, and its orders of refusals with
those of documents 01 and 02; a compiler must warn of each answer that is dropped; and a program in C that is built from it,
tests/header.c, asserts the layout of each struct and makes each call that a comment of the header has as an example, as it stands
there. And each exported function hands its parameters on to the one of its name in crate `buckettin`, under the same promise: so
the theorems and the wrong programs of that crate speak of what C calls.
"""
import os
import re
import subprocess
import sys
import tempfile

import document_000
import lines
import pages
import program
import sheets
import waypoints
from program import content

HEADER = 'include/buckettin.h'
CALLS = 'crates/buckettin/src/lib.rt'
EXPORTS = 'crates/buckettin_c/src/lib.rt'
WIDTH = 125
POINTS = 500                   # of a sheet, at most
WIDTHS = {'i64': 'int64_t', 'i32': 'int32_t', 'u32': 'uint32_t', 'f64': 'double'}
BYTES = {'&[u8]': ('const uint8_t *', 'length'), '&mut[u8]': ('uint8_t *', 'room')}
IN_C = {'res': 'result'}       # in the source a promise calls the answer `result`


def in_c(name):
    """What C calls a struct of the source."""
    return f'buckettin_{name.lower()}_t'


def parameters(given):
    """Those of a function of the source, as C has them: a slice is a pointer and a count of bytes."""
    found = []
    for name, kind in re.findall(r'(\w+): ([^,]+)', given):
        name = IN_C.get(name, name)
        if kind in WIDTHS:
            found.append(f'{WIDTHS[kind]} {name}')
        else:
            pointer, count = BYTES[kind.replace(' ', '')]
            found += [pointer + name, f'size_t {count}']
    return ', '.join(found)


def exported(source):
    """The declarations that the source asks for."""
    functions = re.findall(r'#\[unsafe\(no_mangle\)\]\npub extern "C" fn (\w+)\(([^)]*)\) -> (\w+)', source)
    return [f'{WIDTHS.get(answer) or in_c(answer)} {name}({parameters(given)});' for name, given, answer in functions]


def squeezed(source):
    """Without its layout: spaces, and the comma after the last of several lines of parameters."""
    return re.sub(r'\s', '', source).replace(',)', ')')


def functions(source):
    """The public functions of a source by their names: parameters, answer and promise, and the body, without their layout."""
    form = r'^pub (?:extern "C" )?fn (\w+)(\([^)]*\) -> \w+\n(?: .*\n)*)\{\n((?: .*\n)*)\}'
    return {name: (squeezed(head), squeezed(body)) for name, head, body in re.findall(form, source, re.M)}


def imported(source):
    """What the promises of a source know, each name with its module."""
    found = re.findall(r'^ghost use ([\w.]+)\.\{(.*)\};$', source, re.M)
    return {(module, name) for module, names in found for name in names.split(', ')}


def handed_on(exports, calls):
    """What is wrong with the exports, each of which is to do nothing but call the function of its name."""
    here, below, wrong = functions(exports), functions(calls), []
    wrong += [] if len(here) == len(exported(exports)) == exports.count('no_mangle') else [f'{EXPORTS}: an export is not understood']
    wrong += [f'{EXPORTS}: {name} is of {module}, and {CALLS} does not know it' for module, name in sorted(imported(exports) - imported(calls))]
    for name, (head, body) in here.items():
        passed = ','.join(re.findall(r'(\w+):', head[1:head.index(')')]))
        if name not in below or head != below[name][0] or body != f'buckettin::{name}({passed})':
            wrong.append(f'{EXPORTS}: {name} is not that of crate buckettin, with its parameters and its promise')
    return wrong


def structs(source):
    """The fields of each struct that C gets, as the source has them."""
    found = re.findall(r'#\[repr\(C\)\]\n(?:#\[[^\]\n]*\]\n)*pub struct (\w+) \{\n(.*?)\n\}', source, re.S)
    rows = {in_c(name): re.findall(r'pub (\w+): (\w+)', fields) for name, fields in found}
    return {name: [(WIDTHS[kind], field) for field, kind in fields] for name, fields in rows.items()}


def bare(header):
    return re.sub(r'/\*.*?\*/', '', header, flags=re.S)


def declared(header):
    """The declarations, each of which asks that its answer is looked at."""
    found = re.findall(r'^(\w+ +buckettin_\w+\([^()]*\)) BUCKETTIN_MUST_USE;', bare(header), re.M)
    return [re.sub(r'\s+', ' ', line) + ';' for line in found]


def enumerated(header, name):
    """The names of an enum, without their first word, by their numbers."""
    body = re.search(rf'enum {name} \{{\n(.*?)\n\}};', bare(header), re.S)[1]
    rows = [re.fullmatch(r'BUCKETTIN_(\w+) = (\d+),?', row.strip()) for row in body.split('\n') if row.strip()]
    return {int(row[2]): row[1] for row in rows}


def codes():
    """The datums, by their codes, as the definition lists them."""
    names = re.search(r'^pages = (.*) ∷ \[\]$', content('crates/tables/specs/Tables.antt'), re.M)[1]
    return {code: name.upper() for code, name in enumerate(names.split(' ∷ '), 1)}


def refusals():
    """The refusals, by their numbers, as the definition gives them; and 0 for none."""
    found = re.findall(r'^number_of (\w+) = (\d+)$', content('crates/kinds/specs/Answer.antt'), re.M)
    return {0: 'ANSWERED', **{int(number): name.upper() for name, number in found}}


def fits(header):
    """What the table of the header says of each datum: its name, what it has, and the fit of its equations, in metres."""
    rows = re.findall(r"^ +(\d) +(\w.*?) {2,}(shift|geoid height) .*°\d\d' +(\d[\d. ]*)$", header, re.M)
    return {int(code): (name, gives, figures.split()) for code, name, gives, figures in rows}


def typedefs(header):
    found = {}
    for fields, name in re.findall(r'typedef struct \{(.*?)\} *(\w+);', bare(header)):
        rows = [row.split(None, 1) for row in fields.split(';') if row.strip()]
        found[name] = [(kind, field.strip()) for kind, names in rows for field in names.split(',')]
    return found


def areas(header):
    """The ends of each area, in ms, as the table of the header has them."""
    rows = re.findall(r"^ +(\d) +\w.*?((?: +\d+°\d\d'(?: to)?){4}) ", header, re.M)
    return {int(code): tuple(pages.ms(int(d), int(m)) for d, m in re.findall(r"(\d+)°(\d\d)'", ends)) for code, ends in rows}


def symbols():
    """What the archive gives and what it takes, of its symbols."""
    listing = subprocess.run(['x86_64-linux-gnu-nm', program.archive()], capture_output=True, text=True, check=True).stdout
    return ({name for kind, name in re.findall(r' ([TU]) (\S+)$', listing, re.M) if kind == given} for given in 'TU')


def inline(header):
    """The functions that are in the header itself."""
    return set(re.findall(r'^static inline .*\b(buckettin_\w+)\(', header, re.M))


def not_understood(header, names):
    """What the expressions above would pass over: another form of declaration, typedef or row."""
    found = set(re.findall(r'\bbuckettin_\w+(?=\()', bare(header))) - inline(header)
    wrong = [] if found == names else [f'declarations not understood: {sorted(found ^ names)}']
    wrong += [] if bare(header).count('typedef') == len(typedefs(header)) else ['a typedef is not understood']
    rows = len(re.findall(r'^ +\d+ +\w.*°', header, re.M))
    return wrong + ([] if rows == len(areas(header)) else ['a row of the areas is not understood'])


# The orders of documents 01 and 02.
ORDERS = {
    'shift': '4, 5, 3, 6', 'geoid': '4, 5, 3, 6', 'refusal': '4, 3, 6', 'read_latitude': '1, 2, 3', 'read_longitude': '1, 2, 3',
    'write_latitude': '3, 7', 'write_longitude': '3, 7', 'sheet': '1, 9, 8, 1, 9, 1, 9, 1, 9, 1, 9, 7', 'line': '1, 2, 3, 4, 6, 7',
    'waypoint': '4, 5, 3, 6, 7',
}


def order(comment):
    """The order of refusals that a comment tells, in a sentence or as a table's first column."""
    told = re.search(r'in this order: ([\d, ]*\d)', ' '.join(comment.split()))
    table = re.search(r'the first row that holds:\n\n(.*?)\n\n', comment, re.S)
    return told[1] if told else ', '.join(line.split()[0] for line in table[1].split('\n')) if table else None


def orders(header):
    """The order of refusals that the comment before each declaration tells."""
    comments = re.findall(r'/\*((?:(?!\*/).)*)\*/\n\w+ +buckettin_(\w+)\(', header, re.S)
    return {name: order(comment) for comment, name in comments if order(comment)}


def unwarned(header):
    """The calls of which a compiler lets the answer be dropped."""
    calls = {}
    for line in declared(header):
        name, given = re.search(r'(buckettin_\w+)\((.*)\)', line).groups()
        passed = ', '.join(re.findall(r'(\w+)(?:,|$)', given))
        calls[name] = f'void dropped_{name}({given}) {{ {name}({passed}); }}'
    text = '\n'.join(['#include "buckettin.h"', *calls.values(), ''])
    command = ['x86_64-linux-gnu-gcc', '-S', '-o', os.devnull, '-I', 'include', '-xc', '-']
    said = subprocess.run(command, input=text, capture_output=True, text=True, check=True, env={**os.environ, 'LC_ALL': 'C'})
    return sorted(set(calls) - set(re.findall(r"ignoring return value of '(\w+)'", said.stderr)))


def words(header):
    """The words of each refusal, as buckettin_why and the enum have them, and as the source has them beside its cases."""
    body = re.search(r'words\[\] = \{\n(.*?)\n    \};', header, re.S)[1]
    found = re.findall(r'"(.*)"', re.sub(r'"\n +"', '', body))
    beside = re.search(r'enum buckettin_refusals \{\n(.*?)\n\};', header, re.S)[1]
    beside = [' '.join(comment.split()) for comment in re.findall(r'/\* (.*?) \*/', beside, re.S)]
    cases = re.search(r'pub enum Refusal \{\n(.*?)\n\}', content('crates/kinds/src/lib.rt'), re.S)[1]
    cases = re.findall(r'^ +// (.*)\n', cases, re.M)
    return found + beside, ['answered', *cases, *cases]


EXAMPLE = re.compile(
    r'(buckettin_(\w+)\((?:[^()]|\([^()]*\))*\)) is (\{[^}]*\}|-?[0-9.]+[0-9]|[0-9])'
    r'(?:, and (out|result) starts with ("(?:[^"\\]|\\.)*"|\{[^}]*\}))?')


def examples(header):
    """The calls in the header's comments, by the function, as lines of tests/header.c."""
    answers = {re.search(r' (buckettin_(\w+))\(', line)[2]: line.split()[0] for line in declared(header)}
    told = ' '.join(' '.join(re.findall(r'/\*(.*?)\*/', header, re.S)).split())
    found, called = [], set()
    for call, name, answer, buffer, start in EXAMPLE.findall(told):
        called.add(f'buckettin_{name}')
        found.append(f'CALL({answers[name]}, {call}, {answer});' if answer[0] == '{' else f'NUMBER({call}, {answer});')
        if buffer:
            found.append(f'{"TEXT" if start[0] == chr(34) else "BYTES"}({buffer}, {start});')
    if len(EXAMPLE.findall(told)) != len(re.findall(r'\bbuckettin_(?!shifted)\w+\(', told)):
        raise SystemExit('an example is not understood')
    if len(re.findall(r'\band (?:out|result)\b', told)) != sum(line.startswith(('TEXT', 'BYTES')) for line in found):
        raise SystemExit('what a buffer starts with is not understood')
    return found, called


def run(found):
    with tempfile.TemporaryDirectory() as room:
        with open(f'{room}/examples.h', 'w', encoding='ascii') as f:
            f.write('\n'.join(found) + '\n')
        command = program.compiled(['-std=c11', '-Wpedantic', 'tests/header.c', program.archive()], room, ['include'])
        return subprocess.run(command).returncode


def gives(code):
    """What a datum has."""
    return document_000.gives(code).split(' to ')[0]


def claimed(code):
    """The fit that document 000 claims of its equations, in metres."""
    return [metres for _, metres in document_000.differences(code)]


def figures():
    """Phrases of the header that have a figure, as the papers and the tests give it."""
    (least_latitude, largest_latitude), (least, largest) = pages.KINDS[:2]
    north, east = (len(pages.spelled(form, 0)) for form in (pages.LATITUDE, pages.LONGITUDE))
    result = len(sheets.result(1, sheets.sheet(1, [1], [(1, 0, 0)] * POINTS)))
    waypoint = len(waypoints.element(pages.KINDS[2][0], 180 * waypoints.DEGREE))
    ellipsoids = {code: document_000.datum(code)[2] for code in pages.AREAS}
    return [
        f'a degree is {pages.DEGREE:,}.', f'BUCKETTIN_DEGREE_MS = {pages.DEGREE},',
        f'latitude goes from {least_latitude:,} to {largest_latitude:,}, longitude from {least} to {largest:,}.',
        f'the ellipsoid {ellipsoids[5]} (code 5) or {ellipsoids[6]} (code 6)',
        f'BUCKETTIN_LATITUDE_BYTES = {north},', f'BUCKETTIN_LONGITUDE_BYTES = {east},', f'where room is below {north}.',
        f'where room is below {east}.', f'BUCKETTIN_LINE_BYTES = {len(lines.GOOD)},', f'a line of {len(lines.GOOD)} bytes',
        f'BUCKETTIN_WAYPOINT_ROOM = {waypoint},', f'the element alone, at most {waypoint} bytes',
        f'BUCKETTIN_RESULT_ROOM = {result}', f'at most {result:,}', f'count of points, at most {POINTS}',
    ]


def version(header):
    """The version as a number, and its text as that number."""
    number = re.search(r'^#define BUCKETTIN_VERSION (\d+)$', header, re.M)[1]
    parts = re.search(r'^#define BUCKETTIN_VERSION_TEXT "(\d+)\.(\d+)\.(\d+)"$', header, re.M).groups()
    return int(number), sum(int(part) * unit for part, unit in zip(parts, (1_000_000, 1000, 1)))


def compared(header, exports, calls):
    """What is wrong with the declarations, structs, names and tables of the header."""
    wrong = [f'the source asks for {line}' for line in exported(exports) if line not in declared(header)]
    wrong += [f'no export is {line}' for line in declared(header) if line not in exported(exports)]
    wrong += [] if structs(calls) == typedefs(header) else [f'structs differ: {structs(calls)} and {typedefs(header)}']
    for what, told, must in (
            ('areas', areas(header), pages.AREAS), ('codes', enumerated(header, 'buckettin_codes'), codes()),
            ('refusals', enumerated(header, 'buckettin_refusals'), refusals()), ('orders', orders(header), ORDERS),
            ('words', *words(header)), ('versions', *version(header)),
            ('datums', fits(header), {code: (pages.NAMES[code], gives(code), claimed(code)) for code in pages.AREAS})):
        wrong += [] if told == must else [f'{what} differ: {told} and {must}']
    told = ' '.join(header.split())
    wrong += [f'it does not say: {phrase}' for phrase in figures() if not re.search(re.escape(phrase) + r'(?!,?\d)', told)]
    wrong += [f'line {k} has {len(line)} characters' for k, line in enumerate(header.split('\n'), 1) if len(line) > WIDTH]
    return wrong + [f'the answer of {name} may be dropped' for name in unwarned(header)]


def main():
    header, exports, calls = map(content, (HEADER, EXPORTS, CALLS))
    wrong = compared(header, exports, calls) + handed_on(exports, calls)
    names = {re.search(r'buckettin_\w+(?=\()', line)[0] for line in declared(header)}
    given, taken = symbols()
    wrong += [] if given == names else [f'the archive gives {sorted(given ^ names)} or the header does, but not both']
    wrong += [] if taken == {'memcpy'} else [f'the archive takes {sorted(taken)}']
    wrong += not_understood(header, names)
    found, called = examples(header)
    wrong += [f'{name} has no example' for name in sorted(names - called)]
    wrong += ['an example is not so'] if run(found) else []
    print('\n'.join(wrong) or f'the header: {len(names)} functions and {len(structs(calls))} structs as in the source')
    sys.exit(1 if wrong else 0)


if __name__ == '__main__':
    main()
