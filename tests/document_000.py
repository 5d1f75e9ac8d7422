"""Document 000 as docs/document-000.txt transcribes it: of six datums equations, centre, K, and what else is printed.

A line that is not of the transcription's form ends the program, as does one that is missing or there twice."""
import re
from functools import cache

PATH = 'docs/document-000.txt'
# document 01's codes, and the table of each in document 000
TABLES = {1: '20.16', 2: '20.29', 3: '20.31', 4: '20.41', 5: '23.21', 6: '23.27'}
MISSING = '20.32'              # the table that no code is built from
# what an equation gives, as the page writes it: document 01's name for it, and the decimal places of its unit
HEADS = {'Δφ"': ('dLat', 5), 'Δλ"': ('dLon', 5), 'ΔH m': ('dH', 3), 'N m': ('N', 3)}
# the equations of each family, what its RMS differences are of, and the form of its answers
SECONDS, METRES = r'(-?\d+\.\d{3})"', r'(-?\d+\.\d\d) m'
FAMILIES = {
    'shift to WGS 84': (['Δφ"', 'Δλ"', 'ΔH m'], 'φ λ H', f'Δφ = {SECONDS}; Δλ = {SECONDS}; ΔH = {METRES}'),
    'geoid height': (['N m'], 'N', f'N = {METRES}'),
}
FRAME = {'U': r'K \(φ - (\d+)\)', 'V': r'K \(λ - (\d+)\)', 'K': r'(\d+)\.(\d{8})'}
WORDS = ['Datum', 'Gives', 'Points', 'RMS', 'Test', 'Answers']
AT_MOST = ['Place', 'Ellipsoid']   # of a footnote, where there is one
TERM = re.compile(r'([+-]?) ?(\d+)\.(\d+)(?: (?=[UV])(U(?:\^[2-9])?)?(V(?:\^[2-9])?)?)?(?: |$)')


def refuse(table, what):
    raise SystemExit(f'{PATH}, Table {table}: {what}')


def keyed(table, line):
    """The key of a line and what it says."""
    words = re.fullmatch(r'([A-Z][A-Za-z ]+): (\S.*)', line)
    found = words or re.fullmatch(r'(.+?) = (\S.*)', line)
    known = [*WORDS, *AT_MOST, 'Not built'] if words else [*HEADS, *FRAME]
    if not found or found[1] not in known:
        refuse(table, f'cannot read {line}')
    return found.groups()


@cache
def pages():
    """Of each table its lines by their keys, an equation's being a list."""
    with open(PATH, encoding='utf-8') as f:
        lines = f.read().split('\n')
    tables, page, last = {}, None, None
    for line in lines:
        title = re.fullmatch(r'Table (\d\d\.\d\d)', line)
        if line.startswith('#') or not line:
            last = None
        elif title and title[1] not in tables:
            page, last = {}, None
            tables[title[1]] = page
        elif re.match(r'    \S', line) and last in HEADS:
            page[last].append(line[4:])
        elif page is None:
            refuse('none', f'cannot read {line}')
        else:
            last, said = keyed([*tables][-1], line)
            if last in page:
                refuse([*tables][-1], f'a second {last}')
            page[last] = [said] if last in HEADS else said
    if list(tables) != sorted([*TABLES.values(), MISSING]):
        refuse('all', f'the tables are {", ".join(tables)}')
    return tables


@cache
def page(code):
    """The lines of a code's table, all of them there."""
    table = TABLES[code]
    found = pages()[table]
    if found.get('Gives') not in FAMILIES:
        refuse(table, 'gives neither a shift nor a geoid height')
    wanted = {*WORDS, *FRAME, *FAMILIES[found['Gives']][0]}
    others = wanted ^ {key for key in found if key not in AT_MOST}
    if others:
        refuse(table, f'these lines are missing, or ought not to be there: {", ".join(sorted(others))}')
    return found


def part(code, key, form):
    """What a line says, by its form."""
    found = re.fullmatch(form, page(code)[key])
    return found.groups() if found else refuse(TABLES[code], f'cannot read {key}: {page(code)[key]}')


def power(text):
    """0 of no letter, 1 of U, n of U^n."""
    return 0 if not text else int(text[2:]) if '^' in text else 1


def terms(code, line, places, first):
    """The terms of one printed line; only the first of an equation may go without a sign."""
    found, at = [], 0
    while at < len(line):
        m = TERM.match(line, at)
        if not m or len(m[3]) > places or not (m[1] or first and not found):
            refuse(TABLES[code], f'cannot read {line[at:]}')
        at = m.end()
        size = int(m[2] + m[3].ljust(places, '0'))
        found.append((m[0].strip(), -size if m[1] == '-' else size, power(m[4]), power(m[5])))
    return found


def lines(code):
    """Of each equation what it gives as the page writes it, and its lines as printed, each with its terms."""
    found = []
    for head in FAMILIES[page(code)['Gives']][0]:
        places = HEADS[head][1]
        found.append((head, [(line, terms(code, line, places, n == 0)) for n, line in enumerate(page(code)[head])]))
    return found


@cache
def equations(code):
    """(name, places, terms), a term being its text as printed, its whole coefficient, its power of U and its power of V."""
    return [(*HEADS[head], [term for _, found in printed for term in found]) for head, printed in lines(code)]


@cache
def frame(code):
    """The centre's latitude and longitude in degrees, and K in hundred-millionths."""
    (latitude,), (longitude,) = (part(code, key, FRAME[key]) for key in 'UV')
    return int(latitude), int(longitude), int(''.join(part(code, 'K', FRAME['K'])))


def printed_frame(code):
    """U, V and K as printed."""
    return [f'{key} = {page(code)[key]}' for key in FRAME if part(code, key, FRAME[key])]


def datum(code):
    """The datum's name in the title, and the place and the ellipsoid of the footnote, or none."""
    return page(code)['Datum'], page(code).get('Place'), page(code).get('Ellipsoid')


def gives(code):
    """A shift to WGS 84 or a geoid height."""
    return page(code)['Gives']


def compared(code):
    """How many points were compared: one number, or one for each of φ, λ and H."""
    return [int(n) for n in part(code, 'Points', r'(\d+(?:, \d+, \d+)?)')[0].split(', ')]


def differences(code):
    """The RMS differences: what each is of, and its metres as printed."""
    names = FAMILIES[gives(code)][1].split()
    return list(zip(names, part(code, 'RMS', '; '.join(rf'{name} ± (\d\.\d) m' for name in names))))


def test_case(code):
    """The test point's latitude and longitude in ms, and the answers as printed, in one text."""
    form = r'''(\d+)°(\d\d)'(\d\d)\.(\d{3})"'''
    found = [int(n) for n in part(code, 'Test', f'φ = {form}N; λ = {form}E')]
    latitude, longitude = (((d * 60 + m) * 60 + s) * 1000 + f for d, m, s, f in (found[:4], found[4:]))
    return latitude, longitude, ' '.join(part(code, 'Answers', FAMILIES[gives(code)][2]))


def printed_test(code):
    """The test point as printed."""
    return page(code)['Test']


def not_built():
    """The table that no code is built from, its datum, and why."""
    found = pages()[MISSING]
    if sorted(found) != ['Datum', 'Gives', 'Not built']:
        refuse(MISSING, 'has another line than its datum, what it gives and why it is not built')
    return MISSING, found['Datum'], found['Not built']
