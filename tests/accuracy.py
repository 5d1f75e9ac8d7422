#!/usr/bin/env python3
"""How far the printed equations lie from the plain three-parameter shift that other programs use, for docs/ACCURACY.md.

    python3 tests/accuracy.py                prints the tables of that page
    python3 tests/accuracy.py --write        writes them into the page, and the pictures in docs/accuracy/
    python3 tests/accuracy.py --check        holds the page and the pictures to what is worked out now
    python3 tests/accuracy.py --check-page   holds what can be held without PROJ: the claims of document 000, the proved
                                             bounds, and that the pictures and the text say what the tables say

All but the last need PROJ's cs2cs, cct and projinfo (Debian: proj-bin). The three parameters come from PROJ's own database,
by EPSG's code of the operation. The equations are worked by tests/errors.py, in whole numbers, to the last unit. The gate
does not run this.
"""
import json
import os
import re
import subprocess
import sys
import xml.etree.ElementTree
from functools import cache
from math import ceil, cos, hypot, radians, sin
from statistics import median
from typing import NamedTuple

import document_000
import errors
import pages
import picture
import program
from pages import AREAS, DEGREE, NAMES, ms
from program import content

PAGE = 'docs/ACCURACY.md'
SIDE = 201                     # grid points along each side of an area, both ends among them
STEPS = [1, 5, 20, 100]        # metres
LABELS = ['under 1 m', '1 to 5 m', '5 to 20 m', '20 to 100 m', '100 m and more']
# EPSG's code of the three-parameter shift, the picture, and how far its degree lines are apart in ms
SHIFTS = {
    1: (1136, 'docs/accuracy/cyprus.svg', ms(0, 30)), 2: (1168, 'docs/accuracy/minna.svg', ms(2)),
    3: (1176, 'docs/accuracy/alaska.svg', ms(5)), 4: (1561, 'docs/accuracy/qatar.svg', ms(0, 30)),
}
# Towns to the minute, and two corners.
TOWNS = {
    1: [('Nicosia', ms(35, 10), ms(33, 22)), ('Limassol', ms(34, 41), ms(33, 2))],
    2: [('Lagos', ms(6, 27), ms(3, 24)), ('Port Harcourt', ms(4, 47), ms(7, 1)), ('Abuja', ms(9, 4), ms(7, 29)),
        ('Kano', ms(12), ms(8, 31)), ('Maiduguri', ms(11, 50), ms(13, 9)), ('Calabar', ms(4, 57), ms(8, 19)),
        ('Ilorin', ms(8, 30), ms(4, 33))],
    3: [('Anchorage', ms(61, 13), ms(210, 6)), ('Fairbanks', ms(64, 50), ms(212, 17)), ('St George', ms(56, 36), ms(190, 27))],
    4: [('Doha', ms(25, 17), ms(51, 32))],
}
CORNERS = {2: [('south-west corner', ms(4), ms(2, 30)), ('south-east corner', ms(4), ms(14, 45))]}
AXIS, FLATTENING = 6_378_137, 1 / 298.257223563            # WGS 84
DEMANDED = {'0.00002"', '1 mm'}   # by demand 3
ALIKE = 2e-9                   # degrees: less than a millimetre, between two ways of calling PROJ


class Shift(NamedTuple):
    """Of one point: dLat and dLon in seconds, dH in metres."""
    latitude: float
    longitude: float
    height: float


class Compared(NamedTuple):
    """A point in ms, what the equations and the three parameters give, and how far apart these are in metres."""
    place: tuple
    equations: Shift
    parameters: Shift
    apart: float
    height: float


def run(words, given=''):
    return subprocess.run(words, input=given, capture_output=True, text=True, check=True).stdout


@cache
def operation(code):
    """EPSG's operation by PROJ's database: its description, the words of PROJ's pipeline, and of these the ellipsoid's."""
    name = f'EPSG:{SHIFTS[code][0]}'
    told = json.loads(run(['projinfo', name, '-k', 'operation', '-o', 'PROJJSON', '-q']))
    pipeline = run(['projinfo', name, '-k', 'operation', '-o', 'PROJ', '-q', '--single-line']).split()
    found = re.search(r'\+proj=cart (.+) \+step (\+proj=helmert .+) \+step \+inv \+proj=cart ', ' '.join(pipeline))
    shift = '+proj=helmert +x={} +y={} +z={}'.format(*parameters(told))
    if not found or found[2] != shift or 'grid' in ' '.join(pipeline):
        raise SystemExit(f'{name} is not {shift} alone: {" ".join(pipeline)}')
    return told, pipeline, found[1].split()


def command(code):
    """The words of cs2cs that shift longitude, latitude and height by the three parameters."""
    told, _, ellipsoid = operation(code)
    shift = '+towgs84=' + ','.join(map(str, parameters(told)))
    return ['cs2cs', '--3d', '-f', '%.10f', '+proj=longlat', *ellipsoid, shift, '+to', '+proj=longlat', '+datum=WGS84']


def parameters(told):
    """dX, dY and dZ in metres, of an operation that has these alone."""
    names = [p['name'] for p in told['parameters']]
    if names != [f'{axis}-axis translation' for axis in 'XYZ'] or {p['unit'] for p in told['parameters']} != {'metre'}:
        raise SystemExit(f'not three parameters in metres: {names}')
    return [p['value'] for p in told['parameters']]


def turned(difference):
    """A difference of longitudes in degrees, without whole turns."""
    return (difference + 180) % 360 - 180


def by_parameters(code, places):
    """The three-parameter shift of each place, from height 0 on the local ellipsoid, by cs2cs; the angles also by cct, with
    the operation's own pipeline, and the two are held to each other."""
    degrees = [(latitude / DEGREE, longitude / DEGREE) for latitude, longitude in places]
    found = run(command(code), ''.join(f'{x:.12f} {y:.12f} 0\n' for y, x in degrees)).splitlines()
    pipeline = ['cct', '-d', '10', *operation(code)[1]]
    again = run(pipeline, ''.join(f'{y:.12f} {x:.12f} 0 0\n' for y, x in degrees)).splitlines()
    for (y, x), line, other in zip(degrees, found, again, strict=True):
        (east, north, height), (also_north, also_east) = map(float, line.split()), map(float, other.split()[:2])
        if abs(north - also_north) > ALIKE or abs(turned(east - also_east)) > ALIKE:
            raise SystemExit(f'cs2cs gives {line} at {y} {x}, and cct {other}')
        yield Shift(3600 * (north - y), 3600 * turned(east - x), height)


def by_equations(code, places):
    """The shift that the software gives."""
    frame, equations = document_000.frame(code), document_000.equations(code)
    for place in places:
        dlat, dlon, dh = errors.worked(equations, *errors.tops(frame, place))
        yield Shift(dlat / pages.ANGLE, dlon / pages.ANGLE, dh / pages.HEIGHT)


def radii(latitude):
    """Metres along the ground of a radian of latitude and of one of longitude, on WGS 84, at a latitude in radians."""
    square = FLATTENING * (2 - FLATTENING)
    part = 1 - square * sin(latitude) ** 2
    return AXIS * (1 - square) / part ** 1.5, AXIS / part ** 0.5 * cos(latitude)


def ground(latitude, dlat, dlon):
    """Metres along the ground, of differences in seconds at a latitude in degrees."""
    along, across = radii(radians(latitude))
    return hypot(along * radians(dlat / 3600), across * radians(dlon / 3600))


def compared(code, places):
    rows = []
    for place, ours, theirs in zip(places, by_equations(code, places), by_parameters(code, places), strict=True):
        middle = (place[0] / 1000 + (ours.latitude + theirs.latitude) / 2) / 3600
        apart = ground(middle, ours.latitude - theirs.latitude, ours.longitude - theirs.longitude)
        rows.append(Compared(place, ours, theirs, apart, abs(ours.height - theirs.height)))
    return rows


def grid(code):
    """The points of the grid in ms, row by row from the south."""
    south, north, west, east = AREAS[code]
    latitudes, longitudes = ([least + (most - least) * k // (SIDE - 1) for k in range(SIDE)]
                             for least, most in ((south, north), (west, east)))
    return [(latitude, longitude) for latitude in latitudes for longitude in longitudes]


def step(distance):
    return sum(distance >= limit for limit in STEPS)


def shares(found):
    """Of the grid's points, those in each step."""
    counts = [0] * len(LABELS)
    for row in found:
        counts[step(row.apart)] += 1
    return [f'{100 * n / len(found):.1f} %' if n == 0 or n * 2000 >= len(found) else 'under 0.1 %' for n in counts]


def metres(distance):
    return f'{distance:.1f} m' if distance < 100 else f'{distance:,.0f} m'


def at(place):
    return picture.angle(place[0], 'N') + ' ' + picture.angle(place[1], 'E')


# The tables, each as its head and its rows of cells.
CLAIMS = ['code', 'datum', 'RMS in m', 'points', 'proved bound', 'on the ground']
APART = ['code', 'three parameters', 'EPSG says', 'median', 'greatest', 'at', 'height: median', 'greatest', 'at']
SHARES = ['code', *LABELS]
SPOTS = ['code', 'place', 'at', 'equations', 'three parameters', 'apart', 'height']
STATED = ['code', 'EPSG', 'name', 'version', 'dX, dY, dZ in m', 'stations', 'accuracy', 'meant for']


def claims():
    """What document 000 claims, and the proved bounds: no PROJ is needed."""
    rows = []
    for code, bounds in errors.proved().items():
        rms = ', '.join(metres for _, metres in document_000.differences(code))
        points = ', '.join(map(str, document_000.compared(code)))
        *angles, height = bounds
        proved = ', '.join([f'{h / 1000 / pages.ANGLE:.8f}"' for h in angles] + [f'{height / 1000:.3f} mm'])
        rows.append([str(code), NAMES[code], rms, points, proved, most(code, angles)])
    return rows


def most(code, angles):
    """The proved bounds of both angles together along the ground, the next larger hundredth of a millimetre. A radian of
    latitude is longest at the north edge, and one of longitude at the south edge."""
    if not angles:
        return '-'
    south, north = (radians(x / DEGREE) for x in AREAS[code][:2])
    seconds = [h / 1000 / pages.ANGLE for h in angles]
    metres = hypot(radii(north)[0] * radians(seconds[0] / 3600), radii(south)[1] * radians(seconds[1] / 3600))
    return f'{ceil(metres * 100_000) / 100:.2f} mm'


def farthest(found):
    """The points that are farthest apart along the ground and in height."""
    return max(found, key=lambda row: row.apart), max(found, key=lambda row: row.height)


def apart(code, found):
    far, high = farthest(found)
    middle, height = median(row.apart for row in found), median(row.height for row in found)
    return [str(code), f'EPSG:{SHIFTS[code][0]}', accuracy(code), metres(middle), metres(far.apart), at(far.place),
            metres(height), metres(high.height), at(high.place)]


def marked(code):
    """The printed test point, towns and corners."""
    return [('printed test point', *pages.PRINTED[code - 1][1:3])] + TOWNS[code] + CORNERS.get(code, [])


def spots(code):
    """Both shifts of each."""
    places, rows = marked(code), []
    for (name, *_), row in zip(places, compared(code, [place for _, *place in places])):
        shifts = [f'{s.latitude:+.3f}", {s.longitude:+.3f}"' for s in (row.equations, row.parameters)]
        rows.append([str(code), name, at(row.place), *shifts, metres(row.apart), metres(row.height)])
    return rows


def accuracy(code):
    """How accurate EPSG holds the three parameters to be, by PROJ's database."""
    return f'{float(operation(code)[0]["accuracy"]):g} m'


def stated(code):
    """What EPSG says of the three parameters themselves, by PROJ's database."""
    told = operation(code)[0]
    number = str(SHIFTS[code][0])
    text = run(['projinfo', f'EPSG:{number}', '-k', 'operation', '-o', 'WKT2:2019', '-q'])
    version = re.search(r'VERSION\["([^"]+)"\]', text)[1]
    stations = re.search(r'Derived at (\d+) stations', told['remarks'])[1]
    shift = ', '.join(f'{n:+g}' for n in parameters(told))
    return [str(code), number, told['name'], version, shift, stations, accuracy(code), told['area'].rstrip('.')]


def tables(found):
    none = [[str(code), 'none', *'-' * (len(APART) - 2)] for code in AREAS if code not in SHIFTS]
    return [
        (CLAIMS, claims()),
        (APART, [apart(code, found[code]) for code in SHIFTS] + none),
        (SHARES, [[str(code), *shares(found[code])] for code in SHIFTS]),
        (SPOTS, [row for code in SHIFTS for row in spots(code)]),
        (STATED, [stated(code) for code in SHIFTS]),
    ]


def line(cells):
    return '| ' + ' | '.join(cells) + ' |'


def markdown(table):
    head, rows = table
    return '\n'.join([line(head), '|' + '---|' * len(head), *map(line, rows)]) + '\n'


def drawn(code, found):
    """The picture of a code."""
    far = farthest(found)[0]
    rows = [[step(row.apart) for row in found[k:k + SIDE]] for k in range(0, len(found), SIDE)]
    marks = [(*town, 'town') for town in TOWNS[code]] + [('test point', *pages.PRINTED[code - 1][1:3], 'test')]
    marks.append((metres(far.apart), *far.place, 'far'))
    told = apart(code, found)
    notes = [('median', f'median {told[3]}'), ('greatest', f'greatest {told[4]}')]
    words = f'Code {code}: {NAMES[code]}', f'How far the equations and three parameters ({told[1]}) lie apart: two answers, not an error'
    return picture.drawn(AREAS[code], SHIFTS[code][2], words, rows, LABELS, shares(found), marks, notes)


def rows_of(page, head):
    """The rows of a table of the page, as cells."""
    block = re.search(re.escape(line(head)) + r'\n\|[-|]+\|\n((?:\|.*\n)+)', page)
    if not block:
        raise SystemExit(f'{PAGE} has no table {line(head)}')
    return [row[2:-2].split(' | ') for row in block[1].splitlines()]


def page_with(found):
    """The page, with these tables in the place of its own."""
    page = content(PAGE)
    for head, rows in found:
        old = markdown((head, rows_of(page, head)))
        page = page.replace(old, markdown((head, rows)))
    return page


def told_by(name):
    """What a picture says in figures: the shares, the median and the greatest, by the classes of its texts."""
    texts = [t for t in xml.etree.ElementTree.parse(name).iter('{http://www.w3.org/2000/svg}text') if t.get('class')]
    return [[t.text for t in texts if t.get('class') == kind] for kind in ('share', 'median', 'greatest')]


def pictures_held(page):
    """What is wrong with the pictures, beside the page's tables."""
    distances, steps = ({row[0]: row for row in rows_of(page, head)} for head in (APART, SHARES))
    for code, (_, name, _) in SHIFTS.items():
        if f']({os.path.relpath(name, os.path.dirname(PAGE))})' not in page:
            yield f'{PAGE} does not show {name}'
        _, _, _, middle, far, *_ = distances[str(code)]
        try:
            if told_by(name) != [steps[str(code)][1:], [f'median {middle}'], [f'greatest {far}']]:
                yield f'{name} does not say what the tables of {PAGE} say'
        except (OSError, xml.etree.ElementTree.ParseError) as error:
            yield f'{name}: {error}'
    for name in re.findall(r'\]\(([^)]+\.svg)\)', page):
        if os.path.join(os.path.dirname(PAGE), name) not in [picture for _, picture, _ in SHIFTS.values()]:
            yield f'{PAGE} shows {name}, which is not made here'


def text_held(page):
    """Figures of the text, in metres, seconds or percent, that no table has."""
    figure = r'[+-]?\d[\d,.]*(?: mm?\b| %|")'
    rows = ' '.join(row for row in page.splitlines() if row.startswith('|'))
    known = set(re.findall(figure, rows)) | {f'{rms} m' for row in claims() for rms in row[2].split(', ')} | DEMANDED
    text = ' '.join(row for row in page.splitlines() if not row.startswith(('|', '    ')))
    return [f'{PAGE}: no table has {found}' for found in re.findall(figure, text) if found not in known]


def spots_held(page):
    """Places whose position, or whose shift by the equations, is not as the page has it."""
    rows = rows_of(page, SPOTS)
    for code in SHIFTS:
        for (name, *place), ours in zip(marked(code), by_equations(code, [place for _, *place in marked(code)]), strict=True):
            must = [str(code), name, at(place), f'{ours.latitude:+.3f}", {ours.longitude:+.3f}"']
            if must not in [row[:4] for row in rows]:
                yield f'{PAGE}: no row has {must}'


def page_held():
    page = content(PAGE)
    wrong = [*pictures_held(page), *text_held(page), *spots_held(page)]
    if [row[1] for row in rows_of(page, STATED)] != [str(epsg) for epsg, *_ in SHIFTS.values()]:
        wrong.append(f'{PAGE}: other numbers of EPSG than are compared')
    if f'{SIDE} by {SIDE} points' not in ' '.join(page.split()):
        wrong.append(f'{PAGE} does not say that the grid has {SIDE} by {SIDE} points')
    if rows_of(page, CLAIMS) != claims():
        wrong.append(f'{PAGE}: the table of claims is not what document 000 and the bounds say')
    return wrong


def main():
    if '--check-page' in sys.argv:
        program.ended(page_held(), f'accuracy: {PAGE} agrees with document 000, the proved bounds and its pictures')
    found = {code: compared(code, grid(code)) for code in SHIFTS}
    made = tables(found)
    if '--write' in sys.argv or '--check' in sys.argv:
        files = {PAGE: page_with(made).encode()}
        files |= {name: drawn(code, found[code]).encode() for code, (_, name, _) in SHIFTS.items()}
        wrong = program.held(files) + page_held()
        if ' '.join(command(2)) not in content(PAGE):
            wrong.append(f'{PAGE} does not have the command {" ".join(command(2))}')
        program.ended(wrong, f'accuracy: {PAGE} and {len(SHIFTS)} pictures are what is worked out')
    print('\n'.join(map(markdown, made)), end='')


if __name__ == '__main__':
    main()
