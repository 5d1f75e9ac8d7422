#!/usr/bin/env python3
"""A GPX file that `./lines --gpx` makes, through programs that read such files: python3 tests/gpx.py, where ./lines has been
run. Needs xmllint and gpsbabel (Debian: libxml2-utils, gpsbabel). python3 tests/gpx.py FILE looks at a file that is there: that
which --write FILE makes, as tests/waypoints.py works it out, with no program of this repository.

The file has 1,000 points of codes 1 to 4, spread over their areas, their corners and centres among them, and lines that are refused
with each number between them. xmllint must find it well formed. gpsbabel must read as many points, in the same order, with the same
latitude and longitude to all nine places. And by hand, of the GPX 1.1 schema: root element, namespace and attributes; no element
but waypoints, with lat and lon alone, as decimals in their ranges.
"""
import os
import random
import subprocess
import sys
import tempfile
import xml.etree.ElementTree as tree
from decimal import Decimal

import lines
import waypoints
from pages import AREAS, centre

POINTS = 1000
SEED = 1989
REFUSED_EACH = 7               # every so many points a line that is refused, each number in turn
NAMESPACE = '{http://www.topografix.com/GPX/1/1}'
# how gpsbabel prints a point
STYLE = '''FIELD_DELIMITER COMMA
RECORD_DELIMITER NEWLINE
OFIELD LAT_DECIMAL,"","%.9f"
OFIELD LON_DECIMAL,"","%.9f"
'''


def spread(code):
    """The corners and the centre of an area, and then other places of it without end."""
    south, north, west, east = AREAS[code]
    yield from ((code, latitude, longitude) for latitude in (south, north) for longitude in (west, east))
    yield centre(code)
    chance = random.Random(SEED + code)
    while True:
        yield code, chance.randint(south, north), chance.randint(west, east)


def given():
    """The lines: a point of each code in turn, and refused ones between them."""
    areas, refused = [spread(code) for code in waypoints.SHIFTED], list(waypoints.REFUSED.values())
    found = []
    for k in range(POINTS):
        found.append(lines.at(*next(areas[k % len(areas)])))
        if k % REFUSED_EACH == 0:
            found.append(refused[k // REFUSED_EACH % len(refused)])
    return b''.join(line + b'\n' for line in found)


def expected():
    """Latitude and longitude of each point, as they must stand in the file."""
    found = map(waypoints.SPLIT.fullmatch, waypoints.printed(given()).decode().splitlines())
    return [parts.groups() for parts in found if parts]


def ran(*words):
    """What a program prints, and what is wrong with how it ends."""
    done = subprocess.run(words, capture_output=True, text=True)
    is_right = (done.returncode, done.stderr) == (0, '')
    return done.stdout, [] if is_right else [f'{words[0]} ended with {done.returncode}: {done.stderr.strip()}']


def read_by_gpsbabel(path):
    """Latitude and longitude of each point that gpsbabel reads, in its order; and what is wrong with how it ends."""
    with tempfile.NamedTemporaryFile('w', suffix='.style') as style:
        style.write(STYLE)
        style.flush()
        out, wrong = ran('gpsbabel', '-w', '-i', 'gpx', '-f', path, '-o', f'xcsv,style={style.name}', '-F', '-')
    return [tuple(row.split(',')) for row in out.splitlines()], wrong


def against_schema(path):
    """What is not as GPX 1.1 has it."""
    try:
        root = tree.parse(path).getroot()
    except tree.ParseError as error:
        return [f'it is no XML: {error}']
    wrong = [] if root.tag == NAMESPACE + 'gpx' else [f'its root is {root.tag}']
    wrong += [] if root.attrib == {'version': '1.1', 'creator': 'Buckettin'} else [f'its root has {root.attrib}']
    for point in root:
        if point.tag != NAMESPACE + 'wpt' or set(point.attrib) != {'lat', 'lon'} or len(point) or (point.text or '').strip():
            wrong.append(f'it has {tree.tostring(point)}')
        elif not -90 <= Decimal(point.get('lat')) <= 90 or not -180 <= Decimal(point.get('lon')) < 180:
            wrong.append(f'out of range: {point.attrib}')
    found = [(point.get('lat'), point.get('lon')) for point in root]
    return wrong + ([] if found == expected() else ['its points are not those that were asked for'])


def compared(path):
    _, wrong = ran('xmllint', '--noout', path)
    (found, failed), must = read_by_gpsbabel(path), expected()
    wrong += failed
    wrong += [] if len(found) == len(must) == POINTS else [f'gpsbabel reads {len(found)} points, and there are {len(must)}']
    differ = [f'gpsbabel reads point {k} as {x}, and it is {y}' for k, (x, y) in enumerate(zip(found, must), 1) if x != y]
    return wrong + differ[:10] + against_schema(path)


def made(path):
    """Makes the file by ./lines; what is wrong with how that ends."""
    with open(path, 'wb') as out:
        done = subprocess.run(['./lines', '--gpx'], input=given(), stdout=out, stderr=subprocess.PIPE)
    with open(path, 'rb') as f:
        is_right = f.read() == waypoints.printed(given())
    wrong = [] if (done.returncode, done.stderr) == (1, b'') else [f'./lines --gpx ended with {done.returncode}: {done.stderr}']
    return wrong + ([] if is_right else ['./lines --gpx prints something else than tests/waypoints.py works out'])


def main():
    if sys.argv[1:2] == ['--write']:
        with open(sys.argv[2], 'wb') as f:
            f.write(waypoints.printed(given()))
        return
    with tempfile.TemporaryDirectory() as room:
        path = sys.argv[1] if len(sys.argv) > 1 else os.path.join(room, 'points.gpx')
        wrong = ([] if len(sys.argv) > 1 else made(path)) + compared(path)
    refused = waypoints.printed(given()).count(b'<!-- ')
    print('\n'.join(wrong) or f'gpx: {POINTS} points and {refused} refused lines; xmllint and gpsbabel read all to nine places')
    sys.exit(1 if wrong else 0)


if __name__ == '__main__':
    main()
