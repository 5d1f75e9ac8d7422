#!/usr/bin/env python3
"""What the program `test_sheets` is asked, and what it must print, worked out from document 01 with Python's own reading of
bytes. A point's answer is that of tests/pages.py.

    python3 tests/sheets.py --write   makes crates/test_sheets/stdin and crates/test_sheets/stdout
    python3 tests/sheets.py --check   holds these files, to which the gate holds the program, to what is worked out
"""
import struct
from io import BytesIO

import program
from pages import AREAS, LARGEST, LEAST, PRINTED, asked, centre, ms

# The unit sheet, for unit 7 but where another is named.
SERIAL = 0x01020304
UNITS = [SERIAL + n for n in (0, 1, 2 ** 8, 2 ** 16, 2 ** 24)] + [0x04030201, SERIAL + 2 ** 32, 0, -1, -SERIAL, LARGEST, LEAST]
TESTS = [p[:3] for p in PRINTED if p[0] in (1, 4, 5)]
FARTHEST = (5, ms(90), ms(360) - 1)


def sheet(serial, codes=(), places=(), datums=None, count=None):
    """A sheet, with other counts than its own where they are given."""
    datums = len(codes) if datums is None else datums
    count = len(places) if count is None else count
    points = [struct.pack('>BII', code, latitude % 2 ** 32, longitude) for code, latitude, longitude in places]
    return serial.to_bytes(4, 'big') + bytes([datums, *codes]) + count.to_bytes(2, 'big') + b''.join(points)


class Refusal(Exception):
    """Its argument is the number."""


def must(right, number):
    if not right:
        raise Refusal(number)


def result(unit, given):
    """What a unit makes of a sheet, which is read from its start."""
    rest = BytesIO(given)

    def part(size):
        found = rest.read(size)
        must(len(found) == size, 1)
        return found

    serial = part(4)
    must(any(serial), 9)
    must(int.from_bytes(serial, 'big') == unit, 8)
    datums = part(1)[0]
    must(datums <= 6, 9)
    codes = part(datums)
    must(list(codes) == sorted(set(codes) & set(AREAS)), 9)
    count = part(2)
    points = int.from_bytes(count, 'big')
    must(points <= 500, 9)
    body = rest.read()
    must(len(body) == 9 * points, 1)
    places = list(struct.iter_unpack('>BiI', body))
    must(all(code in codes for code, _, _ in places), 9)
    return serial + count + b''.join(record(asked(None, *place).split()) for place in places)


def record(answer):
    """0 and three numbers, or the refusal and twelve zero bytes."""
    if answer[0] == 'refused':
        return bytes([int(answer[1])]) + bytes(12)
    return b'\0' + b''.join(int(n).to_bytes(4, 'big', signed=True) for n in (answer + ['0', '0'])[:3])


def lent(unit, given, out, room):
    """The answer, and a buffer afterwards, of which the first bytes are lent."""
    try:
        found = result(unit, given)
        must(len(found) <= room, 7)
    except Refusal as why:
        return f'refused {why}', out
    return f'wrote {len(found)}', found + out[len(found):]


def into(name, unit, given, size, room=None):
    room = size if room is None else room
    answer, out = lent(unit, given, b'#' * size, room)
    question = b'o' + program.number(unit) + program.text(given) + program.count(size) + program.count(room)
    return f'{name}:', question, f' {answer} {out.hex()}'


def several(name, sheets):
    """Into one buffer: the digit of each sheet's refusal, or of its first point's, or 0; and the buffer after the last."""
    digits, out = '', b'#' * 47
    for given in sheets:
        answer, out = lent(7, given, out, len(out))
        verb, n = answer.split()
        digits += str(out[6]) if verb == 'wrote' else n
    return f'{name}: ', b's' + b''.join(b'+' + program.text(given) for given in sheets) + b'.', f'{digits} {out.hex()}'


def cuts(name, given):
    """The first bytes, none to all, and one byte after them."""
    return several(name, [(given + b'\0')[:n] for n in range(len(given) + 2)])


def changed(given, place):
    """Every byte at one place."""
    return several(f'byte {place}', [given[:place] + bytes([b]) + given[place + 1:] for b in range(256)])


def refusals():
    zero, own = sheet(0), sheet(7)
    return [
        ('serial cut', 7, zero[:3]), ('serial zero, unit 0', 0, zero), ('serial zero, unit 7', 7, zero),
        ('serial zero, datum count cut', 7, zero[:4]),
        ('foreign, datum count cut', 8, own[:4]), ('foreign, datum count over', 8, sheet(7, datums=7)[:5]),
        ('datum count cut', 7, own[:4]), ('datum count over, codes cut', 7, sheet(7, datums=7)[:5]),
        ('datum count over', 7, sheet(7, range(7))), ('six datums', 7, sheet(7, range(1, 7))),
        ('codes cut and falling', 7, sheet(7, [5, 4], datums=3)[:7]),
        ('codes falling, point count cut', 7, sheet(7, [5, 4])[:7]),
        ('codes falling', 7, sheet(7, [5, 4])), ('codes equal', 7, sheet(7, [4, 4])),
        ('code 0', 7, sheet(7, [0])), ('code 7', 7, sheet(7, [7])),
        ('point count cut and over', 7, sheet(7, count=255 * 256)[:6]), ('point count over, length', 7, sheet(7, count=501)),
        ('length', 7, sheet(7, count=500)), ('length, unlisted', 7, sheet(7, count=1) + b'\1'),
        ('a byte after', 7, own + b'\0'),
    ]


def three(**others):
    """The sheet of three test points, but for what differs."""
    return sheet(**{'serial': 7, 'codes': [1, 4, 5], 'places': TESTS, **others})


def unlisted(place, code):
    """It, with another code of one point."""
    return three(places=[(code if k == place else listed, *rest) for k, (listed, *rest) in enumerate(TESTS)])


def of_three():
    """Into the first bytes of 47, and cut."""
    lent_to = [('three points', three(), 47)] + [(f'three points, room {room}', three(), room) for room in (45, 44, 0)] + [
        ('unlisted first', unlisted(0, 2), 47), ('unlisted in the middle', unlisted(1, 6), 47),
        ('unlisted last', unlisted(2, 0), 47), ('unlisted last, room 44', unlisted(2, 255), 44),
    ]
    cut_up = [
        ('cut', three()), ('serial zero, cut', three(serial=0)), ('foreign, cut', three(serial=7 + 2 ** 24)),
        ('datum count over, cut', three(datums=7)),
        ('codes equal, cut', three(codes=[1, 1, 5])), ('codes falling, cut', three(codes=[1, 4, 2])),
        ('code 0, cut', three(codes=[0, 4, 5])), ('code 7, cut', three(codes=[1, 4, 7])),
        ('point count over, cut', three(count=2 * 256 + 3)), ('unlisted, cut', unlisted(0, 2)),
    ]
    return [into(name, 7, given, 47, room) for name, given, room in lent_to] + [cuts(*c) for c in cut_up]


def mixed():
    """The centres, and between them points of datum 4 that are refused."""
    _, north, east = centre(4)
    return [
        centre(1), (4, ms(90) + 1, east),
        centre(2), (4, ms(-90) - 1, east),
        centre(3), (4, ms(-90), east), (4, -1, east), (4, -2 ** 31, east),
        centre(4), (4, north, ms(360)),
        centre(5), (4, north, 2 ** 32 - 1), (4, north, 2 ** 31), (4, AREAS[4][0] - 1, east),
        centre(6),
    ]


def with_byte(n, weight, byte):
    """n, with another byte of this weight."""
    return n + (byte - n // weight % 256) * weight


def moved(place, i):
    """The same near by, another for each i."""
    code, latitude, longitude = place
    return code, with_byte(latitude, 2 ** 8, i % 256), with_byte(longitude, 2 ** 8, 255 - i % 256)


def of_many():
    """Fifteen points, and as many as there may be."""
    places = mixed()
    cases = [into('fifteen points', 7, sheet(7, range(1, 7), places), 203)]
    for points, size in ((0, 21), (1, 21), (499, 6508), (500, 6508), (501, 21)):
        given = sheet(7, range(1, 7), [moved(places[i % len(places)], i) for i in range(points)])
        cases.append(into(f'points {points}', 7, given, size))
    return cases


def cases():
    found = [('sheet', b'', ''), into('serial 1', 1, sheet(1), 8), into('largest serial', 2 ** 32 - 1, sheet(2 ** 32 - 1), 8)]
    found += [into('largest serial, unit -1', -1, sheet(2 ** 32 - 1), 8)]
    found += [into(f'unit {n}', n, sheet(SERIAL), 8) for n in UNITS]
    found += [into(name, unit, given, 8) for name, unit, given in refusals()]
    found += [into(f'no points, room {room}', 7, sheet(7), 47, room) for room in (6, 5, 0)] + of_three()
    found += [changed(sheet(7, [2, 5], [FARTHEST]), place) for place in range(18)] + of_many()
    return found


if __name__ == '__main__':
    found = cases()
    program.ended(program.held(program.of_cases('test_sheets', found)), f'sheets: {len(found)} lines agree')
