#!/usr/bin/env python3
"""What the program `test_waypoints` is asked, and what it must print, worked out from document 02 with Python's fractions. A
point's shift is that of tests/pages.py, and the reading of a line that of tests/lines.py.

    python3 tests/waypoints.py --write   makes crates/test_waypoints/stdin and crates/test_waypoints/stdout
    python3 tests/waypoints.py --check   holds these files, to which the gate holds the program, to what is worked out; and that to
                                         document 02's example and to the texts in TEXTS
"""
import re
from fractions import Fraction
from functools import cache
from io import BytesIO

import lines
import program
from pages import AREAS, KINDS, LARGEST, LEAST, PRINTED, asked, centre, ms, rounded
from program import count, number

DEGREE = 360_000_000           # in 0.00001"
BILLION = 10 ** 9
SHIFTED = (1, 2, 3, 4)         # the codes that have a shift
MOST = 47                      # bytes of the longest element
ROOM = 50                      # bytes of the buffer that is lent, all of which are shown
PIECE = 150                    # of that for the answers of an input
MOST_LINE = 48                 # bytes of the longest line of a file that tells of a point

# Before and after the elements of a file.
HEAD = ('<?xml version="1.0" encoding="UTF-8"?>\n'
        '<gpx version="1.1" creator="Buckettin" xmlns="http://www.topografix.com/GPX/1/1">\n')
FOOT = '</gpx>\n'

# Document 02's example: the centre of code 1.
EXAMPLE = '<wpt lat="34.998932533" lon="32.999693628"/>'


# A line of each refusal.
REFUSED = {
    1: lines.GOOD + b'0', 2: lines.GOOD.replace(b'E', b'W'), 3: lines.wrong((3, lines.NORTH, b'900000.001N')),
    4: b'7' + lines.GOOD[1:], 5: b'5' + lines.GOOD[1:], 6: b'4' + lines.GOOD[1:],
}


def degrees(units):
    """Billionths of a degree, to the nearest, halves away from zero."""
    return rounded(Fraction(units, DEGREE) * BILLION)


def east_or_west(longitude):
    """From 180 degrees up, 360 less."""
    return longitude - 360 * BILLION if longitude >= 180 * BILLION else longitude


def nine_places(billionths):
    """A number of billionths with nine places."""
    whole, places = divmod(abs(billionths), BILLION)
    return f'{"-" if billionths < 0 else ""}{whole}.{places:09d}'


def element(latitude, longitude):
    """The waypoint of a position on WGS 84, in 0.00001"."""
    return f'<wpt lat="{nine_places(degrees(latitude))}" lon="{nine_places(east_or_west(degrees(longitude)))}"/>'


def waypoint(code, latitude, longitude):
    """The waypoint of a local position, in ms, or its refusal."""
    answer = asked(SHIFTED, code, latitude, longitude)
    if answer.startswith('refused'):
        return answer
    north, east, _ = map(int, answer.split())
    return element(100 * latitude + north, 100 * longitude + east)


@cache
def answered(line):
    """What a file has for a line, without its line feed."""
    found = lines.said(line)
    answer = found if isinstance(found, str) else waypoint(*found)
    return f'<!-- {answer} -->' if answer.startswith('refused') else answer


def printed_lines(given):
    """What a file has for the lines of an input."""
    return ''.join(answered(line.removesuffix(b'\n')) + '\n' for line in BytesIO(given))


def printed(given):
    """The file for an input."""
    return (HEAD + printed_lines(given) + FOOT).encode()


# The rows of the program. Points: document 000's, the corners and the centre of each area, and 1 ms outside; wrong codes and
# families; numbers out of range; and points at which two refusals are due.
def around(code):
    """The four corners of an area, its centre, and 1 ms outside each of its sides."""
    south, north, west, east = AREAS[code]
    middle = centre(code)[1:]
    places = [(south, west), (south, east), (north, west), (north, east), middle]
    places += [(south - 1, west), (north + 1, east), (south, west - 1), (north, east + 1)]
    return [(code, *place) for place in places]


OTHERS = [(code, ms(35), ms(33)) for code in (-1, 0, 5, 6, 7, 257, LEAST, LARGEST)] + [
    (1, ms(90) + 1, ms(33)), (1, ms(-90) - 1, ms(33)), (1, ms(35), ms(360)), (1, ms(35), -1), (3, ms(62), ms(208) - ms(360)),
    (2, LEAST, ms(8)), (2, LARGEST, ms(8)), (2, ms(10), LEAST), (2, ms(10), LARGEST),
    (0, ms(90) + 1, ms(33)), (5, ms(90) + 1, ms(33)), (6, ms(35), ms(33)), (5, ms(7), ms(80)), (4, ms(90) + 1, ms(33)),
]

# Positions on WGS 84 in 0.00001", around 0, 0.5, 9, 10, 90, 99, 100, 180 and 360 degrees, and where the ninth place is rounded up
# or down: 9 units are 25 billionths. The other coordinate is 0.
NORTHS = [
    0, 1, -1, 2, -2, 3, 4, 5, 9, -9, 179_999_999, 180_000_000, -180_000_000, -179_999_999, DEGREE - 1, DEGREE, 1 - DEGREE, -DEGREE,
    9 * DEGREE, 10 * DEGREE - 1, 10 * DEGREE, 1 - 10 * DEGREE, -10 * DEGREE, 3_599_999_999, 3_600_000_000, 3_600_000_001,
    90 * DEGREE - 1, 90 * DEGREE, 1 - 90 * DEGREE, -90 * DEGREE, 90 * DEGREE + 1, -90 * DEGREE - 1, LEAST, LARGEST,
]
EASTS = [
    0, 1, 2, 9, 180_000_000, DEGREE - 1, DEGREE, 10 * DEGREE - 1, 10 * DEGREE, 99 * DEGREE, 100 * DEGREE - 1, 100 * DEGREE,
    64_799_999_999, 64_800_000_000, 64_800_000_001, 64_800_000_002, 260 * DEGREE - 1, 260 * DEGREE, 260 * DEGREE + 1,
    350 * DEGREE, 350 * DEGREE + 1, 359 * DEGREE + 180_000_000, 360 * DEGREE - 2, 129_599_999_999, 360 * DEGREE, -1, LEAST, LARGEST,
]
PAIRS = [(-90 * DEGREE, 180 * DEGREE), (-1, 360 * DEGREE - 1), (90 * DEGREE + 1, 360 * DEGREE), (12_345_678_901, 123_456_789_012)]
# What some of them must be, by hand.
TEXTS = {
    (0, 0): '<wpt lat="0.000000000" lon="0.000000000"/>',
    (1, 0): '<wpt lat="0.000000003" lon="0.000000000"/>',
    (-1, 0): '<wpt lat="-0.000000003" lon="0.000000000"/>',
    (-2, 0): '<wpt lat="-0.000000006" lon="0.000000000"/>',
    (180_000_000, 0): '<wpt lat="0.500000000" lon="0.000000000"/>',
    (-180_000_000, 0): '<wpt lat="-0.500000000" lon="0.000000000"/>',
    (0, 64_799_999_999): '<wpt lat="0.000000000" lon="179.999999997"/>',
    (0, 64_800_000_000): '<wpt lat="0.000000000" lon="-180.000000000"/>',
    (0, 64_800_000_001): '<wpt lat="0.000000000" lon="-179.999999997"/>',
    (0, 129_599_999_999): '<wpt lat="0.000000000" lon="-0.000000003"/>',
    (-90 * DEGREE, 180 * DEGREE): '<wpt lat="-90.000000000" lon="-180.000000000"/>',
}
SPLIT = re.compile(r'<wpt lat="(-?(?:0|[1-9][0-9]*)\.[0-9]{9})" lon="(-?(?:0|[1-9][0-9]*)\.[0-9]{9})"/>')


def rooms(answer):
    """Rooms for an answer: none, a byte too few, just enough, one more, and all of the buffer; of a refusal none and all."""
    return [0, ROOM] if answer.startswith('refused') else [0, 1, len(answer) - 1, len(answer), len(answer) + 1, ROOM]


def lent(text, room):
    """What is written of a text, or its refusal, and all bytes of the buffer, of which so many are lent."""
    out = '#' * ROOM
    if text.startswith('refused'):
        return f'{text} {out}'
    return f'wrote {len(text)} {text}{out[len(text):]}' if len(text) <= room else f'refused 7 {out}'


def into(place, room):
    question = b'w' + b''.join(map(number, place)) + count(room)
    return ' '.join(map(str, place)) + f' into {room}:', question, ' ' + lent(waypoint(*place), room)


def points():
    places = [place[:3] for place in PRINTED] + [place for code in SHIFTED for place in around(code)]
    few = [into(place, ROOM) for place in places + OTHERS]
    spread = [into(place, room) for code in SHIFTED for place in (around(code)[0], centre(code)) for room in rooms(waypoint(*place))]
    refused = [(4, ms(35), ms(33)), (6, ms(23), ms(57)), (1, ms(90) + 1, ms(33)), (7, ms(35), ms(33))]
    return few + spread + [into(place, room) for place in refused for room in rooms(waypoint(*place))]


def made(latitude, longitude):
    """A position through the writer alone: refused where it is none."""
    answer, kinds = None, KINDS[2:4]
    for x, (least, largest) in zip((latitude, longitude), kinds):
        answer = answer or (None if least <= x <= largest else 'refused 3')
    text = element(latitude, longitude) if answer is None else answer
    return f'{latitude} {longitude}:', b'e' + number(latitude) + number(longitude), ' ' + (answer or lent(text, ROOM))


def positions():
    return [made(x, 0) for x in NORTHS] + [made(0, x) for x in EASTS] + [made(*pair) for pair in PAIRS]


def line(given, room):
    """A line into a buffer, with its line feed."""
    answer = answered(given)
    refusal = re.fullmatch('<!-- (refused [0-9]) -->', answer)
    question = b'l' + program.text(given) + count(room)
    return f'{given.decode()} into {room}:', question, ' ' + lent(refusal[1] if refusal else answer + '\n', room)


def of_lines():
    """Lines of each refusal, in order where two are due, and rooms about what an element and a line feed need."""
    good = [lines.GOOD, lines.at(3, *AREAS[3][::2]), lines.at(2, *AREAS[2][::2])]
    refused = [lines.wrong(fault) for fault in lines.FAULTS] + [REFUSED[5], lines.at(*centre(5)), lines.at(*centre(6))]
    found = [line(text, room) for text in good for room in rooms(answered(text) + '\n')]
    return found + [line(text, room) for text in refused for room in (0, ROOM)]


def taken(given, room):
    """How many bytes of an input are taken for so much room: those of as many lines as it has room for."""
    return len(b''.join(list(BytesIO(given))[:room // MOST_LINE]))


def piece(given, room):
    """An input of at most 60 bytes, in one piece, into so much room: the lines that end in what is taken of it, and the one that its
    end does."""
    took = taken(given, room)
    ended, found, rest = given[:took].rpartition(b'\n')
    put = printed_lines(ended + found)
    question = b'i' + program.text(given) + count(room)
    return f'{len(given)} bytes into {room}:', question, f' took {took} put {len(put)} {put}{"#" * (PIECE - len(put))} {printed_lines(rest)}'


def pieces():
    good, geoid, outside = lines.INPUT.splitlines()
    given = [b'', b'\n', good, good + b'\n', good + b'\n' + geoid, outside + b'\n' + good + b'\n',
             b'0\n' + good + b'\n\n' + good + b'0', b'\n' * 60, b'7' + good[1:] + b'\n' + good.replace(b'E', b'e') + b'\n', good * 2 + b'\n' + b'1']
    rooms_about = [0, MOST_LINE - 1, MOST_LINE, 2 * MOST_LINE - 1, 2 * MOST_LINE, 3 * MOST_LINE - 1]
    return [piece(text, PIECE) for text in given] + [piece(text, room) for text in (given[3], given[6], given[7]) for room in rooms_about]


def cases():
    found = [('waypoint', b'', '')] + points() + [('element', b'', '')] + positions() + [('line', b'', '')] + of_lines()
    return found + [('input', b'', '')] + pieces()


def check():
    """Document 02's example, the texts above, and that an element has nothing but two numbers as they must be, near the angles."""
    wrong = [] if waypoint(*centre(1)) == EXAMPLE else [f'the centre of code 1 gives {waypoint(*centre(1))}']
    wrong += [f'{pair} gives {element(*pair)}' for pair, text in TEXTS.items() if element(*pair) != text]
    wrong += [f'{line} is not refused with {n}' for n, line in REFUSED.items() if answered(line) != f'<!-- refused {n} -->']
    pairs = [(x, 0) for x in NORTHS] + [(0, x) for x in EASTS] + PAIRS
    pairs = [pair for pair in pairs if all(least <= x <= largest for x, (least, largest) in zip(pair, KINDS[2:4]))]
    for pair in pairs:
        text = element(*pair)
        north, east = map(Fraction, SPLIT.fullmatch(text).groups())
        turned = Fraction(pair[1], DEGREE) - east
        is_near = abs(Fraction(pair[0], DEGREE) - north) <= Fraction(1, 2 * BILLION)
        is_near &= min(abs(turned), abs(turned - 360)) <= Fraction(1, 2 * BILLION)
        if not is_near or not -180 <= east < 180 or '-0.000000000' in text or len(text) > MOST:
            wrong.append(f'{pair} gives {text}')
    return wrong + ([] if max(len(element(*pair)) for pair in pairs) == MOST else [f'no element has {MOST} bytes'])


if __name__ == '__main__':
    found = cases()
    asked_for = sum(1 for _, questions, _ in found if questions)
    program.ended(program.held(program.of_cases('test_waypoints', found)) + check(), f'waypoints: {asked_for} answers agree')
