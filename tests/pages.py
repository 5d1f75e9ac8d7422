#!/usr/bin/env python3
"""What the programs `test_figures`, `test_pages` and `test_texts` are asked, and what they must print, worked out from the
papers with Python's fractions, regular expressions and floats.

    python3 tests/pages.py --write   makes their files stdin and stdout
    python3 tests/pages.py --check   holds these files, to which the gate holds the programs, to what is worked out; and the
                                     points that document 01 gives in figures to the same arithmetic
"""
import re
import struct
from fractions import Fraction
from math import floor

import document_000
import program
from program import count, number, spaced

SCALE = 100_000_000            # u, v and their powers are in hundred-millionths

# The quotients: each number over each divisor, and once more over the scale.
NUMBERS = [
    0, 1, -1, 5, -5,
    78_539_816, -78_539_816,   # K of code 1 times a difference of 1 ms and of -1 ms
    78_539_816 * 1_800_000,    # of 30'
    39_269_908 ** 2,
    49_999_999, 50_000_000, -49_999_999, -50_000_000,
    2 ** 63 - 1, -2 ** 63,
]
DIVISORS = [2, 3, 10, 3_600_000, SCALE, 2 ** 62 - 1, 2 ** 62]

# The powers of a size: document 01's small u, the largest |v| of any area (code 6), on whose way the last product passes 64
# bits, and the largest size of which the code works them; none of a larger one.
POWERS = [22, 39_269_908, -39_269_908, 251_327_412, -251_327_412, 255_000_000, -255_000_000]
TOO_LARGE = [255_000_001, -255_000_001]


def rounded(x):
    """To the nearest whole number, halves away from zero."""
    size = floor(abs(x) + Fraction(1, 2))
    return size if x >= 0 else -size


def quotients(n):
    question = b''.join(b'q' + number(n) + number(d) for d in DIVISORS) + b'r' + number(n)
    return f'{n}:', question, spaced(rounded(Fraction(n, d)) for d in DIVISORS + [SCALE])


# The kinds: least and largest of each, and numbers around every end.
DEGREE = 3_600_000             # in ms
KINDS = [
    (-90 * DEGREE, 90 * DEGREE), (0, 360 * DEGREE - 1),                  # local latitude, local longitude
    (-9000 * DEGREE, 9000 * DEGREE), (0, 36000 * DEGREE - 1),            # the same on WGS 84, in 0.00001"
    (-2 ** 31, 2 ** 31 - 1), (-2 ** 31, 2 ** 31 - 1),                    # shift, height: 4 bytes
]
RAW = [
    -2 ** 63, -32_400_000_001, -32_400_000_000, -2 ** 31 - 1, -2 ** 31, -324_000_001, -324_000_000, -1, 0, 1,
    324_000_000, 324_000_001, 1_295_999_999, 1_296_000_000, 2 ** 31 - 1, 2 ** 31, 2 ** 32 + 1, 32_400_000_000, 32_400_000_001,
    129_599_999_999, 129_600_000_000, 2 ** 63 - 1,
]
SHIFTED = [                    # ms and a shift; the first two are code 1's centre
    (35 * DEGREE, -384_288), (33 * DEGREE, -110_294), (0, -1),
    (-324_000_000, -2 ** 31), (324_000_000, 2 ** 31 - 1), (1_295_999_999, 2 ** 31 - 1),
]

# Positions as text.
LATITUDE = (2, 'NS', *KINDS[0])
LONGITUDE = (3, 'E', *KINDS[1])
TEXTS = """
    900000.000N 900000.001N 900000.000S 900000.001S 3600000.000E 3595959.999E 000000.000N 000000.000S 000000.001S
    0000000.000E 005960.000N 006000.000N 005959.999N 0005960.000E 0006000.000E 344323.316N 0322806.026E 091909.051N
    0121350.125E 344323.316n 344323.316s 0322806.026e 344323,316N 0322806,026E 1650000.000W 0322806.026N 344323.316E
""".split() + ['', '99 999.999N'] + '+44323.316N -44323.316N 4200000.000E 9999999.999E 999999.999S'.split()
CHANGED = ['0344323.316N', '0322806.026E']
CUT = ['344323.316N344323.31', '0322806.026E0322806.']
WRITTEN = [
    -2 ** 63, -324_000_001, -324_000_000, -1, 0, 1, 3_599_999, 123_456_789, 323_999_999, 324_000_000, 324_000_001,
    1_295_999_999, 1_296_000_000, 2 ** 32, 2 ** 63 - 1,
]
ROOMS = [0, 10, 11, 12, 14]
PUT = [b'', b'12345678901', b'12345678901234']     # texts that are put into buffers of these rooms


# The datums: document 01's names and areas, these in ms, south, north, west and east.
NAMES = {1: 'ED 50 Cyprus', 2: 'Minna', 3: 'NAD 27 Alaska', 4: 'Qatar National', 5: 'Kandawala', 6: 'Nahrwan'}


def ms(degrees, minutes=0, seconds=0):
    return ((degrees * 60 + minutes) * 60 + seconds) * 1000


AREAS = {
    1: (ms(34, 30), ms(35, 45), ms(32, 10), ms(34, 40)),
    2: (ms(4), ms(14), ms(2, 30), ms(14, 45)),
    3: (ms(54), ms(72), ms(190), ms(220)),
    4: (ms(24, 20), ms(26, 15), ms(50, 40), ms(51, 45)),
    5: (ms(5, 50), ms(9, 55), ms(79, 30), ms(82)),
    6: (ms(20), ms(26, 15), ms(51), ms(59)),
}
# Document 000's test points, in ms, with what it prints for them in seconds and metres.
PRINTED = [(code, *document_000.test_case(code)) for code in AREAS]
# The same worked by the rule: codes 1 and 2 as document 01 has them, the others as they were given by those who asked for them.
WORKED = ['-388460 -112641 23638', '92953 -234783 13429', '-264775 -952519 19198', '246464 -280607 -29637', '-4547', '1110']
CENTRES = ['-384288 -110294 24430', '49461 -262435 20013', '-208611 -819369 8352', '247363 -280439 -28376', '-979', '7464']
# Points of each area that no paper gives. First those at which a slip that document 01 warns of is seen in the last unit: u or
# its powers cut toward zero, an even power as the square of its half, a term rounded before the sum, one more digit of pi in
# K. Last the west end of code 6, where a power is largest.
SLIPS = {
    'u': [(1, 128_650_240, 121_702_337), (2, 25_962_111, 31_138_852), (3, 239_342_002, 759_699_061)],
    'power': [(1, 127_547_730, 123_444_793), (2, 37_799_917, 13_767_165), (3, 236_571_005, 701_633_307)],
    'square': [(1, 128_674_315, 124_241_342), (2, 28_209_650, 52_962_193), (3, 253_983_409, 727_554_954)],
    'term': [(2, 14_570_110, 50_218_551)],
    'K': [(4, 93_757_176, 185_702_565)],
}
OTHERS = [place for places in SLIPS.values() for place in places] + [
    (4, 90_516_365, 186_297_839), (4, 90_757_006, 185_528_824),
    (5, 29_616_569, 287_480_435), (5, 33_131_805, 291_910_873), (5, 25_825_159, 293_874_700),
    (6, 76_727_428, 205_235_731), (6, 91_375_112, 193_968_276), (6, ms(23), ms(51)),
]
LEAST, LARGEST = -2 ** 63, 2 ** 63 - 1
# Wrong codes; numbers out of range; and points at which two refusals are due.
REFUSED = [(code, ms(35), ms(33)) for code in (-1, 0, 7, 256, 257, LEAST, LARGEST)] + [
    (1, LEAST, ms(33)), (1, LARGEST, ms(33)), (1, ms(35), LEAST), (1, ms(35), LARGEST), (6, LEAST, LARGEST), (0, LEAST, LARGEST),
    (1, ms(90) + 1, ms(33)), (1, ms(-90) - 1, ms(33)), (5, ms(7), ms(360)), (5, ms(7), -1), (3, ms(62), ms(208) - ms(360)),
]


def around(code):
    """Both ends of the area in both coordinates, and 1 ms outside each."""
    south, north, west, east = AREAS[code]
    places = [(south, west), (north, east), (south - 1, west), (north + 1, east), (south, west - 1), (north, east + 1)]
    return [(code, *place) for place in places]


def centre(code):
    latitude, longitude, _ = document_000.frame(code)
    return code, ms(latitude), ms(longitude)


def cut(x):
    """Toward zero."""
    return floor(x) if x >= 0 else -floor(-x)


def tens(u, slip=''):
    """The ten powers of u."""
    out = [SCALE, u]
    while len(out) < 10:
        half, odd = divmod(len(out), 2)
        if slip == 'square' and not odd:
            out.append(rounded(Fraction(out[half] ** 2, SCALE)))
        else:
            out.append((cut if slip == 'power' else rounded)(Fraction(out[-1] * u, SCALE)))
    return out


def worked(code, latitude, longitude, slip=''):
    """Document 01's working rule, over document 000's equations as printed; or the same with one slip."""
    *centre, factor = document_000.frame(code)
    factor += slip == 'K'
    powers = []
    for x, degrees in zip((latitude, longitude), centre):
        powers.append(tens((cut if slip == 'u' else rounded)(Fraction(factor * (x - ms(degrees)), ms(1))), slip))
    answers = []
    for _, _, terms in document_000.equations(code):
        values = [Fraction(c * rounded(Fraction(powers[0][i] * powers[1][j], SCALE)), SCALE) for _, c, i, j in terms]
        answers.append(sum(map(rounded, values)) if slip == 'term' else rounded(sum(values)))
    return ' '.join(map(str, answers))


# As floats: the ends of 4 bytes, numbers around zero and around a whole second, and two of document 01's answers.
MADE = [-2 ** 31, -384_288, -979, -3, -1, 0, 1, 3, 99_999, 100_000, 100_001, 2 ** 31 - 1]
ANGLE, HEIGHT = 100_000, 1000  # units in a second and in a metre


def bits(n, units):
    """The float nearest to n / units, by its bits."""
    return struct.pack('>d', n / units).hex()


def floats(answer):
    """A point's floats, or its refusal; then what the four calls give: three floats and the number of the refusal."""
    zero, values = bits(0, 1), answer.split()
    if values[0] == 'refused':
        return ' '.join([answer, zero, zero, zero, values[1]])
    found = [bits(int(n), units) for n, units in zip(values, [ANGLE, ANGLE, HEIGHT] if len(values) == 3 else [HEIGHT])]
    return ' '.join(found + (found + [zero, zero])[:3] + ['0'])


def asked(family, code, latitude, longitude):
    """The answer to a call of one family, or of both."""
    if code not in AREAS:
        return 'refused 4'
    if family and code not in family:
        return 'refused 5'
    for x, (least, largest) in zip((latitude, longitude), KINDS):
        if not least <= x <= largest:
            return 'refused 3'
    south, north, west, east = AREAS[code]
    if not (south <= latitude <= north and west <= longitude <= east):
        return 'refused 6'
    return worked(code, latitude, longitude)


def point(*place):
    calls = [asked(family, *place) for family in (None, (1, 2, 3, 4), (5, 6))]
    return ' '.join(map(str, place)) + ':', b'p' + b''.join(map(number, place)), spaced(calls + [floats(calls[0])])


def points():
    places = [centre(code) for code in AREAS] + [p[:3] for p in PRINTED]
    places += [place for code in AREAS for place in around(code)] + OTHERS + REFUSED
    return [('datum', b'', '')] + [point(*place) for place in places]


def floating():
    cases = [(f'{n}:', b'f' + number(n), spaced(bits(n, units) for units in (ANGLE, ANGLE, HEIGHT))) for n in MADE]
    return [('floating', b'', '')] + cases


def made(n):
    return f'{n}:', b'k' + number(n), spaced(n if least <= n <= largest else 'refused 3' for least, largest in KINDS)


def shifted(ms, shift):
    """ms as each of the two local kinds, by the shift."""
    answers = [100 * ms + shift if least <= ms <= largest else 'refused 3' for least, largest in KINDS[:2]]
    return f'{ms} by {shift}:', b'c' + number(ms) + number(shift), spaced(answers)


def read(form, text):
    """A number in brackets, or the digit of the refusal."""
    places, letters, least, largest = form
    if len(text) != places + 9:
        return '1'
    parts = re.fullmatch(rb'([0-9]{%d})([0-9]{2})([0-9]{2})[.]([0-9]{3})([%s])' % (places, letters.encode()), text)
    if not parts:
        return '2'
    d, m, s, f = (int(p) for p in parts.groups()[:4])
    ms = ((d * 60 + m) * 60 + s) * 1000 + f
    if parts[5] == b'S':
        if ms == 0:
            return '3'
        ms = -ms
    return f'({ms})' if m < 60 and s < 60 and least <= ms <= largest else '3'


def both(text):
    return read(LATITUDE, text) + read(LONGITUDE, text)


def at(text, place):
    """Every byte at one place of 12: the last 11 as a latitude, and all as a longitude."""
    texts = [text[:place] + bytes([b]) + text[place + 1:] for b in range(256)]
    answers = ''.join(read(LATITUDE, changed[1:]) + read(LONGITUDE, changed) for changed in texts)
    return f'byte {place}: ', b''.join(b't' + changed for changed in texts), answers


def spelled(form, ms):
    """A number in range as its text."""
    places, letters = form[:2]
    rest, f = divmod(abs(ms), 1000)
    rest, s = divmod(rest, 60)
    d, m = divmod(rest, 60)
    return f'{d:0{places}d}{m:02d}{s:02d}.{f:03d}{letters[ms < 0]}'


def lent(text, room):
    """A text put at the start of 14 bytes, of which so many are lent."""
    out = '#' * 14
    return f'wrote {len(text)} {text}{out[len(text):]}' if len(text) <= room else f'refused 7 {out}'


def write(form, ms, room):
    least, largest = form[2:]
    return lent(spelled(form, ms), room) if least <= ms <= largest else 'refused 3 ' + '#' * 14


def written(n, room):
    """A number as each of the two."""
    question = b''.join(letter + number(n) + count(room) for letter in (b'a', b'o'))
    return f'{n} into {room}:', question, spaced(write(form, n, room) for form in (LATITUDE, LONGITUDE))


def as_each(texts):
    return b''.join(b'r' + program.text(text) for text in texts), ''.join(map(both, texts))


def texts():
    cases = [('position', b'', '')] + [(f'{t}: ', *as_each([t.encode()])) for t in TEXTS]
    cases += [at(t.encode(), place) for t in CHANGED for place in range(12)]
    cases += [('lengths: ', *as_each([t.encode()[:n] for n in range(21)])) for t in CUT]
    return cases + [written(n, room) for n in WRITTEN for room in ROOMS]


def put(text, room):
    return f'{len(text)} bytes into {room}:', b't' + program.text(text) + count(room), ' ' + lent(text.decode(), room)


def kinds():
    cases = [('kinds', b'n', spaced(f'refused {n}' for n in range(1, 10)))] + [made(n) for n in RAW]
    return cases + [shifted(*p) for p in SHIFTED] + [put(text, room) for text in PUT for room in ROOMS]


def west():
    """Longitudes around the ends of an area from 42° to 58° N and from 5° W to 15° E, on its south end, and two outside it."""
    raw = [(42 * DEGREE, east * DEGREE + by) for east in (355, 0, 15) for by in (-1, 0, 1)]
    raw += [(42 * DEGREE, 360 * DEGREE - 1), (42 * DEGREE - 1, 0), (58 * DEGREE + 1, 355 * DEGREE), (58 * DEGREE, 180 * DEGREE)]
    held = [int(42 * DEGREE <= y <= 58 * DEGREE and (355 * DEGREE <= x or x <= 15 * DEGREE)) for y, x in raw if 0 <= x]
    return 'west of Greenwich', b''.join(b'w' + number(y) + number(x) for y, x in raw), spaced(held)


def figures():
    powers = [(f'{u}', b'p' + number(u), spaced(tens(abs(u))[2:]) if u in POWERS else '') for u in POWERS + TOO_LARGE]
    return [('whole', b'', '')] + [quotients(n) for n in NUMBERS] + powers + kinds() + [west()]


def files():
    pages = floating() + points()
    return {name: content for p, cases in (('test_figures', figures()), ('test_pages', pages), ('test_texts', texts()))
            for name, content in program.of_cases(p, cases).items()}


def beside(found, printed):
    """Each number worked, the one printed, and whether it is near: an angle within 50 units, a height within 5."""
    found, printed = found.split(), printed.split()
    for k, (x, y) in enumerate(zip(found, printed)):
        height = k == len(printed) - 1
        unit, near = (HEIGHT, 5) if height else (ANGLE, 50)
        yield x, y, abs(int(x) - Fraction(y) * unit) <= near


def check():
    """Document 01, 'The working rule' and 'Points to hold against the page', in its own figures."""
    factor = 78_539_816        # K of code 1
    points = [
        (Fraction(5, 2), 3), (Fraction(-5, 2), -3),
        (Fraction(factor * 1_800_000, 3_600_000), 39_269_908), (Fraction(factor, 3_600_000), 22), (Fraction(-factor, 3_600_000), -22),
        (Fraction(39_269_908 ** 2, SCALE), 15_421_257),
    ]
    positions = [
        (LATITUDE, '900000.000N', '(324000000)'), (LATITUDE, '000000.000S', '3'),
        (LATITUDE, '900000.001N', '3'), (LONGITUDE, '3600000.000E', '3'),
    ]
    wrong = [f'{x} gives {rounded(x)}, and the paper says {n}' for x, n in points if rounded(x) != n]
    wrong += [f'{t} gives {read(form, t.encode())}, and the paper says {a}' for form, t, a in positions if read(form, t.encode()) != a]
    for code, answer in zip(AREAS, CENTRES):
        if worked(*centre(code)) != answer:
            wrong.append(f'the centre of code {code} gives {worked(*centre(code))}, and the paper says {answer}')
    for (code, latitude, longitude, printed), answer in zip(PRINTED, WORKED):
        found = worked(code, latitude, longitude)
        if found != answer:
            wrong.append(f'the test point of code {code} gives {found}, and was worked as {answer}')
        wrong += [f'the test point of code {code}: {x} is not near {y}' for x, y, near in beside(found, printed) if not near]
    wrong += [f'the slip {slip} is not seen at {p}' for slip, places in SLIPS.items() for p in places if worked(*p, slip) == worked(*p)]
    return wrong, len(points) + len(positions) + len(CENTRES) + len(PRINTED)


if __name__ == '__main__':
    problems, points_held = check()
    found = files()
    lines = sum(content.count(b'\n') for name, content in found.items() if name.endswith('stdout'))
    names = 'test_figures, test_pages, test_texts'
    program.ended(program.held(found) + problems, f'{names}: {lines} lines and {points_held} points of the papers agree')
