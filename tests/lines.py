#!/usr/bin/env python3
"""What the programs `lines` and `test_points` are asked, and what they must print, worked out from document 01 with Python's
own reading of bytes. The reading of a text and a point's answer are those of tests/pages.py.

    python3 tests/lines.py --write   makes their files stdin and stdout
    python3 tests/lines.py --check   holds these files, to which the gate holds the programs, to what is worked out; and that to
                                     document 01's example, to the answers in NUMBERS and to the refusals in FAULTS
"""
import re
from functools import cache
from io import BytesIO
from itertools import combinations, product

import program
from pages import AREAS, LATITUDE, LONGITUDE, OTHERS, PRINTED, asked, centre, ms, read, spelled

# Document 01's example.
INPUT = b"""\
1 350000.000N 0330000.000E
6 230000.000N 0570000.000E
4 350000.000N 0330000.000E
"""
OUTPUT = b"""\
-384288 -110294 24430
7464
refused 6
"""

# Points that no paper gives, by their answers: zero, and numbers next to those with a digit more or less.
NUMBERS = {
    '0': (6, 91_472_156, ms(51, 24)),
    '1': (6, 91_471_662, ms(51, 24)), '-1': (6, 91_472_649, ms(51, 24)),
    '9': (6, 91_467_712, ms(51, 24)), '-9': (6, 91_476_596, ms(51, 24)),
    '10': (6, 91_467_218, ms(51, 24)), '-10': (6, 91_477_090, ms(51, 24)),
    '99': (6, 91_423_131, ms(51, 24)), '-99': (6, 91_520_860, ms(51, 24)),
    '100': (6, 91_422_634, ms(51, 24)), '-100': (6, 91_521_350, ms(51, 24)),
    '999': (6, 90_961_781, ms(51, 24)), '-999': (6, 91_949_738, ms(51, 24)),
    '1000': (6, 90_961_252, ms(51, 24)), '-1000': (6, 91_950_201, ms(51, 24)),
    '9999': (6, 80_718_334, ms(51, 24)), '-9999': (6, 94_496_595, ms(53)),
    '10000': (6, 80_713_364, ms(51, 24)), '-10000': (6, 94_496_936, ms(53)),
    '0 -274333 22380': (2, 20_113_191, ms(3, 6, 45)), '-1 -274333 22380': (2, 20_113_178, ms(3, 6, 45)),
    '99999 -266958 21553': (2, 22_708_581, ms(3, 6, 45)), '-99999 -280348 23226': (2, 19_099_424, ms(3, 6, 45)),
    '100000 -266958 21553': (2, 22_708_611, ms(3, 6, 45)), '-100000 -280348 23226': (2, 19_099_415, ms(3, 6, 45)),
    '-999999 -320012 29251': (2, 15_583_002, ms(3, 6, 45)), '-1000000 -320012 29251': (2, 15_583_000, ms(3, 6, 45)),
    '-236680 -999999 9997': (3, 247_191_776, ms(191, 30)), '-236680 -1000000 9997': (3, 247_191_844, ms(191, 30)),
    '-222908 -1158422 0': (3, 253_080_039, ms(191, 30)), '-222907 -1158440 -1': (3, 253_080_479, ms(191, 30)),
}

# A line in its parts. And what makes it wrong: the refusal, the part, and what stands there instead; in document 01's order.
PARTS = [b'1', b' ', b'350000.000N', b' ', b'0330000.000E', b'']
GOOD = b''.join(PARTS)
CODE, SPACE, NORTH, BETWEEN, EAST, END = range(6)
FAULTS = [
    (1, BETWEEN, b'  '), (1, EAST, b'0330000.00E'), (1, END, b'0'), (1, END, b'\r'),
    (2, CODE, b'/'), (2, CODE, b':'), (2, SPACE, b'\t'), (2, BETWEEN, b','), (2, NORTH, b'35 000.000N'),
    (2, NORTH, b'350000.000E'), (2, EAST, b'0330000,000E'), (2, EAST, b'0330000.000W'),
    (3, NORTH, b'900000.001N'), (3, NORTH, b'000000.000S'), (3, NORTH, b'346000.000N'),
    (3, EAST, b'3600000.000E'), (3, EAST, b'0330060.000E'),
    (4, CODE, b'0'), (4, CODE, b'7'), (4, CODE, b'9'),
    (6, NORTH, b'350000.000S'), (6, EAST, b'0344000.001E'),
]
UNKNOWN = b'0' + GOOD[1:]                         # a code that is none
BYTES = b'\0\t\n\r /09:.,Nn\x7f\x80\xb0\xff'   # each of these stands at each place of the line in turn
READ = 65_536                                     # bytes that `lines` reads at a time, as crates/lines/src/main.rt has it
LONG = range(27, 180)                             # bytes before a line feed that is looked for by blocks, words and bytes


def said(line):
    """The code and the position that a line says, or its refusal."""
    if len(line) != 26:
        return 'refused 1'
    parts = re.fullmatch(rb'([0-9]) (.{11}) (.{12})', line, re.DOTALL)
    if not parts:
        return 'refused 2'
    found = [read(LATITUDE, parts[2]), read(LONGITUDE, parts[3])]
    for refusal in '23':
        if refusal in found:
            return f'refused {refusal}'
    return int(parts[1]), *(int(number.strip('()')) for number in found)


@cache
def answered(line):
    """What is printed for a line, without its line feed."""
    found = said(line)
    return found if isinstance(found, str) else asked(None, *found)


def printed(given):
    """What is printed for an input."""
    return ''.join(answered(line.removesuffix(b'\n')) + '\n' for line in BytesIO(given)).encode()


def lent(line, room):
    """The line, its answer, and 40 bytes of which the first are lent."""
    answer, out = answered(line), '#' * 40
    if not answer.startswith('refused'):
        text = answer + '\n'
        if len(text) <= room:
            answer, out = f'wrote {len(text)}', text + out[len(text):]
        else:
            answer = 'refused 7'
    return f'{line.decode()} into {room}:', b'l' + program.text(line) + program.count(room), f' {answer} {out}'


def at(code, latitude, longitude):
    """The line of a point."""
    return f'{code} {spelled(LATITUDE, latitude)} {spelled(LONGITUDE, longitude)}'.encode()


def corners(code):
    """Each end of the area, and 1 ms outside it, in one coordinate with each in the other."""
    south, north, west, east = AREAS[code]
    return [(code, *place) for place in product((south - 1, south, north, north + 1), (west - 1, west, east, east + 1))]


def wrong(*faults):
    """The line with these faults."""
    parts = PARTS.copy()
    for _, part, other in faults:
        parts[part] = other
    return b''.join(parts)


def pairs():
    """Two faults of a line, in order, where they are not of one part and not both of its length."""
    return [(first, second) for first, second in combinations(FAULTS, 2) if first[1] != second[1] and second[0] > 1]


def given():
    """What `lines` is run on, in many reads. The last line has no line feed."""
    places = [centre(code) for code in AREAS] + [place[:3] for place in PRINTED] + OTHERS + list(NUMBERS.values())
    places += [place for code in AREAS for place in corners(code)]
    lines = [at(*place) for place in places] + [b'%d' % digit + GOOD[1:] for digit in range(10)]
    lines += [wrong(fault) for fault in FAULTS] + [wrong(*pair) for pair in pairs()]
    lines += [(GOOD + b' 123')[:size] for size in range(31)] + [b'', b'', GOOD * 200, GOOD]
    lines += [GOOD[:place] + bytes([other]) + GOOD[place + 1:] for place in range(26) for other in BYTES]
    text = INPUT + b'\n'.join(lines + [UNKNOWN] * 1000) + b'\n'
    text = until(1, -14, text) + b'\n' + GOOD + b'\n'       # the first read ends in the middle of a good line,
    text = until(2, -26, text) + GOOD + b'\n'              # the second with one that is the end of an overlong line,
    text = until(3, -14, text) + b'\n' + GOOD + b'0\n'     # the third in the start of a line that is a byte too long
    text += b''.join(byte * size + b'\n' for byte in (b'0', b'\x8a') for size in LONG)
    return text + UNKNOWN + b'\n' + GOOD


def until(reads, more, text):
    """The text, its last line drawn out to so many bytes after so many reads."""
    size = reads * READ + more
    assert len(text) < size
    return text.ljust(size, b'0')


def points():
    """What `test_points` is asked, and must print."""
    good = INPUT.split(b'\n')[:2] + [at(*NUMBERS[answer]) for answer in ('0', '-222907 -1158440 -1')]
    two = {(first[0], second[0]): wrong(first, second) for first, second in pairs()}     # for two refusals, the last such line
    refused = [wrong(fault) for fault in FAULTS] + list(two.values())
    calls = [*product(good, range(41)), *product(refused, (40, 0))]
    return [lent(line, room) for line, room in calls]


def files():
    return {'crates/lines/stdin': given(), 'crates/lines/stdout': printed(given()), **program.of_cases('test_points', points())}


def check():
    problems = [f'{answer} is not the answer of {place}' for answer, place in NUMBERS.items() if asked(None, *place) != answer]
    for faults in [(fault,) for fault in FAULTS] + pairs():
        if answered(wrong(*faults)) != f'refused {faults[0][0]}':
            problems.append(f'{wrong(*faults)} is {answered(wrong(*faults))}')
    if printed(INPUT) != OUTPUT:
        problems.append("document 01's example gives something else than document 01 says")
    return problems


if __name__ == '__main__':
    program.ended(program.held(files()) + check(), f'lines: {printed(given()).count(10)} lines and {len(points())} lent buffers agree')
