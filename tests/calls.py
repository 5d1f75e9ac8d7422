#!/usr/bin/env python3
"""What the program `test_calls` is asked, every exported call as C would see it, and what it must print, worked out from the
papers by tests/pages.py, tests/sheets.py, tests/lines.py and tests/waypoints.py.

    python3 tests/calls.py --write   makes crates/test_calls/stdin and crates/test_calls/stdout
    python3 tests/calls.py --check   holds these files, to which the gate holds the program, to what is worked out
"""
import lines
import pages
import program
import sheets
import waypoints
from pages import LATITUDE, LONGITUDE, ms
from program import count, number, spaced

POINTS = [
    (1, ms(35), ms(33)), (2, ms(10), ms(8)), (6, ms(23), ms(57)), (5, ms(7), ms(80)),
    (4, ms(35), ms(33)), (5, ms(35), ms(33)), (1, ms(90) + 1, ms(33)), (7, ms(35), ms(33)),
]
TEXTS = ['350000.000N', '0330000.000E', '350060.000S', '3600000.000E', '350000,000N', '0330000.000W']
NUMBERS = [(ms(35), 12, 14), (ms(35), 10, 11), (-ms(35), 11, 12), (ms(360), 11, 12)]
LINES = [(b'1 350000.000N 0330000.000E', 24), (b'1 350000.000N 0330000.000E', 21), (b'4 350000.000N 0330000.000E', 24)]
SHEETS = [(7, 20), (8, 20), (7, 18)]
WAYPOINTS = [
    (1, ms(35), ms(33), 47), (1, ms(35), ms(33), 44), (1, ms(35), ms(33), 43), (1, ms(35), ms(33), 0), (2, ms(10), ms(8), 50),
    (3, ms(62), ms(208), 50), (4, ms(25), ms(51), 50), (4, ms(35), ms(33), 50), (5, ms(7), ms(80), 50), (6, ms(23), ms(57), 50),
    (1, ms(90) + 1, ms(33), 50), (7, ms(35), ms(33), 50), (7, ms(90) + 1, ms(33), 0),
]


def fields(answer, count):
    """The refusal, or 0, and so many numbers: zeros beside a refusal."""
    words = answer.split()
    if words[0] == 'refused':
        return ' '.join([words[1]] + ['0'] * count)
    return ' '.join(['0'] + words)


def point(place):
    shift, geoid = (pages.asked(family, *place) for family in ((1, 2, 3, 4), (5, 6)))
    floats = pages.floats(pages.asked(None, *place)).split()[-4:]
    question = b'p' + b''.join(map(number, place))
    return f'point{spaced(place)}:', question, spaced([fields(shift, 3), fields(geoid, 1), *floats])


def read(form, text):
    found = pages.read(form, text.encode())
    return f'0 {found[1:-1]}' if found[0] == '(' else f'{found} 0'


def text(given):
    question = b't' + program.text(given.encode())
    return f'text {given}:', question, spaced(read(form, given) for form in (LATITUDE, LONGITUDE))


def written(form, n, room):
    """The answer, and 14 bytes of which the first are lent."""
    least, largest = form[2:]
    out = '#' * 14
    if not least <= n <= largest:
        return f'3 0 {out}'
    spelled = pages.spelled(form, n)
    return f'0 {len(spelled)} {spelled}{out[len(spelled):]}' if len(spelled) <= room else f'7 0 {out}'


def number_into(n, first, second):
    question = b'a' + number(n) + count(first) + b'o' + number(n) + count(second)
    answers = [written(LATITUDE, n, first), written(LONGITUDE, n, second)]
    return f'number {n} into {first}, {second}:', question, spaced(answers)


def answered(given, room):
    answer, out = lines.answered(given) + '\n', '#' * 24
    if answer.startswith('refused'):
        return f'{fields(answer, 1)} {out}'
    if len(answer) > room:
        return f'7 0 {out}'
    return f'0 {len(answer)} {answer}{out[len(answer):]}'


def line(given, room):
    question = b'l' + program.text(given) + count(room)
    return f'line {given.decode()} into {room}:', question, f' {answered(given, room)}'


def sheet(unit, room):
    given = sheets.sheet(7, [6], [(6, ms(23), ms(57))])
    answer, out = sheets.lent(unit, given, b'#' * 20, room)
    verb, n = answer.split()
    question = b's' + number(unit) + program.text(given) + count(room)
    return f'sheet for {unit} into {room}:', question, (f' 0 {n}' if verb == 'wrote' else f' {n} 0') + f' {out.hex()}'


def waypoint(code, latitude, longitude, room):
    place = code, latitude, longitude
    answer, out = waypoints.waypoint(*place), '#' * 50
    if answer.startswith('refused'):
        told = f'{fields(answer, 1)} {out}'
    else:
        told = f'0 {len(answer)} {answer}{out[len(answer):]}' if len(answer) <= room else f'7 0 {out}'
    question = b'w' + b''.join(map(number, place)) + count(room)
    return f'waypoint{spaced(place)} into {room}:', question, f' {told}'


def cases():
    found = [point(place) for place in POINTS] + [text(given) for given in TEXTS] + [number_into(*given) for given in NUMBERS]
    found += [line(*given) for given in LINES] + [sheet(*given) for given in SHEETS]
    return found + [waypoint(*given) for given in WAYPOINTS]


if __name__ == '__main__':
    found = cases()
    program.ended(program.held(program.of_cases('test_calls', found)), f'calls: {len(found)} calls agree')
