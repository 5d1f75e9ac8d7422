#!/usr/bin/env python3
"""The archive beside a second implementation, through the C interface: python3 tests/hostile.py [CASES [SEED]], where
tests/archive has been run. Without a seed it is always the same one, so that the gate can be repeated.

tests/hostile/compare.c says what is tried. python3 tests/hostile.py --self-test shows that it can fail: a copy of the second
implementation stands in for the archive, with one slip at a time, and each slip must be found; the copy without a slip must pass.
"""
import os
import subprocess
import sys
import tempfile

import program

HEADERS = 'include'
CASES = 260_000
SEED = 1989
FEW = 65_000                   # cases of a self-test


def source(name):
    return f'tests/hostile/{name}.c'


def sources(name):
    return [source(name), source('tally')] + SHARED


SHARED = [source(name) for name in ('check', 'call', 'independent')]


def compare(cases, seed):
    with tempfile.TemporaryDirectory() as room:
        command = program.compiled(sources('compare') + [program.archive()], room, [HEADERS])
        return subprocess.run(command + [str(cases), str(seed)]).returncode


# What the driver says.
FOUND = ('different answer', 'different bytes', 'out of order', 'input changed', 'signal')
# A name, a text of the second implementation, what it becomes, and a word that the driver must say.
SLIPS = [
    ('no slip', '/* Points. */', '', ''),
    ('a coefficient of the least term', '0.00054 U^5V^9', '0.00055 U^5V^9', 'different'),
    ('a sign', '+ 0.094 UV^8', '- 0.094 UV^8', 'different'),
    ('an exponent', '- 0.011 UV^9', '- 0.011 UV^8', 'different'),
    ('K to more digits of pi', '104719754', '104719755', 'different'),
    ('rounding towards zero', '(2 * size + divisor) / (2 * divisor)', 'size / divisor', 'different'),
    ('each term rounded to the unit', 'sum += term->coefficient * rounded(u->of[term->of_u] * v->of[term->of_v], HUNDRED_MILLION);',
     'sum += HUNDRED_MILLION * rounded(term->coefficient * u->of[term->of_u] * v->of[term->of_v], (whole)HUNDRED_MILLION * '
     'HUNDRED_MILLION);', 'different'),
    ('even powers by squaring', 'rounded(powers.of[i - 1] * powers.of[1], HUNDRED_MILLION)',
     'rounded(powers.of[i / 2] * powers.of[i - i / 2], HUNDRED_MILLION)', 'different'),
    ('an end of an area outside it', 'ms <= (int64_t)span.most', 'ms < (int64_t)span.most', 'different'),
    ('longitude 360 in range', 'LARGEST_LONGITUDE = 360 * MS_OF_DEGREE - 1', 'LARGEST_LONGITUDE = 360 * MS_OF_DEGREE',
     'different'),
    ('zero south read', '(is_south && ms == 0)', 'false', 'different'),
    ('refusal 6 before 5',
     'if (is_geoid(code) != asks_geoid) return WRONG_FAMILY;\n    return place_refusal(code, latitude, longitude);',
     'uint32_t refusal = place_refusal(code, latitude, longitude);\n'
     '    return refusal != ANSWERED ? refusal : is_geoid(code) != asks_geoid ? WRONG_FAMILY : ANSWERED;', 'different'),
    ('a line\'s bytes tested before its length', 'if (length != strlen(pattern)) return WRONG_LENGTH;',
     'if (!is_of_kind(pattern[0], text[0])) return WRONG_BYTE;\n    if (length != strlen(pattern)) return WRONG_LENGTH;', 'signal'),
    ('floats by a product', '/ (is_height ? 1000.0 : 100000.0)', '* (is_height ? 0.001 : 0.00001)', 'different'),
    ('zero below zero', '!= ANSWERED) return 0;', '!= ANSWERED) return -0.0;', 'different'),
    ('a field beside a refusal', '(buckettin_geoid_t){ refusal, 0 }', '(buckettin_geoid_t){ refusal, 1 }', 'out of order'),
    ('a byte too many written', 'memcpy(out, bytes, (size_t)count);', 'memcpy(out, bytes, (size_t)count + 1);', 'out of order'),
    ('a byte written and refused', 'if (room < (size_t)count) return', 'if (room < (size_t)count && room > 0) *out ^= 1;\n'
     '    if (room < (size_t)count) return', 'out of order'),
    ('a byte before the buffer written', 'memcpy(out, bytes, (size_t)count);',
     'memcpy(out, bytes, (size_t)count);\n    out[-1] ^= 1;', 'different bytes'),
    ('the input changed', 'int64_t ms = angle_of(text, 3);', 'int64_t ms = angle_of(text, 3);\n    *(uint8_t *)&text[0] ^= 1;',
     'input changed'),
    ('NULL without bytes refused otherwise', 'if (length != strlen(pattern)) return', 'if (text == NULL) return WRONG_BYTE;\n'
     '    if (length != strlen(pattern)) return', 'different answer, NULL'),
    ('a sheet read past its end', 'if (length < start + 2)', 'if (length < start + 1)', 'signal'),
    ('the unit\'s serial cut to 32 bits', '(int64_t)serial == unit_serial', 'serial == (uint32_t)unit_serial', 'different'),
    ('a serial foreign before it is zero', 'if (serial == 0) return WRONG_SHEET;\n'
     '    return (int64_t)serial == unit_serial ? ANSWERED : FOREIGN_SERIAL;',
     'if ((int64_t)serial != unit_serial) return FOREIGN_SERIAL;\n    return serial == 0 ? WRONG_SHEET : ANSWERED;', 'different'),
    ('a line\'s code before its position', 'if (latitude.refusal != ANSWERED ||',
     'if (!is_code(line[0] - \'0\')) return refused(WRONG_CODE);\n    if (latitude.refusal != ANSWERED ||', 'different'),
    ('equal codes taken', 'codes[i] <= codes[i - 1]', 'codes[i] < codes[i - 1]', 'different'),
    ('the last point\'s code not looked up', 'i < sheet->count; i++) {\n        if (sheet->datums == 0',
     'i + 1 < sheet->count; i++) {\n        if (sheet->datums == 0', 'different'),
    ('501 points', 'MOST_POINTS = 500', 'MOST_POINTS = 501', 'different'),
    ('a sheet\'s buffer tested a byte short', 'if (room < needed)', 'if (room + 1 < needed)', 'signal'),
    ('a waypoint\'s longitude all the way east', 'degrees >= (int64_t)180 * BILLION', 'degrees >= (int64_t)360 * BILLION',
     'different'),
    ('a waypoint of the local position', 'degrees_of(latitude_ms, values.of[0])', 'degrees_of(latitude_ms, 0)', 'different'),
    ('a waypoint by the shift of longitude', 'degrees_of(latitude_ms, values.of[0])', 'degrees_of(latitude_ms, values.of[1])',
     'different'),
    ('decimal degrees cut', '(int64_t)rounded((whole)(UNITS_OF_MS * ms + shift) * BILLION, UNITS_OF_DEGREE)',
     '(int64_t)((whole)(UNITS_OF_MS * ms + shift) * BILLION / UNITS_OF_DEGREE)', 'different'),
    ('the last digit of a shift lost', '(UNITS_OF_MS * ms + shift) * BILLION, UNITS_OF_DEGREE',
     '(UNITS_OF_MS * ms + shift / 10 * 10) * BILLION, UNITS_OF_DEGREE', 'different'),
    ('places without their zeros', '%s%d.%09d', '%s%d.%d', 'different'),
    ('a degree with two digits', '%s%d.%09d', '%s%02d.%09d', 'different'),
    ('a line feed after a waypoint', '\\" lon=\\"%s\\"/>"', '\\" lon=\\"%s\\"/>\\n"', 'different'),
    ('a waypoint\'s room tested first', 'if (refusal != ANSWERED) return refused(refusal);\n    struct values values',
     'if (room < 43) return refused(BUFFER_SHORT);\n    if (refusal != ANSWERED) return refused(refusal);\n    struct values values',
     'different'),
    ('room for the longest waypoint asked', 'int count = snprintf(text, sizeof text, "<wpt',
     'if (room < 47) return refused(BUFFER_SHORT);\n    int count = snprintf(text, sizeof text, "<wpt', 'different'),
]


def driver(room):
    """All that a self-test links but the implementation under test, compiled once."""
    path = os.path.join(room, 'driver.o')
    subprocess.run(['x86_64-linux-gnu-gcc', '-O2', '-r', '-I', HEADERS, '-o', path] + sources('compare'), check=True)
    return path


def said(room, driver_path, old, new):
    """What the driver says where the second implementation, with a slip and the archive's names, stands in for the archive."""
    with open(source('independent')) as f:
        text = f.read()
    if text.count(old) != 1:
        raise SystemExit(f'{old!r} is not once in {source("independent")}')
    path = os.path.join(room, 'slip.c')
    with open(path, 'w') as f:
        f.write(text.replace(old, new).replace('independent', 'buckettin'))
    command = program.compiled([path, driver_path], room, [HEADERS])
    return subprocess.run(command + [str(FEW), str(SEED)], capture_output=True, text=True)


def self_test():
    missed = 0
    with tempfile.TemporaryDirectory() as room:
        driver_path = driver(room)
        for what, old, new, expected in SLIPS:
            done = said(room, driver_path, old, new)
            is_right = done.returncode == (1 if expected else 0) and expected in done.stdout
            missed += not is_right
            print(f'{"ok" if is_right else "MISSED"}: {what}: {finding(done)}', flush=True)
    return 1 if missed else 0


def finding(done):
    """The line that says what was found, without its numbers."""
    found = [line for line in done.stdout.split('\n') if line.startswith(FOUND)]
    return found[0] if found else 'nothing found'


def main():
    if sys.argv[1:] == ['--self-test']:
        sys.exit(self_test())
    given = [int(word) for word in sys.argv[1:]]
    cases, seed = given + [CASES, SEED][len(given):]
    sys.exit(compare(cases, seed))


if __name__ == '__main__':
    main()
