#!/usr/bin/env python3
"""The programs of examples/, built from the header and the archive alone, in a folder that has nothing else, and run: python3
tests/examples.py, where tests/archive has been run.

Each is built as C99 and as C++, with every warning an error. What they must print is document 01's, of two centres and of points
outside, for waypoints what tests/waypoints.py works out, and what the comment of each promises.
"""
import os
import re
import shutil
import subprocess
import sys
import tempfile

import program
import waypoints
from pages import LATITUDE, LONGITUDE, read


def file_of(*texts):
    """The file of points of code 1, given by their texts."""
    angles = [int(read(form, text.encode())[1:-1]) for form, text in zip([LATITUDE, LONGITUDE] * 2, texts)]
    elements = [waypoints.waypoint(1, *angles[k:k + 2]) for k in (0, 2)]
    return waypoints.HEAD.replace('Buckettin', 'waypoint') + ''.join(f'{element}\n' for element in elements) + waypoints.FOOT


USAGE = ('waypoint CODE LATITUDE LONGITUDE LATITUDE LONGITUDE, as: '
         'waypoint 1 350000.000N 0330000.000E 344323.316N 0322806.026E\n')

# of each program the words, standard output and standard error, and the exit status; the first is that of its comment
RUNS = {
    'map': [
        ('1 350000.000N 0330000.000E',
         'shift: latitude -3.84288", longitude -1.10294", height 24.430 m\nWGS 84: 34 59 56.15712 N, 32 59 58.89706 E\n', '', 0),
        ('6 230000.000N 0570000.000E', 'geoid height 7.464 m\n', '', 0),
        ('4 350000.000N 0330000.000E', '', "refused 6: the point is outside its datum's area\n", 1),
        ('1 350000.000N 0330000.000', '', 'refused 1: a text, line or sheet has the wrong length\n', 1),
        ('1 350000.000E 0330000.000E', '', 'refused 2: a byte of a text or line is not of its kind\n', 1),
        ('1 900000.001N 0330000.000E', '', 'refused 3: a latitude, longitude, minute or second is out of range\n', 1),
        ('7 350000.000N 0330000.000E', '', 'refused 4: the code is not 1 to 6\n', 1),
        ('1x 350000.000N 0330000.000E', '', 'refused 4: the code is not 1 to 6\n', 1),
        ('1 350000.000N', '', 'map CODE LATITUDE LONGITUDE, as: map 1 350000.000N 0330000.000E\n', 2),
    ],
    'sheet': [
        ('7 350000.000N 0330000.000E',
         'unit 7, 2 points\ncode 1: latitude -3.84288", longitude -1.10294", height 24.430 m\n'
         "code 6: refused 6: the point is outside its datum's area\n", '', 0),
        ('7 230000.000N 0570000.000E',
         "unit 7, 2 points\ncode 1: refused 6: the point is outside its datum's area\ncode 6: geoid height 7.464 m\n", '', 0),
        ('8 350000.000N 0330000.000E', '', "refused 8: the sheet's serial is not zero and not the unit's\n", 1),
        ('7x 350000.000N 0330000.000E', '', "refused 8: the sheet's serial is not zero and not the unit's\n", 1),
        ('7 350000.000N 0330000.000W', '', 'refused 2: a byte of a text or line is not of its kind\n', 1),
        ('', '', 'sheet UNIT LATITUDE LONGITUDE, as: sheet 7 350000.000N 0330000.000E\n', 2),
    ],
    'waypoint': [
        ('1 350000.000N 0330000.000E 344323.316N 0322806.026E',
         file_of('350000.000N', '0330000.000E', '344323.316N', '0322806.026E'), '', 0),
        ('1 344323.316N 0322806.026E 350000.000N 0330000.000E',
         file_of('344323.316N', '0322806.026E', '350000.000N', '0330000.000E'), '', 0),
        ('4 350000.000N 0330000.000E 350000.000N 0330000.000E', '', "refused 6: the point is outside its datum's area\n", 1),
        ('1 350000.000N 0330000.000E 350000.000N 0350000.000E', '', "refused 6: the point is outside its datum's area\n", 1),
        ('6 230000.000N 0570000.000E 230000.000N 0570000.000E', '',
         'refused 5: a shift is asked of code 5 or 6, or a geoid height of code 1 to 4\n', 1),
        ('0 350000.000N 0330000.000E 350000.000N 0330000.000E', '', 'refused 4: the code is not 1 to 6\n', 1),
        ('1 350000.000N 0330000.000E 900000.001N 0330000.000E', '',
         'refused 3: a latitude, longitude, minute or second is out of range\n', 1),
        ('1 350000.000N 0330000.000E', '', USAGE, 2),
    ],
}
# the words of the compiler; g++ itself would link a library that Debian's x86-64 files for other machines lack
LANGUAGES = {'C99': ['-std=c99', '-pedantic'], 'C++': ['-std=c++11', '-pedantic', '-fno-exceptions', '-xc++']}


def promised(name):
    """The words of the comment's second command, and what the comment says that it prints; the first command builds it."""
    build = f'cc -I include examples/{name}.c {program.ARCHIVE} -o {name}'
    form = rf' {re.escape(build)}\n +\./{name} (.*)\n\n   prints\n\n(.*?) \*/'
    words, printed = re.search(form, program.content(f'examples/{name}.c'), re.S).groups()
    return words, ''.join(f'{line.strip()}\n' for line in printed.split('\n'))


def built(name, language, room):
    """The command that runs it, built in a folder that has nothing but what it needs."""
    for path in (f'examples/{name}.c', program.archive(), 'include/buckettin.h'):
        shutil.copy(path, room)
    sources = [f'{room}/{name}.c', '-xnone', f'{room}/{os.path.basename(program.archive())}']
    return program.compiled(sources, room, words=LANGUAGES[language])


def ran(name, language):
    """What is wrong with what it prints."""
    wrong = []
    with tempfile.TemporaryDirectory() as room:
        command = built(name, language, room)
        for words, *must in RUNS[name]:
            done = subprocess.run(command + words.split(), capture_output=True, text=True)
            if [done.stdout, done.stderr, done.returncode] != must:
                wrong.append(f'{name} {words}, as {language}: {done.stdout!r}, {done.stderr!r}, {done.returncode}')
    return wrong


def main():
    wrong = [f'examples/{name}.c: its comment promises something else' for name in RUNS if promised(name) != RUNS[name][0][:2]]
    if {f'{name}.c' for name in RUNS} != set(os.listdir('examples')):
        wrong.append('examples/ has other programs than are run')
    wrong += [line for name in RUNS for language in LANGUAGES for line in ran(name, language)]
    count = sum(map(len, RUNS.values()))
    print('\n'.join(wrong) or f'examples: {count} commands print what they must, built as {" and as ".join(LANGUAGES)}')
    sys.exit(1 if wrong else 0)


if __name__ == '__main__':
    main()
