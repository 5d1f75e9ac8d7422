#!/usr/bin/env python3
"""How long the program `lines` takes, beside the same in plain C: python3 tests/speed.py [LINES], where ./lines has been run and x86_64-linux-gnu-gcc is there with a static C library.

The C program stands here twice: linked statically, and linked as rt links `lines`, with the machine's own C library. All are
x86-64 and read the same files, one of each of the KINDS: 1,000,000 lines, or as many as the command line says, or one endless
line; those that ask for waypoints with the argument --gpx. They run in turn, once unmeasured and then as often as RUNS says. Prints
for each kind how many lines or bytes each takes in a second, and how many times as long as each C `lines` takes, by the clock and by
the processor's time: medians of the runs. What is printed for empty inputs is what starting them takes. No time is held to a limit:
it ends with an error where two outputs differ, on one of these files or on the lines that tests/lines.py makes for the program, or
where a program cannot be built or run. tests/speed.c is the program in C, and tests/plain.py writes its tables.
"""
import os
import random
import subprocess
import sys
import tempfile
import time
from functools import cache
from itertools import cycle, islice
from statistics import median

import pages
import plain
import program
import waypoints
from lines import FAULTS, at, given, wrong

LINES = max(1, int(sys.argv[1])) if len(sys.argv) > 1 else 1_000_000
BYTES = 99_999_999             # of the endless line: one more, and `lines` would say that the limit is reached
RUNS = 7
SEED = 1989


@cache
def answered(*codes):
    """Lines that are answered: the codes in turn, each time at another place of their areas."""
    chance = random.Random(SEED)
    areas = islice(cycle((code, pages.AREAS[code]) for code in codes), LINES)
    return [at(code, chance.randint(south, north), chance.randint(west, east)) + b'\n' for code, (south, north, west, east) in areas]


def refused(*more):
    """Lines with each fault in turn, and more that are refused."""
    return islice(cycle([line + b'\n' for line in (*map(wrong, FAULTS), *more)]), LINES)


NUMBERS, WAYPOINTS = (), ('--gpx',)    # the arguments
# what each file has, how many lines, bytes or files are counted, and the arguments
KINDS = {
    'lines that are answered': (lambda: answered(*pages.AREAS), LINES, NUMBERS),
    'lines with each fault in turn': (refused, LINES, NUMBERS),
    'lines that end in CR LF': (lambda: (line[:-1] + b'\r\n' for line in answered(*pages.AREAS)), LINES, NUMBERS),
    'bytes of an endless line': (lambda: [b'0' * BYTES], BYTES, NUMBERS),
    'empty inputs': (lambda: [], 1, NUMBERS),
    'lines that get a waypoint': (lambda: answered(*waypoints.SHIFTED), LINES, WAYPOINTS),
    'lines with each fault, and no waypoint': (lambda: refused(*(at(*pages.centre(code)) for code in (5, 6))), LINES, WAYPOINTS),
}


def run(command, given, answers):
    """Seconds by the clock and of the processor."""
    with open(given, 'rb') as stdin, open(answers, 'wb') as stdout:
        began = time.perf_counter()
        child = subprocess.Popen(command, stdin=stdin, stdout=stdout)
        _, status, used = os.wait4(child.pid, 0)
        elapsed = time.perf_counter() - began
    child.returncode = os.waitstatus_to_exitcode(status)
    if child.returncode:
        raise SystemExit(f'{" ".join(command)} ended with {child.returncode}')
    return elapsed, used.ru_utime + used.ru_stime


def content(path):
    with open(path, 'rb') as f:
        return f.read()


def timed(kind, commands, room):
    """Runs the programs on a file of a kind, and prints how long they take."""
    made, count, words = KINDS[kind]
    path, out = os.path.join(room, 'given'), {name: os.path.join(room, name) for name in commands}
    with open(path, 'wb') as f:
        f.writelines(made())
    times = {name: [] for name in commands}
    for _ in range(1 + RUNS):
        for name, command in commands.items():
            times[name].append(run([*command, *words], path, out[name]))
    if len({content(answers) for answers in out.values()}) > 1:
        raise SystemExit(f'{kind}: two outputs differ')
    clock, processor = ({name: median(t[k] for t in found[1:]) for name, found in times.items()} for k in (0, 1))
    print(kind + ': ' + ', '.join(f'{name} {count / clock[name]:,.0f} a second' for name in commands))
    for name in list(commands)[1:]:
        by_clock, by_processor = (t['lines'] / t[name] for t in (clock, processor))
        print(f'    lines takes {by_clock:.2f} times as long as {name} by the clock, {by_processor:.2f} by the processor', flush=True)


def main():
    with tempfile.TemporaryDirectory() as room:
        with open(os.path.join(room, 'tables.h'), 'w', encoding='ascii') as f:
            f.write(plain.tables())
        commands = {
            'lines': program.proved('lines'),
            'C': program.compiled(['tests/speed.c'], room),
            'C linked alike': program.linked('tests/speed.c', room),
        }
        for words in (NUMBERS, WAYPOINTS):
            asked = [[*command, *words] for command in commands.values()]
            if len({subprocess.run(command, input=given(), stdout=subprocess.PIPE, check=True).stdout for command in asked}) > 1:
                raise SystemExit('two outputs for lines of every kind differ')
        for kind in KINDS:
            timed(kind, commands, room)


if __name__ == '__main__':
    main()
