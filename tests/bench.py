#!/usr/bin/env python3
"""How long each call of include/buckettin.h takes, beside the same in plain C, and a point beside C that is tuned for its code:
python3 tests/bench.py [--count] [--held], where tests/archive has been run and x86_64-linux-gnu-gcc is there with a static C
library.

Builds tests/bench/bench.c with the archive, with tests/bench/plain.c and with tests/bench/tuned.c, each compiled by itself, the
last at -O3 and the others at -O2, and runs it. Prints, of each call, how many are answered in a second by the archive, by plain
C and by tuned C, and how many times as long as each of these the archive takes; and with --count, and where an emulator runs the
program, how many instructions each takes, from the log of qemu-x86_64 (Debian: qemu-user). Tuned C has the shift and the geoid
height of a point, and no other call.

It ends with an error where two answers differ, or where the program cannot be built or run. No time is held to a limit. With
--held the instructions are, where they are counted: it ends with an error where the archive takes more than LIMITS allow, and
says of which calls.
"""
import os
import shutil
import subprocess
import sys
import tempfile

import pages
import plain
import program
import tuned

# How many times as many instructions as plain C, and as tuned C, the archive may take for an answer.
POINT, OTHER = (0.5, 2.5), (1.0,)
LIMITS = {
    'shift, code 1': POINT,
    'shift, code 2': POINT,
    'shift, code 3': POINT,
    'shift, code 4': POINT,
    'geoid, code 5': POINT,
    'geoid, code 6': POINT,
}                              # and OTHER of any other call

SIDES = ['archive', 'plain C', 'tuned C']
HEADERS = ['include', 'tests/bench']
FEW = ['-DINPUTS=60', '-DSHEETS=1']    # inputs of a call: a line of the emulator's log is an instruction
LOG = ['-d', 'exec,nochain']
STEPS = ('-one-insn-per-tb', '-singlestep')    # the name of a flag, since version 8.1 and before


def areas():
    """The header that tests/bench/bench.c takes."""
    rows = ', '.join(f'{{{", ".join(map(str, ends))}}}' for ends in pages.AREAS.values())
    return f'static const struct area AREAS[] = {{{rows}}};\n'


def built(room, *words):
    """The command that runs tests/bench/bench.c, made in a folder, with further words for its compiler."""
    for name, text in {'areas.h': areas(), 'tables.h': plain.tables(), 'sums.h': tuned.sums()}.items():
        with open(os.path.join(room, name), 'w', encoding='ascii') as f:
            f.write(text)
    apart = program.made(['tests/bench/tuned.c'], room, HEADERS, 'tuned.o', ['-c', '-O3'])
    return program.compiled(['tests/bench/bench.c', 'tests/bench/plain.c', apart, program.archive()], room, HEADERS, words=words)


def counting():
    """The first words of a command that logs each instruction."""
    if not shutil.which(program.EMULATOR):
        raise SystemExit(f'{program.EMULATOR} is not there, which counts the instructions: it is of Debian\'s qemu-user')
    told = subprocess.run([program.EMULATOR, '-h'], capture_output=True, text=True).stdout
    return [program.EMULATOR, next(flag for flag in STEPS if flag in told), *LOG]


def instructions(path):
    """Of each call its name, and the instructions of an answer on each side that has it."""
    with subprocess.Popen([*counting(), path, 'mark'], stdout=subprocess.PIPE, stderr=subprocess.PIPE) as child:
        spans, count = [], 0
        for line in child.stderr:
            if line.endswith(b' mark\n'):
                spans.append(count)
                count = 0
            elif line.startswith(b'Trace '):
                count += 1
        measures = [line.split(' ', 2) for line in child.stdout.read().decode().splitlines()]
    if child.returncode or len(spans) != 2 * sum(int(sides) for _, sides, _ in measures):
        raise SystemExit('the instructions could not be counted')
    loops = iter(spans[1::2])
    return [(name, [next(loops) / int(answers) for _ in range(int(sides))]) for answers, sides, name in measures]


def head():
    cells = [f'{side:>12}' for side in SIDES] + [f'{"times " + side:>14}' for side in SIDES[1:]]
    return ' '.join([f'{"instructions an answer":32}', *cells])


def row(name, counts):
    """A row of the table: what each side takes, and how many times as many as each other side the archive does."""
    missing = len(SIDES) - len(counts)
    cells = [f'{count:12.0f}' for count in counts] + [f'{"-":>12}'] * missing
    cells += [f'{counts[0] / count:14.2f}' for count in counts[1:]] + [f'{"-":>14}'] * missing
    return ' '.join([f'{name:32}', *cells])


def passed(name, counts):
    """The limits that a call passes, in words."""
    limits = zip(SIDES[1:], counts[1:], LIMITS.get(name, OTHER))
    return [f'{name}: {counts[0] / count:.3f} times {side}, and {limit} is the limit'
            for side, count, limit in limits if counts[0] > limit * count]


def main():
    with tempfile.TemporaryDirectory() as room:
        subprocess.run(built(room), check=True)
        is_counted = '--count' in sys.argv or program.emulator()
        counted = instructions(built(room, *FEW)[-1]) if is_counted else []
    if counted:
        print('\n' + head())
    for name, counts in counted:
        print(row(name, counts))
    if '--held' in sys.argv and counted:
        unknown = [f'{name}: has a limit, and is not counted' for name in LIMITS if name not in dict(counted)]
        wrong = [words for name, counts in counted for words in passed(name, counts)]
        program.ended(unknown + wrong, 'every call is within its limits')


if __name__ == '__main__':
    main()
