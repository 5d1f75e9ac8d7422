#!/usr/bin/env python3
"""Each slip of a program is a wrong program: built with it alone and run with no proof, a program of its crate does not print what
it must, or a run that checks the machine's rules stops. Of all crates, or of those that are named: python3
tests/wrong_programs.py [CRATE..]

This is what a refusal alone does not show, since the prover also refuses a right program that the proof was not written
for. A slip of the definitions alone has no program, and is left to tests/must_fail.py.

To build one program takes rt try half a minute, most of it for the toolchain's own library. So the wrong programs of several slips
are built as one: the crates that a slip is seen through, from its own to the program, are copied for each slip under names of their
own, and each copy of the program is run by itself, as the first two bytes of an input say. Where that does not build, each of its
slips is built alone.
"""
import collections
import glob
import os
import re
import shutil
import subprocess
import sys
import tempfile
from concurrent.futures import ThreadPoolExecutor

import rooms
import slips
import waypoints

# the programs that run a crate, of which one at least must go wrong, where they are not `test_pages` alone; behind a name, the
# words that it is called with
PROGRAMS = {
    'whole': ['test_figures', 'lines'], 'kinds': ['test_figures', 'test_waypoints'], 'equation': ['test_figures', 'test_pages'],
    'tables': ['test_pages', 'test_figures'],    # the second for an area that goes through Greenwich, as none of the six does
    'datum': ['test_pages', 'test_waypoints'], 'position': ['test_texts'], 'numbers': ['test_sheets'], 'layout': ['test_sheets'],
    'sheet': ['test_sheets'], 'decimal': ['test_points', 'test_waypoints'], 'waypoint': ['test_waypoints'],
    'line': ['test_points', 'test_waypoints'], 'stream': ['lines', 'test_waypoints'], 'lines': ['lines', 'lines --gpx', 'lines --gpy'],
    'buckettin': ['test_calls'], 'test_ask': ['test_pages', 'test_points'], 'test_show': ['test_pages', 'test_points'],
}

# functions that the first program of their crate does not reach, and the one that does: it is tried first then
REACHED = {
    'test_waypoints': {'LocalPosition::shifted', 'wgs84', 'shifted', 'nine_places', 'billionths', 'up_to_three', 'waypoint_line',
                       'end_for'},
    'lines --gpx': {'edge_text', 'run', 'in_form'}, 'lines --gpy': {'asked'}, 'test_points': {'part', 'lent'},
}
CHOOSER, MAIN = 'one_of_many', 'main_of_one'
MOST = 30_000                  # lines of sources that are built as one
AT_ONCE = 2                    # programs that are built at a time: each takes a processor or two
CASE = re.compile(r'^case=(\d+) (.*) proved=no$', re.M)
RIGHT, WRONG = re.compile('output=expected'), re.compile('output=differs|run=fault')


def bytes_of(path):
    with open(path, 'rb') as f:
        return f.read()


def programs(slip):
    """Its programs, that which reaches it first."""
    touched = {name for _, name in slips.touched(slip)}
    return sorted(PROGRAMS.get(slip.crate, ['test_pages']), key=lambda program: not touched & REACHED.get(program, set()))


def asked(program):
    """The program's name and words, what it is given and what it must print: with words a GPX file by `--gpx`, and nothing by another."""
    name, *words = program.split()
    given, printed = (bytes_of(f'crates/{name}/{part}') for part in ('stdin', 'stdout'))
    if words:
        printed = waypoints.printed(given) if words == ['--gpx'] else b''
    return name, words, given, printed


def through(slip, name):
    """The crates from a slip's own to a program."""
    return {crate for crate in rooms.below(name) | {name} if crate == name or slip and slip.crate in rooms.below(crate) | {crate}}


def renamed(text, crates, end):
    """A source that names copies of these crates."""
    return re.sub(rf'(?<![\w:])({"|".join(crates)})(?=::)|(?<=\bRattle\.)({"|".join(crates)})(?=\.)', lambda m: m[0] + end, text)


def copied(room, slip, name, end):
    """The crates of a slip, under names with this end, and the program as a library; their lines of crates.txt."""
    crates, lines = through(slip, name), []
    with tempfile.TemporaryDirectory() as edited:
        for crate in crates:
            shutil.copytree(f'crates/{crate}/src', os.path.join(rooms.place(edited, crate), 'src'))
        if slip:
            slips.apply(slip, edited, 'src/')
        for crate in crates:
            to = os.path.join(rooms.place(room, crate + end), 'src')
            shutil.copytree(os.path.join(rooms.place(edited, crate), 'src'), to)
            for place in os.listdir(to):
                text = renamed(slips.text_of(os.path.join(to, place)), sorted(crates), end)
                if place == 'main.rt':
                    os.remove(os.path.join(to, place))
                    place, text = 'lib.rt', text.replace('\nfn main(', f'\npub fn {MAIN}(')
                with open(os.path.join(to, place), 'w', encoding='utf-8') as f:
                    f.write(text)
            deps = rooms.known()[crate][1]
            lines.append(f'{crate}{end}: {" ".join(dep + end * (dep in crates) for dep in deps)}\n')
    return lines


def chooser(name, count):
    """The source of a program that runs one of so many copies, as the first two bytes of its input say."""
    head = slips.text_of(f'crates/{name}/src/main.rt').split('\nfn main(')[1].split('{')[0]
    otherwise, after = ('Ok(())', '') if '->' in head else ('()', '\n    Ok(())')
    cases = ''.join(f'        {k} => {name}_{k}::{MAIN}(rt),\n' for k in range(count))
    return f'''#![tactic(auto)]

use std::io;
use std::io::Read;

fn main(rt: HostRuntime) -> io::Result<()> {{
    let mut which = [0; 2];
    let n = rt.reader().read(&mut which)?;
    match u16::from_be_bytes(which) {{
{cases}        _ => {otherwise},
    }}{after}
}}
'''


def ran(program, found):
    """What becomes of a program with each of these slips alone, and of it unedited, which is the first: the words of rt try for it, and
    all that is said."""
    name, words, given, printed = asked(program)
    with tempfile.TemporaryDirectory() as room:
        lines = [line for k, slip in enumerate([None, *found]) for line in copied(room, slip, name, f'_{k}')]
        for crate in rooms.below(name):
            shutil.copytree(f'crates/{crate}/src', os.path.join(rooms.place(room, crate), 'src'))
            lines.append(rooms.known()[crate][0] + '\n')
        copies = [f'{name}_{k}' for k in range(len(found) + 1)]
        with open(os.path.join(room, 'crates.txt'), 'w', encoding='utf-8') as f:
            f.writelines([*lines, f'{CHOOSER}: {" ".join(copies)}\n'])
        here, cases = os.path.join(rooms.place(room, CHOOSER), 'src'), os.path.join(room, 'cases')
        os.makedirs(here)
        with open(os.path.join(here, 'main.rt'), 'w', encoding='utf-8') as f:
            f.write(chooser(name, len(copies)))
        os.mkdir(cases)
        for k in range(len(copies)):
            parts = {'': k.to_bytes(2, 'big') + given, '.stdout': printed, '.args': '\n'.join([*words, '']).encode()}
            for part, content in parts.items():
                with open(os.path.join(cases, f'{k}{part}'), 'wb') as f:
                    f.write(content)
        run = subprocess.run(['rt', 'try', '--cases', cases], cwd=os.path.dirname(here), capture_output=True, text=True, errors='replace')
    said = run.stdout + run.stderr
    told = {int(m[1]): m[2] for m in CASE.finditer(said)}
    return [told.get(k, '') for k in range(len(copies))], said


def became(work):
    """The same for each slip of a part; where they do not build as one, of each alone."""
    program, found = work
    (unedited, *told), said = ran(program, found)
    if not unedited and len(found) > 1 and ran(program, [])[0][0]:
        alone = [became((program, [slip])) for slip in found]
        return [alone[0][0][0], *(told[1] for told, _ in alone)], [said[0] for _, said in alone]
    return [unedited, *told], [said] * len(found)


def parts(program, found):
    """Slips by so many as are built as one."""
    name, lines, part = program.split()[0], 0, []
    for slip in found:
        size = sum(slips.text_of(path).count('\n') for crate in through(slip, name) for path in glob.glob(f'crates/{crate}/src/*.rt'))
        if part and lines + size > MOST:
            yield program, part
            lines, part = 0, []
        lines, part = lines + size, [*part, slip]
    yield program, part


def main():
    crates, wrong, turn = sys.argv[1:], [], 0
    every = [slip for found in slips.every().values() for slip in found if slips.is_program(slip) and (not crates or slip.crate in crates)]
    left = [(slip, programs(slip)) for slip in every]
    while left:
        by_program = collections.defaultdict(list)
        for slip, names in left:
            by_program[names[turn]].append(slip)
        work = [part for program, found in sorted(by_program.items()) for part in parts(program, found)]
        seen = {}
        with ThreadPoolExecutor(AT_ONCE) as pool:
            for (program, found), ((unedited, *told), said) in zip(work, pool.map(became, work)):
                if not RIGHT.search(unedited):
                    wrong.append(f'{program}, unedited: {unedited or said[0][:400]}')
                seen.update({(slip.crate, slip.name): (program, words, more) for slip, words, more in zip(found, told, said)})
        turn += 1
        unseen = []
        for slip, names in left:
            program, words, said = seen[slip.crate, slip.name]
            if not WRONG.search(words) and turn < len(names):
                unseen.append((slip, names))
            elif not WRONG.search(words):
                how = f'{program} prints what it must all the same' if RIGHT.search(words) else 'it was not run, or not to its end'
                wrong.append(f'{slip.crate}/{slip.edit}: {slip.name}: {how}: {words or said[:200]}')
        left = unseen
    print('\n'.join(wrong) or f'wrong programs: {len(every)} slips, each seen to go wrong in its program')
    sys.exit(1 if wrong or not every else 0)


if __name__ == '__main__':
    main()
