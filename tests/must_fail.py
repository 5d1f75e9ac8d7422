#!/usr/bin/env python3
"""Each slip is refused by itself, and each public function has two of its own: has rt check a copy of the crate with each slip of
the must-fail edits alone, several side by side, and reads what the prover says.

    python3 tests/must_fail.py [CRATE..]                of all crates, or of these
    python3 tests/must_fail.py --at-once N [CRATE..]    so many side by side; as many as this machine can, without it
    python3 tests/must_fail.py --slip NAME [CRATE..]    of one slip, and prints all that the prover says of it
    python3 tests/must_fail.py --self-test              shows that it can fail

An edit holds several slips (tests/slips.py), and rt ci tries them together; so it would not see one that is refused in none. Here a
slip of a program needs an error under the proof of the function that it is in, or of one that names the constant that it changes; a
slip of a definition or a computed test, in the law that it names. An error does not count that only says that something else is not
proved: a function fails so where one that it calls was refused. A slip that does not compile, that makes a file unreadable, or a
proof file name what is not there, shows nothing, so no error may be about a name or the text. The crate itself must be proved. That
a program with a slip is wrong, and not only another than the one proved, tests/wrong_programs.py shows by running it.

It begins with what rt made in each crate's folder (tests/archive and ./lines have rt make it), and proves there what is not.
"""
import collections
import glob
import os
import re
import subprocess
import sys
import tempfile

import rooms
import slips

UNFIT = re.compile(
    r'is not in scope(?! here)|has no field|has no `|is no name|is not a module|can be named from here|operand is missing|expected the end'
    r'|cannot continue|wrong number of|expected type `goal\.')
IS_SHOWN = '--slip' in sys.argv
FEWEST = 2                     # slips of its own that a public function has
# libraries of which none is asked: of the test programs alone, which are not sold; and the exports, which do nothing but call
# crate `buckettin` (tests/header.py)
NONE_ASKED = {'test_ask', 'test_show', 'buckettin_c'}

# an error is its line and the indented lines under it
ERROR = re.compile(r'^(\S+?):(\d+):(\d+): error: (?:`([^`]+)`: )?.*\n(?:  .*\n)*', re.M)
# of the compiler itself
REFUSED = re.compile(r'^.*error\[[\w-]+\].*$', re.M)
# a function that is not proved; one with a goal that a search does not prove; such a goal, at its place in the source
FUNCTION = re.compile(r'^fn \w+::(\S+): (?:no proof|not proved)', re.M)
SEARCHED = re.compile(r'^fn \w+::(\S+): no proof: expected answers in .*; `search` did not prove ', re.M)
GOAL = re.compile(r'^note: (src/\S+?):(\d+):\d+: it is not proved that ', re.M)
FOLLOWS = re.compile(r'declarations? that depends? on .* not checked')
# the last line, of a crate or of the functions that were asked for
VERDICT = re.compile(r'^(?:logic=(proved|not-proved)|only=(\d+) proved=(\d+))', re.M)


class Said:
    """What the prover said of a crate in a room: the functions and laws with an error of their own."""

    def __init__(self, room, crate, said):
        folder = rooms.place(room, crate)
        verdict = [m for m in VERDICT.finditer(said)][-1:]
        self.is_told = bool(verdict)
        self.is_proved = any(m[1] == 'proved' or m[2] and m[2] == m[3] for m in verdict)
        self.unfit = REFUSED.findall(said)
        self.laws, under = set(), set(SEARCHED.findall(said))
        for m in ERROR.finditer(said):
            place = os.path.normpath(m[1])
            head = m[0].split('\n')[0]
            if UNFIT.search(head) or not m[4] and not FOLLOWS.search(head):
                self.unfit.append(head)
            if FOLLOWS.search(m[0]):
                continue
            proof = re.fullmatch(r'proofs/(.+)/(?:Answers|Invariants|Proof)\.antt', place)
            if proof:
                under.add(proof[1].replace('/', '::'))
            elif m[4]:
                name = m[4].split('.')[-1]
                self.laws |= {(place, name), (place, f'{name}.{field(os.path.join(folder, place), int(m[2]), int(m[3]))}')}
        under |= {slips.function_at(folder, m[1], int(m[2])) for m in GOAL.finditer(said)}
        self.functions = under & set(FUNCTION.findall(said))


def field(path, line, column):
    """The field of a record that is given at a place of a file: on a line of its own, or among others."""
    before = slips.text_of(path).split('\n')[line - 1][:column - 1]
    outer = re.match(r'  ([\w-]+) = ', before)
    return outer[1] if outer else (re.findall(r'([\w-]+) = ', before) or [''])[-1]


def found_in(slip):
    """Where an error of a slip's own can be: functions, or laws of files."""
    if slip.breaks:
        named = [re.fullmatch(r'(\S+)(?: \((\w+)\))?', words) for words in slip.breaks]
        return {(f'proofs/{m[2] or "Demands"}.antt', m[1]) for m in named}
    functions = set()
    for kind, name in slips.touched(slip):
        functions |= {name} if kind == 'fn' else slips.users(slip.crate, name)
    return functions


def words(slip):
    """Of a program only the functions are checked in which an error can be, and what these call."""
    return [] if slip.breaks else [word for name in sorted(found_in(slip)) for word in ('--only', f'{slip.crate}::{name}')]


def checked(room, crate, *flags):
    run = subprocess.run(['rt', 'check', *flags], cwd=rooms.place(room, crate), capture_output=True, text=True)
    if IS_SHOWN:
        print(run.stdout + run.stderr)
    return Said(room, crate, run.stdout + run.stderr)


def first(room, task):
    """The crate itself, in a folder of its own, with all that rt makes of it and of those below; what is wrong with it."""
    seeds, crate = task
    seed = os.path.join(seeds, crate)
    os.mkdir(seed)
    rooms.fill(seed, rooms.below(crate) | {crate}, '.', rooms.LIBRARY)
    rooms.copy(crate, seed, '.', rooms.CHECKED)
    return [] if checked(seed, crate, '--jobs', '1').is_proved else [f'{crate}: it is not proved as it stands']


def refused(said, slip, places):
    """What is wrong with a slip, by what was said of it."""
    name = f'{slip.crate}/{slip.edit}: {slip.name}'
    if said.unfit:
        return [f'{name} does not fit the text: {said.unfit[0][:200]}']
    if said.is_proved or not said.is_told:
        return [f'{name}: the crate is {"proved all the same" if said.is_proved else "neither proved nor refused"}']
    own = places & (said.laws if slip.breaks else said.functions)
    return [] if own else [f'{name} has no error of its own in {", ".join(map(str, sorted(places)))}']


def tried(room, task):
    """What is wrong with a slip, tried alone over what rt made of the crate."""
    seeds, slip = task
    seed, mark = os.path.join(seeds, slip.crate), os.path.join(room, 'of')
    if not os.path.exists(mark) or slips.text_of(mark) != slip.crate:
        rooms.fill(room, rooms.below(slip.crate) | {slip.crate}, seed, rooms.LIBRARY)
        with open(mark, 'w', encoding='utf-8') as f:
            f.write(slip.crate)
    rooms.copy(slip.crate, room, seed, rooms.CHECKED)
    slips.apply(slip, room)
    return refused(checked(room, slip.crate, '--jobs', '1', *words(slip)), slip, found_in(slip))


def apart(edit, found):
    """What is wrong with the slips of an edit together: where each can have its error no other of them does."""
    places, wrong = [found_in(slip) for slip in found], []
    for k, slip in enumerate(found):
        if not places[k] - set().union(*places[:k], *places[k + 1:]):
            wrong.append(f'{edit}: {slip.name} has no place that is not another slip\'s')
    if len(found) > slips.MOST:
        wrong.append(f'{edit}: {len(found)} slips, and an edit has {slips.MOST} at most')
    return wrong


def table(every, crates):
    """The slips of each public function of every library, or of these crates, by name."""
    own = collections.defaultdict(set)
    for slip in every:
        for kind, name in slips.touched(slip):
            if kind == 'fn':
                own[slip.crate, name].add(slip.name)
    for path in sorted(glob.glob('crates/*/src/lib.rt')):
        crate = path.split('/')[-3]
        for name in slips.promising(crate) if crate not in NONE_ASKED and (not crates or crate in crates) else ():
            yield crate, name, sorted(own[crate, name])


def tries(found, at_once):
    """What is wrong with slips, each tried alone, and with their crates. Crates of many sources come first, since each of their checks
    takes longer."""
    crates = sorted({slip.crate for slip in found}, key=lambda crate: -len(rooms.below(crate)))
    with tempfile.TemporaryDirectory() as seeds:
        wrong = [line for lines in rooms.each(first, [(seeds, crate) for crate in crates], at_once) for line in lines]
        tasks = [(seeds, slip) for crate in crates for slip in found if slip.crate == crate]
        return wrong or [line for lines in rooms.each(tried, tasks, at_once) for line in lines]


def self_test(at_once):
    """Crate `whole` with wrong programs, of which none is found out; and with what shows nothing, each of which is: a right program in
    the place of a slip; a slip that does not compile; one after which a proof file names what is not there; one whose function fails
    only because another that it calls does; a definition whose law stands. And its five functions, none of which has two slips here, are found out."""
    def slip(name, old, new, place='src/lib.rt', breaks=()):
        return slips.Slip('whole', 'test', name, 'of the test', list(breaks), [(place, old, new)])

    half, law = ('    (n + d / 2) / d', '    (n + d / 3) / d'), ('round_half_up n d = (2 * n + d)', 'round_half_up n d = (2 * n + 0)')
    good = [slip('half', *half), slip('answered', 'q * u + nearest', 'r * u + nearest'),
            slip('law', *law, 'specs/Round.antt', ['examples.five_halves'])]
    bad = [slip('right', 'if below { -x } else { x }', 'if !below { x } else { -x }'), slip('text', 'q * u + nearest', 'q * w + nearest'),
           slip('name', 'nearest(size(n), d) as i64', '((size(n) + d / 2) / d) as i64'),
           slip('other-law', *law, 'specs/Round.antt', ['same_below_zero'])]
    seen = [re.search(r'whole/test: ([\w-]+)', line)[1] for line in tries(good + bad, at_once)]
    with tempfile.TemporaryDirectory() as seeds, tempfile.TemporaryDirectory() as room:
        said = first(room, (seeds, 'whole')) or tried(room, (seeds, good[0]))
        log = checked(room, 'whole', '--jobs', '1')
        follows = not said and log.functions == {'nearest'} and bool(refused(log, good[0], {'rounded'}))
    few = [name for _, name, own in table(good, ['whole']) if len(own) < FEWEST]
    print(f'found out: {", ".join(seen)}{", caller" if follows else ""}; too few slips: {", ".join(few)}')
    return seen == [slip.name for slip in bad] and follows and sorted(few) == ['last_digit', 'nearest', 'rounded', 'scaled', 'with_sign']


def main():
    given = sys.argv[1:]
    at_once = int(given.pop(given.index('--at-once') + 1)) if '--at-once' in given else 0
    alone = given.pop(given.index('--slip') + 1) if '--slip' in given else None
    crates = [word for word in given if not word.startswith('--')]
    if '--self-test' in given:
        return self_test(at_once)
    edits = {edit: found for edit, found in slips.every().items() if not crates or found[0].crate in crates}
    every = [slip for found in edits.values() for slip in found]
    if alone:
        wrong = tries([slip for slip in every if slip.name == alone], at_once)
        print('\n'.join(wrong) or f'{alone} has an error of its own')
        return not wrong
    names = collections.Counter((slip.crate, slip.name) for slip in every)
    wrong = [f'{crate}: two slips are named {name}' for (crate, name), count in names.items() if count > 1]
    wrong += [line for edit, found in edits.items() for line in apart(edit, found)]
    wrong += tries(every, at_once)
    for crate, name, own in table(every, crates):
        print(f'{crate:10} {name:26}{", ".join(own)}')
        if len(own) < FEWEST:
            wrong.append(f'{crate}: {name} has {len(own)} slips of its own, and a public function has {FEWEST} at least')
    print('\n'.join(wrong) or f'must-fail: {len(names)} slips in {len(edits)} edits, each with an error of its own')
    return not wrong and bool(every)


if __name__ == '__main__':
    sys.exit(0 if main() else 1)
