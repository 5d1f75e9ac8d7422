"""Slips: wrong programs, several to a must-fail edit.

A file crates/CRATE/must-fail/NAME.edit holds up to twelve slips. Each begins with a comment line that names it and says what is
wrong, and has pairs of old and new text after the file that they are in. rt tries all of a file together; each must be refused by
itself (tests/must_fail.py), and a program with one of them alone goes wrong (tests/wrong_programs.py):

    # first-of-code-1: the first value is that of code 1, whatever the code
    file: src/lib.rt
    old: floating::first(point(code, latitude_ms, longitude_ms))
    new: floating::first(point(1, latitude_ms, longitude_ms))

A slip of a definition, or of a test that the prover computes, names the law of proofs/Demands.antt that it breaks, in a line
`breaks: LAW`, or `breaks: LAW.FIELD` where the law is a record of several, or `breaks: LAW (FILE)` where it is one of proofs/FILE.antt.
"""
import glob
import os
import re
from collections import namedtuple

MOST = 12                      # slips to an edit

Slip = namedtuple('Slip', 'crate edit name wrong breaks pairs')
Item = namedtuple('Item', 'kind name start body end')    # a function or a constant of a source, and where it and its body are


def text_of(path):
    with open(path, encoding='utf-8') as f:
        return f.read()


def parsed(edit):
    """The slips of an edit file."""
    crate, label = edit.split('/')[-3], os.path.basename(edit)[:-len('.edit')]
    found, place, old = [], None, None
    for line in text_of(edit).split('\n'):
        word, _, rest = line.partition(' ')
        begins = re.match(r'# ([a-z0-9-]+): (.+)', line)
        if begins:
            found.append(Slip(crate, label, begins[1], begins[2], [], []))
            place = None
        elif word == 'breaks:':
            found[-1].breaks.append(rest)
        elif word == 'file:':
            place = rest
        elif word == 'old:':
            old = rest
        elif word == 'new:':
            found[-1].pairs.append((place, old, rest))
        elif line:
            raise ValueError(f'{edit}: {line!r} is no line of a slip')
    return found


def every(root='.'):
    """All edits, each with its slips."""
    return {edit: parsed(edit) for edit in sorted(glob.glob(f'{root}/crates/*/must-fail/*.edit'))}


def is_program(slip):
    return any(place.startswith('src/') for place, _, _ in slip.pairs)


def edited(text, old, new):
    if text.count(old) != 1:
        raise ValueError(f'{old!r} occurs {text.count(old)} times')
    return text.replace(old, new)


def apply(slip, root, below=''):
    """Edits the files below a folder; with another word, those that begin with it."""
    for place, old, new in slip.pairs:
        if not place.startswith(below):
            continue
        path = os.path.join(root, 'crates', slip.crate, place)
        after = edited(text_of(path), old, new)
        with open(path, 'w', encoding='utf-8') as f:
            f.write(after)


# ---- the functions and constants of a source, in the layout that rt fmt gives it
OPENS = re.compile(
    r'^(?P<in>(?:    )?)(?:pub(?:\(crate\))? )?(?:extern "C" )?(?P<kind>fn|const|impl(?:<.*?>)?) (?:(?:\w+::)*(?P<trait>\w+)(?:<(?P<of>.*)>)? for )?'
    r'(?P<name>\w+)', re.M)


def items(text, place):
    """In a file of src/. The name of what stands in an impl or a module has its name before it; that of a trait's impl ends with the
    trait's."""
    module = os.path.basename(place)[:-len('.rt')]
    around, found = [] if module in ('lib', 'main') else [module], []
    owner, until = None, 0
    for m in OPENS.finditer(text):
        if m['kind'].startswith('impl'):
            words = re.findall(r'\w+', m['of'] or '')
            owner, until = m['name'] + (m['trait'] or '') + ''.join(w[0].upper() + w[1:] for w in words), text.index('\n}', m.end())
            continue
        name = '::'.join(around + ([owner] if m.start() < until else []) + [m['name']])
        if m['kind'] == 'const':
            found.append(Item('const', name, m.start(), m.start(), text.index(';\n', m.end())))
        else:
            close = text.index('\n' + m['in'] + '}', m.end())
            head = text[m.end():close]
            opens = head.find('\n' + m['in'] + '{\n') if 'ensures' in head or 'requires' in head else head.find('{\n')
            found.append(Item('fn', name, m.start(), m.end() + opens, close))
    return found


def function_at(folder, place, line):
    """The function in which a line of a source is, or '' where it is in none."""
    text = text_of(os.path.join(folder, place))
    at = len(''.join(text.splitlines(True)[:line - 1]))
    return ''.join(i.name for i in items(text, place) if i.kind == 'fn' and i.start <= at <= i.end)


def touched(slip, crates='crates'):
    """The functions in whose bodies a slip is, and the constants that it changes. A pair that only moves spaces makes the text of
    a later one stand once, and changes nothing."""
    found, texts = set(), {}
    for place, old, new in slip.pairs:
        if not place.startswith('src/'):
            continue
        text = texts.get(place) or text_of(os.path.join(crates, slip.crate, place))
        texts[place] = edited(text, old, new)
        if re.sub(r'\s', '', old) == re.sub(r'\s', '', new):
            continue
        at = text.index(old)
        inside = [i for i in items(text, place) if i.body < at + len(old) and at < i.end]
        if not inside:
            raise ValueError(f'{slip.crate}/{slip.edit}: {slip.name} is in no body of a function and in no constant: {old!r}')
        found.add((inside[0].kind, inside[0].name))
    return found


def users(crate, constant, crates='crates'):
    """The functions of a crate that name a constant, by way of other constants too."""
    short = constant.split('::')[-1]
    owner = constant.split('::')[-2] if '::' in constant else None
    found = set()
    for path in sorted(glob.glob(f'{crates}/{crate}/src/*.rt')):
        text = text_of(path)
        named = re.compile(rf'\b{owner}::{short}\b' if owner and f'{owner}.rt' != os.path.basename(path) else rf'(?<!::)\b{short}\b')
        for item in items(text, path):
            if item.name == constant or not named.search(text[item.body:item.end]):
                continue
            found |= {item.name} if item.kind == 'fn' else users(crate, item.name, crates)
    return found


def promising(crate, crates='crates'):
    """The public functions of a library that promise something of their result."""
    found = []
    for path in sorted(glob.glob(f'{crates}/{crate}/src/*.rt')):
        text = text_of(path)
        for m in OPENS.finditer(text):
            if m['kind'] != 'fn' or not re.match(r' *pub (?:extern|fn)', m[0]):
                continue
            inside = [i for i in items(text, path) if i.kind == 'fn' and m.end() <= i.body < i.end]
            if 'ensures' in text[m.end():inside[0].body]:
                found.append(inside[0].name)
    return found
