#!/usr/bin/env python3
"""Brings the definitions and lemmas of this repository to snake case, as today's Rattle spells them: python3 tools/spelling.py

Run once, on what the toolchain's port.py left (docs/PORT.md has the commits). Names of the sources' functions and types, of the
library and of what the prover makes stay; so do texts in quotes and comments, but for a name between backticks. Prints each name
that it turned, and stops before it writes where two names would fall together.
"""
import collections
import glob
import os
import re
import sys

# facts, which are types and so in camel case
FACTS = {'says': 'Says', 'saysAngle': 'SaysAngle', 'inPairs': 'InPairs'}
# lemmas that would have the name of a definition, each with the files that call it so
LEMMAS = {
    'digit-of': 'digit_of_lem', 'in-box': 'in_box_lem', 'in-sixties': 'in_sixties_lem', 'is-angle': 'is_angle_lem',
    'is-letter': 'is_letter_lem', 'letter-of': 'letter_of_lem', 'nine-places': 'nine_places_lem', 'no-zero-south': 'no_zero_south_lem',
    'of-each': 'of_each_lem', 'per-metre': 'per_metre_lem', 'per-second': 'per_second_lem', 'record-at': 'record_at_lem',
    'shift-fields': 'shift_fields_lem', 'text-length': 'text_length_lem', 'are-bytes': 'are_bytes_lem', 'is-unit': 'is_unit_lem',
    'with-sign': 'with_sign_lem',
}
AGAIN = [
    ('crates/(whole/proofs/(Digits|Places)|decimal/proofs/(Apart|Told|Demands)|position/proofs/Trip)[.]antt', 'all_digits', 'all_digits_lem'),
    ('crates/sheet/proofs/(Calls|work/Proof)[.]antt', 'laid_out', 'laid_out_lem'),
    ('crates/line/proofs/Lines[.]antt', 'in_order', 'in_order_lem'),
    ('crates/(sheet/proofs/Points|datum/proofs/Demands|floating/proofs/Demands)[.]antt', 'is_code', 'coded'),
    ('crates/whole/proofs/Digits[.]antt', 'is_digit', 'is_digit_lem'),
]
# names of two things in different crates, of which no file brings in both
APART = {'all_digits', 'in_order', 'in_turn', 'is_same'}
TOKEN = re.compile(r'--[^\n]*|"(?:\\.|[^"\\])*"|[^\s(){}\[\];,."«»`]+|.', re.S)
DECLARED = re.compile(r'^( *)(?:abbrev |unfoldable )?(?:pub )?(?:(record|data|ruleset|module|mod|use|open) )?([^\s(){}:.,;|]+)((?: [^:\n]*)?:)(?: |$)', re.M)


def snake(name):
    if name in FACTS or name in LEMMAS:
        return FACTS.get(name) or LEMMAS[name]
    if name[0] == '◌' and name[-1] == '◌':
        return f'◌{snake(name[1:-1])}◌'
    if not re.fullmatch(r"[a-z][A-Za-z0-9'ℤℕ_]*(-[A-Za-z0-9'ℤℕ_]+)*", name):
        return name
    return re.sub(r"(?<=[a-z0-9])(?=[A-Z])", '_', name).replace('-', '_').lower().replace('ℤ', 'ℤ')


def tokens(text):
    return TOKEN.findall(text)


def turned(text, names, fields, locals_=()):
    """The text with its names turned; after a dot only the names of fields and of paths."""
    out, before, two_before = [], '', ''
    aliases = set(re.findall(r'^use \S+ as (\S+)$', text, re.M))
    for token in tokens(text):
        if token.startswith('--') or (token.startswith('"') and len(token) > 1):
            if token.startswith('--'):
                token = re.sub(r'`([^`\s]+)`', lambda m: f'`{names.get(m[1], m[1])}`', token)
        elif before == '.':
            if token in fields or (token in names and (two_before[:1].isupper() or two_before in aliases)):
                token = names.get(token, token)
        else:
            token = names.get(token, token)
        out.append(token)
        before, two_before = token, before
    return ''.join(out)


def main():
    os.chdir(os.path.join(os.path.dirname(__file__), '..'))
    shared = sorted(glob.glob('crates/*/specs/*.antt') + glob.glob('crates/*/proofs/*.antt'))
    own = sorted(set(glob.glob('crates/*/proofs/**/*.antt', recursive=True)) - set(shared))
    text = {path: open(path).read() for path in shared + own}
    for path in text:
        for pattern, old, new in AGAIN:
            if re.fullmatch(pattern, path):
                text[path] = re.sub(rf'(?<![\w.-]){old}(?![\w-])', new, text[path])
    imported = set()
    for path, content in text.items():
        for line in re.findall(r'^use (?!Rattle\.(?!std)[a-z]).*\{(.*)\}', content, re.M):
            imported.update(name.strip().split(' as ')[-1] for name in line.split(','))
    names, fields, where = {}, set(), collections.defaultdict(set)

    def add(name, path):
        if name not in imported and snake(name) != name:
            names[name] = snake(name)
            if name[0] == '◌' and name[-1] == '◌':    # where it is used, between its arguments
                names[name[1:-1]] = snake(name)[1:-1]
            where[names[name]].add(name)

    for path in shared:
        for indent, kind, name, _ in DECLARED.findall(text[path]):
            if kind in (None, '', 'record', 'data', 'ruleset'):
                add(name, path)
                if indent and name != 'with-sign':
                    fields.add(name)
    alone = {}
    for path in own:
        found = {}
        for indent, kind, name, _ in DECLARED.findall(text[path]):
            if re.search(rf'^ *(?:pub )?{re.escape(name)} : (\{{.*\}} → )?(tie|statement)\b', text[path], re.M) or name.endswith('-spec'):
                continue
            if kind in (None, '') and snake(name) != name and name not in imported and name not in names:
                found[name] = snake(name)
        alone[path] = found
    used = collections.Counter(token for path in shared for token in tokens(text[path]))
    together = {new: old for new, old in where.items() if new not in APART and (len(old) > 1 or (new in used and new not in names) or new in imported)}
    if together:
        for new, old in sorted(together.items()):
            print(f'falls together: {new}: {sorted(old)}', file=sys.stderr)
        sys.exit(1)
    for path in shared + own:
        both = {**names, **alone.get(path, {})}
        new = turned(text[path], both, fields)
        open(path, 'w').write(new)
    for path in sorted(glob.glob('crates/*/src/*.rt')):
        content = open(path).read()
        parts = re.split(r'(//[^\n]*|b?"(?:\\.|[^"\\])*")', content)
        new = ''.join(part if k % 2 else re.sub(r"(?<![\w.])◌?[a-z][\w'-]*◌?|(?<=\. )x^", lambda m: names.get(m[0], m[0]), part)
                      for k, part in enumerate(parts))
        if new != content:
            open(path, 'w').write(new)
    for old, new in sorted(names.items()):
        print(f'{old} -> {new}')


if __name__ == '__main__':
    main()
