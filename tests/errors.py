#!/usr/bin/env python3
"""How far the worked answers are from the exact values of the printed polynomials, beside the bounds that are proved.

    python3 tests/errors.py           prints the rows of the table in docs/ERRORS.md
    python3 tests/errors.py --check   holds that page to them and to the sources that it quotes

Over each area: its corners, points along its edges, points spread over it, and then points near those that were farthest off.
The exact value is a whole number over one power of 360,000,000,000,000, in Python's whole numbers. Nothing of the crates is used
in the working. The bounds are read from the pages of the definition, crates/tables/specs, each beside its equation, and are also
held to demand 3 and to the same calculus in fractions. The working rule is tests/pages.py's once more, in whole numbers, which
are over ten times as fast as its fractions.
"""
import glob
import re
import sys
from fractions import Fraction
from math import ceil
from multiprocessing import Pool

import check_page
import document_000
import pages
from pages import DEGREE, SCALE

BOTTOM = 360_000_000_000_000                # of exact U and V
LACKING = [BOTTOM ** (9 - n) for n in range(10)]
WHOLE = BOTTOM ** 18
ALONG = 20_000                              # steps along each edge
WITHIN = 100_000                            # points within
NEAR = 5_000                                # ms to each side of the farthest off, in each coordinate
# where longer searches have seen more than these points show
ALSO = {
    1: [(124_767_000, 124_799_998)], 2: [(20_767_180, 51_608_603)], 4: [(94_362_562, 182_694_353)], 5: [(35_700_000, 295_148_885)],
}
# How far a point within is beyond the one before it, as a fraction of each side in 64 bits: g and g * g, where g is the root of
# g ** 3 + g ** 2 = 1. Their multiples spread evenly over a square.
BEYOND = (0xC13FA9A902A6328F, 0x91E10DA5C79E7B1D)


def places(code):
    """Edges with their corners, points within, and points that were found before, as latitude and longitude in ms."""
    south, north, west, east = pages.AREAS[code]
    yield from ALSO.get(code, ())
    for k in range(ALONG + 1):
        latitude = south + (north - south) * k // ALONG
        yield from ((latitude, west), (latitude, east))
    for k in range(1, ALONG):
        longitude = west + (east - west) * k // ALONG
        yield from ((south, longitude), (north, longitude))
    for k in range(1, WITHIN + 1):
        x, y = (k * step % 2 ** 64 for step in BEYOND)
        yield south + (north - south + 1) * x // 2 ** 64, west + (east - west + 1) * y // 2 ** 64


def tops(frame, place):
    """K times the distance from the centre in ms: exact U and V, times BOTTOM."""
    *centre, factor = frame
    return [factor * (x - degrees * DEGREE) for x, degrees in zip(place, centre)]


def rounded(n, d):
    """n / d to the nearest, halves away from zero."""
    return (2 * n + d) // (2 * d) if n >= 0 else -((d - 2 * n) // (2 * d))


def tens(u):
    """The ten powers of u."""
    out = [SCALE, u]
    while len(out) < 10:
        out.append(rounded(out[-1] * u, SCALE))
    return out


def worked(equations, a, b):
    """Each equation by the working rule."""
    pu, pv = tens(rounded(a, DEGREE)), tens(rounded(b, DEGREE))
    return [rounded(sum(c * rounded(pu[i] * pv[j], SCALE) for _, c, i, j in terms), SCALE) for _, _, terms in equations]


def exact(equations, a, b):
    """The exact value of each equation, times WHOLE."""
    us, vs = ([top ** n * LACKING[n] for n in range(10)] for top in (a, b))
    return [sum(c * (us[i] * vs[j]) for _, c, i, j in terms) for _, _, terms in equations]


def near(code, place):
    """Points of the area on both sides of a place, in each coordinate."""
    south, north, west, east = pages.AREAS[code]
    latitude, longitude = place
    yield from ((x, longitude) for x in range(max(south, latitude - NEAR), min(north, latitude + NEAR) + 1))
    yield from ((latitude, x) for x in range(max(west, longitude - NEAR), min(east, longitude + NEAR) + 1))


def largest(code):
    """The code, how many points were tried, and of each equation the largest distance in units and its place."""
    frame, equations = document_000.frame(code), document_000.equations(code)
    seen, tried = [(-1, None)] * len(equations), 0

    def look(found, equations, first):
        nonlocal tried
        for place in found:
            a, b = tops(frame, place)
            for n, (x, value) in enumerate(zip(worked(equations, a, b), exact(equations, a, b)), first):
                distance = abs(x * WHOLE - value)
                if distance > seen[n][0]:
                    seen[n] = distance, place
            tried += 1

    look(places(code), equations, 0)
    for n, (_, place) in enumerate(list(seen)):
        look(near(code, place), equations[n:n + 1], n)
    return code, tried, [(Fraction(distance, WHOLE), place) for distance, place in seen]


def product_error(e, d, m, n):
    """Of a product divided by the scale and rounded, by its factors' errors and sizes."""
    return Fraction(1, 2) + (e * n + m * d + e * d) / SCALE


def calculus(code):
    """The bound of each equation, in units: the errors of the roundings, carried through the rule in fractions."""
    frame, (south, north, west, east) = document_000.frame(code), pages.AREAS[code]
    half, sizes, errors = Fraction(1, 2), [], []
    for ends in zip(tops(frame, (south, west)), tops(frame, (north, east))):
        size = max(abs(rounded(end, DEGREE)) for end in ends)
        sizes.append(tens(size))
        errors.append([Fraction(0), half])
        for n in range(1, 9):
            errors[-1].append(product_error(errors[-1][n], half, sizes[-1][n], size))

    def term_error(i, j):
        e, d = errors[0][i], errors[1][j]
        # one with a zeroth power is not rounded again
        return product_error(e, d, sizes[0][i], sizes[1][j]) if i and j else e + d

    return [half + sum(abs(c) * term_error(i, j) for _, c, i, j in terms) / SCALE for _, _, terms in document_000.equations(code)]


def proved():
    """The bounds in thousandths, by code, as the pages of the definition have them."""
    return {code: check_page.bounds(code) for code in check_page.FILES}


def table():
    """The rows, and what is wrong with them."""
    with Pool(2) as pool:
        seen = {code: rest for code, *rest in pool.imap_unordered(largest, [3, 2, 4, 1, 5, 6])}
    bounds, rows, wrong = proved(), [], []
    for code, (tried, found) in sorted(seen.items()):
        for (name, decimals, _), by, h, (distance, place) in zip(document_000.equations(code), calculus(code), bounds[code], found, strict=True):
            equation = f'code {code}, {name}'
            if h != ceil(1000 * by):
                wrong.append(f'{equation}: the calculus gives {float(by)}, and the definition has {h}')
            if distance >= Fraction(h, 1000):
                wrong.append(f'{equation}: {float(distance)} was seen, and the definition has {h}')
            if h > (2000 if decimals == 5 else 1000):
                wrong.append(f'{equation}: {h} is more than demand 3 allows')
            rows.append(f'| {code} | {name} | {ceil(by * 10 ** 5) / 10 ** 5:.5f} | {h} | {float(distance):.5f} | {place[0]}, {place[1]} | {tried} |')
    return rows, wrong


def alike():
    """The points that tests/pages.py has in the areas are worked here as there, to which the compiled program is held."""
    points = [pages.centre(code) for code in pages.AREAS] + [p[:3] for p in pages.PRINTED] + pages.OTHERS
    for code, *place in points:
        here = ' '.join(map(str, worked(document_000.equations(code), *tops(document_000.frame(code), place))))
        if here != pages.worked(code, *place):
            yield f'code {code} at {place}: {here} here, and {pages.worked(code, *place)} in tests/pages.py'


def shown():
    """The exact dLat of code 1 at document 000's test point, in lowest terms, is the one that the theorem `exact_worked` has."""
    code, *place = pages.PRINTED[0][:3]
    value = Fraction(exact(document_000.equations(code), *tops(document_000.frame(code), place))[0], WHOLE)
    with open('crates/datum/proofs/Demands.antt', encoding='utf-8') as f:
        source = f.read()
    statement = f'(pos {place[0]}) (pos {place[1]})) (λ d_lat d_lon d_h. Within 0 1 (d_lat times whole (pos {value.denominator})) (neg_ℤ (pos {-value.numerator})))'
    if statement not in source:
        yield f'crates/datum/proofs/Demands.antt does not show {value}'


def held(rows):
    """What docs/ERRORS.md has otherwise than the rows and the sources."""
    with open('docs/ERRORS.md', encoding='utf-8') as f:
        lines = f.read().split('\n')
    if [line for line in lines if re.match(r'\| \d', line)] != rows:
        yield 'docs/ERRORS.md has another table'
    sources = ''
    for path in glob.glob('crates/*/specs/*.antt') + glob.glob('crates/*/proofs/*.antt'):
        with open(path, encoding='utf-8') as f:
            sources += f.read()
    yield from (f'docs/ERRORS.md quotes what no source has: {line}' for line in lines if line.startswith('    ') and line.strip() not in sources)


def main():
    rows, wrong = table()
    wrong += [*alike(), *shown()]
    if '--check' in sys.argv:
        wrong += held(rows)
        print('\n'.join(wrong) or f'errors: {len(rows)} equations, each seen below its bound')
    else:
        print('\n'.join(rows + wrong))
    sys.exit(1 if wrong else 0)


if __name__ == '__main__':
    main()
