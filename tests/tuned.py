"""The straight-line code that tuned C takes, written for each code from document 000's text, with the areas of tests/pages.py.
It works only the powers that are needed, and each product once; a product is rounded only where both powers are at least the
first. It is seen here that every number fits 64 bits, at the largest sizes of u and v in the area."""
from fractions import Fraction

import document_000
import pages
from pages import SCALE, ms, rounded

MOST = 2 ** 63 - 1


def place(code):
    """The centre, K, and how far the area goes from the centre to the south, north, west and east."""
    latitude, longitude, factor = document_000.frame(code)
    latitude, longitude = ms(latitude), ms(longitude)
    south, north, west, east = pages.AREAS[code]
    return latitude, longitude, factor, latitude - south, north - latitude, longitude - west, east - longitude


def largest(code):
    """The largest sizes of u and v."""
    _, _, factor, south, north, west, east = place(code)
    return [rounded(Fraction(factor * max(sides), ms(1))) for sides in ((south, north), (west, east))]


def products(code):
    """The equations that have a product of powers, each with its coefficient, by rising power of v, then of u."""
    found = {}
    for name, _, terms in document_000.equations(code):
        for _, coefficient, u, v in terms:
            found.setdefault((v, u), []).append((name, coefficient))
    return [(u, v, found[v, u]) for v, u in sorted(found)]


def power(letter, n):
    return letter if n == 1 else f'{letter}{n}' if n else ''


class Lines:
    """The lines of one code, and the largest size of every number in them."""

    def __init__(self, u, v):
        self.lines = []
        self.sizes = {'u': u, 'v': v}
        self.sums = {}

    def work(self, name, factors):
        """Works a rounded product, unless it is there."""
        if name not in self.sizes:
            size = self.sizes[factors[0]] * self.sizes[factors[1]]
            assert size + SCALE // 2 <= MOST
            self.sizes[name] = rounded(Fraction(size, SCALE))
            self.lines.append(f'int64_t {name} = rounded({factors[0]} * {factors[1]});')

    def product(self, u, v):
        """Works a product of powers, and what it needs; its name."""
        for letter, most in (('u', u), ('v', v)):
            for n in range(2, most + 1):
                self.work(power(letter, n), (power(letter, n - 1), letter))
        name = power('u', u) + power('v', v)
        if u and v:
            self.work(name, (power('u', u), power('v', v)))
        return name

    def constant(self, equation, coefficient):
        self.sums[equation] = abs(coefficient) * SCALE
        self.lines.append(f'int64_t {equation} = START + {coefficient} * SCALE;')

    def term(self, equation, coefficient, u, v):
        """Adds a term; s and t are the signs of u and v."""
        name = self.product(u, v)
        self.sums[equation] += abs(coefficient) * self.sizes[name]
        assert self.sums[equation] <= (2 ** 31 - 1) * SCALE    # its answer has 32 bits, and with START it is not negative
        signs = 's * ' * (u % 2) + 't * ' * (v % 2)
        self.lines.append(f'{equation} += {signs}{coefficient} * {name};')


def function(code):
    """What works the sums of a code."""
    of = Lines(*largest(code))
    for u, v, uses in products(code):
        for equation, coefficient in uses:
            if u or v:
                of.term(equation, coefficient, u, v)
            else:
                of.constant(equation, coefficient)
    kind = 'shift' if len(of.sums) == 3 else 'geoid'
    return '\n    '.join([
        f'INLINE buckettin_{kind}_t {kind}_{code}_sums(int64_t u, int64_t v, int64_t s, int64_t t)\n{{',
        *of.lines,
        f'return {kind}_of({", ".join(of.sums)});\n}}\n'])


def sums():
    """The header that tests/bench/tuned.c takes."""
    out = ''
    for code in pages.AREAS:
        out += f'static const struct place PLACE_{code} = {{{", ".join(map(str, place(code)))}}};\n\n{function(code)}\n'
    return out
