"""The tables that plain C takes, written from document 000's text, with the areas of tests/pages.py."""
import document_000
import pages


def tables():
    """The header that tests/bench/plain.c takes: terms, centres, K and areas."""
    out, datums = [], []
    for code, (south, north, west, east) in pages.AREAS.items():
        latitude, longitude, factor = document_000.frame(code)
        equations = []
        for name, _, terms in document_000.equations(code):
            rows = ', '.join(f'{{{coefficient}, {u}, {v}}}' for _, coefficient, u, v in terms)
            out.append(f'static const struct term {name}_{code}[] = {{{rows}}};')
            equations.append(f'{{{name}_{code}, {len(terms)}}}')
        numbers = [pages.ms(latitude), pages.ms(longitude), factor, south, north, west, east]
        datums.append(f'    {{{", ".join(map(str, numbers))}, {{{", ".join(equations)}}}, {len(equations)}}},')
    return '\n'.join(out + ['static const struct datum DATUMS[] = {'] + datums + ['};']) + '\n'
