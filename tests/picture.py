"""A map of a datum's area in steps of a distance, as SVG: tests/accuracy.py says what is on it, and this draws it.

Each grid point is the middle of a cell; the cells along the edges of the area are cut there. The steps go from light to
dark, so that they are told apart without colours too.
"""
from itertools import groupby
from math import cos, radians
from xml.sax.saxutils import escape

from pages import DEGREE

COLOURS = ['#ffffd9', '#a6dbc0', '#41a6c4', '#2a5fa5', '#0b1c4f']
LONGER = 520                   # the longer side of the map, in pixels
LEFT, TOP, BELOW = 86, 84, 52  # room beside the map for the degrees and the title
LEGEND = 244                   # and for the legend, on its right
MINUTE = DEGREE // 60


def angle(ms, letter):
    """Degrees and minutes, with seconds where there are any."""
    minutes, rest = divmod(ms, MINUTE)
    seconds = f'{rest / 1000:06.3f}"' if rest % 1000 else f'{rest // 1000:02d}"' if rest else ''
    return f"{minutes // 60}°{minutes % 60:02d}'{seconds} {letter}"


def label(ms, letter, every):
    """The same beside a line of the degree grid: whole degrees where all lines are."""
    return f'{ms // DEGREE}° {letter}' if every % DEGREE == 0 else angle(ms, letter)


def text(x, y, words, more=''):
    return f'<text x="{x:.1f}" y="{y:.1f}"{more}>{escape(words)}</text>'


def runs(row):
    """Of a row of steps: where each run of equal ones begins, how long it is, and its step."""
    start = 0
    for step, same in groupby(row):
        length = len(list(same))
        yield start, length, step
        start += length


def cells(rows):
    """A path for each step. Rows come from the south, and a picture's from its top; rows that are alike are drawn as one."""
    paths = [''] * len(COLOURS)
    top = 0
    for row, same in groupby(reversed(rows)):
        height = len(list(same))
        for start, length, step in runs(row):
            paths[step] += f'M{start} {top}h{length}v{height}h-{length}z'
        top += height
    return [f'<path fill="{colour}" d="{path}"/>' for colour, path in zip(COLOURS, paths) if path]


def borders(rows):
    """A path along the cells of different steps that lie side by side, so that two steps are never taken for one."""
    path = ''
    rows = rows[::-1]
    for y, (above, below) in enumerate(zip(rows, rows[1:]), 1):
        path += ''.join(f'M{x} {y}h{n}' for x, n, differ in runs([a != b for a, b in zip(above, below)]) if differ)
    columns = list(zip(*rows))
    for x, (left, right) in enumerate(zip(columns, columns[1:]), 1):
        path += ''.join(f'M{x} {y}v{n}' for y, n, differ in runs([a != b for a, b in zip(left, right)]) if differ)
    how = 'fill="none" stroke="#222" stroke-width=".8" vector-effect="non-scaling-stroke" shape-rendering="auto"'
    return f'<path {how} d="{path}"/>'


class Frame:
    """Where the area lies on the picture: as wide as it is on the ground at its middle latitude, nearly."""

    def __init__(self, area):
        self.south, self.north, self.west, self.east = area
        tall = self.north - self.south
        wide = (self.east - self.west) * cos(radians((self.south + self.north) / 2 / DEGREE))
        self.width, self.height = (LONGER * side / max(tall, wide) for side in (wide, tall))

    def x(self, longitude):
        return LEFT + self.width * (longitude - self.west) / (self.east - self.west)

    def y(self, latitude):
        return TOP + self.height * (self.north - latitude) / (self.north - self.south)

    def lines(self, every):
        """The lines of the degree grid and their labels, every so many ms."""
        right, foot = LEFT + self.width, TOP + self.height
        for latitude in range(-(-self.south // every) * every, self.north + 1, every):
            y = self.y(latitude)
            yield f'<path class="grid" d="M{LEFT - 5} {y:.1f}H{right:.1f}"/>'
            yield text(LEFT - 9, y + 4, label(latitude, 'N', every), ' text-anchor="end"')
        for longitude in range(-(-self.west // every) * every, self.east + 1, every):
            x = self.x(longitude)
            yield f'<path class="grid" d="M{x:.1f} {TOP}V{foot + 5:.1f}"/>'
            yield text(x, foot + 20, label(longitude, 'E', every), ' text-anchor="middle"')

    def mark(self, name, latitude, longitude, shape):
        """A place, with its name on the side where there is room, and not on the edge."""
        x, y = self.x(longitude), self.y(latitude)
        left = x > LEFT + self.width * 0.7
        under = y < TOP + 14
        above = y > TOP + self.height - 8
        yield f'<use href="#{shape}" x="{x:.1f}" y="{y:.1f}"/>'
        side = ' class="name" text-anchor="end"' if left else ' class="name"'
        yield text(x - 10 if left else x + 10, y + (14 if under else -8 if above else 4), name, side)


def legend(x, y, labels, shares, notes):
    """The steps with the share of the grid in each, then what the marks mean, then the notes."""
    yield text(x, y, 'apart, and share of the grid', ' font-weight="bold"')
    for colour, step, share in zip(COLOURS, labels, shares):
        y += 24
        yield f'<rect x="{x:.1f}" y="{y - 13:.1f}" width="26" height="18" fill="{colour}" stroke="#333"/>'
        yield text(x + 36, y, step)
        yield text(x + LEGEND - 30, y, share, ' class="share" text-anchor="end"')
    y += 12
    for shape, words in (('test', 'printed test point'), ('town', 'town'), ('far', 'farthest apart')):
        y += 20
        yield f'<use href="#{shape}" x="{x + 13:.1f}" y="{y - 4:.1f}"/>'
        yield text(x + 36, y, words)
    y += 10
    for kind, words in notes:
        y += 20
        yield text(x, y, words, f' class="{kind}"')


HEAD = """<svg xmlns="http://www.w3.org/2000/svg" width="{w:.0f}" height="{h:.0f}" viewBox="0 0 {w:.0f} {h:.0f}"
  font-family="Helvetica, Arial, sans-serif" font-size="13" fill="#111">
<title>{title}</title>
<style>.grid{{fill:none;stroke:#555;stroke-width:.7;stroke-dasharray:1 3}}
.name{{font-size:12px;stroke:#fff;stroke-width:3px;stroke-linejoin:round;paint-order:stroke}}</style>
<defs><g id="town"><circle r="3.5" fill="#fff" stroke="#111" stroke-width="1.5"/></g>
<g id="test"><path d="M-6 0H6M0-6V6" stroke="#fff" stroke-width="5"/>
<path d="M-6 0H6M0-6V6" stroke="#111" stroke-width="2"/></g>
<g id="far"><path d="M0-6L6 5H-6z" fill="#fff" stroke="#111" stroke-width="1.5"/></g></defs>
<rect width="100%" height="100%" fill="#fff"/>"""


def drawn(area, every, words, rows, labels, shares, marks, notes):
    """The picture. `every` is how far the lines of the degree grid are apart in ms, `words` are the title and the line
    below, `rows` the steps of the grid from the south, `marks` (name, latitude, longitude, shape) and `notes` (class,
    words)."""
    frame, side = Frame(area), len(rows) - 1
    place = f'x="{LEFT}" y="{TOP}" width="{frame.width:.1f}" height="{frame.height:.1f}"'
    w, h = LEFT + frame.width + 24 + LEGEND, TOP + max(frame.height, 330) + BELOW
    parts = [HEAD.format(w=w, h=h, title=escape(words[0]))]
    parts += [text(20, 30, words[0], ' font-size="17" font-weight="bold"'), text(20, 52, words[1])]
    # from the middle of the outer cells, which is the area's edge
    parts += [f'<svg {place} viewBox="0.5 0.5 {side} {side}" preserveAspectRatio="none" shape-rendering="crispEdges">',
              *cells(rows), borders(rows), '</svg>']
    parts += frame.lines(every)
    parts.append(f'<rect {place} fill="none" stroke="#111"/>')
    for mark in marks:
        parts += frame.mark(*mark)
    parts += legend(LEFT + frame.width + 24, TOP + 10, labels, shares, notes)
    return '\n'.join(parts + ['</svg>', ''])
