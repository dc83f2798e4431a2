"""The heat map: a row for each expiry and a column for each strike, in as many blocks of columns as a sheet's width asks for."""

import math
from html import escape

from quoting.drawing import MARGIN, WIDTH, box, hexed, mixed, stands_out, text, width_of
from quoting.labels import MARK, axis_labels, shortened
from quoting.numbers import exact, in_percent

# Low volatilities are light, high ones dark, in print without colour too; each cell's text takes the side that it stands out against.
HEAT = ((255, 247, 214), (199, 231, 181), (122, 201, 184), (58, 153, 187), (38, 98, 164), (31, 45, 116))
SIDE, GAP, SMALL, LARGE = 100, 3, 12, 14
LOWEST, HIGHEST = 26, 44
DASHED = 'fill-opacity="0.28" stroke-dasharray="3 3"'


class Range:
    """The volatilities on show, for the colours."""

    def __init__(self, cells):
        values = [c.value for row in cells for c in row]
        self.low, self.high = min(values), max(values)

    def colour(self, volatility):
        span = self.high - self.low
        return mixed(HEAT, (volatility - self.low) / span if span else 0.5)


def cell_title(strike, expiry, cell):
    what = {0: 'no quote, filled from its row', 1: 'one quote'}.get(cell.count, 'mean of %d quotes' % cell.count)
    return escape('strike %s, expiry %s years: %s %%, %s' % (exact(strike), exact(expiry), in_percent(cell.value, 4), what))


class Map:
    """How the map is set out: its blocks, and the width and height of its cells."""

    def __init__(self, surface):
        self.surface, self.colours = surface, Range(surface.cells)
        self.heads, self.sides = axis_labels(surface.strikes), axis_labels(surface.expiries)
        self.left = MARGIN + max(SIDE, max(width_of(side, 13) for side in self.sides) + 14)
        room, columns = WIDTH - MARGIN - self.left + GAP, len(surface.strikes)
        figure = max(width_of(in_percent(c.value), 1) for row in surface.cells for c in row)
        head = max(width_of(head, SMALL) for head in self.heads)
        narrow, upright = SMALL * figure + 14, max(SMALL * figure + 14, head + 8)
        # Labels are set slanting where that saves a block.
        self.slant = blocks_of(columns, room, upright) > blocks_of(columns, room, narrow) or upright > room
        self.count = blocks_of(columns, room, narrow if self.slant else upright)
        widest = math.ceil(columns / self.count)
        self.width = room / widest if widest > 5 else min(room / widest, max(upright, 114))
        self.size = LARGE if self.width >= LARGE * figure + 22 else SMALL
        self.turn = 45 if head < 70 else 90
        self.above = 26 + (head * (0.72 if self.turn == 45 else 1) + 6 if self.slant else 20)
        self.height = HIGHEST

    def fit(self, room):
        """Take row heights that put a block in so much room."""
        self.height = min(HIGHEST if self.count == 1 else 36, max(LOWEST, int((room - self.above) / len(self.sides))))

    def blocks(self):
        """The first and the last column (not included) of each block."""
        columns = len(self.heads)
        return [(-(-b * columns // self.count), -(-(b + 1) * columns // self.count)) for b in range(self.count)]

    def block_height(self):
        return self.above + self.height * len(self.sides)

    def block(self, first, last, top):
        """Some columns of the map with their axes."""
        caption = 'Strike' if self.count == 1 else 'Strike, %d to %d of %d' % (first + 1, last, len(self.heads))
        out = [text(self.left, top + 12, caption, 13, 'soft'), text(MARGIN, top + 12, 'Expiry, years', 13, 'soft')]
        start = top + self.above
        for j in range(first, last):
            x, y = self.left + (j - first) * self.width + (self.width - GAP) / 2, start - 8
            if self.slant:
                x += 4 if self.turn == 90 else 0
                out.append(text(x, y, self.heads[j], SMALL, 'ink', 'start', ' transform="rotate(-%d %.1f %.1f)"' % (self.turn, x, y)))
            else:
                out.append(text(x, y, self.heads[j], SMALL if self.size == SMALL else 13, 'ink', 'middle'))
        for i, side in enumerate(self.sides):
            y = start + i * self.height
            out.append(text(self.left - 14, y + self.base(), side, 13, 'ink', 'end'))
            for j in range(first, last):
                out.append(self.cell(self.left + (j - first) * self.width, y, i, j))
        return out

    def base(self):
        """Where a row's text stands: below the marks where the row is low."""
        net = self.height - GAP
        return max(net / 2 + 5, min(net - 3, 20.5))

    def cell(self, x, y, i, j):
        """A quoted cell is solid; a filled one pale, in a dashed frame, its figure slanted."""
        cell, net = self.surface.cells[i][j], self.width - GAP
        middle, base, frame = x + net / 2, y + self.base(), box(x, y, net, self.height - GAP)
        if cell.count:
            colour = self.colours.colour(cell.value)
            ink = ' style="fill:%s"' % stands_out(colour)
            body = ['<rect %s fill="%s"/>' % (frame, hexed(colour)),
                    text(middle, base, in_percent(cell.value), self.size, 'ink', 'middle', ink + ' font-weight="%d"' % (600 if self.size == LARGE else 500))]
            if cell.count > 1:
                body.append(text(x + net - 4, y + (8.5 if self.height < HIGHEST else 11.5), '\u00d7%d' % cell.count, 11, 'ink', 'end', ink))
        else:
            body = ['<rect class="edge" %s fill="%s" %s/>' % (frame, hexed(self.colours.colour(cell.value)), DASHED),
                    text(middle, base, in_percent(cell.value), self.size, 'ink', 'middle', ' font-style="italic"')]
        return '<g><title>%s</title>%s</g>' % (cell_title(self.surface.strikes[j], self.surface.expiries[i], cell), ''.join(body))


def blocks_of(columns, room, width):
    """How many blocks there are of columns that are at least so wide."""
    return math.ceil(columns / max(1, int(room // width)))


# ---- the key

def marks(heat):
    """What the marks that occur mean: a drawing and its words."""
    counts = sorted({c.count for row in heat.surface.cells for c in row})
    solid, several = [n for n in counts if n], [n for n in counts if n > 1]
    half = hexed(mixed(HEAT, 0.6))
    if solid:
        yield '<rect %%s fill="%s"/>' % half, 'quoted'
    if several:
        yield None, '\u00d7%d: mean of %d quotes' % (several[0], several[0]) if len(several) == 1 else '\u00d7n: mean of n quotes'
    if 0 in counts:
        yield '<rect class="edge" %%s fill="%s" %s/>' % (half, DASHED), 'no quote: filled from its row'
    if shortened(heat.heads + heat.sides):
        yield None, MARK + ': shortened'


def key(heat, top):
    """The marks that occur and the colours; the height that they take up."""
    out, x, y, right = [], MARGIN, top, WIDTH - MARGIN
    for drawing, words in marks(heat):
        wide = (34 if drawing else 0) + width_of(words, 13)
        if x > MARGIN and x + wide > right:
            x, y = MARGIN, y + 24
        if drawing:
            out.append(drawing % box(x, y, 26, 16, 3))
        out.append(text(x + (34 if drawing else 0), y + 13, words))
        x += wide + 18
    if heat.colours.high > heat.colours.low:
        bar, low, high = 110, in_percent(heat.colours.low) + ' %', in_percent(heat.colours.high) + ' %'
        wide = bar + 16 + width_of(low, 13) + width_of(high, 13)
        if x + wide > right:
            x, y = MARGIN, y + 24
        end = right - width_of(high, 13) - 8
        out += [text(end - bar - 8, y + 13, low, 13, 'ink', 'end'),
                '<rect %s fill="url(#heat)"/>' % box(end - bar, y, bar, 16, 3), text(end + 8, y + 13, high)]
    return out, y + 16 - top
