"""The pieces of a picture: its style, colours, lines and text. A unit is a quarter of a millimetre on paper."""

import math
import unicodedata
from html import escape

from quoting.labels import axis_labels

# A sheet of A4.
WIDTH, SHEET, MARGIN = 840, 1188, 32
FONT = 'system-ui, -apple-system, &quot;Segoe UI&quot;, Roboto, &quot;Helvetica Neue&quot;, Arial, sans-serif'
STYLE = '''
@page { size: A4 portrait; margin: 0 }
.page { fill: #ffffff } .ink { fill: #1f2328 } .soft { fill: #59636e }
.rule { stroke: #dde1e6 } .edge { stroke: #818b98 } .hole { fill: #ffffff }
text { font-variant-numeric: tabular-nums }
'''
DARK_STYLE = '''
.page { fill: #12161c } .ink { fill: #e8edf2 } .soft { fill: #a3adb8 }
.rule { stroke: #2c343e } .edge { stroke: #737d88 } .hole { fill: #12161c }
'''
WIDE, NARROW = frozenset('MWmw@%&\u2026'), frozenset("ijltfrI.,:;'|!()[] ")


def width_of(words, size):
    """About how wide a text is, in the widest of the usual fonts."""
    return size * sum(0.42 if c in NARROW else 1.05 if c in WIDE or unicodedata.east_asian_width(c) in 'WF' else 0.64 for c in words)


def mixed(stops, share):
    """A colour so far along the stops."""
    at = min(max(share, 0.0), 1.0) * (len(stops) - 1)
    i = min(int(at), len(stops) - 2)
    return tuple(round(a + (b - a) * (at - i)) for a, b in zip(stops[i], stops[i + 1]))


def hexed(colour):
    return '#%02x%02x%02x' % colour


def luminance(colour):
    linear = [c / 3294.6 if c <= 10 else ((c / 255 + 0.055) / 1.055) ** 2.4 for c in colour]
    return 0.2126 * linear[0] + 0.7152 * linear[1] + 0.0722 * linear[2]


def stands_out(colour):
    """Black or white, whichever is plainer on this colour."""
    return '#111418' if luminance(colour) > 0.2 else '#ffffff'


def ticks(low, high, most):
    """Round numbers from low to high, at most so many."""
    step = 10.0 ** math.floor(math.log10((high - low) / most))
    step = next(step * m for m in (1, 2, 2.5, 5, 10, 20) if (high - low) / (step * m) <= most)
    first = math.ceil(low / step - 1e-9)
    return [k * step for k in range(first, math.floor(high / step + 1e-9) + 1)]


def tick_labels(values):
    return axis_labels([float('%.12g' % v) for v in values])


def text(x, y, words, size=13, kind='ink', anchor='start', extra=''):
    return '<text class="%s" x="%.1f" y="%.1f" font-size="%g" text-anchor="%s"%s>%s</text>' % (
        kind, x, y, size, anchor, extra, escape(words))


def line(x1, y1, x2, y2, kind='rule', extra=''):
    return '<line class="%s" x1="%.1f" y1="%.1f" x2="%.1f" y2="%.1f"%s/>' % (kind, x1, y1, x2, y2, extra)


def box(x, y, width, height, radius=4):
    return 'x="%.1f" y="%.1f" width="%.1f" height="%.1f" rx="%g"' % (x, y, width, height, radius)


def printable(words):
    """Without the characters that no SVG file may hold."""
    return ''.join(c if c.isprintable() else '?' for c in words)


def shortened_to(words, room, size):
    """A text without its middle where it is too long; an ellipsis stands there."""
    for kept in range(len(words), 1, -1):
        shown = words if kept == len(words) else words[:kept - kept // 3] + '\u2026' + words[len(words) - kept // 3:]
        if width_of(shown, size) <= room:
            return shown
    return '\u2026'


def wrapped(words, room, size):
    """A text in lines, broken at spaces."""
    lines = ['']
    for word in words.split(' '):
        longer = (lines[-1] + ' ' + word).strip()
        if lines[-1] and width_of(longer, size) > room:
            lines.append(word)
        else:
            lines[-1] = longer
    return lines
