"""The blotter program: lines to it, answers from it. Every figure that is shown is one of its words."""

import re
import struct
import subprocess
from collections import namedtuple

from quoting import building
from quoting.surface import Cell, Surface

# The words of each answer: n is a whole number, f a float.
SHAPES = {
    'open': 'n', 'call': 'nnffff', 'put': 'nnffff', 'vol': 'nnffff', 'build': 'nnn', 'strike': 'f', 'expiry': 'f', 'cell': 'fn',
    'read': 'nf', 'money': 'nff', 'price': 'nf', 'greeks': 'nfffffff', 'ends': 'nff'}
WORD = re.compile(rb' ([0-9A-F]{16})')

# Number 0 is accepted; any other is a refusal, and its values are 0.0.
Evidence = namedtuple('Evidence', 'number evaluations volatility error c c_error')
Greeks = namedtuple('Greeks', 'delta gamma theta vega rho vanna volga')


class BlotterError(Exception):
    """The program fails, or answers what it cannot."""


def program():
    """The path of the program, built first where it must be."""
    return building.program('blotter')


def line(name, *words):
    """A line to the program: a float goes as its bits, a whole number as itself."""
    return '%-6s%s\n' % (name, ''.join(
        ' ' + (struct.pack('>d', x).hex().upper() if isinstance(x, float) else '%016X' % x) for x in words))


def ask(path, lines):
    """The answer to each line: its words, or the surface of a build."""
    try:
        run = subprocess.run([path], input=''.join(lines).encode(), stdout=subprocess.PIPE)
    except OSError as error:
        raise BlotterError('%s cannot be run: %s' % (path, error.strerror))
    if run.returncode:
        raise BlotterError('%s ended with status %d' % (path, run.returncode))
    said = Said(path, run.stdout)
    answers = [said.surface() if asked.startswith('build ') else said.words(asked[:6].rstrip()) for asked in lines]
    if said.left:
        raise BlotterError('%s answered %d lines too many' % (path, len(said.left)))
    return answers


class Said:
    """What the program said, taken line by line."""

    def __init__(self, path, text):
        self.path, self.left = path, text.split(b'\n')[::-1]
        if self.left.pop(0):
            raise BlotterError('%s broke off within a line' % path)

    def words(self, name):
        """The words of the next line, which must be of that name."""
        if not self.left:
            raise BlotterError('%s answered too few lines' % self.path)
        text, shape = self.left.pop(), SHAPES[name]
        words = WORD.findall(text[6:])
        if text[:6] != b'%-6s' % name.encode() or len(words) != len(shape) or len(text) != 6 + 17 * len(words):
            raise BlotterError('%s answered %r to %s' % (self.path, text[:60].decode('ascii', 'replace'), name))
        return tuple(struct.unpack('>d', bytes.fromhex(w.decode()))[0] if kind == 'f' else int(w, 16) for kind, w in zip(shape, words))

    def surface(self):
        """The answer to a build with the lines that follow it."""
        number, strikes, expiries = self.words('build')
        across = [self.words('strike')[0] for _ in range(strikes)]
        down = [self.words('expiry')[0] for _ in range(expiries)]
        return Surface(number, across, down, [[Cell(*self.words('cell')) for _ in across] for _ in down])
