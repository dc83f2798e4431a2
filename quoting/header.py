"""The header of a tray: which column stands where, by what name and in what unit."""

import re
from collections import namedtuple

from quoting.faults import InputError, told

COLUMNS = ('kind', 'strike', 'expiry', 'value')
ALIASES = {'type': 'kind', 'c/p': 'kind', 'k': 'strike', 't': 'expiry', 'price': 'value'}
# A unit in brackets behind a name: how many ticks make a whole, None where numbers are plain.
TICKS = {'quarters': 4, 'eighths': 8}
UNITS = {'kind': {}, 'strike': TICKS, 'expiry': {'years': None}, 'value': TICKS}
NAME = re.compile(r'([^()]*?) *(?:\(([^()]*)\))?')

# A cell of the header that names a column: the column, whether by its own name, and the ticks to a whole.
Named = namedtuple('Named', 'column own ticks')
# The header's cells, where each column stands, the ticks of each, other names that are read, and those that are not.
Header = namedtuple('Header', 'cells places ticks aliases unread')


def named(cell):
    """What a cell of the header names, None where that is no column."""
    match = NAME.fullmatch(cell.strip().lower())
    if not match:
        return None
    name, unit = match.groups()
    column = ALIASES.get(name, name)
    if column not in COLUMNS or unit is not None and unit.strip() not in UNITS[column]:
        return None
    return Named(column, name == column, UNITS[column][unit.strip()] if unit is not None else None)


def names_in(cells):
    """How many columns are named."""
    return len({found.column for found in map(named, cells) if found})


def candidates(names, column):
    """The places that name a column: by its own name, else by another."""
    places = [i for i, found in enumerate(names) if found and found.column == column]
    return [i for i in places if names[i].own] or places


def read(line, cells):
    names = list(map(named, cells))
    found = {column: candidates(names, column) for column in COLUMNS}
    missing = [c for c in COLUMNS if not found[c]]
    if missing:
        raise InputError('line %d: the header lacks the column %s; it has %s' % (
            line, ' and '.join(missing), ', '.join(told(c) for c in cells if c)))
    twice = [c for c in COLUMNS if len(found[c]) > 1]
    if twice:
        raise InputError('line %d: the header has the column %s twice' % (line, ' and '.join(twice)))
    places = {c: i for c, (i,) in found.items()}
    return Header(
        cells, places, {c: names[i].ticks for c, i in places.items()},
        [(cells[i], c) for c, i in places.items() if cells[i].lower() != c],
        [c for i, c in enumerate(cells) if c and i not in places.values()])
