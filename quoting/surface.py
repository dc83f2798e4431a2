"""The surface as the program hands it out."""

from collections import namedtuple

# A cell's volatility, and how many accepted quotes belong to it.
Cell = namedtuple('Cell', 'value count')
# Rows are expiries, columns strikes. A refused surface has the refusal's number and no cells; that of an empty book has none either.
Surface = namedtuple('Surface', 'number strikes expiries cells')
