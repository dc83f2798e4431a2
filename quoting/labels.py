"""Labels of an axis: the exact number where there is room for it, else one that is plainly marked as shortened."""

import math
from collections import Counter
from decimal import Decimal

from quoting.numbers import exact

MARK = '~'
# Characters of a label that is told whole: 1234567.5 has nine.
LABEL = 9
# No float's shortest decimal is longer, in the one form or the other.
WIDEST = 24


def axis_labels(values, width=LABEL):
    """A label for each value, of at most so many characters where they can be told apart in that; unequal values have unequal labels."""
    values = list(values)
    shown = [label(x, width) for x in values]
    for wider in range(width + 1, WIDEST + 1):
        taken = Counter(text for _, text in set(zip(values, shown)))
        if max(taken.values(), default=1) == 1:
            break
        shown = [label(x, wider) if taken[text] > 1 else text for x, text in zip(values, shown)]
    return shown


def shortened(labels):
    """Whether one of the labels is marked."""
    return any(text.startswith(MARK) for text in labels)


def label(x, width):
    """The shortest decimal that is this float, if it fits; else as many digits of it as fit, marked."""
    if not math.isfinite(x):
        return exact(x)
    for text in forms(x, 17):
        if len(text) <= width:
            return text
    for digits in range(16, 0, -1):
        for text in forms(x, digits):
            if len(MARK + text) <= width:
                return MARK + text
    return MARK + min(forms(x, 1), key=len)


def forms(x, digits):
    """A number rounded to so many digits, as 1234.5 and as 1.2345e3."""
    rounded = x if digits > 16 else float('%.*g' % (digits, x))
    sign, figures, exponent = Decimal(repr(rounded)).normalize().as_tuple()
    first, *rest = map(str, figures)
    mantissa = '-' * sign + first + '.' * bool(rest) + ''.join(rest)
    return exact(rounded), '%se%d' % (mantissa, exponent + len(rest))
