"""Numbers as they are written in cells, and as they are shown."""

import math
import re
from decimal import Decimal
from fractions import Fraction

POINT = re.compile(r'[+-]?([0-9]+\.?[0-9]*|\.[0-9]+)([eE][+-]?[0-9]{1,6})?')
COMMA = re.compile(r'[+-]?([0-9]+,[0-9]*|,[0-9]+)([eE][+-]?[0-9]{1,6})?')
# 1,234 is one and a bit to one reader and over a thousand to another; so is 1.234.
EITHER = re.compile(r'[+-]?[1-9][0-9]{0,2}[.,][0-9]{3}')
# 27 1/4, 1/4 and 27'2: a whole number and parts of one.
FRACTION = re.compile(r'(?:([0-9]{1,300}) +)?([0-9])/([248])')
TICKS = re.compile(r"([0-9]{1,300})'([0-9])")


def without_percent(text):
    """The number before a percent sign, and whether there is one."""
    return (text[:-1].rstrip(), True) if text.endswith('%') else (text, False)


def nearest(text, percent=False):
    """The float nearest to a decimal number, or to a hundredth of it; None for other text."""
    if not POINT.fullmatch(text):
        return None
    if not percent:
        return float(text)
    digits, _, exponent = text.lower().partition('e')
    return float('%se%d' % (digits, int(exponent or 0) - 2))


def is_ticks(text):
    return bool(FRACTION.fullmatch(text) or TICKS.fullmatch(text))


def in_ticks(text, parts):
    """The float of a price in ticks of a quarter (4 parts) or an eighth (8); None for what is no whole number of ticks."""
    fraction, ticks = FRACTION.fullmatch(text), TICKS.fullmatch(text)
    if fraction:
        whole, over, under = fraction[1] or 0, int(fraction[2]), int(fraction[3])
    elif ticks:
        whole, over, under = ticks[1], int(ticks[2]), parts
    else:
        x = nearest(text)
        return x if x is not None and (math.isinf(x) or (x * parts).is_integer()) else None
    return float(int(whole) + Fraction(over, under)) if over < under <= parts else None


def exact(x):
    """The shortest decimal that is this float and no other."""
    if math.isnan(x):
        return 'blank'
    if math.isinf(x):
        return 'infinity' if x > 0 else '-infinity'
    text = repr(x)
    if 1e-7 < abs(x) < 1e16:
        text = format(Decimal(text), 'f')
    return text[:-2] if text.endswith('.0') else text


def rounded(x, digits=6):
    """A decimal of so many digits."""
    return exact(float('%.*g' % (digits, x)))


def in_percent(x, digits=2):
    """In percent; what is above 0 never reads as 0."""
    least = 10.0 ** -digits
    return '<%.*f' % (digits, least) if 0 < 100 * x < least / 2 else '%.*f' % (digits, 100 * x)
