#!/usr/bin/env python3
"""Makes the two files that the test program normal_test is run on: `stdin`, the test vectors, and `stdout`, what the program must write.

    python3 vectors.py          writes stdin and stdout beside this file

The expected bits come from a literal transcription, below, of document 01's paragraphs on the square root, the tables, exp (with document 02's S-8),
ln, erfc and of src/normal.rs, in Python's floats (binary64, each operation rounded once); the root is math.sqrt, which IEEE 754 has correctly rounded.
Nothing of the Rattle code or of its definitions is used. Standard library only.

Published values: M. Abramowitz and I. A. Stegun, Handbook of Mathematical Functions, 1964: table 4.2 (natural logarithms, 16 decimals), table 4.4
(exponential function), table 7.1 (error function, 10 decimals), table 26.1 (normal probability function and density, 15 decimals to x = 3). They are
checked to the digits given here: within half a unit of the last one, and four last places of the answer more.

A line of stdin is 58 bytes: name (4), '=' for bits or '~' for digits, input, expected, tolerance (16 hexadecimal digits each), a line feed.
1st and 2nd are the two values of cdf_pair; there the last field is the other argument. A line that begins with '#' is a comment, as wide as the others.
"""
import math
import pathlib
import random
import struct
from fractions import Fraction

NAN, INF = math.nan, math.inf


def bits(x):
    return 0x7FF8000000000000 if x != x else struct.unpack(">Q", struct.pack(">d", x))[0]


def real(b):
    return struct.unpack(">d", struct.pack(">Q", b))[0]


def up(x, n=1):
    """n last places away from zero (towards it where n is negative)."""
    return real(bits(x) + n)


# ---- document 01, transcribed
E = [1 / math.factorial(i) for i in range(14)]
L = [1 / (2 * i + 1) for i in range(11)]
H = 0.693147180369123816490
J = 1.90821492927058770002e-10


def sqrt(v):
    if v != v or v < 0:
        return NAN
    return math.sqrt(v)


def exp(v):
    if v != v:
        return NAN
    if v > 709:
        return INF
    if v < -745:
        return 0.0
    k = math.floor(v * 1.4426950408889634 + 0.5)
    r = (v - k * H) - k * J
    p = E[13]
    for i in range(12, -1, -1):
        p = p * r + E[i]
    if v < -708:
        return p * math.ldexp(1.0, k + 200) * math.ldexp(1.0, -200)
    return p * math.ldexp(1.0, k)


def ln(v):
    if v != v:
        return NAN
    if v == 0:
        return -INF
    if v < 0:
        return NAN
    if v == INF:
        return INF
    m, e = math.frexp(v)
    m, e = m * 2, e - 1
    if m > 1.4142135623730951:
        m, e = m / 2, e + 1
    z = (m - 1) / (m + 1)
    w = z * z
    q = L[10]
    for i in range(9, -1, -1):
        q = q * w + L[i]
    return e * H + ((2 * z) * q + e * J)


def erfc(v):
    if v != v:
        return NAN
    if v < 0:
        return 2 - erfc(-v)
    if v < 2:
        g, total = v, v
        for n in range(40):
            g = (g * ((2 * v) * v)) / (2 * n + 3)
            total = total + g
        return 1 - (1.1283791670955126 * exp(-(v * v))) * total
    c = v
    for j in range(60, 0, -1):
        c = v + (j / 2) / c
    return (exp(-(v * v)) * 0.5641895835477563) / c


def pdf(x):
    return 0.3989422804014327 * exp(-0.5 * x * x)


def cdf(x):
    return 0.5 * erfc(-x / 1.4142135623730951)


FUNCTIONS = {"sqrt": sqrt, "exp": exp, "ln": ln, "erfc": erfc, "pdf": pdf, "cdf": cdf}

# ---- the inputs whose bits are compared
LEAST, LAST_SUBNORMAL, LEAST_NORMAL, LARGEST = real(1), real(0x000FFFFFFFFFFFFF), real(0x0010000000000000), real(0x7FEFFFFFFFFFFFFF)
ENDS = [0.0, -0.0, INF, -INF, NAN]
TINY = [LEAST, real(2), real(3), LAST_SUBNORMAL, LEAST_NORMAL, up(LEAST_NORMAL)]


def around(x):
    return [up(x, -1), x, up(x)]


def some(seed, count, make):
    rng = random.Random(seed)
    return [make(rng) for _ in range(count)]


INPUTS = {
    "sqrt": ENDS + TINY + [-LEAST, -1.0, LARGEST, up(LARGEST, -1), 0.25, 3.0, 9.0, 1e300, 1e-300]
    + around(0.5) + around(1.0) + around(2.0) + around(4.0) + around(real(0x4340000000000000)) + around(real(0x3CA0000000000000))
    + some(1, 24, lambda r: real(r.randrange(0x7FF0000000000000))),
    # -0.328 and -10, and below 0.594, 0.7082 and 1.391, tell a table with an entry off or one short from the right one.
    "exp": ENDS + TINY + [-LEAST, 1.0, -1.0, 0.5, -0.5, -0.328, -10.0, 100.0, -100.0, 709.5, -708.5, 1e300, -1e300, LARGEST, -LARGEST]
    + [-709.0, -744.44, -745.5] + around(709.0) + around(-708.0) + around(-745.0)
    + around(0.34657359027997264) + around(-0.34657359027997264) + around(1.0397207708399179)
    + some(2, 24, lambda r: r.uniform(-710, 710)) + some(3, 8, lambda r: r.uniform(-1, 1)) + some(9, 24, lambda r: r.uniform(-745.2, -708)),
    "ln": ENDS + TINY + [-LEAST, -1.0, LARGEST, up(LARGEST, -1), 10.0, 0.1, 3.0, 0.594, 0.7082, 1.391]
    + around(0.5) + around(1.0) + around(2.0) + around(4.0) + around(1.4142135623730951) + around(2.8284271247461903) + around(0.7071067811865476)
    + around(real(0x000B504F333F9DE6)) + some(4, 24, lambda r: real(r.randrange(0x7FF0000000000000))) + some(5, 8, lambda r: r.uniform(0, 3)),
    "erfc": ENDS + TINY + [-LEAST, 0.5, -0.5, 1.0, -1.0, 3.0, -3.0, 5.0, -5.0, 26.0, 27.0, 28.0, LARGEST, -LARGEST]
    + around(2.0) + around(-2.0) + around(26.60826939106451) + around(27.294688127912362) + some(6, 24, lambda r: r.uniform(-6, 6))
    + some(10, 8, lambda r: r.uniform(26.6, 27.3)),
    "pdf": ENDS + TINY + [1.0, -1.0, 2.0, 5.0, -5.0, LARGEST, -LARGEST] + around(37.62977544445355) + around(-37.62977544445355)
    + around(38.600518131237564) + around(-38.600518131237564) + some(7, 16, lambda r: r.uniform(-8, 8)) + some(11, 8, lambda r: r.uniform(37.6, 38.6)),
    "cdf": ENDS + TINY + [1.0, -1.0, 1.96, -1.96, 5.0, -5.0, 8.0, -8.0, 38.0, -38.0, LARGEST, -LARGEST] + around(-2.8284271247461903)
    + around(2.8284271247461903) + around(-38.600518131237564) + some(8, 24, lambda r: r.uniform(-8, 8)) + some(12, 8, lambda r: r.uniform(-38.6, -37.6)),
}

# Two values at once: each of these beside each. By the series, by the fraction, either side of where they meet, the fraction's numerator subnormal
# (from 26.6 times the root of 2) and 0 (from 27.3 times it), mirrored, and the ends.
PAIRED = [0.0, -0.0, LEAST, 0.3, -1.7, up(2.8284271247461903, -1), 2.8284271247461903, -2.8284271247461903, 5.0, -37.0, 38.0, -40.0, LARGEST, INF, -INF, NAN]

# ---- published digits: function, input, digits as printed, and what they are digits of
PUBLISHED = [
    ("A&S 1964, table 4.2: ln x, 16 decimals", "ln", [
        ("0.1", "-2.3025850929940457"), ("0.5", "-0.6931471805599453"), ("0.9", "-0.1053605156578263"), ("1.1", "0.0953101798043249"),
        ("1.5", "0.4054651081081644"), ("2.0", "0.6931471805599453"), ("2.1", "0.7419373447293773")]),
    ("A&S 1964, table 4.4: exp x", "exp", [
        ("0.1", "1.105170918075648"), ("0.5", "1.648721270700128"), ("1.0", "2.718281828459045"), ("-0.5", "0.606530659712633"),
        ("-1.0", "0.367879441171442"), ("10.0", "22026.4657948067"), ("-10.0", "0.0000453999297624849")]),
    ("A&S 1964, table 7.1: 1 - erf x, 10 decimals", "erfc", [
        ("0.1", "0.8875370840"), ("0.5", "0.4795001222"), ("1.0", "0.1572992071"), ("1.5", "0.0338948535"), ("2.0", "0.0046777350")]),
    ("A&S 1964, table 26.1: Z(x), 15 decimals", "pdf", [
        ("0.0", "0.398942280401433"), ("0.5", "0.352065326764299"), ("1.0", "0.241970724519143"), ("1.5", "0.129517595665892"),
        ("2.0", "0.053990966513188"), ("2.5", "0.017528300493569"), ("3.0", "0.004431848411938")]),
    ("A&S 1964, table 26.1: P(x), 15 decimals", "cdf", [
        ("0.0", "0.500000000000000"), ("0.5", "0.691462461274013"), ("1.0", "0.841344746068543"), ("1.5", "0.933192798731142"),
        ("2.0", "0.977249868051821"), ("2.5", "0.993790334674224"), ("3.0", "0.998650101968370")]),
    ("A&S 1964, table 26.1: 1 - P(x), 15 decimals", "cdf", [
        ("-0.5", "0.308537538725987"), ("-1.0", "0.158655253931457"), ("-2.0", "0.022750131948179"), ("-3.0", "0.001349898031630")]),
]


def line(name, mark, x, wanted, tolerance):
    return f"{name:<4} {mark} {bits(x):016X} {bits(wanted):016X} {bits(tolerance):016X}\n"


def comment(text):
    return f"# {text}"[:55].ljust(56) + "#\n"


def main():
    vectors, said, count = [], [], 0
    for name, inputs in INPUTS.items():
        vectors.append(comment(f"{name}: bits, from document 01 transcribed (vectors.py)"))
        for x in inputs:
            y = FUNCTIONS[name](x)
            vectors.append(line(name, "=", x, y, 0.0))
            said.append(f"{name:<4} {bits(x):016X} {bits(y):016X} ok\n")
    vectors.append(comment("cdf_pair: the bits of cdf, of each argument"))
    for x in PAIRED:
        for other in PAIRED:
            for name in ("1st", "2nd"):
                vectors.append(line(name, "=", x, cdf(x), other))
                said.append(f"{name:<4} {bits(x):016X} {bits(cdf(x)):016X} ok\n")
    for source, name, rows in PUBLISHED:
        vectors.append(comment(source))
        for text, digits in rows:
            x, wanted = float(text), float(digits)
            y = FUNCTIONS[name](x)
            tolerance = 0.5 * 10.0 ** -len(digits.split(".")[1]) + 4 * math.ulp(wanted)
            if abs(Fraction(y) - Fraction(digits)) > Fraction(tolerance):
                raise SystemExit(f"{name}({text}) is {y!r}, published {digits}")
            vectors.append(line(name, "~", x, wanted, tolerance))
            said.append(f"{name:<4} {bits(x):016X} {bits(y):016X} ok\n")
    count = len(said)
    said.append(f"{count} ok, 0 MISMATCH\n")
    here = pathlib.Path(__file__).parent
    assert all(len(v) == 58 for v in vectors)
    (here / "stdin").write_text("".join(vectors))
    (here / "stdout").write_text("".join(said))
    print(count, "vectors")


if __name__ == "__main__":
    main()
