#!/usr/bin/env python3
"""Makes the files `stdin` (lists of prices to feed) and `stdout` (the answers to expect) of this program.

    python3 vectors.py            writes both beside itself

The expected answers come from `Loop` below: the loop of the Rust's `implied_volatility` (src/options/greeks.rs) line by line in
Python's floats, which are IEEE doubles, with document 01's checks 5, 11 and 13 where 01 puts them and 21 before all. It does
not look at the Rattle code. Prices are recorded as bits, so that nothing is priced when the program runs.
"""
import math
import os
import random
import struct

TOL = 1e-6
MAX_ITER = 50
EPSILON = 2.0 ** -52
NAN = float("nan")
INF = float("inf")
ENDED = [0.0] * 9 + [0, 0]


def bits(x):
    return struct.unpack("<Q", struct.pack("<d", x))[0]


def ieee_div(x, y):
    """x / y, where Python raises at a zero divisor."""
    if y != 0.0 or math.isnan(x) or math.isnan(y):
        return x / y
    if x == 0.0:
        return NAN
    return math.copysign(INF, x) * math.copysign(1.0, y)


def f64_min(x, y):
    """Rust's f64::min."""
    if math.isnan(x):
        return y
    if math.isnan(y):
        return x
    return y if y < x else x


class Refusal(Exception):
    pass


class Loop:
    """One solver. `loop` is the Rust's loop: it yields each volatility and is sent the price there."""

    def __init__(self, market):
        self.market = market
        self.rounds = 0
        self.evaluations = 0
        self.a = self.c = 1e-6
        self.b = 10.0
        self.fa = self.fb = self.fc = self.d = self.e = 0.0
        self.ended = False

    def state(self):
        return [self.market, self.a, self.b, self.c, self.fa, self.fb, self.fc, self.d, self.e, self.rounds, self.evaluations]

    def f(self, price):
        self.evaluations += 1
        error = price - self.market
        if math.isnan(error) or math.isinf(error):
            raise Refusal(11)
        return error

    def loop(self):
        fa = self.f((yield self.a))
        self.fa = fa
        fb = self.f((yield self.b))
        if fa * fb > 0.0:
            raise Refusal(12)
        a, b = self.a, self.b
        c = a
        fc = fa
        d = b - a
        e = d
        while self.rounds < MAX_ITER:
            if fb * fc > 0.0:
                c = a
                fc = fa
                d = b - a
                e = d
            if abs(fc) < abs(fb):
                a = b
                b = c
                c = a
                fa = fb
                fb = fc
                fc = fa
            tol1 = 2.0 * EPSILON * abs(b) + 0.5 * TOL
            xm = 0.5 * (c - b)
            if abs(xm) <= tol1 or abs(fb) < TOL:
                return (b, fb, c, fc)
            if abs(e) >= tol1 and abs(fa) > abs(fb):
                s = ieee_div(fb, fa)
                if abs(a - c) < EPSILON:
                    p, q = 2.0 * xm * s, 1.0 - s
                else:
                    q2 = ieee_div(fa, fc)
                    r2 = ieee_div(fb, fc)
                    p = s * (2.0 * xm * q2 * (q2 - r2) - (b - a) * (r2 - 1.0))
                    q = (q2 - 1.0) * (r2 - 1.0) * (s - 1.0)
                if p > 0.0:
                    q = -q
                else:
                    p = -p
                if 2.0 * p < f64_min(3.0 * xm * q - abs(tol1 * q), abs(e) * abs(q)):
                    e = d
                    d = ieee_div(p, q)
                else:
                    d = xm
                    e = d
            else:
                d = xm
                e = d
            a = b
            fa = fb
            b += d if abs(d) > tol1 else math.copysign(tol1, xm)
            self.rounds += 1
            # what a state holds between two prices; the error at b is not known yet
            self.a, self.b, self.c, self.fa, self.fb, self.fc, self.d, self.e = a, b, c, fa, 0.0, fc, d, e
            fb = self.f((yield b))
            # the points are the state's, also where it was made by hand
            a, b, c = self.a, self.b, self.c
        raise Refusal(13)


class Desk:
    """The lines of `stdin`, and the lines of `stdout` that answer them."""

    def __init__(self):
        self.sent = []
        self.told = []
        self.solver = None
        self.asked = None

    def line(self, letter, n):
        self.sent.append("%s%016x" % (letter, n))

    def end(self, head, state):
        self.told.append(head)
        self.told.append("  state " + " ".join(["%016x" % bits(x) for x in state[:9]] + [str(n) for n in state[9:]]))

    def ask(self, volatility):
        s = self.solver
        self.asked = volatility
        assert 1e-6 <= volatility <= 10.0
        self.told.append("ask %016x %d %d" % (bits(volatility), s.rounds, s.evaluations))

    def start(self, market):
        self.line("S", bits(market))
        self.solver = s = Loop(market)
        if not (math.isfinite(market) and market > 0.0):
            s.ended = True
            self.end("refused 5 0", ENDED)
            return
        s.steps = s.loop()
        self.ask(next(s.steps))

    def feed(self, price):
        self.line("P", bits(price))
        s = self.solver
        if s.ended:
            self.end("refused 21 0", ENDED)
            return
        if s.market == 0.0 or s.rounds > 50 or s.evaluations > 52 or not all(1e-6 <= x <= 10.0 for x in (s.a, s.b, s.c)):
            self.end("refused 21 0", s.state())
            return
        try:
            self.ask(s.steps.send(price))
        except Refusal as r:
            s.ended = True
            self.end("refused %d %d" % (r.args[0], s.evaluations), ENDED)
        except StopIteration as r:
            s.ended = True
            self.end("found " + " ".join("%016x" % bits(x) for x in r.value) + " %d" % s.evaluations, ENDED)

    def hand(self, letter, value):
        """A state made by hand: M its market price, A, B and C its points, R its rounds, E its evaluations."""
        s = self.solver
        if letter == "M":
            self.line("M", bits(value))
            s.market = value
        elif letter in "ABC":
            self.line(letter, bits(value))
            setattr(s, letter.lower(), value)
        elif letter == "R":
            self.line("R", value)
            s.rounds = value
        else:
            self.line("E", value)
            s.evaluations = value

    def live(self):
        return not self.solver.ended

    def prices(self, market, price, after=0):
        """A run on a function's prices, then so many prices more than it asked for."""
        self.start(market)
        got = []
        while self.live():
            got.append(price(self.asked))
            self.feed(got[-1])
        for _ in range(after):
            self.feed(market)
        return got

    def listed(self, market, prices):
        self.start(market)
        for p in prices:
            self.feed(p)


def normal(x):
    return 0.5 * math.erfc(-x / math.sqrt(2.0))


def black_scholes(spot, strike, years, rate, put):
    def price(v):
        d1 = (math.log(spot / strike) + (rate + 0.5 * v * v) * years) / (v * math.sqrt(years))
        d2 = d1 - v * math.sqrt(years)
        disc = math.exp(-rate * years)
        if put:
            return strike * disc * normal(-d2) - spot * normal(-d1)
        return spot * normal(d1) - strike * disc * normal(d2)

    return price


def errors(rng, pool):
    """Random errors of a pool of sizes, either sign after the ends, which oppose each other."""
    return [-rng.choice(pool), rng.choice(pool)] + [rng.choice(pool) * rng.choice([-1.0, 1.0]) for _ in range(60)]


def replay(market, prices):
    """The solver after these prices, and how it ended: None where it still asks."""
    s = Loop(market)
    steps = s.loop()
    next(steps)
    try:
        for p in prices:
            steps.send(p)
    except Refusal as r:
        return s, r.args[0]
    except StopIteration:
        return s, 0
    return s, None


def exhausting(seed):
    """Prices on which the solver uses all its 50 rounds: of some errors, always the one that leaves b and c farthest apart."""
    rng = random.Random(seed)
    market = 2.0
    prices = [1.0, 3.0]
    while True:
        best = None
        for sign in (-1.0, 1.0):
            for k in range(-5, 7):
                price = market + sign * 10.0 ** k * rng.uniform(1.0, 3.0)
                s, how = replay(market, prices + [price])
                if how == 13:
                    return market, prices + [price]
                if how is None and (best is None or abs(s.c - s.b) > best[0]):
                    best = (abs(s.c - s.b), price)
        prices.append(best[1])


def main():
    d = Desk()
    # document 01's examples
    d.listed(1.0, [0.5, 0.25])
    d.listed(1.0, [0.5, 1.0])
    # 5: no market price; fed, the ended state is handed back
    for market in (NAN, INF, -INF, 0.0, -0.0, -1.0):
        d.listed(market, [1.0])
    # ordinary: Black-Scholes prices, one fed after the end
    base = None
    for spot, strike, years, rate, put, v in [(100, 100, 0.5, 0.05, False, 0.2), (100, 110, 0.25, 0.02, True, 0.35), (420, 300, 2.0, -0.01, False, 0.6),
                                              (5.25, 6.0, 1.5, 0.03, True, 1.7), (100, 100, 0.01, 0.0, False, 0.05), (1e6, 1e6, 30.0, 0.04, False, 3.0)]:
        price = black_scholes(float(spot), float(strike), years, rate, put)
        got = d.prices(price(v), price, after=1)
        base = base or (price(v), got)
    # other shapes: a line, a square, a step that only the points' distance ends, one met exactly at an end, a price on the market at once
    d.prices(0.5, lambda v: v, after=1)
    d.prices(7.0, lambda v: v * v)
    d.prices(1.0, lambda v: 0.0 if v < 0.3 else 1e6, after=2)
    d.prices(1.0, lambda v: 0.0 if v < 9.7 else 1e6, after=1)
    d.prices(3.0, lambda v: 3.0)
    d.prices(2.0, lambda v: 2.0 - 0.5 if v < 1.0 else 2.0)
    # an error of exactly the tolerance is not under it; the float below is
    d.listed(1.0, [0.0, 1.0 + TOL])
    d.prices(1.0, lambda v: 0.0 if v < 5.0 else 1.0 + TOL)
    d.listed(1e-6, [-1.0, 2e-6])
    d.listed(1e-6, [-1.0, math.nextafter(2e-6, 0.0)])
    # none that brackets, and a product that underflows to 0
    for pair in ([2.0, 3.0], [0.25, 0.5], [0.0, -5.0], [1e300, 1e300]):
        d.listed(1.0, pair + [1.0])
    d.listed(2.2250738585072014e-308, [4e-308, 4e-308, 1.0, 1.0])
    # not-a-number, infinities and an overflowing difference at each position of an ordinary list
    market, got = base
    for k in range(len(got)):
        for bad in (NAN, INF, -INF):
            d.listed(market, got[:k] + [bad, got[k]])
    d.listed(1e308, [-1.7e308])
    d.listed(1e308, [1.0, -1.7e308])
    # lists that exhaust 50 rounds; the last price may be refused by 11 first, and nothing comes after the end
    for seed in (1, 2):
        market, prices = exhausting(seed)
        d.listed(market, prices + [market])
        d.listed(market, prices[:51] + [NAN, market])
        d.listed(market, prices[:51] + [market])
    # extreme errors: quotients that overflow, vanish or are no number
    rng = random.Random(5)
    pools = [[1e308, 1e-6, 1.0], [1e300, 1e-300, 1e-5, 1.0], [1e-6, 2e-6, 1.1e-6], [5e-324, 1e-320, 1e-6, 1e6], [1.0, 1.0 + 2.0 ** -52, 2.0]]
    for i in range(50):
        pool = pools[i % len(pools)]
        d.start(1e-12)
        for x in errors(rng, pool):
            if not d.live():
                break
            d.feed(x)
    # states made by hand, from a live solver: too many rounds or evaluations, or a market of 0, are handed back unaltered
    for letter, value in (("R", 51), ("R", 2 ** 64 - 1), ("E", 53), ("E", 2 ** 64 - 1), ("M", 0.0), ("M", -0.0)):
        d.listed(1.0, [0.5, 3.0, 1.5])
        d.hand(letter, value)
        d.feed(1.25)
        d.feed(1.25)
    # so is a point not in 0.000001 to 10, whichever it is; in range again, it is answered
    for letter in "ABC":
        for value in (NAN, INF, -INF, 0.0, -0.0, -1.0, math.nextafter(1e-6, 0.0), math.nextafter(10.0, INF)):
            for prices in ([], [0.5], [0.5, 3.0, 1.5]):
                d.listed(1.0, prices)
                kept = getattr(d.solver, letter.lower())
                d.hand(letter, value)
                d.feed(1.25)
                d.hand(letter, kept)
                d.feed(1.25)
    # 21 comes before 11, 12 and 13
    for letter in "ABC":
        d.listed(1.0, [0.5, 3.0, 1.5])
        d.hand(letter, 0.0)
        d.feed(NAN)
        d.listed(1.0, [0.5])
        d.hand(letter, 11.0)
        d.feed(0.25)
        d.listed(1.0, [0.5, 3.0, 1.5])
        d.hand(letter, NAN)
        d.hand("R", 50)
        d.feed(1.25)
    # other points in range, the ends with them, are answered as they stand: before the first price, before the second, and in a round
    for letter in "ABC":
        for value in (1e-6, 10.0, 0.5, 3.0):
            for prices in ([], [0.5], [0.5, 3.0, 1.5]):
                d.listed(1.0, prices)
                d.hand(letter, value)
                for price in (0.25, 1.75, 0.5, 3.0, 1.25, 0.75):
                    d.feed(price)
    # at the bounds it is answered: 13 with 50 rounds, one more round with 49, and the 53rd evaluation is the last
    for letter, value in (("R", 50), ("R", 49), ("E", 52), ("M", NAN)):
        d.listed(1.0, [0.5, 3.0, 1.5])
        d.hand(letter, value)
        d.feed(1.25)
        d.feed(1.25)
        d.feed(1.25)
    here = os.path.dirname(os.path.abspath(__file__))
    with open(os.path.join(here, "stdin"), "w") as f:
        f.write("".join(l + "\n" for l in d.sent))
    with open(os.path.join(here, "stdout"), "w") as f:
        f.write("".join(l + "\n" for l in d.told))


main()
