"""The command with the program itself, where it is built: what no stand-in can show."""

import json
import unittest
from bisect import bisect_right

from quote.harness import PROGRAM, Runs, header

# An option far in or out of the money, and whether its price says nothing of volatility.
FAR = (
    ('call,300,0.25,155.97666', True), ('call,300,0.25,155.976666', True), ('call,300,0.25,155.98', False), ('call,300,0.25,156.25', False),
    ('put,600,0.25,140.297', False), ('put,600,0.25,140.375', False), ('call,700,0.25,0.125', False), ('call,900,0.25,0.001', False),
    ('call,900,0.25,0.00005', False), ('call,900,0.25,0.000001', True), ('call,900,0.25,0.0000005', True), ('call,452.25,0.25,5.7', False),
    ('call,200,0.08,253.125', False), ('call,10,0.08,442.29', True), ('call,10,0.08,442.375', False), ('put,10,5,0.125', False),
    ('call,450,0.25,27.25', False))
# Strikes, a spot, and the strike at the money: bunched low, a tie, a spot a hair off it, one strike, a spot outside, two with one float difference.
NEAREST = (
    ((300, 301, 302, 303, 440, 500), 452.25, 440), ((440, 464.5), 452.25, 440), ((440, 464.5), 452.25 + 2.0 ** -44, 464.5), ((7,), 452.25, 7),
    ((500, 510, 520), 452.25, 500), ((300, 310, 320), 452.25, 320), ((1, 1.00000001), 1e9, 1), ((1, 2, 2.00000001), 1e9, 2))


@unittest.skipUnless(PROGRAM.is_file(), 'the program is not built')
class TrueProgram(Runs):
    def document(self, rows, *options):
        run = self.run_quote(b'spot,452.25,rate,0.05\n' + header(*rows), '--json', '-', *options, KITESETTEE_BLOTTER=str(PROGRAM))
        self.assertEqual(run.returncode, 0, run.stderr)
        return json.loads(run.stdout)['trays'][0]

    def test_prices_that_say_nothing(self):
        found = self.document([row for row, _ in FAR])['quotes']
        self.assertEqual([(row, quote['says_nothing']) for (row, _), quote in zip(FAR, found)], list(FAR))

    def test_answers_offered_again_are_the_same_bits(self):
        rows = ['put,400,0.08,1.125', 'call,450,0.25,27.25', 'call,500,0.75,26.5', 'call,500,0.75,27']
        found = self.document(rows)
        again = self.document(['vol,%r,%r,%r' % (q['strike'], q['expiry'], q['volatility']) for q in found['quotes']])
        self.assertEqual(again['surface'], found['surface'])

    def test_rows_of_a_cell(self):
        """The cell that the warnings look a row up in is the one that the program counts it in."""
        hairs = [450 + k * 2.0 ** -40 for k in range(-5, 6)]
        found = self.document(['vol,%r,%r,0.25' % (strike, 0.25 + t * 1e-13) for strike in hairs for t in range(0, 60, 7)])['surface']
        counts = [[0] * len(found['strikes']) for _ in found['expiries']]
        for strike in hairs:
            for t in range(0, 60, 7):
                counts[bisect_right(found['expiries'], 0.25 + t * 1e-13) - 1][bisect_right(found['strikes'], strike) - 1] += 1
        self.assertGreater(len(counts), 1)
        self.assertEqual(counts, found['counts'])

    def test_at_the_money(self):
        """A reading there has the bits of its cell, quoted or filled."""
        for strikes, spot, wanted in NEAREST:
            options = [(k, t) for t in (0.25, 0.5, 2) for k in strikes if len(strikes) == 1 or (k, t) != (wanted, 0.5)]
            found = self.document(['vol,%r,%r,%r' % (k, t, 0.2 + k % 7 / 30 + t / 70) for k, t in options], '--spot', repr(spot))
            built = found['surface']
            place = built['strikes'].index(wanted)
            self.assertEqual(
                [(m['number'], m['expiry'], m['strike'], m['volatility'], m['count']) for m in found['at_the_money']],
                [(0, t, wanted, cells[place], counts[place]) for t, cells, counts in zip(built['expiries'], built['cells'], built['counts'])])

    def test_the_side_of_a_price(self):
        low, high = self.document(['call,300,0.25,155', 'put,400,0.25,6375'])['quotes']
        self.assertIn('price 155 is too low; the model\'s price is ~155.9767 at volatility 0.000001 and ', low['words'])
        self.assertIn('price 6375 is too high; ', high['words'])

    def test_greeks_of_call_and_put(self):
        call, put = self.document(['call,450,0.25,27.25', 'put,450,0.25,19.4'], '--greeks')['quotes']
        self.assertAlmostEqual(call['model_price'], 27.25, 5)
        self.assertTrue(0 < call['delta'] < 1 and -1 < put['delta'] < 0)
        self.assertEqual((call['theta_day'], call['vega_point']), (call['theta_year'] / 365, call['vega'] / 100))

    def test_far_from_the_money(self):
        """Beyond 37.6 deviations a call's price is subnormal, and still no 0; at 38.6 it is."""
        prices = [row['model_price'] for row in self.document(['vol,603,0.00145,0.2', 'vol,604,0.00145,0.2', 'vol,607,0.00145,0.2'], '--greeks')['quotes']]
        self.assertTrue(2.0 ** -1022 > prices[0] > prices[1] > 0.0)
        self.assertEqual(prices[2], 0.0)
