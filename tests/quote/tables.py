"""The tables that are printed."""

import math
import unittest

from quoting import refusals, tables
from quoting.surface import Cell, Surface

from quote.harness import row


class Tables(unittest.TestCase):
    def test_counts(self):
        rows = [row(number=n) for n in (0, 7, 0, 5, 7)]
        self.assertEqual(tables.counts(rows), '2 accepted, 3 refused: 1 by 5, 2 by 7')
        self.assertEqual(tables.counts(rows[:1]), '1 accepted, 0 refused')

    def test_marks(self):
        for count, wanted in ((1, (' 27.50', '')), (2, (' 27.50', 'x2')), (0, ('(27.50', ')'))):
            self.assertEqual(tables.marked(Cell(0.275, count)), wanted)
        self.assertEqual(tables.marked(Cell(0.00004, 1)), (' <0.01', ''))

    def test_only_marks_that_occur_are_explained(self):
        for counts, wanted in (((1, 1), 1), ((1, 0), 2), ((2, 1), 2), ((0, 2), 2)):
            lines = tables.surface(Surface(0, [1.0, 2.0], [0.5], [[Cell(0.25, n) for n in counts]]), 80)
            self.assertEqual(len(lines) - lines.index('', 2) - 1, wanted)

    def test_blocks_fit(self):
        self.assertEqual(list(tables.blocks([8] * 5, 30)), [(0, 3), (3, 5)])
        self.assertEqual(list(tables.blocks([40, 40], 10)), [(0, 1), (1, 2)])
        wide = Surface(0, [float(k) for k in range(64)], [0.5], [[Cell(0.25, 1)] * 64])
        self.assertTrue(all(len(line) <= 90 for line in tables.surface(wide, 80)))

    def test_refusals_in_words(self):
        for number, wanted in (
                (7, 'strike is blank; a strike must be in 0.000001 to 1,000,000,000'), (8, 'expiry 0; an expiry must be in 0.000001 to 100 years'),
                (5, 'price -1; a market price must be finite and above 0'), (27, 'see docs/REFUSALS.md')):
            self.assertEqual(refusals.of_row(row('put', math.nan, 0.0, -1.0, number=number)), 'refused %d: %s' % (number, wanted))

    def test_the_side_of_a_price_that_is_not_bracketed(self):
        for value, ends, wanted in (
                (6375.0, (0.0, 452.24999999997), 'price 6375 is too high; the model\'s price is 0 at volatility 0.000001 and ~452.25 at 10'),
                (153.0, (153.72666, 449.5), 'price 153 is too low; the model\'s price is 153.72666 at volatility 0.000001 and 449.5 at 10'),
                (451.26242, (451.2624221995, 452.5), 'price 451.26242 is too low; the model\'s price is 451.2624221995 at volatility 0.000001 and 452.5 at 10'),
                (452.25, (0.0, 452.24999999997), 'price 452.25 is too high; the model\'s price is 0 at volatility 0.000001 and 452.24999999997 at 10')):
            self.assertEqual(refusals.of_row(row(value=value, number=12, ends=ends)), 'refused 12: ' + wanted)

    def test_labels_are_exact_or_marked(self):
        surface = Surface(0, [1234567.0, 2000000.0], [1 / 12, 450.0625], [[Cell(0.25, 1)] * 2] * 2)
        lines = tables.surface(surface, 80)
        self.assertIn('   expiry  1234567  2000000', lines)
        self.assertTrue(any(line.startswith('~0.083333  ') for line in lines))
        self.assertTrue(any(line.startswith(' 450.0625  ') for line in lines))
        self.assertIn('shortened', lines[-1])
        self.assertNotIn('shortened', '\n'.join(tables.surface(surface._replace(expiries=[0.25, 0.5]), 80)))
