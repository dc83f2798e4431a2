"""The labels of an axis."""

import math
import random
import unittest

from quoting.labels import axis_labels, shortened


class Labels(unittest.TestCase):
    def test_exact_where_it_fits(self):
        self.assertEqual(axis_labels([400.0, 450.0625, 1234567.0, 1e9, 1e-6], 8), ['400', '450.0625', '1234567', '1e9', '0.000001'])
        self.assertEqual(axis_labels([1e-6, 0.25], 5), ['1e-6', '0.25'])
        self.assertEqual(axis_labels([], 8), [])
        self.assertFalse(shortened(axis_labels([400.0, 450.5], 8)))

    def test_marked_where_it_does_not(self):
        self.assertEqual(axis_labels([1 / 12, 0.25, 1234567890.0], 7), ['~0.0833', '0.25', '~1.23e9'])
        self.assertTrue(shortened(axis_labels([1 / 12, 0.25], 7)))
        self.assertEqual(axis_labels([450.0625, 450.0], 5), ['~450', '450'])

    def test_unequal_values_have_unequal_labels(self):
        near = [100 + k * 2.0 ** -46 for k in range(9)]
        self.assertEqual(len(set(axis_labels(near, 8))), 9)
        self.assertEqual(axis_labels([5.0, 5.0], 8), ['5', '5'])
        chance = random.Random(7)
        for _ in range(30):
            base = 10.0 ** chance.uniform(-6, 9)
            values = [base * (1 + k * 2.0 ** -chance.choice((3, 30, 50))) for k in range(6)]
            for width in (3, 6, 9, 24):
                found = axis_labels(values, width)
                self.assertEqual(len(set(found)), len(set(values)))
                for x, text in zip(values, found):
                    if text[0] != '~':
                        self.assertEqual(float(text), x)
                    else:
                        self.assertNotEqual(float(text[1:]), x)
                        self.assertLess(abs(float(text[1:]) - x), 0.51 * 10.0 ** math.ceil(math.log10(x) + 1e-9))

    def test_every_float_in_the_widest(self):
        chance = random.Random(8)
        for _ in range(500):
            x = chance.uniform(-1, 1) * 10.0 ** chance.randrange(-300, 300)
            self.assertEqual(float(axis_labels([x], 24)[0]), x)
