"""Numbers as they are written in cells, and as they are shown."""

import math
import struct
import unittest

from quoting import numbers

from quote.harness import HAIR


class Numbers(unittest.TestCase):
    def test_nearest_float(self):
        for text, wanted in (
                ('450', 450.0), ('450.25', 450.25), ('.5', 0.5), ('5.', 5.0), ('+5', 5.0), ('-0.05', -0.05), ('1e-6', 1e-6), ('2.5E3', 2500.0),
                ('0', 0.0), ('-0', -0.0), ('007', 7.0), ('1e999', math.inf), ('-1e999', -math.inf), ('1e-999', 0.0),
                (HAIR, 100 + 2.0 ** -40), ('0.1', 0.1), ('4.9406564584124654e-324', 5e-324), ('1' * 400, math.inf)):
            with self.subTest(text):
                self.assertEqual(struct.pack('>d', numbers.nearest(text)), struct.pack('>d', wanted))

    def test_no_number(self):
        for text in ('', 'abc', 'nan', 'inf', 'Infinity', '1_000', '0x10', '1 000', '1,5', '--5', '5-', '1e', 'e5', '.', '+', '1.2.3', '$5', '5 c',
                     "450'4", '450 1/4', '#N/A', '#DIV/0!', '(5)', '=5', '\u0665', '\u00bd', '5\u00a0', '1e1234567', '25%', '2024-03-15', '5\n'):
            with self.subTest(text):
                self.assertIsNone(numbers.nearest(text))

    def test_percent_is_rounded_once(self):
        for text in ('25', '7', '0.1', '26.05', '1e1', '2.5E-1', '-3', '33.3333333333'):
            digits = text.lower().split('e')
            wanted = float('%se%d' % (digits[0], int(digits[1] if len(digits) > 1 else 0) - 2))
            self.assertEqual(numbers.nearest(text, True), wanted)
        self.assertEqual(numbers.nearest('35', True), 0.35)
        self.assertNotEqual(0.35, 35 * 0.01)

    def test_shown(self):
        for x, wanted in ((450.0, '450'), (0.25, '0.25'), (1e-6, '0.000001'), (1e9, '1000000000'), (100 + 2.0 ** -40, '100.00000000000091'),
                          (math.nan, 'blank'), (math.inf, 'infinity'), (-math.inf, '-infinity'), (0.0, '0'), (1e300, '1e+300')):
            self.assertEqual(numbers.exact(x), wanted)

    def test_in_percent(self):
        for x, digits, wanted in (
                (0.275, 2, '27.50'), (0.00006, 2, '0.01'), (0.00004, 2, '<0.01'), (0.0, 2, '0.00'), (1e-6, 4, '0.0001'), (10.0, 4, '1000.0000')):
            self.assertEqual(numbers.in_percent(x, digits), wanted)

    def test_ticks(self):
        for text, parts, wanted in (
                ('27', 8, 27.0), ('27 1/4', 8, 27.25), ("27'2", 8, 27.25), ("27'2", 4, 27.5), ('27 3/4', 4, 27.75), ('27  7/8', 8, 27.875), ('1/2', 4, 0.5),
                ("450'0", 4, 450.0), ('27.25', 8, 27.25), ('27.125', 8, 27.125), ('-1.5', 4, -1.5), ('1e999', 8, math.inf), ("0'7", 8, 0.875),
                ('9' * 300 + ' 1/8', 8, 1e300)):
            self.assertEqual(numbers.in_ticks(text, parts), wanted)
        for text, parts in (("27'8", 8), ("27'4", 4), ('27 3/8', 4), ('27 4/4', 4), ('27.2', 8), ('27.125', 4), ('27 1/3', 8), ("27'", 8), ("27'25", 8),
                            ("-27'2", 8), ('27-2', 8), ('27 1/16', 8), ('abc', 8), ('', 8), ('1/0', 8), ("27.5'2", 8), ('27\u2019' + '2', 8)):
            self.assertIsNone(numbers.in_ticks(text, parts), text)
