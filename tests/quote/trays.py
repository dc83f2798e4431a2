"""Trays that are read, however a spreadsheet saves them."""

import math
import unittest

from quoting import tray
from quoting.tray import Quote

from quote.harness import header


class Reading(unittest.TestCase):
    """Trays that are read, however a spreadsheet saves them."""

    WANTED = [Quote(2, 'call', 100.0, 0.5, 25.0), Quote(3, 'put', 90.5, 0.25, 3.0), Quote(4, 'vol', 110.0, 1.0, 0.25)]

    def same(self, text, shift=0, encoding='utf-8'):
        found = tray.parse(text.encode(encoding) if isinstance(text, str) else text)
        self.assertEqual(found.quotes, [q._replace(line=q.line + shift) for q in self.WANTED])
        return found

    def test_forms(self):
        plain = 'kind,strike,expiry,value\ncall,100,0.5,25\nput,90.5,0.25,3\nvol,110,1,0.25\n'
        for name, text in (
                ('plain', plain),
                ('no last line end', plain[:-1]),
                ('CRLF', plain.replace('\n', '\r\n')),
                ('CR', plain.replace('\n', '\r')),
                ('byte-order mark', '\ufeff' + plain),
                ('byte-order mark and quotes', '\ufeff"kind"' + plain[4:]),
                ('semicolons', plain.replace(',', ';')),
                ('tabs', plain.replace(',', '\t')),
                ('letter case', plain.replace('kind,strike', 'KIND,Strike').replace('call', 'Call').replace('put', 'PUT')),
                ('spaces', plain.replace(',', ' , ')),
                ('every cell in quotes', '\n'.join('"%s"' % line.replace(',', '","') for line in plain.splitlines())),
                ('percent', plain.replace('0.25\n', '25%\n')),
                ('percent with a space', plain.replace('0.25\n', '25 %\n')),
                ('trailing separators', plain.replace('\n', ',,\n')),
                ('blank rows at the end', plain + '\n,,,\n \n'),
                ('unread columns', plain.replace('\n', ',x\n')),
                ('decimal commas, semicolons', plain.replace(',', ';').replace('.', ',')),
                ('decimal commas, tabs', plain.replace(',', '\t').replace('.', ',')),
                ('decimal commas in quotes', plain.replace(',0.5', ',"0,5"').replace('90.5', '"90,5"').replace('0.25', '"0,25"'))):
            with self.subTest(name):
                self.same(text)
        self.same(plain, encoding='utf-16')
        self.same('sep=;\n' + plain.replace(',', ';'), 1)
        self.same('"sep=,"\r\n' + plain, 1)
        self.same('\n\n' + plain, 2)

    def test_columns_in_any_order(self):
        found = tray.parse(b'value,note,EXPIRY,Kind,strike\n25,a,0.5,call,100\n3,,0.25,put,90.5\n0.25,"x, y",1,vol,110\n')
        self.assertEqual(found.quotes, self.WANTED)
        self.assertEqual(found.header.unread, ['note'])

    def test_other_names_of_columns(self):
        for head in ('type,K,T,price', 'C/P,strike,t,Value', 'Kind,k,Expiry (years),PRICE', 'type,K,T (years),price (eighths)'):
            found = tray.parse((head + '\nC,100,0.5,25\np,90.5,0.25,3\nvol,110,1,0.25\n').encode())
            self.assertEqual(found.quotes, self.WANTED)
            self.assertEqual([cell for cell, _ in found.header.aliases], [c for c in head.split(',') if c.lower() not in ('kind', 'strike', 'value')])
        found = tray.parse(b'kind,strike,expiry,value,price,T,type\ncall,100,0.5,25,9,9,put\n')
        self.assertEqual((found.quotes, found.header.unread, found.header.aliases), (self.WANTED[:1], ['price', 'T', 'type'], []))

    def test_ticks_where_a_column_says_so(self):
        found = tray.parse(b"kind,strike (quarters),expiry,price (eighths)\ncall,450 1/4,0.5,27'2\nput,450'2,0.5,27 3/8\nvol,450,0.5,24.35%\n")
        self.assertEqual([q[2:] for q in found.quotes], [(450.25, 0.5, 27.25), (450.5, 0.5, 27.375), (450.0, 0.5, 0.2435)])
        self.assertEqual(tray.parse(b'kind;strike;expiry;price (eighths)\ncall;450;0,5;27,25\n').quotes[0].value, 27.25)

    def test_long_notes(self):
        found = tray.parse(b'kind,strike,expiry,value,note\ncall,100,0.5,25,' + b'x' * 200000 + b'\n')
        self.assertEqual(found.quotes, self.WANTED[:1])

    def test_last_unread_cells_may_lack(self):
        found = tray.parse(b'kind,strike,expiry,value,note,who\ncall,100,0.5,25\nput,90.5,0.25,3,x\nvol,110,1,0.25,,y\n')
        self.assertEqual(found.quotes, self.WANTED)

    def test_other_encodings_in_unread_cells(self):
        found = tray.parse(b'kind,strike,expiry,value,note\ncall,100,0.5,25,caf\xe9\n')
        self.assertEqual(found.quotes, self.WANTED[:1])

    def test_spot_and_rate_rows(self):
        rows = 'kind;strike;expiry;value\ncall;100;0.5;25\n'
        for first in ('spot;100;rate;0.05\n', 'spot;100\nrate;0.05\n', 'Rate;5%\nSPOT;100\n', 'rate;0.05;spot;100;;\n', '\nspot;100;;\n;;;\nrate;0.05;;\n'):
            found = tray.parse((first + rows).encode())
            self.assertEqual({k: v.value for k, v in found.settings.items()}, {'spot': 100.0, 'rate': 0.05})
        self.assertEqual(tray.parse(b'\nspot,100\n' + header('call,1,1,1')).settings['spot'].source, 'line 2')

    def test_blank_cells_are_not_a_number(self):
        found = tray.parse(header('call,,0.5,25', 'put,90,,3', 'vol,110,1,', 'call, ,"",  '))
        for quote, blanks in zip(found.quotes, ('strike', 'expiry', 'value', 'strike expiry value')):
            for name in ('strike', 'expiry', 'value'):
                self.assertEqual(math.isnan(getattr(quote, name)), name in blanks.split())
        self.assertTrue(math.isnan(tray.parse(b'spot,,rate,0.05\n' + header('call,1,1,1')).settings['spot'].value))
        self.assertTrue(math.isnan(tray.parse(b'spot,100,rate\n' + header('call,1,1,1')).settings['rate'].value))

    def test_line_numbers(self):
        found = tray.parse(b'spot,100\r\n\r\nrate,0.05\r\n' + b'kind,strike,expiry,value\r\n\r\n,,,\r\ncall,1,1,1\r\n\r\nput,2,1,1\r\n')
        self.assertEqual([q.line for q in found.quotes], [7, 9])

    def test_ambiguity_is_settled_by_the_file(self):
        found = tray.parse(b'kind;strike;expiry;value\ncall;450;0,25;12,375\n')
        self.assertEqual(found.quotes[0][2:], (450.0, 0.25, 12.375))
        self.assertEqual(found.decimal_comma.text, '0,25')
        self.assertEqual(tray.parse(b'kind;strike;expiry;value\ncall;1.234;0.5;25\n').quotes[0].strike, 1.234)
        self.assertEqual(tray.parse(b'kind;strike;expiry;value\ncall;1,2340;1;25\n').quotes[0].strike, 1.234)
        self.assertEqual(tray.parse(header('call,1.234,1,25')).quotes[0].strike, 1.234)
        self.assertEqual(tray.parse(b'rate;5,5%\nkind;strike;expiry;value\nvol;1;1;25,125%\n').quotes[0].value, 0.25125)
