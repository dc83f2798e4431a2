"""What the documents show is what the command does."""

import math
import os
import re
import shlex
import subprocess
import sys
import tempfile
import unittest
from pathlib import Path

from quoting import arguments, records, tray

from quote.harness import PROGRAM, ROOT

GUIDE = (ROOT / 'docs' / 'QUOTE.md').read_text(encoding='utf-8')


def quote(*words):
    """What the command prints."""
    variables = {**os.environ, 'KITESETTEE_BLOTTER': str(PROGRAM), 'COLUMNS': '100'}
    run = subprocess.run([sys.executable, '-S', str(ROOT / 'quote'), *words], capture_output=True, text=True, cwd=ROOT, env=variables)
    assert run.returncode == 0, run.stderr
    return run.stdout


class Documents(unittest.TestCase):
    def test_example_has_the_troubles(self):
        found = tray.read(ROOT / 'examples' / 'morning.csv')
        self.assertTrue(any(math.isnan(q.strike) for q in found.quotes))
        self.assertTrue(any(math.isnan(q.value) for q in found.quotes))
        self.assertTrue(any(q.expiry == 0 for q in found.quotes))
        self.assertEqual({q.kind for q in found.quotes}, {'call', 'put', 'vol'})
        strikes = {q.strike for q in found.quotes}
        self.assertTrue(any(k + 2.0 ** -40 in strikes for k in strikes))

    def test_options_and_columns_are_told(self):
        for name in re.findall(r'--\w+', arguments.parser().format_help()):
            self.assertIn(name, GUIDE)
        for name in records.COLUMNS:
            self.assertIn('`%s`' % name, GUIDE)

    def lines_are_printed(self, shown, printed):
        """The lines shown are printed in that order; all of them where nothing is left out."""
        if '...' not in shown:
            self.assertEqual(shown, printed.splitlines())
        rest = iter(printed.splitlines())
        self.assertEqual([line for line in shown if line != '...' and line not in rest], [])

    @unittest.skipUnless(PROGRAM.is_file(), 'the program is not built')
    def test_what_the_guide_shows(self):
        blocks = re.findall(r'```text\n\$ \./quote (.*)\n((?:.*\n)*?)```\n', GUIDE)
        self.assertGreater(len(blocks), 4)
        for words, text in blocks:
            with self.subTest(words):
                self.lines_are_printed(text.splitlines(), quote(*shlex.split(words)))

    @unittest.skipUnless(PROGRAM.is_file(), 'the program is not built')
    def test_what_the_readme_shows(self):
        excerpt = (ROOT / 'README.md').read_text(encoding='utf-8').split('```text\n')[1].split('```')[0]
        self.lines_are_printed(excerpt.splitlines() + ['...'], quote('examples/morning.csv'))

    @unittest.skipUnless(PROGRAM.is_file(), 'the program is not built')
    def test_the_picture(self):
        with tempfile.TemporaryDirectory() as folder:
            quote('examples/morning.csv', '--svg', folder + '/morning.svg')
            drawn = Path(folder, 'morning.svg').read_text(encoding='utf-8')
        self.assertEqual(drawn, (ROOT / 'examples' / 'morning.svg').read_text(encoding='utf-8'))
