"""Holds docs/DECISIONS.md, 'Must-fail edits', to what `rt ci` said of each edit: the first error names a fact that fails, or the edit stands in the table
there with the reason. The gate leaves what `rt ci` printed in target/ci.log. Run after it: python3 tests/test_edits.py, or with a FILE that has what
`rt ci NAME..` or `rt must-fail NAME..` printed, for the edits that it tells of."""

import re
import sys
import unittest
from pathlib import Path

sys.dont_write_bytecode = True
ROOT = Path(__file__).resolve().parent.parent
GIVEN = sys.argv.pop(1) if sys.argv[1:] and not sys.argv[1].startswith('-') else None
LOG = Path(GIVEN or ROOT / 'target/ci.log')
DECISIONS = (ROOT / 'docs/DECISIONS.md').read_text()
EDITS = sorted(f'{file.parent.parent.name}/{file.stem}' for file in ROOT.glob('crates/*/must-fail/*.edit'))

# What the prover says where a fact fails. rt prints the first 160 characters of an error's first line, so that the end of a sentence can be cut off.
FACTS = {
    'two sides differ': re.compile(r'the two (?:types|values|sides) (?:first |)(?:differ |)(?:only |)(?:where one has|are(?! identical)) '),
    'a computed test is false': re.compile(r' ≟ .*: does not hold'),
    'another statement is proved': re.compile(r'expected type\s+`'),
    'numbers at which it fails': re.compile(r'`omega`: the goal does not follow from what it read|the facts known there allow values'),
    'an equation is left open': re.compile(r'give a proof of that as the last argument, `(?:simp|rw|cc)'),
}
# What it says where the text alone no longer fits. Of a goal for which it found no proof, it says no more than that: such an edit is listed.
TEXT = re.compile(r'was not admitted|is not in scope|no field|has no `|no occurrence of|unknown |expects \d+ arguments|cannot be checked')
REFUSED = 'refused, as it must be'


def told():
    """What rt said of each edit."""
    return dict(re.findall(r'^rt: must-fail (\w+/[\w.-]+)\.edit: (.*)$', LOG.read_text(errors='replace'), re.M))


def kind(said):
    """The kind of fact that the first error names, or None."""
    mark, _, error = said.partition(': ')
    if mark != REFUSED or TEXT.search(error):
        return None
    return next((name for name, words in FACTS.items() if words.search(error)), None)


def listed():
    """The edits of the table in docs/DECISIONS.md, each with its reason; a row may have several."""
    part = re.search(r'^## Must-fail edits\n(.*?)(?=^## |\Z)', DECISIONS, re.M | re.S).group(1)
    rows = re.findall(r'^\| (\w+/\w+(?:, \w+/\w+)*) \| (.+) \|$', part, re.M)
    return {edit: reason for edits, reason in rows for edit in edits.split(', ')}


class Edits(unittest.TestCase):
    def test_each_edit_names_a_fact_or_is_listed(self):
        self.assertEqual([edit for edit in listed() if edit not in EDITS], [])
        said = told()
        self.assertTrue(said, f'{LOG} tells of no edit')
        for edit in EDITS:
            if edit in said or not GIVEN:
                with self.subTest(edit):
                    self.assertTrue(said[edit].startswith(REFUSED), said[edit])
                    if edit in listed():
                        self.assertIsNone(kind(said[edit]), 'it names a fact: take it from the table')
                    else:
                        self.assertIsNotNone(kind(said[edit]), said[edit])

    def test_an_edit_says_what_is_wrong(self):
        for edit in EDITS:
            with self.subTest(edit):
                crate, name = edit.split('/')
                text = (ROOT / f'crates/{crate}/must-fail/{name}.edit').read_text()
                self.assertRegex(text, r'\A# \S')
                # rt passes over a line that is none of these, so that a second line of a text would be lost
                self.assertEqual([line for line in text.splitlines() if not re.match('# |file: |old: |new:', line)], [])


if __name__ == '__main__':
    unittest.main()
