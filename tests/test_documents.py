"""Holds docs/TRACE.md, README.md, the lists of refusals and the hosts' declarations to what is in the tree. Run: python3 tests/test_documents.py"""

import re
import sys
import unittest
from pathlib import Path

sys.dont_write_bytecode = True
ROOT = Path(__file__).resolve().parent.parent
sys.path.insert(0, str(ROOT))

from quoting import refusals

TRACE = (ROOT / 'docs/TRACE.md').read_text()
CRATES = re.findall(r'^(\w+)(?: staticlib)?:', (ROOT / 'crates.txt').read_text(), re.M)
EDITS = {(file.parent.parent.name, file.stem) for file in ROOT.glob('crates/*/must-fail/*.edit')}


class Documents(unittest.TestCase):
    def test_every_edit_is_traced(self):
        words = set(re.findall(r'\w+', TRACE))
        self.assertEqual([f'{crate}/{name}' for crate, name in sorted(EDITS) if name not in words and crate != 'host'], [])

    def test_every_traced_edit_is_there(self):
        names = {name for _, name in EDITS}
        for crate, name in re.findall(r'\b(\w+)/([a-z]\w+)', TRACE):
            if crate in CRATES and name not in ('must', 'specs', 'proofs', 'src'):
                with self.subTest(edit=f'{crate}/{name}'):
                    self.assertIn((crate, name), EDITS)
        for cell in re.findall(r'\| ([a-z_0-9/, ;]+) \|', TRACE):
            for word in re.findall(r'(?<!/)\b[a-z]+(?:_[a-z0-9]+)+\b', cell):
                if word not in CRATES:
                    with self.subTest(edit=word):
                        self.assertIn(word, names)

    def test_every_test_program_is_there(self):
        for name in re.findall(r'\b[a-z]+_test\b', TRACE):
            self.assertIn(name, CRATES)

    def test_every_crate_is_in_the_readme(self):
        readme = (ROOT / 'README.md').read_text()
        for name in CRATES:
            with self.subTest(crate=name):
                self.assertTrue(f'`{name}`' in readme or name.endswith('_test'))


class Refusals(unittest.TestCase):
    """A refusal is listed in all places or in none: a number that comes or leaves is not forgotten in one of them."""

    LISTED = re.findall(r'^## (\d+)\. ', (ROOT / 'docs/REFUSALS.md').read_text(), re.M)

    def alike(self, where, numbers):
        with self.subTest(where):
            self.assertEqual(sorted(map(int, numbers)), sorted(map(int, self.LISTED)))

    def test_the_lists_are_alike(self):
        header = (ROOT / 'hosts/c/kitesettee.h').read_text()
        rust = (ROOT / 'hosts/rust/src/refusal.rs').read_text()
        names = dict(re.findall(r'^    (\w+) = (\d+),', rust, re.M))
        self.alike('the enum of kitesettee.h', re.findall(r'KITE_\w+ = ([1-9]\d*)', header))
        self.alike('kite_words', re.findall(r'case ([1-9]\d*): return', header))
        self.alike('the enum of refusal.rs', names.values())
        self.alike('Refusal::ALL', [names[name] for name in re.findall(r'^        Refusal::(\w+),', rust, re.M)])
        self.alike('Refusal::words', [names[name] for name in re.findall(r'Refusal::(\w+) => "', rust)])
        self.alike('the words of ./quote', refusals.WORDS)

    def test_the_chains_give_the_listed_numbers(self):
        given = {}
        for file in sorted(ROOT.glob('crates/*/specs/*.antt')):
            for number in re.findall(r'\bfirst (?:\(.*\)|\w+) (\d+)\b', file.read_text()):
                given.setdefault(number, file.relative_to(ROOT))
        self.assertEqual({number: file for number, file in given.items() if number not in self.LISTED}, {})
        self.assertEqual(set(self.LISTED) - set(given), set())

    def test_no_text_counts_up_to_a_number_that_left(self):
        left = set(map(str, range(1, max(map(int, self.LISTED))))) - set(self.LISTED)
        self.assertEqual(left, {'14'})
        counted = re.compile(r'\b\d+(?: to |-| and | or |, )(\d+)\b(?!\.\d|,\d)')
        documents = ('README.md', 'docs/REFUSALS.md', 'docs/QUOTE.md', 'docs/LINES.md', 'docs/DIFFERENCES.md')
        for pattern in documents + ('hosts/c/*', 'hosts/rust/*/*.rs', 'quoting/refusals.py'):
            for file in sorted(ROOT.glob(pattern)):
                with self.subTest(file.name):
                    self.assertEqual([found.group() for found in counted.finditer(file.read_text()) if found.group(1) in left], [])

    def test_the_table_of_calls(self):
        rows = re.findall(r'^\| [^|]*\| ([\d, :]+[^|]*) \|$', (ROOT / 'docs/REFUSALS.md').read_text(), re.M)
        self.assertGreater(len(rows), 12)
        self.assertEqual({number for row in rows for number in re.findall(r'\d+', row)}, set(self.LISTED))

    def test_the_table_names_calls(self):
        calls = {name for file in ROOT.glob('crates/*/src/lib.rt') for name in re.findall(r'^ *pub fn (\w+)', file.read_text(), re.M)}
        cells = re.findall(r'^\| ([^|]*`[^|]*) \| \d', (ROOT / 'docs/REFUSALS.md').read_text(), re.M)
        named = [name for cell in cells for name in re.findall(r'`(\w+)`', cell)]
        self.assertIn('quote_tray', named)
        self.assertEqual([name for name in named if name not in calls], [])


class Hosts(unittest.TestCase):
    """A linker compares names alone: that the hosts pass what an exported function takes is held here."""

    C = {'bool': 'bool', 'f64': 'double', 'u64': 'uint64_t'}
    # A parameter's type in crates/host, and the same parameter in C and in Rust: {0} is its name, {1} the type of a number, {2} how many.
    SHAPES = (
        (r'(\w+)', '{1} {0}', '{0}: {1}'),
        (r'&mut (\w+)', '{1} *{0}', '{0}: &mut {1}'),
        (r'&mut \[(\w+); (\d+)\]', '{1} {0}[{2}]', '{0}: &mut [{1}; {2}]'),
        (r'&\[(\w+); (\d+)\]', 'const {1} {0}[{2}]', '{0}: &[{1}; {2}]'),
        (r'&\[(\w+)\]', 'const {1} *{0}, size_t {0}_len', '{0}: *const {1}, {0}_len: usize'),
        (r'&mut \[(\w+)\]', '{1} *{0}, size_t {0}_len', '{0}: *mut {1}, {0}_len: usize'),
        (r'&\[\[(\w+); (\d+)\]\]', 'const {1} (*{0})[{2}], size_t {0}_len', '{0}: *const [{1}; {2}], {0}_len: usize'),
        (r'&mut \[\[(\w+); (\d+)\]\]', '{1} (*{0})[{2}], size_t {0}_len', '{0}: *mut [{1}; {2}], {0}_len: usize'),
    )

    def parameters(self, text):
        """The parameters of an exported function, in C and in Rust."""
        for name, kind in re.findall(r'(\w+): ([^,]+)', text):
            (found, in_c, in_rust), = [(re.fullmatch(shape, kind), *more) for shape, *more in self.SHAPES if re.fullmatch(shape, kind)]
            number, *count = found.groups()
            yield in_c.format(name, self.C[number], *count), in_rust.format(name, number, *count)

    def test_the_declarations_are_those_of_the_library(self):
        exported = re.findall(r'^pub extern "C" fn (\w+)\((.*?)\) -> (\w+)$', (ROOT / 'crates/host/src/lib.rt').read_text(), re.M | re.S)
        self.assertIn('kite_quote_tray', [name for name, *_ in exported])
        c, rust = set(), set()
        for name, taken, given in exported:
            in_c, in_rust = zip(*self.parameters(taken))
            c.add(f'{self.C[given]} {name}({", ".join(in_c)})')
            rust.add(f'{name}({", ".join(in_rust)}) -> {given}')
        header = re.findall(r'^(?:double|uint64_t) \w+\(.*?\)(?=;$)', (ROOT / 'hosts/c/kitesettee.h').read_text(), re.M | re.S)
        declared = re.findall(r'pub fn (\w+\(.*?\) -> \w+);', (ROOT / 'hosts/rust/src/ffi.rs').read_text(), re.S)
        self.assertEqual({re.sub(r'\s+', ' ', found) for found in header}, c)
        self.assertEqual({re.sub(r',? (?=\))', '', re.sub(r'\s+', ' ', found)).replace('( ', '(') for found in declared}, rust)


if __name__ == '__main__':
    unittest.main()
