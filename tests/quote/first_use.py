"""The first run: the program is proved and built before the tray is quoted."""

import shutil

from quote.harness import GOOD, ROOT, Runs, header


class FirstUse(Runs):
    def setUp(self):
        super().setUp()
        self.copy = self.folder / 'copy'
        self.copy.mkdir()
        shutil.copy(ROOT / 'quote', self.copy)
        shutil.copytree(ROOT / 'quoting', self.copy / 'quoting')
        (self.copy / 'crates.txt').write_text('blotter:\n')
        (self.copy / 'crates/blotter').mkdir(parents=True)
        (self.folder / 'kit').mkdir()

    def first(self, tray, body):
        self.program('kit/rt', 'import os, shutil, sys\n' + body)
        return self.run_quote(tray, script=self.copy / 'quote', KITESETTEE_BLOTTER='', PATH=str(self.folder / 'kit'))

    def test_built_and_asked(self):
        builds = 'os.makedirs("out", exist_ok=True)\nshutil.copy(%r, "out/blotter")\nprint("logic=proved functions=3")\n' % str(self.fake)
        run = self.first(GOOD, builds)
        self.assertEqual(run.returncode, 0, run.stderr)
        self.assertIn('quote: first use: ', run.stderr)
        self.assertIn('1 accepted', run.stdout)
        self.assertEqual(self.first(GOOD, builds).stderr, '')
        self.assertFalse(list(self.copy.rglob('__pycache__')))

    def test_not_built(self):
        run = self.first(GOOD, 'sys.exit(1)')
        self.assertEqual((run.returncode, run.stdout), (1, ''))
        self.assertIn('crates/blotter/out/blotter is not built', run.stderr)

    def test_a_faulty_tray_is_told_first(self):
        run = self.first(header('call,abc,1,1'), 'sys.exit(1)')
        self.assertEqual(run.returncode, 2)
        self.assertNotIn('first use', run.stderr)
