"""How a run ends: what fails, what is closed, and the status that says so."""

import os
import signal
import subprocess
import sys

from quote.harness import GOOD, ROOT, Runs, header


class Exits(Runs):
    """A run that cannot go on says so in a line of its own, and is never a traceback."""

    def test_program_fails(self):
        for mode, wanted in (
                ('garbage', "answered 'hello' to open"), ('too few', 'answered too few lines'),
                ('too many', 'answered 1 lines too many'), ('lower case', "answered 'call   "), ('not understood', "answered '?     ' to open"),
                ('broken off', 'broke off within a line'), ('a word more', "answered 'open   "), ('a letter more', "answered 'open   "),
                ('refuses later', 'refuses by 10 what it accepted')):
            with self.subTest(mode):
                self.fails(1, wanted, GOOD, '--greeks', STAND_IN=mode)
        self.fails(1, 'KITESETTEE_BLOTTER names /nowhere/blotter, which is not a program', GOOD, KITESETTEE_BLOTTER='/nowhere/blotter')
        for body, wanted in (('raise SystemExit(3)', 'ended with status 3'), ('import os\nos.kill(os.getpid(), 9)', 'ended with status -9')):
            self.fails(1, wanted, GOOD, KITESETTEE_BLOTTER=str(self.program('failing', body)))
        broken = self.program('broken', '')
        broken.write_text('#!/nowhere/python\n')
        self.fails(1, 'cannot be run', GOOD, KITESETTEE_BLOTTER=str(broken))

    def test_interrupted(self):
        """The program stands for a user who presses Ctrl-C while it runs; a shell's background job would not heed that."""
        interrupts = self.program('interrupts', 'import os, signal, time\nos.kill(os.getppid(), signal.SIGINT)\ntime.sleep(9)\n')
        heeds = signal.signal(signal.SIGINT, signal.default_int_handler)
        self.addCleanup(signal.signal, signal.SIGINT, heeds)
        run = self.run_quote(GOOD, KITESETTEE_BLOTTER=str(interrupts))
        self.assertEqual((run.returncode, run.stdout, run.stderr), (130, '', ''))

    def shell(self, words, **environment):
        """The command run by a shell, where the output can be taken away; what it prints waits in a buffer."""
        (self.folder / 'tray.csv').write_text(GOOD)
        variables = {**os.environ, 'KITESETTEE_BLOTTER': str(self.fake), 'QUOTE': '%s -S %s' % (sys.executable, ROOT / 'quote'),
                     'PYTHONUNBUFFERED': '', **environment}
        return subprocess.run(['sh', '-c', words], capture_output=True, text=True, cwd=self.folder, env=variables)

    def test_output_that_cannot_be_written(self):
        for words in ('$QUOTE tray.csv >/dev/full', '$QUOTE tray.csv --json - >/dev/full', '$QUOTE --help >/dev/full', '$QUOTE --version >/dev/full'):
            with self.subTest(words):
                for unbuffered in ('', '1'):
                    run = self.shell(words, PYTHONUNBUFFERED=unbuffered)
                    self.assertEqual((run.returncode, run.stderr), (1, 'quote: the output cannot be written: No space left on device\n'))

    def test_closed_streams(self):
        run = self.shell('$QUOTE tray.csv >&-')
        self.assertEqual((run.returncode, run.stderr), (1, 'quote: standard output is closed\n'))
        run = self.shell('$QUOTE - <&-')
        self.assertEqual((run.returncode, run.stderr), (2, 'quote: standard input: it is closed\n'))
        for words in ('$QUOTE tray.csv 2>&-', '$QUOTE tray.csv <&-', '$QUOTE tray.csv <&- 2>&-'):
            run = self.shell(words)
            self.assertEqual((run.returncode, run.stderr), (0, ''))
            self.assertIn('1 accepted', run.stdout)
        for words, status in (('$QUOTE tray.csv >&- 2>&-', 1), ('$QUOTE nowhere.csv 2>&-', 2), ('$QUOTE nowhere.csv 2>/dev/full', 2)):
            run = self.shell(words)
            self.assertEqual((run.returncode, run.stdout, run.stderr), (status, '', ''))

    def test_reader_that_leaves(self):
        run = self.shell('{ $QUOTE tray.csv; echo $? >status; } | :')
        self.assertEqual((run.stderr, run.stdout), ('', ''))
        self.assertIn((self.folder / 'status').read_text(), ('0\n', '1\n'))
        reader, writer = os.pipe()
        os.close(reader)
        run = subprocess.run([sys.executable, str(ROOT / 'quote'), str(self.folder / 'tray.csv')], stdout=writer, stderr=subprocess.PIPE, text=True,
                             env={**os.environ, 'KITESETTEE_BLOTTER': str(self.fake)})
        os.close(writer)
        self.assertEqual((run.returncode, run.stderr), (1, ''))

    def test_safe_path(self):
        for variables in ({'PYTHONSAFEPATH': '1'}, {'QUOTE': '%s -I %s' % (sys.executable, ROOT / 'quote')}):
            run = self.shell('$QUOTE tray.csv', **variables)
            self.assertEqual((run.returncode, run.stderr), (0, ''))
        (self.folder / 'link').symlink_to(ROOT / 'quote')
        self.assertEqual(self.shell('%s link tray.csv' % sys.executable).returncode, 0)

    def test_strict(self):
        refused = b'spot,100,rate,0\n' + header('call,,1,1')
        self.assertEqual(self.run_quote(refused).returncode, 0)
        run = self.run_quote(refused, '--strict')
        self.assertEqual(run.returncode, 3)
        self.assertIn('0 accepted, 1 refused: 1 by 7', run.stdout)
        self.assertEqual(self.run_quote(GOOD, '--strict').returncode, 0)
        self.assertEqual(self.run_quote(GOOD, '--strict', '--at', '100,0.5').returncode, 0)
        self.assertEqual(self.run_quote(GOOD, '--strict', '--at', '99,0.5').returncode, 3)
        wide = b'spot,1,rate,0\n' + header(*['vol,%d,1,0.2' % k for k in range(1, 66)])
        self.assertEqual(self.run_quote(wide, '--strict').returncode, 3)
        self.fails(2, 'cannot be read', None, '--strict', tray='nowhere.csv')
