"""Tests of quoting/building.py with a stand-in for the kit. Run: python3 tests/quote/building.py"""

import os
import pty
import re
import shutil
import signal
import subprocess
import sys
import tempfile
import time
import unittest
from pathlib import Path

sys.dont_write_bytecode = True
# Python without what a site adds: half the time of a short run.
PYTHON = (sys.executable, '-S')
ROOT = Path(__file__).resolve().parent.parent.parent

CRATES = '''# Crates.
one:
two: one
three: one # beside two
four: three other

# The program.
tool: two three io

# For hosts.
lent staticlib: four
'''
ORDER = ('one', 'two', 'three', 'tool')

# Asks for a program as the command does.
ASKS = '''
import sys
sys.dont_write_bytecode = True
sys.path.insert(0, sys.argv[1])
from quoting.building import BuildError, program
try:
    print(program(sys.argv[2]))
except BuildError as error:
    sys.exit('quote: %s' % error)
except KeyboardInterrupt:
    sys.exit(130)
'''
LINKS = '''
os.makedirs('out', exist_ok=True)
open('out/tool', 'w').write('built')
'''
PROVES = '''
for crate in %r:
    print('rt: chose --jobs 2 for %%s' %% crate)
    print('struct %%s::It: proved' %% crate)
    print('logic=proved functions=3', flush=True)
print('rt: running out/tool; to give it other input, run that file yourself')
''' % (ORDER,)


def lines_of(words):
    """The lines said, but for the time that has gone by."""
    return [re.sub(r', \d+:\d\d$', '', line) for line in words.splitlines()]


def heed_signals():
    """A shell's background job ignores the interrupt, and what nohup runs the hang-up: so would all that they start."""
    for kind in (signal.SIGINT, signal.SIGTERM, signal.SIGHUP):
        signal.signal(kind, signal.SIG_DFL)


class Building(unittest.TestCase):
    def setUp(self):
        folder = tempfile.TemporaryDirectory()
        self.addCleanup(folder.cleanup)
        self.copy, self.kit = Path(folder.name) / 'copy', Path(folder.name) / 'kit'
        shutil.copytree(ROOT / 'quoting', self.copy / 'quoting', ignore=shutil.ignore_patterns('__pycache__'))
        (self.copy / 'crates.txt').write_text(CRATES)
        for crate in ORDER + ('four',):
            (self.copy / 'crates' / crate / 'src').mkdir(parents=True)
            (self.copy / 'crates' / crate / 'src' / 'lib.rt').write_text('')
        self.kit.mkdir()
        self.asks = Path(folder.name) / 'asks.py'
        self.asks.write_text(ASKS)
        self.folder = self.copy / 'crates/tool'
        self.path = str((self.folder / 'out/tool').resolve())
        self.log = self.copy / 'target/log/building_tool.txt'

    def rt(self, body):
        """A stand-in for the kit that writes its words to a file each time it is called."""
        script = self.kit / 'rt'
        calls = str(self.kit / 'calls')
        script.write_text('#!%s -S\nimport os, signal, subprocess, sys, time\nopen(%r, "a").write(" ".join(sys.argv[1:]) + "\\n")\n%s' % (
            sys.executable, calls, body))
        script.chmod(0o755)

    def calls(self):
        path = self.kit / 'calls'
        return path.read_text().splitlines() if path.exists() else []

    def environment(self, **more):
        return {**{k: v for k, v in os.environ.items() if not k.startswith('KITESETTEE_')}, 'PATH': str(self.kit), **more}

    def ask(self, name='tool', **more):
        return subprocess.run([*PYTHON, str(self.asks), str(self.copy), name], capture_output=True, text=True,
                              env=self.environment(**more), timeout=60)

    def start(self, **streams):
        return subprocess.Popen([*PYTHON, str(self.asks), str(self.copy), 'tool'], env=self.environment(), preexec_fn=heed_signals, **streams)

    def fails(self, wanted, *words, **more):
        run = self.ask(*words, **more)
        self.assertEqual((run.returncode, run.stdout), (1, ''))
        self.assertIn(wanted, run.stderr)
        self.assertNotIn('Traceback', run.stderr)
        return run.stderr


class Runs(Building):
    def test_a_line_for_each_crate_and_the_rest_in_a_log(self):
        self.rt(PROVES + LINKS)
        run = self.ask()
        self.assertEqual((run.returncode, run.stdout), (0, self.path + '\n'), run.stderr)
        self.assertRegex(run.stderr, r'quote: proved 1 of 4: one, \d:\d\d\n')
        first, *rest = lines_of(run.stderr)
        self.assertEqual(first, 'quote: first use: proving 4 crates and building crates/tool/out/tool; this may take some minutes, '
                                'and what the prover says goes to target/log/building_tool.txt')
        self.assertEqual(rest, ['quote: proved %d of 4: %s' % (i + 1, crate) for i, crate in enumerate(ORDER)])
        self.assertEqual(self.log.read_text().count('\n'), 13)
        self.assertIn('struct one::It: proved\n', self.log.read_text())
        self.assertEqual(self.calls(), ['run'])

    def test_crates_already_proved_are_counted_at_once(self):
        self.rt("for crate in ('three', 'tool'): print('rt: chose --jobs 2 for %s\\nlogic=proved functions=3' % crate)\n" + LINKS)
        self.assertEqual(lines_of(self.ask().stderr)[1:], ['quote: proved 3 of 4: three', 'quote: proved 4 of 4: tool'])

    def test_what_is_built_is_not_built_again(self):
        self.rt(PROVES + LINKS)
        self.ask()
        run = self.ask()
        self.assertEqual((run.stdout, run.stderr), (self.path + '\n', ''))
        self.assertEqual(len(self.calls()), 1)
        self.assertFalse(list(self.copy.rglob('__pycache__')))

    def test_built_again_after_a_change_of_what_it_needs(self):
        self.rt(PROVES + LINKS)
        self.ask()
        later = time.time() + 5
        lib = self.copy / 'crates/four/src/lib.rt'
        os.utime(lib, (later, later))
        self.assertEqual(self.ask().stderr, '')
        for part in ('crates.txt', 'crates/one/src/lib.rt', 'crates/tool/src/lib.rt', 'crates/two/src'):
            with self.subTest(part):
                os.utime(self.copy / part, (later, later))
                self.assertIn('quote: the crates have changed: proving 4 crates', self.ask().stderr)
                os.utime(self.copy / part, (1, 1))

    def test_a_change_while_it_is_built_is_not_missed(self):
        self.rt("time.sleep(0.1)\nopen('../one/src/lib.rt', 'w').write('changed')\ntime.sleep(0.1)\n" + PROVES + LINKS)
        self.ask()
        self.rt(PROVES + LINKS)
        self.assertIn('the crates have changed', self.ask().stderr)
        self.assertEqual(self.ask().stderr, '')

    def test_another_program_by_the_environment(self):
        other = self.kit / 'other'
        other.write_text('')
        self.fails('KITESETTEE_TOOL names %s, which is not a program' % other, KITESETTEE_TOOL=str(other))
        self.fails('KITESETTEE_TOOL names %s, which is not a program' % self.kit, KITESETTEE_TOOL=str(self.kit))
        other.chmod(0o755)
        run = self.ask(KITESETTEE_TOOL=str(other))
        self.assertEqual((run.returncode, run.stdout, run.stderr), (0, str(other) + '\n', ''))
        self.rt(PROVES + LINKS)
        self.assertEqual(self.ask(KITESETTEE_TOOL='').returncode, 0)

    @unittest.skipUnless(os.path.exists('/dev/ptmx'), 'there is no terminal to be had')
    def test_one_line_on_a_terminal(self):
        # The last crate begins a while before it ends, so that its line comes over a longer one.
        self.rt("print('rt: chose --jobs 2 for one\\nlogic=proved functions=3', flush=True)\ntime.sleep(1.3)\n"
                "print('rt: chose --jobs 2 for tool', flush=True)\ntime.sleep(0.3)\n" + PROVES + LINKS)
        ours, theirs = pty.openpty()
        process = self.start(stderr=theirs, stdout=subprocess.PIPE)
        os.close(theirs)
        said = b''
        while True:
            try:
                said += os.read(ours, 4096)
            except OSError:
                break
        os.close(ours)
        process.stdout.close()
        self.assertEqual(process.wait(), 0)
        lines = said.decode().replace('\r\n', '\n').split('\n')
        self.assertEqual((len(lines), lines[2]), (3, ''))
        shown = lines_of(re.sub(' *(\r|$)', r'\1', lines[1]).replace('\r', '\n'))
        self.assertEqual(shown[:2], ['', 'quote: proving 1 of 4: one'])
        self.assertGreater(len(re.findall('proving 2 of 4: two, 0:0[1-9]', lines[1])), 0, 'the time goes on')
        self.assertEqual(shown[-1], 'quote: proved 4 of 4: tool')


class Failures(Building):
    def test_no_kit(self):
        words = self.fails('quote: crates/tool/out/tool must be built (first use), and the Rattle kit (rt) that builds it is not on the PATH; ')
        self.assertTrue(words.endswith('or name a built program in KITESETTEE_TOOL\n') and words.count('\n') == 1)
        self.assertFalse((self.copy / 'target').exists())

    def test_a_kit_beside_the_caller(self):
        """A path of the PATH may be one from where the command is called."""
        self.rt(PROVES + LINKS)
        run = subprocess.run([*PYTHON, str(self.asks), str(self.copy), 'tool'], capture_output=True, text=True, timeout=60,
                             env=self.environment(PATH='kit'), cwd=self.kit.parent)
        self.assertEqual((run.returncode, run.stdout), (0, self.path + '\n'), run.stderr)

    def test_no_such_program(self):
        self.fails('crates.txt does not list the program spade', 'spade')
        (self.copy / 'crates.txt').unlink()
        self.fails('crates.txt: No such file')

    def test_a_crate_that_is_not_proved(self):
        self.rt("print('rt: chose --jobs 2 for one\\nlogic=proved functions=3\\nrt: chose --jobs 2 for two')\n"
                "for i in range(400): print('note %d' % i)\nprint('error: ' + 'x' * 5000)\n"
                "for i in range(9): print('statements lib%d: modules loaded=222 checked=0' % i)\nprint('logic=not-proved')\n"
                "print('rt: the library two did not build, so nothing above it was checked')\nsys.exit(1)")
        lines = self.fails('`rt run` in crates/tool ended with status 1; crates/tool/out/tool is not built; target/log/building_tool.txt has all that it said')
        lines = lines_of(lines)
        self.assertEqual(lines[1], 'quote: proved 1 of 4: one')
        self.assertEqual(lines[2:4], ['  | note 390', '  | note 391'])
        self.assertTrue(lines[-3].startswith('  | error: xxx') and len(lines[-3]) < 420)
        self.assertEqual(lines[-2], '  | logic=not-proved')
        self.assertEqual(self.log.read_text().count('\n'), 415)

    def test_the_kit_fails(self):
        self.rt("print('rt: no toolchain for this machine', file=sys.stderr)\nsys.exit(2)")
        self.assertIn('  | rt: no toolchain for this machine\n', self.fails('ended with status 2'))
        self.rt('')
        self.fails('ended with status 0; crates/tool/out/tool is not built')
        (self.kit / 'rt').write_text('#!/nowhere/sh\n')
        self.fails('crates/tool/out/tool cannot be built: ')

    def test_no_log_can_be_written(self):
        self.rt(PROVES + LINKS)
        (self.copy / 'target').write_text('')
        self.fails('crates/tool/out/tool cannot be built: ')


class Retries(Building):
    """A program that was linked in a build that did not succeed is not used."""

    def test_after_a_failure(self):
        self.rt(PROVES + LINKS + "print('tool: cannot read')\nsys.exit(1)")
        self.assertIn('  | tool: cannot read\n', self.fails('ended with status 1'))
        self.assertIn('quote: the last build did not succeed: proving 4 crates', self.fails('ended with status 1'))
        self.rt(PROVES + LINKS)
        self.assertEqual((self.ask().returncode, self.ask().stderr), (0, ''))

    def test_after_a_sudden_end(self):
        self.rt(LINKS + 'os.kill(os.getppid(), signal.SIGKILL)')
        self.assertEqual(self.ask().returncode, -signal.SIGKILL)
        self.rt(PROVES + LINKS)
        self.assertIn('the last build did not succeed', self.ask().stderr)
        self.assertEqual(self.ask().stderr, '')


class Interrupts(Building):
    """Whatever ends the command ends the prover, which pays no heed to the terminal's interrupt."""

    LONG = '''
child = subprocess.Popen([sys.executable, '-c', 'import signal, time; signal.signal(signal.SIGINT, signal.SIG_IGN); time.sleep(50)'])
open('pids', 'w').write('%d %d ' % (os.getpid(), child.pid))
print('rt: chose --jobs 2 for one', flush=True)
child.wait()
'''

    def started(self):
        self.rt(self.LONG)
        process = self.start(stdout=subprocess.PIPE, stderr=subprocess.PIPE, text=True)
        for _ in range(200):
            time.sleep(0.05)
            if (self.folder / 'pids').exists() and (self.folder / 'pids').read_text().endswith(' '):
                break
        time.sleep(0.2)
        return process, [int(word) for word in (self.folder / 'pids').read_text().split()]

    def gone(self, pid):
        for _ in range(100):
            try:
                if Path('/proc/%d/stat' % pid).read_text().split(') ')[1][0] == 'Z':
                    return True
            except OSError:
                pass
            try:
                os.kill(pid, 0)
            except ProcessLookupError:
                return True
            time.sleep(0.05)
        return False

    def test_each_signal(self):
        for kind, status in ((signal.SIGINT, 130), (signal.SIGTERM, 128 + signal.SIGTERM), (signal.SIGHUP, 128 + signal.SIGHUP)):
            with self.subTest(kind):
                process, pids = self.started()
                process.send_signal(kind)
                said, errors = process.communicate(timeout=30)
                self.assertEqual((process.returncode, said), (status, ''))
                self.assertNotIn('Traceback', errors)
                self.assertEqual('no prover goes on' in errors, kind == signal.SIGINT)
                self.assertTrue(all(self.gone(pid) for pid in pids))
                (self.folder / 'pids').unlink()

    def test_a_second_run_waits_for_the_first(self):
        self.rt("while not os.path.exists('go'): time.sleep(0.05)\n" + PROVES + LINKS)
        first = self.start(stdout=subprocess.PIPE, stderr=subprocess.PIPE, text=True)
        while not self.calls():
            time.sleep(0.05)
        second = self.start(stdout=subprocess.PIPE, stderr=subprocess.PIPE, text=True)
        self.assertEqual(second.stderr.readline(), 'quote: another run is building; this one waits for it\n')
        (self.folder / 'go').touch()
        self.assertEqual([run.communicate(timeout=30)[0] for run in (first, second)], [self.path + '\n'] * 2)
        self.assertEqual((first.returncode, second.returncode, len(self.calls())), (0, 0, 1))


if __name__ == '__main__':
    unittest.main()
