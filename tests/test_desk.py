"""Tests of the program crates/desk/out/desk: document 01's example, the long trays of crates/lines_test, what it does where it cannot read or write,
and what docs/LINES.md says of it. Run: python3 tests/test_desk.py"""

import os
import signal
import subprocess
import sys
import unittest
from pathlib import Path

sys.dont_write_bytecode = True
import lines_document
import transcriptions

ROOT = Path(__file__).resolve().parent.parent
PROGRAM = Path(os.environ.get('KITESETTEE_DESK') or ROOT / 'crates/desk/out/desk')
LONG = ROOT / 'crates/lines_test'
OWN = ROOT / 'crates/desk'

# document 01, 'Hexadecimal lines': input, then whole output, as crates/desk/vectors.py has them
own = transcriptions.of('desk')
EXAMPLE, ANSWERS = own.EXAMPLE, own.ANSWERS


def trays():
    """The input and the whole output of each tray: lines_test's two files with their repetitions written out (src/main.rt there says how they are read)."""
    inputs, outputs, text, said = [], [], b'', b''
    for line in (LONG / 'stdin').read_bytes().split(b'\n')[:-1]:
        times, mark, piece = int(line[:5]), line[5:6], line[6:]
        if mark == b'.':
            inputs.append(text)
            text = b''
        else:
            text += (piece if mark == b'+' else piece + b'\n') * times
    for line in (LONG / 'stdout').read_bytes().split(b'\n')[:-1]:
        if line == b'end':
            outputs.append(said)
            said = b''
        else:
            times, answer = line.split(b' ')
            said += (answer + b'\n') * int(times)
    assert len(inputs) == len(outputs)
    return list(zip(inputs, outputs))


@unittest.skipUnless(PROGRAM.is_file(), 'the program is not built')
class Desk(unittest.TestCase):
    def run_desk(self, text):
        return subprocess.run([PROGRAM], input=text, capture_output=True, timeout=60)

    def test_example(self):
        for text in (EXAMPLE, EXAMPLE[:-1]):
            run = self.run_desk(text)
            self.assertEqual((run.stdout, run.stderr, run.returncode), (ANSWERS, b'', 0))

    def test_its_own_input_at_every_size_of_read(self):
        """However the input comes, its bytes are one input: the book and the part of a line are held from read to read."""
        text, wanted = (OWN / 'stdin').read_bytes(), (OWN / 'stdout').read_bytes()
        self.assertTrue(text.startswith(EXAMPLE) and wanted.startswith(ANSWERS) and len(text) > 3 * 4096 and not text.endswith(b'\n'))
        for size in (1, 50, 4095, 4096, 4097, len(text)):
            with self.subTest(size=size):
                desk = subprocess.Popen([PROGRAM], stdin=subprocess.PIPE, stdout=subprocess.PIPE, bufsize=0)
                for at in range(0, len(text), size):
                    desk.stdin.write(text[at : at + size])
                desk.stdin.close()
                self.assertEqual(desk.stdout.read(), wanted)
                desk.stdout.close()
                self.assertEqual(desk.wait(), 0)

    @unittest.skipUnless(os.path.exists('/dev/ptmx'), 'there is no terminal to be had')
    def test_nothing_is_read_after_the_end(self):
        """A terminal's end of input can be followed by more: it is left unread."""
        ours, theirs = os.openpty()
        desk = subprocess.Popen([PROGRAM], stdin=theirs, stdout=subprocess.PIPE)
        os.write(ours, EXAMPLE[:35] + b'\x04' + EXAMPLE[35:])
        self.assertEqual(desk.stdout.read(), ANSWERS[:19])
        desk.stdout.close()
        self.assertEqual(desk.wait(), 0)
        os.close(ours)
        os.close(theirs)

    def test_long_trays(self):
        for at, (text, wanted) in enumerate(trays()):
            with self.subTest(tray=at):
                run = self.run_desk(text)
                self.assertEqual(run.stdout, wanted)
                self.assertEqual(run.stderr, b'')

    def test_the_same_in_small_pieces(self):
        text, wanted = trays()[-1]
        desk = subprocess.Popen([PROGRAM], stdin=subprocess.PIPE, stdout=subprocess.PIPE, bufsize=0)
        for at in range(0, len(text), 37):
            desk.stdin.write(text[at : at + 37])
        desk.stdin.close()
        self.assertEqual(desk.stdout.read(), wanted)
        desk.stdout.close()
        self.assertEqual(desk.wait(), 0)

    def test_no_input_can_be_read(self):
        """It says so and ends, with status 0."""
        folder = os.open(ROOT, os.O_RDONLY)
        run = subprocess.run([PROGRAM], stdin=folder, capture_output=True, timeout=60)
        os.close(folder)
        self.assertEqual((run.stdout, run.stderr, run.returncode), (b'', b'desk: cannot read\n', 0))

    @unittest.skipUnless(os.path.exists('/dev/full'), 'there is no /dev/full')
    def test_no_output_can_be_written(self):
        """It says so once and ends at the first write that fails, with input still to come."""
        for text in (b'xx\n', (OWN / 'stdin').read_bytes()):
            with open('/dev/full', 'wb') as full:
                run = subprocess.run([PROGRAM], input=text, stdout=full, stderr=subprocess.PIPE, timeout=60)
            self.assertEqual((run.stderr, run.returncode), (b'desk: cannot write\n', 0))

    def test_nobody_reads_its_output(self):
        """A write to a closed pipe fails, whether SIGPIPE is ignored where the program is started or not: its start ignores the signal."""
        for action in (signal.SIG_DFL, signal.SIG_IGN):
            with self.subTest(action=action):
                ours, theirs = os.pipe()
                os.close(ours)
                before = lambda: signal.signal(signal.SIGPIPE, action)
                run = subprocess.run([PROGRAM], input=b'xx\n', stdout=theirs, stderr=subprocess.PIPE, timeout=60, preexec_fn=before)
                os.close(theirs)
                self.assertEqual((run.stderr, run.returncode), (b'desk: cannot write\n', 0))


def load_tests(loader, tests, pattern):
    tests.addTests(loader.loadTestsFromModule(lines_document))
    return tests


if __name__ == '__main__':
    unittest.main()
