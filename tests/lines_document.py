"""What docs/LINES.md shows and says of the program crates/desk/out/desk. Run by tests/test_desk.py"""

import doctest
import os
import re
import select
import struct
import subprocess
import unittest
from pathlib import Path

ROOT = Path(__file__).resolve().parent.parent
PROGRAM = Path(os.environ.get('KITESETTEE_DESK') or ROOT / 'crates/desk/out/desk')
PAGE = (ROOT / 'docs/LINES.md').read_text(encoding='utf-8')
CODE = re.findall(r'```python\n(.*?)```', PAGE, re.S)
NAN = float('nan')


def frame(kind, *floats):
    return kind + ''.join(struct.pack('>d', x).hex().upper() for x in floats)


OPEN, VOL, READ = frame('10', 100.0, 0.03), frame('13', 90.0, 0.5, 0.25), frame('20', 90.0, 0.5)
QUARTER = '003FD0000000000000'


@unittest.skipUnless(PROGRAM.is_file(), 'the program is not built')
class LinesDocument(unittest.TestCase):
    def answers(self, *lines, end='\n'):
        run = subprocess.run([PROGRAM], input=('\n'.join(lines) + end).encode(), capture_output=True, timeout=60)
        self.assertEqual((run.stderr, run.returncode), (b'', 0))
        return run.stdout.decode().split('\n')[:-1]

    def numbers(self, *lines, **more):
        return [int(answer[:2]) for answer in self.answers(*lines, **more)]

    def session(self):
        """The program with pipes, to be closed by the test."""
        desk = subprocess.Popen([PROGRAM], stdin=subprocess.PIPE, stdout=subprocess.PIPE, stderr=subprocess.PIPE, bufsize=0)
        self.addCleanup(desk.wait)
        for stream in (desk.stdin, desk.stdout, desk.stderr):
            self.addCleanup(stream.close)
        return desk

    def waits(self, desk, seconds=0.3):
        """Whether nothing comes for a while."""
        return not select.select([desk.stdout], [], [], seconds)[0]


class Shown(LinesDocument):
    def test_exchange(self):
        block = re.search(r'```text\n(.*?)```', PAGE, re.S)[1].splitlines()
        sent, answered = [line[2:] for line in block[::2]], [line[2:] for line in block[1::2]]
        self.assertTrue(all(line.startswith('> ') for line in block[::2]) and all(line.startswith('< ') for line in block[1::2]))
        self.assertEqual(self.answers(*sent), answered)
        self.assertEqual({line[:2] for line in sent}, {'10', '11', '12', '13', '20'})
        told = {repr(struct.unpack('>d', bytes.fromhex(line[2:]))[0]) for line in answered}
        self.assertTrue(told <= set(re.findall(r'\d+\.\d+', PAGE)), told)

    def test_client(self):
        """The client is run as it is used on the page, a line at a time."""
        client, use = CODE
        space = {}
        exec(client, space)
        program = str(PROGRAM).replace('\\', '\\\\')
        test = doctest.DocTestParser().get_doctest(use.replace('crates/desk/out/desk', program), space, 'LINES.md', 'docs/LINES.md', 0)
        result = doctest.DocTestRunner(verbose=False).run(test)
        self.assertEqual((result.failed, result.attempted), (0, 7))
        self.assertLessEqual(len(client.splitlines()), 28)

    def test_client_when_the_program_ends(self):
        space = {}
        exec(CODE[0], space)
        desk = space['Desk']('/bin/true' if os.path.exists('/bin/true') else 'true')
        desk.process.wait()
        self.assertRaises((EOFError, BrokenPipeError), desk.ask, b'20', 1.0, 1.0)
        desk.process.stdout.close()
        try:
            desk.process.stdin.close()
        except BrokenPipeError:
            pass

    def test_numbers_are_those_of_the_list(self):
        rows = dict(re.findall(r'^\| ((?:`\d\d`(?:, )?)+) \| ([\d, ]+) \|$', PAGE, re.M))
        listed = dict(re.findall(r"^\| (?:the program's|its) (lines? [^|]*) \| ([\d, ]+) \|$", (ROOT / 'docs/REFUSALS.md').read_text(), re.M))
        self.assertEqual(list(rows.values()), list(listed.values()))
        self.assertEqual([re.findall(r'\d\d', row) for row in rows], [re.findall(r'\d\d', row) for row in listed])


class Lines(LinesDocument):
    def test_kinds_and_lengths(self):
        """The table of kinds: every other kind, and every other length, is refused by 21."""
        table = {kind: int(size) for kind, size in re.findall(r'^\| `(\d\d)` \| [^|]* \| (\d\d) \|', PAGE, re.M)}
        self.assertEqual(table, {'10': 34, '11': 50, '12': 50, '13': 50, '20': 34})
        lines = [('%02X' % k, n) for k in range(256) for n in (34, 50)] + [(kind, n) for kind in table for n in range(2, 70)]
        found = self.numbers(*[kind + '0' * (n - 2) for kind, n in lines])
        self.assertEqual([number == 21 for number in found], [table.get(kind) != n for kind, n in lines])

    def test_blanks_and_infinities(self):
        blanks = [OPEN] + ['13' + bits + VOL[18:] for bits in ('7FF8000000000000', 'FFF123456789ABCD', '7FF0000000000001', '7FF0000000000000')]
        self.assertEqual(self.numbers(*blanks), [0, 7, 7, 7, 7])

    def test_no_book_is_open(self):
        four = [frame('11', 100.0, 0.5, 8.0), frame('12', 100.0, 0.5, 8.0), VOL, READ]
        self.assertEqual(self.numbers(*four), [2] * 4)
        self.assertEqual(self.numbers(OPEN, VOL, frame('10', NAN, 0.0), *four), [0, 0, 6] + [2] * 4)
        self.assertEqual(self.numbers(OPEN, VOL, frame('10', 100.0, 3.0), *four, 'xx', OPEN, READ, VOL, READ), [0, 0, 9] + [2] * 4 + [21, 0, 18, 0, 0])

    def test_an_opening_drops_the_book(self):
        self.assertEqual(self.numbers(OPEN, VOL, READ, OPEN, READ), [0, 0, 0, 0, 18])

    def test_a_refused_offer_and_a_reading_change_nothing(self):
        refused = [frame('13', NAN, 0.5, 0.3), frame('11', 90.0, 0.5, 1000.0), 'xx', frame('20', 95.0, 0.5), READ]
        self.assertEqual(self.answers(OPEN, VOL, *refused)[-1], QUARTER)
        self.assertEqual(self.numbers(OPEN, VOL, *refused), [0, 0, 7, 12, 21, 19, 0])

    def test_how_much_a_book_hears(self):
        self.assertEqual(self.numbers(OPEN, *[VOL] * 1025, READ, OPEN, VOL), [0] * 1025 + [4, 0, 0, 0])
        blank = frame('13', NAN, 0.5, 0.25)
        found = self.numbers(OPEN, *['xx', blank] * 60000, VOL, 'xx', READ, OPEN, VOL)
        self.assertEqual(found, [0] + [21, 7] * 60000 + [3, 21, 18, 0, 0])


class NotUnderstood(LinesDocument):
    def test_each_row(self):
        lengths = (VOL[:-1], VOL + '0', READ[:18], VOL + VOL[2:18], '', 'A' * 51, VOL * 2, 'A' * 4096, VOL * 10 ** 5)
        kinds = ('14' + VOL[2:], '0A' + READ[2:])
        characters = (VOL.replace('D', 'd'), VOL.lower(), ' ' + READ, READ + ' ', READ[:20] + '.' + READ[21:], READ + '\r', VOL + '\r', '\r',
                      '0x' + READ, '0x' + READ[2:], '+' + READ[1:], READ + '\0', READ[:-1] + '\0')
        for line in lengths + kinds + characters:
            with self.subTest(line[:60]):
                self.assertEqual(self.answers(OPEN, VOL, line, READ)[2:], ['210000000000000000', QUARTER])

    def test_line_ends_of_another_system(self):
        self.assertEqual(self.numbers(OPEN, VOL, READ, end='\r\n'), [0, 0, 21])
        self.assertEqual(self.numbers(*[line + '\r' for line in (OPEN, VOL, READ)]), [21, 21, 21])

    def test_a_long_line_takes_no_memory(self):
        desk = self.session()
        desk.stdin.write((OPEN + '\n').encode())
        self.assertEqual(desk.stdout.read(19), b'000000000000000000\n')
        status = Path('/proc/%d/status' % desk.pid)
        before = re.findall(r'VmPeak:.*', status.read_text()) if status.exists() else None
        for _ in range(500):
            desk.stdin.write(b'0' * 40000)
        self.assertTrue(self.waits(desk, 0.1))
        desk.stdin.write(b'\n')
        self.assertEqual(desk.stdout.read(19), b'210000000000000000\n')
        if before:
            self.assertEqual(re.findall(r'VmPeak:.*', status.read_text()), before)
        desk.stdin.close()


class Ends(LinesDocument):
    def test_the_last_line(self):
        self.assertEqual(self.answers(OPEN, VOL, end=''), ['000000000000000000', QUARTER])
        self.assertEqual(self.answers(OPEN, VOL), ['000000000000000000', QUARTER])
        self.assertEqual(self.answers('', end=''), [])
        self.assertEqual(self.numbers(OPEN, 'xx', end=''), [0, 21])
        desk = self.session()
        desk.stdin.write((OPEN + '\n' + VOL).encode())
        self.assertEqual(desk.stdout.read(19), b'000000000000000000\n')
        self.assertTrue(self.waits(desk), 'a line without its line feed waits')
        desk.stdin.close()
        self.assertEqual(desk.stdout.read(), (QUARTER + '\n').encode())

    def test_a_read_that_fails(self):
        """An input that does not wait, with nothing there: what came before is answered but for a line without its line feed."""
        ours, theirs = os.pipe()
        os.set_blocking(ours, False)
        os.write(theirs, (OPEN + '\n' + VOL).encode())
        run = subprocess.run([PROGRAM], stdin=ours, capture_output=True, timeout=60)
        os.close(ours)
        os.close(theirs)
        self.assertEqual((run.stdout, run.stderr, run.returncode), (b'000000000000000000\n', b'desk: cannot read\n', 0))

    def test_a_status_in_a_shell(self):
        run = subprocess.run(['sh', '-c', '{ sleep 0.2; "%s"; echo $? >&2; } < /dev/stdin | :' % PROGRAM], input=b'xx\n', stderr=subprocess.PIPE, timeout=60)
        self.assertEqual(run.stderr, b'desk: cannot write\n0\n')


class Sessions(LinesDocument):
    def test_each_line_is_answered_at_once(self):
        desk = self.session()
        for line, wanted in ((OPEN, '000000000000000000'), (VOL, QUARTER), (READ, QUARTER), ('', '210000000000000000')):
            desk.stdin.write((line + '\n').encode())
            self.assertEqual(desk.stdout.read(19).decode(), wanted + '\n')
            self.assertTrue(self.waits(desk, 0.05))
        desk.stdin.write((VOL + '\n' + VOL + '\n' + VOL[:7]).encode())
        self.assertEqual(desk.stdout.read(38).decode(), (QUARTER + '\n') * 2)
        desk.stdin.write((VOL[7:] + '\n').encode())
        self.assertEqual(desk.stdout.read(19).decode(), QUARTER + '\n')
        desk.stdin.close()
        self.assertEqual((desk.stdout.read(), desk.stderr.read(), desk.wait()), (b'', b'', 0))

    def test_a_client_that_does_not_read_comes_to_a_standstill(self):
        desk, sent = self.session(), 0
        os.set_blocking(desk.stdin.fileno(), False)
        while sent < 10 ** 7 and select.select([], [desk.stdin], [], 1.0)[1]:
            sent += os.write(desk.stdin.fileno(), b'\n' * 4096)
        self.assertLess(sent, 10 ** 7)
        got = 0
        while got < 19 * sent:
            got += len(desk.stdout.read(1 << 16))
        desk.stdin.close()
        self.assertEqual((got, desk.stdout.read()), (19 * sent, b''))
