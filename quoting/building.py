"""Proves and builds a program of the repository where it must be: `rt run` in its folder, its words in a log, a line for each crate here."""

import os
import re
import select
import shutil
import signal
import subprocess
import sys
import time
from contextlib import contextmanager
from pathlib import Path

ROOT = Path(__file__).resolve().parent.parent
# What rt says as it begins a crate, and rattle as it ends one. Of a crate that was proved before rt says nothing.
BEGUN = re.compile(r'rt: chose --jobs \d+ for (\w+)$')
PROVED, NOT_PROVED = 'logic=proved ', re.compile(r'logic=(?!proved )|rt: the library \w+ did not build')
# What rattle counts of each crate besides.
COUNTED = re.compile(r'(logic|statements|library|axioms|crate) .*[:=]')
SHOWN, CUT = 12, 400


class BuildError(Exception):
    """The program cannot be proved or built."""


def program(name):
    """The path of a program, built first where it is not there or older than the crates that it needs."""
    variable = 'KITESETTEE_' + name.upper()
    other = os.environ.get(variable)
    if other:
        if not (os.path.isfile(other) and os.access(other, os.X_OK)):
            raise BuildError('%s names %s, which is not a program' % (variable, other))
        return os.path.abspath(other)
    path, crates = ROOT / built(name), needed(name)
    why = stale(path, crates)
    if why:
        kit = shutil.which('rt')
        if not kit:
            raise BuildError('%s must be built (%s), and the Rattle kit (rt) that builds it is not on the PATH; '
                             'put it there, or name a built program in %s' % (built(name), why, variable))
        try:
            with alone():
                # Another run may have built it meanwhile.
                why = stale(path, crates)
                if why:
                    build(os.path.abspath(kit), path, crates, why)
        except OSError as error:
            raise BuildError('%s cannot be built: %s: %s' % (built(name), error.filename or 'rt', error.strerror))
    return str(path)


def built(name):
    """Where rt leaves a program, from the repository's top."""
    return 'crates/%s/out/%s' % (name, name)


def needed(name):
    """The crates that a program needs, itself last, in the order in which rt proves them."""
    sees = {}
    try:
        text = (ROOT / 'crates.txt').read_text(encoding='utf-8')
    except OSError as error:
        raise BuildError('%s: %s' % (error.filename, error.strerror))
    for line in text.splitlines():
        crate, colon, rest = line.partition('#')[0].partition(':')
        if colon and crate.strip():
            # A static library has a word more.
            sees[crate.split()[0]] = rest.split()
    if name not in sees:
        raise BuildError('crates.txt does not list the program %s' % name)
    met, order = set(), []

    def visit(crate):
        # A crate that needs itself is told by rt.
        if crate in sees and crate not in met:
            met.add(crate)
            for below in sees[crate]:
                visit(below)
            order.append(crate)

    visit(name)
    return order


def stale(path, crates):
    """Why a program must be built, or None."""
    if not path.is_file():
        return 'first use'
    if begun(path.name).exists():
        return 'the last build did not succeed'
    files = [ROOT / 'crates.txt']
    for crate in crates:
        for part in ('src', 'specs', 'proofs'):
            # A folder is newer too where a file has left it.
            files += [ROOT / 'crates' / crate / part, *ROOT.glob('crates/%s/%s/**/*' % (crate, part))]
    built = path.stat().st_mtime
    return 'the crates have changed' if any(file.exists() and file.stat().st_mtime > built for file in files) else None


@contextmanager
def alone():
    """One build at a time in this repository."""
    (ROOT / 'target' / 'log').mkdir(parents=True, exist_ok=True)
    with open(ROOT / 'target' / 'log' / 'building.lock', 'w') as file:
        try:
            import fcntl
        except ImportError:
            yield
            return
        try:
            fcntl.flock(file, fcntl.LOCK_EX | fcntl.LOCK_NB)
        except OSError:
            say('another run is building; this one waits for it')
            fcntl.flock(file, fcntl.LOCK_EX)
        yield


def begun(name):
    """A file that is there from the beginning of a build until it succeeds: a program may be linked that does not stand its test."""
    return ROOT / 'target' / 'log' / ('building_%s.begun' % name)


def say(words):
    print('quote: ' + words, file=sys.stderr, flush=True)


def build(kit, path, crates, why):
    """Prove and build; raise where that fails."""
    name = path.name
    log = 'target/log/building_%s.txt' % name
    say('%s: proving %d crates and building %s; this may take some minutes, and what the prover says goes to %s' % (
        why, len(crates), built(name), log))
    began = time.time()
    begun(name).touch()
    try:
        # It is run too, on an empty input.
        status = run([kit, 'run'], ROOT / 'crates' / name, ROOT / log, Progress(crates))
    except KeyboardInterrupt:
        say('interrupted; no prover goes on, and the crates that are proved stay so')
        raise
    if status or not path.is_file():
        sys.stderr.write(''.join('  | %s\n' % line for line in end_of(ROOT / log)))
        raise BuildError('`rt run` in crates/%s ended with status %d; %s is not built; %s has all that it said' % (name, status, built(name), log))
    # A file that changed while this ran is newer than the program.
    os.utime(path, (began, began))
    begun(name).unlink()


def end_of(log):
    """The lines of the log up to the first crate that is not proved, else its last lines."""
    lines = [line for line in log.read_text(encoding='utf-8', errors='replace').splitlines() if not COUNTED.match(line)]
    last = next((i + 1 for i, line in enumerate(lines) if NOT_PROVED.match(line)), len(lines))
    return [line if len(line) <= CUT else line[:CUT] + ' ...' for line in lines[max(0, last - SHOWN):last]]


class Progress:
    """How far the proof is. On a terminal one line is written over and over; elsewhere each crate that ends has a line."""

    def __init__(self, crates):
        self.crates, self.left, self.began = crates, list(crates), time.monotonic()
        self.terminal, self.width = sys.stderr.isatty(), 0

    def told(self, word, count, crate):
        seconds = int(time.monotonic() - self.began)
        return 'quote: %s %d of %d: %s, %d:%02d' % (word, count, len(self.crates), crate, seconds // 60, seconds % 60)

    def heard(self, line):
        """A line of rt: those before a crate that begins are proved."""
        match = BEGUN.match(line)
        if match and match[1] in self.left:
            self.left = self.left[self.left.index(match[1]):]
        elif line.startswith(PROVED) and self.left:
            crate = self.left.pop(0)
            if not self.terminal:
                print(self.told('proved', len(self.crates) - len(self.left), crate), file=sys.stderr, flush=True)

    def tick(self):
        if self.terminal:
            at = len(self.crates) - len(self.left) + 1
            self.over(self.told('proving', at, self.left[0]) if self.left else self.told('proved', len(self.crates), self.crates[-1]))

    def over(self, words):
        sys.stderr.write('\r' + words.ljust(self.width))
        sys.stderr.flush()
        self.width = len(words)

    def close(self):
        if self.terminal and self.width:
            sys.stderr.write('\n')
            sys.stderr.flush()


def run(words, folder, log, progress):
    """The status of a command in a folder, whose words go to a log; it ends with this process, however this one ends."""
    with open(log, 'wb') as file, ending():
        # rt's provers ignore the terminal's interrupt, so they are a group of their own that is ended from here.
        process = subprocess.Popen(words, cwd=folder, stdin=subprocess.DEVNULL, stdout=subprocess.PIPE, stderr=subprocess.STDOUT, start_new_session=True)
        try:
            follow(process.stdout.fileno(), file, progress)
            return process.wait()
        except BaseException:
            end(process)
            raise
        finally:
            progress.close()
            process.stdout.close()


def follow(pipe, file, progress):
    """Copy what is said to the log, and each line to the progress, to its end."""
    rest = b''
    while True:
        progress.tick()
        if not select.select([pipe], [], [], 1.0)[0]:
            continue
        read = os.read(pipe, 65536)
        if not read:
            return
        file.write(read)
        *lines, rest = (rest + read).split(b'\n')
        for line in lines:
            progress.heard(line.decode('utf-8', 'replace'))


def end(process):
    """End a command and all that it started."""
    try:
        signal_group(process.pid, signal.SIGTERM)
        process.wait(5)
    except subprocess.TimeoutExpired:
        pass
    finally:
        signal_group(process.pid, signal.SIGKILL)
        process.wait()


def signal_group(group, kind):
    try:
        os.killpg(group, kind)
    except ProcessLookupError:
        pass


@contextmanager
def ending():
    """Signals that would end this process at once raise instead, so that what it started is ended first."""
    def leave(number, _):
        sys.exit(128 + number)

    kinds = [kind for kind in (signal.SIGTERM, signal.SIGHUP) if signal.getsignal(kind) is signal.SIG_DFL]
    for kind in kinds:
        signal.signal(kind, leave)
    try:
        yield
    finally:
        for kind in kinds:
            signal.signal(kind, signal.SIG_DFL)
