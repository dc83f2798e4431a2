"""Writes all that the prover says of must-fail edits, of which `rt ci` prints the first error's first line alone: makes each in a copy of the crates, runs
`rt check` there, and leaves what it says in target/must-fail/CRATE/EDIT.log. Told are the edits that are proved, and those of which the prover found that
they would be with more definitions opened, which is no wrong program. Run where an edit is new: python3 tests/edit_logs.py [CRATE[/EDIT]..]"""

import shutil
import subprocess
import sys
import tempfile
from pathlib import Path

sys.dont_write_bytecode = True
ROOT = Path(__file__).resolve().parent.parent
PARTS = ('src', 'specs', 'proofs')


def wanted(words):
    """The files of the edits that are asked for, or of all."""
    files = sorted(ROOT.glob('crates/*/must-fail/*.edit'))
    return [file for file in files if not words or {file.parent.parent.name, f'{file.parent.parent.name}/{file.stem}'} & set(words)]


def made(edit, crate):
    """Makes an edit in a crate."""
    for line in edit.read_text().splitlines():
        word, _, text = line.partition(':')
        text = text[1:]
        if word == 'file':
            file = crate / text.strip()
        elif word == 'old':
            old = text
        elif word == 'new':
            was = file.read_text()
            if was.count(old) != 1:
                sys.exit(f'{edit}: {old!r} stands {was.count(old)} times in {file.relative_to(crate)}')
            file.write_text(was.replace(old, text))


def put_back(crate):
    """Gives a crate of the copy its own files again."""
    for part in PARTS:
        if (ROOT / 'crates' / crate.name / part).is_dir():
            shutil.rmtree(crate / part, ignore_errors=True)
            shutil.copytree(ROOT / 'crates' / crate.name / part, crate / part)


def main(words):
    told = 0
    with tempfile.TemporaryDirectory() as room:
        copy = Path(room) / 'copy'
        shutil.copytree(ROOT / 'crates', copy / 'crates', ignore=shutil.ignore_patterns('out', 'must-fail', '__pycache__'))
        shutil.copy(ROOT / 'crates.txt', copy)
        (copy / '.git').mkdir()
        for edit in wanted(words):
            name, crate = f'{edit.parent.parent.name}/{edit.stem}', copy / 'crates' / edit.parent.parent.name
            log = ROOT / f'target/must-fail/{name}.log'
            log.parent.mkdir(parents=True, exist_ok=True)
            made(edit, crate)
            run = subprocess.run(['rt', 'check'], cwd=crate, stdin=subprocess.DEVNULL, stdout=subprocess.PIPE, stderr=subprocess.STDOUT, text=True)
            put_back(crate)
            log.write_text(run.stdout)
            why = 'it is proved' if not run.returncode else 'more definitions opened would do' if 'was admitted by the kernel' in run.stdout else ''
            if not why and ('logic=not-proved' not in run.stdout or ' did not build' in run.stdout):
                why = 'the prover did not come to it'
            told += bool(why)
            print(f'{name}: {why or "refused"}', flush=True)
    return 1 if told else 0


if __name__ == '__main__':
    sys.exit(main(sys.argv[1:]))
