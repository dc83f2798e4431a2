"""Tests of ./quote against a stand-in for its program. Run: python3 tests/test_quote.py, or with quote.exits, say, for those of one file."""

import importlib
import io
import sys
import unittest
from concurrent.futures import ProcessPoolExecutor
from pathlib import Path

sys.dont_write_bytecode = True
HERE = Path(__file__).resolve().parent
sys.path[:0] = [str(HERE), str(HERE.parent)]
NO_TESTS = ('__init__', 'harness', 'stand_in')
FILES = ['quote.' + file.stem for file in sorted(HERE.glob('quote/*.py')) if file.stem not in NO_TESTS]


def classes(name):
    """The names of a file's classes of tests."""
    found = vars(importlib.import_module(name)).values()
    return ['%s.%s' % (name, c.__name__) for c in found if isinstance(c, type) and issubclass(c, unittest.TestCase) and c.__module__ == name]


def result_of(name):
    """How many tests a class has, whether all of them hold, and what is said of them."""
    said = io.StringIO()
    result = unittest.TextTestRunner(stream=said, verbosity=0).run(unittest.defaultTestLoader.loadTestsFromName(name))
    return result.testsRun, len(result.skipped), result.wasSuccessful(), said.getvalue()


def main():
    """All classes, some side by side, and the number of tests last."""
    with ProcessPoolExecutor(4) as pool:
        found = list(pool.map(result_of, [name for file in FILES for name in classes(file)]))
    for *_, well, said in found:
        if not well:
            print(said, file=sys.stderr)
    tests, skipped, well = sum(f[0] for f in found), sum(f[1] for f in found), all(f[2] for f in found)
    print('%d tests, %d of them left out: %s' % (tests, skipped, 'OK' if well else 'FAILED'), file=sys.stderr)
    return 0 if well else 1


if __name__ == '__main__':
    if sys.argv[1:]:
        quote = importlib.import_module('quote')
        for file in FILES:
            importlib.import_module(file)
        unittest.main(defaultTest=FILES)
    sys.exit(main())
