"""Runs the tests beside this file, or those of the modules named, and tells what was skipped."""

import sys
import unittest
from pathlib import Path

HERE = Path(__file__).resolve().parent


def main():
    sys.path[:0] = [str(HERE), str(HERE.parent)]
    loader = unittest.defaultTestLoader
    tests = loader.loadTestsFromNames(sys.argv[1:]) if sys.argv[1:] else loader.discover(str(HERE))
    result = unittest.TextTestRunner(verbosity=1).run(tests)
    for reason in sorted({reason for _, reason in result.skipped}):
        count = sum(reason == other for _, other in result.skipped)
        print(f"skipped: {reason} ({count} tests)", file=sys.stderr)
    sys.exit(0 if result.wasSuccessful() else 1)


main()
