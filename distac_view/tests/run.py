#!/usr/bin/env python3
"""Runs all tests of `distac-view`, or those named, as test_fuzz or test_ends.Ends. The last line is `N passed, M failed`.

They run the program that the environment variable DISTAC names, or else the models. SIGTERM and SIGHUP end them like
Ctrl-C, so that their temporary folders are removed.
"""

import signal
import sys
import unittest
from pathlib import Path

sys.dont_write_bytecode = True
HERE = Path(__file__).resolve().parent
sys.path.insert(0, str(HERE))

from support import PROGRAM
import processes


def main() -> int:
    processes.handle_signals(signal.default_int_handler)
    print(f"distac-view is tested with {PROGRAM}")
    sys.stdout.flush()
    tests = unittest.defaultTestLoader.loadTestsFromNames(sys.argv[1:] or sorted(file.stem for file in HERE.glob("test_*.py")))
    result = unittest.TextTestRunner(stream=sys.stdout, verbosity=1).run(tests)
    failed = len({test.id() for test, _ in (*result.failures, *result.errors)})
    print(f"{result.testsRun - failed} passed, {failed} failed")
    return 1 if failed or not result.testsRun else 0


if __name__ == "__main__":
    sys.exit(main())
