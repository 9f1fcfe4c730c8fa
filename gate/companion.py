#!/usr/bin/env python3
"""Runs the tests of the companion, which are in companion/tests: all of them, or those of the modules that arguments name, as
`test_check`. FOLDERS=2000 in the environment has it try as many random folders, where 200 are the usual number."""

import pathlib
import sys
import unittest

sys.dont_write_bytecode = True
COMPANION = pathlib.Path(__file__).resolve().parent.parent / "companion"


def main():
    sys.path.insert(0, str(COMPANION))
    named = [f"tests.{name}" for name in sys.argv[1:]]
    loader = unittest.TestLoader()
    found = loader.loadTestsFromNames(named) if named else loader.discover(COMPANION / "tests", top_level_dir=COMPANION)
    ended = unittest.TextTestRunner().run(found)
    if not ended.testsRun:
        sys.exit("companion: no test was found")
    sys.exit(not ended.wasSuccessful())


if __name__ == "__main__":
    main()
