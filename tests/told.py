"""Runs tests, and tells each in a line: `test WHAT: NAME ... ok`, or `FAILED`."""

import os
import pathlib
import sys
import traceback
import unittest

TOP = pathlib.Path(__file__).resolve().parent.parent
# What tools/library has the program answer: scripts NAME.livemap with their answers NAME.out, and the summary of a made one.
BY_PROGRAM = pathlib.Path(os.environ.get("LIVEMAP_BY_PROGRAM", TOP / "crates/measure/data"))


class Told(unittest.TestResult):
    def __init__(self, what):
        super().__init__()
        self.what = what

    def tell(self, test, how):
        print(f"test {self.what}: {test.id().split('.')[-1].removeprefix('test_')} ... {how}", flush=True)

    def addSuccess(self, test):
        self.tell(test, "ok")

    def stopTest(self, test):
        found = [error for it, error in self.failures + self.errors if it is test or getattr(it, "test_case", None) is test]
        if found:
            self.tell(test, "FAILED")
            print(*found, sep="\n", flush=True)
        super().stopTest(test)


def run(what, case):
    """Runs the tests of a class. The status is 1 where one fails."""
    result = Told(what)
    try:
        unittest.defaultTestLoader.loadTestsFromTestCase(case).run(result)
    except KeyboardInterrupt:
        traceback.print_exc()
        sys.exit(1)
    sys.exit(not result.wasSuccessful())
