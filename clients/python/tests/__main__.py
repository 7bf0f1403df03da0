"""Runs all tests beside this file and counts them. Usage: python3 clients/python/tests [-v]   (from anywhere; TABD names another program)"""
import sys
import unittest
from pathlib import Path

sys.dont_write_bytecode = True
HERE = str(Path(__file__).resolve().parent)
sys.path.insert(0, HERE)


class Counted(unittest.TextTestResult):
    """Counts what passed; whether `testsRun` has the skipped ones depends on the version of Python."""

    passed = 0

    def addSuccess(self, test: unittest.TestCase) -> None:
        super().addSuccess(test)
        self.passed += 1


runner = unittest.TextTestRunner(resultclass=Counted, verbosity=2 if "-v" in sys.argv else 1)
result = runner.run(unittest.defaultTestLoader.discover(HERE))
failed, skipped = len(result.failures) + len(result.errors), len(result.skipped)
for _, what in result.skipped:
    print(f"skipped: {what}")
print(f"{result.passed} passed, {failed} failed" + (f", {skipped} skipped" if skipped else ""))
sys.exit(failed != 0)
