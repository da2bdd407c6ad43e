#!/usr/bin/env python3
"""Runs the unit tests of tools/ and of python/tests/.

Each test that fails is shown, tests that are skipped count as neither, and the last line is 'N passed, M failed'. The
status is 0 where there are tests and none failed. Where this Python has no NumPy and that of the system has it, the tests are
run by that one.
"""
from __future__ import annotations

import importlib.util
import os
import subprocess
import sys
import unittest
from pathlib import Path

TOP = Path(__file__).resolve().parent.parent
FOLDERS = (TOP / "tools", TOP / "python/tests")
OF_THE_SYSTEM = "/usr/bin/python3"


def change_to_numpy() -> None:
    """Goes on as a Python that has NumPy, where there is one and this has none."""
    if importlib.util.find_spec("numpy") is not None or os.path.realpath(sys.executable) == os.path.realpath(OF_THE_SYSTEM):
        return
    if os.access(OF_THE_SYSTEM, os.X_OK) and subprocess.run([OF_THE_SYSTEM, "-c", "import numpy"], capture_output=True).returncode == 0:
        os.execv(OF_THE_SYSTEM, [OF_THE_SYSTEM, *sys.argv])


class Counted(unittest.TextTestResult):
    """Counts a test with several failures as one."""

    def failed(self) -> int:
        tests = [getattr(test, "test_case", test) for test, _ in (*self.failures, *self.errors)]
        return len({test.id() for test in (*tests, *self.unexpectedSuccesses)})


def main() -> int:
    change_to_numpy()
    tests = unittest.TestSuite(unittest.TestLoader().discover(str(it), "test_*.py", str(it)) for it in FOLDERS)
    result = unittest.TextTestRunner(stream=sys.stdout, resultclass=Counted, verbosity=0).run(tests)
    failed = result.failed() if result.testsRun else 1
    print(f"{max(result.testsRun - len(result.skipped) - failed, 0)} passed, {failed} failed")
    return 1 if failed else 0


if __name__ == "__main__":
    sys.exit(main())
