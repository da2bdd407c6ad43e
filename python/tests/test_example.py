"""The example that calls the program from Python, run as a script."""
from __future__ import annotations

import importlib.util
import os
import subprocess
import sys
import unittest
from pathlib import Path

from support import TOP, TRUE, Calls

EXAMPLE = TOP / "examples/jacobi.py"
STEPS = (0, 5, 50)
HAS_MATPLOTLIB = importlib.util.find_spec("matplotlib") is not None
# Does what the program of the example does, for the program that stands for the true one.
STATEMENTS = "for _ in range(T): A[1:-1] = [sum(A[i - 1:i + 2]) // 3 for i in range(1, len(A) - 1)]"


def heat_after(steps: int) -> list[int]:
    """Gives the rod after so many steps."""
    rod = [0] * 10 + [900] * 11 + [0] * 10
    for _ in range(steps):
        rod[1:-1] = [sum(rod[i - 1 : i + 2]) // 3 for i in range(1, len(rod) - 1)]
    return rod


class Example(Calls):
    def script(self) -> Path:
        """Gives the example with what the standing program needs to be told."""
        text = EXAMPLE.read_text()
        head = "def jacobi(A: dace.int64[N]):\n"
        self.assertEqual(text.count(head), 1)
        written = self.folder / "jacobi.py"
        written.write_text(text.replace(head, f"{head}    # fake: {STATEMENTS}\n    # fake turns 101\n"))
        return written

    def test_what_it_prints(self) -> None:
        environment = {**os.environ, "PYTHONPATH": str(TOP / "python"), "MPLBACKEND": "Agg"}
        ran = subprocess.run(
            [sys.executable, str(self.script())], env=environment, capture_output=True, text=True, cwd=self.folder
        )
        self.assertEqual((ran.returncode, ran.stderr), (0, ""))
        lines = ran.stdout.splitlines()
        for steps in STEPS:
            heat = heat_after(steps)
            self.assertIn(f"{steps:2} steps: {max(heat)} in the middle, {sum(heat)} in all", lines)
        picture = self.folder / "jacobi.png"
        self.assertEqual("the rods are in jacobi.png" in lines, HAS_MATPLOTLIB)
        self.assertEqual(picture.is_file() and picture.read_bytes()[:8] == b"\x89PNG\r\n\x1a\n", HAS_MATPLOTLIB)
        self.assertEqual(lines[-2:], ["error 11 of T: the size has no value", "100 turns are too few"])


class ExampleOnTheProgram(Example):
    program = TRUE

    def script(self) -> Path:
        return EXAMPLE


if __name__ == "__main__":
    unittest.main()
