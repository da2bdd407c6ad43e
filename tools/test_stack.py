#!/usr/bin/env python3
"""Tests that the deepest sources, and deep files, need no more stack than docs/RUNNING.md tells."""
from __future__ import annotations

import re
import subprocess
import tempfile
import unittest
from pathlib import Path

TOP = Path(__file__).resolve().parent.parent
PROGRAM = TOP / "crates/sdfg/out/sdfg"
RUNNING = TOP / "docs/RUNNING.md"
KIB = 1280
WITHIN = 'ulimit -s "$1" && shift && exec "$@"'
COMMANDS = (["run"], ["step", "picks"], ["print"], ["check"])
ARRAYS = '{"A":[5],"B":[0]}'
DONE = b"A[1] = 5\nB[1] = 5\n"


def nested(heads: list[str], body: list[str]) -> list[str]:
    """Returns these lines, each below the one before it, and these behind the last."""
    return [" " * at + head for at, head in enumerate(heads)] + [" " * len(heads) + line for line in body]


def program(body: list[str], name: str = "f") -> str:
    return f"@dace.program\ndef {name}(A: dace.int64[1], B: dace.int64[1]):\n" + "".join(f" {line}\n" for line in body)


def tasklet(ifs: int) -> list[str]:
    """Returns a tasklet with so many branches in one another, and 64 signs in the innermost."""
    return ["with dace.tasklet:", " a << A[0]", " b >> B[0]"] + [" " + it for it in nested(["if a:"] * ifs, [f"b = {'-' * 64}a"])]


def chain(heads: list[str], body: list[str]) -> str:
    """Returns nine programs, each of which calls the one before it below these lines."""
    calls = "".join(program(nested(heads, [f"f{n}(A, B)"]), f"f{n + 1}") for n in range(8))
    return program(nested(heads, body), "f0") + calls


MAPS = [f"for i{n} in dace.map[0:1]:" for n in range(7)]
DEEP = {
    "1,020 branches in one another in a tasklet": program(tasklet(1020)),
    "the same, in 126 of the program": program(nested(["if A[0]:"] * 126, tasklet(1020))),
    "7 maps in each of 9 programs": chain(MAPS, ["B[0] += A[0]"]),
    "the same, round 1,000 branches": chain(MAPS, tasklet(1000)),
    "64 levels of an expression": program([f"B[0] = {'min(9, ' * 64}A[0]{')' * 64}"]),
}
REFUSED = {
    "1,400 branches of a program": program(nested(["if A[0]:"] * 1400, ["B[0] = 1"])),
    "1,300 branches of a tasklet": program(tasklet(1300)),
    "200,000 brackets": program([f"B[0] = {'(' * 200000}1{')' * 200000}"]),
    "400,000 signs": program([f"B[0] = {'-' * 400000}1"]),
    "400,000 signs between two": program([f"B[0] = 1{'+1' * 400000}"]),
}


class Stack(unittest.TestCase):
    @classmethod
    def setUpClass(cls) -> None:
        subprocess.run([TOP / "sdfg"], stdout=subprocess.DEVNULL, check=False)

    def call(self, source: str, arrays: str, command: str, *more: str) -> tuple[int, bytes]:
        """Calls the program with as much stack as the document tells, and returns its status and what it wrote."""
        with tempfile.TemporaryDirectory() as folder:
            for name, text in (("a.py", source), ("a.json", arrays), ("picks", "")):
                (Path(folder) / name).write_text(text)
            words = ["/bin/sh", "-c", WITHIN, "sh", str(KIB), PROGRAM, command, "a.py", "a.json", *more]
            ran = subprocess.run(words, cwd=folder, env={}, capture_output=True, timeout=60)
        return ran.returncode, ran.stdout

    def test_the_figure_is_that_of_the_document(self) -> None:
        self.assertEqual(re.findall(r"A stack of ([\d,]+) KiB is enough", RUNNING.read_text()), [f"{KIB:,}"])

    def test_deep_sources_run(self) -> None:
        for what, source in DEEP.items():
            for words in COMMANDS:
                with self.subTest(what, words=words):
                    status, text = self.call(source, ARRAYS, *words)
                    self.assertEqual(status, 0)
                    self.assertEqual(text if words[0] in ("run", "step") else DONE, DONE)

    def test_sources_that_are_too_deep_are_refused(self) -> None:
        for what, source in REFUSED.items():
            with self.subTest(what):
                status, text = self.call(source, ARRAYS, "run")
                self.assertEqual((status, text[:15]), (3, b"source error 8 "))

    def test_deep_arrays_files_are_read(self) -> None:
        for depth, error in ((126, b"19 A"), (127, b"14"), (1_000_000, b"14")):
            given = f'{{"A":{"[" * depth}{"]" * depth},"B":[0]}}'
            self.assertEqual(self.call(DEEP["64 levels of an expression"], given, "run"), (4, b"arrays error " + error + b"\n"))


if __name__ == "__main__":
    unittest.main()
