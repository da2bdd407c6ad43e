#!/usr/bin/env python3
"""Tests of the tables of calls: of what is read from them, and of what is said where a call differs."""
from __future__ import annotations

import sys
import tempfile
import unittest
from pathlib import Path

sys.path.insert(0, str(Path(__file__).resolve().parent))

from run_calls import Call, NoTable, difference, table  # noqa: E402
from worker_calls import WORKERS, by_workers  # noqa: E402

TABLE = """What it shows.
--- both
of all\\x21
=== the first case
--- own
a\\
b

$ run own 'two words' ""
--- prints 0
A[1] = 2

$ check own
--- own
other
--- prints 7

=== the second case
--- empty
\\
$
--- prints 2
bad words
"""

# A program that prints a file and ends with a status, as its words tell.
PROGRAM = """#!/bin/sh
cat "$1"
exit "$2"
"""


class TheCallsOfATable(unittest.TestCase):
    def test_each_call_has_its_words_its_files_and_what_is_wanted(self) -> None:
        first, second, third = table("t.txt", TABLE)
        both = {"both": b"of all!\n"}
        self.assertEqual(first, Call(first.place, ["run", "own", "two words", ""], {**both, "own": b"ab\n"}, 0, b"A[1] = 2\n"))
        self.assertEqual(second, Call(second.place, ["check", "own"], {**both, "own": b"ab\n"}, 7, b""))
        self.assertEqual(third, Call(third.place, [], {**both, "empty": b""}, 2, b"bad words\n"))

    def test_a_place_has_the_file_the_line_the_case_and_the_words(self) -> None:
        places = [call.place for call in table("t.txt", TABLE)]
        self.assertEqual(places[1], "tools/calls/t.txt:13: the first case: check own")

    def test_a_file_that_is_replaced_is_another_for_later_calls_of_its_case(self) -> None:
        text = "--- f\n1\n=== c\n$ a\n--- prints 0\n--- f\n2\n$ b\n--- prints 0\n=== d\n$ e\n--- prints 0\n"
        self.assertEqual([call.files["f"] for call in table("t.txt", text)], [b"1\n", b"2\n", b"1\n"])

    def test_texts_that_are_no_tables(self) -> None:
        for text in (
            "$ run\n--- prints 0\n",
            "=== a case\n",
            "=== a case\n$ run\n",
            "=== a case\n$ run\n$ run\n--- prints 0\n",
            "=== a case\n--- prints 0\n",
            "=== a case\n$ run\n--- prints 0\n--- prints 0\n",
            "=== a case\n$ run\n--- prints 0\n=== another\n--- prints 0\n",
            "=== a case\n$ run\n--- prints\n0\n=== b\n",
            "=== a case\n$run\n--- prints 0\n",
            "===\n$ run\n--- prints 0\n",
        ):
            with self.subTest(text), self.assertRaises(NoTable):
                table("t.txt", text)


class RunsByWorkers(unittest.TestCase):
    def of(self, words: str, status: int = 0) -> list[Call]:
        return list(by_workers([Call("place", words.split(), {"f": b""}, status, b"A[1] = 2\n")]))

    def test_a_run_is_done_by_each_number_of_workers_and_prints_the_same(self) -> None:
        found = self.of("run a.py a.json --chain c", 8)
        self.assertEqual([call.words[-2:] for call in found], [["--workers", str(count)] for count in WORKERS])
        self.assertEqual({(*call.words[:-2], call.status, call.printed) for call in found}, {("run", "a.py", "a.json", "--chain", "c", 8, b"A[1] = 2\n")})
        self.assertEqual(len({call.place for call in found}), len(WORKERS))

    def test_no_other_call_is_done_by_workers(self) -> None:
        for words, status in (
            ("step a.py a.json p", 0),
            ("print a.py a.json", 0),
            ("run a.py a.json", 3),
            ("run a.py", 2),
            ("run a.py a.json --workers 2", 0),
            ("run a.py a.json --workers=2", 0),
            ("run -- a.py a.json", 0),
            ("", 2),
        ):
            with self.subTest(words):
                self.assertEqual(self.of(words, status), [])


class WhatDiffers(unittest.TestCase):
    def differs(self, status: int, printed: bytes) -> list[str]:
        with tempfile.TemporaryDirectory() as folder:
            program = Path(folder) / "program"
            program.write_text(PROGRAM)
            program.chmod(0o755)
            return difference(Call("place", ["f", "3"], {"f": b"one\ntwo\n"}, status, printed), program)

    def test_nothing(self) -> None:
        self.assertEqual(self.differs(3, b"one\ntwo\n"), [])

    def test_the_status(self) -> None:
        self.assertEqual(self.differs(0, b"one\ntwo\n"), ["the status is 3, and not 0\n"])

    def test_the_output(self) -> None:
        lines = self.differs(3, b"one\nthree\n")
        self.assertEqual(lines[-3:], [" one\n", "-three\n", "+two\n"])


if __name__ == "__main__":
    unittest.main()
