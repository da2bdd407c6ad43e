#!/usr/bin/env python3
"""Tests of run_limits.py: what it says of calls of a stand-in that answers otherwise than it should."""
from __future__ import annotations

import io
import subprocess
import sys
import tempfile
import unittest
from contextlib import redirect_stdout
from pathlib import Path
from unittest import mock

sys.path.insert(0, str(Path(__file__).resolve().parent))

from limit_calls import Call, json_of, printed, wrapped  # noqa: E402
from limit_cases import moves  # noqa: E402
import run_limits  # noqa: E402
from run_limits import PACKETS, difference, pieces  # noqa: E402

LINE = b"A[3] = 1 2 3\n"
LONG = b"B" * 5000 + b"\n"


class Runs(unittest.TestCase):
    """Calls of a stand-in, which is a script of the shell."""

    def said(self, script: str, text: bytes = LINE, **limits: int) -> str:
        """Runs a script that is to print this text, and returns what differs."""
        with tempfile.TemporaryDirectory() as folder:
            program = Path(folder) / "program"
            program.write_text(f"#!/bin/sh\n{script}\n")
            program.chmod(0o755)
            return difference(Call("a call", ["word"], {"text": text, "folder/file": b"7"}, text, **limits), program)

    def test_what_is_right_differs_in_nothing(self):
        self.assertEqual(self.said("cat text"), "")
        self.assertEqual(self.said("cat text; exit 7", status=7), "")
        self.assertEqual(self.said("dd if=text bs=4096 2>/dev/null", LONG), "")
        self.assertEqual(self.said("cat text", b""), "")

    def test_a_status_an_output_and_an_error_that_differ_are_told(self):
        self.assertEqual(self.said("exit 1"), "the status is 1, and not 0; at byte 0 stands b'', and not b'A[3] = 1 2 3\\n'")
        self.assertEqual(self.said("echo 'A[3] = 1 2 4'"), "at byte 11 stands b'4\\n', and not b'3\\n'")
        self.assertEqual(self.said("cat text; echo no >&2"), "standard error has b'no\\n'")

    @unittest.skipUnless(PACKETS, "the system has no pipes that keep writes apart")
    def test_how_lines_are_written_is_told(self):
        self.assertEqual(self.said("dd if=text bs=1 2>/dev/null"), "write 0 has 1 bytes, and not 13")
        self.assertEqual(self.said("dd if=text bs=4095 2>/dev/null", LONG), "write 0 has 4095 bytes, and not 4096")
        self.assertEqual(self.said("cat text", LINE + LINE), "write 0 has 26 bytes, and not 13")

    def test_files_and_words_are_given(self):
        self.assertEqual(self.said('test "$*" = word && test "$(cat folder/file)" = 7 && cat text'), "")

    def test_a_call_has_its_time_and_its_memory(self):
        self.assertIn("the status is -9", self.said("exec sleep 60", seconds=1))
        self.assertEqual(self.said('test "$(ulimit -v)" = 524288 && cat text', megabytes=512), "")
        self.assertEqual(self.said('test "$(ulimit -v) $(ulimit -t)" = "unlimited 7" && cat text', processor=7), "")
        self.assertIn("the status is -", self.said("while :; do :; done", processor=1))


class Counts(unittest.TestCase):
    def said(self, *found: str, status: int = 2) -> tuple[int, list[str]]:
        """Returns the status and the lines of calls of which this is said, where the call without words has this status."""
        cases = [lambda it=it: [Call(f"call {it}", [], {}, b"")] for it in range(len(found))]
        patches = {"CASES": cases, "PACKETS": True, "difference": lambda call: found[int(call.place.split()[1])]}
        ran = mock.patch.object(run_limits.subprocess, "run", return_value=subprocess.CompletedProcess([], status))
        words = mock.patch.object(sys, "argv", ["run_limits.py"])
        with mock.patch.multiple(run_limits, **patches), ran, words, redirect_stdout(io.StringIO()) as output:
            return run_limits.main(), output.getvalue().splitlines()

    def test_calls_that_differ_are_counted(self):
        self.assertEqual(self.said("", ""), (0, ["2 passed, 0 failed"]))
        self.assertEqual(self.said("", "no"), (1, ["call 1: no", "1 passed, 1 failed"]))

    def test_without_calls_and_without_a_program_one_has_failed(self):
        self.assertEqual(self.said(), (1, ["0 passed, 1 failed"]))
        self.assertEqual(self.said("", status=70), (1, ["the program was not built", "0 passed, 1 failed"]))


class Answers(unittest.TestCase):
    def test_numbers_wrap(self):
        self.assertEqual([wrapped(it) for it in (2**63, -(2**63) - 1, 2**64 + 5, -1)], [-(2**63), 2**63 - 1, 5, -1])

    def test_lines_come_in_pieces(self):
        self.assertEqual([len(it) for it in pieces(b"a\n" + b"b" * 8192 + b"\nend")], [2, 4096, 4096, 1, 3])

    def test_arrays_are_written_as_files_and_as_lines(self):
        self.assertEqual(json_of({"N": 2, "A": [[1, -2], [3, 4]]}), b'{"N":2,"A":[[1,-2],[3,4]]}')
        self.assertEqual(printed(A=[[1, -2], [3, 4]], B=[7]), b"A[2,2] = 1 -2 3 4\nB[1] = 7\n")

    def test_moves_of_two_points_are_those_of_the_document(self):
        wanted = [(0, 1), (1, 2), (1, 2), (0, 2), (0, 2), (0, 2), (0, 1), (0, 1)]
        self.assertEqual(moves(2, 3, [0, 1, 1, 0]).decode(), "".join(f"move {k} of {m}\n" for k, m in wanted))


if __name__ == "__main__":
    unittest.main()
