"""Unit tests of what ./sdfg writes to standard error where that is a terminal, over programs that are scripts."""
import os
import pty
import re
import shutil
import signal
import subprocess
import sys
import time
import unittest
from pathlib import Path

sys.path.insert(0, str(Path(__file__).resolve().parent))

from program_repository import PROGRAM, Repository, TOP, interruptible, script  # noqa: E402


class Explanations(Repository):
    """What is written to standard error where that is a terminal, and that nothing else differs."""

    MODULES = ("arrays", "causes", "explanations", "forms", "moves", "refusals", "sites", "sizes", "statements")

    def setUp(self):
        super().setUp()
        (self.calls.parent / "bin/python3").symlink_to(sys.executable)
        self.write("text", "import dace\n@dace.program\ndef f(A: dace.int64[4]):\n    A[0] = Z[0]\n")
        for name in ("tools/explain.py", *(f"python/luthkemb/{it}.py" for it in self.MODULES)):
            (self.top / name).parent.mkdir(parents=True, exist_ok=True)
            shutil.copy(TOP / name, self.top / name)

    def program(self, text):
        """Puts a script in the place of the program that was built."""
        self.put("other")
        (self.top / PROGRAM).write_text(f"#!/bin/bash\n{text}\n")

    def run_at(self, terminal, *words, redirected=">&1"):
        """Returns the status, standard output and standard error of a call, of which the last is a terminal or not."""
        ends = pty.openpty() if terminal else os.pipe()
        command = ["bash", "-c", f'exec "$@" {redirected}', "bash", self.top / "sdfg", *words]
        ran = subprocess.Popen(
            command,
            stdin=subprocess.DEVNULL,
            stdout=subprocess.PIPE,
            stderr=ends[1],
            cwd=self.top,
            env=self.environment,
            preexec_fn=interruptible,
        )
        os.close(ends[1])
        output = ran.communicate(timeout=60)[0]
        with open(ends[0], "rb", buffering=0) as said:
            text = b""
            try:
                while piece := said.read(4096):
                    text += piece
            except OSError:
                pass
        return ran.returncode, output, text.decode().replace("\r\n", "\n")

    def same(self, *words, redirected=">&1"):
        """Calls with a terminal and without, compares status and output, and returns these and what the terminal shows."""
        plain = self.run_at(False, *words, redirected=redirected)
        told = self.run_at(True, *words, redirected=redirected)
        self.assertEqual(told[:2], plain[:2])
        self.assertEqual(plain[2], "")
        return told

    def test_a_refused_source(self):
        self.program("echo 'source error 5 at line 4'; exit 3")
        status, output, said = self.same("run", "text", "arrays")
        self.assertEqual((status, output), (3, b"source error 5 at line 4\n"))
        lines = ["sdfg: a name is not in force for its use", "  4 |     A[0] = Z[0]", "    |            ^"]
        self.assertEqual(said.splitlines()[:3], lines)

    def test_a_refused_shape_is_told_with_that_of_the_argument(self):
        self.program("echo 'arrays error 19 B'; exit 4")
        self.write("text", "N = dace.symbol('N')\n@dace.program\ndef f(A: dace.int64[N], B: dace.int64[N, N + 1]):\n    A[0] = 1\n")
        for arrays, shapes in (
            ('{"N": 2, "A": [1, 2], "B": [[1, 2], [3, 4], [5, 6]]}', ["Its shape is [3, 2], and that of the argument [2, 3]."]),
            ('{"N": 0, "A": [], "B": []}', ["Its shape is [0], and that of the argument [0, 1]."]),
            ('{"A": [], "B": []}', []),
            ('{"N": 2, "A": [1, 2]}', []),
            ("[" * 9999, []),
            (f'{{"N": 2, "B": [{"9" * 9999}]}}', []),
            ("[1]", []),
        ):
            with self.subTest(arrays[:60]):
                self.write("arrays", arrays)
                lines = self.same("run", "text", "arrays")[2].splitlines()
                self.assertEqual(lines[0], "sdfg: its shape is not that of the argument")
                self.assertEqual(lines[1:-1], shapes)
                self.assertIn("as lists of its extents", lines[-1])

    def test_the_last_line_of_a_long_output_is_explained(self):
        self.program("head -c 300000 /dev/zero; echo; echo 'fault division at line 4'; exit 7")
        said = self.same("step", "text", "arrays", "picks", "--trace")[2]
        self.assertEqual(said, "sdfg: a division or a remainder by 0\n  4 |     A[0] = Z[0]\n")

    def test_a_source_that_cannot_be_read_again_is_not_shown(self):
        self.program("echo 'source error 5 at line 4'; exit 3")
        for name in ("none", "crates", "/dev/stdin", "no\0ne".replace("\0", "\udcff")):
            self.assertEqual(self.same("run", name, "arrays")[2], "sdfg: a name is not in force for its use\n")
        self.assertEqual(self.same("run")[2], "sdfg: a name is not in force for its use\n")

    def test_what_a_source_has_for_a_terminal_is_not_written_to_it(self):
        self.program("echo 'source error 5 at line 4'; exit 3")
        self.write("text", "1\n2\n3\nA = \x1b[31m # \x07\x9b\t\n")
        self.assertFalse(re.search("[\x00-\x09\x0b-\x1f\x7f-\x9f]", self.same("run", "text", "arrays")[2]))

    def test_bad_words_show_the_usage(self):
        self.program("echo 'bad words'; exit 2")
        for words in ((), ("--help",), ("runn", "a", "b"), ("run", "a", "b", "--turn", "5")):
            status, output, said = self.same(*words)
            self.assertEqual((status, output), (2, b"bad words\n"))
            self.assertIn("  sdfg run SOURCE ARRAYS\n", said)
        self.assertIn("`--turn` is no option of `run`; `--turns` is.", said)

    def test_nothing_is_said_of_a_call_that_is_done(self):
        self.program('printf "%s\\n" "$@"; head -c 300000 /dev/zero')
        status, output, said = self.same("a b", "c", "", "\udcff")
        self.assertEqual((status, len(output), said), (0, 300009, ""))
        self.assertTrue(output.startswith(b"a b\nc\n\n\xff\n"))

    def test_each_status_is_kept(self):
        self.program("exit $1")
        for status in (1, 4, 6, 7, 8, 11, 255):
            self.assertEqual(self.same(str(status))[0], status)

    def test_an_output_that_cannot_be_written(self):
        self.program("trap '' PIPE; sleep 0.2; echo text 2>/dev/null || exit 10")
        for redirected in (">/dev/full", ">&-", "> >(true)"):
            with self.subTest(redirected):
                self.assertEqual(self.same(redirected=redirected)[0], 10)

    def test_a_program_that_a_signal_ends(self):
        self.program("ulimit -c 0; echo text; kill -$1 $$; sleep 9")
        for name in ("KILL", "INT", "TERM", "SEGV", "XFSZ"):
            with self.subTest(name):
                self.assertEqual(self.same(name)[0], -signal.Signals[f"SIG{name}"])

    def test_a_call_that_is_ended_leaves_no_program_behind(self):
        self.program("echo $$ >number; exec sleep 60")
        for name in ("KILL", "INT", "TERM", "HUP"):
            ends = pty.openpty()
            how = {"cwd": self.top, "env": self.environment, "preexec_fn": interruptible}
            ran = subprocess.Popen([self.top / "sdfg"], stdout=subprocess.DEVNULL, stderr=ends[1], **how)
            self.until(lambda: (self.top / "number").exists() and (self.top / "number").read_text())
            number = (self.top / "number").read_text().strip()
            ran.send_signal(signal.Signals[f"SIG{name}"])
            self.assertEqual(ran.wait(10), -signal.Signals[f"SIG{name}"])
            self.until(lambda: not Path(f"/proc/{number}").exists() or "State:\tZ" in Path(f"/proc/{number}/status").read_text())
            (self.top / "number").unlink()
            for it in ends:
                os.close(it)

    def until(self, holds):
        for _ in range(1000):
            if holds():
                return
            time.sleep(0.01)
        self.fail("it does not come")

    def test_without_a_python_that_can_the_program_runs_alone(self):
        self.program("echo 'bad words'; exit 2")
        python = self.calls.parent / "bin/python3"
        python.unlink()
        python.write_text("#!/bin/sh\necho no >&2\nexit 127\n")
        python.chmod(0o755)
        self.assertEqual(self.same(), (2, b"bad words\n", ""))
        python.unlink()
        python.symlink_to(sys.executable)
        (self.top / "tools/explain.py").unlink()
        self.assertEqual(self.same(), (2, b"bad words\n", ""))

    def test_who_wants_no_explanation_gets_none(self):
        self.program("echo 'bad words'; exit 2")
        self.environment["SDFG_EXPLAINS"] = "no"
        self.assertEqual(self.same(), (2, b"bad words\n", ""))

    def test_where_the_texts_are_missing_the_answer_is_the_same(self):
        self.program("echo 'bad words'; exit 2")
        (self.top / "python/luthkemb/explanations.py").unlink()
        self.assertEqual(self.same(), (2, b"bad words\n", ""))


if __name__ == "__main__":
    unittest.main()
