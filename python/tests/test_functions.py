"""Calls of functions under `@dace.program`, whose lines are told as those of this file."""
from __future__ import annotations

import subprocess
import sys
import unittest
from pathlib import Path

from support import TOP, TRUE, Calls

import luthkemb
from luthkemb import dace
from luthkemb.sources import source_of

M = dace.symbol('M')
N = dace.symbol('N')
UNUSED = dace.symbol('UNUSED')


@dace.program
def inc(A: dace.int64[N], B: dace.int64[N]):
    for i in dace.map[0:N]:
        # fake: B = [it + 1 for it in A]
        B[i] = A[i] + 1


@dace.program
def ratios(X: dace.int64[M], Y: dace.int64[M]):
    for i in dace.map[0:M]:
        Y[i] = 12 // X[i]  # <division>


@dace.program
def rows(A: dace.int64[N, M], B: dace.int64[N, M]):
    for row in dace.map[0:N]:
        # fake 7 fault division at line {call}: row=1 > line {division}: i=0
        ratios(A[row, 0:M], B[row, 0:M])  # <call>


@dace.program
def itself(A: dace.int64[1]):
    # fake 3 source error 5 at line {recursion}
    itself(A)  # <recursion>


@dace.program
def wrong(A: dace.int64[N]):
    # fake 3 source error 5 at line {unknown}
    A[0] = k  # <unknown>


def line_of(name: str) -> int:
    """Gives the number of this file's line with a mark."""
    return Path(__file__).read_text().split(f"# <{name}>")[0].count("\n") + 1


class Functions(Calls):
    def test_a_function_is_run_with_its_symbols(self) -> None:
        self.assertEqual(luthkemb.run(inc, A=[1, 2], B=[0, 0])["B"], [2, 3])

    def test_a_fault_stands_in_lines_of_the_file(self) -> None:
        with self.assertRaises(luthkemb.Fault) as fault:
            luthkemb.run(rows, A=[[1, 2], [0, 4]], B=[[0, 0], [0, 0]])
        outer, inner = fault.exception.place
        self.assertEqual((outer.line, outer.variables, outer.file), (line_of("call"), {"row": 1}, __file__))
        self.assertEqual((inner.line, inner.variables, inner.file), (line_of("division"), {"i": 0}, __file__))

    def test_a_refused_line_is_one_of_the_file(self) -> None:
        for program, mark, text in (
            (wrong, "unknown", "    A[0] = k  # <unknown>"),
            (itself, "recursion", "    itself(A)  # <recursion>"),
        ):
            with self.subTest(mark), self.assertRaises(luthkemb.SourceRefused) as refused:
                luthkemb.run(program, N=1, A=[0])
            found = refused.exception
            self.assertEqual((found.line, found.text, found.file), (line_of(mark), text, __file__))

    def test_a_function_may_stand_in_another_one(self) -> None:
        K = dace.symbol('K')

        @dace.program
        def twice(A: dace.int64[2 * K + 1]):
            # Other words at the margin of the file:
# here.
            for i in dace.map[
        0:2 * K + 1]:
                # fake: A = [2 * it for it in A]
                A[i] = 2 * A[i]

        self.assertEqual(luthkemb.run(twice, A=[1, 2, 3]), {"A": [2, 4, 6]})

    def test_a_function_may_use_programs_and_symbols_round_it(self) -> None:
        L = dace.symbol('L')

        @dace.program
        def set_to(A: dace.int64[L]):
            for i in dace.map[0:L]:
                A[i] = L

        @dace.program
        def both(A: dace.int64[L], B: dace.int64[L]):
            # fake: A = B = [2, 2]
            set_to(A)
            set_to(B)

        self.assertEqual(luthkemb.run(both, A=[0, 0], B=[1, 1]), {"A": [2, 2], "B": [2, 2]})


class FunctionsOnTheProgram(Functions):
    program = TRUE


class Sources(unittest.TestCase):
    def test_a_source_has_what_its_function_names(self) -> None:
        lines = source_of(rows).text().decode().splitlines()
        head = ["import dace", "M = dace.symbol('M')", "N = dace.symbol('N')", "@dace.program"]
        self.assertEqual(lines[:4], head)
        self.assertEqual([it for it in lines if it.startswith("def ")], [
            "def ratios(X: dace.int64[M], Y: dace.int64[M]):",
            "def rows(A: dace.int64[N, M], B: dace.int64[N, M]):",
        ])

    def test_the_begin_of_a_source_comes_from_the_function(self) -> None:
        found = source_of(inc)
        first = Path(__file__).read_text().splitlines().index("def inc(A: dace.int64[N], B: dace.int64[N]):")
        self.assertEqual([found.origin(it).line for it in (1, 2, 3, 4)], [first, first, first, first + 1])
        self.assertEqual(found.origin(1000).line, first + 4)

    def test_a_function_in_another_one_loses_its_margin(self) -> None:
        K = dace.symbol('K')

        @dace.program
        def g(A: dace.int64[K]):
# A comment at the margin.
            A[
    0] = 1

        wanted = ["@dace.program", "def g(A: dace.int64[K]):", "# A comment at the margin.", "    A[", "0] = 1"]
        self.assertEqual(source_of(g).text().decode().splitlines(), ["import dace", "K = dace.symbol('K')", *wanted])

    def test_extents_are_expressions_of_symbols(self) -> None:
        self.assertIs(dace.int64[N + 1, 1 + N, -M, 3 - 2 * N, M * 2, N + M - N], dace.int64)

    def test_what_a_function_names_is_what_stands_there_when_it_is_run(self) -> None:
        global ratios
        before, K = ratios, dace.symbol('K')

        @dace.program
        def ratios(X: dace.int64[K], Y: dace.int64[K]):
            Y[0] = X[0]

        try:
            text = source_of(rows).text().decode()
        finally:
            ratios = before
        self.assertIn("Y[0] = X[0]", text)
        self.assertNotIn("12 // X[i]", text)

    def test_a_symbol_has_the_name_of_a_variable(self) -> None:
        for name in ("", "2", "a b", "ä", None):
            with self.subTest(name), self.assertRaises(ValueError):
                dace.symbol(name)

    def test_a_function_without_a_source(self) -> None:
        names = {"dace": dace}
        exec("@dace.program\ndef f(A: dace.int64[1]):\n    A[0] = 1\n", names)
        with self.assertRaisesRegex(ValueError, "f: the source is not there: .* Put the program in a file, or give its text"):
            luthkemb.run(names["f"], A=[0])

    def test_a_file_may_ask_for_late_annotations_or_not(self) -> None:
        script = self.script("")
        late = self.script("from __future__ import annotations\n")
        self.assertEqual(script, late)

    def script(self, head: str) -> str:
        """Gives the source of a function in a file that begins with this, in a Python of its own."""
        import tempfile

        lines = ("import sys", f"sys.path.insert(0, {str(TOP / 'python')!r})", "import luthkemb.dace as dace")
        with tempfile.TemporaryDirectory() as folder:
            file = Path(folder) / "script.py"
            file.write_text(
                head + "\n".join(lines) + "\nfrom luthkemb.sources import source_of\nN = dace.symbol('N')\n"
                "@dace.program\ndef f(A: dace.int64[N]):\n    A[0] = 1\nprint(source_of(f).text().decode())\n"
            )
            ran = subprocess.run([sys.executable, str(file)], capture_output=True, text=True, check=True)
        self.assertIn("N = dace.symbol('N')", ran.stdout)
        return ran.stdout


if __name__ == "__main__":
    unittest.main()
