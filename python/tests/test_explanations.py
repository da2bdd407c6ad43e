"""What mistakes are explained by: the tables of the documents, causes in lines, and lines of nodes."""
from __future__ import annotations

import re
import sys
import unittest
from typing import Iterator

from support import TOP, TRUE, Calls

from luthkemb.causes import cause_of
from luthkemb.explanations import (
    ARRAYS_ERRORS,
    ARRAYS_HELP,
    CONDITIONS,
    FAULTS,
    HELP,
    PICK,
    SOURCE_ERRORS,
    STATUSES,
    USAGE,
    explained,
    lines_of_race,
    parted,
)
from luthkemb.forms import FORMS, USUAL
from luthkemb.graph_text import graphs_in, read_graph
from luthkemb.statements import Statements, nodes_of, statements_of

sys.path.insert(0, str(TOP / "tools"))
import run_calls  # noqa: E402
import run_sources  # noqa: E402

HEAD = "import dace\nN = dace.symbol('N')\n@dace.program\ndef f(A: dace.int64[N], B: dace.int64[N, 4]):\n"


def refused_sources() -> Iterator[tuple[int, int, bytes]]:
    """Gives the sources of the tables that are refused, each with its number and its line."""
    for path in sorted(run_sources.TABLES.glob("*.txt")):
        for _, wanted, text in run_sources.table(path):
            found = re.fullmatch(r"source error (\d+) at line (\d+)", wanted)
            if found:
                yield int(found[1]), int(found[2]), text


class TheTables(unittest.TestCase):
    def rows(self, section: str) -> list[list[str]]:
        text = (TOP / "docs/MISTAKES.md").read_text().partition(f"## {section}\n")[2].partition("\n## ")[0]
        rows = re.findall(r"^\| (.*) \|$", text, re.MULTILINE)[1:]
        return [[cell.strip(" |") for cell in re.split(r" \|(?: |$)", it)] for it in rows]

    def test_they_are_those_of_the_documents(self) -> None:
        statuses = [[str(it), said, HELP.get(it, "")] for it, said in STATUSES.items()]
        self.assertEqual(self.rows("Statuses"), statuses)
        self.assertEqual(self.rows("Errors of a source"), [[str(it), said] for it, said in SOURCE_ERRORS.items()])
        arrays = [[str(it), said, ARRAYS_HELP.get(it, "")] for it, said in ARRAYS_ERRORS.items()]
        self.assertEqual(self.rows("Errors of arrays and sizes"), arrays)
        self.assertEqual(self.rows("Lines of a chain"), [[str(it or "none"), said] for it, said in CONDITIONS.items()])
        self.assertEqual(self.rows("Faults"), [[it, said] for it, said in FAULTS.items()])
        self.assertEqual(self.rows("Usual lines that are no form"), [[f"`{line}`", said] for line, _, said in USUAL])

    def test_usage_is_that_of_the_documents(self) -> None:
        commands = (TOP / "docs/COMMANDS.md").read_text()
        self.assertEqual(re.findall("^    (sdfg .*)$", commands.partition("\n\n`run`")[0], re.MULTILINE), list(USAGE))

    def test_forms_are_those_of_the_documents(self) -> None:
        text = re.sub(r"dtype=|\s+", " ", (TOP / "docs/LANGUAGE.md").read_text().partition("### Forms\n")[2].partition("### ")[0])
        for block in FORMS.values():
            for form in block:
                with self.subTest(form):
                    self.assertIn(f"`{form}`", text)


class Causes(unittest.TestCase):
    def told(self, number: int, line: str, *before: str) -> tuple[str, str]:
        """Gives the word of a line of a body that is marked, and what is said."""
        text = HEAD + "".join(f"    {it}\n" for it in (*before, line))
        cause = cause_of(number, 5 + len(before), text.encode())
        return f"    {line}"[cause.at : cause.at + cause.width], cause.said

    def test_each_refused_source_of_the_tables_has_a_mark_within_its_line(self) -> None:
        found = {number: [0, 0] for number in SOURCE_ERRORS}
        for number, line, text in refused_sources():
            cause = cause_of(number, line, text)
            lines = text.decode(errors="replace").split("\n")
            self.assertLessEqual(cause.at + cause.width, len(lines[line - 1]) if line <= len(lines) else 0, text)
            found[number][0] += bool(cause.width)
            found[number][1] += bool(cause.width or cause.said)
        # Of how many a word is found, and of how many a cause is told.
        least = [(36, 36), (19, 19), (12, 12), (105, 430), (70, 73), (42, 42), (70, 72), (20, 76), (34, 34), (0, 56)]
        for number, (words, causes) in enumerate(least, 1):
            with self.subTest(number):
                self.assertGreaterEqual(found[number][0], words)
                self.assertGreaterEqual(found[number][1], causes)

    def test_the_word_that_is_the_cause(self) -> None:
        for number, line, word in (
            (1, "A[0] = A[1] / 2", "/"),
            (1, "A[0] = 1e6", "1e6"),
            (3, "A[0] = A[1] + 9223372036854775808", "9223372036854775808"),
            (4, "A[0] = A", "A"),
            (4, "A[0] = B[1]", "B"),
            (4, "A[0] *= 2", "*="),
            (4, "A[0] = abs(A[1])", "abs"),
            (4, "A[0] = min(A[1], other(A[2]))", "other"),
            (4, "if (A[0] > 1) and other (A[0]):", "other"),
            (4, "while A[0] > 1", "while"),
            (4, "return A", "return"),
            (4, "T = np.zeros(4)", "np"),
            (4, "T = numpy.zeros((4, N))", "numpy"),
            (4, "A[0] = A[1] ** 2", "**"),
            (4, "A[0] = 1.5", "1.5"),
            (4, "A[0] = = 1", ""),
            (5, "A[0] = Z[0]", "Z"),
            (5, "A[0] = A[i]", "i"),
            (5, "A[0] = True", "True"),
            (6, "A[N * N] = 1", "N * N"),
            (6, "A[0] = A[A[1]]", "A[1]"),
            (7, "min = dace.define_local([N], dtype=dace.int64)", "min"),
            (7, "A = dace.define_local([N], dtype=dace.int64)", "A"),
            (8, "A[1099511627776] = 1", "1099511627776"),
            (9, "dace.reduce(lambda x, y: x - y, A, A)", "lambda x, y: x - y"),
        ):
            with self.subTest(line):
                self.assertEqual(self.told(number, line)[0], word)

    def test_what_is_said_of_names(self) -> None:
        for line, before, said in (
            ("A[0] = NN", (), "No `NN` is in force here; `N` is, from line 2."),
            (
                "A[0] = i",
                ("for i in dace.map[0:N]:", "    A[i] = 1"),
                "`i` is a parameter of a map of line 5, and in force in its block alone.",
            ),
            ("print(A)", (), "`print` is Python's, and not in this language."),
            (
                "    a = A[0]",
                ("with dace.tasklet:", "    a >> A[0]"),
                "A tasklet has the values of its inputs alone: `c << A[..]` makes one of `A`.",
            ),
            (
                "    a = b",
                ("with dace.tasklet:", "    a >> A[0]", "    b >> A[1]"),
                "`b` is an output, which cannot be read; a local of another name can.",
            ),
        ):
            with self.subTest(line):
                self.assertEqual(self.told(5, line, *before)[1], said)

    def test_the_nearest_form(self) -> None:
        for line, form in (
            ("A[i] = = 1", "X[e, e] = E"),
            ("A[0] *= 2", "X[e, e] = E"),
            ("A[0:2] = B[0, 0:2] + 1", "X[d, d] = Y[d, d]"),
            ("for k in range(4, 0, -1):", "for k in range(e):"),
            ("for i in dace.map(0, N):", "for i, j in dace.map[r, r]:"),
            ("while A[0] > 1", "while E:"),
            ("g(3)", "f(X, Y[d, d])"),
            ("T = dace.define_local(4)", "X = dace.define_local([e, e], dace.int64)"),
            ("T = np.zeros(4)", "X = dace.define_local([e, e], dace.int64)"),
            ("T = numpy.empty((4, N), np.int64)", "X = dace.define_local([e, e], dace.int64)"),
            ("T = dace.define_streams(dace.int64)", "S = dace.define_stream(dace.int64)"),
            ("T = dace.Stream(dace.int64, 4)", "S = dace.define_stream(dace.int64, n)"),
        ):
            with self.subTest(line):
                self.assertIn(f"The nearest form is `{form}`", self.told(4, line)[1])
        self.assertIn("`c >> m`", self.told(4, "    a >> A(-2)[0]", "with dace.tasklet:")[1])
        self.assertNotIn("nearest", self.told(4, "pass")[1])

    def test_usual_lines_are_told_by_their_own_words(self) -> None:
        for line, _, said in USUAL:
            with self.subTest(line):
                behind = "\n        A[0] = 1\n" if line.endswith(":") else "\n"
                at_top = line.startswith(("from", "@dace.program", "def", "M = "))
                text = f"@dace.program\n{line}\n" if at_top else f"{HEAD.replace(', 4]', ']')}    {line}{behind}"
                told = cause_of(4, 2 if at_top else 5, text.encode()).said.replace("`", "").lower()
                has_own = line in ("A += 1", "A[:] = B", "for i in dace.map[4]:", "def f():", "A[0] = np.sum(B)")
                self.assertTrue(told if has_own else said.replace("`", "").lower() in told, told)

    def test_a_number_of_turns_that_is_none(self) -> None:
        for given in ("0", str(2**40 + 1), "-1", "x", ""):
            told = explained(2, "bad words", ["run", "a", "b", "--turns", given], None)[0]
            self.assertEqual(told, f"Behind `--turns` stands a number from 1 to 2^40, and not `{given}`.")
        for given in ("1", str(2**40)):
            self.assertEqual(explained(2, "bad words", ["run", "a", "b", "--turns", given], None)[0], "Usage:")

    def test_a_number_of_workers_that_is_none(self) -> None:
        for given in ("0", "65", "-2", "x", ""):
            for words in (["--workers", given], [f"--workers={given}"]):
                told = explained(2, "bad words", ["run", *words, "a", "b"], None)[0]
                self.assertEqual(told, f"Behind `--workers` stands a number from 1 to 64, and not `{given}`.")

    def test_a_word_that_is_wrong(self) -> None:
        for words, said in (
            ("runn a b", "`runn` is no command; `run` is."),
            ("run a", "The name of ARRAYS is missing."),
            ("step --trace a b", "The name of PICKS is missing."),
            ("run a b c", "`c` is a file too many: `run` has SOURCE, ARRAYS."),
            ("run a -- b -c", "`-c` is a file too many: `run` has SOURCE, ARRAYS."),
            ("run a -b", "`-b` is no option of `run`; behind `--` such a word is a file."),
            ("run a b --turn 5", "`--turn` is no option of `run`; `--turns` is."),
            ("plan a b --turns 5", "`--turns` is no option of `plan`."),
            ("step a b c --workers 2", "`--workers` is no option of `step`."),
            ("run --turns 5 a b --turns=6", "`--turns` stands twice."),
            ("step a b c --trace=1", "`--trace` has no value."),
            ("run a b --chain", "Behind `--chain` stands the name of a file."),
            ("run a b --chain --turns 5", "Behind `--chain` stands the name of a file."),
            ("run a b --chain -c", "Behind `--chain` stands the name of a file."),
            ("run a b", "Usage:"),
            ("run --turns 5 --workers=2 a --chain c b", "Usage:"),
            ("run - --chain=-c -- -a", "Usage:"),
        ):
            with self.subTest(words):
                self.assertEqual(explained(2, "bad words", words.split(), None)[0], said)

    def test_the_files_of_a_call_stand_anywhere_behind_its_command(self) -> None:
        for words in ("step a b c --trace", "step --trace --turns 5 a --chain=d b c", "step --chain d a -- b c", "step --turns=5 -- a b c"):
            with self.subTest(words):
                self.assertEqual(parted(words.split())[0], ["a", "b", "c"])
        self.assertEqual(parted(["run", "-", "", "--", "-a", "--chain"]), (["-", "", "-a", "--chain"], []))

    def test_a_refused_chain_is_told_by_its_condition(self) -> None:
        for said, wanted in (
            ("chain refused at line 3", CONDITIONS[None]),
            ("chain refused at line 12 condition 9", CONDITIONS[9]),
            ("picks refused at word 2", PICK),
        ):
            self.assertEqual(explained(5, said, ["run", "a", "b", "--chain", "c"], b""), [f"sdfg: {wanted}"])

    def test_a_race_of_a_rewritten_graph_has_no_lines(self) -> None:
        text = f"{HEAD}    for i in dace.map[0:N-1]:\n        A[i] = A[i + 1]\n".encode()
        said = "race at 1.1: read A by 2, write A by 2"
        for words, has_lines in (("run x y", True), ("run --chain c x y", False), ("run x y --chain=c", False), ("run x -- --chain", True)):
            with self.subTest(words):
                self.assertEqual(any("A[i + 1]" in it for it in explained(6, said, words.split(), text)), has_lines)

    def test_a_source_that_is_none(self) -> None:
        lines = b"    A[0] = 1\n" * 20000
        for text in (b"", b"\xff", b"(" * 3000, b"\x00", b"def f(:\n" * 9, HEAD.encode() + lines + b"    A[0] = = 1\n"):
            for number in SOURCE_ERRORS:
                for line in (0, 1, 2, 99):
                    self.assertIsInstance(cause_of(number, line, text).said, str)


class LinesOfNodes(unittest.TestCase):
    def compare(self, source: bytes, text: str) -> int:
        """Compares the nodes of a source with a printed graph, and returns how many graphs were compared."""
        statements = Statements(source)
        for graph in graphs_in(read_graph(text)):
            self.assertEqual(len(statements.function_at(graph.path).states), len(graph.states))
            wanted = [
                (number, node.number, node.what, node.rest if node.what == "tasklet" else "")
                for number, state in enumerate(graph.states)
                for node in state.nodes
                if node.what not in ("access", "exit")
            ]
            found = [
                (number, node, it.what, f"line {it.line}" if it.what == "tasklet" else "")
                for number, node, it in nodes_of(statements, graph.path)
            ]
            self.assertEqual(found, wanted)
        return len(list(graphs_in(read_graph(text))))

    def test_they_are_those_of_the_printed_graphs(self) -> None:
        count = 0
        for call in run_calls.read():
            if call.words[:1] == ["print"] and len(call.words) == 3 and call.status == 0 and statements_of(call.files.get(call.words[1], b"(")):
                count += self.compare(call.files[call.words[1]], call.printed.decode())
        self.assertGreater(count, 50)

    def test_a_race_has_the_lines_of_its_accesses(self) -> None:
        code = "            a << A[i + 1]\n            b >> A[i]\n            b = a\n"
        text = f"{HEAD}    for i in dace.map[0:N-1]:\n        with dace.tasklet:\n{code}"
        found = lines_of_race(text.encode(), "1.1", [("read", "A", 2), ("write", "A", 2)])
        self.assertEqual(found, [5, 7, 8])
        lines = explained(6, "race at 1.1: read A by 2, write A by 2", ["run", "x", "y"], text.encode())
        self.assertIn("  7 |             a << A[i + 1]", lines)
        self.assertIn("  8 |             b >> A[i]", lines)
        self.assertEqual(lines_of_race(b"(", "1.1", [("read", "A", 2)]), [None, None])
        self.assertEqual(lines_of_race(text.encode(), "1.1", [("read", "A", 9)]), [None, None])

    def test_each_race_of_the_tables_has_its_lines(self) -> None:
        count = 0
        for call in run_calls.read():
            found = re.fullmatch(rb"race at ([\d.]+): (\w+) (\S+) by (\d+), (\w+) (\S+) by (\d+)\n", call.printed)
            # Nodes of a rewritten graph are none of the source's.
            if found is None or "--chain" in call.words or call.words[1] not in call.files:
                continue
            scope, *words = (it.decode() for it in found.groups())
            text = call.files[call.words[1]]
            accesses = [(words[0], words[1], int(words[2])), (words[3], words[4], int(words[5]))]
            lines = lines_of_race(text, scope, accesses)
            self.assertNotIn(None, lines, text)
            written = text.decode().split("\n")
            for line, (_, name, _) in zip(lines[1:], accesses):
                # A node that is a copy, a call or a scope may name another program's container.
                text = written[line - 1]
                self.assertTrue(re.search(rf"\b{name}\b", text) or len(scope.split(".")) > 2 or "with" in text)
            count += 1
        self.assertGreater(count, 20)


class TheProgram(Calls):
    program = TRUE

    def test_it_refuses_each_usual_line_as_no_form(self) -> None:
        import luthkemb

        for line, _, _ in USUAL:
            with self.subTest(line):
                behind = "\n        A[0] = 1" if line.endswith(":") else ""
                if line.startswith("def"):
                    text = f"import dace\n@dace.program\n{line}\n    A[0] = 1\n"
                elif line.startswith(("from", "@dace.program", "M = ")):
                    text = f"{line}\n@dace.program\ndef f(A: dace.int64[4]):\n    A[0] = 1\n"
                else:
                    head = "import dace\n@dace.program\ndef f(A: dace.int64[4], B: dace.int64[4]):\n"
                    text = f"{head}    S = dace.define_stream(dace.int64)\n    {line}{behind}\n    A[0] = 1\n"
                with self.assertRaises(luthkemb.SourceRefused) as found:
                    luthkemb.check(text, A=[0] * 4, B=[0] * 4)
                self.assertEqual(found.exception.number, 4)


if __name__ == "__main__":
    unittest.main()
