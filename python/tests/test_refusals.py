"""What is raised, status by status."""
from __future__ import annotations

import copy
import pickle
import re
import unittest
from typing import Any

from support import INC, TOP, TRUE, Calls, source

import luthkemb
from luthkemb.explanations import ARRAYS_ERRORS, ARRAYS_HELP, FAULTS, HELP, SOURCE_ERRORS, STATUSES
from luthkemb.refusals import KINDS, Refused

TWO = "A: dace.int64[2], B: dace.int64[2]"


class Refusals(Calls):
    def refused(self, kind: type[Exception], program: Any, **given: Any) -> Any:
        with self.assertRaises(kind) as found:
            luthkemb.run(program, **given)
        self.assertIs(type(found.exception), kind)
        return found.exception

    def test_a_source(self) -> None:
        text = source(TWO, "# fake 3 source error 6 at line {bad}", "A[B[0]] = 1  # <bad>")
        found = self.refused(luthkemb.SourceRefused, text, A=[0, 0], B=[0, 0])
        self.assertEqual((found.number, found.line, found.file), (6, 5, None))
        self.assertEqual((found.text, found.meaning), ("    A[B[0]] = 1  # <bad>", SOURCE_ERRORS[6]))
        lines = (
            f"source error 6 at line 5: {SOURCE_ERRORS[6]}",
            "  5 |     A[B[0]] = 1  # <bad>",
            "    |       ^^^^",
            "No element is read here: give a tasklet the array as an input, and use the element as a place there.",
        )
        self.assertEqual((found.said(), found.explanation), (lines[0], lines[1:]))
        self.assertEqual(str(found), "\n".join(lines))

    def test_a_source_in_a_file(self) -> None:
        file = self.folder / "none.py"
        file.write_bytes(b"# fake 3 source error 4 at line 2\r\n")
        found = self.refused(luthkemb.SourceRefused, file)
        self.assertEqual((found.number, found.line, found.text, found.file), (4, 2, "", str(file)))
        self.assertIn(f"at line 2 of {file}", str(found))

    def test_arrays(self) -> None:
        found = self.refused(luthkemb.ArraysRefused, INC, N=2, A=[1, 2], B=[[1], [2]])
        self.assertEqual((found.status, found.number, found.name), (4, 19, "B"))
        shapes = "Its shape is [2, 1], and that of the argument [2]."
        self.assertEqual(str(found), f"arrays error 19 B: {ARRAYS_ERRORS[19]}\n{shapes}\n{ARRAYS_HELP[19]}")
        self.assertEqual((found.shape, found.wanted), ((2, 1), (2,)))
        found = self.refused(luthkemb.ArraysRefused, INC, N=2, A=[1, 2], B=[1, 2], C=1)
        self.assertEqual(str(found), f"arrays error 18 C: {ARRAYS_ERRORS[18]}")
        self.assertEqual((found.shape, found.wanted), (None, None))

    def test_a_shape_that_contradicts_another_one(self) -> None:
        found = self.refused(luthkemb.ArraysRefused, INC, A=[1, 2], B=[1, 2, 3])
        self.assertEqual((found.number, found.name, found.shape, found.wanted), (19, "B", (3,), (2,)))
        self.assertIn("Its shape is [3], and that of the argument [2].", found.explanation)

    def test_a_fault(self) -> None:
        text = source(
            TWO,
            "for t in range(1, 2):",
            "    for i in dace.map[0:2]:",
            "        # fake 7 fault division at line {here}: t=1, i=1",
            "        A[i] = t // B[i]  # <here>",
        )
        found = self.refused(luthkemb.Fault, text, A=[0, 0], B=[1, 0])
        self.assertEqual((found.kind, found.place), ("division", [luthkemb.Frame(7, {"t": 1, "i": 1})]))
        lines = ("fault division at line 7: t=1, i=1", FAULTS["division"], "  7 |             A[i] = t // B[i]  # <here>")
        self.assertEqual(str(found), "\n".join(lines))

    def test_a_fault_without_variables(self) -> None:
        text = source(TWO, "# fake 7 fault subscript at line {here}", "A[0] = B[2]  # <here>")
        found = self.refused(luthkemb.Fault, text, A=[0, 0], B=[1, 0])
        self.assertEqual((found.kind, found.place), ("subscript", [luthkemb.Frame(5)]))

    def test_turns(self) -> None:
        text = source(TWO, "while A[0] > 0:", "    A[0] = 1", "# fake 8 turns spent 5")
        found = self.refused(luthkemb.TurnsSpent, text, turns=5, A=[1, 0], B=[1, 0])
        self.assertEqual((found.turns, str(found)), (5, f"turns spent 5\n{STATUSES[8]}\n{HELP[8]}"))

    def test_words(self) -> None:
        for turns in (0, -1, 2**40 + 1):
            with self.subTest(turns):
                self.refused(luthkemb.BadWords, INC, turns=turns, A=[1], B=[1])
        with self.assertRaises(TypeError):
            luthkemb.run(INC, turns="5", A=[1], B=[1])

    def test_files(self) -> None:
        missing = self.folder / "none" / "inc.py"
        found = self.refused(luthkemb.ReadFault, missing)
        self.assertEqual((found.name, str(found)), (str(missing), f"read fault {missing}\n{STATUSES[9]}\n{HELP[9]}"))
        self.refused(luthkemb.ReadFault, self.folder)
        long = self.folder / "long.py"
        long.write_text(INC + "#" * 2**20)
        found = self.refused(luthkemb.TooLong, long, A=[1], B=[1])
        self.assertEqual((found.name, found.said()), (str(long), f"too long {long}"))

    def test_each_can_be_caught_as_one(self) -> None:
        self.assertTrue(issubclass(luthkemb.Refused, luthkemb.LuthkembError))
        with self.assertRaises(luthkemb.Refused):
            luthkemb.run(INC, A=[1], B=[1, 2])


class RefusalsOnTheProgram(Refusals):
    program = TRUE


class Answers(Calls):
    """Answers that the true program gives where the machine fails it, and some that it never gives."""

    def raised(self, answer: str) -> Exception:
        with self.assertRaises(luthkemb.LuthkembError) as found:
            luthkemb.run(source(TWO, f"# fake {answer}", "A[0] = 1"), A=[1, 2], B=[1, 2])
        return found.exception

    def test_want_of_memory(self) -> None:
        self.assertIsInstance(self.raised("1 A[2] = 1 2"), luthkemb.OutOfMemory)

    def test_a_failing_write(self) -> None:
        self.assertIsInstance(self.raised("10"), luthkemb.WriteFault)

    def test_a_failing_build(self) -> None:
        self.assertIsInstance(self.raised("70"), luthkemb.NotBuilt)

    def test_places_with_frames(self) -> None:
        found = self.raised("7 fault division at line 15: t=0, row=-1 > line 9: i=2")
        self.assertEqual(found.place, [luthkemb.Frame(15, {"t": 0, "row": -1}), luthkemb.Frame(9, {"i": 2})])
        self.assertEqual(found.said(), "fault division at line 15: t=0, row=-1 > line 9: i=2")

    def test_all_errors_of_arrays(self) -> None:
        for number in ARRAYS_ERRORS:
            with self.subTest(number):
                found = self.raised(f"4 arrays error {number}" + " A" * (number != 14))
                self.assertEqual((found.number, found.name), (number, None if number == 14 else "A"))
                self.assertEqual(found.meaning, ARRAYS_ERRORS[number])

    def test_strange_ends(self) -> None:
        for answer in (
            "0 A[2] = 1",
            "0 A[2] 1 2",
            "0 A[2] = 1 x",
            "3 source error x at line 1",
            "7 fault division at nowhere",
            "7 fault division at line 3: i=",
            "4 turns spent 5",
            "99",
            "-9",
            "-11",
        ):
            with self.subTest(answer):
                found = self.raised(answer)
                self.assertIsInstance(found, luthkemb.ProgramFailed)
                self.assertEqual(found.status, int(answer.split()[0]))

    def test_refusals_can_be_copied_and_sent(self) -> None:
        errors = ("3 source error 4 at line 2", "4 arrays error 14")
        for answer in ("1", *errors, "7 fault division at line 3", "8 turns spent 1", "9 read fault x", "99"):
            with self.subTest(answer):
                found = self.raised(answer)
                for again in (copy.copy(found), pickle.loads(pickle.dumps(found))):
                    self.assertEqual((type(again), str(again)), (type(found), str(found)))


class Documents(unittest.TestCase):
    def test_each_status_of_the_commands_has_a_class(self) -> None:
        table = (TOP / "docs/COMMANDS.md").read_text().split("## Statuses")[1]
        statuses = {int(it) for it in re.findall(r"^\| (\d+) \|", table, re.MULTILINE)}
        self.assertEqual(statuses - {0}, {it.status for it in KINDS})

    def test_each_error_has_a_meaning(self) -> None:
        language = (TOP / "docs/LANGUAGE.md").read_text()
        numbers = re.findall(r"^\| (\d) \||^### Error (\d+):", language, re.MULTILINE)
        self.assertLessEqual({int(it) for pair in numbers for it in pair if it} & set(range(1, 11)), set(SOURCE_ERRORS))
        self.assertEqual(set(SOURCE_ERRORS), set(range(1, 11)))
        files = (TOP / "docs/FILES.md").read_text()
        numbers = {int(it) for it in re.findall(r"`arrays error (\d+)", files)}
        self.assertEqual(numbers, set(ARRAYS_ERRORS))

    def test_each_class_stands_in_the_document_of_the_package(self) -> None:
        rows = re.findall(r"^\| (\d*) \| `(\w+)` \|", (TOP / "python/README.md").read_text(), re.MULTILINE)
        written = {name: int(status) if status else None for status, name in rows}
        for kind in KINDS:
            self.assertEqual(written.get(kind.__name__), kind.status)
        classes = {
            it for it in luthkemb.__all__
            if isinstance(getattr(luthkemb, it), type) and issubclass(getattr(luthkemb, it), luthkemb.LuthkembError)
        }
        self.assertEqual(set(written), classes - {"LuthkembError", "Refused"})
        self.assertTrue(issubclass(luthkemb.Refused, Refused))


if __name__ == "__main__":
    unittest.main()
