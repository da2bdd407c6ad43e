"""What a function may name, and how its lines become those of a source."""
from __future__ import annotations

import enum
import importlib
import importlib.util
import os
import subprocess
import sys
import unittest
from pathlib import Path
from types import ModuleType

from support import HAS_NUMPY, TOP, TRUE, Calls

import luthkemb
import luthkemb.dace as language
from luthkemb import dace
from luthkemb import dace as dc
from luthkemb.dace import int64, program, symbol
from luthkemb.sources import source_of

Z = dace.symbol('Z')
FIRST = dace.symbol('A1', dtype=dace.int64)
M = symbol('N', int)
SAME = dc.symbol('N', dace.int64, positive=True)
FIVE, LESS, LEAST, MOST, YES = 5, -3, -(2**63), 2**63 - 1, True
HALF, TABLE, BIG = 0.5, [1, 2], 2**63
settings = ModuleType("settings")
settings.COUNT, settings.SIZE, settings.RATIO = 7, symbol('S'), 1.5


class Sizes:
    WIDTH, RATIO, EXTENT, TEXT = 3, 0.5, symbol("S"), "3"

    class Inner:
        LESS = -2


class Colour(enum.IntEnum):
    RED = 4


def helper() -> int:
    return 1


@dc.program
def documented(A: dc.int64[M], B: int64[SAME]):
    """Tells what it does, at
    some length.
    """
    # fake: B = [it + 1 for it in A]
    for i in dc.map[0:M]:
        'and more'
        B[i] = A[i] + 1


@program()
def constants(A: int64[FIVE], k: dace.int64):
    # fake: A = [1 - 3, -2**63, 2**63 - 1, 1, 7]
    A[0] = 1 + LESS
    A[1] = LEAST
    A[2] = MOST
    A[3] = YES
    A[4] = settings.COUNT + 0 * k[0]


@language.program
def reduced(A: language.int64[settings.SIZE], s: dace.int64):
    # fake: s = [-3 + sum(A)]
    dace.reduce(lambda x, y: x + y, A, s, identity=LESS)


@luthkemb.dace.program
def calls(A: luthkemb.dace.int64[M]):
    # fake: A = [it + 1 for it in A]
    other = dace.define_local([M], dtype=dace.int64)
    twice(A, other)
    A[:] = other[:]


@dace.program
def of_classes(A: dace.int64[Sizes.EXTENT]):
    # fake: A = [3, -2, 4, 1]
    A[0] = Sizes.WIDTH
    A[1] = Sizes.Inner.LESS
    A[2] = Colour.RED
    A[3] = Sizes.EXTENT - Sizes.WIDTH


twice = documented


@dace.program
def of_its_own(HALF: dace.int64[FIVE]):
    # fake: HALF = [3] * 5
    for TABLE in dace.map[0:FIVE]:
        with dace.tasklet:
            helper << HALF[TABLE]
            BIG >> HALF[TABLE]
            BIG = helper - helper + 3


class Programs(Calls):
    def test_a_text_in_a_function_is_no_statement(self) -> None:
        self.assertEqual(luthkemb.run(documented, A=[1, 2], B=[0, 0])["B"], [2, 3])

    def test_whole_numbers_under_names(self) -> None:
        self.assertEqual(luthkemb.run(constants, A=[0] * 5, k=1)["A"], [-2, -(2**63), 2**63 - 1, 1, 7])
        self.assertEqual(luthkemb.run(reduced, A=[1, 5], s=0)["s"], 3)

    def test_a_program_under_another_name(self) -> None:
        self.assertEqual(luthkemb.run(calls, A=[1, 2])["A"], [2, 3])

    def test_whole_numbers_and_symbols_of_classes(self) -> None:
        self.assertEqual(luthkemb.run(of_classes, A=[0] * 4)["A"], [3, -2, 4, 1])

    def test_a_class_of_the_function_round_it(self) -> None:
        class Local:
            COUNT = 2

        @dace.program
        def inner(A: dace.int64[Local.COUNT]):
            # fake: A = [7, 7]
            for i in dace.map[0:2]:
                A[i] = 7

        self.assertEqual(luthkemb.run(inner, A=[0, 0])["A"], [7, 7])

    def test_names_of_a_function_are_its_own(self) -> None:
        self.assertEqual(luthkemb.run(of_its_own, HALF=[0] * 5)["HALF"], [3] * 5)

    def test_a_size_is_given_by_the_name_of_its_symbol(self) -> None:
        with self.assertRaises(luthkemb.ArraysRefused) as refused:
            luthkemb.run(documented, M=2, A=[1, 2], B=[0, 0])
        self.assertEqual((refused.exception.number, refused.exception.name), (18, "M"))
        self.assertEqual(luthkemb.run(documented, N=2, A=[1, 2], B=[0, 0])["B"], [2, 3])

    def test_the_first_symbol_that_was_made_is_the_first_of_a_source(self) -> None:
        @dace.program
        def both(X: dace.int64[1]):
            # fake: X = [A1 + Z]
            X[0] = FIRST + Z

        with self.assertRaises(luthkemb.ArraysRefused) as refused:
            luthkemb.run(both, X=[0])
        self.assertEqual((refused.exception.number, refused.exception.name), (11, "Z"))
        self.assertEqual(luthkemb.run(both, X=[0], Z=1, A1=2), {"X": [3]})

    def test_two_symbols_of_one_name_are_one_size(self) -> None:
        same = dace.symbol("Z")

        @dace.program
        def twice(X: dace.int64[1]):
            # fake: X = [2 * Z]
            X[0] = Z + same

        self.assertEqual(source_of(twice).text().count(b"Z = dace.symbol('Z')"), 1)
        self.assertEqual(luthkemb.run(twice, X=[0], Z=3), {"X": [6]})

    def test_a_name_with_other_signs_is_told(self) -> None:
        for name in ('a"b', "a b", "ä", "a\nb", "", "$"):
            with self.subTest(name), self.assertRaises(luthkemb.ArraysRefused) as refused:
                luthkemb.run(documented, A=[1], B=[1], **{name: 1})
            self.assertEqual((refused.exception.number, refused.exception.name), (18, name))

    def test_a_given_size_goes_before_a_shape(self) -> None:
        with self.assertRaises(luthkemb.ArraysRefused) as refused:
            luthkemb.run(documented, N=2, A=[1, 2, 3], B=[0, 0, 0])
        self.assertEqual((refused.exception.number, refused.exception.name), (19, "A"))


class ProgramsOnTheProgram(Programs):
    program = TRUE


class Sources(unittest.TestCase):
    def lines_of(self, given: object) -> list[str]:
        return source_of(given).text().decode().splitlines()

    def test_lines_stay_lines(self) -> None:
        found = self.lines_of(documented)
        head = ["import dace", "N = dace.symbol('N')", "@dace.program", "def documented(A: dace.int64[N], B: dace.int64[N]):"]
        self.assertEqual(found[:4], head)
        self.assertEqual([it.strip() for it in found[4:7]], ["", "", ""])
        self.assertEqual(found[8:], ["    for i in dace.map[0:N]:", "        ", "        B[i] = A[i] + 1"])
        first = Path(__file__).read_text().splitlines().index("def documented(A: dc.int64[M], B: int64[SAME]):") + 1
        self.assertEqual(source_of(documented).origin(len(found)).line, first + 7)

    def test_words_are_replaced_where_they_stand(self) -> None:
        found = self.lines_of(constants)
        self.assertEqual(found[1:3], ["@dace.program", "def constants(A: dace.int64[5], k: dace.int64):"])
        self.assertEqual(found[4:7], ["    A[0] = 1 + (-3)", f"    A[1] = ({-(2**63) + 1} - 1)", f"    A[2] = {2**63 - 1}"])
        self.assertEqual(self.lines_of(reduced)[-1], "    dace.reduce(lambda x, y: x + y, A, s, identity=-3)")

    def test_signs_beyond_ascii_before_a_name(self) -> None:
        @dace.program
        def signs(A: dace.int64[FIVE]):
            A[0] = FIVE; "äöü"; A[FIVE - 1] = FIVE  # ä

        self.assertEqual(self.lines_of(signs)[-1], "    A[0] = 5; ; A[5 - 1] = 5  # ä")

    def refused(self, given: object) -> luthkemb.FunctionRefused:
        with self.assertRaises(luthkemb.FunctionRefused) as found:
            source_of(given)
        return found.exception

    def test_what_a_program_may_not_name(self) -> None:
        def real(A: dace.int64[1]):
            A[0] = HALF

        def array(A: dace.int64[1]):
            A[0] = TABLE[0]

        def function(A: dace.int64[1]):
            A[0] = helper()

        def large(A: dace.int64[1]):
            A[0] = BIG

        def ratio(A: dace.int64[1]):
            A[0] = settings.RATIO

        def half(A: dace.int64[1]):
            A[0] = Sizes.RATIO

        def text(A: dace.int64[1]):
            A[0] = Sizes.TEXT

        def part(A: dace.int64[1]):
            A[0] = Sizes.HEIGHT

        for it, why in (
            (real, "HALF is 0.5: a program may name whole numbers, size symbols and programs that stand outside of it"),
            (array, "TABLE is an array: make it an argument of the program"),
            (function, "helper is a function and no program: put @dace.program above it"),
            (large, "BIG is 9223372036854775808, and no whole number from -2^63 to 2^63-1"),
            (ratio, "settings.RATIO is 1.5: a program may name whole numbers"),
            (half, "Sizes.RATIO is 0.5: a program may name whole numbers"),
            (text, "Sizes.TEXT is '3': a program may name whole numbers"),
            (part, "the class Sizes has no HEIGHT"),
        ):
            with self.subTest(it.__name__):
                found = self.refused(dace.Program(it, {}))
                self.assertIn(why, found.why)
                self.assertEqual((found.line, found.file), (it.__code__.co_firstlineno + 1, __file__))

    def test_a_lambda_is_told(self) -> None:
        nameless = dace.program(lambda A: A[0])
        found = self.refused(nameless)
        self.assertIn("it is a lambda, which has no lines of its own: write a function", found.why)
        self.assertEqual((found.line, found.file), (nameless.function.__code__.co_firstlineno, __file__))
        with self.assertRaisesRegex(luthkemb.FunctionRefused, "it is a lambda"):
            nameless([1])

    def test_functions_that_are_no_programs_are_left_to_be_refused(self) -> None:
        @dace.program
        def by_place(A: dace.int64[1], /):
            A[0] = 1

        @dace.program
        async def later(A: dace.int64[1]):
            A[0] = 1

        self.assertEqual(self.lines_of(by_place)[2], "def by_place(A: dace.int64[1], /):")
        self.assertEqual(self.lines_of(later)[2], "async def later(A: dace.int64[1]):")

    def test_a_symbol_under_a_name_that_hides_its_own(self) -> None:
        @dace.program
        def hidden(N: dace.int64[M]):
            N[0] = M

        self.assertIn("M stands for N, and N is another name in this function", self.refused(hidden).why)

    @unittest.skipUnless(HAS_NUMPY, "NumPy is not there")
    def test_numbers_and_arrays_of_numpy(self) -> None:
        import numpy

        count, table = numpy.int32(-4), numpy.arange(3)

        @dace.program
        def fine(A: dace.int64[1]):
            A[0] = count

        @dace.program
        def refused(A: dace.int64[1]):
            A[0] = table[0]

        self.assertEqual(self.lines_of(fine)[-1], "    A[0] = (-4)")
        self.assertIn("table is an array", self.refused(refused).why)


class Language(unittest.TestCase):
    def test_a_symbol_has_the_one_type(self) -> None:
        self.assertEqual([symbol("K", dtype=it).name for it in (dace.int64, int)], ["K", "K"])
        for given in ({"dtype": float}, {"dtype": "int64x"}, {"even": True}, {"negative": True}):
            with self.subTest(given), self.assertRaises(luthkemb.NotInLanguage):
                symbol("K", **given)

    def test_what_dace_has_and_this_language_has_not(self) -> None:
        for name, instead in (
            ("float64", "dace.int64 is their one type"),
            ("int32", "dace.int64 is their one type"),
            ("map", "stands in functions under @dace.program"),
            ("SDFG", "inc.to_sdfg(N=5)"),
            ("StorageType", "the program sdfg alone decides"),
            ("anything", "there are dace.int64, dace.symbol and dace.program"),
        ):
            with self.subTest(name), self.assertRaises(luthkemb.NotInLanguage) as told:
                getattr(dace, name)
            self.assertTrue(str(told.exception).startswith(f"dace.{name}: "))
            self.assertIn(instead, str(told.exception))
            self.assertFalse(hasattr(dace, name))
        self.assertIsInstance(told.exception, luthkemb.LuthkembError)

    def test_a_program_has_no_options(self) -> None:
        with self.assertRaisesRegex(luthkemb.NotInLanguage, "auto_optimize"):
            dace.program(auto_optimize=True)

    def test_a_program_is_named_as_its_function(self) -> None:
        self.assertEqual((documented.__name__, documented.__doc__.split()[0]), ("documented", "Tells"))

    def test_extents_that_the_program_refuses(self) -> None:
        self.assertIs(dace.int64[Z // 2, Z % 2, Z ** 2, 4 // Z], dace.int64)


class Edited(Calls):
    """Files that are changed behind their import."""

    HEAD = "from luthkemb import dace\n"
    ONE = "@dace.program\ndef one(A: dace.int64[1]):\n    A[0] = A[0] + 1\n    # fake: A = [A[0] + 1]\n"
    TWO = "@dace.program\ndef two(A: dace.int64[1]):\n    A[0] = A[0] + 2\n    # fake: A = [A[0] + 2]\n"

    def imported(self, *parts: str) -> ModuleType:
        self.file = self.folder / "edited.py"
        self.write(*parts)
        found = importlib.util.spec_from_file_location("edited", self.file)
        module = importlib.util.module_from_spec(found)
        found.loader.exec_module(module)
        return module

    def write(self, *parts: str) -> None:
        """Writes the file, with a time that it has never had."""
        self.file.write_text("".join(parts))
        self.times = getattr(self, "times", 10**18) + 10**9
        os.utime(self.file, ns=(self.times, self.times))

    def assert_told(self, given: object) -> None:
        with self.assertRaisesRegex(luthkemb.FunctionRefused, "edited or removed after its import"):
            luthkemb.run(given, A=[1])

    def test_another_function_in_its_place_is_told(self) -> None:
        module = self.imported(self.HEAD, self.ONE, self.TWO)
        self.assertEqual(luthkemb.run(module.two, A=[1]), {"A": [3]})
        self.write(self.HEAD, self.TWO, self.ONE)
        self.assert_told(module.two)
        self.assert_told(module.one)

    def test_an_edit_of_the_function_is_told_and_others_are_not(self) -> None:
        module = self.imported(self.HEAD, self.ONE, self.TWO)
        self.write(self.HEAD, self.ONE, self.TWO.replace("+ 2", "+ 3"))
        self.assert_told(module.two)
        self.assertEqual(luthkemb.run(module.one, A=[1]), {"A": [2]})
        self.write(self.HEAD, self.ONE, self.TWO)
        self.assertEqual(luthkemb.run(module.two, A=[1]), {"A": [3]})

    def test_an_edit_of_the_types_alone_is_told(self) -> None:
        module = self.imported(self.HEAD, self.ONE)
        self.write(self.HEAD, self.ONE.replace("int64[1]", "int64[2]"))
        self.assert_told(module.one)

    def test_a_file_that_is_removed_is_told(self) -> None:
        module = self.imported(self.HEAD, self.ONE)
        self.file.unlink()
        self.assert_told(module.one)

    def test_an_edit_before_a_function_is_defined_is_told(self) -> None:
        inner = "def make():\n" + "".join(f"    {it}\n" for it in self.ONE.splitlines()) + "    return one\n"
        module = self.imported(self.HEAD, inner)
        self.assertEqual(luthkemb.run(module.make(), A=[1]), {"A": [2]})
        self.write(self.HEAD, inner.replace("def one", "def won"))
        self.assert_told(module.make())
        self.write(self.HEAD, inner.replace("(A:", "(B:"))
        self.assert_told(module.make())

    def test_a_new_import_has_the_new_text(self) -> None:
        self.imported(self.HEAD, self.ONE)
        module = self.imported(self.HEAD, self.ONE.replace("+ 1", "+ 5"))
        self.assertEqual(luthkemb.run(module.one, A=[1]), {"A": [6]})

    def test_what_python_keeps_no_source_of(self) -> None:
        text = f"import sys; sys.path.insert(0, {str(TOP / 'python')!r})\nimport luthkemb\n{self.HEAD}{self.ONE}\n"
        text += "try:\n    print(luthkemb.run(one, A=[1]))\nexcept luthkemb.FunctionRefused as told:\n    print(told)\n"
        ran = subprocess.run([sys.executable, "-"], input=text, capture_output=True, text=True)
        self.assertEqual(ran.stderr, "")
        self.assertRegex(ran.stdout, r"^(one: the source is not there: .* Put the program in a file, .*|\{'A': \[2\]\})\n$")


class EditedOnTheProgram(Edited):
    program = TRUE


if __name__ == "__main__":
    unittest.main()
