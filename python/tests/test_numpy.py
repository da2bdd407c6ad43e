"""Calls on NumPy arrays."""
from __future__ import annotations

import io
import json
import subprocess
import sys
import tempfile
import unittest
from pathlib import Path
from typing import Iterator
from unittest import mock

from support import HAS_NUMPY, INC, TOP, TRUE, Calls, copying

import luthkemb
from luthkemb import arrays

if HAS_NUMPY:
    import numpy

    from luthkemb import digits


@unittest.skipUnless(HAS_NUMPY, "NumPy is not there")
class Arrays(Calls):
    def assert_same(self, found: object, wanted: object) -> None:
        self.assertIsInstance(found, numpy.ndarray)
        self.assertEqual((found.dtype, found.shape), (numpy.int64, wanted.shape))
        self.assertEqual(found.tolist(), wanted.tolist())

    def test_arrays_after_the_run(self) -> None:
        given = numpy.arange(5)
        found = luthkemb.run(INC, A=given, B=numpy.zeros(5, numpy.int64))
        self.assert_same(found["B"], given + 1)
        self.assert_same(found["A"], given)
        self.assertEqual(given.tolist(), [0, 1, 2, 3, 4])

    def test_shapes_of_one_to_four_dimensions(self) -> None:
        for shape in ((3,), (2, 3), (1, 2, 3), (2, 1, 3, 2)):
            with self.subTest(shape):
                given = numpy.arange(numpy.prod(shape)).reshape(shape)
                self.assert_same(luthkemb.run(copying(len(shape)), A=given, B=given * 0)["B"], given)

    def test_arrays_without_elements(self) -> None:
        for shape in ((0,), (0, 3), (2, 0), (1, 0, 2), (2, 3, 0, 1)):
            with self.subTest(shape):
                given = numpy.empty(shape, numpy.int64)
                self.assert_same(luthkemb.run(copying(len(shape)), A=given, B=given)["B"], given)

    def test_the_ends_of_the_range(self) -> None:
        given = numpy.array([-(2**63), 2**63 - 1])
        self.assert_same(luthkemb.run(copying(1), A=given, B=given * 0)["B"], given)

    def test_parts_and_other_layouts(self) -> None:
        whole = numpy.arange(24).reshape(4, 6)
        for given in (whole[::2, 1::3], whole.T, numpy.asfortranarray(whole), whole.astype(">i4")):
            with self.subTest(given.strides):
                self.assert_same(luthkemb.run(copying(2), A=given, B=numpy.zeros(given.shape, int))["B"], given)

    def test_lists_come_back_as_lists(self) -> None:
        found = luthkemb.run(INC, A=[1, 2], B=numpy.zeros(2, numpy.int64))
        self.assertEqual(found["A"], [1, 2])
        self.assertIsInstance(found["A"], list)
        self.assert_same(found["B"], numpy.array([2, 3]))

    def test_numbers_of_numpy(self) -> None:
        size, elements = numpy.int32(2), [numpy.int64(4), numpy.uint8(5)]
        self.assertEqual(luthkemb.run(INC, N=size, turns=numpy.int16(9), A=elements, B=[0, 0])["B"], [5, 6])

    def test_whole_numbers_of_other_types(self) -> None:
        for kind in ("int8", "uint8", "uint64", "float16", "float32", "float64", "longdouble"):
            with self.subTest(kind):
                given = numpy.array([0, 3, 100], kind)
                self.assert_same(luthkemb.run(INC, A=given, B=numpy.zeros(3))["B"], numpy.array([1, 4, 101]))
        least = numpy.array([-(2.0**63)])
        self.assert_same(luthkemb.run(copying(1), A=least, B=numpy.zeros(1))["B"], numpy.array([-(2**63)]))

    def test_bools_and_arrays_that_are_read_only(self) -> None:
        given = numpy.array([True, False])
        given.flags.writeable = False
        self.assert_same(luthkemb.run(INC, A=given, B=numpy.zeros(2, int))["B"], numpy.array([2, 1]))
        self.assertEqual(luthkemb.run(INC, A=[True, False], B=[0, 0])["B"], [2, 1])

    @unittest.skipUnless(HAS_NUMPY and numpy.finfo("longdouble").nmant >= 63, "no long doubles of 64 bits")
    def test_long_doubles_are_exact(self) -> None:
        whole = numpy.longdouble(2) ** 53 + 1
        most = numpy.longdouble(2) ** 63 - 1
        found = luthkemb.run(copying(1), A=numpy.array([whole, most, -most]), B=numpy.zeros(3, int))["B"]
        self.assert_same(found, numpy.array([2**53 + 1, 2**63 - 1, 1 - 2**63]))
        for given in (numpy.longdouble(2) ** 53 + numpy.longdouble(0.5), most + 1):
            with self.assertRaises(luthkemb.DoesNotFit):
                luthkemb.run(copying(1), A=numpy.array([given]), B=numpy.zeros(1, int))

    def test_whole_numbers_at_the_ends_of_their_types(self) -> None:
        for kind in ("i1", "u1", "<i2", ">i2", ">u2", "<i4", ">i4", ">u4", ">i8", "<u8", ">u8"):
            ends = numpy.iinfo(kind)
            given = numpy.array([ends.min, min(ends.max, 2**63 - 1), 0, 1], kind)
            with self.subTest(kind):
                found = luthkemb.run(copying(1), A=given, B=numpy.zeros(4, int))["B"]
                self.assert_same(found, numpy.array([int(it) for it in given]))

    def test_the_place_of_what_does_not_fit(self) -> None:
        given = numpy.zeros((3, 200, 300))
        given[1, 150, 7] = 0.5
        for array, place in ((given, "[1, 150, 7]"), (given.T, "[7, 150, 1]"), (given[::-1, ::3], "[1, 50, 7]")):
            with self.subTest(place), self.assertRaises(luthkemb.DoesNotFit) as refused:
                luthkemb.run("a\n", A=array)
            self.assertIn(f"its element {place}, 0.5, is no", str(refused.exception))

    def test_what_does_not_fit_is_told_before_anything_runs(self) -> None:
        for given, why in (
            (numpy.array([[1.0, 2.5]]), "element [0, 1], 2.5"),
            (numpy.array([numpy.nan]), "element [0], nan"),
            (numpy.array([-numpy.inf]), "element [0], -inf"),
            (numpy.array([2.0**63]), "element [0], 9.22"),
            (numpy.array([1, 2**63], numpy.uint64), "element [1], 9223372036854775808"),
            (numpy.array([1j]), "complex128"),
            (numpy.array([1], object), "object"),
            (numpy.array([1], "M8[s]"), "datetime64"),
            (numpy.ma.array([1, 2], mask=[False, True]), "masked"),
        ):
            with self.subTest(given.dtype), self.assertRaises(luthkemb.DoesNotFit) as refused:
                luthkemb.run("a\n", A=given)
            self.assertEqual(refused.exception.name, "A")
            self.assertIn(why, str(refused.exception))


class ArraysOnTheProgram(Arrays):
    program = TRUE


@unittest.skipUnless(HAS_NUMPY, "NumPy is not there")
class Texts(unittest.TestCase):
    """Numbers as text and back, beside what Python makes of them one by one."""

    def kinds(self) -> Iterator[numpy.ndarray]:
        """Gives arrays of numbers with all numbers of digits, alone and mixed, with signs and without."""
        drawn = numpy.random.default_rng(7)
        for digits in range(1, 20):
            ends = [10 ** (digits - 1), min(10**digits, 2**63) - 1]
            yield numpy.array(ends)
            yield numpy.array([0, ends[0]])
            yield numpy.array([-it for it in ends])
            yield drawn.integers(*ends, 50, endpoint=True)
            yield drawn.integers(-ends[1], ends[1], 50, endpoint=True)
        for bits in (0, 8, 16, 32, 33, 62):
            yield drawn.integers(0, 2**bits, 70_000)
        yield drawn.integers(-(2**63), 2**63 - 1, 30_000, endpoint=True)
        yield numpy.array([0, -1, 2**63 - 1, -(2**63), -(2**63) + 1, 2**32, 2**32 - 1, -(2**32)])
        yield numpy.zeros(200_000, numpy.int64)

    def test_there_and_back(self) -> None:
        for given in self.kinds():
            with self.subTest(given[:3]):
                text = " ".join(str(it) for it in given.tolist()).encode()
                self.assertEqual(digits.text_of(given, ord(" ")), text + b" ")
                file = io.BytesIO(b" " + text + b"\nrest")
                found = numpy.full(len(given), 77)
                digits.read_numbers(file, found)
                self.assertEqual((found.tolist(), file.read()), (given.tolist(), b"rest"))

    def test_no_numbers(self) -> None:
        file = io.BytesIO(b"\nrest")
        digits.read_numbers(file, numpy.empty(0, numpy.int64))
        self.assertEqual(file.read(), b"rest")

    def test_what_is_no_text_of_so_many_numbers(self) -> None:
        for text in (
            "", " 1 2", "\n", " 1\n", " 1 2 3\n", "1 2\n", " 1  2\n", " 1 2 \n", " 1 x\n", " 1 +2\n", " 1 2.\n", " 1,2 3\n",
            " 1 -\n", " - 2\n", " --1 2\n", " 1-2 3\n", " 1 -2-\n", " 1 /\n", " 1 :\n", " \t1 2\n", " 1 \u0662\n",
            " 1 9223372036854775808\n", " 1 -9223372036854775809\n", " 1 18446744073709551617\n", " 1 99999999999999999999\n",
            " 9223372036854775808 9223372036854775808\n", f" 1 {'1' * 300_000}\n",
        ):
            with self.subTest(text[:30]), self.assertRaises(ValueError):
                digits.read_numbers(io.BytesIO(text.encode()), numpy.zeros(2, numpy.int64))

    def test_lists_in_lists(self) -> None:
        drawn = numpy.random.default_rng(8)
        for shape in ((70_000, 1), (1, 70_000), (300, 301), (2, 3, 5, 7), (40_000, 1, 2), (2,) * 9, (1,) * 20, (33, 32, 31)):
            with self.subTest(shape):
                given = drawn.integers(-50, 5000, shape)
                with tempfile.TemporaryDirectory() as folder:
                    file = Path(folder) / "arrays.json"
                    arrays.write_entries(file, {"A": given, "B": given.T})
                    self.assertEqual(json.loads(file.read_text()), {"A": given.tolist(), "B": given.T.tolist()})

    def test_arrays_that_are_too_long_are_told_with_what_fits(self) -> None:
        with tempfile.TemporaryDirectory() as folder:
            file = Path(folder) / "arrays.json"
            for most in range(20, 60):
                for value in (numpy.arange(30), list(range(30))):
                    with mock.patch.object(arrays, "MOST_BYTES", most), self.assertRaises(luthkemb.ArraysTooLong) as told:
                        arrays.write_entries(file, {"N": 30, "A": value})
                    fits = told.exception.fits
                    text = {it: json.dumps({"N": 30, "A": list(range(it))}, separators=(",", ":")) for it in (fits, fits + 1)}
                    self.assertLessEqual(len(text[fits]), most)
                    self.assertGreater(len(text[fits + 1]), most)
                    self.assertFalse(file.exists())
            for most in range(20, 34):
                with mock.patch.object(arrays, "MOST_BYTES", most), self.assertRaises(luthkemb.ArraysTooLong) as told:
                    arrays.write_entries(file, {"A": numpy.arange(5), "B,C": numpy.arange(9)})
                fits = told.exception.fits
                self.assertEqual(told.exception.name, "B,C")
                text = {it: json.dumps({"A": list(range(5)), "B,C": list(range(it))}, separators=(",", ":")) for it in (fits, fits + 1)}
                self.assertTrue(fits == 0 or len(text[fits]) <= most)
                self.assertGreater(len(text[fits + 1]), most)
            arrays.write_entries(file, {"A": numpy.arange(30)})
            with mock.patch.object(arrays, "MOST_BYTES", file.stat().st_size):
                arrays.write_entries(file, {"A": numpy.arange(30)})
            with mock.patch.object(arrays, "MOST_BYTES", file.stat().st_size - 1), self.assertRaises(luthkemb.ArraysTooLong) as told:
                arrays.write_entries(file, {"A": numpy.arange(30)})
        self.assertEqual((told.exception.name, told.exception.fits, told.exception.status), ("A", 29, 11))
        self.assertIn("of A only 29 elements fit into the arrays file, which has at most 2^26 bytes", str(told.exception))


class Lazily(Calls):
    def test_lists_do_not_ask_for_numpy(self) -> None:
        script = "import sys, luthkemb; luthkemb.run(sys.argv[1], A=[1], B=[2]); assert 'numpy' not in sys.modules"
        ran = subprocess.run([sys.executable, "-c", script, INC], cwd=TOP / "python", capture_output=True)
        self.assertEqual((ran.returncode, ran.stderr), (0, b""))


if __name__ == "__main__":
    unittest.main()
