"""Calls of functions as DaCe has them, and their graphs as objects."""
from __future__ import annotations

import unittest
from unittest import mock

from support import HAS_NUMPY, TRUE, Calls

import luthkemb
from luthkemb import dace

if HAS_NUMPY:
    import numpy

N = dace.symbol('N')
M = dace.symbol('M')


@dace.program
def inc(A: dace.int64[N], B: dace.int64[N]):
    # fake graph sdfg inc/array A[2]/array B[2]/state 0
    # fake check scope 1.1: read A[0:2]/scope 1.1: write B[0:2]/accepted
    # fake: B = [it + 1 for it in A]
    for i in dace.map[0:N]:
        B[i] = A[i] + 1


@dace.program
def rows(A: dace.int64[N, M], B: dace.int64[N, M]):
    # fake: B = A
    B[:, :] = A[:, :]


@dace.program
def scaled(A: dace.int64[N], s: dace.int64, t: dace.int64[1, 1]):
    # fake: A = [it * s[0] + t[0][0] for it in A]
    for i in dace.map[0:N]:
        A[i] = A[i] * s[0] + t[0, 0]


@dace.program
def total(A: dace.int64[N], s: dace.int64):
    # fake: s = [sum(A)]
    s[0] = 0
    for i in range(N):
        s[0] += A[i]


@dace.program
def filled(A: dace.int64[N], k: dace.int64):
    # fake: A = [k[0]] * N
    # fake turns 3
    for i in dace.map[0:N]:
        A[i] = k[0]


@dace.program
def faulty(A: dace.int64[N]):
    # fake 7 fault division at line 4: i=1
    for i in range(N):
        A[i] = 6 // A[i]


class Lists(Calls):
    def test_arrays_are_changed_in_place(self) -> None:
        A, B = [1, 2], [0, 0]
        self.assertIsNone(inc(A, B))
        self.assertEqual((A, B), ([1, 2], [2, 3]))
        inc(A=B, B=A, N=2)
        self.assertEqual((A, B), ([3, 4], [2, 3]))
        inc(A, B=B)
        self.assertEqual(B, [4, 5])

    def test_rows_stay_the_lists_that_they_are(self) -> None:
        row = [0, 0]
        rows([[1, 2], [3, 4]], [row, [0, 0]])
        self.assertEqual(row, [1, 2])

    def test_a_number_stands_for_one_element(self) -> None:
        A = [1, 2]
        scaled(A, 3, 4)
        self.assertEqual(A, [7, 10])
        self.assertEqual(luthkemb.run(scaled, A=[1, 2], s=3, t=True), {"A": [4, 7], "s": 3, "t": 1})
        self.assertEqual(luthkemb.run(total, A=[1, 2], s=5)["s"], 3)

    def test_a_number_that_the_program_changes_is_told_and_nothing_is_changed(self) -> None:
        with self.assertRaises(luthkemb.DoesNotFit) as refused:
            total([1, 2], 0)
        self.assertEqual(refused.exception.name, "s")
        s = [0]
        total([1, 2], s)
        self.assertEqual(s, [3])

    def test_a_program_that_is_refused_changes_nothing(self) -> None:
        A = [2, 0]
        with self.assertRaises(luthkemb.Fault):
            faulty(A)
        self.assertEqual(A, [2, 0])

    def test_what_cannot_be_changed_is_told_before_anything_runs(self) -> None:
        row = [0, 0]
        for name, given in (
            ("B", {"A": [1], "B": (0,)}),
            ("A", {"A": ((1,),), "B": [[0]]}),
            ("B", {"A": row, "B": row}),
        ):
            with self.subTest(given), mock.patch("luthkemb.commands.ended") as ended:
                with self.assertRaises(luthkemb.DoesNotFit) as refused:
                    inc(**given)
                self.assertEqual(refused.exception.name, name)
                ended.assert_not_called()
        with self.assertRaisesRegex(luthkemb.DoesNotFit, "B: it shares elements with A"):
            rows([row, [1, 2]], [[0, 0], row])

    def test_words_that_do_not_fit(self) -> None:
        for arrays, given, why in (
            (([1], [0], [2]), {}, r"inc\(\) takes 2 positional arguments but 3 were given"),
            (([1], [0]), {"B": [1]}, r"inc\(\) got multiple values for argument 'B'"),
            (([1],), {}, r"inc\(\) is called without B"),
            ((), {"N": 3}, r"inc\(\) is called without A, B"),
        ):
            with self.subTest(why), self.assertRaisesRegex(TypeError, why):
                inc(*arrays, **given)
        with self.assertRaises(luthkemb.ArraysRefused) as refused:
            inc([1], [0], K=2)
        self.assertEqual((refused.exception.number, refused.exception.name), (18, "K"))

    def test_turns(self) -> None:
        A = [0, 0, 0]
        filled(A, 4, turns=3)
        self.assertEqual(A, [4, 4, 4])
        with self.assertRaises(luthkemb.TurnsSpent) as spent:
            filled(A, 5, turns=2)
        self.assertEqual((spent.exception.turns, A), (2, [4, 4, 4]))

    def test_a_call_may_have_all_turns_unless_it_says_otherwise(self) -> None:
        with mock.patch("luthkemb.commands.ended", side_effect=KeyboardInterrupt) as ended:
            for given in ({}, {"turns": None}):
                for called in (inc, lambda *it, **more: luthkemb.run(inc, A=it[0], B=it[1], **more)):
                    with self.assertRaises(KeyboardInterrupt):
                        called([1], [0], **given)
                    self.assertEqual(ended.call_args.args[0][:4], ["run", "--workers=1", f"--turns={2**40}", "--"])


@unittest.skipUnless(HAS_NUMPY, "NumPy is not there")
class Arrays(Calls):
    def test_arrays_are_changed_in_place(self) -> None:
        A, B = numpy.arange(3), numpy.zeros(3, numpy.int64)
        self.assertIsNone(inc(A, B))
        self.assertEqual((A.tolist(), B.tolist()), ([0, 1, 2], [1, 2, 3]))

    def test_parts_and_other_layouts(self) -> None:
        for kind in ("<i8", ">i8"):
            whole = numpy.zeros((4, 6), kind)
            given = numpy.arange(6).reshape(2, 3)
            for part in (whole[::2, 1::2], whole[1::2, 4::-2], whole.T[::3, :3], numpy.asfortranarray(whole)[:2, :3]):
                with self.subTest(kind, strides=part.strides):
                    rows(given, part)
                    self.assertEqual(part.tolist(), given.tolist())

    def test_kinds_of_arrays(self) -> None:
        given, matrix = numpy.arange(6).reshape(2, 3), numpy.zeros((2, 3), numpy.int64).view(numpy.matrix)
        rows(given, matrix)
        self.assertEqual(matrix.tolist(), given.tolist())
        masked = numpy.ma.array(numpy.zeros((2, 3), numpy.int64))
        rows(given, masked)
        self.assertEqual(masked.tolist(), given.tolist())

    def test_arrays_without_elements(self) -> None:
        for shape in ((0, 3), (2, 0), (0, 0)):
            rows(numpy.zeros(shape, int), numpy.zeros(shape, int), N=shape[0], M=shape[1])

    def test_a_number_stands_for_one_element(self) -> None:
        for s, t in ((numpy.int64(3), numpy.array(4)), (numpy.uint8(3), numpy.float64(4)), (numpy.array([3]), numpy.int32(4))):
            A = numpy.array([1, 2])
            scaled(A, s, t)
            self.assertEqual(A.tolist(), [7, 10])
        found = luthkemb.run(scaled, A=[1], s=numpy.int64(3), t=numpy.array(4))
        self.assertEqual((found["s"], found["t"].shape, int(found["t"])), (3, (), 4))
        with self.assertRaises(luthkemb.DoesNotFit):
            scaled(numpy.array([1]), 3, numpy.array(0.5))

    def test_an_array_of_no_dimension_is_changed_in_place(self) -> None:
        s = numpy.array(0)
        total(numpy.array([1, 2]), s)
        self.assertEqual(int(s), 3)

    def test_bools_are_numbers_that_are_only_read(self) -> None:
        B = numpy.zeros(2, int)
        inc(numpy.array([True, False]), B)
        self.assertEqual(B.tolist(), [2, 1])
        with self.assertRaisesRegex(luthkemb.DoesNotFit, "B: the program changes it"):
            inc(B, numpy.array([False, False]))
        self.assertEqual(luthkemb.run(inc, A=numpy.array([True]), B=[False]), {"A": numpy.array([1]), "B": [2]})

    def test_what_cannot_be_changed_is_told_before_anything_runs(self) -> None:
        read_only = numpy.zeros(2, int)
        read_only.flags.writeable = False
        whole = numpy.arange(8)
        one = numpy.lib.stride_tricks.as_strided(numpy.zeros(1, int), (2,), (0,))
        fine = numpy.zeros(2, int)
        for why, A, B in (
            ("B: it is read-only", fine, read_only),
            ("A: it is read-only", read_only, fine),
            ("B: its elements are int32", fine, numpy.zeros(2, numpy.int32)),
            ("B: its elements are uint64", fine, numpy.zeros(2, numpy.uint64)),
            ("A: its elements are float64", numpy.zeros(2), fine),
            ("A: its elements are object", numpy.zeros(2, object), fine),
            ("B: it shares elements with A", whole[:4], whole[2:6]),
            ("B: it shares elements with A", whole, whole),
            ("B: some of its elements are one and the same", fine, one),
        ):
            with self.subTest(why), mock.patch("luthkemb.commands.ended") as ended:
                with self.assertRaisesRegex(luthkemb.DoesNotFit, why):
                    inc(A, B)
                ended.assert_not_called()
        inc(whole[::2], whole[1::2])
        self.assertEqual(whole.tolist(), [0, 1, 2, 3, 4, 5, 6, 7])

    def test_lists_and_arrays_together(self) -> None:
        A, B = [5], numpy.zeros(1, int)
        inc(A, B)
        inc(B, A)
        self.assertEqual((A, B.tolist()), ([7], [6]))


class Graphs(Calls):
    def test_a_graph_is_its_text(self) -> None:
        found = inc.to_sdfg(N=2)
        self.assertIsInstance(found, luthkemb.SDFG)
        self.assertIsInstance(found, luthkemb.Picture)
        self.assertEqual(repr(found), str(luthkemb.graph(inc, A=[0, 0], B=[0, 0])))
        self.assertTrue(repr(found).startswith("sdfg inc\narray A[2]\n"))

    def test_it_makes_its_race_check(self) -> None:
        self.assertEqual([str(it) for it in inc.to_sdfg(N=2).check()], ["scope 1.1: read A[0:2]", "scope 1.1: write B[0:2]"])

    def test_sizes_that_no_graph_has(self) -> None:
        with self.assertRaises(luthkemb.ArraysRefused) as refused:
            inc.to_sdfg()
        self.assertEqual((refused.exception.number, refused.exception.name), (11, "N"))

    def test_it_is_saved_as_its_ending_says(self) -> None:
        found = inc.to_sdfg(N=2)
        drawn = {"svg": b"<svg/>", "png": b"\x89PNG"}
        with mock.patch.object(luthkemb.Picture, "drawn", lambda _, form: drawn[form]):
            texts = (("sdfg", found.text), ("dot", found.dot()), ("mmd", found.mermaid()))
            for ending, wanted in (("svg", b"<svg/>"), ("PNG", b"\x89PNG"), *texts):
                file = self.folder / f"graph.{ending}"
                found.save(file)
                self.assertEqual(file.read_bytes(), wanted if isinstance(wanted, bytes) else wanted.encode())

    def test_it_is_shown(self) -> None:
        found = inc.to_sdfg(N=2)
        with mock.patch.object(luthkemb.Picture, "drawn", return_value=b"<svg/>"), mock.patch("webbrowser.open") as shown:
            for name in (None, self.folder / "shown.svg"):
                file = found.view(name)
                shown.assert_called_with(file.as_uri())
                self.assertEqual(file.read_text(), "<svg/>")
                file.unlink()

    def test_what_is_no_rewrite_is_not_applied(self) -> None:
        for given in ("MapExpansion 1.1", luthkemb.MapExpansion, None):
            with self.subTest(given), self.assertRaisesRegex(TypeError, "is no rewrite"):
                inc.to_sdfg(N=2).apply(given)  # type: ignore


class GraphsOnTheProgram(Graphs):
    program = TRUE

    def test_sizes_that_no_graph_has_are_told_before_arrays_are_made(self) -> None:
        for program, sizes, number, name in (
            (inc, {"N": -1}, 12, "N"),
            (inc, {"N": 2**24 + 1}, 12, "N"),
            (inc, {"N": 2**60}, 12, "N"),
            (rows, {"N": 2**13, "M": 2**13}, 13, "A"),
        ):
            with self.subTest(sizes), self.assertRaises(luthkemb.ArraysRefused) as refused:
                program.to_sdfg(**sizes)
            self.assertEqual((refused.exception.number, refused.exception.name), (number, name))

    def test_arrays_of_zeros_may_be_large(self) -> None:
        self.assertTrue(inc.to_sdfg(N=2**21).text.startswith("sdfg inc\narray A[2097152]\n"))


class ListsOnTheProgram(Lists):
    program = TRUE


class ArraysOnTheProgram(Arrays):
    program = TRUE


if __name__ == "__main__":
    unittest.main()
