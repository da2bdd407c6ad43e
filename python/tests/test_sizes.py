"""Sizes that follow from shapes."""
from __future__ import annotations

import unittest

from support import source

from luthkemb.sizes import Signature


class Sizes(unittest.TestCase):
    def sizes(self, arguments: str, symbols: str, shapes: dict[str, tuple[int, ...]], **known: int) -> dict[str, int]:
        return Signature.of(source(arguments, "A[0] = 1", symbols=symbols).encode()).sizes(shapes, known)

    def test_extents_that_leave_one_number(self) -> None:
        for extents, shape, sizes in (
            ("N", (3,), {"N": 3}),
            ("N, M", (3, 4), {"N": 3, "M": 4}),
            ("N, N + M", (3, 4), {"N": 3, "M": 1}),
            ("N - M, N + M", (1, 5), {"N": 3, "M": 2}),
            ("N + M, N - M", (5, 1), {"N": 3, "M": 2}),
            ("2 * N + 1", (7,), {"N": 3}),
            ("(N - 1) * 3", (6,), {"N": 3}),
            ("-N + 4", (1,), {"N": 3}),
            ("N + N - N", (3,), {"N": 3}),
            ("N + 2", (0,), {"N": -2}),
            ("N, M", (0,), {"N": 0}),
        ):
            with self.subTest(extents):
                self.assertEqual(self.sizes(f"A: dace.int64[{extents}]", "N M", {"A": shape}), sizes)

    def test_extents_that_leave_more_or_none(self) -> None:
        for extents, shape in (
            ("N + M", (3,)),
            ("2 * N", (3,)),
            ("N - N", (0,)),
            ("N * N", (4,)),
            ("K", (3,)),
            ("N", ()),
            ("3", (3,)),
        ):
            with self.subTest(extents):
                self.assertEqual(self.sizes(f"A: dace.int64[{extents}]", "N M", {"A": shape}), {})

    def test_several_arrays(self) -> None:
        arguments = "A: dace.int64[N + M], B: dace.int64[N], c: dace.int64"
        self.assertEqual(self.sizes(arguments, "N M", {"A": (5,), "B": (2,), "c": (1,)}), {"N": 2, "M": 3})
        self.assertEqual(self.sizes(arguments, "N M", {"A": (5,), "c": (1,)}), {})
        self.assertEqual(self.sizes(arguments, "N M", {"A": (5,)}, N=1), {"M": 4})

    def test_the_first_of_two_shapes_that_contradict_counts(self) -> None:
        arguments = "A: dace.int64[N], B: dace.int64[N, M]"
        self.assertEqual(self.sizes(arguments, "N M", {"A": (2,), "B": (3, 4)}), {"N": 2, "M": 4})

    def test_a_given_size_stays(self) -> None:
        self.assertEqual(self.sizes("A: dace.int64[N]", "N", {"A": (2,)}, N=5), {})

    def test_the_last_program_counts(self) -> None:
        text = source("A: dace.int64[N]", "A[0] = 1", symbols="N M")
        both = text + source("A: dace.int64[M]", "A[0] = 1")
        self.assertEqual(Signature.of(both.encode()).sizes({"A": (3,)}, {}), {"M": 3})

    def test_what_python_does_not_read_has_no_sizes(self) -> None:
        for text in (b"", b"def f(", b"\x00", b"# \xff\n", b"x = " + b"-" * 100_000 + b"1", b"if"):
            with self.subTest(text[:10]):
                self.assertEqual(Signature.of(text).sizes({"A": (3,)}, {}), {})

    def test_a_long_extent(self) -> None:
        for terms in (300, 100_000):
            found = self.sizes(f"A: dace.int64[{' + '.join(['N'] * terms)}]", "N", {"A": (terms * 2,)})
            self.assertIn(found, ({"N": 2}, {}))


if __name__ == "__main__":
    unittest.main()
