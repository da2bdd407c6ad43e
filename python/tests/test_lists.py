"""Calls on lists."""
from __future__ import annotations

import unittest
from concurrent.futures import ThreadPoolExecutor
from pathlib import Path
from typing import Any

from support import INC, TRUE, Calls, copying, source

import luthkemb


def filled(shape: tuple[int, ...], first: int = 0) -> list[Any]:
    """Gives nested lists with a number of its own for each element."""
    if len(shape) == 1:
        return list(range(first, first + shape[0]))
    return [filled(shape[1:], first + at * 100) for at in range(shape[0])]


class Lists(Calls):
    def test_arrays_after_the_run(self) -> None:
        found = luthkemb.run(INC, N=3, A=[1, 2, 3], B=[0, 0, 0])
        self.assertEqual(found, {"A": [1, 2, 3], "B": [2, 3, 4]})
        self.assertEqual(list(found), ["A", "B"])

    def test_a_program_is_a_path_or_a_text(self) -> None:
        file = self.folder / "inc program.py"
        file.write_text(INC)
        for program in (str(file), file, INC, INC.encode()):
            with self.subTest(type(program)):
                self.assertEqual(luthkemb.run(program, A=[1], B=[0])["B"], [2])

    def test_no_other_program(self) -> None:
        with self.assertRaises(TypeError):
            luthkemb.run(3, A=[1])

    def test_shapes_of_one_to_four_dimensions(self) -> None:
        for shape in ((3,), (2, 3), (1, 2, 3), (2, 1, 3, 2)):
            with self.subTest(shape):
                given = filled(shape)
                self.assertEqual(luthkemb.run(copying(len(shape)), A=given, B=filled(shape, 7))["B"], given)

    def test_arrays_without_elements(self) -> None:
        self.assertEqual(luthkemb.run(INC, A=[], B=[]), {"A": [], "B": []})
        self.assertEqual(luthkemb.run(copying(2), A=[[], []], B=[[], []])["B"], [[], []])
        self.assertEqual(luthkemb.run(copying(2), N1=3, A=[], B=[])["B"], [])

    def test_the_ends_of_the_range(self) -> None:
        ends = [-(2**63), 2**63 - 1]
        self.assertEqual(luthkemb.run(copying(1), A=ends, B=[0, 0])["B"], ends)

    def test_tuples_are_lists(self) -> None:
        self.assertEqual(luthkemb.run(INC, A=(1, 2), B=[0, 0]), {"A": [1, 2], "B": [2, 3]})

    def test_turns(self) -> None:
        self.assertEqual(luthkemb.run(INC, turns=2, A=[1, 2], B=[0, 0])["B"], [2, 3])

    def test_the_last_of_three_programs_is_run(self) -> None:
        text = "import dace\n" + "".join(
            f"@dace.program\ndef f{it}(A: dace.int64[1]):\n    A[0] = {it}\n    # fake: A = [{it}]\n" for it in range(3)
        )
        self.assertEqual(luthkemb.run(text, A=[7]), {"A": [2]})

    def test_32_calls_at_once(self) -> None:
        with ThreadPoolExecutor(32) as pool:
            found = list(pool.map(lambda it: luthkemb.run(INC, A=[it] * 50, B=[0] * 50)["B"], range(32)))
        self.assertEqual(found, [[it + 1] * 50 for it in range(32)])

    def test_many_elements(self) -> None:
        given = list(range(100_000))
        self.assertEqual(luthkemb.run(copying(1), A=given, B=given[::-1])["B"], given)

    def test_what_is_no_number_is_told_before_anything_runs(self) -> None:
        for value in ({1}, [1j], [float("nan")], ["1", object()]):
            with self.subTest(value), self.assertRaises(luthkemb.DoesNotFit) as refused:
                luthkemb.run(str(Path("none.py")), A=[1], B=value)
            self.assertEqual(refused.exception.name, "B")

    def test_sizes_that_shapes_leave_open(self) -> None:
        text = source("A: dace.int64[N]", "A[0] = M", "# fake: A = [M]", symbols="N M")
        self.assertEqual(luthkemb.run(text, M=5, A=[0])["A"], [5])
        with self.assertRaises(luthkemb.ArraysRefused) as refused:
            luthkemb.run(source("A: dace.int64[N - M]", "A[0] = 1", symbols="N M"), A=[0])
        self.assertEqual((refused.exception.number, refused.exception.name), (11, "N"))

    def test_shapes_that_contradict_each_other(self) -> None:
        with self.assertRaises(luthkemb.ArraysRefused) as refused:
            luthkemb.run(INC, A=[1, 2], B=[0])
        self.assertEqual((refused.exception.number, refused.exception.name), (19, "B"))


class ListsOnTheProgram(Lists):
    program = TRUE


if __name__ == "__main__":
    unittest.main()
