"""Runs by picks."""
from __future__ import annotations

import copy
import pickle
import unittest

from support import INC, TRUE, Calls, source

import luthkemb
from luthkemb import Move

MOVES = ((0, 1), (1, 2), (1, 2), (0, 2), (0, 2), (0, 2), (0, 1), (0, 1))
TRACED = INC + "# fake moves " + "/".join(f"move {number} of {of}" for number, of in MOVES) + "\n"
PICKS = (0, 1, 1, 0)
FAULTY = source(
    "A: dace.int64[2]",
    "A[0] = A[1] // A[0]  # <here>",
    "# fake 7 fault division at line {here}",
    "# fake moves move 0 of 1/move 0 of 1/move 0 of 1/move 0 of 1",
)


class Steps(Calls):
    def test_any_picks_give_what_a_run_gives(self) -> None:
        after = luthkemb.run(INC, A=[4, 5], B=[0, 0])
        for picks in ((), PICKS, [3, 2**64 - 1], (it for it in (7, 7))):
            with self.subTest(picks):
                self.assertEqual(luthkemb.step(INC, picks=picks, A=[4, 5], B=[0, 0]), after)

    def test_a_trace_tells_the_moves(self) -> None:
        found = luthkemb.step(TRACED, picks=PICKS, trace=True, A=[4, 5], B=[0, 0])
        self.assertEqual(found["B"], [5, 6])
        self.assertEqual(found.moves, tuple(Move(*it) for it in MOVES))
        self.assertEqual(str(found.moves[1]), "move 1 of 2")

    def test_without_a_trace_no_moves_are_told(self) -> None:
        self.assertEqual(luthkemb.step(TRACED, picks=PICKS, A=[4, 5], B=[0, 0]).moves, ())

    def test_picks_of_a_file(self) -> None:
        file = self.folder / "picks"
        file.write_text("0 1 1 0\n")
        for given in (file, str(file)):
            found = luthkemb.step(TRACED, picks=given, trace=True, A=[4, 5], B=[0, 0])
            self.assertEqual((found["B"], len(found.moves)), ([5, 6], 8))

    def test_picks_that_are_refused(self) -> None:
        for picks, word in (([0, -1], 2), ([2**64], 1), ([1, 2, 2**70, -1], 3)):
            with self.subTest(picks), self.assertRaises(luthkemb.PicksRefused) as found:
                luthkemb.step(INC, picks=picks, A=[1], B=[1])
            self.assertEqual((found.exception.status, found.exception.word), (5, word))
            self.assertEqual(found.exception.said(), f"picks refused at word {word}")
        with self.assertRaises(TypeError):
            luthkemb.step(INC, picks=["0"], A=[1], B=[1])

    def test_picks_of_a_file_that_is_not_there(self) -> None:
        name = str(self.folder / "none")
        with self.assertRaises(luthkemb.ReadFault) as found:
            luthkemb.step(INC, picks=name, A=[1], B=[1])
        self.assertEqual(found.exception.name, name)
        for name in ("-", "--trace", ""):
            with self.subTest(name), self.assertRaises(luthkemb.ReadFault) as found:
                luthkemb.step(INC, picks=name, A=[1], B=[1])
            self.assertEqual(found.exception.name, name)

    def test_turns_that_are_spent(self) -> None:
        text = INC + "# fake turns 2\n# fake moves move 0 of 1/move 1 of 2/move 0 of 2\n"
        with self.assertRaises(luthkemb.TurnsSpent) as found:
            luthkemb.step(text, picks=[0, 1, 0], turns=1, trace=True, A=[4, 5], B=[0, 0])
        self.assertEqual(found.exception.turns, 1)
        self.assertEqual(found.exception.moves, (Move(0, 1), Move(1, 2), Move(0, 2)))

    def test_a_fault_has_the_moves_before_it(self) -> None:
        with self.assertRaises(luthkemb.Fault) as found:
            luthkemb.step(FAULTY, picks=[1], trace=True, A=[0, 1])
        self.assertEqual((found.exception.kind, len(found.exception.moves)), ("division", 4))
        for again in (copy.copy(found.exception), pickle.loads(pickle.dumps(found.exception))):
            self.assertEqual(again.moves, found.exception.moves)

    def test_a_run_has_no_picks(self) -> None:
        with self.assertRaises(luthkemb.ArraysRefused) as found:
            luthkemb.run(INC, picks=[1], A=[1], B=[1])
        self.assertEqual((found.exception.number, found.exception.name), (18, "picks"))


class StepsOnTheProgram(Steps):
    program = TRUE


class AnswersThatAreNoRun(Calls):
    def test_they_are_told(self) -> None:
        for moves in ("move 0 of", "move x of 1", "0 of 1"):
            with self.subTest(moves), self.assertRaises(luthkemb.ProgramFailed) as failed:
                luthkemb.step(INC + f"# fake moves {moves}\n", trace=True, A=[1], B=[0])
            self.assertEqual(failed.exception.status, 0)


if __name__ == "__main__":
    unittest.main()
