"""The race check of a program."""
from __future__ import annotations

import copy
import pickle
import unittest

from support import INC, TRUE, Calls, source

import luthkemb
from luthkemb import Access, ScopeAccess
from luthkemb.explanations import STATUSES

CHECKED = INC + "# fake check scope 1.1: read A[0:2]/scope 1.1: write B[0:2]/accepted\n"
RACE = source(
    "A: dace.int64[N]",
    "# fake 6 race at 1.1: read A by 2, write A by 2",
    "for i in dace.map[0:N-1]:",
    "    A[i] = A[i+1]",
    symbols="N",
)
COUNT = source(
    "A: dace.int64[2, N], C: dace.int64[1]",
    "# fake check scope 1.1: read A[0:2, 0:3]/scope 1.1: push S/scope 2.1: sum C[0:1]/accepted",
    "S = dace.define_stream(dace.int64, 1)",
    "for i, j in dace.map[0:2, 0:N]:",
    "    with dace.tasklet:",
    "        a << A[i, j]",
    "        s >> S(-1)",
    "        s = a",
    "@dace.consume(S, 1)",
    "def each(e, p):",
    "    c >> C(-1, lambda x, y: x + y)[0]",
    "    c = e",
    symbols="N",
)


class Checks(Calls):
    def race(self, call: str) -> luthkemb.Race:
        with self.assertRaises(luthkemb.Race) as found:
            getattr(luthkemb, call)(RACE, A=[1, 2, 3])
        return found.exception

    def test_an_accepted_program_tells_its_accesses(self) -> None:
        found = luthkemb.check(CHECKED, A=[1, 2], B=[0, 0])
        self.assertEqual(found, [ScopeAccess("1.1", "read", "A", ("0:2",)), ScopeAccess("1.1", "write", "B", ("0:2",))])
        self.assertEqual([str(it) for it in found], ["scope 1.1: read A[0:2]", "scope 1.1: write B[0:2]"])

    def test_several_dimensions_and_streams(self) -> None:
        found = luthkemb.check(COUNT, A=[[1, 2, 3], [4, 5, 6]], C=[0])
        self.assertEqual([it.ranges for it in found], [("0:2", "0:3"), (), ("0:1",)])
        self.assertEqual([str(it) for it in found][1:], ["scope 1.1: push S", "scope 2.1: sum C[0:1]"])

    def test_a_race_is_raised_with_its_pair(self) -> None:
        for call in ("check", "run"):
            with self.subTest(call):
                found = self.race(call)
                self.assertEqual((found.status, found.scope), (6, "1.1"))
                self.assertEqual((found.first, found.second), (Access("read", "A", 2), Access("write", "A", 2)))
                self.assertEqual(found.said(), "race at 1.1: read A by 2, write A by 2")
                self.assertEqual(str(found).splitlines()[:3], [found.said(), STATUSES[6], f"The scope at line {found.lines[0]}:"])
                written = [RACE.splitlines()[it - 1].strip() for it in found.lines if it is not None]
                self.assertEqual((written[0][:3], written[1:]), ("for", [written[1]] * 2))
                self.assertIn(f"read A, write A at line {found.lines[1]}:", found.explanation)

    def test_a_race_can_be_copied_and_sent(self) -> None:
        found = self.race("check")
        for again in (copy.copy(found), pickle.loads(pickle.dumps(found))):
            self.assertEqual((type(again), str(again), again.first), (type(found), str(found), found.first))

    def test_turns_are_no_option_of_it(self) -> None:
        with self.assertRaises(luthkemb.ArraysRefused) as refused:
            luthkemb.check(CHECKED, A=[1, 2], B=[0, 0], turns=5)
        self.assertEqual((refused.exception.number, refused.exception.name), (18, "turns"))


class ChecksOnTheProgram(Checks):
    program = TRUE


class AnswersThatAreNoCheck(Calls):
    def test_they_are_told(self) -> None:
        for answer in ("nothing", "scope 1.1: read A[0:2]", "scope: read A/accepted", "accepted/accepted"):
            with self.subTest(answer), self.assertRaises(luthkemb.ProgramFailed) as failed:
                luthkemb.check(INC + f"# fake check {answer}\n", A=[1], B=[0])
            self.assertEqual(failed.exception.status, 0)

    def test_races_without_a_pair_are_told(self) -> None:
        for answer in ("race at 1.1", "race at x: read A by 2, write A by 2", "race at 1.1: read A by 2"):
            with self.subTest(answer), self.assertRaises(luthkemb.ProgramFailed) as failed:
                luthkemb.check(source("A: dace.int64[1]", f"# fake 6 {answer}", "A[0] = 1"), A=[1])
            self.assertEqual(failed.exception.status, 6)


if __name__ == "__main__":
    unittest.main()
