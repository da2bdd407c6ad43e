"""The rewrites that may be done on a graph, those that are done, and plans."""
from __future__ import annotations

import copy
import dataclasses
import unittest
from typing import Any

from support import TRUE, Calls, source

import luthkemb
from luthkemb import MapCollapse, MapExpansion, MapInterchange, MapTiling, Planned, dace

ROWS = source(
    "A: dace.int64[2, N], B: dace.int64[2, N]",
    "# fake matches MapCollapse 1.1/MapExpansion 2.1/MapInterchange 1.1/MapTiling 1.1 2/MapTiling 1.2 2/MapTiling 2.1 2 2",
    "for i in dace.map[0:2]:",
    "    for j in dace.map[0:N]:",
    "        B[i, j] = A[i, j]",
    "for i, j in dace.map[0:2, 0:N]:",
    "    A[i, j] = B[i, j]",
    symbols="N",
)
NONE = source("A: dace.int64[1]", "# fake matches", "A[0] = 1")


class Rewrites(Calls):
    def test_a_rewrite_prints_as_its_line(self) -> None:
        self.assertEqual([str(it) for it in (MapCollapse("1.1"), MapExpansion("2.0.0.1"))], ["MapCollapse 1.1", "MapExpansion 2.0.0.1"])
        self.assertEqual([str(it) for it in (MapInterchange("1.1"), MapTiling("1.1", 32))], ["MapInterchange 1.1", "MapTiling 1.1 32"])
        self.assertEqual(str(MapTiling("2.0.0.1", 2, 2**64 - 1, 0)), "MapTiling 2.0.0.1 2 18446744073709551615 0")

    def test_rewrites_are_values(self) -> None:
        self.assertEqual({MapCollapse("1.1"), MapCollapse("1.1"), MapExpansion("1.1")}, {MapExpansion("1.1"), MapCollapse("1.1")})
        self.assertEqual(len({MapTiling("1.1", 2), MapTiling("1.1", 2), MapTiling("1.1", 2, 2), MapTiling("1.2", 2)}), 3)
        self.assertNotEqual(MapInterchange("1.1"), MapCollapse("1.1"))
        self.assertEqual([repr(it) for it in (MapCollapse("1.1"), MapTiling("1.1", 2, 3))], ["MapCollapse(path='1.1')", "MapTiling('1.1', 2, 3)"])
        tiling = MapTiling("1.1", 2, 3)
        self.assertEqual((tiling.path, tiling.sizes, copy.deepcopy(tiling)), ("1.1", (2, 3), tiling))
        with self.assertRaises(dataclasses.FrozenInstanceError):
            tiling.sizes = (4,)  # type: ignore

    def test_what_is_no_path_is_told(self) -> None:
        for path in ("", "1.", ".1", "1..1", "a", " 1", "1 2", "-1", 1.1):
            with self.subTest(path=path), self.assertRaisesRegex(ValueError, "is no path"):
                MapCollapse(path)  # type: ignore
            with self.subTest(path=path), self.assertRaisesRegex(ValueError, "is no path"):
                MapTiling(path, 2)  # type: ignore

    def test_what_is_no_size_is_told(self) -> None:
        for size in (-1, 2**64):
            with self.subTest(size=size), self.assertRaisesRegex(ValueError, "is no size"):
                MapTiling("1.1", 2, size)
        for given in ("2", 2.0, None, (2, 2)):
            with self.subTest(given=given), self.assertRaises(TypeError):
                MapTiling("1.1", given)  # type: ignore
        with self.assertRaisesRegex(ValueError, "has a size for each parameter"):
            MapTiling("1.1")

    def test_the_matches_of_a_program(self) -> None:
        found = luthkemb.matches(ROWS, A=[[1], [2]], B=[[0], [0]])
        tilings = [MapTiling("1.1", 2), MapTiling("1.2", 2), MapTiling("2.1", 2, 2)]
        self.assertEqual(found, [MapCollapse("1.1"), MapExpansion("2.1"), MapInterchange("1.1"), *tilings])
        self.assertEqual(luthkemb.matches(NONE, A=[0]), [])

    def test_what_is_refused_is_raised(self) -> None:
        with self.assertRaises(luthkemb.ArraysRefused):
            luthkemb.matches(ROWS, A=[[1], [2]], B=[[0]])


class RewritesOfTheProgram(Rewrites):
    program = TRUE


PAIRS = source(
    "A: dace.int64[2, 2], B: dace.int64[2, 2]",
    "for i, j in dace.map[0:2, 0:2]:",
    "    B[i, j] = A[i, j] + 1",
    "# fake: B = [[it + 1 for it in row] for row in A]",
    "# fake matches MapExpansion 1.1/MapTiling 1.1 2 2",
    "# fake chained matches MapCollapse 1.1/MapInterchange 1.1/MapTiling 1.1 2/MapTiling 1.2 2",
    "# fake check scope 1.1: read A[0:2, 0:2]/scope 1.1: write B[0:2, 0:2]/accepted",
    "# fake plan scope 1.1: A shared/scope 1.1: B copied",
)
NODES = "node 0 access A/node 1 map i=0:2, j=0:2/node 2 in 1 tasklet line 5/node 3 exit 1/node 4 access B"
EDGES = "edge 0 1 A/edge 1 2 A[i, j] _in0/edge 2 3 B[i, j] _out/edge 3 4 B"
MORE_NODES = "node 0 access A/node 1 map i=0:2/node 2 in 1 map j=0:2/node 3 in 2 tasklet line 5/node 4 in 1 exit 2/node 5 exit 1/node 6 access B"
MORE_EDGES = "edge 0 1 A/edge 1 2 A/edge 2 3 A[i, j] _in0/edge 3 4 B[i, j] _out/edge 4 5 B/edge 5 6 B"
HEAD = "sdfg f/array A[2,2]/array B[2,2]/state 0/next 1/state 1"
DRAWN = f"{PAIRS}# fake graph {HEAD}/{NODES}/{EDGES}\n# fake chained graph {HEAD}/{MORE_NODES}/{MORE_EDGES}\n"
EXPANDED = [MapExpansion("1.1")]
# What may be done on the graph of these, and on the expanded one.
PLAIN = [MapExpansion("1.1"), MapTiling("1.1", 2, 2)]
BEHIND = [MapCollapse("1.1"), MapInterchange("1.1"), MapTiling("1.1", 2), MapTiling("1.2", 2)]
ONCE = source(
    "A: dace.int64[2]",
    "for i in dace.map[0:2]:",
    "    A[i] = A[i] + i",
    "# fake: A = [0, 1]",
    "# fake matches MapTiling 1.1 2",
    "# fake chained 5 chain refused at line 1 condition 2",
)
# A graph that is accepted once it is expanded.
FLAT = source(
    "A: dace.int64[4]",
    "for i, j in dace.map[0:2, 0:2]:",
    "    A[2*i + j] = i",
    "# fake 6 race at 1.0: write A by 1, write A by 1",
)
# One that is accepted until it is collapsed.
NESTED = source(
    "A: dace.int64[4]",
    "for i in dace.map[0:2]:",
    "    for j in dace.map[0:2]:",
    "        A[2*i + j] = i",
    "# fake: A = [0, 0, 1, 1]",
    "# fake chained 6 race at 1.0: write A by 1, write A by 1",
)
# One whose outer map has a race, and one that has a pool with a race.
COLUMNS = source("A: dace.int64[4]", "for i in dace.map[0:4]:", "    for j in dace.map[0:4]:", "        A[j] = i")
POOL = source(
    "A: dace.int64[4]",
    "S = dace.define_stream(dace.int64)",
    "for i in dace.map[0:2]:",
    "    for j in dace.map[0:2]:",
    "        A[0] += i + j",
    "@dace.consume(S, 4)",
    "def g(e):",
    "    a >> A[0]",
    "    a = e",
)


def given() -> dict[str, Any]:
    return {"A": [[1, 2], [3, 4]], "B": [[0, 0], [0, 0]]}


@dace.program
def pairs(A: dace.int64[2, 2], B: dace.int64[2, 2]):
    for i, j in dace.map[0:2, 0:2]:
        # fake: B = [[it + 1 for it in row] for row in A]
        # fake graph sdfg pairs/array A[2,2]/state 0
        # fake chained graph sdfg pairs/array A[2,2]/state 0/next 1/state 1
        # fake matches MapExpansion 1.1/MapTiling 1.1 2 2
        # fake chained matches MapCollapse 1.1/MapInterchange 1.1/MapTiling 1.1 2/MapTiling 1.2 2
        # fake check accepted
        # fake plan scope 1.1: A shared/scope 1.1: B copied
        B[i, j] = A[i, j] + 1


class Chains(Calls):
    def test_a_run_of_a_rewritten_graph_gives_what_a_run_gives(self) -> None:
        after = luthkemb.run(PAIRS, **given())
        tiled = [MapTiling("1.1", 2, 2), MapExpansion("1.2"), MapInterchange("1.2")]
        for chain in (EXPANDED, [*EXPANDED, MapCollapse("1.1")], (), (it for it in EXPANDED), tiled, [*EXPANDED, MapInterchange("1.1")]):
            self.assertEqual(luthkemb.run(PAIRS, chain=chain, **given()), after)
        for workers in (1, 2, 64):
            self.assertEqual(luthkemb.run(PAIRS, workers=workers, **given()), after)
            self.assertEqual(luthkemb.run(PAIRS, chain=EXPANDED, workers=workers, **given()), after)
        self.assertEqual(luthkemb.step(PAIRS, picks=[1, 2, 3], chain=EXPANDED, **given()), after)

    def test_a_call_may_have_a_chain_and_workers(self) -> None:
        A, B = given().values()
        pairs(A, B, chain=EXPANDED, workers=2)
        self.assertEqual((A, B), ([[1, 2], [3, 4]], [[2, 3], [4, 5]]))

    def test_the_matches_behind_a_chain(self) -> None:
        self.assertEqual(luthkemb.matches(PAIRS, **given()), PLAIN)
        self.assertEqual(luthkemb.matches(PAIRS, chain=EXPANDED, **given()), BEHIND)
        self.assertEqual(luthkemb.matches(PAIRS, chain=[], **given()), PLAIN)

    def test_the_graph_behind_a_chain_has_no_words_of_the_source(self) -> None:
        plain, found = luthkemb.graph(DRAWN, **given()), luthkemb.graph(DRAWN, chain=EXPANDED, **given())
        self.assertIn("node 1 map i=0:2, j=0:2\n", plain.text)
        self.assertIn("node 2 in 1 map j=0:2\n", found.text)
        self.assertIn("A[i, j] + 1", plain.mermaid())
        self.assertIsNone(found.source)
        self.assertNotIn("A[i, j] + 1", found.mermaid())

    def test_a_chain_of_a_file(self) -> None:
        file = self.folder / "chain"
        file.write_text("# by hand\nMapExpansion 1.1\n")
        for chain in (file, str(file)):
            self.assertEqual(luthkemb.matches(PAIRS, chain=chain, **given()), BEHIND)
        with self.assertRaises(luthkemb.ReadFault) as found:
            luthkemb.matches(PAIRS, chain="none", **given())
        self.assertEqual(found.exception.name, "none")
        file.write_bytes(b"#" * (2**16 + 1))
        with self.assertRaises(luthkemb.TooLong):
            luthkemb.run(PAIRS, chain=file, **given())

    def test_a_line_that_is_no_step(self) -> None:
        file = self.folder / "chain"
        file.write_text("MapExpansion 1.1\nTile 1.1\n")
        with self.assertRaises(luthkemb.ChainRefused) as found:
            luthkemb.run(PAIRS, chain=file, **given())
        self.assertEqual((found.exception.status, found.exception.line, found.exception.condition), (5, 2, None))
        self.assertIn("chain refused at line 2: the line is no step", found.exception.said())

    def test_a_step_that_cannot_be_done(self) -> None:
        for call in (luthkemb.run, luthkemb.step, luthkemb.graph, luthkemb.check, luthkemb.plan, luthkemb.matches):
            with self.subTest(call.__name__), self.assertRaises(luthkemb.ChainRefused) as found:
                call(ONCE, chain=EXPANDED, A=[0, 0])
            self.assertEqual((found.exception.line, found.exception.condition), (1, 2))
            self.assertIn("condition 2: to collapse or interchange: something else than one map", str(found.exception))

    def test_what_is_no_rewrite(self) -> None:
        for chain in (["MapExpansion 1.1"], [1], [MapExpansion]):
            with self.subTest(chain), self.assertRaisesRegex(TypeError, "is no rewrite"):
                luthkemb.run(PAIRS, chain=chain, **given())

    def test_workers_are_from_1_to_64(self) -> None:
        for workers in (0, 65, -1):
            with self.subTest(workers), self.assertRaises(luthkemb.BadWords):
                luthkemb.run(PAIRS, workers=workers, **given())
        with self.assertRaises(TypeError):
            luthkemb.run(PAIRS, workers="2", **given())
        with self.assertRaises(luthkemb.ArraysRefused) as found:
            luthkemb.step(PAIRS, workers=2, **given())
        self.assertEqual((found.exception.number, found.exception.name), (18, "workers"))

    def test_a_race_of_a_rewritten_graph_has_no_lines_of_the_source(self) -> None:
        with self.assertRaises(luthkemb.Race) as found:
            luthkemb.run(FLAT, A=[0] * 4)
        self.assertEqual(found.exception.lines, (4, 5, 5))
        with self.assertRaises(luthkemb.Race) as found:
            luthkemb.run(NESTED, chain=[MapCollapse("1.0")], A=[0] * 4)
        self.assertEqual((found.exception.scope, found.exception.lines), ("1.0", (None, None, None)))
        self.assertNotIn("A[2*i + j]", str(found.exception))
        self.assertEqual(luthkemb.run(NESTED, A=[0] * 4)["A"], [0, 0, 1, 1])


class ChainsOfTheProgram(Chains):
    program = TRUE

    def test_a_graph_that_is_accepted_once_it_is_expanded_is_run(self) -> None:
        self.assertEqual(luthkemb.run(FLAT, chain=[MapExpansion("1.0")], workers=2, A=[0] * 4)["A"], [0, 0, 1, 1])

    def test_a_size_of_a_tile_is_from_2_to_4096(self) -> None:
        for size in (0, 1, 4097, 2**64 - 1):
            with self.subTest(size=size), self.assertRaises(luthkemb.ChainRefused) as found:
                luthkemb.run(PAIRS, chain=[MapTiling("1.1", 2, size)], **given())
            self.assertEqual((found.exception.line, found.exception.condition), (1, 2))
        self.assertEqual(luthkemb.run(PAIRS, chain=[MapTiling("1.1", 2, 4096)], **given()), luthkemb.run(PAIRS, **given()))

    def test_what_the_race_check_would_refuse_is_not_done(self) -> None:
        for source_of, rewrite, condition in ((FLAT, MapTiling("1.0", 2, 2), 3), (COLUMNS, MapInterchange("1.0"), 4), (POOL, MapInterchange("1.0"), 8)):
            with self.subTest(rewrite), self.assertRaises(luthkemb.ChainRefused) as found:
                luthkemb.graph(source_of, chain=[rewrite], A=[0] * 4)
            self.assertEqual((found.exception.line, found.exception.condition), (1, condition))


class Plans(Calls):
    def test_a_plan_has_a_value_for_each_line(self) -> None:
        found = luthkemb.plan(PAIRS, **given())
        self.assertEqual(found, [Planned("1.1", "A", "shared"), Planned("1.1", "B", "copied")])
        self.assertEqual([str(it) for it in found], ["scope 1.1: A shared", "scope 1.1: B copied"])
        self.assertEqual(luthkemb.plan(PAIRS, chain=EXPANDED, **given()), found)

    def test_a_scope_that_is_one_piece_has_no_container(self) -> None:
        body = ("S = dace.define_stream(dace.int64)", "@dace.consume(S, 4)", "def g(e):", "    a >> A(1, lambda x, y: x + y)[0]", "    a = e")
        found = luthkemb.plan(source("A: dace.int64[1]", "# fake plan scope 1.1: board", *body), A=[0])
        self.assertEqual((found, str(found[0])), ([Planned("1.1", None, "board")], "scope 1.1: board"))

    def test_a_race_is_raised(self) -> None:
        with self.assertRaises(luthkemb.Race):
            luthkemb.plan(FLAT, A=[0] * 4)


class PlansOfTheProgram(Plans):
    program = TRUE


class GraphsThatAreRewritten(Calls):
    def test_apply_gives_another_graph_and_leaves_this_one(self) -> None:
        plain = pairs.to_sdfg()
        found = plain.apply(*EXPANDED)
        self.assertNotEqual(found.text, plain.text)
        self.assertEqual((plain.chain, found.chain), ((), tuple(EXPANDED)))
        self.assertEqual((plain.matches(), found.matches()), (PLAIN, BEHIND))
        self.assertEqual(found.apply(MapCollapse("1.1")).chain, (*EXPANDED, MapCollapse("1.1")))
        self.assertEqual(plain.apply().text, plain.text)
        self.assertEqual([it.kind for it in found.plan()], ["shared", "copied"])
        found.check()


class GraphsThatAreRewrittenOfTheProgram(GraphsThatAreRewritten):
    program = TRUE

    def test_a_chain_that_leads_back_gives_the_text_of_before(self) -> None:
        plain = pairs.to_sdfg()
        self.assertEqual(plain.apply(*EXPANDED).apply(MapCollapse("1.1")).text, plain.text)
        turned = plain.apply(*EXPANDED, MapInterchange("1.1"))
        self.assertIn("node 1 map j=0:2\nnode 2 in 1 map i=0:2\n", turned.text)
        self.assertEqual(turned.apply(MapInterchange("1.1")).text, plain.apply(*EXPANDED).text)

    def test_a_tiled_graph_is_read_and_drawn(self) -> None:
        found = pairs.to_sdfg().apply(MapTiling("1.1", 2, 3))
        self.assertIn("node 1 map i$1=0:2:2, j$1=0:2:3\nnode 2 in 1 map i=i$1:min(2,i$1+2), j=j$1:min(2,j$1+3)\n", found.text)
        self.assertIn("map i$1=0:2:2, j$1=0:2:3", found.dot().replace("\\n", " "))
        self.assertEqual(found.apply(*found.matches()[:1]).chain[0], MapTiling("1.1", 2, 3))

    def test_a_rewrite_that_cannot_be_done_is_raised(self) -> None:
        with self.assertRaises(luthkemb.ChainRefused) as found:
            pairs.to_sdfg().apply(*EXPANDED).apply(MapExpansion("1.1"))
        self.assertEqual((found.exception.line, found.exception.condition), (2, 2))


class Answers(Calls):
    def test_an_answer_that_is_no_plan_is_told(self) -> None:
        for answer in ("scope 1.1", "scope 1: A shared", "scope 1.1: A B shared", "scope 1.1: A other", "accepted"):
            with self.subTest(answer), self.assertRaises(luthkemb.ProgramFailed):
                luthkemb.plan(source("A: dace.int64[1]", f"# fake plan {answer}", "A[0] = 1"), A=[1])

    def test_an_answer_that_is_no_rewrite_is_told(self) -> None:
        for answer in ("MapCollapse", "MapCollapse a", "Other 1.1", "MapInterchange 1.1 2", "MapTiling 1.1", "MapTiling 1.1 x", "MapTiling 1.1 -2"):
            with self.subTest(answer), self.assertRaises(luthkemb.ProgramFailed):
                luthkemb.matches(source("A: dace.int64[1]", f"# fake matches {answer}", "A[0] = 1"), A=[1])


if __name__ == "__main__":
    unittest.main()
