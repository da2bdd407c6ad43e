"""Calls that give the graph of a program."""
from __future__ import annotations

import os
import unittest
from pathlib import Path
from unittest import mock

from support import INC, TRUE, Calls

import luthkemb
from luthkemb.sources import source_of

GRAPH = """sdfg f
array A[2]
array B[2]
state 0
next 1
state 1
node 0 access A
node 1 map i=0:2
node 2 in 1 tasklet line 6
node 3 exit 1
node 4 access B
edge 0 1 A
edge 1 2 A[i] _in0
edge 2 3 B[i] _out
edge 3 4 B
"""
SOURCE = INC + "# fake graph " + GRAPH.strip().replace("\n", "/") + "\n"


class Graphs(Calls):
    def graph(self) -> luthkemb.Picture:
        return luthkemb.graph(SOURCE, A=[1, 2], B=[0, 0])

    def test_a_graph_is_its_text(self) -> None:
        self.assertEqual((str(self.graph()), self.graph().text), (GRAPH, GRAPH))

    def test_a_graph_has_its_parts(self) -> None:
        self.assertEqual([it.what for it in self.graph().graph.states[1].nodes], ["access", "map", "tasklet", "exit", "access"])

    def test_a_picture_has_the_words_of_the_source(self) -> None:
        found = self.graph()
        self.assertIn("B[i] = A[i] + 1", found.mermaid())
        self.assertIn("B[i] = A[i] + 1", found.dot())
        found.empty = False
        self.assertNotIn("state 0", found.mermaid())
        for other in (b"another source", INC.replace("+ 1", "+ 2").replace("for i", "\n    for i").encode(), None):
            found.source = other
            self.assertIn("tasklet", found.mermaid())
        self.assertIn("B[i] = A[i] + 1", luthkemb.SDFG(GRAPH, source_of(INC), {}).mermaid())

    def test_what_is_refused_is_raised(self) -> None:
        with self.assertRaises(luthkemb.ArraysRefused) as refused:
            luthkemb.graph(SOURCE, A=[1, 2], B=[0])
        self.assertEqual((refused.exception.number, refused.exception.name), (19, "B"))

    def test_turns_are_no_option_of_it(self) -> None:
        with self.assertRaises(luthkemb.ArraysRefused) as refused:
            luthkemb.graph(SOURCE, A=[1, 2], B=[0, 0], turns=5)
        self.assertEqual((refused.exception.number, refused.exception.name), (18, "turns"))

    def test_a_notebook_draws_it_where_graphviz_is(self) -> None:
        found = self.graph()
        place = self.folder / "path"
        place.mkdir()
        with mock.patch.dict(os.environ, PATH=str(place)):
            self.assertIsNone(found._repr_svg_())
            drawing(place / "dot")
            self.assertEqual(found._repr_svg_(), "<svg>digraph {</svg>")


def drawing(program: Path) -> None:
    """Makes a program that stands for Graphviz: its picture shows the first line that it is given."""
    program.write_text('#!/bin/sh\nread -r line\nprintf "<svg>%s</svg>" "$line"\n')
    program.chmod(0o755)


class GraphsOnTheProgram(Graphs):
    program = TRUE


class AnswersThatAreNoGraph(Calls):
    def test_they_are_told(self) -> None:
        with self.assertRaises(luthkemb.ProgramFailed) as failed:
            luthkemb.graph(INC + "# fake graph nothing\n", A=[1], B=[0])
        self.assertEqual((failed.exception.status, failed.exception.output), (0, "nothing\n"))


if __name__ == "__main__":
    unittest.main()
