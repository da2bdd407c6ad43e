#!/usr/bin/env python3
"""Tests of what draw_rewrites.py says of a page and of pictures that are not those of the examples."""
from __future__ import annotations

import io
import shutil
import sys
import tempfile
import unittest
from contextlib import redirect_stdout
from pathlib import Path
from unittest import mock

sys.path.insert(0, str(Path(__file__).resolve().parent))

import draw_rewrites  # noqa: E402


class ThePageOfRewrites(unittest.TestCase):
    def setUp(self) -> None:
        folder = tempfile.TemporaryDirectory()
        self.addCleanup(folder.cleanup)
        self.page, self.pictures = Path(folder.name) / "page.md", Path(folder.name) / "pictures"
        shutil.copy(draw_rewrites.PAGE, self.page)
        shutil.copytree(draw_rewrites.PICTURES, self.pictures)
        for patch in (mock.patch.object(draw_rewrites, "PAGE", self.page), mock.patch.object(draw_rewrites, "PICTURES", self.pictures)):
            patch.start()
            self.addCleanup(patch.stop)

    def said(self) -> tuple[int, list[str]]:
        with redirect_stdout(io.StringIO()) as said:
            status = draw_rewrites.check()
        return status, said.getvalue().splitlines()

    def test_it_is_as_it_would_be_written(self) -> None:
        self.assertEqual(self.said(), (0, ["11 passed, 0 failed"]))

    def test_another_text_is_told_and_written_anew(self) -> None:
        text = self.page.read_text()
        self.page.write_text(text.replace("node 3 in 2 map j=0:2, k=0:3", "node 3 in 2 map k=0:3, j=0:2"))
        status, lines = self.said()
        self.assertEqual((status, lines[-1]), (1, "9 passed, 2 failed"))
        told = [line.partition(" part of ")[2].partition(":")[0] for line in lines[:-1]]
        self.assertEqual(told, ["MapExpansion 1.2", "MapInterchange 1.2"])
        self.assertEqual(draw_rewrites.with_parts(self.page.read_text()), text)

    def test_a_part_that_is_missing_or_stands_twice_is_told(self) -> None:
        text, part = self.page.read_text(), draw_rewrites.part_of("MapCollapse 1.2")
        for page in (text.replace(part, ""), text + part):
            self.page.write_text(page)
            self.assertIn("another part of MapCollapse 1.2", self.said()[1][0])

    def test_a_picture_of_another_graph_and_one_of_none_are_told(self) -> None:
        shutil.copy(self.pictures / "graph.svg", self.pictures / "once_graph.svg")
        shutil.copy(self.pictures / "graph.svg", self.pictures / "other.svg")
        (self.pictures / "plain_graph.svg").unlink()
        status, lines = self.said()
        self.assertEqual((status, lines[-1]), (1, "8 passed, 3 failed"))
        self.assertEqual([line.split()[0] for line in lines[:-1]], [f"docs/rewrites/{it}.svg" for it in ("once_graph", "plain_graph", "other")])


if __name__ == "__main__":
    unittest.main()
