#!/usr/bin/env python3
"""Tests of the programs of the gallery: what their examples want, and what they print for arrays that are drawn, is what plain
loops over lists come to (gallery_answers.py), and what NumPy comes to where it is there. What draw_gallery.py says of a page and of
pictures that are not those of the programs."""
from __future__ import annotations

import copy
import io
import json
import random
import shutil
import subprocess
import tempfile
import unittest
from contextlib import redirect_stdout
from pathlib import Path
from unittest import mock

import draw_gallery
from gallery_answers import BY_NUMPY, NAMES, ONE, PLAIN, numpy, wrapped

TOP = Path(__file__).resolve().parent.parent
PROGRAM = TOP / "crates/sdfg/out/sdfg"
SOURCES = {it.stem: it for it in (TOP / "examples").glob("*/*.py")}
ROUNDS = 4


def drawn(draw, *extents, least=-(2**63), end=2**63):
    """Returns an array with these extents of numbers from `least` on and below `end`."""
    if not extents:
        return draw.randrange(least, end)
    return [drawn(draw, *extents[1:], least=least, end=end) for _ in range(extents[0])]


def small(draw, *extents):
    return drawn(draw, *extents, least=-1000, end=1000)


def gemm(draw, n, m):
    sizes = {"NI": n, "NJ": m, "NK": n + m}
    arrays = {"C": drawn(draw, n, m), "A": drawn(draw, n, n + m), "B": drawn(draw, n + m, m)}
    return {**sizes, "alpha": drawn(draw, 1), "beta": drawn(draw, 1), **arrays}


def stencil(dimensions):
    def given(draw, n, m):
        return {"N": n, "T": m, "A": small(draw, *[n] * dimensions), "B": small(draw, *[n] * dimensions)}

    return given


def atax(draw, n, m):
    return {"M": n, "N": m, "A": drawn(draw, n, m), "x": drawn(draw, m), "y": drawn(draw, m)}


def bicg(draw, n, m):
    return {"N": n, "M": m, "A": drawn(draw, n, m), "s": drawn(draw, m), "q": drawn(draw, n), "p": drawn(draw, m), "r": drawn(draw, n)}


def mvt(draw, n, m):
    return {"N": n, **{it: drawn(draw, n) for it in ("x1", "x2", "y1", "y2")}, "A": drawn(draw, n, n)}


def doitgen(draw, n, m):
    return {"NR": n, "NQ": m, "NP": n + 1, "A": drawn(draw, n, m, n + 1), "C4": drawn(draw, n + 1, n + 1)}


def histogram(draw, n, m):
    return {"N": n, "K": m, "A": drawn(draw, n, least=0, end=m), "H": small(draw, m)}


def fib(draw, n, m):
    return {"n": [n + m], "res": small(draw, 1)}


def mandelbrot(draw, n, m):
    places = {"X": drawn(draw, m, least=-2 * ONE, end=ONE), "Y": drawn(draw, n, least=-ONE, end=ONE)}
    return {"H": n, "W": m, **places, "limit": [n * m], "steps": small(draw, n, m)}


def life(draw, n, m):
    return {"N": n, "M": m, "T": n, "A": drawn(draw, n + 2, m + 2, least=0, end=2)}


def nussinov(draw, n, m):
    return {"N": n * m, "seq": drawn(draw, n * m, least=0, end=4), "table": [[0] * (n * m) for _ in range(n * m)]}


def floyd_warshall(draw, n, m):
    return {"N": n, "path": [[0 if i == j else draw.randrange(1, 100) for j in range(n)] for i in range(n)]}


def durbin(draw, n, m):
    return {"N": n + m, "r": [2 * it for it in drawn(draw, n + m, least=-(2**62), end=2**62)], "y": drawn(draw, n + m)}


DRAWN = dict(zip(NAMES, (gemm, stencil(1), stencil(2), stencil(3), atax, bicg, mvt, doitgen, histogram, fib, mandelbrot, life)))
DRAWN.update({it.__name__: it for it in (nussinov, floyd_warshall, durbin)})


def extents(array):
    return [len(array), *extents(array[0])] if isinstance(array, list) else []


def elements(array):
    return [leaf for it in array for leaf in elements(it)] if isinstance(array, list) else [array]


def printed(given):
    """Returns what sdfg prints for arrays without an extent of 0."""
    arrays = {name: wrapped(it) for name, it in given.items() if isinstance(it, list)}
    heads = {name: f"{name}[{','.join(map(str, extents(it)))}] = " for name, it in arrays.items()}
    return "".join(f"{heads[name]}{' '.join(map(str, elements(it)))}\n" for name, it in arrays.items())


def by_plain_loops(name, given):
    """Returns what sdfg is to print for a program and its arrays file."""
    given = copy.deepcopy(given)
    PLAIN[name](**given)
    return printed(given)


def by_numpy(name, given):
    arrays = {it: numpy.array(value, dtype=numpy.int64) if isinstance(value, list) else value for it, value in given.items()}
    with numpy.errstate(over="ignore"):
        BY_NUMPY[name](**arrays)
    return printed({it: value.tolist() if isinstance(given[it], list) else value for it, value in arrays.items()})


def examples():
    """Yields of each example of the gallery that is done its place, the program's name, the arrays and what it wants."""
    for name in NAMES:
        folder = SOURCES[name].parent
        for words in sorted(folder.glob("*.words")):
            command, source, arrays = words.read_text().split()[:3]
            if (command, source) == ("run", f"{name}.py") and not words.with_suffix(".status").exists():
                wanted = words.with_suffix(".expected").read_text()
                yield f"examples/{folder.name}/{words.stem}", name, json.loads((folder / arrays).read_text()), wanted


def run(name, given):
    """Returns what sdfg prints for a program and its arrays."""
    with tempfile.NamedTemporaryFile("w", suffix=".json") as file:
        json.dump(given, file)
        file.flush()
        ran = subprocess.run([PROGRAM, "run", SOURCES[name], file.name], capture_output=True, text=True, timeout=60)
    return ran.stdout if (ran.returncode, ran.stderr) == (0, "") else f"status {ran.returncode}, {ran.stderr}"


def drawn_runs():
    """Yields of each program and some arrays that are drawn a place, the name, the arrays and what sdfg prints for them."""
    subprocess.run([TOP / "sdfg"], stdout=subprocess.DEVNULL, check=False)
    for name in NAMES:
        for size in range(1, ROUNDS + 1):
            draw = random.Random(f"{name} {size}")
            given = DRAWN[name](draw, size, draw.randrange(1, 6))
            yield f"{name} of size {size}", name, given, run(name, given)


class Gallery(unittest.TestCase):
    """Each test goes through all programs of the gallery."""

    maxDiff = None

    @classmethod
    def setUpClass(cls):
        cls.examples, cls.drawn = list(examples()), list(drawn_runs())

    def compare(self, cases, answer):
        for place, name, given, text in cases:
            with self.subTest(place):
                self.assertEqual(text, answer(name, given))

    def test_each_program_has_an_example(self):
        self.assertEqual(sorted({name for _, name, *_ in self.examples}), sorted(NAMES))

    def test_examples_want_what_plain_loops_come_to(self):
        self.compare(self.examples, by_plain_loops)

    def test_drawn_arrays_become_what_plain_loops_come_to(self):
        self.compare(self.drawn, by_plain_loops)

    @unittest.skipIf(numpy is None, "NumPy is not there")
    def test_examples_want_what_numpy_comes_to(self):
        self.compare(self.examples, by_numpy)

    @unittest.skipIf(numpy is None, "NumPy is not there")
    def test_drawn_arrays_become_what_numpy_comes_to(self):
        self.compare(self.drawn, by_numpy)


class ThePage(unittest.TestCase):
    """The page and the pictures, in a copy."""

    def setUp(self):
        folder = tempfile.TemporaryDirectory()
        self.addCleanup(folder.cleanup)
        self.page, self.pictures = Path(folder.name) / "page.md", Path(folder.name) / "pictures"
        shutil.copy(draw_gallery.PAGE, self.page)
        shutil.copytree(draw_gallery.PICTURES, self.pictures)
        for name, value in (("PAGE", self.page), ("PICTURES", self.pictures)):
            patch = mock.patch.object(draw_gallery, name, value)
            patch.start()
            self.addCleanup(patch.stop)

    def said(self):
        """Returns what the check prints, where its status is that of its counts."""
        with redirect_stdout(io.StringIO()) as output:
            status = draw_gallery.check()
        *lines, counts = output.getvalue().splitlines()
        self.assertEqual(status, 0 if counts.endswith(", 0 failed") else 1)
        return lines, counts

    def test_those_that_are_there_are_as_they_would_be_written(self):
        self.assertEqual(self.said(), ([], f"{len(NAMES) + 1} passed, 0 failed"))

    def test_another_page_is_told(self):
        self.page.write_text(self.page.read_text().replace("Fifteen", "Some"))
        lines, counts = self.said()
        self.assertEqual(counts, f"{len(NAMES)} passed, 1 failed")
        self.assertIn("docs/GALLERY.md", lines[0])

    def test_pictures_of_other_graphs_are_told(self):
        one, other, gone, *_ = sorted(self.pictures.iterdir())
        shutil.copy(one, other)
        gone.unlink()
        lines, counts = self.said()
        self.assertEqual(counts, f"{len(NAMES) - 1} passed, 2 failed")
        self.assertEqual({other.name, gone.name}, {it.split()[0].rpartition("/")[2] for it in lines})

    def test_a_picture_of_no_program_is_told(self):
        (self.pictures / "other.svg").touch()
        self.assertEqual(self.said(), (["docs/gallery/other.svg is of no program of the gallery"], f"{len(NAMES) + 1} passed, 1 failed"))


if __name__ == "__main__":
    unittest.main()
