"""What the tests of the package share: the programs that they call, and a folder that has to be empty behind each."""
from __future__ import annotations

import importlib.util
import os
import sys
import tempfile
import unittest
from pathlib import Path
from unittest import mock

TESTS = Path(__file__).resolve().parent
TOP = TESTS.parent.parent
FAKE = TESTS / "fake_sdfg.py"
TRUE = TOP / "crates/sdfg/out/sdfg"
HAS_NUMPY = importlib.util.find_spec("numpy") is not None
sys.path.insert(0, str(TOP / "python"))


class Calls(unittest.TestCase):
    """Tests that call `program`, whose temporary folders all have to be gone in the end."""

    program = FAKE

    def setUp(self) -> None:
        if not self.program.is_file():
            self.skipTest("the program is not built")
        folder = tempfile.TemporaryDirectory()
        self.addCleanup(folder.cleanup)
        self.folder = Path(folder.name)
        made = self.folder / "made"
        made.mkdir()
        for patch in (
            mock.patch.dict(os.environ, LUTHKEMB_SDFG=str(self.started())),
            mock.patch.object(tempfile, "tempdir", str(made)),
        ):
            patch.start()
            self.addCleanup(patch.stop)
        self.addCleanup(lambda: self.assertEqual(list(made.iterdir()), []))

    def started(self) -> Path:
        """Gives the program; what stands for it is started by the Python of the tests, without its libraries."""
        if self.program != FAKE or " " in sys.executable:
            return self.program
        program = self.folder / "sdfg"
        program.write_text(FAKE.read_text().replace("#!/usr/bin/env python3", f"#!{sys.executable} -S", 1))
        program.chmod(0o755)
        return program


def source(arguments: str, *body: str, symbols: str = "") -> str:
    """Gives a source with one program, `f`, and these size symbols."""
    lines = ["import dace", *(f"{it} = dace.symbol('{it}')" for it in symbols.split())]
    lines += ["@dace.program", f"def f({arguments}):", *(f"    {it}" for it in body)]
    return "\n".join(lines) + "\n"


def copying(dimensions: int) -> str:
    """Gives a source that copies an array of so many dimensions."""
    names = [f"N{it}" for it in range(dimensions)]
    array = f"dace.int64[{', '.join(names)}]"
    whole = f"[{', '.join(':' * dimensions)}]"
    return source(
        f"A: {array}, B: {array}", f"B{whole} = A{whole}", "# fake: B = A", symbols=" ".join(names)
    )


INC = source(
    "A: dace.int64[N], B: dace.int64[N]",
    "for i in dace.map[0:N]:",
    "    B[i] = A[i] + 1",
    "# fake: B = [it + 1 for it in A]",
    symbols="N",
)
