"""The package as pip installs it."""
from __future__ import annotations

import contextlib
import hashlib
import importlib.util
import io
import lzma
import os
import shutil
import subprocess
import sys
import tempfile
import unittest
import zipfile
from pathlib import Path
from types import ModuleType
from unittest import mock

from support import FAKE, INC, TESTS, TOP, Calls

import luthkemb

HAS_PIP = importlib.util.find_spec("pip") is not None
PIP = (sys.executable, "-m", "pip", "--disable-pip-version-check", "install", "-q", "--no-index", "--target")


QUIET = {**os.environ, "PIP_ROOT_USER_ACTION": "ignore"}


def backend(folder: Path) -> ModuleType:
    """Gives the module that builds the package of a folder."""
    found = importlib.util.spec_from_file_location("build_backend", folder / "build_backend.py")
    module = importlib.util.module_from_spec(found)
    found.loader.exec_module(module)
    return module


class Wheels(unittest.TestCase):
    """What a wheel has, where the release is this or that."""

    DATA = b"a program"

    def setUp(self) -> None:
        folder = tempfile.TemporaryDirectory()
        self.addCleanup(folder.cleanup)
        self.top = Path(folder.name)
        shutil.copytree(TOP / "python", self.top / "python", ignore=shutil.ignore_patterns("tests", "__pycache__"))
        (self.top / "release").mkdir()
        (self.top / "release/sdfg.xz").write_bytes(lzma.compress(self.DATA))
        self.tell(hashlib.sha256(self.DATA).hexdigest())
        self.backend = backend(self.top / "python")

    def tell(self, digest: str) -> None:
        (self.top / "release/sources").write_text(f"{'0' * 64}\n{digest}\nkit\n")

    def built(self, system: str = "Linux", machine: str = "x86_64") -> tuple[zipfile.ZipFile, str]:
        """Gives a wheel and what its build said."""
        with mock.patch("platform.system", return_value=system), mock.patch("platform.machine", return_value=machine):
            with contextlib.redirect_stderr(io.StringIO()) as said:
                made = zipfile.ZipFile(self.top / self.backend.build_wheel(str(self.top)))
        self.addCleanup(made.close)
        return made, said.getvalue()

    def test_the_program_is_in_it(self) -> None:
        made, said = self.built()
        self.assertEqual((made.read("luthkemb/sdfg"), said), (self.DATA, ""))
        self.assertEqual(made.getinfo("luthkemb/sdfg").external_attr >> 16 & 0o777, 0o755)
        self.assertTrue(made.filename.endswith("-py3-none-linux_x86_64.whl"))
        self.assertIn("luthkemb/sdfg,sha256=", made.read(f"{self.backend.release()}.dist-info/RECORD").decode())

    def test_another_program_is_refused(self) -> None:
        self.tell("1" * 64)
        with self.assertRaisesRegex(RuntimeError, "does not hold the program"):
            self.built()

    def test_without_a_program_the_build_says_how_to_get_one(self) -> None:
        for given in (("Linux", "aarch64"), ("Darwin", "x86_64"), ()):
            if not given:
                (self.top / "release/sdfg.xz").unlink()
            made, said = self.built(*given)
            self.assertNotIn("luthkemb/sdfg", made.namelist())
            self.assertTrue(made.filename.endswith("-py3-none-any.whl"))
            self.assertIn("The repository's ./sdfg makes one, which needs the Rattle kit", said)


class Modules(unittest.TestCase):
    def test_each_module_of_tests_can_be_loaded_alone(self) -> None:
        environment = {name: it for name, it in os.environ.items() if name != "PYTHONPATH"}
        for file in sorted(TESTS.glob("test_*.py")):
            with self.subTest(file.name):
                words = [sys.executable, "-c", f"import {file.stem}"]
                ran = subprocess.run(words, cwd=TESTS, env=environment, capture_output=True, text=True)
                self.assertEqual((ran.returncode, ran.stderr), (0, ""))


@unittest.skipUnless(HAS_PIP, "pip is not there")
class Installations(Calls):
    def test_pip_needs_no_network_and_leaves_nothing_here(self) -> None:
        before = self.files()
        place = self.folder / "installed"
        ran = subprocess.run([*PIP, str(place), str(TOP / "python")], capture_output=True, env=QUIET)
        self.assertEqual((ran.returncode, ran.stderr), (0, b""))
        script = "import sys, luthkemb; print(luthkemb.__file__, luthkemb.run(sys.argv[1], A=[1], B=[0]))"
        environment = {**os.environ, "PYTHONPATH": str(place), "LUTHKEMB_SDFG": str(FAKE)}
        ran = subprocess.run(
            [sys.executable, "-c", script, INC], cwd=self.folder, env=environment, capture_output=True, text=True
        )
        file = place / "luthkemb/__init__.py"
        self.assertEqual((ran.stdout, ran.stderr), (f"{file} {{'A': [1], 'B': [2]}}\n", ""))
        self.assertEqual(self.files(), before)

    def test_an_installation_has_the_released_program(self) -> None:
        for given in (TOP / "python", self.source_distribution()):
            place = self.folder / f"installed-{given.name}"
            subprocess.run([*PIP, str(place), str(given)], capture_output=True, env=QUIET, check=True)
            digest = hashlib.sha256((place / "luthkemb/sdfg").read_bytes()).hexdigest()
            self.assertEqual(digest, (TOP / "release/sources").read_text().splitlines()[1])
            script = "import sys, luthkemb.programs as it; print(it.program(), luthkemb.run(sys.argv[1], A=[1], B=[0]))"
            environment = {**os.environ, "PYTHONPATH": str(place), "LUTHKEMB_SDFG": "", "PATH": ""}
            ran = subprocess.run(
                [sys.executable, "-c", f"import luthkemb; {script}", INC], cwd=self.folder, env=environment, capture_output=True, text=True
            )
            self.assertEqual((ran.stdout, ran.stderr), (f"{place}/luthkemb/sdfg {{'A': [1], 'B': [2]}}\n", ""))

    def source_distribution(self) -> Path:
        made = self.folder / "distributed"
        made.mkdir()
        return made / backend(TOP / "python").build_sdist(str(made))

    @staticmethod
    def files() -> list[Path]:
        return sorted(it for it in (TOP / "python").rglob("*") if "__pycache__" not in it.parts)

    def test_the_version_is_one(self) -> None:
        self.assertIn(f'\nversion = "{luthkemb.__version__}"\n', (TOP / "python/pyproject.toml").read_text())


if __name__ == "__main__":
    unittest.main()
