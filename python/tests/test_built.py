"""How the package tells that the program of a repository is that of its sources: as ./sdfg does."""
from __future__ import annotations

import os
import shutil
import subprocess
import tempfile
import unittest
from pathlib import Path
from unittest import mock

from support import TOP

from luthkemb import built

SOURCE = "crates/low/src/lib.rt"
FILES = ("crates/low/src/deep/er.rt", "crates/low/specs/Lib.antt", "crates/sdfg/src/main.rt", "HANDLES")


class Repositories(unittest.TestCase):
    """A small repository whose program ./sdfg has looked at."""

    def setUp(self) -> None:
        folder = tempfile.TemporaryDirectory()
        self.addCleanup(folder.cleanup)
        self.top = Path(folder.name)
        for name in (SOURCE, *FILES):
            self.write(name, f"text of {name}\n")
        self.write("crates.txt", "low: list\nsdfg: low\n")
        for name in ("sdfg", "tools/program.sh"):
            self.write(name, "")
            shutil.copy(TOP / name, self.top / name)
        # A command that only tells which kit there is.
        self.write("bin/rt", "#!/bin/sh\necho kit\n")
        (self.top / "bin/rt").chmod(0o755)
        self.write(built.PROGRAM, "#!/bin/sh\necho built\n")
        (self.top / built.PROGRAM).chmod(0o755)
        self.look()
        self.addCleanup(built._told.clear)

    def write(self, name: str, text: str) -> None:
        (self.top / name).parent.mkdir(parents=True, exist_ok=True)
        (self.top / name).write_text(text)

    def look(self) -> None:
        """Has ./sdfg look at the sources, and run the program."""
        environment = {**os.environ, "PATH": f"{self.top / 'bin'}:{os.environ['PATH']}"}
        ran = subprocess.run([self.top / "sdfg"], env=environment, capture_output=True, text=True, stdin=subprocess.DEVNULL)
        self.assertEqual((ran.stdout, ran.returncode), ("built\n", 0), ran.stderr)

    def found(self) -> str:
        built._told.clear()
        return built.built_program(self.top)

    def test_the_program_is_that_of_the_sources(self) -> None:
        self.assertEqual(self.found(), str(self.top / built.PROGRAM))

    def test_each_change_is_seen(self) -> None:
        for name in (SOURCE, *FILES, "crates.txt"):
            with self.subTest(name):
                path = self.top / name
                text, before = path.read_text(), path.stat()
                path.write_text(text.replace("t", "u", 1))
                os.utime(path, ns=(before.st_atime_ns, before.st_mtime_ns))
                self.assertEqual(self.found(), "")
                path.write_text(text)
                self.assertEqual(self.found(), "")
                self.look()
                self.assertEqual(self.found(), str(self.top / built.PROGRAM))

    def test_what_is_added_or_removed_is_seen(self) -> None:
        for change in (
            lambda: self.write("crates/low/src/deep/more.rt", ""),
            lambda: (self.top / FILES[0]).unlink(),
            lambda: (self.top / SOURCE).rename(self.top / "crates/low/src/other.rt"),
            lambda: shutil.rmtree(self.top / "crates/low/specs"),
        ):
            change()
            self.assertEqual(self.found(), "")

    def test_another_program_is_seen(self) -> None:
        program = self.top / built.PROGRAM
        program.write_text("#!/bin/sh\necho other\n")
        self.assertEqual(self.found(), "")
        program.unlink()
        self.assertEqual(self.found(), "")

    def test_without_the_list_it_is_not_known(self) -> None:
        (self.top / built.SEEN).write_text("")
        self.assertEqual(self.found(), "")
        (self.top / built.SEEN).unlink()
        self.assertEqual(self.found(), "")

    def test_it_is_looked_at_once_in_a_while(self) -> None:
        self.assertTrue(self.found())
        self.write(SOURCE, "edited\n")
        told = built._told[self.top]
        for seconds, is_known in ((built.SECONDS / 2, True), (built.SECONDS * 2, False), (built.SECONDS * 2, False)):
            with mock.patch.object(built.time, "monotonic", return_value=told + seconds):
                self.assertEqual(bool(built.built_program(self.top)), is_known)


if __name__ == "__main__":
    unittest.main()
