"""Where the program is found, how it is ended, and how a command becomes a call."""
from __future__ import annotations

import os
import shutil
import signal
import subprocess
import sys
import time
import unittest
from pathlib import Path
from typing import Callable
from unittest import mock

from support import FAKE, INC, TOP, TRUE, Calls, source

import luthkemb
from luthkemb import programs
from luthkemb.commands import COMMANDS, Command, Option, call_of, number

SECONDS = 60.0


class Places(Calls):
    def copied(self, *folders: str) -> Path:
        """Gives a copy of the program at a place in the folder."""
        place = self.folder.joinpath(*folders, "sdfg")
        place.parent.mkdir(parents=True, exist_ok=True)
        return Path(shutil.copy(FAKE, place))

    def go_to(self, place: Path) -> None:
        self.addCleanup(os.chdir, Path.cwd())
        os.chdir(place)

    def elsewhere(self, **variables: str) -> None:
        """Goes on outside of all repositories, with the package seen as standing there, and these variables."""
        place = self.folder / "elsewhere"
        place.mkdir()
        self.go_to(place)
        environment = {"LUTHKEMB_SDFG": "", "PATH": "", **variables}
        for patch in (
            mock.patch.dict(os.environ, environment),
            mock.patch.object(programs, "__file__", str(place / "programs.py")),
        ):
            patch.start()
            self.addCleanup(patch.stop)

    def repository(self, name: str) -> Path:
        program = self.copied(name)
        (program.parent / "crates").mkdir()
        (program.parent / "crates.txt").touch()
        return program

    def test_the_variable_goes_first(self) -> None:
        program = self.copied("first")
        self.repository("elsewhere/repository")
        self.go_to(self.folder)
        with mock.patch.dict(os.environ, LUTHKEMB_SDFG="first/sdfg"):
            self.assertEqual(programs.program(), str(program))

    def test_a_variable_that_names_no_program(self) -> None:
        (self.folder / "text").touch()
        for named in ("none/sdfg", str(self.folder), str(self.folder / "text")):
            with self.subTest(named), mock.patch.dict(os.environ, LUTHKEMB_SDFG=named):
                with self.assertRaisesRegex(luthkemb.ProgramNotFound, "LUTHKEMB_SDFG"):
                    luthkemb.run(INC, A=[1], B=[1])

    def test_the_repository_of_the_package(self) -> None:
        with mock.patch.dict(os.environ, LUTHKEMB_SDFG="", PATH=""):
            for built in ("", "/built"):
                with mock.patch.object(programs, "built_program", return_value=built) as asked:
                    self.assertEqual(programs.program(), built or str(TOP / "sdfg"))
                asked.assert_called_once_with(TOP)

    def test_the_repository_of_the_package_goes_before_that_of_the_working_folder(self) -> None:
        self.go_to(self.repository("repository").parent)
        with mock.patch.dict(os.environ, LUTHKEMB_SDFG="", PATH=""):
            self.assertEqual(Path(programs.program()).relative_to(TOP).name, "sdfg")

    def test_the_packed_program_goes_before_the_path(self) -> None:
        self.elsewhere(PATH=str(self.copied("path").parent))
        packed = Path(shutil.copy(self.started(), self.folder / "elsewhere/sdfg"))
        self.assertEqual(programs.program(), str(packed))
        packed.write_text("#!/bin/sh\necho too old >&2\nexit 1\n")
        os.utime(packed, ns=(0, 0))
        with self.assertRaisesRegex(luthkemb.ProgramNotFound, "does not start on this machine: too old. Set LUTHKEMB_SDFG"):
            programs.program()

    def test_a_repository_is_only_the_folder_that_the_package_stands_in(self) -> None:
        top = self.repository("above").parent
        below = top / "environment/site-packages/luthkemb"
        below.mkdir(parents=True)
        self.elsewhere()
        with mock.patch.object(programs, "__file__", str(below / "programs.py")):
            with self.assertRaises(luthkemb.ProgramNotFound):
                programs.program()
            beside = top / "python/luthkemb"
            beside.mkdir(parents=True)
        # One that is packed there is not asked.
        shutil.copy(self.started(), beside / "sdfg")
        with mock.patch.object(programs, "__file__", str(beside / "programs.py")):
            self.assertEqual(programs.program(), str(top / "sdfg"))

    def test_the_path_goes_before_the_working_folder(self) -> None:
        self.copied("elsewhere_without_crates")
        self.elsewhere(PATH=str(self.copied("path").parent))
        self.go_to(self.repository("repository").parent)
        self.assertEqual(programs.program(), str(self.folder / "path/sdfg"))

    def test_the_repository_of_the_working_folder_comes_last(self) -> None:
        self.elsewhere()
        program = self.repository("repository")
        self.go_to(program.parent)
        self.assertEqual(programs.program(), str(program))

    def test_the_parents_of_the_working_folder_are_not_searched(self) -> None:
        program = self.repository("repository")
        below = program.parent / "below/it"
        below.mkdir(parents=True)
        self.elsewhere()
        for folder in (below, below.parent):
            self.go_to(folder)
            with self.assertRaises(luthkemb.ProgramNotFound):
                programs.program()

    def test_a_working_folder_that_is_gone(self) -> None:
        gone = self.folder / "gone"
        gone.mkdir()
        self.go_to(gone)
        gone.rmdir()
        self.assertEqual(luthkemb.run(INC, A=[1], B=[1])["B"], [2])
        with self.assertRaises(luthkemb.ReadFault) as fault:
            luthkemb.run("inc.py", A=[1], B=[1])
        self.assertEqual(fault.exception.name, "inc.py")
        with mock.patch.dict(os.environ, LUTHKEMB_SDFG="sdfg"), self.assertRaises(luthkemb.ProgramNotFound):
            luthkemb.run(INC, A=[1], B=[1])
        environment = {"LUTHKEMB_SDFG": "", "PATH": ""}
        with mock.patch.dict(os.environ, environment), mock.patch.object(programs, "__file__", str(gone / "programs.py")):
            with self.assertRaises(luthkemb.ProgramNotFound):
                luthkemb.run(INC, A=[1], B=[1])

    def test_no_program(self) -> None:
        self.elsewhere()
        with self.assertRaisesRegex(luthkemb.ProgramNotFound, "set LUTHKEMB_SDFG .* `pip install ./python`"):
            luthkemb.run(INC, A=[1], B=[1])


class Children(Calls):
    """What a child is given."""

    def test_standard_input_is_not_its(self) -> None:
        reader = self.folder / "reader"
        reader.write_text('#!/bin/sh\necho "A[1] = $(wc -c)"\n')
        reader.chmod(0o755)
        script = "import sys, luthkemb; print(luthkemb.run(sys.argv[1], A=[7]), sys.stdin.read())"
        ran = subprocess.run(
            [sys.executable, "-c", script, source("A: dace.int64[1]", "A[0] = 1")],
            cwd=TOP / "python",
            env={**os.environ, "LUTHKEMB_SDFG": str(reader)},
            input="told",
            capture_output=True,
            text=True,
        )
        self.assertEqual((ran.stdout, ran.stderr), ("{'A': [0]} told\n", ""))

    def test_its_name_is_plain(self) -> None:
        program = Path(os.fsdecode(os.fsencode(self.folder) + b"/\xff"))
        program.mkdir()
        with mock.patch.dict(os.environ, LUTHKEMB_SDFG=str(Path(shutil.copy(self.started(), program / "sdfg")))):
            self.assertEqual(luthkemb.run(INC, A=[1], B=[1])["B"], [2])

    def test_the_program_is_told_to_explain_nothing(self) -> None:
        program = self.folder / "asked"
        program.write_text("#!/bin/sh\n[ $SDFG_EXPLAINS = no ] && echo 'A[1] = 2'\n")
        program.chmod(0o755)
        with mock.patch.dict(os.environ, LUTHKEMB_SDFG=str(program), SDFG_EXPLAINS="yes"):
            self.assertEqual(luthkemb.run(INC, A=[1]), {"A": [2]})


class ChildrenOnTheProgram(Children):
    program = TRUE


class Interruptions(Calls):
    """A run that is interrupted ends its child, one that does not listen too."""

    CALLER = (
        "import sys, tempfile, luthkemb.programs as it; it.SECONDS_TO_END = float(sys.argv[1])\n"
        "with tempfile.TemporaryFile() as output: it.ended(sys.argv[2:], output)"
    )
    # What waits does so while the folder of the test is there: so nothing is left of a test that fails.
    WAITING = "while Path({!r}).exists(): time.sleep(0.05)"

    def setUp(self) -> None:
        """Has interruptions come, which a shell keeps from what it runs in the background."""
        super().setUp()
        self.addCleanup(signal.signal, signal.SIGINT, signal.signal(signal.SIGINT, signal.default_int_handler))

    def interrupted(self, statements: str, seconds: float = 0.5) -> tuple[int, int]:
        """Interrupts a call whose child does these statements, and has so many seconds to end.

        Gives the child's number and the caller's status.
        """
        mark = self.folder / "mark"
        mark.unlink(missing_ok=True)
        text = source(
            "A: dace.int64[1]",
            f"# fake: {statements}",
            f"# fake: Path({str(mark)!r}).write_text(str(__import__('os').getpid()))",
            f"# fake: {self.WAITING.format(str(self.folder))}",
        )
        files = [self.folder / "source.py", self.folder / "arrays.json"]
        files[0].write_text(text)
        files[1].write_text('{"A":[1]}')
        words = [sys.executable, "-c", self.CALLER, str(seconds), "run", *(str(it) for it in files)]
        caller = subprocess.Popen(words, cwd=TOP / "python", stderr=subprocess.DEVNULL)
        try:
            self.wait_for(lambda: mark.is_file() and mark.read_text())
            caller.send_signal(signal.SIGINT)
            return int(mark.read_text()), caller.wait(SECONDS)
        finally:
            caller.kill()
            caller.wait()

    def wait_for(self, holds: Callable[[], object]) -> None:
        end = time.monotonic() + SECONDS
        while not holds():
            self.assertLess(time.monotonic(), end)
            time.sleep(0.02)

    def test_a_child_is_ended(self) -> None:
        for statements in ("pass", "signal.signal(signal.SIGTERM, signal.SIG_IGN)"):
            with self.subTest(statements):
                child, status = self.interrupted(statements)
                self.assertEqual(status, -signal.SIGINT)
                with self.assertRaises(ProcessLookupError):
                    os.kill(child, 0)

    def test_a_child_has_time_to_end(self) -> None:
        mark = self.folder / "ended"
        end = f"(time.sleep(0.1), Path({str(mark)!r}).touch(), __import__('os')._exit(0))"
        self.interrupted(f"signal.signal(signal.SIGTERM, lambda *_: {end})", SECONDS)
        self.assertTrue(mark.exists())

    def test_what_a_child_started_is_ended(self) -> None:
        mark = self.folder / "grandchild"
        waiting = ["sh", "-c", 'while [ -e "$0" ]; do sleep 0.1; done', str(self.folder)]
        self.interrupted(f"Path({str(mark)!r}).write_text(str(__import__('subprocess').Popen({waiting}).pid))")
        self.wait_for(lambda: not self.is_running(int(mark.read_text())))

    @staticmethod
    def is_running(process: int) -> bool:
        """Tells whether a process is there and has not ended; nobody may wait for it."""
        try:
            return Path(f"/proc/{process}/stat").read_text().rpartition(") ")[2][0] not in "ZX"
        except OSError:
            return False

    def test_a_child_that_is_being_started_is_ended(self) -> None:
        """An interruption that comes when there is a child, and before its number is known."""
        started: list[subprocess.Popen[bytes]] = []

        class Interrupted(subprocess.Popen):  # type: ignore[type-arg]
            def __init__(self, *words: object, **options: object) -> None:
                super().__init__(*words, **options)
                started.append(self)
                signal.raise_signal(signal.SIGINT)

        sleeper = self.folder / "sleeper"
        sleeper.write_text('#!/bin/sh\nwhile [ -e "$0" ]; do sleep 0.1; done\n')
        sleeper.chmod(0o755)
        handler = signal.getsignal(signal.SIGINT)
        with mock.patch.dict(os.environ, LUTHKEMB_SDFG=str(sleeper)), mock.patch.object(subprocess, "Popen", Interrupted):
            with self.assertRaises(KeyboardInterrupt):
                luthkemb.run(INC, A=[1], B=[1])
        self.assertEqual([it.returncode for it in started], [-signal.SIGTERM])
        self.assertIs(signal.getsignal(signal.SIGINT), handler)

    def test_the_folder_of_an_interrupted_call_is_removed(self) -> None:
        with mock.patch("luthkemb.commands.ended", side_effect=KeyboardInterrupt) as ended:
            with self.assertRaises(KeyboardInterrupt):
                luthkemb.run(INC, A=[1], B=[1])
        self.assertFalse(Path(ended.call_args.args[0][-1]).parent.exists())


class Table(Calls):
    def test_a_further_command_is_a_line(self) -> None:
        echo = self.folder / "echo"
        echo.write_text('#!/bin/sh\necho "$1 $2 $3 $4"\ncat "${3#*=}"\n')
        echo.chmod(0o755)

        def lines(value: list[str], folder: Path) -> str:
            file = folder / "lines"
            file.write_text("".join(f"{it}\n" for it in value))
            return str(file)

        options = {"workers": Option("--workers", number), "chain": Option("--chain", lines)}
        check = call_of("check", Command("check", lambda output, _: output.read().decode(), "Checks.", options))
        with mock.patch.dict(os.environ, LUTHKEMB_SDFG=str(echo)):
            first, *others = check(INC, chain=["StateFusion 0 1"], workers=2, A=[1], B=[2]).splitlines()
        self.assertRegex(first, r"^check --workers=2 --chain=/.*/lines --$")
        self.assertEqual((others, check.__name__, check.__doc__), (["StateFusion 0 1"], "check", "Checks."))

    def test_each_command_is_one_of_the_program(self) -> None:
        documented = (TOP / "docs/COMMANDS.md").read_text()
        for name, command in COMMANDS.items():
            words = " ".join([f"sdfg {command.word} SOURCE ARRAYS", *(it.upper() for it in command.files)])
            self.assertRegex(documented, f"(?m)^    {words}(?: --|$)")
            self.assertIn(name, luthkemb.__all__)
            for option in command.options.values():
                self.assertRegex(documented, rf"(?m)^    {words}.* {option.word}{' [A-Z]' if option.written else '$'}", name)

    def test_a_call_has_a_program_and_what_has_names(self) -> None:
        with self.assertRaises(TypeError):
            luthkemb.run()
        with self.assertRaises(TypeError):
            luthkemb.run(INC, [1])


if __name__ == "__main__":
    unittest.main()
