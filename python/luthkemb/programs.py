"""The program `sdfg`: where it is, and how it is run as a child that does not outlive its call."""
from __future__ import annotations

import os
import shutil
import signal
import subprocess
import threading
from contextlib import contextmanager
from functools import lru_cache
from pathlib import Path
from typing import Any, BinaryIO, Iterator, Optional, Sequence

from .built import built_program
from .refusals import ProgramNotFound

VARIABLE = "LUTHKEMB_SDFG"
NAME = "sdfg"
# A repository has these beside its ./sdfg, and the package in the folder `python`.
MARKS = ("crates.txt", "crates")
BAD_WORDS = 2
SECONDS_TO_END = 5.0
# A refusal explains itself, and ./sdfg need not.
UNEXPLAINED = {"SDFG_EXPLAINS": "no"}
SIGNALS = tuple(signal.valid_signals())
HOW_TO_GET_ONE = (
    f"there is no {NAME}: set {VARIABLE} to one, or put one on the path. `pip install ./python` in the repository packs the program of "
    f"release/, which is for Linux on x86-64; on other machines the repository's ./{NAME} builds it, which needs the Rattle kit"
)


def program() -> str:
    """Gives the path of the program, or raises `ProgramNotFound`.

    It is what `LUTHKEMB_SDFG` names; else that of the repository in which this package stands; else the one that is packed with
    this package; else the `sdfg` of the path; else the `./sdfg` of the working folder, where that is a repository.
    """
    named = os.environ.get(VARIABLE)
    if named:
        found = _program_at(named)
        if found is None:
            raise ProgramNotFound(f"{VARIABLE} is {named!r}, which is no program")
        return found
    here = Path(__file__).resolve().parent
    found = _of_repository(here.parent.parent) or _packed(here / NAME) or shutil.which(NAME) or _of_working_folder()
    if found is None:
        raise ProgramNotFound(HOW_TO_GET_ONE)
    return found


def _program_at(name: str) -> Optional[str]:
    try:
        return shutil.which(os.path.abspath(name))
    except FileNotFoundError:
        # The working folder is gone.
        return None


def _of_working_folder() -> Optional[str]:
    """Gives the program of the working folder. Its parents are not looked at: anybody may own them."""
    try:
        return _of_repository(Path.cwd())
    except FileNotFoundError:
        return None


def _of_repository(folder: Path) -> Optional[str]:
    """Gives the program of a repository: the one that is built, where it is that of the sources, and else what builds it."""
    if not all((folder / it).exists() for it in MARKS) or not os.access(folder / NAME, os.X_OK):
        return None
    return built_program(folder) or str(folder / NAME)


def _packed(file: Path) -> Optional[str]:
    """Gives the program that is packed with this package, or raises `ProgramNotFound` where it does not start here."""
    if not file.is_file():
        return None
    why = _why_it_does_not_start(str(file), file.stat().st_mtime_ns)
    if why:
        raise ProgramNotFound(f"the program that is packed with luthkemb does not start on this machine: {why}. Set {VARIABLE} to another")
    return str(file)


@lru_cache(maxsize=None)
def _why_it_does_not_start(file: str, _: int) -> str:
    """Tells why a program, which was changed at some time, does not start; a call without words tells that they are bad."""
    try:
        ran = subprocess.run([NAME], executable=file, stdin=subprocess.DEVNULL, capture_output=True)
    except OSError as wrong:
        return str(wrong)
    if ran.returncode == BAD_WORDS:
        return ""
    return ran.stderr.decode(errors="replace").strip() or f"it ends with status {ran.returncode}"


def ended(words: Sequence[str], output: BinaryIO) -> int:
    """Runs the program with these words to its end, its standard output to this file, and gives its status.

    Whatever interrupts this ends the child, and all that it started, before it goes on.
    """
    started = {"executable": program(), "stdin": subprocess.DEVNULL, "stdout": output, "start_new_session": True}
    child: Optional[subprocess.Popen[bytes]] = None
    try:
        with _signals_wait():
            # The program refuses words where its own name is no text.
            child = subprocess.Popen([NAME, *words], env={**os.environ, **UNEXPLAINED}, **started)
        return child.wait()
    except BaseException:
        if child is not None:
            _end(child)
        raise


@contextmanager
def _signals_wait() -> Iterator[None]:
    """Has what handles signals in this thread wait for the end: a child that is being started has no number yet to end it by."""
    came: list[tuple[int, Any]] = []
    handlers = {}
    if threading.current_thread() is threading.main_thread():
        handlers = {it: handler for it in SIGNALS if callable(handler := signal.getsignal(it))}
    try:
        for it in handlers:
            signal.signal(it, lambda number, frame: came.append((number, frame)))
        yield
    finally:
        for it, handler in handlers.items():
            signal.signal(it, handler)
        for number, frame in came:
            handlers[number](number, frame)


def _end(child: subprocess.Popen[bytes]) -> None:
    """Ends a child and its group, in which nobody else is: asked first, and then not asked."""
    try:
        if child.returncode is None:
            os.killpg(child.pid, signal.SIGTERM)
            child.wait(timeout=SECONDS_TO_END)
    except subprocess.TimeoutExpired:
        pass
    finally:
        # Until it is waited for, nobody else has its number.
        if child.returncode is None:
            os.killpg(child.pid, signal.SIGKILL)
            child.wait()
