"""Sources: files, texts and decorated functions, each as the bytes that the program reads."""
from __future__ import annotations

import ast
import inspect
import os
from dataclasses import dataclass
from functools import lru_cache
from pathlib import Path
from typing import Any, Callable, Optional, Union

from .dace import Program, Symbol
from .functions import Text
from .refusals import FunctionRefused, ReadFault

NEWLINE = "\n"
MOST_BYTES = 2**20
NO_SOURCE = (
    "the source is not there: Python keeps none of what is typed at its prompt or read from standard input. "
    "Put the program in a file, or give its text to luthkemb.run; notebooks and IPython keep it"
)
A_LAMBDA = "it is a lambda, which has no lines of its own: write a function, with @dace.program on the line above its def"
EDITED = "the file was edited or removed after its import: import it again, by importlib.reload or in a new Python"


@dataclass(frozen=True)
class Origin:
    """A line of a file, or of a text where `file` is none."""

    file: Optional[str]
    line: int


@dataclass(frozen=True)
class Source:
    """A source: the file that has it, or its bytes; `origins` tells where its lines come from, if not from there."""

    path: Optional[str]
    given: bytes = b""
    origins: tuple[Origin, ...] = ()

    def file_in(self, folder: Path) -> str:
        """Gives the name of a file with the source: its own, or one in the folder."""
        if self.path is not None:
            return self.path
        written = folder / "source.py"
        written.write_bytes(self.given)
        return str(written)

    def text(self) -> bytes:
        """Gives the bytes of the source; none where it is no file that can be read, or a longer one than may be."""
        if self.path is None:
            return self.given
        try:
            file = Path(self.path)
            return file.read_bytes() if file.is_file() and file.stat().st_size <= MOST_BYTES else b""
        except (OSError, ValueError):
            return b""

    def text_of(self, line: int) -> str:
        """Gives a line's text; a line behind the last one has none."""
        lines = self.text().split(b"\n")
        return lines[line - 1].decode(errors="replace").rstrip("\r") if 0 < line <= len(lines) else ""

    def origin(self, line: int) -> Origin:
        """Gives where a line of the source comes from."""
        if not self.origins:
            return Origin(self.path, line)
        return self.origins[min(max(line, 1), len(self.origins)) - 1]


Given = Union[str, bytes, "os.PathLike[str]", Program, Source]


def source_of(program: Given) -> Source:
    """Gives the source that stands for a path, a text (with a newline, or bytes) or a decorated function."""
    if isinstance(program, Source):
        return program
    if isinstance(program, Program):
        return _source_of_function(program)
    if isinstance(program, bytes):
        return Source(None, program)
    if isinstance(program, str) and NEWLINE in program:
        return Source(None, program.encode(errors="surrogateescape"))
    if isinstance(program, (str, os.PathLike)):
        return Source(_absolute(os.fspath(program)))
    raise TypeError(f"a program is a path, a text or a function under @dace.program, and not {program!r}")


def _absolute(name: str) -> str:
    try:
        return os.path.abspath(name)
    except FileNotFoundError:
        # The working folder is gone, and with it what has a name in it.
        raise ReadFault(name) from None


@dataclass(frozen=True)
class _Function:
    """A decorated function in its file: its lines, from the decorator on, as a source has them, and what it names."""

    lines: tuple[str, ...]
    origins: tuple[Origin, ...]
    named: tuple[object, ...]

    @classmethod
    def of(cls, program: Program) -> _Function:
        function = program.function
        block = block_of(program)
        width = len(block[0]) - len(block[0].lstrip())
        lines = [_without_margin(it.rstrip(NEWLINE), width) for it in block]
        first = function.__code__.co_firstlineno
        text = Text(program, lines)
        return cls(tuple(text.edited()), tuple(Origin(program.file, first + at) for at in range(len(lines))), tuple(text.named))


def block_of(program: Program) -> list[str]:
    """Gives the lines of a function, as they were when it was defined, or raises `FunctionRefused`."""
    function = program.function
    first = function.__code__.co_firstlineno - 1
    name = function.__qualname__
    if function.__name__ == "<lambda>":
        raise FunctionRefused(name, A_LAMBDA, first + 1, program.file)
    if first >= len(program.lines):
        raise FunctionRefused(name, NO_SOURCE)
    block, is_its_own = _block_of(program, first)
    if not is_its_own or program.lines_now()[first : first + len(block)] != block:
        raise FunctionRefused(name, EDITED, first + 1, program.file)
    return block


@lru_cache(maxsize=128)
def _block_of(program: Program, first: int) -> tuple[list[str], bool]:
    """Gives the lines of a function that begin with this one, and whether they are those of the function that Python has."""
    block = inspect.getblock(program.lines[first:])
    return block, _is_of(program.function, block)


def _is_of(function: Callable[..., Any], block: list[str]) -> bool:
    """Tells whether these lines define a function of this name with these arguments."""
    width = len(block[0]) - len(block[0].lstrip())
    try:
        found = ast.parse("".join(_without_margin(it, width) for it in block)).body[0]
    except SyntaxError:
        return False
    if not isinstance(found, (ast.FunctionDef, ast.AsyncFunctionDef)):
        return False
    # What is no form in the line of a program is refused as that.
    names = [it.arg for it in (*found.args.posonlyargs, *found.args.args)]
    code = function.__code__
    return (found.name, names) == (code.co_name, list(code.co_varnames[: code.co_argcount]))


def _without_margin(line: str, width: int) -> str:
    """Takes the margin of a function off a line, or what there is of it."""
    margin = len(line[:width]) - len(line[:width].lstrip())
    return line[margin:]


def _called(program: Program, before: dict[Program, _Function], above: tuple[Program, ...] = ()) -> None:
    """Puts a function behind all that it calls; one that calls itself is left to be refused."""
    if program in before or program in above:
        return
    function = _Function.of(program)
    for it in function.named:
        if isinstance(it, Program):
            _called(it, before, (*above, program))
    before[program] = function


def _source_of_function(program: Program) -> Source:
    """Gives a source of the symbols that a function and those it calls name, and of these functions."""
    functions: dict[Program, _Function] = {}
    _called(program, functions)
    symbols = [it for function in functions.values() for it in function.named if isinstance(it, Symbol)]
    # Symbols of one name are one size.
    names = dict.fromkeys(it.name for it in sorted(symbols, key=lambda it: it.order))
    begin = functions[program].origins[0]
    lines = ["import dace", *(f"{it} = dace.symbol('{it}')" for it in names)]
    origins = [begin] * len(lines)
    for function in functions.values():
        lines += function.lines
        origins += function.origins
    text = "".join(f"{it}{NEWLINE}" for it in lines)
    return Source(None, text.encode(errors="surrogateescape"), tuple(origins))
