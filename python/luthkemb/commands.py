"""The calls: one table has the command of the program and the options that each of them uses."""
from __future__ import annotations

import inspect
import operator
import tempfile
from dataclasses import dataclass, field
from pathlib import Path
from typing import Any, BinaryIO, Callable, Mapping, Optional

from .accesses import ScopeAccess, read_accesses
from .arrays import in_lists, read_arrays, shapes_and_sizes, write_entries
from .moves import After, picks_file, read_moves
from .picture import Picture
from .plans import Planned, read_plan
from .programs import ended
from .refusals import MOST_BYTES, LuthkembError, ProgramFailed, refusal
from .rewrites import Rewrite, chain_file, read_rewrites
from .sizes import Signature
from .sources import Given, Source, source_of

Entries = Mapping[str, Any]


@dataclass(frozen=True)
class Option:
    """An option: its word, how its value is written behind it, and its default; a file of it may go to the folder.

    A flag has no value, and is there or not.
    """

    word: str
    written: Optional[Callable[[Any, Path], str]] = None
    value: Any = None

    @property
    def default(self) -> Any:
        return self.value if self.written else False

    def words(self, value: Any, folder: Path) -> list[str]:
        """Gives the words of this value; where it is none those of the default, which may be none too."""
        if self.written is None:
            return [self.word] * bool(value)
        value = self.value if value is None else value
        return [] if value is None else [f"{self.word}={self.written(value, folder)}"]


@dataclass(frozen=True)
class File:
    """A file behind that of the arrays: what is given without one, and the name of a value's, which may go to the folder."""

    default: Any
    named: Callable[[Any, Path], str]


@dataclass(frozen=True)
class Command:
    """A command of the program: its word, what its answer gives, and its files and options by their keywords."""

    word: str
    answer: Callable[[BinaryIO, Entries], Any]
    about: str
    options: Mapping[str, Option] = field(default_factory=dict)
    files: Mapping[str, File] = field(default_factory=dict)

    def keywords(self) -> dict[str, Any]:
        """Gives what may be given besides sizes and arrays, with its default."""
        return {name: it.default for name, it in (*self.files.items(), *self.options.items())}

    def called(self, program: Given, keywords: Entries, given: Entries) -> Any:
        """Runs the command, and gives its answer or raises what it refused."""
        source = source_of(program)
        entries = entries_of(source, given)
        with tempfile.TemporaryDirectory(prefix="luthkemb-") as made, open(Path(made) / "output", "w+b") as output:
            status = ended(self._words(source, keywords, entries, Path(made)), output)
            output.seek(0)
            if status != 0:
                raise refusal(status, output, source, shapes_and_sizes(entries), keywords.get("chain") is not None)
            try:
                return self.answer(output, given)
            except LuthkembError:
                raise
            except ValueError as wrong:
                output.seek(0)
                raise ProgramFailed(status, output.read(MOST_BYTES).decode(errors="replace")) from wrong

    def _words(self, source: Source, keywords: Entries, entries: Entries, folder: Path) -> list[str]:
        """Gives the words of a call; what has no file yet is written to the folder. Behind `--` any name is a file's."""
        arrays = folder / "arrays.json"
        write_entries(arrays, entries)
        words = [self.word]
        for name, option in self.options.items():
            words += option.words(keywords[name], folder)
        words += ["--", source.file_in(folder), str(arrays)]
        return words + [file.named(keywords[name], folder) for name, file in self.files.items()]


def call_of(name: str, command: Command) -> Callable[..., Any]:
    """Gives the function of this name that calls a command: `name(program, files and options, sizes and arrays)`."""

    def call(program: Given, /, **given: Any) -> Any:
        keywords = {it: given.pop(it, default) for it, default in command.keywords().items()}
        answer = command.called(program, keywords, given)
        # The words of a source are drawn at its own nodes alone.
        if isinstance(answer, Picture) and keywords["chain"] is None:
            answer.source = source_of(program).text()
        return answer

    one = inspect.Parameter
    options = [one(it, one.KEYWORD_ONLY, default=default) for it, default in command.keywords().items()]
    others = one("sizes_and_arrays", one.VAR_KEYWORD)
    call.__name__ = call.__qualname__ = name
    call.__doc__ = command.about
    call.__signature__ = inspect.Signature([one("program", one.POSITIONAL_ONLY), *options, others])  # type: ignore
    return call


def entries_of(source: Source, given: Entries) -> dict[str, Any]:
    """Gives the entries of the arrays file: what is given, and each size that is not and follows from the shapes of arrays.

    A number for an argument of one element is put in lists.
    """
    signature = Signature.of(source.text())
    entries = {name: in_lists(value, signature.dimensions_of_one_element(name)) for name, value in given.items()}
    return {**signature.sizes(*shapes_and_sizes(entries)), **entries}


def read_picture(output: BinaryIO, _: Entries) -> Picture:
    """Gives the picture of a graph that was printed, or raises `ValueError`."""
    return Picture(output.read().decode())


def read_check(output: BinaryIO, _: Entries) -> list[ScopeAccess]:
    """Gives what the race check tells of an accepted program, or raises `ValueError`."""
    return read_accesses(output.read().decode())


def read_matches(output: BinaryIO, _: Entries) -> list[Rewrite]:
    """Gives the rewrites that may be done on a graph, or raises `ValueError`."""
    return read_rewrites(output.read().decode())


def read_planned(output: BinaryIO, _: Entries) -> list[Planned]:
    """Gives the plan of a graph, or raises `ValueError`."""
    return read_plan(output.read().decode())


def read_step(output: BinaryIO, given: Entries) -> After:
    """Gives the arrays after a run by picks, with its moves, or raises `ValueError`."""
    moves = read_moves(output)
    return After(read_arrays(output, given), moves)


def number(value: Any, _: Path) -> str:
    """Writes the number of an option."""
    return str(operator.index(value))


MOST_TURNS = 2**40
TURNS = Option("--turns", number, MOST_TURNS)
WORKERS = Option("--workers", number, 1)
CHAIN = Option("--chain", chain_file)
COMMANDS: dict[str, Command] = {
    "run": Command(
        "run",
        read_arrays,
        "Runs a program on arrays and gives them after the run, by name.",
        {"chain": CHAIN, "workers": WORKERS, "turns": TURNS},
    ),
    "step": Command(
        "step",
        read_step,
        "Runs a program move by move, as picks choose, and gives the arrays after the run, by name.",
        {"chain": CHAIN, "turns": TURNS, "trace": Option("--trace")},
        {"picks": File((), picks_file)},
    ),
    "graph": Command(
        "print",
        read_picture,
        "Gives the graph of a program, with the sizes of these arrays; it prints as its text, and a notebook draws it.",
        {"chain": CHAIN},
    ),
    "check": Command(
        "check",
        read_check,
        "Makes the race check of a program, with the sizes of these arrays, and gives what each of its scopes accesses.",
        {"chain": CHAIN},
    ),
    "plan": Command(
        "plan",
        read_planned,
        "Gives how the pieces of each map come to its containers, with the sizes of these arrays, where the race check accepts.",
        {"chain": CHAIN},
    ),
    "matches": Command(
        "matches",
        read_matches,
        "Gives each rewrite that may be done on the graph of a program, with the sizes of these arrays.",
        {"chain": CHAIN},
    ),
}
CALLS = {name: call_of(name, command) for name, command in COMMANDS.items()}
