"""What a call raises: a class for each status with which the program refuses, and one for what goes wrong around it.

Each has its fields, and its text tells all of them. `README.md` beside the package has the table.
"""
from __future__ import annotations

import re
from dataclasses import dataclass, field
from typing import TYPE_CHECKING, BinaryIO, ClassVar, Iterator, Optional

from .explanations import ARRAYS_ERRORS, CONDITIONS, SOURCE_ERRORS, STATUSES, lines_below, lines_of_race, meaning_of, shapes_in
from .moves import Move, read_moves
from .sizes import NOTHING_GIVEN, Shape, ShapesAndSizes

if TYPE_CHECKING:
    from .sources import Source


MOST_BYTES = 2**20
"""How much of an output is told."""


class LuthkembError(Exception):
    """Whatever a call raises by itself."""


class ProgramNotFound(LuthkembError):
    """There is no program `sdfg` to run."""


class NotBuilt(LuthkembError):
    """The repository's `./sdfg` could not prove and build the program; it told why on standard error."""

    status: ClassVar[int] = 70

    def __str__(self) -> str:
        return "the program was not proved and built; standard error says why"


@dataclass(eq=False)
class ProgramFailed(LuthkembError):
    """The program ended in a way that none of its commands do; a negative status is a signal's."""

    status: int
    output: str

    def __str__(self) -> str:
        return f"the program ended with status {self.status} and {self.output[:200]!r}"


@dataclass(eq=False)
class DoesNotFit(LuthkembError, ValueError):
    """The array `name` has elements that are no whole numbers of 64 bits; nothing was run."""

    name: str
    why: str

    def __str__(self) -> str:
        return f"{self.name}: {self.why}"


@dataclass(eq=False)
class FunctionRefused(LuthkembError, ValueError):
    """The source of a function is not there, or has what the package cannot put into a source; nothing was run.

    `line` is counted in `file`, where there is one.
    """

    function: str
    why: str
    line: Optional[int] = None
    file: Optional[str] = None

    def __str__(self) -> str:
        place = f" at line {self.line} of {self.file}" if self.line is not None else ""
        return f"{self.function}{place}: {self.why}"


class NotInLanguage(LuthkembError, AttributeError):
    """What DaCe has and this language has not, or not here; the text names what there is in its place."""


class Refused(LuthkembError):
    """The program refused, with the status of the class. `moves` are those that a traced run had made.

    Its text is `said`, and below it `explanation`: lines of the source that are meant, and what helps.
    """

    status: ClassVar[int]
    form: ClassVar[str] = ""
    moves: tuple[Move, ...] = ()
    explanation: tuple[str, ...] = ()

    def said(self) -> str:
        """Gives what the program said, with all fields."""
        return STATUSES[self.status]

    def __str__(self) -> str:
        return "\n".join((self.said(), *self.explanation))

    @classmethod
    def of(cls, found: re.Match[str], source: Source) -> Refused:
        """Gives the refusal whose text matched `form`."""
        return cls(*found.groups())


@dataclass(eq=False)
class OutOfMemory(Refused, MemoryError):
    """The program found no memory."""

    status = 1


@dataclass(eq=False)
class BadWords(Refused, ValueError):
    """The words of the call are outside the limits of the command."""

    status = 2
    form = "bad words"


@dataclass(eq=False)
class SourceRefused(Refused):
    """The source is refused at a line.

    `number` is that of the error and `meaning` what it says. `line` is counted in `file`, or in the text where there
    is none, and `text` is what stands there.
    """

    number: int
    line: int
    text: str
    meaning: str
    file: Optional[str] = None

    status = 3
    form = r"source error (\d+) at line (\d+)"

    @classmethod
    def of(cls, found: re.Match[str], source: Source) -> Refused:
        number, line = int(found[1]), int(found[2])
        place = source.origin(line)
        return cls(number, place.line, source.text_of(line), SOURCE_ERRORS.get(number, ""), place.file)

    def said(self) -> str:
        file = f" of {self.file}" if self.file else ""
        return f"source error {self.number} at line {self.line}{file}: {self.meaning}"


@dataclass(eq=False)
class ArraysRefused(Refused, ValueError):
    """The sizes and arrays do not fit the program; `name` is whose, where it is one's.

    Where an array has another shape than its argument, these are `shape` and `wanted`, as far as they are known.
    """

    number: int
    name: Optional[str]
    meaning: str
    shape: Optional[Shape] = None
    wanted: Optional[Shape] = None

    status = 4
    form = r"arrays error (\d+)(?: (.*))?"

    @classmethod
    def of(cls, found: re.Match[str], source: Source) -> Refused:
        return cls(int(found[1]), found[2], ARRAYS_ERRORS.get(int(found[1]), ""))

    def said(self) -> str:
        name = f" {self.name}" if self.name else ""
        return f"arrays error {self.number}{name}: {self.meaning}"


@dataclass(eq=False)
class PicksRefused(Refused, ValueError):
    """The pick of the number `word`, counted from 1, is no whole number from 0 to 2^64-1."""

    word: int

    status = 5
    form = r"picks refused at word (\d+)"

    @classmethod
    def of(cls, found: re.Match[str], source: Source) -> Refused:
        return cls(int(found[1]))

    def said(self) -> str:
        return f"picks refused at word {self.word}"


@dataclass(eq=False)
class ChainRefused(Refused, ValueError):
    """The line of the number `line`, counted from 1, of the chain is refused.

    `condition` is the lowest one of its rewrite that fails on the graph behind the lines before it, and `meaning` what that says. A line
    that is no step has no condition. Of a chain that is given as rewrites, each stands on a line. Nothing was run.
    """

    line: int
    condition: Optional[int]
    meaning: str

    status = 5
    form = r"chain refused at line (\d+)(?: condition (\d+))?"

    @classmethod
    def of(cls, found: re.Match[str], source: Source) -> Refused:
        condition = int(found[2]) if found[2] else None
        return cls(int(found[1]), condition, CONDITIONS.get(condition, ""))

    def said(self) -> str:
        condition = f" condition {self.condition}" if self.condition is not None else ""
        return f"chain refused at line {self.line}{condition}: {self.meaning}"


@dataclass(frozen=True)
class Access:
    """What the node of this number does to a container of its graph.

    `mode` is `read`, `write`, `push`, `take` or the name of a resolution.
    """

    mode: str
    container: str
    node: int

    def __str__(self) -> str:
        return f"{self.mode} {self.container} by {self.node}"


@dataclass(eq=False)
class Race(Refused):
    """The race check refuses the program: points or elements of a scope may touch the same in any order.

    `scope` is the path of the scope, of states and nodes, and `first` and `second` are its first two accesses that the
    check does not accept together. `lines` are those of the scope and of the two accesses, counted in `file`, or in the text
    where there is none; a line that is not known is none, as each one of a rewritten graph. Nothing was run.
    """

    scope: str
    first: Access
    second: Access
    lines: tuple[Optional[int], ...] = ()
    file: Optional[str] = None

    status = 6
    form = r"race at ([\d.]+): (\w+) (\S+) by (\d+), (\w+) (\S+) by (\d+)"

    @classmethod
    def of(cls, found: re.Match[str], source: Source) -> Refused:
        pair = [(found[2], found[3], int(found[4])), (found[5], found[6], int(found[7]))]
        places = [line and source.origin(line) for line in lines_of_race(source.text(), found[1], pair)]
        lines = tuple(it and it.line for it in places)
        return cls(found[1], Access(*pair[0]), Access(*pair[1]), lines, source.origin(1).file)

    def said(self) -> str:
        return f"race at {self.scope}: {self.first}, {self.second}"


@dataclass
class Frame:
    """Where a fault stood in one program: the line, counted in `file` if there is one, and the variables in force."""

    line: int
    variables: dict[str, int] = field(default_factory=dict)
    file: Optional[str] = None

    def __str__(self) -> str:
        values = ", ".join(f"{name}={value}" for name, value in self.variables.items())
        return f"line {self.line}: {values}" if values else f"line {self.line}"


@dataclass(eq=False)
class Fault(Refused):
    """The run has a fault.

    `kind` is `division` or `subscript`; `place` has a frame for each program, the outermost first.
    """

    kind: str
    place: list[Frame]

    status = 7
    form = r"fault (division|subscript) at (.+)"

    @classmethod
    def of(cls, found: re.Match[str], source: Source) -> Refused:
        return cls(found[1], [_frame(it, source) for it in found[2].split(" > ")])

    def said(self) -> str:
        return f"fault {self.kind} at {' > '.join(str(it) for it in self.place)}"


@dataclass(eq=False)
class TurnsSpent(Refused):
    """The run wants more turns than the `turns` that it may spend."""

    turns: int

    status = 8
    form = r"turns spent (\d+)"

    @classmethod
    def of(cls, found: re.Match[str], source: Source) -> Refused:
        return cls(int(found[1]))

    def said(self) -> str:
        return f"turns spent {self.turns}"


@dataclass(eq=False)
class ReadFault(Refused):
    """The file `name` is missing or cannot be read."""

    name: str

    status = 9
    form = r"read fault (.*)"

    def said(self) -> str:
        return f"read fault {self.name}"


@dataclass(eq=False)
class WriteFault(Refused):
    """The program could not write its answer."""

    status = 10


@dataclass(eq=False)
class TooLong(Refused):
    """The file `name` is longer than its limit: 2^20 bytes for a source, 2^26 for arrays, 2^16 for a chain, 2^24 for picks."""

    name: str

    status = 11
    form = r"too long (.*)"

    def said(self) -> str:
        return f"too long {self.name}"


@dataclass(eq=False)
class ArraysTooLong(TooLong):
    """The arrays file would be longer than 2^26 bytes: of the array `name` only the first `fits` elements have room.

    Nothing was run.
    """

    fits: int

    def said(self) -> str:
        return (
            f"the arrays are too long: of {self.name} only {self.fits:,} elements fit into the arrays file, "
            f"which has at most 2^26 bytes"
        )


KINDS: tuple[type[Refused], ...] = (
    OutOfMemory,
    BadWords,
    SourceRefused,
    ArraysRefused,
    PicksRefused,
    ChainRefused,
    Race,
    Fault,
    TurnsSpent,
    ReadFault,
    WriteFault,
    TooLong,
)
# What was written before memory or the output was wanting is left.
CUT_OFF = (OutOfMemory, WriteFault)
# The texts of these have their meaning.
SAYING = (OutOfMemory, BadWords, SourceRefused, ArraysRefused, ChainRefused, WriteFault)


def _frame(text: str, source: Source) -> Frame:
    line, _, values = text.removeprefix("line ").partition(": ")
    pairs = (it.split("=") for it in values.split(", ") if it)
    place = source.origin(int(line))
    return Frame(place.line, {name: int(value) for name, value in pairs}, place.file)


def refusal(
    status: int, output: BinaryIO, source: Source, given: ShapesAndSizes = NOTHING_GIVEN, is_rewritten: bool = False
) -> LuthkembError:
    """Gives what is raised for an end with this status, which is not 0, and this output, which is read, of a call with these entries.

    Nodes of a graph that is rewritten are none of its source's.
    """
    if status == NotBuilt.status:
        return NotBuilt()
    moves = read_moves(output)
    said = output.read(MOST_BYTES).decode(errors="replace")
    for kind in (it for it in KINDS if it.status == status):
        last = "" if kind in CUT_OFF else said.removesuffix("\n")
        found = re.fullmatch(kind.form, last, re.DOTALL)
        if found:
            break
    else:
        return ProgramFailed(status, said)
    try:
        refused = kind.of(found, source)
    except ValueError:
        return ProgramFailed(status, said)
    refused.moves = moves
    if isinstance(refused, ArraysRefused):
        refused.shape, refused.wanted = shapes_in(last, source.text(), given) or (None, None)
    is_elsewhere = is_rewritten and isinstance(refused, Race)
    if is_elsewhere:
        refused.lines = (None, None, None)
    refused.explanation = tuple(_explanation(kind, last, None if is_elsewhere else source, given))
    return refused


def _explanation(kind: type[Refused], said: str, source: Optional[Source], given: ShapesAndSizes) -> Iterator[str]:
    """Gives what a line of the program means, where its text does not say that itself, and what stands below it."""
    if kind not in SAYING:
        yield meaning_of(kind.status, said)
    if source is None:
        yield from lines_below(kind.status, said, None)
    else:
        yield from lines_below(kind.status, said, source.text(), lambda line: source.origin(line).line, given)
