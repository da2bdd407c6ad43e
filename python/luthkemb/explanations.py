"""What the program's refusals mean, in words: one table, for the script `./sdfg`, the exceptions and `docs/MISTAKES.md`."""
from __future__ import annotations

import difflib
import re
from typing import Callable, Iterator, Mapping, Optional, Sequence

from .causes import Cause, cause_of
from .sizes import NOTHING_GIVEN, Shape, ShapesAndSizes, Signature
from .statements import statements_of

SOURCE_ERRORS: Mapping[int, str] = {
    1: "a byte begins no token, a string is not closed, or a letter, digit or '_' follows a number",
    2: "a tab stands in an indentation, or a line closes to a width that no open block has",
    3: "a number is 2^63 or more",
    4: "the line is none of the forms, or stands where its form may not",
    5: "a name is not in force for its use",
    6: "an extent, subscript, range or bound is not affine, or an extent names a variable",
    7: "a name is declared twice, or is reserved",
    8: "a limit is passed",
    9: "a lambda is none of the resolutions",
    10: "the sides of a copy, a reduction or the arguments of a call do not fit",
}
ARRAYS_ERRORS: Mapping[int, str] = {
    11: "the size has no value",
    12: "the size is not from 0 to 2^24",
    13: "the container has a negative extent, or there are too many elements",
    14: "the arrays are no JSON object",
    15: "it has something else than whole numbers from -2^63 to 2^63-1",
    16: "its lists have no common shape",
    17: "the argument is missing",
    18: "it is neither a size nor an argument of the program",
    19: "its shape is not that of the argument",
}
FAULTS: Mapping[str, str] = {
    "division": "a division or a remainder by 0",
    "subscript": "an element outside of its array; subscripts begin with 0, and -1 is not the last one",
}
STATUSES: Mapping[int, str] = {
    1: "the program found no memory",
    2: "the words of the call are not those of a command",
    3: "the source is refused",
    4: "the arrays file, its sizes or its shapes are refused",
    5: "a pick is no whole number from 0 to 2^64-1, or a line of the chain is no step, or one that cannot be done",
    6: "two points or elements of a scope may touch the same, and do not both read it or both resolve it alike",
    7: "the run has a fault",
    8: "the run wants more turns than it may spend",
    9: "the file is missing or cannot be read",
    10: "the program could not write its answer",
    11: "the file is longer than its limit",
}
# What a refused pick means, and a line of a chain that is none.
PICK = "the word is no whole number from 0 to 2^64-1"
NO_STEP = "the line is no step of a chain, or one more than 256"
# What a condition of a step asks that is not so.
CONDITIONS: Mapping[Optional[int], str] = {
    None: NO_STEP,
    1: "the path leads to no map of the graph behind the lines before; `print` with these tells its nodes",
    2: (
        "to collapse or interchange: something else than one map stands in the map, or it has a container of its own; "
        "to expand: it has one parameter; to tile: there is not one size for each parameter, each from 2 to 4,096"
    ),
    3: (
        "to collapse or interchange: a range of the inner map names a parameter of the outer one; "
        "to tile: the map has several parameters, and the race check would refuse it"
    ),
    4: "the race check would refuse the outer map or the inner one, so the order of their points may count",
    8: "the race check would refuse a consume scope of the program, so the order of its elements may count",
    9: (
        "the new graph would pass a limit: 8 parameters of a map, 7 scopes and loops about a statement, 1,024 nodes of a state, "
        "4 ends of a range, a step below 2^40"
    ),
}
# What helps against a status, where one thing does.
HELP: Mapping[int, str] = {
    1: "Fewer elements, or a higher limit of memory.",
    6: "Give each point elements of its own, or resolve alike, or write two maps with an array between them: docs/RACES.md.",
    8: "`--turns B`, from Python `turns=B`, gives a run up to 2^40 turns. A turn is an instance of a tasklet or a round of a loop.",
    9: "Names of files are looked up in the folder of the call.",
    10: "The disk is full, or the reader of the output has ended.",
    11: "A source has at most 2^20 bytes, an arrays file 2^26, a chain file 2^16, a picks file 2^24.",
}
# What helps against an error of arrays and sizes, where one thing does.
ARRAYS_HELP: Mapping[int, str] = {
    11: 'A size is given by the name of its symbol, as `"N":7`, from Python as `N=7`.',
    15: "An argument of one element is given as `[7]`, a size as `7`.",
    19: "An argument of one element is given as `[7]`, another one as lists of its extents.",
}
USAGE: Sequence[str] = (
    "sdfg run SOURCE ARRAYS",
    "sdfg run SOURCE ARRAYS --chain F --workers W --turns B",
    "sdfg step SOURCE ARRAYS PICKS",
    "sdfg step SOURCE ARRAYS PICKS --chain F --turns B --trace",
    "sdfg print SOURCE ARRAYS --chain F",
    "sdfg check SOURCE ARRAYS --chain F",
    "sdfg plan SOURCE ARRAYS --chain F",
    "sdfg matches SOURCE ARRAYS --chain F",
)
FILES = {"run": ("SOURCE", "ARRAYS"), "step": ("SOURCE", "ARRAYS", "PICKS")}
FILES.update({it: FILES["run"] for it in ("print", "check", "plan", "matches")})
# The greatest number of an option, of those that have one; and the flag, which has no value.
MOST = {"--turns": ("2^40", 2**40), "--workers": ("64", 64)}
FLAG = "--trace"
OPTIONS = {it: ("--chain",) for it in FILES}
OPTIONS.update({"run": ("--chain", "--workers", "--turns"), "step": ("--chain", "--turns", FLAG)})
Line = Callable[[int], int]
# Text of a file that a terminal would take for more than text.
CONTROL = re.compile(r"[\x00-\x08\x0b-\x1f\x7f-\x9f]")


# Lines of a source.


def line_of(source: bytes, line: int) -> Optional[str]:
    """Gives a line of a source as it is shown, or nothing where there is none."""
    lines = source.decode(errors="replace").split("\n")
    if not 0 < line <= len(lines):
        return None
    return CONTROL.sub("?", lines[line - 1].rstrip("\r")).replace("\t", " ")


def same(line: int) -> int:
    """Gives the number of a line that is counted in its source."""
    return line


def excerpt(source: bytes, line: int, parts: Sequence[tuple[int, int]] = (), shown: Line = same) -> Iterator[str]:
    """Gives a line with the number that is shown for it, and below it marks for parts of it, each a column and a width."""
    text = line_of(source, line)
    if text is None:
        return
    head = f"{shown(line)} | "
    yield f"  {head}{text.rstrip()}"
    marks = "".join("^" if any(at <= column < at + width for at, width in parts) else " " for column in range(len(text)))
    if marks.strip():
        yield f"  {' ' * (len(head) - 2)}| {marks.rstrip()}"


def of_source(number: int, line: int, source: bytes, shown: Line = same) -> Iterator[str]:
    """Gives the line that is refused, with its cause, and what to do."""
    cause: Cause = cause_of(number, line, source)
    yield from excerpt(source, line, [(cause.at, cause.width)], shown)
    if cause.said:
        yield re.sub(r"\bline (\d+)", lambda it: f"line {shown(int(it[1]))}", cause.said)


def _parts(text: str, container: str) -> list[tuple[int, int]]:
    """Gives where a line names a container, with its subscripts."""
    found = re.finditer(rf"\b{re.escape(container)}\b(\[[^\[\]]*\])?", text.split("#")[0])
    return [(it.start(), it.end() - it.start()) for it in found]


def lines_of_race(source: bytes, scope: str, accesses: Sequence[tuple[str, str, int]]) -> list[Optional[int]]:
    """Gives the line of a scope, and of each access, a mode, a container and a node; nothing where it is not found."""
    statements = statements_of(source)
    path = [int(it) for it in scope.split(".")]
    if statements is None or len(path) % 2:
        return [None] * (1 + len(accesses))
    try:
        lines = [statements.item_at(path).line]
        return [*lines, *(statements.item_at([*path[:-1], node]).line_of(mode, name) for mode, name, node in accesses)]
    except LookupError:
        return [None] * (1 + len(accesses))


def of_race(source: bytes, scope: str, accesses: Sequence[tuple[str, str, int]], shown: Line = same) -> Iterator[str]:
    """Gives the lines of a scope and of two accesses in it."""
    first, *lines = lines_of_race(source, scope, accesses)
    if first is not None:
        yield f"The scope at line {shown(first)}:"
        yield from excerpt(source, first, (), shown)
    places: dict[tuple[int, str], list[str]] = {}
    for (mode, container, _), line in zip(accesses, lines):
        if line is not None:
            places.setdefault((line, container), []).append(f"{mode} {container}")
    for (line, container), said in places.items():
        yield f"{', '.join(said)} at line {shown(line)}:"
        yield from excerpt(source, line, _parts(line_of(source, line) or "", container), shown)


# Shapes of arrays.


def shapes_in(said: str, source: bytes, given: ShapesAndSizes) -> Optional[tuple[Shape, Shape]]:
    """Gives the shape of an array that is refused for its own, and that of its argument, where both are known."""
    found = re.fullmatch(r"arrays error 19 (\w+)", said)
    wanted = Signature.of(source).shape(found[1], given.sizes) if found else None
    return (given.shapes[found[1]], wanted) if found and wanted is not None and found[1] in given.shapes else None


def of_shapes(said: str, source: bytes, given: ShapesAndSizes) -> Iterator[str]:
    """Gives the two shapes of an array that is refused for its own, where they are known."""
    shapes = shapes_in(said, source, given)
    if shapes:
        yield "Its shape is {}, and that of the argument {}.".format(*("[" + ", ".join(map(str, it)) + "]" for it in shapes))


# Words of a call.


def of_words(words: Sequence[str]) -> Iterator[str]:
    """Gives what is wrong with the words of a call, where it is found, and the usage."""
    wrong = _wrong_word(words)
    if wrong:
        yield wrong
    yield "Usage:"
    yield from (f"  {it}" for it in USAGE)
    yield "F is a chain file, W workers from 1 to 64, B turns from 1 to 2^40. docs/COMMANDS.md tells what each does."


def _wrong_word(words: Sequence[str]) -> str:
    if not words or words[0] in ("--help", "-h", "help", "--version"):
        return ""
    command = words[0]
    if command not in FILES:
        near = difflib.get_close_matches(command, FILES, 1)
        return f"`{command}` is no command{f'; `{near[0]}` is' if near else ''}."
    files, options = parted(words)
    names = FILES[command]
    for wrong in (_wrong_option(command, options, at) for at in range(len(options))):
        if wrong:
            return wrong
    if len(files) < len(names):
        return f"The name of {names[len(files)]} is missing."
    return f"`{files[len(names)]}` is a file too many: `{command}` has {', '.join(names)}." if len(files) > len(names) else ""


def parted(words: Sequence[str]) -> tuple[list[str], list[tuple[str, Optional[str]]]]:
    """Gives the files of a call, which stand anywhere behind its command, and its options, each with its value where it has one."""
    files: list[str] = []
    options: list[tuple[str, Optional[str]]] = []
    rest = list(words[1:])
    while rest:
        word = rest.pop(0)
        if word == "--":
            return files + rest, options
        if len(word) < 2 or word[0] != "-":
            files.append(word)
            continue
        name, has_value, value = word.partition("=")
        options.append((name, value if has_value else rest.pop(0) if rest and _is_value(name, rest[0]) else None))
    return files, options


def _is_value(name: str, word: str) -> bool:
    """Tells whether a word behind the name of an option is its value; a number with a sign is meant as one."""
    if name == "--chain":
        return len(word) < 2 or word[0] != "-"
    return name in MOST and word.partition("=")[0] not in ("--", "--chain", FLAG, *MOST)


def _wrong_option(command: str, options: Sequence[tuple[str, Optional[str]]], at: int) -> str:
    name, value = options[at]
    known = OPTIONS[command]
    if name not in known:
        near = difflib.get_close_matches(name, known, 1)
        instead = f"; `{near[0]}` is" if near else "; behind `--` such a word is a file" if name[:2] != "--" else ""
        return f"`{name}` is no option of `{command}`{instead}."
    if name in (before for before, _ in options[:at]):
        return f"`{name}` stands twice."
    if name == FLAG:
        return "" if value is None else f"`{FLAG}` has no value."
    if name not in MOST:
        return f"Behind `{name}` stands the name of a file." if value is None else ""
    shown, most = MOST[name]
    value = value or ""
    fits = value.isascii() and value.isdigit() and 0 < int(value) <= most
    return "" if fits else f"Behind `{name}` stands a number from 1 to {shown}, and not `{value}`."


# Whole answers.


def explained(
    status: int, said: str, words: Sequence[str], source: Optional[bytes], given: ShapesAndSizes = NOTHING_GIVEN
) -> list[str]:
    """Gives the lines that explain a status and the last line of what was written, of a call with these words and entries.

    The source is none where it cannot be read again, and so are the entries.
    """
    if status not in STATUSES:
        return []
    if status == 2:
        return list(of_words(words))
    # Nodes of a graph that is rewritten are none of its source's.
    is_elsewhere = status == 6 and any(name == "--chain" for name, _ in parted(words)[1])
    return [f"sdfg: {meaning_of(status, said)}", *lines_below(status, said, None if is_elsewhere else source, same, given)]


def lines_below(
    status: int, said: str, source: Optional[bytes], shown: Line = same, given: ShapesAndSizes = NOTHING_GIVEN
) -> list[str]:
    """Gives the lines of the source that a refusal means, with their causes, and what helps."""
    place = [] if source is None else [*_place(status, said, source, shown), *of_shapes(said, source, given)]
    return [it for it in (*place, help_of(status, said)) if it]


def help_of(status: int, said: str) -> str:
    """Gives what helps against a status with the line that was written, or nothing."""
    found = re.match(r"arrays error (\d+)", said)
    return ARRAYS_HELP.get(int(found[1]), "") if found else HELP.get(status, "")


def meaning_of(status: int, said: str) -> str:
    """Gives what a status means with the line that was written."""
    found = re.match(r"(source|arrays) error (\d+)|fault (\w+)", said)
    if found and found[3]:
        return FAULTS.get(found[3], STATUSES[status])
    if found:
        table = SOURCE_ERRORS if found[1] == "source" else ARRAYS_ERRORS
        return table.get(int(found[2]), STATUSES[status])
    if found := re.fullmatch(r"chain refused at line \d+(?: condition (\d+))?", said):
        return CONDITIONS.get(int(found[1]) if found[1] else None, STATUSES[status])
    return PICK if said.startswith("picks refused") else STATUSES[status]


def _place(status: int, said: str, source: bytes, shown: Line) -> Iterator[str]:
    if status == 3 and (found := re.fullmatch(r"source error (\d+) at line (\d+)", said)):
        yield from of_source(int(found[1]), int(found[2]), source, shown)
    elif status == 6 and (found := re.fullmatch(r"race at ([\d.]+): (\w+) (\S+) by (\d+), (\w+) (\S+) by (\d+)", said)):
        accesses = [(found[2], found[3], int(found[4])), (found[5], found[6], int(found[7]))]
        yield from of_race(source, found[1], accesses, shown)
    elif status == 7:
        for line in re.findall(r"(?:at|>) line (\d+)", said):
            yield from excerpt(source, int(line), (), shown)
