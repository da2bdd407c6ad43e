#!/usr/bin/env python3
"""Stands for the program `sdfg` where it is not built: it answers as comments of the source say.

  # fake STATUS TEXT    the answer; in TEXT, {NAME} stands for the number of the line with the comment '# <NAME>'
  # fake: STATEMENTS    Python statements over the sizes and arrays, which are printed after them
  # fake turns B        the run wants so many turns
  # fake graph TEXT     the text of the graph, with / between its lines
  # fake check TEXT     what the race check tells, so too
  # fake matches TEXT   the rewrites that may be done, so too
  # fake plan TEXT      the plan, so too
  # fake moves TEXT     the trace of a run by picks, so too
  # fake chained ..     each of these for a call with a chain of one step or more, in the place of the others

The true program passes comments over, and comes to the same answer by the rest of the source.
"""
from __future__ import annotations

import json
import re
import signal
import sys
import time
from pathlib import Path
from typing import Any, Iterator

LIMITS = (2**20, 2**26, 2**24)
CHAIN_LIMIT = 2**16
# How many files and options the words of each command may have.
FILES = {"run": 2, "print": 2, "check": 2, "plan": 2, "matches": 2, "step": 3}
OPTIONS = {"run": {"--chain", "--workers", "--turns"}, "step": {"--chain", "--turns", "--trace"}}
NUMBERS = {"--turns": 2**40, "--workers": 64}
MOST_TURNS = 10_000_000
PLACE = r"\d+(?:\.\d+)*"
STEP = re.compile(rf"Map(?:Collapse|Expansion|Interchange) {PLACE}|MapTiling {PLACE}(?: \d+)+", re.ASCII)
ANSWER = re.compile(r"# fake (-?\d+) ?([^\r\n]*)")
STATEMENTS = re.compile(r"# fake: (.*)")
TURNS = re.compile(r"# fake turns (\d+)")
GRAPH = re.compile(r"# fake graph (.*)")
CHECK = re.compile(r"# fake check (.*)")
MATCHES = re.compile(r"# fake matches ?(.*)")
PLAN = re.compile(r"# fake plan ?(.*)")
MOVES = re.compile(r"# fake moves (.*)")
SYMBOL = re.compile(r"^(\w+) = dace\.symbol\('\w+'\)$", re.MULTILINE)
FUNCTION = re.compile(r"^def \w+\((.*)\):$", re.MULTILINE)
ARGUMENT = re.compile(r"(\w+): dace\.int64(?:\[([^]]*)\])?")


class Ended(Exception):
    def __init__(self, status: int, text: str) -> None:
        self.status, self.text = status, text


def read(name: str, most: int) -> str:
    try:
        text = Path(name).read_bytes()
    except OSError:
        raise Ended(9, f"read fault {name}") from None
    if len(text) > most:
        raise Ended(11, f"too long {name}")
    return text.decode(errors="replace")


def parted(words: list[str]) -> tuple[list[str], dict[str, str]]:
    """Gives the files of a call and its options with their values."""
    files: list[str] = []
    options: dict[str, str] = {}
    rest = iter(words)
    for word in rest:
        if word == "--":
            files += rest
        elif len(word) < 2 or word[0] != "-":
            files.append(word)
        else:
            name, has_value, value = word.partition("=")
            if name in options or (name == "--trace" and has_value):
                raise Ended(2, "bad words")
            options[name] = value if has_value or name == "--trace" else next(rest, "")
    return files, options


def read_words(words: list[str]) -> tuple[list[str], dict[str, str]]:
    command = "".join(words[:1])
    files, options = parted(words[1:])
    numbers = [(options[it], most) for it, most in NUMBERS.items() if it in options]
    if len(files) != FILES.get(command) or not set(options) <= OPTIONS.get(command, {"--chain"}):
        raise Ended(2, "bad words")
    if any(not (it.isascii() and it.isdecimal() and 1 <= int(it) <= most) for it, most in numbers):
        raise Ended(2, "bad words")
    return files, options


def read_chain(name: str) -> list[str]:
    lines = read(name, CHAIN_LIMIT).split("\n")
    for number, line in enumerate(lines, 1):
        if line.strip(" ") and line[0] != "#" and not STEP.fullmatch(line.strip(" ")):
            raise Ended(5, f"chain refused at line {number}")
    return [line for line in lines if line.strip(" ") and line[0] != "#"]


def read_picks(name: str) -> None:
    for number, word in enumerate(read(name, LIMITS[2]).split(), 1):
        if not word.isdecimal() or int(word) >= 2**64:
            raise Ended(5, f"picks refused at word {number}")


def line_of(source: str, name: str) -> int:
    return source[: source.index(f"# <{name}>")].count("\n") + 1


def elements(value: Any, shape: list[int]) -> Iterator[int]:
    if not shape and isinstance(value, int):
        yield value
        return
    if not shape or not isinstance(value, list) or len(value) != shape[0]:
        raise ValueError
    for it in value:
        yield from elements(it, shape[1:])


def array_line(name: str, extents: str, names: dict[str, Any]) -> str:
    try:
        shape = eval(f"[{extents or 1}]", dict(names))
        found = [str(it) for it in elements(names[name], shape)]
    except ValueError:
        raise Ended(4, f"arrays error 19 {name}") from None
    return " ".join([f"{name}[{','.join(str(it) for it in shape)}] =", *found])


def answer(words: list[str]) -> str:
    files, options = read_words(words)
    source = read(files[0], LIMITS[0])
    arrays = read(files[1], LIMITS[1])
    if "--chain" in options and read_chain(options["--chain"]):
        source = source.replace("# fake chained ", "# fake ")
    found = ANSWER.search(source)
    moves = MOVES.findall(source)[-1].replace("/", "\n") + "\n" if "--trace" in options else ""
    if found:
        text = re.sub(r"\{(\w+)\}", lambda it: str(line_of(source, it[1])), found[2])
        raise Ended(int(found[1]), moves + text)
    entries = json.loads(arrays)
    names = {**entries, "signal": signal, "time": time, "Path": Path}
    symbols, arguments = SYMBOL.findall(source), ARGUMENT.findall(FUNCTION.findall(source)[-1])
    for extra in sorted(set(entries) - set(symbols) - {name for name, _ in arguments}):
        raise Ended(4, f"arrays error 18 {extra}")
    for symbol in symbols:
        if symbol not in names:
            raise Ended(4, f"arrays error 11 {symbol}")
    for argument in arguments:
        array_line(*argument, names)
    if words[0] == "step":
        read_picks(files[2])
    if words[0] == "print":
        return GRAPH.findall(source)[-1].replace("/", "\n")
    if words[0] == "check":
        return CHECK.findall(source)[-1].replace("/", "\n")
    if words[0] == "plan":
        return PLAN.findall(source)[-1].replace("/", "\n")
    if words[0] == "matches":
        return MATCHES.findall(source)[-1].replace("/", "\n")
    wanted, turns = TURNS.search(source), int(options.get("--turns", MOST_TURNS))
    if wanted and int(wanted[1]) > turns:
        raise Ended(8, f"{moves}turns spent {turns}")
    for statements in STATEMENTS.findall(source):
        exec(statements, names)
    return moves + "\n".join(array_line(*it, names) for it in arguments)


def main() -> int:
    try:
        status, text = 0, answer(sys.argv[1:])
    except Ended as ended:
        status, text = ended.status, ended.text
    if status < 0:
        signal.raise_signal(-status)
    if text:
        print(text)
    return status


if __name__ == "__main__":
    sys.exit(main())
