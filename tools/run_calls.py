#!/usr/bin/env python3
"""Runs the calls of the tables in tools/calls, and those of made_calls.py, and compares what is written, byte for byte.

Each `run` among them is also done by several workers, and has to print the same (worker_calls.py).

A table begins with lines that say what it shows. These lines begin its sections:
  === WORDS            a case, and what it shows in words
  --- FILE             the content of a file, written before the calls behind it
  $ WORDS              a call with these words, split as a shell splits them
  --- prints STATUS    the exact standard output and the status of the call before it
A case has one call or more. A file lasts to the end of its case, or until it has another content; a file before the first
case is there for each case. Lines are bytes as tools/table.py says. Nothing below `--- prints` is no output, and a lone
backslash is an empty file. A line of a file that begins as a section does has its first byte written as `\\xNN`.

Each call runs in a new folder with its files alone, and has 120 seconds and no input. Standard error must be empty. Each
call that differs has a line with its place and the lines that differ, and the last line is 'N passed, M failed'. The status
is 0 where there are calls and none failed. A word on the command line picks the calls in whose place it stands.
"""
from __future__ import annotations

import difflib
import os
import re
import shlex
import subprocess
import sys
import tempfile
from collections.abc import Iterator
from concurrent.futures import ThreadPoolExecutor
from dataclasses import dataclass
from pathlib import Path

from made_calls import MADE
from table import text_of
from worker_calls import by_workers

TOP = Path(__file__).resolve().parent.parent
TABLES = TOP / "tools/calls"
SDFG = TOP / "sdfg"
PROGRAM = TOP / "crates/sdfg/out/sdfg"
NOT_BUILT = 70
SECONDS = 120
# The longest line that is shown of a difference.
COLUMNS = 300
SECTION = re.compile(r"=== (?P<case>\S.*)|\$(?P<call>| .*)|--- prints (?P<status>\d+)|--- (?P<file>\S+)")


class NoTable(ValueError):
    """A text is no table of calls."""


@dataclass
class Call:
    """A call, and what is wanted of it."""

    place: str
    words: list[str]
    files: dict[str, bytes]
    status: int | None = None
    printed: bytes = b""


def sections(lines: list[str]) -> Iterator[tuple[int, re.Match[str], list[str]]]:
    """Yields the place of each section, its first line as matched, and the lines below it."""
    heads = [(at, SECTION.fullmatch(line)) for at, line in enumerate(lines) if line.startswith(("===", "---", "$"))]
    for (at, found), (end, _) in zip(heads, heads[1:] + [(len(lines), None)]):
        if found is None:
            raise NoTable(f"line {at + 1} begins no section: {lines[at]}")
        yield at + 1, found, lines[at + 1 : end]


class Reader:
    """Reads the sections of a table of this name."""

    def __init__(self, name: str) -> None:
        self.name = name
        self.calls: list[Call] = []
        self.case = ""
        self.first = 0
        self.shared: dict[str, bytes] = {}
        self.files = self.shared

    def end_of_call(self) -> None:
        if self.calls and self.calls[-1].status is None:
            raise NoTable(f"nothing is wanted of {self.calls[-1].place}")

    def end_of_case(self) -> None:
        self.end_of_call()
        if self.case and len(self.calls) == self.first:
            raise NoTable(f"there is no call of the case '{self.case}'")

    def section(self, line: int, found: re.Match[str], below: list[str]) -> None:
        """Takes one section, which begins at this line."""
        if found["case"] is not None:
            self.end_of_case()
            self.case, self.first, self.files = found["case"], len(self.calls), dict(self.shared)
        elif found["call"] is not None:
            self.call(line, found["call"].strip())
        elif found["status"] is not None:
            self.wanted(line, int(found["status"]), below)
        else:
            self.files[found["file"]] = text_of(below)

    def call(self, line: int, words: str) -> None:
        self.end_of_call()
        if not self.case:
            raise NoTable(f"the call of line {line} has no case")
        place = f"tools/calls/{self.name}:{line}: {self.case}: {words}"
        self.calls.append(Call(place, shlex.split(words), dict(self.files)))

    def wanted(self, line: int, status: int, below: list[str]) -> None:
        if len(self.calls) == self.first or self.calls[-1].status is not None:
            raise NoTable(f"line {line} has no call before it")
        self.calls[-1].status = status
        self.calls[-1].printed = text_of(below) if any(below) else b""


def table(name: str, text: str) -> list[Call]:
    """Returns the calls of a table."""
    reader = Reader(name)
    for line, found, below in sections(text.split("\n")):
        reader.section(line, found, below)
    reader.end_of_case()
    return reader.calls


def shown(wanted: bytes, found: bytes) -> list[str]:
    """Returns the lines that differ in two outputs, as a diff."""
    texts = [it.decode("utf-8", "backslashreplace").splitlines(keepends=True) for it in (wanted, found)]
    lines = difflib.unified_diff(*texts, "wanted", "printed", n=1)
    lines = [line[:COLUMNS] + ".." * (len(line) > COLUMNS) for line in lines]
    return [line if line.endswith("\n") else f"{line} (no newline, or cut)\n" for line in lines]


def difference(call: Call, program: Path = PROGRAM) -> list[str]:
    """Runs a call, and returns lines that say what differs."""
    with tempfile.TemporaryDirectory() as folder:
        for name, content in call.files.items():
            file = Path(folder) / name
            file.parent.mkdir(parents=True, exist_ok=True)
            file.write_bytes(content)
        how = {"cwd": folder, "stdin": subprocess.DEVNULL, "capture_output": True, "timeout": SECONDS}
        try:
            ran = subprocess.run(["sdfg", *call.words], executable=program, **how)
        except subprocess.TimeoutExpired:
            return [f"it had not ended after {SECONDS} seconds\n"]
    lines = [] if ran.returncode == call.status else [f"the status is {ran.returncode}, and not {call.status}\n"]
    if ran.stdout != call.printed:
        lines += shown(call.printed, ran.stdout)
    if ran.stderr:
        lines.append(f"standard error has {ran.stderr[:200]!r}\n")
    return lines


def read() -> list[Call]:
    """Returns the calls of all tables, those that are made, and each run by several workers."""
    calls = [Call(f"tools/made_calls.py: {it[0]}: {it[1]}", shlex.split(it[1]), *it[2:]) for it in MADE]
    for path in sorted(TABLES.glob("*.txt")):
        try:
            calls += table(path.name, path.read_text())
        except NoTable as why:
            sys.exit(f"tools/calls/{path.name}: {why}")
    return calls + list(by_workers(calls))


def main() -> int:
    calls = [call for call in read() if all(word in call.place for word in sys.argv[1:])]
    # The first run builds the program, and standard error says how far that is.
    built = subprocess.run([SDFG], stdin=subprocess.DEVNULL, stdout=subprocess.DEVNULL)
    if not calls or built.returncode == NOT_BUILT:
        print("there is no call" if not calls else "the program was not built")
        print(f"0 passed, {len(calls) or 1} failed")
        return 1
    failed = 0
    with ThreadPoolExecutor(os.cpu_count()) as workers:
        for call, lines in zip(calls, workers.map(difference, calls)):
            if lines:
                failed += 1
                print(f"{call.place}\n{''.join(lines)}", end="", flush=True)
    print(f"{len(calls) - failed} passed, {failed} failed")
    return 1 if failed else 0


if __name__ == "__main__":
    sys.exit(main())
