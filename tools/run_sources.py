#!/usr/bin/env python3
"""Reads the sources of the tables in tools/sources, and the long ones of long_sources.py, and compares what becomes of
each with what is written there.

A table begins with what it shows. Each source stands behind a line '=== WANTED: RULE': what is wanted is a line that
the reader prints, and the rule says in words what it shows. The lines of a source are bytes as tools/table.py says.

Each source whose answer differs has a line, and the last line is 'N passed, M failed'. The status is 0 where there are
sources and none failed. A word on the command line picks the sources in whose place it stands.
"""
import re
import sys
from pathlib import Path

from long_sources import LONG
from reader import compare
from table import text_of

TABLES = Path(__file__).resolve().parent / "sources"
HEAD = re.compile(r"=== (source error \d+ at line \d+|\d+ programs, \d+ symbols): (\S.*)")


def table(path):
    """Returns the place of each source of a table, what is wanted and its bytes."""
    lines = path.read_text().split("\n")
    heads = [number for number, line in enumerate(lines) if line.startswith("===")]
    cases = []
    for head, end in zip(heads, heads[1:] + [len(lines)]):
        found = HEAD.fullmatch(lines[head])
        if found is None:
            sys.exit(f"{path}:{head + 1} says nothing that could be wanted: {lines[head]}")
        place = f"tools/sources/{path.name}:{head + 1}: {found[2]}"
        cases.append((place, found[1], text_of(lines[head + 1 : end])))
    return cases


def main():
    cases = [case for path in sorted(TABLES.glob("*.txt")) for case in table(path)]
    cases += [(f"tools/long_sources.py: {rule}", wanted, text) for wanted, rule, text in LONG]
    return 0 if compare([case for case in cases if all(word in case[0] for word in sys.argv[1:])]) else 1


if __name__ == "__main__":
    sys.exit(main())
