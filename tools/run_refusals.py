#!/usr/bin/env python3
"""Reads the sources that docs/LANGUAGE.md shows as refused, and compares what is said of each with the document.

A source is a block between lines of three backquotes, and the line behind it, empty lines aside, is the line that it is
refused with, in backquotes. Each block is such a source. Each source whose answer differs has a line, and the last line is
'N passed, M failed'. The status is 0 where there are sources and none failed.
"""
import re
import sys
from pathlib import Path

from reader import compare

LANGUAGE = Path(__file__).resolve().parent.parent / "docs/LANGUAGE.md"
BLOCK = re.compile(r"^```.*?\n(.*?)^```\n+(?:`(source error \d+ at line \d+)`$)?", re.MULTILINE | re.DOTALL)


def cases():
    """Returns the place of each source, what is wanted and its text. A block without a refusal behind it wants one that never comes."""
    text = LANGUAGE.read_text()
    return [
        (f"docs/LANGUAGE.md:{text.count(chr(10), 0, found.start()) + 1}", found[2] or "told behind the block", found[1].encode())
        for found in BLOCK.finditer(text)
    ]


if __name__ == "__main__":
    sys.exit(0 if compare(cases()) else 1)
