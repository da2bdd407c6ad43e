"""What a call of run_limits.py is, the cases by their names, and how their sources, files and answers are written.

A case is a function that yields its calls (limit_cases.py, limit_chains.py, limit_sources.py, limit_counts.py, limit_shapes.py). Nothing asks the program:
sums, products and differences are those of Python taken modulo 2^64, and orders of moves are kept as lists.
"""
from __future__ import annotations

import random
from collections.abc import Callable, Iterator
from dataclasses import dataclass, field

LEAST, GREATEST = -(2**63), 2**63 - 1
SOURCE_BYTES, ARRAYS_BYTES, PICKS_BYTES = 2**20, 2**26, 2**24
ELEMENTS = 2**24
TURNS = ["--turns", str(2**40)]


@dataclass
class Call:
    """A call, and what is wanted of it; with a limit on seconds, on MiB of addresses and on seconds of a processor, or without."""

    place: str
    words: list[str]
    files: dict[str, bytes] = field(repr=False)
    printed: bytes = field(repr=False)
    status: int = 0
    seconds: int = 0
    megabytes: int = 0
    processor: int = 0


Calls = Iterator[Call]
CASES: list[Callable[[], Calls]] = []


def case(function: Callable[[], Calls]) -> Callable[[], Calls]:
    CASES.append(function)
    return function


def wrapped(number: int) -> int:
    return (number - LEAST) % 2**64 + LEAST


def drawn(count: int, seed: int = 1) -> list[int]:
    """Returns numbers over the whole range of an element, both ends among them."""
    return [LEAST, GREATEST, -1, 0][:count] + [wrapped((k + seed) * 0x9E3779B97F4A7C15) for k in range(4, count)]


def program(body: list[str], arguments: str, symbols: str = "", name: str = "f") -> str:
    """Returns a program with these lines in its block, below size symbols with these letters."""
    heads = "".join(f"{it} = dace.symbol('{it}')\n" for it in symbols.split())
    return f"{heads}@dace.program\ndef {name}({arguments}):\n" + "".join(f"    {line}\n" for line in body)


def leaves(array: list) -> list[int]:
    return [leaf for row in array for leaf in leaves(row)] if array and isinstance(array[0], list) else array


def json_of(given: dict) -> bytes:
    """Returns an arrays file."""

    def text(value) -> str:
        return f"[{','.join(map(text, value))}]" if isinstance(value, list) else str(value)

    return f"{{{','.join(f'{chr(34)}{name}{chr(34)}:{text(it)}' for name, it in given.items())}}}".encode()


def printed(**arrays: list) -> bytes:
    """Returns the lines of arrays: each a list in lists, none of them empty."""
    lines = []
    for name, array in arrays.items():
        extents, row = [], array
        while isinstance(row, list):
            extents.append(len(row))
            row = row[0]
        lines.append(f"{name}[{','.join(map(str, extents))}] = {' '.join(map(str, leaves(array)))}\n")
    return "".join(lines).encode()


def files(source: str, given: dict | bytes, picks: list[int] | bytes | None = None) -> dict[str, bytes]:
    found = {"a.py": source.encode(), "a.json": given if isinstance(given, bytes) else json_of(given)}
    if picks is not None:
        found["picks"] = picks if isinstance(picks, bytes) else " ".join(map(str, picks)).encode()
    return found


RUN = ["run", "a.py", "a.json", *TURNS]
STEP = ["step", "a.py", "a.json", "picks", *TURNS]


def both(place: str, source: str, given: dict, wanted: bytes, picks: int = 1000) -> Calls:
    """Yields a call of `run` and one of `step` by so many picks, which print the same."""
    draw = random.Random(place)
    yield Call(f"{place}, run", RUN, files(source, given), wanted)
    yield Call(f"{place}, step", STEP, files(source, given, [draw.randrange(2**64) for _ in range(picks)]), wanted)


INC = program(["for i in dace.map[0:N]:", "    B[i] = A[i] + 1"], "A: dace.int64[N], B: dace.int64[N]", "N")
