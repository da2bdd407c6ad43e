#!/usr/bin/env python3
"""Looks whether the runner takes its fast ways: no contract says which it takes, and a run that takes none prints the same.

    run_fast_ways.py [PROGRAM]

PROGRAM is the program to look at; without it, it is the one that the gate has built. Each of the programs below goes another fast way:
rows of a map, blocks of a row, rows of products, rows beside one another, elements that stand apart, one write for many values, places
that are computed, elements of a stream, lists of tasklets. It runs beside the same loops in CPython (plain_loops.py), as in bench.py.
Its ratio of processor seconds may be twice its mark, which is that of bench.py where this has the program, since other work may go on
beside. The slow ways take longer than that. Where inputs are read in place, the elements that are not asked for take no time: the same
program may take twice as long with 256 times as many of them.

The last line is 'N passed, M failed', and the status is 0 where none failed.
"""
import ctypes
import json
import sys
import tempfile
from pathlib import Path

import bench

SLACK = 2
RUNS = 3
ROUNDS = 8
HEAD = "import dace\nN = dace.symbol('N')\n"
ONE, TWO = "dace.int64[N]", "dace.int64[N, 4]"


def program(name, arguments, *lines, heads=HEAD):
    """Returns a program of this name with these lines."""
    return f"{heads}\n@dace.program\ndef {name}({arguments}):\n" + "".join(f"    {it}\n" for it in lines)


def repeated(name, arguments, *lines):
    """Returns a program of this name that runs these lines T times."""
    return program(name, arguments, "for t in range(T):", *(f"    {it}" for it in lines), heads=f"{HEAD}T = dace.symbol('T')\n")


MAP = "for i in dace.map[0:N]:"
LONG = "((A[i] * 3 + i) ^ (A[i] - 7)) + ((A[i] & 1023) | (i * 5)) - ((A[i] + i) & (A[i] - i)) + (A[i] - i) * (A[i] + 1)"
SCATTER = ["    with dace.tasklet:", "        a << A[i]", "        h >> H(1, lambda x, y: x + y)[0:N]", "        h[a] = 1"]
# A map of which each point reads one element out of many.
GATHER = ["    with dace.tasklet:", "        h << H[0:K]", "        a << A[i]", "        b >> B[i]", "        b = h[a]"]
GATHERED = 2**15
FEW = 2**6
MANY = 2**14
SOURCES = {
    "two": program("two", f"A: {ONE}, B: {ONE}, C: {ONE}", MAP, "    B[i] = A[i] + 1", "    C[i] = A[i] * 2"),
    "columns": repeated("columns", f"A: {ONE}, B: {ONE}", MAP, f"    B[i] = {LONG}"),
    "bands": repeated("bands", f"A: {TWO}, B: {TWO}", "for i, j in dace.map[0:N, 0:4]:", "    B[i, j] = A[i, j] + j"),
    "strides": repeated("strides", f"A: dace.int64[4 * N], B: {ONE}", MAP, "    B[i] = (A[4 * i] + A[4 * i + 3]) ^ (A[4 * i + 1] - A[4 * i + 2])"),
    "sums": repeated("sums", f"A: {ONE}, S: dace.int64[1]", MAP, "    S[0] += (A[i] ^ i) & 255"),
    "scatter": repeated("scatter", f"A: {ONE}, H: {ONE}", MAP, *SCATTER),
    "gather": program("gather", f"H: dace.int64[K], A: {ONE}, B: {ONE}", MAP, *GATHER, heads=f"{HEAD}K = dace.symbol('K')\n"),
    "tasklets": repeated("tasklets", f"A: {ONE}, B: {ONE}", MAP, "    B[i] = A[i] + i", "    B[i] = B[i] ^ 7"),
}


def drawn(count):
    return bench.numbers(count, 0, min(count, 1000000))


def two(small):
    count = 2**10 if small else 2**18
    return {"N": count, "A": bench.numbers(count, -1000000, 1000000), "B": [0] * count, "C": [0] * count}


def one_row(count, rounds):
    return lambda small: {"N": count, "T": rounds, "A": drawn(count), "B": [0] * count}


def short_rows(small):
    count = 2**13
    return {"N": count, "T": ROUNDS, "A": [drawn(4)] * count, "B": [[0] * 4] * count}


def fours(small):
    count = 2**13
    return {"N": count, "T": 4 * ROUNDS, "A": drawn(4 * count), "B": [0] * count}


def one_sum(small):
    return {"N": 2**13, "T": 8 * ROUNDS, "A": drawn(2**13), "S": [0]}


def places(small):
    return {"N": 2**13, "T": 8 * ROUNDS, "A": drawn(2**13), "H": [0] * 2**13}


def gathered(many):
    places = [it % many for it in bench.numbers(GATHERED, 0, 1000003)]
    return {"N": GATHERED, "K": many, "H": bench.numbers(many, -1000000, 1000000), "A": places, "B": [0] * GATHERED}


# What is shown of a program, its name, its arrays, and half the greatest ratio to CPython's seconds.
OWN = [
    ("a map of two statements", "two", two, 3 / 8),
    ("blocks of rows", "columns", one_row(2**13, 2 * ROUNDS), 1 / 28),
    ("rows of four elements", "bands", short_rows, 1 / 8),
    ("elements that stand apart", "strides", fours, 1 / 20),
    ("one write for many values", "sums", one_sum, 1 / 40),
    ("places that are computed", "scatter", places, 1 / 12),
    ("a list of two tasklets", "tasklets", one_row(2**13, ROUNDS), 1 / 2),
]


def ways(folder):
    """Returns of each program what is shown of it, its source, its arrays and its mark."""
    for name, text in SOURCES.items():
        (folder / f"{name}.py").write_text(text)
    shipped = [(shown, bench.TOP / "examples" / file, arrays, mark) for shown, file, arrays, mark in bench.PROGRAMS]
    return shipped + [(shown, folder / f"{name}.py", arrays, mark) for shown, name, arrays, mark in OWN]


def seconds_of(binary, source, given):
    """Returns the processor seconds of a run."""
    with tempfile.NamedTemporaryFile("w", suffix=".json") as arrays:
        json.dump(given, arrays, separators=(",", ":"))
        arrays.flush()
        ((seconds, _, _),) = bench.measured([[binary, "run", source, arrays.name, "--turns", str(bench.TURNS)]])
    return seconds


def ratio_of(binary, source, given):
    """Returns the ratio of processor seconds, and whether both sides print the same."""
    with tempfile.NamedTemporaryFile("w", suffix=".json") as arrays:
        json.dump(given, arrays, separators=(",", ":"))
        arrays.flush()
        words = [binary, "run", source, arrays.name, "--turns", str(bench.TURNS)]
        (ours, _, text), (theirs, _, other) = bench.measured([words, [sys.executable, bench.LOOPS, source.stem, arrays.name]])
    return ours / theirs, text == other


def main():
    binary = Path(sys.argv[1] if len(sys.argv) > 1 else bench.BUILT).resolve()
    ctypes.CDLL(None).prctl(bench.PR_SET_CHILD_SUBREAPER, 1, 0, 0, 0)
    bench.RUNS = RUNS
    passed = failed = 0
    with tempfile.TemporaryDirectory() as folder:
        for name, source, arrays, mark in ways(Path(folder)):
            ratio, same = ratio_of(binary, source, arrays(False))
            if same and ratio <= SLACK * mark:
                passed += 1
            else:
                failed += 1
                print(f"{name}: {'another text' if not same else f'{ratio:.2f} of the seconds of CPython, and not {SLACK * mark:.2f}'}")
        few, many = (seconds_of(binary, Path(folder) / "gather.py", gathered(count)) for count in (FEW, MANY))
        if many <= SLACK * few:
            passed += 1
        else:
            failed += 1
            print(f"one element out of {MANY}: {many / few:.1f} times the seconds of one out of {FEW}, and not {SLACK}")
    print(f"{passed} passed, {failed} failed")
    return failed > 0


if __name__ == "__main__":
    sys.exit(main())
