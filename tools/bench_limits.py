#!/usr/bin/env python3
"""Times shapes within the limits that may take long or much memory: many loops, accesses, nodes, names, points and elements.

    tools/bench_limits.py [--program PROGRAM] [--seconds S] [WORD ..]

PROGRAM is the program to time; without it, it is the one that ./sdfg runs. WORDs pick the shapes in whose names each of them
stands. Each shape is run once and has a line with

- its processor seconds, user and system of the whole process, its mark where it has one, and whether it was met;
- its peak memory in MiB, likewise: most marks are three times the arrays and twice the arrays file, as those of bench.py.

A run that takes more than S processor seconds, 60 where none are told, is ended. The status is 0 where no mark was missed and each
run ended with the status that it should have.
"""
from __future__ import annotations

import argparse
import ctypes
import subprocess
import sys
import tempfile
from collections.abc import Callable, Iterator
from dataclasses import dataclass
from pathlib import Path

import bench

SECONDS = 60
WITHIN = 'ulimit -t "$1" && shift && exec "$@"'
MIB = 2**20
SYMBOL = "N = dace.symbol('N')\n"


@dataclass
class Shape:
    """A call with the texts of its files, its marks, in seconds and bytes, and its status."""

    name: str
    command: str
    source: str
    arrays: str = '{"A":[1]}'
    picks: str = ""
    seconds: float | None = None
    memory: int | None = None
    status: int = 0


Shapes = Iterator[Shape]


def program(body: list[str], arguments: str, name: str = "f", head: str = "") -> str:
    return f"{head}@dace.program\ndef {name}({arguments}):\n" + "".join(f"    {line}\n" for line in body)


def memory_of(arrays: str, elements: int) -> int:
    """Returns how much memory a run with this file and so many elements may take."""
    return 3 * 8 * elements + 2 * len(arrays)


# Loops, where the variables in force are told: `print` and `check` look for them in each state.


def loops() -> Shapes:
    one = "A: dace.int64[1]"
    body = [line for _ in range(63) for line in ("for k in range(1):", "    A[0] = 1")]
    yield Shape("63 loops", "print", program(body, one), seconds=1)
    inner = program(body, one, "g")
    yield Shape("63 loops in each of 8 calls", "print", inner + program(["g(A)"] * 8, one), seconds=1)
    for count in (8, 32, 128):
        head, inner_head = (f"for {', '.join(it * n for it in 'pqrstuvw')} in dace.map[{', '.join(['0:1'] * 8)}]:" for n in (1, 2))
        below = [line for _ in range(count // 8 - 1) for line in (f"        {inner_head}", "            A[0] += 1")]
        body = [line for _ in range(63) for line in ("for k in range(1):", f"    {head}", "        A[0] += 1", *below)]
        for command in ("print", "check"):
            yield Shape(f"63 loops with {count} parameters", command, program(body, one), seconds=1)


# Accesses, which the race check compares.


def accesses() -> Shapes:
    for count in (6400, 12800, 25600):
        rows = count // 64
        reads = [f"    B[{row}, i] = " + " + ".join(f"A[{64 * row + n}, i]" for n in range(63)) for row in range(rows)]
        rewrites = [it.replace("B[", "A[") for it in reads]
        writes = []
        for row in range(rows):
            writes += ["    with dace.tasklet:", f"        x << B[{row}, i]"]
            writes += [f"        o{n} >> A[{64 * row + n}, i]" for n in range(63)] + ["        o0 = x"]
        zeros = ["[" + ",".join(["[1]"] * it) + "]" for it in (64 * rows, rows)]
        arguments = f"A: dace.int64[{64 * rows}, N], B: dace.int64[{rows}, N]"
        for kind, statements in (("of two arrays", reads), ("of one array", rewrites), ("that write", writes)):
            source = program(["for i in dace.map[0:N]:", *statements], arguments, head=SYMBOL)
            arrays = f'{{"N":1,"A":{zeros[0]},"B":{zeros[1]}}}'
            yield Shape(f"{count} accesses {kind}", "check", source, arrays, seconds=2)
    inner = program(["for i in dace.map[0:1]:"] + [f"    A[i + {n}] = {n}" for n in range(1000)], "A: dace.int64[1000]", "g")
    source = inner + program(["g(A)"] * 64, "A: dace.int64[1000]")
    for command in ("check", "run"):
        yield Shape("64 calls of a map of 1,000 statements", command, source, f'{{"A":[{",".join(["1"] * 1000)}]}}', seconds=2)


# What is printed or read whole.


def texts() -> Shapes:
    inner = program(["for i in dace.map[0:4]:"] + ["    A[i] = 1"] * 1021, "A: dace.int64[4]", "g")
    yield Shape("65,000 nodes", "print", inner + program(["g(A)"] * 63, "A: dace.int64[4]"), '{"A":[1,2,3,4]}', memory=100 * MIB)
    names = ",".join(f'"{n:08x}":{n % 1000:03}'.replace(":0", ":1") for n in range(2**26 // 16))
    arrays = "{" + names[: 2**26 - 20].rsplit(",", 1)[0] + "}"
    source = program(["A[0] = 1"], "A: dace.int64[1]")
    yield Shape("4 million names that are not there", "run", source, arrays, memory=4 * len(arrays), status=4)


# Points that have begun, and moves over many elements.


def moves() -> Shapes:
    count = 333_333
    ones = ",".join("1" * count)
    source = program(["for i in dace.map[0:N]:", "    B[i] = A[i] + 1"], "A: dace.int64[N], B: dace.int64[N]", head=SYMBOL)
    arrays = f'{{"N":{count},"A":[{ones}],"B":[{ones}]}}'
    picks = " ".join(map(str, range(count)))
    memory = 200 * count + memory_of(arrays, 2 * count)
    yield Shape(f"{count} points that have begun", "step", source, arrays, "0 " + picks, memory=memory)
    count = 2**22
    arrays = f'{{"A":[{",".join("1" * count)}]}}'
    local = f"B = dace.define_local([{count}], dtype=dace.int64)"
    source = program([local, f"B[0:{count}] = A[0:{count}]"], f"A: dace.int64[{count}]")
    for command in ("run", "step"):
        yield Shape("a copy of 2^22 elements", command, source, arrays, memory=memory_of(arrays, 2 * count))
    code = ["with dace.tasklet:", f"    a << A[0:{count}]", "    b >> A[0]", "    b = a[1]"]
    yield Shape("an input of 2^22 elements", "run", program(code, f"A: dace.int64[{count}]"), arrays, memory=memory_of(arrays, count))
    code = ["R = dace.define_local([1], dtype=dace.int64)", "dace.reduce(lambda x, y: x + y, A, R)"]
    yield Shape("a reduction of 2^22 elements", "run", program(code, f"A: dace.int64[{count}]"), arrays, memory=memory_of(arrays, count))


# Runs whose time is linear in what they do; they have no marks.


def runs() -> Shapes:
    one = "A: dace.int64[1]"
    body = ["for k in range(490000):", "    for i in dace.map[0:1]:", "        A[i] += 1"]
    yield Shape("490,000 maps of one point in a loop", "run", program(body, one))
    body = ["for i in dace.map[0:900000]:", "    for j in dace.map[0:1]:", "        A[j] += 1"]
    yield Shape("900,000 maps of one point in a map", "run", program(body, one))
    body = ["for i in dace.map[0:1048576]:", "    for j in dace.map[0:0]:", "        A[j] += 1"]
    yield Shape("2^20 maps without points in a map", "run", program(body, one))
    arrays = f'{{"A":[{",".join(["1"] * 1000)}]}}'
    local = "B = dace.define_local([1000], dtype=dace.int64)"
    body = [local, "for k in range(10000):", "    B[0:1000] = A[0:1000]"]
    yield Shape("10^7 elements copied", "run", program(body, "A: dace.int64[1000]"), arrays)
    local = "R = dace.define_local([1], dtype=dace.int64)"
    body = [local, "for k in range(10000):", "    dace.reduce(lambda x, y: x + y, A, R)"]
    yield Shape("10^7 elements reduced", "run", program(body, "A: dace.int64[1000]"), arrays)


KINDS: tuple[Callable[[], Shapes], ...] = (loops, accesses, texts, moves, runs)
HEAD = ["shape", "command", "seconds", "mark", "", "MiB", "mark", "", "status"]
WIDTHS = [38, 7, 8, 6, 7, 8, 8, 7, 7]


def shown(cells: list[str]) -> str:
    return " ".join(f"{cell:<{width}}" if at < 2 else f"{cell:>{width}}" for at, (cell, width) in enumerate(zip(cells, WIDTHS))).rstrip()


def timed(binary: Path, shape: Shape, seconds: int) -> tuple[list[str], bool]:
    """Runs a shape, and returns the cells of its line, and whether all is well."""
    with tempfile.TemporaryDirectory() as folder, open("/dev/null", "wb") as out:
        files = {"a.py": shape.source, "a.json": shape.arrays, "picks": shape.picks}
        for name, text in files.items():
            (Path(folder) / name).write_text(text)
        words = [binary, shape.command, f"{folder}/a.py", f"{folder}/a.json"]
        words += [f"{folder}/picks"] * (shape.command == "step") + ["--turns", str(bench.TURNS)] * (shape.command in ("run", "step"))
        status, usage = bench.run(["/bin/sh", "-c", WITHIN, "sh", str(seconds), *words], out)
    spent, peak = usage.ru_utime + usage.ru_stime, usage.ru_maxrss * 1024
    verdicts = [bench.verdict(spent, shape.seconds), bench.verdict(peak, shape.memory)]
    ended = f"{status}" if status == shape.status else "ended" if status < 0 else f"{status}, not {shape.status}"
    marks = ["-" if shape.seconds is None else f"{shape.seconds:g}", "-" if shape.memory is None else f"{shape.memory / MIB:.0f}"]
    cells = [shape.name, shape.command, f"{spent:.2f}", marks[0], verdicts[0], f"{peak / MIB:.1f}", marks[1], verdicts[1], ended]
    return cells, status == shape.status and "missed" not in verdicts


def main() -> int:
    words = argparse.ArgumentParser(description=__doc__, formatter_class=argparse.RawDescriptionHelpFormatter)
    words.add_argument("--program", type=Path, help="the program to time; else the one that ./sdfg runs")
    words.add_argument("--seconds", type=int, default=SECONDS, help="the most processor seconds of a run")
    words.add_argument("words", nargs="*", metavar="WORD", help="time the shapes in whose names each of these stands")
    words = words.parse_args()
    binary = words.program
    if binary is None:
        if subprocess.run([bench.TOP / "sdfg"], stdin=subprocess.DEVNULL, stdout=subprocess.DEVNULL).returncode == bench.NOT_BUILT:
            return 1
        binary = bench.BUILT
    ctypes.CDLL(None).prctl(bench.PR_SET_CHILD_SUBREAPER, 1, 0, 0, 0)
    print(shown(HEAD), flush=True)
    good = True
    for kind in KINDS:
        for shape in kind():
            if all(word in f"{shape.name} {shape.command}" for word in words.words):
                cells, fine = timed(binary.resolve(), shape, words.seconds)
                print(shown(cells), flush=True)
                good = good and fine
    return 0 if good else 1


if __name__ == "__main__":
    sys.exit(main())
