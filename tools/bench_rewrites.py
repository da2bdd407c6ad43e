#!/usr/bin/env python3
"""Times a product of matrices and a transposition, plain and behind each chain, by 1, 2 and 4 workers.

    tools/bench_rewrites.py [--size N] [--runs R] [PROGRAM]

PROGRAM is the program to time; without it, it is the one that ./sdfg runs. N is the extent of each matrix; where it is not given, the matrices
are larger than the caches of a processor. A line of the table has a chain, and of each number of workers the seconds of a whole call by the
clock and of its processors, each the least of R runs. Those of `check` on the same files, which reads them, have a line of their own. Beside
them stand the same loops in CPython, and in C by gcc -O2, plain and in tiles, where gcc is there; these are timed without reading and
printing. What is printed is compared with what the plain call prints. Nothing here has a mark: the figures are for docs/RUNNING.md. The
status is 0 where all print the same.
"""
from __future__ import annotations

import argparse
import json
import re
import resource
import shutil
import subprocess
import sys
import tempfile
import time
from collections.abc import Callable
from dataclasses import dataclass
from pathlib import Path

import bench

WORKERS = (1, 2, 4)
HEAD = "import dace\nN = dace.symbol('N')\n@dace.program\n"
SQUARE = "dace.int64[N, N]"
PRODUCT = f"""{HEAD}def product(A: {SQUARE}, B: {SQUARE}, C: {SQUARE}):
    for i, j, k in dace.map[0:N, 0:N, 0:N]:
        C[i, j] += A[i, k] * B[k, j]
"""
TRANSPOSITION = f"""{HEAD}def transposed(A: {SQUARE}, B: {SQUARE}):
    for i, j in dace.map[0:N, 0:N]:
        B[j, i] = A[i, j]
"""
# The loops in C: they are run until a hundredth of a second has passed, and the seconds of one round are printed.
C_PROGRAM = """#include <stdint.h>
#include <stdio.h>
#include <stdlib.h>
#include <time.h>
static double now(void) { struct timespec t; clock_gettime(CLOCK_MONOTONIC, &t); return t.tv_sec + t.tv_nsec / 1e9; }
int main(int count, char **words) {
    int64_t n = atoll(words[1]), *A = calloc(n * n, 8), *B = calloc(n * n, 8), *C = calloc(n * n, 8), rounds = 0;
    for (int64_t k = 0; k < n * n; k++) A[k] = k * 7919 % 200 - 100, B[k] = A[k];
    double begin = now(), end;
    do { LOOPS rounds++; end = now(); } while (end - begin < 0.01);
    printf("%.9f\\n", (end - begin) / rounds);
    return C[n] == 1 && B[n] == 1;
}
"""
C_PRODUCT = "for (int64_t i = 0; i < n; i++) for (int64_t j = 0; j < n; j++) for (int64_t k = 0; k < n; k++) C[i * n + j] += A[i * n + k] * B[k * n + j];"
C_TRANSPOSITION = "for (int64_t i = 0; i < n; i++) for (int64_t j = 0; j < n; j++) B[j * n + i] = A[i * n + j];"
# The size of a tile in each direction, in C and in the chains.
TILE = 32
C_TILE = f"for (int64_t V0 = 0; V0 < n; V0 += {TILE}) "
C_IN_TILE = f"for (int64_t V = V0; V < n && V < V0 + {TILE}; V++) "


def product_in_python(given: dict) -> None:
    first, second, third = given["A"], given["B"], given["C"]
    span = range(given["N"])
    for i in span:
        for j in span:
            for k in span:
                third[i][j] += first[i][k] * second[k][j]


def transposition_in_python(given: dict) -> None:
    first, second = given["A"], given["B"]
    span = range(given["N"])
    for i in span:
        for j in span:
            second[j][i] = first[i][j]


@dataclass
class Program:
    """A program with its arrays besides N and the extent that passes the caches; its chains; and its loops in Python and in C."""

    name: str
    source: str
    arrays: str
    size: int
    chains: tuple[tuple[str, ...], ...]
    in_python: Callable[[dict], None]
    in_c: str


EXPANDED = ("MapExpansion 1.2", "MapExpansion 1.3")
PRODUCT_TILES = f"MapTiling 1.2 {TILE} {TILE} {TILE}"
TILES = f"MapTiling 1.1 {TILE} {TILE}"
PROGRAMS = (
    Program(
        "product",
        PRODUCT,
        "ABC",
        512,
        (
            (),
            EXPANDED[:1],
            EXPANDED,
            (*EXPANDED, "MapCollapse 1.2"),
            (*EXPANDED, "MapInterchange 1.3", "MapCollapse 1.3", "MapCollapse 1.2"),
            (PRODUCT_TILES,),
            (PRODUCT_TILES, "MapExpansion 1.3", "MapExpansion 1.4", "MapInterchange 1.4"),
        ),
        product_in_python,
        C_PRODUCT,
    ),
    Program(
        "transposition",
        TRANSPOSITION,
        "AB",
        2048,
        (
            (),
            ("MapExpansion 1.1",),
            ("MapExpansion 1.1", "MapCollapse 1.1"),
            ("MapExpansion 1.1", "MapInterchange 1.1"),
            ("MapExpansion 1.1", "MapInterchange 1.1", "MapCollapse 1.1"),
            (TILES,),
            (TILES, "MapExpansion 1.2", "MapInterchange 1.2"),
        ),
        transposition_in_python,
        C_TRANSPOSITION,
    ),
)


def arrays_of(names: str, count: int) -> dict:
    zeros = [[0] * count for _ in range(count)]
    return {"N": count, **{name: zeros if name == names[-1] else bench.matrix(count) for name in names}}


def called(words: list[str]) -> bytes:
    return subprocess.run(words, stdin=subprocess.DEVNULL, stdout=subprocess.PIPE, check=True).stdout


def processor_seconds() -> float:
    used = resource.getrusage(resource.RUSAGE_CHILDREN)
    return used.ru_utime + used.ru_stime


def timed(runs: int, words: list[str]) -> tuple[str, bytes]:
    """Returns the least seconds of some calls by the clock and of the processors, as text, and what the last one printed."""
    clock, processors, printed = [], [], b""
    for _ in range(runs):
        begin, used = time.perf_counter(), processor_seconds()
        printed = called(words)
        clock.append(time.perf_counter() - begin)
        processors.append(processor_seconds() - used)
    return f"{min(clock):.3f}, {min(processors):.3f}", printed


def in_python(loops: Callable[[dict], None], given: dict) -> str:
    begin = time.process_time()
    loops(given)
    return f"{time.process_time() - begin:.4f}"


def in_tiles(loops: str) -> str:
    """Returns loops in C tile by tile: a loop over the begins of the tiles for each, and behind them one over each tile."""
    names = re.findall(r"for \(int64_t (\w)", loops)
    body = loops[loops.rindex("++) ") + len("++) ") :]
    return "".join([*(C_TILE.replace("V", it) for it in names), *(C_IN_TILE.replace("V", it) for it in names), body])


def in_c(loops: str, count: int, folder: Path) -> str:
    """Returns the seconds of loops in C, as text, or a dash where there is no gcc."""
    if shutil.which("gcc") is None:
        return "-"
    source, program = folder / "loops.c", folder / "loops"
    source.write_text(C_PROGRAM.replace("LOOPS", loops))
    subprocess.run(["gcc", "-O2", "-w", "-o", program, source], check=True)
    return f"{float(called([str(program), str(count)])):.6f}"


def calls_of(program: Program, binary: str, words: argparse.Namespace, files: list[str], folder: Path) -> bool:
    """Prints the line of each chain, and returns whether all calls print the same."""
    same, plain = True, b""
    for chain in program.chains:
        file = folder / "chain"
        file.write_text("".join(f"{line}\n" for line in chain))
        cells = []
        for count in WORKERS:
            options = ["--workers", str(count), "--turns", str(bench.TURNS), *(["--chain", str(file)] if chain else [])]
            seconds, printed = timed(words.runs, [binary, "run", *files, *options])
            plain = plain or printed
            same = same and printed == plain
            cells.append(seconds)
        print(f"| {program.name} | {', '.join(chain) or 'none'} | {' | '.join(cells)} |", flush=True)
    return same


def rows(program: Program, binary: str, words: argparse.Namespace, folder: Path) -> bool:
    """Prints the lines of a program, and returns whether all calls print the same."""
    count = words.size or program.size
    given = arrays_of(program.arrays, count)
    files = [str(folder / f"{program.name}.py"), str(folder / f"{program.name}.json")]
    Path(files[0]).write_text(program.source)
    Path(files[1]).write_text(json.dumps(given, separators=(",", ":")))
    print(f"| {program.name}, {count} times {count} | `check` alone | {timed(words.runs, [binary, 'check', *files])[0]} |  |  |", flush=True)
    same = calls_of(program, binary, words, files, folder)
    others = in_python(program.in_python, given), in_c(program.in_c, count, folder), in_c(in_tiles(program.in_c), count, folder)
    print(f"| {program.name} | CPython; gcc -O2; gcc -O2 in tiles | {'; '.join(others)} |  |  |", flush=True)
    return same


def main() -> int:
    words = argparse.ArgumentParser(description=__doc__, formatter_class=argparse.RawDescriptionHelpFormatter)
    words.add_argument("--size", type=int)
    words.add_argument("--runs", type=int, default=3)
    words.add_argument("program", nargs="?", default=str(bench.BUILT))
    words = words.parse_args()
    if words.program == str(bench.BUILT) and subprocess.run([bench.TOP / "sdfg"], stdin=subprocess.DEVNULL, stdout=subprocess.DEVNULL).returncode == bench.NOT_BUILT:
        print("the program was not built")
        return 1
    print(f"| Matrices | Chain | {' | '.join(f'{it} workers' if it > 1 else '1 worker' for it in WORKERS)} |")
    print("|---|---|" + "---|" * len(WORKERS))
    with tempfile.TemporaryDirectory() as folder:
        same = all([rows(it, str(Path(words.program).resolve()), words, Path(folder)) for it in PROGRAMS])
    if not same:
        print("not all calls print the same")
    return 0 if same else 1


if __name__ == "__main__":
    sys.exit(main())
