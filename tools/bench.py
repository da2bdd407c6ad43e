#!/usr/bin/env python3
"""Times five programs of examples/ run by sdfg, beside the same loops in CPython (plain_loops.py).

    tools/bench.py [--size small] [PROGRAM]

PROGRAM is the program to time; without it, it is the one that ./sdfg runs, which is proved and built first where it is
not. Each side reads the same arrays file and prints the arrays after the run, and what they print is compared. A line for
each program has

- the processor seconds of both, user and system of the whole process, the least of five runs in turns, and their ratio;
- the peak memory of both in MiB, the greatest of five runs, and the ratio of sdfg's to its limit: three times the arrays and
  twice the arrays file.

Two lines more time calls from Python (python_calls.py), the least of five runs: what the package converts, of two NumPy arrays of 10^7
elements, beside the run of these, with the peak of all it takes beside three times the arrays; and twenty calls on small arrays, all in
all beside 0.2 seconds. The first is left out where no Python has NumPy.

Behind a ratio stands its mark and whether it was met. A peak has no mark where its limit is below 1 MiB, which is less than
what the program's own pages take. With --size small the programs run on few elements, for a quick try, and there are no
marks. The status is 0 where no mark was missed and both sides print the same.
"""
import argparse
import ctypes
import importlib.util
import json
import os
import subprocess
import sys
import tempfile
from pathlib import Path

TOP = Path(__file__).resolve().parent.parent
BUILT = TOP / "crates/sdfg/out/sdfg"
LOOPS = Path(__file__).resolve().parent / "plain_loops.py"
NOT_BUILT = 70
RUNS = 5
TURNS = 2**40
LEAST_LIMIT = 2**20
PR_SET_CHILD_SUBREAPER = 36


def numbers(count, first, end):
    """Returns numbers that look as if they were drawn, from `first` on and below `end`."""
    return [first + k * k * 7919 % 1000003 % (end - first) for k in range(count)]


def matrix(count):
    drawn = numbers(count * count, -100, 100)
    return [drawn[row * count : (row + 1) * count] for row in range(count)]


def product(small):
    count = 24 if small else 200
    zeros = [[0] * count for _ in range(count)]
    return {"N": count, "K": count, "M": count, "A": matrix(count), "B": matrix(count), "C": zeros}


def heat(small):
    count = 2**10 if small else 2**17
    return {"N": count, "T": 8 if small else 16, "A": numbers(count, 0, 1000000)}


def histogram(small):
    count = 2**12 if small else 2**20
    return {"N": count, "K": 256, "A": numbers(count, 0, 256), "H": [0] * 256}


def fib(small):
    return {"n": [14 if small else 28], "res": [0]}


def inc(small):
    count = 2**12 if small else 2**20
    return {"N": count, "A": numbers(count, -1000000, 1000000), "B": [0] * count}


# What is shown of a program, its source, its arrays, and the greatest ratio to CPython's seconds.
PROGRAMS = [
    ("matrix product", "matrix_product/product.py", product, 1 / 30),
    ("stencil in a loop", "stencil/heat.py", heat, 1 / 4),
    ("histogram", "histogram/histogram.py", histogram, 1 / 4),
    ("Fibonacci pool", "fibonacci/fib.py", fib, 1 / 4),
    ("a map that adds 1", "inc/inc.py", inc, 1 / 4),
]


CALLS = Path(__file__).resolve().parent / "python_calls.py"
OF_THE_SYSTEM = "/usr/bin/python3"
CALLS_SECONDS = 0.2


def elements(given):
    """Returns how many elements the arrays of a file have."""
    arrays = [it for it in given.values() if isinstance(it, list)]
    return sum(len(it) if not isinstance(it[0], list) else sum(map(len, it)) for it in arrays)


def run(words, out):
    """Returns the status of a run and what it used.

    The peak of a process begins with that of the one that started it. So a small shell starts the run and ends, and the run is
    then a child of this process.
    """
    shell = subprocess.Popen(["/bin/sh", "-c", '"$@" &', "sh", *words], stdin=subprocess.DEVNULL, stdout=out)
    _, status, _ = os.wait4(shell.pid, 0)
    shell.returncode = os.waitstatus_to_exitcode(status)
    _, status, usage = os.wait4(-1, 0)
    return os.waitstatus_to_exitcode(status), usage


def measured(sides):
    """Returns of each side its least processor seconds of some runs, its greatest peak in bytes, and what it printed.

    The sides take turns, each turn on one processor and the next one on another, so that a machine whose speed changes, or whose
    processors differ, is as fast for one side as for the other.
    """
    seconds, peaks, texts = [[] for _ in sides], [[] for _ in sides], [None for _ in sides]
    processors = sorted(os.sched_getaffinity(0))
    with tempfile.TemporaryFile() as out:
        for turn in range(RUNS):
            os.sched_setaffinity(0, {processors[turn % len(processors)]})
            for side, words in enumerate(sides):
                out.seek(0)
                out.truncate()
                status, usage = run(words, out)
                if status != 0:
                    raise SystemExit(f"{' '.join(map(str, words))} ended with {status}")
                seconds[side].append(usage.ru_utime + usage.ru_stime)
                peaks[side].append(usage.ru_maxrss * 1024)
                out.seek(0)
                texts[side] = out.read()
    os.sched_setaffinity(0, processors)
    return list(zip(map(min, seconds), map(max, peaks), texts))


def verdict(ratio, mark):
    return "-" if mark is None else "met" if ratio <= mark else "missed"


def compared(program, source, given, mark):
    """Runs a program on its arrays by both, and returns the cells of its line, and whether all is well."""
    with tempfile.NamedTemporaryFile("w", suffix=".json") as arrays:
        json.dump(given, arrays, separators=(",", ":"))
        arrays.flush()
        limit = 3 * 8 * elements(given) + 2 * os.path.getsize(arrays.name)
        words = [program, "run", source, arrays.name, "--turns", str(TURNS)]
        loops = [sys.executable, LOOPS, source.stem, arrays.name]
        (ours, peak, text), (theirs, their_peak, other) = measured([words, loops])
    memory_mark = 1 if mark is not None and limit >= LEAST_LIMIT else None
    verdicts = [verdict(ours / theirs, mark), verdict(peak / limit, memory_mark)]
    cells = [
        f"{ours:.3f}",
        f"{theirs:.3f}",
        f"{ours / theirs:.3f}",
        "-" if mark is None else f"1/{1 / mark:.0f}",
        verdicts[0],
        f"{peak / 2**20:.1f}",
        f"{their_peak / 2**20:.1f}",
        f"{limit / 2**20:.1f}",
        f"{peak / limit:.2f}" if memory_mark else "-",
        verdicts[1],
        "the same" if text == other else "another",
    ]
    return cells, text == other and "missed" not in verdicts


def python_with_numpy():
    """Returns a Python that has NumPy, if there is one: this one, or else that of the system."""
    if importlib.util.find_spec("numpy") is not None:
        return sys.executable
    asked = [OF_THE_SYSTEM, "-c", "import numpy"]
    has_it = os.access(OF_THE_SYSTEM, os.X_OK) and subprocess.run(asked, capture_output=True).returncode == 0
    return OF_THE_SYSTEM if has_it else None


def from_python(program, python, what, count):
    """Returns the least seconds of the package and of the program in some runs, and the greatest peak in bytes."""
    os.environ["LUTHKEMB_SDFG"] = str(program)
    seconds, peaks = [], []
    with tempfile.TemporaryFile() as out:
        for _ in range(RUNS):
            out.seek(0)
            out.truncate()
            status, usage = run([python, CALLS, what, str(count)], out)
            if status != 0:
                raise SystemExit(f"{CALLS.name} {what} {count} ended with {status}")
            out.seek(0)
            seconds.append(json.load(out))
            peaks.append(usage.ru_maxrss * 1024)
    return *(min(it[side] for it in seconds) for side in ("python", "sdfg")), max(peaks)


def converted(program, small):
    """Returns the cells of the line of the conversions, and whether all is well."""
    python = python_with_numpy()
    if python is None:
        return ["conversion", "no NumPy"], True
    count = 2**16 if small else 10**7
    ours, theirs, peak = from_python(program, python, "conversion", count)
    limit = 3 * 2 * 8 * count
    verdicts = [verdict(ours / theirs, None if small else 1), verdict(peak / limit, None if small else 1)]
    cells = [f"{theirs:.3f}", f"{ours:.3f}", f"{ours / theirs:.3f}", "-" if small else "1", verdicts[0], "-", f"{peak / 2**20:.1f}"]
    cells += [f"{limit / 2**20:.1f}", f"{peak / limit:.2f}", verdicts[1], "the same"]
    return ["conversion", *cells], "missed" not in verdicts


def called(program, small):
    """Returns the cells of the line of twenty calls, and whether all is well."""
    ours, theirs, _ = from_python(program, sys.executable, "calls", 20)
    told = verdict((ours + theirs) / CALLS_SECONDS, None if small else 1)
    cells = [f"{theirs:.3f}", f"{ours:.3f}", f"{(ours + theirs) / CALLS_SECONDS:.3f}", "-" if small else "1", told, *"-----", "the same"]
    return ["20 calls, of 0.2 s", *cells], told != "missed"


HEAD = ["program", "sdfg s", "CPython s", "ratio", "mark", "", "peak", "CPython", "limit", "ratio", "", "text"]
WIDTHS = [18, 8, 10, 8, 6, 7, 8, 8, 8, 6, 7, 9]


def shown(cells):
    return " ".join(f"{cell:<{width}}" if at == 0 else f"{cell:>{width}}" for at, (cell, width) in enumerate(zip(cells, WIDTHS)))


def main():
    words = argparse.ArgumentParser(description="Times five programs run by sdfg beside plain loops in CPython.")
    words.add_argument("program", nargs="?", type=Path, metavar="PROGRAM", help="the program to time; else the one that ./sdfg runs")
    words.add_argument("--size", choices=["full", "small"], default="full", help="small: few elements and no marks")
    words = words.parse_args()
    program = words.program
    if program is None:
        if subprocess.run([TOP / "sdfg"], stdin=subprocess.DEVNULL, stdout=subprocess.DEVNULL).returncode == NOT_BUILT:
            return 1
        program = BUILT
    ctypes.CDLL(None).prctl(PR_SET_CHILD_SUBREAPER, 1, 0, 0, 0)
    print(shown(HEAD), flush=True)
    good = True
    for name, source, arrays, mark in PROGRAMS:
        small = words.size == "small"
        cells, fine = compared(program.resolve(), TOP / "examples" / source, arrays(small), None if small else mark)
        print(shown([name, *cells]), flush=True)
        good = good and fine
    for line in (converted, called):
        cells, fine = line(program.resolve(), words.size == "small")
        print(shown(cells), flush=True)
        good = good and fine
    return 0 if good else 1


if __name__ == "__main__":
    sys.exit(main())
