#!/usr/bin/env python3
"""Calls the program from Python, as bench.py times it, and prints the processor seconds of this process and of the program.

    tools/python_calls.py conversion COUNT
    tools/python_calls.py calls COUNT

`conversion` runs examples/inc/inc.py once, on two NumPy arrays of so many elements, one of numbers of three digits and one of zeros.
`calls` calls the same program so many times on lists of three elements. The status is 0 where the arrays after it are right.
"""
import argparse
import json
import resource
import sys
from pathlib import Path

TOP = Path(__file__).resolve().parent.parent
sys.path.insert(0, str(TOP / "python"))

import luthkemb  # noqa: E402
from luthkemb import dace  # noqa: E402

N = dace.symbol('N')


@dace.program
def inc(A: dace.int64[N], B: dace.int64[N]):
    for i in dace.map[0:N]:
        B[i] = A[i] + 1


def seconds(whose):
    usage = resource.getrusage(whose)
    return usage.ru_utime + usage.ru_stime


def conversion(count):
    """Returns what makes the call and looks at what came of it. NumPy is there before anything is timed."""
    import numpy

    import luthkemb.digits  # noqa: F401

    given = numpy.arange(count)
    given *= 7919
    given %= 900
    given += 100
    after = numpy.zeros(count, numpy.int64)
    # What is right is told by sums, since an array more would be seen in the peak.
    return lambda: inc(given, after), lambda: int(after.sum()) == int(given.sum()) + count and bool((after > 100).all())


def calls(count):
    given, after = [1, 2, 3], [0, 0, 0]

    def call():
        for _ in range(count):
            inc(given, after)

    return call, lambda: after == [2, 3, 4]


def main():
    words = argparse.ArgumentParser(description="Calls the program from Python, and prints processor seconds.")
    words.add_argument("what", choices=["conversion", "calls"])
    words.add_argument("count", type=int)
    words = words.parse_args()
    call, is_right = {"conversion": conversion, "calls": calls}[words.what](words.count)
    ours, theirs = seconds(resource.RUSAGE_SELF), seconds(resource.RUSAGE_CHILDREN)
    call()
    ours, theirs = seconds(resource.RUSAGE_SELF) - ours, seconds(resource.RUSAGE_CHILDREN) - theirs
    print(json.dumps({"python": ours, "sdfg": theirs}))
    return 0 if is_right() else 1


if __name__ == "__main__":
    sys.exit(main())
