#!/usr/bin/env python3
"""Times the race check of sources whose maps have many accesses, and of a program that is called many times.

    tools/time_races.py [PROGRAM]

PROGRAM is the program to time; without it, it is the one that ./sdfg has built. A line for each shape has how many accesses there
are, the last line that `check` prints, and the processor seconds of the whole process, the least of three runs. The status is 0
where each shape is checked within its mark and each last line is the one that it should be.
"""
import os
import subprocess
import sys
import tempfile
from pathlib import Path

TOP = Path(__file__).resolve().parent.parent
BUILT = TOP / "crates/sdfg/out/sdfg"
CONNECTORS = 64
RUNS = 3
MOST_SECONDS = 2.0


def tasklets(links):
    """Returns the lines of a map whose tasklets have these links, each a direction and a memlet."""
    lines = ["    for i in dace.map[0:4]:"]
    for first in range(0, len(links), CONNECTORS):
        part = list(enumerate(links[first : first + CONNECTORS]))
        lines.append("        with dace.tasklet:")
        lines += [f"            c{k} {way} {memlet}" for k, (way, memlet) in part]
        lines += [f"            c{k} = 1" for k, (way, _) in part if way == ">>"] or ["            c = 1"]
    return lines


def program(name, argument, lines):
    return ["@dace.program", f"def {name}({argument}: dace.int64[4]):", *lines]


def one_map(links, containers=1):
    """Returns a source with one map over arrays A, A1, A2 and so on."""
    arrays = [f"    A{k or ''} = dace.define_local([{8 * len(links)}], dace.int64)" for k in range(containers)]
    return ["import dace", *program("f", "Z", [*arrays, *tasklets(links)])]


def own_elements(count):
    return one_map([("<<" if k % 2 == 0 else ">>", "A[i]") for k in range(count)])


def own_parts(count):
    """Each access has a part of its own, read or written, in an order that looks drawn."""
    return one_map([("<<" if k % 2 == 0 else ">>", f"A[i+{4 * (k * 7919 % count)}]") for k in range(count)])


def own_containers(count):
    containers = 200
    return one_map([("<<", f"A{k % containers or ''}[{k}]") for k in range(count)], containers)


def reads_and_a_race(count):
    """The last two accesses are the only ones that touch the same."""
    links = [(">>", f"A[i+{4 * k}]") for k in range(count - 1)]
    return one_map([*links, (">>", f"A[i+{4 * count - 7}]")])


def calls(count):
    """A program whose map has so many accesses is called 64 times."""
    links = [("<<" if k % 2 == 0 else ">>", f"B[i+{4 * k}]") for k in range(count // 64)]
    local = f"    B = dace.define_local([{4 * len(links)}], dace.int64)"
    return ["import dace", *program("g", "X", [local, *tasklets(links)]), *program("f", "Z", ["    g(Z)"] * 64)]


def measured(words):
    """Returns the least processor seconds of some runs of a program, and the last line that it prints."""
    seconds = []
    for _ in range(RUNS):
        child = subprocess.Popen(words, stdin=subprocess.DEVNULL, stdout=subprocess.PIPE)
        text = child.stdout.read()
        child.stdout.close()
        _, status, usage = os.wait4(child.pid, 0)
        child.returncode = os.waitstatus_to_exitcode(status)
        seconds.append(usage.ru_utime + usage.ru_stime)
    return min(seconds), text.decode().splitlines()[-1]


# Each shape, how many accesses it has, and the last line that is told.
SHAPES = [
    (own_elements, 25_600, "accepted"),
    (own_parts, 25_600, "accepted"),
    (own_containers, 25_600, "accepted"),
    (reads_and_a_race, 19_200, "race at 1.0: write A by 300, write A by 300"),
    (calls, 64_000, "accepted"),
]


def main():
    timed = Path(sys.argv[1]).resolve() if sys.argv[1:] else BUILT
    good = True
    with tempfile.TemporaryDirectory() as folder:
        source, arrays = Path(folder, "source.py"), Path(folder, "arrays.json")
        arrays.write_text('{"Z":[0,0,0,0]}')
        for shape, count, wanted in SHAPES:
            source.write_text("\n".join(shape(count)) + "\n")
            spent, told = measured([timed, "check", source, arrays])
            fine = spent <= MOST_SECONDS and told == wanted
            good = good and fine
            print(f"{shape.__name__:18} {count:6} accesses {told:48} {spent:6.2f} s {'met' if fine else 'missed'}", flush=True)
    return 0 if good else 1


if __name__ == "__main__":
    sys.exit(main())
