#!/usr/bin/env python3
"""Times parts of the program: those named by words, or all. They are done by the program sd_bench, which is proved and built where it
is not. Times are processor time, the least of five runs.

- lex, line, parse: how long a text of 2^20 bytes takes to be cut into tokens, a line of as many to be read as well, and a source
  to be read to its programs or to be refused. Of each text it prints what became of it, and the milliseconds: those of runs that do it
  five times more, without those of runs that do it once.
- graph: how long the graphs of sources take to be made, each kind in a quarter, half and all of 2^20 bytes, measured so with
  twenty graphs more. Twice the bytes are to take at most 2.3 times as long, and each graph is to have the containers, variables and
  states that it should have.
- arrays: how long arrays files of 2^26 bytes take to be read, and to be read and printed, beside CPython's json, with the peak of the
  program's memory in MiB and what it may be at most: three times the arrays and twice the file. Reading is to take at most half
  of CPython's time, a third for the file with most numbers, and both are to print the same.
- tasklet: the nanoseconds that an instance of a tasklet takes as flat code. It takes a, b and c from a list, does the tasklet's code,
  and stores o in a list. Of the program the whole process is measured, of CPython the loop alone, in three ways:
  code: the tasklet's code, compiled once, is done by `exec` with its connectors as names. This is what running a tasklet is:
  the code comes with the program that is run, and nothing of it is known before.
  call: the code is the body of a function, which is called at each point.
  loop: the code stands in the loop itself, as in a program that was written for this one tasklet.
  `a * b + c` is to take at most 1/40 of the time of the first way, and both sides are to store the same.

The status is 0 where all is as it is to be.
"""
import subprocess
import sys
import tempfile

from timed_program import BYTES, RUNS, built, measured
from timed_sources import GRAPHS, LEXED, LINES, SOURCES

MORE, MORE_GRAPHS, MOST_GROWTH = 5, 20, 2.3

FILE_BYTES = 2**26
# What each element is, and the greatest ratio to CPython.
FILES = [(b"7", 1 / 3), (b"7654321", 1 / 2), (b"-9223372036854775807", 1 / 2)]
READ = "import json, sys; json.load(open(sys.argv[1], 'rb'))"
PRINT = (
    "import json, sys; a = json.load(open(sys.argv[1], 'rb'))['A'];"
    "sys.stdout.write('A[%d] = %s\\n' % (len(a), ' '.join(map(str, a))))"
)

# How many points there are, and how many times they are gone through, by the program and by CPython.
POINTS, ROUNDS, PYTHON_ROUNDS = 1024, 2**14, 2**10
MOST_OF_EXEC = 1 / 40
LISTS = f"""
import time
points, rounds = {POINTS}, {PYTHON_ROUNDS}
A, B, C = ([k * 7919 % modulus - modulus // 2 for k in range(points)] for modulus in (1009, 997, 991))
O = [0] * points
"""
END = f"""
def seconds():
    begin = time.process_time()
    main()
    return time.process_time() - begin
print(min(seconds() for _ in range({RUNS})))
print(sum(O))
"""
CODE = """
def main():
    code, names, given = compile(TEXT, "tasklet", "exec"), {}, {}
    for _ in range(rounds):
        for k in range(points):
            names["a"] = A[k]
            names["b"] = B[k]
            names["c"] = C[k]
            exec(code, given, names)
            O[k] = names["o"]
"""
CALL = """
def tasklet(a, b, c):
    BODY
    return o
def main():
    for _ in range(rounds):
        for k in range(points):
            O[k] = tasklet(A[k], B[k], C[k])
"""
LOOP = """
def main():
    for _ in range(rounds):
        for k in range(points):
            LINE
"""
# The tasklet's name, its code, and its line in a loop.
TASKLETS = [
    ("mul_add", "o = a * b + c", "O[k] = A[k] * B[k] + C[k]"),
    ("stencil", "o = (a + b + c) // 3", "O[k] = (A[k] + B[k] + C[k]) // 3"),
    ("branch", "if a > b:\n    o = a - b\nelse:\n    o = c", "O[k] = A[k] - B[k] if A[k] > B[k] else C[k]"),
]


def once(program, part, text, more):
    """Returns the seconds in which a part is done with a text, and what it comes to."""
    with tempfile.NamedTemporaryFile(suffix=".py") as source:
        source.write(text.encode())
        source.flush()
        first, _, came = measured([program, part, source.name, "1"])
        all_of_them, _, _ = measured([program, part, source.name, str(1 + more)])
    return (all_of_them - first) / more, came


def time_texts(program, part, texts):
    for name, text in texts:
        spent, came = once(program, part, text, MORE)
        print(f"{part:6} {name:42} {came:32} {spent * 1000:6.1f} ms", flush=True)
    return True


def time_graphs(program):
    good = True
    for kind in GRAPHS:
        parts, half = [], None
        for size in (BYTES // 4, BYTES // 2, BYTES):
            text, wanted = kind(size - size // 64)
            assert size - size // 16 <= len(text) <= size, (kind.__name__, size, len(text))
            spent, made = once(program, "graph", text, MORE_GRAPHS)
            good = good and made == wanted and (half is None or spent <= MOST_GROWTH * half)
            ratio = "" if half is None else f" ({spent / half:.2f})"
            parts.append(f"{len(text):7} bytes {spent * 1000:6.1f} ms{ratio}")
            half = spent
            if made != wanted:
                parts.append(f"{made} in place of {wanted}")
        print(f"graph  {kind.__name__:10}" + ", ".join(parts), flush=True)
    return good


def write_file(out, item, count):
    """Writes an arrays file with so many times this element, a piece at a time, since a child's peak begins with this one's."""
    piece = item + b","
    times = 2**16
    out.write(b'{"A":[')
    for _ in range((count - 1) // times):
        out.write(piece * times)
    out.write(piece * ((count - 1) % times) + item + b"]}")
    out.flush()


def are_same(first, second):
    """Whether two files hold the same, looked at a piece at a time."""
    first.seek(0)
    second.seek(0)
    while True:
        one, other = first.read(2**20), second.read(2**20)
        if one != other:
            return False
        if not one:
            return True


def time_file(program, item, most):
    """Times one arrays file, and returns whether all is as it is to be."""
    with tempfile.NamedTemporaryFile(suffix=".json") as arrays, tempfile.TemporaryFile() as ours, tempfile.TemporaryFile() as theirs:
        count = (FILE_BYTES - len(b'{"A":[]}') + 1) // (len(item) + 1)
        write_file(arrays, item, count)
        read, _, _ = measured([program, "read", arrays.name, str(count)])
        python_read, _, _ = measured([sys.executable, "-c", READ, arrays.name])
        both, peak, _ = measured([program, "arrays", arrays.name, str(count)], ours)
        python_both, _, _ = measured([sys.executable, "-c", PRINT, arrays.name], theirs)
        limit = (3 * 8 * count + 2 * FILE_BYTES) / 2**20
        same = are_same(ours, theirs)
    print(
        f"arrays {count:9} numbers of {len(item):2} bytes: read {read:.2f} of {python_read:.2f} s ({read / python_read:.2f}), "
        f"read and printed {both:.2f} of {python_both:.2f} s ({both / python_both:.2f}), "
        f"peak {peak:.0f} of {limit:.0f} MiB, {'the same text' if same else 'another text'}",
        flush=True,
    )
    return same and read <= most * python_read and peak <= limit


def time_arrays(program):
    return all([time_file(program, item, most) for item, most in FILES])


def python_programs(text, line):
    """Returns the ways of CPython to do a tasklet, and the programs."""
    return [
        ("code", LISTS + CODE.replace("TEXT", repr(text)) + END),
        ("call", LISTS + CALL.replace("BODY", text.replace("\n", "\n    ")) + END),
        ("loop", LISTS + LOOP.replace("LINE", line) + END),
    ]


def time_tasklets(program):
    good = True
    for place, (name, text, line) in enumerate(TASKLETS):
        seconds, _, stored = measured([program, "tasklet", name, str(ROUNDS)])
        ours = seconds * 1e9 / (POINTS * ROUNDS)
        parts = [f"tasklet {name:8} {ours:6.1f} ns"]
        for way, source in python_programs(text, line):
            told = subprocess.run([sys.executable, "-c", source], check=True, capture_output=True, text=True).stdout.split()
            theirs = float(told[0]) * 1e9 / (POINTS * PYTHON_ROUNDS)
            good = good and stored == told[1] and (place > 0 or way != "code" or ours <= MOST_OF_EXEC * theirs)
            parts.append(f"CPython by {way} {theirs:6.1f} ns (1/{theirs / ours:.0f})")
        print(", ".join(parts), flush=True)
    return good


PARTS = {
    "lex": lambda program: time_texts(program, "lex", LEXED),
    "line": lambda program: time_texts(program, "line", LINES),
    "parse": lambda program: time_texts(program, "parse", SOURCES),
    "graph": time_graphs,
    "arrays": time_arrays,
    "tasklet": time_tasklets,
}


def main():
    names = sys.argv[1:] or list(PARTS)
    if not set(names) <= set(PARTS):
        sys.exit(f"the parts are {', '.join(PARTS)}")
    program = built()
    return 0 if program is not None and all([PARTS[name](program) for name in names]) else 1


if __name__ == "__main__":
    sys.exit(main())
