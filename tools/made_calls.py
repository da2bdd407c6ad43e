"""Calls for run_calls.py whose files are too long to be written in a table, or that differ in a byte only."""

INC = b"""import dace
N = dace.symbol('N')

@dace.program
def inc(A: dace.int64[N], B: dace.int64[N]):
    for i in dace.map[0:N]:
        B[i] = A[i] + 1
"""
ARRAYS = b'{"N":3,"A":[1,2,3],"B":[0,0,0]}'
PRINTED = b"A[3] = 1 2 3\nB[3] = 2 3 4\n"
RUN = "run a.py a.json"

# The most bytes of a source, and the most elements of all arrays.
BYTES = 2**20
ELEMENTS = 2**24

# The most bytes of a chain file, and the most of its lines that are steps.
CHAIN_BYTES = 2**16
STEPS = 256
CHAINED = "matches a.py a.json --chain c"
TWO = b"""@dace.program
def two(A: dace.int64[2, 2], B: dace.int64[2, 2]):
    for i in dace.map[0:2]:
        for j in dace.map[0:2]:
            B[i, j] = A[i, j]
"""
TWO_ARRAYS = b'{"A":[[1,2],[3,4]],"B":[[0,0],[0,0]]}'
COLLAPSE, EXPAND = b"MapCollapse 1.1\n", b"MapExpansion 1.1\n"
# What may be done on one map of two parameters, on a map round another one, and on this where the outer one is cut into tiles.
COLLAPSED = EXPAND + b"MapTiling 1.1 2 2\n"
EXPANDED = COLLAPSE + b"MapInterchange 1.1\nMapTiling 1.1 2\nMapTiling 1.2 2\n"
TILED = b"MapCollapse 1.2\nMapInterchange 1.2\nMapTiling 1.1 2\nMapTiling 1.2 2\nMapTiling 1.3 2\n"


def turned(steps):
    """Returns a chain file of so many steps, which make one map of two and two of one in turn."""
    return b"".join((COLLAPSE, EXPAND)[at % 2] for at in range(steps))


def chained(what, chain, status, printed):
    """Returns a call that tells the rewrites which may be done on the graph behind a chain."""
    return what, CHAINED, {"a.py": TWO, "a.json": TWO_ARRAYS, "c": chain}, status, printed


ONE = b"""N = dace.symbol('N')
@dace.program
def one(A: dace.int64[N]):
    A[0] = 1
"""


def zeros(count, size):
    """Returns an arrays file with so many zeros, and this size for them."""
    return b'{"N":%d,"A":[%s0]}' % (size, b"0," * (count - 1))


# What each call shows, its words, its files, its status and what it prints.
MADE = [
    (f"the first {count} bytes of an arrays file are no JSON", RUN, {"a.py": INC, "a.json": ARRAYS[:count]}, 4, b"arrays error 14\n")
    for count in range(len(ARRAYS))
]
MADE += [
    ("a source of 2^20 bytes is read", RUN, {"a.py": INC.ljust(BYTES, b"\n"), "a.json": ARRAYS}, 0, PRINTED),
    ("a source of one byte more is too long", RUN, {"a.py": INC.ljust(BYTES + 1, b"\n"), "a.json": ARRAYS}, 11, b"too long a.py\n"),
    (
        "an array near the limit of elements is read",
        "check a.py a.json",
        {"a.py": ONE, "a.json": zeros(ELEMENTS - 4095, ELEMENTS - 4095)},
        0,
        b"accepted\n",
    ),
    (
        "an array near the limit of elements has its size",
        "check a.py a.json",
        {"a.py": ONE, "a.json": zeros(ELEMENTS - 4095, ELEMENTS - 4096)},
        4,
        b"arrays error 19 A\n",
    ),
]
MADE += [
    chained("a chain of 255 steps is done", turned(STEPS - 1), 0, COLLAPSED),
    chained("a chain of 256 steps is done", turned(STEPS), 0, EXPANDED),
    chained("a step more is refused", turned(STEPS + 1), 5, b"chain refused at line 257\n"),
    chained("other lines are no steps", b"\n# a comment\n" * 200 + turned(STEPS), 0, EXPANDED),
    chained("a step more is refused by its line", b"\n# a comment\n" * 200 + turned(STEPS + 2), 5, b"chain refused at line 657\n"),
    chained("a line that is no form goes before a step too many", turned(100) + b"x\n" + turned(STEPS), 5, b"chain refused at line 101\n"),
    chained("a chain file of 2^16 bytes is read", turned(1).ljust(CHAIN_BYTES, b"\n"), 0, COLLAPSED),
    chained("a comment of 2^16 bytes is read", b"#".ljust(CHAIN_BYTES, b"\xff"), 0, EXPANDED),
    chained("a chain file of one byte more is too long", turned(1).ljust(CHAIN_BYTES + 1, b"\n"), 11, b"too long c\n"),
    chained("a chain file that is too long is not looked at", b"x\n".ljust(CHAIN_BYTES + 1, b"\n"), 11, b"too long c\n"),
    chained("a path of many numbers leads to no map", b"MapCollapse 1" + b".1" * 30000, 5, b"chain refused at line 1 condition 1\n"),
    chained("a number of many zeros is read", b"MapCollapse " + b"0" * 60000 + b"1.1", 0, COLLAPSED),
    chained("256 interchanges are done", b"MapInterchange 1.1\n" * STEPS, 0, EXPANDED),
    chained("an interchange more is refused", b"MapInterchange 1.1\n" * (STEPS + 1), 5, b"chain refused at line 257\n"),
    chained("a tiling of many sizes is read", b"MapTiling 1.1" + b" 2" * 30000, 5, b"chain refused at line 1 condition 2\n"),
    chained("a size of many zeros is read", b"MapTiling 1.1 " + b"0" * 60000 + b"2", 0, TILED),
    chained("a size of many digits is no size", b"MapTiling 1.1 1" + b"0" * 60000, 5, b"chain refused at line 1\n"),
    chained("a tiling may be parted by many spaces", b"MapTiling" + b" " * 30000 + b"1.1" + b" " * 30000 + b"2", 0, TILED),
]
