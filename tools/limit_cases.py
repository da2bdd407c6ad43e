"""Cases of elements, bytes and values, and of moves, picks, streams and turns, each at its limit."""
from __future__ import annotations

import random
from itertools import product

from limit_calls import (
    ARRAYS_BYTES, both, Call, Calls, case, drawn, ELEMENTS, files, GREATEST, INC, LEAST, leaves, PICKS_BYTES, printed, program, RUN,
    STEP, wrapped,
)


# Elements, bytes and values.


@case
def a_million_elements() -> Calls:
    few, times = drawn(2**10), 2**10
    a, b = (" ".join(map(str, it)) for it in (few, [wrapped(it + 1) for it in few]))
    given = '{"N":%d,"A":[%s],"B":[%s]}' % (2**20, ",".join([a.replace(" ", ",")] * times), ",".join("0" * 2**20))
    wanted = "".join(f"{name}[{2**20}] = {' '.join([text] * times)}\n" for name, text in (("A", a), ("B", b)))
    yield Call("2^20 elements", RUN, files(INC, given.encode()), wanted.encode())


@case
def the_most_elements_and_bytes() -> Calls:
    source = program(["for i in dace.map[0:N]:", "    A[i] = A[i] + 1"], "A: dace.int64[N]", "N")
    # The first number takes all its bits, so the others are kept in as many.
    given = b'{"N":%d,"A":[%d,1,2,3,4,5,6,7,%s' % (ELEMENTS, GREATEST, b"0,1,2,3,4,5,6,7," * (ELEMENTS // 8 - 1))
    given = (given[:-1] + b"]}").ljust(ARRAYS_BYTES)
    wanted = b"A[%d] = %d 2 3 4 5 6 7 8%s\n" % (ELEMENTS, LEAST, b" 1 2 3 4 5 6 7 8" * (ELEMENTS // 8 - 1))
    yield Call("2^24 elements in a file of 2^26 bytes", RUN, files(source, given), wanted)
    yield Call("a file of a byte more", RUN, files(source, given + b" "), b"too long a.json\n", 11)


@case
def the_most_elements_of_all_containers() -> Calls:
    body = [f"X{n} = dace.define_local([{2**24 - (n == 3)}], dtype=dace.int64)" for n in range(4)]
    body += [f"X{n}[{2**24 - 2}] = A[0] + {n}" for n in range(4)]
    body += ["A[0] = " + " + ".join(f"X{n}[{2**24 - 2}]" for n in range(4))]
    source = program(body, "A: dace.int64[1]")
    yield Call("2^26 elements of all containers", RUN, files(source, {"A": [10]}), printed(A=[46]))


@case
def a_plane() -> Calls:
    size = 300
    body = ["for i, j in dace.map[0:N, 0:N]:", "    B[j, i] = A[i, j]"]
    a = [drawn(size, row) for row in range(size)]
    given = {"N": size, "A": a, "B": [[0] * size] * size}
    wanted = printed(A=a, B=[list(it) for it in zip(*a)])
    source = program(body, "A: dace.int64[N, N], B: dace.int64[N, N]", "N")
    yield Call("a transposition of 90,000 elements", RUN, files(source, given), wanted)


@case
def four_dimensions() -> Calls:
    extents = (6, 7, 8, 9)
    numbers = iter(drawn(6 * 7 * 8 * 9))
    a = [[[[next(numbers) for _ in range(9)] for _ in range(8)] for _ in range(7)] for _ in range(6)]
    b = [[[[a[l][k][j][i] for l in range(6)] for k in range(7)] for j in range(8)] for i in range(9)]
    body = ["for i, j, k, l in dace.map[0:6, 0:7, 0:8, 0:9]:", "    B[l, k, j, i] = A[i, j, k, l]"]
    source = program(body, f"A: dace.int64{list(extents)}, B: dace.int64{list(extents[::-1])}")
    zeros = [[[[0] * 6] * 7] * 8] * 9
    yield from both("four dimensions", source, {"A": a, "B": zeros}, printed(A=a, B=b))


@case
def operators() -> Calls:
    """Each operator on 3,000 pairs, those of the ends among them."""
    ends = [LEAST, LEAST + 1, -2, -1, 0, 1, 2, GREATEST - 1, GREATEST]
    pairs = list(product(ends, ends)) + list(zip(drawn(3000), drawn(3000, 77)))
    pairs = [(x, y) for x, y in pairs if y]
    signs = {
        "x + y": lambda x, y: x + y, "x - y": lambda x, y: x - y, "x * y": lambda x, y: x * y, "-x": lambda x, y: -x,
        "x // y": lambda x, y: x // y, "x % y": lambda x, y: x % y, "x & y": lambda x, y: x & y, "x | y": lambda x, y: x | y,
        "x ^ y": lambda x, y: x ^ y, "~x": lambda x, y: ~x, "min(x, y)": min, "max(x, y)": max, "x < y": lambda x, y: int(x < y),
        "x <= y": lambda x, y: int(x <= y), "x == y": lambda x, y: int(x == y), "x != y": lambda x, y: int(x != y),
        "x and y": lambda x, y: x and y, "x or y": lambda x, y: x or y, "not x": lambda x, y: int(not x),
        "x if y > 0 else 7": lambda x, y: x if y > 0 else 7,
    }  # fmt: skip
    body = []
    for number, text in enumerate(signs):
        body += ["for i in dace.map[0:N]:", "    with dace.tasklet:", "        x << A[i]", "        y << B[i]"]
        body += [f"        z >> C[{number}, i]", f"        z = {text}"]
    count = len(pairs)
    given = {"N": count, "A": [x for x, _ in pairs], "B": [y for _, y in pairs], "C": [[0] * count] * len(signs)}
    wanted = {**given, "C": [[wrapped(meant(x, y)) for x, y in pairs] for meant in signs.values()]}
    source = program(body, f"A: dace.int64[N], B: dace.int64[N], C: dace.int64[{len(signs)}, N]", "N")
    yield Call(f"{len(signs)} operators on {count} pairs", RUN, files(source, given), printed(A=wanted["A"], B=wanted["B"], C=wanted["C"]))


@case
def copies_and_reductions() -> Calls:
    body = ["B[0:N, 0:M] = A[0:N, 0:M]", "dace.reduce(lambda x, y: x + y, B, R, axis=1, identity=0)"]
    body += ["dace.reduce(lambda x, y: max(x, y), B, C, axis=0)", "dace.reduce(lambda x, y: x ^ y, A, S, identity=0)"]
    source = program(body, "A: dace.int64[N, M], B: dace.int64[N, M], R: dace.int64[N], C: dace.int64[M], S: dace.int64[1]", "N M")
    for place, rows, columns in (("100,000 elements", 250, 400), ("8,000 elements", 80, 100)):
        a = [drawn(columns, row) for row in range(rows)]
        bits = 0
        for it in leaves(a):
            bits ^= it
        least = [LEAST] * columns
        given = {"N": rows, "M": columns, "A": a, "B": [[0] * columns] * rows, "R": [5] * rows, "C": least, "S": [5]}
        wanted = printed(A=a, B=a, R=[wrapped(sum(row)) for row in a], C=[max(it) for it in zip(*a)], S=[bits])
        calls = list(both(f"copies and reductions of {place}", source, given, wanted))
        yield from calls if rows < 100 else calls[:1]


@case
def a_product() -> Calls:
    size = 90
    body = ["for i, j, k in dace.map[0:N, 0:N, 0:N]:", "    C[i, j] += A[i, k] * B[k, j]"]
    a, b = ([drawn(size, 13 * row + seed) for row in range(size)] for seed in (1, 5))
    c = [[wrapped(sum(x * y for x, y in zip(row, column))) for column in zip(*b)] for row in a]
    source = program(body, "A: dace.int64[N, N], B: dace.int64[N, N], C: dace.int64[N, N]", "N")
    given = {"N": size, "A": a, "B": b, "C": [[0] * size] * size}
    yield Call("a product with 729,000 points", RUN, files(source, given), printed(A=a, B=b, C=c))


@case
def places_in_a_large_array() -> Calls:
    count = 2**17
    body = ["for i in dace.map[0:N]:", "    with dace.tasklet:", "        a << A[i]", "        h >> H(1, lambda x, y: x + y)[0:K]"]
    a = [k * k * 7919 % 60000 for k in range(count)]
    h = [0] * 60000
    for it in a:
        h[it] += 1
    source = program([*body, "        h[a] = 1"], "A: dace.int64[N], H: dace.int64[K]", "N K")
    yield Call("2^17 sums at computed places", RUN, files(source, {"N": count, "K": 60000, "A": a, "H": [0] * 60000}), printed(A=a, H=h))


# Moves, picks, streams and turns.


def moves(points: int, each: int, picks: list[int]) -> bytes:
    """Returns the trace of a map with so many moves at each point, and a transition before it and behind it."""
    left, open_points, lines = [each] * points, list(range(points)), ["move 0 of 1"]
    later = iter(picks[1:])
    while open_points:
        move = next(later, 0) % len(open_points)
        lines.append(f"move {move} of {len(open_points)}")
        left[open_points[move]] -= 1
        if not left[open_points[move]]:
            del open_points[move]
    return "\n".join([*lines, "move 0 of 1", ""]).encode()


@case
def a_hundred_thousand_moves() -> Calls:
    draw = random.Random(3)
    a = drawn(33334)
    given = {"N": len(a), "A": a, "B": [0] * len(a)}
    wanted = printed(A=a, B=[wrapped(it + 1) for it in a])
    picks = [draw.randrange(2**64) for _ in range(60000)]
    yield Call("100,000 moves that are told", [*STEP, "--trace"], files(INC, given, picks), moves(len(a), 3, picks) + wanted)
    yield Call("100,000 moves without picks", STEP, files(INC, given, b""), wanted)
    short = [*STEP[:-1], str(len(a) - 1)]
    yield Call("a turn too few for 33,334 points", short, files(INC, given, picks), b"turns spent 33333\n", 8)


@case
def the_most_bytes_of_picks() -> Calls:
    given = {"N": 2, "A": [4, 5], "B": [0, 0]}
    wanted = printed(A=[4, 5], B=[5, 6])
    picks = b"18446744073709551615 ".ljust(PICKS_BYTES - 1, b"0") + b"1"
    yield Call("2^24 bytes of picks, one long word", STEP, files(INC, given, picks), wanted)
    picks = (b"18446744073709551615 7\n" * (PICKS_BYTES // 23 + 1))[: PICKS_BYTES - 1] + b"\n"
    yield Call("2^24 bytes of picks, many words", STEP, files(INC, given, picks), wanted)
    yield Call("2^23 picks", STEP, files(INC, given, b"5 " * (PICKS_BYTES // 2)), wanted)
    yield Call("a byte more of picks", STEP, files(INC, given, picks + b"\n"), b"too long picks\n", 11)


POOL = ["S = dace.define_stream(dace.int64)", "with dace.tasklet:", "    a << A[0]", "    s >> S(-1)", "    s = a"]
POOL += ["@dace.consume(S, 4)", "def pool(x, p):", "    more >> S(-1)", "    one >> R(-1, lambda a, b: a + b)[0]"]
POOL += ["    if x == 1:", "        one = 1", "    elif x > 1:", "        more = x - 1", "        more = x - 2"]


@case
def a_pool_of_work() -> Calls:
    """Fibonacci numbers: an element x takes 2 F(x + 1) - 1 elements with those that come of it."""
    source = program(POOL, "A: dace.int64[1], R: dace.int64[1]")
    yield Call("150,048 pushes", RUN, files(source, {"A": [24], "R": [0]}), printed(A=[24], R=[46368]))
    draw = random.Random(5)
    picks = [draw.randrange(2**64) for _ in range(40000)]
    yield Call("21,890 takes by picks", STEP, files(source, {"A": [20], "R": [0]}, picks), printed(A=[20], R=[6765]))
    # One instance outside of the pool, and one for each element.
    few = ["run", "a.py", "a.json", "--turns", "150049"]
    yield Call("as many turns as a pool needs", [*few[:-1], "150050"], files(source, {"A": [24], "R": [0]}), printed(A=[24], R=[46368]))
    yield Call("a turn too few for a pool", few, files(source, {"A": [24], "R": [0]}), b"turns spent 150049\n", 8)


@case
def values_in_a_stream() -> Calls:
    body = ["S = dace.define_stream(dace.int64)", "for i in dace.map[0:N]:", "    with dace.tasklet:", "        a << A[i]"]
    body += ["        s >> S(-1)", "        s = a", "@dace.consume(S, 4)", "def pool(x, p):"]
    kinds = ("x + y", "min(x, y)", "max(x, y)")
    body += [f"    o{n} >> R{n}(-1, lambda x, y: {it})" for n, it in enumerate(kinds)] + [f"    o{n} = x" for n in range(3)]
    source = program(body, "A: dace.int64[N], R0: dace.int64, R1: dace.int64, R2: dace.int64", "N")
    for count in (2**17, 3000):
        a = drawn(count)
        given = {"N": count, "A": a, "R0": [0], "R1": [GREATEST], "R2": [LEAST]}
        wanted = printed(A=a, R0=[wrapped(sum(a))], R1=[LEAST], R2=[GREATEST])
        calls = list(both(f"{count} values that wait in a stream", source, given, wanted, 30000))
        yield from calls if count == 3000 else calls[:1]


@case
def long_loops() -> Calls:
    source = program(["while A[0] != 0:", "    A[0] = A[0] - 1", "    B[0] = 3 * B[0] + A[0]"], "A: dace.int64[1], B: dace.int64[1]")
    rounds, b = 40000, 1
    for it in reversed(range(rounds)):
        b = wrapped(3 * b + it)
    wanted = printed(A=[0], B=[b])
    # Two instances and a transition back in each round.
    words = ["run", "a.py", "a.json", "--turns"]
    given = {"A": [rounds], "B": [1]}
    yield Call("40,000 rounds of a loop", [*words, str(3 * rounds)], files(source, given), wanted)
    yield Call("a turn too few for them", [*words, str(3 * rounds - 1)], files(source, given), b"turns spent 119999\n", 8)
    yield Call("40,000 rounds by picks", STEP, files(source, given, [7] * 1000), wanted)
