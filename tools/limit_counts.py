"""Cases of how many of each a program, a file or a run may have where no limit says so, or where other calls stay far below it.

These are tokens, lines, names, variables, branches, locals, nodes, scopes, rows, values that wait, and moves.
"""
from __future__ import annotations

import random

from limit_calls import both, Call, Calls, case, drawn, ELEMENTS, files, LEAST, printed, program, RUN, SOURCE_BYTES, STEP, wrapped
from limit_cases import POOL
from limit_sources import chain

PRINT, CHECK = ([it, "a.py", "a.json"] for it in ("print", "check"))


# Sources.


def balanced(terms: list[str], signs: str = "+-*") -> str:
    """Returns an expression of these terms in brackets that are as few levels deep as may be."""
    while len(terms) > 1:
        pairs = zip(terms[::2], terms[1::2])
        terms = [f"({one} {signs[n % len(signs)]} {other})" for n, (one, other) in enumerate(pairs)] + terms[len(terms) & ~1 :]
    return terms[0]


@case
def an_expression_of_many_numbers() -> Calls:
    """One line of 8,192 terms, 13 levels deep."""
    text = balanced([f"{3 * n + 1}" if n % 3 else "i" for n in range(2**13)], "+-")
    source = program(["for i in dace.map[0:N]:", f"    B[i] = A[i] ^ {text}"], "A: dace.int64[N], B: dace.int64[N]", "N")
    code = compile(text, "sum", "eval")
    a = drawn(300)
    b = [it ^ wrapped(eval(code, {"i": i})) for i, it in enumerate(a)]
    yield from both("an expression of 8,192 terms", source, {"N": len(a), "A": a, "B": [0] * len(a)}, printed(A=a, B=b))


@case
def many_lines_of_tasklets() -> Calls:
    """72 tasklets of 1,001 lines with their heads."""
    body = []
    for n in range(72):
        body += ["with dace.tasklet:", f"    a << A[{n}]", f"    b >> B[{n}]", "    x = a", *["    x=x+a"] * 997, "    b = x"]
    source = program(body, "A: dace.int64[72], B: dace.int64[72]")
    assert 7 * SOURCE_BYTES // 8 < len(source) < SOURCE_BYTES
    a = drawn(72)
    yield from both("72,074 lines", source, {"A": a, "B": [0] * 72}, printed(A=a, B=[wrapped(998 * it) for it in a]))


@case
def many_symbols() -> Calls:
    count = 12000
    names = [f"N{n}" for n in range(count)]
    source = program([f"A[0] = N0 + N{count - 1}"], f"A: dace.int64[N{count // 2}]", " ".join(names))
    given = {**{name: n % 9 for n, name in enumerate(names)}, "A": [0] * (count // 2 % 9)}
    wanted = printed(A=[(count - 1) % 9] + [0] * (count // 2 % 9 - 1))
    yield Call("12,000 size symbols", RUN, files(source, given), wanted)


@case
def many_variables_of_an_expression() -> Calls:
    """A subscript of 56 variables, which are those of 7 maps."""
    names = [[f"{letter}{n}" for letter in "pqrstuvw"] for n in range(7)]
    factors = {it: n + 1 if it[0] == "w" else 17 for n, row in enumerate(names) for it in row}
    index = " + ".join(f"{factor} * {name}" for name, factor in factors.items())
    body = ["    " * n + f"for {', '.join(row)} in dace.map[{', '.join(['0:1'] * 7 + ['0:2'])}]:" for n, row in enumerate(names)]
    body += ["    " * 7 + f"B[0] += A[{index}]"]
    places = [sum(n + 1 for n in range(7) if point >> n & 1) for point in range(2**7)]
    a = drawn(max(places) + 1)
    source = program(body, f"A: dace.int64[{len(a)}], B: dace.int64[1]")
    wanted = printed(A=a, B=[wrapped(sum(a[it] for it in places))])
    yield from both("a subscript of 56 variables", source, {"A": a, "B": [0]}, wanted)
    text = "+".join(name if factor == 1 else f"{factor}*{name}" for name, factor in factors.items())
    listing = ["sdfg f", f"array A[{len(a)}]", "array B[1]", "state 0", "next 1", "state 1", "node 0 access A"]
    for n, row in enumerate(names):
        ranges = ", ".join(f"{it}=0:{2 if it[0] == 'w' else 1}" for it in row)
        listing += [f"node {n + 1}{f' in {n}' if n else ''} map {ranges}"]
    listing += ["node 8 in 7 tasklet line 10", *(f"node {9 + n} in {6 - n} exit {7 - n}" for n in range(6)), "node 15 exit 1", "node 16 access B"]
    listing += [*(f"edge {n} {n + 1} A" for n in range(7)), f"edge 7 8 A[{text}] _in0", "edge 8 9 B(1, sum)[0] _out"]
    listing += [f"edge {n} {n + 1} B" for n in range(9, 16)]
    yield Call("the text of a subscript of 56 variables", PRINT, files(source, {"A": a, "B": [0]}), "\n".join([*listing, ""]).encode())


@case
def many_branches_of_a_tasklet() -> Calls:
    """500 branches, each with its own line."""
    body = ["for i in dace.map[0:N]:", "    with dace.tasklet:", "        a << A[i]", "        b >> B[i]"]
    for n in range(500):
        body += [f"        {'elif' if n else 'if'} a == {n}:", f"            b = {n * n + 3}"]
    source = program(body, "A: dace.int64[N], B: dace.int64[N]", "N")
    a = [n * 7 % 600 for n in range(600)]
    wanted = printed(A=a, B=[it * it + 3 if it < 500 else -1 for it in a])
    yield from both("500 branches of a tasklet", source, {"N": 600, "A": a, "B": [-1] * 600}, wanted)


@case
def many_locals_of_a_tasklet() -> Calls:
    """1,000 locals, in a map of one tasklet and in a map of two."""
    code = ["with dace.tasklet:", "    a << A[i]", "    b >> B[i]", "    x0 = a"]
    code += [f"    x{n} = x{n - 1} * 3 - x{n // 2}" for n in range(1, 1000)] + ["    b = x999 ^ x500"]
    a, b = drawn(300), []
    for it in a:
        x = [it]
        for n in range(1, 1000):
            x.append(wrapped(3 * x[n - 1] - x[n // 2]))
        b.append(x[999] ^ x[500])
    branch = ["    if a == a:", "        b = x999 ^ x500"]
    ways = (("1,000 locals", code, []), ("1,000 locals before a branch, beside another tasklet", code[:-1] + branch, ["    C[i] = A[i] + 1"]))
    for place, lines, more in ways:
        body = ["for i in dace.map[0:N]:", *(f"    {it}" for it in lines), *more]
        source = program(body, "A: dace.int64[N], B: dace.int64[N], C: dace.int64[N]", "N")
        given = {"N": len(a), "A": a, "B": [0] * len(a), "C": a}
        yield from both(place, source, given, printed(A=a, B=b, C=[wrapped(it + 1) for it in a] if more else a))


@case
def many_inputs_of_two_tasklets() -> Calls:
    """63 inputs of each of two tasklets of a map, and 1,020 effects of a tasklet."""
    a = [drawn(63, n) for n in range(40)]
    body = ["for i in dace.map[0:40]:"]
    for name in "BC":
        body += ["    with dace.tasklet:", *(f"        c{n} << A[i, {n}]" for n in range(63)), f"        o >> {name}[i]"]
        body += ["        o = " + f" {'+' if name == 'B' else '-'} ".join(f"c{n}" for n in range(63))]
    source = program(body, "A: dace.int64[40, 63], B: dace.int64[40], C: dace.int64[40]")
    wanted = printed(A=a, B=[wrapped(sum(row)) for row in a], C=[wrapped(2 * row[0] - sum(row)) for row in a])
    yield from both("63 inputs of each of two tasklets", source, {"A": a, "B": [0] * 40, "C": [0] * 40}, wanted)
    code = ["with dace.tasklet:", "    a << A[0]", "    b >> B[0:N]", *(f"    b[{n}] = a - {n}" for n in range(1020))]
    source = program(code, "A: dace.int64[1], B: dace.int64[N]", "N")
    wanted = printed(A=[LEAST], B=[wrapped(LEAST - n) for n in range(1020)])
    yield from both("1,020 effects of a tasklet", source, {"N": 1020, "A": [LEAST], "B": [0] * 1020}, wanted, 2000)


# Graphs.


@case
def the_most_nodes_of_a_graph() -> Calls:
    """128 calls of a program with 255 statements: a statement has two nodes, and so has a call, which makes 65,536."""
    inner = [f"X[{n % 7}] = {n}" for n in range(255)]
    source = program(inner, "X: dace.int64[7]", name="g") + program(["g(A)"] * 128, "A: dace.int64[7]")
    found = files(source, {"A": [9] * 7})
    a = [0] * 7
    for n in range(255):
        a[n % 7] = n
    yield Call("65,536 nodes, run", RUN, found, printed(A=a))
    text = ["sdfg g", "array X[7]", "state 0", "next 1"]
    for n in range(255):
        text += [f"state {n + 1}", f"node 0 tasklet line {n + 3}", "node 1 access X", f"edge 0 1 X[{n % 7}] _out"]
        text += [f"next {n + 2}"] * (n < 254)
    listing = ["sdfg f", "array A[7]", "state 0", "next 1"]
    for n in range(1, 129):
        listing += [f"state {n}", "node 0 nested g", "node 1 access A", "edge 0 1 A[0:7] X"]
        listing += [f"next {n + 1}"] * (n < 128) + [f"in {n}.0", *text]
    yield Call("65,536 nodes, print", PRINT, found, "\n".join([*listing, ""]).encode())
    yield Call("65,536 nodes, check", CHECK, found, b"accepted\n")
    over = source.replace("    g(A)\n", "    A[0] = 1\n    g(A)\n", 1)
    yield Call("nodes above the limit", RUN, files(over, {"A": [9] * 7}), b"source error 8 at line 388\n", 3)


@case
def the_text_of_calls_in_one_another() -> Calls:
    listing = []
    for n in range(8, 0, -1):
        listing += [f"in {'.'.join(['1.1'] * (8 - n))}"] * (n < 8) + [f"sdfg f{n}", "array A[9]", "state 0", "next 1", "state 1"]
        listing += ["node 0 map i=0:1", f"node 1 in 0 nested f{n - 1}", "node 2 exit 0", "node 3 access A", "edge 1 2 A[0:9] A", "edge 2 3 A"]
    listing += [f"in {'.'.join(['1.1'] * 8)}", "sdfg f0", "array A[9]", "state 0", "next 1", "state 1", "node 0 tasklet line 3"]
    listing += ["node 1 access A", "edge 0 1 A[7] _out", ""]
    source = chain(["A[7] = 1"], 8)
    yield Call("the text of 8 calls in one another", PRINT, files(source, {"A": [0] * 9}), "\n".join(listing).encode())


@case
def many_scopes() -> Calls:
    """1,500 maps over two points in 5 over one, no two alike."""
    body = []
    for n in range(5):
        body += ["for i in dace.map[0:1]:"]
        for k in range(300):
            body += ["    for j in dace.map[0:2]:", f"        A[{k}, j + i] = A[{k}, j + i] * 3 + {n}"]
    a = [drawn(2, k) for k in range(300)]
    after = [row[:] for row in a]
    for n in range(5):
        after = [[wrapped(3 * it + n) for it in row] for row in after]
    source = program(body, "A: dace.int64[300, 2]")
    yield from both("1,505 maps", source, {"A": a}, printed(A=after))
    told = [f"scope {n + 1}.1: {it} A[0:300, 0:2]\n" for n in range(5) for it in ("read", "write")]
    yield Call("the accesses of 1,505 maps", CHECK, files(source, {"A": a}), ("".join(told) + "accepted\n").encode())


# Arrays and streams.


@case
def many_rows() -> Calls:
    """150,000 rows of two elements, by a map of an element statement, by one of a branch and by one that writes to computed places."""
    count = 150000
    rows = "for i, j in dace.map[0:N, 0:2]:"
    body = [rows, "    A[i, j] = A[i, j] + i", rows, "    with dace.tasklet:", "        a << A[i, j]", "        b >> A[i, j]"]
    body += ["        if a % 3 == 0:", "            b = a - 7", rows, "    with dace.tasklet:", "        a << A[i, j]"]
    body += ["        h >> H(1, lambda x, y: x + y)[0:7]", "        h[a % 7] = 1"]
    a = [[n * 7919 % 1000, -n] for n in range(count)]
    after = [[it - 7 if it % 3 == 0 else it for it in (x + n, y + n)] for n, (x, y) in enumerate(a)]
    h = [0] * 7
    for row in after:
        for it in row:
            h[it % 7] += 1
    source = program(body, "A: dace.int64[N, 2], H: dace.int64[7]", "N")
    found = files(source, {"N": count, "A": a, "H": [0] * 7})
    yield Call("150,000 rows of two elements", RUN, found, printed(A=after, H=h))


@case
def large_private_arrays() -> Calls:
    """Private and local arrays of 2^24 elements, in a map and in a program that is called."""
    local, last = f"T = dace.define_local([{ELEMENTS}], dtype=dace.int64)", f"T[{ELEMENTS - 1}]"
    inner = program([local, f"{last} = X[0] + 1", f"X[0] = {last} + T[0]"], "X: dace.int64[1]", name="g")
    body = ["for i in dace.map[0:2]:", f"    {local}", f"    {last} = A[i]", f"    A[i] = {last} - 1", "g(A[0:1])"]
    source = inner + program(body, "A: dace.int64[2]")
    yield Call("arrays of 2^24 that begin in scopes and calls", RUN, files(source, {"A": [LEAST, 5]}), printed(A=[LEAST, 4]))


@case
def a_million_values_in_a_stream() -> Calls:
    body = ["S = dace.define_stream(dace.int64)", "for i in dace.map[0:N]:", "    with dace.tasklet:", "        s >> S(-1)", "        s = i * i"]
    body += ["@dace.consume(S, 4)", "def pool(x, p):", "    o >> R(-1, lambda x, y: x + y)", "    o = x"]
    count = 2**20
    total = wrapped((count - 1) * count * (2 * count - 1) // 6)
    source = program(body, "R: dace.int64", "N")
    yield Call("2^20 values that wait in a stream", RUN, files(source, {"N": count, "R": [0]}), printed(R=[total]))


# Moves and rounds.


@case
def many_rounds() -> Calls:
    source = program(["while A[0] != 0:", "    A[0] = A[0] - 1"], "A: dace.int64[1]")
    yield Call("400,000 rounds of a loop", RUN, files(source, {"A": [400000]}), printed(A=[0]))


@case
def many_moves_of_one_item() -> Calls:
    """Copies by picks: a move for each element, and a transition before them and behind them."""
    source = program(["B[0:N] = A[0:N]"], "A: dace.int64[N], B: dace.int64[N]", "N")
    for count, traces in ((200000, True), (600000, False)):
        a = list(range(count))
        found = files(source, {"N": count, "A": a, "B": [0] * count}, [2**64 - 1, 5])
        told = b"move 0 of 1\n" * (count + 2) if traces else b""
        words = [*STEP, "--trace"] if traces else STEP
        yield Call(f"{count + 2} moves{' that are told' if traces else ''}", words, found, told + printed(A=a, B=a))


@case
def many_points_of_maps_in_maps() -> Calls:
    body = ["for i in dace.map[0:N]:", "    for j in dace.map[0:2]:", "        B[i, j] = A[i] + j"]
    a = drawn(12000)
    source = program(body, "A: dace.int64[N], B: dace.int64[N, 2]", "N")
    draw = random.Random(2)
    found = files(source, {"N": len(a), "A": a, "B": [[0, 0]] * len(a)}, [draw.randrange(2**64) for _ in range(30000)])
    yield Call("12,000 points with a map by picks", STEP, found, printed(A=a, B=[[it, wrapped(it + 1)] for it in a]))


@case
def many_statements_by_picks() -> Calls:
    """A point of 1,020 statements begins: what has to be done before what is told of all pairs."""
    body = ["for i in dace.map[0:1]:", *(f"    A[i + {n}] = A[i + {n}] - {n}" for n in range(1020))]
    found = files(program(body, "A: dace.int64[1020]"), {"A": [7] * 1020}, [2**63, 1, 77])
    yield Call("1,020 statements by picks, with 9 turns", [*STEP[:-1], "9"], found, b"turns spent 9\n", 8)


@case
def many_takes_by_picks() -> Calls:
    source = program(POOL, "A: dace.int64[1], R: dace.int64[1]")
    yield Call("57,313 takes by picks", STEP, files(source, {"A": [22], "R": [0]}, [7, 2**63]), printed(A=[22], R=[17711]))
