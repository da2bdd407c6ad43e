"""Cases of long sources, many of each kind, late refusals, and ranges far longer than any container."""
from __future__ import annotations

import random
from itertools import product

from limit_calls import (
    both, Call, Calls, case, drawn, files, GREATEST, INC, json_of, LEAST, leaves, printed, program, RUN, SOURCE_BYTES, STEP,
    wrapped,
)


# Sizes of sources.


@case
def long_sources() -> Calls:
    """Maps of statements with sixty numbers: Python works out the same sums."""
    draw = random.Random(9)
    sums = ["i" + "".join(f" {draw.choice('+-*')} {draw.randrange(2**20)}" for _ in range(60)) for _ in range(1000)]
    body = []
    for at, text in enumerate(sums):
        body += ["for i in dace.map[0:N]:"] * (at % 250 == 0) + [f"    A[i] += ({text}) ^ A[i + N]"]
    source = program(body, "A: dace.int64[2 * N]", "N")
    a = drawn(8)
    wanted = a[:4] + a[4:]
    codes = [compile(text, "sum", "eval") for text in sums]
    for i in range(4):
        wanted[i] = wrapped(a[i] + sum(wrapped(eval(code, {"i": i})) ^ a[i + 4] for code in codes))
    assert 2**19 < len(source) < SOURCE_BYTES
    given = {"N": 4, "A": a}
    yield from both(f"{len(source)} bytes of statements", source, given, printed(A=wanted))
    yield Call("the same, with a comment to 2^20 bytes", RUN, files(source.ljust(SOURCE_BYTES, "#"), given), printed(A=wanted))


@case
def states() -> Calls:
    """A program begins with a state, and each statement has one."""
    body = [f"A[{n % 7}] = 3 * A[{(n + 1) % 7}] + {n}" for n in range(255)]
    a = drawn(7)
    after = a[:]
    for n in range(255):
        after[n % 7] = wrapped(3 * after[(n + 1) % 7] + n)
    source = program(body, "A: dace.int64[7]")
    yield from both("256 states", source, {"A": a}, printed(A=after))
    listing = ["sdfg f", "array A[7]", "state 0", "next 1"]
    for n in range(255):
        listing += [f"state {n + 1}", "node 0 access A", f"node 1 tasklet line {n + 3}", "node 2 access A"]
        listing += [f"edge 0 1 A[{(n + 1) % 7}] _in0", f"edge 1 2 A[{n % 7}] _out"] + [f"next {n + 2}"] * (n < 254)
    yield Call("the text of 256 states", ["print", "a.py", "a.json"], files(source, {"A": a}), "\n".join([*listing, ""]).encode())


@case
def scopes() -> Calls:
    body = [line for n in range(255) for line in (f"for i in dace.map[0:{n}]:", f"    A[i] = A[i + {n}] + {n}")]
    a = drawn(600)
    after = a[:]
    for n in range(255):
        after[:n] = [wrapped(it + n) for it in after[n : 2 * n]]
    source = program(body, "A: dace.int64[600]")
    yield from both("255 maps", source, {"A": a}, printed(A=after))
    told = [f"scope {n + 1}.1: read A[{n}:{2 * n}]\nscope {n + 1}.1: write A[0:{n}]\n" for n in range(255)]
    yield Call("the accesses of 255 maps", ["check", "a.py", "a.json"], files(source, {"A": a}), ("".join(told) + "accepted\n").encode())


@case
def statements_of_a_map() -> Calls:
    """A map of 300 statements: an entry, a tasklet for each, an exit, and the access nodes."""
    body = ["for i in dace.map[0:N]:"] + [f"    A[{n}, i] = A[{n}, i] + A[{(n + 299) % 300}, i]" for n in range(300)]
    a = [drawn(5, n) for n in range(300)]
    after = [row[:] for row in a]
    for n in range(300):
        after[n] = [wrapped(x + y) for x, y in zip(after[n], after[n - 1])]
    source = program(body, "A: dace.int64[300, N]", "N")
    yield from both("300 statements of a map", source, {"N": 5, "A": a}, printed(A=after))
    listing = ["sdfg f", "array A[300,5]", "state 0", "next 1", "state 1", "node 0 access A", "node 1 map i=0:5"]
    listing += [f"node {n + 2} in 1 tasklet line {n + 5}" for n in range(300)] + ["node 302 exit 1", "node 303 access A", "edge 0 1 A"]
    for n in range(300):
        listing += [f"edge 1 {n + 2} A[{row}, i] _in{at}" for at, row in enumerate((n, (n + 299) % 300))]
    for n in range(300):
        listing += [f"edge {n + 2} {later + 2}" for later in range(n + 1, 300)] + [f"edge {n + 2} 302 A[{n}, i] _out"]
    listing += ["edge 302 303 A", ""]
    yield Call("the text of 300 statements", ["print", "a.py", "a.json"], files(source, {"N": 5, "A": a}), "\n".join(listing).encode())


@case
def parameters() -> Calls:
    names = [f"p{n}" for n in range(8)]
    weights = [3**n - 1 for n in range(8)]
    body = [f"for {', '.join(names)} in dace.map[{', '.join(['0:3'] * 8)}]:"]
    value = " + ".join(f"{weight} * {name}" for weight, name in zip(weights, names))
    points = [sum(weight * it for weight, it in zip(weights, point)) for point in product(range(3), repeat=8)]
    source = program([*body, f"    A[0] += {value}"], "A: dace.int64[1]")
    yield from both("8 parameters", source, {"A": [GREATEST]}, printed(A=[wrapped(GREATEST + sum(points))]), 10000)


@case
def connectors() -> Calls:
    """63 inputs and an output in a map and outside of it, an input and 63 outputs, and a statement of 63 elements."""
    a = drawn(63 * 40)
    rows = [a[at : at + 63] for at in range(0, len(a), 63)]
    inputs = [f"c{n} << A[{{row}}, {n}]" for n in range(63)] + ["o >> B[{row}]"]
    value = " + ".join(f"{n + 1} * c{n}" for n in range(63))
    body = ["for i in dace.map[0:39]:", "    with dace.tasklet:"]
    body += [f"        {it.format(row='i')}" for it in inputs] + [f"        o = {value}"]
    body += ["with dace.tasklet:", *(f"    {it.format(row=39)}" for it in inputs), f"    o = {value}"]
    body += ["C[0] = " + " + ".join(f"A[7, {n}]" for n in range(63))]
    outputs = [f"    d{n} >> D[{n}]" for n in range(63)] + [f"    d{n} = {n} - x" for n in range(63)]
    body += ["with dace.tasklet:", "    x << A[3, 3]", *outputs]
    source = program(body, "A: dace.int64[40, 63], B: dace.int64[40], C: dace.int64[1], D: dace.int64[63]")
    given = {"A": rows, "B": [0] * 40, "C": [0], "D": [0] * 63}
    sums = [wrapped(sum((n + 1) * it for n, it in enumerate(row))) for row in rows]
    wanted = printed(A=rows, B=sums, C=[wrapped(sum(rows[7]))], D=[wrapped(n - rows[3][3]) for n in range(63)])
    yield from both("64 connectors", source, given, wanted, 10000)


@case
def scopes_and_loops_about_a_line() -> Calls:
    names = [f"k{n}" for n in range(7)]
    weights = [5 ** (n + 1) for n in range(7)]
    value = " + ".join(f"{weight} * {name}" for weight, name in zip(weights, names))
    total = sum(weight * it for point in product(range(3), repeat=7) for weight, it in zip(weights, point))
    wanted = printed(A=[wrapped(LEAST + total)])
    for place, head in (("maps", "for {} in dace.map[0:3]:"), ("loops", "for {} in range(3):")):
        body = ["    " * n + head.format(name) for n, name in enumerate(names)] + ["    " * 7 + f"A[0] += {value}"]
        yield from both(f"7 {place} in one another", program(body, "A: dace.int64[1]"), {"A": [LEAST]}, wanted)


def chain(first: list[str], size: int, arguments: str = "A: dace.int64[9]", call: str = "A") -> str:
    """Returns programs f0 to f8, each of which calls the one before it in a map over one point, the first with this body."""
    texts = [program(first, arguments, name="f0")]
    texts += [program(["for i in dace.map[0:1]:", f"    f{n}({call})"], arguments, name=f"f{n + 1}") for n in range(size)]
    return "".join(texts)


@case
def calls_in_one_another() -> Calls:
    source = chain(["for k in dace.map[0:9]:", "    A[k] = 7 * A[k] + k"], 8)
    a = drawn(9)
    yield from both("8 calls in one another", source, {"A": a}, printed(A=[wrapped(7 * it + k) for k, it in enumerate(a)]))
    source = chain(["for k in dace.map[0:8]:", "    A[k] = A[k + 1] + 1"], 8)
    # Each call is node 1, in the map that is node 0; in the program that is called last a read stands before its map.
    race = "race at " + "1.1." * 8 + "1.1: read A by 2, write A by 2\n"
    for command in ("run", "check"):
        yield Call(f"a race below 8 calls, {command}", [command, "a.py", "a.json"], files(source, {"A": a}), race.encode(), 6)
    source = chain(["for k in dace.map[0:9]:", "    A[k] = 1 // A[k]"], 8)
    # The first program has its statement in line 4, and each later one its call in the last of its four lines.
    frames = [f"line {4 + 4 * n}: i=0" for n in reversed(range(1, 9))] + ["line 4: k=3"]
    fault = f"fault division at {' > '.join(frames)}\n".encode()
    yield Call("a fault below 8 calls, run", RUN, files(source, {"A": a[:3] + [0] * 6}), fault, 7)
    yield Call("a fault below 8 calls, step", STEP, files(source, {"A": a[:3] + [0] * 6}, [5] * 100), fault, 7)


@case
def lines_of_a_tasklet() -> Calls:
    """1,024 lines, and as many effects as they leave room for."""
    body = ["with dace.tasklet:", "    a << A[0]", "    b >> B[0:N]", "    x = a"]
    body += [f"    b[{n}] = x * {n} - {n}" if n % 2 else "    x = x * 3 + 1" for n in range(1021)]
    a, x, b = drawn(5)[4], 0, [0] * 1021
    x = a
    for n in range(1021):
        if n % 2:
            b[n] = wrapped(x * n - n)
        else:
            x = wrapped(x * 3 + 1)
    source = program(body, "A: dace.int64[1], B: dace.int64[N]", "N")
    yield from both("1,024 lines of a tasklet", source, {"N": 1021, "A": [a], "B": [0] * 1021}, printed(A=[a], B=b), 3000)


@case
def levels_of_expressions() -> Calls:
    """64 signs to the left, and 32 to the right, where each has a bracket too."""
    left = "A[0]" + "".join(f" {'+-*'[n % 3]} {n + 2}" for n in range(64))
    right = "".join(f"({n + 2} {'-*'[n % 2]} " for n in range(32)) + "A[0]" + ")" * 32
    a = drawn(5)[4]
    value = [wrapped(eval(text, {"A": [a]})) for text in (left, right)]
    source = program([f"B[0] = {left}", f"B[1] = {right}"], "A: dace.int64[1], B: dace.int64[2]")
    yield from both("64 levels of an expression", source, {"A": [a], "B": [0, 0]}, printed(A=[a], B=value))


@case
def containers() -> Calls:
    names = [f"X{n}" for n in range(256)]
    values = drawn(256)
    body = ["for i in dace.map[0:1]:"] + [f"    {one}[i] = {other}[i] + 1" for one, other in zip(names, names[1:])]
    after = [wrapped(it + 1) for it in values[1:]] + values[-1:]
    given = {name: [it] for name, it in zip(names, values)}
    wanted = printed(**{name: [it] for name, it in zip(names, after)})
    yield from both("256 arguments", program(body, ", ".join(f"{it}: dace.int64[1]" for it in names)), given, wanted)
    local = [f"{name} = dace.define_local([{n + 1}], dtype=dace.int64)" for n, name in enumerate(names[1:])]
    body = ["for i in dace.map[0:255]:"] + [f"    {name}[{n}] += i + {n}" for n, name in enumerate(names[1:])]
    body += ["for i in dace.map[0:1]:"] + [f"    X0[i] += {name}[{n}]" for n, name in enumerate(names[1:])]
    total = sum(i + n for i in range(255) for n in range(255))
    source = program(local + body, "X0: dace.int64[1]")
    yield Call("255 local arrays", RUN, files(source, {"X0": [GREATEST]}), printed(X0=[wrapped(GREATEST + total)]))


@case
def sizes_and_programs() -> Calls:
    count = 4000
    names = [f"N{n}" for n in range(count)]
    source = program([f"A[0] = {' + '.join(names[-60:])}"], "A: dace.int64[N7]", " ".join(names))
    given = {**{name: n for n, name in enumerate(names)}, "A": [0] * 7}
    yield Call("4,000 size symbols", RUN, files(source, given), printed(A=[sum(range(count - 60, count))] + [0] * 6))
    others = "".join(program([f"A[0] = {n}"], "A: dace.int64[1]", name=f"f{n}") for n in range(count))
    source = others + program([f"f{n}(A[{n % 5}])" for n in range(count - 250, count)], "A: dace.int64[5]", name="last")
    yield Call("4,000 programs", RUN, files(source, {"A": [0] * 5}), printed(A=list(range(count - 5, count))))


@case
def long_names() -> Calls:
    name, variable = "X" * 9000, "i" * 9000
    source = program([f"for {variable} in dace.map[0:4]:", f"    {name}[{variable}] = 1 // {name}[{variable}]"], f"{name}: dace.int64[4]")
    place = f"line 4: {variable}=2"
    yield Call("names of 9,000 bytes", RUN, files(source, {name: [1, 1, 1, 1]}), printed(**{name: [1, 1, 1, 1]}))
    yield Call("a fault with one", RUN, files(source, {name: [1, 1, 0, 1]}), f"fault division at {place}\n".encode(), 7)
    told = f"scope 1.1: read {name}[0:4]\nscope 1.1: write {name}[0:4]\naccepted\n"
    yield Call("its accesses", ["check", "a.py", "a.json"], files(source, {name: [1, 1, 1, 1]}), told.encode())
    racing = program(["for i in dace.map[0:3]:", f"    {name}[i] = {name}[i + 1]"], f"{name}: dace.int64[4]")
    race = f"race at 1.1: read {name} by 2, write {name} by 2\n"
    yield Call("a race with such a name", RUN, files(racing, {name: [1, 1, 1, 1]}), race.encode(), 6)
    yield Call("an array of such a name that is missing", RUN, files(source, {}), f"arrays error 17 {name}\n".encode(), 4)


@case
def names_of_files() -> Calls:
    folder = "/".join(["a" * 200] * 15)
    source, given = f"{folder}/{'s' * 255}", f"{folder}/{'g' * 255}"
    found = {source: INC.encode(), given: json_of({"N": 1, "A": [1], "B": [0]})}
    yield Call("files with names of 3,271 bytes", ["run", source, given], found, printed(A=[1], B=[2]))
    missing = f"{folder}/none"
    yield Call("a file with a long name that is missing", ["run", source, missing], found, f"read fault {missing}\n".encode(), 9)


@case
def entries_of_a_file() -> Calls:
    given = {**{f"X{n}": n for n in range(60000)}, "N": 1, "A": [1], "B": [1]}
    yield Call("60,000 entries that are no arguments", RUN, files(INC, given), b"arrays error 18 X0\n", 4)
    deep = b'{"N":1,"A":' + b"[" * 126 + b"]" * 126 + b',"B":[0]}'
    yield Call("lists 126 deep", RUN, files(INC, deep), b"arrays error 19 A\n", 4)


@case
def points_with_memories() -> Calls:
    """Private arrays of 200 elements, at 2,000 points in turn and at 100 by picks."""
    body = ["for i in dace.map[0:N]:", "    T = dace.define_local([200], dtype=dace.int64)"]
    body += ["    for j in dace.map[0:200]:", "        T[j] += A[i] * j", "    for j in dace.map[0:200]:", "        B[i] += T[j]"]
    source = program(body, "A: dace.int64[N], B: dace.int64[N]", "N")
    for count in (2000, 100):
        a = drawn(count)
        wanted = printed(A=a, B=[wrapped(it * 19900) for it in a])
        calls = list(both(f"{count} points with private arrays", source, {"N": count, "A": a, "B": [0] * count}, wanted, 20000))
        yield from calls if count == 100 else calls[:1]


@case
def pools_in_a_map() -> Calls:
    """A stream and a consume scope at each point."""
    body = ["for i in dace.map[0:N]:", "    S = dace.define_stream(dace.int64)", "    with dace.tasklet:", "        a << A[i]"]
    body += ["        s >> S(-1)", "        s = a", "    @dace.consume(S, 2)", "    def pool(x, p):", "        more >> S(-1)"]
    body += ["        r >> R(-1, lambda a, b: a + b)[i]", "        r = x", "        if x > 0:", "            more = x - 1"]
    source = program(body, "A: dace.int64[N], R: dace.int64[N]", "N")
    for count in (1000, 60):
        a = [n % 40 for n in range(count)]
        wanted = printed(A=a, R=[it * (it + 1) // 2 for it in a])
        calls = list(both(f"{count} pools", source, {"N": count, "A": a, "R": [0] * count}, wanted, 10000))
        yield from calls if count == 60 else calls[:1]


@case
def points_by_each_way() -> Calls:
    """100,000 points of maps that are run in other ways than rows of one element statement."""
    count = 100000
    a = [k * k * 7919 % 1000003 - 500000 for k in range(count)]
    branch = ["for i in dace.map[0:N]:", "    with dace.tasklet:", "        a << A[i]", "        b >> B[i]", "        if a < 0:"]
    branch += ["            b = -a", "        elif a % 2 == 0:", "            b = a // 2"]
    two = ["for i in dace.map[0:N]:", "    B[i] = A[i] + i", "    B[i] = B[i] * A[i]"]
    kept = ["for i in dace.map[0:N]:", "    T = dace.define_local([2], dtype=dace.int64)"]
    kept += ["    T[1] = A[i] - 1", "    T[0:1] = T2[0:1]", "    B[i] = T[0] + T[1]"]
    view = ["view(A[0:N], B[0:N])"]
    called = program(["for i in dace.map[0:N]:", "    Y[i] = X[i] - 7"], "X: dace.int64[N], Y: dace.int64[N]", "N", "view")
    ways = {
        "branches": (branch, [-it if it < 0 else it // 2 if it % 2 == 0 else 0 for it in a]),
        "two statements": (two, [(it + i) * it for i, it in enumerate(a)]),
        "private arrays": (["T2 = dace.define_local([1], dtype=dace.int64)", "T2[0] = 5", *kept], [it + 4 for it in a]),
        "parts of arrays": (view, [it - 7 for it in a]),
    }
    for place, (body, b) in ways.items():
        symbols, before = ("", called) if body is view else ("N", "")
        source = before + program(body, "A: dace.int64[N], B: dace.int64[N]", symbols)
        yield Call(f"100,000 points with {place}", RUN, files(source, {"N": count, "A": a, "B": [0] * count}), printed(A=a, B=b))


@case
def pools_in_one_another() -> Calls:
    """Seven streams, each with a pool in the pool of the one before: each element pushes two into the next."""
    body = []
    for n in range(7):
        room = "    " * n
        pushed = [f"a << {f'x{n - 1}' if n else 'A[0]'}", f"s >> S{n}(-1)", "s = a", "s = a + 1"]
        body += [f"{room}S{n} = dace.define_stream(dace.int64)", f"{room}with dace.tasklet:", *(f"{room}    {it}" for it in pushed)]
        body += [f"{room}@dace.consume(S{n}, 2)", f"{room}def pool{n}(x{n}, p{n}):"]
    body += ["    " * 7 + "B[0] += x6[0]"]
    source = program(body, "A: dace.int64[1], B: dace.int64[1]")
    total = sum(100 + sum(it) for it in product(range(2), repeat=7))
    yield from both("7 pools in one another", source, {"A": [100], "B": [0]}, printed(A=[100], B=[total]))


@case
def many_calls() -> Calls:
    source = program(["X[0] = X[0] + 1"], "X: dace.int64[1]", name="g") + program(["g(A)"] * 250, "A: dace.int64[1]")
    yield from both("250 calls", source, {"A": [7]}, printed(A=[257]))
    source = program(["X[0] = 1"], "X: dace.int64[1]", name="g") + program(["g(A)"] * 250, "A: dace.int64[1]")
    inner = ["sdfg g", "array X[1]", "state 0", "next 1", "state 1", "node 0 tasklet line 3", "node 1 access X", "edge 0 1 X[0] _out"]
    listing = ["sdfg f", "array A[1]", "state 0", "next 1"]
    for n in range(1, 251):
        listing += [f"state {n}", "node 0 nested g", "node 1 access A", "edge 0 1 A[0:1] X"]
        listing += [f"next {n + 1}"] * (n < 250) + [f"in {n}.0", *inner]
    yield Call("the text of 250 calls", ["print", "a.py", "a.json"], files(source, {"A": [7]}), "\n".join([*listing, ""]).encode())


@case
def long_words() -> Calls:
    given = files(INC, {"N": 1, "A": [1], "B": [0]}, b"1 " * 3 + b"0" * 100000 + b"7")
    turns = ["--turns", "0" * 100000 + "1"]
    yield Call("a number of turns with 100,001 digits", ["run", "a.py", "a.json", *turns], given, printed(A=[1], B=[2]))
    yield Call("a pick with 100,001 digits", STEP, given, printed(A=[1], B=[2]))
    yield Call("5,000 words too many", ["run", "a.py", "a.json"] + ["word"] * 5000, given, b"bad words\n", 2)


# Many of each kind, and refusals that come late.


@case
def streams() -> Calls:
    """A stream for each element of an array, each with a pool of its own."""
    body = []
    for n in range(120):
        body += [f"S{n} = dace.define_stream(dace.int64)", "with dace.tasklet:", f"    a << A[{n}]", f"    s >> S{n}(-1)"]
        body += ["    s = a", "    s = -a"]
        body += [f"@dace.consume(S{n}, 3)", f"def pool{n}(x, p):", f"    r >> R(-1, lambda a, b: a * b)[{n}]", "    r = x"]
    a = drawn(120)
    wanted = printed(A=a, R=[wrapped(-it * it) for it in a])
    yield from both("120 streams", program(body, "A: dace.int64[120], R: dace.int64[120]"), {"A": a, "R": [1] * 120}, wanted)


@case
def private_arrays() -> Calls:
    body = ["for i in dace.map[0:3]:"] + [f"    T{n} = dace.define_local([2], dtype=dace.int64)" for n in range(200)]
    body += ["    T0[1] = A[i]"] + [f"    T{n + 1}[{n % 2}] = T{n}[{(n + 1) % 2}] + {n}" for n in range(199)] + ["    B[i] = T199[0]"]
    a = drawn(3)
    wanted = printed(A=a, B=[wrapped(it + sum(range(199))) for it in a])
    yield from both("200 private arrays", program(body, "A: dace.int64[3], B: dace.int64[3]"), {"A": a, "B": [0] * 3}, wanted)


@case
def arguments_of_a_call() -> Calls:
    """A call with 120 parts of one array and 120 arrays, which reads and writes through its arguments."""
    ins, outs = ([f"{letter}{n}" for n in range(120)] for letter in "XY")
    body = [f"{y}[0] = {x}[1] - {n}" for n, (x, y) in enumerate(zip(ins, outs))]
    inner = program(body, ", ".join(f"{it}: dace.int64[2]" for it in ins + outs), name="g")
    arguments = [f"A[{n}:{n + 2}]" for n in range(120)] + [f"B{n}[1:3]" for n in range(120)]
    names = [f"B{n}" for n in range(120)]
    source = inner + program([f"g({', '.join(arguments)})"], ", ".join(["A: dace.int64[121]", *(f"{it}: dace.int64[3]" for it in names)]))
    a = drawn(121)
    given = {"A": a, **{it: [1, 2, 3] for it in names}}
    wanted = printed(A=a, **{it: [1, wrapped(a[n + 1] - n), 3] for n, it in enumerate(names)})
    yield from both("240 arguments of a call", source, given, wanted)


@case
def parts_of_parts() -> Calls:
    """Each of 8 calls takes a part of its argument with 4 dimensions, one less in each of two."""
    body = ["R = dace.define_local([2, 2, 2], dtype=dace.int64)", "A[1, 1, 1, 1] = 2 * A[0, 0, 1, 1]"]
    body += ["dace.reduce(lambda x, y: x + y, A, R, axis=3)", "A[0, 0, 0, 0] = R[1, 1, 1] + R[0, 1, 0]"]
    texts = [program(body, "A: dace.int64[2, 2, 2, 2]", name="f0")]
    for n in range(1, 9):
        call = f"f{n - 1}(A[1:{n + 2}, 0:2, 0:{n + 1}, 0:2])"
        texts.append(program([call], f"A: dace.int64[{n + 2}, 2, {n + 2}, 2]", name=f"f{n}"))
    numbers = iter(drawn(400))
    a = [[[[next(numbers) for _ in range(2)] for _ in range(10)] for _ in range(2)] for _ in range(10)]
    given = {"A": [[[row[:] for row in plane] for plane in cube] for cube in a]}
    a[9][1][1][1] = wrapped(2 * a[8][0][1][1])
    a[8][0][0][0] = wrapped(sum(a[9][1][1]) + sum(a[8][1][0]))
    yield from both("parts of parts, 8 deep", "".join(texts), given, printed(A=a))


@case
def conditions() -> Calls:
    """61 branches, each with a condition of several elements, and one of 63."""
    body = []
    for n in range(60):
        body += [f"{'elif' if n else 'if'} A[0] == {n} and A[1] >= A[2]:", f"    B[0] = {n * n}"]
    body += ["else:", "    B[0] = -1"]
    many = program(body, "A: dace.int64[3], B: dace.int64[1]")
    for value, wanted in ((59, 59 * 59), (60, -1)):
        a = [value, GREATEST, LEAST]
        yield Call(f"branch {value} of 60", RUN, files(many, {"A": a, "B": [0]}), printed(A=a, B=[wanted]))
    a = drawn(63)
    a[7] = 0
    a[7] = wrapped(-500 - sum(a))
    wanted = [wrapped(it + 1000 * (n == 7)) for n, it in enumerate(a)]
    source = program([f"while {' + '.join(f'A[{n}]' for n in range(63))} < 500:", "    A[7] += 1"], "A: dace.int64[63]")
    yield from both("a condition of 63 elements", source, {"A": a}, printed(A=wanted))


@case
def late_refusals() -> Calls:
    """Errors, faults and races behind many lines, words, leaves, points and accesses that are right."""
    lines = ["# a comment"] * 50000
    source = "\n".join([*lines, INC.rstrip(), "        B[i] = A[i * i]", ""])
    given = {"N": 2, "A": [4, 5], "B": [0, 0]}
    yield Call("an error in line 50,006", RUN, files(source, given), b"source error 6 at line 50006\n", 3)
    picks = b"18446744073709551615 " * 200000 + b"18446744073709551616"
    yield Call("a word that is no pick behind 200,000", STEP, files(INC, given, picks), b"picks refused at word 200001\n", 5)
    ones = b"1," * 300000
    yield Call("a leaf that is no number behind 300,000", RUN, files(INC, b'{"N":1,"A":[%s1.5],"B":[0]}' % ones), b"arrays error 15 A\n", 4)
    yield Call("a list among 300,000 numbers", RUN, files(INC, b'{"N":1,"A":[%s[]],"B":[0]}' % ones), b"arrays error 16 A\n", 4)
    yield Call("no end behind 300,000 numbers", RUN, files(INC, b'{"N":1,"A":[%s' % ones), b"arrays error 14\n", 4)
    divided = program(["for i in dace.map[0:N]:", "    A[i] = 7 // A[i]"], "A: dace.int64[N]", "N")
    found = files(divided, {"N": 100001, "A": [1] * 100000 + [0]})
    yield Call("a fault at point 100,000", RUN, found, b"fault division at line 5: i=100000\n", 7)
    racing = program(["for i in dace.map[0:N + 1]:", "    A[i] = A[i + N]"], "A: dace.int64[2 * N + 1]", "N")
    found = files(racing, {"N": 50000, "A": [1] * 100001})
    yield Call("a race of 50,001 points", RUN, found, b"race at 1.1: read A by 2, write A by 2\n", 6)
    outside = program(["for i in dace.map[0:N + 1]:", "    B[i] = A[i]"], "A: dace.int64[N], B: dace.int64[N + 1]", "N")
    found = files(outside, {"N": 50000, "A": [1] * 50000, "B": [0] * 50001}, [3] * 1000)
    for words in (RUN, STEP):
        yield Call(f"a subscript outside at point 50,000, {words[0]}", words, found, b"fault subscript at line 5: i=50000\n", 7)
    body = ["for i in dace.map[0:4]:"] + [f"    A[{n}, i] = {n}" for n in range(400)] + ["    A[399, i + 1] = 1"]
    race = b"race at 1.0: write A by 400, write A by 401\n"
    yield Call("a race behind 400 accesses", RUN, files(program(body, "A: dace.int64[400, 5]"), {"A": [[0] * 5] * 400}), race, 6)


# Ranges that are far longer than any container.


def small(place: str, body: list[str], arrays: dict[str, list[int]], status: int, wanted: bytes) -> Call:
    """Returns a call over arrays of few elements that has 10 seconds and 512 MiB."""
    source = program(body, ", ".join(f"{name}: dace.int64[{len(it)}]" for name, it in arrays.items()))
    return Call(place, RUN, files(source, arrays), wanted, status, 10, 512)


FOUR = {"A": [1, 2, 3, 4], "B": [0, 0, 0, 0]}
END = 2**40 - 1


@case
def an_extent_above_64_bits() -> Calls:
    heads = [f"for a in dace.map[{2**39}:{2**39 + 1}]:"]
    heads += ["    " * (n + 1) + f"for {it} in dace.map[1023*{last}:1023*{last}+1]:" for n, (last, it) in enumerate(("ab", "bc", "cd"))]
    body = [" " * 16 + it for it in ("with dace.tasklet:", "    x << A[0]", "    y >> B[0:d]", "    y[0] = x + 41")]
    yield small("an output of 5.9e20 elements", heads + body, FOUR, 0, printed(A=FOUR["A"], B=[42, 0, 0, 0]))


@case
def a_read_far_outside() -> Calls:
    body = ["with dace.tasklet:", f"    x << A[0:{END}]", "    y >> B[0]", "    y = x[0]"]
    yield small("an input of 2^40 elements", body, FOUR, 7, b"fault subscript at line 3\n")
    body = ["for i in dace.map[0:2]:", "    with dace.tasklet:", "        x << A[i:30000000]", "        y >> B[i]", "        y = x[0]"]
    yield small("inputs of 30,000,000 elements in a map", body, FOUR, 7, b"fault subscript at line 4: i=0\n")


@case
def a_copy_far_outside() -> Calls:
    yield small("a copy of 2^40 elements", [f"B[0:{END}] = A[0:{END}]"], FOUR, 7, b"fault subscript at line 3\n")


@case
def points_that_never_begin() -> Calls:
    """Maps of tasklets by picks whose points are far more than memory holds, and whose turns are spent long before the end."""
    words = ["step", "a.py", "a.json", "picks", "--turns", "1000"]
    draw = random.Random(7)
    picks = [draw.randrange(2**64) for _ in range(3000)]
    one = ["for i in dace.map[0:1000000000]:", "    B[0] += 1"]
    two = ["for i, j in dace.map[0:40000, 0:40000]:", "    B[0] += i", "    C[0] += j"]
    for place, body in (("a billion points", one), ("1.6 billion points of two statements", two)):
        source = program(body, "B: dace.int64[1], C: dace.int64[1]")
        for how, given in (("in their order", b""), ("by picks", picks)):
            found = files(source, {"B": [0], "C": [0]}, given)
            yield Call(f"{place} {how}, with 1,000 turns", words, found, b"turns spent 1000\n", 8, 20, 512)


@case
def private_arrays_that_are_not_made() -> Calls:
    """Points by picks whose private arrays are more than memory holds: the turns are spent before a second one begins."""
    body = ["for i in dace.map[0:N]:", "    T = dace.define_local([1048576], dtype=dace.int64)", "    T[i] = A[i] + 1", "    B[i] = T[i]"]
    source = program(body, "A: dace.int64[N], B: dace.int64[N]", "N")
    found = files(source, {"N": 400, "A": [1] * 400, "B": [0] * 400}, b"")
    words = ["step", "a.py", "a.json", "picks", "--turns", "3"]
    yield Call("400 points with private arrays of 2^20, with 3 turns", words, found, b"turns spent 3\n", 8, 20, 512)
