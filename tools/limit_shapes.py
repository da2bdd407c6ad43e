"""Cases of shapes within the limits that may take long or much memory: many accesses, nodes, loops, names, elements and points.

The way that grows too fast takes many times what a call has here: seconds of a processor, as other work may go on beside, or MiB.
"""
from __future__ import annotations

from limit_calls import both, Call, Calls, case, drawn, files, printed, program, RUN, STEP, wrapped

CHECK, PRINT = ([it, "a.py", "a.json"] for it in ("check", "print"))
# Seconds of a clock, where those of a processor are what ends a call that takes too long.
WAITS = 600


@case
def many_accesses() -> Calls:
    """25,600 accesses of a map's points: to two arrays, to one, and written by tasklets."""
    rows = 400
    reads = [f"    B[{row}, i] = " + " + ".join(f"A[{64 * row + n}, i]" for n in range(63)) for row in range(rows)]
    writes = []
    for row in range(rows):
        writes += ["    with dace.tasklet:", f"        x << B[{row}, i]"]
        writes += [f"        o{n} >> A[{64 * row + n}, i]" for n in range(63)] + ["        o0 = x"]
    many, few = f"A[0:{64 * rows - 1}, 0:1]", f"[0:{rows}, 0:1]"
    kinds = {
        "of two arrays": (reads, f"read {many}", f"write B{few}"),
        "of one array": ([it.replace("B[", "A[") for it in reads], f"read {many}", f"write A{few}"),
        "that write": (writes, f"read B{few}", f"write {many}"),
    }
    given = {"N": 1, "A": [[1]] * (64 * rows), "B": [[1]] * rows}
    for place, (body, *told) in kinds.items():
        source = program(["for i in dace.map[0:N]:", *body], f"A: dace.int64[{64 * rows}, N], B: dace.int64[{rows}, N]", "N")
        text = "".join(f"scope 1.1: {it}\n" for it in told) + "accepted\n"
        yield Call(f"25,600 accesses {place}", CHECK, files(source, given), text.encode(), seconds=WAITS, processor=16)


@case
def many_loops() -> Calls:
    """63 loops, each with a map of 8 parameters: a begin, a body, the map and what follows are states."""
    names = list("pqrstuvw")
    head = f"for {', '.join(names)} in dace.map[{', '.join(['0:1'] * 8)}]:"
    body = [line for _ in range(63) for line in ("for k in range(1):", f"    {head}", "        A[0] += 1")]
    source = program(body, "A: dace.int64[1]")
    found = files(source, {"A": [1]})
    label = f"node 0 map {', '.join(f'{it}=0:1' for it in names)}"
    nodes = [label, "node 1 in 0 tasklet line {line}", "node 2 exit 0", "node 3 access A"]
    nodes += ["edge 1 2 A(1, sum)[0] _out", "edge 2 3 A"]
    listing = ["sdfg f", "array A[1]", "state 0"]
    for n in range(63):
        begin, line = 4 * n + 1, 3 * n + 3
        listing += [f"next {begin} set k=0", f"state {begin}", f"next {begin + 1} if line {line}", f"next {begin + 3}"]
        listing += [f"state {begin + 1}", f"next {begin + 2}", f"state {begin + 2}", *(it.format(line=line + 2) for it in nodes)]
        listing += [f"back {begin} set k=k+1", f"state {begin + 3}"]
    yield Call("the text of 63 loops with 8 parameters", PRINT, found, "\n".join([*listing, ""]).encode(), seconds=WAITS, processor=4)
    told = "".join(f"scope {4 * n + 3}.0: sum A[0:1]\n" for n in range(63)) + "accepted\n"
    yield Call("the accesses of 63 loops with 8 parameters", CHECK, found, told.encode(), seconds=WAITS, processor=4)


@case
def the_most_nodes_of_a_state() -> Calls:
    """A map of 1,020 statements: with two access nodes, an entry and an exit 1,024 nodes."""
    count = 1020
    source = program(["for i in dace.map[0:4]:"] + [f"    A[i] = A[i] + {n}" for n in range(count)], "A: dace.int64[4]")
    found = files(source, {"A": [1, 2, 3, 4]})
    total = sum(range(count))
    yield Call("1,024 nodes, run", RUN, found, printed(A=[it + total for it in (1, 2, 3, 4)]))
    text = b"scope 1.1: read A[0:4]\nscope 1.1: write A[0:4]\naccepted\n"
    yield Call("1,024 nodes, check", CHECK, found, text, seconds=WAITS, processor=16)
    listing = ["sdfg f", "array A[4]", "state 0", "next 1", "state 1", "node 0 access A", "node 1 map i=0:4"]
    listing += [f"node {n + 2} in 1 tasklet line {n + 4}" for n in range(count)]
    listing += [f"node {count + 2} exit 1", f"node {count + 3} access A", "edge 0 1 A"]
    listing += [f"edge 1 {n + 2} A[i] _in0" for n in range(count)]
    for n in range(count):
        listing += [f"edge {n + 2} {later + 2}" for later in range(n + 1, count)] + [f"edge {n + 2} {count + 2} A[i] _out"]
    listing += [f"edge {count + 2} {count + 3} A", ""]
    yield Call("1,024 nodes, print", PRINT, found, "\n".join(listing).encode())


@case
def many_elements_of_one_item() -> Calls:
    """A copy, a reduction and an input of 2^20 elements, each in a few MiB beside the arrays and the file."""
    count = 2**20
    few, times = drawn(2**10), 2**10
    a = few * times
    given = ('{"A":[%s],"B":[0]}' % ",".join([",".join(map(str, few))] * times)).encode()
    local = f"T = dace.define_local([{count}], dtype=dace.int64)"
    arguments = f"A: dace.int64[{count}], B: dace.int64[1]"
    first = f"A[{count}] = {' '.join([' '.join(map(str, few))] * times)}\n"
    code = ["with dace.tasklet:", f"    a << A[0:{count}]", "    b >> B[0]", f"    b = a[1] + a[{count - 7}]"]
    ways = {
        "a copy": ([local, f"T[0:{count}] = A[0:{count}]", f"B[0] = T[{count - 5}]"], a[-5]),
        "a reduction": (["dace.reduce(lambda x, y: x + y, A, B, identity=0)"], wrapped(sum(few) * times)),
        "an input": (code, wrapped(a[1] + a[-7])),
    }
    for place, (body, wanted) in ways.items():
        found = files(program(body, arguments), given)
        yield Call(f"{place} of 2^20 elements", RUN, found, f"{first}B[1] = {wanted}\n".encode(), seconds=WAITS, processor=40)


@case
def many_values_at_a_place() -> Calls:
    """A fault below 7 maps of 8 parameters each shows all 56 of them."""
    names = [[f"{letter}{n}" for letter in "pqrstuvw"] for n in range(7)]
    body = []
    for n, row in enumerate(names):
        ranges = ", ".join(["0:1"] * 7 + [f"{n}:{n + 1}"])
        body.append("    " * n + f"for {', '.join(row)} in dace.map[{ranges}]:")
    body.append("    " * 7 + "A[0] = 1 // A[1]")
    values = [f"{it}={n if it[0] == 'w' else 0}" for n, row in enumerate(names) for it in row]
    fault = f"fault division at line {len(body) + 2}: {', '.join(values)}\n"
    found = files(program(body, "A: dace.int64[2]"), {"A": [1, 0]}, [3] * 9)
    for words in (RUN, STEP):
        yield Call(f"a place with 56 values, {words[0]}", words, found, fault.encode(), 7)


@case
def points_of_each_body_by_picks() -> Calls:
    """3,000 points by picks whose bodies hold other items than tasklets: a map, a copy, a call."""
    count = 3000
    a = drawn(count)
    called = program(["Y[0] = X[0] - 9"], "X: dace.int64[1], Y: dace.int64[1]", name="g")
    bodies = {
        "a map": (["for j in dace.map[0:2]:", "    B[i, j] = A[i] + j"], lambda it: [it, wrapped(it + 1)]),
        "a copy": (["B[i, 0:1] = A[i:i + 1]"], lambda it: [it, 0]),
        "a call": (["g(A[i:i + 1], B[i, 0:1])"], lambda it: [wrapped(it - 9), 0]),
    }
    for place, (body, after) in bodies.items():
        lines = ["for i in dace.map[0:N]:", *(f"    {it}" for it in body)]
        source = program(lines, "A: dace.int64[N], B: dace.int64[N, 2]", "N")
        # Size symbols stand above all programs.
        source = source.replace("@dace", f"{called}@dace", 1) if place == "a call" else source
        given = {"N": count, "A": a, "B": [[0, 0]] * count}
        yield from both(f"3,000 points with {place}", source, given, printed(A=a, B=[after(it) for it in a]), 9000)


@case
def many_names_that_nobody_asks_for() -> Calls:
    """A million entries that are no arguments: of all of them the least one is kept and told."""
    names = [f"{n * 7919 % 1000003:07}" for n in range(1, 1000001)]
    given = "{" + ",".join(f'"{it}":1' for it in names) + "}"
    found = files(program(["A[0] = 1"], "A: dace.int64[1]"), given.encode())
    megabytes = 4 * len(given) // 2**20 + 8
    limits = {"megabytes": megabytes, "seconds": WAITS, "processor": 20}
    yield Call("a million names that nobody asks for", RUN, found, b"arrays error 17 A\n", 4, **limits)
    given = given.replace("}", ',"A":[1]}')
    found = files(program(["A[0] = 1"], "A: dace.int64[1]"), given.encode())
    yield Call("the least of them", RUN, found, b"arrays error 18 0000001\n", 4, **limits)


@case
def private_arrays_that_are_let_go() -> Calls:
    """Points and elements by picks that are finished one after another: memory holds the private arrays of a few of them."""
    body = ["for i in dace.map[0:N]:", "    T = dace.define_local([1048576], dtype=dace.int64)", "    T[i] = A[i] + 1", "    B[i] = T[i]"]
    source = program(body, "A: dace.int64[N], B: dace.int64[N]", "N")
    words = ["step", "a.py", "a.json", "picks"]
    found = files(source, {"N": 400, "A": [1] * 400, "B": [0] * 400}, b"")
    yield Call("400 points with private arrays of 2^20", words, found, printed(A=[1] * 400, B=[2] * 400), 0, 60, 512)
    body = ["S = dace.define_stream(dace.int64)", "for i in dace.map[0:N]:", "    with dace.tasklet:", "        a << A[i]", "        s >> S(-1)", "        s = a"]
    body += ["@dace.consume(S, 2)", "def pool(x):", "    T = dace.define_local([1048576], dtype=dace.int64)", "    T[7] = x[0] * 3", "    B[0] += T[7]"]
    source = program(body, "A: dace.int64[N], B: dace.int64[1]", "N")
    found = files(source, {"N": 400, "A": list(range(400)), "B": [5]}, b"")
    yield Call("400 elements with private arrays of 2^20", words, found, printed(A=list(range(400)), B=[5 + 3 * sum(range(400))]), 0, 60, 512)


@case
def memory_of_points_that_have_begun() -> Calls:
    """200,000 points by picks of which each has begun before one is finished: each takes some 200 bytes."""
    count = 200000
    a = [1] * count
    source = program(["for i in dace.map[0:N]:", "    B[i] = A[i] + 1"], "A: dace.int64[N], B: dace.int64[N]", "N")
    found = files(source, {"N": count, "A": a, "B": a}, [0, *range(count)])
    yield Call("200,000 points that have begun", STEP, found, printed(A=a, B=[2] * count), seconds=WAITS, megabytes=54)


@case
def memory_of_elements_of_one_item() -> Calls:
    """2^21 elements of a copy, an input and a reduction: they are gone through, and no list of them is made. Such an array has 16 MiB."""
    count = 2**21
    given = b'{"A":[%s]}' % b",".join([b"1"] * count)
    wanted = b"A[%d] =%s\n" % (count, b" 1" * count)
    ways = {
        "a copy": ([f"B = dace.define_local([{count}], dtype=dace.int64)", f"B[0:{count}] = A[0:{count}]"], 44),
        "an input": (["with dace.tasklet:", f"    a << A[0:{count}]", "    b >> A[0]", "    b = a[1]"], 54),
        "a reduction": (["R = dace.define_local([1], dtype=dace.int64)", "dace.reduce(lambda x, y: x + y, A, R)"], 36),
    }
    for place, (body, megabytes) in ways.items():
        found = files(program(body, f"A: dace.int64[{count}]"), given)
        yield Call(f"{place} of 2^21 elements in {megabytes} MiB", RUN, found, wanted, seconds=WAITS, megabytes=megabytes)


@case
def memory_of_an_array_that_nobody_asks_for() -> Calls:
    """An array of 2^24 elements that is no argument: it is read and not kept."""
    given = b'{"A":[5],"X":[%s]}' % b",".join([b"1"] * 2**24)
    found = files(program(["A[0] = 1"], "A: dace.int64[1]"), given)
    yield Call("2^24 elements that nobody asks for", RUN, found, b"arrays error 18 X\n", 4, WAITS, 116)
