"""Cases of chains and of workers at their limits: bytes and steps of a chain file, nodes of a rewritten state, 64 workers.

The runs print what Python works out; nothing of a chain or of workers is in it.
"""
from __future__ import annotations

from limit_calls import INC, RUN, Call, Calls, case, drawn, files, printed, program, wrapped

CHAIN_BYTES = 2**16
STEPS = 256
# Seconds of a clock for work that may wait for other work.
WAITS = 600
CHAINED = [*RUN, "--chain", "chain"]
PAIRS = program(["for i, j in dace.map[0:N, 0:N]:", "    B[j, i] = A[i, j]"], "A: dace.int64[N, N], B: dace.int64[N, N]", "N")


def with_chain(source: str, given: dict, chain: bytes) -> dict[str, bytes]:
    return {**files(source, given), "chain": chain}


@case
def the_most_bytes_of_a_chain() -> Calls:
    """256 steps in 2^16 bytes, which expand a map and collapse it in turn; a byte more, and a step more."""
    size = 20
    flat = drawn(size * size)
    rows = [flat[row * size : (row + 1) * size] for row in range(size)]
    columns = [list(it) for it in zip(*rows)]
    given, wanted = {"N": size, "A": rows, "B": rows}, printed(A=rows, B=columns)
    steps = b"MapExpansion 1.1\nMapCollapse 1.1\n" * (STEPS // 2)
    full = steps.ljust(CHAIN_BYTES, b"\n")
    yield Call("2^16 bytes of a chain with 256 steps", CHAINED, with_chain(PAIRS, given, full), wanted)
    yield Call("the same by 4 workers", [*CHAINED, "--workers", "4"], with_chain(PAIRS, given, full), wanted)
    yield Call("a byte more of a chain", CHAINED, with_chain(PAIRS, given, full + b"\n"), b"too long chain\n", 11)
    yield Call("a step more", CHAINED, with_chain(PAIRS, given, steps + b"MapExpansion 1.1"), b"chain refused at line 257\n", 5)


@case
def the_most_nodes_of_a_rewritten_state() -> Calls:
    """An expanded or tiled map has two nodes more: a state of 1,022 nodes may have them, and one of 1,023 may not."""
    for statements, status, wanted in ((1019, 0, printed(A=[[1019, 1020]])), (1020, 5, b"chain refused at line 1 condition 9\n")):
        source = program(["for i, j in dace.map[0:1, 0:2]:", *["    A[i, j] += 1"] * statements], "A: dace.int64[1, 2]")
        for step in ("MapExpansion 1.0", "MapTiling 1.0 2 2"):
            yield Call(f"{step} of {statements} statements", CHAINED, with_chain(source, {"A": [[0, 1]]}, f"{step}\n".encode()), wanted, status)


@case
def the_most_nodes_of_an_interchanged_state() -> Calls:
    """An interchange makes no node: a state of 1,024 nodes keeps them."""
    source = program(["for i in dace.map[0:1]:", "    for j in dace.map[0:2]:", *["        A[i, j] += 1"] * 1019], "A: dace.int64[1, 2]")
    yield Call("MapInterchange of 1,019 statements", CHAINED, with_chain(source, {"A": [[0, 1]]}, b"MapInterchange 1.0\n"), printed(A=[[1019, 1020]]))


@case
def the_most_of_a_tiling() -> Calls:
    """The greatest tiles of many points, 2^39 as the step of the begins, and a step of 2^40, which is refused."""
    count = 2**15
    flat = drawn(count)
    given, wanted = {"N": count, "A": flat, "B": [0] * count}, printed(A=flat, B=[wrapped(it + 1) for it in flat])
    most = b"MapTiling 1.1 4096\n"
    for chain in (most, most * 3, most * 3 + b"MapTiling 1.1 8\n", b"MapTiling 1.1 2\n" * 6):
        yield Call(f"chain of {chain!r}", CHAINED, with_chain(INC, given, chain), wanted)
    yield Call("4 workers at tiles of 4,096", [*CHAINED, "--workers", "4"], with_chain(INC, given, most), wanted)
    yield Call("a step of 2^40", CHAINED, with_chain(INC, given, most * 3 + b"MapTiling 1.1 16\n"), b"chain refused at line 4 condition 9\n", 5)
    yield Call("seven tilings", CHAINED, with_chain(INC, given, b"MapTiling 1.1 2\n" * 7), b"chain refused at line 7 condition 9\n", 5)


@case
def the_most_workers() -> Calls:
    """64 workers at 2^20 elements, and one at as many."""
    few, times = drawn(2**10), 2**10
    a, b = (" ".join(map(str, it)) for it in (few, [wrapped(it + 1) for it in few]))
    count = len(few) * times
    wanted = f"A[{count}] = {' '.join([a] * times)}\nB[{count}] = {' '.join([b] * times)}\n".encode()
    arrays = f'{{"N":{count},"A":[{",".join([a.replace(" ", ",")] * times)}],"B":[{",".join(["0"] * count)}]}}'.encode()
    for workers in (64, 2):
        words = [*RUN, "--workers", str(workers)]
        yield Call(f"{workers} workers at 2^20 elements", words, files(INC, arrays), wanted, seconds=WAITS)
    short = ["run", "a.py", "a.json", "--turns", str(count - 1), "--workers", "64"]
    yield Call("64 workers, a turn too few for 2^20 elements", short, files(INC, arrays), f"turns spent {count - 1}\n".encode(), 8, seconds=WAITS)
