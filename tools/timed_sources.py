"""The texts that time_parts.py has cut into tokens, read and made into graphs."""
from timed_program import BYTES

HEAD = """import dace
N = dace.symbol('N')

@dace.program
def mm(A: dace.int64[N, N], B: dace.int64[N, N], C: dace.int64[N, N]):
    for i, j, k in dace.map[0:N, 0:N, 0:N]:
"""
LINE = "        C[i, j] += A[i, k] * B[k, j]  # the product\n"
PROGRAM = "@dace.program\ndef f(A: dace.int64[3], B: dace.int64[3]):\n"


def repeated(before, each, behind=""):
    """Returns a text of 2^20 bytes or a little less."""
    return before + each * ((BYTES - len(before) - len(behind)) // len(each)) + behind


# What is cut into tokens.
LEXED = [("a product", repeated(HEAD, LINE))]


def loops(depth):
    """Returns loops, each in the one before it."""
    return "".join(" " * (line + 1) + "while A[0]:\n" for line in range(depth)) + " " * (depth + 1) + "A[0] = 0\n"


def programs():
    """Returns programs, each of which calls the one before it once."""
    text = "@dace.program\ndef f0(A: dace.int64[3]):\n    A[0] = 1\n"
    number = 1
    while len(text) < BYTES - 100:
        text += f"@dace.program\ndef f{number}(A: dace.int64[3]):\n    A[0] = 1\n"
        number += 1
    return text


# A name for each source that is read, and its text.
SOURCES = [
    ("statements", repeated(PROGRAM, "    A[0] = B[1] + 1\n")),
    ("tasklet lines", repeated(PROGRAM + "    with dace.tasklet:\n        a >> A[0]\n", "        a = 1\n")),
    ("branches", repeated(PROGRAM + "    if A[0]:\n        A[0] = 1\n", "    elif A[0]:\n        A[0] = 1\n")),
    ("elses", repeated(PROGRAM + "    if A[0]:\n        A[0] = 1\n", "    else:\n        A[0] = 1\n")),
    ("loops", PROGRAM + loops(1000)),
    ("containers", PROGRAM + "".join(f"    X{n} = dace.define_local([3], dace.int64)\n" for n in range(300))),
    ("symbols", "".join(f"N{n} = dace.symbol('N{n}')\n" for n in range(BYTES // 32)) + PROGRAM + "    A[0] = 1\n"),
    ("programs", programs()),
    ("arguments", "@dace.program\ndef f(" + ", ".join(f"A{n}: dace.int64" for n in range(BYTES // 20)) + "):\n    A0[0] = 1\n"),
    ("imports", repeated("", "import dace\n", PROGRAM + "    A[0] = 1\n")),
]

# What a line begins with, what is repeated, and what it ends with.
PIECES = [
    ("c = ", "(", ""),
    ("c = ", "[", ""),
    ("c = ", "- ", "a"),
    ("c = ", ",", ""),
    ("c = a", "+a", ""),
    ("c = a", " if a else a", ""),
    ("c = ", "min(", ""),
    ("c[a", ",a", "] = 1"),
    ("c << A[0", ",0:9", "]"),
]

# What is shown of each line, and the line.
LINES = [(f"{before}{each * 3}..{behind}", repeated(before, each, behind)) for before, each, behind in PIECES]


def a_program(name, body, arguments="A: dace.int64[4]"):
    """Returns a program with a line for each of these in its block."""
    return f"@dace.program\ndef {name}({arguments}):\n" + "".join(f"    {line}\n" for line in body)


def blocks(head, line, size, most):
    """Returns lines of so many bytes in a program: blocks of so many lines at most, each below this head."""
    lines, left = [], size
    while left > 0:
        here = min(most, left // (len(line) + 9) + 1)
        lines += [head] + ["    " + line] * here
        left -= len(head) + 5 + here * (len(line) + 9)
    return lines


def heads(lines, head):
    """Returns how many of these lines are the head of a block."""
    return sum(line == head for line in lines)


def maps(size):
    """Element statements in maps."""
    head = "for i in dace.map[0:4]:"
    lines = blocks(head, "A[i] = i + 7", size, 1000)
    count = heads(lines, head)
    return a_program("f", lines), f"1 containers, {count} variables, {count + 1} states"


def scopes(size):
    """Element statements in seven maps in one another."""
    one = ["    " * level + f"for i{level} in dace.map[0:4]:" for level in range(7)] + [" " * 28 + "A[i0] = i6 + 7"] * 250
    count = size // sum(len(line) + 5 for line in one)
    return a_program("f", one * count), f"1 containers, {7 * count} variables, {count + 1} states"


def tasklets(size):
    """Lines of tasklets."""
    head = "with dace.tasklet:"
    lines = blocks(head, "a = 7 * (3 if 1 < 2 else 4)", size, 1000)
    return a_program("f", lines), f"1 containers, 0 variables, {heads(lines, head) + 1} states"


def sums(size):
    """Statements of sixty elements, each with a connector of its own."""
    head = "for i in dace.map[0:4]:"
    lines = blocks(head, "A[i] = " + " + ".join(["A[4 * i + 3 - i - 2 * i - 3]"] * 60), size, 500)
    count = heads(lines, head)
    return a_program("f", lines), f"1 containers, {count} variables, {count + 1} states"


def calls(size):
    """Programs of some 4,000 bytes, all of which the last one calls."""
    body = ["with dace.tasklet:"] + ["    a = 1"] * 300
    one = a_program("f000", body)
    count = size // (len(one) + 12)
    text = "".join(one.replace("f000", f"f{number:03}") for number in range(count))
    return text + a_program("last", [f"f{number:03}(A)" for number in range(count)]), f"1 containers, 0 variables, {count + 1} states"


def chain(size):
    """Nine programs, each of which calls the one above it."""
    head = "for i in dace.map[0:4]:"
    lines = blocks(head, "A[i] = i + 7", size // 9, 1000)
    texts = [a_program(f"f{number}", lines + ([f"f{number - 1}(A)"] if number else [])) for number in range(9)]
    count = heads(lines, head)
    return "".join(texts), f"1 containers, {count} variables, {count + 2} states"


def branches(size):
    """Long conditions, six in one another."""
    count = 18
    name = "X" * (size // (count * 7 * 60) - 6)
    long = " + ".join([f"{name}[0]"] * 60)
    one = ["    " * level + f"if {long}:" for level in range(6)] + [" " * 24 + f"{name}[1] = {long}"]
    return a_program("f", one * count, f"{name}: dace.int64[4]"), f"1 containers, 0 variables, {13 * count + 1} states"


def names(size):
    """Containers with long names, each used once."""
    count = 200
    length = size // count // 2 - 40
    arrays = ["X" * length + f"{number:03}" for number in range(count)]
    lines = [f"{name} = dace.define_local([4], dace.int64)" for name in arrays]
    lines += ["for i in dace.map[0:4]:"] + [f"    {name}[i] = i" for name in arrays]
    return a_program("f", lines), f"{count + 1} containers, 1 variables, 2 states"


def symbols(size):
    """Size symbols."""
    lines, left = [], size
    while left > 0:
        lines.append(f"N{len(lines)} = dace.symbol('N{len(lines)}')\n")
        left -= len(lines[-1])
    return "".join(lines) + a_program("f", ["A[0] = 1"]), f"1 containers, {len(lines)} variables, 2 states"


# Each gives a source of so many bytes, and what its graph has.
GRAPHS = [maps, scopes, tasklets, sums, calls, chain, branches, names, symbols]
