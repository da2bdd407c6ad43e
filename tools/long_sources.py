"""Sources that are long, deep or many: the ends of each limit, and what a reader could fall over.

Each line that is wanted is counted by the rules, in the comment beside it, and not taken from an answer.
"""
from timed_program import BYTES

DEF = "@dace.program\ndef f(A: dace.int64[4]):\n"
RESERVED = "dace np range min max and as def elif else for if import in lambda not or while with".split()
# Bytes that begin a token outside comments, and bytes that may stand alone on a line.
BEGIN = b"ABCDEFGHIJKLMNOPQRSTUVWXYZabcdefghijklmnopqrstuvwxyz_0123456789+-*%&|^~<>=()[],:.@"
ALONE = b"\n\r\t #"

LONG = []


def accepted(rule, text, programs=1, symbols=0):
    """Adds a source that is read."""
    LONG.append((f"{programs} programs, {symbols} symbols", rule, text.encode()))


def refused(number, line, rule, text):
    """Adds a source that is refused."""
    LONG.append((f"source error {number} at line {line}", rule, text.encode()))


def body(lines, width=4):
    """Returns a program with these lines in its block, from line 3 on."""
    return DEF + "".join(" " * width + line + "\n" for line in lines)


def tasklet(lines):
    """Returns a program of one tasklet, whose lines begin at line 4."""
    return body(["with dace.tasklet:"] + ["    " + line for line in lines])


def nested(head, depth, inner):
    """Returns lines that each open a block in the one before, and a line in the last of them."""
    return [" " * level + head for level in range(depth)] + [" " * depth + inner]


def bytes_and_words():
    """Every byte alone on a line, and every reserved word."""
    program = (DEF + "    A[0] = 1\n").encode()
    for byte in range(256):
        wanted = "source error 4 at line 1" if byte in BEGIN else "source error 1 at line 1"
        if byte in ALONE:
            wanted = "1 programs, 0 symbols"
        LONG.append((wanted, f"the byte {byte} alone on a line", bytes([byte]) + b"\n" + program))
        if byte != 10:
            comment = b"#" + bytes([byte]) + b"\n" + program
            LONG.append(("1 programs, 0 symbols", f"the byte {byte} in a comment", comment))
    for word in RESERVED:
        refused(7, 1, f"'{word}' is reserved", f"{word} = dace.symbol('{word}')\n" + DEF + "    A[0] = 1\n")
        refused(7, 4, f"'{word}' is reserved, as a local", tasklet([f"{word} = 1"]))


def sizes():
    """Texts of as many bytes as there may be, and of one more."""
    program = DEF + "    A[0] = 1\n"
    filled = program + "#" + "x" * (BYTES - len(program) - 2) + "\n"
    accepted("a comment up to 2^20 bytes", filled)
    LONG.append(("too long", "a comment up to 2^20 + 1 bytes", filled.encode() + b"\n"))
    accepted("empty lines up to 2^20 bytes", program + "\n" * (BYTES - len(program)))
    accepted("blanks on a line up to 2^20 bytes", program + " " * (BYTES - len(program)))
    refused(4, BYTES + 1, "2^20 empty lines have no program", "\n" * BYTES)
    refused(4, 2, "2^20 bytes of a comment have no program", "#" * BYTES)
    refused(1, BYTES // 2, "a byte at the end of 2^20 bytes", "#\n" * (BYTES // 2 - 1) + "?\n")
    # A name of half the text stands in it twice.
    name = "N" * (BYTES // 2 - 100)
    accepted("a name of half a text", f"{name} = dace.symbol('{name}')\n" + program, symbols=1)
    refused(3, 3, "a number of 2^19 digits", body(["A[0] = " + "1" * 2**19]))
    refused(1, 3, "a number of 2^19 digits with a letter behind it", body(["A[0] = " + "1" * 2**19 + "a"]))
    refused(1, 1, "a string of 2^19 letters that is not closed", "N = dace.symbol('" + "N" * 2**19 + "\n" + program)


def many_lines():
    """Sources of about 2^20 bytes."""
    accepted("imports", "import dace\n" * 80_000 + DEF + "    A[0] = 1\n")
    symbols = [f"N{n} = dace.symbol('N{n}')\n" for n in range(10_000)]
    accepted("ten thousand symbols", "".join(symbols) + DEF + "    A[0] = N9999\n", symbols=10_000)
    refused(7, 10_001, "the first of ten thousand symbols again", "".join(symbols) + symbols[0] + DEF)
    statement = "    A[0] = A[1] + 1\n"
    # State 0 and 255 statements are 256; the 256th statement stands at line 258.
    refused(8, 258, "2^20 bytes of statements", DEF + statement * ((BYTES - len(DEF)) // len(statement)))
    programs = "".join(f"@dace.program\ndef f{n}(A: dace.int64):\n    A[0] = 1\n" for n in range(10_000))
    accepted("ten thousand programs", programs, programs=10_000)
    refused(7, 30_002, "the first of ten thousand programs again", programs + DEF.replace("def f(", "def f0("))
    # The first element statement of a body is its first line; the fault is in the last line of all.
    refused(5, 30_000, "the last of ten thousand programs has a fault", programs[:-9] + "A[0] = Z\n")
    # 256 arguments are as many as a program may have.
    arguments = ", ".join(f"A{n}: dace.int64" for n in range(40_000))
    refused(8, 2, "forty thousand arguments", f"@dace.program\ndef f({arguments}):\n    A0[0] = 1\n")
    refused(4, 3, "2^19 open brackets", body(["A[0] = " + "(" * 2**19, "A[1] = 1"]))
    refused(4, 3, "2^19 closing brackets", body(["A[0] = " + ")" * 2**19, "A[1] = 1"]))
    refused(8, 3, "2^19 brackets in one another", body(["A[0] = " + "(" * 2**18 + "1" + ")" * 2**18]))
    refused(8, 3, "2^19 signs before a number", body(["A[0] = " + "-" * 2**19 + "1"]))
    refused(8, 3, "a sum of 2^18 numbers", body(["A[0] = " + "1+" * 2**18 + "1"]))
    refused(8, 3, "2^15 elements in one another", body(["A[0] = " + "A[" * 2**15 + "0" + "]" * 2**15]))
    refused(4, 3, "2^18 values", body(["A[0] = " + "1," * 2**18 + "1"]))
    refused(4, 3, "2^18 subscripts", body(["A[" + "0," * 2**18 + "0] = 1"]))
    refused(4, 4, "2^18 ranges of an input", tasklet(["c << A[" + "0," * 2**18 + "0]"]))
    refused(4, 5, "2^18 subscripts of an output", tasklet(["c >> A", "c[" + "0," * 2**18 + "0] = 1"]))
    refused(5, 3, "2^18 arguments of a call, by a program of itself", body(["f(" + "A," * 2**18 + "A)"]))
    refused(4, 3, "2^18 names of a loop over a range", body(["for " + "i," * 2**18 + "i in range(1):"]))


def containers():
    """256 containers are as many as a program may have."""
    local, stream = "X{} = dace.define_local([4], dtype=dace.int64)", "X{} = dace.define_stream(dace.int64)"
    for name, line in (("arrays", local), ("streams", stream)):
        accepted(f"an argument and 255 {name}", body([line.format(n) for n in range(255)]))
        # The 256th of these lines stands at line 258.
        refused(8, 258, f"an argument and 300 {name}", body([line.format(n) for n in range(300)]))
    for count in (256, 257):
        arguments = ", ".join(f"A{n}: dace.int64" for n in range(count))
        text = f"@dace.program\ndef f({arguments}):\n    A0[0] = 1\n"
        accepted("256 arguments", text) if count == 256 else refused(8, 2, "257 arguments", text)
    # Arrays of map bodies count too, though they are in force no more.
    maps = [line for n in range(255) for line in ("for i in dace.map[0:4]:", "    " + local.format(n))]
    accepted("an argument and 255 arrays of maps", body(maps))
    inner = ["for i in dace.map[0:4]:"] + ["    for j in dace.map[0:4]:", "        {}"] * 256
    inner = [line.format(local.format(number // 2 - 1)) for number, line in enumerate(inner)]
    # The outer map is line 3, its inner map n from 1 on is line 2n + 2, and that one's array line 2n + 3.
    refused(8, 515, "an argument and 256 arrays of inner maps", body(inner))
    # A, S and 254 elements are 256. Each consume scope has three lines, from line 4 on.
    bodies = ["@dace.consume(S, 1)", "def g(x{}):", "    A[0] = x{}[0]"]
    tasklets = ["@dace.consume(S, 1)", "def g(x):", "    a >> A[0]"]
    for name, scope in (("bodies", bodies), ("tasklets", tasklets)):
        lines = ["S = dace.define_stream(dace.int64)"]
        lines += [line.format(n) for n in range(255) for line in scope]
        accepted(f"254 elements of consume {name}", body(lines[: 1 + 3 * 254]))
        # The decorator of the 255th scope is line 4 + 3 * 254, and its element stands on the line behind it.
        refused(8, 767, f"255 elements of consume {name}", body(lines))


def states():
    """256 states are as many as a program may have; state 0 is there from the begin."""
    one = "A[0] = 1"
    accepted("255 statements", body([one] * 255))
    refused(8, 258, "256 statements", body([one] * 256))
    local = "X = dace.define_local([4], dace.int64)"
    accepted("255 statements and a declaration, which makes no state", body([one] * 255 + [local]))
    accepted("statements of a map make no state", body(["for i in dace.map[0:4]:"] + ["    " + one] * 300))
    kinds = {
        "an element statement": ["A[0] += 1"],
        "a copy": ["B[:] = A[:]"],
        "a reduction": ["dace.reduce(lambda x, y: x + y, A, R)"],
        "a map": ["for i in dace.map[0:4]:", "    A[i] = 1"],
        "a tasklet": ["with dace.tasklet:", "    a = 1"],
        "a consume scope": ["@dace.consume(S, 1)", "def g(x):", "    a >> A[0]"],
        "a call": ["e(R)"],
    }
    begin = "@dace.program\ndef e(X: dace.int64):\n    X[0] = 1\n" + DEF
    begin += "".join(f"    {x} = dace.define_local([{n}], dace.int64)\n" for x, n in (("B", 4), ("R", 1)))
    begin += "    S = dace.define_stream(dace.int64)\n"
    for name, lines in kinds.items():
        last = "".join(f"    {line}\n" for line in lines)
        accepted(f"{name} makes the 256th state", begin + f"    {one}\n" * 254 + last, programs=2)
        # The block begins at line 6 with three declarations, so the 256th state's line is 9 + 255.
        refused(8, 264, f"{name} makes the 257th state", begin + f"    {one}\n" * 255 + last)
    full = begin + f"    {one}\n" * 255
    for line in ("A[:] = A[:]", "e(A)", "dace.reduce(lambda x, y: x - y, A, R)"):
        refused(8, 264, f"'{line}' makes the 257th state", full + f"    {line}\n")
    refused(7, 264, "a lower number goes before the 257th state", full + "    for A in range(4):\n        B[0] = 1\n")
    almost = begin + f"    {one}\n" * 254
    refused(10, 263, "a copy that does not fit makes the 256th state", almost + f"    A[:] = A[:]\n    {one}\n")
    branches()


def branches():
    """States of loops and branches. Behind n statements there are n + 1 states; the line is that of the statement."""
    one = "A[0] = 1"
    for head, more in (("for k in range(4):", 3), ("while A[0]:", 3), ("if A[0]:", 2)):
        # A head makes its first states (two, for an if one), then the block one, and its end one more. With this many
        # statements before it the end is the 257th state.
        block = [head, "    " + one]
        count = 255 - more
        accepted(f"'{head}' ends with the 256th state", body([one] * (count - 1) + block))
        refused(8, count + 3, f"'{head}' ends with the 257th state, at its line", body([one] * count + block))
        refused(8, count + 5, f"the block of '{head}' has the 257th state", body([one] * (count + 1) + block))
        wrong = [one] * count + [head, "    A[0] = Z"]
        refused(5, count + 4, f"what is wrong in the block of '{head}' is found before its end", body(wrong))
    # An if, its else and their blocks make a first state, one, a state between, one, and an end.
    both = ["if A[0]:", "    " + one, "else:", "    " + one]
    accepted("an if with an else ends with the 256th state", body([one] * 250 + both))
    refused(8, 254, "an if with an else ends with the 257th state, at its line", body([one] * 251 + both))
    refused(8, 258, "the block of an else has the 257th state", body([one] * 252 + both))
    refused(8, 256, "the state before an else is the 257th, at the if's line", body([one] * 253 + both))
    refused(8, 258, "the block of an if before an else has the 257th state", body([one] * 254 + both))
    # n branches with conditions have n first states, n blocks, n - 1 states between and n ends, the last one's first.
    first, further = ["if A[0]:", "    " + one], ["elif A[0]:", "    " + one]
    accepted("an if with 63 elifs", body(first + further * 63))
    # There are 195 states before the ends; the 62nd end is that of the fourth branch, at line 3 + 2 * 3.
    refused(8, 9, "an if with 64 elifs", body(first + further * 64))
    # The first branch has 2 states and each further one 3, the one between first. With state 0 and 85 branches there
    # are 255; the one between is the 256th, and the first of the 86th branch, at line 3 + 2 * 85, the 257th.
    refused(8, 173, "an if with 999 elifs", body(first + further * 999))
    elses()


def elses():
    """Elses in one another. Each level has an if, a statement and an else, and the last else holds a statement."""

    def lines(depth):
        made = [" " * n + text for n in range(depth) for text in ("if A[0]:", " A[0] = 1", "else:")]
        return made + [" " * depth + "A[0] = 2"]

    # State 0, three states a level, the last statement's and an end for each level.
    accepted("63 elses in one another", body(lines(63)))
    # 194 states before the ends, the innermost first: the 63rd end, that of the second level, is the 257th.
    refused(8, 6, "64 elses in one another", body(lines(64)))
    # 256 states with 85 levels, whose lines are 3 to 257.
    refused(8, 258, "hundreds of elses in one another", body(lines(300)))
    code = [line.replace("A[0] = ", "x = ").replace("A[0]", "1") for line in lines(341)]
    # 3 lines a level and one are 1,024.
    accepted("hundreds of elses in one another in a tasklet", tasklet(code))
    code = [line.replace("A[0] = ", "x = ").replace("A[0]", "1") for line in lines(342)]
    refused(8, 3 + 1025, "one level more is too many lines", tasklet(code))
    accepted("hundreds of elifs in a tasklet", tasklet(["if 1:", "    x = 1"] + ["elif 1:", "    x = 1"] * 511))


def depths():
    """Blocks in one another, 1,000 deep."""
    one = "A[0] = 1"
    refused(8, 11, "a thousand while loops in one another", body(nested("while A[0]:", 1000, one)))
    maps = [" " * n + f"for i{n} in dace.map[0:4]:" for n in range(1000)] + [" " * 1000 + one]
    refused(8, 11, "a thousand maps in one another", body(maps))
    # Each if makes a state; the 256th is the 257th state.
    refused(8, 258, "a thousand ifs in one another", body(nested("if A[0]:", 1000, one)))
    accepted("127 ifs in one another", body(nested("if A[0]:", 127, one)))
    # 130 states before the ends, the innermost first: the 127th end, that of the second if, is the 257th.
    refused(8, 4, "128 ifs in one another", body(nested("if A[0]:", 128, one)))
    accepted("a thousand ifs in one another in a tasklet", tasklet(nested("if 1:", 1000, "x = 1")))
    deepest = nested("if 1:", 1000, "x = 1")
    refused(5, 1005, "a local of the innermost of a thousand blocks, behind them", tasklet(deepest + ["y = x"]))
    accepted("a block of 1,000 spaces", body([one], 1000))
    refused(2, 4, "a block of 1,000 spaces closes to 999", body([one], 1000) + " " * 999 + one + "\n")
    refused(4, 4, "blocks that nothing awaits", body([" " * n + one for n in range(1000)]))
    accepted("an else that closes a thousand blocks", tasklet(deepest + ["else:", "    x = 2"]))
    between = nested("if 1:", 999, "x = 1") + ["x = 2", "else:"]
    refused(4, 1005, "an else behind a thousand blocks and a line", tasklet(between))


def tasklets():
    """64 connectors and 1,024 lines are as many as a tasklet may have."""
    ins = [f"c{n} << A[0]" for n in range(64)]
    outs = [f"d{n} >> A[0]" for n in range(64)]
    accepted("64 inputs", tasklet(ins))
    accepted("64 outputs", tasklet(outs))
    accepted("32 inputs and 32 outputs", tasklet(ins[:32] + outs[:32]))
    # The lines of a tasklet begin at line 4.
    refused(8, 68, "65 inputs", tasklet(ins + ["e << A[0]"]))
    refused(8, 68, "65 outputs", tasklet(outs + ["e >> A[0]"]))
    refused(8, 68, "32 inputs and 33 outputs", tasklet(ins[:32] + outs[:33]))
    consume = DEF + "    S = dace.define_stream(dace.int64)\n    @dace.consume(S, 1)\n    def g(x):\n"
    accepted("an element and 63 inputs", consume + "".join(f"        {line}\n" for line in ins[:63]))
    # The block of the consume scope begins at line 6.
    refused(8, 69, "an element and 64 inputs", consume + "".join(f"        {line}\n" for line in ins))
    accepted("1,024 lines", tasklet(["x = 1"] * 1024))
    refused(8, 3 + 1025, "1,025 lines", tasklet(["x = 1"] * 1025))
    refused(8, 3 + 1025, "70,000 lines", tasklet(["x = 1"] * 70_000))
    branch = ["if 1:", "    x = 1", "elif 2:", "    x = 1", "else:", "    x = 1"]
    accepted("1,024 lines with connectors and branches", tasklet(ins + branch * 160))
    refused(8, 3 + 1025, "an else is the 1,025th line", tasklet(ins + branch * 159 + branch[:2] * 3 + branch[4:]))
    accepted("1,024 lines of a consume scope", consume + "        a >> A[0]\n" + "        a = 1\n" * 1023)
    refused(8, 5 + 1025, "1,025 lines of a consume scope", consume + "        a >> A[0]\n" + "        a = 1\n" * 1024)
    second = "    with dace.tasklet:\n" + "        x = 1\n" * 1024
    accepted("two tasklets of 1,024 lines", tasklet(["x = 1"] * 1024) + second)
    elements()


def elements():
    """The tasklet of an element statement or condition has a connector for each element, and its own."""

    def total(count):
        return "+".join(["A[0]"] * count)

    accepted("63 elements and the one that is assigned", body([f"A[1] = {total(63)}"]))
    refused(8, 3, "64 elements and the one that is assigned", body([f"A[1] = {total(64)}"]))
    accepted("62 elements and one that is added to", body([f"A[1] += {total(62)}"]))
    refused(8, 3, "63 elements and one that is added to", body([f"A[1] += {total(63)}"]))
    a_map = "for i in dace.map[0:4]:"
    accepted("63 elements and one that is added to, in a map", body([a_map, f"    A[1] += {total(63)}"]))
    refused(8, 4, "64 elements and one that is added to, in a map", body([a_map, f"    A[1] += {total(64)}"]))
    for head in ("while", "if"):
        accepted(f"63 elements of a {head} and its value", body([f"{head} {total(63)}:", "    A[0] = 1"]))
        refused(8, 3, f"64 elements of a {head} and its value", body([f"{head} {total(64)}:", "    A[0] = 1"]))
    elif_lines = ["if A[0]:", "    A[0] = 1", f"elif {total(64)}:", "    A[0] = 1"]
    refused(8, 5, "64 elements of an elif and its value", body(elif_lines))


def levels():
    """64 levels are as many as an expression may have."""

    def brackets(count, inner="1"):
        return "(" * count + inner + ")" * count

    shapes = {
        "brackets": brackets,
        "signs": lambda count: "-" * count + "1",
        "nots": lambda count: "not " * count + "1",
        "sums": lambda count: "1" + "+1" * count,
        "quotients": lambda count: "1" + "//2" * count,
        "bits": lambda count: "1" + "|1" * count,
        "ands": lambda count: "1" + " and 1" * count,
        "calls of min": lambda count: "min(1," * count + "1" + ")" * count,
        "first values of max": lambda count: "max(" * count + "1" + ",2)" * count,
        "conditionals": lambda count: "1 if 2 else " * count + "3",
        "signs in brackets": lambda count: "-(" * (count // 2) + "-" * (count % 2) + "1" + ")" * (count // 2),
    }
    for name, shape in shapes.items():
        accepted(f"64 {name}", body([f"A[0] = {shape(64)}"]))
        refused(8, 3, f"65 {name}", body([f"A[0] = {shape(65)}"]))
        accepted(f"64 {name} in a condition", body([f"while {shape(64)}:", "    A[0] = 1"]))
        refused(8, 3, f"65 {name} in a condition", body([f"if {shape(65)}:", "    A[0] = 1"]))
        accepted(f"64 {name} in a tasklet", tasklet([f"x = {shape(64)}"]))
        refused(8, 4, f"65 {name} in a tasklet", tasklet([f"x = {shape(65)}"]))
        accepted(f"63 {name} are added", body([f"A[0] += {shape(63)}"]))
        refused(8, 3, f"64 {name} are added", body([f"A[0] += {shape(64)}"]))
        accepted(f"64 {name} are added in a map", body(["for i in dace.map[0:4]:", f"    A[0] += {shape(64)}"]))
        refused(8, 4, f"65 {name} are added in a map", body(["for i in dace.map[0:4]:", f"    A[0] += {shape(65)}"]))
    places(brackets)
    too_deep(brackets)
    out_of_place(brackets)


def places(brackets):
    """Each expression of a line has levels of its own."""
    whole = brackets(64)
    every = [
        f"X = dace.define_local([{whole}, {whole}], dtype=dace.int64)",
        f"A[{whole}] = A[{whole}] + {brackets(63)}",
        f"A[{whole}:{whole}:1] = X[{whole}, {whole}:{whole}]",
        f"for k in range({whole}, {brackets(63)}):",
        f"    for i in dace.map[{whole}:{whole}]:",
        "        with dace.tasklet:",
        f"            a << A[{whole}:{whole}]",
        f"            b >> X(1, lambda x, y: {brackets(63, 'x+y')})[{whole}, 0:{whole}]",
        f"            b[{whole}] = {whole}",
        f"            if {whole}:",
        f"                b[0] = {brackets(63, 'a[0]')}",
        f"e(A[{whole}:{whole}])",
    ]
    begin = f"@dace.program\ndef e(X: dace.int64[{brackets(64, '0')}]):\n    X[0] = 1\n"
    accepted("64 levels in every place", begin + body(every), programs=2)
    deep = brackets(65)
    for line in (
        f"X = dace.define_local([{deep}], dtype=dace.int64)",
        f"A[{deep}] = 1",
        f"A[0] = A[{deep}]",
        f"A[{deep}:4] = A[0:4]",
        f"A[0:4] = A[0:{deep}]",
        f"for k in range({deep}, 4):",
        f"for k in range({whole}):",
        f"for i in dace.map[0:{deep}]:",
        f"dace.reduce(lambda x, y: {brackets(64, 'x+y')}, A, A)",
        f"f(A[{deep}])",
    ):
        lines = [line, "    A[0] = 1"] if line.endswith(":") else [line]
        refused(8, 3, f"a level too many: '{line[:20]}'", body(lines))
    for line in (
        f"a << A[{deep}]",
        f"a >> A(1, lambda x, y: {brackets(64, 'x+y')})[0]",
        f"a >> A[0:{deep}]",
        f"a[{deep}] = 1",
        f"if {deep}:",
    ):
        lines = [line, "    x = 1"] if line.endswith(":") else [line]
        refused(8, 4, f"a level too many: '{line[:20]}'", tasklet(lines))
    argument = f"@dace.program\ndef f(A: dace.int64[{deep}]):\n    A[0] = 1\n"
    refused(8, 2, "a level too many in an argument's type", argument)
    chain = "a[" * 64 + "0" + "]" * 64
    accepted("64 elements in one another in a tasklet", tasklet(["a << A[:]", f"x = {chain}"]))
    refused(8, 5, "65 elements in one another in a tasklet", tasklet(["a << A[:]", f"x = a[{chain}]"]))


def too_deep(brackets):
    """Of a line that is too deep nothing else is judged, unless a part of it is no form."""
    deep = brackets(65)
    refused(8, 3, "too deep, and a name that is not in force", body([f"Z[0] = {deep}"]))
    refused(8, 3, "too deep, and the wrong number of dimensions", body([f"A[0, 0] = {deep}"]))
    refused(8, 3, "too deep, and a container without subscripts", body([f"A[A] = {deep}"]))
    loop = ["for i in dace.map[0:4]:", f"    while {deep}:", "        A[0] = 1"]
    refused(8, 4, "too deep, and a loop in a map", body(loop))
    refused(8, 3, "too deep, and an elif without an if", body([f"elif {deep}:", "    A[0] = 1"]))
    refused(8, 1, "too deep, and a def without a decorator", f"def f(A: dace.int64[{deep}]):\n    A[0] = 1\n")
    awaits = ["S = dace.define_stream(dace.int64)", "@dace.consume(S, 1)"]
    refused(8, 5, "too deep, where a consume's def is awaited", body(awaits + [f"A[0] = {deep}"]))
    closes = ["for i in dace.map[0:4]:"] + ["    " + line for line in awaits] + [f"A[0] = {deep}"]
    refused(8, 6, "too deep, on a line that closes a block where a def is awaited", body(closes))
    refused(8, 5, "too deep, and an input behind an assignment", tasklet(["x = 1", f"a << A[{deep}]"]))
    refused(8, 4, "too deep, and a name that is no output", tasklet([f"z[{deep}] = Z"]))
    refused(4, 3, "too deep, and another part is no form", body([f"A[0 1] = {deep}"]))
    refused(4, 3, "too deep, and a part behind it is no form", body([f"A[{deep}] = 1 +"]))
    refused(4, 3, "a bracket that is not closed below the last level", body([f"A[0] = {'(' * 70}1{')' * 69}"]))
    refused(4, 3, "nothing where no level is left", body([f"A[0] = {brackets(64, '')}"]))
    refused(4, 3, "a word of the operators where no level is left", body([f"A[0] = {brackets(64, 'if')}"]))
    refused(5, 3, "a name where no level is left", body([f"A[0] = {brackets(64, 'Z')}"]))
    accepted("an element where no level is left", body([f"A[0] = {brackets(64, 'A[1+2]')}"]))
    refused(8, 3, "a sum where no level is left", body([f"A[0] = {brackets(64, '1+2')}"]))
    refused(8, 3, "what would be no form, where no level is left", body([f"A[0] = {brackets(64, '1 2 +')}"]))


def out_of_place(brackets):
    """Of a line that opens no block where one is awaited, or one where none is, too deep goes before that."""
    deep, whole = brackets(65), brackets(64)
    a_map, a_loop, a_tasklet = "for i in dace.map[0:4]:", "for k in range(4):", "with dace.tasklet:"
    refused(8, 4, "too deep, where a block is awaited and none opens", body([a_map, f"A[0] = {deep}"]))
    refused(4, 4, "no form, where a block is awaited and none opens", body([a_map, f"A[0 1] = {deep}"]))
    closes = [a_loop, "    " + a_map, f"A[0] = {deep}"]
    refused(8, 5, "too deep, on a line that closes a block and opens none that is awaited", body(closes))
    refused(8, 4, "an elif that is too deep, where the block of its if is missing", body(["if A[0]:", f"elif {deep}:"]))
    refused(8, 3, "a def that is too deep, where a program has no block", DEF + f"def g(A: dace.int64[{deep}]):\n")
    # It is read as a form of the block in which it stands: the block that is awaited is not one it stands in.
    refused(4, 3, "a statement that is too deep at top level, where a program has no block", DEF + f"A[0] = {deep}\n")
    refused(8, 4, "64 levels are added behind a map without a block", body([a_map, f"A[0] += {whole}"]))
    refused(4, 4, "63 levels are added behind a map without a block", body([a_map, f"A[0] += {brackets(63)}"]))
    in_map = [a_map, "    " + a_tasklet, f"    A[0] += {whole}"]
    refused(4, 5, "64 levels are added in a map, behind a tasklet without a block", body(in_map))
    refused(8, 4, "a statement that is too deep behind a tasklet without a block", body([a_tasklet, f"A[0] += {deep}"]))
    refused(4, 4, "an input that is too deep behind a tasklet without a block", body([a_tasklet, f"a << A[{deep}]"]))
    # A block that none awaits is none of its own: its line is read as a form of the block about it.
    refused(8, 4, "too deep, where a block opens that none awaits", body(["A[0] = 1", f"    A[1] = {deep}"]))
    refused(4, 4, "no form, where a block opens that none awaits", body(["A[0] = 1", f"    A[0 1] = {deep}"]))
    refused(8, 5, "too deep, where a block opens in a tasklet", tasklet(["x = 1", f"    x = {deep}"]))
    added = tasklet(["x = 1", f"    A[0] += {deep}"])
    refused(4, 5, "a statement that is too deep, where a block opens in a tasklet", added)
    indented = f"    def f(A: dace.int64[{deep}]):\n        A[0] = 1\n"
    refused(8, 1, "a def that is too deep on a first line that is indented", indented)
    refused(8, 2, "a def that is too deep further in than its decorator", "@dace.program\n" + indented)


def calls():
    """A chain of 8 calls is as long as one may be."""
    programs = ["@dace.program\ndef f0(A: dace.int64):\n    A[0] = 1\n"]
    programs += [f"@dace.program\ndef f{n}(A: dace.int64):\n    f{n - 1}(A)\n" for n in range(1, 12)]
    accepted("a chain of 8 calls", "".join(programs[:9]), programs=9)
    refused(8, 30, "a chain of 9 calls", "".join(programs[:10]))
    refused(8, 30, "a chain of 11 calls", "".join(programs))
    beside = "@dace.program\ndef g(A: dace.int64):\n    f0(A)\n    f7(A)\n    f3(A)\n"
    accepted("calls beside one another are no chain", "".join(programs[:8]) + beside, programs=9)
    # Nine programs are 27 lines, and the second line of g's block is line 31.
    refused(8, 31, "the longest of several chains counts", "".join(programs[:9]) + beside.replace("f7", "f8"))
    last = "@dace.program\ndef g(A: dace.int64):\n    A[0] = 1\n"
    refused(8, 30, "a chain of 9 calls in a program that is not the last", "".join(programs[:10]) + last)


def nodes():
    """1,024 nodes of a state, 65,536 of a graph."""
    one = "    A[i] = 1"

    def a_map(count):
        return ["for i in dace.map[0:4]:"] + [one] * count

    # An entry, a tasklet for each statement, an exit and the access node of A.
    accepted("a state of 1,024 nodes", body(a_map(1021)))
    # The access node and the exit have the line of the map, the 1,024th tasklet its own.
    refused(8, 3, "a state of 1,025 nodes, the last of them an access node", body(a_map(1022)))
    refused(8, 3, "a state whose 1,025th node is an exit", body(a_map(1023)))
    refused(8, 3 + 1024, "a state whose 1,025th node is a tasklet", body(a_map(1024)))
    refused(8, 3 + 1024, "a state of many nodes", body(a_map(30_000)))
    # A read from outside puts an access node before the entry.
    read = a_map(1020) + ["    A[i] = A[0]"]
    refused(8, 3, "a read puts a node before them", body(read))
    accepted("the same with a statement less", body(a_map(1019) + read[-1:]))
    refused(8, 3 + 1023, "a later read makes an earlier statement one too many", body(a_map(1024) + read[-1:]))
    earlier = ["if A[0]:", "    A[0] = 1", "A[0] = Z"]
    refused(5, 5, "an error of an earlier line goes first", body(earlier + a_map(1022)))
    refused(8, 3, "a limit on nodes goes before an error of a later line", body(a_map(1022) + ["A[0] = Z"]))
    refused(4, 3 + 1022, "a line that is refused behind 1,021 statements", body(a_map(1021) + ["    no form"]))
    refused(8, 3, "the lines before one that is refused have too many nodes", body(a_map(1022) + ["    no form"]))
    big = "@dace.program\ndef e(A: dace.int64[4]):\n" + "".join(f"    {line}\n" for line in a_map(1021))
    # A call has a node, those of what it calls, and an access node: 1,026. The lines of e are 1,024.
    call = DEF + "    e(A)\n" * 63
    accepted("63 calls of 1,026 nodes", big + call, programs=2)
    accepted("65,536 nodes", big + call + "".join(f"    {line}\n" for line in a_map(895)), programs=2)
    more = big + call + "".join(f"    {line}\n" for line in a_map(896))
    refused(8, 1024 + 2 + 64, "65,537 nodes, the last of them an access node", more)
    refused(8, 1024 + 2 + 64, "64 calls of 1,026 nodes", big + call + "    e(A)\n")
    last = DEF.replace("f(", "g(") + "    f(A)\n"
    refused(8, 1024 + 2 + 64, "64 calls in a program that is called", big + call + "    e(A)\n" + last)
    twice = big + call + last + "    A[0] = 1\n    f(A)\n"
    # f has 64,638 nodes, and two calls of it are too many; f ends at line 1024 + 2 + 63.
    refused(8, 1089 + 2 + 3, "two calls of a program with most of the nodes", twice)


for add in (bytes_and_words, sizes, many_lines, containers, states, depths, tasklets, levels, calls, nodes):
    add()
