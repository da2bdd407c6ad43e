"""The forms of lines, and which one a line that is none is nearest to, in words that say what to write instead."""
from __future__ import annotations

import difflib
import re
from typing import Iterator, Sequence

TOP, BODY, TASKLET = "at top level", "in a body", "in a tasklet"
# As `docs/LANGUAGE.md` has them, by the kind of block in which they stand.
FORMS: dict[str, Sequence[str]] = {
    TOP: (
        "import dace",
        "import numpy as np",
        "N = dace.symbol('M')",
        "@dace.program",
        "def f(X: t, Y: t):",
    ),
    BODY: (
        "X = dace.define_local([e, e], dace.int64)",
        "S = dace.define_stream(dace.int64)",
        "S = dace.define_stream(dace.int64, n)",
        "X[e, e] = E",
        "X[e, e] += E",
        "X[d, d] = Y[d, d]",
        "dace.reduce(L, X, Y)",
        "for i, j in dace.map[r, r]:",
        "with dace.tasklet:",
        "@dace.consume(S, n)",
        "def g(x):",
        "def g(x, p):",
        "f(X, Y[d, d])",
        "for k in range(e):",
        "while E:",
        "if E:",
        "elif E:",
        "else:",
    ),
    TASKLET: (
        "c << m",
        "c >> m",
        "c = E",
        "c[E, E] = E",
        "if E:",
        "elif E:",
        "else:",
    ),
}
LETTERS = (
    ("d", "subscripts or ranges `a:b` or `a:b:n`"),
    ("e", "affine expressions"),
    ("E", "expressions"),
    ("r", "ranges `a:b` or `a:b:n`"),
    ("m", "`X[d]` or `X(v, lambda a, b: a + b)[d]`"),
    ("L", "`lambda a, b: a + b` or another resolution"),
    ("n", "a number"),
    ("t", "`dace.int64` or `dace.int64[e]`"),
)
# Words of expressions behind which a bracket may open.
OF_EXPRESSIONS = "min|max|and|or|not|if|else|elif|while"
# Lines of Python and of DaCe that are no forms: one of each kind, how it is told, and what there is in its place. What is found as
# `word` is the cause, where it is one word.
USUAL: Sequence[tuple[str, str, str]] = (
    (
        "from dace import int64",
        r"^(?P<word>from|import)\b(?! dace$| numpy as np$)",
        "a source imports `import dace` and `import numpy as np` alone",
    ),
    ("@dace.map", r"^@(?P<word>dace\.map)\b", "a map is `for i in dace.map[a:b]:` and a block"),
    ("@dace.tasklet", r"^@(?P<word>dace\.tasklet)\b", "a tasklet is `with dace.tasklet:` and a block"),
    ("@dace.program()", r"^@dace\.program\s*\(", "`@dace.program` has no brackets; it stands alone on its line"),
    (
        "@cache",
        r"^@(?P<word>(?!dace\.consume\()[\w.]*)",
        "the decorators are `@dace.program` before a program and `@dace.consume(S, n)` in a body",
    ),
    ("return A", r"^(?P<word>return)\b", "a program returns nothing: it writes its arguments"),
    (
        "break",
        r"^(?P<word>break|continue)\b",
        "loops end by their range or condition alone: `while` with a condition that is written in the loop",
    ),
    ("pass", r"^(?P<word>pass)\b", "a block has a statement that does something"),
    (
        "assert A[0]",
        r"^(?P<word>assert|print|raise|try|del|global|lambda|yield|class)\b",
        "there is no such statement in this language",
    ),
    ('"text"', r"^(\"\"\"|'''|\"|')", "there are no docstrings: a comment begins with `#`"),
    ("def f(A: dace.int64[4]) -> int:", r"^def .*(?P<word>->)", "a program has no result: it writes its arguments"),
    (
        "def f(A: int):",
        r"^def .*:\s*(?P<word>(?:int|float|str)\w*|(?:np|numpy)\.\w*)",
        "the type of an argument is `dace.int64` or `dace.int64[..]`",
    ),
    (
        "def f(A: dace.float64[4]):",
        r"\b(?P<word>dace\.(?:(?:float|int|uint|bool|complex)(?!64\b)\w*|float64|uint64|complex64))",
        "the one type is `dace.int64`",
    ),
    ("def f():", r"^def .*\(\s*\)", "a program has one argument at the least, each with its type `dace.int64[..]`"),
    ("def f(A: dace.int64[4], n=3):", r"^def .*=", "an argument has no default"),
    (
        "M = 4",
        r"^(?P<word>\w+)\s*=\s*-?\d+$",
        "there are no constants by name: write the number, or make it a size symbol or an argument",
    ),
    ("A[0] = A[1] ** 2", r"(?P<word>\*\*)", "there is no power: write a product"),
    (
        "A[0] *= 2",
        r"^\w+(\[.*\])?\s*(?P<word>(?:-|\*|//|%|&|\||\^|<<|>>|/)=)",
        "of `+=` and its like there is `+=` alone: write `X[e] = X[e] * E`",
    ),
    ("for i in dace.map[4]:", r"\bin dace\.map\[[^:\]]*\]", "each dimension of a map is a range `begin:end`"),
    ("for i in dace.map(0, 4):", r"\bin (?P<word>dace\.map)\(", "a map has square brackets: `for i in dace.map[a:b]:`"),
    ("for i in dace.map[4:0:-1]:", r"\bdace\.map\[.*:\s*-", "the step of a range is a number from 1 on"),
    (
        "for k in range(4, 0, -1):",
        r"\bin (range|prange)\(.*,\s*-",
        "the step of a range is a number from 1 on: count upwards and turn the subscript round",
    ),
    (
        "for x in A:",
        r"^for\b.*\bin (?P<word>(?!range\b|dace\.map\b)\w*)",
        "a loop is `for k in range(e):`, a map `for i in dace.map[a:b]:`",
    ),
    (
        "with dace.tasklet():",
        r"^with dace\.tasklet\s*\(|^with (?!dace\.tasklet:)",
        "a tasklet is `with dace.tasklet:`, without brackets or a name",
    ),
    (
        "T = np.zeros(4)",
        r"\b(?P<word>dace\.(?:define_local_scalar|ndarray|define_transient)|(?:np|numpy)(?=\.(?:zeros|ones|empty|array|full|ndarray)\b))",
        "arrays of a program's own are `X = dace.define_local([e], dtype=dace.int64)`, and begin with zeros",
    ),
    (
        "A[0] = np.sum(B)",
        r"\b(?P<word>np|numpy|math)\.",
        "there are no functions of NumPy: write maps, `dace.reduce`, `min(x, y)`, `max(x, y)` and `x if c else y`",
    ),
    (
        "A[0] = abs(A[1])",
        r"\b(?P<word>abs|len|sum|int|float|pow|round|bool)\s*\(",
        "the functions are `min(x, y)` and `max(x, y)`; write another by `x if c else y`",
    ),
    (
        "A[0] = g(A[1])",
        rf"^(?:\w+\s*(?:\[.*\])?\s*\+?=|if\b|elif\b|while\b)(?:.*[^\w.])?(?P<word>(?!(?:{OF_EXPRESSIONS})\b)[A-Za-z_]\w*)\s*\(",
        "the functions are `min(x, y)` and `max(x, y)`: write in its place what another one computes",
    ),
    (
        "S.push(A[0])",
        r"\.(?P<word>append|push|pop|get|shape|size|T|copy|fill)\b",
        "names have no parts here: streams are pushed by `c >> S` in a tasklet, sizes are symbols",
    ),
    (
        "A[0] = max(A[1], A[2], A[3])",
        r"\b(?P<word>min|max)\([^(),]*(?:\)|,[^(),]*,)",
        "`min` and `max` have two arguments",
    ),
    ("A[0] = 1.5", r"(?P<word>\d+\.(?:\d+|(?!\w)))", "numbers are whole"),
    ("A[0] = B[1][2]", r"\][ ]*\[", "subscripts stand in one pair of brackets: `X[i, j]`"),
    (
        "A[0] = A[1] < A[2] < A[3]",
        r"(<=?|>=?|==|!=)[^()]*?(?<![<>])(<=?|>=?|==|!=)(?![<>=])",
        "comparisons are not chained: write `a < b and b < c`",
    ),
    ("A[0], A[1] = 1, 2", r"^\w+\s*(\[.*\])?\s*,.*[^=<>!]=[^=]", "a statement assigns one element"),
    ("A[0] = A[1] = 1", r"^[^=(]*[^=<>!+(]=[^=(]*[^=<>!(]=[^=]", "a statement assigns one element"),
    ("while A[0] > 0", r"^(?P<word>if|elif|else|while|for|with|def)\b.*(?<!:)$", "such a line ends with a colon, and its block stands below it"),
    ("if A[0] = 1:", r"^(if|elif|while)\b[^=]*[^=<>!](?P<word>=)[^=]", "`==` compares; `=` assigns, on a line of its own"),
    ("A[0] = 5 if A[1] > 2", r"=.*\b(?P<word>if)\b(?!.*\belse\b)", "a conditional has two values: `x if c else y`"),
    (
        "A += 1",
        r"^\w+(\[[^\]]*\])?\s*\+=.*\n?$",
        "`+=` adds to one element: `X[e] += E`, with a subscript for each dimension",
    ),
    (
        "A[0:4:2] = B[::2]",
        r"^\w+\[.*:\s*(-|0\b|\d+\s*[-+*]|[A-Za-z_])[^:\]]*\]\s*=.*\[.*:.*:|\[\s*::",
        "a range with a step is `begin:end:n`, with both ends, and `n` a number from 1 on",
    ),
    ("A[:] = B", r"^\w+\[[^\]]*:[^\]]*\]\s*=\s*[A-Za-z_]\w*$", "a copy has brackets on both sides: `X[:] = Y[:]`"),
    (
        "A[:] = 0",
        r"^\w+\[[^\]]*:[^\]]*\]\s*=(?!=)",
        "with a range on the left the right side is one array `Y[d]`, to copy: write a map for the rest",
    ),
    (
        "x = A[0] + 1",
        r"^(?P<word>\w+)\s*=(?!=)(?!.*\bdace\.)",
        "names are assigned in tasklets alone: declare `X = dace.define_local([1], dtype=dace.int64)`, and write `X[0] = E`",
    ),
)
# The kind of block to which a usual line belongs, where it is one alone.
BLOCKS = {"M = 4": TOP, "x = A[0] + 1": BODY}
# Words of a form that stand for themselves.
FIXED = frozenset(
    "import dace numpy as np symbol program def int64 define_local define_stream dtype reduce lambda for in map with "
    "tasklet consume range while if elif else axis identity min max and or not".split()
)
# Words that begin statements of Python and no form.
OTHERS = frozenset("assert async await break class continue del from global match nonlocal pass raise return try yield".split())
TOKEN = re.compile(r"[A-Za-z_]\w*|\d+|//|<<|>>|<=|>=|==|!=|\+=|['\"]\w*['\"]|\S")


def usual(text: str, block: str) -> tuple[str, int, int]:
    """Gives what there is in the place of a usual line of Python, or nothing, and where its word begins and ends, if it is one."""
    for line, form, instead in USUAL:
        found = re.search(form, text) if BLOCKS.get(line, block) == block else None
        if found:
            return instead, *(found.span("word") if "word" in found.groupdict() else (0, 0))
    return "", 0, 0


def nearest(text: str, block: str) -> str:
    """Gives the form of this kind of block that a line is nearest to, or nothing where it begins as no form does."""
    line = _signs(text)
    if block == BODY and line[:2] == ["name", "["]:
        return "X[d, d] = Y[d, d]" if re.match(r"\w+\s*\[[^\]]*:", text) else "X[e, e] += E" if "+=" in line else "X[e, e] = E"
    alike = [it for it in FORMS[block] if _signs(it)[:1] == line[:1]]
    alike = [it for it in alike if _signs(it)[:2] == line[:2]] or alike
    # What is declared is an array, where the line has no word of streams.
    alike = [it for it in alike if "define_stream" not in it or "stream" in text.lower()]
    return max(alike, key=lambda it: _likeness(line, _signs(it)), default="")


def _likeness(line: Sequence[str], form: Sequence[str]) -> tuple[int, float]:
    """Gives how many words of a form a line has, and how alike the two are."""
    return len(FIXED.intersection(line, form)), difflib.SequenceMatcher(None, line, form, False).ratio()


def said_of(form: str) -> str:
    """Gives a form with what its letters stand for; nothing for none."""
    letters = ", ".join(f"`{name}` for {said}" for name, said in LETTERS if re.search(rf"\b{name}\b", form))
    behind = f". Here stands {letters}." if letters else "."
    return f"The nearest form is `{form}`{behind}" if form else ""


def _signs(text: str) -> list[str]:
    return list(_kinds(TOKEN.findall(text)))


def _kinds(tokens: Sequence[str]) -> Iterator[str]:
    for token in tokens:
        if token in FIXED or token in OTHERS or not (token[0].isalnum() or token[0] == "_"):
            yield token if token[0] not in "'\"" else "text"
        else:
            yield "name"
