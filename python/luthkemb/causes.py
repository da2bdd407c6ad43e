"""Why a line of a source is refused: the word that is the cause, where it is one, and what to do about it.

The program tells a number and a line; what is found here besides is a help for the reader of a message, and no judgement. Where
the cause is not found, nothing is said of it.
"""
from __future__ import annotations

import ast
import builtins
import difflib
import re
from dataclasses import dataclass
from typing import Callable, Iterator, Optional, Sequence, Union

from .forms import BODY, TASKLET, TOP, nearest, said_of, usual
from .sites import (
    PARAMETER,
    VARIABLE,
    Name,
    Site,
    container_of,
    is_connector,
    site_of,
    subscripts_of,
    text_of,
)
from .statements import MOST_BYTES

MOST = 2**63 - 1
RESERVED = frozenset("dace np range min max and as def elif else for if import in lambda not or while with".split())
TOKENS = re.compile(
    r"[ \t]+|#.*|[A-Za-z_][A-Za-z0-9_]*|(?:0|[1-9][0-9]*)(?![A-Za-z0-9_])|'[A-Za-z_]\w*'|\"[A-Za-z_]\w*\""
    r"|//|<<|>>|<=|>=|==|!=|\+=|[-+*%&|^~<>=()\[\],:.@]"
)
NUMBER = re.compile(r"\b[0-9]+\b")
NOT_AFFINE = (ast.Call, ast.IfExp, ast.Compare, ast.BoolOp)
# Statements in whose expressions a container has subscripts.
HAS_ELEMENTS = (ast.Assign, ast.AugAssign, ast.While, ast.If)
OF_BYTES = (
    (r"\"\"\"|'''", "There are no docstrings: a comment begins with `#`."),
    (r"['\"]", "A string has one name, as in `dace.symbol('N')`, and ends on its line."),
    (r"/", "There are no fractions: `//` divides whole numbers and rounds down."),
    (r";", "Each statement has a line of its own."),
    (r"\\", "Lines are joined by brackets alone."),
    (r"0[0-9_]", "A number does not begin with 0."),
    (r"[0-9]", "A number has decimal digits alone, and no letter or `_` behind it."),
    (r"!", "`not x` and `x != y` are the forms with this sign."),
    (r"[{}]", "There are no curly brackets."),
)


@dataclass
class Cause:
    """A part of a line, from a column on and so wide, and what to say; without a width the line as a whole."""

    at: int = 0
    width: int = 0
    said: str = ""


def cause_of(number: int, line: int, source: bytes) -> Cause:
    """Gives why the line of a source is refused with this number, as far as it is found."""
    lines = source.decode(errors="replace").split("\n")
    if not 0 < line <= len(lines):
        return Cause(said=_missing(lines))
    if len(source) > MOST_BYTES:
        return Cause()
    text = lines[line - 1].rstrip("\r")
    try:
        if number in OF_TEXT:
            return OF_TEXT[number](text, lines[: line - 1])
        site = site_of(lines, line)
        return OF_LINES[number](text, site) if number in OF_LINES else Cause()
    except (SyntaxError, ValueError, LookupError, AttributeError, TypeError, RecursionError, MemoryError):
        return Cause()


def _missing(lines: Sequence[str]) -> str:
    if not any(it.strip().startswith("@dace.program") for it in lines):
        return "The source has no program: `@dace.program`, and below it `def f(X: dace.int64[..]):` with a block."
    return "A block or a `def` is missing at the end of the source."


# Errors of the text.


def _byte(text: str, before: Sequence[str]) -> Cause:
    at = 0
    while at < len(text):
        found = TOKENS.match(text, at)
        if found is None:
            said = next((it for form, it in OF_BYTES if re.match(form, text[at:])), "")
            wide = re.match(r"\w+|\"\"\"|'''|.", text[at:], re.DOTALL)
            return Cause(at, len(wide[0]) if wide else 1, said or "No token begins with this sign.")
        at = found.end()
    return Cause()


def _indentation(text: str, before: Sequence[str]) -> Cause:
    margin = text[: len(text) - len(text.lstrip(" \t"))]
    if "\t" in margin:
        return Cause(margin.index("\t"), 1, "A tab stands in the indentation: write spaces.")
    widths = {0}
    for it in before:
        if it.strip() and not it.strip().startswith("#"):
            width = len(it) - len(it.lstrip(" "))
            widths = {one for one in widths if one < width} | {width}
    listed = ", ".join(str(it) for it in sorted(widths))
    return Cause(0, len(margin), f"The line has {len(margin)} spaces; the blocks that are open have {listed}.")


def _number(text: str, before: Sequence[str]) -> Cause:
    for found in NUMBER.finditer(text.split("#")[0]):
        if int(found[0]) > MOST:
            said = f"The greatest number is {MOST}; -2^63 is written -{MOST} - 1."
            return Cause(found.start(), len(found[0]), said)
    return Cause()


OF_TEXT: dict[int, Callable[[str, Sequence[str]], Cause]] = {1: _byte, 2: _indentation, 3: _number}


# Errors of lines.


def _cause(text: str, node: ast.AST, said: str, word: str = "") -> Cause:
    """Gives a cause at an expression, or at a word of it; one that is not on the first line of the statement has no place."""
    at = len(text.encode()[: node.col_offset].decode(errors="replace"))
    named = node.id if isinstance(node, ast.Name) else ast.get_source_segment(text, _on_first_line(node))
    found = word or named or ""
    return Cause(at, len(found), said) if text[at : at + len(found)] == found else Cause(said=said)


def _on_first_line(node: ast.AST) -> ast.AST:
    moved = ast.Name("", ast.Load())
    moved.lineno = moved.end_lineno = 1
    moved.col_offset, moved.end_col_offset = node.col_offset, node.end_col_offset
    return moved


def _header(statement: ast.stmt) -> Iterator[ast.AST]:
    """Gives the expressions of a statement that stand on its own line."""
    for name, value in ast.iter_fields(statement):
        if name not in ("body", "orelse", "decorator_list"):
            yield from (it for it in (value if isinstance(value, list) else [value]) if isinstance(it, ast.AST))
    yield from getattr(statement, "decorator_list", ())


def _names_in(statement: ast.stmt) -> Iterator[tuple[ast.Name, bool]]:
    """Gives the names that a statement uses from left to right, each with whether it has subscripts or is called."""
    found: list[tuple[ast.Name, bool]] = []

    def look(node: ast.AST, free: frozenset[str]) -> None:
        if isinstance(node, ast.Lambda):
            free |= {it.arg for it in node.args.args}
        if isinstance(node, ast.keyword) and node.arg == "dtype":
            return
        head = node.value if isinstance(node, ast.Subscript) else node.func if isinstance(node, ast.Call) else None
        if isinstance(node, ast.Name) and node.id not in free | {"dace", "np", "min", "max", "range"}:
            found.append((node, False))
        for child in ast.iter_child_nodes(node):
            if child is head and isinstance(child, ast.Name) and child.id not in free | {"min", "max", "range"}:
                found.append((child, True))
            else:
                look(child, free)

    for it in _header(statement):
        look(it, frozenset())
    yield from sorted(found, key=lambda it: (it[0].lineno, it[0].col_offset))


def _unknown(text: str, site: Site) -> Cause:
    if site.statement is None:
        return Cause()
    uses = [it for it in _names_in(site.statement) if it[0].id not in _declaring(site)]
    for name, _ in uses:
        if name.id not in site.names:
            return _cause(text, name, _said_of_unknown(name.id, site))
    for name, subscripted in uses:
        said = _said_of_use(name.id, site.names[name.id], subscripted, site)
        if said:
            return _cause(text, name, said)
    if isinstance(site.statement, ast.Expr) and isinstance(site.statement.value, ast.Call):
        return Cause(said="A program calls programs above it alone, and not itself.")
    found = re.search(r"\b(True|False|None)\b", text.split("#")[0])
    return Cause(found.start(), len(found[0]), "Truth is a number here: 1 and 0.") if found else Cause()


def _declaring(site: Site) -> Sequence[str]:
    """Gives the names that a statement declares or assigns, and so does not use."""
    targets = site.statement.targets if isinstance(site.statement, ast.Assign) and site.block == TASKLET else []
    heads = [it.value if isinstance(it, ast.Subscript) else it for it in targets]
    outputs = [it.id for it in heads if isinstance(it, ast.Name) and site.kind_of(it.id) == "output"]
    read = {text_of(it) for it in ast.walk(site.statement.value) if isinstance(it, ast.Name)} if targets else set()
    return [name for name in (*(name for name, _ in _declared(site)), *outputs) if name not in read]


def _said_of_unknown(name: str, site: Site) -> str:
    if name in site.earlier:
        it = site.earlier[name]
        return f"`{name}` is {_a(it.kind)} of line {it.line}, and in force in its block alone."
    if hasattr(builtins, name):
        return f"`{name}` is Python's, and not in this language."
    near = difflib.get_close_matches(name, site.names, 1, 0.6)
    if near:
        return f"No `{name}` is in force here; `{near[0]}` is, from line {site.names[near[0]].line}."
    if site.block == TOP:
        return f"No `{name}` is in force here; a size symbol is declared by `{name} = dace.symbol('{name}')`, on a line before."
    return f"No `{name}` is in force here: it is no argument, array, variable or size symbol before this line."


def _a(kind: str) -> str:
    return f"{'an' if kind[0] in 'aio' else 'a'} {kind}"


def _said_of_use(name: str, what: Name, subscripted: bool, site: Site) -> str:
    statement = site.statement
    is_call = isinstance(statement, ast.Expr) and isinstance(statement.value, ast.Call)
    if is_call or is_connector(statement) or isinstance(statement, ast.FunctionDef):
        wanted = "program" if is_call and subscripted and name == text_of(statement.value.func) else "array"
        if what.kind != wanted and not (what.kind == "stream" and not is_call):
            return f"`{name}` is {_a(what.kind)}, and here is the name of {_a(wanted)}."
        is_consumed = isinstance(statement, ast.FunctionDef) and site.block == BODY
        return f"`{name}` is an array, and no stream." if is_consumed else ""
    if site.block == TASKLET and what.kind in ("array", "stream"):
        return f"A tasklet has the values of its inputs alone: `c << {name}[..]` makes one of `{name}`."
    if what.kind == "output":
        return f"`{name}` is an output, which cannot be read; a local of another name can."
    if what.kind == "program":
        return f"`{name}` is a program; it can be called below its own block, by a line `{name}(..)`."
    if subscripted and what.kind not in ("array", "input", "program"):
        return f"`{name}` is {_a(what.kind)} and has no elements."
    return ""


def _declared(site: Site) -> list[tuple[str, ast.AST]]:
    """Gives the names that a statement declares, with where."""
    statement = site.statement
    if isinstance(statement, ast.FunctionDef):
        arguments = [(it.arg, it) for it in statement.args.args]
        return [(statement.name, statement), *arguments]
    if isinstance(statement, ast.For):
        targets = statement.target.elts if isinstance(statement.target, ast.Tuple) else [statement.target]
        return [(text_of(it), it) for it in targets]
    if isinstance(statement, ast.Assign) and isinstance(statement.targets[0], ast.Name):
        return [(statement.targets[0].id, statement.targets[0])]
    if isinstance(statement, ast.stmt) and site.block == TASKLET and is_connector(statement):
        return [(text_of(statement.value.left), statement.value.left)]
    return []


def _twice(text: str, site: Site) -> Cause:
    if site.statement is None:
        return _reserved(text)
    lambdas = [it for part in _header(site.statement) for it in ast.walk(part) if isinstance(it, ast.Lambda)]
    names = _declared(site) + [(it.arg, it) for one in lambdas for it in one.args.args if it.arg in RESERVED]
    for at, (name, node) in enumerate(names):
        before = site.names.get(name) or site.earlier.get(name)
        said = ""
        if name in RESERVED:
            said = f"`{name}` is reserved."
        elif name in [it for it, _ in names[:at]]:
            said = f"The line declares `{name}` twice."
        elif before:
            said = f"`{name}` is {_a(before.kind)} already, from line {before.line}."
        if said:
            found = re.search(rf"\b{re.escape(name)}\b", text) if isinstance(node, ast.FunctionDef) else None
            return Cause(found.start(), len(name), said) if found else _cause(text, node, said, name)
    return _reserved(text)


def _reserved(text: str) -> Cause:
    found = re.match(r"\s*(?:def\s+|for\s+)?(\w+)", text)
    if found and found[1] in RESERVED:
        return Cause(found.start(1), len(found[1]), f"`{found[1]}` is reserved.")
    return Cause()


def _affine_places(statement: ast.stmt, block: str) -> Iterator[ast.expr]:
    for part in _header(statement):
        for node in ast.walk(part):
            if isinstance(node, ast.Subscript):
                yield from subscripts_of(node)
            elif isinstance(node, ast.Call) and text_of(node.func) in ("range", "dace.define_local"):
                yield from node.args


def _not_affine(text: str, site: Site) -> Cause:
    if site.statement is None:
        return Cause()
    for place in _affine_places(site.statement, site.block):
        for node in ast.walk(place):
            said = _said_of_affine(node)
            if said:
                return _cause(text, node, said)
    for place in _affine_places(site.statement, site.block):
        for node in ast.walk(place):
            if isinstance(node, ast.Name) and site.kind_of(node.id) in (VARIABLE, PARAMETER):
                kind = _a(site.kind_of(node.id))
                return _cause(text, node, f"`{node.id}` is {kind}; an extent has size symbols and numbers alone.")
    return Cause()


def _said_of_affine(node: ast.AST) -> str:
    if isinstance(node, ast.BinOp) and isinstance(node.op, ast.Mult):
        if _has_name(node.left) and _has_name(node.right):
            return "A product here has a number on one side."
    elif isinstance(node, ast.BinOp) and not isinstance(node.op, (ast.Add, ast.Sub)):
        return "Here are `+`, `-` and `*` by a number alone: give a tasklet the array as an input, and compute the place there."
    elif isinstance(node, ast.Subscript):
        return "No element is read here: give a tasklet the array as an input, and use the element as a place there."
    elif isinstance(node, NOT_AFFINE) or (isinstance(node, ast.UnaryOp) and not isinstance(node.op, ast.USub)):
        return "Here are numbers, names, `+`, `-` and `*` by a number alone."
    return ""


def _has_name(expression: ast.expr) -> bool:
    return any(isinstance(it, ast.Name) for it in ast.walk(expression))


def _limit(text: str, site: Site) -> Cause:
    for found in NUMBER.finditer(text.split("#")[0]):
        if int(found[0]) >= 2**40:
            return Cause(found.start(), len(found[0]), "A constant in a subscript, range or extent, and a step, are below 2^40.")
    statement = site.statement
    if isinstance(statement, ast.For) and isinstance(statement.target, ast.Tuple) and len(statement.target.elts) > 8:
        return Cause(said="A map has at most 8 parameters: a map in a map has more.")
    if isinstance(statement, ast.Assign) and (container_of(statement).dimensions or 0) > 4 and site.block == BODY:
        return Cause(said="An array has at most 4 dimensions.")
    depth = sum(it.kind in (VARIABLE, PARAMETER) for it in site.names.values())
    if isinstance(statement, (ast.For, ast.While, ast.FunctionDef)) and depth >= 7:
        return Cause(said="At most 7 maps, pools and loops lie about a line.")
    return Cause(said="The limits stand in docs/LANGUAGE.md, Error 8: programs that are called have counts of their own.")


def _resolution(text: str, site: Site) -> Cause:
    said = "`a` and `b` may be joined by `+`, `*`, `&`, `|`, `^`, `min(a, b)` or `max(a, b)`; `b` alone keeps the last value."
    found = re.search(r"\blambda\b[^:]*:\s*(\w+\([^()]*\)|[^,)]*[^,) ])", text)
    return Cause(found.start(), len(found[0]), said) if found else Cause(said=said)


def _misfit(text: str, site: Site) -> Cause:
    statement = site.statement
    call = statement.value if isinstance(statement, ast.Expr) else None
    if isinstance(call, ast.Call) and isinstance(call.func, ast.Attribute):
        return Cause(
            said="The target has the extents of the source without the axis, or one element where there is no axis; "
            "it is another array."
        )
    if isinstance(call, ast.Call):
        return Cause(
            said="A call has an argument for each parameter, with its extents and a step of 1; "
            "no array stands twice where one of them is written."
        )
    return Cause(said="The two sides of a copy are different arrays, with as many ranges, of the same lengths and steps.")


def _no_form(text: str, site: Site) -> Cause:
    stripped = text.split("#")[0].strip() if "'" not in text and '"' not in text else text.strip()
    found = _place(site, stripped) or _use(text, site) or _open_bracket(site, stripped) or Cause()
    instead, begin, end = usual(stripped, site.block) if not found.said else ("", 0, 0)
    begun = f"{instead[0].upper()}{instead[1:]}." if instead else found.said
    if begin < end:
        margin = len(text) - len(text.lstrip())
        found.at, found.width = margin + begin, end - begin
    found.said = " ".join(it for it in (begun, said_of(nearest(stripped, site.block))) if it)
    return found


def _open_bracket(site: Site, text: str) -> Optional[Cause]:
    if site.statement is None and sum(text.count(it) for it in "([") != sum(text.count(it) for it in ")]"):
        return Cause(said="A bracket is not closed, or none is open where one closes.")
    return None


def _place(site: Site, text: str) -> Optional[Cause]:
    """Gives what is wrong with the place of a line that may be a form elsewhere."""
    in_scope = any(it.kind == PARAMETER for it in site.names.values())
    is_loop = re.match(r"(if|while)\b.*:$|for \w+ in range\(.*\):$", text)
    if site.block == BODY and in_scope and is_loop:
        return Cause(said="Loops and branches stand outside of maps: write `x if c else y`, or a tasklet, which may have `if`.")
    if site.block == TASKLET and re.match(r"(for|while)\b", text):
        return Cause(said="A tasklet has no loops: write a map round it, or give it the elements as inputs.")
    if site.block == TASKLET and re.match(r"\w+\s*(<<|>>)", text):
        return Cause(said="Inputs and outputs are the first lines of a tasklet; each is `c << X[d]` or `c >> X[d]`.")
    if site.block == TASKLET and re.match(r"with\b|dace\.|\w+\s*=\s*dace\.|\w+\(|@", text):
        return Cause(said="A tasklet has inputs, outputs, assignments and `if` alone: this stands before or behind it.")
    if isinstance(site.statement, ast.For) and isinstance(site.statement.iter, ast.Subscript):
        return _map(site.statement, site.statement.iter)
    if site.block == TOP and re.match(r"(for|if|while|with)\b|\w+\[", text):
        return Cause(said="Statements stand in the block of a program: `@dace.program`, and below it `def f(X: dace.int64[..]):`.")
    if site.block == TOP and isinstance(site.statement, ast.FunctionDef) and not site.statement.decorator_list:
        return Cause(said="A program has `@dace.program` on the line before its `def`.")
    return None


def _map(statement: ast.For, ranges: ast.Subscript) -> Optional[Cause]:
    names = statement.target.elts if isinstance(statement.target, ast.Tuple) else [statement.target]
    parameters = {text_of(it) for it in names}
    if len(names) != len(subscripts_of(ranges)):
        counts = f"{_counted(len(names), 'parameter')} and {_counted(len(subscripts_of(ranges)), 'range')}"
        return Cause(said=f"Here are {counts}: each parameter has one range.")
    own = next((it for it in ast.walk(ranges.slice) if isinstance(it, ast.Name) and it.id in parameters), None)
    if own:
        return Cause(said=f"A range names `{own.id}`, a parameter of the same map: write a map in a map.")
    return None


def _use(text: str, site: Site) -> Optional[Cause]:
    """Gives a container that is used in another way than it can be."""
    if site.statement is None or site.block == TOP or isinstance(site.statement, ast.FunctionDef):
        return None
    called = next((it for part in _header(site.statement) for it in ast.walk(part) if _is_call_of(it, site)), None)
    if called and not isinstance(site.statement, ast.Expr):
        return _cause(text, called, "A call is a line of its own: a program gives no value, it writes its arguments.")
    for node, subscripted, count in _uses(site.statement):
        name = site.names.get(node.id)
        if name is None or name.kind not in ("array", "stream"):
            continue
        if name.kind == "stream" and not is_connector(site.statement):
            use = f"a tasklet pushes into it by `c >> {node.id}`, and `@dace.consume` takes from it"
            return _cause(text, node, f"`{node.id}` is a stream: {use}.")
        if name.kind == "array" and not subscripted and isinstance(site.statement, HAS_ELEMENTS):
            one = f"{node.id}[{', '.join(['0'] * (name.dimensions or 1))}]"
            return _cause(text, node, f"`{node.id}` is an array: its elements are used, as `{one}`, and copied by `X[:] = Y[:]`.")
        if subscripted and name.dimensions is not None and count != name.dimensions:
            written = f"{_counted(count, 'subscript')} {'is' if count == 1 else 'are'} written"
            return _cause(text, node, f"`{node.id}` has {_counted(name.dimensions, 'dimension')}, and {written}.")
    return None


def _is_call_of(node: ast.AST, site: Site) -> bool:
    """Tells whether an expression calls a program in force."""
    called = node.func if isinstance(node, ast.Call) else None
    return isinstance(called, ast.Name) and site.kind_of(called.id) == "program"


def _counted(count: int, word: str) -> str:
    return f"{count} {word}{'' if count == 1 else 's'}"


def _uses(statement: ast.stmt) -> Iterator[tuple[ast.Name, bool, int]]:
    """Gives the names of a statement with whether they have subscripts, and how many."""
    counts: dict[int, int] = {}
    for part in _header(statement):
        for node in ast.walk(part):
            if isinstance(node, ast.Subscript):
                head: Union[ast.expr, None] = node.value.func if isinstance(node.value, ast.Call) else node.value
                counts[id(head)] = len(subscripts_of(node))
    for name, _ in _names_in(statement):
        yield name, id(name) in counts, counts.get(id(name), 0)


OF_LINES: dict[int, Callable[[str, Site], Cause]] = {
    4: _no_form,
    5: _unknown,
    6: _not_affine,
    7: _twice,
    8: _limit,
    9: _resolution,
    10: _misfit,
}
