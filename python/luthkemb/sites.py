"""What stands before a line of a source: the names that are in force, and the kind of block in which it is."""
from __future__ import annotations

import ast
from dataclasses import dataclass, field
from typing import Optional, Sequence

from .forms import BODY, TASKLET, TOP

# A statement with more lines is not read.
MOST_LINES = 16
VARIABLE, PARAMETER = "variable of a loop", "parameter of a map"


@dataclass(frozen=True)
class Name:
    """What a name in force is, and the line that declares it; `dimensions` are those of an array or a connector, where known."""

    kind: str
    line: int
    dimensions: Optional[int] = None


@dataclass
class Site:
    """A statement, the kind of block and the names in force before it, and all names of its program that were in force."""

    statement: Optional[ast.stmt] = None
    block: str = TOP
    names: dict[str, Name] = field(default_factory=dict)
    earlier: dict[str, Name] = field(default_factory=dict)

    def kind_of(self, name: str) -> str:
        """Gives what a name in force is, or nothing."""
        return self.names[name].kind if name in self.names else ""


def site_of(lines: Sequence[str], line: int) -> Site:
    """Gives the statement that begins at a line, and what is in force before it; none where Python has no reading of these."""
    text = lines[line - 1]
    margin = " " * (len(text) - len(text.lstrip()))
    last, behind = _end_of(lines, line, margin)
    found = _found("\n".join(lines[:last]) + behind, line) if last else None
    if found:
        return found
    place = _found("\n".join([*lines[: line - 1], f"{margin}pass"]), line) or Site()
    return Site(None, place.block, place.names, place.earlier)


def _found(text: str, line: int) -> Optional[Site]:
    try:
        return _Finder(line).found(ast.parse(text))
    except (SyntaxError, ValueError):
        return None


def _end_of(lines: Sequence[str], line: int, margin: str) -> tuple[int, str]:
    """Gives the last line of the statement that begins at a line, and a block for it; or 0 where it is no statement alone."""
    before = "if 1:\n pass\n" if lines[line - 1].lstrip().startswith(("elif", "else")) else ""
    for last in range(line, min(line + MOST_LINES, len(lines) + 1)):
        text = "\n".join(lines[line - 1 : last]).lstrip()
        for behind in ("", "\n{} pass", "\n{}def _(_):\n{} pass"):
            try:
                ast.parse(before + text + behind.format("", ""))
                return last, behind.format(margin, margin)
            except SyntaxError:
                continue
    return 0, ""


class _Finder:
    """Goes through a source up to a line with the names in force."""

    def __init__(self, line: int) -> None:
        self.line = line
        self.site = Site()
        self.earlier: dict[str, Name] = {}

    def found(self, module: ast.Module) -> Site:
        names: dict[str, Name] = {}
        for it in module.body:
            if isinstance(it, ast.FunctionDef):
                self._at(it, TOP, names)
                names[it.name] = Name("program", it.lineno)
                self.earlier = {}
                inner = dict(names)
                for argument in it.args.args:
                    extents = _dimensions_of_type(argument.annotation)
                    self._declare(inner, argument.arg, Name("array", it.lineno, extents))
                self._body(it.body, inner)
            else:
                self._at(it, TOP, names)
                if isinstance(it, ast.Assign):
                    self._declare(names, text_of(it.targets[0]), Name("size symbol", it.lineno))
        return self.site

    def _at(self, statement: ast.stmt, block: str, names: dict[str, Name]) -> None:
        decorators = getattr(statement, "decorator_list", ())
        if self.line in (statement.lineno, *(it.lineno for it in decorators)):
            self.site = Site(statement, block, dict(names), self.earlier)

    def _declare(self, names: dict[str, Name], name: str, what: Name) -> None:
        names[name] = what
        self.earlier[name] = what

    def _body(self, body: Sequence[ast.stmt], names: dict[str, Name]) -> None:
        for it in body:
            self._at(it, BODY, names)
            if isinstance(it, (ast.If, ast.While)):
                self._block(it, names, {})
            elif isinstance(it, ast.For):
                self._for(it, names)
            elif isinstance(it, ast.With):
                self._tasklet(it.body, dict(names))
            elif isinstance(it, ast.FunctionDef):
                self._consume(it, dict(names))
            elif isinstance(it, ast.Assign) and isinstance(it.targets[0], ast.Name):
                self._declare(names, it.targets[0].id, container_of(it))

    def _block(self, statement: ast.stmt, names: dict[str, Name], more: dict[str, Name]) -> None:
        """Goes through the blocks of a loop or branch; their containers stay in force behind them."""
        for body in (statement.body, statement.orelse):
            inner = {**names, **more}
            self._body(body, inner)
            names.update({name: it for name, it in inner.items() if it.kind in ("array", "stream")})

    def _for(self, statement: ast.For, names: dict[str, Name]) -> None:
        targets = statement.target.elts if isinstance(statement.target, ast.Tuple) else [statement.target]
        is_map = isinstance(statement.iter, ast.Subscript)
        kind = PARAMETER if is_map else VARIABLE
        more = {text_of(it): Name(kind, statement.lineno) for it in targets}
        self.earlier.update(more)
        self._block(statement, dict(names) if is_map else names, more)

    def _consume(self, definition: ast.FunctionDef, names: dict[str, Name]) -> None:
        element = definition.args.args[0].arg
        if any(is_connector(it) for it in definition.body):
            self._declare(names, element, Name("input", definition.lineno, 0))
            self._tasklet(definition.body, names)
        else:
            self._declare(names, element, Name("array", definition.lineno, 1))
            self._body(definition.body, names)

    def _tasklet(self, body: Sequence[ast.stmt], names: dict[str, Name]) -> None:
        for it in body:
            self._at(it, TASKLET, names)
            if is_connector(it):
                side = "input" if isinstance(it.value.op, ast.LShift) else "output"
                self._declare(names, text_of(it.value.left), Name(side, it.lineno))
            elif isinstance(it, ast.If):
                self._tasklet(it.body, dict(names))
                self._tasklet(it.orelse, dict(names))
            elif isinstance(it, ast.Assign) and isinstance(it.targets[0], ast.Name) and it.targets[0].id not in names:
                self._declare(names, it.targets[0].id, Name("local", it.lineno))


def text_of(expression: ast.AST) -> str:
    """Gives an expression in words."""
    return ast.unparse(expression)


def is_connector(statement: Optional[ast.stmt]) -> bool:
    """Tells whether a statement is an input or an output of a tasklet."""
    value = statement.value if isinstance(statement, ast.Expr) else None
    return isinstance(value, ast.BinOp) and isinstance(value.op, (ast.LShift, ast.RShift))


def _dimensions_of_type(annotation: Optional[ast.expr]) -> int:
    return len(subscripts_of(annotation)) if isinstance(annotation, ast.Subscript) else 1


def container_of(statement: ast.Assign) -> Name:
    """Gives the array or stream that a statement declares."""
    call = statement.value
    if isinstance(call, ast.Call) and text_of(call.func).endswith("stream"):
        return Name("stream", statement.lineno)
    extents = call.args[0] if isinstance(call, ast.Call) and call.args else None
    return Name("array", statement.lineno, len(extents.elts) if isinstance(extents, ast.List) else None)


def subscripts_of(subscripted: ast.Subscript) -> Sequence[ast.expr]:
    """Gives the subscripts, or the ranges, of an element or a subset."""
    return subscripted.slice.elts if isinstance(subscripted.slice, ast.Tuple) else [subscripted.slice]
