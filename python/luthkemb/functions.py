"""What a function names, and its lines as the program `sdfg` reads them.

A source has the names `dace` and those of its size symbols and programs, and no text of words. In a file that Python reads these
may have other names, numbers may stand under names, and a function may have a text that tells of it. Such words are replaced where
they stand, so each line stays a line, and what cannot be replaced is refused with what to do.
"""
from __future__ import annotations

import ast
from types import BuiltinFunctionType, ModuleType
from typing import Any, Iterator, Mapping, Optional

from . import dace
from .dace import Program, Symbol, is_whole
from .refusals import FunctionRefused, NotInLanguage

NEWLINE = "\n"
NOTHING = object()
LEAST, MOST = -(2**63), 2**63 - 1
Edit = tuple[ast.AST, str]


class Text(ast.NodeVisitor):
    """The text of a function: `named` are the symbols and programs that it names, as they are now where it was defined."""

    def __init__(self, program: Program, lines: list[str]) -> None:
        self.program = program
        self.lines = lines
        self.named: list[object] = []
        self.edits: list[Edit] = []
        self.spaces = _spaces_of(program)
        tree = ast.parse(NEWLINE.join(lines))
        self.own = set(_own_names(tree))
        self.visit(tree)

    def edited(self) -> list[str]:
        """Gives the lines with all words replaced."""
        lines = [it.encode() for it in self.lines]
        for node, text in sorted(self.edits, key=lambda it: (it[0].lineno, it[0].col_offset), reverse=True):
            _replace(lines, node, text.encode())
        return [it.decode() for it in lines]

    def visit_Expr(self, node: ast.Expr) -> None:
        """Takes out a text that stands as a statement."""
        if isinstance(node.value, ast.Constant) and isinstance(node.value.value, str):
            self.edits.append((node, ""))
        else:
            self.generic_visit(node)

    def visit_FunctionDef(self, node: ast.FunctionDef) -> None:
        """Leaves the brackets of `@dace.program()` out."""
        for it in node.decorator_list:
            if isinstance(it, ast.Call) and not it.args and not it.keywords and self._value(it.func) is dace.program:
                self.edits.append((it, "dace.program"))
                it.func = ast.Constant(None)
        self.generic_visit(node)

    def visit_keyword(self, node: ast.keyword) -> None:
        """Replaces a negative number without brackets: behind `=` there are no expressions."""
        value = self._value(node.value)
        if is_whole(value) and value.__index__() < 0:  # type: ignore[attr-defined]
            self.edits.append((node.value, str(value.__index__())))  # type: ignore[attr-defined]
        else:
            self.visit(node.value)

    def visit_Attribute(self, node: ast.Attribute) -> None:
        value = self._value(node)
        text = self._text_for(value, node)
        owner = self._value(node.value)
        if value is NOTHING and isinstance(owner, type):
            raise self._refused(node, f"the class {ast.unparse(node.value)} has no {node.attr}")
        if text is None and (_is_number_or_array(value) or isinstance(owner, type)):
            raise self._refused(node, f"{ast.unparse(node)} is {_told(value)}")
        if text is None:
            self.generic_visit(node)
        else:
            self.edits.append((node, text))

    def visit_Name(self, node: ast.Name) -> None:
        value = self._value(node)
        if value is NOTHING or isinstance(value, (ModuleType, BuiltinFunctionType, type)) and value is not dace:
            return
        text = self._text_for(value, node)
        if text is None:
            raise self._refused(node, f"{node.id} is {_told(value)}")
        if text != node.id:
            self.edits.append((node, text))

    def _text_for(self, value: object, node: ast.expr) -> Optional[str]:
        """Gives the words of a source for what a name stands for, if there are some."""
        for it, text in ((dace, "dace"), (dace.int64, "dace.int64"), (dace.program, "dace.program")):
            if value is it:
                return text
        if isinstance(value, (Symbol, Program)):
            self.named.append(value)
            name = value.name if isinstance(value, Symbol) else value.function.__name__
            if name in self.own and name != getattr(node, "id", None):
                raise self._refused(node, f"{ast.unparse(node)} stands for {name}, and {name} is another name in this function")
            return name
        return self._number(value.__index__(), node) if is_whole(value) else None  # type: ignore[attr-defined]

    def _number(self, value: int, node: ast.expr) -> str:
        if not LEAST <= value <= MOST:
            raise self._refused(node, f"{ast.unparse(node)} is {value}, and no whole number from -2^63 to 2^63-1")
        if value == LEAST:
            return f"({LEAST + 1} - 1)"
        return str(int(value)) if value >= 0 else f"({value})"

    def _value(self, node: ast.AST) -> object:
        """Gives what a name, or a name in a module or a class, stands for where the function was defined, as far as that is there."""
        if isinstance(node, ast.Name) and isinstance(node.ctx, ast.Load) and node.id not in self.own:
            return next((it[node.id] for it in self.spaces if node.id in it), NOTHING)
        if isinstance(node, ast.Attribute):
            owner = self._value(node.value)
            if isinstance(owner, (ModuleType, type)):
                try:
                    return getattr(owner, node.attr, NOTHING)
                except NotInLanguage:
                    return NOTHING
        return NOTHING

    def _refused(self, node: ast.expr, why: str) -> FunctionRefused:
        function = self.program.function
        return FunctionRefused(function.__qualname__, why, function.__code__.co_firstlineno + node.lineno - 1, self.program.file)


def _spaces_of(program: Program) -> list[Mapping[str, Any]]:
    """Gives the variables that a function sees, the nearest first."""
    function = program.function
    cells = zip(function.__code__.co_freevars, function.__closure__ or ())
    closure = {name: cell.cell_contents for name, cell in cells if _is_filled(cell)}
    return [closure, program.around, function.__globals__]


def _is_filled(cell: Any) -> bool:
    try:
        cell.cell_contents
    except ValueError:
        return False
    return True


def _own_names(tree: ast.AST) -> Iterator[str]:
    """Gives the names that a function declares: arguments, what it assigns, and the connectors of tasklets."""
    for node in ast.walk(tree):
        if isinstance(node, ast.Name) and not isinstance(node.ctx, ast.Load):
            yield node.id
        elif isinstance(node, ast.arg):
            yield node.arg
        elif isinstance(node, ast.Expr) and isinstance(node.value, ast.BinOp):
            side = node.value.left
            if isinstance(node.value.op, (ast.LShift, ast.RShift)) and isinstance(side, ast.Name):
                yield side.id


def _is_number_or_array(value: object) -> bool:
    return isinstance(value, (float, complex, list, tuple)) or hasattr(value, "shape") and not isinstance(value, type)


def _told(value: object) -> str:
    """Tells what may not stand under a name, and what may."""
    if hasattr(value, "shape") or isinstance(value, (list, tuple)):
        return "an array: make it an argument of the program"
    if callable(value):
        return "a function and no program: put @dace.program above it"
    return f"{value!r:.80}: a program may name whole numbers, size symbols and programs that stand outside of it, and nothing else"


def _replace(lines: list[bytes], node: Any, text: bytes) -> None:
    """Puts a text in the place of a node; lines that it went over are left empty."""
    first, last = node.lineno - 1, node.end_lineno - 1
    rest = lines[last][node.end_col_offset :]
    lines[first] = lines[first][: node.col_offset] + text + (rest if first == last else b"")
    for at in range(first + 1, last + 1):
        lines[at] = rest if at == last else b""
