"""Sizes that follow from the shapes of arrays: the extents of a program's arguments, as equations for its symbols."""
from __future__ import annotations

import ast
from dataclasses import dataclass, field
from fractions import Fraction
from functools import lru_cache
from typing import Iterator, Mapping, NamedTuple, Optional, Sequence

Shape = tuple[int, ...]
Terms = dict[str, Fraction]
ONE = ""
"""Stands for the constant among the terms of an affine expression."""


class ShapesAndSizes(NamedTuple):
    """What a call gives: the shapes of its entries, and the numbers among these."""

    shapes: Mapping[str, Shape] = {}
    sizes: Mapping[str, int] = {}


NOTHING_GIVEN = ShapesAndSizes()


@dataclass(frozen=True)
class Signature:
    """The size symbols of a source, and the arguments of its last program, each with its extents as far as they are affine."""

    symbols: frozenset[str] = frozenset()
    arguments: Mapping[str, Sequence[Optional[Terms]]] = field(default_factory=dict)

    @staticmethod
    @lru_cache(maxsize=64)
    def of(source: bytes) -> Signature:
        """Gives the signature of a source; one that Python cannot read has none."""
        try:
            module = ast.parse(source)
            programs = [it for it in module.body if isinstance(it, ast.FunctionDef)]
            arguments = programs[-1].args.args if programs else []
            extents = {it.arg: [_affine(extent) for extent in _extents_of_type(it.annotation)] for it in arguments}
            return Signature(frozenset(_symbols(module)), extents)
        except (SyntaxError, ValueError, RecursionError, MemoryError):
            return Signature()

    def sizes(self, shapes: Mapping[str, Shape], known: Mapping[str, int]) -> dict[str, int]:
        """Gives each symbol that is not among the known sizes, where the shapes of arguments leave one whole number.

        An equation that those before it contradict is passed over: the program refuses that shape.
        """
        equations = _Equations()
        for name, extents in self.arguments.items():
            for extent, length in zip(extents, shapes.get(name, ())):
                if extent is not None:
                    equations.add(extent, length, known)
        return {name: value for name, value in equations.solved() if name in self.symbols}

    def dimensions_of_one_element(self, name: str) -> int:
        """Gives how many dimensions an argument of one element has; 0 where it has more elements, or is no argument."""
        extents = self.arguments.get(name)
        if extents is None or any(it != {ONE: 1} for it in extents):
            return 0
        return max(len(extents), 1)

    def shape(self, name: str, known: Mapping[str, int]) -> Optional[Shape]:
        """Gives the shape of an argument with these sizes, where they leave one of whole numbers; nothing for another name."""
        if name not in self.arguments:
            return None
        extents = self.arguments[name] or [{ONE: Fraction(1)}]
        values = {it: {ONE: Fraction(value)} for it, value in known.items()}
        found = [None if it is None else _put_in(it, values) for it in extents]
        if any(it is None or set(it) - {ONE} for it in found):
            return None
        return tuple(int(it.get(ONE, 0)) for it in found if it is not None)


def _symbols(module: ast.Module) -> set[str]:
    """Gives the names of the size symbols that a source declares."""
    return {
        it.targets[0].id
        for it in module.body
        if isinstance(it, ast.Assign) and isinstance(it.targets[0], ast.Name) and isinstance(it.value, ast.Call)
    }


def _extents_of_type(annotation: Optional[ast.expr]) -> Sequence[ast.expr]:
    if not isinstance(annotation, ast.Subscript):
        return ()
    extents = annotation.slice
    return extents.elts if isinstance(extents, ast.Tuple) else (extents,)


def _affine(expression: ast.expr) -> Optional[Terms]:
    """Gives the coefficients of an affine expression, or nothing where it is none."""
    if isinstance(expression, ast.Constant) and type(expression.value) is int:
        return {ONE: Fraction(expression.value)}
    if isinstance(expression, ast.Name):
        return {expression.id: Fraction(1)}
    if isinstance(expression, ast.UnaryOp) and isinstance(expression.op, ast.USub):
        return _sum({}, _affine(expression.operand), Fraction(-1))
    if isinstance(expression, ast.BinOp):
        return _combined(expression.op, _affine(expression.left), _affine(expression.right))
    return None


def _combined(sign: ast.operator, left: Optional[Terms], right: Optional[Terms]) -> Optional[Terms]:
    if isinstance(sign, ast.Add):
        return _sum(left, right, Fraction(1))
    if isinstance(sign, ast.Sub):
        return _sum(left, right, Fraction(-1))
    if isinstance(sign, ast.Mult) and left is not None and right is not None:
        if set(left) <= {ONE}:
            return _sum({}, right, left.get(ONE, Fraction(0)))
        if set(right) <= {ONE}:
            return _sum({}, left, right.get(ONE, Fraction(0)))
    return None


def _sum(left: Optional[Terms], right: Optional[Terms], times: Fraction) -> Optional[Terms]:
    """Gives an expression and so many times another, without terms that are 0."""
    if left is None or right is None:
        return None
    found = dict(left)
    for name, coefficient in right.items():
        found[name] = found.get(name, Fraction(0)) + coefficient * times
    return {name: coefficient for name, coefficient in found.items() if coefficient}


@dataclass
class _Equations:
    """Solved equations: each is one symbol and what it is, a constant and terms of symbols that none of them solves."""

    rows: dict[str, Terms] = field(default_factory=dict)

    def add(self, extent: Terms, length: int, sizes: Mapping[str, int]) -> None:
        """Adds that an extent has this length, at sizes that are known."""
        rest = _put_in(_sum(extent, {ONE: Fraction(length)}, Fraction(-1)) or {}, self.rows)
        rest = _put_in(rest, {name: {ONE: Fraction(value)} for name, value in sizes.items()})
        name = next((it for it in rest if it != ONE), None)
        if name is None:
            return
        others = {it: coefficient for it, coefficient in rest.items() if it != name}
        row = _sum({}, others, -1 / rest[name]) or {}
        self.rows = {it: _put_in(terms, {name: row}) for it, terms in self.rows.items()}
        self.rows[name] = row

    def solved(self) -> Iterator[tuple[str, int]]:
        """Gives each symbol that has one value, and a whole one."""
        for name, terms in self.rows.items():
            value = terms.get(ONE, Fraction(0))
            if set(terms) <= {ONE} and value.denominator == 1:
                yield name, int(value)


def _put_in(terms: Terms, values: Mapping[str, Terms]) -> Terms:
    """Puts what some symbols are in their place."""
    found: Terms = {}
    for name, coefficient in terms.items():
        found = _sum(found, values.get(name, {name: Fraction(1)}), coefficient) or {}
    return found
