"""The statements of a source that the program takes, and the nodes and states that they become in its graph.

Such a source is read by Python's own grammar. States and nodes have the numbers that `docs/GRAPH.md` gives them, so a path
of the graph leads to a statement, its line and its words, whatever the sizes are.
"""
from __future__ import annotations

import ast
from dataclasses import dataclass, field
from typing import Iterator, Optional, Sequence, Union

# A longer source takes seconds to read, and is not looked at to explain a mistake.
MOST_BYTES = 2**18
Names = frozenset[str]
NONE: Names = frozenset()


@dataclass
class Item:
    """A statement that is a node of a state, or the entry of a scope with the items of its body.

    `what` is the word that the text of a graph has for such a node. `own` are the containers that the body of a scope
    declares, `called` is the program of a call, and `code` are the lines of a tasklet. `inputs` and `outputs` have the lines
    at which a tasklet declares what it reads and writes.
    """

    what: str
    line: int
    reads: Names = NONE
    writes: Names = NONE
    body: list[Item] = field(default_factory=list)
    own: Names = NONE
    called: str = ""
    code: Sequence[str] = ()
    inputs: dict[str, int] = field(default_factory=dict)
    outputs: dict[str, int] = field(default_factory=dict)

    def line_of(self, mode: str, container: str) -> int:
        """Gives the line at which this reads, or otherwise touches, a container."""
        return (self.inputs if mode == "read" else self.outputs).get(container, self.line)


@dataclass
class State:
    """A state: its item, if it has one, or what an empty one stands for in words of the source."""

    item: Optional[Item] = None
    words: str = ""


@dataclass
class Function:
    """A program of the source: its states, its containers outside of scopes, and what it does to its parameters."""

    name: str
    parameters: list[str]
    own: set[str] = field(default_factory=set)
    states: list[State] = field(default_factory=list)
    reads: set[str] = field(default_factory=set)
    writes: set[str] = field(default_factory=set)


class Statements:
    """The programs of a source; the graph is that of the last one."""

    def __init__(self, source: Union[bytes, str]) -> None:
        """Reads a source, or raises `ValueError` where Python has no reading of it."""
        try:
            module = ast.parse(source)
        except (SyntaxError, RecursionError, MemoryError) as wrong:
            raise ValueError(str(wrong)) from None
        self.functions: dict[str, Function] = {}
        self.conditions: dict[int, str] = {}
        self.last = ""
        for it in module.body:
            if isinstance(it, ast.FunctionDef):
                self.functions[it.name] = _Reader(self, it).function
                self.last = it.name

    def function_at(self, path: Sequence[int]) -> Function:
        """Gives the program whose graph stands at a path, or raises `LookupError`."""
        function = self.functions[self.last]
        for state, node in zip(path[::2], path[1::2]):
            function = self.functions[self._nodes(function, state)[node].called]
        return function

    def item_at(self, path: Sequence[int]) -> Item:
        """Gives the item whose node stands at a path, or raises `LookupError`."""
        *graph, state, node = path
        return self._nodes(self.function_at(graph), state)[node]

    def words_of_state(self, path: Sequence[int], state: int) -> str:
        """Gives what an empty state of the graph at a path stands for; nothing where it stands for no statement."""
        return self.function_at(path).states[state].words

    def words_of_condition(self, line: int) -> str:
        """Gives the condition of the loop or branch at a line."""
        return self.conditions.get(line, "")

    @staticmethod
    def _nodes(function: Function, state: int) -> dict[int, Item]:
        item = function.states[state].item
        found: dict[int, Item] = {}
        _number([item] if item else [], frozenset(function.own), 0, found)
        return found


def _number(items: Sequence[Item], own: Names, at: int, found: dict[int, Item]) -> int:
    """Puts the items of a list at the numbers of their nodes, from a number on, and gives the one behind all its nodes."""
    current: set[str] = set()
    for item in items:
        missing = (item.reads & own) - current
        current |= missing | (item.writes & own)
        at += len(missing)
        found[at] = item
        at += 1
        if item.what in ("map", "consume"):
            at = _number(item.body, item.own, at, found) + 1
        at += len(item.writes & own)
    return at


class _Reader:
    """Reads a program of a source, of which those above are known."""

    def __init__(self, known: Statements, definition: ast.FunctionDef) -> None:
        self.known = known
        self.function = Function(definition.name, [it.arg for it in definition.args.args])
        self.function.own.update(self.function.parameters)
        self.function.states.append(State(words="begin"))
        self._states(definition.body)

    def _states(self, body: Sequence[ast.stmt]) -> None:
        for it in body:
            if isinstance(it, ast.If):
                self._branch(it)
            elif isinstance(it, ast.While) or (isinstance(it, ast.For) and not _is_map(it)):
                self._loop(it)
            elif _declared(it):
                self.function.own.add(_declared(it))
            else:
                self._item_state(it)

    def _item_state(self, statement: ast.stmt) -> None:
        item = self._item(statement, False)
        self.function.states.append(State(item))
        self.function.reads |= item.reads
        self.function.writes |= item.writes

    def _empty(self, words: str) -> None:
        self.function.states.append(State(words=words))

    def _condition(self, line: int, words: str, test: ast.AST) -> None:
        self.known.conditions[line] = words
        self.function.reads |= _elements(test)

    def _branch(self, statement: ast.If) -> None:
        words = ast.unparse(statement.test)
        self._condition(statement.lineno, words, statement.test)
        self._empty(f"if {words}")
        self._states(statement.body)
        if statement.orelse:
            self._empty("else")
            self._states(statement.orelse)
        self._empty("end of if")

    def _loop(self, statement: Union[ast.For, ast.While]) -> None:
        words, condition = _loop_words(statement)
        self._condition(statement.lineno, condition, statement.test if isinstance(statement, ast.While) else statement.iter)
        self._empty(words)
        self._empty("body")
        self._states(statement.body)
        self._empty(f"end of {words.split()[0]}")

    def _items(self, body: Sequence[ast.stmt]) -> tuple[list[Item], Names]:
        own = frozenset(_declared(it) for it in body if _declared(it))
        return [self._item(it, True) for it in body if not _declared(it)], own

    def _item(self, statement: ast.stmt, in_scope: bool) -> Item:
        line = statement.lineno
        if isinstance(statement, ast.For):
            items, own = self._items(statement.body)
            return _scope("map", line, items, own)
        if isinstance(statement, ast.With):
            return _tasklet(line, statement.body)
        if isinstance(statement, ast.FunctionDef):
            return self._consume(statement)
        if isinstance(statement, ast.Expr) and isinstance(statement.value, ast.Call):
            return self._call(line, statement.value)
        if isinstance(statement, (ast.Assign, ast.AugAssign)):
            return _assignment(line, statement, in_scope)
        raise ValueError(f"line {line} is no statement of a program")

    def _consume(self, definition: ast.FunctionDef) -> Item:
        scope = definition.decorator_list[0]
        if not isinstance(scope, ast.Call) or not isinstance(scope.args[0], ast.Name):
            raise ValueError("a consume scope names a stream")
        stream, element, line = scope.args[0].id, definition.args.args[0].arg, scope.lineno
        if any(_is_connector(it) for it in definition.body):
            items, own = [_tasklet(line, definition.body)], NONE
        else:
            items, own = self._items(definition.body)
        found = _scope("consume", line, items, own | {element})
        found.reads |= {stream}
        # The element is in no list's own containers.
        found.own = own
        return found

    def _call(self, line: int, call: ast.Call) -> Item:
        if isinstance(call.func, ast.Attribute):
            source, target = (_container(it) for it in call.args[1:3])
            return Item("reduce", line, frozenset({source}), frozenset({target}))
        name = call.func.id if isinstance(call.func, ast.Name) else ""
        callee = self.known.functions.get(name, Function(name, []))
        given = list(zip(callee.parameters, (_container(it) for it in call.args)))
        reads = frozenset(it for parameter, it in given if parameter in callee.reads - callee.writes)
        writes = frozenset(it for parameter, it in given if parameter in callee.writes)
        return Item("nested", line, reads, writes, called=name)


def _scope(what: str, line: int, items: list[Item], own: Names) -> Item:
    reads = frozenset().union(*(it.reads for it in items)) - own
    writes = frozenset().union(*(it.writes for it in items)) - own
    return Item(what, line, reads, writes, items, own)


def _tasklet(line: int, body: Sequence[ast.stmt]) -> Item:
    inputs: dict[str, int] = {}
    outputs: dict[str, int] = {}
    for it in body:
        if _is_connector(it):
            side = inputs if isinstance(it.value.op, ast.LShift) else outputs
            side.setdefault(_container(it.value.right), it.lineno)
    code = [text for it in body if not _is_connector(it) for text in ast.unparse(it).split("\n")]
    return Item("tasklet", line, frozenset(inputs), frozenset(outputs), code=code, inputs=inputs, outputs=outputs)


def _assignment(line: int, statement: Union[ast.Assign, ast.AugAssign], in_scope: bool) -> Item:
    adds = isinstance(statement, ast.AugAssign)
    target = statement.target if isinstance(statement, ast.AugAssign) else statement.targets[0]
    if not adds and any(isinstance(it, ast.Slice) for it in _dimensions(target)):
        return Item("copy", line, frozenset({_container(statement.value)}), frozenset({_container(target)}))
    written = frozenset({_container(target)})
    reads = _elements(statement.value) | (written if adds and not in_scope else NONE)
    return Item("tasklet", line, reads, written, code=[ast.unparse(statement)])


def _dimensions(subscripted: ast.expr) -> Sequence[ast.expr]:
    if not isinstance(subscripted, ast.Subscript):
        return ()
    return subscripted.slice.elts if isinstance(subscripted.slice, ast.Tuple) else (subscripted.slice,)


def _is_map(statement: ast.For) -> bool:
    return isinstance(statement.iter, ast.Subscript)


def _is_connector(statement: ast.stmt) -> bool:
    return (
        isinstance(statement, ast.Expr)
        and isinstance(statement.value, ast.BinOp)
        and isinstance(statement.value.op, (ast.LShift, ast.RShift))
    )


def _declared(statement: ast.stmt) -> str:
    """Gives the name of the container that a statement declares, or nothing."""
    if isinstance(statement, ast.Assign) and isinstance(statement.targets[0], ast.Name):
        return statement.targets[0].id
    return ""


def _container(expression: ast.expr) -> str:
    """Gives the name before the brackets of a memlet or an argument."""
    while isinstance(expression, (ast.Subscript, ast.Call)):
        expression = expression.value if isinstance(expression, ast.Subscript) else expression.func
    if not isinstance(expression, ast.Name):
        raise ValueError("a container has a name")
    return expression.id


def _elements(expression: ast.AST) -> Names:
    """Gives the containers of the elements in an expression."""
    return frozenset(
        it.value.id for it in ast.walk(expression) if isinstance(it, ast.Subscript) and isinstance(it.value, ast.Name)
    )


def _loop_words(statement: Union[ast.For, ast.While]) -> tuple[str, str]:
    """Gives the words of a loop, and those of its condition."""
    if isinstance(statement, ast.While):
        test = ast.unparse(statement.test)
        return f"while {test}", test
    name, bounds = ast.unparse(statement.target), statement.iter
    if not isinstance(bounds, ast.Call) or not bounds.args:
        raise ValueError("a loop has a range")
    end = bounds.args[1] if len(bounds.args) > 1 else bounds.args[0]
    return f"for {name} in {ast.unparse(bounds)}", f"{name} < {ast.unparse(end)}"


def statements_of(source: Union[bytes, str]) -> Optional[Statements]:
    """Gives the statements of a source, or nothing where it has a line that is none, or is long."""
    try:
        return Statements(source) if len(source) <= MOST_BYTES else None
    except (ValueError, AttributeError, IndexError, TypeError):
        return None


def nodes_of(statements: Statements, path: Sequence[int]) -> Iterator[tuple[int, int, Item]]:
    """Gives the items of the graph at a path, each with its state and its node."""
    function = statements.function_at(path)
    for number in range(len(function.states)):
        for node, item in sorted(Statements._nodes(function, number).items()):
            yield number, node, item
