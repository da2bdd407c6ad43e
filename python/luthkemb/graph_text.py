"""Graphs as the program prints them, read from that text.

`read_graph` takes the text of one graph, with those of its nested graphs, and gives it as plain data, or raises
`NotAGraph` with the first line that has no place there.
"""
from __future__ import annotations

import re
from dataclasses import dataclass, field
from typing import Iterator, Optional

Path = tuple[int, ...]


class NotAGraph(ValueError):
    """A text is no printed graph: `line` has no place in it, counted from 1."""

    def __init__(self, line: int, text: str, why: str) -> None:
        super().__init__(f"line {line}, {text[:80]!r}, is not of a graph: {why}")
        self.line = line
        self.text = text


@dataclass
class Container:
    """`kind` is `array`, `transient`, `private`, `stream` or `private stream`; a stream has no `extents`. `bits` is 64 or 32."""

    kind: str
    name: str
    extents: str = ""
    bits: int = 64

    def is_stream(self) -> bool:
        return self.kind.endswith("stream")


@dataclass
class Node:
    """`what` is the first word behind its number and scope, and `rest` what stands behind that.

    An exit has the number of its entry in `rest`, and a nested graph's node has that graph in `graph`. `code` has lines of
    the source, where they are known.
    """

    number: int
    scope: Optional[int]
    what: str
    rest: str
    graph: Optional[Graph] = None
    code: tuple[str, ...] = ()

    def is_entry(self) -> bool:
        return self.what in ("map", "consume")


@dataclass
class Edge:
    """`text` is what it moves and the connector, or the container alone; an order edge has none."""

    source: int
    target: int
    text: str

    def container(self) -> str:
        """Gives the container of what it moves, or nothing."""
        found = re.match(r"[\w$]*", self.text)
        return found[0] if found else ""

    def is_resolved(self) -> bool:
        """Tells whether the memlet has a resolution."""
        return re.match(r"[\w$]+\(-?\d+, \w+\)", self.text) is not None


@dataclass
class Transition:
    """`back` tells whether it closes a loop; `text` has its condition and what it sets."""

    to: int
    back: bool
    text: str


@dataclass
class State:
    """`words` are what an empty state stands for in the source, where that is known, and `drawn` how it is drawn."""

    nodes: list[Node] = field(default_factory=list)
    edges: list[Edge] = field(default_factory=list)
    transitions: list[Transition] = field(default_factory=list)
    words: str = ""
    drawn: str = "box"


@dataclass
class Graph:
    """States and nodes stand in their lists at their numbers; `path` is that of the node it is nested at."""

    name: str
    path: Path
    containers: dict[str, Container] = field(default_factory=dict)
    states: list[State] = field(default_factory=list)

    def awaits(self, state: int) -> bool:
        """Tells whether this is the next state, and one that a state before it leads to."""
        return state == len(self.states) and any(
            it.to == state for before in self.states for it in before.transitions
        )


CONTAINER = re.compile(r"(array|transient|private)(32)? ([\w$]+)(\[[\d,]+\])")
STREAM = re.compile(r"((?:private )?stream)(32)? ([\w$]+)")
NODE = re.compile(r"node (\d+)(?: in (\d+))? (access|tasklet|map|consume|exit|nested|reduce|copy)(?: (.+))?")
EDGE = re.compile(r"edge (\d+) (\d+)(?: (.+))?")
TRANSITION = re.compile(r"(next|back) (\d+)((?: if line \d+)?(?: set .+)?)")
SECTIONS = ("container", "node", "edge", "transition")


class _Reader:
    """The graphs that are open while lines are read, the innermost last."""

    def __init__(self) -> None:
        self.top: Optional[Graph] = None
        self.open: list[Graph] = []
        self.nested_at: Optional[Node] = None
        self.section = "container"

    def read(self, line: str) -> None:
        """Takes one line more, or raises `ValueError` with what is wrong with it."""
        word = line.partition(" ")[0]
        if self.top is None or self.nested_at is not None:
            self._begin_graph(line)
        elif word == "state":
            self._begin_state(line)
        elif word == "in":
            self._enter(line)
        elif word == "node":
            self._node(line)
        elif word == "edge":
            self._edge(line)
        elif word in ("next", "back"):
            self._transition(line)
        else:
            self._container(line)

    def _begin_graph(self, line: str) -> None:
        found = _matched(re.compile(r"sdfg (\w+)"), line, "a graph begins with 'sdfg NAME'")
        graph = Graph(found[1], self._path_of_nested())
        if self.nested_at is None:
            self.top = graph
        else:
            self.nested_at.graph, self.nested_at = graph, None
        self.open.append(graph)
        self.section = "container"

    def _path_of_nested(self) -> Path:
        if self.nested_at is None:
            return ()
        outer = self.open[-1]
        return (*outer.path, len(outer.states) - 1, self.nested_at.number)

    def _container(self, line: str) -> None:
        graph = self.open[-1]
        found = CONTAINER.fullmatch(line) or _matched(STREAM, line, "no line of a graph has this form")
        if graph.states:
            raise ValueError("containers stand before states")
        kind, name = found[1], found[3]
        extents = found[4] if found.re is CONTAINER else ""
        if name in graph.containers:
            raise ValueError("two containers have one name")
        graph.containers[name] = Container(kind, name, extents, 32 if found[2] else 64)

    def _begin_state(self, line: str) -> None:
        number = int(_matched(re.compile(r"state (\d+)"), line, "a state has a number")[1])
        while len(self.open) > 1 and self.open[-1].states and not self.open[-1].awaits(number):
            self.open.pop()
        if number != len(self.open[-1].states):
            raise ValueError("states stand in order")
        self.open[-1].states.append(State())
        self.section = "node"

    def _enter(self, line: str) -> None:
        path = _matched(re.compile(r"in (\d+(?:\.\d+)+)"), line, "a nested graph has a path")[1]
        numbers = tuple(int(it) for it in path.split("."))
        while len(self.open) > 1 and not self._is_at(self.open[-1], numbers):
            self.open.pop()
        if not self._is_at(self.open[-1], numbers):
            raise ValueError("a nested graph stands behind the state of its node")
        node = self._node_at(numbers[-1])
        if node.what != "nested" or node.graph is not None:
            raise ValueError("a path leads to a node of a nested graph, once")
        self.nested_at = node

    @staticmethod
    def _is_at(graph: Graph, path: Path) -> bool:
        return bool(graph.states) and path[:-1] == (*graph.path, len(graph.states) - 1)

    def _state(self, section: str) -> State:
        if not self.open[-1].states or SECTIONS.index(section) < SECTIONS.index(self.section):
            raise ValueError("a state has nodes, then edges, then transitions")
        self.section = section
        return self.open[-1].states[-1]

    def _node_at(self, number: int) -> Node:
        nodes = self.open[-1].states[-1].nodes
        if number >= len(nodes):
            raise ValueError("there is no node of this number")
        return nodes[number]

    def _node(self, line: str) -> None:
        found = _matched(NODE, line, "no node has this form")
        nodes = self._state("node").nodes
        node = Node(int(found[1]), None if found[2] is None else int(found[2]), found[3], found[4] or "")
        if node.number != len(nodes):
            raise ValueError("nodes stand in order")
        entries = [it for it in (node.scope, _entry_of(node)) if it is not None]
        if not all(self._node_at(it).is_entry() for it in entries):
            raise ValueError("a scope has the number of an entry")
        if node.what == "access" and node.rest not in self.open[-1].containers:
            raise ValueError("there is no container of this name")
        nodes.append(node)

    def _edge(self, line: str) -> None:
        found = _matched(EDGE, line, "no edge has this form")
        edges = self._state("edge").edges
        edge = Edge(int(found[1]), int(found[2]), found[3] or "")
        self._node_at(edge.source)
        self._node_at(edge.target)
        edges.append(edge)

    def _transition(self, line: str) -> None:
        found = _matched(TRANSITION, line, "no transition has this form")
        self._state("transition").transitions.append(Transition(int(found[2]), found[1] == "back", found[3].strip()))

    def whole(self) -> Graph:
        """Gives the graph that was read, or raises `ValueError` with what it lacks."""
        if self.top is None or self.nested_at is not None:
            raise ValueError("the text ends too early")
        for graph in graphs_in(self.top):
            if not all(it.to < len(graph.states) for state in graph.states for it in state.transitions):
                raise ValueError("a transition leads to a state that is not there")
            if any(it.what == "nested" and it.graph is None for state in graph.states for it in state.nodes):
                raise ValueError("a nested graph is missing")
            if not all(_has_its_exits(it) for it in graph.states):
                raise ValueError("a scope has one exit")
        return self.top


def _matched(form: re.Pattern[str], line: str, why: str) -> re.Match[str]:
    found = form.fullmatch(line)
    if found is None:
        raise ValueError(why)
    return found


def _entry_of(node: Node) -> Optional[int]:
    """Gives the number of an exit's entry."""
    if node.what != "exit":
        return None
    if not node.rest.isdecimal():
        raise ValueError("an exit has the number of its entry")
    return int(node.rest)


def _has_its_exits(state: State) -> bool:
    entries = [it.number for it in state.nodes if it.is_entry()]
    return entries == sorted(int(it.rest) for it in state.nodes if it.what == "exit")


def graphs_in(graph: Graph) -> Iterator[Graph]:
    """Gives the graph and those nested in it, the outer ones first."""
    yield graph
    for state in graph.states:
        for node in state.nodes:
            if node.graph is not None:
                yield from graphs_in(node.graph)


def read_graph(text: str) -> Graph:
    """Gives the graph of a printed text, or raises `NotAGraph`."""
    lines = text.split("\n")
    if lines[-1] == "":
        lines.pop()
    reader = _Reader()
    for number, line in enumerate(lines, 1):
        try:
            reader.read(line)
        except ValueError as wrong:
            raise NotAGraph(number, line, str(wrong)) from None
    try:
        return reader.whole()
    except ValueError as wrong:
        raise NotAGraph(len(lines) + 1, "", str(wrong)) from None
