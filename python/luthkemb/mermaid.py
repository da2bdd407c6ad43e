"""Pictures of graphs as text of Mermaid, which pages of Markdown show in place of the text.

They have what the pictures of Graphviz have. A graph is a box with its states and a list of its containers, a state a box
with its nodes; transitions are thick arrows. Scopes are boxes with dashed borders, nested graphs boxes with states of their
own. Access nodes are rounded, those of arguments with a thick border, of streams with a dashed one; tasklets are hexagons,
entries and exits of maps trapezia, those of consume scopes dashed, reductions rhombi, copies boxes with round corners. Edges
that only order are dashed, and those whose values are resolved end in a circle. A folded graph is a box with double sides; an
empty state that is left out is a small circle where ways part or meet.
"""
from __future__ import annotations

import re
from typing import Iterator, Optional

from .graph_text import Edge, Graph, Node, State, Transition
from .labels import exits_of, id_of, is_resolved, label_of_edge, label_of_node, label_of_state, lines_of_containers
from .views import NOTHING, POINT

SHAPES = {
    "access": ("([", "])"),
    "tasklet": ("{{", "}}"),
    "map": ("[/", "\\]"),
    "consume": ("[/", "\\]"),
    "exit": ("[\\", "/]"),
    "reduce": ("{", "}"),
    "copy": ("(", ")"),
    "nested": ("[[", "]]"),
}
STYLES = (
    "classDef argument stroke-width:3px",
    "classDef dashed stroke-dasharray:5 5",
    "classDef state fill:#deebf7,stroke:#9ecae1,color:#000",
    "classDef scope fill:none,stroke-dasharray:2 4",
    "classDef containers fill:none,stroke:none",
    "classDef point fill:#2171b5,stroke:#2171b5,color:#2171b5",
)
BREAK = "<br>"
NO_BREAK = "\u00a0"
# A star makes text slanted, and so may an underscore behind a word; a backtick begins text of Markdown.
MARKS = re.compile(r'[*"#<>&`]|_(?!\w)')
Lines = Iterator[str]


def mermaid(graph: Graph) -> str:
    """Gives the text of a graph's picture."""
    return "\n".join(["flowchart TB", *_indented(_whole_graph(graph)), *_indented(iter(STYLES)), ""])


def _indented(lines: Lines) -> Lines:
    return (f"  {it}" for it in lines)


def _quoted(text: str) -> str:
    """Gives a label; what Mermaid or Markdown would take for more than a letter is written by its number."""
    lines = (MARKS.sub(lambda it: f"#{ord(it[0])};", _margin(line)) for line in text.split("\n"))
    return f'"{BREAK.join(lines)}"'


def _margin(line: str) -> str:
    """Keeps the spaces that a line begins with."""
    text = line.lstrip(" ")
    return NO_BREAK * (len(line) - len(text)) + text if text else line


def _box(name: str, label: str, body: Lines, look: str = "") -> Lines:
    yield f"subgraph {name} [{_quoted(label)}]"
    yield from _indented(body)
    yield "end"
    if look:
        yield f"class {name} {look}"


def _whole_graph(graph: Graph) -> Lines:
    yield from _box(id_of(graph), graph.name, _body_of_graph(graph))


def _body_of_graph(graph: Graph) -> Lines:
    if graph.containers:
        label = "\n".join(lines_of_containers(graph))
        yield f"{id_of(graph)}_containers[{_quoted(label)}]:::containers"
    for number, state in enumerate(graph.states):
        if state.drawn != NOTHING:
            yield from _state(graph, number, state)
    for number, state in enumerate(graph.states):
        for transition in state.transitions:
            yield _transition(graph, number, transition)


def _state(graph: Graph, number: int, state: State) -> Lines:
    name, label = id_of(graph, number), label_of_state(number, state)
    if state.drawn == POINT:
        yield f'{name}((" ")):::point'
    elif state.nodes:
        yield from _box(name, label, _body_of_state(graph, number, state), "state")
    else:
        yield f"{name}[{_quoted(label)}]:::state"


def _transition(graph: Graph, source: int, transition: Transition) -> str:
    words = ["back"] if transition.back else []
    words += [transition.text] if transition.text else []
    return _arrow(id_of(graph, source), "==>", "\n".join(words), id_of(graph, transition.to))


def _arrow(source: str, arrow: str, label: str, target: str) -> str:
    return f"{source} {arrow}{f'|{_quoted(label)}|' if label else ''} {target}"


def _body_of_state(graph: Graph, number: int, state: State) -> Lines:
    yield from _list_of_nodes(graph, number, state, None)
    for edge in state.edges:
        yield _edge(graph, number, state, edge)


def _list_of_nodes(graph: Graph, number: int, state: State, scope: Optional[int]) -> Lines:
    """Gives the nodes of a state, or those of a scope in it; an exit stands with its entry."""
    for node in state.nodes:
        if node.scope != scope or node.what == "exit":
            continue
        if node.graph is not None:
            yield from _whole_graph(node.graph)
        elif node.is_entry():
            name = f"{id_of(graph, number, node.number)}_scope"
            yield from _box(name, " ", _scope(graph, number, state, node), "scope")
        else:
            yield _node(graph, number, node, node)


def _scope(graph: Graph, number: int, state: State, entry: Node) -> Lines:
    yield _node(graph, number, entry, entry)
    yield from _list_of_nodes(graph, number, state, entry.number)
    yield _node(graph, number, exits_of(state)[entry.number], entry)


def _node(graph: Graph, number: int, node: Node, entry: Node) -> str:
    """Gives a node; an exit looks as its entry does."""
    begin, end = SHAPES[node.what]
    look = _look(graph, node, entry)
    name = id_of(graph, number, node.number)
    return f"{name}{begin}{_quoted(label_of_node(node, entry))}{end}{f':::{look}' if look else ''}"


def _look(graph: Graph, node: Node, entry: Node) -> str:
    """Gives the class of a node, or nothing where it looks as its shape does."""
    if node.what == "access":
        container = graph.containers[node.rest]
        return "argument" if container.kind == "array" else "dashed" if container.is_stream() else ""
    return "dashed" if entry.what == "consume" else ""


def _edge(graph: Graph, number: int, state: State, edge: Edge) -> str:
    source, target = (_end_of(graph, number, state.nodes[it]) for it in (edge.source, edge.target))
    arrow = "--o" if is_resolved(state, edge) else "-->" if edge.text else "-.->"
    return _arrow(source, arrow, label_of_edge(edge), target)


def _end_of(graph: Graph, number: int, node: Node) -> str:
    """Gives where edges of a node begin and end; for a nested graph that is its box."""
    return id_of(graph, number, node.number) if node.graph is None else id_of(node.graph)
