"""Pictures of graphs, made from the text that the program prints: drawn by Graphviz, or as text of Mermaid.

States are boxes with their transitions between them, scopes dotted boxes in them, nested graphs boxes with states of
their own. Access nodes are ellipses, those of arguments bold, of streams dashed; tasklets are octagons, the entries
and exits of maps trapezia, those of consume scopes dashed, reductions triangles, copies rounded boxes. Edges that only
order are dashed, those whose values are resolved are orange and end in a dot.

With the source of a graph, tasklets show their code, exits their conditions and empty states their statements in its words.
Nested graphs may be folded, each to a box with a lid, and empty states left out: where ways part or meet, a point stays.
"""
from __future__ import annotations

import shutil
import subprocess
from typing import Iterator, Optional

from .graph_text import Edge, Graph, Node, State, Transition, read_graph
from .labels import exits_of, id_of, is_resolved, label_of_edge, label_of_node, label_of_state, lines_of_containers
from .mermaid import mermaid
from .views import BOX, NOTHING, POINT, OtherSource, add_words, leave_out_empty, name_exits

GRAPHVIZ = "dot"
FORMATS = ("svg", "png")

SHAPES = {
    "access": "ellipse",
    "tasklet": "octagon",
    "map": "trapezium",
    "consume": "trapezium",
    "exit": "invtrapezium",
    "reduce": "invtriangle",
    "copy": "box",
    "nested": "box3d",
}
STATE_COLOR = "#deebf7"
POINTED = "shape=circle style=filled fillcolor=blue color=blue width=0.12"
RESOLVED = 'color="#d95f02" fontcolor="#d95f02" arrowhead=dot'
BLANK = "style=invis"
HEAD = (
    "compound=true",
    "newrank=true",
    # Without a limit Graphviz takes minutes to straighten states of more than a hundred nodes.
    "nslimit=2",
    "ranksep=0.25",
    'fontname="Helvetica"',
    'node [fontname="Helvetica" style=filled fillcolor=white]',
    'edge [fontname="Helvetica" fontsize=10]',
)
Lines = Iterator[str]


class NoGraphviz(RuntimeError):
    """The program `dot` of Graphviz is not there."""

    def __init__(self) -> None:
        super().__init__(
            f"Graphviz is not there: no program '{GRAPHVIZ}' is on the path. Debian has it in the package 'graphviz'."
        )


class DrawingFailed(RuntimeError):
    """Graphviz ended without a picture."""


class Picture:
    """A printed graph. `text` is what the program printed; a notebook shows the picture.

    With the `source` of the graph the picture has its words, or `OtherSource` is raised. `fold` draws each nested graph as one
    node, and `empty` tells whether empty states are drawn. All three may be set later; a source that is not the graph's then has no
    effect.
    """

    def __init__(self, text: str, source: Optional[bytes] = None, fold: bool = False, empty: bool = True) -> None:
        self.text = text
        self.graph = read_graph(text)
        self.source, self.fold, self.empty = source, fold, empty
        if source is not None:
            add_words(read_graph(text), source)

    def _drawn(self) -> Graph:
        """Gives the graph as it is drawn."""
        graph = read_graph(self.text)
        if self.source is not None:
            graph = self._in_words(graph, self.source)
        name_exits(graph)
        if not self.empty:
            leave_out_empty(graph)
        return _folded(graph) if self.fold else graph

    def _in_words(self, graph: Graph, source: bytes) -> Graph:
        try:
            add_words(graph, source)
            return graph
        except OtherSource:
            return read_graph(self.text)

    def dot(self) -> str:
        """Gives the text that Graphviz draws."""
        graph = self._drawn()
        body = [*HEAD, *_whole_graph(graph, id_of(graph))]
        return "digraph {\n" + "".join(f"  {line}\n" for line in body) + "}\n"

    def mermaid(self) -> str:
        """Gives the text that Mermaid draws."""
        return mermaid(self._drawn())

    def drawn(self, form: str) -> bytes:
        """Gives the picture in a form of `FORMATS`, or raises `NoGraphviz` or `DrawingFailed`."""
        program = shutil.which(GRAPHVIZ)
        if program is None:
            raise NoGraphviz
        ran = subprocess.run([program, f"-T{form}"], input=self.dot().encode(), capture_output=True)
        if ran.returncode != 0 or not ran.stdout:
            raise DrawingFailed(ran.stderr.decode(errors="replace").strip() or f"{GRAPHVIZ} gave no picture")
        return ran.stdout

    def svg(self) -> str:
        return self.drawn("svg").decode()

    def png(self) -> bytes:
        return self.drawn("png")

    def _repr_svg_(self) -> Optional[str]:
        """Gives a notebook the picture, or nothing where Graphviz is not there; it then shows the text."""
        return self.svg() if shutil.which(GRAPHVIZ) else None

    def __repr__(self) -> str:
        return self.text


def _folded(graph: Graph) -> Graph:
    """Takes the nested graphs out of their nodes."""
    for state in graph.states:
        for node in state.nodes:
            node.graph = None
    return graph


def _quoted(text: str) -> str:
    return '"' + text.replace("\\", "\\\\").replace('"', '\\"').replace("\n", "\\n") + '"'


def _beside(text: str) -> Iterator[str]:
    """Gives the lines of an edge's label, with a space between them and the edge."""
    return (f"  {it} " for it in text.split("\n"))


def _lines_of_label(*lines: str) -> str:
    """Gives a label whose lines begin at the left."""
    return '"' + "".join(_quoted(it)[1:-1] + "\\l" for it in lines) + '"'


def _cluster(name: str, settings: list[str], body: Lines) -> Lines:
    yield f"subgraph cluster_{name} {{"
    yield from (f"  {it}" for it in settings)
    yield from (f"  {it}" for it in body)
    yield "}"


def _anchor(name: str) -> str:
    """Gives a node that is not seen, for edges that lead to a cluster."""
    return f'{name} [shape=point style=invis width=0 height=0 label=""]'


def _whole_graph(graph: Graph, name: str) -> Lines:
    label = _lines_of_label(graph.name, *lines_of_containers(graph))
    settings = ["labeljust=l", "style=filled", "fillcolor=white", "color=black", f"label={label}"]
    yield from _cluster(name, settings, _body_of_graph(graph, name))


def _body_of_graph(graph: Graph, name: str) -> Lines:
    yield from (_anchor(f"{name}_in"), _anchor(f"{name}_out"))
    states = [(number, it) for number, it in enumerate(graph.states) if it.drawn != NOTHING]
    for number, state in states:
        yield from _state(graph, number, state)
    yield f"{name}_in -> {id_of(graph, states[0][0], 'in')} [{BLANK}]"
    for number, state in states:
        for transition in state.transitions:
            yield _transition(graph, number, transition)
        if not state.transitions:
            yield f"{_out_of_state(graph, number)} -> {name}_out [{BLANK}]"


def _transition(graph: Graph, source: int, transition: Transition) -> str:
    ends = [("ltail", source), ("lhead", transition.to)] if source != transition.to else []
    there = [f"{end}=cluster_{id_of(graph, it)}" for end, it in ends if graph.states[it].drawn == BOX]
    settings = ["color=blue", "fontcolor=blue", *there]
    if transition.back:
        settings += ["constraint=false", "penwidth=2"]
    if transition.text:
        settings.append(f"label={_lines_of_label(*_beside(transition.text))}")
    return f"{_out_of_state(graph, source)} -> {id_of(graph, transition.to, 'in')} [{' '.join(settings)}]"


def _out_of_state(graph: Graph, number: int) -> str:
    """Gives where transitions leave a state: below its nodes, if it has any."""
    return id_of(graph, number, "out" if graph.states[number].nodes else "in")


def _state(graph: Graph, number: int, state: State) -> Lines:
    if state.drawn == POINT:
        yield f'{id_of(graph, number, "in")} [{POINTED} label="" tooltip="state {number}"]'
        return
    colors = [f'fillcolor="{STATE_COLOR}"', f'color="{STATE_COLOR}"']
    settings = ["labeljust=l", "style=filled", *colors, f"label={_quoted(label_of_state(number, state))}"]
    yield from _cluster(id_of(graph, number), settings, _body_of_state(graph, number, state))


def _body_of_state(graph: Graph, number: int, state: State) -> Lines:
    yield _anchor(id_of(graph, number, "in"))
    if state.nodes:
        yield _anchor(id_of(graph, number, "out"))
    yield from _list_of_nodes(graph, number, state, None)
    yield from _order_of_nodes(graph, number, state)
    for edge in state.edges:
        yield _edge(graph, number, state, edge)


def _order_of_nodes(graph: Graph, number: int, state: State) -> Lines:
    """Puts nodes that nothing leads to below the begin of their list, and such that nothing leaves above its end."""
    begun, ended = {it.target for it in state.edges}, {it.source for it in state.edges}
    exits = exits_of(state)
    for node in state.nodes:
        name = _end_of(graph, number, node, "in")
        scope = node.scope if node.what != "exit" else int(node.rest)
        if node.number not in begun:
            yield f"{id_of(graph, number, 'in' if scope is None else scope)} -> {name} [{BLANK}]"
        if node.number not in ended and node.number not in exits:
            last = "out" if node.scope is None else exits[node.scope].number
            yield f"{_end_of(graph, number, node, 'out')} -> {id_of(graph, number, last)} [{BLANK}]"


def _list_of_nodes(graph: Graph, number: int, state: State, scope: Optional[int]) -> Lines:
    """Gives the nodes of a state, or those of a scope in it; an exit stands with its entry."""
    exits = exits_of(state)
    for node in state.nodes:
        if node.scope != scope or node.what == "exit":
            continue
        if node.graph is not None:
            yield from _whole_graph(node.graph, id_of(node.graph))
        elif node.is_entry():
            settings = ["style=dotted", "color=black", 'label=""']
            body = _scope(graph, number, state, node, exits[node.number])
            yield from _cluster(id_of(graph, number, node.number), settings, body)
        else:
            yield _node(graph, number, node, node)


def _scope(graph: Graph, number: int, state: State, entry: Node, ends: Node) -> Lines:
    yield _node(graph, number, entry, entry)
    yield from _list_of_nodes(graph, number, state, entry.number)
    yield _node(graph, number, ends, entry)


def _node(graph: Graph, number: int, node: Node, entry: Node) -> str:
    """Gives a node; an exit looks as its entry does."""
    styles = ["filled"]
    if node.what == "access":
        container = graph.containers[node.rest]
        styles += ["bold"] if container.kind == "array" else ["dashed"] if container.is_stream() else []
    if entry.what == "consume":
        styles.append("dashed")
    if node.what == "copy":
        styles.append("rounded")
    label = label_of_node(node, entry)
    written = _lines_of_label(*label.split("\n")) if node.code else _quoted(label)
    settings = [f"shape={SHAPES[node.what]}", f'style="{",".join(styles)}"', f"label={written}"]
    return f"{id_of(graph, number, node.number)} [{' '.join(settings)} tooltip=\"node {node.number}\"]"


def _end_of(graph: Graph, number: int, node: Node, end: str) -> str:
    """Gives where edges come to a node, or leave it; for a nested graph that is a place of its own in it."""
    return id_of(graph, number, node.number) if node.graph is None else f"{id_of(node.graph)}_{end}"


def _edge(graph: Graph, number: int, state: State, edge: Edge) -> str:
    source, target = state.nodes[edge.source], state.nodes[edge.target]
    settings = [f"ltail=cluster_{id_of(source.graph)}"] if source.graph else []
    settings += [f"lhead=cluster_{id_of(target.graph)}"] if target.graph else []
    settings.append(f"label={_lines_of_label(*_beside(label_of_edge(edge)))}" if edge.text else "style=dashed")
    settings += [RESOLVED] if is_resolved(state, edge) else []
    ends = f"{_end_of(graph, number, source, 'out')} -> {_end_of(graph, number, target, 'in')}"
    return f"{ends} [{' '.join(settings)}]"

