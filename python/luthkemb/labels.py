"""What pictures of graphs show of their parts, and how these are named in them."""
from __future__ import annotations

from typing import Iterator, Optional

from .graph_text import Edge, Graph, Node, State


def id_of(graph: Graph, state: Optional[int] = None, part: object = None) -> str:
    """Gives the name in the drawing of a graph, of a state of it or of a part of that."""
    named = ["g", *graph.path]
    if state is not None:
        named.append(f"s{state}")
    if part is not None:
        named.append(part)
    return "_".join(str(it) for it in named)


def lines_of_containers(graph: Graph) -> Iterator[str]:
    """Gives a line for each container of a graph."""
    for it in graph.containers.values():
        yield f"{it.kind} {it.name}{it.extents}"


def exits_of(state: State) -> dict[int, Node]:
    """Gives the exit of each scope by the number of its entry."""
    return {int(it.rest): it for it in state.nodes if it.what == "exit"}


def label_of_node(node: Node, entry: Node) -> str:
    """Gives what a node shows; that of an exit tells what it is the exit of."""
    if node.what == "access":
        return node.rest
    if node.what == "exit":
        return f"exit {entry.what}"
    if node.code:
        return "\n".join((*node.code, node.rest))
    rest = node.rest
    if node.what == "reduce":
        rest = rest.replace(" axis", "\naxis").replace(" identity", "\nidentity")
    return f"{node.what}\n{rest}".strip()


def label_of_state(number: int, state: State) -> str:
    """Gives what a state shows: its number, and what it stands for where it is empty."""
    return f"state {number}: {state.words}" if state.words else f"state {number}"


def is_resolved(state: State, edge: Edge) -> bool:
    """Tells whether what an edge moves is resolved; what leaves a scope is where it was resolved in it."""
    if edge.is_resolved() or state.nodes[edge.source].what != "exit" or not edge.text:
        return edge.is_resolved()
    inner = (it for it in state.edges if it.target == edge.source and it.container() == edge.container())
    return any(is_resolved(state, it) for it in inner)


def label_of_edge(edge: Edge) -> str:
    """Gives what an edge moves, and below it its connector."""
    moved, _, connector = edge.text.rpartition(" ")
    return f"{moved}\n{connector}" if moved else connector
