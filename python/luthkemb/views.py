"""What of a graph is drawn, and with which words: those of its source, where it is given, and its empty states or not."""
from __future__ import annotations

from typing import Iterator, Sequence

from .graph_text import Graph, Node, State, Transition, graphs_in
from .statements import Item, Statements, nodes_of

BOX, POINT, NOTHING = "box", "point", ""
# Code of a tasklet is cut where it is longer.
MOST_LINES, MOST_COLUMNS = 12, 60
CUT = "…"


class OtherSource(ValueError):
    """A source is not that of the graph, or cannot be read."""


def name_exits(graph: Graph) -> None:
    """Names the exits that are taken where no condition of their state holds."""
    for it in graphs_in(graph):
        for state in it.states:
            for before, transition in zip(state.transitions, state.transitions[1:]):
                if _has_condition(before) and not _has_condition(transition):
                    transition.text = _joined("else", transition.text)


def add_words(graph: Graph, source: bytes) -> None:
    """Gives tasklets their code, exits their conditions and empty states their statements, in words of the source."""
    try:
        statements = Statements(source)
        for it in graphs_in(graph):
            _add_to_nodes(it, statements)
            _add_to_states(it, statements)
    except (ValueError, LookupError, AttributeError, TypeError) as wrong:
        raise OtherSource(f"the source is not that of the graph: {wrong}") from None


def _add_to_nodes(graph: Graph, statements: Statements) -> None:
    items = {(state, node): it for state, node, it in nodes_of(statements, graph.path)}
    found = {(number, it.number): it for number, state in enumerate(graph.states) for it in state.nodes if _is_item(it)}
    if items.keys() != found.keys() or any(not _is_of(found[place], items[place]) for place in found):
        raise OtherSource(f"its program {statements.function_at(graph.path).name} has other nodes")
    for place, node in found.items():
        node.code = tuple(_cut(items[place].code))


def _is_item(node: Node) -> bool:
    return node.what not in ("access", "exit")


def _is_of(node: Node, item: Item) -> bool:
    return node.what == item.what and (node.what != "tasklet" or node.rest == f"line {item.line}")


def _cut(code: Sequence[str]) -> Iterator[str]:
    """Gives lines of code, cut where there are many or long ones."""
    for line in code if len(code) <= MOST_LINES else code[: MOST_LINES - 1]:
        yield line if len(line) <= MOST_COLUMNS else line[: MOST_COLUMNS - 1] + CUT
    if len(code) > MOST_LINES:
        yield CUT


def _add_to_states(graph: Graph, statements: Statements) -> None:
    for number, state in enumerate(graph.states):
        state.words = statements.words_of_state(graph.path, number)
        for transition in state.transitions:
            words = transition.text.split("\n")
            first = words[0].split(" set ")
            if first[0].startswith("if line "):
                first[0] = f"if {statements.words_of_condition(int(first[0].split()[-1]))}"
                transition.text = "\n".join([" set ".join(first), *words[1:]])


def leave_out_empty(graph: Graph) -> None:
    """Leaves out empty states: those through which there is one way in or one way out, and draws others as points."""
    for it in graphs_in(graph):
        for number, state in enumerate(it.states):
            if not state.nodes:
                state.drawn = NOTHING if _is_left_out(it, number, state) else POINT


def _is_left_out(graph: Graph, number: int, state: State) -> bool:
    """Joins the ways into a state and out of it, if there is one in or one out, and tells whether it is."""
    ways = [(before, it) for before in graph.states for it in before.transitions if it.to == number]
    exits = state.transitions
    if number == 0:
        return _is_plain_begin(graph, state)
    if not ways or not exits or (len(ways) > 1 and len(exits) > 1) or any(it is state for it, _ in ways):
        return False
    for before, way in ways:
        at = before.transitions.index(way)
        before.transitions[at : at + 1] = [
            Transition(it.to, way.back or it.back, _joined(way.text, it.text)) for it in exits
        ]
    state.transitions = []
    return True


def _is_plain_begin(graph: Graph, state: State) -> bool:
    """Tells whether the first state leads on without words, to a state that no other way leads to, and then ends it."""
    exits = state.transitions
    ways = [it.to for before in graph.states for it in before.transitions]
    if len(exits) != 1 or exits[0].text or 0 in ways or ways.count(exits[0].to) > 1:
        return False
    state.transitions = []
    return True


def _has_condition(transition: Transition) -> bool:
    return transition.text.startswith("if ")


def _joined(first: str, second: str) -> str:
    return "\n".join(it for it in (first, second) if it)
