"""Plans: how the pieces of each scope come to what it accesses."""
from __future__ import annotations

import re
from dataclasses import dataclass
from typing import Optional

LINE = re.compile(r"scope (\d+\.\d+): (?:(\S+) (shared|copied)|(board|sequential))", re.ASCII)


@dataclass(frozen=True)
class Planned:
    """A container of a map that is cut into pieces, or without one a scope that is one piece.

    `scope` is the path of the scope. The `kind` of a container is `shared` or `copied`, that of a scope `board` or `sequential`.
    """

    scope: str
    container: Optional[str]
    kind: str

    def __str__(self) -> str:
        return f"scope {self.scope}: {f'{self.container} ' if self.container else ''}{self.kind}"


def read_plan(text: str) -> list[Planned]:
    """Gives the lines of a plan, or raises `ValueError`."""
    return [_planned(line) for line in text.splitlines()]


def _planned(line: str) -> Planned:
    found = LINE.fullmatch(line)
    if found is None:
        raise ValueError(f"{line!r} is no line of a plan")
    return Planned(found[1], found[2], found[3] or found[4])
