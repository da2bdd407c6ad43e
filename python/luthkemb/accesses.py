"""What the race check tells of an accepted program: what each scope accesses, read from its text."""
from __future__ import annotations

import re
from dataclasses import dataclass

ACCEPTED = "accepted"
LINE = re.compile(r"scope ([\d.]+): (\w+) ([^\s\[]+)(?:\[([^]]*)\])?")


@dataclass(frozen=True)
class ScopeAccess:
    """What a scope as a whole does to a container.

    `scope` is its path, of states and nodes; `mode` is `read`, `write`, `push`, `take` or a resolution; `ranges` bound
    what is touched, a range for each dimension, and a stream has none.
    """

    scope: str
    mode: str
    container: str
    ranges: tuple[str, ...] = ()

    def __str__(self) -> str:
        ranges = f"[{', '.join(self.ranges)}]" if self.ranges else ""
        return f"scope {self.scope}: {self.mode} {self.container}{ranges}"


def read_accesses(text: str) -> list[ScopeAccess]:
    """Gives the accesses of a text that ends with `accepted`, or raises `ValueError`."""
    *lines, last = text.splitlines() or [""]
    if last != ACCEPTED:
        raise ValueError(f"the last line is {last!r}")
    return [_access(line) for line in lines]


def _access(line: str) -> ScopeAccess:
    found = LINE.fullmatch(line)
    if found is None:
        raise ValueError(f"{line!r} tells no access")
    ranges = tuple(found[4].split(", ")) if found[4] is not None else ()
    return ScopeAccess(found[1], found[2], found[3], ranges)
