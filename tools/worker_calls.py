"""Calls for run_calls.py of runs by several workers: each `run` of a table, which prints the same whatever their number is."""
from __future__ import annotations

from collections.abc import Iterable, Iterator
from dataclasses import replace
from typing import TypeVar

# How many workers do each run: fewer than there are pieces, as many, and more.
WORKERS = (2, 3, 4, 64)
# The run is done, has a race or a fault, or its turns are spent.
RUN = (0, 6, 7, 8)
Call = TypeVar("Call")


def by_workers(calls: Iterable[Call]) -> Iterator[Call]:
    """Yields each run of these calls that says nothing of workers, with so many of them."""
    for call in calls:
        if call.words[:1] == ["run"] and call.status in RUN and not any(word.startswith("--workers") or word == "--" for word in call.words):
            for count in WORKERS:
                yield replace(call, place=f"{call.place} --workers {count}", words=[*call.words, "--workers", str(count)])
