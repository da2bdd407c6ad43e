"""Runs by picks: the file of the picks, and the moves that a traced run tells before its arrays."""
from __future__ import annotations

import operator
import os
import re
from dataclasses import dataclass
from pathlib import Path
from typing import Any, BinaryIO, Iterable, Mapping, Union

Picks = Union[str, "os.PathLike[str]", Iterable[int]]
MOVE = re.compile(rb"move (\d+) of (\d+)\n")
MOST_BYTES_OF_A_MOVE = 64


@dataclass(frozen=True)
class Move:
    """A move that was made: its number, from 0, and how many there were."""

    number: int
    of: int

    def __str__(self) -> str:
        return f"move {self.number} of {self.of}"


class After(dict[str, Any]):
    """The arrays after a run by picks, by name; `moves` are those that were made, where a trace was wanted."""

    def __init__(self, arrays: Mapping[str, Any], moves: Iterable[Move] = ()) -> None:
        super().__init__(arrays)
        self.moves = tuple(moves)


def picks_file(picks: Picks, folder: Path) -> str:
    """Gives the name of the file of these picks: of a path the path, and else of one that is written to the folder."""
    if isinstance(picks, (str, os.PathLike)):
        return os.fspath(picks)
    file = folder / "picks"
    file.write_text(" ".join(str(operator.index(it)) for it in picks) + "\n", encoding="ascii")
    return str(file)


def read_moves(output: BinaryIO) -> tuple[Move, ...]:
    """Reads the moves with which an output begins, and stands behind them in the end."""
    moves: list[Move] = []
    while found := MOVE.fullmatch(line := output.readline(MOST_BYTES_OF_A_MOVE)):
        moves.append(Move(int(found[1]), int(found[2])))
    output.seek(-len(line), os.SEEK_CUR)
    return tuple(moves)
