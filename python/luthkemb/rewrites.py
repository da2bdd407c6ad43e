"""Rewrites of graphs, as values that print as lines of a chain file."""
from __future__ import annotations

import operator
import os
import re
from dataclasses import dataclass
from pathlib import Path
from typing import Iterable, SupportsIndex, Union

PATH = re.compile(r"\d+(?:\.\d+)*", re.ASCII)
NUMBER = re.compile(r"\d+", re.ASCII)


@dataclass(frozen=True)
class Rewrite:
    """A rewrite of the item at a path: numbers of states and nodes in turn, with points between them."""

    path: str

    def __post_init__(self) -> None:
        if not isinstance(self.path, str) or not PATH.fullmatch(self.path):
            raise ValueError(f"{self.path!r} is no path; '1.1' is the path of node 1 of state 1")

    def __str__(self) -> str:
        return f"{type(self).__name__} {self.path}"

    @classmethod
    def _read(cls, words: list[str]) -> Rewrite:
        """Gives the rewrite with these words behind its name, or raises `ValueError`."""
        return cls(" ".join(words))


class MapCollapse(Rewrite):
    """The map at the path and the one map in it become one."""


class MapExpansion(Rewrite):
    """The map at the path becomes a map of its first parameter round a map of the others."""


class MapInterchange(Rewrite):
    """The map at the path and the one map in it change places."""


@dataclass(frozen=True, init=False, repr=False)
class MapTiling(Rewrite):
    """The map at the path is cut into tiles of these sizes, one for each parameter: a map over the tiles, round a map over a tile."""

    sizes: tuple[int, ...]

    def __init__(self, path: str, *sizes: SupportsIndex) -> None:
        object.__setattr__(self, "path", path)
        object.__setattr__(self, "sizes", tuple(map(_size, sizes)))
        self.__post_init__()
        if not sizes:
            raise ValueError(f"a tiling of {path!r} has a size for each parameter of its map, as MapTiling('1.1', 32)")

    def __repr__(self) -> str:
        return f"MapTiling{(self.path, *self.sizes)!r}"

    def __str__(self) -> str:
        return " ".join([super().__str__(), *map(str, self.sizes)])

    @classmethod
    def _read(cls, words: list[str]) -> MapTiling:
        path, *sizes = words
        if not all(NUMBER.fullmatch(it) for it in sizes):
            raise ValueError(f"{' '.join(sizes)!r} are no sizes")
        return cls(path, *map(int, sizes))


def _size(given: SupportsIndex) -> int:
    """Gives a size as a number, or raises `ValueError` where no line of a chain file has it."""
    size = operator.index(given)
    if not 0 <= size < 2**64:
        raise ValueError(f"{size} is no size of a tile; 32 is one")
    return size


REWRITES: dict[str, type[Rewrite]] = {it.__name__: it for it in (MapCollapse, MapExpansion, MapInterchange, MapTiling)}


Chain = Union[str, "os.PathLike[str]", Iterable[Rewrite]]


def chain_file(chain: Chain, folder: Path) -> str:
    """Gives the name of the file of these rewrites: of a path the path, and else of one that is written to the folder."""
    if isinstance(chain, (str, os.PathLike)):
        return os.fspath(chain)
    file = folder / "chain"
    file.write_text("".join(f"{checked(it)}\n" for it in chain), encoding="ascii")
    return str(file)


def checked(rewrite: Rewrite) -> Rewrite:
    """Gives a rewrite, or raises `TypeError` for what is none."""
    if not isinstance(rewrite, Rewrite):
        raise TypeError(f"{rewrite!r} is no rewrite; MapExpansion('1.1') is one")
    return rewrite


def read_rewrites(text: str) -> list[Rewrite]:
    """Gives the rewrites of a text, a line each, or raises `ValueError`."""
    return [_rewrite(line) for line in text.splitlines()]


def _rewrite(line: str) -> Rewrite:
    name, *words = line.split(" ")
    if name not in REWRITES or not words:
        raise ValueError(f"{line!r} is no rewrite")
    return REWRITES[name]._read(words)
