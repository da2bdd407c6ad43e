"""Graphs of programs as objects: what `inc.to_sdfg(N=5)` gives."""
from __future__ import annotations

import math
import os
import tempfile
import webbrowser
from pathlib import Path
from typing import Any, Optional, Sequence, Union

from .accesses import ScopeAccess
from .arrays import Shape, Zeros, is_size
from .commands import COMMANDS, Entries
from .dace import Program
from .picture import FORMATS, Picture
from .plans import Planned
from .rewrites import Rewrite, checked
from .sizes import Signature
from .sources import Source, source_of

MOST_ELEMENTS = 2**24
MERMAID = (".mmd", ".mermaid")
FileName = Union[str, "os.PathLike[str]"]


class SDFG(Picture):
    """The graph of a program with its sizes. It prints as its text, and a notebook draws it."""

    def __init__(self, text: str, source: Source, entries: Entries, chain: Sequence[Rewrite] = ()) -> None:
        super().__init__(text)
        # The words of a source are drawn at its own nodes alone.
        self.source = None if chain else source.text()
        self.chain = tuple(chain)
        self._source = source
        self._entries = dict(entries)

    def check(self) -> list[ScopeAccess]:
        """Makes the race check, and gives what each scope accesses, or raises `Race`."""
        return _called("check", self._source, self._entries, self.chain)

    def plan(self) -> list[Planned]:
        """Gives how the pieces of each map come to its containers, or raises `Race`."""
        return _called("plan", self._source, self._entries, self.chain)

    def matches(self) -> list[Rewrite]:
        """Gives each rewrite that may be done on the graph."""
        return _called("matches", self._source, self._entries, self.chain)

    def save(self, name: FileName) -> None:
        """Writes the graph to a file: as a picture where its ending is that of one, as text for Graphviz or Mermaid, or as its text."""
        file = Path(name)
        form = file.suffix.lower()
        if form[1:] in FORMATS:
            file.write_bytes(self.drawn(form[1:]))
        else:
            text = self.dot() if form == ".dot" else self.mermaid() if form in MERMAID else self.text
            file.write_text(text, encoding="utf-8")

    def view(self, name: Optional[FileName] = None) -> Path:
        """Shows the picture in a browser, and gives its file: that of this name, or a new one among the temporary files."""
        picture = self.svg()
        if name is None:
            handle, name = tempfile.mkstemp(".svg", f"{self.graph.name}-")
            os.close(handle)
        file = Path(name).resolve()
        file.write_text(picture, encoding="utf-8")
        webbrowser.open(file.as_uri())
        return file

    def apply(self, *rewrites: Rewrite) -> SDFG:
        """Gives the graph with these rewrites done one after another, behind those of its `chain`; this one stays as it is."""
        chain = (*self.chain, *map(checked, rewrites))
        return SDFG(_called("graph", self._source, self._entries, chain).text, self._source, self._entries, chain)


def graph_of(program: Program, given: Entries) -> SDFG:
    """Gives the graph of a program with these sizes; arrays that are not given are zeros."""
    source = source_of(program)
    signature = Signature.of(source.text())
    sizes = {name: int(value) for name, value in given.items() if is_size(value)}
    zeros = {name: Zeros(_told(signature.shape(name, sizes))) for name in signature.arguments if name not in given}
    entries = {**zeros, **given}
    return SDFG(_called("graph", source, entries).text, source, entries)


def _called(name: str, source: Source, entries: Entries, chain: Sequence[Rewrite] = ()) -> Any:
    return COMMANDS[name].called(source, {**COMMANDS[name].keywords(), "chain": chain or None}, entries)


def _told(shape: Optional[Shape]) -> Shape:
    """Gives a shape as it is written; of one that is not known, or that no graph has, the program refuses the sizes before it."""
    fits = shape is not None and min(shape) >= 0 and math.prod(shape) <= MOST_ELEMENTS
    return shape if fits and shape is not None else ()
