#!/usr/bin/env python3
"""Draws a printed graph, as an SVG or PNG picture by Graphviz, or as the text that Graphviz or Mermaid draws.

  picture.py [--svg | --png | --dot | --mermaid] [--source SOURCE] [--fold] [--no-empty] [-o FILE] [TEXT]

TEXT is a file with the text of a graph; without it the text is read from standard input. The picture goes to FILE, or
to standard output. Its form is the one that is asked for, else that of FILE's ending, else SVG:

  tools/picture.py -o inc.svg tools/graphs/inc.txt

With the SOURCE of the graph, tasklets show their code, exits their conditions and empty states their statements.
--fold draws each nested graph as one node, and --no-empty leaves out empty states; where ways part or meet a point stays.

The status is 0 where the picture was made; 1 where a file cannot be read or written, or Graphviz failed; 2 for other
words; 3 where the text is no graph, or the source is another one; 4 where Graphviz is not there. `--dot` and `--mermaid`
do not need it.
"""
from __future__ import annotations

import argparse
import sys
from pathlib import Path
from typing import Any, Optional

TOP = Path(__file__).resolve().parent.parent
sys.path.insert(0, str(TOP / "python"))

from luthkemb.graph_text import NotAGraph  # noqa: E402
from luthkemb.picture import FORMATS, DrawingFailed, NoGraphviz, Picture  # noqa: E402
from luthkemb.views import OtherSource  # noqa: E402

DOT, MERMAID = "dot", "mermaid"
TEXTS = {DOT: Picture.dot, MERMAID: Picture.mermaid}
FORMS = (*FORMATS, *TEXTS)
FAILED, NO_GRAPH, NO_GRAPHVIZ = 1, 3, 4


def words_of(arguments: list[str]) -> argparse.Namespace:
    """Gives what the words ask for: `text` and `output`, where they are given, and `form`."""
    usage, _, rest = __doc__.partition("\n\n")
    parser = argparse.ArgumentParser(
        description=usage, epilog=rest, formatter_class=argparse.RawDescriptionHelpFormatter
    )
    forms = parser.add_mutually_exclusive_group()
    for form in FORMS:
        forms.add_argument(f"--{form}", dest="form", action="store_const", const=form)
    parser.add_argument("--source", metavar="SOURCE", type=Path)
    parser.add_argument("--fold", action="store_true")
    parser.add_argument("--no-empty", dest="empty", action="store_false")
    parser.add_argument("-o", dest="output", metavar="FILE", type=Path)
    parser.add_argument("text", metavar="TEXT", nargs="?", type=Path)
    words = parser.parse_args(arguments)
    words.form = words.form or form_of(words.output)
    return words


def form_of(output: Optional[Path]) -> str:
    """Gives the form of a file by its ending."""
    ending = output.suffix[1:].lower() if output else ""
    return ending if ending in FORMS else FORMATS[0]


def drawn(text: bytes, form: str, **how: Any) -> bytes:
    picture = Picture(text.decode(errors="replace"), **how)
    return TEXTS[form](picture).encode() if form in TEXTS else picture.drawn(form)


def draw(words: argparse.Namespace) -> None:
    text = words.text.read_bytes() if words.text else sys.stdin.buffer.read()
    source = words.source.read_bytes() if words.source else None
    picture = drawn(text, words.form, source=source, fold=words.fold, empty=words.empty)
    if words.output:
        words.output.write_bytes(picture)
    else:
        sys.stdout.buffer.write(picture)
        sys.stdout.flush()


def main(arguments: list[str]) -> int:
    words = words_of(arguments)
    try:
        draw(words)
        return 0
    except (NotAGraph, OtherSource) as wrong:
        said, status = str(wrong), NO_GRAPH
    except NoGraphviz as wrong:
        said, status = f"{wrong} Without it, --{DOT} gives the text that it would draw, and --{MERMAID} that of Mermaid.", NO_GRAPHVIZ
    except (OSError, DrawingFailed) as wrong:
        said, status = str(wrong), FAILED
    print(f"picture.py: {said}", file=sys.stderr)
    return status


if __name__ == "__main__":
    sys.exit(main(sys.argv[1:]))
