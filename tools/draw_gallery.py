#!/usr/bin/env python3
"""Makes docs/GALLERY.md, which shows the source, the graph and the picture of programs in examples/ side by side, and the
pictures in docs/gallery/.

  draw_gallery.py           writes the page and the pictures; Graphviz has to be there
  draw_gallery.py --check   compares both with what would be written, without Graphviz

The text of a graph is that of the case `graph` in the program's folder. A picture tells the sum of the text that Graphviz has
drawn; so it is compared by that, and another Graphviz draws no other picture. The last line of the check is 'N passed, M failed',
and the status is 0 where some passed and none failed.
"""
from __future__ import annotations

import argparse
import hashlib
import re
import sys
from pathlib import Path

TOP = Path(__file__).resolve().parent.parent
sys.path.insert(0, str(TOP / "python"))

from luthkemb.picture import NoGraphviz, Picture  # noqa: E402

from gallery_answers import NAMES  # noqa: E402

FOUND = {it.stem: it for it in (TOP / "examples").glob("*/*.py")}
SOURCES = [FOUND[name] for name in NAMES]
PAGE = TOP / "docs" / "GALLERY.md"
PICTURES = TOP / "docs" / "gallery"

HEAD = """# Gallery

Fifteen programs that people know, over whole numbers. Each stands in a folder of `examples/` with an arrays file and what it prints.
`tools/test_gallery.py` compares that, and what is printed for arrays that are drawn, with plain loops in Python and with NumPy.
Beside each source stand its graph, as `print` tells it for the arrays file of the example, and the picture of that graph without its empty
states (`tools/picture.py`). `docs/GRAPH.md` says what the lines of a graph and the signs of a picture mean, and `docs/RACES.md` which maps
are accepted.

`tools/draw_gallery.py` writes this page and its pictures.
"""
SECTION = """
## {name}

In `examples/{name}`.

<table>
<tr><th>Source</th><th>Graph</th><th>Picture</th></tr>
<tr valign="top"><td>

```python
{source}
```

</td><td>

```
{graph}
```

</td><td><img src="gallery/{name}.svg" alt="The graph of {name} as a picture"></td></tr>
</table>
"""
SUM = re.compile(r"<!-- sum of what was drawn: (\w+) -->")


def graph_of(source: Path) -> str:
    return (source.parent / "graph.expected").read_text()


def page() -> str:
    texts = ((it.parent.name, it.read_text(), graph_of(it)) for it in SOURCES)
    return HEAD + "".join(SECTION.format(name=name, source=source.rstrip(), graph=graph.rstrip()) for name, source, graph in texts)


def picture_of(source: Path) -> Picture:
    return Picture(graph_of(source), source.read_bytes(), empty=False)


def file_of(source: Path) -> Path:
    return PICTURES / f"{source.parent.name}.svg"


def sum_of(picture: Picture) -> str:
    return hashlib.sha256(picture.dot().encode()).hexdigest()


def drawn(picture: Picture) -> str:
    """Gives a picture as SVG, without the names of its parts, which no reader sees."""
    text = re.sub(r"<!--.*?-->|<!DOCTYPE.*?>|<\?xml.*?\?>|<title>.*?</title>", "", picture.svg(), flags=re.DOTALL)
    text = re.sub(r' (id|class)="[^"]*"', "", text)
    lines = [line for line in text.split("\n") if line.strip()]
    return "\n".join([*lines[:-1], f"<!-- sum of what was drawn: {sum_of(picture)} -->", lines[-1], ""])


def write() -> None:
    PICTURES.mkdir(exist_ok=True)
    for source in SOURCES:
        file_of(source).write_text(drawn(picture_of(source)))
    PAGE.write_text(page())


def check() -> int:
    """Prints what is not as it would be written, and the counts."""
    wrong = [] if PAGE.is_file() and PAGE.read_text() == page() else ["docs/GALLERY.md has other sources or graphs than examples/"]
    for source in SOURCES:
        file = file_of(source)
        found = SUM.search(file.read_text()) if file.is_file() else None
        if found is None or found[1] != sum_of(picture_of(source)):
            wrong.append(f"docs/gallery/{file.name} is no picture of its graph as it is drawn today")
    others = sorted(set(PICTURES.glob("*")) - {file_of(it) for it in SOURCES})
    for line in wrong:
        print(f"{line}: tools/draw_gallery.py writes it anew")
    for file in others:
        print(f"docs/gallery/{file.name} is of no program of the gallery")
    failed = len(wrong) + len(others)
    print(f"{len(SOURCES) + 1 - len(wrong)} passed, {failed} failed")
    return 1 if failed else 0


def main() -> int:
    words = argparse.ArgumentParser(description=__doc__, formatter_class=argparse.RawDescriptionHelpFormatter)
    words.add_argument("--check", action="store_true", help="compare the page and the pictures with what would be written")
    if words.parse_args().check:
        return check()
    try:
        write()
    except NoGraphviz as why:
        sys.exit(str(why))
    return 0


if __name__ == "__main__":
    sys.exit(main())
