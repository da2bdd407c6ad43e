#!/usr/bin/env python3
"""Writes what each rewrite does into docs/REWRITES.md: the graph before it and behind it, as text and as pictures in docs/rewrites/.

  draw_rewrites.py           writes these parts of the page and the pictures; Graphviz has to be there
  draw_rewrites.py --check   compares both with what would be written, without Graphviz

The texts are those of cases in examples/expanded_product and examples/tiled_product, which the program prints. A part stands between the
lines `<!-- NAME -->` and `<!-- end of NAME -->`. A picture tells the sum of the text that Graphviz has drawn, as those of the gallery do. The
last line of the check is 'N passed, M failed', and the status is 0 where some passed and none failed.
"""
from __future__ import annotations

import argparse
import re
import sys
from pathlib import Path

from draw_gallery import SUM, TOP, NoGraphviz, Picture, drawn, sum_of

PAGE = TOP / "docs/REWRITES.md"
PICTURES = TOP / "docs/rewrites"
EXPANDED, TILED = TOP / "examples/expanded_product", TOP / "examples/tiled_product"
# Of each part its name, and the cases whose graphs stand before the rewrite and behind it; no two cases have one name.
PARTS = {
    "MapCollapse 1.2": (EXPANDED / "twice_graph", EXPANDED / "graph"),
    "MapExpansion 1.2": (EXPANDED / "plain_graph", EXPANDED / "once_graph"),
    "MapInterchange 1.2": (EXPANDED / "once_graph", EXPANDED / "turned_graph"),
    "MapTiling 1.2 2 2 3": (TILED / "whole_graph", TILED / "tiles_graph"),
}
TABLE = """<!-- {name} -->

<table>
<tr><th>Before</th><th>Behind <code>{name}</code></th></tr>
<tr valign="top"><td>

```
{before}
```

</td><td>

```
{behind}
```

</td></tr>
<tr valign="top"><td><img src="rewrites/{first}.svg" alt="The graph before {name}"></td><td><img src="rewrites/{second}.svg" alt="The graph behind {name}"></td></tr>
</table>

<!-- end of {name} -->"""


def graph_of(case: Path) -> str:
    """Returns the text of a graph that an example prints."""
    return case.with_suffix(".expected").read_text()


def state_of(case: Path) -> str:
    """Returns the lines of the state in which the rewrites are done."""
    return graph_of(case).partition("state 1\n")[2].rstrip()


def picture_of(case: Path) -> Picture:
    return Picture(graph_of(case), empty=False)


def file_of(case: Path) -> Path:
    return PICTURES / f"{case.name}.svg"


def part_of(name: str) -> str:
    """Returns a part of the page as it is to be."""
    first, second = PARTS[name]
    return TABLE.format(name=name, first=first.name, second=second.name, before=state_of(first), behind=state_of(second))


def with_parts(page: str) -> str:
    """Returns the page with all parts as they are to be; a part that has no place in it is missing."""
    for name in PARTS:
        found = re.compile(rf"<!-- {re.escape(name)} -->.*?<!-- end of {re.escape(name)} -->", re.DOTALL)
        page = found.sub(lambda _, name=name: part_of(name), page)
    return page


def wrong_parts(page: str) -> list[str]:
    """Returns the names of the parts that are not in the page as they are to be."""
    return [name for name in PARTS if page.count(part_of(name)) != 1]


def cases() -> list[Path]:
    return sorted({case for pair in PARTS.values() for case in pair})


def wrong_pictures() -> list[str]:
    """Returns the names of the pictures that are not of their graphs as they are drawn today, and of those that are of none."""
    wrong = []
    for case in cases():
        found = SUM.search(file_of(case).read_text()) if file_of(case).is_file() else None
        if found is None or found[1] != sum_of(picture_of(case)):
            wrong.append(file_of(case).name)
    return wrong + sorted(it.name for it in set(PICTURES.glob("*")) - {file_of(case) for case in cases()})


def check() -> int:
    """Prints what is not as it would be written, and the counts."""
    lines = [f"docs/REWRITES.md has another part of {name}" for name in wrong_parts(PAGE.read_text())]
    lines += [f"docs/rewrites/{name} is no picture of a graph that is shown" for name in wrong_pictures()]
    for line in lines:
        print(f"{line}: tools/draw_rewrites.py writes it anew")
    print(f"{max(len(PARTS) + len(cases()) - len(lines), 0)} passed, {len(lines)} failed")
    return 1 if lines else 0


def main() -> int:
    words = argparse.ArgumentParser(description=__doc__, formatter_class=argparse.RawDescriptionHelpFormatter)
    words.add_argument("--check", action="store_true", help="compare the page and the pictures with what would be written")
    if words.parse_args().check:
        return check()
    PICTURES.mkdir(exist_ok=True)
    try:
        for case in cases():
            file_of(case).write_text(drawn(picture_of(case)))
    except NoGraphviz as why:
        sys.exit(str(why))
    PAGE.write_text(with_parts(PAGE.read_text()))
    return 0


if __name__ == "__main__":
    sys.exit(main())
