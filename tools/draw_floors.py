#!/usr/bin/env python3
"""Draws the floors of the crates and the way of the data through them, and checks that both are told right.

  draw_floors.py            writes docs/floors.svg from crates.txt
  draw_floors.py --check    compares that file with what would be drawn, and checks crates.txt and docs/ARCHITECTURE.md
  draw_floors.py --counts   prints how many crates and modules there are, the longest chain and the number of ways

The check asks that each crate stands on crates above it in crates.txt alone and has a folder, and that the tables of
docs/ARCHITECTURE.md have each crate once, under its floor, with the modules that its root names. A way goes from a crate
to one that it stands on, and on from there: `rt` walks every way through crates.txt.

The last line of the check is 'N passed, M failed', and the status is 0 where some passed and none failed.
"""
from __future__ import annotations

import argparse
import functools
import re
import sys
from html import escape
from pathlib import Path

TOP = Path(__file__).resolve().parent.parent
CRATES = TOP / "crates.txt"
DOCUMENT = TOP / "docs" / "ARCHITECTURE.md"
PICTURE = TOP / "docs" / "floors.svg"

# The way of the data in a call of `run`: the crates that it comes through, in order, and what each makes of what.
STATIONS = (
    ("sd_lex", "bytes of the source to tokens"),
    ("sd_phrase", "tokens to expressions and subsets"),
    ("sd_line", "tokens to what each line says"),
    ("sd_context", "lines to statements, or an error"),
    ("sd_source", "statements to a syntax tree"),
    ("sd_parse", "the tree of the program, or its error"),
    ("sd_elab", "syntax tree to graph"),
    ("sd_json", "bytes of the arrays file to sizes, arrays"),
    ("sd_valid", "graph and sizes to bound graph"),
    ("sd_mem", "arrays to memory"),
    ("sd_prop", "bound graph to accesses of scopes"),
    ("sd_race", "accesses to accepted, or a race"),
    ("sd_compile", "code of tasklets to flat code"),
    ("sd_row", "flat code and memory to effects"),
    ("sd_seq", "graph and memory to the end of a run"),
    ("sd_report", "the end of a run to text"),
    ("sd_tool", "text, or a refusal, with a status"),
    ("sdfg", "text to standard output"),
)
# What goes into a floor and what comes out, in few words.
FLOWS = {
    "base": "bytes to lists, numbers",
    "work": "work to outcomes",
    "graph": "graph to work, text",
    "source": "bytes to syntax tree",
    "elaboration": "syntax tree to graph",
    "meaning": "tree and graph to laws",
    "races": "graph to accesses",
    "tasklets": "code to effects",
    "running": "memory to memory",
    "workers": "graph to boards",
    "moves": "picks to moves",
    "program": "files to text",
    "tests": "cases to verdicts",
}


class Floors:
    """The floors of crates.txt, the lowest first, and what each crate stands on. A name without a line is the kit's."""

    def __init__(self, text: str) -> None:
        self.crates: dict[str, list[str]] = {}
        self.stands: dict[str, list[str]] = {}
        for line in text.splitlines():
            heading = re.fullmatch(r"# (\w+)", line)
            if heading:
                self.crates[heading[1]] = []
            elif ":" in line and not line.startswith("#"):
                name, _, below = line.partition(":")
                self.stands[name] = below.split()
                self.crates[list(self.crates)[-1]].append(name)
        self.floor = {crate: floor for floor, crates in self.crates.items() for crate in crates}

    def below(self, crate: str) -> list[str]:
        """Gives the crates that one stands on, without the kit's."""
        return [it for it in self.stands[crate] if it in self.stands]

    def arrows(self) -> list[tuple[str, str]]:
        """Gives which floor stands on which, without those that are reached through another one."""
        names = list(self.crates)
        on = {name: {self.floor[it] for crate in self.crates[name] for it in self.below(crate)} - {name} for name in names}
        reached: dict[str, set[str]] = {}
        for name in names:
            reached[name] = on[name].union(*(reached.get(it, set()) for it in on[name]))
        return [
            (name, it)
            for name in names
            for it in names
            if it in on[name] and not any(it in reached.get(other, ()) for other in on[name])
        ]

    def longest(self) -> int:
        """Gives how many crates stand on each other in the longest chain."""
        depth = functools.lru_cache(None)(lambda crate: 1 + max((depth(it) for it in self.below(crate)), default=0))
        return max(depth(crate) for crate in self.stands)

    def ways(self) -> int:
        """Gives how many ways there are down from all crates together."""
        count = functools.lru_cache(None)(lambda crate: 1 + sum(count(it) for it in self.below(crate)))
        return sum(count(crate) for crate in self.stands)


# Sizes of the picture, in pixels.
WIDE, HIGH, ASIDE, APART, ROW = 120, 26, 22, 18, 6
LEFT, PAD, SPACE, PORT, TRACK = 168, 14, 10, 14, 6
LANE, HEAD, KEYS = 16, 58, 3
BANDS = ("#eef3fa", "#f7f9fc")
WAY, LINE, INK, FAINT = "#d9480f", "#f0894f", "#1c2430", "#5b6675"
MONO = "DejaVu Sans Mono, Menlo, Consolas, monospace"
SANS = "DejaVu Sans, Verdana, Helvetica, sans-serif"


def text(x, y, words, size=12, colour=INK, family=SANS, more=""):
    return f'<text x="{x:g}" y="{y:g}" font-family="{family}" font-size="{size}" fill="{colour}"{more}>{escape(words)}</text>'


def rows_of(crates):
    """Cuts the crates of a floor into rows that are nearly equally long."""
    count = -(-len(crates) // ROW)
    most = -(-len(crates) // count)
    return [crates[at : at + most] for at in range(0, len(crates), most)]


class Way:
    """The line through the stations. It keeps to the gaps between boxes, and no two parts of it share a stretch."""

    def __init__(self, boxes) -> None:
        self.boxes = boxes
        self.rows = sorted({y for _, y in boxes.values()})
        self.taken = {}

    def track(self, places, one, other):
        """Takes the first of these places at which nothing lies between two ends, or the last one."""
        low, high = min(one, other) - TRACK, max(one, other) + TRACK
        for place in places:
            if all(end < low or begin > high for begin, end in self.taken.get(place, ())):
                break
        self.taken.setdefault(place, []).append((low, high))
        return place

    def gap(self, y, up):
        """Gives the heights at which a line may run beside a row, above or below it, the nearest first."""
        at = self.rows.index(y)
        if up:
            end = self.rows[at - 1] + HIGH if at else y - PAD
            return [("row", it) for it in range(y - TRACK, end, -TRACK)]
        end = self.rows[at + 1] if at + 1 < len(self.rows) else y + HIGH + PAD
        return [("row", it) for it in range(y + HIGH + TRACK, end, TRACK)]

    def hop(self, source, target):
        """Gives the path from one station to the next."""
        (x1, y1), (x2, y2) = self.boxes[source], self.boxes[target]
        if y1 == y2 and abs(x1 - x2) == WIDE + ASIDE:
            return f"M{max(x1, x2) - ASIDE if x1 < x2 else x1} {y1 + HIGH / 2:g}H{x2 if x1 < x2 else x2 + WIDE}"
        leave, come = x1 + WIDE / 2 + PORT, x2 + WIDE / 2 - PORT
        up = y2 <= y1
        begin, end = (y1 if up else y1 + HIGH), (y2 if y1 == y2 or not up else y2 + HIGH)
        if y1 == y2 or abs(self.rows.index(y1) - self.rows.index(y2)) == 1:
            _, y = self.track(self.gap(y1, True) if y1 == y2 else self.gap(y2, not up), leave, come)
            return f"M{leave:g} {begin}V{y}H{come:g}V{end}"
        beside = x1 - ASIDE / 2 if x2 < x1 else x1 + WIDE + ASIDE / 2
        _, x = self.track([("aside", beside + it) for it in (0, -6, 6)], begin, end)
        _, out = self.track(self.gap(y1, up), leave, x)
        _, into = self.track(self.gap(y2, not up), x, come)
        return f"M{leave:g} {begin}V{out}H{x:g}V{into}H{come:g}V{end}"

    def hops(self):
        """Draws the line from each station to the next."""
        crates = [crate for crate, _ in STATIONS]
        return [
            f'<path d="{self.hop(*pair)}" fill="none" stroke="{LINE}" stroke-width="3" stroke-linejoin="round" '
            'marker-end="url(#goes)"/>'
            for pair in zip(crates, crates[1:])
        ]


class Picture:
    """The picture of floors: a band each, the lowest at the bottom, and below them the stations of the way."""

    def __init__(self, floors: Floors) -> None:
        self.floors = floors
        self.arrows = floors.arrows()
        self.lanes = self.lanes_of()
        self.right = LEFT + ROW * (WIDE + ASIDE) + PAD
        self.width = self.right + PAD + LANE * (max(self.lanes.values()) + 2)
        self.bands, self.boxes = {}, {}
        top = HEAD
        for floor in reversed(floors.crates):
            top = self.place(floor, top)
        self.key = top + 16
        self.height = self.key + 34 + 22 * -(-len(STATIONS) // KEYS) + 8

    def place(self, floor, top):
        """Places the boxes of a floor below one another, and gives where the next band begins."""
        rows = rows_of(self.floors.crates[floor])
        high = len(rows) * (HIGH + APART) - APART + 2 * PAD
        self.bands[floor] = (top, high)
        for at, row in enumerate(reversed(rows)):
            for column, crate in enumerate(row):
                self.boxes[crate] = (LEFT + column * (WIDE + ASIDE), top + PAD + at * (HIGH + APART))
        return top + high + SPACE

    def lanes_of(self):
        """Gives each arrow a lane, so that no two arrows of one lane share a stretch."""
        at = list(self.floors.crates).index
        taken, lanes = [], {}
        for above, below in sorted(self.arrows, key=lambda it: (at(it[0]) - at(it[1]), at(it[0]))):
            span = range(at(below), at(above))
            lane = next((n for n, spans in enumerate(taken) if not spans & set(span)), len(taken))
            taken += [set()] if lane == len(taken) else []
            taken[lane] |= set(span)
            lanes[above, below] = lane
        return lanes

    def drawn(self) -> str:
        parts = [
            f'<svg xmlns="http://www.w3.org/2000/svg" width="{self.width:g}" height="{self.height:g}" '
            f'viewBox="0 0 {self.width:g} {self.height:g}" role="img" aria-label="The floors of the crates">',
            '<defs><marker id="head" viewBox="0 0 8 8" refX="7" refY="4" markerWidth="7" markerHeight="7" orient="auto">'
            f'<path d="M0 0L8 4L0 8z" fill="{FAINT}"/></marker>'
            '<marker id="goes" viewBox="0 0 8 8" refX="7" refY="4" markerWidth="3" markerHeight="3" orient="auto">'
            f'<path d="M0 0L8 4L0 8z" fill="{LINE}"/></marker></defs>',
            f'<rect width="{self.width:g}" height="{self.height:g}" fill="#ffffff"/>',
            text(PAD, 24, "The floors of the crates", 16, more=' font-weight="bold"'),
            text(PAD, 44, "A crate stands on crates of its own floor and of floors below. An arrow goes to a floor that "
                 "is stood on; what is reached through another arrow has none.", 11, FAINT),
        ]
        parts += [self.band(floor, at) for at, floor in enumerate(self.bands)]
        parts += [self.arrow(above, below) for above, below in self.arrows]
        parts += Way(self.boxes).hops()
        parts += [self.box(crate) for crate in self.boxes]
        parts += self.keys()
        return "\n".join([*parts, "</svg>", ""])

    def band(self, floor, at):
        top, high = self.bands[floor]
        middle = top + high / 2
        return "\n".join([
            f'<rect x="{PAD}" y="{top}" width="{self.right - PAD}" height="{high}" rx="6" fill="{BANDS[at % 2]}" stroke="#cdd6e2"/>',
            text(PAD + 10, middle - 2, floor, 14, more=' font-weight="bold"'),
            text(PAD + 10, middle + 14, FLOWS.get(floor, ""), 11, FAINT),
        ])

    def arrow(self, above, below):
        """Draws an arrow from the right edge of a band, along its lane, to the right edge of a lower one."""
        (top, high), (under, low) = self.bands[above], self.bands[below]
        lane = self.lanes[above, below]
        starts = [it for it in self.arrows if it[0] == above]
        ends = [it for it in self.arrows if it[1] == below]
        leave = top + high / 2 + 4 + 5 * starts.index((above, below))
        come = under + low / 2 - 4 - 5 * ends.index((above, below))
        x = self.right + LANE * (lane + 1)
        return (
            f'<path d="M{self.right:g} {leave:g}H{x:g}V{come:g}H{self.right + 2:g}" fill="none" stroke="{FAINT}" '
            'stroke-width="1.3" marker-end="url(#head)"/>'
        )

    def box(self, crate):
        x, y = self.boxes[crate]
        number = next((at for at, it in enumerate(STATIONS, 1) if it[0] == crate), 0)
        fill, stroke, line = ("#fff1e8", WAY, 2) if number else ("#ffffff", "#8795a8", 1)
        shape = f'<rect x="{x}" y="{y}" width="{WIDE}" height="{HIGH}" rx="4" fill="{fill}" stroke="{stroke}" stroke-width="{line}"/>'
        middle = x + WIDE / 2 + (9 if number else 0)
        name = text(middle, y + 17, crate, 11, family=MONO, more=' text-anchor="middle"')
        return "\n".join([shape, name] + ([badge(x + 13, y + HIGH / 2, number)] if number else []))

    def keys(self):
        """Draws the list of the stations below the bands."""
        lines = -(-len(STATIONS) // KEYS)
        column = (self.width - 2 * PAD) / KEYS
        parts = [text(PAD, self.key + 10, "The way of the data in a call of run", 14, WAY, more=' font-weight="bold"')]
        for at, (crate, what) in enumerate(STATIONS):
            x, y = PAD + at // lines * column, self.key + 36 + at % lines * 22
            parts.append(badge(x + 10, y - 4, at + 1))
            parts.append(text(x + 24, y, crate, 11.5, family=MONO))
            parts.append(text(x + 104, y, what, 11, FAINT))
        return parts


def badge(x, y, number):
    return (
        f'<circle cx="{x:g}" cy="{y:g}" r="9" fill="{WAY}"/>'
        + text(x, y + 3.6, str(number), 10, "#ffffff", more=' text-anchor="middle" font-weight="bold"')
    )


def named_modules(crate: str) -> set[str]:
    """Gives the modules that the root of a crate names."""
    roots = [TOP / "crates" / crate / "src" / name for name in ("lib.rt", "main.rt")]
    told = "".join(it.read_text() for it in roots if it.exists())
    return set(re.findall(r"^(?:pub(?:\([a-z]+\))? )?mod (\w+);", told, re.M))


def told_tables(document: str) -> dict[str, list[list[str]]]:
    """Gives the rows of the tables under each floor's heading of the document: the crate and the other cells."""
    part = re.search(r"^## The floors$(.*?)(?=^## |\Z)", document, re.M | re.S)
    pieces = re.split(r"^### (\w+)$", part[1] if part else "", flags=re.M)
    tables = {}
    for floor, piece in zip(pieces[1::2], pieces[2::2]):
        rows = [line.strip("|").split("|") for line in piece.splitlines() if line.startswith("| `")]
        tables[floor] = [[cell.strip() for cell in row] for row in rows]
    return tables


def faults_of_order(floors: Floors):
    """Gives for each crate what is wrong with its line of crates.txt, or an empty text."""
    seen: set[str] = set()
    for crate in floors.stands:
        early = [it for it in floors.below(crate) if it not in seen]
        seen.add(crate)
        yield f"{crate} stands on what is not above it: {' '.join(early)}" if early else ""
        yield "" if (TOP / "crates" / crate).is_dir() else f"{crate} has no folder"
    for folder in sorted((TOP / "crates").iterdir()):
        if folder.is_dir() and folder.name not in seen:
            yield f"{folder.name} has no line in crates.txt"


def faults_of_tables(floors: Floors, document: str):
    """Gives for each floor and crate what is wrong with its table, or an empty text."""
    tables = told_tables(document)
    yield "" if list(tables) == list(floors.crates) else f"the headings of floors are {' '.join(tables)}"
    places = [(row[0].strip("`"), floor, row) for floor, rows in tables.items() for row in rows]
    for crate, floor in floors.floor.items():
        found = [it[1] for it in places if it[0] == crate]
        yield "" if found == [floor] else f"{crate} of {floor} has a row under: {' '.join(found) or 'no floor'}"
    for crate, floor, row in places:
        if crate not in floors.floor:
            yield f"{crate} has a row and is no crate"
        elif floor != "tests":
            told, there = re.findall(r"`(\w+)`", row[-1]), named_modules(crate)
            yield "" if sorted(told) == sorted(there) else f"{crate} has the modules {' '.join(sorted(there))}"


def faults_of_picture(floors: Floors):
    """Tells whether the picture is there as it would be drawn, and gives stations that are no crates."""
    strange = [crate for crate, _ in STATIONS if crate not in floors.floor]
    if strange:
        yield f"the way has stations that are no crates: {' '.join(strange)}"
    else:
        same = PICTURE.exists() and PICTURE.read_bytes() == Picture(floors).drawn().encode()
        yield "" if same else "docs/floors.svg is not what would be drawn; draw_floors.py writes it"


def check(floors: Floors) -> int:
    faults = [*faults_of_order(floors), *faults_of_tables(floors, DOCUMENT.read_text()), *faults_of_picture(floors)]
    failed = [fault for fault in faults if fault]
    for fault in failed:
        print(fault)
    print(f"{len(faults) - len(failed)} passed, {len(failed)} failed")
    return 0 if faults and not failed else 1


def main() -> int:
    usage, _, rest = __doc__.partition("\n\n")
    parser = argparse.ArgumentParser(description=usage, epilog=rest, formatter_class=argparse.RawDescriptionHelpFormatter)
    parser.add_argument("--check", action="store_true")
    parser.add_argument("--counts", action="store_true")
    words = parser.parse_args()
    floors = Floors(CRATES.read_text())
    if words.counts:
        modules = sum(len(named_modules(crate)) for crate in floors.stands)
        print(f"{len(floors.stands)} crates on {len(floors.crates)} floors, {modules} modules")
        print(f"{floors.longest()} crates in the longest chain, {floors.ways()} ways")
    if words.check:
        return check(floors)
    if not words.counts:
        PICTURE.write_bytes(Picture(floors).drawn().encode())
    return 0


if __name__ == "__main__":
    sys.exit(main())
