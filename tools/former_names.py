#!/usr/bin/env python3
"""Rewrites the names of former crates in code, statements and proofs that were written over them.

    tools/former_names.py FOLDER..

Many crates were folded into fewer, as modules of these: tools/former_crates.txt has a line `NEW: FORMER=MODULE ..` for each
that has such modules, and `FORMER/MODULE=MODULE` for a module that moved alone. In code `FORMER::name` becomes `NEW::name`,
since a crate's root has the names of its modules; in statements `Rattle.FORMER.specs.` becomes `Rattle.NEW.specs.MODULE.`,
and so for proofs, where lemmas stand in `MODULE_lemmas`. A file `crates.txt` is rewritten too. Call this once on a
folder, since some new names are former ones of other things. What is below a folder `out` is left alone.
"""
import os
import re
import sys
from pathlib import Path

REPOSITORY = Path(__file__).resolve().parent.parent


def plan():
    """Returns the new crate and the module of each former crate, and the new crate of each module that moved alone."""
    crates, modules = {}, {}
    for line in (REPOSITORY / "tools" / "former_crates.txt").read_text().split("\n"):
        new, _, members = line.split("#")[0].partition(":")
        for former, module in (it.split("=") for it in members.split()):
            if "/" in former:
                modules[tuple(former.split("/"))] = new
            else:
                crates[former] = (new, module)
    return crates, modules


CRATES, MOVED = plan()
FORMER = "|".join(sorted({*CRATES, *(it for it, _ in MOVED)}, key=len, reverse=True))


def lemmas(new, module):
    """Returns the names of the lemma modules that a former crate had."""
    file = REPOSITORY / "crates" / new / "proofs" / f"{module}_lemmas.antt"
    return set(re.findall(r"^pub mod (\w+)", file.read_text(), re.M)) if file.is_file() else set()


LEMMAS = {former: lemmas(*CRATES[former]) for former in CRATES}


def place(former, part, name):
    """Returns the crate and the path of modules in which a name of a former crate's specs or proofs stands now."""
    if former not in CRATES:
        for at in (f"specs/{name}.antt", f"proofs/{name}.antt", f"proofs/{name}"):
            for new in {new for (crate, _), new in MOVED.items() if crate == former}:
                if (REPOSITORY / "crates" / new / at).exists():
                    return new, part
        return former, part
    new, module = CRATES[former]
    if name in ("declared", "contracts"):
        return new, f"{part}.{name}.{module}"
    return new, f"{part}.{module}{'_lemmas' if part == 'proofs' and name in LEMMAS[former] else ''}"


def statements(text):
    """Rewrites the paths of statements and proofs."""

    def put(found):
        former, part, name = found.groups()
        new, at = place(former, part, name)
        return f"Rattle.{new}.{at}" + ("" if name in ("declared", "contracts") and former in CRATES else f".{name}")

    return re.sub(rf"\bRattle\.({FORMER})\.(specs|proofs)\.(\w+)", put, text)


def code(text):
    """Rewrites the paths of code, those of lemmas and definitions in attributes among them."""

    def of_proofs(found):
        new, at = place(*found.groups())
        return f"{new}::{at.replace('.', '::')}::{found[3]}"

    def of_code(found):
        return f"{CRATES[found[1]][0]}::" if found[1] in CRATES else found[0]

    text = re.sub(rf"(?<![\w.:/])({FORMER})::(specs|proofs)::(\w+)", of_proofs, statements(text))
    return re.sub(rf"(?<![\w.:/])({FORMER})::(?!specs::|proofs::)", of_code, text)


def listing(text):
    """Rewrites the crates that the lines of a crates.txt stand on, each once."""
    lines = []
    for line in text.split("\n"):
        name, colon, rest = line.partition(":")
        if colon and not line.startswith("#"):
            line = f"{name}: {' '.join(dict.fromkeys(CRATES.get(it, (it,))[0] for it in rest.split()))}".rstrip()
        lines.append(line)
    return "\n".join(lines)


def rewritten(path):
    """Returns the text that a file should have, and its present one."""
    text = path.read_text()
    if path.name == "crates.txt":
        return listing(text), text
    return (statements if path.suffix == ".antt" else code)(text), text


def main():
    changed = 0
    for folder in sys.argv[1:]:
        for at, folders, files in os.walk(folder):
            folders[:] = [it for it in folders if it != "out"]
            for path in (Path(at, it) for it in files if it.endswith((".rt", ".antt", ".edit")) or it == "crates.txt"):
                new, old = rewritten(path)
                if new != old:
                    path.write_text(new)
                    changed += 1
    print(f"{changed} files changed")
    return 0 if sys.argv[1:] else 1


if __name__ == "__main__":
    sys.exit(main())
