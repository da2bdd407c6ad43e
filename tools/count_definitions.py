#!/usr/bin/env python3
"""Counts the definitions that a reader of a promise meets: those that a clause or a definition names, those that they name, and so on.

  count_definitions.py                    counts below the promises that docs/PROOFS.md tells of
  count_definitions.py CRATE::FN.CLAUSE   below a clause of a public function, as sd_tool::sdfg.headline
  count_definitions.py CRATE.MODULE.NAME  below a definition, as sd_says.Says.Says

    --list      one line for each definition, with its words, the nearest first
    --crates    one line for each crate
    --without MODULE.NAME ..   as if these definitions were read already

A definition is an item of a crate's specs/; its words are those between blanks, comments left out. Types of the code count too, with the
words of their fields. The standard library's definitions are not counted. `--check` compares the counts with those in docs/PROOFS.md.
"""
import argparse
import re
import sys
from collections import Counter
from functools import cache
from pathlib import Path

REPOSITORY = Path(__file__).resolve().parent.parent
CRATES = REPOSITORY / "crates"
NAME = re.compile(r"[^\s(){},;]+")
USE = re.compile(r"(?:pub )?(?:ghost )?use\s+([^{};\n]+?)(?:\.\{([^}]*)\})?(?:\s+as\s+(\S+?))?\s*;?\s*$", re.S)
HEAD = re.compile(r"(?:(?:abbrev|unfoldable|opaque|pub|record|data)\s+)+([^\s:({]+)")


def without_comments(text):
    return re.sub(r"(?m)(^|\s)--( .*)?$", r"\1", text)


class Module:
    """A file of specs/, with its definitions by name and what its imports stand for."""

    def __init__(self, crate, path):
        self.items, self.parts, self.imports, self.aliases, self.passed, self.last = {}, {}, {}, {}, [], None
        file = CRATES / crate / "specs" / (path.replace(".", "/") + ".antt")
        self.exists = file.is_file()
        if self.exists:
            self.read(without_comments(file.read_text()))

    def read(self, text):
        for block in re.split(r"\n(?=\S)", "\n" + text):
            if re.match(r"\s*(pub )?use\s", block):
                self.use(block.strip())
            elif re.match(r"\s*(module\b|(abbrev |unfoldable |opaque )?mutual\b)", block):
                self.read(re.sub(r"(?m)^  ", "", block.strip("\n").partition("\n")[2]))
            else:
                self.define([block.strip("\n")])

    def use(self, text):
        found = USE.match(re.sub(r"\s+", " ", text))
        path, names, alias = found[1].strip(), found[2], found[3]
        if text.startswith("pub use") and names is None:
            self.passed.append(path)
        if names is None:
            self.aliases[alias or path.rpartition(".")[2]] = path
            return
        for name in filter(None, (it.strip() for it in names.split(","))):
            given, _, new = name.partition(" as ")
            self.imports[(new or given).strip()] = path, given.strip()

    def define(self, blocks):
        for block in filter(str.strip, blocks):
            first = block.split(None, 1)[0]
            head = HEAD.match(block)
            is_head = head and (block.split()[0] in ("pub", "abbrev", "unfoldable", "opaque", "record", "data")) and first != "mod"
            if is_head and "mod" not in block.split()[:2]:
                self.last = head[1]
                self.items[self.last] = block
                self.members(self.last, block)
            elif re.match(r"\S+(\s*\{[^}]*\})?\s*:\s", block) and first not in self.items:
                self.last = first
                self.items[first] = block
            elif first in self.items or self.last:
                self.items[first if first in self.items else self.last] += "\n" + block

    def members(self, item, block):
        """A constructor, or a field by its name alone, stands for the definition that it is of."""
        if re.match(r"(\w+ )*data\b", block):
            for found in re.finditer(r"(?m)^\s+(?:pub )?([^\s:]+)\s*:", block):
                self.parts[found[1]] = item


@cache
def module(crate, path):
    return Module(crate, path)


@cache
def types_of(crate):
    """The structs and enums of a crate's code, by name, with their texts."""
    found = {}
    for file in sorted((CRATES / crate / "src").rglob("*.rt")):
        text = re.sub(r"//.*", "", file.read_text())
        for it in re.finditer(r"(?m)^(?:pub(?:\([^)]*\))? )?(?:struct|enum) (\w+)", text):
            end = text.find("\n}", it.start()) + 2
            semi = text.find(";\n", it.start()) + 1
            body = text[it.start() : semi if 0 < semi < end and "{" not in text[it.start() : semi] else end]
            found.setdefault(it[1], body)
    return found


def resolve(path, name):
    """Returns the definition that a name of a module stands for, as (crate, module, name), or None where it is not the repository's."""
    words = path.split(".")
    if words[0] != "Rattle" or len(words) < 3 or not (CRATES / words[1]).is_dir():
        return None
    crate, rest = words[1], words[3:]
    if rest and rest[0] == "declared":
        if rest[-1] == "TheVariants":
            rest = rest[:-1]
        return crate, "type", rest[-1]
    it = module(crate, ".".join(rest))
    if name in it.items:
        return crate, ".".join(rest), name
    if name in it.parts:
        return crate, ".".join(rest), it.parts[name]
    for passed in it.passed:
        found = resolve(passed, name)
        if found:
            return found
    if name in it.imports:
        return resolve(*it.imports[name])
    return None


def named_in(text, here, crate, path):
    """The definitions that a text of this module names."""
    found = []
    for token in NAME.findall(text):
        for name in {token, token.strip(".→λ"), token.split(".")[0]}:
            if name in here.items:
                found.append((crate, path, name))
            elif name in here.parts:
                found.append((crate, path, here.parts[name]))
            elif name in here.imports:
                found.append(resolve(*here.imports[name]))
            elif name in here.aliases and "." in token:
                found.append(resolve(here.aliases[name], token.split(".")[1]))
    return [it for it in dict.fromkeys(found) if it]


def text_of(it):
    crate, path, name = it
    return types_of(crate).get(name, "") if path == "type" else module(crate, path).items[name]


def names_of(it):
    crate, path, name = it
    if path != "type":
        here = module(crate, path)
        return [found for found in named_in(here.items[name], here, crate, path) if found != it]
    words = re.findall(r"\w+", text_of(it))
    return [(crate, "type", word) for word in dict.fromkeys(words) if word in types_of(crate) and word != name]


def below(firsts, read=()):
    """Goes through all definitions below, the nearest first."""
    seen, order = set(read), []
    row = [it for it in dict.fromkeys(firsts) if it not in seen]
    while row:
        seen.update(row)
        order += row
        row = [found for found in dict.fromkeys(found for it in row for found in names_of(it)) if found not in seen]
    return order


def words_in(it):
    return len(text_of(it).split())


def clause_of(crate, function, clause):
    """The text of a clause of a function, and the names that its file imports for clauses."""
    for file in sorted((CRATES / crate / "src").rglob("*.rt")):
        text = re.sub(r"//.*", "", file.read_text())
        start = re.search(rf"\bfn {function}\b", text)
        if not start:
            continue
        at = re.compile(rf"ensures {clause} \{{").search(text, start.start())
        if not at:
            continue
        end, depth = at.end(), 1
        while depth:
            depth += {"{": 1, "}": -1}.get(text[end], 0)
            end += 1
        here = Module.__new__(Module)
        here.items, here.parts, here.imports, here.aliases, here.passed = {}, {}, {}, {}, []
        for use in re.findall(r"(?m)^ghost use [^;]*;", text):
            here.use(use[len("ghost ") :])
        return named_in(text[at.end() : end - 1], here, crate, "")
    sys.exit(f"{crate} has no function {function} with a clause {clause}")


def firsts_of(word):
    if "::" in word:
        crate, _, rest = word.partition("::")
        return clause_of(crate, *rest.rsplit(".", 1))
    crate, _, rest = word.partition(".")
    path, _, name = rest.rpartition(".")
    found = resolve(f"Rattle.{crate}.specs.{path}", name)
    if not found:
        sys.exit(f"{word} is no definition")
    return [found]


CHAIN, HEADLINE = "sd_steps.Chained.chained", "sd_tool::sdfg.headline"
PROMISES = ("sd_says.Says.Says", "sd_promise.Promise.FilesSay", CHAIN, HEADLINE)
# Each promise, and the last one again for a reader who has read what a chain makes of a graph, or wants none.
ROWS = (*((it, None) for it in PROMISES), (HEADLINE, CHAIN))


def line_of(word, known):
    found = below(firsts_of(word), below(firsts_of(known)) if known else ())
    name = f"`{word}`, behind `{known}`" if known else f"`{word}`"
    return f"| {name} | {len(found):,} | {sum(map(words_in, found)):,} |"


def main():
    parser = argparse.ArgumentParser(description=__doc__, formatter_class=argparse.RawDescriptionHelpFormatter)
    parser.add_argument("words", nargs="*", default=PROMISES)
    parser.add_argument("--list", action="store_true")
    parser.add_argument("--crates", action="store_true")
    parser.add_argument("--without", nargs="*", default=[])
    parser.add_argument("--check", action="store_true")
    given = parser.parse_args()
    if given.check:
        lines = set((REPOSITORY / "docs" / "PROOFS.md").read_text().split("\n"))
        missing = [it for it in (line_of(*row) for row in ROWS) if it not in lines]
        print("".join(f"docs/PROOFS.md lacks the line {it}\n" for it in missing), end="")
        print(f"{len(ROWS) - len(missing)} passed, {len(missing)} failed")
        return bool(missing)
    read = below([it for word in given.without for it in firsts_of(word)])
    for word in given.words:
        found = below(firsts_of(word), read)
        if given.list:
            for it in found:
                print(f"{words_in(it):6} {'.'.join(it)}")
        if given.crates:
            counts = Counter()
            for it in found:
                counts[it[0]] += words_in(it)
            for crate, count in counts.most_common():
                print(f"{count:6} {crate} ({sum(it[0] == crate for it in found)})")
        print(f"{word}: {len(found):,} definitions, {sum(map(words_in, found)):,} words")
    return 0


if __name__ == "__main__":
    sys.exit(main())
