#!/usr/bin/env python3
"""Tells on what the check of a crate went: after `rt check --jobs 1` (`--test` for a crate of tests) with nothing kept before.

  proof_parts.py CRATE..      the dearest parts of each crate by seconds, and the seconds of each kind of part
    --most N                  so many parts (20)
    --sizes                   by megabytes, which do not depend on the machine's load, for each function

The prover keeps a file for each part of a proof in crates/CRATE/out/incremental. `Lts` is what the borrow checker shows of a body: it
grows with the number of steps times that of the values in them. `Proof` and `Answers` are the contract, `Tie` joins both. The seconds
of a part are those between its file and the one before it, so they are true of one job alone.
"""
import argparse
import collections
import pathlib
import re

ROOT = pathlib.Path(__file__).resolve().parent.parent


def parts_of(crate):
    """The time, the size and the name of each part that a check of the crate kept, the first one first."""
    files = (ROOT / "crates" / crate / "out" / "incremental").glob("*/Rattle-*.oantt")
    parts = []
    for file in files:
        stat = file.stat()
        name = re.sub(r"^Rattle-\w+?[-.](proofs\.|specs\.)?", "", file.stem)
        parts.append((stat.st_mtime, stat.st_size, name))
    return sorted(parts)


def kind_of(name):
    """The kind of a part: the last word of its name, without the number or the function behind it."""
    return name.rsplit(".", 1)[-1].split("-")[0]


def show_seconds(parts, most):
    """Prints the dearest parts by seconds, and the seconds of each kind."""
    rows, kinds = [], collections.Counter()
    for before, (time, _, name) in zip(parts, parts[1:]):
        rows.append((time - before[0], name))
        kinds[kind_of(name)] += time - before[0]
    for seconds, name in sorted(rows, reverse=True)[:most]:
        print(f"{seconds:9.1f} s  {name}")
    for kind, seconds in kinds.most_common(6):
        print(f"{seconds:9.1f} s  in all of {kind}")


def show_sizes(parts, most):
    """Prints the functions with the largest parts."""
    sizes = collections.Counter()
    for _, size, name in parts:
        function = re.match(r"(.*)\.(?:Lts|Tie|Proof)(-.*)?$", name)
        if function:
            sizes[function[1] + (function[2] or "")] += size / 1e6
    for name, size in sizes.most_common(most):
        print(f"{size:9.1f} MB  {name}")
    print(f"{sum(sizes.values()):9.1f} MB  in all, of {len(sizes)} functions")


def main():
    """Shows the parts of each crate that is named."""
    parser = argparse.ArgumentParser(description=__doc__, formatter_class=argparse.RawDescriptionHelpFormatter)
    parser.add_argument("crates", nargs="+", metavar="CRATE")
    parser.add_argument("--most", type=int, default=20, metavar="N")
    parser.add_argument("--sizes", action="store_true")
    words = parser.parse_args()
    for crate in words.crates:
        parts = parts_of(crate)
        if not parts:
            print(f"{crate}: nothing is kept of a check")
            continue
        print(f"{crate}: {parts[-1][0] - parts[0][0]:.0f} s, {len(parts)} parts")
        (show_sizes if words.sizes else show_seconds)(parts, words.most)


if __name__ == "__main__":
    main()
