#!/usr/bin/env python3
"""Runs the examples through the program and compares what it writes, byte for byte.

A case NAME in a folder of examples/ has these files, and a folder has one case at least:
  NAME.words     the words that the program is given, one a line; it runs in the case's folder, with no input
  NAME.expected  the exact standard output that is wanted
  NAME.status    the exit status that is wanted; without this file it is 0
Standard error must be empty, and a case has 60 seconds. One case more is made here: arrays of 5,000 elements in a
file with a long name, by a copy of ./sdfg below a folder whose name is not text. Each case that differs has a line,
and the last line is 'N passed, M failed'. The status is 0 where there are cases and none failed.
"""
import json
import os
import shutil
import subprocess
import sys
import tempfile
from pathlib import Path

TOP = Path(__file__).resolve().parent.parent
SDFG = TOP / "sdfg"
NOT_BUILT = 70
SECONDS = 60
ELEMENTS = 5000


def shown(data):
    return repr(data[:60]) + " .." * (len(data) > 60)


def difference(folder, name):
    """Returns what differs in a case, or an empty text."""
    if not name:
        return "the folder has no case"
    files = {kind: folder / f"{name}.{kind}" for kind in ("words", "expected", "status")}
    read = {kind: file.read_bytes() for kind, file in files.items() if file.is_file()}
    for kind in ("words", "expected"):
        if kind not in read:
            return f"there is no file {name}.{kind}"
    words = read["words"].split(b"\n")
    words = words if words[-1] else words[:-1]
    wanted, status = read["expected"], read.get("status", b"0").strip()
    if not status.isdigit():
        return f"{name}.status holds no number"
    return run_difference(SDFG, words, folder, wanted, int(status))


def long_difference():
    """Returns what differs in the case that is made here, or an empty text."""
    first = list(range(ELEMENTS))
    second = [it + 1 for it in first]
    with tempfile.TemporaryDirectory() as made:
        top = Path(made) / os.fsdecode(b"\xff")
        top.mkdir()
        shutil.copy2(TOP / "sdfg", top)
        for name in ("crates", "crates.txt", "HANDLES", "tools", "release"):
            (top / name).symlink_to(TOP / name)
        shutil.copy2(TOP / "examples/inc/inc.py", top)
        arrays = "long" * 50 + ".json"
        (top / arrays).write_text(json.dumps({"N": ELEMENTS, "A": first, "B": [0] * ELEMENTS}))
        lines = (f"{name}[{ELEMENTS}] = {' '.join(map(str, it))}\n" for name, it in (("A", first), ("B", second)))
        return run_difference(top / "sdfg", ["run", "inc.py", arrays], top, "".join(lines).encode(), 0)


def run_difference(program, words, folder, wanted, status):
    """Returns what differs in a run from this output and this status, or an empty text."""
    how = {"cwd": folder, "stdin": subprocess.DEVNULL, "capture_output": True, "timeout": SECONDS}
    try:
        ran = subprocess.run([program, *words], **how)
    except subprocess.TimeoutExpired:
        return f"it had not ended after {SECONDS} seconds"
    found = []
    if ran.returncode != status:
        found.append(f"the status is {ran.returncode}, and not {status}")
    if ran.stdout != wanted:
        pairs = enumerate(zip(ran.stdout, wanted))
        at = next((i for i, (a, b) in pairs if a != b), min(len(ran.stdout), len(wanted)))
        found.append(f"standard output has at byte {at} {shown(ran.stdout[at:])}, and not {shown(wanted[at:])}")
    if ran.stderr:
        found.append(f"standard error has {shown(ran.stderr)}")
    return "; ".join(found)


def main():
    cases = []
    for folder in sorted(it for it in TOP.glob("examples/*") if it.is_dir()):
        names = {it.stem for it in folder.iterdir() if it.suffix in (".words", ".expected", ".status")}
        cases += [(folder, name) for name in sorted(names) or [""]]
    if not cases:
        print("examples/ has no case\n0 passed, 1 failed")
        return 1
    # The first run builds the program, and standard error says how far that is.
    built = subprocess.run([SDFG], stdin=subprocess.DEVNULL, stdout=subprocess.DEVNULL)
    if built.returncode == NOT_BUILT:
        print(f"the program was not built\n0 passed, {len(cases) + 1} failed")
        return 1
    failed = 0
    for folder, name in cases:
        what = difference(folder, name)
        if what:
            failed += 1
            print(f"examples/{folder.name}/{name}: {what}", flush=True)
    what = long_difference()
    if what:
        failed += 1
        print(f"{ELEMENTS} elements, below a folder whose name is not text: {what}", flush=True)
    print(f"{len(cases) + 1 - failed} passed, {failed} failed")
    return 1 if failed else 0


if __name__ == "__main__":
    sys.exit(main())
