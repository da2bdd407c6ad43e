#!/usr/bin/env python3
"""Runs each program of examples/ a hundred times by four workers, and compares what each run writes, byte for byte.

These are the cases of examples/ (tools/run_examples.py tells their files) that are a `run` and say nothing of workers. What is wanted is
what one worker writes. Twice as many calls as there are processors are made side by side, so the system sets workers aside in each of
them somewhere else. Each case that differs has a line, and the last line is 'N passed, M failed'.
"""
import os
import subprocess
import sys
from collections.abc import Iterator
from concurrent.futures import ThreadPoolExecutor
from pathlib import Path

from run_examples import NOT_BUILT, SDFG, TOP, run_difference

# What ./sdfg runs; called by itself, it starts sooner.
PROGRAM = TOP / "crates/sdfg/out/sdfg"
TIMES = 100
WORKERS = "4"


def runs() -> Iterator[tuple[Path, list[str]]]:
    """The runs of the examples, each with the file of its words."""
    for file in sorted(TOP.glob("examples/*/*.words")):
        words = os.fsdecode(file.read_bytes()).split("\n")
        if words[0] == "run" and not any(word.startswith("--workers") or word == "--" for word in words):
            yield file, [word for word in words if word]


def difference(file: Path, words: list[str], pool: ThreadPoolExecutor) -> str:
    """What the first run that differs writes otherwise, or an empty text."""
    status = file.with_suffix(".status")
    wanted = int(status.read_text()) if status.is_file() else 0
    text = file.with_suffix(".expected").read_bytes()
    calls = [pool.submit(run_difference, PROGRAM, [*words, "--workers", WORKERS], file.parent, text, wanted) for _ in range(TIMES)]
    return next(filter(None, (call.result() for call in calls)), "")


def main() -> int:
    if subprocess.run([SDFG], stdin=subprocess.DEVNULL, stdout=subprocess.DEVNULL).returncode == NOT_BUILT:
        print("the program was not built\n0 passed, 1 failed")
        return 1
    passed = failed = 0
    with ThreadPoolExecutor(2 * (os.cpu_count() or 1)) as pool:
        for file, words in runs():
            what = difference(file, words, pool)
            passed, failed = passed + (not what), failed + bool(what)
            if what:
                print(f"examples/{file.parent.name}/{file.stem} by {WORKERS} workers: {what}", flush=True)
    # Without a case nothing was shown.
    failed += not passed and not failed
    print(f"{passed} passed, {failed} failed")
    return 1 if failed else 0


if __name__ == "__main__":
    sys.exit(main())
