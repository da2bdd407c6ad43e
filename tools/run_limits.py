#!/usr/bin/env python3
"""Runs calls at the limits of the language and of its files, and compares what is written with what Python works out.

limit_cases.py, limit_chains.py, limit_sources.py, limit_counts.py and limit_shapes.py have the calls.

Each call runs in a new folder, with no input, within 120 seconds. Its status and its output are compared byte for byte, and how the
output is written: each line is one write, and one of more than 4,096 bytes goes in pieces of 4,096. Where the system has no pipes that
keep writes apart, a line says so, and bytes alone are compared. Standard error must be empty. Each call that differs has a line, and
the last line is 'N passed, M failed'. The status is 0 where there are calls and none failed.

With --times each call has a line with its seconds. A word more picks the calls in whose place it stands.
"""
from __future__ import annotations

import argparse
import os
import subprocess
import sys
import tempfile
import time
from concurrent.futures import ThreadPoolExecutor
from pathlib import Path
from threading import Timer

import limit_cases  # noqa: F401
import limit_chains  # noqa: F401
import limit_counts  # noqa: F401
import limit_shapes  # noqa: F401
import limit_sources  # noqa: F401
from limit_calls import CASES, Call

TOP = Path(__file__).resolve().parent.parent
SDFG = TOP / "sdfg"
PROGRAM = TOP / "crates/sdfg/out/sdfg"
NOT_BUILT = 70
SECONDS = 120
PIECE = 4096
SHOWN = 80
# Starts a program with at most so many KiB of addresses and so many seconds of a processor.
WITHIN = 'ulimit -v "$1" && ulimit -t "$2" && shift 2 && exec "$@"'
NO_LIMIT = "unlimited"


def has_packets() -> bool:
    """Tells whether the system has pipes that keep writes apart."""
    try:
        ends = os.pipe2(os.O_DIRECT)
    except (AttributeError, OSError):
        return False
    for end in ends:
        os.close(end)
    return True


PACKETS = has_packets()


def pieces(text: bytes) -> list[bytes]:
    """Returns the writes that a text is to come in."""
    lines = text.split(b"\n")
    ended = [line + b"\n" for line in lines[:-1]] + [it for it in lines[-1:] if it]
    return [line[at : at + PIECE] for line in ended for at in range(0, len(line), PIECE)]


def writes(reader: int) -> list[bytes]:
    """Returns what each write into a pipe was, to its end."""
    found = []
    while packet := os.read(reader, 2**16):
        found.append(packet)
    return found if PACKETS else pieces(b"".join(found))


def difference(call: Call, program: Path = PROGRAM) -> str:
    """Runs a call, and returns what differs, or an empty text."""
    with tempfile.TemporaryDirectory() as folder:
        for name, content in call.files.items():
            file = Path(folder) / name
            file.parent.mkdir(parents=True, exist_ok=True)
            file.write_bytes(content)
        words = [str(program), *call.words]
        if call.megabytes or call.processor:
            limits = [str(call.megabytes * 1024 or NO_LIMIT), str(call.processor or NO_LIMIT)]
            words = ["/bin/sh", "-c", WITHIN, "sh", *limits, *words]
        reader, writer = os.pipe2(os.O_CLOEXEC | (os.O_DIRECT if PACKETS else 0))
        how = {"cwd": folder, "stdin": subprocess.DEVNULL, "stdout": writer, "stderr": subprocess.PIPE}
        with subprocess.Popen(words, **how) as child, open(reader, "rb", buffering=0):
            os.close(writer)
            timer = Timer(call.seconds or SECONDS, child.kill)
            timer.start()
            found = writes(reader)
            error = child.stderr.read()
            child.wait()
            timer.cancel()
    return told(call, child.returncode, found, error)


def told(call: Call, status: int, found: list[bytes], error: bytes) -> str:
    """Returns what a call did otherwise than it should."""
    lines = [] if status == call.status else [f"the status is {status}, and not {call.status}"]
    wanted = pieces(call.printed)
    if b"".join(found) != call.printed:
        text = b"".join(found)
        at = next((at for at, (one, other) in enumerate(zip(text, call.printed)) if one != other), min(len(text), len(call.printed)))
        lines.append(f"at byte {at} stands {text[at : at + SHOWN]!r}, and not {call.printed[at : at + SHOWN]!r}")
    elif found != wanted:
        at = next(at for at, (one, other) in enumerate(zip(found, wanted)) if one != other)
        lines.append(f"write {at} has {len(found[at])} bytes, and not {len(wanted[at])}")
    if error:
        lines.append(f"standard error has {error[:SHOWN]!r}")
    return "; ".join(lines)


def main() -> int:
    words = argparse.ArgumentParser(description=__doc__, formatter_class=argparse.RawDescriptionHelpFormatter)
    words.add_argument("--times", action="store_true", help="show how long each call took")
    words.add_argument("words", nargs="*", metavar="WORD", help="run the calls in whose place each of these stands")
    words = words.parse_args()
    # The first run builds the program, and standard error says how far that is.
    if subprocess.run([SDFG], stdin=subprocess.DEVNULL, stdout=subprocess.DEVNULL).returncode == NOT_BUILT:
        print("the program was not built\n0 passed, 1 failed")
        return 1
    if not PACKETS:
        print("this system has no pipes that keep writes apart: how lines are written is not compared")
    counts = [0, 0]

    def run(case) -> None:
        for call in case():
            if all(word in call.place for word in words.words):
                begin = time.monotonic()
                what = difference(call)
                counts[bool(what)] += 1
                if what or words.times:
                    print(f"{call.place}: {what or f'{time.monotonic() - begin:.2f} s'}", flush=True)

    with ThreadPoolExecutor(os.cpu_count()) as workers:
        for _ in workers.map(run, CASES):
            pass
    passed, failed = counts if any(counts) else (0, 1)
    print(f"{passed} passed, {failed} failed")
    return 1 if failed else 0


if __name__ == "__main__":
    sys.exit(main())
