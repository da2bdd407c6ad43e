"""The program crates/sd_bench, which does what the scripts beside this one time or read."""
import os
import subprocess
import sys
from pathlib import Path

CRATE = Path(__file__).resolve().parent.parent / "crates/sd_bench"
BYTES = 2**20
RUNS = 5


def built():
    """Returns the program, proved and built first where it is not there, or None where that fails."""
    program = CRATE / "out/sd_bench"
    if not program.is_file():
        ran = subprocess.run(["rt", "run", "--"], cwd=CRATE, stdin=subprocess.DEVNULL, capture_output=True)
        if not program.is_file():
            sys.stderr.buffer.write(ran.stderr)
            return None
    return program


def measured(words, out=None):
    """Returns the least processor seconds of some runs, the peak in MiB, and what was printed, where it goes to no file."""
    seconds, peak, text = None, 0, b""
    for _ in range(RUNS):
        if out is not None:
            out.seek(0)
        child = subprocess.Popen(words, stdin=subprocess.DEVNULL, stdout=subprocess.PIPE if out is None else out)
        if out is None:
            text = child.stdout.read()
            child.stdout.close()
        _, status, usage = os.wait4(child.pid, 0)
        child.returncode = status
        if status != 0:
            raise SystemExit(f"{words[0]} ended with {status}")
        spent = usage.ru_utime + usage.ru_stime
        seconds = spent if seconds is None else min(seconds, spent)
        peak = max(peak, usage.ru_maxrss / 1024)
    return seconds, peak, text.decode().strip()
