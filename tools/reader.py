"""What the program sd_bench says of sources, for the scripts beside this one."""
import subprocess
import tempfile
from pathlib import Path

from timed_program import built

SECONDS = 300


def answer(program, text, seconds=SECONDS):
    """Returns the line that the program prints for the source of these bytes."""
    with tempfile.TemporaryDirectory() as folder:
        source = Path(folder) / "source.py"
        source.write_bytes(text)
        how = {"stdin": subprocess.DEVNULL, "capture_output": True, "timeout": seconds, "text": True}
        try:
            ran = subprocess.run([program, "parse", source, "1"], **how)
        except subprocess.TimeoutExpired:
            return f"no answer in {seconds} seconds"
        return ran.stdout.rstrip("\n") if ran.returncode == 0 else f"an end with status {ran.returncode}"


def compare(cases):
    """Reads the source of each case, a place, what is wanted there and the text, and prints a line for each that is
    answered otherwise, then 'N passed, M failed'. Returns whether there were cases and none failed."""
    program = built() if cases else None
    if not cases or program is None:
        print("there is no source" if not cases else "the reader was not built")
        print(f"0 passed, {len(cases) or 1} failed")
        return False
    failed = 0
    for place, wanted, text in cases:
        found = answer(program, text)
        if found != wanted:
            failed += 1
            print(f"{place}: the answer is '{found}', not '{wanted}'", flush=True)
    print(f"{len(cases) - failed} passed, {failed} failed")
    return failed == 0
