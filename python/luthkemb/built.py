"""Whether the program that a repository has built is that of its sources, told by the list that `./sdfg` keeps beside it.

`./sdfg` looks at each call, which takes longer than a short run. A process that calls often looks once a second.
"""
from __future__ import annotations

import os
import time
from pathlib import Path
from typing import Iterator

PROGRAM = "crates/sdfg/out/sdfg"
SEEN = f"{PROGRAM}.seen"
OTHERS = ("crates.txt", "HANDLES", PROGRAM)
SECONDS = 1.0
_told: dict[Path, float] = {}
"""When the program of a repository was last told to be that of its sources."""


def built_program(top: Path) -> str:
    """Gives the path of the program that this repository has built of its present sources, or none."""
    now = time.monotonic()
    if top not in _told or now - _told[top] > SECONDS:
        _told.pop(top, None)
        if not _is_built(top):
            return ""
        _told[top] = now
    program = top / PROGRAM
    return str(program) if os.access(program, os.X_OK) else ""


def _is_built(top: Path) -> bool:
    """Tells whether the list beside the program shows each of its sources as it is now."""
    try:
        _, folders, *seen = (top / SEEN).read_text(encoding="ascii").splitlines()
        return sorted(seen) == sorted(_look(top, [*folders.split(), *OTHERS]))
    except (OSError, ValueError):
        return False


def _look(top: Path, names: list[str]) -> Iterator[str]:
    """Gives the number and the time of the last change of each file and folder, as `find` prints them for `./sdfg`."""
    folders = []
    for path in (top / name for name in names):
        if path.exists():
            yield _shown(path.stat())
            folders += [path] if path.is_dir() else []
    while folders:
        with os.scandir(folders.pop()) as entries:
            for it in entries:
                yield _shown(it.stat(follow_symlinks=False))
                if it.is_dir(follow_symlinks=False):
                    folders.append(Path(it.path))


def _shown(status: os.stat_result) -> str:
    seconds, rest = divmod(status.st_ctime_ns, 10**9)
    return f"{status.st_ino} {seconds}.{rest:09d}0"
