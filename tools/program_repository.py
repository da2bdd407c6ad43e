"""A small repository of its own for tests of ./sdfg, where programs are scripts that print a word, and so is rt, which writes down each call."""
import hashlib
import os
import shutil
import signal
import subprocess
import tempfile
import unittest
from pathlib import Path

TOP = Path(__file__).resolve().parent.parent
PROGRAM = "crates/sdfg/out/sdfg"
KIT = "kit 1"
NOT_BUILT = 70
TOOLS = "bash cat chmod cmp cp cut find flock grep mkdir mv realpath rm sed sh sha256sum sleep sort tail xargs".split()
RT = """#!/bin/sh
[ "$1" = version ] && echo "kit 1" && exit
echo "${PWD##*/} $1" >>"$CALLS"
[ -f "$CALLS.edit" ] && echo edited >>../low/src/lib.rt
[ -f "$CALLS.builds" ] || exit 1
[ "$1" = run ] || exit 0
mkdir -p out && rm -f out/sdfg && cp "$CALLS.built" out/sdfg && chmod +x out/sdfg
echo "rt: running out/sdfg" >&2
"""


def script(word):
    """Returns a program that prints this word, and what it is given; without that its status is 2."""
    return f'#!/bin/sh\n[ $# = 0 ] && exit 2\necho {word} "$@"\n'.encode()


def interruptible():
    """Has a child take interrupts, which one started in the background ignores."""
    signal.signal(signal.SIGINT, signal.SIG_DFL)


class Repository(unittest.TestCase):
    def setUp(self):
        made = tempfile.TemporaryDirectory()
        self.addCleanup(made.cleanup)
        self.top = Path(made.name) / "top"
        self.calls = Path(made.name) / "calls"
        self.write("crates.txt", "low: list\nsdfg: low\nother: low\n")
        self.write("HANDLES", "Handles allowed: none.\n")
        for name in ("low/src/lib.rt", "low/specs/Lib.antt", "low/proofs/Lib.antt", "sdfg/src/main.rt", "other/src/lib.rt"):
            self.write(f"crates/{name}", f"text of {name}\n")
        for name in ("sdfg", "tools/program.sh", "tools/run_release.sh"):
            (self.top / name).parent.mkdir(exist_ok=True)
            shutil.copy(TOP / name, self.top / name)
        tools = Path(made.name) / "bin"
        tools.mkdir()
        (tools / "rt").write_text(RT)
        Path(f"{self.calls}.built").write_bytes(script("built"))
        (tools / "rt").chmod(0o755)
        self.environment = {**os.environ, "PATH": f"{tools}:{os.environ['PATH']}", "CALLS": str(self.calls)}
        self.environment.pop("SDFG_EXPLAINS", None)

    def write(self, name, text):
        (self.top / name).parent.mkdir(parents=True, exist_ok=True)
        (self.top / name).write_text(text)

    def put(self, word):
        """Puts a program that prints this word where rt puts the one that it builds."""
        program = self.top / PROGRAM
        program.parent.mkdir(exist_ok=True)
        program.unlink(missing_ok=True)
        program.write_bytes(script(word))
        program.chmod(0o755)

    def release(self, word="released"):
        """Puts a program into release/ that is that of the present sources."""
        self.gate(word)
        self.assertEqual(self.run_release("--make").returncode, 0)
        (self.top / PROGRAM).unlink()

    def gate(self, word="gate"):
        """Puts a program in its place as the gate does, and keeps that it was proved."""
        self.put(word)
        done = self.run_release("--proved", self.run_release("--sum").stdout.strip())
        self.assertEqual(done.returncode, 0)

    def run_release(self, *words):
        return subprocess.run([self.top / "tools/run_release.sh", *words], env=self.environment, capture_output=True, text=True)

    def tell(self, line, text):
        """Has a line of release/sources tell something else, and binds it anew."""
        file = self.top / "release/sources"
        lines = file.read_text().splitlines()
        lines[line - 1] = text
        sums = "\n".join([self.run_release("--sum").stdout.strip(), *lines[1:]]) + "\n"
        file.write_text("\n".join([hashlib.sha256(sums.encode()).hexdigest(), *lines[1:]]) + "\n")

    def set_kit(self, kit):
        self.tell(3, kit)

    def may_build(self):
        Path(f"{self.calls}.builds").touch()

    def only_tools(self):
        """Leaves the tools alone that each system has, and rt."""
        self.environment["PATH"] = str(self.calls.parent / "bin")
        for name in TOOLS:
            (self.calls.parent / "bin" / name).symlink_to(shutil.which(name))

    def sdfg(self, start=None):
        """Returns the word that the program prints, or the status where there is none, and rt's calls."""
        self.calls.write_text("")
        start = start or self.top / "sdfg"
        ran = subprocess.run([start, "a b"], cwd="/", env=self.environment, capture_output=True, text=True, timeout=60)
        self.said = ran.stderr
        calls = self.calls.read_text().splitlines()
        return (ran.stdout.removesuffix(" a b\n") if ran.returncode == 0 else ran.returncode), calls

    def taken(self):
        """The program of release/ is there, and runs."""
        self.release()
        self.assertEqual(self.sdfg(), ("released", []))

    def refused(self):
        """No program is run, and rt is asked to prove the lowest crate."""
        self.assertEqual(self.sdfg(), (NOT_BUILT, ["low lib"]))

    def edit(self, name, text="other text\n"):
        """Edits a file in its place and sets its time back."""
        path = self.top / name
        before = path.stat()
        path.write_text(text)
        os.utime(path, ns=(before.st_atime_ns, before.st_mtime_ns))
