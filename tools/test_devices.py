"""Tests of the program's own devices: the files that it reads, and standard output, which may fail or take a part of a write."""
import os
import resource
import signal
import subprocess
import tempfile
import unittest
from pathlib import Path

TOP = Path(__file__).resolve().parent.parent
PROGRAM = TOP / "crates" / "sdfg" / "out" / "sdfg"

SOURCE = """N = dace.symbol('N')
@dace.program
def f(A: dace.int64[N]):
    for i in dace.map[0:N]:
        A[i] = A[i] + 1
"""
MOST_OF_A_SOURCE = 2**20
NUMBERS = 30_000


class Devices(unittest.TestCase):
    """Calls of the program in a folder of its own."""

    @classmethod
    def setUpClass(cls):
        if not PROGRAM.exists():
            subprocess.run([TOP / "sdfg"], stdout=subprocess.DEVNULL, check=False)

    def setUp(self):
        room = tempfile.TemporaryDirectory()
        self.addCleanup(room.cleanup)
        self.folder = Path(room.name)
        self.put("a.py", SOURCE)
        self.put("a.json", '{"N":2,"A":[4,5]}')
        self.put("long.json", '{"N":%d,"A":[%s]}' % (NUMBERS, ",".join(map(str, range(NUMBERS)))))
        (self.folder / "folder").mkdir()

    def put(self, name, text):
        """Writes a file into the folder of the calls."""
        (self.folder / name).write_text(text)

    def call(self, *words, out=subprocess.PIPE):
        """Calls the program, and returns its status and what it wrote."""
        ran = subprocess.run([PROGRAM, *words], cwd=self.folder, stdout=out, stderr=subprocess.PIPE, timeout=60)
        self.assertEqual(ran.stderr, b"")
        return ran.returncode, ran.stdout

    def test_a_file_is_read_whole_to_its_limit(self):
        self.put("a.py", SOURCE.ljust(MOST_OF_A_SOURCE, "\n"))
        self.assertEqual(self.call("run", "a.py", "a.json"), (0, b"A[2] = 5 6\n"))
        self.put("a.py", SOURCE.ljust(MOST_OF_A_SOURCE + 1, "\n"))
        self.assertEqual(self.call("run", "a.py", "a.json"), (11, b"too long a.py\n"))

    def test_what_is_no_file_is_a_read_fault(self):
        for words, name in ((("none", "a.json"), b"none"), (("folder", "a.json"), b"folder"), (("a.py", "folder"), b"folder")):
            with self.subTest(words):
                self.assertEqual(self.call("run", *words), (9, b"read fault " + name + b"\n"))

    def test_a_file_that_may_not_be_read_is_a_read_fault(self):
        (self.folder / "a.py").unlink()
        os.symlink("a.py", self.folder / "a.py")
        self.assertEqual(self.call("run", "a.py", "a.json"), (9, b"read fault a.py\n"))

    def test_output_that_fails_has_its_status(self):
        with open("/dev/full", "wb") as full:
            self.assertEqual(self.call("run", "a.py", "a.json", out=full)[0], 10)

    def test_output_that_is_read_slowly_is_whole(self):
        words = [PROGRAM, "run", "a.py", "long.json"]
        with subprocess.Popen(words, cwd=self.folder, stdout=subprocess.PIPE, bufsize=0) as ran:
            pieces = list(iter(lambda: ran.stdout.read(977), b""))
        line = f"A[{NUMBERS}] = {' '.join(str(it + 1) for it in range(NUMBERS))}\n"
        self.assertEqual((ran.returncode, b"".join(pieces)), (0, line.encode()))

    def test_output_that_takes_a_part_of_a_write_has_a_prefix(self):
        """A file that may have 5,000 bytes takes a part of the second write, and then nothing."""
        text = self.call("run", "a.py", "long.json")[1]

        def limit():
            signal.signal(signal.SIGXFSZ, signal.SIG_IGN)
            resource.setrlimit(resource.RLIMIT_FSIZE, (5_000, 5_000))

        with open(self.folder / "out", "wb") as out:
            words = [PROGRAM, "run", "a.py", "long.json"]
            ran = subprocess.run(words, cwd=self.folder, stdout=out, timeout=60, preexec_fn=limit)
        self.assertEqual((ran.returncode, (self.folder / "out").read_bytes()), (10, text[:5_000]))

    def test_output_that_takes_no_more_has_a_prefix(self):
        """A pipe that does not wait takes whole writes until it is full, and then fails: what it took is the text's beginning."""
        text = self.call("run", "a.py", "long.json")[1]
        end, out = os.pipe()
        os.set_blocking(out, False)
        status, _ = self.call("run", "a.py", "long.json", out=out)
        os.close(out)
        with os.fdopen(end, "rb") as it:
            taken = it.read()
        self.assertEqual(status, 10)
        self.assertTrue(0 < len(taken) < len(text))
        self.assertEqual(taken, text[: len(taken)])


if __name__ == "__main__":
    unittest.main()
