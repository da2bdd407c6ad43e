#!/usr/bin/env python3
"""Tests of the records of edits: their sums, their files, their counts, and tries with a prover that is only played."""
from __future__ import annotations

import argparse
import contextlib
import io
import os
import sys
import tempfile
import unittest
from pathlib import Path
from unittest import mock

sys.path.insert(0, str(Path(__file__).resolve().parent))

import edit_records  # noqa: E402
import run_edits  # noqa: E402
from edit_records import FURTHER, GATE, Sources  # noqa: E402

# It shows, of each edit in its folder, the verdict that stands in the edit's last line; it has no edit that is to be left out.
PLAYED = """#!/usr/bin/env python3
import sys
from pathlib import Path
assert sys.argv[1] == "ci" and Path(".git").is_dir() and not list(Path("crates").glob("*/further-edits"))
with open(sys.argv[0] + ".log", "a") as log:
    log.write(" ".join(sys.argv[2:]) + "\\n")
for file in sorted(Path("crates").glob("*/must-fail/*.edit")):
    said = file.read_text().splitlines()[-1]
    if said and said != "killed":
        print(f"rt: must-fail {file.parent.parent.name}/{file.name}: {said}")
    if said == "killed":
        sys.exit(9)
print("0 passed, 0 failed")
"""


class OfEdits(unittest.TestCase):
    """Has a repository of three crates, each of which stands on the one before."""

    def setUp(self) -> None:
        folder = tempfile.TemporaryDirectory()
        self.addCleanup(folder.cleanup)
        self.top = Path(folder.name) / "repository"
        self.write("crates.txt", "# The lowest first.\n\nlow:\nmiddle: low thiserror\nhigh: middle\n")
        self.write("HANDLES", "Handles allowed: none.\n")
        for name in ("low", "middle", "high"):
            self.write(f"crates/{name}/src/lib.rt", f"{name}\n")
            self.write(f"crates/{name}/out/built", "built\n")

    def write(self, path: str, text: str) -> None:
        (self.top / path).parent.mkdir(parents=True, exist_ok=True)
        (self.top / path).write_text(text)

    def edit(self, path: str, said: str = "") -> None:
        """Writes an edit of a crate's only source, with what the played prover says of it."""
        name = path.partition("/")[0]
        self.write(f"crates/{path}.edit", f"file: src/lib.rt\nold: {name}\nnew: other\n{said}\n")

    def sum(self, name: str = "middle") -> str:
        return Sources(self.top).edit(name, b"file: src/lib.rt\n")


class Sums(OfEdits):
    def test_what_a_verdict_rests_on_changes_the_sum(self) -> None:
        changes = {
            "crates/low/src/lib.rt": "changed\n",
            "crates/low/proofs/Lib.antt": "new\n",
            "crates/middle/src/lib.rt": "changed\n",
            "crates/middle/specs/deep/er.antt": "new\n",
            "HANDLES": "Handles allowed: Wait.\n",
            "crates.txt": "low: indexmap\nmiddle: low thiserror\nhigh: middle\n",
        }
        sums = [self.sum()]
        for path, text in changes.items():
            with self.subTest(path):
                self.write(path, text)
                self.assertNotIn(self.sum(), sums)
                sums.append(self.sum())

    def test_what_is_above_or_beside_leaves_the_sum(self) -> None:
        before = self.sum()
        self.write("crates/high/src/lib.rt", "changed\n")
        self.write("crates/low/must-fail/an_edit.edit", "changed\n")
        self.write("crates/middle/out/built", "changed\n")
        self.write("crates.txt", "low:\nmiddle: low thiserror\nbeside: low\nhigh: middle low\n")
        self.assertEqual(self.sum(), before)

    def test_a_moved_file_and_another_edit_change_the_sum(self) -> None:
        before, sources = self.sum(), Sources(self.top)
        self.assertNotEqual(sources.edit("middle", b"file: src/main.rt\n"), before)
        (self.top / "crates/low/src/lib.rt").rename(self.top / "crates/low/src/main.rt")
        self.assertNotEqual(self.sum(), before)

    def test_each_file_is_read_once(self) -> None:
        sources = Sources(self.top)
        with mock.patch.object(Path, "read_bytes", autospec=True, side_effect=Path.read_bytes) as read:
            for name in ("high", "middle", "low", "high"):
                sources.edit(name, b"")
        self.assertEqual(read.call_count, 3)


class Records(OfEdits):
    def test_records_are_written_sorted_and_read(self) -> None:
        self.edit("low/further-edits/b")
        self.edit("low/must-fail/a")
        given = {"b": ("0" * 16, "src/lib.rt:1:2: error: a ⊤ b"), "gone": ("1" * 16, "it went"), "a": ("2" * 16, "(no message)")}
        edit_records.write_records(self.top, "low", given)
        text = (self.top / "crates/low/further-edits/refused.txt").read_text(encoding="utf-8")
        self.assertEqual(text, f"a {'2' * 16} (no message)\nb {'0' * 16} src/lib.rt:1:2: error: a ⊤ b\n")
        self.assertEqual(edit_records.records_of(self.top, "low"), {"a": given["a"], "b": given["b"]})

    def test_what_is_no_record_is_told(self) -> None:
        for text in ("a 12 short\n", f"a {'0' * 16} one\na {'0' * 16} two\n", f"a {'0' * 16}\n"):
            with self.subTest(text):
                self.write("crates/low/further-edits/refused.txt", text)
                with self.assertRaises(ValueError):
                    edit_records.records_of(self.top, "low")

    def test_a_message_is_one_short_line_without_a_temporary_folder(self) -> None:
        said = f"note: {tempfile.gettempdir()}/rt-edit-7-x/src/lib.rt:1:2:\n it  holds"
        self.assertEqual(edit_records.message(said), "note: src/lib.rt:1:2: it holds")
        self.assertEqual(len(edit_records.message("word " * 100)), 159)
        self.assertEqual(edit_records.message(""), "(no message)")

    def test_a_change_below_makes_records_stale(self) -> None:
        for path in ("low/further-edits/a", "middle/further-edits/a", "middle/further-edits/b", "middle/must-fail/c"):
            self.edit(path)
        for name in ("low", "middle"):
            text = (self.top / f"crates/{name}/further-edits/a.edit").read_bytes()
            edit_records.write_records(self.top, name, {"a": (Sources(self.top).edit(name, text), "said")})
        self.assertEqual(edit_records.count(Sources(self.top)), {"present": 2, "never": 1})
        self.write("crates/middle/src/lib.rt", "middle, changed\n")
        self.assertEqual(edit_records.count(Sources(self.top)), {"present": 1, "stale": 1, "never": 1})
        self.write("crates/low/src/lib.rt", "low, changed\n")
        self.assertEqual(edit_records.count(Sources(self.top)), {"stale": 2, "never": 1})


class Looks(OfEdits):
    def look(self) -> tuple[int, int]:
        with contextlib.redirect_stdout(io.StringIO()):
            return run_edits.look(self.top)

    def test_edits_that_can_be_applied_pass(self) -> None:
        self.edit("low/must-fail/a")
        self.edit("low/further-edits/b")
        self.write("crates/low/further-edits/refused.txt", f"b {'0' * 16} stale\n")
        self.assertEqual(self.look(), (2, 0))

    def test_what_is_wrong_fails(self) -> None:
        self.edit("low/must-fail/a")
        self.edit("low/further-edits/a")
        self.write("crates/middle/further-edits/c.edit", "file: src/lib.rt\nold: not there\nnew: other\n")
        self.write("crates/middle/further-edits/refused.txt", f"gone {'0' * 16} said\n")
        self.write("crates/high/further-edits/refused.txt", "no record\n")
        self.assertEqual(self.look(), (0, 5))


@mock.patch.dict(os.environ)
class Tries(OfEdits):
    def setUp(self) -> None:
        super().setUp()
        self.rt = self.top.parent / "bin" / "rt"
        self.rt.parent.mkdir()
        self.rt.write_text(PLAYED)
        self.rt.chmod(0o755)
        os.environ["PATH"] = f"{self.rt.parent}{os.pathsep}{os.environ['PATH']}"

    def attempt(self, *names: str, **words: object) -> tuple[int, int]:
        """Tries edits, and notes the runs of the prover and the output."""
        log, shown = Path(f"{self.rt}.log"), io.StringIO()
        log.write_text("")
        given = {"minutes": None, "must_fail": False, "all": False, "together": 2, **words}
        with contextlib.redirect_stdout(shown):
            counts = run_edits.attempt(self.top, argparse.Namespace(names=list(names), **given))
        self.runs, self.shown = log.read_text().splitlines(), shown.getvalue()
        return counts

    def records(self, name: str) -> dict[str, str]:
        return {edit: said for edit, (_, said) in edit_records.records_of(self.top, name).items()}

    def test_refused_edits_are_recorded_and_not_tried_again(self) -> None:
        self.edit("low/further-edits/a", "refused, as it must be: src/lib.rt:1:2: error: no")
        self.edit("low/further-edits/b", "refused, as it must be (only because a proof file names it: change a value): proofs/Lib.antt:1")
        self.edit("high/further-edits/c", "refused, as it must be (only by a limit of the prover: choose another): out of steps")
        self.edit("high/further-edits/d", "refused, as it must be")
        self.assertEqual(self.attempt(), (4, 0))
        self.assertEqual(self.runs, ["low high"])
        self.assertEqual(self.records("low"), {"a": "src/lib.rt:1:2: error: no", "b": "(only a proof's names) proofs/Lib.antt:1"})
        self.assertEqual(self.records("high"), {"c": "(only by a limit) out of steps", "d": "(no message)"})
        self.assertEqual(edit_records.count(Sources(self.top)), {"present": 4})
        self.assertEqual((self.attempt("all"), self.runs), ((0, 0), []))
        self.write("crates/high/src/lib.rt", "high, changed\n")
        self.assertEqual((self.attempt(), self.runs), ((2, 0), ["high"]))

    def test_what_is_not_refused_is_told_and_not_recorded(self) -> None:
        sayings = {"a": "NOT REFUSED: the crate is still proved", "b": "BAD EDIT: it changes nothing", "c": "NOT TRIED: killed", "d": ""}
        for name, said in sayings.items():
            self.edit(f"low/further-edits/{name}", said)
        edit_records.write_records(self.top, "low", dict.fromkeys("abcd", ("0" * 16, "stale")))
        self.assertEqual(self.attempt("low"), (0, 4))
        self.assertEqual(self.records("low"), {"c": "stale", "d": "stale"})
        for line in ("low/a: NOT REFUSED", "low/b: BAD EDIT", "low/c: NOT TRIED", "low/d: NOT TRIED"):
            self.assertIn(line + "\n", self.shown)

    def test_a_run_that_ends_early_is_told(self) -> None:
        self.edit("low/further-edits/a", "refused, as it must be: one")
        self.edit("low/further-edits/b", "killed")
        self.assertEqual((self.attempt("low"), self.records("low")), ((1, 1), {"a": "one"}))
        self.assertIn("rt ci ended with status 9 before it was done: try these again\nlow/b: NOT TRIED\n", self.shown)
        self.edit("high/further-edits/c", "killed")
        self.assertEqual((self.attempt("high"), (self.top / "crates/high/further-edits/refused.txt").exists()), ((0, 1), False))

    def test_edits_of_the_gate_are_tried_where_asked_for(self) -> None:
        self.edit("low/must-fail/a", "refused, as it must be: by the gate's")
        self.edit("low/further-edits/b", "refused, as it must be: by the other")
        self.assertEqual((self.attempt("low"), self.records("low")), ((1, 0), {"b": "by the other"}))
        self.assertEqual((self.attempt("low", must_fail=True), self.records("low")), ((1, 0), {"a": "by the gate's", "b": "by the other"}))
        self.assertEqual(self.attempt("low", all=True), (2, 0))
        (self.top / "crates/low/must-fail/a.edit").rename(self.top / "crates/low/further-edits/a.edit")
        self.assertEqual(edit_records.count(Sources(self.top)), {"present": 2})

    def test_no_crate_is_begun_after_the_minutes(self) -> None:
        self.edit("low/further-edits/a", "refused, as it must be: one")
        self.edit("high/further-edits/b", "refused, as it must be: two")
        self.assertEqual((self.attempt(minutes=0), self.runs), ((0, 0), []))
        self.assertIn("left for the next call: 2 edits of 2 crates, from low on\n", self.shown)
        with mock.patch.object(run_edits.time, "monotonic", side_effect=[0, 59, 61]):
            self.assertEqual((self.attempt(minutes=1, together=1), self.runs), ((1, 0), ["low"]))
        self.assertIn("left for the next call: 1 edits of 1 crates, from high on\n", self.shown)

    def test_a_name_of_two_edits_and_a_crate_that_is_not_there_are_told(self) -> None:
        self.edit(f"low/{GATE}/a")
        self.edit(f"low/{FURTHER}/a")
        for names, words in ((["low"], {"all": True}), (["nowhere"], {})):
            with self.subTest(names), self.assertRaises(ValueError):
                self.attempt(*names, **words)


if __name__ == "__main__":
    unittest.main()
