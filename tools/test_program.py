"""Unit tests of ./sdfg: which program it runs, as its sources and release/ change. They prove and build nothing."""
import hashlib
import lzma
import os
import shutil
import subprocess
import sys
import unittest
from pathlib import Path

sys.path.insert(0, str(Path(__file__).resolve().parent))

from program_repository import KIT, NOT_BUILT, PROGRAM, Repository, script  # noqa: E402


class Programs(Repository):
    def test_it_is_taken_from_release_once(self):
        self.taken()
        (self.top / "release/sdfg.xz").unlink()
        self.assertEqual(self.sdfg(), ("released", []))

    def test_it_is_built_where_release_has_none(self):
        self.may_build()
        self.assertEqual(self.sdfg(), ("built", ["low lib", "sdfg run"]))
        self.assertEqual(self.sdfg(), ("built", []))

    def test_it_is_found_from_everywhere(self):
        self.taken()
        link = self.top.parent / "link"
        link.symlink_to(self.top / "sdfg")
        self.assertEqual(self.sdfg(link), ("released", []))
        ran = subprocess.run(["bash", "sdfg", "a"], cwd=self.top, env=self.environment, capture_output=True, text=True)
        self.assertEqual((ran.stdout, ran.returncode), ("released a\n", 0))

    def test_an_edit_of_each_source_is_seen(self):
        for name in ("crates/low/src/lib.rt", "crates/low/specs/Lib.antt", "crates/sdfg/src/main.rt", "crates.txt", "HANDLES"):
            with self.subTest(name):
                self.taken()
                old = (self.top / name).read_text()
                self.edit(name, old.replace("low", "lo2") + "more\n" if name == "crates.txt" else old.upper())
                self.refused() if name != "crates.txt" else self.assertEqual(self.sdfg()[0], NOT_BUILT)
                (self.top / name).write_text(old)
                self.assertEqual(self.sdfg(), ("released", []))

    def test_an_edited_source_is_built_anew(self):
        self.taken()
        self.edit("crates/low/src/lib.rt")
        self.may_build()
        self.assertEqual(self.sdfg(), ("built", ["low lib", "sdfg run"]))
        self.assertEqual(self.sdfg(), ("built", []))

    def test_a_removed_file_is_seen(self):
        self.write("crates/low/specs/more/Text.antt", "text\n")
        self.taken()
        (self.top / "crates/low/specs/more/Text.antt").unlink()
        self.refused()

    def test_a_removed_folder_is_seen(self):
        self.taken()
        shutil.rmtree(self.top / "crates/low/specs")
        self.refused()

    def test_an_added_file_is_seen(self):
        self.taken()
        self.write("crates/low/src/more.rt", "text\n")
        os.utime(self.top / "crates/low/src/more.rt", (1, 1))
        os.utime(self.top / "crates/low/src", (1, 1))
        self.refused()

    def test_an_added_folder_is_seen(self):
        self.taken()
        self.write("crates/sdfg/specs/Lib.antt", "text\n")
        self.refused()

    def test_a_source_put_in_the_place_of_another_is_seen(self):
        other = self.top.parent / "other"
        other.write_text("other text\n")
        os.utime(other, (1, 1))
        self.taken()
        os.replace(other, self.top / "crates/low/src/lib.rt")
        self.refused()

    def test_without_a_list_of_files_nothing_is_taken_for_seen(self):
        find = self.calls.parent / "bin/find"
        find.write_text("#!/bin/sh\nexit 1\n")
        find.chmod(0o755)
        self.put("other")
        self.refused()
        find.unlink()
        self.release()
        find.write_text('#!/bin/sh\ncase "$*" in *printf*) exit 1 ;; esac\nexec /usr/bin/find "$@"\n')
        find.chmod(0o755)
        self.assertEqual(self.sdfg(), ("released", []))
        self.edit("crates/low/src/lib.rt")
        self.refused()

    def test_a_touched_source_is_the_same(self):
        self.may_build()
        self.sdfg()
        os.utime(self.top / "crates/low/src/lib.rt")
        self.assertEqual(self.sdfg(), ("built", []))
        self.assertEqual(self.sdfg(), ("built", []))

    def test_other_crates_and_proofs_change_no_program(self):
        self.taken()
        self.edit("crates/other/src/lib.rt")
        self.edit("crates/low/proofs/Lib.antt")
        self.assertEqual(self.sdfg(), ("released", []))

    def test_other_proofs_take_no_program_from_release(self):
        self.release()
        self.edit("crates/low/proofs/Lib.antt")
        self.refused()

    def test_a_changed_release_is_refused(self):
        self.release()
        (self.top / "release/sdfg.xz").write_bytes(lzma.compress(script("changed")))
        self.refused()
        self.assertIn("does not hold the program", self.said)
        self.assertFalse((self.top / PROGRAM).exists())

    def test_a_broken_release_is_refused(self):
        self.release()
        packed = self.top / "release/sdfg.xz"
        packed.write_bytes(packed.read_bytes()[:-40])
        self.refused()

    def test_a_release_without_its_sums_is_refused(self):
        for lines in (0, 1, 2):
            with self.subTest(lines):
                self.release()
                sums = self.top / "release/sources"
                sums.write_text("".join(sums.read_text().splitlines(True)[:lines]))
                self.refused()

    def test_what_the_gate_has_built_is_run(self):
        self.put("gate")
        self.assertEqual(self.sdfg(), ("gate", []))
        self.edit("crates/low/src/lib.rt")
        self.refused()

    def test_where_release_has_the_program_no_other_one_of_this_kit_is_run(self):
        self.taken()
        self.put("other")
        self.assertEqual(self.sdfg(), ("released", []))
        self.put("other")
        self.set_kit("kit 2")
        self.assertEqual(self.sdfg(), ("other", []))

    def test_without_rt_what_is_there_is_not_taken_for_built(self):
        self.only_tools()
        (self.calls.parent / "bin/rt").unlink()
        self.put("other")
        self.assertEqual(self.sdfg(), (NOT_BUILT, []))
        self.assertIn("no rt that builds one", self.said)

    def test_a_program_that_does_not_start_is_not_taken(self):
        self.release()
        for text in (b"no program", b"#!/bin/sh\nexit 127\n", b"#!/none\n"):
            with self.subTest(text):
                (self.top / "release/sdfg.xz").write_bytes(lzma.compress(text))
                self.tell(2, hashlib.sha256(text).hexdigest())
                self.refused()
                self.assertIn("does not start on this machine", self.said)
                self.assertFalse(list((self.top / PROGRAM).parent.glob("sdfg*new")))

    def test_a_release_is_unpacked_without_xz(self):
        self.release()
        self.only_tools()
        self.assertEqual(self.sdfg(), (NOT_BUILT, ["low lib"]))
        self.assertIn("cannot be unpacked", self.said)
        (self.calls.parent / "bin/python3").symlink_to(sys.executable)
        self.assertEqual(self.sdfg(), ("released", []))

    def test_an_option_of_a_crate_is_seen(self):
        crates = (self.top / "crates.txt").read_text()
        for edited in ("sdfg opt_level=0: low", "sdfg: low opt_level=0"):
            with self.subTest(edited):
                self.release()
                self.edit("crates.txt", crates.replace("sdfg: low", edited))
                self.assertEqual(self.sdfg()[0], NOT_BUILT)
                self.write("crates.txt", crates)

    def test_an_edit_that_is_older_than_the_program_is_seen(self):
        self.may_build()
        self.sdfg()
        self.write("crates/low/src/lib.rt", "text of an older day\n")
        os.utime(self.top / "crates/low/src/lib.rt", (1, 1))
        self.assertEqual(self.sdfg(), ("built", ["low lib", "sdfg run"]))

    def test_an_older_program_is_not_run(self):
        self.put("older")
        os.utime(self.top / PROGRAM, (1, 1))
        self.refused()

    def test_what_a_build_leaves_that_was_cut_off_is_not_run(self):
        self.refused()
        self.put("half")
        self.refused()

    def test_an_edit_during_the_build_is_seen(self):
        self.may_build()
        edit = Path(f"{self.calls}.edit")
        edit.touch()
        self.assertEqual(self.sdfg()[0], NOT_BUILT)
        self.assertIn("edited during the build", self.said)
        edit.unlink()
        self.assertEqual(self.sdfg(), ("built", ["low lib", "sdfg run"]))


class Releases(Repository):
    def compared(self):
        """Returns the last line of a comparison, and its status."""
        done = self.run_release()
        return done.stdout.splitlines()[-1], done.returncode

    def test_release_is_compared_where_this_kit_built_it(self):
        self.release()
        self.put("released")
        self.assertEqual(self.run_release().stdout, "1 passed, 0 failed\n")
        sums = (self.top / "release/sources").read_text().splitlines()
        self.assertEqual(sums[1:], [hashlib.sha256(script("released")).hexdigest(), KIT])
        self.put("other")
        self.assertEqual(self.compared(), ("0 passed, 1 failed", 1))

    def test_another_kit_is_told_and_fails_nothing(self):
        self.release()
        self.put("other")
        self.set_kit("kit 2")
        done = self.run_release()
        self.assertEqual(done.stdout, "release/ has the program that another kit has built: kit 2\n0 passed, 0 failed\n")
        self.assertEqual(done.returncode, 0)

    def test_a_sum_of_other_sources_is_told_and_fails_nothing(self):
        self.release()
        self.edit("crates/low/proofs/Lib.antt")
        self.assertEqual(self.compared(), ("0 passed, 0 failed", 0))

    def test_another_program_beside_a_sum_fails_with_each_sum(self):
        self.release()
        (self.top / "release/sdfg.xz").write_bytes(lzma.compress(script("other")))
        self.assertEqual(self.compared(), ("0 passed, 1 failed", 1))
        self.set_kit("kit 2")
        self.assertEqual(self.compared(), ("0 passed, 1 failed", 1))
        self.edit("crates/low/src/lib.rt")
        self.assertEqual(self.compared(), ("0 passed, 1 failed", 1))

    def test_a_line_of_the_sums_alone_cannot_be_changed(self):
        self.release()
        sums = (self.top / "release/sources").read_text().splitlines()
        for line, text in ((0, "0" * 64), (1, hashlib.sha256(script("other")).hexdigest()), (2, "kit 2")):
            with self.subTest(line):
                (self.top / "release/sdfg.xz").write_bytes(lzma.compress(script("other" if line == 1 else "released")))
                (self.top / "release/sources").write_text("\n".join([*sums[:line], text, *sums[line + 1 :]]) + "\n")
                self.refused()

    def test_a_program_of_other_sources_is_not_put_there(self):
        self.gate()
        self.edit("crates/low/src/lib.rt")
        done = self.run_release("--make")
        self.assertEqual((done.returncode, done.stderr), (1, "the built program is missing or older than its sources\n"))
        self.assertFalse((self.top / "release").exists())

    def test_a_program_that_is_not_known_is_not_put_there(self):
        self.put("other")
        self.calls.write_text("")
        done = self.run_release("--make")
        self.assertEqual(done.returncode, 1)
        self.assertIn("not known to be that of these sources", done.stderr)
        self.gate()
        self.put("other")
        self.assertEqual(self.run_release("--make").returncode, 1)
        self.assertFalse((self.top / "release").exists())

    def test_rt_is_asked_for_a_program_that_is_not_known(self):
        self.put("other")
        self.may_build()
        self.assertEqual(self.run_release("--make").returncode, 0)
        (self.top / PROGRAM).unlink()
        self.assertEqual(self.sdfg(), ("built", []))

    def test_what_was_built_by_a_call_is_put_there_without_asking(self):
        self.may_build()
        self.sdfg()
        self.calls.write_text("")
        self.assertEqual(self.run_release("--make").returncode, 0)
        self.assertEqual(self.calls.read_text(), "")

    def test_a_program_that_does_not_start_is_not_put_there(self):
        self.gate()
        (self.top / PROGRAM).write_text("#!/bin/sh\nexit 1\n")
        self.run_release("--proved", self.run_release("--sum").stdout.strip())
        self.assertEqual(self.run_release("--make").returncode, 1)

    def test_what_was_edited_since_the_gate_began_is_not_kept_as_proved(self):
        sum_before = self.run_release("--sum").stdout.strip()
        self.edit("crates/low/src/lib.rt")
        self.put("gate")
        self.assertEqual(self.run_release("--proved", sum_before).returncode, 1)
        self.assertEqual(self.run_release("--proved", "").returncode, 1)
        self.assertEqual(self.run_release("--make").returncode, 1)


if __name__ == "__main__":
    unittest.main()
