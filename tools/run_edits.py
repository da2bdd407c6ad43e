#!/usr/bin/env python3
"""Looks at the edits of the crates: wrong bodies and wrong statements that the prover has to refuse.

An edit is a file with a line `file: PATH` and pairs of lines `old: TEXT` and `new: TEXT`; each old text stands in the file exactly once.
The gate has the prover try those in crates/NAME/must-fail/. The further ones lie in crates/NAME/further-edits/, so that the gate stays
within its time. Which edits the prover refused, on which sources and by which message, is recorded in further-edits/refused.txt: one
line `EDIT SUM MESSAGE` for each. A record holds for as long as nothing changes that the verdict rests on: the edit, the crate, and all
crates below it. After a change the record is stale, and the edit has to be tried again.

  run_edits.py                 looks whether each edit of both kinds can still be applied, and counts the records
  run_edits.py try [NAME..]    has the prover try the further edits of these crates (none, or `all`: of all crates) that have no record
                               for the present sources, and records those that it refuses

    --minutes M    begins with no crate after M minutes; what is left is tried by the next call
    --must-fail    tries and records those of must-fail/ too
    --all          tries all edits of both kinds, whatever is recorded
    --together N   the number of crates in one run of the prover (4): their records are written when it ends

A try takes a copy of the crates, in which the wanted edits are the only ones in must-fail/, and has `rt ci` try them there: it proves
no library that an earlier run on this machine proved. An edit that is not refused, cannot be read or was not tried counts as failed.
The last line is 'N passed, M failed'. Without words the status is 0 where some passed and none failed; else where none failed.
"""
import argparse
import re
import shutil
import subprocess
import sys
import tempfile
import time
from pathlib import Path

from edit_records import (FURTHER, KINDS, NEVER, PRESENT, RECORDS, STALE, Sources, count, edits_of, message, names_of, records_of,
                          states_of, write_records)

REPOSITORY = Path(__file__).resolve().parent.parent
RESULT = re.compile(r"rt: must-fail ([\w-]+)/([\w.-]+)\.edit: (refused, as it must be|NOT REFUSED|BAD EDIT|NOT TRIED)(.*)")
# What `rt` says between `refused` and the message where a refusal tells little, and how a record says so.
WEAK = re.compile(r" \(only (because a proof|by a limit)[^)]*\)")
REMARKS = {"because a proof": "(only a proof's names) ", "by a limit": "(only by a limit) "}


def steps(edit):
    """Returns the file of an edit and its pairs of an old and a new text, or says why there are none."""
    lines = edit.read_text().split("\n")
    files = [line[len("file: ") :].strip() for line in lines if line.startswith("file: ")]
    olds = [line[len("old: ") :] for line in lines if line.startswith("old: ")]
    news = [re.sub(r"\A ", "", line[len("new:") :]) for line in lines if line.startswith("new:")]
    if len(files) != 1 or not olds or len(olds) != len(news):
        raise ValueError("it is not one 'file:' line with pairs of 'old:' and 'new:' lines")
    return files[0], list(zip(olds, news))


def apply(edit):
    """Applies an edit to the text of its file, or raises what is wrong with it."""
    file, pairs = steps(edit)
    text = was = (edit.parent.parent / file).read_text()
    for old, new in pairs:
        if text.count(old) != 1:
            raise ValueError(f"an 'old:' text stands {text.count(old)} times in {file}")
        text = text.replace(old, new)
    if text == was:
        raise ValueError("it changes nothing")
    if all((edit.parent.parent / kind / edit.name).exists() for kind in KINDS):
        raise ValueError(f"an edit of this name stands in both {' and '.join(KINDS)}")


def look_at_records(repository, name):
    """Looks whether each record of a crate can be read and is one of an edit that is there."""
    lost = sorted(records_of(repository, name).keys() - names_of(repository, name))
    if lost:
        raise ValueError(f"there is no edit {lost[0]}: remove its line if the edit was meant to go")


def look(repository):
    """Looks whether each edit can be applied and each file of records can be read, and returns how many edits can and cannot."""
    passed = failed = 0
    files = sorted(it for kind in KINDS for it in repository.glob(f"crates/*/{kind}/*"))
    for file in files:
        try:
            if file.name == RECORDS:
                look_at_records(repository, file.parent.parent.name)
            else:
                apply(file)
                passed += 1
        except (OSError, ValueError) as why:
            print(f"{file.relative_to(repository)}: {why}")
            failed += 1
    return passed, failed


def tell_counts(repository):
    """Prints how many further edits there are, and what is recorded of them."""
    try:
        counts = count(Sources(repository))
    except ValueError:
        # A file of records that cannot be read was told above.
        return
    print(f"{sum(counts.values())} further edits: {counts[PRESENT]} recorded as refused for the present sources, "
          f"{counts[STALE]} stale, {counts[NEVER]} never tried")


def copied(repository, to):
    """Copies what the prover reads, without edits and without what was built, and returns the folder."""
    shutil.copytree(repository / "crates", to / "crates", ignore=shutil.ignore_patterns("out", *KINDS))
    for name in ("crates.txt", "HANDLES"):
        if (repository / name).exists():
            shutil.copyfile(repository / name, to / name)
    (to / ".git").mkdir()
    return to


def wanted_of(sources, names, kinds, anew):
    """Returns the texts of the edits to try, by their names, of each of these crates that has any."""
    every = {}
    for name in (it for it in sources.lines if it in names):
        states = states_of(sources, name, kinds)
        texts = edits_of(sources.repository, name, kinds)
        every[name] = {edit: text for edit, text in texts.items() if anew or states[edit] != PRESENT}
    return {name: edits for name, edits in every.items() if edits}


def results(copy, wanted):
    """Has the prover try these edits in the copy, shows what it says, and returns its verdicts by crate and edit."""
    for name, edits in wanted.items():
        (copy / "crates" / name / "must-fail").mkdir()
        for edit, text in edits.items():
            (copy / "crates" / name / "must-fail" / f"{edit}.edit").write_bytes(text)
    found, line = {}, ""
    how = {"stdin": subprocess.DEVNULL, "stdout": subprocess.PIPE, "stderr": subprocess.STDOUT, "encoding": "utf-8", "errors": "replace"}
    with subprocess.Popen(["rt", "ci", *wanted], cwd=copy, **how) as ran:
        for line in ran.stdout:
            print(line, end="", flush=True)
            result = RESULT.fullmatch(line.rstrip("\n"))
            if result:
                found[result[1], result[2]] = result.groups()[2:]
    if not re.match(r"\d+ passed, \d+ failed", line):
        print(f"rt ci ended with status {ran.returncode} before it was done: try these again")
    for name in wanted:
        shutil.rmtree(copy / "crates" / name / "must-fail")
    return found


def record(repository, name, sums, found):
    """Writes what the tries of a crate's edits came to into its records, and returns how many were refused."""
    records, refused = records_of(repository, name), 0
    for edit, sum in sums.items():
        verdict, rest = found.get((name, edit), ("NOT TRIED", ""))
        weak = WEAK.match(rest)
        said = rest[weak.end() if weak else 0 :].removeprefix(": ")
        if verdict.startswith("refused"):
            records[edit] = (sum, message((REMARKS[weak[1]] if weak else "") + said))
            refused += 1
        elif verdict in ("NOT REFUSED", "BAD EDIT"):
            records.pop(edit, None)
        if not verdict.startswith("refused"):
            print(f"{name}/{edit}: {verdict}")
    write_records(repository, name, records)
    return refused


def attempt(repository, words):
    """Has the prover try the edits that are asked for, and returns how many it refused and did not."""
    began, passed, failed = time.monotonic(), 0, 0
    with tempfile.TemporaryDirectory() as folder:
        copy = copied(repository, Path(folder))
        # The sums are those of the copy, which nothing changes meanwhile.
        sources, here = Sources(copy), Sources(repository)
        names = set(here.lines if words.names in ([], ["all"]) else words.names)
        if names - set(here.lines):
            raise ValueError(f"crates.txt names no crate {min(names - set(here.lines))}")
        wanted = wanted_of(here, names, KINDS if words.all or words.must_fail else (FURTHER,), words.all)
        while wanted and (words.minutes is None or time.monotonic() - began < 60 * words.minutes):
            lot = {name: wanted.pop(name) for name in list(wanted)[: max(1, words.together)]}
            found = results(copy, lot)
            for name, edits in lot.items():
                refused = record(repository, name, {edit: sources.edit(name, text) for edit, text in edits.items()}, found)
                passed, failed = passed + refused, failed + len(edits) - refused
    if wanted:
        print(f"left for the next call: {sum(map(len, wanted.values()))} edits of {len(wanted)} crates, from {next(iter(wanted))} on")
    return passed, failed


def asked():
    """Returns what the words of the call ask for."""
    parser = argparse.ArgumentParser(description=__doc__, formatter_class=argparse.RawDescriptionHelpFormatter)
    verbs = parser.add_subparsers(dest="verb")
    tries = verbs.add_parser("try", help="has the prover try edits")
    tries.add_argument("names", nargs="*", metavar="NAME")
    tries.add_argument("--minutes", type=float)
    tries.add_argument("--must-fail", action="store_true")
    tries.add_argument("--all", action="store_true")
    tries.add_argument("--together", type=int, default=4)
    return parser.parse_args()


def main():
    words = asked()
    try:
        passed, failed = attempt(REPOSITORY, words) if words.verb else look(REPOSITORY)
    except ValueError as why:
        print(why)
        passed, failed = 0, 1
    tell_counts(REPOSITORY)
    print(f"{passed} passed, {failed} failed")
    return 0 if (passed or words.verb) and not failed else 1


if __name__ == "__main__":
    sys.exit(main())
