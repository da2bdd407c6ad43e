"""Records of the edits that the prover refused: on which sources, and by which message.

The file crates/NAME/further-edits/refused.txt has one line for each such edit of the crate, sorted by name: `EDIT SUM MESSAGE`. EDIT is
the name of its file without `.edit`, of further-edits/ or must-fail/. SUM is a sum of all that the verdict rests on: the sources, the
specifications and the proofs of the crate and of all crates below it, their lines of crates.txt, HANDLES and the edit itself. A record
is stale where the present sum is another one. MESSAGE is what the prover said, cut to 160 characters.
"""
import hashlib
import os
import re
import tempfile
from collections import Counter

GATE, FURTHER = KINDS = ("must-fail", "further-edits")
PARTS = ("src", "specs", "proofs")
RECORDS = "refused.txt"
LONGEST = 160
PRESENT, STALE, NEVER = "present", "stale", "never"


def sum_of(*given):
    """Returns a sum of texts, of bytes and of lists of them."""
    return hashlib.sha256(repr(given).encode()).hexdigest()


class Sources:
    """The crates of a repository as they stand when they are first asked for: each file is read once."""

    def __init__(self, repository):
        self.repository = repository
        lines = [line.partition(":") for line in (repository / "crates.txt").read_text().splitlines() if not line.startswith("#")]
        self.lines = {name.strip(): rest.split() for name, colon, rest in lines if colon}
        handles = repository / "HANDLES"
        self.handles = handles.read_bytes() if handles.exists() else b""
        self.sums = {}

    def files(self, name):
        """Returns the files of a crate that the prover reads, each with the sum of its bytes."""
        crate = self.repository / "crates" / name
        files = sorted(it for part in PARTS for it in (crate / part).rglob("*") if it.is_file())
        return [(it.relative_to(crate).as_posix(), hashlib.sha256(it.read_bytes()).hexdigest()) for it in files]

    def crate(self, name):
        """Returns the sum of a crate and of all crates below it."""
        if name not in self.sums:
            below = [self.crate(it) for it in self.lines[name] if it in self.lines]
            self.sums[name] = sum_of(name, self.lines[name], self.files(name), below)
        return self.sums[name]

    def edit(self, name, text):
        """Returns the sum of what a verdict on an edit of a crate rests on."""
        return sum_of(self.crate(name), self.handles, text)[:16]


def edits_of(repository, name, kinds=KINDS):
    """Returns the texts of a crate's edits by their names, or raises which name has two."""
    texts = {}
    for file in sorted(it for kind in kinds for it in (repository / "crates" / name / kind).glob("*.edit")):
        if file.stem in texts:
            raise ValueError(f"crates/{name}: an edit {file.stem} stands in both {' and '.join(KINDS)}")
        texts[file.stem] = file.read_bytes()
    return texts


def names_of(repository, name):
    """Returns the names of a crate's edits of both kinds."""
    return {it.stem for kind in KINDS for it in (repository / "crates" / name / kind).glob("*.edit")}


def records_of(repository, name):
    """Returns the sum and the message of each record of a crate, by the name of the edit, or raises which line is none."""
    file = repository / "crates" / name / FURTHER / RECORDS
    records = {}
    for line in file.read_text(encoding="utf-8").split("\n")[:-1] if file.exists() else []:
        found = re.fullmatch(r"([\w.-]+) ([0-9a-f]{16}) (.*)", line)
        if not found or found[1] in records:
            raise ValueError(f"a line is not 'EDIT SUM MESSAGE', or the second one of its edit: {line[:60]}")
        records[found[1]] = (found[2], found[3])
    return records


def write_records(repository, name, records):
    """Writes the records of a crate, as a whole, but none of an edit that is not there any more."""
    file = repository / "crates" / name / FURTHER / RECORDS
    there = names_of(repository, name)
    lines = [" ".join((edit, *records[edit])) + "\n" for edit in sorted(records) if edit in there]
    if not lines:
        file.unlink(missing_ok=True)
        return
    file.parent.mkdir(exist_ok=True)
    with tempfile.NamedTemporaryFile("w", dir=file.parent, delete=False, encoding="utf-8") as written:
        written.writelines(lines)
    os.chmod(written.name, 0o644)
    os.replace(written.name, file)


def message(said):
    """Returns what the prover said as one short line that names no temporary folder."""
    said = re.sub(re.escape(tempfile.gettempdir()) + r"/[^\s:]*?/(?=(src|specs|proofs)/)", "", " ".join(said.split()))
    return said[:LONGEST].rstrip() or "(no message)"


def states_of(sources, name, kinds=KINDS):
    """Returns for each edit of a crate whether it is recorded for the present sources, recorded for other ones, or was never tried."""
    records = records_of(sources.repository, name)
    states = {}
    for edit, text in edits_of(sources.repository, name, kinds).items():
        is_present = edit in records and records[edit][0] == sources.edit(name, text)
        states[edit] = PRESENT if is_present else STALE if edit in records else NEVER
    return states


def count(sources):
    """Returns how many further edits of all crates are in each of these states."""
    return Counter(state for name in sources.lines for state in states_of(sources, name, (FURTHER,)).values())
