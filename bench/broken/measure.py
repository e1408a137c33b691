"""Measures what is said of broken solids, and what is written of them."""
import functools
import pathlib
import subprocess
import sys
import tempfile
from dataclasses import dataclass, field

from .iges import SOLID, File
from .judge import Kept, false_facts, is_right
from .texts import remedies_of

MOST_REMEDIES = 6
# The rules on shells: a case that breaks another has no remedy.
OF_SHELLS = "JOIN", "PAIR", "REACH", "LINK", "APART"
DONE = 0


class Built:
    """The programs, run on files of a folder."""

    def __init__(self, igesolid, where, repair):
        self.programs = {"where": where, "mend": repair, "mended": repair}
        self.igesolid, self.folder = igesolid, tempfile.TemporaryDirectory(prefix="igesolid-remedies-")
        self.file = pathlib.Path(self.folder.name) / "file.igs"

    def run(self, data, command, *words):
        """The status and the output of a command on these bytes."""
        self.file.write_bytes(data)
        words = [self.file, *words] if command == "where" else [command, self.file, *words]
        done = subprocess.run([self.programs.get(command, self.igesolid), *map(str, words)], stdin=subprocess.DEVNULL, stdout=subprocess.PIPE)
        return done.returncode, done.stdout


class Second(Built):
    """The second checker in place of `where` and `mend`."""

    def run(self, data, command, *words):
        if command not in self.programs:
            return super().run(data, command, *words)
        tests = pathlib.Path(__file__).resolve().parent.parent.parent / "tests"
        if str(tests) not in sys.path:
            sys.path.insert(0, str(tests))
        from second_checker import answer, where

        if command != "where":
            return answer([command, "FILE", *map(str, words)], data)
        where.sentences(tests.parent / "docs")
        return where.answer(list(map(str, words)), data)


@dataclass
class Judged:
    """What was found of a case: by numbers, which columns of the table count it, and what is wrong."""

    name: str
    kind: str
    is_single: bool
    needs_face: bool
    counts: dict = field(default_factory=dict)
    faults: list = field(default_factory=list)
    # What mend wrote without R, and the solids to compare it with.
    mended: bytes = b""
    originals: tuple = ()


def is_failing_shell(told):
    words = told.split()
    return len(words) > 1 and words[0] == b"fail" and words[1].decode() in OF_SHELLS


def judged(case, programs):
    """What is found of a case; None where it breaks no rule on shells."""
    status, told = programs.run(case.data, "certify", case.solid)
    if status == DONE or not is_failing_shell(told):
        return None
    truth = case.truth
    it = Judged(case.name, case.kind(), len(case.ways) == 1, "deleted" in truth["kinds"], {"files": 1})
    it.originals = (case.base.name, *([truth["other"]] if "other" in truth else []))
    _, text = programs.run(case.data, "where", case.solid, "all")
    shells = remedies_of(text.decode("latin-1"))
    judge_text(it, case, shells)
    judge_mended(it, case, shells, programs)
    return it


def chosen(shells, rank):
    """Of each shell the remedy of this rank, or the first where there are fewer."""
    return [remedies[rank if rank < len(remedies) else 0] for remedies in shells.values()]


def judge_text(it, case, shells):
    if not shells or not all(shells.values()):
        return
    it.counts["remedy"] = 1
    right = [is_right(case.truth, chosen(shells, rank)) for rank in range(max(map(len, shells.values())))]
    it.counts["first right"], it.counts["among six"] = int(right[0]), int(any(right))
    file = File(case.data)
    false = false_facts(file, case.solid, shells)
    it.counts["false facts"], it.counts["remedies told"] = len(false), sum(map(len, shells.values()))
    it.faults += [f"false: {words}" for words in false]


def judge_mended(it, case, shells, programs):
    extracted = programs.run(case.data, "extract", case.solid)[1]
    # What was found of each text that was written: several choices may write the same.
    texts, written = {}, 0
    for choice in (None, *range(1, MOST_REMEDIES + 1)):
        status, text = programs.run(case.data, "mend", case.solid, *([] if choice is None else [choice]))
        if status != DONE:
            continue
        if choice is None:
            it.counts["mend"], it.mended = 1, text
        elif not written:
            it.counts["mend R"] = 1
        if text not in texts:
            texts[text] = list(faults_of(extracted, choice, text, shells, programs))
            it.faults += [f"mend {choice or ''}: {words}" for words in texts[text]]
        written += 1
        it.counts["closed"] = it.counts.get("closed", 0) + (not texts[text])
    it.counts["written"] = written


def faults_of(extracted, choice, text, shells, programs):
    """A solid of a mended file that isn't closed, and what it changed beyond what may change."""
    status, told = programs.run(text, "certify", "all")
    if status != DONE:
        yield told.decode("latin-1").strip()
        return
    file = parsed(extracted)
    solids = [entry.number for entry in file.entries if entry.kind == SOLID]
    if len(solids) == 1:
        seams = [seam for remedy in chosen(shells, (choice or 1) - 1) for seam in remedy.items("sew seams")]
        yield from Kept(file, File(text), solids[0]).found(any(seam[1] == "curve" for seam in seams))


@functools.lru_cache(1)
def parsed(data):
    return File(data)
