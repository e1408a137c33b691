"""What is asked of a program of all commands that is made of the library, beside the proved programs: the worked rows, each example and each
input of the tests with each command, and words that are none. Statuses and standard output have to be the same."""
import concurrent.futures
import hashlib
import os
import subprocess
import threading

import rows
from libraries import EXAMPLES, TOP
from spawned import SECONDS

REPAIR = "layout", "relayout", "reorient", "mend", "mended"
OF_FILES = ("solids", "FILE"), ("certify", "FILE", "all"), ("where", "FILE"), ("layout", "FILE"), ("relayout", "FILE")
OF_SOLIDS = "show", "certify", "extract", "compact", "open", "orient", "where", "reorient", "mend", "mended"
WRONG = (
    ["solid", "FILE"], ["solids"], ["solids\n-"], ["solids", "none.igs"], ["solid", "none.igs"], ["certify", "FILE", "x"], ["certify", "FILE", "1\n"],
    ["sample", "x"], ["sample", "40"], ["verify", "FILE", "none"], ["verify", "FILE"], ["solids", "/"], ["where"], ["where", "FILE", "x"],
    ["where", "none.igs"], ["where", "FILE", "1", "every"], ["where", "FILE", "1\xe9"], ["layout"], ["certify", "FILE", ""], ["certify", "FILE", "1", ""],
    ["\U0001f600", "FILE"], ["mend", "FILE"], ["mend", "FILE", "1", "0"], ["mend", "FILE", "1", "7"], ["mended", "FILE", "1", "01"], ["mended", "FILE", "1", "2", "3"],
)  # fmt: skip
# Words that the proved programs refuse, and a program of all commands answers.
OWN = [], ["help"], ["--help"]
# Rows whose file is large take a program under an emulator too long.
MOST_BYTES = 1_000_000


class Asked:
    """Files in a folder, and the proved programs, which are run on them."""

    def __init__(self, context):
        self.folder, self.programs = context.new_folder(), context.programs

    def path(self, data):
        """The path of a file of these bytes."""
        path = self.folder / f"{hashlib.sha256(data).hexdigest()[:16]}.igs"
        if not path.exists():
            new = path.with_suffix(f".{threading.get_ident()}")
            new.write_bytes(data)
            new.rename(path)
        return str(path)

    def words(self, words, file, certificate):
        given = {"FILE": file, "CERT": certificate}
        return [word if given.get(word) is None else self.path(given[word]) for word in words]

    def proved(self, words):
        """The proved program for words, and what it is given."""
        if words[:1] == ["where"]:
            return [self.programs.where, *words[1:]]
        return [self.programs.repair if words and words[0] in REPAIR else self.programs.igesolid, *words]

    def all(self):
        """The words of each run."""
        for kind in (rows.of_files, rows.of_examples, rows.of_long_lines):
            for row in kind():
                yield self.words(row.words, row.file, row.certificate)
        for path in sorted([*EXAMPLES.rglob("*.igs"), *(TOP / "tests" / "inputs").rglob("*.igs")]):
            yield from self.of_file(path)
        cube = (EXAMPLES / "cube.igs").read_bytes()
        for words in WRONG:
            yield self.words(words, cube, None)

    def of_file(self, path):
        given = {"FILE": str(path)}
        for form in OF_FILES:
            yield [given.get(word, word) for word in form]
        told = run([self.programs.where, path])[1].decode(errors="replace")
        for number in [line.split()[1] for line in told.splitlines() if line.startswith("solid ")] or ["1"]:
            for command in OF_SOLIDS:
                yield [command, str(path), number]
            yield ["where", str(path), number, "all"]


def run(words):
    """The status and standard output."""
    done = subprocess.run(words, stdin=subprocess.DEVNULL, stdout=subprocess.PIPE, stderr=subprocess.DEVNULL, timeout=SECONDS)
    return done.returncode, done.stdout


def is_small(words):
    return all(os.path.getsize(word) <= MOST_BYTES for word in words if os.path.isfile(word))


def alike(name, wanted, command, jobs=1):
    """A check for each run of a program, whose answer is to be the one wanted; `command` is how it is started."""
    with concurrent.futures.ThreadPoolExecutor(jobs) as pool:
        for (words, (status, text)), (its_status, its_text) in zip(wanted, pool.map(lambda it: run([*command, *it[0]]), wanted)):
            held = (its_status, its_text) == (status, text)
            told = "" if held else f"\n  wanted {status} {text[:200]!r}\n  got    {its_status} {its_text[:200]!r}"
            yield f"{name}: {' '.join(words)}{told}", held


def wanted_of(asked, share, only=lambda words: True):
    """What the proved programs answer: pairs of words and an answer, each of so many."""
    chosen = [words for words in asked.all() if words not in OWN and only(words)][::share]
    return [(words, run(asked.proved(words))) for words in chosen]
