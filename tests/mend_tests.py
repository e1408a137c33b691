"""`mend` and `mended` (docs/REPAIR.md, section 7): solids that are made at random and mostly broken, and the examples, beside the second checker; what is
written is closed, and a closed solid stays as extracted."""
import pathlib
import random

from lattices import lattice_text
from programs import Program
from second_checker import answer
from second_checker.canonical import text_of
from second_checker.reading import BadFile, File
from surfaces import surface_text

TOP = pathlib.Path(__file__).resolve().parent.parent
CHOICES = "", "", "1", "2", "3", "6"
# Words of no form: N and R that aren't what they are to be.
WORDS = (), ("0",), ("x",), ("12345678",), ("1", "0"), ("1", "7"), ("1", "01"), ("1", "x"), ("1", ""), ("1", "1", "1")


# How often a file at random names a shell, a face or a loop again.
IS_AGAIN = 0.25


def named_again(rng, data):
    """The file, in which a solid names one of its shells once more, a shell a face, or a face a loop."""
    file = File(data)
    of_kind = {kind: [number for number, entry in file.entries.items() if entry.kind == kind] for kind in (186, 514, 510, 508)}
    for kind in rng.choices([186, 514, 514, 510], k=rng.choice([1, 1, 2, 3])):
        values = file.entries[rng.choice(of_kind[kind])].values
        # The place of the count, and what may be named.
        place, named = {186: (2, 514), 514: (0, 510), 510: (1, 508)}[kind]
        first, width = (3, 1) if kind == 510 else (place + 1, 2)
        at = first + width * rng.randint(0, values[place] or 0)
        values[at:at] = [rng.choice(of_kind[named]), 1][:width]
        values[place] = (values[place] or 0) + 1
    return text_of(file)


class Mending:
    """Runs of igesolid-repair, and of igesolid on what it writes, each in a folder of its own."""

    def __init__(self, folder, igesolid, repair):
        for name in "to_judge", "to_mend":
            (folder / name).mkdir(exist_ok=True)
        self.judge, self.program = Program(igesolid, folder / "to_judge"), Program(repair, folder / "to_mend")

    def checks(self, name, data, solid=1, choice=""):
        words = ["FILE", str(solid), *([choice] if choice else [])]
        told = self.program.words(["mend", *words], data)
        for command, got in ("mend", told), ("mended", self.program.words(["mended", *words], data)):
            yield f"{name}: {command} {choice}", got == answer([command, *words], data)
        if told[0] == 0:
            yield f"{name}: what mend {choice} writes is closed", self.judge.words(["certify", "FILE", "all"], told[1])[0] == 0
        if self.judge.words(["certify", "FILE", str(solid)], data)[0] == 0:
            yield f"{name}: stays as extracted", told == self.judge.words(["extract", "FILE", str(solid)], data)


def example_checks(runs):
    for path in sorted((TOP / "examples").rglob("*.igs")):
        data = path.read_bytes()
        try:
            solids = File(data).solids()
        except BadFile:
            solids = [1]
        for solid in solids:
            yield from runs.checks(f"{path.name}, solid {solid}", data, solid)


def random_checks(runs, cases):
    for case in cases:
        rng = random.Random(f"mend {case}")
        data = rng.choice([lattice_text, lattice_text, lattice_text, surface_text])(rng)
        data = named_again(rng, data) if rng.random() < IS_AGAIN else data
        yield from runs.checks(f"mend: case {case}", data, choice=rng.choice(CHOICES))


def words_checks(runs, usage):
    for command in "mend", "mended":
        for words in WORDS:
            yield f"{command} {' '.join(words)}: usage", runs.program.words([command, *(["FILE"] if words else []), *words], b"") == (2, usage)


def checks(folder, igesolid, repair, usage, cases):
    runs = Mending(folder, igesolid, repair)
    yield from example_checks(runs)
    yield from random_checks(runs, cases)
    yield from words_checks(runs, usage)


def more_checks(folder, igesolid, repair, cases):
    yield from random_checks(Mending(folder, igesolid, repair), cases)
