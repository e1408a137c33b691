"""`reorient` (docs/REPAIR.md, section 6): solids with faces turned in known ways and at random, beside `extract` and the second checker."""
import itertools
import pathlib
import random

import orient_tests
from programs import Program
from second_checker import answer, is_owed
from second_checker.reading import BadFile, File
from second_checker.walking import walked
from shapes import presented, torus

TOP = pathlib.Path(__file__).resolve().parent.parent
NUMBERS = "0", "00", "x", "1x", "-1", "+1", "12345678", ""


class Reorienting:
    """Runs of igesolid and of igesolid-repair on texts, each in a folder of its own."""

    def __init__(self, folder, igesolid, repair):
        for name in "judged", "mended":
            (folder / name).mkdir(exist_ok=True)
        self.judge, self.program = Program(igesolid, folder / "judged"), Program(repair, folder / "mended")

    def run(self, data, solid=1):
        return self.program.words(["reorient", "FILE", str(solid)], data)

    def extracted(self, data, solid=1):
        return self.judge.words(["extract", "FILE", str(solid)], data)

    def verdict(self, data, solid=1):
        return self.judge.words(["certify", "FILE", str(solid)], data)[0]

    def checks(self, name, data, solid=1):
        """It answers as the second checker; PAIR holds then, and again gives the same; what is closed stays as extracted."""
        words = ["reorient", "FILE", str(solid)]
        told = self.run(data, solid)
        yield f"{name}: reorient", is_owed(words, data, told, answer(words, data))
        if self.verdict(data, solid) == 0:
            yield f"{name}: stays as extracted", told == self.extracted(data, solid)
        if told[0] == 0:
            new = File(told[1]).solids()[0]
            yield f"{name}: PAIR holds", not self.judge.words(["certify", "FILE", str(new)], told[1])[1].startswith(b"fail PAIR")
            yield f"{name}: reoriented again", self.run(told[1], new) == told


def with_flags(data, flags):
    """The file with these flags for the faces of its solid 1, which has one shell."""
    return orient_tests.with_flags(data, 1, [orient_tests.line_of("F", 1, flags)])


def own_flags(data):
    return [face.flag for face in walked(File(data), 1).shells[0].faces]


def cube_checks(runs):
    """Each choice of a cube's faces, turned: flags of 1 fit, and those of 0."""
    cube = (TOP / "examples" / "cube.igs").read_bytes()
    for flags in itertools.product((0, 1), repeat=6):
        turned = with_flags(cube, flags)
        wanted = runs.extracted(with_flags(cube, [int(any(flags))] * 6))
        yield f"cube with flags {flags}", runs.run(turned) == wanted and runs.verdict(wanted[1]) == 0


def torus_checks(runs):
    """A face turned of nine, the first too: it alone is turned back, unless flags of 1 fit."""
    for seed in range(5):
        data = presented(random.Random(seed), [torus(3, 3)])
        flags = own_flags(data)
        for face in range(9):
            turned = with_flags(data, [flag ^ (at == face) for at, flag in enumerate(flags)])
            kept = flags if any(flags) else [1] * 9
            yield f"torus {seed} with face {face} turned", runs.run(turned) == runs.extracted(with_flags(data, kept))


def example_checks(runs):
    """Each solid of the examples, the refusals among them."""
    for path in sorted((TOP / "examples").rglob("*.igs")):
        data = path.read_bytes()
        try:
            solids = File(data).solids()
        except BadFile:
            solids = [1]
        for solid in solids:
            yield from runs.checks(f"{path.name}, solid {solid}", data, solid)


def random_checks(runs, cases):
    shapes = orient_tests.solids()
    for case in cases:
        rng = random.Random(f"reorient {case}")
        name = rng.choice(sorted(shapes))
        yield from runs.checks(f"reorient: case {case}, {name}", presented(rng, shapes[name], rng.choice((0, 0.1, 0.5, 0.9, 1))))


def words_checks(runs, usage):
    for words in (["FILE"], *(["FILE", number] for number in NUMBERS), ["FILE", "1", "1"]):
        yield f"reorient {' '.join(words)}: usage", runs.program.words(["reorient", *words], b"") == (2, usage)


def checks(folder, igesolid, repair, usage, cases):
    runs = Reorienting(folder, igesolid, repair)
    yield from cube_checks(runs)
    yield from torus_checks(runs)
    yield from example_checks(runs)
    yield from random_checks(runs, range(cases))
    yield from words_checks(runs, usage)


def more_checks(folder, igesolid, repair, cases):
    yield from random_checks(Reorienting(folder, igesolid, repair), cases)
