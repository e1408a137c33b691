"""Open shells, made here and of the examples: the program and the second checker judge them alike."""
import random
import re

from changes import changed
from second_checker import answer
from second_checker.canonical import text_of
from second_checker.reading import File
from shapes import Grid, Surface, beside, disc, polygons, presented, torus

SHELL = 15
FILLED = "square with a hole, and what fills it"


def square_with_hole(filled):
    outer, inner = [[(at, side) for side in "abcd"[:count]] for at, count in (("outer", 4), ("inner", 3))]
    ends = {edge: ((edge[0], at), (edge[0], (at + 1) % len(loop))) for loop in (outer, inner) for at, edge in enumerate(loop)}
    faces = [[[(edge, True) for edge in outer], [(edge, False) for edge in reversed(inner)]]]
    return Surface(faces + [[[(edge, True) for edge in inner]]] * filled, ends)


def surfaces():
    strip = Grid(1, 4).surface()
    annulus = Grid(1, 6, None, "straight").surface()
    return {
        "strip": strip,
        "disc": disc(5),
        "disc of two": disc(2),
        "one square": Grid(1, 1).surface(),
        "sheet of squares": Grid(3, 4).surface(),
        "sheet without a square inside": Grid(3, 3).surface().without(4),
        "annulus": annulus,
        "annulus of one": Grid(1, 1, None, "straight").surface(),
        "Moebius band": Grid(1, 5, None, "mirrored").surface(),
        "square with a hole": square_with_hole(False),
        FILLED: square_with_hole(True),
        "pinched disc": annulus.merged({(0, 3): (0, 0)}),
        "sheets that share a vertex": beside(disc(3), disc(4)).merged({(0, 1): (1, 1)}),
        "two sheets": beside(disc(3), strip),
        "three triangles at an edge": polygons([0, 1, 2], [1, 0, 3], [0, 1, 4]),
        "disc with a point": disc(4).with_point(0, "point"),
        "disc with a point at its middle": disc(4).with_point(0, 0),
        "disc with a point at its border": disc(4).with_point(2, 3),
        "point": Surface([[[("point",)]]], {}),
        "two points at a vertex": Surface([[[("point",)], [("point",)]]], {}),
        "strip with a use turned": strip.unjoined(),
        "torus": torus(2, 3),
        "torus without a square": torus(3, 3).without(4),
        "torus without two squares at a corner": torus(3, 3).without(4).without(0),
        "Klein bottle": Grid(2, 3, "mirrored", "straight").surface(),
        "projective plane without a square": Grid(3, 3, "mirrored", "mirrored").surface().without(4),
        "tetrahedron": polygons([0, 1, 2], [0, 2, 3], [0, 3, 1], [1, 3, 2]),
    }


def without_reach(certificate):
    return re.sub(rb"(?m)^R .*\n", b"", certificate)


def judged(program, name, file, number):
    """`open` answers as the second checker does, but for reach lines. Both their certificates are accepted by both."""
    words = ["open", "FILE", str(number)]
    wanted, got = answer(words, file), program.words(words, file)
    yield f"{name}: open", (got[0], without_reach(got[1])) == (wanted[0], without_reach(wanted[1]))
    for certificate in {got[1], wanted[1]} if wanted[0] == 0 else []:
        yield from checked(program, name, file, certificate, b"accepted %d\n" % number)


def checked(program, name, file, certificate, accepted=None):
    """`open-verify` answers as the second checker does, and what is wanted."""
    wanted = answer(["open-verify", "FILE", "CERT"], file, certificate)
    yield f"{name}: open-verify", program.certificate("open-verify", file, certificate) == (*wanted, b"") and accepted in (None, wanted[1])


def changes(program, rng, name, file, number, count):
    """Changed certificates."""
    status, certificate = answer(["open", "FILE", str(number)], file)
    for n in range(count if status == 0 else 0):
        yield from checked(program, f"{name}, certificate changed, {n}", file, changed(rng, certificate))


def made(program):
    """Surfaces as the shell of a file, their faces turned in some; and certificates of another presentation."""
    rng = random.Random(514)
    for name, surface in surfaces().items():
        for n, turned in enumerate((0, 0, 0.15)):
            file = presented(rng, [surface], turned, form=1 + n % 2)
            yield from judged(program, f"{name}, {n}", file, SHELL)
            yield from changes(program, rng, f"{name}, {n}", file, SHELL, 25)
        other = presented(rng, [surface])
        yield from checked(program, f"{name}, the certificate of another", other, answer(["open", "FILE", str(SHELL)], file)[1])


def of_solids(program):
    """Each shell of solids with more than one, which share lists, and in one case a vertex."""
    rng = random.Random(186)
    for name, told, shared in (
        ("torus and disc", [torus(2, 3), disc(4)], {}),
        ("disc and strip that share a vertex", [disc(4), Grid(1, 3).surface()], {(1, (0, 0)): (0, 2)}),
        ("three sheets", [Grid(2, 2).surface(), square_with_hole(False), disc(3)], {}),
    ):
        file = presented(rng, told, shared=shared)
        for number in shells_in(file):
            yield from judged(program, f"{name}, shell {number}", file, number)
            yield from changes(program, rng, f"{name}, shell {number}", file, number, 15)


def shells_in(data):
    return [number for number, entry in File(data).entries.items() if entry.kind == 514]


def without_face(data, number, face):
    """The file with a shell of form 2 that lacks a face, from 0."""
    file = File(data)
    shell = file.entries[number]
    shell.values = [shell.values[0] - 1, *shell.values[1 : 1 + 2 * face], *shell.values[3 + 2 * face :]]
    shell.form = 2
    return text_of(file)


def of_examples(program, examples):
    """Each shell of the examples, whole and with each of its faces taken away."""
    rng = random.Random(2)
    for name, data in examples:
        for number in shells_in(data):
            yield from judged(program, f"{name}, shell {number}", data, number)
            yield from changes(program, rng, f"{name}, shell {number}", data, number, 40)
            faces = File(data).entries[number].values[0]
            for face in range(faces if faces > 1 else 0):
                without = without_face(data, number, face)
                yield from judged(program, f"{name}, shell {number} without face {face + 1}", without, number)
                yield from changes(program, rng, f"{name}, shell {number} without face {face + 1}", without, number, 3)


def of_closed_solids(program, examples):
    """Each shell of a solid that `certify` calls closed is a sound sheet without a border."""
    for name, data in examples:
        for solid in File(data).solids():
            if program.words(["certify", "FILE", str(solid)], data)[0] == 0:
                values = File(data).entries[solid].values
                for shell in [values[0], *values[3::2][: values[2]]]:
                    status, text = program.words(["open", "FILE", str(shell)], data)
                    yield f"{name}, shell {shell} of a closed solid", status == 0 and re.search(rb"(?m)^SHELL .* 0$", text) is not None


def checks(program, examples):
    yield from made(program)
    yield from of_solids(program)
    yield from of_examples(program, examples)
    yield from of_closed_solids(program, examples)
