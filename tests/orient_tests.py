"""Orientations of solids, made here and of the examples: the program and the second checker judge them alike."""
import itertools
import random

from changes import changed
from second_checker import answer, is_owed
from second_checker.canonical import text_of
from second_checker.orientation import Partners
from second_checker.reading import File
from second_checker.walking import Fail, walked
from shapes import Grid, beside, disc, polygons, presented, torus


def solids():
    """The surfaces of the shells of solids."""
    tetrahedron = polygons([0, 1, 2], [0, 2, 3], [0, 3, 1], [1, 3, 2])
    half_icosahedron = polygons(*([0, i, i % 5 + 1] for i in range(1, 6)), *([i, i % 5 + 1, (i + 2) % 5 + 1] for i in range(1, 6)))
    bottle, plane = Grid(2, 3, "mirrored", "straight").surface(), Grid(2, 2, "mirrored", "mirrored").surface()
    return {
        "torus": [torus(3, 3)],
        "torus of one square": [torus(1, 1)],
        "tetrahedron": [tetrahedron],
        "torus and tetrahedra": [torus(2, 3), tetrahedron, tetrahedron],
        "Klein bottle": [bottle],
        "Klein bottle of one square": [Grid(1, 1, "mirrored", "straight").surface()],
        "projective plane": [plane],
        "projective plane of one square": [Grid(1, 1, "mirrored", "mirrored").surface()],
        "half an icosahedron": [half_icosahedron],
        "torus and Klein bottle": [torus(2, 2), bottle],
        "projective plane and torus": [plane, torus(2, 2)],
        "disc": [disc(4)],
        "torus and disc": [torus(2, 2), disc(3)],
        "tetrahedra that don't meet": [beside(tetrahedron, tetrahedron)],
        "torus, and tetrahedra that don't meet": [torus(2, 2), beside(tetrahedron, tetrahedron)],
        "three triangles at an edge": [polygons([0, 1, 2], [1, 0, 3], [0, 1, 4])],
    }


def line_of(letter, place, numbers):
    return f"{letter} {place} {' '.join(map(str, numbers))}"


def with_flags(data, solid, lines):
    """The file with the flags of these lines, in order, in the shells of the solid."""
    file = File(data)
    values = file.entries[solid].values
    for shell, line in zip([values[0], *values[3::2][: values[2]]], lines):
        listed = file.entries[shell].values
        listed[2 : 2 + 2 * listed[0] : 2] = map(int, line.split()[2:])
    return text_of(file)


def judged(program, name, file, solid, is_closed):
    """`orient` answers as the second checker does, but for the ring, which that checker takes too. With all flags put in a closed
    surface is certified.
    """
    words = ["orient", "FILE", str(solid)]
    wanted, (status, text) = answer(words, file), program.words(words, file)
    yield f"{name}: orient", is_owed(words, file, (status, text), wanted)
    if not wanted[1].startswith(b"ORIENT"):
        return
    yield f"{name}: orient-verify", program.certificate("orient-verify", file, text) == (0, b"accepted %d\n" % solid, b"")
    if is_closed and wanted[0] == 0:
        mended = with_flags(file, solid, wanted[1].decode().splitlines()[1:-1])
        yield f"{name}: certified with the flags", program.words(["certify", "FILE", str(solid)], mended)[0] == 0
        yield f"{name}: the flags stay", program.words(words, mended) == wanted


def shells_of(file, solid):
    """The partners in each shell; none where an edge hasn't two rows, or no edge is used."""
    told = walked(File(file), solid)
    try:
        shells = [Partners(told, shell) for shell in told.shells]
    except Fail:
        return []
    return shells if all(partners.rows.count() for partners in shells) else []


def fitting_flags(partners):
    """Flags that fit a shell of few faces, found by trying all."""
    return next(flags for flags in itertools.product((0, 1), repeat=partners.rows.faces) if partners.fit(flags))


def fitting_lines(file, solid, shells):
    """A line that fits each shell, also where not all faces of one are reached."""
    text = answer(["orient", "FILE", str(solid)], file)[1].decode()
    if text.startswith("ORIENT"):
        return text.splitlines()[1:-1]
    return [line_of("F", place, fitting_flags(partners)) for place, partners in enumerate(shells, 1)]


def walk_of(rng, partners):
    """Rows from face to face by partners: back to where they began, or not."""
    rows = [rng.choice(partners.rows.numbers())]
    for _ in range(rng.randint(0, 11)):
        beyond = partners.face(partners.partners[rows[-1]])
        if beyond == partners.face(rows[0]) and rng.random() < 0.7:
            break
        rows.append(rng.choice([row for row in partners.rows.numbers() if partners.face(row) == beyond]))
    return rows


def text_at_random(rng, solid, shells, fitting):
    """Lines that fit, and flags and rings at random; or such a text, changed."""
    lines = []
    for place, (partners, line) in enumerate(zip(shells, fitting), 1):
        flags = line_of("F", place, [rng.randrange(2) for _ in range(partners.rows.faces)])
        ring = line_of("O", place, walk_of(rng, partners))
        lines.append(rng.choice([line, line, line, ring, ring, flags]))
    text = "\n".join([f"ORIENT {solid}", *lines, "END", ""]).encode()
    return text if rng.random() < 0.5 else changed(rng, text)


def changes(program, rng, name, file, solid, count):
    """Texts at random: `orient-verify` answers as the second checker does."""
    shells = shells_of(file, solid)
    fitting = fitting_lines(file, solid, shells) if shells else []
    for n in range(count if shells else 1):
        text = text_at_random(rng, solid, shells, fitting)
        wanted = answer(["orient-verify", "FILE", "CERT"], file, text)
        yield f"{name}: orient-verify of a text, {n}", program.certificate("orient-verify", file, text) == (*wanted, b"")


def made(program):
    rng = random.Random(19)
    for name, told in solids().items():
        for n, turned in enumerate((0, 0.3, 0.6)):
            file = presented(rng, told, turned)
            yield from judged(program, f"{name}, {n}", file, 1, True)
            yield from changes(program, rng, f"{name}, {n}", file, 1, 30)


def of_examples(program, examples):
    """Each solid of the examples, as it is and with faces turned at random."""
    rng = random.Random(7)
    for name, data in examples:
        closed = program.words(["certify", "FILE", "all"], data)[0] == 0
        for solid in File(data).solids():
            if answer(["show", "FILE", str(solid)], data)[0] != 0:
                continue
            shells = walked(File(data), solid).shells
            turned = with_flags(data, solid, [line_of("F", place, [rng.randrange(2) for _ in shell.faces]) for place, shell in enumerate(shells, 1)])
            for which, file in (("", data), (" with faces turned", turned)):
                yield from judged(program, f"{name}, solid {solid}{which}", file, solid, closed)
                yield from changes(program, rng, f"{name}, solid {solid}{which}", file, solid, 25)


def checks(program, examples):
    yield from made(program)
    yield from of_examples(program, examples)
