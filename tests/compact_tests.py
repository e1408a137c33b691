"""Compact files of solids, made here and of the examples: as the second checker makes them, and with the verdict that the solid had."""
import random

from second_checker import answer
from second_checker.compaction import compacted_with_names
from second_checker.reading import File
from shapes import Grid, beside, disc, presented, torus


def renamed(line, numbers, ranks):
    """What a line that names a failing rule becomes in the compact file."""
    _, rule, entity, place = line.decode().split()
    place = ranks[int(entity), int(place)] if rule in ("PAIR", "LINK", "APART") else place
    return f"fail {rule} {numbers[int(entity)]} {place}\n".encode()


def judged(program, name, data, solid):
    """The text is that of the second checker. The verdict stays, with the entity renamed and the place a rank."""
    words = ["compact", "FILE", str(solid)]
    status, text = answer(words, data)
    yield f"{name}: compact", program.words(words, data) == (status, text)
    if status != 0:
        return
    _, numbers, ranks = compacted_with_names(File(data), solid)
    number = str(numbers[solid])
    before, told = program.words(["certify", "FILE", str(solid)], data)
    wanted = renamed(told, numbers, ranks) if before == 1 else told.replace(b"SOLID %d\n" % solid, b"SOLID %s\n" % number.encode(), 1)
    yield f"{name}: certified when compact", program.words(["certify", "FILE", number], text) == (before, wanted)
    again = ["compact", "FILE", number]
    yield f"{name}: compact again", program.words(again, text) == answer(again, text)


def made(program):
    """Solids whose lists hold unused items: closed ones, and such as fail JOIN, PAIR, REACH, LINK and APART."""
    rng = random.Random(504)
    for name, told, shared in (
        ("torus", [torus(3, 3)], {}),
        ("two tori", [torus(2, 2), torus(1, 2)], {}),
        ("two tori that share a vertex", [torus(2, 2), torus(1, 2)], {(1, (0, 1)): (0, (1, 1))}),
        ("torus with a use turned", [torus(2, 2).unjoined()], {}),
        ("disc", [disc(5)], {}),
        ("two tori in a shell", [beside(torus(2, 2), torus(1, 2))], {}),
        ("Klein bottle", [Grid(2, 3, "mirrored", "straight").surface()], {}),
        ("pinched torus", [torus(4, 4).merged({(2, 2): (0, 0)})], {}),
    ):
        for spare in (0, 1, 7, 40):
            yield from judged(program, f"{name} beside {spare}", presented(rng, told, spare=spare, shared=shared), 1)


def checks(program, examples):
    yield from made(program)
    for name, data in examples:
        for solid in File(data).solids():
            yield from judged(program, f"{name}, solid {solid}", data, solid)
