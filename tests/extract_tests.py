"""Each solid of the examples, extracted where it can be: the verdict stays, and extracting again changes nothing; nor does extracting
the one solid of a file that is as igesolid writes it.
"""
import examples
from programs import TOP

CANONICAL = "tiny", "point", "ball", "cylinder", "cube", "cube_void", "two_tetrahedra"


def with_solid(text, number):
    """What certify printed, with the number of its solid in place of the one there, or without the entity where a rule fails."""
    words = text.decode().split()
    if words[0] == "fail":
        return [words[1], words[3]]
    return text.replace(b"SOLID " + words[3].encode() + b"\n", b"SOLID " + str(number).encode() + b"\n", 1)


def checks(program):
    for name in CANONICAL:
        file = (TOP / "examples" / f"{name}.igs").read_bytes()
        yield f"{name} stays as it is", program.words(["extract", "FILE", "1"], file) == (0, file)
    for name, file in examples.named():
        for solid in examples.solids_in(program, file):
            status, alone = program.words(["extract", "FILE", solid], file)
            yield f"{name} {solid} extracted", status == 0
            number = program.words(["solids", "FILE"], alone)[1].decode().strip()
            yield f"{name} {solid} extracted again", program.words(["extract", "FILE", number], alone) == (0, alone)
            before = program.words(["certify", "FILE", solid], file)
            after = program.words(["certify", "FILE", number], alone)
            yield f"{name} {solid} certified when extracted", before[0] == after[0] and with_solid(before[1], 1) == with_solid(after[1], 1)
