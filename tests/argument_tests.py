"""A word that isn't UTF-8, alone or at any place: status 2 and the usage line."""
from programs import TOP, USAGE

BYTE = b"\xff"


def checks(program):
    cube, certificate = TOP / "examples" / "cube.igs", TOP / "examples" / "cube.cert2"
    for words in (
        [BYTE], [BYTE, cube], ["solids", BYTE], ["solids", cube, BYTE], ["show", cube, BYTE], ["verify", BYTE, certificate], ["verify", cube, BYTE],
    ):  # fmt: skip
        places = ", ".join("byte 255" if word == BYTE else str(word) for word in words)
        yield f"words: {places}", program.run(words) == (2, USAGE.encode(), b"")
