"""Files and certificates that arrive in pieces of random sizes, through FIFOs: the same status and text as of plain files."""
import random

import examples
import pieces
from changes import changed, changed_book
from programs import TOP
from sample_file import sample_text
from spawned import SECONDS
from versions import as_version_1


def run_in_pieces(program, words, file, certificate, measured=False):
    """What the program gives where file and certificate come in pieces, and, where it is measured, the peak memory in kilobytes."""
    inputs = {"file.igs": file} if certificate is None else {"file.igs": file, "cert.txt": certificate}
    words = [{"FILE": "file.igs", "CERT": "cert.txt"}.get(word, word) for word in words]
    return pieces.run([program.path, *words], program.folder, inputs, SECONDS, measured)


def given(program):
    """Files, each with the number of a solid, or with `all`, and a certificate."""
    for path in ("tiny.igs", "cube_void.igs", "two_solids.igs", "occt/14_box_void_sphere.igs"):
        file = (TOP / "examples" / path).read_bytes()
        solid = examples.solids_in(program, file)[-1]
        yield file, solid, program.words(["certify", "FILE", solid], file)[1]
    for path in ("examples/two_solids.igs", "examples/occt/16_three_solids.igs", "tests/inputs/solids_over_shared_faces.igs"):
        file = (TOP / path).read_bytes()
        yield file, "all", program.words(["certify", "FILE", "all"], file)[1]
    cube, certificate = ((TOP / "examples" / name).read_bytes() for name in ("cube.igs", "cube.cert2"))
    yield cube.replace(b"\n", b"\r\n")[:-2], "1", certificate
    yield cube[:5_000], "1", certificate
    sample = sample_text(40)
    yield sample, "1", program.words(["certify", "FILE", "1"], sample)[1]


def is_alike(program, rng, words, file, certificate):
    """Whether a run gives the same where its inputs come in pieces."""
    wanted = program.run(words, file, certificate)
    cuts = [text if text is None else pieces.cut(rng, text) for text in (file, certificate)]
    return run_in_pieces(program, words, *cuts)[0] == wanted


def of_solids(program):
    rng = random.Random(514)
    for n, (file, solid, certificate) in enumerate(given(program)):
        for command in ("solids", "certify", "verify", "verify", "upgrade", "upgrade"):
            words = [command, "FILE"] + {"solids": [], "certify": [solid]}.get(command, ["CERT"])
            other = changed_book(rng, certificate) if solid == "all" else as_version_1(certificate)
            text = rng.choice([certificate, other, changed(rng, certificate)]) if "CERT" in words else None
            yield f"{command} in pieces, input {n}", is_alike(program, rng, words, file, text)


def of_shells(program):
    """The same of open shells, orientations and compact files."""
    rng = random.Random(504)
    for command, name in (("open", "sheet.open1"), ("orient", "turned.orient")):
        path = TOP / "examples" / name
        file, certificate = path.with_suffix(".igs").read_bytes(), path.read_bytes()
        for n in range(6):
            other = changed(rng, certificate) if n % 2 else certificate
            for words, text in (([command, "FILE", "1"], None), ([f"{command}-verify", "FILE", "CERT"], other), (["compact", "FILE", "1"], None)):
                yield f"{words[0]} in pieces, {name} {n}", is_alike(program, rng, words, file, text)


def checks(program):
    yield from of_solids(program)
    yield from of_shells(program)
