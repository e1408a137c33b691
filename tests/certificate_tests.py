"""Certificates of the examples' solids: what `certify` writes, upgraded, in books, and changed at random beside the second checker."""
import random
import re

import examples
import rows
from changes import changed, changed_book
from programs import TOP
from second_checker import answer
from versions import as_version_1, book_of, books_of, parts_of

CHANGES, CHANGES_OF_BOOKS = 120, 200


def upgrades(program):
    """What `certify` writes of the examples' solids, made one of version 1, is upgraded as the second checker does, to what it was."""
    for name, file, certificate in examples.certified(program):
        first = as_version_1(certificate)
        yield f"{name} certificate of version 2 by the second checker", answer(["upgrade", "FILE", "CERT"], file, first) == (0, certificate)
        for row in rows.of_certified(name, file, certificate):
            yield rows.checked(program, row)


def book_wanted(program, file, solids):
    """The status and text of `certify` with `all`, by what it answers of each solid."""
    parts = []
    for solid in solids:
        status, text = program.words(["certify", "FILE", solid], file)
        if status != 0:
            return 1, f"solid {solid}\n".encode() + text
        parts += parts_of(text)
    return (0, book_of(parts)) if parts else (1, b"no solid\n")


def books(program):
    """The book of each file is made of the certificates of its solids; it is accepted, as are those of some of the solids."""
    for name, file, solids in examples.with_solids(program):
        status, book = program.words(["certify", "FILE", "all"], file)
        yield f"{name} certified whole", (status, book) == book_wanted(program, file, solids)
        for n, some in enumerate(books_of(parts_of(book)) if status == 0 else []):
            for row in rows.of_accepted(f"{name} book {n}", file, some, some):
                yield rows.checked(program, row)


def without_reach(certificate):
    return re.sub(rb"(?m)^R .*\n", b"", certificate)


def determined_lines(program):
    """The certificates of the examples and those that `certify` writes differ in their reach lines alone."""
    for path in sorted((TOP / "examples").glob("*.cert2")):
        certificate = path.read_bytes()
        file = (TOP / "examples" / path.name.split(".")[0]).with_suffix(".igs").read_bytes()
        written = program.words(["certify", "FILE", certificate.split()[3].decode()], file)
        yield f"examples/{path.name} certified", written[0] == 0 and without_reach(written[1]) == without_reach(certificate)


def checks(program):
    for run in (upgrades, books, determined_lines):
        yield from run(program)


def judged_alike(program, name, file, text, is_upgraded):
    """The program and the second checker judge a certificate alike, and where it is accepted, or so wanted, upgrade it alike."""
    wanted = answer(["verify", "FILE", "CERT"], file, text)
    yield name, program.certificate("verify", file, text) == (*wanted, b"")
    if wanted[0] == 0 or is_upgraded:
        upgraded = answer(["upgrade", "FILE", "CERT"], file, text)
        yield f"{name}, upgraded", program.certificate("upgrade", file, text) == (*upgraded, b"")


def changed_certificates(program):
    """Changed certificates of the examples' solids: the program and the second checker answer the same, and upgrade to the same text."""
    rng = random.Random(186)
    for name, file, certificate in examples.certified(program):
        for n in range(CHANGES):
            text = changed(rng, certificate if n % 2 else as_version_1(certificate))
            yield from judged_alike(program, f"{name} certificate changed, {n}", file, text, n % 8 == 0)


def changed_books(program):
    """Changed books of the files with more than one solid, all closed: as with changed certificates."""
    rng = random.Random(514)
    for name, file, solids in examples.with_solids(program):
        status, book = program.words(["certify", "FILE", "all"], file)
        if status != 0 or len(solids) < 2:
            continue
        for n in range(CHANGES_OF_BOOKS):
            yield from judged_alike(program, f"{name} book changed, {n}", file, changed_book(rng, book), n % 8 == 0)


def changes(program):
    yield from changed_certificates(program)
    yield from changed_books(program)
