"""The files of the examples and of the tests' inputs, with what the program says of their solids."""
from programs import TOP


def paths():
    """The files of the examples, but for those whose answer is no, which have a table of their own."""
    return sorted(path for path in (TOP / "examples").rglob("*.igs") if path.parent.name != "no")


def named():
    """The name and the text of each file of the examples."""
    return [(str(path.relative_to(TOP)), path.read_bytes()) for path in paths()]


def solids_in(program, file):
    """The numbers of the solids in a file, as words; none if it is bad."""
    status, text = program.words(["solids", "FILE"], file)
    return text.decode().split() if status == 0 else []


def with_solids(program):
    """The name and the text of each file of the examples and inputs that isn't bad, and its solids' numbers."""
    for path in sorted([*paths(), *(TOP / "tests" / "inputs").glob("*.igs")]):
        file = path.read_bytes()
        status, solids = program.words(["solids", "FILE"], file)
        if status == 0:
            yield path.relative_to(TOP), file, solids.decode().split()


def certified(program):
    """The name, the file and the certificate that `certify` writes of each solid of the examples that is closed."""
    for name, file in named():
        for solid in solids_in(program, file):
            status, certificate = program.words(["certify", "FILE", solid], file)
            if status == 0:
                yield f"{name} {solid}", file, certificate
