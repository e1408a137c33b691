"""What dist/libraries makes, for the tests: where it lies, or that it is missing."""
import hashlib

from programs import DIST, TOP, sources

HEADER = TOP / "packaging" / "c"
EXAMPLES = TOP / "examples"


def shipped(name):
    """The path of a file of dist/, or None if it isn't there, isn't of these sources or isn't the one whose checksum stands beside it."""
    path = DIST / name
    if not path.is_file() or f"sources {sources()[0]}\n" not in (DIST / "BUILT").read_text():
        return None
    line = f"{hashlib.sha256(path.read_bytes()).hexdigest()}  {name}\n"
    return path if line in (DIST / "SHA256SUMS").read_text() else None


def examples():
    return sorted(EXAMPLES.rglob("*.igs"))


def requests(where, example):
    """What is asked of an example, as a program's words with - for the file: of all solids, and of each."""
    yield "where", "-"
    for words in (("solids",), ("certify", "all")):
        yield words[0], "-", *words[1:]
    told = where.run([str(example)])[1].decode(errors="replace")
    for line in told.splitlines():
        if line.startswith("solid "):
            number = line.split()[1]
            yield "where", "-", number
            yield "where", "-", number, "all"
            for command in ("show", "certify", "extract", "compact", "open", "orient"):
                yield command, "-", number


def answer(program, where, example, words):
    """The status and the text of the programs for what is asked of a file."""
    path = str(example)
    if words[0] == "where":
        return where.run([path, *words[2:]])[:2]
    return program.run([words[0], path, *words[2:]])[:2]
