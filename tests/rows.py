"""The worked rows of tests/rows, and those that follow from them; the certificates of the examples; and very long lines.

Each file of tests/rows is a list of rows: a name, the words, the input that stands for FILE (a path below the top of the
repository, or none), the text that stands for CERT where there is one, and the wanted status and standard output. A row
without a text wants the usage line. Nothing may come on standard error. Each row of `verify` is run with `upgrade` too; each
certificate that a row wants of `certify` is given to `verify` and `upgrade`, also as version 1 and as a book (version 3) of one
part, and so is each book; each text that a row wants of `open` or `orient` is given to `open-verify` or `orient-verify`.
"""
import json
from typing import NamedTuple

from programs import TOP, USAGE
from second_checker import answer, is_owed
from versions import acceptance, as_version_1, book_of, parts_of

ROWS = TOP / "tests" / "rows"
EXAMPLES = TOP / "examples"


class Row(NamedTuple):
    name: str
    words: list
    file: bytes | None
    status: int
    text: bytes
    certificate: bytes | None = None


def of_accepted(name, file, certificate, upgraded):
    """That a certificate is accepted, and upgraded to this text."""
    yield Row(f"{name}, verified", ["verify", "FILE", "CERT"], file, 0, acceptance(certificate), certificate)
    yield Row(f"{name}, upgraded", ["upgrade", "FILE", "CERT"], file, 0, upgraded, certificate)


def of_certified(name, file, certificate):
    """What `certify` writes is accepted, and upgraded as it is, and so is a book of it; so is version 1, upgraded to what it was."""
    if certificate.startswith(b"IGESCERT 2\n"):
        yield from of_accepted(f"{name}, version 1", file, as_version_1(certificate), certificate)
        yield from of_accepted(f"{name}, version 2", file, certificate, certificate)
    book = book_of(parts_of(certificate))
    yield from of_accepted(f"{name}, version 3", file, book, book)


def of_shells(row):
    """What `open` and `orient` write is accepted."""
    command, _, number = row.words
    if row.text.startswith((b"IGESOPEN", b"ORIENT")):
        yield Row(f"{row.name}, verified", [f"{command}-verify", "FILE", "CERT"], row.file, 0, b"accepted %d\n" % int(number), row.text)


def of_upgrade(row):
    """The row of `upgrade` that a row of `verify` tells: the upgraded text where the certificate is accepted, else the same."""
    text = answer(["upgrade", "FILE", "CERT"], row.file, row.certificate)[1] if row.status == 0 else row.text
    return Row(f"{row.name}, upgraded", ["upgrade", "FILE", "CERT"], row.file, row.status, text, row.certificate)


def row_of(table, told):
    file = (TOP / told["file"]).read_bytes() if told["file"] else None
    certificate = told.get("certificate")
    certificate = certificate.encode() if certificate is not None else None
    return Row(f"{table}: {told['name']}", told["words"], file, told["status"], told.get("text", USAGE).encode(), certificate)


def of_files():
    for table in sorted(ROWS.glob("*.json")):
        for row in (row_of(table.stem, told) for told in json.loads(table.read_text())):
            yield row
            if row.words[:1] == ["certify"] and row.status == 0:
                yield from of_certified(row.name, row.file, row.text)
            if row.words == ["verify", "FILE", "CERT"]:
                yield of_upgrade(row)
            if row.words[0:1] in (["open"], ["orient"]) and row.status in (0, 1):
                yield from of_shells(row)


def of_examples():
    """The certificates of the examples: each is accepted, and that of version 1 upgraded to that of version 2."""
    for path in sorted(EXAMPLES.glob("*.cert?")):
        file = (EXAMPLES / path.name.split(".")[0]).with_suffix(".igs").read_bytes()
        upgraded = path.with_suffix(".cert2") if path.suffix == ".cert1" else path
        yield from of_accepted(f"examples/{path.name}", file, path.read_bytes(), upgraded.read_bytes())
    for command, name, number in (("open", "sheet.open1", 1), ("orient", "turned.orient", 1)):
        path = EXAMPLES / name
        file, text = path.with_suffix(".igs").read_bytes(), path.read_bytes()
        row = Row(f"examples/{name}", [command, "FILE", str(number)], file, 0, text)
        yield from (row, *of_shells(row))


def of_long_lines():
    """A line of a million numbers, and one of a million bytes that are no number."""
    file, certificate = ((EXAMPLES / f"cylinder.{suffix}").read_bytes() for suffix in ("igs", "cert1"))
    for name, line, text in (("a million rows", b"C" + b" 1" * 1_000_000, b"line 7 unfit\n"), ("a million bytes", b"x" * 1_000_000, b"line 7 unfit\n")):
        yield Row(f"a corner line of {name}", ["verify", "FILE", "CERT"], file, 1, text, certificate.replace(b"C 1 5 2", line))


def checked(program, row):
    """The name of a row, with what differs, and whether it holds."""
    wanted, got = (row.status, row.text, b""), program.run(row.words, row.file, row.certificate)
    if got == wanted:
        return row.name, True
    words = " ".join(row.words)
    return f"{row.name}: {words}\n  wanted {row.status} {row.text[:200]!r}\n  got    {got[0]} {got[1][:200]!r} {got[2][:200]!r}", False


def checks(program):
    for rows in (of_files, of_examples, of_long_lines):
        for row in rows():
            yield checked(program, row)


def by_the_second_checker():
    """What the second checker says of the worked rows that have their inputs."""
    for row in of_files():
        if row.file is not None and row.status not in (2, 4):
            owed = answer(row.words, row.file, row.certificate or b"")
            yield f"{row.name}, by the second checker", is_owed(row.words, row.file, (row.status, row.text), owed)
