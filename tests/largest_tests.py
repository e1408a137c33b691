"""The largest inputs: solids of the most loop uses, and certificates of hundreds of megabytes."""
import itertools

import examples
from arrival_tests import run_in_pieces
from programs import TOP
from sample_file import points_text, solid_of_points
from versions import book_of

CERTIFICATE_LIMIT = 536_870_912
# How many kilobytes more `verify` may need for a certificate of 400 MB than for one of 4 KB.
MORE_MEMORY = 1_024


def uses(program):
    """Solids of 100,000 loop uses each, and one more: a book may have 6,000,000 uses, and too many come before what its shells lack."""
    few, unjoined = (lambda entry: solid_of_points(entry, [1])), (lambda entry: solid_of_points(entry, [1, 2]))
    without_shell = lambda entry: [(186, 0, [entry, 1, 0])]
    for name, solids, last, wanted in (
        ("60 solids of 100,000 uses", 60, lambda entry: [], None),
        ("59, and one of one use", 59, few, None),
        ("60, and one of one use", 60, few, (8, "")),
        ("59, and one whose loop doesn't join", 59, unjoined, (1, "solid {0}\nfail JOIN {1} 1\n")),
        ("60, and one whose loop doesn't join", 60, unjoined, (8, "")),
        ("60, and one whose shell is itself", 60, without_shell, (1, "solid {0}\nfail TYPE {0} 1\n")),
    ):
        file, entry = points_text(100_000, solids, last)
        if wanted is None:
            numbers = examples.solids_in(program, file)
            wanted = 0, book_of(f"SOLID {number}\nSHELL 1 0 0 1 1\nI 1 1\nTALLY 1 0 1 1\n".encode() for number in numbers).decode()
        status, text = wanted
        yield f"uses: {name}", program.words(["certify", "FILE", "all"], file) == (status, text.format(entry, entry + 6).encode())


def blocks(text, count):
    """The text again and again, cut behind so many bytes, in pieces of about a megabyte."""
    block = text * (1_000_000 // len(text))
    for _ in range(count // len(block)):
        yield block
    yield block[: count % len(block)]


def cylinder():
    return [(TOP / "examples" / "cylinder.igs").read_bytes()]


def verified_certificates(program):
    """Behind a bad line, and in a line that doesn't end, `verify` needs no more memory for 400 MB than for 4 KB; and the limit."""

    def verified(opening, more, count):
        certificate = itertools.chain([opening], blocks(more, count - len(opening)))
        return run_in_pieces(program, ["verify", "FILE", "CERT"], cylinder(), certificate, measured=True)

    bad, endless, book = b"IGESCERT 2\nSOLID 1\nSHELL 9\n", b"IGESCERT 2\nSOLID 1\n", b"IGESCERT 3\nSOLID 1\nSHELL 9\n"
    misspelt = 1, b"line 3 misspelt\n", b""
    for name, opening, more, count in (
        ("400 MB behind a bad line", bad, b"E 1 5\n", 400_000_000),
        ("a line of 400 MB", endless, b"x", 400_000_000),
        ("400 MB behind a bad line of a book", book, b"E 1 5\n", 400_000_000),
        ("a certificate of the most bytes", bad, b"E 1 5\n", CERTIFICATE_LIMIT),
    ):
        _, few = verified(opening, more, 4_096)
        got, many = verified(opening, more, count)
        yield f"{name}: the answer", got == misspelt
        yield f"{name}: the memory", None not in (few, many) and many <= few + MORE_MEMORY
    yield "a certificate of one byte more", verified(bad, b"E 1 5\n", CERTIFICATE_LIMIT + 1)[0] == (8, b"", b"")


def held_certificates(program):
    """A certificate over the limit for the commands that hold it, which need more than half a gigabyte of memory then."""
    for command in ("upgrade", "open-verify", "orient-verify"):
        certificate = blocks(b"E 1 5\n", CERTIFICATE_LIMIT + 1)
        got, _ = run_in_pieces(program, [command, "FILE", "CERT"], cylinder(), certificate)
        yield f"{command} of a certificate of one byte too many", got == (8, b"", b"")
