"""The texts of certificates: one version made of another, and books (version 3) made of the certificates of single solids."""
import itertools
import re


def as_version_1(certificate):
    """A certificate of version 2 as one of version 1: without its tally lines."""
    return re.sub(rb"TALLY .*\n", b"", certificate).replace(b"IGESCERT 2\n", b"IGESCERT 1\n", 1)


def parts_of(text):
    """The parts of a certificate of version 2 or 3, each from its solid line on, without `END`."""
    _, *parts = re.split(rb"(?m)^(?=SOLID )", re.sub(rb"END\n\Z", b"", text))
    return parts


def book_of(parts):
    return b"IGESCERT 3\n" + b"".join(parts) + b"END\n"


def books_of(parts):
    """The books of some of the parts, of at least one, in their order."""
    for count in range(1, len(parts) + 1):
        yield from (book_of(some) for some in itertools.combinations(parts, count))


def acceptance(certificate):
    """What `verify` answers of a certificate that it accepts."""
    return b"".join(b"accepted %s\n" % number for number in re.findall(rb"(?m)^SOLID (\d+)$", certificate))
