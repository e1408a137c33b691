"""What each command owes for the bytes of its inputs (docs/COMMANDS.md)."""
import functools
import re

from .canonical import text_of
from .certificates import BadPart, book, certificate, checked, upgraded
from .compaction import compacted
from .extraction import NoExtract, extracted
from .lines import BadLine
from .mending import mend, mended
from .opening import open_accepted, open_certificate
from .orientation import orientation, orientation_accepted
from .reorienting import reorient
from .reading import BadFile, File
from .shells import Rows
from .walking import Fail, walked

FILE_LIMIT, CERTIFICATE_LIMIT = 164_000_000, 536_870_912
DONE, NO, USAGE, BAD_FILE, NO_EXTRACT, TOO_LARGE = 0, 1, 2, 3, 7, 8


def solids(file):
    return "".join(f"{number}\n" for number in file.solids()).encode()


def show(file, number):
    solid = walked(file, number)
    lines = [f"solid {number}"]
    for place, shell in enumerate(solid.shells, 1):
        rows = Rows(shell)
        counts = f"faces {rows.faces} loops {rows.loops} uses {rows.count()} edges {len(rows.edges)} vertices {len(rows.vertices)}"
        lines.append(f"shell {place} entity {shell.entity} flag {shell.flag} {counts}")
    return "".join(f"{line}\n" for line in lines).encode()


def written(file):
    """A file's canonical text, where it isn't too large."""
    text = text_of(file)
    return (DONE, text) if len(text) <= FILE_LIMIT else (TOO_LARGE, b"")


def certify_all(file):
    text = book(file)
    return (NO, b"no solid\n") if text is None else (DONE, text)


def verify(file, text):
    _, named = checked(file, text)
    return b"".join(b"accepted %d\n" % number for number in named)


def upgrade(file, text):
    checked(file, text)
    return upgraded(file, text)


NUMBERED = {
    "show": lambda file, number: (DONE, show(file, number)),
    "certify": lambda file, number: (DONE, certificate(file, number)),
    "extract": lambda file, number: written(extracted(file, number)),
    "open": lambda file, number: (DONE, open_certificate(file, number)),
    "orient": orientation,
    "compact": lambda file, number: written(compacted(file, number)),
    "reorient": lambda file, number: reorient(file, number, written),
}
CHOICES = tuple("123456")
# Those that one of these may follow.
MENDING = {
    "mend": lambda file, number, choice: mend(file, number, choice, written),
    "mended": lambda file, number, choice: mended(file, number, choice, written),
}
CHECKING = {
    "verify": verify,
    "upgrade": upgrade,
    "open-verify": lambda file, text: b"accepted %d\n" % open_accepted(file, text),
    "orient-verify": lambda file, text: b"accepted %d\n" % orientation_accepted(file, text),
}


def is_number(word):
    return re.fullmatch("[0-9]{1,7}", word) is not None and int(word) > 0


def work_of(words, certificate_text):
    """What a command makes of a file that is read, by its words; None where they are of no form that is known here."""
    match words:
        case ["solids", _]:
            return lambda file: (DONE, solids(file))
        case ["certify", _, "all"]:
            return certify_all
        case [command, _, number] if command in NUMBERED and is_number(number):
            return lambda file: NUMBERED[command](file, int(number))
        case [command, _, number] if command in MENDING and is_number(number):
            return lambda file: MENDING[command](file, int(number), None)
        case [command, _, number, choice] if command in MENDING and is_number(number) and choice in CHOICES:
            return lambda file: MENDING[command](file, int(number), int(choice))
        case [command, _, _] if command in CHECKING:
            return lambda file: (DONE, CHECKING[command](file, certificate_text))
    return None


@functools.lru_cache(maxsize=64)
def file_of(text):
    return File(text)


def answer(words, text=b"", certificate_text=b""):
    """The status, and what is written to standard output; the usage line isn't told."""
    work = work_of(words, certificate_text)
    if work is None:
        return USAGE, b""
    if len(text) > FILE_LIMIT:
        return TOO_LARGE, b""
    try:
        file = file_of(text)
        return work(file) if len(certificate_text) <= CERTIFICATE_LIMIT else (TOO_LARGE, b"")
    except BadFile as bad:
        return BAD_FILE, b"bad file line %d %s\n" % (bad.line, bad.reason.encode())
    except NoExtract as refused:
        return NO_EXTRACT, b"no extract %d %s\n" % (refused.entity, refused.reason.encode())
    except BadPart as bad:
        return (TOO_LARGE, b"") if bad.fail is None else (NO, bad.text())
    except (Fail, BadLine) as bad:
        return NO, bad.text()


def is_owed(words, text, got, wanted):
    """Whether a status and a text are what a command owes, where `answer` gives `wanted`: of `orient` and `reorient` another ring may be named."""
    if got == wanted or words[0] not in ("orient", "reorient") or got[0] != wanted[0]:
        return got == wanted
    without_rings = [re.sub(rb"(?m)^(O \d+) .*$", rb"\1", told) for told in (got[1], wanted[1])]
    return without_rings[0] == without_rings[1] and answer(["orient-verify", *words[1:]], text, got[1])[0] == DONE
