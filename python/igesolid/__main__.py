"""The command igesolid of a wheel, and `python -m igesolid`: the commands in Python, and by the shared library those of the programs."""
import os
import signal
import sys
from typing import List, Optional

from .content import FILE_LIMIT, content_of_file, content_of_path
from .engine import JUDGE, PROGRAMS, WHERE, Answer
from .errors import BadFile, Error, TooLarge
from .library import Library
from .saying import Failed, print_all, say

USAGE, CERTIFICATE_LIMIT = 2, 536_870_912
# Commands that name no file, and those that name a certificate.
WITHOUT_FILE, WITH_CERTIFICATE = ("sample",), ("verify", "upgrade", "open-verify", "orient-verify")
# What is said of no certificate: that of a bad file, or of a large one, comes first.
BEFORE_CERTIFICATES = BadFile.status, TooLarge.status


def read(name: str, limit: int = FILE_LIMIT) -> bytes:
    return (content_of_file(sys.stdin.buffer, limit) if name == "-" else content_of_path(name, limit)).bytes


def answer_of(words: List[str]) -> Answer:
    """What the programs answer to these words. Words of no form read no file."""
    command = words[0] if words else ""
    program = PROGRAMS.get(command, JUDGE)
    files = [k for k in (1, 2) if k < len(words) and command not in WITHOUT_FILE and (k == 1 or command in WITH_CERTIFICATE)]
    told = [b"-" if k in files else os.fsencode(word).replace(b"\n", b" ") for k, word in enumerate(words)]
    # A byte that isn't UTF-8 stands for no words at all.
    said = b"\n".join(told[1:] if program == WHERE else told) or b"\xff"
    library = Library()
    found = library.answer(program, said)
    if found.status == USAGE or not files:
        return found
    file = read(words[1])
    if len(files) == 1:
        return library.answer(program, said, file)
    try:
        certificate = read(words[2], CERTIFICATE_LIMIT)
    except Error:
        found = library.answer(program, said, file)
        if found.status in BEFORE_CERTIFICATES:
            return found
        raise
    return library.answer(program, said, file, certificate)


def proved(words: List[str]) -> int:
    # An interrupt ends it without a word, as it ends the programs.
    signal.signal(signal.SIGINT, signal.SIG_DFL)
    try:
        status, text = answer_of(words)
        print_all(text)
        return status
    except Failed as fault:
        say(fault.says)
        return fault.status
    except Error as fault:
        say(f"{words[1]}: {fault}" if len(words) > 1 else str(fault))
        return fault.status


def main(given: Optional[List[str]] = None) -> int:
    words = sys.argv[1:] if given is None else given
    if words[:1] == ["check"]:
        from .check.command import main as check

        return check(words[1:])
    if words[:1] == ["marks"]:
        from .pictures.command import main as marks

        return marks(words[1:])
    if words[:2] == ["where", "--json"]:
        from .where_json import main as where_json

        return where_json(words[1:])
    if words[:1] == ["page"]:
        from .page import main as page

        return page(words[1:])
    return proved(words)


if __name__ == "__main__":
    sys.exit(main())
