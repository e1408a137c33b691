"""The page of a solid for browsers, as the launcher's command `page` makes it, and this command where there is no launcher."""
import base64
import gzip
import os
import pathlib
from typing import List

from .content import content_of_path
from .engine import TOP
from .errors import BadFile, Error, NoProgram
from .files import default_engine
from .saying import Failed, is_utf8, print_all, say

# In the package's own folder, as a wheel has it; or beside it in a clone, or in an installed copy.
TEMPLATES = pathlib.Path(__file__).resolve().parent / "page.html", TOP / "companion" / "page.html"
USAGE, ANSWERED = 2, (0, 1, BadFile.status)


def template() -> bytes:
    return next((it for it in TEMPLATES if it.is_file()), TEMPLATES[-1]).read_bytes()


def packed(data: bytes) -> bytes:
    """A file as a page holds it."""
    return gzip.compress(data, 6, mtime=0)


def filled(page: bytes, name: bytes, number: str, text: bytes, file: bytes) -> bytes:
    """The template with the name of a file, the number of a solid, the text of `where` on it with all members, and the file as `packed` has it."""
    parts = {b"@WORDS@": name + b"\0" + number.encode(), b"@WHERE@": text, b"@FILE@": file}
    for mark, value in parts.items():
        page = page.replace(mark, base64.b64encode(value), 1)
    return page


def main(words: List[str]) -> int:
    try:
        if len(words) != 2:
            raise Failed(USAGE, "the words are igesolid page FILE N")
        if not is_utf8(words[0]):
            raise Failed(USAGE, f"{words[0]}: this argument isn't UTF-8")
        content = content_of_path(words[0])
        status, text = default_engine().ask("where", content, words[1], "all")
        if status == USAGE:
            raise Failed(USAGE, "N is a directory number of 1 to 7 digits")
        if status in ANSWERED:
            print_all(filled(template(), os.fsencode(os.path.basename(words[0])), words[1], text, packed(content.bytes)))
        return status
    except Failed as fault:
        say(fault.says)
        return fault.status
    except Error as fault:
        say(f"{words[0]}: {fault}")
        return fault.status
    except OSError as fault:
        say(f"{TEMPLATES[-1]}: {fault.strerror}")
        return NoProgram.status
