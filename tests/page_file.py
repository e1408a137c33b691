"""The page of a solid, put together as the launcher does it."""
import base64
import gzip
import pathlib

TEMPLATE = pathlib.Path(__file__).resolve().parent.parent / "companion" / "page.html"


def page_of(name, number, text, data):
    """The bytes of the page of a file of this name, with the text of `where` of a solid of it."""
    page = TEMPLATE.read_bytes()
    for word, value in ((b"WORDS", f"{name}\0{number}".encode()), (b"WHERE", text.encode()), (b"FILE", gzip.compress(data, mtime=0))):
        page = page.replace(b"@" + word + b"@", base64.b64encode(value), 1)
    return page
