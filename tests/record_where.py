#!/usr/bin/env python3
"""Records anew what tests and pages quote of `where`: the texts of tests/recorded, the stored run of the crate igesolid_where, the samples in README.md
and docs/COMMANDS.md, the verdicts in docs/GALLERY.md, and the checksum in the last row of docs/CHANGES.md. Prints the name of each
file that changes.

  tests/record_where.py [PROGRAM]    by igesolid-where, or else by the one that tests/run takes"""
import hashlib
import pathlib
import re
import subprocess
import sys
import tempfile

import gallery
from pages import EDITION
from picture_tests import RECORDED, TOP, example
from programs import chosen

SAMPLE = re.compile(r"(?m)^(\$ \./igesolid where ([^|>\n]*)\n)((?:(?!\$ |```).*\n)*)")


def write(path, text):
    if path.read_text() != text:
        path.write_text(text)
        print(path.relative_to(TOP))


def told(where, *words, folder=TOP):
    return subprocess.run([where, *map(str, words)], cwd=folder, stdout=subprocess.PIPE).stdout.decode()


def record_texts(where):
    for path in sorted(RECORDED.glob("*.txt")):
        name, number = path.stem.rsplit(".", 1)
        write(path, told(where, example(name), number, "all"))


def record_run(where):
    crate = TOP / "crates" / "igesolid_where"
    write(crate / "stdout", told(where, *(crate / "args").read_text().splitlines(), folder=crate / "data"))


def record_samples(where):
    for name in ("README.md", "docs/COMMANDS.md"):
        text = (TOP / name).read_text()
        write(TOP / name, SAMPLE.sub(lambda it: it[1] + told(where, *it[2].split()), text))


def quoted(where, name, number):
    """The verdict on a solid of the gallery."""
    with tempfile.NamedTemporaryFile(suffix=".igs") as file:
        file.write(gallery.content(gallery.file_of(name)))
        file.flush()
        return f"`{told(where, file.name, number).splitlines()[0]}`"


def record_gallery(where):
    text = gallery.PAGE.read_text()
    write(gallery.PAGE, gallery.ROW.sub(lambda it: it[0].replace(f"| {it[5]} |", f"| {quoted(where, it[2], it[3])} |"), text))


def record_checksum():
    path = TOP / "docs" / "CHANGES.md"
    text = path.read_text()
    last = list(EDITION.finditer(text))[-1]
    recorded = hashlib.sha256(b"".join(it.read_bytes() for it in sorted(RECORDED.glob("*.txt")))).hexdigest()
    write(path, text[: last.start(2)] + recorded[:16] + text[last.end(2) :])


def main(words):
    where = pathlib.Path(words[0]).resolve() if words else chosen().where
    record_texts(where)
    record_run(where)
    record_samples(where)
    record_gallery(where)
    record_checksum()


if __name__ == "__main__":
    main(sys.argv[1:])
