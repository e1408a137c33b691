"""Texts of `where` with remedies, written by hand: each line that a remedy may have, on solids of examples/. What reads the texts is tried on
them, not the programs. tests/remedies has them, named for the file and the solid."""
import gzip
import pathlib

TOP = pathlib.Path(__file__).resolve().parent.parent
FOLDER = TOP / "tests" / "remedies"
UNJUDGED = """solids 3 failing 1
solid 1 closed
  lines directory 4 record 72 72
solid 11 fail PAIR 7 1
  lines directory 14 record 92 92
solid 21 unjudged
  lines directory 24 record 99 99
hint unjudged solids 1
  A sentence.
"""
MENDED = """hint remedy 1 shell 1
step sew seams 2
  A sentence.
seam sure edge 7 1 edge 7 13
seam places edge 7 2 edge 7 14
hint remedy 2 shell 3
step turn faces 30
  Another sentence.
turn 21 plane
more 29
"""


def data_of(stem):
    """The bytes of an example."""
    path = next(it for it in sorted((TOP / "examples").rglob("*")) if it.name in (f"{stem}.igs", f"{stem}.igs.gz"))
    return gzip.decompress(path.read_bytes()) if path.suffix == ".gz" else path.read_bytes()


def texts():
    """Of each text the name of its file without an ending, the number of its solid, and the text."""
    for path in sorted(FOLDER.glob("*.txt")):
        stem, number = path.name.split(".")[:2]
        yield stem, int(number), path.read_text()
