"""Whether the solids in a file of IGES 5.3 are closed, as the proved program `igesolid` judges them.

    import igesolid

    file = igesolid.read("part.igs")
    for solid in file.solids:
        print(solid.number, solid.verdict)

docs/LIBRARY.md of the repository describes the classes and the errors. Needs Python 3.8.
"""
from .engine import Answer, Engine, Program
from .errors import BadFile, BadLayout, Error, NeedsFaces, NoExtract, NoFlags, NoMemory, NoProgram, NotMended, NotRead, Stuck, TooLarge, Unsure, WrongRecord
from .files import File, Solid, Verdict, default_engine, layout, read, relayout
from .library import Library
from .where import Mended, Where
from .where_lines import NotUnderstood

__all__ = [
    "Answer", "BadFile", "BadLayout", "Engine", "Error", "File", "Library", "Mended", "NeedsFaces", "NoExtract", "NoFlags", "NoMemory", "NoProgram",
    "NotMended", "NotRead", "NotUnderstood", "Program", "Solid", "Stuck", "TooLarge", "Unsure", "Verdict", "Where", "WrongRecord", "default_engine",
    "layout", "read", "relayout",
]  # fmt: skip
