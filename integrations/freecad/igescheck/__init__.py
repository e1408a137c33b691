"""Whether the solids of an IGES file are closed, and where they fail, in FreeCAD. The verdicts are those of the Python package igesolid."""
import pathlib
import sys

TOP = pathlib.Path(__file__).resolve().parent.parent
# The package lies in the add-on as packaging/freecad makes it; in a clone of the repository it lies above.
for place in TOP, TOP.parent.parent:
    if (place / "python" / "igesolid").is_dir():
        sys.path.insert(0, str(place / "python"))
        break
