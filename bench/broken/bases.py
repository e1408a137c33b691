"""The closed solids that are broken: of each file its largest one of at most so many faces, made compact."""
import pathlib
from typing import NamedTuple

from .iges import SOLID, VERTICES, File
from .judge import value

MOST_FACES = 130


class Base(NamedTuple):
    name: str
    data: bytes
    solid: int
    shells: int
    faces: int
    # Parameters 13 to 15 of the global section: scale and units.
    units: tuple
    # The places of its vertices.
    places: frozenset


def faces_of(file, solid):
    return sum(len(file.get(shell)) for shell, _ in file.get(solid))


def based(path, data, file, shells):
    solid = file.solids()[0]
    places = frozenset(tuple(map(value, item)) for entry in file.entries if entry.kind == VERTICES for item in entry.record)
    return Base(path.stem, data, solid, shells, faces_of(file, solid), tuple(file.globals[10:13]), places)


def base_of(path, run):
    """The base of a file; None where it has no closed solid that isn't too large. `run` gives the status and the output of igesolid."""
    status, told = run("solids", path)
    if status != 0:
        return None
    data = pathlib.Path(path).read_bytes()
    closed = [int(solid) for solid in told.split() if run("certify", path, solid.decode())[0] == 0]
    file = File(data)
    sizes = [(faces_of(file, solid), -solid) for solid in closed if file.at(solid).form == 0]
    fitting = [size for size in sizes if 1 < size[0] <= MOST_FACES]
    if not fitting:
        return None
    status, compact = run("compact", path, str(-max(fitting)[1]))
    if status != 0:
        return None
    alone = File(compact)
    solids = [entry.number for entry in alone.entries if entry.kind == SOLID]
    return based(path, compact, alone, len(alone.get(solids[0]))) if len(solids) == 1 else None


def touching_base(path):
    """A file of several solids that touch, as it is."""
    data = path.read_bytes()
    return based(path, data, File(data), 1)


def bases_of(paths, run):
    """The bases of files, by their names, and the files of bodies that touch, whose names begin with `t_`."""
    bases = {}
    for path in sorted(map(pathlib.Path, paths), key=lambda path: path.stem):
        base = touching_base(path) if path.stem.startswith("t_") else base_of(path, run)
        if base is not None:
            bases.setdefault(base.name, base)
    return list(bases.values())
