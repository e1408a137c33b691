"""The edges, vertices and faces that `where` names, with their coordinates in millimetres. FreeCAD isn't needed here.

What isn't understood is left out: a record of the solid may be what fails."""
from typing import Iterator, List, NamedTuple, Optional, Tuple

from igesolid.pictures.iges import File, Unreadable, integer
from igesolid.pictures.solids import Key, Solid

Place = Tuple[float, float, float]
EDGE_LIST, VERTEX_LIST, FACE, LINE = 504, 502, 510, 110
EDGE_VALUES, VERTEX_VALUES = 5, 3
# Millimetres of a unit as FreeCAD takes it: by its flag, or for another flag by its name (IGES 5.3, 2.2.4.3.14 and 15).
FLAGS = {1: 25.4, 2: 1.0, 4: 304.8, 5: 1609344.0, 6: 1000.0, 7: 1e6, 8: 0.0254, 9: 0.001, 10: 10.0, 11: 0.0000254}
NAMES = {"-": 1, "IN": 1, "INCH": 1, "MM": 2, "FT": 4, "MI": 5, "M": 6, "KM": 7, "MIL": 8, "UM": 9, "CM": 10, "UIN": 11}


class Vertex(NamedTuple):
    key: Key
    place: Place


class Edge(NamedTuple):
    """An edge; its number among those that were read; and faces that are known to use it, as far as they were asked for."""

    key: Key
    number: int
    start: Place
    end: Place
    faces: Tuple["Face", ...] = ()


class Face(NamedTuple):
    """A face; `is_whole` if all its edges and vertices are known."""

    entity: int
    edges: Tuple[Edge, ...]
    vertices: Tuple[Vertex, ...]
    is_whole: bool

    @property
    def key(self) -> int:
        return self.entity


def millimetres(flag: str, name: str) -> float:
    """How many make the unit of a file, by parameters 14 and 15 of its global section as `where` spells them; 1 for an unknown name."""
    number = int(flag) if flag.isdigit() and int(flag) in FLAGS else NAMES.get(name)
    return FLAGS[number] if number else 1.0


def _real(spelled: bytes) -> float:
    return float(spelled.decode("ascii").upper().replace("D", "E")) if spelled else 0.0


class Topology(Solid):
    """The records of a file, read as far as something asks for them."""

    def __init__(self, file: File, scale: float):
        self.file, self.scale, self.edges, self.vertices = file, scale, [], []
        self.edge_numbers, self.vertex_numbers = {}, {}

    def is_listed(self, key: Key, kind: int, width: int) -> bool:
        """Whether a list of this type has an item of this index."""
        entity, index = key
        try:
            values = self.values(entity)
            return self.file.entry(entity).kind == kind and 1 <= index <= integer(values[0]) and len(values) > width * index
        except (Unreadable, LookupError, ValueError):
            return False

    def edge(self, key):
        if not self.is_listed(key, EDGE_LIST, EDGE_VALUES):
            raise Unreadable("an edge that isn't listed")
        return super().edge(key)

    def vertex(self, key):
        if not self.is_listed(key, VERTEX_LIST, VERTEX_VALUES):
            raise Unreadable("a vertex that isn't listed")
        return super().vertex(key)

    def place(self, vertex: int) -> Place:
        x, y, z = (_real(it) * self.scale for it in self.coordinates(vertex))
        return x, y, z

    def vertex_of(self, key: Key) -> Optional[Vertex]:
        try:
            return Vertex(key, self.place(self.vertex(key)))
        except (Unreadable, LookupError, ValueError):
            return None

    def edge_of(self, key: Key) -> Optional[Edge]:
        try:
            number = self.edge(key)
            it = self.edges[number]
            return Edge(key, number, self.place(it.start), self.place(it.end))
        except (Unreadable, LookupError, ValueError):
            return None

    def is_line(self, edge: Edge) -> bool:
        """Whether the curve of an edge is a line where it stands."""
        try:
            entry = self.file.entry(self.edges[edge.number].curve)
            return (entry.kind, entry.matrix) == (LINE, 0)
        except Unreadable:
            return False

    def faces(self) -> Iterator[Face]:
        """All faces of the file."""
        numbers = range(1, self.file.records_at - self.file.directory_at, 2)
        return (it for it in map(self.face_of, numbers) if it is not None)

    def face_of(self, entity: int) -> Optional[Face]:
        """A face with the edges and vertices of those of its loops that can be read."""
        try:
            if self.file.entry(entity).kind != FACE:
                return None
            values = self.values(entity)
            loops = [integer(it) for it in values[3 : 3 + integer(values[1])]]
        except (Unreadable, LookupError, ValueError):
            return None
        uses, is_whole = [], True
        for number in loops:
            try:
                uses += self.loop(number).uses
            except (Unreadable, LookupError, ValueError):
                is_whole = False
        edges = _known(self.edge_of(self.edges[it].key) for it in dict.fromkeys(use.edge for use in uses if use.edge is not None))
        vertices = _known(self.vertex_of(self.vertices[it]) for it in dict.fromkeys(at for use in uses for at in (use.start, use.end)))
        return Face(entity, tuple(edges), tuple(vertices), is_whole)


def _known(found) -> List:
    return [it for it in found if it is not None]
