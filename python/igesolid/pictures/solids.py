"""The faces, loops, edges and vertices of a solid, as its records tell them (IGES 5.3, sections 4.144 to 4.148: types 186, 514, 510, 508, 504 and 502).

The proved program has found the records whole before this reads them."""
from typing import Dict, List, NamedTuple, Optional, Sequence, Tuple

from .iges import File, Unreadable, integer

# An edge or a vertex: the number of its list, and its index there.
Key = Tuple[int, int]


class Use(NamedTuple):
    """A tuple of a loop: the number of its edge, or None at a vertex; whether it runs along the edge; the vertices it leads from and to."""

    edge: Optional[int]
    along: bool
    start: int
    end: int


class Loop(NamedTuple):
    entity: int
    uses: List[Use]


class Face(NamedTuple):
    entity: int
    surface: int
    flag: int
    loops: List[Loop]


class Shell(NamedTuple):
    entity: int
    flag: int
    faces: List[Face]

    def counts(self) -> Tuple[int, int, int]:
        """How many faces, edges and vertices the shell has."""
        uses = [use for face in self.faces for loop in face.loops for use in loop.uses]
        edges = {use.edge for use in uses if use.edge is not None}
        return len(self.faces), len(edges), len({vertex for use in uses for vertex in (use.start, use.end)})


class Edge(NamedTuple):
    """An edge's list and index in it, the entity of its curve, and its two vertices."""

    key: Key
    curve: int
    start: int
    end: int


class Solid:
    """A solid's shells, the outer one first; its edges and its vertices (list and index), numbered from 0 in the order they are met."""

    def __init__(self, file: File, number: int):
        self.file, self.entity = file, number
        self.edges: List[Edge] = []
        self.vertices: List[Key] = []
        self.edge_numbers: Dict[Key, int] = {}
        self.vertex_numbers: Dict[Key, int] = {}
        values = self.values(number)
        more = integer(values[2]) if len(values) > 2 else 0
        self.shells = [self.shell(*pair) for pair in pairs(values[:2] + values[3 : 3 + 2 * more])]

    def values(self, number: int) -> List[bytes]:
        return self.file.values(number)

    def shell(self, number: int, flag: int) -> Shell:
        values = self.values(number)
        return Shell(number, flag, [self.face(*pair) for pair in pairs(values[1 : 1 + 2 * integer(values[0])])])

    def face(self, number: int, flag: int) -> Face:
        values = self.values(number)
        return Face(number, integer(values[0]), flag, [self.loop(integer(it)) for it in values[3 : 3 + integer(values[1])]])

    def loop(self, number: int) -> Loop:
        values, at = self.values(number), 1
        uses: List[Use] = []
        for _ in range(integer(values[0])):
            kind, entity, index, flag = (integer(it) for it in values[at : at + 4])
            uses.append(self.use(kind, (entity, index), flag == 1))
            curves = integer(values[at + 4]) if at + 4 < len(values) else 0
            at += 5 + 2 * curves
        return Loop(number, uses)

    def use(self, kind: int, key: Key, along: bool) -> Use:
        if kind == 1:
            vertex = self.vertex(key)
            return Use(None, along, vertex, vertex)
        number = self.edge(key)
        edge = self.edges[number]
        return Use(number, along, edge.start, edge.end) if along else Use(number, along, edge.end, edge.start)

    def edge(self, key: Key) -> int:
        """The number of an edge, which is met here for the first time or again."""
        if key not in self.edge_numbers:
            entity, index = key
            curve, *ends = (integer(it) for it in self.values(entity)[5 * index - 4 : 5 * index + 1])
            edge = Edge(key, curve, self.vertex((ends[0], ends[1])), self.vertex((ends[2], ends[3])))
            self.edge_numbers[key] = len(self.edges)
            self.edges.append(edge)
        return self.edge_numbers[key]

    def vertex(self, key: Key) -> int:
        found = self.vertex_numbers.setdefault(key, len(self.vertices))
        if found == len(self.vertices):
            self.vertices.append(key)
        return found

    def coordinates(self, vertex: int) -> List[bytes]:
        """The three coordinates of a vertex as they are spelled."""
        entity, index = self.vertices[vertex]
        return self.values(entity)[3 * index - 2 : 3 * index + 1]


def pairs(values: Sequence[bytes]) -> List[Tuple[int, int]]:
    """Pairs of a pointer and a flag."""
    numbers = [integer(it) for it in values]
    return list(zip(numbers[::2], numbers[1::2]))


def solid_of(file: File, number: int) -> Solid:
    """The solid of this directory number; Unreadable where its records aren't understood."""
    try:
        return Solid(file, number)
    except (IndexError, ValueError):
        raise Unreadable("the records of the solid") from None
