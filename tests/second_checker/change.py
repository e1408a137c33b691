"""A change of a shell as data: which faces stay, in which pieces, and what the uses of their loops name then (docs/REMEDIES.md)."""
from dataclasses import dataclass, field
from typing import NamedTuple, Optional

SURE, PLACES, CURVE = "sure", "places", "curve"


class Name(NamedTuple):
    """An edge or a vertex that a changed shell names: one of the solid's, or a new one, by its place in the change's list."""

    is_new: bool
    number: int


def old(number):
    return Name(False, number)


def new(number):
    return Name(True, number)


class NewVertex(NamedTuple):
    """A new vertex, with the coordinates of an old one."""

    like: int


class NewEdge(NamedTuple):
    """A new edge, with the curve of an old one; and by which move each of its ends has moved, if it has."""

    like: int
    start: Name
    end: Name
    start_by: Optional[int] = None
    end_by: Optional[int] = None


class Seam(NamedTuple):
    """Two old edges that are sewn together, and how they are equal: uses of the one that is left take the curve of the other."""

    left: int
    taken: int
    told: str


class Move(NamedTuple):
    """A way from a place to another, by corresponding ends of a seam, maybe after an earlier move."""

    start: int
    end: int
    seam: int
    at_end: bool
    back: bool
    after: Optional[int] = None


class EdgeNow(NamedTuple):
    """What a use of an edge is then; whether it runs the other way; and by which seam and moves."""

    edge: Name
    along: bool
    turned: bool = False
    seam: Optional[int] = None
    start_by: Optional[int] = None
    end_by: Optional[int] = None


class VertexNow(NamedTuple):
    """What a use of a vertex is then."""

    vertex: Name
    by: Optional[int] = None


@dataclass
class LoopNow:
    """What a loop is then: whether its uses stand in opposite order, each edge use with the other flag, before they are compared."""

    reversed: bool
    uses: list


@dataclass
class FaceNow:
    """A face that is kept: its piece, from 0 in the order of first faces, its flag in the shell, and its loops."""

    piece: int
    flag: int
    loops: list


class RimEdge(NamedTuple):
    """An edge of a rim, and the flag of its use in the new face's loop."""

    edge: Name
    along: bool


class Rim(NamedTuple):
    """A ring of edges of a piece on which a face must be made anew."""

    piece: int
    edges: list


@dataclass
class Change:
    """A change of the shell at a place, from 0. `faces` has None for a face that is removed."""

    shell: int
    faces: list
    vertices: list = field(default_factory=list)
    edges: list = field(default_factory=list)
    seams: list = field(default_factory=list)
    moves: list = field(default_factory=list)
    rims: list = field(default_factory=list)

    def kept(self):
        return [(place, face) for place, face in enumerate(self.faces) if face is not None]

    def uses(self):
        return [use for _, face in self.kept() for loop in face.loops for use in loop.uses]

    def pieces(self):
        return 1 + max((face.piece for _, face in self.kept()), default=-1)


@dataclass
class Remedy:
    """A change that was tried. The less its cost, the earlier it is told; `sure` if it rests on equal records or counts alone."""

    change: Change
    cost: int
    sure: bool
