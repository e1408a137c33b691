"""Which vertices, edges and faces of FreeCAD's shapes are those that `where` names.

FreeCAD keeps no numbers of an IGES file's entities, so all is found by coordinates: a vertex by its place, an edge by its ends, its curve
and its faces, a face by the ends of its edges. What can't be told apart so is found together."""
import itertools
from typing import Any, Dict, FrozenSet, List, NamedTuple, Optional, Tuple

from .topology import Edge, Face, Place, Vertex

# Places as near as this, in millimetres or as a part of the coordinate, are one.
NEAR = 1e-7
# How far an edge may be from the middle of the curve that it is to be, in millimetres or as a part of its length.
NEAR_CURVE = 1e-5
Ends = FrozenSet[int]


# The property that tells marks from a model.
MARK = "IgesCheckMark"


class Element(NamedTuple):
    """An object of a document, and the name of an element of its shape, as a selection has it."""

    owner: str
    name: str


class Places:
    """Numbers for places; those that are near each other get the same one."""

    def __init__(self):
        self.cells: Dict[Tuple[int, ...], List[int]] = {}
        self.known: List[Place] = []

    def find(self, place: Place) -> Optional[int]:
        near = NEAR * max(1.0, *map(abs, place))
        around = itertools.product(*({_cell(it - near), _cell(it), _cell(it + near)} for it in place))
        found = [number for cell in around for number in self.cells.get(cell, ())]
        distances = [(max(abs(a - b) for a, b in zip(place, self.known[it])), it) for it in found]
        return min(distances)[1] if distances and min(distances)[0] <= near else None

    def number(self, place: Place) -> int:
        found = self.find(place)
        if found is None:
            found = len(self.known)
            self.known.append(place)
            self.cells.setdefault(tuple(map(_cell, place)), []).append(found)
        return found


def _cell(coordinate: float) -> int:
    """Cells are about a thousandth of a millimetre wide."""
    return round(coordinate * 1024)


class Shapes:
    """The elements of the shapes in a document that have faces."""

    def __init__(self, document: Any):
        self.places = Places()
        self.vertices: Dict[int, List[Element]] = {}
        self.edges: Dict[Ends, List[Element]] = {}
        self.faces: Dict[FrozenSet[Ends], List[Element]] = {}
        self.shapes: Dict[str, Any] = {it.Name: placed(it) for it in objects_of(document)}
        for owner, shape in self.shapes.items():
            self._add(owner, shape)

    def shape_of(self, element: Element) -> Any:
        return self.shapes[element.owner].getElement(element.name)

    def _add(self, owner: str, shape: Any) -> None:
        for number, vertex in enumerate(shape.Vertexes, 1):
            self.vertices.setdefault(self._place(vertex), []).append(Element(owner, f"Vertex{number}"))
        for number, edge in enumerate(shape.Edges, 1):
            ends = self._ends(edge)
            if ends:
                self.edges.setdefault(ends, []).append(Element(owner, f"Edge{number}"))
        for number, face in enumerate(shape.Faces, 1):
            outline = frozenset(filter(None, map(self._ends, face.Edges)))
            if outline:
                self.faces.setdefault(outline, []).append(Element(owner, f"Face{number}"))

    def _place(self, vertex: Any) -> int:
        point = vertex.Point
        return self.places.number((point.x, point.y, point.z))

    def _ends(self, edge: Any) -> Ends:
        """The places of an edge's ends; none of an edge without a length, as at the pole of a sphere."""
        return frozenset() if edge.Degenerated else frozenset(map(self._place, edge.Vertexes))

    def of_vertex(self, vertex: Vertex) -> List[Element]:
        number = self.places.find(vertex.place)
        return self.vertices.get(number, []) if number is not None else []

    def of_edge(self, edge: Edge, middle: Any) -> List[Element]:
        """Those with the same ends that pass through the middle of the edge's curve, if that is known; of several those of the faces that use
        the edge, where these are found."""
        found = self.edges.get(self._found_ends(edge) or frozenset(), [])
        found = [it for it in found if middle is None or self._passes(it, middle)]
        if len(found) > 1:
            users = [it[0] for it in map(self.of_face, edge.faces) if len(it) == 1]
            found = [it for it in found if all(self._uses(user, it) for user in users)] or found
        return found

    def _passes(self, edge: Element, middle: Any) -> bool:
        shape = self.shape_of(edge)
        return bool(shape.distToShape(middle)[0] <= NEAR_CURVE * max(1.0, shape.Length))

    def _uses(self, face: Element, edge: Element) -> bool:
        return face.owner == edge.owner and any(it.isSame(self.shape_of(edge)) for it in self.shape_of(face).Edges)

    def of_face(self, face: Face) -> List[Element]:
        return self.faces.get(self.outline(face), [])

    def outline(self, face: Face) -> FrozenSet[Ends]:
        """The places of the ends of a face's edges; nothing if one isn't known."""
        ends = [self._found_ends(it) for it in face.edges]
        return frozenset(it for it in ends if it) if face.is_whole and all(ends) else frozenset()

    def _found_ends(self, edge: Edge) -> Optional[Ends]:
        found = [self.places.find(it) for it in (edge.start, edge.end)]
        return None if None in found else frozenset(it for it in found if it is not None)


def objects_of(document: Any) -> List[Any]:
    """The objects with faces, without marks, and without those that a compound in the document shows."""
    found = [it for it in document.Objects if it.isDerivedFrom("Part::Feature") and it.Shape.Faces and not hasattr(it, MARK)]
    parts = {part.Name for it in found for part in getattr(it, "Links", ())}
    return [it for it in found if it.Name not in parts]


def placed(owner: Any) -> Any:
    """The shape of an object where it stands in the document."""
    shape = owner.Shape.copy()
    shape.Placement = owner.getGlobalPlacement()
    return shape
