"""How what fails is shown in a document: elements of its shapes are selected, failing edges and vertices are drawn red over them, and what
FreeCAD doesn't show is drawn by its curves and coordinates."""
import collections
import os
import tempfile
from typing import Any, Dict, List, NamedTuple, Optional, Sequence, Tuple

import FreeCAD
import Part
from igesolid.pictures.overlay import FAULT, Overlay

from .shapes import MARK, Element, Shapes
from .telling import Node, ToldSolid
from .topology import Edge, Face, Key, Topology, Vertex

RED, BLUE = (0.85, 0.0, 0.1), (0.1, 0.3, 0.9)
# The width of lines and the size of points.
SIZES = {RED: (9, 13), BLUE: (3, 6)}
# So many edges of a face that FreeCAD doesn't show are drawn.
MOST_EDGES = 200
# A curve whose ends are farther from those of its edge, as a part of their coordinates, isn't drawn for it.
CURVE_NEAR = 1e-3
SAME = {Edge: "they have the same ends", Vertex: "they are at the same place", Face: "they have edges of the same ends"}


class Shown(NamedTuple):
    """Of a row of the tree what is selected, what is drawn, by the names of the objects, and where it is in the model, in words."""

    elements: Tuple[Element, ...] = ()
    marks: Tuple[str, ...] = ()
    words: str = ""


class Marker:
    """Draws what the rows of a solid name, below one group of the document."""

    def __init__(self, document: Any, shapes: Shapes, solid: ToldSolid):
        self.document, self.shapes, self.topology = document, shapes, solid.topology
        self.group = document.addObject("App::DocumentObjectGroup", MARK)
        self.group.Label = f"Solid {solid.number}: what fails"
        self.group.addProperty("App::PropertyBool", MARK)
        self.drawn: Dict[Any, str] = {}
        self.middles: Dict[Key, Any] = {}
        self.outlines: Optional[Dict[Any, int]] = None

    def show(self, node: Node) -> Shown:
        """Finds what a row itself names, and draws what fails or isn't found."""
        elements: List[Element] = []
        marks: List[str] = []
        words: List[str] = []
        for it in (*node.edges, *node.vertices, *node.faces):
            found = self.find(it)
            elements += found
            words.append(self._words(it, found))
            colour = BLUE if node.is_near_by or isinstance(it, Face) else RED
            if colour == RED or not found:
                marks.append(self._mark(it, found, colour))
        words += [f"{it} has no coordinates" for it in node.lost]
        return Shown(tuple(elements), tuple(marks), "; ".join(dict.fromkeys(words)))

    def find(self, named: Any) -> List[Element]:
        """The elements that may be meant; more than one if they can't be told apart."""
        if isinstance(named, Vertex):
            return self.shapes.of_vertex(named)
        return self.shapes.of_face(named) if isinstance(named, Face) else self.shapes.of_edge(named, self._middle(named))

    def _middle(self, edge: Edge) -> Any:
        """The middle of an edge's curve as a point, if the curve is known."""
        if edge.key not in self.middles:
            if self.topology.is_line(edge):
                middle = _point(tuple((a + b) / 2 for a, b in zip(edge.start, edge.end)))
            else:
                middle = middle_of(curve_of(edge, curves_of(self.topology, [edge])))
            self.middles[edge.key] = middle
        return self.middles[edge.key]

    def _words(self, named: Any, found: Sequence[Element]) -> str:
        """Where something is in the model, and whether it may be something else."""
        said = _words(named, found)
        if found and isinstance(named, Face):
            if self.outlines is None:
                self.outlines = collections.Counter(map(self.shapes.outline, self.topology.faces()))
            if self.outlines[self.shapes.outline(named)] > len(found):
                return f"{said}; the file has more such faces than FreeCAD shows"
        return f"{said}, told by its ends alone" if found and isinstance(named, Edge) and self._middle(named) is None else said

    def _mark(self, named: Any, found: List[Element], colour: Tuple[float, ...]) -> str:
        key = type(named), named.key, colour
        if key not in self.drawn:
            self.drawn[key] = self._add(_label(named), self._drawn_shapes(named, found), colour)
        return self.drawn[key]

    def _drawn_shapes(self, named: Any, found: List[Element]) -> List[Any]:
        """One element that is found as it is; otherwise the curves of the file. Ends are drawn as the file has them."""
        if isinstance(named, Vertex):
            return [_point(named.place)]
        if isinstance(named, Edge):
            lines = [self.shapes.shape_of(found[0])] if len(found) == 1 else self._lines([named])
            return [*lines, _point(named.start), _point(named.end)]
        return [*self._lines(named.edges[:MOST_EDGES]), *(_point(it.place) for it in named.vertices)]

    def _lines(self, edges: Sequence[Edge]) -> List[Any]:
        """The curves of edges; a straight line for one whose curve isn't known."""
        curves = curves_of(self.topology, edges)
        return [line for line in (curve_of(it, curves) or _chord(it) for it in edges) if line is not None]

    def _add(self, label: str, shapes: List[Any], colour: Tuple[float, ...]) -> str:
        made = self.document.addObject("Part::Feature", MARK)
        made.Shape, made.Label = Part.makeCompound(shapes), label if colour == RED else f"{label}, near by"
        made.addProperty("App::PropertyBool", MARK)
        if FreeCAD.GuiUp:
            made.ViewObject.LineColor = made.ViewObject.PointColor = colour
            made.ViewObject.LineWidth, made.ViewObject.PointSize = SIZES[colour]
        self.group.addObject(made)
        return made.Name


def _label(named: Any) -> str:
    return f"Face {named.entity}" if isinstance(named, Face) else f"{type(named).__name__} {named.key[1]} of list {named.key[0]}"


def _words(named: Any, found: Sequence[Element]) -> str:
    """Where something is in the model."""
    if not found:
        return f"{type(named).__name__.lower()} drawn by its coordinates"
    owners = {it.owner for it in found}
    names = ", ".join(it.name if len(owners) == 1 else f"{it.owner}.{it.name}" for it in found)
    return names if len(found) == 1 else f"one of {names}: {SAME[type(named)]}"


def _point(place: Tuple[float, float, float]) -> Any:
    return Part.Vertex(FreeCAD.Vector(*place))


def curves_of(topology: Topology, edges: Sequence[Edge]) -> List[Any]:
    """The curves of edges as the file has them: the wires and edges that FreeCAD reads of a file of these curves alone."""
    overlay = Overlay(topology.file)
    is_known = [overlay.add_edge(topology, edge.number, FAULT, 0) for edge in edges]
    return _read(overlay.text(["curves"])) if any(is_known) else []


def _read(text: bytes) -> List[Any]:
    """The wires and edges of a file; none if FreeCAD can't read it."""
    handle, path = tempfile.mkstemp(suffix=".igs")
    try:
        with open(handle, "wb") as file:
            file.write(text)
        read = Part.Shape()
        read.read(path)
        return [*read.Wires, *read.Edges]
    except (Part.OCCError, OSError):
        return []
    finally:
        os.unlink(path)


def _ends(curve: Any) -> List[Any]:
    """The ends of a wire or an edge, which are one for a closed one."""
    vertices = curve.OrderedVertexes if curve.ShapeType == "Wire" else curve.Vertexes
    return [it.Point for it in (vertices[:1] * 2 if curve.isClosed() else vertices[:1] + vertices[-1:])]


def curve_of(edge: Edge, curves: Sequence[Any]) -> Any:
    """The first of these curves that has the ends of an edge; None if none has."""
    start, end = FreeCAD.Vector(*edge.start), FreeCAD.Vector(*edge.end)
    near = CURVE_NEAR * max(1.0, start.Length, end.Length)
    for curve in curves:
        ends = _ends(curve)
        if ends and any(one.distanceToPoint(start) <= near and other.distanceToPoint(end) <= near for one, other in (ends, ends[::-1])):
            return curve
    return None


def middle_of(curve: Any) -> Any:
    """A point within a curve, away from its ends; None of no curve."""
    if curve is None or not curve.Edges:
        return None
    edge = curve.Edges[0]
    return Part.Vertex(edge.valueAt((edge.FirstParameter + edge.LastParameter) / 2))


def _chord(edge: Edge) -> Any:
    start, end = FreeCAD.Vector(*edge.start), FreeCAD.Vector(*edge.end)
    return Part.makeLine(start, end) if start.distanceToPoint(end) > 0 else None


def remove_marks(document: Any) -> None:
    """Removes all that was drawn in a document."""
    for name in [it.Name for it in document.Objects if hasattr(it, MARK)]:
        document.removeObject(name)
