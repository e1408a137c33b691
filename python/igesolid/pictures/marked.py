"""What a fault or a remedy marks of a solid, by the text of `igesolid-where` alone."""
from typing import List, NamedTuple

from ..where import Hint, Paragraph, Rule
from .solids import Solid


class Marked(NamedTuple):
    """The edges and the vertices that an item marks, by their numbers in the solid, and the faces there."""

    edges: List[int]
    vertices: List[int]
    faces: List[int]


def marked(item: Paragraph, rule: Rule, solid: Solid) -> Marked:
    """What an item of a rule on shells marks: itself, or what its facts name."""
    edges = [item.key()] if rule.name == "PAIR" else [it.key() for it in item.facts if it.word in ("this", "next") and "curve" in it.told]
    vertices = [item.key()] if rule.name in ("LINK", "APART") else [it.key() for it in item.facts if it.word in ("ends", "starts", "touches")]
    faces = [it.number("face") for it in item.facts if "face" in it.told]
    return Marked([solid.edge_numbers[it] for it in edges], [solid.vertex_numbers[it] for it in vertices], faces)


# The first words of the items of remedies that name an edge, and those that name a vertex.
OF_EDGES, OF_VERTICES = ("seam", "renew", "rim"), ("copy",)


def changed(remedy: Hint, solid: Solid) -> Marked:
    """What a remedy changes: the edges and vertices that its items name, and faces that are removed, turned or parted."""
    items = [it for step in remedy.steps for it in step.items]
    edges = [it.key() for it in items if it.word in OF_EDGES]
    edges += [(it.number("left_list"), it.number("left_index")) for it in items if it.word == "seam"]
    vertices = [it.key() for it in items if it.word in OF_VERTICES]
    faces = [it.number("face") for it in items if "face" in it.told]
    return Marked([solid.edge_numbers[it] for it in edges], [solid.vertex_numbers[it] for it in vertices], faces)
