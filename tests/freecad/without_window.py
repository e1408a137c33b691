# Run by freecadcmd: what the add-on finds and draws of each file, with the coordinates of its vertices, as JSON.
import json
import os
import pathlib

import FreeCAD
import Import
from igescheck.marks import Marker
from igescheck.shapes import Shapes
from igescheck.telling import told_of


def points(shape):
    return [[it.X, it.Y, it.Z] for it in shape.Vertexes]


def named_in(node, marker, found):
    """What the rows name, and the words on each row."""
    shown = marker.show(node)
    for it in (*node.edges, *node.vertices, *node.faces):
        elements = marker.find(it)
        drawn = [marker.document.getObject(name) for (kind, key, _), name in marker.drawn.items() if (kind, key) == (type(it), it.key)]
        found["named"].append({
            "kind": type(it).__name__.lower(),
            "key": it.key,
            "elements": [[element.name, points(marker.shapes.shape_of(element))] for element in elements],
            "drawn": [points(made.Shape) for made in drawn],
        })  # fmt: skip
    found["rows"].append([node.words, node.sentence, shown.words])
    for it in node.nodes:
        named_in(it, marker, found)


def told_in(path):
    try:
        told = told_of(path)
    except Exception as fault:
        return {"error": str(fault)}
    document = FreeCAD.newDocument("part")
    if told.solids and told.may_open:
        Import.insert(path, document.Name)
    shapes = Shapes(document)
    solids = {}
    for solid in told.solids:
        found = {"words": solid.node.words, "named": [], "rows": []}
        if not solid.is_closed:
            named_in(solid.node, Marker(document, shapes, solid), found)
        solids[solid.number] = found
    faces = sum(len(it.Faces) for it in shapes.shapes.values())
    FreeCAD.closeDocument(document.Name)
    return {"words": told.words, "sentence": told.sentence, "opened": told.may_open, "faces": faces, "solids": solids}


task = json.loads(pathlib.Path(os.environ["IGESCHECK_TASK"]).read_text())
pathlib.Path(task["answer"]).write_text(json.dumps({path: told_in(path) for path in task["files"]}))
