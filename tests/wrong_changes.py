"""Changes of a shell that don't fit, one or more for each clause of `Fits` (crates shell_change, change_names, change_fits), and one that does.

Each is the right change with one place made wrong, so it is refused for this alone. Here the second checker judges them. The proved checker judges
the same in the program `wrong_changes`, which reads the solid from a file in its folder and the changes as rows of numbers, each a character, and
names vertices and edges by their order in that file. `python3 tests/wrong_changes.py` writes these files, and what the program must print.
"""
import copy
import pathlib
import sys
from types import SimpleNamespace

from sample_file import PLANE, text_of
from second_checker.change import CURVE, PLACES, SURE, Change, EdgeNow, FaceNow, LoopNow, Move, NewEdge, NewVertex, Rim, RimEdge, Seam, VertexNow, new, old
from second_checker.change_fits import fits
from second_checker.geometry import Curve
from second_checker.reading import File
from second_checker.walking import Face, Loop, Shell, Solid, Use, walked

FOLDER = pathlib.Path(__file__).resolve().parent.parent / "crates" / "wrong_changes"
# Of each vertex its place.
PLACES_OF = [0, 1, 2, 0, 1, 3, 4, 4, 4, 5, 6, 7, 8, 9, 10, 11, 4, 9, 13, 5, 6, 7]
# Of each edge its start and end, and of its curve the record and, of a line, its two points.
EDGES = [
    (0, 1, 10, 0), (1, 2, 11, 1), (2, 0, 12, 2), (4, 3, 13, 0), (4, 5, 11, 1), (3, 5, 14, 2), (6, 6, 20, None), (7, 7, 20, None),
    (8, 8, 21, None), (10, 11, 30, 3), (12, 13, 31, 4), (13, 12, 32, 4), (14, 15, 33, None), (16, 16, 20, None), (17, 18, 11, 1), (20, 21, 30, 3),
]  # fmt: skip
# Of each shell its faces, each of one loop: edges with their flags, or a vertex alone.
SHELLS = [
    [[(0, 1), (1, 1), (2, 1)], [(3, 1), (5, 1), (4, 0)], [(6, 1)], [(7, 1)], [(8, 1)], [9], [(9, 1), (9, 0)], [(10, 1), (11, 1)], [(12, 1)], [(14, 1)], [9], [(0, 1)]],
    [[(13, 1)], [19], [(15, 1)]],
]


def use_of(told):
    if isinstance(told, int):
        return Use(None, 0, told, told)
    edge, flag = told
    start, end = EDGES[edge][:2]
    return Use(edge, flag, *((start, end) if flag else (end, start)))


def solid():
    shells = [Shell(0, 1, [Face(0, 1, [Loop(0, list(map(use_of, uses)))]) for uses in faces]) for faces in SHELLS]
    return Solid(0, shells, [(0, 0)] * len(EDGES), [(0, 0)] * len(PLACES_OF), 0)


GEOMETRY = SimpleNamespace(places=PLACES_OF, curves=[Curve(record, line, None) for _, _, record, line in EDGES])


def face(piece, flag, *uses, reversed_loop=False):
    return FaceNow(piece, flag, [LoopNow(reversed_loop, list(uses))])


def right():
    """A change of the first shell that fits, with each thing that a change may have."""
    return Change(
        shell=0,
        faces=[
            face(0, 1, EdgeNow(old(0), True), EdgeNow(old(1), True), EdgeNow(old(2), True)),
            face(0, 0, EdgeNow(old(0), False, seam=0), EdgeNow(old(2), False, seam=2, end_by=0), EdgeNow(old(1), False, seam=1, start_by=0)),
            None,
            face(0, 1, EdgeNow(old(6), True, seam=3)),
            face(1, 1, EdgeNow(old(6), False, turned=True, seam=4)),
            face(0, 1, VertexNow(new(0))),
            face(1, 1, EdgeNow(new(0), True), EdgeNow(new(2), False)),
            face(2, 1, EdgeNow(old(11), False), EdgeNow(old(10), False), reversed_loop=True),
            face(1, 1, EdgeNow(old(12), False, turned=True)),
            face(0, 1, EdgeNow(new(1), True, seam=5, start_by=1, end_by=3)),
            face(0, 1, VertexNow(old(9))),
            None,
        ],
        vertices=[NewVertex(9), NewVertex(10)],
        edges=[NewEdge(9, new(1), old(11)), NewEdge(4, old(4), old(2), end_by=0), NewEdge(9, old(10), old(11))],
        seams=[Seam(3, 0, SURE), Seam(4, 1, CURVE), Seam(5, 2, CURVE), Seam(7, 6, SURE), Seam(8, 6, PLACES), Seam(14, 4, CURVE)],
        moves=[Move(3, 2, 1, True, False), Move(9, 1, 5, False, False), Move(13, 3, 5, True, False), Move(13, 2, 1, True, False, 2)],
        rims=[Rim(1, [RimEdge(old(12), True)])],
    )


# how a change is made wrong

def of_use(number, place=0, **values):
    """A use of face `number` with other values."""

    def make(change):
        uses = change.faces[number].loops[0].uses
        uses[place] = uses[place]._replace(**values)

    return make


def other_use(number, place, use):
    def make(change):
        change.faces[number].loops[0].uses[place] = use

    return make


def of_item(name, number, **values):
    """An item of one of the lists with other values."""

    def make(change):
        items = getattr(change, name)
        items[number] = items[number]._replace(**values)

    return make


def more(name, item):
    return lambda change: getattr(change, name).append(item)


def of_loop(number, **values):
    return lambda change: change.faces[number].loops[0].__dict__.update(values)


def of_face(number, **values):
    return lambda change: change.faces[number].__dict__.update(values)


def without_last_use(change):
    change.faces[0].loops[0].uses.pop()


def with_a_loop_more(change):
    change.faces[0].loops.append(LoopNow(False, []))


def by_a_seam(taken, make, left):
    """With a seam more, to an edge of the other shell."""

    def wrong(change):
        change.seams.append(Seam(left, taken, SURE))
        make(change)

    return wrong


def of_new_edge_of_another_shell(change):
    of_item("edges", 0, like=15)(change)
    of_use(6, 0, seam=6)(change)


WRONG = [
    # KeepsGeometry: the faces
    ("a shell that isn't there", "FacesFit", lambda change: setattr(change, "shell", 2)),
    ("a face too few", "Matched.one_length of faces", lambda change: change.faces.pop()),
    ("a face too many", "Matched.one_length of faces", lambda change: change.faces.append(None)),
    ("a loop more", "Matched.one_length of loops", with_a_loop_more),
    ("a loop less", "Matched.one_length of loops", of_face(0, loops=[])),
    ("a use less", "Matched.one_length of uses", without_last_use),
    ("uses in opposite order, not told as reversed", "LoopFits.uses", of_loop(7, reversed=False)),
    ("a loop told as reversed, with its uses in order", "LoopFits.uses", of_loop(0, reversed=True)),
    ("a loop that is its own reverse, reversed", "LoopFits.reversed", of_loop(6, reversed=True)),
    # uses of edges
    ("an edge in place of a vertex", "UseFits, VertexUse", other_use(10, 0, EdgeNow(old(0), True))),
    ("a vertex in place of an edge", "UseFits, EdgeUse", other_use(0, 0, VertexNow(old(0)))),
    ("another edge without a seam", "EdgeUseFits.curve", of_use(1, 0, seam=None)),
    ("an edge by the seam of another", "EdgeUseFits.curve", of_use(1, 0, seam=1)),
    ("its own edge, with a seam", "EdgeUseFits.curve", of_use(0, 0, seam=0)),
    ("a seam that isn't there", "EdgeUseFits.curve", of_use(1, 0, seam=6)),
    ("a new edge of another curve", "EdgeUseFits.curve", of_use(8, 0, edge=new(1))),
    ("another flag, not told as turned", "EdgeUseFits.start, end", of_use(0, 0, along=False)),
    ("told as turned, with its flag", "EdgeUseFits.start, end", of_use(0, 0, turned=True)),
    ("turned, not told", "EdgeUseFits.start, end", of_use(8, 0, turned=False)),
    ("an end that has moved, without a move", "EdgeUseFits.end", of_use(1, 1, end_by=None)),
    ("a start that has moved, without a move", "EdgeUseFits.start", of_use(1, 2, start_by=None)),
    ("a move of an end that stays", "EdgeUseFits.end", of_use(0, 0, end_by=0)),
    ("another move", "EdgeUseFits.end", of_use(1, 1, end_by=1)),
    ("a move that isn't there", "EdgeUseFits.end", of_use(1, 1, end_by=4)),
    ("a move that leads only part of the way", "EdgeUseFits.end", of_use(9, 0, end_by=2)),
    ("a closed edge of an equal curve, with another flag", "EdgeUseFits.flag, equal curves", of_use(3, 0, along=False)),
    ("the same, told as turned", "EdgeUseFits.flag, equal curves", of_use(3, 0, along=False, turned=True)),
    ("a closed edge of another curve, with another flag, not told", "EdgeUseFits.flag, other curves", of_use(4, 0, turned=False)),
    ("the same with its flag, told as turned", "EdgeUseFits.flag, other curves", of_use(4, 0, along=True)),
    ("an edge that isn't there", "EdgeKnownFits, EdgeIsOwn", of_use(0, 0, edge=old(16))),
    ("a new edge that isn't there", "EdgeKnownFits", of_use(8, 0, edge=new(3))),
    # uses of vertices
    ("a vertex at another place", "UseFits, VertexUse: end_known", of_item("vertices", 0, like=14)),
    ("a vertex that has moved by no move of its place", "UseFits, VertexUse: end_known", of_use(5, 0, by=0)),
    ("a new vertex that isn't there", "UseFits, VertexUse: end_known", of_use(10, 0, vertex=new(2))),
    # new edges
    ("a new edge from another place", "NewEdgeFits.from", of_item("edges", 0, start_by=0)),
    ("a new edge with an end that has moved, without a move", "NewEdgeFits.to", of_item("edges", 1, end_by=None)),
    ("a new edge with an end by another move", "NewEdgeFits.to", of_item("edges", 1, end_by=1)),
    # seams
    ("a seam of one edge", "SeamFits.two", more("seams", Seam(0, 0, SURE))),
    ("edges that are surely equal, told as at the same places", "SeamFits.told", of_item("seams", 0, told=PLACES)),
    ("edges at the same places, told as sure", "SeamFits.told", of_item("seams", 4, told=SURE)),
    ("edges of equal curves alone, told as sure", "SeamFits.told", more("seams", Seam(4, 1, SURE))),
    ("edges of equal curves alone, told as at the same places", "SeamFits.told", more("seams", Seam(5, 2, PLACES))),
    ("closed edges of equal curves, told as of equal curves alone", "SeamFits.told", of_item("seams", 3, told=CURVE)),
    ("edges of which nothing is equal", "SeamFits.told", more("seams", Seam(12, 9, CURVE))),
    # moves
    ("a move along a sure seam", "MoveFits: step_known", more("moves", Move(1, 1, 0, False, False))),
    ("a move along a seam that isn't there", "MoveFits: step_of_seam", more("moves", Move(3, 2, 6, True, False))),
    ("a move to another place", "MoveFits: is_last_step", more("moves", Move(3, 1, 1, True, False))),
    ("a move from another place", "MoveFits: is_last_step", more("moves", Move(1, 2, 1, True, False))),
    ("a move at the other end", "MoveFits: is_last_step", more("moves", Move(3, 2, 1, False, False))),
    ("a move the other way", "MoveFits: is_last_step", more("moves", Move(3, 2, 1, True, True))),
    ("lines that run opposite, end to end", "MoveFits: step_across", more("moves", Move(3, 0, 2, True, False))),
    ("a move after one from another place", "MoveFits: reached", more("moves", Move(13, 2, 1, True, False, 0))),
    ("a move after itself", "MoveFits: reached, nat_lt", more("moves", Move(3, 2, 1, True, False, 4))),
    ("a move after one that isn't there", "MoveFits: last_begin", more("moves", Move(3, 2, 1, True, False, 9))),
    # pieces
    ("a first piece that isn't piece 0", "PiecesInOrder", of_face(0, piece=1)),
    ("a piece that is left out", "PiecesInOrder", of_face(7, piece=3)),
    # names
    ("an edge of another shell", "NamesOwn.uses, SeamIsOwn.taken", by_a_seam(13, of_use(3, 0, edge=old(13), seam=6), 7)),
    ("a vertex of another shell", "NamesOwn.uses, VertexIsOwn", of_use(10, 0, vertex=old(19))),
    ("a new vertex like one of another shell", "NamesOwn.vertices", of_item("vertices", 0, like=19)),
    ("a new edge like one of another shell", "NewEdgeIsOwn.like, SeamIsOwn.taken", by_a_seam(15, of_new_edge_of_another_shell, 9)),
    ("a new edge from a vertex of another shell", "NewEdgeIsOwn.from", of_item("edges", 2, start=old(20))),
    ("a new edge to a vertex of another shell", "NewEdgeIsOwn.to", of_item("edges", 0, end=old(21))),
    ("a seam from an edge of another shell", "SeamIsOwn.left", more("seams", Seam(13, 6, SURE))),
    ("a seam to an edge of another shell", "SeamIsOwn.taken", more("seams", Seam(7, 13, SURE))),
    # new items
    ("a new edge that no use names", "NamesNew.edges", more("edges", NewEdge(9, old(10), old(11)))),
    ("a new vertex that nothing names", "NamesNew.vertices", more("vertices", NewVertex(9))),
    ("a new edge that only a removed face named", "NamesNew.edges", lambda change: change.faces.__setitem__(9, None)),
]  # fmt: skip

def wrong_changes():
    """The name, the clause and the change of each."""
    for name, clause, make in WRONG:
        change = copy.deepcopy(right())
        make(change)
        yield name, clause, change


# as files

VERTEX_LIST, EDGE_LIST, SURFACE, FIRST_FACE = 7, 9, 11, 13


def solid_text():
    """A file of the solid. Its geometry is a plane alone: what is known of geometry comes with the changes."""
    flat = lambda rows: [value for row in rows for value in row]
    records, shells = [], []
    for faces in SHELLS:
        shells.append((514, 1, [len(faces), *flat((FIRST_FACE + 2 * (len(records) + 2 * at), 1) for at in range(len(faces)))]))
        for uses in faces:
            tuples = [(1, VERTEX_LIST, it + 1, 1, 0) if isinstance(it, int) else (0, EDGE_LIST, it[0] + 1, it[1], 0) for it in uses]
            records += [(510, 1, [SURFACE, 1, 1, FIRST_FACE + 2 * len(records) + 2]), (508, 1, [len(tuples), *flat(tuples)])]
    vertices = 502, 1, [len(PLACES_OF), *flat((place, 0, 0) for place in PLACES_OF)]
    edges = 504, 1, [len(EDGES), *flat((SURFACE, VERTEX_LIST, start + 1, VERTEX_LIST, end + 1) for start, end, _, _ in EDGES)]
    return text_of([(186, 0, [3, 1, 1, 5, 1]), *shells, vertices, edges, PLANE, *records])


def maybe(value):
    return [0 if value is None else value + 1]


def listed(items, of_item):
    return [len(items), *(number for item in items for number in of_item(item))]


class Rows:
    """Rows of numbers, with vertices and edges by their order of appearance in the file of the solid."""

    def __init__(self):
        solid = walked(File(solid_text()), 1)
        self.vertices_named, self.edges_named = ([index - 1 for _, index in keys] for keys in (solid.vertices, solid.edges))
        self.vertices, self.edges = ({was: at for at, was in enumerate(named)} for named in (self.vertices_named, self.edges_named))

    def geometry(self):
        """Of each vertex its place, and of each edge the record of its curve and maybe its line."""
        curves = [GEOMETRY.curves[edge] for edge in self.edges_named]
        return listed(self.vertices_named, lambda vertex: [PLACES_OF[vertex]]) + listed(curves, lambda it: [it.record, *maybe(it.line)])

    def change(self, change):
        """A list is its length and its items, None is 0 and a number one more than it, a name is whether it is new and its number."""
        vertex, edge = (lambda number, places=places: places.get(number, number) for places in (self.vertices, self.edges))
        name = lambda it, old: [int(it.is_new), it.number if it.is_new else old(it.number)]

        def of_use(use):
            if isinstance(use, VertexNow):
                return [1, *name(use.vertex, vertex), *maybe(use.by)]
            return [0, *name(use.edge, edge), int(use.along), int(use.turned), *maybe(use.seam), *maybe(use.start_by), *maybe(use.end_by)]

        def of_face(it):
            return [0] if it is None else [1, it.piece, it.flag, *listed(it.loops, lambda loop: [int(loop.reversed), *listed(loop.uses, of_use)])]

        def of_edge(it):
            return [edge(it.like), *name(it.start, vertex), *name(it.end, vertex), *maybe(it.start_by), *maybe(it.end_by)]

        return [
            change.shell,
            *listed(change.faces, of_face),
            *listed(change.vertices, lambda it: [vertex(it.like)]),
            *listed(change.edges, of_edge),
            *listed(change.seams, lambda it: [edge(it.left), edge(it.taken), (SURE, PLACES, CURVE).index(it.told)]),
            *listed(change.moves, lambda it: [it.start, it.end, it.seam, int(it.at_end), int(it.back), *maybe(it.after)]),
            *listed(change.rims, lambda rim: [rim.piece, *listed(rim.edges, lambda it: [*name(it.edge, edge), int(it.along)])]),
        ]


def files():
    """The files of the program by their paths: the solid; its geometry, and the changes, a line each; and what it must print."""
    row = lambda numbers: "".join(chr(ord("0") + it) for it in numbers)
    rows = Rows()
    changes = [("the right change", rows.change(right())), *((f"{name} ({clause})", rows.change(change)) for name, clause, change in wrong_changes())]
    verdicts = [f"{'refused' if at else 'fits'}: {name}\n" for at, (name, _) in enumerate(changes)]
    yield FOLDER / "data" / "solid.igs", solid_text()
    lines = [row(rows.geometry()), *(f"{name}\t{row(numbers)}" for name, numbers in changes)]
    yield FOLDER / "data" / "changes.txt", "".join(f"{line}\n" for line in lines).encode()
    yield FOLDER / "stdout", "".join(verdicts).encode()


def checks(_):
    """The right change fits, and each wrong one doesn't."""
    yield "changes: the right one", fits(solid(), GEOMETRY, right())
    for name, clause, change in wrong_changes():
        yield f"changes: {name} ({clause})", not fits(solid(), GEOMETRY, change)
    for path, text in files():
        yield f"changes: {path.name} of crates/wrong_changes is what tests/wrong_changes.py writes", path.is_file() and path.read_bytes() == text


def main():
    for path, text in files():
        path.parent.mkdir(parents=True, exist_ok=True)
        path.write_bytes(text)


if __name__ == "__main__":
    sys.exit(main())
