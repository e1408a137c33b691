"""What a change may be, `fits`, and whether the shell passes then, `passes` (docs/REMEDIES.md)."""
from typing import NamedTuple

from .change import CURVE, PLACES, SURE, EdgeNow, VertexNow, old
from .shells import Rows, check_join, corners_of, mates_of, reach_of
from .walking import Face, Fail, Loop, Shell, Use


class Track(NamedTuple):
    """Where an edge lies: the old edge whose curve it has, and the places where it starts and ends."""

    curve: int
    start: int
    end: int

    def run(self, along):
        return self if along else Track(self.curve, self.end, self.start)

    def is_at_one_place(self):
        return self.start == self.end


class Ends:
    """The two vertices of each edge of a solid, as its uses show them."""

    def __init__(self, solid):
        self.of = {}
        for shell in solid.shells:
            for loop in shell.loops():
                for use in loop.uses:
                    if use.edge is not None:
                        self.of[use.edge] = (use.start, use.end) if use.flag else (use.end, use.start)


class Fitting:
    """A change beside a solid and its geometry."""

    def __init__(self, solid, geometry, change):
        self.solid, self.geometry, self.change, self.ends = solid, geometry, change, Ends(solid).of

    # where things are

    def place(self, name):
        number = name.number
        if name.is_new:
            if not 0 <= number < len(self.change.vertices):
                return None
            number = self.change.vertices[number].like
        return self.geometry.places[number] if 0 <= number < len(self.geometry.places) else None

    def track(self, edge):
        """Of an old edge."""
        if edge not in self.ends:
            return None
        start, end = self.ends[edge]
        return Track(edge, self.geometry.places[start], self.geometry.places[end])

    def named_track(self, name):
        if not name.is_new:
            return self.track(name.number)
        if not 0 <= name.number < len(self.change.edges):
            return None
        edge = self.change.edges[name.number]
        start, end = self.place(edge.start), self.place(edge.end)
        return None if start is None or end is None else Track(edge.like, start, end)

    # seams and moves

    def how_equal(self, seam):
        one, other = self.track(seam.left), self.track(seam.taken)
        if one is None or other is None:
            return None
        p, q = self.geometry.curves[seam.left], self.geometry.curves[seam.taken]
        same = one[1:] == other[1:]
        if same or one[1:] == other.run(False)[1:]:
            lines = not one.is_at_one_place() and p.line is not None and q.line is not None
            return SURE if lines or same and p.record == q.record else PLACES
        return CURVE if p.record == q.record or p.line is not None and p.line == q.line else None

    def seam_fits(self, seam):
        return seam.left != seam.taken and self.how_equal(seam) == seam.told

    def step(self, number, at_end):
        """The two places at corresponding ends of a seam told `curve`."""
        seams = self.change.seams
        if not 0 <= number < len(seams) or seams[number].told != CURVE:
            return None
        seam = seams[number]
        one, other = self.track(seam.left), self.track(seam.taken)
        if one is None or other is None:
            return None
        is_same = self.geometry.curves[seam.left].record == self.geometry.curves[seam.taken].record
        return one[2 if at_end else 1], other.run(is_same)[2 if at_end else 1]

    def move_fits(self, number, move):
        begin = move.start
        if move.after is not None:
            if not 0 <= move.after < min(number, len(self.change.moves)) or self.change.moves[move.after].start != move.start:
                return False
            begin = self.change.moves[move.after].end
        step = self.step(move.seam, move.at_end)
        return step is not None and (begin, move.end) == (step[::-1] if move.back else step)

    def goes(self, by, p, q):
        """Whether what was at one place is at another, by the move that is named."""
        if by is None:
            return p == q
        moves = self.change.moves
        return 0 <= by < len(moves) and (moves[by].start, moves[by].end) == (p, q)

    def curve_goes(self, seam, e, f):
        if seam is None:
            return e == f
        seams = self.change.seams
        return 0 <= seam < len(seams) and (seams[seam].left, seams[seam].taken) == (e, f)

    # uses, loops, faces

    def use_fits(self, before, now):
        if before.edge is None:
            if not isinstance(now, VertexNow):
                return False
            place = self.place(now.vertex)
            return place is not None and self.goes(now.by, self.geometry.places[before.start], place)
        if not isinstance(now, EdgeNow):
            return False
        old_track, new_track = self.track(before.edge), self.named_track(now.edge)
        if old_track is None or new_track is None:
            return False
        a, b = old_track.run(before.flag), new_track.run(now.along)
        ran = a.run(not now.turned)
        return (
            self.curve_goes(now.seam, a.curve, b.curve)
            and self.goes(now.start_by, ran.start, b.start)
            and self.goes(now.end_by, ran.end, b.end)
            and (not (a.is_at_one_place() or b.is_at_one_place()) or self.flag_goes(a.curve, b.curve, bool(before.flag) == now.along, now.turned))
        )

    def flag_goes(self, e, f, stays, turned):
        is_same = e == f or self.geometry.curves[e].record == self.geometry.curves[f].record
        return stays and not turned if is_same else stays == (not turned)

    def loop_fits(self, before, now):
        uses = before.uses
        if now.reversed:
            uses = reversed_uses(before.uses)
            if are_alike(uses, before.uses):
                return False
        return len(uses) == len(now.uses) and all(map(self.use_fits, uses, now.uses))

    def face_fits(self, before, now):
        return now is None or len(before.loops) == len(now.loops) and all(map(self.loop_fits, before.loops, now.loops))

    def new_edge_fits(self, edge):
        track, start, end = self.track(edge.like), self.place(edge.start), self.place(edge.end)
        if track is None or start is None or end is None:
            return False
        return self.goes(edge.start_by, track.start, start) and self.goes(edge.end_by, track.end, end)

    def keeps_geometry(self):
        change = self.change
        if not 0 <= change.shell < len(self.solid.shells):
            return False
        faces = self.solid.shells[change.shell].faces
        return (
            len(faces) == len(change.faces)
            and all(map(self.face_fits, faces, change.faces))
            and all(map(self.new_edge_fits, change.edges))
            and all(map(self.seam_fits, change.seams))
            and all(self.move_fits(number, move) for number, move in enumerate(change.moves))
        )

    # pieces and names

    def pieces_in_order(self):
        begun = 0
        for _, face in self.change.kept():
            if face.piece > begun:
                return False
            begun = max(begun, face.piece + 1)
        return True

    def names_own(self):
        """Old edges and vertices that are named are the shell's."""
        shell, change = self.solid.shells[self.change.shell], self.change
        edges = {use.edge for loop in shell.loops() for use in loop.uses if use.edge is not None}
        vertices = shell.vertices()
        is_edge = lambda name: name.is_new or name.number in edges
        is_vertex = lambda name: name.is_new or name.number in vertices
        return (
            all(is_edge(use.edge) if isinstance(use, EdgeNow) else is_vertex(use.vertex) for use in change.uses())
            and all(edge.like in edges and is_vertex(edge.start) and is_vertex(edge.end) for edge in change.edges)
            and all(vertex.like in vertices for vertex in change.vertices)
            and all(seam.left in edges and seam.taken in edges for seam in change.seams)
        )

    def names_new(self):
        """Each new edge is named by a use, and each new vertex by a use or a new edge."""
        change = self.change
        edges = {use.edge.number for use in change.uses() if isinstance(use, EdgeNow) and use.edge.is_new}
        names = [use.vertex for use in change.uses() if isinstance(use, VertexNow)] + [end for edge in change.edges for end in (edge.start, edge.end)]
        vertices = {name.number for name in names if name.is_new}
        return edges.issuperset(range(len(change.edges))) and vertices.issuperset(range(len(change.vertices)))


def reversed_uses(uses):
    return [Use(use.edge, use.flag if use.edge is None else 1 - use.flag, use.end, use.start) for use in reversed(uses)]


def are_alike(uses, others):
    """Whether lists of uses are the same, a vertex use by its vertex alone."""
    parts = lambda use: (use.edge, use.flag) if use.edge is not None else (None, use.start)
    return list(map(parts, uses)) == list(map(parts, others))


def fits(solid, geometry, change):
    fitting = Fitting(solid, geometry, change)
    return fitting.keeps_geometry() and fitting.pieces_in_order() and fitting.names_own() and fitting.names_new()


class Pieces:
    """The shells that a change makes, one for each piece."""

    def __init__(self, solid, change):
        self.shell, self.change, self.ends = solid.shells[change.shell], change, Ends(solid).of
        self.shells = [Shell(self.shell.entity, self.shell.flag) for _ in range(change.pieces())]
        for place, face in change.kept():
            loops = [Loop(loop.entity, list(map(self.use, now.uses))) for loop, now in zip(self.shell.faces[place].loops, face.loops)]
            self.shells[face.piece].faces.append(Face(self.shell.faces[place].entity, face.flag, loops))
        for rim in change.rims:
            if 0 <= rim.piece < len(self.shells):
                loop = Loop(0, [self.edge_use(edge.edge, edge.along) for edge in rim.edges])
                self.shells[rim.piece].faces.append(Face(0, self.shell.flag, [loop]))

    def use(self, now):
        if isinstance(now, VertexNow):
            return Use(None, 0, now.vertex, now.vertex)
        return self.edge_use(now.edge, now.along)

    def edge_use(self, name, along):
        if name.is_new:
            edge = self.change.edges[name.number]
            start, end = edge.start, edge.end
        else:
            start, end = map(old, self.ends[name.number])
        return Use(name, int(along), *((start, end) if along else (end, start)))


class Anything(dict):
    """What stands in for a solid's lists where a rule that fails is to be told."""

    def __missing__(self, key):
        return 0, 0


class Unnamed:
    edges = vertices = Anything()


def shell_passes(shell):
    """Whether JOIN, PAIR, REACH and LINK hold of a shell, whatever its edges and vertices are named by."""
    try:
        if not shell.faces or any(not loop.uses for loop in shell.loops()):
            return False
        check_join(shell)
        rows = Rows(shell)
        mates = mates_of(Unnamed, rows)
        reach_of(shell, rows, mates)
        corners_of(Unnamed, rows, mates)
        return True
    except Fail:
        return False


def passes(solid, change):
    """Whether each piece passes; no vertex of it is one of an earlier shell, nor, of a void, of an earlier piece."""
    if any(not 0 <= rim.piece < change.pieces() for rim in change.rims):
        return False
    shells = Pieces(solid, change).shells
    if not shells or not all(map(shell_passes, shells)):
        return False
    earlier = {old(vertex) for shell in solid.shells[: change.shell] for vertex in shell.vertices()}
    for shell in shells:
        if earlier & shell.vertices():
            return False
        if change.shell > 0:
            earlier |= shell.vertices()
    return True
