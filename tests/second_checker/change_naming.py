"""The change that a draft of a shell comes to (docs/REMEDIES.md, section 5)."""
from collections import deque

from .change import CURVE, Change, EdgeNow, FaceNow, LoopNow, Move, NewEdge, NewVertex, Rim, RimEdge, Seam, VertexNow, new, old
from .change_fits import Ends, are_alike, reversed_uses

MOST_MOVES = 8


class TooManyMoves(Exception):
    pass


class Naming:
    """The names of a shell's edges and vertices, whatever its change."""

    def __init__(self, solid, geometry, place):
        self.solid, self.geometry, self.place, self.ends = solid, geometry, place, Ends(solid).of
        self.shell = solid.shells[place]
        self.earlier = {vertex for shell in solid.shells[:place] for vertex in shell.vertices()}

    def change(self, draft, sewing, rims):
        return Named(self, draft, sewing, rims).change


class Named:
    """The change of a draft, made use by use."""

    def __init__(self, naming, draft, sewing, rims):
        self.naming, self.draft, self.shell = naming, draft, naming.shell
        self.change = Change(naming.place, [None] * len(self.shell.faces))
        self.edges, self.vertices, self.moves = {}, {}, {}
        self.pairs = sewing.pairs if sewing else []
        self.put_seams()
        self.ways = Ways(naming, self.pairs, sewing.gaps if sewing else [])
        for face in draft.faces:
            self.change.faces[face.place] = FaceNow(face.body, face.flag, list(map(self.loop, self.shell.faces[face.place].loops, face.loops)))
        self.put_rims(rims)
        self.put_edges()
        if len(self.change.moves) > MOST_MOVES * len(self.shell.vertices()):
            raise TooManyMoves

    # seams

    def put_seams(self):
        """The pairs that were sewn, but of `sure` and `places` those whose left edge a face that is kept used."""
        uses = [use for face in self.draft.faces for loop in self.shell.faces[face.place].loops for use in loop.uses]
        used = {use.edge for use in uses}
        self.seam_of = {}
        for number, pair in enumerate(self.pairs):
            if pair.told == CURVE or pair.left in used:
                self.seam_of[pair.left] = len(self.change.seams), pair
                self.change.seams.append(Seam(pair.left, pair.taken, pair.told))

    # names

    def vertex(self, number):
        """The name of a vertex; a new one gets its number when it is first named."""
        if number in self.vertices:
            return self.vertices[number]
        it, naming = self.draft.vertices[number], self.naming
        if it.is_split or it.is_copy and naming.place > 0 or it.like in naming.earlier:
            self.change.vertices.append(NewVertex(it.like))
            name = new(len(self.change.vertices) - 1)
        else:
            name = old(it.like)
        self.vertices[number] = name
        return name

    def is_old(self, number):
        """Whether an edge keeps its name: it wasn't split off, and its ends are the old vertices that they were."""
        it, naming = self.draft.edges[number], self.naming
        if it.is_split:
            return False
        for end, was in zip((it.start, it.end), naming.ends[it.like]):
            vertex = self.draft.vertices[end]
            if vertex.like != was or vertex.is_split or vertex.is_copy and naming.place > 0 or was in naming.earlier:
                return False
        return True

    def edge(self, number):
        if number not in self.edges:
            it = self.draft.edges[number]
            if self.is_old(number):
                self.edges[number] = old(it.like)
            else:
                self.edges[number] = new(len(self.change.edges))
                self.change.edges.append(None)
                self.change.edges[-1] = NewEdge(it.like, self.vertex(it.start), self.vertex(it.end))
        return self.edges[number]

    # loops

    def loop(self, before, now):
        turned = reversed_uses(before.uses)
        is_reversed = now.is_reversed and not are_alike(turned, before.uses)
        uses = turned if is_reversed else before.uses
        return LoopNow(is_reversed, [self.use(*pair) for pair in zip(uses, now.uses)])

    def use(self, before, now):
        if before.edge is None:
            return VertexNow(self.vertex(now.vertex), self.move(before.start))
        name = self.edge(now.edge)
        seam, pair = self.seam_of.get(before.edge, (None, None))
        along = now.flag == 1
        is_turned = along != (before.flag == 1 if pair is None or pair.is_same else before.flag == 0)
        taken = self.draft.edges[now.edge].like
        if self.is_at_one_place(before.edge) or self.is_new_at_one_place(now.edge):
            curves = self.naming.geometry.curves
            is_turned = now.flag != before.flag and curves[before.edge].record != curves[taken].record
        start, end = (before.end, before.start) if is_turned else (before.start, before.end)
        return EdgeNow(name, along, is_turned, seam, self.move(start), self.move(end))

    def is_at_one_place(self, edge):
        start, end = (self.naming.geometry.places[vertex] for vertex in self.naming.ends[edge])
        return start == end

    def is_new_at_one_place(self, number):
        it, places = self.draft.edges[number], self.naming.geometry.places
        return places[self.draft.vertices[it.start].like] == places[self.draft.vertices[it.end].like]

    # moves

    def move(self, vertex):
        """The last of the moves of an old vertex, which are made when they are first needed; None where it stays."""
        if vertex not in self.moves:
            after = None
            for start, end, left, at_end, back in self.ways.of(vertex):
                self.change.moves.append(Move(self.ways.place(vertex), end, self.seam_of[left][0], at_end, back, after))
                after = len(self.change.moves) - 1
            self.moves[vertex] = after
        return self.moves[vertex]

    def put_edges(self):
        """Of each new edge how its ends have moved."""
        for number, edge in enumerate(self.change.edges):
            start, end = map(self.move, self.naming.ends[edge.like])
            self.change.edges[number] = edge._replace(start_by=start, end_by=end)

    # rims

    def put_rims(self, bodies):
        for piece, (rows, rims) in enumerate(bodies):
            for rim in sorted(rims):
                self.change.rims.append(Rim(piece, [RimEdge(self.edge(rows.edge[row]), not rows.along[row]) for row in rim]))


class Ways:
    """How sewing links vertices, and the way of each back to the least that is linked with it."""

    def __init__(self, naming, pairs, gaps):
        self.places, self.links, self.back = naming.geometry.places, {}, {}
        for pair in pairs:
            taken = naming.ends[pair.taken] if pair.is_same else naming.ends[pair.taken][::-1]
            for at_end, one, other in zip((False, True), naming.ends[pair.left], taken):
                self.link(one, other, pair.left, at_end)
        for one, other in gaps:
            self.link(one, other, None, False)
        for vertex in sorted(self.links):
            if vertex not in self.back:
                self.reach(vertex)

    def place(self, vertex):
        return self.places[vertex]

    def link(self, one, other, left, at_end):
        """A step from one to the other leads from the edge that is left to the one that is taken."""
        self.links.setdefault(one, []).append((other, left, at_end, False))
        self.links.setdefault(other, []).append((one, left, at_end, True))

    def reach(self, least):
        self.back[least] = None
        waiting = deque([least])
        while waiting:
            vertex = waiting.popleft()
            for other, left, at_end, is_back in self.links[vertex]:
                if other not in self.back:
                    # The way back from `other` is this link, the other way.
                    self.back[other] = vertex, left, at_end, not is_back
                    waiting.append(other)

    def of(self, vertex):
        """The steps between two places from a vertex to its least, if these differ in place."""
        steps, at = [], vertex
        while self.back.get(at) is not None:
            following, left, at_end, is_back = self.back[at]
            if self.places[at] != self.places[following]:
                steps.append((self.places[at], self.places[following], left, at_end, is_back))
            at = following
        return steps if self.places[at] != self.places[vertex] else []
