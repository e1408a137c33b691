"""A shell that is being changed, and the steps that change it (docs/REMEDIES.md, section 3)."""

class DraftUse:
    """A use of an edge, with its flag, or of a vertex."""

    def __init__(self, edge, flag, vertex=None):
        self.edge, self.flag, self.vertex = edge, flag, vertex


class DraftLoop:
    def __init__(self, uses, is_reversed=False):
        self.uses, self.is_reversed = uses, is_reversed

    def reverse(self):
        self.uses.reverse()
        self.is_reversed = not self.is_reversed
        for use in self.uses:
            if use.edge is not None:
                use.flag = 1 - use.flag


class DraftFace:
    """A face by its place in the shell, with its flag now and its body."""

    def __init__(self, place, flag, loops, body=0):
        self.place, self.flag, self.loops, self.body = place, flag, loops, body


class DraftEdge:
    """The old edge whose curve it has, its two vertices now, and whether it was split off."""

    def __init__(self, like, start, end, is_split=False):
        self.like, self.start, self.end, self.is_split = like, start, end, is_split


class DraftVertex:
    """The old vertex that it was, or has become; whether it was split off; and whether it is the copy that a later body has."""

    def __init__(self, like, is_split=False, is_copy=False):
        self.like, self.is_split, self.is_copy = like, is_split, is_copy


class Draft:
    """The faces that are left of a shell, and all edges and vertices by number: the solid's first, then those that were made."""

    def __init__(self, flag, faces, edges, vertices):
        self.flag, self.faces, self.edges, self.vertices = flag, faces, edges, vertices

    @staticmethod
    def of(solid, ends, place):
        shell = solid.shells[place]
        edges = {number: DraftEdge(number, *pair) for number, pair in ends.items()}
        vertices = {number: DraftVertex(number) for number in range(len(solid.vertices))}
        use_of = lambda use: DraftUse(use.edge, use.flag, None if use.edge is not None else use.start)
        faces = [
            DraftFace(number, face.flag, [DraftLoop(list(map(use_of, loop.uses))) for loop in face.loops]) for number, face in enumerate(shell.faces)
        ]
        return Draft(shell.flag, faces, edges, vertices)

    def copy(self):
        loop_of = lambda loop: DraftLoop([DraftUse(use.edge, use.flag, use.vertex) for use in loop.uses], loop.is_reversed)
        faces = [DraftFace(face.place, face.flag, list(map(loop_of, face.loops)), face.body) for face in self.faces]
        edges = {number: DraftEdge(it.like, it.start, it.end, it.is_split) for number, it in self.edges.items()}
        vertices = {number: DraftVertex(it.like, it.is_split, it.is_copy) for number, it in self.vertices.items()}
        return Draft(self.flag, faces, edges, vertices)

    def without(self, places):
        """A copy without some faces, by their places in the shell."""
        rest = self.copy()
        rest.faces = [face for face in rest.faces if face.place not in places]
        return rest

    def loops(self):
        return [loop for face in self.faces for loop in face.loops]

    def ends(self, use):
        if use.edge is None:
            return use.vertex, use.vertex
        edge = self.edges[use.edge]
        return (edge.start, edge.end) if use.flag else (edge.end, edge.start)

    def new_edge(self, edge):
        self.edges[len(self.edges)] = edge
        return len(self.edges) - 1

    def new_vertex(self, vertex):
        self.vertices[len(self.vertices)] = vertex
        return len(self.vertices) - 1

    def gaps(self):
        """The two vertices at each gap, in order."""
        found = []
        for loop in self.loops():
            ends = list(map(self.ends, loop.uses))
            pairs = [(end, start) for (_, end), (start, _) in zip(ends, ends[1:] + ends[:1])]
            found += [pair for pair in pairs if pair[0] != pair[1]]
        return found

    def bodies(self):
        """The faces of each body."""
        found = {}
        for face in self.faces:
            found.setdefault(face.body, []).append(face)
        return [found[body] for body in sorted(found)]


class DraftRows:
    """The rows of some faces of a draft, from 0: edge, whether along it, start and end, the face's place among these, use and loop; what follows each."""

    def __init__(self, draft, faces):
        self.draft, self.faces = draft, faces
        self.edge, self.along, self.face, self.use, self.loop, self.follows, self.lone = [], [], [], [], [], [], []
        for number, face in enumerate(faces):
            for loop in face.loops:
                self.add(number, face, loop)
        ends = [(draft.edges[edge].start, draft.edges[edge].end) for edge in self.edge]
        self.start = [pair[0 if along else 1] for pair, along in zip(ends, self.along)]
        self.end = [pair[1 if along else 0] for pair, along in zip(ends, self.along)]
        self.of_edge = {}
        for row, edge in enumerate(self.edge):
            self.of_edge.setdefault(edge, []).append(row)
        self.mates = {}
        for rows in self.of_edge.values():
            if self.are_mates(rows):
                self.mates.update([rows, rows[::-1]])

    def add(self, number, face, loop):
        is_turned, first = face.flag != self.draft.flag, len(self.edge)
        for use in loop.uses:
            if use.edge is not None:
                self.edge.append(use.edge)
                self.along.append((use.flag == 1) != is_turned)
                self.face.append(number)
                self.use.append(use)
                self.loop.append(loop)
        count = len(self.edge) - first
        if count == 0 and loop.uses:
            self.lone.append(loop)
        self.follows += [first + (place + (-1 if is_turned else 1)) % count for place in range(count)]

    def are_mates(self, rows):
        return len(rows) == 2 and self.along[rows[0]] != self.along[rows[1]]

    def free(self):
        """The rows of free edges, by edges' first rows."""
        return [rows[0] for rows in self.of_edge.values() if len(rows) == 1]

    def crowded(self):
        return [edge for edge, rows in self.of_edge.items() if len(rows) > 2]

    def groups(self, joins):
        """The faces in sets that edges join of which `joins` holds of the rows, by first faces."""
        classes = Parity(len(self.faces))
        for rows in self.of_edge.values():
            if joins(rows):
                for row in rows[1:]:
                    classes.join(self.face[rows[0]], self.face[row], 0)
        return classes.groups()

    def parts(self):
        return self.groups(lambda rows: True)

    def patches(self):
        return self.groups(lambda rows: len(rows) == 2)

    def fans(self):
        """Of each vertex the cycles and the paths of turns that start there, each as its rows, by their first rows."""
        turn = {row: self.follows[mate] for row, mate in self.mates.items()}
        turned_to, cycles, paths, seen = set(turn.values()), {}, {}, set()
        for fans, begins in ((paths, [row for row in range(len(self.edge)) if row not in turned_to]), (cycles, range(len(self.edge)))):
            for row in begins:
                fan = []
                while row is not None and row not in seen:
                    seen.add(row)
                    fan.append(row)
                    row = turn.get(row)
                if fan:
                    fans.setdefault(self.start[fan[0]], []).append(fan)
        return cycles, paths


class Parity:
    """Things from 0 in classes, each of one of two sides in its class."""

    def __init__(self, count):
        self.lead, self.side, self.holds = list(range(count)), [0] * count, True

    def find(self, thing):
        """The first of its class, and whether it is on the other side."""
        side = 0
        while self.lead[thing] != thing:
            side ^= self.side[thing]
            thing = self.lead[thing]
        return thing, side

    def join(self, one, other, differ):
        (a, p), (b, q) = self.find(one), self.find(other)
        if a == b:
            self.holds &= p ^ q == differ
            return
        a, b = sorted((a, b))
        self.lead[b], self.side[b] = a, p ^ q ^ differ

    def groups(self):
        found = {}
        for thing in range(len(self.lead)):
            found.setdefault(self.find(thing)[0], []).append(thing)
        return list(found.values())

    def turned(self):
        """Of each class the side without its first thing, unless that has more."""
        chosen = []
        for group in self.groups():
            sides = [thing for thing in group if not self.find(thing)[1]], [thing for thing in group if self.find(thing)[1]]
            chosen += sides[1] if len(sides[1]) <= len(sides[0]) else sides[0]
        return set(chosen)


# steps; each changes the draft and says whether it did

def turn(draft):
    """'faces' or 'loops' where flags were changed, or loops reversed, too; else None."""
    rows = DraftRows(draft, draft.faces)
    two = [pair for pair in rows.of_edge.values() if len(pair) == 2]
    if all(map(rows.are_mates, two)):
        return None
    sides = Parity(len(draft.faces))
    for one, other in two:
        sides.join(rows.face[one], rows.face[other], int(rows.along[one] == rows.along[other]))
    if sides.holds:
        for number in sides.turned():
            draft.faces[number].flag ^= 1
        return "faces"
    return turn_loops(draft, rows, two)


def turn_loops(draft, rows, two):
    loops = draft.loops()
    number = {id(loop): place for place, loop in enumerate(loops)}
    sides = Parity(len(loops))
    for one, other in two:
        sides.join(number[id(rows.loop[one])], number[id(rows.loop[other])], int(rows.along[one] == rows.along[other]))
    if not sides.holds:
        return None
    turned, kind = sides.turned(), "faces"
    for face in draft.faces:
        of_face = [loop for loop in face.loops if number[id(loop)] in turned]
        if of_face and len(of_face) == len(face.loops):
            face.flag ^= 1
            continue
        for loop in of_face:
            loop.reverse()
            kind = "loops"
    return kind


def turn_uses(draft):
    """Changes the flags of uses of each loop with gaps that joins then."""
    did = False
    for loop in draft.loops():
        ends = list(map(draft.ends, loop.uses))
        if all(end == start for (_, end), (start, _) in zip(ends, ends[1:] + ends[:1])):
            continue
        ways = [flags for flags in (joining_flags(draft, loop, first) for first in (0, 1)) if flags is not None]
        if ways:
            changes = lambda flags: sum(flag != use.flag for flag, use in zip(flags, loop.uses))
            for use, flag in zip(loop.uses, min(ways, key=changes)):
                use.flag = flag
            did = True
    return did


def joining_flags(draft, loop, first):
    """Flags with which a loop joins, where the first use keeps its own or changes it; None where it doesn't then."""
    flags, begin, at = [], None, None
    for use in loop.uses:
        changes = first if at is None else 0
        start, end = draft.ends(use)
        if use.edge is not None and (changes or at is not None and start != at):
            start, end, flag = end, start, 1 - use.flag
        else:
            flag = use.flag
        if at is None:
            begin = start
        elif start != at:
            return None
        flags.append(flag)
        at = end
    return flags if at == begin else None


def part(draft, is_cut):
    """Makes bodies of the sets of faces that edges join; of a cut those with mates alone."""
    rows = DraftRows(draft, draft.faces)
    groups = rows.groups(rows.are_mates if is_cut else lambda of_edge: True)
    if len(groups) < 2:
        return False
    copies = Copies(draft)
    for body, group in enumerate(groups):
        for number in group:
            draft.faces[number].body = body
            for loop in draft.faces[number].loops:
                for use in loop.uses:
                    copies.take(body, use)
    return True


class Copies:
    """The edges and vertices of bodies: what an earlier body has is a copy in a later one."""

    def __init__(self, draft):
        self.draft, self.edges, self.vertices = draft, {}, {}
        self.ends = {number: (edge.start, edge.end) for number, edge in draft.edges.items()}

    def vertex(self, body, vertex):
        owners = self.vertices.setdefault(vertex, {})
        if body not in owners:
            owners[body] = self.draft.new_vertex(DraftVertex(self.draft.vertices[vertex].like, is_copy=True)) if owners else vertex
        return owners[body]

    def edge(self, body, number):
        owners = self.edges.setdefault(number, {})
        if body not in owners:
            edge = self.draft.edges[number]
            owners[body] = self.draft.new_edge(DraftEdge(edge.like, None, None, edge.is_split)) if owners else number
            own = self.draft.edges[owners[body]]
            own.start, own.end = (self.vertex(body, vertex) for vertex in self.ends[number])
        return owners[body]

    def take(self, body, use):
        if use.edge is None:
            use.vertex = self.vertex(body, use.vertex)
        else:
            use.edge = self.edge(body, use.edge)


def split_edges(draft, offset):
    rows = DraftRows(draft, draft.faces)
    many = [(edge, of_edge) for edge, of_edge in rows.of_edge.items() if len(of_edge) >= 4]
    patch = {face: number for number, faces in enumerate(rows.patches()) for face in faces}
    order = lambda row: (patch[rows.face[row]], row)
    sides = {edge: [sorted((row for row in of_edge if rows.along[row] == along), key=order) for along in (True, False)] for edge, of_edge in many}
    if not many or any(len(along) != len(against) for along, against in sides.values()):
        return False
    for edge, (along, against) in sides.items():
        against = against[offset:] + against[:offset]
        for pair in list(zip(along, against))[1:]:
            it = draft.edges[edge]
            number = draft.new_edge(DraftEdge(it.like, it.start, it.end, True))
            for row in pair:
                rows.use[row].edge = number
    return True


def split_vertices(draft, faces):
    """Of the faces of a body: whether a vertex was split."""
    rows = DraftRows(draft, faces)
    cycles, paths = rows.fans()
    lone = {}
    for loop in rows.lone:
        lone.setdefault(loop.uses[0].vertex, []).append(loop)
    did = False
    for vertex in {*cycles, *paths, *lone}:
        fans = [*cycles.get(vertex, ()), *lone.get(vertex, ())]
        own = fans if vertex in paths else fans[1:]
        if vertex in paths and not fans:
            continue
        for fan in own:
            did = True
            number = draft.new_vertex(DraftVertex(draft.vertices[vertex].like, is_split=True))
            give_vertex(draft, rows, fan, number)
    if did:
        for face in faces:
            for loop in face.loops:
                follow_edges(draft, loop)
    return did


def give_vertex(draft, rows, fan, number):
    """A fan of rows, or a loop without an edge, gets a vertex of its own."""
    if isinstance(fan, DraftLoop):
        for use in fan.uses:
            use.vertex = number
        return
    for row in fan:
        edge = draft.edges[rows.edge[row]]
        if rows.along[row]:
            edge.start = number
        else:
            edge.end = number


def follow_edges(draft, loop):
    """Each use of a vertex goes with the edge use before it."""
    places = [place for place, use in enumerate(loop.uses) if use.edge is not None]
    if not places or len(places) == len(loop.uses):
        return
    at = None
    for step in range(len(loop.uses)):
        use = loop.uses[(places[0] + step) % len(loop.uses)]
        if use.edge is None:
            use.vertex = at
        else:
            at = draft.ends(use)[1]


def rims_of(draft, faces):
    """The rows of a body, and its rims, each as some of these."""
    rows = DraftRows(draft, faces)
    _, paths = rows.fans()
    before = {follow: row for row, follow in enumerate(rows.follows)}
    leads = {}
    for fans in paths.values():
        for fan, after in zip(fans, fans[1:] + fans[:1]):
            leads[fan[-1]] = before[after[0]]
    rims = []
    for row in sorted(rows.free()):
        rim = []
        while row in leads:
            rim.append(row)
            row = leads.pop(row)
        if rim:
            rims.append(rim)
    return rows, rims
