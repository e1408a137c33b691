"""Random files of one solid: polygons whose sides are glued in pairs, so that many of the solids are closed, and others nearly so.

Sides that are glued to none make open shells; glued in the wrong direction they make edges that run alike twice, and where no
face flags help, surfaces of one side; vertices that are made one pinch a surface or join shells.
"""
from sample_file import text_of

LINE, PLANE = (110, 0, [0, 0, 0, 1, 0, 0]), (108, 0, [0, 0, 1, 0, 0, 0, 0, 0, 0])
# How often a side stays alone, a pair is glued in the wrong direction, and two vertices are made one.
CLOSED, OPEN, TURNED, PINCHED, WILD = (0, 0, 0), (0.2, 0, 0), (0, 0.3, 0), (0, 0, 0.6), (0.1, 0.1, 0.3)


class Classes:
    """Things that are made one, step by step."""

    def __init__(self):
        self.parents = {}

    def of(self, thing):
        parent = self.parents.setdefault(thing, thing)
        while parent != self.parents[parent]:
            parent = self.parents[parent]
        return parent

    def join(self, one, other):
        self.parents[self.of(one)] = self.of(other)


class Surface:
    """The polygons of all shells, their sides' edges, and the vertices at their corners."""

    def __init__(self, rng):
        self.rng, self.corners, self.edges = rng, Classes(), []
        self.alone, self.wrong, self.merged = rng.choice([CLOSED, CLOSED, OPEN, TURNED, PINCHED, WILD])
        self.shells = [self.shell(number) for number in range(rng.choice([1, 1, 1, 2, 3]))]
        if rng.random() < self.merged:
            vertices = list(self.corners.parents)
            self.corners.join(rng.choice(vertices), rng.choice(vertices))

    def shell(self, number):
        """The faces of a shell, each a flag and its loops; a loop is its corners, and of each side its edge and tuple flag."""
        rng, faces, sides = self.rng, [], []
        for face in range(rng.randint(1, 4)):
            loops = [[(number, face, loop, at) for at in range(rng.choice([0, 1, 2, 3, 4, 4]))] for loop in range(rng.choice([1, 1, 1, 2]))]
            faces.append((int(rng.random() < 0.7), loops))
            sides += [(side, loop[(at + 1) % len(loop)], faces[-1][0]) for loop in loops for at, side in enumerate(loop)]
        rng.shuffle(sides)
        told = self.glued(sides)
        for face, (_, loops) in enumerate(faces):
            for at, loop in enumerate(loops):
                loops[at] = [(corner, *told[corner]) for corner in loop] or [self.point((number, face, at))]
        return faces

    def point(self, corner):
        """The one use of a loop without a side, which lies at a vertex of its own."""
        self.corners.of(corner)
        return corner, None, 1

    def glued(self, sides):
        """The edge and the tuple flag of each side, by the corner where it begins."""
        told = {}
        while sides:
            one = sides.pop()
            other = sides.pop() if sides and self.rng.random() >= self.alone else None
            flag, edge = self.rng.randrange(2), len(self.edges)
            self.edges.append(one[:2] if flag else one[1::-1])
            told[one[0]] = edge, flag
            for corner in one[:2]:
                self.corners.of(corner)
            if other:
                is_alike = (one[2] != other[2]) != (self.rng.random() < self.wrong)
                ends = other[:2] if is_alike else other[1::-1]
                for corner, end in zip(one[:2], ends):
                    self.corners.join(end, corner)
                told[other[0]] = edge, flag if is_alike else 1 - flag
        return told


class Entries:
    """Entries that name each other, numbered in the end in a random order."""

    def __init__(self, rng):
        self.rng, self.records = rng, {}

    def text(self, first):
        """The canonical text, with the entry of this name as the first."""
        names = [name for name in self.records if name != first]
        self.rng.shuffle(names)
        numbers = {name: 2 * place + 1 for place, name in enumerate([first, *names])}
        resolved = lambda values: [numbers[value] if isinstance(value, str) else value for value in values]
        return text_of([(kind, form, resolved(values)) for kind, form, values in (self.records[name] for name in numbers)])


def lists_of(rng, things, most):
    """The things, and some that nothing uses, in up to so many lists: the list and the index of each."""
    places, lists = {}, [[] for _ in range(rng.randint(1, most))]
    for thing in rng.sample(things, len(things)):
        number = rng.randrange(len(lists))
        lists[number] += [None] * (rng.random() < 0.1)
        lists[number].append(thing)
        places[thing] = number, len(lists[number])
    return places, lists


def tuples_of(rng, loop, edge_places, vertex_place):
    """The values of a loop's tuples, with uses of vertices between them now and then, and parameter curves."""
    tuples = []
    for corner, edge, flag in loop:
        curves = [value for _ in range(rng.choice([0] * 9 + [1, 2])) for value in (rng.randrange(2), "line")]
        number, index = vertex_place(corner)
        if edge is None or rng.random() < 0.05:
            tuples.append([1, f"vertices {number}", index, 1, 0])
        if edge is not None:
            number, index = edge_places[edge]
            tuples.append([0, f"edges {number}", index, flag, len(curves) // 2, *curves])
    return [len(tuples), *(value for told in tuples for value in told)]


def further_solid(rng, shells):
    """The values of a solid that names shells of others: mostly one alone, with either flag; now and then what is no shell."""
    named = [value for _ in range(rng.choice([1] * 8 + [2, 3])) for value in (rng.choice([*shells, *shells, *shells, "plane"]), rng.randrange(2))]
    return [*named[:2], len(named) // 2 - 1, *named[2:]]


def surface_text(rng, further=0):
    """The text of a random file of one solid, entry 1, and so many further ones that share its shells."""
    surface, entries = Surface(rng), Entries(rng)
    vertices = sorted({surface.corners.of(corner) for corner in surface.corners.parents}, key=repr)
    places, vertex_lists = lists_of(rng, vertices, 2)
    edge_places, edge_lists = lists_of(rng, list(range(len(surface.edges))), 2)
    vertex_place = lambda corner: places[surface.corners.of(corner)]
    records = entries.records
    records["line"], records["plane"] = LINE, PLANE
    for number, told in enumerate(vertex_lists):
        if told:
            records[f"vertices {number}"] = 502, 1, [len(told), *[0] * (3 * len(told))]
    for number, told in enumerate(edge_lists):
        if told:
            ends = [vertex_place(end) for edge in told for end in surface.edges[edge if edge is not None else 0]]
            keys = [(f"vertices {vertex_list}", index) for vertex_list, index in ends]
            values = [value for one, other in zip(keys[::2], keys[1::2]) for value in ("line", *one, *other)]
            records[f"edges {number}"] = 504, 1, [len(told), *values]
    shells = []
    for number, faces in enumerate(surface.shells):
        listed = []
        for at, (flag, loops) in enumerate(faces):
            names = [f"loop {number} {at} {place}" for place in range(len(loops))]
            for name, loop in zip(names, loops):
                records[name] = 508, 1, tuples_of(rng, loop, edge_places, vertex_place)
            records[f"face {number} {at}"] = 510, 1, ["plane", len(loops), 1, *names]
            listed += [f"face {number} {at}", flag]
        records[f"shell {number}"] = 514, 1, [len(faces), *listed]
        shells.append([f"shell {number}", rng.randrange(2)])
    records["solid"] = 186, 0, [*shells[0], len(shells) - 1, *(value for shell in shells[1:] for value in shell)]
    for place in range(further):
        records[f"solid {place}"] = 186, 0, further_solid(rng, [name for name, _ in shells])
    return entries.text("solid")
