"""Small closed solids, made at random: prisms with holes, cones, pillows of faces between two vertices, rings, and blocks of cells; one of these, or
several as shells of a solid, as bodies in one shell, or as further solids."""
import itertools
import math
import pathlib

from .bases import based
from .iges import EDGES, FACE, FIRST, LOOP, SECOND, SHELL, SOLID, VERTICES, Entry, File

HEAD = b"small".ljust(72) + b"S      1\n" + b"1H,,1H;;".ljust(72) + b"G      1\n"
BLANK = {name: " " * 8 for name in (*FIRST, *SECOND)}
# How the bodies of a file are put together: shells of a solid, bodies in one shell, or solids; and how often a face's flag is 0.
ARRANGED, ALONE = ("voids", "lumps", "solids"), 0.62
UNSET = 0, 0, 0, 0.5, 1


class Body:
    """Faces as loops of an edge and a flag or of a vertex alone; edges by two vertices and the word for their curve; vertices by places."""

    def __init__(self, rng):
        self.rng, self.faces, self.edges, self.vertices = rng, [], {}, {}
        self.round = rng.choice(["line", "arc", "arc", "spline"])

    def edge(self, name, start, end, curve="line"):
        self.edges.setdefault(name, (start, end, self.round if start == end else curve))
        return name

    def polygon(self, *corners):
        """A loop through corners; between two of them the edge is a line."""
        pairs = [(one, other, (min(one, other), max(one, other))) for one, other in zip(corners, corners[1:] + corners[:1])]
        return [(self.edge(name, *name), int((one, other) == name)) for one, other, name in pairs]


def reverse(loop):
    return [(edge, 1 - flag) for edge, flag in reversed(loop)]


def ring_points(count, radius, height):
    angles = [2 * math.pi * at / count for at in range(count)]
    return [(round(radius * math.cos(it), 3), round(radius * math.sin(it), 3), height) for it in angles]


def side(body, key, count, radius):
    """The faces between two rings of so many corners; the rings, as seen from within and from without."""
    below, above = [[(key, level, at) for at in range(count)] for level in (0, 1)]
    for corners, height in (below, 0), (above, 5):
        body.vertices |= dict(zip(corners, ring_points(count, radius, height)))
    curve = body.round if count < 3 else body.rng.choice(["line", body.round])
    after = lambda at: (at + 1) % count
    rings = [[body.edge((*corner, "on"), corner, corners[after(at)], curve) for at, corner in enumerate(corners)] for corners in (below, above)]
    rises = [body.edge((key, at, "up"), below[at], above[at]) for at in range(count)]
    for at in range(count):
        body.faces.append([[(rings[0][at], 1), (rises[after(at)], 1), (rings[1][at], 0), (rises[at], 0)]])
    return reverse([(edge, 1) for edge in rings[0]]), [(edge, 1) for edge in rings[1]]


def prism(body):
    """Or a tube: each hole's faces look the other way."""
    holes = body.rng.choice([0, 0, 0, 1, 2])
    below, above = ([loop] for loop in side(body, 0, body.rng.randint(1, 6 - 2 * holes), 9))
    for hole in range(holes):
        count = len(body.faces)
        loops = side(body, 1 + hole, body.rng.randint(1, 3), 2 + hole)
        body.faces[count:] = [[reverse(loop) for loop in face] for face in body.faces[count:]]
        below.append(reverse(loops[0]))
        above.append(reverse(loops[1]))
    body.faces += [below, above]


def cone(body):
    count = body.rng.randint(1, 6)
    corners = list(range(count))
    body.vertices = dict(zip(corners, ring_points(count, 7, 0))) | {"top": (0, 0, 6)}
    rim = [body.edge((at, "on"), at, (at + 1) % count, body.round if count < 3 else "line") for at in corners]
    rises = [body.edge((at, "up"), at, "top") for at in corners]
    body.faces = [[[(rim[at], 1), (rises[(at + 1) % count], 1), (rises[at], 0)]] for at in corners]
    body.faces.append([reverse([(edge, 1) for edge in rim])])


def pillow(body):
    """Faces between edges that all have the same two ends; without an edge a ball with a vertex."""
    count = body.rng.randint(0, 4)
    body.vertices = {0: (0, 0, 3), 1: (0, 0, -3)} if count else {0: (0, 0, 3)}
    edges = [body.edge(at, 0, 1, body.rng.choice(["arc", "arc", "spline", "line"])) for at in range(count)]
    body.faces = [[[(edge, 1), (edges[at - 1], 0)]] for at, edge in enumerate(edges)] or [[[0]]]


def torus(body):
    one, other = body.rng.randint(1, 3), body.rng.randint(1, 3)
    places = list(itertools.product(range(one), range(other)))
    body.vertices = {(i, j): (4 * i, 3 * j, i + j) for i, j in places}
    for i, j in places:
        right, up = ((i + 1) % one, j), (i, (j + 1) % other)
        uses = [(((i, j), 0), 1), ((right, 1), 1), ((up, 0), 0), (((i, j), 1), 0)]
        body.edge(((i, j), 0), (i, j), right)
        body.edge(((i, j), 1), (i, j), up)
        body.faces.append([uses])


def block(body):
    """The outer squares of some cells, which may touch at an edge or at a vertex alone."""
    cells = body.rng.sample(list(itertools.product(range(2), range(2), range(2))), body.rng.choice([1, 1, 1, 2, 2, 3, 4]))
    for cell, axis, far in itertools.product(cells, range(3), range(2)):
        beside = tuple(value + (2 * far - 1) * (place == axis) for place, value in enumerate(cell))
        if beside in cells:
            continue
        one, other = [place for place in range(3) if place != axis]
        corners = [list(cell) for _ in range(4)]
        for corner, (a, b) in zip(corners, ((0, 0), (1, 0), (1, 1), (0, 1))):
            corner[axis], corner[one], corner[other] = cell[axis] + far, cell[one] + a, cell[other] + b
        corners = list(map(tuple, corners if (far == 1) == (axis != 1) else corners[::-1]))
        body.vertices |= {corner: corner for corner in corners}
        body.faces.append([body.polygon(*corners)])


SHAPES = prism, prism, cone, pillow, torus, block, block, block


def body_of(rng):
    body = Body(rng)
    rng.choice(SHAPES)(body)
    return body


class Made:
    """The entries of a file, in a random order."""

    def __init__(self, rng, count):
        self.rng, self.entries, self.curves, self.are_shared = rng, [], {}, rng.random() < 0.1
        self.numbers = rng.sample(range(1, 2 * count, 2), count)

    def add(self, kind, form, words=(), record=None):
        entry = Entry(self.numbers.pop(), kind, form, dict(BLANK), [str(word) for word in words], record)
        self.entries.append(entry)
        return entry.number

    def curve(self, kind, p, q):
        key = kind if self.are_shared else (kind, p, q, self.rng.randrange(2) if kind != "line" else 0)
        if key not in self.curves:
            self.curves[key] = self.add(*self.values(kind, p, q))
        return self.curves[key]

    def values(self, kind, p, q):
        if kind == "arc":
            return 100, 0, [p[2], 0, 0, *p[:2], *q[:2]]
        return (126, 0, [1, 1, 0, 0, 1, 0, 0, 0, 1, 1, 1, 1, *p, *q, 0, 1, 0, 0, 0]) if kind == "spline" else (110, 0, [*p, *q])

    def shell(self, bodies):
        """A shell of some bodies, each moved and of lists of its own; some faces have flag 0, and run the other way."""
        rng, unset, faces = self.rng, self.rng.choice(UNSET), []
        for body in bodies:
            by = rng.randrange(0, 60, 20)
            moved = {name: tuple(value + by for value in place) for name, place in body.vertices.items()}
            vertices = self.add(VERTICES, 1, record=[list(map(str, place)) for place in moved.values()])
            places = {name: [vertices, at] for at, name in enumerate(moved, 1)}
            ends = [(start, end, self.curve(curve, moved[start], moved[end])) for start, end, curve in body.edges.values()]
            edges = self.add(EDGES, 1, record=[[curve, *places[start], *places[end]] for start, end, curve in ends]) if ends else None
            rank = {name: at for at, name in enumerate(body.edges, 1)}
            use = lambda it: [0, edges, rank[it[0]], it[1], []] if isinstance(it, tuple) else [1, *places[it], 1, []]
            for at, loops in enumerate(body.faces):
                is_unset = rng.random() < unset
                told = [reverse(loop) if is_unset and isinstance(loop[0], tuple) else loop for loop in loops]
                loops = [self.add(LOOP, 1, record=list(map(use, loop))) for loop in told]
                surface = self.curves.get(("plane", at % 3)) or self.add(108, 0, [0, 0, 1, at % 3, 0, 0, 0, 0, 0])
                self.curves["plane", at % 3] = surface
                faces.append([self.add(FACE, 1, record=[surface, 1, loops]), 1 - is_unset])
        rng.shuffle(faces)
        return self.add(SHELL, 1, record=faces)


def small_base(rng, name):
    """A base of a random solid."""
    bodies = [body_of(rng) for _ in range(1 if rng.random() < ALONE else rng.choice([2, 2, 3]))]
    how, made = rng.choice(ARRANGED), Made(rng, 400)
    shells = [made.shell(bodies)] if how == "lumps" else [made.shell([body]) for body in bodies]
    flags = [[shell, rng.randrange(2)] for shell in shells]
    solids = [[flag] for flag in flags] if how == "solids" else [flags]
    numbers = [made.add(SOLID, 0, record=record) for record in solids]
    file = File(HEAD)
    file.entries = sorted(made.entries, key=lambda entry: entry.number)
    names = {entry.number: 2 * at + 1 for at, entry in enumerate(file.entries)}
    rename(file.entries, names)
    return based(pathlib.Path(name), file.bytes(), file, len(solids[0]))._replace(solid=names[numbers[0]])


def rename(entries, names):
    """Gives the entries other numbers, and their records too."""
    for entry in entries:
        entry.number, record = names[entry.number], entry.record
        if entry.kind in (SOLID, SHELL):
            record[:] = [[names[number], flag] for number, flag in record]
        elif entry.kind == FACE:
            record[0], record[2] = names[record[0]], [names[loop] for loop in record[2]]
        elif entry.kind == LOOP:
            record[:] = [[use[0], names[use[1]], *use[2:]] for use in record]
        elif entry.kind == EDGES:
            record[:] = [[names[curve], names[start], at, names[end], to] for curve, start, at, end, to in record]
