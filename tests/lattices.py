"""Random files of one solid of unit squares on a lattice, harmed as CAD files are: squares left out, doubled, turned or left over, walls inside,
bodies that touch, faces that aren't sewn, loops that don't join. So most hints of `where` are due in many of them."""
import itertools

from surfaces import LINE, PLANE, Entries

# A few cells that may touch; and of those whose lists have more members than are written, a bar, and cells that stand apart.
BLOCK, BAR, APART = list(itertools.product(range(2), range(2), range(1))), [(place, 0, 0) for place in range(24)], [(2 * place, 0, 0) for place in range(24)]
# How often a solid has so many cells, a body for each cell, a shell for each body, a loop that doesn't join, and several spellings of one number.
IS_LONG, IS_MANY, IS_SPLIT, IS_BROKEN, IS_MIXED = 0.06, 0.35, 0.2, 0.08, 0.15
# What faces that meet share: all that lies alike; all within a body; vertices alone; or nothing.
SHARING = "all", "all", "all", "all", "all", "body", "vertices", "none"
# From this number on a face shares nothing.
LOOSE = 1000


class Spelled:
    """A real, as it is spelled."""

    def __init__(self, word):
        self.word = word

    def __str__(self):
        return self.word


def square(cell, axis, side):
    """The corners of one side of a cell, counter-clockwise as seen from outside."""
    one, other = [it for it in range(3) if it != axis]
    corners = []
    for a, b in ((0, 0), (1, 0), (1, 1), (0, 1)):
        corner = list(cell)
        corner[axis], corner[one], corner[other] = cell[axis] + side, cell[one] + a, cell[other] + b
        corners.append(tuple(corner))
    return corners if (side == 1) == (axis != 1) else corners[::-1]


class Face:
    def __init__(self, corners, body, number):
        self.corners, self.body, self.number = corners, body, number
        self.flag, self.is_turned, self.is_broken = 1, False, False


class Lattice:
    """The faces of a solid, in shells."""

    def __init__(self, rng):
        self.rng, self.sharing = rng, rng.choice(SHARING)
        is_long, is_one = rng.random() < IS_LONG, rng.random() >= IS_MANY
        cells = rng.choice([BAR, APART]) if is_long else rng.sample(BLOCK, rng.randint(1, 4))
        sides = [(cell, square(cell, axis, side)) for cell in cells for axis in range(3) for side in range(2)]
        within = [corners for _, corners in sides if is_one and sum(set(corners) == set(it) for _, it in sides) == 2]
        outer = [(cell, corners) for cell, corners in sides if corners not in within]
        self.faces = [Face(corners, 0 if is_one else cells.index(cell), number) for number, (cell, corners) in enumerate(outer)]
        self.walls = within
        self.harm(rng.choice([1, 30, 90]) if is_long else 1)
        bodies = sorted({face.body for face in self.faces})
        is_split = rng.random() < IS_SPLIT
        self.shells = [[face for face in self.faces if face.body == body] for body in bodies] if is_split else [self.faces]
        for shell in self.shells:
            rng.shuffle(shell)

    def harm(self, often):
        """One kind of harm, so often, in most solids; in some several kinds, or none."""
        harms = self.leave_out, self.double, self.turn, self.turn, self.add_wall, self.loosen, self.leave_over
        for kind in self.rng.choices(harms, k=self.rng.choice([0, 1, 1, 1, 1, 2, 3])):
            for _ in range(often):
                kind()
        if self.rng.random() < 0.12:
            self.read_otherwise()
        if self.rng.random() < IS_BROKEN:
            self.rng.choice(self.faces).is_broken = True

    def leave_out(self):
        if len(self.faces) > 1:
            self.faces.remove(self.rng.choice(self.faces))

    def double(self):
        face = self.rng.choice(self.faces)
        self.faces.append(Face(face.corners[:: self.rng.choice([1, -1])], face.body, face.number))

    def turn(self):
        face = self.rng.choice(self.faces)
        face.is_turned = not face.is_turned

    def add_wall(self):
        if self.walls:
            self.faces.append(Face(self.rng.choice(self.walls), 0, len(self.faces) + 9))

    def loosen(self):
        """A face that shares nothing."""
        self.rng.choice(self.faces).number = LOOSE + self.rng.randrange(9)

    def leave_over(self):
        """A copy of a face, which shares nothing."""
        face = self.rng.choice(self.faces)
        self.faces.append(Face(face.corners, face.body, LOOSE + len(self.faces)))

    def read_otherwise(self):
        """A face's flag that speaks of its surface alone."""
        for face in self.rng.sample(self.faces, min(2, len(self.faces))):
            face.is_turned, face.flag = not face.is_turned, 0

    def key(self, face, thing, is_vertex):
        """A vertex or an edge, by what it is shared with."""
        owners = {"all": "", "body": face.body, "vertices": "" if is_vertex else face.number, "none": face.number}
        return thing, face.number if face.number >= LOOSE else owners[self.sharing]


def loop_of(lattice, face, vertices, edges):
    """The edges of a face with the flags of its tuples, in order."""
    corners = face.corners if face.flag else face.corners[::-1]
    corners = corners[::-1] if face.is_turned else corners
    for place, (one, other) in enumerate(zip(corners, corners[1:] + corners[:1])):
        ends = [vertices.setdefault(lattice.key(face, corner, True), len(vertices) + 1) for corner in (one, other)]
        index, started = edges.setdefault(lattice.key(face, (min(one, other), max(one, other)), False), (len(edges) + 1, ends))
        yield index, int((started == ends) != (face.is_broken and place == 0))


def spelled(rng, number, is_mixed):
    """A coordinate; in some solids the words differ, of some only far behind."""
    if not is_mixed:
        return number
    return rng.choice([number, number, float(number), Spelled(f"{number}.{'0' * 110}"), Spelled(f"{number}.{'0' * 111}")])


def lattice_text(rng):
    """The text of such a file, whose solid is entry 1."""
    lattice, entries, vertices, edges = Lattice(rng), Entries(rng), {}, {}
    records = entries.records
    records["line"], records["plane"] = LINE, PLANE
    shells = []
    for number, faces in enumerate(lattice.shells):
        listed = []
        for place, face in enumerate(faces):
            uses = list(loop_of(lattice, face, vertices, edges))
            values = [value for index, flag in uses for value in (0, "edges", index, flag, 0)]
            records[f"loop {number} {place}"] = 508, 1, [len(uses), *values]
            records[f"face {number} {place}"] = 510, 1, ["plane", 1, 1, f"loop {number} {place}"]
            listed += [f"face {number} {place}", face.flag]
        records[f"shell {number}"] = 514, 1, [len(faces), *listed]
        shells.append([f"shell {number}", 1])
    is_mixed = rng.random() < IS_MIXED
    records["vertices"] = 502, 1, [len(vertices), *(spelled(rng, value, is_mixed) for (corner, _), _ in vertices.items() for value in corner)]
    records["edges"] = 504, 1, [len(edges), *(value for _, (one, other) in edges.values() for value in ("line", "vertices", one, "vertices", other))]
    records["solid"] = 186, 0, [*shells[0], len(shells) - 1, *(value for shell in shells[1:] for value in shell)]
    return entries.text("solid")
