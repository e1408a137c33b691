"""Surfaces of polygons, and files with them as shells, presented at random: orders, directions, lists and flags.

A face is a list of loops, and a loop a list of uses: of the name of an edge and whether it runs along it, or of the name of a
vertex alone. The faces look to the same side, where the surface has two.
"""
import dataclasses

from sample_file import PLANE, text_of

LINE = 110, 0, [0, 0, 0, 1, 0, 0]


@dataclasses.dataclass
class Surface:
    faces: list
    ends: dict

    def merged(self, vertices):
        """With some vertices, the keys, made others, the values."""
        return Surface(self.faces, {edge: tuple(vertices.get(v, v) for v in pair) for edge, pair in self.ends.items()})

    def without(self, face):
        return Surface(self.faces[:face] + self.faces[face + 1 :], self.ends)

    def unjoined(self):
        """With the first use turned."""
        (edge, along), *rest = self.faces[0][0]
        return Surface([[[(edge, not along), *rest], *self.faces[0][1:]], *self.faces[1:]], self.ends)

    def with_point(self, face, vertex):
        """With a loop at a vertex alone in a face."""
        faces = [loops + [[(vertex,)]] if at == face else loops for at, loops in enumerate(self.faces)]
        return Surface(faces, self.ends)

    def used_edges(self):
        return sorted({edge for loops in self.faces for loop in loops for edge, *along in loop if along}, key=repr)

    def vertices(self):
        points = {loop[0][0] for loops in self.faces for loop in loops if len(loop[0]) == 1}
        return sorted(points | {vertex for edge in self.used_edges() for vertex in self.ends[edge]}, key=repr)


def polygons(*faces):
    """Faces told by the vertices round them; two vertices have one edge."""
    ends, told = {}, []
    for face in faces:
        loop = list(zip(face, face[1:] + face[:1]))
        ends |= {tuple(sorted(pair)): tuple(sorted(pair)) for pair in loop}
        told.append([[(tuple(sorted(pair)), pair == tuple(sorted(pair))) for pair in loop]])
    return Surface(told, ends)


def disc(sides):
    """Triangles round a vertex."""
    return polygons(*([0, i, i % sides + 1] for i in range(1, sides + 1)))


def marked(mark, surface):
    """The surface with a mark before all names."""
    named = lambda use: ((mark, use[0]), *use[1:])
    faces = [[[named(use) for use in loop] for loop in loops] for loops in surface.faces]
    return Surface(faces, {(mark, edge): ((mark, start), (mark, end)) for edge, (start, end) in surface.ends.items()})


def beside(*surfaces):
    """The surfaces as one, with nothing shared."""
    told = [marked(mark, it) for mark, it in enumerate(surfaces)]
    return Surface([loops for it in told for loops in it.faces], {edge: pair for it in told for edge, pair in it.ends.items()})


class Grid:
    """Squares in rows and columns; the last row or column may be glued to the first, straight or mirrored."""

    def __init__(self, rows, columns, down=None, across=None):
        self.rows, self.columns, self.down, self.across = rows, columns, down, across

    def glued(self, point):
        """The points that a point is glued to at once."""
        i, j = point
        if self.down and i in (0, self.rows):
            yield self.rows - i, j if self.down == "straight" else self.columns - j
        if self.across and j in (0, self.columns):
            yield i if self.across == "straight" else self.rows - i, self.columns - j

    def vertex(self, point):
        """The least of all points that are one with this one."""
        known = [point]
        for it in known:
            known += [other for other in self.glued(it) if other not in known]
        return min(known)

    def edge(self, start, end):
        """The name of an edge of the grid, and whether it has this direction."""
        i, j = start
        if end[0] == i and self.down and i == self.rows:
            start, end = ((0, j if self.down == "straight" else self.columns - j) for _, j in (start, end))
        elif end[1] == j and self.across and j == self.columns:
            start, end = ((i if self.across == "straight" else self.rows - i, 0) for i, _ in (start, end))
        return (min(start, end), max(start, end)), start < end

    def surface(self):
        faces, ends = [], {}
        for i in range(self.rows):
            for j in range(self.columns):
                corners = [(i, j), (i, j + 1), (i + 1, j + 1), (i + 1, j)]
                faces.append([[self.edge(*pair) for pair in zip(corners, corners[1:] + corners[:1])]])
                ends |= {edge: tuple(map(self.vertex, edge)) for edge, _ in faces[-1][0]}
        return Surface(faces, ends)


def torus(rows, columns):
    return Grid(rows, columns, "straight", "straight").surface()


def in_lists(rng, items, spare, entries):
    """Where each item stands: in one of two lists, in any order, among unused items, which are None."""
    lists = [[], []]
    for item in rng.sample(items, len(items)) + [None] * spare:
        lists[rng.randrange(2)].insert(0 if item is None and rng.random() < 0.5 else rng.randint(0, 9), item)
    lists = [listed or [None] for listed in lists]
    return lists, {item: (entry, at) for entry, listed in zip(entries, lists) for at, item in enumerate(listed, 1) if item is not None}


def reversed_loop(loop):
    return [(edge, not along[0]) if along else (edge,) for edge, *along in reversed(loop)]


def listed_edges(rng, one, edges, flips, vertices):
    """The record of a list of edges, each a name or None, where it isn't used."""
    values = [len(edges)]
    for edge in edges:
        start, end = one.ends[edge] if edge else rng.choices(list(vertices), k=2)
        start, end = (end, start) if flips.get(edge) else (start, end)
        values += [11, *vertices[start], *vertices[end]]
    return 504, 1, values


def face_records(rng, entry, loops, vertices, edges, flips):
    """The records of a face with this entry and of its loops."""
    yield 510, 1, [13, len(loops), 1, *(entry + 2 * at for at in range(1, len(loops) + 1))]
    for loop in loops:
        first, uses = rng.randrange(len(loop)), []
        for item, *along in loop[first:] + loop[:first]:
            uses += [0, *edges[item], int(along[0] != flips[item]), 0] if along else [1, *vertices[item], 1, 0]
        yield 508, 1, [len(loop), *uses]


def presented(rng, surfaces, turned=0.0, form=1, spare=2, shared={}):
    """The file of solid 1 with a shell for each surface, the first of them entry 15. Each face is turned by its flag with a chance.

    Each list has unused items too. `shared` merges vertices of two surfaces, named as by `beside`.
    """
    one = beside(*surfaces).merged(shared)
    points, vertices = in_lists(rng, one.vertices(), spare, (3, 5))
    lines, edges = in_lists(rng, one.used_edges(), spare, (7, 9))
    flips = {edge: rng.random() < 0.5 for edge in edges}
    records = [None, *((502, 1, [len(it), *(rng.randrange(9) for _ in range(3 * len(it)))]) for it in points)]
    records += [*(listed_edges(rng, one, it, flips, vertices) for it in lines), LINE, PLANE]
    shells = []
    for mark, surface in enumerate(surfaces):
        shells += [2 * len(records) + 1, rng.randrange(2)]
        place, values = len(records), [len(surface.faces)]
        records.append(None)
        for loops in rng.sample(marked(mark, surface).faces, len(surface.faces)):
            entry = 2 * len(records) + 1
            flag = rng.randrange(2)
            records += face_records(rng, entry, loops if flag else [reversed_loop(loop) for loop in loops], vertices, edges, flips)
            values += [entry, flag ^ (rng.random() < turned)]
        records[place] = 514, form, values
    records[0] = 186, 0, [*shells[:2], len(surfaces) - 1, *shells[2:]]
    return text_of(records)
