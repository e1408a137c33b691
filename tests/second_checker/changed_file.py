"""The file in which shells of a solid are changed (docs/REPAIR.md)."""
import copy

from .compaction import tuples_at
from .extraction import Reference
from .change import EdgeNow

CURVES, EDGE_WIDTH, VERTEX_WIDTH = 4, 5, 3


class Changing:
    """An extracted file, a solid of it, and its changes one after the other."""

    def __init__(self, file, solid):
        self.file, self.solid = copy.copy(file), solid
        self.file.entries = dict(file.entries)
        self.voids, self.faces, self.loops, self.solids = [], set(), set(), [solid.entity]

    def values(self, number):
        return self.file.entries[number].values

    def set(self, number, values):
        entry = copy.copy(self.file.entries[number])
        entry.values = values
        self.file.entries[number] = entry

    def add(self, like, values):
        number = 2 * len(self.file.entries) + 1
        self.file.entries[number] = self.file.entries[like]
        self.set(number, values)
        return number

    # what items are

    def vertex_item(self, name):
        return [self.new_vertices, name.number + 1] if name.is_new else list(self.solid.vertices[name.number])

    def edge_item(self, name):
        return [self.new_edges, name.number + 1] if name.is_new else list(self.solid.edges[name.number])

    def vertex_values(self, vertex):
        entity, index = self.solid.vertices[vertex.like]
        return self.values(entity)[1 + VERTEX_WIDTH * (index - 1) :][:VERTEX_WIDTH]

    def edge_values(self, edge):
        entity, index = self.solid.edges[edge.like]
        curve = self.values(entity)[1 + EDGE_WIDTH * (index - 1)]
        return [curve, *self.vertex_item(edge.start), *self.vertex_item(edge.end)]

    def put_lists(self, change):
        """The new vertices and the new edges, each in a list with the fields of that of the first item's source."""
        self.new_vertices = self.new_edges = None
        for name, items, keys, values in (
            ("new_vertices", change.vertices, self.solid.vertices, self.vertex_values),
            ("new_edges", change.edges, self.solid.edges, self.edge_values),
        ):
            if items:
                listed = [len(items), *(value for item in items for value in values(item))]
                setattr(self, name, self.add(keys[items[0].like][0], listed))

    # loops, shells, solids

    def put_loop(self, loop, now):
        values = self.values(loop.entity)
        places = [at for at, _ in tuples_at(values)]
        ends = [at + 5 + 2 * (values[at + CURVES] or 0) if at + CURVES < len(values) else len(values) for at in places]
        tuples = [values[at:end] for at, end in zip(places, ends)]
        behind = values[ends[-1] :]
        if now.reversed:
            tuples = [told if len(told) > CURVES else [*told, 0] for told in reversed(tuples)]
        listed = [value for told, use in zip(tuples, now.uses) for value in self.tuple_now(told, use)]
        self.set(loop.entity, [values[0], *listed, *behind])

    def tuple_now(self, told, use):
        if isinstance(use, EdgeNow):
            return [told[0], *self.edge_item(use.edge), int(use.along), *told[CURVES:]]
        return [told[0], *self.vertex_item(use.vertex), told[3], *told[CURVES:]]

    def put(self, change):
        shell = self.solid.shells[change.shell]
        self.put_lists(change)
        pieces = [[] for _ in range(change.pieces())]
        for face, now in zip(shell.faces, change.faces):
            if now is None:
                self.faces.add(face.entity)
                self.loops |= {loop.entity for loop in face.loops}
                continue
            pieces[now.piece] += [face.entity, now.flag]
            for loop, after in zip(face.loops, now.loops):
                self.put_loop(loop, after)
        for place, faces in enumerate(pieces):
            self.put_piece(change, shell, place, [len(faces) // 2, *faces])

    def put_piece(self, change, shell, place, listed):
        if place == 0:
            values = self.values(shell.entity)
            self.set(shell.entity, [*listed, *values[1 + 2 * values[0] :]])
            return
        number = self.add(shell.entity, listed)
        if change.shell > 0:
            self.voids += [number, shell.flag]
        else:
            self.solids.append(self.add(self.solid.entity, [number, shell.flag, 0]))

    def put_voids(self):
        if self.voids:
            values = self.values(self.solid.entity)
            count = values[2] or 0
            end = 3 + 2 * count
            self.set(self.solid.entity, [*values[:2], count + len(self.voids) // 2, *values[3:end], *self.voids, *values[end:]])

    def empty(self, numbers):
        """Makes those of these entries of type 0 to which no entry points."""
        used = {number for entry, it in self.file.entries.items() if it.kind != 0 for number in self.named_by(entry)}
        for number in numbers - used:
            self.set(number, [])
            entry = self.file.entries[number]
            entry.kind = entry.form = 0

    def named_by(self, number):
        reference = Reference(self.file, number)
        return set() if reference.fault else reference.numbers


def changed(file, solid, changes):
    """The file with one change for each of some shells of a solid, and the numbers of this solid and of those that come of it."""
    changing = Changing(file, solid)
    for change in changes:
        changing.put(change)
    changing.put_voids()
    changing.empty(changing.faces)
    changing.empty(changing.loops)
    return changing.file, changing.solids
