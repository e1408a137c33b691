"""A solid's entities, read along its records (docs/FORMAT.md, section 8), and the solid as numbers."""
from dataclasses import dataclass, field

from .records import FITTING, FORMS

ANY_TOPOLOGY = frozenset(FORMS)


class Fail(Exception):
    """A rule that doesn't hold, with the entity and the place that are named."""

    def __init__(self, rule, entity, place):
        super().__init__(rule, entity, place)
        self.rule, self.entity, self.place = rule, entity, place

    def text(self):
        return b"fail %s %d %d\n" % (self.rule.encode(), self.entity, self.place)


@dataclass
class Use:
    """A tuple of a loop: the number of its edge, or None at a vertex; its own flag; and the vertices that it leads from and to."""

    edge: int | None
    flag: int
    start: int
    end: int


@dataclass
class Loop:
    entity: int
    uses: list = field(default_factory=list)


@dataclass
class Face:
    entity: int
    flag: int
    loops: list = field(default_factory=list)


@dataclass
class Shell:
    entity: int
    flag: int
    faces: list = field(default_factory=list)

    def loops(self):
        return [loop for face in self.faces for loop in face.loops]

    def vertices(self):
        """The vertices that occur in the shell."""
        return {vertex for loop in self.loops() for use in loop.uses for vertex in (use.start, use.end)}


@dataclass
class Solid:
    """A solid's shells; its edges and vertices by number, each a list's entity and an index in it; and its number of uses."""

    entity: int
    shells: list
    edges: list
    vertices: list
    uses: int


class Walk:
    """The obligations on a solid's records, depth first: Fail for the first that doesn't hold."""

    def __init__(self, file):
        self.file, self.records, self.named = file, {}, set()
        self.edges, self.vertices, self.ends, self.uses = {}, {}, {}, 0

    def record(self, number, kind, forms, entity, place, of=None):
        """ENTRY and TYPE, with an entity and a place, and RECORD: what the record of an entry tells."""
        entry = self.file.named(number)
        if entry is None:
            raise Fail("ENTRY", entity, place)
        if entry.kind != kind or entry.form not in forms:
            raise Fail("TYPE", entity, place)
        if number not in self.records:
            self.records[number] = FITTING[kind](entry.values)
        if self.records[number] is None:
            raise Fail("RECORD", number if of is None else of, 0)
        return self.records[number]

    def once(self, number, entity, place):
        if number in self.named:
            raise Fail("ONCE", entity, place)
        self.named.add(number)

    def geometry(self, numbers, entity, place):
        entries = [self.file.named(number) for number in numbers]
        if any(entry is None or entry.kind in ANY_TOPOLOGY for entry in entries):
            raise Fail("GEOMETRY", entity, place)

    def item(self, key, kind, entity, place):
        """The item of a list that a list's entity and an index name."""
        number, index = key
        items = self.record(number, kind, FORMS[kind], entity, place)
        if not 1 <= index <= len(items):
            raise Fail("INDEX", entity, place)
        return items[index - 1]

    def solid(self, number):
        listed = self.record(number, 186, FORMS[186], number, 0)
        shells = []
        for place, (entity, flag) in enumerate(listed, 1):
            faces = self.record(entity, 514, FORMS[514], number, place)
            self.once(entity, number, place)
            shells.append(self.shell(entity, flag, faces))
        return self.numbered(number, shells)

    def numbered(self, number, shells):
        return Solid(number, shells, list(self.edges), list(self.vertices), self.uses)

    def shell(self, number, flag, listed):
        shell = Shell(number, flag)
        for place, (entity, face_flag) in enumerate(listed, 1):
            told = self.record(entity, 510, FORMS[510], number, place)
            self.once(entity, number, place)
            self.geometry([told.surface], entity, 0)
            shell.faces.append(self.face(entity, face_flag, told.loops))
        return shell

    def face(self, number, flag, listed):
        face = Face(number, flag)
        for place, entity in enumerate(listed, 1):
            tuples = self.record(entity, 508, FORMS[508], number, place)
            self.once(entity, number, place)
            face.loops.append(self.loop(entity, tuples))
        return face

    def loop(self, number, tuples):
        loop = Loop(number)
        for place, told in enumerate(tuples, 1):
            key = told.list, told.index
            if told.is_vertex:
                self.item(key, 502, number, place)
                start = end = self.vertex(key)
                edge = None
            else:
                edge, start, end = self.edge(key, number, place)
            self.geometry(told.curves, number, place)
            loop.uses.append(Use(edge, told.flag, *((start, end) if told.flag else (end, start))))
        self.uses += len(tuples)
        return loop

    def edge(self, key, entity, place):
        """The number of an edge, and of its ends."""
        if key not in self.edges:
            edge = self.item(key, 504, entity, place)
            self.geometry([edge.curve], *key)
            self.item(edge.start, 502, *key)
            self.item(edge.end, 502, *key)
            self.edges[key] = len(self.edges)
            self.ends[key] = self.vertex(edge.start), self.vertex(edge.end)
        return self.edges[key], *self.ends[key]

    def vertex(self, key):
        return self.vertices.setdefault(key, len(self.vertices))


def walked(file, number):
    """The solid that a number names; Fail where an obligation on its records doesn't hold."""
    return Walk(file).solid(number)
