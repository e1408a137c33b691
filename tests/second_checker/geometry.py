"""Equality of numbers and of records, and what it makes of a solid's geometry: numbers that are equal where the records are (docs/REMEDIES.md)."""
import re
from typing import NamedTuple

from .extraction import Reference
from .fields import Real

LINE, ARC, ARC_VALUES = 110, 100, 7
# From this exponent on a number is equal only to one that is spelled alike.
FAR = 1 << 62
SPELLED = re.compile(rb"([+-]?)([0-9]*)\.?([0-9]*)(?:[EDed]([+-]?[0-9]+))?").fullmatch


def number_key(word):
    """Equal for the words of two numbers exactly if they are the same decimal number."""
    sign, whole, fraction, exponent = SPELLED(word).groups()
    power = int(exponent or 0)
    if abs(power) + len(word) >= FAR:
        return "far", word
    digits = (whole + fraction).lstrip(b"0")
    if not digits:
        return "number", 0, b"", 0
    return "number", -1 if sign == b"-" else 1, digits.rstrip(b"0"), power + len(digits) - len(fraction)


def value_key(value):
    """Equal for two values exactly if they are equal: a value that is left out equals only such a one."""
    if value is None:
        return ("none",)
    if isinstance(value, int):
        return number_key(b"%d" % value)
    return number_key(bytes(value)) if isinstance(value, Real) else ("text", value)


class RecordKeys:
    """Keys of a file's entries, which are equal exactly if their records are."""

    def __init__(self, file):
        self.file, self.keys, self.numbers = file, {}, {}
        # The entries from which pointers lead round in a circle: each equals itself alone.
        self.circling = set()

    def parts(self, number):
        """The type and form, the matrix, the own values as extraction leaves them, and the places of pointers among them; None where an entry equals only itself."""
        if self.file.named(number) is None:
            return None
        reference = Reference(self.file, number)
        if reference.fault:
            return None
        cut = reference.cut({number: number for number in reference.numbers})
        own = cut.values[: min(reference.own, len(reference.entry.values))]
        return (cut.kind, cut.form), cut.fields[7], own, {place - 1 for place in reference.places}

    def key(self, number):
        """A small number for the key of an entry."""
        if number not in self.keys:
            self.visit(number)
        return self.keys[number]

    def visit(self, first):
        """Keys of all that an entry leads to, and its own: strongly connected sets, each after those that it leads to (Tarjan)."""
        order, low, stack, parts = {}, {}, [], {}
        waiting = [(first, None)]
        while waiting:
            entry, names = waiting.pop()
            if names is None:
                if entry in order or entry in self.keys:
                    continue
                order[entry] = low[entry] = len(order)
                stack.append(entry)
                parts[entry] = self.parts(entry)
                names = iter(self.named_by(parts[entry]))
                waiting.append((entry, names))
                continue
            for name in names:
                if name not in order and name not in self.keys:
                    waiting += [(entry, names), (name, None)]
                    break
            else:
                self.leave(entry, order, low, stack, parts)

    def leave(self, entry, order, low, stack, parts):
        names = self.named_by(parts[entry])
        low[entry] = min([low[entry], *(low[name] for name in names if name not in self.keys)])
        if low[entry] != order[entry]:
            return
        members = stack[stack.index(entry) :]
        del stack[-len(members) :]
        if len(members) > 1 or entry in names or self.circling.intersection(names):
            self.circling.update(members)
        for member in members:
            is_alone = member in self.circling or parts[member] is None
            key = ("itself", member) if is_alone else self.made(parts[member])
            self.keys[member] = self.numbers.setdefault(key, len(self.numbers))

    def named_by(self, parts):
        if parts is None:
            return []
        _, matrix, own, pointers = parts
        return [number for number in (matrix, *(own[at] for at in pointers if at < len(own))) if number]

    def made(self, parts):
        kind, matrix, own, pointers = parts
        key_of = lambda at, value: ("entry", self.keys[value] if value else None) if at in pointers else value_key(value)
        return kind, self.keys[matrix] if matrix else None, tuple(key_of(at, value) for at, value in enumerate(own))


class Curve(NamedTuple):
    """The number of a curve's record; of a line without a matrix that of its two points, else None; of an arc its circle and the points where it starts and ends."""

    record: int
    line: object
    arc: object


class Geometry:
    """What is known of the geometry of a solid: the place of each vertex, the curve of each edge, the number of each face's surface."""

    def __init__(self, file, solid):
        self.file, self.keys = file, RecordKeys(file)
        places, lines = {}, {}
        self.places = [places.setdefault(self.coordinates(*it), len(places)) for it in solid.vertices]
        self.curves = [self.curve(file.entries[entity].values[5 * index - 4], lines) for entity, index in solid.edges]
        faces = [face.entity for shell in solid.shells for face in shell.faces]
        self.surfaces = {face: self.keys.key(file.entries[face].values[0]) for face in faces}

    def coordinates(self, entity, index):
        return tuple(map(value_key, self.file.entries[entity].values[3 * index - 2 : 3 * index + 1]))

    def curve(self, number, lines):
        entry = self.file.entries[number]
        values = [*entry.values, *[None] * 7]
        line = arc = None
        if entry.kind == LINE and entry.fields[7] == 0:
            points = [tuple(map(value_key, values[at : at + 3])) for at in (0, 3)]
            line = lines.setdefault(frozenset(points), len(lines))
        if entry.kind == ARC and len(entry.values) >= ARC_VALUES:
            height, *points = map(value_key, values[:ARC_VALUES])
            arc = (entry.form, entry.fields[7], height, *points[:2]), tuple(points[2:4]), tuple(points[4:])
        return Curve(self.keys.key(number), line, arc)
