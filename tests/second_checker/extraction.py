"""Extraction (docs/WRITING.md, section 4): a solid with all that it refers to, renumbered."""
import copy

from .fields import Real
from .records import FITTING, FORMS

NAME = 406, 15
CUT = {116: 4}


class NoExtract(Exception):
    """The entity that is refused, and the word of the reason."""

    def __init__(self, entity, reason):
        super().__init__(entity, reason)
        self.entity, self.reason = entity, reason


class Layout(Exception):
    pass


def count_at(values, place):
    """The count at a place of a record, from 1: from 0 to the number of its values, or left out."""
    value = values[place - 1] if place <= len(values) else None
    if value is None:
        return 0
    if type(value) is not int or not 0 <= value <= len(values):
        raise Layout
    return value


def copious(values):
    kind = values[0] if values else None
    if type(kind) is not int or kind not in (1, 2, 3):
        raise Layout
    return 2 + {1: 1 + 2 * count_at(values, 2), 2: 3 * count_at(values, 2), 3: 6 * count_at(values, 2)}[kind]


def spline_surface(values):
    k1, k2, m1, m2 = (count_at(values, place) for place in (1, 2, 3, 4))
    return 9 + (k1 + m1 + 2) + (k2 + m2 + 2) + 4 * (k1 + 1) * (k2 + 1) + 4


# How many own values an entity has, by its record, and the places of the pointers among them, by their number.
PLAIN = {100: 7, 104: 11, 110: 6, 116: 4, 123: 3, 124: 12, 314: 4}
LAYOUTS = {kind: (lambda values, n=n: n, lambda n: ()) for kind, n in PLAIN.items()} | {
    102: (lambda values: 1 + count_at(values, 1), lambda n: range(2, n + 1)),
    106: (copious, lambda n: ()),
    108: (lambda values: 9, lambda n: (5,)),
    112: (lambda values: 4 + (count_at(values, 4) + 1) + 12 * count_at(values, 4) + 12, lambda n: ()),
    118: (lambda values: 4, lambda n: (1, 2)),
    120: (lambda values: 4, lambda n: (1, 2)),
    122: (lambda values: 4, lambda n: (1,)),
    126: (lambda values: 6 + (count_at(values, 1) + count_at(values, 2) + 2) + 4 * (count_at(values, 1) + 1) + 5, lambda n: ()),
    128: (spline_surface, lambda n: ()),
    140: (lambda values: 5, lambda n: (5,)),
}
# Number of own values and pointers in form 0, and the same in form 1.
BY_FORM = {
    190: ((2, (1, 2)), (3, (1, 2, 3))),
    192: ((3, (1, 2)), (4, (1, 2, 4))),
    194: ((4, (1, 2)), (5, (1, 2, 5))),
    196: ((2, (1,)), (4, (1, 3, 4))),
    198: ((4, (1, 2)), (5, (1, 2, 5))),
}


def topology_layout(kind, values):
    """The own values and the pointers' places of a record of the six types, which are to fit."""
    if FITTING[kind](values) is None:
        raise Layout
    if kind == 186:
        count = 3 + 2 * count_at(values, 3)
        return count, [1, *range(4, count + 1, 2)]
    if kind == 514:
        return 1 + 2 * values[0], range(2, 2 + 2 * values[0], 2)
    if kind == 510:
        return 3 + values[1], [1, *range(4, 4 + values[1])]
    if kind == 504:
        return 1 + 5 * values[0], [place for at in range(2, 2 + 5 * values[0], 5) for place in (at, at + 1, at + 3)]
    if kind == 502:
        return 1 + 3 * values[0], []
    return loop_layout(values)


def loop_layout(values):
    at, pointers = 2, []
    for _ in range(values[0]):
        pointers.append(at + 1)
        curves = count_at(values, at + 4)
        pointers += range(at + 6, at + 6 + 2 * curves, 2)
        at += 5 + 2 * curves
    return at - 1, pointers


def layout_of(entry):
    """The number of an entry's own values and the places of the pointers among them, from 1; None where it isn't followed."""
    if entry.kind in FORMS:
        return topology_layout(entry.kind, entry.values)
    if entry.kind in LAYOUTS:
        count, pointers = LAYOUTS[entry.kind]
        own = count(entry.values)
        return own, pointers(own)
    if entry.kind in BY_FORM:
        return BY_FORM[entry.kind][entry.form == 1]
    return (2, ()) if (entry.kind, entry.form) == NAME else None


def groups_of(values, own):
    """The pointers of the two groups behind the own values."""
    at, groups = own + 1, []
    for _ in range(2):
        count = count_at(values, at)
        pointers = values[at : at + count]
        if any(pointer is not None and type(pointer) is not int for pointer in pointers):
            raise Layout
        groups.append(pointers)
        at += 1 + count
    if any(value is not None for value in values[at - 1 :]):
        raise Layout
    return groups


def renamed(number, names):
    return names[number] if number else number


class Reference:
    """What an entry refers to, or its fault."""

    def __init__(self, file, number):
        self.file, self.entry, self.fault, self.numbers = file, file.entries[number], None, set()
        try:
            layout = layout_of(self.entry)
            if layout is None:
                self.fault = "unlisted"
                return
            self.own, self.places = layout
            self.check()
        except Layout:
            self.fault = "layout"
            return
        self.collect()

    def value(self, place):
        values = self.entry.values
        return values[place - 1] if place <= len(values) else None

    def check(self):
        places = [*self.places, *([CUT[self.entry.kind]] if self.entry.kind in CUT else [])]
        if any(isinstance(self.value(place), bytes) for place in places):
            raise Layout
        self.names = groups_of(self.entry.values, self.own)[1]

    def collect(self):
        fields = self.entry.fields
        pointers = [self.value(place) for place in self.places]
        pointers += [fields[7], -fields[13] if fields[13] < 0 else 0]
        numbers = [pointer for pointer in pointers if pointer]
        if any(self.file.named(number) is None for number in numbers):
            self.fault = "dangling"
            return
        self.names = [name for name in self.names if name is not None and self.is_name(name)]
        self.numbers = {*numbers, *self.names}

    def is_name(self, number):
        entry = self.file.named(number)
        return entry is not None and (entry.kind, entry.form) == NAME

    def cut(self, names):
        """The entry as it is written, with the new numbers of entries."""
        entry = copy.copy(self.entry)
        entry.fields = dict(entry.fields)
        for number in (3, 6, 8):
            entry.fields[number] = 0
        for number in (4, 5):
            entry.fields[number] = max(0, entry.fields[number])
        entry.fields[7] = renamed(entry.fields[7], names)
        if entry.fields[13] < 0:
            entry.fields[13] = -names[-entry.fields[13]]
        values = list(entry.values[: self.own])
        for place in self.places:
            if place <= len(values) and values[place - 1]:
                values[place - 1] = names[values[place - 1]]
        cut = CUT.get(entry.kind, 0)
        if cut and self.value(cut) is not None:
            values[cut - 1] = 0
        if self.names:
            values += [None] * (self.own - len(values)) + [0, len(self.names), *(names[name] for name in self.names)]
        entry.values = values
        return entry


def extracted(file, number):
    """The file of a solid alone; NoExtract where it is refused."""
    return renumbered(file, number)[0]


def renumbered(file, number):
    """The file of a solid alone, and the new number of each of its entries; NoExtract where it is refused."""
    solid = file.named(number)
    if solid is None or solid.kind != 186:
        raise NoExtract(number, "not-solid")
    references, waiting = {}, [number]
    while waiting:
        entry = waiting.pop()
        if entry not in references:
            references[entry] = Reference(file, entry)
            waiting += references[entry].numbers
    for entry in sorted(references):
        if references[entry].fault:
            raise NoExtract(entry, references[entry].fault)
    names = {old: 2 * place + 1 for place, old in enumerate(sorted(references))}
    new = copy.copy(file)
    new.entries = {names[old]: references[old].cut(names) for old in sorted(references)}
    return new, names
