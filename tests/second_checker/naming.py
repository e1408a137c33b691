"""What a solid names twice (docs/REPAIR.md, section 7), and the file without it."""
import copy

FACE = 510
# The place of the count of voids in a solid's record, and of that of faces in a shell's; and the item that the first of them is.
VOIDS, FACES = (2, 2), (0, 1)


def int_at(values, place):
    value = values[place] if place < len(values) else None
    return value if type(value) is int else 0


def count_at(values, place):
    """The count at a place, but no more than there are values."""
    return min(max(int_at(values, place), 0), len(values))


class NamedOnce:
    """The file in which a solid names each shell, each face and each loop once, and the places that are left out: entity and item."""

    def __init__(self, file, number):
        self.old, self.file, self.seen, self.dropped = file, copy.copy(file), set(), []
        self.file.entries = dict(file.entries)
        outer = int_at(file.entries[number].values, 0)
        self.see([outer])
        for shell in [outer, *self.leave_out(number, *VOIDS)]:
            if file.named(shell) is not None:
                self.leave_out(shell, *FACES)

    def see(self, numbers):
        self.seen |= {number for number in numbers if self.old.named(number) is not None}

    def loops(self, number):
        face = self.old.named(number)
        if face is None or face.kind != FACE:
            return []
        return [int_at(face.values, 3 + place) for place in range(count_at(face.values, 1))]

    def stays(self, number):
        """Whether a place stays that names this shell or face, which is seen then."""
        if number in self.seen:
            return False
        self.see([number])
        loops = self.loops(number)
        if any(loop in self.seen for loop in loops):
            return False
        self.see(loops)
        return True

    def leave_out(self, entity, place, first):
        """What the places of a record name that stay; its values then, if some don't."""
        values = self.old.entries[entity].values
        ats = [place + 1 + 2 * i for i in range(count_at(values, place))]
        stay = [self.stays(int_at(values, at)) for at in ats]
        self.dropped += [(entity, item) for item, stays in enumerate(stay, first) if not stays]
        kept = [at for at, stays in zip(ats, stay) if stays]
        if len(kept) < len(ats):
            entry = copy.copy(self.old.entries[entity])
            pairs = [value for at in kept for value in values[at : at + 2]]
            entry.values = [*values[:place], len(kept), *pairs, *values[place + 1 + 2 * len(ats) :]]
            self.file.entries[entity] = entry
        return [int_at(values, at) for at in kept]
