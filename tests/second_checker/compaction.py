"""Compact extraction: an extracted solid whose lists of edges and of vertices hold only what is used, extracted again."""
import copy

from .extraction import renumbered
from .records import FITTING
from .walking import walked

VERTEX_WIDTH, EDGE_WIDTH = 3, 5


def tuples_at(values):
    """Where the tuples of a loop's record begin, from 0, with what they tell."""
    at = 1
    for told in FITTING[508](values):
        yield at, told
        at += 5 + 2 * len(told.curves)


class Used:
    """The items of lists that the loops of a file use: the indices of each list's entity."""

    def __init__(self, file):
        self.file, self.items = file, {}
        loops = [entry.values for entry in file.entries.values() if entry.kind == 508]
        for _, told in (told for values in loops for told in tuples_at(values)):
            self.use(502 if told.is_vertex else 504, told.list, told.index)
        self.ranks = {number: {index: rank for rank, index in enumerate(sorted(used), 1)} for number, used in self.items.items()}

    def use(self, kind, number, index):
        entry = self.file.named(number)
        if entry is None or entry.kind != kind or not 1 <= index <= entry.values[0]:
            return
        self.items.setdefault(number, set()).add(index)
        if kind == 504:
            _, *ends = entry.values[1 + EDGE_WIDTH * (index - 1) : 1 + EDGE_WIDTH * index]
            self.use(502, *ends[:2])
            self.use(502, *ends[2:])

    def rank(self, kind, number, index):
        """The new index of an item: its rank among those that are used, where it is one of a list of this kind."""
        entry = self.file.named(number)
        is_list = entry is not None and entry.kind == kind
        return self.ranks.get(number, {}).get(index, index) if is_list else index

    def dropped(self, number, entry):
        """The values of an entry without what isn't used, and with the new indices."""
        values = list(entry.values)
        if entry.kind == 508:
            for at, told in tuples_at(entry.values):
                values[at + 2] = self.rank(502 if told.is_vertex else 504, told.list, told.index)
        if entry.kind not in (502, 504) or number not in self.items:
            return values
        width, count = (VERTEX_WIDTH if entry.kind == 502 else EDGE_WIDTH), values[0]
        items = [values[1 + width * (index - 1) : 1 + width * index] for index in sorted(self.items[number])]
        if entry.kind == 504:
            items = [[c, s, self.rank(502, s, si), t, self.rank(502, t, ti)] for c, s, si, t, ti in items]
        return [len(items), *(value for item in items for value in item), *values[1 + width * count :]]


def compacted_with_names(file, number):
    """The compacted file of a solid, its entries' new numbers, and the used items' new indices; NoExtract or Fail where it is refused."""
    alone, names = renumbered(file, number)
    walked(file, number)
    used, new = Used(alone), copy.copy(alone)
    new.entries = {number: copy.copy(entry) for number, entry in alone.entries.items()}
    for entry_number, entry in new.entries.items():
        entry.values = used.dropped(entry_number, alone.entries[entry_number])
    last, names_again = renumbered(new, names[number])
    old = {name: entry for entry, name in names.items()}
    numbers = {old[name]: name_again for name, name_again in names_again.items()}
    return last, numbers, {(old[name], index): rank for name, ranks in used.ranks.items() for index, rank in ranks.items()}


def compacted(file, number):
    return compacted_with_names(file, number)[0]
