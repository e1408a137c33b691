"""What the records of a solid's six types tell (docs/FORMAT.md, section 7); None where one doesn't fit."""
from typing import NamedTuple


def is_integer(value):
    return type(value) is int


def is_flag(value):
    return type(value) is int and value in (0, 1)


def is_rest(values):
    """Whether what follows the items of a record is only integers and left-out values."""
    return all(value is None or is_integer(value) for value in values)


def pairs(values):
    """Pairs of a pointer and a flag; None where one isn't that."""
    told = list(zip(values[::2], values[1::2]))
    return told if all(is_integer(pointer) and is_flag(flag) for pointer, flag in told) else None


def counted(values, width):
    """The values of as many items, of so many values each, as the first value says, at least one; None where it can't be so."""
    if not values or not is_integer(values[0]) or values[0] < 1:
        return None
    end = 1 + width * values[0]
    return values[1:end] if end <= len(values) and is_rest(values[end:]) else None


def shells_of(values):
    """Type 186: the shells with their flags, the outer one first."""
    count = values[2] if len(values) > 2 else None
    count = 0 if count is None else count
    end = 3 + 2 * count if is_integer(count) and count >= 0 else None
    if end is None or len(values) < 2 or count and end > len(values) or not is_rest(values[end:]):
        return None
    return pairs(values[:2] + values[3:end])


def faces_of(values):
    """Type 514: the faces with their flags."""
    items = counted(values, 2)
    return None if items is None else pairs(items)


class FaceRecord(NamedTuple):
    surface: int
    loops: list


def face_of(values):
    """Type 510: the surface and the loops."""
    if len(values) < 3 or not is_integer(values[0]) or not is_flag(values[2]):
        return None
    loops = counted([values[1], *values[3:]], 1)
    return FaceRecord(values[0], loops) if loops is not None and all(map(is_integer, loops)) else None


class Tuple(NamedTuple):
    is_vertex: bool
    list: int
    index: int
    flag: int
    curves: list


def curves_at(values, at):
    """The parameter curves from a place of a loop's record on, and the place behind them; None where they aren't laid out so."""
    count = values[at] if at < len(values) else None
    if count is None or count == 0 and is_integer(count):
        return [], min(at + 1, len(values))
    end = at + 1 + 2 * count if is_integer(count) and count > 0 else len(values) + 1
    if end > len(values):
        return None
    flags, curves = values[at + 1 : end : 2], values[at + 2 : end : 2]
    return (curves, end) if all(map(is_flag, flags)) and all(map(is_integer, curves)) else None


def tuples_of(values):
    """Type 508: the tuples of a loop."""
    if not values or not is_integer(values[0]) or values[0] < 1:
        return None
    tuples, at = [], 1
    while len(tuples) < values[0]:
        if at + 4 > len(values):
            return None
        kind, entry, index, flag = values[at : at + 4]
        curves = curves_at(values, at + 4)
        if curves is None or not (is_flag(kind) and is_integer(entry) and is_integer(index) and is_flag(flag)):
            return None
        tuples.append(Tuple(kind == 1, entry, index, flag, curves[0]))
        at = curves[1]
    return tuples if is_rest(values[at:]) else None


class EdgeRecord(NamedTuple):
    curve: int
    start: tuple
    end: tuple


def edges_of(values):
    """Type 504: the edges, each with its curve and the lists and indices of its two vertices."""
    items = counted(values, 5)
    if items is None or not all(map(is_integer, items)):
        return None
    return [EdgeRecord(items[at], (items[at + 1], items[at + 2]), (items[at + 3], items[at + 4])) for at in range(0, len(items), 5)]


def vertices_of(values):
    """Type 502: as many items as there are vertices."""
    items = counted(values, 3)
    if items is None or any(type(value) is bytes for value in items):
        return None
    return items[::3]


FITTING = {186: shells_of, 514: faces_of, 510: face_of, 508: tuples_of, 504: edges_of, 502: vertices_of}
FORMS = {186: (0,), 514: (1,), 510: (0, 1), 508: (0, 1), 504: (0, 1), 502: (0, 1)}
