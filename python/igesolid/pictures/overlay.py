"""An IGES file that marks faults, to be laid over the model in a CAD system: copies of curves, and points, under the same global section.

On level 901 and red stand the curves of failing edges and points at failing vertices, labelled FAULT with the fault's number as on the page;
on level 902 and blue the other edges of the faces there, labelled NEAR, up to a number that is told; on level 903 and green what the first
remedy of a shell changes, labelled REMEDY. Nothing is computed: coordinates are copied as they are spelled."""
from typing import Dict, Iterable, Iterator, List, NamedTuple, Sequence, Tuple

from ..remedies import is_left_out
from ..where import Where
from .iges import RECORD_COLUMNS, Entry, File, Unreadable, integer
from .marked import changed, marked
from .solids import Face, Solid, solid_of

# The level, the colour and the label of what is marked.
Mark = Tuple[int, int, bytes]
FAULT, NEAR, REMEDY = (901, 2, b"FAULT"), (902, 4, b"NEAR"), (903, 3, b"REMEDY")
# Statuses of an entity (IGES 5.3, section 2.2.4.4.9): one that stands alone, a part of another, and a part that isn't shown.
ALONE, PART, HIDDEN = b"00000000", b"00010000", b"01010000"
DEEPEST = 4
MOST_NEAR = 10_000


def own_values(kind: int, values: Sequence[bytes]) -> Tuple[int, Iterable[int]]:
    """How many values a curve or a matrix has of its own, and the places, from 0, of those that name another curve."""
    if kind == 102:
        count = integer(values[0])
        return 1 + count, range(1, 1 + count)
    if kind == 106:
        count = integer(values[1])
        return {1: 3 + 2 * count, 2: 2 + 3 * count, 3: 2 + 6 * count}[integer(values[0])], ()
    if kind == 112:
        return 17 + 13 * integer(values[3]), ()
    if kind == 126:
        return 17 + 5 * integer(values[0]) + integer(values[1]), ()
    if kind == 130:
        return 14, (0, 2)
    return {100: 7, 104: 11, 110: 6, 124: 12}[kind], ()


class Rest(NamedTuple):
    """What an entry has besides: the number of its matrix, its status and its form."""

    matrix: int = 0
    status: bytes = ALONE
    form: int = 0


class Overlay:
    """The entries of an overlay, as it is made."""

    def __init__(self, file: File):
        self.file = file
        self.directory: List[bytes] = []
        self.records: List[bytes] = []
        self.copies: Dict[Tuple[int, Mark, bytes], int] = {}
        self.latest: List[Tuple[int, Mark, bytes]] = []

    def add(self, kind: int, values: Sequence[bytes], mark: Mark, subscript: int, rest: Rest = Rest()) -> int:
        """Adds an entry, and its directory number."""
        number, (level, colour, label) = len(self.directory) + 1, mark
        lines = filled([b"%d" % kind, *values], self.file.parting, self.file.ending)
        first = len(self.records) + 1
        self.records += [b"%-64s %7d" % (line, number) for line in lines]
        one = b"".join(b"%8d" % it for it in (kind, first, 0, 1, level, 0, rest.matrix, 0)) + rest.status
        two = b"".join(b"%8d" % it for it in (kind, 0, colour, len(lines), rest.form)) + b" " * 16 + b"%8s%8d" % (label, subscript)
        self.directory += [one, two]
        return number

    def copy(self, number: int, mark: Mark, subscript: int, status: bytes = ALONE, depth: int = 0) -> int:
        """Copies a curve or a matrix with what it names, and its new number; Unreadable of what isn't copied."""
        key = number, mark, status
        if key not in self.copies:
            entry = self.file.entry(number)
            values = self.copied_values(entry, mark, subscript, depth)
            matrix = self.copy(entry.matrix, mark, subscript, PART, depth + 1) if entry.matrix > 0 else 0
            self.copies[key] = self.add(entry.kind, values, mark, subscript, Rest(matrix, status, entry.form))
            self.latest.append(key)
        return self.copies[key]

    def copied_values(self, entry: Entry, mark: Mark, subscript: int, depth: int) -> List[bytes]:
        """The values of a copy, with the new numbers of the curves that are named."""
        values = self.file.values(entry.number)
        try:
            count, curves = own_values(entry.kind, values)
        except (KeyError, IndexError):
            raise Unreadable(f"a curve of type {entry.kind}") from None
        values = list(values[:count])
        if depth > DEEPEST or any(b"H" in it for it in values):
            raise Unreadable(f"a curve of type {entry.kind}")
        status = HIDDEN if entry.kind == 130 else PART
        for place in curves:
            if place < len(values) and integer(values[place]) != 0:
                values[place] = b"%d" % self.copy(integer(values[place]), mark, subscript, status, depth + 1)
        return values

    def add_edge(self, solid: Solid, edge: int, mark: Mark, subscript: int) -> bool:
        """Adds the curve of an edge, or its chord; whether the curve could be copied."""
        told = solid.edges[edge]
        directory, records, self.latest = len(self.directory), len(self.records), []
        try:
            self.copy(told.curve, mark, subscript)
            return True
        except Unreadable:
            del self.directory[directory:], self.records[records:]
            for key in self.latest:
                del self.copies[key]
            self.add(110, [it for vertex in (told.start, told.end) for it in padded(solid.coordinates(vertex))], mark, subscript)
            return False

    def text(self, says: Iterable[str]) -> bytes:
        """The bytes of the file, with these words in its start section."""
        starts = [b"%-72s" % line.encode("ascii", "replace")[:72] for line in says]
        sections = {b"S": starts, b"G": [line[:72] for line in self.file.globals], b"D": self.directory, b"P": self.records}
        lines = [b"%s%s%7d\n" % (line, letter, place) for letter, section in sections.items() for place, line in enumerate(section, 1)]
        counts = b"".join(b"%s%7d" % (letter, len(section)) for letter, section in sections.items())
        return b"".join(lines) + b"%-72sT%7d\n" % (counts, 1)


def padded(coordinates: Sequence[bytes]) -> List[bytes]:
    return (list(coordinates) + [b""] * 3)[:3]


def filled(values: Sequence[bytes], parting: bytes, ending: bytes) -> List[bytes]:
    """The lines of a record: values aren't cut, but those that are longer than a line."""
    line = b""
    lines: List[bytes] = []
    for place, value in enumerate(values, 1):
        word = value + (parting if place < len(values) else ending)
        if line and len(line) + len(word) > RECORD_COLUMNS:
            lines.append(line)
            line = b""
        line += word
        while len(line) > RECORD_COLUMNS:
            lines.append(line[:RECORD_COLUMNS])
            line = line[RECORD_COLUMNS:]
    return [*lines, line]


class Fault(NamedTuple):
    """What is marked, each by the number of the first fault that marks it; and whether edges near by were left out."""

    edges: Dict[int, int]
    vertices: Dict[int, int]
    near: Dict[int, int]
    is_cut: bool


def faults_of(answer: Where, solid: Solid) -> Fault:
    """The edges and vertices of all faults. The edges of a face are looked at once, and of them no more than are marked."""
    faces = {face.entity: face for shell in solid.shells for face in shell.faces}
    edges: Dict[int, int] = {}
    vertices: Dict[int, int] = {}
    waiting: Dict[int, int] = {}
    near: Dict[int, int] = {}
    items = ((rule, item) for rule in answer.rules for item in rule.items)
    for subscript, (rule, item) in enumerate(items, 1):
        for found, those in zip((edges, vertices, waiting), marked(item, rule, solid)):
            for it in those:
                found.setdefault(it, subscript)
    for face, subscript in waiting.items():
        for edge in edges_of(faces[face]):
            if edge not in edges and edge not in near:
                if len(near) == MOST_NEAR:
                    return Fault(edges, vertices, near, True)
                near[edge] = subscript
    return Fault(edges, vertices, near, False)


def changes_of(answer: Where, solid: Solid) -> Tuple[Dict[int, int], Dict[int, int]]:
    """The edges and vertices of the first remedy of each shell, by the shell; of faces their edges, as many as are marked near faults."""
    faces = {face.entity: face for shell in solid.shells for face in shell.faces}
    edges: Dict[int, int] = {}
    vertices: Dict[int, int] = {}
    for remedy in answer.remedies:
        if remedy.told["remedy"] != "1":
            continue
        shell, (named, points, among) = remedy.number("shell"), changed(remedy, solid)
        for it in (*named, *(edge for face in among if len(edges) < MOST_NEAR for edge in edges_of(faces[face]))):
            edges.setdefault(it, shell)
        for it in points:
            vertices.setdefault(it, shell)
    return edges, vertices


def edges_of(face: Face) -> Iterator[int]:
    return (use.edge for loop in face.loops for use in loop.uses if use.edge is not None)


def marks_of(title: str, number: int, answer: Where, lines: List[bytes]) -> Tuple[bytes, str]:
    """The bytes of the overlay of a solid, and what to say of it."""
    if answer.is_bad_file:
        return b"", f"{title}: {answer.verdict.text}, so nothing is marked"
    file = File(lines)
    overlay, left = Overlay(file), 0
    solid = solid_of(file, number) if answer.shells else None
    fault = faults_of(answer, solid) if solid else Fault({}, {}, {}, False)
    if solid:
        remedied, points = changes_of(answer, solid)
        for edges, mark in ((fault.edges, FAULT), (fault.near, NEAR), (remedied, REMEDY)):
            left += sum(not overlay.add_edge(solid, edge, mark, subscript) for edge, subscript in sorted(edges.items()))
        for vertices, mark in ((fault.vertices, FAULT), (points, REMEDY)):
            for vertex, subscript in sorted(vertices.items()):
                overlay.add(116, [*padded(solid.coordinates(vertex)), b"0"], mark, subscript)
    near = f"Level 902, blue: {'the first ' + str(MOST_NEAR) + ' ' if fault.is_cut else ''}other edges of the faces there"
    remedies = ["Level 903, green: what the first remedy of a shell changes"] if answer.remedies else []
    says = [f"Faults of solid {number} of {title}", "Level 901, red: edges and vertices that fail", near, *remedies]
    return overlay.text(says), told(title, answer, left, fault.is_cut)


def told(title: str, answer: Where, left: int, is_cut: bool) -> str:
    if answer.is_closed:
        return f"{title}: the solid is closed, so nothing is marked"
    if answer.shells is None:
        cause = "something is named twice, which igesolid mend leaves out" if is_left_out(answer) else "a record is wrong"
        return f"{title}: {answer.verdict.text}: {cause}, so nothing is marked"
    said = [f"{left} curves can't be copied, so straight lines stand for them"] if left else []
    said += [f"of the other edges of the faces there the first {MOST_NEAR:,} are marked"] if is_cut else []
    return f"{title}: {'; '.join(said)}" if said else ""
