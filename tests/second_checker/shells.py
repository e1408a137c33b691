"""The shells of a solid: rows, mates and turns (docs/CERTIFICATE.md, section 1), and the rules of a closed shell (docs/FORMAT.md, section 9)."""
from collections import Counter, deque
from typing import NamedTuple

from .walking import Fail


class Row(NamedTuple):
    edge: int
    along: bool
    start: int
    end: int
    face: int


class Rows:
    """The rows of a shell, from 1; what follows each; and its loops without an edge, by face and loop, from 1, with their vertex."""

    def __init__(self, shell):
        self.rows, self.follows, self.lone = [None], [None], {}
        self.faces, self.loops = len(shell.faces), len(shell.loops())
        for number, face in enumerate(shell.faces, 1):
            for place, loop in enumerate(face.loops, 1):
                self.add(shell, face, number, place, loop)
        self.edges = {row.edge for row in self.rows[1:]}
        self.vertices = shell.vertices()
        self.starting = Counter(row.start for row in self.rows[1:])
        self.lone_at = Counter(self.lone.values())

    def add(self, shell, face, number, place, loop):
        first = len(self.rows)
        for use in loop.uses:
            if use.edge is not None:
                turned = (shell.flag + face.flag) % 2 == 1
                along = (use.flag == 1) != turned
                ends = (use.end, use.start) if turned else (use.start, use.end)
                self.rows.append(Row(use.edge, along, *ends, number))
        count = len(self.rows) - first
        if count == 0:
            self.lone[number, place] = loop.uses[0].start
        step = -1 if shell.flag != face.flag else 1
        self.follows += [first + (place + step) % count for place in range(count)]

    def count(self):
        return len(self.rows) - 1

    def numbers(self):
        return range(1, len(self.rows))

    def counts(self):
        """The counts of a shell line."""
        return self.count(), len(self.edges), len(self.vertices), self.faces

    def tally(self):
        return len(self.vertices), len(self.edges), self.faces, self.loops

    def of_edges(self):
        """The rows of each edge, by rising edge."""
        rows = {edge: [] for edge in sorted(self.edges)}
        for number in self.numbers():
            rows[self.rows[number].edge].append(number)
        return rows


def check_join(shell):
    for loop in shell.loops():
        for place, use in enumerate(loop.uses):
            if use.end != loop.uses[(place + 1) % len(loop.uses)].start:
                raise Fail("JOIN", loop.entity, place + 1)


def check_apart(solid, shells):
    """APART of the last of some shells, by those before it."""
    before = {vertex for shell in shells[:-1] for vertex in shell.vertices()}
    shared = before & shells[-1].vertices()
    if shared:
        raise Fail("APART", *solid.vertices[min(shared)])


def mates_of(solid, rows):
    """PAIR: the mates of all rows."""
    mates = [None] * len(rows.rows)
    for edge, numbers in rows.of_edges().items():
        if len(numbers) != 2 or rows.rows[numbers[0]].along == rows.rows[numbers[1]].along:
            raise Fail("PAIR", *solid.edges[edge])
        one, other = numbers
        mates[one], mates[other] = other, one
    return mates


def reach_of(shell, rows, mates):
    """REACH: rows that reach all faces but the first, breadth first; a row without a mate leads nowhere."""
    of_faces = [[] for _ in range(rows.faces + 1)]
    for number in rows.numbers():
        of_faces[rows.rows[number].face].append(number)
    reached, waiting, reach = {1}, deque([1]), []
    while waiting:
        for number in of_faces[waiting.popleft()]:
            face = rows.rows[mates[number]].face if mates[number] else None
            if face and face not in reached:
                reached.add(face)
                reach.append(mates[number])
                waiting.append(face)
    for face in range(1, rows.faces + 1):
        if face not in reached:
            raise Fail("REACH", shell.faces[face - 1].entity, 0)
    return reach


def corners_of(solid, rows, mates):
    """LINK: for each vertex its cycle of rows, or the face and the loop of its one loop without an edge."""
    first = {}
    for number in rows.numbers():
        first.setdefault(rows.rows[number].start, number)
    corners = []
    for vertex in sorted(rows.vertices):
        lone = [place for place, at in rows.lone.items() if at == vertex] if rows.lone_at[vertex] else []
        if vertex not in first:
            if len(lone) != 1:
                raise Fail("LINK", *solid.vertices[vertex])
            corners.append((False, lone[0]))
            continue
        cycle = [first[vertex]]
        while (turn := rows.follows[mates[cycle[-1]]]) != cycle[0]:
            cycle.append(turn)
        if lone or len(cycle) != rows.starting[vertex]:
            raise Fail("LINK", *solid.vertices[vertex])
        corners.append((True, cycle))
    return corners
