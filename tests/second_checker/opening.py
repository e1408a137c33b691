"""Certificates of open shells: a shell of form 1 or 2 whose edges are used once or twice (docs/OPEN.md)."""
import re

from .lines import NUMBER, Lines, text_of
from .shells import Rows, check_join, reach_of
from .walking import Fail, Walk

FORMS = 1, 2
SPELLED = re.compile(
    b"".join((
        rb"(?:IGESOPEN 1|SHELL(?:", NUMBER, rb"){6}|E(?:", NUMBER, rb"){1,2}|[CPB](?:", NUMBER, rb")+",
        rb"|I(?:", NUMBER, rb"){2}|R", NUMBER, rb"|END)\n",
    ))  # fmt: skip
).fullmatch


def walked_shell(file, number):
    """A shell as a solid of its own, of that shell alone with the flag 1; Fail where an obligation on its records doesn't hold."""
    walk = Walk(file)
    faces = walk.record(number, 514, FORMS, number, 0)
    return walk.numbered(number, [walk.shell(number, 1, faces)])


def mates_of(solid, rows):
    """EDGE: the mates of all rows, None for a border row."""
    mates = [None] * len(rows.rows)
    for edge, numbers in rows.of_edges().items():
        if len(numbers) == 1:
            continue
        if len(numbers) != 2 or rows.rows[numbers[0]].along == rows.rows[numbers[1]].along:
            raise Fail("EDGE", *solid.edges[edge])
        one, other = numbers
        mates[one], mates[other] = other, one
    return mates


def turn_of(rows, mates, number):
    """The turn of a row, None for a border row."""
    return None if mates[number] is None else rows.follows[mates[number]]


def corner_at(rows, mates, starting):
    """The line of the rows that start at a vertex, a cycle from its least row on or a path; None where turns don't join them."""
    turned = {turn_of(rows, mates, number) for number in starting}
    first = [number for number in starting if number not in turned]
    line = [first[0] if first else min(starting)]
    while (turn := turn_of(rows, mates, line[-1])) not in (None, line[0]):
        line.append(turn)
    return (("P " if first else "C ") + " ".join(map(str, line))) if len(line) == len(starting) else None


def corners_of(solid, rows, mates):
    """FAN: a line for each vertex."""
    starting = {vertex: [] for vertex in rows.vertices}
    for number in rows.numbers():
        starting[rows.rows[number].start].append(number)
    for vertex in sorted(rows.vertices):
        lone = [place for place, at in rows.lone.items() if at == vertex]
        if not starting[vertex] and len(lone) == 1:
            yield "I %d %d" % lone[0]
            continue
        line = corner_at(rows, mates, starting[vertex]) if starting[vertex] and not lone else None
        if line is None:
            raise Fail("FAN", *solid.vertices[vertex])
        yield line


def borders_of(rows, mates):
    """The lines of the border rows, each a cycle from its least row on."""
    by_start = {rows.rows[number].start: number for number in rows.numbers() if mates[number] is None}
    left = set(by_start.values())
    while left:
        line = [min(left)]
        while (after := by_start[rows.rows[line[-1]].end]) != line[0]:
            line.append(after)
        left -= set(line)
        yield "B " + " ".join(map(str, line))


def open_certificate(file, number):
    """What `open` writes of a shell; Fail for the first rule that doesn't hold."""
    solid = walked_shell(file, number)
    (shell,) = solid.shells
    check_join(shell)
    rows = Rows(shell)
    mates = mates_of(solid, rows)
    reach = [f"R {row}" for row in reach_of(shell, rows, mates)]
    corners, borders = list(corners_of(solid, rows, mates)), list(borders_of(rows, mates))
    edges = []
    for numbers in rows.of_edges().values():
        edges.append("E " + " ".join(str(row) for row in sorted(numbers, key=lambda row: not rows.rows[row].along)))
    head = "SHELL %d %d %d %d %d %d" % (number, *rows.counts(), len(borders))
    return text_of(["IGESOPEN 1", head, *edges, *corners, *reach, *borders, "END"])


class OpenCheck:
    """Checks the lines of an open shell behind its shell line."""

    def __init__(self, lines, rows):
        self.lines, self.rows, self.mates, self.listed = lines, rows, [None] * len(rows.rows), 0

    def row(self, number):
        self.lines.check(1 <= number <= self.rows.count())
        return self.rows.rows[number]

    def edges(self):
        before = -1
        for left in reversed(range(len(self.rows.edges))):
            numbers = self.lines.due("E", None)
            told = [self.row(number) for number in numbers]
            self.lines.check(told[0].edge > before and told[-1].edge == told[0].edge)
            if len(numbers) == 2:
                self.lines.check(told[0].along and not told[1].along)
                self.mates[numbers[0]], self.mates[numbers[1]] = numbers[1], numbers[0]
            before = told[0].edge
            self.listed += len(numbers)
            self.lines.check(left > 0 or self.listed == self.rows.count())

    def corners(self):
        before = -1
        for _ in self.rows.vertices:
            word, numbers = self.lines.next()
            self.lines.check(word in ("C", "P", "I"))
            vertex = self.point(numbers) if word == "I" else self.turns(word, numbers)
            self.lines.check(vertex > before)
            before = vertex

    def turns(self, word, numbers):
        rows = self.rows
        vertex = self.row(numbers[0]).start
        for number, turn in zip(numbers, numbers[1:] + (numbers[:1] if word == "C" else [None])):
            self.row(number)
            self.lines.check(turn_of(rows, self.mates, number) == turn)
        self.lines.check(word == "P" or all(number > numbers[0] for number in numbers[1:]))
        self.lines.check(len(numbers) == rows.starting[vertex] and not rows.lone_at[vertex])
        return vertex

    def point(self, numbers):
        vertex = self.rows.lone.get(tuple(numbers))
        self.lines.check(vertex is not None and not self.rows.starting[vertex] and self.rows.lone_at[vertex] == 1)
        return vertex

    def reach(self):
        reached = {1}
        for _ in range(self.rows.faces - 1):
            (number,) = self.lines.due("R")
            face, mate = self.row(number).face, self.mates[number]
            self.lines.check(face not in reached and mate is not None and self.rows.rows[mate].face in reached)
            reached.add(face)

    def borders(self, count):
        """The border lines; how many rows they list."""
        before, listed = 0, 0
        for _ in range(count):
            numbers = self.lines.due("B")
            told = [self.row(number) for number in numbers]
            self.lines.check(all(self.mates[number] is None for number in numbers))
            self.lines.check(all(row.end == after.start for row, after in zip(told, told[1:] + told[:1])))
            self.lines.check(numbers[0] > before and all(number > numbers[0] for number in numbers[1:]))
            before = numbers[0]
            listed += len(numbers)
        return listed


def open_accepted(file, text):
    """The number of the shell that a certificate names; Fail or BadLine where it isn't accepted."""
    lines = Lines(text, SPELLED)
    lines.due("IGESOPEN")
    number, *counts, borders = lines.due("SHELL")
    solid = walked_shell(file, number)
    (shell,) = solid.shells
    check_join(shell)
    rows = Rows(shell)
    lines.check(counts == list(rows.counts()))
    check = OpenCheck(lines, rows)
    check.edges()
    check.corners()
    check.reach()
    listed = check.borders(borders)
    lines.due("END")
    lines.check(listed == check.mates[1:].count(None))
    lines.over()
    return number
