"""Orientations: flags for the faces of each shell under which each edge is used oppositely, or a ring that no flags satisfy."""
import re
from collections import deque

from .lines import NUMBER, Lines, text_of
from .shells import Rows
from .walking import Fail, walked

DONE, NO = 0, 1
SPELLED = re.compile(b"".join((rb"(?:ORIENT", NUMBER, rb"|F", NUMBER, rb"(?: [01])+|O(?:", NUMBER, rb"){2,}|END)\n"))).fullmatch


class Partners:
    """The rows of a shell, and of each the other row of its edge; COUNT where an edge hasn't two."""

    def __init__(self, solid, shell):
        self.shell, self.rows = shell, Rows(shell)
        self.partners = [None] * len(self.rows.rows)
        self.flags = [None, *(use.flag for loop in shell.loops() for use in loop.uses if use.edge is not None)]
        for edge, numbers in self.rows.of_edges().items():
            if len(numbers) != 2:
                raise Fail("COUNT", *solid.edges[edge])
            one, other = numbers
            self.partners[one], self.partners[other] = other, one

    def face(self, row):
        return self.rows.rows[row].face

    def is_alike(self, row):
        """Whether a row and its partner run alike by the flags of their tuples alone."""
        return self.flags[row] == self.flags[self.partners[row]]

    def fit(self, flags):
        """Whether the flags fit: the first is the first face's own, and under them partners run oppositely."""
        if len(flags) != self.rows.faces or flags[0] != self.shell.faces[0].flag:
            return False
        return all(
            self.is_alike(row) == (flags[self.face(row) - 1] != flags[self.face(self.partners[row]) - 1]) for row in self.rows.numbers()
        )

    def is_ring(self, rows):
        """Whether the rows are an odd ring."""
        if not all(1 <= row <= self.rows.count() for row in rows):
            return False
        closes = all(self.face(after) == self.face(self.partners[row]) for row, after in zip(rows, rows[1:] + rows[:1]))
        return closes and sum(map(self.is_alike, rows)) % 2 == 1

    def flooded(self):
        """The flags that the first face's own leads to, and the row by which each face is reached; REACH where one isn't."""
        of_faces = [[] for _ in range(self.rows.faces + 1)]
        for row in self.rows.numbers():
            of_faces[self.face(row)].append(row)
        flags, by, waiting = {1: self.shell.faces[0].flag}, {1: None}, deque([1])
        while waiting:
            face = waiting.popleft()
            for row in of_faces[face]:
                other = self.face(self.partners[row])
                if other not in flags:
                    flags[other], by[other] = flags[face] ^ self.is_alike(row), row
                    waiting.append(other)
        for place, face in enumerate(self.shell.faces, 1):
            if place not in flags:
                raise Fail("REACH", face.entity, 0)
        return [flags[place] for place in range(1, self.rows.faces + 1)], by

    def ring(self, flags, by):
        """A ring of rows that no flags satisfy, through the first face, where the flags that were found don't fit."""

        def way(face):
            rows = []
            while by[face] is not None:
                rows.append(by[face])
                face = self.face(by[face])
            return rows[::-1]

        for row in self.rows.numbers():
            face, other = self.face(row), self.face(self.partners[row])
            if self.is_alike(row) != (flags[face - 1] != flags[other - 1]):
                return [*way(face), row, *(self.partners[back] for back in reversed(way(other)))]
        return None


def orientation(file, number):
    """The status and the text of `orient` of a solid. Which ring is named is free; this one leads through the first face."""
    solid = walked(file, number)
    lines, status = [f"ORIENT {number}"], DONE
    for place, shell in enumerate(solid.shells, 1):
        partners = Partners(solid, shell)
        flags, by = partners.flooded()
        ring = partners.ring(flags, by)
        status = status if ring is None else NO
        lines.append(f"{'F' if ring is None else 'O'} {place} " + " ".join(map(str, ring or flags)))
    return status, text_of([*lines, "END"])


def orientation_accepted(file, text):
    """The number of the solid that an orientation names; Fail or BadLine where it isn't accepted."""
    lines = Lines(text, SPELLED)
    (number,) = lines.due("ORIENT")
    solid = walked(file, number)
    shells = [Partners(solid, shell) for shell in solid.shells]
    for place, partners in enumerate(shells, 1):
        word, (shell, *told) = (found := lines.next())[0], found[1] or [0]
        lines.check(word in ("F", "O") and shell == place)
        lines.check(partners.fit(told) if word == "F" else partners.is_ring(told))
    lines.end()
    return number
