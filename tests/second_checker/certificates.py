"""Certificates of all three versions (docs/CERTIFICATE.md): how one is made, checked and upgraded."""
import re

from .lines import NUMBER, Lines, text_of
from .shells import Rows, check_apart, check_join, corners_of, mates_of, reach_of
from .walking import Fail, walked

SPELLED = re.compile(
    b"".join((
        rb"(?:IGESCERT [123]|SOLID", NUMBER, rb"|SHELL(?:", NUMBER, rb"){5}|E(?:", NUMBER, rb"){2}|C(?:", NUMBER, rb")+",
        rb"|I(?:", NUMBER, rb"){2}|R", NUMBER, rb"|TALLY(?:", NUMBER, rb"){4}|END)\n",
    ))  # fmt: skip
).fullmatch
MOST_USES = 6_000_000


class BadPart(Exception):
    """A solid of a book on which a rule fails, or with which there are too many uses (`fail` is None then)."""

    def __init__(self, solid, fail):
        super().__init__(solid, fail)
        self.solid, self.fail = solid, fail

    def text(self):
        return b"solid %d\n" % self.solid + self.fail.text()


# ---- making one


def shell_lines(solid, shells):
    """The lines of the last of some shells; Fail for the first rule that doesn't hold."""
    shell = shells[-1]
    rows = Rows(shell)
    check_join(shell)
    mates = mates_of(solid, rows)
    reach = reach_of(shell, rows, mates)
    corners = corners_of(solid, rows, mates)
    check_apart(solid, shells)
    lines = ["SHELL %d %d %d %d %d" % (len(shells), *rows.counts())]
    for numbers in rows.of_edges().values():
        along, against = sorted(numbers, key=lambda number: not rows.rows[number].along)
        lines.append(f"E {along} {against}")
    for is_cycle, corner in corners:
        lines.append(("C " if is_cycle else "I ") + " ".join(map(str, corner)))
    lines += [f"R {row}" for row in reach]
    lines.append("TALLY %d %d %d %d" % rows.tally())
    return lines


def part(solid):
    """The lines of a solid from its solid line on, without END."""
    lines = [f"SOLID {solid.entity}"]
    for count in range(1, len(solid.shells) + 1):
        lines += shell_lines(solid, solid.shells[:count])
    return lines


def certificate(file, number):
    """What `certify` writes of a solid; Fail where it isn't closed."""
    return text_of(["IGESCERT 2", *part(walked(file, number)), "END"])


def book(file):
    """What `certify` writes of all solids of a file, None where there is none; BadPart where one isn't closed or has too many uses."""
    lines, uses = [], 0
    for number in file.solids():
        try:
            solid = walked(file, number)
            uses += solid.uses
            if uses > MOST_USES:
                raise BadPart(number, None)
            lines += part(solid)
        except Fail as fail:
            raise BadPart(number, fail) from None
    return text_of(["IGESCERT 3", *lines, "END"]) if lines else None


# ---- checking one


def checked_solid(file, number):
    """The solid, where its records, and JOIN and APART of its shells, are as they should be; Fail otherwise."""
    solid = walked(file, number)
    for count, shell in enumerate(solid.shells, 1):
        check_join(shell)
        check_apart(solid, solid.shells[:count])
    return solid


class ShellCheck:
    """Checks the lines of one shell."""

    def __init__(self, lines, longest, rows):
        self.lines, self.longest, self.rows = lines, longest, rows
        self.mates = [None] * len(rows.rows)

    def row(self, number):
        self.lines.check(1 <= number <= self.rows.count())
        return self.rows.rows[number]

    def edges(self):
        before = -1
        for _ in self.rows.edges:
            a, b = self.lines.due("E", self.longest)
            along, against = self.row(a), self.row(b)
            self.lines.check(along.edge == against.edge and along.along and not against.along and along.edge > before)
            before = along.edge
            self.mates[a], self.mates[b] = b, a

    def corners(self):
        before = -1
        for _ in self.rows.vertices:
            word, numbers = self.lines.next(self.longest)
            self.lines.check(word in ("C", "I"))
            vertex = self.cycle(numbers) if word == "C" else self.point(numbers)
            self.lines.check(vertex > before)
            before = vertex

    def cycle(self, numbers):
        rows = self.rows
        vertex = self.row(numbers[0]).start
        for number, turn in zip(numbers, numbers[1:] + numbers[:1]):
            self.row(number)
            self.lines.check(rows.follows[self.mates[number]] == turn)
        self.lines.check(all(number > numbers[0] for number in numbers[1:]))
        self.lines.check(len(numbers) == rows.starting[vertex] and not rows.lone_at[vertex])
        return vertex

    def point(self, numbers):
        vertex = self.rows.lone.get(tuple(numbers))
        self.lines.check(vertex is not None and not self.rows.starting[vertex] and self.rows.lone_at[vertex] == 1)
        return vertex

    def reach(self):
        reached = {1}
        for _ in range(self.rows.faces - 1):
            (number,) = self.lines.due("R", self.longest)
            face = self.row(number).face
            self.lines.check(face not in reached and self.rows.rows[self.mates[number]].face in reached)
            reached.add(face)


def check_shells(lines, solid, version):
    """Checks the lines of all shells of a solid; gives the counts of each."""
    longest = 64 + 10 * solid.uses
    for number, shell in enumerate(solid.shells, 1):
        rows = Rows(shell)
        counts = lines.due("SHELL", longest)
        lines.check(counts == [number, *rows.counts()] and rows.count() == 2 * len(rows.edges))
        check = ShellCheck(lines, longest, rows)
        check.edges()
        check.corners()
        check.reach()
        if version > 1:
            lines.check(lines.due("TALLY", longest) == list(rows.tally()))
    return longest


def checked(file, text):
    """The version of a certificate and the numbers of the solids that it names; Fail, BadPart or BadLine where it isn't accepted."""
    lines = Lines(text, SPELLED)
    (version,) = lines.due("IGESCERT", 64)
    (number,) = lines.due("SOLID", 64)
    if version < 3:
        solid = checked_solid(file, number)
        lines.end(check_shells(lines, solid, version))
        return version, [number]
    named = []
    while number is not None:
        named.append(number)
        number = check_part(file, lines, number)
    return version, named


def check_part(file, lines, number):
    """Checks a part of a book behind its solid line: the number of the solid of the next part, or None."""
    try:
        solid = checked_solid(file, number)
    except Fail as fail:
        raise BadPart(number, fail) from None
    longest = check_shells(lines, solid, 2)
    word, numbers = lines.next(longest)
    if word == "SOLID":
        lines.check(numbers[0] > number)
        return numbers[0]
    lines.check(word == "END")
    lines.over(longest)
    return None


# ---- upgrading one


def upgraded(file, text):
    """What `upgrade` writes of a certificate, which is to be an accepted one."""
    if not text.startswith(b"IGESCERT 1\n"):
        return text
    head, named, *lines = text.splitlines(keepends=True)
    tallies = [b"TALLY %d %d %d %d\n" % Rows(shell).tally() for shell in walked(file, int(named.split()[1])).shells]
    written, seen = [b"IGESCERT 2\n", named], 0
    for line in lines:
        if line.startswith((b"SHELL", b"END")):
            written += tallies[seen - 1 : seen] if seen else []
            seen += 1
        written.append(line)
    return b"".join(written)
