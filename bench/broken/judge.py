"""Judges of remedies: whether the first steps are those that undo what was done, whether what is told of them is true, and what a mended file kept."""
import functools
import re
from collections import Counter
from fractions import Fraction

from .iges import EDGES, SHELL, SOLID, VERTICES, number, pointers

NUMBER = re.compile(r"([+-]?)(\d*)\.?(\d*)(?:[EDed]([+-]?\d+))?")
LINE = 110


@functools.lru_cache(100_000)
def value(word):
    """A number's value, exactly; a text as it is; None where it is left out."""
    found = NUMBER.fullmatch(word)
    if word == "" or found is None:
        return word or None
    sign, whole, fraction, power = found.groups()
    return Fraction(int(sign + (whole + fraction or "0"))) * Fraction(10) ** (int(power or 0) - len(fraction))


# the truth

UNDONE = {
    "deleted": {"fill rims"}, "turned": {"turn faces", "reverse loops"}, "unsewn": {"sew seams"}, "parted": {"renew edges", "sew seams"},
    "pinch": {"copy vertices"}, "lumps": {"part bodies"}, "touch": {"part bodies", "copy vertices", "renew edges"}, "apart": {"copy vertices"},
}  # fmt: skip
# What comes with a step as its consequence.
ALONG = {"unsewn": {"renew edges"}, "parted": set(), "pinch": {"renew edges"}, "apart": {"renew edges"}, "touch": {"copy vertices", "renew edges", "part bodies"}}
TOO_MUCH = "doubled", "wall", "fin"


def faces_removed(remedies):
    return {int(item[1]) for remedy in remedies for item in remedy.items("remove faces")}


def undoes(kind, truth, remedies):
    """Whether the remedies, one of each shell that fails, have the step that undoes a fault."""
    if kind in TOO_MUCH:
        gone, added, of = faces_removed(remedies), set(truth["added"]), set(truth.get("of", ()))
        is_same = gone == added or kind == "doubled" and len(gone) == len(added) and gone <= added | of
        return is_same or len(truth["kinds"]) > 1 and bool(gone & (added | of))
    # A vertex that two bodies have in common is no fault once they are parted.
    steps = UNDONE[kind] | ({"part bodies"} if kind == "pinch" and "lumps" in truth["kinds"] else set())
    return any(steps & remedy.names() for remedy in remedies)


def is_right(truth, remedies):
    """Whether the remedies undo each fault, and of a single one do nothing else."""
    kinds = truth["kinds"]
    if not all(undoes(kind, truth, remedies) for kind in kinds):
        return False
    if len(kinds) > 1:
        return True
    done = {name for remedy in remedies for name in remedy.names()}
    wanted = {"remove faces"} if kinds[0] in TOO_MUCH else UNDONE[kinds[0]]
    further = done - wanted - ALONG.get(kinds[0], set())
    return not further or kinds[0] == "unsewn" and len(further) == 1


# what is told

class ShellFacts:
    """A shell of a file, as rows of its faces, loops and edge uses; and where edges and vertices lie."""

    def __init__(self, file, solid, place):
        self.file = file
        self.number, self.flag = file.get(solid)[place - 1]
        self.faces = dict(map(tuple, file.get(self.number)))
        self.loops = {loop: face for face in self.faces for loop in file.get(face)[2]}
        uses = [use for loop in self.loops for use in file.get(loop)]
        self.edges = {(use[1], use[2]) for use in uses if use[0] == 0}
        self.vertices = {(use[1], use[2]) for use in uses if use[0]} | {end for edge in self.edges for end in self.ends(edge)}
        self.records = {}

    def ends(self, edge):
        _, *ends = self.file.item(*edge)
        return tuple(ends[:2]), tuple(ends[2:])

    def places(self, edge):
        return [self.place(end) for end in self.ends(edge)]

    def place(self, vertex):
        return tuple(map(value, self.file.item(*vertex)))

    def curve(self, edge):
        return self.record(self.file.item(*edge)[0])

    def is_line(self, edge):
        entry = self.file.at(self.file.item(*edge)[0])
        return entry.kind == LINE and number(entry.fields["matrix"]) == 0

    def line(self, edge):
        words = [value(word) for word in self.file.at(self.file.item(*edge)[0]).words[:6]]
        return {tuple(words[:3]), tuple(words[3:])}

    def record(self, entry_number):
        """What an entry of another kind than the six says, with what it points to."""
        if entry_number not in self.records:
            entry = self.file.at(entry_number)
            matrix, named = number(entry.fields["matrix"]), set(pointers(entry))
            said = [self.record(int(word)) if at in named else value(word) for at, word in enumerate(entry.words)]
            self.records[entry_number] = entry.kind, entry.form, self.record(matrix) if matrix else None, tuple(said)
        return self.records[entry_number]


def pair(words):
    return int(words[0]), int(words[1])


class Facts:
    """The statements of a remedy of a shell that are false."""

    def __init__(self, shell, remedy):
        self.shell, self.remedy, self.false = shell, remedy, []
        self.gone, self.turned = faces_removed([remedy]), {int(item[1]) for item in remedy.items("turn faces")}
        self.kept = [face for face in shell.faces if face not in self.gone]
        # Of each edge that is left the one that is taken, and whether it runs the same way; None where the records don't tell.
        self.taken = {}

    def check(self, holds, words):
        if not holds:
            self.false.append(words)

    def found(self):
        for step in self.remedy.steps:
            self.check(step.count == len(step.items) > 0, f"{step.words}: how many")
            self.check(len(step.items) == len(set(map(tuple, step.items))) or step.words in ("copy vertices", "renew edges"), f"{step.words}: told once")
        self.of_faces()
        for words, judge in (("sew seams", self.of_seam), ("copy vertices", self.of_copy), ("renew edges", self.of_new_edge), ("fill rims", self.of_rim)):
            for item in self.remedy.items(words):
                judge(item)
        self.of_bodies()
        self.of_rows()
        return self.false

    def of_faces(self):
        self.check(self.gone <= set(self.shell.faces) and self.kept, "remove: faces of the shell, not all")
        self.check(self.turned <= set(self.kept), "turn: faces that stay")
        for item in self.remedy.items("reverse loops"):
            loop, face = int(item[2]), int(item[4])
            self.check(self.shell.loops.get(loop) == face in self.kept, "reverse: a loop of a face that stays")
        for item in self.remedy.items("flags uses"):
            loop, place = int(item[2]), int(item[4])
            is_there = self.shell.loops.get(loop) in self.kept and place <= len(self.shell.file.get(loop))
            self.check(is_there and self.shell.file.item(loop, place)[0] == 0, "change: an edge's use of a face that stays")

    def of_seam(self, item):
        how, taken, left = item[1], pair(item[3:5]), pair(item[6:8])
        shell = self.shell
        if not {taken, left} <= shell.edges or taken == left:
            return self.check(False, "seam: two edges of the shell")
        p, q = shell.places(taken), shell.places(left)
        is_between = p in (q, q[::-1])
        is_equal, are_lines = shell.curve(taken) == shell.curve(left), shell.is_line(taken) and shell.is_line(left)
        is_sure = is_between and (are_lines and p[0] != p[1] or p == q and is_equal)
        is_line = are_lines and shell.line(taken) == shell.line(left)
        holds = {"sure": is_sure, "places": is_between and not is_sure, "curve": not is_between and (is_equal or is_line)}
        self.check(holds.get(how), f"seam: {how}")
        way = p == q if is_between and p[0] != p[1] else True if is_equal else False if is_line else None
        self.taken[left] = taken, way

    def of_copy(self, item):
        vertex = pair(item[2:4])
        self.check(vertex in self.shell.vertices, "copy: a vertex of the shell")

    def of_new_edge(self, item):
        edge, ends = pair(item[2:4]), (pair(item[5:7]), pair(item[11:13]))
        if edge not in self.shell.edges or not set(ends) <= self.shell.vertices:
            return self.check(False, "renew: an edge and vertices of the shell")
        is_moved = any(seam[1] == "curve" for seam in self.remedy.items("sew seams"))
        self.check(is_moved or [self.shell.place(end) for end in ends] == self.shell.places(edge), "renew: between the same places")

    def of_rim(self, item):
        self.check(pair(item[5:7]) in self.shell.edges and int(item[3]) > 0, "rim: an edge of the shell")

    def of_bodies(self):
        bodies = self.remedy.items("part bodies")
        if bodies:
            firsts = [int(item[5]) for item in bodies]
            self.check(sum(int(item[3]) for item in bodies) == len(self.kept), "body: the faces that stay")
            self.check(firsts == sorted(firsts, key=list(self.shell.faces).index) and set(firsts) <= set(self.kept), "body: by first faces")

    def of_rows(self):
        """With all of it each edge is used as often along as against, but for those of rims."""
        reversed_loops = {int(item[2]) for item in self.remedy.items("reverse loops")}
        told = {(int(item[2]), int(item[4])): int(item[6]) for item in self.remedy.items("flags uses")}
        sums, unknown = Counter(), 0
        for loop, face in self.shell.loops.items():
            if face in self.gone:
                continue
            flag = self.shell.faces[face] ^ (face in self.turned) ^ (loop in reversed_loops)
            for place, use in enumerate(self.shell.file.get(loop), 1):
                edge = use[1], use[2]
                if use[0] or edge in self.taken and self.taken[edge][1] is None:
                    unknown += use[0] == 0
                    continue
                along = told.get((loop, place), use[3])
                if edge in self.taken:
                    edge, is_same = self.taken[edge][0], self.taken[edge][1]
                    along ^= (loop, place) not in told and not is_same
                sums[edge] += 1 if along == flag else -1
        rest = sum(map(abs, sums.values()))
        self.check(rest - unknown <= sum(int(item[3]) for item in self.remedy.items("fill rims")), "remedy: rows that stay alone")


def false_facts(file, solid, remedies_by_shell):
    """The false statements of the remedies of each shell."""
    flags = {face: flag for shell, _ in file.get(solid) for face, flag in file.get(shell)}
    unset = [f"face {item[1]} has not flag 0" for it in remedies_by_shell.get(0, ()) for item in it.items("turn faces") if flags.get(int(item[1])) != 0]
    return unset + [
        f"shell {place} remedy {rank}: {words}"
        for place, remedies in remedies_by_shell.items()
        if place != 0
        for rank, remedy in enumerate(remedies, 1)
        for words in Facts(ShellFacts(file, solid, place), remedy).found()
    ]


# what a mended file kept

class Kept:
    """The extracted file and the mended one: what differs beyond what may."""

    def __init__(self, file, mended, solid):
        self.file, self.mended, self.solid, self.false = file, mended, solid, []
        self.shells = [shell for shell, _ in file.get(solid)]
        self.faces = [face for shell in self.shells for face, _ in file.get(shell)]
        self.loops = {loop for face in self.faces for loop in file.get(face)[2]}
        self.solids = [solid, *(entry.number for entry in mended.entries[len(file.entries) :] if entry.kind == SOLID)]
        self.now = [face for number in self.solids for shell, _ in mended.get(number) for face, _ in mended.get(shell)]

    def check(self, holds, words):
        if not holds:
            self.false.append(words)

    def found(self, is_moved):
        self.check((self.file.start, self.file.globals) == (self.mended.start, self.mended.globals), "start and global")
        self.of_entries()
        self.check(len(self.now) == len(set(self.now)) and set(self.now) <= set(self.faces), "faces: each once, of the solid")
        for face in self.now:
            for loop in self.file.get(face)[2]:
                self.of_loop(loop, is_moved)
        return self.false

    def of_entries(self):
        gone = set(self.faces) - set(self.now)
        gone |= {loop for face in gone for loop in self.file.get(face)[2]}
        may_change = {self.solid, *self.shells, *self.loops}
        for entry, now in zip(self.file.entries, self.mended.entries):
            if now.kind == 0 and entry.number in gone:
                continue
            keys = set(entry.fields) - {"lines"}
            is_same = (entry.kind, entry.form) == (now.kind, now.form) and all(entry.fields[key] == now.fields[key] for key in keys)
            self.check(is_same, f"entry {entry.number}: its fields")
            self.check(entry.number in may_change or entry.values() == now.values(), f"entry {entry.number}: its values")
            self.check(entry.rest == now.rest, f"entry {entry.number}: what follows its values")
        coordinates = {tuple(item) for entry in self.file.entries if entry.kind == VERTICES for item in entry.record}
        curves = {item[0] for entry in self.file.entries if entry.kind == EDGES for item in entry.record}
        for entry in self.mended.entries[len(self.file.entries) :]:
            self.check(entry.kind in (SOLID, SHELL, EDGES, VERTICES) and not entry.rest, f"entry {entry.number}: a new one")
            self.check(entry.kind != VERTICES or {tuple(item) for item in entry.record} <= coordinates, f"entry {entry.number}: coordinates")
            self.check(entry.kind != EDGES or {item[0] for item in entry.record} <= curves, f"entry {entry.number}: curves")

    def of_loop(self, loop, is_moved):
        before, now = self.file.get(loop), self.mended.get(loop)
        sides = [[(use[0], use[4], self.ends(file, use)) for use in uses] for file, uses in ((self.file, before), (self.mended, now))]
        ways = (sides[1], sides[1][::-1])
        same = lambda a, b: a[:2] == b[:2] and (is_moved or a[2] == b[2])
        self.check(len(before) == len(now) and any(all(map(same, sides[0], way)) for way in ways), f"loop {loop}: its uses")

    def ends(self, file, use):
        """The places of a use's ends, in any order."""
        place = lambda vertex: tuple(map(value, file.item(*vertex)))
        if use[0]:
            return {place(use[1:3])}
        _, *ends = file.item(use[1], use[2])
        return {place(ends[:2]), place(ends[2:])}
