"""The remedies of a shell that fails: chains of steps that are tried (docs/REMEDIES.md, sections 1, 2 and 4)."""
from collections import Counter
from typing import NamedTuple

from .change import CURVE, PLACES, SURE, Remedy
from .change_fits import Ends, fits, passes, shell_passes
from .change_naming import Naming, TooManyMoves
from .shell_draft import Draft, DraftRows, Parity, part, rims_of, split_edges, split_vertices, turn, turn_uses

TRIALS, TOLD, FEWEST = 24, 6, 6


class Pair(NamedTuple):
    """Two edges that are sewn: the one that is left, the one that is taken, and whether their starts correspond."""

    left: int
    taken: int
    told: str
    is_same: bool


class Sewing(NamedTuple):
    """What a level sews: pairs of edges, and the two vertices of gaps; and its cost."""

    pairs: list
    gaps: list
    cost: int

    def counts(self):
        return *(sum(pair.told == told for pair in self.pairs) for told in (SURE, PLACES, CURVE)), len(self.gaps)


class Removal(NamedTuple):
    """Faces that are removed, by their places in the shell, and what that costs."""

    faces: frozenset
    cost: int


NOTHING = Removal(frozenset(), 0)


class Relations:
    """Which edges and faces of a shell are equal, and how."""

    def __init__(self, solid, geometry, place):
        self.geometry, self.ends, self.shell = geometry, Ends(solid).of, solid.shells[place]

    def places(self, edge):
        return tuple(self.geometry.places[end] for end in self.ends[edge])

    def curve(self, edge):
        return self.geometry.curves[edge]

    def is_line(self, edge):
        return self.curve(edge).line is not None

    def sure_key(self, edge):
        start, end = self.places(edge)
        if self.is_line(edge) and start != end:
            return "lines", *sorted((start, end))
        return start, end, self.curve(edge).record

    def ends_key(self, edge):
        return tuple(sorted(self.places(edge)))

    def curve_key(self, edge):
        curve = self.curve(edge)
        return ("line", curve.line) if curve.line is not None else ("record", curve.record)

    def are_other(self, e, f):
        """Whether two edges between the same places are known to lie elsewhere."""
        (start, end), p, q = self.places(e), self.curve(e), self.curve(f)
        if p.line is not None and q.line is not None or start == end:
            return False
        if p.record == q.record:
            return start != self.places(f)[0]
        if p.arc is None or q.arc is None:
            return False
        return p.arc[0] == q.arc[0] and p.arc[1:] == q.arc[:0:-1]

    def face_key(self, number):
        """Equal for faces that are like each other; None without an edge."""
        face, uses = self.shell.faces[number], []
        for use in (use for loop in face.loops for use in loop.uses):
            if use.edge is None:
                uses.append(("vertex", self.geometry.places[use.start]))
                continue
            start, end = self.places(use.edge)
            if self.is_line(use.edge) and start != end:
                uses.append(("line", start, end) if use.flag else ("line", end, start))
            else:
                uses.append(("edge", start, end, self.curve(use.edge).record, use.flag))
        if all(use[0] == "vertex" for use in uses):
            return None
        return self.geometry.surfaces[face.entity], tuple(sorted(Counter(uses).items()))


def places_of(rows, numbers):
    return frozenset(rows.faces[number].place for number in numbers)


# C: copies of faces

def copies(relations, draft):
    """What is removed first: nothing, or of like faces all but one."""
    rows, like = DraftRows(draft, draft.faces), {}
    free = Counter(rows.face[row] for row in rows.free())
    for number in range(len(draft.faces)):
        key = relations.face_key(number)
        if key is not None:
            like.setdefault(key, []).append(number)
    sets = [faces for faces in like.values() if len(faces) > 1]
    found = [NOTHING]
    for sign in (1, -1):
        kept = {min(faces, key=lambda number: (free[number], sign * number)) for faces in sets}
        removal = Removal(frozenset(number for faces in sets for number in faces if number not in kept), 1)
        if removal.faces and removal not in found:
            found.append(removal)
    return found


# L: seams

def taken_pairs(left, key, told, fits_pair):
    """The pairs of free edges that a relation makes, and the free edges that are left then."""
    groups, pairs = {}, []
    for edge in left:
        groups.setdefault(key(edge), []).append(edge)
    for edges in groups.values():
        if len(edges) == 2 and fits_pair(*edges):
            pairs.append((max(edges), min(edges), told))
    gone = {edge for pair in pairs for edge in pair[:2]}
    return pairs, [edge for edge in left if edge not in gone]


def sewings(relations, draft):
    """Of each level that isn't left out what it sews, None for the first."""
    rows = DraftRows(draft, draft.faces)
    free = [rows.edge[row] for row in rows.free()]
    place = relations.geometry.places
    gaps = [pair for pair in draft.gaps() if place[pair[0]] == place[pair[1]]]
    sure, left = taken_pairs(free, relations.sure_key, SURE, lambda e, f: True)
    ends, _ = taken_pairs(left, relations.ends_key, PLACES, lambda e, f: not relations.are_other(e, f))
    not_between = lambda e, f: relations.ends_key(e) != relations.ends_key(f)
    curve, _ = taken_pairs(left, relations.curve_key, CURVE, not_between)
    yield None
    seen = {(0, 0, 0, 0)}
    for pairs in (sure, sure + ends, sure + curve, all_sure(relations, rows, set(free))):
        sewing = sewing_of(relations, draft, rows, pairs, gaps)
        if sewing.counts() not in seen:
            seen.add(sewing.counts())
            yield sewing


def all_sure(relations, rows, free):
    groups = {}
    for edge in sorted(rows.of_edge):
        groups.setdefault(relations.sure_key(edge), []).append(edge)
    return [(edge, edges[0], SURE) for edges in groups.values() if free.intersection(edges) for edge in edges[1:]]


def sewing_of(relations, draft, rows, pairs, gaps):
    pairs = sorted(Pair(*pair, is_same_way(relations, rows, *pair)) for pair in pairs)
    cost = 1
    if any(pair.told == PLACES for pair in pairs):
        is_round = any(pair.told == SURE and not relations.is_line(pair.taken) for pair in pairs)
        cost += 6 if any(are_one(draft, pair) for pair in pairs) else 5 if is_round else 2
    if any(pair.told == CURVE for pair in pairs):
        cost += 3
    return Sewing(pairs, gaps, cost)


def is_same_way(relations, rows, left, taken, told):
    """Whether the starts of the two edges of a pair correspond."""
    if told == CURVE:
        return relations.curve(left).record == relations.curve(taken).record
    start, end = relations.places(taken)
    if start != end:
        return relations.places(left)[0] == start
    if told == SURE:
        return True
    one, other = (rows.of_edge[edge][0] for edge in (left, taken))
    return rows.along[one] != rows.along[other]


def corresponding(draft, pair):
    """The two vertices at the start of the edge that is left, and those at its end."""
    left, taken = draft.edges[pair.left], draft.edges[pair.taken]
    ends = (taken.start, taken.end) if pair.is_same else (taken.end, taken.start)
    return (left.start, ends[0]), (left.end, ends[1])


def are_one(draft, pair):
    return all(one == other for one, other in corresponding(draft, pair))


def sewn(draft, sewing):
    """A copy in which the pairs and the gaps are sewn."""
    classes = Parity(len(draft.vertices))
    for one, other in [ends for pair in sewing.pairs for ends in corresponding(draft, pair)] + sewing.gaps:
        classes.join(one, other, 0)
    least = lambda vertex: classes.find(vertex)[0]
    new, seams = draft.copy(), {pair.left: pair for pair in sewing.pairs}
    for loop in new.loops():
        for use in loop.uses:
            if use.edge is None:
                use.vertex = least(use.vertex)
            elif use.edge in seams:
                pair = seams[use.edge]
                use.edge, use.flag = pair.taken, use.flag if pair.is_same else 1 - use.flag
    for edge in new.edges.values():
        edge.start, edge.end = least(edge.start), least(edge.end)
    return new


# X: faces that are too much

class Crowds:
    """Parts and patches of a draft, and how often each patch has each crowded edge."""

    def __init__(self, draft):
        self.rows = rows = DraftRows(draft, draft.faces)
        self.parts, self.patches = rows.parts(), rows.patches()
        self.part_of = {face: number for number, faces in enumerate(self.parts) for face in faces}
        self.patch_of = {face: number for number, faces in enumerate(self.patches) for face in faces}
        self.counts = {edge: len(rows.of_edge[edge]) for edge in rows.crowded()}
        self.crowds = {}
        for edge in self.counts:
            for patch, count in Counter(self.patch_of[rows.face[row]] for row in rows.of_edge[edge]).items():
                self.crowds.setdefault(patch, {})[edge] = count
        self.free = [rows.face[row] for row in rows.free()]

    def size(self, patch):
        return len(self.patches[patch])

    def is_clean(self, patch):
        return all(self.counts[edge] - count in (0, 2) for edge, count in self.crowds[patch].items())

    def faces(self, patches):
        return [face for patch in patches for face in self.patches[patch]]

    def apart(self):
        """The faces of `apart`, and their cost."""
        is_open = {self.part_of[face] for face in self.free}
        if len(is_open) == len(self.parts):
            largest = min(is_open, key=lambda part: (-len(self.parts[part]), part))
            is_open = is_open - {largest} if len(self.parts[largest]) > 1 else set()
        faces = [face for part in sorted(is_open) for face in self.parts[part]]
        return faces, 2 if all(len(self.parts[part]) == 1 for part in is_open) else 6 + len(faces)

    def sets(self):
        """Each set of faces that may be too much, with its cost."""
        yield self.apart()
        if not self.counts:
            return
        clean = [patch for patch in sorted(self.crowds) if self.is_clean(patch)]
        open_patches = {self.patch_of[face] for face in self.free}
        fins = [patch for patch in clean if patch in open_patches]
        yield self.faces(fins), 2 + len(self.faces(fins))
        yield self.both(fins)
        clean.sort(key=lambda patch: (self.size(patch), -self.patches[patch][0]))
        for patch in clean[:FEWEST]:
            yield self.patches[patch], 3 + self.size(patch)
        yield self.walls(clean)
        yield from self.sheets()

    def both(self, fins):
        rest = {self.part_of[face] for face in self.free if self.patch_of[face] not in fins}
        faces, of_fins = [face for part in sorted(rest) for face in self.parts[part]], self.faces(fins)
        if not faces or not of_fins or set(faces) & set(of_fins) or len(rest) == len(self.parts):
            return [], 0
        return faces + of_fins, 4 + len(faces) + len(of_fins)

    def walls(self, clean):
        left, chosen = dict(self.counts), []
        for patch in clean:
            crowds = self.crowds[patch]
            if all(left[edge] > 2 and left[edge] - count in (0, 2) for edge, count in crowds.items()):
                for edge, count in crowds.items():
                    left[edge] -= count
                chosen.append(patch)
        faces = self.faces(chosen)
        return ([], 0) if any(count > 2 for count in left.values()) else (faces, 4 + len(faces))

    def sheets(self):
        alike = {}
        for patch in sorted(self.crowds):
            alike.setdefault(frozenset(self.crowds[patch]), []).append(patch)
        found = []
        for edges, patches in alike.items():
            others = [self.counts[edge] - sum(self.crowds[patch][edge] for patch in patches) for edge in edges]
            if len(patches) > 1 and all(count in (0, 2) for count in others):
                found.append(patches)
        found.sort(key=lambda patches: len(self.faces(patches)))
        for patches in found[:FEWEST]:
            yield self.faces(patches), 3 + len(self.faces(patches))


def removals(draft):
    crowds = Crowds(draft)
    rows, seen = crowds.rows, {frozenset()}
    yield NOTHING
    uses = Counter(rows.face)
    for faces, cost in crowds.sets():
        found = frozenset(faces)
        if len(found) < len(draft.faces) and found not in seen:
            seen.add(found)
            is_most = 2 * sum(uses[face] for face in found) > len(rows.edge)
            yield Removal(places_of(rows, found), cost + 8 * is_most)


# a trial

class Tried(NamedTuple):
    """What a trial comes to: the draft, its cost, what was removed and sewn, whether uses were turned, how edges were split, and rims by bodies."""

    draft: Draft
    cost: int
    copies: frozenset
    removed: frozenset
    sewing: object
    has_turned_uses: bool
    offset: object
    rims: list


def turning_cost(draft):
    return {None: 0, "faces": 1, "loops": 2}[turn(draft)]


def endings(draft):
    """The drafts that a trial goes on to, each with its cost, whether uses were turned, and how edges were split."""
    cost, turned = turning_cost(draft), False
    if draft.gaps():
        turned = turn_uses(draft)
        cost += 2 * turned + turning_cost(draft)
        if draft.gaps():
            return
    rows = DraftRows(draft, draft.faces)
    if any(len(of_edge) == 2 and not rows.are_mates(of_edge) for of_edge in rows.of_edge.values()):
        return
    if not rows.crowded():
        yield draft, cost, turned, None
        return
    cut = draft.copy()
    if part(cut, True):
        yield cut, cost + 2, turned, None
    for offset in (0, 1):
        split = draft.copy()
        if split_edges(split, offset):
            yield split, cost + 4 + turning_cost(split), turned, offset


def finished(draft):
    """Part, split vertices, fill: the cost and the rims of each body; None where it is no remedy."""
    cost = 0
    if len(draft.bodies()) == 1 and part(draft, False):
        cost += 2
    bodies, found = draft.bodies(), []
    for faces in bodies:
        cost += 2 * split_vertices(draft, faces)
        rows, rims = rims_of(draft, faces)
        if any(len(of_edge) > 1 and not rows.are_mates(of_edge) for of_edge in rows.of_edge.values()):
            return None
        if rims:
            cost += 2 + len(rims) + 4 * (len(faces) == 1 and len(rims) == 1 and len(bodies) > 1)
        found.append((rows, rims))
    return None if draft.gaps() else (cost, found)


def trials(relations, draft):
    """What each trial comes to, where that is a remedy."""
    count = 0
    for first in copies(relations, draft):
        rest = draft.without(first.faces)
        for sewing in sewings(relations, rest):
            whole = rest if sewing is None else sewn(rest, sewing)
            for removal in removals(whole):
                if count == TRIALS:
                    return
                count += 1
                cost = first.cost + removal.cost + (sewing.cost if sewing else 0)
                for end, further, turned, offset in endings(whole.without(removal.faces)):
                    done = finished(end)
                    if done is not None:
                        yield Tried(end, cost + further + done[0], first.faces, removal.faces, sewing, turned, offset, done[1])


def key_of(tried, change):
    """Equal for remedies that are alike."""
    faces = [None if face is None else (face.flag, face.piece, [loop.reversed for loop in face.loops]) for face in change.faces]
    return repr((faces, sorted(Counter(seam.told for seam in change.seams).items()), len(change.rims), tried.offset))


class Search:
    """The remedies of a shell, the best first."""

    def __init__(self, solid, geometry, place):
        self.solid, self.place = solid, place
        self.relations = Relations(solid, geometry, place)
        self.naming = Naming(solid, geometry, place)
        self.draft = Draft.of(solid, self.relations.ends, place)

    def found(self):
        if shell_passes(self.solid.shells[self.place]):
            change = self.naming.change(self.draft, None, [(DraftRows(self.draft, self.draft.faces), [])])
            return [Remedy(change, 1, True)] if change.vertices else []
        found, seen = [], set()
        for tried in sorted(trials(self.relations, self.draft), key=lambda tried: tried.cost):
            try:
                change = self.naming.change(tried.draft, tried.sewing, tried.rims)
            except TooManyMoves:
                continue
            if key_of(tried, change) not in seen:
                seen.add(key_of(tried, change))
                found.append((tried, change))
        told = found[:TOLD]
        return [Remedy(change, tried.cost, self.is_sure(tried, told)) for tried, change in told]

    def choice(self, tried):
        """The faces that are removed, those that are like each other as one."""
        name = lambda number: self.relations.face_key(number) or number
        return Counter(map(name, tried.copies | tried.removed))

    def is_sure(self, tried, told):
        if tried.removed or tried.has_turned_uses or any(rims for _, rims in tried.rims):
            return False
        if tried.sewing and any(pair.told != SURE for pair in tried.sewing.pairs):
            return False
        return all(self.choice(other) == self.choice(tried) for other, _ in told if other.cost == tried.cost)


def searched(solid, geometry, place):
    return Search(solid, geometry, place).found()


def tried_remedies(solid, geometry, place):
    """The remedies that are told: those that fit and pass."""
    return [it for it in searched(solid, geometry, place) if fits(solid, geometry, it.change) and passes(solid, it.change)]
