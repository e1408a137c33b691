"""Known ways to break a closed solid, by its six records alone. Each gets a Broken and returns the truth, or None where it doesn't apply.

The truth names the kinds of what was done, and the faces that were added, deleted, turned or unsewn, as far as a judge needs them.
"""
import copy
import random
import zlib

from .iges import EDGES, FACE, LOOP, VERTICES, File, appended


class Broken:
    """A base whose solid is being broken, a source of choices, and the closed solids of which one may be put beside it."""

    def __init__(self, base, rng, bases):
        self.file, self.base, self.solid, self.rng = File(base.data), base, base.solid, rng
        self.others = [other for other in bases if other.name != base.name]

    def shells(self):
        return self.file.get(self.solid)

    def outer(self):
        return self.shells()[0][0]

    def listed(self):
        """Each shell with each of its faces."""
        return [(shell, face) for shell, _ in self.shells() for face, _ in self.file.get(shell)]

    def faces(self):
        return [face for _, face in self.listed()]

    def loops(self, face):
        return self.file.get(face)[2]

    def uses(self, face):
        return [use for loop in self.loops(face) for use in self.file.get(loop)]

    def edges(self, face):
        return [(use[1], use[2]) for use in self.uses(face) if use[0] == 0]

    def ends(self, edge):
        _, *ends = self.file.item(*edge)
        return tuple(ends[:2]), tuple(ends[2:])

    def all_edges(self, shells=None):
        shells = [shell for shell, _ in self.shells()] if shells is None else shells
        return sorted({edge for shell in shells for face, _ in self.file.get(shell) for edge in self.edges(face)})

    def some(self, things, count):
        things = list(things)
        self.rng.shuffle(things)
        return things[:count]

    def insert(self, shell, face, flag):
        """Puts a face among those of a shell."""
        faces = self.file.get(shell)
        faces.insert(self.rng.randrange(len(faces) + 1), [face, flag])

    def add_face(self, like, loops, surface=None):
        """A face with loops of these uses, in records of its own."""
        file = self.file
        of_surface, flag, of_loops = file.get(like)
        numbers = [file.add(LOOP, 1, file.at(of_loops[0]), record=uses) for uses in loops]
        return file.add(FACE, file.at(like).form, file.at(like), record=[surface or of_surface, flag, numbers])

    def flag(self, shell, face):
        return dict(map(tuple, self.file.get(shell)))[face]

    def rename_vertices(self, names):
        """Makes each record name other vertices in place of these."""
        for entry in self.file.entries:
            if entry.kind == EDGES:
                for edge in entry.record:
                    for at in (1, 3):
                        edge[at : at + 2] = names.get(tuple(edge[at : at + 2]), edge[at : at + 2])
            if entry.kind == LOOP:
                for use in entry.record:
                    if use[0]:
                        use[1:3] = names.get(tuple(use[1:3]), use[1:3])


def respelled(word, how):
    """A number that is spelled otherwise, or differs in a digit."""
    if word == "":
        return word
    mantissa, letter, exponent = word.upper().replace("D", "E").partition("E")
    sign = mantissa[0] if mantissa[0] in "+-" else ""
    whole, _, fraction = mantissa[len(sign) :].partition(".")
    if how == "1.0":
        return f"{sign}{whole}.{fraction}0{letter}{exponent}"
    if how == "D0":
        return f"{sign}{whole}.{fraction}D{exponent or 0}"
    if how == "E-1":
        digits = (whole + fraction).lstrip("0") or "0"
        return f"{sign}{digits}.E{int(exponent or 0) - len(fraction)}" if fraction else f"{sign}{whole}0.E{int(exponent or 0) - 1}"
    if how == "digit":
        return with_digit(sign, whole, fraction, letter + exponent)
    return word


def with_digit(sign, whole, fraction, power):
    digits = whole + fraction
    if not digits.strip("0"):
        return f"{sign}1.E-7"
    if not fraction:
        return f"{sign}{whole}.0000001{power}"
    last = str(int(digits[-1]) + 1) if digits[-1] != "9" else "8"
    digits = digits[:-1] + last
    return f"{sign}{digits[: len(whole)]}.{digits[len(whole) :]}{power}"


class Copies:
    """Copies of edges and of vertices, in lists of their own that are made when they are first needed."""

    def __init__(self, file, how, curve):
        self.file, self.how, self.curve = file, how, curve
        self.vertices, self.edges, self.vertex_list, self.edge_list = {}, {}, None, None

    def vertex(self, vertex):
        if vertex not in self.vertices:
            if self.vertex_list is None:
                self.vertex_list = self.file.add(VERTICES, 1, self.file.at(vertex[0]), record=[])
            items = self.file.get(self.vertex_list)
            items.append([respelled(word, self.how) for word in self.file.item(*vertex)])
            self.vertices[vertex] = self.vertex_list, len(items)
        return self.vertices[vertex]

    def edge(self, edge):
        """The copy of an edge, and whether it runs the other way."""
        if edge not in self.edges:
            if self.edge_list is None:
                self.edge_list = self.file.add(EDGES, 1, self.file.at(edge[0]), record=[])
            curve, *ends = self.file.item(*edge)
            start, end = self.vertex(tuple(ends[:2])), self.vertex(tuple(ends[2:]))
            curve, is_flipped = self.of_curve(curve)
            if is_flipped:
                start, end = end, start
            items = self.file.get(self.edge_list)
            items.append([curve, *start, *end])
            self.edges[edge] = self.edge_list, len(items), int(is_flipped)
        return self.edges[edge]

    def of_curve(self, curve):
        entry = self.file.at(curve)
        if self.curve == "share":
            return curve, False
        words = list(entry.words)
        if self.curve == "respell":
            words = [respelled(word, "1.0") if "." in word else word for word in words]
        is_flipped = self.curve == "flip" and entry.kind == 110
        if is_flipped:
            words = words[3:6] + words[:3] + words[6:]
        return self.file.add(entry.kind, entry.form, entry, words=words), is_flipped

    def uses(self, uses):
        copies = copy.deepcopy(uses)
        for use in copies:
            if use[0]:
                use[1:3] = self.vertex((use[1], use[2]))
            else:
                *use[1:3], flip = self.edge((use[1], use[2]))
                use[3] ^= flip
        return copies


# faces that are missing

def delete(count):
    def way(it):
        listed = it.listed()
        if len(listed) <= count:
            return None
        return deleted(it, it.some(listed, count))

    return way


def deleted(it, gone):
    for shell, face in gone:
        faces = it.file.get(shell)
        if len(faces) < 2:
            return None
        faces[:] = [pair for pair in faces if pair[0] != face]
    return {"kinds": ["deleted"], "deleted": [face for _, face in gone]}


def delete_cap(it):
    """A face between two edges with the same two ends, such as the halves of a circle."""
    caps = []
    for shell, face in it.listed():
        edges = it.edges(face)
        if len(it.loops(face)) == 1 and len(edges) == 2 and edges[0] != edges[1]:
            start, end = it.ends(edges[0])
            if start != end and {start, end} == set(it.ends(edges[1])):
                caps.append((shell, face))
    return deleted(it, [it.rng.choice(caps)]) if caps else None


# faces that are there twice, or too much

def doubled(how):
    def way(it):
        shell, face = it.rng.choice(it.listed())
        flag = it.flag(shell, face)
        loops = [it.file.get(loop) for loop in it.loops(face)]
        if how == "own":
            copies = Copies(it.file, "same", "share")
            loops = [copies.uses(uses) for uses in loops]
            if not it.edges(face):
                return None
        added = it.add_face(face, copy.deepcopy(loops))
        it.insert(shell, added, flag ^ (how == "reversed"))
        return {"kinds": ["doubled"], "added": [added], "of": [face]}

    return way


def disc(it):
    """A face on another surface between the edges of a face, as a disc left in under a dome."""
    shell, face = it.rng.choice(it.listed())
    own = it.file.at(it.file.get(face)[0]).words
    surfaces = [entry.number for entry in it.file.entries if entry.kind in (128, 190, 192, 196, 108) and entry.words != own]
    if not it.edges(face) or not surfaces:
        return None
    loops = [[[*use[:4], []] for use in it.file.get(loop)] for loop in it.loops(face)]
    added = it.add_face(face, loops, it.rng.choice(surfaces))
    it.insert(shell, added, it.flag(shell, face))
    return {"kinds": ["wall"], "added": [added], "of": [face], "disc": True}


def ring(it, faces):
    """The uses of a loop round two faces, by the edges that aren't between them; None if these make no ring."""
    between = set(it.edges(faces[0])) & set(it.edges(faces[1]))
    flags, leading = dict(map(tuple, it.file.get(it.outer()))), {}
    for face in faces:
        for use in it.uses(face):
            edge = use[1], use[2]
            if edge in between:
                continue
            along = use[3] ^ (1 - flags[face])
            start, end = it.ends(edge) if along else it.ends(edge)[::-1]
            if start in leading:
                return None
            leading[start] = end, [0, *edge, along, []]
    if len(leading) < 2:
        return None
    first = at = min(leading)
    uses = []
    while at in leading and len(uses) < len(leading):
        at, use = leading[at]
        uses.append(use)
    return uses if at == first and len(uses) == len(leading) else None


def ring_of_neighbours(it):
    """A face of one loop of edges, and the ring round it and a neighbour of this kind."""
    plain = [face for face, _ in it.file.get(it.outer()) if len(it.loops(face)) == 1]
    plain = [face for face in plain if len(set(it.edges(face))) == len(it.uses(face))]
    for face in it.some(plain, len(plain)):
        for other in it.some(plain, len(plain)):
            if other != face and set(it.edges(face)) & set(it.edges(other)):
                uses = ring(it, (face, other))
                if uses:
                    return face, uses
    return None


def wall(count):
    def way(it):
        found = ring_of_neighbours(it)
        if found is None:
            return None
        like, uses = found
        added = [it.add_face(like, [copy.deepcopy(uses)]) for _ in range(count)]
        for face, flag in zip(added, (1, 0)):
            it.insert(it.outer(), face, flag)
        return {"kinds": ["wall"], "added": added}

    return way


def fin(it):
    """A face that juts out at an edge: its loop uses this edge, and one between the same vertices on another curve."""
    shell, face = it.rng.choice(it.listed())
    if not it.edges(face):
        return None
    edge = it.rng.choice(it.edges(face))
    own, *ends = it.file.item(*edge)
    is_other = lambda entry: entry.kind in (100, 110, 126) and entry.number != own and entry.kind + it.file.at(own).kind != 220
    curves = [entry.number for entry in it.file.entries if is_other(entry)]
    if ends[:2] == ends[2:] or not curves:
        return None
    items = it.file.add(EDGES, 1, it.file.at(edge[0]), record=[[it.rng.choice(curves), *ends]])
    surface = it.file.get(it.rng.choice(it.faces()))[0]
    added = it.add_face(face, [[[0, *edge, 1, []], [0, items, 1, 0, []]]], surface)
    it.insert(shell, added, 1)
    return {"kinds": ["fin"], "added": [added]}


# faces and loops that are turned

def is_joined(it, group):
    """Whether an edge joins faces of a group to others."""
    others = {edge for face in it.faces() if face not in group for edge in it.edges(face)}
    return any(others & set(it.edges(face)) for face in group)


def turn(how):
    def way(it):
        faces = it.faces()
        if how == "some" and len(faces) < 4:
            return None
        turned = set({"one": it.some(faces, 1), "some": it.some(faces, max(2, len(faces) // 3)), "all": faces}[how])
        if how != "all" and not is_joined(it, turned):
            return None
        for shell, _ in it.shells():
            for pair in it.file.get(shell):
                pair[1] ^= pair[0] in turned
        return {"kinds": ["turned"], "turned": sorted(turned)}

    return way


def reverse_loop(is_hole):
    """The loop of a face of one, or that of a hole, runs the other way."""

    def way(it):
        loops = [(face, loop) for face in it.faces() for place, loop in enumerate(it.loops(face)) if (place > 0) == is_hole]
        loops = [(face, loop) for face, loop in loops if (is_hole or len(it.loops(face)) == 1) and any(use[0] == 0 for use in it.file.get(loop))]
        if not loops:
            return None
        face, loop = it.rng.choice(loops)
        uses = it.file.get(loop)
        uses.reverse()
        for use in uses:
            use[3] ^= use[0] == 0
        return {"kinds": ["turned"], "turned": [face], "loops": [loop], "hole": is_hole}

    return way


# faces that aren't sewn

def half_of(it):
    """Half of the outer shell's faces, joined by edges."""
    faces = [face for face, _ in it.file.get(it.outer())]
    got = [it.rng.choice(faces)]
    while len(got) < len(faces) // 2:
        edges = {edge for face in got for edge in it.edges(face)}
        following = [face for face in faces if face not in got and edges & set(it.edges(face))]
        if not following:
            break
        got.append(following[0])
    return got


def unsew(which, how):
    def way(it):
        faces = it.faces()
        if len(faces) < 4 and which in ("some", "half"):
            return None
        groups = {
            "one": lambda: [it.some(faces, 1)],
            "some": lambda: [[face] for face in it.some(faces, max(2, len(faces) // 3))],
            "all": lambda: [[face] for face in faces],
            "half": lambda: [half_of(it)],
        }[which]()
        if not any(is_joined(it, group) for group in groups):
            return None
        curve = it.rng.choice(["share", "copy", "respell", "flip"])
        for group in groups:
            copies = Copies(it.file, how, curve)
            for face in group:
                for loop in it.loops(face):
                    it.file.at(loop).record = copies.uses(it.file.get(loop))
        return {"kinds": ["unsewn"], "unsewn": [face for group in groups for face in group], "how": how, "curve": curve}

    return way


def crack(it):
    """One use of an edge has an edge of its own, between the same vertices on the same curve."""
    _, face = it.rng.choice(it.listed())
    others = {edge for other in it.faces() if other != face for edge in it.edges(other)}
    edges = [edge for edge in it.edges(face) if it.edges(face).count(edge) == 1 and edge in others]
    if not edges:
        return None
    edge = it.rng.choice(edges)
    items = it.file.add(EDGES, 1, it.file.at(edge[0]), record=[list(it.file.item(*edge))])
    for use in it.uses(face):
        if use[0] == 0 and (use[1], use[2]) == edge:
            use[1:3] = items, 1
    return {"kinds": ["unsewn"], "unsewn": [face], "how": "same"}


def part_vertex(it):
    """One end of an edge has a vertex of its own, with the same coordinates."""
    edges = [edge for edge in it.all_edges() if it.ends(edge)[0] != it.ends(edge)[1]]
    if not edges:
        return None
    edge, at = it.rng.choice(edges), it.rng.choice([1, 3])
    item = it.file.item(*edge)
    vertex = tuple(item[at : at + 2])
    # Where no other edge has this vertex, nothing would be parted.
    if sum(vertex in it.ends(other) for other in edges) < 2:
        return None
    item[at : at + 2] = it.file.add(VERTICES, 1, it.file.at(vertex[0]), record=[list(it.file.item(*vertex))]), 1
    return {"kinds": ["parted"], "vertex": vertex}


# bodies and shells that touch

def pinch(it):
    """Two vertices that no face has in common become one."""
    near = {}
    for face, _ in it.file.get(it.outer()):
        vertices = {end for edge in it.edges(face) for end in it.ends(edge)}
        for vertex in vertices:
            near.setdefault(vertex, set()).update(vertices)
    for vertex in it.some(sorted(near), len(near)):
        far = [other for other in sorted(near) if other not in near[vertex]]
        if far:
            it.rename_vertices({it.rng.choice(far): vertex})
            return {"kinds": ["pinch"], "vertex": vertex}
    return None


def is_another(other, own):
    """Whether a base may stand beside another one: not as its copy, and in its unit, so that their volumes make a sum."""
    return other.units == own.units and not other.places <= own.places and not other.name.startswith(TOUCHING)


def lumps(is_open):
    """The faces of another closed solid in the outer shell, and where it is open a face of one of the two missing."""

    def way(it):
        small = [base for base in it.others if base.faces <= 30 and base.shells == 1 and is_another(base, it.base)]
        if not small:
            return None
        other = it.rng.choice(small)
        file, own = it.file, it.file.get(it.outer())
        rise = appended(file, File(other.data))
        solid = file.at(other.solid + rise)
        shell, flag = solid.record[0]
        is_alike = flag == it.shells()[0][1]
        faces = [[face, of_face if is_alike else 1 - of_face] for face, of_face in file.get(shell)]
        solid.clear()
        file.at(shell).clear()
        truth = {"kinds": ["lumps"], "lumps": [[face for face, _ in own], [face for face, _ in faces]], "other": other.name}
        if is_open:
            side = faces if it.rng.random() < 0.5 and len(faces) > 2 or len(own) < 3 else own
            if len(side) < 2:
                return None
            gone = it.rng.choice(side)
            side.remove(gone)
            truth |= {"kinds": ["lumps", "deleted"], "deleted": [gone[0]]}
        own.extend(faces)
        return truth

    return way


def void_as_lump(it):
    """The faces of a void in the outer shell."""
    shells = it.shells()
    if len(shells) < 2:
        return None
    void, flag = shells.pop(it.rng.randrange(1, len(shells)))
    outer = it.file.get(it.outer())
    outer.extend([face, of_face if flag == shells[0][1] else 1 - of_face] for face, of_face in it.file.get(void))
    return {"kinds": ["lumps"]}


def touching_voids(how):
    """Two shells of the solid have a vertex in common, or an edge with its vertices."""

    def way(it):
        shells = [shell for shell, _ in it.shells()]
        if len(shells) < 2:
            return None
        pair = it.rng.sample(shells, 2)
        edges = [[edge for edge in it.all_edges([shell]) if how == "vertex" or len(set(it.ends(edge))) == 2] for shell in pair]
        if not all(edges):
            return None
        if how == "vertex":
            one, other = (it.rng.choice(sorted({end for edge in of_shell for end in it.ends(edge)})) for of_shell in edges)
            it.rename_vertices({other: one})
            return {"kinds": ["apart"]}
        one, other = map(it.rng.choice, edges)
        it.rename_vertices(dict(zip(it.ends(other), it.ends(one))))
        for entry in it.file.entries:
            if entry.kind == LOOP:
                for use in entry.record:
                    if use[0] == 0 and (use[1], use[2]) == other:
                        use[1:3] = one
        return {"kinds": ["apart"]}

    return way


def touching_bodies(it):
    """All solids of the file in the outer shell of this one."""
    own, (outer, flag) = it.file.get(it.outer()), it.shells()[0]
    bodies = [[face for face, _ in own]]
    for solid in it.file.solids():
        if solid == it.solid:
            continue
        shell, of_shell = it.file.get(solid)[0]
        seen, body = {face for face, _ in own}, []
        for face, of_face in it.file.get(shell):
            if face in seen:
                face = it.add_face(face, copy.deepcopy([it.file.get(loop) for loop in it.loops(face)]))
            body.append([face, of_face if of_shell == flag else 1 - of_face])
        bodies.append([face for face, _ in body])
        own.extend(body)
        it.file.at(solid).clear()
    return {"kinds": ["touch"], "lumps": bodies}


WAYS = {
    "del1": delete(1), "del2": delete(2), "del3": delete(3), "delcap": delete_cap,
    "dup_same": doubled("same"), "dup_rev": doubled("reversed"), "dup_own": doubled("own"), "disc": disc, "wall1": wall(1), "wall2": wall(2), "fin": fin,
    "rev1": turn("one"), "revsome": turn("some"), "revall": turn("all"), "revloop": reverse_loop(False), "revloop_in": reverse_loop(True),
    "unsew1": unsew("one", "same"), "unsew1_1.0": unsew("one", "1.0"), "unsew1_D0": unsew("one", "D0"), "unsew1_digit": unsew("one", "digit"),
    "unsewsome": unsew("some", "same"), "unsewsome_E": unsew("some", "E-1"), "unsewall": unsew("all", "same"), "unsewall_1.0": unsew("all", "1.0"),
    "unsewhalf": unsew("half", "same"), "unsewhalf_D0": unsew("half", "D0"), "unsewhalf_digit": unsew("half", "digit"),
    "crack": crack, "splitv": part_vertex, "pinch": pinch, "lumps": lumps(False), "lumps_open": lumps(True), "voidlump": void_as_lump,
    "voidtouch": touching_voids("vertex"), "voidtouch_e": touching_voids("edge"),
}  # fmt: skip
# The ways by what they do; bodies that touch are of files with names of their own.
KINDS = {
    "faces missing": ("del1", "del2", "del3", "delcap"),
    "a face twice": ("dup_same", "dup_rev", "dup_own"),
    "another face on its edges": ("disc",),
    "walls, fins": ("wall1", "wall2", "fin"),
    "faces turned": ("rev1", "revsome", "revall"),
    "loops turned": ("revloop", "revloop_in"),
    "faces unsewn": (
        "unsew1", "unsew1_1.0", "unsew1_D0", "unsewsome", "unsewsome_E", "unsewall", "unsewall_1.0", "unsewhalf", "unsewhalf_D0", "crack",
    ),
    "unsewn by a digit": ("unsew1_digit", "unsewhalf_digit"),
    "a vertex parted": ("splitv",),
    "vertices pinched": ("pinch",),
    "bodies in one shell": ("lumps", "voidlump"),
    "bodies, one open": ("lumps_open",),
    "voids that touch": ("voidtouch", "voidtouch_e"),
}  # fmt: skip
# Those of which two are done to a solid, one after the other, and how many such pairs each solid gets.
PAIRED = (
    "del1", "delcap", "rev1", "revsome", "unsew1", "unsewhalf", "unsewhalf_D0", "dup_same", "dup_own", "wall1", "fin", "lumps", "pinch", "crack", "splitv",
    "revloop_in",
)  # fmt: skip
PAIRS = 8
TOUCHING = "t_"


class Case:
    """A file of one solid that was broken: its name, its bytes, the solid, the ways, and the truth."""

    def __init__(self, base, ways, it, truth):
        self.name, self.base, self.ways, self.solid, self.truth = f"{base.name}.{'+'.join(ways)}", base, ways, it.solid, truth
        self.data = it.file.bytes()

    def kind(self):
        return self.ways[0] if len(self.ways) == 1 else "two faults"


def chosen(*words):
    """A source of choices that depends on these words alone."""
    return random.Random(zlib.crc32(" ".join(map(str, words)).encode()))


def joined(truth, other):
    """The truth of two faults."""
    both = dict(truth)
    for key, value in other.items():
        both[key] = both[key] + value if key in both and isinstance(value, list) and key != "lumps" else value
    return both


def broken(base, ways, rng, bases):
    """A case of this base, broken in these ways; None if one doesn't apply."""
    it, truth = Broken(base, rng, bases), {}
    for way in ways:
        try:
            told = WAYS[way](it) if way in WAYS else touching_bodies(it)
        except (KeyError, TypeError):
            # What was done first may leave no record that the second can change.
            told = None
        if told is None:
            return None
        truth = joined(truth, told) if truth else told
    return Case(base, ways, it, truth)


def pair_of(base, place, seed, bases):
    rng = chosen(base.name, "pair", place, seed)
    for _ in range(5):
        ways = rng.sample(PAIRED, 2)
        if ways[1] == "lumps":
            ways.reverse()
        case = broken(base, ways, rng, bases)
        if case is not None:
            return case
    return None


def plans(bases, base, seed):
    """The names of a base's cases, each with what makes it or None: in each way, and in pairs. One named `t_..` is a file of bodies that touch."""
    if base.name.startswith(TOUCHING):
        return [(base.name, lambda: broken(base, [base.name], chosen(base.name, seed), bases))]
    single = lambda way: lambda: broken(base, [way], chosen(base.name, way, seed), bases)
    pair = lambda place: lambda: pair_of(base, place, seed, bases)
    return [(f"{base.name}.{way}", single(way)) for way in WAYS] + [(f"{base.name}.pair{place}", pair(place)) for place in range(PAIRS)]


def cases(bases, seed):
    """All cases."""
    for base in bases:
        yield from (case for case in (make() for _, make in plans(bases, base, seed)) if case is not None)
