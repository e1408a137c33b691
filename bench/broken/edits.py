"""Random edits of the six records of a solid, each by a Broken; False where one doesn't apply. No truth is told: whether it breaks anything is open."""
import copy

from .faults import Copies, respelled
from .iges import EDGES, FACE, LOOP, SHELL, SOLID, VERTICES

SPELLINGS = "same", "1.0", "D0", "E-1", "digit"


def entries(it, *kinds):
    return [entry for entry in it.file.entries if entry.kind in kinds]


def some_use(it):
    """A use of an edge, and the loop that it is in."""
    loops = [it.file.get(loop) for face in it.faces() for loop in it.loops(face)]
    return it.rng.choice([(use, loop) for loop in loops for use in loop if use[0] == 0] or [(None, None)])


def some_item(it, kind):
    return it.rng.choice([item for entry in entries(it, kind) for item in entry.record] or [None])


# uses and edges

def other_edge(it):
    """A use names another edge, mostly one with a vertex of its own."""
    use, _ = some_use(it)
    edges = it.all_edges()
    if len(edges) < 2:
        return False
    near = [edge for edge in edges if set(it.ends(edge)) & set(it.ends(tuple(use[1:3]))) and edge != tuple(use[1:3])]
    use[1:3] = it.rng.choice(near if near and it.rng.random() < 0.7 else edges)


def turn_use(it):
    use, _ = some_use(it)
    if use is None:
        return False
    use[3] ^= 1


def swap_uses(it):
    _, loop = some_use(it)
    if loop is None or len(loop) < 2:
        return False
    one, other = it.rng.sample(range(len(loop)), 2)
    loop[one], loop[other] = loop[other], loop[one]


def double_use(it):
    use, loop = some_use(it)
    if use is None:
        return False
    loop.insert(it.rng.randrange(len(loop) + 1), copy.deepcopy(use))


def leave_out_use(it):
    use, loop = some_use(it)
    if use is None or len(loop) < 2:
        return False
    loop.remove(use)


def use_vertex(it):
    """A use of a vertex: where the use before it ends, or anywhere; or in place of the whole loop."""
    use, loop = some_use(it)
    if use is None:
        return False
    end = it.ends(tuple(use[1:3]))[use[3]]
    if it.rng.random() < 0.2:
        loop.clear()
    loop.insert(loop.index(use) + 1 if use in loop else 0, [1, *end, 1, []])


def swap_ends(it):
    edge = some_item(it, EDGES)
    if edge is None:
        return False
    edge[1:] = edge[3:] + edge[1:3]


def other_end(it):
    edge = some_item(it, EDGES)
    if edge is None:
        return False
    at = it.rng.choice([1, 3])
    edge[at : at + 2] = it.rng.choice([edge[4 - at : 6 - at], some_item(it, EDGES)[1:3]])


def other_curve(it):
    edge = some_item(it, EDGES)
    if edge is None:
        return False
    edge[0] = some_item(it, EDGES)[0]


def edges_become_one(it):
    """Two edges of equal ends, or any two, become one."""
    edges = it.all_edges()
    alike = [(e, f) for e in edges for f in edges if e < f and set(it.ends(e)) == set(it.ends(f))]
    if len(edges) < 2:
        return False
    one, other = it.rng.choice(alike) if alike and it.rng.random() < 0.6 else it.rng.sample(edges, 2)
    for entry in entries(it, LOOP):
        for use in entry.record:
            if use[0] == 0 and tuple(use[1:3]) == other:
                use[1:3] = one


# vertices

def vertices_become_one(it):
    vertices = sorted({end for edge in it.all_edges() for end in it.ends(edge)})
    if len(vertices) < 2:
        return False
    one, other = it.rng.sample(vertices, 2)
    it.rename_vertices({other: list(one)})


def same_place(it):
    """A vertex comes to lie where another one does, spelled alike or otherwise; or its own number is spelled otherwise."""
    vertex = some_item(it, VERTICES)
    vertex[:] = [respelled(word, it.rng.choice(SPELLINGS)) for word in it.rng.choice([vertex, some_item(it, VERTICES)])]


def loosen_uses(it):
    """Some uses of a face have edges of their own, between copies of their vertices, spelled in any way."""
    _, loop = some_use(it)
    if loop is None:
        return False
    copies = Copies(it.file, it.rng.choice(SPELLINGS), it.rng.choice(["share", "copy", "respell", "flip"]))
    loop[:] = [copies.uses([use])[0] if it.rng.random() < 0.5 else use for use in loop]


# faces, shells, solids

def move_loop(it):
    faces = it.faces()
    full = [face for face in faces if len(it.loops(face)) > 1] or faces
    one, other = it.rng.choice(full), it.rng.choice(faces)
    if one == other or len(it.loops(one)) < 2 and it.rng.random() < 0.7:
        return False
    it.loops(other).append(it.loops(one).pop() if len(it.loops(one)) > 1 else it.loops(one)[0])


def part_shell(it):
    """Some faces of a shell, by chance or in order, become a further shell."""
    faces = it.file.get(it.outer())
    if len(faces) < 2:
        return False
    if it.rng.random() < 0.5:
        it.rng.shuffle(faces)
    at = it.rng.randrange(1, len(faces))
    it.shells().append([it.file.add(SHELL, 1, it.file.at(it.outer()), record=faces[at:]), it.rng.randrange(2)])
    del faces[at:]


def join_shells(it):
    shells = it.shells()
    if len(shells) < 2:
        return False
    it.file.get(shells[0][0]).extend(it.file.get(shells.pop()[0]))


def turn_shell(it):
    it.rng.choice(it.shells())[1] ^= 1


def turn_faces(it):
    """Flags of faces, each by chance; or all but a few are 0."""
    zero = it.rng.random() < 0.5
    faces = it.file.get(it.rng.choice(it.shells())[0])
    kept = it.rng.sample(range(len(faces)), min(len(faces), it.rng.randint(1, 2)))
    for at, pair in enumerate(faces):
        pair[1] = int(at in kept) if zero else it.rng.randrange(2)


def reverse_loops(it):
    """Loops of several faces run the other way."""
    loops = [loop for face in it.faces() for loop in it.loops(face)]
    for loop in it.some(loops, it.rng.randint(1, 3)):
        uses = it.file.get(loop)
        uses.reverse()
        for use in uses:
            use[3] ^= use[0] == 0


def double_naming(it):
    """A solid, a shell or a face names again what it or another one names."""
    kind = it.rng.choice([SOLID, SHELL, SHELL, FACE])
    lists = {SOLID: [it.shells()], SHELL: [it.file.get(shell) for shell, _ in it.shells()], FACE: [it.loops(face) for face in it.faces()]}[kind]
    named = copy.deepcopy(it.rng.choice(it.rng.choice(lists)))
    into = it.rng.choice(lists)
    into.insert(it.rng.randrange(len(into) + 1), named)


def cross_shells(it):
    """Two shells have a vertex in common, or a face."""
    shells = [shell for shell, _ in it.shells()]
    if len(shells) < 2:
        return False
    one, other = it.rng.sample(shells, 2)
    ends = [sorted({end for edge in it.all_edges([shell]) for end in it.ends(edge)}) for shell in (one, other)]
    if it.rng.random() < 0.8 and all(ends):
        it.rename_vertices({it.rng.choice(ends[0]): list(it.rng.choice(ends[1]))})
    else:
        it.file.get(one).append(list(it.rng.choice(it.file.get(other))))


# records that are wrong

def wrong_number(it):
    """A pointer or an index is another number."""
    kind = it.rng.choice([SOLID, SHELL, FACE, LOOP, EDGES])
    record = it.rng.choice(entries(it, kind) or entries(it, SOLID)).record
    item = record if kind == FACE and it.rng.random() < 0.5 else record[2] if kind == FACE else it.rng.choice(record or [[0]])
    at = it.rng.choice({LOOP: [1, 2], EDGES: range(5)}.get(kind, [0]))
    numbers = 0, -1, 2, it.rng.randrange(1, 10), 2 * it.rng.randrange(2 * len(it.file.entries)) + 1, item[at] + 1, 9_999_999
    item[at] = it.rng.choice(numbers)


def other_entry(it):
    """An entry gets another form, becomes of no type, or refers to nothing; or its record has values that don't fit."""
    entry = it.rng.choice(it.file.entries)
    how = it.rng.choice(["form", "null", "matrix", "rest", "rest", "word"])
    if how == "form":
        entry.form = it.rng.randrange(4)
    elif how == "null":
        entry.clear()
    elif how == "matrix":
        entry.fields["matrix"] = f"{it.rng.randrange(60):8}"
    else:
        words = entry.words if entry.record is None else entry.rest
        words += it.rng.choice([["1", "0"], ["0", "1", "5"], ["1.5"], ["0", "0"], ["", ""], ["2", "1", "3", "0"], ["1", str(entry.number)]])


USES = other_edge, turn_use, swap_uses, double_use, leave_out_use, use_vertex, swap_ends, other_end, other_curve, edges_become_one
PLACES = vertices_become_one, same_place, loosen_uses
FACES = move_loop, part_shell, join_shells, turn_shell, turn_faces, reverse_loops, double_naming, cross_shells
RECORDS = wrong_number, other_entry
