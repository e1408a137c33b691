"""What `igesolid-where` owes for the bytes of a file (docs/WHERE.md)."""
import re
from dataclasses import dataclass
from typing import NamedTuple

from .bad_lines import told
from .certificates import certificate
from .extraction import Layout, groups_of, topology_layout
from .fields import Real
from .file_places import Places
from .geometry import Geometry
from .reading import BadFile, File
from .records import FITTING, FORMS, is_flag, is_integer
from .shells import Rows
from .walking import ANY_TOPOLOGY, Fail, Walk
from .where_hints import put_shell_hints, unset_faces
from .where_page import DOC, cut, is_told, sentences, type_word

LIMIT = 20
# Of faces at a vertex of APART.
FACE_LIMIT = 5
WORD_LIMIT, COORDINATE_LIMIT = 100, 32
# So many gaps of a solid are all told at most.
GAP_LIMIT = 10_000
# What a loop's size counts beside its values.
ENTRY_SIZE = 100


def shown_bytes(text):
    return bytes(byte if byte >= 32 and byte != 127 else 63 for byte in text).decode("latin-1")


def spelled(value, limit=WORD_LIMIT):
    """A value; `limit` is that of the bytes of a real."""
    if value is None:
        return "-"
    return str(value) if is_integer(value) else shown_word(value, limit if isinstance(value, Real) else WORD_LIMIT)


def shown_word(word, limit):
    """A copied word; of a long one the first bytes, up to the first of these places where no character of UTF-8 is cut in two."""
    if len(word) <= limit:
        return shown_bytes(word)
    places = [place for place in range(limit, limit - 4, -1) if not 128 <= word[place] <= 191]
    return shown_bytes(word[: (places or [limit])[0]]) + ".."


def spelled_coordinate(value):
    return spelled(value, COORDINATE_LIMIT)


class Row(NamedTuple):
    edge: int
    along: bool
    start: int
    end: int
    face: int
    loop: int
    tuple: int
    flag: int


@dataclass
class Item:
    head: str
    facts: list
    more: int = 0


# A face or a loop that an item or a fact names, but for the loops of gaps.
NAMED = re.compile(r"(?:^| )(?:face|first|flag-0|remove|turn) (\d+)")


class Text:
    """The lines of an answer, the limit of its lists, and the faces and loops that it names."""

    def __init__(self, limit):
        self.limit, self.lines, self.named = limit, [], set()

    def shown(self, members, always=None):
        """The members that are written, and how many aren't; `always` is a limit under `all` too."""
        limit = always or self.limit
        count = len(members) if limit is None else min(limit, len(members))
        return members[:count], len(members) - count

    def item(self, head, facts, always=None):
        return Item(head, *self.shown(facts, always))

    def put_more(self, more, indent=""):
        if more:
            self.lines.append(f"{indent}more {more}")

    def paragraph(self, head, rule, items, always=None):
        self.lines += ["", head, *cut(DOC[rule])]
        self.put_items(items, always)

    def hint(self, words, items=()):
        self.lines += [f"hint {words}", *cut(DOC[words.split(" ")[0]])]
        self.put_items(items)

    def put_items(self, items, always=None):
        shown, more = self.shown(items, always)
        for item in shown:
            self.lines.append(item.head)
            self.lines += ["  " + fact for fact in item.facts]
            self.put_more(item.more, "  ")
            self.named |= {int(number) for line in (item.head, *item.facts) for number in NAMED.findall(line)}
            if item.head.startswith("gap ") and is_told("gap` items;"):
                self.named.add(int(item.head.split(" ")[1]))
        self.put_more(more)


class View:
    """A shell, and what fails in it."""

    def __init__(self, file, solid, place, earlier):
        self.file, self.solid, self.place, self.earlier = file, solid, place, earlier
        self.shell = solid.shells[place - 1]
        self.rows, self.lone = [], []
        for number, face in enumerate(self.shell.faces):
            for loop in face.loops:
                self.add(number, face, loop)
        checked = Rows(self.shell)
        self.follows = [follow and follow - 1 for follow in checked.follows[1:]]
        self.edges, self.vertices = sorted(checked.edges), sorted(checked.vertices)
        self.of_edge = {edge: [] for edge in self.edges}
        for number, row in enumerate(self.rows):
            self.of_edge[row.edge].append(number)
        self.gaps = [gap for number, face in enumerate(self.shell.faces) for loop in face.loops for gap in gaps_of(number, loop)]
        self.unpaired = [edge for edge in self.edges if not self.is_paired(self.of_edge[edge])]
        self.parts = self.part_list()
        self.is_linkable = not self.gaps and not self.unpaired
        self.fans = self.fans_by_vertex() if self.is_linkable else {}
        self.unlinked = [vertex for vertex in self.vertices if not self.is_linked(vertex)] if self.is_linkable else []
        self.shared = [vertex for vertex in self.vertices if any(vertex in view.vertices for view in earlier)]

    def add(self, number, face, loop):
        turned = (self.shell.flag + face.flag) % 2 == 1
        for place, use in enumerate(loop.uses, 1):
            if use.edge is not None:
                ends = (use.end, use.start) if turned else (use.start, use.end)
                self.rows.append(Row(use.edge, (use.flag == 1) != turned, *ends, number, loop.entity, place, use.flag))
        if all(use.edge is None for use in loop.uses):
            self.lone.append((number, loop))

    def is_paired(self, numbers):
        return len(numbers) == 2 and self.rows[numbers[0]].along != self.rows[numbers[1]].along

    def part_list(self):
        """The faces of each part, by the first face."""
        part = list(range(len(self.shell.faces)))

        def root(face):
            while part[face] != face:
                face = part[face]
            return face

        for numbers in self.of_edge.values():
            for number in numbers[1:]:
                one, other = sorted((root(self.rows[numbers[0]].face), root(self.rows[number].face)))
                part[other] = one
        parts = {}
        for face in range(len(part)):
            parts.setdefault(root(face), []).append(face)
        return list(parts.values())

    def fans_by_vertex(self):
        seen, fans = set(), {}
        mates = {}
        for one, other in self.of_edge.values():
            mates[one], mates[other] = other, one
        for number, row in enumerate(self.rows):
            fan = []
            while number not in seen:
                seen.add(number)
                fan.append(number)
                number = self.follows[mates[number]]
            if fan:
                fans.setdefault(row.start, []).append(fan)
        return fans

    def points(self, vertex):
        return [(face, loop) for face, loop in self.lone if loop.uses[0].start == vertex]

    def is_linked(self, vertex):
        return (len(self.fans.get(vertex, [])), len(self.points(vertex))) in ((1, 0), (0, 1))

    def counts(self):
        apart = sum(map(len, self.parts[1:]))
        linked = len(self.unlinked) if self.is_linkable else None
        return {"JOIN": len(self.gaps), "PAIR": len(self.unpaired), "REACH": apart, "LINK": linked, "APART": len(self.shared)}

    def line(self):
        counts = " ".join(f"{rule} {'-' if count is None else count}" for rule, count in self.counts().items())
        sizes = f"faces {len(self.shell.faces)} edges {len(self.edges)} vertices {len(self.vertices)}"
        return f"shell {self.place} entity {self.shell.entity} flag {self.shell.flag} {sizes} {counts}"

    # words

    def coordinates(self, number):
        """The values of a vertex as they stand in its list."""
        entity, index = self.solid.vertices[number]
        return tuple(self.file.entries[entity].values[3 * index - 2 : 3 * index + 1])

    def vertex(self, number):
        entity, index = self.solid.vertices[number]
        return " ".join([str(entity), str(index), *map(spelled_coordinate, self.coordinates(number))])

    def curve(self, number):
        entity, index = self.solid.edges[number]
        curve = self.file.entries[entity].values[5 * index - 4]
        return f"{curve} {type_word(self.file.entries[curve].kind)}"

    def edge(self, number):
        return "edge {} {}".format(*self.solid.edges[number])

    def face(self, number):
        entity = self.shell.faces[number].entity
        return f"{entity} {surface_word(self.file, entity)}"

    def at(self, row):
        return f"face {self.face(row.face)} loop {row.loop} tuple {row.tuple}"

    # items

    def gap_items(self, text):
        return [text.item(f"gap {loop.entity} {place + 1}", self.gap_facts(face, loop, place)) for face, loop, place in self.gaps]

    def gap_facts(self, face, loop, place):
        next_place = (place + 1) % len(loop.uses)
        facts = [f"face {self.face(face)}"]
        for word, at in (("this", place), ("next", next_place)):
            use = loop.uses[at]
            if use.edge is None:
                facts.append("{} tuple {} vertex {} {}".format(word, at + 1, *self.solid.vertices[use.start]))
            else:
                facts.append(f"{word} tuple {at + 1} {self.edge(use.edge)} flag {use.flag} curve {self.curve(use.edge)}")
            facts.append(f"ends {self.vertex(use.end)}" if word == "this" else f"starts {self.vertex(use.start)}")
        return facts

    def pair_items(self, text):
        return [self.edge_item(text, edge) for edge in self.unpaired]

    def edge_item(self, text, edge):
        numbers = self.of_edge[edge]
        along = sum(self.rows[number].along for number in numbers)
        row = self.rows[numbers[0]]
        ends = (row.start, row.end) if row.along else (row.end, row.start)
        facts = [f"curve {self.curve(edge)}", f"start {self.vertex(ends[0])}", f"end {self.vertex(ends[1])}"]
        shown, more = text.shown(numbers)
        for number in shown:
            row = self.rows[number]
            flags = f"{row.flag} {self.shell.faces[row.face].flag} {self.shell.flag}"
            facts.append(f"{'along' if row.along else 'against'} {self.at(row)} flags {flags}")
        return Item(f"{self.edge(edge)} along {along} against {len(numbers) - along}", facts, more)

    def reach_items(self, text):
        items, before = [], set()
        for place, faces in enumerate(self.parts, 1):
            uses = [use for face in faces for loop in self.shell.faces[face].loops for use in loop.uses]
            edges = {use.edge for use in uses if use.edge is not None}
            vertices = {vertex for use in uses for vertex in (use.start, use.end)}
            unpaired = len(edges.intersection(self.unpaired))
            touching = sorted(vertices & before)
            before |= vertices
            shown, more = text.shown(faces)
            facts = [f"at {self.vertex(min(vertices))}"]
            facts += [f"touches {self.vertex(vertex)}" for vertex in touching[:LIMIT]]
            facts += [f"more {len(touching) - LIMIT}"] if len(touching) > LIMIT else []
            facts += [f"face {self.face(face)}" for face in shown]
            head = f"part {place} faces {len(faces)} edges {len(edges)} vertices {len(vertices)}"
            items.append(Item(f"{head} unpaired {unpaired} touching {len(touching)}", facts, more))
        return items

    def link_items(self, text):
        items = []
        for vertex in self.unlinked:
            fans, points = self.fans.get(vertex, []), self.points(vertex)
            facts = []
            for place, fan in enumerate(fans, 1):
                for row in (self.rows[number] for number in fan):
                    facts.append(f"fan {place} {self.at(row)} {self.edge(row.edge)} to {self.vertex(row.end)}")
            facts += [f"point face {self.face(face)} loop {loop.entity}" for face, loop in points]
            items.append(text.item(f"vertex {self.vertex(vertex)} fans {len(fans)} points {len(points)}", facts))
        return items

    def faces_at(self, vertex):
        faces = self.shell.faces
        return [number for number, face in enumerate(faces) if any(vertex in (use.start, use.end) for loop in face.loops for use in loop.uses)]

    def apart_items(self, text):
        items = []
        for vertex in self.shared:
            views = [view for view in (*self.earlier, self) if vertex in view.vertices]
            facts = [f"in shell {view.place} face {view.face(face)}" for view in views for face in view.faces_at(vertex)]
            items.append(text.item(f"vertex {self.vertex(vertex)}", facts, FACE_LIMIT))
        return items

    def put(self, text, gap_limit):
        many = [len(self.of_edge[edge]) for edge in self.unpaired]
        after = {
            "PAIR": f" once {many.count(1)} same-way {many.count(2)} many {sum(count > 2 for count in many)}",
            "REACH": f" parts {len(self.parts)}",
        }
        items = {
            "JOIN": self.gap_items, "PAIR": self.pair_items, "REACH": self.reach_items,
            "LINK": self.link_items, "APART": self.apart_items,
        }
        for rule, count in self.counts().items():
            if count:
                head = f"rule {rule} shell {self.place} faults {count}{after.get(rule, '')}"
                text.paragraph(head, rule, items[rule](text), gap_limit if rule == "JOIN" else None)


def surface_word(file, face):
    return type_word(file.entries[file.entries[face].values[0]].kind)


def gaps_of(face, loop):
    uses = loop.uses
    return [(face, loop, place) for place in range(len(uses)) if uses[place].end != uses[(place + 1) % len(uses)].start]


# rules on records

class PathWalk(Walk):
    """A walk that knows in which shell, face and loop it stands."""

    def __init__(self, file):
        super().__init__(file)
        self.path, self.places = [], [0]

    def step(self, word, number, walk):
        self.places[-1] += 1
        self.path.append((word, number, self.places[-1]))
        self.places.append(0)
        walked = walk()
        self.path.pop()
        self.places.pop()
        return walked

    def shell(self, number, flag, listed):
        return self.step("shell", number, lambda: super(PathWalk, self).shell(number, flag, listed))

    def face(self, number, flag, listed):
        return self.step("face", number, lambda: super(PathWalk, self).face(number, flag, listed))

    def loop(self, number, tuples):
        return self.step("loop", number, lambda: super(PathWalk, self).loop(number, tuples))


DUE = {
    186: "solid form 0", 514: "shell form 1", 510: "face form 0 1", 508: "loop form 0 1",
    504: "edge-list form 0 1", 502: "vertex-list form 0 1",
}


def is_begun(kind, values):
    """Whether some record of a type that fits begins with these values."""
    fits = FITTING[kind]
    if fits(values) is not None:
        return True
    needed = {186: 3, 514: 1, 510: 3, 508: 1, 504: 1, 502: 1}[kind]
    filled = list(values)
    for fill in ([1] * (needed - len(filled)), []):
        trial = filled + fill
        if could_fit(kind, trial):
            return True
    return False


def could_fit(kind, values):
    """Whether values that hold a whole front can be completed."""
    fits = FITTING[kind]
    if fits(values) is not None:
        return True
    width = {186: 2, 514: 2, 510: 1, 504: 5, 502: 3}
    if kind == 508:
        return loop_begun(values)
    at = {186: 2, 510: 1}.get(kind, 0)
    before = {186: (is_integer, is_flag), 510: (is_integer,)}.get(kind, ())
    if not all(holds(value) for holds, value in zip(before, values)):
        return False
    if at >= len(values):
        return True
    count, front = values[at], {186: 3, 510: 3}.get(kind, 1)
    if not is_integer(count) or count < (0 if kind == 186 else 1):
        return False
    have = len(values) - front
    return have < width[kind] * count and shortened(kind, values, front, width[kind])


def shortened(kind, values, front, width):
    """Whether the items so far fit: the last one completed, and the count made theirs."""
    items = values[front:]
    items = items + [1] * (-len(items) % width)
    trial = list(values[:front]) + items
    at = {186: 2, 510: 1}.get(kind, 0)
    trial[at] = len(items) // width
    if kind in (514, 510, 504, 502) and trial[at] == 0:
        trial[at], trial = 1, trial + [1] * width
        trial[at] = 1
    return FITTING[kind](trial) is not None


def loop_begun(values):
    if not values:
        return True
    if not is_integer(values[0]) or values[0] < 1:
        return False
    at, left = 1, values[0]
    slots = (is_flag, is_integer, is_integer, is_flag)
    while left and at < len(values):
        for slot in slots:
            if at < len(values) and not slot(values[at]):
                return False
            at += 1
        if at >= len(values):
            return True
        count = 0 if values[at] is None else values[at]
        if not is_integer(count) or count < 0:
            return False
        at += 1
        for step in range(2 * count):
            if at >= len(values):
                return True
            if not (is_integer if step % 2 else is_flag)(values[at]):
                return False
            at += 1
        left -= 1
    return left > 0 or all(value is None or is_integer(value) for value in values[at:])


def misfit(kind, values):
    """The first value, from 1, with which no record of the type that fits goes on; one more than all where there is none."""
    for count in range(1, len(values) + 1):
        if not is_begun(kind, values[:count]):
            return count
    return len(values) + 1


def due_at(kind, values, k):
    """What the k-th value of a record must be, where those before it fit."""
    front = {186: ["pointer", "flag", "count"], 510: ["pointer", "count", "flag"], 508: ["count"]}.get(kind, ["count"])
    if k <= len(front):
        return front[k - 1]
    item = {186: ["pointer", "flag"], 514: ["pointer", "flag"], 510: ["pointer"], 502: ["coordinate"] * 3}
    item[504] = ["pointer", "pointer", "index", "pointer", "index"]
    if kind == 508:
        return loop_due(values, k)
    count = values[front.index("count")] or 0
    if k > len(front) + count * len(item[kind]):
        return "count-or-pointer"
    return item[kind][(k - len(front) - 1) % len(item[kind])]


def loop_due(values, k):
    at = 2
    for _ in range(values[0]):
        for word in ("type", "pointer", "index", "flag", "count"):
            if k == at:
                return word
            at += 1
        for step in range(2 * (values[at - 2] or 0)):
            if k == at:
                return ("flag", "pointer")[step % 2]
            at += 1
    return "count-or-pointer"


def value_of(file, fail):
    """Which value of the entity's record is wrong, from 1, and what is due there."""
    kind, values = file.entries[fail.entity].kind, file.entries[fail.entity].values
    place = fail.place
    if fail.rule == "RECORD":
        k = misfit(kind, values)
        return k, due_at(kind, values, k)
    if kind == 186:
        return (1 if place == 1 else 2 * place), DUE[514]
    if kind == 514:
        return 2 * place, DUE[510]
    if kind == 510:
        return (1, "geometry") if fail.rule == "GEOMETRY" else (3 + place, DUE[508])
    if kind == 508:
        return loop_value(file, fail, values)
    if fail.rule == "GEOMETRY":
        return 5 * place - 3, "geometry"
    for k in (5 * place - 2, 5 * place):
        entry = file.named(values[k - 1])
        if entry is None or entry.kind != 502 or entry.form not in FORMS[502]:
            return k, DUE[502]
        if not 1 <= values[k] <= len(FITTING[502](entry.values)):
            return k + 1, "index"
    raise AssertionError("an edge whose two vertices are there")


def loop_value(file, fail, values):
    at = 2
    for _ in range(fail.place - 1):
        at += 5 + 2 * (values[at + 3] or 0)
    if fail.rule == "INDEX":
        return at + 2, "index"
    if fail.rule == "GEOMETRY":
        for k in range(at + 6, at + 6 + 2 * (values[at + 3] or 0), 2):
            entry = file.named(values[k - 1])
            if entry is None or entry.kind in ANY_TOPOLOGY:
                return k, "geometry"
    return at + 1, DUE[502] if values[at - 1] == 1 else DUE[504]


def why(file, number):
    reasons = [("zero", number == 0), ("negative", number < 0), ("even", number % 2 == 0), ("beyond", number not in file.entries)]
    return next((word for word, holds in reasons if holds), "null")


def first_naming(file, solid, number):
    """The first place of a solid that names a shell, a face or a loop."""
    for place, (shell, _) in enumerate(FITTING[186](file.entries[solid].values), 1):
        if shell == number:
            return solid, place
        for face_place, (face, _) in enumerate(FITTING[514](file.entries[shell].values), 1):
            if face == number:
                return shell, face_place
            for loop_place, loop in enumerate(FITTING[510](file.entries[face].values).loops, 1):
                if loop == number:
                    return face, loop_place
    raise AssertionError("a number that is named twice")


def record_facts(file, fail, solid, places):
    if fail.place == 0 and fail.rule in ("ENTRY", "TYPE"):
        facts, due, number = [], DUE[186], fail.entity
    else:
        values = file.entries[fail.entity].values
        k, due = value_of(file, fail)
        number = values[k - 1] if k <= len(values) else None
        facts = [f"value {k} found {spelled(number) if k <= len(values) else 'end'}"]
        facts += places.of_value(fail.entity, k) if is_told("line <line> column") else []
    if fail.rule in ("ENTRY", "TYPE", "RECORD", "GEOMETRY"):
        facts.append(f"due {due}")
    named = file.named(number) if is_integer(number) else None
    if fail.rule == "ENTRY" or fail.rule == "GEOMETRY" and named is None:
        facts.append(f"why {why(file, number)}")
    if fail.rule in ("TYPE", "GEOMETRY") and named is not None:
        facts.append(f"entry {number} {type_word(named.kind)} form {named.form}")
    if fail.rule == "RECORD":
        facts.append(f"values {len(values)}")
    if fail.rule == "ONCE":
        facts.append("first {} item {}".format(*first_naming(file, solid, number)))
    if fail.rule == "INDEX":
        of_list = file.entries[values[k - 2]]
        facts.append(f"list {values[k - 2]} {type_word(of_list.kind)} items {len(FITTING[of_list.kind](of_list.values))}")
    return facts


# the whole text

def units(file):
    """Parameters 14 and 15 of the global; its values begin with parameter 3."""
    values = [*file.globals, *[None] * 13]
    return f"units {spelled(values[11])} {spelled(values[12])}"


def colour(file, entry):
    number = entry.fields[13]
    if number > 0:
        words = ["black", "red", "green", "blue", "yellow", "magenta", "cyan", "white"]
        return f"{number} {words[number - 1] if number <= 8 else 'other'}"
    named = file.named(-number)
    if named is None or named.kind != 314:
        return str(number)
    values = [*named.values, *[None] * 4][:4]
    words = [str(number), *["-" if is_text(value) else spelled(value) for value in values[:3]]]
    return " ".join(words + [spelled(values[3])] if is_text(values[3]) else words)


def is_text(value):
    return isinstance(value, bytes) and not isinstance(value, Real)


def names(file, entry):
    """The texts of the name properties in the second group after the own values; none where the groups aren't laid out so."""
    if entry.kind not in FORMS:
        return []
    try:
        own, _ = topology_layout(entry.kind, entry.values)
        group = groups_of(entry.values, own)[1]
    except Layout:
        return []
    properties = [file.named(number) for number in group if number is not None]
    properties = [named for named in properties if named is not None and (named.kind, named.form) == (406, 15)]
    return [spelled(named.values[1]) for named in properties if len(named.values) > 1 and is_text(named.values[1])]


def entity_facts(file, number, places):
    entry = file.entries[number]
    facts = [(places.of_entity(number), is_told("lines directory"))]
    facts += [(f"level {entry.fields[5]}", entry.fields[5]), (f"colour {colour(file, entry)}", entry.fields[13])]
    facts.append((f"matrix {entry.fields[7]}", entry.fields[7]))
    label = shown_bytes(entry.label).strip(" ")
    facts += [(f"label {label}", label), (f"subscript {entry.fields[19]}", entry.fields[19])]
    told = names(file, entry)
    more = [f"  more {len(told) - LIMIT}"] if len(told) > LIMIT else []
    return ["  " + fact for fact, holds in facts if holds] + [f"  name {name}" for name in told[:LIMIT]] + more


def put_entities(text, file, numbers, places):
    numbers = sorted(number for number in numbers if file.named(number) is not None)
    if numbers:
        text.lines += ["", f"entities {len(numbers)}"]
    for number in numbers:
        entry = file.entries[number]
        line = f"entity {number} {type_word(entry.kind)}"
        if entry.kind == 510 and entry.values and is_integer(entry.values[0]):
            surface = file.named(entry.values[0])
            line += f" surface {entry.values[0]} {type_word(surface.kind)}" if surface is not None else ""
        text.lines += [line, *entity_facts(file, number, places)]


def put_kind_hint(text, named):
    """What an entity is that is no solid."""
    if named is not None and named.kind == 186:
        text.hint(f"other-form form {named.form}")
    elif named is not None and named.kind == 514 and named.form in (1, 2):
        text.hint("shell")


def of_record(text, file, number, fail, path, places):
    text.lines.append(fail.text().decode().strip())
    named = file.named(number)
    is_solid = not (fail.place == 0 and fail.rule in ("ENTRY", "TYPE"))
    if is_solid:
        text.lines.append(units(file))
        if fail.rule == "ENTRY" and (fail.entity, fail.place) == (number, 1) and named.values[0] == 0:
            text.hint("empty-solid")
    else:
        put_kind_hint(text, named)
        solids = [str(solid) for solid in file.solids() if file.named(solid).form == 0]
        shown, more = text.shown(solids, LIMIT)
        text.hint(" ".join(["solids", *shown, *([f"more {more}"] if more else [])]) if solids else "no-solid")
    facts = record_facts(file, fail, number, places)
    path = [("solid", number, None), *path] if is_solid else []
    facts += [f"in {word} {entity}" + ("" if item is None else f" item {item}") for word, entity, item in path]
    text.lines += ["", f"rule {fail.rule} faults 1", *cut(DOC[fail.rule]), f"item {fail.entity} {fail.place}"]
    text.lines += ["  " + fact for fact in facts]
    put_entities(text, file, {number, fail.entity, *(entity for _, entity, _ in path)} if named else {fail.entity}, places)
    return 1


def of_solid(text, file, number, solid, places):
    views = []
    for place in range(1, len(solid.shells) + 1):
        views.append(View(file, solid, place, list(views)))
    failing = [view for view in views if any(view.counts().values())]
    try:
        certificate(file, number)
        text.lines.append(f"closed {number}")
    except Fail as fail:
        text.lines.append(fail.text().decode().strip())
    text.lines += [units(file), f"shells {len(views)} failing {len(failing)}"]
    shown, more = text.shown(failing)
    text.lines += [view.line() for view in shown]
    text.put_more(more)
    put_hints(text, file, solid, failing)
    gap_limit = LIMIT if sum(len(view.gaps) for view in views) > GAP_LIMIT else None
    for view in shown:
        view.put(text, gap_limit)
    put_entities(text, file, {number, *text.named, *(view.shell.entity for view in shown)}, places)
    return 1 if failing else 0


def put_hints(text, file, solid, failing):
    unset = unset_faces(solid) if any(view.unpaired for view in text.shown(failing)[0]) else []
    if unset:
        items = [text.item(f"flag-0 {face.entity} {surface_word(file, face.entity)}", []) for face in unset]
        text.hint(f"face-flags faces {len(unset)}", items if is_told("flag-0") else [])
        return
    if failing:
        put_shell_hints(text, text.shown(failing)[0], Geometry(file, solid))


def whole(text, file, number, places):
    walk = PathWalk(file)
    try:
        solid = walk.solid(number)
    except Fail as fail:
        return of_record(text, file, number, fail, walk.path, places)
    return of_solid(text, file, number, solid, places)


class NamedSizes:
    """The sizes of the loops that an entry's records name, each as often as it is named; a record that doesn't fit names nothing."""

    def __init__(self, file):
        self.file, self.sizes = file, {}

    def of(self, number, kinds):
        if (number, kinds) not in self.sizes:
            self.sizes[number, kinds] = self.counted(number, kinds)
        return self.sizes[number, kinds]

    def counted(self, number, kinds):
        entry = self.file.named(number)
        values = [] if entry is None else entry.values
        if not kinds:
            return len(values) + ENTRY_SIZE if values else 0
        told = FITTING[kinds[0]](values)
        if told is None:
            return 0
        members = told.loops if kinds[0] == 510 else [member for member, _ in told]
        return sum(self.of(member, kinds[1:]) for member in members)


def judged_solids(file, count):
    """The solids of a file of so many bytes that are judged: as long as their sizes together are no more than that."""
    sizes, judged, total = NamedSizes(file), set(), 0
    for number in file.solids():
        size = sizes.of(number, (186, 514, 510))
        if total + size <= count:
            total += size
            judged.add(number)
    return judged


def overview(text, file, places, count):
    judged, lines, failing = judged_solids(file, count), [], 0
    for number in file.solids():
        try:
            if number in judged:
                certificate(file, number)
            verdict = "closed" if number in judged else "unjudged"
        except Fail as fail:
            verdict, failing = fail.text().decode().strip(), failing + 1
        lines += [f"solid {number} {verdict}", *entity_facts(file, number, places)]
    solids = len(file.solids())
    text.lines += [f"solids {solids} failing {failing}", *lines]
    put_unjudged(text, file)
    if solids == 0:
        text.hint("no-solid")
    if len(judged) < solids:
        text.hint(f"unjudged solids {solids - len(judged)}")
    return 0 if solids and not failing and len(judged) == solids else 1


# The types of solids that are made of others.
MADE = 150, 152, 154, 156, 158, 160, 162, 164, 168, 180, 184, 430


def put_unjudged(text, file):
    """What stands beside the solids, and its hints."""
    entries = {number: entry for number, entry in file.entries.items() if entry.kind != 0}
    named = {kind: set() for kind in (186, 514)}
    for entry in entries.values():
        if entry.kind == 514 or entry.kind == 186 and entry.form == 0:
            named[entry.kind].update(number for number, _ in FITTING[entry.kind](entry.values) or ())
    shells = [number for number, entry in entries.items() if entry.kind == 514 and number not in named[186]]
    faces = [number for number, entry in entries.items() if entry.kind == 510 and number not in named[514]]
    put_listed(text, f"unjudged {len(shells)} shell", [shell_fact(number, entries[number]) for number in shells])
    put_listed(text, f"unjudged {len(faces)} face", [f"face {number}" for number in faces])
    counts = {kind: sum(entry.kind == kind for entry in entries.values()) for kind in (143, 144, *MADE)}
    text.lines += [f"unjudged {count} {type_word(kind)}" for kind, count in counts.items() if count]
    hints = {
        "loose-shells": any(entries[number].form in (1, 2) for number in shells),
        "loose-faces": faces,
        "trimmed": counts[143] + counts[144],
        "other-solids": any(counts[kind] for kind in MADE),
    }
    for name, holds in hints.items():
        if holds and name in DOC:
            text.hint(name)


def shell_fact(number, entry):
    listed = FITTING[514](entry.values)
    return f"shell {number} form {entry.form} faces {'-' if listed is None else len(listed)}"


def put_listed(text, head, facts):
    if facts:
        shown, more = text.shown(facts)
        text.lines += [head, *("  " + fact for fact in shown)]
        text.put_more(more, "  ")


def answer(words, data):
    """The status and the text of `igesolid-where` with these words after FILE."""
    text = Text(None if words[1:] == ["all"] else LIMIT)
    try:
        file = File(data)
        places = Places(data, file)
        status = overview(text, file, places, len(data)) if not words else whole(text, file, int(words[0]), places)
    except BadFile as bad:
        text.lines += [f"bad file line {bad.line} {bad.reason}", *cut(DOC[bad.reason])]
        lines, hints = told(data, bad.line, bad.reason)
        text.lines += lines
        for hint in hints:
            text.lines += [f"hint {hint}", *cut(DOC[hint.split(" ")[-1]])]
        status = 3
    return status, "".join(line + "\n" for line in text.lines).encode("latin-1")
