"""The paragraphs of remedies (docs/WHERE.md, section 6): of each step its line, its sentence and its items."""
from .change import EdgeNow
from .where_page import DOC, cut


class Told:
    """What a change is told as, beside the view of its shell."""

    def __init__(self, view, change):
        self.view, self.change, self.faces = view, change, view.shell.faces

    def edge(self, name):
        """A new edge is told by the one that it is like."""
        return self.view.edge(self.change.edges[name.number].like if name.is_new else name.number)

    def vertex(self, name):
        return self.view.vertex(self.change.vertices[name.number].like if name.is_new else name.number)

    # the items of each step

    def removed(self):
        return [f"remove {self.view.face(place)}" for place, face in enumerate(self.change.faces) if face is None]

    def turned(self):
        return [f"turn {self.view.face(place)}" for place, face in self.change.kept() if face.flag != self.faces[place].flag]

    def loops(self):
        """Each loop of a kept face with its face and what it is then."""
        for place, face in self.change.kept():
            for loop, now in zip(self.faces[place].loops, face.loops):
                yield place, loop, now

    def reversed(self):
        return [f"reverse loop {loop.entity} face {self.view.face(place)}" for place, loop, now in self.loops() if now.reversed]

    def flags(self):
        items = []
        for _, loop, now in self.loops():
            found = []
            for place, use in enumerate(now.uses, 1):
                if isinstance(use, EdgeNow) and use.turned:
                    tuple_number = len(now.uses) + 1 - place if now.reversed else place
                    found.append((tuple_number, int(use.along != now.reversed)))
            items += [f"change loop {loop.entity} tuple {number} flag {flag}" for number, flag in found]
        return items

    def seams(self):
        return [f"seam {seam.told} {self.view.edge(seam.taken)} {self.view.edge(seam.left)}" for seam in self.change.seams]

    def copies(self):
        return [f"copy vertex {self.view.vertex(vertex.like)}" for vertex in self.change.vertices]

    def renewed(self):
        return [f"renew {self.view.edge(it.like)} start {self.vertex(it.start)} end {self.vertex(it.end)}" for it in self.change.edges]

    def bodies(self):
        pieces = {}
        for place, face in self.change.kept():
            pieces.setdefault(face.piece, []).append(place)
        if len(pieces) < 2:
            return []
        return [f"body {body} faces {len(faces)} first {self.view.face(faces[0])}" for body, (_, faces) in enumerate(sorted(pieces.items()), 1)]

    def rims(self):
        return [f"rim {place} edges {len(rim.edges)} {self.edge(rim.edges[0].edge)}" for place, rim in enumerate(self.change.rims, 1)]


# The words of a step's line before the number of its items, the name of its sentence, and its items.
STEPS = (
    ("step remove faces", "step-remove", Told.removed),
    ("step turn faces", "step-turn", Told.turned),
    ("step reverse loops", "step-reverse", Told.reversed),
    ("step flags uses", "step-flags", Told.flags),
    ("step sew seams", "step-sew", Told.seams),
    ("step copy vertices", "step-copy", Told.copies),
    ("step renew edges", "step-renew", Told.renewed),
    ("step part bodies", "step-part", Told.bodies),
    ("step fill rims", "step-fill", Told.rims),
)


def put_steps(text, view, change):
    told = Told(view, change)
    for words, sentence, items_of in STEPS:
        items = items_of(told)
        if items:
            text.lines += [f"{words} {len(items)}", *cut(DOC[sentence])]
            text.put_items([text.item(item, []) for item in items])


def put_remedies(text, view, remedies):
    """Writes the remedies of a shell that fails."""
    if not remedies:
        text.hint(f"stuck shell {view.place}")
    shown = remedies[: 6 if text.limit is None else 3]
    for number, remedy in enumerate(shown, 1):
        words = f"remedy {number} shell {view.place}"
        if number == 1:
            text.hint(words)
        else:
            text.lines.append(f"hint {words}")
        put_steps(text, view, remedy.change)
    if len(remedies) > len(shown):
        text.lines.append(f"hint more {len(remedies) - len(shown)}")
