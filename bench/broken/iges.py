"""Files of the fixed form, read, changed and written: the six records of a solid as lists, all others word by word, as they are spelled."""
import copy
from dataclasses import dataclass, field

SOLID, SHELL, FACE, LOOP, EDGES, VERTICES = 186, 514, 510, 508, 504, 502
TOPOLOGY = SOLID, SHELL, FACE, LOOP, EDGES, VERTICES
FIRST = "structure", "font", "level", "view", "matrix", "associativity", "status"
SECOND = "weight", "colour", "lines", "form", "reserved", "reserved again", "label", "subscript"


def number(field_text):
    return int(field_text) if field_text.strip() else 0


def words_of(text, parting, ending):
    """The words of a record or of a global; a text with its count is one word."""
    if "H" not in text:
        return [word.strip(" ") for word in text[: text.index(ending)].split(parting)]
    words, at = [], 0
    while True:
        while text[at] == " ":
            at += 1
        end = at
        while text[end].isdigit():
            end += 1
        if end > at and text[end] == "H":
            end += 1 + int(text[at:end])
            word = text[at:end]
            while text[end] == " ":
                end += 1
        else:
            end = at
            while text[end] not in (parting, ending):
                end += 1
            word = text[at:end].rstrip(" ")
        words.append(word)
        if text[end] == ending:
            return words
        at = end + 1


def pairs(numbers):
    return [list(pair) for pair in zip(numbers[::2], numbers[1::2])]


class Values:
    """The values of a record, read one after the other."""

    def __init__(self, words):
        self.words, self.at = words, 0

    def integer(self):
        self.at += 1
        word = self.words[self.at - 1] if self.at <= len(self.words) else ""
        return int(word) if word else 0

    def integers(self, count):
        return [self.integer() for _ in range(count)]


def solid_of(values):
    outer = values.integers(2)
    return [outer, *pairs(values.integers(2 * values.integer()))]


def shell_of(values):
    return pairs(values.integers(2 * values.integer()))


def face_of(values):
    surface, count, flag = values.integers(3)
    return [surface, flag, values.integers(count)]


def loop_of(values):
    uses = []
    for _ in range(values.integer()):
        kind, entry, index, flag, count = values.integers(5)
        uses.append([kind, entry, index, flag, pairs(values.integers(2 * count))])
    return uses


def edges_of(values):
    return [values.integers(5) for _ in range(values.integer())]


def vertices_of(values):
    count = values.integer()
    values.at += 3 * count
    return [values.words[1 + 3 * at : 4 + 3 * at] for at in range(count)]


READERS = {SOLID: solid_of, SHELL: shell_of, FACE: face_of, LOOP: loop_of, EDGES: edges_of, VERTICES: vertices_of}


def flat(items):
    return [value for item in items for value in item]


def values_of(kind, record):
    """The values of a record of the six kinds."""
    if kind == SOLID:
        return [*record[0], len(record) - 1, *flat(record[1:])]
    if kind == FACE:
        surface, flag, loops = record
        return [surface, len(loops), flag, *loops]
    if kind == LOOP:
        return [len(record), *flat([*use[:4], len(use[4]), *flat(use[4])] for use in record)]
    return [len(record), *flat(record)]


@dataclass
class Entry:
    """An entry of the directory. `record` is that of one of the six kinds, and `rest` what follows it; of any other kind `words` has all."""

    number: int
    kind: int
    form: int
    fields: dict
    words: list = field(default_factory=list)
    record: object = None
    rest: list = field(default_factory=list)

    def values(self):
        if self.record is None:
            return self.words
        return [*map(str, values_of(self.kind, self.record)), *self.rest]

    def clear(self):
        """Makes it an entry of type 0."""
        self.kind, self.form, self.words, self.record, self.rest = 0, 0, [], None, []


class File:
    def __init__(self, data):
        by_letter = {letter: [] for letter in "SGDPT"}
        for line in data.decode("latin-1").split("\n"):
            if len(line) > 72:
                by_letter[line[72]].append(line)
        self.start = [line[:72] for line in by_letter["S"]]
        self.read_global("".join(line[:72] for line in by_letter["G"]))
        self.entries = []
        for at in range(0, len(by_letter["D"]), 2):
            self.entries.append(self.entry(at + 1, *by_letter["D"][at : at + 2], by_letter["P"]))

    def read_global(self, text):
        self.parting, rest = (text[2], text[3:].lstrip(" ")) if text.startswith("1H") else (",", text.lstrip(" "))
        rest = rest[1:].lstrip(" ")
        self.ending, rest = (rest[2], rest[3:].lstrip(" ")) if rest.startswith("1H") else (";", rest)
        self.globals = words_of(rest[1:], self.parting, self.ending) if rest[0] == self.parting else []

    def entry(self, own_number, first, second, params):
        fields = {name: first[16 + 8 * at : 24 + 8 * at] for at, name in enumerate(FIRST)}
        fields |= {name: second[8 + 8 * at : 16 + 8 * at] for at, name in enumerate(SECOND)}
        entry = Entry(own_number, number(first[:8]), number(fields["form"]), fields)
        if entry.kind:
            place, count = number(first[8:16]), number(fields["lines"])
            text = "".join(line[:64] for line in params[place - 1 : place - 1 + count])
            entry.words = words_of(text, self.parting, self.ending)[1:]
        if entry.kind in TOPOLOGY:
            values = Values(entry.words)
            entry.record = READERS[entry.kind](values)
            entry.rest, entry.words = entry.words[values.at :], []
        return entry

    def at(self, entry_number):
        return self.entries[entry_number // 2]

    def get(self, entry_number):
        """The record of an entry of the six kinds; what is changed in it is written."""
        return self.at(entry_number).record

    def item(self, entry, index):
        return self.get(entry)[index - 1]

    def solids(self):
        return [entry.number for entry in self.entries if entry.kind == SOLID and entry.form == 0]

    def add(self, kind, form, like, record=None, words=()):
        """Puts an entry behind all, with the fields of another; its number."""
        entry = Entry(2 * len(self.entries) + 1, kind, form, dict(like.fields), list(words), record)
        self.entries.append(entry)
        return entry.number

    def copy(self):
        file = copy.copy(self)
        file.entries = copy.deepcopy(self.entries)
        return file

    def bytes(self):
        first, second, params = [], [], []
        for entry in self.entries:
            words = [str(entry.kind), *entry.values()] if entry.kind else []
            lines = self.filled(words, 64) if words else []
            fields = entry.fields | {"lines": f"{len(lines):8}", "form": f"{entry.form:8}"}
            first.append(f"{entry.kind:8}{len(params) + 1 if lines else 0:8}" + "".join(fields[name] for name in FIRST))
            second.append(f"{entry.kind:8}" + "".join(fields[name] for name in SECOND))
            params += [f"{line:64} {entry.number:7}" for line in lines]
        head = self.filled([f"1H{self.parting}", f"1H{self.ending}", *self.globals], 72)
        sections = {"S": self.start, "G": head, "D": flat(zip(first, second)), "P": params}
        text = [f"{line:72}{letter}{place:7}" for letter, lines in sections.items() for place, line in enumerate(lines, 1)]
        counts = "".join(f"{letter}{len(lines):7}" for letter, lines in sections.items())
        return "".join(f"{line}\n" for line in [*text, f"{counts:72}T{1:7}"]).encode("latin-1")

    def filled(self, words, width):
        """The lines of words with their delimiters, of which only those are cut that are longer than a line."""
        lines, line = [], ""
        for place, word in enumerate(words, 1):
            word += self.ending if place == len(words) else self.parting
            if len(line) + len(word) > width and line:
                lines.append(line)
                line = ""
            while len(word) > width:
                lines.append(word[:width])
                word = word[width:]
            line += word
        return [*lines, line]


# Pointers among the values of other kinds, from 0, in form 0 and in form 1.
POINTERS = {
    108: ([4], [4]), 118: ([0, 1], [0, 1]), 120: ([0, 1], [0, 1]), 122: ([0], [0]), 140: ([4], [4]), 190: ([0, 1], [0, 1, 2]),
    192: ([0, 1], [0, 1, 3]), 194: ([0, 1], [0, 1, 4]), 196: ([0], [0, 2, 3]), 198: ([0, 1], [0, 1, 4]),
}  # fmt: skip


def pointers(entry):
    """Where among the words of an entry of another kind its pointers are."""
    places = POINTERS.get(entry.kind, ([], []))[entry.form == 1]
    if entry.kind == 102:
        places = range(1, 1 + int(entry.words[0] or 0))
    return [at for at in places if at < len(entry.words) and entry.words[at] not in ("", "0")]


def appended(file, other):
    """Puts the entries of another file behind those of this; by how much their numbers rise."""
    rise = 2 * len(file.entries)
    for entry in copy.deepcopy(other.entries):
        entry.number += rise
        for name, sign in ("matrix", 1), ("colour", -1):
            if sign * number(entry.fields[name]) > 0:
                entry.fields[name] = f"{number(entry.fields[name]) + sign * rise:8}"
        raise_numbers(entry, rise)
        file.entries.append(entry)
    return rise


def raise_numbers(entry, rise):
    record = entry.record
    if entry.kind in (SOLID, SHELL):
        for pair in record:
            pair[0] += rise
    elif entry.kind == FACE:
        record[0] += rise
        record[2] = [loop + rise for loop in record[2]]
    elif entry.kind == LOOP:
        for use in record:
            use[1] += rise
            for curve in use[4]:
                curve[1] += rise
    elif entry.kind == EDGES:
        for edge in record:
            for at in (0, 1, 3):
                edge[at] += rise
    elif entry.kind != VERTICES:
        for at in pointers(entry):
            entry.words[at] = str(int(entry.words[at]) + rise)
    if entry.kind in TOPOLOGY:
        entry.rest = []
