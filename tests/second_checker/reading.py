"""Reading a file: the four passes over its lines (docs/FORMAT.md, sections 2 to 6)."""
from .fields import FieldFault, FreeText, Real, column_number, is_delimiter

LETTERS = b"SGDPT"
ENDING = b"SGDP"
TEXTS = 3, 4, 5, 6, 12, 15, 18, 21, 22, 25, 26
REALS = 13, 17, 19, 20
RECORD_COLUMNS, GLOBAL_COLUMNS = 64, 72


class BadFile(Exception):
    """A line of the file, from 1, and the word of the reason."""

    def __init__(self, line, reason):
        super().__init__(line, reason)
        self.line, self.reason = line, reason


class Lines:
    """The first pass: the lines of the sections S, G, D and P."""

    def __init__(self, text):
        self.pieces = text.split(b"\n")
        if not self.pieces[-1]:
            self.pieces.pop()
        self.sections, self.letter = ([], [], [], []), 0
        for number, piece in enumerate(self.pieces, 1):
            if self.take(number, piece):
                break
        else:
            raise BadFile(len(self.pieces) + 1, "missing")
        for behind in range(number, len(self.pieces)):
            if self.pieces[behind].strip(b" \r"):
                raise BadFile(behind + 1, "after")
        self.starts, self.globals, self.directory, self.params = self.sections

    def take(self, number, piece):
        """Takes the next piece; whether it is the last line, that of the section T."""
        if number == 1 and len(piece) >= 73 and piece[72] in b"BC":
            raise BadFile(number, "not-fixed")
        line = piece[:-1] if piece.endswith(b"\r") else piece
        if len(line) != 80:
            raise BadFile(number, "length")
        letter = LETTERS.find(line[72:73])
        if letter < self.letter:
            raise BadFile(number, "letter")
        if number == 1 and letter != 0 or letter >= 2 and not self.sections[1]:
            raise BadFile(number, "missing")
        self.letter = letter
        place = 1
        if letter < 4:
            self.sections[letter].append(line)
            place = len(self.sections[letter])
        if column_number(line[73:80]) != place:
            raise BadFile(number, "number")
        if letter == 4 and not self.is_counted(line):
            raise BadFile(number, "counts")
        return letter == 4

    def is_counted(self, line):
        """Whether the line of T tells how many lines each section has."""
        fields = [line[at : at + 8] for at in range(0, 32, 8)]
        return all(
            field[0] == letter and column_number(field[1:]) == len(section)
            for field, letter, section in zip(fields, ENDING, self.sections)
        )


def global_of(lines):
    """The second pass: the free format that the file's global sets, and its values from parameter 3 on."""
    before, text = len(lines.starts), b"".join(line[:GLOBAL_COLUMNS] for line in lines.globals)

    def behind_spaces(at):
        while text[at : at + 1] == b" ":
            at += 1
        return at

    def delimiter(at, otherwise):
        at = behind_spaces(at)
        if text[at : at + 2] == b"1H" and at + 2 < len(text):
            return text[at + 2], behind_spaces(at + 3)
        return otherwise, at

    bad, values_at = BadFile(before + 1, "delimiter"), None
    parting, at = delimiter(0, ord(","))
    if text[at : at + 1] == bytes([parting]):
        ending, at = delimiter(at + 1, ord(";"))
        if text[at : at + 1] == bytes([parting]):
            values_at = at + 1
        elif text[at : at + 1] != bytes([ending]):
            raise bad
    elif text[at : at + 1] == b";":
        ending = ord(";")
    else:
        raise bad
    if not is_delimiter(parting) or not is_delimiter(ending) or parting == ending:
        raise bad
    free = FreeText(parting, ending)
    try:
        values = [] if values_at is None else free.values(text, values_at)
    except FieldFault as fault:
        raise BadFile(before + line_of(fault.place, text, GLOBAL_COLUMNS), "global-value") from None
    if not all(is_of_kind(value, number) for number, value in enumerate(values[:24], 3)):
        raise BadFile(before + 1, "global-kind")
    return free, values


def line_of(place, text, columns):
    """The line, from 1, that holds a place of a text of so many columns a line; the last one where it is the text's length."""
    return min(place, len(text) - 1) // columns + 1


def is_of_kind(value, number):
    """Whether a value may be the global parameter of this number."""
    if value is None:
        return True
    if number in TEXTS:
        return isinstance(value, bytes) and not isinstance(value, Real)
    return isinstance(value, int) or number in REALS and isinstance(value, Real)


class Entry:
    """An entry of the directory: its fields by their numbers, and the values of its record without the type number."""

    def __init__(self, first, second):
        numbers = [column_number(line[at : at + 8]) for line in (first, second) for at in range(0, 72, 8)]
        self.fields = dict(zip((*range(1, 10), *range(11, 20)), numbers))
        self.status, self.label = first[64:72], second[56:64]
        self.kind, self.form, self.values = self.fields[1], self.fields[15], []


FIRST_NUMBERS, SECOND_NUMBERS = range(0, 64, 8), (0, 8, 16, 24, 32, 64)


def entries_of(lines):
    """The third pass: the entries of the directory, in order."""
    before, entries = len(lines.starts) + len(lines.globals), []
    for at in range(0, len(lines.directory), 2):
        if at + 1 == len(lines.directory):
            raise BadFile(before + at + 1, "unpaired")
        first, second = lines.directory[at : at + 2]
        is_status = all(byte in b"0123456789 " for byte in first[64:72])
        if not is_status or any(column_number(first[k : k + 8]) is None for k in FIRST_NUMBERS):
            raise BadFile(before + at + 1, "field")
        if any(column_number(second[k : k + 8]) is None for k in SECOND_NUMBERS):
            raise BadFile(before + at + 2, "field")
        entry = Entry(first, second)
        if entry.kind != entry.fields[11]:
            raise BadFile(before + at + 2, "types-differ")
        place, count = entry.fields[2], entry.fields[14]
        if entry.kind != 0 and (place < 1 or count < 1 or place + count - 1 > len(lines.params)):
            raise BadFile(before + at + 2, "range")
        entries.append(entry)
    return entries


class File:
    """A file: its start lines, its global, and its entries by their directory numbers. BadFile where the text is none."""

    def __init__(self, text):
        lines = Lines(text)
        self.starts = [line[:GLOBAL_COLUMNS] for line in lines.starts]
        self.free, self.globals = global_of(lines)
        entries = entries_of(lines)
        before = len(lines.starts) + len(lines.globals) + len(lines.directory)
        self.entries = {2 * place + 1: entry for place, entry in enumerate(entries)}
        for number, entry in self.entries.items():
            if entry.kind != 0:
                entry.values = self.record(number, entry, lines.params, before)

    def record(self, number, entry, params, before):
        """The values of an entry's record: the fourth pass."""
        first = entry.fields[2] - 1
        of_record = params[first : first + entry.fields[14]]
        for place, line in enumerate(of_record, before + first + 1):
            if column_number(line[65:72]) != number:
                raise BadFile(place, "back-pointer")
        text = b"".join(line[:RECORD_COLUMNS] for line in of_record)
        try:
            kind, *values = self.free.values(text)
        except FieldFault as fault:
            raise BadFile(before + first + line_of(fault.place, text, RECORD_COLUMNS), "record-value") from None
        if not isinstance(kind, int) or kind != entry.kind:
            raise BadFile(before + first + 1, "record-type")
        return values

    def named(self, number):
        """The entry that a number names, or None."""
        entry = self.entries.get(number)
        return entry if entry is not None and entry.kind != 0 else None

    def solids(self):
        return [number for number, entry in self.entries.items() if entry.kind == 186]
