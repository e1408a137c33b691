"""Reading an IGES file: lines, directory entries, and the values of records as they are spelled.

The file is one that the proved program has read, so little is checked here. Sources: IGES 5.3, sections 2.2.2 (free format),
2.2.4.3 (global section), 2.2.4.4 (directory entry) and 2.2.4.5 (parameter data)."""
import re
from typing import Dict, List, NamedTuple, Tuple

RECORD_COLUMNS = 64
TEXT_BEGINS = re.compile(rb" *([0-9]+)H").match
DELIMITERS_TOLD = re.compile(rb" *(?:1H(.))? *(.) *(?:1H(.))?", re.DOTALL).match


class Unreadable(Exception):
    """What can't be read or drawn, in words."""


class Entry(NamedTuple):
    """A directory entry: its number, the type, the first line of its record in section P (from 1), the number of lines, the matrix, the form."""

    number: int
    kind: int
    first: int
    lines: int
    matrix: int
    form: int


def lines_of(text: bytes) -> List[bytes]:
    """The lines of a file, without their ends."""
    lines = text.split(b"\n")
    if not lines[-1]:
        lines.pop()
    return [line[:-1] if line.endswith(b"\r") else line for line in lines]


def integer(spelled: bytes) -> int:
    """The integer that is spelled so, 0 if it is left out; Unreadable of any other value."""
    try:
        return int(spelled or b"0")
    except ValueError:
        raise Unreadable("a value that should be an integer") from None


class File:
    """The entries of a file by their directory numbers, and their values."""

    def __init__(self, lines: List[bytes]):
        letters = bytes(line[72] if len(line) > 72 else 0 for line in lines)
        self.lines = lines
        starts, globals_ = letters.count(b"S"), letters.count(b"G")
        self.directory_at = starts + globals_
        self.records_at = self.directory_at + letters.count(b"D")
        self.globals = lines[starts : self.directory_at]
        self.parting, self.ending = delimiters_of(b"".join(line[:72] for line in self.globals))
        self.delimiter = re.compile(b"[" + re.escape(self.parting + self.ending) + b"]")
        self.entries: Dict[int, Entry] = {}
        self.spelled: Dict[int, List[bytes]] = {}

    def entry(self, number: int) -> Entry:
        """The entry of this number; Unreadable if there is none."""
        found = self.entries.get(number)
        if found is None:
            at = self.directory_at + number - 1
            if number % 2 == 0 or not self.directory_at <= at < self.records_at - 1:
                raise Unreadable(f"entity {number}, which isn't in the directory")
            one, two = self.lines[at], self.lines[at + 1]
            fields = one[0:8], one[8:16], two[24:32], one[48:56], two[32:40]
            found = self.entries[number] = Entry(number, *(integer(field.strip()) for field in fields))
        return found

    def record(self, number: int) -> bytes:
        """The text of an entry's record."""
        entry = self.entry(number)
        at = self.records_at + entry.first - 1
        return b"".join(line[:RECORD_COLUMNS] for line in self.lines[at : at + entry.lines])

    def pieces(self, number: int) -> List[bytes]:
        """The type number and the values of a record, each with the spaces around it; a delimiter follows each."""
        text, at = self.record(number), 0
        pieces: List[bytes] = []
        if b"H" not in text:
            return text.split(self.ending, 1)[0].split(self.parting)
        while True:
            begins = TEXT_BEGINS(text, at)
            found = self.delimiter.search(text, begins.end() + int(begins[1]) if begins else at)
            end = found.start() if found else len(text)
            pieces.append(text[at:end])
            if found is None or found[0] == self.ending:
                return pieces
            at = end + 1

    def values(self, number: int) -> List[bytes]:
        """The values of an entry's record as they are spelled, without the type number; empty where one is left out."""
        found = self.spelled.get(number)
        if found is None:
            found = self.spelled[number] = [piece.strip(b" ") for piece in self.pieces(number)[1:]]
        return found


def delimiters_of(text: bytes) -> Tuple[bytes, bytes]:
    """The delimiters of values and of records that the global section sets: its parameters 1 and 2."""
    told = DELIMITERS_TOLD(text)
    parting = told[1] or b"," if told else b","
    after = told[3] if told and told[2] == parting else None
    return parting, after or b";"
