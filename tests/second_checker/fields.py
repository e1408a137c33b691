"""Numbers in columns, and the free format (docs/FORMAT.md, sections 2 and 4)."""
import re

IN_COLUMNS = re.compile(rb" *(?:[+-]?[0-9]+ *)?").fullmatch
INTEGER = re.compile(rb"[+-]?[0-9]+").fullmatch
REAL = re.compile(rb"[+-]?(?:[0-9]+(?:\.[0-9]*)?|\.[0-9]+)(?:[EDed][+-]?[0-9]+)?").fullmatch
LEAST, MOST = -(1 << 63), (1 << 63) - 1
NO_DELIMITERS = frozenset(b"0123456789+-.DEHdeh")


def column_number(field):
    """The number of a field of at most eight columns, or None."""
    if IN_COLUMNS(field) is None:
        return None
    field = field.strip(b" ")
    return int(field) if field else 0


def is_delimiter(byte):
    return 33 <= byte <= 126 and byte not in NO_DELIMITERS


class FieldFault(Exception):
    """The place in a free text, from 0, of the first item that is wrong."""

    def __init__(self, place):
        super().__init__(place)
        self.place = place


class Real(bytes):
    """A real is its word and is never computed with. A text is plain bytes."""


def integer_of(word):
    """The integer of a word of digits, or None where it needs more than 64 signed bits."""
    digits = word.lstrip(b"+-").lstrip(b"0")
    if len(digits) > 19:
        return None
    number = int(digits) if digits else 0
    number = -number if word.startswith(b"-") else number
    return number if LEAST <= number <= MOST else None


def value_of(word, place):
    """The value of a word that is no text: None where it is left out, an integer or a real."""
    if not word:
        return None
    if INTEGER(word):
        number = integer_of(word)
        if number is None:
            raise FieldFault(place)
        return number
    if REAL(word):
        return Real(word)
    raise FieldFault(place)


class FreeText:
    """Free format with two delimiters, which part values and end them."""

    def __init__(self, parting, ending):
        self.parting, self.ending = parting, ending
        either = b"".join(b"\\x%02x" % byte for byte in (parting, ending))
        # Digits before an H; or any other word up to the next delimiter, with the spaces at its end, and the delimiter.
        self.item = re.compile(b" *(?:([0-9]+)H|([^" + either + b"]*)([" + either + b"]))").match
        self.spaces = re.compile(b" *").match

    def values(self, text, start=0):
        """The values of the text from a place on; FieldFault where it holds none."""
        values, at, end = [], start, None
        while end != self.ending:
            item = self.item(text, at)
            if item is None:
                raise FieldFault(len(text))
            if item.group(1) is not None:
                value, at = self.text(text, item)
            else:
                value, at = value_of(item.group(2).rstrip(b" "), item.start(2)), item.end()
            values.append(value)
            end = text[at - 1]
        return values

    def text(self, text, item):
        """The bytes of a text, and the place behind the delimiter after it."""
        digits, first = item.group(1).lstrip(b"0"), item.end()
        left = len(text) - first
        count = int(digits or b"0") if len(digits) < 19 else left + 1
        if count > left:
            raise FieldFault(item.start(1))
        at = self.spaces(text, first + count).end()
        if at == len(text):
            raise FieldFault(at)
        if text[at] not in (self.parting, self.ending):
            raise FieldFault(item.start(1))
        return text[first : first + count], at + 1
