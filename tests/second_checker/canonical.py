"""The canonical text of a file (docs/WRITING.md, sections 1 to 3)."""
from .fields import Real

FIRST_FIELDS, SECOND_FIELDS = (3, 4, 5, 6, 7, 8), (12, 13)


def parts_of(values, free, width):
    """What isn't cut across lines, in order, of values with the delimiters behind them."""
    delimiters = [bytes([free.parting])] * (len(values) - 1) + [bytes([free.ending])]
    for value, delimiter in zip(values, delimiters):
        if type(value) is bytes:
            yield from word_parts(b"%dH" % len(value), width)
            yield from (value[at : at + 1] for at in range(len(value)))
            yield delimiter
        else:
            word = b"" if value is None else value if isinstance(value, Real) else b"%d" % value
            yield from word_parts(word + delimiter, width)


def word_parts(word, width):
    yield word[:width]
    yield from (word[at : at + 1] for at in range(width, len(word)))


def filled(values, free, width):
    """The lines of values, in so many columns."""
    lines, line = [], b""
    for part in parts_of(values, free, width):
        if len(line) + len(part) > width:
            lines.append(line.ljust(width))
            line = b""
        line += part
    return [*lines, line.ljust(width)]


def section(letter, lines):
    return [b"%b%b%7d\n" % (line, letter, number) for number, line in enumerate(lines, 1)]


def directory_lines(entry, first, count):
    fields = entry.fields
    status = entry.status.replace(b" ", b"0")
    upper = [entry.kind, first, *(fields[number] for number in FIRST_FIELDS)]
    lower = [entry.kind, fields[12], fields[13], count, entry.form]
    yield b"".join(b"%8d" % number for number in upper) + status
    yield b"".join(b"%8d" % number for number in lower) + b" " * 16 + entry.label + b"%8d" % fields[19]


def text_of(file):
    """The canonical text of a file of start lines, a global, and entries by their directory numbers."""
    free, directory, params = file.free, [], []
    values = [bytes([free.parting]), bytes([free.ending]), *file.globals]
    for number, entry in file.entries.items():
        lines = [b"%b %7d" % (line, number) for line in filled([entry.kind, *entry.values], free, 64)] if entry.kind else []
        directory += directory_lines(entry, len(params) + 1 if lines else 0, len(lines))
        params += lines
    sections = {b"S": file.starts, b"G": filled(values, free, 72), b"D": directory, b"P": params}
    counts = b"".join(b"%b%7d" % (letter, len(lines)) for letter, lines in sections.items()).ljust(72)
    written = [line for letter, lines in sections.items() for line in section(letter, lines)]
    return b"".join([*written, *section(b"T", [counts])])
