"""Where in a file an entry, its record and the values of its record stand (docs/WHERE.md, sections 4 and 5)."""
from .reading import RECORD_COLUMNS, Lines


class Places:
    """The lines of a file, from 1, by what stands in them."""

    def __init__(self, data, file):
        self.lines, self.file = Lines(data), file
        self.before_directory = len(self.lines.starts) + len(self.lines.globals)
        self.before_params = self.before_directory + len(self.lines.directory)

    def of_entity(self, number):
        fields = self.file.entries[number].fields
        first = self.before_params + fields[2]
        return f"lines directory {self.before_directory + number} record {first} {first + fields[14] - 1}"

    def of_value(self, number, k):
        """The facts of the k-th value of a record, from 1."""
        fields = self.file.entries[number].fields
        lines = self.lines.params[fields[2] - 1 : fields[2] - 1 + fields[14]]
        start, end = span_of(self.file.free, b"".join(line[:RECORD_COLUMNS] for line in lines), k)
        place, column = divmod(start, RECORD_COLUMNS)
        marks = "^" * min(end - start, RECORD_COLUMNS - column)
        text = bytes(63 if byte < 32 or byte == 127 else byte for byte in lines[place]).decode("latin-1")
        return f"line {self.before_params + fields[2] + place} column {column + 1}", f"text {text}", f"mark {' ' * column}{marks}"


def span_of(free, text, k):
    """Where the k-th value of a text begins and ends, from 0; of one that is left out its delimiter, and of one behind the end the last."""
    at = 0
    for place in range(k + 1):
        item = free.item(text, at)
        if item[1] is not None:
            value, at = free.text(text, item)
            start, end = item.start(1), item.end() + len(value)
        else:
            start, at = item.start(2), item.end()
            end = start + len(item[2].rstrip(b" "))
        if text[at - 1] == free.ending:
            break
    return (start, end) if place == k and end > start else (at - 1, at)
