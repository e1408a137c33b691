"""What `igesolid-repair` owes for the bytes of a file (docs/REPAIR.md)."""
import re

BLANK = b"\x00\t\x0c\r\x1a "
AS_SPACES = bytes.maketrans(BLANK, b" " * len(BLANK))
NUMBER = b"0123456789+-" + BLANK
SECTIONS = b"SGDPT"
TERMINATE = 4
MOST_LINES = 9_999_999
MOST_BYTES = 164_000_000
FEWER = "fewer-S", "fewer-G", "fewer-D", "fewer-P"
KINDS = "mark", "blank", "end", "letter", "past", "number", "ahead", "counts", *FEWER, "after"
USAGE = b"usage: igesolid-repair relayout FILE | layout FILE | reorient FILE N | mend FILE N [R] | mended FILE N [R]\n"


class BadLayout(Exception):
    """The line whose content can't be told apart, and why."""


def section(text, at):
    """The place of the section that the letter at a place names, in lower case too; None past the end and for another byte."""
    place = SECTIONS.find(text[at : at + 1].upper())
    return None if place < 0 or at >= len(text) else place


def pieces(data):
    """Each piece, whether LF ends it, and the bytes after it and its end. After the last end is a piece only if there are bytes."""
    end = b"\n" if b"\n" in data else b"\r"
    while data:
        piece, found, after = data.partition(end)
        yield piece, found == b"\n", after
        data = after


def unmarked(piece):
    """The line without a byte order mark or a form feed, if the letter is in column 73 after it."""
    if section(piece, 75) is not None and piece[:3] == b"\xef\xbb\xbf":
        return piece[3:]
    if section(piece, 73) is not None and piece[:1] == b"\x0c":
        return piece[1:]
    return piece


def line_fault(line):
    if len(line) < 73:
        return "short"
    if section(line, 72) is None:
        return "letter"
    if line[73:80].strip(NUMBER):
        return "number"
    return "long" if line[80:].strip(BLANK) else None


def named(piece, fault):
    """A plainer word where the piece shows one."""
    if piece[:2] in (b"\xff\xfe", b"\xfe\xff"):
        return "utf16"
    if piece[:2] == b"\x1f\x8b":
        return "gzip"
    return "tab" if b"\t" in piece else fault


def section_fault(counts, place):
    if any(counts[place + 1 :]):
        return "order"
    if place == 1 and not counts[0] or place > 1 and not counts[1]:
        return "missing"
    return "many" if place < TERMINATE and counts[place] >= MOST_LINES else None


def number_in(field):
    """The number that the columns hold: spaces, a sign, digits, spaces; spaces alone are 0."""
    if not field.strip(b" "):
        return 0
    found = re.fullmatch(rb" *([+-]?[0-9]+) *", field)
    return int(found[1]) if found else None


def number_read(field):
    """The number, whatever blank bytes are around it; 0 where there is none, or one below 0."""
    return max(0, number_in(field.translate(AS_SPACES)) or 0)


def count_fields(counts):
    return b"".join(SECTIONS[k : k + 1] + b"%7d" % counts[k] for k in range(TERMINATE))


def has_counts(counts, line):
    fields = [line[8 * k : 8 * k + 8] for k in range(TERMINATE)]
    return all(field[:1] == SECTIONS[k : k + 1] and number_in(field[1:]) == counts[k] for k, field in enumerate(fields))


def fewer(counts, line):
    """For each section whether the terminate line counts more of its lines than there are."""
    fields = [line[8 * k : 8 * k + 8] for k in range(TERMINATE)]
    return [field[:1].upper() == SECTIONS[k : k + 1] and number_read(field[1:]) > counts[k] for k, field in enumerate(fields)]


def shuffled(lines):
    """The first line whose number isn't its place, where the numbers are the places in another order; None where they aren't."""
    strays = [(line, place, number) for place, (line, number) in enumerate(lines, 1) if number != place]
    places, numbers = [place for _, place, _ in strays], [number for _, _, number in strays]
    return strays[0][0] if strays and sorted(numbers) == places else None


class Relaid:
    """The text of the file, and for each kind of change the numbers of its lines; or BadLayout is raised."""

    def __init__(self, data):
        self.counts, self.text, self.changed = [0] * TERMINATE, [], {kind: [] for kind in KINDS}
        # Of each section, which lines of the file they are, and their numbers.
        self.numbers = [[] for _ in range(TERMINATE)]
        self.take_all(data)
        for line in filter(None, map(shuffled, self.numbers)):
            raise BadLayout(line, "shuffled")

    def take_all(self, data):
        number = 1
        for piece, feed, after in pieces(data):
            if self.take(number, piece, feed):
                self.changed["after"] = [number + 1] * len(after)
                return
            number += 1
        if not self.counts[-1]:
            raise BadLayout(number, "missing")
        self.changed["counts"].append(number)
        self.text.append(count_fields(self.counts) + b" " * 40 + b"T      1\n")

    def take(self, number, piece, feed):
        """Takes a piece; whether it is the terminate line."""
        line = unmarked(piece)
        if not line.strip(BLANK):
            self.changed["blank"].append(number)
            return False
        fault = line_fault(line)
        if fault:
            raise BadLayout(number, named(piece, fault))
        place = section(line, 72)
        fault = section_fault(self.counts, place)
        if fault:
            raise BadLayout(number, fault)
        self.put(number, piece, line, place, feed)
        if place == TERMINATE:
            return True
        self.numbers[place].append((number, number_read(line[73:80])))
        self.counts[place] += 1
        return False

    def put(self, number, piece, line, place, feed):
        wanted = 1 if place == TERMINATE else self.counts[place] + 1
        kept = len(line) >= 80 and number_in(line[73:80]) == wanted
        counted = place < TERMINATE or has_counts(self.counts, line)
        happened = {
            "mark": line != piece,
            "end": not feed or piece.endswith(b"\r"),
            "letter": line[72:73].islower(),
            "past": bool(line[80:].strip(b"\r")),
            "number": not kept,
            "ahead": number_read(line[73:80]) > wanted,
            "counts": not counted,
            **dict(zip(FEWER, fewer(self.counts, line) if place == TERMINATE else [False] * TERMINATE)),
        }
        for kind, it in happened.items():
            if it:
                self.changed[kind].append(number)
        content = line[:72] if counted else count_fields(self.counts) + b" " * 40
        self.text.append(content + SECTIONS[place : place + 1] + (line[73:80] if kept else b"%7d" % wanted) + b"\n")


def report(changed):
    return b"".join(b"%s %d line %d\n" % (kind.encode(), len(lines), lines[0]) for kind, lines in changed.items() if lines)


def answer(command, data):
    """The status and the text that are owed."""
    if len(data) > MOST_BYTES:
        return 8, b""
    try:
        relaid = Relaid(data)
    except BadLayout as fault:
        return 3, b"bad layout line %d %s\n" % (fault.args[0], fault.args[1].encode())
    text = b"".join(relaid.text)
    if len(text) > MOST_BYTES:
        return 8, b""
    if command == "relayout":
        return 0, text
    return (0, b"in layout\n") if text == data else (1, report(relaid.changed))
