"""The line of a bad file that fails, as it stands there, and what it or the file looks like (docs/WHERE.md, section 4)."""

# The columns of which a reason speaks, and how many they are.
FIELDS = {"letter": (73, 1), "number": (74, 7), "types-differ": (1, 8), "range": (25, 8), "back-pointer": (66, 7), "record-type": (1, 8)}
OF_LINES = "not-fixed", "length", "letter", "number", "counts", "missing", "after"
BEGINNINGS = {
    "gzip": [b"\x1f\x8b"],
    "zip": [b"PK\x03\x04"],
    "pdf": [b"%PDF"],
    "utf-16": [b"\xff\xfe", b"\xfe\xff"],
    "byte-order-mark": [b"\xef\xbb\xbf"],
    "certificate": [b"IGESCERT ", b"IGESOPEN ", b"ORIENT "],
    "brep": [b"DBRep_DrawableShape", b"CASCADE Topology"],
    "parasolid": [b"**ABCDEFGHIJ"],
    "dwg": [b"AC10"],
    "stl": [b"solid "],
}
WORDS = {"step": b"ISO-10303-21", "markup": b"<"}


def whole_kind(data):
    if not data:
        return "empty"
    word = data[:4096].lstrip(b" \t\n\r")
    kinds = [kind for kind, starts in BEGINNINGS.items() if any(data.startswith(start) for start in starts)]
    kinds += [kind for kind, start in WORDS.items() if word.startswith(start)]
    return kinds[0] if kinds else None


def kinds_of_length(line, is_last):
    """What may have been done to a line that hasn't 80 bytes, each with whether it holds."""
    letters = line[72:73], line[152:153]
    yield "no-line-ends", len(line) >= 160 and letters in ((b"S", b"S"), (b"S", b"G"))
    yield "two-crs", len(line) == 81 and line.endswith(b"\r")
    yield "cr-alone", b"\r" in line
    yield "tabs", b"\t" in line
    yield "utf-8", any(byte > 127 for byte in line) and sum(not 128 <= byte < 192 for byte in line) == 80
    yield "no-numbers", len(line) == 72
    yield "blank", not line.strip(b" ")
    yield "cut-off", is_last and len(line) < 80


def kinds_behind(line):
    yield "control-z", set(line) <= set(b"\x1a \r")
    yield "nuls", set(line) <= set(b"\0 \r")
    yield "second-file", len(line) == 80 and line[72:73] == b"S"


def line_kind(reason, line, is_last):
    kinds = {
        "after": kinds_behind(line),
        "letter": [("lower-case", line[72:73] in (b"s", b"g", b"d", b"p", b"t"))],
        "length": kinds_of_length(line, is_last),
    }
    return next((kind for kind, holds in kinds.get(reason, ()) if holds), None)


def shown(line):
    return bytes(63 if byte < 32 or byte == 127 else byte for byte in line).decode("latin-1")


def line_of(data, number):
    """The bytes of a line, and the word for its end; None where the file ends before it."""
    rest = data
    for _ in range(number - 1):
        rest = rest.partition(b"\n")[2]
    if not rest:
        return None
    piece, feed, _ = rest.partition(b"\n")
    line = piece[:-1] if piece.endswith(b"\r") else piece
    ends = {(True, False): "lf", (True, True): "crlf", (False, True): "cr", (False, False): "none"}
    return line, ends[bool(feed), line != piece]


def facts(line, reason):
    if not line:
        return
    column, width = FIELDS.get(reason, (None, 0))
    start = (column or 1) - 1
    yield "hex" + "".join(f" {byte:02x}" for byte in line[start : start + 16])
    if column:
        yield f"column {column}"
    yield f"text {shown(line[:80])}"
    if column:
        yield "mark " + " " * (column - 1) + "^" * width


def told(data, number, reason):
    """The head line of a bad line and its facts, and the names of the hints."""
    lines, look = [], None
    found = line_of(data, number)
    if found:
        line, end = found
        lines = [f"line {number} bytes {len(line)} end {end}", *("  " + fact for fact in facts(line, reason))]
        look = line_kind(reason, line, end in ("cr", "none"))
    if number == 1 and reason in ("not-fixed", "length", "letter", "missing"):
        look = whole_kind(data) or look
    hints = [f"looks-like {look}"] if look else []
    return lines, hints + (["layout"] if reason in OF_LINES else [])
