"""Random changes of a file, of a certificate's text, and of words."""
import re

from versions import book_of, parts_of


def changed_once(rng, lines):
    """The lines with a change of a number, a byte or their order."""
    i, j = rng.randrange(len(lines)), rng.randrange(len(lines))
    numbers = list(re.finditer(rb"\d+", lines[i]))
    change = rng.choice(["number", "number", "number", "byte", "drop", "twice", "swap", "reach", "long", "cut"])
    if change == "number" and numbers:
        number = rng.choice(numbers)
        value = max(0, rng.choice([int(number.group()) + 1, int(number.group()) - 1, rng.randrange(30), 10**9]))
        lines[i] = lines[i][: number.start()] + str(value).encode() + lines[i][number.end() :]
    elif change == "byte" and lines[i]:
        at = rng.randrange(len(lines[i]))
        lines[i] = lines[i][:at] + bytes([rng.choice(b"0123456789 ECIRPBFOSNDTALY\r\n")]) + lines[i][at + 1 :]
    elif change == "drop":
        del lines[i]
    elif change == "twice":
        lines.insert(i, lines[i])
    elif change == "swap":
        lines[i], lines[j] = lines[j], lines[i]
    elif change == "reach":
        places = [at for at, line in enumerate(lines) if line.startswith(b"R ")]
        for at, line in zip(places, rng.sample([lines[at] for at in places], len(places))):
            lines[at] = line
    elif change == "long":
        lines[i] += b" 1" * rng.choice([1, 20, 400])
    elif change == "cut":
        del lines[i:]


def changed(rng, certificate):
    """The certificate with one to three changes."""
    for _ in range(rng.randint(1, 3)):
        lines = certificate.split(b"\n")
        changed_once(rng, lines)
        certificate = b"\n".join(lines)
    return certificate


def changed_book(rng, book):
    """The book with a part left out, there twice or elsewhere, or with changes of its lines, or with both."""
    parts = parts_of(book)
    change = rng.choice(["out", "twice", "swap", "none", "none"])
    i, j = rng.randrange(len(parts)), rng.randrange(len(parts))
    if change == "out":
        del parts[i]
    elif change == "twice":
        parts.insert(j, parts[i])
    elif change == "swap":
        parts[i], parts[j] = parts[j], parts[i]
    book = book_of(parts)
    return book if change != "none" and rng.random() < 0.5 else changed(rng, book)


FILE_BYTES = b"0123456789,;.-+ DHEdhSGPT\r\n"
FIELD_VALUES = -1, 0, 1, 2, 3, 186, 502, 504, 508, 510, 514
RECORD_COLUMNS, GLOBAL_COLUMNS = 64, 72


def with_number(rng, line, last):
    """The line with one of the numbers of its first columns changed, and its other columns where they were."""
    numbers = list(re.finditer(rb"\d+", line[:last]))
    if not numbers:
        return line
    number = rng.choice(numbers)
    value = int(number.group())
    value = rng.choice([value + 1, value - 1, -value, 0, 1, 2, rng.randrange(80), 10**20])
    text = line[: number.start()] + str(value).encode() + line[number.end() : last]
    text = text.rstrip(b" ").ljust(last)
    return text + line[last:] if len(text) == last else line


def with_field(rng, line):
    """A directory line with one of its fields changed."""
    at = 8 * rng.randrange(9)
    value = rng.choice([*FIELD_VALUES, rng.randrange(80), -rng.randrange(80)])
    return line[:at] + str(value).encode().rjust(8) + line[at + 8 :]


def with_value(rng, line):
    """A line of a record or of the global with one value in another spelling, left out, there twice, or beside a delimiter more."""
    last = RECORD_COLUMNS if line[72:73] == b"P" else GLOBAL_COLUMNS
    values = line[:last].rstrip(b" ").split(b",")
    at = rng.randrange(len(values))
    value = values[at]
    values[at] = rng.choice([b"", value + b"," + value, b" " + value + b" ", b"+" + value, b"0" + value, value + b".", b"2H,;", b"1HA", value + b"E1", value + b";", value.rstrip(b";")])
    text = b",".join(values).ljust(last)
    return text + line[last:] if len(text) == last else line


def with_byte(rng, line, choice):
    at = rng.randrange(len(line))
    return line[:at] + bytes([rng.choice(choice)]) + line[at + 1 :]


def lines_of_section(lines, letters):
    return [number for number, line in enumerate(lines) if len(line) == 80 and line[72:73] in letters]


def changed_line(rng, lines):
    """The lines of a file with a change of one of them, or of their order."""
    change = rng.choice(["number", "number", "number", "field", "field", "value", "byte", "any byte", "drop", "twice", "swap", "return", "cut"])
    letters = {"number": [b"P"], "field": [b"D"], "value": [b"P", b"P", b"G"]}.get(change)
    of_section = lines_of_section(lines, letters) if letters else range(len(lines))
    if not of_section:
        return
    i, j = rng.choice(of_section), rng.randrange(len(lines))
    if change == "number":
        lines[i] = with_number(rng, lines[i], RECORD_COLUMNS)
    elif change == "field":
        lines[i] = with_field(rng, lines[i])
    elif change == "value":
        lines[i] = with_value(rng, lines[i])
    elif change in ("byte", "any byte") and lines[i]:
        lines[i] = with_byte(rng, lines[i], FILE_BYTES if change == "byte" else range(256))
    elif change == "drop" and len(lines) > 1:
        del lines[i]
    elif change == "twice":
        lines.insert(i, lines[i])
    elif change == "swap":
        lines[i], lines[j] = lines[j], lines[i]
    elif change == "return":
        lines[i] += b"\r"
    elif change == "cut":
        lines[i:] = [lines[i][: rng.randrange(len(lines[i]) + 1)]]


def with_small_number(rng, line):
    """A line of a record with a number, not its first, turned from 0 to 1 or back, one more or less, or exchanged with another."""
    text = line[:RECORD_COLUMNS]
    numbers = [number for number in re.finditer(rb"(?<![\d.H])\d+(?![\d.H])", text) if number.start() > 0]
    if not numbers:
        return line
    number, other = rng.choice(numbers), rng.choice(numbers)
    value = int(number.group())
    told = {number.span(): rng.choice([b"%d" % (1 - value if value < 2 else value + 2), b"%d" % (value + 1), b"%d" % max(0, value - 1)])}
    if rng.random() < 0.4:
        told = {number.span(): other.group(), other.span(): number.group()}
    for (first, last), word in sorted(told.items(), reverse=True):
        text = text[:first] + word + text[last:]
    text = text.rstrip(b" ").ljust(RECORD_COLUMNS)
    return text + line[RECORD_COLUMNS:] if len(text) == RECORD_COLUMNS else line


def without_face(rng, line):
    """A line that holds the record of a shell, with one of its faces left out."""
    record = re.match(rb"514,(\d+),((?:\d+,[01],?)+);", line)
    faces = re.findall(rb"\d+,[01]", record.group(2)) if record else []
    if len(faces) < 2 or len(faces) != int(record.group(1)):
        return line
    del faces[rng.randrange(len(faces))]
    text = b"514,%d,%b;" % (len(faces), b",".join(faces)) + line[record.end() : RECORD_COLUMNS]
    return text.ljust(RECORD_COLUMNS) + line[RECORD_COLUMNS:]


def changed_file(rng, file):
    """The file with one to three changes of a number, a field, a value, a byte or the lines; now and then with CR before each LF.

    Half of the files keep their form: there only small numbers of records are changed, or a shell loses a face.
    """
    is_gentle = rng.random() < 0.5
    for _ in range(rng.randint(1, 3)):
        lines = file.split(b"\n")
        of_records = lines_of_section(lines, [b"P"])
        if is_gentle and of_records:
            i = rng.choice(of_records)
            lines[i] = with_small_number(rng, lines[i])
            shells = [number for number in of_records if lines[number].startswith(b"514,")]
            if shells and rng.random() < 0.2:
                i = rng.choice(shells)
                lines[i] = without_face(rng, lines[i])
        else:
            changed_line(rng, lines)
        file = b"\n".join(lines)
    return file.replace(b"\n", b"\r\n") if rng.random() < 0.05 else file


def changed_words(rng, words):
    """The words with one left out, there twice, elsewhere or in another spelling."""
    words = list(words)
    i, j = rng.randrange(len(words)), rng.randrange(len(words))
    change = rng.choice(["out", "twice", "swap", "spelling", "number"])
    if change == "out":
        del words[i]
    elif change == "twice":
        words.insert(i, words[j])
    elif change == "swap":
        words[i], words[j] = words[j], words[i]
    elif change == "spelling":
        words[i] = rng.choice([words[i] + " ", " " + words[i], words[i].upper(), words[i][:-1], "", words[i] + words[i], "--" + words[i], words[i] + "\u00e9"])
    else:
        words[-1] = rng.choice(["0", "00", "1", "01", "0000001", "00000001", "9999999", "10000000", "+1", "-1", "1.", "0x1", "all", "All", "", "999999999999999999999"])
    return words
