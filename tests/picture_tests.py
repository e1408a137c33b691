"""`marks`: the text of `igesolid-where` is read by its grammar, and marks are a file. Many checks are on texts in tests/recorded, which
`igesolid-where` prints still; others on files made at random."""
import pathlib
import random
import subprocess
import sys

import remedies
from sample_file import text_of
from spawned import SECONDS
from surfaces import surface_text

TOP = pathlib.Path(__file__).resolve().parent.parent
RECORDED = TOP / "tests" / "recorded"

# A program whose text has a line that isn't one of igesolid-where.
ODD = """#!/bin/sh
echo 'fail PAIR 1 1'
echo 'a line of another shape'
exit 1
"""


def example(name):
    """The path of the example that a text was recorded of."""
    return next((TOP / "examples").rglob(f"{name}.igs"))


def load():
    """The modules for pictures, imported in this part's process alone, for another imports those of a copy."""
    global iges, overlay, solids
    if str(TOP / "python") not in sys.path:
        sys.path.insert(0, str(TOP / "python"))
    from igesolid.pictures import iges, overlay, solids


def recorded():
    """The name and the number of each recorded text, the text, and the file's lines."""
    load()
    for path in sorted(RECORDED.glob("*.txt")):
        name, number = path.stem.rsplit(".", 1)
        yield name, int(number), path.read_text(), iges.lines_of(example(name).read_bytes())


def parts_of(text):
    """A text of where, read into its parts."""
    from igesolid.where import Where

    read = Where(text)
    read.parts
    return read


def is_understood(text):
    from igesolid.where import NotUnderstood

    try:
        parts_of(text)
    except NotUnderstood:
        return False
    return True


def grammar():
    """Each line of the texts has a shape, and no longer has it with a word more or a letter changed."""
    for name, number, text, _ in recorded():
        answer = parts_of(text)
        yield f"pictures: {name} {number} is understood", answer.is_closed or len(answer.rules) > 0 or answer.is_bad_file
        listed = sum(len(rule.items) + rule.more for rule in answer.rules if rule.name in ("JOIN", "PAIR", "LINK", "APART"))
        wanted = sum(rule.number("faults") for rule in answer.rules if rule.name in ("JOIN", "PAIR", "LINK", "APART"))
        yield f"pictures: {name} {number} has its faults", listed == wanted
        lines = text.split("\n")
        for place, line in enumerate(lines):
            is_free = "found " in line or line.startswith(("units ", "  name ", "  label ", "  colour ", "  text ")) or is_sentence(lines, place)
            if line and not is_free:
                changed = "\n".join([*lines[:place], f"{line} x", *lines[place + 1 :]])
                yield f"pictures: {name} {number} with a word more: {line}", not is_understood(changed)
    wrong = "", "closed", "closed 01\n", "fail PAIRS 1 2\n", "fail PAIR 1 2\n", "closed 1\nunits 2\n", "closed 1\n\nrule PAIR shell 1\n", "bad file line 3\n", "usage: igesolid-where\n"
    for text in wrong:
        yield f"pictures: no text: {text!r}", not is_understood(text)


def is_sentence(lines, place):
    """Whether a line is a part of a sentence, which follows a rule, a hint or a bad file."""
    if not lines[place].startswith("  "):
        return False
    while lines[place].startswith("  "):
        place -= 1
    return lines[place].startswith(("rule ", "hint ", "step ", "bad "))


def values():
    """Values as they are spelled, with texts that hold delimiters."""
    record = b"406,3,7Ha,b;c,d , 12 ,,1.5D2", b"34;comment"
    directory = b"     406       1".ljust(72), b"     406       0       0       2".ljust(72)
    sections = (b"S", [b""]), (b"G", [b"1H,,1H;;"]), (b"D", directory), (b"P", [b"%-65s%7d" % (it.rjust(64), 1) for it in record]), (b"T", [b""])
    file = iges.File([b"%-72s%s%7d" % (line, letter, place) for letter, lines in sections for place, line in enumerate(lines, 1)])
    spaces = b" " * (64 - len(record[1]))
    yield "pictures: values", file.values(1) == [b"3", b"7Ha,b;c,d", b"12", b"", b"1.5D2" + spaces + b"34"]


def changed(rng, data):
    """A file with some bytes changed, in records of curves, matrices and vertices and in the matrix fields of curves' entries alone."""
    lines = data.split(b"\n")
    file = iges.File(iges.lines_of(data))
    places = []
    for at in range(file.directory_at, file.records_at, 2):
        entry = file.entry(at - file.directory_at + 1)
        if entry.kind < 186 or entry.kind == 502:
            records = range(file.records_at + entry.first - 1, file.records_at + entry.first - 1 + entry.lines)
            places += [(at, 48)] * 8 + [(line, column) for line in records for column in range(4, 64)]
    for place, column in rng.sample(places, rng.randint(1, 6)):
        new = b"%8d" % rng.randrange(-9, 99) if place < file.records_at else rng.choice([b"9", b",", b";", b"E", b"-", b".", b"H", b" "])
        lines[place] = lines[place][:column] + new + lines[place][column + len(new) :]
    return b"\n".join(lines)


def random_geometry():
    """Whatever geometry holds, there are marks."""
    rng, held, count = random.Random(126), 0, 0
    for name, number, text, lines in recorded():
        answer, data = parts_of(text), example(name).read_bytes()
        if not answer.shells:
            continue
        for _ in range(40):
            bad = iges.lines_of(changed(rng, data))
            held += len(overlay.marks_of("", number, answer, bad)[0]) > 0
            count += 1
    yield "pictures: geometry changed at random", held == count > 0


def run_command(program, *words, **how):
    """What `marks` gives of a program's text: the status, standard output and standard error."""
    how = {"stdin": subprocess.DEVNULL, "stdout": subprocess.PIPE, "stderr": subprocess.PIPE, "timeout": SECONDS, **how}
    done = subprocess.run([TOP / "companion" / "marks", "--program", program, *words], **how)
    return done.returncode, done.stdout, done.stderr.decode()


def commands(folder, where):
    """The statuses and what is said."""
    pinched = example("77_pinched_edge")
    for name, number, status in (("cube", 1, 0), ("77_pinched_edge", 3, 1), ("bad_length", 1, 3)):
        yield f"marks of {name}", run_command(where, example(name), str(number))[0] == status
    yield "marks of a file that isn't there", run_command(where, "none.igs", "1") == (4, b"", "")
    yield "marks without a number", run_command(where, pinched)[:2] == (2, b"")
    yield "marks of a number that is none", run_command(where, pinched, "x")[:2] == (2, b"")
    with open("/dev/full", "wb") as full:
        yield "marks to a full disk", run_command(where, pinched, "3", stdout=full)[0] == 5
    told = run_command(where, example("bad_length"), "1")
    yield "marks of a bad file", told == (3, b"", "igesolid: bad_length.igs: bad file line 2 length, so nothing is marked\n")
    causes = {"fail_type": "fail TYPE 1 1: a record is wrong", "fail_once": "fail ONCE 3 2: something is named twice, which igesolid mend leaves out"}
    for name, cause in causes.items():
        yield f"marks of {name}", run_command(where, example(name), "1")[2] == f"igesolid: {name}.igs: {cause}, so nothing is marked\n"
    odd = folder / "odd"
    odd.write_text(ODD)
    odd.chmod(0o755)
    status, text, said = run_command(odd, pinched, "3")
    yield "marks of a text that isn't understood", (status, text) == (125, b"") and "isn't understood: a line of another shape" in said


def marks(program):
    """Marks are a file that the program reads; they hold what the text tells, at its levels and in its colours."""
    for name, number, text, lines in recorded():
        answer = parts_of(text)
        told, _ = overlay.marks_of(f"{name}.igs", number, answer, lines)
        done = subprocess.run([program, "solids", "/dev/stdin"], input=told, capture_output=True)
        yield f"marks of {name} are read", (done.returncode, done.stdout) == ((3, b"bad file line 1 missing\n") if answer.is_bad_file else (0, b""))
        if not answer.is_bad_file:
            own, source = iges.File(iges.lines_of(told)), iges.File(lines)
            yield f"marks of {name}: the same global section", [line[:72] for line in own.globals] == [line[:72] for line in source.globals]
    for name, number, wanted in (
        ("77_pinched_edge", 3, {(110, 901, 2): 1, (110, 902, 4): 12, (110, 903, 3): 1}),
        ("76_pinched_vertex", 3, {(116, 901, 2): 1, (110, 902, 4): 22, (110, 903, 3): 3, (116, 903, 3): 1}),
        ("fail_join", 1, {(100, 901, 2): 2, (116, 901, 2): 2}),
        ("cube", 1, {}),
    ):
        answer = parts_of((RECORDED / f"{name}.{number}.txt").read_text())
        told, _ = overlay.marks_of(name, number, answer, iges.lines_of(example(name).read_bytes()))
        entries = told.splitlines()
        counts = {}
        for one, two in zip(entries, entries[1:]):
            if one[72:73] == two[72:73] == b"D" and int(one[73:]) % 2:
                key = int(one[:8]), int(one[32:40]), int(two[16:24])
                counts[key] = counts.get(key, 0) + 1
        yield f"marks of {name}: levels and colours", counts == wanted


def overlays(program):
    """Curves are copied with what they name and their matrices; of a type that isn't copied a line stands for the chord."""
    records = [(102, 0, [2, 3, 5]), (110, 0, [0.0, 0.0, 0.0, 1.0, 0.0, 0.0]), (110, 0, [1.0, 0.0, 0.0, 3.0, 0.0, 0.0]), (114, 0, [0]), (130, 0, [3, 1, 0, 3, 1, *[0.0] * 9])]
    file = iges.File(iges.lines_of(text_of(records)))
    solid = type("Solid", (), {"edges": [solids.Edge((0, 0), number, 0, 0) for number in (1, 7, 9, 99)], "coordinates": lambda self, vertex: [b"1.", b"2.", b"3."]})()
    made = overlay.Overlay(file)
    copied = [made.add_edge(solid, edge, overlay.FAULT, edge) for edge in range(4)]
    yield "marks: what is copied", copied == [True, False, True, False]
    text = made.text(["marks"])
    yield "marks: composite and offset curves", subprocess.run([program, "solids", "/dev/stdin"], input=text, capture_output=True).returncode == 0
    own = iges.File(iges.lines_of(text))
    kinds = [own.entry(number).kind for number in range(1, 15, 2)]
    yield "marks: pointers lead to the copies", own.values(5) == [b"2", b"1", b"3"] and kinds == [110, 110, 102, 110, 110, 130, 110]


# How many entries a remedy has in the marks.
REMEDIES = {"76_pinched_vertex": 4, "one_sided": 0, "stray_face": 4, "turned": 4, "two_lumps": 8, "unsewn_box": 8}


def of_remedies():
    """What the first remedy of a shell changes has a level and a label of its own."""
    for name, number, text in remedies.texts():
        data, said = overlay.marks_of(name, number, parts_of(text), iges.lines_of(remedies.data_of(name)))
        file = iges.File(iges.lines_of(data))
        numbers = range(1, file.records_at - file.directory_at, 2)
        levels = [int(file.lines[file.directory_at + number - 1][32:40]) for number in numbers]
        yield f"pictures: {name}: the marks of its remedy", (levels.count(903), said) == (REMEDIES[name], "")
        yield f"pictures: {name}: a word on its remedy", (b"Level 903" in data) == (REMEDIES[name] > 0)


def near():
    """Of the edges near a fault so many are marked, and it is said."""
    records = (RECORDED / "76_pinched_vertex.3.txt").read_text(), iges.lines_of(example("76_pinched_vertex").read_bytes())
    most, overlay.MOST_NEAR = overlay.MOST_NEAR, 5
    text, says = overlay.marks_of("a", 3, parts_of(records[0]), records[1])
    overlay.MOST_NEAR = most
    marked = [line for line in text.splitlines() if b"    NEAR" in line]
    yield "marks: so many edges near a fault", len(marked) == 5 and says == "a: of the other edges of the faces there the first 5 are marked" and b"the first 5 other edges" in text


def told_by(where, file, number):
    """What igesolid-where tells with all faults."""
    done = subprocess.run([where, file, str(number), "all"], capture_output=True, timeout=SECONDS)
    return done.returncode, done.stdout.decode("utf-8", "replace")


def recorded_anew(where):
    """What was recorded is told again."""
    for name, number, text, _ in recorded():
        yield f"recorded: {name} {number}", told_by(where, example(name), number)[1] == text


def files_to_draw(folder):
    """Examples, inputs of the rows, and surfaces made at random."""
    yield from sorted((TOP / "examples").rglob("*.igs"))
    yield from sorted((TOP / "tests" / "inputs").glob("*.igs"))
    rng, made = random.Random(186), folder / "made.igs"
    for _ in range(200):
        made.write_bytes(surface_text(rng))
        yield made
    bases = [example(name).read_bytes() for name in ("two_solids", "cube_void", "fail_join", "12_box_fillet_all", "76_pinched_vertex", "25_xcaf_colours_names")]
    for _ in range(300):
        data = bytearray(rng.choice(bases))
        for _ in range(rng.randint(1, 3)):
            data[rng.randrange(len(data))] = rng.choice(b"0123456789,;. -ESGDPTH\n\xff")
        made.write_bytes(data)
        yield made


def of_program(folder, program, where):
    """Of each file there are marks, which are read; each shell has what the text tells of it."""
    for path in files_to_draw(folder):
        lines = iges.lines_of(path.read_bytes())
        for number in (1, 3):
            status, text = told_by(where, path, number)
            answer = parts_of(text)
            marked = overlay.marks_of("", number, answer, lines)[0]
            solid = solids.solid_of(iges.File(lines), number) if answer.shells else None
            counts = all(solid.shells[it.number("shell") - 1].counts() == tuple(map(it.number, ("faces", "edges", "vertices"))) for it in answer.failing)
            is_read = status == 3 or subprocess.run([program, "solids", "/dev/stdin"], input=marked, capture_output=True).returncode == 0
            yield f"pictures: {path.name} {number}", status in (0, 1, 3) and counts and is_read


def checks(folder, program, where):
    load()
    for run in (grammar, values, random_geometry, near, of_remedies):
        yield from run()
    yield from commands(folder, where)
    yield from marks(program)
    yield from overlays(program)
    yield from recorded_anew(where)
    yield from of_program(folder, program, where)
