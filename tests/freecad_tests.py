"""The add-on for FreeCAD, as packaging/freecad makes it, in an empty home: without a window at every failing example, and in a window that
nobody sees."""
import gzip
import json
import os
import pathlib
import re
import shutil
import subprocess
import sys
import tempfile
import zipfile

from html_tests import parts_of
from programs import TOP
from second_checker.answering import file_of
from second_checker.canonical import text_of
from second_checker.reading import File

SCRIPTS, EXAMPLES = TOP / "tests" / "freecad", TOP / "examples"
EDGE = EXAMPLES / "occt" / "77_pinched_edge.igs"
# What is shown in the window: a failing edge, what FreeCAD doesn't show, and what it isn't given.
SHOWN = {
    name: str(EXAMPLES / it)
    for name, it in {
        "edge": "occt/77_pinched_edge.igs", "marks": "turned.igs", "closed": "occt/16_three_solids.igs", "record": "no/fail_index.igs", "bad": "no/bad_length.igs",
    }.items()
}  # fmt: skip
# What is mended there, and what isn't.
MENDED = {"mend": "turned.igs", "stuck": "no/one_sided.igs", "flags": "no/fail_pair_flag.igs"}
WINDOW = "xvfb-run", "-a", "-s", "-screen 0 1400x860x24", "freecad"
NEAR = 1e-6
# So many seconds a run of FreeCAD may take.
LONGEST = 1_800
COMMANDS = "freecadcmd", "freecad", "xvfb-run"
# A place as a line of `where` ends with it.
AT_END = re.compile(r"(?m)^.*?(\d+) (\d+) (-?[0-9.][^ ]*) (-?[0-9.][^ ]*) (-?[0-9.][^ ]*)$")
EDGES = re.compile(r"(?m)(?:^|^  .*?|^seam .*?|^rim .*?|^renew )edge (\d+) (\d+)(?: |$)")
FACES = re.compile(r"(?m)^(?:turn|remove|body .* first|reverse loop \d+ face|  .*?face) (\d+) [a-z]")
RECORD_FACES = re.compile(r"(?m)^  in face (\d+)")
FAILS = re.compile(r"(?m)^solid (\d+) fail ([A-Z]+)")
RECORD_RULES = "ENTRY", "TYPE", "RECORD", "ONCE", "INDEX", "GEOMETRY"
# Of these FreeCAD reads what is named twice; and what a row says of that.
READ_RULE = "ONCE"
LEFT_OUT = "Mend does that in a copy. What fails then is mended, too, where the records tell how; otherwise no copy is written."
# Millimetres of a unit, by the line of `where` on it.
SCALES = {"units 2 MM": 1.0, "units 1 IN": 25.4, "units 6 M": 1000.0, "units - -": 25.4}
UNITS = {"millimetres": ",2,2HMM,", "inches": ",1,2HIN,", "metres": ",6,1HM,"}
UNIT = ",2,2HMM,"


class Home:
    """An empty home with the add-on in it."""

    def __init__(self, folder, made):
        self.folder = folder
        self.mod = folder / ".local" / "share" / "FreeCAD" / "Mod"
        self.mod.mkdir(parents=True)
        with zipfile.ZipFile(made) as files:
            files.extractall(self.mod)

    def run(self, script, task, *before):
        """The answer of a script in FreeCAD, and what was printed."""
        answer, told = self.folder / "answer.json", self.folder / "task.json"
        answer.unlink(missing_ok=True)
        told.write_text(json.dumps({**task, "answer": str(answer)}))
        own = {
            "HOME": self.folder, "IGESCHECK_TASK": told, "QT_QPA_PLATFORM": "xcb", "LIBGL_ALWAYS_SOFTWARE": 1, "QTWEBENGINE_DISABLE_SANDBOX": 1,
        }  # fmt: skip
        plain = {name: value for name, value in os.environ.items() if not name.startswith(("PYTHON", "XDG_"))}
        done = subprocess.run(
            [*before, SCRIPTS / script], cwd=self.folder, stdin=subprocess.DEVNULL, stdout=subprocess.PIPE, stderr=subprocess.STDOUT,
            timeout=LONGEST, env={**plain, **{name: str(value) for name, value in own.items()}},
        )  # fmt: skip
        printed = done.stdout.decode(errors="replace")
        return json.loads(answer.read_text()) if answer.exists() else None, printed


def made(folder):
    """The zip, made twice."""
    paths = []
    for name in "one", "other":
        (folder / name).mkdir()
        done = subprocess.run([sys.executable, TOP / "packaging" / "freecad", folder / name], capture_output=True, text=True)
        if done.returncode != 0:
            return None, done.stderr
        paths.append(pathlib.Path(done.stdout.strip()))
    return paths[0], "" if paths[0].read_bytes() == paths[1].read_bytes() else "other bytes at the second time"


def examples(folder):
    """All examples as files, unpacked where they are packed."""
    found = sorted(EXAMPLES.rglob("*.igs"))
    for packed in sorted(EXAMPLES.rglob("*.igs.gz")):
        path = folder / packed.stem
        path.write_bytes(gzip.decompress(packed.read_bytes()))
        found.append(path)
    return found


def in_unit(text, unit):
    """A file with another unit; the line of the global section keeps its length."""
    lines = text.split("\n")
    at = next(k for k, line in enumerate(lines) if UNIT in line and line[72:73] == "G")
    lines[at] = lines[at][:72].replace(UNIT, unit).rstrip().ljust(72) + lines[at][72:]
    return "\n".join(lines)


def named_twice(data):
    """A file whose first shell names its first face again."""
    file = File(data)
    shell = next(it for it in file.entries.values() if it.kind == 514)
    shell.values[1:1] = shell.values[1:3]
    shell.values[0] += 1
    return text_of(file)


def real(spelled):
    return float(spelled.upper().replace("D", "E") or 0)


class Wanted:
    """What the text of `where` names, with coordinates: those that it tells, and of edges and faces those of the second checker's reading."""

    def __init__(self, data, text):
        self.file, self.places = file_of(data), {}
        self.scale = scale = SCALES[re.search(r"(?m)^units .*$", text)[0]]
        for line in AT_END.findall(text):
            self.places["vertex", (int(line[0]), int(line[1]))] = [[real(it) * scale for it in line[2:]]]
        keys = {(int(one), int(other)) for one, other in EDGES.findall(text)}
        self.places.update((("edge", key), self.ends(key)) for key in keys)
        self.places.update((("face", face), self.corners(face)) for face in map(int, FACES.findall(text)))

    def values(self, number):
        return self.file.named(number).values

    def vertex(self, number, index):
        spelled = self.values(number)[3 * index - 2 : 3 * index + 1]
        return [real(it.decode() if isinstance(it, bytes) else str(it or 0)) * self.scale for it in spelled]

    def ends(self, key):
        number, index = key
        _, *ends = self.values(number)[5 * index - 4 : 5 * index + 1]
        return [self.vertex(*ends[:2]), self.vertex(*ends[2:])]

    def corners(self, face):
        values, found = self.values(face), []
        for loop in values[3 : 3 + values[1]]:
            told, at = self.values(loop), 1
            for _ in range(told[0]):
                kind, number, index = told[at : at + 3]
                found += self.ends((number, index)) if kind == 0 else [self.vertex(number, index)]
                at += 5 + 2 * (told[at + 4] or 0)
        return found


def is_near(one, other):
    return all(abs(a - b) <= NEAR for a, b in zip(one, other))


def is_among(places, others):
    return all(any(is_near(it, other) for other in others) for it in places)


def is_shown(told, places):
    """Whether what is named is shown: each element that is found has these places and no other, and so has a mark, besides points of a curve."""
    elements = [points for _, points in told["elements"]]
    is_found = all(is_among(places, it) and is_among(it, places) for it in elements)
    return bool(elements or told["drawn"]) and is_found and all(is_among(places, it) for it in told["drawn"])


def key_of(told):
    return told["kind"], tuple(told["key"]) if isinstance(told["key"], list) else told["key"]


def of_solid(about, wanted, found):
    """Each edge, vertex and face that `where` names is selected or drawn at its place; several elements are called so."""
    shown = {key_of(it): it for it in found["named"]}
    for key, places in wanted.places.items():
        told = shown.get(key)
        yield f"{about}: {key} {told}", told is not None and is_shown(told, places)
    said = " ".join(row[2] for row in found["rows"])
    for it in found["named"]:
        names = ", ".join(name for name, _ in it["elements"])
        yield f"{about}: {key_of(it)}, its words", (f"one of {names}: they " if len(it["elements"]) > 1 else names or "drawn by its coordinates") in said


def sentences_in(text):
    """The sentences of hints, steps and rules."""
    return [" ".join(it.split()) for it in re.findall(r"(?m)^(?:hint(?! more)|step|rule) .*\n((?:  .*\n)+)", text)]


def at_examples(context, home):
    """Every failing example, and one in three units."""
    where = lambda path, *words: subprocess.run([context.programs.where, path, *words], stdout=subprocess.PIPE).stdout.decode(errors="replace")
    failing = [path for path in examples(context.new_folder()) if FAILS.search(where(path))]
    folder = context.new_folder()
    for name, unit in UNITS.items():
        (folder / f"{name}.igs").write_text(in_unit(EDGE.read_text(), unit))
        failing.append(folder / f"{name}.igs")
    told, printed = home.run("without_window.py", {"files": list(map(str, failing))}, "freecadcmd")
    yield f"freecad: without a window\n{printed[-2000:] if told is None else ''}", told is not None and "Traceback" not in printed and len(failing) > 25
    counts = [0, 0]
    for path, file in (told or {}).items():
        about = f"freecad: {pathlib.Path(path).name}"
        solids, texts = dict(FAILS.findall(where(path))), []
        yield f"{about}: {file.get('error', '')}", file.get("opened") == all(it == READ_RULE or it not in RECORD_RULES for it in solids.values())
        for number, rule in solids.items():
            text, found = where(path, number), file["solids"][number]
            rows = [row[0] for row in found["rows"]]
            yield f"{about}: solid {number}, the verdict", rows[1] == f"verdict: {text.splitlines()[0]}" and rows[0].startswith(f"solid {number} isn't closed: ")
            sentences = [*([LEFT_OUT] if rule == READ_RULE else []), *sentences_in(text)]
            yield f"{about}: solid {number}, the sentences", [row[1] for row in found["rows"] if row[1]] == sentences
            if rule in RECORD_RULES:
                yield f"{about}: solid {number}, a record", all(f"face {it} has no coordinates" in str(found["rows"]) or ["face", int(it)] in map(list, map(key_of, found["named"])) for it in RECORD_FACES.findall(text))
                continue
            wanted = Wanted(pathlib.Path(path).read_bytes(), text)
            yield f"{about}: solid {number}, what is named", len(wanted.places) > 0
            yield from of_solid(f"{about}: solid {number}", wanted, found)
            counts = [counts[0] + sum(bool(it["elements"]) for it in found["named"]), counts[1] + sum(not it["elements"] for it in found["named"])]
    yield f"freecad: elements are found, and others are drawn: {counts}", min(counts) > 50


def in_window(context, home):
    """The panel, what a click selects, and the buttons."""
    folder = context.new_folder()
    shutil.copy(EDGE, folder)
    more = {"none": str(folder / "none.igs"), "same_name": str(folder / EDGE.name)}
    for name, example in MENDED.items():
        (folder / name).mkdir()
        more[name] = shutil.copy(EXAMPLES / example, folder / name)
    for name, data in (("twice", named_twice(EDGE.read_bytes())), ("lines", EDGE.read_bytes().replace(b"\n", b"\r\r\n"))):
        (folder / name).mkdir()
        (folder / name / "part.igs").write_bytes(data)
        more[name] = str(folder / name / "part.igs")
    told, printed = home.run("in_window.py", {**SHOWN, **more}, *WINDOW)
    yield f"freecad: in a window\n{printed[-2000:] if told is None else told.get('fault', '')}", told is not None and "fault" not in told and "Traceback" not in printed
    if told is None or "fault" in told:
        return
    yield "freecad: the commands", told["commands"] == ["IgesCheck_Document", "IgesCheck_File"]
    yield from of_a_fault(told)
    yield from of_others(told)
    yield from of_mending(context, told, folder)
    yield "freecad: the file of a document", (told["file"], told["by_command"]) == (str(EDGE), [str(EDGE), True])
    yield "freecad: two files of one name", told["two_files"] is None
    yield "freecad: what nobody expected", told["unexpected"] == "77_pinched_edge.igs: nobody expected this"


def of_a_fault(told):
    rows = dict(told["rows"])
    wanted = {"edge 15 of list 19; uses along it: 2, against it: 2": "Edge15", "from vertex 12 of list 23 at 10., 10., 0.": "Vertex12", "face 167 (plane-surface) uses it against": "Face4"}
    yield "freecad: the panel is seen", told["seen"]
    yield "freecad: the summary", told["summary"] == "77_pinched_edge.igs: 1 solid, 1 not closed"
    yield "freecad: the rows", wanted.items() <= rows.items() and told["rows"][0][0] == "solid 3 isn't closed: a free edge, a non-manifold edge, or faces of opposite orientation"
    yield "freecad: a click", told["selected"] == [["Compound", ["Edge15", "Vertex12", "Vertex7", "Face4", "Face6", "Face22", "Face23"]]]
    state = {label: (is_red, transparency) for label, is_red, transparency in told["state"]}
    yield "freecad: a click on a vertex", told["vertex"] == [[["Compound", ["Vertex12"]]], True]
    yield "freecad: a document that is closed", told["closed_document"] == [[], True, True, 1]
    yield "freecad: a red edge", state["Edge 15 of list 19"][0] and state["Vertex 12 of list 23"][0] and not state["Compound"][0]
    yield "freecad: translucent faces", state["Compound"][1] == 60
    yield "freecad: the marks are removed", told["removed"] == [[], [["Compound", False, 0]]]
    yield "freecad: and made again", told["again"] == [True, True]
    yield "freecad: removed by another panel", told["other_panel"] == [["Compound", False, 0]]
    page = subprocess.run([TOP / "igesolid", "page", EDGE, "3"], stdout=subprocess.PIPE).stdout
    yield "freecad: the report", parts_of(pathlib.Path(told["page"]).read_bytes()) == parts_of(page)


def of_mending(context, told, folder):
    """The mended copies, each of the next free name; the file itself stays; where there is none the panel says why."""
    mended = subprocess.run([context.programs.repair, "mend", EXAMPLES / "turned.igs", "1"], stdout=subprocess.PIPE).stdout
    files = {it.name: it.read_bytes() for it in (folder / "mend").iterdir()}
    yield "freecad: mended copies", files == {"turned.igs": (EXAMPLES / "turned.igs").read_bytes(), "turned-mended-1.igs": mended, "turned-mended-2.igs": mended}
    wanted = [[f"turned-mended-{k}.igs", ["solid 1: closed"], 0, f"turned-mended-{k}.igs is written beside turned.igs.", True] for k in (1, 2)]
    yield "freecad: a mended copy is opened", told["mend"] == wanted
    yield from of_other_mending(context, told, folder)
    yield "freecad: not mended", told["stuck"] == "No remedy is known that closes solid 1." and [it.name for it in (folder / "stuck").iterdir()] == ["one_sided.igs"]
    yield "freecad: a remedy that is chosen", told["remedy"] == [1, 2]
    yield "freecad: nothing to mend", told["nothing"] == ["There is nothing to mend: all solids are closed.", "Solid 1 isn't mended, since a record of it is wrong: the rows tell which, and what is due there."]


def of_other_mending(context, told, folder):
    """What is named twice, face flags, and the lines of a bad file: each copy is what igesolid-repair writes, and FreeCAD shows its faces."""
    written = lambda *words: subprocess.run([context.programs.repair, *map(str, words)], stdout=subprocess.PIPE).stdout
    part, flags = folder / "twice" / "part.igs", folder / "flags" / "fail_pair_flag.igs"
    yield "freecad: what is named twice is mended", told["twice"] == [["part-mended-1.igs", ["solid 1: closed"], 26, "part-mended-1.igs is written beside part.igs.", True]]
    yield "freecad: as it is written", (folder / "twice" / "part-mended-1.igs").read_bytes() == written("mend", part, 3)
    rows = dict(told["twice_rows"])
    yield "freecad: what is said of it", "remedy: leave out what is named twice" in rows and rows["item 2 of entity 5"].startswith(("Face", "one of Face"))
    yield "freecad: what is selected of it", [it[0] for it in told["twice_selected"]] == ["Compound"] and all(it.startswith("Face") for it in told["twice_selected"][0][1])
    yield "freecad: face flags", [it[1] for it in told["flags"]] == [["solid 1: closed"]] and (folder / "flags" / "fail_pair_flag-mended-1.igs").read_bytes() == written("reorient", flags, 1)
    yield "freecad: the lines of a bad file", [it[2:] for it in told["lines"]] == [[26, "part-mended-1.igs is written beside part.igs.", True]] and (folder / "lines" / "part-mended-1.igs").read_bytes() == EDGE.read_bytes()
    yield "freecad: lines that can't be put right", told["bad_lines"] == "It isn't certain how the lines of this file are to be put right: line 2 (short)."


def of_others(told):
    """What FreeCAD doesn't show is drawn and selected; a file that it may crash on isn't opened; errors are in the panel."""
    yield "freecad: drawn by coordinates", told["marks"]["selected"][0] == ["Edge 1 of list 7", []] and "drawn by its coordinates." in told["marks"]["summary"]
    yield "freecad: what was deleted", told["marks"]["deleted"] == [True, True]
    yield "freecad: closed solids", [it[0] for it in told["closed"]["rows"]] == [f"solid {it}: closed" for it in (3, 121, 169)]
    yield "freecad: a wrong record", "FreeCAD doesn't open this file here" in told["record"]["summary"] and ["its value 4 is 2", ""] in told["record"]["rows"]
    bad, none = told["bad"], told["none"]
    yield "freecad: a bad file", bad["summary"].startswith("bad_length.igs: bad file line 2 length\nEach line has 80 columns") and (bad["rows"], bad["documents"]) == ([], 0)
    yield "freecad: no file", none["summary"] == "none.igs: can't be opened: No such file or directory" and (none["rows"], none["documents"]) == ([], 0)
    yield "freecad: a report of these", all(pathlib.Path(it["page"]).name.startswith(stem) for it, stem in ((bad, "bad_length-0-"), (told["closed"], "16_three_solids-3-")))


def of_words():
    """Each of the words for lines of `where` is for a line that there is, with the values that it has."""
    script = "import igescheck; from igescheck.telling import WORDS; from igesolid.where_lines import FACTS, HEADS; from string import Formatter\n"
    script += "shapes = [it for table in (HEADS, FACTS) for those in table.values() for it in those]\n"
    script += "names = {words: {it[1] for it in Formatter().parse(text) if it[1]} for words, text in WORDS.items()}\n"
    script += "print([words for words in WORDS if not any(it.words == words and names[words] <= set(it.names) for it in shapes)])"
    done = subprocess.run([sys.executable, "-B", "-c", script], cwd=TOP / "integrations" / "freecad", capture_output=True, text=True)
    yield f"freecad: the words{done.stderr}{done.stdout}", done.stdout == "[]\n"


def checks(context):
    yield from of_words()
    lacking = [it for it in COMMANDS if shutil.which(it) is None]
    if lacking:
        context.skipped(f"the add-on for FreeCAD: {lacking[0]} isn't installed")
        return
    zipped, fault = made(context.new_folder())
    yield f"packaging/freecad: {fault}", not fault
    if zipped is None:
        return
    home = Home(context.new_folder() / "home", zipped)
    yield from at_examples(context, home)
    yield from in_window(context, home)


def picture(path):
    """Makes the picture of the panel (docs/images/make)."""
    with tempfile.TemporaryDirectory() as room:
        folder = pathlib.Path(room)
        zipped, fault = made(folder)
        told, printed = Home(folder / "home", zipped).run("in_window.py", {**SHOWN, "picture": path}, *WINDOW) if zipped else (None, fault)
    return None if told else printed


if __name__ == "__main__":
    sys.exit(picture(str(pathlib.Path(sys.argv[1]).resolve())))
