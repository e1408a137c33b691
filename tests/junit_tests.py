"""The report of `igesolid check --junit`, read back by Debian's junitparser, and what stands in its way."""
import json
import os
import re
import shutil
import xml.etree.ElementTree

import clone
from check_tests import installed, read_until, started
from spawned import SECONDS

# Debian's Python, which has junitparser: each suite, its cases and what they found, as JSON.
READ = """
import json, sys
from junitparser import Error, Failure, JUnitXml
report = JUnitXml.fromfile(sys.argv[1])
kinds = {Error: "error", Failure: "failure"}
told = [[suite.name, [suite.tests, suite.failures, suite.errors], [[case.name, [[kinds[type(it)], it.type, it.message, it.text] for it in case.result]] for case in suite]] for suite in report]
print(json.dumps([[report.tests, report.failures, report.errors], told]))
"""
HAS_PARSER = "import junitparser"
LINES = re.compile(r"(?m)^lines? (\d+)(?: to (\d+))?(?:, column (\d+))?: entity (\d+) (\(|has |ends )(\S+)")


def debian_python():
    return shutil.which("python3", path=clone.PLAIN_PATH)


def read_back(parts, name="report.xml"):
    status, text, error = parts.copy.run(debian_python(), "-c", READ, name, cwd=parts.folder)
    return json.loads(text) if status == 0 else error


def wanted_of(file):
    """The counts of cases, failures and errors of a file, by its object of `--json`."""
    failing = sum(it["verdict"] == "fail" for it in file["solids"])
    is_wrong = file["status"] > 1
    has_none = not file["solids"] and not is_wrong
    return [len(file["solids"]) + is_wrong + has_none, failing + has_none, int(is_wrong)]


def verdicts_of(file):
    """What its cases are called, and what each that doesn't pass says, likewise."""
    told = [(f"solid {it['solid']}", "fail {rule} {entity} {place}".format(**it) if it["verdict"] == "fail" else None) for it in file["solids"]]
    if file["verdict"] == "bad file":
        return [*told, ("file", "bad file line {line} {reason}".format(**file))]
    if file["status"] > 1:
        return [*told, ("file", "{verdict}: {reason}".format(**file))]
    return told or [("file", "no solid")]


def are_right(data, text):
    """Whether each record that is named has those lines, by its last columns; and each value stands in its column."""
    lines = data.decode().splitlines()
    for first, last, column, entity, word, value in LINES.findall(text):
        named = lines[int(first) - 1 : int(last or first)]
        if not named or any(int(it[64:72]) != int(entity) for it in named):
            return False
        if word == "has " and not named[0][int(column) - 1 :].startswith(value):
            return False
    return True


def of_examples(parts):
    """Every example, beside `--json` and `where`."""
    shutil.copytree(parts.copy.top / "examples", parts.folder / "examples")
    words = "examples", "parts", "none.igs"
    printed = parts.check(*words)
    yield "check --junit: what is printed", parts.check(*words, "--junit", "report.xml") == printed
    told = parts.json(*words)["files"]
    counts, suites = read_back(parts)
    yield "check --junit: the suites", [it[0] for it in suites] == [it["file"] for it in told] and len(told) > 50
    wanted = [wanted_of(it) for it in told]
    yield "check --junit: the counts of suites", [it[1] for it in suites] == wanted
    yield "check --junit: the counts", counts == [sum(column) for column in zip(*wanted)] and min(counts) > 5
    for file, (name, _, cases) in zip(told, suites):
        found = [(case, result[0][2] if result else None) for case, result in cases]
        yield f"check --junit: {name}", found == verdicts_of(file)
        kinds = {result[0][0] for _, result in cases if result}
        yield f"check --junit: {name}, the kind", kinds == ({"error"} if file["status"] > 1 else {"failure"} if file["status"] else set())
        for case, result in cases:
            if result and file["status"] in (1, 3):
                yield from of_case(parts, name, case, result[0])
        yield from of_remedies(name, file["solids"], dict(cases))


def of_remedies(file, solids, cases):
    """The first remedy in words, as `--json` has it, of each solid that fails a rule on shells or names something twice."""
    for it in solids:
        remedy, result = it.get("remedy"), cases[f"solid {it['solid']}"]
        is_due = it.get("rule") in ("ONCE", "JOIN", "PAIR", "REACH", "LINK", "APART")
        yield f"check --junit: {file} solid {it['solid']}, its remedy", bool(remedy) == is_due and (not is_due or f"{remedy[:1].upper()}{remedy[1:]}." in result[0][3])


def of_case(parts, file, case, result):
    """What is told of a case that fails: the first hint, the lines, and the command that shows more."""
    _, kind, verdict, text = result
    number = case.removeprefix("solid ")
    words = [number] if number.isdigit() else []
    where = parts.copy.run(parts.launcher, "where", file, *words, cwd=parts.folder)[1].decode(errors="replace")
    hint = re.search(r"(?m)^hint .*\n((?:  .*\n)+)", where) or re.search(r"(?m)^rule .*\n((?:  .*\n)+)", where)
    sentence = " ".join(hint[1].split()) if hint else ""
    about = f"check --junit: {file} {case}"
    yield f"{about}, in words", sentence in text and (bool(sentence) or kind == "bad file")
    yield f"{about}, the command", parts.copy.run("sh", "-c", text.split("More: ")[1], cwd=parts.folder, PATH=f"{parts.launcher.parent}:{clone.PLAIN_PATH}")[1].decode(errors="replace") == where
    if words:
        named = LINES.search(text)
        yield f"{about}, its lines{text}", named is not None and named[4] == verdict.split()[2] and are_right((parts.folder / file).read_bytes(), text)


def again(parts):
    """What is remembered has its reasons, names of any bytes are kept apart, and a solid that is closed now passes."""
    parts.check("parts", "--junit", "report.xml", "--table", "table.csv")
    before = (parts.folder / "report.xml").read_bytes()
    yield "check --junit: what is remembered", parts.json("parts", "--junit", "report.xml", "--table", "table.csv")["files"][0]["remembered"] and (parts.folder / "report.xml").read_bytes() == before
    shutil.copy(parts.parts / "cube.igs", parts.parts / "no" / "tetrahedra.iges")
    parts.check("parts", "--junit", "report.xml")
    yield "check --junit: a solid that is closed now", read_back(parts)[0] == [10, 1, 1]
    for name in b'a\nb\xff.igs', b'a\nb\xfe.igs', b'<b>&amp;"\'\x01]]>.igs':
        shutil.copy(parts.parts / "no" / "bad.igs", os.path.join(os.fsencode(parts.parts), name))
    parts.check("parts", "--junit", "report.xml")
    counts, suites = read_back(parts)
    yield "check --junit: odd names", counts == [13, 1, 4] and len({it[0] for it in suites}) == 10 and 'parts/<b>&amp;"\'\\x01]]>.igs' in {it[0] for it in suites}


def in_the_way(parts):
    """What can't be written is said before the work, and nothing else is written over; an interrupted run says that it was."""
    mine = (parts.parts / "cube.igs").read_bytes()
    status, text, error = parts.check("--junit", "parts/cube.igs", "parts")
    yield "check --junit: another file", (status, text, error) == (2, b"", "igesolid: parts/cube.igs isn't a report that igesolid check wrote, so it stays as it is\n")
    yield "check --junit: it stays", (parts.parts / "cube.igs").read_bytes() == mine
    yield "check --junit: a folder", parts.check("parts", "--junit", "parts")[:2] == (2, b"")
    yield "check --junit: in no folder", parts.check("parts", "--junit", "none/report.xml") == (2, b"", "igesolid: none/report.xml can't be written: No such file or directory\n")
    (parts.folder / "report.xml").touch()
    yield "check --junit: an empty file", parts.check("parts", "--junit", "report.xml")[0] == 3 and read_back(parts)[0] == [10, 2, 1]
    os.mkfifo(parts.folder / "fifo.igs")
    process, master = started(parts, "parts/cube.igs", "fifo.igs", "--jobs", "2", "--junit", "report.xml")
    read_until(master, b"1 of 2 files")
    process.terminate()
    process.communicate(timeout=SECONDS)
    read_until(master, None)
    os.close(master)
    root = xml.etree.ElementTree.parse(parts.folder / "report.xml").getroot()
    said = [it.get("message") for it in root.iter("error")]
    yield "check --junit: interrupted", [it.get("name") for it in root] == ["parts/cube.igs", "igesolid check"] and said == ["1 files aren't judged: the run was interrupted"]


def of_page(parts):
    """The lines for build servers in docs/INTEGRATIONS.md: each writes its report, and that for Jenkins passes unless something went wrong."""
    page = (parts.copy.top / "docs" / "INTEGRATIONS.md").read_text()
    commands = re.findall(r"(?m)(?:script: |sh '|run: )(igesolid check parts .*?)'?$", page)
    path = f"{parts.launcher.parent}:{clone.PLAIN_PATH}"
    run = lambda command: parts.copy.run("sh", "-c", command, cwd=parts.folder, PATH=path)[0]
    (parts.parts / "no" / "bad.igs").unlink()
    yield "docs/INTEGRATIONS.md: what is run", [run(it) for it in commands] == [1, 0, 1] and all((parts.folder / f"igesolid.{it}").is_file() for it in ("xml", "sarif"))
    (parts.parts / "bad.igs").touch()
    yield "docs/INTEGRATIONS.md: a bad file", [run(it) for it in commands] == [3, 0, 3]
    yield "docs/INTEGRATIONS.md: what isn't read", run(commands[1].replace("parts", "none.igs")) == 1


def checks(copy, skipped):
    if copy.run(debian_python() or "false", "-c", HAS_PARSER)[0] != 0:
        skipped("check --junit: Debian's python3-junitparser isn't installed")
        return
    parts, _ = installed(copy)
    for part in (of_examples, again, in_the_way, of_page):
        parts.fill()
        yield from part(parts)
