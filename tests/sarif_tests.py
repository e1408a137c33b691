"""The report of `igesolid check --sarif`: by a schema under Debian's jsonschema, and each result at the lines of the failing record."""
import json
import os
import shutil
import urllib.parse

from check_tests import installed
from junit_tests import debian_python, verdicts_of
from programs import TOP

SCHEMA = TOP / "tests" / "sarif.schema.json"
VALIDATE = "import json, jsonschema, sys; jsonschema.validate(*(json.load(open(it)) for it in sys.argv[1:]))"
HAS_JSONSCHEMA = "import jsonschema"
# The columns of a record's line that name its entity.
BACK_POINTER = slice(64, 72)


def report_of(parts, *words):
    """The one run of a report, and what the schema says against it."""
    parts.check(*words, "--sarif", "report.sarif")
    status, _, error = parts.copy.run(debian_python(), "-c", VALIDATE, parts.folder / "report.sarif", SCHEMA)
    return json.loads((parts.folder / "report.sarif").read_text())["runs"][0], error if status else ""


def file_of(location):
    return os.fsdecode(urllib.parse.unquote_to_bytes(location["physicalLocation"]["artifactLocation"]["uri"]))


def is_at(data, region, file, verdict):
    """Whether the lines of a result are those of the failing record, or the bad line."""
    lines = data.decode("ascii", "replace").splitlines()
    named = lines[region["startLine"] - 1 : region["endLine"]]
    if file["verdict"] == "bad file":
        return region["startLine"] == region["endLine"] == file["line"] and len(named) == 1
    entity = int(verdict.split()[2])
    return bool(named) and all(it[72] == "P" and int(it[BACK_POINTER]) == entity for it in named)


def of_examples(parts):
    shutil.copytree(parts.copy.top / "examples", parts.folder / "examples")
    words = "examples", "parts", "none.igs"
    printed = parts.check(*words)
    yield "check --sarif: what is printed", parts.check(*words, "--sarif", "report.sarif") == printed
    run, fault = report_of(parts, *words)
    yield f"check --sarif: the schema{fault}", not fault
    told = {it["file"]: it for it in parts.json(*words)["files"]}
    wanted = [(name, case, verdict) for name, file in told.items() if file["status"] in (1, 3) for case, verdict in verdicts_of(file) if verdict]
    yield "check --sarif: the results", len(run["results"]) == len(wanted) > 30
    rules = {it["id"] for it in run["tool"]["driver"]["rules"]}
    for (name, case, verdict), result in zip(wanted, run["results"]):
        about, location = f"check --sarif: {name} {case}", result["locations"][0]
        head = verdict if case == "file" else f"{case}: {verdict}"
        yield f"{about}, what it says", result["message"]["text"].startswith(f"{head}. ") and file_of(location) == name
        yield f"{about}, the rule", result["ruleId"] in rules and result["ruleId"] == {"fail": verdict.split()[1], "bad": "bad-file", "no": "no-solid"}[verdict.split()[0]]
        region = location["physicalLocation"].get("region")
        data = (parts.folder / name).read_bytes()
        is_missing = verdict.endswith(" missing") or case == "file" and told[name]["verdict"] == "no solid"
        yield f"{about}, its line", (region is None) == is_missing and (region is None or is_at(data, region, told[name], verdict))
    [notification] = run["invocations"][0]["toolExecutionNotifications"]
    yield "check --sarif: what isn't read", file_of(notification["locations"][0]) == "none.igs" and not run["invocations"][0]["executionSuccessful"]


def odd(parts):
    """Names of any bytes, standard input, closed solids alone, and another file in the way."""
    for name in b"a\nb\xff.igs", b"c:d%20#?.igs":
        shutil.copy(parts.parts / "no" / "bad.igs", os.path.join(os.fsencode(parts.parts), name))
    run, fault = report_of(parts, "parts", str(parts.parts / "no"))
    names = {file_of(it["locations"][0]) for it in run["results"]}
    yield f"check --sarif: odd names{fault}", not fault and {"parts/a\nb\udcff.igs", "parts/c:d%20#?.igs", f"file://{parts.parts}/no/bad.igs"} <= names
    run, fault = report_of(parts, "parts/cube.igs")
    yield f"check --sarif: a closed solid{fault}", not fault and run["results"] == [] and run["invocations"] == [{"executionSuccessful": True, "toolExecutionNotifications": []}]
    run, fault = report_of(parts, "-")
    yield f"check --sarif: standard input{fault}", not fault and "locations" not in run["results"][0]
    status, text, error = parts.check("parts", "--sarif", "both", "--junit", "both")
    yield "check --sarif: one file for two reports", (status, text) == (2, b"") and error == "igesolid: both isn't a report that igesolid check wrote, so it stays as it is\n"


def checks(copy, skipped):
    if copy.run(debian_python() or "false", "-c", HAS_JSONSCHEMA)[0] != 0:
        skipped("check --sarif: Debian's python3-jsonschema isn't installed")
        return
    parts, _ = installed(copy)
    for part in (of_examples, odd):
        parts.fill()
        yield from part(parts)
