"""The report of `--sarif`: SARIF 2.1.0. A result is a solid that isn't closed, a file without a solid or a bad file, at the lines of the
failing record; what wasn't judged is a notification."""
import json
import os
import pathlib
import urllib.parse
from typing import Any, Dict, Iterator, List, Optional

from ..errors import BadFile
from .html_report import MEANINGS
from .reasons import FILE, Lines, Reason, Reasons
from .report import NOT_CLOSED, STANDARD_INPUT, Report

SCHEMA = "https://json.schemastore.org/sarif-2.1.0.json"
# What begins a report that this module wrote.
MARK = b'{\n "$schema": "%b",\n "version": "2.1.0",\n "runs": [\n  {\n   "tool": {\n    "driver": {\n     "name": "igesolid check"' % SCHEMA.encode()
BAD_FILE, NO_SOLID = "bad-file", "no-solid"
RULES = {**MEANINGS, BAD_FILE: "a file that isn't of the fixed form of IGES", NO_SOLID: "a file without a manifold solid B-rep"}
Object = Dict[str, Any]


def _uri(file: str) -> str:
    path = pathlib.Path(file)
    return path.as_uri() if path.is_absolute() else urllib.parse.quote(os.fsencode(path.as_posix()))


def _location(file: str, lines: Optional[Lines] = None) -> Object:
    place: Object = {"artifactLocation": {"uri": _uri(file)}}
    if lines:
        column = {"startColumn": lines.column} if lines.column else {}
        place["region"] = {"startLine": lines.first, **column, "endLine": lines.last}
    return {"physicalLocation": place, **({"message": {"text": lines.holds}} if lines else {})}


def _result(file: str, rule: str, verdict: str, reason: Reason) -> Object:
    first, *others = reason.lines or (None,)
    where: Object = {} if file == STANDARD_INPUT else {"locations": [_location(file, first)]}
    if where and others:
        where["relatedLocations"] = [_location(file, it) for it in others]
    text = f"{verdict}. {reason.words}" if reason.words else f"{verdict}."
    return {"ruleId": rule, "level": "error", "message": {"text": text}, **where}


def _results(report: Report, reasons: Reasons) -> Iterator[Object]:
    for it in report.failing:
        yield _result(report.file, it.verdict.rule or "", f"solid {it.number}: {it.verdict}", reasons.of(report, it.number))
    fault = report.fault
    if fault is not None and fault.status == BadFile.status:
        yield _result(report.file, BAD_FILE, f"bad file line {fault.line} {fault.reason}", reasons.of(report, FILE))
    elif fault is None and not report.solids:
        yield _result(report.file, NO_SOLID, report.word, reasons.of(report, FILE))


def _notification(report: Report) -> Object:
    said = f"{report.word}: {report.fault.reason}" if report.fault else report.word
    where: Object = {} if report.file == STANDARD_INPUT else {"locations": [_location(report.file)]}
    return {"level": "error", "message": {"text": said}, **where}


def text_of(reports: List[Report], reasons: Reasons, cut: Optional[str] = None) -> bytes:
    """The report; `cut` says why it isn't one on all files."""
    notifications = [_notification(it) for it in reports if it.status not in (0, NOT_CLOSED, BadFile.status)]
    notifications += [{"level": "error", "message": {"text": cut}}] if cut else []
    rules = [{"id": name, "shortDescription": {"text": meaning}} for name, meaning in RULES.items()]
    run = {
        "tool": {"driver": {"name": "igesolid check", "rules": rules}},
        "invocations": [{"executionSuccessful": not notifications, "toolExecutionNotifications": notifications}],
        "results": [it for report in reports for it in _results(report, reasons)],
    }
    return (json.dumps({"$schema": SCHEMA, "version": "2.1.0", "runs": [run]}, indent=1) + "\n").encode()
