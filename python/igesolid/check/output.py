"""Reports as text."""
import collections
import io
import json
import os
import shlex
import subprocess
from typing import List

from ..errors import BadFile
from ..saying import printable
from .report import NOT_CLOSED, STANDARD_INPUT, Report, SolidReport, dict_of
from .table import write_rows

SCHEMA = 1


def _count(number: int, noun: str) -> str:
    return f"{number:,} {noun}{'' if number == 1 else 's'}"


def _answer(report: Report) -> str:
    """What a file's report says of the file itself."""
    fault = report.fault
    if fault is None:
        return report.word
    return f"{fault.word} line {fault.line} {fault.reason}" if fault.line else f"{fault.word}: {printable(fault.reason)}"


def _solid(solid: SolidReport) -> str:
    return f"solid {solid.number}: {solid.verdict}{f' ({solid.remedy})' if solid.remedy else ''}"


def line_of(report: Report) -> str:
    """One line on a file: whether it is closed, or what is wrong with it, with the first solid that fails."""
    name, failing = printable(report.file), report.failing
    if report.fault or not report.solids:
        return f"{name}: {_answer(report)}"
    if not failing:
        return f"{name}: closed, {_count(len(report.solids), 'solid')}"
    others = f", and {_count(len(failing) - 1, 'other solid')}" if len(failing) > 1 else ""
    return f"{name}: not closed, {_solid(failing[0])}{others}"


def _quoted(name: str) -> str:
    """A name as a shell of this system reads it."""
    return subprocess.list2cmdline([name]) if os.name == "nt" else shlex.quote(name)


def lines_of_solids(report: Report) -> List[str]:
    """A line a solid, with the command that shows more."""
    more = f"; igesolid where {_quoted(printable(report.file))}" if report.file != STANDARD_INPUT else ""
    lines = [_solid(it) if it.verdict.is_closed or not more else f"{_solid(it)}{more} {it.number}" for it in report.solids]
    if report.fault or not report.solids:
        lines.append(f"{printable(report.file)}: {_answer(report)}{more if report.status in (NOT_CLOSED, BadFile.status) else ''}")
    return lines


def total_of(reports: List[Report]) -> str:
    """How many files have which verdict, and how many solids."""
    words = collections.Counter(report.word for report in reports)
    solids = sum(len(report.solids) for report in reports)
    failing = sum(len(report.failing) for report in reports)
    files = ", ".join(f"{count:,} {word}" for word, count in sorted(words.items()))
    remembered = sum(report.is_remembered for report in reports)
    from_table = f"; {_count(remembered, 'file')} from the table" if remembered else ""
    return f"{_count(len(reports), 'file')}{': ' if files else ''}{files}; {_count(solids, 'solid')}, {solids - failing:,} closed{from_table}"


def json_of(reports: List[Report], status: int, is_interrupted: bool) -> str:
    told = {"schema": SCHEMA, "status": status, "interrupted": is_interrupted, "files": [dict_of(report) for report in reports]}
    return json.dumps(told, indent=1) + "\n"


def csv_of(reports: List[Report]) -> str:
    out = io.StringIO()
    write_rows(out, reports)
    return out.getvalue()


def text_of(reports: List[Report]) -> str:
    return "".join(f"{line}\n" for line in [*map(line_of, reports), total_of(reports)])


def text_of_one(report: Report) -> str:
    """A line a solid, and the total where there are solids."""
    failing, count = len(report.failing), len(report.solids)
    total = [f"{_count(count, 'solid')}, {count - failing:,} closed"] if count else []
    return "".join(f"{line}\n" for line in [*lines_of_solids(report), *total])
