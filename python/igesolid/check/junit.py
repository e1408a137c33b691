"""The report of `--junit`: JUnit XML, as Jenkins and GitLab read it. A suite is a file, a case a solid; a file without a verdict on solids
has a case of its own."""
import re
import shlex
from typing import Iterable, List, NamedTuple, Optional
from xml.sax.saxutils import escape, quoteattr

from ..errors import BadFile
from ..saying import printable
from .reasons import FILE, Reasons
from .report import STANDARD_INPUT, Report

# What begins a report that this module wrote.
MARK = b'<?xml version="1.0" encoding="UTF-8"?>\n<testsuites name="igesolid check"'
OF_FILE = "file"
# What XML can't hold, and what attributes don't keep.
UNFIT = re.compile("[^ -\ud7ff\ue000-\ufffd\U00010000-\U0010ffff]")


class Outcome(NamedTuple):
    """Why a case didn't pass: `failure` or `error`, the kind, the verdict, and what is told of it."""

    word: str
    kind: str
    verdict: str
    told: str = ""


class Case(NamedTuple):
    name: str
    outcome: Optional[Outcome] = None


def _fit(text: str) -> str:
    return UNFIT.sub(lambda it: ascii(it[0])[1:-1], text)


def _told(report: Report, number: int, reasons: Reasons) -> str:
    """What helps, the lines of the file, and the command that shows more."""
    reason = reasons.of(report, number)
    of_solid = f" {number}" if number else ""
    more = [] if report.file == STANDARD_INPUT else [f"More: igesolid where {shlex.quote(printable(report.file))}{of_solid}"]
    return "\n".join([*filter(None, [reason.words]), *map(str, reason.lines), *more])


def _case_of_file(report: Report, reasons: Reasons) -> List[Case]:
    """The case of a file for which the verdicts on its solids don't stand alone."""
    fault = report.fault
    if fault is None:
        return [] if report.solids else [Case(OF_FILE, Outcome("failure", report.word, report.word, _told(report, FILE, reasons)))]
    is_bad = fault.status == BadFile.status
    verdict = f"{fault.word} line {fault.line} {fault.reason}" if is_bad else f"{fault.word}: {fault.reason}"
    return [Case(OF_FILE, Outcome("error", fault.word, verdict, _told(report, FILE, reasons) if is_bad else ""))]


def cases_of(report: Report, reasons: Reasons) -> List[Case]:
    solids = [
        Case(
            f"solid {it.number}",
            None if it.verdict.is_closed else Outcome("failure", it.verdict.rule or "", str(it.verdict), _told(report, it.number, reasons)),
        )
        for it in report.solids
    ]
    return [*solids, *_case_of_file(report, reasons)]


def _counts(cases: Iterable[Case]) -> str:
    words = [it.outcome.word if it.outcome else "passed" for it in cases]
    return f'tests="{len(words)}" failures="{words.count("failure")}" errors="{words.count("error")}"'


def _spelled_case(case: Case, file: str) -> str:
    head = f"  <testcase classname={file} name={quoteattr(case.name)} file={file}"
    if case.outcome is None:
        return f"{head}/>\n"
    word, kind, verdict, told = case.outcome
    text = escape("\n".join(map(_fit, told.split("\n"))))
    return f"{head}>\n   <{word} type={quoteattr(kind)} message={quoteattr(_fit(verdict))}>{text}</{word}>\n  </testcase>\n"


def _suite(file: str, cases: List[Case]) -> str:
    name = quoteattr(_fit(file))
    return f" <testsuite name={name} {_counts(cases)}>\n{''.join(_spelled_case(it, name) for it in cases)} </testsuite>\n"


def text_of(reports: List[Report], reasons: Reasons, cut: Optional[str] = None) -> bytes:
    """The report; `cut` says why it isn't one on all files."""
    suites = [(it.file, cases_of(it, reasons)) for it in reports]
    if cut:
        suites.append(("igesolid check", [Case("the run", Outcome("error", "not judged", cut))]))
    counts = _counts(case for _, cases in suites for case in cases)
    text = f" {counts}>\n{''.join(_suite(*it) for it in suites)}</testsuites>\n"
    return MARK + text.encode("utf-8")
