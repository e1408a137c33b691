"""What is reported of a file, as objects, as JSON and as rows of a table. docs/MANY.md specifies both forms."""
from typing import Any, Dict, Iterable, List, NamedTuple, Optional, Tuple

from ..errors import BadFile, Error, NoMemory, NotRead, TooLarge
from ..files import UNJUDGED, Verdict
from ..saying import NOT_WRITTEN

CLOSED, NOT_CLOSED = 0, 1
WORDS = {BadFile.status: "bad file", NotRead.status: "not read", NOT_WRITTEN: "not written", NoMemory.status: "no memory", TooLarge.status: "too large"}
STATUSES = {word: status for status, word in WORDS.items()}
NOT_JUDGED = "not judged"
# The name of standard input.
STANDARD_INPUT = "-"
COLUMNS = "file", "bytes", "sha256", "program", "solid", "verdict", "rule", "entity", "place", "certificate", "line", "reason", "remedy"
Row = Dict[str, str]


class Fault(NamedTuple):
    """Why a file has no verdict, or its certificates aren't written."""

    status: int
    reason: str
    line: Optional[int] = None

    @property
    def word(self) -> str:
        return WORDS.get(self.status, NOT_JUDGED)


class SolidReport(NamedTuple):
    """The verdict on a solid; the SHA-256 of the certificate that was written of it; and of one that fails the first remedy in words, of the
    first of a file alone."""

    number: int
    verdict: Verdict
    certificate: Optional[str] = None
    remedy: Optional[str] = None


class Report(NamedTuple):
    """A file; the size and SHA-256 of its bytes, and the program's SHA-256, if it was judged; its solids; what went wrong;
    whether all this comes from the table of an earlier run."""

    file: str
    size: Optional[int] = None
    sha256: Optional[str] = None
    program: Optional[str] = None
    solids: Tuple[SolidReport, ...] = ()
    fault: Optional[Fault] = None
    is_remembered: bool = False

    @property
    def failing(self) -> List[SolidReport]:
        return [solid for solid in self.solids if not solid.verdict.is_closed]

    @property
    def status(self) -> int:
        if self.fault:
            return self.fault.status
        return CLOSED if self.solids and not self.failing else NOT_CLOSED

    @property
    def word(self) -> str:
        if self.fault:
            return self.fault.word
        if not self.solids:
            return "no solid"
        if self.failing and not any(it.verdict.is_judged for it in self.failing):
            return NOT_JUDGED
        return "not closed" if self.failing else "closed"

    @property
    def is_judged(self) -> bool:
        return self.status in (CLOSED, NOT_CLOSED, BadFile.status)


def fault_of(error: BaseException) -> Fault:
    if isinstance(error, BadFile):
        return Fault(error.status, error.reason, error.line)
    status = error.status if isinstance(error, Error) else NoMemory.status if isinstance(error, MemoryError) else Error.status
    return Fault(status, str(error) or type(error).__name__)


def _given(values: Dict[str, Any]) -> Dict[str, Any]:
    return {name: value for name, value in values.items() if value is not None}


def dict_of(report: Report) -> Dict[str, Any]:
    """A report as JSON has it."""
    solids = [
        _given(dict(solid=it.number, verdict=_word(it.verdict), **_where(it.verdict), certificate=it.certificate, remedy=it.remedy))
        for it in report.solids
    ]
    fault = report.fault._asdict() if report.fault else {}
    head = dict(file=report.file, bytes=report.size, sha256=report.sha256, program=report.program, verdict=report.word, line=fault.get("line"))
    return {**_given({**head, "reason": fault.get("reason")}), "status": report.status, "remembered": report.is_remembered, "solids": solids}


def report_of_dict(told: Dict[str, Any]) -> Report:
    solids = [
        SolidReport(it["solid"], _verdict(it["verdict"], it.get("rule"), it.get("entity"), it.get("place")), it.get("certificate"), it.get("remedy"))
        for it in told["solids"]
    ]
    fault = Fault(told["status"], told["reason"], told.get("line")) if "reason" in told else None
    return Report(told["file"], told.get("bytes"), told.get("sha256"), told.get("program"), tuple(solids), fault)


def _word(verdict: Verdict) -> str:
    return "closed" if verdict.is_closed else "fail" if verdict.is_judged else UNJUDGED


def _where(verdict: Verdict) -> Dict[str, Any]:
    return verdict._asdict() if verdict.is_judged else {}


def _verdict(word: str, rule: Optional[str], entity: Optional[int], place: Optional[int]) -> Verdict:
    return Verdict(UNJUDGED) if word == UNJUDGED else Verdict(rule, entity, place)


def rows_of(report: Report) -> List[Row]:
    """The rows of a file: one for each solid, and one for the file itself if it has none or something went wrong."""
    head = dict(file=report.file, bytes=report.size, sha256=report.sha256, program=report.program)
    rows = [
        {**head, "solid": it.number, "verdict": _word(it.verdict), **_where(it.verdict), "certificate": it.certificate, "remedy": it.remedy}
        for it in report.solids
    ]
    if report.fault:
        rows.append({**head, "verdict": report.word, "line": report.fault.line, "reason": report.fault.reason})
    elif not rows:
        rows.append({**head, "verdict": report.word})
    return [{column: _spelled(row.get(column)) for column in COLUMNS} for row in rows]


def _spelled(value: Any) -> str:
    return "" if value is None else str(value)


def _number(text: str) -> Optional[int]:
    return int(text) if text else None


def report_of_rows(rows: Iterable[Row]) -> Report:
    """The report that rows of one file tell; a ValueError or a KeyError if they are none of `rows_of`."""
    solids: List[SolidReport] = []
    fault = None
    for row in rows:
        head = row["file"], _number(row["bytes"]), row["sha256"] or None, row["program"] or None
        if row["solid"]:
            verdict = _verdict(row["verdict"], row["rule"] or None, _number(row["entity"]), _number(row["place"]))
            solids.append(SolidReport(int(row["solid"]), verdict, row["certificate"] or None, row.get("remedy") or None))
        elif row["verdict"] != "no solid":
            fault = Fault(STATUSES.get(row["verdict"], Error.status), row["reason"], _number(row["line"]))
    return Report(*head, tuple(solids), fault)
