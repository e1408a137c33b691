"""Why files and solids fail, in words and by the lines of the file, as `where` tells it; for the reports that build servers read."""
from typing import Dict, List, NamedTuple, Optional, Sequence, Tuple

from ..content import Content, content_of_path
from ..engine import Engine
from ..errors import BadFile, Error
from ..files import Verdict
from ..saying import printable
from ..remedies import first_words
from ..where import Holder, Paragraph, Where, paragraphs
from .html_report import MEANINGS
from .report import Report

# So many places are told of a solid, and of so many failing solids of a file.
PLACES = 10
SOLIDS = 100
# In place of a solid's number: the file itself.
FILE = 0


class Lines(NamedTuple):
    """Lines of the file, from 1, and what they hold; the column, where one value is meant."""

    first: int
    last: int
    holds: str
    column: Optional[int] = None

    def __str__(self) -> str:
        lines = f"line {self.first}" if self.first == self.last else f"lines {self.first} to {self.last}"
        return f"{lines}{f', column {self.column}' if self.column else ''}: {self.holds}"


class Reason(NamedTuple):
    """What fails and what helps, in words, and where; the first lines are those of the failing record."""

    words: str
    lines: Tuple[Lines, ...] = ()


class Reasons:
    """The reasons of the files that were judged, by file and solid."""

    def __init__(self, engine: Engine):
        self.engine = engine
        self.known: Dict[Tuple[str, int], Reason] = {}
        self.fault: Optional[str] = None

    def of(self, report: Report, number: int) -> Reason:
        return self.known.get((report.file, number), Reason(""))

    def draw(self, report: Report, content: Optional[Content] = None) -> None:
        """Asks for the reason of all that fails in a file."""
        failing = {it.number: it.verdict for it in report.failing if it.verdict.is_judged}
        is_bad = report.fault is not None and report.fault.status == BadFile.status
        if not failing and not is_bad and report.word != "no solid":
            return
        try:
            content = content or content_of_path(report.file)
            if content.sha256 != report.sha256:
                raise Error("the file changed after it was judged")
            if not failing:
                self.known[report.file, FILE] = reason_of_file(self.engine, content, is_bad)
            for number, verdict in list(failing.items())[:SOLIDS]:
                self.known[report.file, number] = reason_of_solid(self.engine, content, number, verdict)
        except (Error, OSError, MemoryError) as fault:
            self.fault = f"{printable(report.file)}: {getattr(fault, 'strerror', None) or fault or 'out of memory'}"


def _ask(engine: Engine, content: Content, *words: str) -> str:
    return engine.ask("where", content, *words).text.decode("utf-8", "replace")


def reason_of_file(engine: Engine, content: Content, is_bad: bool) -> Reason:
    """Of a bad file, or of one without a solid."""
    told = list(paragraphs(_ask(engine, content, *(["1"] if is_bad else [])).split("\n")))
    words = [it.sentence for it in told if it.word in ("bad", "hint") and it.sentence]
    lines = tuple(_bad_line(it) for it in told if it.word == "line")
    return Reason("\n".join(words), lines)


def reason_of_solid(engine: Engine, content: Content, number: int, verdict: Verdict) -> Reason:
    where = Where(_ask(engine, content, str(number)))
    told = where.hints or where.rules
    lines = lines_in(where)
    if verdict.entity is not None and verdict.entity not in where.entities:
        lines = lines_in(Where(_ask(engine, content, str(verdict.entity)))) + lines
    # The failing record comes first, and of its lines the one with the wrong value.
    failing = f"entity {verdict.entity} "
    lines.sort(key=lambda it: (not it.holds.startswith(failing), it.column is None))
    meaning, remedy = MEANINGS.get(verdict.rule or "", ""), first_words(where)
    said = [f"{meaning[:1].upper()}{meaning[1:]}.", f"{remedy[:1].upper()}{remedy[1:]}." if remedy else "", _sentences(told)]
    return Reason(" ".join(filter(None, said)), tuple(lines[:PLACES]))


def _sentences(told: Sequence[Holder]) -> str:
    """The sentence of the first rule or hint, and of the steps of a remedy."""
    first = told[0]
    return " ".join(filter(None, [first.sentence, *(it.sentence for it in first.items)]))


def _bad_line(line: Paragraph) -> Lines:
    told = {name: value for fact in line.facts for name, value in fact.told.items()}
    return Lines(line.number("line"), line.number("line"), told.get("text", "empty"), int(told["column"]) if "column" in told else None)


def _wrong_value(item: Paragraph) -> List[Lines]:
    facts = {it.word: it for it in item.facts}
    if "value" not in facts or "line" not in facts:
        return []
    value, line = facts["value"], facts["line"]
    is_missing = "values" in facts and value.number("value") > facts["values"].number("values")
    has = f"ends before its value {value.told['value']}" if is_missing else f"has {value.told['found']} as value {value.told['value']}"
    return [Lines(line.number("line"), line.number("line"), f"entity {item.told['entity']} {has}", line.number("column"))]


def lines_in(where: Where) -> List[Lines]:
    """The lines of a wrong value, if one is named, and those of the records of all entities that `where` describes."""
    found = [it for rule in where.rules for item in rule.items for it in _wrong_value(item)]
    for number, entity in where.entities.items():
        lines = next(it for it in entity.facts if it.word == "lines")
        found.append(Lines(lines.number("first"), lines.number("last"), f"entity {number} ({entity.told['type']})"))
    return found
