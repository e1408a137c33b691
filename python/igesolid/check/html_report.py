"""The report of `--html`: an index of all files, and a page of each failing solid. All of it works from a folder, without a network."""
import hashlib
import os
import pathlib
import re
from typing import Dict, List, NamedTuple, Optional, Set, Tuple

from ..content import Content, content_of_path
from ..engine import Engine
from ..errors import BadFile, Error
from ..page import filled, packed, template
from ..saying import printable
from .html_index import MARK, Row, index_of
from .output import total_of
from .report import STANDARD_INPUT, Report
from .writing import write_whole

INDEX, PAGES, MOST_PAGES = "index.html", "pages", 100
MEANINGS = {
    "ENTRY": "a dangling pointer",
    "TYPE": "an entity of the wrong type or form",
    "RECORD": "parameters that don't fit their entity",
    "ONCE": "a shell, face or loop that occurs twice",
    "INDEX": "no such edge or vertex in its list",
    "GEOMETRY": "a curve or surface that is missing, or is topology",
    "JOIN": "a loop whose edges aren't joined head to tail",
    "PAIR": "a free edge, a non-manifold edge, or faces of opposite orientation",
    "REACH": "several lumps in one shell",
    "LINK": "a non-manifold vertex",
    "APART": "shells that touch at a vertex",
}
# Of `where`: a hint on what fails, or the verdict on a bad file, and the sentence below it.
SENTENCES = [re.compile(rf"(?m)^{head} .*\n((?:  .*\n?)+)") for head in ("hint(?! layout$)", "bad file")]
# How many edges of a shell aren't paired, and in which way.
UNPAIRED = re.compile(r"(?m)^rule PAIR .* once (\d+) same-way (\d+) many (\d+)$")
WAYS = "used by one face alone", "used twice in the same direction", "used more than twice"


class NoReport(Exception):
    """The report can't be written."""


class Drawn(NamedTuple):
    """What the index has of a solid, or of a bad file: the name of its page, and what `where` tells of it, in a few words."""

    page: str
    words: str


class HtmlReport:
    """A folder with the index and the pages. A page is named by its file and solid, so that a later run writes it anew."""

    def __init__(self, folder: pathlib.Path, engine: Engine):
        self.folder, self.engine = folder, engine
        self.drawn: Dict[Tuple[str, int], Drawn] = {}
        self.fault: Optional[str] = None
        self.template = b""

    def start(self) -> None:
        """Makes the folder before the work, and what is needed of the template."""
        index = self.folder / INDEX
        try:
            self.template = template()
            (self.folder / PAGES).mkdir(parents=True, exist_ok=True)
            if index.exists() and not index.read_bytes().startswith(MARK):
                raise NoReport(f"{index} isn't an index that igesolid check wrote, so it stays as it is")
            self._write(index, index_of([], "Nothing is judged yet."))
        except OSError as fault:
            raise NoReport(f"{self.folder}: no report can be written there: {fault.strerror}") from fault

    def draw(self, report: Report, content: Optional[Content] = None) -> None:
        """Writes the pages of a file: of each failing solid, or of a bad file; others of an earlier run go."""
        wanted = {number: page_name(report.file, number) for number in pages_of(report)}
        try:
            self._remove_others(report.file, set(wanted.values()))
            if wanted:
                self._draw_all(report, wanted, content or content_of_path(report.file))
        except (Error, OSError, MemoryError) as fault:
            self.fault = f"{printable(report.file)}: {getattr(fault, 'strerror', None) or fault or 'out of memory'}"

    def _draw_all(self, report: Report, wanted: Dict[int, str], content: Content) -> None:
        if content.sha256 != report.sha256:
            raise Error("the file changed after it was judged")
        file = packed(content.bytes)
        name = os.fsencode("standard input" if report.file == STANDARD_INPUT else os.path.basename(report.file))
        for number, page in wanted.items():
            text = self.engine.ask("where", content, str(number or 1), "all").text
            self._write(self.folder / PAGES / page, filled(self.template, name, str(number) if number else "", text, file))
            self.drawn[report.file, number] = Drawn(page, words_in(text.decode("utf-8", "replace")))

    def _remove_others(self, file: str, pages: Set[str]) -> None:
        for path in (self.folder / PAGES).glob(f"*-{key_of(file)}.html"):
            if path.name not in pages:
                path.unlink()

    def write_index(self, reports: List[Report], left: int, is_interrupted: bool = False) -> None:
        """Writes the index of what is done."""
        told = total_of(reports)
        if left:
            told += f". {left:,} files aren't judged{': the run was interrupted' if is_interrupted else ' yet'}"
        try:
            self._write(self.folder / INDEX, index_of([row_of(it, self.drawn) for it in reports], f"{told}."))
        except OSError as fault:
            self.fault = f"{self.folder / INDEX}: {fault.strerror}"

    def _write(self, path: pathlib.Path, data: bytes) -> None:
        with write_whole(path, "wb") as out:
            out.write(data)


def pages_of(report: Report) -> List[int]:
    """The solids of a file that have a page, each with the whole file in it, so many at most; 0 stands for a bad file."""
    is_bad = report.fault is not None and report.fault.status == BadFile.status
    return [0] if is_bad else [it.number for it in report.failing[:MOST_PAGES]]


def key_of(file: str) -> str:
    return hashlib.sha256(os.fsencode(file)).hexdigest()[:12]


def page_name(file: str, number: int) -> str:
    """The name of a page: some letters of its file's, the solid, and what tells files of one name apart."""
    stem = re.sub(r"[^A-Za-z0-9_.]+", "_", pathlib.PurePath(file).stem)[:40]
    return f"{stem}-{number}-{key_of(file)}.html"


def words_in(text: str) -> str:
    """The first sentence of the first hint, or of what is said of a bad file; or how edges aren't paired."""
    found = next(filter(None, (sentence.search(text) for sentence in SENTENCES)), None)
    if found:
        return re.split(r"(?<=[.:]) ", " ".join(found[1].split()))[0].rstrip(":")
    unpaired = UNPAIRED.search(text)
    counts = zip(unpaired.groups(), WAYS) if unpaired else ()
    return ", ".join(f"{count} {'edge' if count == '1' else 'edges'} {way}" for count, way in counts if count != "0")


def reason_of(report: Report, drawn: Dict[Tuple[str, int], Drawn]) -> str:
    """Why a file isn't closed: the first solid that fails, and in words."""
    fault = report.fault
    if fault is not None:
        told = drawn.get((report.file, 0))
        cause = f"line {fault.line} {fault.reason}" if fault.line else fault.reason
        return f"{cause}: {told.words}" if told and told.words else cause
    if not report.failing:
        return "" if report.solids else "no solid (entity 186)"
    first = report.failing[0]
    told = drawn.get((report.file, first.number))
    words = told.words if told and told.words else MEANINGS.get(first.verdict.rule or "", "")
    return f"solid {first.number}: {first.verdict}: {first.remedy or words}"


def row_of(report: Report, drawn: Dict[Tuple[str, int], Drawn]) -> Row:
    numbers = [number for number in pages_of(report) if (report.file, number) in drawn]
    pages = [[f"{PAGES}/{drawn[report.file, number].page}", f"solid {number}" if number else "lines"] for number in numbers]
    count = len(report.solids)
    return [shown(report.file), report.word, count, count - len(report.failing), shown(reason_of(report, drawn)), pages]


def shown(text: str) -> str:
    """What a browser shows of a name: a byte that isn't UTF-8 as a question mark."""
    return printable(text).encode("utf-8", "replace").decode()
