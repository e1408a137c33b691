"""The report on a file: remembered in the table, or from the program."""
import hashlib
import os
import pathlib
import sys
from typing import Any, Dict, List, Mapping, Optional, Tuple

from ..content import Content, content_of_file, content_of_path
from ..engine import Engine
from ..errors import Error, NotRead, TooLarge
from ..files import File, Solid
from ..remedies import first_words
from ..saying import NOT_WRITTEN
from ..where_lines import MENDED_RULES
from .report import STANDARD_INPUT, Fault, Report, SolidReport, fault_of
from .table import Key, Table
from .writing import write_whole


# Of so many failing solids of a file the first remedy is told.
REMEDIES = 10


class Judge:
    """Reports on files. With certificates, that of each closed solid N of part.igs is written beside it, as part.igs.N.cert; and
    what is written of files is told of each."""

    def __init__(self, engine: Engine, table: Optional[Table], has_certificates: bool, written: Mapping[str, Any]):
        self.engine, self.table, self.has_certificates, self.written = engine, table, has_certificates, written
        self.program = engine.identity()

    def report(self, name: str) -> Report:
        try:
            content = _content(name)
        except (Error, MemoryError) as fault:
            return Report(name, fault=fault_of(fault))
        return self._drawn(self._remembered(name, content) or self._judged(name, content), content)

    def remembered(self, name: str) -> Optional[Report]:
        """The report in the table; None if the file must be judged, which is told by its size alone if no file in the table has it."""
        try:
            if self.table is None or os.stat(name).st_size not in self.table.sizes:
                return None
            content = _content(name)
            found = self._remembered(name, content)
            return found and self._drawn(found, content)
        except (Error, MemoryError, OSError):
            return None

    def _remembered(self, name: str, content: Content) -> Optional[Report]:
        found = self.table.by_key.get(Key(self.program, content.size, content.sha256)) if self.table else None
        if found is None or (self.has_certificates and not _has_certificates(name, found)):
            return None
        return found._replace(file=name, is_remembered=True)

    def _drawn(self, report: Report, content: Content) -> Report:
        for it in self.written.values():
            it.draw(report, content)
        return report

    def _judged(self, name: str, content: Content) -> Report:
        report = Report(name, content.size, content.sha256, self.program)
        try:
            solids = File(content, self.engine).solids
        except TooLarge as fault:
            return Report(name, fault=fault_of(fault))
        except (Error, MemoryError) as fault:
            report = report._replace(fault=fault_of(fault))
            solids = []
        report = report._replace(solids=_with_remedies(solids))
        return _with_certificates(report, solids) if self.has_certificates and report.is_judged else report


def _with_remedies(solids: List[Solid]) -> Tuple[SolidReport, ...]:
    """What is told of solids. Each remedy is an answer of its own, of the whole file, so those of the first that fail are asked for."""
    failing = [it for it in solids if it.verdict.rule in MENDED_RULES][:REMEDIES]
    words = {it.number: _remedy(it) for it in failing}
    return tuple(SolidReport(it.number, it.verdict, remedy=words.get(it.number)) for it in solids)


def _remedy(solid: Solid) -> Optional[str]:
    try:
        return first_words(solid.where) or None
    except (Error, MemoryError):
        return None


def _content(name: str) -> Content:
    if name != STANDARD_INPUT:
        return content_of_path(name)
    if sys.stdin is None:
        raise NotRead("standard input is closed")
    return content_of_file(sys.stdin.buffer)


def certificate_path(name: str, number: int) -> pathlib.Path:
    return pathlib.Path(f"{name}.{number}.cert")


def _has_certificates(name: str, report: Report) -> bool:
    """Whether the certificate that was written of each closed solid lies beside the file."""
    closed = [it for it in report.solids if it.verdict.is_closed]
    return all(it.certificate and it.certificate == _sum_of(certificate_path(name, it.number)) for it in closed)


def _sum_of(path: pathlib.Path) -> Optional[str]:
    try:
        return hashlib.sha256(path.read_bytes()).hexdigest()
    except OSError:
        return None


def _with_certificates(report: Report, solids: List[Solid]) -> Report:
    """Writes the certificate of each closed solid, and removes those that an earlier run wrote of others."""
    written: Dict[int, str] = {}
    try:
        for solid in solids:
            if solid.verdict.is_closed:
                written[solid.number] = _write_certificate(certificate_path(report.file, solid.number), solid)
        for number, path in _certificates_beside(report.file):
            if number not in written:
                path.unlink()
    except (Error, MemoryError) as fault:
        report = report._replace(fault=fault_of(fault))
    except OSError as fault:
        report = report._replace(fault=Fault(NOT_WRITTEN, f"certificate: {fault.strerror or fault}"))
    return report._replace(solids=tuple(it._replace(certificate=written.get(it.number)) for it in report.solids))


def _write_certificate(path: pathlib.Path, solid: Solid) -> str:
    text = solid.certificate or b""
    with write_whole(path, "wb") as out:
        out.write(text)
    return hashlib.sha256(text).hexdigest()


def _certificates_beside(name: str) -> List[Tuple[int, pathlib.Path]]:
    path = pathlib.Path(name)
    begin, end = f"{path.name}.", ".cert"
    found = [it for it in path.parent.iterdir() if it.name.startswith(begin) and it.name.endswith(end)]
    return [(int(it.name[len(begin) : -len(end)]), it) for it in found if it.name[len(begin) : -len(end)].isdecimal()]
