"""Reports that build servers read, each a file of its own."""
import pathlib
from typing import Any, Dict, List, Optional

from ..content import Content
from ..engine import Engine
from . import junit, sarif
from .html_report import NoReport
from .reasons import Reasons
from .report import Report
from .writing import write_whole

# The forms, by the names of their options; each module has a MARK and text_of.
FORMS: Dict[str, Any] = {"junit": junit, "sarif": sarif}
ABOUT = {
    "junit": "write a report there as JUnit XML: a suite is a file, a case a solid",
    "sarif": "write a report there as SARIF 2.1.0: each failure at its line of the file",
}


class BuildReports:
    """The files that are wanted, by the names of their forms."""

    def __init__(self, paths: Dict[str, pathlib.Path], engine: Engine):
        self.paths, self.reasons = paths, Reasons(engine)
        self._not_written: Optional[str] = None

    @property
    def fault(self) -> Optional[str]:
        return self._not_written or self.reasons.fault

    def start(self) -> None:
        """Writes each file before the work rather than after it, unless something else lies there."""
        for form, path in self.paths.items():
            try:
                if path.exists() and not _is_own(path, FORMS[form].MARK):
                    raise NoReport(f"{path} isn't a report that igesolid check wrote, so it stays as it is")
                self._write(form, path, [], "nothing is judged yet")
            except OSError as fault:
                raise NoReport(f"{path} can't be written: {fault.strerror}") from fault

    def draw(self, report: Report, content: Optional[Content] = None) -> None:
        self.reasons.draw(report, content)

    def write_index(self, reports: List[Report], left: int, is_interrupted: bool = False) -> None:
        """Writes what is done."""
        cut = f"{left:,} files aren't judged{': the run was interrupted' if is_interrupted else ' yet'}" if left else None
        for form, path in self.paths.items():
            try:
                self._write(form, path, reports, cut)
            except OSError as fault:
                self._not_written = f"{path}: {fault.strerror}"

    def _write(self, form: str, path: pathlib.Path, reports: List[Report], cut: Optional[str]) -> None:
        with write_whole(path.resolve(), "wb") as out:
            out.write(FORMS[form].text_of(reports, self.reasons, cut))


def _is_own(path: pathlib.Path, mark: bytes) -> bool:
    """Whether a file is empty, or one that such a report takes the place of."""
    if not path.is_file():
        return False
    with open(path, "rb") as file:
        return file.read(len(mark)) in (b"", mark)
