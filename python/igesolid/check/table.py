"""The table in which results are remembered. They hold as long as the program and the file's bytes are the same."""
import csv
import itertools
import pathlib
from typing import Any, Dict, Iterable, List, NamedTuple, Optional

from .report import COLUMNS, Report, report_of_rows, rows_of
from .writing import write_whole

CODING: Any = dict(newline="", encoding="utf-8", errors="surrogateescape")


class NoTable(Exception):
    """The table can't be used."""


class Key(NamedTuple):
    """What determines a verdict."""

    program: Optional[str]
    size: Optional[int]
    sha256: Optional[str]


def write_rows(out: Any, reports: Iterable[Report]) -> None:
    writer = csv.DictWriter(out, COLUMNS, lineterminator="\n")
    writer.writeheader()
    for report in reports:
        writer.writerows(rows_of(report))


def _reports_in(path: pathlib.Path) -> List[Report]:
    if not path.exists() or (path.is_file() and path.stat().st_size == 0):
        return []
    with open(path, **CODING) as rows:
        reader = csv.DictReader(rows)
        if tuple(reader.fieldnames or ()) not in (COLUMNS, COLUMNS[:-1]):
            raise NoTable(f"{path} isn't a table that igesolid check wrote, so it stays as it is")
        try:
            return [report_of_rows(group) for _, group in itertools.groupby(reader, lambda row: row["file"])]
        except (ValueError, KeyError, TypeError):
            raise NoTable(f"{path}: line {reader.line_num} isn't a row of igesolid check, so the table stays as it is") from None


class Table:
    """The reports of an earlier run, by what determines them and by file; none if the table isn't there yet."""

    def __init__(self, path: pathlib.Path):
        self.path = path
        try:
            earlier = _reports_in(path)
        except OSError as fault:
            raise NoTable(f"{path}: {fault.strerror}") from fault
        except csv.Error as fault:
            raise NoTable(f"{path} isn't a table that igesolid check wrote, so it stays as it is: {fault}") from None
        self.by_key: Dict[Key, Report] = {Key(it.program, it.size, it.sha256): it for it in earlier if it.is_judged}
        self.by_file: Dict[str, Report] = {it.file: it for it in earlier}
        self.sizes = {key.size for key in self.by_key}

    def write(self, names: Iterable[str], done: Dict[str, Report]) -> None:
        """Writes the reports of these files; of a file that isn't done the earlier one."""
        known = {**self.by_file, **done}
        with write_whole(self.path, **CODING) as out:
            write_rows(out, (known[name] for name in names if name in known))
