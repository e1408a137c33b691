"""The words of `igesolid check`, and its run."""
import argparse
import os
import pathlib
import queue
import sys
from typing import TYPE_CHECKING, Dict, List, Optional, Sequence, Union

from ..engine import Engine, Program, launcher
from ..errors import Error, NoMemory
from ..files import default_engine
from ..saying import NOT_WRITTEN, Failed, print_all, say
from .build_reports import ABOUT, BuildReports
from .events import Event, Events, Interrupted, Progress, gather, signals_into
from .html_report import HtmlReport, NoReport
from .judging import Judge
from .local import Threads
from .names import Meant
from .output import csv_of, json_of, text_of, text_of_one
from .report import NOT_CLOSED, STANDARD_INPUT, Report
from .table import NoTable, Table

if TYPE_CHECKING:
    from .cluster import Cluster

DESCRIPTION = """Judges whether all solids of IGES files are closed. Of a folder it takes the files in it and below it
whose names end in .igs or .iges, in any case. It prints a line for each file and a total; of a
single file a line for each solid, with the command that shows where it fails."""
ENDING = """Status: 0 if there is a solid and all solids of all files are closed; 1 if one isn't, or there is none;
otherwise the greatest of 3 (bad file), 4 (not read), 5 (not written), 6 (no memory), 8 (too large),
125 (not judged). An interrupted run reports what is done."""
# So many files are judged before the table is written again, so that a crash loses little.
FILES_BETWEEN_TABLES = 1_000
USAGE = 2
Stage = Union[Threads, "Cluster"]
Written = Union[HtmlReport, BuildReports]


def parser() -> argparse.ArgumentParser:
    found = argparse.ArgumentParser(prog="igesolid check", description=DESCRIPTION, epilog=ENDING, formatter_class=argparse.RawDescriptionHelpFormatter)
    found.add_argument("words", nargs="*", metavar="FILE|FOLDER", help="what to judge; - is standard input")
    found.add_argument("--files-from", metavar="LIST", help="also the files that are named in this file, one a line; - is standard input")
    form = found.add_mutually_exclusive_group()
    form.add_argument("--json", action="store_true", help="print JSON")
    form.add_argument("--csv", action="store_true", help="print comma-separated values")
    found.add_argument("--table", type=pathlib.Path, metavar="FILE", help="remember results in this table, and judge only what it doesn't have")
    found.add_argument("--html", type=pathlib.Path, metavar="FOLDER", help="write a report there: index.html, and a page of each failing solid")
    for written, about in ABOUT.items():
        found.add_argument(f"--{written}", type=pathlib.Path, metavar="FILE", help=about)
    found.add_argument("--certificates", action="store_true", help="write the certificate of each closed solid N of part.igs as part.igs.N.cert")
    found.add_argument("--jobs", type=_positive, metavar="N", default=_processors(), help="judge N files at once; default: one a processor")
    found.add_argument("--dask", metavar="SCHEDULER", help="let a Dask cluster judge the files: the scheduler's address, or its scheduler file")
    found.add_argument("--worker-program", metavar="FILE", help="with --dask: the launcher igesolid on the workers, if it is elsewhere than here")
    found.add_argument("--program", metavar="FILE", help=argparse.SUPPRESS)
    found.add_argument("--where-program", metavar="FILE", help=argparse.SUPPRESS)
    return found


def _processors() -> int:
    return len(os.sched_getaffinity(0)) if hasattr(os, "sched_getaffinity") else os.cpu_count() or 1


def _positive(word: str) -> int:
    number = int(word)
    if number < 1:
        raise ValueError
    return number


def arguments(words: Optional[List[str]]) -> argparse.Namespace:
    it = parser()
    given = it.parse_args(words)
    if not given.words and not given.files_from:
        it.error("name a FILE or a FOLDER, or give --files-from")
    if STANDARD_INPUT in given.words and (given.certificates or given.dask or given.files_from == STANDARD_INPUT):
        it.error("standard input can't be judged with --certificates, --dask or --files-from -")
    if given.worker_program and not given.dask:
        it.error("--worker-program is for --dask")
    return given


def written_by(given: argparse.Namespace, engine: Engine) -> Dict[str, Written]:
    """The reports that are written beside what is printed, by what they are called."""
    paths = {form: getattr(given, form) for form in ABOUT if getattr(given, form)}
    pages: Dict[str, Written] = {str(given.html): HtmlReport(given.html, engine)} if given.html else {}
    return {**pages, **({", ".join(map(str, paths.values())): BuildReports(paths, engine)} if paths else {})}


class Run:
    """One run of the command: what is meant, and what is done of it."""

    def __init__(self, given: argparse.Namespace):
        self.given = given
        self.table = Table(given.table) if given.table else None
        self.engine = Program(given.program, given.where_program) if given.program or given.where_program else default_engine()
        self.written = written_by(given, self.engine)
        self.judge = Judge(self.engine, self.table, given.certificates, self.written)
        self.meant = Meant(given.words, given.files_from)
        self.done: Dict[str, Report] = {it.file: it for it in self.meant.unread}
        self.progress = Progress(len(self.meant.files))
        self.fault: Optional[OSError] = None

    @property
    def reports(self) -> List[Report]:
        return [self.done[name] for name in self._names() if name in self.done]

    def _names(self) -> List[str]:
        return [*self.meant.files, *(it.file for it in self.meant.unread)]

    def stages(self) -> List[Stage]:
        """Who judges; each leaves to the next what it says nothing of."""
        given = self.given
        if not given.dask:
            return [Threads(self.judge.report, given.jobs, self.engine.stop)]
        # What it needs takes as long to import as all else.
        from .cluster import Cluster

        command = [given.worker_program or launcher(), "check", "--json", "--jobs", "1", *(["--certificates"] if given.certificates else [])]
        return [Threads(self.judge.remembered, given.jobs, self.engine.stop), Cluster(given.dask, command, say)]

    def judge_all(self, events: "Events[Event]") -> None:
        left = self.meant.files
        for stage in self.stages():
            stage.start(left, events)
            try:
                for name, report in gather(events, len(left)):
                    if report:
                        self._add(name, report)
            finally:
                stage.stop()
            left = [name for name in left if name not in self.done]

    def _add(self, name: str, report: Report) -> None:
        self.done[name] = report
        if self.given.dask and not report.is_remembered:
            for it in self.written.values():
                it.draw(report)
        self.progress.add(report)
        if len(self.done) % FILES_BETWEEN_TABLES == 0:
            self._save()
            self._save_index()

    def _save(self) -> None:
        """Writes the table, if there is one; a fault of it doesn't end the run."""
        try:
            if self.table:
                self.table.write(self._names(), self.done)
            self.fault = None
        except OSError as fault:
            self.fault = fault

    def _save_index(self, is_interrupted: bool = False) -> None:
        for it in self.written.values():
            it.write_index(self.reports, len(self._names()) - len(self.done), is_interrupted)

    def run(self, noted: Sequence[int]) -> Optional[int]:
        """Judges all; the number of the signal that interrupted it, if one did, or that was noted before."""
        events: "Events[Event]" = queue.SimpleQueue()
        with signals_into(events, noted):
            self._save()
            if self.fault:
                # Before the work rather than after it.
                raise NoTable(f"{self.given.table} can't be written: {self.fault.strerror}")
            for it in self.written.values():
                it.start()
            self.progress.show()
            number = None
            try:
                self.judge_all(events)
            except Interrupted as fault:
                number = fault.number
            finally:
                self.progress.clear()
                self._save()
                self._save_index(number is not None)
            return number

    def text(self, status: int, is_interrupted: bool) -> str:
        reports = self.reports
        if self.given.json:
            return json_of(reports, status, is_interrupted)
        if self.given.csv:
            return csv_of(reports)
        is_one_file = not self.given.files_from and self.given.words == self.meant.files and len(self.meant.files) == 1
        return text_of_one(reports[0]) if is_one_file and reports else text_of(reports)


def status_of(reports: List[Report]) -> int:
    return max((report.status for report in reports), default=NOT_CLOSED)


def perform(given: argparse.Namespace, noted: Sequence[int]) -> int:
    run = Run(given)
    signal_number = run.run(noted)
    status = status_of(run.reports)
    if run.meant.passed:
        say(f"passed over in folders: {len(run.meant.passed):,} that are no files, or links to folders; the first is {run.meant.passed[0]}")
    if run.fault:
        say(f"{given.table} can't be written: {run.fault.strerror}")
        status = max(status, NOT_WRITTEN)
    for name, written in run.written.items():
        if written.fault and signal_number is None:
            say(f"{name}: the report isn't whole: {written.fault}")
            status = max(status, NOT_WRITTEN)
    if signal_number is not None:
        say(f"interrupted: {len(run.reports):,} of {len(run.meant.files):,} files are judged")
        status = 128 + signal_number
    elif not run.reports:
        say("there is no file to judge: names must end in .igs or .iges")
    print_all(run.text(status, signal_number is not None))
    return status


def main(words: Optional[List[str]] = None, noted: Sequence[int] = ()) -> int:
    """`noted` are the numbers of signals that came before, to which more may be added meanwhile."""
    given = arguments(words)
    try:
        return perform(given, noted)
    except Failed as fault:
        say(fault.says)
        return fault.status
    except (NoTable, NoReport) as fault:
        say(str(fault))
        return USAGE
    except Error as fault:
        say(str(fault))
        return fault.status
    except MemoryError:
        say("out of memory")
        return NoMemory.status
