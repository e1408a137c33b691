"""Runs parts of the tests, each in a process and a folder of its own, as many at once as there are processors. Needs Linux."""
import dataclasses
import multiprocessing
import multiprocessing.connection
import os
import pathlib
import resource
import shutil
import signal
import sys
import tempfile
import time
import traceback

from part import Context

INTERVAL = 0.2
START = multiprocessing.get_context("fork")
PASSED, FAILED, SKIPPED, ENDED = "passed", "failed", "skipped", "ended"


class Screen:
    """Lines on standard output; and on a terminal one line on standard error that changes."""

    def __init__(self):
        self.is_terminal, self.begun = sys.stderr.isatty(), time.monotonic()

    def change(self, text):
        if self.is_terminal:
            width = os.get_terminal_size(sys.stderr.fileno()).columns or 80
            sys.stderr.write(f"\r\033[K{text[: width - 1]}")
            sys.stderr.flush()

    def line(self, text):
        self.change("")
        print(text, flush=True)

    def progress(self, results, waiting):
        running = [result.name for result in results if result.seconds is None]
        ended = len(results) - len(running)
        passed, failed = totals(results)
        seconds = int(time.monotonic() - self.begun)
        self.change(f"{ended} of {len(results) + len(waiting)} parts, {passed} passed, {failed} failed, {seconds} s, now {' '.join(running)}")


@dataclasses.dataclass
class Result:
    """What is known of a part so far; the seconds of processor time once it has ended."""

    name: str
    passed: int = 0
    failed: int = 0
    seconds: float | None = None


def totals(results):
    return sum(result.passed for result in results), sum(result.failed for result in results)


class Reporter:
    """Tells the process that started a part what the part finds: each check that fails, and now and then how many held."""

    def __init__(self, connection):
        self.connection, self.passed, self.told, self.is_empty = connection, 0, time.monotonic(), True

    def check(self, name, held):
        self.is_empty = False
        if held:
            self.passed += 1
        else:
            self.connection.send((FAILED, name))
        if time.monotonic() - self.told > INTERVAL:
            self.tell()

    def tell(self):
        self.connection.send((PASSED, self.passed))
        self.passed, self.told = 0, time.monotonic()

    def skipped(self, what):
        self.is_empty = False
        self.connection.send((SKIPPED, what))

    def end(self):
        self.tell()
        used = (resource.getrusage(whose) for whose in (resource.RUSAGE_SELF, resource.RUSAGE_CHILDREN))
        self.connection.send((ENDED, sum(it.ru_utime + it.ru_stime for it in used)))


def run_part(part, programs, folder, share, connection):
    """Runs a part in this process, which was started for it and ends with it, or by the signal that ends the whole run."""
    for number in (signal.SIGINT, signal.SIGTERM):
        signal.signal(number, signal.SIG_DFL)
    os.environ["TMPDIR"] = tempfile.tempdir = str(folder)
    os.chdir(folder)
    reporter = Reporter(connection)
    try:
        for name, held in part.checks(Context(folder, programs, reporter.skipped, share)):
            reporter.check(name, held)
    except Exception:
        reporter.check(f"{part.name}: {traceback.format_exc()}", False)
    if reporter.is_empty:
        reporter.check(f"{part.name}: nothing was checked", False)
    reporter.end()


class Run:
    """A run of parts, whose results come in the order in which they were started."""

    def __init__(self, parts, programs, folder, share):
        self.waiting, self.programs, self.folder, self.share, self.screen = list(parts), programs, folder, share, Screen()
        self.results, self.running = [], {}

    def start(self):
        part = self.waiting.pop(0)
        folder = self.folder / part.name
        folder.mkdir()
        folder.chmod(0o755)
        receiver, sender = START.Pipe(duplex=False)
        process = START.Process(target=run_part, args=(part, self.programs, folder, self.share, sender))
        process.start()
        sender.close()
        self.results.append(Result(part.name))
        self.running[receiver] = self.results[-1], process, folder

    def fail(self, result, text):
        result.failed += 1
        self.screen.line(text)

    def heed(self, receiver):
        """Takes one message of a part, or its end."""
        result, process, folder = self.running[receiver]
        try:
            kind, value = receiver.recv()
        except EOFError:
            process.join()
            if result.seconds is None:
                result.seconds = 0.0
                self.fail(result, f"{result.name}: its process ended with status {process.exitcode}")
            del self.running[receiver]
            shutil.rmtree(folder, ignore_errors=True)
            return
        if kind == PASSED:
            result.passed += value
        elif kind == FAILED:
            self.fail(result, value)
        elif kind == SKIPPED:
            self.screen.line(f"skipped: {value}")
        else:
            result.seconds = value

    def all(self):
        while self.waiting or self.running:
            while self.waiting and len(self.running) < len(os.sched_getaffinity(0)):
                self.start()
            for receiver in multiprocessing.connection.wait(list(self.running), INTERVAL):
                self.heed(receiver)
            self.screen.progress(self.results, self.waiting)
        self.screen.change("")
        return self.results


def run(parts, programs, share=1):
    """The results of parts."""
    folder = pathlib.Path(tempfile.mkdtemp(prefix="igesolid-tests-"))
    folder.chmod(0o755)
    try:
        return Run(parts, programs, folder, share).all()
    finally:
        for process in multiprocessing.active_children():
            process.terminate()
            process.join()
        shutil.rmtree(folder, ignore_errors=True)
