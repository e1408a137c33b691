"""Reports as they come in, until all are there or a signal asks to end, and the line that shows how far it is."""
import contextlib
import queue
import signal
import sys
from typing import Iterator, NamedTuple, Optional, Sequence, Union

from .report import CLOSED, Report

# Those that the system has.
SIGNALS = [getattr(signal, name) for name in ("SIGINT", "SIGTERM", "SIGHUP") if hasattr(signal, name)]


class Signalled(NamedTuple):
    """A signal asked this process to end."""

    number: int


class Done(NamedTuple):
    """What a stage says of a file; nothing if it is left to the next stage."""

    file: str
    report: Optional[Report]


# What comes in; an exception is one that nobody expected.
Event = Union[Done, Signalled, BaseException]
Events = queue.SimpleQueue


class Interrupted(Exception):
    """A signal came before all was done."""

    def __init__(self, number: int):
        super().__init__(number)
        self.number = number


@contextlib.contextmanager
def signals_into(events: "Events[Event]", noted: Sequence[int]) -> Iterator[None]:
    """A signal becomes an event meanwhile, unless this process was started to ignore it; so does one that was noted before. What comes after ends
    the process."""
    heeded = [number for number in SIGNALS if signal.getsignal(number) is not signal.SIG_IGN]
    for number in heeded:
        signal.signal(number, lambda number, _: events.put(Signalled(number)))
    for number in noted:
        events.put(Signalled(number))
    try:
        yield
    finally:
        for number in heeded:
            signal.signal(number, signal.SIG_DFL)


def gather(events: "Events[Event]", count: int) -> Iterator[Done]:
    """What comes in of so many files."""
    for _ in range(count):
        event = events.get()
        if isinstance(event, Signalled):
            raise Interrupted(event.number)
        if isinstance(event, BaseException):
            raise event
        yield event


class Progress:
    """One line on standard error that changes, if that is a terminal."""

    def __init__(self, total: int):
        self.total, self.done, self.failing = total, 0, 0
        self.is_shown = sys.stderr is not None and sys.stderr.isatty()

    def add(self, report: Report) -> None:
        self.done += 1
        self.failing += report.status != CLOSED
        self.show()

    def show(self) -> None:
        if self.is_shown:
            self._write(f"\r\033[Kigesolid: {self.done} of {self.total} files, {self.failing} not closed")

    def clear(self) -> None:
        if self.is_shown:
            self._write("\r\033[K")

    def _write(self, text: str) -> None:
        try:
            sys.stderr.write(text)
            sys.stderr.flush()
        except OSError:
            self.is_shown = False
