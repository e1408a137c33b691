"""Files judged on this machine, several at once."""
import queue
import threading
from typing import Callable, List, Optional

from .events import Done, Event, Events
from .report import Report

SECONDS_TO_END = 2


class Threads:
    """Threads that each take the next file until none is left."""

    def __init__(self, report: Callable[[str], Optional[Report]], count: int, end_all: Callable[[], None]):
        self.report, self.count, self.end_all = report, count, end_all
        self.left: "queue.SimpleQueue[str]" = queue.SimpleQueue()
        self.threads: List[threading.Thread] = []

    def start(self, names: List[str], events: "Events[Event]") -> None:
        for name in names:
            self.left.put(name)
        for _ in range(min(self.count, len(names))):
            thread = threading.Thread(target=self._work, args=(events,), daemon=True)
            self.threads.append(thread)
            thread.start()

    def stop(self) -> None:
        """Ends what runs, and waits for the threads as long as that may take; a read that never ends is left alone."""
        while self._next() is not None:
            pass
        if any(thread.is_alive() for thread in self.threads):
            self.end_all()
        for thread in self.threads:
            thread.join(SECONDS_TO_END)

    def _next(self) -> Optional[str]:
        try:
            return self.left.get_nowait()
        except queue.Empty:
            return None

    def _work(self, events: "Events[Event]") -> None:
        while True:
            name = self._next()
            if name is None:
                return
            try:
                events.put(Done(name, self.report(name)))
            except BaseException as fault:
                events.put(fault)
                return
