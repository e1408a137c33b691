"""Files judged by the workers of a Dask cluster, each by a run of `igesolid check --json` there."""
import asyncio
import contextlib
import importlib
import json
import logging
import os
import subprocess
import threading
import warnings
from typing import Any, Callable, List

from ..errors import Error
from .events import Done, Event, Events
from .report import Fault, Report, report_of_dict

# How often a file is tried again if its run raises an exception. A file whose worker is lost goes to another one by itself.
RETRIES = 3
SECONDS_TO_CONNECT = 30


class NoCluster(Error):
    """The cluster can't be used."""


def _distributed() -> Any:
    try:
        distributed = importlib.import_module("distributed")
    except ImportError as fault:
        raise NoCluster(f"--dask needs the Python package distributed (Debian: python3-distributed): {fault}") from None
    # What fails is in the reports; what the library logs and warns of would come between them.
    logging.disable(logging.CRITICAL)
    warnings.simplefilter("ignore")
    return distributed


class Cluster:
    """A cluster, by the address of its scheduler or the file that names it, and the command that is run on a worker for a file."""

    def __init__(self, scheduler: str, command: List[str], say: Callable[[str], None]):
        self.scheduler, self.command, self.say = scheduler, command, say
        self.distributed = _distributed()
        self.client: Any = None

    def start(self, names: List[str], events: "Events[Event]") -> None:
        # Connecting and submitting may take long, and a signal mustn't wait for them.
        threading.Thread(target=self._work, args=(names, events), daemon=True).start()

    def stop(self) -> None:
        if self.client is not None:
            # It doesn't matter here whether a scheduler that is lost says goodbye.
            with contextlib.suppress(Exception, asyncio.CancelledError):
                self.client.close(timeout=2)

    def _work(self, names: List[str], events: "Events[Event]") -> None:
        try:
            if names:
                self.client = self._connect()
                self._submit(names, events)
        except BaseException as fault:
            events.put(fault)

    def _connect(self) -> Any:
        given = {"scheduler_file": self.scheduler} if os.path.isfile(self.scheduler) else {"address": self.scheduler}
        try:
            client = self.distributed.Client(**given, timeout=SECONDS_TO_CONNECT, set_as_default=False, name="igesolid")
        except (OSError, ValueError, TimeoutError) as fault:
            raise NoCluster(f"{self.scheduler}: no scheduler answers: {fault}") from None
        if not client.scheduler_info()["workers"]:
            self.say(f"{self.scheduler}: there are no workers yet, so the files wait for them")
        return client

    def _submit(self, names: List[str], events: "Events[Event]") -> None:
        how = dict(stdin=subprocess.DEVNULL, stdout=subprocess.PIPE, stderr=subprocess.PIPE, pure=False, retries=RETRIES)
        left = {self.client.submit(subprocess.run, [*self.command, os.path.abspath(name)], **how): name for name in names}
        try:
            for future in self.distributed.as_completed(list(left), loop=self.client.loop):
                name = left.pop(future)
                events.put(Done(name, _report_of(name, future)))
        except BaseException as fault:
            for name in left.values():
                events.put(Done(name, _not_judged(name, f"on the cluster: {_named(fault)}")))


def _named(cause: BaseException) -> str:
    return f"{type(cause).__name__}: {cause}"


def _not_judged(name: str, reason: str) -> Report:
    return Report(name, fault=Fault(NoCluster.status, reason))


def _report_of(name: str, future: Any) -> Report:
    """The report on a file from what its run on a worker wrote."""
    try:
        done = future.result()
    except (Exception, asyncio.CancelledError) as fault:
        return _not_judged(name, f"on the cluster: {_named(fault)}")
    try:
        return report_of_dict(json.loads(done.stdout)["files"][0])._replace(file=name)
    except (ValueError, LookupError, TypeError):
        said = done.stderr.decode("utf-8", "replace").strip().splitlines()
        return _not_judged(name, f"on a worker: {said[-1] if said else f'status {done.returncode}'}")
