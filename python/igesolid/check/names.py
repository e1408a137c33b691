"""Which files are meant."""
import os
import pathlib
import sys
from typing import Dict, Iterator, List, Optional

from ..errors import NotRead
from .report import Fault, Report

ENDINGS = ".igs", ".iges"


class Meant:
    """The files, in order and each once; reports of the folders that can't be read; and what is passed over in folders: names of no file, and
    links to other folders."""

    def __init__(self, words: List[str], lists: Optional[str]):
        self.unread: List[Report] = []
        self.passed: List[str] = []
        self.files: List[str] = []
        seen: Dict[str, None] = {}
        for word in [*words, *(self._listed(lists) if lists else [])]:
            seen.update(dict.fromkeys(self._below(word) if os.path.isdir(word) else [word]))
        self.files = list(seen)

    def _below(self, folder: str) -> List[str]:
        found: List[str] = []
        for at, folders, names in os.walk(folder, onerror=self._note):
            self.passed += [path for path in (os.path.join(at, name) for name in folders) if os.path.islink(path)]
            for path in (os.path.join(at, name) for name in names if name.lower().endswith(ENDINGS)):
                (found if os.path.isfile(path) else self.passed).append(path)
        return sorted(found)

    def _note(self, fault: OSError) -> None:
        self.unread.append(Report(str(fault.filename), fault=Fault(NotRead.status, f"can't be opened: {fault.strerror}")))

    def _listed(self, name: str) -> Iterator[str]:
        """The names in a list, one a line."""
        try:
            data = sys.stdin.buffer.read() if name == "-" else pathlib.Path(name).read_bytes()
        except OSError as fault:
            raise NotRead(f"{name}: can't be opened: {fault.strerror}") from fault
        return (os.fsdecode(line) for line in data.split(b"\n") if line)
