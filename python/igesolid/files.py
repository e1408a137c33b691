"""Files, their solids and the verdicts on these."""
import os
import re
import warnings
from types import TracebackType
from typing import List, NamedTuple, Optional, Tuple, Type, Union

from .content import Content, content_of_bytes, content_of_path
from .engine import Engine, Program
from .errors import Error, NoMemory, NoProgram, error_of
from .library import Library, library_beside
from .where import Mended, Where

Source = Union[str, bytes, bytearray, memoryview, "os.PathLike[str]"]

VERDICT = re.compile(r"solid (\d+) (?:closed|fail ([A-Z]+) (\d+) (\d+)|(unjudged))")
DONE, NO = 0, 1
REMEDIES = range(1, 7)
_default_engines: List[Engine] = []


UNJUDGED = "unjudged"


class Verdict(NamedTuple):
    """Of a solid that isn't closed the first rule that fails, and the entity and the place in its record where it does. Of a file whose solids
    share shells again and again some aren't judged (docs/WHERE.md); then the rule is `unjudged`, and `Solid.where` says more."""

    rule: Optional[str] = None
    entity: Optional[int] = None
    place: Optional[int] = None

    @property
    def is_closed(self) -> bool:
        return self.rule is None

    @property
    def is_judged(self) -> bool:
        return self.rule != UNJUDGED

    def __str__(self) -> str:
        return "closed" if self.is_closed else f"fail {self.rule} {self.entity} {self.place}" if self.is_judged else UNJUDGED


class Asked:
    """The bytes of a file, and who answers what is asked of them."""

    def __init__(self, content: Content, engine: Engine):
        self.content, self.engine = content, engine

    def text_of(self, command: str, *words: str, answered: Tuple[int, ...] = (DONE,)) -> bytes:
        """What a command writes if it ends with one of these statuses."""
        try:
            status, text = self.engine.ask(command, self.content, *words)
        except MemoryError as fault:
            raise fault if isinstance(fault, Error) else NoMemory("out of memory") from None
        if status not in answered:
            raise error_of(status, text)
        return text

    def where(self, *words: str) -> Where:
        return Where(self.text_of("where", *words, answered=(DONE, NO)).decode("utf-8", "replace"))

    def layout(self) -> str:
        return self.text_of("layout", answered=(DONE, NO)).decode("ascii", "replace")


class Solid:
    """A solid of a file, by its directory number."""

    def __init__(self, asked: Asked, number: int, verdict: Verdict):
        self.number, self.verdict, self._asked = number, verdict, asked

    @property
    def certificate(self) -> Optional[bytes]:
        """The certificate that the solid is closed, or None if it isn't. It is made each time that it is asked for."""
        return self._asked.text_of("certify", str(self.number)) if self.verdict.is_closed else None

    @property
    def where(self) -> Where:
        """Where the solid fails, as `igesolid where FILE N` prints it: of each list 20 members at most (docs/WHERE.md)."""
        return self._asked.where(str(self.number))

    @property
    def where_all(self) -> Where:
        """The same with all members, as `igesolid where FILE N all` prints it."""
        return self._asked.where(str(self.number), "all")

    def extract(self) -> bytes:
        """A file of this solid alone."""
        return self._asked.text_of("extract", str(self.number))

    def compact(self) -> bytes:
        """A file of this solid alone, without unused edges and vertices in its lists."""
        return self._asked.text_of("compact", str(self.number))

    def reorient(self) -> bytes:
        """A file of this solid alone, with face flags that fit. Raises `NoFlags` if none fit."""
        return self._asked.text_of("reorient", str(self.number))

    def mend(self, remedy: Optional[int] = None) -> bytes:
        """A file of this solid alone that is closed: with the first remedy of each failing shell, if it is sure; or with the one of this number,
        from 1 to 6, as `where_all` tells them. Raises a `NotMended` if there is none."""
        return self._asked.text_of("mend", *self._words(remedy))

    def mended(self, remedy: Optional[int] = None) -> Mended:
        """What `mend` would change, with the numbers of the file."""
        return Mended(self._asked.text_of("mended", *self._words(remedy)).decode("utf-8", "replace"))

    def _words(self, remedy: Optional[int]) -> List[str]:
        if remedy not in (None, *REMEDIES):
            raise ValueError(f"{remedy} isn't the number of a remedy, from {REMEDIES[0]} to {REMEDIES[-1]}")
        return [str(self.number), *([] if remedy is None else [str(remedy)])]

    def __repr__(self) -> str:
        return f"<solid {self.number}: {self.verdict}>"


class File:
    """A file that was read: its solids in the order of the directory, and the size and SHA-256 of its bytes."""

    def __init__(self, content: Content, engine: Engine):
        self._asked = Asked(content, engine)
        text = self._asked.text_of("where", answered=(DONE, NO))
        # A solid doesn't know the file, so that the bytes go with the last of both.
        self.solids: List[Solid] = [Solid(self._asked, *found) for found in _verdicts(text)]

    @property
    def size(self) -> int:
        return self._asked.content.size

    @property
    def sha256(self) -> str:
        return self._asked.content.sha256

    @property
    def is_closed(self) -> bool:
        """Whether there is a solid, and all are closed."""
        return len(self.solids) > 0 and all(solid.verdict.is_closed for solid in self.solids)

    def where(self, *words: str) -> Where:
        """What `igesolid where FILE` prints, with these words after it."""
        return self._asked.where(*words)

    def relayout(self) -> bytes:
        """The file with its lines put right, as `igesolid relayout` writes it; `igesolid.relayout` takes files that can't be read."""
        return self._asked.text_of("relayout")

    def layout(self) -> str:
        """What `relayout` would change, as `igesolid layout` prints it."""
        return self._asked.layout()

    def close(self) -> None:
        """Gives the bytes back; what was read stays. What is asked later raises `NotRead`."""
        self._asked.content.close()

    def __enter__(self) -> "File":
        return self

    def __exit__(self, kind: Optional[Type[BaseException]], fault: Optional[BaseException], trace: Optional[TracebackType]) -> None:
        self.close()

    def __repr__(self) -> str:
        return f"<file of {self.size} bytes: {self.solids}>"


def _verdicts(text: bytes) -> List[Tuple[int, Verdict]]:
    """The number of each solid and the verdict on it, from the answer of `where FILE`; a fact begins with a space and is left out."""
    lines = [line for line in text.decode("utf-8", "replace").split("\n") if line and not line.startswith((" ", "hint ", "unjudged "))]
    found = [VERDICT.fullmatch(line) for line in lines[1:]]
    if not lines or lines[0].split()[:2] != ["solids", str(len(found))] or None in found:
        raise NoProgram("igesolid-where answered what this package doesn't know")
    return [(int(it[1]), Verdict(it[2], int(it[3]), int(it[4])) if it[2] else Verdict(it[5])) for it in found if it]


def default_engine() -> Engine:
    """The shared library, where it is beside this package, else the programs."""
    if not _default_engines:
        _default_engines.append(_found_engine())
    return _default_engines[0]


def _found_engine() -> Engine:
    path = library_beside()
    if path is None:
        return Program()
    try:
        return Library(path)
    except NoProgram as fault:
        warnings.warn(f"the library can't be loaded, so the programs are run: {fault}", RuntimeWarning, stacklevel=4)
        return Program(why=str(fault))


def chosen_engine(program: Optional[str]) -> Engine:
    """For a command that asks `where`: this program igesolid-where, which an interrupt from the terminal ends too, else the default engine."""
    return Program(where=program, is_apart=False) if program else default_engine()


def _content_of(source: Source) -> Content:
    return content_of_path(source) if isinstance(source, (str, os.PathLike)) else content_of_bytes(source)


def read(source: Source, engine: Optional[Engine] = None) -> File:
    """Reads and judges a file, given by its path or as its bytes. Raises an `igesolid.Error` if there is no verdict."""
    return File(_content_of(source), engine or default_engine())


def relayout(source: Source, engine: Optional[Engine] = None) -> bytes:
    """A file with its lines put right, as `igesolid relayout` writes it. Raises `BadLayout` if it isn't certain how."""
    return Asked(_content_of(source), engine or default_engine()).text_of("relayout")


def layout(source: Source, engine: Optional[Engine] = None) -> str:
    """What `relayout` would change of a file, as `igesolid layout` prints it."""
    return Asked(_content_of(source), engine or default_engine()).layout()
