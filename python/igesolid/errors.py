"""Why there is no verdict, as exceptions. Each has the status with which the program ends then."""
import re
from typing import Dict, Type, Union


class Error(Exception):
    """There is no answer. `status` is that of the program, 125 if it didn't run to its end."""

    status = 125


class BadFile(Error):
    """The file isn't of the fixed form of IGES: the number of the first line that fails, and the reason of docs/FORMAT.md."""

    status = 3

    def __init__(self, line: int, reason: str):
        super().__init__(line, reason)
        self.line, self.reason = line, reason

    def __str__(self) -> str:
        return f"bad file line {self.line} {self.reason}"


class BadLayout(BadFile):
    """It isn't certain how the lines of the file are put right: the number of the first such line, and the word of docs/REPAIR.md."""

    def __str__(self) -> str:
        return f"bad layout line {self.line} {self.reason}"


class NotRead(Error, OSError):
    """The file can't be opened, or a read failed."""

    status = 4


class NoMemory(Error, MemoryError):
    """Memory ran out."""

    status = 6


class NoExtract(Error):
    """The solid can't be extracted: the entity at fault, and the reason of docs/COMMANDS.md."""

    status = 7

    def __init__(self, entity: int, reason: str):
        super().__init__(entity, reason)
        self.entity, self.reason = entity, reason

    def __str__(self) -> str:
        return f"no extract {self.entity} {self.reason}"


class TooLarge(Error):
    """The file, or the text that would be written, has more than 164,000,000 bytes."""

    status = 8


class WrongRecord(Error):
    """A solid can't be compacted, reoriented or mended, since a record of it is wrong: the program's answer, `fail RULE ENTITY PLACE`."""

    status = 1


class NotMended(Error):
    """`mend` writes no file of a solid, for one of the causes below: the first rule that fails, and the entity and the place where it does."""

    status = 1

    def __init__(self, rule: str, entity: int, place: int, cause: str):
        super().__init__(rule, entity, place, cause)
        self.rule, self.entity, self.place, self.cause = rule, entity, place, cause

    def __str__(self) -> str:
        return f"fail {self.rule} {self.entity} {self.place}, {self.cause}"


class Stuck(NotMended):
    """No remedy that was tried makes the solid closed."""


class NeedsFaces(NotMended):
    """So many `faces` must be made anew."""

    @property
    def faces(self) -> int:
        return int(self.cause.split(" ")[-1])


class Unsure(NotMended):
    """The records don't tell which remedy is meant: `remedy` is the least number by which `mend` writes a file."""

    @property
    def remedy(self) -> int:
        return int(self.cause.split(" ")[-1])


class NoFlags(Error):
    """No face flags fit a solid: the program's answer, `fail COUNT` or `fail REACH` and the place, or an orientation with a ring."""

    status = 1


class NoProgram(Error):
    """The program is missing, doesn't start, was ended by a signal, or answered what this package doesn't know."""


_TEXTS: Dict[Type[Error], str] = {NotRead: "a read failed", NoMemory: "out of memory", TooLarge: "more than 164,000,000 bytes"}


_SAID = re.compile(r"(bad file line|bad layout line|no extract) (\d+) ([a-z0-9-]+)")
_KINDS: Dict[str, Type[Union[BadFile, NoExtract]]] = {"bad file line": BadFile, "bad layout line": BadLayout, "no extract": NoExtract}
_NO_FLAGS = re.compile(r"ORIENT |fail (?:COUNT|REACH) ")
_NOT_MENDED = re.compile(r"fail ([A-Z]+) (\d+) (\d+)\n(stuck|needs faces \d+|unsure [1-6])")
_CAUSES: Dict[str, Type[NotMended]] = {"stuck": Stuck, "needs": NeedsFaces, "unsure": Unsure}


def error_of(status: int, text: bytes) -> Error:
    """The error that an answer tells."""
    answer = text.decode("utf-8", "replace").strip()
    said = _SAID.match(answer)
    if said and _KINDS[said[1]].status == status:
        return _KINDS[said[1]](int(said[2]), said[3])
    for kind, words in _TEXTS.items():
        if status == kind.status:
            return kind(words)
    unmended = _NOT_MENDED.fullmatch(answer)
    if unmended and status == NotMended.status:
        return _CAUSES[unmended[4].split(" ")[0]](unmended[1], int(unmended[2]), int(unmended[3]), unmended[4])
    if status == WrongRecord.status:
        return NoFlags(answer) if _NO_FLAGS.match(answer) else WrongRecord(answer)
    return NoProgram(f"the program ended with status {status}")
