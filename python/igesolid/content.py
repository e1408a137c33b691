"""The bytes of a file, read once, so that what is hashed is what is judged, also if the file changes or can't be read twice."""
import contextlib
import errno
import hashlib
import io
import os
import select
import stat
from typing import BinaryIO, Iterator, Optional, Union

from .errors import NoMemory, NotRead

FILE_LIMIT = 164_000_000
PIECE = 1 << 20
SECONDS_FOR_A_WRITER = 30
NO_ROOM = errno.ENOMEM, errno.ENOSPC


class Content:
    """The bytes of a file, and what tells them from others; nothing of the system is held. Of a file over the limit only the first byte
    too many is there."""

    def __init__(self, data: bytes):
        self._data: Optional[bytes] = data
        self.size, self.sha256 = len(data), hashlib.sha256(data).hexdigest()

    @property
    def bytes(self) -> "bytes":
        if self._data is None:
            raise NotRead("the file is closed")
        return self._data

    def close(self) -> None:
        """Gives the bytes back; size and sha256 stay."""
        self._data = None


@contextlib.contextmanager
def _as_errors() -> Iterator[None]:
    """What the system refuses while a content is got is an error of this package."""
    try:
        yield
    except (NotRead, NoMemory):
        raise
    except MemoryError:
        raise NoMemory("out of memory") from None
    except OSError as fault:
        raise error_of_system(fault, "a read failed") from fault


def error_of_system(fault: OSError, what: str) -> Union[NotRead, NoMemory]:
    said = fault.strerror or str(fault)
    return NoMemory(said) if fault.errno in NO_ROOM else NotRead(f"{what}: {said}")


def content_of_bytes(data: Union[bytes, bytearray, memoryview]) -> Content:
    with _as_errors():
        return Content(bytes(data)[: FILE_LIMIT + 1])


def content_of_file(file: BinaryIO, limit: int = FILE_LIMIT) -> Content:
    with _as_errors():
        found, left = io.BytesIO(), limit + 1
        while left > 0:
            piece: Optional[bytes] = file.read(min(PIECE, left))
            if piece is None:
                raise BlockingIOError(errno.EAGAIN, os.strerror(errno.EAGAIN))
            if not piece:
                break
            left -= found.write(piece)
        return Content(found.getvalue())


def _opened(path: Union[str, "os.PathLike[str]"]) -> BinaryIO:
    """A file to read; a FIFO once somebody writes to it, or not at all."""
    if not stat.S_ISFIFO(os.stat(path).st_mode):
        return open(path, "rb", buffering=0)
    descriptor = os.open(path, os.O_RDONLY | os.O_NONBLOCK)
    try:
        if not select.select([descriptor], [], [], SECONDS_FOR_A_WRITER)[0]:
            raise TimeoutError(errno.ETIMEDOUT, f"it is a FIFO, and nobody wrote to it in {SECONDS_FOR_A_WRITER} seconds")
        os.set_blocking(descriptor, True)
        return open(descriptor, "rb", buffering=0)
    except BaseException:
        os.close(descriptor)
        raise


def content_of_path(path: Union[str, "os.PathLike[str]"], limit: int = FILE_LIMIT) -> Content:
    try:
        file = _opened(path)
    except OSError as fault:
        raise error_of_system(fault, "can't be opened") from fault
    except ValueError as fault:
        raise NotRead(f"can't be opened: {fault}") from fault
    with file:
        return content_of_file(file, limit)
