"""How an answer is got from the shared library, in this process."""
import ctypes
import hashlib
import os
import pathlib
import platform
import subprocess
from typing import Any, Iterator, List, Optional

from .content import Content
from .engine import JUDGE, PROGRAMS, REPAIR, TOP, WHERE, Answer, Engine, words_of
from .errors import NoMemory, NoProgram

NAME = {"Darwin": "libigesolid.dylib", "Windows": "igesolid.dll"}.get(platform.system(), "libigesolid.so.1")
MACHINES = {"x86_64": "x86_64", "aarch64": "aarch64", "arm64": "aarch64"}


class _Text(ctypes.Structure):
    """A text that a call gives, as igesolid.h has it."""

    _fields_ = [("bytes", ctypes.c_void_p), ("length", ctypes.c_size_t)]


_NO_BYTE = ctypes.c_char()
# Bytes are given as they lie in memory, and not copied.
_PIECE: List[type] = [ctypes.c_char_p, ctypes.c_size_t]
# Of each program the function that answers for it, and how many texts it takes: the words, the file, and a certificate.
_FUNCTIONS = {JUDGE: ("igesolid_run", 3), WHERE: ("igesolid_where", 2), REPAIR: ("igesolid_repair", 2)}


class Library(Engine):
    """Calls the shared library given, or the one beside this package. Calls from several threads run side by side; none can be stopped."""

    def __init__(self, path: Optional[str] = None):
        found = path if path is not None else library_beside()
        if found is None:
            raise NoProgram(f"{NAME} isn't beside this package")
        self.path = found
        try:
            library = ctypes.CDLL(found)
            self._functions = {program: _function(library, *told) for program, told in _FUNCTIONS.items()}
            self._free = library.igesolid_free
        except (OSError, AttributeError) as fault:
            raise NoProgram(f"{found}: {fault}") from fault
        self._free.argtypes, self._free.restype = [ctypes.POINTER(_Text)], None

    def ask(self, command: str, content: Content, *words: str) -> Answer:
        # The word in the place of the file's name isn't read.
        return self.answer(PROGRAMS.get(command, JUDGE), "\n".join(words_of(command, "-", words)).encode(), content.bytes)

    def answer(self, program: str, words: bytes, *files: bytes) -> Answer:
        """What a program answers to words, with line feeds between them, and to the bytes of the files that they name."""
        pieces = [words, *files, b"", b""][: _FUNCTIONS[program][1]]
        text = _Text(ctypes.addressof(_NO_BYTE), 0)
        try:
            # An interrupt comes after the call at the earliest, and here, so the text is freed then, too.
            status = self._functions[program](*(it for piece in pieces for it in (piece, len(piece))), text)
            return Answer(status, ctypes.string_at(text.bytes, text.length) if text.length else b"")
        except MemoryError:
            raise NoMemory("out of memory") from None
        finally:
            self._free(text)

    def identity(self) -> str:
        """The checksum of the library."""
        try:
            return hashlib.sha256(pathlib.Path(self.path).read_bytes()).hexdigest()
        except OSError as fault:
            raise NoProgram(f"{self.path}: {fault.strerror}") from fault


def _function(library: ctypes.CDLL, name: str, pieces: int) -> Any:
    found = getattr(library, name)
    found.argtypes, found.restype = [*_PIECE * pieces, ctypes.POINTER(_Text)], ctypes.c_uint32
    return found


def library_beside() -> Optional[str]:
    """The library in the package's own folder, as a wheel has it; in a clone that of dist/, if it is of these sources; in an installed copy
    that of its prefix."""
    return next((str(path) for path in _places() if os.path.isfile(path)), None)


def _places() -> Iterator[pathlib.Path]:
    yield pathlib.Path(__file__).resolve().parent / NAME
    machine = MACHINES.get(platform.machine())
    if platform.system() != "Linux" or machine is None:
        return
    if not (TOP / "crates").is_dir():
        yield TOP.parent / NAME
        yield TOP.parent / f"{machine}-linux-gnu" / NAME
        return
    shipped = TOP / "dist" / f"libigesolid-{machine}-linux.so"
    if is_of_sources(shipped):
        yield shipped


def is_of_sources(shipped: pathlib.Path) -> bool:
    """Whether the library of dist/ is of the sources there, and the one whose checksum stands beside it."""
    dist = shipped.parent
    try:
        sources = subprocess.run([dist / "sources"], stdin=subprocess.DEVNULL, stdout=subprocess.PIPE, check=True).stdout.decode()
        is_whole = f"{hashlib.sha256(shipped.read_bytes()).hexdigest()}  {shipped.name}\n" in (dist / "SHA256SUMS").read_text()
        return is_whole and f"sources {sources.strip()}\n" in (dist / "BUILT").read_text()
    except (OSError, subprocess.SubprocessError):
        return False
