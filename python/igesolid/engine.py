"""How an answer is got: by the proved programs, which are run on the bytes of a file."""
import contextlib
import errno
import hashlib
import os
import pathlib
import shutil
import signal
import subprocess
import threading
from typing import Dict, Iterable, List, NamedTuple, Optional, Set, Union

from .content import Content, error_of_system
from .errors import NoMemory, NoProgram, NotRead

TOP = pathlib.Path(__file__).resolve().parent.parent.parent
ENVIRONMENT = {"GLIBC_TUNABLES": "glibc.malloc.hugetlb=1", **os.environ}
# The programs, and the words by which the launcher tells where each is.
JUDGE, WHERE, REPAIR = "igesolid", "igesolid-where", "igesolid-repair"
WORDS = {JUDGE: ["--program"], WHERE: ["--program", "where"], REPAIR: ["--program", "layout"]}
# The commands of other programs than the first. That of `where` isn't given the command's word.
PROGRAMS = {"where": WHERE, **dict.fromkeys(("relayout", "layout", "reorient", "mend", "mended"), REPAIR)}
# The bytes of a file come to a program through a pipe, under this name.
STANDARD_INPUT = "-" if os.name == "nt" else "/dev/stdin"
# The system has no more descriptors, so that a file can't be read.
NO_DESCRIPTOR = errno.EMFILE, errno.ENFILE


class Answer(NamedTuple):
    """The status and the text of one answer, as docs/COMMANDS.md specifies them."""

    status: int
    text: bytes


class Engine:
    """What answers a command on a file. A class that has these two methods can take the place of `Program`."""

    def ask(self, command: str, content: Content, *words: str) -> Answer:
        raise NotImplementedError

    def identity(self) -> str:
        """What tells one edition of the engine from another."""
        raise NotImplementedError

    def stop(self) -> None:
        """Ends what runs now, if that can be ended; nothing more is run."""


def words_of(command: str, path: str, words: Iterable[str]) -> List[str]:
    """The words that a program is given for a command on a file."""
    return [path, *words] if PROGRAMS.get(command) == WHERE else [command, path, *words]


class Program(Engine):
    """Runs `igesolid`, `igesolid-where` and `igesolid-repair`: the programs given, or those beside this package. Where there are none, an
    error says so, and why they were looked for.

    They run apart, in a session of their own, where an interrupt from the terminal, which is for the caller to handle, doesn't reach them."""

    def __init__(self, program: Optional[str] = None, where: Optional[str] = None, is_apart: bool = True, repair: Optional[str] = None, why: str = ""):
        self._is_apart, self._why = is_apart, why
        self._paths: Dict[str, Optional[str]] = {JUDGE: program, WHERE: where, REPAIR: repair}
        self._lock = threading.RLock()
        self._running: Set["subprocess.Popen[bytes]"] = set()
        self._is_stopped = False

    def ask(self, command: str, content: Content, *words: str) -> Answer:
        program, data = self.path(PROGRAMS.get(command, JUDGE)), content.bytes
        process = self._start([program, *words_of(command, STANDARD_INPUT, words)])
        try:
            text = _exchanged(process, data)
            process.wait()
        except BaseException:
            process.kill()
            process.wait()
            raise
        finally:
            with self._lock:
                self._running.discard(process)
        if process.returncode < 0:
            raise NoProgram(f"{program} was ended by {_signal_name(-process.returncode)}")
        return Answer(process.returncode, text)

    def identity(self) -> str:
        """The checksum of the program that gives the verdicts."""
        path = self.path(WHERE)
        try:
            return hashlib.sha256(pathlib.Path(path).read_bytes()).hexdigest()
        except OSError as fault:
            raise NoProgram(f"{path}: {fault.strerror}") from fault

    def stop(self) -> None:
        """Ends what runs now; nothing more is run."""
        with self._lock:
            self._is_stopped = True
            for process in self._running:
                process.terminate()

    def path(self, name: str) -> str:
        with self._lock:
            found = self._paths[name]
            if found is None:
                try:
                    found = self._paths[name] = _program_beside(name)
                except NoProgram as fault:
                    raise NoProgram("; ".join(filter(None, (str(fault), self._why)))) from fault
            return found

    def _start(self, command: List[str]) -> "subprocess.Popen[bytes]":
        with self._lock:
            if self._is_stopped:
                raise NoProgram("stopped")
            try:
                process = subprocess.Popen(command, stdin=subprocess.PIPE, stdout=subprocess.PIPE, env=ENVIRONMENT, start_new_session=self._is_apart)
            except OSError as fault:
                raise _not_started(command[0], fault) from fault
            self._running.add(process)
            return process


def _exchanged(process: "subprocess.Popen[bytes]", data: bytes) -> bytes:
    """What a program answers to bytes. It writes nothing before it has read all, or ends without it."""
    assert process.stdin and process.stdout
    with process.stdout as answer:
        # Where it ends without it, the rest can't be written.
        with contextlib.suppress(BrokenPipeError), process.stdin as given:
            given.write(data)
        return answer.read()


def _not_started(program: str, fault: OSError) -> Union[NoProgram, NotRead, NoMemory]:
    if fault.errno in NO_DESCRIPTOR or fault.errno == errno.ENOMEM:
        return error_of_system(fault, "can't be handed over")
    return NoProgram(f"{program}: {fault.strerror}")


def _signal_name(number: int) -> str:
    try:
        return signal.Signals(number).name
    except ValueError:
        return f"signal {number}"


def launcher() -> str:
    """The launcher of the clone or the installed copy that this package belongs to, or else the one on PATH."""
    for path in (TOP / "igesolid", TOP.parent.parent / "bin" / "igesolid"):
        is_launcher = (TOP / "crates").is_dir() == (path.parent == TOP)
        if is_launcher and os.access(path, os.X_OK):
            return str(path)
    found = shutil.which("igesolid")
    if found is None:
        raise NoProgram("igesolid is neither beside its Python package nor on PATH")
    return found


def _program_beside(name: str) -> str:
    """In an installed copy the programs lie in the folder above the package; in a clone the launcher chooses."""
    if not (TOP / "crates").is_dir() and (TOP / name).is_file():
        return str(TOP / name)
    command = [launcher(), *WORDS[name]]
    try:
        done = subprocess.run(command, stdin=subprocess.DEVNULL, stdout=subprocess.PIPE)
    except OSError as fault:
        raise NoProgram(f"{command[0]}: {fault.strerror}") from fault
    path = os.fsdecode(done.stdout).rstrip("\n")
    if done.returncode != 0 or not path:
        raise NoProgram(f"{' '.join(command)} names no program")
    return path
