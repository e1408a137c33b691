"""Odd files, odd outputs and descriptors that are closed, for each command."""
import os
import shutil
import signal
import subprocess
import threading
import time

from commands import OF_LINES, SMALL, Runs
from spawned import Runner

BAD_FILE, UNREAD, UNWRITTEN, NO_MEMORY, TOO_LARGE = 3, 4, 5, 6, 8
GROWTHS = 1_000
NOBODY = 65_534
# A command that holds its certificate gets that much of address space, in KB, where the certificate has no end.
ROOM = 200_000
HOLDING = "upgrade", "open-verify", "orient-verify"
NOTHING_READ = UNREAD, b"", b""


def missing(run):
    """The answer on a file without a byte."""
    return BAD_FILE, b"bad %s line 1 missing\n" % (b"layout" if run.words[0] in OF_LINES else b"file"), b""


def placed(run, file=None, certificate=None):
    """The words of a run with other paths in place of its own."""
    paths = {str(run.file): file, str(run.certificate): certificate}
    return [word if paths.get(word) is None else str(paths[word]) for word in run.words]


def runs_of(runner, folder, forms):
    runs = Runs(runner, folder, forms)
    return [run for command in runs.commands for run in runs.of(SMALL[3], command)]


def odd_files(runner, folder, forms):
    """In place of the file, and of the certificate: nothing, a folder, /dev/null, what can't be read, and one in place of the other."""
    (folder / "empty").write_bytes(b"")
    (folder / "link_to_itself").symlink_to("link_to_itself")
    unread = "", "nothing_there", "cylinder.igs/", str(folder), str(folder / "link_to_itself"), "/proc/self/mem", "x" * 5_000
    for run in runs_of(runner, folder, forms):
        if run.file is None:
            continue
        for path in unread:
            yield f"{run.name}, '{path[:40]}' as FILE", runner.run(placed(run, file=path)) == NOTHING_READ
        for path in ("/dev/null", folder / "empty"):
            yield f"{run.name}, {path} as FILE", runner.run(placed(run, file=path)) == missing(run)
        if run.certificate is None:
            continue
        for path in unread:
            yield f"{run.name}, '{path[:40]}' as CERT", runner.run(placed(run, certificate=path)) == NOTHING_READ
            both = placed(run, file="/dev/null", certificate=path)
            yield f"{run.name}, a bad file and '{path[:40]}' as CERT", runner.run(both) == missing(run)
        for path in ("/dev/null", folder / "empty"):
            yield f"{run.name}, {path} as CERT", runner.run(placed(run, certificate=path)) == (1, b"line 1 missing\n", b"")
        as_certificate = runner.run(placed(run, certificate=run.file))
        yield f"{run.name}, the file as its own certificate", as_certificate in ((1, b"line 1 unfit\n", b""), (1, b"line 1 misspelt\n", b""))
        as_file = runner.run(placed(run, file=run.certificate))
        yield f"{run.name}, the certificate as file", as_file == (BAD_FILE, b"bad file line 1 length\n", b"")


def endless(runner, folder, forms):
    """/dev/zero in place of the file, of the certificate and of both: too large; no memory where a command holds it."""
    shell = Runner("/bin/sh")
    too_large = TOO_LARGE, b"", b""
    for run in runs_of(runner, folder, forms):
        if run.file is None:
            continue
        yield f"{run.name}, /dev/zero as FILE", runner.run(placed(run, file="/dev/zero")) == too_large
        if run.certificate is None:
            continue
        words = placed(run, certificate="/dev/zero")
        if run.words[0] in HOLDING:
            got = shell.run(["-c", 'ulimit -v "$0" && exec "$@"', str(ROOM), runner.program, *words])
            yield f"{run.name}, /dev/zero as CERT and {ROOM} KB", got == (NO_MEMORY, b"", b"")
        else:
            yield f"{run.name}, /dev/zero as CERT", runner.run(words) == too_large
        yield f"{run.name}, a bad file and /dev/zero as CERT", runner.run(placed(run, "/dev/null", "/dev/zero")) == missing(run)
        yield f"{run.name}, /dev/zero as both", runner.run(placed(run, "/dev/zero", "/dev/zero")) == too_large


def fed(path, text):
    """A thread that writes a text into a FIFO, and ends with it or where nobody reads on."""

    def feed():
        try:
            path.write_bytes(text)
        except BrokenPipeError:
            pass

    thread = threading.Thread(target=feed, daemon=True)
    thread.start()
    return thread


def fifos(runner, folder, forms):
    """The file, and the certificate, through a FIFO: the same answer; and a FIFO without a byte."""
    fifo = folder / "fifo"
    os.mkfifo(fifo)
    for run in runs_of(runner, folder, forms):
        full = runner.run(run.words)
        for name, path in (("FILE", run.file), ("CERT", run.certificate)):
            if path is None:
                continue
            words = placed(run, **{"file" if name == "FILE" else "certificate": fifo})
            for text, wanted in ((path.read_bytes(), full), (b"", missing(run) if name == "FILE" else (1, b"line 1 missing\n", b""))):
                thread = fed(fifo, text)
                yield f"{run.name}, {len(text)} bytes through a FIFO as {name}", runner.run(words) == wanted
                thread.join()


def unreadable(runner, folder, forms, skipped):
    """A file and a certificate that the user may not read."""
    program = shutil.copy(runner.program, folder / "program")
    folder.chmod(0o755)
    secret = folder / "secret"
    secret.write_bytes(b"")
    secret.chmod(0)
    user = {"user": NOBODY, "group": NOBODY, "extra_groups": []} if os.geteuid() == 0 else {}
    try:
        subprocess.run([program], capture_output=True, **user)
    except PermissionError:
        skipped("files that may not be read, since the temporary folder is one that others don't see")
        return
    for run in runs_of(runner, folder, forms):
        for name, path in (("file", run.file), ("certificate", run.certificate)):
            if path is not None:
                done = subprocess.run([program, *placed(run, **{name: secret})], capture_output=True, **user)
                yield f"{run.name}, a {name} that may not be read", (done.returncode, done.stdout, done.stderr) == NOTHING_READ


class Growing(threading.Thread):
    """Appends lines of spaces to a file, which are allowed behind its last line, until it is told to stop, or some megabytes."""

    def __init__(self, path):
        super().__init__(daemon=True)
        self.path, self.is_over = path, False

    def run(self):
        with open(self.path, "ab", buffering=0) as file:
            for _ in range(GROWTHS):
                if self.is_over:
                    return
                file.write((b" " * 80 + b"\n") * 100)
                time.sleep(0.000_1)


def growing(runner, folder, forms):
    """A file that grows while it is read is read as far as it has come: the same answer, but for `layout`, which counts the bytes."""
    path = folder / "growing"
    for run in runs_of(runner, folder, forms):
        if run.file is not None and run.words[0] != "layout":
            shutil.copy(run.file, path)
            thread = Growing(path)
            thread.start()
            got = runner.run(placed(run, file=path))
            thread.is_over = True
            thread.join()
            yield f"{run.name}, a file that grows", got == runner.run(run.words)


def odd_outputs(runner, folder, forms):
    """A full device, what can only be read, a folder, and a pipe that nobody reads as standard output: status 5."""
    outputs = {"/dev/full": os.open("/dev/full", os.O_WRONLY), "/dev/null to read": os.open(os.devnull, os.O_RDONLY), "a folder": os.open(folder, os.O_RDONLY)}
    reading, outputs["a pipe that nobody reads"] = os.pipe()
    os.close(reading)
    for run in [*runs_of(runner, folder, forms), None]:
        for name, output in outputs.items():
            name = f"{run.name if run else 'no words'}, into {name}"
            yield name, runner.run(run.words if run else [], output=output) == (UNWRITTEN, b"", b"")
    for output in outputs.values():
        os.close(output)


def closed(runner, folder, forms):
    """Descriptors that are closed at the start: the files stay as they are, and a closed output is a failed write."""
    shell = Runner("/bin/sh")
    for run in runs_of(runner, folder, forms):
        full, inputs = runner.run(run.words), [path for path in (run.file, run.certificate) if path]
        before = [path.read_bytes() for path in inputs]
        failed = UNWRITTEN, b"", b""
        for closing, wanted in (("<&-", full), ("2>&-", full), ("<&- 2>&-", full), (">&-", failed), ("<&- >&-", failed), ("<&- >&- 2>&-", failed)):
            got = shell.run(["-c", f'exec "$0" "$@" {closing}', runner.program, *run.words])
            yield f"{run.name}, with {closing}", got == wanted
        yield f"{run.name}, with closed descriptors: the inputs", [path.read_bytes() for path in inputs] == before


def ended_pipe(runner, folder, forms):
    """A reader that ends early: status 5, and no signal, whether the caller ignores that of pipes or not."""
    for run in runs_of(runner, folder, forms):
        for handler in (signal.SIG_DFL, signal.SIG_IGN):
            reading, writing = os.pipe()
            os.close(reading)
            done = subprocess.run([runner.program, *run.words], stdout=writing, stderr=subprocess.PIPE, preexec_fn=lambda: signal.signal(signal.SIGPIPE, handler))
            os.close(writing)
            yield f"{run.name}, into a pipe whose reader has ended", (done.returncode, done.stderr) == (UNWRITTEN, b"")


TABLES = [odd_files, fifos, growing, odd_outputs, closed, ended_pipe]


def checks(runner, new_folder, forms, skipped):
    for table in TABLES:
        yield from table(runner, new_folder(), forms)
    yield from unreadable(runner, new_folder(), forms, skipped)
