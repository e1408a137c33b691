"""Each command under limits that the system sets: address space, file size, open files, stack."""
import pathlib
import resource
import signal
import subprocess

from commands import SMALL, Runs, Small
from sample_file import sample_text
from spawned import Runner

DONE, BAD_FILE, UNREAD, UNWRITTEN, NO_MEMORY, TOO_LARGE = 0, 3, 4, 5, 6, 8
FILE_LIMIT = 164_000_000
MESH = Small("mesh", 1, 3, 20)
VALUES, STEP, MOST = 200, 4, 1 << 20
# The program may need a little more to start from one run to the next, since the system places it at random.
MARGIN, UNSTARTED = 40, 127
LIMITED = 'ulimit -%s "$0" && exec "$@"'


class Shell:
    """Runs of the program under a limit that the shell sets."""

    def __init__(self, runner):
        self.program, self.shell = runner.program, Runner("/bin/sh")

    def run(self, limit, value, words):
        return self.shell.run(["-c", LIMITED % limit, str(value), self.program, *words])


def least(holds, low, high):
    """The least multiple of STEP from which on a condition holds, between two of which it holds at the higher."""
    while high - low > STEP:
        middle = (low + high) // 2 // STEP * STEP
        low, high = (low, middle) if holds(middle) else (middle, high)
    return high


def is_unstarted(got):
    """Whether the C library couldn't be loaded."""
    return got[1] == b"" and (got[0] == UNSTARTED or got[0] is not None and got[0] < 0)


def address_space(runner, folder, forms):
    """From the least limit at which the program starts: status 6 and nothing written, or the full answer, and no other."""
    shell = Shell(runner)
    (folder / f"{MESH.name}.igs").write_bytes(sample_text(MESH.sample))
    usage = runner.run([])
    starts = least(lambda limit: shell.run("v", limit, []) in (usage, (NO_MEMORY, b"", b"")), 0, MOST)
    runs = Runs(runner, folder, forms)
    for command in runs.commands:
        for run in runs.of(MESH, command):
            full = runner.run(run.words)
            enough = least(lambda limit: shell.run("v", limit, run.words) == full, starts, MOST)
            for at in range(VALUES):
                limit = starts + (enough + MARGIN - starts) * at // VALUES
                got = shell.run("v", limit, run.words)
                held = got in (full, (NO_MEMORY, b"", b"")) or limit < starts + MARGIN and is_unstarted(got)
                yield f"{run.name}, with {limit} KB of address space: {got[0]} {got[1][:40]!r} {got[2][:60]!r}", held


def limited(words, output, limit, value, ignored=None):
    """The status of a run into a file, under a limit; a signal may be ignored."""

    def before():
        resource.setrlimit(limit, (value, value))
        if ignored:
            signal.signal(ignored, signal.SIG_IGN)

    with open(output, "wb") as written:
        done = subprocess.run(words, stdout=written, stderr=subprocess.PIPE, preexec_fn=before)
    return done.returncode, pathlib.Path(output).read_bytes(), done.stderr


def file_size(runner, folder, forms):
    """A file may have so many bytes: a part of the text, and status 5 where the signal for that is ignored, else its end by that."""
    runs, output = Runs(runner, folder, forms), folder / "output"
    for command in runs.commands:
        for run in runs.of(SMALL[3], command):
            status, text, _ = runner.run(run.words)
            words = runner.program, *run.words
            for most in (0, 1, len(text) - 1, len(text)):
                got = limited(words, output, resource.RLIMIT_FSIZE, most, signal.SIGXFSZ)
                wanted = (status, text, b"") if most == len(text) else (UNWRITTEN, text[:most], b"")
                yield f"{run.name}, into a file of {most} bytes", got == wanted
            got = limited(words, output, resource.RLIMIT_FSIZE, 0)
            yield f"{run.name}, ended by the signal of the file's size", got == (-signal.SIGXFSZ, b"", b"")


def open_files(runner, folder, forms):
    """With room for one open file or for two: status 4, or the full answer. With a stack of 64 KB the full answer.

    With less room no program starts, since the C library can't be opened.
    """
    shell, runs = Shell(runner), Runs(runner, folder, forms)
    for command in runs.commands:
        for run in runs.of(SMALL[3], command):
            full, inputs = runner.run(run.words), (run.file is not None) + (run.certificate is not None)
            for most in (4, 5):
                wanted = full if most - 3 >= inputs else (UNREAD, b"", b"")
                yield f"{run.name}, with {most} open files", shell.run("n", most, run.words) == wanted
            yield f"{run.name}, with a stack of 64 KB", shell.run("s", 64, run.words) == full


def file_limit(runner, folder, forms):
    """A file of the most bytes and one of a byte more: good, with empty lines behind its last line, or a space; and bad."""
    if "solids FILE" not in forms:
        return
    shell, path = Runner("/bin/sh"), Runs(runner, folder, forms).file(SMALL[0])
    count = FILE_LIMIT - path.stat().st_size
    good = f'{{ cat "{path}"; head -c %d /dev/zero | tr "\\0" "%s"; }} | exec "$0" solids /dev/stdin'
    bad = 'head -c %d /dev/zero | exec "$0" solids /dev/stdin'
    too_large = TOO_LARGE, b"", b""
    for name, script, wanted in (
        ("empty lines", good % (count, "\\n"), (DONE, b"1\n", b"")),
        ("empty lines, a byte more", good % (count + 1, "\\n"), too_large),
        ("spaces, a byte more", good % (count + 1, " "), too_large),
        ("zeros", bad % FILE_LIMIT, (BAD_FILE, b"bad file line 1 length\n", b"")),
        ("zeros, a byte more", bad % (FILE_LIMIT + 1), too_large),
    ):
        yield f"solids of a file of 164,000,000 bytes, {name}", shell.run(["-c", script, runner.program]) == wanted


TABLES = [address_space, file_size, open_files]
