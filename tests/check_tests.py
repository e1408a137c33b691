"""Many files: `igesolid check`, the Python package under it, and the recipes of docs/MANY.md as they are printed there."""
import ast
import concurrent.futures
import csv
import hashlib
import io
import json
import os
import pathlib
import re
import resource
import shutil
import signal
import subprocess
import sys
import time

import clone
import dask_cluster
import html_tests
import package_tests
import slurm_cluster
from libraries import shipped
from programs import TOP
from spawned import SECONDS

FILES = {
    "below/TWO SOLIDS.IGS": "two_solids.igs",
    "cube.igs": "cube.igs",
    "it's $HOME.Iges": "ball.igs",
    "no/bad.igs": "no/bad_length.igs",
    "no/none.igs": "no/no_solid.igs",
    "no/tetrahedra.iges": "two_tetrahedra.igs",
    "no/three.igs": "occt/16_three_solids.igs",
}
# Not taken of a folder.
OTHERS = {"cube.cert": "cube.cert2", "cube.igs.txt": "cube.igs"}
COLUMNS = "file", "bytes", "sha256", "program", "solid", "verdict", "rule", "entity", "place", "certificate", "line", "reason", "remedy"
# In words, of two_tetrahedra.igs.
REMEDY = "part it into 2 bodies"
# A program that ends with a status, or by a signal, or doesn't end.
ENDING = "#!/bin/sh\n[ ${STATUS:-0} -lt 128 ] || kill -$((STATUS - 128)) $$\nexit ${STATUS:-0}\n"
SLOW = "#!/bin/sh\necho $$ >>'{pids}'\nexec sleep 1000\n"
# In place of the launcher on the workers: the first run says which worker it is of, and waits.
WAITING = """#!/bin/sh
if mkdir '{folder}/first' 2>/dev/null; then
    echo $PPID >'{folder}/worker.new'
    mv '{folder}/worker.new' '{folder}/worker'
    while [ -d '{folder}/first' ]; do sleep 0.1; done
fi
exec '{launcher}' "$@"
"""


def sum_of(data):
    return hashlib.sha256(data).hexdigest()


class Parts:
    """A folder of files, and what the program says of them."""

    def __init__(self, copy, prefix):
        self.copy, self.folder, self.launcher = copy, copy.folder / "many", prefix / "bin" / "igesolid"
        self.parts = self.folder / "parts"
        self.fill()

    def fill(self):
        shutil.rmtree(self.folder, ignore_errors=True)
        for name, example in {**FILES, **OTHERS}.items():
            (self.parts / name).parent.mkdir(parents=True, exist_ok=True)
            shutil.copy(self.copy.top / "examples" / example, self.parts / name)

    def run(self, command, *words):
        done = subprocess.run([self.copy.program, command, *words], cwd=self.folder, stdout=subprocess.PIPE)
        return done.returncode, done.stdout

    def answers(self, file):
        """The number, the status and the answer of `certify` for each solid; for a file that isn't one nothing."""
        status, text = self.run("solids", file)
        return [(int(number), *self.run("certify", file, number)) for number in text.decode().split()] if status == 0 else []

    def check(self, *words, **more):
        """The status, standard output and standard error of `igesolid check`."""
        return self.copy.run(self.launcher, "check", *words, cwd=self.folder, **more)

    def json(self, *words, **more):
        """The object of a run whose status is the one that it tells."""
        status, text, error = self.check("--json", *words, **more)
        told = json.loads(text)
        return told if (told["status"], error) == (status, "") else {"files": [], "error": error}

    def wanted(self, name, program, has_certificates=False):
        """The object of a file, by the answers of the program."""
        file = f"parts/{name}"
        data = (self.parts / name).read_bytes()
        told = dict(file=file, bytes=len(data), sha256=sum_of(data), program=program, remembered=False, solids=[])
        status, text = self.run("solids", file)
        if status == 3:
            line, reason = re.match(rb"bad file line (\d+) (\S+)", text).groups()
            return {**told, "status": 3, "verdict": "bad file", "line": int(line), "reason": reason.decode()}
        for number, status, text in self.answers(file):
            if status == 0:
                solid = {"solid": number, "verdict": "closed", **({"certificate": sum_of(text)} if has_certificates else {})}
            else:
                _, rule, entity, place = text.decode().split()
                solid = {"solid": number, "verdict": "fail", "rule": rule, "entity": int(entity), "place": int(place), "remedy": REMEDY}
            told["solids"].append(solid)
        if not told["solids"]:
            return {**told, "status": 1, "verdict": "no solid"}
        is_closed = all(it["verdict"] == "closed" for it in told["solids"])
        return {**told, "status": 0 if is_closed else 1, "verdict": "closed" if is_closed else "not closed"}

    def all_wanted(self, has_certificates=False):
        program = sum_of(pathlib.Path(self.copy.where).read_bytes())
        return [self.wanted(name, program, has_certificates) for name in sorted(FILES)]

    def certificates(self):
        return {str(it.relative_to(self.parts)): it.read_bytes() for it in self.parts.rglob("*.igs.*.cert")}


def texts(parts):
    """A line a file or a solid, and the total."""
    status, text, error = parts.check("parts")
    lines = text.decode().splitlines()
    yield "check: a folder", (status, error) == (3, "") and lines == [
        "parts/below/TWO SOLIDS.IGS: closed, 2 solids",
        "parts/cube.igs: closed, 1 solid",
        "parts/it's $HOME.Iges: closed, 1 solid",
        "parts/no/bad.igs: bad file line 2 length",
        "parts/no/none.igs: no solid",
        f"parts/no/tetrahedra.iges: not closed, solid 1: fail REACH 29 0 ({REMEDY})",
        "parts/no/three.igs: closed, 3 solids",
        "7 files: 1 bad file, 4 closed, 1 no solid, 1 not closed; 8 solids, 7 closed",
    ]
    for name, status, text in (
        ("below/TWO SOLIDS.IGS", 0, "solid 1: closed\nsolid 11: closed\n2 solids, 2 closed\n"),
        ("no/tetrahedra.iges", 1, f"solid 1: fail REACH 29 0 ({REMEDY}); igesolid where parts/no/tetrahedra.iges 1\n1 solid, 0 closed\n"),
        ("no/none.igs", 1, "parts/no/none.igs: no solid; igesolid where parts/no/none.igs\n"),
        ("no/bad.igs", 3, "parts/no/bad.igs: bad file line 2 length; igesolid where parts/no/bad.igs\n"),
        ("none.igs", 4, "parts/none.igs: not read: can't be opened: No such file or directory\n"),
    ):
        yield f"check: one file, {name}", parts.check(f"parts/{name}") == (status, text.encode(), "")
    shutil.copy(parts.parts / "no" / "tetrahedra.iges", parts.folder / "it's.igs")
    command = re.search(r"; (igesolid where .*)", parts.check("it's.igs")[1].decode())[1]
    path = f"{parts.launcher.parent}:{clone.PLAIN_PATH}"
    yield "check: the command that shows more", parts.copy.run("sh", "-c", command, cwd=parts.folder, PATH=path)[1].startswith(b"fail REACH 29 0\n")
    some = parts.check("parts/cube.igs", "parts/below", "parts/cube.igs")
    yield "check: files and folders, each once", some == (0, b"parts/cube.igs: closed, 1 solid\nparts/below/TWO SOLIDS.IGS: closed, 2 solids\n2 files: 2 closed; 3 solids, 3 closed\n", "")
    (parts.folder / "list").write_text("parts/cube.igs\nparts/no/none.igs\n")
    listed = parts.check("--files-from", "list")
    yield "check: --files-from", listed == (1, b"parts/cube.igs: closed, 1 solid\nparts/no/none.igs: no solid\n2 files: 1 closed, 1 no solid; 1 solid, 1 closed\n", "")
    odd = b"a\nb\xff.igs"
    shutil.copy(parts.parts / "cube.igs", os.path.join(os.fsencode(parts.folder), odd))
    yield "check: an odd name", parts.check(odd, "parts/cube.igs")[1].startswith(b"a?b\xff.igs: closed, 1 solid\n")
    yield "check: an odd name in JSON", parts.json(odd)["files"][0]["file"] == os.fsdecode(odd)
    piped = subprocess.run([parts.launcher, "check", "-"], input=(parts.parts / "cube.igs").read_bytes(), stdout=subprocess.PIPE, env=parts.copy.environment())
    yield "check: standard input", (piped.returncode, piped.stdout) == (0, b"solid 1: closed\n1 solid, 1 closed\n")


def forms(parts):
    """JSON and CSV, by the answers of the program itself."""
    wanted = parts.all_wanted()
    told = parts.json("parts")
    yield "check: --json", told == {"schema": 1, "status": 3, "interrupted": False, "files": wanted}
    status, text, error = parts.check("--csv", "parts")
    yield "check: --csv", (status, error) == (3, "") and rows_in(text.decode()) == wanted_rows(wanted)
    page = (parts.copy.top / "docs" / "MANY.md").read_text()
    named = re.findall(r"`(\w+)`", "".join(re.findall(r"(?m)^\| (`\w+`(?:, `\w+`)*) \| (?!`)", page[page.index("## The columns") : page.index("## The object")])))
    yield "docs/MANY.md: the columns", sorted(named) == sorted(COLUMNS)
    keys = set(told).union(*(set(it) for it in wanted), *(set(it) for file in wanted for it in file["solids"]))
    yield "docs/MANY.md: the keys", all(f"`{key}`" in page[page.index("## The object") :] for key in keys)


def rows_in(text):
    return list(csv.DictReader(io.StringIO(text, newline="")))


def wanted_rows(files):
    rows = []
    for file in files:
        of_solids = [{**file, **solid} for solid in file["solids"]]
        rows += of_solids or [file]
    return [{column: str(row.get(column, "")) for column in COLUMNS} for row in rows]


def statuses(parts):
    """The status is the greatest of the files; a fault names its cause, once."""
    os.truncate(parts.parts / "cube.cert", 164_000_001)
    shutil.move(parts.parts / "cube.cert", parts.folder / "big.igs")
    for words, status in (
        (["parts/cube.igs"], 0),
        (["parts/cube.igs", "parts/no/none.igs"], 1),
        (["parts/cube.igs", "parts/no/tetrahedra.iges"], 1),
        (["parts/no/bad.igs", "parts/no/tetrahedra.iges"], 3),
        (["none.igs", "parts"], 4),
        (["big.igs", "none.igs", "parts"], 8),
        (["parts/no/bad.igs", "--jobs", "1"], 3),
    ):
        yield f"check: the status, {words}", parts.check(*words)[::2] == (status, "")
    (parts.folder / "big.igs").unlink()
    (parts.folder / "empty").mkdir()
    yield "check: a folder without files", parts.check("empty") == (1, b"0 files; 0 solids, 0 closed\n", "igesolid: there is no file to judge: names must end in .igs or .iges\n")
    for words in ([], ["--jobs", "0", "parts"], ["--jsn", "parts"], ["--json", "--csv", "parts"], ["-", "--certificates"], ["parts", "--worker-program", "x"]):
        status, text, error = parts.check(*words)
        yield f"check: wrong words, {words}", (status, text) == (2, b"") and error.startswith("usage: igesolid check ")
    status, _, error = parts.check("--files-from", "none")
    yield "check: no list", (status, error) == (4, "igesolid: none: can't be opened: No such file or directory\n")
    with open("/dev/full", "wb") as full:
        told = parts.check("parts", stdout=full)
    yield "check: standard output is full", told[::2] == (5, "igesolid: standard output failed, so the answer is cut short or missing\n")
    script = parts.folder / "ending"
    clone.Clone.write(script, ENDING)
    for status, word in ((4, "not read"), (6, "no memory"), (8, "too large"), (9, "not judged"), (128 + 9, "not judged")):
        told = parts.json("parts/cube.igs", "--where-program", script, STATUS=status)["files"]
        yield f"check: the program ends with {status}", [it["verdict"] for it in told] == [word] and told[0]["status"] == (status if word != "not judged" else 125)
    told = parts.check("parts/cube.igs", "--where-program", "/none")
    yield "check: no program", told[:2] == (125, b"") and "/none: No such file or directory" in told[2]
    status, text, _ = parts.check("--help")
    yield "check: --help", status == 0 and text.startswith(b"usage: igesolid check ")
    yield "check: no caches are left", not any(parts.launcher.parent.parent.rglob("__pycache__"))


def remembered(told):
    return [it["file"].removeprefix("parts/") for it in told["files"] if it["remembered"]]


def tables(parts):
    """Results are remembered by the bytes of a file and of the program, and by nothing else."""
    names, table = sorted(FILES), parts.folder / "table.csv"
    again = lambda *words: remembered(parts.json("parts", "--table", table, *words))
    first = parts.check("parts", "--table", table, "--csv")
    yield "check: --table", first[0] == 3 and table.read_bytes() == first[1]
    yield "check: --table, all are remembered", again() == names
    yield "check: --table, and the same is said", parts.check("parts", "--table", table, "--csv") == first
    yield "check: --table, the total", parts.check("parts", "--table", table)[1].endswith(b"; 7 files from the table\n")
    cube = parts.parts / "cube.igs"
    os.utime(cube)
    yield "check: --table, a newer file of the same bytes", again() == names
    times = (cube.stat().st_atime_ns, cube.stat().st_mtime_ns)
    data = cube.read_bytes()
    cube.write_bytes(data.replace(b"S      1", b"S      2", 1))
    os.utime(cube, ns=times)
    told = parts.json("parts", "--table", table)
    yield "check: --table, a file of the same time and size", remembered(told) == [it for it in names if it != "cube.igs"] and told["files"][1]["status"] == 3
    cube.write_bytes(data)
    cube.rename(parts.parts / "renamed.igs")
    again()
    yield "check: --table, a file of another name", again() == sorted({*names, "renamed.igs"} - {"cube.igs"}) and "parts/cube.igs" not in table.read_text()
    (parts.parts / "renamed.igs").rename(cube)
    other = parts.folder / "other"
    other.write_bytes(pathlib.Path(parts.copy.where).read_bytes() + b"\0")
    other.chmod(0o755)
    yield "check: --table, another program", again("--where-program", other) == [] and again("--where-program", other) == names
    older = "\n".join(line.rsplit(",", 1)[0] for line in table.read_text().splitlines()) + "\n"
    table.write_text(older)
    yield "check: --table of an edition without remedies", sorted(again("--where-program", other)) == names
    for name, text in (("a file of parts", data), ("other columns", b"file,solid\n"), ("another row", table.read_bytes() + b"x,y\n"), ("bytes", b"\0\1\2")):
        table.write_bytes(text)
        status, said, error = parts.check("parts", "--table", table)
        yield f"check: --table of {name}", (status, said, table.read_bytes()) == (2, b"", text) and error.startswith(f"igesolid: {table}")
    table.write_bytes(b"")
    yield "check: --table of an empty file", again() == [] and again() == names
    status, text, error = parts.check("parts", "--table", "none/table.csv")
    yield "check: --table in no folder", (status, text, error) == (2, b"", "igesolid: none/table.csv can't be written: No such file or directory\n")
    yield "check: --table, nothing beside it", [it.name for it in parts.folder.iterdir() if ".new" in it.name] == []


def certificates(parts):
    """Certificates are written when asked, and judged again when one isn't what was written."""
    table, names = parts.folder / "table.csv", sorted(FILES)
    parts.check("parts")
    yield "check: no certificates", parts.certificates() == {}
    wanted = {
        f"{name}.{number}.cert": text for name in names for number, status, text in parts.answers(f"parts/{name}") if status == 0
    }
    told = parts.json("parts", "--certificates", "--table", table)
    found = {name: (parts.parts / name).read_bytes() for name in wanted if (parts.parts / name).exists()}
    yield "check: --certificates", found == wanted and told["files"] == parts.all_wanted(has_certificates=True)
    yield "check: --certificates, remembered", remembered(parts.json("parts", "--certificates", "--table", table)) == names
    (parts.parts / "cube.igs.1.cert").write_text("IGESCERT 2\n")
    left = [it for it in names if it != "cube.igs"]
    yield "check: --certificates, another certificate", remembered(parts.json("parts", "--certificates", "--table", table)) == left
    yield "check: --certificates, as it was", (parts.parts / "cube.igs.1.cert").read_bytes() == wanted["cube.igs.1.cert"]
    shutil.copy(parts.parts / "no" / "tetrahedra.iges", parts.parts / "cube.igs")
    (parts.parts / "cube.igs.name.cert").touch()
    parts.check("parts", "--certificates")
    yield "check: --certificates, that of a solid that isn't closed any more", not (parts.parts / "cube.igs.1.cert").exists() and (parts.parts / "cube.igs.name.cert").exists()
    parts.fill()
    (parts.parts / "cube.igs.1.cert").mkdir()
    told = parts.json("parts/cube.igs", "--certificates", "--table", table)["files"][0]
    yield "check: --certificates, one that can't be written", (told["status"], told["verdict"], told["solids"]) == (5, "not written", [{"solid": 1, "verdict": "closed"}])
    yield "check: --certificates, it isn't remembered", remembered(parts.json("parts/cube.igs", "--table", table)) == []


def started(parts, *words, **more):
    """`igesolid check` with a terminal as standard error, and the terminal."""
    master, terminal = os.openpty()
    process = subprocess.Popen(
        [parts.launcher, "check", *words], cwd=parts.folder, stdin=subprocess.DEVNULL, stdout=subprocess.PIPE, stderr=terminal,
        env=parts.copy.environment(**more), start_new_session=True, preexec_fn=lambda: signal.signal(signal.SIGINT, signal.SIG_DFL),
    )  # fmt: skip
    os.close(terminal)
    return process, master


def read_until(master, text):
    """What comes from a terminal up to a text, or to its end."""
    told = b""
    while text is None or text not in told:
        try:
            piece = os.read(master, 65_536)
        except OSError:
            break
        if not piece:
            break
        told += piece
    return told


def interrupts(parts):
    """A signal to the launcher or to its group: what is done is reported and remembered, and what runs is ended."""
    table, pids = parts.folder / "table.csv", parts.folder / "pids"
    os.mkfifo(parts.folder / "fifo.igs")
    for number, send in ((signal.SIGINT, os.killpg), (signal.SIGTERM, os.kill), (signal.SIGTERM, os.killpg)):
        table.unlink(missing_ok=True)
        process, master = started(parts, "parts/cube.igs", "fifo.igs", "--jobs", "2", "--table", "table.csv")
        told = read_until(master, b"1 of 2 files")
        send(process.pid, number)
        text = process.communicate(timeout=SECONDS)[0]
        said = (told + read_until(master, None)).decode()
        os.close(master)
        name = f"check: {number.name} by {send.__name__}"
        yield f"{name}: the status", process.returncode == -number
        yield f"{name}: what is done", text == b"parts/cube.igs: closed, 1 solid\n1 file: 1 closed; 1 solid, 1 closed\n"
        yield f"{name}: the table", [row["file"] for row in rows_in(table.read_text())] == ["parts/cube.igs"]
        yield f"{name}: a word", "Traceback" not in said and said.endswith("igesolid: interrupted: 1 of 2 files are judged\r\n")
    yield from interrupted_programs(parts, pids)
    yield from early_interrupts(parts)
    yield from noted_signals(parts)
    yield from interrupted_report(parts)


def interrupted_report(parts):
    """The report of an interrupted run has what is done."""
    process, master = started(parts, "parts/no/tetrahedra.iges", "fifo.igs", "--jobs", "2", "--html", "report")
    read_until(master, b"1 of 2 files")
    process.terminate()
    process.communicate(timeout=SECONDS)
    read_until(master, None)
    os.close(master)
    text, found = html_tests.index_in(parts.folder / "report")
    is_there = [(parts.folder / "report" / target).is_file() for target, _ in found.get("parts/no/tetrahedra.iges", [[]])[-1]]
    yield "check --html: what is done when it is interrupted", list(found) == ["parts/no/tetrahedra.iges"] and is_there == [True]
    yield "check --html: a word of it", "1 files aren't judged: the run was interrupted" in text


def interrupted_programs(parts, pids):
    script = parts.folder / "slow"
    clone.Clone.write(script, SLOW.format(pids=pids))
    before = (parts.folder / "table.csv").read_bytes()
    process, master = started(parts, "parts", "--where-program", script, "--jobs", "2", "--table", "table.csv")
    end = time.monotonic() + SECONDS
    while not (pids.exists() and pids.read_text().count("\n") == 2) and time.monotonic() < end:
        time.sleep(0.02)
    process.terminate()
    text = process.communicate(timeout=SECONDS)[0]
    read_until(master, None)
    os.close(master)
    yield "check: a signal ends the programs that run", not any(is_running(int(it)) for it in pids.read_text().split())
    yield "check: and nothing was done", text == b"0 files; 0 solids, 0 closed\n"
    yield "check: and what was remembered stays", (parts.folder / "table.csv").read_bytes() == before


def is_running(process):
    """Whether a process is there that isn't only waited for."""
    try:
        return pathlib.Path(f"/proc/{process}/stat").read_text().rsplit(")", 1)[1].split()[0] != "Z"
    except OSError:
        return False


def early_interrupts(parts):
    """At any time from the start on a signal ends it without a traceback, and the table is whole or not there."""
    table = parts.folder / "early.csv"
    for n in range(16):
        table.unlink(missing_ok=True)
        process, master = started(parts, "parts", "--table", "early.csv", "--jobs", "1")
        time.sleep(n * 0.03)
        os.killpg(process.pid, signal.SIGINT if n % 2 else signal.SIGTERM)
        process.communicate(timeout=SECONDS)
        said = read_until(master, None)
        os.close(master)
        is_whole = not table.exists() or parts.check("parts", "--table", "early.csv")[0] == 3
        yield f"check: a signal at {n * 0.03:.2f} s", b"Traceback" not in said and process.returncode in (-2, -15, 3) and is_whole


def noted_signals(parts):
    """From Python's first line on, a signal ends it with a report of what is done, and its status; a second one needn't wait for it."""
    heeding = lambda: [signal.signal(it, signal.SIG_DFL) for it in (signal.SIGINT, signal.SIGTERM, signal.SIGHUP)]
    for n in range(0, 15, 3):
        process = subprocess.Popen(
            direct(parts, "--json", "parts"), cwd=parts.folder, stdout=subprocess.PIPE, stderr=subprocess.PIPE, env=parts.copy.environment(), preexec_fn=heeding
        )  # fmt: skip
        number = signal.SIGINT if n % 2 else signal.SIGTERM
        # Of the signals that are noted, the last.
        while not is_caught(process.pid, signal.SIGHUP) and process.poll() is None:
            time.sleep(0.001)
        time.sleep(n * 0.02)
        process.send_signal(number)
        text, said = process.communicate(timeout=SECONDS)
        told = json.loads(text)
        if told["interrupted"]:
            held = process.returncode == 128 + number == told["status"] and said.startswith(b"igesolid: interrupted: ")
        else:
            # It came when all was done: too late, or only for the end.
            held = process.returncode in (3, -number, 128 + number) and len(told["files"]) == len(FILES)
        yield f"check: a signal {n * 0.02:.2f} s after the first line: {process.returncode} {said}", held and len(told["files"]) <= len(FILES)


def direct(parts, *words):
    """The command without the launcher."""
    return ["python3", "-B", parts.launcher.parent.parent / "lib" / "igesolid" / "companion" / "check", "--program", parts.copy.program, "--where-program", parts.copy.where, *words]


def is_caught(process, number):
    """Whether a process has a handler of its own for a signal."""
    caught = re.search(r"(?m)^SigCgt:\s*(\w+)", pathlib.Path(f"/proc/{process}/status").read_text())
    return caught is not None and int(caught[1], 16) >> number - 1 & 1 == 1


def pressure(parts):
    """Few descriptors; what is passed over in a folder; and names that aren't UTF-8."""
    limited = lambda most, *words: parts.copy.run(*direct(parts, *words), cwd=parts.folder, limit=lambda: resource.setrlimit(resource.RLIMIT_NOFILE, (most, most)))
    whole = parts.check("parts")
    yield "check: at most 8 descriptors a job", limited(3 + 8, "parts", "--jobs", "1") == whole
    yield "check: at most 8 descriptors a job, of two", limited(3 + 16, "parts", "--jobs", "2") == whole
    told = json.loads(limited(8, "parts", "--jobs", "1", "--json")[1])["files"]
    reasons = {it.get("reason", "").split(": ")[-1] for it in told if it["verdict"] == "not read"}
    yield "check: too few descriptors are said", {it["verdict"] for it in told} == {"not read"} and reasons == {"Too many open files"}
    os.mkfifo(parts.parts / "pipe.igs")
    (parts.parts / "link.iges").symlink_to("none")
    (parts.parts / "linked").symlink_to("no")
    said = "igesolid: passed over in folders: 3 that are no files, or links to folders; the first is parts/linked\n"
    yield "check: what is passed over is said", parts.check("parts") == (*whole[:2], said)
    for name in ("pipe.igs", "link.iges", "linked"):
        (parts.parts / name).unlink()
    odd = b"a\xff.igs"
    shutil.copy(parts.parts / "cube.igs", os.path.join(os.fsencode(parts.folder), odd))
    for command, words in (("where", [odd]), ("where", [odd, "1"]), ("where", ["--json", odd, "1"]), ("page", [odd, "1"]), ("marks", [odd, "1"])):
        status, text, error = parts.copy.run(parts.launcher, command, *words, cwd=parts.folder)
        is_said = error == "igesolid: a\ufffd.igs: this argument isn't UTF-8\n" and (text == b"" or text.startswith(b"usage: "))
        yield f"{command} {words}: a name that isn't UTF-8", status == 2 and is_said


def many(parts):
    """Many small files: memory and descriptors don't grow with their number."""
    peaks = []
    for count in (20, 420):
        (parts.folder / f"{count}").mkdir()
        for k in range(count):
            os.link(parts.parts / "cube.igs", parts.folder / f"{count}" / f"{k}.igs")
        limit = lambda: resource.setrlimit(resource.RLIMIT_NOFILE, (11, 11))
        process = subprocess.Popen(direct(parts, f"{count}", "--jobs", "1"), cwd=parts.folder, stdout=subprocess.PIPE, env=parts.copy.environment(), preexec_fn=limit)
        text = process.stdout.read()
        _, status, used = os.wait4(process.pid, 0)
        process.returncode = status
        peaks.append(used.ru_maxrss)
        yield f"check: {count} files", status == 0 and text.endswith(f"\n{count} files: {count} closed; {count} solids, {count} closed\n".encode())
    yield f"check: kilobytes of 20 and of 420 files: {peaks}", peaks[1] - peaks[0] < 2_000


def progress(parts):
    command = [parts.launcher, "check", "parts", "--jobs", "1"]
    status, told = clone.on_terminal(command, cwd=parts.folder, env=parts.copy.environment())
    lines = [f"\r\x1b[Kigesolid: {n} of 7 files, " for n in range(8)]
    yield "check: one line that changes", status == 3 and [it in told for it in lines] == [True] * 8 and told.endswith("7 of 7 files, 3 not closed\r\x1b[K")


def launched(parts):
    told = parts.copy.run("./igesolid", "check", "examples/cube.igs")
    yield "check: in a clone", told == (0, b"solid 1: closed\n1 solid, 1 closed\n", "")
    yield "check: no caches are left", not any(parts.copy.top.rglob("__pycache__"))
    plain = parts.copy.folder / "without python 3"
    plain.mkdir()
    for folder in map(pathlib.Path, clone.PLAIN_PATH.split(":")):
        for it in folder.iterdir() if folder.is_dir() else ():
            if not it.name.startswith("python") and not (plain / it.name).exists():
                (plain / it.name).symlink_to(it)
    told = parts.check("parts", PATH=plain)
    yield "check: without Python", told == (125, b"", "igesolid: check needs Python 3.8 or later, and python3 isn't on PATH\n")
    shutil.rmtree(plain)


def blocks(parts):
    """The blocks of shell of docs/MANY.md, by a word that each contains."""
    page = (parts.copy.top / "docs" / "MANY.md").read_text()
    found = re.findall(r"(?s)```sh\n(.*?)```", page)
    return lambda word: next(it for it in found if word in it)


def recipes(parts):
    block = blocks(parts)
    path = f"{parts.launcher.parent}:{clone.PLAIN_PATH}"
    run = lambda recipe, **more: parts.copy.run("sh", "-c", recipe, cwd=parts.folder, PATH=path, HOME=parts.folder, **more)
    wanted = {f"{name}.answer": parts.run("certify", f"parts/{name}", "all")[1] for name in FILES}
    written = lambda: {str(it.relative_to(parts.parts)): it.read_bytes() for it in parts.parts.rglob("*.answer")}
    yield "recipe: a folder", run(block("check parts\n")) == parts.check("parts")
    status, text, error = run(block("xargs"))
    is_hint = all("igesolid layout says" in it for it in error.splitlines())
    yield "recipe: xargs", (status, text) == (0, b"") and is_hint and written() == wanted


def slurm(parts, skipped):
    """The array under a real Slurm: each file is answered by one task, and the joined tables are those of one run."""
    lacking = slurm_cluster.lacking()
    if lacking:
        skipped(f"the recipe of Slurm: {lacking}")
        return
    block = blocks(parts)
    listing = re.search(r"(?m)^find .*$", block("sort >files.txt"))[0]
    (parts.folder / "check.sbatch").write_text(block("#SBATCH"))
    with slurm_cluster.one_node() as own:
        environment = {**own, "PATH": f"{parts.launcher.parent}:{clone.PLAIN_PATH}", "HOME": parts.folder}
        run = lambda *words: parts.copy.run(*words, cwd=parts.folder, **environment)
        run("sh", "-c", listing)
        status, _, error = run("sbatch", "--wait", "--array=0-2", "check.sbatch")
        yield "recipe: Slurm, the array", (status, error) == (0, "")
        tables = sorted(parts.folder.glob("answers.*.csv"))
        yield "recipe: Slurm, a table a task", [it.name for it in tables] == [f"answers.{n}.csv" for n in range(3)]
        status, text, error = run("sh", "-c", block("FNR > 1"))
        yield "recipe: Slurm, the report", (status, error) == (3, "") and text.endswith(b"; 7 files from the table\n")
        told = rows_in((parts.folder / "answers.csv").read_text())
        yield "recipe: Slurm, the answers", sorted(told, key=str) == sorted(wanted_rows(parts.all_wanted()), key=str)


def dask(parts, skipped):
    """On a real cluster: the same report, also if a worker is killed or none can run the program."""
    python = shutil.which("python3", path=clone.PLAIN_PATH)
    (parts.folder / "none").mkdir()
    (parts.folder / "none" / "distributed.py").write_text("raise ImportError('it is not here')\n")
    status, text, error = parts.check("parts", "--dask", "tcp://127.0.0.1:1", PYTHONPATH=parts.folder / "none")
    yield "check: --dask without distributed", (status, text) == (125, b"") and error.startswith("igesolid: --dask needs the Python package distributed (Debian: python3-distributed)")
    if python is None or not dask_cluster.is_there(python):
        skipped("igesolid check --dask: Debian's python3-distributed isn't installed")
        return
    with dask_cluster.cluster(python, parts.folder / "dask", parts.copy.environment()) as cluster:
        yield from on_cluster(parts, cluster)
        yield from killed_worker(parts, cluster)
        yield from interrupted_cluster(parts, cluster)
        yield from lost_scheduler(parts, cluster)


def on_cluster(parts, cluster):
    here = parts.json("parts")
    yield "check: --dask", parts.json("parts", "--dask", cluster.address) == here
    yield "check: --dask by the scheduler's file", parts.json("parts", "--dask", cluster.file) == here
    parts.check("parts", "--dask", cluster.address, "--html", "report")
    pages = sorted(it.name.split("-")[0] for it in (parts.folder / "report" / "pages").iterdir())
    yield "check: --dask --html", pages == ["bad", "tetrahedra"] and len(html_tests.index_in(parts.folder / "report")[1]) == len(FILES)
    told = parts.json("parts", "--dask", cluster.address, "--certificates", "--table", "dask.csv")
    yield "check: --dask --certificates --table", told["files"] == parts.all_wanted(has_certificates=True)
    found = {name: sum_of(text) for name, text in parts.certificates().items()}
    yield "check: --dask, a certificate", found.get("cube.igs.1.cert") == told["files"][1]["solids"][0]["certificate"]
    again = parts.json("parts", "--dask", cluster.address, "--certificates", "--table", "dask.csv")
    yield "check: --dask, remembered", remembered(again) == sorted(FILES)
    status, told = clone.on_terminal([parts.launcher, "check", "parts", "--dask", cluster.address], cwd=parts.folder, env=parts.copy.environment())
    yield "check: --dask, progress", status == 3 and "igesolid: 7 of 7 files, 3 not closed" in told
    told = parts.json("parts/cube.igs", "--dask", cluster.address, "--worker-program", "/none")["files"][0]
    yield "check: --dask, no program there", (told["status"], told["verdict"]) == (125, "not judged") and "'/none'" in told["reason"]


def waiting(parts):
    """A launcher for the workers whose first run waits, and a word that says how to go on."""
    for name in ("worker", "first"):
        path = parts.folder / name
        shutil.rmtree(path) if path.is_dir() else path.unlink(missing_ok=True)
    script = parts.folder / "waiting"
    clone.Clone.write(script, WAITING.format(folder=parts.folder, launcher=parts.launcher))
    return script


def worker_of_first(parts):
    """The process of the worker on which the first run waits."""
    end = time.monotonic() + SECONDS
    while not (parts.folder / "worker").exists() and time.monotonic() < end:
        time.sleep(0.02)
    return int((parts.folder / "worker").read_text())


def killed_worker(parts, cluster):
    here = parts.json("parts")
    script = waiting(parts)
    command = [parts.launcher, "check", "--json", "parts", "--dask", cluster.address, "--worker-program", script]
    process = subprocess.Popen(command, cwd=parts.folder, stdin=subprocess.DEVNULL, stdout=subprocess.PIPE, stderr=subprocess.PIPE, env=parts.copy.environment())
    victim = worker_of_first(parts)
    mine = [it for it in cluster.workers if it.pid == victim]
    yield "check: --dask, the worker is one of ours", len(mine) == 1
    for worker in mine:
        worker.kill()
        worker.wait()
    text, error = process.communicate(timeout=SECONDS)
    (parts.folder / "first").rmdir()
    yield "check: --dask, a killed worker loses no answer", (process.returncode, json.loads(text), error) == (3, here, b"")
    cluster.workers = [it for it in cluster.workers if it.pid != victim]
    cluster.add_worker()


def interrupted_cluster(parts, cluster):
    script = waiting(parts)
    process, master = started(parts, "parts", "--dask", cluster.address, "--worker-program", script, "--table", "part.csv")
    told = read_until(master, b"6 of 7 files")
    process.terminate()
    text = process.communicate(timeout=SECONDS)[0]
    (parts.folder / "first").rmdir()
    said = (told + read_until(master, None)).decode()
    os.close(master)
    yield "check: --dask, interrupted", process.returncode == -signal.SIGTERM and "Traceback" not in said and said.endswith("6 of 7 files are judged\r\n")
    yield "check: --dask, interrupted: what is done", text.count(b"\n") == 7 and len({row["file"] for row in rows_in((parts.folder / "part.csv").read_text())}) == 6


def lost_scheduler(parts, cluster):
    script = waiting(parts)
    process, master = started(parts, "--json", "parts", "--dask", cluster.address, "--worker-program", script)
    read_until(master, b"6 of 7 files")
    cluster.scheduler.kill()
    text = process.communicate(timeout=SECONDS)[0]
    (parts.folder / "first").rmdir()
    os.close(master)
    told = json.loads(text)
    yield "check: --dask, a lost scheduler", process.returncode == 125 == told["status"] and [it["verdict"] for it in told["files"]].count("not judged") == 1


def imported(top):
    """The package of a copy of the repository."""
    sys.path.insert(0, str(top / "python"))
    caches, sys.dont_write_bytecode = sys.dont_write_bytecode, True
    try:
        import igesolid

        return igesolid
    finally:
        sys.path.pop(0)
        sys.dont_write_bytecode = caches


def package(parts):
    """The Python package says what the program says, over the programs and over the shared library."""
    igesolid = imported(parts.copy.top)
    engine = igesolid.Program(program=str(parts.copy.program), where=str(parts.copy.where))
    yield from answers(parts, igesolid, engine, "package")
    library = shipped("libigesolid-x86_64-linux.so")
    if library is None:
        parts.skipped("the Python package over the shared library: dist/ holds none of these sources")
    else:
        yield from answers(parts, igesolid, igesolid.Library(str(library)), "package over the library")
        yield from calls(parts, igesolid, igesolid.Library(str(library)))
        yield from errors(parts, igesolid, igesolid.Library(str(library)), "package over the library")
    data = (parts.parts / "cube.igs").read_bytes()
    yield "package: bytes", all(igesolid.read(kind(data), engine).is_closed for kind in (bytes, bytearray, memoryview))
    yield from errors(parts, igesolid, engine, "package")
    yield from package_tests.checks(parts.copy, parts.folder, parts.skipped)


def calls(parts, igesolid, engine):
    """Calls from threads, and a library that isn't there."""
    paths = sorted((parts.copy.top / "examples").glob("*.igs"))
    with concurrent.futures.ThreadPoolExecutor(8) as threads:
        told = list(threads.map(lambda path: repr(igesolid.read(path, engine)), paths * 4))
    yield "package over the library: threads", told == [repr(igesolid.read(path, engine)) for path in paths] * 4
    yield "package over the library: none", isinstance(outcome(lambda: igesolid.Library("/none.so")), igesolid.NoProgram)
    yield "package over the library: which", engine.identity() == sum_of(pathlib.Path(engine.path).read_bytes())


def objects(where):
    """Whether the parts of a text of `where` are its lines."""
    heads = [line for line in where.split("\n") if line and not line.startswith(" ")]
    told = [it.text for rule in where.rules for it in (rule, *rule.items)]
    facts = [fact.text for rule in where.rules for it in rule.items for fact in it.facts]
    return where.verdict.text == heads[0] and set(told) <= set(heads) and all(f"\n  {fact}\n" in f"{where}\n" for fact in facts)


def answers(parts, igesolid, engine, about):
    for name in sorted(FILES):
        path = parts.parts / name
        file = outcome(lambda: igesolid.read(path, engine))
        if isinstance(file, igesolid.Error):
            yield f"{about}: {name}", f"{file}\n".encode() == parts.run("solids", path)[1] and (file.status, file.line, file.reason) == (3, 2, "length")
            continue
        wanted = parts.answers(path)
        yield f"{about}: {name}", [it.number for it in file.solids] == [number for number, _, _ in wanted]
        yield f"{about}: {name}, closed", file.is_closed == (len(wanted) > 0 and all(status == 0 for _, status, _ in wanted))
        yield f"{about}: {name}, its bytes", (file.size, file.sha256) == (path.stat().st_size, sum_of(path.read_bytes()))
        for solid, (number, status, text) in zip(file.solids, wanted):
            yield f"{about}: {name} {number}", solid.verdict.is_closed == (status == 0) and solid.certificate == (text if status == 0 else None)
            yield f"{about}: {name} {number}, the verdict", status == 0 or f"{solid.verdict}\n".encode() == text
            for command in ("extract", "compact"):
                yield f"{about}: {name} {number}, {command}", getattr(solid, command)() == parts.run(command, path, str(number))[1]
            told = [subprocess.run([parts.copy.where, path, str(number), *more], stdout=subprocess.PIPE).stdout.decode() for more in ((), ("all",))]
            yield f"{about}: {name} {number}, where", [solid.where, solid.where_all] == told
            yield f"{about}: {name} {number}, where as an object", objects(solid.where_all) and solid.where.is_closed == (status == 0)


def outcome(call):
    """What a call returns or raises."""
    try:
        return call()
    except Exception as fault:
        return fault


def errors(parts, igesolid, engine, about):
    unlisted, records = (igesolid.read(parts.copy.top / "examples" / "no" / name, engine).solids[0] for name in ("extract_unlisted.igs", "fail_index.igs"))
    script = parts.folder / "ending"
    clone.Clone.write(script, ENDING)
    ending = lambda status: igesolid.Program(where=clone_script(parts, f"exit {status}"))
    for name, call, kind, status, text in (
        ("no file", lambda: igesolid.read("none.igs", engine), igesolid.NotRead, 4, "can't be opened: No such file or directory"),
        ("no file", lambda: igesolid.read("none.igs", engine), OSError, 4, "can't be opened: No such file or directory"),
        ("a name with a null", lambda: igesolid.read("a\0b", engine), igesolid.NotRead, 4, "can't be opened: embedded null byte"),
        ("a folder", lambda: igesolid.read(parts.parts, engine), igesolid.NotRead, 4, "can't be opened: Is a directory"),
        ("too many bytes", lambda: igesolid.read(bytes(164_000_001), engine), igesolid.TooLarge, 8, "more than 164,000,000 bytes"),
        ("no bytes", lambda: igesolid.read(b"", engine), igesolid.BadFile, 3, "bad file line 1 missing"),
        ("memory", lambda: igesolid.read(b"", ending(6)), igesolid.NoMemory, 6, "out of memory"),
        ("memory", lambda: igesolid.read(b"", ending(6)), MemoryError, 6, "out of memory"),
        ("another status", lambda: igesolid.read(b"", ending(77)), igesolid.NoProgram, 125, "the program ended with status 77"),
        ("no answer", lambda: igesolid.read(b"", ending(0)), igesolid.NoProgram, 125, "igesolid-where answered what this package doesn't know"),
        ("no extract", unlisted.extract, igesolid.NoExtract, 7, str(outcome(unlisted.extract))),
        ("a wrong record", records.compact, igesolid.WrongRecord, 1, str(records.verdict)),
    ):
        fault = outcome(call)
        yield f"{about}: {name}, {kind.__name__}", isinstance(fault, kind) and (fault.status, str(fault)) == (status, text)
    answer = subprocess.run([parts.copy.program, "extract", parts.copy.top / "examples" / "no" / "extract_unlisted.igs", str(unlisted.number)], stdout=subprocess.PIPE)
    yield f"{about}: no extract, the answer", f"{outcome(unlisted.extract)}\n".encode() == answer.stdout


def clone_script(parts, text):
    script = parts.folder / f"script {text}"
    clone.Clone.write(script, f"#!/bin/sh\n{text}\n")
    return str(script)


def installed_package(parts, prefix):
    """The package finds the program: beside it, in a clone, and on PATH."""
    words = "import igesolid; print(igesolid.read('parts/cube.igs'))"
    wanted = (0, b"<file of 8829 bytes: [<solid 1: closed>]>\n", "")
    run = lambda at, **more: parts.copy.run("python3", "-B", "-c", words, cwd=parts.folder, PYTHONPATH=at, **more)
    yield "package: installed", run(prefix / "lib" / "igesolid" / "python") == wanted
    yield "package: in a clone", run(parts.copy.top / "python") == wanted
    shutil.copytree(parts.copy.top / "python", parts.folder / "elsewhere" / "else" / "python")
    yield "package: elsewhere", run(parts.folder / "elsewhere" / "else" / "python", PATH=f"{prefix}/bin:{clone.PLAIN_PATH}") == wanted
    status, _, error = run(parts.folder / "elsewhere" / "else" / "python")
    yield "package: elsewhere without the program", status == 1 and "igesolid is neither beside its Python package nor on PATH" in error
    sources = [*(parts.copy.top / "python").rglob("*.py"), parts.copy.top / "companion" / "check"]
    yield "package: of Python 3.8", all(ast.parse(it.read_text(), feature_version=(3, 8)) for it in sources)
    names = sorted(str(it.relative_to(parts.copy.top)) for it in (parts.copy.top / "python").rglob("*") if it.is_file())
    yield "package: all of it is installed", all((prefix / "lib" / "igesolid" / name).is_file() for name in names) and "python/igesolid/py.typed" in names


def image(parts, skipped):
    """The Debian package has what the image recipe names. The image itself isn't built."""
    if shutil.which("dpkg-deb") is None:
        skipped("the paths of packaging/Containerfile: dpkg-deb isn't installed")
        return
    status, text, _ = parts.copy.run("packaging/deb", parts.folder, SOURCE_DATE_EPOCH=1_700_000_000)
    package_file = pathlib.Path(text.decode().strip())
    recipe = (parts.copy.top / "packaging" / "Containerfile").read_text()
    copied = re.search(r"(?m)^COPY (\S+) /tmp/$", recipe)[1]
    yield "image: the package", status == 0 and package_file.match(copied) and recipe.count(f"/tmp/{copied}") == 2
    listed = {line.split()[5] for line in parts.copy.run("dpkg-deb", "--contents", package_file)[1].decode().splitlines()}
    yield "image: the program", f".{json.loads(re.search(r'(?m)^ENTRYPOINT (.*)$', recipe)[1])[0]}" in listed
    yield "package: where Debian's Python looks", "./usr/lib/python3/dist-packages/igesolid" in listed


def installed(copy):
    """Parts to judge by an installed copy of the launcher, and where it is installed."""
    prefix = copy.folder / "prefix"
    copy.run("./install", prefix)
    return Parts(copy, prefix), prefix


def checks(copy, skipped):
    parts, prefix = installed(copy)
    parts.skipped = skipped
    for part in (texts, forms, statuses, pressure, many, tables, certificates, interrupts, progress, launched, package):
        parts.fill()
        yield from part(parts)
    yield from html_tests.checks(parts)
    parts.fill()
    yield from recipes(parts)
    parts.fill()
    yield from installed_package(parts, prefix)
    yield from image(parts, skipped)


def clusters(copy, skipped):
    """The recipe for Slurm under a real Slurm of one node, and `--dask` on a real Dask cluster, where these are installed."""
    parts, _ = installed(copy)
    for part in (slurm, dask):
        parts.fill()
        yield from part(parts, skipped)
