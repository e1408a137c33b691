"""The launcher and dist/: a first run without the kit, builds by a kit that is played, and what the launcher says."""
import base64
import gzip
import hashlib
import os
import pathlib
import re
import resource
import shutil
import signal
import socket
import subprocess
import time

import clone
import command_table
import libraries
from sample_file import sample_text

BIG_FILE, BIG_CERTIFICATE = 164_000_001, 536_870_913
C = "-std=c99 -O1 -Wall -Wextra -pedantic -Werror".split()
IS_BIG_FILE = "the file has more than 164,000,000 bytes"
IS_BIG_CERTIFICATE = "the certificate has more than 536,870,912 bytes"


def first_runs(copy, skipped):
    """What the launcher does of a clone whose dist/ holds the program, without the kit."""
    cube = ["./igesolid", "certify", "examples/cube.igs", "1"]
    wanted = subprocess.run([copy.program, *cube[1:]], cwd=copy.top, stdout=subprocess.PIPE).stdout
    yield "launcher: the first command", copy.run(*cube) == (0, wanted, "")
    yield "launcher: by few commands of the shell", 0 < copy.run("sh", "-x", *cube)[2].count("\n+ ") < 200
    yield "launcher: from another folder", copy.run(copy.top / "igesolid", "solids", "cube.igs", cwd=copy.top / "examples") == (0, b"1\n", "")
    piped = subprocess.run(
        ["./igesolid", "solids", "/dev/stdin"], cwd=copy.top, input=(copy.top / "examples" / "cube.igs").read_bytes(), stdout=subprocess.PIPE, env=copy.environment()
    )
    yield "launcher: a file on standard input", (piped.returncode, piped.stdout) == (0, b"1\n")
    status, text, error = copy.run("./igesolid")
    first = re.findall(r"(?m)^  igesolid (.*?)  +(.*)$", text.decode())
    yield "launcher: no words", (status, error) == (2, "") and len(first) == 6 and set(first) < {(row.words, row.text) for row in command_table.ROWS}
    sources = copy.run("dist/sources")[1].decode()
    shipped = copy.top / "dist" / "igesolid-x86_64-linux"
    status, text, error = copy.run("./igesolid", "--version")
    told = re.fullmatch(r"igesolid [0-9.]+\nsources (.*\n)kit a kit for tests\nprogram (.*)\n", text.decode())
    yield "launcher: --version", (status, error) == (0, "") and told and told.groups() == (sources, str(shipped))
    yield "launcher: --program", copy.run("./igesolid", "--program") == (0, f"{shipped}\n".encode(), "")
    if not clone.without_kit():
        skipped("runs without the kit: rt is among the system's own commands")
        return
    status, text, error = copy.run("./igesolid", "--built", *cube[1:])
    yield "launcher: --built without the kit", (status, text) == (125, b"") and "rt, the kit that builds it, isn't on PATH" in error
    whole = shipped.read_bytes()
    shipped.write_bytes(whole[:-1])
    yield "launcher: a program of dist/ that is cut", copy.run(*cube)[0] == 125
    copy.ship_script("#!/bin/sh\nexit 1\n")
    status, _, error = copy.run(*cube)
    yield "launcher: a program that doesn't start", status == 125 and "doesn't start on this machine" in error
    copy.ship(copy.program)
    with open(copy.top / "crates.txt", "a") as file:
        file.write("# changed\n")
    status, _, error = copy.run(*cube)
    yield "launcher: a changed source without the kit", status == 125 and "holds no program built from these sources, and rt" in error


def machines(copy):
    """Where dist/ holds a program that starts for another machine only, that one runs; where none starts, it is said."""
    one, other, sums = copy.top / "dist" / "igesolid-x86_64-linux", copy.top / "dist" / "igesolid-aarch64-linux", copy.top / "dist" / "SHA256SUMS"
    whole, lines = one.read_bytes(), sums.read_text()
    copy.write(one, "#!/bin/sh\nexit 126\n")
    copy.write(other, "#!/bin/sh\n[ $# -gt 0 ] || { echo 'usage: igesolid ..'; exit 2; }\necho other\n")
    sums.write_text("".join(f"{hashlib.sha256(path.read_bytes()).hexdigest()}  {path.name}\n" for path in (one, other)))
    yield "launcher: the program of another machine", copy.run("./igesolid", "solids", "examples/cube.igs") == (0, b"other\n", "")
    other.write_text("#!/bin/sh\n")
    yield "launcher: changed since", copy.run("./igesolid", "solids", "examples/cube.igs")[0] == 125
    other.unlink()
    one.write_bytes(whole)
    sums.write_text(lines)


def parts_of(page):
    """What stands in a page: the file's name and the number, the text of where, and the file."""
    found = [base64.b64decode(re.search(rb'(?s)id="%s">(.*?)</script>' % name, page)[1]) for name in (b"words", b"where", b"file")]
    return [*found[:2], gzip.decompress(found[2])]


def pictures(copy):
    """`where` runs the other program, and `page` and `marks` ask it."""
    wanted = (copy.top / "tests" / "recorded" / "fail_pair.1.txt").read_bytes()
    words = "examples/no/fail_pair.igs", "1"
    yield "launcher: where", copy.run("./igesolid", "where", *words) == (1, wanted, "")
    yield "launcher: where without words", copy.run("./igesolid", "where")[:2] == copy.run(copy.where)[:2]
    yield "launcher: --program where", copy.run("./igesolid", "--program", "where") == (0, f"{copy.top / 'dist' / 'igesolid-where-x86_64-linux'}\n".encode(), "")
    status, text, error = copy.run("./igesolid", "page", *words)
    yield "launcher: page", (status, text[:15], error) == (1, b"<!doctype html>", "") and parts_of(text) == [b"fail_pair.igs\x001", wanted, (copy.top / words[0]).read_bytes()]
    page = text
    status, text, error = copy.run(copy.top / "igesolid", "marks", "fail_pair.igs", "1", cwd=copy.top / "examples" / "no")
    yield "launcher: marks", (status, error) == (1, "") and text.startswith(b"Faults of solid 1 of fail_pair.igs ")
    told = copy.run("./igesolid", "page", *words, TMPDIR="/none")
    yield "launcher: page without a folder for copies", told == (5, b"", f"igesolid: {words[0]}: it can't be copied to /none: No such file or directory\n")
    yield "launcher: page without a number", copy.run("./igesolid", "page", words[0])[:2] == (2, b"")
    for command in ("where", "page", "marks"):
        told = copy.run("./igesolid", command, "none.igs", "1")
        yield f"launcher: {command} of no file", told == (4, b"", "igesolid: none.igs: can't be opened: No such file or directory\n")
    yield "launcher: no caches are left", not any(copy.top.rglob("__pycache__"))
    plain = without_commands(copy, "python")
    told = copy.run("./igesolid", "page", *words, PATH=plain)
    yield "launcher: page without Python", told == (1, page, "")
    told = copy.run("./igesolid", "marks", *words, PATH=plain)
    yield "launcher: marks without Python", told == (125, b"", "igesolid: marks needs Python 3.8 or later, and python3 isn't on PATH\n")
    shutil.rmtree(plain)
    plain = without_commands(copy, "gzip")
    yield "launcher: page without gzip", copy.run("./igesolid", "page", *words, PATH=plain) == (125, b"", "igesolid: page needs gzip, which isn't on PATH\n")
    shutil.rmtree(plain)


def layouts(copy):
    """`relayout`, `layout` and `reorient` run the program that mends files."""
    cube = (copy.top / "examples" / "cube.igs").read_bytes()
    (copy.top / "harmed.igs").write_bytes(b"\xef\xbb\xbf" + cube)
    yield "launcher: relayout", copy.run("./igesolid", "relayout", "harmed.igs") == (0, cube, "")
    yield "launcher: layout", copy.run("./igesolid", "layout", "harmed.igs") == (1, b"mark 1 line 1\n", "")
    yield "launcher: layout without words", copy.run("./igesolid", "layout")[:2] == copy.run(copy.repair)[:2]
    yield "launcher: --program layout", copy.run("./igesolid", "--program", "layout") == (0, f"{copy.top / 'dist' / 'igesolid-repair-x86_64-linux'}\n".encode(), "")
    for command in ("relayout", "layout"):
        told = copy.run("./igesolid", command, "none.igs")
        yield f"launcher: {command} of no file", told == (4, b"", "igesolid: none.igs: can't be opened: No such file or directory\n")
    (copy.top / "harmed.igs").unlink()
    told = copy.run("./igesolid", "reorient", "examples/turned.igs", "1")
    yield "launcher: reorient", (told[0], told[2]) == (0, "") and b"514,6,9,1,15,1,21,1,27,1," in told[1]
    status, text, error = copy.run("./igesolid", "mend", "examples/turned.igs", "1")
    (copy.top / "mended.igs").write_bytes(text)
    yield "launcher: mend", (status, error) == (0, "") and copy.run("./igesolid", "check", "mended.igs") == (0, b"solid 1: closed\n1 solid, 1 closed\n", "")
    (copy.top / "mended.igs").unlink()
    said = "igesolid: examples/no/one_sided.igs: nothing is mended: no remedy is known that closes the solid\n"
    yield "launcher: mend what is stuck", copy.run("./igesolid", "mend", "examples/no/one_sided.igs", "1") == (1, b"fail PAIR 7 1\nstuck\n", said)
    yield "launcher: mended what is stuck", copy.run("./igesolid", "mended", "examples/no/one_sided.igs", "1") == (1, b"fail PAIR 7 1\nstuck\n", "")
    yield "launcher: reorient without flags", copy.run("./igesolid", "reorient", "examples/no/one_sided.igs", "1") == (1, b"ORIENT 1\nO 1 1\nEND\n", "")


def helps(copy):
    """--help ends well, and the man page is of this version."""
    status, _, error = copy.run("./igesolid", "--help")
    yield "launcher: --help", (status, error) == (0, "")
    page = (copy.top / "man" / "igesolid.1").read_text()
    version = re.search(r"(?m)^version=(.*)$", (copy.top / "igesolid").read_text())[1]
    yield "man page: the version", f'"igesolid {version}"' in page


def builds(copy):
    """Builds by the kit that is played, in a clone whose sources aren't those of dist/."""
    solids = ["./igesolid", "solids", "examples/cube.igs"]
    copy.calls()
    status, text, error = copy.run(*solids, kit=True)
    lines = error.splitlines()
    count = len(lines) - 1
    yield "build: the answer", (status, text) == (0, b"1\n")
    yield "build: a line a crate", [it.split(",")[0] for it in lines[1:]] == [f"igesolid: {n} of {count} crates proved" for n in range(1, count + 1)]
    calls = copy.calls()
    yield "build: lowest first, and the program last", calls[0] == "lib iges_base" and calls[-1] == "run igesolid" and len(calls) == count
    yield "build: once", copy.run(*solids) == (0, b"1\n", "") and copy.calls() == []
    told = copy.run("./igesolid", "--built", "where", "examples/no/fail_pair.igs", "1", kit=True)
    yield "build: the other program", told[0] == 1 and copy.calls()[-1] == "run igesolid_where"
    yield "build: --built runs it", copy.run("./igesolid", "--built", *solids[1:]) == (0, b"1\n", "")
    whole = copy.built().read_bytes()
    copy.built().write_bytes(whole[:-1])
    yield "build: another program in its place", copy.run("./igesolid", "--built", *solids[1:])[0] == 125
    copy.built().write_bytes(whole)
    yield "build: --version", b"kit a kit for tests\nprogram " in copy.run("./igesolid", "--version")[1]
    copy.unbuild()
    status, text, error = copy.run(*solids, kit=True, KIT_REFUSES="brep_walk")
    yield "build: a crate that isn't proved", (status, text) == (125, b"") and "crate brep_walk could not be built" in error
    yield "build: none above it", "run igesolid" not in copy.calls()
    yield "build: not built yet", b"not built yet" in copy.run("./igesolid", "--version")[1]
    # The first crates may be proved before a line is shown.
    yield from failed_runs(copy, solids)
    copy.unbuild()
    status, told = clone.on_terminal(solids, cwd=copy.top, env=copy.environment(kit=True, KIT_DELAY="0.05"))
    yield "build: one line that changes", status == 0 and re.search(rf"\r\x1b\[Kigesolid: \d+ of {count} crates proved, now \w+", told) is not None
    copy.unbuild()


def failed_runs(copy, solids):
    """A build whose last run fails doesn't count, though the program is there; what was there before stays until it is replaced."""
    kit = copy.folder / "kit" / "rt"
    text = kit.read_text()
    copy.unbuild()
    for crate, command in (("igesolid", solids[1:]), ("igesolid_where", ["where", "examples/cube.igs"])):
        copy.write(kit, f"{text}\n[ \"$1\" != run ] || exit 1\n")
        status, _, error = copy.run("./igesolid", "--built", *command, kit=True)
        failed = status == 125 and f"crate {crate} could not be built" in error
        yield f"build: a failed run of {crate}", failed and copy.built(crate).exists() and not copy.built(crate).with_name(f"{crate}.from").exists()
        copy.write(kit, text.replace("lib | run)", "lib | run)\n    [ \"$1\" != run ] || echo \"$@\" >words"))
        status, _, error = copy.run("./igesolid", "--built", *command, kit=True)
        folder = copy.top / "crates" / crate
        words = (folder / "words").read_text().split()
        (folder / "words").unlink()
        yield f"build: the trial of {crate}", status == 0 and subprocess.run([copy.built(crate), *words[2:]], cwd=folder, stdout=subprocess.DEVNULL).returncode == 0
    copy.write(kit, text)


def heed_interrupts():
    """A process that is started in the background may ignore SIGINT, and hands that down."""
    signal.signal(signal.SIGINT, signal.SIG_DFL)


def stopped(copy):
    """A signal to the launcher's group, as from a terminal, stops a build, and a signal to the launcher a run."""
    solids = ["./igesolid", "solids", "examples/cube.igs"]
    for number in (signal.SIGINT, signal.SIGTERM):
        environment = copy.environment(kit=True, KIT_DELAY=5)
        process = subprocess.Popen(solids, cwd=copy.top, env=environment, stderr=subprocess.DEVNULL, start_new_session=True, preexec_fn=heed_interrupts)
        time.sleep(0.5)
        os.killpg(process.pid, number)
        yield f"a build stopped by {number.name}", process.wait(timeout=10) == -number
    copy.ship(copy.program)
    fifo = copy.folder / "fifo"
    os.mkfifo(fifo)
    process = subprocess.Popen(["./igesolid", "solids", fifo], cwd=copy.top, env=copy.environment(), stderr=subprocess.DEVNULL, start_new_session=True)
    with open(fifo, "wb", buffering=0) as writer:
        time.sleep(0.2)
        process.terminate()
        yield "a run stopped", process.wait(timeout=10) == -signal.SIGTERM
        try:
            writer.write(b"x")
            is_gone = False
        except BrokenPipeError:
            is_gone = True
        yield "a run stopped: the program too", is_gone
    fifo.unlink()


def messages(copy):
    """What the launcher says of the program's own statuses; nothing of the others."""
    cube, certificate = "examples/cube.igs", "examples/cube.cert2"
    (copy.top / "big.igs").touch()
    os.truncate(copy.top / "big.igs", BIG_FILE)
    (copy.top / "big.cert").touch()
    os.truncate(copy.top / "big.cert", BIG_CERTIFICATE)
    for words, status, said in (
        (["solids", "none.igs"], 4, "none.igs: can't be opened: No such file or directory"),
        (["solids", ""], 4, "an empty name: can't be opened: No such file or directory"),
        (["solids", "two\nlines"], 4, "two?lines: can't be opened: No such file or directory"),
        (["show", "examples", "1"], 4, "examples: is a folder"),
        (["verify", cube, "none.cert"], 4, "none.cert: can't be opened: No such file or directory"),
        (["upgrade", cube, "docs"], 4, "docs: is a folder"),
        (["solids", "/proc/self/mem"], 4, "/proc/self/mem: a read failed: Input/output error"),
        (["solids", "big.igs"], 8, f"big.igs: {IS_BIG_FILE}"),
        (["verify", "big.igs", "big.cert"], 8, f"big.igs: {IS_BIG_FILE}"),
        (["verify", cube, "big.cert"], 8, f"big.cert: {IS_BIG_CERTIFICATE}"),
        (["open", "none.igs", "3"], 4, "none.igs: can't be opened: No such file or directory"),
        (["open-verify", cube, "docs"], 4, "docs: is a folder"),
        (["orient", "docs", "1"], 4, "docs: is a folder"),
        (["orient-verify", cube, "none.cert"], 4, "none.cert: can't be opened: No such file or directory"),
        (["compact", "big.igs", "1"], 8, f"big.igs: {IS_BIG_FILE}"),
    ):
        yield f"message: {words}", copy.run("./igesolid", *words) == (status, b"", f"igesolid: {said}\n")
    told = copy.run("./igesolid", "solids", b"caf\xe9.igs")
    yield "message: a word that isn't UTF-8", told[::2] == (2, "igesolid: caf\ufffd.igs: this argument isn't UTF-8\n")
    with open("/dev/full", "wb") as full:
        told = copy.run("./igesolid", "certify", cube, "1", stdout=full)
    yield "message: standard output is full", told[::2] == (5, f"igesolid: {cube}: standard output failed, so the answer is cut short or missing\n")
    (copy.top / "sample.igs").write_bytes(sample_text(100))
    few = 12_000_000
    told = copy.run("./igesolid", "certify", "sample.igs", "1", limit=lambda: resource.setrlimit(resource.RLIMIT_AS, (few, few)))
    yield "message: no memory", told == (6, b"", "igesolid: sample.igs: out of memory\n")
    tetrahedra = "examples/two_tetrahedra.igs"
    for words in (
        *(["certify", tetrahedra, number] for number in ("1", "all")), ["solids", "examples/no/bad_field.igs"], ["extract", cube, "3"],
        ["open", cube, "1"], ["orient", cube, "2"], ["compact", cube, "3"],
    ):  # fmt: skip
        status, _, error = copy.run("./igesolid", *words)
        yield f"no message: {words}", status in (1, 3, 7) and error == ""
    for words in ["solids", "crates.txt"], ["where", "crates.txt"]:
        status, _, error = copy.run("./igesolid", *words)
        said = "its lines aren't those of the fixed form; igesolid layout says whether igesolid relayout can put them right"
        yield f"message: {words}", (status, error) == (3, f"igesolid: crates.txt: {said}\n")
    copy.ship_script(clone.ENDING)
    for words, said in (
        (["extract", cube, "1"], f"{cube}: the extracted text would have more than 164,000,000 bytes"),
        (["upgrade", cube, certificate], f"{cube}: the upgraded text would have more than 536,870,912 bytes"),
        (["upgrade", cube, "big.cert"], f"big.cert: {IS_BIG_CERTIFICATE}"),
        (["open-verify", cube, "big.cert"], f"big.cert: {IS_BIG_CERTIFICATE}"),
        (["orient-verify", cube, "big.cert"], f"big.cert: {IS_BIG_CERTIFICATE}"),
        (["compact", cube, "1"], f"{cube}: the compact text would have more than 164,000,000 bytes"),
        (["open", "/dev/null", "1"], f"/dev/null: {IS_BIG_FILE}"),
        (["certify", cube, "all"], f"{cube}: its solids together have more than 6,000,000 loop uses"),
        (["certify", "/dev/null", "all"], f"/dev/null: {IS_BIG_FILE}, or its solids together have more than 6,000,000 loop uses"),
        (["certify", "/dev/null", "1"], f"/dev/null: {IS_BIG_FILE}"),
        (["verify", "/dev/null", certificate], f"/dev/null: {IS_BIG_FILE}"),
        (["verify", "/dev/null", "/dev/null"], f"/dev/null: {IS_BIG_FILE}, or {IS_BIG_CERTIFICATE}"),
    ):
        yield f"message of status 8: {words}", copy.run("./igesolid", *words, STATUS=8) == (8, b"", f"igesolid: {said}\n")
    for row in command_table.of_kind("status"):
        error = copy.run("./igesolid", "verify", cube, certificate, STATUS=row.owner)[2] if row.owner != "125" else ""
        if row.words == "always" and row.owner != "125":
            yield f"message of status {row.owner}: one line", error.startswith("igesolid: ") and error.count("\n") == 1
        elif row.words == "never":
            yield f"message of status {row.owner}: none", error == ""
    for name in ("big.igs", "big.cert", "sample.igs"):
        (copy.top / name).unlink()
    copy.ship(copy.program)


def comparisons(copy, skipped):
    """dist/check passes where dist/ holds what was built here, of these sources, and fails else; dist/make counts what git tracks."""
    for crate, program in (("igesolid", copy.program), ("igesolid_where", copy.where), ("igesolid_repair", copy.repair)):
        copy.built(crate).parent.mkdir(parents=True, exist_ok=True)
        shutil.copy(program, copy.built(crate))
    yield "dist/check: the same", copy.run("dist/check", kit=True)[0] == 0
    copy.built().write_bytes(pathlib.Path(copy.program).read_bytes()[:-1] + b"?")
    yield "dist/check: another byte", copy.run("dist/check", kit=True)[0] == 1
    copy.built().write_bytes(pathlib.Path(copy.program).read_bytes())
    listed = copy.top / "HANDLES"
    text = listed.read_text()
    listed.write_text(text + "\n")
    yield "dist/check: another source", copy.run("dist/check", kit=True)[0] == 1
    listed.write_text(text)
    yield "dist/check: the sources again", copy.run("dist/check", kit=True)[0] == 0
    named = copy.folder / "kit" / "rt"
    text = named.read_text()
    copy.write(named, text.replace("a kit for tests", "another kit"))
    status, told, _ = copy.run("dist/check", kit=True)
    yield "dist/check: another kit that builds the same bytes", status == 0 and b"BUILT names the kit a kit for tests; another kit built the same bytes" in told
    copy.write(named, text)
    if shutil.which("git", path=clone.PLAIN_PATH) is None:
        skipped("dist/make beside git, which isn't installed")
    else:
        copy.run("git", "init", "--quiet")
        copy.run("git", "add", "--all")
        told = copy.run("dist/sources")[1]
        yield "dist/make: what git tracks", copy.run("dist/make", kit=True)[0] == 0 and copy.run("dist/sources")[1] == told
        (copy.top / "crates" / "iges_io" / "notes").touch()
        yield "dist/make: a file that git doesn't know", copy.run("dist/make", kit=True)[0] == 1
        (copy.top / "crates" / "iges_io" / "notes").unlink()
        shutil.rmtree(copy.top / ".git")
    copy.unbuild()


# Whether the libraries below the one for C are those that the gate left.
ARE_LEFT = "import sys; sys.dont_write_bytecode = True; sys.path.insert(0, 'packaging'); import kit; print(kit.Crates().are_left('igesolid_c'))"


def left_libraries(copy):
    """packaging/kit.py takes the libraries that the gate left, where all of them stand and none is older than a source below it."""
    are_left = lambda: copy.run("python3", "-c", ARE_LEFT)[:2] == (0, b"True\n")
    yield "packaging/kit.py: no library", not are_left()
    libraries = [path.parent / "out" / "rlib" / f"{path.parent.name}.rlib" for path in (copy.top / "crates").glob("*/src")]
    for library in libraries:
        library.mkdir(parents=True)
        (library / "format").touch()
    yield "packaging/kit.py: all libraries", are_left()
    low = copy.top / "crates" / "iges_base"
    os.utime(next(low.rglob("*.antt")))
    yield "packaging/kit.py: a source is newer", not are_left()
    for library in libraries:
        os.utime(library)
    (low / "out" / "rlib" / "iges_base.rlib" / "format").unlink()
    yield "packaging/kit.py: a library is missing", not are_left()
    for library in libraries:
        shutil.rmtree(library.parent.parent)


def run_in(copy, script, **more):
    """The status, standard output and standard error of a script of the shell, whose words say what its commands read and write."""
    done = subprocess.run(["bash", "-c", script], cwd=copy.top, capture_output=True, env=copy.environment(**more), timeout=clone.SECONDS)
    return done.returncode, done.stdout.decode(), done.stderr.decode(errors="replace")


def inputs(copy):
    """Standard input in the place of a file, and files by descriptors of the caller."""
    cube, pair = "examples/cube.igs", "examples/no/fail_pair.igs"
    closed = "igesolid: standard input: is closed\n"
    for name, script, wanted in (
        ("a file", f"./igesolid solids - <{cube}", (0, "1\n", "")),
        ("a pipe", f"cat {cube} | ./igesolid solids -", (0, "1\n", "")),
        ("what is left of a file", f"{{ echo first; cat {cube}; }} >part; {{ read line; ./igesolid solids -; }} <part; rm part", (0, "1\n", "")),
        ("FILE of two", f"./igesolid verify - examples/cube.cert2 <{cube}", (0, "accepted 1\n", "")),
        ("CERT", f"./igesolid verify {cube} - <examples/cube.cert2", (0, "accepted 1\n", "")),
        ("where", f"./igesolid where - <{cube}", (0, "solids 1 failing 0\nsolid 1 closed\n  lines directory 4 record 72 72\n", "")),
        ("closed", "./igesolid solids - <&-", (4, "", closed)),
        ("closed, page", "./igesolid page - 1 <&-", (4, "", closed)),
        ("a folder", "./igesolid solids - <docs", (4, "", "igesolid: standard input: is a folder\n")),
        ("a file of that name", f"cp {cube} ./-; ./igesolid solids ./-; rm ./-", (0, "1\n", "")),
        ("no file, in a loop", "printf '1\\n2\\n' | while read n; do ./igesolid solids none 2>&-; echo $n; done", (0, "1\n2\n", "")),
        ("too large", "truncate -s 164000001 big; ./igesolid solids - <big; rm big", (0, "", f"igesolid: standard input: {IS_BIG_FILE}\n")),
    ):
        yield f"standard input: {name}", run_in(copy, script) == wanted
    status, text, error = run_in(copy, "./igesolid verify - - </dev/null")
    yield "standard input: twice", (status, text, error) == (2, command_table.usage(), "igesolid: standard input (-) can be given once only\n")
    wanted = parts_of(copy.run("./igesolid", "page", pair, "1")[1])[1:]
    status, text, _ = run_in(copy, f"./igesolid page - 1 <{pair}")
    yield "standard input: page", (status, parts_of(text.encode())) == (1, [b"standard input\x001", *wanted])
    status, text, _ = run_in(copy, f"TMPDIR=$PWD/docs ./igesolid page <(cat {pair}) 1")
    yield "page: a pipe", (status, parts_of(text.encode())[1:]) == (1, wanted) and len(list((copy.top / "docs").glob("tmp.*"))) == 0
    status, text, _ = run_in(copy, f"TMPDIR=$PWD/docs ./igesolid marks <(cat {pair}) 1")
    yield "marks: a pipe", status == 1 and text.startswith("Faults of solid 1 of ") and len(list((copy.top / "docs").glob("tmp.*"))) == 0
    ours, theirs = socket.socketpair()
    process = subprocess.Popen(["./igesolid", "solids", "-"], cwd=copy.top, env=copy.environment(), stdin=theirs, stdout=subprocess.PIPE)
    theirs.close()
    ours.sendall((copy.top / cube).read_bytes())
    ours.close()
    yield "standard input: a socket", (process.communicate(timeout=clone.SECONDS)[0], process.returncode) == (b"1\n", 0)
    for number in (3, 4, 9, 10, 11, 20):
        yield f"descriptor {number}", run_in(copy, f"./igesolid solids /dev/fd/{number} {number}<{cube}") == (0, "1\n", "")
    others = " ".join(f"{number}</dev/null" for number in range(4, 10))
    yield "descriptors: none is left", run_in(copy, f"cat {cube} | ./igesolid verify /dev/stdin /dev/fd/3 3<examples/cube.cert2 {others}") == (0, "accepted 1\n", "")


def outputs(copy):
    """Words of the launcher's own, and pages, with a standard output that fails."""
    for words in ("", "--help", "-h", "help", "--version", "--program", "sample 3", "solids examples/cube.igs", "page examples/no/fail_pair.igs 1"):
        for output in (">/dev/full", ">&-"):
            status, text, error = run_in(copy, f"./igesolid {words} {output}")
            yield f"{words} {output}", (status, text) == (5, "") and error.endswith("standard output failed, so the answer is cut short or missing\n") and error.count("\n") == 1
    texts = {copy.run("./igesolid", word)[:2] for word in ("--help", "-h", "help")}
    yield "-h and help", len(texts) == 1 and texts.pop()[0] == 0


def wrong_words(copy):
    """Which words are wrong, on standard error; the program's own usage line and status stay."""
    certify = "the words are igesolid certify FILE N, or igesolid certify FILE all\n"
    solid = "igesolid: N is the directory number of a solid, of 1 to 7 digits: igesolid solids FILE lists them\n"
    for words, said in (
        ("certfy a.igs 1", "certfy isn't a command; the nearest is certify: igesolid certify FILE N, or igesolid certify FILE all\n"),
        ("extrct a.igs 1", "extrct isn't a command; the nearest is extract: igesolid extract FILE N\n"),
        ("verfy a.igs b", "verfy isn't a command; the nearest is verify: igesolid verify FILE CERT\n"),
        ("wehre a.igs", "wehre isn't a command; the nearest is where: igesolid where FILE, or igesolid where FILE N, or igesolid where FILE N all, or igesolid where --json FILE ..\n"),
        ("--hepl", "--hepl isn't a command; the nearest is --help: igesolid --help\n"),
        ("something", "something isn't a command; igesolid --help lists the commands\n"),
        ("examples/cube.igs", "examples/cube.igs is a file, and a command comes before it, as in: igesolid certify examples/cube.igs all\n"),
        ("certify", f"FILE and N are missing: {certify}{solid}"),
        ("certify a.igs", f"N is missing: {certify}{solid}"),
        ("certify a.igs first", f"first isn't a number N: {certify}{solid}"),
        ("certify a.igs 0", f"0 isn't a number N: {certify}{solid}"),
        ("certify a.igs 12345678", f"12345678 isn't a number N: {certify}{solid}"),
        ("certify a.igs 1 2", f"2 is a word too many: {certify}"),
        ("verify a.igs", "CERT is missing: the words are igesolid verify FILE CERT\n"),
        ("open a.igs", "N is missing: the words are igesolid open FILE N\nigesolid: N is the directory number of a shell, of 1 to 7 digits\n"),
        ("sample 2", "2 isn't a number N: the words are igesolid sample N\nigesolid: N is from 3 to 200\n"),
    ):
        yield f"wrong words: {words}", copy.run("./igesolid", *words.split()) == (2, command_table.usage().encode(), f"igesolid: {said}")
    status, text, error = copy.run("./igesolid", "where", "a.igs", "1", "al")
    yield "wrong words: where", (status, text) == copy.run(copy.where)[:2] and error.startswith("igesolid: al isn't all: the words are igesolid where FILE, or ")


def foreign_certificates(copy):
    """A certificate of another file gets a question, once, and a changed one of the same file none."""
    cube, certificate, cylinder = "examples/cube.igs", "examples/cube.cert2", "examples/cylinder.igs"
    sheet, turned = "examples/sheet.open1", "examples/turned.orient"
    for words, text in (
        (["verify", cylinder, certificate], b"line 3 unfit\n"),
        (["upgrade", cylinder, certificate], b"line 3 unfit\n"),
        (["verify", cylinder, "examples/two_solids.cert3"], b"line 3 unfit\n"),
        (["open-verify", cube, sheet], b"fail TYPE 1 0\n"),
        (["orient-verify", cylinder, turned], b"line 2 unfit\n"),
    ):
        question = f"igesolid: {words[2]}: does this certificate belong to {words[1]}? It is of a solid or shell that isn't so in this file\n"
        yield f"another file's certificate: {words}", copy.run("./igesolid", *words) == (1, text, question)
    lines = (copy.top / certificate).read_text().splitlines()
    (copy.top / "changed.cert").write_text("\n".join([*lines[:-2], "E 1 1", *lines[-2:], ""]))
    status, _, error = copy.run("./igesolid", "verify", cube, "changed.cert")
    yield "no question: a changed certificate", (status, error) == (1, "")
    (copy.top / "changed.cert").unlink()


def without_commands(copy, *names):
    """A folder of the system's commands without those of these names."""
    plain = copy.folder / f"without {names[0]}"
    plain.mkdir()
    for folder in map(pathlib.Path, clone.PLAIN_PATH.split(":")):
        for it in folder.iterdir() if folder.is_dir() else ():
            if not it.name.startswith(names) and not (plain / it.name).exists():
                (plain / it.name).symlink_to(it)
    return plain


def causes(copy, skipped):
    """What keeps dist/ from being used is named, and one program that is missing doesn't stop the other."""
    solids, where = ["./igesolid", "solids", "examples/cube.igs"], ["./igesolid", "where", "examples/cube.igs"]
    plain = without_commands(copy, "sha256sum")
    told = copy.run(*solids, PATH=plain)
    yield "cause: no sha256sum", told == (125, b"", "igesolid: sha256sum isn't on PATH, so the program can't be compared with the sources\n")
    shutil.rmtree(plain)
    other = copy.top / "dist" / "igesolid-where-x86_64-linux"
    other.rename(copy.folder / "elsewhere")
    yield "cause: the other program is missing", copy.run(*solids) == (0, b"1\n", "")
    yield "cause: the program is missing", copy.run(*where)[0] == 125 and f"{other} is missing" in copy.run(*where)[2]
    (copy.folder / "elsewhere").rename(other)
    other.chmod(0o644)
    yield "cause: not executable", copy.run(*where)[0] == 125 and f"{other} isn't executable (chmod +x makes it so)" in copy.run(*where)[2]
    other.chmod(0o755)
    whole = other.read_bytes()
    other.write_bytes(whole[:-1])
    yield "cause: another program", "isn't the program of dist/SHA256SUMS" in copy.run(*where)[2] and copy.run(*solids)[0] == 0
    other.write_bytes(whole)
    yield "cause: none", copy.run(*where)[::2] == (0, "")
    if shutil.which("git", path=clone.PLAIN_PATH) is None:
        skipped("sources that git doesn't know: git isn't installed")
    else:
        yield from causes_by_git(copy, solids)


def causes_by_git(copy, solids):
    copy.run("git", "init", "--quiet")
    copy.run("git", "add", "--all")
    copy.run("git", "-c", "user.name=tests", "-c", "user.email=tests@localhost", "commit", "--quiet", "--message=all")
    stray, changed = copy.top / "crates" / "iges_io" / "notes", copy.top / "crates.txt"
    stray.touch()
    yield "cause: a stray file", "since git doesn't know crates/iges_io/notes (remove it, or build)" in copy.run(*solids)[2]
    stray.unlink()
    text = changed.read_text()
    changed.write_text(text + "# changed\n")
    yield "cause: a changed file", "since crates.txt was changed (git checkout restores it)" in copy.run(*solids)[2]
    changed.write_text(text)
    yield "cause: none by git", copy.run(*solids) == (0, b"1\n", "")
    shutil.rmtree(copy.top / ".git")


def places(copy):
    """A clone whose folder has a line feed at its end, one that a link leads to, and control characters in a name."""
    cube = str(copy.top / "examples" / "cube.igs")
    odd = copy.folder / "line feed\n"
    copy.top.rename(odd)
    own = odd / "igesolid"
    yield "launcher: a folder with a line feed", copy.run(own, "solids", odd / "examples" / "cube.igs", cwd=copy.folder) == (0, b"1\n", "")
    odd.rename(copy.top)
    link = copy.folder / "link"
    link.symlink_to(copy.top / "igesolid")
    yield "launcher: by a link", copy.run(link, "solids", cube, cwd=copy.folder) == (0, b"1\n", "")
    link.unlink()
    yield "launcher: by sh", copy.run("sh", "igesolid", "solids", cube) == (0, b"1\n", "")
    yield "launcher: beside CDPATH", copy.run("sh", "clone/igesolid", "solids", cube, cwd=copy.folder, CDPATH="/tmp") == (0, b"1\n", "")
    for name, shown in (("a\u0085b", "a?b"), ("a\x1b[31mb", "a?[31mb"), ("\u00c0\u00e9", "\u00c0\u00e9")):
        told = copy.run("./igesolid", "solids", name)
        yield f"message: {name!r}", told == (4, b"", f"igesolid: {shown}: can't be opened: No such file or directory\n")
    told = copy.run("./igesolid", "solids", b"a\x9bb\xe9")
    yield "message: a control character that isn't UTF-8", told[2] == "igesolid: a?b\ufffd: this argument isn't UTF-8\n"


def surprises(copy):
    """What docs/RELIABILITY.md says of the program: it opens a certificate before it reads the file, and wants a blocking output."""
    fifo = copy.folder / "fifo"
    os.mkfifo(fifo)
    process = subprocess.Popen([copy.program, "verify", "missing.igs", fifo], cwd=copy.top, stdout=subprocess.PIPE)
    # Opening it for writing waits until the program opens it.
    fifo.open("wb").close()
    yield "reliability: a certificate is opened first", process.wait(timeout=clone.SECONDS) == 4
    process.stdout.close()
    fifo.unlink()
    (copy.top / "sample.igs").write_bytes(sample_text(30))
    reader, writer = os.pipe()
    os.set_blocking(writer, False)
    done = subprocess.run([copy.program, "extract", "sample.igs", "1"], cwd=copy.top, stdout=writer, timeout=clone.SECONDS)
    os.close(writer)
    with open(reader, "rb") as pipe:
        part = pipe.read()
    yield "reliability: a non-blocking output", done.returncode == 5 and 0 < len(part) and sample_text(30).startswith(part)
    (copy.top / "sample.igs").unlink()


# A further program with two commands, another command of a program that is there, and one in Python, as lines of the table.
FURTHER = """program\tigesolid-further\tall\tdoes more
command\tigesolid-further\tconvert FILE\ta file of another form
command\tigesolid-further\trotate FILE N\ta file with other coordinates
command\tigesolid-where\twhere --json FILE ..\tthe same as JSON
python\tigesolid,igesolid-where\treport [OPTION..] FILE|FOLDER..\ta report of many files
"""
REPORT = """import sys
print(*sys.argv[1:])
sys.exit(4)
"""
FURTHER_PROGRAM = """#!/bin/sh
[ $# -gt 0 ] || { echo 'usage: igesolid-further ..'; exit 2; }
echo "$@"
exit "${STATUS:-0}"
"""


def further_program(copy):
    """A program that is added to the table and to dist/ is run, explained, helped, completed and installed without another change."""
    table, sums = copy.top / "commands.tsv", copy.top / "dist" / "SHA256SUMS"
    text, lines = table.read_text(), sums.read_text()
    program = copy.top / "dist" / "igesolid-further-x86_64-linux"
    table.write_text(text + FURTHER)
    copy.write(program, FURTHER_PROGRAM)
    sums.write_text(lines + f"{hashlib.sha256(FURTHER_PROGRAM.encode()).hexdigest()}  {program.name}\n")
    yield "further program: run", copy.run("./igesolid", "convert", "a.igs") == (0, b"convert a.igs\n", "")
    status, _, error = copy.run("./igesolid", "rotate", "a.igs", "1", STATUS=4)
    yield "further program: a cause", (status, error) == (4, "igesolid: a.igs: can't be opened: No such file or directory\n")
    status, _, error = copy.run("./igesolid", "rotate", "a.igs", STATUS=2)
    yield "further program: wrong words", status == 2 and error.startswith("igesolid: N is missing: the words are igesolid rotate FILE N\n")
    status, _, error = copy.run("./igesolid", "convret", "a.igs")
    yield "further program: the nearest", error == "igesolid: convret isn't a command; the nearest is convert: igesolid convert FILE\n"
    yield "further program: --program", copy.run("./igesolid", "--program", "convert") == (0, f"{program}\n".encode(), "")
    yield "further program: --help", b"\n\n  igesolid convert FILE " in copy.run("./igesolid", "--help")[1]
    (copy.top / "companion" / "report").write_text(REPORT)
    paths = [copy.top / "dist" / f"{name}-x86_64-linux" for name in ("igesolid", "igesolid-where")]
    wanted = f"--program {paths[0]} --where-program {paths[1]} --json a b\n".encode()
    yield "further program: in Python", copy.run("./igesolid", "report", "--json", "a", "b") == (4, wanted, "")
    for shell in ("bash", "zsh", "fish"):
        yield f"further program: {shell}", b"convert" in copy.run("packaging/completions", shell)[1]
    prefix = copy.folder / "further"
    yield "further program: installed", copy.run("./install", prefix)[0] == 0 and copy.run(prefix / "bin" / "igesolid", "convert", "b")[:2] == (0, b"convert b\n")
    shutil.rmtree(prefix)
    table.write_text(text)
    sums.write_text(lines)
    program.unlink()
    (copy.top / "companion" / "report").unlink()


# What the launcher and the program in C are asked, as words of the shell: the program stands for what is run.
ASKED = (
    "certfy a.igs 1", "extrct a.igs", "wehre a.igs", "CERTIFY a.igs 1", "sol", "--hepl", "-", "something", "a", "examples/cube.igs", "''", "certify",
    "certify a.igs", "certify a.igs first", "certify a.igs 0", "certify a.igs 12345678", "certify a.igs 1 2", "certify a.igs ''", "verify a.igs", "verify",
    "open a.igs", "open a.igs 0", "sample 2", "sample 201", "sample x", "sample", "sample 3", "show a.igs", "where", "where a.igs x", "where a.igs 1 al",
    "where a.igs 1 all more", "layout", "relayout a.igs 1", "reorient a.igs", "mend", "mend a.igs", "mend a.igs x", "mend a.igs 1 0", "mend a.igs 1 7",
    "mend a.igs 1 first", "mend a.igs x first", "mend a.igs 1 2 3", "mended a.igs", "mended a.igs 1 12", "mende a.igs 1", "mnd a.igs", "mend none.igs 1",
    "mended none.igs 1 2", "mend big.igs 1", "mended big.igs 1 2", "mend examples/no/one_sided.igs 1", "mend examples/no/fail_pair.igs 1",
    "mended examples/no/one_sided.igs 1", "mend examples/turned.igs 1", "mend examples/no/fail_pair_unsewn.igs 1", "mend examples/no/fail_type.igs 1",
    "mend - 1 <examples/no/one_sided.igs", "page", "page a.igs", "page a.igs x", "page a.igs 1 2", "page none.igs 1",
    "page docs 1", "page - 1 <&-", "page examples/cube.igs 0", "orient-verify a.igs", "solids none.igs", "solids ''", "solids docs", "solids 'two\nlines'",
    "solids $'a\\x1b[31mb'", "solids $'a\\xc2\\x85b'", "solids $'caf\\xe9.igs'", "solids $'a\\x9bb\\xe9'", "$'caf\\xc3\\xa9'", "solids /proc/self/mem", "solids big.igs",
    "where big.igs", "relayout big.igs", "verify big.igs big.cert", "verify examples/cube.igs big.cert", "upgrade examples/cube.igs docs",
    "verify examples/cube.igs none.cert", "verify examples/no/bad_length.igs none.cert", "verify examples/cylinder.igs examples/cube.cert2",
    "verify examples/cylinder.igs examples/two_solids.cert3", "verify examples/two_solids.igs examples/cube.cert2", "upgrade examples/cylinder.igs examples/cube.cert2",
    "open-verify examples/cube.igs examples/sheet.open1", "orient-verify examples/cylinder.igs examples/turned.orient", "verify examples/cube.igs examples/cube.cert2",
    "verify examples/two_tetrahedra.igs examples/two_solids.cert3", "solids crates.txt", "where crates.txt", "where crates.txt 1", "layout crates.txt",
    "solids examples/no/bad_field.igs", "solids examples/no/bad_after.igs", "page crates.txt x", "extract examples/cube.igs 3", "certify examples/two_tetrahedra.igs all",
    "solids - <examples/cube.igs", "cat examples/cube.igs | PROGRAM where -", "verify - examples/cube.cert2 <examples/cube.igs", "verify examples/cube.igs - <examples/cube.cert2",
    "verify - -", "where - -", "page - -", "solids - <&-", "solids - <docs", "solids - <big.igs", "solids - <crates.txt", "certify examples/cube.igs 1 >/dev/full",
    "certify examples/cube.igs 1 >&-", "where examples/cube.igs >/dev/full", "page examples/no/fail_pair.igs 1 >/dev/full", "page examples/no/fail_pair.igs 1 >&-",
    ">/dev/full", "--help >/dev/full", "-h >&-", "--version >/dev/full", "sample 3 >/dev/full", "solids nowhere/a/b.igs", "solids examples/cube.igs/a",
)  # fmt: skip


def program_in_c(copy, skipped):
    """The program of all commands in C (packaging/c/main.c) answers what the launcher answers, on standard error too."""
    library = libraries.shipped("libigesolid-x86_64-linux.a")
    if library is None or shutil.which("gcc") is None:
        skipped("the launcher beside the program in C: gcc isn't installed, or dist/ holds no library of these sources")
        return
    made = copy.folder / "igesolid"
    done = subprocess.run(["gcc", *C, libraries.HEADER / "main.c", library, "-o", made], capture_output=True, text=True)
    yield f"program in C: no warning{done.stderr}", (done.returncode, done.stderr) == (0, "")
    for name, size in (("big.igs", BIG_FILE), ("big.cert", BIG_CERTIFICATE)):
        (copy.top / name).touch()
        os.truncate(copy.top / name, size)
    for words in ASKED:
        script = words if "PROGRAM" in words else f"PROGRAM {words}"
        wanted, got = (run_in(copy, script.replace("PROGRAM", program)) for program in ("./igesolid", str(made)))
        told = "" if got == wanted else f"\n  wanted {tuple(map(str, wanted))}\n  got    {tuple(map(str, got))}"[:1500]
        yield f"program in C: {words}{told}", got == wanted
    for name in "big.igs", "big.cert":
        (copy.top / name).unlink()
    yield from own_words_in_c(copy, made)
    made.unlink()


def own_words_in_c(copy, made):
    """Its help is the launcher's but for what it doesn't have, and its pages have the same in them."""
    others = {f"  igesolid {row.words} " for row in command_table.of_kind("python")} | {"  igesolid --built ", "  igesolid --program "}
    told = copy.run("./igesolid", "--help")[1].decode().split("\nWith ")[0].splitlines()
    wanted = [re.sub(" {2,}", "  ", line) for line in told if line and not line.startswith(tuple(others))]
    for word in "--help", "-h", "help":
        status, text, error = copy.run(made, word)
        got = [re.sub(" {2,}", "  ", line) for line in text.decode().splitlines() if line]
        yield f"program in C: {word}", (status, got, error) == (0, wanted, "")
    told = copy.run("./igesolid")[1].splitlines()
    status, text, error = copy.run(made)
    yield "program in C: no words", (status, text.splitlines(), error) == (2, [line for line in told if not line.startswith(b"  igesolid check ")], "")
    yield "program in C: --version", copy.run(made, "--version")[1].startswith(copy.run("./igesolid", "--version")[1].split(b"\n")[0])
    for words in ("examples/no/fail_pair.igs", "1"), ("examples/no/bad_length.igs", "1"), ("examples/cube.igs", "3"):
        (status, page, error), wanted = copy.run(made, "page", *words), copy.run("./igesolid", "page", *words)
        whole = lambda text: re.sub(rb'(?s)id="file">.*?</script>', b"", text)
        yield f"program in C: page {words}", (status, parts_of(page), whole(page), error) == (wanted[0], parts_of(wanted[1]), whole(wanted[1]), wanted[2])
    for words in ("check", "examples"), ("marks", "a.igs", "1"), ("where", "--json", "a.igs"):
        status, text, error = copy.run(made, *words)
        yield f"program in C: {words}", (status, text) == (125, b"") and error.endswith("is a command in Python, which this program doesn't run\n")


def checks(copy, forms, skipped):
    yield from further_program(copy)
    yield from program_in_c(copy, skipped)
    yield from machines(copy)
    yield from surprises(copy)
    yield from pictures(copy)
    yield from layouts(copy)
    yield from inputs(copy)
    yield from outputs(copy)
    yield from wrong_words(copy)
    yield from foreign_certificates(copy)
    yield from causes(copy, skipped)
    yield from places(copy)
    yield from first_runs(copy, skipped)
    yield from command_table.checks(copy)
    yield from helps(copy)
    yield from builds(copy)
    yield from stopped(copy)
    yield from messages(copy)
    yield from left_libraries(copy)
    yield from comparisons(copy, skipped)
