"""The wheels of the Python package, and its source distribution: made twice they are the same; each is installed in a new venv, and gives
there, by its library alone, each answer of the programs on the examples; the libraries for other systems are called from C. And types."""
import base64
import hashlib
import json
import os
import pathlib
import re
import shutil
import subprocess
import sys
import zipfile
import zlib

import answers
from launcher import parts_of
from libraries import EXAMPLES, HEADER, TOP, answer, examples, requests, shipped
from spawned import SECONDS, Runner

LIBRARIES = {"x86_64": "libigesolid-x86_64-linux.so", "aarch64": "libigesolid-aarch64-linux.so", "windows": "igesolid-x86_64-windows.dll"}
PLATFORMS = {"aarch64": "manylinux_2_17_aarch64", "windows": "win_amd64"}
SOURCES = "LICENSE", "README.md", "MANIFEST.in", "pyproject.toml", "setup.py", "python", "packaging/c/igesolid.h", "companion/page.html", "dist/igesolid.c"
# Answers requests, one a line, of a JSON array of words; the file stands second.
ANSWERS = """import hashlib, json, sys, igesolid
from igesolid.content import content_of_path
engine = igesolid.default_engine()
print(type(engine).__name__, engine.path)
for command, path, *words in map(json.loads, sys.stdin):
    status, text = engine.ask(command, content_of_path(path), *words)
    print(status, hashlib.sha256(text).hexdigest())
"""
# What other systems haven't got.
POOR = """import os, signal
del os.memfd_create, os.pread, os.sched_getaffinity, os.mkfifo, signal.SIGHUP
"""


def run(*words, **how):
    return subprocess.run(list(map(str, words)), capture_output=True, text=True, timeout=SECONDS, **how)


def python_with(*modules):
    """A Python that has these modules: the one that runs this, or the system's."""
    for python in (sys.executable, "/usr/bin/python3"):
        if os.access(python, os.X_OK) and run(python, "-c", f"import {', '.join(modules)}").returncode == 0:
            return python
    return None


# The commands of igesolid-repair on a solid, with what stands behind its number.
OF_REPAIR = ("reorient",), ("mend",), ("mended",), ("mend", "2"), ("mended", "2")


class Native:
    """What is asked, as words with the path of a file second, and what the programs answer."""

    def __init__(self, programs):
        program, where, repair = map(Runner, programs[:3])
        self.told = {}
        for example in examples():
            asked = list(requests(where, example))
            for words in asked:
                self.told[(words[0], str(example), *words[2:])] = answer(program, where, example, words)
            of_repair = [("layout",), ("relayout",), *((command, words[2], *more) for words in asked if words[0] == "extract" for command, *more in OF_REPAIR)]
            for command, *words in of_repair:
                self.told[(command, str(example), *words)] = repair.run([command, str(example), *words])[:2]
        for runner in (program, where, repair):
            runner.close()

    def lines(self):
        return "".join(json.dumps(words) + "\n" for words in self.told)

    def sums(self):
        return [f"{status} {hashlib.sha256(text).hexdigest()}" for status, text in self.told.values()]


def made(folder, skipped):
    """The wheels of dist/, by machine; each is made twice."""
    found = {}
    for machine, name in LIBRARIES.items():
        if shipped(name) is None:
            skipped(f"the wheel for {machine}: dist/ holds no {name} of these sources")
            continue
        pair = []
        for place in "one", "other":
            (folder / place).mkdir(exist_ok=True)
            done = run(sys.executable, TOP / "packaging" / "wheel", folder / place, machine)
            yield f"wheel of {machine}: it is made{done.stderr}", (done.returncode, done.stderr) == (0, "")
            pair.append(pathlib.Path(done.stdout.strip()))
        yield f"wheel of {machine}: the same bytes again", pair[0].read_bytes() == pair[1].read_bytes() and pair[0].name == pair[1].name
        found[machine] = pair[0]
    return found


def contents(machine, wheel):
    """The record is right; the package, the page and the library are those of the repository."""
    with zipfile.ZipFile(wheel) as files:
        inside = {name: files.read(name) for name in files.namelist()}
    record = next(name for name in inside if name.endswith(".dist-info/RECORD"))
    lines = [line.split(",") for line in inside[record].decode().splitlines()]
    sums = [base64.urlsafe_b64encode(hashlib.sha256(inside[name]).digest()).rstrip(b"=").decode() for name, _, _ in lines[:-1]]
    yield f"wheel of {machine}: its record", sums == [it.removeprefix("sha256=") for _, it, _ in lines[:-1]] and len(lines) == len(inside)
    sources = {path.relative_to(TOP / "python").as_posix(): path.read_bytes() for path in (TOP / "python").rglob("*.py")}
    yield f"wheel of {machine}: the package", sources == {name: data for name, data in inside.items() if name.endswith(".py")}
    name = "igesolid/igesolid.dll" if machine == "windows" else "igesolid/libigesolid.so.1"
    yield f"wheel of {machine}: the library of dist/", inside.get(name) == shipped(LIBRARIES[machine]).read_bytes()
    yield f"wheel of {machine}: the page", inside.get("igesolid/page.html") == (TOP / "companion" / "page.html").read_bytes()


def compiled(folder, skipped):
    """The wheel that the source distribution compiles, and whether it has what it needs; it isn't optimized here, which takes a minute."""
    if shipped("igesolid.c") is None:
        skipped("the source distribution: dist/ holds no igesolid.c of these sources")
        return None
    python = python_with("build", "setuptools", "wheel")
    if python is None or shutil.which("gcc") is None:
        skipped("the source distribution: Debian's packages python3-build, python3-setuptools, python3-wheel or gcc aren't installed")
        return None
    copy, target = folder / "sources", folder / "compiled"
    for name in SOURCES:
        (copy / name).parent.mkdir(parents=True, exist_ok=True)
        if (TOP / name).is_dir():
            shutil.copytree(TOP / name, copy / name, ignore=shutil.ignore_patterns("__pycache__", "*.egg-info"))
        else:
            shutil.copy(TOP / name, copy / name)
    done = run(python, "-m", "build", "--no-isolation", "--outdir", target, copy, env={**os.environ, "CFLAGS": "-O0"})
    yield f"source distribution: it is made, and compiled{done.stderr[-500:] if done.returncode else ''}", done.returncode == 0
    yield "source distribution: no warning of the compiler", "warning:" not in done.stdout.split("gcc", 1)[-1]
    return next(iter(target.glob("*.whl")), None)


def installed(folder, name, wheel, native, copy):
    """A new venv with a wheel alone: each answer, and the commands, also those in Python."""
    venv = folder / f"venv {name}"
    own = python_with("pip", "venv")
    done = run(own, "-m", "venv", "--without-pip", venv)
    python = venv / "bin" / "python"
    words = "--quiet", "--no-index", "--disable-pip-version-check", "--no-compile"
    done = done if done.returncode else run(own, "-m", "pip", "--python", python, "install", *words, wheel)
    yield f"{name}: it is installed{done.stderr}", done.returncode == 0
    alone = dict(cwd=folder, env={"PATH": str(venv / "bin")})
    told = run(python, "-I", "-c", ANSWERS, input=native.lines(), **alone).stdout.splitlines()
    yield f"{name}: by its own library", told[:1] == [f"Library {next(venv.glob('lib/python3*/site-packages/igesolid/*igesolid.so.1'))}"]
    wrong = [words for words, one, other in zip(native.told, told[1:], native.sums()) if one != other]
    yield f"{name}: {len(native.told)} answers{': ' + ' '.join(wrong[0]) if wrong else ''}", len(native.told) == len(told) - 1 and not wrong
    for words in commands():
        wanted = copy.run("./igesolid", *words)
        got = subprocess.run([venv / "bin" / "igesolid", *words], cwd=TOP, env={"PATH": "/usr/bin:/bin"}, stdin=subprocess.DEVNULL, capture_output=True)
        yield f"{name}: igesolid {' '.join(words)}", (got.returncode, got.stdout) == wanted[:2]
    pair = EXAMPLES / "no" / "fail_pair.igs"
    page = subprocess.run([venv / "bin" / "igesolid", "page", pair, "1"], cwd=folder, env={"PATH": "/usr/bin:/bin"}, stdin=subprocess.DEVNULL, capture_output=True)
    told = native.told["where", str(pair), "1", "all"][1]
    yield f"{name}: igesolid page", page.returncode == 1 and parts_of(page.stdout) == [b"fail_pair.igs\x001", told, pair.read_bytes()]


def commands():
    cube, pair, two = "examples/cube.igs", "examples/no/fail_pair.igs", "examples/two_solids.igs"
    yield from (("check", "examples/no"), ("check", cube, "--jobs", "2"), ("marks", pair, "1"), ("where", "--json", pair, "1"), ("where", pair, "1", "all"))
    yield from (("verify", two, "examples/two_solids.cert3"), ("verify", two, "none"), ("verify", "examples/no/bad_length.igs", "none"))
    yield from (("certify", two, "all"), ("solids", "none.igs"), ("solids", "-"), ("sample", "3"), ("layout", cube), ("extract", cube), ("solid", cube))


def foreign(machine, wheel, folder, native, skipped):
    """The wheel of another system, as pip installs it for that; its library, called from C under an emulator."""
    python, target = python_with("pip"), folder / f"for {machine}"
    words = "--quiet", "--no-index", "--no-deps", "--disable-pip-version-check", "--only-binary", ":all:", "--platform", PLATFORMS[machine]
    done = run(python, "-m", "pip", "install", *words, "--target", target, wheel)
    yield f"wheel of {machine}: pip takes it{done.stderr}", done.returncode == 0
    compiler, emulator, ending = {
        "aarch64": ("aarch64-linux-gnu-gcc", ["qemu-aarch64", "-L", "/usr/aarch64-linux-gnu"], ""),
        "windows": ("x86_64-w64-mingw32-gcc", ["wine"], ".exe"),
    }[machine]
    lacking = [it for it in (compiler, emulator[0]) if shutil.which(it) is None]
    if lacking:
        skipped(f"the library of the wheel of {machine}: {lacking[0]} isn't installed")
        return
    program, library = folder / f"loaded-{machine}{ending}", next(it for it in (target / "igesolid").iterdir() if it.suffix in (".1", ".dll"))
    done = run(compiler, "-std=gnu11", "-O1", "-I", HEADER, TOP / "tests" / "library" / "loaded.c", *([] if ending else ["-ldl"]), "-o", program)
    yield f"wheel of {machine}: loaded.c{done.stderr}", done.returncode == 0
    shutil.copy(library, folder / f"library-{machine}{library.suffix}")
    asked, told = folder / f"asked {machine}", folder / f"told {machine}"
    asked.write_text("".join(line_of(words) for words in native.told))
    quiet = {**os.environ, "WINEPREFIX": str(folder / "wine"), "WINEDEBUG": "-all"}
    # What wine starts holds its output, so that goes into a file.
    with open(asked, "rb") as requests_in, open(told, "wb") as out:
        subprocess.run([*emulator, program, f"./library-{machine}{library.suffix}"], cwd=folder, env=quiet, stdin=requests_in, stdout=out, stderr=subprocess.DEVNULL, timeout=SECONDS)
    wanted = [f"{status} {len(text)} {zlib.adler32(text)}" for status, text in native.told.values()]
    wrong = [words for words, one, other in zip(native.told, told.read_text().splitlines(), wanted) if one != other]
    yield f"wheel of {machine}: {len(wanted)} answers{': ' + ' '.join(wrong[0]) if wrong else ''}", len(told.read_text().splitlines()) == len(wanted) and not wrong
    if machine == "windows":
        run("wineserver", "-k", env=quiet)


def line_of(words):
    """A request as tests/library/loaded.c reads it."""
    command, path, *more = words
    call = "where" if command == "where" else "repair" if command in answers.REPAIR else "run"
    return f"{call}\t{' '.join((['-'] if command == 'where' else [command, '-']) + more)}\t{path}\n"


def poor(folder, copy, library):
    """Without what other systems haven't got: the commands, by the library and by the programs."""
    (folder / "poor").mkdir()
    (folder / "poor" / "sitecustomize.py").write_text(POOR)
    path = f"{folder / 'poor'}:{TOP / 'python'}"
    for words in (("check", "examples"), ("marks", "examples/no/fail_pair.igs", "1"), ("where", "--json", "examples/cube.igs")):
        done = run("python3", "-B", "-m", "igesolid", *words, cwd=TOP, env={**os.environ, "PYTHONPATH": path})
        yield f"without memfd_create: igesolid {' '.join(words)}{done.stderr}", (done.returncode, done.stdout.encode()) == copy.run("./igesolid", *words)[:2]
    words = f"""import igesolid, pathlib
one, other = (igesolid.read({str(EXAMPLES / 'turned.igs')!r}, engine) for engine in (igesolid.Library({str(library)!r}), igesolid.Program()))
print(one.solids[0].where_all == other.solids[0].where_all, one.solids[0].reorient() == other.solids[0].reorient(), one.solids[0].mend() == other.solids[0].mend(), *pathlib.Path.cwd().iterdir())"""
    (folder / "empty").mkdir()
    environment = {**os.environ, "PYTHONPATH": path, "TMPDIR": str(folder / "empty")}
    done = run("python3", "-B", "-c", words, cwd=folder / "empty", env=environment)
    yield f"without memfd_create: by the programs{done.stderr}", (done.returncode, done.stdout) == (0, "True True True\n")


def types(skipped):
    """The package and an example have types that hold; the example does what it says."""
    source, example = TOP / "python", TOP / "tests" / "typed_example.py"
    if shutil.which("mypy") is None:
        skipped("types: mypy isn't installed")
    else:
        for what, where in ((source / "igesolid", TOP), (example, source)):
            done = run("mypy", "--strict", "--cache-dir", os.devnull, "--config-file", TOP / "pyproject.toml", what, cwd=where, env={**os.environ, "MYPYPATH": str(source)})
            yield f"mypy --strict: {what.name}{done.stdout if done.returncode else ''}", done.returncode == 0
    done = run(sys.executable, "-B", example, EXAMPLES / "turned.igs", env={**os.environ, "PYTHONPATH": str(source)})
    yield f"tests/typed_example.py{done.stderr}", (done.returncode, done.stdout) == (0, "1: fail PAIR 7 1; PAIR; face-flags\n8829\n")


def version():
    """The version of the package is that of the launcher."""
    return re.search(r'(?m)^version = "(.*)"$', (TOP / "pyproject.toml").read_text())[1] == re.search(r"(?m)^version=(.*)$", (TOP / "igesolid").read_text())[1]


def checks(context):
    folder, skipped, copy = context.new_folder(), context.skipped, context.clone()
    yield "pyproject.toml: the version", version()
    yield from types(skipped)
    native = Native(context.programs)
    wheels = yield from made(folder, skipped)
    for machine, wheel in wheels.items():
        yield from contents(machine, wheel)
    if "x86_64" in wheels:
        yield from poor(folder, copy, shipped(LIBRARIES["x86_64"]))
    wheel = yield from compiled(folder, skipped)
    if python_with("pip", "venv") is None:
        skipped("the wheels, installed: pip isn't installed")
        return
    for name, it in (("wheel of x86_64", wheels.get("x86_64")), ("compiled wheel", wheel)):
        if it:
            yield from installed(folder, name, it, native, copy)
    for machine in PLATFORMS:
        if machine in wheels:
            yield from foreign(machine, wheels[machine], folder, native, skipped)
