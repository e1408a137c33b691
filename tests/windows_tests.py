"""dist/igesolid-x86_64-windows.exe and .dll under wine, beside the proved programs; names outside of ASCII and long ones; what the system can't
read or write; and what the two files say of themselves."""
import os
import re
import shutil
import subprocess

import answers
from answers import Asked
from launcher import parts_of
from libraries import EXAMPLES, HEADER, shipped
from library_tests import SOURCES, run
from spawned import SECONDS

EXE, DLL, IMPORTS = "igesolid-x86_64-windows.exe", "igesolid-x86_64-windows.dll", "libigesolid-x86_64-windows.dll.a"
PREFIX = "x86_64-w64-mingw32-"
MOST_BYTES = 1_000_000
EXPORTED = {"igesolid_run", "igesolid_where", "igesolid_repair", "igesolid_free"}
# What every Windows has.
SYSTEM = {"KERNEL32.dll", "msvcrt.dll"}


class Wine:
    """Wine with a folder of its own. Its server stays until the end, else each run would start one; its output goes to a file, since whoever
    waits for the end of a pipe would wait for the server."""

    def __init__(self, folder):
        self.environment = {**os.environ, "WINEPREFIX": str(folder / "wine"), "WINEDEBUG": "-all", "DISPLAY": "", "WINEDLLOVERRIDES": "mscoree,mshtml="}
        self.log = (folder / "wine.log").open("wb")

    def __enter__(self):
        for words in (["wineserver", "-p"], ["wine", "wineboot", "--init"]):
            subprocess.run(words, env=self.environment, stdin=subprocess.DEVNULL, stdout=self.log, stderr=self.log, timeout=SECONDS)
        os.environ.update({name: self.environment[name] for name in ("WINEPREFIX", "WINEDEBUG", "DISPLAY", "WINEDLLOVERRIDES")})
        return self

    def __exit__(self, *error):
        subprocess.run(["wineserver", "-k"], env=self.environment, stdout=self.log, stderr=self.log, timeout=SECONDS)
        self.log.close()

    def run(self, *words, **how):
        done = subprocess.run(["wine", *words], env=self.environment, **{"stdin": subprocess.DEVNULL, "stdout": subprocess.PIPE, **how}, stderr=subprocess.PIPE, timeout=SECONDS)
        return done.returncode, done.stdout, done.stderr.decode(errors="replace").replace("\r", "")


def of_names(wine, exe, folder):
    """Names outside of ASCII, a path of 300 characters and more, one that is relative, and a word that is outside of ASCII."""
    cube = (EXAMPLES / "cube.igs").read_bytes()
    names = ["Wälzlager Größe 3.igs", "部品.igs", "деталь.igs", "\U0001f600.igs", "with 'quotes' and %PATH%.igs", "/".join(["a" * 150, "b" * 150, "cube.igs"])]
    for name in names:
        path = folder / name
        path.parent.mkdir(parents=True, exist_ok=True)
        path.write_bytes(cube)
        yield f"windows: {name[-40:]}", wine.run(exe, "solids", path) == (0, b"1\n", "")
        yield f"windows: relative: {name[-40:]}", wine.run(exe, "solids", name, cwd=folder) == (0, b"1\n", "")
    status, _, error = wine.run(exe, "solids", "*.igs", cwd=folder)
    yield "windows: no pattern is opened", status == 4 and error.startswith("igesolid: *.igs: can't be opened: ")
    status, _, error = wine.run(exe, "sölids", "cube.igs")
    yield "windows: a command outside of ASCII", (status, error) == (2, "igesolid: sölids isn't a command; the nearest is solids: igesolid solids FILE\n")


def of_systems(wine, exe, folder):
    """What can't be read or written; standard input and output as they are, byte for byte."""
    cube, none = EXAMPLES / "cube.igs", folder / "none.igs"
    yield "windows: no file", wine.run(exe, "solids", none) == (4, b"", f"igesolid: {none}: can't be opened: No such file or directory\n")
    yield "windows: a folder", wine.run(exe, "solids", EXAMPLES) == (4, b"", f"igesolid: {EXAMPLES}: is a folder\n")
    changed = cube.read_bytes().replace(b"\n", b"\r\n") + b"\x1a\n"
    with (folder / "changed.igs").open("wb") as file:
        file.write(changed)
    with (folder / "changed.igs").open("rb") as file:
        status, text, _ = wine.run(exe, "relayout", "-", stdin=file)
    yield "windows: standard input and output, byte for byte", (status, text) == (0, cube.read_bytes())
    yield "windows: a pipe", wine.run(exe, "solids", "-", stdin=None, input=cube.read_bytes()) == (0, b"1\n", "")
    wanted = f"igesolid: {cube}: standard output failed, so the answer is cut short or missing\n"
    with open("/dev/full", "wb") as full:
        yield "windows: a full disk", wine.run(exe, "extract", cube, "1", stdout=full)[::2] == (5, wanted)
    reader, writer = os.pipe()
    os.close(reader)
    told = wine.run(exe, "extract", cube, "1", stdout=writer)
    os.close(writer)
    yield f"windows: a pipe without a reader: {told}", told[::2] == (5, wanted)
    large = folder / "large.igs"
    large.touch()
    os.truncate(large, 164_000_001)
    yield "windows: a file that is too large", wine.run(exe, "solids", large) == (8, b"", f"igesolid: {large}: the file has more than 164,000,000 bytes\n")
    large.unlink()


def of_pages(wine, exe, where):
    """The page has FILE and what where says of it; the program's own words."""
    pair = EXAMPLES / "no" / "fail_pair.igs"
    status, text, error = wine.run(exe, "page", pair, "1")
    told = subprocess.run([where, pair, "1", "all"], stdout=subprocess.PIPE).stdout
    yield "windows: page", (status, error) == (1, "") and parts_of(text) == [b"fail_pair.igs\x001", told, pair.read_bytes()]
    status, text, error = wine.run(exe, "--help")
    yield "windows: --help", (status, error) == (0, "") and b"\n  igesolid solids FILE " in text and b"\r" not in text
    yield "windows: --version", wine.run(exe, "--version")[1].startswith(b"igesolid ")
    yield "windows: a command in Python", wine.run(exe, "check", pair) == (125, b"", "igesolid: check is a command in Python, which this program doesn't run\n")


def of_files(exe, dll):
    """Their sizes, what they need of the system, and what the library exports."""
    for path in exe, dll:
        yield f"windows: {path.name}: {path.stat().st_size} bytes", path.stat().st_size <= MOST_BYTES
        said = run(f"{PREFIX}objdump", "-p", path).stdout
        needed = set(re.findall(r"DLL Name: (\S+)", said))
        yield f"windows: {path.name} needs {needed}", needed <= SYSTEM
        for flag in "HIGH_ENTROPY_VA", "DYNAMIC_BASE", "NX_COMPAT":
            yield f"windows: {path.name}: {flag}", flag in said
    names = re.search(r"(?s)\[Ordinal/Name Pointer\] Table.*?\n\n", run(f"{PREFIX}objdump", "-p", dll).stdout)
    yield "windows: what the library exports", names is not None and set(re.findall(r"igesolid_\w+", names[0])) == EXPORTED


def of_library(wine, folder, dll, imports):
    """A caller of each function of the header, by the library and its import library."""
    shutil.copy(dll, folder / "igesolid.dll")
    caller = folder / "use.exe"
    done = run(f"{PREFIX}gcc", "-std=c11", "-O1", "-I", HEADER, SOURCES / "use.c", imports, "-o", caller)
    yield f"windows: use.c{done.stderr}", done.returncode == 0
    if done.returncode != 0:
        return
    status, text, _ = wine.run(caller, EXAMPLES)
    yield "windows: use: it ends", status == 0
    for line in text.decode().splitlines():
        check, _, holds = line.strip().rpartition("\t")
        yield f"windows: use: {check}", holds == "yes"


def checks(context):
    exe, dll, imports = map(shipped, (EXE, DLL, IMPORTS))
    if None in (exe, dll, imports):
        context.skipped("the program and the library for Windows: dist/ holds none of these sources")
        return
    has_mingw = shutil.which(f"{PREFIX}gcc") is not None
    if has_mingw:
        yield from of_files(exe, dll)
    else:
        context.skipped("the library for Windows: Debian's package mingw-w64 isn't installed")
    if shutil.which("wine") is None or shutil.which("wineserver") is None:
        context.skipped("the program for Windows: Debian's package wine isn't installed")
        return
    folder = context.new_folder()
    with Wine(folder) as wine:
        yield from of_names(wine, exe, folder)
        yield from of_systems(wine, exe, folder)
        yield from of_pages(wine, exe, context.programs.where)
        if has_mingw:
            yield from of_library(wine, folder, dll, imports)
        wanted = answers.wanted_of(Asked(context), context.share)
        yield from answers.alike("windows", wanted, ["wine", exe], jobs=2)
