"""The library for C: programs in C that use it, compiled with every warning and run under valgrind; threads; a heap with a cap; and each
example by the shared library and by packaging/c/main.c over the static one, beside the programs."""
import ctypes
import os
import re
import shutil
import signal
import subprocess

from libraries import EXAMPLES, HEADER, TOP, answer, examples, requests, shipped
from spawned import SECONDS, Runner

SOURCES = TOP / "tests" / "library"
WORDS = "-std=c11 -D_POSIX_C_SOURCE=200809L -O1 -g -Wall -Wextra -Werror".split()
WRAPPED = "-Wl,--wrap=malloc,--wrap=realloc,--wrap=free"
VALGRIND = "valgrind", "--quiet", "--leak-check=full", "--show-leak-kinds=all", "--errors-for-leak-kinds=all", "--error-exitcode=99"
HELGRIND = "valgrind", "--quiet", "--tool=helgrind", "--error-exitcode=99"
# A symbol of a section that can be written, and has bytes there.
VARIABLE = re.compile(r" (?:\.(?:data|bss|tdata|tbss)(?!\.rel\.ro)\S*|\*COM\*)\t0*[1-9a-f]")
# What stands around the example of the page.
AROUND = """#include "igesolid.h"
#include <stdio.h>
int main(int count, char **given) {
    static uint8_t bytes[1 << 20], *file = bytes;
    FILE *in = fopen(given[count - 1], "rb");
    size_t length = fread(bytes, 1, sizeof bytes, in);
    (void)file;
%s
    return (int)status;
}
"""
EXPORTED = {"igesolid_run", "igesolid_where", "igesolid_repair", "igesolid_free"}


def run(*words, **how):
    return subprocess.run(list(map(str, words)), capture_output=True, text=True, timeout=SECONDS, **how)


def compiled(folder, name, library, *more):
    """A program of tests/library with the library given, and what the compiler said."""
    program = folder / name
    done = run("gcc", *WORDS, "-I", HEADER, SOURCES / f"{name.split('-')[0]}.c", library, "-pthread", *more, "-o", program)
    return program, done.returncode, done.stderr


def told(name, program, *before):
    """The checks that a program prints, and that it ends well."""
    done = run(*before, program, EXAMPLES)
    yield f"{name}: it ends{': ' + done.stderr[-500:] if done.returncode else ''}", done.returncode == 0
    for line in done.stdout.splitlines():
        check, _, holds = line.rpartition("\t")
        yield f"{name}: {check}", holds == "yes"


def of_c(folder, archive, shared, skipped):
    has_valgrind = shutil.which("valgrind") is not None
    if not has_valgrind:
        skipped("the library under valgrind: Debian's package valgrind isn't installed")
    own = folder / "libigesolid.so.1"
    own.symlink_to(shared)
    for kind, library, more in (("static", archive, ()), ("shared", own, (f"-Wl,-rpath,{folder}",))):
        for source in "use", "threads":
            program, status, error = compiled(folder, f"{source}-{kind}", library, *more)
            yield f"library: {source}.c, {kind}: no warning{error}", (status, error) == (0, "")
            if status == 0:
                yield from told(f"library: {source}, {kind}", program)
                if has_valgrind:
                    yield from told(f"library: {source}, {kind}, under valgrind", program, *(VALGRIND if source == "use" else HELGRIND))
    program, status, error = compiled(folder, "caps-static", archive, WRAPPED)
    yield f"library: caps.c: no warning{error}", (status, error) == (0, "")
    if status == 0:
        yield from told("library: caps", program)
    done = run("gcc", "-std=c99", "-pedantic", "-Wall", "-Wextra", "-Werror", "-fsyntax-only", "-x", "c", HEADER / "igesolid.h")
    yield f"library: the header in C99{done.stderr}", done.returncode == 0
    if shutil.which("g++"):
        done = run("g++", "-std=c++11", "-Wall", "-Wextra", "-Werror", "-fsyntax-only", "-x", "c++", HEADER / "igesolid.h")
        yield f"library: the header in C++{done.stderr}", done.returncode == 0


def of_page(folder, archive, program):
    """The example in C of docs/LIBRARY.md, on a file: it compiles, and prints what the program prints."""
    file, page = EXAMPLES / "occt" / "16_three_solids.igs", "docs/LIBRARY.md"
    source, made = folder / "page.c", folder / "page"
    source.write_text(AROUND % re.search(r"(?s)```c\n(.*?)```", (TOP / page).read_text())[1])
    done = run("gcc", "-std=c11", "-Wall", "-Wextra", "-Werror", "-I", HEADER, source, archive, "-o", made)
    yield f"{page}: its C{done.stderr}", done.returncode == 0
    wanted, told = run(program, "certify", file, "all"), run(made, file)
    yield f"{page}: its C, run", (told.returncode, told.stdout) == (wanted.returncode, wanted.stdout)


def of_main(folder, archive, program, where):
    """The program in C over the static library, as it is made for aarch64, gives what the proved programs give."""
    native = {"run": Runner(program), "where": Runner(where)}
    made = {}
    for call in native:
        path = folder / f"main-{call}"
        done = run("gcc", *WORDS, f"-DCALL={call}", "-I", HEADER, HEADER / "main.c", archive, "-o", path)
        yield f"library: main.c, {call}: no warning{done.stderr}", (done.returncode, done.stderr) == (0, "")
        made[call] = Runner(path)
    yield from alike("library: main.c", made, native)
    yield "library: main.c: a pipe without a reader", without_reader(folder / "main-run", "extract", EXAMPLES / "cube.igs", "1") == (5, "")


def without_reader(*words):
    """The status and standard error of a run that writes to a pipe whose reader has gone."""
    reader, writer = os.pipe()
    os.close(reader)
    default = lambda: signal.signal(signal.SIGPIPE, signal.SIG_DFL)
    done = subprocess.run(list(map(str, words)), stdout=writer, stderr=subprocess.PIPE, text=True, preexec_fn=default)
    os.close(writer)
    return done.returncode, done.stderr


def alike(name, made, native):
    """The same status and the same text for each example and each command; and for words and files that are none."""
    for example in examples():
        wrong = [words for words in requests(native["where"], example)
                 if answer(made["run"], made["where"], example, words) != answer(native["run"], native["where"], example, words)]  # fmt: skip
        yield f"{name}: {example.name}{': ' + ' '.join(wrong[0]) if wrong else ''}", wrong == []
    cube, book = str(EXAMPLES / "cube.igs"), str(EXAMPLES / "two_solids.cert3")
    for call, words in (
        ("run", []), ("run", ["solid", cube]), ("run", ["solids"]), ("run", ["solids\n-"]), ("run", ["solids", "none.igs"]), ("run", ["solid", "none.igs"]),
        ("run", ["certify", cube, "x"]), ("run", ["certify", cube, "1\n"]), ("run", ["certify", cube, b"\xff"]), ("run", ["sample", "3"]), ("run", ["sample", "x"]),
        ("run", ["verify", str(EXAMPLES / "two_solids.igs"), book]), ("run", ["verify", cube, book]), ("run", ["verify", cube, "none.cert"]),
        ("run", ["verify", str(EXAMPLES / "no" / "bad_length.igs"), "none.cert"]), ("run", ["verify", "none.igs", book]), ("run", ["verify", cube]),
        ("run", ["upgrade", cube, str(EXAMPLES / "cube.cert1")]), ("run", ["open-verify", str(EXAMPLES / "sheet.igs"), str(EXAMPLES / "sheet.open1")]),
        ("run", ["orient-verify", str(EXAMPLES / "turned.igs"), str(EXAMPLES / "turned.orient")]), ("run", ["solids", "/dev/null"]), ("run", ["solids", "/"]),
        ("where", []), ("where", [cube, "x"]), ("where", ["none.igs"]), ("where", [cube, "1", "every"]), ("where", [cube, "1", "all"]),
    ):  # fmt: skip
        yield f"{name}: {call} {words}", made[call].run(words)[:2] == native[call].run(words)[:2]


def of_names(archive, shared):
    """The shared library has its name and exports nothing else; it needs the C library alone."""
    told_by = run("readelf", "--dynamic", "--wide", shared).stdout
    yield "library: its name", "Library soname: [libigesolid.so.1]" in told_by
    yield "library: it needs the C library alone", re.findall(r"Shared library: \[(.*?)\]", told_by) in (["libc.so.6"], [])
    names = run("nm", "--dynamic", "--defined-only", shared).stdout
    yield "library: what it exports", {line.split()[-1].split("@")[0] for line in names.splitlines() if " T " in line} == EXPORTED
    written = [line for line in run("objdump", "--syms", archive).stdout.splitlines() if VARIABLE.search(line)]
    yield f"library: no variable: {written[:3]}", written == []


class Text(ctypes.Structure):
    _fields_ = [("bytes", ctypes.c_void_p), ("length", ctypes.c_size_t)]


class Shared:
    """The shared library, with the calls of the programs' runners."""

    def __init__(self, path, call):
        self.library, self.is_where = ctypes.CDLL(str(path)), call == "where"

    def run(self, words):
        words = list(words)
        place = 0 if self.is_where else 1
        with open(words[place], "rb") as file:
            data = file.read()
        words[place] = "-"
        said, text = "\n".join(words).encode(), Text(ctypes.addressof(EMPTY), 0)
        call = self.library.igesolid_where if self.is_where else self.library.igesolid_run
        size = ctypes.c_size_t
        given = [said, size(len(said)), data, size(len(data))] + ([] if self.is_where else [b"", size(0)])
        status = call(*given, ctypes.byref(text))
        told = ctypes.string_at(text.bytes, text.length)
        self.library.igesolid_free(ctypes.byref(text))
        return status, told, b""


EMPTY = ctypes.c_char()


def of_shared(shared, program, where):
    made, native = ({call: kind(path, call) for call, path in (("run", one), ("where", other))} for kind, one, other in (
        (Shared, shared, shared), (lambda path, call: Runner(path), program, where)))  # fmt: skip
    for example in examples():
        wrong = [words for words in requests(native["where"], example)
                 if answer(made["run"], made["where"], example, words) != answer(native["run"], native["where"], example, words)]  # fmt: skip
        yield f"library: shared: {example.name}{': ' + ' '.join(wrong[0]) if wrong else ''}", wrong == []


def checks(context):
    archive, shared = (shipped(f"libigesolid-x86_64-linux.{ending}") for ending in ("a", "so"))
    if archive is None or shared is None:
        context.skipped("the library for C: dist/ holds none of these sources")
        return
    program, where = context.programs[:2]
    yield from of_shared(shared, program, where)
    if shutil.which("gcc") is None:
        context.skipped("the library in C: gcc isn't installed")
        return
    folder = context.new_folder()
    yield from of_names(archive, shared)
    yield from of_c(folder, archive, shared, context.skipped)
    yield from of_page(folder, archive, program)
    yield from of_main(folder, archive, program, where)
