"""dist/igesolid.c, the library as one C file, and packaging/c/main.c over it: by each compiler that is there without a warning, and what the
program answers beside the proved ones; for other machines under qemu-user. What translate makes is tried by translate_tests."""
import re
import shutil
import subprocess
import sys

import answers
import translate_tests
from answers import Asked
from libraries import DIST, EXAMPLES, HEADER, TOP, shipped
from library_tests import SOURCES, VALGRIND, VARIABLE, run, told, without_reader

WARNINGS = "-std=c99 -Wall -Wextra -pedantic -Werror".split()
# Of each compiler its words, and those for a share of the tests, where the compiler's time counts.
COMPILERS = {"gcc": ([*WARNINGS, "-O2"], [*WARNINGS, "-O0"]), "clang": ([*WARNINGS, "-O2"], [*WARNINGS, "-O0"]), "tcc": (["-Wall"], ["-Wall"])}
# Compilers for other machines, with the emulators: of 64 bits, of 32 bits, and with the most significant byte first.
OTHERS = {"riscv64-linux-gnu-gcc": "qemu-riscv64", "arm-linux-gnueabihf-gcc": "qemu-arm", "s390x-linux-gnu-gcc": "qemu-s390x"}
# So many of all answers are asked of these, and those that the last one alone is asked for a share.
OF_OTHERS = 25
ALLOWED = {"malloc", "calloc", "realloc", "free", "memcpy", "memmove", "memset", "abort", "__stack_chk_fail"}


def compiled(folder, compiler, words, *more):
    """The object of the C file and the program over it, and what the compiler said."""
    library, program = folder / f"{compiler}.o", folder / f"igesolid-{compiler}"
    done = run(compiler, *words, "-c", DIST / "igesolid.c", "-o", library)
    said = done.stderr
    if done.returncode == 0:
        done = run(compiler, *words, HEADER / "main.c", library, *more, "-o", program)
        said += done.stderr
    return library, program, done.returncode, said


def of_compilers(context, folder, wanted):
    """The same answers by each compiler; the first program that there is."""
    first = None
    for compiler, (words, quick) in COMPILERS.items():
        if shutil.which(compiler) is None:
            context.skipped(f"the C file by {compiler}, which isn't installed")
            continue
        library, program, status, said = compiled(folder, compiler, words if context.share == 1 else quick)
        yield f"c-file: {compiler}: no warning\n{said[-2000:]}", (status, said) == (0, "")
        if status != 0:
            continue
        yield from answers.alike(f"c-file: {compiler}", wanted, [program])
        if first is None:
            first = program
            yield from of_object(library)
            yield from of_program(program)
            yield from of_callers(context, folder, library)


def of_object(library):
    """It has no variable, and calls nothing else."""
    written = [line for line in run("objdump", "--syms", library).stdout.splitlines() if VARIABLE.search(line)]
    yield f"c-file: no variable: {written[:3]}", written == []
    called = {line.split()[-1] for line in run("nm", "--undefined-only", library).stdout.splitlines()}
    yield f"c-file: what it calls: {called - ALLOWED}", called <= ALLOWED


def of_program(program):
    """A pipe whose reader has gone, and a disk that is full; standard input."""
    cube = EXAMPLES / "cube.igs"
    wanted = f"igesolid: {cube}: standard output failed, so the answer is cut short or missing\n"
    yield "c-file: a pipe without a reader", without_reader(program, "extract", cube, "1") == (5, wanted)
    with open("/dev/full", "wb") as full:
        yield "c-file: a full disk", subprocess.run([program, "sample", "3"], stdout=full, stderr=subprocess.DEVNULL).returncode == 5
    with cube.open("rb") as file:
        yield "c-file: standard input", subprocess.run([program, "solids", "-"], stdin=file, stdout=subprocess.PIPE).stdout == b"1\n"


def of_callers(context, folder, library):
    """A caller of each function of the header, under valgrind; calls side by side."""
    before = () if shutil.which("valgrind") is None or context.share > 1 else VALGRIND
    for source in "use", "threads":
        caller = folder / source
        done = run("gcc", "-std=c11", "-D_POSIX_C_SOURCE=200809L", "-O1", "-I", HEADER, SOURCES / f"{source}.c", library, "-pthread", "-o", caller)
        yield f"c-file: {source}.c{done.stderr}", done.returncode == 0
        if done.returncode == 0:
            yield from told(f"c-file: {source}", caller, *(before if source == "use" else ()))


def of_others(context, folder, wanted):
    """The same on other machines: another number of bits, another order of bytes."""
    for compiler, emulator in list(OTHERS.items())[-1 if context.share > 1 else 0 :]:
        if shutil.which(compiler) is None or shutil.which(emulator) is None:
            context.skipped(f"the C file by {compiler}: Debian's package of it, or qemu-user, isn't installed")
            continue
        level = "-O1" if context.share == 1 else "-O0"
        _, program, status, said = compiled(folder, compiler, [*WARNINGS, level], "-static")
        yield f"c-file: {compiler}: no warning\n{said[-2000:]}", (status, said) == (0, "")
        if status == 0:
            yield from answers.alike(f"c-file: {emulator}", wanted, [emulator, program])


def of_dist(folder):
    """The C file and what the program tells are what is made of dist/ and the sources; the pages' line makes a program of them."""
    for script, words, name in (("translate", [DIST / "igesolid.wasm"], "igesolid.c"), ("tables", [], "program.h")):
        made = folder / name
        subprocess.run([sys.executable, "-B", HEADER / script, *words, made], check=True)
        yield f"c-file: dist/{name} is up to date", made.read_bytes() == (DIST / name).read_bytes()
    line = "cc -O2 dist/igesolid.c packaging/c/main.c -o igesolid"
    for page in "README.md", "docs/LIBRARY.md":
        yield f"{page}: {line}", re.search(re.escape(line), (TOP / page).read_text()) is not None


def checks(context):
    if shipped("igesolid.c") is None or shipped("program.h") is None:
        context.skipped("the library as one C file: dist/ holds none of these sources")
        return
    folder, asked = context.new_folder(), Asked(context)
    yield from of_dist(folder)
    here = [(name, words[0]) for name, words in COMPILERS.items() if shutil.which(name)]
    yield from translate_tests.checks(folder, here, context.skipped)
    wanted = answers.wanted_of(asked, context.share)
    yield from of_compilers(context, folder, wanted)
    few = wanted[::OF_OTHERS] if context.share == 1 else wanted
    yield from of_others(context, folder, [it for it in few if answers.is_small(it[0])])
