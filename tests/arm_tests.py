"""The programs for aarch64 under qemu-user, beside those of this machine: each example and each command, and words that are none."""
import pathlib
import shutil

from library_tests import alike, run
from libraries import EXAMPLES, HEADER, TOP, examples, shipped
from programs import DIST
from spawned import Runner

SYSROOT = pathlib.Path("/usr/aarch64-linux-gnu")
EMULATORS = "qemu-aarch64", "qemu-aarch64-static"
BASELINE = "qemu-x86_64", "qemu-x86_64-static"
# A processor without the features of x86-64-v2, for which the kit builds.
OLD = "qemu64"


def emulated(folder, emulator, program):
    """A program that runs under the emulator."""
    script = folder / f"run-{program.name}"
    script.write_text(f'#!/bin/sh\nexec {emulator} -L {SYSROOT} {program} "$@"\n')
    script.chmod(0o755)
    return Runner(script)


def on_aarch64(context):
    made = {call: shipped(f"{name}-aarch64-linux") for call, name in (("run", "igesolid"), ("where", "igesolid-where"), ("repair", "igesolid-repair"))}
    if None in made.values():
        context.skipped("the programs for aarch64: dist/ holds none of these sources")
        return
    emulator = next(filter(None, map(shutil.which, EMULATORS)), None)
    if emulator is None or not SYSROOT.is_dir():
        context.skipped("the programs for aarch64: Debian's packages qemu-user and libc6-arm64-cross aren't installed")
        return
    folder = context.new_folder()
    yield from alike("arm", {call: emulated(folder, emulator, path) for call, path in made.items()}, {call: Runner(path) for call, path in zip(("run", "where"), context.programs)})
    native, its = Runner(DIST / "igesolid-repair-x86_64-linux"), emulated(folder, emulator, made["repair"])
    for example in examples():
        for command in "layout", "relayout":
            yield f"arm: {command} of {example.name}", its.run([command, str(example)])[:2] == native.run([command, str(example)])[:2]
    yield "arm: repair, no words", its.run([])[:2] == native.run([])[:2]
    archive, gcc = shipped("libigesolid-aarch64-linux.a"), shutil.which("aarch64-linux-gnu-gcc")
    if archive is None or gcc is None:
        context.skipped("the library for aarch64: Debian's package gcc-aarch64-linux-gnu isn't installed")
        return
    program = folder / "use"
    words = "-std=c11", "-D_POSIX_C_SOURCE=200809L", "-O1", "-Wall", "-Wextra", "-Werror", "-I", HEADER, TOP / "tests" / "library" / "use.c", archive, "-o", program
    done = run(gcc, *words)
    yield f"arm: use.c: no warning{done.stderr}", (done.returncode, done.stderr) == (0, "")
    told = run(emulator, "-L", SYSROOT, program, EXAMPLES)
    yield "arm: use: it ends", told.returncode == 0
    for line in told.stdout.splitlines():
        check, _, holds = line.rpartition("\t")
        yield f"arm: use: {check}", holds == "yes"


def on_old_processor(context):
    """A processor below the kit's baseline."""
    emulator = next(filter(None, map(shutil.which, BASELINE)), None)
    if emulator is None:
        context.skipped("a processor below the kit's baseline: Debian's package qemu-user isn't installed")
        return
    for name, cpu, status in (("the baseline", "Nehalem", 0), ("below it", OLD, 127)):
        for program in context.programs[:2]:
            words = ("solids", EXAMPLES / "cube.igs") if program.name.startswith("igesolid-x") or program.name == "igesolid" else (EXAMPLES / "cube.igs", "1")
            done = run(emulator, "-cpu", cpu, program, *words)
            yield f"processor: {name}: {program.name}: {done.returncode}", done.returncode == status


def checks(context):
    yield from on_aarch64(context)
    yield from on_old_processor(context)
