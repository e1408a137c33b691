"""Runs of each command in which the k-th call of the C library that takes memory, opens, reads or writes fails, for each k.

The program is the built one; tests/faults.c, preloaded, makes its calls fail. Needs gcc.
"""
import errno
import itertools
import os
import shutil
import subprocess

import elf
from commands import SMALL, TOP, Runs

DONE, UNREAD, UNWRITTEN, NO_MEMORY = 0, 4, 5, 6
REPORT = 200
# How many bytes each read and each write takes, or None for as many as the program asks for, and the error of the call that fails.
SETTINGS = {
    "memory": ((None, errno.ENOMEM),),
    "open": ((None, errno.ENOENT), (None, errno.EACCES), (None, errno.EMFILE)),
    "read": ((81, errno.EIO), (None, errno.EIO), (None, errno.EISDIR)),
    "write": ((16, errno.EIO), (None, errno.ENOSPC), (None, errno.EPIPE)),
}
# Calls of the C library that the program makes beside those that faults.c covers: none of them takes memory, reads or writes.
HARMLESS = {"close", "free", "memcpy", "memmove", "memset", "memcmp", "bcmp", "strlen", "exit", "_exit"}
START = {"__libc_start_main", "__cxa_finalize", "__gmon_start__", "_ITM_deregisterTMCloneTable", "_ITM_registerTMCloneTable"}
START |= {"__errno_location", "__sysv_signal", "__x86_get_cpuid_feature_leaf"}


class Faults:
    """The library that makes calls fail, and runs with it."""

    def __init__(self, runner, folder):
        self.runner, self.library = runner, folder / "faults.so"
        command = ["gcc", "-O2", "-Wall", "-Wextra", "-shared", "-fPIC", "-o", self.library, TOP / "tests" / "faults.c", "-ldl"]
        subprocess.run(command, check=True)
        self.report = os.memfd_create("report", os.MFD_CLOEXEC)

    def run(self, words, **told):
        """What a run gives, and whether a call failed in it."""
        os.ftruncate(self.report, 0)
        settings = {f"FAULT_{name.upper()}": str(value) for name, value in told.items() if value is not None}
        environment = {**os.environ, "LD_PRELOAD": str(self.library), "FAULT_REPORT": str(REPORT), **settings}
        got = self.runner.run(words, environment, more=[(self.report, REPORT)])
        return got, os.fstat(self.report).st_size > 0


def is_due(call, got, full, written):
    """Whether an answer is right where a call failed: no memory, no read or no write; or where memory is wanting, the full one."""
    if call == "memory":
        return got in ((NO_MEMORY, b"", b""), full)
    if call == "write":
        return got == (UNWRITTEN, full[1][:written], b"")
    return got == (UNREAD, b"", b"")


def of_run(faults, run, call, size, error):
    """One call after the other fails, and of memory besides all from one on, until a run makes none of them."""
    full, _ = faults.run(run.words, size=size)
    yield f"{run.name}, in pieces of {size}", full == faults.runner.run(run.words)
    for onward in ("", "+") if call == "memory" else ("",):
        number, failed = 1, True
        while failed:
            got, failed = faults.run(run.words, call=call, number=f"{number}{onward}", size=size, error=error)
            held = is_due(call, got, full, (size or 0) * (number - 1)) if failed else got == full
            yield f"{run.name}, {call} {number}{onward} fails (pieces of {size}, {os.strerror(error)}): {got[0]} {got[1][:40]!r}", held
            number += 1


def covered(faults):
    """Each call of the C library that the program makes is one that faults.c covers, or takes no memory and does no input or output."""
    defined = elf.File(faults.library.read_bytes()).symbols(is_defined=True)
    for name in sorted(elf.File(open(faults.runner.program, "rb").read()).symbols(is_defined=False)):
        yield f"the call of {name} is covered", name in defined | HARMLESS | START


# The small files that show most, and the others.
FIRST, OTHERS = (SMALL[0], SMALL[1], SMALL[4]), (SMALL[2], SMALL[3])


def of_smalls(runner, new_folder, forms, skipped, smalls):
    """Each call fails in turn, in each command on small files."""
    if shutil.which("gcc") is None:
        skipped("calls of the C library that fail, since gcc isn't installed")
        return
    faults, runs = Faults(runner, new_folder()), Runs(runner, new_folder(), forms)
    for small, command in itertools.product(smalls, runs.commands):
        for run in runs.of(small, command):
            for call, settings in SETTINGS.items():
                for size, error in settings:
                    yield from of_run(faults, run, call, size, error)
    if smalls == FIRST:
        yield from covered(faults)


def checks(*given):
    return of_smalls(*given, FIRST)


def more_checks(*given):
    return of_smalls(*given, OTHERS)
