"""Copies of the repository, with a kit that is played by a script, for the tests of what stands around the program."""
import os
import pathlib
import shutil
import subprocess
import time

from spawned import SECONDS

# Where the kit isn't, if it isn't installed among the system's own commands.
PLAIN_PATH = "/usr/bin:/bin:/usr/sbin:/sbin"
LEFT_OUT = shutil.ignore_patterns("out", ".git", "__pycache__")
# It proves nothing: its library builds end at once, with a delay or refused, and its programs are those that are given.
KIT = """#!/bin/sh
case $1 in
version) echo 'a kit for tests' ;;
lib | run)
    echo "$1 ${PWD##*/}" >>"$KIT_LOG"
    [ "${PWD##*/}" != "${KIT_REFUSES-}" ] || exit 1
    sleep "${KIT_DELAY:-0}"
    case $1,${PWD##*/} in
    run,igesolid_where) mkdir -p out && cp "$KIT_WHERE" out/igesolid_where ;;
    run,igesolid_repair) mkdir -p out && cp "$KIT_REPAIR" out/igesolid_repair ;;
    run,*) mkdir -p out && cp "$KIT_PROGRAM" out/igesolid ;;
    esac
    ;;
esac
"""
# A program that ends with the status wanted.
ENDING = """#!/bin/sh
[ $# -gt 0 ] || { echo 'usage: igesolid ..'; exit 2; }
exit "${STATUS:-0}"
"""


class Clone:
    """A copy of the repository in a folder, without what a build left."""

    def __init__(self, top, folder, program, where, repair):
        self.top, self.folder, self.program, self.where, self.repair = folder / "clone", folder, program, where, repair
        shutil.copytree(top, self.top, ignore=LEFT_OUT, symlinks=True)
        shutil.rmtree(self.top / "bench", ignore_errors=True)
        self.log = folder / "kit.log"
        (folder / "kit").mkdir()
        self.write(folder / "kit" / "rt", KIT)
        self.ship(program)

    @staticmethod
    def write(path, text):
        path.write_text(text)
        path.chmod(0o755)

    def environment(self, kit=False, **more):
        path = f"{self.folder / 'kit'}:{PLAIN_PATH}" if kit else PLAIN_PATH
        own = {"PATH": path, "KIT_PROGRAM": self.program, "KIT_WHERE": self.where, "KIT_REPAIR": self.repair, "KIT_LOG": self.log}
        return {**os.environ, **{name: str(value) for name, value in own.items()}, **{name: str(value) for name, value in more.items()}}

    def run(self, *words, kit=False, cwd=None, stdout=subprocess.PIPE, limit=None, **more):
        """The status, standard output and standard error of a command in the copy."""
        done = subprocess.run(
            words, cwd=cwd or self.top, stdin=subprocess.DEVNULL, stdout=stdout, stderr=subprocess.PIPE,
            env=self.environment(kit, **more), timeout=SECONDS, preexec_fn=limit,
        )  # fmt: skip
        return done.returncode, done.stdout, done.stderr.decode(errors="replace")

    def built(self, crate="igesolid"):
        return self.top / "crates" / crate / "out" / crate

    def unbuild(self):
        for crate in ("igesolid", "igesolid_where", "igesolid_repair"):
            shutil.rmtree(self.built(crate).parent, ignore_errors=True)

    def ship(self, program):
        """Makes dist/ of a program, and of the two others, as dist/make does it behind the gate."""
        for crate, it in (("igesolid", program), ("igesolid_where", self.where), ("igesolid_repair", self.repair)):
            self.built(crate).parent.mkdir(parents=True, exist_ok=True)
            shutil.copy(it, self.built(crate))
        status, _, error = self.run("dist/make", kit=True)
        if status != 0:
            raise RuntimeError(error)
        # What dist/make asked of the kit is no build.
        self.calls()
        self.unbuild()

    def ship_script(self, text):
        script = self.folder / "script"
        self.write(script, text)
        self.ship(script)

    def calls(self):
        """What the kit was asked for since this was asked last."""
        told = self.log.read_text().splitlines() if self.log.exists() else []
        self.log.unlink(missing_ok=True)
        return told


def on_terminal(command, **how):
    """What a command writes to a terminal that is its standard error."""
    master, terminal = os.openpty()
    process = subprocess.Popen(command, stdin=subprocess.DEVNULL, stdout=subprocess.DEVNULL, stderr=terminal, **how)
    os.close(terminal)
    told, end = b"", time.monotonic() + SECONDS
    while time.monotonic() < end:
        try:
            piece = os.read(master, 65_536)
        except OSError:
            break
        if not piece:
            break
        told += piece
    os.close(master)
    return process.wait(), told.decode(errors="replace")


def without_kit():
    """Whether the kit is off the path that stands for a machine without it."""
    return shutil.which("rt", path=PLAIN_PATH) is None
