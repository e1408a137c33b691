"""The programs that tests and benchmarks run, and runs of them on texts.

All are those built here, if they are newer than each source; else all are those of dist/, if dist/BUILT names these sources.
"""
import hashlib
import os
import pathlib
import subprocess
import sys
from typing import NamedTuple

import command_table
from spawned import Runner

TOP = pathlib.Path(__file__).resolve().parent.parent
DIST = TOP / "dist"
FORMS = command_table.forms()
REPAIR_FORMS = command_table.forms("igesolid-repair")
USAGE = command_table.usage()
NONE_FITS = (
    "no programs of these sources: those built here are missing or older than a source, and dist/ holds those of other sources; build"
    " them with the kit (rt ci, or ./igesolid --built, ./igesolid --built where and ./igesolid --built layout), or then run dist/make, which puts"
    " them into dist/"
)


class Programs(NamedTuple):
    """The paths of igesolid, of igesolid-where and of igesolid-repair, and where they come from."""

    igesolid: pathlib.Path
    where: pathlib.Path
    repair: pathlib.Path
    origin: str


def sources(*words):
    return subprocess.run([DIST / "sources", *words], stdout=subprocess.PIPE, text=True, check=True).stdout.split("\n")[:-1]


def built_here():
    """The programs in the folders of their crates, or None if one isn't newer than each source: a build may be older than an edit."""
    found = Programs(*(TOP / "crates" / crate / "out" / crate for crate in ("igesolid", "igesolid_where", "igesolid_repair")), "built here")
    if not all(path.is_file() for path in found[:3]):
        return None
    oldest = min(path.stat().st_mtime_ns for path in found[:3])
    return found if all((TOP / name).stat().st_mtime_ns < oldest for name in sources("--list")) else None


def shipped():
    """The programs of dist/, or None if they aren't of these sources, or aren't those whose checksums stand beside them."""
    found = Programs(*(DIST / f"{name}-x86_64-linux" for name in ("igesolid", "igesolid-where", "igesolid-repair")), "of dist/")
    if f"sources {sources()[0]}\n" not in (DIST / "BUILT").read_text():
        return None
    sums = (DIST / "SHA256SUMS").read_text()
    return found if all(f"{hashlib.sha256(path.read_bytes()).hexdigest()}  {path.name}\n" in sums for path in found[:3]) else None


def in_folder(folder):
    """The programs in a folder, by their names or those of their crates."""
    names = ("igesolid", "igesolid-where", "igesolid-repair")
    paths = [next((path for path in (folder / name, folder / name.replace("-", "_")) if os.access(path, os.X_OK)), None) for name in names]
    if None in paths:
        sys.exit(f"{sys.argv[0]}: {folder} has no {names[paths.index(None)]}")
    return Programs(*paths, f"in {folder}")


def chosen(folder=None):
    """The programs to run. Where there are none, the command ends and says why."""
    if folder is not None:
        return in_folder(pathlib.Path(folder).resolve())
    found = built_here() or shipped()
    if found is None:
        sys.exit(f"{sys.argv[0]}: {NONE_FITS}")
    return found


class Program:
    """A program that is run on a file and a certificate, given as texts: FILE and CERT among the words stand for their paths.

    They lie in a folder of their own, and are written where they differ from those of the run before.
    """

    def __init__(self, path, folder):
        self.path, self.folder, self.lying, self.runner = path, folder, {}, Runner(path)
        self.paths = {"FILE": folder / "file", "CERT": folder / "certificate"}

    def lay(self, path, text):
        if self.lying.get(path) == text:
            return
        if text is None:
            path.unlink()
        else:
            path.write_bytes(text)
        self.lying[path] = text

    def run(self, words, file=None, certificate=None):
        """The status, standard output and standard error."""
        self.lay(self.paths["FILE"], file)
        self.lay(self.paths["CERT"], certificate)
        return self.runner.run([os.fspath(self.paths.get(word, word)) for word in words])

    def words(self, words, file=None):
        """The status and standard output of a run without a certificate."""
        return self.run(words, file)[:2]

    def certificate(self, command, file, certificate):
        return self.run([command, "FILE", "CERT"], file, certificate)
