"""Static libraries by the kit, for packaging/c/make and packaging/llvm_module; and the kit's clang.

`rt lib` proves each crate below a library first. The gate, `rt ci`, has done that just before, and leaves each crate's proved library in
crates/NAME/out/rlib, but not what tells `rt lib` so: it would prove them all again, for half of the gate's time. So where all of them
stand, and none is older than a source of its crate or of one below, the library is built straight from them. `rattle build` proves only
the crate of the library itself. Otherwise `rt lib` makes it.

Builds for several targets may run side by side: each has a copy of what the gate left of the crate's proofs, and `rt lib` runs once at a time."""
import contextlib
import fcntl
import functools
import os
import pathlib
import re
import shutil
import subprocess
import sys
import tempfile

TOP = pathlib.Path(__file__).resolve().parent.parent
NONE_MADE = 3
ROW = re.compile(r"(?m)^(\w+)(?: staticlib)?:(.*)$")
SOURCES = "src", "specs", "proofs"


@functools.lru_cache
def kit_folder():
    return pathlib.Path(subprocess.run(["rt", "doc"], capture_output=True, text=True, check=True).stdout.strip()).parent


def clang(*words, name="clang", **how):
    """A run of the kit's clang, or of what it is under another name."""
    return subprocess.run([name, *map(str, words)], executable=kit_folder() / "toolchain" / "bin" / "clang", check=True, **how)


class Crates:
    """The crates of crates.txt, and what the gate left of them."""

    def __init__(self):
        self.needs = {name: needs.split() for name, needs in ROW.findall((TOP / "crates.txt").read_text())}

    def below(self, name):
        """The crates below one, each after those that it uses."""
        found = []
        for need in self.needs[name]:
            if need in self.needs:
                found += [it for it in (*self.below(need), need) if it not in found]
        return found

    def library(self, name):
        return TOP / "crates" / name / "out" / "rlib" / f"{name}.rlib"

    def changed(self, name):
        """When a source of a crate changed last."""
        files = [file for part in SOURCES for file in (TOP / "crates" / name / part).rglob("*") if file.is_file()]
        return max(file.stat().st_mtime_ns for file in files)

    def is_left(self, name):
        """Whether the proved library of a crate stands there, and is older than no source of this crate or of one below."""
        if not (self.library(name) / "format").is_file():
            return False
        # The files in it may be those of an earlier run; the folder is made when they are put there.
        made = self.library(name).stat().st_mtime_ns
        return all(self.changed(it) < made for it in [*self.below(name), name])

    def are_left(self, name):
        """The same of all crates below one."""
        listed = (TOP / "crates.txt").stat().st_mtime_ns
        return all(self.is_left(it) and listed < self.library(it).stat().st_mtime_ns for it in self.below(name))


def words(crates, kit, name, target, toolchain, incremental, made):
    """What `rt lib --target` says to `rattle build`; a path is taken from the crate's folder."""
    needs, below = crates.needs[name], crates.below(name)
    own = ["std", *(it for it in needs if it not in crates.needs)]
    said = ["--crate-name", name, "src/lib.rt"]
    said += [word for it in own for word in ("--extern", f"{it}={kit}/rlibs/{it}.rlib")]
    said += ["-L", f"dependency={kit}/rlibs"]
    said += [word for it in needs if it in crates.needs for word in ("--extern", f"{it}={crates.library(it)}")]
    said += [word for it in below for word in ("-L", f"dependency={crates.library(it).parent}")]
    said += ["--antt-project", kit / "rattle" / "logic" / "antt-project.json", "--logic-built", kit / "logic_built"]
    said += ["--jobs", min(2, len(os.sched_getaffinity(0))), "--links", f"{name}=", "--crate-type", "staticlib", "--target", target]
    return [*said, "--toolchain", toolchain, "--backend", "llvm", "--incremental", incremental, "-o", made]


@contextlib.contextmanager
def alone(folder):
    """One process at a time."""
    folder.mkdir(exist_ok=True)
    with open(folder / "lock", "w") as lock:
        fcntl.flock(lock, fcntl.LOCK_EX)
        yield


def is_proved_and_made(crates, name, target, made):
    """Proves the crates below a library where the gate didn't leave them; whether its static library was made thereby."""
    folder = TOP / "crates" / name
    own = folder / "out" / f"lib{name}.a"
    with alone(own.parent):
        if crates.are_left(name):
            return False
        own.unlink(missing_ok=True)
        subprocess.run(["rt", "lib", "--target", target], cwd=folder, check=True, stdout=sys.stderr)
        if not own.is_file():
            print(f"{sys.argv[0]}: rt lib made no static library", file=sys.stderr)
            sys.exit(NONE_MADE)
        shutil.copyfile(own, made)
        return True


def build(name, target, made, toolchain=None):
    """Builds the static library of a proved crate in a file, by another toolchain than the kit's where one is given. Ends the program with
    NONE_MADE where the kit makes none."""
    crates, kit, folder = Crates(), kit_folder(), TOP / "crates" / name
    if is_proved_and_made(crates, name, target, made) and toolchain is None:
        return
    with tempfile.TemporaryDirectory() as room:
        left, incremental = folder / "out" / "incremental", pathlib.Path(room) / "incremental"
        if left.is_dir():
            shutil.copytree(left, incremental)
        said = map(str, words(crates, kit, name, target, toolchain or kit / "toolchain", incremental, made))
        subprocess.run([kit / "bin" / "rattle", "build", *said], cwd=folder, check=True, stdout=sys.stderr)
