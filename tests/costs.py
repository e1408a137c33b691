"""bench/hostile --check on files whose records many solids share, on files of odd lines, on those of which `where` could say too much, and on those
that are mended. Needs valgrind."""
import shutil
import subprocess
import sys

from programs import TOP

SHAPES = (
    "solids o", "lines", "copies of", "faults on", "hints on", "far vertices", "gaps at", "failing", "dense", "open", "large faces", "rings", "poles with",
    "a face turned",
)  # fmt: skip
FEWEST = 107


def checks(context):
    if not shutil.which("valgrind"):
        context.skipped("costs: valgrind isn't installed")
        return
    programs = ["--program", context.programs.igesolid, "--where", context.programs.where, "--repair", context.programs.repair]
    words = [sys.executable, TOP / "bench" / "hostile", "--check", "--out", context.new_folder(), *programs, "--only"]
    runs = [subprocess.run([*words, shapes], capture_output=True, text=True) for shapes in SHAPES]
    lines = [line for done in runs for line in done.stdout.splitlines()]
    for line in lines:
        yield f"costs: {line}", line.startswith("ok: ")
    said = "".join(done.stderr for done in runs)
    yield f"costs: the shapes are there: {said}", len(lines) >= FEWEST and not any(done.returncode for done in runs)
