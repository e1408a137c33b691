"""The picture's geometry under node: points of curves, areas of faces, vertices beside the coordinates of `where`; and that the page
is packed of its modules as they are."""
import pathlib
import shutil
import subprocess
import sys

TOP = pathlib.Path(__file__).resolve().parent.parent
OLDEST = 18


def node():
    """The path of a node that is new enough, or None."""
    found = shutil.which("node") or shutil.which("nodejs")
    if found is None:
        return None
    told = subprocess.run([found, "--version"], capture_output=True, text=True).stdout
    return found if told[1:].split(".")[0].isdigit() and int(told[1:].split(".")[0]) >= OLDEST else None


def checks(skipped):
    yield "picture: companion/page.html is up to date", subprocess.run([sys.executable, TOP / "companion" / "pack", "--check"]).returncode == 0
    found = node()
    if found is None:
        skipped(f"the picture's geometry: node {OLDEST} or later isn't installed")
        return
    done = subprocess.run([found, TOP / "tests" / "picture" / "run.mjs"], capture_output=True, text=True)
    yield f"picture: the tests end: {done.stderr[-300:]}", done.returncode == 0
    for line in done.stdout.splitlines():
        name, _, holds = line.rpartition("\t")
        yield name, holds == "yes"
