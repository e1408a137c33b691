"""README's first commands, as printed there, in a clone of the commit that is checked out, on a machine without the kit."""
import os
import pathlib
import re
import subprocess
import sys

import clone
from programs import TOP

SYSTEM = "/usr/bin:/bin"
FIRST = re.compile(r"(?s)```sh\n(.*?)```")
IS_ENOUGH = "import sys; sys.exit(sys.version_info < (3, 10))"
ALL_PASSED = re.compile(r"(?m)^\d+ passed, 0 failed\n\Z")


def git(*words):
    return subprocess.run(["git", *words], stdout=subprocess.PIPE, stderr=subprocess.PIPE, text=True)


def commit():
    """The commit that is checked out, or None; and why there is none."""
    try:
        top, head = git("-C", TOP, "rev-parse", "--show-toplevel"), git("-C", TOP, "rev-parse", "HEAD")
    except FileNotFoundError:
        return None, "git isn't installed"
    if top.returncode or head.returncode or pathlib.Path(top.stdout.strip()) != TOP:
        return None, "this folder isn't a clone"
    return head.stdout.strip(), ""


def path():
    """The system's own commands, and Python 3.10 or later."""
    try:
        is_enough = subprocess.run(["python3", "-c", IS_ENOUGH], env={"PATH": SYSTEM}).returncode == 0
    except FileNotFoundError:
        is_enough = False
    return SYSTEM if is_enough else f"{pathlib.Path(sys.executable).parent}:{SYSTEM}"


class Fresh:
    """A fresh clone, and a home without files."""

    def __init__(self, folder, home):
        self.top, self.environment = folder / "igesolid", {"PATH": path(), "HOME": os.fspath(home)}

    def clone(self, revision):
        """What git says when it fails."""
        made = git("clone", "--quiet", "--no-checkout", TOP, self.top), git("-C", self.top, "checkout", "--quiet", revision)
        return "".join(done.stderr for done in made if done.returncode)

    def run(self, command):
        """The status, standard output and standard error of a command, as printed."""
        words = ["/bin/sh", "-c", command]
        done = subprocess.run(words, cwd=self.top, env=self.environment, stdin=subprocess.DEVNULL, capture_output=True, text=True)
        return done.returncode, done.stdout, done.stderr


def checks(context):
    revision, why = commit()
    if revision is None or not clone.without_kit():
        context.skipped(f"a fresh clone: {why or 'rt is among the commands of the system'}")
        return
    fresh = Fresh(context.new_folder(), context.new_folder())
    error = fresh.clone(revision)
    yield f"fresh: git clone: {error}", error == ""
    first, tests = FIRST.search((fresh.top / "README.md").read_text())[1].splitlines()
    words = first.split("#")[0].split()[1:]
    wanted = subprocess.run([context.programs.igesolid, *words], cwd=TOP, capture_output=True, text=True).stdout
    status, text, error = fresh.run(first)
    yield f"fresh: {first}\n{text[-2_000:]}{error[-2_000:]}", (status, text, error) == (0, wanted, "")
    status, text, error = fresh.run(tests)
    yield f"fresh: {tests}\n{text[-4_000:]}{error[-2_000:]}", (status, error) == (0, "") and ALL_PASSED.search(text) is not None
