"""The hook of .pre-commit-hooks.yaml, by Debian's pre-commit in a repository of parts that is made here. Nothing is fetched."""
import os
import re
import shutil

import clone

# The configuration in docs/INTEGRATIONS.md, and what stands there for the address and the commit.
CONFIGURATION = re.compile(r"(?s)```yaml\n(repos:.*?)```")
ADDRESS, COMMIT = "ADDRESS OF THIS REPOSITORY", "A COMMIT OF IT"
PROGRAMS = "git", "pre-commit"
AUTHOR = {f"GIT_{who}_{what}": "tests@example.org" for who in ("AUTHOR", "COMMITTER") for what in ("NAME", "EMAIL")}


class Repository:
    """A repository in a folder, with settings of its own."""

    def __init__(self, copy, folder):
        self.copy, self.folder = copy, folder
        folder.mkdir(exist_ok=True)
        self.run("git", "init", "--quiet")

    def run(self, *words):
        own = {"HOME": self.copy.folder, "PRE_COMMIT_HOME": self.copy.folder / "pre-commit", "GIT_CONFIG_NOSYSTEM": 1, "GIT_CONFIG_GLOBAL": os.devnull}
        return self.copy.run(*words, cwd=self.folder, **own, **AUTHOR)

    def commit(self, *words):
        """Commits all; the status, and what is said."""
        self.run("git", "add", "--all")
        status, text, error = self.run("git", "commit", "--message", "parts", *words)
        return status, text.decode() + error

    def revision(self):
        return self.run("git", "rev-parse", "HEAD")[1].decode().strip()


def checks(copy, skipped):
    lacking = [name for name in PROGRAMS if shutil.which(name, path=clone.PLAIN_PATH) is None]
    if lacking:
        skipped(f"the hook for pre-commit: {lacking[0]} isn't installed")
        return
    hooks = Repository(copy, copy.top)
    status, said = hooks.commit("--quiet")
    yield f"pre-commit: the repository of the hook{said}", status == 0
    parts = Repository(copy, copy.folder / "parts")
    printed = CONFIGURATION.search((copy.top / "docs" / "INTEGRATIONS.md").read_text())[1]
    (parts.folder / ".pre-commit-config.yaml").write_text(printed.replace(ADDRESS, str(copy.top)).replace(COMMIT, hooks.revision()))
    status, text, error = parts.run("pre-commit", "install")
    yield f"pre-commit: it is installed{error}", status == 0
    yield from commits(parts, copy.top / "examples")


def commits(parts, examples):
    """A commit passes when all solids of its IGES files are closed; otherwise it is refused, and each file is named."""
    (parts.folder / "notes.txt").write_text("no part\n")
    status, said = parts.commit()
    yield f"pre-commit: no part is changed\n{said}", status == 0 and "Skipped" in said
    shutil.copy(examples / "cube.igs", parts.folder / "a cube.IGS")
    status, said = parts.commit()
    yield f"pre-commit: a closed solid\n{said}", status == 0 and "Passed" in said
    first = parts.revision()
    shutil.copy(examples / "two_tetrahedra.igs", parts.folder / "tetrahedra.iges")
    status, said = parts.commit()
    yield f"pre-commit: one that isn't closed\n{said}", status == 1 and "solid 1: fail REACH 29 0 (part it into 2 bodies); igesolid where tetrahedra.iges 1" in said and "exit code: 1" in said
    shutil.copy(examples / "no" / "bad_length.igs", parts.folder / "bad.igs")
    status, said = parts.commit()
    wanted = "bad.igs: bad file line 2 length\n", "tetrahedra.iges: not closed, solid 1: fail REACH 29 0 (part it into 2 bodies)\n", "exit code: 3"
    yield f"pre-commit: several\n{said}", status == 1 and all(it in said for it in wanted) and "a cube" not in said
    yield "pre-commit: nothing was committed", parts.revision() == first
    status, text, _ = parts.run("pre-commit", "run", "--all-files")
    yield "pre-commit: all files", status == 1 and "a cube.IGS: closed, 1 solid\n" in text.decode()
    for name in "tetrahedra.iges", "bad.igs":
        shutil.copy(examples / "cube.igs", parts.folder / name)
    status, said = parts.commit()
    yield f"pre-commit: once they are closed\n{said}", status == 0 and "Passed" in said and parts.revision() != first
