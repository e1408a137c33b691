"""What a part of the tests is, and what it gets."""
import itertools
from typing import Callable, NamedTuple

import clone
from programs import TOP, Program
from spawned import Runner

DEFAULT, LARGE, BY_NAME = "default", "large", "by name"


class Part(NamedTuple):
    """A part: its name, what it tests, its checks, and whether it is run by default, by --large, or only by its name.

    The checks are a function that gets a Context and yields pairs: the name of a check, and whether it holds. The name of a check
    that fails is printed as it is, so it may have further lines that say what was wanted and what came.
    """

    name: str
    about: str
    checks: Callable
    kind: str = DEFAULT


class Context:
    """What a part gets: a folder of its own, the programs, and `skipped`, which is called with what is left out and why. Of thousands of
    like answers a part asks each `share`-th, and where that isn't the first it saves the time of compilers too.
    """

    def __init__(self, folder, programs, skipped, share=1):
        self.folder, self.programs, self.skipped, self.share, self.numbers = folder, programs, skipped, share, itertools.count(1)

    def new_folder(self):
        """An empty folder, which other users may enter."""
        folder = self.folder / str(next(self.numbers))
        folder.mkdir()
        folder.chmod(0o755)
        return folder

    def runner(self):
        """igesolid, run on files."""
        return Runner(self.programs.igesolid)

    def repair_runner(self):
        """igesolid-repair, likewise."""
        return Runner(self.programs.repair)

    def program(self):
        """igesolid, run on texts."""
        return Program(self.programs.igesolid, self.new_folder())

    def clone(self):
        """A copy of the repository, with a kit that is played."""
        return clone.Clone(TOP, self.new_folder(), *self.programs[:3])
