"""The commands of `igesolid` and `igesolid-repair`, as a table, and small inputs for each: what the tables of hostile inputs go through.

A further command is a further line of COMMANDS, and where it takes a new kind of certificate, of KINDS.
"""
import pathlib
from typing import NamedTuple

from versions import as_version_1

TOP = pathlib.Path(__file__).resolve().parent.parent


class Command(NamedTuple):
    """A form of words, as the usage line has it; the kinds of certificates that stand for CERT; what N names."""

    form: str
    kinds: tuple = (None,)
    numbered: str = "solid"


SOLID_KINDS = "version 1", "version 2", "version 3"
COMMANDS = (
    Command("solids FILE"),
    Command("show FILE N"),
    Command("certify FILE N"),
    Command("certify FILE all"),
    Command("verify FILE CERT", SOLID_KINDS),
    Command("upgrade FILE CERT", SOLID_KINDS),
    Command("extract FILE N"),
    Command("sample N", numbered="sample"),
    Command("open FILE N", numbered="shell"),
    Command("open-verify FILE CERT", ("open",), "shell"),
    Command("orient FILE N"),
    Command("orient-verify FILE CERT", ("orientation",)),
    Command("compact FILE N"),
    Command("relayout FILE"),
    Command("layout FILE"),
    Command("reorient FILE N"),
    Command("mend FILE N"),
    Command("mend FILE N R"),
    Command("mended FILE N"),
    Command("mended FILE N R"),
)
# The commands that take the lines of a file as they are, and have words of their own for what is wrong there.
OF_LINES = "relayout", "layout"
# The form that writes a certificate of a kind, and what is made of its text.
KINDS = {
    "version 1": ("certify FILE N", as_version_1),
    "version 2": ("certify FILE N", bytes),
    "version 3": ("certify FILE all", bytes),
    "open": ("open FILE N", bytes),
    "orientation": ("orient FILE N", bytes),
}


class Small(NamedTuple):
    """A small file, and the numbers of a solid in it, of that solid's shell, and of a sample."""

    name: str
    solid: int
    shell: int
    sample: int


# The first has a solid without a shell; the last has two solids.
SMALL = Small("tiny", 1, 3, 3), Small("point", 1, 3, 4), Small("ball", 1, 3, 5), Small("cylinder", 1, 3, 6), Small("two_solids", 11, 13, 7)


class Run(NamedTuple):
    """A run of a command: its name, its words with the paths of its inputs, these paths, and the kind of its certificate."""

    name: str
    words: list
    file: pathlib.Path | None
    certificate: pathlib.Path | None
    kind: str | None


class Runs:
    """The runs of each command on the small files, whose copies stand in a folder with their certificates."""

    def __init__(self, runner, folder, forms):
        self.runner, self.folder = runner, folder
        self.commands = [command for command in COMMANDS if command.form in forms]

    def words(self, form, small, numbered, file, certificate=None):
        number = str(getattr(small, numbered))
        paths = {"FILE": str(file), "N": number, "R": "1", "CERT": str(certificate)}
        return [paths.get(word, word) for word in form.split()]

    def file(self, small):
        path = self.folder / f"{small.name}.igs"
        if not path.exists():
            path.write_bytes((TOP / "examples" / path.name).read_bytes())
        return path

    def certificate(self, small, kind, numbered):
        """The path of a certificate of this kind of the small file; where none can be made of it, of the ball."""
        path = self.folder / f"{small.name}.{kind.replace(' ', '_')}"
        if not path.exists():
            form, made = KINDS[kind]
            for source in (small, SMALL[2]):
                status, text, _ = self.runner.run(self.words(form, source, numbered, self.file(source)))
                if status == 0:
                    break
            path.write_bytes(made(text))
        return path

    def of(self, small, command):
        """The runs of a command on a small file: one for each kind of its certificates."""
        for kind in command.kinds:
            file = self.file(small) if "FILE" in command.form else None
            certificate = self.certificate(small, kind, command.numbered) if kind else None
            words = self.words(command.form, small, command.numbered, file, certificate)
            name = f"{command.form} of {small.name}" + (f", certificate of {kind}" if kind else "")
            yield Run(name, words, file, certificate, kind)

    def all(self):
        for small in SMALL:
            for command in self.commands:
                yield from self.of(small, command)
