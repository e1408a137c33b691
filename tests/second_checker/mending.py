"""`mend` and `mended` (docs/REPAIR.md): the file of one solid, closed by changes of its shells, and what these are."""
import functools
import pathlib

from .certificates import certificate
from .change_fits import shell_passes
from .changed_file import changed
from .extraction import renumbered
from .geometry import Geometry
from .naming import NamedOnce
from .remedies import tried_remedies
from .remedy_text import put_steps
from .walking import Fail, walked
from .where import LIMIT, Text, View
from .where_page import DOC, sentences

DONE, NO = 0, 1
MOST_REMEDIES = 6
DOCS = pathlib.Path(__file__).resolve().parent.parent.parent / "docs"


class Stuck(Exception):
    """Why nothing is written, as words."""


def is_closed(file, number):
    try:
        certificate(file, number)
        return True
    except Fail:
        return False


def failing_shells(solid):
    """The places of the shells of which a rule fails."""
    before, failing = set(), []
    for place, shell in enumerate(solid.shells):
        if not shell_passes(shell) or before & shell.vertices():
            failing.append(place)
        before |= shell.vertices()
    return failing


class Mending:
    """A solid of which shells fail, in the extracted file, with the remedies of each of these."""

    def __init__(self, file, solid):
        self.file, self.solid = file, solid
        geometry = Geometry(file, solid)
        self.remedies = [tried_remedies(solid, geometry, place) for place in failing_shells(solid)]

    def numbers(self, choice):
        """Of each shell the number of its remedy: the one that is asked for, or the first where there are fewer."""
        return [choice if choice <= len(remedies) else 1 for remedies in self.remedies]

    def chosen(self, choice):
        return [remedies[number - 1] for remedies, number in zip(self.remedies, self.numbers(choice))]

    def faces(self, choice):
        """How many faces these remedies need."""
        return sum(len(remedy.change.rims) for remedy in self.chosen(choice))

    def written(self, choice):
        """The file with these remedies; None if they need a face, or a solid isn't closed then."""
        if self.faces(choice):
            return None
        file, solids = changed(self.file, self.solid, [remedy.change for remedy in self.chosen(choice)])
        return file if all(is_closed(file, number) for number in solids) else None

    def mended(self, choice):
        """The number of the remedies that are taken, and the file; Stuck where nothing is written."""
        if not all(self.remedies):
            raise Stuck("stuck")
        used = choice or 1
        if self.faces(used):
            raise Stuck(f"needs faces {self.faces(used)}")
        if choice is None and not all(remedy.sure for remedy in self.chosen(used)):
            least = next((number for number in range(1, MOST_REMEDIES + 1) if self.written(number) is not None), None)
            raise Stuck("stuck" if least is None else f"unsure {least}")
        file = self.written(used)
        if file is None:
            raise Stuck("stuck")
        return used, file


def right_file(file, number):
    """The file in which the solid's records are right, and the places that are left out for it, of those that name something twice."""
    try:
        walked(file, number)
        return file, []
    except Fail as fail:
        if fail.rule != "ONCE":
            raise
        first = fail
    once = NamedOnce(file, number)
    try:
        walked(once.file, number)
    except Fail:
        raise first from None
    return once.file, once.dropped


@functools.lru_cache(maxsize=4)
def mending_of(file, number):
    """The file whose records are right, with the places that are left out; the extracted file; and where shells fail, what mends it."""
    renumbered(file, number)
    right, dropped = right_file(file, number)
    alone, names = renumbered(right, number)
    if is_closed(alone, names[number]):
        return right, dropped, alone, None
    return right, dropped, alone, Mending(alone, walked(alone, names[number]))


def outcome(file, number, choice):
    """What is written, and the numbers and remedies that were taken for it; Stuck where nothing is written."""
    _, _, alone, mending = mending_of(file, number)
    if mending is None:
        return alone, []
    used, mended_file = mending.mended(choice)
    return mended_file, list(zip(mending.numbers(used), mending.chosen(used)))


def answered(file, number, choice, told):
    try:
        return told(*outcome(file, number, choice))
    except Stuck as stuck:
        return NO, fail_text(file, number) + f"{stuck}\n".encode()


def fail_text(file, number):
    try:
        certificate(file, number)
    except Fail as fail:
        return fail.text()
    raise AssertionError("a solid that fails")


def mend(file, number, choice, written):
    """The status and the text, where `written` gives those of a file."""
    return answered(file, number, choice, lambda mended_file, _: written(mended_file))


def mended(file, number, choice, written):
    """What `mend` changes, with the numbers of the file that was read."""

    def told(mended_file, remedies):
        status, _ = written(mended_file)
        if status != DONE:
            return status, b""
        right, dropped, _, _ = mending_of(file, number)
        text, solid = Text(LIMIT), walked(right, number)
        text.lines += [f"dropped {entity} item {item}" for entity, item in dropped]
        for rank, remedy in remedies:
            view = View(right, solid, remedy.change.shell + 1, [])
            text.lines.append(f"hint remedy {rank} shell {view.place}")
            put_steps(text, view, remedy.change)
        lines = text.lines or [f"closed {number}"]
        return DONE, "".join(f"{line}\n" for line in lines).encode("latin-1")

    if not DOC:
        sentences(DOCS)
    return answered(file, number, choice, told)
