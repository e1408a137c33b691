"""`reorient` (docs/REPAIR.md, section 6): the file of one solid with face flags that fit."""
import copy

from .extraction import renumbered
from .orientation import NO, Partners, orientation
from .walking import walked


def chosen(own, kept):
    """Of a list of flags that fits and its reverse, the one that is written."""
    reverse = [1 - flag for flag in kept]
    for wanted in own, [1] * len(own):
        if wanted in (kept, reverse):
            return wanted
    changes = [sum(flag != now for flag, now in zip(own, flags)) for flags in (kept, reverse)]
    return reverse if changes[1] < changes[0] else kept


def flags_of(shell):
    return [face.flag for face in shell.faces]


def with_flags(entry, flags):
    """A shell's entry with other flags for its faces."""
    entry = copy.copy(entry)
    entry.values = list(entry.values)
    entry.values[2 : 2 + 2 * len(flags) : 2] = flags
    return entry


def reoriented(solid, file, number):
    """The extracted file of a solid whose shells have flags; NoExtract where it is refused."""
    new, names = renumbered(file, number)
    for shell in solid.shells:
        flags = chosen(flags_of(shell), Partners(solid, shell).flooded()[0])
        new.entries[names[shell.entity]] = with_flags(new.entries[names[shell.entity]], flags)
    return new


def reorient(file, number, written):
    """The status and the text of `reorient`, where `written` gives those of a file."""
    status, text = orientation(file, number)
    if status == NO:
        return status, text
    return written(reoriented(walked(file, number), file, number))
