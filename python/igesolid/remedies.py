"""Remedies in a few words, as `check` prints them."""
from typing import Dict, List

from .where import Hint, Paragraph, Step, Where
from .where_lines import ONCE

# Of each step what it does, and to what, one and several.
_WORDS = {
    "remove": ("remove", "face", "faces"),
    "turn": ("turn", "face", "faces"),
    "reverse": ("reverse", "loop", "loops"),
    "flags": ("change the flags of", "use", "uses"),
    "sew": ("sew", "pair of edges", "pairs of edges"),
    "copy": ("copy", "vertex", "vertices"),
    "renew": ("copy", "edge", "edges"),
    "part": ("part it into", "body", "bodies"),
    "fill": ("make a face on", "rim", "rims"),
}
FACE_FLAGS, STUCK = "face-flags", "no remedy is known"
LEAVE_OUT = "leave out what is named twice"


def words_of_step(step: Step) -> str:
    does, one, several = _WORDS[step.name]
    return f"{does} {step.count:,} {one if step.count == 1 else several}"


def words_of(remedy: Hint) -> str:
    """What a remedy changes."""
    return ", ".join(map(words_of_step, remedy.steps))


def words_of_hint(hint: Hint) -> str:
    """What a hint on a shell changes, if it is one that does."""
    if hint.name == FACE_FLAGS:
        count = hint.number("faces")
        return f"set the flag of {count:,} {'face' if count == 1 else 'faces'} to 1"
    return words_of(hint) if hint.is_remedy else STUCK


def is_left_out(where: Where) -> bool:
    """Whether something is named twice that `mend` leaves out: all but a loop that a face itself names twice."""
    items = [item for rule in where.rules if rule.name == ONCE for item in rule.items]
    return any(where.entities[it.number("entity")].told["type"] != "face" or it.told["entity"] != _first_of(it) for it in items)


def _first_of(item: Paragraph) -> str:
    """The entity that names first what an item names again."""
    return next(it.told["entity"] for it in item.facts if it.word == "first")


def first_words(where: Where) -> str:
    """The first remedy of each shell that is written, in words, or what mends a record; nothing where there is none."""
    if is_left_out(where):
        return LEAVE_OUT
    found: Dict[int, str] = {}
    for hint in where.hints:
        if hint.name in (FACE_FLAGS, "remedy", "stuck"):
            found.setdefault(hint.shell or 0, words_of_hint(hint))
    told: List[str] = [words if len(found) == 1 else f"in shell {shell} {words}" for shell, words in found.items()]
    return "; ".join(told)
