"""The text of `where FILE N`: its lines are read into rules, items and facts (docs/WHERE.md), and a line of another shape is refused."""
import re
from dataclasses import dataclass, field
from typing import Dict, Generic, Iterable, Iterator, List, Optional, Tuple, TypeVar

from .where_lines import FACTS, HEADS, ITEMS, SENTENCES, UNSAID, NotUnderstood, Shape, read_line

# A line of `mended`: the item of an entity's record that is left out.
DROPPED = re.compile(r"(?m)^dropped (\d+) item (\d+)\n")


@dataclass
class Line:
    """A line, its shape, and what it says, by name."""

    text: str
    shape: Shape
    told: Dict[str, str]

    @property
    def word(self) -> str:
        """The first word."""
        return self.text.split(" ", 1)[0]

    def number(self, name: str) -> int:
        return int(self.told[name])

    def key(self) -> Tuple[int, int]:
        """The list and the index of an edge or a vertex."""
        return int(self.told["list"]), int(self.told["index"])


@dataclass
class Paragraph(Line):
    """A head line with its facts; a sentence where it has one."""

    facts: List[Line] = field(default_factory=list)
    sentence: str = ""


@dataclass
class Holder(Paragraph):
    """A paragraph with items; `more` is how many further ones there are."""

    items: List[Paragraph] = field(default_factory=list)
    more: int = 0

    @property
    def shell(self) -> Optional[int]:
        return int(self.told["shell"]) if "shell" in self.told else None


@dataclass
class Rule(Holder):
    """A rule that fails, of a shell or of a record, with its items."""

    @property
    def name(self) -> str:
        return self.told["rule"]


@dataclass
class Step(Holder):
    """What a remedy changes in one way; its items are what is changed."""

    @property
    def name(self) -> str:
        return self.text.split(" ")[1]

    @property
    def count(self) -> int:
        return int(self.text.split(" ")[-1])


@dataclass
class Hint(Holder):
    """A hint, of a shell or of the file; the items of a remedy are its steps."""

    @property
    def name(self) -> str:
        return self.text.split(" ")[1]

    @property
    def is_remedy(self) -> bool:
        return self.name == "remedy"

    @property
    def steps(self) -> List[Step]:
        return [it for it in self.items if isinstance(it, Step)]


KINDS_OF_HOLDERS = {"rule": Rule, "hint": Hint, "step": Step}


@dataclass
class Parts:
    """The first line of the text, and its other parts in their order."""

    verdict: Paragraph
    line: Optional[Paragraph] = None
    units: Optional[Paragraph] = None
    shells: Optional[Paragraph] = None
    failing: List[Paragraph] = field(default_factory=list)
    hints: List[Hint] = field(default_factory=list)
    more_hints: int = 0
    rules: List[Rule] = field(default_factory=list)
    entities: Dict[int, Paragraph] = field(default_factory=dict)


class Where(str):
    """The text of `where`, and what it tells: `rules` and `hints`, each with its items and their facts; the shells that fail; entities.

    It is read when the first of these is asked for, and a text of another shape raises `NotUnderstood` then."""

    _parts: Optional[Parts] = None

    @property
    def parts(self) -> Parts:
        if self._parts is None:
            self._parts = _parts_of(self)
        return self._parts

    @property
    def verdict(self) -> Paragraph:
        """The first line."""
        return self.parts.verdict

    @property
    def shells(self) -> Optional[Paragraph]:
        """The line on all shells; None where a record is wrong."""
        return self.parts.shells

    @property
    def rules(self) -> List[Rule]:
        return self.parts.rules

    @property
    def failing(self) -> List[Paragraph]:
        return self.parts.failing

    @property
    def hints(self) -> List[Hint]:
        return self.parts.hints

    @property
    def remedies(self) -> List[Hint]:
        """The remedies of the shells that fail, those of a shell by their number."""
        return [it for it in self.hints if it.is_remedy]

    @property
    def more_hints(self) -> int:
        """How many further remedies aren't written."""
        return self.parts.more_hints

    @property
    def entities(self) -> Dict[int, Paragraph]:
        return self.parts.entities

    @property
    def is_closed(self) -> bool:
        return self.parts.verdict.word == "closed"

    @property
    def is_bad_file(self) -> bool:
        return self.parts.verdict.word == "bad"


def paragraphs(lines: Iterable[str]) -> Iterator[Paragraph]:
    """Each head line with the facts or the sentence after it."""
    last: Optional[Paragraph] = None
    for line in lines:
        if line.startswith("  ") and last is not None:
            text = line[2:]
            if last.word in SENTENCES and last.shape.words != UNSAID:
                last.sentence += f" {text}" if last.sentence else text
            else:
                last.facts.append(Line(text, *read_line(FACTS, last.word, text)))
        elif line:
            if last is not None:
                yield last
            word = line.split(" ", 1)[0]
            last = KINDS_OF_HOLDERS.get(word, Paragraph)(line, *read_line(HEADS, word, line))
    if last is not None:
        yield last


def lines_in(text: str) -> Iterator[str]:
    """The lines of a text, one at a time; what comes after the last line feed, too."""
    at = 0
    while True:
        end = text.find("\n", at)
        yield text[at:] if end < 0 else text[at:end]
        if end < 0:
            return
        at = end + 1


def are_items(word: str) -> bool:
    return any(word in words for words in ITEMS.values())


T = TypeVar("T")


class Holding(Generic[T]):
    """Where items belong: to the last rule or hint, and below a hint to its last step. What is made of these is given and found here."""

    def __init__(self) -> None:
        self.open: List[Tuple[str, T]] = []
        # In how many others the last paragraph is.
        self.depth = 0

    def holder_of(self, it: Paragraph, made: T) -> Optional[T]:
        """What was made of the paragraph that holds this one; None if none does. `more` may stand elsewhere, too."""
        while self.open and it.word not in ITEMS[self.open[-1][0]]:
            self.open.pop()
        found = self.open[-1][1] if self.open else None
        if not self.open and are_items(it.word) and it.word != "more":
            raise NotUnderstood(f"the text of igesolid-where has an item of nothing: {it.text}")
        self.depth = len(self.open)
        if it.word in ITEMS:
            self.open.append((it.word, made))
        return found


def _put(parts: Parts, it: Paragraph) -> None:
    """Puts a paragraph that is no item to the others of its kind."""
    if it.word == "line":
        parts.line = it
    elif it.word == "units":
        parts.units = it
    elif it.word == "shells":
        parts.shells = it
    elif it.word == "shell":
        parts.failing.append(it)
    elif it.shape.words == UNSAID:
        parts.more_hints += it.number("more")
    elif isinstance(it, Hint):
        parts.hints.append(it)
    elif isinstance(it, Rule):
        parts.rules.append(it)
    elif it.word == "entity":
        parts.entities[it.number("entity")] = it


def _put_item(holder: Paragraph, it: Paragraph) -> None:
    assert isinstance(holder, Holder)
    if it.word == "more":
        holder.more = it.number("more")
    else:
        holder.items.append(it)


def _put_all(parts: Parts, found: Iterable[Paragraph]) -> Parts:
    holding: Holding[Paragraph] = Holding()
    for it in found:
        holder = holding.holder_of(it, it)
        if holder is None:
            _put(parts, it)
        else:
            _put_item(holder, it)
    return parts


def _parts_of(text: str) -> Parts:
    found = list(paragraphs(lines_in(text)))
    if not found or found[0].word not in ("closed", "fail", "bad"):
        raise NotUnderstood("the text of igesolid-where begins with no verdict")
    parts = _put_all(Parts(found[0]), found[1:])
    if parts.verdict.word == "fail" and not (parts.rules and all(rule.items for rule in parts.rules)):
        raise NotUnderstood("the text of igesolid-where has a rule without items, or none")
    return parts


class Mended(str):
    """The text of `mended`: what `mend` changes in a solid, as what is left out, and the remedies that it takes, one for each shell that fails."""

    _remedies: Optional[List[Hint]] = None

    @property
    def is_closed(self) -> bool:
        """Whether the solid is closed as it is."""
        return self.startswith("closed ")

    @property
    def dropped(self) -> List[Tuple[int, int]]:
        """What is left out, since it names something again: each an entity, and the item of its record."""
        return [(int(entity), int(item)) for entity, item in DROPPED.findall(self)]

    @property
    def remedies(self) -> List[Hint]:
        if self._remedies is None:
            found = list(paragraphs(lines_in(DROPPED.sub("", self))))
            if found and found[0].word not in ("closed", "hint") or not (found or self.dropped):
                raise NotUnderstood("the text of igesolid-repair mended tells no remedy")
            self._remedies = _put_all(Parts(found[0]), found).hints if found else []
        return self._remedies
