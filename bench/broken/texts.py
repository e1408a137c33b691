"""What `where` tells of remedies, read from its text."""
import re
from dataclasses import dataclass, field

REMEDY = re.compile(r"hint remedy (\d+) shell (\d+)$").match
STUCK = re.compile(r"hint stuck shell (\d+)$").match
# All face flags 1, told in place of remedies.
FLAGS, FLAG = re.compile(r"hint face-flags faces (\d+)$").match, re.compile(r"flag-0 (\d+) .*$").match
STEP = re.compile(r"step (.*) (\d+)$").match


@dataclass
class Step:
    """The words of a step's line, how many items it says that there are, and the words of each item that is written."""

    words: str
    count: int
    items: list = field(default_factory=list)


@dataclass
class Remedy:
    shell: int
    steps: list = field(default_factory=list)

    def step(self, words):
        return next((step for step in self.steps if step.words == words), Step(words, 0))

    def items(self, words):
        return self.step(words).items

    def names(self):
        return {step.words for step in self.steps}


def remedies_of(text):
    """The remedies of each shell that fails, those of a stuck one being none; those of the whole solid under 0."""
    shells, remedy, step = {}, None, None
    for line in text.split("\n"):
        if line.startswith("  "):
            continue
        found = STEP(line) if remedy else None
        if REMEDY(line):
            remedy, step = Remedy(int(REMEDY(line)[2])), None
            shells.setdefault(remedy.shell, []).append(remedy)
        elif FLAGS(line):
            remedy, step = Remedy(0), Step("turn faces", int(FLAGS(line)[1]))
            remedy.steps.append(step)
            shells[0] = [remedy]
        elif remedy and remedy.shell == 0 and FLAG(line):
            step.items.append(["turn", FLAG(line)[1]])
        elif STUCK(line):
            remedy = shells.setdefault(int(STUCK(line)[1]), None)
        elif found:
            step = Step(found[1], int(found[2]))
            remedy.steps.append(step)
        elif line == "" or line.startswith(("hint ", "rule ", "more ")):
            remedy = remedy if line.startswith("more ") else None
        elif remedy and step:
            step.items.append(line.split(" "))
    return {shell: found or [] for shell, found in shells.items()}
