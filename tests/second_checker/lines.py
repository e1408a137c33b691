"""The lines of a certificate or of an orientation, one after the other."""
import re

NUMBER = rb" (?:0|[1-9][0-9]{0,8})"


class BadLine(Exception):
    """A line, from 1, that is misspelt, unfit or missing."""

    def __init__(self, number, word):
        super().__init__(number, word)
        self.number, self.word = number, word

    def text(self):
        return b"line %d %s\n" % (self.number, self.word.encode())


class Lines:
    """The lines of a text, of which each is spelled as a pattern says."""

    def __init__(self, text, spelled):
        self.lines, self.spelled = re.findall(rb"[^\n]*\n|[^\n]+\Z", text), spelled
        self.number = 0

    def next(self, longest=None):
        """The word and the numbers of the next line; BadLine where it is missing, misspelt, or unfit since it is too long."""
        self.number += 1
        if self.number > len(self.lines):
            raise BadLine(self.number, "missing")
        line = self.lines[self.number - 1]
        if not line.endswith(b"\n"):
            raise BadLine(self.number, "misspelt")
        self.check(longest is None or len(line) <= longest)
        if self.spelled(line) is None:
            raise BadLine(self.number, "misspelt")
        word, *numbers = line.split()
        return word.decode(), [int(number) for number in numbers]

    def check(self, fits):
        """BadLine where the line doesn't fit."""
        if not fits:
            raise BadLine(self.number, "unfit")

    def due(self, word, longest=None):
        """The numbers of the next line, which is to be of this kind."""
        found, numbers = self.next(longest)
        self.check(found == word)
        return numbers

    def end(self, longest=None):
        """Takes the last line, END, behind which none may stand."""
        self.due("END", longest)
        self.over(longest)

    def over(self, longest=None):
        """BadLine where a line stands behind the last."""
        if self.number < len(self.lines):
            self.next(longest)
            self.check(False)


def text_of(lines):
    return "".join(f"{line}\n" for line in lines).encode()
