"""What a command in Python prints and says, and how it ends."""
import os
import sys
from typing import Iterable, Union

NOT_WRITTEN = 5


class Failed(Exception):
    """The status to end with, and what to say."""

    def __init__(self, status: int, says: str):
        super().__init__(status, says)
        self.status, self.says = status, says


def printable(text: str) -> str:
    """A name without what would change a terminal's lines."""
    return "".join("?" if ord(letter) < 32 or ord(letter) == 127 else letter for letter in text)


def is_utf8(word: str) -> bool:
    """Whether a word that was given is UTF-8, as the programs need it."""
    try:
        return word.encode("utf-8") is not None
    except UnicodeEncodeError:
        return False


def say(text: str) -> None:
    if sys.stderr is not None:
        # Standard error writes a byte that isn't UTF-8 with a backslash.
        print(f"igesolid: {printable(text)}", file=sys.stderr)


def print_all(text: Union[str, bytes]) -> None:
    print_pieces([text])


def print_pieces(pieces: Iterable[Union[str, bytes]]) -> None:
    """Prints pieces as they come."""
    try:
        for text in pieces:
            sys.stdout.buffer.write(text.encode("utf-8", "surrogateescape") if isinstance(text, str) else text)
        sys.stdout.buffer.flush()
    except (OSError, AttributeError):
        # What is left in the buffer can't be written when Python ends.
        os.dup2(os.open(os.devnull, os.O_WRONLY), 1)
        raise Failed(NOT_WRITTEN, "standard output failed, so the answer is cut short or missing") from None
