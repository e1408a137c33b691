"""The command `igesolid marks`: its words, what it asks, and how it ends."""
import argparse
import os
import signal
from typing import List, Optional

from ..content import content_of_path
from ..engine import Engine
from ..errors import BadFile, Error, NoMemory, NoProgram
from ..files import chosen_engine
from ..saying import Failed, is_utf8, print_all, say
from ..where import Where
from .iges import Unreadable, lines_of
from .overlay import marks_of

DESCRIPTION = """Writes an IGES file that marks where solid N fails, to be read into a CAD system together with the model.

  igesolid marks FILE N > marks.igs

The curves of failing edges and points at failing vertices are red, on level 901; the other edges of the faces there are blue, on level 902;
what the first remedy of a shell changes is green, on level 903.
What fails is taken from `igesolid where FILE N all`. The status is that of this command: 0 for a closed solid, which has no marks, 1 for one
that isn't, 3 for a bad file, of which nothing is written."""
ANSWERED = 0, 1, BadFile.status
USAGE = 2


def written(file: str, number: str, engine: Engine) -> int:
    """Writes the marks; the status of the answer."""
    content = content_of_path(file)
    status, text = engine.ask("where", content, number, "all")
    if status == USAGE:
        raise Failed(USAGE, "igesolid-where doesn't take these words: N is a directory number of 1 to 7 digits")
    if status in ANSWERED:
        marks, says = marks_of(os.path.basename(file), int(number), Where(text.decode("utf-8", "replace")), lines_of(content.bytes))
        if says:
            say(says)
        print_all(marks)
    return status


def main(words: Optional[List[str]] = None) -> int:
    parser = argparse.ArgumentParser(prog="igesolid marks", description=DESCRIPTION, formatter_class=argparse.RawDescriptionHelpFormatter)
    parser.add_argument("file", metavar="FILE")
    parser.add_argument("number", metavar="N", help="the directory number of a solid")
    parser.add_argument("--program", help=argparse.SUPPRESS)
    given = parser.parse_args(words)
    # An interrupt ends it without a word, as it ends the program.
    signal.signal(signal.SIGINT, signal.SIG_DFL)
    try:
        if not is_utf8(given.file):
            # The launcher says so, too.
            raise Failed(USAGE, "" if given.program else "this argument isn't UTF-8")
        return written(given.file, given.number, chosen_engine(given.program))
    except Failed as fault:
        # Of what can't be written the launcher says why.
        if fault.status == USAGE and fault.says:
            say(f"{given.file}: {fault.says}")
        return fault.status
    except (Unreadable, LookupError):
        say(f"{given.file}: it doesn't match what igesolid-where reports; was it changed meanwhile?")
        return NoProgram.status
    except Error as fault:
        if isinstance(fault, NoProgram):
            say(f"{given.file}: {fault}")
        return fault.status
    except MemoryError:
        return NoMemory.status
