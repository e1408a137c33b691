"""The text of `where` as JSON and back (docs/WHERE.md, section 8), and the command `igesolid where --json`.

A line's keys are those of its shape, so nothing is lost or made up: what is made is written back first, and must be the text. The command holds
one head line at a time besides the text."""
import json
import signal
import sys
from typing import Any, Dict, Iterator, List, Optional, Tuple

from .content import content_of_file, content_of_path
from .errors import BadFile, Error, NoMemory, NoProgram, NotRead
from .files import chosen_engine
from .saying import Failed, is_utf8, print_pieces, say
from .where import Holding, Line, lines_in, paragraphs
from .where_lines import FACTS, HEADS, NotUnderstood, Shape, Value, kind_of

SCHEMA = 1
ODD = "the text of igesolid-where isn't laid out as docs/WHERE.md says"
# A sentence's lines have so many columns at most.
COLUMNS = 78
USAGE, ANSWERED = 2, (0, 1, BadFile.status)
FORMS = "igesolid where --json FILE [N [all]]: FILE is a name in UTF-8 or -, and N a directory number of 1 to 7 digits"
Object = Dict[str, Any]


def _value(name: str, word: str) -> Value:
    kinds = kind_of(name).json
    if "array" in kinds:
        return [int(it) for it in word.split(" ")]
    if "null" in kinds and word == "-":
        return None
    return int(word) if "integer" in kinds else word


def _word(value: Value) -> str:
    if isinstance(value, list):
        return " ".join(map(str, value))
    return "-" if value is None else str(value)


def _object(line: Line) -> Object:
    return {"is": line.shape.words, **{name: _value(name, word) for name, word in line.told.items()}}


def _objects(text: str) -> Iterator[Tuple[int, Object]]:
    """An object for each head line, with its facts or its sentence, and in how many others it is. The text of all is the text, or an error says
    so in the end."""
    holding: Holding[None] = Holding()
    at = 0
    for it in paragraphs(lines_in(text)):
        made = _object(it)
        if it.facts:
            made["facts"] = [_object(fact) for fact in it.facts]
        if it.sentence:
            made["sentence"] = it.sentence
        lines = "".join(f"{line}\n" for line in _lines_of(made))
        if not text.startswith(lines, at):
            raise NotUnderstood(ODD)
        at += len(lines)
        holding.holder_of(it, None)
        yield holding.depth, made
    if at != len(text):
        raise NotUnderstood(ODD)


def told_by(text: str) -> Object:
    """What a text tells: an object for each head line; items are in what holds them."""
    top: Object = {}
    holders = [top]
    for depth, made in _objects(text):
        del holders[depth + 1 :]
        holders[depth].setdefault("items", []).append(made)
        holders.append(made)
    return {"schema": SCHEMA, "lines": top.get("items", [])}


def _line(shapes: Dict[str, List[Shape]], word: str, told: Object) -> str:
    for shape in shapes.get(word, ()):
        if shape.words == told["is"] and all(name in told for name in shape.names):
            return shape.line({name: _word(told[name]) for name in shape.names})
    raise NotUnderstood(f"an object of no shape: {told['is']}")


def _cut(sentence: str) -> Iterator[str]:
    line = " "
    for word in sentence.split(" "):
        if len(line) + 1 + len(word) > COLUMNS and line != " ":
            yield line
            line = " "
        line += f" {word}"
    yield line


def _lines_of(told: Object) -> Iterator[str]:
    word = told["is"].split(" ", 1)[0]
    if word in ("rule", "entities"):
        yield ""
    yield _line(HEADS, word, told)
    if "sentence" in told:
        yield from _cut(told["sentence"])
    for fact in told.get("facts", ()):
        yield f"  {_line(FACTS, word, fact)}"
    for item in told.get("items", ()):
        yield from _lines_of(item)


def text_of(told: Object) -> str:
    """The text that tells this."""
    return "".join(f"{line}\n" for it in told["lines"] for line in _lines_of(it))


def json_of(text: str) -> str:
    return json.dumps(told_by(text), indent=1) + "\n"


def _closed(last: int, depth: int) -> Iterator[str]:
    """The ends of the last object and of those that hold it, down to a depth."""
    for k in range(last, depth - 1, -1):
        yield f"\n{' ' * (2 + 2 * k)}}}"
        if k > depth:
            yield f"\n{' ' * (1 + 2 * k)}]"


def pieces_of(text: str) -> Iterator[str]:
    """The same as `json_of` in pieces, one for each head line."""
    last = -1
    yield f'{{\n "schema": {SCHEMA},\n "lines": ['
    for depth, made in _objects(text):
        if depth > last:
            yield f',\n{" " * (3 + 2 * last)}"items": [' if last >= 0 else ""
        else:
            yield "".join([*_closed(last, depth), ","])
        body = json.dumps(made, indent=1)[: -len("\n}")]
        yield "\n" + "\n".join(f"{' ' * (2 + 2 * depth)}{line}" for line in body.split("\n"))
        last = depth
    yield "".join([*_closed(last, 0), "\n ]\n}\n"])


def _answer(program: Optional[str], file: str, words: List[str]) -> int:
    """Prints the answer of `igesolid-where` to these words as JSON; its status."""
    if file == "-" and sys.stdin is None:
        raise NotRead("standard input is closed")
    content = content_of_file(sys.stdin.buffer) if file == "-" else content_of_path(file)
    status, text = chosen_engine(program).ask("where", content, *words)
    if status == USAGE:
        raise Failed(USAGE, f"the words are {FORMS}")
    if status in ANSWERED:
        said = text.decode("utf-8", "surrogateescape")
        del text
        # What can't be told is known before anything is printed.
        for _ in _objects(said):
            pass
        print_pieces(pieces_of(said))
    return status


def main(words: List[str]) -> int:
    # An interrupt ends it without a word, as it ends the program.
    signal.signal(signal.SIGINT, signal.SIG_DFL)
    program = words[1] if words[:1] == ["--program"] and len(words) > 1 else None
    given = words[2:] if program else words
    try:
        if given[:1] != ["--json"] or len(given) < 2:
            raise Failed(USAGE, f"FILE is missing: the words are {FORMS}")
        if not is_utf8(given[1]):
            # The launcher says so, too.
            raise Failed(USAGE, "" if program else f"{given[1]}: this argument isn't UTF-8")
        return _answer(program, given[1], given[2:])
    except Failed as fault:
        # Of what can't be written the launcher says why.
        if fault.status == USAGE and fault.says:
            say(fault.says)
        return fault.status
    except NoProgram as fault:
        say(f"{given[1]}: {fault}")
        return fault.status
    except Error as fault:
        return fault.status
    except MemoryError:
        return NoMemory.status
