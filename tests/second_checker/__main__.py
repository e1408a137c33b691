"""What a command owes, by the second checker: `python3 tests/second_checker verify FILE CERT`, and alike."""
import pathlib
import sys

sys.path.insert(0, str(pathlib.Path(__file__).resolve().parent.parent))

from second_checker import answer, layout  # noqa: E402


def main():
    words = sys.argv[1:]
    inputs = [pathlib.Path(word).read_bytes() for word in words[1:3] if pathlib.Path(word).is_file()]
    status, text = layout.answer(words[0], *inputs) if words[:1] in (["relayout"], ["layout"]) else answer(words, *inputs)
    sys.stdout.buffer.write(text)
    return status


sys.exit(main())
