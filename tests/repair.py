"""`igesolid-repair` (docs/REPAIR.md): files that were harmed in known ways, and files whose layout is changed at random, beside the
second checker; `reorient`, by reorient_tests.py; and `mend`, by mend_tests.py.

`harmed.tar.xz` holds the harmed files, one solid in each, and `harmed.tsv` what is owed for each: its name; what `igesolid` says of
the file, and of what `relayout` makes of it, or the line and the word of its refusal; and what `layout` prints, in one line.
"""
import argparse
import pathlib
import random
import sys
import tarfile
import tempfile

import mend_tests
import programs
import reorient_tests
from second_checker import layout
from spawned import Runner

TOP = pathlib.Path(__file__).resolve().parent.parent
HERE = TOP / "tests"
RANDOM_CASES, MORE_CASES = 500, 2_000
REORIENT_CASES, MORE_REORIENT_CASES = 100, 1_000
MEND_CASES, MORE_MEND_CASES = 100, 300
# What the reader's first pass says; of a file that was made it says none of them.
FIRST_PASS = {"not-fixed", "length", "letter", "missing", "number", "counts", "after"}
LINE_BYTES = bytes(range(256))
LIKELY_BYTES = b"0123456789 SGDPTsgdpt+-\t\r\n\x00\x0c\x1a\xef\xbb\xbf"


class Harmed:
    """A row of the table, and the file."""

    def __init__(self, row, data):
        self.name, self.before, self.after, self.layout = row.split("\t")
        self.data = data


def harmed():
    rows = [row for row in (HERE / "harmed.tsv").read_text().splitlines() if not row.startswith("#")]
    with tarfile.open(HERE / "harmed.tar.xz") as archive:
        for row in rows:
            yield Harmed(row, archive.extractfile(f"harm/{row.split()[0]}.igs").read())


class Repairs:
    """Runs of igesolid-repair, and of igesolid on what it makes, in a folder."""

    def __init__(self, folder, igesolid, repair):
        self.file, self.runner, self.judge = folder / "file.igs", Runner(repair), Runner(igesolid)

    def run(self, command, data):
        self.file.write_bytes(data)
        return self.runner.run([command, str(self.file)])

    def judged(self, data):
        """`closed` if all solids of the file are, else the line that igesolid prints."""
        self.file.write_bytes(data)
        status, text, _ = self.judge.run(["certify", str(self.file), "all"])
        return "closed" if status == 0 else text.decode("latin-1").split("\n")[0]

    def are_owed(self, data):
        """Whether both commands give what the second checker gives, and nothing else."""
        return all(self.run(command, data) == (*layout.answer(command, data), b"") for command in ("relayout", "layout"))

    def harmed_checks(self, it):
        yield f"{it.name}: before", self.judged(it.data) == it.before
        status, text, error = self.run("layout", it.data)
        yield f"{it.name}: layout", (text.decode().replace("\n", "; ").strip("; "), error) == (it.layout, b"")
        yield f"{it.name}: beside the second checker", self.are_owed(it.data)
        status, text, _ = self.run("relayout", it.data)
        if status:
            yield f"{it.name}: refused", f"refused: {text.decode().removeprefix('bad layout ').strip()}" == it.after
            return
        judged = self.judged(text)
        yield f"{it.name}: after", judged == it.after
        yield f"{it.name}: the reader's first pass", not FIRST_PASS & set(judged.split())
        yield f"{it.name}: again", self.run("relayout", text) == (0, text, b"")
        yield f"{it.name}: made in layout", self.run("layout", text) == (0, b"in layout\n", b"")


def changed_piece(rng, piece):
    """A piece with a change of its layout."""
    change = rng.choice(["cr", "crs", "blanks", "mark", "feed", "lower", "number", "no number", "byte", "any byte", "cut", "add", "tab", "empty", "blank"])
    if change in ("cr", "crs"):
        return piece + b"\r" * (1 if change == "cr" else rng.randrange(1, 4))
    if change == "blanks":
        return piece + bytes(rng.choices(layout.BLANK, k=rng.randrange(1, 5)))
    if change in ("mark", "feed"):
        return (b"\xef\xbb\xbf" if change == "mark" else b"\x0c") + piece
    if change == "lower":
        return piece[:72] + piece[72:].lower() if rng.random() < 0.5 else piece.lower()
    if change == "number":
        return piece[:73] + b"%7d" % rng.choice([0, 1, 2, 3, 12, 9_999_999])
    if change == "no number":
        return piece[: rng.randrange(73, 81)].rstrip(b" ")
    if change in ("byte", "any byte") and piece:
        at = rng.choice([rng.randrange(len(piece)), min(len(piece) - 1, rng.randrange(70, 84))])
        return piece[:at] + bytes([rng.choice(LIKELY_BYTES if change == "byte" else LINE_BYTES)]) + piece[at + 1 :]
    if change == "cut":
        return piece[: rng.randrange(len(piece) + 1)]
    if change == "add":
        at = rng.randrange(len(piece) + 1)
        return piece[:at] + bytes([rng.choice(LIKELY_BYTES)]) + piece[at:]
    if change == "tab":
        return piece.replace(b"        ", b"\t", 1)
    return b"" if change == "empty" else bytes(rng.choices(layout.BLANK, k=rng.randrange(0, 82))).replace(b"\n", b"")


def changed_lines(rng, lines):
    """The lines with a change of their order or number, or of one of them."""
    i, j = rng.randrange(len(lines)), rng.randrange(len(lines))
    change = rng.choice(["piece"] * 6 + ["drop", "twice", "swap", "end", "begin", "blank"])
    if change == "drop" and len(lines) > 1:
        del lines[i]
    elif change == "twice":
        lines.insert(j, lines[i])
    elif change == "swap":
        lines[i], lines[j] = lines[j], lines[i]
    elif change == "end":
        del lines[i + 1 :]
    elif change == "begin":
        del lines[:i]
    elif change == "blank":
        lines.insert(i, b"")
    else:
        lines[i] = changed_piece(rng, lines[i])


def random_file(rng, kept):
    """A small file with its lines changed, and ended in one way or another."""
    lines = rng.choice(kept).split(b"\n")[:-1]
    for _ in range(rng.choice([0, 0, 1, 1, 2, 3, 5])):
        changed_lines(rng, lines)
    end = rng.choice([b"\n"] * 5 + [b"\r\n", b"\r\r\n", b"\r"])
    last = rng.choice([end] * 5 + [b"", b"\r", end + end, end + b"\x1a", end + b"junk" + end, b" " + end])
    return end.join(lines) + last


def small_files():
    return [(TOP / "examples" / f"{name}.igs").read_bytes() for name in ("tiny", "ball", "cylinder")]


def random_checks(repairs, cases, seed=1):
    kept = small_files()
    for case in cases:
        data = random_file(random.Random(f"layout {seed} {case}"), kept)
        yield f"layout: case {case} of seed {seed}", repairs.are_owed(data)


def words_checks(runner, file):
    """Words of no form give the usage line; a file that isn't there can't be read."""
    for words in ([], ["relayout"], ["layout"], ["relayout", "a", "b"], ["Layout", "a"], ["", "a"], ["layouts", "a"], ["a", "layout"]):
        yield f"repair {' '.join(words)}: usage", runner.run(words) == (2, layout.USAGE, b"")
    for command in ("relayout", "layout"):
        yield f"{command} of no file", runner.run([command, f"{file}.none"]) == (4, b"", b"")


def checks(folder, igesolid, repair):
    repairs = Repairs(folder, igesolid, repair)
    for it in harmed():
        yield from repairs.harmed_checks(it)
    for path in sorted((TOP / "examples").rglob("*.igs")):
        yield f"{path.name}: relayout and layout", repairs.are_owed(path.read_bytes())
    yield from random_checks(repairs, range(RANDOM_CASES))
    yield from words_checks(repairs.runner, repairs.file)
    yield from reorient_tests.checks(folder, igesolid, repair, layout.USAGE, REORIENT_CASES)
    yield from mend_tests.checks(folder, igesolid, repair, layout.USAGE, range(MEND_CASES))


def size_checks(repairs):
    """What is too large, before and after."""
    lines = small_files()[0].split(b"\n")[:-1]
    short = [line[:73].rstrip(b" ") for line in lines]
    p_line, limit = short[-2], layout.MOST_BYTES
    head = b"\n".join(short[:-2]) + b"\n"
    fits = (limit - len(head)) // (len(p_line) + 1)
    grown = head + (p_line + b"\n") * fits
    for command in ("relayout", "layout"):
        yield f"{command}: too many bytes", repairs.run(command, grown + b" " * (limit + 1 - len(grown))) == (8, b"", b"")
        yield f"{command}: too many would be written", repairs.run(command, grown) == (8, b"", b"")


def more_checks(folder, igesolid, repair):
    """Further cases, and files of the greatest size."""
    repairs = Repairs(folder, igesolid, repair)
    yield from random_checks(repairs, range(RANDOM_CASES, RANDOM_CASES + MORE_CASES))
    yield from size_checks(repairs)
    yield from reorient_tests.more_checks(folder, igesolid, repair, range(REORIENT_CASES, REORIENT_CASES + MORE_REORIENT_CASES))
    yield from mend_tests.more_checks(folder, igesolid, repair, range(MEND_CASES, MEND_CASES + MORE_MEND_CASES))


def main():
    parser = argparse.ArgumentParser(description="Runs random cases alone: case I of seed S is always the same.")
    parser.add_argument("--count", type=int, default=RANDOM_CASES + MORE_CASES)
    parser.add_argument("--seed", type=int, default=1)
    options = parser.parse_args()
    passed = failed = 0
    with tempfile.TemporaryDirectory(prefix="igesolid-repair-") as folder:
        chosen = programs.chosen()
        repairs = Repairs(pathlib.Path(folder), chosen.igesolid, chosen.repair)
        for name, held in random_checks(repairs, range(options.count), options.seed):
            passed, failed = passed + bool(held), failed + (not held)
            if not held:
                print(name)
    print(f"{passed} passed, {failed} failed")
    return 1 if failed else 0


if __name__ == "__main__":
    sys.exit(main())
