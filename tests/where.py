"""`igesolid-where`: the second checker's text, the shapes of its lines (docs/WHERE.md), and `certify`'s verdict as its first line.

Over the examples, the inputs of the tests, the harmed files of `layout`, files that are made at random (tests/surfaces.py, some of solids that
share shells, and tests/lattices.py), files that are changed at random, and solids that are made at random and mostly broken.

  python3 tests/where.py [--count N] [--seed S] [--jobs N]             N files
  python3 tests/where.py --solids [--count N] [--seed S] [--jobs N]    N solids

These print each check that fails, how many texts have each hint, and 'N passed, M failed' last. Case I of seed S is always the same.
"""
import argparse
import collections
import concurrent.futures
import itertools
import pathlib
import random
import re
import sys
import tempfile

import programs
from changes import changed_file
from lattices import lattice_text
from repair import harmed
from second_checker import answer, bad_lines, where
from second_checker.answering import file_of
from spawned import Runner
from surfaces import surface_text

TOP = pathlib.Path(__file__).resolve().parent.parent
DOCS = TOP / "docs"
LARGEST, RANDOM_CASES, MORE_CASES, SOLIDS, MORE_SOLIDS = 60_000, 200, 200, 100, 900
USAGE = b"usage: igesolid-where FILE [N [all]]\n"

FIRST_WORDS = "closed", "fail", "bad", "solids"
HINT = re.compile(rb"(?m)^(hint [a-z-]+|step [a-z]+)")
# What a text has of shells that fail.
ON_SHELLS = b"hint face-flags", b"hint remedy", *(b"step " + name for name in b"remove turn reverse flags sew copy renew part fill".split())


def has_shape(text, sentences):
    """Whether each line of a text has one of the shapes of the package's table, in its place; the package is imported in this part's process alone."""
    sys.path.insert(0, str(TOP / "python"))
    from igesolid.where import paragraphs
    from igesolid.where_lines import AT_TIMES, SENTENCES, UNSAID, NotUnderstood

    try:
        found = list(paragraphs(text.decode("latin-1").split("\n")))
    except NotUnderstood:
        return False
    finally:
        del sys.path[0]
    said = [it.sentence for it in found if it.word in SENTENCES and it.shape.words != UNSAID and (it.sentence or it.shape.words != AT_TIMES)]
    is_whole = text.endswith(b"\n") and found[0].word in FIRST_WORDS and not any(it.word in FIRST_WORDS for it in found[1:])
    return is_whole and sentences.issuperset(said)


def numbers_of(data):
    """The solids of a file, and a few other numbers."""
    status, text = answer(["solids", "FILE"], data)
    if status != 0:
        return [1]
    others = [number for number, entry in file_of(data).entries.items() if entry.kind != 186][:1]
    return [*map(int, text.split()[:3]), *others, 4, 9_999_999]


class Wheres:
    """Runs of the program beside the second checker."""

    def __init__(self, folder, program, certifier):
        self.file = folder / "where.igs"
        self.runner, self.certifier = Runner(program), Runner(certifier)
        self.hints = collections.Counter()
        where.sentences(DOCS)
        self.sentences = {sentence for sentence in where.DOC.values() if isinstance(sentence, str)}

    def checks(self, name, data):
        self.file.write_bytes(data)
        yield f"{name}: where FILE", self.is_owed([], data)
        for number in numbers_of(data):
            for words in ([str(number)], [str(number), "all"]):
                yield f"{name}: where FILE {' '.join(words)}", self.is_owed(words, data)
            yield f"{name}: the first line of where FILE {number}", self.is_verdict(number)

    def solid_checks(self, name, data):
        """Of a file of one solid, entry 1."""
        self.file.write_bytes(data)
        for words in (["1"], ["1", "all"]):
            yield f"{name}: where FILE {' '.join(words)}", self.is_owed(words, data)

    def is_owed(self, words, data):
        status, text, error = self.runner.run([str(self.file), *words])
        owed = where.answer(words, data)
        self.hints.update(set(HINT.findall(owed[1])))
        return (status, text) == owed and not error and has_shape(text, self.sentences)

    def is_verdict(self, number):
        status, text, _ = self.runner.run([str(self.file), str(number)])
        wanted, verdict, _ = self.certifier.run(["certify", str(self.file), str(number)])
        first = text.split(b"\n")[0] + b"\n"
        return status == wanted and (first == verdict or status == 0 and first == b"closed %d\n" % number)


def files():
    """The files that are there, by name."""
    for path in sorted([*(TOP / "examples").rglob("*.igs"), *(TOP / "tests" / "inputs").glob("*.igs")]):
        if path.stat().st_size < LARGEST:
            yield path.name, path.read_bytes()


def bad_files():
    """The harmed files of `layout`, and files of other kinds."""
    for it in harmed():
        yield it.name, it.data
    for kind, starts in {**bad_lines.BEGINNINGS, **{kind: [b" \r\n" + start] for kind, start in bad_lines.WORDS.items()}}.items():
        for start in starts:
            yield f"a file of {kind}", start + b" and so on\n"


def random_files(cases, seed):
    kept = [data for _, data in files() if data]
    for case in cases:
        rng = random.Random(f"where {seed} {case}")
        made = surface_text, surface_text, lattice_text, lambda rng: surface_text(rng, 6), lambda rng: rng.choice(kept)
        data = rng.choice(made)(rng)
        yield f"case {case} of seed {seed}", data if rng.random() < 0.4 else changed_file(rng, data)


def solids(cases, seed):
    """Files of one solid, which is broken in most of them."""
    for case in cases:
        rng = random.Random(f"solid {seed} {case}")
        made = rng.choice([lattice_text, lattice_text, lattice_text, surface_text])
        yield f"solid {case} of seed {seed}", made(rng)


def words_checks(runner, file):
    """Words of no form give the usage line; a file that isn't there can't be read."""
    for words in ([], ["a", "0"], ["a", "1", "each"], ["a", "1", "all", "x"], ["a", "x"], ["a", "12345678"]):
        yield f"where {' '.join(words)}: usage", runner.run(words) == (2, USAGE, b"")
    yield "where of no file", runner.run([f"{file}.none", "1"]) == (4, b"", b"")


def random_checks(wheres, cases, seed=1):
    for name, data in random_files(cases, seed):
        yield from wheres.checks(name, data)


def solids_checks(wheres, cases, seed=1):
    for name, data in solids(cases, seed):
        yield from wheres.solid_checks(name, data)


def checks(folder, certifier, program):
    wheres = Wheres(folder, program, certifier)
    for name, data in itertools.chain(files(), bad_files()):
        yield from wheres.checks(name, data)
    yield from random_checks(wheres, range(RANDOM_CASES))
    yield from solids_checks(wheres, range(SOLIDS))
    yield from words_checks(wheres.runner, wheres.file)


def more_checks(folder, certifier, program):
    """Further cases; each step of remedies is due in some of the solids."""
    wheres = Wheres(folder, program, certifier)
    yield from random_checks(wheres, range(RANDOM_CASES, RANDOM_CASES + MORE_CASES))
    yield from solids_checks(wheres, range(SOLIDS, SOLIDS + MORE_SOLIDS))
    for words in ON_SHELLS:
        yield f"solids of which {words.decode()} is due", wheres.hints[words] > 0


def run_cases(run, cases, seed):
    """What these cases give: the names of the checks that fail, how many pass, and how often each hint is due."""
    failed, passed, chosen = [], 0, programs.chosen()
    with tempfile.TemporaryDirectory(prefix="igesolid-where-") as folder:
        wheres = Wheres(pathlib.Path(folder), chosen.where, chosen.igesolid)
        for name, held in run(wheres, cases, seed):
            passed += bool(held)
            failed += [] if held else [name]
    return failed, passed, wheres.hints


def main():
    parser = argparse.ArgumentParser(description="Runs random cases alone: case I of seed S is always the same.")
    parser.add_argument("--count", type=int, default=RANDOM_CASES + MORE_CASES)
    parser.add_argument("--seed", type=int, default=1)
    parser.add_argument("--jobs", type=int, default=1)
    parser.add_argument("--solids", action="store_true", help="solids alone, most of them broken")
    options = parser.parse_args()
    run = solids_checks if options.solids else random_checks
    failed = passed = 0
    hints = collections.Counter()
    with concurrent.futures.ProcessPoolExecutor(options.jobs) as pool:
        shares = [pool.submit(run_cases, run, range(options.count)[job :: options.jobs], options.seed) for job in range(options.jobs)]
        for share in concurrent.futures.as_completed(shares):
            names, held, due = share.result()
            failed, passed, hints = failed + len(names), passed + held, hints + due
            for name in names:
                print(name)
    print(", ".join(f"{hint.decode()} {count}" for hint, count in hints.most_common()))
    print(f"{passed} passed, {failed} failed")
    return 1 if failed else 0


if __name__ == "__main__":
    sys.exit(main())
