"""Closed solids of the examples, broken in the ways of bench/broken: what `where` tells and what `mend` and `mended` write, beside the second checker,
and by the judges of bench/remedies, which share no code with either. And these judges themselves, on texts and files that are made wrong.

  python3 tests/remedy_tests.py [--count N] [--seed S]    N files, of a seed
"""
import argparse
import itertools
import pathlib
import sys

import programs
from second_checker import answer, where

TOP = pathlib.Path(__file__).resolve().parent.parent
sys.path.insert(0, str(TOP / "bench"))

from broken.bases import bases_of  # noqa: E402
from broken.faults import KINDS, WAYS, plans  # noqa: E402
from broken.iges import File  # noqa: E402
from broken.judge import Kept, false_facts  # noqa: E402
from broken.measure import Built, judged  # noqa: E402
from broken.texts import remedies_of  # noqa: E402

EXAMPLES = "cube", "cube_void", "cylinder", "sample_3", "occt/14_box_void_sphere", "occt/16_three_solids", "occt/25_xcaf_colours_names"
FILES, SEED = 200, 1


def examples():
    return [TOP / "examples" / f"{name}.igs" for name in EXAMPLES]


def made(run, seed):
    """The cases of the examples, way by way, so that some of them have each way."""
    bases = bases_of(examples(), run)
    by_base = [plans(bases, base, seed) for base in bases]
    for row in itertools.zip_longest(*by_base):
        yield from (case for case in (plan[1]() for plan in row if plan is not None) if case is not None)


def runs_of(chosen):
    return Built(chosen.igesolid, chosen.where, chosen.repair)


def base_run(chosen):
    runs = runs_of(chosen)
    return lambda command, path, *words: runs.run(pathlib.Path(path).read_bytes(), command, *words)


def case_checks(runs, case):
    """The programs beside the second checker, and the judges."""
    found = judged(case, runs)
    if found is None:
        return
    told = runs.run(case.data, "where", case.solid, "all")
    yield f"{case.name}: where", told == where.answer([str(case.solid), "all"], case.data)
    for command, *words in (["mend"], ["mended"], ["mend", "2"], ["mended", "2"]):
        got = runs.run(case.data, command, case.solid, *words)
        yield f"{case.name}: {command} {' '.join(words)}", got == answer([command, "FILE", str(case.solid), *words], case.data)
    yield f"{case.name}: " + "; ".join(found.faults), not found.faults


def judge_checks():
    """What the judges find in a text and in a file that are made wrong."""
    data = (TOP / "examples" / "cube.igs").read_bytes()
    file = File(data)
    [(shell, _)] = file.get(1)
    face, other = (number for number, _ in file.get(shell)[:2])
    loop = file.get(face)[2][0]
    _, entry, index, flag, _ = file.get(loop)[0]
    right = f"hint remedy 1 shell 1\nstep turn faces 1\nturn {face} plane\n"
    wrong = {
        "a count": f"step turn faces 2\nturn {face} plane\n",
        "a face that isn't there": "step remove faces 1\nremove 999 plane\n",
        "a loop of another face": f"step reverse loops 1\nreverse loop {loop} face {other} plane\n",
        "a seam of one edge": f"step sew seams 1\nseam sure edge {entry} {index} edge {entry} {index}\n",
        "a seam that isn't sure": f"step sew seams 1\nseam sure edge {entry} 1 edge {entry} 2\n",
        "rows that stay alone": f"step turn faces 1\nturn {face} plane\n",
        "a body that lacks faces": f"step part bodies 1\nbody 1 faces 2 first {face} plane\n",
    }
    turned = file.copy()
    turned.get(shell)[0][1] = 0
    yield "judge: what is true", not false_facts(turned, 1, remedies_of(right))
    for name, steps in wrong.items():
        yield f"judge: {name}", bool(false_facts(file, 1, remedies_of(f"hint remedy 1 shell 1\n{steps}")))
    yield "judge: a file that is kept", not Kept(file, file.copy(), 1).found(False)
    for name, change in {
        "a face that is another's": lambda it: it.get(shell)[0].__setitem__(0, other),
        "coordinates": lambda it: next(entry for entry in it.entries if entry.kind == 502).record[0].__setitem__(0, "7."),
        "an edge of a loop": lambda it: it.get(loop)[0].__setitem__(2, index % 12 + 1),
        "a value of a surface": lambda it: it.at(file.get(face)[0]).words.__setitem__(0, "9"),
        "a field": lambda it: it.at(face).fields.__setitem__("level", "       9"),
    }.items():
        mended = file.copy()
        change(mended)
        yield f"judge: {name}", bool(Kept(file, mended, 1).found(False))
    yield "judge: all ways are planned", len(WAYS) == 35
    yield "judge: each way is of a kind", sorted(way for ways in KINDS.values() for way in ways) == sorted(WAYS)


def checks(chosen, count=FILES, seed=SEED):
    where.sentences(TOP / "docs")
    yield from judge_checks()
    runs = runs_of(chosen)
    for case in itertools.islice(made(base_run(chosen), seed), count):
        yield from case_checks(runs, case)


def main():
    parser = argparse.ArgumentParser(description="Runs files of a seed alone.")
    parser.add_argument("--count", type=int, default=FILES)
    parser.add_argument("--seed", type=int, default=SEED)
    options = parser.parse_args()
    passed = failed = 0
    for name, held in checks(programs.chosen(), options.count, options.seed):
        passed, failed = passed + bool(held), failed + (not held)
        if not held:
            print(name)
    print(f"{passed} passed, {failed} failed")
    return 1 if failed else 0


if __name__ == "__main__":
    sys.exit(main())
