"""bench/real on a few solids, on a given file, and with programs that are made to answer wrongly. Needs g++ and Open CASCADE."""
import re
import subprocess
import sys

from programs import TOP

MISSING = 2
AGREEING = "sphere", "void_sphere", "open_box", "named_three"
DIFFERING = {
    "void_through_a_wall": "closed",
    "two_lumps_in_one_shell": "fail REACH",
    "void_at_a_corner": "fail APART",
    "pinched_edge": "fail PAIR",
    "pinched_vertex": "fail LINK",
    "turned_face": "fail PAIR",
}
# What a wrong program does in place of the right one, on which solid, and what is to be found.
WRONG = (
    ("a wrong verdict", 'certify) echo "fail PAIR 1 1"; exit 1 ;;', "box", r"wrong verdict: box 1: fail PAIR 1 1; .*; made for closed; no cause is known\n"),
    ("a missing fault", "certify) echo; exit 0 ;;", "open_box", r"wrong verdict: open_box 1: closed; .*; made for PAIR; no cause is known\n"),
    ("another solid", 'compact) exec "$program" compact "$2" 121 ;;', "three_solids", r"three_solids\.3\.compact\.igs isn't .*: faces 3 in place of 6, "),
    ("another size", "extract) \"$program\" \"$@\" | sed 's/10\\./11./g'; exit ;;", "box", r"box\.1\.extract\.igs isn't .*: .*volume 1331 in place of 1000, "),
    ("no file", 'extract) echo "no extract 1 unlisted"; exit 7 ;;', "box", r"box 1: extract writes nothing: no extract 1 unlisted\n"),
    ("no IGES file", "compact) echo nothing; exit ;;", "box", r"box\.1\.compact\.igs isn't read back the same: 0 solids in place of 1\n"),
    ("no solid", "solids) exit ;;", "box", r"box: the solids are , for Open CASCADE 1\n"),
)


def real(*words, **more):
    """The status, the text and the message of a run of bench/real."""
    done = subprocess.run([sys.executable, TOP / "bench" / "real", *words], capture_output=True, text=True, **more)
    return done.returncode, done.stdout, done.stderr


def options(program, repair):
    return "--program", program, "--repair", repair


def wrong_program(folder, program, case):
    """A program that answers as this one, but for one command."""
    path = folder / "wrong"
    path.write_text(f"#!/bin/sh\nprogram='{program}'\ncase $1 in\n{case}\nesac\nexec \"$program\" \"$@\"\n")
    path.chmod(0o755)
    return path


def right(folder, programs):
    """What is printed of solids on which the verdicts agree and differ."""
    kept = folder / "real"
    status, text, _ = real(*options(*programs), "--keep", kept, "--rows", "--only", ",".join((*AGREEING, *DIFFERING)))
    solids = len(AGREEING) + 2 + len(DIFFERING)
    yield "real solids: no faults", status == 0 and text.endswith("\n0 faults\n")
    files = len(AGREEING) + len(DIFFERING)
    for name, count in ("extract", solids), ("compact", solids), ("relayout", files):
        yield f"real solids: {name}", f"\n{name}: {count} of {count} files are read back without a difference\n" in text
        yield f"real solids: {name} is kept", len(list(kept.glob(f"*.{name}.igs"))) == count
    reoriented = re.search(r"(?m)^reorient: (\d+) of \1 files are read back without a difference$", text)
    yield "real solids: reorient", reoriented is not None and 0 < int(reoriented[1]) <= solids
    yield "real solids: the table", len((kept / "table.csv").read_text().splitlines()) == solids + 1
    for name, answer in DIFFERING.items():
        yield f"real solids: {name}", re.search(rf"(?m)^{name} \d+: {answer}.*; Open CASCADE: ", text) is not None


def wrong(folder, program, repair):
    for name, case, solid, wanted in WRONG:
        status, text, _ = real(*options(wrong_program(folder, program, case), repair), "--only", solid)
        yield f"real solids: {name} is found", status == 1 and re.search(wanted, text) is not None


def given(programs):
    status, text, _ = real(*options(*programs), "--no-made", TOP / "examples" / "occt" / "77_pinched_edge.igs")
    yield "real solids: a given file", status == 0 and text.startswith("given1_77_pinched_edge 3: fail PAIR 19 15; ") and "\n1 files, 1 solids: " in text
    status, _, error = real(*options(*programs), "--only", "box,bax")
    yield "real solids: no such solid", (status, error) == (1, "bench/real: no such solid: bax\n")


def checks(context):
    """Names of checks, and whether each holds."""
    programs, folder = (context.programs.igesolid, context.programs.repair), context.new_folder()
    status, text, error = real(env={"PATH": ""})
    yield "real solids: no compiler", (status, text, error.count("\n")) == (MISSING, "", 1) and "g++ is missing" in error
    status, _, error = real(*options(*programs), "--no-made")
    if status == MISSING:
        context.skipped(f"real solids: {error.strip()}")
        return
    yield from right(folder, programs)
    yield from wrong(folder, *programs)
    yield from given(programs)
