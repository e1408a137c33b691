"""Files and certificates that are cut at each byte or changed in one place, for every command."""
import pathlib

from commands import OF_LINES, SMALL, TOP, Runs, Small
from second_checker import layout

CUBE = Small("cube", 1, 3, 8)
LINE = 81
BAD_FILE, NO = 3, 1


def of_cut_file(length, whole):
    """The status and text for the first so many bytes of a file of lines of 80 bytes, each with LF; None where they are one."""
    lines, rest = divmod(length, LINE)
    if rest == 0:
        return BAD_FILE, b"bad file line %d missing\n" % (lines + 1)
    if rest < LINE - 1:
        return BAD_FILE, b"bad file line %d length\n" % (lines + 1)
    return None if length == whole - 1 else (BAD_FILE, b"bad file line %d missing\n" % (lines + 2))


def of_cut_certificate(text):
    """The status and text for a part of an accepted certificate: its last line is missing, or has no LF."""
    lines = text.split(b"\n")
    return NO, b"line %d %s\n" % (len(lines), b"missing" if lines[-1] == b"" else b"misspelt")


def is_telling(length):
    """Whether a cut is near the end of a line, or one of those between that stand for the others."""
    return length % LINE in (0, 1, LINE - 2, LINE - 1) or length % 7 == 0


def is_other(length):
    return not is_telling(length)


def with_cuts(path, is_wanted=lambda length: True):
    """The lengths that a file has in turn, from its own less one down to 0, and is cut to; then it is whole again."""
    text = path.read_bytes()
    for length in filter(is_wanted, reversed(range(len(text)))):
        with open(path, "r+b") as file:
            file.truncate(length)
        yield text[:length], len(text)
    path.write_bytes(text)


def of_cut(command, text, whole, full):
    """The status and text that a command owes for a cut file; `full` are those for the whole one."""
    if command in OF_LINES:
        return layout.answer(command, text)
    return of_cut_file(len(text), whole) or full


def cut_files(is_wanted):
    """The table of the cube's file cut to these lengths, for `solids`, and of the point's, for each other command that reads one."""

    def table(runner, folder, forms):
        runs = Runs(runner, folder, forms)
        for command in runs.commands:
            small = CUBE if command.form == "solids FILE" else SMALL[1]
            for run in list(runs.of(small, command))[:1]:
                if run.file is None:
                    continue
                full = runner.run(run.words)
                for text, whole in with_cuts(run.file, is_wanted):
                    wanted = of_cut(run.words[0], text, whole, full[:2])
                    yield f"{run.name}, the file cut to {len(text)} bytes", runner.run(run.words) == (*wanted, b"")

    return table


def cut_certificates(runner, folder, forms):
    """A certificate of each kind cut at each byte, for each command that reads one; and one whose last LF is there twice."""
    runs = Runs(runner, folder, forms)
    for small in (SMALL[3], SMALL[4]):
        for command in runs.commands:
            for run in runs.of(small, command):
                if run.certificate is None:
                    continue
                text = run.certificate.read_bytes()
                yield f"{run.name}, whole", runner.run(run.words)[0] == 0
                for cut, _ in with_cuts(run.certificate):
                    yield f"{run.name}, cut to {len(cut)} bytes", runner.run(run.words) == (*of_cut_certificate(cut), b"")
                run.certificate.write_bytes(text + b"\n")
                last = text.count(b"\n") + 1
                yield f"{run.name}, and an empty line", runner.run(run.words) == (NO, b"line %d misspelt\n" % last, b"")
                run.certificate.write_bytes(text)


# A cube with one change; the rule that fails of its solid, and of its shell alone; what `extract` refuses.
CHANGES = (
    ("cube_whose_solid_names_itself_as_shell", "TYPE 1 1", None, None),
    ("cube_whose_shell_names_the_solid_as_face", "TYPE 3 1", "TYPE 3 1", None),
    ("cube_whose_edge_ends_in_an_edge_list", "TYPE 7 4", "TYPE 7 4", None),
    ("cube_with_a_negative_count_of_faces", "RECORD 3 0", "RECORD 3 0", "3 layout"),
    ("cube_with_a_huge_count_of_loops", "RECORD 9 0", "RECORD 9 0", "9 layout"),
    ("cube_with_a_huge_count_of_tuples", "RECORD 11 0", "RECORD 11 0", "11 layout"),
)


def failing(command, run, of_solid, of_shell, refused):
    """The status and text that a command owes for a changed cube; the text is None where it is no short one."""
    rule = of_shell if command.numbered == "shell" else of_solid
    word = run.words[0]
    if word in ("extract", "compact", "mend", "mended") and refused:
        return 7, b"no extract %s\n" % refused.encode()
    if word in ("solids", "extract", "sample", *OF_LINES) or rule is None:
        return (NO, b"line 2 unfit\n") if run.certificate else (0, None)
    part = b"solid 1\n" if run.kind == "version 3" or run.words[-1] == "all" else b""
    return NO, part + b"fail %s\n" % rule.encode()


def changes(runner, folder, forms):
    """The cube with one change, for every command; the certificates are those of the cylinder, which names solid 1 too."""
    runs = Runs(runner, folder, forms)
    for name, *answers in CHANGES:
        file = (TOP / "tests" / "inputs" / f"{name}.igs").read_bytes()
        for command in runs.commands:
            for run in runs.of(SMALL[3], command):
                if run.file is not None:
                    kept = pathlib.Path(run.file).read_bytes()
                    pathlib.Path(run.file).write_bytes(file)
                    status, text, error = runner.run(run.words)
                    pathlib.Path(run.file).write_bytes(kept)
                    wanted = failing(command, run, *answers)
                    yield f"{run.name}, {name}", (status, error) == (wanted[0], b"") and wanted[1] in (None, text)


TABLES, MORE_TABLES = [cut_files(is_telling), cut_certificates, changes], [cut_files(is_other)]
