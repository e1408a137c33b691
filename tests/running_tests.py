"""tests/run itself: that each check that fails is printed and counted, which programs it chooses; and the parts that .ci/run has."""
import contextlib
import io
import os
import re
import shutil
import sys

import clone
import running
from part import DEFAULT, Part
from programs import NONE_FITS, TOP

RUN = sys.executable, TOP / "tests" / "run"
LAST = re.compile(r"\n(\d+) passed, (\d+) failed\n\Z")


def broken(context):
    yield "before an error", True
    raise ValueError("an error")


def killed(context):
    yield "before the end", True
    os._exit(3)


# What a part yields: how many checks held and failed, and what is printed.
MADE = (
    ("one-fails", lambda context: iter([("the first", True), ("the second\n  wanted", False), ("the third", True)]), (2, 1), "the second\n  wanted\n"),
    ("an-error", broken, (1, 1), "ValueError: an error\n"),
    ("killed", killed, (0, 1), "killed: its process ended with status 3\n"),
    ("empty", lambda context: iter([]), (0, 1), "empty: nothing was checked\n"),
    ("left-out", lambda context: iter([] if context.skipped("a test: a command isn't installed") else []), (0, 0), "skipped: a test: a command isn't installed\n"),
)  # fmt: skip


def of_made_parts(context):
    for name, checks, counts, printed in MADE:
        with contextlib.redirect_stdout(io.StringIO()) as screen:
            [result] = running.run([Part(name, "", checks)], context.programs)
        yield f"tests/run: {name}: {result} {screen.getvalue()}", (result.passed, result.failed) == counts and printed in screen.getvalue()


def of_command(context):
    """The command on a terminal, and with a name that is none."""
    status, told = clone.on_terminal([*RUN, "protections"], cwd=context.folder)
    yield "tests/run: a line that changes", status == 0 and "\r\x1b[K0 of 1 parts" in told
    status, told = clone.on_terminal([*RUN, "none"], cwd=context.folder)
    yield "tests/run: no such part", status == 2 and "there is no part none" in told


def of_choice(context):
    """The programs built here, if they are newer than each source; else those of dist/, if they are of these sources."""
    copy = context.clone()

    def run():
        status, text, error = copy.run(sys.executable, "tests/run", "protections")
        return status, text.decode().split("\n")[0], error, LAST.search(text.decode())

    status, first, error, last = run()
    yield "tests/run: those of dist/", (status, first, error) == (0, "the programs are those of dist/", "") and last is not None and last[2] == "0"
    for crate, program in (("igesolid", copy.program), ("igesolid_where", copy.where), ("igesolid_repair", copy.repair)):
        copy.built(crate).parent.mkdir(parents=True)
        shutil.copy(program, copy.built(crate))
    yield "tests/run: those built here", run()[1] == "the programs are those built here"
    source = copy.top / "crates" / "igesolid" / "src" / "main.rt"
    os.utime(source)
    yield "tests/run: those of dist/, where a source is newer", run()[1] == "the programs are those of dist/"
    source.write_text(source.read_text() + "\n")
    status, first, error, _ = run()
    yield "tests/run: none of these sources", (status, first) == (1, "") and NONE_FITS in error and "dist/make" in error


def of_gate(parts):
    """.ci/run runs the default parts, and names each other part: it runs it, or says why not."""
    gate = (TOP / ".ci" / "run").read_text()
    yield ".ci/run: the default parts", "\ntests/run ||" in gate
    for part in parts:
        yield f".ci/run: {part.name}", part.kind == DEFAULT or re.search(rf"(?<![\w-]){part.name}(?![\w-])", gate) is not None


def checks(context, parts):
    yield from of_made_parts(context)
    yield from of_command(context)
    yield from of_choice(context)
    yield from of_gate(parts)
