"""README and the pages: their sizes, the forms, the rules, each command that stands there with what it prints, the script, and the
links; docs/INDEX.md; and the changed certificates of the pages of CHANGED with their answers.
"""
import hashlib
import os
import re
import subprocess

from no_examples import printed_words
from spawned import SECONDS
from theorem import defines

PAGES = "README.md", "examples/README.md", "examples/no/README.md"
COMMANDS = "README.md", "docs/COMMANDS.md"
RULE = re.compile(r'(?m)^rule_name .*= codes "(.*)"$')
# The tables of the index: a row has the rule, definitions, functions and examples.
INDEX = re.compile(r"(?m)^\| Rule \| Definition \| Function \| .*\n\|[-|]+\n((?:\|.*\n?)+)")
DEFINITION = re.compile(r"\[`(\w+)`\]\(\.\./(crates/\w+/specs/\w+\.antt)\)")
FUNCTION = re.compile(r"`(\w+)(?:::\w+)?::(\w+)`")
EXAMPLE = re.compile(r"\[([\w.]+)\]\(\.\./((?:examples|tests/inputs)/(?:\w+/)*([\w.]+))\)")
# A certificate of the page with its table of changes, and the changes that are spelled out.
CERTIFICATE = re.compile(r"(?s)```\n((?:IGESCERT|IGESOPEN|ORIENT) [^`]*)```\n(?:(?!```).)*?\n\| Change \| Answer \|\n\|[-|]+\n((?:\|.*?\n)+)")
CHANGE = re.compile(r"`([^`]+)` as line (\d+)|no line (\d+)|no `END`")
VERIFIERS = {"IGESCERT": "verify", "IGESOPEN": "open-verify", "ORIENT": "orient-verify"}
# The pages with such tables, and how many changes of each are spelled out at least.
CHANGED = {"docs/CERTIFICATE.md": 8, "docs/OPEN.md": 7, "docs/ORIENT.md": 7}
# A numbered section of another page.
SECTION = re.compile(r"\]\((\w+\.md)\), sections? (\d+(?: and \d+)?)")
# An edition of where's text, with the checksum of the recorded texts.
EDITION = re.compile(r"(?m)^\| (\d+) \| .* \| `([0-9a-f]{16})` \|$")
MOST_EDITS = 70
# The most bytes of README, and of it with all pages of docs but the lists.
README_LIMIT, PAGES_LIMIT, LISTS = 11_500, 215_000, {"TRUSTED.md", "INDEX.md"}
# A sentence of `where` in a definition, alone or after the line of its hint.
SAID = re.compile(r'codes "(?:hint [^"\\]*\\n)?((?:  [^" \\][^"\\]*\\n)+)"')
# A type and its word in a definition.
TYPE = re.compile(r'\(pos (\d+), codes "([a-z-]+)"\)')
# What stands for the launcher: it runs the program, or the one of a command, or the command that asks two. `-` is standard input.
LAUNCHED = """#!/bin/sh
[ "$1" != check ] || {{ shift; exec python3 -B '{top}/companion/check' --program '{program}' --where-program '{where}' "$@"; }}
[ "$1" != where ] || {{ shift; exec '{where}' "$@"; }}
case $1 in relayout | layout | reorient | mend | mended) exec '{repair}' "$@" ;; esac
for word; do
    shift
    [ "$word" != - ] || word=/dev/stdin
    set -- "$@" "$word"
done
exec '{program}' "$@"
"""


def run(words, folder, **more):
    return subprocess.run(words, cwd=folder, capture_output=True, timeout=SECONDS, **more)


def sizes(top):
    """README and the pages are short enough to be read."""
    readme = (top / "README.md").stat().st_size
    pages = readme + sum(path.stat().st_size for path in (top / "docs").glob("*.md") if path.name not in LISTS)
    yield f"README.md: {readme} bytes, at most {README_LIMIT}", readme <= README_LIMIT
    yield f"README.md and docs: {pages} bytes, at most {PAGES_LIMIT}", pages <= PAGES_LIMIT


def tables(top, forms):
    """Each form stands in README's list and among the commands of docs/COMMANDS.md, and each rule of a closed solid in README's table."""
    readme, commands = ((top / name).read_text() for name in COMMANDS)
    for form in forms:
        yield f"README, docs/COMMANDS.md: {form}", f"\nigesolid {form}  " in readme and f"\n- `igesolid {form}` " in commands
    for rule in RULE.findall((top / "crates" / "solid_data" / "specs" / "RuleNames.antt").read_text()):
        yield f"README: {rule}", f"\n| `{rule}` |" in readme


def examples(folder, top):
    """What each command of the pages prints, in the order of a page."""
    for name in COMMANDS:
        for block in re.findall(r"(?s)```\n(\$ .*?)```", (top / name).read_text()):
            for command, text in re.findall(r"\$ (.*)\n((?:[^$].*\n)*)", block):
                done = run(command, folder, shell=True)
                yield f"{name}: {command}", (done.stdout.decode(), done.stderr) == (text, b"")


def script_by_status(folder, top):
    """The script of README, of a file that is closed, of two that aren't, of one that is no file, and of none."""
    script = re.search(r"(?s)```sh\n(igesolid .*?)```", (top / "README.md").read_text())[1]
    part, certificate = folder / "part.igs", folder / "part.cert"
    for example, text in (
        ("two_solids.igs", ""),
        ("two_tetrahedra.igs", "not closed: solid 1\nfail REACH 29 0\n"),
        ("no/no_solid.igs", "not closed: no solid\n"),
        ("no/bad_length.igs", "not IGES of this form: bad file line 2 length\n"),
        ("none.igs", "not judged\n"),
    ):
        part.unlink(missing_ok=True)
        certificate.unlink(missing_ok=True)
        part.symlink_to(top / "examples" / example)
        done = run(["sh", "-c", script], folder, env={**os.environ, "PATH": f"{folder}:{os.environ['PATH']}"})
        yield f"README: the script, {example}", (done.stdout.decode(), done.stderr) == (text, b"") and certificate.exists() == (text == "")


def measured(top, program):
    """Of the files of Open CASCADE those that README names aren't closed, and the others are."""
    failing = {path.stem for path in (top / "examples" / "occt").glob("*.igs") if run([program, "certify", path, "all"], top).returncode != 0}
    yield "README: examples/occt", failing == {"76_pinched_vertex", "77_pinched_edge"}


def is_indexed(cell, pattern, holds):
    """Whether a cell of an index is a list of what the pattern reads, each of which holds, or none."""
    found = list(pattern.finditer(cell))
    return ", ".join(match[0] for match in found) == cell and all(holds(match) for match in found) if found else cell == "none"


def indexes(top):
    """Each definition is in the file named, each function in its crate's sources; each edit and each example is there."""
    code = {crate.name: "\n".join(path.read_text() for path in crate.glob("src/**/*.rt")) for crate in top.glob("crates/*")}
    tests = (
        (DEFINITION, lambda m: (top / m[2]).exists() and defines((top / m[2]).read_text(), m[1])),
        (FUNCTION, lambda m: re.search(rf"\bfn {m[2]}\b", code.get(m[1], "")) is not None),
        (EXAMPLE, lambda m: m[1] == m[3] and (top / m[2]).exists()),
    )
    ruled = set()
    rows = [line[2:-2].split(" | ") for table in INDEX.findall((top / "docs" / "INDEX.md").read_text()) for line in table.splitlines()]
    for rule, *cells in rows:
        ruled.update(re.findall(r"`([a-z-]+)`|\b([A-Z]{3,})\b", rule))
        for cell, (pattern, holds) in zip(cells, tests, strict=True):
            yield f"docs/INDEX.md: {rule}: {cell}", is_indexed(cell, pattern, holds)
    rules = {word for words in ruled for word in words}
    for word in sorted(printed_words(top) - {"missing", "misspelt", "unfit"}):
        yield f"docs/INDEX.md: {word}", word in rules


def edits(top):
    """Each edit of a wrong body that must stay refused is there, and there are no more than the page says."""
    for line in (top / "docs" / "kept_edits.tsv").read_text().splitlines()[1:]:
        crate, name, _ = line.split("\t")
        path = top / "crates" / crate / "must-fail" / f"{name.replace(' ', '_')}.edit"
        yield f"docs/kept_edits.tsv: {crate}: {name}", path.exists()
    yield "docs/DECISIONS.md: how many edits", len(list(top.glob("crates/*/must-fail/*.edit"))) <= MOST_EDITS


def editions(top):
    """The last edition of where's text in docs/CHANGES.md is that of the recorded texts and of docs/WHERE.md."""
    edition, checksum = EDITION.findall((top / "docs" / "CHANGES.md").read_text())[-1]
    texts = b"".join(path.read_bytes() for path in sorted((top / "tests" / "recorded").glob("*.txt")))
    yield "docs/CHANGES.md: an edition for the texts of tests/recorded", hashlib.sha256(texts).hexdigest().startswith(checksum)
    yield "docs/WHERE.md: the edition", f"edition {edition} of" in (top / "docs" / "WHERE.md").read_text()


def sentences(top):
    """The sentences and the words for types in the tables beside docs/WHERE.md are those in the definitions of `where`."""
    table, types = ([tuple(line.split("\t")) for line in (top / "docs" / f"where_{name}.tsv").read_text().splitlines()] for name in ("sentences", "types"))
    texts = [path.read_text() for name in ("where_*", "solid_hints", "remedy_text") for path in top.glob(f"crates/{name}/specs/*.antt")]
    said = {" ".join(it.replace("\\n", " ").split()) for text in texts for it in SAID.findall(text)}
    for name, sentence in table:
        yield f"docs/where_sentences.tsv: {name}", sentence in said
    for sentence in sorted(said - {sentence for _, sentence in table}):
        yield f"docs/where_sentences.tsv lacks a sentence: {sentence}", False
    yield "docs/where_types.tsv", types == TYPE.findall((top / "crates" / "where_text" / "specs" / "Types.antt").read_text())


def changed_lines(lines, change):
    """The lines with a change that is spelled out, as far as its reason; None of another change."""
    spelled = re.split(r": |, an ", change)[0]
    if CHANGE.sub("", spelled) not in ("", ", and "):
        return None
    lines = dict(enumerate(lines, 1))
    for text, place, gone in CHANGE.findall(spelled):
        if text:
            lines[int(place)] = text
        else:
            del lines[int(gone or len(lines))]
    return list(lines.values())


def changes(page):
    """Each change of a certificate of the page that is spelled out: the example, the first word, the changed lines, and the answer."""
    for match in CERTIFICATE.finditer(page):
        lines, example = match[1].splitlines(), re.findall(r"`(examples/[\w/]+\.igs)`", page[: match.start()])[-1]
        for change, answer in re.findall(r"(?m)^\| (.*?) \| (.*?) \|$", match[2]):
            changed = changed_lines(lines, change)
            if changed is not None:
                yield f"{example}: {change}", example, lines[0].split()[0], changed, re.findall(r"`(.*?)`", answer)


def changed_certificates(folder, top, program):
    """What is answered of each certificate of the pages with a change that is spelled out."""
    certificate = folder / "changed.cert"
    for name, fewest in CHANGED.items():
        found = list(changes((top / name).read_text()))
        yield f"{name}: changes", len(found) >= fewest
        for title, example, head, lines, answer in found:
            certificate.write_text("".join(f"{line}\n" for line in lines))
            done = run([program, VERIFIERS[head], top / example, certificate], folder)
            yield f"{name}: {title}", done.stdout.decode().splitlines() == answer


def anchors(path):
    """What a link to a heading of this page has after its `#`."""
    headings = re.findall(r"(?m)^#+ (.*)$", re.sub(r"(?s)```.*?```", "", path.read_text()))
    return {re.sub(r"[^\w -]", "", heading.lower()).replace(" ", "-") for heading in headings}


def leads(page, target, anchor):
    """Whether a link of this page leads to a file, and to a heading of it."""
    path = page.parent / target if target else page
    return path.exists() and (not anchor or anchor in anchors(path))


def links(top):
    for name in (*PAGES, *(str(path.relative_to(top)) for path in sorted((top / "docs").glob("*.md")))):
        for target, anchor in sorted(set(re.findall(r"\]\(([^)#:]*)#?([^):]*)\)", (top / name).read_text()))):
            yield f"{name}: a link to {target}#{anchor}", leads(top / name, target, anchor)
        for target, numbers in SECTION.findall((top / name).read_text()):
            for number in re.findall(r"\d+", numbers):
                headings = ((top / name).parent / target).read_text()
                yield f"{name}: section {number} of {target}", re.search(rf"(?m)^## {number}\. ", headings) is not None


def checks(folder, top, program, where, repair, forms):
    (folder / "examples").symlink_to(top / "examples")
    (folder / "igesolid").write_text(LAUNCHED.format(top=top, program=program, where=where, repair=repair))
    (folder / "igesolid").chmod(0o755)
    yield from sizes(top)
    yield from tables(top, forms)
    yield from examples(folder, top)
    yield from script_by_status(folder, top)
    yield from measured(top, program)
    yield from links(top)
    yield from indexes(top)
    yield from edits(top)
    yield from editions(top)
    yield from sentences(top)
    yield from changed_certificates(folder, top, program)
