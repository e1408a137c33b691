#!/usr/bin/env python3
"""crates.txt against docs/ARCHITECTURE.md, the sources and the limits.

Each crate has one row in docs/ARCHITECTURE.md, below the heading that it has in crates.txt, and depends on no crate that the row
says it must not know. crates.txt lists each crate below what it depends on, and nothing that the crate doesn't name. No chain of
crates is longer than `CHAIN` crates, and no crate has more than `LINES` lines or `FUNCTIONS` functions, contracts included; tests,
and the programs, which are `main` alone, aren't counted. None of the crates `CHECKS`, which say yes to certificates and to
orientations, depends on one of `MAKES`, which make them. A library for C stands on crates as a program does. Each module of the Python package has
its place there, behind those that it imports.
"""
import functools
import pathlib
import re
import sys

CRATE = re.compile(r"(?m)^(\w+)(?: staticlib)?: (.*)$")
ROW = re.compile(r"(?m)^\| `(\w+)` \| .*\|(.*)\|$")
# A heading of crates.txt and of the tree, with what is below it.
HEADED = re.compile(r"(?m)^# ([a-z]+: .*)\n((?:\w+(?: staticlib)?:.*\n)+)")
DRAWN = re.compile(r"(?m)^### ([a-z]+: .*)\n((?:(?!#).*\n)+)")
STATIC = re.compile(r"(?m)^(\w+) staticlib:")
NAMED = re.compile(r"\bRattle\.(\w+)|(?<![\w:.])(\w+)::")
FUNCTION = re.compile(r"(?m)^ *(?:pub(?:\(\w+\))? )?(?:const )?fn \w+")
CHAIN, LINES, FUNCTIONS = 8, 1500, 100
# What a crate lists and doesn't name: a change of its line proves it again, and all above, so it goes with the crate's next change.
UNNAMED = set()
# The longer chains: where's text and mend stand on remedies that were tried, which stand on the search; the laws of
# reoriented files stand on those of extracted ones, and nothing on them. See docs/DECISIONS.md.
LONGER = {"solid_hints": 9, "where_solids": 10, "where_overview": 11, "where_command": 12, "where_laws": 13, "solid_mend": 9, "mend_commands": 10, "mended_commands": 11, "repair_commands": 12, "reorient_laws": 9}
# A folder of the Python package, with the table of its modules.
MODULES = re.compile(r"(?s)`(python/\w+(?:/\w+)?)`,.*?\n\|---\|---\|\n((?:\|.*?\n)+)")
# What says yes to certificates and orientations, and what makes them or parts of them.
CHECKS = "cert_state", "topo_certificate", "cert_accept", "open_certificate", "orient_certificate"
MAKES = {"vertex_link", "shell_reach", "cert_maker", "open_shells", "face_orient"}


def below(crates, crate):
    """The crates on which a crate depends, directly or not."""
    found, left = set(), [crate]
    while left:
        others = set(crates.get(left.pop(), ())) - found
        found |= others
        left += others
    return found


def chain_length(crates, crate):
    """How many crates the longest chain has that ends in this one."""

    @functools.cache
    def length(name):
        return 1 + max((length(other) for other in crates[name] if other in crates), default=0)

    return length(crate)


def sources(top, crate):
    """The code of a crate, and its code, definitions and proofs."""
    code = "".join(path.read_text() for path in sorted((top / "crates" / crate / "src").rglob("*.rt")))
    rest = [path.read_text() for part in ("specs", "proofs") for path in sorted((top / "crates" / crate / part).rglob("*.antt"))]
    return code, "\n".join([code, *rest])


def rows_checks(crates, page):
    rows, unknown = ROW.findall(page), []
    yield "docs/ARCHITECTURE.md: a row for each crate", sorted(name for name, _ in rows) == sorted(crates)
    for name, others in rows:
        unknown = unknown if others.strip() == "the same" else re.findall(r"`(\w+)`", others)
        for other in unknown:
            yield f"docs/ARCHITECTURE.md: {name} doesn't know {other}", other in crates and other not in below(crates, name)


def tree_checks(listing, page):
    """The headings of crates.txt are those of the tree, and each crate is below the same one."""
    listed = [(heading, CRATE.findall(part)) for heading, part in HEADED.findall(listing)]
    drawn = dict(DRAWN.findall(page))
    for heading, crates in listed:
        yield f"docs/ARCHITECTURE.md: below {heading}", sorted(name for name, _ in crates) == sorted(name for name, _ in ROW.findall(drawn.get(heading, "")))


def needs_checks(top, crates):
    listed = list(crates)
    for at, (name, needs) in enumerate(crates.items()):
        named = {crate or call for crate, call in NAMED.findall(sources(top, name)[1])}
        for other in needs:
            yield f"crates.txt: {name} names {other}", other in named or (name, other) in UNNAMED
            yield f"crates.txt: {other} comes before {name}", other not in crates or other in listed[:at]


def checker_checks(crates):
    for name in CHECKS:
        for other in sorted(MAKES & below(crates, name)):
            yield f"crates.txt: {name}, which says yes, depends on {other}", False
        yield f"crates.txt: {name} is a crate", name in crates
    yield "crates.txt: the crates that make certificates and orientations", MAKES <= set(crates)


def limits_checks(top, crates, tests):
    for name in crates:
        if name in tests or (top / "crates" / name / "src" / "main.rt").exists():
            continue
        is_for_c = name in STATIC.findall((top / "crates.txt").read_text())
        code, _ = sources(top, name)
        length, most = chain_length(crates, name), LONGER.get(name, CHAIN)
        yield f"crates.txt: the chain to {name} has {length} crates; {most} at most", length <= most or is_for_c
        lines, functions = len(code.splitlines()), len(FUNCTION.findall(code))
        fits = lines <= LINES and functions <= FUNCTIONS
        yield f"crates/{name}: {lines} lines and {functions} functions; {LINES} and {FUNCTIONS} at most", fits


def module_checks(top, page):
    """Each module of the Python package has its place, behind those of its folder that it imports."""
    for folder, table in MODULES.findall(page.split("## The Python package")[1]):
        named = re.findall(r"`(\w+)`", " ".join(row.split(" | ")[0] for row in table.splitlines()))
        present = {path.stem: path.read_text() for path in (top / folder).glob("*.py") if path.stem != "__init__"}
        yield f"docs/ARCHITECTURE.md: the modules of {folder}", sorted(named) == sorted(present)
        for at, name in enumerate(named):
            for other in re.findall(r"(?m)^from \.(\w+) import", present.get(name, "")):
                yield f"docs/ARCHITECTURE.md: {folder}: {other} comes before {name}", other in named[:at]


def checks(top):
    text = (top / "crates.txt").read_text()
    crates = {name: needs.split() for name, needs in CRATE.findall(text)}
    tests = {name for name, _ in CRATE.findall(text.split("# tests: ")[-1])}
    page = (top / "docs" / "ARCHITECTURE.md").read_text()
    yield from rows_checks(crates, page)
    yield from tree_checks(text, page)
    yield from needs_checks(top, crates)
    yield from checker_checks(crates)
    yield from module_checks(top, page)
    yield from limits_checks(top, crates, tests)


def main():
    failed = [name for name, held in checks(pathlib.Path(__file__).resolve().parent.parent) if not held]
    for name in failed:
        print(name)
    return 1 if failed else 0


if __name__ == "__main__":
    sys.exit(main())
