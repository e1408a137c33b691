#!/usr/bin/env python3
"""docs/TRUSTED.md against the sources: its tables are those of trusted_page.py, and have exactly the files of definitions on which
the contracts of the calls of CALLS and the laws rest, by their `use` lines. Each law is named in docs/PROOFS.md. Of the files that
no public contract rests on, either each says in its first line that it is private, but for those of SHARED, or none does.

Run alone with --mend, it writes the tables anew: a file that is new there has its first line as what it says. With --private, it
prints the files that no public contract rests on.
"""
import pathlib
import re
import sys

from definitions import USE, contract, imports
from programs import FORMS
from theorem import sources_of
from trusted_page import OWED, Page

CALLS = {"run": "crates/iges_solid_cmd/src/command.rt", "run_where": "crates/where_command/src/command.rt", "run_repair": "crates/repair_commands/src/command.rt"}
# The traits of the sources and sinks of the calls: their clauses say what is left to read and what was written.
TRAITS, STREAMS = ("Source", "Sink"), "crates/iges_io/src/io.rt"
ROW = re.compile(r"(?m)^\| \[[\w/]+\]\(\.\./(\S+)\) \| (.*?) \| (.*) \|$")
PRIVATE = "-- Private: "
# Files that no public contract rests on yet, but that are written for crates above.
SHARED = {"crates/shell_components/specs/Trees.antt", "crates/solid_faults/specs/PartPairs.antt"}
# Files that say so, although a call that is public in its crate alone, or for the crate above, rests on them.
INNER = {"crates/iges_directory/specs/Paired.antt"}
HOLDER = re.compile(r"(?:impl|(?:pub )?(?:trait|struct|enum))\b")
FUNCTION = re.compile(r"( *)(pub |pub\(crate\) )?(?:const |extern \"C\" )?fn (\w+)")


def reached(sources, paths):
    """These files of definitions, and those that their `use` lines lead to."""
    found, left = set(), list(paths)
    while left:
        path = left.pop()
        if path not in found:
            found.add(path)
            left += imports(sources, sources[path]).values()
    return found


def cited(sources, path, text):
    """The files of definitions whose words stand in this text of a source."""
    words = set(re.findall(r"[^\W\d][\w']*", re.sub(r"//.*", "", text)))
    return {file for name, file in imports(sources, sources[path]).items() if name in words}


def laws(sources):
    return [(path, name) for path, source in sources.items() if path.endswith("/src/law.rt") for name in re.findall(r"(?m)^pub fn (\w+)\(", source)]


def traits(sources):
    return "\n".join(contract(sources[STREAMS], f"pub trait {name}") for name in TRAITS)


def rests(sources):
    """The files of definitions on which each call rests, and the laws."""
    streams = cited(sources, STREAMS, traits(sources))
    roots = {f"`{name}`": streams | cited(sources, path, contract(sources[path], f"pub fn {name}<")) for name, path in CALLS.items()}
    roots["laws"] = set().union(*(cited(sources, path, contract(sources[path], f"pub fn {name}(")) for path, name in laws(sources)))
    return {root: reached(sources, paths) for root, paths in roots.items()}


def definitions(sources):
    return {path for path in sources if "/specs/" in path and not path.endswith("/Lib.antt")}


def wanted(sources):
    """Each file that the page must have."""
    return set().union(*rests(sources).values())


def tables(sources, page):
    """The tables that the page must have, by their headings."""
    contracts = {CALLS["run"]: contract(sources[CALLS["run"]], "pub fn run<"), STREAMS: traits(sources)}
    return Page(sources, rests(sources), contracts).tables({path: text for path, text, _ in ROW.findall(page)})


def summary(sources):
    run, where, repair, of_laws = (len(paths) for paths in rests(sources).values())
    return f"`run` rests on {run} of the {len(definitions(sources))} files of definitions, `run_where` on {where}, `run_repair` on {repair}, the laws on {of_laws}; all together on {len(wanted(sources))}."


def differing(sources, page):
    """The files that the page lacks, has too many, or has for other calls or commands."""
    has, needs = ({path: (text, root) for path, text, root in ROW.findall(it)} for it in (page, "".join(tables(sources, page).values())))
    return sorted(path for path in has.keys() | needs.keys() if has.get(path) != needs.get(path))


def made_up(sources):
    """The sources with one more `use` in a definition, and with one more clause of a call; each is to be noticed."""
    other = min(definitions(sources) - wanted(sources))
    use = "use Rattle.{0}.specs.{1}.{{MadeUp}}".format(*re.findall(r"crates/(\w+)/specs/(\w+)", other)[0])
    definition, call = "crates/command_replies/specs/Ending.antt", CALLS["run"]
    yield "use", sources | {definition: f"{use}\n{sources[definition]}"}
    clause = sources[call].replace("    ensures outcome {", "    ensures made_up { MadeUp }\n    ensures outcome {")
    yield "clause", sources | {call: f"ghost {use};\n{clause}"}


def exported(sources, crate):
    """The names that a crate exports by the `pub use` lines of its lib.rt."""
    return {name for names in re.findall(r"pub use ([^;]*);", sources.get(f"crates/{crate}/src/lib.rt", "")) for name in re.findall(r"\w+", names)}


def public_lines(source, names):
    """The lines of the contracts of a source's public functions, types and traits, of which these names are exported."""
    public = is_held = is_whole = False
    for line in source.splitlines():
        function = FUNCTION.match(line)
        if HOLDER.match(line):
            public = is_held = not names.isdisjoint(re.findall(r"\w+", line))
            is_whole = " for " in line or "trait" in line
        elif function and function[1]:
            public = is_held and (is_whole or function[2] == "pub ")
        elif function:
            public = function[2] == "pub " and function[3] in names
        elif re.match(r"    ghost (?!use)", line):
            public = is_held
        elif re.fullmatch(r"\}.*", line):
            public = is_held = False
        elif re.fullmatch(r" *\{\}?|    \}| *\).* \{", line):
            public = False
        if public:
            yield line


def private(sources):
    """The files of definitions on which no public contract rests."""
    roots = set()
    for path, source in sources.items():
        if path.endswith(".rt"):
            names = exported(sources, path.split("/")[1]) | set(re.findall(r"(?m)^pub (?:extern \"C\" )?fn (\w+)", source) if path.endswith("/lib.rt") else ())
            lines = [line for line in public_lines(source, names) if not USE.match(line)]
            roots |= cited(sources, path, "\n".join(lines))
    return definitions(sources) - reached(sources, roots)


def checks(top):
    sources, page = sources_of(top), (top / "docs" / "TRUSTED.md").read_text()
    others = differing(sources, page)
    for path in sorted(wanted(sources) | set(others)):
        yield f"docs/TRUSTED.md: {path}", path not in others
    yield "docs/TRUSTED.md: the numbers, the other tables and their order", mended(sources, page) == page
    yield "docs/TRUSTED.md: the commands", sorted(OWED) == sorted(FORMS)
    for name, changed in made_up(sources):
        yield f"docs/TRUSTED.md: one more {name} is noticed", differing(changed, page) != []
    proofs = (top / "docs" / "PROOFS.md").read_text()
    for path, name in laws(sources):
        yield f"docs/PROOFS.md: {path}: {name}", f"`{name}`" in proofs
    marked = {path for path in definitions(sources) if sources[path].startswith(PRIVATE)}
    yield "files of definitions that say that they are private", marked - INNER in (set(), private(sources) - SHARED)


def mended(sources, page):
    """The page with its sentence of numbers and its tables as the sources have them, each below its heading."""
    page = re.sub(r"(?m)^`run` rests on .*$", lambda _: summary(sources), page)
    for heading, table in tables(sources, page).items():
        place = re.compile(rf"(?m)^(### {re.escape(heading)}\n(?:(?!#|\|).*\n)*)(?:\|.*\n)*")
        page = place.sub(lambda match, table=table: match[1] + table, page)
    return page


def main():
    top = pathlib.Path(__file__).resolve().parent.parent
    if sys.argv[1:] == ["--private"]:
        print(*sorted(private(sources_of(top))), sep="\n")
        return 0
    if sys.argv[1:] == ["--mend"]:
        page = top / "docs" / "TRUSTED.md"
        page.write_text(mended(sources_of(top), page.read_text()))
    failed = [name for name, held in checks(top) if not held]
    for name in failed:
        print(name)
    return 1 if failed else 0


if __name__ == "__main__":
    sys.exit(main())
