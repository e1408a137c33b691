#!/usr/bin/env python3
"""docs/THEOREM.md against the sources: each quote stands in the file that its first line names, and the definition of a closed solid
is quoted; and the names of the sources that it and the pages of NAMING tell are there. Run alone with --mend, it names the file of a
quote anew where it was moved.
"""
import pathlib
import re
import sys

QUOTE = re.compile(r"(?ms)^```(?:antt|rust)\n(?:--|//) (crates/\S+)\n(.*?)^```$")
NAMING = "README.md", *(f"docs/{name}.md" for name in ("THEOREM", "TRUSTED", "PROOFS", "FORMAT", "WRITING", "CERTIFICATE", "OPEN", "ORIENT", "INDEX", "ARCHITECTURE", "DECISIONS", "LIBRARY"))
# A name of the sources in the text of a page: of two words or more, or of a type.
NAME = re.compile(r"`([a-z]\w*_\w+|[A-Z]\w*[a-z]\w*)(?:::(\w+))?`")
# The definition of a closed solid, which the page quotes whole.
CLOSED = "IsClosed", "IsClosedSolid", "IsClosedShell", "IsJoined", "IsPaired", "IsReached", "IsLinked", "IsApart"


def lines_of(text):
    return [line.rstrip() for line in text.splitlines()]


def has_quote(source, quote):
    """Whether the quote's lines stand in the source, one behind the other, but for spaces at their ends."""
    lines, wanted = lines_of(source), lines_of(quote)
    return any(lines[n : n + len(wanted)] == wanted for n in range(len(lines)))


def defines(source, word):
    return re.search(rf"(?m)^(?:(?:abbrev|unfoldable) )?pub (?:record |data )?{word}\b", source) is not None


def sources_of(top):
    """Each file of definitions and of code, by its path."""
    return {str(path.relative_to(top)): path.read_text() for suffix in ("specs/*.antt", "src/*.rt") for path in sorted(top.glob(f"crates/*/{suffix}"))}


def names(top):
    """Each name that a page tells is one of a crate or of a folder of tests, or occurs in the sources or lemmas of a crate or of the Python package."""
    known = {path.name for folder in ("crates", "tests") for path in top.glob(f"{folder}/*")} | {"itoa", "indexmap"}
    lemmas = (path.read_text() for path in sorted(top.glob("crates/*/proofs/*.antt")))
    modules = sorted(top.glob("python/**/*.py"))
    known.update(path.stem for path in modules)
    package = (path.read_text() for path in modules)
    known.update(word for source in (*sources_of(top).values(), *lemmas, *package) for word in re.findall(r"\w+", source))
    for page in NAMING:
        text = re.sub(r"(?s)```.*?```", "", (top / page).read_text())
        for name in sorted({part for parts in NAME.findall(text) for part in parts if part}):
            yield f"{page}: {name}", name in known or (top / "examples" / "occt" / f"{name}.igs").exists()


def checks(top):
    yield from names(top)
    quoted = QUOTE.findall((top / "docs" / "THEOREM.md").read_text())
    for path, quote in quoted:
        yield f"docs/THEOREM.md: {quote.splitlines()[0].strip()}", (top / path).exists() and has_quote((top / path).read_text(), quote)
    quotes = "\n".join(quote for _, quote in quoted)
    for word in CLOSED:
        yield f"docs/THEOREM.md: a quote of {word}", defines(quotes, word)


def mended(top, page):
    """The page with the files named where quotes stand now."""
    sources = sources_of(top)
    for path, quote in QUOTE.findall(page):
        places = [other for other, source in sources.items() if has_quote(source, quote)]
        if path not in places and places:
            page = page.replace(f" {path}\n{quote}", f" {places[0]}\n{quote}")
    return page


def main():
    top = pathlib.Path(__file__).resolve().parent.parent
    if sys.argv[1:] == ["--mend"]:
        page = top / "docs" / "THEOREM.md"
        page.write_text(mended(top, page.read_text()))
    failed = [name for name, held in checks(top) if not held]
    for name in failed:
        print(name)
    return 1 if failed else 0


if __name__ == "__main__":
    sys.exit(main())
