"""The report of `igesolid check --html`: the index, the pages, and what stands in their way."""
import base64
import gzip
import json
import re
import shutil

ROWS = re.compile(r'<script type="application/json" id="rows">(.*?)</script>')
CLOSED = {"parts/below/TWO SOLIDS.IGS": 2, "parts/cube.igs": 1, "parts/it's $HOME.Iges": 1, "parts/no/three.igs": 3}
# The rows of what isn't closed, and what each of their links is called.
FAILING = {
    "parts/no/bad.igs": ("bad file", "0", "0", "line 2 length: Each line has 80 columns and an end of line.", ["lines"]),
    "parts/no/none.igs": ("no solid", "0", "0", "no solid (entity 186)", []),
    "parts/no/tetrahedra.iges": ("not closed", "1", "0", "solid 1: fail REACH 29 0: {}", ["solid 1"]),
}


def index_in(folder):
    """The text of an index, and its rows by their files; the last item of a row are its links."""
    text = (folder / "index.html").read_text()
    return text, {file: (*map(str, row), pages) for file, *row, pages in json.loads(ROWS.search(text)[1])}


def parts_of(page):
    """What stands in a page: the file's name and the number, the text of where, and the file."""
    found = [base64.b64decode(re.search(rb'(?s)id="%s">(.*?)</script>' % name, page)[1]) for name in (b"words", b"where", b"file")]
    return [*found[:2], gzip.decompress(found[2])]


def rows(parts):
    """Each file has its row, each solid that isn't closed its page, which is that of `igesolid page`."""
    folder = parts.folder / "report"
    status, said, error = parts.check("parts", "--html", "report")
    yield "check --html: what is printed", (status, said, error) == parts.check("parts")
    text, found = index_in(folder)
    wanted = {name: ("closed", str(count), str(count), "", []) for name, count in CLOSED.items()}
    words = "part it into 2 bodies"
    wanted.update((name, (*row[:3], row[3].format(words), row[4])) for name, row in FAILING.items())
    told = {name: (*row[:4], [words for _, words in row[4]]) for name, row in found.items()}
    yield "check --html: the rows", told == wanted
    yield "check --html: what fails stands first", [row[0] for row in found.values()] == ["bad file", "no solid", "not closed", *["closed"] * 4]
    choices = dict(re.findall(r'<option value="([^"]*)">[^<]* \((\d+)\)</option>', text))
    yield "check --html: the verdicts to choose", choices == {"": "7", "fails": "3", "bad file": "1", "closed": "4", "no solid": "1", "not closed": "1"}
    yield "check --html: the total", f"<p>{said.decode().splitlines()[-1]}.</p>" in text
    yield "check --html: nothing from elsewhere", not re.search(r"https?:|src=|import\b", text) and text.count("<script") == 2
    links = [target for row in found.values() for target, _ in row[4]]
    yield "check --html: the pages", sorted(links) == sorted(f"pages/{it.name}" for it in (folder / "pages").iterdir()) and len(links) == 2
    of_bad, of_solid = ((folder / found[name][4][0][0]).read_bytes() for name in ("parts/no/bad.igs", "parts/no/tetrahedra.iges"))
    page = parts.copy.run(parts.launcher, "page", "parts/no/tetrahedra.iges", "1", cwd=parts.folder)[1]
    yield "check --html: a page of a solid", parts_of(of_solid) == parts_of(page) and of_solid.split(b"@")[0][:200] == page[:200]
    remedies = {"pair": "PAIR 7 1: make a face on 1 rim", "pair_unsewn": "PAIR 7 1: sew 1 pair of edges", "once": "ONCE 3 2: leave out what is named twice", "type": "TYPE 1 1: an entity of the wrong type or form"}
    for name, verdict in remedies.items():
        file = parts.copy.top / "examples" / "no" / f"fail_{name}.igs"
        parts.check(file, "--html", name)
        reason = next(iter(index_in(parts.folder / name)[1].values()))[3]
        yield f"check --html: the first remedy of {name}", reason == f"solid 1: fail {verdict}"
    yield "check --html: a page of a bad file", parts_of(of_bad)[0] == b"bad.igs\0" and parts_of(of_bad)[1].startswith(b"bad file line 2 length\n")


def again(parts):
    """A later run writes the same pages; those of solids that are closed now go. What is remembered has its pages too."""
    folder, pages = parts.folder / "report", lambda: {it.name: it.read_bytes() for it in (parts.folder / "report" / "pages").iterdir()}
    parts.check("parts", "--html", "report", "--table", "table.csv")
    before = pages()
    shutil.rmtree(folder / "pages")
    parts.check("parts", "--html", "report", "--table", "table.csv")
    yield "check --html: what is remembered", pages() == before and len(before) == 2
    (folder / "pages" / "note.html").write_text("mine")
    shutil.copy(parts.parts / "cube.igs", parts.parts / "no" / "tetrahedra.iges")
    parts.check("parts", "--html", "report", "--table", "table.csv")
    yield "check --html: a solid that is closed now", sorted(pages()) == sorted(["note.html", *(it for it in before if it.startswith("bad-"))])
    name = parts.parts / "no" / "<b>&amp;\n.igs"
    shutil.copy(parts.parts / "no" / "bad.igs", name)
    parts.check("parts", "--html", "report")
    text, found = index_in(folder)
    yield "check --html: a name that is markup", "<b>" not in text and "parts/no/<b>&amp;?.igs" in found


def in_the_way(parts):
    """What can't be written is said: before the work with status 2, in it with status 5."""
    (parts.folder / "file").touch()
    status, text, error = parts.check("parts", "--html", "file")
    said = "igesolid: file: no report can be written there: Not a directory\n"
    yield "check --html: a file in the way", (status, text, error) == (2, b"", said)
    (parts.folder / "other").mkdir()
    (parts.folder / "other" / "index.html").write_text("mine")
    status, text, error = parts.check("parts", "--html", "other")
    yield "check --html: another index", (status, text) == (2, b"") and error.endswith("isn't an index that igesolid check wrote, so it stays as it is\n")
    yield "check --html: it stays", (parts.folder / "other" / "index.html").read_text() == "mine"
    parts.check("parts/no/tetrahedra.iges", "--html", "report")
    page = next((parts.folder / "report" / "pages").iterdir())
    page.unlink()
    page.mkdir()
    status, text, error = parts.check("parts/no/tetrahedra.iges", "--html", "report")
    said = "igesolid: report: the report isn't whole: parts/no/tetrahedra.iges: Is a directory\n"
    yield "check --html: a page that can't be written", (status, error) == (5, said)
    yield "check --html: the verdict stands", text == parts.check("parts/no/tetrahedra.iges")[1]


def checks(parts):
    for part in (rows, again, in_the_way):
        parts.fill()
        yield from part(parts)
