"""The solids of docs/GALLERY.md: its rows, that each says what `where` says, and that the mended ones are what `mend` writes of their broken
ones; run by itself it makes the pictures there.

  tests/gallery.py [NAME..]    makes docs/images/NAME.webp, or all of them, by headless Chromium"""
import gzip
import pathlib
import re
import subprocess
import sys

import chromium
from page_file import page_of
from programs import TOP, chosen
from spawned import SECONDS

PAGE = TOP / "docs" / "GALLERY.md"
# A picture, the name of the file, the solid's number, a sentence, and the words of `where`.
ROW = re.compile(r"(?m)^\| !\[\]\((images/[\w.]+)\) \| (\w+) (\d+) \| (.+?) \| (`.+`) \|$")
# A broken file, the command that mends it, the mended file, and what is said of that.
PAIR = re.compile(r"(?m)^\| `([\w/.]+)` \| `(mend .+?)` \| `([\w/.]+)` \| (.+) \|$")
MENDED, FEWEST, FEWEST_PAIRS = "_mended", 22, 3
WIDTH, HEIGHT = 480, 360
# The view alone, of the whole solid.
ALONE = """$page.ready.then(() => {
    for (const id of ["side", "bar", "help", "notice"]) document.getElementById(id).style.display = "none";
    document.getElementById("view").style.height = "100%";
    const { view } = $page.shown;
    while (!view.isWhole) view.workOn(1000, Infinity);
    view.measure();
    view.showAll(null, true);
    return new Promise(done => setTimeout(done, 600));
})"""


def rows():
    """The picture, the name, the file, the solid's number, and the words that are quoted, of each row."""
    found = ROW.findall(PAGE.read_text())
    return [(picture, name, file_of(name), number, re.findall("`(.+?)`", quoted)) for picture, name, number, _, quoted in found]


def file_of(name):
    return f"examples/occt/{name}.igs" if name[0].isdigit() and MENDED not in name else f"examples/gallery/{name}.igs.gz"


def content(file):
    data = (TOP / file).read_bytes()
    return gzip.decompress(data) if file.endswith(".gz") else data


def told(where, data, number, path):
    path.write_bytes(data)
    return subprocess.run([where, path, number, "all"], stdout=subprocess.PIPE, timeout=SECONDS).stdout.decode()


def pairs():
    """Of each pair of examples/README.md the file before, the words of `mend`, the file after, and the lines of `mended` that are quoted."""
    for before, command, after, quoted in PAIR.findall((TOP / "examples" / "README.md").read_text()):
        yield f"examples/{before}", command.split()[2:], f"examples/{after}", [it for it in re.findall("`(.+?)`", quoted) if it.startswith("step ")]


def pair_checks(folder, repair, found):
    """What `mend` and `mended` say of each broken file; its row stands before that of the mended one, which tells the command."""
    files, page, made = [row[2] for row in found], PAGE.read_text(), list(pairs())
    yield "examples/README.md: pairs", len(made) >= FEWEST_PAIRS and len({steps[0] for *_, steps in made}) >= FEWEST_PAIRS
    for before, words, after, steps in made:
        path = folder / "broken.igs"
        path.write_bytes(content(before))
        said = {command: subprocess.run([repair, command, path, *words], stdout=subprocess.PIPE, timeout=SECONDS) for command in ("mend", "mended")}
        yield f"{after}: what mend writes", (said["mend"].returncode, said["mend"].stdout) == (0, content(after))
        yield f"{after}: what mended tells", [it for it in said["mended"].stdout.decode().splitlines() if it.startswith("step ")] == steps
        place = files.index(after)
        command = " ".join(["mend", pathlib.Path(before).name.removesuffix(".gz"), *words])
        verdicts = [quoted[0].split()[0] for *_, quoted in found[place - 1 : place + 1]]
        yield f"docs/GALLERY.md: {after}", files[place - 1] == before and f"| `{command}`: " in page and verdicts == ["fail", "closed"]


def checks(folder, where, repair):
    found = rows()
    yield from pair_checks(folder, repair, found)
    yield "docs/GALLERY.md: rows", len(found) == PAGE.read_text().count("\n| ![") >= FEWEST
    for picture, name, file, number, quoted in found:
        yield f"docs/GALLERY.md: {name}: its picture and its file", (PAGE.parent / picture).is_file() and (TOP / file).is_file() and name in picture
        lines = told(where, content(file), number, folder / "solid.igs").splitlines()
        yield f"docs/GALLERY.md: {name}: {', '.join(quoted)}", quoted[0] == lines[0] and all(it in lines for it in quoted)
    packed = {str(it.relative_to(TOP)) for it in (TOP / "examples" / "gallery").iterdir()}
    yield "docs/GALLERY.md: all files of the gallery", packed <= {file for _, _, file, _, _ in found}


def draw(names):
    browser = chromium.Browser(WIDTH, HEIGHT)
    page, where = pathlib.Path(browser.folder) / "page.html", chosen().where
    for picture, name, file, number, _ in rows():
        if names and name not in names:
            continue
        data = content(file)
        page.write_bytes(page_of(name, number, told(where, data, number, page), data))
        browser.open(page)
        browser.run(ALONE)
        (PAGE.parent / picture).write_bytes(browser.picture(format="webp", quality=80))
        print("\n".join(browser.faults) or picture)
    browser.close()


if __name__ == "__main__":
    draw(sys.argv[1:])
