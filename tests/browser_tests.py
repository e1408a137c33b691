"""Pages in headless Chromium: nothing on the console, nothing asked of the network, labels in view, outlines and faults at the pixels
where they are due, and clicks, keys and fingers that lead to faults and move the view. The lines are drawn by WebGL, or on a canvas."""
import math
import re
import shutil
import subprocess
import sys

import chromium
import gallery
import remedies
from page_file import page_of
from picture_tests import RECORDED, example, recorded
from programs import TOP
from sample_file import text_of
from spawned import SECONDS

SIDE, HOLES = 160, 20_000
MOST_CALLS, MOST_POINTS, MOST_VERTICES = 200_000, 10_000, 2_000_000
CRUEL = "</script><script>document.title = 'x'</script><img src=x onerror=\"document.title='x'\"><b>"
WITHIN = "view.labels.every(it => it.x >= 0 && it.y >= 0 && it.x + it.width <= view.camera.width && it.y + it.height <= view.camera.height)"
# Where the button of a fault is, when it was scrolled into view.
BUTTON_AT = """(() => {
    const button = view.faults[%d].button;
    button.scrollIntoView();
    const at = button.getBoundingClientRect();
    return [at.x + 30, at.y + at.height / 2];
})()"""
# Both canvases on top of each other, drawn in this moment, and a search for pixels in it.
PIXELS = """
window.pixels = () => {
    view.draw();
    const { over, lines } = view.canvases, sheet = document.createElement("canvas");
    [sheet.width, sheet.height] = [over.width, over.height];
    const pen = sheet.getContext("2d");
    if (lines && view.painter.isWebgl) pen.drawImage(lines, 0, 0);
    pen.drawImage(over, 0, 0);
    return pen.getImageData(0, 0, sheet.width, sheet.height);
};
window.inkAt = (image, x, y, isWanted) => {
    for (let u = Math.round(x) - 2; u <= x + 2; u++) for (let v = Math.round(y) - 2; v <= y + 2; v++) {
        const k = 4 * (v * image.width + u);
        if (isWanted(...image.data.slice(k, k + 4))) return true;
    }
    return false;
};
window.isInk = (r, g, b, a) => a > 60;
window.isRed = (r, g, b, a) => a > 100 && r > 150 && g < 110 && b < 110;
window.view = $page.shown.view;
"""
# Run before a page's own script: counts the calls that draw the first frame, the points of the longest path, and the vertices given to WebGL.
COUNTING = """
window.calls = { frames: 0, all: 0, longest: 0, path: 0, vertices: 0 };
for (const kind of [CanvasRenderingContext2D, WebGLRenderingContext]) {
    for (const [name, { value }] of Object.entries(Object.getOwnPropertyDescriptors(kind.prototype))) {
        if (typeof value === "function") kind.prototype[name] = function (...words) {
            if (name === "clearRect") calls.frames++;
            if (calls.frames > 1) return value.apply(this, words);
            calls.all++;
            if (name === "beginPath") calls.path = 0;
            if (name === "lineTo" || name === "moveTo") calls.longest = Math.max(calls.longest, ++calls.path);
            if (name === "bufferData" && words[1] instanceof Float32Array) calls.vertices += words[1].length / 3;
            return value.apply(this, words);
        };
    }
}"""
NO_NETWORK = re.compile(r"(file|data|about):")


def written(folder, name, number, text, data):
    path = folder / f"{name}.html"
    path.write_bytes(page_of(f"{name}.igs", number, text, data))
    return path


def open_page(browser, path, at=""):
    browser.open(path, at)
    browser.run("$page.ready.then(() => null)")
    browser.run(PIXELS + "null")


def is_quiet(browser):
    return browser.faults == [] and all(NO_NETWORK.match(url) for url in browser.requests)


def of_recorded(browser, folder):
    """Each page is quiet. Of one with a picture the first fault is labelled at once; a click on each fault's paragraph leads there."""
    for name, number, text, _ in recorded():
        open_page(browser, written(folder, name, number, text, example(name).read_bytes()))
        verdict = browser.run("document.getElementById('verdict').textContent")
        yield f"browser: {name} opens", is_quiet(browser) and verdict == text.split("\n")[0]
        if not browser.run("view !== null"):
            yield f"browser: {name} without a picture says so", browser.run("document.getElementById('excerpt').innerText.length > 20")
            continue
        count = browser.run("view.faults.length")
        yield f"browser: {name}: a label in view", count == 0 or browser.run(f"view.labels.some(it => it.fault > 0) && {WITHIN}")
        yield f"browser: {name}: a red pixel at each fault", count == 0 or browser.run(FAULTS_SEEN)
        for place in range(count):
            browser.click(*browser.run(BUTTON_AT % place))
            held = browser.run(f"view.unfilled.length === 0 && view.chosen === view.faults[{place}] && view.labels.some(it => it.fault === view.chosen.number) && {WITHIN}")
            yield f"browser: {name}: a click on fault {place + 1}", held and browser.run("getComputedStyle(view.chosen.box.querySelector('pre')).display") == "block"
        yield f"browser: {name} stays quiet", is_quiet(browser)


FAULTS_SEEN = """(() => {
    view.withLabels = false;
    const image = pixels();
    view.withLabels = true;
    view.draw();
    return view.faults.every(it => it.rule === "REACH" || inkAt(image, ...view.camera.project(view.spotOf(it)), isRed));
})()"""


def of_pinched_edge(browser, folder):
    """Clicks on the picture, keys and buttons, of a solid with one fault."""
    path = written(folder, "77_pinched_edge", 3, (RECORDED / "77_pinched_edge.3.txt").read_text(), example("77_pinched_edge").read_bytes())
    open_page(browser, path)
    before = browser.run("view.camera.scale")
    x, y = browser.run("(() => { const r = view.over.getBoundingClientRect(), p = view.camera.project(view.spotOf(view.faults[0])); return [r.x + p[0], r.y + p[1]]; })()")
    browser.mouse("mouseMoved", x, y - 30)
    yield "browser: an edge under the mouse", browser.run("document.getElementById('tip').textContent") == "edge 19 15\ncurve 51\nused 4 times"
    browser.click(x, y - 30)
    yield "browser: a click on a red edge", browser.run("view.chosen === view.faults[0] && view.camera.scale") == before
    yield "browser: the chosen fault is told", browser.run("document.getElementById('spoken').textContent") == "Fault 1: edge 19 15 along 2 against 2, bodies or parts of one touch along it"
    browser.key("Escape")
    yield "browser: Escape", browser.run("view.chosen === null")
    browser.key("ArrowRight")
    yield "browser: an arrow key leads to a fault", browser.run("view.chosen === view.faults[0]") and browser.run("view.camera.scale") > before
    turned = browser.run("view.camera.turn.join()")
    browser.key("ArrowRight", shift=True)
    yield "browser: shift and an arrow key turn", browser.run("view.camera.turn.join()") != turned and browser.run("view.chosen === view.faults[0]")
    near, centre = browser.run("[view.camera.scale, view.camera.centre.join()]")
    browser.key("+")
    yield "browser: a key zooms", browser.run("view.camera.scale") > near
    browser.key("d")
    yield "browser: a key moves", browser.run("view.camera.centre.join()") != centre
    browser.key("l")
    yield "browser: a key hides labels", browser.run("view.labels.length") == 0
    browser.key("l")
    inside = "view.chosen.faces.every(([face]) => view.picture.hasMaterialAt(face, view.picture.insideOf(face)))"
    yield "browser: labels of faces are in their material", browser.run(inside)
    browser.run("for (const it of ['x', 'y', 'z', 'iso', 'all']) document.querySelector(`[data-do=${it}]`).click()")
    browser.run("document.querySelector('[data-do=z]').click(); view.choose(view.faults[0], true)")
    yield "browser: a face that was seen on edge", browser.run("view.faults[0].faces.every(([it]) => Math.abs(view.normalOf(it).reduce((sum, n, k) => sum + n * view.camera.turn[6 + k], 0)) > .2)")
    browser.run("document.querySelector('[data-do=all]').click(); document.querySelector('[data-do=iso]').click()")
    yield "browser: the buttons", browser.run("view.chosen === null") and abs(browser.run("view.camera.scale") - before) < before / 100
    for kind, dx in (("mousePressed", 0), ("mouseMoved", 80), ("mouseReleased", 80)):
        browser.mouse(kind, 700 + dx, 300, button="left", buttons=1, clickCount=1)
    yield "browser: a drag turns", browser.run("view.camera.turn.join()") != turned
    open_page(browser, path, "#fault=1")
    yield "browser: a link to a fault", browser.run("view.chosen === view.faults[0]") and is_quiet(browser)


def of_remedies(browser, folder):
    """The buttons of the remedies: each shows its steps and the command that mends, and marks what it changes."""
    text = dict((name, text) for name, _, text in remedies.texts())["unsewn_box"]
    open_page(browser, written(folder, "unsewn_box", 1, text, remedies.data_of("unsewn_box")))
    hints = "document.getElementById('hints').innerText"
    press = "document.querySelectorAll('.choices button')[%d].click()"
    told = browser.run(hints)
    yield "browser: the first remedy is told", "sew 12 pairs of edges" in told and "igesolid mend unsewn_box.igs 1 1 > mended.igs" in told and "and 2 more" in told
    browser.run(press % 1)
    yield "browser: another remedy", "igesolid mend unsewn_box.igs 1 2 > mended.igs" in browser.run(hints) and browser.run("view.chosen.spokes.length") == 4
    browser.run(press % 2)
    yield "browser: the faces of a remedy", browser.run("view.chosen.faces.map(([face]) => face.entity).join()") == "69,81,93,105,117"
    yield "browser: the rim of a remedy", browser.run("view.chosen.spokes.map(([it]) => view.picture.solid.edges[it].index).join()") == "1,2,4,3"
    yield "browser: what is said at a face", browser.run("view.labels.some(it => it.text === 'face 69 removed')")
    yield "browser: no command where a face must be made", "igesolid mend" not in browser.run(hints)
    yield "browser: the pressed button", browser.run("[...document.querySelectorAll('.choices button')].map(it => it.ariaPressed).join()") == "false,false,true"
    yield "browser: a remedy is told", browser.run("document.getElementById('spoken').textContent") == "remedy 3: remove 5 faces, make a face on 1 rim"
    browser.run(press % 2)
    yield "browser: a remedy is hidden again", browser.run("view.chosen === null") and is_quiet(browser)
    for name, number, text in remedies.texts():
        open_page(browser, written(folder, name, number, text, remedies.data_of(name)))
        count = browser.run("document.querySelectorAll('.choices button').length")
        held = all(browser.run(f"{press % place}, view.chosen !== null") for place in range(count))
        yield f"browser: the {count} remedies of {name}", held and is_quiet(browser)


def of_fingers(browser, folder):
    """A tap, one finger that turns, two that move and pinch."""
    open_page(browser, written(folder, "touched", 3, (RECORDED / "77_pinched_edge.3.txt").read_text(), example("77_pinched_edge").read_bytes()))

    def touch(kind, *points):
        browser.call("Input.dispatchTouchEvent", type=kind, touchPoints=[{"x": x, "y": y, "id": k} for k, (x, y) in enumerate(points)])

    state = "[view.camera.turn.join(), view.camera.centre.join(), view.camera.scale]"
    before = browser.run(state)
    touch("touchStart", (700, 300))
    touch("touchMove", (760, 320))
    touch("touchEnd")
    after = browser.run(state)
    yield "browser: one finger turns", after[0] != before[0] and after[1:] == before[1:]
    touch("touchStart", (650, 300), (750, 300))
    touch("touchMove", (690, 340), (790, 340))
    touch("touchEnd")
    moved = browser.run(state)
    yield "browser: two fingers move", moved[0] == after[0] and moved[1] != after[1] and abs(moved[2] / after[2] - 1) < 0.25
    touch("touchStart", (680, 300), (720, 300))
    touch("touchMove", (640, 300), (760, 300))
    touch("touchEnd")
    pinched = browser.run(state)
    yield "browser: a pinch zooms", pinched[0] == moved[0] and abs(pinched[2] / moved[2] - 3) < 0.1
    browser.key("f")
    browser.key("i")
    x, y = browser.run("(() => { const r = view.over.getBoundingClientRect(), p = view.camera.project(view.spotOf(view.faults[0])); return [r.x + p[0], r.y + p[1] + 20]; })()")
    touch("touchStart", (x, y))
    touch("touchEnd")
    yield "browser: a tap chooses", browser.run("view.chosen === view.faults[0]") and is_quiet(browser)


def of_media(browser, folder):
    """Dark screens and white paper."""
    path = written(folder, "dark", 3, (RECORDED / "77_pinched_edge.3.txt").read_text(), example("77_pinched_edge").read_bytes())
    browser.call("Emulation.setEmulatedMedia", features=[{"name": "prefers-color-scheme", "value": "dark"}, {"name": "prefers-reduced-motion", "value": "reduce"}])
    open_page(browser, path)
    light = "Math.min(...getComputedStyle(document.getElementById('side')).backgroundColor.match(/\\d+/g).map(Number))"
    yield "browser: a dark page", browser.run(light) < 60 and browser.run(FAULTS_SEEN.replace("isRed", "(r, g, b, a) => a > 100 && r > 200 && g < 130"))
    browser.run("dispatchEvent(new Event('beforeprint'))")
    browser.call("Emulation.setEmulatedMedia", media="print", features=[{"name": "prefers-color-scheme", "value": "dark"}, {"name": "prefers-reduced-motion", "value": "reduce"}])
    yield "browser: paper is white", browser.run(light) > 240 and browser.run(FAULTS_SEEN)
    browser.call("Emulation.setEmulatedMedia", media="", features=[{"name": "prefers-reduced-motion", "value": "reduce"}])
    yield "browser: it is printed", is_quiet(browser) and len(browser.call("Page.printToPDF")["data"]) > 10_000


# The places of a sphere's outline, of the middles of faces' outlines and inner lines, where there has to be ink.
SPHERE_SEEN = """(() => {
    const image = pixels(), centre = view.camera.project(%s), radius = %s * view.camera.scale;
    const places = Array.from({ length: 24 }, (_, k) => [Math.cos(k * Math.PI / 12), Math.sin(k * Math.PI / 12)]);
    return places.every(([x, y]) => inkAt(image, centre[0] + x * radius, centre[1] + y * radius, isInk));
})()"""
FACES_SEEN = """(() => {
    const image = pixels();
    return [...view.picture.faces.values()].filter(it => view.picture.isCurved(it)).every(face => {
        const lines = view.picture.isolines(face, 2);
        return lines.length > 0 && lines.every(it => inkAt(image, ...view.camera.project(it[it.length >> 1]), isInk));
    });
})()"""


def of_outlines(browser, folder):
    """What has no edges is seen: the void in a box, a whole sphere, each fillet of a box."""
    open_page(browser, written(folder, "lost", 3, "closed 3\nunits 2 MM\nshells 2 failing 0\n", example("14_box_void_sphere").read_bytes()))
    browser.run("new Promise(done => { view.canvases.lines.addEventListener('webglcontextlost', () => setTimeout(done)); view.painter.gl.getExtension('WEBGL_lose_context').loseContext(); })")
    yield "browser: a canvas where WebGL was lost", browser.run("view.painter.isWebgl") is False and browser.run(SPHERE_SEEN % ("[0, 0, 0]", "5"))
    for at in ("", "#canvas"):
        how = "a canvas" if at else "WebGL"
        open_page(browser, written(folder, "void", 3, "closed 3\nunits 2 MM\nshells 2 failing 0\n", example("14_box_void_sphere").read_bytes()), at)
        yield f"browser: the void's outline, by {how}", browser.run(SPHERE_SEEN % ("[0, 0, 0]", "5"))
        open_page(browser, written(folder, "point", 1, "closed 1\nunits 1 -\nshells 1 failing 0\n", example("point").read_bytes()), at)
        yield f"browser: a sphere of one pole, by {how}", browser.run(SPHERE_SEEN % ("view.picture.middle.map(it => -it)", "1"))
        open_page(browser, written(folder, "fillets", 3, "closed 3\nunits 2 MM\nshells 1 failing 0\n", example("12_box_fillet_all").read_bytes()), at)
        yield f"browser: each fillet, by {how}", browser.run(FACES_SEEN) and is_quiet(browser)
        open_page(browser, written(folder, "thread", 1, "closed 1\nunits 2 MM\nshells 1 failing 0\n", flank()), at)
        yield f"browser: the flank of a thread, by {how}", browser.run(FACES_SEEN) and is_quiet(browser)
        yield f"browser: what draws is {how}", browser.run("view.painter.isWebgl") is (at == "")


# Files with the numbers of their solids, and the areas of all faces by the sizes that they were made with. The plate's holes, of
# radius 2, are drawn within a thousandth of its size, 0.16.
AREAS = (
    ("examples/cube.igs", 1, 6),
    ("examples/cylinder.igs", 1, 4 * math.pi),
    ("examples/occt/05_sphere.igs", 1, 4 * math.pi * 7**2),
    ("tests/inputs/torus.igs", 1, 4 * math.pi**2 * 20 * 5),
    ("examples/gallery/hollow_ball.igs.gz", 3, 4 * math.pi * (10**2 + 9**2)),
    ("examples/gallery/tube.igs.gz", 3, math.tau * (10 + 8) * 50 + math.tau * (10**2 - 8**2)),
    ("examples/gallery/plate_400_holes.igs.gz", 1, 2 * 160**2 + 4 * 160 * 2 + 400 * (math.tau * 2 * 2 - math.tau * 2**2)),
    ("tests/inputs/thick_sheet_with_an_offset_surface.igs", 1, 2117.692822),
    ("tests/inputs/box_under_a_parametric_spline_surface.igs", 1, 88.709740),
)
# How much isn't drawn as it is.
NONE_LEFT = "view.picture.faceReasons.size + view.picture.chords.size + view.leftOut"
AREA = """(() => {
    const { picture } = view;
    return [...picture.faces.values()].reduce((sum, it) => sum + $mesh.areaOf(picture.mesh(it, Infinity, false, picture.tolerance / 4)), 0);
})()"""
# The lists, indexes and coordinates of all vertices as they are drawn.
DRAWN = """(() => {
    const { points, middle, solid } = view.picture;
    return points.map((it, k) => [...solid.vertices[k], ...it.map((value, axis) => value + middle[axis])]);
})()"""
VERTEX_TOLD = re.compile(r"(?:vertex|start|end|ends|starts|at|touches) (\d+) (\d+) (\S+) (\S+) (\S+)")


def are_drawn(text, drawn):
    """Whether each vertex that a text names is drawn at its coordinates."""
    found = {(it[0], it[1]): it[2:] for it in drawn}
    told = [(int(list_), int(index), [float(it) for it in at]) for list_, index, *at in VERTEX_TOLD.findall(text)]
    return all(math.dist(found[list_, index], at) < 1e-7 for list_, index, at in told)


def of_surfaces(browser, folder, where):
    """The solids of the gallery: vertices where the text tells, faults and inner lines at their pixels; and areas of faces."""
    for _, name, file, number, _ in gallery.rows():
        data = gallery.content(file)
        text = gallery.told(where, data, number, folder / "solid.igs")
        open_page(browser, written(folder, name, int(number), text, data))
        browser.run("(() => { while (!view.isWhole) view.workOn(1000, Infinity); view.draw(); })()")
        yield f"browser: {name}: vertices where the text tells", are_drawn(text, browser.run(DRAWN)) and is_quiet(browser)
        yield f"browser: {name}: each fault at its pixels", browser.run(FAULTS_SEEN)
        yield f"browser: {name}: no face is left out", browser.run(NONE_LEFT) == 0
        yield f"browser: {name}: lines inside of curved faces", browser.run(FACES_SEEN)
    for file, number, wanted in AREAS:
        data = gallery.content(file)
        open_page(browser, written(folder, "area", number, f"closed {number}\nunits 2 MM\nshells 1 failing 0\n", data))
        found = browser.run(AREA)
        yield f"browser: {file}: the area {found:.3f} for {wanted:.3f}", abs(found - wanted) < (0.02 if "holes" in file else 0.004) * wanted
    for name in ("box_under_a_parametric_spline_surface", "thick_sheet_with_an_offset_surface"):
        open_page(browser, written(folder, name, 1, "closed 1\nunits 2 MM\nshells 1 failing 0\n", gallery.content(f"tests/inputs/{name}.igs")))
        browser.run("view.showAll(null, true)")
        yield f"browser: {name}: lines inside of curved faces", browser.run(FACES_SEEN) and browser.run(NONE_LEFT) == 0 and is_quiet(browser)


def of_index(browser, folder, programs):
    """The report of `igesolid check --html`, opened as a file: its rows are sorted, and its links lead to pages."""
    parts = folder / "parts"
    parts.mkdir()
    for name in ("cube", "77_pinched_edge", "two_solids", "bad_length", "fail_pair"):
        shutil.copy(example(name), parts)
    command = [sys.executable, "-B", TOP / "companion" / "check", "--program", programs[0], "--where-program", programs[1], "--html", folder / "report", parts]
    subprocess.run(command, stdout=subprocess.DEVNULL, timeout=SECONDS)
    browser.open(folder / "report" / "index.html")
    column = "[...document.querySelectorAll('tbody tr')].map(it => it.cells[%d].textContent)"
    press = "document.querySelectorAll('th button')[%d].click()"
    names = browser.run(column % 0)
    verdicts = browser.run(column % 1)
    yield "browser: an index", len(names) == 5 and verdicts[3:] == ["closed"] * 2 and names[:3] == sorted(names[:3]) and is_quiet(browser)
    choose = "(() => { const it = document.getElementById('%s'); it.value = %r; it.dispatchEvent(new Event('%s')); })()"
    browser.run(choose % ("verdict", "not closed", "change"))
    yield "browser: an index, of one verdict", browser.run(column % 1) == ["not closed"] * 2
    browser.run(choose % ("name", "PINCHED", "input"))
    yield "browser: an index, of a name", [it.endswith("77_pinched_edge.igs") for it in browser.run(column % 0)] == [True]
    browser.run(choose % ("verdict", "", "change"))
    browser.run(choose % ("name", "", "input"))
    browser.run(press % 1)
    yield "browser: an index by its verdicts", browser.run(column % 1) == ["bad file", "closed", "closed", "not closed", "not closed"]
    browser.run(press % 2)
    browser.run(press % 2)
    yield "browser: an index by its solids, the most first", browser.run(column % 2) == ["2", "1", "1", "1", "0"]
    yield "browser: what it is sorted by", browser.run("document.querySelectorAll('th')[2].getAttribute('aria-sort')") == "descending"
    for target in browser.run("[...document.querySelectorAll('td a')].map(it => it.getAttribute('href'))"):
        open_page(browser, folder / "report" / target)
        shown = browser.run("document.getElementById('verdict').textContent")
        yield f"browser: {target.split('-')[0]} of an index: {shown}", is_quiet(browser) and shown.split()[0] in ("fail", "bad")
        is_drawn = browser.run("view === null ? document.getElementById('excerpt').innerText.length > 20 : view.faults.length > 0")
        yield f"browser: {target.split('-')[0]} of an index is drawn", is_drawn


def of_large_index(browser, folder):
    """An index of 10,000 rows has few nodes at any time, and each row can be found."""
    sys.path.insert(0, str(TOP / "python"))
    from igesolid.check.html_index import index_of

    rows = [[f"parts/{k:05}.igs", "closed" if k % 3 else "not closed", 1, int(k % 3 > 0), "", [] if k % 3 else [[f"pages/{k}.html", "solid 1"]]] for k in range(10_000)]
    (folder / "large.html").write_bytes(index_of(rows, "10,000 files"))
    browser.open(folder / "large.html")
    nodes, shown = "document.getElementsByTagName('*').length", "document.getElementById('shown').textContent"
    told = [(browser.run(nodes) < 2_500, browser.run(shown))]
    for act in ("document.getElementById('on').click()", "document.querySelectorAll('th button')[0].click()", "document.querySelectorAll('th button')[0].click()"):
        browser.run(act)
        told.append((browser.run(nodes) < 2_500, browser.run(shown)))
    wanted = ["1 to 200", "201 to 400", "1 to 200", "1 to 200"]
    yield f"browser: an index of 10,000 rows: {told}", told == [(True, f"{it} of 10000") for it in wanted]
    yield "browser: its last row is first", browser.run("document.querySelector('tbody td').textContent") == "parts/09999.igs" and is_quiet(browser)


def flank():
    """A flank of a thread: two turns of a helix between two radii, as a ruled surface."""
    helix = lambda radius: [(radius * math.cos(math.tau * k / 120), radius * math.sin(math.tau * k / 120), k / 120) for k in range(241)]
    inner, outer = helix(1), helix(2)
    corners = inner[0], inner[-1], outer[-1], outer[0]
    told = lambda points: [f"{it:.9f}" for point in points for it in point]
    records = [
        (186, 0, [3, 1, 0]),
        (514, 1, [1, 9, 1]),
        (502, 1, [4, *told(corners)]),
        (504, 1, [4] + [v for k, (start, end) in enumerate(((1, 2), (2, 3), (4, 3), (4, 1))) for v in (13 + 2 * k, 5, start, 5, end)]),
        (510, 1, [21, 1, 1, 11]),
        (508, 1, [4, *(v for k, flag in enumerate((1, 1, 0, 1)) for v in (0, 7, k + 1, flag, 0))]),
        (106, 12, [2, 241, *told(inner)]),
        (110, 0, told(corners[1:3])),
        (106, 12, [2, 241, *told(outer)]),
        (110, 0, told((corners[3], corners[0]))),
        (118, 1, [13, 17, 0, 0]),
    ]
    return text_of(records)


# What a wheel over the outline of the void, a sphere of radius 5 round the origin, brings nearer; and what is drawn of it then.
OUTLINE_AT = """(() => {
    const at = view.camera.project([5 * view.camera.turn[0], 5 * view.camera.turn[1], 5 * view.camera.turn[2]]);
    const own = view.over.getBoundingClientRect();
    return [own.x + at[0], own.y + at[1]];
})()"""
OUTLINE_SEEN = """(() => {
    const { camera } = view, lines = view.refining.ofThisView || view.silhouettes(), middle = camera.project([0, 0, 0]), radius = 5 * camera.scale;
    let farthest = 0, seen = 0;
    for (let k = 0; k < lines.count; k++) for (let p = lines.from[k]; p + 1 < lines.from[k + 1]; p++) {
        const ends = [p, p + 1].map(it => camera.project([...lines.points.subarray(3 * it, 3 * it + 3)]));
        const between = [0, .25, .5, .75, 1].map(part => ends[0].map((it, axis) => it + (ends[1][axis] - it) * part));
        const own = between.filter(([u, v]) => u > 0 && v > 0 && u < camera.width && v < camera.height);
        seen += own.length;
        for (const [u, v] of own) farthest = Math.max(farthest, Math.abs(Math.hypot(u - middle[0], v - middle[1]) - radius));
    }
    return [seen, farthest / Math.min(camera.width, camera.height), view.painter.vertexCount];
})()"""
REST = "new Promise(done => setTimeout(() => requestAnimationFrame(() => done(null)), 400))"


def of_zoom(browser, folder):
    """Nearer, an outline has more vertices, each near to the sphere; afterwards as many as before."""
    for at in ("", "#canvas"):
        how = "a canvas" if at else "WebGL"
        open_page(browser, written(folder, "void", 3, "closed 3\nunits 2 MM\nshells 2 failing 0\n", example("14_box_void_sphere").read_bytes()), at)
        browser.run(REST)
        before, vertices = browser.run("view.camera.scale"), browser.run("view.painter.vertexCount")
        for nearer in (20, 400):
            while browser.run("view.camera.scale") < nearer * before:
                x, y = browser.run(OUTLINE_AT)
                browser.mouse("mouseWheel", x, y, deltaX=0, deltaY=-900)
                x, y = browser.run(OUTLINE_AT)
                browser.run(f"view.move(it => it.moveBy(it.width / 2 - {x} + view.over.getBoundingClientRect().x, it.height / 2 - {y}))")
            browser.run(REST)
            seen, farthest, count = browser.run(OUTLINE_SEEN)
            yield f"browser: {nearer} times as near, by {how}: {count} vertices for {vertices}", seen > 0 and farthest <= 0.001 and vertices < count < 3 * vertices
            yield f"browser: {nearer} times as near, by {how}: the outline at its pixels", browser.run(ARC_SEEN)
        browser.key("f")
        browser.run(REST)
        yield f"browser: from afar again, by {how}", browser.run("view.painter.vertexCount") == vertices and is_quiet(browser)


# Ink at those places of the outline that are in view.
ARC_SEEN = """(() => {
    const image = pixels(), { camera } = view, middle = camera.project([0, 0, 0]), radius = 5 * camera.scale;
    const places = Array.from({ length: 20001 }, (_, k) => (k - 10000) / 10000 * 400 / radius).map(it => [middle[0] + radius * Math.cos(it), middle[1] + radius * Math.sin(it)]);
    const seen = places.filter(([u, v]) => u > 4 && v > 4 && u < camera.width - 4 && v < camera.height - 4);
    return seen.length > 100 && seen.every(it => inkAt(image, ...it, isInk));
})()"""


def of_markup(browser, folder):
    """Names that are markup are shown as text."""
    text = (RECORDED / "77_pinched_edge.3.txt").read_text().replace("entity 167 face surface 169 plane-surface", f"entity 167 face surface 169 plane-surface\n  label {CRUEL}")
    path = folder / "cruel.html"
    path.write_bytes(page_of(CRUEL, 3, text, example("77_pinched_edge").read_bytes()))
    open_page(browser, path, "#fault=1")
    yield "browser: markup is text", is_quiet(browser) and browser.run("document.title") == f"fail PAIR 19 15 - {CRUEL}, solid 3"
    yield "browser: markup makes no element", browser.run("document.images.length + document.querySelectorAll('#side script, #side b b').length") == 0
    yield "browser: a face's label is shown", f"label {CRUEL}" in browser.run("document.getElementById('rules').textContent")
    data = example("fail_index").read_bytes().replace(b"1H,,1H;;".ljust(72), b"1H,,1H;; <script>document.title = 1</script>".ljust(72))
    open_page(browser, written(folder, "cruel_lines", 1, (RECORDED / "fail_index.1.txt").read_text(), data))
    yield "browser: markup in lines", is_quiet(browser) and browser.run("document.querySelectorAll('#excerpt script').length") == 0
    yield "browser: markup in lines does nothing", browser.run("document.title") == "fail INDEX 7 1 - cruel_lines.igs, solid 1"


def torus(side):
    """A torus of side times side faces, of which the first is turned, and the text for it."""
    place = lambda i, j: i % side * side + j % side
    squares = [(i, j) for i in range(side) for j in range(side)]

    def point(i, j):
        a, b = 2 * math.pi * i / side, 2 * math.pi * j / side
        return [f"{(30 + 10 * math.cos(b)) * math.cos(a):.6f}", f"{(30 + 10 * math.cos(b)) * math.sin(a):.6f}", f"{10 * math.sin(b):.6f}"]

    edges = [((i, j), end) for i, j in squares for end in ((i, j + 1), (i + 1, j))]
    surface = 9 + 2 * len(edges)
    records = [
        (186, 0, [3, 1, 0]),
        (514, 1, [len(squares)] + [v for i, j in squares for v in (surface + 8 + 4 * place(i, j), int(i + j > 0))]),
        (502, 1, [len(squares)] + [v for square in squares for v in point(*square)]),
        (504, 1, [len(edges)] + [v for number, ends in enumerate(edges) for v in (9 + 2 * number, 5, place(*ends[0]) + 1, 5, place(*ends[1]) + 1)]),
        *[(110, 0, point(*start) + point(*end)) for start, end in edges],
        (198, 1, [surface + 2, surface + 4, 30, 10, surface + 6]),
        (116, 0, [0, 0, 0, 0]),
        (123, 0, [0, 0, 1]),
        (123, 0, [1, 0, 0]),
    ]
    for i, j in squares:
        uses = [(2 * place(i, j) + 1, 1), (2 * place(i, j + 1) + 2, 1), (2 * place(i + 1, j) + 1, 0), (2 * place(i, j) + 2, 0)]
        records.append((510, 1, [surface, 1, 1, surface + 10 + 4 * place(i, j)]))
        records.append((508, 1, [4] + [v for index, flag in uses for v in (0, 7, index, flag, 0)]))
    use = f"  along face {surface + 8} torus loop {surface + 10} tuple 1 flags 1 0 1\n"
    items = [f"edge 7 {index} along 2 against 0\n  curve {7 + 2 * index} line\n{use}" for index in (1, 2, 4, 2 * side + 1)]
    counts = f"shell 1 entity 3 flag 1 faces {side * side} edges {2 * side * side} vertices {side * side} JOIN 0 PAIR 4 REACH 0 LINK - APART 0\n"
    return text_of(records), f"fail PAIR 7 1\nunits 2 MM\nshells 1 failing 1\n{counts}\nrule PAIR shell 1 faults 4 once 0 same-way 4 many 0\n  Not paired.\n{''.join(items)}"


def plate(holes):
    """A face with so many round holes, alone in its shell, and the text for it: its four sides fail."""
    side = math.ceil(math.sqrt(holes))
    centres = [(k % side + 0.5, k // side + 0.5) for k in range(holes)]
    corners = [(0, 0), (side, 0), (side, side), (0, side)]
    curve = 11 + 2 * (1 + holes)
    vertices = [v for x, y in corners for v in (x, y, 0)] + [v for x, y in centres for v in (x + 0.25, y, 0)]
    edges = [(k + 1, (k + 1) % 4 + 1) for k in range(4)] + [(k + 5, k + 5) for k in range(holes)]
    records = [
        (186, 0, [3, 1, 0]),
        (514, 1, [1, 9, 1]),
        (502, 1, [4 + holes, *vertices]),
        (504, 1, [4 + holes] + [v for k, (start, end) in enumerate(edges) for v in (curve + 2 * k, 5, start, 5, end)]),
        (510, 1, [curve + 2 * len(edges), 1 + holes, 1, *range(11, curve, 2)]),
        (508, 1, [4] + [v for k in range(4) for v in (0, 7, k + 1, 1, 0)]),
        *[(508, 1, [1, 0, 7, k + 5, 0, 0]) for k in range(holes)],
        *[(110, 0, [*corners[k], 0, *corners[(k + 1) % 4], 0]) for k in range(4)],
        *[(100, 0, [0, x, y, x + 0.25, y, x + 0.25, y]) for x, y in centres],
        (108, 0, [0, 0, 1, 0, 0, 0, 0, 0, 0]),
    ]
    items = "".join(f"edge 7 {k + 1} along 1 against 0\n  curve {curve + 2 * k} line\n  along face 9 plane loop 11 tuple {k + 1} flags 1 1 1\n" for k in range(4))
    counts = f"shell 1 entity 3 flag 1 faces 1 edges {len(edges)} vertices {4 + holes} JOIN 0 PAIR 4 REACH 0 LINK - APART 0\n"
    return text_of(records), f"fail PAIR 7 1\nunits 2 MM\nshells 1 failing 1\n{counts}\nrule PAIR shell 1 faults 4 once 4 same-way 0 many 0\n  Not paired.\n{items}"


def within(calls):
    return calls["all"] <= MOST_CALLS and calls["longest"] <= MOST_POINTS and calls["vertices"] <= MOST_VERTICES


def of_large_solids(browser, folder):
    """What is counted of 25,600 curved faces, and of a fault beside a face of 20,000 holes."""
    browser.call("Page.addScriptToEvaluateOnNewDocument", source=COUNTING)
    for name, (data, text), fault in (("torus", torus(SIDE), ""), ("plate", plate(HOLES), "fault=1")):
        for how in ("", "canvas&"):
            path = written(folder, name, 1, text, data)
            open_page(browser, path, f"#{how}{fault}")
            calls = browser.run("calls")
            yield f"browser: {name}, {how or 'WebGL'}: what is counted before the first frame: {calls}", is_quiet(browser) and within(calls)
            yield f"browser: {name}, {how or 'WebGL'}: a label in view", browser.run(f"view.labels.length > 0 && {WITHIN}")
            while not browser.run("view.isWhole || (view.workOn(2000, Infinity), view.isWhole)"):
                pass
            held = browser.run("view.painter.vertexCount + (view.meshPoints || 0)")
            yield f"browser: {name}, {how or 'WebGL'}: {held} vertices are held when all faces are there", browser.run("view.isWhole") and held <= MOST_VERTICES
            browser.run("view.choose(view.faults[0], true, true); view.move(it => it.zoomBy(5)); view.refine(); view.draw()")
            nearer = browser.run("view.painter.vertexCount + (view.meshPoints || 0)")
            yield f"browser: {name}, {how or 'WebGL'}: {nearer} vertices are held when it is near", 0 < nearer <= MOST_VERTICES and is_quiet(browser)


def checks(folder, programs, skipped):
    if chromium.found() is None:
        skipped("pages in a browser: Chromium isn't installed")
        return
    browser = chromium.Browser()
    try:
        for run in (of_recorded, of_pinched_edge, of_remedies, of_fingers, of_media, of_outlines, of_zoom, of_markup):
            yield from run(browser, folder)
        yield from of_surfaces(browser, folder, programs.where)
        yield from of_index(browser, folder, programs)
        yield from of_large_index(browser, folder)
        yield from of_large_solids(browser, folder)
    finally:
        browser.close()
