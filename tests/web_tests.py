"""dist/igesolid-web.html in headless Chromium: each example beside the programs, byte for byte; what the table, the frame and the saved files
hold; that nothing can be asked of the network; a phone's screen; and a browser that can't run it."""
import base64
import http.server
import json
import re
import subprocess
import sys
import threading
import time

import chromium
from libraries import DIST, EXAMPLES, TOP, answer, examples, requests, shipped
from spawned import SECONDS, Runner

FIRST = "document.querySelector('section')"
ANSWERED = """(async () => {
    const got = await asked({ file: %s, words: %s });
    if (got.fault) return [got.fault, ""];
    let text = "";
    for (let at = 0; at < got.text.length; at += 24576) text += btoa(String.fromCharCode(...got.text.subarray(at, at + 24576)));
    return [got.status, text];
})()"""
# Whether something is drawn on the canvas of a page of a solid.
DRAWN = """(() => {
    const over = %s.getElementById("over");
    return over.width > 0 && over.getContext("2d").getImageData(0, 0, over.width, over.height).data.some(it => it > 0);
})()"""
# Ways to ask something of the network, in the page and in a worker made of it; each says whether anything came of it.
ASKING = """(async () => {
    const url = %s, seen = [];
    addEventListener("securitypolicyviolation", it => seen.push(it.effectiveDirective));
    const failed = async run => { try { await run(); return false; } catch { return true; } };
    const tries = [
        await failed(() => fetch(url)), await failed(() => new Promise((done, fail) => { const it = new XMLHttpRequest(); it.onload = done; it.onerror = fail; it.open("GET", url); it.send(); })),
        await failed(() => new Promise((done, fail) => { const it = new Image(); it.onload = done; it.onerror = fail; it.src = url; })),
        await failed(() => new Promise((done, fail) => { const it = new WebSocket(url.replace("http", "ws")); it.onopen = done; it.onerror = fail; })),
        await failed(() => new Promise((done, fail) => { const it = new EventSource(url); it.onopen = done; it.onerror = fail; })),
        await failed(() => new Promise((done, fail) => { const it = document.createElement("script"); it.onload = done; it.onerror = fail; it.src = url; document.head.append(it); })),
        await failed(() => new Promise((done, fail) => { const it = document.createElement("link"); it.rel = "stylesheet"; it.onload = done; it.onerror = fail; it.href = url; document.head.append(it); })),
        await new Promise(done => {
            const text = `fetch(${JSON.stringify(url)}).then(() => postMessage(false), () => postMessage(true))`;
            const it = new Worker(URL.createObjectURL(new Blob([text], { type: "text/javascript" })));
            it.onmessage = ({ data }) => done(data);
            it.onerror = () => done(true);
        }),
    ];
    navigator.sendBeacon(url, "x");
    const form = document.createElement("form");
    Object.assign(form, { action: url, method: "post", target: "_blank" });
    document.body.append(form);
    form.submit();
    await new Promise(done => setTimeout(done, 500));
    return [tries, seen.length];
})()"""


class Asked(http.server.BaseHTTPRequestHandler):
    """A server that notes what it is asked."""

    seen = []

    def do_GET(self):
        self.seen.append(self.path)
        self.send_response(200)
        self.send_header("Access-Control-Allow-Origin", "*")
        self.end_headers()

    do_POST = do_GET

    def log_message(self, *words):
        pass


def choose(browser, *paths):
    """Files as if they had been chosen; waits until they are judged."""
    before = browser.run("document.querySelectorAll('section[data-done]').length")
    root = browser.call("DOM.getDocument")["root"]["nodeId"]
    node = browser.call("DOM.querySelector", nodeId=root, selector="#chosen")["nodeId"]
    browser.call("DOM.setFileInputFiles", nodeId=node, files=[str(path) for path in paths])
    wait(browser, f"document.querySelectorAll('section[data-done]').length >= {before + len(paths)}")


def wait(browser, script):
    end = time.monotonic() + SECONDS
    while not browser.run(script):
        if time.monotonic() > end:
            raise TimeoutError(script)
        time.sleep(0.02)


def press(browser, label, row=0):
    """Presses a button of the newest file, and waits until what it does is done."""
    script = f"[...{FIRST}.querySelectorAll('button')].filter(it => it.textContent === {json.dumps(label)})[{row}]"
    at = browser.run(f"(() => {{ const it = {script}; it.scrollIntoView({{ block: 'center' }}); const r = it.getBoundingClientRect(); return [r.x + r.width / 2, r.y + r.height / 2]; }})()")
    browser.click(*at)
    wait(browser, f"![...{FIRST}.querySelectorAll('button')].some(it => it.disabled)")


def open_page(browser, path):
    browser.open(path)
    browser.run("ready.catch(() => null).then(() => null)")


def of_examples(browser, program, where):
    """What the page's worker answers is what the programs answer; what the table says is what they say."""
    for example in examples():
        key = f"test {example.name}"
        data = base64.b64encode(example.read_bytes()).decode()
        browser.run(f"asked({{ file: {json.dumps(key)}, bytes: Uint8Array.from(atob({json.dumps(data)}), it => it.charCodeAt(0)).buffer, words: ['solids', '-'] }}).then(() => null)")
        wrong = []
        for words in requests(where, example):
            status, text = browser.run(ANSWERED % (json.dumps(key), json.dumps(words)))
            if (status, base64.b64decode(text)) != answer(program, where, example, words):
                wrong.append(" ".join(words))
        yield f"web: {example.name}{': ' + wrong[0] if wrong else ''}", wrong == []
        browser.run(f"removed({json.dumps(key)})")


def of_tables(browser, where):
    """The table of each example has its solids and their verdicts; a file that is none says why."""
    for example in examples():
        choose(browser, example)
        status, text, _ = where.run([str(example)])
        lines = [line.split() for line in text.decode(errors="replace").splitlines() if line.startswith("solid ")]
        wanted = [[it[1], "closed" if it[2] == "closed" else f"fails {it[3]}"] for it in lines]
        shown = browser.run(f"[...{FIRST}.querySelectorAll('tr.solid')].map(it => [it.cells[0].textContent, it.cells[1].firstChild.textContent])")
        is_told = status in (0, 1) or browser.run(f"{FIRST}.querySelector('pre').textContent") == text.decode(errors="replace")
        yield f"web: the table of {example.name}", shown == wanted and is_told
    browser.run("[...document.querySelectorAll('header button')].forEach(it => it.click())")


def of_buttons(browser, program, where, folder):
    """Where, the picture, a certificate and an extracted file, each by its button."""
    browser.call("Page.setDownloadBehavior", behavior="allow", downloadPath=str(folder))
    for name, number in (("two_solids", "1"), ("occt/77_pinched_edge", "3"), ("occt/16_three_solids", "3")):
        example = EXAMPLES / f"{name}.igs"
        choose(browser, example)
        press(browser, "Where")
        wanted = where.run([str(example), number])[1].decode()
        yield f"web: where of {name}", browser.run(f"{FIRST}.querySelector('pre').textContent") == wanted
        press(browser, "Extract")
        yield f"web: the extracted file of {name}", saved(folder / f"{example.stem}.{number}.igs", program.run(["extract", str(example), number])[1])
        if name != "occt/77_pinched_edge":
            press(browser, "Certificate")
            yield f"web: the certificate of {name}", saved(folder / f"{example.stem}.{number}.cert", program.run(["certify", str(example), number])[1])
        press(browser, "Picture")
        inside = "document.querySelector('dialog iframe').contentDocument"
        wait(browser, f"{inside} && {inside}.getElementById('verdict') && {inside}.getElementById('verdict').textContent !== '...'")
        all_of_it = where.run([str(example), number, "all"])[1].decode()
        yield f"web: the picture of {name}", browser.run(f"{inside}.getElementById('text').textContent") == all_of_it
        wait(browser, DRAWN % inside)
        yield f"web: {name} is drawn", True
        browser.run("document.querySelector('dialog').close()")
    yield "web: quiet", browser.faults == [] and all(url.startswith(("file:", "blob:", "data:", "about:")) for url in browser.requests)


def of_mending(browser, repair, folder):
    """What mend and mended answer is what the program does, and the button saves it; where no file is written a sentence says why. A solid that
    names something twice is mended, too."""
    browser.call("Page.setDownloadBehavior", behavior="allow", downloadPath=str(folder))
    for name, number in (("turned", "1"), ("two_solids", "1"), ("no/one_sided", "1"), ("no/fail_once", "1"), ("no/fail_pair", "1"), ("no/fail_pair_unsewn", "1"), ("occt/76_pinched_vertex", "3")):
        example = EXAMPLES / f"{name}.igs"
        data = json.dumps(base64.b64encode(example.read_bytes()).decode())
        browser.run(f"asked({{ file: 'mended', bytes: Uint8Array.from(atob({data}), it => it.charCodeAt(0)).buffer, words: ['solids', '-'] }}).then(() => null)")
        for command, *more in (("mend",), ("mended",), ("mend", "2"), ("mended", "2")):
            status, text = browser.run(ANSWERED % ("'mended'", json.dumps([command, "-", number, *more])))
            yield f"web: {command} of {name} {' '.join(more)}", (status, base64.b64decode(text)) == repair.run([command, str(example), number, *more])[:2]
        browser.run("removed('mended')")
        if name == "two_solids":
            continue
        choose(browser, example)
        press(browser, "Mend")
        status, text, _ = repair.run(["mend", str(example), number])
        told = browser.run(f"{FIRST}.querySelector('pre').textContent")
        if status == 0:
            changes = repair.run(["mended", str(example), number])[1].decode()
            yield f"web: the mended file of {name}", saved(folder / f"{example.stem}.{number}.mended.igs", text) and changes in told
        elif unsure := re.search(rb"(?m)^unsure (\d)$", text):
            press(browser, f"Save with remedy {unsure[1].decode()}")
            other = repair.run(["mend", str(example), number, unsure[1].decode()])[1]
            yield f"web: the mended file of {name}, by its number", saved(folder / f"{example.stem}.{number}.mended.igs", other)
        else:
            yield f"web: why {name} isn't mended", text.decode() in told and told.startswith(("No remedy", "No file"))
    yield "web: quiet while it mends", browser.faults == []


def saved(path, wanted):
    """Whether a file of these bytes is saved soon; it is removed then."""
    end = time.monotonic() + 20
    while time.monotonic() < end:
        if path.exists() and path.read_bytes() == wanted:
            path.unlink()
            return True
        time.sleep(0.05)
    return False


def of_network(browser, page):
    """The page's policy forbids any request, whatever a script in it would ask, in its worker and in a frame too."""
    server = http.server.ThreadingHTTPServer(("127.0.0.1", 0), Asked)
    threading.Thread(target=server.serve_forever, daemon=True).start()
    open_page(browser, page)
    tries, seen = browser.run(ASKING % json.dumps(f"http://127.0.0.1:{server.server_port}/"))
    yield "web: a request in the page, or in a worker", all(tries) and seen >= 7
    yield "web: what a server was asked", Asked.seen == []
    server.shutdown()


def of_phone(browser, page):
    """A small screen: nothing is wider than it, and the buttons are large enough for a finger."""
    browser.call("Emulation.setDeviceMetricsOverride", width=360, height=740, deviceScaleFactor=2, mobile=True)
    open_page(browser, page)
    choose(browser, EXAMPLES / "occt" / "77_pinched_edge.igs", EXAMPLES / "no" / "bad_length.igs", EXAMPLES / "two_solids.igs")
    press(browser, "Where")
    yield "web: a phone's width", browser.run("document.documentElement.scrollWidth <= innerWidth && innerWidth === 360")
    yield "web: a phone's buttons", browser.run("[...document.querySelectorAll('button')].every(it => it.getBoundingClientRect().height >= 32)")
    browser.call("Emulation.clearDeviceMetricsOverride")


def of_sizes(browser, page, folder):
    """A file of as many bytes as there may be, and one of a byte more."""
    open_page(browser, page)
    for size, sentence in ((164_000_000, "It isn't an IGES file of the fixed form."), (164_000_001, "It has more than 164,000,000 bytes.")):
        path = folder / "large.igs"
        with path.open("wb") as file:
            file.truncate(size)
        choose(browser, path)
        yield f"web: {size} bytes", browser.run(f"{FIRST}.querySelector('p.bad').textContent") == sentence
        browser.run(f"[...{FIRST}.querySelectorAll('button')].find(it => it.textContent === 'Remove').click()")


def of_removed(browser, page):
    """What is removed while the worker is at it ends, and the next file doesn't wait; the others are read again."""
    open_page(browser, page)
    choose(browser, EXAMPLES / "two_solids.igs")
    browser.run("worker.postMessage = () => {}")
    root = browser.call("DOM.getDocument")["root"]["nodeId"]
    node = browser.call("DOM.querySelector", nodeId=root, selector="#chosen")["nodeId"]
    browser.call("DOM.setFileInputFiles", nodeId=node, files=[str(EXAMPLES / "ball.igs")])
    wait(browser, "running !== null && document.querySelectorAll('section').length === 2")
    browser.run(f"[...{FIRST}.querySelectorAll('button')].find(it => it.textContent === 'Remove').click()")
    wait(browser, "running === null")
    choose(browser, EXAMPLES / "cube.igs")
    yield "web: after a file was removed", browser.run(f"{FIRST}.querySelector('p.good').textContent") == "1 of 1 closed"
    browser.run("document.querySelectorAll('section')[1].querySelector('tr.solid button').click()")
    wait(browser, "!document.querySelectorAll('section')[1].querySelector('pre').hidden")
    yield "web: and the file before it", browser.run("document.querySelectorAll('section')[1].querySelector('pre').textContent").startswith("closed 1\n")


def of_others(browser, page):
    """Browsers that lack something get a sentence."""
    for name, script in (("WebAssembly", "delete window.WebAssembly"), ("workers", "window.Worker = class { constructor() { throw new Error('none') } }"), ("a module", "WebAssembly.compile = () => Promise.reject(new Error('refused'))")):
        added = browser.call("Page.addScriptToEvaluateOnNewDocument", source=script)["identifier"]
        open_page(browser, page)
        yield f"web: without {name}", browser.run("document.getElementById('says').textContent").startswith("This browser can't run the checker: ")
        choose(browser, EXAMPLES / "cube.igs")
        yield f"web: without {name}, a file", browser.run(f"{FIRST}.innerText").count("This browser can't run the checker") == 1
        browser.call("Page.removeScriptToEvaluateOnNewDocument", identifier=added)


def checks(context):
    if shipped("igesolid.wasm") is None:
        context.skipped("the page for browsers: dist/ holds no module of these sources")
        return
    page = DIST / "igesolid-web.html"
    yield "web: dist/igesolid-web.html is up to date", subprocess.run([sys.executable, "-B", TOP / "packaging" / "web" / "page", "--check"]).returncode == 0
    if chromium.found() is None:
        context.skipped("the page for browsers: Debian's package chromium isn't installed")
        return
    program, where, repair = (Runner(path) for path in context.programs[:3])
    browser = chromium.Browser(1100, 1100)
    try:
        open_page(browser, page)
        yield from of_examples(browser, program, where)
        yield from of_tables(browser, where)
        yield from of_buttons(browser, program, where, context.new_folder())
        yield from of_mending(browser, repair, context.new_folder())
        yield from of_network(browser, page)
        yield from of_phone(browser, page)
        yield from of_sizes(browser, page, context.new_folder())
        yield from of_removed(browser, page)
        yield from of_others(browser, page)
    finally:
        browser.close()
