"""A page in headless Chromium, by the DevTools protocol over two pipes: what its console says, what its script answers, and a picture of it.

  tests/chromium.py PAGE.html[#AT] PICTURE.png [SCRIPT]   writes a picture of the page, after the script was run"""
import base64
import json
import os
import pathlib
import select
import shutil
import subprocess
import sys
import tempfile
import time

from spawned import SECONDS

NAMES = "chromium", "chromium-browser", "google-chrome"
WORDS = (
    "--headless=new", "--no-sandbox", "--disable-gpu", "--enable-unsafe-swiftshader", "--hide-scrollbars", "--no-first-run", "--disable-background-networking", "--disable-component-update",
    "--disable-dev-shm-usage", "--force-prefers-reduced-motion", "--remote-debugging-pipe", "about:blank",
)  # fmt: skip
# What the driver of WebGL says of its own reading of pixels.
DRIVER = "GL Driver Message"


def found():
    """The path of a browser, or None."""
    return next(filter(None, map(shutil.which, NAMES)), None)


class Browser:
    """A browser with one page."""

    def __init__(self, width=1200, height=720):
        self.folder = tempfile.mkdtemp(prefix="igesolid-chromium-")
        read_by_it, self.out = os.pipe()
        self.into, written_by_it = os.pipe()

        def pipes():
            os.dup2(read_by_it, 63)
            os.dup2(written_by_it, 64)
            os.dup2(63, 3)
            os.dup2(64, 4)

        words = [found(), f"--user-data-dir={self.folder}", f"--window-size={width},{height}", *WORDS]
        self.process = subprocess.Popen(words, stdin=subprocess.DEVNULL, stdout=subprocess.DEVNULL, stderr=subprocess.DEVNULL, preexec_fn=pipes, close_fds=False)
        os.close(read_by_it)
        os.close(written_by_it)
        self.buffer, self.count, self.session, self.faults, self.requests = b"", 0, None, [], []
        target = self.call("Target.createTarget", url="about:blank")["targetId"]
        self.session = self.call("Target.attachToTarget", targetId=target, flatten=True)["sessionId"]
        for domain in ("Page", "Runtime", "Log", "Network"):
            self.call(f"{domain}.enable")
        self.call("Emulation.setDeviceMetricsOverride", width=width, height=height, deviceScaleFactor=1, mobile=False)

    def message(self):
        """The next message of the browser."""
        end = time.monotonic() + SECONDS
        while b"\0" not in self.buffer:
            if not select.select([self.into], [], [], max(0, end - time.monotonic()))[0]:
                raise TimeoutError("the browser says nothing")
            piece = os.read(self.into, 1 << 20)
            if not piece:
                raise EOFError("the browser ended")
            self.buffer += piece
        text, self.buffer = self.buffer.split(b"\0", 1)
        return json.loads(text)

    def heed(self, message):
        """Keeps what the console says, and what the page asks of the network."""
        method, told = message.get("method"), message.get("params", {})
        if method == "Runtime.exceptionThrown":
            self.faults.append(told["exceptionDetails"].get("exception", {}).get("description", told["exceptionDetails"]["text"]))
        elif method == "Runtime.consoleAPICalled" and told["type"] in ("error", "warning", "assert"):
            self.faults.append(str(told["args"]))
        elif method == "Log.entryAdded" and told["entry"]["level"] in ("error", "warning") and DRIVER not in told["entry"]["text"]:
            self.faults.append(told["entry"]["text"])
        elif method == "Network.requestWillBeSent":
            self.requests.append(told["request"]["url"])

    def call(self, method, **words):
        self.count += 1
        message = {"id": self.count, "method": method, "params": words}
        if self.session:
            message["sessionId"] = self.session
        told = memoryview(json.dumps(message).encode() + b"\0")
        while told:
            told = told[os.write(self.out, told) :]
        while (message := self.message()).get("id") != self.count:
            self.heed(message)
        if "error" in message:
            raise RuntimeError(message["error"]["message"])
        return message["result"]

    def open(self, path, at=""):
        """Opens a page, and waits until it is drawn."""
        self.faults, self.requests = [], []
        self.call("Page.navigate", url="about:blank")
        self.call("Page.navigate", url=pathlib.Path(path).resolve().as_uri() + at)
        while self.run("document.readyState") != "complete" or self.run("location.href") == "about:blank":
            time.sleep(0.01)
        self.run("new Promise(done => requestAnimationFrame(() => requestAnimationFrame(done)))")

    def run(self, script):
        """The value of a script in the page."""
        told = self.call("Runtime.evaluate", expression=script, returnByValue=True, awaitPromise=True)
        if "exceptionDetails" in told:
            raise RuntimeError(told["exceptionDetails"].get("exception", {}).get("description", "a script failed"))
        return told["result"].get("value")

    def key(self, key, shift=False):
        for kind in ("rawKeyDown", "keyUp"):
            self.call("Input.dispatchKeyEvent", type=kind, key=key, code=key, modifiers=8 if shift else 0)

    def mouse(self, kind, x, y, **more):
        self.call("Input.dispatchMouseEvent", type=kind, x=x, y=y, **more)

    def click(self, x, y):
        for kind in ("mousePressed", "mouseReleased"):
            self.mouse(kind, x, y, button="left", clickCount=1)

    def picture(self, **how):
        """The bytes of a picture of the page, as PNG unless another format is asked for."""
        return base64.b64decode(self.call("Page.captureScreenshot", **{"format": "png", **how})["data"])

    def close(self):
        try:
            self.session = None
            self.call("Browser.close")
        except (OSError, EOFError, TimeoutError):
            pass
        try:
            self.process.wait(timeout=10)
        except subprocess.TimeoutExpired:
            self.process.kill()
            self.process.wait()
        os.close(self.out)
        os.close(self.into)
        shutil.rmtree(self.folder, ignore_errors=True)


if __name__ == "__main__":
    browser = Browser()
    path, _, at = sys.argv[1].partition("#")
    browser.open(path, at and f"#{at}")
    if len(sys.argv) > 3:
        browser.run(sys.argv[3])
        browser.run("new Promise(done => setTimeout(done, 600))")
    pathlib.Path(sys.argv[2]).write_bytes(browser.picture())
    print(*browser.faults, sep="\n", end="\n" if browser.faults else "")
    browser.close()
