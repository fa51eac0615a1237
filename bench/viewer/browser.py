"""Drives a headless Chromium over the pipe of its DevTools protocol. Needs the Debian package chromium."""
import base64
import json
import os
import select
import shutil
import subprocess
import tempfile
import time

KEYS = {"Home": 36, "End": 35, "ArrowLeft": 37, "ArrowRight": 39, "PageUp": 33, "PageDown": 34, " ": 32}


class Browser:
    """A Chromium with one page. What it says on its console, of dialogs and of requests is kept in `said`."""

    def __init__(self, width=1440, height=900, dark=False, scale=1):
        self.folder, self.number, self.said, self.events, self.buffer = tempfile.mkdtemp(prefix="browser."), 0, [], [], b""
        inner_read, self.write = os.pipe()
        self.read, inner_write = os.pipe()
        words = ["chromium", "--headless=new", "--no-sandbox", "--disable-gpu", "--disable-background-networking", "--hide-scrollbars", "--no-first-run",
                 f"--user-data-dir={self.folder}", "--remote-debugging-pipe", "about:blank"]
        self.process = subprocess.Popen(["sh", "-c", f'exec "$@" 3<&{inner_read} 4>&{inner_write}', "sh", *words], pass_fds=(inner_read, inner_write),
                                        stdout=subprocess.DEVNULL, stderr=subprocess.DEVNULL)
        os.close(inner_read)
        os.close(inner_write)
        self.session = None
        target = self.ask("Target.createTarget", url="about:blank")["targetId"]
        self.session = self.ask("Target.attachToTarget", targetId=target, flatten=True)["sessionId"]
        for domain in "Page", "Runtime", "Log", "Network", "Performance":
            self.ask(f"{domain}.enable")
        self.ask("Emulation.setDeviceMetricsOverride", width=width, height=height, deviceScaleFactor=scale, mobile=width < 600)
        self.ask("Emulation.setEmulatedMedia", features=[{"name": "prefers-color-scheme", "value": "dark" if dark else "light"}])

    def __enter__(self):
        return self

    def __exit__(self, *_):
        self.process.terminate()
        self.process.wait()
        os.close(self.read)
        os.close(self.write)
        shutil.rmtree(self.folder, ignore_errors=True)

    def message(self, seconds):
        """The next message of the browser."""
        end = time.monotonic() + seconds
        while b"\0" not in self.buffer:
            if not select.select([self.read], [], [], max(0, end - time.monotonic()))[0]:
                raise TimeoutError("Chromium does not answer")
            part = os.read(self.read, 1 << 20)
            if not part:
                raise EOFError("Chromium has ended")
            self.buffer += part
        text, _, self.buffer = self.buffer.partition(b"\0")
        return json.loads(text)

    def ask(self, method, seconds=60, **how):
        """Asks the browser, and gives its answer."""
        self.number += 1
        asked = {"id": self.number, "method": method, "params": how} | ({"sessionId": self.session} if self.session else {})
        os.write(self.write, json.dumps(asked).encode() + b"\0")
        while True:
            told = self.message(seconds)
            if told.get("id") == self.number:
                if "error" in told:
                    raise RuntimeError(f"{method}: {told['error']['message']}")
                return told["result"]
            self.hear(told)

    def hear(self, told):
        """Keeps an event, and what the page should not have said or asked for."""
        method, how = told.get("method"), told.get("params", {})
        self.events.append(method)
        if method == "Runtime.consoleAPICalled":
            self.said.append("console: " + " ".join(str(it.get("value", it.get("description"))) for it in how["args"]))
        elif method == "Runtime.exceptionThrown":
            self.said.append("exception: " + str(how["exceptionDetails"].get("exception", {}).get("description", how["exceptionDetails"]["text"])))
        elif method == "Log.entryAdded":
            self.said.append("log: " + how["entry"]["text"])
        elif method == "Page.javascriptDialogOpening":
            self.said.append("dialog: " + how["message"])
            self.number += 1
            os.write(self.write, json.dumps({"id": self.number, "method": "Page.handleJavaScriptDialog", "params": {"accept": True}, "sessionId": self.session}).encode() + b"\0")
        elif method == "Network.requestWillBeSent" and not how["request"]["url"].startswith(("file:", "data:", "blob:", "about:")):
            self.said.append("request: " + how["request"]["url"])

    def open(self, file, moment="", seconds=120):
        """Opens a file, and gives the seconds until its script had run and it was drawn."""
        self.events.clear()
        begun = time.monotonic()
        self.ask("Page.navigate", url=f"file://{os.path.abspath(file)}{moment}")
        while "Page.loadEventFired" not in self.events:
            self.hear(self.message(seconds))
        self.drawn()
        return time.monotonic() - begun

    def value(self, expression, seconds=120):
        """The value of an expression in the page, which may be a promise."""
        told = self.ask("Runtime.evaluate", seconds, expression=expression, awaitPromise=True, returnByValue=True)
        if "exceptionDetails" in told:
            raise RuntimeError(f"{expression}: {told['exceptionDetails'].get('exception', {}).get('description')}")
        return told["result"].get("value")

    def drawn(self):
        """Waits until what was asked for is drawn."""
        self.value("new Promise(done => requestAnimationFrame(() => requestAnimationFrame(done)))")

    def key(self, key, shift=False):
        """Presses a key."""
        for kind in "keyDown", "keyUp":
            how = {"type": kind, "key": key, "code": key if key in KEYS else f"Key{key.upper()}", "windowsVirtualKeyCode": KEYS.get(key, ord(key[0].upper())), "modifiers": 8 if shift else 0}
            self.ask("Input.dispatchKeyEvent", **how)
        self.drawn()

    def heap(self):
        """Bytes of the page's objects."""
        self.ask("HeapProfiler.collectGarbage")
        return next(it["value"] for it in self.ask("Performance.getMetrics")["metrics"] if it["name"] == "JSHeapUsedSize")

    def picture(self, file, whole=False):
        """Writes a PNG of what is seen, or of the whole page."""
        with open(file, "wb") as out:
            out.write(base64.b64decode(self.ask("Page.captureScreenshot", format="png", captureBeyondViewport=whole)["data"]))

    def paper(self, file):
        """Writes the page as it is printed, as PDF."""
        with open(file, "wb") as out:
            out.write(base64.b64decode(self.ask("Page.printToPDF", 120, printBackground=True, preferCSSPageSize=True)["data"]))
