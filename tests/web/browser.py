"""A headless Chromium that is driven by the DevTools protocol over two pipes. Needs nothing but Python and Debian's package chromium."""
import atexit
import base64
import contextlib
import json
import os
import shutil
import subprocess
import tempfile
import threading
import time

USUAL = ("chromium", "chromium-browser", "google-chrome", "chromium-headless-shell")
# On a machine that is busy with other work everything may take so many times as long.
PATIENCE = float(os.environ.get("WEB_PATIENCE", "1"))
OPTIONS = ["--headless", "--no-sandbox", "--disable-gpu", "--hide-scrollbars", "--no-first-run", "--remote-debugging-pipe", "--enable-precise-memory-info"]


def program():
    """The browser's path, or None. CHROMIUM says which one is taken."""
    names = [os.environ["CHROMIUM"]] if os.environ.get("CHROMIUM") else USUAL
    return next(filter(None, map(shutil.which, names)), None)


class Browser:
    """Messages are JSON, and a 0 byte ends each. The browser is ended after so many seconds."""

    def __init__(self, path, seconds=1800):
        profile = tempfile.mkdtemp(prefix="web-tried-")
        atexit.register(shutil.rmtree, profile, ignore_errors=True)
        read, self.to_browser = os.pipe()
        self.from_browser, write = os.pipe()

        def place():
            # By way of numbers that are free, since one of the four may be 3 or 4 itself.
            os.dup2(read, 60)
            os.dup2(write, 61)
            os.dup2(60, 3)
            os.dup2(61, 4)

        nothing = subprocess.DEVNULL
        words = [path, *OPTIONS, f"--user-data-dir={profile}", "about:blank"]
        self.process = subprocess.Popen(words, stdin=nothing, stdout=nothing, stderr=nothing, preexec_fn=place, pass_fds=(3, 4))
        os.close(read)
        os.close(write)
        self.watch = threading.Timer(seconds * PATIENCE, self.process.kill)
        self.watch.daemon = True
        self.watch.start()
        self.rest, self.count, self.session, self.events = b"", 0, None, []
        pages = [it for it in self.send("Target.getTargets")["targetInfos"] if it["type"] == "page"]
        self.session = self.send("Target.attachToTarget", targetId=pages[0]["targetId"], flatten=True)["sessionId"]
        for domain in ("Page", "Runtime", "Network", "Log"):
            self.send(domain + ".enable")

    def message(self):
        while b"\0" not in self.rest:
            piece = os.read(self.from_browser, 1 << 20)
            if not piece:
                raise EOFError("the browser ended")
            self.rest += piece
        message, self.rest = self.rest.split(b"\0", 1)
        return json.loads(message)

    def send(self, method, **parameters):
        self.count += 1
        message = {"id": self.count, "method": method, "params": parameters}
        if self.session:
            message["sessionId"] = self.session
        data = json.dumps(message).encode() + b"\0"
        while data:
            data = data[os.write(self.to_browser, data):]
        while True:
            answer = self.message()
            if answer.get("id") == self.count:
                if "error" in answer:
                    raise RuntimeError(f"{method}: {answer['error']['message']}")
                return answer["result"]
            self.events.append(answer)

    def open(self, address):
        """Opens an address, also where only its fragment differs from the page's, and waits until it is loaded."""
        for each in ("about:blank", address):
            self.events = []
            self.send("Page.navigate", url=each)
            while not any(event.get("method") == "Page.loadEventFired" for event in self.events):
                self.events.append(self.message())

    @contextlib.contextmanager
    def preloaded(self, script):
        """Within this context each page that is opened runs a script before its own."""
        added = self.send("Page.addScriptToEvaluateOnNewDocument", source=script)["identifier"]
        yield
        self.send("Page.removeScriptToEvaluateOnNewDocument", identifier=added)

    def value(self, expression):
        """The value of an expression of the page, which may be a promise."""
        answer = self.send("Runtime.evaluate", expression=expression, returnByValue=True, awaitPromise=True)
        if "exceptionDetails" in answer:
            raise RuntimeError(answer["exceptionDetails"].get("exception", {}).get("description") or answer["exceptionDetails"]["text"])
        return answer["result"].get("value")

    def call(self, function, *arguments):
        """Calls a function of the page with values."""
        return self.value(f"({function})({', '.join(json.dumps(argument) for argument in arguments)})")

    def in_frame(self, expression):
        """The value of an expression in the page's first frame, also where that frame has another origin."""
        page, self.session = self.session, None
        try:
            frames = [it for it in self.send("Target.getTargets")["targetInfos"] if it["type"] == "iframe"]
            if frames:
                self.session = self.send("Target.attachToTarget", targetId=frames[0]["targetId"], flatten=True)["sessionId"]
                return self.value(expression)
        finally:
            self.session = page
        frame = self.send("Page.getFrameTree")["frameTree"]["childFrames"][0]["frame"]["id"]
        world = self.send("Page.createIsolatedWorld", frameId=frame)["executionContextId"]
        return self.send("Runtime.evaluate", expression=expression, contextId=world, returnByValue=True)["result"].get("value")

    def until(self, expression, seconds=30):
        """Waits until an expression is true, and returns how many seconds that took."""
        began = time.time()
        while not self.value(expression):
            if time.time() - began > seconds * PATIENCE:
                raise TimeoutError(f"not true after {seconds} seconds: {expression}")
            time.sleep(0.02)
        return time.time() - began

    def window(self, width, scheme="light", height=900):
        self.send("Emulation.setDeviceMetricsOverride", width=width, height=height, deviceScaleFactor=1, mobile=width < 600)
        self.send("Emulation.setEmulatedMedia", media="screen", features=[{"name": "prefers-color-scheme", "value": scheme}])

    def paper(self):
        """Shows the page as on paper, until the next call of window."""
        self.window(794, height=1123)
        self.send("Emulation.setEmulatedMedia", media="print", features=[])

    def picture(self, path, whole=False):
        data = self.send("Page.captureScreenshot", format="png", captureBeyondViewport=whole)["data"]
        with open(path, "wb") as file:
            file.write(base64.b64decode(data))

    def collect(self):
        """Frees what the page no longer uses."""
        self.send("HeapProfiler.collectGarbage")

    def key(self, key, code="", modifiers=0, text=None):
        """Presses and releases a key. Modifiers: 1 Alt, 2 Control, 8 Shift."""
        named = {"Tab": 9, "Enter": 13, "Escape": 27, "F8": 119}
        base = {"key": key, "code": code or key, "modifiers": modifiers, "windowsVirtualKeyCode": named.get(key, ord(key.upper()) if key.isalnum() and len(key) == 1 else 0)}
        self.send("Input.dispatchKeyEvent", type="keyDown", **base, **({"text": text} if text else {}))
        self.send("Input.dispatchKeyEvent", type="keyUp", **base)

    def click(self, x, y):
        for kind in ("mousePressed", "mouseReleased"):
            self.send("Input.dispatchMouseEvent", type=kind, x=x, y=y, button="left", clickCount=1)

    def complaints(self):
        """Errors that the page wrote to the console, and what its policy refused."""
        found = []
        for event in self.events:
            if event.get("method") == "Runtime.exceptionThrown":
                details = event["params"]["exceptionDetails"]
                found.append(details.get("exception", {}).get("description") or details["text"])
            if event.get("method") == "Log.entryAdded" and event["params"]["entry"]["level"] == "error":
                found.append(event["params"]["entry"]["text"])
            if event.get("method") == "Runtime.consoleAPICalled" and event["params"]["type"] in ("error", "assert"):
                found.append(str(event["params"]["args"]))
        return found

    def requests(self):
        """The addresses that the page asked for."""
        return [event["params"]["request"]["url"] for event in self.events if event.get("method") == "Network.requestWillBeSent"]

    def close(self):
        self.watch.cancel()
        self.session = None
        try:
            self.send("Browser.close")
        except (EOFError, OSError):
            pass
        self.process.wait()
