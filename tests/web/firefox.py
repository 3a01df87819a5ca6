"""A headless Firefox that is driven by WebDriver BiDi over a socket, with the methods of browser.py. Needs nothing but Python and Debian's
package firefox-esr."""
import atexit
import base64
import contextlib
import json
import os
import re
import shutil
import socket
import struct
import subprocess
import tempfile
import threading
import time

from browser import PATIENCE

USUAL = ("firefox-esr", "firefox")
# Nothing is updated, reported or asked for at the start. The preferences that Firefox has for tests are off: among others they let a page
# that is opened from disk read its neighbours.
PREFERENCES = {
    "app.normandy.enabled": False, "app.update.disabledForTesting": True, "browser.safebrowsing.downloads.enabled": False,
    "browser.safebrowsing.malware.enabled": False, "browser.safebrowsing.phishing.enabled": False, "browser.shell.checkDefaultBrowser": False,
    "browser.startup.page": 0, "datareporting.policy.dataSubmissionEnabled": False, "dom.disable_beforeunload": True,
    "extensions.update.enabled": False, "network.captive-portal-service.enabled": False, "network.connectivity-service.enabled": False,
    "remote.prefs.recommended": False, "services.settings.server": "data:,", "toolkit.telemetry.enabled": False, "ui.prefersReducedMotion": 1,
}
MOST_IN_HEAD = 1 << 16
# Keys that WebDriver names by a character of Unicode's private area.
KEYS = {"Tab": "\ue004", "Enter": "\ue006", "Escape": "\ue00c", "F8": "\ue038", "Home": "\ue011", "End": "\ue010", "ArrowLeft": "\ue012",
        "ArrowUp": "\ue013", "ArrowRight": "\ue014", "ArrowDown": "\ue015"}
MODIFIERS = {1: "\ue00a", 2: "\ue009", 8: "\ue008"}
NUMBERS = {"NaN": float("nan"), "Infinity": float("inf"), "-Infinity": float("-inf"), "-0": -0.0}


def program():
    """The browser's path, or None. FIREFOX says which one is taken."""
    names = [os.environ["FIREFOX"]] if os.environ.get("FIREFOX") else USUAL
    return next(filter(None, map(shutil.which, names)), None)


class WebSocket:
    """A client's side of a WebSocket (RFC 6455) on this computer, for texts."""

    def __init__(self, port):
        self.connection = socket.create_connection(("127.0.0.1", port))
        key = base64.b64encode(os.urandom(16)).decode()
        head = f"GET /session HTTP/1.1\r\nHost: 127.0.0.1:{port}\r\nUpgrade: websocket\r\nConnection: Upgrade\r\n"
        self.connection.sendall(f"{head}Sec-WebSocket-Key: {key}\r\nSec-WebSocket-Version: 13\r\n\r\n".encode())
        self.rest = b""
        while b"\r\n\r\n" not in self.rest:
            self.receive()
        answer, self.rest = self.rest.split(b"\r\n\r\n", 1)
        if not answer.startswith(b"HTTP/1.1 101"):
            raise RuntimeError(answer[:200].decode(errors="replace"))

    def receive(self):
        piece = self.connection.recv(MOST_IN_HEAD)
        if not piece:
            raise EOFError("the browser ended")
        self.rest += piece

    def take(self, count):
        while len(self.rest) < count:
            self.receive()
        taken, self.rest = self.rest[:count], self.rest[count:]
        return taken

    def send(self, text):
        data, mask = text.encode(), os.urandom(4)
        length = len(data)
        size = bytes([0x80 | length]) if length < 126 else b"\xfe" + struct.pack(">H", length) if length < 65536 else b"\xff" + struct.pack(">Q", length)
        pattern = (mask * (length // 4 + 1))[:length]
        masked = (int.from_bytes(data, "big") ^ int.from_bytes(pattern, "big")).to_bytes(length, "big")
        self.connection.sendall(b"\x81" + size + mask + masked)

    def message(self):
        """The next text, of one frame or of more. Other frames are left out."""
        parts = []
        while True:
            head = self.take(2)
            length = head[1] & 127
            length = struct.unpack(">H", self.take(2))[0] if length == 126 else struct.unpack(">Q", self.take(8))[0] if length == 127 else length
            data = self.take(length)
            if head[0] & 15 < 3:
                parts.append(data)
                if head[0] & 128:
                    return b"".join(parts).decode()
            elif head[0] & 15 == 8:
                raise EOFError("the browser closed the connection")


def plain(value):
    """A value of Python for one that the browser sent."""
    kind, of = value["type"], value.get("value")
    if kind == "array":
        return list(map(plain, of))
    if kind == "object":
        return {key: plain(part) for key, part in of}
    return NUMBERS.get(of, of) if kind == "number" and isinstance(of, str) else of


class Browser:
    """One page of a headless Firefox. The browser is ended after so many seconds."""

    def __init__(self, path, seconds=1800):
        profile = tempfile.mkdtemp(prefix="web-tried-")
        atexit.register(shutil.rmtree, profile, ignore_errors=True)
        with open(os.path.join(profile, "user.js"), "w", encoding="utf-8") as file:
            file.writelines(f"user_pref({json.dumps(name)}, {json.dumps(value)});\n" for name, value in PREFERENCES.items())
        words = [path, "--headless", "--no-remote", "--profile", profile, "--remote-debugging-port", "0"]
        self.process = subprocess.Popen(words, stdin=subprocess.DEVNULL, stdout=subprocess.DEVNULL, stderr=subprocess.PIPE, text=True, errors="replace")
        self.watch = threading.Timer(seconds * PATIENCE, self.process.kill)
        self.watch.daemon = True
        self.watch.start()
        self.socket, self.count, self.events, self.scheme = WebSocket(self.port()), 0, [], "light"
        threading.Thread(target=self.process.stderr.read, daemon=True).start()
        self.send("session.new", capabilities={})
        self.context = self.send("browsingContext.getTree")["contexts"][0]["context"]
        self.send("session.subscribe", events=["log.entryAdded", "network.beforeRequestSent"])

    def port(self):
        """The port that the browser prints."""
        for line in self.process.stderr:
            found = re.search(r"listening on ws://127\.0\.0\.1:(\d+)", line)
            if found:
                return int(found[1])
        raise EOFError("the browser ended at its start")

    def send(self, method, **parameters):
        self.count += 1
        self.socket.send(json.dumps({"id": self.count, "method": method, "params": parameters}))
        while True:
            answer = json.loads(self.socket.message())
            if answer.get("id") == self.count:
                if answer["type"] == "error":
                    raise RuntimeError(f"{method}: {answer['message']}")
                return answer["result"]
            self.events.append(answer)

    def open(self, address):
        """Opens an address, also where only its fragment differs from the page's, and waits until it is loaded."""
        for each in ("about:blank", address):
            self.events = []
            self.send("browsingContext.navigate", context=self.context, url=each, wait="complete")
        # The protocol can't choose the system's colours, but the pages have a choice of their own.
        self.value(f"document.documentElement.dataset.theme = '{self.scheme}'")

    @contextlib.contextmanager
    def preloaded(self, script):
        """Within this context each page that is opened runs a script before its own."""
        added = self.send("script.addPreloadScript", functionDeclaration=f"() => {{ {script} }}")["script"]
        yield
        self.send("script.removePreloadScript", script=added)

    def in_frame(self, expression):
        """The value of an expression in the page's first frame, also where that frame has another origin."""
        tree = self.send("browsingContext.getTree", root=self.context)["contexts"][0]
        return self.value(expression, tree["children"][0]["context"])

    def value(self, expression, context=None):
        """The value of an expression of the page, or of the context of a frame, which may be a promise."""
        target = {"context": context or self.context}
        answer = self.send("script.evaluate", expression=expression, target=target, awaitPromise=True, userActivation=True)
        if answer["type"] == "exception":
            raise RuntimeError(answer["exceptionDetails"]["text"])
        return plain(answer["result"])

    def call(self, function, *arguments):
        """Calls a function of the page with values."""
        return self.value(f"({function})({', '.join(json.dumps(argument) for argument in arguments)})")

    def until(self, expression, seconds=30):
        """Waits until an expression is true, and returns how many seconds that took."""
        began = time.time()
        while not self.value(expression):
            if time.time() - began > seconds * PATIENCE:
                raise TimeoutError(f"not true after {seconds} seconds: {expression}")
            time.sleep(0.02)
        return time.time() - began

    def window(self, width, scheme="light", height=900):
        self.send("browsingContext.setViewport", context=self.context, viewport={"width": width, "height": height}, devicePixelRatio=1)
        self.scheme = scheme

    def picture(self, path, whole=False):
        data = self.send("browsingContext.captureScreenshot", context=self.context, origin="document" if whole else "viewport")["data"]
        with open(path, "wb") as file:
            file.write(base64.b64decode(data))

    def collect(self):
        """Gives the browser time to free what the page no longer uses: the protocol can't ask for it."""
        time.sleep(10)

    def key(self, key, code="", modifiers=0, text=None):
        """Presses and releases a key. Modifiers: 1 Alt, 2 Control, 8 Shift."""
        held = [sign for bit, sign in MODIFIERS.items() if modifiers & bit]
        pressed = [*held, KEYS.get(key, key)]
        actions = [{"type": "keyDown", "value": sign} for sign in pressed] + [{"type": "keyUp", "value": sign} for sign in reversed(pressed)]
        self.send("input.performActions", context=self.context, actions=[{"type": "key", "id": "keyboard", "actions": actions}])

    def click(self, x, y):
        actions = [{"type": "pointerMove", "x": round(x), "y": round(y)}, {"type": "pointerDown", "button": 0}, {"type": "pointerUp", "button": 0}]
        self.send("input.performActions", context=self.context, actions=[{"type": "pointer", "id": "mouse", "actions": actions}])

    def complaints(self):
        """Errors that the page wrote to the console, and what its policy refused."""
        entries = [event["params"] for event in self.events if event.get("method") == "log.entryAdded"]
        return [entry["text"] for entry in entries if entry["level"] == "error"]

    def requests(self):
        """The addresses that the page asked for."""
        return [event["params"]["request"]["url"] for event in self.events if event.get("method") == "network.beforeRequestSent"]

    def close(self):
        self.watch.cancel()
        try:
            self.send("browser.close")
        except (EOFError, OSError):
            pass
        self.process.wait()
