"""Chromium and Firefox without a screen, as far as the tests of the pages need them: by the Chrome DevTools Protocol and by WebDriver BiDi."""
import base64
import json
import os
import pathlib
import shutil
import socket
import subprocess
import time
import urllib.request

# after so many seconds a browser or a program hangs: far more than either takes on a slow and busy machine
WAIT = 600
MARGIN = 8
NAMES = {"chromium": ("chromium", "chromium-browser", "google-chrome"), "firefox": ("firefox-esr", "firefox")}


class Socket:
    """A WebSocket to a browser, as far as these protocols need one (RFC 6455)."""

    def __init__(self, address):
        host, path = address.removeprefix("ws://").split("/", 1)
        self.stream = socket.create_connection(host.split(":"), WAIT)
        key = base64.b64encode(os.urandom(16)).decode()
        lines = [f"GET /{path} HTTP/1.1", f"Host: {host}", "Upgrade: websocket", "Connection: Upgrade", f"Sec-WebSocket-Key: {key}", "Sec-WebSocket-Version: 13"]
        self.stream.sendall("".join(line + "\r\n" for line in [*lines, ""]).encode())
        self.reader = self.stream.makefile("rb")
        while self.reader.readline().strip():
            pass
        self.count = 0

    def send(self, text):
        data, mask = text.encode(), os.urandom(4)
        if len(data) < 126:
            size = bytes([0x80 | len(data)])
        else:
            size = b"\xfe" + len(data).to_bytes(2, "big") if len(data) < 1 << 16 else b"\xff" + len(data).to_bytes(8, "big")
        masked = (int.from_bytes(data, "big") ^ int.from_bytes((mask * (len(data) // 4 + 1))[: len(data)], "big")).to_bytes(len(data), "big")
        self.stream.sendall(b"\x81" + size + mask + masked)

    def receive(self):
        """The next text."""
        text, is_last = b"", False
        while not is_last:
            first, size = self.reader.read(2)
            size = int.from_bytes(self.reader.read({126: 2, 127: 8}[size]), "big") if size > 125 else size
            text, is_last = text + self.reader.read(size), bool(first & 0x80)
        return text.decode()

    def ask(self, method, **parameters):
        """What the browser answers to a command."""
        self.count += 1
        self.send(json.dumps({"id": self.count, "method": method, "params": parameters}))
        while True:
            told = json.loads(self.receive())
            if told.get("id") == self.count:
                return told


def until(ask, *faults, what="an answer"):
    """The first answer that isn't a fault or nothing."""
    end = time.monotonic() + WAIT
    while time.monotonic() < end:
        try:
            answer = ask()
        except faults:
            answer = None
        if answer:
            return answer
        time.sleep(0.02)
    raise TimeoutError(f"the browser hangs: {what} did not come within {WAIT} seconds")


class Page:
    """What both browsers do with a page, over `evaluate`. Times are measured in all, and tested if `is_timed`."""

    is_timed = False

    def open(self, address):
        self.visit("about:blank")
        self.visit(address)
        until(lambda: self.evaluate("document.body?.dataset.shown"), what=f"the first view of {address[:200]}")

    def does(self, action, counter="shown"):
        """Does what changes the page, and waits until it shows that."""
        before = self.evaluate(f"document.body.dataset.{counter} ?? '0'")
        self.evaluate(action)
        until(lambda: self.evaluate(f"document.body.dataset.{counter}") not in (before, None), what=f"another {counter} after {action[:200]}")

    def click(self, place, counter="shown"):
        self.does(f"document.querySelector({json.dumps(place)}).dispatchEvent(new MouseEvent('click', {{bubbles: true}}))", counter)

    def put(self, name, value, event=None):
        """Gives a field a value."""
        told = f"; document.getElementById('{name}').dispatchEvent(new Event('{event}'))" if event else ""
        action = f"document.getElementById('{name}').value = {json.dumps(value)}{told}"
        self.does(action) if event else self.evaluate(action)

    def load(self, text, **fields):
        """Puts a script into the page's field, and runs it."""
        for name, value in {"script": text, **fields}.items():
            self.put(name.replace("_", "-"), value)
        self.click("#run")
        self.rests()

    def rests(self):
        """Waits until no orders are searched."""
        until(lambda: self.evaluate("!document.body.classList.contains('searching')"), what="the end of a search")

    def press(self, key, place=None, **more):
        """The script that presses a key at an element, or where the focus is."""
        target = f"document.querySelector({json.dumps(place)})" if place else "(document.activeElement ?? document.body)"
        options = json.dumps({"key": key, "bubbles": True, "cancelable": True, **more})
        return f"{target}.dispatchEvent(new KeyboardEvent('keydown', {options}))"

    def text(self, name):
        return self.evaluate(f"document.getElementById('{name}').textContent")

    def value(self, name):
        return self.evaluate(f"document.getElementById('{name}').value")

    def texts(self, places):
        return self.evaluate(f"[...document.querySelectorAll({json.dumps(places)})].map((it) => it.textContent)")

    def rows(self, name):
        """The cells of a table's rows."""
        return self.evaluate(f"[...document.querySelectorAll('#{name} tr')].map((row) => [...row.cells].map((cell) => cell.textContent))")

    def answers(self):
        """The answers of the run, without the explanations of refused ones."""
        return self.evaluate("[...document.querySelectorAll('#lines pre')].map((it) => it.textContent.split('\\n')[0])")


class Chromium(Page):
    def __init__(self, program, folder):
        words = ["--headless", "--no-sandbox", "--disable-gpu", "--no-first-run", "--remote-debugging-port=0", f"--user-data-dir={folder}", "about:blank"]
        self.name, self.process = "chromium", subprocess.Popen([program, *words], stdout=subprocess.DEVNULL, stderr=subprocess.DEVNULL)
        port = until(lambda: (pathlib.Path(folder) / "DevToolsActivePort").read_text().split()[0], OSError, IndexError)
        pages = until(lambda: json.load(urllib.request.urlopen(f"http://127.0.0.1:{port}/json")), OSError)
        self.socket = Socket(next(page["webSocketDebuggerUrl"] for page in pages if page["type"] == "page"))

    def command(self, method, **parameters):
        return self.socket.ask(method, **parameters)["result"]

    def visit(self, address):
        self.command("Page.navigate", url=address)

    def evaluate(self, expression):
        told = self.command("Runtime.evaluate", expression=expression, awaitPromise=True, returnByValue=True)
        if "exceptionDetails" in told:
            raise RuntimeError(f"{expression[:500]}: {told['exceptionDetails']}")
        return told["result"].get("value")

    def resize(self, width, height):
        self.command("Emulation.setDeviceMetricsOverride", width=width, height=height, deviceScaleFactor=1, mobile=False)
        self.command("Emulation.setScrollbarsHidden", hidden=True)

    def tab(self):
        """Presses the Tab key, as a person does."""
        for kind in ("keyDown", "keyUp"):
            self.command("Input.dispatchKeyEvent", type=kind, key="Tab", code="Tab", windowsVirtualKeyCode=9)

    def darken(self, is_dark):
        self.command("Emulation.setEmulatedMedia", features=[{"name": "prefers-color-scheme", "value": "dark" if is_dark else "light"}])

    def shoot(self, first, last):
        """An image of two elements and what lies between them, as PNG."""
        sides = ", ".join(f"document.querySelector({json.dumps(place)}).getBoundingClientRect()" for place in (first, last))
        left, top, right, bottom = self.evaluate(f"(([a, b]) => [Math.min(a.x, b.x), a.y, Math.max(a.right, b.right), b.bottom])([{sides}])")
        width, scrolled = self.evaluate("[innerWidth, scrollY]")
        left, top, right, bottom = max(left - MARGIN, 0), max(top - MARGIN, 0), min(right + MARGIN, width), bottom + MARGIN
        clip = {"x": left, "y": top + scrolled, "width": right - left, "height": bottom - top, "scale": 1}
        return base64.b64decode(self.command("Page.captureScreenshot", format="png", clip=clip, captureBeyondViewport=True)["data"])

    def close(self):
        self.process.terminate()
        self.process.wait()


def _plain(told):
    """A value that Firefox sends with its type."""
    if told["type"] == "array":
        return [_plain(it) for it in told["value"]]
    if told["type"] == "object":
        return {name: _plain(it) for name, it in told["value"]}
    return told.get("value")


class Firefox(Page):
    def __init__(self, program, folder):
        words = ["--headless", "--no-remote", "--profile", folder, "--remote-debugging-port=0", "about:blank"]
        self.name = "firefox"
        self.process = subprocess.Popen([program, *words], env={**os.environ, "HOME": folder, "MOZ_HEADLESS": "1"}, stdout=subprocess.DEVNULL, stderr=subprocess.DEVNULL)
        port = until(lambda: json.loads((pathlib.Path(folder) / "WebDriverBiDiServer.json").read_text())["ws_port"], OSError, ValueError)
        self.socket = Socket(f"ws://127.0.0.1:{port}/session")
        self.command("session.new", capabilities={})
        self.context = until(lambda: self.command("browsingContext.getTree")["contexts"])[0]["context"]

    def command(self, method, **parameters):
        told = self.socket.ask(method, **parameters)
        if told["type"] != "success":
            raise RuntimeError(f"{method}: {told}")
        return told["result"]

    def visit(self, address):
        self.command("browsingContext.navigate", context=self.context, url=address, wait="complete")

    def evaluate(self, expression):
        told = self.command("script.evaluate", expression=expression, target={"context": self.context}, awaitPromise=True)
        if told["type"] != "success":
            raise RuntimeError(f"{expression[:500]}: {told['exceptionDetails']['text']}")
        return _plain(told["result"])

    def tab(self):
        """Presses the Tab key, as a person does."""
        presses = [{"type": kind, "value": "\ue004"} for kind in ("keyDown", "keyUp")]
        self.command("input.performActions", context=self.context, actions=[{"type": "key", "id": "keys", "actions": presses}])

    def resize(self, width, height):
        self.command("browsingContext.setViewport", context=self.context, viewport={"width": width, "height": height})

    def close(self):
        self.process.terminate()
        self.process.wait()


def found(kind):
    """The program of a browser; None if it is not installed. BROWSER names another Chromium."""
    named = [os.environ.get("BROWSER", "")] if kind == "chromium" else []
    return next(filter(None, map(shutil.which, [*named, *NAMES[kind]])), None)


def started(kind, folder):
    return {"chromium": Chromium, "firefox": Firefox}[kind](found(kind), folder)
