"""A headless Firefox that is driven by WebDriver BiDi, with the standard library alone."""

import base64
import contextlib
import json
import os
import pathlib
import re
import secrets
import shutil
import socket
import struct
import subprocess
import tempfile
import time

NAMES = ("firefox-esr", "firefox")
INSTALL = "apt-get install -y firefox-esr"
MOST_SECONDS = 60
ADDRESS = re.compile(rb"WebDriver BiDi listening on ws://([\d.]+):(\d+)")
# No page of its own at the start, no update, no sandbox for root, and the scheme that a test wants.
SETTINGS = {
    "browser.shell.checkDefaultBrowser": False,
    "browser.startup.page": 0,
    "datareporting.policy.dataSubmissionEnabled": False,
    "app.update.enabled": False,
    "toolkit.telemetry.reportingpolicy.firstRun": False,
    "network.captive-portal-service.enabled": False,
    "network.connectivity-service.enabled": False,
    "remote.active-protocols": 1,
}


def program():
    """The browser of this machine, or None."""
    return next((found for name in NAMES if (found := shutil.which(name))), None)


class BrowserError(Exception):
    """The browser refused a command, ended, or took too long."""


class Socket:
    """The client's end of a WebSocket: texts out, texts in."""

    def __init__(self, host, port, path):
        self.line, self.held = socket.create_connection((host, port), MOST_SECONDS), b""
        key = base64.b64encode(secrets.token_bytes(16)).decode()
        head = f"GET {path} HTTP/1.1\r\nHost: {host}:{port}\r\nUpgrade: websocket\r\nConnection: Upgrade\r\n"
        self.line.sendall((head + f"Sec-WebSocket-Key: {key}\r\nSec-WebSocket-Version: 13\r\n\r\n").encode())
        while b"\r\n\r\n" not in self.held:
            self.held += self.more()
        said, _, self.held = self.held.partition(b"\r\n\r\n")
        if b" 101 " not in said.split(b"\r\n")[0]:
            raise BrowserError(said.decode(errors="replace"))

    def more(self):
        data = self.line.recv(1 << 20)
        if not data:
            raise BrowserError("the browser ended")
        return data

    def read(self, count):
        while len(self.held) < count:
            self.held += self.more()
        data, self.held = self.held[:count], self.held[count:]
        return data

    def send(self, text):
        data, mask = text.encode(), secrets.token_bytes(4)
        size = len(data)
        head = b"\x81" + (bytes([128 | size]) if size < 126 else struct.pack("!BH", 254, size) if size < 65536 else struct.pack("!BQ", 255, size))
        covered = int.from_bytes(data, "big") ^ int.from_bytes((mask * (size // 4 + 1))[:size], "big")
        self.line.sendall(head + mask + covered.to_bytes(size, "big"))

    def text(self):
        """The next text, of one frame or of several."""
        whole = b""
        while True:
            first, second = self.read(2)
            size = second & 127
            if size > 125:
                size = int.from_bytes(self.read(2 if size == 126 else 8), "big")
            data = self.read(size)
            if first & 15 == 8:
                raise BrowserError("the browser ended")
            whole += data if first & 15 < 3 else b""
            if first & 128 and first & 15 < 3:
                return whole.decode()

    def close(self):
        self.line.close()


class Browser:
    """One window. What pages say and ask for is gathered in `messages` and `requests`."""

    def __init__(self, is_dark=False):
        self.room = tempfile.mkdtemp(prefix="firefox-")
        settings = {**SETTINGS, "layout.css.prefers-color-scheme.content-override": 0 if is_dark else 1}
        with open(f"{self.room}/user.js", "w", encoding="ascii") as file:
            file.writelines(f"user_pref({json.dumps(name)}, {json.dumps(value)});\n" for name, value in settings.items())
        words = [program(), "--headless", "--no-remote", "--profile", self.room, "--remote-debugging-port", "0", "about:blank"]
        # What it says goes to a file: a pipe that nobody reads would stop it once it is full.
        self.said = pathlib.Path(self.room, "said")
        with open(self.said, "wb") as said:
            how = {"stdin": subprocess.DEVNULL, "stdout": subprocess.DEVNULL, "stderr": said, "start_new_session": True}
            self.process = subprocess.Popen(words, env={**os.environ, "HOME": self.room}, **how)
        self.last, self.replies, self.messages, self.requests = 0, {}, [], []
        try:
            self.socket = Socket(*self.address(), "/session")
            self.ask("session.new", capabilities={})
            # The window that is there at the start never has the focus.
            self.context = self.ask("browsingContext.create", type="window")["context"]
            self.ask("session.subscribe", events=["log.entryAdded", "network.beforeRequestSent"])
        except BaseException:
            self.end()
            raise

    def address(self):
        """Where it listens, as it says on standard error."""
        end = time.monotonic() + MOST_SECONDS
        while time.monotonic() < end and self.process.poll() is None:
            if found := ADDRESS.search(self.said.read_bytes()):
                return found[1].decode(), int(found[2])
            time.sleep(0.1)
        raise BrowserError(f"it does not listen: {self.state()}")

    def state(self):
        """Whether the process runs, and the last that it said."""
        status = self.process.poll()
        runs = "it runs" if status is None else f"its status is {status}"
        return f"{runs}, and it said {self.said.read_bytes()[-600:].decode(errors='replace')!r}"

    def end(self):
        self.process.kill()
        self.process.wait()
        shutil.rmtree(self.room, ignore_errors=True)

    def __enter__(self):
        return self

    def __exit__(self, *fault):
        with contextlib.suppress(BrowserError, OSError):
            self.ask("browser.close")
        self.socket.close()
        self.end()

    def ask(self, method, **given):
        """Sends a command, and gives its result."""
        self.last += 1
        try:
            self.socket.send(json.dumps({"id": self.last, "method": method, "params": given}))
            while (message := json.loads(self.socket.text())).get("id") != self.last:
                self.take(message)
        except (OSError, BrowserError) as fault:
            raise BrowserError(f"{method}: {fault or type(fault).__name__}: {self.state()}") from fault
        if message["type"] == "error":
            raise BrowserError(f"{method}: {message.get('message')}")
        return message["result"]

    def take(self, message):
        method, given = message.get("method"), message.get("params", {})
        if method == "log.entryAdded":
            self.messages.append(given.get("text") or "")
        elif method == "network.beforeRequestSent":
            self.requests.append(given["request"]["url"])

    def open(self, path):
        """Opens a file, and waits until it is loaded."""
        self.messages, self.requests = [], []
        self.ask("browsingContext.navigate", context=self.context, url=f"file://{path}", wait="complete")

    def evaluated(self, expression, context=None):
        target = {"context": context or self.context}
        reply = self.ask("script.evaluate", expression=expression, target=target, awaitPromise=True)
        if reply["type"] == "exception":
            raise BrowserError(reply["exceptionDetails"]["text"])
        return reply["result"]

    def run(self, expression, context=None):
        """The value of an expression in the page, as JSON has it; a promise is waited for."""
        made = self.evaluated(f"Promise.resolve({expression}).then(it => JSON.stringify(it === undefined ? null : it))", context)
        return json.loads(made["value"])

    def run_in_frame(self, expression):
        """The same in the page's one frame."""
        tree = self.ask("browsingContext.getTree", root=self.context)["contexts"][0]
        return self.run(expression, tree["children"][0]["context"])

    def put_file(self, selector, path):
        """Puts a file into an input, as its reader picks it."""
        element = self.evaluated(f"document.querySelector({json.dumps(selector)})")["sharedId"]
        self.ask("input.setFiles", context=self.context, element={"sharedId": element}, files=[str(path)])

    def save_to(self, folder):
        """Has downloads go to a folder."""
        self.ask("browser.setDownloadBehavior", downloadBehavior={"type": "allowed", "destinationFolder": str(folder)})

    def size(self, width, height):
        self.ask("browsingContext.setViewport", context=self.context, viewport={"width": width, "height": height})

    def press(self, key):
        """Presses and releases a key, by its name in WebDriver's list."""
        code = {"Tab": "\ue004", "Enter": "\ue007", "Escape": "\ue00c"}.get(key, key)
        actions = [{"type": "keyDown", "value": code}, {"type": "keyUp", "value": code}]
        self.ask("input.performActions", context=self.context, actions=[{"type": "key", "id": "keys", "actions": actions}])

    def picture(self, path, whole=True):
        """Writes a picture of the page to a file."""
        origin = "document" if whole else "viewport"
        data = self.ask("browsingContext.captureScreenshot", context=self.context, origin=origin)["data"]
        with open(path, "wb") as file:
            file.write(base64.b64decode(data))


def starts():
    """Whether the browser is there, and opens a window."""
    try:
        with opened() as window:
            window.run("1")
    except (BrowserError, OSError, TypeError):
        return False
    return True


@contextlib.contextmanager
def opened(is_dark=False):
    """A browser that ends with the block."""
    with Browser(is_dark) as browser:
        yield browser
