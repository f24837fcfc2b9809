"""A headless Chromium that is driven by its DevTools protocol over a pipe, with the standard library alone."""

import base64
import contextlib
import fcntl
import json
import os
import select
import shutil
import subprocess
import tempfile
import time

NAMES = ("chromium", "chromium-browser", "google-chrome", "google-chrome-stable")
INSTALL = "apt-get install -y chromium"
WORDS = ("--headless=new", "--no-sandbox", "--disable-gpu", "--no-first-run", "--disable-extensions", "--disable-background-networking")
MOST_SECONDS = 60
CODES = {"Enter": 13, "Escape": 27, "Tab": 9, "ArrowUp": 38, "ArrowDown": 40, "ArrowLeft": 37, "ArrowRight": 39, "Home": 36, "End": 35,
         "PageUp": 33, "PageDown": 34}  # fmt: skip


def program():
    """The browser of this machine, or None."""
    return next((found for name in NAMES if (found := shutil.which(name))), None)


class BrowserError(Exception):
    """The browser refused a command, ended, or took too long."""


class Browser:
    """One window. What pages say, ask for and throw is gathered in `messages` and `requests`."""

    def __init__(self):
        self.room = tempfile.mkdtemp(prefix="browser-")
        to_read, self.to_write = os.pipe()
        self.to_hear, to_say = os.pipe()
        ends = [fcntl.fcntl(end, fcntl.F_DUPFD, 20) for end in (to_read, to_say)]
        words = [program(), *WORDS, "--remote-debugging-pipe", f"--user-data-dir={self.room}", "about:blank"]
        place = lambda: (os.dup2(ends[0], 3), os.dup2(ends[1], 4))
        quiet = {"stdin": subprocess.DEVNULL, "stdout": subprocess.DEVNULL, "stderr": subprocess.DEVNULL}
        self.process = subprocess.Popen(words, preexec_fn=place, pass_fds=(3, 4), start_new_session=True, **quiet)
        for end in (to_read, to_say, *ends):
            os.close(end)
        self.last, self.held, self.session, self.replies = 0, b"", None, {}
        self.messages, self.requests, self.seen = [], [], set()
        target = self.ask("Target.createTarget", url="about:blank")["targetId"]
        self.session = self.ask("Target.attachToTarget", targetId=target, flatten=True)["sessionId"]
        for domain in ("Page", "Runtime", "Log", "Network"):
            self.ask(f"{domain}.enable")

    def __enter__(self):
        return self

    def __exit__(self, *fault):
        self.process.kill()
        self.process.wait()
        for end in (self.to_write, self.to_hear):
            os.close(end)
        shutil.rmtree(self.room, ignore_errors=True)

    def ask(self, method, **given):
        """Sends a command, and gives its result."""
        self.last += 1
        message = {"id": self.last, "method": method, "params": given, **({"sessionId": self.session} if self.session else {})}
        self.send(json.dumps(message).encode() + b"\0")
        number, end = self.last, time.monotonic() + MOST_SECONDS
        while number not in self.replies:
            self.hear(end)
        reply = self.replies.pop(number)
        if "error" in reply:
            raise BrowserError(f"{method}: {reply['error'].get('message')}")
        return reply["result"]

    def send(self, text):
        while text:
            text = text[os.write(self.to_write, text) :]

    def hear(self, end):
        """Takes in what the browser says next."""
        if not select.select([self.to_hear], [], [], max(0, end - time.monotonic()))[0]:
            raise BrowserError("no answer in time")
        more = os.read(self.to_hear, 1 << 20)
        if not more:
            raise BrowserError("the browser ended")
        *whole, self.held = (self.held + more).split(b"\0")
        for text in whole:
            self.take(json.loads(text))

    def take(self, message):
        if "id" in message:
            self.replies[message["id"]] = message
            return
        method, given = message.get("method"), message.get("params", {})
        if method == "Runtime.consoleAPICalled":
            self.messages.append(" ".join(str(part.get("value", part.get("description"))) for part in given["args"]))
        elif method == "Runtime.exceptionThrown":
            told = given["exceptionDetails"]
            self.messages.append(told.get("exception", {}).get("description") or told["text"])
        elif method == "Log.entryAdded":
            self.messages.append(given["entry"]["text"])
        elif method == "Network.requestWillBeSent":
            self.requests.append(given["request"]["url"])
        elif method == "Page.loadEventFired":
            self.seen.add(method)

    def wait(self, event):
        end = time.monotonic() + MOST_SECONDS
        while event not in self.seen:
            self.hear(end)

    def open(self, path):
        """Opens a file, and gives the seconds until its script had run and a frame was drawn."""
        begun = time.monotonic()
        self.show(f"file://{path}")
        self.settle()
        return time.monotonic() - begun

    def show(self, address):
        """Opens an address, and waits until it is loaded."""
        self.messages, self.requests = [], []
        self.seen.clear()
        self.ask("Page.navigate", url=address)
        self.wait("Page.loadEventFired")

    def settle(self):
        """Waits until two frames were drawn."""
        self.run("new Promise(done => requestAnimationFrame(() => requestAnimationFrame(() => done(1))))")

    def run(self, expression):
        """The value of an expression in the page; a promise is waited for."""
        given = {"expression": expression, "returnByValue": True, "awaitPromise": True, "allowUnsafeEvalBlockedByCSP": False}
        reply = self.ask("Runtime.evaluate", **given)
        if "exceptionDetails" in reply:
            told = reply["exceptionDetails"]
            raise BrowserError(told.get("exception", {}).get("description") or told["text"])
        return reply["result"].get("value")

    def run_in_frame(self, expression):
        """The value of an expression in the page's one frame, which may have a process of its own."""
        frames = [it for it in self.ask("Target.getTargets")["targetInfos"] if it["type"] == "iframe"]
        if frames:
            session, self.session = self.session, self.ask("Target.attachToTarget", targetId=frames[-1]["targetId"], flatten=True)["sessionId"]
            try:
                return self.run(expression)
            finally:
                self.ask("Runtime.disable")
                inner, self.session = self.session, session
                self.ask("Target.detachFromTarget", sessionId=inner)
        frame = self.ask("Page.getFrameTree")["frameTree"]["childFrames"][0]["frame"]["id"]
        world = self.ask("Page.createIsolatedWorld", frameId=frame)["executionContextId"]
        reply = self.ask("Runtime.evaluate", expression=expression, contextId=world, returnByValue=True)
        if "exceptionDetails" in reply:
            raise BrowserError(reply["exceptionDetails"]["text"])
        return reply["result"].get("value")

    def put_file(self, selector, path):
        """Puts a file into an input, as its reader picks it."""
        root = self.ask("DOM.getDocument", depth=0)["root"]["nodeId"]
        node = self.ask("DOM.querySelector", nodeId=root, selector=selector)["nodeId"]
        self.ask("DOM.setFileInputFiles", nodeId=node, files=[str(path)])

    def save_to(self, folder):
        """Has downloads go to a folder."""
        self.ask("Browser.setDownloadBehavior", behavior="allow", downloadPath=str(folder))

    def size(self, width, height, scale=1):
        self.ask("Emulation.setDeviceMetricsOverride", width=width, height=height, deviceScaleFactor=scale, mobile=False)

    def scheme(self, name):
        self.ask("Emulation.setEmulatedMedia", features=[{"name": "prefers-color-scheme", "value": name}])

    def click(self, selector, x=None, y=None):
        """Clicks the middle of an element, or a place in it, after bringing it into sight."""
        self.run(f"document.querySelector({json.dumps(selector)}).scrollIntoView({{block: 'center'}})")
        element = f"document.querySelector({json.dumps(selector)})"
        box = self.run(f"(box => [box.left, box.top, box.width, box.height])({element}.getBoundingClientRect())")
        place = {"x": box[0] + (box[2] / 2 if x is None else x), "y": box[1] + (box[3] / 2 if y is None else y)}
        for kind in ("mouseMoved", "mousePressed", "mouseReleased"):
            self.ask("Input.dispatchMouseEvent", type=kind, button="left", clickCount=1, **place)
        self.settle()

    def mouse(self, kind, x, y, **more):
        """One event of the mouse, at a place in the window."""
        self.ask("Input.dispatchMouseEvent", type=kind, x=x, y=y, **more)

    def double_click(self, x, y):
        self.mouse("mouseMoved", x, y)
        for count in (1, 2):
            for kind in ("mousePressed", "mouseReleased"):
                self.mouse(kind, x, y, button="left", clickCount=count)
        self.settle()

    def drag(self, begin, end, steps=4):
        """Presses the mouse at a place of the window, moves it in steps to another, and releases it there."""
        self.mouse("mouseMoved", *begin)
        self.mouse("mousePressed", *begin, button="left", clickCount=1)
        for step in range(1, steps + 1):
            place = [one + (other - one) * step / steps for one, other in zip(begin, end)]
            self.mouse("mouseMoved", *place, button="left", buttons=1)
        self.mouse("mouseReleased", *end, button="left", clickCount=1)
        self.settle()

    def wheel(self, x, y, across=0, down=0, ctrl=False):
        """Turns the wheel at a place of the window, with or without the key Ctrl."""
        self.mouse("mouseMoved", x, y)
        self.mouse("mouseWheel", x, y, deltaX=across, deltaY=down, modifiers=2 if ctrl else 0)
        self.settle()

    def fingers(self, ways, steps=6):
        """Puts fingers down and moves them; each way has the place where a finger begins and where it ends."""
        self.ask("Emulation.setTouchEmulationEnabled", enabled=True, maxTouchPoints=5)
        for step in range(steps + 1):
            points = [
                {"x": begin[0] + (end[0] - begin[0]) * step / steps, "y": begin[1] + (end[1] - begin[1]) * step / steps, "id": number}
                for number, (begin, end) in enumerate(ways)
            ]
            self.ask("Input.dispatchTouchEvent", type="touchMove" if step else "touchStart", touchPoints=points)
        self.ask("Input.dispatchTouchEvent", type="touchEnd", touchPoints=[])
        self.ask("Emulation.setTouchEmulationEnabled", enabled=False)
        self.settle()

    def press(self, key, text=""):
        """Presses and releases a key."""
        given = {"key": key, **({"text": text or key} if len(key) == 1 or text else {})}
        if key in CODES:
            given["windowsVirtualKeyCode"] = CODES[key]
        if key == "Enter":
            given["text"] = "\r"
        self.ask("Input.dispatchKeyEvent", type="keyDown", **given)
        self.ask("Input.dispatchKeyEvent", type="keyUp", **{name: value for name, value in given.items() if name != "text"})
        self.settle()

    def type(self, text):
        """Puts a text where the cursor stands."""
        self.ask("Input.insertText", text=text)
        self.settle()

    def picture(self, path, whole=True):
        """Writes a picture of the page to a file."""
        given = {"captureBeyondViewport": whole}
        if whole:
            size = self.ask("Page.getLayoutMetrics")["cssContentSize"]
            given["clip"] = {"x": 0, "y": 0, "width": size["width"], "height": min(size["height"], 8000), "scale": 1}
        data = self.ask("Page.captureScreenshot", format="png", **given)["data"]
        with open(path, "wb") as file:
            file.write(base64.b64decode(data))

    def print(self, path):
        """Writes the page as it is printed to a file."""
        with open(path, "wb") as file:
            file.write(base64.b64decode(self.ask("Page.printToPDF", printBackground=False)["data"]))


def starts():
    """Whether the browser is there, and draws an empty page: some machines have one that cannot."""
    try:
        with opened() as window:
            window.settle()
    except (BrowserError, OSError, TypeError):
        return False
    return True


@contextlib.contextmanager
def opened():
    """A browser that ends with the block."""
    with Browser() as browser:
        yield browser
