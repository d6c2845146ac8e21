"""Drives a headless Chromium by its DevTools protocol, over two pipes, with Python's standard library only."""
import base64
import contextlib
import fcntl
import json
import os
import select
import shutil
import subprocess
import tempfile
import time

# Seconds that an answer of the browser is waited for, and by default something on a page.
PATIENCE, SOON = 600, 120
# The names and codes of keys that a test presses.
KEYS = {"Tab": 9, "Enter": 13, "Escape": 27, "ArrowLeft": 37, "ArrowUp": 38, "ArrowRight": 39, "ArrowDown": 40, " ": 32}


class BrowserFault(Exception):
    """The browser does not answer, or refuses what it was asked."""


def find_chromium():
    """Returns the path of Chromium; None if it is missing."""
    return os.environ.get("CHROMIUM") or shutil.which("chromium") or shutil.which("chromium-browser")


def high(descriptor):
    """Moves a descriptor to a number of at least 10, so that it is neither 3 nor 4."""
    moved = fcntl.fcntl(descriptor, fcntl.F_DUPFD_CLOEXEC, 10)
    os.close(descriptor)
    return moved


class Browser:
    """A headless Chromium, which ends with its context."""

    def __init__(self, program):
        self.folder = tempfile.mkdtemp(prefix="browser-")
        commands, self.commands = map(high, os.pipe())
        self.answers, answers = map(high, os.pipe())
        options = ["--headless=new", "--no-sandbox", "--disable-gpu", "--no-first-run", "--disable-extensions",
                   "--disable-background-networking", "--disable-dev-shm-usage", "--disable-component-update",
                   f"--user-data-dir={self.folder}", "--remote-debugging-pipe", "about:blank"]
        # The browser reads commands from descriptor 3, and writes answers to descriptor 4.
        self.process = subprocess.Popen(
            ["bash", "-c", f'exec "$@" 3<&{commands} 4>&{answers}', "bash", program, *options],
            pass_fds=(commands, answers), stdin=subprocess.DEVNULL, stdout=subprocess.DEVNULL,
            stderr=subprocess.DEVNULL)
        os.close(commands)
        os.close(answers)
        self.begun, self.number, self.replies, self.events = b"", 0, {}, []

    def __enter__(self):
        return self

    def __exit__(self, *_):
        with contextlib.suppress(BrowserFault, OSError):
            self.call("Browser.close")
        try:
            self.process.wait(10)
        except subprocess.TimeoutExpired:
            self.process.kill()
            self.process.wait()
        os.close(self.commands)
        os.close(self.answers)
        shutil.rmtree(self.folder, ignore_errors=True)

    def read(self, seconds):
        """Reads what came, and waits up to some seconds for it."""
        if not select.select([self.answers], [], [], seconds)[0]:
            return
        octets = os.read(self.answers, 1 << 20)
        if not octets:
            raise BrowserFault("the browser has ended")
        *messages, self.begun = (self.begun + octets).split(b"\0")
        for message in map(json.loads, messages):
            if "id" in message:
                self.replies[message["id"]] = message
            else:
                self.events.append(message)

    def call(self, method, session=None, **parameters):
        """Calls a method of the protocol, and returns its result."""
        self.number += 1
        message = {"id": self.number, "method": method, "params": parameters}
        if session is not None:
            message["sessionId"] = session
        rest = json.dumps(message).encode() + b"\0"
        while rest:
            rest = rest[os.write(self.commands, rest):]
        end = time.monotonic() + PATIENCE
        while self.number not in self.replies:
            if time.monotonic() > end:
                raise BrowserFault(f"no answer to {method}")
            self.read(1)
        reply = self.replies.pop(self.number)
        if "error" in reply:
            raise BrowserFault(f"{method}: {reply['error']['message']}")
        return reply["result"]

    def page(self, width=1200, height=900, scheme="light", has_bars=True):
        """Opens an empty page, with scroll bars or without."""
        target = self.call("Target.createTarget", url="about:blank")["targetId"]
        session = self.call("Target.attachToTarget", targetId=target, flatten=True)["sessionId"]
        page = Page(self, target, session, width, height, scheme)
        page.call("Emulation.setScrollbarsHidden", hidden=not has_bars)
        return page


class Page:
    """A page of a browser. A test reads it by expressions of JavaScript, and acts on it as a user does."""

    def __init__(self, browser, target, session, width, height, scheme):
        self.browser, self.target, self.session = browser, target, session
        for domain in ("Page", "Runtime", "Log", "Network"):
            self.call(f"{domain}.enable")
        self.call("Emulation.setFocusEmulationEnabled", enabled=True)
        self.look(width, height, scheme)

    def call(self, method, **parameters):
        return self.browser.call(method, self.session, **parameters)

    def close(self):
        self.browser.call("Target.closeTarget", targetId=self.target)

    def look(self, width, height, scheme):
        """Sets the size of the page, and whether it is light or dark."""
        self.call("Emulation.setDeviceMetricsOverride", width=width, height=height, deviceScaleFactor=1, mobile=False)
        self.call("Emulation.setEmulatedMedia", features=[{"name": "prefers-color-scheme", "value": scheme}])

    def open(self, url):
        """Opens a URL, and waits until it is loaded."""
        self.evaluate("window.isOldPage = true")
        self.browser.events.clear()
        self.call("Page.navigate", url=url)
        if not self.wait("window.isOldPage === undefined && document.readyState === 'complete'", PATIENCE):
            raise BrowserFault(f"{url} is not loaded")

    def evaluate(self, expression):
        """Returns the value of an expression."""
        answer = self.call("Runtime.evaluate", expression=expression, returnByValue=True, awaitPromise=True)
        if "exceptionDetails" in answer:
            raise BrowserFault(f"{expression}: {answer['exceptionDetails']}")
        return answer["result"].get("value")

    def wait(self, expression, seconds=SOON):
        """Waits until an expression holds. Returns whether it does."""
        end = time.monotonic() + seconds
        while not self.evaluate(expression):
            if time.monotonic() > end:
                return False
            time.sleep(0.03)
        return True

    def press(self, key):
        """Presses a key, and releases it."""
        named = {"key": key, "code": "Space" if key == " " else key, "windowsVirtualKeyCode": KEYS[key]}
        text = {"Enter": "\r", " ": " "}.get(key)
        down = {"type": "keyDown", "text": text} if text else {"type": "rawKeyDown"}
        self.call("Input.dispatchKeyEvent", **down, **named)
        self.call("Input.dispatchKeyEvent", type="keyUp", **named)

    def write(self, text):
        """Types a text into what has the focus."""
        self.call("Input.insertText", text=text)

    def point(self, selector):
        """Moves the pointer to the middle of an element, and returns where that is."""
        x, y = self.evaluate(f"""(() => {{
            const node = document.querySelector({json.dumps(selector)});
            node.scrollIntoView({{ block: "center" }});
            const box = node.getBoundingClientRect();
            return [box.x + box.width / 2, box.y + box.height / 2];
        }})()""")
        self.call("Input.dispatchMouseEvent", type="mouseMoved", x=x, y=y)
        return x, y

    def click(self, selector):
        """Clicks the middle of an element."""
        x, y = self.point(selector)
        for kind in ("mousePressed", "mouseReleased"):
            self.call("Input.dispatchMouseEvent", type=kind, x=x, y=y, button="left", clickCount=1)

    def choose(self, selector, value):
        """Chooses an option of a list, as a user does."""
        self.evaluate(f"""(() => {{
            const list = document.querySelector({json.dumps(selector)});
            list.value = {json.dumps(value)};
            list.dispatchEvent(new Event("input", {{ bubbles: true }}));
            list.dispatchEvent(new Event("change", {{ bubbles: true }}));
        }})()""")

    def picture(self):
        """Returns a PNG of what is in view."""
        return base64.b64decode(self.call("Page.captureScreenshot", format="png")["data"])

    def events(self, method):
        """Returns the parameters of all events of a method since the page was opened."""
        self.browser.read(0)
        return [event["params"] for event in self.browser.events
                if event.get("sessionId") == self.session and event["method"] == method]

    def errors(self):
        """Returns the errors and warnings since the page was opened: of script, policy and console."""
        thrown = [event["exceptionDetails"].get("exception", {}).get("description", "?")
                  for event in self.events("Runtime.exceptionThrown")]
        logged = [event["entry"]["text"] for event in self.events("Log.entryAdded")
                  if event["entry"]["level"] in ("error", "warning")]
        called = [str(event["args"]) for event in self.events("Runtime.consoleAPICalled")
                  if event["type"] in ("error", "warning", "assert")]
        return thrown + logged + called

    def requests(self):
        """Returns the URLs of all requests since the page was opened."""
        return [event["request"]["url"] for event in self.events("Network.requestWillBeSent")]
