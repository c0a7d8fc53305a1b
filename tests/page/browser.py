"""Headless Chromium, driven through a pipe by the DevTools protocol.

Chromium reads commands from file descriptor 3 and writes responses and events to 4. Each is one JSON object, ended by a NUL byte."""

import base64
import fcntl
import json
import os
import select
import shutil
import subprocess
import time

NAMES = ("chromium", "chromium-browser", "chromium-headless-shell", "google-chrome")
# Root has no sandbox, and a container has little shared memory. The pages are the program's own.
OPTIONS = ("--headless", "--remote-debugging-pipe", "--no-sandbox", "--disable-dev-shm-usage", "--disable-gpu", "--no-first-run",
           "--disable-extensions", "--disable-background-networking", "--disable-component-update", "--disable-sync", "--hide-scrollbars",
           "about:blank")
KEYS = {"Enter": 13, "Tab": 9, "Escape": 27, "Home": 36, "End": 35, "ArrowLeft": 37, "ArrowUp": 38, "ArrowRight": 39, "ArrowDown": 40,
        "Backspace": 8}
SHIFT = 8
PATIENCE = 60               # seconds for a response


def installed():
    """Returns the path of a Chromium, or None."""
    return next(filter(None, map(shutil.which, NAMES)), None)


def open_pipe():
    """Returns the two ends of a pipe, neither of which is descriptor 3 or 4."""
    ends = os.pipe()
    moved = [fcntl.fcntl(end, fcntl.F_DUPFD_CLOEXEC, 10) for end in ends]
    for end in ends:
        os.close(end)
    return moved


class Browser:
    """One window with one page."""

    def __init__(self, path, folder):
        """Starts a Chromium that stores its data in a directory."""
        commands, self.to = open_pipe()
        self.come, answers = open_pipe()

        def place():
            os.dup2(commands, 3)
            os.dup2(answers, 4)

        log = open(os.path.join(folder, "log"), "wb")
        self.process = subprocess.Popen([path, f"--user-data-dir={folder}/profile", *OPTIONS], stdin=subprocess.DEVNULL, stdout=log,
                                        stderr=log, preexec_fn=place, pass_fds=(3, 4), env={**os.environ, "HOME": folder})
        os.close(commands)
        os.close(answers)
        self.read, self.sent, self.session, self.events = b"", 0, None, []
        target = self.do("Target.createTarget", url="about:blank")["targetId"]
        self.session = self.do("Target.attachToTarget", targetId=target, flatten=True)["sessionId"]
        for domain in ("Page", "Runtime", "Log", "Network", "Accessibility"):
            self.do(f"{domain}.enable")
        self.do("Page.setLifecycleEventsEnabled", enabled=True)

    def close(self):
        self.session = None
        self.do("Browser.close")
        self.process.wait(PATIENCE)

    # ---- commands, responses and events

    def next_message(self):
        while b"\0" not in self.read:
            if not select.select([self.come], [], [], PATIENCE)[0]:
                raise TimeoutError("no answer from the browser")
            more = os.read(self.come, 1 << 20)
            if not more:
                raise EOFError("the browser has ended")
            self.read += more
        message, self.read = self.read.split(b"\0", 1)
        return json.loads(message)

    def do(self, method, **parameters):
        """Sends a command and returns its response. Keeps events that come before it."""
        self.sent += 1
        command = {"id": self.sent, "method": method, "params": parameters}
        if self.session:
            command["sessionId"] = self.session
        data = json.dumps(command).encode() + b"\0"
        while data:
            data = data[os.write(self.to, data):]
        while True:
            message = self.next_message()
            if message.get("id") == self.sent:
                if "error" in message:
                    raise RuntimeError(f"{method}: {message['error']['message']}")
                return message["result"]
            if "method" in message:
                self.events.append(message)

    def take(self, *methods):
        """Removes and returns the events of some kinds that have come."""
        taken = [event["params"] for event in self.events if event["method"] in methods]
        self.events = [event for event in self.events if event["method"] not in methods]
        return taken

    # ---- pages

    def open(self, file, script=True):
        """Opens a file with or without its script, and waits until it is loaded and the script has drawn it."""
        self.do("Emulation.setScriptExecutionDisabled", value=not script)
        self.events.clear()
        loader = self.do("Page.navigate", url=f"file://{file}")["loaderId"]
        while not any(event["name"] == "load" and event["loaderId"] == loader for event in self.take("Page.lifecycleEvent")):
            self.events.append(self.next_message())
        if script:
            self.settle()

    def evaluate(self, expression):
        """Returns the value of an expression in the page."""
        result = self.do("Runtime.evaluate", expression=expression, returnByValue=True, awaitPromise=True)
        if "exceptionDetails" in result:
            raise RuntimeError(f"{expression}: {result['exceptionDetails']['exception'].get('description')}")
        return result["result"].get("value")

    def settle(self):
        """Waits until the page has been drawn twice."""
        self.evaluate("new Promise(done => requestAnimationFrame(() => requestAnimationFrame(() => done())))")

    def wait_until(self, expression, patience=10):
        """Waits until an expression is true. Returns False if it does not become true in time."""
        end = time.monotonic() + patience
        while not self.evaluate(expression):
            if time.monotonic() > end:
                return False
            time.sleep(0.02)
        return True

    def show_as(self, width=1000, height=800, media="", scheme="light", finger=False):
        """Sets the size of the window, the medium, the colour scheme and touch input."""
        self.do("Emulation.setDeviceMetricsOverride", width=width, height=height, deviceScaleFactor=1, mobile=False)
        self.do("Emulation.setEmulatedMedia", media=media, features=[{"name": "prefers-color-scheme", "value": scheme}])
        self.do("Emulation.setTouchEmulationEnabled", enabled=finger)
        self.settle()

    def picture(self, **parameters):
        """Returns a screenshot, as the bytes of a PNG."""
        return base64.b64decode(self.do("Page.captureScreenshot", format="png", **parameters)["data"])

    # ---- input

    def mouse(self, kind, x, y, **more):
        self.do("Input.dispatchMouseEvent", type=kind, x=x, y=y, **more)
        self.settle()

    def point(self, x, y):
        self.mouse("mouseMoved", x, y)

    def click(self, x, y):
        self.point(x, y)
        self.mouse("mousePressed", x, y, button="left", buttons=1, clickCount=1)
        self.mouse("mouseReleased", x, y, button="left", clickCount=1)

    def drag(self, x, y, to_x, to_y):
        self.point(x, y)
        self.mouse("mousePressed", x, y, button="left", buttons=1, clickCount=1)
        self.mouse("mouseMoved", to_x, to_y, button="left", buttons=1)
        self.mouse("mouseReleased", to_x, to_y, button="left", clickCount=1)

    def turn_wheel(self, x, y, by):
        self.mouse("mouseWheel", x, y, deltaX=0, deltaY=by)

    def touch(self, kind, *points):
        self.do("Input.dispatchTouchEvent", type=kind, touchPoints=[{"x": x, "y": y, "id": i} for i, (x, y) in enumerate(points)])
        self.settle()

    def press(self, *keys):
        """Presses keys one after another: names as "Tab", or characters. "Shift+Tab" also presses Shift."""
        for key in keys:
            shift = SHIFT if key.startswith("Shift+") else 0
            name = key.removeprefix("Shift+")
            known = {"key": name, "modifiers": shift, "windowsVirtualKeyCode": KEYS.get(name, ord(name[0].upper()))}
            text = {"Enter": "\r"}.get(name, name if len(name) == 1 else "")
            self.do("Input.dispatchKeyEvent", type="keyDown" if text else "rawKeyDown", text=text, **known)
            self.do("Input.dispatchKeyEvent", type="keyUp", **known)
            self.settle()
