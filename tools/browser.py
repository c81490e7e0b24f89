"""A headless Chromium, driven by the DevTools protocol over its pipe. A module, and no tool
itself."""

import base64
import fcntl
import json
import os
import select
import shutil
import signal
import subprocess
import tempfile
import time

PROGRAMS = ("chromium", "chromium-browser", "google-chrome")
SECONDS = 60
FLAGS = ("--headless=new", "--remote-debugging-pipe", "--no-sandbox", "--disable-gpu",
         "--no-first-run", "--disable-background-networking", "--disable-dev-shm-usage",
         "--disable-component-update", "--disable-sync", "--mute-audio")  # fmt: skip
CODES = {"ArrowLeft": 37, "ArrowUp": 38, "ArrowRight": 39, "ArrowDown": 40, "Home": 36, "End": 35,
         "PageUp": 33, "PageDown": 34, "Escape": 27, "Enter": 13, "Tab": 9}  # fmt: skip
CONTROL = 2


def find_browser():
    """The path of an installed browser, or None."""
    return next(filter(None, map(shutil.which, PROGRAMS)), None)


def put_pipe(inner, outer):
    """Puts the ends of a pipe where the browser reads it, 3, and where it writes it, 4."""
    inner, outer = (fcntl.fcntl(end, fcntl.F_DUPFD, 10) for end in (inner, outer))
    os.dup2(inner, 3)
    os.dup2(outer, 4)


class Browser:
    """A browser with one page, and what its console said of errors."""

    def __init__(self, program):
        self.number, self.rest, self.errors, self.loads = 0, b"", [], 0
        self.folder = tempfile.TemporaryDirectory(prefix="epx-browser-", ignore_cleanup_errors=True)
        inner, self.writer = os.pipe()
        self.reader, outer = os.pipe()
        words, null = [program, *FLAGS, f"--user-data-dir={self.folder.name}"], subprocess.DEVNULL
        self.process = subprocess.Popen(
            [*words, "about:blank"], preexec_fn=lambda: put_pipe(inner, outer), pass_fds=(3, 4),
            start_new_session=True, stdin=null, stdout=null, stderr=null,
        )  # fmt: skip
        os.close(inner)
        os.close(outer)
        self.session = None
        pages = self.call("Target.getTargets")["targetInfos"]
        page = next(it["targetId"] for it in pages if it["type"] == "page")
        self.session = self.call("Target.attachToTarget", targetId=page, flatten=True)["sessionId"]
        for domain in ("Page", "Runtime", "Log", "Network"):
            self.call(f"{domain}.enable")

    def __enter__(self):
        return self

    def __exit__(self, *_):
        try:
            os.killpg(self.process.pid, signal.SIGKILL)
        except ProcessLookupError:
            pass
        self.process.wait()
        os.close(self.writer)
        os.close(self.reader)
        self.folder.cleanup()

    def next_message(self, end):
        while b"\0" not in self.rest:
            if not select.select([self.reader], [], [], max(0, end - time.monotonic()))[0]:
                raise TimeoutError(f"the browser did not answer within {SECONDS} seconds")
            more = os.read(self.reader, 1 << 20)
            if not more:
                raise TimeoutError("the browser ended")
            self.rest += more
        text, _, self.rest = self.rest.partition(b"\0")
        return json.loads(text)

    def note(self, message):
        """Notes an event: an error, a request of the network, or a page that is loaded."""
        name, values = message.get("method"), message.get("params", {})
        if name == "Page.loadEventFired":
            self.loads += 1
        elif name == "Runtime.exceptionThrown":
            self.errors.append(json.dumps(values["exceptionDetails"])[:500])
        elif name == "Runtime.consoleAPICalled" and values["type"] in ("error", "warning"):
            self.errors.append(json.dumps(values["args"])[:500])
        elif name == "Log.entryAdded" and values["entry"]["level"] in ("error", "warning"):
            self.errors.append(values["entry"]["text"])
        elif name == "Network.requestWillBeSent":
            if not values["request"]["url"].startswith(("file:", "data:")):
                self.errors.append(f"asked the network for {values['request']['url']}")

    def call(self, method, **values):
        """Calls a method of the protocol, and notes the events that come before its answer."""
        self.number += 1
        message = {"id": self.number, "method": method, "params": values}
        if self.session:
            message["sessionId"] = self.session
        os.write(self.writer, json.dumps(message).encode() + b"\0")
        end = time.monotonic() + SECONDS
        while True:
            answer = self.next_message(end)
            if answer.get("id") == self.number:
                if "error" in answer:
                    raise RuntimeError(f"{method}: {answer['error']['message']}")
                return answer["result"]
            self.note(answer)

    def open(self, path):
        """Opens a page. Returns the seconds until it is loaded."""
        self.loads, began = 0, time.monotonic()
        self.call("Page.navigate", url=path.absolute().as_uri())
        while not self.loads:
            self.note(self.next_message(began + SECONDS))
        self.value("new Promise((done) => requestAnimationFrame(() => setTimeout(done)))")
        return time.monotonic() - began

    def value(self, script):
        """The value of an expression, or of the promise that it is."""
        done = self.call("Runtime.evaluate", expression=script, returnByValue=True,
                         awaitPromise=True)  # fmt: skip
        if "exceptionDetails" in done:
            raise RuntimeError(f"{script[:80]}: {json.dumps(done['exceptionDetails'])[:500]}")
        return done["result"].get("value")

    def press(self, key, modifiers=0):
        code = {"key": key, "code": key, "windowsVirtualKeyCode": CODES[key],
                "modifiers": modifiers}  # fmt: skip
        self.call("Input.dispatchKeyEvent", type="rawKeyDown", **code)
        self.call("Input.dispatchKeyEvent", type="keyUp", **code)

    def point(self, x, y):
        """Moves the pointer."""
        self.call("Input.dispatchMouseEvent", type="mouseMoved", x=x, y=y)

    def resize(self, width, height):
        self.call("Emulation.setDeviceMetricsOverride", width=width, height=height,
                  deviceScaleFactor=1, mobile=False)  # fmt: skip

    def prefer(self, scheme):
        """Has the system prefer `light` or `dark` colours."""
        features = [{"name": "prefers-color-scheme", "value": scheme}]
        self.call("Emulation.setEmulatedMedia", features=features)

    def screenshot(self):
        """The bytes of a PNG of what is visible."""
        return base64.b64decode(self.call("Page.captureScreenshot", format="png")["data"])
