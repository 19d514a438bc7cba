"""A page in Debian's headless Chromium, driven over its pipe for debuggers: messages are JSON, with a zero byte behind each."""

import base64
import json
import os
import shutil
import subprocess
import tempfile


def installed():
    return shutil.which("chromium") or shutil.which("chromium-browser")


class Browser:
    def __init__(self, width=1280, height=900):
        self.folder = tempfile.mkdtemp(prefix="euler_align_browser_")
        self.last, self.events, self.rest = 0, [], b""
        self.to, theirs_in = self.pipe_out()
        self.from_, theirs_out = self.pipe_in()

        def numbers():
            # the browser reads from 3 and writes to 4; the ends may have these numbers already, so they are moved away first
            there, back = os.dup(theirs_in), os.dup(theirs_out)
            os.dup2(there, 3)
            os.dup2(back, 4)

        words = [
            installed(), "--headless", "--no-sandbox", "--disable-gpu", "--hide-scrollbars", "--remote-debugging-pipe", "--no-first-run",
            f"--user-data-dir={self.folder}", f"--window-size={width},{height}", "about:blank",
        ]
        self.process = subprocess.Popen(words, stdin=subprocess.DEVNULL, stdout=subprocess.DEVNULL, stderr=subprocess.DEVNULL, close_fds=False, preexec_fn=numbers)
        os.close(theirs_in)
        os.close(theirs_out)
        self.session = None
        target = self.send("Target.createTarget", url="about:blank")["targetId"]
        self.session = self.send("Target.attachToTarget", targetId=target, flatten=True)["sessionId"]
        self.send("Page.enable")
        self.send("Runtime.enable")
        self.size(width, height)

    def pipe_out(self):
        read, write = os.pipe()
        return os.fdopen(write, "wb", buffering=0), read

    def pipe_in(self):
        read, write = os.pipe()
        return read, write

    def send(self, method, **words):
        """Asks for something and waits for the answer; what the page tells meanwhile is kept in `events`."""
        self.last += 1
        message = {"id": self.last, "method": method, "params": words}
        if self.session:
            message["sessionId"] = self.session
        self.to.write(json.dumps(message).encode() + b"\0")
        while True:
            told = self.next_message()
            if told.get("id") == self.last:
                if "error" in told:
                    raise RuntimeError(f"{method}: {told['error']}")
                return told["result"]
            self.events.append(told)

    def next_message(self):
        while b"\0" not in self.rest:
            data = os.read(self.from_, 1 << 20)
            if not data:
                raise RuntimeError("the browser ended")
            self.rest += data
        message, self.rest = self.rest.split(b"\0", 1)
        return json.loads(message)

    def size(self, width, height, scale=1):
        self.send("Emulation.setDeviceMetricsOverride", width=width, height=height, deviceScaleFactor=scale, mobile=False)

    def open(self, path):
        self.events = []
        self.send("Page.navigate", url="file://" + os.path.abspath(path))
        while not any(event.get("method") == "Page.loadEventFired" for event in self.events):
            self.events.append(self.next_message())

    def faults(self):
        """What the page's script did not catch, or complained of."""
        self.value("0")
        return [event for event in self.events if event.get("method") == "Runtime.exceptionThrown"]

    def value(self, expression):
        told = self.send("Runtime.evaluate", expression=expression, returnByValue=True, awaitPromise=True)
        if "exceptionDetails" in told:
            raise RuntimeError(f"{expression}: {told['exceptionDetails']}")
        return told["result"].get("value")

    def key(self, key, text=""):
        for kind in ("keyDown", "keyUp"):
            self.send("Input.dispatchKeyEvent", type=kind, key=key, code=key, text=text if kind == "keyDown" else "")

    def mouse(self, kind, x, y):
        self.send("Input.dispatchMouseEvent", type=kind, x=x, y=y, button="none" if kind == "mouseMoved" else "left", clickCount=0 if kind == "mouseMoved" else 1)

    def click(self, x, y):
        self.mouse("mousePressed", x, y)
        self.mouse("mouseReleased", x, y)

    def picture(self, path, whole=False):
        data = self.send("Page.captureScreenshot", format="png", captureBeyondViewport=whole)["data"]
        with open(path, "wb") as file:
            file.write(base64.b64decode(data))

    def print(self, path):
        with open(path, "wb") as file:
            file.write(base64.b64decode(self.send("Page.printToPDF", printBackground=True)["data"]))

    def close(self):
        try:
            self.session = None
            self.send("Browser.close")
        except (RuntimeError, BrokenPipeError):
            pass
        try:
            self.process.wait(20)
        except subprocess.TimeoutExpired:
            self.process.kill()
            self.process.wait()
        self.to.close()
        os.close(self.from_)
        shutil.rmtree(self.folder, ignore_errors=True)
