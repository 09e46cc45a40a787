"""A headless Chromium that a test drives, by its DevTools protocol over two pipes."""
import fcntl
import itertools
import json
import os
import shutil
import subprocess
import tempfile
import time

NAMES = ("chromium", "chromium-browser", "google-chrome")
# what keys are called, with the numbers that pages see
KEYS = {"ArrowLeft": 37, "ArrowRight": 39, "Home": 36, "End": 35, "Enter": 13, "Escape": 27}


def found():
    """The browser of this machine, if it has one."""
    return next(filter(None, map(shutil.which, NAMES)), None)


def high_pipe():
    """A pipe whose descriptors are above those that the browser reads and writes."""
    ends = os.pipe()
    high = [fcntl.fcntl(end, fcntl.F_DUPFD_CLOEXEC, 10) for end in ends]
    for end in ends:
        os.close(end)
    return high


class Browser:
    """A browser with one page."""

    def __init__(self, width=1400, height=900):
        self.room, self.count, self.events = tempfile.mkdtemp(), itertools.count(1), []
        theirs_in, ours_out = high_pipe()
        ours_in, theirs_out = high_pipe()
        words = [found(), "--headless=new", "--no-sandbox", "--disable-gpu", "--hide-scrollbars",
                 "--remote-debugging-pipe", f"--user-data-dir={self.room}",
                 f"--window-size={width},{height}", "--no-first-run", "about:blank"]
        # the browser reads its orders from descriptor 3, and answers on 4
        line = f'exec "$@" 3<&{theirs_in} 4>&{theirs_out} {theirs_in}<&- {theirs_out}>&-'
        self.process = subprocess.Popen(["bash", "-c", line, "bash", *words], close_fds=True,
                                        pass_fds=(theirs_in, theirs_out),
                                        stdout=subprocess.DEVNULL, stderr=subprocess.DEVNULL)
        os.close(theirs_in)
        os.close(theirs_out)
        self.out, self.input = os.fdopen(ours_out, "wb"), os.fdopen(ours_in, "rb")
        self.waiting, self.session = b"", None
        target = next(it["targetId"] for it in self.ask("Target.getTargets")["targetInfos"]
                      if it["type"] == "page")
        self.session = self.ask("Target.attachToTarget", targetId=target, flatten=True)["sessionId"]
        self.ask("Page.enable")
        self.ask("Runtime.enable")
        self.size(width, height)

    def ask(self, method, **params):
        """What the browser answers to an order."""
        number = next(self.count)
        order = {"id": number, "method": method, "params": params}
        if self.session:
            order["sessionId"] = self.session
        self.out.write(json.dumps(order).encode() + b"\0")
        self.out.flush()
        while True:
            said = self.next()
            if said.get("id") == number:
                if "error" in said:
                    raise RuntimeError(f"{method}: {said['error']['message']}")
                return said["result"]
            self.events.append(said)

    def next(self):
        """What the browser says next."""
        while b"\0" not in self.waiting:
            more = os.read(self.input.fileno(), 1 << 16)
            if not more:
                raise RuntimeError("the browser ended")
            self.waiting += more
        said, _, self.waiting = self.waiting.partition(b"\0")
        return json.loads(said)

    def value(self, expression):
        """The value of an expression in the page; of a promise, once it has one."""
        said = self.ask("Runtime.evaluate", expression=expression, returnByValue=True,
                        awaitPromise=True)
        if "exceptionDetails" in said:
            raise RuntimeError(said["exceptionDetails"]["exception"].get("description", expression))
        return said["result"].get("value")

    def until(self, expression, seconds=600):
        """Waits until an expression holds in the page."""
        end = time.monotonic() + seconds
        while not self.value(expression):
            if time.monotonic() > end:
                raise RuntimeError(f"not after {seconds} s: {expression}")
            time.sleep(0.02)

    def open(self, address):
        """Opens a page, and says how long that took, in seconds, until it is ready."""
        begun = time.monotonic()
        self.ask("Page.navigate", url="about:blank")
        self.ask("Page.navigate", url=address)
        self.until("document.documentElement?.dataset.ready === 'yes'")
        return time.monotonic() - begun

    def size(self, width, height):
        self.ask("Emulation.setDeviceMetricsOverride", width=width, height=height,
                 deviceScaleFactor=1, mobile=False)

    def dark(self, is_dark):
        self.ask("Emulation.setEmulatedMedia", features=[
            {"name": "prefers-color-scheme", "value": "dark" if is_dark else "light"}])

    def key(self, key, shift=False):
        """Presses a key."""
        text = {} if key in KEYS else {"text": key}
        code = KEYS.get(key, ord(key[0].upper()))
        for kind in ("keyDown", "keyUp"):
            self.ask("Input.dispatchKeyEvent", type=kind, key=key, windowsVirtualKeyCode=code,
                     modifiers=8 * shift, **(text if kind == "keyDown" else {}))

    def type(self, text):
        self.ask("Input.insertText", text=text)

    def mouse(self, kind, x, y, **more):
        self.ask("Input.dispatchMouseEvent", type=kind, x=x, y=y, **more)

    def click(self, x, y):
        for kind in ("mousePressed", "mouseReleased"):
            self.mouse(kind, x, y, button="left", clickCount=1)

    def text(self, name):
        """The text of the element of this id."""
        return self.value(f"document.getElementById({json.dumps(name)}).textContent")

    def faults(self):
        """What the page threw."""
        return [it["params"]["exceptionDetails"].get("exception", {}).get("description", "")
                for it in self.events if it.get("method") == "Runtime.exceptionThrown"]

    def close(self):
        self.process.terminate()
        self.process.wait()
        self.out.close()
        self.input.close()
        shutil.rmtree(self.room, ignore_errors=True)
