"""A headless Chromium, led over its pipe: pages, clicks, keys and pictures. Used by page_checks.py."""
import base64
import fcntl
import json
import os
import select
import shutil
import signal
import subprocess
import time
import urllib.parse

WORDS = ("--headless=new", "--no-sandbox", "--disable-gpu", "--disable-dev-shm-usage", "--no-first-run", "--remote-debugging-pipe", "--hide-scrollbars")
LIMIT = 40


def program():
    """The browser, or None. Where the gate runs as CI it is installed, if that takes no longer than two minutes."""
    found = shutil.which("chromium") or shutil.which("chromium-browser")
    if found or os.environ.get("CI") != "true" or not shutil.which("apt-get"):
        return found
    try:
        quiet = {"stdin": subprocess.DEVNULL, "stdout": subprocess.DEVNULL, "stderr": subprocess.DEVNULL, "check": True}
        subprocess.run(["sh", "-c", "timeout 110 sh -c 'apt-get update -qq && apt-get install -y -qq chromium'"], timeout=120, **quiet)
    except (subprocess.SubprocessError, OSError):
        return None
    return shutil.which("chromium")


class Browser:
    """One browser with one page. What the page throws or tells the console as an error is in `errors`."""

    def __init__(self, room):
        asked, self.asking = os.pipe()
        self.heard, told = os.pipe()
        high = [os.dup(asked), os.dup(told)]

        def at_three():
            # Both ends lie above 4 here, so that neither takes the other's place.
            os.dup2(top[0], 3)
            os.dup2(top[1], 4)

        top = [fcntl.fcntl(end, fcntl.F_DUPFD, 20) for end in high]
        self.ran = subprocess.Popen(
            [program(), *WORDS, f"--user-data-dir={room}/browser", "about:blank"],
            preexec_fn=at_three, pass_fds=(3, 4), stdin=subprocess.DEVNULL, stdout=subprocess.DEVNULL, stderr=subprocess.DEVNULL, start_new_session=True,
        )
        for end in (asked, told, *high, *top):
            os.close(end)
        self.number, self.rest, self.events, self.errors, self.session = 0, b"", [], [], None
        page = self.ask("Target.createTarget", url="about:blank")["targetId"]
        self.session = self.ask("Target.attachToTarget", targetId=page, flatten=True)["sessionId"]
        for domain in ("Page", "Runtime", "Log", "Network"):
            self.ask(f"{domain}.enable")

    def __enter__(self):
        return self

    def __exit__(self, *_):
        os.killpg(self.ran.pid, signal.SIGKILL)
        self.ran.wait()
        os.close(self.asking)
        os.close(self.heard)

    def message(self, end):
        while b"\0" not in self.rest:
            left = end - time.monotonic()
            if left <= 0 or not select.select([self.heard], [], [], left)[0]:
                raise TimeoutError("the browser does not answer")
            piece = os.read(self.heard, 1 << 20)
            if not piece:
                raise TimeoutError("the browser has gone away")
            self.rest += piece
        text, _, self.rest = self.rest.partition(b"\0")
        found = json.loads(text)
        method, told = found.get("method"), found.get("params", {})
        if method == "Runtime.exceptionThrown" or method == "Log.entryAdded" and told["entry"]["level"] == "error":
            self.errors.append(json.dumps(told)[:400])
        if method == "Page.javascriptDialogOpening":
            self.errors.append("a dialog")
        if method == "Network.requestWillBeSent":
            self.events.append(("asked", told["request"]["url"]))
        elif method:
            self.events.append((method, told))
        return found

    def ask(self, method, **words):
        self.number += 1
        asked = {"id": self.number, "method": method, "params": words}
        if self.session:
            asked["sessionId"] = self.session
        os.write(self.asking, json.dumps(asked).encode() + b"\0")
        end = time.monotonic() + LIMIT
        while True:
            found = self.message(end)
            if found.get("id") == self.number:
                if "error" in found:
                    raise RuntimeError(f"{method}: {found['error']}")
                return found["result"]

    def open(self, name, words=""):
        """Opens a file of this machine, anew also where only the words behind # differ."""
        for url in ("about:blank", f"file://{urllib.parse.quote(name)}#{words}"):
            self.events.clear()
            self.ask("Page.navigate", url=url)
            end = time.monotonic() + LIMIT
            while not any(method == "Page.loadEventFired" for method, _ in self.events):
                self.message(end)
        self.settle()

    def settle(self):
        """Waits until what was asked of the page is drawn."""
        self.value("new Promise((done) => requestAnimationFrame(() => requestAnimationFrame(() => done(1))))")

    def value(self, text):
        found = self.ask("Runtime.evaluate", expression=text, returnByValue=True, awaitPromise=True)
        if "exceptionDetails" in found:
            raise RuntimeError(json.dumps(found["exceptionDetails"])[:400])
        return found["result"].get("value")

    def asked(self):
        return [url for method, url in self.events if method == "asked"]

    def place(self, chosen):
        """Where what an expression names lies, once it is in sight."""
        return self.value(f"(() => {{ ({chosen}).scrollIntoView({{block: 'nearest'}}); const it = ({chosen}).getBoundingClientRect(); return [it.x, it.y, it.width, it.height]; }})()")

    def mouse(self, kind, x, y, held=0):
        self.ask("Input.dispatchMouseEvent", type=kind, x=x, y=y, button="left", buttons=held, clickCount=1)

    def click(self, chosen):
        """A click in the middle of what an expression names."""
        x, y, width, height = self.place(chosen)
        self.mouse("mousePressed", x + width / 2, y + height / 2, 1)
        self.mouse("mouseReleased", x + width / 2, y + height / 2)
        self.settle()

    def drag(self, chosen, first, last):
        """A stroke over so much of what an expression names, from left to right."""
        x, y, width, height = self.place(chosen)
        self.mouse("mousePressed", x + width * first, y + height / 2, 1)
        for part in (0.5, 1):
            self.mouse("mouseMoved", x + width * (first + (last - first) * part), y + height / 2, 1)
        self.mouse("mouseReleased", x + width * last, y + height / 2)
        self.settle()

    def key(self, name, code=0, text=None):
        more = {"text": text} if text else {}
        self.ask("Input.dispatchKeyEvent", type="keyDown" if text else "rawKeyDown", key=name, windowsVirtualKeyCode=code, **more)
        self.ask("Input.dispatchKeyEvent", type="keyUp", key=name, windowsVirtualKeyCode=code)
        self.settle()

    def look(self, width, height, is_dark=False):
        """How wide and high the page is, and whether in the dark."""
        self.ask("Emulation.setDeviceMetricsOverride", width=width, height=height, deviceScaleFactor=1, mobile=width < 500)
        self.ask("Emulation.setEmulatedMedia", features=[{"name": "prefers-color-scheme", "value": "dark" if is_dark else "light"}])

    def picture(self, name):
        with open(name, "wb") as file:
            file.write(base64.b64decode(self.ask("Page.captureScreenshot", format="png")["data"]))
