"""A page in Chromium, driven over its debugging pipe; Python's own library alone."""

import base64
import json
import os
import select
import shutil
import subprocess
import tempfile
import time


class Browser:
    """Headless Chromium with one page. `errors` has what it threw or logged, `asked` every address it asked for."""

    def __init__(self, program=None):
        program = program or shutil.which("chromium") or shutil.which("chromium-browser")
        if not program:
            raise FileNotFoundError("chromium is not there (Debian's package chromium)")
        self.profile = tempfile.TemporaryDirectory(ignore_cleanup_errors=True)
        to_child, self.write = os.pipe()
        self.read, from_child = os.pipe()
        words = [program, "--headless=new", "--no-sandbox", "--disable-gpu", "--disable-dev-shm-usage"]
        words += ["--no-first-run", "--remote-debugging-pipe", f"--user-data-dir={self.profile.name}", "about:blank"]

        def streams():
            # first out of the way of 3 and 4
            ours, theirs = os.dup2(to_child, 20), os.dup2(from_child, 21)
            os.dup2(ours, 3), os.dup2(theirs, 4)

        self.child = subprocess.Popen(words, preexec_fn=streams, close_fds=False, stdin=subprocess.DEVNULL,
                                      stdout=subprocess.DEVNULL, stderr=subprocess.DEVNULL)
        os.close(to_child), os.close(from_child)
        self.number, self.kept, self.events, self.errors, self.asked = 0, b"", [], [], []
        self.session = None
        target = self.send("Target.createTarget", url="about:blank")["targetId"]
        self.session = self.send("Target.attachToTarget", targetId=target, flatten=True)["sessionId"]
        for domain in ("Page", "Runtime", "Log", "Network"):
            self.send(domain + ".enable")

    def close(self):
        self.child.terminate()
        self.child.wait()
        self.profile.cleanup()

    def message(self, limit):
        """The next message of the browser."""
        end = time.monotonic() + limit
        while b"\0" not in self.kept:
            if not select.select([self.read], [], [], max(0, end - time.monotonic()))[0]:
                raise TimeoutError("Chromium does not answer")
            part = os.read(self.read, 1 << 20)
            if not part:
                raise EOFError("Chromium is gone")
            self.kept += part
        text, self.kept = self.kept.split(b"\0", 1)
        return json.loads(text)

    def note(self, message):
        kind, of = message.get("method"), message.get("params", {})
        if kind == "Runtime.exceptionThrown":
            self.errors.append(of["exceptionDetails"].get("exception", {}).get("description", "an exception"))
        elif kind == "Log.entryAdded" and of["entry"]["level"] == "error":
            self.errors.append(of["entry"]["text"])
        elif kind == "Network.requestWillBeSent":
            self.asked.append(of["request"]["url"])
        self.events.append(kind)

    def send(self, method, limit=30, **params):
        self.number += 1
        wanted = {"id": self.number, "method": method, "params": params}
        if self.session:
            wanted["sessionId"] = self.session
        os.write(self.write, json.dumps(wanted).encode() + b"\0")
        while True:
            message = self.message(limit)
            if message.get("id") == self.number:
                if "error" in message:
                    raise RuntimeError(f"{method}: {message['error']}")
                return message["result"]
            self.note(message)

    def run(self, text):
        """The value of an expression in the page."""
        done = self.send("Runtime.evaluate", expression=text, returnByValue=True, awaitPromise=True)
        if "exceptionDetails" in done:
            raise RuntimeError(done["exceptionDetails"]["exception"].get("description", text))
        return done["result"].get("value")

    def open(self, address):
        """Opens an address; the seconds until it is loaded and drawn."""
        began = time.monotonic()
        self.events.clear()
        self.send("Page.navigate", url="about:blank")
        while "Page.loadEventFired" not in self.events:
            self.note(self.message(30))
        self.events.clear()
        began = time.monotonic()
        self.send("Page.navigate", url=address)
        while "Page.loadEventFired" not in self.events:
            self.note(self.message(60))
        self.settle()
        return time.monotonic() - began

    def settle(self):
        """Until what was planned is drawn."""
        self.run("new Promise(done => requestAnimationFrame(() => requestAnimationFrame(() => done(1))))")

    def size(self, width, height, dots=1, phone=False):
        size = dict(width=width, height=height, deviceScaleFactor=dots, mobile=phone)
        self.send("Emulation.setDeviceMetricsOverride", **size)
        self.send("Emulation.setTouchEmulationEnabled", enabled=phone)

    def theme(self, name):
        self.send("Emulation.setEmulatedMedia", features=[{"name": "prefers-color-scheme", "value": name}])

    def mouse(self, kind, x, y, **more):
        self.send("Input.dispatchMouseEvent", type=kind, x=x, y=y, **more)

    def click(self, x, y, modifiers=0):
        for kind in ("mousePressed", "mouseReleased"):
            self.mouse(kind, x, y, button="left", clickCount=1, modifiers=modifiers)
        self.settle()

    def click_on(self, selector):
        """The middle of an element, brought into view."""
        x, y = self.run(f"""(() => {{ const it = document.querySelector({json.dumps(selector)});
            it.scrollIntoView({{block: "center"}}); const box = it.getBoundingClientRect();
            return [box.x + box.width / 2, box.y + box.height / 2]; }})()""")
        self.click(x, y)

    def drag(self, start, end):
        self.mouse("mousePressed", *start, button="left", clickCount=1)
        for part in (0.25, 0.5, 0.75, 1):
            at = [a + (b - a) * part for a, b in zip(start, end)]
            self.mouse("mouseMoved", *at, button="left", buttons=1)
        self.mouse("mouseReleased", *end, button="left", clickCount=1)
        self.settle()

    def key(self, name, text=None):
        text = name if text is None and len(name) == 1 else text or ""
        for kind in ("keyDown", "keyUp"):
            self.send("Input.dispatchKeyEvent", type=kind, key=name, text=text if kind == "keyDown" else "")
        self.settle()

    def picture(self, file, whole=False):
        shot = self.send("Page.captureScreenshot", format="png", captureBeyondViewport=whole)
        with open(file, "wb") as out:
            out.write(base64.b64decode(shot["data"]))
