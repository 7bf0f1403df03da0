"""A browser without a window, asked over its DevTools protocol by two pipes; nothing beside Python's standard library."""
import base64
import json
import os
import select
import shutil
import subprocess
import tempfile
import time

NAMES = ["chromium", "chromium-browser", "google-chrome"]


def find():
    """The path of a browser, or None."""
    return next(filter(None, map(shutil.which, NAMES)), None)


class Browser:
    """One page of a browser of its own."""

    def __init__(self, width=1280, height=1000):
        self.folder = tempfile.mkdtemp(prefix="tabd-page-")
        asks, self.out = os.pipe()
        self.into, tells = os.pipe()
        # the browser reads its requests from descriptor 3 and writes to 4
        words = [find(), "--headless", "--no-sandbox", "--disable-gpu", "--hide-scrollbars", "--no-first-run", f"--user-data-dir={self.folder}"]
        words += [f"--window-size={width},{height}", "--remote-debugging-pipe", "about:blank"]
        joined = ["bash", "-c", 'exec 3<&"$0" 4>&"$1"; shift 1; exec "$@"', str(asks), str(tells), *words]
        self.process = subprocess.Popen(joined, pass_fds=(asks, tells), stdin=subprocess.DEVNULL, stdout=subprocess.DEVNULL, stderr=subprocess.DEVNULL)
        os.close(asks)
        os.close(tells)
        self.number, self.gathered, self.events, self.session = 0, b"", [], None
        target = self.ask("Target.createTarget", url="about:blank")["targetId"]
        self.session = self.ask("Target.attachToTarget", targetId=target, flatten=True)["sessionId"]
        for domain in ["Page", "Runtime", "Network"]:
            self.ask(f"{domain}.enable")

    def close(self):
        self.process.terminate()
        self.process.wait(20)
        os.close(self.out)
        os.close(self.into)
        shutil.rmtree(self.folder, ignore_errors=True)

    def take(self, seconds):
        """The next message of the browser."""
        until = time.monotonic() + seconds
        while b"\0" not in self.gathered:
            if not select.select([self.into], [], [], max(0, until - time.monotonic()))[0]:
                raise TimeoutError("the browser says nothing")
            self.gathered += os.read(self.into, 1 << 20) or exit("the browser has ended")
        message, _, self.gathered = self.gathered.partition(b"\0")
        return json.loads(message)

    def ask(self, method, seconds=60, **parameters):
        self.number += 1
        request = {"id": self.number, "method": method, "params": parameters, **({"sessionId": self.session} if self.session else {})}
        os.write(self.out, json.dumps(request).encode() + b"\0")
        while True:
            message = self.take(seconds)
            if message.get("id") == self.number:
                if "error" in message:
                    raise RuntimeError(f"{method}: {message['error']['message']}")
                return message["result"]
            self.events.append(message)

    def run(self, script):
        """The value of an expression in the page."""
        told = self.ask("Runtime.evaluate", expression=script, returnByValue=True, awaitPromise=True)
        if "exceptionDetails" in told:
            raise RuntimeError(f"{script}: {told['exceptionDetails']}")
        return told["result"].get("value")

    def wait(self, script, seconds=30):
        """Waits until an expression of the page holds."""
        until = time.monotonic() + seconds
        while not self.run(script):
            if time.monotonic() > until:
                raise TimeoutError(f"never: {script}")
            time.sleep(0.02)

    def open(self, url):
        """Opens a page, and waits until it is there whole."""
        self.events.clear()
        self.ask("Page.navigate", url=url)
        while not any(it["method"] == "Page.loadEventFired" for it in self.events):
            self.events.append(self.take(60))

    def size(self, width, height, is_phone=False):
        self.ask("Emulation.setDeviceMetricsOverride", width=width, height=height, deviceScaleFactor=1, mobile=is_phone)

    def scheme(self, name):
        self.ask("Emulation.setEmulatedMedia", features=[{"name": "prefers-color-scheme", "value": name}])

    def type(self, text):
        self.ask("Input.insertText", text=text)

    def press(self, key, shift=False):
        """A key of the keyboard, down and up."""
        codes = {"Tab": 9, "Enter": 13, " ": 32}
        more = {"text": "\r"} if key == "Enter" else {"text": " "} if key == " " else {}
        for kind in ["keyDown", "keyUp"]:
            self.ask("Input.dispatchKeyEvent", type=kind, key=key, code=key, windowsVirtualKeyCode=codes[key], modifiers=8 if shift else 0, **(more if kind == "keyDown" else {}))

    def picture(self, file):
        with open(file, "wb") as to:
            to.write(base64.b64decode(self.ask("Page.captureScreenshot", format="png")["data"]))

    def named(self):
        """Role and name of each thing that a screen reader tells."""
        nodes = self.ask("Accessibility.getFullAXTree")["nodes"]
        return [(it["role"]["value"], it.get("name", {}).get("value", "")) for it in nodes if not it["ignored"]]
