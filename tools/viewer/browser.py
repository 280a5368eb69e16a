"""A headless Chromium, steered over its own protocol by two pipes: pages are opened, keys pressed, and expressions evaluated."""
import base64
import json
import os
import shutil
import subprocess
import tempfile

KEYS = {"ArrowRight": 39, "ArrowLeft": 37, "Home": 36, "End": 35, "PageDown": 34, "PageUp": 33, "Enter": 13, "Escape": 27, " ": 32}
SHIFT = 8


def program():
    """The browser, or None where there is none."""
    return shutil.which("chromium") or shutil.which("chromium-browser")


class Browser:
    def __init__(self, path):
        self.folder = tempfile.mkdtemp(prefix="browser-")
        their_in, our_out = os.pipe()
        our_in, their_out = os.pipe()
        command = [path, "--headless=new", "--no-sandbox", "--disable-gpu", "--disable-dev-shm-usage", "--hide-scrollbars", "--no-first-run",
                   "--disable-extensions", "--disable-background-networking", "--remote-debugging-pipe", f"--user-data-dir={self.folder}"]
        # The protocol's pipes are the descriptors 3 and 4.
        shell = ["sh", "-c", f'exec "$@" 3<&{their_in} 4>&{their_out}', "sh", *command]
        self.process = subprocess.Popen(shell, pass_fds=(their_in, their_out), stdin=subprocess.DEVNULL, stdout=subprocess.DEVNULL, stderr=subprocess.DEVNULL)
        os.close(their_in)
        os.close(their_out)
        self.out, self.inn = our_out, os.fdopen(our_in, "rb", buffering=0)
        self.number, self.rest, self.session = 0, b"", None
        target = self.call("Target.createTarget", url="about:blank")["targetId"]
        self.session = self.call("Target.attachToTarget", targetId=target, flatten=True)["sessionId"]
        self.call("Page.enable")

    def close(self):
        os.close(self.out)
        try:
            self.process.wait(20)
        except subprocess.TimeoutExpired:
            self.process.kill()
            self.process.wait()
        self.inn.close()
        shutil.rmtree(self.folder, ignore_errors=True)

    def message(self):
        while b"\0" not in self.rest:
            read = self.inn.read(1 << 16)
            if not read:
                raise RuntimeError("the browser has ended")
            self.rest += read
        text, self.rest = self.rest.split(b"\0", 1)
        return json.loads(text)

    def call(self, method, **params):
        self.number += 1
        sent = {"id": self.number, "method": method, "params": params}
        if self.session:
            sent["sessionId"] = self.session
        os.write(self.out, json.dumps(sent).encode() + b"\0")
        while True:
            got = self.message()
            if got.get("id") == self.number:
                if "error" in got:
                    raise RuntimeError(f"{method}: {got['error']['message']}")
                return got["result"]

    def open(self, path, place=""):
        """Opens a file, at a place in it."""
        # A page that differs in its place alone would not be loaded again.
        self.call("Page.navigate", url="about:blank")
        self.call("Page.navigate", url=f"file://{os.path.abspath(path)}{place}")
        while self.evaluate("document.readyState") != "complete":
            pass

    def evaluate(self, expression):
        got = self.call("Runtime.evaluate", expression=expression, returnByValue=True, awaitPromise=True)
        if "exceptionDetails" in got:
            raise RuntimeError(got["exceptionDetails"].get("exception", {}).get("description", "an exception"))
        return got["result"].get("value")

    def press(self, key, times=1):
        """Presses a key: one of those with a name, or a letter; for a capital with Shift."""
        said = {"key": key, "code": key, "windowsVirtualKeyCode": KEYS.get(key) or ord(key.upper()), "modifiers": SHIFT if key.isupper() and len(key) == 1 else 0}
        text = {"Enter": "\r"}.get(key) or (key if len(key) == 1 else None)
        for _ in range(times):
            self.call("Input.dispatchKeyEvent", type="keyDown", **said, **({"text": text} if text else {}))
            self.call("Input.dispatchKeyEvent", type="keyUp", **said)

    def type(self, text):
        """Puts a text into the element in focus, in place of what is chosen there."""
        self.call("Input.insertText", text=text)

    def size(self, width, height, is_dark=False):
        self.call("Emulation.setDeviceMetricsOverride", width=width, height=height, deviceScaleFactor=1, mobile=width < 600)
        self.call("Emulation.setEmulatedMedia", features=[{"name": "prefers-color-scheme", "value": "dark" if is_dark else "light"}])

    def picture(self, path):
        """A picture of what is in sight."""
        with open(path, "wb") as file:
            file.write(base64.b64decode(self.call("Page.captureScreenshot", format="png")["data"]))
