"""Chromium without a window, driven through a pipe. It opens pages, runs scripts in them, and takes pictures."""
import base64
import fcntl
import json
import os
import shutil
import subprocess
import tempfile
import time

PROGRAM = shutil.which("chromium") or shutil.which("chromium-browser") or shutil.which("google-chrome")
WORDS = [
    "--headless", "--no-sandbox", "--disable-gpu", "--remote-debugging-pipe", "--no-first-run", "--disable-background-networking", "--disable-sync",
    "--hide-scrollbars",
]
PATIENCE = 60


class Failed(Exception):
    """How a command to the browser, or a script of a page, failed."""


class Browser:
    """A running Chromium, to be used in a `with` statement."""

    def __enter__(self):
        self._folder = tempfile.mkdtemp(prefix="kdf9-browser-")
        to_browser, self._writing = os.pipe()
        self._reading, from_browser = os.pipe()

        def take_pipes():
            os.dup2(to_browser, 3)
            os.dup2(from_browser, 4)

        high = [os.dup(it) for it in (to_browser, from_browser)]
        to_browser, from_browser = (self._raise(it) for it in high)
        words = ["nice", PROGRAM, *WORDS, f"--user-data-dir={self._folder}", "about:blank"]
        self._process = subprocess.Popen(
            words, stdin=subprocess.DEVNULL, stdout=subprocess.DEVNULL, stderr=subprocess.DEVNULL, preexec_fn=take_pipes, pass_fds=(3, 4),
            env={**os.environ, "HOME": self._folder},
        )
        os.close(to_browser)
        os.close(from_browser)
        self._number, self._rest = 0, b""
        self.events = []
        return self

    @staticmethod
    def _raise(end):
        """The end of a pipe under a higher number than those that the browser reads and writes."""
        raised = fcntl.fcntl(end, fcntl.F_DUPFD, 10)
        os.close(end)
        return raised

    def __exit__(self, *_):
        try:
            self.send("Browser.close")
        except (OSError, Failed):
            pass
        try:
            self._process.wait(10)
        except subprocess.TimeoutExpired:
            self._process.kill()
            self._process.wait()
        shutil.rmtree(self._folder, ignore_errors=True)

    def send(self, method, session=None, **params):
        """The result of a command of the browser's protocol."""
        self._number += 1
        message = {"id": self._number, "method": method, "params": params, **({"sessionId": session} if session else {})}
        os.write(self._writing, json.dumps(message).encode() + b"\0")
        while True:
            answer = self._read()
            if answer.get("id") == self._number:
                if "error" in answer:
                    raise Failed(answer["error"]["message"])
                return answer["result"]
            self.events.append(answer)

    def _read(self):
        while b"\0" not in self._rest:
            piece = os.read(self._reading, 1 << 20)
            if not piece:
                raise OSError("the browser has ended")
            self._rest += piece
        message, _, self._rest = self._rest.partition(b"\0")
        return json.loads(message)

    def open(self, address, width=1280, height=900, dark=False, before=""):
        """Opens a page at this address. `before` is a script that runs before the page's own."""
        target = self.send("Target.createTarget", url="about:blank")["targetId"]
        page = Page(self, self.send("Target.attachToTarget", targetId=target, flatten=True)["sessionId"], target)
        page.send("Emulation.setDeviceMetricsOverride", width=width, height=height, deviceScaleFactor=1, mobile=False)
        page.send("Emulation.setEmulatedMedia", features=[{"name": "prefers-color-scheme", "value": "dark" if dark else "light"}])
        page.send("Page.enable")
        page.send("Network.enable")
        page.send("Runtime.enable")
        page.send("Log.enable")
        if before:
            page.send("Page.addScriptToEvaluateOnNewDocument", source=before)
        page.send("Page.navigate", url=address)
        return page


class Page:
    """A page of the browser."""

    def __init__(self, browser, session, target):
        self._browser, self.session, self._target = browser, session, target

    def send(self, method, **params):
        return self._browser.send(method, self.session, **params)

    def js(self, expression):
        """The value of an expression in the page. A promise is waited for."""
        answer = self.send("Runtime.evaluate", expression=expression, returnByValue=True, awaitPromise=True)
        if "exceptionDetails" in answer:
            details = answer["exceptionDetails"]
            raise Failed(details.get("exception", {}).get("description") or details["text"])
        return answer["result"].get("value")

    def wait(self, expression, seconds=PATIENCE):
        """Waits until an expression holds in the page."""
        end = time.monotonic() + seconds
        while not self.js(expression):
            if time.monotonic() > end:
                raise Failed(f"this didn't come: {expression}")
            time.sleep(0.02)

    def reload(self):
        """Loads the page again, and waits until it is there."""
        self.js("globalThis.isOld = true")
        self.send("Page.reload")
        end = time.monotonic() + PATIENCE
        while time.monotonic() < end:
            try:
                if self.js("globalThis.isOld === undefined && document.readyState === 'complete'"):
                    return
            except Failed:
                pass  # The old page is going.
            time.sleep(0.02)
        raise Failed("the page wasn't loaded again")

    def press(self, key, code, modifiers=0, text=""):
        """Presses a key, by its name and its number. `modifiers` is 2 for Ctrl."""
        for kind in ("keyDown", "keyUp"):
            typed = {"text": text} if text and kind == "keyDown" else {}
            self.send("Input.dispatchKeyEvent", type=kind, key=key, windowsVirtualKeyCode=code, modifiers=modifiers, **typed)

    def choose_file(self, name, path):
        """Chooses a file in the control of this id."""
        handle = self.send("Runtime.evaluate", expression=f"document.getElementById({json.dumps(name)})")["result"]["objectId"]
        self.send("DOM.setFileInputFiles", files=[str(path)], objectId=handle)

    def picture(self, path, whole=False, **clip):
        """Takes a picture of what is in view, of the whole page, or of a part of it."""
        how = {"clip": {**clip, "scale": 1}} if clip else {}
        data = self.send("Page.captureScreenshot", format="png", captureBeyondViewport=whole, **how)["data"]
        path.write_bytes(base64.b64decode(data))

    def close(self):
        self._browser.send("Target.closeTarget", targetId=self._target)
