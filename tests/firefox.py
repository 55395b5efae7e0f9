"""Firefox without a window, driven through its own protocol, Marionette. It opens pages and runs scripts in them."""
import json
import os
import shutil
import socket
import subprocess
import tempfile
import time

from browser import Failed

PROGRAM = shutil.which("firefox-esr") or shutil.which("firefox")
PATIENCE = 120


class Firefox:
    """A running Firefox with one page, to be used in a `with` statement."""

    def __enter__(self):
        self._folder = tempfile.mkdtemp(prefix="kdf9-firefox-")
        with socket.socket() as free:
            free.bind(("127.0.0.1", 0))
            port = free.getsockname()[1]
        with open(os.path.join(self._folder, "user.js"), "w", encoding="ascii") as settings:
            settings.write(f'user_pref("marionette.port", {port});\nuser_pref("app.update.enabled", false);\nuser_pref("network.captive-portal-service.enabled", false);\n')
        words = ["nice", PROGRAM, "--headless", "--marionette", "--no-remote", "--profile", self._folder, "about:blank"]
        self._process = subprocess.Popen(words, stdin=subprocess.DEVNULL, stdout=subprocess.DEVNULL, stderr=subprocess.DEVNULL, env={**os.environ, "HOME": self._folder})
        try:
            self._socket = self._connect(port)
            self._rest, self._number = b"", 0
            self._read()
            self.send("WebDriver:NewSession", capabilities={})
            self.send("WebDriver:SetTimeouts", script=1000 * PATIENCE, pageLoad=1000 * PATIENCE)
        except BaseException:
            self.__exit__()
            raise
        return self

    def _connect(self, port):
        end = time.monotonic() + PATIENCE
        while True:
            try:
                return socket.create_connection(("127.0.0.1", port), PATIENCE)
            except OSError as why:
                if time.monotonic() > end or self._process.poll() is not None:
                    raise Failed("Firefox didn't start") from why
                time.sleep(0.1)

    def __exit__(self, *_):
        self._process.terminate()
        try:
            self._process.wait(20)
        except subprocess.TimeoutExpired:
            self._process.kill()
            self._process.wait()
        shutil.rmtree(self._folder, ignore_errors=True)

    def send(self, command, **params):
        """The result of a command of the protocol: each message is its length, a colon, and JSON."""
        self._number += 1
        message = json.dumps([0, self._number, command, params]).encode()
        self._socket.sendall(b"%d:%s" % (len(message), message))
        _, _, error, result = self._read()
        if error:
            raise Failed(error["message"])
        return result

    def _read(self):
        while b":" not in self._rest:
            self._take()
        length, _, self._rest = self._rest.partition(b":")
        while len(self._rest) < int(length):
            self._take()
        message, self._rest = self._rest[:int(length)], self._rest[int(length):]
        return json.loads(message)

    def _take(self):
        piece = self._socket.recv(1 << 20)
        if not piece:
            raise OSError("Firefox has ended")
        self._rest += piece

    def open(self, address):
        """Opens a page at this address, in place of the one that was there."""
        self.send("WebDriver:Navigate", url="about:blank")
        self.send("WebDriver:Navigate", url=address)
        return self

    def js(self, expression):
        """The value of an expression in the page. A promise is waited for."""
        script = f"""const done = arguments[0];
            Promise.resolve().then(() => ({expression})).then((value) => done({{ value: value ?? null }}), (error) => done({{ error: String(error) }}));"""
        answer = self.send("WebDriver:ExecuteAsyncScript", script=script, args=[], newSandbox=False)["value"]
        if "error" in answer:
            raise Failed(answer["error"])
        return answer["value"]

    def wait(self, expression, seconds=PATIENCE):
        """Waits until an expression holds in the page."""
        end = time.monotonic() + seconds
        while not self.js(expression):
            if time.monotonic() > end:
                raise Failed(f"this didn't come: {expression}")
            time.sleep(0.05)
