"""A headless Chromium for tests, driven by chromedriver's own protocol (WebDriver) over HTTP."""
import base64
import json
import shutil
import socket
import subprocess
import tempfile
import time
import urllib.error
import urllib.request

#: seconds for what is waited for
SECONDS = 60
ELEMENT = "element-6066-11e4-a52e-4f735466cecf"
CONTROL, ENTER, TAB = "\ue009", "\ue007", "\ue004"


def is_there() -> bool:
    """Whether Chromium and its driver are installed."""
    return bool(shutil.which("chromedriver") and shutil.which("chromium"))


class Browser:
    """One window."""

    def __init__(self, width=1400, height=900, scale=1.0, dark=False):
        with socket.socket() as free:
            free.bind(("127.0.0.1", 0))
            port = free.getsockname()[1]
        self.driver = subprocess.Popen(["chromedriver", f"--port={port}"], stdout=subprocess.DEVNULL, stderr=subprocess.DEVNULL)
        self.base = f"http://127.0.0.1:{port}"
        self.room = tempfile.TemporaryDirectory()
        arguments = ["--headless=new", "--no-sandbox", "--disable-gpu", "--disable-dev-shm-usage", f"--user-data-dir={self.room.name}",
                     f"--window-size={width},{height}", f"--force-device-scale-factor={scale}", "--hide-scrollbars"]
        arguments += ["--blink-settings=preferredColorScheme=0"] if dark else ["--blink-settings=preferredColorScheme=1"]
        options = {"args": arguments, "binary": shutil.which("chromium")}
        wanted = {"capabilities": {"alwaysMatch": {"browserName": "chrome", "goog:chromeOptions": options, "goog:loggingPrefs": {"browser": "ALL"}}}}
        for _ in range(100):
            try:
                self.session = self._call("POST", "/session", wanted)["sessionId"]
                break
            except (urllib.error.URLError, ConnectionError):
                time.sleep(0.2)
        else:
            raise RuntimeError("chromedriver doesn't begin")

    def _call(self, method, path, body=None):
        data = None if body is None else json.dumps(body).encode()
        request = urllib.request.Request(self.base + path, data, {"Content-Type": "application/json"}, method=method)
        try:
            with urllib.request.urlopen(request, timeout=120) as reply:
                return json.load(reply)["value"]
        except urllib.error.HTTPError as error:
            raise RuntimeError(error.read().decode()[:500]) from None

    def call(self, method, path, body=None):
        return self._call(method, f"/session/{self.session}{path}", body)

    def go(self, address):
        self.call("POST", "/url", {"url": address})

    def run(self, script, *words):
        """What a function's body of JavaScript gives."""
        return self.call("POST", "/execute/sync", {"script": script, "args": list(words)})

    def element(self, css):
        return self.call("POST", "/element", {"using": "css selector", "value": css})[ELEMENT]

    def click(self, css):
        self.call("POST", f"/element/{self.element(css)}/click", {})

    def keys(self, css, text):
        self.call("POST", f"/element/{self.element(css)}/value", {"text": text})

    def press(self, *keys):
        """Presses keys one after another; a tuple at once."""
        actions = []
        for it in keys:
            together = it if isinstance(it, tuple) else (it,)
            actions += [{"type": "keyDown", "value": key} for key in together] + [{"type": "keyUp", "value": key} for key in reversed(together)]
        self.call("POST", "/actions", {"actions": [{"type": "key", "id": "keys", "actions": actions}]})

    def write(self, css, text):
        """Puts a text into an editor in place of what is there, as typing does."""
        self.run("const it = document.querySelector(arguments[0]); it.value = arguments[1]; it.dispatchEvent(new Event('input'))", css, text)

    def text(self, css):
        return self.run("const it = document.querySelector(arguments[0]); return it ? it.innerText : null", css)

    def wait(self, script, *words, seconds=SECONDS):
        """What the script gives, once that is true."""
        end = time.monotonic() + seconds
        while time.monotonic() < end:
            found = self.run(script, *words)
            if found:
                return found
            time.sleep(0.1)
        raise AssertionError(f"never true: {script} {words}; the page says {self.text('body')!r}")

    def picture(self, path, whole=True):
        """A screenshot of the page, of its whole height where it is asked for."""
        clip = {}
        if whole:
            size = self.run("return [document.documentElement.scrollWidth, document.documentElement.scrollHeight]")
            clip = {"captureBeyondViewport": True, "clip": {"x": 0, "y": 0, "width": size[0], "height": size[1], "scale": 1}}
        got = self.call("POST", "/goog/cdp/execute", {"cmd": "Page.captureScreenshot", "params": {"format": "png", **clip}})
        with open(path, "wb") as file:
            file.write(base64.b64decode(got["data"]))

    def complaints(self):
        """What the browser's console has of warnings and errors since the last call."""
        return [it["message"] for it in self.call("POST", "/se/log", {"type": "browser"}) if it["level"] in ("SEVERE", "WARNING")]

    def close(self):
        try:
            self.call("DELETE", "")
        except (RuntimeError, OSError):
            pass
        self.driver.terminate()
        self.driver.wait()
        self.room.cleanup()
