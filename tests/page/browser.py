"""A headless Chromium, driven through chromedriver's own HTTP interface by Python's standard library alone."""
import base64
import json
import os
import shutil
import socket
import subprocess
import tempfile
import time
import urllib.error
import urllib.request
from pathlib import Path

SECONDS = 60
ELEMENT = "element-6066-11e4-a52e-4f735466cecf"
KEYS = {
    "Right": "\ue014",
    "Left": "\ue012",
    "Down": "\ue015",
    "Up": "\ue013",
    "Home": "\ue011",
    "End": "\ue010",
    "Enter": "\ue007",
    "Tab": "\ue004",
    "Escape": "\ue00c",
    "Shift": "\ue008",
}


class BrowserFault(Exception):
    """The browser or its driver said no."""


def missing() -> list:
    """The programs that the browser needs and that aren't there."""
    return [name for name in ("chromium", "chromedriver") if shutil.which(name) is None]


def free_port() -> int:
    with socket.socket() as probe:
        probe.bind(("127.0.0.1", 0))
        return probe.getsockname()[1]


class Browser:
    """A session with one window. It is closed by `with`."""

    def __init__(self, width: int = 1400, height: int = 1000):
        self.folder = tempfile.mkdtemp(prefix="page-")
        port = free_port()
        self.driver = subprocess.Popen(
            [shutil.which("chromedriver"), f"--port={port}"], stdout=subprocess.DEVNULL, stderr=subprocess.DEVNULL
        )
        self.base = f"http://127.0.0.1:{port}"
        try:
            self.session = self.open_session(width, height)
        except Exception:
            self.close()
            raise

    def open_session(self, width: int, height: int) -> str:
        arguments = [
            "--headless=new",
            "--no-first-run",
            "--disable-extensions",
            "--disable-background-networking",
            "--hide-scrollbars",
            "--force-device-scale-factor=1",
            f"--window-size={width},{height}",
            f"--user-data-dir={self.folder}/profile",
            "--disable-dev-shm-usage",
        ]
        if os.geteuid() == 0:
            arguments.append("--no-sandbox")
        options = {
            "binary": shutil.which("chromium"),
            "args": arguments,
            "prefs": {"download.default_directory": self.folder},
        }
        wanted = {
            "capabilities": {
                "alwaysMatch": {
                    "browserName": "chrome",
                    "goog:chromeOptions": options,
                    "goog:loggingPrefs": {"browser": "ALL"},
                }
            }
        }
        until = time.monotonic() + SECONDS
        while True:
            try:
                return self.ask("POST", "/session", wanted)["sessionId"]
            except (ConnectionError, urllib.error.URLError):
                if time.monotonic() > until or self.driver.poll() is not None:
                    raise BrowserFault("chromedriver doesn't answer")
                time.sleep(0.1)

    def ask(self, method: str, path: str, body=None):
        data = None if method == "GET" or body is None else json.dumps(body).encode()
        request = urllib.request.Request(self.base + path, data, {"Content-Type": "application/json"}, method=method)
        try:
            with urllib.request.urlopen(request, timeout=SECONDS * 2) as answer:
                return json.load(answer)["value"]
        except urllib.error.HTTPError as fault:
            raise BrowserFault(" ".join(json.load(fault)["value"]["message"].split("\n")[:2])) from None

    def call(self, path: str, body=None):
        return self.ask("POST", f"/session/{self.session}/{path}", body or {})

    def open(self, page: Path) -> None:
        self.call("url", {"url": page.as_uri()})

    def run(self, script: str, *arguments):
        """The value of a script's `return`."""
        return self.call("execute/sync", {"script": script, "args": list(arguments)})

    def wait_for(self, script: str, what: str, seconds: float = SECONDS) -> None:
        until = time.monotonic() + seconds
        while not self.run(f"return Boolean({script})"):
            if time.monotonic() > until:
                raise BrowserFault(f"waited in vain for {what}")
            time.sleep(0.05)

    def choose_files(self, *files: Path) -> None:
        found = self.call("element", {"using": "css selector", "value": "#files"})
        self.call(f"element/{found[ELEMENT]}/value", {"text": "\n".join(str(file) for file in files)})

    def press(self, *keys: str) -> None:
        """Presses keys one after another; "Shift+n" holds the first one."""
        actions = []
        for key in keys:
            parts = [KEYS.get(part, part) for part in (key.split("+") if len(key) > 1 else [key])]
            actions += [{"type": "keyDown", "value": part} for part in parts]
            actions += [{"type": "keyUp", "value": part} for part in reversed(parts)]
        self.call("actions", {"actions": [{"type": "key", "id": "keyboard", "actions": actions}]})

    def click(self, x: int, y: int) -> None:
        self.drag((x, y))

    def drag(self, start: tuple, *ways: tuple) -> None:
        """Presses the mouse at a point of the window, moves it on to further ones, and lets it go."""

        def move(point: tuple) -> dict:
            return {"type": "pointerMove", "duration": 0, "x": round(point[0]), "y": round(point[1])}

        actions = [move(start), {"type": "pointerDown", "button": 0}]
        actions += [move(point) for point in ways] + [{"type": "pointerUp", "button": 0}]
        self.call("actions", {"actions": [{"type": "pointer", "id": "mouse", "actions": actions}]})

    def wheel(self, x: float, y: float, by: int) -> None:
        turn = {"type": "scroll", "x": round(x), "y": round(y), "deltaX": 0, "deltaY": by, "duration": 0}
        self.call("actions", {"actions": [{"type": "wheel", "id": "wheel", "actions": [turn]}]})

    def prefer(self, scheme: str) -> None:
        """Asks pages for their light or dark appearance."""
        features = [{"name": "prefers-color-scheme", "value": scheme}]
        self.call("goog/cdp/execute", {"cmd": "Emulation.setEmulatedMedia", "params": {"features": features}})

    def screenshot(self, target: Path) -> None:
        target.parent.mkdir(parents=True, exist_ok=True)
        target.write_bytes(base64.b64decode(self.ask("GET", f"/session/{self.session}/screenshot")))

    def complaints(self) -> list:
        """What pages wrote to the console as errors."""
        return [entry["message"] for entry in self.call("se/log", {"type": "browser"}) if entry["level"] == "SEVERE"]

    def __enter__(self):
        return self

    def __exit__(self, *_):
        self.close()

    def close(self) -> None:
        try:
            if getattr(self, "session", None):
                self.ask("DELETE", f"/session/{self.session}")
        except (BrowserFault, OSError):
            pass
        self.driver.terminate()
        self.driver.wait(SECONDS)
        shutil.rmtree(self.folder, ignore_errors=True)
