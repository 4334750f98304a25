"""Drives a Chromium without a window over the WebDriver protocol."""
from __future__ import annotations

import base64
import contextlib
import json
import os
import shutil
import signal
import subprocess
import tempfile
import time
import urllib.error
import urllib.request
from typing import TypeVar

from lib.values import Json, present

ELEMENT = "element-6066-11e4-a52e-4f735466cecf"
ARGUMENTS = ["--headless=new", "--disable-gpu", "--disable-dev-shm-usage", "--hide-scrollbars", "--window-size=1200,900"]
ARGUMENTS += ["--disable-background-networking", "--disable-component-update", "--disable-sync", "--no-first-run"]
# A browser of the root user has no sandbox.
ARGUMENTS += ["--no-sandbox"] if os.geteuid() == 0 else []


AnyBrowser = TypeVar("AnyBrowser", bound="Browser")


class Failed(Exception):
    """What chromedriver refused: its error and its message."""


class Element:
    """An element of the page."""

    def __init__(self, browser: Browser, key: str) -> None:
        self.browser, self.key = browser, key

    def ask(self, method: str, path: str, body: Json = None) -> Json:
        return self.browser.ask(method, f"/element/{self.key}{path}", body)

    def click(self) -> None:
        self.ask("POST", "/click", {})

    def type(self, text: str) -> None:
        self.ask("POST", "/value", {"text": text})

    def clear(self) -> None:
        self.ask("POST", "/clear", {})

    def text(self) -> str:
        """Returns what a reader sees; white space is collapsed."""
        text: str = self.ask("GET", "/text")
        return text

    def shown(self) -> str:
        """Returns the text that is there, seen or not."""
        text: str = self.ask("GET", "/property/textContent")
        return text

    def value(self) -> str:
        """Returns what is typed in a field."""
        value: str = self.ask("GET", "/property/value")
        return value


class Browser:
    """A session of a chromedriver of its own. Leave it by `with`."""

    def __init__(self) -> None:
        self.room = tempfile.mkdtemp(prefix="desk-browser-")
        home = dict(os.environ, HOME=self.room, TMPDIR=self.room)
        self.driver = subprocess.Popen(["chromedriver", "--port=0"], stdout=subprocess.PIPE, stderr=subprocess.DEVNULL, env=home, start_new_session=True)
        self.url: str | None = None
        try:
            self.begin()
        except BaseException:
            self.end()
            raise

    def begin(self) -> None:
        """Asks chromedriver for a browser."""
        sessions = f"http://127.0.0.1:{self.driver_port()}/session"
        options = {"args": [*ARGUMENTS, f"--user-data-dir={self.room}/profile"]}
        wanted = {"browserName": "chrome", "goog:chromeOptions": options, "goog:loggingPrefs": {"browser": "ALL"}}
        made = send("POST", sessions, {"capabilities": {"alwaysMatch": wanted}})
        self.url = f"{sessions}/{made['sessionId']}"

    def driver_port(self) -> int:
        """Returns the port that chromedriver names on its output."""
        for line in present(self.driver.stdout):
            if b"started successfully on port" in line:
                return int(line.split()[-1].rstrip(b"."))
        raise Failed("chromedriver doesn't start")

    def __enter__(self: AnyBrowser) -> AnyBrowser:
        return self

    def __exit__(self, *_: object) -> None:
        self.end()

    def end(self) -> None:
        """Ends the session, the processes of this driver's group, and its folder."""
        with contextlib.suppress(Failed, OSError):
            if self.url:
                self.ask("DELETE", "")
        with contextlib.suppress(OSError):
            os.killpg(self.driver.pid, signal.SIGTERM)
        self.driver.wait(10)
        shutil.rmtree(self.room, ignore_errors=True)

    def ask(self, method: str, path: str, body: Json = None) -> Json:
        """Sends one command, and returns its value."""
        return send(method, present(self.url) + path, body)

    def open(self, url: str) -> None:
        self.ask("POST", "/url", {"url": url})

    def run(self, script: str, *args: Json) -> Json:
        """Runs the body of an async function in the page, for which its content security policy doesn't hold."""
        return self.ask("POST", "/execute/sync", {"script": f"return (async (...args) => {{{script}}})(...arguments)", "args": list(args)})

    def all(self, css: str) -> list[Element]:
        return [Element(self, one[ELEMENT]) for one in self.ask("POST", "/elements", {"using": "css selector", "value": css})]

    def find(self, css: str, text: str = "", seconds: float = 20) -> Element:
        """Waits for an element whose text holds this one."""
        end = time.monotonic() + seconds
        while True:
            with contextlib.suppress(Failed):  # one that was replaced meanwhile is stale
                for one in self.all(css):
                    if text in one.text():
                        return one
            if time.monotonic() > end:
                raise Failed(f"no element {css} {text}: {self.run('return document.body.innerText')[:600]}")
            time.sleep(0.02)

    def press(self, *keys: str) -> None:
        """Presses keys one after the other, at the element that has the focus."""
        actions = [{"type": kind, "value": key} for key in keys for kind in ("keyDown", "keyUp")]
        self.ask("POST", "/actions", {"actions": [{"type": "key", "id": "keys", "actions": actions}]})

    def chord(self, *keys: str) -> None:
        """Presses keys together, the first one first."""
        actions = [{"type": "keyDown", "value": key} for key in keys] + [{"type": "keyUp", "value": key} for key in reversed(keys)]
        self.ask("POST", "/actions", {"actions": [{"type": "key", "id": "keys", "actions": actions}]})

    def slow(self, latency: int) -> None:
        """Has each request wait for so many milliseconds more."""
        self.emulate("Network.enable")
        self.emulate("Network.emulateNetworkConditions", offline=False, latency=latency, downloadThroughput=-1, uploadThroughput=-1)

    def emulate(self, command: str, **parameters: Json) -> Json:
        """Sends a command of Chromium's own protocol."""
        return self.ask("POST", "/goog/cdp/execute", {"cmd": command, "params": parameters})

    def resize(self, width: int, height: int) -> None:
        self.emulate("Emulation.setDeviceMetricsOverride", width=width, height=height, deviceScaleFactor=1, mobile=False)

    def log(self) -> list[str]:
        """Returns the messages of the console since the last call, breaches of a policy among them."""
        return [entry["message"] for entry in self.ask("POST", "/se/log", {"type": "browser"})]

    def picture(self, path: str) -> None:
        """Writes a picture of the whole page."""
        height = self.run("return document.documentElement.scrollHeight")
        self.resize(self.run("return innerWidth"), height)
        with open(path, "wb") as file:
            file.write(base64.b64decode(self.ask("GET", "/screenshot")))


def send(method: str, url: str, body: Json) -> Json:
    """Sends a command to a driver, and returns its value."""
    data = None if body is None else json.dumps(body).encode()
    sent = urllib.request.Request(url, data, {"Content-Type": "application/json"}, method=method)
    try:
        with urllib.request.urlopen(sent, timeout=60) as reply:
            return json.load(reply)["value"]
    except urllib.error.HTTPError as error:
        said = json.load(error)["value"]
        raise Failed(f"{said['error']}: {said['message'].splitlines()[0]}") from None
