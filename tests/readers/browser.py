"""A browser without a window, driven over the DevTools protocol on two pipes."""

import base64
import json
import os
import select
import shutil
import subprocess
import tempfile
import threading
import time
from contextlib import contextmanager
from http.server import BaseHTTPRequestHandler, ThreadingHTTPServer
from pathlib import Path

from debian import had

SECONDS = 120
NAMES = ("chromium", "chromium-browser", "google-chrome", "google-chrome-stable")
FLAGS = (
    "--headless=new",
    "--no-sandbox",
    "--disable-gpu",
    "--disable-dev-shm-usage",
    "--disable-background-networking",
    "--disable-component-update",
    "--disable-sync",
    "--no-first-run",
    "--no-default-browser-check",
    "--hide-scrollbars",
    "--force-color-profile=srgb",
    "--remote-debugging-pipe",
)


def found():
    """The browser's command, or None."""
    return next((path for name in NAMES if (path := shutil.which(name))), None) or had(NAMES[0])


class Trouble(Exception):
    """The browser returned nothing, or an error."""


class Browser:
    """A running browser. `told` has the events that it sends by itself."""

    def __init__(self, command, folder):
        commands, answers = os.pipe(), os.pipe()
        # The browser reads commands from descriptor 3 and writes responses to descriptor 4.
        shell = 'exec 3<&"$1" 4>&"$2"; shift 2; exec "$@"'
        ends = [str(commands[0]), str(answers[1])]
        words = [command, *FLAGS, f"--user-data-dir={folder}", "about:blank"]
        self.ran = subprocess.Popen(
            ["/bin/bash", "-c", shell, "browser", *ends, *words],
            pass_fds=(commands[0], answers[1]),
            stdin=subprocess.DEVNULL,
            stdout=subprocess.DEVNULL,
            stderr=subprocess.DEVNULL,
        )
        os.close(commands[0])
        os.close(answers[1])
        self.commands, self.answers = commands[1], answers[0]
        self.number, self.left, self.told = 0, b"", []

    def ask(self, method, session=None, **given):
        """Returns the response to a command."""
        self.number += 1
        asked = {"id": self.number, "method": method, "params": given}
        asked |= {"sessionId": session} if session else {}
        whole = json.dumps(asked).encode() + b"\0"
        while whole:
            whole = whole[os.write(self.commands, whole) :]
        while True:
            heard = self.hear()
            if heard.get("id") == self.number:
                if "error" in heard:
                    raise Trouble(f"{method}: {heard['error'].get('message')}")
                return heard["result"]
            self.told.append(heard)

    def wait(self, method):
        """Reads messages until this event has come."""
        while not any(it.get("method") == method for it in self.told):
            self.told.append(self.hear())

    def hear(self):
        """Returns the next message."""
        end = time.monotonic() + SECONDS
        while b"\0" not in self.left:
            ready, _, _ = select.select([self.answers], [], [], max(0, end - time.monotonic()))
            more = os.read(self.answers, 1 << 20) if ready else b""
            if not more:
                raise Trouble("the browser says nothing")
            self.left += more
        heard, _, self.left = self.left.partition(b"\0")
        return json.loads(heard)

    def close(self):
        try:
            self.ask("Browser.close")
        except (Trouble, OSError):
            pass
        try:
            self.ran.wait(SECONDS)
        except subprocess.TimeoutExpired:
            self.ran.kill()
            self.ran.wait()
        os.close(self.commands)
        os.close(self.answers)


class Page:
    """A page in its own tab, with the given width, in light or dark colours, without running its scripts."""

    def __init__(self, browser, file, width=1280, height=900, scheme="light", media="screen"):
        self.browser, self.width = browser, width
        self.target = browser.ask("Target.createTarget", url="about:blank")["targetId"]
        attached = browser.ask("Target.attachToTarget", targetId=self.target, flatten=True)
        self.session = attached["sessionId"]
        for domain in ("Page", "Network", "Log"):
            self.ask(f"{domain}.enable")
        self.ask("Performance.enable", timeDomain="threadTicks")
        self.ask("Emulation.setScriptExecutionDisabled", value=True)
        self.features = [{"name": "prefers-color-scheme", "value": scheme}]
        self.show_as(media)
        is_phone = width < 600
        self.scale = 2 if is_phone else 1
        screen = {"width": width, "height": height, "deviceScaleFactor": self.scale}
        self.ask("Emulation.setDeviceMetricsOverride", mobile=is_phone, **screen)
        browser.told.clear()
        self.ask("Page.navigate", url=file if isinstance(file, str) else file.resolve().as_uri())
        browser.wait("Page.loadEventFired")

    def ask(self, method, **given):
        return self.browser.ask(method, self.session, **given)

    def show_as(self, media):
        """Shows the page on a screen or on paper."""
        self.ask("Emulation.setEmulatedMedia", media=media, features=self.features)

    def tells(self, script):
        """Returns the value of a script of the test, run on the page."""
        told = self.ask("Runtime.evaluate", expression=script, returnByValue=True)
        if "exceptionDetails" in told:
            raise Trouble(f"{script[:80]}: {told['exceptionDetails'].get('text')}")
        return told["result"].get("value")

    def worked(self):
        """The seconds of a processor that the page has taken."""
        metrics = self.ask("Performance.getMetrics")["metrics"]
        return next(it["value"] for it in metrics if it["name"] == "TaskDuration")

    def asked_for(self):
        """The addresses that the page requested, and the errors that the browser reported."""
        heard = [(it.get("method"), it.get("params", {})) for it in self.browser.told]
        named = [it["request"]["url"] for name, it in heard if name == "Network.requestWillBeSent"]
        return named, [it["entry"]["text"] for name, it in heard if name == "Log.entryAdded"]

    def click(self, x, y):
        for kind in ("mousePressed", "mouseReleased"):
            where = {"x": x, "y": y, "button": "left", "clickCount": 1}
            self.ask("Input.dispatchMouseEvent", type=kind, **where)

    def press(self, key, code):
        for kind in ("keyDown", "keyUp"):
            more = {"text": " "} if key == " " and kind == "keyDown" else {}
            number = ord(" ") if key == " " else 9
            keys = {"key": key, "code": code, "windowsVirtualKeyCode": number}
            self.ask("Input.dispatchKeyEvent", type=kind, **keys, **more)

    def named(self):
        """What a screen reader gets: the role and the name of each part."""
        self.ask("Accessibility.enable")
        nodes = self.ask("Accessibility.getFullAXTree")["nodes"]
        spoken = [it for it in nodes if not it.get("ignored")]
        return [
            (it.get("role", {}).get("value"), it.get("name", {}).get("value", "")) for it in spoken
        ]

    def picture(self):
        """A picture of the page."""
        return base64.b64decode(self.ask("Page.captureScreenshot", format="png")["data"])

    def close(self):
        self.browser.ask("Target.closeTarget", targetId=self.target)


class Strict(BaseHTTPRequestHandler):
    """Serves the files of a folder under a policy that forbids scripts and styles, as build services do."""

    def do_GET(self):
        file = Path(self.server.folder, Path(self.path).name)
        self.send_response(200 if file.is_file() else 404)
        self.send_header("Content-Type", "text/html; charset=utf-8")
        self.send_header("Content-Security-Policy", "sandbox; default-src 'none'")
        self.end_headers()
        self.wfile.write(file.read_bytes() if file.is_file() else b"")

    def log_message(self, *told):
        pass


@contextmanager
def served(folder):
    """The address of a server for this folder. It has threads, as a browser opens connections that it doesn't use."""
    server = ThreadingHTTPServer(("127.0.0.1", 0), Strict)
    server.folder = folder
    serving = threading.Thread(target=server.serve_forever, daemon=True)
    serving.start()
    try:
        yield f"http://127.0.0.1:{server.server_port}"
    finally:
        server.shutdown()
        server.server_close()


@contextmanager
def running(command):
    with tempfile.TemporaryDirectory(ignore_cleanup_errors=True) as folder:
        browser = Browser(command, folder)
        try:
            yield browser
        finally:
            browser.close()


@contextmanager
def opened(browser, file, **how):
    page = Page(browser, file, **how)
    try:
        yield page
    finally:
        page.close()
