"""A headless Chromium, spoken to over its debugging protocol. It needs Debian's packages `chromium` and `python3-websocket`."""
import json
import shutil
import subprocess
import tempfile
import time
import urllib.request
from pathlib import Path

import websocket

FLAGS = ["--headless=new", "--no-sandbox", "--disable-gpu", "--hide-scrollbars", "--no-first-run", "--disable-extensions",
         "--disable-background-networking", "--disable-component-update", "--disable-sync", "--disable-site-isolation-trials",
         "--disable-features=IsolateOrigins,site-per-process,Translate,OptimizationHints", "--allow-file-access-from-files",
         "--force-device-scale-factor=1", "--mute-audio", "--lang=en-US",
         "--remote-debugging-port=0", "--remote-allow-origins=*"]
PATIENCE = 30
LEFT = ("target navigated or closed", "context was destroyed", "Cannot find context")


class BrowserError(Exception):
    """The browser refused a command, or didn't come up."""


class LeftPage(BrowserError):
    """The page went elsewhere while it was asked something."""


class Browser:
    """A browser of one's own with one page, for a `with` statement."""

    def __init__(self, width=1024, height=768):
        self.size = (width, height)
        self.number = 0
        self.events = []

    def __enter__(self):
        self.folder = tempfile.TemporaryDirectory(prefix="chromium", ignore_cleanup_errors=True)
        self.process = subprocess.Popen(
            [find_chromium(), *FLAGS, f"--user-data-dir={self.folder.name}", f"--window-size={self.size[0]},{self.size[1]}", "about:blank"],
            stdout=subprocess.DEVNULL, stderr=subprocess.DEVNULL)
        try:
            self.socket = websocket.create_connection(self.page_address(), timeout=PATIENCE)
            self.set_up()
        except BaseException:
            self.stop()
            raise
        return self

    def __exit__(self, *_):
        self.stop()

    def stop(self):
        """Ends the browser and drops its folder."""
        self.process.terminate()
        try:
            self.process.wait(PATIENCE)
        except subprocess.TimeoutExpired:
            self.process.kill()
            self.process.wait()
        self.folder.cleanup()

    def page_address(self):
        """The address of the page's socket, once the browser has written the number of its port."""
        port_file = Path(self.folder.name, "DevToolsActivePort")
        for _ in until(PATIENCE):
            if self.process.poll() is not None:
                raise BrowserError("chromium ended at its start")
            if port_file.exists() and port_file.read_text().count("\n"):
                port = port_file.read_text().split("\n")[0]
                pages = json.load(urllib.request.urlopen(f"http://127.0.0.1:{port}/json/list", timeout=PATIENCE))
                for page in pages:
                    if page["type"] == "page":
                        return page["webSocketDebuggerUrl"]
        raise BrowserError("chromium didn't come up")

    def set_up(self):
        """Turns on what the tools need, with a page of the wanted size."""
        for domain in ("Page", "DOM", "Runtime", "Accessibility", "DOMSnapshot"):
            self.call(f"{domain}.enable")
        self.call("Emulation.setDeviceMetricsOverride", width=self.size[0], height=self.size[1], deviceScaleFactor=1, mobile=False)
        self.call("Emulation.setFocusEmulationEnabled", enabled=True)

    def call(self, method, **params):
        """The result of a command."""
        self.number += 1
        self.socket.send(json.dumps({"id": self.number, "method": method, "params": params}))
        while True:
            message = json.loads(self.socket.recv())
            if message.get("id") == self.number:
                if "error" in message:
                    told = message["error"].get("message", "")
                    raise (LeftPage if any(words in told for words in LEFT) else BrowserError)(f"{method}: {told}")
                return message["result"]
            if "method" in message:
                self.events.append(message)

    def go(self, address):
        """Loads a page and waits until it is loaded."""
        answer = self.call("Page.navigate", url=address)
        if answer.get("errorText"):
            raise BrowserError(f"{address}: {answer['errorText']}")
        self.wait_until("location.href !== 'about:blank' && document.readyState === 'complete'", f"{address} didn't load")

    def wait_until(self, expression, otherwise):
        """Waits until an expression holds, through what the page loads meanwhile."""
        for _ in until(PATIENCE):
            try:
                if self.evaluate(expression):
                    return
            except LeftPage:
                continue
        raise BrowserError(f"{otherwise} in {PATIENCE} seconds")

    def evaluate(self, expression):
        """The value of a JavaScript expression in the page; a promise is waited for."""
        answer = self.call("Runtime.evaluate", expression=expression, returnByValue=True, awaitPromise=True, userGesture=True)
        if "exceptionDetails" in answer:
            details = answer["exceptionDetails"]
            raise BrowserError(details.get("exception", {}).get("description") or details["text"])
        return answer["result"].get("value")


def until(seconds, pause=0.05):
    """Goes on with a pause each time, until so many seconds have passed."""
    end = time.monotonic() + seconds
    while time.monotonic() < end:
        yield
        time.sleep(pause)


def find_chromium():
    """The browser's program."""
    for name in ("chromium", "chromium-browser", "google-chrome"):
        if path := shutil.which(name):
            return path
    raise BrowserError("chromium isn't there; Debian's package is named chromium")
