"""A Chromium without a window, by its DevTools protocol over a pipe: commands and answers are JSON, a NUL byte behind each. It says what a page wrote
on the console and what it asked for.
"""
import json
import os
import shutil
import subprocess
import tempfile
from base64 import b64decode
from pathlib import Path

NAMES = ("chromium", "chromium-browser", "google-chrome")
FLAGS = ("--headless=new", "--no-sandbox", "--disable-gpu", "--disable-dev-shm-usage", "--hide-scrollbars", "--no-first-run", "--disable-extensions",
         "--disable-background-networking", "--disable-component-update", "--host-resolver-rules=MAP * ~NOTFOUND", "--remote-debugging-pipe")


def found_browser():
    """The browser of this machine, if it has one."""
    return next(filter(None, map(shutil.which, NAMES)), None)


class Browser:
    """A browser with one page, which is shown in so many pixels."""

    def __init__(self):
        self.folder = tempfile.TemporaryDirectory()
        reads, self.out = os.pipe()
        self.back, writes = os.pipe()

        def place():
            os.dup2(reads, 103), os.dup2(writes, 104)
            os.dup2(103, 3), os.dup2(104, 4)

        self.process = subprocess.Popen([found_browser(), *FLAGS, f"--user-data-dir={self.folder.name}"], close_fds=False, preexec_fn=place,
                                        stdin=subprocess.DEVNULL, stdout=subprocess.DEVNULL, stderr=subprocess.DEVNULL)
        os.close(reads), os.close(writes)
        self.rest, self.number, self.session, self.events = b"", 0, None, []
        target = self.ask("Target.createTarget", url="about:blank")["targetId"]
        self.session = self.ask("Target.attachToTarget", targetId=target, flatten=True)["sessionId"]
        for domain in ("Page", "Runtime", "Log", "Network"):
            self.ask(f"{domain}.enable")

    def __enter__(self):
        return self

    def __exit__(self, *_):
        self.send("Browser.close", {}, None)
        try:
            self.process.wait(10)
        except subprocess.TimeoutExpired:
            self.process.kill()
            self.process.wait()
        self.folder.cleanup()

    def send(self, method, values, session):
        self.number += 1
        message = {"id": self.number, "method": method, "params": values, **({"sessionId": session} if session else {})}
        os.write(self.out, json.dumps(message).encode() + b"\0")

    def receive(self):
        """The next answer or event."""
        while b"\0" not in self.rest:
            more = os.read(self.back, 1 << 20)
            if not more:
                raise EOFError("the browser has ended")
            self.rest += more
        message, _, self.rest = self.rest.partition(b"\0")
        return json.loads(message)

    def ask(self, method, **values):
        """What the browser answers to a command."""
        self.send(method, values, self.session)
        while (message := self.receive()).get("id") != self.number:
            self.events.append(message)
        if "error" in message:
            raise RuntimeError(f"{method}: {message['error']}")
        return message["result"]

    def open(self, file):
        """Opens a page of the disk, and waits until it is loaded."""
        self.events = []
        self.ask("Page.navigate", url=Path(file).resolve().as_uri())
        while not any(event.get("method") == "Page.loadEventFired" for event in self.events):
            self.events.append(self.receive())

    def value(self, expression):
        """What an expression comes to in the page, a promise what it comes to."""
        return self.ask("Runtime.evaluate", expression=expression, awaitPromise=True, returnByValue=True)["result"].get("value")

    def asked_for(self):
        """The addresses that the page asked for, itself first."""
        return [event["params"]["request"]["url"] for event in self.events if event.get("method") == "Network.requestWillBeSent"]

    def messages(self):
        """What stands on the console."""
        return [event["params"] for event in self.events if event.get("method") in ("Runtime.consoleAPICalled", "Runtime.exceptionThrown", "Log.entryAdded")]

    def show(self, width, height=800, scheme="light", scale=1):
        """Shows the page so wide, in a scheme of colours."""
        self.ask("Emulation.setDeviceMetricsOverride", width=width, height=height, deviceScaleFactor=scale, mobile=False)
        self.ask("Emulation.setEmulatedMedia", features=[{"name": "prefers-color-scheme", "value": scheme}])

    def picture(self, file, most=20_000, clip=None):
        """Writes a picture of the whole page, or of a part of it, as PNG."""
        whole = self.ask("Page.getLayoutMetrics")["cssContentSize"]
        part = clip or {"x": 0, "y": 0, "width": whole["width"], "height": min(whole["height"], most)}
        told = self.ask("Page.captureScreenshot", format="png", captureBeyondViewport=True, clip={**part, "scale": 1})
        Path(file).write_bytes(b64decode(told["data"]))

    def print(self, file):
        """Prints the page on sheets of A4."""
        told = self.ask("Page.printToPDF", printBackground=False, paperWidth=8.27, paperHeight=11.69)
        Path(file).write_bytes(b64decode(told["data"]))
