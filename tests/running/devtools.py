"""Drives a headless Chromium by its DevTools protocol, over a pipe."""

import fcntl
import json
import os
import subprocess
import time
from base64 import b64decode

# How long a page may take for an answer, in seconds.
PATIENCE = 120

# As root Chromium runs without its sandbox alone.
FLAGS = ("--headless=new", "--no-sandbox", "--disable-gpu", "--remote-debugging-pipe", "--no-first-run", "--hide-scrollbars",
         "--disable-background-networking", "--force-color-profile=srgb")


class Browser:
    """A browser with a profile in a folder."""

    def __init__(self, path, folder):
        (theirs_in, self.out), (self.into, theirs_out) = high_pipe(), high_pipe()
        moved = f'exec "$@" 3<&{theirs_in} 4>&{theirs_out}'
        words = ["bash", "-c", moved, "bash", path, *FLAGS, f"--user-data-dir={folder}"]
        self.process = subprocess.Popen(words, pass_fds=(theirs_in, theirs_out), stdin=subprocess.DEVNULL,
                                        stdout=subprocess.DEVNULL, stderr=subprocess.DEVNULL)
        os.close(theirs_in)
        os.close(theirs_out)
        self.count, self.rest, self.events = 0, b"", []

    def ask(self, method, session=None, **parameters):
        """The result of a method, once it is there; events that come before are kept."""
        self.count += 1
        asked = {"id": self.count, "method": method, "params": parameters, **({"sessionId": session} if session else {})}
        os.write(self.out, json.dumps(asked).encode() + b"\0")
        while True:
            told = self.take()
            if told.get("id") == self.count:
                if "error" in told:
                    raise RuntimeError(f"{method}: {told['error']['message']}")
                return told["result"]
            self.events.append(told)

    def take(self):
        """The next message."""
        while b"\0" not in self.rest:
            more = os.read(self.into, 1 << 20)
            if not more:
                raise RuntimeError("the browser ended")
            self.rest += more
        message, _, self.rest = self.rest.partition(b"\0")
        return json.loads(message)

    def tab(self):
        target = self.ask("Target.createTarget", url="about:blank")["targetId"]
        return Tab(self, target, self.ask("Target.attachToTarget", targetId=target, flatten=True)["sessionId"])

    def end(self):
        self.ask("Browser.close")
        self.process.wait(PATIENCE)


def high_pipe():
    """A pipe whose two ends aren't those that the browser reads and writes."""
    ends = os.pipe()
    high = [fcntl.fcntl(end, fcntl.F_DUPFD_CLOEXEC, 10) for end in ends]
    for end in ends:
        os.close(end)
    return high


class Tab:
    """One page, with the events of what it may not do."""

    WATCHED = ("Page", "Runtime", "Log", "Network", "Audits", "Accessibility", "DOM")

    def __init__(self, browser, target, session):
        self.browser, self.target, self.session = browser, target, session
        for domain in self.WATCHED:
            self.ask(f"{domain}.enable")

    def ask(self, method, **parameters):
        return self.browser.ask(method, self.session, **parameters)

    def look(self, width, height, scheme):
        """Sets the size of the window, and the colours that the page is made for."""
        self.ask("Emulation.setDeviceMetricsOverride", width=width, height=height, deviceScaleFactor=1, mobile=False)
        self.ask("Emulation.setEmulatedMedia", media="", features=[{"name": "prefers-color-scheme", "value": scheme}])

    def open(self, url):
        """Opens a page; answers how many seconds that took until it was laid out."""
        begin = time.monotonic()
        self.ask("Page.navigate", url=url)
        while not any(event.get("method") == "Page.loadEventFired" for event in self.events()):
            self.browser.events.append(self.browser.take())
        self.evaluate("document.documentElement.getBoundingClientRect().height")
        return time.monotonic() - begin

    def events(self):
        return [event for event in self.browser.events if event.get("sessionId") == self.session]

    def evaluate(self, expression):
        told = self.ask("Runtime.evaluate", expression=expression, returnByValue=True)
        if "exceptionDetails" in told:
            raise RuntimeError(told["exceptionDetails"]["exception"].get("description", told))
        return told["result"].get("value")

    def press(self, key, code, text=""):
        for kind in ("keyDown", "keyUp"):
            self.ask("Input.dispatchKeyEvent", type=kind, key=key, code=key, windowsVirtualKeyCode=code,
                     **({"text": text} if text and kind == "keyDown" else {}))

    def picture(self, path, width, height):
        """Writes the page as PNG, to the height at most."""
        clip = {"x": 0, "y": 0, "width": width, "height": height, "scale": 1}
        shot = self.ask("Page.captureScreenshot", clip=clip, captureBeyondViewport=True)
        path.write_bytes(b64decode(shot["data"]))

    def paper(self, path):
        """Writes the page as PDF, as it is printed."""
        path.write_bytes(b64decode(self.ask("Page.printToPDF", preferCSSPageSize=True, printBackground=False)["data"]))

    def close(self):
        self.browser.ask("Target.closeTarget", targetId=self.target)
        self.browser.events.clear()
