"""Chromium without a window, driven over a pipe: pages are opened, keys pressed, and errors collected."""

import json
import os
import select
import shutil
import subprocess
import tempfile
import time

PATIENCE = 120


def is_there():
    """Whether Chromium is installed."""
    return shutil.which("chromium") is not None


class Browser:
    """One Chromium with one page. `errors` has what its console was told, `fetched` what it asked for."""

    def __init__(self):
        self.home = tempfile.TemporaryDirectory()
        reads, self.out = os.pipe()
        self.into, writes = os.pipe()
        command = ["chromium", "--headless", "--no-sandbox", "--disable-gpu", "--remote-debugging-pipe",
                   "--no-first-run", "--user-data-dir=" + self.home.name, "about:blank"]
        self.process = subprocess.Popen(
            ["bash", "-c", 'exec "$@" 3<&%d 4>&%d' % (reads, writes), "bash"] + command, pass_fds=(reads, writes),
            stdin=subprocess.DEVNULL, stdout=subprocess.DEVNULL, stderr=subprocess.DEVNULL)
        os.close(reads)
        os.close(writes)
        self.count, self.rest, self.session = 0, b"", None
        self.errors, self.fetched, self.loaded = [], [], False
        target = self.call("Target.createTarget", url="about:blank")["targetId"]
        self.session = self.call("Target.attachToTarget", targetId=target, flatten=True)["sessionId"]
        for domain in ("Page", "Runtime", "Log", "Network"):
            self.call(domain + ".enable")
        self.call("Emulation.setDeviceMetricsOverride", width=1366, height=768, deviceScaleFactor=1, mobile=False)

    def close(self):
        """Ends Chromium."""
        self.session = None
        try:
            self.call("Browser.close")
            self.process.wait(20)
        except (OSError, subprocess.TimeoutExpired):
            self.process.kill()
            self.process.wait()
        os.close(self.out)
        os.close(self.into)
        self.home.cleanup()

    def take(self):
        """The next message."""
        end = time.monotonic() + PATIENCE
        while b"\0" not in self.rest:
            if not select.select([self.into], [], [], max(0, end - time.monotonic()))[0]:
                raise OSError("Chromium says nothing")
            said = os.read(self.into, 1 << 16)
            if not said:
                raise OSError("Chromium has ended")
            self.rest += said
        message, self.rest = self.rest.split(b"\0", 1)
        return json.loads(message)

    def note(self, message):
        """Keeps what an event says of errors, and of what the page asks for."""
        method, said = message.get("method"), message.get("params", {})
        if method == "Runtime.exceptionThrown":
            self.errors.append(json.dumps(said["exceptionDetails"])[:300])
        elif method == "Runtime.consoleAPICalled" and said["type"] in ("error", "assert"):
            self.errors.append(json.dumps(said["args"])[:300])
        elif method == "Log.entryAdded" and said["entry"]["level"] == "error":
            self.errors.append(said["entry"]["text"])
        elif method == "Network.requestWillBeSent":
            self.fetched.append(said["request"]["url"])
        elif method == "Page.loadEventFired":
            self.loaded = True

    def call(self, method, **params):
        """Asks for something, and gives the answer."""
        self.count += 1
        message = {"id": self.count, "method": method, "params": params}
        if self.session:
            message["sessionId"] = self.session
        os.write(self.out, json.dumps(message).encode() + b"\0")
        while True:
            answer = self.take()
            if answer.get("id") == self.count:
                if "error" in answer:
                    raise OSError("%s: %s" % (method, answer["error"]["message"]))
                return answer["result"]
            self.note(answer)

    def open(self, path):
        """Opens a page, and waits until it is there."""
        self.errors, self.fetched, self.loaded = [], [], False
        self.call("Page.navigate", url="file://%s" % path)
        while not self.loaded:
            self.note(self.take())

    def ask(self, script):
        """The value of an expression in the page."""
        return self.call("Runtime.evaluate", expression=script, returnByValue=True)["result"].get("value")

    def press(self, key):
        """Presses a key."""
        for kind in ("keyDown", "keyUp"):
            self.call("Input.dispatchKeyEvent", type=kind, key=key, **({"text": key} if len(key) == 1 else {}))

    def click(self, selector):
        """Clicks the middle of what a selector finds."""
        x, y = self.ask("(() => { const box = document.querySelector(%s).getBoundingClientRect();"
                        " return [box.x + box.width / 2, box.y + box.height / 2]; })()" % json.dumps(selector))
        for kind in ("mousePressed", "mouseReleased"):
            self.call("Input.dispatchMouseEvent", type=kind, x=x, y=y, button="left", clickCount=1)
