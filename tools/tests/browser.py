#!/usr/bin/env python3
"""Drives headless Chromium for the tests of pages, by its own protocol over two pipes; it needs nothing but the browser.

    tools/tests/browser.py PAGE FILE.png [WIDTH]

takes a picture of a page, 1000 pixels wide where WIDTH is not given: those of docs/maintainers are made so. Messages are texts of
JSON that a byte 0 ends: Chromium reads them from its descriptor 3 and writes to 4.
"""
import base64
import json
import os
import pathlib
import shutil
import subprocess
import sys
import tempfile

NAMES = ("chromium", "chromium-browser", "google-chrome", "chromium-headless-shell")


def program():
    """Where the browser is, or None."""
    return next((place for name in NAMES if (place := shutil.which(name))), None)


class Browser:
    """A browser with one page. `asked` has the addresses of all that it asked for, and `said` what scripts threw."""

    def __init__(self, folder, place=None):
        commands, self.write = os.pipe()
        self.read, answers = os.pipe()
        words = [
            place or program(),
            "--headless",
            "--no-sandbox",
            "--disable-gpu",
            "--no-first-run",
            "--remote-debugging-pipe",
            "--disable-background-networking",
            "--hide-scrollbars",
            f"--user-data-dir={folder}",
            "about:blank",
        ]
        self.process = subprocess.Popen(
            ["sh", "-c", f'exec "$@" 3<&{commands} 4>&{answers}', "sh", *words],
            pass_fds=(commands, answers),
            stdin=subprocess.DEVNULL,
            stdout=subprocess.DEVNULL,
            stderr=subprocess.DEVNULL,
        )
        os.close(commands)
        os.close(answers)
        self.number, self.rest, self.session, self.events, self.asked, self.said = 0, b"", None, [], [], []
        page = self.call("Target.createTarget", url="about:blank")["targetId"]
        self.session = self.call("Target.attachToTarget", targetId=page, flatten=True)["sessionId"]
        for domain in ("Page", "Runtime", "Network"):
            self.call(f"{domain}.enable")

    def __enter__(self):
        return self

    def __exit__(self, *_):
        try:
            self.session = None
            self.call("Browser.close")
        except (OSError, RuntimeError):
            self.process.terminate()
        self.process.wait(20)
        os.close(self.read)
        os.close(self.write)

    def message(self):
        while b"\0" not in self.rest:
            some = os.read(self.read, 1 << 20)
            if not some:
                raise RuntimeError("the browser ended")
            self.rest += some
        text, _, self.rest = self.rest.partition(b"\0")
        return json.loads(text)

    def take(self, message):
        """Notes an event."""
        name, words = message.get("method"), message.get("params", {})
        self.events.append(name)
        if name == "Network.requestWillBeSent":
            self.asked.append(words["request"]["url"])
        elif name == "Runtime.exceptionThrown":
            self.said.append(words["exceptionDetails"]["text"])

    def call(self, name, **words):
        self.number += 1
        message = {"id": self.number, "method": name, "params": words} | ({"sessionId": self.session} if self.session else {})
        data = json.dumps(message).encode() + b"\0"
        while data:
            data = data[os.write(self.write, data) :]
        while (answer := self.message()).get("id") != self.number:
            self.take(answer)
        if "error" in answer:
            raise RuntimeError(f"{name}: {answer['error']['message']}")
        return answer["result"]

    def wait_for(self, event):
        while event not in self.events:
            self.take(self.message())

    def size(self, width, height):
        self.call("Emulation.setDeviceMetricsOverride", width=width, height=height, deviceScaleFactor=1, mobile=width < 500)

    def scripts(self, are_run):
        self.call("Emulation.setScriptExecutionDisabled", value=not are_run)

    def open(self, path):
        """Opens a file, and waits until all of it is there."""
        self.events.clear()
        self.call("Page.navigate", url=pathlib.Path(path).resolve().as_uri())
        self.wait_for("Page.loadEventFired")

    def follow(self, text):
        """Evaluates what leads to another page, and waits until all of it is there."""
        self.events.clear()
        self.value(text)
        self.wait_for("Page.loadEventFired")

    def value(self, text):
        """The value of an expression of JavaScript on the page; a promise is waited for."""
        result = self.call("Runtime.evaluate", expression=text, returnByValue=True, awaitPromise=True)
        if "exceptionDetails" in result:
            raise RuntimeError(f"{text}: {result['exceptionDetails']['exception'].get('description')}")
        return result["result"].get("value")

    def type(self, text):
        self.call("Input.insertText", text=text)

    def press(self, key):
        for kind in ("keyDown", "keyUp"):
            self.call(
                "Input.dispatchKeyEvent",
                type=kind,
                key=key,
                code=key,
                windowsVirtualKeyCode={"Tab": 9, "Enter": 13}[key],
                **({"text": "\r"} if key == "Enter" and kind == "keyDown" else {}),
            )

    def picture(self, path, whole=True):
        """Writes a picture of the page as PNG."""
        data = self.call("Page.captureScreenshot", format="png", captureBeyondViewport=whole)["data"]
        pathlib.Path(path).write_bytes(base64.b64decode(data))

    def dark(self, is_dark):
        self.call("Emulation.setEmulatedMedia", features=[{"name": "prefers-color-scheme", "value": "dark" if is_dark else "light"}])


def main():
    if len(sys.argv) not in (3, 4) or not program():
        sys.exit(__doc__ if program() else "there is no Chromium (Debian: chromium)")
    page, picture, width = *sys.argv[1:3], int(sys.argv[3]) if len(sys.argv) == 4 else 1000
    with tempfile.TemporaryDirectory() as profile, Browser(profile) as one:
        one.size(width, width)
        one.open(page)
        one.picture(picture, whole=False)


if __name__ == "__main__":
    main()
