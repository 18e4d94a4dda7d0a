"""Headless Chromium, asked over its debugging pipe: a page, a view of it, a question, a picture."""

import base64
import json
import os
import pathlib
import subprocess
import tempfile


class Browser:
    def __init__(self, program):
        self.folder = tempfile.TemporaryDirectory(ignore_cleanup_errors=True)
        asked, self.asks = os.pipe()
        self.told, tells = os.pipe()
        self.child = subprocess.Popen(
            [
                "bash", "-c", 'exec "$@" 3<&"$IN" 4>&"$OUT"', "-",
                program, "--headless=new", "--no-sandbox", "--disable-gpu", "--hide-scrollbars",
                "--disable-dev-shm-usage", "--no-first-run", "--disable-extensions",
                f"--user-data-dir={self.folder.name}", "--remote-debugging-pipe", "about:blank",
            ],
            pass_fds=(asked, tells),
            env={**os.environ, "IN": str(asked), "OUT": str(tells)},
            stderr=subprocess.DEVNULL,
            stdout=subprocess.DEVNULL,
        )
        os.close(asked)
        os.close(tells)
        self.number = 0
        self.bytes = b""
        self.session = None
        target = self.call("Target.createTarget", url="about:blank")["targetId"]
        self.session = self.call("Target.attachToTarget", targetId=target, flatten=True)["sessionId"]
        self.call("Page.enable")

    def message(self):
        while b"\0" not in self.bytes:
            piece = os.read(self.told, 1 << 16)
            assert piece, "the browser has ended"
            self.bytes += piece
        one, self.bytes = self.bytes.split(b"\0", 1)
        return json.loads(one)

    def call(self, method, **parameters):
        self.number += 1
        asked = {"id": self.number, "method": method, "params": parameters}
        if self.session:
            asked["sessionId"] = self.session
        os.write(self.asks, json.dumps(asked).encode() + b"\0")
        while True:
            told = self.message()
            if told.get("id") == self.number:
                assert "error" not in told, told
                return told["result"]

    def open(self, path):
        self.call("Page.navigate", url=pathlib.Path(path).resolve().as_uri())
        while self.message().get("method") != "Page.loadEventFired":
            pass

    def view(self, width, scheme="light", media="screen"):
        self.call("Emulation.setDeviceMetricsOverride", width=width, height=800, deviceScaleFactor=1, mobile=False)
        feature = {"name": "prefers-color-scheme", "value": scheme}
        self.call("Emulation.setEmulatedMedia", media=media, features=[feature])

    def ask(self, script):
        told = self.call("Runtime.evaluate", expression=script, returnByValue=True)
        assert "exceptionDetails" not in told, told["exceptionDetails"]
        return told["result"].get("value")

    def picture(self, path):
        size = self.call("Page.getLayoutMetrics")["cssContentSize"]
        clip = {"x": 0, "y": 0, "width": size["width"], "height": min(size["height"], 8000), "scale": 1}
        told = self.call("Page.captureScreenshot", captureBeyondViewport=True, clip=clip)
        pathlib.Path(path).write_bytes(base64.b64decode(told["data"]))

    def paper(self, path):
        self.view(1280, media="print")
        told = self.call("Page.printToPDF", preferCSSPageSize=True, paperWidth=8.27, paperHeight=11.69)
        pathlib.Path(path).write_bytes(base64.b64decode(told["data"]))

    def end(self):
        os.write(self.asks, json.dumps({"id": 0, "method": "Browser.close"}).encode() + b"\0")
        self.child.wait(timeout=30)
        self.folder.cleanup()
