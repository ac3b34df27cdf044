"""Drives Chromium without a window, by its debugging pipe: two files on which messages end with a zero byte."""
import base64
import json
import os
import select
import shutil
import subprocess
import sys
import tempfile
import time

NAMES = ("chromium", "chromium-browser", "google-chrome")
SECONDS = 300


def find():
    """The path of a Chromium, or None."""
    return next(filter(None, map(shutil.which, NAMES)), None)


class Browser:
    """A Chromium with one page. What the page's console tells as an error is kept in `errors`."""

    def __init__(self, path, wide=1440, high=1000):
        self.folder = tempfile.mkdtemp(prefix="browser-")
        self.number, self.rest, self.errors, self.happened = 0, b"", [], []
        asks, self.to = os.pipe()
        self.back, answers = os.pipe()
        words = [path, "--headless", "--remote-debugging-pipe", "--disable-gpu", "--hide-scrollbars", "--no-first-run"]
        words += ["--disable-dev-shm-usage", f"--user-data-dir={self.folder}", f"--window-size={wide},{high}", "--force-color-profile=srgb"]
        # As root Chromium has no sandbox of its own.
        words += ["--no-sandbox"] if os.geteuid() == 0 else []
        self.process = subprocess.Popen(
            ["sh", "-c", f'exec "$@" 3<&{asks} 4>&{answers}', "sh", *words],
            pass_fds=(asks, answers), stdin=subprocess.DEVNULL, stdout=subprocess.DEVNULL, stderr=subprocess.DEVNULL,
        )
        os.close(asks)
        os.close(answers)
        self.session = None
        try:
            self.begin(wide, high)
        except OSError:
            self.close()
            raise

    def begin(self, wide, high):
        target = self.call("Target.createTarget", url="about:blank")["targetId"]
        self.session = self.call("Target.attachToTarget", targetId=target, flatten=True)["sessionId"]
        for domain in ("Page", "Runtime", "Log"):
            self.call(f"{domain}.enable")
        self.resize(wide, high)

    def close(self):
        self.process.terminate()
        try:
            self.process.wait(20)
        except subprocess.TimeoutExpired:
            self.process.kill()
            self.process.wait()
        shutil.rmtree(self.folder, ignore_errors=True)

    def read(self, until):
        """The next message. None comes where there was none until that time."""
        while b"\0" not in self.rest:
            if not select.select([self.back], [], [], max(0, until - time.monotonic()))[0]:
                return None
            part = os.read(self.back, 1 << 20)
            if not part:
                raise OSError("the browser ended")
            self.rest += part
        message, self.rest = self.rest.split(b"\0", 1)
        return json.loads(message)

    def note(self, message):
        """Keeps what happened, and what the console tells as an error."""
        method, given = message.get("method"), message.get("params", {})
        self.happened.append(method)
        if method == "Runtime.exceptionThrown":
            details = given["exceptionDetails"]
            self.errors.append(details.get("exception", {}).get("description") or details["text"])
        if method == "Runtime.consoleAPICalled" and given["type"] in ("error", "warning", "assert"):
            self.errors.append(" ".join(str(part.get("value", part.get("description"))) for part in given["args"]))
        if method == "Log.entryAdded" and given["entry"]["level"] in ("error", "warning"):
            self.errors.append(f"{given['entry']['text']} {given['entry'].get('url', '')}")

    def call(self, method, **given):
        self.number += 1
        message = {"id": self.number, "method": method, "params": given}
        if self.session:
            message["sessionId"] = self.session
        os.write(self.to, json.dumps(message).encode() + b"\0")
        until = time.monotonic() + SECONDS
        while True:
            answer = self.read(until)
            if answer is None:
                raise TimeoutError(f"{method} has no answer")
            if answer.get("id") != self.number:
                self.note(answer)
            elif "error" in answer:
                raise RuntimeError(f"{method}: {answer['error']['message']}")
            else:
                return answer["result"]

    def open(self, path):
        """Opens a file in the page, another than before, and waits until it is loaded."""
        self.happened.clear()
        self.call("Page.navigate", url=f"file://{path}")
        until = time.monotonic() + SECONDS
        while "Page.loadEventFired" not in self.happened:
            message = self.read(until)
            if message is None:
                raise TimeoutError(f"{path} was not loaded")
            self.note(message)

    def run(self, script):
        """What a script comes to in the page, waited for."""
        found = self.call("Runtime.evaluate", expression=script, awaitPromise=True, returnByValue=True)
        if "exceptionDetails" in found:
            details = found["exceptionDetails"]
            raise RuntimeError(details.get("exception", {}).get("description") or details["text"])
        return found["result"].get("value")

    def resize(self, wide, high):
        self.call("Emulation.setDeviceMetricsOverride", width=wide, height=high, deviceScaleFactor=1, mobile=False)

    def key(self, name):
        """Presses a key."""
        text = {"text": name} if len(name) == 1 else {}
        self.call("Input.dispatchKeyEvent", type="keyDown", key=name, **text)
        self.call("Input.dispatchKeyEvent", type="keyUp", key=name)

    def click(self, x, y):
        for kind in ("mousePressed", "mouseReleased"):
            self.call("Input.dispatchMouseEvent", type=kind, x=x, y=y, button="left", clickCount=1)

    def picture(self, path, clip=None):
        given = {"clip": {**clip, "scale": 1}} if clip else {}
        with open(path, "wb") as file:
            file.write(base64.b64decode(self.call("Page.captureScreenshot", format="png", **given)["data"]))

    def sheet(self, **given):
        """The bytes of the page as it is printed."""
        return base64.b64decode(self.call("Page.printToPDF", printBackground=True, **given)["data"])


# As a program it names the Chromium that is found.
if __name__ == "__main__":
    print(find() or "")
    sys.exit(0 if find() else 1)
