"""Headless Chromium over the DevTools protocol's pipe: no driver program and no package beside Python's own."""
import base64
import fcntl
import json
import os
import select
import shutil
import subprocess
import tempfile
import time

NAMES = ("chromium", "chromium-browser", "google-chrome")


def installed():
    """The path of a Chromium, or None."""
    return next((path for path in map(shutil.which, NAMES) if path), None)


def _high(descriptor):
    """The same file under a number above the two that the browser takes."""
    high = fcntl.fcntl(descriptor, fcntl.F_DUPFD_CLOEXEC, 20)
    os.close(descriptor)
    return high


class Browser:
    """One page of one browser. Everything that the page logs as an error is kept in errors."""

    def __init__(self, path):
        self.profile = tempfile.mkdtemp(prefix="page-check-")
        takes, self.out = map(_high, os.pipe())
        self.into, gives = map(_high, os.pipe())

        def at_start():
            os.dup2(takes, 3)
            os.dup2(gives, 4)

        words = [path, "--headless=new", "--remote-debugging-pipe", "--no-sandbox", "--disable-gpu", "--disable-dev-shm-usage", "--no-first-run",
                 "--hide-scrollbars", "--user-data-dir=" + self.profile, "about:blank"]
        self.process = subprocess.Popen(words, pass_fds=(3, 4), preexec_fn=at_start, stdin=subprocess.DEVNULL, stdout=subprocess.DEVNULL,
                                        stderr=subprocess.DEVNULL)
        os.close(takes)
        os.close(gives)
        self.number, self.rest, self.answers, self.errors, self.requests, self.pressed = 0, b"", {}, [], [], set()
        target = self.send("Target.createTarget", session=None, url="about:blank")["targetId"]
        self.session = self.send("Target.attachToTarget", session=None, targetId=target, flatten=True)["sessionId"]
        for domain in ("Page", "Runtime", "DOM", "Log", "Network"):
            self.send(domain + ".enable")

    def close(self):
        self.process.terminate()
        self.process.wait(10)
        shutil.rmtree(self.profile, ignore_errors=True)

    def _take(self, message):
        if "id" in message:
            self.answers[message["id"]] = message
        elif message["method"] == "Runtime.exceptionThrown":
            self.errors.append(message["params"]["exceptionDetails"].get("exception", {}).get("description", "an exception"))
        elif message["method"] == "Log.entryAdded" and message["params"]["entry"]["level"] == "error":
            self.errors.append(message["params"]["entry"]["text"])
        elif message["method"] == "Network.requestWillBeSent":
            self.requests.append(message["params"]["request"]["url"])

    def _read(self, seconds):
        if not select.select([self.into], [], [], seconds)[0]:
            return
        *whole, self.rest = (self.rest + os.read(self.into, 1 << 20)).split(b"\0")
        for text in whole:
            self._take(json.loads(text))

    def send(self, method, session="", **params):
        """Sends a command and waits for its answer."""
        self.number += 1
        message = {"id": self.number, "method": method, "params": params}
        if session is not None:
            message["sessionId"] = session or self.session
        data = json.dumps(message).encode() + b"\0"
        while data:
            data = data[os.write(self.out, data):]
        end = time.monotonic() + 60
        while self.number not in self.answers:
            if time.monotonic() > end:
                raise TimeoutError(method)
            self._read(1)
        answer = self.answers.pop(self.number)
        if "error" in answer:
            raise RuntimeError(method + ": " + answer["error"]["message"])
        return answer["result"]

    def run(self, script):
        """The value of a script, which may wait."""
        result = self.send("Runtime.evaluate", expression="(async () => {" + script + "})()", awaitPromise=True, returnByValue=True, userGesture=True)
        if "exceptionDetails" in result:
            raise RuntimeError(result["exceptionDetails"].get("exception", {}).get("description", "script failed"))
        return result["result"].get("value")

    def wait(self, condition, seconds=30):
        """Waits until a script's expression is true."""
        end = time.monotonic() + seconds
        while not self.run("return Boolean(" + condition + ")"):
            if time.monotonic() > end:
                raise TimeoutError(condition)
            time.sleep(0.02)

    def go(self, address):
        self.send("Page.navigate", url="about:blank")
        self.send("Page.navigate", url=address)
        self.wait("document.documentElement && document.documentElement.dataset.ready")

    def text(self, name):
        return self.run("return document.getElementById(%s).textContent" % json.dumps(name))

    def click(self, name):
        """A press on a button that must be there and enabled."""
        self.pressed.add(name)
        self.run("""const button = document.getElementById(%s);
            if (!button || button.disabled || !button.checkVisibility()) throw new Error("cannot press " + %s);
            button.click();""" % (json.dumps(name), json.dumps(name)))

    def key(self, name, code, text=None):
        """A press of a key."""
        for kind in ("keyDown", "keyUp"):
            more = {"text": text} if text and kind == "keyDown" else {}
            self.send("Input.dispatchKeyEvent", type=kind, key=name, code=name if len(name) > 1 else "Space", windowsVirtualKeyCode=code, **more)

    def files(self, name, paths):
        """Chooses files in a field."""
        root = self.send("DOM.getDocument")["root"]["nodeId"]
        node = self.send("DOM.querySelector", nodeId=root, selector="#" + name)["nodeId"]
        self.send("DOM.setFileInputFiles", nodeId=node, files=[str(path) for path in paths])

    def size(self, width, height=900):
        self.send("Emulation.setDeviceMetricsOverride", width=width, height=height, deviceScaleFactor=1, mobile=False)

    def media(self, media="", dark=False):
        self.send("Emulation.setEmulatedMedia", media=media, features=[{"name": "prefers-color-scheme", "value": "dark" if dark else "light"}])

    def picture(self, path, first="html", last="html"):
        """A picture of the whole page, or from the top of one element to the end of another, over its whole width."""
        box = self.run("""const box = selector => document.querySelector(selector).getBoundingClientRect();
            const top = box(%s).top, end = box(%s).bottom, whole = box("html").width;
            return { x: 0, y: top + scrollY, width: whole, height: end - top }""" % (json.dumps(first), json.dumps(last)))
        taken = self.send("Page.captureScreenshot", captureBeyondViewport=True, clip={**box, "scale": 1})
        path.write_bytes(base64.b64decode(taken["data"]))

    def paper(self, path):
        """The page as it prints."""
        path.write_bytes(base64.b64decode(self.send("Page.printToPDF", printBackground=True, paperWidth=8.27, paperHeight=11.69)["data"]))
