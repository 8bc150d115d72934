"""Drives a headless Chromium through its debugging pipe, with the standard library alone."""
import base64
import json
import os
import select
import shutil
import subprocess
import tempfile
import time

NAMES = ("chromium", "chromium-browser", "google-chrome", "google-chrome-stable")
PATIENCE = 120              # seconds for an answer: the machine may be busy


def find():
    """The path of a Chromium, or None."""
    return next((path for path in map(shutil.which, NAMES) if path), None)


class Browser:
    """One Chromium with one tab. Use it by `with`."""

    def __init__(self):
        self.number = 0
        self.rest = b""
        self.events = []

    def __enter__(self):
        to_child, self.to_browser = os.pipe()
        self.from_browser, from_child = os.pipe()
        self.home = tempfile.mkdtemp()

        def connect():                          # the pipe is file 3 and 4 of Chromium
            read = os.dup(to_child)
            write = os.dup(from_child)
            os.dup2(read, 3)
            os.dup2(write, 4)

        self.process = subprocess.Popen(
            [find(), "--headless", "--no-sandbox", "--disable-gpu", "--hide-scrollbars",
             "--remote-debugging-pipe",
             "--user-data-dir=" + self.home, "about:blank"],
            preexec_fn=connect, close_fds=False, stdin=subprocess.DEVNULL,
            stdout=subprocess.DEVNULL, stderr=subprocess.DEVNULL)
        os.close(to_child)
        os.close(from_child)
        self.session = None
        target = self.call("Target.createTarget", url="about:blank")["targetId"]
        self.session = self.call("Target.attachToTarget",
                                 targetId=target, flatten=True)["sessionId"]
        for domain in ("Page", "Runtime", "Log", "Network"):
            self.call(domain + ".enable")
        return self

    def __exit__(self, *_):
        self.process.kill()
        self.process.wait()
        os.close(self.to_browser)
        os.close(self.from_browser)
        shutil.rmtree(self.home, ignore_errors=True)

    def call(self, method, **parameters):
        """What Chromium answers to a method of its protocol."""
        self.number += 1
        message = {"id": self.number, "method": method, "params": parameters}
        if self.session:
            message["sessionId"] = self.session
        os.write(self.to_browser, json.dumps(message).encode() + b"\0")
        while True:
            answer = self.read()
            if answer.get("id") == self.number:
                if "error" in answer:
                    raise RuntimeError("%s: %s" % (method, answer["error"]["message"]))
                return answer["result"]

    def read(self):
        """The next message. Events are kept in `events` too."""
        end = time.time() + PATIENCE
        while b"\0" not in self.rest:
            if not select.select([self.from_browser], [], [], max(0, end - time.time()))[0]:
                raise RuntimeError("chromium doesn't answer")
            piece = os.read(self.from_browser, 1 << 20)
            if not piece:
                raise RuntimeError("chromium ended")
            self.rest += piece
        line, _, self.rest = self.rest.partition(b"\0")
        message = json.loads(line.decode())
        if "method" in message:
            self.events.append(message)
        return message

    def open(self, path, width=1280, height=1500, dark=False, fragment=""):
        """Loads a file and waits until its scripts have run."""
        self.call("Emulation.setDeviceMetricsOverride", width=width, height=height,
                  deviceScaleFactor=1, mobile=False)
        self.look(dark)
        self.events = []
        self.call("Page.navigate", url="about:blank")
        self.call("Page.navigate", url="file://" + os.path.abspath(path) + fragment)
        self.wait("document.readyState === 'complete' && location.protocol === 'file:'")

    def look(self, dark=False, media=""):
        self.call("Emulation.setEmulatedMedia", media=media,
                  features=[{"name": "prefers-color-scheme", "value": "dark" if dark else "light"}])

    def wait(self, expression):
        end = time.time() + PATIENCE
        while not self.run(expression):
            if time.time() > end:
                raise RuntimeError("never came true: " + expression)
            time.sleep(0.05)

    def run(self, expression):
        """The value of an expression in the page; an error in it is raised here."""
        got = self.call("Runtime.evaluate", expression=expression, returnByValue=True)
        if "exceptionDetails" in got:
            details = got["exceptionDetails"]
            raise RuntimeError(details.get("exception", {}).get("description", details["text"]))
        return got["result"].get("value")

    def errors(self):
        """What the page's scripts complained of since it was opened."""
        kinds = {"Runtime.exceptionThrown": lambda p: p["exceptionDetails"].get("exception", {})
                 .get("description", "?"), "Log.entryAdded": lambda p: p["entry"]["text"]
                 if p["entry"]["level"] == "error" else ""}
        said = [kinds[event["method"]](event["params"])
                for event in self.events if event["method"] in kinds]
        return [text for text in said if text]

    def requests(self):
        """The addresses that the page asked for."""
        return [event["params"]["request"]["url"] for event in self.events
                if event["method"] == "Network.requestWillBeSent"]

    def mouse(self, kind, x, y, clicks=1):
        self.call("Input.dispatchMouseEvent", type=kind, x=x, y=y,
                  button="left" if kind != "mouseMoved" else "none",
                  buttons=0 if kind == "mouseReleased" else 1, clickCount=clicks)

    def click(self, x, y):
        self.mouse("mousePressed", x, y)
        self.mouse("mouseReleased", x, y)

    def click_on(self, selector):
        """Scrolls an element into view and clicks into its middle."""
        x, y = self.run("(() => { const e = document.querySelector(%s); e.scrollIntoView({block: "
                        "'center'}); const b = e.getBoundingClientRect(); return [b.left + b.width "
                        "/ 2, b.top + b.height / 2]; })()" % json.dumps(selector))
        self.click(x, y)

    def drag(self, x1, x2, y):
        self.mouse("mousePressed", x1, y)
        self.mouse("mouseMoved", (x1 + x2) / 2, y)
        self.mouse("mouseReleased", x2, y)

    def key(self, key):
        text = {"text": key} if len(key) == 1 else {}
        self.call("Input.dispatchKeyEvent", type="keyDown", key=key, **text)
        self.call("Input.dispatchKeyEvent", type="keyUp", key=key)

    def picture(self, path, height):
        """Saves the page's top as a PNG file."""
        width = self.run("innerWidth")
        shot = self.call("Page.captureScreenshot", format="png", captureBeyondViewport=True,
                         clip={"x": 0, "y": 0, "width": width, "height": height, "scale": 1})
        with open(path, "wb") as file:
            file.write(base64.b64decode(shot["data"]))

    def pdf(self):
        return base64.b64decode(self.call("Page.printToPDF", printBackground=True,
                                          preferCSSPageSize=True)["data"])
