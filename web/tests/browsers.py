"""Headless browsers for tests, without a network port of their own choosing and without a package: Chromium over its debugging pipe,
Firefox over Marionette. Both open a file and offer the same few calls."""
import base64
import json
import os
import shutil
import socket
import subprocess
import sys
import tempfile
import time

NAMES = ("chromium", "firefox-esr")
# Seconds that a browser has to start, and to answer one call.
START, ANSWER = 60, 300


class BrowserError(Exception):
    """An error that a browser or its page reports."""


class Chromium:
    """Chromium, which reads commands from file descriptor 3 and writes answers to 4, each ended by a NUL."""

    def __init__(self, width=1200, height=900):
        self.room = tempfile.mkdtemp(prefix="netflow-chromium-")
        commands, self.out = os.pipe()
        self.into, answers = os.pipe()
        words = ["chromium", "--headless=new", "--no-sandbox", "--disable-gpu", "--disable-dev-shm-usage", f"--user-data-dir={self.room}",
                 f"--window-size={width},{height}", "--remote-debugging-pipe", "about:blank"]

        def place_pipes():
            # Through high numbers, so that neither descriptor is overwritten before it is copied.
            for descriptor, high in ((commands, 103), (answers, 104)):
                os.dup2(descriptor, high)
            os.dup2(103, 3)
            os.dup2(104, 4)
        self.process = subprocess.Popen(words, preexec_fn=place_pipes, close_fds=False, stdin=subprocess.DEVNULL, stdout=subprocess.DEVNULL, stderr=subprocess.DEVNULL)
        os.close(commands)
        os.close(answers)
        self.count, self.rest, self.session, self.log = 0, b"", None, []
        target = self.ask("Target.createTarget", url="about:blank")["targetId"]
        self.session = self.ask("Target.attachToTarget", targetId=target, flatten=True)["sessionId"]
        for domain in ("Runtime", "Page", "Log", "Network"):
            self.ask(f"{domain}.enable")

    def ask(self, method, **params):
        self.count += 1
        message = {"id": self.count, "method": method, "params": params, **({"sessionId": self.session} if self.session else {})}
        data = json.dumps(message).encode() + b"\0"
        while data:
            data = data[os.write(self.out, data):]
        while True:
            reply = self.read()
            if reply.get("id") == self.count:
                if "error" in reply:
                    raise BrowserError(f"{method}: {reply['error']}")
                return reply["result"]
            self.note(reply)

    def read(self):
        while b"\0" not in self.rest:
            more = os.read(self.into, 1 << 20)
            if not more:
                raise BrowserError("Chromium ended")
            self.rest += more
        one, _, self.rest = self.rest.partition(b"\0")
        return json.loads(one)

    def note(self, event):
        """Keeps what the page reports: exceptions, refused requests, and requests of the network."""
        kind, params = event.get("method"), event.get("params", {})
        if kind == "Runtime.exceptionThrown":
            self.log.append(str(params["exceptionDetails"].get("exception", {}).get("description", params["exceptionDetails"]["text"])))
        elif kind == "Log.entryAdded" and params["entry"]["level"] == "error":
            self.log.append(params["entry"]["text"])
        elif kind == "Network.requestWillBeSent" and not params["request"]["url"].startswith(("file:", "blob:", "data:")):
            self.log.append(f"request: {params['request']['url'][:200]}")

    def open(self, url):
        self.ask("Page.navigate", url=url)
        self.run("if (document.readyState !== 'complete') await new Promise(done => addEventListener('load', done));")

    def run(self, body, *values):
        """Runs the body of an async function in the page, with `page`, its window, and `args`; returns the result."""
        expression = f"(async (page, args) => {{ {body} }})(window, {json.dumps(values)})"
        reply = self.ask("Runtime.evaluate", expression=expression, awaitPromise=True, returnByValue=True)
        if "exceptionDetails" in reply:
            raise BrowserError(str(reply["exceptionDetails"].get("exception", {}).get("description", reply["exceptionDetails"])))
        return reply["result"].get("value")

    def write(self, text):
        """Types a text into the element that has the focus."""
        self.ask("Input.insertText", text=text)

    def press(self, key, control=False, shift=False):
        code = {"Enter": 13, "Tab": 9, "ArrowDown": 40, " ": 32, "Escape": 27}.get(key, ord(key.upper()[0]))
        how = {"key": key, "code": "Space" if key == " " else f"Key{key.upper()}" if len(key) == 1 else key, "windowsVirtualKeyCode": code, "modifiers": 2 * control + 8 * shift}
        text = {"Enter": "\r", " ": " "}.get(key) if not control else None
        self.ask("Input.dispatchKeyEvent", type="keyDown" if text else "rawKeyDown", **how, **({"text": text} if text else {}))
        self.ask("Input.dispatchKeyEvent", type="keyUp", **how)

    def resize(self, width, height):
        self.ask("Emulation.setDeviceMetricsOverride", width=width, height=height, deviceScaleFactor=1, mobile=False)

    def set_dark(self, is_dark):
        self.ask("Emulation.setEmulatedMedia", features=[{"name": "prefers-color-scheme", "value": "dark" if is_dark else "light"}])

    def shot(self, path, is_whole=False):
        size = self.run("return [Math.max(innerWidth, document.documentElement.scrollWidth), document.documentElement.scrollHeight];")
        clip = {"captureBeyondViewport": True, "clip": {"x": 0, "y": 0, "width": size[0], "height": min(size[1], 6000), "scale": 1}} if is_whole else {}
        path.write_bytes(base64.b64decode(self.ask("Page.captureScreenshot", **clip)["data"]))

    def close(self):
        try:
            self.session = None
            self.ask("Browser.close")
        except (BrowserError, OSError):
            pass
        end(self.process)
        shutil.rmtree(self.room, ignore_errors=True)


class Firefox:
    """Firefox, which answers Marionette's messages, `LENGTH:JSON`, on a local socket that it chooses itself."""

    def __init__(self, width=1200, height=900):
        self.room = tempfile.mkdtemp(prefix="netflow-firefox-")
        with open(f"{self.room}/user.js", "w", encoding="ascii") as settings:
            settings.write('user_pref("marionette.port", 0);\nuser_pref("browser.shell.checkDefaultBrowser", false);\n')
        words = ["firefox-esr", "--headless", "--marionette", "--no-remote", "--profile", self.room, "--width", str(width), "--height", str(height)]
        self.process = subprocess.Popen(words, stdin=subprocess.DEVNULL, stdout=subprocess.DEVNULL, stderr=subprocess.DEVNULL)
        self.count, self.rest, self.log = 0, b"", []
        try:
            self.connect()
            self.resize(width, height)
        except (BrowserError, OSError):
            self.process.kill()
            self.process.wait()
            shutil.rmtree(self.room, ignore_errors=True)
            raise
        self.socket.settimeout(2 * ANSWER)

    def connect(self):
        self.socket = socket.create_connection(("127.0.0.1", self.port()), timeout=START)
        self.read()
        self.ask("WebDriver:NewSession", capabilities={"alwaysMatch": {}})
        self.ask("WebDriver:SetTimeouts", script=ANSWER * 1000)

    def port(self):
        """Returns the port that Firefox wrote into its profile."""
        path = os.path.join(self.room, "MarionetteActivePort")
        for _ in range(START * 10):
            if os.path.exists(path) and open(path, encoding="ascii").read().strip():
                return int(open(path, encoding="ascii").read())
            if self.process.poll() is not None:
                break
            time.sleep(0.1)
        raise BrowserError("Firefox did not start")

    def read(self):
        while b":" not in self.rest:
            self.receive()
        size, _, self.rest = self.rest.partition(b":")
        while len(self.rest) < int(size):
            self.receive()
        one, self.rest = self.rest[:int(size)], self.rest[int(size):]
        return json.loads(one)

    def receive(self):
        more = self.socket.recv(1 << 20)
        if not more:
            raise BrowserError("Firefox ended")
        self.rest += more

    def ask(self, method, **params):
        self.count += 1
        data = json.dumps([0, self.count, method, params]).encode()
        self.socket.sendall(str(len(data)).encode() + b":" + data)
        _, _, error, value = self.read()
        if error:
            raise BrowserError(f"{method}: {error}")
        return value

    def open(self, url):
        self.ask("WebDriver:Navigate", url=url)

    def run(self, body, *values):
        script = ("const done = arguments[1]; (async (page, args) => { " + body + " })(window.wrappedJSObject ?? window, JSON.parse(arguments[0]))"
                  ".then(value => done({ value: value === undefined ? null : value }), error => done({ error: String(error) }));")
        reply = self.ask("WebDriver:ExecuteAsyncScript", script=script, args=[json.dumps(values)])["value"]
        if "error" in reply:
            raise BrowserError(reply["error"])
        return reply["value"]

    def act(self, *actions):
        self.ask("WebDriver:PerformActions", actions=[{"type": "key", "id": "keyboard", "actions": list(actions)}])

    def write(self, text):
        # Keys one by one would take minutes for a model, so the text goes in as a paste does.
        self.run("document.activeElement.setRangeText(args[0], document.activeElement.selectionStart, document.activeElement.selectionEnd, 'end');"
                 "document.activeElement.dispatchEvent(new Event('input', { bubbles: true }));", text)

    def press(self, key, control=False, shift=False):
        codes = {"Enter": "\ue007", "Tab": "\ue004", "ArrowDown": "\ue015", "Escape": "\ue00c"}
        held = [it for it, is_held in (("\ue009", control), ("\ue008", shift)) if is_held]
        self.act(*({"type": "keyDown", "value": it} for it in held), {"type": "keyDown", "value": codes.get(key, key)},
                 {"type": "keyUp", "value": codes.get(key, key)}, *({"type": "keyUp", "value": it} for it in reversed(held)))

    def resize(self, width, height):
        # The window's frame takes some pixels; the page's own size is what counts.
        self.ask("WebDriver:SetWindowRect", width=width, height=height)

    def shot(self, path, is_whole=False):
        path.write_bytes(base64.b64decode(self.ask("WebDriver:TakeScreenshot", full=is_whole)["value"]))

    def close(self):
        try:
            self.ask("Marionette:Quit", flags=["eForceQuit"])
        except (BrowserError, OSError):
            pass
        end(self.process)
        shutil.rmtree(self.room, ignore_errors=True)


def started(kind):
    """Starts a browser; on a busy machine Firefox sometimes does not answer at first, so it is tried three times."""
    for _ in range(2):
        try:
            return KINDS[kind]()
        except (BrowserError, OSError) as problem:
            print(f"check_web: {kind} did not start: {problem}", file=sys.stderr, flush=True)
    return KINDS[kind]()


def end(process):
    """Waits for a browser to end, and ends it after a while."""
    try:
        process.wait(timeout=20)
    except subprocess.TimeoutExpired:
        process.kill()
        process.wait()


KINDS = {"chromium": Chromium, "firefox-esr": Firefox}
