"""Chromium by a pipe and Firefox by WebDriver BiDi, each without a window, by their own protocols and with no package.

Both have the same calls: `open`, `value` of an expression of JavaScript, `click`, `type`, `press`, `move`, `size`, `picture`. What they were
told on the console, and what was requested, stands in `console` and `requests`.
"""
import base64
import json
import os
import shutil
import socket
import struct
import subprocess
import tempfile
import time
from pathlib import Path

WAIT = 240
KEYS = {"Enter": "\ue007", "Tab": "\ue004", "Escape": "\ue00c", "ArrowLeft": "\ue012", "ArrowUp": "\ue013", "ArrowRight": "\ue014",
        "ArrowDown": "\ue015", "Control": "\ue009", "Backspace": "\ue003", "Delete": "\ue017", "End": "\ue010", "Home": "\ue011"}
CODES = {"Enter": 13, "Tab": 9, "Escape": 27, "ArrowLeft": 37, "ArrowUp": 38, "ArrowRight": 39, "ArrowDown": 40, "Control": 17,
         "Backspace": 8, "Delete": 46, "End": 35, "Home": 36, " ": 32}
PLACE = """(() => { const it = document.querySelector(%s); if (!it) return null; it.scrollIntoView({block: 'nearest', inline: 'nearest'});
  const at = it.getBoundingClientRect(); return [at.left + Math.min(at.width / 2, %s), at.top + at.height / 2]; })()"""


class Browser:
    """What both have in common."""

    def __init__(self):
        self.folder, self.number, self.answers = tempfile.mkdtemp(), 0, {}
        self.console, self.requests, self.errors = [], [], []

    def call(self, method, **parameters):
        self.number += 1
        number = self.number
        self.send({"id": number, "method": method, "params": parameters})
        until = time.monotonic() + WAIT
        while number not in self.answers:
            if time.monotonic() > until:
                raise TimeoutError(f"{method} isn't answered")
            self.take()
        answer = self.answers.pop(number)
        if "error" in answer:
            raise RuntimeError(f"{method}: {answer.get('message') or answer['error']}")
        return answer.get("result", {})

    def take(self):
        message = self.receive()
        if "id" in message and message["id"] is not None:
            self.answers[message["id"]] = message
        else:
            self.hear(message.get("method", ""), message.get("params", {}))

    def wait(self, expression, seconds=20):
        """Waits until the expression is true: its value."""
        until = time.monotonic() + seconds
        while not (found := self.value(f"Boolean({expression})")):
            if time.monotonic() > until:
                told = self.value("[...document.querySelectorAll('#notice, .faults')].map(it => it.textContent.slice(0, 120)).join(' | ')")
                raise TimeoutError(f"never true: {expression}; told: {told}")
            time.sleep(0.05)
        return found

    def place(self, selector, most=1e9):
        at = self.value(PLACE % (json.dumps(selector), most))
        if at is None:
            raise LookupError(f"nothing is {selector}")
        return at

    def click(self, selector, most=1e9):
        self.press_at(*self.place(selector, most))

    def move(self, selector):
        self.move_to(*self.place(selector))

    def close(self):
        self.process.kill()
        self.process.wait()
        shutil.rmtree(self.folder, ignore_errors=True)


class Chromium(Browser):
    name = "chromium"

    def __init__(self, dark=False):
        super().__init__()
        ours, theirs = os.pipe(), os.pipe()
        words = ["chromium", "--headless=new", "--no-sandbox", "--remote-debugging-pipe", "--disable-gpu", "--no-first-run",
                 "--disable-extensions", "--disable-background-networking", "--disable-component-update", f"--user-data-dir={self.folder}", "about:blank"]

        def hand_over():
            os.dup2(ours[0], 13)
            os.dup2(theirs[1], 14)
            os.dup2(13, 3)
            os.dup2(14, 4)

        self.process = subprocess.Popen(words, preexec_fn=hand_over, close_fds=False, stdout=subprocess.DEVNULL, stderr=subprocess.DEVNULL)
        os.close(ours[0])
        os.close(theirs[1])
        self.out, self.into, self.rest, self.session = ours[1], theirs[0], b"", None
        target = next(it for it in self.call("Target.getTargets")["targetInfos"] if it["type"] == "page")
        self.session = self.call("Target.attachToTarget", targetId=target["targetId"], flatten=True)["sessionId"]
        for it in ("Page", "Runtime", "Log", "Network"):
            self.call(f"{it}.enable")
        self.call("Emulation.setEmulatedMedia", features=[{"name": "prefers-color-scheme", "value": "dark" if dark else "light"}])

    def send(self, message):
        if self.session:
            message["sessionId"] = self.session
        data = json.dumps(message).encode() + b"\0"
        while data:
            data = data[os.write(self.out, data):]

    def receive(self):
        while b"\0" not in self.rest:
            self.rest += os.read(self.into, 1 << 20)
        message, self.rest = self.rest.split(b"\0", 1)
        return json.loads(message)

    def hear(self, method, said):
        if method == "Runtime.consoleAPICalled":
            self.console.append(f"{said['type']}: {[it.get('value', it.get('description')) for it in said['args']]}")
        elif method == "Runtime.exceptionThrown":
            details = said["exceptionDetails"]
            self.console.append(f"exception: {details.get('exception', {}).get('description', details['text'])}")
        elif method == "Log.entryAdded":
            self.console.append(f"{said['entry']['level']}: {said['entry']['text']}")
        elif method == "Network.requestWillBeSent":
            self.requests.append(said["request"]["url"][:200])

    def open(self, address):
        self.call("Page.navigate", url=address)

    def reload(self):
        self.call("Page.reload")

    def before(self, source):
        """Is run in each page before its own scripts."""
        self.call("Page.addScriptToEvaluateOnNewDocument", source=source)

    def value(self, expression):
        done = self.call("Runtime.evaluate", expression=expression, returnByValue=True, awaitPromise=True)
        if "exceptionDetails" in done:
            raise RuntimeError(done["exceptionDetails"].get("exception", {}).get("description", "a fault"))
        return done["result"].get("value")

    def mouse(self, kind, x, y, **more):
        self.call("Input.dispatchMouseEvent", type=kind, x=x, y=y, **more)

    def move_to(self, x, y):
        self.mouse("mouseMoved", x, y)

    def press_at(self, x, y):
        self.move_to(x, y)
        self.mouse("mousePressed", x, y, button="left", clickCount=1)
        self.mouse("mouseReleased", x, y, button="left", clickCount=1)

    def type(self, text):
        self.call("Input.insertText", text=text)

    def press(self, key, *held):
        modifiers = 2 if "Control" in held else 0
        text = "\r" if key == "Enter" else key if len(key) == 1 and not modifiers else ""
        code = CODES.get(key, ord(key[0].upper()))
        for kind in ("keyDown", "keyUp"):
            more = {"text": text} if text and kind == "keyDown" else {}
            self.call("Input.dispatchKeyEvent", type=kind, key=key, windowsVirtualKeyCode=code, modifiers=modifiers, **more)

    def size(self, width, height):
        self.call("Emulation.setDeviceMetricsOverride", width=width, height=height, deviceScaleFactor=1, mobile=False)

    def picture(self, file):
        Path(file).write_bytes(base64.b64decode(self.call("Page.captureScreenshot", format="png")["data"]))


class Firefox(Browser):
    name = "firefox"

    def __init__(self, dark=False):
        super().__init__()
        prefs = {"ui.systemUsesDarkTheme": int(dark), "layout.css.prefers-color-scheme.content-override": 0 if dark else 1,
                 "browser.shell.checkDefaultBrowser": False, "datareporting.policy.dataSubmissionEnabled": False, "remote.active-protocols": 1,
                 "toolkit.telemetry.enabled": False, "app.normandy.enabled": False}
        Path(self.folder, "user.js").write_text("".join(f"user_pref({json.dumps(k)}, {json.dumps(v)});\n" for k, v in prefs.items()))
        words = ["firefox-esr", "--headless", "--no-remote", "--profile", self.folder, "--remote-debugging-port", "0", "about:blank"]
        log = open(Path(self.folder, "log"), "wb")
        surroundings = {**os.environ, "HOME": self.folder, "MOZ_DISABLE_CONTENT_SANDBOX": "1"}
        self.process = subprocess.Popen(words, stdout=log, stderr=log, env=surroundings)
        self.connect(self.port())
        self.call("session.new", capabilities={})
        self.call("session.subscribe", events=["log.entryAdded", "network.beforeRequestSent"])
        self.context = self.call("browsingContext.getTree")["contexts"][0]["context"]

    def port(self):
        until = time.monotonic() + WAIT
        file = Path(self.folder, "WebDriverBiDiServer.json")
        while time.monotonic() < until:
            if file.exists() and file.stat().st_size:
                return json.loads(file.read_text())["ws_port"]
            time.sleep(0.1)
        raise TimeoutError(f"Firefox doesn't begin: {Path(self.folder, 'log').read_text()[:500]}")

    def connect(self, port):
        self.socket = socket.create_connection(("127.0.0.1", port), WAIT)
        key = base64.b64encode(os.urandom(16)).decode()
        self.socket.sendall(f"GET /session HTTP/1.1\r\nHost: 127.0.0.1:{port}\r\nUpgrade: websocket\r\nConnection: Upgrade\r\n"
                            f"Sec-WebSocket-Key: {key}\r\nSec-WebSocket-Version: 13\r\n\r\n".encode())
        self.rest = b""
        while b"\r\n\r\n" not in self.rest:
            self.rest += self.socket.recv(4096)
        self.rest = self.rest.split(b"\r\n\r\n", 1)[1]

    def send(self, message):
        data, mask = json.dumps(message).encode(), os.urandom(4)
        size = len(data)
        length = bytes([0x80 | size]) if size < 126 else struct.pack(">BH", 0xfe, size) if size < 65536 else struct.pack(">BQ", 0xff, size)
        repeated = (mask * (size // 4 + 1))[:size]
        masked = (int.from_bytes(data, "big") ^ int.from_bytes(repeated, "big")).to_bytes(size, "big") if size else b""
        self.socket.sendall(b"\x81" + length + mask + masked)

    def read(self, count):
        while len(self.rest) < count:
            more = self.socket.recv(1 << 20)
            if not more:
                raise EOFError("Firefox has ended")
            self.rest += more
        data, self.rest = self.rest[:count], self.rest[count:]
        return data

    def receive(self):
        data = b""
        while True:
            head = self.read(2)
            size = head[1] & 127
            size = struct.unpack(">H", self.read(2))[0] if size == 126 else struct.unpack(">Q", self.read(8))[0] if size == 127 else size
            data += self.read(size)
            if head[0] & 0x80:
                return json.loads(data)

    def hear(self, method, said):
        if method == "log.entryAdded":
            self.console.append(f"{said.get('level')}: {said.get('text')}")
        elif method == "network.beforeRequestSent":
            self.requests.append(said["request"]["url"][:200])

    def open(self, address):
        self.call("browsingContext.navigate", context=self.context, url=address, wait="complete")

    def reload(self):
        self.call("browsingContext.reload", context=self.context, wait="complete")

    def before(self, source):
        self.call("script.addPreloadScript", functionDeclaration=f"() => {{ {source} }}")

    def value(self, expression):
        text = f"Promise.resolve({expression}).then(it => JSON.stringify(it === undefined ? null : it))"
        done = self.call("script.evaluate", expression=text, target={"context": self.context}, awaitPromise=True)
        if done["type"] != "success":
            raise RuntimeError(done["exceptionDetails"]["text"])
        return json.loads(done["result"]["value"])

    def act(self, kind, actions, **more):
        self.call("input.performActions", context=self.context, actions=[{"type": kind, "id": kind, "actions": actions, **more}])

    def move_to(self, x, y):
        self.act("pointer", [{"type": "pointerMove", "x": round(x), "y": round(y)}], parameters={"pointerType": "mouse"})

    def press_at(self, x, y):
        self.act("pointer", [{"type": "pointerMove", "x": round(x), "y": round(y)}, {"type": "pointerDown", "button": 0},
                             {"type": "pointerUp", "button": 0}], parameters={"pointerType": "mouse"})

    def type(self, text):
        self.act("key", [it for c in text for it in ({"type": "keyDown", "value": KEYS["Enter"] if c == "\n" else c},
                                                     {"type": "keyUp", "value": KEYS["Enter"] if c == "\n" else c})])

    def press(self, key, *held):
        value = KEYS.get(key, key)
        down = [{"type": "keyDown", "value": KEYS[it]} for it in held]
        up = [{"type": "keyUp", "value": KEYS[it]} for it in held]
        self.act("key", [*down, {"type": "keyDown", "value": value}, {"type": "keyUp", "value": value}, *up])

    def size(self, width, height):
        self.call("browsingContext.setViewport", context=self.context, viewport={"width": width, "height": height})

    def picture(self, file):
        Path(file).write_bytes(base64.b64decode(self.call("browsingContext.captureScreenshot", context=self.context)["data"]))


BROWSERS = {"chromium": ("chromium", Chromium), "firefox": ("firefox-esr", Firefox)}
