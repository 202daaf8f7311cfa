"""A browser without a window, driven over its debugging socket."""

import atexit
import base64
import hashlib
import http.client
import json
import os
import pathlib
import socket
import struct
import subprocess
import time

from operators.shared import fail

FLAGS = [
    "--headless=new",
    "--disable-gpu",
    "--no-sandbox",
    "--disable-dev-shm-usage",
    "--no-first-run",
    "--remote-debugging-port=0",
]
# A browser that finds PulseAudio starts it, and hears nothing any more once that ends. Without it the browser plays by
# itself, to nobody.
SILENT = {"PULSE_SERVER": "none"}

# Gives scripts the names that the page's modules export, as they are at each look. `set` of the page assigns them.
NAMES = """(async () => {
  if (globalThis.hasNames || document.readyState !== "complete") return;
  const all = await Promise.all([...document.querySelectorAll("script[type=module]")].map(({ src }) => import(src)));
  const set = all.find((one) => one.set)?.set ?? {};
  for (const one of all) for (const name of Object.keys(one)) {
    Object.defineProperty(globalThis, name, { configurable: true, get: () => one[name], set: set[name] });
  }
  globalThis.hasNames = all.length > 0;
})()"""
# A frame has been drawn since this began.
FRAME = "new Promise((done) => requestAnimationFrame(() => requestAnimationFrame(() => done(true))))"
# What a script has that asks whether the names are there.
ASKS = "typeof desk"


class Browser:
    """Chromium with a profile of its own, and one tab."""

    def __init__(self, command, folder, flags=()):
        profile = pathlib.Path(folder) / f"profile{time.monotonic_ns()}"
        words = [command, *FLAGS, *flags, f"--user-data-dir={profile}", "about:blank"]
        nothing = dict.fromkeys(("stdin", "stdout", "stderr"), subprocess.DEVNULL)
        self.process = subprocess.Popen(words, env=os.environ | SILENT, **nothing)
        # A tool that fails leaves no browser behind.
        atexit.register(self.process.kill)
        self.stream = self.connected(profile / "DevToolsActivePort")
        self.count = 0

    def told(self, path):
        """What the browser writes to a file of its profile."""
        end = time.monotonic() + 60
        while not path.is_file() or not path.read_text().strip():
            if time.monotonic() > end or self.process.poll() is not None:
                fail("the browser doesn't start")
            time.sleep(0.1)
        return path.read_text()

    def connected(self, path):
        """A socket to the tab."""
        port = int(self.told(path).split()[0])
        connection = http.client.HTTPConnection("127.0.0.1", port, timeout=20)
        connection.request("GET", "/json/list")
        tab = next(one for one in json.loads(connection.getresponse().read()) if one["type"] == "page")
        return self.stream_to(port, tab["webSocketDebuggerUrl"].partition(str(port))[2])

    def stream_to(self, port, path):
        """A WebSocket (RFC 6455)."""
        stream = socket.create_connection(("127.0.0.1", port), timeout=60)
        key = base64.b64encode(os.urandom(16)).decode()
        head = ["Upgrade: websocket", "Connection: Upgrade", f"Sec-WebSocket-Key: {key}", "Sec-WebSocket-Version: 13"]
        stream.sendall("\r\n".join([f"GET {path} HTTP/1.1", f"Host: 127.0.0.1:{port}", *head, "", ""]).encode())
        answer = b""
        while b"\r\n\r\n" not in answer:
            answer += stream.recv(1)
        wanted = base64.b64encode(hashlib.sha1((key + "258EAFA5-E914-47DA-95CA-C5AB0DC85B11").encode()).digest())
        if wanted not in answer:
            fail("the browser takes no connection")
        return stream

    def send(self, text):
        """Sends a text frame, masked as RFC 6455 section 5.3 asks."""
        data, mask = text.encode(), os.urandom(4)
        size = len(data)
        if size < 126:
            head = struct.pack("!BB", 0x81, 0x80 | size)
        elif size < 65536:
            head = struct.pack("!BBH", 0x81, 0xFE, size)
        else:
            head = struct.pack("!BBQ", 0x81, 0xFF, size)
        self.stream.sendall(head + mask + bytes(octet ^ mask[at % 4] for at, octet in enumerate(data)))

    def octets(self, size):
        got = b""
        while len(got) < size:
            more = self.stream.recv(size - len(got))
            if not more:
                fail("the browser has ended")
            got += more
        return got

    def receive(self):
        """The next message, of however many frames."""
        whole = b""
        while True:
            first, size = self.octets(2)
            if size == 126:
                size = struct.unpack("!H", self.octets(2))[0]
            elif size == 127:
                size = struct.unpack("!Q", self.octets(8))[0]
            whole += self.octets(size)
            if first & 0x80:
                return json.loads(whole)

    def answered(self, method, **values):
        """The answer to a command of the debugging protocol, whether it was done or not."""
        self.count += 1
        self.send(json.dumps({"id": self.count, "method": method, "params": values}))
        while True:
            told = self.receive()
            if told.get("id") == self.count:
                return told

    def ask(self, method, **values):
        """What a command of the debugging protocol is answered."""
        told = self.answered(method, **values)
        if "error" in told:
            fail(f"{method}: {told['error']}")
        return told["result"]

    def evaluated(self, script):
        """The value of a script, and why it has none, or nothing."""
        told = self.ask("Runtime.evaluate", expression=script, awaitPromise=True, returnByValue=True)
        return told["result"].get("value"), str(told.get("exceptionDetails", ""))

    def run(self, script):
        """The value of a script in the page, which may name what the page's modules export."""
        if ASKS in script:
            self.evaluated(NAMES)
        value, fault = self.evaluated(script)
        if "is not defined" in fault:
            self.evaluated(NAMES)
            value, fault = self.evaluated(script)
        if fault:
            fail(f"{script}: {fault}")
        return value

    def press(self, key, code, modifiers=0):
        """Presses a key and lets it go: its name, and its code of the keyboard (UI Events KeyboardEvent, `keyCode`). Of
        the modifiers Ctrl is 2 and Shift 8."""
        text = {"text": "\r" if key == "Enter" else key} if key == "Enter" or len(key) == 1 and not modifiers else {}
        for kind in "keyDown", "keyUp":
            more = text if kind == "keyDown" else {}
            self.ask(
                "Input.dispatchKeyEvent",
                type=kind,
                key=key,
                code=key,
                windowsVirtualKeyCode=code,
                modifiers=modifiers,
                **more,
            )

    def mouse(self, kind, x, y):
        """Presses, moves or releases the pointer's left button."""
        buttons = {"mouseReleased": 0}.get(kind, 1)
        self.ask("Input.dispatchMouseEvent", type=kind, x=x, y=y, button="left", buttons=buttons, clickCount=1)

    def hovers(self, x, y):
        """Moves the pointer, with no button held."""
        self.ask("Input.dispatchMouseEvent", type="mouseMoved", x=x, y=y, button="none", buttons=0)

    def touch(self, kind, *points):
        """Touches points, moves there or lets go."""
        self.ask("Input.dispatchTouchEvent", type=kind, touchPoints=[{"x": x, "y": y} for x, y in points])

    def place(self, selector):
        """Where an element is: its left and upper edge, its width and its height."""
        return self.run(
            f"(() => {{ const r = document.querySelector({json.dumps(selector)}).getBoundingClientRect(); "
            "return [r.x, r.y, r.width, r.height]; })()"
        )

    def click(self, selector):
        """Clicks in the middle of an element."""
        self.run(f"document.querySelector({json.dumps(selector)}).scrollIntoView({{ block: 'center' }}), true")
        x, y, width, height = self.place(selector)
        for kind in "mousePressed", "mouseReleased":
            self.mouse(kind, x + width / 2, y + height / 2)

    def used(self):
        """The processor time that the tab has used, in milliseconds."""
        told = self.ask("Performance.getMetrics")["metrics"]
        return 1000 * next(one["value"] for one in told if one["name"] == "TaskDuration")

    def types(self, text):
        self.ask("Input.insertText", text=text)

    def tabs_to(self, selector):
        """Goes by Tab to an element, as who has no mouse does."""
        for _ in range(300):
            self.press("Tab", 9)
            if self.run(f"document.activeElement.matches({json.dumps(selector)})"):
                return
        fail(f"no Tab leads to {selector}")

    def open(self, address):
        self.ask("Page.enable")
        self.ask("Performance.enable", timeDomain="threadTicks")
        self.leaves("!window.isOld", "Page.navigate", url=address)

    def reload(self):
        """Loads the page anew."""
        self.leaves("!window.isOld && document.readyState === 'complete'", "Page.reload")

    def leaves(self, script, method, **values):
        """Leaves a page by a command. Waits until the old one is gone, while no script may have an answer."""
        self.run("window.isOld = true")
        self.ask(method, **values)
        end = time.monotonic() + 60
        while not self.answered("Runtime.evaluate", expression=script).get("result", {}).get("result", {}).get("value"):
            if time.monotonic() > end:
                fail("after 60 s the page isn't loaded anew")
            time.sleep(0.02)

    def wait(self, script, seconds=10):
        """Waits until a script is true. How long it took."""
        begun = time.monotonic()
        while not self.run(script):
            if time.monotonic() - begun > seconds:
                fail(f"after {seconds} s this isn't true: {script}")
            time.sleep(0.02)
        return time.monotonic() - begun

    def draws(self, width):
        """Waits until the page is drawn in a window of this width."""
        self.wait(f"innerWidth === {width} && document.documentElement.clientWidth <= {width}", 30)
        self.run(FRAME)

    def shows(self, width, height, dark=False):
        """Sets the size of the window, and its colours."""
        self.ask("Emulation.setDeviceMetricsOverride", width=width, height=height, deviceScaleFactor=1, mobile=False)
        scheme = "dark" if dark else "light"
        self.ask("Emulation.setEmulatedMedia", features=[{"name": "prefers-color-scheme", "value": scheme}])

    def picture(self, path):
        data = self.ask("Page.captureScreenshot", format="png")["data"]
        pathlib.Path(path).write_bytes(base64.b64decode(data))

    def close(self):
        self.stream.close()
        self.process.kill()
        self.process.wait()
