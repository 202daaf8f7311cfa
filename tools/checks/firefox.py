"""Firefox without a window, driven by WebDriver BiDi."""

import atexit
import base64
import json
import os
import pathlib
import subprocess
import time

from checks.browser import Browser
from operators.shared import fail

# What a profile of its own is told: nothing is sent to anybody, and a window that no desktop shows has the focus.
PREFERENCES = {"datareporting.policy.dataSubmissionEnabled": False, "focusmanager.testmode": True}
# Keys that have no letter (WebDriver section 17.4.2), and the modifiers of a press: Ctrl is 2 and Shift 8.
KEYS = {
    "Tab": "\ue004",
    "Enter": "\ue007",
    "Escape": "\ue00c",
    "ArrowLeft": "\ue012",
    "ArrowUp": "\ue013",
    "ArrowRight": "\ue014",
    "ArrowDown": "\ue015",
    "Delete": "\ue017",
}
HELD = {2: "\ue009", 8: "\ue008"}


def value_of(told):
    """The value that a script gave (WebDriver BiDi, `script.RemoteValue`)."""
    kind, value = told["type"], told.get("value")
    if kind == "array":
        return [value_of(one) for one in value]
    return {key: value_of(one) for key, one in value} if kind == "object" else value


class Firefox(Browser):
    """Firefox with a profile of its own, and one tab. It shows a page in light colours."""

    def __init__(self, command, folder, preferences=PREFERENCES, environment=None):
        profile = pathlib.Path(folder) / f"profile{time.monotonic_ns()}"
        profile.mkdir()
        lines = [f'user_pref("{name}", {json.dumps(value)});\n' for name, value in preferences.items()]
        (profile / "user.js").write_text("".join(lines))
        null, own = subprocess.DEVNULL, os.environ | {"HOME": str(profile), "XDG_RUNTIME_DIR": str(profile)}
        own |= {"MOZ_CRASHREPORTER_DISABLE": "1"} | (environment or {})
        words = [command, "--headless", "--no-remote", "--remote-debugging-port=0", "--profile", profile, "about:blank"]
        self.process = subprocess.Popen(words, stdin=null, stdout=null, stderr=null, env=own)
        # A tool that fails leaves no browser behind.
        atexit.register(self.process.terminate)
        port = json.loads(self.told(profile / "WebDriverBiDiServer.json"))["ws_port"]
        self.stream, self.count = self.stream_to(port, "/session"), 0
        self.ask("session.new", capabilities={})
        # In the first tab the address has the focus, and a page is told nothing of where its own one goes.
        self.tab = self.ask("browsingContext.create", type="tab")["context"]

    def ask(self, method, **values):
        """What a command of the protocol is answered."""
        self.count += 1
        self.send(json.dumps({"id": self.count, "method": method, "params": values}))
        while (told := self.receive()).get("id") != self.count:
            pass
        if told["type"] == "error":
            fail(f"{method}: {told}")
        return told["result"]

    def evaluated(self, script):
        """The value of a script, and why it has none, or nothing."""
        told = self.ask("script.evaluate", expression=script, target={"context": self.tab}, awaitPromise=True)
        if told["type"] != "success":
            return None, told["exceptionDetails"]["text"]
        return value_of(told["result"]), ""

    def acts(self, kind, actions, **more):
        """Does what a keyboard or a pointer does."""
        source = {"type": kind, "id": kind, "actions": actions} | more
        self.ask("input.performActions", context=self.tab, actions=[source])

    def press(self, key, code, modifiers=0):
        held = [value for bit, value in HELD.items() if modifiers & bit]
        keys = [*held, KEYS.get(key, key)]
        downs = [{"type": "keyDown", "value": one} for one in keys]
        self.acts("key", [*downs, *({"type": "keyUp", "value": one} for one in reversed(keys))])

    def types(self, text):
        self.acts("key", [{"type": kind, "value": one} for one in text for kind in ("keyDown", "keyUp")])

    def tabs_to(self, selector):
        """Goes by Tab to an element from the first control on: behind the last one Firefox goes to its own."""
        self.run("document.querySelector('input,button,select').focus(), true")
        super().tabs_to(selector)

    def mouse(self, kind, x, y):
        button = {"mousePressed": ["pointerDown"], "mouseReleased": ["pointerUp"]}.get(kind, [])
        self.acts("pointer", [
            {"type": "pointerMove", "x": round(x), "y": round(y)}, *({"type": one, "button": 0} for one in button),
        ])  # fmt: skip

    def hovers(self, x, y):
        self.mouse("mouseMoved", x, y)

    def open(self, address):
        self.ask("browsingContext.navigate", context=self.tab, url=address, wait="complete")

    def reload(self):
        self.ask("browsingContext.reload", context=self.tab, wait="complete")

    def shows(self, width, height, dark=False):
        self.ask("browsingContext.setViewport", context=self.tab, viewport={"width": width, "height": height})

    def picture(self, path):
        data = self.ask("browsingContext.captureScreenshot", context=self.tab)["data"]
        pathlib.Path(path).write_bytes(base64.b64decode(data))
