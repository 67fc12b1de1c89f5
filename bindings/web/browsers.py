"""Drives Chromium (DevTools over a pipe) and Firefox (Marionette over a socket) without a window, by the standard library alone."""
import base64
import json
import os
import socket
import subprocess
import tempfile
import time


class Broken(Exception):
    """What a page or a browser said instead of an answer."""


# What Chromium does at a key with Ctrl, which it is told: without a window nothing maps its keys.
CODES = {"Enter": 13, "Tab": 9, "PageUp": 33, "PageDown": 34, "End": 35, "Home": 36, "ArrowLeft": 37, "ArrowUp": 38, "ArrowRight": 39, "ArrowDown": 40, "Insert": 45, "Delete": 46}
EDITS = {"a": "selectAll", "c": "copy", "v": "paste", "z": "undo", "y": "redo"}


class Chromium:
    """Chromium, with one page."""

    name = "chromium"

    def __init__(self, downloads):
        self.folder = tempfile.TemporaryDirectory(ignore_cleanup_errors=True)
        to_browser, self.out = os.pipe()
        self.into, from_browser = os.pipe()
        self.process = subprocess.Popen(
            ["bash", "-c", f'exec chromium --headless --no-sandbox --disable-gpu --no-first-run --remote-debugging-pipe --user-data-dir="$0" about:blank 3<&{to_browser} 4>&{from_browser}', self.folder.name],
            pass_fds=(to_browser, from_browser), stdin=subprocess.DEVNULL, stdout=subprocess.DEVNULL, stderr=subprocess.DEVNULL)
        os.close(to_browser)
        os.close(from_browser)
        self.number, self.rest, self.logged = 0, b"", []
        self.session = None
        target = next(it for it in self.call("Target.getTargets")["targetInfos"] if it["type"] == "page")
        self.session = self.call("Target.attachToTarget", targetId=target["targetId"], flatten=True)["sessionId"]
        for domain in ("Page", "Runtime", "Log"):
            self.call(f"{domain}.enable")
        self.call("Browser.setDownloadBehavior", behavior="allow", downloadPath=downloads)

    def read(self):
        while b"\0" not in self.rest:
            part = os.read(self.into, 1 << 20)
            if not part:
                raise Broken("chromium ended")
            self.rest += part
        said, self.rest = self.rest.split(b"\0", 1)
        return json.loads(said)

    def call(self, method, **values):
        self.number += 1
        message = {"id": self.number, "method": method, "params": values}
        if self.session and not method.startswith(("Target.", "Browser.")):
            message["sessionId"] = self.session
        os.write(self.out, json.dumps(message).encode() + b"\0")
        while True:
            said = self.read()
            if said.get("id") == self.number:
                if "error" in said:
                    raise Broken(f"{method}: {said['error']}")
                return said["result"]
            self.note(said)

    def note(self, said):
        """Keeps what the page logs: errors, and what its policy refuses."""
        kind, values = said.get("method"), said.get("params", {})
        if kind == "Runtime.exceptionThrown":
            self.logged.append(json.dumps(values["exceptionDetails"])[:400])
        elif kind == "Tracing.dataCollected":
            self.traced += values["value"]
        elif kind == "Tracing.tracingComplete":
            self.traces = False
        elif kind == "Log.entryAdded" and values["entry"]["level"] in ("error", "warning"):
            self.logged.append(values["entry"]["text"])

    def trace(self):
        """Notes from now on what the page's threads do."""
        self.traced, self.traces = [], True
        self.call("Tracing.start", categories="toplevel", transferMode="ReportEvents")

    def longest(self):
        """The milliseconds of the processor that the longest task of the page took since `trace`: while it goes on no key is heard."""
        self.call("Tracing.end")
        while self.traces:
            self.evaluate("return 1")
        main = [(it["pid"], it["tid"]) for it in self.traced if it["name"] == "thread_name" and it["args"]["name"] == "CrRendererMain"]
        return max(it.get("tdur", 0) / 1000 for it in self.traced if it["ph"] == "X" and (it["pid"], it["tid"]) in main)

    def evaluate(self, script):
        told = self.call("Runtime.evaluate", expression=f"(() => {{ {script} }})()", returnByValue=True, awaitPromise=True)
        if "exceptionDetails" in told:
            raise Broken(json.dumps(told["exceptionDetails"])[:600])
        return told["result"].get("value")

    def open(self, address):
        self.call("Page.navigate", url="about:blank")
        self.call("Page.navigate", url=address)
        wait_for(self, "return document.readyState === 'complete' && location.href !== 'about:blank'")

    def type(self, text):
        self.call("Input.insertText", text=text)

    def press(self, key, control=False, shift=False):
        code = CODES.get(key) or ord(key.upper())
        values = {"key": key, "code": key if len(key) > 1 else f"Key{key.upper()}", "windowsVirtualKeyCode": code, "modifiers": 2 * control + 8 * shift}
        if key == "Enter":
            values["text"] = "\r"
        if control and key in EDITS:
            values["commands"] = [EDITS[key]]
        self.call("Input.dispatchKeyEvent", type="keyDown", **values)
        values.pop("text", None)
        self.call("Input.dispatchKeyEvent", type="keyUp", **values)

    def mouse(self, kind, place, shift=False):
        """What the mouse does at a place: "down", "move" with its button down, or "up"."""
        event = {"down": "mousePressed", "move": "mouseMoved", "up": "mouseReleased"}[kind]
        self.call("Input.dispatchMouseEvent", type=event, x=place[0], y=place[1], button="left", buttons=1, clickCount=1, modifiers=8 * shift)

    def drag(self, begin, end):
        for kind, place in (("down", begin), ("move", end), ("up", end)):
            self.mouse(kind, place)

    def look(self, dark=False, width=1280, height=1000):
        self.call("Emulation.setEmulatedMedia", features=[{"name": "prefers-color-scheme", "value": "dark" if dark else "light"}])
        self.resize(width, height)

    def resize(self, width, height):
        self.call("Emulation.setDeviceMetricsOverride", width=width, height=height, deviceScaleFactor=1, mobile=False)

    def shoot(self, path):
        # (a picture of what lies below the window would give the page another width meanwhile)
        width, height, whole = self.evaluate("return [innerWidth, innerHeight, document.documentElement.scrollHeight]")
        self.resize(width, max(height, whole))
        told = self.call("Page.captureScreenshot")
        self.resize(width, height)
        with open(path, "wb") as out:
            out.write(base64.b64decode(told["data"]))

    def close(self):
        self.call("Browser.close")
        self.process.wait(20)
        self.folder.cleanup()


PREFERENCES = """user_pref("browser.download.folderList", 2);
user_pref("browser.download.dir", "%s");
user_pref("browser.download.useDownloadDir", true);
user_pref("browser.download.alwaysOpenPanel", false);
user_pref("browser.helperApps.neverAsk.saveToDisk", "text/plain,image/svg+xml,application/vnd.tcpdump.pcap");
user_pref("browser.shell.checkDefaultBrowser", false);
user_pref("datareporting.policy.dataSubmissionEnabled", false);
user_pref("app.update.enabled", false);
user_pref("marionette.port", %d);
user_pref("ui.systemUsesDarkTheme", %d);
user_pref("toolkit.legacyUserProfileCustomizations.stylesheets", true);
"""
# Keys as WebDriver calls them.
SIGNS = {"Enter": "\ue007", "Tab": "\ue004", "PageUp": "\ue00e", "PageDown": "\ue00f", "End": "\ue010", "Home": "\ue011", "ArrowLeft": "\ue012", "ArrowUp": "\ue013",
         "ArrowRight": "\ue014", "ArrowDown": "\ue015", "Insert": "\ue016", "Delete": "\ue017"}
# (a window is else no narrower than some 450 pixels)
NARROW = ":root { min-width: 0 !important; }"


def free_port():
    with socket.socket() as it:
        it.bind(("127.0.0.1", 0))
        return it.getsockname()[1]


class Firefox:
    """Firefox, with one page."""

    name = "firefox"
    logged = ()

    def __init__(self, downloads, dark=False, preferences=""):
        self.folder = tempfile.TemporaryDirectory(ignore_cleanup_errors=True)
        port = free_port()
        with open(f"{self.folder.name}/user.js", "w", encoding="utf-8") as out:
            out.write(PREFERENCES % (downloads, port, dark) + preferences)
        os.mkdir(f"{self.folder.name}/chrome")
        with open(f"{self.folder.name}/chrome/userChrome.css", "w", encoding="utf-8") as out:
            out.write(NARROW)
        self.process = subprocess.Popen(
            ["firefox-esr", "--headless", "--marionette", "--no-remote", "--profile", self.folder.name],
            stdin=subprocess.DEVNULL, stdout=subprocess.DEVNULL, stderr=subprocess.DEVNULL, env={**os.environ, "HOME": self.folder.name})
        self.socket, self.rest, self.number = self.connect(port), b"", 0
        self.read()
        self.call("WebDriver:NewSession", capabilities={"alwaysMatch": {"acceptInsecureCerts": False}})

    def connect(self, port):
        for _ in range(300):
            try:
                return socket.create_connection(("127.0.0.1", port), 120)
            except OSError:
                time.sleep(0.1)
        raise Broken("firefox does not answer")

    def read(self):
        while b":" not in self.rest:
            self.rest += self.socket.recv(1 << 16)
        length, rest = self.rest.split(b":", 1)
        while len(rest) < int(length):
            rest += self.socket.recv(1 << 20)
        self.rest = rest[int(length):]
        return json.loads(rest[:int(length)])

    def call(self, name, **values):
        self.number += 1
        message = json.dumps([0, self.number, name, values]).encode()
        self.socket.sendall(str(len(message)).encode() + b":" + message)
        _, _, error, result = self.read()
        if error:
            raise Broken(f"{name}: {error['message']}")
        return result.get("value", result) if isinstance(result, dict) else result

    def evaluate(self, script):
        return self.call("WebDriver:ExecuteScript", script=script, args=[])

    def open(self, address):
        self.call("WebDriver:Navigate", url="about:blank")
        self.call("WebDriver:Navigate", url=address)

    def keys(self, *actions):
        self.call("WebDriver:PerformActions", actions=[{"type": "key", "id": "keys", "actions": list(actions)}])

    def type(self, text):
        element = self.call("WebDriver:GetActiveElement")
        self.call("WebDriver:ElementSendKeys", id=next(iter(element.values())), text=text)

    def press(self, key, control=False, shift=False):
        keys = (["\ue009"] if control else []) + (["\ue008"] if shift else []) + [SIGNS.get(key, key)]
        downs = [{"type": "keyDown", "value": it} for it in keys]
        self.keys(*downs, *({"type": "keyUp", "value": it["value"]} for it in reversed(downs)))

    def point(self, *steps):
        self.call("WebDriver:PerformActions", actions=[{"type": "pointer", "id": "mouse", "parameters": {"pointerType": "mouse"}, "actions": list(steps)}])

    def mouse(self, kind, place, shift=False):
        """What the mouse does at a place: "down", "move" with its button down, or "up"."""
        if shift:
            self.keys({"type": "keyDown", "value": "\ue008"})
        button = [] if kind == "move" else [{"type": f"pointer{kind.title()}", "button": 0}]
        self.point({"type": "pointerMove", "x": int(place[0]), "y": int(place[1]), "duration": 0}, *button)
        if shift:
            self.keys({"type": "keyUp", "value": "\ue008"})

    def drag(self, begin, end):
        def move(place):
            return {"type": "pointerMove", "x": int(place[0]), "y": int(place[1]), "duration": 0}
        self.point(move(begin), {"type": "pointerDown", "button": 0}, move(end), {"type": "pointerUp", "button": 0})

    def look(self, dark=False, width=1280, height=1000):
        """Gives the page's part of the window a size; whether it is dark was said when the browser began."""
        self.call("WebDriver:SetWindowRect", width=width, height=height)
        for _ in range(50):
            inner = self.evaluate("return [innerWidth, innerHeight]")
            if inner == [width, height]:
                return
            outer = self.evaluate("return [outerWidth, outerHeight]")
            self.call("WebDriver:SetWindowRect", width=outer[0] + width - inner[0], height=outer[1] + height - inner[1])
            time.sleep(0.05)
        raise Broken(f"firefox is {inner} wide and high")

    def shoot(self, path):
        told = self.call("WebDriver:TakeScreenshot", full=True)
        with open(path, "wb") as out:
            out.write(base64.b64decode(told))

    def close(self):
        self.call("Marionette:Quit", flags=["eForceQuit"])
        self.process.wait(30)
        self.folder.cleanup()


def wait_for(browser, script, seconds=60):
    """Waits until a script in the page answers true."""
    end = time.monotonic() + seconds
    while time.monotonic() < end:
        if browser.evaluate(script):
            return
        time.sleep(0.03)
    raise Broken(f"{browser.name}: not within {seconds} s: {script}")
