"""Chromium without a window, driven over its debugging pipe: it is written to on its descriptor 3, and answers on its descriptor 4."""
import base64
import json
import os
import subprocess
import tempfile
import threading
import time


class Chromium:
    """A browser with one page at a time. What its pages ask for and complain of is kept."""

    def __init__(self, program):
        self.folder = tempfile.TemporaryDirectory(prefix="playground-chromium-", ignore_cleanup_errors=True)
        (his, mine), (my, its) = os.pipe(), os.pipe()
        words = ["--headless=new", "--no-sandbox", "--disable-gpu", "--hide-scrollbars", "--remote-debugging-pipe", f"--user-data-dir={self.folder.name}", "about:blank"]
        # The shell gives the descriptors the numbers that Chromium looks for.
        begin = ["bash", "-c", f'exec "$0" "$@" 3<&{his} 4>&{its}', program, *words]
        self.process = subprocess.Popen(begin, pass_fds=(his, its), stdin=subprocess.DEVNULL, stdout=subprocess.DEVNULL, stderr=subprocess.DEVNULL)
        os.close(his), os.close(its)
        self.to, self.number = mine, 0
        self.answers, self.turn, self.pen = {}, threading.Condition(), threading.Lock()
        self.asked, self.complaints, self.frames = [], [], []
        threading.Thread(target=self.listen, args=(my,), daemon=True).start()
        self.session = None
        self.open_tab()

    def listen(self, my):
        kept = b""
        while piece := os.read(my, 1 << 20):
            *whole, kept = (kept + piece).split(b"\0")
            for it in whole:
                self.hear(json.loads(it))
        with self.turn:
            self.answers = None
            self.turn.notify_all()

    def hear(self, it):
        method, what = it.get("method"), it.get("params", {})
        with self.turn:
            if "id" in it:
                self.answers[it["id"]] = it
                self.turn.notify_all()
            elif method == "Runtime.exceptionThrown" or method == "Log.entryAdded":
                self.complaints.append(json.dumps(what)[:600])
            elif method == "Network.requestWillBeSent":
                self.asked.append(what["request"]["url"][:80])
            elif method == "Target.attachedToTarget" and what["targetInfo"]["type"] == "iframe":
                self.frames.append((what["sessionId"], None))
            elif method == "Runtime.executionContextCreated":
                context = what["context"]
                if context.get("auxData", {}).get("isDefault"):
                    self.frames.append((it.get("sessionId"), context["id"]))

    def call(self, method, session=None, **params):
        """Calls a method of the browser, or of a page, and returns what it answers."""
        with self.turn:
            self.number += 1
            number = self.number
        it = {"id": number, "method": method, "params": params, **({"sessionId": session} if session else {})}
        with self.pen, os.fdopen(os.dup(self.to), "wb") as to:
            to.write(json.dumps(it).encode() + b"\0")
        with self.turn:
            if not self.turn.wait_for(lambda: self.answers is None or number in self.answers, 90):
                raise TimeoutError(f"Chromium does not answer {method}")
            if self.answers is None:
                raise EOFError("Chromium ended")
            return self.answers.pop(number).get("result", {})

    def open_tab(self):
        """Opens another page, empty, and drives that from now on."""
        target = self.call("Target.createTarget", url="about:blank")["targetId"]
        self.session = self.call("Target.attachToTarget", targetId=target, flatten=True)["sessionId"]
        for it in ("Page", "Runtime", "Log", "Network"):
            self.page(f"{it}.enable")
        self.page("Target.setAutoAttach", autoAttach=True, waitForDebuggerOnStart=False, flatten=True)

    def page(self, method, **params):
        return self.call(method, self.session, **params)

    def js(self, text):
        """The value of an expression in the page."""
        return self.value(self.page("Runtime.evaluate", expression=text, awaitPromise=True, returnByValue=True))

    def js_in_frame(self, text):
        """The value of an expression in the newest frame that is in the page."""
        for session, context in reversed(self.frames):
            where = {} if context is None else {"contextId": context}
            if session != self.session or context is not None:
                it = self.call("Runtime.evaluate", session, expression=f"self !== top && ({text})", returnByValue=True, **where)
                if it and "exceptionDetails" not in it and self.value(it) is not False:
                    return self.value(it)
        return None

    @staticmethod
    def value(it):
        if "exceptionDetails" in it:
            return f"THREW {json.dumps(it['exceptionDetails'])[:400]}"
        return it.get("result", {}).get("value")

    def until(self, text, seconds=60, js=None):
        """Waits until an expression is true. Says whether it became so."""
        end = time.monotonic() + seconds
        while time.monotonic() < end:
            it = (js or self.js)(text)
            if it and not str(it).startswith("THREW"):
                return True
            time.sleep(0.03)
        return False

    def size(self, width, height):
        self.page("Emulation.setDeviceMetricsOverride", width=width, height=height, deviceScaleFactor=1, mobile=width < 500)

    def dark(self, is_dark):
        self.page("Emulation.setEmulatedMedia", features=[{"name": "prefers-color-scheme", "value": "dark" if is_dark else "light"}])

    def go(self, url):
        self.page("Page.navigate", url="about:blank")
        self.page("Page.navigate", url=url)

    def key(self, key, modifiers=0, code=0, text=""):
        """Presses a key. 2 is Control, 8 is Shift."""
        for kind in ("keyDown", "keyUp"):
            self.page("Input.dispatchKeyEvent", type=kind, key=key, modifiers=modifiers, windowsVirtualKeyCode=code, **({"text": text} if text and kind == "keyDown" else {}))

    def picture(self, path):
        time.sleep(0.4)
        with open(path, "wb") as it:
            it.write(base64.b64decode(self.page("Page.captureScreenshot")["data"]))

    def close(self):
        try:
            self.call("Browser.close")
            self.process.wait(20)
        except (OSError, EOFError, subprocess.TimeoutExpired):
            self.process.kill()
        self.folder.cleanup()
