"""Drives a headless chromium over two pipes."""
import base64
import fcntl
import json
import os
import select
import signal
import subprocess
import time

PATIENCE = 120  # seconds that anything may take


class Browser:
    """A headless chromium, driven over two pipes; its profile lies in a folder that goes with it."""

    def __init__(self, folder):
        theirs_in, self.out = (fcntl.fcntl(end, fcntl.F_DUPFD_CLOEXEC, 10) for end in os.pipe())
        self.input, theirs_out = (fcntl.fcntl(end, fcntl.F_DUPFD_CLOEXEC, 10) for end in os.pipe())

        def place_pipes():
            os.dup2(theirs_in, 3)
            os.dup2(theirs_out, 4)

        self.process = subprocess.Popen(
            ["chromium", "--headless=new", "--no-sandbox", "--disable-gpu", "--hide-scrollbars", "--no-first-run", "--disable-extensions",
             "--disable-background-networking", f"--user-data-dir={folder}", "--remote-debugging-pipe", "about:blank"],
            preexec_fn=place_pipes, pass_fds=(3, 4), stdin=subprocess.DEVNULL, stdout=subprocess.DEVNULL, stderr=subprocess.DEVNULL,
            start_new_session=True, env={**os.environ, "HOME": str(folder)})
        os.close(theirs_in)
        os.close(theirs_out)
        self.number, self.left, self.session, self.complaints = 0, b"", None, []
        target = next(it for it in self.send("Target.getTargets")["targetInfos"] if it["type"] == "page")["targetId"]
        self.session = self.send("Target.attachToTarget", targetId=target, flatten=True)["sessionId"]
        for domain in ("Page", "Runtime", "DOM", "Log"):
            self.send(domain + ".enable")

    def close(self):
        """Ends chromium and all its processes."""
        try:
            self.session = None
            self.send("Browser.close")
            self.process.wait(PATIENCE)
        except (OSError, EOFError, RuntimeError, subprocess.TimeoutExpired):
            os.killpg(self.process.pid, signal.SIGKILL)
            self.process.wait()
        os.close(self.out)
        os.close(self.input)

    def read(self):
        """The next message."""
        while b"\0" not in self.left:
            if not select.select([self.input], [], [], PATIENCE)[0]:
                raise TimeoutError("chromium says nothing")
            part = os.read(self.input, 1 << 20)
            if not part:
                raise EOFError("chromium ended")
            self.left += part
        message, self.left = self.left.split(b"\0", 1)
        return json.loads(message)

    def send(self, method, **parameters):
        self.number += 1
        session = {"sessionId": self.session} if self.session else {}
        line = json.dumps({"id": self.number, "method": method, "params": parameters, **session}).encode() + b"\0"
        while line:
            line = line[os.write(self.out, line):]
        while True:
            message = self.read()
            if message.get("method") == "Runtime.exceptionThrown":
                self.complaints.append(message["params"]["exceptionDetails"].get("exception", {}).get("description", "an exception"))
            if message.get("method") == "Log.entryAdded" and message["params"]["entry"]["level"] == "error":
                self.complaints.append(message["params"]["entry"]["text"] + " " + message["params"]["entry"].get("url", ""))
            if message.get("id") == self.number:
                if "error" in message:
                    raise RuntimeError(f"{method}: {message['error']}")
                return message["result"]

    def say(self, script):
        """What a script comes to in the page."""
        result = self.send("Runtime.evaluate", expression=script, returnByValue=True, awaitPromise=True)
        if "exceptionDetails" in result:
            raise RuntimeError(f"{script}: {result['exceptionDetails']}")
        return result["result"].get("value")

    def wait(self, script):
        """Waits until a script comes to something true, and returns it."""
        end = time.monotonic() + PATIENCE
        while time.monotonic() < end:
            value = self.say(script)
            if value:
                return value
            time.sleep(0.02)
        raise TimeoutError(script)

    def size(self, wide, high, dark=False):
        self.send("Emulation.setDeviceMetricsOverride", width=wide, height=high, deviceScaleFactor=1, mobile=False)
        self.send("Emulation.setEmulatedMedia", features=[{"name": "prefers-color-scheme", "value": "dark" if dark else "light"}])

    def key(self, key, code):
        for kind in ("rawKeyDown", "keyUp"):
            self.send("Input.dispatchKeyEvent", type=kind, key=key, code=key, windowsVirtualKeyCode=code)

    def move_to(self, x, y):
        self.send("Input.dispatchMouseEvent", type="mouseMoved", x=x, y=y)

    def click(self, x, y):
        for kind in ("mousePressed", "mouseReleased"):
            self.send("Input.dispatchMouseEvent", type=kind, x=x, y=y, button="left", clickCount=1)

    def nameless(self):
        """What can have the focus, and has no name for who does not see it: roles."""
        self.send("Accessibility.enable")
        nodes = self.send("Accessibility.getFullAXTree")["nodes"]
        can_focus = lambda node: any(it["name"] == "focusable" and it["value"].get("value") for it in node.get("properties", []))
        return [node["role"]["value"] for node in nodes if not node["ignored"] and can_focus(node) and node["role"]["value"] != "RootWebArea"
                and not node.get("name", {}).get("value", "").strip()]

    def choose_file(self, selector, path):
        root = self.send("DOM.getDocument")["root"]["nodeId"]
        self.send("DOM.setFileInputFiles", nodeId=self.send("DOM.querySelector", nodeId=root, selector=selector)["nodeId"], files=[str(path)])

    def photograph(self, path):
        path.write_bytes(base64.b64decode(self.send("Page.captureScreenshot", format="png", captureBeyondViewport=True)["data"]))
