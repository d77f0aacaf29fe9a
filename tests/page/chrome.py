"""A headless Chromium driven by its debugging pipe, in real time (`--virtual-time-budget` does not wait for files that a page reads), with what a person does: keys, mouse, files."""
import base64
import json
import os
import subprocess
import tempfile
import time


class Chrome:
    def __init__(self, program="chromium", size=(1400, 900)):
        self.folder = tempfile.TemporaryDirectory(ignore_cleanup_errors=True)
        theirs_in, self.to = os.pipe()
        self.of, theirs_out = os.pipe()

        def fds():
            a, b = os.dup(theirs_in), os.dup(theirs_out)
            os.dup2(a, 3)
            os.dup2(b, 4)
        self.process = subprocess.Popen(
            [program, "--headless", "--no-sandbox", "--disable-gpu", "--hide-scrollbars", "--disable-background-networking", "--remote-debugging-pipe", "--user-data-dir=" + self.folder.name,
             "--host-resolver-rules=MAP * ~NOTFOUND", "--window-size=%d,%d" % size, "about:blank"],
            stdin=subprocess.DEVNULL, stdout=subprocess.DEVNULL, stderr=subprocess.DEVNULL, preexec_fn=fds, close_fds=False)
        os.close(theirs_in)
        os.close(theirs_out)
        self.buffer, self.number, self.session, self.events = b"", 0, None, []
        target = self.ask("Target.createTarget", url="about:blank")["targetId"]
        self.session = self.ask("Target.attachToTarget", targetId=target, flatten=True)["sessionId"]
        for domain in ("Page", "Runtime", "Network", "Log", "DOM"):
            self.ask(domain + ".enable")
        self.ask("Emulation.setDeviceMetricsOverride", width=size[0], height=size[1], deviceScaleFactor=1, mobile=False)

    def message(self):
        while b"\0" not in self.buffer:
            more = os.read(self.of, 1 << 16)
            if not more:
                raise EOFError("Chromium ended")
            self.buffer += more
        one, self.buffer = self.buffer.split(b"\0", 1)
        return json.loads(one)

    def ask(self, method, **words):
        self.number += 1
        said = {"id": self.number, "method": method, "params": words}
        if self.session:
            said["sessionId"] = self.session
        whole = json.dumps(said).encode() + b"\0"
        while whole:
            whole = whole[os.write(self.to, whole):]
        while True:
            got = self.message()
            if got.get("id") == self.number:
                if "error" in got:
                    raise RuntimeError("%s: %s" % (method, got["error"]))
                return got["result"]
            self.events.append(got)

    def value(self, expression):
        got = self.ask("Runtime.evaluate", expression=expression, awaitPromise=True, returnByValue=True)
        if "exceptionDetails" in got:
            raise RuntimeError(json.dumps(got["exceptionDetails"])[:500])
        return got["result"].get("value")

    def until(self, expression, seconds=60):
        end = time.time() + seconds
        while time.time() < end:
            got = self.value(expression)
            if got:
                return got
            time.sleep(0.05)
        raise TimeoutError(expression)

    def page_thread(self):
        """Milliseconds of processor time that the pages' own threads have had: unlike the clock's they do not hang on what else the machine does."""
        session, self.session = self.session, None
        found = [one["id"] for one in self.ask("SystemInfo.getProcessInfo")["processInfo"] if one["type"] == "renderer"]
        self.session = session
        total = 0
        for process in found:
            with open("/proc/%d/task/%d/stat" % (process, process)) as f:
                fields = f.read().rsplit(")", 1)[1].split()
            total += int(fields[11]) + int(fields[12])
        return total * 1000 // os.sysconf("SC_CLK_TCK")

    # ## What a person does

    def move(self, x, y):
        self.ask("Input.dispatchMouseEvent", type="mouseMoved", x=x, y=y)

    def click(self, x, y):
        self.move(x, y)
        for kind in ("mousePressed", "mouseReleased"):
            self.ask("Input.dispatchMouseEvent", type=kind, x=x, y=y, button="left", clickCount=1)

    def type(self, text):
        self.ask("Input.insertText", text=text)

    def press(self, key, code=None, modifiers=0):
        """modifiers: 1 Alt, 2 Ctrl, 8 Shift"""
        words = dict(key=key, code=code or key, modifiers=modifiers, windowsVirtualKeyCode={"Enter": 13, "Escape": 27, "F8": 119, "ArrowRight": 39, "Tab": 9, "Backspace": 8}.get(key, ord(key[0].upper())))
        if key == "Enter":
            words["text"] = "\r"
        self.ask("Input.dispatchKeyEvent", type="keyDown", **words)
        words.pop("text", None)
        self.ask("Input.dispatchKeyEvent", type="keyUp", **words)

    def choose(self, selector, paths):
        node = self.ask("DOM.querySelector", nodeId=self.ask("DOM.getDocument")["root"]["nodeId"], selector=selector)["nodeId"]
        self.ask("DOM.setFileInputFiles", files=paths, nodeId=node)

    def drop(self, paths, x, y):
        data = {"items": [], "files": paths, "dragOperationsMask": 1}
        for kind in ("dragEnter", "dragOver", "drop"):
            self.ask("Input.dispatchDragEvent", type=kind, x=x, y=y, data=data)

    def picture(self, path):
        with open(path, "wb") as f:
            f.write(base64.b64decode(self.ask("Page.captureScreenshot")["data"]))

    def close(self):
        try:
            self.session = None
            self.ask("Browser.close")
        except (EOFError, OSError, RuntimeError):
            pass
        self.process.wait(20)
        self.folder.cleanup()
