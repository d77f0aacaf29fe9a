"""firefox.py PAGE.html PICTURES: the planners' page from file:// in a headless Firefox, driven by its Marionette port. A smaller run than Chromium's (page_test.py): files by choice, a refusal marked in the editor, the
map's click, driving, a route, mending, typing, saving; and nothing that the page does is stopped by its policy."""
import base64
import json
import os
import socket
import subprocess
import sys
import tempfile
import time

sys.dont_write_bytecode = True
HERE = os.path.dirname(os.path.abspath(__file__))
ROOT = os.path.dirname(os.path.dirname(HERE))
for place in ("tests", "tests/oracle"):
    sys.path.insert(0, os.path.join(ROOT, place))


class Firefox:
    def __init__(self, program="firefox-esr"):
        self.folder = tempfile.TemporaryDirectory(ignore_cleanup_errors=True)
        with socket.socket() as free:
            free.bind(("127.0.0.1", 0))
            port = free.getsockname()[1]
        with open(os.path.join(self.folder.name, "user.js"), "w") as f:
            f.write('user_pref("marionette.port", %d);\nuser_pref("browser.download.folderList", 2);\nuser_pref("browser.download.dir", "%s");\nuser_pref("browser.download.useDownloadDir", true);\n'
                    'user_pref("browser.download.always_ask_before_handling_new_types", false);\n' % (port, self.folder.name))
        self.process = subprocess.Popen([program, "--headless", "--marionette", "--profile", self.folder.name, "--window-size", "1400,900"], stdout=subprocess.DEVNULL, stderr=subprocess.DEVNULL,
                                        env=dict(os.environ, HOME=self.folder.name, MOZ_DISABLE_CONTENT_SANDBOX="1"))
        for _ in range(600):
            try:
                self.socket = socket.create_connection(("127.0.0.1", port))
                break
            except OSError:
                time.sleep(0.2)
        self.buffer, self.number = b"", 0
        self.message()
        self.ask("WebDriver:NewSession")

    def message(self):
        while True:
            at = self.buffer.find(b":")
            if at >= 0 and len(self.buffer) >= at + 1 + int(self.buffer[:at]):
                size = int(self.buffer[:at])
                one, self.buffer = self.buffer[at + 1:at + 1 + size], self.buffer[at + 1 + size:]
                return json.loads(one)
            more = self.socket.recv(1 << 16)
            if not more:
                raise EOFError("Firefox ended")
            self.buffer += more

    def ask(self, command, **words):
        self.number += 1
        said = json.dumps([0, self.number, command, words]).encode()
        self.socket.sendall(b"%d:%s" % (len(said), said))
        _, _, error, result = self.message()
        if error:
            raise RuntimeError("%s: %s" % (command, error))
        return result

    def value(self, expression):
        return self.ask("WebDriver:ExecuteScript", script="return (%s)" % expression, args=[], newSandbox=False, sandbox=None)["value"]

    def until(self, expression, seconds=60):
        end = time.time() + seconds
        while time.time() < end:
            if self.value(expression):
                return
            time.sleep(0.1)
        raise TimeoutError(expression)

    def element(self, selector):
        return next(iter(self.ask("WebDriver:FindElement", using="css selector", value=selector)["value"].values()))

    def click(self, selector):
        self.ask("WebDriver:ElementClick", id=self.element(selector))

    def keys(self, selector, text):
        self.ask("WebDriver:ElementSendKeys", id=self.element(selector), text=text)

    def click_at(self, x, y):
        self.ask("WebDriver:PerformActions", actions=[{"type": "pointer", "id": "mouse", "parameters": {"pointerType": "mouse"}, "actions": [
            {"type": "pointerMove", "x": round(x), "y": round(y), "duration": 0}, {"type": "pointerDown", "button": 0}, {"type": "pointerUp", "button": 0}]}])

    def type(self, text):
        self.ask("WebDriver:PerformActions", actions=[{"type": "key", "id": "keys", "actions": [{"type": kind, "value": letter} for letter in text for kind in ("keyDown", "keyUp")]}])

    def picture(self, path):
        with open(path, "wb") as f:
            f.write(base64.b64decode(self.ask("WebDriver:TakeScreenshot", full=False)["value"]))

    def close(self):
        try:
            self.ask("Marionette:Quit", flags=["eForceQuit"])
        except (EOFError, OSError, RuntimeError):
            pass
        self.process.wait(60)
        self.folder.cleanup()


def main(page, pictures):
    from check_cases import A, M, put, text, told
    firefox = Firefox()
    os.makedirs(pictures, exist_ok=True)
    wrong, steps = 0, 0

    def same(step, got, want):
        nonlocal wrong, steps
        steps += 1
        if got != want:
            wrong += 1
            print("Firefox, %s: %r, not %r" % (step, got, want))

    def shown(id):
        return firefox.value("document.getElementById('%s').textContent" % id)

    version = firefox.value("navigator.userAgent").split(" ")[-1]
    firefox.ask("WebDriver:Navigate", url="file://" + os.path.abspath(page))
    # a page's own objects are in its own scope: the tests look at what it shows
    firefox.until("document.querySelector('.CodeMirror') !== null")
    firefox.value("void document.addEventListener('securitypolicyviolation', (event) => { document.body.dataset.stopped = event.violatedDirective + ' ' + event.blockedURI; })")
    with tempfile.TemporaryDirectory() as given:
        def give(**files):
            paths = []
            for name, content in files.items():
                paths.append(os.path.join(given, name.replace("_", ".")))
                with open(paths[-1], "wb") as f:
                    f.write(content)
            firefox.keys("#file", "\n".join(paths))
            time.sleep(1.5)

        entry = text(put(A, 9, "exit>1.1.2>1.1.3"))
        give(network_rndf=entry)
        same("a fault", [shown("said"), shown("refusal"), shown("expected")], ["network.rndf: refused", told("network.rndf", entry, 9, 12, 12)[0], "may stand here: 1.1.1 to 1.1.2"])
        same("its line and byte", firefox.value("[document.querySelector('.fault-gutter .CodeMirror-linenumber').textContent, document.querySelector('.fault-byte').textContent]"), ["9", "1"])
        give(network_rndf=text(A), mission_mdf=text(M))
        same("a pair", shown("said"), "network.rndf with mission.mdf: accepted; 1 segment, 0 zones, 1 lane, 2 points, 0 spots, 1 checkpoint, 0 stops, 1 exit, 1 goal, 1 speed limit")
        firefox.click("#example")
        time.sleep(1.5)
        same("the example", shown("said").split(";")[0], "example.rndf with example.mdf: accepted")
        firefox.picture(os.path.join(pictures, "firefox.png"))
        # Chromium's run looks at the page's own objects; here a lane is found by where it is drawn
        box = firefox.value("(() => { const b = document.getElementById('map').getBoundingClientRect(); return [b.left, b.top, b.width, b.height]; })()")
        found = None
        for down in range(95, 40, -1):
            firefox.click_at(box[0] + box[2] * 0.45, box[1] + box[3] * down / 100)
            if firefox.value("document.querySelectorAll('.CodeMirror-selected').length"):
                found = down
                break
        same("a click on the map selects lines", found is not None, True)
        firefox.picture(os.path.join(pictures, "firefox-lane.png"))
        firefox.click("#tool-drive")
        firefox.keys("#panel input", "1.1.1\ue007")
        time.sleep(1)
        same("can be driven", firefox.value("document.querySelector('#panel .answer').textContent"), "example.mdf: can be driven from 1.1.1")
        firefox.click("#tool-route")
        firefox.keys("#panel textarea", "1.1.1 1.1.2 4.1.1")
        time.sleep(1)
        same("a route", firefox.value("document.querySelector('#panel .answer').textContent"), "a step of the route is no move (22)\nstep 2, from 1.1.2 to 4.1.1")
        firefox.picture(os.path.join(pictures, "firefox-route.png"))
        firefox.click("#tool-mend")
        firefox.click("#tab-rndf")
        give(network_rndf=text(put(A, 7, "num_waypoints>3")))
        firefox.click("#tab-mdf")
        firefox.click("#close")
        time.sleep(1)
        same("to be mended", firefox.value("document.querySelector('.changes .link').textContent"), "network.rndf:7: the count is 2, not 3")
        firefox.click("#panel .main")
        time.sleep(1)
        same("mended", shown("said"), "network.rndf: accepted; 1 segment, 0 zones, 1 lane, 2 points, 0 spots, 1 checkpoint, 0 stops, 1 exit")
        firefox.click("#tab-rndf")
        firefox.click(".CodeMirror-lines")
        firefox.type("x")
        time.sleep(1)
        same("typed", shown("said").split(";")[0], "network.rndf: refused")
        firefox.type("\ue003")
        time.sleep(1)
        same("and taken back", shown("said").split(";")[0], "network.rndf: accepted")
        firefox.click("#save summary")
        firefox.click("[data-save=map]")
        for _ in range(50):
            path = os.path.join(firefox.folder.name, "network.geojson")
            if os.path.exists(path) and os.path.getsize(path):
                break
            time.sleep(0.1)
        with open(os.path.join(ROOT, "crates/yard_map/stdout"), "rb") as f:
            same("saved", open(path, "rb").read() if os.path.exists(path) else None, f.read())
    same("stopped by the policy", firefox.value("document.body.dataset.stopped"), None)
    print("%s: %d steps, %d wrong" % (version, steps, wrong))
    firefox.close()
    return 1 if wrong else 0


if __name__ == "__main__":
    sys.exit(main(*sys.argv[1:]))
