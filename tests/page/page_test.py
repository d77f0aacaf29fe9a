"""page_test.py PAGE.html PICTURES [LARGE_FOLDER]: the planners' page from file:// in a headless Chromium, driven as a planner would: files by choice and by a drop, typing, the map, mending, driving, a route, saving, keys.
What it shows is held to the planners' programs' words (tests/check_cases.py) and to the oracle. Nothing may be asked of the network, nothing of a name may run or become an element, and no script but the page's own.
LARGE_FOLDER has texts of 16 MB (tests/page/texts_out.c): how long each takes, and the longest time that the page stood still. Pictures go into PICTURES: look at them."""
import os
import subprocess
import sys
import tempfile
import time

sys.dont_write_bytecode = True
HERE = os.path.dirname(os.path.abspath(__file__))
ROOT = os.path.dirname(os.path.dirname(HERE))
for folder in ("tests", "tests/oracle"):
    sys.path.insert(0, os.path.join(ROOT, folder))
import oracle   # noqa: E402
from check_cases import A, LONGITUDES, M, Z, ins, may_stand, padded, put, text, told   # noqa: E402
from chrome import Chrome   # noqa: E402

N, MDF = "network.rndf", "mission.mdf"
BUSY = 4000         # ms of processor time that the page's own thread may take to show a text of 16 MB, or what was typed into it; so it never stands still for longer
WATCH = """window.tolds = 0; window.opens = 0; window.yard = null; window.wrongs = []; window.long = [0];
document.addEventListener("yard-told", () => { window.tolds++; });
document.addEventListener("yard-opened", () => { window.opens++; });
document.addEventListener("yard-ready", (event) => { window.yard = event.detail; });
document.addEventListener("securitypolicyviolation", (event) => window.wrongs.push(event.blockedURI + " " + event.violatedDirective));
window.addEventListener("error", (event) => window.wrongs.push(String(event.message)));
window.addEventListener("unhandledrejection", (event) => window.wrongs.push("rejected: " + event.reason));
new PerformanceObserver((list) => list.getEntries().forEach((one) => window.long.push(Math.round(one.duration)))).observe({ entryTypes: ["longtask"] });"""
SHOWN = """(() => { const at = (id) => document.getElementById(id), text = yard.editor.texts[yard.editor.shown]; return {
    said: at("said").textContent, refusal: at("refusal").hidden ? "" : at("refusal").textContent, expected: at("expected").hidden ? "" : at("expected").textContent, state: at("verdict").dataset.state, tab: yard.editor.shown,
    elements: at("refusal").querySelectorAll("*").length + at("expected").querySelectorAll("*").length + at("said").querySelectorAll("*").length + at("tab-rndf").querySelectorAll("*").length - 2,
    marks: ["rndf", "mdf"].map((which) => at("tab-" + which).dataset.state),
    lanes: yard.network ? yard.network.lanes.length / 5 : 0, goals: [...yard.map.painter.goalLabels().values()], old: at("map").classList.contains("old"),
    lines: [...document.querySelectorAll(".fault-line")].length ? [...document.querySelectorAll(".fault-gutter .CodeMirror-linenumber")].map((one) => one.textContent) : [],
    bytes: [...document.querySelectorAll(".fault-byte")].map((one) => one.textContent), excerpt: at("excerpt").textContent, title: document.title, images: document.images.length, wrongs: window.wrongs }; })()"""


class Page:
    def __init__(self, path, pictures, folder):
        self.chrome, self.pictures, self.folder, self.steps, self.wrong = Chrome(), pictures, folder, 0, 0
        os.makedirs(pictures, exist_ok=True)
        self.chrome.ask("Page.addScriptToEvaluateOnNewDocument", source=WATCH)
        self.chrome.ask("Browser.setDownloadBehavior", behavior="allow", downloadPath=folder, eventsEnabled=False)
        self.chrome.ask("Page.navigate", url="file://" + os.path.abspath(path))
        self.chrome.until("!!window.yard")

    def value(self, expression):
        return self.chrome.value(expression)

    def hold(self, step, **wanted):
        """One step: what is shown, by name."""
        self.steps += 1
        got = self.value(SHOWN)
        for what, want in dict(dict(elements=0, title="Yard workbench", images=0, wrongs=[]), **wanted).items():
            if got[what] != want:
                self.wrong += 1
                print("%s: %s is %r, not %r" % (step, what, got[what], want))

    def described(self, role, name):
        """How what has this role and name is described to a screen reader."""
        found = [node for node in self.chrome.ask("Accessibility.getFullAXTree")["nodes"] if node.get("role", {}).get("value") == role and node.get("name", {}).get("value") == name]
        return [node.get("description", {}).get("value") for node in found]

    def same(self, step, got, want):
        self.steps += 1
        if got != want:
            self.wrong += 1
            print("%s: %r, not %r" % (step, got if len(repr(got)) < 600 else repr(got)[:600], want if len(repr(want)) < 600 else repr(want)[:600]))

    def picture(self, name):
        time.sleep(0.5)
        self.chrome.until("yard.map.painter.base.finished !== false")
        self.chrome.picture(os.path.join(self.pictures, name + ".png"))

    def settle(self):
        """Until the worker has answered what was asked, and what it told is shown."""
        self.value("(async () => { for (let i = 0; i < 3; i++) { await yard.reader.ask('kind', { bytes: new Uint8Array(1) }); await new Promise((done) => requestAnimationFrame(() => setTimeout(done, 60))); } })()")

    def wait(self, act):
        """Does something, and waits until the texts were read again."""
        before = self.value("window.tolds")
        act()
        self.chrome.until("window.tolds > %d && !yard.reading" % before, 120)

    def write(self, files):
        paths = []
        for name, content in files:
            paths.append(os.path.join(self.folder, "given", name))
            os.makedirs(os.path.dirname(paths[-1]), exist_ok=True)
            with open(paths[-1], "wb") as f:
                f.write(content)
        return paths

    def give(self, files, how="choose", edition=None):
        if edition:
            self.edition(edition)
        paths = self.write(files)
        self.value("yard.editor.saved('rndf'); yard.editor.saved('mdf')")       # no question whether changes may go
        self.wait(lambda: self.chrome.drop(paths, 300, 500) if how == "drop" else self.chrome.choose("#file", paths))

    def edition(self, year):
        self.value("(() => { const e = document.getElementById('edition'); e.value = '%s'; e.dispatchEvent(new Event('change')); })()" % year)
        self.settle()

    def press_button(self, selector):
        """By a click of the mouse in its middle."""
        x, y = self.value("(() => { const e = document.querySelector(%r); e.scrollIntoView({ block: 'nearest' }); const b = e.getBoundingClientRect(); return [b.left + b.width / 2, b.top + b.height / 2]; })()" % selector)
        self.chrome.click(x, y)

    def place(self, point, to=None):
        """Where a point stands in the window, by its identifier; or the middle between two."""
        return self.value("""((ids) => { const places = ids.map((id) => { const row = yard.network.pointRow(id), p = yard.network.points; return yard.map.map.latLngToContainerPoint([p[2 * row] / 1e6, p[2 * row + 1] / 1e6]); });
            const box = document.getElementById("map").getBoundingClientRect();
            return [places.reduce((sum, one) => sum + one.x, 0) / places.length + box.left, places.reduce((sum, one) => sum + one.y, 0) / places.length + box.top]; })(%s)""" % [point, to or point])

    def answer(self):
        return self.value("(document.querySelector('#panel .answer') || {}).textContent")

    def selection(self):
        return self.value("(() => { const s = yard.editor.view.listSelections()[0]; return [yard.editor.shown, s.head.line + 1, s.anchor.line + 1]; })()")

    def content(self, which):
        return self.value("yard.editor.texts.%s.doc.getValue('\\n')" % which)


def accepted(*names, counts):
    return " with ".join(names) + ": accepted; " + counts


def may(words):
    """The line about what may stand there."""
    return may_stand(0, words)[1:]


A_COUNTS = "1 segment, 0 zones, 1 lane, 2 points, 0 spots, 1 checkpoint, 0 stops, 1 exit"
PAIR_COUNTS = A_COUNTS + ", 1 goal, 1 speed limit"


# ## What is read

def reading(page):
    a, m, z = text(A), text(M), text(Z)
    entry, goal, yellow = text(put(A, 9, "exit>1.1.2>1.1.3")), text(put(M, 5, "8")), text(ins(A, 8, "right_boundary>solid_yellow"))
    page.give([(N, entry)], "drop")
    page.hold("a fault, dropped", said="network.rndf: refused", refusal=told(N, entry, 9, 12, 12)[0], expected=may("1.1.1 to 1.1.2"), state="bad", marks=["bad", "none"], lines=["9"], bytes=["1"], lanes=0)
    page.same("what may stand there, under the pointer", page.value("document.querySelector('.fault-byte').title"), told(N, entry, 9, 12, 12)[0].split("\n")[0] + "\n" + may("1.1.1 to 1.1.2"))
    page.same("and told to a screen reader", [one.split()[-6:] for one in page.described("button", "Go to the line")], ["may stand here: 1.1.1 to 1.1.2".split()])
    page.picture("refused")
    page.give([(N, a)])
    page.hold("accepted, chosen", said=accepted(N, counts=A_COUNTS), refusal="", expected="", state="good", marks=["good", "none"], lines=[], bytes=[], lanes=1, goals=[])
    page.give([(MDF, m)], "drop")
    page.hold("its MDF behind it", said=accepted(N, MDF, counts=PAIR_COUNTS), marks=["good", "good"], lanes=1, goals=["1"])
    page.give([(MDF, goal), (N, a)], "drop")
    page.hold("the MDF is refused", said="mission.mdf: refused; network.rndf is accepted and shown", refusal=told(MDF, goal, 5, 15, 1)[0], expected=may("a checkpoint of the RNDF: 7"), tab="mdf", marks=["good", "bad"], lines=["5"], bytes=["8"], lanes=1, goals=[])
    page.give([(N, yellow), (MDF, m)])
    page.hold("solid_yellow", said=accepted(N, MDF, counts=PAIR_COUNTS), goals=["1"])
    page.wait(lambda: page.edition("2006"))
    page.hold("solid_yellow, 2006", said="network.rndf: refused; the map is that of the text before", refusal=told(N, yellow, 8, 8, 16)[0], expected=may("double_yellow, solid_white, broken_white"), lines=["8"], bytes=["s"], old=True, tab="rndf")
    page.wait(lambda: page.edition("2007"))
    page.hold("and back", said=accepted(N, MDF, counts=PAIR_COUNTS), old=False)
    page.press_button("#tab-mdf")
    page.wait(lambda: page.press_button("#close"))
    page.hold("the MDF taken away", said=accepted(N, counts=A_COUNTS), marks=["good", "none"], goals=[])
    for label, name, content, line, number, column, byte, expected in [
            ("markup in a name", "<b>x.rndf", text(put(A, 1, "RNDF_name><img/src=x/onerror=document.title=1\x01")), 1, 4, 46, "\\x01", ""), ("empty", "empty.rndf", b"", 1, 10, 0, None, may("RNDF_name NAME")),
            ("UTF-16", "utf16.rndf", b"\xff\xfe" + a.decode().encode("utf-16-le"), 1, 4, 1, "\u00ff", ""), ("a byte order mark", "bom.rndf", b"\xef\xbb\xbf" + a, 1, 4, 1, "\\xfeff", ""),
            ("CR LF", "crlf.rndf", text(put(A, 10, "1.1.1>>45.000000>x /* here */"), "\r\n"), 10, 8, 18, "x", may(LONGITUDES)), ("a letter in UTF-8", "cafe.rndf", text(A).replace(b"yard_a", "caf\u00e9".encode()), 1, 4, 14, "\u00e9", "")]:
        page.give([(name, content)], "drop")
        page.hold(label, refusal=told(name, content, line, number, column)[0], expected=expected, state="bad", lines=[str(line)], bytes=[byte] if byte else [])
    markup = "<img/src=x/onerror=document.title=1>"
    page.give([(N, a.replace(b"yard_a", markup.encode())), (MDF, m)])
    page.hold("markup in what may stand there", refusal=told(MDF, m, 2, 14, 6)[0], expected=may(markup), tab="mdf")
    page.press_button("#tab-mdf")
    page.wait(lambda: page.press_button("#close"))
    page.give([("crlf.rndf", text(A, "\r\n"))])
    page.hold("CR LF, accepted", said=accepted("crlf.rndf", counts=A_COUNTS))
    page.same("CR LF, the text as it is", page.content("rndf"), text(A, "\r\n").decode())
    before = page.value("window.opens")
    page.chrome.drop(page.write([(N, a), ("other.rndf", a)]), 900, 500)
    page.chrome.until("window.opens > %d" % before)
    page.hold("two RNDFs", said="network.rndf, other.rndf: one RNDF and at most one MDF can be checked", state="bad")
    page.give([("huge.rndf", bytes(17 << 20))])
    page.hold("over the limit", refusal=told("huge.rndf", b"", 0, 1, 0)[0], expected="", excerpt="Too large for the editor: it has over 16,777,215 bytes. Lines 1 to 1 are shown, and can't be changed here.")
    blank = text(A[:9]) + b"\n" * 2000000 + text(A[9:10] + ["x"] + A[11:])
    page.give([("blank.rndf", blank)])
    page.hold("2,000,015 lines", refusal=told("blank.rndf", blank, 2000011, 5, 1)[0], expected=may("1.1.2 LATITUDE LONGITUDE (1 such line is still owed)"), lines=["2000011"], bytes=["x"],
              excerpt="Too large for the editor: it has 2,000,015 lines. Lines 1,999,811 to 2,000,014 are shown, and can't be changed here.")
    page.picture("excerpt")
    long = text(A[:3]) + b"x" * 20000 + b"\n" + text(A[3:])
    page.give([("long.rndf", long)])
    page.hold("a line of 20,000 bytes", refusal=told("long.rndf", long, 4, 2, 513)[0], lines=["4"], bytes=["x"], excerpt="Too large for the editor: it has a line of 20,000 bytes. Lines 1 to 15 are shown, and can't be changed here.")
    form = oracle.pack(oracle.network_of(oracle.read_rndf(z, {t: 100 for t in oracle.TABLES}), z))
    for name, content, said, refusal in [("yard.packed", form, "yard.packed: accepted; 1 segment, 1 zone, 1 lane, 5 points, 1 spot, 2 checkpoints, 0 stops, 1 exit", ""),
                                         ("yard.packed", form[:-1], "yard.packed: refused", told("yard.packed", b"", 0, 28, 0)[0])]:
        before = page.value("window.opens")
        page.chrome.choose("#file", page.write([(name, content)]))
        page.chrome.until("window.opens > %d" % before)
        page.hold("packed, %d bytes" % len(content), said=said, refusal=refusal, expected="")
    before = page.value("window.opens")
    page.chrome.choose("#file", page.write([("yard.geojson", oracle.geojson(oracle.network_of(oracle.read_rndf(z, {t: 100 for t in oracle.TABLES}), z)))]))
    page.chrome.until("window.opens > %d" % before)
    page.hold("a map", said="yard.geojson: a map; there is no text of it here", state="none")
    page.same("its features", page.value("yard.foreign.getLayers().length"), 4)


# ## Typing

def typing(page):
    chrome = page.chrome
    page.value("yard.editor.close('rndf'); yard.editor.close('mdf'); yard.editor.show('rndf'); yard.changed()")
    page.settle()
    page.value("yard.editor.view.focus()")
    page.wait(lambda: chrome.type(text(A[:13]).decode()))
    chrome.until("yard.read && !yard.reading")
    page.hold("typed, all but the last line", refusal=told(N, text(A[:13]), 14, 10, 0)[0], expected=may("end_file"), said="network.rndf: refused")
    page.wait(lambda: chrome.type("end_file"))
    page.hold("the last line", said=accepted(N, counts=A_COUNTS), state="good", lanes=1)
    page.value("yard.editor.view.setCursor({ line: 6, ch: 15 })")
    page.wait(lambda: chrome.press("Backspace"))
    page.wait(lambda: chrome.type("3"))
    wrong = text(put(A, 7, "num_waypoints>3"))[:-1]
    chrome.until("!!yard.read")
    page.hold("a count too high", refusal=told(N, wrong, 12, 5, 1)[0], expected=may("1.1.3 LATITUDE LONGITUDE (1 such line is still owed)"), lines=["12"], bytes=["e"], old=True, lanes=1)
    chrome.press("F8")
    page.settle()
    page.same("F8 goes to the fault", page.value("(() => { const c = yard.editor.view.getCursor(); return [c.line, c.ch, yard.editor.view.hasFocus()]; })()"), [11, 0, True])
    page.wait(lambda: chrome.press("z", "KeyZ", 2))
    chrome.until("!!yard.read")
    for _ in range(3):
        if page.value("yard.read && yard.read.answer.accepted"):
            break
        page.wait(lambda: chrome.press("z", "KeyZ", 2))
        chrome.until("!!yard.read")
    page.hold("undone", said=accepted(N, counts=A_COUNTS), expected="", lines=[])
    chrome.press("Escape")
    page.same("Esc leaves the editor", page.value("document.activeElement.id"), "divider")
    chrome.press("Tab")
    page.same("and Tab goes to the map", page.value("document.activeElement.id"), "map")
    page.value("document.getElementById('tab-rndf').focus()")
    chrome.press("ArrowRight")
    page.same("the other tab by a key", page.value("[document.activeElement.id, yard.editor.shown]"), ["tab-mdf", "mdf"])
    page.value("yard.editor.view.focus()")
    page.wait(lambda: chrome.type(text(M).decode()))
    chrome.until("!!yard.read")
    page.hold("the MDF typed", said=accepted(N, MDF, counts=PAIR_COUNTS), goals=["1"])
    # bytes that are no UTF-8 stay as they are, whatever is typed beside them
    latin = text(A).replace(b"yard_a", b"caf\xe9")
    page.give([("latin.rndf", latin)])
    page.value("yard.editor.view.setCursor({ line: 0, ch: 14 }); yard.editor.view.focus()")
    page.wait(lambda: chrome.type("\u20ac"))
    chrome.until("!!yard.read")
    changed = latin.replace(b"caf\xe9", b"caf\xe9" + "\u20ac".encode())
    page.hold("a letter in Latin 1", refusal=told("latin.rndf", changed, 1, 4, 14)[0], bytes=["\u00e9"])
    page.same("its bytes", bytes(page.value("[...yard.editor.bytesOf('rndf')]")), changed)
    # a fault far from the cursor comes into view when typing pauses
    page.give([(N, text(ins(A, 9, *["stop>1.1.1"] * 500)))])
    page.value("yard.editor.view.setCursor({ line: 6, ch: 15 }); yard.editor.view.focus()")
    page.wait(lambda: chrome.press("Backspace"))
    page.wait(lambda: chrome.type("3"))
    time.sleep(1.6)
    page.same("the fault's line is in view", page.value("(() => { const v = yard.editor.view.getViewport(); return yard.read.answer.line === 512 && v.from <= 511 && v.to > 511; })()"), True)
    page.picture("typed")


# ## The example: map and text, mending, driving, a route, saving

def example(page):
    page.value("yard.editor.saved('rndf'); yard.editor.saved('mdf')")
    page.wait(lambda: page.press_button("#example"))
    page.hold("the example", said="example.rndf with example.mdf: accepted; 4 segments, 2 zones, 8 lanes, 53 points, 4 spots, 9 checkpoints, 4 stops, 14 exits, 5 goals, 6 speed limits",
              goals=["1, 5", "2", "3", "4"], lanes=8)
    chrome = page.chrome
    for label, at, first, last, words in [("a lane", page.place("1.1.1", "1.1.2"), 9, 23, "lane 1.1\nMain_St\n5 waypoints\n12 ft wide\nleft double_yellow\nright solid_white\nup to 15 mph"),
                                          ("a lane with a least speed", page.place("4.1.2", "4.1.3"), 87, 96, "lane 4.1\nWest_Rd\n4 waypoints\n5 to 15 mph"),
                                          ("a perimeter", page.place("5.0.1", "5.0.5"), 109, 118, "zone 5\nLot\n5 perimeter points\n3 spots\nup to 5 mph"),
                                          ("inside a zone", page.place("5.1.1", "5.0.1"), 109, 118, "zone 5\nLot\n5 perimeter points\n3 spots\nup to 5 mph"),
                                          ("a spot", page.place("5.2.1", "5.2.2"), 125, 130, "spot 5.2\n10 ft wide\nup to 5 mph"),
                                          ("a checkpoint", page.place("2.1.3"), 41, 41, "checkpoint 2\non 2.1.3\ngoal 1, 5 of the mission")]:
        chrome.move(at[0], 150)
        chrome.move(*at)
        page.settle()
        page.same("under the pointer: " + label, page.value("(document.querySelector('.tip') || {}).textContent"), words)
        chrome.click(*at)
        page.settle()
        page.same("a click on " + label, page.selection(), ["rndf", first, last])
    at = page.place("5.0.1", "5.0.5")
    chrome.click(*at)
    chrome.move(at[0] + 2, at[1])
    page.picture("hover")
    for label, line, want in [("a lane", 26, {"kind": "lane", "row": 1}), ("a point", 30, {"kind": "point", "row": 6}), ("an exit", 27, {"kind": "exit", "row": 2}), ("a zone", 107, {"kind": "zone", "row": 0}),
                              ("no part", 2, None), ("a segment", 7, {"kind": "segment", "row": 0})]:
        page.value("yard.editor.view.setCursor({ line: %d, ch: 0 })" % (line - 1))
        page.same("the cursor in " + label, page.value("yard.map.painter.selected"), want)
    page.value("yard.tab('mdf')")
    for label, line, want in [("a goal", 6, {"kind": "checkpoint", "row": 6}), ("a limit", 14, {"kind": "segment", "row": 1}), ("a zone's limit", 18, {"kind": "zone", "row": 1}), ("no goal", 3, None)]:
        page.value("yard.editor.view.setCursor({ line: %d, ch: 0 })" % (line - 1))
        page.same("the cursor in the MDF, " + label, page.value("yard.map.painter.selected"), want)
    page.value("yard.tab('rndf')")
    page.value("yard.editor.view.setCursor({ line: 25, ch: 0 })")
    chrome.move(1000, 150)
    page.picture("lane")
    page.value("yard.editor.view.focus()")
    chrome.press("f", "KeyF", 2)
    chrome.type("West_Rd")
    chrome.press("Enter")
    page.settle()
    page.same("Ctrl-F finds", page.value("yard.editor.view.getSelection()"), "West_Rd")
    chrome.press("g", "KeyG", 1)
    chrome.type("109")
    chrome.press("Enter")
    page.settle()
    page.same("Alt-G goes to a line", page.value("[yard.editor.view.getCursor().line, yard.map.painter.selected.kind]"), [108, "perimeter"])

    # a map in grey is not linked to a text that has changed
    page.value("yard.editor.view.setSelection({ line: 0, ch: 0 }); yard.editor.view.replaceRange('\\nx', { line: 0, ch: 0 }, undefined, '+input')")
    page.settle()
    chrome.click(*page.place("1.1.1", "1.1.2"))
    page.same("a click on a map in grey", page.selection()[0:2], ["rndf", 2])
    page.wait(lambda: page.value("yard.editor.view.undo()"))

    # mending
    good = page.content("rndf")
    page.press_button("#tool-mend")
    page.settle()
    page.same("nothing to mend", page.answer(), "example.rndf: nothing to mend")
    lines = good.split("\n")
    bad = lines[:2] + ["num_segments\t9"] + lines[3:10] + ["lane_width\t3"] + lines[10:-1] + ["x"]
    page.give([("example.rndf", "\n".join(bad).encode())])
    page.settle()
    page.same("what would change", page.value("[...document.querySelectorAll('.changes .link')].map((one) => one.textContent)"),
              ["example.rndf:3: the count is 4, not 9", "example.rndf:12: option given again, taken out", "example.rndf:%d: behind end_file, taken out" % len(bad)])
    page.same("before and after", page.value("[...document.querySelectorAll('.changes pre')].map((one) => one.textContent)"), ["num_segments\t9\nnum_segments\t4", "lane_width\t12", "x"])
    page.picture("mend")
    page.value("yard.editor.view.replaceRange('x', { line: 0, ch: 0 }, undefined, '+input'); document.querySelector('#panel .main').click()")
    page.same("of a text that has changed meanwhile nothing is taken", page.content("rndf"), "x" + "\n".join(bad))
    page.wait(lambda: page.value("yard.editor.view.undo()"))
    page.settle()
    page.wait(lambda: page.press_button("#panel .main"))
    page.chrome.until("yard.read && yard.read.answer.accepted")
    mended = "\n".join(lines[:10] + ["lane_width\t3"] + lines[11:])
    page.same("taken into the editor", page.content("rndf"), mended)
    page.wait(lambda: page.value("yard.editor.view.undo()"))
    page.same("and undone by one step", page.content("rndf"), "\n".join(bad))
    page.give([("example.rndf", good.replace("exit\t1.1.3\t5.0.2", "exit\t1.1.3\t9.0.2").encode())])
    page.settle()
    page.same("past mending", page.answer(), "example.rndf: past mending (26)")
    page.give([("example.rndf", good.encode())])

    # driving
    page.press_button("#tool-drive")
    page.settle()
    chrome.click(*page.place("1.1.1"))
    page.settle()
    page.same("driven from a click", [page.value("document.querySelector('#panel input').value"), page.answer()], ["1.1.1", "example.mdf: can be driven from 1.1.1"])
    page.value("document.querySelector('#panel input').value = ''; document.querySelector('#panel input').focus()")
    chrome.type("1.1.9")
    chrome.press("Enter")
    page.settle()
    page.same("no such point", page.answer(), "1.1.9 is no point of example.rndf (30)")
    page.give([("example.rndf", good.replace("exit\t6.0.3\t2.2.3\n", "").encode())])
    page.value("document.querySelector('#panel input').value = ''; document.querySelector('#panel input').focus()")
    chrome.type("4.2.1")
    chrome.press("Enter")
    page.settle()
    page.same("a goal that can't be reached", page.answer(), "example.mdf:8:1: goal 4 can't be reached from goal 21 (31)\n4\n^")
    page.same("its line", page.selection(), ["mdf", 8, 8])
    page.same("marked on the map", page.value("yard.network.pointId(yard.map.painter.missed)"), "4.1.2")
    page.picture("drive")
    page.give([("example.rndf", good.encode())])

    # a route
    page.press_button("#tool-route")
    page.settle()
    for point in ("1.1.1", "1.1.5", "2.1.1", "2.1.4"):
        chrome.click(*page.place(point))
        page.settle()
    page.same("clicks make a route", page.value("document.querySelector('#panel textarea').value"), "1.1.1 1.1.2 1.1.3 1.1.4 1.1.5 2.1.1 2.1.2 2.1.3 2.1.4")
    page.same("goals are missing", page.answer(), "a goal is not met in order (23)\ngoal 2 of the mission, checkpoint 12 on 5.2.2\n(every step is a move)")
    chrome.click(*page.place("4.1.1"))
    page.settle()
    page.same("a step that is no move", [page.answer(), page.value("yard.map.painter.route.bad")], ["a step of the route is no move (22)\nstep 9, from 2.1.4 to 4.1.1", 9])
    page.picture("route")
    way = "2.1.3 2.1.4 3.1.1 3.1.2 3.1.3 3.1.4 3.1.5 4.1.1 4.1.2 4.1.3 4.1.4 1.1.1 1.1.2 1.1.3 5.0.2 5.2.2 5.0.4 3.2.2 3.2.3 6.0.1 6.1.2 6.0.3 2.2.3 2.2.4 1.2.1 1.2.2 1.2.3 5.0.3 1.1.4 1.1.5 2.1.1 2.1.2 2.1.3 2.1.4 " \
          "3.1.1 3.1.2 3.1.3 3.1.4 3.1.5 4.1.1 4.1.2 4.1.3 4.1.4 1.1.1 1.1.2 1.1.3 1.1.4 1.1.5 2.1.1 2.1.2 2.1.3"
    page.value("(() => { const t = document.querySelector('#panel textarea'); t.focus(); t.select(); })()")
    chrome.type(way)
    page.settle()
    page.same("a good route, typed", page.answer(), "The route is good: %d moves, every goal met in order." % (len(way.split()) - 1))
    page.picture("route-good")
    chrome.press("Escape")
    page.same("Esc closes the panel", page.value("[document.getElementById('panel').hidden, document.activeElement.id]"), [True, "tool-route"])

    # saving
    mdf = page.content("mdf")
    room = {t: 1000 for t in oracle.TABLES}
    pair = oracle.read_pair(good.encode(), mdf.encode(), room)
    network = oracle.network_of(pair, good.encode())
    for what, name, want in [("rndf-text", "example.rndf", good.encode()), ("mdf-text", "example.mdf", mdf.encode()), ("rndf", "example.house.rndf", oracle.house_rndf(network)),
                             ("mdf", "example.house.mdf", oracle.house_mdf(oracle.mission_of(pair, mdf.encode()))), ("map", "example.geojson", oracle.geojson(network)), ("packed", "example.packed", oracle.pack(network))]:
        page.press_button("#save summary")
        if what == "rndf":
            page.picture("save")
        page.press_button("[data-save=%s]" % what)
        path = os.path.join(page.folder, name)
        for _ in range(100):
            if os.path.exists(path) and os.path.getsize(path) == len(want):
                break
            time.sleep(0.05)
        page.same("saved: " + name, open(path, "rb").read() if os.path.exists(path) else None, want)
    page.value("yard.editor.show('rndf'); yard.editor.view.focus()")
    os.unlink(os.path.join(page.folder, "example.rndf"))
    chrome.press("s", "KeyS", 2)
    for _ in range(100):
        if os.path.exists(os.path.join(page.folder, "example.rndf")):
            break
        time.sleep(0.05)
    page.same("Ctrl-S", os.path.exists(os.path.join(page.folder, "example.rndf")), True)
    page.hold("after all", said="example.rndf with example.mdf: accepted; 4 segments, 2 zones, 8 lanes, 53 points, 4 spots, 9 checkpoints, 4 stops, 14 exits, 5 goals, 6 speed limits")


# ## A yard that looks like one, with names that a careless page would run; and the policy

def names(page):
    big = subprocess.run([sys.executable, os.path.join(ROOT, "tests/map/big_yard.py")], stdout=subprocess.PIPE, check=True).stdout
    page.value("yard.editor.close('mdf')")
    page.give([("big.rndf", big)], "drop")
    page.hold("a yard with markup in its names", lanes=205, state="good")
    for point, to, name in (("2.2.9", "2.2.8", "<b>bold</b>"), ("4.2.2", "4.2.3", '</script><script>document.title="run"</script>'), ("5.2.9", "5.2.8", "'\"><img/src=x/onerror=document.title='run'>")):
        page.value("void yard.map.map.setView([%s, %s], 19, { animate: false })" % tuple(page.value("(() => { const r = yard.network.pointRow('%s'), p = yard.network.points; return [p[2 * r] / 1e6, p[2 * r + 1] / 1e6]; })()" % point)))
        at = page.place(point, to)
        page.chrome.move(at[0], at[1] - 30)
        page.chrome.move(*at)
        page.settle()
        page.same("the name as text", page.value("(() => { const tip = document.querySelector('.tip'); return tip && [tip.textContent.split('\\n')[1], tip.querySelectorAll('*').length]; })()"), [name, 1])
    page.press_button("#fit")
    page.chrome.move(1000, 150)
    page.picture("yard")
    page.value("(() => { const s = document.createElement('script'); s.textContent = 'window.ran = 1'; document.body.append(s); s.remove(); })()")
    page.same("no script but the page's own", page.value("[window.ran === undefined, window.wrongs.splice(0).length]"), [True, 1])
    page.same("nor one in the worker", page.value("new Promise((done) => { const w = new Worker(URL.createObjectURL(new Blob(['try { eval(\"1\"); postMessage(\"ran\"); } catch { postMessage(\"stopped\"); }']))); w.onmessage = (e) => done(e.data); })"), "stopped")
    page.value("fetch('https://example.org/').catch(() => {})")
    page.settle()
    page.same("nor a question to the network", page.value("window.wrongs.splice(0).length"), 1)


# ## A question that takes minutes: 32,768 goals on a ring of as many lanes, each behind the next, so that each search goes all the way round

def long_question(page):
    count = 32768
    ring = ["RNDF_name>ring", "num_segments>1", "num_zones>0", "segment>1", "num_lanes>%d" % count]
    for i in range(1, count + 1):
        ring += ["lane>1.%d" % i, "num_waypoints>1", "checkpoint>1.%d.1>%d" % (i, i), "exit>1.%d.1>1.%d.1" % (i, i % count + 1), "1.%d.1>45.%06d>-93.000000" % (i, i), "end_lane"]
    goals = ["MDF_name>m", "RNDF>ring", "checkpoints", "num_checkpoints>%d" % count] + [str(i) for i in range(count, 0, -1)] + ["end_checkpoints", "speed_limits", "num_speed_limits>1", "1>0>15", "end_speed_limits", "end_file"]
    page.give([("ring.rndf", text(ring + ["end_segment", "end_file"])), ("ring.mdf", text(goals))])
    page.press_button("#tool-drive")

    def ask():
        page.value("(() => { const field = document.querySelector('#panel input'); field.value = '1.1.1'; field.focus(); })()")
        page.chrome.press("Enter")
        page.chrome.until("!document.getElementById('busy').hidden", 20)

    def stop():
        page.press_button("#stop")
        page.chrome.until("document.getElementById('busy').hidden", 20)
    ask()
    stop()
    page.same("stopped", page.answer(), "")
    ask()
    page.value("yard.tab('rndf'); yard.editor.view.setCursor({ line: 3, ch: 0 }); yard.editor.view.focus()")
    page.wait(lambda: page.chrome.type("x"))
    page.chrome.until("!!yard.read")
    page.hold("typed into meanwhile", state="bad", lines=["4"], bytes=["x"])
    page.wait(lambda: page.value("yard.editor.view.undo()"))
    page.chrome.until("!document.getElementById('busy').hidden", 20)      # the panel asks again of the text as it was
    stop()
    page.hold("and stopped again", state="good", lines=[])
    page.press_button("#panel-close")


# ## The largest

def largest(page, folder):
    for name in sorted(one for one in os.listdir(folder) if one.endswith(".rndf")):
        paths = [os.path.join(folder, name)]
        mdf = paths[0].replace(".rndf", ".mdf")
        page.value("yard.editor.saved('rndf'); yard.editor.close('mdf'); window.long = [0]; window.began = performance.now()")
        before = page.chrome.page_thread()
        page.wait(lambda: page.chrome.choose("#file", paths + ([mdf] if os.path.getsize(mdf) else [])))
        told_after = page.value("Math.round(performance.now() - window.began)")
        page.hold(name, state="good", tab="rndf")
        page.chrome.until("yard.map.painter.base.finished !== false", 120)
        drawn = page.value("Math.round(performance.now() - window.began)")
        opened, busy = page.value("Math.max(...window.long)"), page.chrome.page_thread() - before
        page.picture("large-" + name.replace(".rndf", "").replace("+", "-"))
        page.value("window.long = [0]; window.began = performance.now(); yard.editor.view.focus(); yard.editor.view.setCursor({ line: yard.editor.view.lineCount() - 5, ch: 0 })")
        before = page.chrome.page_thread()
        page.wait(lambda: page.chrome.type("x"))
        page.chrome.until("!!yard.read", 60)
        typed = page.value("Math.round(performance.now() - window.began)")
        page.hold(name + ", with a fault", state="bad", bytes=["x"])
        page.wait(lambda: page.value("yard.editor.view.undo()"))
        page.chrome.until("yard.read && yard.map.painter.base.finished !== false", 120)
        still = page.value("Math.max(...window.long)")
        again = page.chrome.page_thread() - before
        page.same(name + ": too much for the page's own thread", max(busy, again) < BUSY, True)
        print("%-16s %8d bytes: told after %d ms, drawn after %d, after typing told after %d; by the clock the page stood still for at most %d ms when it was opened, %d when it was typed into; its own thread took %d and %d ms; %s"
              % (name, os.path.getsize(paths[0]), told_after, drawn, typed, opened, still, busy, again, page.value("document.getElementById('drawing').textContent") or "all is drawn"))


def main(path, pictures, large=None):
    with tempfile.TemporaryDirectory() as folder:
        page = Page(path, pictures, folder)
        page.picture("empty")
        page.same("the version", page.value("/^reader \\S+$/.test(document.getElementById('version').textContent) && /^[0-9a-f]{64}$/.test(document.getElementById('about-sha').textContent)"), True)
        for part in (reading, typing, example, names, long_question):
            part(page)
        if large:
            largest(page, large)
        asked = [e["params"]["request"]["url"] for e in page.chrome.events if e["method"] == "Network.requestWillBeSent"]
        page.same("asked of the network", [url for url in asked if not url.startswith(("file:", "data:", "blob:", "about:"))], [])
        print("%s: %d steps, %d wrong" % (page.value("navigator.userAgent").split(") ")[-1], page.steps, page.wrong))
        page.chrome.close()
        return 1 if page.wrong else 0


if __name__ == "__main__":
    sys.exit(main(*sys.argv[1:]))
