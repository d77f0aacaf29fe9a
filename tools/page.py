"""page.py PAGE MODULE VERSION OUT.html [SCRIPTS_FOLDER]: the planners' page as one file that can be mailed. Its scripts and styles, CodeMirror, Leaflet and the reader's module stand in it; the policy names each
script and style by its hash, so that nothing else runs, and lets nothing be asked of the network. The same bytes whenever it is run on the same files. tools/page.sh runs it."""
import base64
import hashlib
import os
import re
import sys

# Debian's libjs-codemirror and libjs-leaflet, before our own
LIBRARIES = ["codemirror/codemirror.js", "codemirror/addon/dialog/dialog.js", "codemirror/addon/search/searchcursor.js", "codemirror/addon/search/search.js", "leaflet/leaflet.min.js"]
LIBRARY_STYLES = ["codemirror/codemirror.css", "codemirror/addon/dialog/dialog.css", "leaflet/leaflet.css"]
SCRIPTS = ["texts.js", "network.js", "driving.js", "example.js", "client.js", "editor.js", "plane.js", "sheet.js", "painter.js", "map.js", "geomap.js", "panels.js", "files.js", "controls.js", "workbench.js"]
WORKER = ["texts.js", "lines.js", "mending.js", "driving.js", "reader.js", "worker.js"]


def read(folder, name):
    with open(os.path.join(folder, name), encoding="utf-8") as f:
        return f.read()


def hashed(content):
    return "'sha256-%s'" % base64.b64encode(hashlib.sha256(content.encode("utf-8")).digest()).decode()


def script(content):
    """A script that an element can hold: nothing in it may end the element, or begin what hides its end."""
    content = "\n" + re.sub(r"//# sourceMappingURL=\S*", "", content) + "\n"
    if "</script" in content.lower() or "<!--" in content or "<script" in content.lower():
        sys.exit("page.py: a script holds what would end it")
    return content


def style(content):
    """Without pictures: default markers and layer controls, which the page has not."""
    return "\n" + re.sub(r"[^{}]*\{[^{}]*url\([^)]*\)[^{}]*\}", "", content) + "\n"


def main(folder, module, version, out, libraries="/usr/share/javascript"):
    with open(module, "rb") as f:
        wasm = f.read()
    about = 'const YARD_VERSION = { version: "%s", sha256: "%s" };' % (re.sub(r"[^0-9A-Za-z.+-]", "", version), hashlib.sha256(wasm).hexdigest())
    scripts = [script(read(libraries, name)) for name in LIBRARIES] + [script(about)] + [script(read(folder, name)) for name in SCRIPTS]
    styles = [style(read(libraries, name)) for name in LIBRARY_STYLES] + [style(read(folder, "page.css"))]
    policy = "default-src 'none'; script-src %s 'wasm-unsafe-eval'; worker-src blob:; style-src %s; img-src data:; form-action 'none'; base-uri 'none'" % (" ".join(map(hashed, scripts)), " ".join(map(hashed, styles)))
    # not run by the page itself: the worker's scripts are text until the page hands them to it
    texts = [("worker", script("\n".join(read(folder, name) for name in WORKER))), ("module", base64.b64encode(wasm).decode())]
    parts = {
        "@POLICY@": policy,
        "@STYLES@": "\n".join("<style>%s</style>" % one for one in styles),
        "@SCRIPTS@": "\n".join(['<script type="text/plain" id="%s">%s</script>' % one for one in texts] + ["<script>%s</script>" % one for one in scripts]),
    }
    page = read(folder, "index.html")
    for mark in parts:
        if page.count(mark) != 1:
            sys.exit("page.py: index.html has to have %s once" % mark)
    page = re.sub("|".join(parts), lambda m: parts[m.group()], page)
    with open(out, "w", encoding="utf-8", newline="\n") as f:
        f.write(page)
    print("%s: %d bytes, reader %s, module sha256 %s" % (out, os.path.getsize(out), version, hashlib.sha256(wasm).hexdigest()))


if __name__ == "__main__":
    main(*sys.argv[1:])
