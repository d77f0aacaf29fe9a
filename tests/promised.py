#!/usr/bin/env python3
"""Do the names of docs/PROMISES.md, and of the other documents but LANDINGS and PORT, still exist? tests/promised.py [--list]

Looked at are, in the others, each `crate/specs/File.name` and `crate/proofs/File.name` and the code spans `crate::function`, and in PROMISES the tables of promises (their columns of definitions and theorems, and of must-fail edits) and every code span. `crate/specs/File.name`, `crate/proofs/File: name, name` and `File.name` have to be declared in
that file, `File` alone has to be one of the crate named last; `name` behind such a file in it, or else anywhere in crates/; `-name` and `_name` behind another name end some name there; `crate::function` has to be a
function of that crate, `crate/edit` a must-fail edit, `tests/x` a file. Prints what is not there; the last line is 'N names, K not there'; the status is 0 if none. --list prints each name with where it was found.

A word is taken for a name if it has a `_`, a capital inside or behind small letters, or stands in a list behind a file; any other word of a sentence is not looked at. Python's own library, no more."""
import os
import re
import sys

ROOT = os.path.dirname(os.path.dirname(os.path.abspath(__file__)))
CRATES = os.path.join(ROOT, "crates")
WORD = r"[^\s(){}.;,@\"«»:=|`/]+"
MARKS = r"(?:abbrev|unfoldable|pub|private|instance|opaque|mutual)"
DECLARED = re.compile(r"^\s*(?:%s\s+)*(?:(?:record|data|module|syntax)\s+)?(%s)\s*(?=([:({]))(.*)$" % (MARKS, WORD))
HEAD = re.compile(r"^\s*(?:%s\s+)*(?:record|data|module)\s+(%s)" % (MARKS, WORD))
MANY = re.compile(r"^\s+(?:pub\s+)?((?:%s\s+)+)(?:\{[^}]*\}\s*)*:\s" % WORD)
HANDED = re.compile(r"^\s*(?:pub use|use) [^{]*\{([^}]*)\}")


def read(path):
    with open(path, encoding="utf-8") as f:
        return f.read()


def names_in(path):
    """What a file of specs/ or proofs/ declares: definitions, lemmas, fields, constructors; what it hands on, too."""
    names = set()
    for line in read(path).splitlines():
        line = re.sub(r"(^|\s)--(\s.*)?$", "", line)
        for found in (DECLARED.match(line), HEAD.match(line)):
            if found and (found.re is HEAD or found.group(2) == ":" or "=" not in found.group(3).split(" : ")[0]):
                names.add(found.group(1))
        many = MANY.match(line)
        if many:
            names.update(many.group(1).split())
        handed = HANDED.match(line)
        if handed and line.lstrip().startswith("pub use"):
            names.update(word.split(" as ")[-1].strip() for word in handed.group(1).split(","))
    return names


class Tree:
    def __init__(self):
        self.crates = sorted(name for name in os.listdir(CRATES) if os.path.isdir(os.path.join(CRATES, name, "src")))
        self.files, self.edits, self.functions = {}, {}, {}
        for crate in self.crates:
            for part in ("specs", "proofs"):
                top = os.path.join(CRATES, crate, part)
                for folder, _, names in os.walk(top):
                    for name in names:
                        if name.endswith(".antt"):
                            path = os.path.relpath(os.path.join(folder, name[:-5]), CRATES)
                            self.files[path] = names_in(os.path.join(folder, name))
            folder = os.path.join(CRATES, crate, "must-fail")
            self.edits[crate] = {name[:-5] for name in os.listdir(folder) if name.endswith(".edit")} if os.path.isdir(folder) else set()
            source = ""
            for name in sorted(os.listdir(os.path.join(CRATES, crate, "src"))):
                source += read(os.path.join(CRATES, crate, "src", name))
            self.functions[crate] = set(re.findall(r"\b(?:fn|struct|enum|trait|const|mod|type)\s+(\w+)", source))
        self.all = {}
        for path, names in self.files.items():
            for name in names:
                self.all.setdefault(name, []).append(path)


def is_name(word):
    return bool(re.search(r"_|[a-z0-9][A-Z]", word)) and bool(re.search("[a-z]", word)) or bool(re.search(r"[a-z]-[a-z]", word))


class Check:
    def __init__(self, tree):
        self.tree, self.count, self.lost, self.found = tree, 0, [], []

    def note(self, where, what, there):
        self.count += 1
        if there:
            self.found.append("%s: %s: %s" % (where, what, there if isinstance(there, str) else "there"))
        else:
            self.lost.append("%s: %s" % (where, what))

    def cell(self, where, text, crate, part):
        """A column of definitions or theorems; the crate and the part named last come in and go out."""
        tree, file, listing, last = self.tree, None, False, None
        text = text.replace("**", "")
        text = re.sub(r"\([^()]*\)", lambda m: " " * len(m.group()) if not re.search(r"[_/]|[a-z][A-Z]", m.group()) else m.group(), text)
        for m in re.finditer(r"([a-z_]+)/(specs|proofs)(?:/([A-Z]\w*(?:/[A-Z]\w*)*))?((?:\.[^\s(){};,`|:]*[^\s(){};,`|:.])*)(:)?|`[^`]*`|[^\s(){};,`|:*\"]+|[;:]", text):
            token = m.group(0)
            if m.group(1):
                crate, part = m.group(1), m.group(2)
                path = "%s/%s/%s" % (crate, part, m.group(3)) if m.group(3) else None
                there = path in tree.files if path else os.path.isdir(os.path.join(CRATES, crate, part))
                self.note(where, path or "%s/%s" % (crate, part), there)
                file, listing = path if there else None, bool(m.group(5))
                for name in (m.group(4) or "").split(".")[1:]:
                    if file and file.split("/")[-1] != name:
                        self.note(where, "%s.%s" % (path, name), name in tree.files[file])
                        last = name
                continue
            if token == ";":
                listing, file = False, None
                continue
            if token == ":":
                listing = file is not None
                continue
            if token.startswith("`"):
                continue
            token = token.strip(".'")
            if re.fullmatch(r"[-_][a-z]\w*", token):
                self.note(where, "%s behind %s" % (token, last), any(name.endswith(token[1:]) for name in tree.all))
                continue
            head, *rest = token.split(".")
            inside = crate and ["%s/%s/%s" % (crate, p, head) for p in ("proofs", "specs") if "%s/%s/%s" % (crate, p, head) in tree.files]
            if inside:
                file = inside[0] if "%s/%s/%s" % (crate, part, head) not in inside else "%s/%s/%s" % (crate, part, head)
                self.note(where, file, True)
                for name in rest:
                    self.note(where, "%s.%s" % (file, name), name in tree.files[file])
                    last = name
                continue
            if listing and is_name(token) and not rest:
                there = token in tree.files[file] and file or tree.all.get(token, [None])[0] if file else tree.all.get(token, [None])[0]
                self.note(where, "%s of %s" % (token, file), there)
                last = token
                continue
            for name in [head] + rest:
                if is_name(name) and name not in tree.crates:
                    there = tree.all.get(name, [None])[0] or any(path.endswith("/" + name) for path in tree.files) or any(name in words for words in tree.functions.values())
                    self.note(where, name, there)
                    last = name
        return crate, part

    def edits(self, where, text):
        crate = None
        for token in re.split(r"[\s,;()]+", text):
            found = re.fullmatch(r"([a-z_]+)/([\w-]+)", token)
            if found and found.group(1) == "tests":
                continue
            if found and found.group(1) in self.tree.crates:
                crate = found.group(1)
                self.note(where, "must-fail %s" % token, found.group(2) in self.tree.edits[crate])
            elif re.fullmatch(r"[a-z0-9]+(?:[-_][\w]+)+", token) and token not in self.tree.crates and crate:
                self.note(where, "must-fail %s/%s" % (crate, token), token in self.tree.edits[crate])
            elif token in self.tree.crates:
                crate = token
        for path in re.findall(r"\b(?:tests|docs|tools)/[\w./]+\w", text):
            self.note(where, path, os.path.exists(os.path.join(ROOT, path)))

    def path(self, where, crate, part, file, names):
        path = "%s/%s/%s" % (crate, part, file)
        known = self.tree.files.get(path)
        self.note(where, path + names, known is not None and all(name in known for name in names.split(".")[1:] if name != "antt"))

    def span(self, where, text, everything=True):
        tree = self.tree
        found = re.fullmatch(r"([a-z_]+)::(\w+)", text)
        if found:
            self.note(where, text, found.group(1) in tree.crates and found.group(2) in tree.functions[found.group(1)])
            return
        found = re.fullmatch(r"([a-z_]+)/(specs|proofs)/([A-Z]\w*)((?:\.[\w'-]+)*)", text)
        if found and found.group(1) != "crate":   # (`crate/specs/File.name` says how names are written)
            self.path(where, *found.groups())
            return
        if re.fullmatch(r"(?:tests|docs|tools|include)/[\w./]+", text):
            self.note(where, text, os.path.exists(os.path.join(ROOT, text)))
            return
        if everything and re.fullmatch(r"[a-z]+(?:_\w+)+", text):
            self.note(where, text, text in tree.crates or text in tree.all or any(text in words for words in tree.functions.values()) or re.search(r"\b%s\b" % text, read(os.path.join(ROOT, "include", "kastepuhm.h"))) is not None or text in KEYWORDS)


OTHERS = ["README.md", "CONTRIBUTING.md", "bench/README.md", "tests/README.md"] + ["docs/%s.md" % name for name in ("AMENDED", "ARCHITECTURE", "DECISIONS", "GEOJSON", "PACKED", "PAGE", "PROGRAMS", "REFUSALS")]
# words of the two formats, which are no names here
KEYWORDS = {"end_file", "end_segment", "end_lane", "end_zone", "end_spot", "end_perimeter", "solid_yellow", "spot_checkpoint"}


def main():
    check = Check(Tree())
    head, crate, part, section = [], None, None, ""
    for number, line in enumerate(read(os.path.join(ROOT, "docs", "PROMISES.md")).splitlines(), 1):
        where = "docs/PROMISES.md:%d" % number
        if line.startswith("## "):
            section, crate, part = line, None, None
            if line.startswith("## Settled"):
                crate, part = "promises", "proofs"
            if "(L14)" in line:
                crate, part = "filed", "proofs"
        cells = [cell.strip() for cell in line.strip().strip("|").split(" | ")] if line.startswith("|") else []
        if line.startswith("|---"):
            continue
        if cells and cells[0] in ("sentence", "what", "file", "door"):
            head = cells
            continue
        if not cells:
            head = []
        for text in re.findall(r"`([^`]*)`", line):
            check.span(where, text)
        if head[:1] == ["sentence"] and len(cells) >= 3:
            own = ("filed", "proofs") if "(L14)" in section else (None, None)
            c, p = check.cell(where, cells[1], *(own[0], "specs") if own[0] else (None, None))
            check.cell(where, cells[2], own[0] or c, "proofs")
            if len(cells) > 3:
                check.edits(where, cells[3])
        elif head[:1] == ["what"] and len(cells) >= 2:
            for cell in cells[1:]:
                check.cell(where, cell, "promises", "proofs")
        elif head[:1] == ["file"] and cells:
            check.note(where, cells[0], cells[0] in check.tree.files)
    for document in OTHERS:
        for number, line in enumerate(read(os.path.join(ROOT, document)).splitlines(), 1):
            where = "%s:%d" % (document, number)
            for found in re.finditer(r"([a-z_]+)/(specs|proofs)/([A-Z]\w*)((?:\.[a-zA-Z][\w'-]*)*)", line):
                if found.group(1) in check.tree.crates:
                    check.path(where, *found.groups())
            for text in re.findall(r"`(\w+::\w+)`", line):
                check.span(where, text, False)
    if "--list" in sys.argv[1:]:
        print("\n".join(check.found))
    for what in check.lost:
        print("promised: " + what)
    print("%d names, %d not there" % (check.count, len(check.lost)))
    return 1 if check.lost else 0


if __name__ == "__main__":
    sys.exit(main())
