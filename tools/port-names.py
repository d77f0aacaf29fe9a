#!/usr/bin/env python3
"""Respells the repository's own definitions and lemmas as today's Rattle spells names: words in snake case, a dash between two names alone.

usage: tools/port-names.py [ROOT]      once, in a tree that port.py of the kit has just turned (ROOT, or this repository)

It writes the table of names to ROOT/tools/port-names.tsv (old, a tab, new) and lets the kit's snake.py turn the files of crates/ by it. With a table there already it goes by that one.
Turned are names that files of specs/ and lemma files of proofs/ declare. What stays: names of src/, of the kit, of goals and steps within one function's proof (proofs/F/).
  fooBar, foo-bar in specs/        foo_bar; where a name of that spelling stands already (a function or parameter of src/, a variable): foo_bar_of, or the_foo_of for fooOf
  foo-bar of a lemma               foo_bar, but the dash stays where foo and bar are names themselves; where that is taken: foo_bar_lem
"""
import os
import re
import subprocess
import sys

KIT = "/opt/rattle"
SNAKE = f"{KIT}/port/notes/2026-11-18-names-are-in-snake-case/snake.py"
WORD = re.compile(r"[^\s(){}.;,@\"«»:=|↦\[\]]+")
MARKS = r"(?:abbrev|unfoldable|pub|private|instance|opaque)"
DECLARED = re.compile(rf"^(\s*)((?:{MARKS}\s+)*)(?:(record|data)\s+)?([^\s(){{}}.,:;=◌@\"|]+)((?:\s+\{{[^}}]*\}})*(?:\s+[({{][^:=]*:.*[)}}])*)\s*:\s*(.*)$")
HEAD = re.compile(rf"^(?:{MARKS}\s+)*(record|data)\b")


def snake(word):
    return re.sub(r"(?<=[a-z0-9])(?=[A-Z])", "_", word).lower()


def files(root, ending):
    for folder, dirs, names in os.walk(root):
        dirs[:] = sorted(d for d in dirs if d not in ("out", ".git"))
        for name in sorted(names):
            if name.endswith(ending):
                yield os.path.join(folder, name)


def text_of(path):
    with open(path, encoding="utf-8") as f:
        return f.read()


def table(root):
    crates = os.path.join(root, "crates")
    declared, goals, seen, source = {}, set(), set(), set()
    for path in files(crates, ".antt"):
        text = re.sub(r"(?m)(?<![^\s(){}.;,@\"«»])--.*$", "", text_of(path))
        text = re.sub(r'"(?:[^"\\\n]|\\.)*"', '""', text)
        seen.update(WORD.findall(text))
        goals.update(re.findall(r"goal\.([^\s(){}.;,]+)", text))
        own = len(os.path.relpath(path, crates).split("/")) > 3
        kind = None
        for line in text.split("\n"):
            if line[:1].strip():
                head = HEAD.match(line)
                kind = head.group(1) if head else None
            m = DECLARED.match(line)
            many = re.match(r"^ +(?:pub )?([^\s(){}.,:;=◌@\"|]+(?: [^\s(){}.,:;=◌@\"|]+)+) : (.*)$", line)
            what = "field" if line[:1] == " " and kind == "record" else "specs" if "/specs/" in path else "lemma"
            for name in [m.group(4)] if m else many.group(1).split() if many and kind else []:
                declared.setdefault(name, []).append((what, own, (m or many).groups()[-1]))
    for path in files(crates, ".rt"):
        source.update(re.findall(r"[A-Za-z_][\w'-]*", re.sub(r"//.*", "", text_of(path))))
    kit = set()
    for path in files(os.path.join(KIT, "rattle"), ".antt"):
        kit.update(re.findall(r"[^\s(){}.;,@\"«»\[\]|]+", text_of(path)))
    rows, taken = {}, set()
    order = {"specs": 0, "field": 0, "lemma": 1}
    for name in sorted(declared, key=lambda n: (min(order[w] for w, _, _ in declared[n]), "-" in n, n)):
        places = declared[name]
        if not re.search(r"[a-z0-9][A-Z]|-|′", name) or name in goals or name in kit:
            continue
        if any(t.startswith("goal.") for _, _, t in places) or all(own for _, own, _ in places):
            continue
        parts = name.split("-")
        turned = [p if p[:1].isupper() else snake(p) for p in parts]
        kinds = {w for w, own, _ in places if not own}
        is_lemma = kinds == {"lemma"}
        new = turned[0]
        for left, right, word in zip(parts, parts[1:], turned[1:]):
            joins = is_lemma and (left in declared or left in kit) and right in declared
            new += ("-" if joins else "_") + word
        if new == name:
            continue
        if kinds != {"field"} or new in taken:
            while new in taken or new in seen or new in source:
                new = new + "_lem" if is_lemma else "the_" + new if new.endswith("_of") else new + "_of"
        rows[name] = new
        taken.add(new)
    return rows


def main(argv):
    root = os.path.abspath(argv[0] if argv else os.path.join(os.path.dirname(os.path.realpath(__file__)), ".."))
    path = os.path.join(root, "tools", "port-names.tsv")
    if not os.path.exists(path):
        rows = table(root)
        with open(path, "w", encoding="utf-8") as f:
            f.writelines(f"{a}\t{b}\n" for a, b in sorted(rows.items()))
    words = [sys.executable, SNAKE, "--table", path, "--only", "antt,rt", os.path.join(root, "crates")]
    return subprocess.run(words, env=os.environ | {"PYTHONDONTWRITEBYTECODE": "1"}).returncode


if __name__ == "__main__":
    raise SystemExit(main(sys.argv[1:]))
