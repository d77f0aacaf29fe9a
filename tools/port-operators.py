#!/usr/bin/env python3
"""Lets each file of specs/ take the library's operators from the library itself, as today's rt ci asks: what a file took of them from a crate's own passing on (`terms`/specs/Words) it takes from Rattle.std.specs.Prelude.

usage: tools/port-operators.py [ROOT]      once, behind tools/port-names.py; it changes no meaning, since Words passes on the same operators
"""
import glob
import os
import re
import sys

root = os.path.abspath(sys.argv[1] if len(sys.argv) > 1 else os.path.join(os.path.dirname(os.path.realpath(__file__)), ".."))
with open("/opt/rattle/rattle/std/specs/Prelude.antt", encoding="utf-8") as f:
    symbols = {w for w in re.findall(r"[^\s{},]+", f.read()) if "◌" in w}
own = set(os.listdir(f"{root}/crates"))
PRELUDE = "Rattle.std.specs.Prelude"
for path in sorted(glob.glob(f"{root}/crates/*/specs/**/*.antt", recursive=True)):
    with open(path, encoding="utf-8") as f:
        lines = f.read().split("\n")
    moved, first, kept = [], None, []
    for line in lines:
        m = re.match(r"((?:(?:pub|unfoldable) )*)use (Rattle\.(\w+)\.[^{]*)\.\{([^}]*)\}$", line)
        if m and m[3] in own:
            names = m[4].split(", ")
            taken = [n for n in names if n in symbols]
            if taken:
                if "pub" in m[1]:
                    raise SystemExit(f"{path}: passes on {taken}")
                moved += [n for n in taken if n not in moved]
                first = len(kept) if first is None else first
                names = [n for n in names if n not in taken]
                if not names:
                    continue
                line = f"{m[1]}use {m[2]}.{{{', '.join(names)}}}"
        kept.append(line)
    if not moved:
        continue
    at = next((i for i, l in enumerate(kept) if re.match(rf"use {re.escape(PRELUDE)}\.\{{", l)), None)
    if at is None:
        kept.insert(first, f"use {PRELUDE}.{{{', '.join(moved)}}}")
    else:
        names = re.match(r"use [^{]*\{([^}]*)\}$", kept[at])[1].split(", ")
        kept[at] = f"use {PRELUDE}.{{{', '.join(names + [n for n in moved if n not in names])}}}"
    with open(path, "w", encoding="utf-8") as f:
        f.write("\n".join(kept))
