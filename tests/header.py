#!/usr/bin/env python3
"""tests/header.py: VERSION, include/kastepuhm.h and the Rust crate (bindings/rust) say the same: the version, every constant, the fields of every answer, and every function with its arguments in order and
their types; and the header declares just the functions that the library has (target/lib/TARGET/libyard.a, where it is built, and nm is there). Prints what differs; the last line is 'N compared, K differ'."""
import os
import re
import shutil
import subprocess
import sys

ROOT = os.path.dirname(os.path.dirname(os.path.abspath(__file__)))
TYPES = {"uint32_t": "u32", "int32_t": "i32", "uint8_t": "u8", "size_t": "usize", "bool": "bool", "kastepuhm_name": "Name", "kastepuhm_answer": "Answer", "kastepuhm_write_answer": "WriteAnswer",
         "kastepuhm_mend_answer": "MendAnswer", "kastepuhm_list_answer": "ListAnswer", "kastepuhm_expected_answer": "ExpectedAnswer"}
EDITIONS = {"MARCH_2007": "March2007", "DECEMBER_2006": "December2006"}


def read(path):
    with open(os.path.join(ROOT, path), encoding="utf-8") as file:
        return file.read()


def of_header(text):
    text = re.sub(r"/\*.*?\*/", "", text, flags=re.S)
    found = {"version": re.search(r'^#define KASTEPUHM_VERSION "(.*)"$', text, re.M).group(1)}
    for body in re.findall(r"^enum \{(.*?)\};", text, re.S | re.M):
        value = -1
        for name, given in re.findall(r"KASTEPUHM_(\w+)(?: = (\d+))?", body):
            value = int(given) if given else value + 1
            found["constant " + name] = value
    for name, value in re.findall(r"^#define KASTEPUHM_(\w+) (\d+)u?$", text, re.M):
        found["constant " + name] = int(value)
    for name, value in re.findall(r"^#define KASTEPUHM_(\w+)\(rows\) \(\(size_t\)(\d+) \* \(rows\)\)$", text, re.M):
        found["rows of " + name.replace("_", "").lower().removesuffix("words")] = int(value)
    for name, body in re.findall(r"^typedef struct (\w+) \{(.*?)^\}", text, re.S | re.M):
        if name in TYPES:
            found["fields of " + TYPES[name]] = [(field, TYPES[kind]) for kind, field in re.findall(r"^    (\w+) (\w+);", body, re.M)]
    for answer, name, arguments in re.findall(r"^(\w+) (kastepuhm_\w+)\(([^;{]*)\);", text, re.M):
        taken = []
        for const, kind, star, argument in re.findall(r"(const )?(\w+) (\*?)(\w+)(?:,|$)", re.sub(r"\s+", " ", arguments.strip())):
            taken.append((argument, ("*const " if const else "*mut ") * bool(star) + TYPES[kind]))
        found["function " + name] = (taken, TYPES[answer])
    return found


def of_crate(text):
    text = re.sub(r"//.*", "", text)
    found = {"version": re.search(r'^pub const VERSION: &str = "(.*)";$', text, re.M).group(1)}
    for name, value in re.findall(r"^pub const (\w+): (?:u32|usize) = ([\d_]+);$", text, re.M):
        found["constant " + name] = int(value.replace("_", ""))
    for ours, theirs in EDITIONS.items():
        found["constant " + ours] = int(re.search(r"^    %s = (\d+),$" % theirs, text, re.M).group(1))
    for name, value in re.findall(r"^impl<'a> (\w+)<'a> \{\s*pub const fn words\(rows: usize\) -> usize \{\s*(\d+) \* rows\s*\}", text, re.M):
        found["rows of " + name.lower()] = int(value)
    for name, body in re.findall(r"^pub struct (\w+) \{(.*?)^\}", text, re.S | re.M):
        if name in TYPES.values():
            found["fields of " + name] = re.findall(r"^    pub (\w+): (\w+),$", body, re.M)
    for name, arguments, answer in re.findall(r"^    fn (kastepuhm_\w+)\((.*?)\) -> (\w+);", text, re.S | re.M):
        found["function " + name] = (re.findall(r"(\w+): ((?:\*const |\*mut )?\w+),", arguments), answer)
    return found


def of_library(target):
    """The functions that a library has; None where that can't be told."""
    path, nm = os.path.join(ROOT, "target/lib", target, "libyard.a"), shutil.which("nm")
    if not nm or not os.path.exists(path):
        return None
    listed = subprocess.run([nm, "-g", "--defined-only", path], stdout=subprocess.PIPE, stderr=subprocess.DEVNULL, text=True)
    return set(re.findall(r" T (kastepuhm_\w+)$", listed.stdout, re.M)) if listed.returncode == 0 else None


def main():
    header, crate, differ = of_header(read("include/kastepuhm.h")), of_crate(read("bindings/rust/src/lib.rs")), []
    compared = sorted(header.keys() | crate.keys())
    for what in compared:
        if header.get(what) != crate.get(what):
            differ.append("%s: %s in the header, %s in the crate" % (what, header.get(what), crate.get(what)))
    version = read("VERSION").strip()
    manifest = re.search(r'^version = "(.*)"$', read("bindings/rust/Cargo.toml"), re.M).group(1)
    for where, told in (("include/kastepuhm.h", header["version"]), ("bindings/rust/Cargo.toml", manifest)):
        compared.append(where)
        if told != version:
            differ.append("%s has the version %s, VERSION %s" % (where, told, version))
    strides = sum(header["constant %s_STRIDE" % table] for table in ("SEGMENT", "LANE", "ZONE", "SPOT", "POINT", "CHECKPOINT", "STOP", "EXIT"))
    compared.append("strides")
    if header["rows of tables"] != strides:
        differ.append("KASTEPUHM_TABLES_WORDS has %d to a row, and the strides are %d" % (header["rows of tables"], strides))
    declared = {what.split()[1] for what in header if what.startswith("function ")}
    for target in ("x86-64", "aarch64"):
        has = of_library(target)
        if has is not None:
            compared.append(target)
            if has != declared:
                differ.append("the library for %s and the header differ in %s" % (target, ", ".join(sorted(has ^ declared))))
    for line in differ:
        print(line)
    print("%d compared, %d differ" % (len(compared), len(differ)))
    return 1 if differ else 0


if __name__ == "__main__":
    sys.exit(main())
