#!/usr/bin/env python3
"""tests/stack.py [--target x86-64 | aarch64] [--built] [--install] [--library]: how much stack the library for C, the summary program and the readers need, measured on what was built.

1. The deepest chain of calls from each function that the library exports, marks included, read from the machine code of target/lib/TARGET/libyard.a (objdump); include/kastepuhm.h promises LIBRARY.
   The target is this machine if none is named. With --library, and for aarch64, this alone: the programs below are compiled for x86-64 on every machine.
2. The smallest stack in KiB with which the summary program still prints yard A's line, and the deepest chain of calls from its `main`, less than SUMMARY. On
   x86-64 that stack is `ulimit -s` with an empty environment, so the system's start is in it; on Arm, where the emulator gives every program 128 KiB or
   more, the program's object file, as it was built on an x86-64 machine (the kit runs on no other), runs in a thread with so much stack and nothing below it (small_stack.c; Debian: gcc-x86-64-linux-gnu, qemu-user).
3. The frames of the readers, read from the machine code of reader_vectors.o, where they are functions of their own: each frame, and the deepest chain of calls from the reader of an RNDF, without the
   4,096 bytes of marks.

Without --built the library is made by tools/library.sh and the programs by `rt run` in crates/summary and crates/reader_vectors, where anything changed. What is missing is said; --install installs it. The status is 0 if
all is less than promised, 2 where something is missing.
"""
import argparse
import os
import re
import shutil
import subprocess
import sys
import tempfile

ROOT = os.path.dirname(os.path.dirname(os.path.abspath(__file__)))
MARKS = 4096
TEXTS, TABLES = 2 * 8192, 15360
LIBRARY = {"kastepuhm_read_rndf": 8 * 1024, "kastepuhm_read_pair": 12 * 1024, "kastepuhm_write_rndf": 8 * 1024, "kastepuhm_write_map": 8 * 1024, "kastepuhm_write_mdf": 12 * 1024,
           "kastepuhm_check_route": 12 * 1024, "kastepuhm_check_mission": 12 * 1024, "kastepuhm_write_packed": 8 * 1024, "kastepuhm_read_packed": 8 * 1024,
           "kastepuhm_mend": 12 * 1024, "kastepuhm_expected": 8 * 1024, "kastepuhm_sentence": 2 * 1024, "kastepuhm_is_mission": 64,
           "kastepuhm_point_of": 64, "kastepuhm_points_of": 128}
SUMMARY = 40 * 1024
THIS = {"x86_64": "x86-64", "aarch64": "aarch64", "arm64": "aarch64"}.get(os.uname().machine)
# of each target: what the names of its tools begin with on other machines, and Debian's packages of them
TOOLS = {"x86-64": ("x86_64-linux-gnu-", "x86-64-linux-gnu"), "aarch64": ("aarch64-linux-gnu-", "aarch64-linux-gnu")}


class Missing(Exception):
    """What is missing, in one sentence."""


def tool(name, target, package, install):
    """The path of objdump, objcopy or gcc for a target."""
    begin, end = TOOLS[target]
    command, package = (name, package) if target == THIS else (begin + name, "%s-%s" % (package, end))
    found = shutil.which(begin + name) or shutil.which(command)
    if not found and install:
        if os.geteuid() or not shutil.which("apt-get"):
            raise Missing("missing: %s; only root with apt-get can install %s" % (command, package))
        subprocess.run(["apt-get", "install", "-y", "-qq", "--no-install-recommends", package], stdout=sys.stderr)
        found = shutil.which(command)
    if not found:
        raise Missing("missing: %s; --install would run: apt-get install %s" % (command, package))
    return found


def made(path, how):
    path = os.path.join(ROOT, path)
    if not os.path.exists(path):
        raise Missing("%s is not built (%s)" % (path, how))
    return path


def kit():
    rt = shutil.which("rt")
    if not rt:
        raise Missing("the kit's rt is not in PATH")
    return os.path.dirname(os.path.dirname(os.path.realpath(rt)))


def build(name):
    """Has the kit prove and build a program. `rt run` then runs it, here without input in the crate's folder; what that says does not matter."""
    said = subprocess.run(["rt", "run"], cwd=os.path.join(ROOT, "crates", name), stdin=subprocess.DEVNULL, stdout=subprocess.DEVNULL, stderr=subprocess.PIPE, text=True, errors="replace").stderr
    if "rt: running out/%s;" % name not in said:
        sys.stderr.write(said[-2000:])
        raise Missing("rt run in crates/%s failed" % name)


YARD_A = os.path.join(ROOT, "crates/summary/data")
LINE = b"ok 1 0 1 2 0 1 0 1 1 1\n"


def threaded(folder, install):
    """The summary program in a thread, for `runs_threaded`."""
    object_file, program = os.path.join(folder, "summary.o"), os.path.join(folder, "small_stack")
    subprocess.run([tool("objcopy", "x86-64", "binutils", install), "--redefine-sym", "main=summary_main", os.path.join(ROOT, "crates/summary/out/summary.o"), object_file], check=True)
    subprocess.run([tool("gcc", "x86-64", "gcc", install), "-O2", "-static", os.path.join(ROOT, "tests/small_stack.c"), object_file]
                   + [os.path.join(kit(), "c", name) for name in ("libos_c.a", "liblibc_c.a")] + ["-lpthread", "-o", program], check=True)
    emulator = shutil.which("qemu-x86_64")
    if not emulator:
        raise Missing("missing: qemu-x86_64 (Debian: qemu-user)")
    return [emulator, program]


def runs_threaded(program, kib):
    return subprocess.run(program + [str(kib)], cwd=YARD_A, stdout=subprocess.PIPE, stderr=subprocess.DEVNULL).stdout == LINE


def runs(kib):
    done = subprocess.run(["sh", "-c", "ulimit -s %d; exec env -i PATH=\"$PATH\" LD_BIND_NOW=1 \"$0\" --built \"$1\"" % kib,
                           os.path.join(ROOT, "run-summary"), YARD_A],
                          stdout=subprocess.PIPE, stderr=subprocess.DEVNULL)
    return done.stdout == LINE


def least_stack(install):
    if os.uname().machine == "x86_64":
        return next((k for k in range(40, 200, 4) if all(runs(k) for _ in range(8))), None)   # where the stack begins is random
    with tempfile.TemporaryDirectory() as folder:
        program = threaded(folder, install)
        return next((k for k in range(32, 200, 4) if runs_threaded(program, k)), None)


class X86:
    """What a line of machine code takes of the stack. A call leaves the return address there."""
    STEPS = (3072, 4096)    # of that loop: of today's kit, and a page
    CALL, CALLS = 8, r"R_X86_64_P\w+32\s+(.+?)-0x4$"

    def __init__(self):
        self.probed = False

    def takes(self, line):
        if re.search(r"\tpush ", line):
            return 8
        step = re.search(r"\tsub +\$0x([0-9a-f]+),%(rsp|r11)$", line)
        if not step:
            return 0
        n = int(step.group(1), 16)
        if step.group(2) == "r11":          # a frame of several pages: the loop that touches them goes down to here
            self.probed = True
            return n
        return 0 if self.probed and n in self.STEPS else n


class Arm:
    """A call leaves nothing on the stack. A frame is taken by `sub sp, sp, #0x2b0`, perhaps a page at a time (`#0x1, lsl #12`), or by a store that moves sp (`stp x29, x30, [sp, #-96]!`)."""
    CALL, CALLS = 0, r"R_AARCH64_(?:CALL|JUMP)26\s+(\S+?)(?:\+0x[0-9a-f]+)?$"

    def takes(self, line):
        moved = re.search(r"\[sp, #-(\d+)\]!", line)
        if moved:
            return int(moved.group(1))
        step = re.search(r"\tsub\s+sp, (\S+), #0x([0-9a-f]+)(, lsl #12)?", line)
        if step and step.group(1) == "sp":
            return int(step.group(2), 16) << (12 if step.group(3) else 0)
        # any other way down, as a loop over many pages, is not read here
        if step or re.search(r"\tsub\s+sp, |\tsub\s+x\d+, sp, |\tmov\s+sp, |\tadd\s+sp, (?!sp, )|\tand\s+sp, ", line):
            raise Missing("a way of taking stack that this script does not read: %s" % line.strip())
        return 0


def frames(path, target, objdump):
    """Of each function: its frame with the return address, and whom it calls."""
    out = subprocess.run([objdump, "-dr", "--no-show-raw-insn", path], stdout=subprocess.PIPE, text=True, check=True).stdout
    kind = {"x86-64": X86, "aarch64": Arm}[target]
    size, calls, name = {}, {}, None
    for line in out.splitlines():
        head = re.match(r"[0-9a-f]+ <(.*)>:$", line)
        if head:
            name, machine = head.group(1), kind()
            size[name], calls[name] = kind.CALL, set()
            continue
        if name is None:
            continue
        size[name] += machine.takes(line)
        called = re.search(kind.CALLS, line)
        if called:
            calls[name].add(called.group(1).removeprefix(".text."))
    return size, calls


def deepest(name, size, calls, seen=()):
    if name not in size or name in seen:
        return 0, []
    below = max((deepest(c, size, calls, seen + (name,)) for c in calls[name]), default=(0, []))
    return size[name] + below[0], [name] + below[1]


def library(target, objdump):
    size, calls = frames(made("target/lib/%s/libyard.a" % target, "tools/library.sh " + target), target, objdump)
    good = True
    for name, promised in LIBRARY.items():
        took, chain = deepest(name, size, calls)
        print("%s: %d bytes at its deepest, of %d promised" % (name, took, promised))
        good = good and bool(chain) and took < promised
    return good


def programs(objdump, install):
    summary, readers = (made("crates/%s/out/%s.o" % (name, name), "rt run in crates/%s" % name) for name in ("summary", "reader_vectors"))
    least = least_stack(install)
    print("summary: runs in %s KiB of stack (texts %d, tables %d and marks %d bytes are %d of them)" % (least, TEXTS, TABLES, MARKS, TEXTS + TABLES + MARKS))
    size, calls = frames(summary, "x86-64", objdump)
    took, chain = deepest("main", size, calls)
    for name in chain:
        print("  %6d bytes %s" % (size[name], name))
    print("summary: main and what is below it %d bytes, of %d" % (took, SUMMARY))
    good = bool(least) and 0 < took < SUMMARY
    size, calls = frames(readers, "x86-64", objdump)
    whole, chain = deepest("network_reader::read_network", size, calls)
    for name in chain:
        print("  %6d bytes %s" % (size[name], name))
    print("the reader of an RNDF: %d bytes at its deepest, %d without the marks" % (whole, whole - MARKS))
    return good and whole - MARKS < 4096


def main():
    asked = argparse.ArgumentParser(usage="tests/stack.py [--target x86-64 | aarch64] [--built] [--install] [--library]")
    asked.add_argument("--target", choices=sorted(TOOLS), default=THIS)
    for word in ("--built", "--install", "--library"):
        asked.add_argument(word, action="store_true")
    asked = asked.parse_args()
    try:
        if asked.target is None:
            raise Missing("there is no library for this machine, %s" % os.uname().machine)
        with_programs = not asked.library and asked.target == "x86-64"
        objdump = tool("objdump", asked.target, "binutils", asked.install)
        if not asked.built:
            kit()
            step = [os.path.join(ROOT, "tools/library.sh"), asked.target]
            if subprocess.run(step, cwd=ROOT, stdout=sys.stderr).returncode:
                raise Missing("%s failed" % " ".join(step))
            for name in ("summary", "reader_vectors") if with_programs else ():
                build(name)
        good = library(asked.target, objdump)
        if with_programs:
            good = programs(objdump, asked.install) and good
        return 0 if good else 1
    except Missing as what:
        print("tests/stack.py: %s" % what, file=sys.stderr)
        return 2


if __name__ == "__main__":
    sys.exit(main())
