#!/usr/bin/env python3
"""Runs the summary program on document 01's cases (those marked P and R) and on the edges of its own rules.

    python3 tests/summary_cases.py                     builds the program, then runs every case in a folder of its own
    python3 tests/summary_cases.py --built             runs it as it was last built
    python3 tests/summary_cases.py --command PROGRAM   runs another program in the case's folder

The answers are document 01's, written out here; the oracle (tests/oracle) is held to them too. Run by
way of `run-summary`. The last line says how many of the cases passed; the status is 0 if all did.
"""
import argparse
import os
import subprocess
import sys
import tempfile

here = os.path.dirname(os.path.abspath(__file__))
sys.path.insert(0, os.path.join(here, "oracle"))
import oracle   # noqa: E402
from yards import ROUND_1 as M, YARD_A as A, ins, put, text  # noqa: E402

RUN = os.path.join(here, "..", "run-summary")
FOLDER = object()
YARD_A_SAYS = "ok 1 0 1 2 0 1 0 1 1 1"


def document_01():
    """(label, RNDF, MDF, answer); None is a file that is not there, FOLDER a folder of that name."""
    named = lambda n: (put(A, 1, "RNDF_name>" + "n" * n), put(M, 2, "RNDF>" + "n" * n))
    long_line = lambda n: put(A, 13, "end_segment/*" + "c" * (n - 15) + "*/")
    latitude = lambda x: put(A, 10, "1.1.1>%s>-93.000000" % x)
    return [
        ("yard A", A, M, YARD_A_SAYS),
        ("P entry 1.1.3", put(A, 9, "exit>1.1.2>1.1.3"), M, "refused 1 9 12 12"),
        ("P exit from 1.1.3", put(A, 9, "exit>1.1.3>1.1.1"), M, "refused 1 9 9 6"),
        ("P num_waypoints 3", put(A, 7, "num_waypoints>3"), M, "refused 1 12 5 1"),
        ("P num_waypoints 1", put(A, 7, "num_waypoints>1"), M, "refused 1 8 9 12"),
        ("P without end_file", A[:-1], M, "refused 1 14 10 0"),
        ("P empty RNDF", b"", M, "refused 1 1 10 0"),
        ("P line 8 twice", ins(A, 9, A[7]), M, "refused 1 9 13 18"),
        ("P goal 8", A, put(M, 5, "8"), "refused 2 5 15 1"),
        ("P limit 1 10 5", A, put(M, 9, "1>10>5"), "refused 2 9 9 6"),
        ("R yard_b in the MDF", A, put(M, 2, "RNDF>yard_b"), "refused 2 2 14 6"),
        ("R name of 128 bytes, in both files", *named(128), YARD_A_SAYS),
        ("R name of 128 bytes, in the RNDF alone", named(128)[0], M, "refused 2 2 14 6"),
        ("R name of 129 bytes", *named(129), "refused 1 1 8 11"),
        ("R name of 129 bytes, in the MDF", A, put(M, 1, "MDF_name>" + "n" * 129), "refused 2 1 8 10"),
        ("R line of 512 bytes", long_line(512), M, YARD_A_SAYS),
        ("R line of 513 bytes", long_line(513), M, "refused 1 13 2 513"),
        ("R latitude 90.000000", latitude("90.000000"), M, YARD_A_SAYS),
        ("R latitude 90.000001", latitude("90.000001"), M, "refused 1 10 9 7"),
    ]


def padded(lines, size):
    """A text of that size: blank lines behind the others."""
    whole = text(lines)
    while len(whole) < size:
        n = min(400, size - len(whole))
        whole += b"\t" * (n - 1) + b"\n"
    assert len(whole) == size
    return whole


def points(n):
    """Yard A with n waypoints in its lane."""
    lines = put(A, 7, "num_waypoints>%d" % n)
    return lines[:9] + ["1.1.%d>1.000000>-1.000000" % i for i in range(1, n + 1)] + lines[11:]


def lanes(n):
    lane = lambda i: ["lane>1.%d" % i, "num_waypoints>1"] + (["checkpoint>1.1.1>7"] if i == 1 else []) + [
        "1.%d.1>0.000000>0.000000" % i, "end_lane"]
    return A[:4] + ["num_lanes>%d" % n] + [line for i in range(1, n + 1) for line in lane(i)] + A[12:]


def own_rules():
    stops = lambda n: ins(A, 9, *["stop>1.1.1"] * n)
    exits = lambda n: put(A, 9, *["exit>1.1.2>1.1.1"] * n)
    checkpoints = lambda n: put(A, 8, *["checkpoint>1.1.2>%d" % i for i in range(1, n + 1)])
    goals = lambda n: put(put(M, 4, "num_checkpoints>%d" % n), 5, *["7"] * n)
    limits = lambda n: put(put(M, 8, "num_speed_limits>%d" % n), 9, *["1>0>15"] * n)
    big_a, big_m = padded(A, 8193), padded(M, 8193)
    return [
        ("network.rndf missing", None, M, "no file"),
        ("mission.mdf missing", A, None, "no file"),
        ("both missing", None, None, "no file"),
        ("RNDF bad, MDF missing", b"x", None, "no file"),
        ("network.rndf is a folder", FOLDER, M, "no file"),
        ("mission.mdf is a folder", A, FOLDER, "no file"),
        ("RNDF of 8,192 bytes", padded(A, 8192), M, YARD_A_SAYS),
        ("MDF of 8,192 bytes", A, padded(M, 8192), YARD_A_SAYS),
        ("both of 8,192 bytes", padded(A, 8192), padded(M, 8192), YARD_A_SAYS),
        ("RNDF of 8,193 bytes", big_a, M, "file too big"),
        ("MDF of 8,193 bytes", A, big_m, "file too big"),
        ("MDF of 20,000 bytes", A, padded(M, 20000), "file too big"),
        ("RNDF too big, MDF missing", big_a, None, "file too big"),
        ("RNDF missing, MDF too big", None, big_m, "no file"),
        ("RNDF bad, MDF too big", b"x", big_m, "file too big"),
        ("both too big", big_a, big_m, "file too big"),
        ("empty MDF", A, b"", "refused 2 1 10 0"),
        ("both empty", b"", b"", "refused 1 1 10 0"),
        ("256 points", points(256), M, "ok 1 0 1 256 0 1 0 1 1 1"),
        ("257 points", points(257), M, "refused 1 0 11 0"),
        ("128 lanes", lanes(128), M, "ok 1 0 128 128 0 1 0 0 1 1"),
        ("129 lanes", lanes(129), M, "refused 1 0 11 0"),
        ("128 stops", stops(128), M, "ok 1 0 1 2 0 1 128 1 1 1"),
        ("129 stops", stops(129), M, "refused 1 0 11 0"),
        ("128 exits", exits(128), M, "ok 1 0 1 2 0 1 0 128 1 1"),
        ("129 exits", exits(129), M, "refused 1 0 11 0"),
        ("128 checkpoints", checkpoints(128), M, "ok 1 0 1 2 0 128 0 1 1 1"),
        ("129 checkpoints", checkpoints(129), M, "refused 1 0 11 0"),
        ("128 goals", A, goals(128), "ok 1 0 1 2 0 1 0 1 128 1"),
        ("129 goals", A, goals(129), "refused 2 0 11 0"),
        ("128 limits", A, limits(128), "refused 2 10 17 1"),
        ("129 limits", A, limits(129), "refused 2 0 11 0"),
    ]


def as_bytes(t):
    return t if t in (None, FOLDER) or isinstance(t, bytes) else text(t)


def said(command, rndf, mdf):
    with tempfile.TemporaryDirectory() as folder:
        for name, content in (("network.rndf", rndf), ("mission.mdf", mdf)):
            if content is FOLDER:
                os.mkdir(os.path.join(folder, name))
            elif content is not None:
                with open(os.path.join(folder, name), "wb") as out:
                    out.write(content)
        ran = subprocess.run(command(folder), cwd=folder, stdout=subprocess.PIPE)
        return ran.stdout.decode("ascii", "replace") + ("" if ran.returncode == 0 else "(status %d)" % ran.returncode)


def main():
    parser = argparse.ArgumentParser()
    parser.add_argument("--built", action="store_true")
    parser.add_argument("--command")
    options = parser.parse_args()
    if options.command:
        program = os.path.abspath(options.command)
        command = lambda folder: [program]
    else:
        if not options.built:
            yard = os.path.join(here, "..", "crates", "summary", "data")
            if subprocess.run([RUN, yard]).returncode != 0:
                return 1
        command = lambda folder: [RUN, "--built", folder]
    failed = 0
    every = document_01() + own_rules()
    for label, rndf, mdf, want in every:
        rndf, mdf = as_bytes(rndf), as_bytes(mdf)
        by_oracle = oracle.summary(None if rndf is FOLDER else rndf, None if mdf is FOLDER else mdf)
        assert by_oracle == want, (label, by_oracle)
        got = said(command, rndf, mdf)
        if got != want + "\n":
            failed += 1
            print("%s: %r, and not %r" % (label, got, want + "\n"))
    print("%d passed, %d failed" % (len(every) - failed, failed))
    return 1 if failed else 0


if __name__ == "__main__":
    sys.exit(main())
