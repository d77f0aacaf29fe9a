#!/usr/bin/env python3
"""Runs the program `house` on the edges of its own rules and on random pairs, and holds it to the oracle (tests/oracle).

    python3 tests/house_cases.py [N]            builds the program, then runs every case, N of them random (default 300)
    python3 tests/house_cases.py --built [N]    runs it as it was last built

The program is run again on what it wrote: that has to come back byte for byte. It goes by way of
`run-house`. The last line says how many of the cases passed; the status is 0 if all did.
"""
import argparse
import os
import random
import subprocess
import sys
import tempfile

here = os.path.dirname(os.path.abspath(__file__))
sys.path.insert(0, os.path.join(here, "oracle"))
import generate   # noqa: E402
import oracle     # noqa: E402
from yards import ROUND_1 as M, YARD_A as A, ins, put, text  # noqa: E402

RUN = os.path.join(here, "..", "run-house")
LARGEST = 8192
SEED = 20261115
FOLDER = object()


def house(rndf, mdf):
    """What has to be printed; None is a file that is not there, and a folder of that name is none."""
    rndf, mdf = (None if t is FOLDER else t for t in (rndf, mdf))
    if rndf is None:
        return b"no file\n"
    if any(t is not None and len(t) > LARGEST for t in (rndf, mdf)):
        return b"file too big\n"
    written = []
    if mdf is not None:
        written.append(oracle.write_mdf(rndf, mdf, oracle.SUMMARY_ROOM, LARGEST + 1))
    written.append(oracle.write_rndf(rndf, oracle.SUMMARY_ROOM, LARGEST + 1))
    for reply in written:
        if not reply.accepted:
            return b"refused %d %d %d %d\n" % reply.refusal
    return b"".join(bytes(w.output[:w.written]) for w in reversed(written))


def long_text(size):
    """A yard as a text of that size, in house writing but for its last LF: as many points as there is room for, and a name for the rest."""
    yard = lambda n, name: text(["RNDF_name>" + name] + A[1:6] + ["num_waypoints>%d" % n] + ["stop>1.1.1"] * 40
                                + ["1.1.%d>-45.000000>-179.000000" % i for i in range(1, n + 1)] + A[11:])[:-1]
    n = max(n for n in range(1, 256) if len(yard(n, "n")) <= size)
    return yard(n, "n" * (1 + size - len(yard(n, "n"))))


def own_rules():
    a, m = text(A), text(M)
    fill = lambda t, n: t + b"\n" * (n - len(t))
    return [
        ("yard A", a, None), ("yard A with its mission", a, m), ("nothing", None, None), ("a mission alone", None, m),
        ("empty RNDF", b"", None), ("empty MDF", a, b""), ("an RNDF of 8,192 bytes", fill(a, 8192), m), ("of 8,193", fill(a, 8193), m),
        ("an MDF of 8,192 bytes", a, fill(m, 8192)), ("of 8,193", a, fill(m, 8193)), ("both too big", fill(a, 9000), fill(m, 9000)),
        ("a folder for the RNDF", FOLDER, m), ("a folder for the MDF", a, FOLDER), ("bad RNDF, no MDF", a[:-9], None),
        ("bad RNDF with an MDF that is too big", b"x", fill(m, 9000)), ("last LFs missing", a[:-1], m[:-1]), ("8,192 bytes, last LF missing", long_text(8192), None),
        ("the MDF names another", a, text(put(M, 2, "RNDF>yard_b"))),
        # L12: dates are left out, and a second one is 6
        ("dates in both", text(ins(A, 4, "creation_date>a")), text(ins(M, 3, "creation_date>b"))), ("dates before and behind the version", text(ins(A, 4, "creation_date>a", "format_version>1")),
         text(ins(M, 3, "format_version>2", " creation_date b /* c */"))), ("a date in the RNDF alone", text(ins(A, 4, "creation_date>" + "a" * 128)), m),
        ("two dates", text(ins(A, 4, "creation_date>a", "creation_date>a")), m), ("two dates in the MDF", a, text(ins(M, 3, "creation_date>a", "creation_date>a"))),
    ]


def random_ones(n):
    rng = random.Random(SEED)
    found = []
    while len(found) < n:
        mode, rndf, mdf, _ = generate.one_case(rng)
        found.append(("random %d" % len(found), rndf, mdf if mode == 2 else None))
    return found


def run(rndf, mdf):
    with tempfile.TemporaryDirectory() as folder:
        for name, content in (("network.rndf", rndf), ("mission.mdf", mdf)):
            if content is FOLDER:
                os.mkdir(os.path.join(folder, name))
            elif content is not None:
                with open(os.path.join(folder, name), "wb") as out:
                    out.write(content)
        ran = subprocess.run([RUN, "--built", folder], stdout=subprocess.PIPE)
        return ran.stdout + (b"" if ran.returncode == 0 else b"(status %d)" % ran.returncode)


def main():
    parser = argparse.ArgumentParser()
    parser.add_argument("--built", action="store_true")
    parser.add_argument("n", nargs="?", type=int, default=300)
    options = parser.parse_args()
    if not options.built and subprocess.run([RUN, os.path.join(here, "..", "crates", "house", "data")]).returncode != 0:
        return 1
    failed = again = 0
    every = own_rules() + random_ones(options.n)
    for label, rndf, mdf in every:
        want = house(rndf, mdf)
        got = run(rndf, mdf)
        behind = want.find(b"\nMDF_name\t") + 1
        parts = (want[:behind], want[behind:]) if behind else (want, None)
        if got == want and want.startswith(b"RNDF_name") and len(parts[0]) <= LARGEST:
            # what was written, written again
            again += 1
            got = run(*parts)
        if got != want:
            failed += 1
            print("%s: %r, and not %r" % (label, got, want))
    print("%d passed, %d failed (%d were written, and again)" % (len(every) - failed, failed, again))
    return 1 if failed else 0


if __name__ == "__main__":
    sys.exit(main())
