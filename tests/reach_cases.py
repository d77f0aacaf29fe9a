#!/usr/bin/env python3
"""Runs the planners' program that says whether a mission can be driven (request L13) on yards small enough to see it, on starts that are no points, and on what it can't check.

    python3 tests/reach_cases.py           builds the program, then runs every case in a folder of its own
    python3 tests/reach_cases.py --built   runs it as it was last built
    python3 tests/reach_cases.py --oracle  runs nothing, and holds the oracle to the same answers

Every answer is worked out by hand: that the mission can be driven, or the first goal that can't be reached with its line and column and from where; the row of each start too, for the
oracle (tests/oracle), which is held to the same. Run by way of `run-reach`. The last line says how many of the cases passed; the status is 0 if all did.

What is printed:
- `MDF: can be driven from START`, status 0;
- `MDF:LINE:COLUMN: goal 7 can't be reached from goal 9 (31)`, of the first goal `from START`, and below it the line with a caret under the goal, status 1;
- `START is no point of RNDF (30)`, status 1;
- of files that are refused what `run-check` prints (tests/check_cases.py), status 1;
- a sentence for all else, status 2.
"""
import argparse
import bisect
import os
import subprocess
import sys
import tempfile

here = os.path.dirname(os.path.abspath(__file__))
sys.path.insert(0, here)
sys.path.insert(0, os.path.join(here, "oracle"))
import oracle   # noqa: E402
from check_cases import BOUNDARIES_2006, FOLDER, MDF, N, OLDER, Z, as_bytes, folder, missing, padded, swapped, told, unreadable  # noqa: E402
from yards import ROUND_1 as M, YARD_A as A, cut, ins, put, text  # noqa: E402

RUN = os.path.join(here, "..", "run-reach")
MOST = 524288
USAGE = "Name an RNDF file, an MDF file and the point to start from, x.y.z: run-reach [--edition 2006] RNDF MDF START"
HELP = (USAGE + "\n"
        "The start is a lane's waypoint, a perimeter point (y is 0) or a spot's waypoint (x a zone, y the spot, z 1 or 2).\n"
        "With --edition 2006 the RNDF is read by the edition of December 6, 2006; without, or with --edition 2007, by the present one.\n"
        "The answer is that the mission can be driven, or the first goal that can't be reached, as FILE:LINE:COLUMN and that line with a caret; or what is wrong with the files, as run-check says it.\n"
        "A file may have up to 524,288 bytes. The status is 0 can be driven, 1 can't be driven or refused, 2 not checked.")
OK = "ok"

# yard A is a lane of two points, rows 0 and 1, with checkpoint 7 on the second and an exit from there back to the first
ONE_WAY = cut(A, 9)                                                # without the exit
TWO = ins(ONE_WAY, 8, "checkpoint>1.1.1>9")                        # 9 on the first point
# Z, of check_cases: yard A with zone 2, which has a perimeter point, row 2, and a spot, rows 3 and 4, with checkpoint 8 on its second waypoint. No exit leads to the zone or from it
OUT = ins(Z, 18, "exit>2.0.1>1.1.1")                               # an exit from the zone into the lane
IN = ins(Z, 10, "exit>1.1.2>2.0.1")                                # one from the lane into the zone


def mission(*goals, limits=1):
    """Goal i stands in line 5 + i."""
    return M[:3] + ["num_checkpoints>%d" % len(goals)] + [str(g) for g in goals] + M[5:7] + ["num_speed_limits>%d" % limits] + ["%d>0>15" % i for i in range(1, limits + 1)] + M[9:]


def zoned(*goals):
    return mission(*goals, limits=2)


def stuck(row, line, column, goal, start):
    """The goal in this row, which stands there, and where the way to it begins."""
    return row, line, column, goal, start


def sentence(want, start, mdf):
    """What is printed of it, and the status."""
    if want == OK:
        return "%s: can be driven from %s" % (MDF, start), 0
    if want == 30:
        return "%s is no point of %s (30)" % (start, N), 1
    row, line, column, goal, begin = want
    whole = mdf.split(b"\n")[line - 1].decode("ascii").rstrip("\r")
    under = "".join("\t" if sign == "\t" else " " for sign in whole[:column - 1])
    return "%s:%d:%d: goal %d can't be reached from %s (31)\n%s\n%s^" % (MDF, line, column, goal, begin, whole, under), 1


def driven():
    """(label, RNDF, MDF, START, its row, answer)"""
    shifted = put(put(mission(7, 7), 5, "", "/* the first */", ">7"), 8, "> \t7 /* and again */")
    return [
        ("yard A", A, M, "1.1.1", 0, OK),
        ("yard A, from the goal itself: no move", A, M, "1.1.2", 1, OK),
        ("yard A, twice: round by the exit", A, mission(7, 7), "1.1.1", 0, OK),
        ("yard A, three times, from the goal", A, mission(7, 7, 7), "1.1.2", 1, OK),
        ("no exit, one goal", ONE_WAY, M, "1.1.1", 0, OK),
        ("no exit, from the goal", ONE_WAY, M, "1.1.2", 1, OK),
        ("no exit, twice", ONE_WAY, mission(7, 7), "1.1.1", 0, stuck(1, 6, 1, 7, "goal 7")),
        ("no exit, twice, from the goal", ONE_WAY, mission(7, 7), "1.1.2", 1, stuck(1, 6, 1, 7, "goal 7")),
        ("no exit, three times: the first that can't", ONE_WAY, mission(7, 7, 7), "1.1.2", 1, stuck(1, 6, 1, 7, "goal 7")),
        ("no exit, back to the first point", TWO, mission(9), "1.1.2", 1, stuck(0, 5, 1, 9, "1.1.2")),
        ("no exit, forth and back", TWO, mission(9, 7, 9), "1.1.1", 0, stuck(2, 7, 1, 9, "goal 7")),
        ("no exit, forth", TWO, mission(9, 7), "1.1.1", 0, OK),
        ("tabs, spaces, comments and blank lines around goals", ONE_WAY, shifted, "1.1.1", 0, stuck(1, 8, 4, 7, "goal 7")),
        ("CR LF", ONE_WAY, text(shifted, "\r\n"), "1.1.1", 0, stuck(1, 8, 4, 7, "goal 7")),
        ("a zone that no exit leads to", Z, zoned(8), "1.1.1", 0, stuck(0, 5, 1, 8, "1.1.1")),
        ("from the perimeter to the spot", Z, zoned(8), "2.0.1", 2, OK),
        ("from a spot's first waypoint", Z, zoned(8), "2.1.1", 3, OK),
        ("from a spot's second waypoint, the goal", Z, zoned(8, 8), "2.1.2", 4, OK),
        ("from a zone that no exit leaves", Z, zoned(8, 7), "2.0.1", 2, stuck(1, 6, 1, 7, "goal 8")),
        ("from a zone that no exit leaves, at once", Z, zoned(7, 8), "2.1.1", 3, stuck(0, 5, 1, 7, "2.1.1")),
        ("out of the zone", OUT, zoned(8, 7, 7), "2.1.1", 3, OK),
        ("out of the zone, and not back", OUT, zoned(7, 8), "2.1.2", 4, stuck(1, 6, 1, 8, "goal 7")),
        ("into the zone", IN, zoned(7, 8), "1.1.1", 0, OK),
        ("into the zone, and not back", IN, zoned(8, 7), "1.1.2", 1, stuck(1, 6, 1, 7, "goal 8")),
        ("30: a third waypoint", A, M, "1.1.3", None, 30),
        ("30: z 0", A, M, "1.1.0", None, 30),
        ("30: a second lane", A, M, "1.2.1", None, 30),
        ("30: y 0 of a segment", A, M, "1.0.1", None, 30),
        ("30: x too large", A, M, "2.1.1", None, 30),
        ("30: the largest", A, M, "99999.99999.99999", None, 30),
        ("30: x 0", A, M, "0.1.1", None, 30),
        ("30: all 0", A, M, "0.0.0", None, 30),
        ("30: a spot's waypoint 3", Z, zoned(8), "2.1.3", None, 30),
        ("30: a spot's waypoint 0", Z, zoned(8), "2.1.0", None, 30),
        ("30: a second spot", Z, zoned(8), "2.2.1", None, 30),
        ("30: a second perimeter point", Z, zoned(8), "2.0.2", None, 30),
        ("30: perimeter point 0", Z, zoned(8), "2.0.0", None, 30),
        ("30: a zone too many", Z, zoned(8), "3.0.1", None, 30),
        ("30: a zone too many, a spot's", Z, zoned(8), "3.1.1", None, 30),
    ]


def editions():
    """(label, options, RNDF, MDF, START, its row, answer): 8 for solid_yellow in the older edition."""
    yellow = ins(ONE_WAY, 8, "right_boundary>solid_yellow")
    return [
        ("2006: yard A", OLDER, A, mission(7, 7), "1.1.1", 0, OK),
        ("2006: no exit, twice", OLDER, ONE_WAY, mission(7, 7), "1.1.1", 0, stuck(1, 6, 1, 7, "goal 7")),
        ("2006: from a spot", OLDER, OUT, zoned(8, 7), "2.1.1", 3, OK),
        ("2006: 30", OLDER, A, M, "1.1.3", None, 30),
        ("2006: solid_yellow", OLDER, yellow, M, "1.1.1", 0, (N, 8, 8, 16, BOUNDARIES_2006)),
        ("2007: solid_yellow", [], yellow, M, "1.1.1", 0, OK),
        ("the present edition by its year", ["--edition", "2007"], yellow, mission(7, 7), "1.1.1", 0, stuck(1, 6, 1, 7, "goal 7")),
    ]


def refused():
    """(label, RNDF, MDF, START, answer): what run-check says, whatever the start is."""
    bad = put(A, 9, "exit>1.1.2>1.1.3")
    return [
        ("12", bad, M, "1.1.1", (N, 9, 12, 12, "1.1.1 to 1.1.2")),
        ("12, before 30", bad, M, "9.9.9", (N, 9, 12, 12, "1.1.1 to 1.1.2")),
        ("10", A[:-1], M, "1.1.1", (N, 14, 10, 0, "end_file")),
        ("15", A, put(M, 5, "8"), "1.1.1", (MDF, 5, 15, 1, "a checkpoint of the RNDF: 7")),
        ("15, before 30", A, put(M, 5, "> 8"), "9.9.9", (MDF, 5, 15, 3, "a checkpoint of the RNDF: 7")),
        ("18", Z, mission(7), "1.1.1", (MDF, 10, 18, 1, "2")),
        ("4", A, put(M, 5, "7\\"), "1.1.1", (MDF, 5, 4, 2)),
        ("empty RNDF", b"", M, "1.1.1", (N, 1, 10, 0, "RNDF_name NAME")),
        ("empty MDF", A, b"", "1.1.1", (MDF, 1, 10, 0, "MDF_name NAME")),
    ]


def not_checked():
    """(label, {name: content}, arguments, answer)"""
    both = {N: A, MDF: M}
    three = [N, MDF, "1.1.1"]

    def misspelt(start):
        return "START %r" % start, both, [N, MDF, start], ("%s is no point identifier x.y.z" % start, 2)

    def too_big(name):
        return "%s: the file is too big for this program, which takes up to 524,288 bytes" % name, 2

    return [misspelt(start) for start in ("1.1", "", "1", "1.1.1.1", "1.1.x", "1.1.", ".1.1", "1..1", "01.1.1", "1.1.-1", "100000.1.1", " 1.1.1", "1.1.1 ", "x" * 4095)] + [
        ("a misspelt start, before the files", {}, [N, MDF, "1.1"], ("1.1 is no point identifier x.y.z", 2)),
        ("a start of 4,096 bytes", both, [N, MDF, "1" * 4096], ("The start is over 4,095 bytes.", 2)),
        ("--help", both, ["--help"], (HELP, 2)),
        ("-h, with names behind it", both, ["-h"] + three, (HELP, 2)),
        ("--edition 2006 --help", both, OLDER + ["--help"], (HELP, 2)),
        ("no argument", both, [], (USAGE, 2)),
        ("no start", both, [N, MDF], (USAGE, 2)),
        ("four arguments", both, three + ["1.1.1"], (USAGE, 2)),
        ("--edition and nothing behind it", both, OLDER[:1], (USAGE, 2)),
        ("--edition 2006 and two names", both, OLDER + [N, MDF], (USAGE, 2)),
        ("another edition", both, ["--edition", "2005"] + three, (USAGE, 2)),
        ("no such RNDF", {MDF: M}, three, missing(N)),
        ("no such MDF", {N: A}, three, missing(MDF)),
        ("neither", {}, three, missing(N)),
        ("the RNDF is a folder", {N: FOLDER, MDF: M}, three, folder(N)),
        ("the MDF is a folder", {N: A, MDF: FOLDER}, three, folder(MDF)),
        ("an MDF that opens and can't be read", {N: A}, [N, "/proc/self/mem", "1.1.1"], unreadable("/proc/self/mem")),
        ("the two swapped", both, [MDF, N, "1.1.1"], swapped(MDF)),
        ("--edition 2006, the two swapped", both, OLDER + [MDF, N, "1.1.1"], swapped(MDF)),
        ("RNDF of 524,289 bytes", {N: padded(A, MOST + 1), MDF: M}, three, too_big(N)),
        ("MDF of 524,289 bytes", {N: A, MDF: padded(M, MOST + 1)}, three, too_big(MDF)),
        ("RNDF of 16,777,216 bytes", {N: padded(A, 16777216), MDF: M}, three, told(N, b"", 0, 1, 0)),
        ("name of 4,096 bytes", both, ["./" * 2042 + N, MDF, "1.1.1"], ("The RNDF file's name is over 4,095 bytes.", 2)),
        ("other names", {"a (1)^": A, "yard/b: can be driven from 1.1.2": M}, ["a (1)^", "yard/b: can be driven from 1.1.2", "1.1.1"],
         ("yard/b: can be driven from 1.1.2: can be driven from 1.1.1", 0)),
        ("other names, 30", {"n": A, "m": M}, ["n", "m", "1.1.3"], ("1.1.3 is no point of n (30)", 1)),
    ]


def largest():
    """Texts of 524,288 bytes: (label, RNDF, MDF, START, its row, answer). A lane of as many points as fit, whose last has the checkpoint; as many goals as an MDF may declare."""
    def lane(count):
        return put(put(A, 7, "num_waypoints>%d" % count), 8, "checkpoint>1.1.%d>7" % count)[:8] + ["1.1.%d 0.000000 0.000000" % i for i in range(1, count + 1)] + A[11:]

    count = bisect.bisect_right(range(MOST // 24), MOST, key=lambda n: len(text(lane(n)))) - 1
    last = "1.1.%d" % count
    return [
        ("both of 524,288 bytes", padded(A, MOST), padded(M, MOST), "1.1.1", 0, OK),
        ("a lane of %d points" % count, lane(count), M, "1.1.1", 0, OK),
        ("a lane of %d points, twice" % count, lane(count), mission(7, 7), last, count - 1, stuck(1, 6, 1, 7, "goal 7")),
        ("32,768 goals", A, mission(*[7] * 32768), "1.1.1", 0, OK),
        ("32,768 goals, the last can't be reached", Z, zoned(*[7] * 32767 + [8]), "1.1.1", 0, stuck(32767, 32772, 1, 8, "goal 7")),
    ]


def run(files, arguments):
    with tempfile.TemporaryDirectory() as where:
        for name, content in files.items():
            path = os.path.join(where, name)
            os.makedirs(os.path.dirname(path), exist_ok=True)
            if content is FOLDER:
                os.mkdir(path)
            else:
                with open(path, "wb") as out:
                    out.write(as_bytes(content))
        ran = subprocess.run([RUN, "--built"] + arguments, cwd=where, stdout=subprocess.PIPE)
        return ran.stdout.decode("ascii", "replace"), ran.returncode


def by_oracle(rndf, mdf, row, edition):
    """The oracle's reply: `ok`, the row of the goal that can't be reached, or the refusal. (Where the start is no point any row that no point has stands for it.)"""
    room = {"segments": 4 * (MOST // 92 + 1), "lanes": 5 * (MOST // 58 + 1), "zones": 6 * (MOST // 102 + 1), "spots": 2 * (MOST // 66 + 1),
            "points": 2 * (MOST // 24 + 1), "checkpoints": 2 * (MOST // 19 + 1), "stops": MOST // 11 + 1, "exits": 2 * (MOST // 17 + 1),
            "goals": 32768, "limits": 3 * 32768}
    reply = oracle.can_drive(rndf, mdf, room, MOST if row is None else row, MOST // 24 + 1, edition)
    if reply.accepted:
        return OK
    file, line, number, column = reply.refusal
    return {30: 30, 31: line}.get(number, (N if file == 1 else MDF, line, number, column))


def main():
    parser = argparse.ArgumentParser()
    parser.add_argument("--built", action="store_true")
    parser.add_argument("--oracle", action="store_true", help="run nothing: only hold the oracle to the answers worked out by hand")
    options = parser.parse_args()
    if not options.built and not options.oracle:
        data = os.path.join(here, "..", "crates", "yard_reach", "data")
        if subprocess.run([RUN, os.path.join(data, N), os.path.join(data, MDF), "1.1.1"]).returncode != 1:
            return 1
    every = not_checked()
    for label, option, rndf, mdf, start, row, want in (
            [(case[0], [], *case[1:]) for case in driven() + largest()] + editions() + [(label, [], rndf, mdf, start, None, want) for label, rndf, mdf, start, want in refused()]):
        rndf, mdf = as_bytes(rndf), as_bytes(mdf)
        of_file = isinstance(want, tuple) and want[0] in (N, MDF)
        if "32,768" not in label and "points" not in label:        # the oracle takes a search for each goal
            found = by_oracle(rndf, mdf, row, oracle.DECEMBER_2006 if option == OLDER else oracle.PRESENT)
            assert found == (want[:4] if of_file else want if want in (OK, 30) else want[0]), (label, found)
        answer = told(want[0], rndf if want[0] == N else mdf, *want[1:]) if of_file else sentence(want, start, mdf)
        every.append((label, {N: rndf, MDF: mdf}, option + [N, MDF, start], answer))
    if options.oracle:
        print("the oracle agrees")
        return 0
    failed = 0
    for label, files, arguments, want in every:
        got = run(files, arguments)
        if got != (want[0] + "\n", want[1]):
            failed += 1
            print("%s: %r, and not %r" % (label, got, want))
    print("%d passed, %d failed" % (len(every) - failed, failed))
    return 1 if failed else 0


if __name__ == "__main__":
    sys.exit(main())
