#!/usr/bin/env python3
"""Runs the planners' program that says whether two RNDFs are the same yard (request L14) on pairs that are, on pairs with one difference each, on what is refused and on what it can't take.

    python3 tests/same_cases.py           builds the program, then runs every case in a folder of its own
    python3 tests/same_cases.py --built   runs it as it was last built

Every answer is worked out by hand. Run by way of `run-same`. The last line says how many of the cases passed; the status is 0 if all did.

What is printed:
- `the same yard`, status 0;
- `not the same yard`, and below it the first line of the two house writings that differs, of each, as `house line 10 of FILE: lane_width 12`, and the last line before it that opens a part, as
  `last part before it: lane 1.1`, where there is one, status 1;
- what `run-check` prints of a refusal, status 1; of the first file before anything about the second;
- or a sentence, status 2.
"""
import argparse
import os
import subprocess
import sys
import tempfile

here = os.path.dirname(os.path.abspath(__file__))
sys.path.insert(0, here)
sys.path.insert(0, os.path.join(here, "oracle"))
from check_cases import BOUNDARIES_2006, FOLDER, OLDER, as_bytes, folder, missing, padded, told, unreadable  # noqa: E402
from yards import ROUND_1 as M, YARD_A as A, cut, ins, put, text  # noqa: E402

RUN = os.path.join(here, "..", "run-same")
ONE, OTHER = "one.rndf", "other.rndf"
MOST = 1048576
USAGE = "Name two RNDF files: run-same [--edition 2006] A B"
HELP = (USAGE + "\n"
        "With --edition 2006 both are read by the edition of December 6, 2006; without, or with --edition 2007, by the present one.\n"
        "Two files are the same yard if they mean the same network apart from creation dates: comments, spacing and the order of different options do not count, the order of checkpoints, stops and exits does.\n"
        "The answer is that they are, or that they are not, with the first line of their house writings in which they differ and its part; or what is wrong with a file, as run-check says it.\n"
        "A file may have up to 1,048,576 bytes. The status is 0 the same, 1 not the same or refused, 2 not tried.")
SAME = "the same yard", 0

# A yard with every option, as the house writes it: 38 lines.
HOUSE = """\
RNDF_name>yard_a
num_segments>1
num_zones>1
format_version>1.0
segment>1
num_lanes>1
segment_name>Ost
lane>1.1
num_waypoints>2
lane_width>12
left_boundary>double_yellow
right_boundary>broken_white
checkpoint>1.1.2>7
checkpoint>1.1.1>9
stop>1.1.2
stop>1.1.1
exit>1.1.2>1.1.1
exit>1.1.2>2.0.1
1.1.1>45.000000>-93.000000
1.1.2>45.000100>-93.000000
end_lane
end_segment
zone>2
num_spots>1
zone_name>Hof
perimeter>2.0
num_perimeterpoints>1
exit>2.0.1>1.1.1
2.0.1>0.000000>0.000000
end_perimeter
spot>2.1
spot_width>9
checkpoint>2.1.2>8
2.1.1>0.000000>0.000000
2.1.2>0.000000>0.000000
end_spot
end_zone
end_file
""".splitlines()
DATED = ins(HOUSE, 5, "creation_date>14-Mar-07")
# the same in another order: options, but repeats in theirs
ARRANGED = (HOUSE[:3] + ["creation_date>today", "format_version>1.0"] + HOUSE[4:9]
            + ["stop>1.1.2", "exit>1.1.2>1.1.1", "right_boundary>broken_white", "checkpoint>1.1.2>7", "stop>1.1.1", "lane_width>12", "checkpoint>1.1.1>9", "exit>1.1.2>2.0.1", "left_boundary>double_yellow"]
            + HOUSE[18:31] + ["checkpoint>2.1.2>8", "spot_width>9"] + HOUSE[33:])
BY_HAND = b"/* by hand */\r\n\r\n" + text(put(put([l.replace(">", "   ") for l in ARRANGED], 30, "  2.0.1>-0.000000> -0.000000  /* the gate */"), 9, "lane>>1.1", "", ">"), "\r\n")[:-2]
YELLOW = ins(A, 8, "right_boundary>solid_yellow")


def filled_up(size):
    """A text of that size that is a house writing but for its last LF, so that this is a byte longer: 30,000 points, stops of 11 bytes each, and a name that makes up the rest."""
    lines = ["num_segments>1", "num_zones>0", "segment>1", "num_lanes>1", "lane>1.1", "num_waypoints>30000"] + ["1.1.%d>0.000000>0.000000" % i for i in range(1, 30001)] + ["end_lane", "end_segment", "end_file"]
    stops, name = divmod(size - len(text(["RNDF_name>"] + lines)[:-1]) - 1, 11)
    whole = text(["RNDF_name>" + "n" * (name + 1)] + lines[:6] + ["stop>1.1.1"] * stops + lines[6:])[:-1]
    assert len(whole) == size
    return whole


# the lines that open a part, of HOUSE, and of yard A and whatever begins like it
PARTS = [(5, "segment>1"), (8, "lane>1.1"), (23, "zone>2"), (26, "perimeter>2.0"), (31, "spot>2.1")]
PARTS_OF_A = [(4, "segment>1"), (6, "lane>1.1")]


def differ(line, one, other, name=ONE, other_name=OTHER, parts=PARTS):
    """What is printed of two yards whose house writings differ first in this line, and the status: the lines of both, and the last before it that opens a part, if there is one."""
    told = ["not the same yard", "house line %d of %s: %s" % (line, name, one), "house line %d of %s: %s" % (line, other_name, other)]
    told += ["last part before it: " + [part for at, part in parts if at < line][-1]] if parts[0][0] < line else []
    return "\n".join(told).replace(">", "\t"), 1


def same():
    """(label, options, one, other)"""
    return [
        ("yard A and itself", [], A, A),
        ("every option", [], HOUSE, HOUSE),
        ("dates only", [], DATED, put(DATED, 5, "creation_date>15-Mar-07")),
        ("a date, and none", [], DATED, HOUSE),
        ("none, and a date", [], HOUSE, DATED),
        ("a date before the version", [], DATED, put(put(DATED, 4, "creation_date>14-Mar-07"), 5, "format_version>1.0")),
        ("options in another order", [], HOUSE, ARRANGED),
        ("comments", [], A, put(A, 3, "num_zones>0>/* none */", "/* the only one */")),
        ("CR LF", [], text(A), text(A, "\r\n")),
        ("spaces, and blank lines", [], A, [""] + [l.replace(">", "  ") for l in A] + [" ", ">"]),
        ("no last LF", [], text(A), text(A)[:-1]),
        ("-0.000000", [], HOUSE, put(HOUSE, 29, "2.0.1>-0.000000>-0.000000")),
        ("everything at once", [], DATED, BY_HAND),
        ("everything at once, the other way round", [], BY_HAND, DATED),
        ("everything at once, in the older edition", OLDER, DATED, BY_HAND),
        ("the present edition by its year", ["--edition", "2007"], YELLOW, YELLOW),
        ("texts of 1,048,576 bytes", [], padded(HOUSE, MOST), padded(ARRANGED, MOST)),
        ("a writing of 1,048,577 bytes", [], filled_up(MOST), filled_up(MOST)),
    ]


def apart():
    """(label, one, other, the number of the first house line that differs, that line of the one, that of the other)"""
    def changed(line, *new):
        return put(HOUSE, line, *new)

    def two(line, other_line):
        """Two lines in each other's place."""
        return put(put(HOUSE, line, HOUSE[other_line - 1]), other_line, HOUSE[line - 1])

    full = filled_up(MOST)
    return [
        ("the name", HOUSE, changed(1, "RNDF_name>yard_b"), 1, HOUSE[0], "RNDF_name>yard_b"),
        ("the name is the beginning of the other", HOUSE, changed(1, "RNDF_name>yard_ab"), 1, HOUSE[0], "RNDF_name>yard_ab"),
        ("a zone more", A, ins(put(A, 3, "num_zones>1"), 14, "zone>2", "num_spots>0", "perimeter>2.0", "num_perimeterpoints>1", "2.0.1>0.000000>0.000000", "end_perimeter", "end_zone"), 3, "num_zones>0", "num_zones>1"),
        ("the version", HOUSE, changed(4, "format_version>1.1"), 4, HOUSE[3], "format_version>1.1"),
        ("no version", HOUSE, cut(HOUSE, 4), 4, HOUSE[3], "segment>1"),
        ("no version, but a date", HOUSE, changed(4, "creation_date>1.0"), 4, HOUSE[3], "segment>1"),
        ("the segment's name", HOUSE, changed(7, "segment_name>West"), 7, HOUSE[6], "segment_name>West"),
        ("a segment without a name", cut(HOUSE, 7), HOUSE, 7, "lane>1.1", HOUSE[6]),
        ("a waypoint more", A, ins(put(A, 7, "num_waypoints>3"), 12, "1.1.3>45.000200>-93.000000"), 7, "num_waypoints>2", "num_waypoints>3"),
        ("the width", HOUSE, changed(10, "lane_width>13"), 10, HOUSE[9], "lane_width>13"),
        ("the width, of texts that differ in everything else", DATED, BY_HAND.replace(b"lane_width   12", b"lane_width   13"), 10, HOUSE[9], "lane_width>13"),
        ("no width", HOUSE, cut(HOUSE, 10), 10, HOUSE[9], HOUSE[10]),
        ("a width of 0, and none", changed(10, "lane_width>0"), cut(HOUSE, 10), 10, "lane_width>0", HOUSE[10]),
        ("the left boundary", HOUSE, changed(11, "left_boundary>solid_white"), 11, HOUSE[10], "left_boundary>solid_white"),
        ("right for left", HOUSE, put(put(HOUSE, 11, "left_boundary>broken_white"), 12, "right_boundary>double_yellow"), 11, HOUSE[10], "left_boundary>broken_white"),
        ("no right boundary", HOUSE, cut(HOUSE, 12), 12, HOUSE[11], HOUSE[12]),
        ("a checkpoint's number", HOUSE, changed(13, "checkpoint>1.1.2>6"), 13, HOUSE[12], "checkpoint>1.1.2>6"),
        ("a checkpoint's waypoint", HOUSE, changed(14, "checkpoint>1.1.2>9"), 14, HOUSE[13], "checkpoint>1.1.2>9"),
        ("the order of checkpoints", HOUSE, two(13, 14), 13, HOUSE[12], HOUSE[13]),
        ("a stop less", HOUSE, cut(HOUSE, 16), 16, HOUSE[15], HOUSE[16]),
        ("a stop twice", HOUSE, ins(HOUSE, 16, HOUSE[14]), 16, HOUSE[15], HOUSE[14]),
        ("the order of stops", HOUSE, two(15, 16), 15, HOUSE[14], HOUSE[15]),
        ("an exit's entry", HOUSE, changed(18, "exit>1.1.2>1.1.2"), 18, HOUSE[17], "exit>1.1.2>1.1.2"),
        ("the order of exits", HOUSE, two(17, 18), 17, HOUSE[16], HOUSE[17]),
        ("a latitude by a millionth", HOUSE, changed(20, "1.1.2>45.000101>-93.000000"), 20, HOUSE[19], "1.1.2>45.000101>-93.000000"),
        ("the sign of a longitude", HOUSE, changed(20, "1.1.2>45.000100>93.000000"), 20, HOUSE[19], "1.1.2>45.000100>93.000000"),
        ("the zone's name", HOUSE, changed(25, "zone_name>Tor"), 25, HOUSE[24], "zone_name>Tor"),
        ("a perimeter's exit less", HOUSE, cut(HOUSE, 28), 28, HOUSE[27], HOUSE[28]),
        ("a perimeter's point", HOUSE, changed(29, "2.0.1>-0.000001>0.000000"), 29, HOUSE[28], "2.0.1>-0.000001>0.000000"),
        ("the spot's width", HOUSE, changed(32, "spot_width>10"), 32, HOUSE[31], "spot_width>10"),
        ("the spot's checkpoint", HOUSE, changed(33, "checkpoint>2.1.2>10"), 33, HOUSE[32], "checkpoint>2.1.2>10"),
        ("the spot's last point", HOUSE, changed(35, "2.1.2>0.000000>0.000001"), 35, HOUSE[34], "2.1.2>0.000000>0.000001"),
        ("the last point of 30,000", full, full.replace(b"1.1.30000\t0.000000\t0.000000", b"1.1.30000\t0.000000\t0.000001"), full.count(b"\n") - 2, "1.1.30000>0.000000>0.000000", "1.1.30000>0.000000>0.000001"),
    ]


def refused():
    """(label, options, one, other, which of them, (line, number, column, what may stand there))"""
    bad = put(A, 9, "exit>1.1.2>1.1.3")
    return [
        ("the first", [], bad, A, ONE, (9, 12, 12, "1.1.1 to 1.1.2")),
        ("the second", [], A, bad, OTHER, (9, 12, 12, "1.1.1 to 1.1.2")),
        ("both: the first is told", [], put(A, 3, "num_zones>0\\"), bad, ONE, (3, 4, 12)),
        ("4", [], A, put(A, 3, "num_zones>0\\"), OTHER, (3, 4, 12)),
        ("10", [], A, cut(A, 14), OTHER, (14, 10, 0, "end_file")),
        ("an empty text", [], b"", A, ONE, (1, 10, 0, "RNDF_name NAME")),
        ("two dates", [], A, ins(A, 4, "creation_date>a", "creation_date>b"), OTHER, (5, 6, 1, "segment 1, format_version NAME")),
        ("an MDF", [], A, M, OTHER, (1, 5, 1, "RNDF_name NAME")),
        ("solid_yellow in the older edition", OLDER, YELLOW, A, ONE, (8, 8, 16, BOUNDARIES_2006)),
        ("solid_yellow in the older edition, the second", OLDER, A, YELLOW, OTHER, (8, 8, 16, BOUNDARIES_2006)),
        ("the first of 16,777,216 bytes", [], padded(A, 16777216), A, ONE, (0, 1, 0)),
        ("the second of 16,777,216 bytes", [], A, padded(A, 16777216), OTHER, (0, 1, 0)),
    ]


def every():
    """(label, files, arguments, (standard output, status))"""
    def big(name):
        return "%s: the file is too big for this program, which takes up to 1,048,576 bytes" % name, 2

    both = {ONE: A, OTHER: A}
    cases = [("same: " + label, {ONE: one, OTHER: other}, options + [ONE, OTHER], SAME) for label, options, one, other in same()]
    for label, one, other, line, first, second in apart():
        parts = PARTS if b"num_zones\t1\n" in as_bytes(one)[:50] else PARTS_OF_A
        cases.append(("apart: " + label, {ONE: one, OTHER: other}, [ONE, OTHER], differ(line, first, second, parts=parts)))
        cases.append(("apart: " + label + ", the other way round", {ONE: other, OTHER: one}, [ONE, OTHER], differ(line, second, first, parts=parts)))
    cases += [("refused: " + label, {ONE: one, OTHER: other}, options + [ONE, OTHER], told(which, as_bytes(one if which == ONE else other), *want)) for label, options, one, other, which, want in refused()]
    return cases + [
        ("the same file twice", {ONE: DATED}, [ONE, ONE], SAME),
        ("no first file", {OTHER: A}, [ONE, OTHER], missing(ONE)),
        ("no second file", {ONE: A}, [ONE, OTHER], missing(OTHER)),
        ("neither file", {}, [ONE, OTHER], missing(ONE)),
        ("the first refused, and no second", {ONE: cut(A, 14)}, [ONE, OTHER], told(ONE, text(cut(A, 14)), 14, 10, 0, "end_file")),
        ("the first a folder", {ONE: FOLDER, OTHER: A}, [ONE, OTHER], folder(ONE)),
        ("the second a folder", {ONE: A, OTHER: FOLDER}, [ONE, OTHER], folder(OTHER)),
        ("a file that can't be read", {ONE: A}, [ONE, "/proc/self/mem"], unreadable("/proc/self/mem")),
        ("the first of 1,048,577 bytes", {ONE: padded(A, MOST + 1), OTHER: A}, [ONE, OTHER], big(ONE)),
        ("the second of 1,048,577 bytes", {ONE: A, OTHER: padded(A, MOST + 1)}, [ONE, OTHER], big(OTHER)),
        ("--help", both, ["--help"], (HELP, 2)),
        ("-h, with names behind it", both, ["-h", ONE, OTHER], (HELP, 2)),
        ("--edition 2006 --help", both, OLDER + ["--help"], (HELP, 2)),
        ("no argument", both, [], (USAGE, 2)),
        ("one name", both, [ONE], (USAGE, 2)),
        ("three names", both, [ONE, OTHER, ONE], (USAGE, 2)),
        ("another edition", both, ["--edition", "2005", ONE, OTHER], (USAGE, 2)),
        ("--edition 2006 and one name", both, OLDER + [ONE], (USAGE, 2)),
        ("a name of 4,096 bytes", both, ["./" * 2044 + ONE, OTHER], ("A file's name is over 4,095 bytes.", 2)),
        ("a second name of 4,096 bytes", both, [ONE, "./" * 2043 + OTHER], ("A file's name is over 4,095 bytes.", 2)),
        ("a name of 4,095 bytes", both, ["." + "/." * 2041 + "/" + OTHER, ONE], SAME),
        ("odd names", {"not the same yard": HOUSE, "a (1)": put(HOUSE, 10, "lane_width>13")}, ["not the same yard", "a (1)"], differ(10, HOUSE[9], "lane_width>13", "not the same yard", "a (1)")),
        ("an odd name that is missing", {ONE: A}, ["not the same yard", ONE], missing("not the same yard")),
    ]


def run(files, arguments):
    with tempfile.TemporaryDirectory() as where:
        for name, content in files.items():
            path = os.path.join(where, name)
            if content is FOLDER:
                os.mkdir(path)
            else:
                with open(path, "wb") as out:
                    out.write(as_bytes(content))
        ran = subprocess.run([RUN, "--built"] + arguments, cwd=where, stdout=subprocess.PIPE, stderr=subprocess.PIPE)
        return ran.stdout, ran.stderr, ran.returncode


def main():
    parser = argparse.ArgumentParser()
    parser.add_argument("--built", action="store_true")
    options = parser.parse_args()
    if not options.built:
        data = os.path.join(here, "..", "crates", "yard_same", "data")
        with open(os.devnull, "wb") as null:
            if subprocess.run([RUN, os.path.join(data, "old.rndf"), os.path.join(data, "new.rndf")], stdout=null).returncode != 1:
                return 1
    failed, cases = 0, every()
    for label, files, arguments, want in cases:
        want = (want[0] + "\n").encode("ascii"), b"", want[1]
        got = run(files, arguments)
        if got != want:
            failed += 1
            print("%s: %r, and not %r" % (label, (got[0][:400], got[1][:300], got[2]), (want[0][:400], want[1], want[2])))
    print("%d passed, %d failed" % (len(cases) - failed, failed))
    return 1 if failed else 0


if __name__ == "__main__":
    sys.exit(main())
