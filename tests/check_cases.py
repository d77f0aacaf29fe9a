#!/usr/bin/env python3
"""Runs the planners' program on files with one fault each, on files that it can't check and on the largest that it takes.

    python3 tests/check_cases.py           builds the program, then runs every case in a folder of its own
    python3 tests/check_cases.py --built   runs it as it was last built
    python3 tests/check_cases.py --oracle  runs nothing, and holds the oracle to the same answers
    python3 tests/check_cases.py --sentences PROGRAM   runs a caller of the library instead, on the cases that have texts: it is given [--2006] and the names, and prints the refusal in
                                           words, or `accepted` (tests/callers.sh)

Every answer is worked out by hand: file, line, number and column, and what may stand there, by crates/expected_law/specs/Telling; the reasons are those of docs/REFUSALS.md's table. The oracle (tests/oracle) is held to the
same four, and what may stand there to the oracle's judge (expecting.py): what is listed is taken there, and nothing else. Run by way of `run-check`. The last line says how many of the cases passed; the status is 0 if all did.

What is printed of a refusal (request L7), as compilers print it:
- `FILE:LINE:COLUMN: reason (NUMBER)`; without column where it is 0 (10), without line where that is 0 too (1). Behind the reason of 4 stands the byte in
  words: `a byte that is not allowed: a backslash (4)`;
- where there is a column, the line as it stands: tabs kept, other bytes outside 32 to 126 as `\\xNN` (small letters), the dropped CR left out, of a line
  over 512 bytes the first 513;
- and a caret under the column: before it a tab for each tab, a space for each other sign shown (four for `\\xNN`);
- and what may stand there, `may stand here: ..` (of 18 `without a limit: ..`), in one line; of 1 to 4 nothing.
"""
import argparse
import os
import subprocess
import sys
import tempfile

here = os.path.dirname(os.path.abspath(__file__))
sys.path.insert(0, here)
sys.path.insert(0, os.path.join(here, "oracle"))
import expecting   # noqa: E402
import oracle   # noqa: E402
import reasons   # noqa: E402
from yards import ROUND_1 as M, YARD_A as A, ins, put, text  # noqa: E402

RUN = os.path.join(here, "..", "run-check")
N, MDF = "network.rndf", "mission.mdf"
FOLDER = object()
MOST = 1048576
WORDS = reasons.of_readme()
OLDER = ["--edition", "2006"]      # request L10: before the names, the texts are read in the edition of December 6, 2006


BYTES = {0: "a NUL", 13: "a carriage return", 0x2A: "an asterisk", 0x5C: "a backslash"}


def in_words(line, at):
    """The byte that is not allowed."""
    if line[at:at + 3] == b"\xef\xbb\xbf" or line[at:at + 2] in (b"\xff\xfe", b"\xfe\xff"):
        return "a byte order mark"
    return BYTES.get(line[at], "a letter outside ASCII" if line[at] > 127 else "a control character")


def shown(line):
    """How each byte of a line is shown."""
    return [chr(b) if b == 9 or 32 <= b < 127 else "\\x%02x" % b for b in line]


def may_stand(number, words):
    """The line about what may stand there, with the line feed before it; nothing where no words are told."""
    return words and "\n%s: %s" % ("without a limit" if number == 18 else "may stand here", words)


def told(name, content, line, number, column, words=""):
    """What is printed of a refusal in the file `name` with this content, with these words about what may stand there, and the status."""
    reason, at = WORDS[number], "".join(":%d" % n for n in (line, column) if n)
    if not column:
        return "%s%s: %s (%d)%s" % (name, at, reason, number, may_stand(number, words)), 1
    whole = content.split(b"\n")[line - 1]
    whole = whole[:-1] if whole.endswith(b"\r") else whole
    if number == 4:
        reason += ": " + in_words(whole, column - 1)
    signs = shown(whole[:513])
    under = "".join("\t" if sign == "\t" else " " * len(sign) for sign in signs[:column - 1])
    return "%s%s: %s (%d)\n%s\n%s^%s" % (name, at, reason, number, "".join(signs), under, may_stand(number, words)), 1


def parted(printed):
    """What is printed of a refusal: the sentence with the line and the caret, and what may stand there."""
    before, _, last = printed.rpartition("\n")
    return (before, last) if last.startswith(("may stand here: ", "without a limit: ")) else (printed, "")


def is_refusal(want):
    return want[0] in (N, MDF)


def counts(segments, zones, lanes, points, spots, checkpoints, stops, exits, goals=None, limits=None):
    named = [(segments, "segment"), (zones, "zone"), (lanes, "lane"), (points, "point"), (spots, "spot"), (checkpoints, "checkpoint"),
             (stops, "stop"), (exits, "exit")] + ([] if goals is None else [(goals, "goal"), (limits, "speed limit")])
    return ", ".join("%d %s%s" % (n, word, "" if n == 1 else "s") for n, word in named)


def accepted(*n):
    return "%s: accepted; %s" % (N if len(n) == 8 else "%s with %s" % (N, MDF), counts(*n)), 0


def missing(name):
    return "%s: there is no such file" % name, 2


def folder(name):
    return "%s: this is a folder, not a file" % name, 2


def unreadable(name):
    return "%s: the file can't be read" % name, 2


def swapped(name):
    return "%s: this is an MDF; name the RNDF first, and the MDF behind it" % name, 2


def too_big(name):
    return "%s: the file is too big for this check, which takes up to 1,048,576 bytes" % name, 2


def padded(lines, size):
    """A text of that size: blank lines behind the others."""
    whole = text(lines)
    whole += (b"\t" * 399 + b"\n") * ((size - len(whole)) // 400)
    return whole + (b"\t" * (size - len(whole)))


# yard A with a zone of one spot
Z = put(put(A, 3, "num_zones>1"), 14, "zone>2", "num_spots>1", "perimeter>2.0", "num_perimeterpoints>1", "2.0.1>0.000000>0.000000", "end_perimeter", "spot>2.1", "checkpoint>2.1.2>8",
        "2.1.1>0.000000>0.000000", "2.1.2>0.000000>0.000000", "end_spot", "end_zone", "end_file")


SECOND = ["segment>2", "num_lanes>1", "lane>2.1", "num_waypoints>1", "2.1.1>0.000000>0.000000", "end_lane", "end_segment"]

# what may stand: the words that come more than once
COUNTED = "a number from 1 to 32768"
UNDECLARED = "a number from 1 to 32768 that no line before declares"
LATITUDES = "a latitude from -90.000000 to 90.000000, six digits behind the point"
LONGITUDES = "a longitude from -180.000000 to 180.000000, six digits behind the point"
ENTRIES = "X.Y.Z with X from 1 to 32768, Y from 0 to 32768, Z from 1 to 32768"
LANE_ENTRIES = "X.Y.Z with X from 1 to 32768, Y from 1 to 32768, Z from 1 to 32768"
NAMES = "a name of 1 to 128 bytes"
BOUNDARIES_2006 = "double_yellow, solid_white, broken_white"
BARE = "checkpoint 2.1.2 NUMBER, spot_width NUMBER"
ALL_LIMITED = "nothing, for every segment and zone has its limit"
ENDED = "nothing but blank lines and comments, for the file has ended"


def one_refusal_each():
    """(label, RNDF, MDF, answer) for each number that the program can give: 11 never comes of it (see `largest`), and 19 is a writer's. The answer of a
    refusal is file, line, number, column and what may stand there, of which nothing is told where it is missing."""
    two = ins(put(A, 2, "num_segments>2"), 14, *SECOND)
    return [
        ("1", padded(A, 16777216), None, (N, 0, 1, 0)),
        ("1 before anything about the MDF", padded(A, 16777216), b"", (N, 0, 1, 0)),
        ("2", put(A, 13, "end_segment/*" + "c" * 498 + "*/"), M, (N, 13, 2, 513)),
        ("2, a long line", put(A, 13, "end_segment/*" + "\xe9" * 9000 + "*/"), M, (N, 13, 2, 513)),
        ("3", put(A, 3, "num_zones>0/* none"), M, (N, 3, 3, 12)),
        ("3, behind a byte that is not allowed", put(A, 3, ">\x00num_zones>0/* none"), M, (N, 3, 3, 14)),
        ("4", put(A, 3, "num_zones>0\\"), M, (N, 3, 4, 12)),
        ("4, an asterisk", put(A, 3, " num_zones>0>*"), M, (N, 3, 4, 14)),
        ("4, in a comment", put(A, 3, "num_zones>0>/* \x01\xe9 */"), M, (N, 3, 4, 16)),
        ("4, two carriage returns", put(A, 3, "num_zones>0\r\r"), M, (N, 3, 4, 12)),
        ("4, a NUL", put(A, 3, "num_zones>\x00"), M, (N, 3, 4, 11)),
        ("4, a letter", put(A, 1, "RNDF_name>caf\xe9"), M, (N, 1, 4, 14)),
        ("4, a byte order mark", b"\xef\xbb\xbf" + text(A), M, (N, 1, 4, 1)),
        ("4, UTF-16", b"\xff\xfe" + "".join(l.replace(">", "\t") + "\n" for l in A).encode("utf-16-le"), M, (N, 1, 4, 1)),
        ("4, in the MDF", A, put(M, 9, "1>0>15\x7f"), (MDF, 9, 4, 7)),
        ("spaces for tabs", [l.replace(">", "  ") for l in A], [l.replace(">", " ") for l in M], accepted(1, 0, 1, 2, 0, 1, 0, 1, 1, 1)),
        ("5", put(A, 7, "num_waypoints>3"), M, (N, 12, 5, 1, "1.1.3 LATITUDE LONGITUDE (1 such line is still owed)")),
        ("5 behind tabs", put(A, 12, ">> end_zone"), M, (N, 12, 5, 4, "end_lane")),
        ("6", ins(A, 6, "segment_name>a", "segment_name>b"), M, (N, 7, 6, 1, "lane 1.1")),
        ("7", put(A, 10, "1.1.1>45.000000"), M, (N, 10, 7, 1, "1.1.1 LATITUDE LONGITUDE (3 fields)")),
        ("8", put(A, 10, "1.1.1>45.00>-93.000000"), M, (N, 10, 8, 7, LATITUDES)),
        ("8 with CR LF", text(put(A, 10, "1.1.1>>45.000000>x /* here */"), "\r\n"), M, (N, 10, 8, 18, LONGITUDES)),
        ("9", put(A, 7, "num_waypoints>1"), M, (N, 8, 9, 12, "1.1.1")),
        ("9, which end of the exit", put(A, 9, "exit>1.1.3>1.1.1"), M, (N, 9, 9, 6, "1.1.1 to 1.1.2")),
        ("9, the other end", put(A, 9, "exit>1.1.2>0.1.1"), M, (N, 9, 9, 12, ENTRIES)),
        ("9, the maximum", A, put(M, 9, "1>10>5"), (MDF, 9, 9, 6, "0, or a number from 10 to 32768")),
        ("10", A[:-1], M, (N, 14, 10, 0, "end_file")),
        ("12", put(A, 9, "exit>1.1.2>1.1.3"), M, (N, 9, 12, 12, "1.1.1 to 1.1.2")),
        ("13", ins(A, 9, A[7]), M, (N, 9, 13, 18, UNDECLARED)),
        ("14", A, put(M, 2, "RNDF>yard_b"), (MDF, 2, 14, 6, "yard_a")),
        ("15", A, put(M, 5, "8"), (MDF, 5, 15, 1, "a checkpoint of the RNDF: 7")),
        ("16", A, put(M, 9, "2>0>15"), (MDF, 9, 16, 1, "an id that has no limit yet: 1")),
        ("17", A, put(put(M, 8, "num_speed_limits>2"), 9, "1>0>15", " 1>0>15"), (MDF, 10, 17, 2, ALL_LIMITED)),
        ("18", two, put(M, 10, ">end_speed_limits"), (MDF, 10, 18, 2, "2")),
        ("12 of an RNDF alone", put(A, 9, "exit>1.1.2>1.1.3"), None, (N, 9, 12, 12, "1.1.1 to 1.1.2")),
        ("empty RNDF", b"", M, (N, 1, 10, 0, "RNDF_name NAME")),
        ("empty MDF", A, b"", (MDF, 1, 10, 0, "MDF_name NAME")),
        ("25", put(Z, 21), M, (N, 21, 25, 1, BARE)),
        ("25 behind a tab", put(put(Z, 21), 21, ">2.1.1>0.000000>0.000000"), None, (N, 21, 25, 2, BARE)),
        ("9, a spot's checkpoint on waypoint 1", put(Z, 21, "checkpoint>2.1.1>8"), None, (N, 21, 9, 12, "2.1.2")),
        ("a spot with its checkpoint", Z, None, accepted(1, 1, 1, 5, 1, 2, 0, 1)),
        ("RNDF accepted alone", A, None, accepted(1, 0, 1, 2, 0, 1, 0, 1)),
        ("pair accepted", A, M, accepted(1, 0, 1, 2, 0, 1, 0, 1, 1, 1)),
    ]


def older():
    """The same in the edition of December 6, 2006 (request L10): 8 for solid_yellow, 9 for 0 spots, all else as now."""
    yellow = ins(A, 8, "right_boundary>solid_yellow")
    empty = Z[:14] + ["num_spots>0"] + Z[15:19] + Z[24:]
    return [
        ("2006: yard A", A, None, accepted(1, 0, 1, 2, 0, 1, 0, 1)),
        ("2006: yard A as a pair", A, M, accepted(1, 0, 1, 2, 0, 1, 0, 1, 1, 1)),
        ("2006: a spot with its checkpoint", Z, None, accepted(1, 1, 1, 5, 1, 2, 0, 1)),
        ("2006: solid_yellow", yellow, M, (N, 8, 8, 16, BOUNDARIES_2006)),
        ("2006: 0 spots", empty, None, (N, 15, 9, 11, COUNTED)),
        ("2006: 25", put(Z, 21), None, (N, 21, 25, 1, BARE)),
        ("2006: a fault of the MDF", A, put(M, 5, "8"), (MDF, 5, 15, 1, "a checkpoint of the RNDF: 7")),
    ], [
        ("2007: solid_yellow", yellow, M, accepted(1, 0, 1, 2, 0, 1, 0, 1, 1, 1)),
        ("2007: 0 spots", empty, None, accepted(1, 1, 1, 3, 0, 1, 0, 1)),
    ]


def segments(count, lanes=1, checkpoints=""):
    """A yard of so many segments, each with so many lanes of one waypoint; on the first lane's these checkpoints."""
    lines = ["RNDF_name>s", "num_segments>%d" % count, "num_zones>0"]
    for m in range(1, count + 1):
        lines += ["segment>%d" % m, "num_lanes>%d" % lanes]
        for n in range(1, lanes + 1):
            marked = ["checkpoint>1.1.1>" + number for number in checkpoints.split()] if (m, n) == (1, 1) else []
            lines += ["lane>%d.%d" % (m, n), "num_waypoints>1", *marked, "%d.%d.1>0.000000>0.000000" % (m, n), "end_lane"]
        lines.append("end_segment")
    return lines + ["end_file"]


def mission(goals, limits, name="s"):
    return ["MDF_name>m", "RNDF>" + name, "checkpoints", "num_checkpoints>%d" % len(goals.split()), *goals.split(), "end_checkpoints", "speed_limits", "num_speed_limits>%d" % len(limits.split()),
            *("%s>0>0" % limit for limit in limits.split()), "end_speed_limits", "end_file"]


def at_each_place():
    """What may stand (5) in place of each line of yard A with a zone and of round 1, and behind them, by document 01's table of statements; and where options were given."""
    of_lane = "1.1.1 LATITUDE LONGITUDE, lane_width NUMBER, left_boundary BOUNDARY, right_boundary BOUNDARY, checkpoint POINT NUMBER, stop POINT, exit POINT ENTRY"
    rndf = ["RNDF_name NAME", "num_segments NUMBER", "num_zones NUMBER", "segment 1, format_version NAME, creation_date NAME", "num_lanes NUMBER", "lane 1.1, segment_name NAME", "num_waypoints NUMBER",
            of_lane, of_lane, of_lane, "1.1.2 LATITUDE LONGITUDE (1 such line is still owed)", "end_lane", "end_segment",
            "zone 2", "num_spots NUMBER", "perimeter 2.0, zone_name NAME", "num_perimeterpoints NUMBER", "2.0.1 LATITUDE LONGITUDE, exit 2.0.1 ENTRY", "end_perimeter",
            "spot 2.1", BARE, "2.1.1 LATITUDE LONGITUDE, spot_width NUMBER", "2.1.2 LATITUDE LONGITUDE (1 such line is still owed)", "end_spot", "end_zone", "end_file", ENDED]
    mdf = ["MDF_name NAME", "RNDF NAME", "checkpoints, format_version NAME, creation_date NAME", "num_checkpoints NUMBER", "NUMBER (1 such line is still owed)", "end_checkpoints", "speed_limits",
           "num_speed_limits NUMBER", "ID MINIMUM MAXIMUM (1 such line is still owed)", "end_speed_limits", "end_file", ENDED]
    wide = ins(Z, 22, "spot_width>9")
    file = ins(A, 4, "creation_date>d")
    lane = ins(A, 8, "left_boundary>broken_white", "lane_width>0", "right_boundary>solid_white")
    more = put(put(A, 7, "num_waypoints>4"), 10, "1.1.1>0.000000>0.000000")
    return [("5 at line %d" % k, Z[:k - 1] + ["x"] + Z[k:], None, (N, k, 5, 1, words)) for k, words in enumerate(rndf, 1)] + \
           [("5 at line %d of the MDF" % k, A, M[:k - 1] + ["x"] + M[k:], (MDF, k, 5, 1, words)) for k, words in enumerate(mdf, 1)] + [
        ("5 behind a spot's two options", put(wide, 23, "x"), None, (N, 23, 5, 1, "2.1.1 LATITUDE LONGITUDE (2 such lines are still owed)")),
        ("6 behind a spot's checkpoint", put(Z, 22, Z[20]), None, (N, 22, 6, 1, "2.1.1 LATITUDE LONGITUDE, spot_width NUMBER")),
        ("5 behind a date", put(file, 5, "x"), None, (N, 5, 5, 1, "segment 1, format_version NAME")),
        ("6 behind a date", ins(file, 5, "creation_date>e"), None, (N, 5, 6, 1, "segment 1, format_version NAME")),
        ("5 behind all single options of a lane", put(lane, 11, "x"), None, (N, 11, 5, 1, "1.1.1 LATITUDE LONGITUDE, checkpoint POINT NUMBER, stop POINT, exit POINT ENTRY")),
        ("5, a lane of one waypoint", put(segments(1), 8, "x"), None, (N, 8, 5, 1, of_lane.replace("POINT", "1.1.1"))),
        ("5, three waypoints missing", put(more, 11, "end_lane"), None, (N, 11, 5, 1, "1.1.2 LATITUDE LONGITUDE (3 such lines are still owed)")),
        ("5, a segment too few", put(segments(2), 11, "end_file"), None, (N, 11, 5, 1, "segment 2")),
        ("5, a lane too few", put(segments(1, 2), 10, "end_segment"), None, (N, 10, 5, 1, "lane 1.2")),
        ("5, an MDF's goal too few", A, put(put(M, 4, "num_checkpoints>3"), 6, "7", "end_checkpoints"), (MDF, 7, 5, 1, "NUMBER (1 such line is still owed)")),
        ("5, no limit", A, put(put(M, 8, "num_speed_limits>12"), 9, "end_speed_limits"), (MDF, 9, 5, 1, "ID MINIMUM MAXIMUM (12 such lines are still owed)")),
        ("10 behind two goals of three", A, put(M[:4], 4, "num_checkpoints>3") + ["7", "7"], (MDF, 7, 10, 0, "NUMBER (1 such line is still owed)")),
        ("10 in a lane", A[:8], None, (N, 9, 10, 0, of_lane)),
        ("10 in a spot without its checkpoint", Z[:20], None, (N, 21, 10, 0, BARE)),
    ]


def of_one_line():
    """What may stand in place of a line's fields (7) or of one of them (8, 9)."""
    exit_alone = ins(put(Z, 17, "num_perimeterpoints>1"), 18, "exit>2.0.1>2.0.1")
    return [
        ("7, no field behind a keyword", put(A, 1, "RNDF_name"), None, (N, 1, 7, 1, "RNDF_name NAME (2 fields)")),
        ("7, a field too many", put(A, 12, "end_lane>1.1"), None, (N, 12, 7, 1, "end_lane (1 field)")),
        ("7, an option", put(A, 9, "exit>1.1.2"), None, (N, 9, 7, 1, "exit POINT ENTRY (3 fields)")),
        ("7, a due part", put(A, 6, "lane>1>1"), None, (N, 6, 7, 1, "lane 1.1 (2 fields)")),
        ("7, a spot's first waypoint", put(Z, 21, "2.1.1>0.000000"), None, (N, 21, 7, 1, "2.1.1 LATITUDE LONGITUDE (3 fields)")),
        ("7, a goal", A, put(M, 5, "7>8"), (MDF, 5, 7, 1, "NUMBER (1 field)")),
        ("7, a limit", A, put(M, 9, "1>15"), (MDF, 9, 7, 1, "ID MINIMUM MAXIMUM (3 fields)")),
        ("8, a name of 129 bytes", put(A, 1, "RNDF_name>" + "n" * 129), None, (N, 1, 8, 11, NAMES)),
        ("8, a count", put(A, 5, "num_lanes>one"), None, (N, 5, 8, 11, COUNTED)),
        ("8, a due segment", put(A, 4, "segment>one"), None, (N, 4, 8, 9, "1")),
        ("8, a due lane", put(A, 6, "lane>1"), None, (N, 6, 8, 6, "1.1")),
        ("8, a boundary", put(A, 8, "left_boundary>yellow"), None, (N, 8, 8, 15, "double_yellow, solid_yellow, solid_white, broken_white")),
        ("8, a point by its first field", put(A, 11, "1.1>45.000100>-93.000000"), None, (N, 11, 8, 1, "1.1.2")),
        ("8, an entry behind a waypoint of another lane", put(A, 9, "exit>1.2.2>1.1"), None, (N, 9, 8, 12, ENTRIES)),
        ("8, a goal", A, put(M, 5, "7x"), (MDF, 5, 8, 1, COUNTED)),
        ("8, a maximum", A, put(M, 9, "1>10>x"), (MDF, 9, 8, 6, "0, or a number from 10 to 32768")),
        ("8, a maximum behind no minimum", A, put(M, 9, "1>0>x"), (MDF, 9, 8, 5, "0, or a number from 0 to 32768")),
        ("8, a maximum behind the largest minimum", A, put(M, 9, "1>32768>x"), (MDF, 9, 8, 9, "0, or a number from 32768 to 32768")),
        ("8, a maximum behind a minimum that is not permitted", A, put(M, 9, "1>40000>x"), (MDF, 9, 8, 9, "a number from 0 to 32768")),
        ("9, no segment", put(A, 2, "num_segments>0"), None, (N, 2, 9, 14, COUNTED)),
        ("9, zones beside a segment", put(A, 3, "num_zones>32768"), None, (N, 3, 9, 11, "a number from 0 to 32767")),
        ("9, a due segment", put(A, 4, "segment>2"), None, (N, 4, 9, 9, "1")),
        ("9, a due lane", put(A, 6, "lane>1.2"), None, (N, 6, 9, 6, "1.1")),
        ("9, a due zone", put(Z, 14, "zone>1"), None, (N, 14, 9, 6, "2")),
        ("9, a due perimeter", put(Z, 16, "perimeter>2.1"), None, (N, 16, 9, 11, "2.0")),
        ("9, a lane's width", put(A, 8, "lane_width>32769"), None, (N, 8, 9, 12, "a number from 0 to 32768")),
        ("9, a spot's width", put(Z, 21, "spot_width>0"), None, (N, 21, 9, 12, COUNTED)),
        ("9, spots", put(Z, 15, "num_spots>32769"), None, (N, 15, 9, 11, "a number from 0 to 32768")),
        ("9, a checkpoint's number", put(A, 8, "checkpoint>1.1.2>0"), None, (N, 8, 9, 18, COUNTED)),
        ("9, a point that is due later", put(A, 10, A[10]), None, (N, 10, 9, 1, "1.1.1")),
        ("9, a latitude", put(A, 10, "1.1.1>90.000001>0.000000"), None, (N, 10, 9, 7, LATITUDES)),
        ("9, a longitude", put(A, 10, "1.1.1>90.000000>-180.000001"), None, (N, 10, 9, 17, LONGITUDES)),
        ("9, from a perimeter to a perimeter", exit_alone, None, (N, 18, 9, 12, LANE_ENTRIES)),
        ("9, a goal", A, put(M, 5, "32769"), (MDF, 5, 9, 1, COUNTED)),
        ("9, a limit's id", A, put(M, 9, "0>0>0"), (MDF, 9, 9, 1, COUNTED)),
        ("9, a minimum", A, put(M, 9, "1>32769>0"), (MDF, 9, 9, 3, "a number from 0 to 32768")),
    ]


def of_references():
    """What may stand where a reference is at fault (12 to 18): lists cut after six, and where there is nothing."""
    six, seven, eight = segments(2, 3, "1 2 3 4 5 6"), segments(7, 1, "9 8 7 6 5 4 3"), segments(2, 4, "1 2 3 4 5 6 7 8")
    to = lambda yard: ins(yard, 8, "exit>1.1.1>9.9.9")
    lanes = lambda m, n: ", ".join("%d.%d.1" % (i, j) for i in range(1, m + 1) for j in range(1, n + 1))
    from_zone = ins(Z, 18, "exit>2.0.1>1.1.3")
    named = [put(A, 1, "RNDF_name>" + name) for name in ("exit", "exits", "n" * 128)]
    return [
        ("12, six parts", to(six), None, (N, 8, 12, 12, lanes(2, 3))),
        ("12, seven parts", to(seven), None, (N, 8, 12, 12, lanes(6, 1) + " and 1 more")),
        ("12, eight parts", to(eight), None, (N, 8, 12, 12, "1.1.1, 1.2.1, 1.3.1, 1.4.1, 2.1.1, 2.2.1 and 2 more")),
        ("12, from a lane", put(Z, 9, "exit>1.1.2>2.1.1"), None, (N, 9, 12, 12, "1.1.1 to 1.1.2, 2.0.1")),
        ("12, from a perimeter", from_zone, None, (N, 18, 12, 12, "1.1.1 to 1.1.2")),
        ("13, a spot's", put(Z, 21, "checkpoint>2.1.2>7"), None, (N, 21, 13, 18, UNDECLARED)),
        ("14, a name that ends as an acceptance does", named[0], M, (MDF, 2, 14, 6, "exit")),
        ("14, another", named[1], M, (MDF, 2, 14, 6, "exits")),
        ("14, a name of 128 bytes", named[2], M, (MDF, 2, 14, 6, "n" * 128)),
        ("15, no checkpoint", segments(1), mission("7", "1"), (MDF, 5, 15, 1, "nothing, for the RNDF has no checkpoint")),
        ("15, six checkpoints", six, mission("7", "1 2"), (MDF, 5, 15, 1, "a checkpoint of the RNDF: 1, 2, 3, 4, 5, 6")),
        ("15, seven checkpoints, in file order", seven, mission("9 1", "1 2 3 4 5 6 7"), (MDF, 6, 15, 1, "a checkpoint of the RNDF: 9, 8, 7, 6, 5, 4 and 1 more")),
        ("16, seven ids", seven, mission("9", "8"), (MDF, 9, 16, 1, "an id that has no limit yet: 1, 2, 3, 4, 5, 6 and 1 more")),
        ("16, six ids", seven, mission("9", "3 8"), (MDF, 10, 16, 1, "an id that has no limit yet: 1, 2, 4, 5, 6, 7")),
        ("17, one id left", seven, mission("9", "7 6 5 4 3 1 7 2"), (MDF, 15, 17, 1, "an id that has no limit yet: 2")),
        ("18, all but one", seven, mission("9", "4"), (MDF, 10, 18, 1, "1, 2, 3, 5, 6, 7")),
        ("18, ten of eleven", segments(11, 1, "9"), mission("9", "11"), (MDF, 10, 18, 1, "1, 2, 3, 4, 5, 6 and 4 more")),
    ]


def as_printed():
    """Some answers to the letter."""
    return [
        ("12, as printed", put(A, 9, ">exit  1.1.2>1.1.3"), M, "network.rndf:9:14: the entry is no declared lane waypoint or perimeter point (12)\n"
                                                              "\texit  1.1.2\t1.1.3\n\t           \t^\nmay stand here: 1.1.1 to 1.1.2"),
        ("4, as printed", b"\xef\xbb\xbf" + text(A), M, "network.rndf:1:1: a byte that is not allowed: a byte order mark (4)\n\\xef\\xbb\\xbfRNDF_name\tyard_a\n^"),
        ("3, as printed", put(A, 14, "\x00\x80/* end_file\r"), None, "network.rndf:14:3: the comment is not closed, or something other than tabs and spaces follows it (3)\n"
                                                                      "\\x00\\x80/* end_file\n        ^"),
        ("10, as printed", A[:-1], None, "network.rndf:14: the text ends before `end_file` (10)\nmay stand here: end_file"),
        ("18, as printed", put(put(A, 2, "num_segments>2"), 14, *SECOND, "end_file"), M, "mission.mdf:10:1: some segment or zone has no limit (18)\nend_speed_limits\n^\nwithout a limit: 2"),
    ]


def not_checked():
    """(label, {name: content}, arguments, answer); what is wrong with the RNDF is told before anything about the MDF."""
    big = padded(A, MOST + 1)
    none = "Name an RNDF file, and behind it an MDF file if both are to be checked: run-check [--edition 2006] RNDF [MDF]"
    many = "Too many names: one RNDF file and at most one MDF file can be checked."
    bad = told(N, b"x", 1, 5, 1, "RNDF_name NAME")
    usage = (none + "\n"
             "With --edition 2006 the RNDF is read by the edition of December 6, 2006; without, or with --edition 2007, by the present one.\n"
             "The answer is what is wrong first, as FILE:LINE:COLUMN: reason (NUMBER), that line with a caret under the column, and what may stand there; or what the files hold.\n"
             "A file may have up to 1,048,576 bytes. The status is 0 accepted, 1 refused, 2 not checked.")
    return [
        ("--help", {N: A}, ["--help"], (usage, 2)),
        ("-h, with a name behind it", {N: A}, ["-h", N], (usage, 2)),
        ("no argument", {N: A, MDF: M}, [], (none, 2)),
        ("three arguments", {N: A, MDF: M}, [N, MDF, N], (many, 2)),
        ("--edition and nothing behind it", {N: A}, OLDER[:1], (none, 2)),
        ("--edition 2006 and no name", {N: A}, OLDER, (none, 2)),
        ("--edition 2006 and three names", {N: A, MDF: M}, OLDER + [N, MDF, N], (many, 2)),
        ("--edition 2006 --help", {N: A}, OLDER + ["--help"], (usage, 2)),
        ("--edition 2006 behind a name", {N: A}, [N] + OLDER, (many, 2)),
        ("--edition 2006, no such RNDF", {MDF: M}, OLDER + [N, MDF], missing(N)),
        ("--edition 2006, the two swapped", {N: A, MDF: M}, OLDER + [MDF, N], swapped(MDF)),
        ("--edition 2006, too long an RNDF", {N: padded(A, 16777216)}, OLDER + [N], told(N, b"", 0, 1, 0)),
        ("another edition", {N: A}, OLDER[:1] + ["2005", N], (none, 2)),
        ("an edition that begins as one", {N: A}, OLDER[:1] + ["2006" + "0" * 16, N], (none, 2)),
        ("a name where the edition stands", {N: A}, OLDER[:1] + [N], (none, 2)),
        ("the present edition by its year", {N: ins(A, 8, "right_boundary>solid_yellow")}, OLDER[:1] + ["2007", N], accepted(1, 0, 1, 2, 0, 1, 0, 1)),
        ("no such RNDF", {MDF: M}, [N, MDF], missing(N)),
        ("no such MDF", {N: A}, [N, MDF], missing(MDF)),
        ("bad RNDF, no such MDF", {N: b"x"}, [N, MDF], bad),
        ("bad RNDF, the MDF is a folder", {N: b"x", MDF: FOLDER}, [N, MDF], bad),
        ("bad RNDF, MDF of 1,048,577 bytes", {N: b"x", MDF: padded(M, MOST + 1)}, [N, MDF], bad),
        ("the RNDF is a folder", {N: FOLDER}, [N], folder(N)),
        ("the MDF is a folder", {N: A, MDF: FOLDER}, [N, MDF], folder(MDF)),
        ("empty name", {N: A}, [""], missing("")),
        ("a name below a file", {N: A}, [N + "/" + MDF], missing(N + "/" + MDF)),
        ("an RNDF that opens and can't be read", {}, ["/proc/self/mem"], unreadable("/proc/self/mem")),
        ("an MDF that opens and can't be read", {N: A}, [N, "/proc/self/mem"], unreadable("/proc/self/mem")),
        ("bad RNDF, unreadable MDF", {N: b"x"}, [N, "/proc/self/mem"], bad),
        ("too long an RNDF, no such MDF", {N: padded(A, 16777216)}, [N, MDF], told(N, b"", 0, 1, 0)),
        ("name of 4,096 bytes", {N: A}, ["./" * 2042 + N], ("The RNDF file's name is over 4,095 bytes.", 2)),
        ("the two swapped", {N: A, MDF: M}, [MDF, N], swapped(MDF)),
        ("an MDF alone", {MDF: ["", " /* a mission */"] + M}, [MDF], swapped(MDF)),
        ("an MDF alone, with CR LF", {MDF: text(["", "/* a mission */"] + M, "\r\n")}, [MDF], swapped(MDF)),
        ("swapped, no such RNDF", {MDF: M}, [MDF, N], swapped(MDF)),
        ("an MDF's first word behind an RNDF's", {N: put(A, 2, "MDF_name>m")}, [N], told(N, text(put(A, 2, "MDF_name>m")), 2, 5, 1, "num_segments NUMBER")),
        ("a word that begins as an MDF's", {N: put(A, 1, "MDF_names>m")}, [N], told(N, text(put(A, 1, "MDF_names>m")), 1, 5, 1, "RNDF_name NAME")),
        ("a name that begins as the last line of an answer does", {}, ["may stand here: a"], missing("may stand here: a")),
        ("a name that ends as an answer does", {"a (1)^": A}, ["a (1)^"], (accepted(1, 0, 1, 2, 0, 1, 0, 1)[0].replace(N, "a (1)^"), 0)),
        ("RNDF of 1,048,577 bytes", {N: big}, [N], too_big(N)),
        ("MDF of 1,048,577 bytes", {N: A, MDF: padded(M, MOST + 1)}, [N, MDF], too_big(MDF)),
        ("MDF of 16,777,216 bytes", {N: A, MDF: padded(M, 16777216)}, [N, MDF], too_big(MDF)),
        ("RNDF of 16,777,215 bytes", {N: padded(A, 16777215)}, [N], too_big(N)),
        ("another name and folder", {"yard/a b.txt": A}, ["yard/a b.txt"], (accepted(1, 0, 1, 2, 0, 1, 0, 1)[0].replace(N, "yard/a b.txt"), 0)),
    ]


def most(lines, row):
    """As many rows as a text of 1,048,576 bytes with these lines has room for: their number, and their lines. `row` makes the i-th."""
    left = MOST - len(text(lines))
    count, rows = 0, []
    while left >= (size := len(text(row(count + 1)))):
        rows += row(count + 1)
        count, left = count + 1, left - size
    return count, rows


def largest():
    """Texts of up to 1,048,576 bytes with as many rows of one kind as there is room for: no table is too short."""
    in_lane = lambda row: most(A, lambda i: [row])
    stops, stop_lines = in_lane("stop>1.1.1")
    exits, exit_lines = in_lane("exit>1.1.1>1.1.1")
    _, checkpoint_lines = in_lane("checkpoint>1.1.1>7")
    point = lambda p: p + ">0.000000>0.000000"
    yard = lambda segments, zones, *parts: ["RNDF_name>y", "num_segments>%d" % segments, "num_zones>%d" % zones] + sum(parts, []) + ["end_file"]
    lane = lambda m, n, points: ["lane>%d.%d" % (m, n), "num_waypoints>%d" % points] + [point("%d.%d.%d" % (m, n, i + 1)) for i in range(points)] + ["end_lane"]
    segment = lambda m, lanes, lines: ["segment>%d" % m, "num_lanes>%d" % lanes] + lines + ["end_segment"]
    zone = lambda m, spots, lines: ["zone>%d" % m, "num_spots>%d" % spots, "perimeter>%d.0" % m, "num_perimeterpoints>1", point("%d.0.1" % m),
                                    "end_perimeter"] + lines + ["end_zone"]
    one = segment(1, 1, lane(1, 1, 1))
    points = min(32768, most(yard(1, 0, segment(1, 1, lane(1, 1, 0))), lambda i: [point("1.1.%d" % i)])[0])
    lanes, lane_lines = most(yard(1, 0, segment(1, 32768, [])), lambda i: lane(1, i, 1))
    segments, segment_lines = most(yard(32768, 0), lambda i: segment(i, 1, lane(i, 1, 1)))
    zones, zone_lines = most(yard(1, 32767, one), lambda i: zone(i + 1, 0, []))
    spots, spot_lines = most(yard(1, 1, one, zone(2, 32768, [])), lambda i: ["spot>2.%d" % i, "checkpoint>2.%d.2>%d" % (i, i), point("2.%d.1" % i), point("2.%d.2" % i), "end_spot"])
    goals = put(put(M, 4, "num_checkpoints>32768"), 5, *["7"] * 32768)
    limits = put(put(M, 8, "num_speed_limits>32768"), 9, *["1>0>0"] * 32768)
    return [
        ("RNDF of 1,048,576 bytes", padded(A, MOST), None, accepted(1, 0, 1, 2, 0, 1, 0, 1)),
        ("both of 1,048,576 bytes", padded(A, MOST), padded(M, MOST), accepted(1, 0, 1, 2, 0, 1, 0, 1, 1, 1)),
        ("stops", ins(A, 9, *stop_lines), None, accepted(1, 0, 1, 2, 0, 1, stops, 1)),
        ("exits", ins(A, 9, *exit_lines), None, accepted(1, 0, 1, 2, 0, 1, 0, exits + 1)),
        ("checkpoints", ins(A, 9, *checkpoint_lines), None, (N, 9, 13, 18, UNDECLARED)),
        ("points", yard(1, 0, segment(1, 1, lane(1, 1, points))), None, accepted(1, 0, 1, points, 0, 0, 0, 0)),
        ("lanes", yard(1, 0, segment(1, lanes, lane_lines)), None, accepted(1, 0, lanes, lanes, 0, 0, 0, 0)),
        ("segments", yard(segments, 0, segment_lines), None, accepted(segments, 0, segments, segments, 0, 0, 0, 0)),
        ("zones", yard(1, zones, one, zone_lines), None, accepted(1, zones, 1, zones + 1, 0, 0, 0, 0)),
        ("spots", yard(1, 1, one, zone(2, spots, spot_lines)), None, accepted(1, 1, 1, 2 + 2 * spots, spots, spots, 0, 0)),
        ("32,768 goals", A, goals, accepted(1, 0, 1, 2, 0, 1, 0, 1, 32768, 1)),
        ("32,768 limits", A, limits, (MDF, 10, 17, 1, ALL_LIMITED)),
    ]


def as_bytes(t):
    return t if t in (None, FOLDER) or isinstance(t, bytes) else text(t)


def run(files, arguments):
    with tempfile.TemporaryDirectory() as folder:
        for name, content in files.items():
            path = os.path.join(folder, name)
            os.makedirs(os.path.dirname(path), exist_ok=True)
            if content is FOLDER:
                os.mkdir(path)
            else:
                with open(path, "wb") as out:
                    out.write(as_bytes(content))
        ran = subprocess.run([RUN, "--built"] + arguments, cwd=folder, stdout=subprocess.PIPE)
        return ran.stdout.decode("ascii", "replace"), ran.returncode


def by_caller(program, files, older):
    with tempfile.TemporaryDirectory() as folder:
        for name, content in files.items():
            with open(os.path.join(folder, name), "wb") as out:
                out.write(content)
        return subprocess.run([program] + ["--2006"] * older + list(files), cwd=folder, stdout=subprocess.PIPE).stdout.decode("ascii", "replace")


def by_oracle(rndf, mdf, edition):
    """The oracle's reply in the program's words, with the tables that the program has."""
    room = {"segments": 4 * (MOST // 92 + 1), "lanes": 5 * (MOST // 58 + 1), "zones": 6 * (MOST // 102 + 1), "spots": 2 * (MOST // 66 + 1),
            "points": 2 * (MOST // 24 + 1), "checkpoints": 2 * (MOST // 19 + 1), "stops": MOST // 11 + 1, "exits": 2 * (MOST // 17 + 1),
            "goals": 32768, "limits": 3 * 32768}
    reply = oracle.read_rndf(rndf, room, edition) if mdf is None else oracle.read_pair(rndf, mdf, room, edition)
    if reply.accepted:
        return accepted(*(reply.used[t] for t in oracle.COUNT_ORDER if t in reply.used))
    file, *where = reply.refusal
    return (N if file == 1 else MDF, *where)


def judged(edition, rndf, mdf, name, line, number, column, words=""):
    """What the oracle's judge finds wrong with what may stand there."""
    return expecting.judge(edition, rndf, mdf, (1 if name == N else 2, line, number, column), may_stand(number, words)[1:], first=True).differs


def main():
    parser = argparse.ArgumentParser()
    parser.add_argument("--built", action="store_true")
    parser.add_argument("--oracle", action="store_true", help="run nothing: only hold the oracle to the answers worked out by hand")
    parser.add_argument("--sentences", metavar="PROGRAM", help="run this caller of the library")
    options = parser.parse_args()
    if not options.built and not options.oracle and not options.sentences:
        data = os.path.join(here, "..", "crates", "yard_check", "data")
        if subprocess.run([RUN, os.path.join(data, N), os.path.join(data, MDF)]).returncode != 1:
            return 1
    every, sentences = not_checked(), 0
    wrong = []
    then, now = older()
    present = [(case, oracle.PRESENT, []) for case in one_refusal_each() + at_each_place() + of_one_line() + of_references() + largest() + as_printed() + now]
    for (label, rndf, mdf, want), edition, option in present + [(case, oracle.DECEMBER_2006, OLDER) for case in then]:
        rndf, mdf = as_bytes(rndf), as_bytes(mdf)
        found = by_oracle(rndf, mdf, edition)
        files = {N: rndf} if mdf is None else {N: rndf, MDF: mdf}
        if isinstance(want, str):
            found += (parted(want)[1].partition(": ")[2],)
            want, where = (want, 1), found
            found = told(found[0], files[found[0]], *found[1:])
        else:
            where = want
        assert found == (want[:4] if is_refusal(want) else want), (label, found)
        if options.oracle and is_refusal(where):
            faults = judged(edition, rndf, mdf, *where)
            assert not faults, (label, faults)
        if options.oracle:
            continue
        if options.sentences:
            sentences += 1
            line = told(want[0], files[want[0]], *want[1:]) if is_refusal(want) else want
            if by_caller(options.sentences, files, edition == oracle.DECEMBER_2006) != ("accepted" if line[1] == 0 else line[0]) + "\n":
                wrong.append(label)
            continue
        every.append((label, files, option + list(files), told(want[0], files[want[0]], *want[1:]) if is_refusal(want) else want))
    if options.oracle:
        print("the oracle agrees")
        return 0
    if options.sentences:
        for label in wrong:
            print("differs: %s" % label)
        print("%d sentences, %d differ" % (sentences, len(wrong)))
        return 1 if wrong else 0
    failed = 0
    for label, files, arguments, want in every:
        got = run(files, arguments)
        if got != (want[0] + "\n", want[1]):
            failed += 1
            print("%s: %r, and not %r" % (label, got, want))
    print("%d passed, %d failed" % (len(every) - failed, failed))
    return 1 if failed else 0


if __name__ == "__main__":
    sys.exit(main())
